// Widens the gaps in which a program that saves a state file can be met half way: it sleeps before each write to a file
// whose name has ".spd" in it, and before each rename to one, for a random time up to as many milliseconds as the
// variable GAP says. It goes before a program so:
//
//     cc -O2 -shared -fPIC -o slow_files.so slow_files.c
//     GAP=30 LD_PRELOAD=./slow_files.so program
#define _GNU_SOURCE
#include <fcntl.h>
#include <stdarg.h>
#include <stdio.h>
#include <stdlib.h>
#include <string.h>
#include <sys/syscall.h>
#include <time.h>
#include <unistd.h>

static unsigned int gap, seed;
static char is_state[1024];

__attribute__((constructor)) static void begin(void) {
  const char *most = getenv("GAP");
  gap = most ? atoi(most) : 0;
  seed = getpid();
}

static void rest(void) {
  long milliseconds = rand_r(&seed) % (gap + 1);
  struct timespec time = {milliseconds / 1000, milliseconds % 1000 * 1000000};
  syscall(SYS_nanosleep, &time, NULL);
}

int open(const char *path, int flags, ...) {
  va_list words;
  va_start(words, flags);
  int mode = va_arg(words, int);
  va_end(words);
  int file = syscall(SYS_openat, AT_FDCWD, path, flags, mode);
  if (file >= 0 && file < (int)sizeof is_state) is_state[file] = strstr(path, ".spd") != NULL;
  return file;
}

ssize_t write(int file, const void *bytes, size_t size) {
  if (file >= 0 && file < (int)sizeof is_state && is_state[file]) rest();
  return syscall(SYS_write, file, bytes, size);
}

ssize_t __write(int file, const void *bytes, size_t size) { return write(file, bytes, size); }

int close(int file) {
  if (file >= 0 && file < (int)sizeof is_state) is_state[file] = 0;
  return syscall(SYS_close, file);
}

int rename(const char *from, const char *to) {
  if (strstr(to, ".spd")) rest();
  return syscall(SYS_rename, from, to);
}
