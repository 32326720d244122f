// Lets calls of a program on its state files fail, on the files beside them, and on their folder. These are the files
// whose names have ".spd" in them, and the folder that the variable FOLDER names. It goes before a program so:
//
//     cc -O2 -shared -fPIC -o fail_files.so fail_files.c
//     FOLDER=/tmp/strokes FAIL=3 ERROR=28 LD_PRELOAD=./fail_files.so program
//
// The call of number FAIL fails, counted from 1, with the error ERROR of errno(3), and standard error is told which
// call that was. Besides, each call fails whose name stands in the file that FAILING names, for as long as it does.
#define _GNU_SOURCE
#include <dlfcn.h>
#include <errno.h>
#include <fcntl.h>
#include <stdarg.h>
#include <stdio.h>
#include <stdlib.h>
#include <string.h>
#include <sys/file.h>
#include <sys/stat.h>
#include <sys/syscall.h>
#include <unistd.h>

enum kind { OTHER, STATE, FRESH, LOCK, FOLDER };

static long calls, failing;
static int error = EIO;
static const char *folder, *failing_file;
static char kinds[1024];

__attribute__((constructor)) static void begin(void) {
  if (getenv("FAIL")) failing = atol(getenv("FAIL"));
  if (getenv("ERROR")) error = atoi(getenv("ERROR"));
  folder = getenv("FOLDER");
  failing_file = getenv("FAILING");
}

static enum kind kind_of(const char *path) {
  if (folder && strcmp(path, folder) == 0) return FOLDER;
  const char *name = strstr(path, ".spd");
  if (!name) return OTHER;
  return strstr(name, ".lock") ? LOCK : strstr(name, ".new") ? FRESH : STATE;
}

static enum kind kind_of_open(int file) { return file >= 0 && file < (int)sizeof kinds ? kinds[file] : OTHER; }

static void note(int file, enum kind kind) {
  if (file >= 0 && file < (int)sizeof kinds) kinds[file] = kind;
}

static int stands_in_file(const char *call) {
  char text[64] = "";
  int file = failing_file ? syscall(SYS_openat, AT_FDCWD, failing_file, O_RDONLY) : -1;
  if (file < 0) return 0;
  long length = syscall(SYS_read, file, text, sizeof text - 1);
  syscall(SYS_close, file);
  return length > 0 && strcmp(text, call) == 0;
}

static int fails(const char *call) {
  int is_counted = ++calls == failing;
  if (!is_counted && !stands_in_file(call)) return 0;
  char line[64];
  int length = snprintf(line, sizeof line, "failed: %s\n", call);
  if (is_counted) syscall(SYS_write, 2, line, length);
  errno = error;
  return 1;
}

static const char *name_of_open(enum kind kind, int flags) {
  if (kind == FOLDER) return "open the folder";
  if (kind == LOCK) return flags & O_CREAT ? "make the lock" : "open the lock";
  if (flags & O_CREAT) return "create";
  return flags & (O_WRONLY | O_RDWR) ? "open to write" : "open";
}

int open(const char *path, int flags, ...) {
  va_list words;
  va_start(words, flags);
  int mode = va_arg(words, int);
  va_end(words);
  enum kind kind = kind_of(path);
  if (kind && fails(name_of_open(kind, flags))) return -1;
  int file = syscall(SYS_openat, AT_FDCWD, path, flags, mode);
  note(file, kind);
  return file;
}

int close(int file) {
  int is_failed = kind_of_open(file) && fails("close");
  note(file, OTHER);
  int closed = syscall(SYS_close, file);
  if (is_failed) errno = error;
  return is_failed ? -1 : closed;
}

ssize_t read(int file, void *bytes, size_t size) {
  if (kind_of_open(file) && fails("read")) return -1;
  return syscall(SYS_read, file, bytes, size);
}

ssize_t write(int file, const void *bytes, size_t size) {
  if (kind_of_open(file) && fails("write")) return -1;
  return syscall(SYS_write, file, bytes, size);
}

ssize_t __write(int file, const void *bytes, size_t size) { return write(file, bytes, size); }

int fsync(int file) {
  enum kind kind = kind_of_open(file);
  if (kind && fails(kind == FOLDER ? "sync the folder" : "sync")) return -1;
  return syscall(SYS_fsync, file);
}

int flock(int file, int how) {
  if (kind_of_open(file) && fails("lock")) return -1;
  return syscall(SYS_flock, file, how);
}

int fchmod(int file, mode_t mode) {
  if (kind_of_open(file) && fails("give the mode")) return -1;
  return syscall(SYS_fchmod, file, mode);
}

int fchown(int file, uid_t owner, gid_t group) {
  if (kind_of_open(file) && fails("give the owner")) return -1;
  return syscall(SYS_fchown, file, owner, group);
}

int chown(const char *path, uid_t owner, gid_t group) {
  if (kind_of(path) && fails("give the owner")) return -1;
  return syscall(SYS_fchownat, AT_FDCWD, path, owner, group, 0);
}

int statx(int file, const char *path, int flags, unsigned int mask, struct statx *found) {
  enum kind kind = *path ? kind_of(path) : kind_of_open(file);
  if (kind && fails("look at it")) return -1;
  return syscall(SYS_statx, file, path, flags, mask, found);
}

char *realpath(const char *path, char *resolved) {
  char *(*next)(const char *, char *) = (char *(*)(const char *, char *))dlsym(RTLD_NEXT, "realpath");
  if (kind_of(path) && fails("follow links")) return NULL;
  return next(path, resolved);
}

int rename(const char *from, const char *to) {
  if (kind_of(to) && fails("rename")) return -1;
  return syscall(SYS_rename, from, to);
}

int unlink(const char *path) {
  if (kind_of(path) && fails("remove")) return -1;
  return syscall(SYS_unlink, path);
}
