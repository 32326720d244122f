// Refuses one growth of memory of a program, that of the number which the variable REFUSE says, counted from 1, and
// tells at the end on standard error how many there were. It goes before a program so:
//
//     cc -O2 -shared -fPIC -o refuse.so refuse.c
//     REFUSE=3 LD_PRELOAD=./refuse.so program
#include <errno.h>
#include <stdatomic.h>
#include <stdio.h>
#include <stdlib.h>
#include <sys/syscall.h>
#include <unistd.h>

extern void *__libc_malloc(size_t);
extern void *__libc_calloc(size_t, size_t);
extern void *__libc_realloc(void *, size_t);
extern void *__libc_memalign(size_t, size_t);

static atomic_long growths;
static long refused;

__attribute__((constructor)) static void begin(void) {
  const char *number = getenv("REFUSE");
  refused = number ? atol(number) : 0;
  growths = 0;
}

static _Noreturn void leave(int status) {
  for (;;) syscall(SYS_exit_group, status);
}

__attribute__((destructor)) static void end(void) {
  char line[40];
  int length = snprintf(line, sizeof line, "growths: %ld\n", (long)growths);
  if (write(2, line, length) < 0) leave(3);
}

// A program that started threads ends by this, which calls no destructor.
void _exit(int status) {
  end();
  leave(status);
}

static int is_refused(void) {
  if (++growths != refused) return 0;
  errno = ENOMEM;
  return 1;
}

void *malloc(size_t size) { return is_refused() ? NULL : __libc_malloc(size); }

void *calloc(size_t count, size_t size) { return is_refused() ? NULL : __libc_calloc(count, size); }

void *realloc(void *old, size_t size) { return is_refused() ? NULL : __libc_realloc(old, size); }

void *memalign(size_t unit, size_t size) { return is_refused() ? NULL : __libc_memalign(unit, size); }

void *aligned_alloc(size_t unit, size_t size) { return memalign(unit, size); }

int posix_memalign(void **place, size_t unit, size_t size) {
  void *made = memalign(unit, size);
  if (!made) return ENOMEM;
  *place = made;
  return 0;
}
