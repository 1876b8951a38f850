/* Preloaded before a program, this refuses one request for memory: the one whose number, from 0, stands in REFUSE.
 * Where REFUSE_ON is set too, every later one is refused as well. A byte is written to descriptor 3 at each refusal.
 * cc -shared -fPIC -o refuse.so refuse.c && REFUSE=7 LD_PRELOAD=./refuse.so PROGRAM 3>refused */
#include <errno.h>
#include <stddef.h>
#include <stdlib.h>
#include <unistd.h>

/* The C library's own, by the names under which glibc has them beside those below. */
extern void *__libc_malloc(size_t size);
extern void *__libc_calloc(size_t count, size_t size);
extern void *__libc_realloc(void *block, size_t size);
extern void *__libc_memalign(size_t alignment, size_t size);

/* Whether the request at hand is refused. */
static int refused(void) {
  static long requests;
  const long number = __atomic_fetch_add(&requests, 1, __ATOMIC_SEQ_CST);
  const char *first = getenv("REFUSE");
  if (!first || number < atol(first) || (number > atol(first) && !getenv("REFUSE_ON"))) return 0;
  if (write(3, "r", 1) != 1) abort();
  errno = ENOMEM;
  return 1;
}

void *malloc(size_t size) { return refused() ? NULL : __libc_malloc(size); }

void *calloc(size_t count, size_t size) { return refused() ? NULL : __libc_calloc(count, size); }

void *realloc(void *block, size_t size) { return refused() ? NULL : __libc_realloc(block, size); }

void *aligned_alloc(size_t alignment, size_t size) { return refused() ? NULL : __libc_memalign(alignment, size); }

void *memalign(size_t alignment, size_t size) { return refused() ? NULL : __libc_memalign(alignment, size); }

int posix_memalign(void **block, size_t alignment, size_t size) {
  if (refused()) return ENOMEM;
  *block = __libc_memalign(alignment, size);
  return *block ? 0 : ENOMEM;
}
