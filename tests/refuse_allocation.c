/* A library to load before a program (LD_PRELOAD): it counts what the program asks of malloc, calloc, realloc and
   their like, and refuses one of these calls, as if there were no memory.

   REFUSE        the number of the call to be refused, from 1; none is refused without it
   REFUSE_ON     where it is set, the calls behind that one are refused too
   REFUSE_COUNTS a file of at least 16 bytes, to whose beginning the numbers of calls and of refusals are written as
                 they rise, so that they are there whatever ends the program

   Calls of the loader, before this library's constructor ran, are not counted. */
#include <errno.h>
#include <fcntl.h>
#include <stddef.h>
#include <stdint.h>
#include <stdlib.h>
#include <sys/mman.h>
#include <unistd.h>

extern void *__libc_malloc(size_t);
extern void *__libc_calloc(size_t, size_t);
extern void *__libc_realloc(void *, size_t);
extern void *__libc_memalign(size_t, size_t);

static uint64_t unshared[2], *counts = unshared, number;
static int begun, on;

__attribute__((constructor)) static void begin(void) {
  const char *name = getenv("REFUSE_COUNTS"), *wanted = getenv("REFUSE");
  if (name) {
    int file = open(name, O_RDWR);
    void *shared = file < 0 ? MAP_FAILED : mmap(NULL, 16, PROT_READ | PROT_WRITE, MAP_SHARED, file, 0);
    if (shared == MAP_FAILED) _exit(99);
    close(file);
    counts = shared;
  }
  number = wanted ? strtoull(wanted, NULL, 10) : 0;
  on = getenv("REFUSE_ON") != NULL;
  begun = 1;
}

/* Counts a call; whether it is refused. */
static int refused(void) {
  if (!begun) return 0;
  uint64_t call = __atomic_add_fetch(&counts[0], 1, __ATOMIC_SEQ_CST);
  if (!number || (on ? call < number : call != number)) return 0;
  __atomic_add_fetch(&counts[1], 1, __ATOMIC_SEQ_CST);
  errno = ENOMEM;
  return 1;
}

void *malloc(size_t size) { return refused() ? NULL : __libc_malloc(size); }
void *calloc(size_t count, size_t size) { return refused() ? NULL : __libc_calloc(count, size); }
void *realloc(void *old, size_t size) { return refused() ? NULL : __libc_realloc(old, size); }
void *memalign(size_t to, size_t size) { return refused() ? NULL : __libc_memalign(to, size); }
void *aligned_alloc(size_t to, size_t size) { return refused() ? NULL : __libc_memalign(to, size); }

int posix_memalign(void **result, size_t to, size_t size) {
  void *made = refused() ? NULL : __libc_memalign(to, size);
  if (!made) return ENOMEM;
  *result = made;
  return 0;
}
