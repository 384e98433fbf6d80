/* Fails MOST_FAILED allocations of a program (1 if it is not set), from allocation FIRST_FAILED
 * on, counted from 1. The file `failures` has their number, in one word.
 *
 * The file `callers` has a line for each caller of the first of them, the innermost first: the
 * file that the caller was loaded from, the address after the call, counted from where that file
 * was loaded, and the caller's name, or `-` if it is not exported. */
#include "preload.h"
#include <dlfcn.h>
#include <execinfo.h>
#include <stdio.h>

enum { MOST_CALLERS = 16 };

extern void *__libc_malloc(size_t size);
extern void *__libc_calloc(size_t count, size_t size);
extern void *__libc_realloc(void *block, size_t size);
extern void *__libc_memalign(size_t alignment, size_t size);

/* Until the program begins, no allocation fails. */
static atomic_long *failures;
static atomic_long requests;
static long first;
static long most;

/* Allocations of the loader and of the first backtrace are not counted. */
__attribute__((constructor)) static void begin(void) {
  void *caller;
  backtrace(&caller, 1);
  first = number("FIRST_FAILED");
  most = getenv("MOST_FAILED") ? number("MOST_FAILED") : 1;
  failures = mapped_words("failures", 1);
  atomic_store(&requests, 0);
}

static void write_callers(void) {
  int file = open("callers", O_CREAT | O_TRUNC | O_WRONLY, 0600);
  void *callers[MOST_CALLERS];
  int count = backtrace(callers, MOST_CALLERS);
  for (int at = 0; at < count; at++) {
    Dl_info found;
    if (dladdr(callers[at], &found)) {
      unsigned long distance = (char *)callers[at] - (char *)found.dli_fbase;
      const char *name = found.dli_sname ? found.dli_sname : "-";
      dprintf(file, "%s %lx %s\n", found.dli_fname, distance, name);
    }
  }
  close(file);
}

static int fails(void) {
  if (failures == NULL || !is_chosen(&requests, first, most))
    return 0;
  if (atomic_fetch_add(failures, 1) == 0)
    write_callers();
  errno = ENOMEM;
  return 1;
}

void *malloc(size_t size) {
  return fails() ? NULL : __libc_malloc(size);
}

void *calloc(size_t count, size_t size) {
  return fails() ? NULL : __libc_calloc(count, size);
}

void *realloc(void *block, size_t size) {
  return fails() ? NULL : __libc_realloc(block, size);
}

void *aligned_alloc(size_t alignment, size_t size) {
  return fails() ? NULL : __libc_memalign(alignment, size);
}

int posix_memalign(void **block, size_t alignment, size_t size) {
  void *made = aligned_alloc(alignment, size);
  if (made == NULL)
    return ENOMEM;
  *block = made;
  return 0;
}
