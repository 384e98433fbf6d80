/* What the libraries for LD_PRELOAD share. */
#define _GNU_SOURCE
#include <errno.h>
#include <fcntl.h>
#include <stdatomic.h>
#include <stdlib.h>
#include <sys/mman.h>
#include <unistd.h>

/* The number in a variable of the environment, or 0 without it. */
static inline long number(const char *name) {
  const char *text = getenv(name);
  return text ? atol(text) : 0;
}

/* Creates a file of `count` words of 64 bits, and returns them. They stay in the file, however the
 * program ends. */
static inline atomic_long *mapped_words(const char *name, size_t count) {
  int file = open(name, O_CREAT | O_TRUNC | O_RDWR, 0600);
  size_t size = count * sizeof(atomic_long);
  if (ftruncate(file, size) != 0)
    abort();
  atomic_long *words = mmap(NULL, size, PROT_READ | PROT_WRITE, MAP_SHARED, file, 0);
  if (words == MAP_FAILED)
    abort();
  close(file);
  return words;
}

/* Whether this call is one of the `most` calls from call `first` on, counted from 1. */
static inline int is_chosen(atomic_long *calls, long first, long most) {
  long call = atomic_fetch_add(calls, 1) + 1;
  return first > 0 && call >= first && call - first < most;
}
