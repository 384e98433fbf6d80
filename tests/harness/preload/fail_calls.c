/* Counts the reads and the writes of a program, in two words of the file `counted`.
 *
 * FAILED_READ or FAILED_WRITE has the number of the call that fails, counted from 1, with the
 * error FAILED_ERROR. The file `failed` is then created. If MOST_BYTES is set, a call transfers
 * at most that number of bytes. */
#include "preload.h"
#include <sys/syscall.h>

enum { READS, WRITES, COUNTS };

static atomic_long *counted;
static long failed[COUNTS];
static size_t most_bytes;

/* Calls that the loader makes before the program begins are not counted. */
__attribute__((constructor)) static void begin(void) {
  failed[READS] = number("FAILED_READ");
  failed[WRITES] = number("FAILED_WRITE");
  most_bytes = (size_t)number("MOST_BYTES");
  counted = mapped_words("counted", COUNTS);
}

static int fails(int kind) {
  if (!is_chosen(&counted[kind], failed[kind], 1))
    return 0;
  close(open("failed", O_CREAT | O_WRONLY, 0600));
  errno = (int)number("FAILED_ERROR");
  return 1;
}

static size_t at_most(size_t count) {
  return most_bytes > 0 && count > most_bytes ? most_bytes : count;
}

ssize_t read(int file, void *into, size_t count) {
  return fails(READS) ? -1 : syscall(SYS_read, file, into, at_most(count));
}

ssize_t write(int file, const void *from, size_t count) {
  return fails(WRITES) ? -1 : syscall(SYS_write, file, from, at_most(count));
}
