/* Makes an image of any size, and what it is compacted to.
 *
 * Usage: make_large BYTES BASE IMAGE ANSWER
 *
 * BYTES is the size of the data, and BASE their first address. After nil and the special
 * objects array come frames of 64 words, each with the same chunks: an object with a class word,
 * a dead array, an array, a byte object, a free chunk and an object with three header words. The
 * first object of a frame points to that of the next frame and to the others of its own, so that
 * all but the dead arrays are reachable. Other fields point to objects near and far, or are
 * SmallIntegers. A free chunk fills what is left after the last frame. Both files are
 * little-endian. */
#include <stdint.h>
#include <stdio.h>
#include <stdlib.h>

enum { CLASSED, DEAD, ARRAY, BYTES, FREE, LARGE, KINDS };
enum { HEADER_WORDS = 16, FIRST_WORDS = 4, NEAR = 50, FRAMES_OF_A_CLASS = 500 };

/* The words of each kind of chunk, and how many of them are header words. */
static const uint32_t lengths[KINDS] = {8, 12, 10, 12, 5, 17};
static const uint32_t headers[KINDS] = {2, 1, 1, 1, 1, 3};

/* An image that is written: its file, the address of its first data word, its frames, and
 * whether it has the dead chunks. */
typedef struct {
  FILE *file;
  uint32_t base;
  uint32_t frames;
  int is_whole;
} image;

static int has(const image *it, int kind) {
  return it->is_whole || (kind != DEAD && kind != FREE);
}

static uint32_t words_below(const image *it, int kind) {
  uint32_t words = 0;
  for (int other = 0; other < kind; other++)
    words += has(it, other) ? lengths[other] : 0;
  return words;
}

static uint32_t address(const image *it, uint32_t frame, int kind) {
  uint32_t first = FIRST_WORDS + frame * words_below(it, KINDS) + words_below(it, kind);
  return it->base + 4 * (first + headers[kind] - 1);
}

/* A number for a word of a chunk of a frame, the same in each run. */
static uint64_t mixed(uint32_t frame, int kind, uint32_t word) {
  uint64_t it = ((uint64_t)frame << 16 | (uint64_t)kind << 8 | word) + 0x9E3779B97F4A7C15u;
  it = (it ^ it >> 30) * 0xBF58476D1CE4E5B9u;
  it = (it ^ it >> 27) * 0x94D049BB133111EBu;
  return it ^ it >> 31;
}

/* A SmallInteger, or the address of an object: one in ten of these is anywhere. Live objects
 * point to live objects alone. */
static uint32_t field(const image *it, uint32_t frame, int kind, uint32_t word) {
  static const int live[] = {CLASSED, ARRAY, BYTES, LARGE, DEAD};
  uint64_t number = mixed(frame, kind, word);
  uint32_t other = (uint32_t)(number >> 32);
  if (number % 10 < 4)
    return other | 1;
  int target = live[number / 10 % (kind == DEAD ? 5 : 4)];
  if (number / 64 % 10 == 0)
    return address(it, other % it->frames, target);
  uint32_t lowest = frame < NEAR ? 0 : frame - NEAR;
  uint32_t highest = it->frames - frame <= NEAR ? it->frames - 1 : frame + NEAR;
  return address(it, lowest + other % (highest - lowest + 1), target);
}

static void put(const image *it, uint32_t word) {
  uint8_t bytes[4] = {word, word >> 8, word >> 16, word >> 24};
  if (fwrite(bytes, 1, 4, it->file) != 4) {
    perror("make_large");
    exit(1);
  }
}

/* The header words of a chunk: the size if it has three, its class if it has two or three, and the
 * base header. */
static void put_headers(const image *it, uint32_t frame, int kind) {
  static const uint32_t types[] = {0, 3, 1, 0};
  static const uint32_t formats[KINDS] = {1, 2, 2, 8, 0, 2};
  uint32_t type = types[headers[kind]], size = lengths[kind] - headers[kind] + 1;
  if (kind == FREE) {
    put(it, 4 * size | 2);
    return;
  }
  if (headers[kind] == 3)
    put(it, 4 * size | type);
  if (headers[kind] >= 2)
    put(it, address(it, frame - frame % FRAMES_OF_A_CLASS, CLASSED) | type);
  uint32_t hash = mixed(frame, kind, 0) & 0xFFF, sized = headers[kind] == 3 ? 0 : size << 2;
  put(it, hash << 17 | 3 << 12 | formats[kind] << 8 | sized | type);
}

/* What the first object of a frame points to: that of the next frame, and the live ones of its
 * own. */
static uint32_t linked(const image *it, uint32_t frame, uint32_t field) {
  static const int own[] = {ARRAY, BYTES, LARGE};
  if (field > 0)
    return address(it, frame, own[field - 1]);
  return frame + 1 < it->frames ? address(it, frame + 1, CLASSED) : 1;
}

static void put_chunk(const image *it, uint32_t frame, int kind) {
  put_headers(it, frame, kind);
  for (uint32_t word = headers[kind]; word < lengths[kind]; word++) {
    if (kind == CLASSED && word < headers[kind] + 4)
      put(it, linked(it, frame, word - headers[kind]));
    else if (kind == BYTES || kind == FREE)
      put(it, (uint32_t)mixed(frame, kind, word));
    else
      put(it, field(it, frame, kind, word));
  }
}

static void put_image(const image *it, uint32_t rest) {
  uint32_t words = FIRST_WORDS + it->frames * words_below(it, KINDS) + rest;
  uint32_t header[HEADER_WORDS] = {6502, 64, 4 * words, it->base, it->base + 4, 7, 8, 9};
  for (int word = 0; word < HEADER_WORDS; word++)
    put(it, header[word]);
  put(it, 0x1007);
  put(it, 0x320F);
  put(it, it->base);
  put(it, address(it, 0, CLASSED));
  for (uint32_t frame = 0; frame < it->frames; frame++)
    for (int kind = 0; kind < KINDS; kind++)
      if (has(it, kind))
        put_chunk(it, frame, kind);
  for (uint32_t word = 0; word < rest; word++)
    put(it, word == 0 ? 4 * rest | 2 : 0xFFFFFFFF);
}

static void make(const char *name, uint32_t base, uint32_t frames, int is_whole, uint32_t rest) {
  image it = {fopen(name, "wb"), base, frames, is_whole};
  if (it.file == NULL) {
    perror(name);
    exit(1);
  }
  setvbuf(it.file, NULL, _IOFBF, 1 << 20);
  put_image(&it, rest);
  if (fclose(it.file) != 0) {
    perror(name);
    exit(1);
  }
}

int main(int count, char **words) {
  if (count != 5) {
    fprintf(stderr, "usage: make_large BYTES BASE IMAGE ANSWER\n");
    return 2;
  }
  uint32_t data = (uint32_t)(strtoull(words[1], NULL, 0) / 4);
  uint32_t base = (uint32_t)strtoull(words[2], NULL, 0);
  image whole = {NULL, base, 0, 1};
  uint32_t frames = (data - FIRST_WORDS) / words_below(&whole, KINDS);
  uint32_t rest = (data - FIRST_WORDS) % words_below(&whole, KINDS);
  make(words[3], base, frames, 1, rest);
  make(words[4], base, frames, 0, 0);
  return 0;
}
