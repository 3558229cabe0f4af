/* Tests of ../memory.c on this machine, on pages of an array in place of the memory of a WebAssembly module: a million
 * random calls beside a model, and the sizes at the limits. After each of the first calls and then after each 64th all
 * blocks and all lists are checked. The status is 1 if a test fails.
 *
 *   cc -O2 -fsanitize=address,undefined memory.c -o memory && ./memory */
#include <stdint.h>
#include <stdio.h>
#include <stdlib.h>
#include <string.h>

#define ROOM (1 << 26)
static _Alignas(65536) unsigned char heap[ROOM];
static size_t page_count = 1, most = ROOM / 65536;
static int lies; /* the number of pages that grow returns is wrong, as in a module of 32 bits */

static uintptr_t base(void) { return (uintptr_t)heap + 24; }
static size_t pages(void) { return (uintptr_t)heap / 65536 + page_count; }
static size_t grow_pages(size_t count) {
  size_t before = page_count;
  if (count > most - page_count) return lies ? 0xffffffff : (size_t)-1;
  page_count += count;
  return before;
}

#define malloc heap_malloc
#define realloc heap_realloc
#define free heap_free
#include "../memory.c"
#undef malloc
#undef realloc
#undef free

static int failed;
#define EXPECT(is) ((is) ? 0 : (failed = 1, printf("FAILED  line %d: %s\n", __LINE__, #is)))

/* Returns the number of free octets, after a look at each block and each list. */
static size_t checked(void) {
  size_t before = 0, sum = 0, listed = 0;
  int was_free = 0;
  block *it = (block *)((base() + 15) / 16 * 16);
  for (; it != end; it = after(it)) {
    int is_free = (it->size & FREE) != 0;
    EXPECT(it->before == before && size_of(it) % 16 == 0 && size_of(it) >= LEAST && !(is_free && was_free));
    if (is_free) sum += size_of(it);
    before = size_of(it);
    was_free = is_free;
  }
  EXPECT(end->before == before && end->size == 0);
  for (unsigned bin = 0; bin < 64 * WORDS; bin++) {
    EXPECT(!bins[bin] == !(filled[bin / 64] >> bin % 64 & 1));
    for (block *at = bins[bin], **link = &bins[bin]; at; link = &at->next, at = at->next) {
      EXPECT(at->link == link && at->size & FREE && bin_of(size_of(at)) == bin);
      listed += size_of(at);
    }
  }
  EXPECT(listed == sum);
  return sum;
}

/* A block of the model. Each of its octets has the number `mark`. */
enum { COUNT = 512 };
static struct {
  unsigned char *at;
  size_t size;
  unsigned char mark;
} model[COUNT];

static uint64_t state = 1;
static uint64_t random_below(uint64_t limit) {
  state = state * 6364136223846793005u + 1442695040888963407u;
  return (state >> 33) % limit;
}

/* Sizes of all magnitudes: small ones often, 0 too. */
static size_t random_size(void) { return random_below((uint64_t)1 << random_below(17)); }

static int has_marks(int index, size_t count) {
  for (size_t at = 0; at < count; at++)
    if (model[index].at[at] != model[index].mark) return 0;
  return 1;
}

static void mark(int index) {
  model[index].mark = (unsigned char)random_below(256);
  memset(model[index].at, model[index].mark, model[index].size);
}

static void random_call(void) {
  int index = (int)random_below(COUNT);
  size_t size = random_size();
  if (model[index].at == NULL) {
    unsigned char *at = heap_malloc(size);
    if (!at) return;
    model[index].at = at;
    model[index].size = size;
  } else if (random_below(2)) {
    EXPECT(has_marks(index, model[index].size));
    heap_free(model[index].at);
    model[index].at = NULL;
    return;
  } else {
    unsigned char *at = heap_realloc(model[index].at, size);
    if (at) model[index].at = at;
    EXPECT(has_marks(index, at && size < model[index].size ? size : model[index].size));
    if (!at) return;
    model[index].size = size;
  }
  EXPECT((uintptr_t)model[index].at % 16 == 0);
  EXPECT(model[index].at >= heap && model[index].at + size <= heap + page_count * 65536);
  mark(index);
}

/* Frees all blocks of the model. One free block is left then. */
static void end_model(void) {
  for (int index = 0; index < COUNT; index++) {
    EXPECT(model[index].at == NULL || has_marks(index, model[index].size));
    heap_free(model[index].at);
    model[index].at = NULL;
  }
  EXPECT(checked() == (size_t)((char *)end - (char *)((base() + 15) / 16 * 16)));
}

static void at_limits(void) {
  for (lies = 0; lies < 2; lies++) {
    size_t sizes[] = {(size_t)1 << 63, ((size_t)1 << 63) - 1, SIZE_MAX, SIZE_MAX - 15, SIZE_MAX - 31, MOST + 1, MOST,
                      ROOM};
    for (size_t at = 0; at < sizeof sizes / sizeof *sizes; at++) {
      unsigned char *held = heap_malloc(100);
      memset(held, 7, 100);
      EXPECT(heap_malloc(sizes[at]) == NULL && heap_realloc(held, sizes[at]) == NULL && held[0] == 7 && held[99] == 7);
      heap_free(held);
    }
  }
  lies = 0;
  heap_free(NULL);
  void *none = heap_malloc(0), *other = heap_realloc(NULL, 0);
  EXPECT(none && other && none != other);
  other = heap_realloc(other, 0);
  EXPECT(other != NULL);
  heap_free(none);
  heap_free(other);
  checked();
}

/* realloc keeps the address if the block behind is free, if the block is the last one, and for a smaller size. */
static void in_place(void) {
  unsigned char *a = heap_malloc(1000), *b = heap_malloc(1000), *c = heap_malloc(1000);
  memset(a, 1, 1000);
  heap_free(b);
  EXPECT(heap_realloc(a, 1800) == a && heap_realloc(a, 500) == a);
  size_t before = page_count;
  EXPECT(heap_realloc(c, 4000000) == c && page_count > before);
  EXPECT(heap_malloc(1000) == a + 528); /* 500 octets and a header */
  b = heap_realloc(a, 1200);
  EXPECT(b != a && b[0] == 1 && b[499] == 1);
  heap_free(b);
  heap_free(c);
}

int main(void) {
  at_limits();
  in_place();
  memset(bins, 0, sizeof bins), memset(filled, 0, sizeof filled), end = NULL;
  most = 80; /* 5 MiB, so that calls fail too */
  page_count = 1;
  for (int round = 0; round < 4; round++) {
    for (int call = 0; call < 250000; call++) {
      random_call();
      if (call < 2000 || call % 64 == 0) checked();
    }
    end_model();
  }
  EXPECT(page_count <= most);
  puts(failed ? "memory: failed" : "memory: 1000000 calls, 0 faults");
  return failed;
}
