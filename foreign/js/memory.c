/* The memory of the WebAssembly module: malloc, realloc and free on its linear memory. This code is tested, and is not
 * proved.
 *
 * The heap is a row of blocks from the end of the module's data to `end`. A block is a header and its octets, and its
 * address and its size are multiples of 16. `before` is the size of the block in front of it. The last header of the
 * heap has size 0. No two free blocks are neighbours: free joins them.
 *
 * A free block is in the list of its bin. Below 1024 octets a bin has one size. Above, eight bins are between two
 * powers of 2. `filled` has a bit for each bin that is not empty. A search tries the blocks of its own bin, and then
 * takes the first block of the next bin that is not empty.
 *
 * A block in use is split if the rest has at least 32 octets. realloc first takes the free block behind its block, or
 * grows the heap if no other block is there. malloc of 0 octets returns a block.
 *
 * test/memory.c compiles this file for another machine, with its own `base`, `pages` and `grow_pages`. */
#include <stddef.h>
#include <stdint.h>

enum { HEADER = 16, LEAST = 32, PAGE = 65536, AHEAD = 16, WORDS = 8 };

/* A block: its header, and in a free block the two neighbours in the list of its bin. */
typedef struct block {
  size_t before;
  size_t size; /* with the header; plus FREE */
  struct block *next;
  struct block **link; /* what points to this block in its list */
} block;

static const size_t FREE = 1;
/* No block has more octets, so that no sum of sizes overflows. */
static const size_t MOST = (size_t)1 << 46;

static block *bins[64 * WORDS];
static uint64_t filled[WORDS];
static block *end; /* the last header; NULL before the first call */

#ifdef __wasm__
extern unsigned char __heap_base;
#define base() ((uintptr_t)&__heap_base)
#define pages() __builtin_wasm_memory_size(0)
#define grow_pages(count) __builtin_wasm_memory_grow(0, count)
#endif

static size_t size_of(const block *it) { return it->size & ~FREE; }

static block *after(const block *it) { return (block *)((char *)it + size_of(it)); }

/* Returns the bin of the blocks of a size. Sizes are multiples of 16, from 32. */
static unsigned bin_of(size_t size) {
  size_t units = size / 16;
  if (units < 64) return (unsigned)units;
  unsigned power = 63 - (unsigned)__builtin_clzll(units);
  return 64 + (power - 6) * 8 + (unsigned)(units >> (power - 3) & 7);
}

static void take(block *it) {
  unsigned bin = bin_of(size_of(it));
  *it->link = it->next;
  if (it->next) it->next->link = it->link;
  if (!bins[bin]) filled[bin / 64] &= ~((uint64_t)1 << bin % 64);
  it->size = size_of(it);
}

/* Makes a block of this size, which no list has, free. It joins the free blocks beside it. */
static void give(block *it, size_t size) {
  block *behind = (block *)((char *)it + size);
  if (behind->size & FREE) take(behind), size += behind->size;
  block *front = (block *)((char *)it - it->before);
  if (it->before && front->size & FREE) take(front), size += front->size, it = front;
  unsigned bin = bin_of(size);
  it->size = size | FREE;
  after(it)->before = size;
  it->link = &bins[bin];
  it->next = bins[bin];
  if (it->next) it->next->link = &it->next;
  bins[bin] = it;
  filled[bin / 64] |= (uint64_t)1 << bin % 64;
}

/* Cuts a block in use to a size, if what is left over can be a block. */
static void cut(block *it, size_t size) {
  size_t left = it->size - size;
  if (left < LEAST) return;
  it->size = size;
  block *rest = after(it);
  rest->before = size;
  give(rest, left);
}

/* Returns a free block of at least this size, or NULL. */
static block *found(size_t size) {
  unsigned bin = bin_of(size);
  for (block *it = bins[bin]; it; it = it->next)
    if (it->size >= size) return it;
  bin += 1;
  uint64_t rest = filled[bin / 64] >> bin % 64 << bin % 64;
  for (unsigned word = bin / 64; word < WORDS; rest = ++word < WORDS ? filled[word] : 0)
    if (rest) return bins[word * 64 + (unsigned)__builtin_ctzll(rest)];
  return NULL;
}

/* Adds all memory behind the heap to it, which the host may have grown too. */
static void stretch(void) {
  block *last = (block *)(pages() * PAGE - HEADER);
  if (!end) {
    end = (block *)((base() + 15) / 16 * 16);
    end->before = 0;
  }
  if (last < end + 1) return;
  block *it = end;
  end = last;
  end->size = 0;
  give(it, (size_t)((char *)end - (char *)it));
}

/* Grows the heap by at least this size at its end. Returns whether it could. A host, or a module whose addresses were
 * made 32 bits wide, may return a wrong number of pages, so only the new size counts. */
static int grow(size_t size) {
  size_t count = size / PAGE + 1, wanted = pages() + count;
  if (count < AHEAD) grow_pages(AHEAD);
  if (pages() < wanted) grow_pages(wanted - pages());
  int has_grown = pages() >= wanted;
  stretch();
  return has_grown;
}

/* Returns the size of a block for so many octets, or 0 if there are too many. */
static size_t size_for(size_t count) {
  return count > MOST ? 0 : count < LEAST - HEADER ? LEAST : (count + HEADER + 15) / 16 * 16;
}

void *malloc(size_t count) {
  size_t size = size_for(count);
  if (!size) return NULL;
  if (!end) stretch();
  block *it = found(size);
  if (!it && grow(size)) it = found(size);
  if (!it) return NULL;
  take(it);
  cut(it, size);
  return (char *)it + HEADER;
}

void free(void *address) {
  if (!address) return;
  block *it = (block *)((char *)address - HEADER);
  give(it, it->size);
}

/* Adds the free block behind a block to it, if the two have at least this size. */
static int is_joined(block *it, size_t size) {
  block *behind = after(it);
  if (!(behind->size & FREE) || it->size + size_of(behind) < size) return 0;
  take(behind);
  it->size += behind->size;
  after(it)->before = it->size;
  return 1;
}

/* Returns whether the heap has no block in use behind this one. */
static int is_last(const block *it) {
  const block *behind = after(it);
  return behind == end || (behind->size & FREE && after(behind) == end);
}

void *realloc(void *address, size_t count) {
  if (!address) return malloc(count);
  block *it = (block *)((char *)address - HEADER);
  size_t size = size_for(count);
  if (!size) return NULL;
  if (it->size >= size || is_joined(it, size) || (is_last(it) && grow(size - it->size) && is_joined(it, size))) {
    cut(it, size);
    return address;
  }
  void *other = malloc(count);
  if (!other) return NULL;
  __builtin_memcpy(other, address, it->size - HEADER);
  free(address);
  return other;
}
