/* Tests memory.c beside the rules of malloc: the alignment and the octets of blocks, size 0, sizes that no system has,
 * blocks that realloc moves or leaves in place, and refusals. The program is linked with --wrap=malloc,--wrap=realloc,
 * --wrap=free: each allocation of memory.c calls a function of this file, which obeys one of the ways below. */
#include <stdint.h>
#include <stdio.h>
#include <stdlib.h>
#include <string.h>

/* The result as the library's code takes it: two whole registers. */
typedef struct {
  uint64_t ok, at;
} tried;

tried rattle_alloc(size_t n, size_t a);
tried rattle_realloc(void *block, size_t kept, size_t n, size_t a);
void rattle_dealloc(void *block);

void *__real_malloc(size_t n);
void *__real_realloc(void *block, size_t n);
void __real_free(void *block);
void *__wrap_malloc(size_t n);
void *__wrap_realloc(void *block, size_t n);
void __wrap_free(void *block);

/* Who answers: the C library; this file, and its realloc moves each block or none; or nobody. */
typedef enum { OF_SYSTEM, MOVES, STAYS, REFUSES } way;

enum { BLOCKS = 64, SPARE = 8192, WIDEST = 16, MARK = 0x5a, STEPS = 300000 };

/* A block that malloc or realloc returned. `made` is NULL if it is one of the C library. */
typedef struct {
  uint8_t *at, *made;
  size_t size;
} block;

static way now;
static block live[2 * BLOCKS];
static size_t count;
static unsigned calls, faults;

static void expect(int is_so, const char *what, size_t n, size_t a) {
  if (is_so) return;
  if (faults++ < 20) printf("memory.c: %s: size %zu, alignment %zu, way %d\n", what, n, a, (int)now);
}

static block *block_at(const void *at) {
  for (size_t i = 0; i < count; i++)
    if (live[i].at == at) return live + i;
  return NULL;
}

/* The greatest power of two that divides n, and is at most WIDEST. */
static size_t rule(size_t n) {
  size_t power = WIDEST;
  while (n % power) power /= 2;
  return power;
}

/* Makes a block. Its address is a multiple of no greater number than the rule in pigyelund.h demands. */
static void *made_here(size_t n) {
  uint8_t *made, *at;
  if (n == 0 || n > SPARE) return NULL;
  made = (uint8_t *)__real_malloc(n + SPARE + 4 * WIDEST);
  if (!made) exit(2);
  memset(made, MARK, n + SPARE + 4 * WIDEST);
  at = made + (2 * WIDEST - (uintptr_t)made % (2 * WIDEST)) + rule(n);
  live[count++] = (block){at, made, n};
  return at;
}

void *__wrap_malloc(size_t n) {
  void *at;
  if (now == REFUSES) return NULL;
  if (now != OF_SYSTEM) return made_here(n);
  at = __real_malloc(n);
  if (at) live[count++] = (block){(uint8_t *)at, NULL, n};
  return at;
}

/* As in glibc, realloc to 0 octets frees the block. */
void *__wrap_realloc(void *at, size_t n) {
  block *found = block_at(at);
  void *next;
  expect(found != NULL, "realloc gets no block", n, 0);
  if (now == REFUSES || !found) return NULL;
  if (n == 0) {
    __wrap_free(at);
    return NULL;
  }
  if (!found->made) {
    next = __real_realloc(at, n);
    if (next) *found = (block){(uint8_t *)next, NULL, n};
    return next;
  }
  if (n > SPARE) return NULL;
  if (now == STAYS && (uintptr_t)at % rule(n) == 0) {
    found->size = n;
    return at;
  }
  next = made_here(n);
  found = block_at(at);
  memcpy(next, at, found->size < n ? found->size : n);
  __wrap_free(at);
  return next;
}

void __wrap_free(void *at) {
  block *found = block_at(at);
  expect(found != NULL, "free gets no block", 0, 0);
  if (!found) return;
  if (found->made) memset(found->at, MARK, found->size);
  __real_free(found->made ? found->made : found->at);
  *found = live[--count];
}

/* ---- the caller */

/* A block of the caller. Octet i is seed + i. */
typedef struct {
  uint8_t *at, seed;
  size_t size, align;
} own;

static void fill(own *it) {
  for (size_t i = 0; i < it->size; i++) it->at[i] = (uint8_t)(it->seed + i);
}

static int is_kept(const own *it, size_t kept) {
  for (size_t i = 0; i < kept; i++)
    if (it->at[i] != (uint8_t)(it->seed + i)) return 0;
  return 1;
}

/* Checks a result. Returns whether there is a block. */
static int is_made(tried found, size_t n, size_t a) {
  calls++;
  expect(found.ok <= 1, "the flag is neither 0 nor 1", n, a);
  expect(found.at != 0, "an address is NULL", n, a);
  if (!found.ok) {
    expect(!block_at((void *)(uintptr_t)found.at), "a refusal has a block", n, a);
    return 0;
  }
  expect(found.at % a == 0, "a wrong alignment", n, a);
  expect(block_at((void *)(uintptr_t)found.at) && block_at((void *)(uintptr_t)found.at)->size >= n, "no such block", n,
         a);
  return 1;
}

/* Asks for a block. It must be there if `is_owed`, and must not be there if the way is REFUSES. */
static int take(own *it, size_t n, size_t a, int is_owed) {
  tried found = rattle_alloc(n, a);
  int is_there = is_made(found, n, a);
  expect(is_there == is_owed, "alloc", n, a);
  if (!is_there) return 0;
  *it = (own){(uint8_t *)(uintptr_t)found.at, (uint8_t)(calls * 7), n, a};
  fill(it);
  return 1;
}

static void change(own *it, size_t n, int is_owed) {
  size_t kept = n < it->size ? n : it->size;
  tried found = rattle_realloc(it->at, kept, n, it->align);
  int is_there = is_made(found, n, it->align);
  expect(is_there == is_owed, "realloc", n, it->align);
  if (is_there) {
    it->at = (uint8_t *)(uintptr_t)found.at;
    it->size = n;
  } else {
    expect(block_at(it->at) != NULL, "a refused realloc frees", n, it->align);
    kept = it->size;
  }
  expect(is_kept(it, kept), "realloc changes octets", n, it->align);
  fill(it);
}

static void drop(own *it) {
  expect(is_kept(it, it->size), "octets of a block change", it->size, it->align);
  rattle_dealloc(it->at);
  expect(!block_at(it->at), "dealloc frees nothing", it->size, it->align);
  *it = (own){0, 0, 0, 0};
}

/* Each pair of sizes for each alignment, with a refusal after each step. */
static void ask_sizes(way how) {
  static const size_t sizes[] = {0, 1, 2, 3, 5, 8, 64, 255, 511};
  enum { SIZES = sizeof sizes / sizeof *sizes };
  for (size_t a = 1; a <= WIDEST; a *= 2)
    for (size_t from = 0; from < SIZES; from++)
      for (size_t to = 0; to < SIZES; to++) {
        own it = {0, 0, 0, 0}, other = {0, 0, 0, 0};
        now = how;
        if (!take(&it, sizes[from] * a, a, 1) || !take(&other, 0, a, 1)) continue;
        expect(it.at != other.at, "one address twice", it.size, a);
        now = REFUSES;
        change(&it, sizes[to] * a, 0);
        take(&(own){0, 0, 0, 0}, sizes[to] * a, a, 0);
        now = how;
        change(&it, sizes[to] * a, 1);
        change(&other, sizes[to] * a, 1);
        drop(&it);
        drop(&other);
      }
}

/* Sizes that no system has: a block stays as it was. */
static void ask_huge(void) {
  own it = {0, 0, 0, 0};
  now = OF_SYSTEM;
  if (!take(&it, 48, WIDEST, 1)) return;
  for (int bits = 62; bits <= 63; bits++) {
    size_t n = ((size_t)1 << bits) - WIDEST;
    expect(!is_made(rattle_alloc(n, WIDEST), n, WIDEST), "a block of this size", n, WIDEST);
    change(&it, n, 0);
  }
  drop(&it);
}

/* Returns a number below `below`. */
static unsigned any(unsigned below) {
  static uint64_t state = 1;
  state = state * 6364136223846793005u + 1442695040888963407u;
  return (unsigned)(state >> 33) % below;
}

/* Calls in any order, on BLOCKS blocks. One of eight is refused. */
static void ask_random(way how) {
  static own all[BLOCKS];
  for (unsigned step = 0; step < STEPS; step++) {
    own *it = all + any(BLOCKS);
    int is_owed = any(8) != 0;
    size_t a = it->at ? it->align : (size_t)1 << any(5), n = any(3) ? any(32) * a : any(400) * a;
    now = is_owed ? how : REFUSES;
    if (!it->at) {
      take(it, n, a, is_owed);
    } else if (any(3)) {
      change(it, n, is_owed);
    } else {
      drop(it);
    }
  }
  now = how;
  for (unsigned i = 0; i < BLOCKS; i++)
    if (all[i].at) drop(all + i);
  expect(count == 0, "blocks are left", count, 0);
}

int main(void) {
  for (int how = OF_SYSTEM; how < REFUSES; how++) {
    ask_sizes((way)how);
    ask_random((way)how);
  }
  ask_huge();
  expect(count == 0, "blocks are left", count, 0);
  printf("C: memory: %u calls, %u faults\n", calls, faults);
  return faults || !calls;
}
