/* The memory of the proved functions, by malloc, realloc and free: for ARM64 and for musl. On x86-64 with glibc
 * c/liblibc_c.a of the kit does this. This code is tested by memory_test.c, and is not proved.
 *
 * The proofs assume this contract of the module `heap` in the kit's library `libc`:
 *
 * - A size n is below 2^63 and a multiple of an alignment a. The alignment divides 16. A size may be 0.
 * - Each block has an address that is a multiple of a. It is another block than any that the caller has, and it can be
 *   freed. This also holds for n = 0. The octets of a new block may have any value.
 * - rattle_realloc gets a block, never NULL, and may move it. The first `kept` octets stay as they are.
 * - If there is no memory, `ok` is 0. The address is not NULL then, and the caller does not use what is there. The
 *   block that rattle_realloc got is as it was, and still belongs to the caller.
 *
 * malloc and realloc return NULL for size 0 in some C libraries, and realloc may also free the block. So a request for 0
 * octets asks for a octets. An address is a multiple of a, since the size is one: see the rule on malloc in pigyelund.h.
 */
#include <stdint.h>
#include <stdlib.h>

/* The result in two registers. The whole first register is 0 or 1. */
typedef struct {
  uint64_t ok;
  void *at;
} tried;

tried rattle_alloc(size_t n, size_t a);
tried rattle_realloc(void *block, size_t kept, size_t n, size_t a);
void rattle_dealloc(void *block);

/* The size to ask for. */
static size_t asked(size_t n, size_t a) { return n == 0 ? a : n; }

/* The result for an address from malloc or realloc. */
static tried result(void *at) {
  static char none;
  if (at == NULL) return (tried){0, &none};
  return (tried){1, at};
}

tried rattle_alloc(size_t n, size_t a) { return result(malloc(asked(n, a))); }

tried rattle_realloc(void *block, size_t kept, size_t n, size_t a) {
  (void)kept; /* realloc keeps as many octets as both sizes have */
  return result(realloc(block, asked(n, a)));
}

void rattle_dealloc(void *block) { free(block); }
