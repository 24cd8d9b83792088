/* SPDX-License-Identifier: MIT OR Apache-2.0 */
/* smmuq_memory.h: the three functions by which libsmmuq takes memory, for a host that defines them
 * itself, as a kernel. The library of `make-c-library --kernel` has none of them; every other
 * library has all three, over malloc, realloc and free: for x86-64 the toolchain's, for aarch64
 * bindings/c/heap.c.
 *
 * What the proofs take for granted of them, and nothing checks:
 *   - a block has `size` bytes, begins at a multiple of `alignment`, and is the library's alone until
 *     it is given back by rattle_dealloc, or rattle_realloc has moved it. Its bytes may be anything;
 *   - `alignment` is 1, 2, 4, 8 or 16, and `size` is below 2^63. It may be 0, and that block is given
 *     back as any other;
 *   - `at` is never null, whatever `ok` says and whatever the size is;
 *   - either of the first two may be refused, at any time: then `ok` is false, and nobody reads or
 *     frees what `at` points to. Each call that takes memory has a status for it;
 *   - any thread may call them, several at once, and one may free what another took. Whoever gets a
 *     block sees all that was done with it before it was freed, as with malloc: a lock does that;
 *   - they don't call the library, nor return in another way than by returning.
 *
 * They are called by the thread that calls the library, inside that call: a call that takes or frees
 * memory (docs/C.md says which) may sleep where they may. */
#ifndef SMMUQ_MEMORY_H
#define SMMUQ_MEMORY_H

#include <stdbool.h>
#include <stddef.h>

#ifdef __cplusplus
extern "C" {
#endif

/* What came of it: whether there is a block, and where. */
typedef struct rattle_block {
    bool ok;
    void *at;
} rattle_block;

/* A new block of `size` bytes. */
rattle_block rattle_alloc(size_t size, size_t alignment);

/* A block of `size` bytes for the one at `at`, whose first `kept` bytes are as they were: `kept` is
 * at most the size of each. It may be the same one, and else that one is given back. If it is
 * refused, the block at `at` is as it was, and still the library's. `alignment` is what it was. */
rattle_block rattle_realloc(void *at, size_t kept, size_t size, size_t alignment);

/* Gives back a block. It can't fail. */
void rattle_dealloc(void *at);

#ifdef __cplusplus
}
#endif

#endif
