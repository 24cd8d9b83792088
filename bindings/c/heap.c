/* SPDX-License-Identifier: MIT OR Apache-2.0 */
/* The three functions by which libsmmuq takes memory, over malloc, realloc and free: include/smmuq_memory.h says what
 * they owe. For x86-64 the toolchain has the same in its liblibc_c.a; this is for the processors for which it has none
 * (tools/make-c-library). malloc aligns to 16, which is the most that is asked for, and threads may call it. */
#include "smmuq_memory.h"

#include <stdlib.h>

/* What `at` points to where there is no block. */
static char nothing[16];

static rattle_block block_at(void *at) {
    return at ? (rattle_block){true, at} : (rattle_block){false, nothing};
}

/* For no bytes malloc may answer null, which would look like a refusal. */
rattle_block rattle_alloc(size_t size, size_t alignment) {
    return block_at(malloc(size ? size : alignment));
}

rattle_block rattle_realloc(void *at, size_t kept, size_t size, size_t alignment) {
    (void)kept;
    return block_at(realloc(at, size ? size : alignment));
}

void rattle_dealloc(void *at) {
    free(at);
}
