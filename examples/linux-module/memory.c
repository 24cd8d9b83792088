// SPDX-License-Identifier: MIT OR Apache-2.0
/*
 * The three functions by which libsmmuq takes memory, in a Linux module: smmuq_memory.h says what they owe.
 *
 * GFP_KERNEL may sleep, and so may kvfree: no call of the library that takes or frees memory belongs into an interrupt or
 * under a spin lock.
 */
#include <linux/mm.h>
#include <linux/slab.h>
#include <linux/string.h>

#include "memory.h"
#include "smmuq_memory.h"

static char nothing[16];
atomic_long_t smmuq_blocks = ATOMIC_LONG_INIT(0);

/* Both of kvmalloc's ways align to more than 16: kmalloc to ARCH_KMALLOC_MINALIGN, vmalloc to a page. */
rattle_block rattle_alloc(size_t size, size_t alignment)
{
	void *at = kvmalloc(size ? size : alignment, GFP_KERNEL);

	if (!at)
		return (rattle_block){ false, nothing };
	atomic_long_inc(&smmuq_blocks);
	return (rattle_block){ true, at };
}

rattle_block rattle_realloc(void *at, size_t kept, size_t size, size_t alignment)
{
	rattle_block fresh = rattle_alloc(size, alignment);

	if (fresh.ok) {
		memcpy(fresh.at, at, kept);
		rattle_dealloc(at);
	}
	return fresh;
}

void rattle_dealloc(void *at)
{
	atomic_long_dec(&smmuq_blocks);
	kvfree(at);
}
