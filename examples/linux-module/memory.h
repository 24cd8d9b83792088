/* SPDX-License-Identifier: MIT OR Apache-2.0 */
#ifndef SMMUQ_DEMO_MEMORY_H
#define SMMUQ_DEMO_MEMORY_H

#include <linux/atomic.h>

/* How many blocks the library has now. */
extern atomic_long_t smmuq_blocks;

#endif
