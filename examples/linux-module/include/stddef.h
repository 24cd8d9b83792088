/* SPDX-License-Identifier: MIT OR Apache-2.0 */
/* The kernel has none of C's headers, and its own names for what they define. */
#include <linux/stddef.h>
#include <linux/types.h>
