/* SPDX-License-Identifier: MIT OR Apache-2.0 */
/* What a bare program has in place of an operating system: a console by semihosting, a heap, and a second processor. The
 * memory functions of C and those of smmuq_memory.h, which libsmmuq calls, are in host.c too. */
#ifndef HOST_H
#define HOST_H

#include <stddef.h>
#include <stdint.h>

void print(const char *text);

/* A number in decimal digits. */
void print_number(uint64_t number);

/* Ends qemu with this exit status. */
_Noreturn void leave(int status);

/* Ends it with status 1 and says what isn't as it should be, unless `well`. */
void owe(int well, const char *what);

/* How many blocks of the heap are taken now. */
size_t heap_blocks(void);

/* Has the second processor run `second` (start.S); 0 if it does. */
long start_second(void);

#endif
