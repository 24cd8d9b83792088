/* SPDX-License-Identifier: MIT OR Apache-2.0 */
/* See host.h. No function here uses a register of floating point, and all but the console may run on both processors. */
#include "host.h"
#include "smmuq_memory.h"

/* ---- the console: semihosting of qemu-system-aarch64 -semihosting */

enum { SYS_WRITE0 = 0x04, SYS_EXIT = 0x18, APPLICATION_EXIT = 0x20026 };

static long semihost(long operation, const void *argument) {
    register long x0 __asm__("x0") = operation;
    register const void *x1 __asm__("x1") = argument;
    __asm__ volatile("hlt #0xf000" : "+r"(x0) : "r"(x1) : "memory");
    return x0;
}

void print(const char *text) {
    semihost(SYS_WRITE0, text);
}

static void print_in(unsigned base, uint64_t number) {
    char digits[24], *at = digits + sizeof digits;
    *--at = 0;
    do {
        *--at = "0123456789abcdef"[number % base];
        number /= base;
    } while (number);
    print(at);
}

void print_number(uint64_t number) {
    print_in(10, number);
}

_Noreturn void leave(int status) {
    const uint64_t block[2] = {APPLICATION_EXIT, (uint64_t)status};
    semihost(SYS_EXIT, block);
    for (;;)
        __asm__ volatile("wfi");
}

void owe(int well, const char *what) {
    if (!well) {
        print("not as it should be: ");
        print(what);
        print("\n");
        leave(1);
    }
}

/* An exception: start.S comes here from each vector. */
_Noreturn void fault(uint64_t esr, uint64_t elr, uint64_t far);
_Noreturn void fault(uint64_t esr, uint64_t elr, uint64_t far) {
    print("exception: esr 0x");
    print_in(16, esr);
    print(" elr 0x");
    print_in(16, elr);
    print(" far 0x");
    print_in(16, far);
    print("\n");
    leave(2);
}

/* ---- memory: a list of the free blocks in the order of their addresses, the first that is large enough is taken */

/* Ahead of each block, taken or free. The size is that of both, a multiple of 16, so all blocks are aligned to 16, the most
 * that is asked for. */
struct block {
    size_t size;
    struct block *next; /* the next free one */
};

enum { HEAP = 1 << 20, HEADER = 16 };
_Static_assert(sizeof(struct block) == HEADER, "a block begins 16 bytes behind its header");

static _Alignas(16) unsigned char heap[HEAP];
static unsigned char nothing[16];
static struct {
    uint32_t lock;
    int ready;
    struct block *first;
    size_t blocks;
} free_list;

/* What was done under the lock before is seen by who has it next, and so is what was done with a block before it was freed. */
static void lock_heap(void) {
    while (__atomic_exchange_n(&free_list.lock, 1u, __ATOMIC_ACQUIRE))
        ;
    if (!free_list.ready) {
        free_list.ready = 1;
        free_list.first = (struct block *)(void *)heap;
        *free_list.first = (struct block){HEAP, NULL};
    }
}

static void unlock_heap(void) {
    __atomic_store_n(&free_list.lock, 0u, __ATOMIC_RELEASE);
}

/* Takes the first `size` bytes of a free block out of the list, or all of it if what is left would hold nothing. */
static struct block *take(struct block **place, size_t size) {
    struct block *found = *place;
    if (found->size - size > HEADER) {
        struct block *rest = (struct block *)(void *)((unsigned char *)found + size);
        *rest = (struct block){found->size - size, found->next};
        found->size = size;
        *place = rest;
    } else {
        *place = found->next;
    }
    return found;
}

rattle_block rattle_alloc(size_t size, size_t alignment) {
    (void)alignment;
    if (size > HEAP - HEADER)
        return (rattle_block){false, nothing};
    const size_t whole = HEADER + ((size + 15) & ~(size_t)15);
    rattle_block answer = {false, nothing};
    lock_heap();
    struct block **place = &free_list.first;
    while (*place && (*place)->size < whole)
        place = &(*place)->next;
    if (*place) {
        answer = (rattle_block){true, (unsigned char *)take(place, whole) + HEADER};
        free_list.blocks++;
    }
    unlock_heap();
    return answer;
}

/* Makes one block of two in the list, if the second begins where the first ends. */
static void join(struct block *block) {
    struct block *next = block->next;
    if (next && (unsigned char *)block + block->size == (unsigned char *)next)
        *block = (struct block){block->size + next->size, next->next};
}

void rattle_dealloc(void *at) {
    struct block *freed = (struct block *)(void *)((unsigned char *)at - HEADER);
    lock_heap();
    struct block *before = NULL, *after = free_list.first;
    while (after && after < freed) {
        before = after;
        after = after->next;
    }
    freed->next = after;
    join(freed);
    if (before) {
        before->next = freed;
        join(before);
    } else {
        free_list.first = freed;
    }
    free_list.blocks--;
    unlock_heap();
}

rattle_block rattle_realloc(void *at, size_t kept, size_t size, size_t alignment) {
    const rattle_block fresh = rattle_alloc(size, alignment);
    if (fresh.ok) {
        __builtin_memcpy(fresh.at, at, kept);
        rattle_dealloc(at);
    }
    return fresh;
}

size_t heap_blocks(void) {
    lock_heap();
    const size_t blocks = free_list.blocks;
    unlock_heap();
    return blocks;
}

/* ---- what any C compiler may call, and the library does */

void *memcpy(void *restrict to, const void *restrict from, size_t length);
void *memcpy(void *restrict to, const void *restrict from, size_t length) {
    unsigned char *a = to;
    const unsigned char *b = from;
    while (length--)
        *a++ = *b++;
    return to;
}

void *memmove(void *to, const void *from, size_t length);
void *memmove(void *to, const void *from, size_t length) {
    unsigned char *a = to;
    const unsigned char *b = from;
    if ((uintptr_t)a <= (uintptr_t)b)
        while (length--)
            *a++ = *b++;
    else
        while (length--)
            a[length] = b[length];
    return to;
}

void *memset(void *to, int value, size_t length);
void *memset(void *to, int value, size_t length) {
    unsigned char *a = to;
    while (length--)
        *a++ = (unsigned char)value;
    return to;
}

/* ---- the second processor, by PSCI's CPU_ON */

extern void start_of_second(void);

long start_second(void) {
    register uint64_t x0 __asm__("x0") = 0xc4000003;
    register uint64_t x1 __asm__("x1") = 1;
    register uint64_t x2 __asm__("x2") = (uint64_t)&start_of_second;
    register uint64_t x3 __asm__("x3") = 0;
    __asm__ volatile("hvc #0" : "+r"(x0) : "r"(x1), "r"(x2), "r"(x3) : "memory");
    return (long)x0;
}
