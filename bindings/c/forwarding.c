/* SPDX-License-Identifier: MIT OR Apache-2.0 */
// Two ways from many senders into one hardware queue of 256 slots, to compare them in one run:
//
//   forwarder  a ring of 256 slots and a thread that owns the queue, by the calls of the C library
//   owner      the scheme of Linux's driver: the ring is the hardware's queue, and a sender that finds no owner is one
//
// The hardware is a thread that reads each command and then moves CONS. Each batch is three commands. A sender waits for each
// batch, which then has a CMD_SYNC, or for each sixteenth, and the others have none.
//
// Prints a line for each way, for 1 and 2 senders and both sendings: the way, the sending, how many senders, the nanoseconds
// from before the threads start to after all senders are joined, how many commands the hardware got, how often PROD was
// written, and how many batches were waited for.
#define _POSIX_C_SOURCE 200809L
#include "smmuq.h"

#include <pthread.h>
#include <sched.h>
#include <stdatomic.h>
#include <stdbool.h>
#include <stdio.h>
#include <stdlib.h>
#include <string.h>
#include <time.h>

enum { LOG2 = 8, SLOTS = 1 << LOG2, WRAP = 2 * SLOTS, BODY = 3, MOST_SENDERS = 2, BATCHES = 200000, FLAGS = 64, LINE = 64, RUN = 64 };

static const uint32_t OWNED = 1u << 31;
static const smmuq_command CFGI_STE = {0x0000000700000003, 1}, SYNC = {SMMUQ_OPCODE_CMD_SYNC, 0};

static void check(smmuq_status status, const char *what) {
    if (status != SMMUQ_OK) {
        fprintf(stderr, "%s: %s\n", what, smmuq_status_name(status));
        exit(1);
    }
}

// ---- the hardware

static smmuq_command queue[SLOTS];
static _Alignas(LINE) _Atomic uint32_t prod_register;
static _Alignas(LINE) _Atomic uint32_t cons_register;
static _Alignas(LINE) atomic_bool ended;
static uint64_t consumed, stores, sum;

static void *play_hardware(void *argument) {
    uint32_t cons = 0;
    while (!atomic_load(&ended)) {
        const uint32_t prod = atomic_load_explicit(&prod_register, memory_order_acquire);
        while (cons != prod) {
            sum += queue[cons % SLOTS].lo;
            cons = (cons + 1) % WRAP;
            consumed++;
            atomic_store_explicit(&cons_register, cons, memory_order_release);
        }
    }
    return argument;
}

static void show(uint32_t prod) {
    atomic_store_explicit(&prod_register, prod, memory_order_release);
    stores++;
}

// ---- the scheme of Linux's driver

static struct {
    _Alignas(LINE) _Atomic uint64_t ends; // prod with the owner's bit in the low half, cons in the high one
    _Alignas(LINE) _Atomic uint32_t owner_prod;
    _Alignas(LINE) _Atomic int32_t lock; // how many senders wait for a CMD_SYNC of theirs; negative while one looks for room
    _Alignas(LINE) _Atomic uint64_t valid[SLOTS / FLAGS];
} linux_queue;

static uint32_t used(uint32_t prod, uint32_t cons) {
    return (prod - cons + WRAP) % WRAP;
}

static uint64_t ends_of(uint32_t prod, uint32_t cons) {
    return (uint64_t)cons << 32 | prod;
}

// Turns the flags of these slots, or waits until they are turned.
static void set_valid(uint32_t from, uint32_t to) {
    while (from != to) {
        const uint32_t slot = from % SLOTS, left = used(to, from), room = FLAGS - slot % FLAGS, count = left < room ? left : room;
        const uint64_t mask = (count == FLAGS ? UINT64_MAX : ((uint64_t)1 << count) - 1) << slot % FLAGS;
        atomic_fetch_xor_explicit(&linux_queue.valid[slot / FLAGS], mask, memory_order_release);
        from = (from + count) % WRAP;
    }
}

static void poll_valid(uint32_t from, uint32_t to) {
    while (from != to) {
        const uint32_t slot = from % SLOTS, left = used(to, from), room = FLAGS - slot % FLAGS, count = left < room ? left : room;
        const uint64_t mask = (count == FLAGS ? UINT64_MAX : ((uint64_t)1 << count) - 1) << slot % FLAGS;
        const uint64_t wanted = from >= SLOTS ? 0 : mask;
        while ((atomic_load_explicit(&linux_queue.valid[slot / FLAGS], memory_order_acquire) & mask) != wanted)
            ;
        from = (from + count) % WRAP;
    }
}

static void take_cons(void) {
    uint64_t found = atomic_load(&linux_queue.ends);
    const uint32_t cons = atomic_load_explicit(&cons_register, memory_order_acquire);
    while (!atomic_compare_exchange_weak(&linux_queue.ends, &found, ends_of((uint32_t)found, cons)))
        ;
}

static void wait_for_room(void) {
    int32_t none = 0;
    if (atomic_compare_exchange_strong(&linux_queue.lock, &none, INT32_MIN)) {
        take_cons();
        atomic_fetch_and(&linux_queue.lock, INT32_MAX);
    }
}

static void issue(uint32_t count, bool has_sync) {
    uint64_t found = atomic_load(&linux_queue.ends);
    uint32_t prod, end, offset;
    for (;;) {
        prod = (uint32_t)found & ~OWNED;
        if (used(prod, (uint32_t)(found >> 32)) + count > SLOTS) {
            wait_for_room();
            found = atomic_load(&linux_queue.ends);
            continue;
        }
        end = (prod + count) % WRAP;
        if (atomic_compare_exchange_weak(&linux_queue.ends, &found, ends_of(end | OWNED, (uint32_t)(found >> 32))))
            break;
    }
    const bool is_owner = !((uint32_t)found & OWNED);
    for (offset = 0; offset < count; offset++)
        queue[(prod + offset) % SLOTS] = has_sync && offset == count - 1 ? SYNC : CFGI_STE;
    if (has_sync) {
        while (atomic_fetch_add(&linux_queue.lock, 1) < 0)
            atomic_fetch_sub(&linux_queue.lock, 1);
    }
    set_valid(prod, end);
    if (is_owner) {
        uint32_t all;
        while (atomic_load_explicit(&linux_queue.owner_prod, memory_order_acquire) != prod)
            ;
        all = (uint32_t)atomic_fetch_and(&linux_queue.ends, ~(uint64_t)OWNED) & ~OWNED;
        poll_valid(prod, all);
        show(all);
        atomic_store_explicit(&linux_queue.owner_prod, all, memory_order_release);
    }
    if (has_sync) {
        // Passed, as long as the queue isn't reused: the lock holds it.
        while (used(end, atomic_load_explicit(&cons_register, memory_order_acquire)) - 1 < SLOTS)
            ;
        if (atomic_load(&linux_queue.lock) == 1)
            take_cons();
        atomic_fetch_sub(&linux_queue.lock, 1);
    }
}

// ---- a ring and a forwarder

static smmuq_forwarder forwarder = SMMUQ_EMPTY;
static smmuq_sender handles[MOST_SENDERS];

static void *own(void *argument) {
    static smmuq_command run[RUN];
    smmuq_placement placement;
    uint32_t count, place;
    while (!atomic_load(&ended)) {
        const smmuq_status status = smmuq_forward(&forwarder, run, RUN, &placement);
        if (status == SMMUQ_OK) {
            for (place = 0; place < placement.count; place++)
                queue[(placement.slot + place) % SLOTS] = run[place];
            show(placement.prod);
        }
        check(smmuq_forwarder_poll(&forwarder, 0, atomic_load_explicit(&cons_register, memory_order_acquire), &count), "poll");
    }
    return argument;
}

static void send(smmuq_sender *sender, bool has_sync) {
    static const smmuq_command body[BODY] = {{0x0000000700000003, 1}, {0x0000000700000003, 1}, {0x0000000700000003, 1}};
    uint32_t number, done;
    smmuq_status status;
    do {
        status = has_sync ? smmuq_send(sender, body, BODY, 64, &number) : smmuq_send_bare(sender, body, BODY, 64);
    } while (status == SMMUQ_RING_FULL || status == SMMUQ_CONTENDED);
    check(status, "send");
    if (!has_sync)
        return;
    do {
        check(smmuq_done_up_to(sender, &done), "done_up_to");
    } while (done < number);
}

// ---- both

static bool is_linux;
static unsigned every;

static void *drive(void *sender) {
    unsigned batch;
    for (batch = 1; batch <= BATCHES; batch++) {
        const bool has_sync = batch % every == 0;
        if (is_linux)
            issue(BODY + has_sync, has_sync);
        else
            send(sender, has_sync);
    }
    return NULL;
}

static uint64_t now(void) {
    struct timespec time;
    clock_gettime(CLOCK_MONOTONIC, &time);
    return (uint64_t)time.tv_sec * 1000000000 + (uint64_t)time.tv_nsec;
}

static void begin(unsigned senders) {
    memset(&linux_queue, 0, sizeof linux_queue);
    atomic_store(&prod_register, 0);
    atomic_store(&cons_register, 0);
    atomic_store(&ended, false);
    consumed = stores = 0;
    if (!is_linux)
        check(smmuq_forwarder_ring_new(LOG2, BATCHES, LOG2, handles, senders, &forwarder), "ring");
}

static void run(unsigned senders) {
    pthread_t threads[MOST_SENDERS], hardware, owner;
    unsigned sender;
    begin(senders);
    const uint64_t start = now();
    pthread_create(&hardware, NULL, play_hardware, NULL);
    if (!is_linux)
        pthread_create(&owner, NULL, own, NULL);
    for (sender = 0; sender < senders; sender++)
        pthread_create(&threads[sender], NULL, drive, &handles[sender]);
    for (sender = 0; sender < senders; sender++)
        pthread_join(threads[sender], NULL);
    const uint64_t time = now() - start;
    atomic_store(&ended, true);
    pthread_join(hardware, NULL);
    if (!is_linux)
        pthread_join(owner, NULL);
    printf("%s %s %u %llu %llu %llu %u\n", is_linux ? "owner" : "forwarder", every == 1 ? "each" : "sixteenth", senders,
           (unsigned long long)time, (unsigned long long)consumed, (unsigned long long)stores, senders * (BATCHES / every));
    for (sender = 0; sender < senders && !is_linux; sender++)
        smmuq_free(&handles[sender].handle);
    smmuq_free(&forwarder.handle);
}

int main(void) {
    unsigned senders;
    for (every = 1; every <= 16; every += 15)
        for (senders = 1; senders <= MOST_SENDERS; senders++)
            for (int way = 0; way < 2; way++) {
                is_linux = way;
                run(senders);
            }
    return sum == 0;
}
