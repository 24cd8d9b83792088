/* SPDX-License-Identifier: MIT OR Apache-2.0 */
/* Passes commands on: drivers' threads send batches into a ring, whose consumer copies the commands into the queue of some
 * hardware. It completes what that hardware's CONS has passed, and nothing else, so no driver is told too early. The
 * hardware is played by a thread with a unit of its own.
 *
 *     consumer [SENDERS [BATCHES]]
 *
 * Two things aren't passed on. An illegal command would stop the hardware for all, and is completed without effect. The
 * CMD_SYNC behind a batch asks for a write to an address of the ring's own, and another goes to the hardware in its place.
 */
#define _POSIX_C_SOURCE 200809L
#include "smmuq.h"

#include <inttypes.h>
#include <pthread.h>
#include <sched.h>
#include <stdio.h>
#include <stdlib.h>

enum { MOST_SENDERS = 256, RING_LOG2 = 6, LOG2 = 4, SLOTS = 1 << LOG2, PAGES = 4 };

static void check(smmuq_status status, const char *what) {
    if (status != SMMUQ_OK) {
        fprintf(stderr, "%s: %s\n", what, smmuq_status_name(status));
        exit(1);
    }
}

/* ---- the hardware: its queue's memory, and its two registers, which count on and are cut to a slot where one is meant */

static struct {
    smmuq_command queue[SLOTS];
    uint32_t prod, cons, ended;
    uint32_t pages[MOST_SENDERS]; /* how many pages it has invalidated, by their VMID */
    smmuq_unit unit;
} hardware = {.unit = SMMUQ_EMPTY};

static uint32_t get(const uint32_t *word) {
    return __atomic_load_n(word, __ATOMIC_ACQUIRE);
}

static void set(uint32_t *word, uint32_t value) {
    __atomic_store_n(word, value, __ATOMIC_RELEASE);
}

static int is_sync(smmuq_command command) {
    return (command.lo & 0xff) == SMMUQ_OPCODE_CMD_SYNC;
}

static void *play_hardware(void *argument) {
    uint32_t cons = 0;
    for (;;) {
        const uint32_t ended = get(&hardware.ended);
        if (cons != get(&hardware.prod)) {
            const smmuq_command command = hardware.queue[cons % SLOTS];
            smmuq_verdict verdict;
            check(smmuq_unit_judge(&hardware.unit, command.lo, command.hi, &verdict), "judge");
            if (!is_sync(command)) {
                uint32_t *pages = &hardware.pages[(command.lo >> 32) % MOST_SENDERS];
                set(pages, *pages + 1);
            }
            set(&hardware.cons, ++cons);
        } else if (ended) {
            return argument;
        } else {
            sched_yield();
        }
    }
}

/* ---- the forwarder: the consumer of the ring */

static struct {
    smmuq_consumer consumer;
    uint32_t passed_on, completed, refused; /* counts of commands */
} forwarder = {.consumer = SMMUQ_EMPTY};

/* Copies the run into the hardware's queue, up to an illegal command. The first ones may be there already, since what isn't
 * completed is found again. */
static void pass_on(const smmuq_command *run, size_t count) {
    const size_t there = forwarder.passed_on - forwarder.completed;
    const smmuq_command sync = {SMMUQ_OPCODE_CMD_SYNC, 0};
    size_t place;
    for (place = 0; place < count; place++) {
        smmuq_command *slot = &hardware.queue[(forwarder.completed + place) % SLOTS];
        const smmuq_command command = is_sync(run[place]) ? sync : run[place];
        if (place < there) {
            if (slot->lo != command.lo || slot->hi != command.hi)
                check(SMMUQ_OTHER_COMMAND, "find again");
        } else if (smmuq_check(command.lo, command.hi) == SMMUQ_OK) {
            *slot = command;
            set(&hardware.prod, ++forwarder.passed_on);
        } else {
            return;
        }
    }
}

/* Completes what the hardware has taken, or an illegal command that nothing is waited for ahead of. */
static void complete(const smmuq_command *run) {
    const uint32_t taken = get(&hardware.cons) - forwarder.completed;
    if (taken > 0) {
        check(smmuq_complete(&forwarder.consumer, taken), "complete");
        forwarder.completed += taken;
    } else if (forwarder.passed_on == forwarder.completed && smmuq_check(run[0].lo, run[0].hi) != SMMUQ_OK) {
        if (smmuq_complete(&forwarder.consumer, 1) != SMMUQ_REPLACED)
            check(SMMUQ_BAD_FIELD, "complete an illegal command");
        forwarder.refused++;
    } else {
        sched_yield();
    }
}

static void *forward(void *argument) {
    smmuq_command run[SLOTS];
    size_t count;
    smmuq_status status;
    /* No more are taken than the hardware's queue has slots. */
    while ((status = smmuq_take_run(&forwarder.consumer, run, SLOTS, &count)) != SMMUQ_RING_DRAINED) {
        if (status == SMMUQ_OK) {
            pass_on(run, count);
            complete(run);
        } else if (status == SMMUQ_RING_EMPTY || status == SMMUQ_RING_UNWRITTEN) {
            sched_yield();
        } else {
            check(status, "take");
        }
    }
    set(&hardware.ended, 1);
    return argument;
}

/* ---- the drivers */

struct driver {
    smmuq_sender sender;
    pthread_t thread;
    uint32_t number, batches, early;
};

static uint32_t send(struct driver *driver, const smmuq_command *commands, size_t count) {
    uint32_t number;
    smmuq_status status;
    while ((status = smmuq_send(&driver->sender, commands, count, 64, &number)) == SMMUQ_RING_FULL || status == SMMUQ_CONTENDED)
        sched_yield();
    check(status, "send");
    return number;
}

static void wait_for(struct driver *driver, uint32_t number) {
    uint32_t done = 0;
    while (check(smmuq_done_up_to(&driver->sender, &done), "done_up_to"), done < number)
        sched_yield();
}

static void *drive(void *argument) {
    struct driver *driver = argument;
    const smmuq_command illegal = {0xff, 0};
    uint32_t batch, number = 0;
    size_t page;
    if (driver->number == 0)
        send(driver, &illegal, 1);
    for (batch = 1; batch <= driver->batches; batch++) {
        smmuq_command commands[PAGES];
        for (page = 0; page < PAGES; page++) {
            const smmuq_fields fields = {.opcode = SMMUQ_OPCODE_TLBI_NH_VA, .vmid = driver->number, .asid = 1, .leaf = 1,
                                         .address = (uint64_t)(batch + page) << 12};
            check(smmuq_encode(&fields, &commands[page]), "encode");
        }
        number = send(driver, commands, PAGES);
        /* A batch in sixteen is waited for, and the hardware has had its effect by then. */
        if (batch % 16 == 0) {
            wait_for(driver, number);
            driver->early += get(&hardware.pages[driver->number]) < batch * PAGES;
        }
    }
    wait_for(driver, number);
    return NULL;
}

/* The totals: of each batch PAGES commands and a CMD_SYNC, and the CMD_SYNC behind the illegal command. */
static int print_totals(const struct driver *drivers, uint32_t senders, uint32_t batches) {
    const uint32_t syncs = senders * batches + 1, wanted = senders * batches * PAGES + syncs;
    smmuq_errors errors;
    smmuq_tallies tallies;
    uint32_t sender, early = 0;
    for (sender = 0; sender < senders; sender++)
        early += drivers[sender].early;
    check(smmuq_state(&hardware.unit.handle, &errors, &tallies), "state");
    printf("%" PRIu32 " senders, %" PRIu32 " batches each: passed on %" PRIu32 " completed %" PRIu32 " without effect %" PRIu32
           " told too early %" PRIu32 "\n",
           senders, batches, forwarder.passed_on, forwarder.completed, forwarder.refused, early);
    printf("hardware: prod %" PRIu32 " cons %" PRIu32 " applied %" PRIu64 " syncs %" PRIu64 "\n", hardware.prod, hardware.cons,
           tallies.applied, tallies.syncs);
    return forwarder.passed_on == wanted && forwarder.completed == wanted && forwarder.refused == 1 && early == 0
        && hardware.cons == wanted && tallies.applied == wanted && tallies.syncs == syncs && tallies.replaced == 0;
}

int main(int argc, char **argv) {
    const uint32_t senders = argc > 1 ? (uint32_t)strtoul(argv[1], NULL, 0) : 3;
    const uint32_t batches = argc > 2 ? (uint32_t)strtoul(argv[2], NULL, 0) : 1000;
    static smmuq_sender handles[MOST_SENDERS];
    static struct driver drivers[MOST_SENDERS];
    pthread_t taker, player;
    uint32_t sender;
    int right;
    if (senders < 1 || senders > MOST_SENDERS)
        return 2;
    check(smmuq_consumer_ring_new(RING_LOG2, batches + 1, handles, senders, &forwarder.consumer), "ring");
    check(smmuq_unit_new(1024, &hardware.unit), "unit");
    pthread_create(&player, NULL, play_hardware, NULL);
    pthread_create(&taker, NULL, forward, NULL);
    for (sender = 0; sender < senders; sender++) {
        /* A handle is moved, never copied: the old place isn't used again. */
        drivers[sender] = (struct driver){.sender = handles[sender], .number = sender, .batches = batches};
        handles[sender] = (smmuq_sender)SMMUQ_EMPTY;
        pthread_create(&drivers[sender].thread, NULL, drive, &drivers[sender]);
    }
    for (sender = 0; sender < senders; sender++)
        pthread_join(drivers[sender].thread, NULL);
    check(smmuq_close(&drivers[0].sender), "close");
    pthread_join(taker, NULL);
    pthread_join(player, NULL);
    right = print_totals(drivers, senders, batches);
    for (sender = 0; sender < senders; sender++)
        smmuq_free(&drivers[sender].sender.handle);
    smmuq_free(&forwarder.consumer.handle);
    smmuq_free(&hardware.unit.handle);
    return right ? 0 : 1;
}
