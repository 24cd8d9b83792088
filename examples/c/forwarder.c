/* SPDX-License-Identifier: MIT OR Apache-2.0 */
/* A driver of real hardware: drivers' threads send batches into a ring, and one thread owns the hardware's queue. It writes
 * what the forwarder says into the queue's memory, shows PROD, reads SMMU_GERROR and SMMU_CMDQ_CONS, and acknowledges errors.
 * Each driver is told once the hardware has consumed its CMD_SYNC. The hardware is played by a thread with a unit of its own,
 * which calls TLBI_EL2_ALL illegal, as an SMMU without EL2 does.
 *
 *     forwarder [messages] [SENDERS [BATCHES]]
 *
 * With `messages` each CMD_SYNC asks for an MSI, which the hardware writes into a word of the driver's, and registers are read
 * only where that word stands still.
 *
 * The registers are atomic words here, and their order is that of acquire and release; beside hardware they are its own, with
 * the barriers of docs/C.md. */
#define _POSIX_C_SOURCE 200809L
#include "smmuq.h"

#include <inttypes.h>
#include <pthread.h>
#include <sched.h>
#include <stdio.h>
#include <stdlib.h>
#include <string.h>

enum { MOST_SENDERS = 256, RING_LOG2 = 6, LOG2 = 4, SLOTS = 1 << LOG2, PAGES = 4, RUN = 64, CERROR_ILL = 1, PATIENCE = 1000 };

static void check(smmuq_status status, const char *what) {
    if (status != SMMUQ_OK) {
        fprintf(stderr, "%s: %s\n", what, smmuq_status_name(status));
        exit(1);
    }
}

/* ---- the hardware: its queue's memory and its registers */

static struct {
    smmuq_command queue[SLOTS];
    uint32_t prod, cons, gerror, gerrorn, ended;
    uint32_t pages[MOST_SENDERS]; /* how many pages it has invalidated, by their VMID */
    smmuq_unit unit;
} hardware = {.unit = SMMUQ_EMPTY};

static uint32_t get(const uint32_t *word) {
    return __atomic_load_n(word, __ATOMIC_ACQUIRE);
}

static void set(uint32_t *word, uint32_t value) {
    __atomic_store_n(word, value, __ATOMIC_RELEASE);
}

static void consume(smmuq_command command) {
    smmuq_verdict verdict;
    smmuq_fields fields;
    check(smmuq_unit_judge(&hardware.unit, command.lo, command.hi, &verdict), "judge");
    check(smmuq_decode(command.lo, command.hi, &fields), "decode");
    if (fields.opcode == SMMUQ_OPCODE_CMD_SYNC && fields.cs == 1)
        set((uint32_t *)(uintptr_t)fields.address, fields.data);
    if ((command.lo & 0xff) == SMMUQ_OPCODE_TLBI_NH_VA) {
        uint32_t *pages = &hardware.pages[(command.lo >> 32) % MOST_SENDERS];
        set(pages, *pages + 1);
    }
}

static void *play_hardware(void *argument) {
    uint32_t cons = 0; /* RD: the slot, and above it the wrap bit */
    while (!get(&hardware.ended)) {
        const uint32_t stopped = (hardware.gerror ^ get(&hardware.gerrorn)) & 1;
        if (stopped || cons == get(&hardware.prod)) {
            sched_yield();
        } else if ((hardware.queue[cons % SLOTS].lo & 0xff) == SMMUQ_OPCODE_TLBI_EL2_ALL) {
            set(&hardware.cons, CERROR_ILL << 24 | cons);
            set(&hardware.gerror, hardware.gerror ^ 1);
        } else {
            consume(hardware.queue[cons % SLOTS]);
            cons = (cons + 1) % (2 * SLOTS);
            set(&hardware.cons, cons);
        }
    }
    return argument;
}

/* ---- the owner of its queue */

static struct {
    smmuq_forwarder forwarder;
    uint32_t shown, consumed, refused, lost; /* counts of commands */
    int messages;                            /* whether CMD_SYNCs ask for MSIs */
    uint32_t message, still;                 /* the word that these write, and how long it stood still */
} owner = {.forwarder = SMMUQ_EMPTY};

/* A command as the hardware gets it: a CMD_SYNC asks for an MSI with these data. */
static smmuq_command signalled(smmuq_command command, uint32_t data) {
    const smmuq_fields fields = {.opcode = SMMUQ_OPCODE_CMD_SYNC, .cs = 1, .data = data, .address = (uintptr_t)&owner.message};
    if (owner.messages && (command.lo & 0xff) == SMMUQ_OPCODE_CMD_SYNC)
        check(smmuq_encode(&fields, &command), "encode");
    return command;
}

/* Writes a run into the queue, and then shows it. */
static void show(const smmuq_command *run, const smmuq_placement *placement) {
    uint32_t place;
    for (place = 0; place < placement->count; place++) {
        owner.shown++;
        hardware.queue[(placement->slot + place) % SLOTS] = signalled(run[place], placement->message + place);
    }
    set(&hardware.prod, placement->prod);
}

/* Replaces the command at which the hardware stopped. */
static void acknowledge(void) {
    const smmuq_command sync = {SMMUQ_OPCODE_CMD_SYNC, 0};
    smmuq_acknowledgement acknowledgement;
    check(smmuq_forwarder_acknowledge(&owner.forwarder, hardware.gerrorn, SMMUQ_REPLACE, &acknowledgement), "acknowledge");
    hardware.queue[acknowledgement.slot] = sync;
    set(&hardware.gerrorn, acknowledgement.gerrorn);
    owner.lost++;
}

static void read_registers(void) {
    const uint32_t gerror = get(&hardware.gerror), cons = get(&hardware.cons);
    uint32_t consumed;
    const smmuq_status status = smmuq_forwarder_poll(&owner.forwarder, gerror, cons, &consumed);
    if (status == SMMUQ_QUEUE_STOPPED)
        acknowledge();
    else
        check(status, "poll");
    owner.consumed += consumed;
}

/* Settles what an MSI tells, and reads the registers only where none came for long: then there may be an error, or nothing
 * but commands without a CMD_SYNC. */
static void poll(void) {
    uint32_t consumed = 0;
    if (owner.messages)
        check(smmuq_forwarder_poll_msi(&owner.forwarder, get(&owner.message), &consumed), "poll_msi");
    owner.consumed += consumed;
    owner.still = consumed ? 0 : owner.still + 1;
    if (!owner.messages || owner.still == PATIENCE) {
        owner.still = 0;
        read_registers();
    }
}

static void *own(void *argument) {
    smmuq_command run[RUN];
    smmuq_placement placement;
    smmuq_status status;
    do {
        status = smmuq_forward(&owner.forwarder, run, RUN, &placement);
        if (status == SMMUQ_OK)
            show(run, &placement);
        else if (status == SMMUQ_REPLACED)
            owner.refused++;
        else if (status != SMMUQ_QUEUE_FULL && status != SMMUQ_RING_EMPTY && status != SMMUQ_RING_UNWRITTEN && status != SMMUQ_RING_DRAINED)
            check(status, "forward");
        poll();
        sched_yield();
    } while (status != SMMUQ_RING_DRAINED || owner.consumed < owner.shown);
    set(&hardware.ended, 1);
    return argument;
}

/* ---- the drivers */

struct driver {
    smmuq_sender sender;
    pthread_t thread;
    uint32_t number, batches, early;
};

static uint32_t send(struct driver *driver, const smmuq_command *commands, size_t count) {
    uint32_t number;
    smmuq_status status;
    while ((status = smmuq_send(&driver->sender, commands, count, 64, &number)) == SMMUQ_RING_FULL || status == SMMUQ_CONTENDED)
        sched_yield();
    check(status, "send");
    return number;
}

static void wait_for(struct driver *driver, uint32_t number) {
    uint32_t done = 0;
    while (check(smmuq_done_up_to(&driver->sender, &done), "done_up_to"), done < number)
        sched_yield();
}

static void *drive(void *argument) {
    struct driver *driver = argument;
    /* one that no SMMU has, and one that this hardware lacks */
    const smmuq_command others[] = {{0xff, 0}, {SMMUQ_OPCODE_TLBI_EL2_ALL, 0}};
    uint32_t batch, number = 0;
    size_t page;
    if (driver->number == 0)
        send(driver, others, 2);
    for (batch = 1; batch <= driver->batches; batch++) {
        smmuq_command commands[PAGES];
        for (page = 0; page < PAGES; page++) {
            const smmuq_fields fields = {.opcode = SMMUQ_OPCODE_TLBI_NH_VA, .vmid = driver->number, .asid = 1, .leaf = 1,
                                         .address = (uint64_t)(batch + page) << 12};
            check(smmuq_encode(&fields, &commands[page]), "encode");
        }
        number = send(driver, commands, PAGES);
        /* A batch in sixteen is waited for, and the hardware has had its effect by then. */
        if (batch % 16 == 0) {
            wait_for(driver, number);
            driver->early += get(&hardware.pages[driver->number]) < batch * PAGES;
        }
    }
    wait_for(driver, number);
    return NULL;
}

/* The totals: of each batch PAGES commands and a CMD_SYNC; of the batch of two others one command and the CMD_SYNC. */
static int print_totals(const struct driver *drivers, uint32_t senders, uint32_t batches) {
    const uint32_t syncs = senders * batches + 1, wanted = senders * batches * PAGES + syncs + 1;
    smmuq_errors errors;
    smmuq_tallies tallies;
    uint32_t sender, early = 0;
    for (sender = 0; sender < senders; sender++)
        early += drivers[sender].early;
    check(smmuq_state(&hardware.unit.handle, &errors, &tallies), "state");
    printf("%" PRIu32 " senders, %" PRIu32 " batches each: shown %" PRIu32 " consumed %" PRIu32 " without effect %" PRIu32
           " lost at the hardware %" PRIu32 " told too early %" PRIu32 "\n",
           senders, batches, owner.shown, owner.consumed, owner.refused, owner.lost, early);
    printf("hardware: applied %" PRIu64 " syncs %" PRIu64 "\n", tallies.applied, tallies.syncs);
    return owner.shown == wanted && owner.consumed == wanted && owner.refused == 1 && owner.lost == 1 && early == 0
        && tallies.applied == wanted && tallies.syncs == syncs + 1;
}

int main(int argc, char **argv) {
    const int messages = argc > 1 && strcmp(argv[1], "messages") == 0;
    const uint32_t senders = argc > messages + 1 ? (uint32_t)strtoul(argv[messages + 1], NULL, 0) : 3;
    const uint32_t batches = argc > messages + 2 ? (uint32_t)strtoul(argv[messages + 2], NULL, 0) : 1000;
    static smmuq_sender handles[MOST_SENDERS];
    static struct driver drivers[MOST_SENDERS];
    pthread_t owning, player;
    uint32_t sender;
    int right;
    if (senders < 1 || senders > MOST_SENDERS)
        return 2;
    owner.messages = messages;
    check(smmuq_forwarder_ring_new(RING_LOG2, batches + 1, LOG2, handles, senders, &owner.forwarder), "ring");
    check(smmuq_unit_new(1024, &hardware.unit), "unit");
    pthread_create(&player, NULL, play_hardware, NULL);
    pthread_create(&owning, NULL, own, NULL);
    for (sender = 0; sender < senders; sender++) {
        /* A handle is moved, never copied: the old place isn't used again. */
        drivers[sender] = (struct driver){.sender = handles[sender], .number = sender, .batches = batches};
        handles[sender] = (smmuq_sender)SMMUQ_EMPTY;
        pthread_create(&drivers[sender].thread, NULL, drive, &drivers[sender]);
    }
    for (sender = 0; sender < senders; sender++)
        pthread_join(drivers[sender].thread, NULL);
    check(smmuq_close(&drivers[0].sender), "close");
    pthread_join(owning, NULL);
    pthread_join(player, NULL);
    right = print_totals(drivers, senders, batches);
    for (sender = 0; sender < senders; sender++)
        smmuq_free(&drivers[sender].sender.handle);
    smmuq_free(&owner.forwarder.handle);
    smmuq_free(&hardware.unit.handle);
    return right ? 0 : 1;
}
