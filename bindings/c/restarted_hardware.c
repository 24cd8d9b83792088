/* SPDX-License-Identifier: MIT OR Apache-2.0 */
/* A forwarder beside hardware that is restarted at any moment, whose MSIs come late, twice, in any order and across
 * restarts, and whose commands have their effect in any order up to the next CMD_SYNC. Drivers on threads send batches,
 * and none is told before both of its commands had their effect. tools/check-c runs it.
 *
 *     restarted_hardware [BATCHES [once]]    of all drivers together, 1,000,000 else
 *
 * With `once` MSIs count each command once, and what is read again at a restart isn't counted: then some are told too early,
 * which shows that the test would see it. That runs on one thread, which picks by a fixed seed whose turn it is, so that each
 * machine answers the same. */
#define _POSIX_C_SOURCE 200809L
#include "smmuq.h"

#include <inttypes.h>
#include <pthread.h>
#include <sched.h>
#include <stdio.h>
#include <stdlib.h>

enum { DRIVERS = 2, RING_LOG2 = 6, LOG2 = 3, SLOTS = 1 << LOG2, WRAP = 2 * SLOTS, RUN = 64, WAITING = 64, LATE = 16, PATIENCE = 200 };

static void check(smmuq_status status, const char *what) {
    if (status != SMMUQ_OK) {
        fprintf(stderr, "%s: %s\n", what, smmuq_status_name(status));
        exit(1);
    }
}

static uint32_t get(const uint32_t *word) {
    return __atomic_load_n(word, __ATOMIC_ACQUIRE);
}

static void set(uint32_t *word, uint32_t value) {
    __atomic_store_n(word, value, __ATOMIC_RELEASE);
}

/* A number below `most`, by xorshift. */
static uint32_t below(uint64_t *state, uint32_t most) {
    *state ^= *state << 13;
    *state ^= *state >> 7;
    *state ^= *state << 17;
    return (uint32_t)(*state >> 32) % most;
}

/* ---- the hardware */

/* Which of a batch's two commands had their effect, by the driver and the batch's number. */
static unsigned char *effects[DRIVERS];
static uint32_t each;    /* how many batches a driver sends */
static uint32_t message; /* the word that MSIs write */
static int once;         /* whether MSIs count each command once, all of it on one thread */

static struct {
    smmuq_command queue[SLOTS];
    uint32_t prod, cons, enabled, acknowledged, ended;
    uint64_t random;
    smmuq_command waiting[WAITING]; /* consumed, and without effect so far */
    uint32_t waits;
    uint32_t late[LATE]; /* the data of MSIs on their way */
    uint32_t messages, again;
} hardware = {.enabled = 1, .acknowledged = 1, .random = 0x9e3779b97f4a7c15};

/* The command of a batch: the driver is its VMID, the batch its page, and which of the two it is its ASID. One that was
 * written over while it was read may be any. */
static void have_effect(smmuq_command command) {
    const uint32_t driver = (uint32_t)(command.lo >> 32) & 0xffff, which = (uint32_t)(command.lo >> 48);
    const uint64_t batch = command.hi >> 12;
    if (driver < DRIVERS && batch <= each && which < 2)
        __atomic_store_n(&effects[driver][batch], (unsigned char)(effects[driver][batch] | 1u << which), __ATOMIC_RELEASE);
}

static void have_some_effect(void) {
    const uint32_t place = below(&hardware.random, hardware.waits);
    have_effect(hardware.waiting[place]);
    hardware.waiting[place] = hardware.waiting[--hardware.waits];
}

/* One of the MSIs on their way arrives, and may come once more. */
static void deliver(void) {
    const uint32_t place = below(&hardware.random, hardware.messages);
    set(&message, hardware.late[place]);
    if (below(&hardware.random, 4) > 0)
        hardware.late[place] = hardware.late[--hardware.messages];
    else
        hardware.again++;
}

/* The MSI of a CMD_SYNC sets out. */
static void send_message(smmuq_command sync) {
    while (hardware.messages == LATE)
        deliver();
    hardware.late[hardware.messages++] = (uint32_t)(sync.lo >> 32);
}

static void consume(smmuq_command command) {
    const int is_sync = (command.lo & 0xff) == SMMUQ_OPCODE_CMD_SYNC;
    const uint32_t cons = (hardware.cons + 1) % WRAP;
    if (is_sync) {
        while (hardware.waits > 0)
            have_some_effect();
        set(&hardware.cons, cons);
        send_message(command);
    } else {
        if (hardware.waits == WAITING)
            have_some_effect();
        hardware.waiting[hardware.waits++] = command;
        set(&hardware.cons, cons);
    }
}

/* Lets the others have their turn. */
static void wait_a_little(void) {
    if (!once)
        sched_yield();
}

static void play_hardware(void) {
    const uint32_t enabled = get(&hardware.enabled);
    if (hardware.messages > 0 && below(&hardware.random, 3) == 0)
        deliver();
    if (hardware.waits > 0 && below(&hardware.random, 4) == 0)
        have_some_effect();
    set(&hardware.acknowledged, enabled);
    if (enabled && get(&hardware.cons) != get(&hardware.prod))
        consume(hardware.queue[hardware.cons % SLOTS]);
    else
        wait_a_little();
}

static void *keep_playing(void *argument) {
    while (!get(&hardware.ended))
        play_hardware();
    return argument;
}

/* ---- the owner of its queue */

static struct {
    smmuq_forwarder forwarder;
    uint32_t still, restarts, ended;
    uint32_t again; /* with `once`, how many commands were read again and not counted */
    uint64_t random;
} owner = {.forwarder = SMMUQ_EMPTY, .random = 0xd1b54a32d192ed03};

static int is_sync(smmuq_command command) {
    return (command.lo & 0xff) == SMMUQ_OPCODE_CMD_SYNC;
}

/* A CMD_SYNC that asks for an MSI with these data. */
static smmuq_command signalled(uint32_t data) {
    const smmuq_fields fields = {.opcode = SMMUQ_OPCODE_CMD_SYNC, .cs = 1, .data = data, .address = (uintptr_t)&message};
    smmuq_command command;
    check(smmuq_encode(&fields, &command), "encode");
    return command;
}

static void forward(void) {
    static smmuq_command run[RUN];
    smmuq_placement placement;
    uint32_t place;
    const smmuq_status status = smmuq_forward(&owner.forwarder, run, RUN, &placement);
    if (status == SMMUQ_QUEUE_FULL || status == SMMUQ_RING_EMPTY || status == SMMUQ_RING_UNWRITTEN)
        return;
    check(status, "forward");
    for (place = 0; place < placement.count; place++)
        hardware.queue[(placement.slot + place) % SLOTS] = is_sync(run[place]) ? signalled(placement.message + place - owner.again) : run[place];
    set(&hardware.prod, placement.prod);
}

/* Disables the queue, has each CMD_SYNC that will be read again ask for its MSI anew, and enables it. */
static void restart(void) {
    smmuq_restart again;
    uint32_t index, data;
    set(&hardware.enabled, 0);
    while (get(&hardware.acknowledged))
        if (once)
            play_hardware();
        else
            sched_yield();
    check(smmuq_forwarder_restart(&owner.forwarder, 0, &again), "restart");
    if (once)
        owner.again += (again.prod - again.cons) % WRAP;
    for (index = again.cons, data = again.message; index != again.prod && !once; index = (index + 1) % WRAP, data++)
        if (is_sync(hardware.queue[index % SLOTS]))
            hardware.queue[index % SLOTS] = signalled(data);
    set(&hardware.prod, again.prod);
    set(&hardware.cons, again.cons);
    set(&hardware.enabled, 1);
    owner.restarts++;
}

/* Settles what an MSI tells, and reads the registers only where none came for long. */
static void poll(void) {
    uint32_t consumed;
    check(smmuq_forwarder_poll_msi(&owner.forwarder, get(&message) + owner.again, &consumed), "poll_msi");
    owner.still = consumed ? 0 : owner.still + 1;
    if (owner.still == PATIENCE) {
        owner.still = 0;
        const smmuq_status status = smmuq_forwarder_poll(&owner.forwarder, 0, get(&hardware.cons), &consumed);
        if (status == SMMUQ_QUEUE_BROKEN && once)
            restart();
        else
            check(status, "poll");
    }
}

static void own(void) {
    forward();
    if (below(&owner.random, 50) == 0)
        restart();
    if (below(&owner.random, 3) > 0)
        poll();
}

static void *keep_owning(void *argument) {
    while (!get(&owner.ended))
        own();
    set(&hardware.ended, 1);
    return argument;
}

/* ---- the drivers */

struct driver {
    smmuq_sender sender;
    pthread_t thread;
    uint32_t number, early;
    uint32_t sent, told; /* how many batches */
};

static smmuq_command command_of(const struct driver *driver, uint32_t batch, uint32_t which) {
    const smmuq_command command = {SMMUQ_OPCODE_TLBI_NH_VA | (uint64_t)driver->number << 32 | (uint64_t)which << 48,
                                   (uint64_t)batch << 12 | 1};
    return command;
}

static void try_to_send(struct driver *driver) {
    const uint32_t batch = driver->sent + 1;
    const smmuq_command both[] = {command_of(driver, batch, 0), command_of(driver, batch, 1)};
    uint32_t number;
    const smmuq_status status = smmuq_send(&driver->sender, both, 2, 64, &number);
    if (status == SMMUQ_RING_FULL || status == SMMUQ_CONTENDED) {
        wait_a_little();
        return;
    }
    check(status, "send");
    driver->sent = batch;
}

/* Sends a batch, where some are left and there is room, and looks whether those that are told had their effect. */
static void drive(struct driver *driver) {
    uint32_t done;
    if (driver->sent < each)
        try_to_send(driver);
    else
        wait_a_little();
    check(smmuq_done_up_to(&driver->sender, &done), "done_up_to");
    for (; driver->told < done; driver->told++)
        driver->early += __atomic_load_n(&effects[driver->number][driver->told + 1], __ATOMIC_ACQUIRE) != 3;
}

static void *keep_driving(void *argument) {
    struct driver *driver = argument;
    while (driver->told < each)
        drive(driver);
    return NULL;
}

/* ---- all of them */

static struct driver drivers[DRIVERS];

static void run_on_threads(void) {
    pthread_t owning, playing;
    uint32_t place;
    pthread_create(&playing, NULL, keep_playing, NULL);
    pthread_create(&owning, NULL, keep_owning, NULL);
    for (place = 0; place < DRIVERS; place++)
        pthread_create(&drivers[place].thread, NULL, keep_driving, &drivers[place]);
    for (place = 0; place < DRIVERS; place++)
        pthread_join(drivers[place].thread, NULL);
    set(&owner.ended, 1);
    pthread_join(owning, NULL);
    pthread_join(playing, NULL);
}

/* Most turns are the hardware's, which does the least in each. */
static void run_on_one_thread(void) {
    uint64_t turns = 0x2545f4914f6cdd1d;
    while (drivers[0].told < each || drivers[1].told < each)
        switch (below(&turns, 8)) {
        case 0: drive(&drivers[0]); break;
        case 1: drive(&drivers[1]); break;
        case 2: own(); break;
        default: play_hardware();
        }
}

int main(int argc, char **argv) {
    static smmuq_sender handles[DRIVERS];
    uint32_t place, early = 0;
    once = argc > 2;
    each = (argc > 1 ? (uint32_t)strtoul(argv[1], NULL, 0) : 1000000) / DRIVERS;
    check(smmuq_forwarder_ring_new(RING_LOG2, each, LOG2, handles, DRIVERS, &owner.forwarder), "ring");
    for (place = 0; place < DRIVERS; place++) {
        drivers[place] = (struct driver){.sender = handles[place], .number = place};
        handles[place] = (smmuq_sender)SMMUQ_EMPTY;
        effects[place] = calloc(each + 1, 1);
        if (!effects[place])
            return 1;
    }
    if (once)
        run_on_one_thread();
    else
        run_on_threads();
    for (place = 0; place < DRIVERS; place++) {
        early += drivers[place].early;
        check(smmuq_free(&drivers[place].sender.handle), "free");
        free(effects[place]);
    }
    check(smmuq_free(&owner.forwarder.handle), "free");
    printf("restarts and late MSIs %s: told too early %" PRIu32 "\n", owner.restarts && hardware.again ? "between" : "missing", early);
    return early != 0;
}
