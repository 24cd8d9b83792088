/* SPDX-License-Identifier: MIT OR Apache-2.0 */
/* Drivers send more batches than a ring has. Who has none left closes the ring. Once it is drained, the engine's thread
 * continues in a new one, and each sender goes over to it when it next sends: nobody else stops, and no lock is held for a
 * send. Here that is after 100 batches, so that it happens often; a ring made for 2^32 - 1 lasts 71 minutes at a million
 * batches a second.
 *
 *     renewing [SENDERS [BATCHES]]
 *
 * smmuq_renew fills handles that nobody uses yet with the new ring's senders. The old handles stay on the closed ring, where
 * a send is refused with SMMUQ_RING_CLOSED, and smmuq_done_up_to tells that all was done. Numbers start again at 1: a number
 * is one of the ring in which it was sent, and once the sender has gone over to a newer one, it is done.
 */
#define _POSIX_C_SOURCE 200809L
#include "smmuq.h"

#include <inttypes.h>
#include <pthread.h>
#include <semaphore.h>
#include <stdio.h>
#include <stdlib.h>

enum { MOST_SENDERS = 256, LOG2 = 6, IN_A_RING = 100, CAPACITY = 1024, PAGES = 4 };

/* The engine's thread alone uses the engine's handle. */
static struct {
    sem_t bell; /* rung after a send and a close */
    smmuq_engine engine;
    uint32_t senders;
    uint64_t applied, syncs; /* in the rings before this one */
} device = {.engine = SMMUQ_EMPTY};

/* Whoever waits reads the turn, asks, and sleeps while the turn is the same. It changes when commands were taken and when a
 * ring was made. */
static struct {
    pthread_mutex_t lock;
    pthread_cond_t changed;
    uint32_t turn, ring;             /* how many rings there were before this one */
    smmuq_sender next[MOST_SENDERS]; /* its senders, until they are fetched */
    int finished;
} waiting = {.lock = PTHREAD_MUTEX_INITIALIZER, .changed = PTHREAD_COND_INITIALIZER};

/* A driver's thread. The handle is its alone. */
struct driver {
    smmuq_sender sender;
    pthread_t thread;
    uint32_t number, batches, ring;
};

static void check(smmuq_status status, const char *what) {
    if (status != SMMUQ_OK) {
        fprintf(stderr, "%s: %s\n", what, smmuq_status_name(status));
        exit(1);
    }
}

static uint32_t turn(void) {
    uint32_t seen;
    pthread_mutex_lock(&waiting.lock);
    seen = waiting.turn;
    pthread_mutex_unlock(&waiting.lock);
    return seen;
}

static void sleep_since(uint32_t seen) {
    pthread_mutex_lock(&waiting.lock);
    while (waiting.turn == seen)
        pthread_cond_wait(&waiting.changed, &waiting.lock);
    pthread_mutex_unlock(&waiting.lock);
}

static void wake_all(void) {
    pthread_mutex_lock(&waiting.lock);
    waiting.turn++;
    pthread_cond_broadcast(&waiting.changed);
    pthread_mutex_unlock(&waiting.lock);
}

/* Waits for a newer ring and fetches the handle there. If more than one was made meanwhile, it is the newest one's. */
static void go_over(struct driver *driver) {
    pthread_mutex_lock(&waiting.lock);
    while (waiting.ring == driver->ring)
        pthread_cond_wait(&waiting.changed, &waiting.lock);
    smmuq_free(&driver->sender.handle);
    driver->sender = waiting.next[driver->number];
    waiting.next[driver->number] = (smmuq_sender)SMMUQ_EMPTY;
    driver->ring = waiting.ring;
    pthread_mutex_unlock(&waiting.lock);
}

/* Sends, and returns the number of the CMD_SYNC. Sleeps while the ring is full. */
static uint32_t send_one(struct driver *driver, const smmuq_command *commands, size_t count) {
    for (;;) {
        const uint32_t seen = turn();
        uint32_t number;
        const smmuq_status status = smmuq_send(&driver->sender, commands, count, 4, &number);
        switch (status) {
        case SMMUQ_OK:
            sem_post(&device.bell);
            return number;
        case SMMUQ_SENDER_EXHAUSTED:
            check(smmuq_close(&driver->sender), "close");
            sem_post(&device.bell);
            go_over(driver);
            break;
        case SMMUQ_RING_CLOSED: go_over(driver); break;
        case SMMUQ_RING_FULL: sleep_since(seen); break;
        case SMMUQ_CONTENDED: break;
        default: check(status, "send");
        }
    }
}

/* Waits until the CMD_SYNC of the last send completed, which may be after the ring was renewed: the handle is still of the
 * ring in which it was sent. */
static void wait_for(struct driver *driver, uint32_t number) {
    for (;;) {
        const uint32_t seen = turn();
        uint32_t done;
        check(smmuq_done_up_to(&driver->sender, &done), "done_up_to");
        if (done >= number)
            return;
        sleep_since(seen);
    }
}

static void *drive(void *argument) {
    struct driver *driver = argument;
    uint32_t batch;
    size_t page;
    for (batch = 1; batch <= driver->batches; batch++) {
        smmuq_command commands[PAGES];
        uint32_t number;
        for (page = 0; page < PAGES; page++) {
            const smmuq_fields fields = {.opcode = SMMUQ_OPCODE_TLBI_NH_VA, .vmid = driver->number, .asid = 1, .leaf = 1,
                                         .address = (uint64_t)(batch + page) << 12};
            check(smmuq_encode(&fields, &commands[page]), "encode");
        }
        number = send_one(driver, commands, PAGES);
        if (batch % 16 == 0 || batch == driver->batches)
            wait_for(driver, number);
    }
    return argument;
}

/* Counts what the drained ring had, and makes the next one, unless that was the last. */
static int renew(void) {
    smmuq_errors errors;
    smmuq_tallies tallies;
    int finished;
    check(smmuq_state(&device.engine.handle, &errors, &tallies), "state");
    device.applied += tallies.applied;
    device.syncs += tallies.syncs;
    pthread_mutex_lock(&waiting.lock);
    finished = waiting.finished;
    if (!finished) {
        check(smmuq_renew(LOG2, IN_A_RING, CAPACITY, waiting.next, device.senders, &device.engine), "renew");
        waiting.ring++;
        waiting.turn++;
        pthread_cond_broadcast(&waiting.changed);
    }
    pthread_mutex_unlock(&waiting.lock);
    return !finished;
}

/* Takes commands until all have sent what they had. */
static void *take(void *argument) {
    for (;;) {
        smmuq_run_answer answer;
        const smmuq_status status = smmuq_run(&device.engine, 64, &answer);
        if (status == SMMUQ_OK)
            wake_all();
        else if (status == SMMUQ_RING_EMPTY || status == SMMUQ_RING_UNWRITTEN)
            sem_wait(&device.bell);
        else if (status != SMMUQ_RING_DRAINED)
            check(status, "run");
        else if (!renew())
            return argument;
    }
}

/* Closes the newest ring by the handle of its first sender, who may not have fetched it. */
static void finish(struct driver *first) {
    smmuq_sender *newest;
    pthread_mutex_lock(&waiting.lock);
    waiting.finished = 1;
    newest = first->ring == waiting.ring ? &first->sender : &waiting.next[first->number];
    check(smmuq_close(newest), "close");
    pthread_mutex_unlock(&waiting.lock);
    sem_post(&device.bell);
}

int main(int argc, char **argv) {
    const uint32_t senders = argc > 1 ? (uint32_t)strtoul(argv[1], NULL, 0) : 3;
    const uint32_t batches = argc > 2 ? (uint32_t)strtoul(argv[2], NULL, 0) : 1000;
    static struct driver drivers[MOST_SENDERS];
    pthread_t taker;
    uint32_t sender;
    if (senders < 1 || senders > MOST_SENDERS || batches < 1)
        return 2;
    device.senders = senders;
    check(smmuq_ring_new(LOG2, IN_A_RING, CAPACITY, waiting.next, senders, &device.engine), "ring");
    if (sem_init(&device.bell, 0, 0) != 0)
        return 1;
    for (sender = 0; sender < senders; sender++) {
        drivers[sender] = (struct driver){.sender = waiting.next[sender], .number = sender, .batches = batches};
        waiting.next[sender] = (smmuq_sender)SMMUQ_EMPTY;
    }
    pthread_create(&taker, NULL, take, NULL);
    for (sender = 0; sender < senders; sender++)
        pthread_create(&drivers[sender].thread, NULL, drive, &drivers[sender]);
    for (sender = 0; sender < senders; sender++)
        pthread_join(drivers[sender].thread, NULL);
    finish(&drivers[0]);
    pthread_join(taker, NULL);
    printf("%" PRIu32 " senders, %" PRIu32 " batches each, at most %d in a ring: applied %" PRIu64 " syncs %" PRIu64 "\n",
           senders, batches, IN_A_RING, device.applied, device.syncs);
    for (sender = 0; sender < senders; sender++) {
        smmuq_free(&drivers[sender].sender.handle);
        smmuq_free(&waiting.next[sender].handle);
    }
    smmuq_free(&device.engine.handle);
    sem_destroy(&device.bell);
    /* Each sender has 100 batches in a ring. */
    return waiting.ring >= (batches - 1) / IN_A_RING && device.syncs == (uint64_t)senders * batches
            && device.applied == device.syncs * (PAGES + 1) ? 0 : 1;
}
