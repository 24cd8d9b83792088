/* SPDX-License-Identifier: MIT OR Apache-2.0 */
/* Drivers' threads send batches into one ring and wait for their completion, and a thread of its own is the SMMU: it takes
 * commands and applies them. One of the drivers sends an illegal command, which stops the queue for all, until a thread
 * that has nothing else to do acknowledges it.
 *
 *     driver [SENDERS [BATCHES]]
 *
 * Nobody spins. A driver sleeps while the ring is full or its CMD_SYNC isn't done, the SMMU while there is nothing to take,
 * and whoever acknowledges until there is an error.
 *
 * What a driver owes in an error stop is done right here. Who waits for a completion keeps nobody from running who has to
 * acknowledge: it holds no lock and no interrupt is off. And a wait that was given up is no completion: the memory is
 * given to nobody else until the number was told.
 */
#define _POSIX_C_SOURCE 200809L
#include "smmuq.h"

#include <inttypes.h>
#include <pthread.h>
#include <semaphore.h>
#include <stdio.h>
#include <stdlib.h>

enum { MOST_SENDERS = 256, LOG2 = 6, PAGES = 4 };

/* The SMMU, for its two users: the thread that takes commands, and the one that acknowledges. */
static struct {
    pthread_mutex_t lock; /* one call at a time on the engine's handle */
    pthread_cond_t error; /* SMMU_GERROR tells of an error */
    sem_t bell;           /* rung after a send, an acknowledgement and the close; once too often does no harm */
    smmuq_engine engine;
    int stopped, drained;
    uint32_t acknowledged;
} device = {.lock = PTHREAD_MUTEX_INITIALIZER, .error = PTHREAD_COND_INITIALIZER, .engine = SMMUQ_EMPTY};

/* The drivers that wait, for room all together, for a completion each by itself: smmuq_run_completions tells whose CMD_SYNC
 * completed.
 *
 * No wake-up is lost, by the lock's order alone. The SMMU's thread takes this lock when its run has returned. A driver that
 * had the lock before sleeps by then, and is woken. One that has it afterwards asks the library afterwards, and is told. The
 * two locks are never held together. */
static struct {
    pthread_mutex_t lock;
    pthread_cond_t room, done[MOST_SENDERS];
} waiting = {.lock = PTHREAD_MUTEX_INITIALIZER, .room = PTHREAD_COND_INITIALIZER};

/* A driver's thread. The handle is its alone. */
struct driver {
    smmuq_sender sender;
    pthread_t thread;
    uint32_t number, batches, failed;
};

/* Sends, and sleeps while the ring is full. At SMMUQ_CONTENDED somebody else came first, so there is nothing to wait for. */
static smmuq_status send_one(struct driver *driver, const smmuq_command *commands, size_t count, uint32_t *number) {
    smmuq_status status;
    do {
        status = smmuq_send(&driver->sender, commands, count, 4, number);
        if (status == SMMUQ_RING_FULL) {
            pthread_mutex_lock(&waiting.lock);
            while ((status = smmuq_send(&driver->sender, commands, count, 4, number)) == SMMUQ_RING_FULL)
                pthread_cond_wait(&waiting.room, &waiting.lock);
            pthread_mutex_unlock(&waiting.lock);
        }
    } while (status == SMMUQ_CONTENDED);
    if (status == SMMUQ_OK)
        sem_post(&device.bell);
    return status;
}

/* Waits until the CMD_SYNC of this number completed: what was reserved ahead of it was applied by then. */
static smmuq_status wait_for(struct driver *driver, uint32_t number) {
    uint32_t done = 0;
    smmuq_status status;
    pthread_mutex_lock(&waiting.lock);
    while ((status = smmuq_done_up_to(&driver->sender, &done)) == SMMUQ_OK && done < number)
        pthread_cond_wait(&waiting.done[driver->number], &waiting.lock);
    pthread_mutex_unlock(&waiting.lock);
    return status;
}

static void *drive(void *argument) {
    struct driver *driver = argument;
    const smmuq_command illegal = {0xff, 0};
    uint32_t number = 0, batch;
    size_t page;
    if (driver->number == 0 && send_one(driver, &illegal, 1, &number) != SMMUQ_OK)
        driver->failed = 1;
    for (batch = 1; batch <= driver->batches && !driver->failed; batch++) {
        smmuq_command commands[PAGES];
        for (page = 0; page < PAGES; page++) {
            const smmuq_fields fields = {.opcode = SMMUQ_OPCODE_TLBI_NH_VA, .vmid = driver->number, .asid = 1, .leaf = 1,
                                         .address = (uint64_t)(batch + page) << 12};
            if (smmuq_encode(&fields, &commands[page]) != SMMUQ_OK)
                driver->failed = 1;
        }
        if (send_one(driver, commands, PAGES, &number) != SMMUQ_OK)
            driver->failed = 1;
        /* A batch in sixteen is waited for, as before its memory goes to somebody else. */
        if (!driver->failed && batch % 16 == 0 && wait_for(driver, number) != SMMUQ_OK)
            driver->failed = 1;
    }
    if (!driver->failed && wait_for(driver, number) != SMMUQ_OK)
        driver->failed = 1;
    return NULL;
}

/* Wakes whose CMD_SYNC completed, and all that wait for room. */
static void wake(const smmuq_completion *completed, size_t count) {
    size_t i;
    pthread_mutex_lock(&waiting.lock);
    for (i = 0; i < count; i++)
        pthread_cond_signal(&waiting.done[completed[i].sender]);
    pthread_cond_broadcast(&waiting.room);
    pthread_mutex_unlock(&waiting.lock);
}

/* Takes commands until the ring was closed and is drained. */
static void *take(void *argument) {
    smmuq_completion completed[64];
    smmuq_status status;
    do {
        smmuq_run_answer answer;
        size_t count = 0;
        pthread_mutex_lock(&device.lock);
        status = smmuq_run_completions(&device.engine, 64, &answer, completed, 64, &count);
        if (status >= SMMUQ_ILL_OPCODE && status <= SMMUQ_ILL_SPAN) {
            device.stopped = 1;
            pthread_cond_signal(&device.error);
        }
        pthread_mutex_unlock(&device.lock);
        if (status == SMMUQ_OK || status == SMMUQ_REPLACED)
            wake(completed, count);
        else if (status != SMMUQ_RING_DRAINED)
            sem_wait(&device.bell); /* it is empty, stopped, or a sender has yet to hand over what it reserved */
    } while (status != SMMUQ_RING_DRAINED);
    pthread_mutex_lock(&device.lock);
    device.drained = 1;
    pthread_cond_signal(&device.error);
    pthread_mutex_unlock(&device.lock);
    return argument;
}

/* Handles the error's interrupt: gives up the illegal command, and acknowledges. */
static void *acknowledge(void *argument) {
    pthread_mutex_lock(&device.lock);
    while (!device.drained) {
        smmuq_errors errors;
        smmuq_tallies tallies;
        if (device.stopped && smmuq_state(&device.engine.handle, &errors, &tallies) == SMMUQ_OK
            && smmuq_acknowledge(&device.engine.handle, errors.gerror, SMMUQ_REPLACE) == SMMUQ_OK) {
            device.stopped = 0;
            device.acknowledged++;
            sem_post(&device.bell);
        }
        if (!device.stopped && !device.drained)
            pthread_cond_wait(&device.error, &device.lock);
    }
    pthread_mutex_unlock(&device.lock);
    return argument;
}

/* The totals: 1 and the CMD_SYNC of the illegal batch, PAGES and a CMD_SYNC of each other one. */
static int check(struct driver *drivers, uint32_t senders, uint32_t batches) {
    const uint64_t syncs = (uint64_t)senders * batches + 1;
    const uint64_t applied = (uint64_t)senders * batches * PAGES + syncs;
    smmuq_errors errors;
    smmuq_tallies tallies;
    uint32_t sender, done;
    for (sender = 0; sender < senders; sender++)
        if (drivers[sender].failed || smmuq_done_up_to(&drivers[sender].sender, &done) != SMMUQ_OK
            || done != batches + (sender == 0))
            return 0;
    if (smmuq_state(&device.engine.handle, &errors, &tallies) != SMMUQ_OK)
        return 0;
    printf("%" PRIu32 " senders, %" PRIu32 " batches each: applied %" PRIu64 " syncs %" PRIu64 " replaced %" PRIu64
           " acknowledged %" PRIu32 "\n",
           senders, batches, tallies.applied, tallies.syncs, tallies.replaced, device.acknowledged);
    return tallies.applied == applied && tallies.syncs == syncs && tallies.replaced == 1 && device.acknowledged == 1;
}

int main(int argc, char **argv) {
    const uint32_t senders = argc > 1 ? (uint32_t)strtoul(argv[1], NULL, 0) : 3;
    const uint32_t batches = argc > 2 ? (uint32_t)strtoul(argv[2], NULL, 0) : 1000;
    static smmuq_sender handles[MOST_SENDERS];
    static struct driver drivers[MOST_SENDERS];
    pthread_t taker, acknowledger;
    uint32_t sender;
    smmuq_status status;
    int right;
    if (senders < 1 || senders > MOST_SENDERS)
        return 2;
    status = smmuq_ring_new(LOG2, batches + 1, 1024, handles, senders, &device.engine);
    if (status != SMMUQ_OK || sem_init(&device.bell, 0, 0) != 0)
        return 1;
    for (sender = 0; sender < senders; sender++)
        pthread_cond_init(&waiting.done[sender], NULL);
    pthread_create(&taker, NULL, take, NULL);
    pthread_create(&acknowledger, NULL, acknowledge, NULL);
    for (sender = 0; sender < senders; sender++) {
        /* A handle is moved, never copied: the old place isn't used again. */
        drivers[sender] = (struct driver){.sender = handles[sender], .number = sender, .batches = batches};
        handles[sender] = (smmuq_sender)SMMUQ_EMPTY;
        pthread_create(&drivers[sender].thread, NULL, drive, &drivers[sender]);
    }
    for (sender = 0; sender < senders; sender++)
        pthread_join(drivers[sender].thread, NULL);
    status = smmuq_close(&drivers[0].sender);
    sem_post(&device.bell);
    pthread_join(taker, NULL);
    pthread_join(acknowledger, NULL);
    right = status == SMMUQ_OK && check(drivers, senders, batches);
    for (sender = 0; sender < senders; sender++) {
        smmuq_free(&drivers[sender].sender.handle);
        pthread_cond_destroy(&waiting.done[sender]);
    }
    smmuq_free(&device.engine.handle);
    sem_destroy(&device.bell);
    return right ? 0 : 1;
}
