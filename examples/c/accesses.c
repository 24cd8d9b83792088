/* SPDX-License-Identifier: MIT OR Apache-2.0 */
/* A device model in which walks, accesses to memory and the command queue go on at the same time. A driver frees a page and
 * its table as soon as its CMD_SYNC completed, and poisons them. No access and no walk ever reads poison: each is a
 * transaction, for which the CMD_SYNC waits, and what a walk read isn't filled in once an invalidation overtook it.
 *
 *     accesses              each access and walk ends when it is over
 *     accesses early        each ends before it reads: some read poison
 *     accesses unwalked     what a walk read is filled in as if it were read then: some accesses read poison
 *
 * The SMMU's thread takes commands, two devices read a page, and the driver maps and frees it. All of the model is under one
 * lock, which nobody holds while tables or pages are read.
 */
#define _POSIX_C_SOURCE 200809L
#include "smmuq.h"

#include <pthread.h>
#include <sched.h>
#include <stdio.h>
#include <stdlib.h>
#include <string.h>
#include <time.h>

enum { LOG2 = 4, SLOTS = 1 << LOG2, DEVICES = 2, PAGES = 2, WORDS = 512, ROUNDS = 200 };
#define POISON UINT64_C(0x6b6b6b6b6b6b6b6b)

/* The guest's memory: its command queue, its pages, and for each a table whose first word is the page's place. The driver
 * says which table is walked, or NULL, while a walk may begin, so both do that by an atomic access. */
static struct {
    smmuq_command queue[SLOTS];
    uint64_t pages[PAGES][WORDS], tables[PAGES][WORDS];
    const uint64_t *table;
} guest;

static const smmuq_tag PAGE = {.kind = SMMUQ_S1, .vmid = 1, .scope = SMMUQ_SCOPE_ASID, .asid = 2, .address = 0x3000};

static struct {
    pthread_mutex_t lock;   /* of all that is here, and one call at a time on the unit */
    pthread_cond_t changed; /* something here did */
    smmuq_unit unit;
    uint32_t prod, cons; /* SMMU_CMDQ_PROD and SMMU_CMDQ_CONS, with the wrap bit */
    int due;             /* the queue is to be looked at */
    int over;            /* the driver is done */
    uint32_t accesses, waits, poisoned, strayed;
} model = {.lock = PTHREAD_MUTEX_INITIALIZER, .changed = PTHREAD_COND_INITIALIZER, .unit = SMMUQ_EMPTY};

/* What the devices do wrong. It is set before the threads start. */
static enum { NOTHING, EARLY, UNWALKED } fault;
static const char *const WORDS_OF[] = {"right", "early", "unwalked"};

static void want(const char *call, smmuq_status status) {
    if (status != SMMUQ_OK) {
        fprintf(stderr, "%s: %s\n", call, smmuq_status_name(status));
        exit(1);
    }
}

/* ---- the SMMU's thread */

/* Takes what waits, up to a CMD_SYNC that has to wait. That stays where it is, and so does CONS. */
static void serve_queue(void) {
    model.due = 0;
    while (model.cons != model.prod) {
        const smmuq_command command = guest.queue[model.cons & (SLOTS - 1)];
        smmuq_verdict verdict;
        smmuq_status status = smmuq_unit_judge(&model.unit, command.lo, command.hi, &verdict);
        if (status == SMMUQ_WAITING) {
            model.waits++;
            return;
        }
        want("unit_judge", status);
        model.cons = (model.cons + 1) & (2 * SLOTS - 1);
    }
}

static void *take_commands(void *unused) {
    pthread_mutex_lock(&model.lock);
    while (!model.over) {
        if (model.due) {
            serve_queue();
            pthread_cond_broadcast(&model.changed);
        } else {
            pthread_cond_wait(&model.changed, &model.lock);
        }
    }
    pthread_mutex_unlock(&model.lock);
    return unused;
}

/* ---- the devices' threads */

/* A walk and an access take their time, so that others come between. */
static void take_time(void) {
    const struct timespec some = {0, 100000};
    nanosleep(&some, NULL);
}

/* A walk or an access is over. If a CMD_SYNC waited for it alone, the queue goes on. */
static void end(uint64_t transaction) {
    uint32_t last;
    want("end", smmuq_end(&model.unit, transaction, &last));
    if (last) {
        model.due = 1;
        pthread_cond_broadcast(&model.changed);
    }
}

/* Reads a page or a table, and is slow about it. Answers whether a word of it was poison. */
static int reads_poison(const uint64_t *page) {
    int word, poisoned = 0;
    take_time();
    for (word = 0; word < WORDS; word++)
        poisoned |= page[word] == POISON;
    return poisoned;
}

/* Fills in what a walk read, unless an invalidation came meanwhile: then nothing is held, and there is another walk. */
static void fill(uint64_t walk, uint64_t leaf) {
    smmuq_status status;
    if (fault == UNWALKED)
        status = smmuq_fill(&model.unit.handle, &PAGE, leaf);
    else
        status = smmuq_fill_walked(&model.unit, walk, &PAGE, leaf);
    if (status != SMMUQ_OVERTAKEN && status != SMMUQ_TOO_OLD && status != SMMUQ_OTHER_WALK)
        want("fill_walked", status);
}

/* Walks for the page's entry. Answers whether the page is mapped. The lock is free while the table is read. */
static int walk_for_page(void) {
    uint64_t walk, transaction;
    const uint64_t *table;
    int strayed = 0;
    want("begin_outstanding_walk", smmuq_begin_outstanding_walk(&model.unit, &walk, &transaction));
    if (fault == EARLY)
        end(transaction); /* nothing waits for what follows */
    pthread_mutex_unlock(&model.lock);
    table = __atomic_load_n(&guest.table, __ATOMIC_SEQ_CST);
    if (table)
        strayed = reads_poison(table);
    pthread_mutex_lock(&model.lock);
    model.strayed += strayed;
    if (table && !strayed)
        fill(walk, table[0]);
    if (fault != EARLY)
        end(transaction);
    return table != NULL;
}

/* Begins an access: with the page's entry, or once a walk has filled it in. Answers whether the page is mapped. */
static int begin_access(smmuq_held *held, uint64_t *transaction) {
    smmuq_status status;
    while ((status = smmuq_begin(&model.unit, &PAGE, held, transaction)) == SMMUQ_NOT_HELD)
        if (!walk_for_page())
            return 0;
    want("begin", status);
    model.accesses++;
    pthread_cond_broadcast(&model.changed);
    return 1;
}

static void *use_page(void *unused) {
    smmuq_held held;
    uint64_t transaction;
    pthread_mutex_lock(&model.lock);
    while (!model.over) {
        const int mapped = begin_access(&held, &transaction);
        int poisoned = 0;
        if (mapped && fault == EARLY)
            end(transaction); /* nothing waits for what follows */
        pthread_mutex_unlock(&model.lock);
        if (mapped)
            poisoned = reads_poison((const uint64_t *)(uintptr_t)held.value);
        else
            sched_yield();
        pthread_mutex_lock(&model.lock);
        model.poisoned += poisoned;
        if (mapped && fault != EARLY)
            end(transaction);
    }
    pthread_mutex_unlock(&model.lock);
    return unused;
}

/* ---- the driver's thread */

static void map(const uint64_t *table) { __atomic_store_n(&guest.table, table, __ATOMIC_SEQ_CST); }

static void fill_page(uint64_t *page, uint64_t value) {
    int word;
    for (word = 0; word < WORDS; word++)
        page[word] = value;
}

/* Puts a command into the queue; there is room, since each round waits for its own. */
static void put(const smmuq_fields *fields) {
    want("encode", smmuq_encode(fields, &guest.queue[model.prod & (SLOTS - 1)]));
    model.prod = (model.prod + 1) & (2 * SLOTS - 1);
}

/* Invalidates the page, and waits until the CMD_SYNC behind that completed: CONS is past it. */
static void invalidate(void) {
    const smmuq_fields page = {.opcode = SMMUQ_OPCODE_TLBI_NH_VA, .vmid = 1, .asid = 2, .leaf = 1, .address = 0x3000};
    const smmuq_fields sync = {.opcode = SMMUQ_OPCODE_CMD_SYNC};
    put(&page);
    put(&sync);
    model.due = 1;
    pthread_cond_broadcast(&model.changed);
    while (model.cons != model.prod)
        pthread_cond_wait(&model.changed, &model.lock);
}

/* Whether these rounds do. What a fault leads to comes by chance, so there are more of them until it was seen. */
static int are_enough(uint32_t rounds) {
    int seen;
    pthread_mutex_lock(&model.lock);
    seen = fault == NOTHING || (model.poisoned && (model.strayed || fault != EARLY));
    pthread_mutex_unlock(&model.lock);
    return rounds >= (seen ? ROUNDS : 100 * ROUNDS);
}

/* Maps a page, and frees it and its table while they are in use: they are another's once the driver was told. */
static void *drive(void *unused) {
    uint32_t round;
    for (round = 1; !are_enough(round - 1); round++) {
        uint64_t *page = guest.pages[round % PAGES], *table = guest.tables[round % PAGES];
        uint32_t before;
        fill_page(page, round);
        fill_page(table, 0);
        table[0] = (uint64_t)(uintptr_t)page;
        pthread_mutex_lock(&model.lock);
        before = model.accesses;
        map(table);
        while (model.accesses == before)
            pthread_cond_wait(&model.changed, &model.lock);
        map(NULL);
        invalidate();
        pthread_mutex_unlock(&model.lock);
        fill_page(page, POISON);
        fill_page(table, POISON);
    }
    pthread_mutex_lock(&model.lock);
    model.over = 1;
    pthread_cond_broadcast(&model.changed);
    pthread_mutex_unlock(&model.lock);
    return unused;
}

int main(int argc, char **argv) {
    pthread_t smmu, devices[DEVICES], driver;
    int i;
    for (i = NOTHING; argc > 1 && i <= UNWALKED; i++)
        if (strcmp(argv[1], WORDS_OF[i]) == 0)
            fault = i;
    /* Each device makes one walk or one access at a time, with one entry. */
    want("unit_new_tracking", smmuq_unit_new_tracking(0, 16, DEVICES, &model.unit));
    pthread_create(&smmu, NULL, take_commands, NULL);
    for (i = 0; i < DEVICES; i++)
        pthread_create(&devices[i], NULL, use_page, NULL);
    pthread_create(&driver, NULL, drive, NULL);
    pthread_join(driver, NULL);
    for (i = 0; i < DEVICES; i++)
        pthread_join(devices[i], NULL);
    pthread_join(smmu, NULL);
    smmuq_free(&model.unit.handle);
    printf("%s: %s and %s read poison, %s\n", WORDS_OF[fault], model.poisoned ? "some accesses" : "no access",
           model.strayed ? "some walks" : "no walk", model.waits ? "CMD_SYNCs waited" : "no CMD_SYNC waited");
    return 0;
}
