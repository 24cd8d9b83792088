/* SPDX-License-Identifier: MIT OR Apache-2.0 */
// Rings of 1,024 slots, to compare ours with: many senders, each on a thread, and one consumer on a thread.
//
//   linux_seq_cst  the scheme of Linux's driver, by the steps of our ring, every access sequentially consistent
//   linux_acq_rel  the same by acquire and release, its commands in plain words
//   mutex          a plain ring under one pthread mutex
//
// The consumer looks again at once, or waits after it took fewer commands than it may. A sender sends one batch after
// another, or waits until each is done.
//
// Prints a line for each ring and each of 1 to 3 senders, pace and sending: the name of the ring, the pace, the sending, how
// many senders, the nanoseconds from before the threads start to after all are joined, and how many commands were taken.
#include <pthread.h>
#include <stdatomic.h>
#include <stdbool.h>
#include <stdint.h>
#include <stdio.h>
#include <stdlib.h>
#include <string.h>
#include <time.h>

enum {
    SLOTS = 1024,
    WRAP = 2 * SLOTS,
    FLAGS = 64,
    FLAG_WORDS = SLOTS / FLAGS,
    MOST_TAKEN = 64,
    // How many hints to the processor a wait takes.
    HINTS = 256,
    MOST_SENDERS = 3,
    MOST_SENT = 5,
    BATCHES = 300000,
    FOUR_BATCHES = 2 + 3 + 4 + 5,
    LINE = 64,
};

struct command {
    uint64_t lo, hi;
};

// CMD_CFGI_STE of stream 7.
static const struct command CFGI_STE = {0x0000000700000003, 1};

static const uint64_t OPCODE_SYNC = 0x46;

// A CMD_SYNC has the number of its sender's batch in bits 63:32 of its low word, and in the high word whose it is.
static struct command closing_sync(unsigned sender, uint32_t number) {
    return (struct command){(uint64_t)number << 32 | OPCODE_SYNC, (uint64_t)sender << 2};
}

static bool is_sync(struct command command) {
    return (command.lo & 0xff) == OPCODE_SYNC;
}

static unsigned sync_sender(struct command sync) {
    return sync.hi >> 2;
}

static uint32_t sync_number(struct command sync) {
    return sync.lo >> 32;
}

struct cell {
    _Alignas(LINE) _Atomic uint64_t done;
};

// A way to send and to take: `send` says whether the whole batch went in, `take` how many commands it took, `done` the
// number of the sender's last batch that is done.
struct kind {
    const char *name;
    bool (*send)(const struct command *batch, unsigned count);
    unsigned (*take)(void);
    uint64_t (*done)(unsigned sender);
};

// ---- the scheme of Linux's driver

// An index is below 2,048, and its upper bit turns from lap to lap. The control word has prod in bits 31:0, and cons in
// bits 63:32.
static struct {
    _Alignas(LINE) _Atomic uint64_t control;
    _Alignas(LINE) _Atomic uint64_t flags[FLAG_WORDS];
    _Alignas(LINE) _Atomic uint64_t words[SLOTS][2];
    struct command commands[SLOTS];
    struct cell cells[MOST_SENDERS];
    // The consumer's own.
    _Alignas(LINE) uint32_t head;
} linux_ring;

static uint32_t forward(uint32_t index, uint32_t count) {
    return (index + count) % WRAP;
}

// On the first lap, and on each second one, a flag is set where its slot is written.
static uint64_t polarity(uint32_t index) {
    return index < SLOTS;
}

static uint64_t stretch(unsigned first, unsigned count) {
    return ~0ull >> (FLAGS - count) << first;
}

// How many flags, from that of the index on, are of written slots, as far as they stand in one word.
static unsigned count_ready(uint64_t word, uint32_t index) {
    uint64_t same = (polarity(index) ? word : ~word) >> (index % FLAGS);
    unsigned count = ~same ? __builtin_ctzll(~same) : FLAGS;
    return count < MOST_TAKEN ? count : MOST_TAKEN;
}

// Reserves so many slots, by one look and one exchange.
static inline bool reserve(uint32_t count, uint32_t *start, memory_order look, memory_order won) {
    uint64_t seen = atomic_load_explicit(&linux_ring.control, look);
    uint32_t prod = (uint32_t)seen, cons = seen >> 32;
    if ((prod - cons) % WRAP + count > SLOTS)
        return false;
    uint64_t after = (uint64_t)cons << 32 | forward(prod, count);
    *start = prod;
    return atomic_compare_exchange_strong_explicit(&linux_ring.control, &seen, after, won, look);
}

// Flips the flags of so many slots, which stand in at most two words.
static inline void hand_over(uint32_t start, uint32_t count, memory_order order) {
    while (count) {
        uint32_t place = start % SLOTS, left = FLAGS - place % FLAGS;
        uint32_t here = count < left ? count : left;
        atomic_fetch_xor_explicit(&linux_ring.flags[place / FLAGS], stretch(place % FLAGS, here), order);
        start = forward(start, here);
        count -= here;
    }
}

// How many commands are ready from the head on.
static inline unsigned look_and_test(memory_order order) {
    uint64_t seen = atomic_load_explicit(&linux_ring.control, order);
    if ((uint32_t)seen == seen >> 32)
        return 0;
    uint32_t head = linux_ring.head;
    return count_ready(atomic_load_explicit(&linux_ring.flags[head % SLOTS / FLAGS], order), head);
}

// Moves cons past so many commands, and acknowledges each CMD_SYNC among them.
static inline void complete(const struct command *commands, unsigned count, memory_order advance, memory_order done) {
    uint32_t head = linux_ring.head, after = forward(head, count);
    atomic_fetch_xor_explicit(&linux_ring.control, (uint64_t)(head ^ after) << 32, advance);
    linux_ring.head = after;
    for (unsigned i = 0; i < count; i++)
        if (is_sync(commands[i]))
            atomic_store_explicit(&linux_ring.cells[sync_sender(commands[i])].done, sync_number(commands[i]), done);
}

static bool send_seq_cst(const struct command *batch, unsigned count) {
    uint32_t start;
    if (!reserve(count, &start, memory_order_seq_cst, memory_order_seq_cst))
        return false;
    for (unsigned i = 0; i < count; i++) {
        _Atomic uint64_t *slot = linux_ring.words[(start + i) % SLOTS];
        atomic_store(&slot[0], batch[i].lo);
        atomic_store(&slot[1], batch[i].hi);
    }
    hand_over(start, count, memory_order_seq_cst);
    return true;
}

static unsigned take_seq_cst(void) {
    struct command taken[MOST_TAKEN];
    unsigned count = look_and_test(memory_order_seq_cst);
    if (count == 0)
        return 0;
    for (unsigned i = 0; i < count; i++) {
        _Atomic uint64_t *slot = linux_ring.words[(linux_ring.head + i) % SLOTS];
        taken[i].lo = atomic_load(&slot[0]);
        taken[i].hi = atomic_load(&slot[1]);
    }
    complete(taken, count, memory_order_seq_cst, memory_order_seq_cst);
    return count;
}

static uint64_t done_seq_cst(unsigned sender) {
    return atomic_load(&linux_ring.cells[sender].done);
}

static bool send_acq_rel(const struct command *batch, unsigned count) {
    uint32_t start;
    if (!reserve(count, &start, memory_order_acquire, memory_order_acq_rel))
        return false;
    for (unsigned i = 0; i < count; i++)
        linux_ring.commands[(start + i) % SLOTS] = batch[i];
    hand_over(start, count, memory_order_release);
    return true;
}

static unsigned take_acq_rel(void) {
    struct command taken[MOST_TAKEN];
    unsigned count = look_and_test(memory_order_acquire);
    if (count == 0)
        return 0;
    for (unsigned i = 0; i < count; i++)
        taken[i] = linux_ring.commands[(linux_ring.head + i) % SLOTS];
    complete(taken, count, memory_order_release, memory_order_release);
    return count;
}

static uint64_t done_acq_rel(unsigned sender) {
    return atomic_load_explicit(&linux_ring.cells[sender].done, memory_order_acquire);
}

// ---- a plain ring

static struct {
    pthread_mutex_t mutex;
    uint32_t prod, cons;
    struct command commands[SLOTS];
    uint64_t done[MOST_SENDERS];
} plain = {.mutex = PTHREAD_MUTEX_INITIALIZER};

static bool send_locked(const struct command *batch, unsigned count) {
    pthread_mutex_lock(&plain.mutex);
    bool fits = plain.prod - plain.cons + count <= SLOTS;
    if (fits) {
        for (unsigned i = 0; i < count; i++)
            plain.commands[(plain.prod + i) % SLOTS] = batch[i];
        plain.prod += count;
    }
    pthread_mutex_unlock(&plain.mutex);
    return fits;
}

static unsigned take_locked(void) {
    struct command taken[MOST_TAKEN];
    pthread_mutex_lock(&plain.mutex);
    uint32_t ready = plain.prod - plain.cons;
    unsigned count = ready < MOST_TAKEN ? ready : MOST_TAKEN;
    for (unsigned i = 0; i < count; i++) {
        taken[i] = plain.commands[(plain.cons + i) % SLOTS];
        if (is_sync(taken[i]))
            plain.done[sync_sender(taken[i])] = sync_number(taken[i]);
    }
    plain.cons += count;
    pthread_mutex_unlock(&plain.mutex);
    return count;
}

static uint64_t done_locked(unsigned sender) {
    pthread_mutex_lock(&plain.mutex);
    uint64_t done = plain.done[sender];
    pthread_mutex_unlock(&plain.mutex);
    return done;
}

// ---- the workload

struct worker {
    const struct kind *kind;
    unsigned sender;
    // Whether the consumer waits after it took fewer commands than it may, and a sender until its batch is done.
    bool waits, round_trip;
    uint64_t wanted, taken;
};

// Batch k of sender s has 1 + (s + k) mod 4 commands ahead of its CMD_SYNC. Each is tried until it goes in.
static void *send_all(void *argument) {
    struct worker *worker = argument;
    for (uint32_t k = 0; k < BATCHES; k++) {
        struct command batch[MOST_SENT];
        unsigned length = 1 + (worker->sender + k) % 4;
        for (unsigned i = 0; i < length; i++)
            batch[i] = CFGI_STE;
        batch[length] = closing_sync(worker->sender, k + 1);
        while (!worker->kind->send(batch, length + 1))
            ;
        while (worker->round_trip && worker->kind->done(worker->sender) <= k)
            ;
    }
    return NULL;
}

static void let_more_come(void) {
    for (unsigned i = 0; i < HINTS; i++)
        __builtin_ia32_pause();
}

static void *take_all(void *argument) {
    struct worker *worker = argument;
    while (worker->taken < worker->wanted) {
        unsigned count = worker->kind->take();
        worker->taken += count;
        if (worker->waits && count > 0 && count < MOST_TAKEN)
            let_more_come();
    }
    return NULL;
}

static uint64_t nanoseconds(void) {
    struct timespec now;
    clock_gettime(CLOCK_MONOTONIC, &now);
    return now.tv_sec * 1000000000ull + now.tv_nsec;
}

static void start(pthread_t *thread, void *(*run)(void *), struct worker *worker) {
    if (pthread_create(thread, NULL, run, worker) != 0) {
        fputs("no thread\n", stderr);
        exit(1);
    }
}

static void time_one(const struct kind *kind, unsigned senders, bool waits, bool round_trip) {
    pthread_t threads[MOST_SENDERS + 1];
    struct worker workers[MOST_SENDERS + 1];
    memset(&linux_ring, 0, sizeof linux_ring);
    plain.prod = plain.cons = 0;
    memset(plain.done, 0, sizeof plain.done);
    for (unsigned i = 0; i <= senders; i++)
        workers[i] = (struct worker){kind, i, waits, round_trip, (uint64_t)senders * BATCHES / 4 * FOUR_BATCHES, 0};

    uint64_t before = nanoseconds();
    start(&threads[senders], take_all, &workers[senders]);
    for (unsigned i = 0; i < senders; i++)
        start(&threads[i], send_all, &workers[i]);
    for (unsigned i = 0; i <= senders; i++)
        pthread_join(threads[i], NULL);
    uint64_t after = nanoseconds();

    printf("%s %s %s %u %llu %llu\n", kind->name, waits ? "waiting" : "at_once", round_trip ? "round_trip" : "stream", senders,
        (unsigned long long)(after - before),
        (unsigned long long)workers[senders].taken);
}

int main(void) {
    static const struct kind kinds[] = {
        {"linux_seq_cst", send_seq_cst, take_seq_cst, done_seq_cst},
        {"linux_acq_rel", send_acq_rel, take_acq_rel, done_acq_rel},
        {"mutex", send_locked, take_locked, done_locked},
    };
    for (unsigned i = 0; i < sizeof kinds / sizeof *kinds; i++)
        for (unsigned senders = 1; senders <= MOST_SENDERS; senders++) {
            time_one(&kinds[i], senders, false, false);
            time_one(&kinds[i], senders, true, false);
            time_one(&kinds[i], senders, false, true);
            time_one(&kinds[i], senders, true, true);
        }
    return 0;
}
