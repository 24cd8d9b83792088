/* SPDX-License-Identifier: MIT OR Apache-2.0 */
// The translation table of an emulator's SMMU model, to compare a unit's time with: a hash table that keeps its hashes
// and the pointers to its nodes in two arrays, each node in memory of its own. Without a way to find the entries that
// an invalidation by address covers, it walks the whole table and removes what matches.
//
// It times nothing, an invalidation that removes one entry, a look-up that finds one, and one that finds nothing, in turn,
// each alone and behind a walk over 32 MB of other memory. Prints a line for each: which it is, how many entries are
// held, the nanoseconds, and the sum of the walk ahead of it.
#define _POSIX_C_SOURCE 200809L
#include <stdbool.h>
#include <stdint.h>
#include <stdio.h>
#include <stdlib.h>
#include <time.h>

enum {
    ENTRIES = 250,
    MOST_ENTRIES = 256,
    SLOTS = 512,
    TURNS = 1000,
    STRIDE = 7919,
    NEVER_HELD = 65000,
    WORDS = 4194304,
    LINE = 8,
};

// ---- the table

struct key {
    uint64_t page;
    uint16_t asid, vmid;
    uint8_t span;
};

struct node {
    struct key key;
    uint64_t value;
};

// Hashes that stand for no node; the second also says that the search goes on.
static const uint32_t UNUSED = 0, REMOVED = 1;

static struct {
    uint32_t hashes[SLOTS];
    struct node *nodes[SLOTS];
    unsigned count;
} *table;

static void *memory(size_t size) {
    void *taken = calloc(1, size);
    if (taken == NULL) {
        fputs("no memory\n", stderr);
        exit(1);
    }
    return taken;
}

static uint32_t hash_of(const struct key *key) {
    uint64_t mixed = key->page ^ (uint64_t)key->asid << 52 ^ (uint64_t)key->vmid << 40 ^ (uint64_t)key->span << 32;
    mixed *= 0x9e3779b97f4a7c15;
    return (uint32_t)(mixed >> 32) | 2;
}

static bool same(const struct key *a, const struct key *b) {
    return a->page == b->page && a->asid == b->asid && a->vmid == b->vmid && a->span == b->span;
}

// The node of this key, or none.
static struct node *look_up(const struct key *key) {
    uint32_t hash = hash_of(key);
    unsigned slot = hash >> 2 & (SLOTS - 1);
    for (unsigned step = 1; table->hashes[slot] != UNUSED; step++) {
        if (table->hashes[slot] == hash && same(&table->nodes[slot]->key, key))
            return table->nodes[slot];
        slot = (slot + step) & (SLOTS - 1);
    }
    return NULL;
}

// Puts in an entry whose key isn't there.
static void fill(const struct key *key, uint64_t value) {
    if (table->count == MOST_ENTRIES) {
        fputs("no room\n", stderr);
        exit(1);
    }
    uint32_t hash = hash_of(key);
    unsigned slot = hash >> 2 & (SLOTS - 1);
    for (unsigned step = 1; table->hashes[slot] > REMOVED; step++)
        slot = (slot + step) & (SLOTS - 1);
    table->hashes[slot] = hash;
    table->nodes[slot] = memory(sizeof(struct node));
    *table->nodes[slot] = (struct node){*key, value};
    table->count++;
}

// Removes each entry of this address space whose block has the page: how many.
static unsigned invalidate(uint16_t vmid, uint16_t asid, uint64_t page) {
    unsigned removed = 0;
    for (unsigned slot = 0; slot < SLOTS; slot++) {
        struct node *node = table->nodes[slot];
        if (table->hashes[slot] <= REMOVED || node->key.vmid != vmid || node->key.asid != asid)
            continue;
        if (page >> node->key.span != node->key.page >> node->key.span)
            continue;
        table->hashes[slot] = REMOVED;
        table->nodes[slot] = NULL;
        free(node);
        removed++;
    }
    table->count -= removed;
    return removed;
}

// ---- what is timed

// The entry at a place, as the units of the other program have it.
static struct key key_at(unsigned place) {
    unsigned block = place / 16;
    return (struct key){
        .page = (uint64_t)block * 0x400,
        .asid = 1 + place / 4 % 4,
        .vmid = 1 + place % 4,
        .span = block % 8 == 7 ? 9 : 0,
    };
}

static uint64_t *other;

// Reads a word of each line of the other memory: their sum.
static __attribute__((noinline)) uint64_t walk(void) {
    uint64_t sum = 0;
    for (unsigned i = 0; i < WORDS; i += LINE)
        sum += other[i];
    return sum;
}

static uint64_t nanoseconds(void) {
    struct timespec now;
    clock_gettime(CLOCK_MONOTONIC, &now);
    return now.tv_sec * 1000000000ull + now.tv_nsec;
}

static void report(const char *what, unsigned count, uint64_t before, uint64_t after, uint64_t sum) {
    printf("%s %u %llu %llu\n", what, count, (unsigned long long)(after - before), (unsigned long long)sum);
}

static void expect(bool holds) {
    if (!holds) {
        fputs("another entry was met\n", stderr);
        exit(1);
    }
}

static void time_turn(unsigned turn) {
    struct key key = key_at(turn * STRIDE % ENTRIES);

    uint64_t sum = walk(), before = nanoseconds(), after = nanoseconds();
    report("nothing", 0, before, after, sum);

    sum = walk(), before = nanoseconds();
    unsigned removed = invalidate(key.vmid, key.asid, key.page);
    after = nanoseconds();
    report("command", ENTRIES, before, after, sum);
    expect(removed == 1);
    fill(&key, 0);

    sum = walk(), before = nanoseconds();
    struct node *found = look_up(&key);
    after = nanoseconds();
    report("look-up", ENTRIES, before, after, sum);
    expect(found != NULL && same(&found->key, &key));

    key = key_at(NEVER_HELD);
    sum = walk(), before = nanoseconds();
    found = look_up(&key);
    after = nanoseconds();
    report("miss", ENTRIES, before, after, sum);
    expect(found == NULL);
}

int main(void) {
    other = memory(WORDS * sizeof *other);
    for (unsigned i = 0; i < WORDS; i++)
        other[i] = 1;
    table = memory(sizeof *table);
    for (unsigned place = 0; place < ENTRIES; place++) {
        struct key key = key_at(place);
        fill(&key, 0);
    }
    for (unsigned turn = 0; turn < TURNS; turn++)
        time_turn(turn);
    return 0;
}
