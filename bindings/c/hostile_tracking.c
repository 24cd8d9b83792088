/* SPDX-License-Identifier: MIT OR Apache-2.0 */
/* A hostile caller of a unit's walks and transactions: wrong and empty handles, numbers that were guessed, spent, of another
 * unit or of before a reset, room out of range, and buffers that overlap. What is refused changes nothing and tells nothing.
 * tools/check-c runs it. */
#include "smmuq.h"

#include <stdio.h>
#include <stdlib.h>
#include <string.h>

static void want(const char *call, int line, uint64_t got, uint64_t wanted) {
    if (got != wanted) {
        printf("line %d: %s is 0x%llx, not 0x%llx\n", line, call, (unsigned long long)got, (unsigned long long)wanted);
        exit(1);
    }
}
#define WANT(call, answer) want(#call, __LINE__, (call), (answer))

enum { MOST_ROOM = 65535 };

static const smmuq_tag PAGE = {.kind = SMMUQ_S1, .vmid = 1, .scope = SMMUQ_SCOPE_ASID, .asid = 2, .address = 0x1000};
static const smmuq_tag OTHER = {.kind = SMMUQ_S1, .vmid = 1, .scope = SMMUQ_SCOPE_ASID, .asid = 3, .address = 0x1000};
static const smmuq_tag NO_TAG = {.kind = 7};
static const smmuq_tag NO_BLOCK = {.kind = SMMUQ_S1, .vmid = 1, .scope = SMMUQ_SCOPE_GLOBAL, .span = 4, .address = 0x1000};

/* What tells whether a refused call told something. */
enum { UNTOLD = 0x5a };

/* ---- a unit, and what is asked of it again and again */

static smmuq_unit new_numbered(uint32_t number, uint32_t room) {
    smmuq_unit unit = SMMUQ_EMPTY;
    WANT(smmuq_unit_new_tracking(number, 4, room, &unit), SMMUQ_OK);
    WANT(smmuq_kind(&unit.handle), 1);
    WANT(smmuq_fill(&unit.handle, &PAGE, 7), SMMUQ_OK);
    return unit;
}

static smmuq_unit new_unit(uint32_t room) { return new_numbered(0, room); }

static void want_counts(smmuq_unit *unit, uint32_t outstanding, uint32_t covered) {
    smmuq_transactions counts;
    WANT(smmuq_outstanding(unit, &counts), SMMUQ_OK);
    WANT(counts.outstanding, outstanding);
    WANT(counts.covered, covered);
}

static uint64_t begun(smmuq_unit *unit, const smmuq_tag *tag) {
    smmuq_held held;
    uint64_t transaction = 0;
    WANT(smmuq_begin(unit, tag, &held, &transaction), SMMUQ_OK);
    WANT(transaction != 0, 1);
    return transaction;
}

static uint64_t walking(smmuq_unit *unit) {
    uint64_t walk = 0;
    WANT(smmuq_begin_walk(unit, &walk), SMMUQ_OK);
    WANT(walk != 0, 1);
    return walk;
}

static void want_end(smmuq_unit *unit, uint64_t transaction, uint32_t wanted) {
    uint32_t last = UNTOLD;
    WANT(smmuq_end(unit, transaction, &last), SMMUQ_OK);
    WANT(last, wanted);
}

static void want_not_outstanding(smmuq_unit *unit, uint64_t transaction) {
    uint32_t last = UNTOLD;
    WANT(smmuq_end(unit, transaction, &last), SMMUQ_NOT_OUTSTANDING);
    WANT(last, UNTOLD);
}

/* Neither a fill nor a transaction takes what such a walk read. */
static void want_refused_walk(smmuq_unit *unit, uint64_t walk, const smmuq_tag *tag, smmuq_status status) {
    uint64_t transaction = UNTOLD;
    WANT(smmuq_fill_walked(unit, walk, tag, 9), status);
    WANT(smmuq_begin_walked(unit, walk, tag, &transaction), status);
    WANT(transaction, UNTOLD);
}

static void want_judged(smmuq_unit *unit, uint64_t lo, uint64_t hi, smmuq_status status, smmuq_verdict wanted) {
    smmuq_verdict verdict = {UNTOLD, UNTOLD, UNTOLD};
    WANT(smmuq_unit_judge(unit, lo, hi, &verdict), status);
    WANT(verdict.removed, wanted.removed);
    WANT(verdict.ill, wanted.ill);
    WANT(verdict.waiting, wanted.waiting);
}

/* TLBI_NH_ASID of VMID 1, and CMD_SYNC. */
static void invalidate(smmuq_unit *unit, uint64_t asid, uint32_t removed) {
    want_judged(unit, SMMUQ_OPCODE_TLBI_NH_ASID | UINT64_C(1) << 32 | asid << 48, 0, SMMUQ_OK, (smmuq_verdict){removed, 0, 0});
}

static void sync_waits(smmuq_unit *unit, uint32_t transactions) {
    want_judged(unit, SMMUQ_OPCODE_CMD_SYNC, 0, SMMUQ_WAITING, (smmuq_verdict){0, 0, transactions});
}

static void sync_is_taken(smmuq_unit *unit) {
    want_judged(unit, SMMUQ_OPCODE_CMD_SYNC, 0, SMMUQ_OK, (smmuq_verdict){0, 0, 0});
}

/* ---- handles */

/* Each call on a handle that is empty or of another kind, with a tag that is none: the handle comes first. */
static void refuse_handle(smmuq_unit *handle, smmuq_status status) {
    uint64_t walk = UNTOLD, transaction = UNTOLD;
    uint32_t last = UNTOLD, kind = smmuq_kind(&handle->handle);
    smmuq_held held = {UNTOLD, UNTOLD};
    smmuq_transactions counts = {UNTOLD, UNTOLD};
    WANT(smmuq_begin_walk(handle, &walk), status);
    WANT(smmuq_begin_outstanding_walk(handle, &walk, &transaction), status);
    WANT(smmuq_fill_walked(handle, 1, &NO_TAG, 9), status);
    WANT(smmuq_begin(handle, &NO_TAG, &held, &transaction), status);
    WANT(smmuq_begin_walked(handle, 1, &NO_TAG, &transaction), status);
    WANT(smmuq_end(handle, 1, &last), status);
    WANT(smmuq_outstanding(handle, &counts), status);
    WANT(walk == UNTOLD && transaction == UNTOLD && last == UNTOLD, 1);
    WANT(held.value == UNTOLD && held.born == UNTOLD && counts.outstanding == UNTOLD && counts.covered == UNTOLD, 1);
    WANT(smmuq_kind(&handle->handle), kind);
}

static void pass_wrong_handles(void) {
    smmuq_unit empty = SMMUQ_EMPTY, unit = new_unit(1);
    smmuq_sender senders[2] = {SMMUQ_EMPTY, SMMUQ_EMPTY}, forwarded = SMMUQ_EMPTY;
    smmuq_engine engine = SMMUQ_EMPTY;
    smmuq_consumer consumer = SMMUQ_EMPTY;
    const smmuq_command command = {SMMUQ_OPCODE_TLBI_NSNH_ALL, 0};
    uint32_t number;
    WANT(smmuq_ring_new(4, 9, 4, senders, 2, &engine), SMMUQ_OK);
    WANT(smmuq_consumer_ring_new(4, 9, &forwarded, 1, &consumer), SMMUQ_OK);
    WANT(smmuq_reserve(&senders[1], &command, 1, 1), SMMUQ_OK);
    refuse_handle(&empty, SMMUQ_EMPTY_HANDLE);
    refuse_handle((smmuq_unit *)&senders[0], SMMUQ_WRONG_HANDLE);
    refuse_handle((smmuq_unit *)&senders[1], SMMUQ_WRONG_HANDLE);
    refuse_handle((smmuq_unit *)&engine, SMMUQ_WRONG_HANDLE);
    refuse_handle((smmuq_unit *)&consumer, SMMUQ_WRONG_HANDLE);
    smmuq_free(&unit.handle);
    refuse_handle(&unit, SMMUQ_EMPTY_HANDLE);
    WANT(smmuq_publish(&senders[1], &number), SMMUQ_OK);
    smmuq_free(&senders[0].handle);
    smmuq_free(&senders[1].handle);
    smmuq_free(&forwarded.handle);
    smmuq_free(&engine.handle);
    smmuq_free(&consumer.handle);
}

/* ---- room */

static void ask_for_room(void) {
    smmuq_unit unit = new_unit(1);
    const uint64_t transaction = begun(&unit, &PAGE);
    WANT(smmuq_unit_new_tracking(0, 4, MOST_ROOM + 1, &unit), SMMUQ_BAD_FIELD);
    WANT(smmuq_unit_new_tracking(0, 4, 0xffffffff, &unit), SMMUQ_BAD_FIELD);
    WANT(smmuq_unit_new_tracking(256, 4, 1, &unit), SMMUQ_BAD_FIELD);
    WANT(smmuq_unit_new_tracking(0xffffffff, 4, 1, &unit), SMMUQ_BAD_FIELD);
    WANT(smmuq_unit_new_tracking(256, 0, 1, &unit), SMMUQ_BAD_FIELD);
    WANT(smmuq_unit_new_tracking(0, 0, MOST_ROOM + 1, &unit), SMMUQ_BAD_FIELD);
    WANT(smmuq_unit_new_tracking(0, 0, 1, &unit), SMMUQ_BAD_CAPACITY);
    WANT(smmuq_unit_new_tracking(255, 65537, 1, &unit), SMMUQ_BAD_CAPACITY);
    want_counts(&unit, 1, 0); /* it is as before */
    WANT(smmuq_unit_new_tracking(0, 4, 1, &unit), SMMUQ_OK);
    want_counts(&unit, 0, 0);
    want_not_outstanding(&unit, transaction);
    smmuq_free(&unit.handle);
}

static void want_full(smmuq_unit *unit) {
    const uint64_t walk = walking(unit);
    smmuq_held held = {UNTOLD, UNTOLD};
    uint64_t transaction = UNTOLD, untold = UNTOLD;
    WANT(smmuq_begin(unit, &PAGE, &held, &transaction), SMMUQ_TRANSACTIONS_FULL);
    WANT(smmuq_begin(unit, &OTHER, &held, &transaction), SMMUQ_NOT_HELD);
    WANT(smmuq_begin_walked(unit, walk, &OTHER, &transaction), SMMUQ_TRANSACTIONS_FULL);
    WANT(smmuq_begin_outstanding_walk(unit, &untold, &transaction), SMMUQ_TRANSACTIONS_FULL);
    WANT(untold, UNTOLD);
    WANT(held.value == UNTOLD && held.born == UNTOLD && transaction == UNTOLD, 1);
}

static void have_no_room(void) {
    smmuq_unit unit = new_unit(0);
    want_full(&unit);
    WANT(smmuq_fill_walked(&unit, walking(&unit), &OTHER, 9), SMMUQ_OK); /* a walk takes none */
    want_not_outstanding(&unit, 0);
    sync_is_taken(&unit);
    WANT(smmuq_unit_reset(&unit), SMMUQ_OK);
    want_counts(&unit, 0, 0);
    WANT(smmuq_unit_new(4, &unit), SMMUQ_OK);
    WANT(smmuq_fill(&unit.handle, &PAGE, 7), SMMUQ_OK);
    want_full(&unit);
    smmuq_free(&unit.handle);
}

static void use_all_room(void) {
    static uint64_t transactions[MOST_ROOM];
    smmuq_unit unit = new_unit(MOST_ROOM);
    uint32_t i;
    for (i = 0; i < MOST_ROOM; i++)
        transactions[i] = begun(&unit, &PAGE);
    want_full(&unit);
    invalidate(&unit, 2, 1);
    want_counts(&unit, MOST_ROOM, MOST_ROOM);
    sync_waits(&unit, MOST_ROOM);
    for (i = 0; i < MOST_ROOM; i++)
        want_end(&unit, transactions[i], i == MOST_ROOM - 1);
    for (i = 0; i < MOST_ROOM; i++)
        want_not_outstanding(&unit, transactions[i]);
    sync_is_taken(&unit);
    smmuq_free(&unit.handle);
}

/* ---- numbers of transactions */

static void guess_numbers(void) {
    smmuq_unit unit = new_unit(3), another = new_unit(3), idle = new_unit(3);
    uint64_t transaction = begun(&unit, &PAGE), spent, later;
    uint32_t bit;
    want_not_outstanding(&unit, 0);
    want_not_outstanding(&unit, UINT64_MAX);
    for (bit = 0; bit < 64; bit++)
        want_not_outstanding(&unit, transaction ^ UINT64_C(1) << bit);
    want_counts(&unit, 1, 0);
    /* Another unit's of the same number, unless it happens to be as far. */
    want_not_outstanding(&idle, transaction);
    want_end(&another, begun(&another, &PAGE), 0);
    later = begun(&another, &PAGE);
    want_not_outstanding(&unit, later);
    want_counts(&unit, 1, 0);
    want_counts(&another, 1, 0);
    /* Spent: its slot is another's now. */
    want_end(&unit, transaction, 0);
    want_not_outstanding(&unit, transaction);
    spent = transaction;
    transaction = begun(&unit, &PAGE);
    want_not_outstanding(&unit, spent);
    want_counts(&unit, 1, 0);
    smmuq_free(&unit.handle);
    smmuq_free(&another.handle);
    smmuq_free(&idle.handle);
}

/* Units of other numbers refuse what they didn't give, however far they are. */
static void pass_to_another_unit(void) {
    smmuq_unit units[3] = {new_numbered(0, 2), new_numbered(1, 2), new_numbered(255, 2)};
    uint64_t transactions[3], walks[3];
    int own, other;
    for (own = 0; own < 3; own++) {
        transactions[own] = begun(&units[own], &PAGE);
        walks[own] = walking(&units[own]);
    }
    for (own = 0; own < 3; own++)
        for (other = 0; other < 3; other++)
            if (other != own) {
                want_not_outstanding(&units[own], transactions[other]);
                want_refused_walk(&units[own], walks[other], &OTHER, SMMUQ_OTHER_WALK);
            }
    for (own = 0; own < 3; own++) {
        WANT(smmuq_fill_walked(&units[own], walks[own], &OTHER, 9), SMMUQ_OK);
        want_counts(&units[own], 1, 0);
        want_end(&units[own], transactions[own], 0);
        smmuq_free(&units[own].handle);
    }
}

static void end_after_reset(void) {
    smmuq_unit unit = new_unit(2);
    const uint64_t first = begun(&unit, &PAGE), second = begun(&unit, &PAGE);
    uint64_t later;
    invalidate(&unit, 2, 1);
    sync_waits(&unit, 2);
    WANT(smmuq_unit_reset(&unit), SMMUQ_OK);
    want_counts(&unit, 0, 0);
    sync_is_taken(&unit);
    want_not_outstanding(&unit, first);
    WANT(smmuq_fill(&unit.handle, &PAGE, 8), SMMUQ_OK);
    later = begun(&unit, &PAGE);
    want_not_outstanding(&unit, first);
    want_not_outstanding(&unit, second);
    invalidate(&unit, 2, 1);
    sync_waits(&unit, 1);
    want_end(&unit, later, 1);
    sync_is_taken(&unit);
    smmuq_free(&unit.handle);
}

/* ---- walks */

static void claim_walks(void) {
    smmuq_unit unit = new_unit(1), another = new_unit(1);
    const uint64_t walk = walking(&unit);
    WANT(walking(&unit), walk); /* nothing was taken between */
    want_refused_walk(&unit, 0, &OTHER, SMMUQ_OTHER_WALK);
    want_refused_walk(&unit, UINT64_MAX, &OTHER, SMMUQ_OTHER_WALK);
    want_refused_walk(&unit, walk + 1, &OTHER, SMMUQ_OTHER_WALK);
    sync_is_taken(&another);
    want_refused_walk(&unit, walking(&another), &OTHER, SMMUQ_OTHER_WALK);
    /* What else is wrong comes first. */
    want_refused_walk(&unit, 0, &NO_TAG, SMMUQ_BAD_FIELD);
    want_refused_walk(&unit, 0, &NO_BLOCK, SMMUQ_BAD_BLOCK);
    want_counts(&unit, 0, 0);
    smmuq_free(&unit.handle);
    smmuq_free(&another.handle);
}

static void walk_over_a_reset(void) {
    smmuq_unit unit = new_unit(1);
    const uint64_t early = walking(&unit);
    uint64_t late;
    invalidate(&unit, 9, 0);
    late = walking(&unit);
    WANT(smmuq_unit_reset(&unit), SMMUQ_OK);
    want_refused_walk(&unit, early, &OTHER, SMMUQ_OTHER_WALK);
    want_refused_walk(&unit, late, &OTHER, SMMUQ_OTHER_WALK);
    invalidate(&unit, 9, 0);
    invalidate(&unit, 9, 0);
    want_refused_walk(&unit, early, &OTHER, SMMUQ_OTHER_WALK);
    want_refused_walk(&unit, late, &OTHER, SMMUQ_OTHER_WALK);
    WANT(smmuq_fill_walked(&unit, walking(&unit), &OTHER, 9), SMMUQ_OK);
    smmuq_free(&unit.handle);
}

/* Entries are removed without a command: what a walk read that began before may be what was removed. */
static void remove_some(smmuq_unit *unit, int way) {
    size_t count = 0;
    switch (way) {
    case 0: WANT(smmuq_evict_stream(&unit->handle, 5, &count), SMMUQ_OK); break;
    case 1: WANT(smmuq_evict_machine(&unit->handle, 1, &count), SMMUQ_OK); break;
    case 2: WANT(smmuq_evict_all(&unit->handle, SMMUQ_ALL_KINDS, &count), SMMUQ_OK); break;
    case 3: WANT(smmuq_evict_older(&unit->handle, 0, &count), SMMUQ_OK); break;
    default: WANT(smmuq_invalidate(&unit->handle, SMMUQ_OPCODE_CFGI_STE | UINT64_C(5) << 32, 1, &count), SMMUQ_OK); break;
    }
}

static void walk_over_an_eviction(void) {
    int way;
    for (way = 0; way < 5; way++) {
        smmuq_unit unit = new_unit(1);
        uint64_t early = walking(&unit), late;
        smmuq_held held;
        invalidate(&unit, 9, 0);
        late = walking(&unit);
        remove_some(&unit, way);
        want_refused_walk(&unit, early, &OTHER, SMMUQ_OTHER_WALK);
        want_refused_walk(&unit, late, &OTHER, SMMUQ_OTHER_WALK);
        WANT(smmuq_lookup(&unit.handle, &OTHER, &held), SMMUQ_NOT_HELD);
        early = walking(&unit);
        WANT(early != late, 1);
        invalidate(&unit, 9, 0);
        WANT(smmuq_fill_walked(&unit, early, &OTHER, 9), SMMUQ_OK);
        WANT(smmuq_lookup(&unit.handle, &OTHER, &held), SMMUQ_OK);
        WANT(held.born, 1);
        late = walking(&unit);
        remove_some(&unit, way);
        remove_some(&unit, way);
        want_refused_walk(&unit, early, &OTHER, SMMUQ_OTHER_WALK);
        want_refused_walk(&unit, late, &OTHER, SMMUQ_OTHER_WALK);
        WANT(smmuq_unit_reset(&unit), SMMUQ_OK);
        want_refused_walk(&unit, late, &OTHER, SMMUQ_OTHER_WALK);
        smmuq_free(&unit.handle);
    }
}

static void let_walks_be_overtaken(void) {
    smmuq_unit unit = new_unit(1);
    const uint64_t walk = walking(&unit);
    smmuq_held held;
    uint64_t transaction;
    uint32_t i;
    for (i = 0; i < 63; i++) {
        invalidate(&unit, 9, 0);
        sync_is_taken(&unit); /* which is no invalidation */
    }
    invalidate(&unit, 2, 1);
    want_refused_walk(&unit, walk, &PAGE, SMMUQ_OVERTAKEN);
    WANT(smmuq_fill_walked(&unit, walk, &OTHER, 9), SMMUQ_OK); /* another address space's */
    WANT(smmuq_lookup(&unit.handle, &OTHER, &held), SMMUQ_OK);
    WANT(held.value == 9 && held.born == 0, 1);
    WANT(smmuq_begin_walked(&unit, walk, &OTHER, &transaction), SMMUQ_OK);
    want_end(&unit, transaction, 0);
    invalidate(&unit, 9, 0);
    want_refused_walk(&unit, walk, &PAGE, SMMUQ_TOO_OLD);
    want_refused_walk(&unit, walk, &OTHER, SMMUQ_TOO_OLD);
    WANT(smmuq_fill_walked(&unit, walking(&unit), &PAGE, 9), SMMUQ_OK);
    smmuq_free(&unit.handle);
}

static void walk_where_nothing_fits(void) {
    smmuq_unit unit = SMMUQ_EMPTY;
    smmuq_held held;
    uint64_t walk, transaction;
    WANT(smmuq_unit_new_tracking(0, 1, 1, &unit), SMMUQ_OK);
    WANT(smmuq_fill(&unit.handle, &OTHER, 7), SMMUQ_OK);
    walk = walking(&unit);
    WANT(smmuq_fill_walked(&unit, walk, &PAGE, 9), SMMUQ_CACHES_FULL);
    WANT(smmuq_begin_walked(&unit, walk, &PAGE, &transaction), SMMUQ_OK);
    WANT(smmuq_lookup(&unit.handle, &PAGE, &held), SMMUQ_NOT_HELD);
    invalidate(&unit, 2, 0); /* it isn't held, and in use all the same */
    sync_waits(&unit, 1);
    want_end(&unit, transaction, 1);
    smmuq_free(&unit.handle);
}

/* ---- a CMD_SYNC that waits */

static void let_a_sync_wait(void) {
    smmuq_unit unit = new_unit(3);
    const uint64_t first = begun(&unit, &PAGE), second = begun(&unit, &PAGE);
    uint64_t other;
    smmuq_errors errors;
    smmuq_tallies tallies;
    sync_is_taken(&unit);
    invalidate(&unit, 2, 1);
    WANT(smmuq_fill(&unit.handle, &OTHER, 8), SMMUQ_OK);
    other = begun(&unit, &OTHER);
    sync_waits(&unit, 2);
    sync_waits(&unit, 2);
    want_counts(&unit, 3, 2);
    WANT(smmuq_state(&unit.handle, &errors, &tallies), SMMUQ_OK);
    WANT(tallies.applied == 2 && tallies.syncs == 1 && errors.gerror == 0, 1);
    want_end(&unit, first, 0);
    want_not_outstanding(&unit, first);
    sync_waits(&unit, 1);
    want_end(&unit, other, 0); /* which nothing covers */
    sync_waits(&unit, 1);
    want_end(&unit, second, 1);
    sync_is_taken(&unit);
    smmuq_free(&unit.handle);
}

/* A walk that is outstanding keeps a CMD_SYNC behind any invalidation, and no other. */
static void let_a_sync_wait_for_a_walk(void) {
    smmuq_unit unit = new_unit(2);
    uint64_t walk = 0, transaction = 0, later = 0, second = 0;
    WANT(smmuq_begin_outstanding_walk(&unit, &walk, &transaction), SMMUQ_OK);
    WANT(walk == walking(&unit) && transaction != 0, 1);
    sync_is_taken(&unit);
    want_counts(&unit, 1, 0);
    invalidate(&unit, 9, 0); /* which nothing is held of */
    want_counts(&unit, 1, 1);
    sync_waits(&unit, 1);
    WANT(smmuq_begin_outstanding_walk(&unit, &later, &second), SMMUQ_OK); /* which began behind it */
    sync_waits(&unit, 1);
    WANT(smmuq_fill_walked(&unit, walk, &OTHER, 9), SMMUQ_OK); /* it fills while it is outstanding */
    want_end(&unit, transaction, 1);
    want_not_outstanding(&unit, transaction);
    sync_is_taken(&unit);
    want_end(&unit, second, 0);
    smmuq_free(&unit.handle);
}

/* The entry goes, or another takes its place: who began with it uses it still. */
static void evict_what_is_in_use(void) {
    smmuq_unit unit = new_unit(2);
    const uint64_t evicted = begun(&unit, &PAGE);
    uint64_t replaced;
    smmuq_held held;
    size_t count;
    WANT(smmuq_evict(&unit.handle, &PAGE, &held), SMMUQ_OK);
    WANT(smmuq_fill(&unit.handle, &PAGE, 8), SMMUQ_OK);
    replaced = begun(&unit, &PAGE);
    WANT(smmuq_fill(&unit.handle, &PAGE, 9), SMMUQ_OK);
    WANT(smmuq_evict_all(&unit.handle, SMMUQ_ALL_KINDS, &count), SMMUQ_OK);
    want_counts(&unit, 2, 0);
    invalidate(&unit, 2, 0);
    sync_waits(&unit, 2);
    want_end(&unit, replaced, 0);
    want_end(&unit, evicted, 1);
    smmuq_free(&unit.handle);
}

/* A CMD_SYNC that is illegal, and one behind an error stop, don't wait: that comes first. */
static void stop_while_a_sync_waits(void) {
    smmuq_unit unit = new_unit(1);
    const uint64_t transaction = begun(&unit, &PAGE);
    invalidate(&unit, 2, 1);
    sync_waits(&unit, 1);
    want_judged(&unit, SMMUQ_OPCODE_CMD_SYNC | 3 << 12, 0, SMMUQ_ILL_SIGNAL, (smmuq_verdict){0, SMMUQ_ILL_SIGNAL, 0});
    want_judged(&unit, SMMUQ_OPCODE_CMD_SYNC, 0, SMMUQ_STILL_STOPPED, (smmuq_verdict){0, 0, 0});
    WANT(smmuq_acknowledge(&unit.handle, 1, SMMUQ_REPLACE), SMMUQ_OK);
    want_judged(&unit, SMMUQ_OPCODE_CMD_SYNC, 0, SMMUQ_OTHER_COMMAND, (smmuq_verdict){0, 0, 0});
    want_judged(&unit, SMMUQ_OPCODE_CMD_SYNC | 3 << 12, 0, SMMUQ_REPLACED, (smmuq_verdict){0, SMMUQ_ILL_SIGNAL, 0});
    sync_waits(&unit, 1);
    want_end(&unit, transaction, 1);
    sync_is_taken(&unit);
    smmuq_free(&unit.handle);
}

/* A CMD_SYNC that was written over an illegal command has to wait, too, and then nothing is taken, not even that. */
static void write_a_sync_over_an_illegal_command(void) {
    smmuq_unit unit = new_unit(1);
    const uint64_t transaction = begun(&unit, &PAGE);
    smmuq_errors errors;
    smmuq_tallies tallies;
    invalidate(&unit, 2, 1);
    want_judged(&unit, 0xff, 0, SMMUQ_ILL_OPCODE, (smmuq_verdict){0, SMMUQ_ILL_OPCODE, 0});
    WANT(smmuq_acknowledge(&unit.handle, 1, SMMUQ_REREAD), SMMUQ_OK);
    sync_waits(&unit, 1);
    WANT(smmuq_state(&unit.handle, &errors, &tallies), SMMUQ_OK);
    WANT(tallies.applied == 1 && tallies.replaced == 0, 1);
    want_end(&unit, transaction, 1);
    sync_is_taken(&unit);
    WANT(smmuq_state(&unit.handle, &errors, &tallies), SMMUQ_OK);
    WANT(tallies.applied == 2 && tallies.replaced == 1, 1);
    smmuq_free(&unit.handle);
}

/* ---- buffers and tags */

/* The header forbids what overlaps, so what is told may be lost; the unit is as after any other call. */
static void overlap_buffers(void) {
    smmuq_unit unit = new_unit(3);
    union {
        smmuq_tag tag;
        smmuq_held held;
        uint64_t transaction;
    } one;
    WANT(smmuq_begin(&unit, &PAGE, &one.held, &one.transaction), SMMUQ_OK);
    WANT(smmuq_begin(&unit, &PAGE, &one.held, &one.held.born), SMMUQ_OK);
    one.tag = PAGE;
    WANT(smmuq_begin(&unit, &one.tag, &one.held, &one.transaction), SMMUQ_OK);
    want_counts(&unit, 3, 0);
    invalidate(&unit, 2, 1);
    sync_waits(&unit, 3);
    one.tag = PAGE;
    WANT(smmuq_begin_walked(&unit, walking(&unit), &one.tag, &one.transaction), SMMUQ_TRANSACTIONS_FULL);
    WANT(memcmp(&one.tag, &PAGE, sizeof PAGE), 0);
    WANT(smmuq_unit_reset(&unit), SMMUQ_OK);
    want_counts(&unit, 0, 0);
    WANT(smmuq_begin_walked(&unit, walking(&unit), &one.tag, &one.transaction), SMMUQ_OK);
    want_end(&unit, one.transaction, 0);
    smmuq_free(&unit.handle);
}

static void pass_bad_tags(void) {
    smmuq_unit unit = new_unit(1);
    smmuq_held held = {UNTOLD, UNTOLD};
    uint64_t transaction = UNTOLD;
    WANT(smmuq_begin(&unit, &NO_TAG, &held, &transaction), SMMUQ_BAD_FIELD);
    WANT(smmuq_begin(&unit, &NO_BLOCK, &held, &transaction), SMMUQ_NOT_HELD);
    WANT(smmuq_begin(&unit, &OTHER, &held, &transaction), SMMUQ_NOT_HELD);
    WANT(held.value == UNTOLD && held.born == UNTOLD && transaction == UNTOLD, 1);
    WANT(smmuq_begin(&unit, &PAGE, &held, &transaction), SMMUQ_OK);
    WANT(held.value == 7 && held.born == 0, 1);
    smmuq_free(&unit.handle); /* with a transaction outstanding */
}

static void name_statuses(void) {
    uint32_t status;
    for (status = SMMUQ_WAITING; status <= SMMUQ_NOT_OUTSTANDING; status++) {
        char text[80];
        size_t length;
        WANT(smmuq_status_text(status, text, sizeof text, &length), SMMUQ_OK);
        WANT(strlen(text), length);
        WANT(strncmp(smmuq_status_name((smmuq_status)status), "SMMUQ_", 6), 0);
    }
    WANT(strcmp(smmuq_status_name(SMMUQ_WAITING), "SMMUQ_WAITING"), 0);
    WANT(strcmp(smmuq_status_name((smmuq_status)0x7fff), "unknown status"), 0);
}

int main(void) {
    pass_wrong_handles();
    ask_for_room();
    have_no_room();
    use_all_room();
    guess_numbers();
    pass_to_another_unit();
    end_after_reset();
    claim_walks();
    walk_over_a_reset();
    walk_over_an_eviction();
    let_walks_be_overtaken();
    walk_where_nothing_fits();
    let_a_sync_wait();
    let_a_sync_wait_for_a_walk();
    evict_what_is_in_use();
    stop_while_a_sync_waits();
    write_a_sync_over_an_illegal_command();
    overlap_buffers();
    pass_bad_tags();
    name_statuses();
    puts("hostile_tracking: all told");
    return 0;
}
