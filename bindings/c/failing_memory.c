/* SPDX-License-Identifier: MIT OR Apache-2.0 */
// Calls of the C library with each allocation failing in turn, alone and with all behind it. Where memory is wanting a call
// is refused by the status that the header names, and all handles are as they were. tools/check-c links it with
// --wrap=malloc,--wrap=realloc.
#include "smmuq.h"

#include <stdbool.h>
#include <stdio.h>
#include <stdlib.h>
#include <string.h>

// The allocations that serve before one fails, whether all behind it fail too, and how many were asked for.
static size_t serving = SIZE_MAX, asked;
static bool all_behind;

void *__real_malloc(size_t size);
void *__real_realloc(void *block, size_t size);
void *__wrap_malloc(size_t size);
void *__wrap_realloc(void *block, size_t size);

static bool fails(void) {
    size_t before = asked++;
    return all_behind ? before >= serving : before == serving;
}

void *__wrap_malloc(size_t size) { return fails() ? NULL : __real_malloc(size); }

void *__wrap_realloc(void *block, size_t size) { return fails() ? NULL : __real_realloc(block, size); }

static void fail(const char *why, const char *call) {
    printf("%s: %s\n", call, why);
    exit(1);
}

// A unit that is stopped, holds an entry and has room for a transaction, one that holds none, a ring of two senders with its engine, one of a sender
// with its consumer, one in which nothing waits and whose engine holds an entry, and handles that hold nothing.
struct handles {
    smmuq_unit unit, unused, empty_unit;
    smmuq_sender senders[2], forwarded, idle_sender, empty_senders[2];
    smmuq_engine engine, idle_engine, empty_engine;
    smmuq_consumer consumer, empty_consumer;
    smmuq_forwarder empty_forwarder;
};

#define HANDLES 15

static const smmuq_tag FILLED = {.kind = SMMUQ_S1, .vmid = 1, .scope = SMMUQ_SCOPE_ASID, .asid = 2, .address = 0x1000};
static const smmuq_tag OTHER = {.kind = SMMUQ_S1, .vmid = 1, .scope = SMMUQ_SCOPE_ASID, .asid = 2, .address = 0x2000};
static const smmuq_command TLBI_NSNH_ALL = {SMMUQ_OPCODE_TLBI_NSNH_ALL, 0}, UNKNOWN = {0xff, 0};

static struct handles made(void) {
    struct handles handles;
    memset(&handles, 0, sizeof handles); // all bytes 0 are empty handles
    smmuq_verdict verdict;
    uint32_t number;
    if (smmuq_unit_new(4, &handles.unused) || smmuq_unit_new_tracking(0, 4, 1, &handles.unit) || smmuq_fill(&handles.unit.handle, &FILLED, 7) ||
        smmuq_unit_judge(&handles.unit, UNKNOWN.lo, UNKNOWN.hi, &verdict) != SMMUQ_ILL_OPCODE ||
        smmuq_ring_new(7, 9, 4, handles.senders, 2, &handles.engine) ||
        smmuq_ring_new(4, 9, 4, &handles.idle_sender, 1, &handles.idle_engine) ||
        smmuq_fill(&handles.idle_engine.handle, &FILLED, 7) ||
        smmuq_send(&handles.senders[0], &TLBI_NSNH_ALL, 1, 1, &number) ||
        smmuq_consumer_ring_new(7, 9, &handles.forwarded, 1, &handles.consumer) ||
        smmuq_send(&handles.forwarded, &TLBI_NSNH_ALL, 1, 1, &number))
        fail("refused", "what comes before");
    return handles;
}

static smmuq_handle *nth(struct handles *handles, size_t n) {
    smmuq_handle *all[HANDLES] = {
        &handles->unit.handle,           &handles->unused.handle,           &handles->senders[0].handle,
        &handles->senders[1].handle,     &handles->engine.handle,           &handles->forwarded.handle,
        &handles->consumer.handle,       &handles->idle_sender.handle,      &handles->idle_engine.handle,
        &handles->empty_unit.handle,     &handles->empty_senders[0].handle, &handles->empty_senders[1].handle,
        &handles->empty_engine.handle,   &handles->empty_consumer.handle,   &handles->empty_forwarder.handle};
    return all[n];
}

static void freed(struct handles *handles) {
    for (size_t n = 0; n < HANDLES; n++)
        smmuq_free(nth(handles, n));
}

// All that calls tell of a handle.
static size_t describe(smmuq_handle *handle, char *text, size_t room) {
    smmuq_errors errors = {0};
    smmuq_tallies tallies = {0};
    smmuq_queue_registers registers = {0};
    smmuq_queue_control control = {0};
    smmuq_transactions transactions = {0};
    smmuq_entry entries[8];
    smmuq_command run[8] = {{0}};
    size_t count = 0, ready = 0;
    uint32_t number = 0;
    smmuq_held held[2] = {{0}};
    uint32_t state = smmuq_state(handle, &errors, &tallies), listed = smmuq_entries(handle, entries, 8, &count);
    uint32_t first = smmuq_lookup(handle, &FILLED, &held[0]), second = smmuq_lookup(handle, &OTHER, &held[1]);
    uint32_t engine = smmuq_registers((smmuq_engine *)handle, &registers), looked = smmuq_look((smmuq_sender *)handle, &control);
    uint32_t told = smmuq_done_up_to((smmuq_sender *)handle, &number), taken = smmuq_take_run((smmuq_consumer *)handle, run, 8, &ready);
    uint32_t tracked = smmuq_outstanding((smmuq_unit *)handle, &transactions);
    return (size_t)snprintf(text, room, "kind %u; %u %u %u %u %llu %llu; %u %zu; %u %llu %u %llu; %u %x %x; %u %x %x %u; %u %u; %u %zu %llx; %u %u %u\n",
                            smmuq_kind(handle), state, errors.err, errors.gerror, errors.gerrorn,
                            (unsigned long long)tallies.applied, (unsigned long long)tallies.replaced, listed, count, first,
                            (unsigned long long)held[0].value, second, (unsigned long long)held[1].value, engine,
                            registers.prod, registers.cons, looked, control.prod, control.cons, control.closed, told, number, taken,
                            ready, (unsigned long long)run[0].lo, tracked, transactions.outstanding, transactions.covered);
}

static void describe_all(struct handles *handles, char *text, size_t room) {
    size_t written = 0;
    for (size_t n = 0; n < HANDLES && written < room; n++)
        written += describe(nth(handles, n), text + written, room - written);
}

// The calls.

static uint32_t unit_new(struct handles *handles) { return smmuq_unit_new(4, &handles->empty_unit); }
static uint32_t unit_reset(struct handles *handles) { return smmuq_unit_new(4, &handles->unit); }
static uint32_t tracking_unit(struct handles *handles) { return smmuq_unit_new_tracking(1, 4, 16, &handles->empty_unit); }
static uint32_t tracking_again(struct handles *handles) { return smmuq_unit_new_tracking(0, 4, 0, &handles->unit); }
static uint32_t ring_new(struct handles *handles) { return smmuq_ring_new(5, 9, 4, handles->empty_senders, 2, &handles->empty_engine); }
static uint32_t ring_again(struct handles *handles) {
    return smmuq_ring_new(5, 9, 4, handles->senders, 2, &handles->engine);
}
static uint32_t renew(struct handles *handles) {
    return smmuq_renew(5, 9, 4, &handles->idle_sender, 1, &handles->idle_engine);
}
static uint32_t renew_too_early(struct handles *handles) {
    return smmuq_renew(5, 9, 4, handles->senders, 2, &handles->engine);
}
static uint32_t consumer_ring_new(struct handles *handles) {
    return smmuq_consumer_ring_new(5, 9, handles->empty_senders, 2, &handles->empty_consumer);
}
static uint32_t consumer_ring_again(struct handles *handles) {
    return smmuq_consumer_ring_new(5, 9, &handles->forwarded, 1, &handles->consumer);
}
static uint32_t forwarder_ring_new(struct handles *handles) {
    return smmuq_forwarder_ring_new(5, 9, 3, handles->empty_senders, 2, &handles->empty_forwarder);
}

// All calls of a forwarder: of a batch the first command is consumed, and the hardware stops at the CMD_SYNC.
static uint32_t forward(struct handles *handles) {
    smmuq_command buffer[64];
    smmuq_placement placement;
    smmuq_acknowledgement acknowledgement;
    uint32_t number, consumed, status = forwarder_ring_new(handles);
    if (status)
        return status;
    const size_t before = asked;
    if (smmuq_send(&handles->empty_senders[0], &TLBI_NSNH_ALL, 1, 1, &number) ||
        smmuq_forward(&handles->empty_forwarder, buffer, 64, &placement) || placement.count != 2 ||
        smmuq_forwarder_poll(&handles->empty_forwarder, 1, 3u << 24 | 1, &consumed) != SMMUQ_QUEUE_STOPPED ||
        smmuq_forwarder_acknowledge(&handles->empty_forwarder, 0, SMMUQ_RETRY, &acknowledgement) ||
        smmuq_forwarder_poll(&handles->empty_forwarder, 1, 2, &consumed) || consumed != 1)
        fail("refused", "a forwarder's calls");
    if (asked != before)
        fail("takes memory", "a forwarder's calls");
    return SMMUQ_OK;
}

static uint32_t fill_unit(struct handles *handles) { return smmuq_fill(&handles->unused.handle, &OTHER, 9); }
static uint32_t fill_engine(struct handles *handles) { return smmuq_fill(&handles->engine.handle, &OTHER, 9); }
static uint32_t fill_in_place(struct handles *handles) { return smmuq_fill(&handles->unit.handle, &FILLED, 9); }

static uint32_t fill_walked(struct handles *handles) {
    uint64_t walk;
    uint32_t status = smmuq_begin_walk(&handles->unused, &walk);
    return status ? status : smmuq_fill_walked(&handles->unused, walk, &OTHER, 9);
}

// All that begins and ends a transaction.
static uint32_t track(struct handles *handles) {
    uint64_t walk, transaction;
    uint32_t last, status;
    smmuq_held held;
    smmuq_transactions counts;
    status = smmuq_begin(&handles->unit, &FILLED, &held, &transaction);
    status |= smmuq_end(&handles->unit, transaction, &last);
    status |= smmuq_begin_outstanding_walk(&handles->unit, &walk, &transaction);
    status |= smmuq_end(&handles->unit, transaction, &last);
    status |= smmuq_begin_walked(&handles->unit, walk, &OTHER, &transaction);
    status |= smmuq_outstanding(&handles->unit, &counts) | (counts.outstanding != 1);
    return status | smmuq_unit_reset(&handles->unit);
}

static uint32_t entries(struct handles *handles) {
    smmuq_entry buffer[8];
    size_t count;
    return smmuq_entries(&handles->unit.handle, buffer, 8, &count);
}

static uint32_t covered(struct handles *handles) {
    smmuq_entry buffer[8];
    size_t count;
    return smmuq_covered(&handles->unit.handle, TLBI_NSNH_ALL.lo, TLBI_NSNH_ALL.hi, buffer, 8, &count);
}

static uint32_t covered_without_room(struct handles *handles) {
    smmuq_entry none;
    size_t count;
    return smmuq_covered(&handles->unit.handle, TLBI_NSNH_ALL.lo, TLBI_NSNH_ALL.hi, &none, 0, &count);
}

static uint32_t guest_new(struct handles *handles) {
    smmuq_guest guest = SMMUQ_EMPTY;
    uint32_t status = smmuq_guest_new(0x21, 0x41403, 0x210, 0x400, 0x70, &guest);
    (void)handles;
    smmuq_free(&guest.handle);
    return status;
}

// A guest whose stream is one of the host's. If that one isn't attached, the guest converts nothing of it.
static uint32_t guest_attach(struct handles *handles) {
    static const smmuq_command cfgi_cd_all = {3ull << 32 | SMMUQ_OPCODE_CFGI_CD_ALL, 0};
    smmuq_guest guest = SMMUQ_EMPTY;
    smmuq_command buffer[63];
    smmuq_converted converted;
    uint32_t attached, status = smmuq_guest_new(0x21, 0x41403, 0x210, 0x400, 0x70, &guest);
    (void)handles;
    if (status != SMMUQ_OK)
        return status;
    attached = smmuq_guest_attach(&guest, 3, 0x103, 1);
    status = smmuq_guest_convert(&guest, &cfgi_cd_all, 1, buffer, 63, &converted);
    if (status == SMMUQ_OK && converted.made != (attached == SMMUQ_OK))
        status = SMMUQ_BAD_FIELD;
    smmuq_free(&guest.handle);
    return status != SMMUQ_OK ? status : attached;
}

static uint32_t text(struct handles *handles) {
    char room[160];
    size_t length;
    (void)handles;
    return smmuq_text(TLBI_NSNH_ALL.lo, TLBI_NSNH_ALL.hi, room, sizeof room, &length);
}

static uint32_t status_text(struct handles *handles) {
    char room[80];
    size_t length;
    (void)handles;
    return smmuq_status_text(SMMUQ_RING_FULL, room, sizeof room, &length);
}

// The rest of the codec, which has no handle.
static uint32_t codec(struct handles *handles) {
    smmuq_fields fields;
    smmuq_command command, room[63];
    const smmuq_change change = {.kind = SMMUQ_REGION_S1, .tg = SMMUQ_GRANULE_4K, .most_commands = 62, .length = 0x21000};
    size_t count;
    (void)handles;
    uint32_t status = smmuq_check(TLBI_NSNH_ALL.lo, TLBI_NSNH_ALL.hi);
    status |= smmuq_decode(TLBI_NSNH_ALL.lo, TLBI_NSNH_ALL.hi, &fields);
    status |= smmuq_encode(&fields, &command);
    status |= smmuq_range(1, 2, 0x1000, 33, room, 63, &count);
    status |= smmuq_nested_invalidation(2, 0, 0, 0x10, 1, room, 63, &count);
    status |= smmuq_detach(2, 0, 0, 0x10, 5, room, 63, &count);
    status |= smmuq_detach_endpoint(2, 0, 0, 0x10, 5, 1, room, 63, &count);
    status |= smmuq_invalidation(2, 0, 0, 0x10, &change, room, 63, &count);
    return status;
}

static uint32_t lookup(struct handles *handles) {
    smmuq_held held;
    return smmuq_lookup(&handles->unit.handle, &FILLED, &held);
}

// All that tells of a unit, a sender or an engine without a change.
static uint32_t tell(struct handles *handles) {
    smmuq_errors errors;
    smmuq_tallies tallies;
    smmuq_queue_registers registers;
    smmuq_queue_control control;
    uint32_t number, status = smmuq_state(&handles->unit.handle, &errors, &tallies);
    status |= smmuq_state(&handles->engine.handle, &errors, &tallies);
    status |= smmuq_registers(&handles->engine, &registers);
    status |= smmuq_look(&handles->senders[0], &control);
    status |= smmuq_done_up_to(&handles->senders[0], &number);
    status |= smmuq_left(&handles->senders[0], &number);
    return status | (smmuq_kind(&handles->unit.handle) != 1) | (smmuq_version() != SMMUQ_VERSION);
}

static uint32_t close_and_free(struct handles *handles) {
    uint32_t status = smmuq_close(&handles->senders[0]);
    for (size_t n = 0; n < HANDLES; n++)
        smmuq_free(nth(handles, n));
    return status;
}

static uint32_t find(struct handles *handles) {
    smmuq_tag tag;
    smmuq_held held;
    return smmuq_find(&handles->unit.handle, SMMUQ_S1, 1, 2, 0x1234, SMMUQ_SPAN(SMMUQ_SPAN_4K), &tag, &held);
}

static uint32_t evict(struct handles *handles) {
    smmuq_held held;
    return smmuq_evict(&handles->unit.handle, &FILLED, &held);
}

static uint32_t evict_all(struct handles *handles) {
    size_t count;
    return smmuq_evict_all(&handles->unit.handle, SMMUQ_ALL_KINDS, &count);
}

static uint32_t acknowledge_and_judge(struct handles *handles) {
    smmuq_verdict verdict;
    uint32_t status = smmuq_acknowledge(&handles->unit.handle, 1, SMMUQ_REPLACE);
    return status ? status : smmuq_unit_judge(&handles->unit, UNKNOWN.lo, UNKNOWN.hi, &verdict);
}

static uint32_t send_of_63(struct handles *handles) {
    smmuq_command batch[63];
    uint32_t number;
    for (size_t n = 0; n < 63; n++)
        batch[n] = TLBI_NSNH_ALL;
    return smmuq_send(&handles->senders[1], batch, 63, 1, &number);
}

static uint32_t send(struct handles *handles) {
    uint32_t number;
    return smmuq_send(&handles->senders[1], &TLBI_NSNH_ALL, 1, 1, &number);
}

static uint32_t send_bare(struct handles *handles) {
    return smmuq_send_bare(&handles->senders[1], &TLBI_NSNH_ALL, 1, 1);
}

static uint32_t reserve_and_publish(struct handles *handles) {
    uint32_t number, status = smmuq_reserve(&handles->senders[1], &TLBI_NSNH_ALL, 1, 1);
    return status | smmuq_publish(&handles->senders[1], &number);
}

static uint32_t run(struct handles *handles) {
    smmuq_run_answer answer;
    return smmuq_run(&handles->engine, 64, &answer);
}

static uint32_t take_and_complete(struct handles *handles) {
    smmuq_command words[8];
    size_t count;
    uint32_t status = smmuq_take_run(&handles->consumer, words, 8, &count);
    return status ? status : smmuq_complete(&handles->consumer, count);
}

static const struct {
    const char *name;
    uint32_t (*call)(struct handles *handles);
    // What it answers where memory serves, and where it doesn't: 0 where it takes none.
    uint32_t status, refused[3];
} CALLS[] = {
    {"smmuq_unit_new", unit_new, SMMUQ_OK, {SMMUQ_NO_MEMORY}},
    {"smmuq_unit_new over a unit", unit_reset, SMMUQ_OK, {SMMUQ_NO_MEMORY}},
    {"smmuq_unit_new_tracking", tracking_unit, SMMUQ_OK, {SMMUQ_NO_MEMORY}},
    {"smmuq_unit_new_tracking over a unit", tracking_again, SMMUQ_OK, {SMMUQ_NO_MEMORY}},
    {"smmuq_ring_new", ring_new, SMMUQ_OK, {SMMUQ_RING_NO_MEMORY, SMMUQ_NO_MEMORY}},
    {"smmuq_ring_new over a ring", ring_again, SMMUQ_OK, {SMMUQ_RING_NO_MEMORY, SMMUQ_NO_MEMORY}},
    {"smmuq_consumer_ring_new", consumer_ring_new, SMMUQ_OK, {SMMUQ_RING_NO_MEMORY, SMMUQ_NO_MEMORY}},
    {"smmuq_consumer_ring_new over a ring", consumer_ring_again, SMMUQ_OK, {SMMUQ_RING_NO_MEMORY, SMMUQ_NO_MEMORY}},
    {"smmuq_forwarder_ring_new", forwarder_ring_new, SMMUQ_OK, {SMMUQ_RING_NO_MEMORY, SMMUQ_NO_MEMORY}},
    {"smmuq_forwarder_ring_new, and a forwarder's calls", forward, SMMUQ_OK, {SMMUQ_RING_NO_MEMORY, SMMUQ_NO_MEMORY}},
    {"smmuq_renew", renew, SMMUQ_OK, {SMMUQ_RING_NO_MEMORY, SMMUQ_CACHES_NO_MEMORY, SMMUQ_NO_MEMORY}},
    {"smmuq_renew where a command waits", renew_too_early, SMMUQ_COMMAND_WAITS, {0}},
    {"smmuq_fill of a unit", fill_unit, SMMUQ_OK, {SMMUQ_CACHES_NO_MEMORY}},
    {"smmuq_fill of an engine", fill_engine, SMMUQ_OK, {SMMUQ_CACHES_NO_MEMORY}},
    {"smmuq_fill in place", fill_in_place, SMMUQ_OK, {0}},
    {"smmuq_fill_walked", fill_walked, SMMUQ_OK, {SMMUQ_CACHES_NO_MEMORY}},
    {"transactions, and smmuq_unit_reset", track, SMMUQ_OK, {0}},
    {"smmuq_entries", entries, SMMUQ_OK, {SMMUQ_CACHES_NO_MEMORY}},
    {"smmuq_covered", covered, SMMUQ_OK, {SMMUQ_CACHES_NO_MEMORY}},
    {"smmuq_covered without room", covered_without_room, SMMUQ_SHORT_BUFFER, {0}},
    {"smmuq_guest_new", guest_new, SMMUQ_OK, {SMMUQ_NO_MEMORY}},
    {"smmuq_guest_attach and smmuq_guest_convert", guest_attach, SMMUQ_OK, {SMMUQ_NO_MEMORY, SMMUQ_GUEST_NO_MEMORY}},
    {"smmuq_evict_all", evict_all, SMMUQ_OK, {SMMUQ_CACHES_NO_MEMORY}},
    {"smmuq_text", text, SMMUQ_OK, {SMMUQ_NO_MEMORY}},
    {"smmuq_status_text", status_text, SMMUQ_OK, {0}},
    {"the rest of the codec", codec, SMMUQ_OK, {0}},
    {"smmuq_lookup", lookup, SMMUQ_OK, {0}},
    {"smmuq_find", find, SMMUQ_OK, {0}},
    {"smmuq_evict", evict, SMMUQ_OK, {0}},
    {"smmuq_acknowledge and smmuq_unit_judge", acknowledge_and_judge, SMMUQ_REPLACED, {0}},
    {"smmuq_send", send, SMMUQ_OK, {0}},
    {"smmuq_send of 63 commands", send_of_63, SMMUQ_OK, {0}},
    {"smmuq_send_bare", send_bare, SMMUQ_OK, {0}},
    {"smmuq_reserve and smmuq_publish", reserve_and_publish, SMMUQ_OK, {0}},
    {"smmuq_run", run, SMMUQ_OK, {0}},
    {"smmuq_take_run and smmuq_complete", take_and_complete, SMMUQ_OK, {0}},
    {"what tells without a change", tell, SMMUQ_OK, {0}},
    {"smmuq_close and smmuq_free", close_and_free, SMMUQ_OK, {0}},
};

// Makes a call with this allocation failing, and says whether it came to that.
static bool came_to(size_t which, size_t failing) {
    struct handles handles = made();
    char before[8192], after[8192];
    describe_all(&handles, before, sizeof before);
    serving = failing;
    asked = 0;
    uint32_t status = CALLS[which].call(&handles);
    serving = SIZE_MAX;
    bool failed = failing < asked;
    bool is_refused = false;
    for (size_t n = 0; n < 3; n++)
        is_refused |= status != SMMUQ_OK && status == CALLS[which].refused[n];
    if (failed && is_refused) {
        describe_all(&handles, after, sizeof after);
        if (strcmp(before, after) != 0)
            fail("a handle isn't as it was", CALLS[which].name);
    } else if (status != CALLS[which].status || (failed && all_behind)) {
        // With one alone failing it may ask for less, and serve.
        fail("answered otherwise than it should be", CALLS[which].name);
    }
    freed(&handles);
    return failed;
}

int main(void) {
    for (size_t which = 0; which < sizeof CALLS / sizeof *CALLS; which++) {
        size_t allocations = 0;
        for (all_behind = false; came_to(which, allocations); allocations++)
            continue;
        size_t failing = 0;
        for (all_behind = true; came_to(which, failing); failing++)
            continue;
        printf("%s: %s\n", CALLS[which].name, failing == 0 ? "takes no memory" : "is refused where memory is wanting");
    }
    return 0;
}
