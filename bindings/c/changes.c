/* SPDX-License-Identifier: MIT OR Apache-2.0 */
/* What a driver changed and the commands that it gets for that, by words that were made by hand from the standard's chapter on
 * commands; and the entries that a command would remove. A buffer that is too short, fields out of range and memory that
 * overlaps are tried too. tools/check-c runs it. */
#include "smmuq.h"

#include <stdio.h>
#include <stdlib.h>
#include <string.h>

static void want(const char *call, int line, uint64_t got, uint64_t wanted) {
    if (got != wanted) {
        printf("line %d: %s is 0x%llx, not 0x%llx\n", line, call, (unsigned long long)got, (unsigned long long)wanted);
        exit(1);
    }
}
#define WANT(call, answer) want(#call, __LINE__, (call), (answer))

/* SMMU_IDR0: S2P bit 0, S1P bit 1, Hyp bit 9, ATS bit 10. SMMU_IDR3: RIL bit 10. SMMU_IDR5: GRAN4K, 16K and 64K bits 4 to 6. */
enum { S2P = 1 << 0, S1P = 1 << 1, HYP = 1 << 9, ATS = 1 << 10, ALL = S2P | S1P | HYP | ATS, RIL = 1 << 10, GRANULES = 7 << 4,
       SUBSTREAMS = 20 << 6 };
enum { ROOM = 8, UNTOLD = 0x5a };

/* ---- the commands for a change */

static void want_commands(int line, uint32_t idr3, smmuq_change change, const smmuq_command *wanted, size_t count) {
    smmuq_command buffer[ROOM], before[ROOM];
    size_t told = 99, short_of;
    memset(before, UNTOLD, sizeof before);
    /* In each buffer that is too short nothing changes, and the count is told. */
    for (short_of = 0; short_of < count; short_of++) {
        memcpy(buffer, before, sizeof buffer);
        want("too short", line, smmuq_invalidation(ALL, SUBSTREAMS, idr3, GRANULES, &change, buffer, short_of, &told), SMMUQ_SHORT_BUFFER);
        want("count", line, told, count);
        want("the buffer", line, memcmp(buffer, before, sizeof buffer), 0);
        told = 99;
    }
    want("smmuq_invalidation", line, smmuq_invalidation(ALL, SUBSTREAMS, idr3, GRANULES, &change, buffer, ROOM, &told), SMMUQ_OK);
    want("count", line, told, count);
    for (size_t n = 0; n < count; n++) {
        want("lo", line, buffer[n].lo, wanted[n].lo);
        want("hi", line, buffer[n].hi, wanted[n].hi);
        want("smmuq_check_for", line, smmuq_check_for(ALL, SUBSTREAMS, idr3, GRANULES, buffer[n].lo, buffer[n].hi), SMMUQ_OK);
    }
    want("what is behind", line, memcmp(buffer + count, before, (ROOM - count) * sizeof *buffer), 0);
}
#define WANT_COMMANDS(idr3, change, ...) \
    want_commands(__LINE__, idr3, change, (const smmuq_command[]){__VA_ARGS__}, sizeof((const smmuq_command[]){__VA_ARGS__}) / sizeof(smmuq_command))

/* Pages of VMID 1 and ASID 2, of which none is global. */
static const smmuq_change PAGES = {.kind = SMMUQ_REGION_S1, .vmid = 1, .asids = SMMUQ_ASIDS_ONE, .asid = 2,
                                   .tg = SMMUQ_GRANULE_4K, .leaf = 1, .ttl = 3, .most_commands = 512};

static smmuq_change of_bytes(smmuq_change change, uint64_t first, uint64_t length) {
    change.first = first;
    change.length = length;
    return change;
}

static void invalidate_stage_1(void) {
    smmuq_change change = of_bytes(PAGES, 0x100000, 0x10000);
    /* 16 pages are a range, NUM 0 and SCALE 4, with TTL 3. */
    WANT_COMMANDS(RIL, change, {0x0002000100400012, 0x100701});
    /* Without ranges a command each, without TTL; bytes are rounded to their pages. */
    WANT_COMMANDS(0, of_bytes(change, 0x1800, 0x2000), {0x0002000100000012, 0x1001}, {0x0002000100000012, 0x2001}, {0x0002000100000012, 0x3001});
    /* More than are wanted: by ASID, or where some page may be global by VMID. */
    change = of_bytes(change, 0x1800, 0x2000);
    change.most_commands = 2;
    WANT_COMMANDS(0, change, {0x0002000100000011, 0});
    change.asids = SMMUQ_ASIDS_ONE_AND_GLOBAL;
    WANT_COMMANDS(0, change, {0x0000000100000010, 0});
    change.everything = 1;
    WANT_COMMANDS(RIL, change, {0x0000000100000010, 0});
    /* Of every ASID: TLBI_NH_VAA of the page at 0x7000. */
    change = of_bytes(PAGES, 0x7000, 1);
    change.asids = SMMUQ_ASIDS_EVERY;
    WANT_COMMANDS(0, change, {0x0000000100000013, 0x7001});
    /* A lone granule of 64 KiB whose tables changed: TG beside NUM, SCALE and TTL 0 is reserved, so it is two granules. */
    change = of_bytes(PAGES, 0x50000, 0x1000);
    change.tg = SMMUQ_GRANULE_64K;
    change.leaf = change.ttl = 0;
    WANT_COMMANDS(RIL, change, {0x0002000100100012, 0x50c00});
    /* A block of 2 MiB of 4 KiB granules, one leaf of level 2: NUM 0, SCALE 9, TTL 2. */
    change = of_bytes(PAGES, 0x40000000, 0x200000);
    change.ttl = 2;
    WANT_COMMANDS(RIL, change, {0x0002000100900012, 0x40000601});
}

static void invalidate_others(void) {
    smmuq_change change = of_bytes(PAGES, 0x3000, 0x1000);
    /* Stage 2. */
    change.kind = SMMUQ_REGION_S2;
    WANT_COMMANDS(RIL, change, {0x000000010000002a, 0x3701});
    change.everything = 1;
    WANT_COMMANDS(RIL, change, {0x0000000100000028, 0});
    /* The hypervisor's. */
    change = of_bytes(PAGES, 0x7000, 1);
    change.kind = SMMUQ_REGION_EL2;
    WANT_COMMANDS(0, change, {0x0002000000000022, 0x7001});
    change.asids = SMMUQ_ASIDS_EVERY;
    change.leaf = change.ttl = 0;
    WANT_COMMANDS(0, change, {0x23, 0x7000});
    change.everything = 1;
    WANT_COMMANDS(0, change, {0x20, 0});
}

static void invalidate_an_endpoint(void) {
    /* Fields that it doesn't have are ignored. */
    smmuq_change change = {.kind = SMMUQ_REGION_ENDPOINT, .sid = 5, .ssid = 3, .vmid = UINT32_MAX, .tg = 9,
                           .first = 0x4fff, .length = 0x2002};
    smmuq_command none;
    size_t count = 99;
    WANT_COMMANDS(0, change, {0x500000040, 0x4002});
    change.substreams = SMMUQ_SUBSTREAMS_ONE;
    WANT_COMMANDS(0, change, {0x500003840, 0x4002});
    change.substreams = SMMUQ_SUBSTREAMS_WITH;
    WANT_COMMANDS(0, change, {0x500000a40, 0x4002});
    change.everything = 1;
    WANT_COMMANDS(0, change, {0x500000a40, 52});
    change = of_bytes(change, 0x4000, 0);
    change.everything = 0;
    WANT(smmuq_invalidation(ATS, SUBSTREAMS, 0, 0, &change, &none, 0, &count), SMMUQ_OK); /* no byte, no command */
    WANT(count, 0);
}

/* ---- what is to be sent only once those before are complete */

static void want_only(int line, smmuq_status status, const smmuq_command *told, const size_t *count, uint64_t lo, uint64_t hi) {
    want("status", line, status, SMMUQ_OK);
    want("count", line, *count, 1);
    want("lo", line, told->lo, lo);
    want("hi", line, told->hi, hi);
}

static void follow_stage_2(void) {
    smmuq_command told;
    size_t count = 99;
    want_only(__LINE__, smmuq_nested_invalidation(ALL, 0, 0, 0, 1, &told, 1, &count), &told, &count, 0x0000000100000010, 0);
    WANT(smmuq_nested_invalidation(ALL & ~S1P, 0, 0, 0, 1, &told, 0, &count), SMMUQ_OK);
    WANT(count, 0);
    WANT(smmuq_nested_invalidation(ALL, 0, 0, 0, 1, &told, 0, &count), SMMUQ_SHORT_BUFFER);
    WANT(count, 1);
    count = 99;
    WANT(smmuq_nested_invalidation(ALL, 0, 0, 0, 0x10000, &told, 1, &count), SMMUQ_BAD_FIELD);
    WANT(count, 99);
}

static void detach_a_stream(void) {
    smmuq_command told[2];
    size_t count = 99;
    WANT(smmuq_detach(ALL, 0, 0, 0, 5, told, 1, &count), SMMUQ_SHORT_BUFFER);
    WANT(count, 2);
    WANT(smmuq_detach(ALL, 0, 0, 0, 5, told, 2, &count), SMMUQ_OK);
    WANT(told[0].lo, 0x0000000500000003);
    WANT(told[0].hi, 1);
    WANT(told[1].lo, 0x0000000500000006);
    WANT(told[1].hi, 0);
    /* Without stage 1 there are no context descriptors, and CFGI_CD_ALL would be illegal. */
    want_only(__LINE__, smmuq_detach(ALL & ~S1P, 0, 0, 0, 5, told, 2, &count), told, &count, 0x0000000500000003, 1);
    want_only(__LINE__, smmuq_detach_endpoint(ALL, 0, 0, 0, 5, 1, told, 1, &count), told, &count, 0x0000000500000040, 52);
    WANT(smmuq_detach_endpoint(ALL, 0, 0, 0, 5, 0, told, 0, &count), SMMUQ_OK);
    WANT(count, 0);
    WANT(smmuq_detach_endpoint(ALL & ~ATS, 0, 0, 0, 5, 1, told, 0, &count), SMMUQ_OK);
    WANT(count, 0);
    count = 99;
    WANT(smmuq_detach_endpoint(ALL, 0, 0, 0, 5, 2, told, 2, &count), SMMUQ_BAD_FIELD);
    WANT(count, 99);
}

/* ---- what is refused */

static void want_refused(int line, uint32_t idr0, uint32_t idr5, smmuq_change change, smmuq_status wanted) {
    smmuq_command buffer[ROOM], before[ROOM];
    size_t count = 99;
    memset(before, UNTOLD, sizeof before);
    memcpy(buffer, before, sizeof buffer);
    want("smmuq_invalidation", line, smmuq_invalidation(idr0, 0, RIL, idr5, &change, buffer, ROOM, &count), wanted);
    want("count", line, count, 99);
    want("the buffer", line, memcmp(buffer, before, sizeof buffer), 0);
}
#define WANT_REFUSED(idr0, idr5, change, status) want_refused(__LINE__, idr0, idr5, change, status)

static void refuse_what_the_smmu_lacks(void) {
    smmuq_change change = of_bytes(PAGES, 0x1000, 0x1000);
    WANT_REFUSED(ALL & ~S1P, GRANULES, change, SMMUQ_UNSUPPORTED);
    WANT_REFUSED(ALL, GRANULES & ~(1 << 4), change, SMMUQ_UNSUPPORTED);
    change.kind = SMMUQ_REGION_S2;
    WANT_REFUSED(ALL & ~S2P, GRANULES, change, SMMUQ_UNSUPPORTED);
    WANT_REFUSED(ALL, GRANULES, of_bytes(change, (UINT64_C(1) << 52) - 1, 2), SMMUQ_PAST_END);
    change.kind = SMMUQ_REGION_EL2;
    WANT_REFUSED(ALL & ~HYP, GRANULES, change, SMMUQ_UNSUPPORTED);
    WANT_REFUSED(ALL, GRANULES, of_bytes(change, UINT64_MAX, 2), SMMUQ_PAST_END);
    change.kind = SMMUQ_REGION_ENDPOINT;
    change.substreams = SMMUQ_SUBSTREAMS_EVERY;
    WANT_REFUSED(ALL & ~ATS, GRANULES, change, SMMUQ_UNSUPPORTED);
    change.substreams = SMMUQ_SUBSTREAMS_WITH; /* and SMMU_IDR1.SSIDSIZE is 0 */
    WANT_REFUSED(ALL, GRANULES, change, SMMUQ_UNSUPPORTED);
    change.substreams = SMMUQ_SUBSTREAMS_EVERY;
    WANT_REFUSED(ALL, GRANULES, of_bytes(change, UINT64_MAX, 2), SMMUQ_PAST_END);
}

static void refuse_bad_fields(void) {
    static const smmuq_change BAD[] = {
        {.kind = 0, .tg = 1}, {.kind = 1, .tg = 1}, {.kind = 2, .tg = 1}, {.kind = 6, .tg = 1}, {.kind = 7, .tg = 1}, {.kind = 9, .tg = 1},
        {.kind = SMMUQ_REGION_S1, .tg = 0}, {.kind = SMMUQ_REGION_S1, .tg = 4},
        {.kind = SMMUQ_REGION_S1, .tg = 1, .vmid = 0x10000}, {.kind = SMMUQ_REGION_S2, .tg = 1, .vmid = 0x10000},
        {.kind = SMMUQ_REGION_S1, .tg = 1, .asids = 3}, {.kind = SMMUQ_REGION_S1, .tg = 1, .asids = SMMUQ_ASIDS_ONE, .asid = 0x10000},
        {.kind = SMMUQ_REGION_EL2, .tg = 1, .asids = SMMUQ_ASIDS_ONE_AND_GLOBAL, .asid = 0x10000},
        {.kind = SMMUQ_REGION_S1, .tg = 1, .leaf = 2}, {.kind = SMMUQ_REGION_S1, .tg = 1, .ttl = 1}, /* a level, but no leaves */
        {.kind = SMMUQ_REGION_S1, .tg = 1, .leaf = 1, .ttl = 4},
        {.kind = SMMUQ_REGION_S1, .tg = 1, .everything = 2},
        {.kind = SMMUQ_REGION_ENDPOINT, .substreams = 3}, {.kind = SMMUQ_REGION_ENDPOINT, .everything = 2},
        {.kind = SMMUQ_REGION_ENDPOINT, .substreams = SMMUQ_SUBSTREAMS_ONE, .ssid = 0x100000},
    };
    for (size_t n = 0; n < sizeof BAD / sizeof *BAD; n++)
        WANT_REFUSED(ALL, GRANULES, BAD[n], SMMUQ_BAD_FIELD);
}

/* The header forbids what overlaps. The change is read before a word is written, so the words are those of the change. */
static void overlap(void) {
    union {
        smmuq_change change;
        smmuq_command buffer[ROOM];
    } one;
    size_t count;
    one.change = of_bytes(PAGES, 0x1800, 0x2000);
    WANT(smmuq_invalidation(ALL, 0, 0, GRANULES, &one.change, one.buffer, ROOM, &count), SMMUQ_OK);
    WANT(count, 3);
    WANT(one.buffer[0].hi, 0x1001);
    WANT(one.buffer[2].hi, 0x3001);
}

/* ---- what a command would remove */

static const smmuq_tag PAGE = {.kind = SMMUQ_S1, .vmid = 1, .scope = SMMUQ_SCOPE_ASID, .asid = 2, .address = 0x1000};
static const smmuq_tag GLOBAL = {.kind = SMMUQ_S1, .vmid = 1, .scope = SMMUQ_SCOPE_GLOBAL, .address = 0x2000};
static const smmuq_tag STREAM = {.kind = SMMUQ_STE, .sid = 5};

static void tell_covered(smmuq_handle *handle) {
    smmuq_entry entries[4];
    size_t count = 99, held;
    WANT(smmuq_fill(handle, &PAGE, 7), SMMUQ_OK);
    WANT(smmuq_fill(handle, &GLOBAL, 8), SMMUQ_OK);
    WANT(smmuq_fill(handle, &STREAM, 9), SMMUQ_OK);
    memset(entries, UNTOLD, sizeof entries);
    /* TLBI_NH_ASID spares the global one. */
    WANT(smmuq_covered(handle, 0x0002000100000011, 0, entries, 4, &count), SMMUQ_OK);
    WANT(count, 1);
    WANT(memcmp(&entries[0].tag, &PAGE, sizeof PAGE), 0);
    WANT(entries[0].held.value, 7);
    WANT(entries[1].tag.kind, 0x5a5a5a5a);
    /* TLBI_NSNH_ALL doesn't; a buffer of one is too short. */
    WANT(smmuq_covered(handle, 0x30, 0, entries, 1, &count), SMMUQ_SHORT_BUFFER);
    WANT(count, 2);
    WANT(entries[0].held.value, 7);
    WANT(smmuq_covered(handle, 0x30, 0, entries, 2, &count), SMMUQ_OK);
    WANT(count, 2);
    WANT(entries[0].held.value + entries[1].held.value, 15);
    WANT(smmuq_covered(handle, 0x46, 0, entries, 0, &count), SMMUQ_OK); /* CMD_SYNC */
    WANT(count, 0);
    WANT(smmuq_covered(handle, 0xff, 0, entries, 4, &count), SMMUQ_ILL_OPCODE);
    WANT(count, 0);
    /* None went, and what smmuq_invalidate removes are as many. */
    WANT(smmuq_count(handle, &held), SMMUQ_OK);
    WANT(held, 3);
    WANT(smmuq_invalidate(handle, 0x30, 0, &count), SMMUQ_OK);
    WANT(count, 2);
}

static void tell_covered_of_whatever_it_is(void) {
    smmuq_unit unit = SMMUQ_EMPTY, empty = SMMUQ_EMPTY;
    smmuq_sender sender = SMMUQ_EMPTY;
    smmuq_engine engine = SMMUQ_EMPTY;
    smmuq_entry entry;
    size_t count = 99;
    WANT(smmuq_unit_new(4, &unit), SMMUQ_OK);
    WANT(smmuq_ring_new(4, 9, 4, &sender, 1, &engine), SMMUQ_OK);
    tell_covered(&unit.handle);
    tell_covered(&engine.handle);
    WANT(smmuq_covered(&sender.handle, 0x30, 0, &entry, 1, &count), SMMUQ_WRONG_HANDLE);
    WANT(smmuq_covered(&sender.handle, 0xff, 0, &entry, 1, &count), SMMUQ_WRONG_HANDLE);
    WANT(smmuq_covered(&empty.handle, 0x30, 0, &entry, 1, &count), SMMUQ_EMPTY_HANDLE);
    WANT(count, 99);
    smmuq_free(&unit.handle);
    smmuq_free(&sender.handle);
    smmuq_free(&engine.handle);
}

int main(void) {
    invalidate_stage_1();
    invalidate_others();
    invalidate_an_endpoint();
    follow_stage_2();
    detach_a_stream();
    refuse_what_the_smmu_lacks();
    refuse_bad_fields();
    overlap();
    tell_covered_of_whatever_it_is();
    puts("changes: all told");
    return 0;
}
