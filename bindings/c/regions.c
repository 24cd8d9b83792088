/* SPDX-License-Identifier: MIT OR Apache-2.0 */
/* What commands reach, what they remove without being taken, and what an SMMU that lacks something calls illegal: by words
 * that were made by hand from the standard's chapter on commands. tools/check-c runs it. */
#include "smmuq.h"

#include <stdio.h>
#include <stdlib.h>
#include <string.h>

static void want(const char *call, int line, uint64_t got, uint64_t wanted) {
    if (got != wanted) {
        printf("line %d: %s is 0x%llx, not 0x%llx\n", line, call, (unsigned long long)got, (unsigned long long)wanted);
        exit(1);
    }
}
#define WANT(call, answer) want(#call, __LINE__, (call), (answer))

/* ---- regions */

static void want_region(uint64_t lo, uint64_t hi, smmuq_reached wanted) {
    smmuq_reached region;
    memset(&region, 0x5a, sizeof region);
    WANT(smmuq_region(lo, hi, &region), SMMUQ_OK);
    if (memcmp(&region, &wanted, sizeof region) != 0) {
        printf("0x%llx 0x%llx: another region\n", (unsigned long long)lo, (unsigned long long)hi);
        exit(1);
    }
}

static void tell_regions(void) {
    /* CFGI_STE of stream 5; CFGI_STE_RANGE of the 8 streams about 5; CFGI_CD of stream 5 and substream 3; CFGI_CD_ALL. */
    want_region(0x500000003, 1, (smmuq_reached){.kind = SMMUQ_REGION_STREAMS, .sid = 5, .last_sid = 5});
    want_region(0x500000004, 2, (smmuq_reached){.kind = SMMUQ_REGION_STREAMS, .last_sid = 7});
    want_region(0x500000004, 31, (smmuq_reached){.kind = SMMUQ_REGION_STREAMS, .last_sid = 0xffffffff});
    want_region(0x500003005, 1, (smmuq_reached){.kind = SMMUQ_REGION_DESCRIPTORS, .sid = 5, .substreams = SMMUQ_SUBSTREAMS_ONE, .ssid = 3});
    want_region(0x500000006, 0, (smmuq_reached){.kind = SMMUQ_REGION_DESCRIPTORS, .sid = 5});
    /* TLBI_NH_ASID of VMID 1 and ASID 2 spares the global translations; TLBI_NH_VA, 32 pages of it, doesn't. */
    want_region(0x0002000100000011, 0, (smmuq_reached){.kind = SMMUQ_REGION_S1, .asids = SMMUQ_ASIDS_ONE, .vmid = 1, .asid = 2, .last = UINT64_MAX});
    want_region(0x0002000100500012, 0x10401,
                (smmuq_reached){.kind = SMMUQ_REGION_S1, .asids = SMMUQ_ASIDS_ONE_AND_GLOBAL, .vmid = 1, .asid = 2, .first = 0x10000, .last = 0x2ffff});
    want_region(0x0000000100000013, 0xfffffffffffff001,
                (smmuq_reached){.kind = SMMUQ_REGION_S1, .vmid = 1, .first = 0xfffffffffffff000, .last = UINT64_MAX});
    want_region(0x000000010000002a, 0x3001, (smmuq_reached){.kind = SMMUQ_REGION_S2, .vmid = 1, .first = 0x3000, .last = 0x3fff});
    want_region(0x20, 0, (smmuq_reached){.kind = SMMUQ_REGION_EL2, .last = UINT64_MAX});
    want_region(0x0000000100000028, 0, (smmuq_reached){.kind = SMMUQ_REGION_MACHINE, .vmid = 1, .last = UINT64_MAX});
    want_region(0x30, 0, (smmuq_reached){.kind = SMMUQ_REGION_EVERY_MACHINE, .last = UINT64_MAX});
    /* ATC_INV of stream 5, the 4 pages from 0x4000 on: of substream 3, of any, of all accesses. */
    want_region(0x500003840, 0x4002, (smmuq_reached){.kind = SMMUQ_REGION_ENDPOINT, .sid = 5, .substreams = SMMUQ_SUBSTREAMS_ONE, .ssid = 3, .first = 0x4000, .last = 0x7fff});
    want_region(0x500000a40, 0x4002, (smmuq_reached){.kind = SMMUQ_REGION_ENDPOINT, .sid = 5, .substreams = SMMUQ_SUBSTREAMS_WITH, .first = 0x4000, .last = 0x7fff});
    want_region(0x500000040, 52, (smmuq_reached){.kind = SMMUQ_REGION_ENDPOINT, .sid = 5, .last = UINT64_MAX});
    want_region(0x46, 0, (smmuq_reached){.kind = SMMUQ_REGION_NOTHING});
}

static void tell_nothing_of_illegal_words(void) {
    smmuq_reached region;
    memset(&region, 0x5a, sizeof region);
    WANT(smmuq_region(0xff, 0, &region), SMMUQ_ILL_OPCODE);
    WANT(region.kind, 0x5a5a5a5a);
    WANT(region.last, 0x5a5a5a5a5a5a5a5a);
}

/* ---- invalidations that aren't taken */

static const smmuq_tag PAGE = {.kind = SMMUQ_S1, .vmid = 1, .scope = SMMUQ_SCOPE_ASID, .asid = 2, .address = 0x1000};
static const smmuq_tag GLOBAL = {.kind = SMMUQ_S1, .vmid = 1, .scope = SMMUQ_SCOPE_GLOBAL, .address = 0x2000};
static const smmuq_tag STREAM = {.kind = SMMUQ_STE, .sid = 5};

static void fill_all(smmuq_handle *handle) {
    WANT(smmuq_fill(handle, &PAGE, 7), SMMUQ_OK);
    WANT(smmuq_fill(handle, &GLOBAL, 8), SMMUQ_OK);
    WANT(smmuq_fill(handle, &STREAM, 9), SMMUQ_OK);
}

static void want_invalidated(smmuq_handle *handle, uint64_t lo, uint64_t hi, size_t wanted) {
    smmuq_errors errors;
    smmuq_tallies before, after;
    size_t count = 99;
    WANT(smmuq_state(handle, &errors, &before), SMMUQ_OK);
    WANT(smmuq_invalidate(handle, lo, hi, &count), SMMUQ_OK);
    WANT(count, wanted);
    WANT(smmuq_state(handle, &errors, &after), SMMUQ_OK);
    WANT(memcmp(&before, &after, sizeof after), 0); /* nothing was taken */
}

static void invalidate(smmuq_handle *handle) {
    smmuq_held held;
    size_t count = 99;
    fill_all(handle);
    want_invalidated(handle, 0x0002000100000011, 0, 1); /* TLBI_NH_ASID */
    WANT(smmuq_lookup(handle, &PAGE, &held), SMMUQ_NOT_HELD);
    WANT(smmuq_lookup(handle, &GLOBAL, &held), SMMUQ_OK);
    want_invalidated(handle, 0x30, 0, 1); /* TLBI_NSNH_ALL */
    want_invalidated(handle, 0x46, 0, 0); /* CMD_SYNC */
    want_invalidated(handle, 0x500000003, 1, 1); /* CFGI_STE */
    WANT(smmuq_invalidate(handle, 0xff, 0, &count), SMMUQ_ILL_OPCODE);
    WANT(count, 99);
}

static void invalidate_whatever_it_is(void) {
    smmuq_unit unit = SMMUQ_EMPTY, empty = SMMUQ_EMPTY;
    smmuq_sender sender = SMMUQ_EMPTY;
    smmuq_engine engine = SMMUQ_EMPTY;
    smmuq_verdict verdict;
    size_t count = 99;
    WANT(smmuq_unit_new(4, &unit), SMMUQ_OK);
    WANT(smmuq_ring_new(4, 9, 4, &sender, 1, &engine), SMMUQ_OK);
    invalidate(&unit.handle);
    invalidate(&engine.handle);
    /* Also while it is stopped. */
    fill_all(&unit.handle);
    WANT(smmuq_unit_judge(&unit, 0xff, 0, &verdict), SMMUQ_ILL_OPCODE);
    want_invalidated(&unit.handle, 0x30, 0, 2);
    WANT(smmuq_invalidate(&sender.handle, 0x30, 0, &count), SMMUQ_WRONG_HANDLE);
    WANT(smmuq_invalidate(&sender.handle, 0xff, 0, &count), SMMUQ_WRONG_HANDLE);
    WANT(smmuq_invalidate(&empty.handle, 0x30, 0, &count), SMMUQ_EMPTY_HANDLE);
    WANT(count, 99);
    smmuq_free(&unit.handle);
    smmuq_free(&sender.handle);
    smmuq_free(&engine.handle);
}

/* ---- what an SMMU lacks */

/* SMMU_IDR0: S2P bit 0, S1P bit 1, Hyp bit 9, ATS bit 10, PRI bit 16. */
enum { S2P = 1 << 0, S1P = 1 << 1, HYP = 1 << 9, ATS = 1 << 10, PRI = 1 << 16 };

static void check_for(uint32_t has, uint64_t lo) {
    WANT(smmuq_check_for(has, 0, 0, 0, lo, 0), SMMUQ_OK);
    WANT(smmuq_check_for(~has, 0, 0, 0, lo, 0), SMMUQ_ILL_OPCODE);
}

static void lack_something(void) {
    check_for(S1P, 0x10);
    check_for(S1P, 0x11);
    check_for(S2P, 0x28);
    check_for(HYP, 0x20);
    check_for(ATS, 0x40);
    check_for(PRI, 0x41);
    WANT(smmuq_check_for(0, 0, 0, 0, 0x46, 0), SMMUQ_OK);
    WANT(smmuq_check_for(UINT32_MAX, 0, 0, 0, 0x3046, 0), SMMUQ_ILL_SIGNAL);
}

/* ---- level hints */

/* TLBI_NH_VA, TG 1, TTL 3, Leaf 1: as Linux sends a page. */
static void keep_the_hint(void) {
    smmuq_fields fields;
    smmuq_command command;
    WANT(smmuq_decode(0x0002000100000012, 0x3701, &fields), SMMUQ_OK);
    WANT(fields.ttl, 3);
    WANT(smmuq_encode(&fields, &command), SMMUQ_OK);
    WANT(command.lo, 0x0002000100000012);
    WANT(command.hi, 0x3701);
    fields.ttl = 4;
    WANT(smmuq_encode(&fields, &command), SMMUQ_BAD_FIELD);
    WANT(command.hi, 0x3701);
    fields.opcode = SMMUQ_OPCODE_TLBI_NH_ASID; /* which has no place for it */
    WANT(smmuq_encode(&fields, &command), SMMUQ_OK);
    WANT(command.hi, 0);
}

int main(void) {
    tell_regions();
    tell_nothing_of_illegal_words();
    invalidate_whatever_it_is();
    lack_something();
    keep_the_hint();
    puts("regions: all told");
    return 0;
}
