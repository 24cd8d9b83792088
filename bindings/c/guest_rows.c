/* SPDX-License-Identifier: MIT OR Apache-2.0 */
/* A guest's commands as the host's queue gets them, by words that were made by hand from the standard's chapter on commands, and
 * what a caller can do wrong: wrong handles, streams that are taken, buffers that are too short or overlap. What is refused changes
 * nothing and tells nothing. tools/check-c runs it. */
#include "smmuq.h"

#include <stdio.h>
#include <stdlib.h>
#include <string.h>

static void want(const char *call, int line, uint64_t got, uint64_t wanted) {
    if (got != wanted) {
        printf("line %d: %s is 0x%llx, not 0x%llx\n", line, call, (unsigned long long)got, (unsigned long long)wanted);
        exit(1);
    }
}
#define WANT(call, answer) want(#call, __LINE__, (call), (answer))

/* SMMU_IDR0: S2P, S1P, ATS, ASID16 and VMID16; SMMU_IDR1: 8 bits of SubstreamIDs, 16 of StreamIDs; RIL; all granules. */
enum { IDR0 = 0x41403, IDR1 = 0x210, IDR3 = 0x400, IDR5 = 0x70, S2_AND_S1 = 3, ROOM = 63, UNTOLD = 0x5a };

/* VMID 0x21; its stream 3 is the host's 0x103, and its 4 is 0x104, with ATS, and 0x105, without. */
static smmuq_guest new_guest(void) {
    smmuq_guest guest = SMMUQ_EMPTY;
    WANT(smmuq_guest_new(0x21, IDR0, IDR1, IDR3, IDR5, &guest), SMMUQ_OK);
    WANT(smmuq_kind(&guest.handle), 5);
    WANT(smmuq_guest_attach(&guest, 3, 0x103, 1), SMMUQ_OK);
    WANT(smmuq_guest_attach(&guest, 4, 0x104, 1), SMMUQ_OK);
    WANT(smmuq_guest_attach(&guest, 4, 0x105, 0), SMMUQ_OK);
    return guest;
}

static void want_row(smmuq_guest *guest, smmuq_command command, uint32_t ended, const smmuq_command *wanted, size_t count) {
    smmuq_command buffer[ROOM], before[ROOM];
    smmuq_converted converted;
    memset(before, UNTOLD, sizeof before);
    memcpy(buffer, before, sizeof buffer);
    WANT(smmuq_guest_convert(guest, &command, 1, buffer, ROOM, &converted), SMMUQ_OK);
    WANT(converted.ended, ended);
    WANT(converted.taken, ended == SMMUQ_END_OF_COMMANDS);
    WANT(converted.made, count);
    for (size_t n = 0; n < count; n++) {
        WANT(buffer[n].lo, wanted[n].lo);
        WANT(buffer[n].hi, wanted[n].hi);
    }
    WANT(memcmp(buffer + count, before, (ROOM - count) * sizeof *buffer), 0);
}
#define ROW(lo, hi, ...) \
    want_row(&guest, (smmuq_command){lo, hi}, SMMUQ_END_OF_COMMANDS, (const smmuq_command[]){__VA_ARGS__}, \
             sizeof((const smmuq_command[]){__VA_ARGS__}) / sizeof(smmuq_command))
#define ENDS(lo, hi, ended) want_row(&guest, (smmuq_command){lo, hi}, ended, NULL, 0)

static void convert_rows(void) {
    smmuq_guest guest = new_guest();
    ROW(0x30, 0, {0x0000002100000010, 0});
    ROW(0x0005000700000011, 0, {0x0005002100000011, 0});
    ROW(0x0005000700203012, 0x12345701, {0x0005002100203012, 0x12345701});
    ROW(0x0005000700000012, 0x12345401, {0x0005002100000012, 0x12345001});
    ROW(0x0000000400002005, 0, {0x0000010400002005, 0}, {0x0000010500002005, 0});
    ROW(0x0000000400002840, 0x12345003, {0x0000010400002840, 0x12345003});
    want_row(&guest, (smmuq_command){0x0000010300000006, 0}, SMMUQ_END_OF_COMMANDS, NULL, 0); /* no stream of the guest */
    ENDS(0x1046, 0x1000, SMMUQ_END_SYNC);
    ENDS(0x0000000300000003, 1, SMMUQ_END_CONFIGURE);
    ENDS(0x0000000300000405, 0, SMMUQ_END_ILLEGAL);
    ENDS(0x20, 0, SMMUQ_END_REFUSED);
    smmuq_free(&guest.handle);
    WANT(smmuq_kind(&guest.handle), 0);
}

/* 63 commands at most are read, and the host's for one that doesn't fit aren't begun. */
static void convert_many(void) {
    smmuq_guest guest = new_guest();
    smmuq_command commands[64], buffer[ROOM];
    smmuq_converted converted;
    for (size_t n = 0; n < 64; n++)
        commands[n] = (smmuq_command){0x30, 0};
    WANT(smmuq_guest_convert(&guest, commands, 64, buffer, ROOM, &converted), SMMUQ_OK);
    WANT(converted.taken, 63);
    WANT(converted.made, 63);
    WANT(converted.ended, SMMUQ_END_OF_COMMANDS);
    commands[62] = (smmuq_command){0x0000000400000006, 0}; /* CFGI_CD_ALL of two streams */
    WANT(smmuq_guest_convert(&guest, commands, 63, buffer, ROOM, &converted), SMMUQ_OK);
    WANT(converted.taken, 62);
    WANT(converted.made, 62);
    WANT(converted.ended, SMMUQ_END_FULL);
    commands[1] = (smmuq_command){0xff, 0};
    WANT(smmuq_guest_convert(&guest, commands, 64, buffer, ROOM, &converted), SMMUQ_OK);
    WANT(converted.taken, 1);
    WANT(converted.ended, SMMUQ_END_ILLEGAL);
    WANT(converted.ill, SMMUQ_ILL_OPCODE);
    WANT(smmuq_guest_convert(&guest, commands, 0, buffer, ROOM, &converted), SMMUQ_OK);
    WANT(converted.made, 0);
    /* The header forbids what overlaps. The commands are read before one is written. */
    WANT(smmuq_guest_convert(&guest, commands, 64, commands, 64, &converted), SMMUQ_OK);
    WANT(converted.taken, 1);
    WANT(commands[0].lo, 0x0000002100000010);
    smmuq_free(&guest.handle);
}

static void tell_streams(void) {
    smmuq_guest guest = new_guest();
    smmuq_guest_stream streams[3];
    size_t count = 99;
    memset(streams, UNTOLD, sizeof streams);
    WANT(smmuq_guest_streams(&guest, 0x0000000400000003, 1, streams, 1, &count), SMMUQ_SHORT_BUFFER);
    WANT(count, 2);
    WANT(streams[0].host, 0x5a5a5a5a);
    WANT(smmuq_guest_streams(&guest, 0x0000000400000003, 1, streams, 3, &count), SMMUQ_OK);
    WANT(count, 2);
    WANT(streams[0].host, 0x104);
    WANT(streams[0].ats, 1);
    WANT(streams[1].host, 0x105);
    WANT(streams[1].ats, 0);
    WANT(streams[2].host, 0x5a5a5a5a);
    WANT(smmuq_guest_streams(&guest, 0x0000000000000004, 31, streams, 3, &count), SMMUQ_OK); /* CFGI_ALL */
    WANT(count, 3);
    WANT(streams[0].sid, 3);
    WANT(smmuq_guest_streams(&guest, 0x0000000400000006, 0, streams, 3, &count), SMMUQ_OK); /* CFGI_CD_ALL */
    WANT(count, 0);
    WANT(smmuq_guest_streams(&guest, 0xff, 0, streams, 3, &count), SMMUQ_ILL_OPCODE);
    WANT(count, 0);
    /* What is detached is nobody's, and the streams of the host are free. */
    WANT(smmuq_guest_detach(&guest, 4), SMMUQ_OK);
    WANT(smmuq_guest_detach(&guest, 4), SMMUQ_OK);
    want_row(&guest, (smmuq_command){0x0000000400000006, 0}, SMMUQ_END_OF_COMMANDS, NULL, 0);
    WANT(smmuq_guest_attach(&guest, 5, 0x104, 0), SMMUQ_OK);
    smmuq_free(&guest.handle);
}

static void attach_wrongly(void) {
    smmuq_guest guest = new_guest();
    uint32_t host;
    WANT(smmuq_guest_attach(&guest, 9, 0x103, 0), SMMUQ_STREAM_IN_USE);
    WANT(smmuq_guest_attach(&guest, 9, 0x10000, 0), SMMUQ_BAD_STREAM);
    WANT(smmuq_guest_attach(&guest, 9, 0x106, 2), SMMUQ_BAD_FIELD);
    for (host = 1; host <= 63; host++)
        WANT(smmuq_guest_attach(&guest, 9, host, 0), SMMUQ_OK);
    WANT(smmuq_guest_attach(&guest, 9, 64, 0), SMMUQ_TOO_MANY_STREAMS);
    WANT(smmuq_guest_attach(&guest, 10, 64, 0), SMMUQ_OK);
    WANT(smmuq_guest_new(0x10000, IDR0, IDR1, IDR3, IDR5, &guest), SMMUQ_BAD_FIELD);
    WANT(smmuq_guest_new(0x100, S2_AND_S1, IDR1, IDR3, IDR5, &guest), SMMUQ_BAD_FIELD); /* VMIDs of 8 bits */
    WANT(smmuq_guest_attach(&guest, 10, 64, 0), SMMUQ_STREAM_IN_USE); /* it is as before */
    WANT(smmuq_guest_new(0xff, S2_AND_S1, IDR1, IDR3, IDR5, &guest), SMMUQ_OK);
    WANT(smmuq_guest_attach(&guest, 10, 64, 0), SMMUQ_OK);
    smmuq_free(&guest.handle);
}

static void pass_wrong_handles(void) {
    smmuq_unit unit = SMMUQ_EMPTY;
    smmuq_guest empty = SMMUQ_EMPTY, guest = new_guest();
    smmuq_command command = {0x30, 0}, buffer[ROOM];
    smmuq_converted converted = {9, 9, 9, 9};
    smmuq_guest_stream stream;
    smmuq_verdict verdict;
    size_t count = 99;
    WANT(smmuq_unit_new(4, &unit), SMMUQ_OK);
    WANT(smmuq_guest_attach((smmuq_guest *)&unit, 1, 2, 0), SMMUQ_WRONG_HANDLE);
    WANT(smmuq_guest_detach((smmuq_guest *)&unit, 1), SMMUQ_WRONG_HANDLE);
    WANT(smmuq_guest_convert((smmuq_guest *)&unit, &command, 1, buffer, ROOM, &converted), SMMUQ_WRONG_HANDLE);
    WANT(smmuq_guest_streams((smmuq_guest *)&unit, 0xff, 0, &stream, 1, &count), SMMUQ_WRONG_HANDLE);
    WANT(smmuq_guest_attach(&empty, 1, 2, 0), SMMUQ_EMPTY_HANDLE);
    WANT(smmuq_guest_detach(&empty, 1), SMMUQ_EMPTY_HANDLE);
    WANT(smmuq_guest_convert(&empty, &command, 1, buffer, ROOM, &converted), SMMUQ_EMPTY_HANDLE);
    WANT(smmuq_guest_streams(&empty, 3, 0, &stream, 1, &count), SMMUQ_EMPTY_HANDLE);
    WANT(smmuq_guest_convert(&guest, &command, 1, buffer, ROOM - 1, &converted), SMMUQ_SHORT_BUFFER);
    WANT(converted.taken, 9);
    WANT(count, 99);
    WANT(smmuq_unit_judge((smmuq_unit *)&guest, 0x30, 0, &verdict), SMMUQ_WRONG_HANDLE);
    WANT(smmuq_count(&guest.handle, &count), SMMUQ_WRONG_HANDLE);
    smmuq_free(&unit.handle);
    smmuq_free(&guest.handle);
}

int main(void) {
    convert_rows();
    convert_many();
    tell_streams();
    attach_wrongly();
    pass_wrong_handles();
    puts("guest_rows: all told");
    return 0;
}
