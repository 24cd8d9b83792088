/* SPDX-License-Identifier: MIT OR Apache-2.0 */
/* What a caller can do wrong, and what it is told: each call here is refused, and nothing is changed by it. What nothing
 * tells of, a copied handle or two threads on one handle, the head of smmuq.h lists; smmuq_enter makes the second a refusal.
 */
#include "smmuq.h"

#include <pthread.h>
#include <stdio.h>
#include <stdlib.h>
#include <string.h>

static void want(const char *call, int line, uint32_t got, uint32_t wanted) {
    if (got != wanted) {
        printf("line %d: %s is 0x%02x, not 0x%02x\n", line, call, got, wanted);
        exit(1);
    }
}
#define WANT(call, status) want(#call, __LINE__, (call), (status))

static const smmuq_command CFGI_STE = {(uint64_t)7 << 32 | SMMUQ_OPCODE_CFGI_STE, 1};
static const smmuq_command CMD_SYNC = {SMMUQ_OPCODE_CMD_SYNC, 0}, UNKNOWN = {0xff, 0};

static void misuse_words(void) {
    smmuq_fields fields = {.opcode = SMMUQ_OPCODE_TLBI_NH_VA, .address = 1};
    smmuq_command command, room[8];
    char text[160];
    size_t length, count;
    WANT(smmuq_check(0xff, 0), SMMUQ_ILL_OPCODE);
    WANT(smmuq_check(0x403, 0), SMMUQ_ILL_SECURE_STREAM);
    WANT(smmuq_check(0x3046, 0), SMMUQ_ILL_SIGNAL);
    WANT(smmuq_check(0x40, 53), SMMUQ_ILL_SPAN);
    WANT(smmuq_decode(0xff, 0, &fields), SMMUQ_ILL_OPCODE);
    fields = (smmuq_fields){.opcode = SMMUQ_OPCODE_TLBI_NH_VA, .address = 1};
    WANT(smmuq_encode(&fields, &command), SMMUQ_BAD_FIELD); /* no address of a page */
    fields = (smmuq_fields){.opcode = SMMUQ_OPCODE_TLBI_NH_VA, .vmid = 0x10000};
    WANT(smmuq_encode(&fields, &command), SMMUQ_BAD_FIELD);
    WANT(smmuq_text(CMD_SYNC.lo, CMD_SYNC.hi, text, 8, &length), SMMUQ_SHORT_BUFFER);
    WANT(smmuq_text(UNKNOWN.lo, UNKNOWN.hi, text, sizeof text, &length), SMMUQ_ILL_OPCODE);
    WANT(smmuq_range(1, 2, 0, 0, room, 8, &count), SMMUQ_NO_PAGES);
    WANT(smmuq_range(1, 2, 0x10000, 33, room, 1, &count), SMMUQ_SHORT_BUFFER);
    WANT(smmuq_detach(2, 0, 0, 0, 5, room, 1, &count), SMMUQ_SHORT_BUFFER);
    WANT(smmuq_detach_endpoint(1 << 10, 0, 0, 0, 5, 1, room, 0, &count), SMMUQ_SHORT_BUFFER);
    WANT(smmuq_detach_endpoint(1 << 10, 0, 0, 0, 5, 2, room, 2, &count), SMMUQ_BAD_FIELD);
    WANT(smmuq_nested_invalidation(2, 0, 0, 0, 0x10000, room, 2, &count), SMMUQ_BAD_FIELD);
    WANT(smmuq_status_text(SMMUQ_RING_FULL, text, 8, &length), SMMUQ_SHORT_BUFFER);
    WANT(smmuq_status_text(0x7fff, text, sizeof text, &length), SMMUQ_BAD_FIELD);
    WANT(smmuq_status_text(SMMUQ_RING_FULL, text, sizeof text, &length), SMMUQ_OK);
    WANT(strcmp(text, "Q2: too little room") != 0, 0);
    WANT(strcmp(smmuq_status_name(SMMUQ_RING_FULL), "SMMUQ_RING_FULL") != 0, 0);
    WANT(strcmp(smmuq_status_name((smmuq_status)0x7fff), "unknown status") != 0, 0);
}

static void misuse_a_unit(void) {
    smmuq_unit unit = SMMUQ_EMPTY;
    smmuq_tag tag = {.kind = SMMUQ_S1, .vmid = 1, .scope = SMMUQ_SCOPE_ASID, .asid = 2, .address = 0x1000, .span = 4};
    smmuq_verdict verdict;
    smmuq_held held;
    smmuq_entry entry;
    size_t count;
    uint32_t number;
    WANT(smmuq_unit_judge(&unit, 3, 0, &verdict), SMMUQ_EMPTY_HANDLE);
    WANT(smmuq_unit_new(0, &unit), SMMUQ_BAD_CAPACITY);
    WANT(smmuq_unit_new(1, &unit), SMMUQ_OK);
    WANT(smmuq_send((smmuq_sender *)&unit, &CFGI_STE, 1, 1, &number), SMMUQ_WRONG_HANDLE);
    WANT(smmuq_close((smmuq_sender *)&unit), SMMUQ_WRONG_HANDLE);
    WANT(smmuq_fill(&unit.handle, &tag, 1), SMMUQ_BAD_BLOCK); /* 16 pages begin at none of their multiples */
    tag.span = 99;
    WANT(smmuq_fill(&unit.handle, &tag, 1), SMMUQ_BAD_FIELD);
    tag.span = 0;
    tag.scope = SMMUQ_SCOPE_UNSAID; /* neither an address space nor global */
    WANT(smmuq_fill(&unit.handle, &tag, 1), SMMUQ_BAD_FIELD);
    tag.scope = SMMUQ_SCOPE_ASID;
    WANT(smmuq_fill(&unit.handle, &tag, 1), SMMUQ_OK);
    tag.address = 0x2000;
    WANT(smmuq_fill(&unit.handle, &tag, 1), SMMUQ_CACHES_FULL);
    WANT(smmuq_evict_all(&unit.handle, SMMUQ_KIND(SMMUQ_ATC + 1), &count), SMMUQ_BAD_FIELD); /* bit 6 is that of no kind */
    WANT(smmuq_entries(&unit.handle, &entry, 0, &count), SMMUQ_SHORT_BUFFER);
    WANT((uint32_t)count, 1);
    WANT(smmuq_entries(&unit.handle, &entry, 1, &count), SMMUQ_OK);
    WANT(smmuq_find(&unit.handle, SMMUQ_S1, 1, 2, 0x1234, SMMUQ_SPAN(SMMUQ_SPAN_4K), &tag, &held), SMMUQ_OK);
    WANT((uint32_t)tag.address, 0x1000);
    WANT(smmuq_find(&unit.handle, SMMUQ_S1, 1, 3, 0x1234, SMMUQ_SPAN(SMMUQ_SPAN_4K), &tag, &held), SMMUQ_NOT_HELD);
    WANT(smmuq_find(&unit.handle, SMMUQ_STE, 1, 2, 0x1234, SMMUQ_SPAN(SMMUQ_SPAN_4K), &tag, &held), SMMUQ_BAD_FIELD);
    tag.address = 0x2000;
    WANT(smmuq_lookup(&unit.handle, &tag, &held), SMMUQ_NOT_HELD);
    WANT(smmuq_evict(&unit.handle, &tag, &held), SMMUQ_NOT_HELD);
    /* An error stop: the words at which it stopped come next, and nothing else. */
    WANT(smmuq_acknowledge(&unit.handle, 1, SMMUQ_RETRY), SMMUQ_NO_ERROR);
    WANT(smmuq_unit_judge(&unit, UNKNOWN.lo, UNKNOWN.hi, &verdict), SMMUQ_ILL_OPCODE);
    WANT(smmuq_unit_judge(&unit, CMD_SYNC.lo, CMD_SYNC.hi, &verdict), SMMUQ_STILL_STOPPED);
    /* Entries may go while it is stopped, too. */
    WANT(smmuq_evict_all(&unit.handle, SMMUQ_KIND(SMMUQ_S2), &count), SMMUQ_OK);
    WANT((uint32_t)count, 0);
    WANT(smmuq_evict_all(&unit.handle, SMMUQ_KIND(SMMUQ_S1), &count), SMMUQ_OK);
    WANT((uint32_t)count, 1);
    WANT(smmuq_fill(&unit.handle, &tag, 1), SMMUQ_OK);
    WANT(smmuq_acknowledge(&unit.handle, 0, SMMUQ_RETRY), SMMUQ_OTHER_BIT);
    WANT(smmuq_acknowledge(&unit.handle, 1, 7), SMMUQ_BAD_FIELD);
    WANT(smmuq_acknowledge(&unit.handle, 1, SMMUQ_REPLACE), SMMUQ_OK);
    WANT(smmuq_unit_judge(&unit, CMD_SYNC.lo, CMD_SYNC.hi, &verdict), SMMUQ_OTHER_COMMAND);
    WANT(smmuq_unit_judge(&unit, UNKNOWN.lo, UNKNOWN.hi, &verdict), SMMUQ_REPLACED);
    smmuq_free(&unit.handle);
    smmuq_free(&unit.handle);
    WANT(smmuq_lookup(&unit.handle, &tag, &held), SMMUQ_EMPTY_HANDLE);
    WANT(smmuq_evict_all(&unit.handle, SMMUQ_ALL_KINDS, &count), SMMUQ_EMPTY_HANDLE);
}

static void misuse_a_ring(void) {
    smmuq_sender senders[2] = {SMMUQ_EMPTY, SMMUQ_EMPTY};
    smmuq_engine engine = SMMUQ_EMPTY;
    smmuq_command words[64];
    smmuq_run_answer answer;
    smmuq_completion completed[4];
    smmuq_verdict verdict;
    smmuq_queue_control control;
    smmuq_queue_registers registers;
    uint32_t number;
    size_t i, count;
    for (i = 0; i < 64; i++)
        words[i] = CFGI_STE;
    WANT(smmuq_ring_new(0, 10, 16, senders, 2, &engine), SMMUQ_BAD_SIZE);
    WANT(smmuq_ring_new(20, 10, 16, senders, 2, &engine), SMMUQ_BAD_SIZE);
    WANT(smmuq_ring_new(4, 10, 16, senders, 0, &engine), SMMUQ_BAD_SENDERS);
    WANT(smmuq_ring_new(4, 0, 16, senders, 2, &engine), SMMUQ_BAD_BATCHES);
    WANT(smmuq_ring_new(4, 10, 0, senders, 2, &engine), SMMUQ_BAD_CAPACITY);
    WANT(smmuq_renew(4, 10, 16, senders, 2, &engine), SMMUQ_EMPTY_HANDLE);
    WANT(smmuq_send(&senders[0], words, 1, 1, &number), SMMUQ_EMPTY_HANDLE);
    WANT(smmuq_ring_new(4, 10, 16, senders, 2, &engine), SMMUQ_OK);
    WANT(smmuq_send((smmuq_sender *)&engine, words, 1, 1, &number), SMMUQ_WRONG_HANDLE);
    WANT(smmuq_run((smmuq_engine *)&senders[0], 64, &answer), SMMUQ_WRONG_HANDLE);
    WANT(smmuq_unit_judge((smmuq_unit *)&engine, 3, 0, &verdict), SMMUQ_WRONG_HANDLE);
    WANT(smmuq_look((smmuq_sender *)&engine, &control), SMMUQ_WRONG_HANDLE);
    WANT(smmuq_registers((smmuq_engine *)&senders[0], &registers), SMMUQ_WRONG_HANDLE);
    WANT(smmuq_evict_all(&senders[0].handle, SMMUQ_ALL_KINDS, &count), SMMUQ_WRONG_HANDLE);
    WANT(smmuq_send(&senders[0], words, 0, 1, &number), SMMUQ_BATCH_EMPTY);
    WANT(smmuq_send(&senders[0], words, 64, 1, &number), SMMUQ_BATCH_FULL);
    WANT(smmuq_send(&senders[0], &CMD_SYNC, 1, 1, &number), SMMUQ_SYNC_INSIDE);
    WANT(smmuq_send(&senders[0], words, 16, 1, &number), SMMUQ_BATCH_TOO_LONG);
    WANT(smmuq_run(&engine, 64, &answer), SMMUQ_RING_EMPTY);
    WANT(smmuq_send(&senders[0], words, 15, 0, &number), SMMUQ_OK); /* no tries count as one */
    WANT(smmuq_left((smmuq_sender *)&engine, &number), SMMUQ_WRONG_HANDLE);
    WANT(smmuq_left(&senders[0], &number), SMMUQ_OK);
    WANT(number, 9);
    WANT(smmuq_send(&senders[1], words, 1, 5, &number), SMMUQ_RING_FULL);
    WANT(smmuq_look(&senders[1], &control), SMMUQ_OK);
    WANT(control.prod, 16);
    WANT(smmuq_registers(&engine, &registers), SMMUQ_OK);
    WANT(registers.prod - registers.cons, 16);
    WANT(smmuq_run(&engine, 0, &answer), SMMUQ_OK); /* 0 counts as 1, more than 64 as 64 */
    WANT(answer.count, 1);
    WANT(smmuq_run(&engine, 1000, &answer), SMMUQ_OK);
    WANT(smmuq_done_up_to(&senders[0], &number), SMMUQ_OK);
    WANT(number, 1);
    WANT(smmuq_send_bare(&senders[1], words, 1, 1), SMMUQ_OK);
    WANT(smmuq_renew(4, 10, 16, senders, 2, &engine), SMMUQ_COMMAND_WAITS);
    WANT(smmuq_run(&engine, 64, &answer), SMMUQ_OK);
    WANT(smmuq_renew(4, 10, 16, senders, 2, (smmuq_engine *)&senders[0]), SMMUQ_WRONG_HANDLE);
    WANT(smmuq_renew(20, 10, 16, senders, 2, &engine), SMMUQ_BAD_SIZE);
    WANT(smmuq_renew(4, 10, 16, senders, 0, &engine), SMMUQ_BAD_SENDERS);
    WANT(smmuq_renew(4, 10, 0, senders, 2, &engine), SMMUQ_BAD_CAPACITY);
    WANT(smmuq_done_up_to(&senders[0], &number), SMMUQ_OK); /* nothing has changed */
    WANT(number, 1);
    WANT(smmuq_renew(4, 10, 16, senders, 2, &engine), SMMUQ_OK);
    WANT(smmuq_done_up_to(&senders[0], &number), SMMUQ_OK);
    WANT(number, 0);
    WANT(smmuq_publish(&senders[0], &number), SMMUQ_NO_RESERVATION);
    WANT(smmuq_publish((smmuq_sender *)&engine, &number), SMMUQ_WRONG_HANDLE);
    WANT(smmuq_reserve((smmuq_sender *)&engine, words, 1, 1), SMMUQ_WRONG_HANDLE);
    WANT(smmuq_reserve(&senders[0], words, 0, 1), SMMUQ_BATCH_EMPTY);
    WANT(smmuq_reserve(&senders[0], words, 16, 1), SMMUQ_BATCH_TOO_LONG);
    WANT(smmuq_reserve(&senders[0], words, 1, 1), SMMUQ_OK);
    WANT(smmuq_reserve(&senders[0], words, 1, 1), SMMUQ_OPEN_RESERVATION);
    WANT(smmuq_send(&senders[0], words, 1, 1, &number), SMMUQ_OPEN_RESERVATION);
    WANT(smmuq_done_up_to(&senders[0], &number), SMMUQ_OPEN_RESERVATION);
    WANT(smmuq_free(&senders[0].handle), SMMUQ_OPEN_RESERVATION);
    WANT(smmuq_kind(&senders[0].handle), 2);
    WANT(smmuq_send(&senders[1], words, 1, 1, &number), SMMUQ_OK); /* others go on, and are taken up to there */
    WANT(smmuq_run(&engine, 64, &answer), SMMUQ_RING_UNWRITTEN);
    WANT(smmuq_publish(&senders[0], &number), SMMUQ_OK);
    WANT(number, 1);
    WANT(smmuq_run_completions(&engine, 64, &answer, completed, 0, &count), SMMUQ_SHORT_BUFFER);
    WANT(smmuq_run_completions((smmuq_engine *)&senders[0], 64, &answer, completed, 4, &count), SMMUQ_WRONG_HANDLE);
    WANT(smmuq_run_completions(&engine, 64, &answer, completed, 4, &count), SMMUQ_OK);
    WANT(answer.count, 4);
    WANT((uint32_t)count, 2);
    WANT((uint32_t)completed[0].sender, 0);
    WANT((uint32_t)completed[1].sender, 1);
    WANT((uint32_t)completed[1].number, 1);
    WANT(smmuq_close(&senders[1]), SMMUQ_OK);
    WANT(smmuq_send(&senders[0], words, 1, 1, &number), SMMUQ_RING_CLOSED);
    WANT(smmuq_run(&engine, 64, &answer), SMMUQ_RING_DRAINED);
    /* Handles are freed in any order: each has its share of the ring. */
    smmuq_free(&engine.handle);
    WANT(smmuq_done_up_to(&senders[0], &number), SMMUQ_OK);
    smmuq_free(&senders[0].handle);
    WANT(smmuq_done_up_to(&senders[0], &number), SMMUQ_EMPTY_HANDLE);
    /* What a handle held is freed where it is made anew. */
    WANT(smmuq_unit_new(16, (smmuq_unit *)&senders[1]), SMMUQ_OK);
    smmuq_free(&senders[1].handle);
}

static void misuse_a_consumer(void) {
    smmuq_sender sender = SMMUQ_EMPTY;
    smmuq_consumer consumer = SMMUQ_EMPTY;
    smmuq_command run[65] = {{0, 0}}, words[3] = {CFGI_STE, UNKNOWN, CFGI_STE};
    smmuq_tag tag = {.kind = SMMUQ_STE, .sid = 7};
    smmuq_run_answer answer;
    smmuq_verdict verdict;
    smmuq_errors errors;
    smmuq_tallies tallies;
    smmuq_queue_control control;
    smmuq_queue_registers registers;
    uint32_t number;
    size_t count;
    WANT(smmuq_take_run(&consumer, run, 64, &count), SMMUQ_EMPTY_HANDLE);
    WANT(smmuq_complete(&consumer, 1), SMMUQ_EMPTY_HANDLE);
    WANT(smmuq_consumer_ring_new(20, 10, &sender, 1, &consumer), SMMUQ_BAD_SIZE);
    WANT(smmuq_consumer_ring_new(4, 10, &sender, 0, &consumer), SMMUQ_BAD_SENDERS);
    WANT(smmuq_consumer_ring_new(4, 0, &sender, 1, &consumer), SMMUQ_BAD_BATCHES);
    WANT(smmuq_kind(&consumer.handle), 0);
    WANT(smmuq_consumer_ring_new(4, 10, &sender, 1, &consumer), SMMUQ_OK);
    WANT(smmuq_kind(&sender.handle), 2);
    WANT(smmuq_kind(&consumer.handle), 4);
    WANT(smmuq_run((smmuq_engine *)&consumer, 64, &answer), SMMUQ_WRONG_HANDLE);
    WANT(smmuq_registers((smmuq_engine *)&consumer, &registers), SMMUQ_WRONG_HANDLE);
    WANT(smmuq_state(&consumer.handle, &errors, &tallies), SMMUQ_WRONG_HANDLE);
    WANT(smmuq_fill(&consumer.handle, &tag, 1), SMMUQ_WRONG_HANDLE);
    WANT(smmuq_acknowledge(&consumer.handle, 1, SMMUQ_RETRY), SMMUQ_WRONG_HANDLE);
    WANT(smmuq_unit_judge((smmuq_unit *)&consumer, 3, 0, &verdict), SMMUQ_WRONG_HANDLE);
    WANT(smmuq_look((smmuq_sender *)&consumer, &control), SMMUQ_WRONG_HANDLE);
    WANT(smmuq_send((smmuq_sender *)&consumer, words, 1, 1, &number), SMMUQ_WRONG_HANDLE);
    WANT(smmuq_take_run((smmuq_consumer *)&sender, run, 64, &count), SMMUQ_WRONG_HANDLE);
    WANT(smmuq_complete((smmuq_consumer *)&sender, 1), SMMUQ_WRONG_HANDLE);
    WANT(smmuq_take_run(&consumer, run, 64, &count), SMMUQ_RING_EMPTY);
    WANT((uint32_t)count, 0);
    WANT(smmuq_send(&sender, words, 3, 1, &number), SMMUQ_OK);
    WANT(smmuq_complete(&consumer, 1), SMMUQ_BAD_FIELD); /* nothing was told */
    WANT(smmuq_take_run(&consumer, run, 0, &count), SMMUQ_SHORT_BUFFER);
    WANT(smmuq_take_run(&consumer, run, 2, &count), SMMUQ_OK);
    WANT((uint32_t)count, 2);
    WANT((uint32_t)run[2].lo, 0); /* what stands behind the run stays */
    WANT(smmuq_take_run(&consumer, run, 65, &count), SMMUQ_OK);
    WANT((uint32_t)count, 4);
    WANT(run[0].lo != CFGI_STE.lo || run[1].lo != UNKNOWN.lo, 0);
    WANT(smmuq_complete(&consumer, 0), SMMUQ_BAD_FIELD);
    WANT(smmuq_complete(&consumer, 5), SMMUQ_BAD_FIELD);
    WANT(smmuq_complete(&consumer, 4), SMMUQ_ILL_OPCODE); /* the second is illegal: one ahead of it, and then it alone */
    WANT(smmuq_complete(&consumer, 1), SMMUQ_OK);
    WANT(smmuq_complete(&consumer, 1), SMMUQ_BAD_FIELD); /* the rest is taken again first */
    WANT(smmuq_take_run(&consumer, run, 64, &count), SMMUQ_OK);
    WANT(smmuq_complete(&consumer, 1), SMMUQ_REPLACED);
    WANT(smmuq_take_run(&consumer, run, 64, &count), SMMUQ_OK);
    WANT((uint32_t)count, 2);
    WANT(smmuq_done_up_to(&sender, &number), SMMUQ_OK);
    WANT(number, 0);
    WANT(smmuq_complete(&consumer, 2), SMMUQ_OK);
    WANT(smmuq_done_up_to(&sender, &number), SMMUQ_OK);
    WANT(number, 1);
    WANT(smmuq_send(&sender, words, 1, 1, &number), SMMUQ_OK);
    WANT(smmuq_close(&sender), SMMUQ_OK);
    WANT(smmuq_take_run(&consumer, run, 64, &count), SMMUQ_OK);
    WANT(smmuq_complete(&consumer, count), SMMUQ_OK);
    WANT(smmuq_take_run(&consumer, run, 64, &count), SMMUQ_RING_DRAINED);
    smmuq_free(&consumer.handle);
    WANT(smmuq_complete(&consumer, 1), SMMUQ_EMPTY_HANDLE);
    smmuq_free(&sender.handle);
}

/* What was told and not completed stays in the ring when the consumer is freed. */
static void free_a_consumer_midway(void) {
    smmuq_sender sender = SMMUQ_EMPTY;
    smmuq_consumer consumer = SMMUQ_EMPTY;
    smmuq_command run[64];
    smmuq_queue_control control;
    uint32_t number;
    size_t count;
    WANT(smmuq_consumer_ring_new(4, 10, &sender, 1, &consumer), SMMUQ_OK);
    WANT(smmuq_send(&sender, &CFGI_STE, 1, 1, &number), SMMUQ_OK);
    WANT(smmuq_take_run(&consumer, run, 64, &count), SMMUQ_OK);
    smmuq_free(&consumer.handle);
    WANT(smmuq_look(&sender, &control), SMMUQ_OK);
    WANT(control.prod - control.cons, 2);
    WANT(smmuq_done_up_to(&sender, &number), SMMUQ_OK);
    WANT(number, 0);
    smmuq_free(&sender.handle);
}

static smmuq_guarded shared;

static void *send_on_shared(void *sent) {
    uint32_t number, i;
    for (i = 0; i < 20000; i++) {
        if (smmuq_enter(&shared)) {
            if (smmuq_send(&shared.any.sender, &CFGI_STE, 1, 1, &number) == SMMUQ_OK)
                ++*(uint32_t *)sent;
            smmuq_leave(&shared);
        }
    }
    return NULL;
}

/* A refused call leaves what it would have told as it was, and that the handle is of another kind comes first. */
static void be_refused(void) {
    smmuq_unit unit = SMMUQ_EMPTY;
    smmuq_sender empty = SMMUQ_EMPTY, sender = SMMUQ_EMPTY;
    smmuq_consumer consumer = SMMUQ_EMPTY;
    smmuq_tag bad = {.kind = 7};
    smmuq_held held = {11, 12};
    smmuq_verdict verdict = {13, 14, 19};
    smmuq_command room[4] = {{15, 16}};
    uint32_t number = 17;
    size_t count = 18;
    WANT(smmuq_unit_new(4, &unit), SMMUQ_OK);
    WANT(smmuq_consumer_ring_new(4, 100, &sender, 1, &consumer), SMMUQ_OK);
    WANT(smmuq_done_up_to(&empty, &number), SMMUQ_EMPTY_HANDLE);
    WANT(smmuq_send(&sender, &CMD_SYNC, 1, 1, &number), SMMUQ_SYNC_INSIDE);
    WANT(smmuq_publish(&sender, &number), SMMUQ_NO_RESERVATION);
    WANT(smmuq_reserve(&sender, &CFGI_STE, 1, 1), SMMUQ_OK);
    WANT(smmuq_done_up_to(&sender, &number), SMMUQ_OPEN_RESERVATION);
    WANT(number, 17);
    WANT(smmuq_fill(&sender.handle, &bad, 1), SMMUQ_WRONG_HANDLE);
    WANT(smmuq_lookup(&sender.handle, &bad, &held), SMMUQ_WRONG_HANDLE);
    WANT(smmuq_evict(&unit.handle, &bad, &held), SMMUQ_BAD_FIELD);
    WANT(smmuq_find(&consumer.handle, 9, 0, 0, 0, 1, &bad, &held), SMMUQ_WRONG_HANDLE);
    WANT(smmuq_acknowledge(&consumer.handle, 1, 9), SMMUQ_WRONG_HANDLE);
    WANT(smmuq_evict_all(&sender.handle, SMMUQ_KIND(7), &count), SMMUQ_WRONG_HANDLE);
    WANT(smmuq_unit_judge((smmuq_unit *)&sender, 3, 0, &verdict), SMMUQ_WRONG_HANDLE);
    WANT(smmuq_take_run((smmuq_consumer *)&unit, room, 4, &count), SMMUQ_WRONG_HANDLE);
    WANT(held.value == 11 && held.born == 12 && verdict.removed == 13 && verdict.ill == 14 && verdict.waiting == 19, 1);
    WANT(room[0].lo == 15 && room[0].hi == 16 && count == 18, 1);
    WANT(smmuq_publish(&sender, &number), SMMUQ_OK);
    /* What a take without room told, nothing, is what can be completed. */
    WANT(smmuq_take_run(&consumer, room, 4, &count), SMMUQ_OK);
    WANT(smmuq_take_run(&consumer, room, 0, &count), SMMUQ_SHORT_BUFFER);
    WANT(smmuq_complete(&consumer, 1), SMMUQ_BAD_FIELD);
    smmuq_free(&unit.handle);
    smmuq_free(&sender.handle);
    smmuq_free(&consumer.handle);
}

/* With a substream and without one are two spaces of an endpoint. */
static void find_in_an_endpoint(void) {
    const uint64_t pages = SMMUQ_SPAN(SMMUQ_SPAN_4K);
    smmuq_unit unit = SMMUQ_EMPTY;
    smmuq_tag tag = {.kind = SMMUQ_ATC, .sid = 5, .address = 0x1000}, found;
    smmuq_held held;
    WANT(smmuq_unit_new(4, &unit), SMMUQ_OK);
    WANT(smmuq_fill(&unit.handle, &tag, 21), SMMUQ_OK);
    WANT(smmuq_find(&unit.handle, SMMUQ_ATC, 5, 2, 0x1234, pages, &found, &held), SMMUQ_NOT_HELD);
    WANT(smmuq_find(&unit.handle, SMMUQ_ATC, 5, SMMUQ_NO_SUBSTREAM, 0x1234, pages, &found, &held), SMMUQ_OK);
    WANT((uint32_t)held.value, 21);
    WANT(found.has_ssid, 0);
    WANT(smmuq_find(&unit.handle, SMMUQ_ATC, 5, 1u << 20, 0x1234, pages, &found, &held), SMMUQ_BAD_FIELD);
    tag.has_ssid = 1;
    tag.ssid = 2;
    WANT(smmuq_fill(&unit.handle, &tag, 22), SMMUQ_OK);
    WANT(smmuq_find(&unit.handle, SMMUQ_ATC, 5, 2, 0x1234, pages, &found, &held), SMMUQ_OK);
    WANT((uint32_t)held.value, 22);
    smmuq_free(&unit.handle);
}

/* A unit stops for an error that the model found, and goes on where another left off. */
static void stop_a_unit(void) {
    smmuq_unit unit = SMMUQ_EMPTY;
    smmuq_sender sender = SMMUQ_EMPTY;
    smmuq_verdict verdict;
    smmuq_errors errors;
    smmuq_tallies tallies;
    WANT(smmuq_unit_stop(&unit, SMMUQ_CERROR_ABT), SMMUQ_EMPTY_HANDLE);
    WANT(smmuq_unit_restore(&unit, 1, 0, 0), SMMUQ_EMPTY_HANDLE);
    WANT(smmuq_unit_reset(&unit), SMMUQ_EMPTY_HANDLE);
    WANT(smmuq_unit_new(4, &unit), SMMUQ_OK);
    WANT(smmuq_unit_stop(&unit, 0), SMMUQ_BAD_FIELD);
    WANT(smmuq_unit_stop(&unit, 4), SMMUQ_BAD_FIELD);
    WANT(smmuq_unit_stop(&unit, SMMUQ_CERROR_ABT), SMMUQ_OK);
    WANT(smmuq_state(&unit.handle, &errors, &tallies), SMMUQ_OK);
    WANT(errors.err == 2 && errors.gerror == 1 && errors.gerrorn == 0, 1);
    WANT(smmuq_unit_stop(&unit, SMMUQ_CERROR_ABT), SMMUQ_STILL_STOPPED);
    WANT(smmuq_unit_restore(&unit, 1, 0, 0), SMMUQ_STILL_STOPPED);
    WANT(smmuq_unit_judge(&unit, CMD_SYNC.lo, CMD_SYNC.hi, &verdict), SMMUQ_STILL_STOPPED);
    WANT(smmuq_acknowledge(&unit.handle, 0, SMMUQ_RETRY), SMMUQ_OTHER_BIT);
    WANT(smmuq_acknowledge(&unit.handle, 1, SMMUQ_REPLACE), SMMUQ_OK);
    WANT(smmuq_unit_judge(&unit, CMD_SYNC.lo, CMD_SYNC.hi, &verdict), SMMUQ_OK); /* the remedy meant nothing */
    WANT(smmuq_unit_reset(&unit), SMMUQ_OK);
    WANT(smmuq_unit_restore(&unit, 0, 1, 0), SMMUQ_BAD_FIELD);
    WANT(smmuq_unit_restore(&unit, SMMUQ_CERROR_ILL, 1, 1), SMMUQ_OK); /* they agree: it runs */
    WANT(smmuq_unit_judge(&unit, CMD_SYNC.lo, CMD_SYNC.hi, &verdict), SMMUQ_OK);
    WANT(smmuq_unit_restore(&unit, SMMUQ_CERROR_ATC_INV_SYNC, 0, 1), SMMUQ_OK);
    WANT(smmuq_state(&unit.handle, &errors, &tallies), SMMUQ_OK);
    WANT(errors.err == 3 && errors.gerror == 0 && errors.gerrorn == 1 && tallies.syncs == 1, 1);
    WANT(smmuq_acknowledge(&unit.handle, 0, SMMUQ_RETRY), SMMUQ_OK);
    WANT(smmuq_unit_stop((smmuq_unit *)&sender, SMMUQ_CERROR_ABT), SMMUQ_EMPTY_HANDLE);
    smmuq_free(&unit.handle);
}

/* What is held of a stream and of a virtual machine goes, and nothing else does. */
static void evict_by_owner(void) {
    smmuq_unit unit = SMMUQ_EMPTY;
    smmuq_tag tag = {.kind = SMMUQ_STE, .sid = 5, .vmid = 1, .scope = SMMUQ_SCOPE_GLOBAL};
    smmuq_held held;
    smmuq_verdict verdict;
    smmuq_errors errors;
    smmuq_tallies tallies;
    size_t count;
    uint32_t kind;
    WANT(smmuq_count(&unit.handle, &count), SMMUQ_EMPTY_HANDLE);
    WANT(smmuq_unit_new(8, &unit), SMMUQ_OK);
    for (kind = SMMUQ_STE; kind <= SMMUQ_ATC; kind++) {
        tag.kind = kind;
        WANT(smmuq_fill(&unit.handle, &tag, kind), SMMUQ_OK);
    }
    WANT(smmuq_evict_machine(&unit.handle, 0x10000, &count), SMMUQ_BAD_FIELD);
    WANT(smmuq_evict_stream(&unit.handle, 6, &count), SMMUQ_OK);
    WANT((uint32_t)count, 0);
    WANT(smmuq_evict_stream(&unit.handle, 5, &count), SMMUQ_OK);
    WANT((uint32_t)count, 3);
    WANT(smmuq_evict_machine(&unit.handle, 1, &count), SMMUQ_OK);
    WANT((uint32_t)count, 2);
    WANT(smmuq_evict_older(&unit.handle, 0, &count), SMMUQ_OK); /* born 0, which isn't older */
    WANT((uint32_t)count, 0);
    WANT(smmuq_count(&unit.handle, &count), SMMUQ_OK);
    WANT((uint32_t)count, 1); /* the hypervisor's */
    WANT(smmuq_find(&unit.handle, SMMUQ_EL2, 0, 2, 0, SMMUQ_SPAN(53), &tag, &held), SMMUQ_BAD_FIELD);
    WANT(smmuq_find(&unit.handle, SMMUQ_EL2, 0, 2, 0, SMMUQ_SPAN(SMMUQ_SPAN_4K), &tag, &held), SMMUQ_OK);
    WANT(tag.scope, SMMUQ_SCOPE_GLOBAL);
    WANT(smmuq_unit_judge(&unit, 3, 0, &verdict), SMMUQ_OK);
    tag = (smmuq_tag){.kind = SMMUQ_STE, .sid = 9};
    WANT(smmuq_fill(&unit.handle, &tag, 9), SMMUQ_OK); /* born 1 */
    WANT(smmuq_evict_older(&unit.handle, 1, &count), SMMUQ_OK);
    WANT((uint32_t)count, 1);
    WANT(smmuq_lookup(&unit.handle, &tag, &held), SMMUQ_OK);
    WANT(smmuq_unit_reset(&unit), SMMUQ_OK);
    WANT(smmuq_count(&unit.handle, &count), SMMUQ_OK);
    WANT((uint32_t)count, 0);
    WANT(smmuq_state(&unit.handle, &errors, &tallies), SMMUQ_OK);
    WANT(tallies.applied == 0 && tallies.removed == 0, 1);
    smmuq_free(&unit.handle);
}

/* Closing ends a ring, and a closed one can be renewed: whoever was left out is answered Q1, and the new one is open. */
static void renew_a_closed_ring(void) {
    smmuq_sender senders[2] = {SMMUQ_EMPTY, SMMUQ_EMPTY};
    smmuq_engine engine = SMMUQ_EMPTY;
    uint32_t number;
    WANT(smmuq_ring_new(4, 100, 8, senders, 2, &engine), SMMUQ_OK);
    WANT(smmuq_close(&senders[0]), SMMUQ_OK);
    WANT(smmuq_send(&senders[1], &CFGI_STE, 1, 1, &number), SMMUQ_RING_CLOSED);
    WANT(smmuq_renew(4, 100, 8, senders, 1, &engine), SMMUQ_OK);
    WANT(smmuq_send(&senders[0], &CFGI_STE, 1, 1, &number), SMMUQ_OK);
    WANT(number, 1);
    WANT(smmuq_send(&senders[1], &CFGI_STE, 1, 1, &number), SMMUQ_RING_CLOSED);
    smmuq_free(&senders[0].handle);
    smmuq_free(&senders[1].handle);
    smmuq_free(&engine.handle);
}

/* Two threads on one sender: whoever comes second is refused, and all that was sent is taken. */
static void share_a_guarded_handle(void) {
    smmuq_sender sender = SMMUQ_EMPTY;
    smmuq_engine engine = SMMUQ_EMPTY;
    smmuq_run_answer answer;
    pthread_t threads[2];
    uint32_t sent[2] = {0, 0}, number, taken = 0;
    smmuq_status status;
    int i;
    WANT(smmuq_ring_new(16, 1000000, 16, &sender, 1, &engine), SMMUQ_OK);
    shared.any.sender = sender;
    for (i = 0; i < 2; i++)
        pthread_create(&threads[i], NULL, send_on_shared, &sent[i]);
    for (i = 0; i < 2; i++)
        pthread_join(threads[i], NULL);
    while ((status = smmuq_run(&engine, 64, &answer)) == SMMUQ_OK)
        taken += answer.count;
    WANT(status, SMMUQ_RING_EMPTY);
    WANT(taken, 2 * (sent[0] + sent[1]));
    WANT(smmuq_done_up_to(&shared.any.sender, &number), SMMUQ_OK);
    WANT(number, sent[0] + sent[1]);
    smmuq_free(&shared.any.sender.handle);
    smmuq_free(&engine.handle);
}

/* A number of a walk or of a transaction that was overtaken, spent, or is of nobody. */
static void misuse_walks_and_transactions(void) {
    smmuq_unit unit = SMMUQ_EMPTY;
    const smmuq_tag stream = {.kind = SMMUQ_STE, .sid = 7};
    smmuq_held held;
    smmuq_verdict verdict;
    uint64_t walk, transaction, another = 21;
    uint32_t last = 22, i;
    WANT(smmuq_unit_new_tracking(0, 4, 65536, &unit), SMMUQ_BAD_FIELD);
    WANT(smmuq_unit_new_tracking(0, 4, 1, &unit), SMMUQ_OK);
    WANT(smmuq_begin(&unit, &stream, &held, &transaction), SMMUQ_NOT_HELD);
    WANT(smmuq_end(&unit, 0, &last), SMMUQ_NOT_OUTSTANDING);
    WANT(smmuq_begin_walk(&unit, &walk), SMMUQ_OK);
    WANT(smmuq_fill_walked(&unit, walk + 1, &stream, 70), SMMUQ_OTHER_WALK);
    WANT(smmuq_fill_walked(&unit, walk, &stream, 70), SMMUQ_OK);
    WANT(smmuq_begin(&unit, &stream, &held, &transaction), SMMUQ_OK);
    WANT(smmuq_begin(&unit, &stream, &held, &another), SMMUQ_TRANSACTIONS_FULL);
    WANT(smmuq_unit_judge(&unit, CFGI_STE.lo, CFGI_STE.hi, &verdict), SMMUQ_OK);
    WANT(smmuq_fill_walked(&unit, walk, &stream, 70), SMMUQ_OVERTAKEN);
    WANT(smmuq_unit_judge(&unit, CMD_SYNC.lo, CMD_SYNC.hi, &verdict), SMMUQ_WAITING);
    WANT(verdict.waiting, 1);
    WANT(last == 22 && another == 21, 1); /* a refusal tells nothing */
    WANT(smmuq_end(&unit, transaction, &last), SMMUQ_OK);
    WANT(last, 1);
    WANT(smmuq_end(&unit, transaction, &last), SMMUQ_NOT_OUTSTANDING);
    WANT(smmuq_unit_judge(&unit, CMD_SYNC.lo, CMD_SYNC.hi, &verdict), SMMUQ_OK);
    for (i = 0; i < 64; i++)
        WANT(smmuq_unit_judge(&unit, CFGI_STE.lo, CFGI_STE.hi, &verdict), SMMUQ_OK);
    WANT(smmuq_begin_walked(&unit, walk, &stream, &another), SMMUQ_TOO_OLD);
    WANT(smmuq_unit_reset(&unit), SMMUQ_OK);
    WANT(smmuq_begin_walked(&unit, walk, &stream, &another), SMMUQ_OTHER_WALK);
    smmuq_free(&unit.handle);
    WANT(smmuq_begin_walk(&unit, &walk), SMMUQ_EMPTY_HANDLE);
}

int main(void) {
    misuse_words();
    misuse_a_unit();
    misuse_a_ring();
    misuse_a_consumer();
    free_a_consumer_midway();
    be_refused();
    find_in_an_endpoint();
    stop_a_unit();
    evict_by_owner();
    renew_a_closed_ring();
    misuse_walks_and_transactions();
    share_a_guarded_handle();
    puts("misuse: all told");
    return 0;
}
