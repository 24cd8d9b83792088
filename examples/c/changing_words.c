/* SPDX-License-Identifier: MIT OR Apache-2.0 */
/* Another thread changes the words of a batch, of a tag and of a change while calls read them, as a guest can whose memory a hypervisor
 * passes on: the words of a CMD_SYNC to a cell of nobody, and of an entry of 2^200 pages. Each word is read once, so what is
 * judged is what is used: a call does what it would do for some words, and nothing that it would refuse.
 *
 *     changing_words [CALLS]
 */
#include "smmuq.h"

#include <pthread.h>
#include <stdio.h>
#include <stdlib.h>

static volatile uint64_t words[2];
static volatile smmuq_tag tag;
static volatile smmuq_change changed;
static volatile uint32_t stop;

static void *change(void *nothing) {
    (void)nothing;
    while (!stop) {
        words[0] = 0x500000003u; /* CFGI_STE */
        words[1] = 1;
        words[1] = 0x40000000u + 4ull * 0x0fffffff;
        words[0] = 0x900001046u; /* CMD_SYNC of sender 0x0fffffff, number 9 */
        tag.span = 0;
        tag.address = 0x1000;
        tag.span = 200;
        tag.address = 0x1001;
        changed.vmid = 0x10000;
        changed.length = 1;
        changed.vmid = 1;
        changed.length = 0x8000;
    }
    return NULL;
}

/* Fills and uses the entry of whatever tag is read. Answers whether only what may come of a tag did. */
static int walk_and_access(smmuq_unit *unit) {
    smmuq_held held;
    uint64_t walk, transaction;
    uint32_t last;
    smmuq_status status;
    if (smmuq_begin_walk(unit, &walk) != SMMUQ_OK)
        return 0;
    status = smmuq_fill_walked(unit, walk, (const smmuq_tag *)&tag, 7);
    if (status != SMMUQ_OK && status != SMMUQ_BAD_FIELD)
        return 0;
    status = smmuq_begin(unit, (const smmuq_tag *)&tag, &held, &transaction);
    if (status == SMMUQ_OK)
        return held.value == 7 && smmuq_end(unit, transaction, &last) == SMMUQ_OK;
    return status == SMMUQ_BAD_FIELD || status == SMMUQ_NOT_HELD;
}

/* Gets the commands for whatever change is read. Answers whether they are a page or eight, of VMID 1. */
static int unmap(void) {
    smmuq_command commands[8];
    size_t count, i;
    smmuq_status status = smmuq_invalidation(2, 0, 0, 0x10, (const smmuq_change *)&changed, commands, 8, &count);
    if (status == SMMUQ_BAD_FIELD)
        return 1;
    for (i = 0; status == SMMUQ_OK && i < count; i++)
        if (commands[i].lo != 0x0000000100000013 || commands[i].hi != (0x1000 + i * 0x1000))
            return 0;
    return status == SMMUQ_OK && (count == 1 || count == 8);
}

int main(int argc, char **argv) {
    smmuq_sender sender = SMMUQ_EMPTY;
    smmuq_unit unit = SMMUQ_EMPTY;
    smmuq_engine engine = SMMUQ_EMPTY;
    unsigned long calls = argc > 1 ? strtoul(argv[1], NULL, 10) : 1000000, i;
    smmuq_run_answer answer;
    uint32_t number, sent = 0, done;
    smmuq_status status;
    smmuq_held held;
    pthread_t thread;
    tag.kind = SMMUQ_S1;
    tag.scope = SMMUQ_SCOPE_GLOBAL;
    changed.kind = SMMUQ_REGION_S1;
    changed.vmid = 1;
    changed.tg = SMMUQ_GRANULE_4K;
    changed.most_commands = 8;
    changed.first = 0x1000;
    changed.length = 1;
    if (smmuq_ring_new(4, 0xfffffffeu, 8, &sender, 1, &engine) != SMMUQ_OK || smmuq_unit_new_tracking(0, 8, 1, &unit) != SMMUQ_OK)
        return 1;
    pthread_create(&thread, NULL, change, NULL);
    for (i = 0; i < calls; i++) {
        status = smmuq_send(&sender, (const smmuq_command *)words, 1, 1, &number);
        if (status == SMMUQ_OK)
            sent++;
        else if (status != SMMUQ_SYNC_INSIDE)
            return 1;
        while ((status = smmuq_run(&engine, 64, &answer)) != SMMUQ_RING_EMPTY) {
            if (status >= SMMUQ_ILL_OPCODE && status <= SMMUQ_ILL_SPAN &&
                smmuq_acknowledge(&engine.handle, 1, SMMUQ_REPLACE) != SMMUQ_OK &&
                smmuq_acknowledge(&engine.handle, 0, SMMUQ_REPLACE) != SMMUQ_OK)
                return 1;
        }
        status = smmuq_fill(&engine.handle, (const smmuq_tag *)&tag, i);
        if (status != SMMUQ_OK && status != SMMUQ_BAD_FIELD)
            return 1;
        status = smmuq_lookup(&engine.handle, (const smmuq_tag *)&tag, &held);
        if (status != SMMUQ_OK && status != SMMUQ_BAD_FIELD && status != SMMUQ_NOT_HELD)
            return 1;
        if (!walk_and_access(&unit) || !unmap())
            return 1;
    }
    stop = 1;
    pthread_join(thread, NULL);
    if (smmuq_done_up_to(&sender, &done) != SMMUQ_OK || done != sent)
        return 1;
    smmuq_free(&sender.handle);
    smmuq_free(&engine.handle);
    smmuq_free(&unit.handle);
    puts("changing_words: each that was sent is done");
    return 0;
}
