/* SPDX-License-Identifier: MIT OR Apache-2.0 */
/* Times calls of the C library, for bench/c: the best of so many rounds each, a line of the call's name and nanoseconds.
 *
 *     calls < WORDS          32 hexadecimal digits a line
 */
#define _POSIX_C_SOURCE 200809L
#include "decoder.h"

#include <stdio.h>
#include <stdlib.h>
#include <time.h>

enum { ROUNDS = 15, MOST_WORDS = 1 << 12, PASSES = 100, ASKS = 200000 };

static smmuq_command words[MOST_WORDS];
static size_t count;

static double now(void) {
    struct timespec time;
    clock_gettime(CLOCK_MONOTONIC, &time);
    return (double)time.tv_sec * 1e9 + (double)time.tv_nsec;
}

static void want(uint32_t status) {
    if (status != SMMUQ_OK) {
        fprintf(stderr, "status 0x%02x\n", status);
        exit(1);
    }
}

static void read_words(void) {
    char line[256];
    while (count < MOST_WORDS && fgets(line, sizeof line, stdin)) {
        int byte;
        for (byte = 15; byte >= 0; byte--) {
            unsigned value;
            uint64_t *word = byte < 8 ? &words[count].lo : &words[count].hi;
            if (sscanf(line + 2 * byte, "%2x", &value) != 1)
                exit(2);
            *word = *word << 8 | value;
        }
        count++;
    }
}

/* Nanoseconds a command of a pass over all words, the best of all rounds. */
static double each(smmuq_status (*decode)(uint64_t, uint64_t, smmuq_fields *)) {
    double best = 1e18;
    uint32_t faults = 0;
    int round, pass;
    size_t i;
    for (round = 0; round < ROUNDS; round++) {
        const double start = now();
        for (pass = 0; pass < PASSES; pass++)
            for (i = 0; i < count; i++) {
                smmuq_fields fields;
                faults += decode(words[i].lo, words[i].hi, &fields) != SMMUQ_OK;
                __asm__ volatile("" : : "r"(&fields) : "memory");
            }
        const double took = now() - start;
        best = took < best ? took : best;
    }
    if (faults)
        exit(3);
    return best / PASSES / (double)count;
}

static uint32_t by_hand(uint64_t lo, uint64_t hi, smmuq_fields *fields) {
    return decode_by_hand(lo, hi, fields);
}

/* Both decoders say the same of every command. */
static void compare(void) {
    size_t i;
    for (i = 0; i < count; i++) {
        smmuq_fields ours, theirs;
        want(smmuq_decode(words[i].lo, words[i].hi, &ours));
        want(decode_by_hand(words[i].lo, words[i].hi, &theirs));
        ours.lo = ours.hi = 0;
        if (memcmp(&ours, &theirs, sizeof ours) != 0) {
            fprintf(stderr, "command %zu: the decoders differ\n", i + 1);
            exit(4);
        }
    }
}

/* A unit with entries of one virtual machine judges an invalidation of another's page. */
static double judge_nothing(void) {
    smmuq_unit unit = SMMUQ_EMPTY;
    smmuq_verdict verdict;
    double best = 1e18;
    uint64_t page;
    int round, i;
    want(smmuq_unit_new(4096, &unit));
    for (page = 0; page < 4096; page++) {
        const smmuq_tag tag = {.kind = SMMUQ_S1, .vmid = (uint32_t)page % 16, .scope = SMMUQ_SCOPE_ASID, .asid = 1, .address = page << 12};
        want(smmuq_fill(&unit.handle, &tag, page));
    }
    for (round = 0; round < ROUNDS; round++) {
        const double start = now();
        for (i = 0; i < ASKS; i++)
            want(smmuq_unit_judge(&unit, 0x12 | 7ull << 32 | 1ull << 48, 1 | 0x2000000000ull, &verdict));
        const double took = now() - start;
        best = took < best ? took : best;
    }
    smmuq_free(&unit.handle);
    return best / ASKS;
}

/* Batches of so many commands and a CMD_SYNC into a ring with room, and an ask for the completion behind them. */
static void send(size_t length) {
    const size_t batches = 500000 / (length + 1);
    double best = 1e18, best_ask = 1e18;
    smmuq_command batch[63];
    size_t i;
    int round;
    for (i = 0; i < 63; i++)
        batch[i] = (smmuq_command){0x0000000700000003u, 1};
    for (round = 0; round < ROUNDS; round++) {
        smmuq_sender sender = SMMUQ_EMPTY;
        smmuq_engine engine = SMMUQ_EMPTY;
        uint32_t number = 0;
        double start, sent, asked;
        want(smmuq_ring_new(19, 4000000, 16, &sender, 1, &engine));
        start = now();
        for (i = 0; i < batches; i++)
            want(smmuq_send(&sender, batch, length, 1, &number));
        sent = now();
        for (i = 0; i < ASKS; i++)
            want(smmuq_done_up_to(&sender, &number));
        asked = now();
        best = sent - start < best ? sent - start : best;
        best_ask = asked - sent < best_ask ? asked - sent : best_ask;
        smmuq_free(&sender.handle);
        smmuq_free(&engine.handle);
    }
    printf("smmuq_send of %zu %.1f\n", length, best / (double)batches);
    if (length == 63)
        printf("smmuq_done_up_to %.1f\n", best_ask / ASKS);
}

int main(void) {
    read_words();
    compare();
    printf("smmuq_decode %.1f\n", each(smmuq_decode));
    printf("by-hand %.1f\n", each(by_hand));
    printf("smmuq_unit_judge %.1f\n", judge_nothing());
    send(1);
    send(63);
    return 0;
}
