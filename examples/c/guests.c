/* SPDX-License-Identifier: MIT OR Apache-2.0 */
/* A hypervisor sends the commands of two guests to the one queue of the host. One guest is hostile: its queue is full of any
 * words, of streams and a VMID that aren't its own, of Secure streams, sizes that are reserved and CMD_SYNCs that write to an
 * address of its choice, and a thread of it goes on writing while the hypervisor reads. The host's queue never stops, and no
 * entry of the other guest goes. With the word 'unconverted' the hypervisor sends the words as they are: then one of both happens.
 *
 *     guests [unconverted]
 */
#include "smmuq.h"

#include <pthread.h>
#include <stdio.h>
#include <string.h>

/* SMMU_IDR0: S2P, S1P, ATS and 16-bit ASIDs and VMIDs; SMMU_IDR1: 8 bits of SubstreamIDs and 16 of StreamIDs; SMMU_IDR3: RIL. */
enum { IDR0 = 0x41403, IDR1 = 8 << 6 | 16, IDR3 = 0x400, IDR5 = 0x70 };
enum { BATCH = 63, ROUNDS = 20000, MOST_ENTRIES = 32, HOSTILE = 0x21, OTHER = 0x22, HOSTILE_STREAM = 0x103, OTHER_STREAM = 0x104 };

/* The hostile guest's queue, which its thread writes. */
static volatile uint64_t queue[2 * BATCH];
static volatile int stopped;

static uint64_t seed = 1;
static uint64_t any(void) {
    seed ^= seed << 13;
    seed ^= seed >> 7;
    seed ^= seed << 17;
    return seed;
}

/* Any words, mostly with an opcode, and with the other guest's numbers. */
static smmuq_command hostile_command(void) {
    static const uint8_t OPCODES[] = {0x01, 0x02, 0x03, 0x04, 0x05, 0x06, 0x10, 0x11, 0x12, 0x13, 0x20, 0x21,
                                      0x22, 0x23, 0x28, 0x2a, 0x30, 0x40, 0x41, 0x44, 0x45, 0x46};
    static const uint32_t STREAMS[] = {3, OTHER_STREAM, HOSTILE_STREAM, 0};
    smmuq_command command = {any(), any()};
    if (any() % 16 == 0)
        return command;
    command.lo = (command.lo & ~UINT64_C(0xff)) | OPCODES[any() % sizeof OPCODES];
    if (any() % 4 != 0)
        command.lo &= ~UINT64_C(0x400); /* SSec */
    if (any() % 2 == 0)
        command.lo = (uint32_t)command.lo | (uint64_t)STREAMS[any() % 4] << 32;
    if (any() % 2 == 0)
        command.lo = (command.lo & ~(UINT64_C(0xffff) << 32)) | (uint64_t)OTHER << 32;
    if (any() % 2 == 0)
        command.hi &= 0xf1f; /* the page at 0; Size up to 31 */
    return command;
}

static void *write_queue(void *nothing) {
    size_t place = 0;
    while (!stopped) {
        const smmuq_command command = hostile_command();
        queue[2 * place] = command.lo;
        queue[2 * place + 1] = command.hi;
        place = (place + 1) % BATCH;
    }
    return nothing;
}

/* What is cached of a guest: its stream's entry and descriptor, pages of its address spaces, and what its endpoint has. */
static int fill(smmuq_engine *engine, uint32_t vmid, uint32_t sid) {
    const smmuq_tag tags[] = {
        {.kind = SMMUQ_STE, .sid = sid},
        {.kind = SMMUQ_CD, .sid = sid, .ssid = 0},
        {.kind = SMMUQ_S1, .vmid = vmid, .scope = SMMUQ_SCOPE_ASID, .asid = 1, .address = 0},
        {.kind = SMMUQ_S1, .vmid = vmid, .scope = SMMUQ_SCOPE_GLOBAL, .address = 0x200000, .span = SMMUQ_SPAN_2M},
        {.kind = SMMUQ_S2, .vmid = vmid, .address = 0x1000},
        {.kind = SMMUQ_ATC, .sid = sid, .address = 0},
    };
    for (size_t n = 0; n < sizeof tags / sizeof *tags; n++)
        if (smmuq_fill(&engine->handle, &tags[n], vmid) != SMMUQ_OK)
            return 0;
    return 1;
}

/* How many entries are the guest's, by the value that was filled in. */
static size_t held(smmuq_engine *engine, uint32_t vmid) {
    smmuq_entry entries[MOST_ENTRIES];
    size_t count, own = 0;
    if (smmuq_entries(&engine->handle, entries, MOST_ENTRIES, &count) != SMMUQ_OK)
        return 0;
    for (size_t n = 0; n < count; n++)
        own += entries[n].held.value == vmid;
    return own;
}

/* Sends a batch and has the host carry it out. Answers whether its queue went on. */
static int carry_out(smmuq_sender *sender, smmuq_engine *engine, const smmuq_command *commands, size_t count) {
    smmuq_run_answer answer;
    uint32_t number, done;
    smmuq_status status;
    if (count > 0 && smmuq_send(sender, commands, count, 1, &number) != SMMUQ_OK)
        return 0;
    while ((status = smmuq_run(engine, 64, &answer)) == SMMUQ_OK)
        ;
    return status == SMMUQ_RING_EMPTY && smmuq_done_up_to(sender, &done) == SMMUQ_OK && (count == 0 || done == number);
}

/* Serves the guest's queue once from the first command to the last, as the hypervisor does. */
static int serve(smmuq_guest *guest, smmuq_sender *sender, smmuq_engine *engine) {
    smmuq_command made[BATCH];
    smmuq_converted converted;
    size_t at = 0;
    while (at < BATCH) {
        if (smmuq_guest_convert(guest, (const smmuq_command *)queue + at, BATCH - at, made, BATCH, &converted) != SMMUQ_OK
            || !carry_out(sender, engine, made, converted.made))
            return 0;
        /* What isn't taken is the hypervisor's: it completes a CMD_SYNC, reads a stream table again, or stops the guest's
         * queue. Here it goes on behind it. */
        at += converted.taken + (converted.ended != SMMUQ_END_FULL);
    }
    return 1;
}

static int serve_unconverted(smmuq_sender *sender, smmuq_engine *engine) {
    smmuq_command copy[BATCH];
    for (size_t n = 0; n < BATCH; n++) {
        copy[n].lo = queue[2 * n];
        copy[n].hi = queue[2 * n + 1];
        if ((copy[n].lo & 0xff) == SMMUQ_OPCODE_CMD_SYNC)
            copy[n] = (smmuq_command){SMMUQ_OPCODE_TLBI_NSNH_ALL, 0};
    }
    return carry_out(sender, engine, copy, BATCH);
}

/* Answers how many rounds went well: the host's queue went on, and the other guest has all of its entries. */
static unsigned run(int unconverted, smmuq_guest *guest, smmuq_sender *sender, smmuq_engine *engine) {
    pthread_t thread;
    unsigned round = 0;
    if (pthread_create(&thread, NULL, write_queue, NULL) != 0)
        return 0;
    while (round < ROUNDS) {
        const int went_on = unconverted ? serve_unconverted(sender, engine) : serve(guest, sender, engine);
        if (!went_on || held(engine, OTHER) != 6)
            break;
        round++;
    }
    stopped = 1;
    pthread_join(thread, NULL);
    return round;
}

/* What the other guest's own command removes: its stage 1, and nothing else. */
static int own_command_reaches(smmuq_guest *guest, smmuq_sender *sender, smmuq_engine *engine) {
    const smmuq_command all = {SMMUQ_OPCODE_TLBI_NSNH_ALL, 0};
    smmuq_command made[BATCH];
    smmuq_converted converted;
    return smmuq_guest_convert(guest, &all, 1, made, BATCH, &converted) == SMMUQ_OK && converted.made == 1
        && carry_out(sender, engine, made, 1) && held(engine, OTHER) == 4;
}

int main(int argc, char **argv) {
    const int unconverted = argc > 1 && strcmp(argv[1], "unconverted") == 0;
    smmuq_sender senders[2] = {SMMUQ_EMPTY, SMMUQ_EMPTY};
    smmuq_engine engine = SMMUQ_EMPTY;
    smmuq_guest hostile = SMMUQ_EMPTY, other = SMMUQ_EMPTY;
    unsigned rounds;
    if (smmuq_ring_new(8, 0xfffffffeu, MOST_ENTRIES, senders, 2, &engine) != SMMUQ_OK
        || smmuq_guest_new(HOSTILE, IDR0, IDR1, IDR3, IDR5, &hostile) != SMMUQ_OK
        || smmuq_guest_new(OTHER, IDR0, IDR1, IDR3, IDR5, &other) != SMMUQ_OK
        || smmuq_guest_attach(&hostile, 3, HOSTILE_STREAM, 1) != SMMUQ_OK
        || smmuq_guest_attach(&other, 3, OTHER_STREAM, 1) != SMMUQ_OK
        || !fill(&engine, HOSTILE, HOSTILE_STREAM) || !fill(&engine, OTHER, OTHER_STREAM))
        return 1;
    rounds = run(unconverted, &hostile, &senders[0], &engine);
    if (!unconverted && (rounds != ROUNDS || !own_command_reaches(&other, &senders[1], &engine)))
        return 1;
    if (unconverted && rounds == ROUNDS)
        return 1;
    puts(unconverted ? "unconverted: the queue stopped, or entries of the other guest went"
                     : "converted: the queue never stopped, and the other guest has its entries");
    smmuq_free(&hostile.handle);
    smmuq_free(&other.handle);
    smmuq_free(&senders[0].handle);
    smmuq_free(&senders[1].handle);
    smmuq_free(&engine.handle);
    return 0;
}
