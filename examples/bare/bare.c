/* SPDX-License-Identifier: MIT OR Apache-2.0 */
/* libsmmuq without an operating system and without a C library: a unit serves a small queue, then a ring has its sender on
 * one processor and its engine on the other. start.S calls `first` and, once that has started it, `second`. */
#include "host.h"
#include "smmuq.h"

enum { CAPACITY = 64, TEXT_ROOM = 160, BATCHES = 2000, BATCH = 3, LOG2 = 5 };

#define TLBI_NH_VA UINT64_C(0x0002000100000012) /* VMID 1, ASID 2 */
#define LEAF UINT64_C(1)

/* ---- a unit */

static void show(smmuq_command command, smmuq_status status, uint32_t removed) {
    char text[TEXT_ROOM];
    size_t length;
    if (smmuq_text(command.lo, command.hi, text, sizeof text, &length) == SMMUQ_OK)
        print(text);
    else
        print("no command");
    print(": ");
    print(smmuq_status_name(status));
    print(", removed ");
    print_number(removed);
    print("\n");
}

/* Two entries are filled in, a command invalidates one of them, and another is illegal, which stops the unit until software
 * acknowledges that and has it replaced. */
static void serve(void) {
    static const smmuq_command queue[] = {
        {TLBI_NH_VA, 0x3000 | LEAF},
        {SMMUQ_OPCODE_CMD_SYNC, 0},
        {0xff, 0},
        {0xff, 0}, /* the same slot, once more */
        {SMMUQ_OPCODE_CMD_SYNC, 0},
    };
    smmuq_unit unit = SMMUQ_EMPTY;
    smmuq_tag page = {.kind = SMMUQ_S1, .vmid = 1, .scope = SMMUQ_SCOPE_ASID, .asid = 2, .address = 0x3000};
    smmuq_held held;
    owe(smmuq_unit_new(CAPACITY, &unit) == SMMUQ_OK, "a new unit");
    owe(smmuq_fill(&unit.handle, &page, 0x1000) == SMMUQ_OK, "the first page");
    page.address = 0x4000;
    owe(smmuq_fill(&unit.handle, &page, 0x2000) == SMMUQ_OK, "the second page");
    for (size_t i = 0; i < sizeof queue / sizeof *queue; i++) {
        smmuq_verdict verdict = {0, 0, 0};
        const smmuq_status status = smmuq_unit_judge(&unit, queue[i].lo, queue[i].hi, &verdict);
        show(queue[i], status, verdict.removed);
        if (status == SMMUQ_ILL_OPCODE)
            owe(smmuq_acknowledge(&unit.handle, 1, SMMUQ_REPLACE) == SMMUQ_OK, "the acknowledgement");
    }
    owe(smmuq_lookup(&unit.handle, &page, &held) == SMMUQ_OK && held.value == 0x2000, "the second page is held");
    page.address = 0x3000;
    owe(smmuq_lookup(&unit.handle, &page, &held) == SMMUQ_NOT_HELD, "the first page is gone");
    owe(smmuq_free(&unit.handle) == SMMUQ_OK, "the end of the unit");
}

/* ---- a ring */

static smmuq_sender sender = SMMUQ_EMPTY;
static smmuq_engine engine = SMMUQ_EMPTY;
/* What the engine took in all; 0 until the ring is drained. */
static uint64_t taken_in_all;

/* The second processor is the engine. */
void second(void);
void second(void) {
    uint64_t taken = 0;
    for (;;) {
        smmuq_run_answer answer;
        const smmuq_status status = smmuq_run(&engine, CAPACITY, &answer);
        if (status == SMMUQ_OK)
            taken += answer.count;
        else if (status == SMMUQ_RING_DRAINED)
            break;
        else
            owe(status == SMMUQ_RING_EMPTY || status == SMMUQ_RING_UNWRITTEN, "a run");
    }
    /* The engine's handle goes to the first processor. */
    __atomic_store_n(&taken_in_all, taken, __ATOMIC_SEQ_CST);
}

/* The first one sends, and waits for the last CMD_SYNC. It spins where a kernel would sleep. */
static uint64_t send_all(void) {
    static const smmuq_command commands[BATCH] = {
        {TLBI_NH_VA, 0x3000 | LEAF}, {TLBI_NH_VA, 0x4000 | LEAF}, {TLBI_NH_VA, 0x5000 | LEAF}};
    uint32_t number = 0, done = 0;
    uint64_t sent = 0;
    for (uint32_t batch = 1; batch <= BATCHES; batch++) {
        const size_t count = 1 + batch % BATCH;
        smmuq_status status;
        do
            status = smmuq_send(&sender, commands, count, 1, &number);
        while (status == SMMUQ_RING_FULL || status == SMMUQ_CONTENDED);
        owe(status == SMMUQ_OK && number == batch, "a send");
        sent += count + 1;
    }
    while (done < number)
        owe(smmuq_done_up_to(&sender, &done) == SMMUQ_OK, "the last number");
    return sent;
}

static void ring(void) {
    uint64_t taken;
    owe(smmuq_ring_new(LOG2, BATCHES, CAPACITY, &sender, 1, &engine) == SMMUQ_OK, "a new ring");
    owe(start_second() == 0, "the second processor");
    const uint64_t sent = send_all();
    owe(smmuq_close(&sender) == SMMUQ_OK, "the close");
    while (!(taken = __atomic_load_n(&taken_in_all, __ATOMIC_SEQ_CST)))
        ;
    print("ring: sent ");
    print_number(sent);
    print(", taken ");
    print_number(taken);
    print("\n");
    owe(smmuq_free(&sender.handle) == SMMUQ_OK && smmuq_free(&engine.handle) == SMMUQ_OK, "the end of the ring");
}

void first(void);
void first(void) {
    serve();
    ring();
    owe(heap_blocks() == 0, "all memory was given back");
    print("passed\n");
    leave(0);
}
