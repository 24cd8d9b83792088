/* SPDX-License-Identifier: MIT OR Apache-2.0 */
/* A driver of QEMU's SMMUv3 on a bare machine of two processors: both send batches into a ring, and the first owns the command
 * queue in memory. It writes what the forwarder says, shows SMMU_CMDQ_PROD, reads SMMU_GERROR and SMMU_CMDQ_CONS, and
 * acknowledges errors. One command in a while is written as words that QEMU calls illegal. At the first stop there the queue is
 * restarted, and at the second the command is replaced. */
#include "host.h"
#include "smmuq.h"

enum { LOG2 = 8, SLOTS = 1 << LOG2, RING_LOG2 = 7, RUN = 64, BATCH = 3, BATCHES = 12500, OFTEN = 1000 };

#define TLBI_NH_VA UINT64_C(0x0002000100000012) /* VMID 1, ASID 2 */
#define LEAF UINT64_C(1)
/* What the hardware is shown as no command: legal by its words, so that it comes through the ring. */
#define REFUSED SMMUQ_OPCODE_TLBI_NSNH_ALL

/* ---- the SMMU: where -M virt,iommu=smmuv3 has it, and its registers, from the chapter on the memory map */

enum { CR0 = 0x20, CR0ACK = 0x24, GERROR = 0x60, GERRORN = 0x64, CMDQ_BASE = 0x90, CMDQ_PROD = 0x98, CMDQ_CONS = 0x9c, CMDQEN = 1 << 3 };

static volatile uint32_t *const smmu = (volatile uint32_t *)0x09050000;
static _Alignas(SLOTS * 16) volatile smmuq_command queue[SLOTS];

static uint32_t read_register(unsigned offset) {
    return smmu[offset / 4];
}

static void write_register(unsigned offset, uint32_t value) {
    smmu[offset / 4] = value;
}

/* What was written to memory before is seen by a device before what is written then; and the same of reads. */
static void write_barrier(void) {
    __asm__ volatile("dmb oshst" ::: "memory");
}

static void read_barrier(void) {
    __asm__ volatile("dmb oshld" ::: "memory");
}

static void enable(void) {
    write_register(CR0, CMDQEN);
    while (!(read_register(CR0ACK) & CMDQEN))
        ;
}

static void disable(void) {
    write_register(CR0, 0);
    while (read_register(CR0ACK) & CMDQEN)
        ;
}

static void begin(void) {
    const uint64_t base = (uint64_t)(uintptr_t)queue | LOG2;
    write_register(CMDQ_BASE, (uint32_t)base);
    write_register(CMDQ_BASE + 4, (uint32_t)(base >> 32));
    write_register(CMDQ_PROD, 0);
    write_register(CMDQ_CONS, 0);
    owe(((read_register(GERROR) | read_register(GERRORN)) & 1) == 0, "a queue without an error");
    enable();
}

/* ---- the owner of its queue */

static smmuq_forwarder forwarder = SMMUQ_EMPTY;
static uint64_t shown, consumed, replaced, restarts, full;

static void show(const smmuq_command *run, const smmuq_placement *placement) {
    for (uint32_t place = 0; place < placement->count; place++) {
        volatile smmuq_command *slot = &queue[(placement->slot + place) % SLOTS];
        slot->lo = run[place].lo == REFUSED ? 0xff : run[place].lo;
        slot->hi = run[place].hi;
    }
    write_barrier();
    write_register(CMDQ_PROD, placement->prod);
    shown += placement->count;
}

static void acknowledge(void) {
    smmuq_acknowledgement acknowledgement;
    owe(smmuq_forwarder_acknowledge(&forwarder, read_register(GERRORN), SMMUQ_REPLACE, &acknowledgement) == SMMUQ_OK, "a replacement");
    owe(acknowledgement.command.lo == REFUSED, "the command at which it stopped");
    queue[acknowledgement.slot].lo = SMMUQ_OPCODE_CMD_SYNC;
    queue[acknowledgement.slot].hi = 0;
    write_barrier();
    write_register(GERRORN, acknowledgement.gerrorn);
    replaced++;
}

/* Disables the queue and enables it again: QEMU reads what isn't consumed once more. */
static void restart(void) {
    smmuq_restart indexes;
    disable();
    if ((read_register(GERROR) ^ read_register(GERRORN)) & 1)
        write_register(GERRORN, read_register(GERRORN) ^ 1);
    owe(smmuq_forwarder_restart(&forwarder, read_register(GERRORN), &indexes) == SMMUQ_OK, "a restart");
    owe(indexes.prod == shown % (2 * SLOTS) && indexes.cons == consumed % (2 * SLOTS), "the indexes of a restart");
    write_register(CMDQ_PROD, indexes.prod);
    write_register(CMDQ_CONS, indexes.cons);
    enable();
    restarts++;
}

static void poll(void) {
    const uint32_t gerror = read_register(GERROR), cons = read_register(CMDQ_CONS);
    uint32_t count;
    read_barrier();
    const smmuq_status status = smmuq_forwarder_poll(&forwarder, gerror, cons, &count);
    consumed += count;
    if (status != SMMUQ_QUEUE_STOPPED)
        owe(status == SMMUQ_OK, "a poll");
    else if (restarts == replaced)
        restart();
    else
        acknowledge();
}

static smmuq_status forward(void) {
    static smmuq_command run[RUN];
    smmuq_placement placement;
    const smmuq_status status = smmuq_forward(&forwarder, run, RUN, &placement);
    if (status == SMMUQ_OK)
        show(run, &placement);
    else if (status == SMMUQ_QUEUE_FULL)
        full++;
    else
        owe(status == SMMUQ_RING_EMPTY || status == SMMUQ_RING_UNWRITTEN || status == SMMUQ_RING_DRAINED, "a run");
    return status;
}

/* ---- the senders */

static smmuq_sender senders[2] = {SMMUQ_EMPTY, SMMUQ_EMPTY};
static uint64_t sent[2]; /* how many commands, with the CMD_SYNCs */
static uint32_t done;    /* that the second processor has sent all of its own, and was told */

/* Tries to send the next batch of a sender. */
static int send(unsigned who, uint32_t batch) {
    const smmuq_command commands[BATCH] = {
        {TLBI_NH_VA, 0x3000 | LEAF}, {batch % OFTEN == 0 ? REFUSED : TLBI_NH_VA, 0x4000 | LEAF}, {TLBI_NH_VA, 0x5000 | LEAF}};
    uint32_t number;
    const smmuq_status status = smmuq_send(&senders[who], commands, BATCH, 1, &number);
    if (status == SMMUQ_RING_FULL || status == SMMUQ_CONTENDED)
        return 0;
    owe(status == SMMUQ_OK && number == batch, "a send");
    sent[who] += BATCH + 1;
    return 1;
}

static int was_told(unsigned who, uint32_t number) {
    uint32_t told;
    owe(smmuq_done_up_to(&senders[who], &told) == SMMUQ_OK, "a number");
    return told >= number;
}

void second(void);
void second(void) {
    for (uint32_t batch = 1; batch <= BATCHES; batch++)
        while (!send(1, batch))
            ;
    while (!was_told(1, BATCHES))
        ;
    __atomic_store_n(&done, 1u, __ATOMIC_SEQ_CST);
}

/* The first processor sends, and goes round as the owner. */
static void serve(void) {
    uint32_t batch = 1;
    int closed = 0;
    for (;;) {
        if (batch <= BATCHES)
            batch += (uint32_t)send(0, batch);
        else if (!closed && __atomic_load_n(&done, __ATOMIC_SEQ_CST) && was_told(0, BATCHES))
            closed = smmuq_close(&senders[0]) == SMMUQ_OK;
        if (forward() == SMMUQ_RING_DRAINED && consumed == shown)
            return;
        poll();
    }
}

static void tell(const char *what, uint64_t number) {
    print(what);
    print_number(number);
    print("\n");
}

void first(void);
void first(void) {
    begin();
    owe(smmuq_forwarder_ring_new(RING_LOG2, BATCHES, LOG2, senders, 2, &forwarder) == SMMUQ_OK, "a new ring");
    owe(start_second() == 0, "the second processor");
    serve();
    owe(shown == sent[0] + sent[1] && consumed == shown, "all was consumed");
    owe(read_register(CMDQ_PROD) == shown % (2 * SLOTS), "PROD is where it was shown");
    owe((read_register(CMDQ_CONS) & 0xfffff) == shown % (2 * SLOTS), "CONS is at PROD");
    owe(((read_register(GERROR) ^ read_register(GERRORN)) & 1) == 0, "no error is active");
    tell("sent ", sent[0] + sent[1]);
    tell("consumed ", consumed);
    tell("replaced ", replaced);
    tell("restarted ", restarts);
    owe(smmuq_free(&senders[0].handle) == SMMUQ_OK && smmuq_free(&senders[1].handle) == SMMUQ_OK, "the end of the senders");
    owe(smmuq_free(&forwarder.handle) == SMMUQ_OK && heap_blocks() == 0, "all memory was given back");
    print("passed\n");
    leave(0);
}
