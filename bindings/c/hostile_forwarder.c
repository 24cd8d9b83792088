/* SPDX-License-Identifier: MIT OR Apache-2.0 */
/* A hostile caller of a forwarder: wrong and empty handles, short buffers, wrong remedies, and words of registers that no
 * working queue has. What is refused changes nothing and tells nothing, and from a broken queue nobody is told anything.
 * tools/check-c runs it. */
#include "smmuq.h"

#include <stdio.h>
#include <stdlib.h>
#include <string.h>

static void want(const char *call, int line, uint64_t got, uint64_t wanted) {
    if (got != wanted) {
        printf("line %d: %s is 0x%llx, not 0x%llx\n", line, call, (unsigned long long)got, (unsigned long long)wanted);
        exit(1);
    }
}
#define WANT(call, answer) want(#call, __LINE__, (call), (answer))

enum { QUEUE_LOG2 = 2, RUN = 64, UNTOLD = 0x5a5a5a5a };

static const smmuq_command TLBI = {SMMUQ_OPCODE_TLBI_NSNH_ALL, 0}, ILLEGAL = {0xff, 0};

/* A ring of one sender, and what a call told last. */
struct driver {
    smmuq_sender sender;
    smmuq_forwarder forwarder;
    smmuq_command run[RUN];
    smmuq_placement placement;
    smmuq_acknowledgement acknowledgement;
    smmuq_restart restart;
    smmuq_batch_outcome outcome;
    uint32_t consumed;
};

static void forget(struct driver *driver) {
    memset(driver->run, 0x5a, sizeof driver->run);
    memset(&driver->placement, 0x5a, sizeof driver->placement);
    memset(&driver->acknowledgement, 0x5a, sizeof driver->acknowledgement);
    memset(&driver->restart, 0x5a, sizeof driver->restart);
    memset(&driver->outcome, 0x5a, sizeof driver->outcome);
    driver->consumed = UNTOLD;
}

static struct driver new_driver(void) {
    struct driver driver;
    memset(&driver, 0, sizeof driver);
    WANT(smmuq_forwarder_ring_new(4, 100, QUEUE_LOG2, &driver.sender, 1, &driver.forwarder), SMMUQ_OK);
    WANT(smmuq_kind(&driver.forwarder.handle), 6);
    forget(&driver);
    return driver;
}

static void drop(struct driver *driver) {
    WANT(smmuq_free(&driver->sender.handle), SMMUQ_OK);
    WANT(smmuq_free(&driver->forwarder.handle), SMMUQ_OK);
    WANT(smmuq_kind(&driver->forwarder.handle), 0);
}

static void send(struct driver *driver, const smmuq_command *command) {
    uint32_t number;
    WANT(smmuq_send(&driver->sender, command, 1, 1, &number), SMMUQ_OK);
}

static uint32_t done(struct driver *driver) {
    uint32_t number;
    WANT(smmuq_done_up_to(&driver->sender, &number), SMMUQ_OK);
    return number;
}

static uint32_t forward(struct driver *driver, size_t length) {
    return smmuq_forward(&driver->forwarder, driver->run, length, &driver->placement);
}

static uint32_t poll(struct driver *driver, uint32_t gerror, uint32_t cons) {
    return smmuq_forwarder_poll(&driver->forwarder, gerror, cons, &driver->consumed);
}

static uint32_t poll_msi(struct driver *driver, uint32_t data) {
    WANT(smmuq_forwarder_poll_msi(&driver->forwarder, data, &driver->consumed), SMMUQ_OK);
    return driver->consumed;
}

static uint32_t acknowledge(struct driver *driver, uint32_t gerrorn, uint32_t remedy) {
    return smmuq_forwarder_acknowledge(&driver->forwarder, gerrorn, remedy, &driver->acknowledgement);
}

static uint32_t restart(struct driver *driver, uint32_t gerrorn) {
    return smmuq_forwarder_restart(&driver->forwarder, gerrorn, &driver->restart);
}

/* What became of the only sender's batch with this number. */
static uint32_t outcome(struct driver *driver, uint32_t number) {
    WANT(smmuq_forwarder_outcome(&driver->forwarder, 0, number, &driver->outcome), SMMUQ_OK);
    return driver->outcome.outcome;
}

/* Nothing was told since `forget`. */
static void nothing_told(const struct driver *driver) {
    WANT(driver->run[0].lo, 0x5a5a5a5a5a5a5a5a);
    WANT(driver->placement.prod, UNTOLD);
    WANT(driver->acknowledgement.gerrorn, UNTOLD);
    WANT(driver->restart.prod, UNTOLD);
    WANT(driver->outcome.outcome, UNTOLD);
    WANT(driver->consumed, UNTOLD);
}

static void wrong_handles(void) {
    struct driver driver = new_driver();
    smmuq_forwarder empty = SMMUQ_EMPTY, *other = (smmuq_forwarder *)&driver.sender;
    WANT(smmuq_forward(&empty, driver.run, RUN, &driver.placement), SMMUQ_EMPTY_HANDLE);
    WANT(smmuq_forward(other, driver.run, RUN, &driver.placement), SMMUQ_WRONG_HANDLE);
    WANT(smmuq_forwarder_poll(&empty, 0, 0, &driver.consumed), SMMUQ_EMPTY_HANDLE);
    WANT(smmuq_forwarder_poll(other, 0, 0, &driver.consumed), SMMUQ_WRONG_HANDLE);
    WANT(smmuq_forwarder_poll_msi(&empty, 0, &driver.consumed), SMMUQ_EMPTY_HANDLE);
    WANT(smmuq_forwarder_poll_msi(other, 0, &driver.consumed), SMMUQ_WRONG_HANDLE);
    WANT(smmuq_forwarder_acknowledge(&empty, 0, 9, &driver.acknowledgement), SMMUQ_EMPTY_HANDLE);
    WANT(smmuq_forwarder_acknowledge(other, 0, 9, &driver.acknowledgement), SMMUQ_WRONG_HANDLE);
    WANT(smmuq_forwarder_restart(&empty, 0, &driver.restart), SMMUQ_EMPTY_HANDLE);
    WANT(smmuq_forwarder_restart(other, 0, &driver.restart), SMMUQ_WRONG_HANDLE);
    WANT(smmuq_forwarder_outcome(&empty, 9, 0, &driver.outcome), SMMUQ_EMPTY_HANDLE);
    WANT(smmuq_forwarder_outcome(other, 9, 0, &driver.outcome), SMMUQ_WRONG_HANDLE);
    WANT(smmuq_forwarder_outcome(&driver.forwarder, 1, 1, &driver.outcome), SMMUQ_BAD_FIELD);
    WANT(smmuq_forwarder_outcome(&driver.forwarder, 0xffffffff, 1, &driver.outcome), SMMUQ_BAD_FIELD);
    nothing_told(&driver);
    WANT(smmuq_forwarder_ring_new(4, 100, 0, &driver.sender, 1, &driver.forwarder), SMMUQ_BAD_FIELD);
    WANT(smmuq_forwarder_ring_new(4, 100, 20, &driver.sender, 1, &driver.forwarder), SMMUQ_BAD_FIELD);
    WANT(smmuq_forwarder_ring_new(20, 100, 2, &driver.sender, 1, &driver.forwarder), SMMUQ_BAD_SIZE);
    WANT(smmuq_kind(&driver.forwarder.handle), 6);
    drop(&driver);
}

/* Two laps of a queue of four slots: where commands go, and when their sender is told. */
static void laps(void) {
    struct driver driver = new_driver();
    uint32_t batch;
    WANT(forward(&driver, RUN - 1), SMMUQ_SHORT_BUFFER);
    WANT(forward(&driver, RUN), SMMUQ_RING_EMPTY);
    nothing_told(&driver);
    for (batch = 0; batch < 4; batch++) {
        send(&driver, &TLBI);
        WANT(forward(&driver, RUN), SMMUQ_OK);
        WANT(driver.placement.slot, batch * 2 % 4);
        WANT(driver.placement.count, 2);
        WANT(driver.placement.prod, (batch * 2 + 2) % 8);
        WANT(driver.run[0].lo, SMMUQ_OPCODE_TLBI_NSNH_ALL);
        WANT(driver.run[1].lo, SMMUQ_OPCODE_CMD_SYNC); /* without the address of the ring's own cell */
        WANT(driver.run[1].hi, 0);
        WANT(driver.run[2].lo, 0x5a5a5a5a5a5a5a5a);
        WANT(poll(&driver, 0, (batch * 2 + 1) % 8), SMMUQ_OK);
        WANT(done(&driver), batch);
        WANT(poll(&driver, 0, driver.placement.prod), SMMUQ_OK);
        WANT(driver.consumed, 1);
        WANT(done(&driver), batch + 1);
    }
    drop(&driver);
}

static void full(void) {
    struct driver driver = new_driver();
    send(&driver, &TLBI);
    send(&driver, &TLBI);
    send(&driver, &ILLEGAL);
    WANT(forward(&driver, RUN), SMMUQ_OK);
    WANT(driver.placement.count, 4);
    WANT(forward(&driver, RUN), SMMUQ_QUEUE_FULL);
    WANT(poll(&driver, 0, 4), SMMUQ_OK);
    WANT(driver.consumed, 4);
    forget(&driver);
    WANT(forward(&driver, RUN), SMMUQ_REPLACED);
    WANT(driver.run[0].lo, 0xff);
    WANT(driver.placement.prod, UNTOLD);
    WANT(forward(&driver, RUN), SMMUQ_OK);
    WANT(driver.placement.slot, 0);
    WANT(driver.placement.count, 1);
    drop(&driver);
}

/* A stop at the first of two commands, remedied in each way. */
static void stops(void) {
    struct driver driver = new_driver();
    WANT(acknowledge(&driver, 0, SMMUQ_RETRY), SMMUQ_NO_ERROR);
    send(&driver, &TLBI);
    WANT(forward(&driver, RUN), SMMUQ_OK);
    WANT(poll(&driver, 1, 2u << 24), SMMUQ_QUEUE_STOPPED); /* CERROR_ABT */
    WANT(driver.consumed, 0);
    WANT(acknowledge(&driver, 0, SMMUQ_REPLACE), SMMUQ_NOT_ILLEGAL);
    WANT(acknowledge(&driver, 0, SMMUQ_REREAD), SMMUQ_BAD_FIELD);
    WANT(driver.acknowledgement.gerrorn, UNTOLD);
    WANT(acknowledge(&driver, 0xf0, SMMUQ_RETRY), SMMUQ_OK);
    WANT(driver.acknowledgement.gerrorn, 0xf1);
    WANT(acknowledge(&driver, 0, SMMUQ_RETRY), SMMUQ_NO_ERROR);
    WANT(poll(&driver, 0, 1u << 24), SMMUQ_QUEUE_STOPPED); /* CERROR_ILL: CMDQ_ERR is turned again */
    WANT(acknowledge(&driver, 1, SMMUQ_REPLACE), SMMUQ_OK);
    WANT(driver.acknowledgement.command.lo, SMMUQ_OPCODE_TLBI_NSNH_ALL);
    WANT(driver.acknowledgement.slot, 0);
    WANT(driver.acknowledgement.gerrorn, 0);
    WANT(poll(&driver, 1, 1u << 24 | 1), SMMUQ_QUEUE_STOPPED); /* at the CMD_SYNC */
    WANT(driver.consumed, 1);
    WANT(acknowledge(&driver, 0, SMMUQ_REPLACE), SMMUQ_SYNC_STAYS);
    WANT(done(&driver), 0);
    WANT(acknowledge(&driver, 1, SMMUQ_RETRY), SMMUQ_OK); /* CMDQ_ERR of the word isn't asked for */
    WANT(driver.acknowledgement.gerrorn, 1);
    WANT(outcome(&driver, 1), SMMUQ_OUTCOME_NOT_YET);
    WANT(poll(&driver, 1, 2), SMMUQ_OK);
    WANT(done(&driver), 1);
    WANT(outcome(&driver, 1), SMMUQ_OUTCOME_LOST);
    WANT(driver.outcome.lost, 1);
    WANT(outcome(&driver, 0), SMMUQ_OUTCOME_NOT_YET);
    WANT(outcome(&driver, 2), SMMUQ_OUTCOME_NOT_YET);
    drop(&driver);
}

/* Words that no working queue has, with two commands in flight, and then what a working one has, which is believed only
 * after a restart. */
static void broken(uint32_t gerror, uint32_t cons) {
    struct driver driver = new_driver();
    send(&driver, &TLBI);
    WANT(forward(&driver, RUN), SMMUQ_OK);
    forget(&driver);
    WANT(poll(&driver, gerror, cons), SMMUQ_QUEUE_BROKEN);
    WANT(poll(&driver, 0, 2), SMMUQ_QUEUE_BROKEN);
    WANT(forward(&driver, RUN), SMMUQ_QUEUE_BROKEN);
    WANT(acknowledge(&driver, 0, SMMUQ_RETRY), SMMUQ_NO_ERROR);
    nothing_told(&driver);
    WANT(done(&driver), 0);
    WANT(restart(&driver, 0xf1), SMMUQ_OK);
    WANT(driver.restart.prod, 2);
    WANT(driver.restart.cons, 0);
    WANT(poll(&driver, 0xf1, 1), SMMUQ_OK); /* CMDQ_ERR is that of the word */
    WANT(done(&driver), 0);
    WANT(poll(&driver, 1, 2), SMMUQ_OK);
    WANT(done(&driver), 1);
    WANT(outcome(&driver, 1), SMMUQ_OUTCOME_COMPLETE);
    drop(&driver);
}

/* A queue is restarted in an error stop, behind a command that was consumed, at any time again, and full. */
static void restarts(void) {
    struct driver driver = new_driver();
    WANT(restart(&driver, 0), SMMUQ_OK);
    WANT(driver.restart.prod, 0);
    send(&driver, &TLBI);
    send(&driver, &TLBI);
    WANT(forward(&driver, RUN), SMMUQ_OK);
    WANT(poll(&driver, 1, 2u << 24 | 1), SMMUQ_QUEUE_STOPPED); /* CERROR_ABT */
    WANT(restart(&driver, 0), SMMUQ_OK);
    WANT(restart(&driver, 0), SMMUQ_OK);
    WANT(driver.restart.prod, 4);
    WANT(driver.restart.cons, 1);
    WANT(acknowledge(&driver, 0, SMMUQ_RETRY), SMMUQ_NO_ERROR);
    WANT(forward(&driver, RUN), SMMUQ_RING_EMPTY);
    WANT(done(&driver), 0);
    WANT(poll(&driver, 0, 0), SMMUQ_QUEUE_BROKEN); /* behind what was consumed */
    WANT(restart(&driver, 0), SMMUQ_OK);
    WANT(poll(&driver, 0, 4), SMMUQ_OK);
    WANT(driver.consumed, 3);
    WANT(done(&driver), 2);
    drop(&driver);
}

/* What MSIs tell: nothing that is older than what is known, wasn't shown, or lies behind a stop. */
static void messages(void) {
    struct driver driver = new_driver();
    uint32_t batch;
    WANT(poll_msi(&driver, 0), 0);
    WANT(poll_msi(&driver, 1), 0);
    WANT(poll_msi(&driver, 0xffffffff), 0);
    for (batch = 1; batch <= 6; batch++) {
        send(&driver, &TLBI);
        WANT(forward(&driver, RUN), SMMUQ_OK);
        WANT(poll_msi(&driver, 2 * batch + 1), 0);
        WANT(done(&driver), batch - 1);
        WANT(poll_msi(&driver, 2 * batch), 2);
        WANT(done(&driver), batch);
        WANT(poll_msi(&driver, 2 * batch), 0);
        WANT(poll_msi(&driver, 2 * batch - 2), 0);
        WANT(poll_msi(&driver, 2 * batch - 8), 0); /* the index of a lap ago */
    }
    send(&driver, &TLBI);
    WANT(forward(&driver, RUN), SMMUQ_OK);
    WANT(poll(&driver, 1, 1u << 24 | 4), SMMUQ_QUEUE_STOPPED);
    WANT(poll_msi(&driver, 14), 0);
    WANT(acknowledge(&driver, 0, SMMUQ_RETRY), SMMUQ_OK);
    WANT(poll_msi(&driver, 14), 2);
    WANT(done(&driver), 7);
    send(&driver, &TLBI);
    WANT(forward(&driver, RUN), SMMUQ_OK);
    WANT(poll(&driver, 0, 0xffffffff), SMMUQ_QUEUE_BROKEN);
    WANT(poll_msi(&driver, 16), 0);
    WANT(restart(&driver, 0), SMMUQ_OK);
    WANT(driver.restart.message, 17); /* two commands are read again */
    WANT(poll_msi(&driver, 16), 0);
    WANT(poll_msi(&driver, 18), 2);
    WANT(done(&driver), 8);
    drop(&driver);
}

/* An MSI of before a restart, which nobody looked at until then: two of four commands were consumed, and are read again. No
 * slot of these is handed out, and nobody is told by it, also where it comes late. */
static void message_of_before(void) {
    struct driver driver = new_driver();
    uint32_t batch;
    for (batch = 0; batch < 4; batch++)
        send(&driver, &TLBI);
    WANT(forward(&driver, RUN), SMMUQ_OK);
    WANT(driver.placement.count, 4);
    WANT(driver.placement.message, 1);
    WANT(restart(&driver, 0), SMMUQ_OK);
    WANT(driver.restart.prod, 4);
    WANT(driver.restart.cons, 0);
    WANT(driver.restart.message, 5);
    WANT(poll_msi(&driver, 2), 0);
    WANT(poll_msi(&driver, 4), 0);
    WANT(forward(&driver, RUN), SMMUQ_QUEUE_FULL);
    WANT(done(&driver), 0);
    WANT(poll_msi(&driver, 6), 2);
    WANT(poll_msi(&driver, 4), 0);
    WANT(done(&driver), 1);
    WANT(forward(&driver, RUN), SMMUQ_OK);
    WANT(driver.placement.message, 9);
    WANT(restart(&driver, 0), SMMUQ_OK);
    WANT(driver.restart.message, 11); /* four are in flight */
    WANT(poll_msi(&driver, 8), 0);
    WANT(poll_msi(&driver, 10), 0);
    WANT(poll_msi(&driver, 14), 4);
    WANT(done(&driver), 3);
    drop(&driver);
}

/* Whatever ERR says, no MSI is heard at a stop that isn't acknowledged: not even of what lies ahead of it. */
static void message_at_a_stop(void) {
    uint32_t err;
    for (err = 0; err < 5; err++) {
        struct driver driver = new_driver();
        send(&driver, &TLBI);
        send(&driver, &TLBI);
        WANT(forward(&driver, RUN), SMMUQ_OK);
        WANT(poll(&driver, 1, err << 24 | 1), SMMUQ_QUEUE_STOPPED);
        WANT(poll_msi(&driver, 2), 0);
        WANT(poll_msi(&driver, 4), 0);
        WANT(done(&driver), 0);
        WANT(acknowledge(&driver, 0, SMMUQ_RETRY), SMMUQ_OK);
        WANT(poll_msi(&driver, 4), 3);
        WANT(done(&driver), 2);
        drop(&driver);
    }
}

/* A CONS that was read before others were heard of: refused where it lies behind, but believed a lap behind, with a full
 * queue. So docs/HARDWARE.md asks for one that was read behind the last look. */
static void stale_cons(void) {
    struct driver driver = new_driver();
    uint32_t batch;
    for (batch = 0; batch < 4; batch++)
        send(&driver, &TLBI);
    WANT(forward(&driver, RUN), SMMUQ_OK);
    WANT(poll_msi(&driver, 4), 4);
    WANT(forward(&driver, RUN), SMMUQ_OK);
    WANT(poll(&driver, 0, 0), SMMUQ_OK);
    WANT(driver.consumed, 4);
    drop(&driver);
    driver = new_driver();
    for (batch = 0; batch < 4; batch++)
        send(&driver, &TLBI);
    WANT(forward(&driver, RUN), SMMUQ_OK);
    WANT(poll_msi(&driver, 4), 4);
    WANT(forward(&driver, RUN), SMMUQ_OK);
    WANT(poll(&driver, 0, 1), SMMUQ_QUEUE_BROKEN);
    WANT(done(&driver), 2);
    drop(&driver);
}

/* A queue that another kernel left with CMDQ_ERR 1 in both registers: restarted before it is enabled. */
static void acknowledged_before(void) {
    struct driver driver = new_driver();
    WANT(restart(&driver, 0x11), SMMUQ_OK);
    WANT(driver.restart.prod, 0);
    WANT(driver.restart.cons, 0);
    WANT(driver.restart.message, 1);
    send(&driver, &TLBI);
    WANT(forward(&driver, RUN), SMMUQ_OK);
    WANT(driver.placement.message, 1);
    WANT(poll(&driver, 0x11, 1), SMMUQ_OK); /* no error is active */
    WANT(poll(&driver, 0x10, 1u << 24 | 1), SMMUQ_QUEUE_STOPPED);
    WANT(acknowledge(&driver, 0x11, SMMUQ_RETRY), SMMUQ_OK);
    WANT(driver.acknowledgement.gerrorn, 0x10);
    WANT(poll(&driver, 0x10, 2), SMMUQ_OK);
    WANT(done(&driver), 1);
    drop(&driver);
}

/* A stop that moved before it was acknowledged. */
static void moved(void) {
    struct driver driver = new_driver();
    send(&driver, &TLBI);
    WANT(forward(&driver, RUN), SMMUQ_OK);
    WANT(poll(&driver, 1, 1u << 24), SMMUQ_QUEUE_STOPPED);
    WANT(poll(&driver, 1, 1u << 24), SMMUQ_QUEUE_STOPPED);
    WANT(poll(&driver, 1, 2), SMMUQ_QUEUE_BROKEN);
    WANT(done(&driver), 0);
    drop(&driver);
}

int main(void) {
    wrong_handles();
    laps();
    full();
    stops();
    broken(0, 3);           /* ahead of PROD */
    broken(0, 8);           /* no index of a queue of four slots */
    broken(0, 7);           /* behind what was consumed */
    broken(0, 0xffffffff);  /* a device that is gone */
    broken(1, 1u << 24 | 2); /* an error, and nothing left at which it can be */
    restarts();
    messages();
    message_of_before();
    message_at_a_stop();
    stale_cons();
    acknowledged_before();
    moved();
    printf("hostile_forwarder: all told\n");
    return 0;
}
