// SPDX-License-Identifier: MIT OR Apache-2.0
/*
 * A module that judges commands by libsmmuq when it is loaded, and then runs a ring: two kernel threads send, and a third
 * one is the engine. It prints what came of it, and whether all memory was given back.
 */
#include <linux/completion.h>
#include <linux/kthread.h>
#include <linux/module.h>
#include <linux/sched.h>

#include "memory.h"
#include "smmuq.h"

enum { SENDERS = 2, BATCHES = 20000, CAPACITY = 64, LOG2 = 6, TRIES = 8, TEXT_ROOM = 160 };

/* VMID 1, ASID 2, leaves only. */
#define TLBI_NH_VA 0x0002000100000012ULL
static const smmuq_command commands[] = { { TLBI_NH_VA, 0x3001 }, { TLBI_NH_VA, 0x4001 } };

static struct {
	smmuq_sender senders[SENDERS];
	smmuq_engine engine;
	struct completion sent[SENDERS], drained;
	u64 taken;
	bool failed;
} ring;

/* A batch of one command, then one of two, and so on; then waits for the last CMD_SYNC. */
static int send_all(void *argument)
{
	long which = (long)argument;
	u32 batch, number = 0, done = 0;
	smmuq_status status = SMMUQ_OK;

	for (batch = 1; batch <= BATCHES && !ring.failed; batch++) {
		do {
			status = smmuq_send(&ring.senders[which], commands, 1 + batch % 2, TRIES, &number);
			cond_resched();
		} while (status == SMMUQ_RING_FULL || status == SMMUQ_CONTENDED);
		if (status != SMMUQ_OK || number != batch)
			ring.failed = true;
	}
	while (!ring.failed && smmuq_done_up_to(&ring.senders[which], &done) == SMMUQ_OK && done < number)
		cond_resched();
	complete(&ring.sent[which]);
	return 0;
}

static int take_all(void *unused)
{
	smmuq_run_answer answer;
	smmuq_status status;

	do {
		status = smmuq_run(&ring.engine, CAPACITY, &answer);
		if (status == SMMUQ_OK)
			ring.taken += answer.count;
		cond_resched();
	} while (status == SMMUQ_OK || status == SMMUQ_RING_EMPTY || status == SMMUQ_RING_UNWRITTEN);
	if (status != SMMUQ_RING_DRAINED)
		ring.failed = true;
	complete(&ring.drained);
	return 0;
}

/* One entry is filled in and removed again, and an illegal command stops the unit. */
static int try_unit(void)
{
	static const smmuq_tag page = { .kind = SMMUQ_S1, .vmid = 1, .scope = SMMUQ_SCOPE_ASID, .asid = 2, .address = 0x3000 };
	smmuq_unit unit = SMMUQ_EMPTY;
	smmuq_verdict verdict = { 0 };
	smmuq_status judged, found, stopped;
	smmuq_held held;
	char text[TEXT_ROOM];
	size_t length;

	if (smmuq_unit_new(CAPACITY, &unit) != SMMUQ_OK)
		return -ENOMEM;
	if (smmuq_fill(&unit.handle, &page, 0x1000) != SMMUQ_OK ||
	    smmuq_text(commands[0].lo, commands[0].hi, text, sizeof(text), &length) != SMMUQ_OK) {
		(void)smmuq_free(&unit.handle);
		return -ENOMEM;
	}
	judged = smmuq_unit_judge(&unit, commands[0].lo, commands[0].hi, &verdict);
	pr_info("smmuq: %s: %s, removed %u\n", text, smmuq_status_name(judged), verdict.removed);
	found = smmuq_lookup(&unit.handle, &page, &held);
	stopped = smmuq_unit_judge(&unit, 0xff, 0, &verdict);
	pr_info("smmuq: the page: %s; no command: %s\n", smmuq_status_name(found), smmuq_status_name(stopped));
	(void)smmuq_free(&unit.handle);
	return 0;
}

static int start_threads(void)
{
	long which;

	init_completion(&ring.drained);
	if (IS_ERR(kthread_run(take_all, NULL, "smmuq-engine")))
		return -ENOMEM;
	for (which = 0; which < SENDERS; which++) {
		init_completion(&ring.sent[which]);
		if (IS_ERR(kthread_run(send_all, (void *)which, "smmuq-sender-%ld", which))) {
			ring.failed = true;
			complete(&ring.sent[which]);
		}
	}
	return 0;
}

static int try_ring(void)
{
	int which, answer;

	if (smmuq_ring_new(LOG2, BATCHES, CAPACITY, ring.senders, SENDERS, &ring.engine) != SMMUQ_OK)
		return -ENOMEM;
	answer = start_threads();
	if (!answer) {
		for (which = 0; which < SENDERS; which++)
			wait_for_completion(&ring.sent[which]);
		if (smmuq_close(&ring.senders[0]) != SMMUQ_OK)
			ring.failed = true;
		wait_for_completion(&ring.drained);
	}
	for (which = 0; which < SENDERS; which++)
		(void)smmuq_free(&ring.senders[which].handle);
	(void)smmuq_free(&ring.engine.handle);
	return answer;
}

static int __init demo_init(void)
{
	int answer = try_unit();

	if (!answer)
		answer = try_ring();
	/* Each sender's batches are of 2 and 1 commands in turn, and a CMD_SYNC behind each. */
	pr_info("smmuq: ring: taken %llu of %u, %s\n", ring.taken, SENDERS * (BATCHES / 2 * 5), ring.failed ? "failed" : "all went well");
	pr_info("smmuq: blocks that weren't given back: %ld\n", atomic_long_read(&smmuq_blocks));
	return answer;
}

static void __exit demo_exit(void)
{
}

module_init(demo_init);
module_exit(demo_exit);
MODULE_LICENSE("Dual MIT/GPL");
MODULE_DESCRIPTION("libsmmuq in the kernel");
