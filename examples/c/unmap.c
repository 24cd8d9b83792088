/* SPDX-License-Identifier: MIT OR Apache-2.0 */
/* A driver unmaps a buffer that a device with ATS may still reach: it gets the commands for its SMMU, sends them in batches, and
 * once the last CMD_SYNC is done the endpoint's in a batch of its own. Only then the pages are free. The first SMMU has range
 * invalidation, the second has not.
 */
#include "smmuq.h"

#include <stdio.h>

/* SMMU_IDR0: S2P, S1P and ATS; SMMU_IDR3: RIL; SMMU_IDR5: GRAN4K. */
enum { IDR0 = 0x403, RIL = 0x400, IDR5 = 0x10 };
enum { MOST_COMMANDS = 512, MOST_BATCH = 63 };

static int say(const smmuq_command *commands, size_t count) {
    size_t n, length;
    char text[160];
    for (n = 0; n < count; n++) {
        if (n == 2 && count > 4) {
            printf("  .. %u more\n", (unsigned)(count - 3));
            n = count - 1;
        }
        if (smmuq_text(commands[n].lo, commands[n].hi, text, sizeof text, &length) != SMMUQ_OK)
            return 0;
        printf("  %s\n", text);
    }
    return 1;
}

/* Sends batches, and has the engine take them. A real driver sleeps until its number is done. */
static smmuq_status send_all(smmuq_sender *sender, smmuq_engine *engine, const smmuq_command *commands, size_t count) {
    smmuq_run_answer answer;
    smmuq_status status;
    uint32_t number = 0, done = 0;
    size_t sent, batch;
    for (sent = 0; sent < count; sent += batch) {
        batch = count - sent < MOST_BATCH ? count - sent : MOST_BATCH;
        status = smmuq_send(sender, commands + sent, batch, 1, &number);
        if (status != SMMUQ_OK)
            return status;
        while (smmuq_run(engine, 64, &answer) == SMMUQ_OK)
            ;
    }
    status = smmuq_done_up_to(sender, &done);
    return status == SMMUQ_OK && done < number ? SMMUQ_RING_UNWRITTEN : status;
}

static smmuq_status unmap(smmuq_sender *sender, smmuq_engine *engine, uint32_t idr3, uint64_t first, uint64_t length) {
    smmuq_command commands[MOST_COMMANDS + 1];
    smmuq_status status;
    size_t count;
    smmuq_change change = {.kind = SMMUQ_REGION_S1, .vmid = 1, .asids = SMMUQ_ASIDS_ONE, .asid = 2, .tg = SMMUQ_GRANULE_4K,
                           .leaf = 1, .ttl = 3, .most_commands = MOST_COMMANDS, .first = first, .length = length};
    status = smmuq_invalidation(IDR0, 0, idr3, IDR5, &change, commands, MOST_COMMANDS + 1, &count);
    if (status != SMMUQ_OK || !say(commands, count))
        return status;
    status = send_all(sender, engine, commands, count);
    if (status != SMMUQ_OK)
        return status;
    change = (smmuq_change){.kind = SMMUQ_REGION_ENDPOINT, .sid = 5, .first = first, .length = length};
    status = smmuq_invalidation(IDR0, 0, idr3, IDR5, &change, commands, 1, &count);
    if (status != SMMUQ_OK || !say(commands, count))
        return status;
    return send_all(sender, engine, commands, count);
}

int main(void) {
    static const struct {
        const char *what;
        uint32_t idr3;
        uint64_t length;
    } UNMAPPED[] = {
        {"1 MiB, with ranges", RIL, 0x100000},
        {"1 MiB and a page, with ranges", RIL, 0x101000},
        {"1 MiB, without ranges", 0, 0x100000},
        {"4 MiB, without ranges", 0, 0x400000},
    };
    smmuq_sender sender = SMMUQ_EMPTY;
    smmuq_engine engine = SMMUQ_EMPTY;
    smmuq_status status = smmuq_ring_new(7, 100, 16, &sender, 1, &engine);
    size_t n;
    for (n = 0; n < sizeof UNMAPPED / sizeof *UNMAPPED && status == SMMUQ_OK; n++) {
        printf("%s\n", UNMAPPED[n].what);
        status = unmap(&sender, &engine, UNMAPPED[n].idr3, 0x40000000, UNMAPPED[n].length);
    }
    smmuq_free(&sender.handle);
    smmuq_free(&engine.handle);
    if (status != SMMUQ_OK)
        printf("%s\n", smmuq_status_name(status));
    return status != SMMUQ_OK;
}
