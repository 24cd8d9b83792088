/* SPDX-License-Identifier: MIT OR Apache-2.0 */
/* The command queue of a device model: commands lie in the guest's memory, a write of SMMU_CMDQ_PROD is the doorbell, and
 * the library judges each command and keeps the entries that translations and configurations are cached in.
 *
 *     device_model                            plays a guest: a page is mapped, used and mapped anew, and an illegal
 *                                             command stops the queue
 *     device_model IMAGE LOG2 PROD CONS       serves what waits in an image of a real guest's queue
 */
#include "smmuq.h"

#include <inttypes.h>
#include <stdio.h>
#include <stdlib.h>
#include <string.h>

enum { MOST_SLOTS = 1 << 19, TEXT_ROOM = 160 };
enum { MOST_ENTRIES = 8 }; /* few, so that the guest that is played fills them */

/* What the model has of one SMMU. Indexes have the wrap bit above those of the slot. */
struct model {
    smmuq_unit unit;
    smmuq_command *queue; /* the guest's memory: 2^log2 commands */
    uint32_t log2;
    uint32_t prod; /* SMMU_CMDQ_PROD */
    uint32_t cons; /* SMMU_CMDQ_CONS without ERR */
    uint32_t walks;
    uint64_t told; /* how often a listener was told that translations go */
};

static void fail(const char *what, smmuq_status status) {
    fprintf(stderr, "%s: %s\n", what, smmuq_status_name(status));
    exit(1);
}

static smmuq_command *slot(struct model *model, uint32_t index) {
    return &model->queue[index & ((1u << model->log2) - 1)];
}

/* Tells who listens which translations a command removed, as QEMU tells a device that is assigned to the guest. */
static void notify(struct model *model, smmuq_command command) {
    smmuq_reached reached;
    smmuq_status status = smmuq_region(command.lo, command.hi, &reached);
    if (status != SMMUQ_OK)
        fail("region", status);
    if (reached.kind >= SMMUQ_REGION_S1)
        model->told++; /* of reached.vmid and reached.asid, from reached.first to reached.last */
}

/* Takes what waits, up to an illegal command. Answers SMMUQ_OK, or why the queue is stopped. */
static smmuq_status serve(struct model *model) {
    while (model->cons != model->prod) {
        const smmuq_command command = *slot(model, model->cons);
        smmuq_verdict verdict;
        smmuq_status status = smmuq_unit_judge(&model->unit, command.lo, command.hi, &verdict);
        if (status != SMMUQ_OK && status != SMMUQ_REPLACED)
            return status;
        if (status == SMMUQ_OK)
            notify(model, command);
        model->cons = (model->cons + 1) & ((2u << model->log2) - 1);
    }
    return SMMUQ_OK;
}

/* The guest writes SMMU_CMDQ_PROD. */
static smmuq_status doorbell(struct model *model, uint32_t prod) {
    model->prod = prod & ((2u << model->log2) - 1); /* the bits above the wrap bit don't count */
    return serve(model);
}

/* The guest acknowledges the error by SMMU_GERRORN. After CERROR_ILL Linux has written a CMD_SYNC over the illegal command
 * by then: what the slot holds now says whether the old one is judged again, or was given up. */
static smmuq_status write_gerrorn(struct model *model, uint32_t gerrorn) {
    smmuq_status status = smmuq_acknowledge(&model->unit.handle, gerrorn, SMMUQ_REREAD);
    return status == SMMUQ_OK ? serve(model) : status;
}

/* The caches are full: all translations are thrown out, and what is used of them is walked for again. */
static void make_room(struct model *model) {
    const uint32_t translations = SMMUQ_ALL_KINDS & ~(SMMUQ_KIND(SMMUQ_STE) | SMMUQ_KIND(SMMUQ_CD));
    size_t count;
    smmuq_status status = smmuq_evict_all(&model->unit.handle, translations, &count);
    if (status != SMMUQ_OK)
        fail("evict_all", status);
}

/* The value for a page of an address space: the one that is held, or that of a walk, which is held from then on. */
static uint64_t translate(struct model *model, const uint64_t *page_table, uint64_t address) {
    const smmuq_tag tag = {.kind = SMMUQ_S1, .vmid = 1, .scope = SMMUQ_SCOPE_ASID, .asid = 2, .address = address};
    smmuq_held held;
    smmuq_status status = smmuq_lookup(&model->unit.handle, &tag, &held);
    if (status == SMMUQ_OK)
        return held.value;
    if (status != SMMUQ_NOT_HELD)
        fail("lookup", status);
    model->walks++;
    held.value = page_table[address >> 12];
    status = smmuq_fill(&model->unit.handle, &tag, held.value);
    if (status == SMMUQ_CACHES_FULL) {
        make_room(model);
        status = smmuq_fill(&model->unit.handle, &tag, held.value);
    }
    if (status != SMMUQ_OK)
        fail("fill", status);
    return held.value;
}

static void print_translation(struct model *model, const char *when, const uint64_t *page_table) {
    const uint64_t value = translate(model, page_table, 0x3000);
    printf("%s: 0x%" PRIx64 ", walks so far %" PRIu32 "\n", when, value, model->walks);
}

static void print_queue(struct model *model) {
    smmuq_errors errors;
    smmuq_tallies tallies;
    smmuq_status status = smmuq_state(&model->unit.handle, &errors, &tallies);
    if (status != SMMUQ_OK)
        fail("state", status);
    printf("prod 0x%08" PRIx32 " cons 0x%08" PRIx32 " gerror %" PRIu32 " gerrorn %" PRIu32 " applied %" PRIu64 " replaced %" PRIu64
           " syncs %" PRIu64 " told %" PRIu64 "\n",
           model->prod, model->cons | errors.err << 24, errors.gerror, errors.gerrorn, tallies.applied, tallies.replaced,
           tallies.syncs, model->told);
}

static void print_command(const char *what, smmuq_command command) {
    char text[TEXT_ROOM];
    size_t length;
    smmuq_status status = smmuq_text(command.lo, command.hi, text, sizeof text, &length);
    if (status == SMMUQ_OK)
        printf("%s %s\n", what, text);
    else
        printf("%s illegal: status 0x%02" PRIx32 "\n", what, status);
}

/* What the guest's driver puts into the queue, at PROD. */
static uint32_t put(struct model *model, uint32_t prod, smmuq_fields fields) {
    smmuq_command command;
    smmuq_status status = smmuq_encode(&fields, &command);
    if (status != SMMUQ_OK)
        fail("encode", status);
    *slot(model, prod) = command;
    return (prod + 1) & ((2u << model->log2) - 1);
}

static void play_a_guest(struct model *model) {
    uint64_t page_table[16] = {0};
    const smmuq_fields invalidate = {.opcode = SMMUQ_OPCODE_TLBI_NH_VA, .vmid = 1, .asid = 2, .leaf = 1, .address = 0x3000};
    const smmuq_fields sync = {.opcode = SMMUQ_OPCODE_CMD_SYNC};
    uint64_t address;
    uint32_t prod = 0;
    smmuq_status status;

    page_table[3] = 0x1000;
    print_translation(model, "used", page_table);
    print_translation(model, "used again", page_table);

    /* The guest maps the page anew: until the CMD_SYNC completed, a device may still reach the old place. */
    page_table[3] = 0x2000;
    print_translation(model, "mapped anew, not invalidated", page_table);
    prod = put(model, put(model, prod, invalidate), sync);
    if ((status = doorbell(model, prod)) != SMMUQ_OK)
        fail("doorbell", status);
    print_translation(model, "invalidated", page_table);
    print_queue(model);

    /* An opcode that nobody knows, and a CMD_SYNC behind it. */
    *slot(model, prod) = (smmuq_command){0xff, 0};
    prod = put(model, (prod + 1) & ((2u << model->log2) - 1), sync);
    /* Whatever a guest writes above the wrap bit means nothing to the queue. */
    printf("stopped: status 0x%02" PRIx32 "\n", doorbell(model, prod | 1u << 31));
    print_queue(model);

    /* As Linux does: a CMD_SYNC over it, and then the acknowledgement. */
    put(model, model->cons, sync);
    printf("acknowledged: status 0x%02" PRIx32 "\n", write_gerrorn(model, 1));
    print_queue(model);

    /* Each page is used, and there is less room than that. */
    for (address = 0; address < 0x10000; address += 0x1000)
        translate(model, page_table, address);
    print_translation(model, "used once all others were", page_table);
}

static void serve_image(struct model *model, const char *path, uint32_t prod, uint32_t cons) {
    FILE *image = fopen(path, "rb");
    const size_t slots = (size_t)1 << model->log2;
    if (!image || fread(model->queue, sizeof *model->queue, slots, image) != slots)
        fail("the image is shorter than the queue", SMMUQ_SHORT_BUFFER);
    fclose(image);
    model->cons = cons;
    print_command("first", *slot(model, cons));
    printf("served: status 0x%02" PRIx32 "\n", doorbell(model, prod));
    print_queue(model);
}

int main(int argc, char **argv) {
    struct model model = {.unit = SMMUQ_EMPTY, .log2 = 4};
    smmuq_status status;
    if (argc != 1 && argc != 5)
        return 2;
    if (argc == 5)
        model.log2 = (uint32_t)strtoul(argv[2], NULL, 0);
    if (model.log2 > 19 || !(model.queue = calloc(MOST_SLOTS, sizeof *model.queue)))
        return 2;
    if ((status = smmuq_unit_new(MOST_ENTRIES, &model.unit)) != SMMUQ_OK)
        fail("unit_new", status);
    if (argc == 5)
        serve_image(&model, argv[1], (uint32_t)strtoul(argv[3], NULL, 0), (uint32_t)strtoul(argv[4], NULL, 0));
    else
        play_a_guest(&model);
    smmuq_free(&model.unit.handle);
    free(model.queue);
    return 0;
}
