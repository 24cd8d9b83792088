/* SPDX-License-Identifier: MIT OR Apache-2.0 */
/* Times calls of the C library on a unit, and beside each what does the same in C: the tables of buckets.h, or other calls.
 * For bench/units: rounds of all in turn, and a line of each: what was timed, whose it is, how many calls, and nanoseconds.
 *
 *     units ROUNDS
 *
 * What is timed is in functions named timed_*, and round_done is called behind each line, so that callgrind can count both. */
#include "buckets.h"
#include "smmuq.h"

enum { TIMES = 40, PART = 50, PARTS = 100, MANY = 4096, STREAMS = 125 };

/* What the calls are about, in an order that strides over the entries: units and tables hold the same. */
static smmuq_command commands[ENTRIES], ranges[ENTRIES];
static smmuq_tag tags[ENTRIES];
static struct key keys[ENTRIES];
static smmuq_tag sizes[ENTRIES];
static smmuq_tag streams[2 * STREAMS];
static struct key stream_keys[2 * STREAMS];

static smmuq_unit unit, sized, configured, large;
static smmuq_verdict verdict;
static struct model model;
/* The first entry of the part, and sums: statuses that weren't OK, entries removed, values found. */
static unsigned part;
static uint64_t failed, removed, found;

/* ---- what is timed: all entries so many times, where nothing else is said */

static const smmuq_command sync_command = {SMMUQ_OPCODE_CMD_SYNC, 0};

#define TIMED(name, times, count, call) \
    static NOINLINE void timed_##name(void) { \
        for (unsigned time = 0; time < (times); time++) \
            for (unsigned i = 0; i < (count); i++) { \
                call; \
            } \
    }

#define SUM(status) failed += (status) != SMMUQ_OK

TIMED(sync_unit, TIMES, ENTRIES, SUM(smmuq_unit_judge(&unit, sync_command.lo, sync_command.hi, &verdict)))
TIMED(sync_table, TIMES, ENTRIES, failed += judge_over_table(&model, sync_command.lo, sync_command.hi))
TIMED(sync_buckets, TIMES, ENTRIES, failed += judge_over_buckets(&model, sync_command.lo, sync_command.hi))

TIMED(page_unit, TIMES, ENTRIES, SUM(smmuq_unit_judge(&unit, commands[i].lo, commands[i].hi, &verdict));
      removed += verdict.removed; SUM(smmuq_fill(&unit.handle, &tags[i], i)))
TIMED(page_table, TIMES, ENTRIES, failed += judge_over_table(&model, commands[i].lo, commands[i].hi);
      removed += model.removed; fill_table(&keys[i], i))
TIMED(page_buckets, TIMES, ENTRIES, failed += judge_over_buckets(&model, commands[i].lo, commands[i].hi);
      removed += model.removed; fill_buckets(&keys[i], i))

TIMED(range_unit, TIMES, ENTRIES, SUM(smmuq_unit_judge(&unit, ranges[i].lo, ranges[i].hi, &verdict));
      removed += verdict.removed; SUM(smmuq_fill(&unit.handle, &tags[i], i)))
TIMED(range_table, TIMES, ENTRIES, failed += judge_over_table(&model, ranges[i].lo, ranges[i].hi);
      removed += model.removed; fill_table(&keys[i], i))
TIMED(range_buckets, TIMES, ENTRIES, failed += judge_over_buckets(&model, ranges[i].lo, ranges[i].hi);
      removed += model.removed; fill_buckets(&keys[i], i))

/* A part of the entries is removed, one after another, and then filled again: each may be timed by itself. */
#define OF_PART(name, call) \
    static NOINLINE void name(void) { \
        for (unsigned i = part; i < part + PART; i++) { \
            call; \
        } \
    }
#define TIMED_OR_NOT(name, call) OF_PART(name, call) OF_PART(timed_##name, call)

TIMED_OR_NOT(remove_unit, SUM(smmuq_unit_judge(&unit, commands[i].lo, commands[i].hi, &verdict)); removed += verdict.removed)
TIMED_OR_NOT(remove_table, failed += judge_over_table(&model, commands[i].lo, commands[i].hi); removed += model.removed)
TIMED_OR_NOT(remove_buckets, failed += judge_over_buckets(&model, commands[i].lo, commands[i].hi); removed += model.removed)
TIMED_OR_NOT(refill_unit, SUM(smmuq_fill(&unit.handle, &tags[i], i)))
TIMED_OR_NOT(refill_table, fill_table(&keys[i], i))
TIMED_OR_NOT(refill_buckets, fill_buckets(&keys[i], i))

static smmuq_held held;
static smmuq_tag tag;

TIMED(lookup_unit, TIMES, ENTRIES, SUM(smmuq_lookup(&unit.handle, &tags[i], &held)); found += held.value)
TIMED(lookup_table, TIMES, ENTRIES, found += look_up_in_table(&keys[i])->value)
TIMED(lookup_buckets, TIMES, ENTRIES, found += look_up_in_buckets(&keys[i])->value)

/* The last page of each block. */
static uint64_t last_page(const smmuq_tag *of) {
    return of->address + ((UINT64_C(4096) << of->span) - 4096);
}

TIMED(find_unit, TIMES, ENTRIES,
      SUM(smmuq_find(&sized.handle, SMMUQ_S1, sizes[i].vmid, sizes[i].asid, last_page(&sizes[i]),
                     SMMUQ_SPAN(SMMUQ_SPAN_4K) | SMMUQ_SPAN(SMMUQ_SPAN_64K) | SMMUQ_SPAN(SMMUQ_SPAN_2M), &tag, &held));
      found += held.value)

/* The loop of a caller who knows that only three spans are held, and no global entry. */
static NOINLINE smmuq_status find_by_look_ups(uint32_t vmid, uint32_t asid, uint64_t address) {
    static const uint32_t spans[] = {SMMUQ_SPAN_2M, SMMUQ_SPAN_64K, SMMUQ_SPAN_4K};
    smmuq_status status = SMMUQ_NOT_HELD;
    for (unsigned i = 0; i < 3 && status == SMMUQ_NOT_HELD; i++) {
        tag = (smmuq_tag){.kind = SMMUQ_S1, .vmid = vmid, .scope = SMMUQ_SCOPE_ASID, .asid = asid, .span = spans[i],
                          .address = address & ~((UINT64_C(4096) << spans[i]) - 1)};
        status = smmuq_lookup(&sized.handle, &tag, &held);
    }
    return status;
}

TIMED(find_loop, TIMES, ENTRIES, SUM(find_by_look_ups(sizes[i].vmid, sizes[i].asid, last_page(&sizes[i])));
      found += held.value)

TIMED(configuration_unit, 2 * TIMES, STREAMS, SUM(smmuq_lookup(&configured.handle, &streams[2 * i], &held));
      found += held.value; SUM(smmuq_lookup(&configured.handle, &streams[2 * i + 1], &held)); found += held.value)
TIMED(configuration_table, 2 * TIMES, STREAMS, found += look_up_in_table(&stream_keys[2 * i])->value;
      found += look_up_in_table(&stream_keys[2 * i + 1])->value)
TIMED(configuration_buckets, 2 * TIMES, STREAMS, found += look_up_in_buckets(&stream_keys[2 * i])->value;
      found += look_up_in_buckets(&stream_keys[2 * i + 1])->value)

static size_t evicted;

TIMED(evict_unit, 1, 1, SUM(smmuq_evict_all(&large.handle, SMMUQ_ALL_KINDS, &evicted)); removed += evicted)
TIMED(evict_command, 1, 1, SUM(smmuq_unit_judge(&large, SMMUQ_OPCODE_TLBI_NSNH_ALL, 0, &verdict)); removed += verdict.removed)

/* ---- what comes before and behind a timing, outside it */

/* The tables of translations, and those of streams: the functions of both take what is in use. */
static struct {
    __typeof__(table) table;
    struct buckets *buckets;
} translations, configurations;

static void use_translations(void) {
    table = translations.table;
    buckets = translations.buckets;
}

static void use_configurations(void) {
    table = configurations.table;
    buckets = configurations.buckets;
}

static void next_part(void) {
    part = (part + PART) % ENTRIES;
    use_translations();
}

static void nothing(void) {}

static void fill_large(void) {
    for (unsigned i = 0; i < MANY; i++) {
        const smmuq_tag page = {.kind = SMMUQ_S1, .vmid = 1 + i % 4, .scope = SMMUQ_SCOPE_ASID, .asid = 1 + i / 4 % 4,
                                .address = (uint64_t)(i * STRIDE % MANY) << 22};
        SUM(smmuq_fill(&large.handle, &page, i));
    }
}

/* ---- making units and tables */

static smmuq_tag tag_of(const struct key *key, uint32_t span) {
    return (smmuq_tag){.kind = SMMUQ_S1, .vmid = key->vmid, .scope = SMMUQ_SCOPE_ASID, .asid = key->asid, .span = span,
                       .address = key->page << 12};
}

/* TLBI_NH_VA of one page. */
static smmuq_command command_of(const struct key *key) {
    return (smmuq_command){SMMUQ_OPCODE_TLBI_NH_VA | (uint64_t)key->vmid << 32 | (uint64_t)key->asid << 48,
                           key->page << 12 | 1};
}

/* The same as a range of one, with the level of its entry, as Linux sends it to an SMMU that has ranges: TG 4K, TTL. */
static smmuq_command range_of(const struct key *key) {
    const uint64_t level = key->span == 0 ? 3 : 2;
    smmuq_command command = command_of(key);
    command.hi |= 1u << 10 | level << 8;
    return command;
}

static void make_translations(void) {
    static const uint32_t spans[] = {SMMUQ_SPAN_4K, SMMUQ_SPAN_64K, SMMUQ_SPAN_2M};
    translations.table = memory(sizeof *table);
    translations.buckets = memory(sizeof *buckets);
    use_translations();
    SUM(smmuq_unit_new(ENTRIES, &unit));
    SUM(smmuq_unit_new(ENTRIES, &sized));
    for (unsigned i = 0; i < ENTRIES; i++) {
        keys[i] = key_at(i * STRIDE % ENTRIES);
        commands[i] = command_of(&keys[i]);
        ranges[i] = range_of(&keys[i]);
        tags[i] = tag_of(&keys[i], keys[i].span);
        sizes[i] = tag_of(&keys[i], spans[i % 3]);
        fill_table(&keys[i], i);
        fill_buckets(&keys[i], i);
        SUM(smmuq_fill(&unit.handle, &tags[i], i));
        SUM(smmuq_fill(&sized.handle, &sizes[i], i));
    }
}

/* A stream table entry and a context descriptor of each stream; in the tables the kinds are in the place of the ASID. */
static void make_configurations(void) {
    configurations.table = memory(sizeof *table);
    configurations.buckets = memory(sizeof *buckets);
    use_configurations();
    SUM(smmuq_unit_new(2 * STREAMS, &configured));
    for (unsigned i = 0; i < 2 * STREAMS; i++) {
        const uint32_t sid = i / 2 * STRIDE % STREAMS * 8;
        const uint32_t kind = i % 2 == 0 ? SMMUQ_STE : SMMUQ_CD;
        streams[i] = (smmuq_tag){.kind = kind, .sid = sid};
        stream_keys[i] = (struct key){.page = sid, .asid = (uint16_t)kind};
        fill_table(&stream_keys[i], i);
        fill_buckets(&stream_keys[i], i);
        SUM(smmuq_fill(&configured.handle, &streams[i], i));
    }
}

/* ---- rounds */

static const struct job {
    const char *what, *whose;
    unsigned parts, calls;
    void (*before)(void), (*timed)(void), (*behind)(void);
} jobs[] = {
    {"sync", "unit", 1, TIMES * ENTRIES, use_translations, timed_sync_unit, nothing},
    {"sync", "table", 1, TIMES * ENTRIES, use_translations, timed_sync_table, nothing},
    {"sync", "buckets", 1, TIMES * ENTRIES, use_translations, timed_sync_buckets, nothing},
    {"page", "unit", 1, TIMES * ENTRIES, use_translations, timed_page_unit, nothing},
    {"page", "table", 1, TIMES * ENTRIES, use_translations, timed_page_table, nothing},
    {"page", "buckets", 1, TIMES * ENTRIES, use_translations, timed_page_buckets, nothing},
    {"range", "unit", 1, TIMES * ENTRIES, use_translations, timed_range_unit, nothing},
    {"range", "table", 1, TIMES * ENTRIES, use_translations, timed_range_table, nothing},
    {"range", "buckets", 1, TIMES * ENTRIES, use_translations, timed_range_buckets, nothing},
    {"remove", "unit", PARTS, PART, next_part, timed_remove_unit, refill_unit},
    {"remove", "table", PARTS, PART, next_part, timed_remove_table, refill_table},
    {"remove", "buckets", PARTS, PART, next_part, timed_remove_buckets, refill_buckets},
    {"refill", "unit", PARTS, PART, remove_unit, timed_refill_unit, next_part},
    {"refill", "table", PARTS, PART, remove_table, timed_refill_table, next_part},
    {"refill", "buckets", PARTS, PART, remove_buckets, timed_refill_buckets, next_part},
    {"look-up", "unit", 1, TIMES * ENTRIES, use_translations, timed_lookup_unit, nothing},
    {"look-up", "table", 1, TIMES * ENTRIES, use_translations, timed_lookup_table, nothing},
    {"look-up", "buckets", 1, TIMES * ENTRIES, use_translations, timed_lookup_buckets, nothing},
    {"find", "unit", 1, TIMES * ENTRIES, use_translations, timed_find_unit, nothing},
    {"find", "loop", 1, TIMES * ENTRIES, use_translations, timed_find_loop, nothing},
    {"configuration", "unit", 1, 2 * TIMES * STREAMS, use_configurations, timed_configuration_unit, nothing},
    {"configuration", "table", 1, 2 * TIMES * STREAMS, use_configurations, timed_configuration_table, nothing},
    {"configuration", "buckets", 1, 2 * TIMES * STREAMS, use_configurations, timed_configuration_buckets, nothing},
    {"evict-all", "unit", 1, 1, fill_large, timed_evict_unit, nothing},
    {"evict-all", "command", 1, 1, fill_large, timed_evict_command, nothing},
};

static NOINLINE void round_done(void) {
    __asm__ volatile("");
}

static void run(const struct job *job) {
    uint64_t took = 0;
    for (unsigned i = 0; i < job->parts; i++) {
        job->before();
        const uint64_t start = nanoseconds();
        job->timed();
        took += nanoseconds() - start;
        job->behind();
    }
    printf("%s %s %u %llu\n", job->what, job->whose, job->parts * job->calls, (unsigned long long)took);
    round_done();
}

int main(int count, char **words) {
    const unsigned rounds = count == 2 ? (unsigned)atoi(words[1]) : 1;
    const uint64_t values = (uint64_t)TIMES * ENTRIES * (ENTRIES - 1) / 2;
    make_translations();
    make_configurations();
    SUM(smmuq_unit_new(MANY, &large));
    for (unsigned round = 0; round < rounds; round++)
        for (size_t i = 0; i < sizeof jobs / sizeof *jobs; i++)
            run(&jobs[i]);
    /* Nothing was refused, each invalidation of a page removed one entry, and all look-ups found what was filled in: three
     * look-ups, two finds and three times two look-ups of configurations. */
    expect(failed == 0);
    expect(removed == (uint64_t)rounds * (6 * TIMES * ENTRIES + 6 * PARTS * PART + 2 * MANY));
    expect(found == rounds * 11 * values);
    return 0;
}
