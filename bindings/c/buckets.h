/* SPDX-License-Identifier: MIT OR Apache-2.0 */
/* Two translation tables as emulators have them, and a device model's judge of commands over each, to compare a unit's times
 * with. One is that of crates/unit_bench/c/table.c, whose invalidation by address walks everything. The other has 256 buckets
 * of nodes, each in memory of its own, and removes entries by their keys: by that of the level which the command says, and
 * where it says none, or nothing has that key, by one for each span that was ever held. */
#define main time_table_cold
#include "../../unit_bench/c/table.c"
#undef main

#define NOINLINE __attribute__((noinline, noclone))

enum { BUCKETS = 256 };

struct link {
    struct key key;
    uint64_t value;
    struct link *next;
};

static struct buckets {
    struct link *first[BUCKETS];
    uint64_t spans;
} *buckets;

/* Where the pointer to this key's node is, or the null pointer at the end of its bucket. */
static struct link **place_of(const struct key *key) {
    struct link **at = &buckets->first[hash_of(key) >> 2 & (BUCKETS - 1)];
    while (*at != NULL && !same(&(*at)->key, key))
        at = &(*at)->next;
    return at;
}

static NOINLINE const struct link *look_up_in_buckets(const struct key *key) {
    return *place_of(key);
}

static NOINLINE void fill_buckets(const struct key *key, uint64_t value) {
    struct link **at = place_of(key);
    if (*at == NULL) {
        *at = memory(sizeof **at);
        (*at)->key = *key;
        buckets->spans |= UINT64_C(1) << key->span;
    }
    (*at)->value = value;
}

/* Removes the entry of a block that has the page, if there is one: how many. */
static unsigned remove_block(uint16_t vmid, uint16_t asid, uint64_t page, unsigned span) {
    const struct key key = {.page = page >> span << span, .asid = asid, .vmid = vmid, .span = (uint8_t)span};
    struct link **at = place_of(&key), *gone = *at;
    if (gone == NULL)
        return 0;
    *at = gone->next;
    free(gone);
    return 1;
}

static unsigned remove_from_buckets(uint16_t vmid, uint16_t asid, uint64_t page, unsigned level) {
    unsigned removed = level == 0 ? 0 : remove_block(vmid, asid, page, 9 * (3 - level));
    if (removed == 0)
        for (uint64_t spans = buckets->spans; spans != 0; spans &= spans - 1)
            removed += remove_block(vmid, asid, page, (unsigned)__builtin_ctzll(spans));
    return removed;
}

static unsigned remove_from_table(uint16_t vmid, uint16_t asid, uint64_t page, unsigned level) {
    (void)level;
    return invalidate(vmid, asid, page);
}

static NOINLINE const struct node *look_up_in_table(const struct key *key) {
    return look_up(key);
}

static NOINLINE void fill_table(const struct key *key, uint64_t value) {
    fill(key, value);
}

/* What a device model does at a command: it counts each, and removes what one page's TLBI_NH_VA names. The others are there so
 * that the compiler sees all opcodes. */
struct model {
    uint64_t taken, syncs, other;
    unsigned removed;
};

static inline __attribute__((always_inline)) int judge(struct model *model, uint64_t lo, uint64_t hi,
                                                       unsigned (*remove)(uint16_t, uint16_t, uint64_t, unsigned)) {
    switch (lo & 0xff) {
    case 0x46:
        model->syncs++;
        model->removed = 0;
        break;
    case 0x12:
        model->removed = remove((uint16_t)(lo >> 32), (uint16_t)(lo >> 48), hi >> 12, hi >> 8 & 3);
        break;
    case 0x01: case 0x02: case 0x03: case 0x04: case 0x05: case 0x06: case 0x10: case 0x11: case 0x13: case 0x20: case 0x21:
    case 0x22: case 0x23: case 0x28: case 0x2a: case 0x30: case 0x40: case 0x41: case 0x44: case 0x45:
        model->other++;
        model->removed = 0;
        break;
    default:
        return 1;
    }
    model->taken++;
    return 0;
}

static NOINLINE int judge_over_table(struct model *model, uint64_t lo, uint64_t hi) {
    return judge(model, lo, hi, remove_from_table);
}

static NOINLINE int judge_over_buckets(struct model *model, uint64_t lo, uint64_t hi) {
    return judge(model, lo, hi, remove_from_buckets);
}
