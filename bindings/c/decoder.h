/* SPDX-License-Identifier: MIT OR Apache-2.0 */
/* A decoder as one writes it by hand: a switch over the opcode, shifts and masks. It is what smmuq_decode is timed beside. */
#ifndef DECODER_H
#define DECODER_H

#include "smmuq.h"

#include <string.h>

static inline uint64_t bits(uint64_t word, unsigned high, unsigned low) {
    return (word >> low) & (~0ull >> (63 - (high - low)));
}

/* What the five invalidations by address have in common. */
static inline void decode_address(uint64_t lo, uint64_t hi, smmuq_fields *fields) {
    fields->leaf = (uint32_t)bits(hi, 0, 0);
    fields->ttl = (uint32_t)bits(hi, 9, 8);
    fields->tg = (uint32_t)bits(hi, 11, 10);
    if (fields->tg) {
        fields->num = (uint32_t)bits(lo, 16, 12);
        fields->scale = (uint32_t)bits(lo, 24, 20);
    }
    fields->address = hi & ~0xfffull;
}

/* The status of the words, and of a legal command its fields. */
static inline smmuq_status decode_by_hand(uint64_t lo, uint64_t hi, smmuq_fields *fields) {
    memset(fields, 0, sizeof *fields);
    fields->opcode = (uint32_t)bits(lo, 7, 0);
    switch (fields->opcode) {
    case 0x01: case 0x02:
        if (bits(lo, 10, 10))
            return SMMUQ_ILL_SECURE_STREAM;
        break;
    case 0x41: case 0x44: case 0x45:
        break;
    case 0x03: case 0x04: case 0x05: case 0x06:
        if (bits(lo, 10, 10))
            return SMMUQ_ILL_SECURE_STREAM;
        fields->sid = (uint32_t)bits(lo, 63, 32);
        fields->ssid = fields->opcode == 0x05 ? (uint32_t)bits(lo, 31, 12) : 0;
        fields->leaf = fields->opcode == 0x03 || fields->opcode == 0x05 ? (uint32_t)bits(hi, 0, 0) : 0;
        fields->size = fields->opcode == 0x04 ? (uint32_t)bits(hi, 4, 0) : 0;
        break;
    case 0x10: case 0x28:
        fields->vmid = (uint32_t)bits(lo, 47, 32);
        break;
    case 0x11:
        fields->vmid = (uint32_t)bits(lo, 47, 32);
        fields->asid = (uint32_t)bits(lo, 63, 48);
        break;
    case 0x12: case 0x13:
        fields->vmid = (uint32_t)bits(lo, 47, 32);
        fields->asid = fields->opcode == 0x12 ? (uint32_t)bits(lo, 63, 48) : 0;
        decode_address(lo, hi, fields);
        break;
    case 0x21:
        fields->asid = (uint32_t)bits(lo, 63, 48);
        break;
    case 0x22: case 0x23:
        fields->asid = fields->opcode == 0x22 ? (uint32_t)bits(lo, 63, 48) : 0;
        decode_address(lo, hi, fields);
        break;
    case 0x2a:
        fields->vmid = (uint32_t)bits(lo, 47, 32);
        decode_address(lo, hi, fields);
        fields->address &= 0xffffffffff000ull;
        break;
    case 0x20: case 0x30:
        break;
    case 0x40:
        if (bits(lo, 10, 10))
            return SMMUQ_ILL_SECURE_STREAM;
        if (bits(hi, 5, 0) > 52)
            return SMMUQ_ILL_SPAN;
        fields->sid = (uint32_t)bits(lo, 63, 32);
        fields->ssid = (uint32_t)bits(lo, 31, 12);
        fields->ssv = (uint32_t)bits(lo, 11, 11);
        fields->global = (uint32_t)bits(lo, 9, 9);
        fields->size = (uint32_t)bits(hi, 5, 0);
        fields->address = hi & ~0xfffull;
        break;
    case 0x46:
        if (bits(lo, 13, 12) == 3)
            return SMMUQ_ILL_SIGNAL;
        fields->cs = (uint32_t)bits(lo, 13, 12);
        fields->msh = (uint32_t)bits(lo, 23, 22);
        fields->attr = (uint32_t)bits(lo, 27, 24);
        fields->data = (uint32_t)bits(lo, 63, 32);
        fields->address = hi & 0xffffffffffffcull;
        break;
    default:
        return SMMUQ_ILL_OPCODE;
    }
    return SMMUQ_OK;
}

#endif
