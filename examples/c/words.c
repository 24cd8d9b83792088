/* SPDX-License-Identifier: MIT OR Apache-2.0 */
/* Reads commands, 32 hexadecimal digits a line as they lie in the queue, and prints what each says. Each legal one is
 * encoded again from its fields, and that has to decode to the same fields. It says where bits were set that are reserved,
 * since these don't come back.
 *
 *     words < FILE
 */
#include "smmuq.h"

#include <stdio.h>
#include <string.h>

enum { DIGITS = 32, TEXT_ROOM = 160 };

/* A word of the command, whose lowest byte is the first in memory: whether its 16 digits are hexadecimal. */
static int read_word(const char *digits, uint64_t *word) {
    int byte;
    *word = 0;
    for (byte = 7; byte >= 0; byte--) {
        unsigned value;
        if (sscanf(digits + 2 * byte, "%2x", &value) != 1)
            return 0;
        *word = *word << 8 | value;
    }
    return 1;
}

/* Whether a command's fields give words, which are told, that decode to the same fields. */
static int comes_back(const smmuq_fields *fields, smmuq_command *command) {
    smmuq_fields again;
    return smmuq_encode(fields, command) == SMMUQ_OK && smmuq_decode(command->lo, command->hi, &again) == SMMUQ_OK
        && memcmp(fields, &again, sizeof again) == 0;
}

int main(void) {
    char line[256];
    unsigned number = 0, faults = 0;
    while (fgets(line, sizeof line, stdin)) {
        smmuq_command command, written;
        smmuq_fields fields;
        char text[TEXT_ROOM];
        size_t length;
        smmuq_status status;
        number++;
        if (strcspn(line, "\r\n") != DIGITS || !read_word(line, &command.lo) || !read_word(line + DIGITS / 2, &command.hi)) {
            printf("line %u: bad line\n", number);
            faults++;
        } else if ((status = smmuq_decode(command.lo, command.hi, &fields)) != SMMUQ_OK) {
            printf("illegal: status 0x%02x\n", status);
        } else if (!comes_back(&fields, &written) || smmuq_text(command.lo, command.hi, text, sizeof text, &length) != SMMUQ_OK) {
            printf("line %u: another command comes back\n", number);
            faults++;
        } else if (written.lo != command.lo || written.hi != command.hi) {
            printf("%s, and reserved bits\n", text);
        } else {
            puts(text);
        }
    }
    return faults ? 1 : 0;
}
