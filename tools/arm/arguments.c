/* SPDX-License-Identifier: MIT OR Apache-2.0 */
/* What the program smmuq takes from the toolchain's libos_c.a besides memory, for the processors for which the toolchain
 * has none (tools/make-arm-program): the words of its command line, and errno. The toolchain's os/src/c.rt says what each
 * answers. */
#include <errno.h>
#include <stddef.h>
#include <stdint.h>
#include <sys/types.h>

static size_t count;
static char **words;

/* glibc passes main's arguments to each function of .init_array. */
__attribute__((constructor)) static void keep(int argc, char **argv) {
    count = (size_t)argc;
    words = argv;
}

size_t rattle_arg_count(void);
ssize_t rattle_arg(size_t i, uint8_t *buffer, size_t length);
int32_t rattle_errno(void);
void rattle_set_errno(int32_t error);

size_t rattle_arg_count(void) {
    return count;
}

/* The word's length; -1 if there is none, -2 if it doesn't fit, and then the buffer is full. */
ssize_t rattle_arg(size_t i, uint8_t *buffer, size_t length) {
    if (i >= count)
        return -1;
    size_t at = 0;
    for (; words[i][at]; at++) {
        if (at == length)
            return -2;
        buffer[at] = (uint8_t)words[i][at];
    }
    return (ssize_t)at;
}

int32_t rattle_errno(void) {
    return errno;
}

void rattle_set_errno(int32_t error) {
    errno = error;
}
