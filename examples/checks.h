/*
 * What the examples check with: each says what it expects and whether it is so, and exits with 1 where anything is otherwise.
 */
#include <stddef.h>
#include <stdint.h>
#include <stdio.h>

static int failures = 0;

static inline void expect(int holds, const char *what)
{
    printf("%s: %s\n", holds ? "ok" : "NOT", what);
    if (!holds) {
        failures += 1;
    }
}

/* Whether all bytes are this one. */
static inline int all(const uint8_t *bytes, size_t length, uint8_t byte)
{
    while (length > 0 && *bytes == byte) {
        bytes += 1;
        length -= 1;
    }
    return length == 0;
}
