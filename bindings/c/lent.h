/* Lent buffers for the checking programs. Each place holds MARK before a call: as a float that is a NaN with a payload, which a
   place that a call leaves alone must still hold after it, bit for bit. */
#ifndef LENT_H
#define LENT_H

#include <stdlib.h>

#include "expect.h"

#define MARK UINT32_C(0x7fa5a5a5)

static void *room(size_t count)
{
    uint32_t mark = MARK;
    char *buffer = malloc(4 * count + 1);
    size_t k;
    if (buffer == NULL) {
        puts("no memory");
        exit(1);
    }
    for (k = 0; k < count; k++)
        memcpy(buffer + 4 * k, &mark, 4);
    return buffer;
}

/* How many places from the given one on no longer hold MARK. */
static size_t altered(const void *buffer, size_t from, size_t count)
{
    size_t k, changes = 0;
    for (k = from; k < count; k++) {
        uint32_t word;
        memcpy(&word, (const char *)buffer + 4 * k, 4);
        changes += word != MARK;
    }
    return changes;
}

static void expect_refusal(const char *what, sirveshan_refusal found, size_t number, size_t first, size_t second, size_t third)
{
    expect(what, found.number, number);
    expect(what, found.first, first);
    expect(what, found.second, second);
    expect(what, found.third, third);
}

#endif
