/* For the checking programs: each says what it finds wrong and ends with a count of both. */
#ifndef EXPECT_H
#define EXPECT_H

#include <inttypes.h>
#include <stdio.h>
#include <string.h>

#include "sirveshan.h"

static int passed, failed;

static void expect(const char *what, uint64_t found, uint64_t wanted)
{
    if (found == wanted) {
        passed++;
        return;
    }
    failed++;
    printf("%s: %" PRIu64 ", not %" PRIu64 "\n", what, found, wanted);
}

static int counted(void)
{
    printf("%d passed, %d failed\n", passed, failed);
    return failed != 0 || passed == 0;
}

#endif
