/*
 * Repair from C: a delivery with bad samples and a face that disagrees, the list that tells each change, a second pass, and each
 * refusal with nothing altered.
 */
#include "lent.h"

enum { MASK = SIRVESHAN_LOW_X | SIRVESHAN_HIGH_Z, CENTRE = SIRVESHAN_CENTRE_LENGTH(1), NEIGHBOURS = SIRVESHAN_NEIGHBOURS_LENGTH(1, MASK) };
enum { CHANGES = 5, WORDS = 4 * CHANGES + 6 };

#define ONE UINT32_C(0x3f800000)
#define HALF UINT32_C(0x3f000000)
#define NEGATIVE_ZERO UINT32_C(0x80000000)
#define A_NAN UINT32_C(0xffa12345)
#define INFINITE UINT32_C(0x7f800000)
#define BEYOND UINT32_C(0x49800001)

/* At low x the point (0, 1, 1), which is u = 0 and v = 1, is the neighbour's (2, 2, 2); at high z the point (0, 0, 1), u = 1 and
   v = 0, is the other neighbour's (0, 0, 0). */
enum { LOW_X = SIRVESHAN_PLACE(2, 2, 2, 2), HIGH_Z = SIRVESHAN_CENTRE_LENGTH(2) + SIRVESHAN_PLACE(2, 0, 0, 0), OUTER = 40 };

static uint32_t centre[CENTRE], neighbours[NEIGHBOURS];
static sirveshan_header header = {0, 0, 0, 1, 1, MASK, 0.75f};

static void damage(void)
{
    size_t k;
    for (k = 0; k < CENTRE; k++)
        centre[k] = ONE;
    for (k = 0; k < NEIGHBOURS; k++)
        neighbours[k] = ONE;
    centre[4] = A_NAN;
    neighbours[OUTER] = INFINITE;
    neighbours[LOW_X] = NEGATIVE_ZERO;
    neighbours[HIGH_Z] = BEYOND;
}

static sirveshan_mended repair(float filler, uint32_t *changes, size_t words)
{
    return sirveshan_repair(header, centre, CENTRE, neighbours, NEIGHBOURS, filler, changes, words);
}

static void expect_change(const uint32_t *change, uint32_t list, uint32_t place, uint32_t old, uint32_t new_bits)
{
    expect("list", change[0], list);
    expect("place", change[1], place);
    expect("old bits", change[2], old);
    expect("new bits", change[3], new_bits);
}

/* How many samples are not ONE. */
static size_t others(void)
{
    size_t k, count = 0;
    for (k = 0; k < CENTRE; k++)
        count += centre[k] != ONE;
    for (k = 0; k < NEIGHBOURS; k++)
        count += neighbours[k] != ONE;
    return count;
}

static void repaired(void)
{
    uint32_t *changes = room(WORDS);
    sirveshan_mended mended;
    damage();
    mended = repair(0.5f, changes, WORDS);
    expect_refusal("repaired", mended.refused, 0, 0, 0, 0);
    expect("its changes", mended.changes, CHANGES);
    expect_change(changes, 0, 4, A_NAN, HALF);
    expect_change(changes + 4, 1, OUTER, INFINITE, HALF);
    expect_change(changes + 8, 1, HIGH_Z, BEYOND, HALF);
    expect_change(changes + 12, 1, LOW_X, NEGATIVE_ZERO, ONE);
    expect_change(changes + 16, 1, HIGH_Z, HALF, ONE);
    expect("beyond the list", altered(changes, 4 * CHANGES, WORDS), 0);
    expect("the filler in the centre", centre[4], HALF);
    expect("the filler in the neighbours", neighbours[OUTER], HALF);
    expect("all others as they were", others(), 2);
    mended = repair(0.0f, NULL, 0);
    expect_refusal("a second pass", mended.refused, 0, 0, 0, 0);
    expect("lists nothing", mended.changes, 0);
    free(changes);
}

static void expect_refused(const char *what, float filler, size_t words, size_t number, size_t first)
{
    uint32_t *changes = room(WORDS);
    sirveshan_mended mended;
    damage();
    mended = repair(filler, changes, words);
    expect_refusal(what, mended.refused, number, first, 0, 0);
    expect(what, mended.changes, 0);
    expect(what, altered(changes, 0, WORDS), 0);
    expect(what, centre[4], A_NAN);
    expect(what, neighbours[OUTER], INFINITE);
    expect(what, neighbours[LOW_X], NEGATIVE_ZERO);
    expect(what, neighbours[HIGH_Z], BEYOND);
    expect(what, others(), 4);
    free(changes);
}

static void refused(void)
{
    expect_refused("a word short", 0.5f, 4 * CHANGES - 1, 19, CHANGES);
    expect_refused("no list", 0.5f, 0, 19, CHANGES);
    expect_refused("a filler beyond the limit", -1048576.125f, 0, 18, 0);
    header.mask = 64;
    expect_refused("the mask before the filler", 1e30f, 0, 2, 64);
    header.mask = MASK | SIRVESHAN_LOW_Y;
    expect_refused("a neighbour that is not there", 0.5f, WORDS, 5, 5);
    header.mask = MASK;
}

int main(void)
{
    repaired();
    refused();
    return counted();
}
