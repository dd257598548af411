/*
 * check_sheet: the sheet of small runs from C: document 01's case A, refused records between good ones, a finer side, a cut end, an empty run and one
 * that is too long. bindings/c/check.sh builds and runs it.
 */
#include <stdlib.h>
#include <string.h>

#include "expect.h"

enum { HEADER = 27, LENGTH = HEADER + 4 * 32, FINER = LENGTH + 4 * 81, RUN = 8 * LENGTH };

/* A run, and how long it is. */
static uint8_t run[RUN];
static size_t length;

static void put(size_t at, uint32_t word)
{
    for (size_t k = 0; k < 4; k++)
        run[at + k] = (uint8_t)(word >> (24 - 8 * k));
}

/* Case A, with another byte at a place of it. */
static void add(size_t place, uint8_t byte)
{
    memset(run + length, 0, LENGTH);
    put(length, LENGTH - 4);
    run[length + 4] = 1;
    run[length + 5] = 1;
    put(length + 7, 0x3f000000);
    put(length + 23, 0x3f800000);
    put(length + HEADER, 0x3f800000);
    if (place)
        run[length + place] = byte;
    length += LENGTH;
}

/* Case A with a finer neighbour at low x, which agrees with it but for the sample at a place of its own. */
static void add_finer(size_t place)
{
    const size_t at = length;
    add(6, SIRVESHAN_LOW_X);
    memset(run + length, 0, FINER - LENGTH);
    put(at, FINER - 4);
    put(at + LENGTH + 4 * 18, 0x3f800000);
    put(at + LENGTH + 4 * place, 0x3f800000);
    length = at + FINER;
}

static void expect_figures(const char *what, sirveshan_figures f, uint64_t times)
{
    expect(what, f.inside, times);
    expect(what, f.x_edges, times);
    expect(what, f.y_edges, times);
    expect(what, f.z_edges, times);
    expect(what, f.vertices, 3 * times);
    expect(what, f.triangles, times);
}

/* The line at a place: its refusal, and where the next one begins. One that is not refused is case A's. */
static void expect_line(const char *what, size_t at, size_t number, size_t first, size_t next)
{
    sirveshan_line line = sirveshan_sheet_line(run, length, at);
    expect(what, line.refused.number, number);
    expect(what, line.refused.first, first);
    expect(what, line.refused.second, 0);
    expect(what, line.refused.third, 0);
    expect(what, line.next, next);
    expect_figures(what, line.figures, next && !number);
}

static void expect_total(const char *what, uint64_t times)
{
    sirveshan_total total = sirveshan_sheet_total(run, length);
    expect(what, total.refused.number, 0);
    expect_figures(what, total.figures, times);
}

static void lines(void)
{
    add(0, 0);
    add(4, 2);
    add(5, 65);
    add(HEADER + 4 * 9, 0xff);
    add(0, 0);
    expect_line("case A", 0, 0, 0, LENGTH);
    expect_line("version", LENGTH, 12, 2, 2 * LENGTH);
    expect_line("subdivisions", 2 * LENGTH, 1, 65, 3 * LENGTH);
    expect_line("sample", 3 * LENGTH, 7, 9, 4 * LENGTH);
    expect_line("after refused ones", 4 * LENGTH, 0, 0, 5 * LENGTH);
    expect_line("the end", 5 * LENGTH, 0, 0, 0);
    expect_line("beyond the end", SIZE_MAX, 0, 0, 0);
    expect_total("two of five", 2);
}

/* With a finer side, and with one whose far corner disagrees: 8 at u = 0, v = 1. */
static void finer_sides(void)
{
    length = 0;
    add_finer(18);
    add_finer(26);
    sirveshan_line good = sirveshan_sheet_line(run, length, 0);
    sirveshan_line bad = sirveshan_sheet_line(run, length, good.next);
    sirveshan_total total = sirveshan_sheet_total(run, length);
    expect("a finer side", good.refused.number, 0);
    expect("a finer side", good.next, FINER);
    expect("its inside samples", good.figures.inside, 1);
    expect("its vertices", good.figures.vertices, 7);
    expect("its triangles", good.figures.triangles, 3);
    expect("a face that disagrees", bad.refused.number, 8);
    expect("its side", bad.refused.first, 0);
    expect("its u", bad.refused.second, 0);
    expect("its v", bad.refused.third, 1);
    expect("a face that disagrees", bad.next, 2 * FINER);
    expect_figures("a face that disagrees", bad.figures, 0);
    expect("the good one alone", total.figures.vertices, 7);
}

/* With k bytes of a sixth record the line is refused, and has them all. */
static void cut_ends(void)
{
    for (size_t k = 1; k < LENGTH; k += 1 + 20 * (k > 4)) {
        length = 5 * LENGTH;
        add(0, 0);
        length = 5 * LENGTH + k;
        expect_line("cut", 5 * LENGTH, 11, 0, length);
        expect_line("after the cut one", length, 0, 0, 0);
        expect_total("two of six", 2);
    }
}

static void bounds(void)
{
    sirveshan_line line;
    sirveshan_total total;
    length = 0;
    expect_line("empty", 0, 0, 0, 0);
    expect_total("empty", 0);
    uint8_t *large = calloc(SIRVESHAN_MOST_RUN + 1, 1);
    expect("room for a long run", large != NULL, 1);
    if (!large)
        return;
    line = sirveshan_sheet_line(large, SIRVESHAN_MOST_RUN + 1, 0);
    total = sirveshan_sheet_total(large, SIRVESHAN_MOST_RUN + 1);
    expect("too long", line.refused.number, 11);
    expect("too long", line.next, 0);
    expect("too long", total.refused.number, 11);
    line = sirveshan_sheet_line(large, SIRVESHAN_MOST_RUN, SIRVESHAN_MOST_RUN - 4);
    expect("the longest", line.refused.number, 11);
    expect("the longest", line.next, SIRVESHAN_MOST_RUN);
    free(large);
}

int main(void)
{
    lines();
    cut_ends();
    finer_sides();
    bounds();
    return counted();
}
