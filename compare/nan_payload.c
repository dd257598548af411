/*
 * What the proofs cannot say of an f32 buffer: that a place which a call leaves alone keeps its very bits where they are a NaN's, payload
 * and all. Every place holds 0x7fa5a5a5 before each call, a signalling NaN. From the repository's root:
 *
 *     gcc -std=c99 -O2 -Wall -Wextra -Iinclude compare/nan_payload.c crates/sirveshan/out/libsirveshan.a -o nan_payload
 *     ./nan_payload
 */
#include "sirveshan.h"

#include <stdio.h>
#include <string.h>

enum { SAMPLES = 32, STORE = 64 + 7, VERTICES = 6 * 5, TRIANGLES = 3 * 4, READ = SAMPLES + 9, BYTES = 27 + 4 * SAMPLES };

static const uint32_t MARK = 0x7fa5a5a5;

static float samples[READ], vertices[VERTICES];
static uint32_t store[STORE], triangles[TRIANGLES];
static uint8_t bytes[BYTES];
static int failed;

static void expect(int held, const char *what)
{
    if (!held) {
        failed++;
        printf("%s\n", what);
    }
}

static void mark(void *places, size_t count)
{
    for (size_t k = 0; k < count; k++)
        memcpy((char *)places + 4 * k, &MARK, 4);
}

/* The places from one on all hold the mark. */
static int marked(const void *places, size_t from, size_t count)
{
    for (size_t k = from; k < count; k++)
        if (memcmp((const char *)places + 4 * k, &MARK, 4) != 0)
            return 0;
    return 1;
}

static void mark_all(void)
{
    mark(samples, READ);
    mark(vertices, VERTICES);
    mark(store, STORE);
    mark(triangles, TRIANGLES);
}

static sirveshan_extracted extract(sirveshan_header header, const float *centre)
{
    mark_all();
    return sirveshan_extract(header, centre, SAMPLES, NULL, 0, store, STORE, vertices, VERTICES, triangles, TRIANGLES);
}

static void expect_untouched(const char *what)
{
    expect(marked(store, 0, STORE) && marked(vertices, 0, VERTICES) && marked(triangles, 0, TRIANGLES), what);
}

int main(void)
{
    /* Document 01's case A: three vertices and one triangle. */
    sirveshan_header header = {0, 0, 0, 1, 1, 0, 0.5f};
    float centre[SAMPLES] = {1};
    sirveshan_extracted made = extract(header, centre);
    expect(made.refused.number == 0 && made.vertices == 3 && made.triangles == 1, "case A is not meshed");
    expect(marked(store, 64, STORE) && marked(vertices, 18, VERTICES) && marked(triangles, 3, TRIANGLES), "changed beyond the mesh");

    header.subdivisions = 0;
    expect(extract(header, centre).refused.number == 1, "no subdivisions are not refused");
    expect_untouched("changed by 1");
    header.subdivisions = 1;
    mark(&centre[31], 1);
    made = extract(header, centre);
    expect(made.refused.number == 7 && made.refused.first == 31, "a NaN is not refused");
    expect_untouched("changed by 7");
    expect(marked(&centre[31], 0, 1), "the centre changed");
    centre[31] = 0;

    sirveshan_written written = sirveshan_write(header, centre, SAMPLES, NULL, 0, bytes, BYTES);
    expect(written.refused.number == 0 && written.length == BYTES, "case A is not written");
    mark_all();
    sirveshan_read_answer read = sirveshan_read(bytes, BYTES, samples, READ);
    expect(read.refused.number == 0 && memcmp(samples, centre, sizeof centre) == 0, "case A is not read");
    expect(marked(samples, SAMPLES, READ), "changed beyond the samples");
    mark_all();
    read = sirveshan_read(bytes, BYTES, samples, SAMPLES - 1);
    expect(read.refused.number == 14 && marked(samples, 0, READ), "changed by 14");
    read = sirveshan_read(bytes, BYTES - 1, samples, READ);
    expect(read.refused.number == 11 && marked(samples, 0, READ), "changed by 11");

    printf(failed ? "%d failed\n" : "every place beyond, and in a refused call every place, kept its bits\n", failed);
    return failed != 0;
}
