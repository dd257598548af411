/*
 * Summaries by layer from C: made, kept up to date where a sample is set, the places that stay as they were, and each refusal with
 * nothing altered; and extraction with one, which leaves what it leaves without it and reads less.
 */
#include "lists.h"

enum { N = 3, SAMPLES = SIRVESHAN_CENTRE_LENGTH(N), LENGTH = SIRVESHAN_SUMMARY_LENGTH(N), FLOATS = LENGTH + 3 };

static float samples[SAMPLES];

static uint32_t bits_of(float number)
{
    uint32_t bits;
    memcpy(&bits, &number, 4);
    return bits;
}

/* In-block samples that grow along x, from x to x + 0.5; those of the faces outside are far below. */
static void fill(void)
{
    size_t x, y, z, k;
    for (k = 0; k < SAMPLES; k++)
        samples[k] = -9;
    for (x = 0; x <= N; x++)
        for (y = 0; y <= N; y++)
            for (z = 0; z <= N; z++)
                samples[SIRVESHAN_PLACE(N, x, y, z)] = (float)x + ((y + z) % 2 ? 0.5f : 0);
}

static void expect_layer(const char *what, const float *summary, size_t layer, float least, float greatest)
{
    expect(what, bits_of(summary[2 * layer]), bits_of(least));
    expect(what, bits_of(summary[2 * layer + 1]), bits_of(greatest));
}

static void made(void)
{
    float *summary = room(FLOATS);
    size_t x;
    fill();
    expect_refusal("made", sirveshan_make_summary(N, samples, SAMPLES, summary, FLOATS), 0, 0, 0, 0);
    for (x = 0; x < N; x++)
        expect_layer("a layer", summary, x, (float)x, (float)x + 1.5f);
    expect("beyond the summary", altered(summary, LENGTH, FLOATS), 0);
    free(summary);
}

/* Of zeros the first is kept, whatever its sign. */
static void zeros(void)
{
    float *summary = room(FLOATS);
    size_t k;
    for (k = 0; k < SAMPLES; k++)
        samples[k] = 0;
    samples[SIRVESHAN_PLACE(N, 1, 0, 0)] = -0.0f;
    sirveshan_make_summary(N, samples, SAMPLES, summary, LENGTH);
    expect_layer("+0 first", summary, 0, 0.0f, 0.0f);
    expect_layer("-0 first", summary, 1, -0.0f, -0.0f);
    free(summary);
}

static void set(void)
{
    float *summary = room(FLOATS);
    fill();
    expect_refusal("set", sirveshan_set_sample(N, samples, SAMPLES, 2, 3, 0, 7, summary, FLOATS), 0, 0, 0, 0);
    expect("the sample", bits_of(samples[SIRVESHAN_PLACE(N, 2, 3, 0)]), bits_of(7));
    expect("a layer that does not hold it", altered(summary, 0, 2), 0);
    expect_layer("below the plane", summary, 1, 1, 7);
    expect_layer("above the plane", summary, 2, 2, 7);
    expect("beyond the summary", altered(summary, LENGTH, FLOATS), 0);
    expect_refusal("at the low end", sirveshan_set_sample(N, samples, SAMPLES, 0, 0, 0, -2, summary, LENGTH), 0, 0, 0, 0);
    expect_layer("the first layer", summary, 0, -2, 1.5f);
    expect_layer("the others stay", summary, 1, 1, 7);
    expect_refusal("on a face", sirveshan_set_sample(N, samples, SAMPLES, N + 1, 1, 2, 99, summary, LENGTH), 0, 0, 0, 0);
    expect("its sample", bits_of(samples[SIRVESHAN_FACE_PLACE(N, 1, 1, 2)]), bits_of(99));
    expect_layer("no layer holds it", summary, 2, 2, 7);
    free(summary);
}

enum { SETTING, BOTH };

/* Setting is refused; or making too, which has no point and no value. */
static void expect_refused(const char *what, int calls, size_t n, size_t held, int32_t x, float value, size_t floats, size_t number,
                           size_t first)
{
    float *summary = room(FLOATS), *before = room(SAMPLES);
    memcpy(before, samples, sizeof samples);
    expect_refusal(what, sirveshan_set_sample(n, samples, held, x, 1, 2, value, summary, floats), number, first, 0, 0);
    expect(what, (uint64_t)memcmp(before, samples, sizeof samples), 0);
    if (calls == BOTH)
        expect_refusal(what, sirveshan_make_summary(n, samples, held, summary, floats), number, first, 0, 0);
    expect(what, altered(summary, 0, FLOATS), 0);
    free(summary);
    free(before);
}

static void refused(void)
{
    float bad = 2097152.0f;
    fill();
    expect_refused("n 0", BOTH, 0, SAMPLES, 0, bad, 0, 1, 0);
    expect_refused("n too large", BOTH, SIRVESHAN_MOST_SUBDIVISIONS + 1, SAMPLES, 0, bad, 0, 1, SIRVESHAN_MOST_SUBDIVISIONS + 1);
    expect_refused("a sample too few", BOTH, N, SAMPLES - 1, 0, bad, 0, 4, SAMPLES);
    expect_refused("never sampled", SETTING, N, SAMPLES, -2, bad, 0, 15, 1);
    expect_refused("a bad value", SETTING, N, SAMPLES, 1, bad, 0, 7, SIRVESHAN_PLACE(N, 1, 1, 2));
    expect_refused("room", BOTH, N, SAMPLES, 1, 1, LENGTH - 1, 14, LENGTH);
    samples[4] = bad;
    expect_refused("a bad sample", BOTH, N, SAMPLES, -2, bad, 0, 7, 4);
}

/* Extraction with a summary, or without one. The surface is in the middle one of the three layers. */
enum { VERTICES = SIRVESHAN_MOST_VERTICES(N, 0), CORNERS = 3 * SIRVESHAN_MOST_TRIANGLES(N, 0), PLACES = SIRVESHAN_STORE_LENGTH(N) };

static lists lent(void)
{
    return rooms(6 * VERTICES, PLACES, CORNERS, VERTICES);
}

static sirveshan_extracted extracted(lists to, const float *summary, size_t floats, size_t store)
{
    sirveshan_header header = {0, 0, 0, 1, N, 0, 1.75f};
    if (summary == NULL)
        return sirveshan_extract_whole(header, samples, SAMPLES, NULL, 0, to.store, store, to.vertices, 6 * VERTICES, to.triangles,
                                       CORNERS, to.edges, VERTICES);
    return sirveshan_extract_layered(header, samples, SAMPLES, NULL, 0, summary, floats, to.store, store, to.vertices, 6 * VERTICES,
                                     to.triangles, CORNERS, to.edges, VERTICES);
}

/* So many of its layers are passed over, and all else is as without the summary. */
static void expect_alike(const char *what, const float *summary, size_t over)
{
    lists with = lent(), without = lent();
    sirveshan_extracted mesh = extracted(with, summary, LENGTH, PLACES), wanted = extracted(without, NULL, 0, PLACES);
    expect_refusal(what, mesh.refused, 0, 0, 0, 0);
    expect(what, mesh.vertices, wanted.vertices);
    expect(what, mesh.triangles, wanted.triangles);
    expect(what, mesh.triangles > 0, 1);
    expect(what, mesh.reads + 8 * N * N * over, wanted.reads);
    expect(what, (uint64_t)memcmp(with.vertices, without.vertices, 4 * 6 * VERTICES), 0);
    expect(what, (uint64_t)memcmp(with.triangles, without.triangles, 4 * CORNERS), 0);
    expect(what, (uint64_t)memcmp(with.store, without.store, 4 * PLACES), 0);
    expect(what, (uint64_t)memcmp(with.edges, without.edges, 4 * VERTICES), 0);
    release(with);
    release(without);
}

static void expect_no_mesh(const char *what, const float *summary, size_t floats, size_t store, size_t number, size_t first)
{
    lists to = lent();
    sirveshan_extracted found = extracted(to, summary, floats, store);
    expect_refusal(what, found.refused, number, first, 0, 0);
    expect(what, found.vertices + found.triangles + found.reads, 0);
    expect(what, altered(to.store, 0, PLACES) + altered(to.vertices, 0, 6 * VERTICES), 0);
    expect(what, altered(to.triangles, 0, CORNERS) + altered(to.edges, 0, VERTICES), 0);
    release(to);
}

static void passed_over(void)
{
    float *summary = room(LENGTH), *marks = room(LENGTH);
    fill();
    sirveshan_make_summary(N, samples, SAMPLES, summary, LENGTH);
    expect_alike("two layers passed over", summary, 2);
    expect("the least of all", bits_of(summary[0]), 0);
    summary[0] = -0.0f;
    expect_alike("a zero of the other sign", summary, 2);
    expect_alike("all layers marked", marks, 0);
    summary[5] = marks[5];
    expect_alike("one of the two marked", summary, 1);
    expect_no_mesh("14 before 26 and 9", summary, LENGTH - 1, PLACES - 1, 14, LENGTH);
    summary[2] += 0.25f;
    expect_no_mesh("26 before 9", summary, LENGTH, PLACES - 1, 26, 1);
    summary[2] = marks[2];
    expect_no_mesh("9 after 26", summary, LENGTH, PLACES - 1, 9, PLACES);
    free(summary);
    free(marks);
}

int main(void)
{
    made();
    zeros();
    set();
    refused();
    passed_over();
    return counted();
}
