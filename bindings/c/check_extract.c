/*
 * Extraction from C: case A, each refusal, the places that stay as they were, buffers of no length, and on flat faces which way
 * triangles and gradients point.
 */
#include "lent.h"

#include <math.h>

#include "field.h"

static const float BAD = 2097152.0f;

/* What one call lends. */
struct call {
    sirveshan_header header;
    float *centre, *neighbours;
    size_t centre_length, neighbours_length, store_length, vertices_length, triangles_length;
};

/* What came of it. */
struct outcome {
    sirveshan_extracted answer;
    uint32_t *store, *triangles;
    float *vertices;
};

static struct outcome run(struct call c)
{
    struct outcome o;
    o.store = room(c.store_length);
    o.vertices = room(c.vertices_length);
    o.triangles = room(c.triangles_length);
    o.answer = sirveshan_extract(c.header, c.centre, c.centre_length, c.neighbours, c.neighbours_length, o.store, c.store_length,
                                 o.vertices, c.vertices_length, o.triangles, c.triangles_length);
    return o;
}

static void release(struct outcome o)
{
    free(o.store);
    free(o.vertices);
    free(o.triangles);
}

/* The numbers of a refusal, and every place as it was. */
static void expect_refused(const char *what, struct call c, size_t number, size_t first, size_t second, size_t third)
{
    struct outcome o = run(c);
    expect_refusal(what, o.answer.refused, number, first, second, third);
    expect(what, o.answer.vertices, 0);
    expect(what, o.answer.triangles, 0);
    expect(what, o.answer.reads, 0);
    expect(what, altered(o.store, 0, c.store_length), 0);
    expect(what, altered(o.vertices, 0, c.vertices_length), 0);
    expect(what, altered(o.triangles, 0, c.triangles_length), 0);
    release(o);
}

static float samples_a[SIRVESHAN_CENTRE_LENGTH(1)];
static float neighbours_a[SIRVESHAN_NEIGHBOURS_LENGTH(1, 63)];

/* Document 01's case A, with some places more than it needs. */
static struct call case_a(void)
{
    struct call c = {{0, 0, 0, 1, 1, 0, 0.5f}, samples_a, NULL, SIRVESHAN_CENTRE_LENGTH(1), 0, SIRVESHAN_STORE_LENGTH(1) + 5,
                     25, 5};
    memset(samples_a, 0, sizeof samples_a);
    memset(neighbours_a, 0, sizeof neighbours_a);
    samples_a[SIRVESHAN_PLACE(1, 0, 0, 0)] = 1;
    return c;
}

static void good(void)
{
    static const float wanted[18] = {0.5f, 0, 0, -0.5f, 0, 0, 0, 0.5f, 0, 0, -0.5f, 0, 0, 0, 0.5f, 0, 0, -0.5f};
    static const uint32_t corners[3] = {0, 1, 2};
    struct call c = case_a();
    struct outcome o = run(c);
    expect_refusal("case A", o.answer.refused, 0, 0, 0, 0);
    expect("case A: vertices", o.answer.vertices, 3);
    expect("case A: triangles", o.answer.triangles, 1);
    expect("case A: reads", o.answer.reads, 8 + 3 * 14);
    expect("case A: floats", (uint64_t)memcmp(o.vertices, wanted, sizeof wanted), 0);
    expect("case A: corners", (uint64_t)memcmp(o.triangles, corners, sizeof corners), 0);
    expect("case A: the store is filled", altered(o.store, 0, SIRVESHAN_STORE_LENGTH(1)), SIRVESHAN_STORE_LENGTH(1));
    expect("case A: beyond the store", altered(o.store, SIRVESHAN_STORE_LENGTH(1), c.store_length), 0);
    expect("case A: beyond the vertices", altered(o.vertices, 18, c.vertices_length), 0);
    expect("case A: beyond the triangles", altered(o.triangles, 3, c.triangles_length), 0);
    release(o);
}

static void ranges(void)
{
    struct call c = case_a();
    c.header.subdivisions = 0;
    expect_refused("n = 0", c, 1, 0, 0, 0);
    c.header.subdivisions = SIRVESHAN_MOST_SUBDIVISIONS + 1;
    expect_refused("n = 65", c, 1, SIRVESHAN_MOST_SUBDIVISIONS + 1, 0, 0);
    c.header.subdivisions = SIZE_MAX;
    expect_refused("n far above", c, 1, SIZE_MAX, 0, 0);
    c = case_a();
    c.header.mask = 64;
    expect_refused("mask", c, 2, 64, 0, 0);
    c = case_a();
    c.header.z = BAD;
    c.header.size = 0;
    expect_refused("base z", c, 3, 2, 0, 0);
    c.header.z = 0;
    expect_refused("size", c, 3, 3, 0, 0);
    c = case_a();
    c.header.threshold = -BAD;
    expect_refused("threshold", c, 3, 4, 0, 0);
}

static void lists(void)
{
    struct call c = case_a();
    c.centre_length--;
    expect_refused("centre", c, 4, SIRVESHAN_CENTRE_LENGTH(1), 0, 0);
    c = case_a();
    c.header.mask = SIRVESHAN_LOW_X | SIRVESHAN_HIGH_Y;
    c.neighbours = neighbours_a;
    c.neighbours_length = SIRVESHAN_NEIGHBOURS_LENGTH(1, SIRVESHAN_LOW_X);
    expect_refused("a neighbour is missing", c, 5, 3, 0, 0);
    c.neighbours_length = SIRVESHAN_NEIGHBOURS_LENGTH(1, SIRVESHAN_LOW_X | SIRVESHAN_HIGH_Y) + 1;
    expect_refused("one sample too many", c, 6, SIRVESHAN_NEIGHBOURS_LENGTH(1, SIRVESHAN_LOW_X | SIRVESHAN_HIGH_Y), 0, 0);
    c.neighbours_length--;
    neighbours_a[7] = BAD;
    expect_refused("sample of a neighbour", c, 7, SIRVESHAN_CENTRE_LENGTH(1) + 7, 0, 0);
    neighbours_a[7] = 0;
    expect_refused("face", c, 8, 0, 1, 0);
    samples_a[SIRVESHAN_FACE_PLACE(1, 5, 1, 1)] = -BAD;
    expect_refused("sample of the last face", c, 7, SIRVESHAN_CENTRE_LENGTH(1) - 1, 0, 0);
}

/* Where the header says that u and v of refusal 8 lie: one point of a face disagrees, the centre's being inside. */
static void faces(void)
{
    enum { N = 3, U = 1, V = 3 };
    static const int points[6][3] = {{0, V, N - U}, {N, V, U}, {U, 0, N - V}, {U, N, V}, {U, V, 0}, {N - U, V, N}};
    static float samples[SIRVESHAN_SAMPLES_LENGTH(N, 63)];
    size_t side;
    for (side = 0; side < 6; side++) {
        struct call c = case_a();
        size_t place = SIRVESHAN_PLACE(N, points[side][0], points[side][1], points[side][2]);
        c.header.subdivisions = N;
        c.header.mask = (uint8_t)(1 << side);
        c.centre = samples;
        c.centre_length = SIRVESHAN_CENTRE_LENGTH(N);
        c.neighbours = samples + SIRVESHAN_CENTRE_LENGTH(N);
        c.neighbours_length = SIRVESHAN_NEIGHBOURS_LENGTH(N, 1);
        samples[place] = 1;
        expect_refused("the point of a face", c, 8, side, U, V);
        samples[place] = 0;
    }
}

static void short_room(void)
{
    struct call c = case_a();
    c.store_length = SIRVESHAN_STORE_LENGTH(1) - 1;
    expect_refused("store", c, 9, SIRVESHAN_STORE_LENGTH(1), 0, 0);
    c = case_a();
    c.vertices_length = 17;
    expect_refused("vertices", c, 10, 3, 1, 0);
    c = case_a();
    c.triangles_length = 2;
    expect_refused("triangles", c, 10, 3, 1, 0);
}

/* NULL goes with a length of 0, in each place. */
static void no_buffers(void)
{
    struct call c = case_a();
    sirveshan_extracted answer = sirveshan_extract(c.header, NULL, 0, NULL, 0, NULL, 0, NULL, 0, NULL, 0);
    uint32_t *store = room(SIRVESHAN_STORE_LENGTH(1));
    expect_refusal("nothing lent", answer.refused, 4, SIRVESHAN_CENTRE_LENGTH(1), 0, 0);
    answer = sirveshan_extract(c.header, c.centre, c.centre_length, NULL, 0, NULL, 0, NULL, 0, NULL, 0);
    expect_refusal("no store", answer.refused, 9, SIRVESHAN_STORE_LENGTH(1), 0, 0);
    answer = sirveshan_extract(c.header, c.centre, c.centre_length, NULL, 0, store, SIRVESHAN_STORE_LENGTH(1), NULL, 0, NULL, 0);
    expect_refusal("no room", answer.refused, 10, 3, 1, 0);
    samples_a[0] = 0;
    answer = sirveshan_extract(c.header, c.centre, c.centre_length, NULL, 0, store, SIRVESHAN_STORE_LENGTH(1), NULL, 0, NULL, 0);
    expect_refusal("no room needed", answer.refused, 0, 0, 0, 0);
    expect("no room needed", answer.vertices + answer.triangles, 0);
    expect("no room needed: reads", answer.reads, 8);
    free(store);
}

/* Twice the area of a triangle as seen along each axis, by its winding. */
static void winding(const float *vertices, const uint32_t *corners, double *across)
{
    double a[3], b[3];
    size_t k;
    for (k = 0; k < 3; k++) {
        a[k] = (double)vertices[6 * corners[1] + k] - vertices[6 * corners[0] + k];
        b[k] = (double)vertices[6 * corners[2] + k] - vertices[6 * corners[0] + k];
    }
    for (k = 0; k < 3; k++)
        across[k] = a[(k + 1) % 3] * b[(k + 2) % 3] - a[(k + 2) % 3] * b[(k + 1) % 3];
}

/* Every triangle shows outward, every gradient inward, and together the triangles cover the block's section once. */
static void expect_outward(const char *what, struct outcome o, size_t axis, int up, double size)
{
    double area = 0;
    size_t k, wrong = 0;
    for (k = 0; k < o.answer.triangles; k++) {
        double across[3];
        winding(o.vertices, o.triangles + 3 * k, across);
        wrong += up * across[axis] < 0;
        area += up * across[axis] / 2;
    }
    for (k = 0; k < o.answer.vertices; k++)
        wrong += (float)up * o.vertices[6 * k + 3 + axis] >= 0;
    expect(what, o.answer.triangles > 0, 1);
    expect(what, wrong, 0);
    expect(what, fabs(area - size * size) < 1e-3, 1);
}

/* A flat face across an axis: inside below it, or above it where up is -1. */
static size_t flat_axis;
static int flat_up;

static float flat(const int *point)
{
    return (float)flat_up * (2.75f - (float)point[flat_axis]);
}

static void flat_face(uint8_t mask)
{
    enum { N = 3 };
    static float samples[SIRVESHAN_SAMPLES_LENGTH(N, 63)];
    struct call c = {{5, -7, 11, 6, N, 0, 0}, samples, samples + SIRVESHAN_CENTRE_LENGTH(N), SIRVESHAN_CENTRE_LENGTH(N), 0,
                     SIRVESHAN_STORE_LENGTH(N), 0, 0};
    struct outcome o;
    c.header.mask = mask;
    c.neighbours_length = SIRVESHAN_NEIGHBOURS_LENGTH(N, mask);
    c.vertices_length = 6 * SIRVESHAN_MOST_VERTICES(N, mask);
    c.triangles_length = 3 * SIRVESHAN_MOST_TRIANGLES(N, mask);
    fill(samples, N, mask, flat);
    o = run(c);
    expect("a flat face", o.answer.refused.number, 0);
    expect_outward("a flat face", o, flat_axis, flat_up, c.header.size);
    release(o);
}

/* Across each axis, its outside on either side of it, with no finer neighbour and with all six. */
static void directions(void)
{
    for (flat_axis = 0; flat_axis < 3; flat_axis++)
        for (flat_up = -1; flat_up <= 1; flat_up += 2) {
            flat_face(0);
            flat_face(63);
        }
}

/* The largest lengths, as the calls themselves tell them. */
static void largest(void)
{
    enum { N = SIRVESHAN_MOST_SUBDIVISIONS, CENTRE = SIRVESHAN_CENTRE_LENGTH(N), REST = SIRVESHAN_NEIGHBOURS_LENGTH(N, 63) };
    struct call c = case_a();
    c.header.subdivisions = N;
    c.header.mask = 63;
    c.centre = calloc(CENTRE, sizeof *c.centre);
    c.neighbours = calloc(REST + 1, sizeof *c.neighbours);
    c.store_length = SIRVESHAN_STORE_LENGTH(N) - 1;
    expect_refused("largest centre", c, 4, CENTRE, 0, 0);
    c.centre_length = CENTRE;
    c.neighbours_length = REST + 1;
    expect_refused("largest neighbours", c, 6, REST, 0, 0);
    c.neighbours_length = REST;
    expect_refused("largest store", c, 9, SIRVESHAN_STORE_LENGTH(N), 0, 0);
    free(c.centre);
    free(c.neighbours);
}

int main(void)
{
    good();
    ranges();
    lists();
    faces();
    short_room();
    no_buffers();
    directions();
    largest();
    return counted();
}
