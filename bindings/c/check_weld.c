/*
 * The weld from C: doubled vertices, the places that stay as they were, a second pass, and each refusal with nothing altered.
 */
#include "lent.h"

enum { VERTICES = 6, TRIANGLES = 3, ROOM = 60 };

/* The lists, each with room behind what is told of them. Vertices 0, 2 and 5 stand on edge 7; 1 and 4 are marked. */
static const uint32_t edges[VERTICES] = {7, SIRVESHAN_NO_EDGE, 7, 9, SIRVESHAN_NO_EDGE, 7};
static const uint32_t corners[3 * TRIANGLES] = {0, 1, 2, 3, 4, 5, 5, 1, 4};

typedef struct lists {
    float *vertices;
    uint32_t *triangles, *edges;
} lists;

/* Number k of the lists' floats, told by its bits; one in seven is a NaN with a payload. */
static uint32_t told(size_t k)
{
    return k % 7 ? (uint32_t)k : UINT32_C(0xffa00000) + (uint32_t)k;
}

static lists filled(void)
{
    lists made = {room(ROOM), room(ROOM), room(ROOM)};
    size_t k;
    for (k = 0; k < 6 * VERTICES; k++) {
        uint32_t bits = told(k);
        memcpy(made.vertices + k, &bits, 4);
    }
    memcpy(made.triangles, corners, sizeof corners);
    memcpy(made.edges, edges, sizeof edges);
    return made;
}

static void release(lists used)
{
    free(used.vertices);
    free(used.triangles);
    free(used.edges);
}

static sirveshan_welded weld(lists given, uint32_t vertices, uint32_t triangles)
{
    return sirveshan_weld(vertices, triangles, given.vertices, ROOM, given.triangles, ROOM, given.edges, ROOM);
}

static uint32_t bits_at(const void *list, size_t k)
{
    uint32_t bits;
    memcpy(&bits, (const char *)list + 4 * k, 4);
    return bits;
}

/* Vertices 0, 1, 3 and 4 are kept, at places 0 to 3; places 4 and 5 stay. */
static void expect_welded(const char *what, lists found)
{
    static const size_t from[VERTICES] = {0, 1, 3, 4, 4, 5};
    static const uint32_t renumbered[3 * TRIANGLES] = {0, 1, 0, 2, 3, 0, 0, 1, 3};
    size_t k;
    for (k = 0; k < 6 * VERTICES; k++)
        expect(what, bits_at(found.vertices, k), told(6 * from[k / 6] + k % 6));
    for (k = 0; k < VERTICES; k++)
        expect(what, found.edges[k], edges[from[k]]);
    for (k = 0; k < 3 * TRIANGLES; k++)
        expect(what, found.triangles[k], renumbered[k]);
    expect("beyond the vertices", altered(found.vertices, 6 * VERTICES, ROOM), 0);
    expect("beyond the triangles", altered(found.triangles, 3 * TRIANGLES, ROOM), 0);
    expect("beyond the edges", altered(found.edges, VERTICES, ROOM), 0);
}

static void welded(void)
{
    lists given = filled();
    sirveshan_welded found = weld(given, VERTICES, TRIANGLES);
    expect_refusal("welded", found.refused, 0, 0, 0, 0);
    expect("its vertices", found.vertices, 4);
    expect("its triangles", found.triangles, TRIANGLES);
    expect_welded("welded", given);
    found = weld(given, 4, TRIANGLES);
    expect_refusal("a second pass", found.refused, 0, 0, 0, 0);
    expect("its vertices", found.vertices, 4);
    expect_welded("a second pass", given);
    release(given);
}

static void nothing(void)
{
    sirveshan_welded found = sirveshan_weld(0, 0, NULL, 0, NULL, 0, NULL, 0);
    expect_refusal("nothing", found.refused, 0, 0, 0, 0);
    expect("no vertex", found.vertices, 0);
}

static void expect_refused(const char *what, lists given, sirveshan_welded found, size_t number, size_t first)
{
    lists wanted = filled();
    wanted.triangles[8] = given.triangles[8];
    expect_refusal(what, found.refused, number, first, 0, 0);
    expect(what, found.vertices, 0);
    expect(what, found.triangles, 0);
    expect(what, (uint64_t)memcmp(given.vertices, wanted.vertices, 4 * ROOM), 0);
    expect(what, (uint64_t)memcmp(given.triangles, wanted.triangles, 4 * ROOM), 0);
    expect(what, (uint64_t)memcmp(given.edges, wanted.edges, 4 * ROOM), 0);
    release(wanted);
}

static void refused(void)
{
    lists given = filled();
    float *vertices = given.vertices;
    uint32_t *triangles = given.triangles, *numbers = given.edges;
    given.triangles[8] = VERTICES;
    expect_refused("vertices before all", given, sirveshan_weld(VERTICES, 9, vertices, 35, triangles, 26, numbers, 5), 14, 36);
    expect_refused("triangles before edges", given, sirveshan_weld(VERTICES, 9, vertices, 36, triangles, 26, numbers, 5), 14, 27);
    expect_refused("edges before corners", given, sirveshan_weld(VERTICES, 3, vertices, 36, triangles, 9, numbers, 5), 23, 6);
    expect_refused("a corner that names none", given, sirveshan_weld(VERTICES, 3, vertices, 36, triangles, 9, numbers, 6), 17, 2);
    expect_refused("all vertices", given, sirveshan_weld(UINT32_MAX, 3, vertices, ROOM, triangles, 9, numbers, 6), 14, (size_t)6 * UINT32_MAX);
    expect_refused("all triangles", given, sirveshan_weld(6, UINT32_MAX, vertices, ROOM, triangles, 9, numbers, 6), 14, (size_t)3 * UINT32_MAX);
    release(given);
}

int main(void)
{
    welded();
    nothing();
    refused();
    return counted();
}
