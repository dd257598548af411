/*
 * Extraction with the further list from C: the grid edge of each vertex, all else as without the list, the places that stay as
 * they were, refusal 23 between 9 and 10; and a mesh that is welded by what it tells.
 */
#include "field.h"
#include "lists.h"

enum { N = 2, VERTICES = 11, TRIANGLES = 8, MORE = 3, FLOATS = 6 * VERTICES + MORE, CORNERS = 3 * TRIANGLES + MORE };

static float samples[SIRVESHAN_SAMPLES_LENGTH(N, 63)];
static const sirveshan_header level = {0, 0, 0, 1, N, 0, 1};

/* A level surface between z = 0 and z = 1: inside above it. */
static float height(const int *point)
{
    return (float)point[2];
}

/* Its vertices' grid edges: 3 times the place of the point below, plus 2 for z. */
static uint32_t edge_at(int x, int y)
{
    return (uint32_t)(3 * SIRVESHAN_PLACE(N, x, y, 0) + 2);
}

static lists marked(void)
{
    return rooms(FLOATS, SIRVESHAN_STORE_LENGTH(N), CORNERS, VERTICES + MORE);
}

/* Extraction with so many places lent, as many as wanted but where a test lends fewer. */
static sirveshan_extracted whole(lists lent, size_t store, size_t floats, size_t edges)
{
    return sirveshan_extract_whole(level, samples, SIRVESHAN_CENTRE_LENGTH(N), NULL, 0, lent.store, store, lent.vertices, floats,
                                   lent.triangles, CORNERS, lent.edges, edges);
}

static void expect_counts(const char *what, sirveshan_extracted found, size_t vertices, size_t triangles)
{
    expect_refusal(what, found.refused, 0, 0, 0, 0);
    expect(what, found.vertices, vertices);
    expect(what, found.triangles, triangles);
}

/* All else is as without the list. */
static void expect_alike(lists found, uint64_t reads)
{
    lists wanted = marked();
    sirveshan_extracted mesh =
        sirveshan_extract(level, samples, SIRVESHAN_CENTRE_LENGTH(N), NULL, 0, wanted.store, SIRVESHAN_STORE_LENGTH(N),
                          wanted.vertices, FLOATS, wanted.triangles, CORNERS);
    expect_counts("without the list", mesh, VERTICES, TRIANGLES);
    expect("the same reads", reads, mesh.reads);
    expect("the same vertices", (uint64_t)memcmp(found.vertices, wanted.vertices, 4 * FLOATS), 0);
    expect("the same triangles", (uint64_t)memcmp(found.triangles, wanted.triangles, 4 * CORNERS), 0);
    expect("the same store", (uint64_t)memcmp(found.store, wanted.store, 4 * SIRVESHAN_STORE_LENGTH(N)), 0);
    release(wanted);
}

static void told(void)
{
    static const int points[VERTICES][2] = {{0, 0}, {0, 1}, {1, 1}, {1, 0}, {0, 1}, {0, 2}, {1, 2}, {1, 0}, {2, 1}, {2, 0}, {2, 2}};
    lists lent = marked();
    sirveshan_extracted mesh = whole(lent, SIRVESHAN_STORE_LENGTH(N), FLOATS, VERTICES + MORE);
    sirveshan_welded welded;
    size_t k;
    expect_counts("with the list", mesh, VERTICES, TRIANGLES);
    for (k = 0; k < VERTICES; k++)
        expect("a grid edge", lent.edges[k], edge_at(points[k][0], points[k][1]));
    expect("beyond the edges", altered(lent.edges, VERTICES, VERTICES + MORE), 0);
    expect_alike(lent, mesh.reads);
    welded = sirveshan_weld(VERTICES, TRIANGLES, lent.vertices, FLOATS, lent.triangles, CORNERS, lent.edges, VERTICES);
    expect_refusal("welded", welded.refused, 0, 0, 0, 0);
    expect("one vertex an edge", welded.vertices, 9);
    expect("all triangles", welded.triangles, TRIANGLES);
    release(lent);
}

static void expect_refused(const char *what, size_t store, size_t floats, size_t edges, size_t number, size_t first, size_t second)
{
    lists lent = marked();
    sirveshan_extracted found = whole(lent, store, floats, edges);
    expect_refusal(what, found.refused, number, first, second, 0);
    expect(what, found.vertices + found.triangles + found.reads, 0);
    expect(what, altered(lent.store, 0, SIRVESHAN_STORE_LENGTH(N)), 0);
    expect(what, altered(lent.vertices, 0, FLOATS), 0);
    expect(what, altered(lent.triangles, 0, CORNERS), 0);
    expect(what, altered(lent.edges, 0, VERTICES + MORE), 0);
    release(lent);
}

static void refused(void)
{
    size_t store = SIRVESHAN_STORE_LENGTH(N);
    expect_refused("9 before 23", store - 1, 0, 0, 9, store, 0);
    expect_refused("23 before 10", store, 0, VERTICES - 1, 23, VERTICES, 0);
    expect_refused("10 after 23", store, 6 * VERTICES - 1, VERTICES, 10, VERTICES, TRIANGLES);
}

/* The vertices of transition cells come last and are marked. */
static void marks(void)
{
    enum { MOST = SIRVESHAN_MOST_VERTICES(N, SIRVESHAN_LOW_X), PLACES = 3 * SIRVESHAN_MOST_TRIANGLES(N, SIRVESHAN_LOW_X) };
    sirveshan_header h = level;
    float *vertices = room(6 * MOST);
    uint32_t *store = room(SIRVESHAN_STORE_LENGTH(N)), *triangles = room(PLACES), *edges = room(MOST);
    sirveshan_extracted mesh;
    size_t k, none = 0;
    h.mask = SIRVESHAN_LOW_X;
    mesh = sirveshan_extract_whole(h, samples, SIRVESHAN_CENTRE_LENGTH(N), samples + SIRVESHAN_CENTRE_LENGTH(N),
                                   SIRVESHAN_NEIGHBOURS_LENGTH(N, h.mask), store, SIRVESHAN_STORE_LENGTH(N), vertices, 6 * MOST,
                                   triangles, PLACES, edges, MOST);
    expect_refusal("a finer side", mesh.refused, 0, 0, 0, 0);
    for (k = 0; k < VERTICES; k++)
        none += edges[k] == SIRVESHAN_NO_EDGE;
    expect("none of the regular cells'", none, 0);
    for (; k < mesh.vertices; k++)
        none += edges[k] == SIRVESHAN_NO_EDGE;
    expect("all of the transition cells'", none, mesh.vertices - VERTICES);
    expect("there are some", none > 0, 1);
    expect("beyond the edges", altered(edges, mesh.vertices, MOST), 0);
    free(vertices), free(store), free(triangles), free(edges);
}

int main(void)
{
    fill(samples, N, SIRVESHAN_LOW_X, height);
    told();
    refused();
    marks();
    return counted();
}
