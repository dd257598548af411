/*
 * How much stack the calls take: each runs on a thread whose stack was painted, and the lowest byte that lost its paint tells.
 * Prints the most, and fails when it is more than the header says.
 */
#define _POSIX_C_SOURCE 200809L
#include <pthread.h>
#include <stdio.h>
#include <stdlib.h>
#include <string.h>

#include "field.h"

enum { STACK = 1 << 20, PAINT = 0xc7, MOST = SIRVESHAN_MOST_SUBDIVISIONS, SAMPLES = SIRVESHAN_SAMPLES_LENGTH(MOST, 63) };

static float samples[SAMPLES], vertices[6 * SIRVESHAN_MOST_VERTICES(MOST, 63)], positions[9 * SIRVESHAN_MOST_TRIANGLES(MOST, 63)];
static uint32_t store[SIRVESHAN_STORE_LENGTH(MOST)], triangles[3 * SIRVESHAN_MOST_TRIANGLES(MOST, 63)];
static uint32_t words[SAMPLES], changes[4 * SAMPLES];
static uint32_t edges[SIRVESHAN_MOST_VERTICES(MOST, 63)], held;
static uint8_t bytes[SIRVESHAN_RECORD_LENGTH(MOST, 63)], file[SIRVESHAN_STL_LENGTH(SIRVESHAN_MOST_TRIANGLES(MOST, 63))];
static size_t subdivisions;
static uint8_t mask;
static uint8_t *painted;
static size_t used;

/* Inside and outside mixed, so that every kind of cell is met. */
static float mixed(const int *point)
{
    unsigned bits = (unsigned)(point[0] * 7 + point[1] * 13 + point[2] * 29 + 1000);
    return (float)(bits * bits / 3 % 2);
}

/* What has lost its paint below this place. */
static void look(const volatile uint8_t *here)
{
    size_t k;
    for (k = 0; painted[k] == PAINT; k++)
        ;
    used = (size_t)(here - (painted + k));
}

/* All calls but the weld. */
static void *calls(void *unused)
{
    sirveshan_header h = {1, 2, 3, 4, 0, 0, 0.5f};
    size_t centre = SIRVESHAN_CENTRE_LENGTH(subdivisions), rest = SIRVESHAN_NEIGHBOURS_LENGTH(subdivisions, mask);
    sirveshan_written written;
    sirveshan_triangles_read read;
    sirveshan_mended mended;
    sirveshan_point sizes = {40, 40, 40}, first = {39, 0, 20};
    sirveshan_samples_cut cut;
    volatile uint8_t here = 0;
    sirveshan_extracted meshed;
    h.subdivisions = subdivisions;
    h.mask = mask;
    meshed = sirveshan_extract(h, samples, centre, samples + centre, rest, store, sizeof store / 4, vertices, sizeof vertices / 4,
                               triangles, sizeof triangles / 4);
    if (meshed.refused.number != 0 || meshed.triangles == 0)
        abort();
    meshed = sirveshan_extract_whole(h, samples, centre, samples + centre, rest, store, sizeof store / 4, vertices,
                                     sizeof vertices / 4, triangles, sizeof triangles / 4, edges, sizeof edges / 4);
    if (meshed.refused.number != 0)
        abort();
    written = sirveshan_write_stl(vertices, 6 * meshed.vertices, triangles, 3 * meshed.triangles, file, sizeof file);
    read = sirveshan_read_stl(file, written.length, positions, sizeof positions / 4);
    if (written.refused.number != 0 || read.refused.number != 0 || read.triangles != meshed.triangles)
        abort();
    written = sirveshan_write(h, samples, centre, samples + centre, rest, bytes, sizeof bytes);
    if (written.refused.number != 0 || sirveshan_read(bytes, written.length, samples, SAMPLES).refused.number != 0)
        abort();
    memset(words, 0xff, sizeof words);
    mended = sirveshan_repair(h, words, centre, words + centre, rest, 0, changes, sizeof changes / 4);
    if (mended.refused.number != 0 || mended.changes != centre + rest)
        abort();
    if (sirveshan_subdivisions(bytes, written.length) != subdivisions || sirveshan_blank(bytes, written.length) > 1)
        abort();
    if (sirveshan_sample(bytes, written.length, 0, 0, 0) > UINT32_MAX)
        abort();
    cut = sirveshan_cut((const uint8_t *)samples, SIRVESHAN_VOLUME_LENGTH(40, 40, 40), sizes, subdivisions, first, positions,
                        sizeof positions / 4);
    if (cut.refused.number != 0)
        abort();
    if (sirveshan_sheet_line(bytes, written.length, 0).figures.vertices != meshed.vertices ||
        sirveshan_sheet_total(bytes, written.length).figures.triangles != meshed.triangles)
        abort();
    if (sirveshan_make_summary(subdivisions, samples, centre, positions, sizeof positions / 4).number != 0 ||
        sirveshan_set_sample(subdivisions, samples, centre, 0, 0, 0, samples[0], positions, sizeof positions / 4).number != 0)
        abort();
    meshed = sirveshan_extract_layered(h, samples, centre, samples + centre, rest, positions, sizeof positions / 4, store,
                                       sizeof store / 4, vertices, sizeof vertices / 4, triangles, sizeof triangles / 4, edges,
                                       sizeof edges / 4);
    if (meshed.refused.number != 0)
        abort();
    look(&here);
    (void)unused;
    return NULL;
}

/* The weld of so many vertices, each on an edge that another has. */
static void *weld(void *unused)
{
    volatile uint8_t here = 0;
    uint32_t k;
    for (k = 0; k < held; k++)
        edges[k] = k / 2;
    if (sirveshan_weld(held, 0, vertices, sizeof vertices / 4, triangles, 0, edges, sizeof edges / 4).refused.number != 0)
        abort();
    look(&here);
    (void)unused;
    return NULL;
}

/* The stack that what is run takes. */
static size_t measured(void *run(void *))
{
    pthread_attr_t attributes;
    pthread_t thread;
    memset(painted, PAINT, STACK);
    if (pthread_attr_init(&attributes) || pthread_attr_setstack(&attributes, painted, STACK) ||
        pthread_create(&thread, &attributes, run, NULL) || pthread_join(thread, NULL))
        abort();
    return used;
}

/* The most that the calls take, over blocks of several sizes. */
static size_t most_of_calls(void)
{
    static const size_t sizes[6] = {1, 6, 11, 16, 33, MOST};
    static const uint8_t masks[3] = {0, 1, 63};
    size_t n, k, most = 0;
    for (n = 0; n < 6; n++)
        for (k = 0; k < 3; k++) {
            size_t now;
            subdivisions = sizes[n];
            mask = masks[k];
            fill(samples, subdivisions, mask, mixed);
            now = measured(calls);
            most = now > most ? now : most;
        }
    return most;
}

/* The most that the weld takes, of few vertices and of as many as a block can have. */
static size_t most_of_weld(void)
{
    static const uint32_t counts[6] = {1, 2048, 2049, 16384, 16385, SIRVESHAN_MOST_VERTICES(MOST, 63)};
    size_t k, most = 0;
    for (k = 0; k < 6; k++) {
        size_t now;
        held = counts[k];
        now = measured(weld);
        most = now > most ? now : most;
    }
    return most;
}

static int too_much(const char *what, size_t most, size_t told)
{
    printf("%s: %zu bytes of stack at most, the header says %zu; ", what, most, told);
    return most > told || most < 1024;
}

int main(void)
{
    int wrong;
    void *stack;
    if (posix_memalign(&stack, 4096, STACK))
        abort();
    painted = stack;
    wrong = too_much("all calls but the weld", most_of_calls(), SIRVESHAN_STACK);
    wrong += too_much("the weld", most_of_weld(), SIRVESHAN_WELD_STACK);
    puts(wrong ? "too much" : "enough");
    return wrong;
}
