/* What the programs that answer calls share: room, what a call brings, and what goes back. A lent buffer is found filled with
   MARK. A program names itself first: PROGRAM. */

#include <stdint.h>
#include <stdio.h>
#include <stdlib.h>
#include <string.h>

#include "sirveshan.h"

/* As an f32 a signalling NaN, which no arithmetic leaves as it is. */
#define MARK 0x7fa5a5a5u

static inline void fail(const char *what)
{
    fprintf(stderr, PROGRAM ": %s\n", what);
    exit(1);
}

static inline void *room(size_t bytes)
{
    void *made = malloc(bytes + 4);
    if (!made)
        fail("no memory");
    return made;
}

static inline void *given(size_t bytes)
{
    void *made = room(bytes);
    if (fread(made, 1, bytes, stdin) != bytes)
        fail("a call is cut short");
    return made;
}

static inline void *marked(size_t bytes)
{
    uint32_t mark = MARK;
    char *made = room(bytes);
    for (size_t k = 0; k < bytes; k++)
        made[k] = ((char *)&mark)[k % 4];
    return made;
}

static inline float number(uint32_t bits)
{
    float made;
    memcpy(&made, &bits, 4);
    return made;
}

/* From the words n, mask, threshold, base x y z and size, floats by their bits. */
static inline sirveshan_header header_of(const uint32_t *head)
{
    sirveshan_header made = {number(head[3]), number(head[4]), number(head[5]), number(head[6]),
                             head[0], (uint8_t)head[1], number(head[2])};
    return made;
}

static inline void put(const void *buffer, size_t bytes)
{
    if (fwrite(buffer, 1, bytes, stdout) != bytes)
        fail("cannot write");
}

/* A refusal's four numbers and a figure, of eight bytes each. */
static inline void put_numbers(sirveshan_refusal refused, size_t figure)
{
    uint64_t numbers[5] = {refused.number, refused.first, refused.second, refused.third, figure};
    put(numbers, sizeof numbers);
}

static inline void put_last(const void *buffer, size_t bytes)
{
    put(buffer, bytes);
    if (fflush(stdout))
        fail("cannot write");
}

/* What reading a record and meshing it tells: the number of the refusal, 0 for none, and the mesh's counts. */
struct told {
    uint64_t refused, vertices, triangles;
};

/* Asked with no room: 10 tells the counts, and a mesh of nothing needs none. */
static inline struct told mesh_told(const uint8_t *record, size_t length)
{
    struct told told = {0, 0, 0};
    float *samples = room(length);
    sirveshan_read_answer read = sirveshan_read(record, length, samples, length / 4);
    sirveshan_header h = read.header;
    told.refused = read.refused.number;
    if (!told.refused) {
        size_t own = SIRVESHAN_CENTRE_LENGTH(h.subdivisions), places = SIRVESHAN_STORE_LENGTH(h.subdivisions);
        uint32_t *store = room(4 * places);
        sirveshan_extracted made = sirveshan_extract(h, samples, own, samples + own, SIRVESHAN_NEIGHBOURS_LENGTH(h.subdivisions, h.mask),
                                                     store, places, NULL, 0, NULL, 0);
        if (made.refused.number == 10) {
            told.vertices = made.refused.first;
            told.triangles = made.refused.second;
        } else {
            told.refused = made.refused.number;
        }
        free(store);
    }
    free(samples);
    return told;
}
