/*
 * mesh_record FILE: reads a block record from a file, meshes it and prints how many vertices and triangles the mesh has. Each
 * buffer is asked for at the size that it needs: the record tells the samples', n the store's, and refusal 10 the mesh's.
 */
#include <stdio.h>
#include <stdlib.h>

#include "sirveshan.h"

/* The bytes of a file, and how many; NULL where it cannot be read. */
static uint8_t *read_file(const char *name, size_t *length)
{
    FILE *file = fopen(name, "rb");
    uint8_t *bytes = NULL;
    size_t room = 0;
    *length = 0;
    while (file != NULL && *length == room) {
        uint8_t *more = realloc(bytes, room + 65536);
        if (more == NULL)
            break;
        bytes = more;
        room += 65536;
        *length += fread(bytes + *length, 1, room - *length, file);
    }
    if (file == NULL || *length == room || ferror(file)) {
        free(bytes);
        bytes = NULL;
    }
    if (file != NULL)
        fclose(file);
    return bytes;
}

static int no_memory(void)
{
    fprintf(stderr, "no memory\n");
    return 3;
}

static int refused(sirveshan_refusal r)
{
    fprintf(stderr, "refused %zu %zu %zu %zu\n", r.number, r.first, r.second, r.third);
    return 1;
}

/* A block that was read. */
struct block {
    sirveshan_header header;
    const float *centre, *neighbours;
    size_t centre_length, neighbours_length;
    uint32_t *store;
    size_t places;
};

static sirveshan_extracted extract(struct block b, float *vertices, size_t floats, uint32_t *triangles, size_t indices)
{
    return sirveshan_extract(b.header, b.centre, b.centre_length, b.neighbours, b.neighbours_length, b.store, b.places, vertices,
                             floats, triangles, indices);
}

/* Asks for the counts, which 10 tells (a mesh with no vertex needs no room), and then for the mesh. */
static int mesh(struct block b)
{
    sirveshan_extracted meshed = extract(b, NULL, 0, NULL, 0);
    if (meshed.refused.number == 10) {
        size_t floats = 6 * meshed.refused.first, indices = 3 * meshed.refused.second;
        float *vertices = malloc(floats * sizeof *vertices);
        uint32_t *triangles = malloc(indices * sizeof *triangles);
        if (vertices == NULL || triangles == NULL)
            return no_memory();
        meshed = extract(b, vertices, floats, triangles, indices);
        free(vertices);
        free(triangles);
    }
    if (meshed.refused.number != 0)
        return refused(meshed.refused);
    printf("%zu vertices, %zu triangles\n", meshed.vertices, meshed.triangles);
    return 0;
}

/* Reads the record and meshes its block. */
static int mesh_record(const uint8_t *bytes, size_t length)
{
    size_t room = length / 4, n;
    float *samples = malloc(room * sizeof *samples + 1);
    sirveshan_read_answer read;
    struct block b;
    int status;
    if (samples == NULL)
        return no_memory();
    read = sirveshan_read(bytes, length, samples, room);
    if (read.refused.number != 0) {
        free(samples);
        return refused(read.refused);
    }
    n = read.header.subdivisions;
    b.header = read.header;
    b.centre = samples;
    b.centre_length = SIRVESHAN_CENTRE_LENGTH(n);
    b.neighbours = samples + b.centre_length;
    b.neighbours_length = SIRVESHAN_NEIGHBOURS_LENGTH(n, read.header.mask);
    b.places = SIRVESHAN_STORE_LENGTH(n);
    b.store = malloc(b.places * sizeof *b.store);
    status = b.store == NULL ? no_memory() : mesh(b);
    free(b.store);
    free(samples);
    return status;
}

int main(int count, char **words)
{
    size_t length;
    uint8_t *bytes;
    int status;
    if (count != 2) {
        fprintf(stderr, "usage: mesh_record FILE\n");
        return 2;
    }
    bytes = read_file(words[1], &length);
    if (bytes == NULL) {
        fprintf(stderr, "%s cannot be read\n", words[1]);
        return 2;
    }
    status = mesh_record(bytes, length);
    free(bytes);
    return status;
}
