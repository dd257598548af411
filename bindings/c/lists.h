/* The four lists that extraction with the vertices' grid edges is lent. */
#ifndef LISTS_H
#define LISTS_H

#include "lent.h"

typedef struct lists {
    float *vertices;
    uint32_t *store, *triangles, *edges;
} lists;

static lists rooms(size_t floats, size_t store, size_t corners, size_t edges)
{
    lists made = {room(floats), room(store), room(corners), room(edges)};
    return made;
}

static void release(lists used)
{
    free(used.vertices);
    free(used.store);
    free(used.triangles);
    free(used.edges);
}

#endif
