/* Samples of a field for the checking programs: a block and its finer neighbours, whose faces agree since all read one field. */
#ifndef FIELD_H
#define FIELD_H

#include "sirveshan.h"

/* A field over the points of the fine grid: the block's own points are the even ones. */
typedef float field(const int *point);

/* The coordinates of a place among the samples of a block with m points along an axis. */
static void point_at(size_t m, size_t place, int *point)
{
    size_t face = place < m * m * m ? 6 : (place - m * m * m) / (m * m);
    size_t axis = face / 2, k, next = 0;
    int pair[2];
    pair[0] = (int)(place % (m * m) / m);
    pair[1] = (int)(place % m);
    for (k = 0; k < 3; k++)
        if (k == axis)
            point[k] = face % 2 ? (int)m : -1;
        else if (face == 6 && k == 0)
            point[k] = (int)(place / (m * m));
        else
            point[k] = pair[next++];
}

/* The samples of one block: its points lie step apart on the fine grid, the first at corner. */
static void fill_block(float *samples, size_t m, const int *corner, int step, field *at)
{
    size_t place, k;
    for (place = 0; place < m * m * (m + 6); place++) {
        int point[3];
        point_at(m, place, point);
        for (k = 0; k < 3; k++)
            point[k] = corner[k] + step * point[k];
        samples[place] = at(point);
    }
}

/* The samples of a block with n subdivisions, and after them those of its neighbours at the sides of mask. */
static void fill(float *samples, size_t n, unsigned mask, field *at)
{
    int corner[3] = {0, 0, 0};
    size_t side;
    fill_block(samples, n + 1, corner, 2, at);
    samples += SIRVESHAN_CENTRE_LENGTH(n);
    for (side = 0; side < 6; side++)
        if (mask >> side & 1) {
            corner[side / 2] = side % 2 ? 2 * (int)n : -2 * (int)n;
            fill_block(samples, 2 * n + 1, corner, 1, at);
            corner[side / 2] = 0;
            samples += SIRVESHAN_CENTRE_LENGTH(2 * n);
        }
}

#endif
