/*
 * Sirveshan's calls from C: link libsirveshan.a (x86-64; `rt lib` in crates/sirveshan writes it to crates/sirveshan/out, for
 * processors of x86-64-v2 on, with --cpu x86-64 for all). What each call answers and leaves is proved; this page says it in words.
 *
 * A mesh is the surface between the inside and the outside of a sampled block. A sample is inside when it is at or above the
 * threshold (>=), so -0 is inside for the threshold 0.
 *
 *
 * SAMPLES
 *
 * A block with n subdivisions has n cells along each axis, so m = n + 1 grid points, 0 to n. Its samples stand in one list:
 * first the m*m*m points of the block, x slowest and z fastest, point (x, y, z) at
 *
 *     m*m*x + m*y + z
 *
 * then six faces of m*m points each, one step outside the block, which only gradients look at. In order: x = -1, x = n+1,
 * y = -1, y = n+1, z = -1, z = n+1; a face's points at m*i + j, with i and j the two other coordinates in the order of the
 * axes. In all m*m*m + 6*m*m. A point with two coordinates outside is never sampled. With n = 1, m = 2:
 *
 *     z                                 place  0     (0,0,0)          place  8 .. 11   x = -1: (-1,0,0) (-1,0,1) (-1,1,0) (-1,1,1)
 *     |    3--------7                          1     (0,0,1)                12 .. 15   x =  2
 *     |   /|       /|                          2     (0,1,0)                16 .. 19   y = -1: (0,-1,0) (0,-1,1) (1,-1,0) (1,-1,1)
 *     |  1--------5 |                          3     (0,1,1)                20 .. 23   y =  2
 *     |  | |      | |                          4     (1,0,0)                24 .. 27   z = -1: (0,0,-1) (0,1,-1) (1,0,-1) (1,1,-1)
 *     |  | 2------|-6   y                      5     (1,0,1)                28 .. 31   z =  2
 *     |  |/       |/   /                       6     (1,1,0)
 *     |  0--------4   /                        7     (1,1,1)
 *     +-------------------- x
 *
 * The mask names the sides at which a neighbour is finer, one bit each: 1 low x, 2 high x, 4 low y, 8 high y, 16 low z, 32 high
 * z; sides are numbered 0 to 5 in that order. Such a neighbour has 2n subdivisions and its own samples in the order above. The
 * neighbours' samples are lent one block after another, in side order, for the named sides alone. On a named face each of the
 * centre's points and the neighbour's point at the same place must lie on the same side of the threshold (refusal 8).
 *
 *
 * THE MESH
 *
 * A vertex is six floats: position x, y, z, then gradient x, y, z. A triangle is three indices of vertices. Seen from outside
 * a triangle's corners run counter-clockwise: (second - first) x (third - first) points outward, to where samples are below
 * the threshold. A gradient is, along each axis, the sample one step up less the sample one step down: it points to where
 * samples grow, so on a smooth face inward, against the triangle's own normal. It is not divided by the step (which on a finer
 * side is the neighbour's for the points that the block itself lacks) and not of unit length: as a normal for light take its
 * opposite, scaled to length 1.
 *
 *
 * WHAT THE CALLER OWES
 *
 * - Each pointer goes with the number of elements that it points to. NULL is allowed where that number is 0.
 * - float and uint32_t buffers are aligned as C aligns these types; bytes need no alignment.
 * - A buffer that is written overlaps with no other buffer of the call, and no one else touches the buffers meanwhile.
 * - The stack has room: at most SIRVESHAN_STACK bytes for any call but the weld, and SIRVESHAN_WELD_STACK for that.
 *
 * Nothing is allocated, kept or locked, and there is no state: calls may run on several threads at once, each with its own
 * buffers that are written. What is lent as const may be shared.
 *
 *
 * REFUSALS
 *
 * What cannot be used is refused by number, with three numbers that say more, 0 where unused; then no lent place is altered.
 * No input makes a call stop the program. On the left when, on the right what the three numbers are:
 *
 * [refusals: written by tools/refusals.py from docs/refusals.tsv]
 *    1  subdivisions n not 1 to 64                          n
 *    2  mask above 63                                       mask
 *    3  base, size or threshold out of range                0 to 2 base x y z, 3 size, 4 threshold
 *    4  centre length wrong                                 length wanted
 *    5  a neighbour is missing                              first side not wholly there
 *    6  neighbour list too long                             length wanted
 *    7  a sample not finite or beyond 1,048,576             its place: neighbours counted on after the centre, in cutting the volume's
 *    8  a face disagrees with its neighbour                 side; u; v
 *    9  index store too short                               places wanted
 *   10  vertices or triangles do not fit                    vertices wanted; triangles wanted
 *   11  record under 27 bytes or cut, its length field wrong, or a run above 1,073,741,824 bytes
 *   12  record version not 1                                the byte
 *   13  record's samples not the count wanted               samples wanted
 *   14  a lent buffer too short                             places wanted
 *   15  grid point never sampled                            coordinates outside, 1 to 3
 *   16  STL length not its count's, or too many triangles   length wanted, 0 in writing
 *   17  a triangle names no vertex                          triangle
 *   18  a filler that 7 would refuse
 *   19  list of changes too short                           entries wanted
 *   20  volume size 0 or above 1,024
 *   21  volume length not four times its sizes' product
 *   22  first point not in the volume
 *   23  edge list too short                                 places wanted
 *   26  unmarked layer differs in value from a fresh one    layer
 * [end of refusals]
 *
 * The u and v of 8 run 0 to n over the face's grid points. The point is, by side: 0 (0, v, n-u), 1 (n, v, u), 2 (u, 0, n-v),
 * 3 (u, n, v), 4 (u, v, 0), 5 (n-u, v, n).
 *
 *
 * THE RECORD
 *
 * All big-endian; floats as their IEEE 754 bits.
 *
 *     byte  0   4   the length of what follows these four bytes
 *           4   1   version, 1
 *           5   1   subdivisions n
 *           6   1   mask
 *           7   4   threshold
 *          11  12   base x, y, z
 *          23   4   size
 *          27  4k   the k samples: the centre's, then those of the neighbours
 *
 *
 * THE STL FILE
 *
 * A mesh's triangles for design packages. All little-endian; floats as their IEEE 754 bits.
 *
 *     byte  0  80   header: written as zeros, and not looked at
 *          80   4   the count of triangles
 *          84  50   the first triangle, and so on:
 *                     0  12   its normal: written as zeros, and not looked at
 *                    12  36   its three corners, x y z each
 *                    48   2   its attribute: written as zeros, and not looked at
 *
 *
 * THE RAW VOLUME
 *
 * One flat list of floats as their IEEE 754 bits, little-endian, x fastest, with nothing before or after them. Its three sizes, 1
 * to 1,024 each, are told beside it. The sample of its point (x, y, z) is number
 *
 *     x + size x * (y + size y * z)
 *
 *
 * DOUBLED VERTICES
 *
 * At the low faces of a block several cells make a vertex on the same grid edge, bit for bit the same. Extraction tells the grid
 * edge of each vertex in a further list (sirveshan_extract_whole), and the weld (sirveshan_weld) keeps of the vertices with one
 * edge only the first. An edge's number is 3 times the place of its lower end, SIRVESHAN_PLACE, plus 0, 1, 2 for x, y, z.
 * SIRVESHAN_NO_EDGE marks the vertex of a transition cell, which is given no number and is always kept, also on an edge that has a
 * regular vertex: by index the mesh stays open along a finer face.
 */
#ifndef SIRVESHAN_H
#define SIRVESHAN_H

#include <stddef.h>
#include <stdint.h>

#ifdef __cplusplus
extern "C" {
#endif

/* The most subdivisions, and the bits of the mask. */
#define SIRVESHAN_MOST_SUBDIVISIONS 64
#define SIRVESHAN_LOW_X 1
#define SIRVESHAN_HIGH_X 2
#define SIRVESHAN_LOW_Y 4
#define SIRVESHAN_HIGH_Y 8
#define SIRVESHAN_LOW_Z 16
#define SIRVESHAN_HIGH_Z 32

/*
 * Bytes of stack that are enough for any call but the weld, at n = 64 as at n = 1: 59,984 bytes were measured (bindings/c/stack.c;
 * the sheet takes the most), and this is rounded up. The weld keeps its tables there: 458,999 bytes were measured, for few vertices
 * as for many.
 */
#define SIRVESHAN_STACK 65536
#define SIRVESHAN_WELD_STACK 491520

/*
 * Lengths and places by n, 1 to 64, and mask, 0 to 63. Each is a constant expression of type size_t for constant arguments; an
 * argument may be evaluated more than once.
 */
#define SIRVESHAN_POINTS(n) ((size_t)(n) + 1)
#define SIRVESHAN_SIDES(mask)                                                                                                    \
    ((size_t)((((mask) >> 0) & 1) + (((mask) >> 1) & 1) + (((mask) >> 2) & 1) + (((mask) >> 3) & 1) + (((mask) >> 4) & 1) +      \
              (((mask) >> 5) & 1)))

/* Samples of the block itself, of all its finer neighbours, and of both together. */
#define SIRVESHAN_CENTRE_LENGTH(n) (SIRVESHAN_POINTS(n) * SIRVESHAN_POINTS(n) * (SIRVESHAN_POINTS(n) + 6))
#define SIRVESHAN_NEIGHBOURS_LENGTH(n, mask) (SIRVESHAN_SIDES(mask) * SIRVESHAN_CENTRE_LENGTH(2 * (size_t)(n)))
#define SIRVESHAN_SAMPLES_LENGTH(n, mask) (SIRVESHAN_CENTRE_LENGTH(n) + SIRVESHAN_NEIGHBOURS_LENGTH(n, mask))

/* Bytes of a record. */
#define SIRVESHAN_RECORD_LENGTH(n, mask) ((size_t)27 + 4 * SIRVESHAN_SAMPLES_LENGTH(n, mask))

/* Bytes of an STL file. */
#define SIRVESHAN_STL_LENGTH(triangles) ((size_t)84 + 50 * (size_t)(triangles))

/* The largest size of a raw volume, and its bytes by its sizes. */
#define SIRVESHAN_MOST_ACROSS 1024
#define SIRVESHAN_VOLUME_LENGTH(x, y, z) (4 * (size_t)(x) * (size_t)(y) * (size_t)(z))

/* Floats of a summary by layer. */
#define SIRVESHAN_SUMMARY_LENGTH(n) (2 * (size_t)(n))

/* Places of the index store: 4 n^3 + 60 n^2. */
#define SIRVESHAN_STORE_LENGTH(n) ((size_t)(n) * (size_t)(n) * (4 * (size_t)(n) + 60))

/* The place of the block's point x, y, z, each 0 to n; and of point i, j on one of the six faces outside, 0 to 5. */
#define SIRVESHAN_PLACE(n, x, y, z) (((size_t)(x) * SIRVESHAN_POINTS(n) + (size_t)(y)) * SIRVESHAN_POINTS(n) + (size_t)(z))
#define SIRVESHAN_FACE_PLACE(n, face, i, j) SIRVESHAN_PLACE(n, SIRVESHAN_POINTS(n) + (size_t)(face), i, j)

/*
 * Room that is enough for the mesh of any block with n and mask: vertices (six floats each) and triangles (three indices each).
 * Proved (crates/promises/specs/Enough.antt): 3n (n^2 + 4n - 1) vertices and 5n^3 triangles, and for each named side 4n (2n + 1)
 * and 12n^2 more. At n = 16 that is 15,312 and 20,480 with no finer neighbour, 27,984 and 38,912 with six; at n = 64 835,392 and
 * 1,310,720 with none, 1,033,536 and 1,605,632 with six.
 */
#define SIRVESHAN_MOST_VERTICES(n, mask)                                                                                         \
    (3 * (size_t)(n) * ((size_t)(n) * ((size_t)(n) + 4) - 1) + SIRVESHAN_SIDES(mask) * 4 * (size_t)(n) * (2 * (size_t)(n) + 1))
#define SIRVESHAN_MOST_TRIANGLES(n, mask) ((size_t)(n) * (size_t)(n) * (5 * (size_t)(n) + 12 * SIRVESHAN_SIDES(mask)))

/*
 * As many sample reads as extraction reports at most. Proved (crates/promises/specs/Reads.antt): 50n^3 + 168n^2 - 42n, and for each
 * named side 121n^2 + 56n more. A block whose samples alternate has that many. At n = 16 that is 247,136 with no finer neighbour,
 * 438,368 with six; at n = 64 13,792,640 and 16,787,840.
 */
#define SIRVESHAN_MOST_READS(n, mask)                                                                                            \
    ((size_t)(n) * (size_t)(n) * (8 * (size_t)(n) + 9 * SIRVESHAN_SIDES(mask)) + 14 * SIRVESHAN_MOST_VERTICES(n, mask))

/* What stands in the place of an edge's number for the vertex of a transition cell, which is given none. */
#define SIRVESHAN_NO_EDGE UINT32_C(4294967295)

/* A block, which of its neighbours are finer, and where inside begins. */
typedef struct sirveshan_header {
    float x, y, z;       /* its lowest point, the base: each finite and at most 1,048,576 in size */
    float size;          /* the length of its side: 1/1024 to 1,048,576 */
    size_t subdivisions; /* n, 1 to 64 */
    uint8_t mask;        /* the sides with a finer neighbour, 0 to 63 */
    float threshold;     /* a sample at or above it is inside: finite and at most 1,048,576 in size */
} sirveshan_header;

/* A refusal: its number, 0 for none, and its three numbers. */
typedef struct sirveshan_refusal {
    size_t number, first, second, third;
} sirveshan_refusal;

/*
 * The mesh of a block, for a meshing stage. centre has SIRVESHAN_CENTRE_LENGTH(n) samples, neighbours
 * SIRVESHAN_NEIGHBOURS_LENGTH(n, mask).
 *
 * store is room to work in: there extraction keeps, for each cell, the indices of the vertices that later cells use again. Lend
 * SIRVESHAN_STORE_LENGTH(n) places or more. What they hold before does not matter, what they hold after is of no use to a caller,
 * and the same store may serve block after block.
 *
 * vertices_length counts floats, not vertices, and triangles_length indices: there is room for vertices_length / 6 vertices and
 * triangles_length / 3 triangles, rounded down.
 *
 * On a mesh refused.number is 0: the first 6 * vertices floats and the first 3 * triangles indices are written, and all beyond
 * stays as it was. Judged are 1 to 10, in that order. To have room that just fits, call with both lengths 0 first: 10 tells both
 * counts (and a mesh with no vertex is accepted). On a refusal both counts are 0 and no lent place is altered.
 *
 * reads tells how often a sample was read once every check had passed: eight times for each of the n*n*n regular cells, nine for
 * each of the n*n transition cells of a named side, and fourteen for each vertex, so 8*n*n*n + 9*s*n*n + 14*vertices with s named
 * sides, at most SIRVESHAN_MOST_READS(n, mask). The judges, and the count of what needs room, which read samples before, are not in
 * it. On a refusal it is 0.
 */
typedef struct sirveshan_extracted {
    sirveshan_refusal refused;
    size_t vertices, triangles;
    uint64_t reads;
} sirveshan_extracted;

sirveshan_extracted sirveshan_extract(sirveshan_header header, const float *centre, size_t centre_length,
                                      const float *neighbours, size_t neighbours_length, uint32_t *store, size_t store_length,
                                      float *vertices, size_t vertices_length, uint32_t *triangles, size_t triangles_length);

/*
 * The same, and the number of each vertex's grid edge in edges: on a mesh its first places, one for each vertex, are written, and
 * all beyond stays as it was. On a mesh all else is answered and left as by sirveshan_extract. Judged are 1 to 9, then 23 where
 * edges has fewer places than the mesh has vertices, then 10. On a refusal both counts and the reads are 0 and no lent place is
 * altered. To have room that just fits: with all three lengths 0, 23 tells the vertices; then, with edges that long, 10 tells both
 * counts (and a mesh with no vertex is accepted at once).
 */
sirveshan_extracted sirveshan_extract_whole(sirveshan_header header, const float *centre, size_t centre_length,
                                            const float *neighbours, size_t neighbours_length, uint32_t *store,
                                            size_t store_length, float *vertices, size_t vertices_length, uint32_t *triangles,
                                            size_t triangles_length, uint32_t *edges, size_t edges_length);

/*
 * The same with a summary by layer, as sirveshan_make_summary and sirveshan_set_sample leave it. A layer of cells that is not
 * marked and lies wholly inside (its least sample at or above the threshold) or wholly outside (its greatest below it) is passed
 * over: its cells are not looked at in counting and writing. Unless it is refused by 14 or 26, answer and lists, store included,
 * are the same as without the summary; on a mesh reads are fewer by eight for each cell passed over. With every layer marked it is
 * sirveshan_extract_whole. Judged are 1 to 8, then 14 where summary has fewer floats than SIRVESHAN_SUMMARY_LENGTH(n), then 26 with
 * the first layer that is not marked and differs in value from one made afresh, then 9, 23 and 10. Judging 26 reads all samples of
 * the layers that are not marked.
 */
sirveshan_extracted sirveshan_extract_layered(sirveshan_header header, const float *centre, size_t centre_length,
                                              const float *neighbours, size_t neighbours_length, const float *summary,
                                              size_t summary_length, uint32_t *store, size_t store_length, float *vertices,
                                              size_t vertices_length, uint32_t *triangles, size_t triangles_length,
                                              uint32_t *edges, size_t edges_length);

/*
 * Welds a mesh, in its own lists: of the vertices with one number in edges only the first is kept, the kept close up in their
 * order in vertices and edges, and each corner of the triangles gets the new index of its vertex or of the one kept for it. For
 * any lists, not only extraction's: equal numbers mean one edge, and a vertex with SIRVESHAN_NO_EDGE is always kept. Each corner
 * names the same edge as before; of extraction's mesh it keeps its six floats, bit for bit. A second pass moves nothing.
 *
 * vertex_count vertices and triangle_count triangles are looked at; lengths count floats, indices and numbers. The new counts
 * are answered. All beyond them stays as it was: vertices that moved down are still found at their old places past the new
 * count. Judged are 14 (vertices, then triangles: the places wanted), 23 (edges) and 17, in that order. On a refusal both counts
 * are 0 and no lent place is altered.
 *
 * The counts are of 32 bits: lists of more than 4,294,967,295 vertices or triangles cannot be welded.
 *
 * The time is measured, not proved. Up to 65,536 vertices it is close to linear for lists whose numbers are below 1,048,576 and
 * whose equal numbers lie close together, as extraction's; above, the triangles are gone over once for each 65,536 vertices. For
 * other lists up to about half the square of the vertices' count of numbers are compared.
 */
typedef struct sirveshan_welded {
    sirveshan_refusal refused;
    size_t vertices, triangles;
} sirveshan_welded;

sirveshan_welded sirveshan_weld(uint32_t vertex_count, uint32_t triangle_count, float *vertices, size_t vertices_length,
                                uint32_t *triangles, size_t triangles_length, uint32_t *edges, size_t edges_length);

/*
 * Reads a record: its header is answered, and its samples fill the first places of samples, the centre's first and then those of
 * the neighbours; all beyond stays. Judged are 11, 12, 1, 2, 3, 13, 7, 14, in that order: 14 tells how many samples need room. On
 * a refusal the header is all 0 and no lent place is altered. What was read passes 1 to 7; extraction judges 8 too.
 */
typedef struct sirveshan_read_answer {
    sirveshan_refusal refused;
    sirveshan_header header;
} sirveshan_read_answer;

sirveshan_read_answer sirveshan_read(const uint8_t *src, size_t length, float *samples, size_t samples_length);

/*
 * Writes the record of a block to the first bytes of bytes and answers its length; all beyond stays. Judged are 1 to 7 and 14, in
 * that order: 14 tells how many bytes need room. On a refusal the length is 0 and no lent place is altered. Reading what was
 * written gives the same block, bit for bit, and writing what was read the same bytes.
 */
typedef struct sirveshan_written {
    sirveshan_refusal refused;
    size_t length;
} sirveshan_written;

sirveshan_written sirveshan_write(sirveshan_header header, const float *centre, size_t centre_length, const float *neighbours,
                                  size_t neighbours_length, uint8_t *bytes, size_t bytes_length);

/*
 * Writes a mesh, as extraction leaves it, as an STL file to the first bytes of bytes and answers its length,
 * SIRVESHAN_STL_LENGTH(triangles); all beyond stays. vertices has six floats a vertex, of which the first three are its position;
 * vertices_length counts floats and triangles_length indices. A last part vertex or triangle is not read. A position that is a
 * NaN is written as 0x7fc00000. Judged are 16 (more than 4,294,967,295 triangles), 17 (the first triangle that names no vertex)
 * and 14, in that order: 14 tells how many bytes need room. On a refusal the length is 0 and no lent place is altered.
 */
sirveshan_written sirveshan_write_stl(const float *vertices, size_t vertices_length, const uint32_t *triangles,
                                      size_t triangles_length, uint8_t *bytes, size_t bytes_length);

/*
 * Reads an STL file: its count of triangles is answered, and their corners fill the first places of positions, nine floats a
 * triangle; all beyond stays. Reading what was written gives the same bits, corner by corner; the bits of a NaN are not fixed.
 * Judged are 16 (under 84 bytes, or not as long as its count says) and 14, in that order: 14 tells how many floats need room. On
 * a refusal the count is 0 and no lent place is altered.
 */
typedef struct sirveshan_triangles_read {
    sirveshan_refusal refused;
    size_t triangles;
} sirveshan_triangles_read;

sirveshan_triangles_read sirveshan_read_stl(const uint8_t *src, size_t length, float *positions, size_t positions_length);

/*
 * Repairs a damaged delivery in place. Samples are lent by their bits, since a NaN's bits can be told only so: the lists are those
 * of sirveshan_extract, their floats seen as uint32_t.
 *
 * Each sample that 7 would refuse becomes the filler; then, at each point that 8 would refuse, the neighbour's sample takes the
 * bits of the centre's. changes gets four words a change: its list (0 centre, 1 neighbours), its place there, the bits before and
 * the bits after; all beyond stays. The order is the centre's bad samples by place, the neighbours' by place, then the points by
 * side, u and v. A sample that is filled and then taken from the centre has two entries. Undone from the last to the first they
 * give the delivery back.
 *
 * changes_length counts words: there is room for changes_length / 4 changes, rounded down. Judged are 1 to 6, 18 (a filler that 7
 * would refuse) and 19, in that order: 19 tells how many changes there are. On a refusal the count is 0 and no lent place is
 * altered, the delivery's neither. After a call that is not refused 7 and 8 are not met, and a second call, with any filler that 18
 * lets pass, lists nothing. Where they were not met before, nothing is altered.
 */
typedef struct sirveshan_mended {
    sirveshan_refusal refused;
    size_t changes;
} sirveshan_mended;

sirveshan_mended sirveshan_repair(sirveshan_header header, uint32_t *centre, size_t centre_length, uint32_t *neighbours,
                                  size_t neighbours_length, float filler, uint32_t *changes, size_t changes_length);

/*
 * Cuts a block of n subdivisions out of a raw volume: its point `first` becomes the block's (0, 0, 0), and the block's samples, the
 * six faces outside included, fill the first SIRVESHAN_CENTRE_LENGTH(n) places of samples; all beyond stays. Their number is
 * answered. A point beyond the volume takes the nearest of the volume's samples. Judged are 1, 20, 21, 22, 7 (the volume's number of
 * the first bad sample that is taken, in the order of the block's places) and 14, in that order: 14 tells how many samples need
 * room. On a refusal the number is 0 and no lent place is altered. What was cut passes 4 and 7. Two blocks side by side (first
 * points n apart along an axis) agree on their common face, in the samples and in the gradients. A block passes 8 with finer
 * neighbours cut with 2n from a volume of twice the resolution (at even points the coarse volume's samples), each at twice the
 * first point of the block beyond the side; where it reaches beyond the coarse volume's s samples along an axis, the fine volume
 * must have just 2s - 1 there.
 */
typedef struct sirveshan_point {
    size_t x, y, z;
} sirveshan_point;

typedef struct sirveshan_samples_cut {
    sirveshan_refusal refused;
    size_t samples;
} sirveshan_samples_cut;

sirveshan_samples_cut sirveshan_cut(const uint8_t *src, size_t length, sirveshan_point sizes, size_t n, sirveshan_point first,
                                    float *samples, size_t samples_length);

/*
 * A summary by layer, for a block whose samples change. The layer x of cells, 0 to n-1, lies between the planes x and x + 1; of
 * the samples of both planes the summary has the least and the greatest, two floats a layer, SIRVESHAN_SUMMARY_LENGTH(n) in all.
 * +0 and -0 count as equal, and of equals the first in the list of samples is kept. A NaN in either float marks a layer that is
 * not worked out: write one into each layer that holds a sample which is to change by other means than sirveshan_set_sample (the
 * planes 1 to n-1 are in two layers each).
 *
 * sirveshan_make_summary fills the first places of summary; all beyond stays. Judged are 1, 4, 7 and 14, in that order.
 *
 * sirveshan_set_sample sets the sample of a grid point, each coordinate 0 to n but one of the three, which may be -1 or n+1, and
 * makes each layer that holds the point afresh, marked or not; a point of a face outside is in no layer. All other samples and
 * layers stay. Judged are 1, 4, 7 (samples), 15, 7 (the new value, with its place) and 14, in that order.
 *
 * The answer's number is 0 where nothing is refused; on a refusal no lent place is altered. 14 tells the floats of a summary.
 */
sirveshan_refusal sirveshan_make_summary(size_t n, const float *samples, size_t samples_length, float *summary,
                                         size_t summary_length);

sirveshan_refusal sirveshan_set_sample(size_t n, float *samples, size_t samples_length, int32_t x, int32_t y, int32_t z,
                                       float value, float *summary, size_t summary_length);

/*
 * Four calls for a viewer. Each takes the bytes of one record, judges it whole (11, 12, 1, 2, 3, 13, 7) and writes nowhere. The
 * first three answer one number: what is asked, or a refusal's number plus what makes it no answer: 100 in the first two calls,
 * 2^32 in the third. The fourth answers by value.
 */
#define SIRVESHAN_REFUSED UINT64_C(100)
#define SIRVESHAN_SAMPLE_REFUSED (UINT64_C(1) << 32)

/* The block's subdivisions, 1 to 64. */
uint64_t sirveshan_subdivisions(const uint8_t *src, size_t length);

/*
 * 1 when the block is blank: all (n+1)^3 samples of the block itself, and all (2n+1)^2 of each finer neighbour in the face that it
 * shares with the block, lie on one side of the threshold; 0 when they do not. No other samples count. The mesh of a blank block
 * has no triangle; and a block that sirveshan_extract takes is blank exactly when its mesh has none. Faces that disagree (8) are
 * not judged here.
 */
uint64_t sirveshan_blank(const uint8_t *src, size_t length);

/*
 * The bits of the sample at a grid point of the block. Coordinates are 0 to n; one of the three may be -1 or n+1. Any other point
 * was never sampled: 15, judged after the record.
 */
uint64_t sirveshan_sample(const uint8_t *src, size_t length, int32_t x, int32_t y, int32_t z);

/*
 * The same sample with the store that it came from, by value: kind is the face, 0 to 5 in the order above, for a point one step
 * outside, or SIRVESHAN_IN_BLOCK for a point of the block itself. Judged as by sirveshan_sample; refused.first of 15 is how many
 * coordinates are outside, 1 to 3, however far each is. On a refusal value and kind are 0. A gradient at a point of the block is
 * made of the six points one step away: which of them came from a face is told by asking for each.
 */
#define SIRVESHAN_IN_BLOCK 6

typedef struct sirveshan_sampled {
    sirveshan_refusal refused;
    float value;
    size_t kind;
} sirveshan_sampled;

sirveshan_sampled sirveshan_sample_kind(const uint8_t *src, size_t length, int32_t x, int32_t y, int32_t z);

/*
 * The sheet of a run: records laid end to end by their length fields, SIRVESHAN_MOST_RUN bytes at most. A line a record, and their
 * total. All figures are counted from the samples in the record's bytes: no mesh is made, no buffer lent and nothing written.
 */
#define SIRVESHAN_MOST_RUN ((size_t)1073741824)

typedef struct sirveshan_figures {
    uint64_t inside;                    /* inside samples among the (n+1)^3 of the block itself */
    uint64_t x_edges, y_edges, z_edges; /* crossing grid edges along x, y and z: of its two samples one is inside and the other not */
    uint64_t vertices, triangles;       /* what sirveshan_extract makes of the record's block */
} sirveshan_figures;

/*
 * The line of the record that begins at a place of the run. next is where the next record begins, always above at; 0 where there is no
 * line: then at is the run's end or beyond it (refused.number 0), or the run is longer than SIRVESHAN_MOST_RUN (11). So
 *
 *     for (size_t at = 0; (line = sirveshan_sheet_line(run, length, at)).next; at = line.next)
 *
 * goes through all lines. Judged are 11, 12, 1, 2, 3, 13, 7, 8, in that order. A record that is cut, with fewer than four bytes left or
 * fewer than its length field tells, is refused by 11 and ends the run: it has all bytes that are left. On a refusal the figures are 0.
 */
typedef struct sirveshan_line {
    sirveshan_refusal refused;
    sirveshan_figures figures;
    size_t next;
} sirveshan_line;

sirveshan_line sirveshan_sheet_line(const uint8_t *run, size_t length, size_t at);

/*
 * The figures of all records of a run that are not refused, added up. No figure can leave its 64 bits. A run longer than
 * SIRVESHAN_MOST_RUN is refused by 11; an empty one has figures of 0.
 */
typedef struct sirveshan_total {
    sirveshan_refusal refused;
    sirveshan_figures figures;
} sirveshan_total;

sirveshan_total sirveshan_sheet_total(const uint8_t *run, size_t length);

#ifdef __cplusplus
}
#endif

#endif
