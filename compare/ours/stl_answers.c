/* Our STL calls as a program that answers, so that compare/stl.py can hold them to the reference.

   A call on standard input is a run of little-endian words: 0 for writing, the lengths of vertices
   and triangles and of the lent buffer in bytes, then the vertices' bits and the triangles; or 1
   for reading, the length of the file, 0, the length of the lent list in f32, then the file's
   bytes. The answer on standard output: the refusal's four numbers and the length or the count, of
   eight bytes each, then all of the lent buffer, which every call finds filled with MARK. */

#define PROGRAM "stl_answers"
#include "answering.h"

static void answer(sirveshan_refusal refused, size_t figure, const void *lent, size_t bytes)
{
    put_numbers(refused, figure);
    put_last(lent, bytes);
}

static void write_call(size_t floats, size_t corners, size_t length)
{
    float *vertices = given(4 * floats);
    uint32_t *triangles = given(4 * corners);
    uint8_t *bytes = marked(length);
    sirveshan_written got = sirveshan_write_stl(vertices, floats, triangles, corners, bytes, length);
    answer(got.refused, got.length, bytes, length);
    free(vertices), free(triangles), free(bytes);
}

static void read_call(size_t length, size_t floats)
{
    uint8_t *file = given(length);
    float *positions = marked(4 * floats);
    sirveshan_triangles_read got = sirveshan_read_stl(file, length, positions, floats);
    answer(got.refused, got.triangles, positions, 4 * floats);
    free(file), free(positions);
}

int main(void)
{
    uint32_t head[4];
    while (fread(head, 4, 4, stdin) == 4)
        if (head[0] == 0)
            write_call(head[1], head[2], head[3]);
        else
            read_call(head[1], head[3]);
    return 0;
}
