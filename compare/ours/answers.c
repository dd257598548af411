/* Our mesher as a program that answers calls, so that the comparisons can run it beside theirs,
   also where the static library's processor is emulated.

   A call on standard input is a run of little-endian words: n, mask, then threshold, base x y z and
   size as f32 bits; the lengths of centre, neighbours, store, vertices and triangles; the samples'
   bits. The answer on standard output: its number, its three numbers (for a mesh 0, both counts,
   the sample reads), then all of the three lent buffers, which every call finds filled with MARK. */

#define PROGRAM "answers"
#include "answering.h"

int main(void)
{
    uint32_t head[12];
    while (fread(head, 4, 12, stdin) == 12) {
        size_t centres = head[7], fines = head[8];
        size_t places = head[9], numbers = head[10], corners = head[11];
        float *centre = given(4 * centres), *neighbours = given(4 * fines), *vertices = marked(4 * numbers);
        uint32_t *store = marked(4 * places), *triangles = marked(4 * corners);
        sirveshan_extracted got =
            sirveshan_extract(header_of(head), centre, centres, neighbours, fines, store, places,
                              vertices, numbers, triangles, corners);
        int mesh = got.refused.number == 0;
        uint32_t answer[4] = {
            (uint32_t)got.refused.number,
            (uint32_t)(mesh ? got.vertices : got.refused.first),
            (uint32_t)(mesh ? got.triangles : got.refused.second),
            (uint32_t)(mesh ? got.reads : got.refused.third),
        };
        if (mesh ? got.refused.first || got.refused.second || got.refused.third
                 : got.vertices || got.triangles || got.reads)
            fail("an answer is both a mesh and a refusal");
        put(answer, sizeof answer);
        put(store, 4 * places);
        put(vertices, 4 * numbers);
        put_last(triangles, 4 * corners);
        free(centre), free(neighbours), free(store), free(vertices), free(triangles);
    }
    return 0;
}
