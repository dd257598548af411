/* Our weld as a program that answers, so that compare/weld.py can hold it to the reference.

   A call on standard input is a run of little-endian words: the counts of vertices and triangles,
   the lengths of vertices, triangles and edges, then the vertices' bits, the triangles and the
   edges. The answer on standard output: the refusal's four numbers and the two counts, of eight
   bytes each, then all three lists. */

#define PROGRAM "weld_answers"
#include "answering.h"

int main(void)
{
    uint32_t head[5];
    while (fread(head, 4, 5, stdin) == 5) {
        size_t floats = head[2], corners = head[3], numbers = head[4];
        float *vertices = given(4 * floats);
        uint32_t *triangles = given(4 * corners), *edges = given(4 * numbers);
        sirveshan_welded got = sirveshan_weld(head[0], head[1], vertices, floats, triangles, corners, edges, numbers);
        uint64_t answer[6] = {got.refused.number, got.refused.first, got.refused.second, got.refused.third, got.vertices, got.triangles};
        put(answer, sizeof answer);
        put(vertices, 4 * floats);
        put(triangles, 4 * corners);
        put_last(edges, 4 * numbers);
        free(vertices), free(triangles), free(edges);
    }
    return 0;
}
