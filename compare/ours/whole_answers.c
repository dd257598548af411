/* Our extraction with the further list, and with a summary by layer, as a program that answers, so that compare/whole.py and
   compare/layered.py can hold it to the reference.

   A call on standard input is a run of little-endian words: n, mask, then threshold, base x y z and size as f32 bits; the
   lengths of centre, neighbours, store, vertices, triangles and edges, and one more than the summary's length, or 0 for none;
   the samples' bits, and the summary's. The answer on standard output: the refusal's four numbers, the two counts and the
   sample reads, of eight bytes each, then all of the four lent buffers, which every call finds filled with MARK. */

#define PROGRAM "whole_answers"
#include "answering.h"

int main(void)
{
    uint32_t head[14];
    while (fread(head, 4, 14, stdin) == 14) {
        size_t centres = head[7], fines = head[8], places = head[9], floats = head[10], corners = head[11], numbers = head[12];
        size_t told = head[13] ? head[13] - 1 : 0;
        float *centre = given(4 * centres), *neighbours = given(4 * fines), *summary = given(4 * told), *vertices = marked(4 * floats);
        uint32_t *store = marked(4 * places), *triangles = marked(4 * corners), *edges = marked(4 * numbers);
        sirveshan_header header = header_of(head);
        sirveshan_extracted got =
            head[13] ? sirveshan_extract_layered(header, centre, centres, neighbours, fines, summary, told, store, places, vertices,
                                                 floats, triangles, corners, edges, numbers)
                     : sirveshan_extract_whole(header, centre, centres, neighbours, fines, store, places, vertices, floats, triangles,
                                               corners, edges, numbers);
        uint64_t answer[7] = {got.refused.number, got.refused.first, got.refused.second, got.refused.third,
                              got.vertices,       got.triangles,     got.reads};
        put(answer, sizeof answer);
        put(store, 4 * places);
        put(vertices, 4 * floats);
        put(triangles, 4 * corners);
        put_last(edges, 4 * numbers);
        free(centre), free(neighbours), free(summary), free(store), free(vertices), free(triangles), free(edges);
    }
    return 0;
}
