/* The sheet's two calls as a program that answers, so that compare/sheet.py can hold them to the reference and to our own meshes.

   A call on standard input is a little-endian word, the length of a run of records, and its bytes. The answer on standard output is in numbers
   of eight bytes each: how many lines; for each line its refusal's number and three numbers, its six figures, where the next record begins, and
   the vertices and triangles that extraction tells for the record, 0 where it refuses; then of the total the refusal's number and the six
   figures. */

#define PROGRAM "sheet_answers"
#include "answering.h"

static void put_figures(sirveshan_figures f)
{
    uint64_t figures[6] = {f.inside, f.x_edges, f.y_edges, f.z_edges, f.vertices, f.triangles};
    put(figures, sizeof figures);
}

static void put_line(sirveshan_line line, struct told told)
{
    uint64_t refused[4] = {line.refused.number, line.refused.first, line.refused.second, line.refused.third};
    uint64_t after[3] = {line.next, told.vertices, told.triangles};
    put(refused, sizeof refused);
    put_figures(line.figures);
    put(after, sizeof after);
}

static uint64_t count_lines(const uint8_t *run, size_t length)
{
    uint64_t lines = 0;
    size_t at = 0;
    while ((at = sirveshan_sheet_line(run, length, at).next))
        lines++;
    return lines;
}

static void answer(const uint8_t *run, size_t length)
{
    uint64_t lines = count_lines(run, length);
    put(&lines, sizeof lines);
    for (size_t at = 0; lines > 0; lines--) {
        sirveshan_line line = sirveshan_sheet_line(run, length, at);
        put_line(line, mesh_told(run + at, line.next - at));
        at = line.next;
    }
    sirveshan_total total = sirveshan_sheet_total(run, length);
    uint64_t refused = total.refused.number;
    put(&refused, sizeof refused);
    put_figures(total.figures);
}

int main(void)
{
    uint32_t length;
    while (fread(&length, 4, 1, stdin) == 1) {
        uint8_t *run = given(length);
        answer(run, length);
        put_last("", 0);
        free(run);
    }
    return 0;
}
