/* Our repair call as a program that answers, so that compare/repair.py can hold it to the reference.

   A call on standard input is a run of little-endian words: n, mask, threshold, base x y z, size and the filler, floats by
   their bits, then the lengths of centre, neighbours and the lent list, then the centre's and the neighbours' bits. The
   answer on standard output: the refusal's four numbers and the count, of eight bytes each, then all of centre, neighbours
   and the lent list, which every call finds filled with MARK. */

#define PROGRAM "repair_answers"
#include "answering.h"

enum { FILLER = 7, CENTRE, NEIGHBOURS, ROOM, HEAD };

static void call(const uint32_t *head)
{
    size_t own = 4 * (size_t)head[CENTRE], rest = 4 * (size_t)head[NEIGHBOURS], lent = 4 * (size_t)head[ROOM];
    uint32_t *centre = given(own), *neighbours = given(rest), *changes = marked(lent);
    sirveshan_mended got = sirveshan_repair(header_of(head), centre, head[CENTRE], neighbours, head[NEIGHBOURS], number(head[FILLER]),
                                            changes, head[ROOM]);
    put_numbers(got.refused, got.changes);
    put(centre, own);
    put(neighbours, rest);
    put_last(changes, lent);
    free(centre), free(neighbours), free(changes);
}

int main(void)
{
    uint32_t head[HEAD];
    while (fread(head, 4, HEAD, stdin) == HEAD)
        call(head);
    return 0;
}
