/* Our calls for summaries by layer as a program that answers, so that compare/layers.py can hold them to the reference.

   A call on standard input is a run of little-endian words: 0 for making or 1 for setting, n in two words (low, high), the
   lengths of samples and summary, the coordinates x, y, z and the value's bits (looked at in setting alone), then the bits of
   both lists. The answer on standard output: the refusal's four numbers, of eight bytes each, then all of the samples and of
   the summary. */

#define PROGRAM "layer_answers"
#include "answering.h"

int main(void)
{
    uint32_t head[9];
    while (fread(head, 4, 9, stdin) == 9) {
        size_t n = (size_t)head[2] << 32 | head[1], held = head[3], told = head[4];
        float *samples = given(4 * held), *summary = given(4 * told);
        sirveshan_refusal got =
            head[0] == 0 ? sirveshan_make_summary(n, samples, held, summary, told)
                         : sirveshan_set_sample(n, samples, held, (int32_t)head[5], (int32_t)head[6], (int32_t)head[7], number(head[8]),
                                                summary, told);
        uint64_t numbers[4] = {got.number, got.first, got.second, got.third};
        put(numbers, sizeof numbers);
        put(samples, 4 * held);
        put_last(summary, 4 * told);
        free(samples), free(summary);
    }
    return 0;
}
