/* Our call that cuts a block from a raw volume as a program that answers, so that compare/volume.py can hold it to the reference.

   A call on standard input is a run of little-endian words of eight bytes: the volume's length in
   bytes, its three sizes, n, the three coordinates of the first point and the length of the lent
   list in f32; then the volume's bytes. The answer on standard output: the refusal's four numbers
   and the number of samples, of eight bytes each, then all of the lent list, which every call finds
   filled with MARK. */

#define PROGRAM "volume_answers"
#include "answering.h"

int main(void)
{
    uint64_t head[9];
    while (fread(head, 8, 9, stdin) == 9) {
        sirveshan_point sizes = {head[1], head[2], head[3]}, first = {head[5], head[6], head[7]};
        uint8_t *volume = given(head[0]);
        float *samples = marked(4 * head[8]);
        sirveshan_samples_cut got = sirveshan_cut(volume, head[0], sizes, head[4], first, samples, head[8]);
        put_numbers(got.refused, got.samples);
        put_last(samples, 4 * head[8]);
        free(volume), free(samples);
    }
    return 0;
}
