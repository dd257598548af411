/* Our two calls for a sample as a program that answers, so that compare/samples.py can hold them to the reference.

   A call on standard input is a run of little-endian words: the record's length in bytes and how many points are asked for;
   the record's bytes; three signed words a point. The answer on standard output, for each point seven words of eight bytes:
   what sirveshan_sample says; the refusal's four numbers, the value's bits and the kind of sirveshan_sample_kind. */

#define PROGRAM "sample_answers"
#include "answering.h"

static void point_call(const uint8_t *record, size_t length, const int32_t *point, uint64_t *answer)
{
    sirveshan_sampled got = sirveshan_sample_kind(record, length, point[0], point[1], point[2]);
    uint32_t bits;
    memcpy(&bits, &got.value, sizeof bits);
    answer[0] = sirveshan_sample(record, length, point[0], point[1], point[2]);
    answer[1] = got.refused.number;
    answer[2] = got.refused.first;
    answer[3] = got.refused.second;
    answer[4] = got.refused.third;
    answer[5] = bits;
    answer[6] = got.kind;
}

int main(void)
{
    uint32_t head[2];
    while (fread(head, 4, 2, stdin) == 2) {
        size_t length = head[0], points = head[1];
        uint8_t *record = given(length);
        int32_t *coordinates = given(12 * points);
        uint64_t *answers = room(56 * points);
        for (size_t k = 0; k < points; k++)
            point_call(record, length, coordinates + 3 * k, answers + 7 * k);
        put_last(answers, 56 * points);
        free(record), free(coordinates), free(answers);
    }
    return 0;
}
