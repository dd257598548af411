/* The viewer's blank as a program that answers, so that compare/blank.py can hold it to the reference and to our own meshes.

   A call on standard input is a little-endian word, the length of a record, and its bytes. The answer on standard output has three numbers
   of eight bytes each: what blank answers; the number of the refusal when the record is read and meshed, 0 for none; and how many triangles
   the mesh has. */

#define PROGRAM "blank_answers"
#include "answering.h"

int main(void)
{
    uint32_t length;
    while (fread(&length, 4, 1, stdin) == 1) {
        uint8_t *record = given(length);
        struct told told = mesh_told(record, length);
        uint64_t answer[3] = {sirveshan_blank(record, length), told.refused, told.triangles};
        put_last(answer, sizeof answer);
        free(record);
    }
    return 0;
}
