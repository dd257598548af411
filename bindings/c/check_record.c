/*
 * Reader and writer from C: both round trips, the places that stay as they were, and each refusal with nothing altered.
 */
#include "lent.h"

enum { N = 2, MASK = SIRVESHAN_HIGH_X | SIRVESHAN_LOW_Z, SAMPLES = 3000, BYTES = 12000 };

static float samples[SAMPLES];
static uint8_t record[BYTES];
static size_t record_length;

static sirveshan_header header(void)
{
    sirveshan_header h = {1.5f, -2, 1048576, 0.0009765625f, N, MASK, -0.0f};
    return h;
}

static sirveshan_written write_to(uint8_t *bytes, size_t length, sirveshan_header h, size_t centre_length)
{
    const float *neighbours = samples + SIRVESHAN_CENTRE_LENGTH(N);
    return sirveshan_write(h, samples, centre_length, neighbours, SIRVESHAN_NEIGHBOURS_LENGTH(N, MASK), bytes, length);
}

static size_t bytes_altered(const uint8_t *bytes, size_t from, size_t length)
{
    size_t k, changes = 0;
    for (k = from; k < length; k++)
        changes += bytes[k] != 0xa5;
    return changes;
}

static void round_trips(void)
{
    size_t k, all = SIRVESHAN_SAMPLES_LENGTH(N, MASK);
    uint8_t *again = room(BYTES / 4);
    float *read = room(SAMPLES);
    sirveshan_header wanted = header();
    sirveshan_written written;
    sirveshan_read_answer answer;
    for (k = 0; k < all; k++)
        samples[k] = (float)k / 8 - 10;
    memset(record, 0xa5, sizeof record);
    written = write_to(record, sizeof record, wanted, SIRVESHAN_CENTRE_LENGTH(N));
    expect_refusal("written", written.refused, 0, 0, 0, 0);
    expect("its length", written.length, SIRVESHAN_RECORD_LENGTH(N, MASK));
    expect("beyond the record", bytes_altered(record, written.length, sizeof record), 0);
    record_length = written.length;
    expect("its length field", (size_t)record[2] * 256 + record[3], record_length - 4);
    answer = sirveshan_read(record, record_length, read, SAMPLES);
    expect_refusal("read", answer.refused, 0, 0, 0, 0);
    expect("samples", (uint64_t)memcmp(read, samples, 4 * all), 0);
    expect("beyond the samples", altered(read, all, SAMPLES), 0);
    expect("base", answer.header.x == wanted.x && answer.header.y == wanted.y && answer.header.z == wanted.z, 1);
    expect("size", answer.header.size == wanted.size, 1);
    expect("subdivisions", answer.header.subdivisions, N);
    expect("mask", answer.header.mask, MASK);
    expect("threshold -0", (uint64_t)memcmp(&answer.header.threshold, &wanted.threshold, 4), 0);
    memcpy(samples, read, 4 * all);
    written = write_to(again, BYTES, answer.header, SIRVESHAN_CENTRE_LENGTH(N));
    expect("written again", (uint64_t)memcmp(again, record, record_length), 0);
    free(again);
    free(read);
}

static void expect_not_read(const char *what, size_t at, uint8_t byte, size_t length, size_t number, size_t first)
{
    static const sirveshan_header none;
    float *read = room(SAMPLES);
    uint8_t kept = record[at];
    sirveshan_read_answer answer;
    record[at] = byte;
    answer = sirveshan_read(record, length, read, SAMPLES);
    record[at] = kept;
    expect_refusal(what, answer.refused, number, first, 0, 0);
    expect(what, answer.header.subdivisions, none.subdivisions);
    expect(what, altered(read, 0, SAMPLES), 0);
    free(read);
}

static void not_read(void)
{
    float *read = room(SAMPLES);
    sirveshan_read_answer answer = sirveshan_read(NULL, 0, NULL, 0);
    expect_refusal("nothing", answer.refused, 11, 0, 0, 0);
    expect_not_read("a byte short", 0, 0, record_length - 1, 11, 0);
    expect_not_read("version", 4, 2, record_length, 12, 2);
    expect_not_read("subdivisions", 5, 0, record_length, 1, 0);
    expect_not_read("mask", 6, 200, record_length, 2, 200);
    expect_not_read("threshold", 7, 0x7f, record_length, 3, 4);
    expect_not_read("other subdivisions", 5, 1, record_length, 13, SIRVESHAN_SAMPLES_LENGTH(1, MASK));
    expect_not_read("a sample", 27 + 4 * 100, 0x7f, record_length, 7, 100);
    answer = sirveshan_read(record, record_length, read, SIRVESHAN_SAMPLES_LENGTH(N, MASK) - 1);
    expect_refusal("room for the samples", answer.refused, 14, SIRVESHAN_SAMPLES_LENGTH(N, MASK), 0, 0);
    expect("room for the samples", altered(read, 0, SAMPLES), 0);
    free(read);
}

static void expect_not_written(const char *what, sirveshan_header h, size_t centre_length, size_t length, size_t number,
                               size_t first)
{
    uint8_t *bytes = room(BYTES / 4);
    sirveshan_written written;
    memset(bytes, 0xa5, BYTES);
    written = write_to(bytes, length, h, centre_length);
    expect_refusal(what, written.refused, number, first, 0, 0);
    expect(what, written.length, 0);
    expect(what, bytes_altered(bytes, 0, BYTES), 0);
    free(bytes);
}

static void not_written(void)
{
    size_t centre = SIRVESHAN_CENTRE_LENGTH(N);
    sirveshan_header h = header();
    h.subdivisions = SIRVESHAN_MOST_SUBDIVISIONS + 1;
    expect_not_written("subdivisions", h, centre, BYTES, 1, SIRVESHAN_MOST_SUBDIVISIONS + 1);
    h = header();
    h.size = -1;
    expect_not_written("size", h, centre, BYTES, 3, 3);
    h = header();
    expect_not_written("centre", h, centre + 1, BYTES, 4, centre);
    h.mask = MASK | SIRVESHAN_HIGH_Z;
    expect_not_written("a neighbour is missing", h, centre, BYTES, 5, 5);
    h.mask = SIRVESHAN_LOW_Z;
    expect_not_written("too many neighbours", h, centre, BYTES, 6, SIRVESHAN_NEIGHBOURS_LENGTH(N, SIRVESHAN_LOW_Z));
    expect_not_written("room for the bytes", header(), centre, record_length - 1, 14, record_length);
    samples[3] = 2097152;
    expect_not_written("a sample", header(), centre, BYTES, 7, 3);
}

int main(void)
{
    round_trips();
    not_read();
    not_written();
    return counted();
}
