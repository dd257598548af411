/*
 * check_viewer LEDGE: calls the viewer's functions from C on good, blank and damaged records and on examples/ledge.record, and
 * compares with the answers that documents 01 and 02 give. bindings/c/check.sh builds and runs it.
 */
#include "expect.h"

enum { HEADER = 27, SAMPLES = 3000 };

static const uint32_t ZERO = 0x00000000, HALF = 0x3f000000, ONE = 0x3f800000, MINUS_ZERO = 0x80000000;
static const uint32_t MINUS_ONE = 0xbf800000, LIMIT = 0x49800000, LEAST_SIZE = 0x3a800000;
static const uint32_t INFINITE = 0x7f800000, NOT_A_NUMBER = 0x7fc00000;

/* A record: its bytes, and how many they are. */
struct record {
    uint8_t bytes[HEADER + 4 * SAMPLES];
    size_t length;
};

static void put(struct record *r, size_t at, uint32_t word)
{
    for (size_t k = 0; k < 4; k++)
        r->bytes[at + k] = (uint8_t)(word >> (24 - 8 * k));
}

static void put_length(struct record *r)
{
    put(r, 0, (uint32_t)(r->length - 4));
}

static void put_sample(struct record *r, size_t place, uint32_t bits)
{
    put(r, HEADER + 4 * place, bits);
}

/* Threshold 0.5, base 0, size 1, every sample the same. */
static struct record record_of(unsigned n, unsigned mask, uint32_t sample)
{
    struct record r = {{0}, 0};
    size_t m = n + 1, fine = 2 * n + 1, count = m * m * m + 6 * m * m;
    for (unsigned side = 0; side < 6; side++)
        if (mask >> side & 1)
            count += fine * fine * fine + 6 * fine * fine;
    r.length = HEADER + 4 * count;
    put_length(&r);
    r.bytes[4] = 1;
    r.bytes[5] = (uint8_t)n;
    r.bytes[6] = (uint8_t)mask;
    put(&r, 7, HALF);
    put(&r, 23, ONE);
    for (size_t place = 0; place < count; place++)
        put_sample(&r, place, sample);
    return r;
}

static void expect_sample(const char *what, const struct record *r, int32_t x, int32_t y, int32_t z, uint64_t wanted)
{
    expect(what, sirveshan_sample(r->bytes, r->length, x, y, z), wanted);
}

/* The call that tells the kind too: its value's bits and its kind, or a refusal with how many coordinates are outside. */
static void expect_kind(const char *what, const struct record *r, int32_t x, int32_t y, int32_t z, uint32_t bits, size_t kind)
{
    sirveshan_sampled found = sirveshan_sample_kind(r->bytes, r->length, x, y, z);
    uint32_t value;
    memcpy(&value, &found.value, sizeof value);
    expect(what, found.refused.number, 0);
    expect(what, value, bits);
    expect(what, found.kind, kind);
    expect_sample(what, r, x, y, z, bits);
}

static void expect_kind_refused(const char *what, const struct record *r, int32_t x, int32_t y, int32_t z, size_t number, size_t first)
{
    sirveshan_sampled found = sirveshan_sample_kind(r->bytes, r->length, x, y, z);
    expect(what, found.refused.number, number);
    expect(what, found.refused.first, first);
    expect(what, found.refused.second + found.refused.third + found.kind, 0);
    expect(what, found.value == 0, 1);
    expect_sample(what, r, x, y, z, SIRVESHAN_SAMPLE_REFUSED + number);
}

/* All calls refuse, by the same number. */
static void expect_refused(const char *what, const struct record *r, uint64_t number)
{
    expect(what, sirveshan_subdivisions(r->bytes, r->length), SIRVESHAN_REFUSED + number);
    expect(what, sirveshan_blank(r->bytes, r->length), SIRVESHAN_REFUSED + number);
    expect_sample(what, r, 0, 0, 0, SIRVESHAN_SAMPLE_REFUSED + number);
    expect_sample(what, r, 99, -99, 99, SIRVESHAN_SAMPLE_REFUSED + number);
    expect(what, sirveshan_sample_kind(r->bytes, r->length, 99, -99, 99).refused.number, number);
}

static void expect_word_refused(const char *what, size_t at, uint32_t bits, uint64_t number)
{
    struct record r = record_of(1, 0, ONE);
    put(&r, at, bits);
    expect_refused(what, &r, number);
}

static void expect_byte_refused(const char *what, size_t at, uint8_t byte, uint64_t number)
{
    struct record r = record_of(1, 0, ONE);
    r.bytes[at] = byte;
    expect_refused(what, &r, number);
}

/* Document 01's case A. */
static void good(void)
{
    const uint64_t never = SIRVESHAN_SAMPLE_REFUSED + 15;
    struct record r = record_of(1, 0, ZERO);
    put_sample(&r, 0, ONE);
    put_sample(&r, 7, MINUS_ZERO);
    put_sample(&r, 8, HALF);
    put_sample(&r, 31, MINUS_ONE);
    expect("case A", sirveshan_subdivisions(r.bytes, r.length), 1);
    expect("case A", sirveshan_blank(r.bytes, r.length), 0);
    expect_sample("first point", &r, 0, 0, 0, ONE);
    expect_sample("last point", &r, 1, 1, 1, MINUS_ZERO);
    expect_sample("first extension", &r, -1, 0, 0, HALF);
    expect_sample("last extension", &r, 1, 1, 2, MINUS_ONE);
    expect_sample("two outside", &r, -1, -1, 0, never);
    expect_sample("two steps outside", &r, 0, 3, 0, never);
    expect_sample("two steps below", &r, 0, 0, -2, never);
    expect_sample("far below", &r, INT32_MIN, 0, 0, never);
    expect_sample("far above", &r, 0, INT32_MAX, 0, never);
}

/* The two points next to each face, on both sides of the border, and what is never sampled. */
static void kinds(void)
{
    struct record r = record_of(2, 0, ZERO);
    put_sample(&r, 0, ONE);
    for (uint32_t face = 0; face < 6; face++)
        put_sample(&r, SIRVESHAN_FACE_PLACE(2, face, 1, 2), ONE + face);
    expect_kind("in the block", &r, 0, 0, 0, ONE, SIRVESHAN_IN_BLOCK);
    expect_kind("its last point", &r, 2, 2, 2, ZERO, SIRVESHAN_IN_BLOCK);
    expect_kind("x = -1", &r, -1, 1, 2, ONE, 0);
    expect_kind("x = n+1", &r, 3, 1, 2, ONE + 1, 1);
    expect_kind("y = -1", &r, 1, -1, 2, ONE + 2, 2);
    expect_kind("y = n+1", &r, 1, 3, 2, ONE + 3, 3);
    expect_kind("z = -1", &r, 1, 2, -1, ONE + 4, 4);
    expect_kind("z = n+1", &r, 1, 2, 3, ONE + 5, 5);
    expect_kind_refused("two outside", &r, -1, -1, 0, 15, 2);
    expect_kind_refused("three outside", &r, -1, 3, 9, 15, 3);
    expect_kind_refused("two steps outside", &r, 0, 4, 0, 15, 1);
    expect_kind_refused("far below", &r, INT32_MIN, 0, 0, 15, 1);
    expect_kind_refused("far above, twice", &r, 0, INT32_MAX, INT32_MAX, 15, 2);
    r.bytes[4] = 2;
    expect_kind_refused("the record first", &r, -1, -1, 0, 12, 2);
}

static void good_with_neighbours(void)
{
    struct record r = record_of(2, 0x21, ONE);
    put_sample(&r, 15, LIMIT);
    put(&r, 11, 0x80000000 | LIMIT);
    put(&r, 23, LEAST_SIZE);
    expect("neighbours", sirveshan_subdivisions(r.bytes, r.length), 2);
    expect_sample("(1,2,0) of n = 2", &r, 1, 2, 0, LIMIT);
}

/* A record of n = 2 with LowX named: the neighbour's samples begin at 81, and its face is where its x is 4. */
static void blank(void)
{
    struct record r = record_of(2, 1, ZERO);
    expect("all outside", sirveshan_blank(r.bytes, r.length), 1);
    put_sample(&r, 27, ONE);
    put_sample(&r, 81, ONE);
    expect("beyond the block", sirveshan_blank(r.bytes, r.length), 1);
    put_sample(&r, 81 + 99, ONE);
    expect("before the face", sirveshan_blank(r.bytes, r.length), 1);
    put_sample(&r, 81 + 100 + 5 * 1 + 3, ONE);
    expect("between the face's coarse points", sirveshan_blank(r.bytes, r.length), 0);
    put_sample(&r, 81 + 100 + 5 * 1 + 3, ZERO);
    put_sample(&r, 81 + 124, ONE);
    expect("the face's last point", sirveshan_blank(r.bytes, r.length), 0);
    put_sample(&r, 81 + 124, ZERO);
    put_sample(&r, 26, ONE);
    expect("its last point", sirveshan_blank(r.bytes, r.length), 0);
    r = record_of(2, 0, HALF);
    expect("all at the threshold", sirveshan_blank(r.bytes, r.length), 1);
    put_sample(&r, 0, ZERO);
    expect("its first point", sirveshan_blank(r.bytes, r.length), 0);
}

/* examples/ledge.record: its own samples are all outside, and its finer neighbour's are not. */
static void ledge(const char *name)
{
    static struct record r;
    FILE *file = fopen(name, "rb");
    if (file != NULL) {
        r.length = fread(r.bytes, 1, sizeof r.bytes, file);
        fclose(file);
    }
    expect("ledge", sirveshan_subdivisions(r.bytes, r.length), 4);
    expect("ledge", sirveshan_blank(r.bytes, r.length), 0);
    r.bytes[6] = 0;
    r.length = HEADER + 4 * SIRVESHAN_CENTRE_LENGTH(4);
    put_length(&r);
    expect("ledge, no side named", sirveshan_blank(r.bytes, r.length), 1);
}

static void damaged(void)
{
    struct record r = record_of(1, 0, ONE);
    r.length--;
    expect_refused("a byte short", &r, 11);
    r.length = HEADER - 1;
    put_length(&r);
    expect_refused("under 27 bytes", &r, 11);
    r = record_of(1, 0, ONE);
    r.length += 4;
    expect_refused("longer than told", &r, 11);
    put_length(&r);
    expect_refused("a sample too many", &r, 13);
    expect_word_refused("length off by one", 0, HEADER + 4 * 32 - 3, 11);
    expect_byte_refused("version", 4, 2, 12);
    expect_byte_refused("no subdivisions", 5, 0, 1);
    expect_byte_refused("65 subdivisions", 5, SIRVESHAN_MOST_SUBDIVISIONS + 1, 1);
    expect_byte_refused("other subdivisions", 5, 2, 13);
    expect_byte_refused("mask 64", 6, 64, 2);
    expect_byte_refused("other mask", 6, 1, 13);
    expect_word_refused("threshold", 7, NOT_A_NUMBER, 3);
    expect_word_refused("base x", 11, INFINITE, 3);
    expect_word_refused("base y", 15, LIMIT + 1, 3);
    expect_word_refused("base z", 19, 0x80000000 | NOT_A_NUMBER, 3);
    expect_word_refused("size", 23, LEAST_SIZE - 1, 3);
    expect_word_refused("first sample", HEADER, NOT_A_NUMBER, 7);
    expect_word_refused("last sample", HEADER + 4 * 31, 0x80000000 | INFINITE, 7);
}

int main(int count, char **words)
{
    good();
    kinds();
    good_with_neighbours();
    blank();
    ledge(count == 2 ? words[1] : "");
    damaged();
    return counted();
}
