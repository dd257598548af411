/*
 * STL from C: a mesh written and read back, the places that stay as they were, and each refusal with nothing altered.
 */
#include "lent.h"

enum { VERTICES = 5, TRIANGLES = 2, LENGTH = SIRVESHAN_STL_LENGTH(TRIANGLES), BYTES = 400, FLOATS = 60, PAINT = 0xa5 };

/* Positions that end in a vertex cut short, each number telling its place; one is -0 and one a NaN with a payload. */
static float vertices[6 * VERTICES + 5];
static uint32_t triangles[3 * TRIANGLES + 2] = {0, 1, 2, 4, 3, 0, 9, 9};

static uint32_t bits_of(const float *number)
{
    uint32_t bits;
    memcpy(&bits, number, 4);
    return bits;
}

static void make_mesh(void)
{
    uint32_t nan = UINT32_C(0xffa12345);
    size_t k;
    for (k = 0; k < sizeof vertices / 4; k++)
        vertices[k] = (float)k / 8;
    vertices[0] = -0.0f;
    memcpy(vertices + 6 * 3 + 1, &nan, 4);
}

static sirveshan_written write_to(uint8_t *bytes, size_t length)
{
    return sirveshan_write_stl(vertices, sizeof vertices / 4, triangles, sizeof triangles / 4, bytes, length);
}

static uint8_t *painted(void)
{
    uint8_t *bytes = room(BYTES / 4);
    memset(bytes, PAINT, BYTES);
    return bytes;
}

static size_t bytes_other(const uint8_t *bytes, size_t from, size_t end, uint8_t than)
{
    size_t k, others = 0;
    for (k = from; k < end; k++)
        others += bytes[k] != than;
    return others;
}

static uint32_t little(const uint8_t *bytes)
{
    return bytes[0] | (uint32_t)bytes[1] << 8 | (uint32_t)bytes[2] << 16 | (uint32_t)bytes[3] << 24;
}

/* What the file has for axis k of corner c of triangle t. */
static uint32_t wanted_bits(size_t t, size_t c, size_t k)
{
    const float *number = vertices + 6 * triangles[3 * t + c] + k;
    return *number != *number ? UINT32_C(0x7fc00000) : bits_of(number);
}

static void expect_triangle(const uint8_t *bytes, size_t t)
{
    const uint8_t *from = bytes + SIRVESHAN_STL_LENGTH(t);
    size_t c, k;
    expect("normal", bytes_other(from, 0, 12, 0), 0);
    for (c = 0; c < 3; c++)
        for (k = 0; k < 3; k++)
            expect("corner", little(from + 12 + 12 * c + 4 * k), wanted_bits(t, c, k));
    expect("attribute", bytes_other(from, 48, 50, 0), 0);
}

static void round_trip(void)
{
    uint8_t *bytes = painted();
    float *positions = room(FLOATS);
    sirveshan_written written = write_to(bytes, BYTES);
    sirveshan_triangles_read read;
    size_t k;
    expect_refusal("written", written.refused, 0, 0, 0, 0);
    expect("its length", written.length, LENGTH);
    expect("header", bytes_other(bytes, 0, 80, 0), 0);
    expect("count", little(bytes + 80), TRIANGLES);
    expect_triangle(bytes, 0);
    expect_triangle(bytes, 1);
    expect("beyond the file", bytes_other(bytes, LENGTH, BYTES, PAINT), 0);
    read = sirveshan_read_stl(bytes, LENGTH, positions, FLOATS);
    expect_refusal("read", read.refused, 0, 0, 0, 0);
    expect("its triangles", read.triangles, TRIANGLES);
    for (k = 0; k < 9 * TRIANGLES; k++)
        if (positions[k] == positions[k])
            expect("position", bits_of(positions + k), wanted_bits(k / 9, k / 3 % 3, k % 3));
        else
            expect("a NaN", wanted_bits(k / 9, k / 3 % 3, k % 3), UINT32_C(0x7fc00000));
    expect("beyond the positions", altered(positions, 9 * TRIANGLES, FLOATS), 0);
    memset(bytes, PAINT, 80);
    memset(bytes + 84, PAINT, 12);
    memset(bytes + 84 + 48, PAINT, 2);
    read = sirveshan_read_stl(bytes, LENGTH, positions, 9 * TRIANGLES);
    expect("header, normal and attribute are not looked at", read.triangles, TRIANGLES);
    expect("the first position again", bits_of(positions), UINT32_C(0x80000000));
    free(bytes);
    free(positions);
}

static void nothing(void)
{
    uint8_t *bytes = painted();
    sirveshan_written written = sirveshan_write_stl(NULL, 0, NULL, 0, bytes, SIRVESHAN_STL_LENGTH(0));
    sirveshan_triangles_read read = sirveshan_read_stl(bytes, SIRVESHAN_STL_LENGTH(0), NULL, 0);
    expect("no triangle", written.length, 84);
    expect("all zeros", bytes_other(bytes, 0, 84, 0), 0);
    expect_refusal("read", read.refused, 0, 0, 0, 0);
    expect("no triangle", read.triangles, 0);
    free(bytes);
}

static void expect_not_written(const char *what, size_t length, size_t number, size_t first)
{
    uint8_t *bytes = painted();
    sirveshan_written written = write_to(bytes, length);
    expect_refusal(what, written.refused, number, first, 0, 0);
    expect(what, written.length, 0);
    expect(what, bytes_other(bytes, 0, BYTES, PAINT), 0);
    free(bytes);
}

static void not_written(void)
{
    expect_not_written("room for the bytes", LENGTH - 1, 14, LENGTH);
    expect_not_written("no room", 0, 14, LENGTH);
    triangles[5] = VERTICES;
    expect_not_written("a part vertex is none", 0, 17, 1);
    triangles[0] = UINT32_MAX;
    expect_not_written("the first of two", BYTES, 17, 0);
    triangles[0] = triangles[5] = 0;
}

static void expect_not_read(const char *what, const uint8_t *bytes, size_t length, size_t places, size_t number, size_t first)
{
    float *positions = room(FLOATS);
    sirveshan_triangles_read read = sirveshan_read_stl(bytes, length, positions, places);
    expect_refusal(what, read.refused, number, first, 0, 0);
    expect(what, read.triangles, 0);
    expect(what, altered(positions, 0, FLOATS), 0);
    free(positions);
}

static void not_read(void)
{
    uint8_t *bytes = painted();
    write_to(bytes, BYTES);
    expect_not_read("nothing", NULL, 0, FLOATS, 16, 84);
    expect_not_read("under 84 bytes", bytes, 83, FLOATS, 16, 84);
    expect_not_read("no triangle there", bytes, 84, FLOATS, 16, LENGTH);
    expect_not_read("a byte short", bytes, LENGTH - 1, FLOATS, 16, LENGTH);
    expect_not_read("a byte too many", bytes, LENGTH + 1, FLOATS, 16, LENGTH);
    expect_not_read("room for the positions", bytes, LENGTH, 9 * TRIANGLES - 1, 14, 9 * TRIANGLES);
    memset(bytes + 80, 0xff, 4);
    expect_not_read("the largest count", bytes, LENGTH, 0, 16, SIRVESHAN_STL_LENGTH(UINT32_MAX));
    free(bytes);
}

int main(void)
{
    make_mesh();
    round_trip();
    nothing();
    not_written();
    not_read();
    return counted();
}
