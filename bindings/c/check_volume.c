/*
 * Cutting from C: each sample of a block, the faces outside included, the nearest of the volume's, the places that stay as they were,
 * and each refusal with nothing altered.
 */
#include "lent.h"

enum { SX = 7, SY = 5, SZ = 6, COUNT = SX * SY * SZ, BYTES = 4 * COUNT, MOST = SIRVESHAN_MOST_SUBDIVISIONS };
enum { LARGER = 17, PLACES = SIRVESHAN_CENTRE_LENGTH(LARGER) + 9 };

static uint8_t volume[BYTES + 4];
static const sirveshan_point sizes = {SX, SY, SZ};

static void put_sample(size_t place, uint32_t bits)
{
    size_t k;
    for (k = 0; k < 4; k++)
        volume[4 * place + k] = (uint8_t)(bits >> 8 * k);
}

/* Each sample tells its place. */
static void make_volume(void)
{
    size_t place;
    for (place = 0; place < COUNT; place++) {
        float sample = (float)place;
        uint32_t bits;
        memcpy(&bits, &sample, 4);
        put_sample(place, bits);
    }
}

static size_t nearest(size_t first, int step, size_t size)
{
    long at = (long)first + step;
    return at < 0 ? 0 : (size_t)at < size ? (size_t)at : size - 1;
}

static size_t wanted(sirveshan_point first, int x, int y, int z)
{
    return nearest(first.x, x, SX) + SX * (nearest(first.y, y, SY) + SY * nearest(first.z, z, SZ));
}

static void expect_block(const float *samples, size_t n, sirveshan_point first)
{
    int x, y, z, face, m = (int)n + 1;
    for (x = 0; x < m; x++)
        for (y = 0; y < m; y++) {
            for (z = 0; z < m; z++)
                expect("in the block", (size_t)samples[SIRVESHAN_PLACE(n, x, y, z)], wanted(first, x, y, z));
            for (face = 0; face < 2; face++) {
                int out = face ? m : -1;
                expect("across x", (size_t)samples[SIRVESHAN_FACE_PLACE(n, face, x, y)], wanted(first, out, x, y));
                expect("across y", (size_t)samples[SIRVESHAN_FACE_PLACE(n, 2 + face, x, y)], wanted(first, x, out, y));
                expect("across z", (size_t)samples[SIRVESHAN_FACE_PLACE(n, 4 + face, x, y)], wanted(first, x, y, out));
            }
        }
}

static void cut(size_t n, size_t x, size_t y, size_t z)
{
    sirveshan_point first = {x, y, z};
    float *samples = room(PLACES);
    sirveshan_samples_cut got = sirveshan_cut(volume, BYTES, sizes, n, first, samples, PLACES);
    expect_refusal("cut", got.refused, 0, 0, 0, 0);
    expect("its samples", got.samples, SIRVESHAN_CENTRE_LENGTH(n));
    expect_block(samples, n, first);
    expect("beyond the samples", altered(samples, SIRVESHAN_CENTRE_LENGTH(n), PLACES), 0);
    free(samples);
}

static void expect_not_cut(const char *what, size_t length, sirveshan_point of, size_t n, sirveshan_point first, size_t places,
                           size_t number, size_t value)
{
    float *samples = room(PLACES);
    sirveshan_samples_cut got = sirveshan_cut(volume, length, of, n, first, samples, places);
    expect_refusal(what, got.refused, number, value, 0, 0);
    expect(what, got.samples, 0);
    expect(what, altered(samples, 0, PLACES), 0);
    free(samples);
}

static void not_cut(void)
{
    sirveshan_point start = {0, 0, 0}, beside = {1, 0, 0}, outside = {0, SY, 0}, far = {SIZE_MAX, 0, 0};
    sirveshan_point flat = {SX, 0, SZ}, wide = {SX, 1025, SZ}, huge = {SIZE_MAX, SIZE_MAX, SIZE_MAX};
    expect_not_cut("no subdivisions", 0, flat, 0, outside, 0, 1, 0);
    expect_not_cut("too many subdivisions", 0, flat, MOST + 1, outside, 0, 1, MOST + 1);
    expect_not_cut("a size of 0", 0, flat, 2, outside, 0, 20, 0);
    expect_not_cut("a size of 1,025", BYTES, wide, 2, outside, 0, 20, 0);
    expect_not_cut("the largest sizes", BYTES, huge, 2, outside, 0, 20, 0);
    expect_not_cut("a byte short", BYTES - 1, sizes, 2, outside, 0, 21, 0);
    expect_not_cut("a byte too many", BYTES + 1, sizes, 2, outside, 0, 21, 0);
    expect_not_cut("outside", BYTES, sizes, 2, outside, 0, 22, 0);
    expect_not_cut("far outside", BYTES, sizes, 2, far, 0, 22, 0);
    put_sample(9, UINT32_C(0x7fa00001));
    put_sample(43, UINT32_C(0x49800001));
    expect_not_cut("the first in the block's order", BYTES, sizes, 1, beside, 0, 7, 43);
    make_volume();
    expect_not_cut("room for the samples", BYTES, sizes, 2, start, SIRVESHAN_CENTRE_LENGTH(2) - 1, 14, SIRVESHAN_CENTRE_LENGTH(2));
}

int main(void)
{
    make_volume();
    expect("its length", SIRVESHAN_VOLUME_LENGTH(SX, SY, SZ), BYTES);
    cut(1, 0, 0, 0);
    cut(1, 3, 2, 3);
    cut(2, 6, 4, 5);
    cut(3, 2, 0, 5);
    cut(LARGER, 0, 0, 0);
    not_cut();
    return counted();
}
