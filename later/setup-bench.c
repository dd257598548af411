#define _POSIX_C_SOURCE 200809L
#include <math.h>
#include <stdio.h>
#include <stdlib.h>
#include <string.h>
#include <time.h>
#include "sirveshan.h"
#include "field.h"

/* libraries a (before) and b (now) */
#define LIB(p) \
    sirveshan_line p##sheet_line(const uint8_t *, size_t, size_t); \
    uint64_t p##blank(const uint8_t *, size_t); \
    uint64_t p##subdivisions(const uint8_t *, size_t); \
    sirveshan_numbered_answer p##read_numbered(const uint8_t *, size_t, float *, size_t); \
    sirveshan_written p##write(sirveshan_header, const float *, size_t, const float *, size_t, uint8_t *, size_t); \
    sirveshan_written p##write_numbered(sirveshan_numbered, const float *, size_t, const float *, size_t, uint8_t *, size_t);
LIB(a_)
LIB(b_)

static size_t N;
static float smooth(const int *p) { float x = (float)p[0], y = (float)p[1], z = (float)p[2]; return z - (float)N - 1.7f * sinf(0.31f * x) - 1.3f * cosf(0.23f * y + 0.1f * x) + 0.37f; }
static float outside(const int *p) { (void)p; return -1; }
static uint64_t rot(uint64_t v, int k) { return v << k | v >> (64 - k); }
static float noisy(const int *p) { uint64_t b = (uint64_t)(int64_t)p[0] ^ rot((uint64_t)(int64_t)p[1], 21) ^ rot((uint64_t)(int64_t)p[2], 42); for (int k = 0; k < 2; k++) b = (b ^ b >> 31) * UINT64_C(0x9e3779b97f4a7c15); return (float)(b >> 40) / (float)(1 << 23) - 1.0f; }

static double now(void) { struct timespec t; clock_gettime(CLOCK_MONOTONIC, &t); return t.tv_sec * 1e6 + t.tv_nsec / 1e3; }
static volatile uint64_t sink;

static uint8_t *rec[2]; static size_t len[2]; static float *samples; static size_t count, own; static uint8_t *out; static float *back;
static sirveshan_header h; static sirveshan_numbered hn;

enum { SHEET, BLANK, SUBDIVISIONS, READ, WRITE };
static const char *names[] = {"sheet", "blank", "subdivisions", "read", "write"};

static double once(int call, int lib, int v, int calls)
{
    double t = now();
    for (int k = 0; k < calls; k++)
        switch (call) {
        case SHEET: sink += (lib ? b_sheet_line(rec[v], len[v], 0) : a_sheet_line(rec[v], len[v], 0)).figures.vertices; break;
        case BLANK: sink += lib ? b_blank(rec[v], len[v]) : a_blank(rec[v], len[v]); break;
        case SUBDIVISIONS: sink += lib ? b_subdivisions(rec[v], len[v]) : a_subdivisions(rec[v], len[v]); break;
        case READ: sink += (lib ? b_read_numbered(rec[v], len[v], back, count) : a_read_numbered(rec[v], len[v], back, count)).header.mask; break;
        case WRITE: if (v == 0) sink += (lib ? b_write(h, samples, own, samples + own, count - own, out, len[1]) : a_write(h, samples, own, samples + own, count - own, out, len[1])).length;
                    else sink += (lib ? b_write_numbered(hn, samples, own, samples + own, count - own, out, len[1]) : a_write_numbered(hn, samples, own, samples + own, count - own, out, len[1])).length; break;
        }
    return (now() - t) / calls;
}

static void run(int call, const char *face, field *f, size_t n, unsigned mask)
{
    N = n;
    own = SIRVESHAN_CENTRE_LENGTH(n); count = own + SIRVESHAN_NEIGHBOURS_LENGTH(n, mask);
    samples = malloc(4 * count + 4); back = malloc(4 * count + 4);
    fill(samples, n, mask, f);
    h = (sirveshan_header){10, 20, 30, 8, n, (uint8_t)mask, 0};
    memset(&hn, 0, sizeof hn); hn.block.x = 10; hn.block.y = 20; hn.block.z = 30; hn.block.size = 8; hn.block.subdivisions = n; hn.mask = (uint8_t)mask; hn.block.setup = 7;
    for (int k = 0; k < 6; k++) hn.block.side_setups[k] = 7;
    len[0] = SIRVESHAN_RECORD_LENGTH(n, mask); len[1] = SIRVESHAN_NUMBERED_LENGTH(n, mask);
    rec[0] = malloc(len[0]); rec[1] = malloc(len[1]); out = malloc(len[1]);
    if (a_write(h, samples, own, samples + own, count - own, rec[0], len[0]).refused.number || a_write_numbered(hn, samples, own, samples + own, count - own, rec[1], len[1]).refused.number) abort();
    for (int v = 0; v < 2; v++) {
        sirveshan_line x = a_sheet_line(rec[v], len[v], 0), y = b_sheet_line(rec[v], len[v], 0);
        if (x.refused.number || memcmp(&x, &y, sizeof x) || a_blank(rec[v], len[v]) != b_blank(rec[v], len[v])) abort();
    }
    double best[2][2] = {{1e9, 1e9}, {1e9, 1e9}};
    double one = once(call, 0, 0, 1); one = once(call, 0, 0, 3);
    int calls = (int)(150 / one) + 1;
    double end = now() + 2.5e6;
    for (int round = 0; now() < end || round < 20; round++)
        for (int k = 0; k < 4; k++) {
            int lib = (k + round) & 1, v = k >> 1;
            double t = once(call, lib, v, calls);
            if (t < best[lib][v]) best[lib][v] = t;
        }
    printf("| %s | %s | %zu | %u | %.2f | %.2f | %.2f | %.2f | %.2f | %.2f |\n", names[call], face, n, mask, best[0][0], best[1][0], best[0][1], best[1][1], best[1][0] / best[0][0], best[1][1] / best[0][1]);
    fflush(stdout);
    free(samples); free(back); free(rec[0]); free(rec[1]); free(out);
}

int main2(void)
{
    printf("| call | face | n | mask | v1 before | v1 now | v2 before | v2 now | v1 | v2 |\n");
    run(BLANK, "smooth", smooth, 16, 0); run(BLANK, "smooth", smooth, 16, 63);
    run(BLANK, "all outside", outside, 16, 0); run(BLANK, "all outside", outside, 16, 63); run(BLANK, "all outside", outside, 64, 0);
    run(SHEET, "smooth", smooth, 16, 0); run(SHEET, "smooth", smooth, 16, 1); run(SHEET, "smooth", smooth, 16, 63);
    run(SHEET, "noisy", noisy, 16, 0); run(SHEET, "noisy", noisy, 16, 63); run(SHEET, "all outside", outside, 16, 0); run(SHEET, "all outside", outside, 16, 63);
    run(SHEET, "smooth", smooth, 4, 0); run(SHEET, "smooth", smooth, 4, 63); run(SHEET, "smooth", smooth, 64, 0); run(SHEET, "smooth", smooth, 64, 63);
    run(READ, "smooth", smooth, 16, 0); run(SUBDIVISIONS, "smooth", smooth, 16, 0); run(WRITE, "smooth", smooth, 16, 0);
    return 0;
}
int main(int argc, char **argv)
{
    (void)argv;
    if (argc == 1) return main2();
    printf("| call | face | n | mask | v1 before | v1 now | v2 before | v2 now | v1 | v2 |\n");
    for (int k = 0; k < 3; k++) { run(SHEET, "smooth", smooth, 16, 0); run(SHEET, "noisy", noisy, 16, 0); run(SHEET, "all outside", outside, 16, 0); run(SHEET, "smooth", smooth, 16, 63); run(BLANK, "all outside", outside, 16, 63); }
    return 0;
}
