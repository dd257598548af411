#define _GNU_SOURCE
#include <math.h>
#include <stdio.h>
#include <stdlib.h>
#include <string.h>
#include <time.h>
#include <sys/mman.h>
#include "sirveshan.h"
#include "field.h"

/* libraries a (before) and b (now) */
#define OLD(p) \
    sirveshan_extracted p##extract(sirveshan_header, const float *, size_t, const float *, size_t, uint32_t *, size_t, float *, size_t, uint32_t *, size_t); \
    sirveshan_line p##sheet_line(const uint8_t *, size_t, size_t); \
    uint64_t p##blank(const uint8_t *, size_t); \
    uint64_t p##subdivisions(const uint8_t *, size_t); \
    uint64_t p##sample(const uint8_t *, size_t, int32_t, int32_t, int32_t); \
    sirveshan_read_answer p##read(const uint8_t *, size_t, float *, size_t); \
    sirveshan_written p##write(sirveshan_header, const float *, size_t, const float *, size_t, uint8_t *, size_t);
OLD(a_)
OLD(b_)
sirveshan_extracted b_extract_numbered(sirveshan_numbered, const float *, size_t, const float *, size_t, uint32_t *, size_t, float *, size_t, uint32_t *, size_t);
sirveshan_numbered_answer b_read_numbered(const uint8_t *, size_t, float *, size_t);
sirveshan_written b_write_numbered(sirveshan_numbered, const float *, size_t, const float *, size_t, uint8_t *, size_t);
sirveshan_written b_move_up(const uint8_t *, size_t, uint8_t *, size_t);

static size_t N;
static float smooth(const int *p) { float x = (float)p[0], y = (float)p[1], z = (float)p[2]; return z - (float)N - 1.7f * sinf(0.31f * x) - 1.3f * cosf(0.23f * y + 0.1f * x) + 0.37f; }
static float outside(const int *p) { (void)p; return -1; }
static uint64_t rot(uint64_t v, int k) { return v << k | v >> (64 - k); }
static float noisy(const int *p) { uint64_t b = (uint64_t)(int64_t)p[0] ^ rot((uint64_t)(int64_t)p[1], 21) ^ rot((uint64_t)(int64_t)p[2], 42); for (int k = 0; k < 2; k++) b = (b ^ b >> 31) * UINT64_C(0x9e3779b97f4a7c15); return (float)(b >> 40) / (float)(1 << 23) - 1.0f; }

static double now(void) { struct timespec t; clock_gettime(CLOCK_MONOTONIC, &t); return t.tv_sec * 1e6 + t.tv_nsec / 1e3; }
static volatile uint64_t sink;

static uint8_t *rec[2]; static size_t len[2]; static float *samples, *vertices, *back; static size_t count, own, nv, nt, ns; static uint8_t *out;
static uint32_t *store, *triangles;
static sirveshan_header h; static sirveshan_numbered hn;

enum { EXTRACT, READ, WRITE, SUBDIVISIONS, BLANK, SAMPLE, SHEET, MOVE };
static const char *names[] = {"extraction", "read", "write", "subdivisions", "blank", "sample", "sheet, a record", "move"};
#define EX(f, hd) f(hd, samples, own, samples + own, count - own, store, ns, vertices, nv, triangles, nt).vertices
#define WR(f, hd) f(hd, samples, own, samples + own, count - own, out, len[1]).length

/* way 0: before; 1: now; 2: now, with numbers or on version 2 */
static double once(int call, int way, int calls)
{
    int v = way == 2;
    double t = now();
    for (int k = 0; k < calls; k++)
        switch (call) {
        case EXTRACT: sink += way == 0 ? EX(a_extract, h) : way == 1 ? EX(b_extract, h) : EX(b_extract_numbered, hn); break;
        case READ: sink += way == 0 ? a_read(rec[0], len[0], back, count).header.mask : way == 1 ? b_read(rec[0], len[0], back, count).header.mask : b_read_numbered(rec[1], len[1], back, count).header.mask; break;
        case WRITE: sink += way == 0 ? WR(a_write, h) : way == 1 ? WR(b_write, h) : WR(b_write_numbered, hn); break;
        case SUBDIVISIONS: sink += way ? b_subdivisions(rec[v], len[v]) : a_subdivisions(rec[0], len[0]); break;
        case BLANK: sink += way ? b_blank(rec[v], len[v]) : a_blank(rec[0], len[0]); break;
        case SAMPLE: sink += way ? b_sample(rec[v], len[v], 1, 2, 0) : a_sample(rec[0], len[0], 1, 2, 0); break;
        case SHEET: sink += (way ? b_sheet_line(rec[v], len[v], 0) : a_sheet_line(rec[0], len[0], 0)).figures.vertices; break;
        case MOVE: if (way == 0) memcpy(out, rec[0], len[0]), sink += out[len[0] - 1]; else sink += b_move_up(rec[0], len[0], out, len[1]).length; break;
        }
    return (now() - t) / calls;
}

static double seconds = 2.0;

static void *place(size_t bytes)
{
    if (!getenv("HUGE")) return malloc(bytes);
    size_t two = (size_t)1 << 21;
    void *p = aligned_alloc(two, (bytes + two - 1) / two * two);
    madvise(p, (bytes + two - 1) / two * two, MADV_HUGEPAGE);
    return p;
}

static void run(int call, const char *face, field *f, size_t n, unsigned mask)
{
    N = n;
    own = SIRVESHAN_CENTRE_LENGTH(n); count = own + SIRVESHAN_NEIGHBOURS_LENGTH(n, mask);
    samples = malloc(4 * count + 4); back = malloc(4 * count + 4);
    fill(samples, n, mask, f);
    h = (sirveshan_header){10, 20, 30, 8, n, (uint8_t)mask, 0};
    memset(&hn, 0, sizeof hn); hn.block.x = 10; hn.block.y = 20; hn.block.z = 30; hn.block.size = 8; hn.block.subdivisions = n; hn.mask = (uint8_t)mask; hn.block.setup = 0;
    if (call != MOVE) { hn.block.setup = 7; for (int k = 0; k < 6; k++) hn.block.side_setups[k] = 7; }
    nv = 6 * SIRVESHAN_MOST_VERTICES(n, mask), nt = 3 * SIRVESHAN_MOST_TRIANGLES(n, mask), ns = SIRVESHAN_STORE_LENGTH(n);
    vertices = malloc(4 * nv), triangles = malloc(4 * nt), store = malloc(4 * ns);
    len[0] = SIRVESHAN_RECORD_LENGTH(n, mask); len[1] = SIRVESHAN_NUMBERED_LENGTH(n, mask);
    if (getenv("SECOND")) rec[1] = place(len[1] + 4096), rec[0] = place(len[0] + 4096); else rec[0] = place(len[0] + 4096), rec[1] = place(len[1] + 4096); out = malloc(len[1]);
    if (a_write(h, samples, own, samples + own, count - own, rec[0], len[0]).refused.number || b_write_numbered(hn, samples, own, samples + own, count - own, rec[1], len[1]).refused.number) abort();
    for (int v = 0; v < 2; v++) {
        sirveshan_line x = a_sheet_line(rec[0], len[0], 0), y = b_sheet_line(rec[v], len[v], 0);
        if (x.refused.number || memcmp(&x.figures, &y.figures, sizeof x.figures) || a_blank(rec[0], len[0]) != b_blank(rec[v], len[v])) abort();
    }
    uint8_t *kept[2] = {NULL, NULL};
    if (getenv("ONE")) { for (int v = 0; v < 2; v++) kept[v] = malloc(len[v]), memcpy(kept[v], rec[v], len[v]); free(rec[0]); rec[0] = rec[1]; }
    double best[3] = {1e9, 1e9, 1e9};
    if (kept[0]) memcpy(rec[1], kept[0], len[0]);
    double one = once(call, 0, 1); one = once(call, 0, 3);
    int calls = (int)(150 / one) + 1;
    double end = now() + seconds * 1e6;
    for (int round = 0; now() < end || round < 20; round++)
        for (int k = 0; k < 3; k++) {
            int way = (k + round) % 3;
            if (kept[0]) memcpy(rec[1], kept[way == 2], len[way == 2]);
            once(call, way, 1); once(call, way, 1); /* what it reads is at hand */
            double t = once(call, way, calls);
            if (t < best[way]) best[way] = t;
        }
    printf("| %s | %s | %zu | %u | %.2f | %.2f | %.2f | %.2f | %.2f |\n", names[call], face, n, mask, best[0], best[1], best[2], best[1] / best[0], best[2] / best[0]);
    fflush(stdout);
    free(samples); free(back); if (!kept[0]) free(rec[0]); free(rec[1]); free(kept[0]); free(kept[1]); free(out); free(vertices); free(triangles); free(store);
}

int main(int argc, char **argv)
{
    if (argc > 2) seconds = atof(argv[2]);
    int part = argc > 1 ? atoi(argv[1]) : 0;
    if (part == 0 || part == 1) {
        run(EXTRACT, "smooth", smooth, 16, 0); run(EXTRACT, "smooth", smooth, 16, 63); run(EXTRACT, "noisy", noisy, 16, 0);
        run(EXTRACT, "smooth", smooth, 4, 0); run(EXTRACT, "smooth", smooth, 64, 0);
        run(READ, "smooth", smooth, 16, 0); run(READ, "smooth", smooth, 16, 63); run(WRITE, "smooth", smooth, 16, 0); run(WRITE, "smooth", smooth, 16, 63);
        run(SUBDIVISIONS, "smooth", smooth, 16, 0); run(SUBDIVISIONS, "smooth", smooth, 16, 63);
    }
    if (part == 0 || part == 2) {
        run(BLANK, "smooth", smooth, 16, 0); run(BLANK, "smooth", smooth, 16, 63); run(BLANK, "all outside", outside, 16, 0); run(BLANK, "all outside", outside, 64, 0);
        run(SAMPLE, "smooth", smooth, 16, 0); run(SAMPLE, "smooth", smooth, 16, 63);
        run(SHEET, "smooth", smooth, 16, 0); run(SHEET, "smooth", smooth, 16, 1); run(SHEET, "smooth", smooth, 16, 63); run(SHEET, "noisy", noisy, 16, 0); run(SHEET, "noisy", noisy, 16, 63);
        run(SHEET, "all outside", outside, 16, 0); run(SHEET, "all outside", outside, 16, 63); run(SHEET, "smooth", smooth, 4, 0); run(SHEET, "smooth", smooth, 4, 63);
        run(SHEET, "smooth", smooth, 64, 0); run(SHEET, "smooth", smooth, 64, 63);
    }
    if (part == 3) { run(MOVE, "smooth", smooth, 16, 0); run(MOVE, "smooth", smooth, 16, 63); }
    if (part == 4) { run(SHEET, "smooth", smooth, 64, 63); run(SHEET, "smooth", smooth, 64, 63); run(SHEET, "smooth", smooth, 48, 63); run(SHEET, "smooth", smooth, 32, 63); }
    return 0;
}
