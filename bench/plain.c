/* A plain Life in C for any rule b..s.. without birth at 0, to be timed beside the proved program.

   plain N < TEXT

   TEXT is a line with the rule, as b3s23, and a line `x y` for each living cell. It runs N generations and
   prints `count C`, `box L U R D` or `box none`, and `seconds S`, the time of the generations alone.

   A generation: every living cell adds one to each of its eight neighbours in a hash table; then the
   table's cells are looked through once. Entries of earlier generations are told by their stamp. */
#define _POSIX_C_SOURCE 200809L
#include <inttypes.h>
#include <stdint.h>
#include <stdio.h>
#include <stdlib.h>
#include <time.h>

typedef struct { int64_t x, y; } cell;
typedef struct { int64_t x, y; uint64_t stamp; unsigned around, lives; } slot;

static slot *table;
static size_t slots, used;      /* slots is a power of two */
static size_t *touched;         /* which slots this generation uses */
static uint64_t stamp;

static void *room(size_t n, size_t size) {
    void *p = calloc(n, size);
    if (!p) { fprintf(stderr, "plain: no memory\n"); exit(2); }
    return p;
}

static void widen(size_t cells) {
    size_t want = 1024;
    while (want < 32 * cells) want *= 2;
    if (want <= slots) return;
    free(table);
    free(touched);
    slots = want;
    table = room(slots, sizeof *table);
    touched = room(slots, sizeof *touched);
}

static slot *find(int64_t x, int64_t y) {
    uint64_t h = ((uint64_t)x * 0x9e3779b97f4a7c15u + (uint64_t)y) * 0xff51afd7ed558ccdu;
    size_t i = (size_t)(h >> 32) & (slots - 1);
    while (table[i].stamp == stamp && (table[i].x != x || table[i].y != y)) i = (i + 1) & (slots - 1);
    if (table[i].stamp != stamp) {
        table[i] = (slot){ x, y, stamp, 0, 0 };
        touched[used++] = i;
    }
    return &table[i];
}

static int digits(const char **p, unsigned *set) {
    int last = -1;
    for (*set = 0; **p >= '0' && **p <= '8'; ++*p) {
        if (**p - '0' <= last) return 0;
        last = **p - '0';
        *set |= 1u << last;
    }
    return 1;
}

int main(int argc, char **argv) {
    char text[64];
    unsigned born, stays;
    if (argc != 2 || scanf("%63s", text) != 1) { fprintf(stderr, "usage: plain N < TEXT\n"); return 2; }
    uint64_t n = strtoull(argv[1], 0, 10);
    const char *p = text;
    if (*p++ != 'b' || !digits(&p, &born) || *p++ != 's' || !digits(&p, &stays) || *p || (born & 1)) {
        fprintf(stderr, "plain: no rule: %s\n", text);
        return 2;
    }
    size_t count = 0, space = 1024;
    cell *cells = room(space, sizeof *cells);
    int64_t x, y;
    while (scanf("%" SCNd64 " %" SCNd64, &x, &y) == 2) {
        if (count == space) {
            space *= 2;
            cells = realloc(cells, space * sizeof *cells);
            if (!cells) { fprintf(stderr, "plain: no memory\n"); return 2; }
        }
        cells[count++] = (cell){ x, y };
    }
    struct timespec t0, t1;
    clock_gettime(CLOCK_MONOTONIC, &t0);
    for (uint64_t g = 0; g < n; ++g) {
        widen(count);
        ++stamp;
        used = 0;
        for (size_t i = 0; i < count; ++i) {
            find(cells[i].x, cells[i].y)->lives = 1;
            for (int dy = -1; dy <= 1; ++dy)
                for (int dx = -1; dx <= 1; ++dx)
                    if (dx || dy) ++find(cells[i].x + dx, cells[i].y + dy)->around;
        }
        if (used > space) {
            space = 2 * used;
            free(cells);
            cells = room(space, sizeof *cells);
        }
        count = 0;
        for (size_t i = 0; i < used; ++i) {
            slot *s = &table[touched[i]];
            if (((s->lives ? stays : born) >> s->around) & 1) cells[count++] = (cell){ s->x, s->y };
        }
    }
    clock_gettime(CLOCK_MONOTONIC, &t1);
    printf("count %zu\n", count);
    if (!count) printf("box none\n");
    else {
        cell lo = cells[0], hi = cells[0];
        for (size_t i = 1; i < count; ++i) {
            if (cells[i].x < lo.x) lo.x = cells[i].x;
            if (cells[i].y < lo.y) lo.y = cells[i].y;
            if (cells[i].x > hi.x) hi.x = cells[i].x;
            if (cells[i].y > hi.y) hi.y = cells[i].y;
        }
        printf("box %" PRId64 " %" PRId64 " %" PRId64 " %" PRId64 "\n", lo.x, lo.y, hi.x, hi.y);
    }
    printf("seconds %.6f\n", (t1.tv_sec - t0.tv_sec) + 1e-9 * (t1.tv_nsec - t0.tv_nsec));
    return 0;
}
