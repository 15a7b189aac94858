// The joins of index_cost by GEOS: the same tilings and points, with prepared polygons and a tree of their boxes.
//
//     cc -O2 -o geos_cost geos_cost.c -lgeos_c        (apt-get install libgeos-dev)
//     ./geos_cost areas=300 great=5 tracts=4000
//
// The points are made before the clock starts. A point on a border is inside no polygon here.
#include <geos_c.h>
#include <stdarg.h>
#include <stdint.h>
#include <stdio.h>
#include <stdlib.h>
#include <string.h>
#include <time.h>

struct tiling {
    const char *name;
    uint32_t columns, rows, side, cuts, off;
};

static const struct tiling TILINGS[] = {
    {"areas", 20, 15, 40000, 12, 5000},
    {"great", 5, 1, 4000000, 1250, 40000},
    {"tracts", 50, 80, 40000, 12, 5000},
};

enum { BATCHES = 32, SIZE = 8192, RUNS = 5 };

struct query {
    const GEOSGeometry *point;
    uint64_t pairs;
};

static uint32_t mixed(uint32_t a, uint32_t b, uint32_t k) {
    uint32_t h = a * 0x9E3779B1u ^ b * 0x85EBCA77u ^ k * 0xC2B2AE3Du;
    h = (h ^ (h >> 15)) * 0x2C1B3C6Du;
    return h ^ (h >> 12);
}

static uint32_t beside(const struct tiling *t, uint32_t place, uint32_t a, uint32_t b, uint32_t k) {
    if (k % t->cuts == 0) return place;
    return place + mixed(a, b, k) % (2 * t->off + 1) - t->off;
}

static uint32_t place(const struct tiling *t, uint32_t tiles, uint32_t k) {
    return tiles * t->side + k * (t->side / t->cuts);
}

static void vertex(const struct tiling *t, uint32_t i, uint32_t j, uint32_t k, int32_t *x, int32_t *y) {
    uint32_t side = k / t->cuts, at = k % t->cuts;
    if (side >= 2) at = t->cuts - at;
    if (side % 2 == 0) {
        if (side == 2) j++;
        *x = (int32_t)place(t, i, at);
        *y = (int32_t)beside(t, place(t, j, 0), i, j, at);
    } else {
        if (side == 1) i++;
        *x = (int32_t)beside(t, place(t, i, 0), j, i + 1000, at);
        *y = (int32_t)place(t, j, at);
    }
}

static GEOSGeometry *tile(const struct tiling *t, uint32_t n) {
    uint32_t count = 4 * t->cuts;
    GEOSCoordSequence *line = GEOSCoordSeq_create(count + 1, 2);
    for (uint32_t k = 0; k <= count; k++) {
        int32_t x, y;
        vertex(t, n % t->columns, n / t->columns, k % count, &x, &y);
        GEOSCoordSeq_setXY(line, k, x, y);
    }
    return GEOSGeom_createPolygon(GEOSGeom_createLinearRing(line), NULL, 0);
}

static GEOSGeometry *point(const struct tiling *t, uint32_t n, uint32_t tiles) {
    uint32_t x = mixed(n, 1, 7) % (t->columns * t->side);
    uint32_t y = mixed(n, 2, 9) % (tiles / t->columns * t->side);
    return GEOSGeom_createPointFromXY((int32_t)x, (int32_t)y);
}

static void answer(void *item, void *data) {
    struct query *query = data;
    query->pairs += GEOSPreparedContains(item, query->point) == 1;
}

static uint64_t now(void) {
    struct timespec t;
    clock_gettime(CLOCK_MONOTONIC, &t);
    return t.tv_sec * 1000000ull + t.tv_nsec / 1000;
}

static void tell(const char *format, ...) {
    va_list args;
    va_start(args, format);
    vfprintf(stderr, format, args);
    va_end(args);
}

static void run(const struct tiling *t, uint32_t tiles) {
    uint64_t begun = now();
    GEOSSTRtree *tree = GEOSSTRtree_create(10);
    for (uint32_t n = 0; n < tiles; n++) {
        GEOSGeometry *polygon = tile(t, n);
        GEOSSTRtree_insert(tree, polygon, (void *)GEOSPrepare(polygon));
    }
    printf("%s zones %u in %lu us\n", t->name, tiles, now() - begun);
    GEOSGeometry **points = malloc(BATCHES * SIZE * sizeof *points);
    for (uint32_t n = 0; n < BATCHES * SIZE; n++) points[n] = point(t, n, tiles);
    for (int k = 0; k < RUNS + 1; k++) {
        struct query query = {0};
        begun = now();
        for (uint32_t n = 0; n < BATCHES * SIZE; n++) {
            query.point = points[n];
            GEOSSTRtree_query(tree, points[n], answer, &query);
        }
        uint64_t spent = now() - begun;
        // The first run builds the tree and what a prepared polygon makes when it is first asked.
        if (k > 0) printf("%s one %d points %lu us %lu pairs\n", t->name, BATCHES * SIZE, spent, query.pairs);
        fflush(stdout);
    }
}

int main(int count, char **words) {
    initGEOS(tell, tell);
    for (int at = 1; at < count; at++)
        for (size_t k = 0; k < sizeof TILINGS / sizeof *TILINGS; k++) {
            size_t len = strlen(TILINGS[k].name);
            if (!strncmp(words[at], TILINGS[k].name, len) && words[at][len] == '=') run(&TILINGS[k], atoi(words[at] + len + 1));
        }
    return 0;
}
