// The joins of index_cost by S2: the same tilings and points, one shape index for all polygons.
//
//     g++ -O2 -std=c++17 -o s2_cost s2_cost.cpp -ls2        (apt-get install libs2-dev)
//     ./s2_cost areas=300 great=5 tracts=4000
//
// A grid unit is 1e-7 degrees. The points are made before the clock starts. Edges are great circles here, so points
// near a border may be answered otherwise.
#include <s2/mutable_s2shape_index.h>
#include <s2/s2contains_point_query.h>
#include <s2/s2latlng.h>
#include <s2/s2lax_polygon_shape.h>
#include <s2/s2shapeutil_contains_brute_force.h>

#include <algorithm>
#include <chrono>
#include <cstdint>
#include <cstdio>
#include <cstdlib>
#include <cstring>
#include <memory>
#include <vector>

struct Tiling {
    const char *name;
    uint32_t columns, rows, side, cuts, off;
};

static const Tiling TILINGS[] = {
    {"areas", 20, 15, 40000, 12, 5000},
    {"great", 5, 1, 4000000, 1250, 40000},
    {"tracts", 50, 80, 40000, 12, 5000},
};

enum { BATCHES = 32, SIZE = 8192, RUNS = 5 };

static uint32_t mixed(uint32_t a, uint32_t b, uint32_t k) {
    uint32_t h = a * 0x9E3779B1u ^ b * 0x85EBCA77u ^ k * 0xC2B2AE3Du;
    h = (h ^ (h >> 15)) * 0x2C1B3C6Du;
    return h ^ (h >> 12);
}

static S2Point place_of(uint32_t x, uint32_t y) {
    return S2LatLng::FromE7((int32_t)y, (int32_t)x).ToPoint();
}

static uint32_t beside(const Tiling &t, uint32_t place, uint32_t a, uint32_t b, uint32_t k) {
    if (k % t.cuts == 0) return place;
    return place + mixed(a, b, k) % (2 * t.off + 1) - t.off;
}

static uint32_t place(const Tiling &t, uint32_t tiles, uint32_t k) {
    return tiles * t.side + k * (t.side / t.cuts);
}

static S2Point vertex(const Tiling &t, uint32_t i, uint32_t j, uint32_t k) {
    uint32_t side = k / t.cuts, at = k % t.cuts;
    if (side >= 2) at = t.cuts - at;
    if (side % 2 == 0) {
        if (side == 2) j++;
        return place_of(place(t, i, at), beside(t, place(t, j, 0), i, j, at));
    }
    if (side == 1) i++;
    return place_of(beside(t, place(t, i, 0), j, i + 1000, at), place(t, j, at));
}

static uint64_t now() {
    return std::chrono::duration_cast<std::chrono::microseconds>(std::chrono::steady_clock::now().time_since_epoch()).count();
}

static void run(const Tiling &t, uint32_t tiles) {
    uint64_t begun = now();
    MutableS2ShapeIndex index;
    for (uint32_t n = 0; n < tiles; n++) {
        std::vector<std::vector<S2Point>> rings(1);
        for (uint32_t k = 0; k < 4 * t.cuts; k++) rings[0].push_back(vertex(t, n % t.columns, n / t.columns, k));
        // Sides may cross at a corner, so which side is inside is seen from a place that lies outside.
        S2LaxPolygonShape shape(rings);
        if (s2shapeutil::ContainsBruteForce(shape, place_of(-100000000, -100000000)))
            std::reverse(rings[0].begin() + 1, rings[0].end());
        index.Add(std::make_unique<S2LaxPolygonShape>(rings));
    }
    index.ForceBuild();
    printf("%s zones %u in %lu us\n", t.name, tiles, now() - begun);
    std::vector<S2Point> points;
    for (uint32_t n = 0; n < BATCHES * SIZE; n++)
        points.push_back(place_of(mixed(n, 1, 7) % (t.columns * t.side), mixed(n, 2, 9) % (tiles / t.columns * t.side)));
    S2ContainsPointQueryOptions options(S2VertexModel::SEMI_OPEN);
    auto query = MakeS2ContainsPointQuery(&index, options);
    for (int k = 0; k < RUNS; k++) {
        uint64_t pairs = 0;
        begun = now();
        for (const S2Point &p : points)
            query.VisitContainingShapes(p, [&](S2Shape *) {
                pairs++;
                return true;
            });
        printf("%s one %d points %lu us %lu pairs\n", t.name, BATCHES * SIZE, now() - begun, pairs);
        fflush(stdout);
    }
}

int main(int count, char **words) {
    for (int at = 1; at < count; at++)
        for (const Tiling &t : TILINGS) {
            size_t len = strlen(t.name);
            if (!strncmp(words[at], t.name, len) && words[at][len] == '=') run(t, atoi(words[at] + len + 1));
        }
    return 0;
}
