// Joins the points of a script with its zones by S2, to be timed beside `actjoin join`.
//
//     g++ -O2 -std=c++17 -o real_s2 real_s2.cpp -ls2        (apt-get install libs2-dev)
//     ./real_s2 SCRIPT > pairs
//
// It takes lines of zones, a sync and lines of points, as tiling_script.py and real_script.py write them, and writes
// `ID,KEY` for each pair. All zones stand in one shape index. Edges are great circles here, so points near a border
// may be answered otherwise.
#include <s2/mutable_s2shape_index.h>
#include <s2/s2contains_point_query.h>
#include <s2/s2latlng.h>
#include <s2/s2lax_polygon_shape.h>
#include <s2/s2shapeutil_contains_brute_force.h>

#include <algorithm>
#include <chrono>
#include <cstdio>
#include <cstdlib>
#include <cstring>
#include <memory>
#include <vector>

typedef std::vector<std::vector<S2Point>> Rings;

static double seconds() {
    return std::chrono::duration<double>(std::chrono::steady_clock::now().time_since_epoch()).count();
}

static S2Point place_of(double x, double y) { return S2LatLng::FromDegrees(y, x).ToPoint(); }

// The rings of a zone's text, without their closing points.
static Rings rings_of(char *text) {
    Rings rings;
    while ((text = strpbrk(text, "(,"))) {
        text += strspn(text, "(, ");
        rings.emplace_back();
        while (*text != ')') {
            double x = strtod(text, &text);
            double y = strtod(text, &text);
            rings.back().push_back(place_of(x, y));
            text += strspn(text, ", ");
        }
        rings.back().pop_back();
        text++;
    }
    return rings;
}

// Which side of the rings is inside is seen from a place that lies outside.
static std::unique_ptr<S2LaxPolygonShape> shape_of(Rings rings) {
    if (s2shapeutil::ContainsBruteForce(S2LaxPolygonShape(rings), place_of(-10, -10)))
        for (auto &ring : rings) std::reverse(ring.begin() + 1, ring.end());
    return std::make_unique<S2LaxPolygonShape>(rings);
}

int main(int count, char **words) {
    FILE *script = count == 2 ? fopen(words[1], "r") : NULL;
    if (!script) return 1;
    MutableS2ShapeIndex index;
    std::vector<unsigned long> keys;
    std::unique_ptr<S2ContainsPointQuery<MutableS2ShapeIndex>> query;
    unsigned long points = 0, pairs = 0;
    double begin = seconds(), synced = begin;
    char *line = NULL;
    size_t room = 0;
    while (getline(&line, &room, script) > 0) {
        char *rest;
        if (!strncmp(line, "zone,", 5)) {
            keys.push_back(strtoul(line + strlen("zone,"), &rest, 10));
            index.Add(shape_of(rings_of(rest + strlen(",\"POLYGON"))));
        } else if (!strncmp(line, "sync", 4)) {
            index.ForceBuild();
            query = std::make_unique<S2ContainsPointQuery<MutableS2ShapeIndex>>(&index);
            synced = seconds();
        } else {
            unsigned long id = strtoul(line + strlen("point,"), &rest, 10);
            double x = strtod(rest + 1, &rest);
            double y = strtod(rest + 1, &rest);
            query->VisitContainingShapes(place_of(x, y), [&](S2Shape *shape) {
                printf("%lu,%lu\n", id, keys[shape->id()]);
                pairs++;
                return true;
            });
            points++;
        }
    }
    fflush(stdout);
    double end = seconds();
    fprintf(stderr, "%zu zones in %.3f s, %lu points in %.3f s, %lu pairs\n", keys.size(), synced - begin, points,
            end - synced, pairs);
    return 0;
}
