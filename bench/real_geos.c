// Joins the points of a script with its zones by GEOS, to be timed beside `actjoin join`.
//
//     cc -O2 -o real_geos real_geos.c -lgeos_c        (apt-get install libgeos-dev)
//     ./real_geos SCRIPT > pairs
//
// It takes lines of zones, a sync and lines of points, as real_script.py writes them, and writes `ID,KEY` for each
// pair. Each zone is prepared, and the zones stand in a tree of their boxes. The coordinates are not rounded, so
// points within half a unit of a border may be answered otherwise.
#include <geos_c.h>
#include <stdarg.h>
#include <stdio.h>
#include <stdlib.h>
#include <string.h>
#include <time.h>

struct zone {
    unsigned long key;
    const GEOSPreparedGeometry *prepared;
};

struct query {
    unsigned long id;
    const GEOSGeometry *point;
    unsigned long pairs;
};

static double seconds(void) {
    struct timespec now;
    clock_gettime(CLOCK_MONOTONIC, &now);
    return now.tv_sec + now.tv_nsec * 1e-9;
}

static void tell(const char *format, ...) {
    va_list args;
    va_start(args, format);
    vfprintf(stderr, format, args);
    va_end(args);
}

static void answer(void *item, void *data) {
    const struct zone *zone = item;
    struct query *query = data;
    if (GEOSPreparedContains(zone->prepared, query->point) == 1) {
        query->pairs++;
        printf("%lu,%lu\n", query->id, zone->key);
    }
}

static void add_zone(GEOSSTRtree *tree, GEOSWKTReader *reader, char *line) {
    char *text;
    struct zone *zone = malloc(sizeof *zone);
    zone->key = strtoul(line + strlen("zone,"), &text, 10);
    text[strlen(text) - 1] = 0;
    GEOSGeometry *outline = GEOSWKTReader_read(reader, text + strlen(",\""));
    if (!outline) exit(2);
    zone->prepared = GEOSPrepare(outline);
    GEOSSTRtree_insert(tree, outline, zone);
}

static void join_point(GEOSSTRtree *tree, struct query *query, const char *line) {
    char *rest;
    query->id = strtoul(line + strlen("point,"), &rest, 10);
    double x = strtod(rest + 1, &rest);
    double y = strtod(rest + 1, &rest);
    GEOSGeometry *point = GEOSGeom_createPointFromXY(x, y);
    query->point = point;
    GEOSSTRtree_query(tree, point, answer, query);
    GEOSGeom_destroy(point);
}

int main(int count, char **words) {
    FILE *script = count == 2 ? fopen(words[1], "r") : NULL;
    if (!script) return 1;
    initGEOS(tell, tell);
    GEOSWKTReader *reader = GEOSWKTReader_create();
    GEOSSTRtree *tree = GEOSSTRtree_create(10);
    struct query query = {0};
    unsigned long zones = 0, points = 0;
    double begin = seconds(), synced = begin;
    char *line = NULL;
    size_t room = 0;
    ssize_t size;
    while ((size = getline(&line, &room, script)) > 0) {
        if (line[size - 1] == '\n') line[size - 1] = 0;
        if (!strncmp(line, "zone,", 5)) {
            add_zone(tree, reader, line);
            zones++;
        } else if (!strcmp(line, "sync")) {
            synced = seconds();
        } else {
            join_point(tree, &query, line);
            points++;
        }
    }
    fflush(stdout);
    double end = seconds();
    fprintf(stderr, "%lu zones in %.3f s, %lu points in %.3f s, %lu pairs\n", zones, synced - begin, points, end - synced,
            query.pairs);
    return 0;
}
