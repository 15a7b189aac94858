// Adds of a tiling to a super covering, natively: the same structure as act_super, with no contracts.
// A change goes down the quadtree only where the new zone isn't Outside, with the list of zones on the cell
// carried down; the Size changes by what the trie nodes that the zone meets are packed to before and after.
#include <algorithm>
#include <ctime>
#include <cstdint>
#include <cstdio>
#include <cstdlib>
#include <vector>

// the processor's time of this program, in seconds
static double cpu() { timespec t; clock_gettime(CLOCK_PROCESS_CPUTIME_ID, &t); return t.tv_sec + t.tv_nsec * 1e-9; }

typedef int64_t i64;
typedef uint32_t u32;
struct Point { int32_t x, y; };
struct Hull { int32_t lx, ly, hx, hy; };
struct Cell { int level; i64 x, y; i64 side() const { return i64(1) << (32 - level); } };
static Hull hull(const Cell &c) { i64 s = c.side(); return {int32_t(c.x), int32_t(c.y), int32_t(c.x + s - 1), int32_t(c.y + s - 1)}; }
static Cell child(const Cell &c, int q) { i64 h = c.side() / 2; return {c.level + 1, c.x + (q & 1) * h, c.y + (q >> 1) * h}; }
static const Cell ROOT = {0, -(i64(1) << 31), -(i64(1) << 31)};

enum Class { Outside, Inside, Mixed };
struct Side { Point a, b; };
static bool left(const Side &e, i64 x, i64 y, int &sign) {
    __int128 s = (__int128)(i64(e.b.x) - e.a.x) * (y - e.a.y) - (__int128)(x - e.a.x) * (i64(e.b.y) - e.a.y);
    sign = s > 0 ? 1 : s < 0 ? -1 : 0;
    return s > 0;
}
static bool touches(const Side &e, const Hull &h) {
    if (std::max(e.a.x, e.b.x) < h.lx || std::min(e.a.x, e.b.x) > h.hx) return false;
    if (std::max(e.a.y, e.b.y) < h.ly || std::min(e.a.y, e.b.y) > h.hy) return false;
    if (e.a.x == e.b.x && e.a.y == e.b.y) return true;
    int a, b, c, d;
    left(e, h.lx, h.ly, a); left(e, h.hx, h.ly, b); left(e, h.lx, h.hy, c); left(e, h.hx, h.hy, d);
    return !((a > 0 && b > 0 && c > 0 && d > 0) || (a < 0 && b < 0 && c < 0 && d < 0));
}
static bool counts(const Side &e, i64 x, i64 y) {
    bool a = e.a.y > y, b = e.b.y > y;
    if (a == b) return false;
    const Point &lo = a ? e.b : e.a, &hi = a ? e.a : e.b;
    return (i64(hi.x) - lo.x) * (y - lo.y) - (x - lo.x) * (i64(hi.y) - lo.y) > 0;
}

struct Zone { u32 key; std::vector<Side> sides; std::vector<Hull> frames; Hull box; int level; u32 chain; };
static const int BLOCK = 16, DEEPEST = 28;
static bool apart(const Hull &f, const Hull &h) { return f.hx < h.lx || h.hx < f.lx || f.hy < h.ly || h.hy < f.ly; }
static Class class_on(const Zone &z, const Hull &h) {
    if (apart(z.box, h)) return Outside;
    if (h.lx <= z.box.lx && z.box.hx <= h.hx && h.ly <= z.box.ly && z.box.hy <= h.hy) return Mixed;
    for (size_t j = 0; j < z.frames.size(); j++) {
        if (apart(z.frames[j], h)) continue;
        size_t end = std::min(z.sides.size(), (j + 1) * BLOCK);
        for (size_t i = j * BLOCK; i < end; i++) if (touches(z.sides[i], h)) return Mixed;
    }
    bool odd = false;
    for (size_t j = 0; j < z.frames.size(); j++) {
        if (h.ly < z.frames[j].ly || z.frames[j].hy < h.ly) continue;
        size_t end = std::min(z.sides.size(), (j + 1) * BLOCK);
        for (size_t i = j * BLOCK; i < end; i++) odd ^= counts(z.sides[i], h.lx, h.ly);
    }
    return odd ? Inside : Outside;
}
// The greatest level whose coverings up to it have so many cells at most.
static int cover_level(const Zone &z, size_t budget) {
    struct Near { Cell c; std::vector<u32> near; };
    std::vector<Near> mixed(1), next;
    mixed[0].c = ROOT;
    for (u32 i = 0; i < z.sides.size(); i++) mixed[0].near.push_back(i);
    size_t inside = 0;
    for (int l = 0; l < DEEPEST; l++) {
        next.clear();
        size_t in = inside;
        for (auto &m : mixed) for (int q = 0; q < 4; q++) {
            Cell c = child(m.c, q);
            Hull h = hull(c);
            std::vector<u32> near;
            if (!apart(z.box, h)) for (u32 i : m.near) if (touches(z.sides[i], h)) near.push_back(i);
            if (!near.empty()) next.push_back({c, std::move(near)});
            else if (class_on(z, h) == Inside) in++;
        }
        if (in + next.size() > budget) return l;
        inside = in;
        mixed.swap(next);
    }
    return DEEPEST;
}

struct Pack { u32 rows = 0, at = 256; void leaf(u32 n) { if (n < 3) return; u32 w = 1 + (n + 1) / 2; if (at + w > 256) { rows++; at = w; } else at += w; } };
// a zone on a cell, with its box beside it, so that most are left out without a look at the zone
struct On { Hull box; int level; const Zone *zone; };
typedef std::vector<On> Zones;
static Zones BUFFERS[40];
struct Shift { i64 less = 0, more = 0; u32 most = 0; };
static bool asks(const Zone &z, Class c, int level) { return c == Mixed && level < z.level; }
// a box around all zones
static Hull ALL;
static bool narrow(const Zones &zones, const Cell &c, Zones &out) {
    Hull h = hull(c);
    bool split = false;
    out.clear();
    if (apart(ALL, h)) return false;
    if (h.lx <= ALL.lx && ALL.hx <= h.hx && h.ly <= ALL.ly && ALL.hy <= h.hy) {
        out = zones;
        for (const On &o : zones) if (c.level < o.level) return c.level < DEEPEST;
        return false;
    }
    for (const On &o : zones) {
        if (apart(o.box, h)) continue;
        Class k = class_on(*o.zone, h);
        if (k != Outside) { out.push_back(o); split |= k == Mixed && c.level < o.level; }
    }
    return split && c.level < DEEPEST;
}
// The lists of a node, and the rows of the nodes below, of zones on a cell.
static void whole(const Zones &zones, bool split, const Cell &c, int k, Pack &pack, i64 &rows, u32 &most) {
    if (!split) { pack.leaf(zones.size()); most = std::max<u32>(most, zones.size()); return; }
    Pack own; Pack *p = &pack;
    int down = k - 1;
    if (k == 0) { p = &own; down = 3; }
    Zones &part = BUFFERS[c.level + 1];
    for (int q = 0; q < 4; q++) { Cell d = child(c, q); bool s = narrow(zones, d, part); whole(part, s, d, down, *p, rows, most); }
    if (k == 0) rows += 1 + own.rows;
}
// The lists alone, within a node.
struct Lists {
    static void go(const Zones &zones, bool split, const Cell &c, int k, Pack &a, Pack &b) {
        if (!split) { a.leaf(zones.size()); b.leaf(zones.size()); return; }
        if (k == 0) return;
        Zones &part = BUFFERS[c.level + 1];
        for (int q = 0; q < 4; q++) { Cell d = child(c, q); bool s = narrow(zones, d, part); go(part, s, d, k - 1, a, b); }
    }
};
// The same before and after one more zone.
static void both(const Zones &zones, bool split, const Zone &z, bool wanted, const Cell &c, int k, Pack &a, Pack &b, Shift &s) {
    if (!split && !wanted) { a.leaf(zones.size()); b.leaf(zones.size() + 1); s.most = std::max<u32>(s.most, zones.size() + 1); return; }
    if (!split) { a.leaf(zones.size()); Zones all(zones); all.push_back({z.box, z.level, &z}); whole(all, true, c, k, b, s.more, s.most); return; }
    Pack oa, ob; Pack *pa = &a, *pb = &b;
    int down = k - 1;
    if (k == 0) { pa = &oa; pb = &ob; down = 3; }
    Zones &mine = BUFFERS[c.level + 1];
    for (int q = 0; q < 4; q++) {
        Cell d = child(c, q);
        Class cl = class_on(z, hull(d));
        bool sp = narrow(zones, d, mine);
        if (cl == Outside) {
            Lists::go(mine, sp, d, down, *pa, *pb);
        } else both(mine, sp, z, d.level < DEEPEST && asks(z, cl, d.level), d, down, *pa, *pb, s);
    }
    if (k == 0) { s.less += 1 + oa.rows; s.more += 1 + ob.rows; }
}

static u32 mixed3(u32 a, u32 b, u32 k) { u32 h = a * 0x9E3779B1u ^ b * 0x85EBCA77u ^ k * 0xC2B2AE3Du; h = (h ^ (h >> 15)) * 0x2C1B3C6Du; return h ^ (h >> 12); }
static const int SIDE = 40000, COLUMNS = 50, ORIGIN = 100000; static const u32 OFF = 5000;
static int off(u32 a, u32 b, u32 k) { return k % 12 == 0 ? 0 : int(mixed3(a, b, k) % (2 * OFF + 1)) - int(OFF); }
static Point across(u32 i, u32 j, u32 k) { return {ORIGIN + int(i) * SIDE + int(k) * (SIDE / 12), ORIGIN + int(j) * SIDE + off(i, j, k)}; }
static Point along(u32 i, u32 j, u32 k) { return {ORIGIN + int(i) * SIDE + off(j, i + 1000, k), ORIGIN + int(j) * SIDE + int(k) * (SIDE / 12)}; }
static Zone tile(u32 n) {
    u32 i = n % COLUMNS, j = n / COLUMNS;
    std::vector<Point> r;
    for (u32 k = 0; k < 12; k++) r.push_back(across(i, j, k));
    for (u32 k = 0; k < 12; k++) r.push_back(along(i + 1, j, k));
    for (u32 k = 0; k < 12; k++) r.push_back(across(i, j + 1, 12 - k));
    for (u32 k = 0; k < 12; k++) r.push_back(along(i, j, 12 - k));
    Zone z; z.key = n;
    for (size_t v = 0; v < r.size(); v++) z.sides.push_back({r[v], r[(v + 1) % r.size()]});
    auto box = [](const Side *s, size_t n) { Hull h = {INT32_MAX, INT32_MAX, INT32_MIN, INT32_MIN};
        for (size_t i = 0; i < n; i++) for (const Point &p : {s[i].a, s[i].b}) { h.lx = std::min(h.lx, p.x); h.hx = std::max(h.hx, p.x); h.ly = std::min(h.ly, p.y); h.hy = std::max(h.hy, p.y); } return h; };
    z.box = box(z.sides.data(), z.sides.size());
    for (size_t v = 0; v < z.sides.size(); v += BLOCK) z.frames.push_back(box(&z.sides[v], std::min<size_t>(BLOCK, z.sides.size() - v)));
    z.chain = (1 + 1 + r.size() + 254) / 255;
    return z;
}

int main(int argc, char **argv) {
    u32 n = argc > 1 ? atoi(argv[1]) : 4000;
    Zones zones;
    i64 size = 1; u32 most = 0;
    double all = cpu();
    double first = 0, last = 0;
    for (u32 k = 0; k < n; k++) {
        double t = cpu();
        Zone *z = new Zone(tile(k));
        z->level = cover_level(*z, 64);
        Zones &on = BUFFERS[0];
        ALL = {INT32_MAX, INT32_MAX, INT32_MIN, INT32_MIN};
        for (const On &o : zones) ALL = {std::min(ALL.lx, o.box.lx), std::min(ALL.ly, o.box.ly), std::max(ALL.hx, o.box.hx), std::max(ALL.hy, o.box.hy)};
        bool split = narrow(zones, ROOT, on);
        Class c = class_on(*z, hull(ROOT));
        Pack a, b; Shift s;
        // the root is a node of its own
        both(on, split, *z, asks(*z, c, 0), ROOT, 0, a, b, s);
        if (!split && asks(*z, c, 0)) s.less += 1;
        size += s.more - s.less + z->chain;
        most = std::max(most, s.most);
        zones.insert(std::upper_bound(zones.begin(), zones.end(), k, [](u32 key, const On &o) { return key < o.zone->key; }), {z->box, z->level, z});
        double us = (cpu() - t) * 1e6;
        if (k >= 50 && k < 150) first += us / 100;
        if (k + 100 >= n) last += us / 100;
    }
    double ms = (cpu() - all) * 1e3;
    printf("%u zones: size %lld, most references %u; an add about the 100th %.0f us, among the last 100 %.0f us; all %.0f ms\n", n, (long long)size, most, first, last, ms);
}
