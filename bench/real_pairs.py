#!/usr/bin/python3
"""Compares what `actjoin join` wrote for a script with what GEOS says of the same polygons and points.

    real_pairs.py SCRIPT OUTPUT [DIGITS]

The script has `zone` lines, a `sync`, and `point` lines with different ids. Each number of the script is
rounded first, as the script's reader rounds it: to so many digits (7), ties away from zero. GEOS answers for
each pair of a point and a zone where the point is no nearer than two units to the zone's border. For a nearer one the
crossings are counted here in whole numbers, by the rule of docs/FORMATS.md, since a border counts for one of its
sides there and for none in GEOS.
"""

import re
import sys
import warnings
from decimal import ROUND_HALF_UP, Decimal

from shapely import wkt
from shapely.errors import ShapelyDeprecationWarning
from shapely.geometry import box
from shapely.prepared import prep
from shapely.strtree import STRtree

# The tree of Debian 12 warns that its answers change with the next version of the bindings.
warnings.simplefilter("ignore", ShapelyDeprecationWarning)

NUMBER = re.compile(r"[-+]?(?:\d+\.?\d*|\.\d+)(?:[eE][-+]?\d+)?")
NEAR = 2


def units(text, digits):
    """The coordinate of a number."""
    return int(Decimal(text).scaleb(digits).quantize(Decimal(1), ROUND_HALF_UP))


def zone_of(line, digits):
    """The key of a zone's line, and its polygon in units."""
    _, key, text = line.split(",", 2)
    rounded = NUMBER.sub(lambda found: str(units(found[0], digits)), text.strip('"'))
    return int(key), wkt.loads(rounded)


def read_script(path, digits):
    """The zones and the points of a script, by their keys and ids."""
    zones, points = {}, {}
    for line in open(path):
        line = line.rstrip("\n")
        if line.startswith("zone,"):
            key, polygon = zone_of(line, digits)
            zones[key] = polygon
        elif line.startswith("point,"):
            _, number, x, y = line.split(",")
            points[int(number)] = (units(x, digits), units(y, digits))
    return zones, points


def read_output(path):
    """The keys of the zones that were accepted, and the pairs of an id and a key."""
    accepted, pairs = set(), set()
    for line in open(path):
        said = re.match(r"zone (\d+) ok$", line)
        pair = re.match(r"(\d+),(\d+)$", line)
        if said:
            accepted.add(int(said[1]))
        elif pair:
            found = int(pair[1]), int(pair[2])
            if found in pairs:
                sys.exit(f"{path}: {line.strip()} comes twice")
            pairs.add(found)
        elif not line.startswith("batch "):
            sys.exit(f"{path}: {line.strip()}")
    return accepted, pairs


def counts(a, b, x, y):
    """Whether the edge from a to b crosses the row of the point on the point's right."""
    if (a[1] > y) == (b[1] > y):
        return False
    low, high = (a, b) if a[1] < b[1] else (b, a)
    return (high[0] - low[0]) * (y - low[1]) - (x - low[0]) * (high[1] - low[1]) > 0


def is_inside(polygon, x, y):
    """Whether an odd number of edges counts."""
    odd = False
    for part in getattr(polygon, "geoms", [polygon]):
        for ring in (part.exterior, *part.interiors):
            corners = [(int(corner[0]), int(corner[1])) for corner in ring.coords]
            odd ^= sum(counts(a, b, x, y) for a, b in zip(corners, corners[1:])) % 2 == 1
    return odd


def answers(zones, points):
    """The pairs that are inside, and how many of all pairs were decided in whole numbers."""
    inside, near = set(), 0
    places = [(key, polygon, prep(polygon)) for key, polygon in zones.items()]
    boxes = [box(*polygon.bounds) for polygon in zones.values()]
    tree = STRtree(boxes)
    place_of = {id(one): place for place, one in enumerate(boxes)}
    for number, (x, y) in points.items():
        around = box(x - NEAR, y - NEAR, x + NEAR, y + NEAR)
        for found in tree.query(around):
            # The box comes itself, and in later versions of the bindings its place.
            key, polygon, prepared = places[place_of.get(id(found), found)]
            if prepared.disjoint(around):
                continue
            is_near = not prepared.contains_properly(around)
            near += is_near
            if not is_near or is_inside(polygon, x, y):
                inside.add((number, key))
    return inside, near


def compare(script, output, digits):
    """Prints how many pairs were compared, and the first of those that differ. True where none does."""
    zones, points = read_script(script, digits)
    accepted, pairs = read_output(output)
    if accepted != set(zones):
        sys.exit(f"other zones: {sorted(accepted ^ set(zones))[:10]}")
    inside, near = answers(zones, points)
    missing, extra = inside - pairs, pairs - inside
    print(f"{len(zones)} zones, {len(points)} points: {len(zones) * len(points)} pairs compared, {len(inside)} inside;")
    print(f"{near} of all near a border, and decided in whole numbers; {len(missing) + len(extra)} differ")
    for sign, some in (("missing", missing), ("extra", extra)):
        for number, key in sorted(some)[:10]:
            print(f"{sign}: {number},{key} at {points[number]}")
    return not missing and not extra


def main():
    if len(sys.argv) not in (3, 4):
        sys.exit(__doc__)
    digits = int(sys.argv[3]) if len(sys.argv) == 4 else 7
    sys.exit(0 if compare(sys.argv[1], sys.argv[2], digits) else 1)


if __name__ == "__main__":
    main()
