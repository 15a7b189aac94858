#!/usr/bin/python3
"""Writes a script of real polygons and of points among them, for `actjoin join`.

The polygons are outlines that Debian packages bring, in degrees:

    countries  177 countries, coarse            python3-geopandas
    counties   100 counties of North Carolina   r-cran-sf, python3-geopandas
    chart      some 500 countries and states,   gmt-dcw, python3-netcdf4
               from hundreds to hundreds of
               thousands of vertices each

Each source has a layer of its own: 0, 1 and 2, the upper byte of its keys. An outline of several parts is
one zone. A third of the points lie anywhere among the polygons, a third near vertices, most of them within
a hundred-millionth to a tenth of a degree, and a third in twenty clusters. The same words write the same script.
"""

import argparse
import random
import sys

COUNTRIES = "/usr/lib/python3/dist-packages/geopandas/datasets/naturalearth_lowres/naturalearth_lowres.shp"
COUNTIES = "/usr/lib/R/site-library/sf/shape/nc.shp"
CHART = "/usr/share/gmt-dcw/dcw-gmt.nc"

# The points that a polygon's text may have.
MOST_POINTS = 262_144

# The count of steps that stands between two rings of an outline of the chart.
MARK = 65_535


def shape_file(path):
    """The outlines of a shape file, each a list of parts, and each part a list of rings."""
    import geopandas

    for outline in geopandas.read_file(path).geometry:
        parts = getattr(outline, "geoms", [outline])
        yield [[list(ring.coords) for ring in (part.exterior, *part.interiors)] for part in parts]


def ring_of(longitudes, latitudes):
    """A closed ring. One that lies past 180 degrees is turned back by a whole turn."""
    turned = [x - 360 for x in longitudes] if min(longitudes) >= 180 else list(longitudes)
    ring = list(zip(turned, latitudes))
    return ring if ring[0] == ring[-1] else ring + ring[:1]


def chart_rings(longitudes, latitudes, is_mark):
    """The rings of an outline of the chart, which marks cut apart."""
    begin = 0
    for end in [*is_mark.nonzero()[0], len(longitudes)]:
        if end - begin >= 3:
            yield ring_of(longitudes[begin:end].tolist(), latitudes[begin:end].tolist())
        begin = end + 1


def degrees(steps):
    """The degrees of a variable of the chart, which counts steps from the least."""
    return steps[:] / steps.getncattr("scale") + steps.getncattr("min")


def chart(path):
    """The outlines of the chart. Each ring is a part of its own: lakes count as holes by the even-odd rule."""
    import netCDF4

    data = netCDF4.Dataset(path)
    data.set_auto_mask(False)
    for name in sorted(data.variables):
        if not name.endswith("_lon"):
            continue
        across, up = data.variables[name], data.variables[name[:-3] + "lat"]
        rings = chart_rings(degrees(across), degrees(up), across[:] == MARK)
        yield [[ring] for ring in rings]


SOURCES = {
    "countries": lambda: shape_file(COUNTRIES),
    "counties": lambda: shape_file(COUNTIES),
    "chart": lambda: chart(CHART),
}


def ring_text(ring):
    return "(" + ",".join(f"{x!r} {y!r}" for x, y in ((float(p[0]), float(p[1])) for p in ring)) + ")"


def polygon_text(parts):
    """The well-known text of an outline."""
    texts = ["(" + ",".join(ring_text(ring) for ring in rings) + ")" for rings in parts]
    if len(texts) == 1:
        return "POLYGON " + texts[0]
    return "MULTIPOLYGON (" + ",".join(texts) + ")"


def vertices_of(parts):
    return [vertex for rings in parts for ring in rings for vertex in ring]


def outlines(sources, most):
    """Each outline with no more points than these, with the key of its zone."""
    for layer, source in enumerate(SOURCES):
        if source not in sources:
            continue
        for place, parts in enumerate(SOURCES[source]()):
            if 0 < len(vertices_of(parts)) <= most:
                yield (layer << 24) + place, parts


def points_among(some, count, seed):
    """Points among outlines of which some vertices are given."""
    draw = random.Random(seed)
    columns, rows = zip(*some)
    west, east, south, north = min(columns), max(columns), min(rows), max(rows)
    centres = [draw.choice(some) for _ in range(20)]
    for place in range(count):
        if place % 3 == 0:
            x, y = draw.uniform(west, east), draw.uniform(south, north)
        elif place % 3 == 1:
            x, y = draw.choice(some)
            away = 10 ** draw.uniform(-8, -1)
            x, y = x + draw.gauss(0, away), y + draw.gauss(0, away)
        else:
            x, y = draw.choice(centres)
            x, y = x + draw.gauss(0, 1.5), y + draw.gauss(0, 1.5)
        yield min(max(x, -200), 200), min(max(y, -100), 100)


def words():
    parser = argparse.ArgumentParser(description=__doc__, formatter_class=argparse.RawDescriptionHelpFormatter)
    parser.add_argument("--sources", default=",".join(SOURCES), help="joined by commas (all)")
    parser.add_argument("--points", type=int, default=120_000, help="how many points (120000)")
    parser.add_argument("--most", type=int, default=20_000, help="the points that an outline may have (20000)")
    parser.add_argument("--texts", action="store_true", help="write the polygons' texts alone, a line each")
    parser.add_argument("--seed", type=int, default=1, help="begins the random numbers (1)")
    args = parser.parse_args()
    args.sources = args.sources.split(",")
    if not set(args.sources) <= set(SOURCES) or args.most > MOST_POINTS:
        parser.error("sources are " + ", ".join(SOURCES) + f", and an outline has at most {MOST_POINTS} points")
    return args


def main():
    args = words()
    write = sys.stdout.write
    some = []
    for key, parts in outlines(args.sources, args.most):
        text = polygon_text(parts)
        write(text + "\n" if args.texts else f'zone,{key},"{text}"\n')
        vertices = vertices_of(parts)
        some += vertices[:: max(1, len(vertices) // 50)]
    if args.texts:
        return
    write("sync\n")
    for place, (x, y) in enumerate(points_among([(float(v[0]), float(v[1])) for v in some], args.points, args.seed)):
        write(f"point,{place + 1},{x!r},{y!r}\n")


if __name__ == "__main__":
    main()
