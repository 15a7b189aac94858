#!/usr/bin/python3
"""Writes a script of zones that tile a field, with jagged sides that neighbours share, and of points over them.

    tiling_script.py COLUMNS ROWS CUTS POINTS [TRAININGS]

Each side of a tile has so many vertices, 0.00032 degrees from one to the next, and those that are no corner lie up
to 0.0005 degrees off it. So 20 columns of 15 rows with 12 cuts are 300 zones of 48 vertices. The points follow a
sync. With trainings, the points come twice: before them, as their sample, and after them. The same words write the
same script.
"""

import sys

STEP, OFF = 3_200, 5_000


def mixed(a, b, k):
    """A number that looks random, from three others."""
    h = (a * 0x9E3779B1 ^ b * 0x85EBCA77 ^ k * 0xC2B2AE3D) & 0xFFFFFFFF
    h = (h ^ h >> 15) * 0x2C1B3C6D & 0xFFFFFFFF
    return h ^ h >> 12


def spelled(units):
    """Degrees of so many units of 1e-7."""
    return f"{units // 10**7}.{units % 10**7:07}"


def tile(i, j, cuts):
    """The corners and cuts of a tile, in units."""
    side = STEP * cuts

    def off(a, b, k):
        return mixed(a, b, k) % (2 * OFF + 1) - OFF if k % cuts else 0

    def across(row, k):
        return (i + 1) * side + k * STEP, (row + 1) * side + off(i, row, k)

    def along(column, k):
        return (column + 1) * side + off(j, column + 1000, k), (j + 1) * side + k * STEP

    down = range(cuts, 0, -1)
    return ([across(j, k) for k in range(cuts)] + [along(i + 1, k) for k in range(cuts)]
            + [across(j + 1, k) for k in down] + [along(i, k) for k in down])


def point_lines(columns, rows, side, count):
    for n in range(count):
        x = side + mixed(n, 1, 7) % (columns * side)
        y = side + mixed(n, 2, 9) % (rows * side)
        print(f"point,{n},{spelled(x)},{spelled(y)}")


def main():
    if len(sys.argv) not in (5, 6):
        sys.exit(__doc__)
    columns, rows, cuts, count = map(int, sys.argv[1:5])
    for n in range(columns * rows):
        corners = tile(n % columns, n // columns, cuts)
        ring = ",".join(f"{spelled(x)} {spelled(y)}" for x, y in [*corners, corners[0]])
        print(f'zone,{n},"POLYGON(({ring}))"')
    print("sync")
    point_lines(columns, rows, STEP * cuts, count)
    if len(sys.argv) == 6:
        for _ in range(int(sys.argv[5])):
            print("train,1")
        print("sync")
        point_lines(columns, rows, STEP * cuts, count)


if __name__ == "__main__":
    main()
