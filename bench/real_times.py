#!/usr/bin/python3
"""Times `actjoin join` on a script, and on parts of it, so that the differences say where the time goes.

    real_times.py SCRIPT [ROUNDS]

    whole        the script
    zones        its zones alone: reading and parsing them
    points       its points alone: reading, cutting and parsing them
    far points   as many points, all outside of every zone's bounding box: what is read, and boxes

What the edges take and the pairs that are printed is left: the whole less the run with far points. Each is the least
of so many rounds (5), taken in turn.
"""

import os
import subprocess
import sys
import tempfile
import time

TOP = os.path.join(os.path.dirname(os.path.abspath(__file__)), "..")
LAUNCHER = os.path.join(TOP, "actjoin")
PROGRAM = os.path.join(TOP, "crates", "actjoin", "out", "actjoin")


def parts_of(lines):
    """The scripts to be timed, by name."""
    zones = [line for line in lines if not line.startswith("point,")]
    points = [line for line in lines if line.startswith("point,")]
    far = [f"point,{place},-199.{place:07},-99.5\n" for place in range(len(points))]
    return {"whole": lines, "zones": zones, "points": points, "far points": zones + far}


def seconds(path):
    """The seconds that a run takes."""
    with open(path) as script:
        begin = time.perf_counter()
        subprocess.run([PROGRAM, "join"], stdin=script, stdout=subprocess.DEVNULL, check=True)
        return time.perf_counter() - begin


def main():
    if len(sys.argv) not in (2, 3):
        sys.exit(__doc__)
    rounds = int(sys.argv[2]) if len(sys.argv) == 3 else 5
    parts = parts_of(open(sys.argv[1]).readlines())
    with tempfile.TemporaryDirectory() as folder:
        paths = {}
        for name, lines in parts.items():
            paths[name] = os.path.join(folder, name)
            with open(paths[name], "w") as script:
                script.writelines(lines)
        times = {name: [] for name in parts}
        # The launcher builds the program where it isn't there, and is not timed.
        subprocess.run([LAUNCHER, "join"], stdin=subprocess.DEVNULL, check=True)
        for _ in range(rounds):
            for name in parts:
                times[name].append(seconds(paths[name]))
        for name in parts:
            size = os.path.getsize(paths[name])
            print(f"{name:12} {min(times[name]):8.3f} s   {size / 1e6:8.1f} MB   {len(parts[name]):7} lines")


if __name__ == "__main__":
    main()
