#!/usr/bin/env python3
"""How fast an index answers and changes, beside GEOS and S2; with --stress, whether its answers are right beside updates.

The programs are kept here with .txt appended to each file's name, since the gate takes sources in crates/
alone. This copies the crates that they stand on to a folder of its own, with what their checks keep in out/
where there is any, puts the program beside them, proves and builds it by `rt run`, and runs it.

GEOS and S2 (apt-get install libgeos-dev libs2-dev) and a native program of the same design answer the same points and
polygons in turn with the index.
"""
import pathlib
import shutil
import statistics
import subprocess
import sys
import tempfile

HERE = pathlib.Path(__file__).resolve().parent
TOP = HERE.parent.parent
sys.path.insert(0, str(TOP / 'bench'))
from listing import laid                        # noqa: E402

USES = 'act_grid act_io act_geom act_base act_index'
TURNS = 3
NATIVE = '-O3 -march=x86-64-v2 -std=c++17 -pthread -Wa,-mbranches-within-32B-boundaries'.split()


def made(scratch, name):
    """Builds one of the programs in the scratch folder."""
    program = laid(scratch, HERE / name, USES)
    done = subprocess.run(['rt', 'run', '--jobs', '1'], cwd=program, stdout=subprocess.PIPE, text=True)
    sys.stdout.write(''.join(done.stdout.splitlines(True)[-40:]))
    done.check_returncode()
    return program / 'out' / name


def told(command, found, side):
    """Runs a program. Keeps its rates in points a second, and gives how many zones each case had."""
    zones = {}
    for line in subprocess.run(command, stdout=subprocess.PIPE, text=True, check=True).stdout.splitlines():
        print(f'  {side} {line}', flush=True)
        words = line.split()
        if words[1] == 'zones':
            zones[words[0]] = words[2]
        elif len(words) > 5 and words[3] == 'points':
            found.setdefault((words[0], words[1], side), []).append(int(words[2]) / int(words[4]))
    return zones


def main():
    scratch = pathlib.Path(tempfile.mkdtemp(prefix='act_index_bench_'))
    if '--stress' in sys.argv:
        made(scratch, 'index_stress')
    else:
        mine, found = made(scratch, 'index_cost'), {}
        geos, s2, native = scratch / 'geos_cost', scratch / 's2_cost', scratch / 'native_cost'
        subprocess.run(['cc', '-O2', '-o', geos, HERE / 'geos_cost.c', '-lgeos_c'], check=True)
        subprocess.run(['g++', '-O2', '-std=c++17', '-o', s2, HERE / 's2_cost.cpp', '-ls2'], check=True)
        subprocess.run(['g++', *NATIVE, '-o', native, HERE / 'native_cost.cpp'], check=True)
        for _ in range(TURNS):
            cases = [f'{name}={count}' for name, count in told([mine], found, 'index').items()]
            told([geos] + cases, found, 'geos')
            told([s2] + cases, found, 's2')
            told([native] + cases, found, 'native')
        for (name, how, side), rates in found.items():
            beside = statistics.median(found[name.removeprefix('fine-'), 'one', 'geos'])
            rate = statistics.median(rates)
            print(f'{name} {how} {side}: {rate:.2f} million points a second, {rate / beside:.1f} times GEOS')
    shutil.rmtree(scratch)


main()
