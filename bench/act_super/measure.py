#!/usr/bin/env python3
"""How long updates of the super covering take, with and without trained cells.

The program is kept here with .txt appended to each file's name, since the gate takes sources in crates/
alone. This copies the repository's crates to a folder of its own, puts the program beside them, proves
and builds it by `rt run`, and runs it.
"""
import pathlib
import shutil
import subprocess
import tempfile

HERE = pathlib.Path(__file__).resolve().parent
TOP = HERE.parent.parent
NAME = 'super_cost'


def main():
    scratch = pathlib.Path(tempfile.mkdtemp(prefix='act_super_bench_'))
    shutil.copytree(TOP / 'crates', scratch / 'crates', ignore=shutil.ignore_patterns('out'))
    shutil.copy(TOP / 'HANDLES', scratch)
    lines = (TOP / 'crates.txt').read_text()
    (scratch / 'crates.txt').write_text(lines + f'{NAME}: act_grid act_geom act_super\n')
    for kept in (HERE / NAME).rglob('*.txt'):
        to = scratch / 'crates' / NAME / kept.relative_to(HERE / NAME).with_suffix('')
        to.parent.mkdir(parents=True, exist_ok=True)
        shutil.copy(kept, to)
    subprocess.run(['rt', 'run'], cwd=scratch / 'crates' / NAME, check=True)
    shutil.rmtree(scratch)


main()
