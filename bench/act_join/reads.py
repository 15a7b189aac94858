#!/usr/bin/env python3
"""How many words of rows a script's batches read, before a training and after it.

    reads.py SCRIPT [THRESHOLD]

SCRIPT has zones and then points, as `real_script.py` writes it. The same points are joined once, and once more after a
training with this threshold (64), whose sample is the last 65,536 of them.

The program is kept here with .txt appended to its file's name, since the gate takes sources in crates/ alone. This copies
the crates that it stands on to a folder of its own, proves and builds it there by `rt run`, and runs it.
"""
import pathlib
import re
import subprocess
import sys
import tempfile

HERE = pathlib.Path(__file__).resolve().parent
TOP = HERE.parent.parent
sys.path.insert(0, str(TOP / 'bench'))
from listing import laid                        # noqa: E402

NAME = 'join_reads'
USES = 'act_grid act_io act_words act_join'


def made(scratch):
    """Builds the program in the scratch folder. With no words it ends with the status 1 when it was built."""
    program = laid(scratch, HERE / NAME, USES)
    subprocess.run(['rt', 'run', '--jobs', '1'], cwd=program, stdin=subprocess.DEVNULL)
    return program / 'out' / NAME


def reads(program, script):
    """How many words the script's batches read."""
    done = subprocess.run([program, 'join'], input=script, stdout=subprocess.DEVNULL, stderr=subprocess.PIPE, text=True, check=True)
    return int(re.search(r'read (\d+) words', done.stderr)[1])


def main():
    if len(sys.argv) not in (2, 3):
        sys.exit(__doc__)
    threshold = int(sys.argv[2]) if len(sys.argv) == 3 else 64
    lines = open(sys.argv[1]).readlines()
    points = [line for line in lines if line.startswith('point,')]
    with tempfile.TemporaryDirectory(prefix='act_join_bench_') as scratch:
        program = made(pathlib.Path(scratch))
        before = reads(program, ''.join(lines))
        both = reads(program, ''.join([*lines, 'sync\n', f'train,{threshold}\n', 'sync\n', *points]))
    print(f'{len(points)} points: {before} words before the training, {both - before} after it')


main()
