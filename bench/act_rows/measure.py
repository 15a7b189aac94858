#!/usr/bin/env python3
"""What a step of act_rows costs beside plain atomics in Rust, and how long its table takes to make.

The programs are kept here with .txt appended to each file's name, since the gate takes sources in
crates/ alone. This copies the repository's crates to a folder of its own, puts the programs beside
them, proves and builds them by `rt run`, and runs each in turn with the Rust program.
"""
import os
import pathlib
import shutil
import statistics
import subprocess
import sys
import tempfile

HERE = pathlib.Path(__file__).resolve().parent
TOP = HERE.parent.parent
CRATES = {
    "rows_cost": "act_grid act_base act_rows act_rows_uses",
    "rows_new": "act_grid act_rows",
    "stress": "act_grid act_base act_rows",
}
# How many times each loop does its step.
COUNTS = {"word": 400_000 * 256, "behind": 400_000 * 256, "chain": 40_000_000, "store": 40_000 * 256, "pin": 4_000_000}
RUNS = 15


def times(command):
    out = subprocess.run(command, stdout=subprocess.PIPE, text=True, check=True).stdout
    return {line.split()[0]: int(line.split()[1]) for line in out.splitlines() if len(line.split()) > 2}


def main():
    scratch = pathlib.Path(tempfile.mkdtemp(prefix="act_rows_bench_"))
    shutil.copytree(TOP / "crates", scratch / "crates", ignore=shutil.ignore_patterns("out"))
    shutil.copy(TOP / "HANDLES", scratch)
    lines = (TOP / "crates.txt").read_text()
    for name, stands_on in CRATES.items():
        lines += f"{name}: {stands_on}\n"
        for kept in (HERE / name).rglob("*.txt"):
            to = scratch / "crates" / name / kept.relative_to(HERE / name).with_suffix("")
            to.parent.mkdir(parents=True, exist_ok=True)
            shutil.copy(kept, to)
    (scratch / "crates.txt").write_text(lines)
    plain = scratch / "steps"
    subprocess.run(["rustc", "-C", "opt-level=3", "-C", "target-cpu=native", "-o", plain, HERE / "steps.rs"], check=True)
    for name in ("rows_cost", "rows_new"):
        subprocess.run(["rt", "run"], cwd=scratch / "crates" / name, stdout=subprocess.DEVNULL, check=True)
    rows = scratch / "crates/rows_cost/out/rows_cost"
    mine, rust = {}, {}
    for _ in range(RUNS):
        for found, command in ((mine, rows), (rust, plain)):
            for step, time in times([command]).items():
                found.setdefault(step, []).append(time)
    for step, beside in (("word", "word"), ("word", "behind"), ("chain", "chain"), ("store", "store"), ("pin", "pin")):
        a, b = (statistics.median(found[of]) * 1000 / COUNTS[of] for found, of in ((mine, step), (rust, beside)))
        print(f"{step} beside {beside}: {a:.2f} ns and {b:.2f} ns, {a / b:.2f} times")
    print("new at 16,384 rows:", statistics.median(mine["new"]), "ms")
    print("at 262,144 rows:", flush=True)
    greatest = subprocess.Popen([scratch / "crates/rows_new/out/rows_new"])
    print("its peak memory:", os.wait4(greatest.pid, 0)[2].ru_maxrss // 1024, "MiB")
    if "--stress" in sys.argv:
        # The stress program is run without a proof: that its rows are free is what it tries out.
        subprocess.run(["rt", "try"], cwd=scratch / "crates/stress", check=True)
    shutil.rmtree(scratch)


main()
