#!/usr/bin/env python3
"""Measures a script that is heard in pieces: pieces.py PROGRAM [BEFORE [ROUNDS]]. It plays lines
that read, 16 KB and 16 MB of them, by `try`, `run` and `explain`, and prints the peak memory of
both with its ratio, and the lines a second of processor time. BEFORE is another program that does
the same beside it; where none is named it is release/genesis."""

import pathlib
import statistics
import subprocess
import sys
import tempfile

from measure import Job, Work, heads, measure, row, show
from scripts import SCHEMA

TOP = pathlib.Path(__file__).resolve().parent.parent
EQUATION = "part = actual(bplus)\n"
RECORDS = 1000
SMALL, LARGE = 16 * 1024, 16 * 1024 * 1024
# no run takes longer than two minutes
LIMIT = ["timeout", "120"]


def write_script(path, size):
    """Writes a script of at most so many bytes: lines that read, one in ten a find by key. Gives
    the number of lines."""
    lines, length = [], 0
    while True:
        key = len(lines) * 7 % RECORDS
        line = f"get part {key}\n" if len(lines) % 10 else f"find part where number = {key}\n"
        length += len(line)
        if length > size:
            path.write_text("".join(lines))
            return len(lines)
        lines.append(line)


def insertions():
    lines = [f'insert part {key} {key % 10} "part {key}"\n' for key in range(RECORDS)]
    return "".join(["begin\n", *lines, "commit\n"])


def call(program, *words, script=""):
    subprocess.run([program, *words], input=script.encode(), stdout=subprocess.DEVNULL, check=True)


def main():
    if len(sys.argv) not in (2, 3, 4):
        sys.exit(__doc__)
    program = str(pathlib.Path(sys.argv[1]).resolve())
    before = str(pathlib.Path(sys.argv[2]).resolve() if sys.argv[2:] else TOP / "release/genesis")
    rounds = int(sys.argv[3]) if sys.argv[3:] else 5
    with tempfile.TemporaryDirectory() as name:
        folder = pathlib.Path(name)
        texts = [str(folder / "schema"), str(folder / "equation")]
        (folder / "schema").write_text(SCHEMA)
        (folder / "equation").write_text(EQUATION)
        counts = {size: write_script(folder / str(size), size) for size in (SMALL, LARGE)}
        jobs = {}
        for number, by in enumerate((program, before)):
            device = str(folder / f"device{number}")
            call(by, "make", *texts, device, "2007")
            call(by, "run", *texts, device, script=insertions())
            for command, more in (("try", []), ("run", [device]), ("explain", [])):
                for size in (SMALL, LARGE):
                    words = [*LIMIT, by, command, *texts, *more]
                    job = Job(f"{command} by {by}", words, str(folder / str(size)))
                    jobs[command, size, number] = job
        # (each job right before that of the other program)
        order = sorted(jobs, key=lambda it: it[:2])
        for command in ("try", "run", "explain"):
            if jobs[command, SMALL, 0].run() != jobs[command, SMALL, 1].run():
                sys.exit(f"{command}: the two programs say other lines")
        for job in jobs.values():
            job.seconds.clear()
            job.peaks.clear()
        measure([jobs[it] for it in order], rounds)
        lines = counts[LARGE] - counts[SMALL]
        rows, peaks = heads(), []
        for command in ("try", "run", "explain"):
            works = [Work(jobs[command, LARGE, it], jobs[command, SMALL, it]) for it in (0, 1)]
            rate = f"{lines / works[0].seconds(min) / 1e6:.2f} million lines/s"
            title = f"`{command}` of {counts[LARGE]:,} lines that read"
            rows.append(row(title, works[0], "before", works[1], rate))
            for number, whose in enumerate(("it", "before")):
                if not jobs[command, SMALL, number].peaks:
                    continue
                # (the loader's random places move each peak by up to a tenth)
                small, large = (
                    statistics.median(jobs[command, size, number].peaks) for size in (SMALL, LARGE)
                )
                peaks.append(f"`{command}`, {whose}: {small / 1e6:.2f} MB with 16 KB, "
                             f"{large / 1e6:.2f} MB with 16 MB, ratio {large / small:.2f}")
        show(rows)
        print("\n".join(["", *(peaks or ["Peak memory was not taken: GNU time isn't installed."])]))


main()
