#!/usr/bin/env python3
"""Measures devices by their size, up to the largest: large.py PROGRAM [ROUNDS]. It prints what `make` and `inspect`
take, what opening reads, the instructions of a commit of one page, how many pages of the owner table a claim reads,
and the peak memory of `run` with the bytes that a page of the device takes of it. Instructions are counted by
`valgrind`, with the clears of buffers in brackets, and reads of a block by `strace`. Peaks are medians of so many
rounds, 15 where none are named."""

import os
import pathlib
import re
import statistics
import subprocess
import sys
import tempfile

from device import counted
from measure import Job

BLOCK = 4096
# The last size of the first layout, and the first and the last one of the second.
SIZES = 65_543, 65_544, 524_303
SMALL, LARGEST = 101, SIZES[-1]
HEAP = "file f (k int, t text 200)\n", "f = actual(heap)\n"
# Each file has eight leaves, by its key.
FILES, PARTS = 25, 8
COMMITS = 20
# So many records of 200 letters fill a page.
A_PAGE = 19
ENTRIES = BLOCK // 2


def parts(kind, bound=1):
    """The term of a file in so many parts of a kind."""
    return f"actual({kind})" if bound == PARTS else f"partition(k {bound}, actual({kind}), {parts(kind, bound + 1)})"


def in_parts(kind):
    schema = "".join(f"file f{number} (k int, t text 20)\n" for number in range(FILES))
    return schema, "".join(f"f{number} = {parts(kind)}\n" for number in range(FILES))


def layout(blocks):
    """The blocks before the first slot, the pages, and the pages of the owner table."""
    head, tables = (7, 16) if blocks <= SIZES[0] else (14, 128)
    return head, (blocks - head) // 2, tables


def transactions(count):
    """So many transactions, each of which changes the one page of a heap."""
    inserts = "begin\n" + "".join(f'insert f {number} "old"\n' for number in range(3)) + "commit\n"
    return inserts + "".join(f'begin\nupdate f 1 t "new {number}"\ncommit\n' for number in range(count))


def inserts(count):
    lines = [f'insert f {number} "{"x" * 200}"\n' for number in range(count)]
    return "".join(["begin\n", *lines, "commit\n"])


class Bench:
    """The program, and a folder for its files."""

    def __init__(self, program, folder):
        self.program, self.folder = program, folder
        self.device = folder / "device"

    def words(self, command, *more):
        return [self.program, command, str(self.folder / "schema"), str(self.folder / "equation"), str(self.device), *more]

    def make(self, blocks, texts=HEAP):
        """Makes a new device, and gives its processor seconds and its kilobytes on the disk."""
        for name, text in zip(("schema", "equation"), texts):
            (self.folder / name).write_text(text)
        self.device.unlink(missing_ok=True)
        job = Job("make", self.words("make", str(blocks)))
        job.run()
        return job.seconds[0], self.device.stat().st_blocks // 2

    def script(self, text):
        path = self.folder / "script"
        path.write_text(text)
        return str(path)

    def blocks_read(self, command, script=""):
        """The blocks that a request reads of the device, in their order."""
        tool = ["strace", "-e", "trace=pread64", "-o", f"{self.folder}/calls"]
        with open(self.script(script), "rb") as it:
            subprocess.run([*tool, *self.words(command)], stdin=it, stdout=subprocess.DEVNULL, check=True)
        calls = (self.folder / "calls").read_text()
        return [int(it) // BLOCK for it in re.findall(rf", {BLOCK}, (\d+)\) = {BLOCK}\n", calls)]

    def counted(self, command, script=""):
        """The instructions of a request, without the clears and with them."""
        whole, clears = counted(self.words(command), self.script(script), str(self.folder))
        return whole - clears, whole

    def fill(self, blocks, free):
        """Gives all pages of the heap's leaf to it in the owner table, but for so many at the end."""
        head, pages, tables = layout(blocks)
        with open(self.device, "r+b") as it:
            for table in range(tables):
                it.seek((head + pages + table) * BLOCK)
                owners = bytearray(it.read(BLOCK))
                for entry in range(ENTRIES):
                    if tables < table * ENTRIES + entry < pages - free:
                        owners[2 * entry : 2 * entry + 2] = b"\0\1"
                it.seek((head + pages + table) * BLOCK)
                it.write(owners)


def of_making(bench):
    print("| `make` | s | KB on the disk |\n|---|--:|--:|")
    for blocks in (SMALL, *SIZES):
        seconds, room = bench.make(blocks)
        print(f"| {blocks:,} blocks | {seconds:.2f} | {room:,} |")


def of_opening(bench):
    print("\n| opening | blocks read |\n|---|---|")
    for blocks in (SMALL, *SIZES):
        bench.make(blocks)
        print(f"| {blocks:,} blocks | {', '.join(map(str, bench.blocks_read('run')))} |")


def of_commits(bench):
    print("\n| a transaction that updates one record | instructions |\n|---|--:|")
    for blocks in (SMALL, *SIZES):
        taken = []
        for count in (1, 1 + COMMITS):
            bench.make(blocks)
            taken.append(bench.counted("run", transactions(count)))
        less, whole = ((much - few) / COMMITS for few, much in zip(*taken))
        print(f"| {blocks:,} blocks | {less:,.0f} ({whole:,.0f}) |", flush=True)


def of_claims(bench):
    print("\n| claims after opening, where only the last pages are free | pages of the table read |\n|---|--:|")
    for blocks in SIZES:
        head, pages, tables = layout(blocks)
        for claims in (0, 1, 2, 11):
            bench.make(blocks)
            bench.fill(blocks, free=20)
            read = bench.blocks_read("run", inserts(A_PAGE * (claims + 1)))
            count = sum(head + pages <= it < head + pages + tables for it in read)
            print(f"| {blocks:,} blocks, {claims} claims | {count} |", flush=True)


def of_inspecting(bench):
    print(f"\n| `inspect` of {FILES * PARTS} empty leaves | s | reads | instructions |\n|---|--:|--:|--:|")
    for blocks in (SIZES[0], LARGEST):
        for kind in ("heap", "bplus", "hash(8)", "isam"):
            bench.make(blocks, in_parts(kind))
            job = Job("inspect", bench.words("inspect"))
            for _ in range(3):
                job.run()
            less, whole = bench.counted("inspect")
            reads = len(bench.blocks_read("inspect"))
            print(f"| {blocks:,} blocks, `{kind}` | {statistics.median(job.seconds):.2f} | {reads:,} | {less / 1e6:,.0f} ({whole / 1e6:,.0f}) million |", flush=True)


def of_memory(bench, rounds):
    peaks = {}
    for blocks in (SMALL, *SIZES):
        bench.make(blocks)
        job = Job("run", bench.words("run"), bench.script(inserts(A_PAGE)))
        job.run()
        job.stdin = bench.script("get f 1\n")
        job.peaks.clear()
        for _ in range(rounds):
            job.run()
        peaks[blocks] = statistics.median(job.peaks) if job.peaks else None
    if None in peaks.values():
        sys.exit("peak memory was not taken: GNU time isn't installed")
    print("\n| `run` of one get | peak KB | bytes a page, beyond those of 47 pages |\n|---|--:|--:|")
    least = layout(SMALL)[1]
    for blocks, peak in peaks.items():
        pages = layout(blocks)[1] - least
        more = f"{(peak - peaks[SMALL]) / pages:.1f}" if pages else ""
        print(f"| {blocks:,} blocks | {peak / 1024:,.0f} | {more} |")


def main():
    if len(sys.argv) not in (2, 3):
        sys.exit(__doc__)
    rounds = int(sys.argv[2]) if len(sys.argv) > 2 else 15
    with tempfile.TemporaryDirectory() as folder:
        bench = Bench(os.path.abspath(sys.argv[1]), pathlib.Path(folder))
        of_making(bench)
        of_opening(bench)
        of_commits(bench)
        of_claims(bench)
        of_inspecting(bench)
        of_memory(bench, rounds)


if __name__ == "__main__":
    main()
