"""Counts the instructions of work for which device.py and peers.py have no row: rows.py PROGRAM. On a device of 65,543
blocks finds by a range of keys, connects, and what `inspect` takes for a record and for a leaf; in memory connects on
heaps, and what an entry takes that a call on a chain passes. The clears of buffers are counted apart, as in device.py."""

import argparse
import os
import subprocess
import tempfile

from device import SCHEMA, counted
from peers import BLOCKS, Lines, range_of_100

RECORDS = 5_000
FINDS = 100
# Owners have half of their members on the average while these are connected.
MEMBERS, OWNERS = 1_000, 10
LINKED = "file dept (dno int, dname text 12)\nfile emp (eno int, name text 24, pay int)\nlink works (dept, emp)\n"
LINKSETS = {"inverted": "inverted({0}, actual({0}))", "ring": "ring(actual({0}), actual({0}))", "array": "array(divide(64, {0}))"}
# A chain of so many entries, and one of twice as many.
CHAIN = 1_000
PASSES = 100
LEAVES = 10


class Bench:
    """The program, its texts and its device in a folder."""

    def __init__(self, program, folder):
        self.program, self.folder = program, folder
        self.texts = [f"{folder}/schema", f"{folder}/equation"]
        self.device = f"{folder}/device"

    def write(self, schema, equation):
        for path, text in zip(self.texts, (schema, equation)):
            with open(path, "w", encoding="utf-8") as it:
                it.write(text)

    def script(self, lines):
        path = f"{self.folder}/script"
        with open(path, "w", encoding="utf-8") as it:
            it.write("".join(f"{line}\n" for line in lines))
        return path

    def make(self, schema, equation):
        self.write(schema, equation)
        if os.path.exists(self.device):
            os.remove(self.device)
        subprocess.run([self.program, "make", *self.texts, self.device, str(BLOCKS)], stdout=subprocess.DEVNULL, check=True)

    def counted(self, request, lines=()):
        """The instructions of a request, with the clears and without them."""
        words = [self.program, request, *self.texts, *([] if request == "try" else [self.device])]
        whole, clears = counted(words, self.script(lines), self.folder)
        return whole, whole - clears

    def on_new_device(self, schema, equation, lines):
        self.make(schema, equation)
        return self.counted("run", lines)

    def in_memory(self, schema, equation, lines):
        self.write(schema, equation)
        return self.counted("try", lines)


def show(title, more, less, count):
    """A row: what `more` takes beyond `less`, an operation."""
    whole, without = ((much - few) / count for much, few in zip(more, less))
    print(f"| {title} | {without:,.0f} | {whole:,.0f} |", flush=True)


def of_finds(bench):
    texts = SCHEMA, "part = actual(bplus)\n"
    before = bench.on_new_device(*texts, Lines(1).inserted(RECORDS).lines)
    after = bench.on_new_device(*texts, Lines(1).inserted(RECORDS).many(FINDS, range_of_100(RECORDS)).lines)
    show(f"a find of 100 of {RECORDS:,} by a range of keys, on a device", after, before, FINDS)


def ends_of_links():
    lines = Lines(6)
    lines.begin()
    for dept in range(OWNERS):
        lines.line(f'insert dept {dept} "dept {dept}"')
    for emp in lines.shuffled(MEMBERS):
        lines.line(f'insert emp {emp} "emp {emp}" {emp % 777}')
    lines.commit()
    return lines


def connected():
    lines = ends_of_links()
    lines.begin()
    for emp in lines.shuffled(MEMBERS):
        lines.line(f"connect works {emp % OWNERS} {emp}")
    lines.commit()
    return lines


def of_connects(bench):
    places = ("in memory on heaps", "heap", bench.in_memory), ("on a device, bplus", "bplus", bench.on_new_device)
    for where, kind, play in places:
        for name, linkset in LINKSETS.items():
            texts = LINKED, f"dept = actual({kind})\nemp = actual({kind})\nworks = {linkset.format(kind)}\n"
            before, after = play(*texts, ends_of_links().lines), play(*texts, connected().lines)
            show(f"a connect of {MEMBERS:,} to {OWNERS} owners, {name}, {where}", after, before, MEMBERS)


def of_chains(bench):
    texts = SCHEMA, "part = actual(heap)\n"

    def passes(records, line):
        begun = Lines(1).inserted(0, range(records)).lines
        before = bench.on_new_device(*texts, begun)
        after = bench.on_new_device(*texts, [*begun, "begin", *map(line, range(PASSES)), "commit"])
        return [(much - few) / PASSES for much, few in zip(after, before)]

    works = {
        "an insert": lambda it: f'insert part {10 * CHAIN + it} 7 "name {it}"',
        "a get of a key that is there": lambda it: f"get part {it}",
        "a get of a key that isn't": lambda it: f"get part {10 * CHAIN + it}",
    }
    for title, line in works.items():
        show(f"an entry that {title} passes in a heap", passes(2 * CHAIN, line), passes(CHAIN, line), CHAIN)


def of_inspections(bench):
    bench.make(SCHEMA, "part = actual(bplus)\n")
    empty = bench.counted("inspect")
    bench.on_new_device(SCHEMA, "part = actual(bplus)\n", Lines(1).inserted(RECORDS).lines)
    show("a record that `inspect` examines", bench.counted("inspect"), empty, RECORDS)
    files = range(1 + LEAVES)
    schema = "".join(f"file f{it} (number int, quantity int)\n" for it in files)
    bench.make(schema, "".join(f"f{it} = actual(bplus)\n" for it in files))
    show("a leaf more of an empty device that `inspect` examines", bench.counted("inspect"), empty, LEAVES)


PARTS = {"finds": of_finds, "connects": of_connects, "chains": of_chains, "inspections": of_inspections}


def main():
    words = argparse.ArgumentParser(description=__doc__, formatter_class=argparse.RawDescriptionHelpFormatter)
    words.add_argument("program")
    words.add_argument("parts", nargs="*", help=f"some of {', '.join(PARTS)}; all where none is named")
    asked = words.parse_args()
    print("| work | less clears | all |\n|---|--:|--:|")
    with tempfile.TemporaryDirectory() as folder:
        for name in asked.parts or PARTS:
            PARTS[name](Bench(os.path.abspath(asked.program), folder))


if __name__ == "__main__":
    main()
