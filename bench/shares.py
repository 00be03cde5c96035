#!/usr/bin/env python3
"""Measures the turns of sessions beside the same commands of one: shares.py PROGRAM [ROUNDS]. On a device of 4,007
blocks, which has 200 records in each of eight files, `share` plays turns, and `run` plays the transactions that
committed, one after another in the order of their commits, with the reads outside of transactions where they stand.
examples/sessions.py tells which these are: each turn has to be answered, and both have to say what it says. Before the
turns each record is read once, which is taken off.

Sessions take turns one after the other. A writer inserts into a file of its own, 10 records in a transaction where the
row names no other number. A reader gets records of other files than the writer's, outside of transactions or inside, 10
in each; inside, it commits right behind the writer, or while the writer's transaction is open.

It prints the turns a second, by the medians of so many rounds, five where no number is given, of the seconds that went
by; the instructions of a turn, counted by `valgrind`, without the clears of buffers and in brackets with them; and the
ratios of the seconds and of the instructions without clears to those of `run`. --folder FOLDER is where the device
stands, on which each commit is synced: /dev/shm where none is named, so that no disk is waited for. --row TEXT plays
the rows alone that have it in their title."""

import argparse
import collections
import functools
import itertools
import os
import pathlib
import random
import shutil
import statistics
import sys
import tempfile

from device import counted
from measure import show
from peers import LETTERS, play

TOP = pathlib.Path(__file__).resolve().parent.parent
sys.path += [str(TOP / "examples"), str(TOP / "tools")]

from formats import read_schema  # noqa: E402
from model import Model  # noqa: E402
from sessions import Sessions, in_order  # noqa: E402

FILES = range(1, 9)
OTHERS = FILES[1:]
SCHEMA = "".join(f"file f{it} (number int, name text 24, quantity int)\n" for it in FILES)
EQUATION = "".join(f"f{it} = actual(bplus)\n" for it in FILES)
BLOCKS, RECORDS, KEYS = 4_007, 200, 20_000
# How many gets a row of readers alone has, and how many inserts a writer does: alone, beside others, and as one of eight.
GETS, ALONE, BESIDE, EACH = 16_000, 4_000, 1_000, 400

HEADS = ["sessions", "turns", "turns a second", "by `run`", "instructions of a turn", "by `run`"]

Play = collections.namedtuple("Play", "request lines said")


class Files:
    """The keys of each file: those that are loaded, and those that come."""

    def __init__(self):
        self.random = random.Random(8)
        self.keys = {it: self.random.sample(range(KEYS), KEYS) for it in FILES}
        self.coming = {it: iter(keys) for it, keys in self.keys.items()}

    def insert(self, file):
        name = "".join(self.random.choices(LETTERS, k=self.random.randint(5, 24)))
        return f'insert f{file} {next(self.coming[file])} "{name}" {self.random.randrange(10_000)}'

    def get(self, files):
        file = self.random.choice(files)
        return f"get f{file} {self.random.choice(self.keys[file][:RECORDS])}"

    def load(self):
        return ["begin", *(self.insert(file) for file in FILES for _ in range(RECORDS)), "commit"]

    def each(self):
        """A get of each record that is loaded."""
        return [f"get f{file} {key}" for file, keys in self.keys.items() for key in keys[:RECORDS]]

    def inserts(self, file, count, size=10):
        """So many inserts, in transactions of this size."""
        return transactions(count // size, size, lambda: self.insert(file))

    def gets(self, count, files=FILES):
        return [self.get(files) for _ in range(count)]


def transactions(count, size, line):
    return [it for _ in range(count) for it in ("begin", *(line() for _ in range(size)), "commit")]


def rows(files):
    """Each row: its title, and the lines of each of its sessions, in the order of their numbers. None stands for a turn
    that a session leaves out."""
    yield "one writer", [files.inserts(1, ALONE)]
    for named, count in {"one reader": 1, "two readers": 2, "eight readers": 8}.items():
        yield f"{named} outside", [files.gets(GETS // count) for _ in range(count)]

    beside = "one writer, seven readers"

    def readers(lines):
        return [files.inserts(1, BESIDE), *(lines(session) for session in OTHERS)]

    def inside():
        return transactions(BESIDE // 10, 10, lambda: files.get(OTHERS))

    yield f"{beside} outside", readers(lambda _: files.gets(BESIDE // 10 * 12, OTHERS))
    yield f"{beside} inside that commit behind it", readers(lambda _: inside())
    yield f"{beside} inside that commit within it", readers(lambda session: [None] * session + inside())
    yield "eight writers", [files.inserts(it, EACH) for it in FILES]
    for size in (1, 10, 100):
        yield f"two writers, {size} insert{'s' if size > 1 else ''} each", [files.inserts(it, BESIDE, size) for it in (1, 2)]


def turn_about(sessions):
    """The turns of sessions, one after the other in the order of their numbers."""
    return [f"{number} {line}" for lines in itertools.zip_longest(*sessions) for number, line in enumerate(lines, 1) if line]


def script(lines):
    return "".join(f"{it}\n" for it in lines).encode("ascii")


def plays(title, load, turns):
    """The plays of these turns behind a load: that of `share`, and that of `run`, with what the model says of each."""
    model = Model(read_schema(SCHEMA))
    model.play(script(load))
    share = Sessions(model)
    said, status = share.play(script(turns))
    wrong = [f"{turns[it.number - 1]}: {it.said[0]}" for it in share.turns if it.outcome != "answered"]
    if status or wrong:
        sys.exit(f"{title}: a turn isn't answered: {wrong[0] if wrong else said[-1]}")
    order = in_order(share.turns)
    lines, answers = (it.line.decode("ascii") for it in order), (line for it in order for line in it.said)
    return [Play("share", script(turns), script(said)), Play("run", script(lines), script(answers))]


class Bench:
    """The program, and its texts and devices in a folder."""

    def __init__(self, program, folder, load):
        self.program, self.folder = program, folder
        self.texts = [f"{folder}/schema", f"{folder}/equation"]
        self.loaded, self.device = f"{folder}/loaded", f"{folder}/device"
        for path, text in zip(self.texts, (SCHEMA, EQUATION)):
            pathlib.Path(path).write_text(text, encoding="ascii")
        nothing = self.script(b"")
        play([program, "make", *self.texts, self.loaded, str(BLOCKS)], nothing)
        play([program, "run", *self.texts, self.loaded], self.script(script(load)))

    def script(self, lines):
        path = f"{self.folder}/script"
        pathlib.Path(path).write_bytes(lines)
        return path

    def words(self, request):
        """The words of a request on a new copy of the loaded device."""
        shutil.copyfile(self.loaded, self.device)
        # so that no sync of the program writes the copy
        with open(self.device, "rb") as it:
            os.fsync(it.fileno())
        return [self.program, request, *self.texts, self.device]

    def seconds(self, its):
        """The seconds that went by for a play, which has to say what the model says."""
        _, gone, said = play(self.words(its.request), self.script(its.lines))
        if said != its.said:
            pairs = itertools.zip_longest(said.splitlines(), its.said.splitlines())
            sys.exit(f"{its.request} and the model say {next((it for it in pairs if it[0] != it[1]), 'other line ends')}")
        return gone

    @functools.cache
    def instructions(self, its):
        """The instructions of a play, without the clears and with them."""
        whole, clears = counted(self.words(its.request), self.script(its.lines), self.folder)
        return whole - clears, whole


def beyond(before, after):
    """What `share` and what `run` takes after, beyond what it took before."""
    return [much - few for few, much in zip(before, after)]


def row(bench, title, before, after, rounds):
    """What is taken by the turns of plays that begin with those before, by `share` and by `run`."""
    taken = zip(*([bench.seconds(it) for it in (*before, *after)] for _ in range(rounds)))
    seconds = [statistics.median(it) for it in taken]
    gone, gone_by_run = beyond(seconds[:2], seconds[2:])
    (less, whole), (less_by_run, _) = (beyond(*map(bench.instructions, it)) for it in zip(before, after))
    turns = after[0].lines.count(b"\n") - before[0].lines.count(b"\n")
    return [title, f"{turns:,}", f"{turns / gone:,.0f}", f"{gone / gone_by_run:.2f}",
            f"{less / turns:,.0f} ({whole / turns:,.0f})", f"{less / less_by_run:.2f}"]


def main():
    words = argparse.ArgumentParser(description=__doc__, formatter_class=argparse.RawDescriptionHelpFormatter)
    words.add_argument("program")
    words.add_argument("rounds", type=int, nargs="?", default=5)
    words.add_argument("--folder", metavar="FOLDER", default="/dev/shm")
    words.add_argument("--row", metavar="TEXT", default="")
    asked = words.parse_args()
    show([HEADS, ["---", *["--:"] * (len(HEADS) - 1)]])
    with tempfile.TemporaryDirectory(prefix="genesis-shares-", dir=asked.folder) as folder:
        files = Files()
        load, each = files.load(), [f"1 {it}" for it in files.each()]
        bench = Bench(os.path.abspath(asked.program), folder, load)
        before = plays("each record", load, each)
        for title, sessions in rows(files):
            if asked.row in title:
                after = plays(title, load, [*each, *turn_about(sessions)])
                show([row(bench, title, before, after, asked.rounds)])


if __name__ == "__main__":
    main()
