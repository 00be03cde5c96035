#!/usr/bin/env python3
"""Measures the program beside SQLite with prepared statements and beside LMDB: peers.py PROGRAM [ROUNDS].
The peers are the small players of peers/, built here by cc against the libraries of the two; one whose library
isn't installed is left out. All play the same scripts into a pipe, and must say the same bytes. It prints, for
each piece of work, the least processor seconds of the program and its ratio to each peer; with
--counts the instructions by valgrind in the place of seconds, of one round. --records N is how many records
each piece of work begins with. A row that names another equation has it in the program alone; with an index
SQLite has one too. --growth prints how the time of inserts grows, and the peak memory of a record.

Of work on a device (--device FOLDER, a folder on the disk to be measured) it prints the seconds that went by, since
most of them are waited for the disk: the program makes a device there and runs the scripts on it, SQLite syncs
each commit (synchronous=FULL) with a rollback journal, with a write-ahead log, and with a rollback journal and the 64
pages in memory that the program has, and LMDB syncs too. With --processor it prints processor seconds in their place,
and with --row TITLE that one row alone."""

import argparse
import os
import pathlib
import random
import re
import resource
import shutil
import subprocess
import sys
import tempfile
import time

from scripts import LEAVES, PARTITIONS, SCHEMA, Work

HERE = pathlib.Path(__file__).resolve().parent
BOTH = SCHEMA + "file note (title text 40, body text 200)\n"
EQUATION = "part = actual(bplus)\nnote = actual(bplus)\n"
BLOCKS = 65543
PEERS = {"sqlite": ["-lsqlite3"], "lmdb": ["-llmdb"]}
TIME = shutil.which("time")
RECORDS = 100_000
DEVICE_RECORDS = 100_000
# SQLite with as many pages in memory as the program has.
FEW_PAGES = "sqlite, 64 pages"
GROWTH = 10_000, 100_000, 400_000
LETTERS = "abcdefghijklmnopqrstuvwxyz"


class Lines(Work):
    """The lines of one piece of work."""

    def line(self, text):
        self.add(text, "")

    def inserted(self, count, numbers=None):
        self.begin()
        for number in numbers or self.shuffled(count):
            self.insert(number)
        self.commit()
        return self

    def many(self, count, line):
        for _ in range(count):
            self.line(line(self.random))
        return self

    def letters(self, count):
        return "".join(self.random.choices(LETTERS, k=count))

    def noted(self, titles):
        self.begin()
        for title in titles:
            self.line(f'insert note "{title}" "{self.letters(200)}"')
        self.commit()
        return self


def range_of_100(records):
    def line(it):
        least = it.randrange(records - 100)
        return f"find part where number >= {least} and number < {least + 100}"

    return line


def in_memory(count):
    """Each piece of work in memory: its title, its lines, the title of what it begins with, and the equation of parts where it
    isn't the first one."""

    def records():
        return Lines(1).inserted(count)

    def inside(work, lines):
        work.begin()
        for line in lines:
            work.line(line)
        work.commit()
        return work

    order = random.Random(5)
    numbers = order.sample(range(count), count)
    begin = f"{count:,} inserts in one transaction"
    yield "start and end", Lines(0), None
    yield begin, records(), "start and end"
    yield "the same in ascending order", Lines(1).inserted(count, range(count)), "start and end"
    ones = Lines(2)
    for number in ones.shuffled(count // 5):
        ones.begin()
        ones.insert(number)
        ones.commit()
    yield f"{count // 5:,} transactions of one insert", ones, "start and end"
    yield f"{count:,} gets", records().many(count, lambda it: f"get part {it.randrange(count)}"), begin
    yield f"{count:,} updates", inside(records(), [f"update part {it} quantity {it % 777}" for it in numbers]), begin
    yield f"{count:,} deletes", inside(records(), [f"delete part {it}" for it in numbers]), begin
    aborted = records()
    aborted.begin()
    for number in numbers:
        aborted.line(f"delete part {number}")
    aborted.line("abort")
    yield f"{count:,} deletes given up", aborted, begin
    given_up = Lines(1)
    given_up.begin()
    for number in given_up.shuffled(count):
        given_up.insert(number)
    given_up.line("abort")
    yield f"{count:,} inserts given up", given_up, "start and end"
    yield f"{count:,} finds by key", records().many(count, lambda it: f"find part where number = {it.randrange(count)}"), begin
    yield f"{count // 10:,} finds of 100 by a range of keys", records().many(count // 10, range_of_100(count)), begin
    yield "10 scans", records().many(10, lambda it: "find part"), begin
    yield "10 scans in another order", records().many(10, lambda it: "find part order name"), begin

    titles = [Lines(6 + at).letters(40) for at in range(count // 5)]
    notes = f"{count // 5:,} inserts of a title of 40 letters and a body of 200"
    yield notes, Lines(7).noted(titles), "start and end"
    yield f"{count // 5:,} gets of them", Lines(7).noted(titles).many(count // 5, lambda it: f'get note "{it.choice(titles)}"'), notes

    for name, term in {f"{LEAVES - 1} leaves": leaves_of(LEAVES - 1, count), f"{PARTITIONS} nested layers": nested(count)}.items():
        inserts = f"{begin}, {name}"
        yield inserts, records(), "start and end", term
        yield f"{count:,} gets, {name}", records().many(count, lambda it: f"get part {it.randrange(count)}"), inserts, term
    inserts = f"{begin}, an index"
    yield inserts, records(), "start and end", INDEX
    yield f"{count:,} finds by the index", records().many(count, lambda it: f"find part where quantity = {it.randrange(10_000)}"), inserts, INDEX


# the equation of parts with an index, which SQLite has too
INDEX = "index(quantity, actual(bplus), bplus)"


def leaves_of(leaves, records):
    bounds = " ".join(str(records * number // leaves) for number in range(1, leaves))
    return f"partition(number {bounds}, {', '.join(['actual(bplus)'] * leaves)})"


def nested(records):
    term = "actual(bplus)"
    for number in range(PARTITIONS):
        term = f"partition(number {records + number}, {term}, actual(bplus))"
    return term


def on_device():
    """The same of work on a device. Each begins on a new one."""
    yield "start and end", Lines(0)
    ones = Lines(2)
    for number in ones.shuffled(1_000):
        ones.begin()
        ones.insert(number)
        ones.commit()
    yield "1,000 transactions of one insert", ones
    hundreds = Lines(3)
    numbers = hundreds.shuffled(DEVICE_RECORDS)
    for at in range(0, len(numbers), 100):
        hundreds.inserted(0, numbers[at : at + 100])
    yield f"{DEVICE_RECORDS:,} inserts in {DEVICE_RECORDS // 100:,} transactions", hundreds
    whole = f"{DEVICE_RECORDS:,} inserts in one transaction"
    yield whole, Lines(1).inserted(DEVICE_RECORDS)
    yield f"{whole}, and 1,000 gets", Lines(1).inserted(DEVICE_RECORDS).many(1_000, lambda it: f"get part {it.randrange(DEVICE_RECORDS)}")
    yield f"{whole}, and 1,000 finds of 100 by a range of keys", Lines(1).inserted(DEVICE_RECORDS).many(1_000, range_of_100(DEVICE_RECORDS))
    yield f"{whole}, and 10 scans", Lines(1).inserted(DEVICE_RECORDS).many(10, lambda it: "find part")


def built(folder):
    """The peers that can be built here, by their names."""
    made = {}
    for name, libraries in PEERS.items():
        words = ["cc", "-O2", "-o", f"{folder}/{name}", f"{HERE}/peers/play.c", f"{HERE}/peers/{name}.c", *libraries]
        try:
            subprocess.run(words, check=True, capture_output=True)
            made[name] = f"{folder}/{name}"
        except (OSError, subprocess.CalledProcessError):
            print(f"{name} isn't built: its library isn't installed", file=sys.stderr)
    return made


def play(words, script, counts=None, more=None):
    """What a play takes (processor seconds, or instructions), the seconds that went by, and what is said."""
    if counts:
        words = ["valgrind", "--tool=callgrind", f"--callgrind-out-file={counts}", *words]
    before, begun = resource.getrusage(resource.RUSAGE_CHILDREN), time.monotonic()
    with open(script, "rb") as it:
        ran = subprocess.run(words, stdin=it, stdout=subprocess.PIPE, stderr=subprocess.PIPE, check=False, env=os.environ | (more or {}))
    if ran.returncode:
        sys.exit(f"{words[0]}: ended with status {ran.returncode}: {ran.stdout[-200:]!r} {ran.stderr[-200:]!r}")
    after, gone = resource.getrusage(resource.RUSAGE_CHILDREN), time.monotonic() - begun
    took = after.ru_utime + after.ru_stime - before.ru_utime - before.ru_stime
    if counts:
        took = float(re.search(r"Collected : (\d+)", ran.stderr.decode())[1])
    return took, gone, ran.stdout


def players_in_memory(program, peers, folder):
    players = {"genesis": [program, "try", f"{folder}/schema", f"{folder}/equation"]}
    if "sqlite" in peers:
        players["sqlite"] = [peers["sqlite"], ":memory:", "memory"]
    if "lmdb" in peers:
        players["lmdb"] = [peers["lmdb"], "FILE", "nosync"]
    return players


def written(folder, work):
    script = f"{folder}/script"
    pathlib.Path(script).write_text("".join(f"{it}\n" for it in work.lines), encoding="utf-8")
    return script


def remove_base(base):
    for path in (base, f"{base}-lock"):
        pathlib.Path(path).unlink(missing_ok=True)


def memory_table(program, peers, folder, rounds, counts, records):
    players = players_in_memory(program, peers, folder)
    unit = "instructions" if counts else "s"
    print("| work in memory | genesis |", " | ".join(f"by {it}" for it in players if it != "genesis"), "|")
    print("|---|" + "--:|" * len(players))
    first = pathlib.Path(f"{folder}/equation").read_text(encoding="utf-8")
    base = f"/dev/shm/genesis-peer-{os.getpid()}"
    least = {}
    for title, work, before, *term in in_memory(records):
        equation = "".join(f"part = {it}\nnote = actual(bplus)\n" for it in term) or first
        pathlib.Path(f"{folder}/equation").write_text(equation, encoding="utf-8")
        with_index = {"PEER_INDEX": "1"} if term == [INDEX] else {}
        script = written(folder, work)
        said = set()
        for _ in range(1 if counts else rounds):
            for name, words in players.items():
                words = [base if it == "FILE" else it for it in words]
                took, _, text = play(words, script, f"{folder}/counts" if counts else None, with_index)
                remove_base(base)
                least[name, title] = min(took, least.get((name, title), took))
                said.add(text)
        if len(said) != 1:
            sys.exit(f"{title}: two of them say other bytes")
        spent = {it: least[it, title] - (least[it, before] if before else 0) for it in players}
        ours = f"{spent['genesis'] / 1e6:,.0f} million" if counts else f"{spent['genesis']:.3f} {unit}"
        ratios = [f"{spent['genesis'] / spent[it]:.2f}" if spent[it] > 0 else "" for it in players if it != "genesis"]
        print(f"| {title} | {ours} |", " | ".join(ratios), "|", flush=True)


def peak(words, script):
    """The most memory that a play has, in bytes, as GNU time tells it: what this process has would count otherwise."""
    with open(script, "rb") as it:
        ran = subprocess.run([TIME, "-f", "%M", *words], stdin=it, stdout=subprocess.DEVNULL, stderr=subprocess.PIPE, check=True)
    return int(ran.stderr.split()[-1]) * 1024


def growth_table(program, peers, folder, rounds):
    players = players_in_memory(program, peers, folder)
    base = f"/dev/shm/genesis-peer-{os.getpid()}"
    print("| inserts in one transaction |", " | ".join(f"{it}, by {GROWTH[0]:,} | bytes a record" for it in players), "|")
    print("|---|" + "--:|--:|" * len(players))
    first, bytes_at_start = {}, {}
    for count in (0, *GROWTH):
        work = Lines(1).inserted(count) if count else Lines(0)
        script = written(folder, work)
        size, cells = os.path.getsize(script), []
        for name, words in players.items():
            words = [base if it == "FILE" else it for it in words]
            took = []
            for _ in range(rounds):
                took.append(play(words, script)[0])
                remove_base(base)
            most = peak(words, script)
            remove_base(base)
            if not count:
                first[name], bytes_at_start[name] = min(took), most
                continue
            spent = min(took) - first[name]
            if count == GROWTH[0]:
                first[name, "least"] = spent
            # the program hears its script whole, and the peers hear theirs line by line
            heard = size if name == "genesis" else 0
            cells += [f"{spent / first[name, 'least']:.1f}", f"{(most - bytes_at_start[name] - heard) / count:.0f}"]
        if count:
            print(f"| {count:,} |", " | ".join(cells), "|", flush=True)


def device_table(program, peers, folder, rounds, disk, processor, row):
    texts = [f"{folder}/schema", f"{folder}/equation"]
    players = {"genesis": [program, "run", *texts, "FILE"]}
    if "sqlite" in peers:
        players |= {f"sqlite, {mode}": [peers["sqlite"], "FILE", mode] for mode in ("delete", "wal")}
        players[FEW_PAGES] = players["sqlite, delete"]
    if "lmdb" in peers:
        players["lmdb"] = [peers["lmdb"], "FILE", "sync"]
    print("| work on a device | genesis |", " | ".join(f"by {it}" for it in players if it != "genesis"), "|")
    print("|---|" + "--:|" * len(players))
    for title, work in on_device():
        if row not in (None, title):
            continue
        script = f"{folder}/script"
        pathlib.Path(script).write_text("".join(f"{it}\n" for it in work.lines), encoding="utf-8")
        least, said = {}, set()
        for _ in range(rounds):
            for name, words in players.items():
                base = f"{disk}/genesis-peer-{os.getpid()}"
                if name == "genesis":
                    play([program, "make", *texts, base, str(BLOCKS)], os.devnull)
                few = {"PEER_PAGES": "64"} if name == FEW_PAGES else {}
                took, gone, text = play([base if it == "FILE" else it for it in words], script, more=few)
                for path in (base, f"{base}-lock", f"{base}-journal", f"{base}-wal", f"{base}-shm"):
                    pathlib.Path(path).unlink(missing_ok=True)
                spent = took if processor else gone
                least[name] = min(spent, least.get(name, spent))
                said.add(text)
        if len(said) != 1:
            sys.exit(f"{title}: two of them say other bytes")
        ratios = [f"{least['genesis'] / least[it]:.2f}" for it in players if it != "genesis"]
        print(f"| {title} | {least['genesis']:.3f} s |", " | ".join(ratios), "|", flush=True)


def main():
    words = argparse.ArgumentParser(description=__doc__, formatter_class=argparse.RawDescriptionHelpFormatter)
    words.add_argument("program")
    words.add_argument("rounds", nargs="?", type=int, default=3)
    words.add_argument("--counts", action="store_true")
    words.add_argument("--growth", action="store_true")
    words.add_argument("--records", type=int, default=RECORDS)
    words.add_argument("--device")
    words.add_argument("--processor", action="store_true")
    words.add_argument("--row")
    words.add_argument("--equation")
    asked = words.parse_args()
    equation = f"{asked.equation}\nnote = actual(bplus)" if asked.equation else EQUATION
    with tempfile.TemporaryDirectory() as folder:
        pathlib.Path(f"{folder}/schema").write_text(BOTH, encoding="utf-8")
        pathlib.Path(f"{folder}/equation").write_text(equation.rstrip() + "\n", encoding="utf-8")
        program, peers = os.path.abspath(asked.program), built(folder)
        if asked.growth and not TIME:
            sys.exit("the memory of a record is measured by GNU time, which isn't installed")
        if asked.growth:
            growth_table(program, peers, folder, asked.rounds)
        elif asked.device:
            device_table(program, peers, folder, asked.rounds, os.path.abspath(asked.device), asked.processor, asked.row)
        else:
            memory_table(program, peers, folder, asked.rounds, asked.counts, asked.records)


if __name__ == "__main__":
    main()
