#!/usr/bin/env python3
"""Measures file kinds on a device beside SQLite and LMDB: kinds.py PROGRAM FOLDER [ROUNDS]. FOLDER is on the
disk to be measured. For each kind a device is loaded with 100,000 records, and is kept. Then new runs play
1,000 gets, and 100 finds of 100 records by a range of keys, on it; so do the players of peers/ that can be built,
on the same records. It prints the least seconds that went by of each, with their ratio to the peers, and how many pages
one get reads, on average of 20 new runs, where strace is installed.

While it is loaded an isam file is reorganized behind 1,000 and behind 20,000 records."""

import os
import pathlib
import random
import shutil
import subprocess
import sys
import tempfile

from peers import BLOCKS, RECORDS, Lines, built, play, range_of_100
from scripts import SCHEMA

KINDS = ["bplus", "hash(64)", "isam"]
REORGANIZED = (1_000, 20_000)
GETS = 1_000
FINDS = 100


def load():
    work, at = Lines(1), 0
    numbers = work.shuffled(RECORDS)
    for end in (*REORGANIZED, RECORDS):
        work.inserted(0, numbers[at:end])
        if end < RECORDS:
            work.begin()
            work.line("reorganize part")
            work.commit()
        at = end
    return work.lines


def lines(count, line):
    order = random.Random(7)
    return [line(order) for _ in range(count)]


def write(folder, name, of):
    path = f"{folder}/{name}"
    pathlib.Path(path).write_text("".join(f"{it}\n" for it in of), encoding="utf-8")
    return path


def reads(words, script):
    """How often a run reads from the device."""
    ran = subprocess.run(["strace", "-c", "-e", "trace=pread64", *words], stdin=open(script, "rb"), capture_output=True, text=True, check=False)
    return sum(int(it.split()[3]) for it in ran.stderr.splitlines() if it.endswith("pread64"))


def pages_of_a_get(words, folder):
    if not shutil.which("strace"):
        return "not counted"
    nothing = reads(words, os.devnull)
    gets = lines(20, lambda it: f"get part {it.randrange(RECORDS)}")
    counts = [reads(words, write(folder, "get", [it])) - nothing for it in gets]
    return f"{sum(counts) / len(counts):.1f}"


def main():
    program, disk = os.path.abspath(sys.argv[1]), os.path.abspath(sys.argv[2])
    rounds = int(sys.argv[3]) if len(sys.argv) > 3 else 3
    with tempfile.TemporaryDirectory() as folder, tempfile.TemporaryDirectory(dir=disk) as room:
        write(folder, "schema", [SCHEMA.rstrip()])
        loaded = write(folder, "load", load())
        rows = {
            f"{GETS:,} gets": write(folder, "gets", lines(GETS, lambda it: f"get part {it.randrange(RECORDS)}")),
            f"{FINDS} finds of 100 by a range of keys": write(folder, "finds", lines(FINDS, range_of_100(RECORDS))),
        }
        players = {}
        for kind in KINDS:
            texts = [f"{folder}/schema", write(folder, f"equation {kind}", [f"part = actual({kind})"])]
            play([program, "make", *texts, f"{room}/{kind}", str(BLOCKS)], os.devnull)
            players[kind] = [program, "run", *texts, f"{room}/{kind}"]
        peers = built(folder)
        if "sqlite" in peers:
            players["sqlite"] = [peers["sqlite"], f"{room}/sqlite", "delete"]
        if "lmdb" in peers:
            players["lmdb"] = [peers["lmdb"], f"{room}/lmdb", "sync"]
        others = [it for it in players if it not in KINDS]
        print("| kind | work |", " | ".join(["genesis", *(f"by {it}" for it in others)]), "|")
        print("|---|---|" + "--:|" * (1 + len(others)))
        least, said = {}, {}
        for name, words in players.items():
            least[name, "load"] = play(words, loaded)[1]
        for title, script in rows.items():
            for _ in range(rounds):
                for name, words in players.items():
                    _, gone, text = play(words, script)
                    least[name, title] = min(gone, least.get((name, title), gone))
                    if said.setdefault(title, text) != text:
                        sys.exit(f"{title}: {name} says other bytes")
        for kind in KINDS:
            for title in ("load", *rows):
                ours = least[kind, title]
                ratios = [f"{ours / least[it, title]:.2f}" for it in others]
                print(f"| `{kind}` | {title} | {ours:.3f} s |", " | ".join(ratios), "|")
        for kind in KINDS:
            print(f"{kind}: {pages_of_a_get(players[kind], folder)} pages a get")


main()
