#!/usr/bin/env python3
"""Counts the instructions of paths over links, in memory, beside SQLite: paths.py PROGRAM
[PAIRS..]. The peer is peers/paths.c, built here by cc: a table of pairs for each link, with an
index on each column, and for each path one prepared `select distinct` of the last table, joined, in
the order of its key. Both play the same script, and must say the same bytes. A department has 100
people, and a person one task; of each form of path 20 are asked, and what the load takes is taken
off. Without numbers links of 1,000, 10,000 and 100,000 pairs are measured; --linkset TERM stores
them in another way than as inverted lists."""

import argparse
import pathlib
import random
import re
import subprocess
import tempfile

HERE = pathlib.Path(__file__).resolve().parent
SCHEMA = """file dept (dno int, dname text 12)
file emp (eno int, name text 24, pay int)
file task (tno int, title text 12)
link works (dept, emp)
link does (emp, task)
"""
EQUATION = """dept = actual(bplus)
emp = index(pay, actual(bplus), bplus)
task = actual(bplus)
works = {linkset}
does = {linkset}
"""
MEMBERS, ASKED = 100, 20


def load(pairs, order):
    """The lines of the records and of the pairs of both links, in a mixed order."""
    owners = pairs // MEMBERS
    people = order.sample(range(pairs), pairs)
    lines = ["begin", *(f'insert dept {it} "d{it}"' for it in range(owners))]
    lines += [f'insert emp {it} "e{it}" {it % 1000}' for it in people]
    lines += [f'insert task {it} "t{it}"' for it in people]
    lines += [f"connect works {it % owners} {it}" for it in people]
    lines += [f"connect does {it} {it}" for it in people]
    return [*lines, "commit"]


def paths(pairs, order):
    """Each form of path: its title, and the lines of it."""
    def asked(line):
        return [line(order.randrange(pairs)) for _ in range(ASKED)]

    owners = pairs // MEMBERS
    yield "down, of one owner", asked(lambda it: f"path dept where dno = {it % owners} down works")
    yield "down twice, of one owner", asked(lambda it: f"path dept where dno = {it % owners} down works down does")
    yield "up, of one member", asked(lambda it: f"path emp where eno = {it} up works")
    yield "up, of the members of an indexed value", asked(lambda it: f"path emp where pay = {it % 1000} up works")
    yield "up and down, of one member", asked(lambda it: f"path emp where eno = {it} up works down works")
    yield "down, backward from one member", asked(lambda it: f"path dept down works where eno = {it}")
    yield "down twice, backward from one member", asked(lambda it: f'path dept where dname <> "d1" down works down does where tno = {it}')
    yield "down, of all, with a condition on the last", [f"path dept down works where name < \"e{it}\"" for it in range(20, 22)]


def counted(words, script, folder):
    """The instructions of a play, and what it says."""
    tool = ["valgrind", "--tool=callgrind", f"--callgrind-out-file={folder}/counts", *words]
    ran = subprocess.run(tool, input=script.encode(), capture_output=True, check=True)
    return int(re.search(r"Collected : (\d+)", ran.stderr.decode())[1]), ran.stdout


def measured(players, pairs, folder):
    """The rows of the table for links of so many pairs."""
    order = random.Random(9)
    lines, forms = load(pairs, order), list(paths(pairs, order))
    # (one path of each form first, for which SQLite prepares its statement)
    begun = "".join(f"{it}\n" for it in [*lines, *(asked[0] for _, asked in forms)])
    before = [counted(it, begun, folder) for it in players]
    for title, asked in forms:
        script = begun + "".join(f"{it}\n" for it in asked)
        after = [counted(it, script, folder) for it in players]
        if after[0][1] != after[1][1]:
            raise SystemExit(f"{title}: SQLite says other lines")
        ours, theirs = ((it[0] - its[0]) / len(asked) for it, its in zip(after, before))
        rows = (after[0][1].count(b"\n") - before[0][1].count(b"\n")) / len(asked) - 1
        yield f"| {pairs:,} | {title} | {rows:,.1f} | {ours:,.0f} | {ours / theirs:.2f} |"


def main():
    words = argparse.ArgumentParser(description=__doc__, formatter_class=argparse.RawDescriptionHelpFormatter)
    words.add_argument("program")
    words.add_argument("pairs", type=int, nargs="*", default=[1_000, 10_000, 100_000])
    words.add_argument("--linkset", metavar="TERM", default="inverted(bplus, actual(bplus))")
    given = words.parse_args()
    print("| pairs | path | rows | instructions | by SQLite |\n|--:|---|--:|--:|--:|")
    with tempfile.TemporaryDirectory(prefix="genesis-paths-") as folder:
        texts = [pathlib.Path(folder, it) for it in ("schema", "equation")]
        for path, text in zip(texts, (SCHEMA, EQUATION.format(linkset=given.linkset))):
            path.write_text(text, encoding="ascii")
        peer = f"{folder}/peer"
        subprocess.run(["cc", "-O2", "-o", peer, HERE / "peers/paths.c", "-lsqlite3"], check=True)
        players = [given.program, "try", *map(str, texts)], [peer]
        for pairs in given.pairs:
            for row in measured(players, pairs, folder):
                print(row, flush=True)


if __name__ == "__main__":
    main()
