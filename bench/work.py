#!/usr/bin/env python3
"""Measures `work` beside SQLite and LMDB doing the same work on the same disk: work.py PROGRAM FOLDER [ROUNDS]. Each round
makes a new device or database in the folder for each of them in turn, and syncs each commit: SQLite (synchronous=FULL, by
prepared statements) with a rollback journal and with a write-ahead log, LMDB by the player peers/work.c, where its library
is installed. All must count the same records and commits.

The floor is what the disk alone takes: as many blocks written at random to a file as large, and as many syncs, as `strace`
counts of the program, where it is installed. It prints the least seconds that went by, since most of them are waited for the
disk, and the ratios to the program."""

import os
import pathlib
import random
import shutil
import sqlite3
import subprocess
import sys
import tempfile
import time

EQUATIONS = {
    "ring": """dept = actual(bplus)
emp = index(pay, segment(name pay, actual(bplus), actual(heap)), bplus)
works = ring(actual(hash(8)), actual(bplus))
""",
    "inverted": """dept = actual(bplus)
emp = index(pay, actual(bplus), bplus)
works = inverted(bplus, actual(bplus))
""",
}
BLOCKS = 30007
RECORDS = (1_000, 5_000)
GROUP = 20
DEPARTMENTS = 10
MODES = ("delete", "wal")
TABLES = (
    "create table dept (dno integer primary key, dname text not null)",
    "create table emp (eno integer primary key, name text not null, pay integer not null, room text not null, dept integer references dept (dno))",
    "create index by_pay on emp (pay)",
    "create index by_dept on emp (dept)",
)


def timed(words, made):
    """What the command prints, and the seconds that it takes, where the file that it makes isn't there."""
    made.unlink(missing_ok=True)
    begun = time.monotonic()
    ran = subprocess.run(words, check=True, capture_output=True, text=True)
    return ran.stdout, time.monotonic() - begun


def words_of(program, folder, equation, records):
    text = folder / equation
    text.write_text(EQUATIONS[equation])
    return [program, "work", text, folder / "device", str(BLOCKS), str(records)]


def of_program(program, folder, equation, records):
    """The line of `work`, and its seconds."""
    return timed(words_of(program, folder, equation, records), folder / "device")


def of_lmdb(player, folder, records):
    return timed([player, folder / "lmdb", str(records)], folder / "lmdb")


def counted(program, folder, equation, records):
    """How many blocks the program writes, and how often it syncs. None where `strace` isn't installed."""
    if not shutil.which("strace"):
        return None
    (folder / "device").unlink(missing_ok=True)
    words = ["strace", "-f", "-c", "-o", folder / "calls", *words_of(program, folder, equation, records)]
    subprocess.run(words, check=True, capture_output=True)
    rows = (it.split() for it in (folder / "calls").read_text().splitlines())
    calls = {row[-1]: int(row[3]) for row in rows if len(row) > 4 and row[3].isdigit()}
    return calls["pwrite64"], calls["fdatasync"]


def floor(folder, writes, syncs):
    """The seconds of as many blocks written at random and as many syncs, to a file as large."""
    path = folder / "floor"
    path.unlink(missing_ok=True)
    block, order = bytes(range(256)) * 16, random.Random(1)
    begun = time.monotonic()
    with open(path, "w+b", buffering=0) as file:
        file.truncate(BLOCKS * len(block))
        for sync in range(syncs):
            for _ in range(writes * (sync + 1) // syncs - writes * sync // syncs):
                os.pwrite(file.fileno(), block, order.randrange(BLOCKS) * len(block))
            os.fdatasync(file.fileno())
    return time.monotonic() - begun


def of_sqlite(folder, records, mode):
    """The same line, and the seconds, of the same work in SQL."""
    path = folder / f"{mode}.db"
    for it in folder.glob(f"{mode}.db*"):
        it.unlink()
    begun = time.monotonic()
    base = sqlite3.connect(path, isolation_level=None)
    base.execute(f"pragma journal_mode={mode}")
    base.execute("pragma synchronous=full")
    base.execute("pragma foreign_keys=on")
    for table in TABLES:
        base.execute(table)
    commits = 0

    def in_transaction(steps):
        nonlocal commits
        base.execute("begin")
        for statement, values in steps:
            base.execute(statement, values)
        base.execute("commit")
        commits += 1

    def joined(number):
        pay, room = 1000 + 37 * number % 100, "r7" if number % 2 else ""
        yield "insert into emp values (?, ?, ?, ?, null)", (number, f"emp {number}", pay, room)
        yield "update emp set dept = ? where eno = ? and dept is null", (number % DEPARTMENTS, number)

    in_transaction(("insert into dept values (?, ?)", (dept, f"dept {dept}")) for dept in range(DEPARTMENTS))
    for first in range(1, records + 1, GROUP):
        group = range(first, min(first + GROUP, records + 1))
        in_transaction(step for number in group for step in joined(number))
    in_transaction(("update emp set pay = 1500 where eno = ?", (number,)) for number in range(3, records + 1, 3))
    by_pay = len(base.execute("select * from emp where pay = 1500 order by eno").fetchall())
    by_link = len(base.execute("select * from emp where dept = 3 order by eno").fetchall())
    base.close()
    took = time.monotonic() - begun
    return f"work: {records} records, {by_pay} by pay, {by_link} by link, {commits} commits\n", took


def built(folder):
    """The player of LMDB. None where its library isn't installed."""
    player = folder / "player"
    source = pathlib.Path(__file__).resolve().parent / "peers" / "work.c"
    ran = subprocess.run(["cc", "-O2", "-o", player, source, "-llmdb"], capture_output=True)
    return player if ran.returncode == 0 else None


def measured(program, folder, player, equation, records, rounds):
    """The least seconds of each."""
    peers = {f"SQLite, {mode}": lambda mode=mode: of_sqlite(folder, records, mode) for mode in MODES}
    if player:
        peers["LMDB"] = lambda: of_lmdb(player, folder, records)
    calls = counted(program, folder, equation, records)
    best = {}
    for _ in range(rounds):
        said, took = of_program(program, folder, equation, records)
        best["genesis"] = min(took, best.get("genesis", took))
        for name, peer in peers.items():
            told, took = peer()
            if told != said:
                sys.exit(f"not the same: {said}{told}")
            best[name] = min(took, best.get(name, took))
        if calls:
            took = floor(folder, *calls)
            best["the floor"] = min(took, best.get("the floor", took))
    return best


def main():
    program, root = pathlib.Path(sys.argv[1]).resolve(), sys.argv[2]
    rounds = int(sys.argv[3]) if len(sys.argv) > 3 else 5
    names = None
    with tempfile.TemporaryDirectory(dir=root) as made:
        folder = pathlib.Path(made)
        player = built(folder)
        for records in RECORDS:
            for equation in EQUATIONS:
                best = measured(program, folder, player, equation, records, rounds)
                if not names:
                    names = [it for it in best if it != "genesis"]
                    print("| work | genesis |", " | ".join(f"by {it}" for it in names), "|")
                    print("|---|" + "--:|" * (len(names) + 1))
                row = [f"{best['genesis'] / best[it]:.2f}" for it in names]
                print(f"| work {records}, {equation} | {best['genesis']:.3f} s |", " | ".join(row), "|")


main()
