#!/usr/bin/env python3
"""Measures tools/genesis.py beside Python's module sqlite3, in memory: python.py PROGRAM [ROUNDS].
Both play the same work on the same records, with an index on the same field, and must read the same
rows. It prints, an operation, the instructions of all processes by valgrind, the least processor seconds
of the rounds, and the least seconds that went by. What the load before takes is taken off. PROGRAM
is the program itself and no launcher, whose processor seconds the system tells.
--records N is how many records each piece of work begins with."""

import argparse
import hashlib
import pathlib
import random
import re
import subprocess
import sys
import tempfile
import time

HERE = pathlib.Path(__file__).resolve().parent
sys.path.insert(0, str(HERE.parent / "tools"))
sys.dont_write_bytecode = True

import sqlite3  # noqa: E402

import genesis  # noqa: E402

SCHEMA = "file emp (eno int, name text 24, pay int)\n"
EQUATION = "emp = index(pay, actual(bplus), bplus)\n"
# How many operations are compared, counted and timed.
COMPARED, COUNTED, TIMED = 200, 300, 4_000


def record(number):
    return number, f"emp {number}", 7 * number


class Genesis:
    """The work on a database in memory, by the module."""

    def __init__(self, folder, program):
        self.db = genesis.open(f"{folder}/schema", f"{folder}/equation", program=program)

    def load(self, records):
        with self.db.transaction():
            self.many(records)

    def many(self, numbers):
        word = genesis.word
        self.db.many(f"insert emp {eno} {word(name)} {pay}" for eno, name, pay in map(record, numbers))

    def insert(self, number):
        self.db("insert emp ? ? ?", *record(number))

    def update(self, number):
        self.db("update emp ? name ?", number, "another")

    def get(self, number):
        return [self.db.row("get emp ?", number)]

    def find(self, number):
        return self.db("find emp where pay = ?", 7 * number)

    def find_range(self, number):
        return self.db("find emp where eno >= ? and eno < ?", number, number + 100)

    def one(self, number):
        with self.db.transaction():
            self.insert(number)

    def begin(self):
        self.db("begin")

    def commit(self):
        self.db("commit")

    def spent(self):
        """The seconds of a processor that the program has taken."""
        told = pathlib.Path(f"/proc/{self.db._child.pid}/schedstat")  # pylint: disable=protected-access
        return int(told.read_text().split()[0]) / 1e9

    def close(self):
        self.db.close()


class Sqlite:
    """The same by Python's module."""

    def __init__(self, *_):
        self.base = sqlite3.connect(":memory:", isolation_level=None)
        self.base.execute("create table emp (eno integer primary key, name text not null, pay integer not null)")
        self.base.execute("create index by_pay on emp (pay)")

    def load(self, records):
        self.begin()
        self.many(records)
        self.commit()

    def many(self, numbers):
        self.base.executemany("insert into emp values (?, ?, ?)", map(record, numbers))

    def insert(self, number):
        self.base.execute("insert into emp values (?, ?, ?)", record(number))

    def update(self, number):
        self.base.execute("update emp set name = ? where eno = ?", ("another", number))

    def get(self, number):
        return [self.base.execute("select * from emp where eno = ?", (number,)).fetchone()]

    def find(self, number):
        return self.base.execute("select * from emp where pay = ? order by eno", (7 * number,)).fetchall()

    def find_range(self, number):
        found = "select * from emp where eno >= ? and eno < ? order by eno"
        return self.base.execute(found, (number, number + 100)).fetchall()

    def one(self, number):
        self.begin()
        self.insert(number)
        self.commit()

    def begin(self):
        self.base.execute("begin")

    def commit(self):
        self.base.execute("commit")

    def spent(self):
        return 0

    def close(self):
        self.base.close()


PLAYERS = {"genesis": Genesis, "sqlite3": Sqlite}
# Of each piece of work its title, and whether it is in one transaction and of new records.
WORKS = {
    "insert": ("an insert in one transaction", True, True),
    "many": ("an insert of many at once, in one transaction", True, True),
    "one": ("a transaction of one insert", False, True),
    "update": ("an update in one transaction", True, False),
    "get": ("a get", False, False),
    "find": ("a find of one by an index", False, False),
    "find_range": ("a find of 100 by a range of keys", False, False),
}


def play(kind, work, count, records, *words):
    """Plays a piece of work, and prints the processor seconds and the seconds that it took, and a sum of what was read."""
    player, order = PLAYERS[kind](*words), random.Random(7)
    player.load(order.sample(range(records), records))
    is_one, is_new = WORKS[work][1:]
    numbers = range(records, records + count) if is_new else [order.randrange(records - 100) for _ in range(count)]
    step, read = getattr(player, work), None
    spent, begun = time.process_time() + player.spent(), time.perf_counter()
    if is_one:
        player.begin()
    if work == "many":
        step(numbers)
    elif count == COMPARED:
        read = [step(it) for it in numbers]
    else:
        for number in numbers:
            step(number)
    if is_one:
        player.commit()
    gone = time.perf_counter() - begun
    spent = time.process_time() + player.spent() - spent
    read = repr((read, player.find_range(records - 100), player.find_range(records)))
    player.close()
    print(spent, gone, hashlib.sha256(read.encode()).hexdigest())


def ran(words):
    """What a play prints: processor seconds, seconds that went by, and a sum of what was read."""
    said = subprocess.run(words, stdout=subprocess.PIPE, stderr=subprocess.DEVNULL, check=True, text=True).stdout.split()
    return float(said[0]), float(said[1]), said[2]


def counted(words, folder):
    """The instructions of all processes of a play."""
    ran(["valgrind", "-q", "--tool=callgrind", "--trace-children=yes", f"--callgrind-out-file={folder}/counts.%p", *words])
    counts = list(pathlib.Path(folder).glob("counts.*"))
    took = sum(int(re.search(r"^(?:summary|totals): (\d+)", it.read_text(), re.M)[1]) for it in counts)
    for it in counts:
        it.unlink()
    return took


class Measure:
    """What the work of one player takes, without its load."""

    def __init__(self, kind, asked, folder):
        self.kind, self.asked, self.folder = kind, asked, folder
        self.load = counted(self.words("get", 0), folder)

    def words(self, work, count):
        more = [str(count), str(self.asked.records), self.folder, self.asked.program]
        return [sys.executable, __file__, "--play", self.kind, work, *more]

    def read(self, work):
        return ran(self.words(work, COMPARED))[2]

    def figures(self, work):
        """Instructions, processor microseconds, and those that went by, an operation."""
        instructions = counted(self.words(work, COUNTED), self.folder) - self.load
        rounds = [ran(self.words(work, TIMED))[:2] for _ in range(self.asked.rounds)]
        return instructions / COUNTED, *(min(it) / TIMED * 1e6 for it in zip(*rounds))


def main():
    words = argparse.ArgumentParser(description=__doc__, formatter_class=argparse.RawDescriptionHelpFormatter)
    words.add_argument("program")
    words.add_argument("rounds", type=int, nargs="?", default=3)
    words.add_argument("--records", type=int, default=2_000)
    asked = words.parse_args()
    print("| work | instructions | by sqlite3 | processor us | by sqlite3 | us that went by | by sqlite3 |")
    print("|---|" + "--:|" * 6)
    with tempfile.TemporaryDirectory(prefix="genesis-python-") as folder:
        for name, text in (("schema", SCHEMA), ("equation", EQUATION)):
            pathlib.Path(folder, name).write_text(text, encoding="ascii")
        ours, theirs = (Measure(it, asked, folder) for it in PLAYERS)
        for work, (title, *_) in WORKS.items():
            if ours.read(work) != theirs.read(work):
                sys.exit(f"{title}: the rows of sqlite3 are others")
            pairs = list(zip(ours.figures(work), theirs.figures(work)))
            figures = [f"{pairs[0][0]:,.0f} | {pairs[0][1]:,.0f}", *(f"{mine:.1f} | {other:.1f}" for mine, other in pairs[1:])]
            print(f"| {title} | {' | '.join(figures)} |", flush=True)


if sys.argv[1:2] == ["--play"]:
    play(*sys.argv[2:4], *map(int, sys.argv[4:6]), *sys.argv[6:])
else:
    main()
