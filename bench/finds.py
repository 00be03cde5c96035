#!/usr/bin/env python3
"""Measures finds by a key and by an index beside sqlite3 :memory: with the same indexes: finds.py PROGRAM [ROUNDS].
Both first say the same records, or it stops. It prints a table of processor seconds and ratios; the
seconds of what stood there before are taken off."""

import pathlib
import re
import shutil
import sys
import tempfile

from measure import Job, Work as Measured, heads, measure, row, show
from scripts import RECORDS, SCHEMA, Work

EQUATION = "part = index(quantity, index(name, actual(bplus), bplus), bplus)\n"
INDEXES = ["create index by_quantity on part (quantity);", "create index by_name on part (name);"]
ONES = 100_000
RANGES = 10_000
# no run takes longer than a minute
LIMIT = ["timeout", "60"]


class Finds(Work):
    """Records under two indexes, with the names that were given."""

    def __init__(self, count=RECORDS):
        super().__init__(4)
        self.statements += INDEXES
        self.names = []
        self.inserts(count)

    def name(self):
        self.names.append(super().name())
        return self.names[-1]

    def find(self, conditions, order=""):
        by = f"{order}, number" if order else "number"
        told = f" order {order}" if order else ""
        texts = re.sub(r'"(.*?)"', r"'\1'", conditions)
        self.add(f"find part where {conditions}{told}", f"select * from part where {texts} order by {by};")

    def many(self, count, conditions, order=""):
        for _ in range(count):
            self.find(conditions(self.random), order)
        return self


def works():
    """Each piece of work: its title, its lines, and the title of what it begins with."""

    def quantities(it):
        least = it.randrange(9_990)
        return f"quantity >= {least} and quantity < {least + 10}"

    def keys(it):
        least = it.randrange(RECORDS - 100)
        return f"number >= {least} and number < {least + 100}"

    begin = f"{RECORDS:,} inserts with two indexes"
    yield "start and end", Finds(0), None
    yield begin, Finds(), "start and end"
    changed = Finds()
    changed.updates(RECORDS)
    yield f"{RECORDS:,} updates of an indexed field", changed, begin
    named = Finds()
    yield f"{ONES:,} finds of one by an indexed text", named.many(ONES, lambda it: f'name = "{it.choice(named.names)}"'), begin
    yield f"{ONES:,} finds of one by the key", Finds().many(ONES, lambda it: f"number = {it.randrange(RECORDS)}"), begin
    yield f"{RANGES:,} finds of 100 by a range of keys", Finds().many(RANGES, keys), begin
    yield f"{RANGES:,} finds of 100 by a range of an indexed field", Finds().many(RANGES, quantities), begin
    yield "the same with a second condition", Finds().many(RANGES, lambda it: f'{quantities(it)} and name < "n"'), begin
    yield "the same in the order of another field", Finds().many(RANGES, quantities, "name"), begin


def records(text):
    """The records that the program says, as sqlite3 says them."""
    found = [it[len("part ") :] for it in text.splitlines() if it.startswith("part ")]
    return [re.sub(r'^(\S+) (\S+) "(.*)"$', r"\1|\2|\3", it) for it in found]


def main():
    program, rounds = sys.argv[1], int((sys.argv[2:] or [5])[0])
    if not shutil.which("sqlite3"):
        sys.exit("sqlite3 is not installed")
    with tempfile.TemporaryDirectory(prefix="genesis-finds-") as room:
        folder = pathlib.Path(room)
        (folder / "schema").write_text(SCHEMA)
        (folder / "equation").write_text(EQUATION)
        ours, theirs, before = {}, {}, {}
        for number, (title, work, begin) in enumerate(works()):
            work.write(folder, str(number))
            ours[title] = Job(f"genesis: {title}", [*LIMIT, program, "try", f"{folder}/schema", f"{folder}/equation"], f"{folder}/{number}.script")
            theirs[title] = Job(f"sqlite3: {title}", [*LIMIT, "sqlite3", "-batch", ":memory:"], f"{folder}/{number}.sql")
            before[title] = begin
            if records(ours[title].run()) != theirs[title].run().splitlines():
                sys.exit(f"{title}: the records that sqlite3 says are others")
        measure([it for title in ours for it in (ours[title], theirs[title])], rounds)
        show([*heads(), *[row(it, Measured(ours[it], ours.get(before[it])), "sqlite3", Measured(theirs[it], theirs.get(before[it]))) for it in ours]])


main()
