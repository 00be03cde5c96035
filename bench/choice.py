#!/usr/bin/env python3
"""Measures what the manual says of the choice of a file kind: choice.py PROGRAM FOLDER [RECORDS..]. On a new
device in FOLDER, of each kind and of so many records in a mixed order of their keys, it prints the seconds of a
processor that the load takes, and the microseconds of a get and of a find by a range of twenty keys, without
those of an empty run. Then it prints the milliseconds of a find of a third of 10,000 records by an index over
each kind. RECORDS are 1,000, 4,000 and 10,000 where none are named; a heap of 60,000 takes minutes."""

import os
import pathlib
import random
import sys
import tempfile

SCHEMA = "file item (code int, name text 24, pay int)\n"
KINDS = ("bplus", "hash(64)", "hash(8)", "isam, reorganized", "isam", "heap")
PEOPLE = pathlib.Path(__file__).resolve().parent.parent / "examples/company/schema"
TERMS = ("actual(bplus)", "index(pay, actual(bplus), bplus)", "index(pay, actual(hash(64)), bplus)", "index(pay, actual(heap), bplus)")
ROWS = 1000


def played(folder, program, *words, script=""):
    """The seconds of a processor that a request takes."""
    (folder / "script").write_text(script)
    with open(folder / "script", "rb") as lines, open(os.devnull, "wb") as answers:
        child = os.posix_spawn(program, [program, *map(str, words)], os.environ,
                               file_actions=[(os.POSIX_SPAWN_DUP2, lines.fileno(), 0), (os.POSIX_SPAWN_DUP2, answers.fileno(), 1)])
        _, status, used = os.wait4(child, 0)
    if status:
        sys.exit(f"choice.py: {words[0]} ended with status {os.waitstatus_to_exitcode(status)}")
    return used.ru_utime + used.ru_stime


def least(folder, program, texts, script, rounds=2):
    return min(played(folder, program, "run", *texts, script=script) for _ in range(rounds))


def load(records, keys, is_reorganized):
    end = ["reorganize item", "commit"] if is_reorganized else ["commit"]
    lines = []
    for at in range(0, records, ROWS):
        lines += ["begin", *(f'insert item {it} "item {it}" {it % 100}' for it in keys[at:at + ROWS]), *end]
    return "\n".join(lines) + "\n"


def kinds(folder, program, records):
    keys = list(range(records))
    random.Random(5).shuffle(keys)
    (folder / "schema").write_text(SCHEMA)
    texts = [folder / it for it in ("schema", "equation", "device")]
    for kind in KINDS:
        (folder / "equation").write_text(f"item = actual({kind.split(',')[0]})\n")
        (folder / "device").unlink(missing_ok=True)
        played(folder, program, "make", *texts, 8007)
        loaded = played(folder, program, "run", *texts, script=load(records, keys, "," in kind))
        empty = least(folder, program, texts, "", 3)
        count = 300 if kind in ("heap", "isam") else 6000
        gets = least(folder, program, texts, "".join(f"get item {keys[it * 7 % records]}\n" for it in range(count))) - empty
        ranges = least(folder, program, texts, "".join(
            f"find item where code >= {it} and code < {it + 20}\n" for it in (keys[at * 3 % records] % (records - 20) for at in range(count // 6)))) - empty
        print(f"{records:6} {kind:18} load {loaded:8.3f} s  get {gets / count * 1e6:7.1f} us  range {ranges / (count // 6) * 1e6:7.1f} us", flush=True)


def indexes(folder, program):
    texts = [PEOPLE, folder / "equation", folder / "device"]
    for term in TERMS:
        (folder / "equation").write_text(f"dept = actual(bplus)\nemp = {term}\nworks = inverted(bplus, actual(bplus))\n")
        (folder / "device").unlink(missing_ok=True)
        played(folder, program, "work", *texts[1:], 30007, 10000)
        found = least(folder, program, texts, "find emp where pay = 1500\n", 3) - least(folder, program, texts, "", 3)
        print(f"{term:38} find {found * 1e3:7.1f} ms", flush=True)


def main():
    if len(sys.argv) < 3 or not all(it.isdigit() and int(it) > 20 for it in sys.argv[3:]):
        sys.exit("choice.py: usage: choice.py PROGRAM FOLDER [RECORDS..]")
    program = os.path.abspath(sys.argv[1])
    with tempfile.TemporaryDirectory(dir=sys.argv[2]) as made:
        for records in map(int, sys.argv[3:] or (1000, 4000, 10000)):
            kinds(pathlib.Path(made), program, records)
        indexes(pathlib.Path(made), program)


main()
