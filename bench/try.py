"""Measures the program beside sqlite3, and beside itself: try.py PROGRAM FOLDER ROUNDS, where scripts.py filled the folder."""
import math
import os
import re
import shutil
import sys

from measure import Job, Work, heads, measure, median, row, show

# The work of each row, and what is taken off because it was there before.
ROWS = [
    ("start and end", "nothing", None),
    ("100,000 inserts in one transaction", "insert-100000", None),
    ("20,000 transactions of one insert", "commit", None),
    ("100,000 gets of 100,000 records", "get", "insert-100000"),
    ("100,000 updates in one transaction", "update", "insert-100000"),
    ("1,000 finds of about 100 of 10,000 records", "find", "few"),
]
GROWTH = [25_000, 50_000, 100_000]
RECORDS = 100_000
# The scripts that are also played under other equations: gets under ten nested partitions, finds in four parts.
NESTED = "get"
PARTED = ["few", "find"]


def jobs_of(words, folder, ending):
    names = [re.match(r"(.*)\.script$", it) for it in sorted(os.listdir(folder))]
    return {it[1]: Job(f"{words[0]}: {it[1]}", words, f"{folder}/{it[1]}{ending}") for it in names if it}


def compare(ours, theirs, others):
    """Runs each work once, and stops where sqlite3, or the program under another equation, says other records."""
    for name in ours:
        said = ours[name].run()
        if name in others and said != others[name].run():
            sys.exit(f"{others[name].name}: what is said is something else")
        said = [it[len("part ") :] for it in said.splitlines() if it.startswith("part ")]
        said = [re.sub(r'^(\S+) (\S+) "(.*)"$', r"\1|\2|\3", it) for it in said]
        if theirs and said != theirs[name].run().splitlines():
            sys.exit(f"{name}: the records that sqlite3 says are others")


def rows(ours, theirs, others):
    for title, name, before in ROWS:
        work = Work(ours[name], ours.get(before))
        yield row(title, work, *(["sqlite3", Work(theirs[name], theirs.get(before))] if theirs else []))
    few, find = PARTED
    work = Work(others[find], others[few])
    yield row("the same finds, of records in four parts", work, *(["sqlite3", Work(theirs[find], theirs[few])] if theirs else []))
    yield row("100,000 inserts and 100,000 gets, under ten nested partitions", Work(others[NESTED]), "under none", Work(ours[NESTED]))


def growth(name, jobs):
    """How the least time grows with the inserts."""
    times = [Work(jobs[f"insert-{count}"], jobs["nothing"]).seconds(min) for count in GROWTH]
    return f"{name} {', '.join(f'{it / times[0]:.2f}' for it in times)}"


def notes(ours, theirs, check):
    expected = [count * math.log(count) for count in GROWTH]
    said = [f"n log n {', '.join(f'{it / expected[0]:.2f}' for it in expected)}", growth("genesis", ours)]
    said += [growth("sqlite3", theirs)] if theirs else []
    yield f"How the least time grows with {', '.join(f'{it:,}' for it in GROWTH)} inserts: {'; '.join(said)}."
    work = Work(check, ours["nothing"])
    yield f"`check` of 255 leaves and 32 files beyond start and end: median {1000 * work.seconds(median):.1f} ms, least {1000 * work.seconds(min):.1f} ms."
    job = ours[f"insert-{RECORDS}"]
    if job.peaks:
        beyond = (max(job.peaks) - os.path.getsize(job.stdin)) / RECORDS
        yield f"Peak memory of the {RECORDS:,} inserts beyond their script: {beyond:.0f} bytes a record."


def main():
    program, folder, rounds = sys.argv[1:]
    ours = jobs_of([program, "try", f"{folder}/schema", f"{folder}/equation"], folder, ".script")
    equations = {NESTED: "nested", **dict.fromkeys(PARTED, "parted")}
    others = {
        name: Job(f"genesis: {name} under another equation", [program, "try", f"{folder}/schema", f"{folder}/{it}.equation"], f"{folder}/{name}.script")
        for name, it in equations.items()
    }
    theirs = {}
    if shutil.which("sqlite3"):
        theirs = jobs_of(["sqlite3", "-batch", ":memory:"], folder, ".sql")
    else:
        print("sqlite3 is not installed: the program is measured alone\n")
    compare(ours, theirs, others)
    check = Job("genesis: check", [program, "check", f"{folder}/check.schema", f"{folder}/check.equation"])
    print(f"{check.run()}", end="", file=sys.stderr)
    beside = [it for name in ours for it in (ours[name], theirs.get(name), others.get(name)) if it]
    measure([check, *beside], int(rounds))
    for note in notes(ours, theirs, check):
        print(f"{note}\n")
    show([*heads(), *rows(ours, theirs, others)])


main()
