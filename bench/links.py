#!/usr/bin/env python3
"""Measures links under each linkset beside sqlite3 :memory: with a foreign key and an index on it: links.py PROGRAM [ROUNDS].
5,000 members under ten owners are connected, listed, their owners asked, and disconnected. Both programs say the same
records, or it stops. It prints a table of processor seconds and ratios; the seconds of what stood there before are taken off."""

import pathlib
import random
import re
import shutil
import sys
import tempfile

from measure import Job, Work as Measured, heads, measure, row, show

SCHEMA = "file dept (dno int, dname text 12)\nfile emp (eno int, name text 24, pay int)\nlink works (dept, emp)\n"
FILES = "dept = actual(bplus)\nemp = actual(bplus)\n"
LINKSETS = {"array": "array(divide(200, bplus))", "ring": "ring(actual(bplus), actual(bplus))", "inverted": "inverted(bplus, actual(bplus))"}
TABLES = [
    "pragma foreign_keys = on;",
    "create table dept (dno integer primary key, dname text not null);",
    "create table emp (eno integer primary key, name text not null, pay integer not null, dept integer references dept (dno));",
    "create index by_dept on emp (dept);",
]
OWNERS = 10
MEMBERS = 5_000
LISTS = 200
# no run takes longer than two minutes
LIMIT = ["timeout", "120"]


class Work:
    """The lines of one piece of work, for the program and for SQL, each step behind those before it."""

    def __init__(self):
        self.random = random.Random(6)
        self.lines, self.statements = [], list(TABLES)

    def add(self, line, statement):
        self.lines.append(line)
        self.statements.append(statement)

    def shuffled(self):
        return self.random.sample(range(MEMBERS), MEMBERS)

    def records(self):
        self.add("begin", "begin;")
        for dept in range(OWNERS):
            self.add(f'insert dept {dept} "dept {dept}"', f"insert into dept values ({dept}, 'dept {dept}');")
        for emp in self.shuffled():
            pay = self.random.randrange(1_000)
            self.add(f'insert emp {emp} "emp {emp}" {pay}', f"insert into emp values ({emp}, 'emp {emp}', {pay}, null);")
        self.add("commit", "commit;")

    def connects(self):
        self.add("begin", "begin;")
        for emp in self.shuffled():
            self.add(f"connect works {emp % OWNERS} {emp}", f"update emp set dept = {emp % OWNERS} where eno = {emp} and dept is null;")
        self.add("commit", "commit;")

    def lists(self):
        for _ in range(LISTS):
            dept = self.random.randrange(OWNERS)
            self.add(f"members works {dept}", f"select eno, name, pay from emp where dept = {dept} order by eno;")

    def finds(self):
        for _ in range(LISTS):
            dept, pay = self.random.randrange(OWNERS), self.random.randrange(990)
            self.add(
                f"find emp where pay >= {pay} and pay < {pay + 10} of works {dept}",
                f"select eno, name, pay from emp where dept = {dept} and pay >= {pay} and pay < {pay + 10} order by eno;",
            )

    def owners(self):
        for emp in self.shuffled():
            self.add(f"owner works {emp}", f"select dno, dname from dept join emp on dept.dno = emp.dept where eno = {emp};")

    def disconnects(self):
        self.add("begin", "begin;")
        for emp in self.shuffled():
            self.add(f"disconnect works {emp}", f"update emp set dept = null where eno = {emp} and dept is not null;")
        self.add("commit", "commit;")

    def write(self, folder, name):
        (folder / f"{name}.script").write_text("".join(f"{line}\n" for line in self.lines))
        (folder / f"{name}.sql").write_text("".join(f"{line}\n" for line in self.statements))


def works():
    """Each piece of work: its title, its lines, and the title of what it begins with."""
    steps = [
        (f"{MEMBERS:,} and {OWNERS} records", Work.records),
        (f"{MEMBERS:,} connects", Work.connects),
        (f"{LISTS} lists of an owner's members", Work.lists),
        (f"{LISTS} finds of 10 in 1,000 of an owner's members", Work.finds),
        (f"{MEMBERS:,} questions for an owner", Work.owners),
        (f"{MEMBERS:,} disconnects", Work.disconnects),
    ]
    done, before = [], None
    for title, step in steps:
        work = Work()
        for it in [*done, step]:
            it(work)
        yield title, work, before
        done, before = [*done, step], title


def records(text):
    """The records that the program says, as sqlite3 says them."""
    found = [it.split(" ", 1)[1] for it in text.splitlines() if it.startswith(("emp ", "dept "))]
    return [re.sub(r'^(\S+) "(.*)"', r"\1|\2", it).replace("| ", "|") for it in found]


def main():
    program, rounds = sys.argv[1], int((sys.argv[2:] or [3])[0])
    if not shutil.which("sqlite3"):
        sys.exit("sqlite3 is not installed")
    with tempfile.TemporaryDirectory(prefix="genesis-links-") as room:
        folder = pathlib.Path(room)
        (folder / "schema").write_text(SCHEMA)
        ours, theirs, before = {}, {}, {}
        for number, (title, work, begin) in enumerate(works()):
            work.write(folder, str(number))
            theirs[title] = Job(f"sqlite3: {title}", [*LIMIT, "sqlite3", "-batch", ":memory:"], f"{folder}/{number}.sql")
            said = [it.replace("|", " ") for it in theirs[title].run().splitlines()]
            before[title] = begin
            for name, linkset in LINKSETS.items():
                (folder / name).write_text(f"{FILES}works = {linkset}\n")
                ours[name, title] = Job(f"{name}: {title}", [*LIMIT, program, "try", f"{folder}/schema", f"{folder}/{name}"], f"{folder}/{number}.script")
                if [it.replace("|", " ") for it in records(ours[name, title].run())] != said:
                    sys.exit(f"{title}: the records that sqlite3 says are others than under {name}")
        measure([*theirs.values(), *ours.values()], rounds)
        told = lambda jobs, key, title: Measured(jobs[key(title)], jobs.get(key(before[title])))
        rows = [row(f"{name}: {title}", told(ours, lambda it, name=name: (name, it), title), "sqlite3", told(theirs, lambda it: it, title)) for name in LINKSETS for title in before]
        show([*heads(), *rows])


main()
