"""Makes the scripts that the program plays, and the same work in SQL: scripts.py FOLDER."""
import pathlib
import random
import sys

RECORDS = 100_000
COMMITS = 20_000
FINDS = 1_000
FEW_RECORDS = 10_000

SCHEMA = "file part (number int, quantity int, name text 20)\n"
EQUATION = "part = actual(heap)\n"
PARTED = "part = partition(quantity 2500 5000 7500, actual(heap), actual(heap), actual(heap), actual(heap))\n"
PARTITIONS = 10
FILES = 32
LEAVES = 255
TABLE = "create table part (number integer primary key, quantity integer not null, name text not null);"


class Work:
    """The lines of one piece of work, for the program and for SQL."""

    def __init__(self, seed):
        self.random = random.Random(seed)
        self.lines, self.statements = [], [TABLE]

    def add(self, line, statement):
        self.lines.append(line)
        self.statements.append(statement)

    def shuffled(self, count):
        return self.random.sample(range(count), count)

    def name(self):
        return "".join(self.random.choices("abcdefghijklmnopqrstuvwxyz", k=self.random.randint(5, 20)))

    def begin(self):
        self.add("begin", "begin;")

    def commit(self):
        self.add("commit", "commit;")

    def insert(self, number):
        quantity, name = self.random.randrange(10_000), self.name()
        self.add(f'insert part {number} {quantity} "{name}"', f"insert into part values ({number}, {quantity}, '{name}');")

    def inserts(self, count):
        self.begin()
        for number in self.shuffled(count):
            self.insert(number)
        self.commit()

    def gets(self, count):
        for number in self.shuffled(count):
            self.add(f"get part {number}", f"select * from part where number = {number};")

    def updates(self, count):
        self.begin()
        for number in self.shuffled(count):
            quantity = self.random.randrange(10_000)
            self.add(f"update part {number} quantity {quantity}", f"update part set quantity = {quantity} where number = {number};")
        self.commit()

    def finds(self, count):
        for _ in range(count):
            least = self.random.randrange(9_900)
            self.add(
                f"find part where quantity >= {least} and quantity < {least + 100} order name",
                f"select * from part where quantity >= {least} and quantity < {least + 100} order by name, number;",
            )

    def commits(self, count):
        for number in self.shuffled(count):
            self.begin()
            self.insert(number)
            self.commit()

    def write(self, folder, name):
        (folder / f"{name}.script").write_text("".join(f"{line}\n" for line in self.lines))
        (folder / f"{name}.sql").write_text("".join(f"{line}\n" for line in self.statements))


def works():
    """Each piece of work by its name."""
    made = {"nothing": Work(0)}
    for count in (RECORDS // 4, RECORDS // 2, RECORDS):
        made[f"insert-{count}"] = work = Work(1)
        work.inserts(count)
    for name, more in {"get": Work.gets, "update": Work.updates}.items():
        made[name] = work = Work(1)
        work.inserts(RECORDS)
        more(work, RECORDS)
    made["commit"] = work = Work(2)
    work.commits(COMMITS)
    for name, count in {"few": 0, "find": FINDS}.items():
        made[name] = work = Work(3)
        work.inserts(FEW_RECORDS)
        work.finds(count)
    return made


def nested():
    """An equation of so many partitions in one another, with bounds above each key: every record goes through all of them."""
    term = "actual(heap)"
    for number in range(PARTITIONS):
        term = f"partition(number {RECORDS + number}, {term}, actual(heap))"
    return f"part = {term}\n"


def divided(file, leaves):
    """A definition of one file with so many leaves, by its key."""
    bounds = " ".join(str(10 * number) for number in range(1, leaves))
    return f"file_{file} = partition(k {bounds}, {', '.join(['actual(bplus)'] * leaves)})\n"


def write_check(folder):
    """The most files that a schema may have, with the most leaves that an equation may have."""
    (folder / "check.schema").write_text("".join(f"file file_{file} (k int, a int, b text 20, c text 8)\n" for file in range(FILES)))
    shares = [LEAVES // FILES + (file < LEAVES % FILES) for file in range(FILES)]
    (folder / "check.equation").write_text("".join(divided(file, share) for file, share in enumerate(shares)))


def main():
    folder = pathlib.Path(sys.argv[1])
    (folder / "schema").write_text(SCHEMA)
    (folder / "equation").write_text(EQUATION)
    (folder / "nested.equation").write_text(nested())
    (folder / "parted.equation").write_text(PARTED)
    write_check(folder)
    for name, work in works().items():
        work.write(folder, name)


if __name__ == "__main__":
    main()
