"""Measures single crates: crates.py FOLDER ROUNDS [rows], where crates.sh built the programs in the folder. With rows it prints no heads of the table."""
import pathlib
import random
import sys

from measure import Job, Work, heads, measure, median, row, show

SCHEMA_BYTES = 16_380
SCHEMAS = 10_000
SCRIPT_LINES = 250_000
LINES = 1_000_000
SLOTS = {"find": 3_000_100, "add": 1_000_000}
GETS = 10_000_000


def schema_text():
    """A schema of exactly so many bytes: files of 32 fields, and a comment that fills it up."""
    text = ""
    for file in range(32):
        fields = ", ".join(f"field_{number:02}_{'ab' * (number % 4)} {'text 100' if number % 2 else 'int'}" for number in range(32))
        line = f"file file_{file:02} ({fields})\n"
        if len(text) + len(line) > SCHEMA_BYTES:
            break
        text += line
    return text + "#" * (SCHEMA_BYTES - len(text))


def script_text():
    """Lines of insert and find in turn."""
    numbers = random.Random(1)
    lines = []
    for _ in range(SCRIPT_LINES // 2):
        number, quantity = numbers.randrange(1_000_000), numbers.randrange(10_000)
        lines.append(f'insert part {number} {quantity} "name of {number}"\n')
        lines.append(f"find part where quantity >= {quantity} and number < {number} order name\n")
    return "".join(lines)


def rows(jobs):
    schema, lines = jobs["schema"], jobs["lines"]
    yield row(f"{SCHEMAS:,} schemas of {SCHEMA_BYTES:,} bytes read", Work(schema), rate=rate(schema, SCHEMAS * SCHEMA_BYTES / 1e6, "MB"))
    yield row(f"{LINES:,} lines of a script read", Work(lines), rate=rate(lines, LINES / 1e6, "million lines"))
    for name, count in SLOTS.items():
        title = f"{count:,} entries {'looked up' if name == 'find' else 'looked up and added'}, a page of 100"
        yield beside(title, jobs[f"slots {name}"], "plain Rust", jobs[f"plain {name}"], count)
    yield beside(f"{GETS:,} gets over 64 frames", jobs["frames"], "the crate lru", jobs["lru"], GETS)


def rate(job, count, unit):
    return f"{count / median(job.seconds):.2f} {unit}/s"


def beside(title, job, peer, other, count):
    return row(title, Work(job), peer, Work(other), rate(job, count / 1e6, "million"))


def main():
    folder, rounds = pathlib.Path(sys.argv[1]), int(sys.argv[2])
    (folder / "schema.txt").write_text(schema_text())
    (folder / "script.txt").write_text(script_text())
    program = lambda name: str(folder / f"crates/bench_{name}/out/bench_{name}")
    jobs = {
        "schema": Job("schema", [program("schema")], str(folder / "schema.txt")),
        "lines": Job("lines", [program("lines")], str(folder / "script.txt")),
        "frames": Job("frames", [program("frames")]),
        "lru": Job("lru", [program("lru")]),
    }
    for name in SLOTS:
        jobs[f"slots {name}"] = Job(f"slots {name}", [program("slots"), name])
        jobs[f"plain {name}"] = Job(f"plain {name}", [str(folder / "slots_plain"), name])
    measure(jobs.values(), rounds)
    show([*([] if sys.argv[3:] == ["rows"] else heads()), *rows(jobs)])


main()
