"""What the tools share that ask the program: a run of it on a device that goes on from command to
command, and what is told meanwhile at a terminal."""

import argparse
import itertools
import os
import re
import subprocess
import sys
import time

from formats import SCRIPT_LIMIT, VALUE, Wrong, read_schema, text_of

TOP = os.path.dirname(os.path.dirname(os.path.realpath(__file__)))
# Less than a pipe holds, so that a program that waits to be read never waits for one that waits to write.
BATCH_LINES, BATCH_BYTES = 500, 32768
IS_LIST = re.compile(rb"[ \t]*(find|members|path)[ \t]")
IS_LAST = re.compile(r"found [0-9]+$|refused: ")
NO_ANSWER = re.compile(rb"[ \t]*(#|\r?$)")
# What the program says where it ends, and no record line begins with.
ENDS = re.compile(r"stopped at line [0-9]+: |stopped: |device: |refused: (words|missing|too long|schema|equation|type|texts)\b")


class Ended(Wrong):
    """The program ended with a status that isn't 0, and said this at last."""

    def __init__(self, status, said):
        super().__init__(said or f"the program ended with status {status} and no word")
        self.status, self.said = status, said


def add_program(words):
    """The word by which a tool asks another program than `./genesis`."""
    words.add_argument("--program", metavar="FILE", default=f"{TOP}/genesis", help="another program than ./genesis")


def said_by(program, words, script=b""):
    """What a request says of a script."""
    ran = subprocess.run([program, *words], input=script, stdout=subprocess.PIPE, check=False)
    said = ran.stdout.decode("latin-1")
    if ran.returncode:
        raise Ended(abs(ran.returncode), (said.splitlines() or [""])[-1])
    return said


class Play:
    """A run of the program on a device, which has the device until it is closed. Where a script
    would be too long another run goes on."""

    def __init__(self, program, texts):
        self.words = [program, "run", *texts]
        self.start()

    def __enter__(self):
        return self

    def __exit__(self, kind, *_):
        if kind is None:
            self.close()
        else:
            self.child.terminate()
            self.child.wait()

    def start(self):
        self.written = 0
        self.child = subprocess.Popen(self.words, stdin=subprocess.PIPE, stdout=subprocess.PIPE)

    def close(self, said=""):
        """Ends the run, which is to end with 0, and said this at last."""
        try:
            self.child.stdin.close()
        except BrokenPipeError:
            pass
        for line in self.child.stdout:
            said = line.decode("latin-1")
        self.child.stdout.close()
        status = self.child.wait()
        if status:
            raise Ended(abs(status), said.rstrip("\n"))

    def make_room(self, size):
        """Begins another run where this one may not be told so many bytes more."""
        if self.written + size > SCRIPT_LIMIT:
            self.close()
            self.start()

    def tell(self, lines):
        """Tells the program lines, of which each has its end."""
        text = b"".join(lines)
        self.written += len(text)
        try:
            self.child.stdin.write(text)
            self.child.stdin.flush()
        except BrokenPipeError:
            pass

    def hear(self):
        """The next line of an answer. Where the program ended instead, with whatever status, this
        is Ended."""
        line = self.child.stdout.readline().decode("latin-1")
        if not line or ENDS.match(line):
            self.close(line)
            raise Ended(1, line.rstrip("\n") or "the program ended before its script")
        return line[:-1]

    def listed(self, commands):
        """For each command that lists records the lines of its answer but the last one, `found N`.
        Each is played in a transaction that is given up, so that `begun` and `dropped` stand around
        it, whatever its records are. The lines have to be taken before the next answer is."""
        for batch in batches(f"begin\n{it}\nabort\n".encode("latin-1") for it in commands):
            self.make_room(sum(map(len, batch)))
            self.tell([b"%s\n" % it for part in batch for it in part.splitlines()])
            for _ in batch:
                yield self.answer()

    def answer(self):
        before = self.hear()
        while (line := self.hear()) != "dropped":
            if before != "begun":
                yield before
            before = line
        if before.startswith("refused: "):
            raise Wrong(before)


def batches(items, size_of=len):
    """Lines in lists, each of which is written at once."""
    batch, size = [], 0
    for item in items:
        if batch and (len(batch) == BATCH_LINES or size + size_of(item) > BATCH_BYTES):
            yield batch
            batch, size = [], 0
        batch.append(item)
        size += size_of(item)
    if batch:
        yield batch


def values(line):
    """The values of a record line, as they stand there."""
    return VALUE.findall(line, line.index(" "))


class Progress:
    """A line on standard error, where that is a terminal, which tells how far a tool is."""

    def __init__(self, *units):
        self.units, self.start, self.last = units, time.monotonic(), 0.0
        self.is_shown = sys.stderr is not None and sys.stderr.isatty()

    def tell(self, *counts, is_last=False):
        now = time.monotonic()
        if self.is_shown and (is_last or now - self.last > 0.5):
            self.last = now
            parts = [f"{count:,} {unit}" for count, unit in zip(counts, self.units)]
            rate = counts[0] / max(now - self.start, 0.001)
            text = f"{', '.join(parts)}, {rate:,.0f} {self.units[0]} a second"
            print(f"\r{text:<78}", end="\n" if is_last else "", file=sys.stderr, flush=True)


def owners_of(play, link):
    """For each member's key of a link its owner's, both as they stand in a script."""
    keys = [values(line)[0] for answer in play.listed([f"find {link.owner.name}"]) for line in answer]
    found = {}
    for owner, answer in zip(keys, play.listed(f"members {link.name} {it}" for it in keys)):
        found |= {values(line)[0]: owner for line in answer}
    return found


def rows_of(program, texts, name):
    """The names of the columns of a file, which are its fields and for each link of its records
    LINK.owner; and then its rows, in which a value is an int or a text, and none where a record has
    no owner."""
    schema = read_schema(text_of(texts[0]), texts[0])
    file = next((it for it in schema.files if it.name == name), None)
    if file is None:
        raise Wrong(f"{texts[0]} has no file {name}")
    links = [it for it in schema.links if it.member == file]
    with Play(program, texts) as play:
        owners = [owners_of(play, it) for it in links]
        lines = (line for answer in play.listed([f"find {name}"]) for line in answer)
        # (so nothing is written where the device can't be had)
        first = next(lines, None)
        yield [it.name for it in file.fields] + [f"{it.name}.owner" for it in links]
        for line in [] if first is None else itertools.chain([first], lines):
            words = values(line)
            yield [plain(it) for it in words + [it.get(words[0]) for it in owners]]


def plain(word):
    """The value that a word of a script is."""
    if word is None:
        return None
    return word[1:-1].replace('""', '"') if word.startswith('"') else int(word)


def table_main(name, what, write):
    """The main of a tool that writes the table of a file of a device."""
    words = argparse.ArgumentParser(prog=name, description=what)
    add_program(words)
    for word in ("SCHEMA", "EQUATION", "DEVICE", "FILE"):
        words.add_argument(word.lower(), metavar=word)
    given = words.parse_args()
    rows = rows_of(given.program, [given.schema, given.equation, given.device], given.file)
    write(next(rows), rows)
    return 0
