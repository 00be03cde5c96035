"""A database of genesis from Python, by the two pipes of the program: the standard library alone.

    import genesis
    with genesis.open("schema", "equation", "device") as db:
        for row in db("find emp where pay = ?", 1037):
            print(row)
        with db.transaction():
            db("update emp ? pay ?", 3, 1100)

A line is a command of a script. A row is a tuple of ints and texts. A command that is refused is an
exception, and so is the end of the program, which is told with what was committed until then.
docs/MANUAL.md has a page of it, "From Python"."""

from __future__ import annotations

import contextlib
import functools
import io
import os
import re
import signal
import subprocess
import sys
import tempfile
from typing import Iterable, Iterator, NamedTuple, Optional, Tuple, Union

Value = Union[int, str]
Row = Tuple[Value, ...]
Name = Union[str, "os.PathLike[str]"]

PROGRAM = os.path.join(os.path.dirname(os.path.dirname(os.path.realpath(__file__))), "genesis")
# Another run goes on behind so many bytes, half of the longest script.
RUN_BYTES = 8388608
# Less than a pipe holds, so that two that write never wait for each other.
BATCH_LINES, BATCH_BYTES = 500, 32768
PIPE_BYTES = 65536
# For fewer lines than these a form isn't worth its making.
FEW_LINES = 8
LISTS = (b"find", b"members", b"path")
VALUE = re.compile(r'"([^"]*(?:""[^"]*)*)"|(-?[0-9]+)')
NO_ANSWER = re.compile(rb"[ \t]*(?:#|\r?$)")
FOUND = re.compile(r"found [0-9]+")
# What the program says where it ends. No record line begins so, since a value has no colon.
ENDS = re.compile(r"(?:refused|stopped(?: at line [0-9]+)?|device): (.*)")
# A mark that isn't in a quoted text: an even number of quotes stands behind it.
MARK = re.compile(r'\?(?=(?:[^"]*"[^"]*")*[^"]*$)')
ODD_FILE = re.compile(r"\bfile\s+found\s*\(\s*\w+\s+int\s*\)")


class Error(Exception):
    """What the program refuses, or ends with."""

    reason = ""


class Refused(Error):
    """A command was refused. It changed nothing, and the transaction goes on."""

    def __init__(self, line: str) -> None:
        super().__init__(f"refused: {self.reason}, at: {line}")
        self.line = line


class KeyExists(Refused):
    reason = "key exists"


class NoRecord(Refused):
    reason = "no record"


class Linked(Refused):
    reason = "linked"


class HasOwner(Refused):
    reason = "has owner"


class NoOwner(Refused):
    reason = "no owner"


class TooManyMembers(Refused):
    reason = "too many members"


class Last(NamedTuple):
    """What is known of the end of a program."""

    # the status; below 0 it is a signal's number
    status: int
    # the last line that was said, or nothing
    said: str = ""
    # the line that was asked for
    line: str = ""
    # what the launcher told on standard error
    told: str = ""
    # the commits that were told before
    commits: int = 0
    # whether commits are on a device
    is_kept: bool = False
    # whether the line was a commit that may have come to the device
    may_be_kept: bool = False


class Ended(Error):
    """The program ended, and an open transaction is given up. What was committed is kept, but for a
    database in memory. Each further call raises this again. `last` has what is known."""

    def __init__(self, last: Last) -> None:
        matched = ENDS.match(last.said)
        self.last = last
        self.reason = self.reason or (matched[1] if matched else "")
        parts = [last.said, last.told, f"status {last.status}", last.line and f"at: {last.line}",
                 f"commits {'kept' if last.is_kept else 'told'}: {last.commits}",
                 "this one may be kept too" if last.may_be_kept else ""]
        super().__init__("; ".join(it for it in parts if it))


class Closed(Ended):
    """The database was closed, with status 0."""


class GivenUp(Ended):
    """The program was killed, where an exception such as KeyboardInterrupt came before its answer,
    or by a signal from outside."""


class TextRefused(Ended):
    """Status 1: the words or a text are refused."""


class BadLine(Ended):
    """Status 2: the line can't be carried out."""


class Outside(Ended):
    """Status 3: something outside failed, as where another program has the device."""


class Full(Ended):
    """Status 4: the device is full."""


class NoMemory(Ended):
    """Status 5: there was no memory."""


class NoDevice(Ended):
    """Status 6: the device isn't what was asked for."""


class NotRun(Ended):
    """Status 70: the launcher can't run the program."""


class ScriptTooLong(BadLine):
    reason = "script too long"


class LineTooLong(BadLine):
    reason = "too long"


class BadCharacter(BadLine):
    reason = "character"


class BadQuote(BadLine):
    reason = "quote"


class BadWord(BadLine):
    reason = "word"


class NoFile(BadLine):
    reason = "file"


class NoLink(BadLine):
    reason = "link"


class NoField(BadLine):
    reason = "field"


class BadValue(BadLine):
    reason = "value"


class InTransaction(BadLine):
    reason = "in transaction"


class NoTransaction(BadLine):
    reason = "no transaction"


class OpenTransaction(BadLine):
    reason = "open transaction"


BY_STATUS: dict[int, type[Ended]] = {
    0: Closed, 1: TextRefused, 2: BadLine, 3: Outside, 4: Full, 5: NoMemory, 6: NoDevice,
    70: NotRun}
BY_REASON: dict[str, type[Ended]] = {it.reason: it for it in BadLine.__subclasses__()}
REFUSALS = {f"refused: {it.reason}": it for it in Refused.__subclasses__()}


def ended(last: Last) -> Ended:
    """What ended a program, by its status and by the reason of a bad line."""
    kind = BY_STATUS.get(last.status, GivenUp)
    if kind is BadLine:
        kind = BY_REASON.get(last.said.partition(": ")[2], BadLine)
    return kind(last)


def word(value: Value) -> str:
    """A value as it stands in a line. A text that isn't printable ASCII is a ValueError."""
    if not isinstance(value, str):
        return format(value, "d")
    if not (value.isascii() and value.isprintable()):
        raise ValueError(f"a text has printable ASCII characters alone: {value!a}")
    return '"' + value.replace('"', '""') + '"'


def encoded(line: str) -> bytes:
    """A line as it is written to the program."""
    if "\n" in line:
        raise ValueError(f"a line has no line end in it: {line!a}")
    return line.encode() + b"\n"


def has_answer(asked: bytes) -> bool:
    """Whether a line is a command, and no comment or empty."""
    return asked[0] not in b" \t#\r\n" or not NO_ANSWER.match(asked)


def is_commit(asked: bytes) -> bool:
    return asked.split()[:1] == [b"commit"]


def text_of(asked: bytes) -> str:
    return asked[:-1].decode()


@functools.lru_cache
def parts_of(line: str) -> list[str]:
    """The parts of a line between its marks."""
    return MARK.split(line)


def filled(line: str, values: Tuple[Value, ...]) -> str:
    """A line with values in the place of its marks. Another number of them is a ValueError."""
    parts = parts_of(line)
    if len(parts) != len(values) + 1:
        raise ValueError(f"{len(values)} values for {len(parts) - 1} marks: {line}")
    text = parts[0]
    for value, part in zip(values, parts[1:]):
        text += word(value) + part
    return text


def row_of(line: str) -> Row:
    """The values of a record line, which are written as those of an insert."""
    return tuple([int(number) if number else text.replace('""', '"')
                  for text, number in VALUE.findall(line, line.index(" "))])


def rows_of(lines: list[bytes]) -> list[Row]:
    """The values of the record lines of one file; of many lines, column by column."""
    if len(lines) < FEW_LINES:
        return [row_of(it.decode()) for it in lines]
    first = lines[0].decode()
    are_ints = [isinstance(it, int) for it in row_of(first)]
    form = first.partition(" ")[0] + "".join(
        " (-?[0-9]+)" if it else ' "([^"]*(?:""[^"]*)*)"' for it in are_ints)
    found = re.findall(form + "\n", b"".join(lines).decode())
    columns = zip(*found) if len(are_ints) > 1 else [found]
    return list(zip(*([int(it) for it in column] if is_int else
                      [it.replace('""', '"') for it in column]
                      for is_int, column in zip(are_ints, columns))))


class Database:
    """A database on which a program plays lines, from `open` to `close`. One thread uses it."""

    def __init__(self, words: list[str], is_kept: bool) -> None:
        # the commits that were told
        self.commits = 0
        # whether a transaction is open
        self.is_inside = False
        self._words, self._is_kept = words, is_kept
        self._ended: Optional[Ended] = None
        self._start()
        # (so that texts that are refused, or a device that can't be had, are told here)
        self("begin")
        self("abort")

    def __enter__(self) -> Database:
        return self

    def __exit__(self, kind: object, *_: object) -> None:
        try:
            self.close()
        except Ended:
            # (an exception that is on its way already says more)
            if kind is None:
                raise

    def __call__(self, line: str, *values: Value) -> list[Row]:
        """Plays a line, with a value in the place of each `?`. Gives its rows: those of a list, one
        or none of `get` and `owner`, none of other commands. A line with a line end in it is a
        ValueError, and isn't played."""
        asked = encoded(filled(line, values) if values else line)
        if not has_answer(asked):
            return []
        try:
            self._write(asked)
            return self._answer(asked)
        except Error:
            raise
        except BaseException:
            self._give_up(asked)
            raise

    def row(self, line: str, *values: Value) -> Optional[Row]:
        """The first row of a line, or None where it has none."""
        return next(iter(self(line, *values)), None)

    def many(self, lines: Iterable[str]) -> int:
        """Plays lines that list nothing, many of which are on their way at once. Gives their
        number. Where some are refused, the first refusal is raised behind the last line."""
        count, refusal = 0, None
        for batch in batches(filter(has_answer, map(encoded, lines))):
            try:
                self._write(b"".join(batch))
                for asked in batch:
                    found = self._refusal(asked)
                    refusal = refusal or found
            except Error:
                raise
            except BaseException:
                self._give_up(next(filter(is_commit, batch), batch[-1]))
                raise
            count += len(batch)
        if refusal:
            raise refusal
        return count

    @contextlib.contextmanager
    def transaction(self) -> Iterator[Database]:
        """A transaction, which is committed at the end, and given up at an exception."""
        self("begin")
        try:
            yield self
        except BaseException:
            if self._ended is None and self.is_inside:
                self("abort")
            raise
        self("commit")

    def close(self) -> None:
        """Ends the program. Where it doesn't end with 0, as in an open transaction, this is the
        exception of its status. A second call does nothing."""
        if self._ended is None and not isinstance(end := self._end(), Closed):
            raise end

    def _start(self) -> None:
        self._written = 0
        self._told = tempfile.TemporaryFile()
        try:
            # (Ctrl-C at a terminal is for Python alone)
            self._child = subprocess.Popen(
                self._words, stdin=subprocess.PIPE, stdout=subprocess.PIPE, stderr=self._told,
                bufsize=PIPE_BYTES, start_new_session=True)
        except OSError:
            self._told.close()
            raise
        assert self._child.stdin and self._child.stdout
        self._to, self._from = self._child.stdin, self._child.stdout

    def _write(self, text: bytes) -> None:
        """Writes lines to the program, by another run where this one may not be told so much."""
        if self._ended:
            raise self._ended
        if self._written > RUN_BYTES and self._is_kept and not self.is_inside:
            if not isinstance(end := self._end(), Closed):
                raise end
            self._start()
            self._ended = None
        self._written += len(text)
        try:
            self._to.write(text)
            self._to.flush()
        except BrokenPipeError:
            # (its last answer says why it has ended)
            pass

    def _answer(self, asked: bytes) -> list[Row]:
        """The rows of the answer to a line that was written."""
        verb = asked.split(None, 1)[0]
        if verb not in LISTS:
            return self._single(verb, self._checked(self._from.readline(), asked))
        lines: list[bytes] = []
        while True:
            heard = self._from.readline()
            # (a look at the first letter is cheap)
            if heard[:1] in b"frsd" and FOUND.fullmatch(self._checked(heard, asked)):
                return rows_of(lines)
            lines.append(heard)

    def _refusal(self, asked: bytes) -> Optional[Refused]:
        """The refusal of a line that was written, or nothing."""
        try:
            self._answer(asked)
        except Refused as it:
            return it
        return None

    def _single(self, verb: bytes, said: str) -> list[Row]:
        """The rows of an answer of one line, of which a record alone has a blank."""
        if verb in (b"begin", b"commit", b"abort"):
            self.is_inside = verb == b"begin"
            self.commits += verb == b"commit"
            return []
        return [row_of(said)] if " " in said else []

    def _checked(self, heard: bytes, asked: bytes) -> str:
        """A line of an answer, unless it is a refusal or the end of the program."""
        said = heard.decode("ascii", "replace").rstrip("\n")
        if heard.endswith(b"\n") and not ENDS.match(said):
            return said
        refusal = REFUSALS.get(said)
        raise refusal(text_of(asked)) if refusal else self._end(said, text_of(asked))

    def _give_up(self, asked: bytes) -> None:
        """Kills the program, of which an answer isn't read to its end."""
        if self._ended is None:
            os.killpg(self._child.pid, signal.SIGKILL)
            self._end("", text_of(asked))

    def _end(self, said: str = "", line: str = "") -> Ended:
        """Ends the program, which said this at last."""
        with contextlib.suppress(BrokenPipeError):
            self._to.close()
        rest = self._from.read().decode("ascii", "replace").splitlines()
        self._from.close()
        status = self._child.wait()
        self._told.seek(0)
        told = self._told.read().decode(errors="replace")
        self._told.close()
        if not status:
            sys.stderr.write(told)
        may_be_kept = is_commit(line.encode()) and self._is_kept and status not in (1, 2)
        last = Last(status, rest[-1] if rest else said, line, "; ".join(told.splitlines()),
                    self.commits, self._is_kept, may_be_kept)
        self._ended, self.is_inside = ended(last), False
        return self._ended


def batches(lines: Iterable[bytes]) -> Iterator[list[bytes]]:
    """Lines in lists, each of which is written at once."""
    batch: list[bytes] = []
    size = 0
    for line in lines:
        if batch and (len(batch) == BATCH_LINES or size + len(line) > BATCH_BYTES):
            yield batch
            batch, size = [], 0
        batch.append(line)
        size += len(line)
    if batch:
        yield batch


def open(schema: Name, equation: Name, device: Optional[Name] = None, *,
         program: Name = PROGRAM) -> Database:
    """Opens the database on a device, or a new one in memory where none is named, under the texts
    in these two files. Ended: a text is refused, or the device can't be had. OSError: there is no
    such program. ValueError: the schema has a file `found` with an int alone, whose records look
    like the end of a list."""
    names = [os.fspath(it) for it in (schema, equation, device) if it is not None]
    is_kept = device is not None
    db = Database([os.fspath(program), "run" if is_kept else "try", *names], is_kept)
    with io.open(names[0], encoding="latin-1") as it:
        text = re.sub("#[^\n]*", "", it.read())
    if ODD_FILE.search(text):
        db.close()
        raise ValueError("the file found has an int alone: its records look like a list's end")
    return db


def asked(program: Name, *words: str) -> list[int]:
    """The numbers that a request says. Ended: it doesn't end with 0."""
    ran = subprocess.run([os.fspath(program), *words], stdin=subprocess.DEVNULL,
                         capture_output=True, check=False)
    said = ran.stdout.decode("ascii", "replace").strip()
    if ran.returncode:
        told = "; ".join(ran.stderr.decode(errors="replace").splitlines())
        raise ended(Last(ran.returncode, said, " ".join(words), told))
    return [int(it) for it in re.findall("[0-9]+", said)]


class Needs(NamedTuple):
    """What an equation needs."""

    leaves: int
    root_pages: int
    # of 4,096 bytes, of the smallest device
    blocks: int


def check(schema: Name, equation: Name, *, program: Name = PROGRAM) -> Needs:
    """What an equation needs under a schema. TextRefused: it can't be carried out."""
    return Needs(*asked(program, "check", os.fspath(schema), os.fspath(equation)))


def make(schema: Name, equation: Name, device: Name, blocks: int, *,
         program: Name = PROGRAM) -> int:
    """Makes an empty database in a new file of so many blocks of 4,096 bytes, and gives the number
    of its pages. Ended: a text is refused, or the device can't be made so."""
    names = (os.fspath(it) for it in (schema, equation, device))
    return asked(program, "make", *names, str(blocks))[1]
