"""The play of a script on an abstract database, as docs/FORMATS.md tells it: what `try`, `run` and
`explain` say. It shares no code with the program, and knows nothing of leaves."""

import re
import sys
from pathlib import Path

sys.dont_write_bytecode = True
sys.path.insert(0, str(Path(__file__).resolve().parent.parent / "tools"))

from formats import MEMBERS_LIMIT, SCRIPT_LIMIT, shown  # noqa: E402

LINE_LIMIT = 4096
QUOTED = re.compile(rb'"(?:[^"\t]|"")*"(?=[ \t]|$)')
OPERATORS = {"=": lambda a, b: a == b, "<>": lambda a, b: a != b, "<": lambda a, b: a < b, "<=": lambda a, b: a <= b,
             ">": lambda a, b: a > b, ">=": lambda a, b: a >= b}
RANGES = ("<", "<=", ">", ">=")
LEGS_LIMIT = 8
INSIDE = ("commit", "abort", "insert", "update", "delete", "connect", "disconnect", "reorganize")


class Stop(Exception):
    """A line ends the script, for this reason."""


class Refused(Exception):
    """A command is refused, for this reason."""


def lines_of(script):
    """The lines of a script, without their ends, and after them what is wrong with a script that is
    too long."""
    for number, line in enumerate(script.split(b"\n"), 1):
        before = sum(len(it) + 1 for it in script.split(b"\n")[:number - 1]) if len(script) > SCRIPT_LIMIT else 0
        is_last = number == script.count(b"\n") + 1
        if is_last and not line:
            return
        if len(line) > LINE_LIMIT:
            raise Stop("too long")
        if before + len(line) + (not is_last) > SCRIPT_LIMIT:
            raise Stop("script too long")
        yield line[:-1] if line.endswith(b"\r") and not is_last else line


def words_of(line):
    """The words of a line, as texts; none for a comment."""
    if line.lstrip(b" \t").startswith(b"#"):
        return []
    if re.search(rb"[^\t -~]", line):
        raise Stop("character")
    words, at = [], 0
    while True:
        at += len(line[at:]) - len(line[at:].lstrip(b" \t"))
        if at == len(line):
            return words
        if line[at:at + 1] == b'"':
            match = QUOTED.match(line, at)
            # (a quote ends the text where it isn't followed by another one)
            if not match:
                raise Stop("quote")
            end = match.end()
        else:
            end = at + re.match(rb"[^ \t]+", line[at:]).end()
        words.append(line[at:end].decode("ascii"))
        at = end


class Reader:
    """The words of a line, from left to right."""

    def __init__(self, schema, words):
        self.schema, self.words = schema, words

    def take(self):
        if not self.words:
            raise Stop("word")
        return self.words.pop(0)

    def keyword(self, *keywords):
        """Takes the next word where it is one of these."""
        return self.take() if self.words and self.words[0] in keywords else None

    def one_of(self, items, reason):
        name = self.take()
        found = [it for it in items if it.name == name]
        if not found:
            raise Stop(reason)
        return found[0]

    def file(self):
        return self.one_of(self.schema.files, "file")

    def link(self):
        return self.one_of(self.schema.links, "link")

    def value(self, field):
        word = self.take()
        if field.kind == "int":
            if not re.fullmatch(r"-?[0-9]+", word) or not -(1 << 63) <= int(word) < 1 << 63:
                raise Stop("value")
            return int(word)
        text = word[1:-1].replace('""', '"').encode()
        if not word.startswith('"') or len(text) > field.size:
            raise Stop("value")
        return text

    def operator(self):
        word = self.take()
        if word not in OPERATORS:
            raise Stop("word")
        return word

    def conditions(self, file):
        """The conditions behind `where`: the number of a field, an operator and a value each."""
        conditions, word = [], self.keyword("where")
        while word:
            field = self.one_of(file.fields, "field")
            operator = self.operator()
            conditions.append((file.fields.index(field), operator, self.value(field)))
            word = self.keyword("and")
        return conditions

    def leg(self, file):
        """A leg from a file: whether it goes down, its link, and the conditions of the other file."""
        word = self.take()
        if word not in ("down", "up"):
            raise Stop("word")
        is_down = word == "down"
        links = [it for it in self.schema.links if (it.owner if is_down else it.member) == file]
        link = self.one_of(links, "link")
        return is_down, link, self.conditions(link.member if is_down else link.owner)

    def order(self, file):
        """The number of the field of an order, and whether it descends."""
        if not self.keyword("order"):
            return None
        field = self.one_of(file.fields, "field")
        return file.fields.index(field), bool(self.keyword("desc"))

    def end(self):
        if self.words:
            raise Stop("word")


def end_of(leg):
    """The file to which a leg leads."""
    return leg[1].member if leg[0] else leg[1].owner


def meets(record, conditions):
    return all(OPERATORS[operator](record[number], value) for number, operator, value in conditions)


def read_command(schema, words):
    """The command of a line: its word, what it is of, and the rest."""
    read = Reader(schema, list(words))
    command, rest = read.take(), []
    of = None
    if command in ("begin", "commit", "abort"):
        pass
    elif command == "insert":
        of = read.file()
        rest = [read.value(it) for it in of.fields]
    elif command in ("get", "delete"):
        of = read.file()
        rest = [read.value(of.fields[0])]
    elif command == "update":
        of = read.file()
        key, changes = read.value(of.fields[0]), {}
        while read.words or not changes:
            field = read.one_of(of.fields, "field")
            number = of.fields.index(field)
            if number == 0 or number in changes:
                raise Stop("field")
            changes[number] = read.value(field)
        rest = [key, changes]
    elif command == "connect":
        of = read.link()
        rest = [read.value(of.owner.fields[0]), read.value(of.member.fields[0])]
    elif command in ("disconnect", "owner"):
        of = read.link()
        rest = [read.value(of.member.fields[0])]
    elif command == "members":
        of = read.link()
        rest = [read.value(of.owner.fields[0]), read.order(of.member)]
    elif command == "find":
        of = read.file()
        conditions, owner = read.conditions(of), None
        if read.keyword("of"):
            link = read.one_of([it for it in schema.links if it.member == of], "link")
            owner = link, read.value(link.owner.fields[0])
        rest = [conditions, owner, read.order(of)]
    elif command == "path":
        of = read.file()
        rest, file = [read.conditions(of), []], of
        while read.words and len(rest[1]) < LEGS_LIMIT or not rest[1]:
            rest[1].append(read.leg(file))
            file = end_of(rest[1][-1])
    elif command == "reorganize":
        of = read.one_of(schema.files + schema.links, "file")
    else:
        raise Stop("word")
    read.end()
    return command, of, rest


class Model:
    """The records of each file and the owner of each member of each link, as they are committed."""

    def __init__(self, schema):
        self.schema = schema
        self.records = {it.name: {} for it in schema.files}
        self.owners = {it.name: {} for it in schema.links}

    def play(self, script):
        """What is said of a script, and the status. Where it stops, what wasn't committed is given
        up."""
        said, number, self.commits, kept = [], 0, 0, None
        try:
            for number, line in enumerate(lines_of(script), 1):
                words = words_of(line)
                if not words:
                    continue
                command, of, rest = read_command(self.schema, words)
                if command == "begin" and kept:
                    raise Stop("in transaction")
                if command in INSIDE and not kept:
                    raise Stop("no transaction")
                if command == "begin":
                    kept = self.copy()
                    said.append("begun")
                elif command in ("commit", "abort"):
                    if command == "commit":
                        self.commits += 1
                    else:
                        self.records, self.owners = kept
                    said.append(f"committed {self.commits}" if command == "commit" else "dropped")
                    kept = None
                else:
                    try:
                        said += getattr(self, command)(of, *rest)
                    except Refused as it:
                        said.append(f"refused: {it}")
            if kept:
                raise Stop("open transaction")
        except Stop as it:
            # (a line that is too long isn't handed out)
            number += str(it) in ("too long", "script too long")
            said.append(f"stopped at line {number}: {it}")
            if kept:
                self.records, self.owners = kept
            return said, 2
        return said, 0

    def copy(self):
        return {name: dict(it) for name, it in self.records.items()}, {name: dict(it) for name, it in self.owners.items()}

    def explain(self, script, indexed):
        """What `explain` says of a script, where the indexed fields of each file are these."""
        said, number, is_open = [], 0, False
        try:
            for number, line in enumerate(lines_of(script), 1):
                words = words_of(line)
                if not words:
                    continue
                command, of, rest = read_command(self.schema, words)
                if command == "begin" and is_open:
                    raise Stop("in transaction")
                if command in INSIDE and not is_open:
                    raise Stop("no transaction")
                is_open = command == "begin" or is_open and command not in ("commit", "abort")
                if command == "find":
                    said.append(f"line {number}: {plan(of, rest[0], rest[1], indexed[of.name])}")
                elif command == "path":
                    said.append(f"line {number}: path {direction(of, *rest, indexed)}")
        except Stop as it:
            number += str(it) in ("too long", "script too long")
            return [*said, f"stopped at line {number}: {it}"], 2
        return said, 0

    def line(self, file, record):
        return " ".join([file.name, *map(shown, record)])

    def listed(self, file, records, order):
        records = sorted(records)
        if order:
            records.sort(key=lambda it: it[order[0]], reverse=order[1])
        return [*(self.line(file, it) for it in records), f"found {len(records)}"]

    def need(self, file, key):
        if key not in self.records[file.name]:
            raise Refused("no record")
        return self.records[file.name][key]

    # The commands

    def insert(self, file, *values):
        if values[0] in self.records[file.name]:
            raise Refused("key exists")
        self.records[file.name][values[0]] = values
        return ["ok"]

    def get(self, file, key):
        record = self.records[file.name].get(key)
        return [self.line(file, record) if record else "none"]

    def update(self, file, key, changes):
        record = self.need(file, key)
        self.records[file.name][key] = tuple(changes.get(number, it) for number, it in enumerate(record))
        return ["ok"]

    def delete(self, file, key):
        self.need(file, key)
        for link in self.schema.links:
            owners = self.owners[link.name]
            if link.member == file and key in owners or link.owner == file and key in owners.values():
                raise Refused("linked")
        del self.records[file.name][key]
        return ["ok"]

    def connect(self, link, owner, member):
        self.need(link.owner, owner)
        self.need(link.member, member)
        owners = self.owners[link.name]
        if member in owners:
            raise Refused("has owner")
        if list(owners.values()).count(owner) == MEMBERS_LIMIT:
            raise Refused("too many members")
        owners[member] = owner
        return ["ok"]

    def disconnect(self, link, member):
        self.need(link.member, member)
        if member not in self.owners[link.name]:
            raise Refused("no owner")
        del self.owners[link.name][member]
        return ["ok"]

    def of_owner(self, link, owner):
        self.need(link.owner, owner)
        return [self.records[link.member.name][it] for it, its in self.owners[link.name].items() if its == owner]

    def members(self, link, owner, order):
        return self.listed(link.member, self.of_owner(link, owner), order)

    def owner(self, link, member):
        self.need(link.member, member)
        owner = self.owners[link.name].get(member)
        return ["none" if owner is None else self.line(link.owner, self.records[link.owner.name][owner])]

    def find(self, file, conditions, owner, order):
        records = self.of_owner(*owner) if owner else self.records[file.name].values()
        return self.listed(file, [it for it in records if meets(it, conditions)], order)

    def path(self, file, conditions, legs):
        keys = {key for key, it in self.records[file.name].items() if meets(it, conditions)}
        for leg in legs:
            is_down, link, its = leg
            pairs = self.owners[link.name].items()
            if is_down:
                linked = {member for member, owner in pairs if owner in keys}
            else:
                linked = {owner for member, owner in pairs if member in keys}
            file = end_of(leg)
            keys = {it for it in linked if meets(self.records[file.name][it], its)}
        return self.listed(file, [self.records[file.name][it] for it in keys], None)

    def reorganize(self, _):
        return ["ok"]


def plan(file, conditions, owner, indexed):
    """How `explain` says that a find looks for its records."""
    named = [(file.fields[number].name, operator, number == 0) for number, operator, _ in conditions]
    for name, operator, is_key in named:
        if is_key and operator == "=":
            return f"key {name}"
    if owner:
        return f"link {owner[0].name}"
    for kind, operators in (("", ("=",)), (" range", RANGES)):
        if kind:
            for name, operator, is_key in named:
                if is_key and operator in operators:
                    return f"key range {name}"
        for name, operator, is_key in named:
            if not is_key and name in indexed and operator in operators:
                return f"index{kind} {name}"
    return "scan"


def direction(file, conditions, legs, indexed):
    """From which end a path is walked: from the one whose find has the better plan, of two equal
    plans from the first."""
    ranks = ["key", "link", "index", "key range", "index range", "scan"]
    last, its = end_of(legs[-1]), legs[-1][2]
    plans = (plan(it, its, None, indexed[it.name]) for it, its in ((last, its), (file, conditions)))
    back, on = (ranks.index(re.match(r"(?:key|index) range|\w+", it)[0]) for it in plans)
    return "backward" if back < on else "forward"


def indexed_in(term):
    """The fields by which a term has an index that a find can use."""
    own = {term.own[0]} if term.head == "index" else set()
    data = [it.name for it in term.data]
    carries = {"encode": [set(data) - set(term.own[:1])], "segment": [set(term.own)],
               "transpose": [{it} for it in data], "partition": [set(data)] * len(term.terms), "index": [set(data)]}
    carried = carries.get(term.head, [])
    below = [indexed_in(it) for it in term.terms]
    for name in data:
        homes = [number for number, names in enumerate(carried) if name in names]
        if homes and all(name in below[number] for number in homes):
            own.add(name)
    return own
