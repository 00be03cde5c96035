"""The play of the turns of several sessions on an abstract database, as docs/FORMATS.md tells it:
what `share` says. It goes by examples/model.py for the answer of a line, has the locks and the turns
itself, and knows nothing of leaves."""

import collections
import re

from model import INSIDE, Model, Refused, Stop, lines_of, read_command, words_of

NUMBERS = range(1, 9)
SHARED, EXCLUSIVE = 1, 2
ENDS = ("commit", "abort")

# `line` is what stands behind the session's number, `command` its first word and empty for none.
Turn = collections.namedtuple("Turn", "number session line command is_inside outcome said")


def read_turn(line):
    """The session of a line and the line behind it; nothing for a line that is no turn."""
    words = re.findall(rb"[^ \t]+", line)
    if not words or words[0].startswith(b"#"):
        return None
    if not words[1:] or not words[1].startswith(b"#"):
        words_of(line)
    found = re.fullmatch(rb"[ \t]*([1-8])(?:[ \t](.*))?", line, re.DOTALL)
    if not found:
        raise Stop("session")
    return int(found[1]), found[2] or b""


def locks_of(schema, command, of, rest):
    """The lock that a command takes on each file and link that it locks, by its name."""
    shared, exclusive = [], []
    if command in ("insert", "update", "delete", "connect", "disconnect"):
        exclusive = [of]
    if command == "get":
        shared = [of]
    elif command == "delete":
        shared = [it for it in schema.links if of in (it.owner, it.member)]
    elif command == "connect":
        shared = [of.owner, of.member]
    elif command == "disconnect":
        shared = [of.member]
    elif command in ("members", "owner"):
        shared = [of.owner, of.member, of]
    elif command == "find":
        owner = rest[1]
        shared = [of, owner[0].owner, owner[0]] if owner else [of]
    return {it.name: SHARED for it in shared} | {it.name: EXCLUSIVE for it in exclusive}


class Session:
    """Where a session stands: in a transaction by its lines, in one that was ended, and what it has
    carried out in it."""

    def __init__(self):
        self.is_inside, self.is_ended, self.commands = False, False, []


class Sessions:
    """The turns of sessions on the database of a model, which has what is committed."""

    def __init__(self, model):
        self.model, self.schema = model, model.schema
        self.sessions = {it: Session() for it in NUMBERS}
        self.turns, self.commits = [], 0

    def play(self, script):
        """What is said of a script of turns, and the status."""
        number, end = 0, []
        try:
            for number, line in enumerate(lines_of(script), 1):
                read = read_turn(line)
                if read:
                    self.turns.append(self.turn(number, *read))
            if any(it.is_inside for it in self.sessions.values()):
                raise Stop("open transaction")
        except Stop as it:
            # (a line that is too long isn't handed out)
            number += str(it) in ("too long", "script too long")
            end = [f"stopped at line {number}: {it}"]
        return [line for it in self.turns for line in self.text(it)] + end, 2 if end else 0

    def text(self, turn):
        """The lines that are said of a turn."""
        return [f"{turn.session} {it}" for it in turn.said]

    def turn(self, number, session, line):
        """The turn of a line of a session."""
        own, words = self.sessions[session], words_of(line)
        word, is_inside = words[0] if words else "", own.is_inside
        if not words:
            return Turn(number, session, line, word, is_inside, *self.nothing(own))
        if word == "path":
            raise Stop("word")
        command = read_command(self.schema, words)
        self.allow(own, word)
        return Turn(number, session, line, word, is_inside, *self.outcome(session, own, *command))

    def allow(self, own, word):
        """Stops at a line that may not stand where its session stands."""
        if word == "begin" and own.is_inside:
            raise Stop("in transaction")
        if word in INSIDE and not own.is_inside:
            raise Stop("no transaction")

    def nothing(self, _):
        return "answered", []

    def outcome(self, session, own, command, of, rest):
        """How a turn comes out, and what is said of it."""
        if own.is_ended:
            return self.skip(own, command)
        if own.is_inside:
            holder = self.holder(session, self.locks(command, of, rest))
            if holder:
                self.end(own)
                return "ended", [f"ended: held by {holder}"]
        return "answered", self.answer(session, own, command, of, rest)

    def skip(self, own, command):
        if command in ENDS:
            own.__init__()
        return "skipped", ["skipped"]

    def end(self, own):
        own.is_ended, own.commands = True, []

    def answer(self, session, own, command, of, rest):
        """The answer to a command that is carried out."""
        if command == "begin":
            own.is_inside = True
            return ["begun"]
        if command in ENDS:
            if command == "commit":
                view = self.view(own)
                self.model.records, self.model.owners = view.records, view.owners
            own.__init__()
            return [f"committed {self.count(session)}" if command == "commit" else "dropped"]
        said = answer_of(self.view(own), command, of, rest)
        if own.is_inside:
            own.commands.append((command, of, rest))
        return said

    def count(self, _):
        """The number of a commit."""
        self.commits += 1
        return self.commits

    def view(self, own):
        """The database as a session sees it: what is committed, and what it has done itself."""
        view = Model(self.schema)
        view.records, view.owners = self.model.copy()
        for command in own.commands:
            answer_of(view, *command)
        return view

    # Locks

    def locks(self, command, of, rest):
        return locks_of(self.schema, command, of, rest)

    def held(self, own):
        """The locks that a session's transaction holds, by the names of files and links."""
        held = {}
        for command in own.commands:
            for name, lock in self.locks(*command).items():
                held[name] = max(lock, held.get(name, lock))
        return held

    def conflict(self, held, wanted):
        return EXCLUSIVE in (held, wanted)

    def items(self):
        """The names of the files and the links, in the order in which holders are looked for."""
        return [it.name for it in self.schema.files + self.schema.links]

    def numbers(self):
        return NUMBERS

    def holder(self, session, wanted):
        """The session with which these locks conflict, if there is one."""
        held = {it: self.held(own) for it, own in self.sessions.items()}
        for name in self.items():
            for other in self.numbers():
                if other != session and name in wanted and name in held[other] and self.conflict(held[other][name], wanted[name]):
                    return other
        return None


def answer_of(model, command, of, rest):
    """What a command says on the database of a model, and does to it."""
    try:
        return getattr(model, command)(of, *rest)
    except Refused as it:
        return [f"refused: {it}"]


def in_order(turns):
    """The turns that were answered in transactions that committed, one transaction after the other in
    the order of their commits, and those that were answered outside of one, where they stand."""
    going, found = {}, []
    for turn in turns:
        if turn.outcome == "ended":
            going.pop(turn.session, None)
        elif turn.outcome == "answered" and (turn.is_inside or turn.command == "begin"):
            going.setdefault(turn.session, []).append(turn)
            if turn.command in ENDS:
                mine = going.pop(turn.session)
                found += mine if turn.command == "commit" else []
        elif turn.outcome == "answered":
            found.append(turn)
    return found
