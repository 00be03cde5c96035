"""Plays the examples again for each call of the program, which is stopped there: play.py PROGRAM LIBRARY FOLDER [EXAMPLE..], at the
top of the repository.

- Where an allocation is refused the program says nothing, or the first lines of what it says otherwise and `stopped: memory`; the
  status is 5. Where a call of the system fails it says the first lines or a part of them, and the status is 3. Where the call isn't
  needed, all is as it is otherwise.
- Where the machine stops anything may have been said of that.
- After each of them the device of a `run` is sound, and holds what the script had committed at some moment: as much as was said to
  be committed, or one commit more. A device that is being made is none, or is empty."""

import os
import pathlib
import re
import shutil
import subprocess
import sys

STOPPED = b"stopped: memory\n"
STATUS = {"memory": 5, "outside": 3, "crash": 137}
BLOCKS = 207
# A device that isn't made yet.
UNMADE = (b"device: missing\n", b"device: no database\n", b"device: size\n")
# For each example its equations.
PLAYED = {
    "first": ["equation"],
    "staff": ["equation", "equations/indexed", "equations/nested", "equations/pieces"],
    "library/linked": ["equation", "equations/ring", "equations/array"],
    "stock": ["equation"],
}
WORKED = "examples/company/equations/by-pay"


class Example:
    """The texts of an example, and its script."""

    def __init__(self, name, equation):
        self.name = f"{name}/{equation}"
        folder = pathlib.Path("examples", name)
        self.schema, self.equation = folder / "schema", folder / equation
        self.script = (folder / "script").read_bytes()
        self.finds = (folder / "finds").read_bytes() if (folder / "finds").exists() else b""
        text = re.sub("#.*", "", self.schema.read_text())
        self.files = re.findall(r"file\s+(\w+)\s*\(", text)
        self.links = re.findall(r"link\s+(\w+)\s*\(\s*\w+\s*,\s*(\w+)\s*\)", text)

    def texts(self):
        return [self.schema, self.equation]

    def prefixes(self):
        """The first lines of the script up to each commit, from none on."""
        found, text = [b""], b""
        for line in self.script.splitlines(keepends=True):
            text += line
            if line.split() == [b"commit"]:
                found.append(text)
        return found


class Player:
    def __init__(self, program, library, folder):
        self.program, self.library = program, library
        self.device, self.counted = folder / "device", folder / "counted"
        self.passed = self.failed = 0

    def call(self, words, heard=b"", stop=None, at=0):
        variables = dict(os.environ)
        if stop:
            variables |= {"LD_PRELOAD": self.library, "COUNT_TO": str(self.counted), "STOP": stop, "AT": str(at), "SEED": str(at)}
        ran = subprocess.run([self.program, *words], input=heard, capture_output=True, env=variables, timeout=60)
        return ran.returncode, ran.stdout

    def said(self, words, heard=b""):
        return self.call(words, heard)[1]

    def calls_of(self, words, heard, stop):
        """How many calls it makes, the status and what it says."""
        status, said = self.call(words, heard, stop)
        return int(self.counted.read_text()), status, said

    def judge(self, what, why):
        if why:
            self.failed += 1
            print(f"{what}: {why}", flush=True)
        else:
            self.passed += 1


def listing(example, play):
    """All records and all pairs of a database, where `play` answers a script on it."""
    records = play(b"".join(b"find %s\n" % it.encode() for it in example.files))
    asked = b""
    for link, members in example.links:
        for key in re.findall(rb'^%s ("(?:[^"]|"")*"|\S+)' % members.encode(), records, re.M):
            asked += b"owner %s %s\n" % (link.encode(), key)
    return records + play(asked)


def states(player, example):
    """The database after each number of commits, and how much is said of it."""
    found = []
    for prefix in example.prefixes():
        before = player.said(["try", *example.texts()], prefix)
        found.append(listing(example, lambda script: player.said(["try", *example.texts()], prefix + script).removeprefix(before)))
    return found


def why_not_said(stop, status, said, whole):
    """Why the program may not end so where it is stopped, and otherwise says `whole`. None: it may."""
    if (status, said) == whole and stop != "crash":
        return None
    if status != STATUS[stop]:
        return f"status {status}"
    front = said.removesuffix(STOPPED) if stop == "memory" else said
    if stop == "memory" and said and (front == said or front[-1:] not in (b"", b"\n")):
        return f"it says {said[-60:]}"
    return None if whole[1].startswith(front) else f"it says {said[-60:]}"


def stopped(player, words, heard, stop, before=None, after=None):
    """Plays a call for each of its calls. `before` is called before each of them, and `after` with what was said."""
    before and before()
    calls, *whole = player.calls_of(words, heard, stop)
    failed = player.failed
    for at in range(1, calls + 1):
        before and before()
        status, said = player.call(words, heard, stop, at)
        why = why_not_said(stop, status, said, tuple(whole))
        player.judge(f"{words[0]}, {stop} {at}", why or (after and after(said)))
    print(f"{' '.join(map(str, words[:3]))}: {stop} at each of {calls}, {player.failed - failed} of them not as allowed", flush=True)


def run_on_device(player, example, stop):
    texts = example.texts()
    kept = states(player, example)
    made = player.device.with_suffix(".made")
    made.unlink(missing_ok=True)
    player.said(["make", *texts, made, str(BLOCKS)])

    def before():
        shutil.copy(made, player.device)

    def after(said):
        acknowledged = len(re.findall(rb"^committed \d+$", said, re.M))
        told = player.said(["inspect", *texts, player.device])
        if not told.endswith(b"sound\n"):
            return f"inspect says {told[-60:]}"
        found = listing(example, lambda script: player.said(["run", *texts, player.device], script))
        allowed = kept[acknowledged:acknowledged + 2]
        return None if found in allowed else f"it holds another database than after {acknowledged} commits, or one more"

    stopped(player, ["run", *texts, player.device], example.script, stop, before, after)


def make_device(player, example, stop):
    texts = example.texts()

    def before():
        player.device.unlink(missing_ok=True)

    def after(said):
        told = player.said(["inspect", *texts, player.device])
        is_empty = told.endswith(b"sound\n") and not re.search(rb"(entries|records|members) [1-9]", told)
        return None if told in UNMADE or is_empty else f"inspect says {told[-60:]}"

    stopped(player, ["make", *texts, player.device, str(BLOCKS)], b"", stop, before, after)


def work_on_device(player, stop):
    def before():
        player.device.unlink(missing_ok=True)

    def after(said):
        told = player.said(["inspect", "examples/company/schema", WORKED, player.device])
        return None if told in UNMADE or told.endswith(b"sound\n") else f"inspect says {told[-60:]}"

    stopped(player, ["work", WORKED, player.device, str(BLOCKS), "41"], b"", stop, before, after)


def inspect_device(player, example, stop):
    """It changes nothing, and says the same after it."""
    texts = example.texts()
    player.device.unlink(missing_ok=True)
    player.said(["make", *texts, player.device, str(BLOCKS)])
    player.said(["run", *texts, player.device], example.script)
    whole = player.said(["inspect", *texts, player.device])
    stopped(player, ["inspect", *texts, player.device], b"", stop, None, lambda said: None if player.said(["inspect", *texts, player.device]) == whole else "inspect says something else then")


def play_example(player, name):
    for equation in PLAYED[name]:
        example = Example(name, equation)
        stopped(player, ["check", *example.texts()], b"", "memory")
        stopped(player, ["try", *example.texts()], example.script, "memory")
        if example.finds:
            stopped(player, ["explain", *example.texts()], example.finds, "memory")
        for stop in STATUS:
            make_device(player, example, stop)
            run_on_device(player, example, stop)
            inspect_device(player, example, stop)


def main():
    program, library, folder, *names = sys.argv[1:]
    player = Player(program, library, pathlib.Path(folder))
    for name in names or PLAYED:
        play_example(player, name)
    if not names:
        for stop in STATUS:
            work_on_device(player, stop)
    print(f"{player.passed} passed, {player.failed} failed")
    sys.exit(player.failed > 0)


main()
