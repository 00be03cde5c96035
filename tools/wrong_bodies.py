"""Tries edits of one crate with rt check, many at once. A part of ./wrong-bodies, which says what a refusal means."""

import collections
import glob
import os
import re
import shutil
import subprocess

TOP = os.path.dirname(os.path.dirname(os.path.abspath(__file__)))
# The parts of a crate that a check reads.
PARTS = ("src", "specs", "proofs")
HEAD = re.compile(r"( *)(?:pub(?:\(\w+\))? )?(?:const )?(?:unsafe )?fn (\w+)")
ERROR = re.compile(r"(?:\./)?((?:src|specs|proofs)/\S+?):(\d+):\d+: error")
GOAL = re.compile(r"note: (src/\S+: .* \(`\S+`\))")
JUDGED = re.compile(r"^logic=(not-)?proved", re.M)
# What an error says where a proof cites a name that the edit took away.
NAME = re.compile(r"has no field|is not in scope|has no `")
REFUSED, BY_NAME = "refused", "refused by a name"

# What an edit changes in one file: the text from start to end.
Change = collections.namedtuple("Change", "path start end text")
# The function is its module, as a/b, and its name; None where the edit isn't in one function's body.
Edit = collections.namedtuple("Edit", "name changes function")
# What a check refused: a function's place in the crate, as a/b/NAME; "goal", "name" or "callee"; its line.
Refusal = collections.namedtuple("Refusal", "place kind line")


def read(path):
    with open(path, encoding="utf-8") as it:
        return it.read()


def read_edit(file, folder):
    """The edit in the file, or why it can't be applied to the crate in the folder."""
    texts, path, old = {}, "", ""
    for line in read(file).split("\n"):
        if line.startswith("file: "):
            path = line[len("file: ") :].strip()
            if not (path.startswith("src/") and os.path.isfile(f"{folder}/{path}")):
                return f"it no longer fits: there is no {path}"
            texts.setdefault(path, read(f"{folder}/{path}"))
        elif line.startswith("old: "):
            old = line[len("old: ") :]
        elif line.startswith("new:") and path:
            found = texts[path].count(old) if old else 0
            if found != 1:
                return f"it no longer fits: an old text is in {path} {found} times"
            texts[path] = texts[path].replace(old, line[len("new: ") :])
    changes = [change_of(it, read(f"{folder}/{it}"), text) for it, text in texts.items()]
    functions = [function_at(it.path, read(f"{folder}/{it.path}"), it.start, it.end) for it in changes]
    return Edit(os.path.basename(file), changes, functions[0] if len(functions) == 1 else None)


def change_of(path, before, after):
    start = len(os.path.commonprefix([before, after]))
    most = min(len(before), len(after)) - start
    rest = len(os.path.commonprefix([before[::-1][:most], after[::-1][:most]]))
    return Change(path, start, len(before) - rest, after[start : len(after) - rest])


def function_at(path, text, start, end):
    """The function in whose body the text from start to end is, in the layout of rt fmt."""
    rows = text.split("\n")
    first, last = text.count("\n", 0, start), text.count("\n", 0, end)
    for at in range(first, -1, -1):
        head = HEAD.match(rows[at])
        if head and rows[first].startswith(f"{head[1]} "):
            is_open = rows[at].endswith("{") or f"{head[1]}{{" in rows[at:first]
            module = re.sub(r"^(lib|main)$", "", path[len("src/") : -len(".rt")])
            return (module, head[2]) if is_open and f"{head[1]}}}" not in rows[at : last + 1] else None
    return None


def in_checks(edits):
    """Parts the edits: those of one check are in the bodies of different functions."""
    checks = []
    for edit in edits:
        free = (it for it in checks if not {None, edit.function} & {other.function for other in it})
        found = next(free, None) if edit.function else None
        if found is None:
            checks.append(found := [])
        found.append(edit)
    return checks


def is_of(place, function):
    """Whether the place is the function's, or that of a closure in it."""
    module, name = function
    is_in = f"{place}/".startswith(f"{module}/") or not module
    return is_in and f"/{name}/" in f"/{place[len(module):]}/"


def refusals(said):
    """What the check refused. A proof's errors come with its path, and a function's goals above its line."""
    found, goals = [], []
    for line in said.split("\n"):
        error, goal = ERROR.match(line), GOAL.match(line)
        if error and error[1].startswith("proofs/") and "was not admitted" not in line:
            place = os.path.dirname(error[1])[len("proofs/") :]
            found.append(Refusal(place, "name" if NAME.search(line) else "goal", line))
        elif goal:
            goals.append(goal[1])
        elif line.startswith("fn "):
            name, _, told = line[len("fn ") :].partition(": ")
            place = name.partition("::")[2].replace("::", "/")
            found += [Refusal(place, "goal", it) for it in goals if not told.startswith("proved")]
            found += [Refusal(place, "callee", line)] * ("it calls " in told)
            goals = []
    return found


def verdict(edit, said, is_alone):
    """The verdict and a line that says why, or None where the edit is to be tried again with fewer others."""
    if JUDGED.search(said):
        own = [it for it in refusals(said) if is_alone or is_of(it.place, edit.function)]
        by = {it.kind: it.line for it in reversed(own)}
        if "goal" in by:
            return REFUSED, by["goal"]
        if "name" in by and (is_alone or "callee" not in by):
            return BY_NAME, by["name"]
        if is_alone and "\nlogic=proved" in said:
            return "let through", "the crate is proved with this edit"
    if not is_alone:
        return None
    errors = [it for it in said.split("\n") if ERROR.match(it)]
    return ("doesn't compile", errors[0]) if errors else ("not judged", said.strip().split("\n")[-1])


def copy_anew(source, to, links=False):
    """Makes a copy of the folder, if it is there, in the place of what is there now."""
    shutil.rmtree(to, ignore_errors=True)
    if os.path.isdir(source):
        shutil.copytree(source, to, copy_function=link if links else shutil.copy2)


def link(source, to):
    """A second name of a file that nothing writes into: rt and rattle make such files anew."""
    try:
        os.link(source, to)
    except OSError:
        shutil.copy2(source, to)


def used_by(crate):
    """The lines of crates.txt for the crate and the libraries of the repository below it."""
    lines = (it.partition("#")[0].strip() for it in read(f"{TOP}/crates.txt").splitlines())
    lines, names = {re.split(r"[ :]", it)[0]: it for it in lines if it}, [crate]
    for name in names:
        names += [it for it in lines[name].partition(":")[2].split() if it in lines and it not in names]
    return {it: lines[it] for it in names}


class Room:
    """A folder with a copy of a crate, of what is kept of it, and of the libraries below it."""

    def __init__(self, keep, crate, jobs):
        self.source, self.root, self.jobs = f"{TOP}/crates/{crate}", f"{keep}/{crate}", str(jobs)
        self.folder, self.kept = f"{self.root}/crates/{crate}", f"{self.root}/kept"
        os.makedirs(self.root, exist_ok=True)
        lines = used_by(crate)
        with open(f"{self.root}/crates.txt", "w", encoding="utf-8") as it:
            it.writelines(f"{line}\n" for line in lines.values())
        shutil.copy(f"{TOP}/HANDLES", self.root)
        for name in lines:
            for part in PARTS:
                copy_anew(f"{TOP}/crates/{name}/{part}", f"{self.root}/crates/{name}/{part}")
            if name != crate:
                self.take_library(f"crates/{name}/out/rlib", keep)
        if not os.path.isdir(self.kept):
            copy_anew(f"{self.source}/out/incremental", self.kept)

    def take_library(self, rlib, keep):
        """Takes the newest build of a library, here or in another room. rt looks whether it is of these sources."""
        built = [it for it in (f"{TOP}/{rlib}", *glob.glob(f"{keep}/*/{rlib}")) if os.path.exists(f"{it}/stamp")]
        newest = max(built, key=lambda it: os.path.getmtime(f"{it}/stamp"), default=None)
        if newest and newest != f"{self.root}/{rlib}":
            copy_anew(newest, f"{self.root}/{rlib}", links=True)

    def write(self, edits):
        """Writes the sources with these edits, and gives the places of each: file, first and last line."""
        copy_anew(f"{self.source}/src", f"{self.folder}/src")
        places = collections.defaultdict(list)
        for path in {it.path for edit in edits for it in edit.changes}:
            before, made, at = read(f"{self.source}/{path}"), "", 0
            here = [(it, edit.name) for edit in edits for it in edit.changes if it.path == path]
            for change, name in sorted(here, key=lambda it: it[0].start):
                made += before[at : change.start]
                first = made.count("\n") + 1
                made, at = made + change.text, change.end
                places[name].append((path, first, made.count("\n") + 1))
            with open(f"{self.folder}/{path}", "w", encoding="utf-8") as it:
                it.write(made + before[at:])
        return places

    def check(self):
        """What rt check says of the sources that stand here, over what is kept of those with no edit."""
        copy_anew(self.kept, f"{self.folder}/out/incremental", links=True)
        how = {"stdin": subprocess.DEVNULL, "stdout": subprocess.PIPE, "stderr": subprocess.STDOUT}
        words = ["rt", "check", "--jobs", self.jobs]
        return subprocess.run(words, cwd=self.folder, text=True, errors="replace", **how).stdout

    def prove(self):
        """Proves the crate as it stands and keeps that, or gives what the check said."""
        self.write([])
        said = self.check()
        if "\nlogic=proved" not in said:
            return said
        copy_anew(f"{self.folder}/out/incremental", self.kept, links=True)
        return None

    def judge(self, edits):
        """Yields each edit with its verdict and a line that says why."""
        places, said, left = self.write(edits), self.check(), []
        for edit in edits:
            told = verdict(edit, said, len(edits) == 1)
            if told:
                yield edit, *told
            else:
                left.append(edit)
        for it in self.again(edits, left, said, places):
            yield from self.judge(it)

    def again(self, edits, left, said, places):
        """Parts the edits that a check left unclear: without those that it judged, without those where it
        told an error, or alone."""
        if len(left) < len(edits):
            return [left] if left else []
        errors = [(it[1], int(it[2])) for it in map(ERROR.match, said.split("\n")) if it]
        holds = lambda place: any(file == place[0] and place[1] <= row <= place[2] for file, row in errors)
        wrong = [it for it in left if any(map(holds, places[it.name]))]
        if JUDGED.search(said) or len(wrong) == len(left):
            return [[it] for it in left]
        if wrong:
            return [[it for it in left if it not in wrong], *([it] for it in wrong)]
        return [left[: len(left) // 2], left[len(left) // 2 :]]
