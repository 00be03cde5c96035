"""Opens what a crash may leave of a device: images.py [--all] PROGRAM LIBRARY FOLDER. README.md
says what must hold.

The program makes, plays, opens and examines devices, and each of its writes, syncs and answers is
traced. At a moment of a trace each block that was written since the last sync that answered may be
as it was, as it was written, filled with a byte, torn at a byte, or junk. Each such image is a
device on which `run` lists all and `inspect` examines all."""

import hashlib
import os
import pathlib
import random
import re
import struct
import subprocess
import sys

from databases import LINKED, PAGES, RECORDS, WORK, WORK_COUNT
from disk import BLOCK, CHOICES, SEED, Disk, every_choice, few_choices, mixture, some_choice

GATE, BITMAP = 1, 2
TOLD = struct.Struct("=5q")
# What is said of a device that isn't made yet.
UNMADE = (b"device: missing\n", b"device: no database\n", b"device: size\n")
NONE = "no database"


class Bench:
    """A database and its program: what it says of each state, and of each image of a device."""

    def __init__(self, program, library, folder, database):
        self.program, self.library, self.database = program, library, database
        self.folder = folder / database.name
        self.folder.mkdir()
        self.device, self.trace = self.folder / "device", self.folder / "trace"
        self.texts = [self.folder / "schema", self.folder / "equation"]
        self.texts[0].write_text(database.schema)
        self.texts[1].write_text(database.equation)
        self.found = {}
        self.empty = self.made()
        self.know_states()

    def call(self, words, script="", trace=False, fails=0):
        """The status of a call and what it says."""
        variables = dict(os.environ)
        if trace:
            variables |= {"LD_PRELOAD": str(self.library), "TRACE_TO": str(self.trace)}
        if fails:
            variables |= {"STOP": "outside", "AT": str(fails)}
        ran = subprocess.run([self.program, *map(str, words)], input=script.encode(), env=variables,
                             stdout=subprocess.PIPE, timeout=60, check=False)
        return ran.returncode, ran.stdout

    def on_device(self, word, script="", **more):
        return self.call([word, *self.texts, self.device], script, **more)

    def make(self, **more):
        return self.call(["make", *self.texts, self.device, self.database.blocks], **more)

    def made(self):
        """The bytes of a new device."""
        self.put(None)
        status, said = self.make()
        if status:
            sys.exit(f"{self.database.name}: make says {said}")
        return self.device.read_bytes()

    def put(self, data):
        """Makes these bytes the device, or removes it."""
        if data is None:
            self.device.unlink(missing_ok=True)
        else:
            self.device.write_bytes(data)

    def know_states(self):
        """What is said of the database after each number of transactions, and one more or not."""
        database = self.database
        finds = "".join(f"find {file}\n" for file in database.files)
        texts = [prefix + more for prefix in database.prefixes() for more in ("", database.more)]
        keys = {file: set() for file in database.files}
        for text in texts:
            said = self.call(["try", *self.texts], text + finds)[1].decode()
            for file in keys:
                keys[file] |= set(re.findall(rf"^{file} (\S+)", said, re.M))
        owners = [f"owner {link} {key}\n" for link, _, members in database.links
                  for key in sorted(keys[members])]
        self.listing = finds + "".join(owners)
        self.states, self.listed = {}, {}
        for place, text in enumerate(texts):
            state = (place // 2, place % 2)
            before = self.call(["try", *self.texts], text)[1]
            status, said = self.call(["try", *self.texts], text + self.listing)
            self.put(self.empty)
            ran = self.on_device("run", text)
            examined = self.on_device("inspect")
            if status or ran != (0, before) or not examined[1].endswith(b"sound\n"):
                sys.exit(f"{database.name}: after {state} it says {said}, {ran}, {examined}")
            self.listed[state] = said[len(before):]
            self.states.setdefault((self.listed[state], examined[1]), set()).add(state)
        self.last = max(state[0] for state in self.listed)

    def states_of(self, image):
        """The states that an image may be, or what is said of it in their place."""
        key = image if image is None else hashlib.blake2b(image).digest()
        if key not in self.found:
            self.put(image)
            # each of the two is the first one to open every other image
            order = ["run", "inspect"] if len(self.found) % 2 else ["inspect", "run"]
            said = {word: self.on_device(word, self.listing) for word in order}
            self.found[key] = self.meant(said["run"], said["inspect"])
        return self.found[key]

    def meant(self, ran, examined):
        """The states of which `run` and `inspect` say this."""
        (status, listed), (other, told) = ran, examined
        if (status, other) == (6, 6) and listed == told and listed in UNMADE:
            return {NONE}
        if (status, other) == (0, 0) and (listed, told) in self.states:
            return self.states[listed, told]
        return f"run {status} {listed[-80:]}, inspect {other} {told[-80:]}"

    def events(self):
        """The events of the last trace."""
        data, at, found, device, folders = self.trace.read_bytes(), 0, [], None, set()
        while at < len(data):
            letter, file, answer, place, length = TOLD.unpack_from(data, at)
            at += TOLD.size
            what = data[at:at + length]
            at += length
            letter = chr(letter)
            if letter == "o" and answer >= 0:
                device = None if answer == device else device
                folders.discard(answer)
                if what == bytes(self.device):
                    device = answer
                    if place & os.O_CREAT:
                        found.append(("create",))
                elif what == bytes(self.folder):
                    folders.add(answer)
            elif letter == "p":
                if file != device or place % BLOCK or length != BLOCK:
                    sys.exit(f"a write of {length} bytes at {place} of file {file}")
                event = "write" if answer == BLOCK else "fail to write"
                found.append((event, place // BLOCK, what))
            elif letter == "t" and answer == 0:
                found.append(("size", place // BLOCK))
            elif letter == "s" and answer == 0 and file in folders:
                found.append(("sync the folder",))
            elif letter == "s" and answer == 0 and file == device:
                found.append(("sync",))
            elif letter == "w" and file == 1:
                found.append(("say", what))
            elif letter == "u" and answer == 0:
                found.append(("remove",))
        return found

    def traced(self, word, script="", fails=0):
        """The events of a request on the device as it is."""
        if word == "make":
            self.make(trace=True, fails=fails)
        elif word == "work":
            self.call(["work", self.texts[1], self.device, self.database.blocks, WORK_COUNT],
                      trace=True, fails=fails)
        else:
            self.on_device(word, script, trace=True, fails=fails)
        return self.events()


def commits(said):
    return len(re.findall(rb"^committed \d+$", said, re.M))


def agree(one, other):
    """Whether one of two texts begins with the other."""
    return one.startswith(other) or other.startswith(one)


class Crashes:
    """Events on a device, from a start on, of one program and perhaps of a second one, and which
    states may be found after what each of them has said."""

    def __init__(self, bench, name, start, events, allowed, first=0):
        self.bench, self.name, self.start, self.events = bench, name, start, events
        self.allowed, self.first = allowed, first

    def of(self, name, events, first):
        """The same with other events."""
        return Crashes(self.bench, name, self.start, events, self.allowed, first)

    def moments(self):
        """The disk at each moment, and what each program has said before it."""
        disk, said = Disk(self.start), [b""]
        yield 0, disk, said
        for moment, event in enumerate(self.events, 1):
            if event[0] == "say":
                said[-1] += event[1]
            elif event[0] == "next program":
                said.append(b"")
            else:
                disk.take(*event)
            yield moment, disk, said

    def worth(self):
        """The moments right before each event that isn't an answer, and the last one."""
        silent = [at for at, event in enumerate(self.events) if event[0] != "say"]
        return [at for at in [*silent, len(self.events)] if at >= self.first]

    def writes(self):
        """The moments behind a write or a sync."""
        return [at for at, event in enumerate(self.events, 1) if event[0] in ("write", "sync")]

    def why_not(self, disk, said, choice, length):
        """Why the program may not say what it says of an image."""
        allowed = self.allowed(said)
        found = self.bench.states_of(disk.image(choice, length))
        if isinstance(found, str):
            return found
        if found & allowed:
            return None
        return f"{sorted(map(str, found))} and not {sorted(map(str, allowed))}"


class Judge:
    def __init__(self, is_long):
        self.is_long, self.numbers = is_long, random.Random(SEED)
        self.tried = self.failed = 0

    def chosen(self, crashes, budget):
        """The moments that are tried: the disk, what was said, and a choice with its name."""
        tried = range(crashes.first, len(crashes.events) + 1) if self.is_long else crashes.worth()
        each, more = divmod(budget, len(tried))
        extra = set(self.numbers.sample(tried, more))
        for moment, disk, said in crashes.moments():
            if moment not in tried:
                continue
            if self.is_long:
                for name, choice in every_choice(disk, self.numbers):
                    yield moment, disk, said, name, choice
                continue
            for _ in range(each + (moment in extra)):
                yield moment, disk, said, *some_choice(disk, self.numbers)

    def judge(self, crashes, budget):
        """Tries so many images, or all that the long form has."""
        before, failed = len(crashes.bench.found), self.failed
        for moment, disk, said, name, choice in self.chosen(crashes, budget):
            for length in disk.lengths():
                self.tried += 1
                why = crashes.why_not(disk, said, choice, length)
                if why:
                    self.failed += 1
                    print(f"{crashes.name}, moment {moment}, {name}, {length} blocks: {why}",
                          flush=True)
        print(f"{crashes.name}: {len(crashes.events) + 1 - crashes.first} moments, "
              f"{len(crashes.bench.found) - before} new images, "
              f"{self.failed - failed} not as allowed", flush=True)


def of_play(bench):
    """What is allowed while the script is played on the empty database."""

    def allowed(said):
        count = commits(said[0])
        return {(it, 0) for it in (count, count + 1)}

    return allowed


def of_make(said):
    return {(0, 0)} if said[0].startswith(b"made: ") else {NONE, (0, 0)}


def of_work(bench):
    def allowed(said):
        if said[0].endswith(b"\n"):
            return {(bench.last, 0)}
        return {NONE} | {(it, 0) for it in range(bench.last + 1)}

    return allowed


def of_two(bench):
    """The same where the first program ended somewhere, and a second one opened the device: what it
    says of the state is found later too."""

    def allowed(said):
        count = commits(said[0])
        if len(said) == 1:
            return {(it, 0) for it in (count, count + 1)}
        done, found = commits(said[1]), set()
        for (listed, examined), states in bench.states.items():
            for first in (count, count + 1):
                if (first, 0) in states and (agree(listed, said[1]) or agree(examined, said[1])):
                    found |= {(first, done), (first, done + 1)}
        return found

    return allowed


def of_states(states):
    """The same from an image that is one of these states on."""

    def allowed(said):
        done = commits(said[0])
        return {(first, more) for first, _ in states for more in (done, done + 1)}

    return allowed


def of_examined(states):
    return lambda said: states


def play(bench, fails=0):
    """The script is played on the empty database."""
    bench.put(bench.empty)
    events = bench.traced("run", bench.database.script, fails)
    name = f"run {bench.database.name}" + (f", call {fails} failed" if fails else "")
    return Crashes(bench, name, bench.empty, events, of_play(bench))


def make(bench):
    bench.put(None)
    return Crashes(bench, f"make {bench.database.name}", None, bench.traced("make"), of_make)


def work(bench):
    bench.put(None)
    return Crashes(bench, "work", None, bench.traced("work"), of_work(bench))


def second(bench, first, moment, word):
    """The first program ends at a moment without a crash, and a second one opens the device."""
    disk = next(disk for at, disk, _ in first.moments() if at == moment)
    bench.put(disk.written())
    more = bench.traced(word, bench.listing + bench.database.more)
    events = [*first.events[:moment], ("next program",), *more]
    name = f"{word} behind the first {moment} events of {first.name}"
    return Crashes(bench, name, first.start, events, of_two(bench), moment)


def opened(bench, image, word):
    """An image is opened."""
    states = bench.states_of(image)
    states = set() if isinstance(states, str) else states
    bench.put(image)
    events = bench.traced(word, bench.listing + bench.database.more)
    allowed = of_states(states) if word == "run" else of_examined(states)
    return Crashes(bench, f"{word} of an image of {bench.database.name}", image, events, allowed)


def open_images(crashes, numbers):
    """Images whose gate is open."""
    found = {}
    for _, disk, _ in crashes.moments():
        for choice in (CHOICES["new"], mixture(numbers)):
            image = disk.image(choice, disk.sizes[-1])
            if image[GATE * BLOCK] == 165:
                found[image] = True
    return list(found)


def without(crashes, name, at, first=None):
    """The same trace without an event. It is tried from there, or a later moment, on."""
    events = [event for place, event in enumerate(crashes.events) if place != at]
    return crashes.of(name, events, max(at - 1, crashes.first) if first is None else first)


def moved(crashes, name, old, new):
    """The same trace with an event at an earlier place."""
    events = list(crashes.events)
    events.insert(new, events.pop(old))
    return crashes.of(name, events, max(new - 1, crashes.first))


def places(crashes, *wanted, start=0):
    """Where events stand that begin so."""
    return [at for at, event in enumerate(crashes.events)
            if at >= start and event[:len(wanted)] == wanted]


def wrong_traces(benches):
    """Traces of programs that aren't safe."""
    records, linked, pages, worked = benches
    first = play(records)
    said = places(first, "say", b"committed 1\n")[0]
    syncs, end = places(first, "sync", start=said)[:4], places(first, "say", b"committed 2\n")[0]
    opens, closes = places(first, "write", GATE, start=said)[:2]
    slot = places(first, "write", start=said)[0]
    for what, at in zip(("slots", "opened gate", "homes", "closed gate"), syncs):
        yield without(first, f"the {what} of a commit aren't synced", at)
    yield without(first, "the gate isn't opened", opens)
    yield without(first, "a page isn't written home", opens + 2)
    yield without(first, "the gate isn't closed", closes)
    yield moved(first, "a commit is said before it", end, slot)
    yield moved(first, "a commit is said before its gate is synced", end, opens + 1)
    yield moved(first, "the gate is opened before the slots are synced", opens, syncs[0])
    yield moved(first, "the gate is closed before the homes are synced", closes, syncs[2])
    # where one page alone is changed, the next two do no harm
    many = play(linked)
    said = places(many, "say", b"committed 1\n")[0]
    yield without(many, "a page isn't written to its slot", places(many, "write", start=said)[0])
    yield without(many, "the bitmap isn't written", places(many, "write", BITMAP, start=said)[0])
    made = make(records)
    yield without(made, "the name of a new file isn't synced", places(made, "sync the folder")[0],
                  len(made.events) - 1)
    yield without(made, "the magic isn't synced", places(made, "sync")[-1])
    magic = places(made, "write", 0)[0]
    yield moved(made, "the magic is written first", magic, places(made, "write")[0])
    yield moved(made, "a device is said to be made before it is", places(made, "say")[0], magic)
    played = work(worked)
    yield moved(played, "the workload is said before its end", places(played, "say")[0],
                places(played, "write", GATE)[-2])
    large = play(pages)
    commit = places(large, "write", BITMAP)[0]
    early = [event[1] for event in large.events[:commit] if event[0] == "write"]
    once = next(at for at in places(large, "write") if early.count(large.events[at][1]) == 1)
    yield without(large, "a page that leaves memory isn't written", once, commit)
    killed = second(records, first, opens + 1, "run")
    yield without(killed, "a device isn't synced before it is opened",
                  places(killed, "sync", start=opens + 2)[0])
    image = next(disk for at, disk, _ in first.moments() if at == syncs[1] + 1).written()
    recovered = opened(records, image, "run")
    copied, closed = places(recovered, "sync")[1:3]
    yield without(recovered, "the copies of a recovery aren't synced", copied)
    yield without(recovered, "the gate that a recovery closed isn't synced", closed)
    yield without(recovered, "a recovery doesn't copy a page", places(recovered, "write")[0])


def is_seen(judge, crashes):
    """Whether some image isn't as allowed."""
    for moment, disk, said in crashes.moments():
        if moment >= crashes.first:
            for _, choice in few_choices(disk, judge.numbers):
                if any(crashes.why_not(disk, said, choice, it) for it in disk.lengths()):
                    return True
    return False


def test_wrong_traces(judge, benches):
    """Each of them must be seen."""
    for crashes in wrong_traces(benches):
        seen = is_seen(judge, crashes)
        judge.failed += not seen
        print(f"{crashes.name}: {'seen' if seen else 'NOT seen'}", flush=True)


def play_all(judge, benches):
    """All requests: what a crash leaves of each."""
    records, linked, pages, worked = benches
    numbers, is_long = judge.numbers, judge.is_long
    judge.judge(make(records), 180)
    judge.judge(make(linked), 30)
    judge.judge(make(pages), 30)
    judge.judge(work(worked), 130)
    for bench, budget, count in ((records, 700, 8), (linked, 400, 6), (pages, 250, 2)):
        first = play(bench)
        judge.judge(first, budget)
        images, writes = open_images(first, numbers), first.writes()
        if not is_long or bench is pages:
            count = 12 * count if is_long else count
            images = numbers.sample(images, min(count, len(images)))
            writes = numbers.sample(writes, count)
        for image in images:
            for word in ("run", "inspect") if is_long else [numbers.choice(["run", "inspect"])]:
                judge.judge(opened(bench, image, word), 30)
        for moment in writes:
            for word in ("run", "inspect") if is_long else [numbers.choice(["run", "inspect"])]:
                judge.judge(second(bench, first, moment, word), 30)
    for bench in (records, linked):
        # an end of the play before the device is there does nothing
        calls = range(4, calls_of(bench) + 1)
        for fails in calls if is_long else numbers.sample(calls, 4):
            failed = play(bench, fails)
            failed.first = len(failed.events)
            judge.judge(failed, 4)
            judge.judge(second(bench, failed, len(failed.events), "run"), 8)


def calls_of(bench):
    """How many calls for files the script takes."""
    counted = bench.folder / "counted"
    bench.put(bench.empty)
    os.environ["COUNT_TO"] = str(counted)
    bench.on_device("run", bench.database.script, trace=True, fails=10**9)
    del os.environ["COUNT_TO"]
    return int(counted.read_text())


def main():
    words = sys.argv[1:]
    is_long = "--all" in words
    program, library, folder = (it for it in words if it != "--all")
    judge = Judge(is_long)
    folder = pathlib.Path(folder)
    benches = [Bench(program, library, folder, it) for it in (RECORDS, LINKED, PAGES, WORK)]
    play_all(judge, benches)
    test_wrong_traces(judge, benches)
    images = sum(len(bench.found) for bench in benches)
    print(f"{judge.tried} crashes, {images} images, {judge.failed} not as allowed")
    sys.exit(judge.failed > 0)


main()
