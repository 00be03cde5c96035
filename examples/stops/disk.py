"""A disk, and what a crash may leave of it."""

import random

BLOCK = 4096
SEED = 20261201


def filled(byte):
    return bytes([byte]) * BLOCK


JUNK = [random.Random(SEED + it).randbytes(BLOCK) for it in range(16)]

# What a crash leaves of a block, by its number, its synced bytes, and all that was written to it
# since. The gate is open where its first byte is 165.
CHOICES = {
    "old": lambda n, old, written: old,
    "new": lambda n, old, written: written[-1],
    "filled with 165": lambda n, old, written: filled(165),
    "filled with 0": lambda n, old, written: filled(0),
    "torn at 1": lambda n, old, written: written[-1][:1] + old[1:],
    "torn at 20": lambda n, old, written: written[-1][:20] + old[20:],
    "old up to 1": lambda n, old, written: old[:1] + written[-1][1:],
    "junk": lambda n, old, written: JUNK[n % len(JUNK)],
}
APART = ["old", "new", "filled with 165", "torn at 20"]


class Disk:
    """A file of blocks as it was last synced, and what was written to each block since."""

    def __init__(self, data=None):
        self.is_there = self.has_name = data is not None
        self.synced = [data[at:at + BLOCK] for at in range(0, len(data or b""), BLOCK)]
        self.pending = {}
        self.sizes = [len(self.synced)]

    def take(self, event, *what):
        """The next event of a trace."""
        if event == "create":
            self.is_there = True
        elif event == "size":
            self.synced = [filled(0)] * what[0]
            self.sizes += [what[0] // 2, what[0]]
        elif event == "write":
            self.pending.setdefault(what[0], []).append(what[1])
        elif event == "fail to write":
            written = self.pending.setdefault(what[0], [self.synced[what[0]]])
            written.insert(0, what[1])
        elif event == "sync":
            for block, written in self.pending.items():
                self.synced[block] = written[-1]
            self.pending = {}
            self.sizes = self.sizes[-1:]
        elif event == "sync the folder":
            self.has_name = True
        elif event == "remove":
            self.is_there = self.has_name = False

    def written(self):
        """The bytes as they read, or none."""
        return self.image(CHOICES["new"], self.sizes[-1] if self.is_there else None)

    def lengths(self):
        """How many blocks a crash may leave. None: no file."""
        return self.sizes if self.has_name else [None, *self.sizes]

    def image(self, choice, length):
        """What a crash leaves, or none."""
        if length is None:
            return None
        blocks = list(self.synced)
        for block, written in self.pending.items():
            blocks[block] = choice(block, self.synced[block], written)
        return b"".join(blocks[:length])


def one_apart(block, here, others):
    """One choice for a block and another one for all others, with its name."""

    def chosen(n, old, written):
        return CHOICES[here if n == block else others](n, old, written)

    return f"block {block} {here}, others {others}", chosen


def mixture(numbers):
    """A choice for each block by itself, by these random numbers."""

    def chosen(block, old, written):
        what = numbers.randrange(8)
        cut = numbers.choice([1, 3, 8, 20, 40, 2048, numbers.randrange(1, BLOCK)])
        if what == 0:
            return filled(numbers.choice([0, 165, 255, numbers.randrange(256)]))
        if what == 1:
            return JUNK[numbers.randrange(len(JUNK))]
        if what == 2:
            return written[-1][:cut] + old[cut:]
        if what == 3:
            return old[:cut] + written[-1][cut:]
        if what == 4:
            return numbers.choice(written)
        return old if what == 5 else written[-1]

    return chosen


def few_choices(disk, numbers):
    """All uniform choices, and mixtures."""
    yield from CHOICES.items()
    for it in range(4 if disk.pending else 0):
        yield f"mixture {it}", mixture(random.Random(numbers.random()))


def every_choice(disk, numbers):
    """The same, and each block apart from the others."""
    yield from few_choices(disk, numbers)
    if len(disk.pending) > 1:
        for block in disk.pending:
            for here in APART:
                for others in ("old", "new"):
                    if here != others:
                        yield one_apart(block, here, others)


def some_choice(disk, numbers):
    """One of them."""
    what = numbers.randrange(10)
    if what < 4 or not disk.pending:
        return numbers.choice(list(CHOICES.items()))
    if what < 6:
        block, here = numbers.choice(list(disk.pending)), numbers.choice(APART)
        return one_apart(block, here, numbers.choice(["old", "new"]))
    return "a mixture", mixture(numbers)
