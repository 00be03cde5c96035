"""Runs commands several times, interleaved, and takes the processor time and the peak memory of each."""
import dataclasses
import os
import shutil
import statistics
import subprocess
import sys
import tempfile

# Python's own memory would count as that of a program that it starts itself, so a smaller one starts it, where it is installed.
TIME = shutil.which("time")
FIGURES = ["median s", "least s", "peak MB"]
HEADS = ["work", *FIGURES, "beside", *FIGURES, "ratio of medians", "ratio of leasts", "rate"]


@dataclasses.dataclass
class Job:
    """A command with its standard input, and what its runs took: seconds of the processor, and bytes at the peak."""

    name: str
    words: list
    stdin: str = os.devnull
    seconds: list = dataclasses.field(default_factory=list)
    peaks: list = dataclasses.field(default_factory=list)

    def run(self):
        """Runs the command once, and returns what it said."""
        with open(self.stdin, "rb") as given, tempfile.TemporaryFile("w+") as said, tempfile.NamedTemporaryFile("r") as peak:
            words = [TIME, "-f", "%M", "-o", peak.name, *self.words] if TIME else self.words
            child = subprocess.Popen(words, stdin=given, stdout=said)
            _, status, used = os.wait4(child.pid, 0)
            child.returncode = os.waitstatus_to_exitcode(status)
            if child.returncode:
                sys.exit(f"{self.name}: ended with status {child.returncode}")
            self.seconds.append(used.ru_utime + used.ru_stime)
            self.peaks += [int(peak.read().split()[-1]) * 1024] if TIME else []
            said.seek(0)
            return said.read()

    def peak(self):
        """The peak memory in megabytes, as a text."""
        return f"{max(self.peaks) / 1e6:.1f}" if self.peaks else "not taken"


@dataclasses.dataclass
class Work:
    """A job, without what another job takes that does the work before it."""

    job: Job
    before: Job = None

    def seconds(self, of):
        """The median or the least of the seconds."""
        return of(self.job.seconds) - (of(self.before.seconds) if self.before else 0)

    def figures(self):
        return [*(f"{self.seconds(of):.3f}" for of in (median, min)), self.job.peak()]


def row(title, ours, name="", theirs=None, rate=""):
    """A row of the table: some work, and beside it that of another program or another way of this one."""
    ratios = [f"{ours.seconds(of) / theirs.seconds(of):.2f}" for of in (median, min)] if theirs else [""] * 2
    return [title, *ours.figures(), name, *(theirs.figures() if theirs else [""] * len(FIGURES)), *ratios, rate]


def median(seconds):
    return statistics.median(seconds)


def measure(jobs, rounds):
    """Runs all jobs once in each round."""
    for number in range(rounds):
        print(f"round {number + 1} of {rounds}", file=sys.stderr)
        for job in jobs:
            job.run()


def heads():
    return [HEADS, ["---"] * len(HEADS)]


def show(rows):
    for cells in rows:
        print(f"| {' | '.join(cells)} |", flush=True)
