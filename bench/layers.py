#!/usr/bin/env python3
"""Measures what each layer costs beside `actual(heap)`: layers.py PROGRAM [ROUNDS | --counts]. The same
scripts are played under each equation, and must say the same bytes. It prints the least processor
seconds of the rounds, and their ratio to those under `actual(heap)`; with --counts the millions of
instructions by valgrind, of one round with fewer records, which are the same on a busy machine."""

import os
import re
import resource
import subprocess
import sys
import tempfile

COUNTS = sys.argv[2:] == ["--counts"]
RECORDS = 4000 if COUNTS else 100000
SCHEMA = "file part (k int, name text 20, quantity int)\n"
TERMS = [
    "actual(heap)",
    "encode(quantity pack, actual(heap))",
    "encode(name rle, actual(heap))",
    "partition(quantity 500, actual(heap), actual(heap))",
    "index(quantity, actual(heap), heap)",
    "segment(quantity, actual(heap), actual(heap))",
    "transpose(actual(heap), actual(heap))",
    "actual(divide(64, heap))",
    "actual(divide(8, heap))",
]
INSERTS = ["begin", *(f'insert part {it} "part {it}" {it % 1000 + 1}' for it in range(RECORDS)), "commit"]
# Records of which the second part under `segment` has a default alone, and isn't stored.
DEFAULTS = ["begin", *(f'insert part {RECORDS + it} "" {it % 1000 + 1}' for it in range(RECORDS)), "commit"]
# What is played, behind the inserts for all but themselves.
WORK = {
    f"{RECORDS:,} inserts": [],
    f"{RECORDS:,} inserts with a default": DEFAULTS,
    f"{RECORDS:,} gets": [f"get part {it}" for it in range(RECORDS)],
    f"{RECORDS:,} updates": ["begin", *(f"update part {it} quantity {it % 777 + 1}" for it in range(RECORDS)), "commit"],
    f"20 finds of {RECORDS // 1000}": ["find part where quantity = 5"] * 20,
    f"3 scans of {RECORDS:,}": ["find part"] * 3,
}


def play(program, folder, equation, script):
    """The processor seconds of a play or the millions of its instructions, and what it said."""
    words = [program, "try", f"{folder}/schema", equation]
    if COUNTS:
        words = ["valgrind", "--tool=callgrind", f"--callgrind-out-file={os.devnull}", *words]
    before = resource.getrusage(resource.RUSAGE_CHILDREN)
    with open(script, "rb") as it:
        ran = subprocess.run(words, stdin=it, stdout=subprocess.PIPE, stderr=subprocess.PIPE, check=True)
    if COUNTS:
        return int(re.search(r"Collected : (\d+)", ran.stderr.decode())[1]) / 1e6, ran.stdout
    after = resource.getrusage(resource.RUSAGE_CHILDREN)
    return after.ru_utime + after.ru_stime - before.ru_utime - before.ru_stime, ran.stdout


def write(path, text):
    with open(path, "w", encoding="utf-8") as it:
        it.write(text)
    return path


def main():
    program, rounds = os.path.abspath(sys.argv[1]), 1 if COUNTS else int((sys.argv[2:] or [3])[0])
    with tempfile.TemporaryDirectory() as folder:
        write(f"{folder}/schema", SCHEMA)
        equations = {term: write(f"{folder}/{at}", f"part = {term}\n") for at, term in enumerate(TERMS)}
        print("| work |", " | ".join(f"`{it}`" for it in TERMS), "|")
        print("|---|" + "--:|" * len(TERMS))
        inserts = {}
        for name, lines in WORK.items():
            script, least, said = write(f"{folder}/script", "\n".join(INSERTS + lines) + "\n"), {}, set()
            for _ in range(rounds):
                for term, equation in equations.items():
                    seconds, text = play(program, folder, equation, script)
                    least[term] = min(seconds, least.get(term, seconds))
                    said.add(text)
            if len(said) != 1:
                sys.exit(f"layers.py: {name}: two equations say other bytes")
            spent = {term: least[term] - inserts.get(term, 0) for term in TERMS}
            inserts = inserts or least
            print(f"| {name} |", " | ".join(f"{spent[it]:.2f} ({spent[it] / spent[TERMS[0]]:.2f})" for it in TERMS), "|")


main()
