"""Counts the instructions that a search on a page takes for each entry of the page: walks.py PROGRAM, where PROGRAM is that of
programs/walks.rattle, which crates.sh builds. Each search walks all 88 entries or separators of its page once."""

import re
import subprocess
import sys
import tempfile

PASSED = 1_000 * 88
WALKS = {"seek": "an entry page, 88 entries", "fork": "an inner page, 88 separators"}


def instructions(words):
    """How many instructions a run takes."""
    with tempfile.NamedTemporaryFile() as out:
        tool = ["valgrind", "--tool=callgrind", f"--callgrind-out-file={out.name}"]
        said = subprocess.run([*tool, *words], capture_output=True, text=True, check=True).stderr
    return int(re.search(r"Collected : (\d+)", said)[1])


def main():
    program = sys.argv[1]
    start = instructions([program])
    print("| a walk of | instructions an entry |\n|---|--:|")
    for word, title in WALKS.items():
        print(f"| {title} | {(instructions([program, word]) - start) / PASSED:.1f} |")


main()
