"""Counts the instructions that work on a device takes, an operation: device.py PROGRAM [--records N] [--equation TERM].
The device has 65,543 blocks. The clears of buffers are counted apart: valgrind counts one of 4,096 bytes as 4,096
instructions, which the processor doesn't take for it."""

import argparse
import os
import re
import subprocess
import tempfile

from peers import BLOCKS, Lines

WORK = 1_000
SCHEMA = "file part (number int, quantity int, name text 20)\n"


def ascending(count):
    lines = Lines(1)
    lines.begin()
    for number in range(count):
        lines.insert(number)
    lines.commit()
    return lines


def pieces(records):
    """Each piece of work: its title, its script, the one before it and how many operations it adds."""

    def after(text):
        return Lines(1).inserted(records).many(WORK, lambda it: text.format(it.randrange(records)))

    def in_one(text):
        lines = Lines(1).inserted(records)
        lines.begin()
        for number in lines.shuffled(records)[:WORK]:
            lines.lines.append(text.format(number))
        lines.commit()
        return lines

    ones = Lines(2)
    for number in ones.shuffled(WORK):
        ones.begin()
        ones.insert(number)
        ones.commit()
    begun = f"{records:,} inserts in one transaction"
    yield "start and end", Lines(0), None, 1
    yield begun, Lines(1).inserted(records), "start and end", records
    yield f"{records:,} inserts in ascending order", ascending(records), "start and end", records
    yield f"{WORK:,} gets", after("get part {}"), begun, WORK
    yield f"{WORK:,} updates in one transaction", in_one("update part {} quantity 77"), begun, WORK
    yield f"{WORK:,} deletes in one transaction", in_one("delete part {}"), begun, WORK
    yield f"{WORK:,} transactions of one insert", ones, "start and end", WORK


def counted(words, script, folder):
    """The instructions of a run, and how many of them are clears."""
    out = f"{folder}/counts"
    tool = ["valgrind", "--tool=callgrind", f"--callgrind-out-file={out}", *words]
    with open(script, "rb") as it:
        subprocess.run(tool, stdin=it, stdout=subprocess.DEVNULL, stderr=subprocess.DEVNULL, check=True)
    text = subprocess.run(["callgrind_annotate", "--threshold=100", out], capture_output=True, text=True, check=True).stdout
    clears = sum(int(it.replace(",", "")) for it in re.findall(r"^\s*([\d,]+)[^\n]*memset", text, re.M))
    whole = int(re.search(r"([\d,]+)[^\n]*PROGRAM TOTALS", text)[1].replace(",", ""))
    return whole, clears


def main():
    words = argparse.ArgumentParser(description=__doc__, formatter_class=argparse.RawDescriptionHelpFormatter)
    words.add_argument("program")
    words.add_argument("--records", type=int, default=20_000)
    words.add_argument("--equation", default="actual(bplus)")
    asked = words.parse_args()
    print("| work on a device | an operation | less clears |\n|---|--:|--:|")
    with tempfile.TemporaryDirectory() as folder:
        schema, equation, device, script = (f"{folder}/{it}" for it in ("schema", "equation", "device", "script"))
        for path, text in ((schema, SCHEMA), (equation, f"part = {asked.equation}\n")):
            with open(path, "w", encoding="utf-8") as it:
                it.write(text)
        took = {None: (0, 0)}
        for title, lines, before, count in pieces(asked.records):
            if os.path.exists(device):
                os.remove(device)
            subprocess.run([asked.program, "make", schema, equation, device, str(BLOCKS)], stdout=subprocess.DEVNULL, check=True)
            with open(script, "w", encoding="utf-8") as it:
                it.write("".join(f"{line}\n" for line in lines.lines))
            took[title] = counted([asked.program, "run", schema, equation, device], script, folder)
            whole, clears = (mine - theirs for mine, theirs in zip(took[title], took[before]))
            print(f"| {title} | {whole / count:,.0f} | {(whole - clears) / count:,.0f} |", flush=True)


if __name__ == "__main__":
    main()
