"""The databases whose devices are crashed."""

import re


class Database:
    """Two texts, the size of a device, a script that ends with a commit, and a transaction more."""

    def __init__(self, name, schema, equation, blocks, script, more):
        self.name, self.schema, self.equation, self.blocks = name, schema, equation, blocks
        self.script, self.more = script, more
        self.files = re.findall(r"file (\w+)", schema)
        self.links = re.findall(r"link (\w+) \((\w+), (\w+)\)", schema)

    def prefixes(self):
        """The first lines of the script up to each commit, from none on."""
        found, text = [""], ""
        for line in self.script.splitlines(keepends=True):
            text += line
            if line == "commit\n":
                found.append(text)
        return found


def transaction(*lines, end="commit"):
    return "".join(f"{line}\n" for line in ["begin", *lines, end])


def inserts(keys, value):
    return [f"insert f {key} {value(key)}" for key in keys]


RECORDS = Database(
    "records", "file f (k int, t text 5)\n", "f = actual(heap)\n", 101,
    transaction('insert f 7 "ann"', 'insert f 8 "bob"') + transaction('update f 7 t "cy"')
    + transaction("delete f 8", end="abort") + transaction("delete f 7", 'insert f 9 "dan"'),
    transaction('insert f 1000 "eve"'))

LINKED = Database(
    "links", "file d (k int) file e (k int, v int, t text 9) link l (d, e)\n",
    "d = isam e = index(v, segment(v, actual(hash(4)), actual(heap)), bplus) "
    "l = ring(actual(bplus), actual(heap))\n", 151,
    transaction(*(f"insert d {it}" for it in range(3)),
                *(f'insert e {it} {it % 4} "t{it}"' for it in range(9)))
    + transaction(*(f"connect l {it % 3} {it}" for it in range(8)))
    + transaction("update e 3 v 9", "disconnect l 4", "delete e 4", "reorganize d")
    + transaction(*(f'update e {it} t "{it}"' for it in range(4)), "connect l 1 8", end="abort")
    + transaction("disconnect l 8") + transaction("disconnect l 7", "connect l 0 7", "delete e 8"),
    transaction('insert e 1000 5 ""', "connect l 2 1000"))

# The hashed files have 72 pages, and 64 pages are held in memory: others are written to their slots
# before the commit, also where there is none.
PAGES = Database(
    "pages", "file f (k int, v int)\n", "f = index(v, actual(hash(64)), hash(8))\n", 207,
    transaction(*inserts(range(0, 300, 2), lambda key: key % 40))
    + transaction(*(f"update f {key} v 41" for key in range(0, 300, 2)), end="abort")
    + transaction(*(f"update f {key} v {key % 30}" for key in range(0, 300, 2)),
                  *inserts(range(1, 200, 2), lambda key: key % 50))
    + transaction("delete f 2"),
    transaction("insert f 1000 5"))


def work_script(count):
    """The script of the workload, as docs/FORMATS.md has it, without its finds."""
    text = transaction(*(f'insert dept {it} "dept {it}"' for it in range(10)))
    for first in range(1, count + 1, 20):
        lines = []
        for it in range(first, min(first + 20, count + 1)):
            room = "r7" if it % 2 else ""
            lines.append(f'insert emp {it} "emp {it}" {1000 + 37 * it % 100} "{room}"')
            lines.append(f"connect works {it % 10} {it}")
        text += transaction(*lines)
    return text + transaction(*(f"update emp {it} pay 1500" for it in range(3, count + 1, 3)))


WORK_COUNT = 30
WORK = Database(
    "work", "file dept (dno int, dname text 12) "
    "file emp (eno int, name text 24, pay int, room text 8) link works (dept, emp)\n",
    "dept = actual(hash(4)) emp = partition(pay 1050, index(pay, actual(heap), bplus), "
    "actual(bplus)) works = array(divide(200, bplus))\n",
    151, work_script(WORK_COUNT), transaction('insert dept 1000 ""'))
