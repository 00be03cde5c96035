"""The second reader of devices: the layout of each file kind, and the records and pairs that the entries of
the leaves are. It goes by docs/FORMATS.md alone, and has nothing of the program. Whatever it meets, it goes
on with the rest, and keeps a fault for each thing that isn't as the formats say."""

import collections
import struct

from formats import (BLOCK, ENTRY_LIMIT, ENTRY_PAGE, INDEX_PAGE, INNER_PAGE, KEY_LIMIT, KINDS, LARGEST, MEMBERS_LIMIT,
                     NO_PAGE, TABLE_OWNER, Wrong, entries_of, equation_text, place, schema_text, shown,
                     spaced)

# Where a fault is: a block, or none where each page is whole; then what it is of, and what is wrong.
Fault = collections.namedtuple("Fault", "block where why")


def read_key(octets, fields):
    """The values of a key of these fields, or none where the bytes are no such key."""
    values, at = [], 0
    for field in fields:
        if field.kind == "int":
            if at + 8 > len(octets):
                return None
            values.append(int.from_bytes(octets[at:at + 8], "big") - (1 << 63))
            at += 8
        else:
            end = octets.find(b"\0", at)
            if end < 0 or end - at > field.size or not is_text(octets[at:end]):
                return None
            values.append(octets[at:end])
            at = end + 1
    return tuple(values) if at == len(octets) else None


def key_bytes(values):
    """The bytes of a key."""
    return b"".join((it + (1 << 63)).to_bytes(8, "big") if isinstance(it, int) else it + b"\0" for it in values)


def is_text(octets):
    return all(0x20 <= it <= 0x7E for it in octets)


def read_body(octets, fields):
    """The values of a body of these fields, or none where the bytes are no such body."""
    values, at = [], 0
    for field in fields:
        head = {"int": 0, "text": 1, "bytes": 2}[field.kind]
        size = int.from_bytes(octets[at:at + head], "big") if head else 8
        at += head
        value = octets[at:at + size]
        if at + size > len(octets) or head and size > field.size or field.kind == "text" and not is_text(value):
            return None
        values.append(value if head else int.from_bytes(value, "big", signed=True))
        at += size
    return tuple(values) if at == len(octets) else None


def pack(number):
    """The shortest two's complement bytes of a number; 0 is no byte."""
    size = 0
    while number and not -(1 << 8 * size - 1) <= number < 1 << 8 * size - 1 if size else number:
        size += 1
    return number.to_bytes(size, "big", signed=True)


def rle(text):
    """A count and a byte for each longest run of one byte."""
    code, at = b"", 0
    while at < len(text):
        end = at
        while end < len(text) and text[end] == text[at]:
            end += 1
        code += bytes((end - at, text[at]))
        at = end
    return code


def decoded(code, octets, size):
    """The value that has this code, or none: an int by `pack`, a text of at most this size by `rle`."""
    if code == "pack":
        value = int.from_bytes(octets, "big", signed=True)
        return value if len(octets) <= 8 and pack(value) == octets else None
    if len(octets) % 2:
        return None
    value = b"".join(octets[at + 1:at + 2] * octets[at] for at in range(0, len(octets), 2))
    return value if len(value) <= size and is_text(value) and rle(value) == octets else None


def front(key, is_int):
    """The front of a key of a leaf, of which the hash says in which chain it is."""
    end = 8 if is_int else key.find(b"\0") + 1
    return key[:end] if 0 < end <= len(key) else key


def fnv(octets):
    found = 14695981039346656037
    for octet in octets:
        found = (found ^ octet) * 1099511628211 & (1 << 64) - 1
    return found


class Layout:
    """The pages of one leaf, from its root pages on: its entries, and what is wrong with its layout."""

    def __init__(self, device, owners, leaf, name):
        self.device, self.owners, self.leaf = device, owners, leaf
        self.where, self.owner = f"leaf {leaf.leaf} {name}", leaf.leaf + 1
        self.root = device.tables + leaf.root
        self.entries, self.faults, self.reached, self.keys = [], [], set(), set()
        {"heap": self.heap, "hash": self.hash, "isam": self.isam, "bplus": self.bplus}[leaf.head]()
        for page, owner in enumerate(owners):
            if owner == self.owner and page not in self.reached:
                self.fault(page, "no page leads to it")
                octets = device.page(page)
                if octets[0] == ENTRY_PAGE:
                    self.entry_page(page, octets, True)

    def fault(self, page, why):
        self.faults.append(Fault(self.device.block_of(page), self.where, why))

    def take(self, page, origin):
        """The bytes of a page of the leaf that is reached now, or none where it is no such page. The origin
        is the page that leads to it."""
        if not self.device.tables <= page < self.device.count:
            self.fault(origin, f"it leads to page {page}, which is no page of a leaf")
        elif page in self.reached:
            self.fault(page, f"page {origin} leads to it, and so does another way")
        else:
            owner = self.owners[page]
            if owner != self.owner:
                self.fault(page, f"page {origin} leads to it, and its owner is {owner} and not {self.owner}")
            if owner in (0, self.owner) or self.is_root(page):
                self.reached.add(page)
                return self.device.page(page)
        return None

    def is_root(self, page):
        return 0 <= page - self.root < self.leaf.roots

    def head(self, page, octets, kind, name):
        """The count and the page number of a page of this kind, or none where it is of another kind."""
        if octets[0] != kind or octets[1]:
            self.fault(page, f"it is no {name} page: it begins with {spaced(octets[:2])}")
            return None
        return struct.unpack(">HI", octets[2:8])

    def entry_page(self, page, octets, is_root):
        """The keys and the next page of an entry page. Of two entries with one key the first is kept."""
        head = self.head(page, octets, ENTRY_PAGE, "entry")
        if head is None:
            if not any(octets[2:8]):
                return [], NO_PAGE
            # (the other bytes of its header may be as they were)
            head = struct.unpack(">HI", octets[2:8])
        found = []
        for key, body in entries_of(octets):
            if len(key) > KEY_LIMIT or len(key) + len(body) > ENTRY_LIMIT:
                self.fault(page, "an entry is too long")
                break
            found.append(key)
            if key in self.keys:
                self.fault(page, f"the key {spaced(key)} is there twice")
                continue
            self.keys.add(key)
            self.entries.append((key, body))
        else:
            if len(found) != head[0]:
                self.fault(page, f"it has no room for {head[0]} entries")
        if not head[0] and not is_root:
            self.fault(page, "it has no entry")
        return found, head[1]

    def chain(self, page, origin, roots=()):
        """The keys of the chain that begins with a page, each with its page."""
        found = []
        while page != NO_PAGE:
            octets = self.take(page, origin)
            if octets is None:
                break
            keys, following = self.entry_page(page, octets, page in roots)
            found += [(page, key) for key in keys]
            page, origin = following, page
        return found

    def heap(self):
        self.chain(self.root, self.root, (self.root,))

    def hash(self):
        roots, is_int = range(self.root, self.root + self.leaf.roots), self.leaf.keys[0].kind == "int"
        for number, root in enumerate(roots):
            for page, key in self.chain(root, root, (root,)):
                if fnv(front(key, is_int)) % self.leaf.roots != number:
                    self.fault(root, f"page {page} of its chain has the key {spaced(key)} of another chain")

    def separators(self, page, octets, at, count, behind, limit):
        """So many separators on a page from a place on, each with the number behind it, which has so many bytes."""
        found, last = [], None
        for _ in range(count):
            size = int.from_bytes(octets[at:at + 2], "big")
            end = at + 2 + size + behind
            if at + 2 > BLOCK or end > BLOCK or size > limit:
                self.fault(page, "a separator has no room, or is too long")
                break
            separator = octets[at + 2:at + 2 + size]
            if last is not None and separator <= last:
                self.fault(page, "the separators don't ascend")
            last = separator
            found.append((separator, int.from_bytes(octets[end - behind:end], "big")))
            at = end
        return found

    def isam(self):
        root = self.root
        octets = self.take(root, root)
        head = self.head(root, octets, INDEX_PAGE, "index") if octets else None
        if head is None:
            return
        count, first = head
        if not 1 <= count <= 64:
            self.fault(root, f"it has {count} buckets")
            count = min(max(count, 1), 64)
        numbers = [first, *struct.unpack(f">{count - 1}I", octets[8:8 + 4 * (count - 1)])]
        separators = [it for it, _ in self.separators(root, octets, 8 + 4 * (count - 1), count - 1, 0, BLOCK)]
        for number, first in enumerate(numbers):
            least = separators[number - 1] if 0 < number <= len(separators) else b""
            end = separators[number] if number < len(separators) else None
            for page, key in self.chain(first, root):
                if key < least or end is not None and key >= end:
                    self.fault(first, f"page {page} of its chain has the key {spaced(key)} of another bucket")

    def bplus(self):
        todo = [(self.root, self.root, b"", None)]
        while todo:
            page, origin, least, end = todo.pop()
            octets = self.take(page, origin)
            if octets is None:
                continue
            if octets[0] != INNER_PAGE:
                keys, following = self.entry_page(page, octets, page == self.root)
                if following != NO_PAGE:
                    self.fault(page, "an entry page of a tree has a next page")
                if any(one >= two for one, two in zip(keys, keys[1:])):
                    self.fault(page, "the keys don't ascend")
                if any(it < least or end is not None and it >= end for it in keys):
                    self.fault(page, "a key is on another side of a separator than it should be")
                continue
            count, first = self.head(page, octets, INNER_PAGE, "inner") or (0, NO_PAGE)
            if not count:
                self.fault(page, "it has no separator")
            found = self.separators(page, octets, 8, count, 4, KEY_LIMIT)
            bounds = [least, *(it for it, _ in found), end]
            for number, child in enumerate([first, *(it for _, it in found)]):
                todo.append((child, page, bounds[number], bounds[number + 1]))


class Database:
    """What is on a device under a schema and an equation: the entries of the leaves, the records of the files,
    the pairs of the links, and the faults. A record in `unsure` lacks a part that may be lost."""

    def __init__(self, device, schema, equation):
        self.device, self.schema, self.equation = device, schema, equation
        self.faults, self.entries, self.lossy = [], [], set()
        self.check_device()
        owners = device.owners()
        self.check_owners(owners)
        sides = zip(schema.files + schema.links, equation.files + equation.links)
        names = [it.name for it, side in sides for _ in side.leaves()]
        for leaf, name in zip(equation.leaves, names):
            layout = Layout(device, owners, leaf, name)
            self.faults += layout.faults
            self.entries.append(layout.entries)
            if layout.faults:
                self.lossy.add(leaf.leaf)
        self.unsure, self.records, self.pairs = {}, [], []
        for file, side in zip(schema.files, equation.files):
            self.where = f"file {file.name}"
            self.records.append(self.undo(side))
        for link, side in zip(schema.links, equation.links):
            self.where = f"link {link.name}"
            self.pairs.append(self.undo_link(link, side))

    def fault(self, why):
        self.faults.append(Fault(None, self.where, why))

    @property
    def is_whole(self):
        return not self.faults

    # The device as a whole

    def check_device(self):
        device = self.device
        if device.blocks > LARGEST:
            raise Wrong(f"a device of {device.blocks} blocks is too large")
        if device.count < device.tables + self.equation.roots:
            self.faults.append(Fault(0, "the device", f"{device.blocks} blocks are too few"))
        if not device.has_magic:
            self.faults.append(Fault(0, "the device", "there is no magic"))
        texts = schema_text(self.schema), equation_text(self.schema, self.equation)
        area = struct.pack(">HH", *map(len, texts)) + "".join(texts).encode("ascii")
        if device.text_area() != area.ljust(4 * BLOCK, b"\0"):
            self.faults.append(Fault(device.first_text, "the device", "its texts are others, or aren't in their canonical form"))

    def check_owners(self, owners):
        for page, owner in enumerate(owners):
            block = self.device.block_of(page)
            is_known = owner == TABLE_OWNER or owner <= len(self.equation.leaves)
            if not is_known or (owner == TABLE_OWNER) != (page < self.device.tables):
                self.faults.append(Fault(block, "the table of owners", f"the owner of page {page} can't be {owner}"))

    # The layers, from the leaves up: each term gives the data of its records, by their keys

    def undo(self, term):
        return getattr(self, "undo_" + ("leaf" if term.head in KINDS else term.head))(term)

    def is_lossy(self, term):
        return any(it.leaf in self.lossy for it in term.leaves())

    def undo_leaf(self, term):
        found = {}
        for octets, body in self.entries[term.leaf]:
            key = read_key(octets, term.keys)
            if key is None or len(body) > sum(it.size for it in term.data):
                self.fault(f"leaf {term.leaf}: {spaced(octets)} : {spaced(body)} is the entry of no record")
                self.lossy.add(term.leaf)
            else:
                found[key] = (body,) if term.data else ()
        return found

    def undo_actual(self, term):
        found = {}
        for key, (body,) in self.undo(term.terms[0]).items():
            data = read_body(body, term.data)
            if data is None:
                self.fault(f"{named(key)}: {spaced(body)} are the bytes of no data")
                self.lossy.add(term.leaves()[0].leaf)
            else:
                found[key] = data
        return found

    def undo_encode(self, term):
        number = place(term, term.own[0])[1]
        found = {}
        for key, data in self.undo(term.terms[0]).items():
            value = decoded(term.own[1], data[number], term.data[number].size)
            if value is None:
                self.fault(f"{named(key)}: {spaced(data[number])} is no code of {term.own[0]}")
                self.lossy.add(term.leaves()[0].leaf)
            else:
                found[key] = (*data[:number], value, *data[number + 1:])
        return found

    def undo_partition(self, term):
        is_data, number = place(term, term.own[0])
        found = {}
        for at, below in enumerate(term.terms):
            for key, data in self.undo(below).items():
                value = (data if is_data else key)[number]
                if sum(it <= value for it in term.own[1:]) != at:
                    self.fault(f"{named(key)}: {term.own[0]} {shown(value)} is in another term than it should be")
                if key in found:
                    self.fault(f"{named(key)} is there twice, in two terms of a partition")
                else:
                    found[key] = data
        return found

    def undo_segment(self, term):
        first, second = map(self.undo, term.terms)
        defaults = tuple(0 if term.data[it].kind == "int" else b"" for it in term.others)
        for key, others in second.items():
            if key not in first:
                self.fault(f"{named(key)} has the second part of a segment without the first")
            elif others == defaults:
                self.fault(f"{named(key)} has a second part of a segment with nothing in it")
        found, lost = {}, self.is_lossy(term.terms[1])
        for key, named_values in first.items():
            others = second.get(key, defaults)
            values = dict(zip(term.named, named_values)) | dict(zip(term.others, others))
            found[key] = tuple(values[it] for it in range(len(term.data)))
            if lost and key not in second:
                self.unsure.setdefault(self.where, set()).add(key[0])
        return found

    def undo_transpose(self, term):
        columns = [self.undo(it) for it in term.terms]
        keys = set().union(*columns)
        for key in sorted(keys):
            if any(key not in it for it in columns):
                self.fault(f"{named(key)} lacks a part of a transpose")
        return {key: sum((it[key] for it in columns), ()) for key in keys if all(key in it for it in columns)}

    def undo_divide(self, term):
        size, pieces = term.own[0], collections.defaultdict(dict)
        for key, (piece,) in self.undo(term.terms[0]).items():
            pieces[key[:-1]][key[-1]] = piece
        found = {}
        for key, parts in pieces.items():
            last = len(parts) - 1
            body = b"".join(parts.get(it, b"") for it in range(last + 1))
            is_whole = all(it in parts and (len(parts[it]) == size) == (it < last) for it in range(last + 1))
            if not is_whole or len(body) > term.data[0].size:
                self.fault(f"{named(key)} has a piece too few, too many or of another length")
                self.lossy.add(term.leaves()[0].leaf)
            else:
                found[key] = (body,)
        return found

    def undo_index(self, term):
        number = place(term, term.own[0])[1]
        found, index = map(self.undo, term.terms)
        wanted = {(data[number], *key) for key, data in found.items()}
        for entry in sorted(wanted ^ index.keys()):
            why = "has no entry in the index by" if entry in wanted else "isn't there, and has an entry in the index by"
            self.fault(f"{named(entry[1:])} {why} {term.own[0]}, under {shown(entry[0])}")
        return found

    # Links

    def undo_link(self, link, side):
        """The owner's key of each member's key."""
        found = [self.undo(it) for it in side.terms]
        pairs = getattr(self, "pairs_of_" + side.head)(link, found)
        keys = dict(zip(self.schema.files, self.records))
        counts = collections.Counter(pairs.values())
        for owner, count in sorted(counts.items()):
            if count > MEMBERS_LIMIT:
                self.fault(f"the owner {shown(owner)} has {count} members")
        for member, owner in sorted(pairs.items()):
            for name, key, file in (("owner", owner, link.owner), ("member", member, link.member)):
                if (key,) not in keys[file]:
                    self.fault(f"the {name} {shown(key)} of the pair {shown(owner)} {shown(member)} is no record")
        for number, (have, want) in enumerate(zip(found, made_of(side.head, pairs))):
            for key in sorted(have.keys() | want.keys()):
                if have.get(key) != want.get(key):
                    self.fault(f"{named(key)}: the pairs make another record of term {number} of the {side.head}")
        return pairs

    def pair(self, pairs, owner, member):
        if pairs.setdefault(member, owner) != owner:
            self.fault(f"the member {shown(member)} has the owners {shown(pairs[member])} and {shown(owner)}")

    def pairs_of_array(self, link, found):
        pairs, fields = {}, link.member.fields[:1]
        for (owner,), (octets,) in sorted(found[0].items()):
            while octets:
                size = 8 if fields[0].kind == "int" else octets.find(b"\0") + 1
                member = read_key(octets[:size], fields)
                if member is None:
                    self.fault(f"the owner {shown(owner)}: {spaced(octets)} are the keys of no members")
                    break
                self.pair(pairs, owner, member[0])
                octets = octets[size:]
        return pairs

    def pairs_of_ring(self, _, found):
        return {member: owner for (member,), (_, _, owner) in found[1].items()}

    def pairs_of_inverted(self, _, found):
        pairs = {member: owner for (member,), (owner,) in found[1].items()}
        for owner, member in sorted(found[0]):
            self.pair(pairs, owner, member)
        return pairs


def made_of(head, pairs):
    """The records that a link's head makes of its pairs, a map for each of its terms."""
    owners = collections.defaultdict(list)
    for member, owner in sorted(pairs.items()):
        owners[owner].append(member)
    if head == "array":
        return [{(owner,): (key_bytes(members),) for owner, members in owners.items()}]
    if head == "inverted":
        lists = {(owner, member): () for member, owner in pairs.items()}
        return [lists, {(member,): (owner,) for member, owner in pairs.items()}]
    ring = {}
    for owner, members in owners.items():
        for member, following in zip(members, members[1:]):
            ring[(member,)] = 0, key_bytes((following,)), owner
        ring[(members[-1],)] = 1, key_bytes((owner,)), owner
    return [{(owner,): (members[0],) for owner, members in owners.items()}, ring]


def named(key):
    """A key for a message."""
    return "the key " + " ".join(map(shown, key))
