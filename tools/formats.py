"""What the tools share: the tokens of the texts, schemas and equations with the form of each term, and the
blocks, pages and entries of a device. It goes by docs/FORMATS.md alone, and has nothing of the program."""

import collections
import itertools
import mmap
import os
import re
import struct
import sys

BLOCK, TABLE_OWNER, NO_PAGE = 4096, 65535, 0xFFFFFFFF
PAGE_NUMBERS = BLOCK // 2
FIRST_LARGEST, LARGEST, TEXT_BLOCKS = 65543, 524303, 4
ENTRY_PAGE, INNER_PAGE, INDEX_PAGE = 0x44, 0x49, 0x58
KINDS = ("heap", "hash", "isam", "bplus")
LINKSETS = {"array": 1, "ring": 2, "inverted": 2}
LAYERS = ("actual", "encode", "segment", "transpose", "partition", "divide", "index")
KEY_LIMIT, ENTRY_LIMIT, MEMBERS_LIMIT = 400, 1000, 500


class Wrong(Exception):
    """What is wrong with an input, in one line."""

    status = 1


def run(name, main):
    """Ends with the status of a tool's main: 1 where an input is wrong, that of the program where it ended
    otherwise than with 0, and 3 where a file can't be had or the output is closed, each with a line on
    standard error."""
    if sys.stdout is None:
        print(f"{name}: the output is closed", file=sys.stderr)
        sys.exit(3)
    try:
        status = main()
        sys.stdout.flush()
    except Wrong as it:
        status = it.status
        print(f"{name}: {it}", file=sys.stderr)
    except OSError as it:
        status = 3
        if not isinstance(it, BrokenPipeError):
            print(f"{name}: {it.filename or 'the output'}: {it.strerror}", file=sys.stderr)
        # What is still to be written can't be.
        os.dup2(os.open(os.devnull, os.O_WRONLY), sys.stdout.fileno())
    except KeyboardInterrupt:
        status = 130
    sys.exit(status)


def read(name):
    """The bytes of a file."""
    with open(name, "rb") as it:
        return it.read()


def device_bytes(name):
    """The bytes of a device. It may have 2 GiB: of a file a part is read where it is looked at. What
    tells no size, as a pipe or a block device, is read whole."""
    with open(name, "rb") as it:
        has_size = os.fstat(it.fileno()).st_size > 0
        return mmap.mmap(it.fileno(), 0, access=mmap.ACCESS_READ) if has_size else it.read()


def text_of(name):
    """The text of a file. A byte above 0x7F becomes one character, which no token has."""
    return read(name).decode("latin-1")


# Tokens

Token = collections.namedtuple("Token", "kind text line")
BLANKS = re.compile(r"(?:[ \t\r\n]|#[^\n]*)*")
TOKEN = re.compile(r'(?P<word>[a-z_][a-z0-9_]*)|(?P<number>-?[0-9]+)'
                   r'|(?P<quoted>"(?:[ !#-~]|"")*"(?!"))|(?P<sign>[(),=])')


def tokens(text, what):
    """The tokens of a text, each with its line, and a last one of the kind `end` in the line of the last byte."""
    found, at, line = [], 0, 1
    while True:
        blanks = BLANKS.match(text, at)
        line += text.count("\n", at, blanks.end())
        at = blanks.end()
        if at == len(text):
            found.append(Token("end", "the end", 1 + text.count("\n", 0, len(text) - 1) if text else 1))
            return found
        match = TOKEN.match(text, at)
        kind = match.lastgroup if match else None
        is_long = kind == "word" and len(match[0]) > 16
        if not match or is_long or kind in ("word", "number") and re.match(r"[A-Za-z0-9_-]", text[match.end():]):
            raise Wrong(f"{what}: line {line}: no word, number, quoted text or sign: {text[at:at + 16]!a}")
        found.append(Token(kind, match[0], line))
        at = match.end()


def number_of(text):
    """The value of a number; of one with more digits than any place takes a value that none takes either."""
    digits = text.lstrip("-").lstrip("0") or "0"
    value = int(digits) if len(digits) <= 20 else 10 ** 20
    return -value if text.startswith("-") else value


def value_of(token):
    """The value of a number, or the bytes of a quoted text."""
    return number_of(token.text) if token.kind == "number" else token.text[1:-1].replace('""', '"').encode("latin-1")


class Words:
    """The tokens of a text, from the front on."""

    def __init__(self, text, what):
        self.left, self.what, self.at = tokens(text, what), what, 0

    def peek(self, ahead=0):
        return self.left[min(self.at + ahead, len(self.left) - 1)]

    def fail(self, why):
        raise Wrong(f"{self.what}: line {self.peek().line}: {why}, not {self.peek().text}")

    def take(self, *kinds):
        """The next token, which has to be of one of these kinds."""
        if self.peek().kind not in kinds:
            self.fail(f"a {' or a '.join(kinds)} is due")
        self.at += 1
        return self.left[self.at - 1]

    def sign(self, sign):
        if self.peek().text != sign or self.peek().kind != "sign":
            self.fail(f"a {sign} is due")
        self.at += 1

    def is_sign(self, sign, ahead=0):
        return self.peek(ahead).kind == "sign" and self.peek(ahead).text == sign

    def name(self):
        """A word that begins with a letter."""
        if self.peek().text.startswith("_"):
            self.fail("a name is due")
        return self.take("word").text

    def number(self, least, most):
        """A number of this range."""
        if self.peek().kind == "number" and not least <= number_of(self.peek().text) <= most:
            self.fail(f"a number from {least} to {most} is due")
        return number_of(self.take("number").text)


# Schemas

Field = collections.namedtuple("Field", "name kind size")
File = collections.namedtuple("File", "name fields")
Link = collections.namedtuple("Link", "name owner member")
Schema = collections.namedtuple("Schema", "files links")


def read_schema(text, what="the schema"):
    """The files and the links of a schema's text."""
    words, files, links = Words(text, what), {}, {}
    while words.peek().kind != "end" or not files and not links:
        item = words.take("word").text
        if item not in ("file", "link"):
            words.at -= 1
            words.fail("file or link is due")
        if words.peek().text in files or words.peek().text in links:
            words.fail("a new name is due")
        name = words.name()
        words.sign("(")
        if item == "file":
            files[name] = File(name, tuple(read_fields(words)))
        else:
            ends = []
            for sign in ",)":
                if words.peek().text not in files:
                    words.fail("a file from before is due")
                ends.append(files[words.name()])
                words.sign(sign)
            links[name] = Link(name, *ends)
    if not files or len(files) > 32 or len(links) > 32:
        words.fail("there are from 1 to 32 files, and at most 32 links")
    return Schema(list(files.values()), list(links.values()))


def read_fields(words):
    """The fields of a file, up to the bracket behind them."""
    fields = []
    while True:
        if words.peek().text in [it.name for it in fields]:
            words.fail("a new name is due")
        name, kind = words.name(), words.take("word").text
        if kind not in ("int", "text"):
            words.at -= 1
            words.fail("int or text is due")
        size = words.number(1, 200 if fields else 100) if kind == "text" else 0
        fields.append(Field(name, kind, size))
        if len(fields) > 32:
            words.fail("a file has at most 32 fields")
        if not words.is_sign(","):
            words.sign(")")
            return fields
        words.sign(",")


def schema_text(schema):
    """The canonical text of a schema."""
    def shown(field):
        return f"{field.name} {field.kind}" + (f" {field.size}" if field.kind == "text" else "")
    files = [f"file {it.name} ({', '.join(map(shown, it.fields))})\n" for it in schema.files]
    return "".join(files + [f"link {it.name} ({it.owner.name}, {it.member.name})\n" for it in schema.links])


# Equations

class Term:
    """A term or a side: its head, the words of its own, the terms in its brackets, and the form that it gets.
    A file kind has the number of its leaf and that of its first root page too."""

    def __init__(self, head, own, terms, line):
        self.head, self.own, self.terms, self.line = head, own, terms, line
        self.keys, self.data, self.leaf, self.root = (), (), None, None

    def leaves(self):
        return [self] if self.head in KINDS else [it for term in self.terms for it in term.leaves()]

    @property
    def roots(self):
        """How many root pages a leaf has."""
        return self.own[0] if self.head == "hash" else 1

    def text(self):
        """The canonical text."""
        inner = ([" ".join(own_words(self))] if self.own else []) + [it.text() for it in self.terms]
        return f"{self.head}({', '.join(inner)})" if inner else self.head


def own_words(term):
    """The words of a term's own, as they stand in its text."""
    return [it if isinstance(it, str) else shown(it) for it in term.own]


Equation = collections.namedtuple("Equation", "files links leaves roots")


def read_terms(text, what="the equation"):
    """The definitions of an equation's text, each a name and a side. Their forms are not looked at."""
    words, found = Words(text, what), []
    while words.peek().kind != "end" or not found:
        name = words.take("word").text
        words.sign("=")
        found.append((name, read_term(words, 1)))
    return found


def read_term(words, depth):
    """The term at the front; that of a definition may be one of the three of a link."""
    token = words.take("word")
    head, own, terms = token.text, [], []
    is_side = depth == 1 and head in LINKSETS
    if not is_side and head not in KINDS + LAYERS or depth > 16:
        words.at -= 1
        words.fail("a term is due" if depth <= 16 else "a term at most at depth 16 is due")
    if head in KINDS:
        if head == "hash":
            words.sign("(")
            own.append(words.number(1, 64))
            words.sign(")")
        return Term(head, own, terms, token.line)
    words.sign("(")
    if head in ("encode", "segment", "partition", "index"):
        own.append(words.take("word").text)
        if head == "encode":
            if words.peek().text not in ("pack", "rle"):
                words.fail("pack or rle is due")
            own.append(words.take("word").text)
        while head == "partition" and len(own) == 1 or head in ("segment", "partition") and not words.is_sign(","):
            if head == "partition":
                is_number = words.peek().kind == "number"
                own.append(words.number(-1 << 63, (1 << 63) - 1) if is_number else value_of(words.take("quoted")))
            else:
                own.append(words.take("word").text)
        words.sign(",")
    elif head == "divide":
        own.append(words.number(1, 16000))
        words.sign(",")
    count = {"segment": 2, "index": 2, "actual": 1, "encode": 1, "divide": 1, **LINKSETS}.get(head)
    while True:
        terms.append(read_term(words, depth + 1))
        if len(terms) == count or count is None and not words.is_sign(","):
            break
        words.sign(",")
    words.sign(")")
    return Term(head, own, terms, token.line)


def width(fields):
    """The width of a key of these fields."""
    return sum(8 if it.kind == "int" else it.size + 1 for it in fields)


def place(term, name, kinds=("int", "text")):
    """Where the record of a term has a field: whether it is in the data, and its number there."""
    for is_data, fields in ((False, term.keys), (True, term.data)):
        for number, field in enumerate(fields):
            if field.name == name:
                if field.kind not in kinds:
                    raise Wrong(f"the equation: line {term.line}: {term.head} of {name}, which is of another kind")
                return is_data, number
    raise Wrong(f"the equation: line {term.line}: {term.head} of {name}, which is no field there")


def give_form(term, keys, data):
    """Gives a term its form, and the terms in its brackets theirs."""
    term.keys, term.data = tuple(keys), tuple(data)

    def need(holds, why):
        if not holds:
            raise Wrong(f"the equation: line {term.line}: {term.head} {why}")

    def data_field(name, kinds=("int", "text", "bytes")):
        is_data, number = place(term, name, kinds)
        need(is_data, f"of {name}, which is the key")
        return number

    head, own, terms = term.head, term.own, term.terms
    if head in KINDS:
        need(not data or len(data) == 1 and data[0].kind == "bytes", "of other data than one field of bytes")
        need(width(keys) <= KEY_LIMIT, "of a key that is too long")
        need(width(keys) + sum(it.size for it in data) <= ENTRY_LIMIT, "of an entry that is too long")
        forms = []
    elif head == "actual":
        size = sum({"int": 8, "text": it.size + 1, "bytes": it.size + 2}[it.kind] for it in data)
        forms = [(keys, [Field("_body", "bytes", size)])]
    elif head == "encode":
        number = data_field(own[0], ("int",) if own[1] == "pack" else ("text",))
        coded = Field(own[0], "bytes", 8 if own[1] == "pack" else 2 * data[number].size)
        forms = [(keys, [*data[:number], coded, *data[number + 1:]])]
    elif head == "segment":
        term.named = [data_field(it) for it in own]
        need(len(set(term.named)) == len(own), "of a name twice")
        term.named.sort()
        term.others = [it for it in range(len(data)) if it not in term.named]
        need(term.others, "of all fields")
        forms = [(keys, [data[it] for it in group]) for group in (term.named, term.others)]
    elif head == "transpose":
        need(data and len(terms) == len(data), "of another number of terms than data fields")
        forms = [(keys, [it]) for it in data]
    elif head == "partition":
        is_data, number = place(term, own[0])
        field, bounds = (data if is_data else keys)[number], own[1:]
        kind, most = (int, 0) if field.kind == "int" else (bytes, field.size)
        suits = [isinstance(it, kind) and (kind is int or len(it) <= most) for it in bounds]
        need(all(suits), "of a bound of another kind")
        need(all(one < two for one, two in zip(bounds, bounds[1:])), "of bounds that don't ascend")
        need(len(terms) == len(bounds) + 1, "of another number of terms than bounds and one")
        forms = [(keys, data)] * len(terms)
    elif head == "divide":
        need(len(data) == 1 and data[0].kind == "bytes", "of other data than one field of bytes")
        forms = [([*keys, Field("_seq", "int", 0)], [Field("_piece", "bytes", own[0])])]
    else:
        number = data_field(own[0], ("int", "text"))
        forms = [(keys, data), ([data[number], *keys], [])]
    for below, form in zip(terms, forms):
        give_form(below, *form)


def give_link_forms(side, link):
    """Gives the side of a link the forms of its terms."""
    owner, member = (it.fields[0]._replace(name=name) for it, name in ((link.owner, "owner"), (link.member, "member")))
    if side.head == "array":
        forms = [([owner], [Field("members", "bytes", MEMBERS_LIMIT * width([member]))])]
    elif side.head == "ring":
        longest = max(width([owner]), width([member]))
        forms = [([owner], [member._replace(name="first")]),
                 ([member], [Field("last", "int", 0), Field("next", "bytes", longest), owner])]
    else:
        forms = [([owner, member], []), ([member], [owner])]
    for term, form in zip(side.terms, forms):
        give_form(term, *form)


def read_equation(text, schema, what="the equation"):
    """An equation's sides under a schema, with their forms, and its leaves. The first root page of a leaf
    is counted from that of the first leaf."""
    found = read_terms(text, what)
    names = [it.name for it in schema.files + schema.links]
    if [name for name, _ in found] != names:
        raise Wrong(f"{what}: the definitions are not those of {', '.join(names)}")
    sides = [side for _, side in found]
    files, links = sides[:len(schema.files)], sides[len(schema.files):]
    if any(it.head in LINKSETS for it in files) or any(it.head not in LINKSETS for it in links):
        raise Wrong(f"{what}: array, ring and inverted are for links, and for them alone")
    for file, side in zip(schema.files, files):
        give_form(side, file.fields[:1], file.fields[1:])
    for link, side in zip(schema.links, links):
        give_link_forms(side, link)
    leaves, root = [it for side in sides for it in side.leaves()], 0
    for number, leaf in enumerate(leaves):
        leaf.leaf, leaf.root = number, root
        root += leaf.roots
    return Equation(files, links, leaves, root)


def equation_text(schema, equation):
    """The canonical text of an equation."""
    sides = zip(schema.files + schema.links, equation.files + equation.links)
    return "".join(f"{it.name} = {side.text()}\n" for it, side in sides)


# Values

def quoted(octets):
    """A text as it stands in a script."""
    return '"' + octets.decode("latin-1").replace('"', '""') + '"'


def shown(value):
    """A value as it stands in a script."""
    return str(value) if isinstance(value, int) else quoted(value)


def spaced(octets):
    """Bytes as docs/FORMATS.md writes them."""
    return octets.hex(" ").upper()


# Scripts

# The most bytes of a script, and of a line of it that may be made a comment.
SCRIPT_LIMIT = 16777216
UNSURE = "# unsure: "
LINE_LIMIT = 4096 - len(UNSURE)
VALUE = re.compile(r'"(?:[^"]|"")*"|-?[0-9]+')


def record_commands(file, words):
    """The commands that make a record of these values as they stand in a script: an insert, or where its line would
    be too long, one of defaults, and an update for each field."""
    line = " ".join(["insert", file.name, *words])
    if len(line) <= LINE_LIMIT:
        return [line]
    defaults = ["0" if it.kind == "int" else '""' for it in file.fields[1:]]
    updates = [f"update {file.name} {words[0]} {it.name} {word}" for it, word in zip(file.fields[1:], words[1:])]
    return [" ".join(["insert", file.name, words[0], *defaults]), *updates]


def transactions(lines, rows):
    """The lines of a script in transactions of so many lines, each a text. Where there are comments alone they stay
    so."""
    lines = iter(lines)
    while part := list(itertools.islice(lines, rows)):
        is_empty = all(it.startswith("#") for it in part)
        yield "".join(f"{it}\n" for it in (part if is_empty else ["begin", *part, "commit"]))


def scripts(pieces, limit=SCRIPT_LIMIT):
    """Texts put together to scripts of at most so many bytes each."""
    script, size = [], 0
    for piece in pieces:
        if script and size + len(piece) > limit:
            yield "".join(script)
            script, size = [], 0
        script.append(piece)
        size += len(piece)
    yield "".join(script)


def write_scripts(pieces, folder):
    """Writes the scripts into files of the folder, which is made, and prints their names."""
    os.makedirs(folder)
    try:
        for number, text in enumerate(scripts(pieces), 1):
            name = f"{folder}/part{number:03}.script"
            with open(name, "x", encoding="latin-1") as it:
                it.write(text)
            print(name)
    except BaseException:
        if not os.listdir(folder):
            os.rmdir(folder)
        raise


# Devices

Layout = collections.namedtuple("Layout", "magic bitmap tables")
FIRST, SECOND = Layout(b"GENESIS1", 1, 16), Layout(b"GENESIS2", 8, 128)


class Device:
    """The blocks of a device, and its pages as they stand."""

    def __init__(self, data):
        self.data, self.blocks = data, len(data) // BLOCK
        layout = FIRST if self.blocks <= FIRST_LARGEST else SECOND
        self.tables, self.first_text = layout.tables, 2 + layout.bitmap
        self.head = self.first_text + TEXT_BLOCKS
        self.count = max(0, (self.blocks - self.head) // 2)
        self.has_magic = self.blocks <= LARGEST and data[:8] == layout.magic
        self.is_open = self.blocks > 1 and data[BLOCK] == 0xA5
        self.bitmap = data[2 * BLOCK:self.first_text * BLOCK]

    def block_of(self, page):
        """The block where a page stands."""
        is_named = self.is_open and self.bitmap[page // 8] >> (7 - page % 8) & 1
        return self.head + page if is_named else self.head + self.count + page

    def page(self, number):
        at = self.block_of(number) * BLOCK
        return self.data[at:at + BLOCK]

    def owners(self):
        """The number in the table of owners for each page."""
        table = b"".join(map(self.page, range(min(self.tables, self.count))))
        count = min(self.count, len(table) // 2)
        return struct.unpack(f">{count}H", table[:2 * count])

    def text_area(self):
        """The bytes of the blocks of the texts, and zeros for those that aren't there."""
        return self.data[self.first_text * BLOCK:self.head * BLOCK].ljust(TEXT_BLOCKS * BLOCK, b"\0")

    def texts(self):
        """The canonical texts of the schema and of the equation that it keeps."""
        area = self.text_area()
        schema, equation = struct.unpack(">HH", area[:4])
        if 4 + schema + equation > len(area):
            raise Wrong("the texts on it can't be read: they are longer than their room")
        octets = area[4:4 + schema], area[4 + schema:4 + schema + equation]
        if any(octets) and max(max(it, default=0) for it in octets) > 0x7E:
            raise Wrong("the texts on it can't be read: they have other bytes than ASCII")
        return [it.decode("ascii") for it in octets]


def device_of(name, is_any=False):
    """The device of this name, which has to begin as one where not any is wanted."""
    device = Device(device_bytes(name))
    if not is_any and not device.has_magic:
        raise Wrong(f"{name}: there is no database on it")
    if not is_any and device.count <= device.tables:
        raise Wrong(f"{name}: it has {device.blocks} blocks, which are too few for a database")
    return device


def entries_of(page):
    """The entries of an entry page, each a key and a body, as far as the page has them."""
    at = 8
    for _ in range(struct.unpack(">H", page[2:4])[0]):
        if at + 4 > BLOCK:
            return
        key, body = struct.unpack(">HH", page[at:at + 4])
        at += 4
        if at + key + body > BLOCK:
            return
        yield page[at:at + key], page[at + key:at + key + body]
        at += key + body
