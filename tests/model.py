#!/usr/bin/env python3
"""A model of the sumtree script language, written from its definitions.

Reads calls from standard input and writes one answer line for each.
"""

import hashlib
import re
import sys
from enum import IntEnum
from typing import NamedTuple

LARGEST_NUMBER = 2**63 - 1
LONGEST_TEXT = 65_536
DEEPEST = 20
LAST_CLOSING = 9_999
WIDEST_RECORD = 128
LARGEST_BOUND = 2**21
MOST_RECORDS = 4_194_304
MOST_STANDING = 8

U32 = 2**32 - 1
U64 = 2**64 - 1

DIGEST_LENGTH = 32
ID_LENGTH = 16
HEAD_LENGTH = 11


class Why(IntEnum):
    """The numbers of the refusals."""

    TEXT_TOO_LONG = 1
    UNFIT_MEMORY = 2
    KEY_OUTSIDE = 3
    NOT_THE_WIDTH = 4
    FULL = 5
    NO_AMOUNT = 6
    NOT_JOINABLE = 7
    DEPTH_OR_CLOSING = 8
    STANDS_ALREADY = 9
    EIGHT_STAND = 10
    STORE_UNSUITED = 11
    ID_LENGTH = 12
    LEAVES_TAKEN = 13
    NOT_STANDING = 14
    BUFFER_TOO_SHORT = 15
    SHEET_LENGTH = 16
    OTHER_KIND = 17
    FILE_LENGTH = 18
    OTHER_HEAD = 19
    LEAF_OUTSIDE = 20
    OTHER_ROOT = 21
    TWO_TEXTS = 22
    SHOWN_ALREADY = 23


class Refused(Exception):
    """A refusal: its number and the offset it points at."""

    def __init__(self, number, offset=0):
        super().__init__(number, offset)
        self.number = number
        self.offset = offset


class Unreadable(Exception):
    """The line is no call."""


class NotNow(Exception):
    """The call needs something that is not there yet."""


def big_endian(number, length):
    return number.to_bytes(length, "big")


def from_big_endian(data):
    return int.from_bytes(data, "big")


def is_closing(number):
    return 1 <= number <= LAST_CLOSING


# Amounts and digests


class AmountKind(NamedTuple):
    """Amounts are tuples of whole numbers, eight bytes each when written."""

    number: int
    parts: int

    @property
    def width(self):
        return 8 * self.parts

    @property
    def zero(self):
        return (0,) * self.parts

    def writable(self, amount):
        return all(part <= LARGEST_NUMBER for part in amount)

    def write(self, amount):
        return b"".join(big_endian(part, 8) for part in amount)

    def read(self, data, offset=0):
        if len(data) != self.width:
            raise Refused(Why.NO_AMOUNT, offset)
        amount = tuple(from_big_endian(data[i : i + 8]) for i in range(0, self.width, 8))
        if not self.writable(amount):
            raise Refused(Why.NO_AMOUNT, offset)
        return amount

    def join(self, one, other, offset=0):
        joint = tuple(a + b for a, b in zip(one, other))
        if not self.writable(joint):
            raise Refused(Why.NOT_JOINABLE, offset)
        return joint


def rehearsal(text):
    return bytes(31) + bytes([sum(text) % 256])


def sha256(text):
    return hashlib.sha256(text).digest()


class Digest(NamedTuple):
    """A kind number and a function from texts to 32 bytes."""

    number: int
    function: object

    def of(self, text):
        if len(text) > LONGEST_TEXT:
            raise Refused(Why.TEXT_TOO_LONG)
        return self.function(text)


AMOUNT_KINDS = {"single": AmountKind(1, 1), "purse": AmountKind(2, 4)}
DIGESTS = {"rehearsal": Digest(9, rehearsal), "sha256": Digest(1, sha256)}


# Node stores


class StoreForm(NamedTuple):
    """What a script says about a store and its memory; a flat store has no count."""

    width: int
    first: int
    last: int
    bound: int
    count: int | None
    length: int

    @property
    def closings(self):
        return self.last - self.first + 1

    def within_limits(self):
        return (
            1 <= self.width <= WIDEST_RECORD
            and 1 <= self.first <= self.last <= LAST_CLOSING
            and 2 <= self.bound <= LARGEST_BOUND
            and (self.count is None or 1 <= self.count <= MOST_RECORDS)
        )

    def memory_needed(self):
        if self.count is None:
            return self.closings * self.bound * (1 + self.width)
        return 68 + self.count * (12 + self.width)

    def capacity(self):
        if self.count is None:
            return self.closings * (self.bound - 1)
        return self.count

    def fits(self):
        return self.within_limits() and self.memory_needed() <= self.length


class Store:
    """Records by closing and place. Unfit memory gives an empty span and no room."""

    def __init__(self, form):
        self.records = {}
        if form.fits():
            self.width, self.bound = form.width, form.bound
            self.first, self.last = form.first, form.last
            self.capacity = form.capacity()
        else:
            self.width, self.bound = 1, 2
            self.first, self.last = 1, 0
            self.capacity = 0

    @property
    def room(self):
        return self.capacity - len(self.records)

    def spans(self, closing):
        return self.first <= closing <= self.last

    def suits(self, width, closing, depth):
        return self.width == width and self.spans(closing) and 2 ** (depth + 1) <= self.bound

    def require_closing(self, closing):
        if not self.spans(closing):
            raise Refused(Why.KEY_OUTSIDE)

    def require_key(self, closing, place, length):
        self.require_closing(closing)
        if not 1 <= place < self.bound:
            raise Refused(Why.KEY_OUTSIDE)
        if length != self.width:
            raise Refused(Why.NOT_THE_WIDTH)

    def put(self, closing, place, record):
        self.require_key(closing, place, len(record))
        if (closing, place) not in self.records and self.room == 0:
            raise Refused(Why.FULL)
        self.records[closing, place] = record

    def get(self, closing, place, length):
        self.require_key(closing, place, length)
        return self.records.get((closing, place))

    def held(self, closing):
        self.require_closing(closing)
        return sum(1 for key in self.records if key[0] == closing)

    def clear(self, closing):
        self.require_closing(closing)
        for key in [key for key in self.records if key[0] == closing]:
            del self.records[key]


# Texts, nodes, sheets and files


class Node(NamedTuple):
    digest: bytes
    amount: tuple


class Sheet(NamedTuple):
    head: bytes
    depth: int
    closing: int
    root: Node


class Path(NamedTuple):
    """What a passing file shows: its leaf's place, its texts and the nodes below them."""

    place: int
    balance: tuple
    texts: dict
    nodes: dict

    def inner_places(self):
        return [place for place in self.texts if place != self.place]


class House:
    """The texts and layouts of one kind of amount and one digest."""

    def __init__(self, kind, digest):
        self.kind = kind
        self.digest = digest
        self.node_width = DIGEST_LENGTH + kind.width
        self.leaf_width = 37 + kind.width
        self.sheet_length = 39 + kind.width
        self.balance_offset = HEAD_LENGTH + 2 * ID_LENGTH
        self.steps_offset = self.balance_offset + kind.width

    def leaf_text(self, closing, customer, salt, balance):
        return b"\x00" + big_endian(closing, 4) + customer + salt + self.kind.write(balance)

    def padding_text(self, closing, leaf):
        return b"\x02" + big_endian(closing, 4) + big_endian(leaf, 4)

    def inner_text(self, left, right):
        return b"\x01" + self.write_node(left) + self.write_node(right)

    def node(self, text, amount):
        return Node(self.digest.of(text), amount)

    def padding(self, closing, leaf):
        return self.node(self.padding_text(closing, leaf), self.kind.zero)

    def inner(self, left, right):
        return self.node(self.inner_text(left, right), self.kind.join(left.amount, right.amount))

    def write_node(self, node):
        return node.digest + self.kind.write(node.amount)

    def read_node(self, data, offset=0):
        amount = self.kind.read(data[DIGEST_LENGTH:], offset + DIGEST_LENGTH)
        return Node(data[:DIGEST_LENGTH], amount)

    def head(self, closing, depth):
        return bytes([self.kind.number, self.digest.number, depth]) + big_endian(closing, 4)

    def write_sheet(self, closing, depth, root):
        return self.head(closing, depth) + self.write_node(root)

    def write_file(self, closing, depth, leaf, customer, salt, balance, steps):
        parts = [self.head(closing, depth), big_endian(leaf, 4), customer, salt]
        parts.append(self.kind.write(balance))
        parts.extend(self.write_node(step) for step in steps)
        return b"".join(parts)

    def file_length(self, depth):
        return self.steps_offset + depth * self.node_width

    def step_offset(self, height):
        return self.steps_offset + height * self.node_width

    def fields(self, depth, file):
        """The fields of a file of this depth as (name, offset, bytes)."""
        if depth > DEEPEST or len(file) != self.file_length(depth):
            return []
        lengths = [("head", HEAD_LENGTH), ("customer", ID_LENGTH), ("salt", ID_LENGTH)]
        lengths.append(("balance", self.kind.width))
        lengths.extend([("step", self.node_width)] * depth)
        fields, offset = [], 0
        for name, length in lengths:
            fields.append((name, offset, file[offset : offset + length]))
            offset += length
        return fields

    def read_sheet(self, data):
        if len(data) != self.sheet_length:
            raise Refused(Why.SHEET_LENGTH)
        if data[0] != self.kind.number or data[1] != self.digest.number:
            raise Refused(Why.OTHER_KIND)
        depth, closing = data[2], from_big_endian(data[3:7])
        if depth > DEEPEST or not is_closing(closing):
            raise Refused(Why.DEPTH_OR_CLOSING)
        return Sheet(data[:7], depth, closing, self.read_node(data[7:], 7))

    def check(self, sheet, file):
        """The customer's check of a file under a sheet; answers the path."""
        depth = sheet.depth
        if len(file) != self.file_length(depth):
            raise Refused(Why.FILE_LENGTH)
        if file[:7] != sheet.head:
            raise Refused(Why.OTHER_HEAD)
        head, customer, salt, balance, *steps = self.fields(depth, file)
        leaf = from_big_endian(head[2][7:])
        if leaf >= 2**depth:
            raise Refused(Why.LEAF_OUTSIDE)
        balance = self.kind.read(balance[2], self.balance_offset)
        steps = [self.read_node(data, offset) for _, offset, data in steps]
        text = self.leaf_text(sheet.closing, customer[2], salt[2], balance)
        path = self.climb(2**depth + leaf, text, balance, steps)
        if path.nodes[1] != sheet.root:
            raise Refused(Why.OTHER_ROOT)
        return path

    def climb(self, leaf_place, leaf_text, balance, steps):
        """Joins and hashes from the leaf up to the root."""
        place, node = leaf_place, self.node(leaf_text, balance)
        texts, nodes = {place: leaf_text}, {place: node}
        for height, step in enumerate(steps):
            amount = self.kind.join(node.amount, step.amount, self.step_offset(height))
            nodes[place ^ 1] = step
            place //= 2
            texts[place] = self.inner_text(nodes[2 * place], nodes[2 * place + 1])
            node = nodes[place] = self.node(texts[place], amount)
        return Path(leaf_place, balance, texts, nodes)


# The custodian


class Ledger:
    """An open closing and the lines entered so far."""

    def __init__(self, closing, depth, zero):
        self.closing = closing
        self.depth = depth
        self.lines = 0
        self.total = zero


class Standing(NamedTuple):
    depth: int
    lines: int


class Custodian:
    def __init__(self, house, nodes, leaves):
        self.house = house
        self.nodes = nodes
        self.leaves = leaves
        self.standing = {}
        self.ledger = None

    def open(self, closing, depth):
        if depth > DEEPEST or not is_closing(closing):
            raise Refused(Why.DEPTH_OR_CLOSING)
        if closing in self.standing:
            raise Refused(Why.STANDS_ALREADY)
        if len(self.standing) >= MOST_STANDING:
            raise Refused(Why.EIGHT_STAND)
        require_suited(self.house, self.nodes, self.leaves, closing, depth)
        if self.nodes.room + self.nodes.held(closing) < 2 ** (depth + 1) - 1:
            raise Refused(Why.FULL)
        if self.leaves.room + self.leaves.held(closing) < 2**depth:
            raise Refused(Why.FULL)
        self.forget(closing)
        self.ledger = Ledger(closing, depth, self.house.kind.zero)

    def forget(self, closing):
        self.nodes.clear(closing)
        self.leaves.clear(closing)

    def enter(self, customer, salt, balance):
        ledger = self.ledger
        if len(customer) != ID_LENGTH or len(salt) != ID_LENGTH:
            raise Refused(Why.ID_LENGTH)
        if ledger.lines == 2**ledger.depth:
            raise Refused(Why.LEAVES_TAKEN)
        total = self.house.kind.join(ledger.total, balance)
        leaf = ledger.lines
        place = 2**ledger.depth + leaf
        text = self.house.leaf_text(ledger.closing, customer, salt, balance)
        self.leaves.put(ledger.closing, place, text)
        self.put_node(ledger.closing, place, self.house.node(text, balance))
        ledger.lines, ledger.total = leaf + 1, total
        return leaf

    def put_node(self, closing, place, node):
        self.nodes.put(closing, place, self.house.write_node(node))

    def get_node(self, closing, place):
        return self.house.read_node(self.nodes.records[closing, place])

    def close(self):
        ledger, self.ledger = self.ledger, None
        closing, leaves = ledger.closing, 2**ledger.depth
        for leaf in range(ledger.lines, leaves):
            self.put_node(closing, leaves + leaf, self.house.padding(closing, leaf))
        for place in range(leaves - 1, 0, -1):
            left = self.get_node(closing, 2 * place)
            right = self.get_node(closing, 2 * place + 1)
            self.put_node(closing, place, self.house.inner(left, right))
        self.standing[closing] = Standing(ledger.depth, ledger.lines)

    def abandon(self):
        self.forget(self.ledger.closing)
        self.ledger = None

    def require_standing(self, closing):
        if closing not in self.standing:
            raise Refused(Why.NOT_STANDING)
        return self.standing[closing]

    def sheet(self, closing):
        standing = self.require_standing(closing)
        return self.house.write_sheet(closing, standing.depth, self.get_node(closing, 1))

    def file(self, closing, leaf):
        standing = self.require_standing(closing)
        if leaf >= standing.lines:
            raise Refused(Why.NOT_STANDING)
        place = 2**standing.depth + leaf
        text = self.leaves.records[closing, place]
        customer, salt, balance = text[5:21], text[21:37], self.house.kind.read(text[37:])
        steps = []
        while place > 1:
            steps.append(self.get_node(closing, place ^ 1))
            place //= 2
        return self.house.write_file(closing, standing.depth, leaf, customer, salt, balance, steps)

    def withdraw(self, closing):
        self.require_standing(closing)
        self.forget(closing)
        del self.standing[closing]


def require_suited(house, nodes, leaves, closing, depth):
    if not nodes.suits(house.node_width, closing, depth):
        raise Refused(Why.STORE_UNSUITED)
    if not leaves.suits(house.leaf_width, closing, depth):
        raise Refused(Why.STORE_UNSUITED)


# The auditor


class Auditor:
    def __init__(self, house, nodes, leaves):
        self.house = house
        self.nodes = nodes
        self.leaves = leaves
        self.sheet = None
        self.start_anew()

    def start_anew(self):
        self.counted = {}
        self.tally = self.house.kind.zero
        self.shown = None

    def lay(self, data):
        sheet = self.house.read_sheet(data)
        require_suited(self.house, self.nodes, self.leaves, sheet.closing, sheet.depth)
        self.forget(sheet)
        if self.sheet is not None:
            self.forget(self.sheet)
        self.sheet = sheet
        self.start_anew()

    def forget(self, sheet):
        self.nodes.clear(sheet.closing)
        self.leaves.clear(sheet.closing)

    def present(self, file):
        """Answers the file's place and whether it was counted before."""
        if self.shown is not None:
            raise Refused(Why.SHOWN_ALREADY)
        path = self.house.check(self.sheet, file)
        self.shown = self.two_texts(path)
        if self.shown is not None:
            raise Refused(Why.TWO_TEXTS)
        if path.place in self.counted:
            return path.place, True
        self.count(path)
        return path.place, False

    def two_texts(self, offered):
        """The first place from the root down with another text in a counted file."""
        for place in sorted(offered.texts):
            for path in self.counted.values():
                if path.texts.get(place, offered.texts[place]) != offered.texts[place]:
                    return path.texts[place], offered.texts[place]
        return None

    def count(self, path):
        new = [
            child
            for place in path.inner_places()
            if not any(place in other.texts for other in self.counted.values())
            for child in (2 * place, 2 * place + 1)
        ]
        if len(new) > self.nodes.room or self.leaves.room < 1:
            raise Refused(Why.FULL)
        closing = self.sheet.closing
        for place in new:
            self.nodes.put(closing, place, self.house.write_node(path.nodes[place]))
        self.leaves.put(closing, path.place, path.texts[path.place])
        self.counted[path.place] = path
        self.tally = self.house.kind.join(self.tally, path.balance)


# Words of a line


def read_number(word, largest):
    if not re.fullmatch("[0-9]+", word):
        raise Unreadable
    digits = word.lstrip("0") or "0"
    if len(digits) > 20 or int(digits) > largest:
        raise Unreadable
    return int(digits)


def read_bytes(word):
    if word == "-":
        return b""
    count, star, byte = word.partition("*")
    if star:
        if not re.fullmatch("[0-9a-f]{2}", byte):
            raise Unreadable
        # No call takes more than the longest text, so one byte more stands for any length.
        return bytes.fromhex(byte) * min(read_number(count, U32), LONGEST_TEXT + 1)
    if not re.fullmatch("([0-9a-f]{2})+", word):
        raise Unreadable
    return bytes.fromhex(word)


def read_name(word, names):
    if word not in names:
        raise Unreadable
    return names[word]


def read_amount(word, kinds):
    amount = tuple(read_number(part, LARGEST_NUMBER) for part in word.split("+"))
    if len(amount) not in [kind.parts for kind in kinds]:
        raise Unreadable
    return amount


STORE_PARTS = {
    "flat": [U64, U32, U32, U32],
    "chained": [U64, U32, U32, U32, U32],
}


def read_store(word, longest=U64):
    shape, *parts = word.split(":")
    limits = read_name(shape, STORE_PARTS) + [longest]
    if len(parts) != len(limits):
        raise Unreadable
    numbers = [read_number(part, limit) for part, limit in zip(parts, limits)]
    count = numbers[4] if shape == "chained" else None
    return StoreForm(*numbers[:4], count, numbers[-1])


FORMS = {
    "use": "amount-kind digest-kind",
    "digest": "bytes",
    "amount": "bytes",
    "join": "amount amount",
    "measure": "measured-store",
    "store": "store",
    "put": "closing place bytes",
    "get": "closing place length",
    "held": "closing",
    "clear": "closing",
    "room": "",
    "custodian": "store store",
    "open": "closing depth",
    "enter": "bytes bytes amount",
    "close": "",
    "abandon": "",
    "sheet": "closing length",
    "issue": "closing leaf length",
    "withdraw": "closing",
    "check": "bytes bytes",
    "fields": "depth bytes",
    "auditor": "store store",
    "lay": "bytes",
    "present": "bytes",
    "tally": "",
    "texts": "length",
}

# A store that is made has a memory of at most 32 bits; measuring takes any length.
MEMORIES = {"store": U32, "measured-store": U64}

NUMBERS = {"closing": U32, "place": U32, "leaf": U32, "length": U32, "depth": U32}


def read_word(sort, word, kinds):
    if sort in NUMBERS:
        return read_number(word, NUMBERS[sort])
    if sort == "bytes":
        return read_bytes(word)
    if sort == "amount":
        return read_amount(word, kinds)
    if sort in MEMORIES:
        return read_store(word, MEMORIES[sort])
    return read_name(word, AMOUNT_KINDS if sort == "amount-kind" else DIGESTS)


def read_call(line, kinds):
    """The name of a call and the values of its words."""
    name, *words = line.split(" ")
    sorts = read_name(name, FORMS).split()
    if len(words) != len(sorts):
        raise Unreadable
    return name, [read_word(sort, word, kinds) for sort, word in zip(sorts, words)]


# Words of an answer


def show_bytes(data):
    return data.hex() or "-"


def show_amount(amount):
    return "+".join(str(part) for part in amount)


def show_buffer(length, written=b""):
    return show_bytes(written + b"\xee" * (length - len(written)))


def need(thing):
    if thing is None:
        raise NotNow
    return thing


def need_buffer(length, data):
    if length < len(data):
        raise Refused(Why.BUFFER_TOO_SHORT)
    return data


class Session:
    """Everything made by the calls of one script."""

    def __init__(self):
        self.start_anew(None)

    def start_anew(self, house):
        self.house = house
        self.store = None
        self.custodian = None
        self.auditor = None

    def answer(self, line):
        kinds = [self.house.kind] if self.house else list(AMOUNT_KINDS.values())
        try:
            name, values = read_call(line, kinds)
            return getattr(self, "call_" + name)(*values)
        except Unreadable:
            return "unreadable"
        except NotNow:
            return "not now"
        except Refused as refusal:
            return f"refused {int(refusal.number)} at {refusal.offset}"

    def call_use(self, kind, digest):
        self.start_anew(House(kind, digest))
        return "ready"

    def call_digest(self, text):
        return "digest " + show_bytes(need(self.house).digest.of(text))

    def call_amount(self, data):
        return "amount " + show_amount(need(self.house).kind.read(data))

    def call_join(self, one, other):
        return "amount " + show_amount(need(self.house).kind.join(one, other))

    def call_measure(self, form):
        if not form.fits():
            raise Refused(Why.UNFIT_MEMORY)
        return "fits"

    # One store by itself

    def call_store(self, form):
        self.store = Store(form)
        return "store"

    def call_put(self, closing, place, record):
        need(self.store).put(closing, place, record)
        return "put"

    def call_get(self, closing, place, length):
        record = need(self.store).get(closing, place, length)
        if record is None:
            return "absent " + show_buffer(length)
        return "found " + show_buffer(length, record)

    def call_held(self, closing):
        return f"held {need(self.store).held(closing)}"

    def call_clear(self, closing):
        need(self.store).clear(closing)
        return "cleared"

    def call_room(self):
        return f"room {need(self.store).room}"

    # The custodian

    def call_custodian(self, nodes, leaves):
        self.custodian = Custodian(need(self.house), Store(nodes), Store(leaves))
        return "custodian"

    def between_ledgers(self):
        if need(self.custodian).ledger is not None:
            raise NotNow
        return self.custodian

    def in_ledger(self):
        need(need(self.custodian).ledger)
        return self.custodian

    def call_open(self, closing, depth):
        self.between_ledgers().open(closing, depth)
        return "opened"

    def call_enter(self, customer, salt, balance):
        return f"leaf {self.in_ledger().enter(customer, salt, balance)}"

    def call_close(self):
        self.in_ledger().close()
        return "closed"

    def call_abandon(self):
        self.in_ledger().abandon()
        return "abandoned"

    def wrote(self, length, data):
        need_buffer(length, data)
        return f"wrote {len(data)} {show_buffer(length, data)}"

    def call_sheet(self, closing, length):
        return self.wrote(length, need(self.custodian).sheet(closing))

    def call_issue(self, closing, leaf, length):
        return self.wrote(length, self.between_ledgers().file(closing, leaf))

    def call_withdraw(self, closing):
        need(self.custodian).withdraw(closing)
        return "withdrawn"

    # The customer

    def call_check(self, sheet, file):
        house = need(self.house)
        return f"place {house.check(house.read_sheet(sheet), file).place}"

    def call_fields(self, depth, file):
        fields = need(self.house).fields(depth, file)
        shown = [f"{name}@{offset}={show_bytes(data)}" for name, offset, data in fields]
        return " ".join(["fields"] + shown)

    # The auditor

    def call_auditor(self, nodes, leaves):
        self.auditor = Auditor(need(self.house), Store(nodes), Store(leaves))
        return "auditor"

    def laid(self):
        need(need(self.auditor).sheet)
        return self.auditor

    def call_lay(self, sheet):
        need(self.auditor).lay(sheet)
        return "laid"

    def call_present(self, file):
        place, before = self.laid().present(file)
        return f"counted before {place}" if before else f"counted {place}"

    def call_tally(self):
        auditor = self.laid()
        return f"tally {show_amount(auditor.tally)} of {len(auditor.counted)}"

    def call_texts(self, length):
        shown = self.laid().shown
        if shown is None:
            return "no texts " + show_buffer(length)
        stored, offered = shown
        both = need_buffer(length, stored + offered)
        return f"texts {len(stored)} {len(offered)} {show_buffer(length, both)}"


def is_call(line):
    return line.strip(" ") != "" and not line.startswith("#")


def main():
    session = Session()
    for raw in sys.stdin.buffer:
        line = raw.removesuffix(b"\n").decode("latin-1")
        if is_call(line):
            print(session.answer(line))


if __name__ == "__main__":
    main()
