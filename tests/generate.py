#!/usr/bin/env python3
"""Writes a random script: generate.py KIND SEED COUNT.

KIND is one of basics, stores, check, custodian, audit or all. The same kind,
seed and count always give the same script, with COUNT calls in it.
"""

import random
import sys
from typing import NamedTuple

import model
from model import big_endian, show_amount, show_bytes

LARGEST = model.LARGEST_NUMBER


class Enough(Exception):
    """The script has all its calls."""


class Script:
    """A growing script, answered by the model on the way."""

    def __init__(self, seed, count):
        self.rng = random.Random(seed)
        self.count = count
        self.session = model.Session()
        self.lines = []
        self.calls = 0

    @property
    def house(self):
        return self.session.house

    def call(self, *words):
        if self.calls >= self.count:
            raise Enough
        line = " ".join(str(word) for word in words)
        self.calls += 1
        self.lines.append(line)
        return self.session.answer(line)

    def remark(self):
        self.lines.append(self.rng.choice(["", "#", "# a remark", "#use single rehearsal"]))

    def chance(self, one_in):
        return self.rng.randrange(one_in) == 0

    def pick(self, *choices):
        return self.rng.choice(choices)

    def weighted(self, table):
        """A key of the table, drawn by its weight."""
        return self.rng.choices(list(table), weights=list(table.values()))[0]

    def use(self, *digests):
        """Mostly starts anew; else goes on with everything made so far."""
        if self.house is None or not self.chance(4):
            kind = self.pick("single", "single", "purse")
            self.call("use", kind, self.pick(*digests or ("rehearsal", "sha256")))


# Small random things


def near(rng, *values):
    """One of the values or a neighbour, never below zero."""
    return max(0, rng.choice(values) + rng.choice([-1, 0, 0, 0, 1]))


def random_number(rng):
    sort = rng.randrange(8)
    if sort == 0:
        return 0
    if sort == 1:
        return LARGEST - rng.randrange(3)
    if sort == 2:
        return rng.randrange(LARGEST + 1)
    if sort == 3:
        return LARGEST // 2 + rng.randrange(3)
    return rng.randrange(1, 1000)


def small_number(rng):
    return rng.randrange(1000)


def random_amount(rng, house, number=random_number):
    return tuple(number(rng) for _ in range(house.kind.parts))


def random_id(rng):
    if rng.randrange(3):
        return bytes(15) + bytes([rng.randrange(4)])
    return rng.randbytes(model.ID_LENGTH)


def two_ids(rng):
    """A customer number and a salt, mostly of their right length."""
    if rng.randrange(6):
        return random_id(rng), random_id(rng)
    lengths = rng.choice([(0, 16), (16, 0), (15, 17), (17, 15), (32, 0), (0, 32), (16, 33), (8, 8)])
    return tuple(rng.randbytes(length) for length in lengths)


def split_amount(rng, amount):
    """Two amounts that join to this one."""
    left = tuple(rng.choice([0, part, rng.randrange(part + 1)]) for part in amount)
    return left, tuple(part - taken for part, taken in zip(amount, left))


def store_word(shape, width, first, last, bound, count, length):
    parts = [shape, width, first, last, bound]
    parts += [count, length] if shape == "chained" else [length]
    return ":".join(str(part) for part in parts)


def store_form(shape, width, first, last, bound, count=1, spare=0):
    """The word of a store whose memory is as long as needed, and some more."""
    form = model.read_store(store_word(shape, width, first, last, bound, count, 0))
    length = max(0, form.memory_needed() + spare)
    return store_word(shape, width, first, last, bound, count, length)


# Basics


TEXT_LENGTHS = [0, 1, 3, 31, 32, 54, 55, 56, 57, 63, 64, 65, 111, 112, 119, 120, 127, 128, 200]


def basic_digest(script):
    rng = script.rng
    if script.chance(4):
        length = near(rng, model.LONGEST_TEXT, 1000, 64, 0)
        return script.call("digest", f"{length}*{rng.randrange(256):02x}")
    script.call("digest", show_bytes(rng.randbytes(rng.choice(TEXT_LENGTHS))))


def basic_amount(script):
    rng, house = script.rng, script.house
    data = bytearray(house.kind.write(random_amount(rng, house)))
    if script.chance(3):
        data[8 * rng.randrange(house.kind.parts)] |= 0x80
    if script.chance(4):
        data = data[: rng.randrange(len(data))]
    elif script.chance(6):
        data += rng.randbytes(rng.choice([1, 8, 24]))
    script.call("amount", show_bytes(bytes(data)))


def basic_join(script):
    rng, house = script.rng, script.house
    one = random_amount(rng, house)
    other = random_amount(rng, house)
    if script.chance(2):
        other = tuple(near(rng, LARGEST - part) for part in one)
        other = tuple(min(part, LARGEST) for part in other)
    script.call("join", show_amount(one), show_amount(other))


ODD_LINES = [
    "used single rehearsal",
    "USE single rehearsal",
    "use Single rehearsal",
    "use single sha-256",
    "use triple rehearsal",
    "use rehearsal single",
    "use single",
    "use single rehearsal 1",
    "use  single rehearsal",
    " use single rehearsal",
    "use single rehearsal ",
    "use\tsingle\trehearsal",
    "use single rehearsal\t",
    " # no remark",
    "-",
    "0",
    "digest",
    "digest ",
    "digest - -",
    "digest --",
    "digest -00",
    "digest 0",
    "digest 000",
    "digest 0X00",
    "digest 0x00",
    "digest AB",
    "digest aB",
    "digest 0g",
    "digest *00",
    "digest 2*",
    "digest 2*0",
    "digest 2*000",
    "digest 2*0G",
    "digest 2*AA",
    "digest -2*00",
    "digest +2*00",
    "digest 2**00",
    "digest 2*00*00",
    "digest 4294967296*00",
    "digest 18446744073709551617*00",
    "digest a*00",
    "digest 00 00",
    "amount",
    "amount 1",
    "amount g0",
    "amount 0000000000000005 ",
    "join 5",
    "join 5 5 5",
    "join - 5",
    "join 5 -5",
    "join 5 +5",
    "join 5 5+",
    "join 5 +",
    "join 5++5 5",
    "join 0x5 5",
    "join 5.0 5",
    "join 5 9223372036854775808",
    "join 9223372036854775808 5",
    "join 1+2+3 1+2+3",
    "join 1+2+3+4+5 1+2+3+4+5",
    "join 1+2+3+9223372036854775808 0+0+0+0",
    "join 1+2+3+ 0+0+0+0",
    "join 18446744073709551616 0",
    "join 18446744073709551621 0",
    "measure",
    "measure flat",
    "measure flat:1:1:1:2",
    "measure flat:1:1:1:2:4:4",
    "measure flat:1:1:1::4",
    "measure flat:1:1:1:2:-4",
    "measure Flat:1:1:1:2:4",
    "measure flat :1:1:1:2:4",
    "measure chained:1:1:1:2:4",
    "measure chained:1:1:1:2:1:81:1",
    "measure linked:1:1:1:2:1:81",
    "measure flat:18446744073709551616:1:1:2:4",
    "measure flat:1:4294967296:1:2:4",
    "measure flat:1:1:4294967297:2:4",
    "measure flat:1:1:1:4294967298:4",
    "measure flat:1:1:1:2:4294967296",
    "measure chained:1:1:1:2:4294967297:81",
    "measure chained:1:1:1:2:1:4294967377",
    "store",
    "store flat:1:1:1:2:4 flat:1:1:1:2:4",
    "store 1:1:1:2:4",
    "put 1 1",
    "put 1 1 0",
    "put 1 1 00 00",
    "put 4294967297 1 00",
    "put 1 4294967297 00",
    "put -1 1 00",
    "get 1 1",
    "get 1 1 -",
    "get 1 1 1 1",
    "get 1 1 4294967297",
    "get 4294967297 1 1",
    "held",
    "held x",
    "held 1 1",
    "held 4294967297",
    "clear",
    "clear -",
    "clear 4294967297",
    "room 1",
    "custodian flat:40:1:1:2:82",
    "custodian flat:40:1:1:2:82 flat",
    "custodian",
    "open 1",
    "open 1 256",
    "open 1 -1",
    "open 4294967297 0",
    "open 1 1 1",
    "enter 00 00",
    "enter - - -",
    "enter 0 00 5",
    "enter 00 0 5",
    "enter 00 00 x",
    "close 1",
    "abandon 1",
    "closed",
    "sheet 1",
    "sheet 1 4294967343",
    "sheet 4294967297 47",
    "sheet 1 47 47",
    "issue 1 0",
    "issue 1 -1 91",
    "issue 1 4294967296 91",
    "issue 4294967297 0 91",
    "withdraw",
    "withdraw 1 1",
    "withdraw 4294967297",
    "check -",
    "check 0 -",
    "check - 0",
    "check - - -",
    "fields -",
    "fields 256 -",
    "fields 0 0",
    "fields - 0",
    "auditor flat:40:1:1:2:82",
    "auditor flat:40:1:1:2:82 chain:40:1:1:2:82",
    "lay",
    "lay 1",
    "lay - -",
    "present",
    "present 1",
    "present - -",
    "tally 1",
    "texts",
    "texts -",
    "texts 90 90",
    "texts 4294967386",
    "refused 1 at 0",
    "not now",
    "unreadable",
    "use single rehears\u00e4l",
    "digest \u0660\u0660",
    "held \u0661",
    "\u00ff\u00fe",
    "held \udcff",
    "\udcc3(",
]


def odd_line(script):
    for _ in range(script.rng.randrange(1, 6)):
        script.call(script.pick(*ODD_LINES))


def padded_numbers(script):
    """Leading zeros are allowed in every number."""
    zeros = "0" * script.rng.choice([1, 5, 20, 400])
    one_part = script.house.kind.parts == 1
    amount = zeros + "7" if one_part else f"{zeros}7+{zeros}+0+{zeros}1"
    script.call(
        script.pick(
            f"digest {zeros}3*ff",
            f"join {amount} {amount}",
            f"held {zeros}1",
            f"fields {zeros}1 -",
            f"measure flat:{zeros}1:{zeros}1:{zeros}1:{zeros}2:{zeros}4",
        )
    )


WORDS = {
    "digest": "00ff",
    "amount": "0000000000000005",
    "join": "5 7",
    "measure": "chained:40:1:9:8:4:300",
    "store": "flat:2:1:2:4:24",
    "put": "1 1 0102",
    "get": "1 1 2",
    "held": "1",
    "clear": "1",
    "room": "",
    "custodian": "flat:40:1:2:4:328 flat:45:1:2:4:368",
    "open": "1 1",
    "enter": "16*00 16*00 5",
    "close": "",
    "abandon": "",
    "sheet": "1 50",
    "issue": "1 0 100",
    "withdraw": "1",
    "check": "47*00 51*00",
    "fields": "0 51*00",
    "auditor": "flat:40:1:2:4:328 flat:45:1:2:4:368",
    "lay": "47*00",
    "present": "51*00",
    "tally": "",
    "texts": "3",
}


def ready_call(script, name):
    words = WORDS[name]
    if script.house and script.house.kind.parts == 4 and name in ("join", "enter"):
        words = words.replace("5", "5+0+0+1").replace("7", "7+1+0+0")
    script.call(*[name] + words.split())


def ready_line(script):
    """Any call in a plain form, whether or not its time has come."""
    ready_call(script, script.pick(*WORDS))


def spoiled_line(script):
    """A plain call with one word gone, doubled or spoiled."""
    name = script.pick(*WORDS)
    words = [name] + WORDS[name].split()
    at = script.rng.randrange(len(words))
    sort = script.rng.randrange(4)
    if sort == 0 and len(words) > 1:
        del words[at]
    elif sort == 1:
        words.insert(at, words[at])
    elif sort == 2:
        words[at] += script.pick("x", "*", ":", "+", "-", "\u00b2", "\x7f")
    else:
        words[at] = words[at].upper() if at == 0 else ""
    script.call(*words)


def before_use(script):
    """Calls before a kind of amount is chosen."""
    for name in script.rng.sample(list(WORDS), len(WORDS)):
        ready_call(script, name)
        if script.chance(3):
            script.pick(odd_line, spoiled_line)(script)


def basics(script):
    script.use()
    table = {
        basic_digest: 6,
        basic_amount: 6,
        basic_join: 6,
        odd_line: 5,
        spoiled_line: 3,
        ready_line: 3,
        padded_numbers: 2,
    }
    for _ in range(script.rng.randrange(20, 80)):
        script.weighted(table)(script)
        if script.chance(20):
            script.remark()


# Stores


def plain_store(rng):
    shape = rng.choice(["flat", "chained"])
    width = rng.choice([1, 2, 3, 8, 40, 128])
    first = rng.choice([1, 1, 2, 15, 9990])
    last = first + rng.choice([0, 1, 2, 9])
    bound = rng.choice([2, 3, 4, 8, 40])
    count = rng.choice([1, 2, 3, 5, 9, 20, 60])
    return [shape, width, first, min(last, 9999), bound, count]


# The limits of each part of a store, the nearest values beyond them and far ones.
LIMITS = {
    "width": [1, 128, 0, 129, 2**32, 2**64 - 1],
    "first": [1, 0, 10_000, 2**32 - 1],
    "last": [9999, 0, 10_000, 2**32 - 1],
    "bound": [2, 2**21, 0, 1, 2**21 + 1, 2**32 - 1],
    "count": [1, 4_194_304, 0, 4_194_305, 2**32 - 1],
}

PART_NAMES = ["shape", "width", "first", "last", "bound", "count"]
MUCH_MEMORY = 5_000_000
MOST_MEMORY = 60_000_000


def limit_store(rng):
    """A store with one part at its limit or beyond, and else small."""
    name = rng.choice(list(LIMITS))
    parts = dict(zip(PART_NAMES, [rng.choice(["flat", "chained"]), 1, 1, 2, 4, 3]))
    parts[name] = rng.choice(LIMITS[name])
    if name == "count":
        parts["shape"] = "chained"
    elif name == "first":
        parts["last"] = max(1, parts["first"] - rng.randrange(2))
    elif name == "last":
        parts["first"] = max(1, parts["last"] - rng.randrange(3))
    values = list(parts.values())
    need = model.read_store(store_word(*values, 0)).memory_needed()
    affordable = MOST_MEMORY if rng.randrange(4) == 0 else MUCH_MEMORY
    if need <= affordable:
        return store_form(*values, spare=rng.choice([0, 0, 0, -1, 100]))
    return store_word(*values, rng.choice([0, 100, 20_000]))


def wrapping_store(rng):
    """A store within the limits whose need is far beyond its memory."""
    parts = rng.choice(
        [
            ["flat", 127, 1, 16, 2**21, 1],
            ["flat", 127, 1, 9999, 2**21, 1],
            ["flat", 63, 1, 32, 2**21, 1],
            ["flat", 128, 1, 9999, 2**21, 1],
            ["flat", 1, 1, 1024, 2**21, 1],
            ["chained", 128, 1, 9999, 2**21, 4_194_304],
            ["chained", 116, 1, 9999, 2**21, 4_194_304],
        ]
    )
    need = model.read_store(store_word(*parts, 0)).memory_needed()
    length = need % 2**32
    return store_word(*parts, length if length < 100_000 else rng.randrange(1000))


def any_store(rng):
    sort = rng.randrange(20)
    if sort < 10:
        return store_form(*plain_store(rng), spare=rng.choice([0, 0, 1, 7, 100]))
    if sort < 12:
        return store_form(*plain_store(rng), spare=rng.choice([-1, -1, -2, -50]))
    if sort < 13:
        return store_word(*plain_store(rng), rng.choice([0, 1, 67, 68, 69, 2000]))
    if sort < 18:
        return limit_store(rng)
    return wrapping_store(rng)


def working_store(rng):
    """Mostly a store that fits."""
    if rng.randrange(4) == 0:
        return any_store(rng)
    return store_form(*plain_store(rng), spare=rng.choice([0, 0, 1, 100]))


def store_key(script):
    """A closing and a place, mostly inside."""
    rng, store = script.rng, script.session.store
    closing = rng.randint(store.first, max(store.first, store.last))
    place = rng.randint(1, max(1, store.bound - 1))
    if script.chance(10):
        closing = rng.choice([0, store.first - 1, store.last + 1, 65_537, 2**32 - 1])
    if script.chance(10):
        place = rng.choice([0, store.bound, store.bound + 1, 65_537, 2**31, 2**32 - 1])
    return max(0, closing), place


def store_width(script):
    width = script.session.store.width
    if script.chance(12):
        return script.rng.choice([0, width - 1, width + 1, 2 * width, 300])
    return width


def store_put(script):
    record = script.rng.randbytes(store_width(script))
    script.call("put", *store_key(script), show_bytes(record))


def store_get(script):
    script.call("get", *store_key(script), store_width(script))


def store_held(script):
    script.call("held", store_key(script)[0])


def store_clear(script):
    script.call("clear", store_key(script)[0])


def store_room(script):
    script.call("room")


def store_fill(script):
    """Puts on key after key until the store is full or its keys are used up."""
    rng, store = script.rng, script.session.store
    closings = range(store.first, store.last + 1)
    places = range(1, min(store.bound, 61))
    keys = [(closing, place) for closing in closings for place in places]
    rng.shuffle(keys)
    for closing, place in keys[:90]:
        answer = script.call("put", closing, place, show_bytes(rng.randbytes(store.width)))
        if answer.startswith("refused"):
            break
    script.call("room")


def store_sweep(script):
    """Looks at every key of one closing, often right after clearing another."""
    store = script.session.store
    if script.chance(2):
        store_clear(script)
    closing = script.rng.randint(store.first, max(store.first, store.last))
    for place in range(1, min(store.bound, 41)):
        script.call("get", closing, place, store.width)
    script.call("held", closing)


def stores(script):
    rng = script.rng
    if script.chance(4):
        script.use()
    for _ in range(rng.randrange(16)):
        script.call("measure", any_store(rng))
    word = working_store(rng)
    if script.chance(3):
        script.call("measure", word)
    script.call("store", word)
    table = {
        store_put: 30,
        store_get: 20,
        store_held: 6,
        store_room: 6,
        store_clear: 3,
        store_fill: 1,
        store_sweep: 1,
    }
    usable = script.session.store.capacity > 0
    for _ in range(rng.randrange(20, 120) if usable else 10):
        script.weighted(table)(script)


# Trees made freely: every file of one passes under its sheet


class Line(NamedTuple):
    customer: bytes
    salt: bytes
    balance: tuple


def path_of(place):
    """The places from here up to the root."""
    places = []
    while place >= 1:
        places.append(place)
        place //= 2
    return places


class Tree:
    """Lines at some leaf places, and nodes of free choice beside their paths."""

    def __init__(self, house, closing, depth):
        self.house = house
        self.closing = closing
        self.depth = depth
        self.lines = {}
        self.beside = {}

    def is_leaf(self, place):
        return place >= 2**self.depth

    def leaves_below(self, place, leaves):
        return [leaf for leaf in leaves if place in path_of(leaf)]

    def grow(self, rng, place, amount, leaves):
        """Makes everything below a place, with lines at these leaf places."""
        if not self.leaves_below(place, leaves):
            self.beside[place] = model.Node(rng.randbytes(model.DIGEST_LENGTH), amount)
        elif self.is_leaf(place):
            self.lines[place] = Line(random_id(rng), random_id(rng), amount)
        else:
            left, right = split_amount(rng, amount)
            self.grow(rng, 2 * place, left, leaves)
            self.grow(rng, 2 * place + 1, right, leaves)

    def node(self, place):
        if place in self.beside:
            return self.beside[place]
        if self.is_leaf(place):
            line = self.lines[place]
            return self.house.node(self.house.leaf_text(self.closing, *line), line.balance)
        return self.house.inner(self.node(2 * place), self.node(2 * place + 1))

    def sheet(self):
        return self.house.write_sheet(self.closing, self.depth, self.node(1))

    def file(self, place):
        steps = [self.node(above ^ 1) for above in path_of(place)[:-1]]
        leaf = place - 2**self.depth
        return self.house.write_file(self.closing, self.depth, leaf, *self.lines[place], steps)

    def files(self):
        return [self.file(place) for place in self.lines]

    def forged(self, rng, place):
        """Another tree with the same node at this place; the rehearsal digest only."""
        other = Tree(self.house, self.closing, self.depth)
        other.lines = {at: line for at, line in self.lines.items() if place not in path_of(at)}
        other.beside = {at: node for at, node in self.beside.items() if place not in path_of(at)}
        target = self.node(place)
        leaves = random_leaves(rng, self.depth, place, self.lines)
        other.grow(rng, place, target.amount, leaves)
        other.mend(rng.choice(leaves), place, target.digest)
        return other

    def mend(self, leaf, place, digest):
        """Changes the last salt byte of a line until the place has this digest."""
        line = self.lines[leaf]
        lacking = digest[-1] - self.node(place).digest[-1]
        salt = line.salt[:-1] + bytes([(line.salt[-1] + lacking) % 256])
        self.lines[leaf] = line._replace(salt=salt)
        assert self.node(place).digest == digest


def random_leaf(rng, depth, place):
    while place < 2**depth:
        place = 2 * place + rng.randrange(2)
    return place


def random_leaves(rng, depth, place, known=()):
    """Some leaf places below a place, often known ones."""
    known = [leaf for leaf in known if place in path_of(leaf)]
    leaves = {random_leaf(rng, depth, place) for _ in range(rng.randrange(3))}
    leaves.update(leaf for leaf in known if rng.randrange(2))
    return sorted(leaves) or [rng.choice(known) if known else random_leaf(rng, depth, place)]


def random_depth(rng):
    return rng.choice([0, 1, 1, 2, 2, 3, 3, 4, 5, 8, 20])


def random_closing(rng):
    return rng.choice([1, 2, 7, 7, 7, 255, 256, 9999])


def random_tree(rng, house, closing, depth, lines):
    """A tree with up to so many lines."""
    tree = Tree(house, closing, depth)
    leaves = sorted({random_leaf(rng, depth, 1) for _ in range(lines)})
    tree.grow(rng, 1, random_amount(rng, house), leaves)
    return tree


def records_needed(depth, files):
    """The new records of both stores when all these files are counted."""
    places = {2**depth + int.from_bytes(file[7:11], "big") for file in files}
    inner = {above for place in places for above in path_of(place)[1:]}
    return 2 * len(inner), len(places)


# Damage


class Damage:
    """One random damage to the bytes of a sheet or a file."""

    def __init__(self, rng, house, depth):
        self.rng = rng
        self.house = house
        self.depth = depth

    def byte(self, data, at):
        data[at] ^= self.rng.choice([1, 2, 0x10, 0x80, self.rng.randrange(1, 256)])

    def any_byte(self, data):
        if data:
            self.byte(data, self.rng.randrange(len(data)))

    def two_bytes(self, data):
        """Keeps the sum of all bytes."""
        if len(data) < 2:
            return
        one, other = self.rng.sample(range(len(data)), 2)
        data[one] = (data[one] + 1) % 256
        data[other] = (data[other] - 1) % 256

    def head(self, data):
        at = self.rng.randrange(7)
        data[at] = self.rng.choice([0, 1, 2, 3, 9, 20, 21, 64, 128, 255])

    def shorter(self, data):
        del data[self.rng.choice([0, 7, len(data) - 1, self.rng.randrange(len(data))]) :]

    def longer(self, data):
        data += self.rng.randbytes(self.rng.choice([1, 8, self.house.node_width]))

    def closing(self, data):
        data[3:7] = big_endian(self.rng.choice([0, 1, 8, 9999, 10_000, 65_543, 2**32 - 1]), 4)

    def noise(self, data):
        data[:] = self.rng.randbytes(len(data))

    def once(self, data, sorts):
        data = bytearray(data)
        self.rng.choice(sorts)(data)
        return bytes(data)


class SheetDamage(Damage):
    def amount_kind(self, data):
        data[0] = self.rng.choice([0, 1, 2, 9, 255])

    def digest_kind(self, data):
        data[1] = self.rng.choice([0, 1, 2, 9, 255])

    def depth_byte(self, data):
        data[2] = self.rng.choice([0, max(0, self.depth - 1), self.depth + 1, 20, 21, 255])

    def root(self, data):
        self.byte(data, self.rng.randrange(7, 39))

    def total(self, data):
        self.byte(data, self.rng.randrange(39, len(data)))

    def no_total(self, data):
        data[39 + 8 * self.rng.randrange(self.house.kind.parts)] |= 0x80

    def damaged(self, sheet):
        sorts = [self.amount_kind, self.digest_kind, self.depth_byte, self.closing, self.root]
        sorts += [self.total, self.no_total, self.no_total, self.any_byte, self.two_bytes]
        sorts += [self.shorter, self.longer, self.noise]
        return self.once(sheet, sorts)


class FileDamage(Damage):
    def leaf(self, data):
        leaf = int.from_bytes(data[7:11], "big")
        changed = [leaf ^ 1, leaf + 1, leaf + 2**self.depth, leaf | 2**31, 2**32 - 1]
        changed += [2**self.depth - 1, leaf ^ (1 << self.rng.randrange(self.depth + 1))]
        data[7:11] = big_endian(self.rng.choice(changed) % 2**32, 4)

    def customer(self, data):
        self.byte(data, self.rng.randrange(11, 27))

    def salt(self, data):
        self.byte(data, self.rng.randrange(27, 43))

    def ids_swapped(self, data):
        data[11:27], data[27:43] = data[27:43], data[11:27]

    def balance(self, data):
        self.byte(data, self.rng.randrange(43, self.house.steps_offset))

    def step_at(self, height):
        start = self.house.step_offset(height)
        return slice(start, start + self.house.node_width)

    def a_step(self, data):
        if self.depth:
            self.byte(data, self.rng.randrange(self.house.steps_offset, len(data)))

    def steps_swapped(self, data):
        if self.depth > 1:
            one, other = (self.step_at(at) for at in self.rng.sample(range(self.depth), 2))
            data[one], data[other] = data[other], data[one]

    def step_repeated(self, data):
        if self.depth > 1:
            one, other = (self.step_at(at) for at in self.rng.sample(range(self.depth), 2))
            data[one] = data[other]

    def amount_offsets(self):
        steps = [self.house.step_offset(at) + model.DIGEST_LENGTH for at in range(self.depth)]
        return [self.house.balance_offset] + steps

    def some_amounts(self, value):
        def change(data):
            offsets = self.amount_offsets()
            for offset in self.rng.sample(offsets, min(len(offsets), self.rng.randrange(1, 4))):
                at = offset + 8 * self.rng.randrange(self.house.kind.parts)
                data[at : at + 8] = big_endian(value, 8)

        return change

    def no_amounts(self, data):
        self.some_amounts(self.rng.choice([2**63, 2**64 - 1]))(data)

    def great_amounts(self, data):
        self.some_amounts(self.rng.choice([LARGEST, LARGEST // 2 + 1]))(data)

    def great_and_no_amounts(self, data):
        self.great_amounts(data)
        self.no_amounts(data)

    def inside(self):
        """The damages that keep the length."""
        sorts = [self.any_byte, self.two_bytes, self.two_bytes, self.head, self.closing]
        sorts += [self.noise, self.leaf, self.leaf, self.customer, self.salt, self.ids_swapped]
        sorts += [self.balance, self.a_step, self.steps_swapped, self.step_repeated]
        sorts += [self.no_amounts, self.no_amounts, self.great_amounts, self.great_amounts]
        return sorts + [self.great_and_no_amounts]

    def damaged(self, file):
        return self.once(file, self.inside() + [self.shorter, self.longer])

    def damaged_twice(self, file):
        return self.damaged(self.once(file, self.inside()))


def damage_sheet(rng, house, depth, sheet):
    return SheetDamage(rng, house, depth).damaged(sheet)


def damage_file(rng, house, depth, file):
    return FileDamage(rng, house, depth).damaged(file)


def same_head(sheet, file):
    """The file with the first seven bytes of the sheet."""
    return sheet[:7] + file[7:]


# Checks


def call_check(script, sheet, file):
    script.call("check", show_bytes(sheet), show_bytes(file))


def check_fields(script, depth, file):
    asked = depth
    if script.chance(3):
        asked = script.pick(0, max(0, depth - 1), depth + 1, 20, 21, 255)
    if script.chance(6):
        file = script.rng.randbytes(script.house.file_length(asked))
    script.call("fields", asked, show_bytes(file))


def check_once(script, tree):
    rng, house, depth = script.rng, script.house, tree.depth
    sheet, file = tree.sheet(), rng.choice(tree.files())
    sort = rng.randrange(20)
    if sort < 9:
        file = damage_file(rng, house, depth, file)
    elif sort < 13:
        sheet = damage_sheet(rng, house, depth, sheet)
    elif sort < 15:
        sheet = damage_sheet(rng, house, depth, sheet)
        file = same_head(sheet, file) if len(sheet) >= 7 else file
    elif sort < 16:
        sheet = damage_sheet(rng, house, depth, sheet)
        file = damage_file(rng, house, depth, file)
    elif sort < 17:
        file = FileDamage(rng, house, depth).damaged_twice(file)
    call_check(script, sheet, file)
    if script.chance(6):
        check_fields(script, depth, file)


def every_byte(script, tree):
    """Changes each byte of a file, or of its sheet, one after another."""
    rng = script.rng
    sheet, file = tree.sheet(), rng.choice(tree.files())
    for at in range(len(sheet)):
        changed = bytearray(sheet)
        changed[at] ^= 1 << rng.randrange(8)
        call_check(script, bytes(changed), file)
    for at in range(len(file)):
        changed = bytearray(file)
        changed[at] ^= 1 << rng.randrange(8)
        call_check(script, sheet, bytes(changed))


def check(script):
    rng = script.rng
    script.use()
    for _ in range(rng.randrange(1, 8)):
        lines = rng.randrange(1, 6)
        tree = random_tree(rng, script.house, random_closing(rng), random_depth(rng), lines)
        for file in tree.files():
            call_check(script, tree.sheet(), file)
        check_fields(script, tree.depth, rng.choice(tree.files()))
        for _ in range(rng.randrange(10, 40)):
            check_once(script, tree)
        if tree.depth <= 2 and script.chance(12):
            every_byte(script, tree)


# The custodian


def roomy_stores(rng, house, deepest):
    """Stores for closings 1 to 12, with a place for everything."""
    bound = 2 ** (deepest + 1)
    forms = []
    for width in (house.node_width, house.leaf_width):
        shape = rng.choice(["flat", "chained"])
        forms.append(store_form(shape, width, 1, 12, bound, 12 * bound))
    return forms


def tight_stores(rng, house, deepest):
    """Chained stores with few records."""
    bound = 2 ** (deepest + 1)
    nodes = rng.choice([bound - 1, bound, bound + 1, 2 * bound - 2, rng.randrange(1, 4 * bound)])
    leaves = rng.choice([bound // 2, bound // 2 + 1, bound, rng.randrange(1, 2 * bound)])
    return [
        store_form("chained", house.node_width, 1, 12, bound, max(1, near(rng, nodes))),
        store_form("chained", house.leaf_width, 1, 12, bound, max(1, near(rng, leaves))),
    ]


def odd_stores(rng, house, deepest):
    """Stores of which one may be narrow, short of memory, or of another width or bound."""
    forms = []
    for width in (house.node_width, house.leaf_width):
        first, last, bound = 1, 12, 2 ** (deepest + 1)
        spare = 0
        sort = rng.randrange(8)
        if sort == 0:
            width += rng.choice([-1, 1, 5])
        elif sort == 1:
            first, last = rng.choice([(2, 12), (1, 3), (5, 9)])
        elif sort == 2:
            bound = max(2, bound - 1)
        elif sort == 3:
            spare = -1
        shape = rng.choice(["flat", "chained"])
        forms.append(store_form(shape, width, first, last, bound, 12 * bound, spare))
    return forms


def any_stores(rng, house, deepest):
    maker = rng.choice([roomy_stores, roomy_stores, tight_stores, tight_stores, odd_stores])
    return maker(rng, house, deepest)


def deepest_stores(script):
    """Stores that are just large enough for one closing of the greatest depth."""
    bound = 2 ** (model.DEEPEST + 1)
    widths = (script.house.node_width, script.house.leaf_width)
    return [
        store_form("flat", widths[0], 7, 7, bound),
        store_form("chained", widths[1], 1, 9, bound, bound // 2),
    ]


def buffer_length(rng, length):
    return rng.choice([length, length, length, length + 1, length + 20, length - 1, length // 2, 0])


class Desk:
    """Random calls to one custodian."""

    def __init__(self, script, deepest):
        self.script = script
        self.rng = script.rng
        self.deepest = deepest
        self.papers = []

    @property
    def custodian(self):
        return self.script.session.custodian

    def any_closing(self):
        rng, standing = self.rng, sorted(self.custodian.standing)
        if standing and rng.randrange(4):
            return rng.choice(standing)
        if rng.randrange(15) == 0:
            return rng.choice([0, 13, 9999, 10_000, 65_543, 2**32 - 1])
        return rng.randrange(1, 13)

    def open(self):
        closing, depth = self.any_closing(), self.rng.randrange(self.deepest + 1)
        fresh = [number for number in range(1, 13) if number not in self.custodian.standing]
        if self.rng.randrange(3):
            closing = self.rng.choice(fresh)
        if self.rng.randrange(12) == 0:
            depth = self.rng.choice([self.deepest + 1, 20, 21, 255])
        self.script.call("open", closing, depth)

    def enter(self):
        rng, house = self.rng, self.script.house
        number = small_number if rng.randrange(3) else random_number
        balance = random_amount(rng, house, number)
        ledger = self.custodian.ledger
        if ledger and rng.randrange(6) == 0:
            balance = tuple(min(LARGEST, near(rng, LARGEST - part)) for part in ledger.total)
        words = [show_bytes(each) for each in two_ids(rng)]
        self.script.call("enter", *words, show_amount(balance))

    def close(self):
        self.script.call("close")

    def abandon(self):
        self.script.call("abandon")

    def sheet(self):
        length = buffer_length(self.rng, self.script.house.sheet_length)
        self.script.call("sheet", self.any_closing(), length)

    def issue(self):
        closing, leaf, depth = self.any_closing(), self.rng.randrange(4), 1
        if closing in self.custodian.standing:
            depth, lines = self.custodian.standing[closing]
            leaf = self.rng.randrange(lines + 1)
        if self.rng.randrange(10) == 0:
            leaf = self.rng.choice([2**depth, 2**depth - 1, 2**31, 2**32 - 1])
        length = buffer_length(self.rng, self.script.house.file_length(depth))
        self.script.call("issue", closing, leaf, length)

    def withdraw(self):
        self.script.call("withdraw", self.any_closing())

    def one_paper(self, *words):
        """Calls for a sheet or a file and gives its bytes, if it was written."""
        name, _, rest = self.script.call(*words).partition(" ")
        if name != "wrote":
            return None
        length, data = rest.split(" ")
        return bytes.fromhex(data)[: int(length)]

    def take_papers(self):
        """Has a sheet and all files of one standing written, and checks them."""
        standing = self.custodian.standing
        if not standing:
            return
        closing = self.rng.choice(sorted(standing))
        depth, lines = standing[closing]
        house = self.script.house
        sheet = self.one_paper("sheet", closing, house.sheet_length)
        words = [("issue", closing, leaf, house.file_length(depth)) for leaf in range(lines)]
        files = [self.one_paper(*each) for each in words]
        files = [file for file in files if file]
        for file in files:
            call_check(self.script, sheet, file)
        self.papers.append((sheet, files))

    def mix_papers(self):
        """Checks a file under a sheet that may be of another standing."""
        files = [file for _, files in self.papers for file in files]
        if files:
            call_check(self.script, self.rng.choice(self.papers)[0], self.rng.choice(files))

    def crowd(self):
        """Opens and closes one closing after another."""
        for closing in self.rng.sample(range(1, 13), 10):
            self.script.call("open", closing, self.rng.randrange(2))
            for _ in range(self.rng.randrange(3)):
                self.enter()
            self.close()

    def again(self):
        """Withdraws a closing and opens its number anew."""
        closing = self.any_closing()
        self.script.call("withdraw", closing)
        self.script.call("open", closing, self.rng.randrange(self.deepest + 1))
        self.script.call("sheet", closing, self.script.house.sheet_length)

    def fill(self):
        """Enters lines until no leaf is left."""
        ledger = self.custodian.ledger
        while ledger and ledger.lines <= 2**ledger.depth:
            if self.rng.randrange(6) == 0 or ledger.lines == 2**ledger.depth:
                self.enter()
                break
            self.enter()

    def replace(self):
        """A new custodian, whatever the old one was doing."""
        stores = any_stores(self.rng, self.script.house, self.deepest)
        self.script.call("custodian", *stores)

    def step(self):
        if self.rng.randrange(100) == 0:
            self.replace()
        if self.custodian.ledger:
            table = {self.enter: 20, self.fill: 3, self.close: 6, self.abandon: 2}
            table.update({self.sheet: 3, self.withdraw: 2, self.open: 1, self.issue: 1})
        else:
            table = {self.open: 20, self.sheet: 5, self.issue: 10, self.withdraw: 4}
            table.update({self.take_papers: 2, self.mix_papers: 3, self.again: 2})
            table.update({self.enter: 1, self.close: 1, self.abandon: 1, self.crowd: 0.5})
        self.script.weighted(table)()


def greatest_depth(script):
    script.call("custodian", *deepest_stores(script))
    script.call("open", 7, 21)
    script.call("open", 7, 20)
    desk = Desk(script, 20)
    for _ in range(3):
        desk.enter()
    script.call("abandon")


def custodian(script):
    rng = script.rng
    script.use()
    if script.chance(40):
        greatest_depth(script)
    deepest = rng.choice([0, 1, 2, 2, 3, 4, 6])
    script.call("custodian", *any_stores(rng, script.house, deepest))
    desk = Desk(script, deepest)
    for _ in range(rng.randrange(30, 150)):
        desk.step()


# The auditor


class Trial:
    """Random calls to one auditor, with files of several trees under one root."""

    def __init__(self, script):
        self.script = script
        self.rng = script.rng
        self.sheet = None
        self.depth = 0
        self.files = []
        self.old_files = []

    def new_auditor(self):
        rng, house = self.rng, self.script.house
        deepest = max(self.depth, rng.randrange(4))
        if rng.randrange(8) == 0 and deepest < 8:
            return self.script.call("auditor", *odd_stores(rng, house, deepest))
        if rng.randrange(3) == 0 and deepest < 8:
            return self.script.call("auditor", *roomy_stores(rng, house, deepest))
        bound = 2 ** (deepest + 1)
        path, (nodes, leaves) = 2 * self.depth, records_needed(self.depth, self.files)
        nodes -= rng.choice([0, 0, 1, 2, 3, 4, 5])
        nodes = rng.choice([1, path, path - 1, rng.randint(path, 3 * path), nodes, nodes, 200])
        leaves = rng.choice([1, leaves, leaves, leaves - 1, rng.randrange(1, 20), 100])
        self.script.call(
            "auditor",
            store_form("chained", house.node_width, 1, 12, bound, max(1, nodes)),
            store_form("chained", house.leaf_width, 1, 12, bound, max(1, leaves)),
        )

    def new_trees(self):
        """A tree, and with the rehearsal digest some forgeries under the same root."""
        rng, house = self.rng, self.script.house
        depth = rng.choice([0, 1, 1, 2, 2, 3, 3, 4, 5, 20])
        lines = rng.choice([1, 2, 4, 8, 12])
        tree = random_tree(rng, house, rng.randrange(1, 13), depth, lines)
        trees = [tree]
        if house.digest.number == 9:
            for _ in range(rng.choice([0, 0, 1, 2])):
                leaf = rng.choice(list(tree.lines))
                trees.append(tree.forged(rng, rng.choice(path_of(leaf))))
        self.adopt(tree.sheet(), tree.files())
        for other in trees[1:]:
            self.files += [rng.choice(other.files())]

    def honest_papers(self):
        """The papers of a custodian's standing."""
        script, rng = self.script, self.rng
        deepest = rng.randrange(4)
        script.call("custodian", *roomy_stores(rng, script.house, deepest))
        desk = Desk(script, deepest)
        script.call("open", rng.randrange(1, 13), deepest)
        for _ in range(rng.randrange(2**deepest + 1)):
            desk.enter()
        script.call("close")
        desk.take_papers()
        if desk.papers:
            self.adopt(*desk.papers[0])

    def adopt(self, sheet, files):
        self.old_files = self.files
        self.sheet, self.files = sheet, list(files)
        self.depth = sheet[2]

    def lay(self):
        self.script.call("lay", show_bytes(self.sheet))

    def lay_damaged(self):
        sheet = damage_sheet(self.rng, self.script.house, self.depth, self.sheet)
        if sheet and self.rng.randrange(4) == 0:
            sheet = sheet[:2] + bytes([20]) + sheet[3:]
        self.script.call("lay", show_bytes(sheet))
        if self.rng.randrange(2):
            self.present()
        if self.rng.randrange(2):
            self.lay()

    def present(self):
        files = self.files + self.old_files[:1]
        if files:
            self.script.call("present", show_bytes(self.rng.choice(files)))

    def present_damaged(self):
        if self.files:
            file = self.rng.choice(self.files)
            file = damage_file(self.rng, self.script.house, self.depth, file)
            self.script.call("present", show_bytes(file))

    def present_all(self):
        self.rng.shuffle(self.files)
        for file in self.files:
            self.script.call("present", show_bytes(file))
        self.tally()

    def tally(self):
        self.script.call("tally")

    def texts(self):
        width = self.script.house.leaf_width
        inner = 1 + 2 * self.script.house.node_width
        length = self.rng.choice([0, 1, width, 2 * width - 1, 2 * width, 2 * inner - 1])
        length = self.rng.choice([length, 2 * inner, 2 * inner + 9])
        self.script.call("texts", length)

    def step(self):
        table = {
            self.present: 20,
            self.present_damaged: 6,
            self.present_all: 4,
            self.tally: 5,
            self.texts: 5,
            self.lay: 2,
            self.lay_damaged: 2,
            self.change: 1,
        }
        auditor = self.script.session.auditor
        if auditor.sheet is None and self.rng.randrange(3) == 0:
            self.change()
        if auditor.shown is not None and self.rng.randrange(6) == 0:
            self.lay()
        self.script.weighted(table)()

    def change(self):
        """Goes on with other trees, often with the same auditor."""
        if self.rng.randrange(4) == 0:
            self.honest_papers()
        else:
            self.new_trees()
        if self.rng.randrange(2):
            self.new_auditor()
        self.lay()


def audit(script):
    rng = script.rng
    script.use(*["rehearsal"] * 5, "sha256")
    trial = Trial(script)
    trial.new_trees()
    trial.new_auditor()
    if script.chance(3):
        trial.script.pick(trial.present, trial.tally, trial.texts)()
    trial.lay()
    for _ in range(rng.randrange(20, 80)):
        trial.step()


# Everything


BLOCKS = {
    "basics": basics,
    "stores": stores,
    "check": check,
    "custodian": custodian,
    "audit": audit,
}

KINDS = list(BLOCKS) + ["all"]

# How often each part comes in a script of all.
SHARES = {"basics": 2, "stores": 3, "check": 2, "custodian": 4, "audit": 6}


def generate(kind, seed, count):
    """The lines of a script with this many calls."""
    script = Script(f"{kind} {seed}", count)
    shares = SHARES if kind == "all" else {kind: 1}
    try:
        if kind in ("basics", "all") and script.chance(2):
            before_use(script)
        while True:
            BLOCKS[script.weighted(shares)](script)
    except Enough:
        return script.lines


def main():
    if len(sys.argv) != 4 or sys.argv[1] not in KINDS:
        sys.exit(f"usage: generate.py {'|'.join(KINDS)} SEED COUNT")
    kind, seed, count = sys.argv[1], int(sys.argv[2]), int(sys.argv[3])
    for line in generate(kind, seed, count):
        sys.stdout.buffer.write(line.encode("utf-8", "surrogateescape") + b"\n")


if __name__ == "__main__":
    main()
