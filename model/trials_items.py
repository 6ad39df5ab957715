"""Makes the script of crates/trials_items and what its program has to print.

`python3 model/trials_items.py` writes crates/trials_items/stdin and crates/trials_items/stdout. What the lines of a script
mean stands at the beginning of that crate's main.rt; what they answer comes from items.py, and so from docs/FORMAT.md.
"""

from pathlib import Path

from items import CONTENT, ENTRY, MAGIC, MARKER, PADDING, content, entry, header, le, num, offence, walk
from sums import crc

# --- cases -------------------------------------------------------------------------------------------------------------

# Of each: what to call it, what stands there, its place and the block's length, words to write at offsets from the place
# before the sums are made right, and bits to flip in words after that.

FIRST = (12, 4096)

HEADERS = [
    ("good", "bare", FIRST, [(0, 0x20051985), (4, 12)], []),
    ("first magic byte", "bare", FIRST, [(0, 0x20051984), (4, 12)], []),
    ("second magic byte", "bare", FIRST, [(0, 0x20051885), (4, 12)], []),
    ("lowest bit of the sum", "bare", FIRST, [(0, 0x20051985), (4, 12)], [(8, 1)]),
    ("highest bit of the sum", "bare", FIRST, [(0, 0x20051985), (4, 12)], [(8, 0x80000000)]),
    ("kind changed, sum not", "bare", FIRST, [(0, 0x20051985), (4, 12)], [(0, 0x10000)]),
    ("length changed, sum not", "bare", FIRST, [(0, 0x20051985), (4, 12)], [(4, 0x10)]),
    ("totlen 0", "bare", FIRST, [(0, 0x20051985), (4, 0)], []),
    ("totlen 11", "bare", FIRST, [(0, 0x20051985), (4, 11)], []),
    ("totlen 13, a zero word at 16", "bare", FIRST, [(0, 0x20051985), (4, 13), (16, 0)], []),
    ("totlen 13, a zero word at 20", "bare", FIRST, [(0, 0x20051985), (4, 13), (20, 0)], []),
    ("padded below the end", "bare", FIRST, [(0, 0x20051985), (4, 4080)], []),
    ("padded to the end", "bare", FIRST, [(0, 0x20051985), (4, 4081)], []),
    ("up to the end", "bare", FIRST, [(0, 0x20051985), (4, 4084)], []),
    ("one past the end", "bare", FIRST, [(0, 0x20051985), (4, 4085)], []),
    ("the greatest totlen", "bare", FIRST, [(0, 0x20051985), (4, 0xffffffff)], []),
    ("totlen 2^32 - 4", "bare", FIRST, [(0, 0x20051985), (4, 0xfffffffc)], []),
    ("the last 12 bytes", "bare", (4084, 4096), [(0, 0x20051985), (4, 12)], []),
    ("the last 12 bytes, totlen 13", "bare", (4084, 4096), [(0, 0x20051985), (4, 13)], []),
    ("the last 8 bytes", "bare", (4088, 4096), [(0, 0x20051985), (4, 12)], []),
    ("kind 0", "bare", FIRST, [(0, 0x00001985), (4, 12)], []),
    ("kind 7fff", "bare", FIRST, [(0, 0x7fff1985), (4, 12)], []),
    ("kind 8000", "bare", FIRST, [(0, 0x80001985), (4, 12)], []),
    ("kind 8001", "bare", FIRST, [(0, 0x80011985), (4, 12)], []),
    ("kind e003", "bare", FIRST, [(0, 0xe0031985), (4, 16), (16, 0)], []),
    ("kind ffff, sum wrong", "bare", FIRST, [(0, 0xffff1985), (4, 12)], [(8, 0x100)]),
    ("a second marker", "bare", FIRST, [(0, 0x20031985), (4, 12), (12, 0)], []),
    ("a marker of 16 bytes", "bare", FIRST, [(0, 0x20031985), (4, 16), (16, 0)], []),
    ("padding that holds no zeros", "bare", FIRST, [(0, 0x20041985), (4, 100), (100, 0)], []),
]

ENTRIES = [
    ("good", "file", FIRST, [], []),
    ("good, a zero word behind", "file", FIRST, [], [(44, 0xffffffff)]),
    ("removal", "removal", FIRST, [], [(44, 0xffffffff)]),
    ("sums made again", "file", FIRST, [(16, 3)], []),
    ("name sum", "file", FIRST, [], [(36, 1)]),
    ("name changed, sum not", "file", FIRST, [], [(40, 0x100)]),
    ("node sum", "file", FIRST, [], [(32, 0x80000000)]),
    ("version changed, sum not", "file", FIRST, [], [(16, 1)]),
    ("header sum", "file", FIRST, [], [(8, 1)]),
    ("byte behind totlen", "file", FIRST, [], [(40, 0x01000000), (44, 0xffffffff)]),
    ("nsize beyond totlen", "file", FIRST, [(28, 0x0803)], []),
    ("totlen 41", "file", FIRST, [(4, 41)], []),
    ("totlen 39, nsize 0", "file", FIRST, [(4, 39), (28, 0x0800)], []),
    ("nsize 0", "file", FIRST, [(4, 40), (28, 0x0800)], []),
    ("totlen 12", "file", FIRST, [(4, 12)], []),
    ("version 0", "file", FIRST, [(16, 0)], []),
    ("the greatest version", "file", FIRST, [(16, 0xffffffff)], []),
    ("pino 0", "file", FIRST, [(12, 0)], []),
    ("the greatest pino and ino", "file", FIRST, [(12, 0xffffffff), (20, 0xffffffff)], []),
    ("name of 32", "file", FIRST, [(4, 72), (28, 0x0820), (40, 0x61616161)], []),
    ("name of 33", "file", FIRST, [(4, 73), (28, 0x0821), (40, 0x61616161)], []),
    ("name of 255", "file", FIRST, [(4, 295), (28, 0x08ff), (40, 0x61616161)], []),
    ("name with 0", "file", FIRST, [(40, 0x0061)], []),
    ("name beginning with 0", "file", FIRST, [(40, 0x6100)], []),
    ("name with /", "file", FIRST, [(40, 0x2f61)], []),
    ("name of 32 ending in /", "file", FIRST, [(4, 72), (28, 0x0820), (68, 0x2f616161)], []),
    ("name .", "file", FIRST, [(4, 41), (28, 0x0801), (40, 0x2e)], []),
    ("name ..", "file", FIRST, [(40, 0x2e2e)], []),
    ("name ...", "file", FIRST, [(4, 43), (28, 0x0803), (40, 0x2e2e2e)], []),
    ("name .a", "file", FIRST, [(40, 0x612e)], []),
    ("name of bytes ff", "file", FIRST, [(40, 0xffff)], []),
    ("name of 1", "file", FIRST, [(4, 41), (28, 0x0801)], []),
    ("type 4", "file", FIRST, [(28, 0x0402)], []),
    ("type 5", "file", FIRST, [(28, 0x0502)], []),
    ("type 0 with ino", "file", FIRST, [(28, 0x0002)], []),
    ("ino 0 with type 8", "file", FIRST, [(20, 0)], []),
    ("ino 0 with type 4", "file", FIRST, [(20, 0), (28, 0x0402)], []),
    ("removal with type 5", "removal", FIRST, [(28, 0x0502)], []),
    ("removal with pino 0", "removal", FIRST, [(12, 0)], []),
    ("totlen 1 more", "file", FIRST, [(4, 43)], []),
    ("totlen 3 more", "file", FIRST, [(4, 45), (44, 0), (48, 0)], []),
    ("totlen up to the end", "file", FIRST, [(4, 4084)], []),
    ("totlen beyond the end", "file", FIRST, [(4, 4085)], []),
    ("fields without a name", "file", FIRST, [(24, 0x12345678), (28, 0xabcd0802)], []),
    ("nsize 33 beyond totlen", "file", FIRST, [(4, 72), (28, 0x0821)], []),
    ("all causes of 7", "removal", FIRST, [(12, 0), (16, 0), (28, 0x0502), (40, 0x2e2e), (4, 43)], []),
]

CONTENTS = [
    ("good", "plain", FIRST, [], []),
    ("good, a zero word behind", "plain", FIRST, [], [(76, 0xffffffff)]),
    ("hole", "hole", FIRST, [], [(68, 0xffffffff)]),
    ("sums made again", "plain", FIRST, [(16, 4)], []),
    ("data sum", "plain", FIRST, [], [(60, 1)]),
    ("data changed, sum not", "plain", FIRST, [], [(72, 1)]),
    ("node sum", "plain", FIRST, [], [(64, 0x80000000)]),
    ("version changed, sum not", "plain", FIRST, [], [(16, 1)]),
    ("compr changed, sum not", "plain", FIRST, [], [(56, 2)]),
    ("header sum", "plain", FIRST, [], [(8, 1)]),
    ("byte behind totlen", "plain", FIRST, [], [(72, 0x100), (76, 0xffffffff)]),
    ("csize beyond totlen", "plain", FIRST, [(48, 6), (52, 6)], []),
    ("totlen 72", "plain", FIRST, [(4, 72)], []),
    ("the greatest csize", "plain", FIRST, [(48, 0xffffffff), (52, 0xffffffff)], []),
    ("csize up to 2^32", "plain", FIRST, [(48, 0xffffffbc)], []),
    ("totlen 67, csize 0", "hole", FIRST, [(4, 67)], []),
    ("no data", "plain", FIRST, [(4, 68), (48, 0), (52, 0)], []),
    ("version 0", "plain", FIRST, [(16, 0)], []),
    ("the greatest version", "plain", FIRST, [(16, 0xffffffff)], []),
    ("ino 0", "plain", FIRST, [(12, 0)], []),
    ("mode 0", "plain", FIRST, [(20, 0)], []),
    ("mode 33189", "plain", FIRST, [(20, 33189)], []),
    ("mode 16876", "plain", FIRST, [(20, 16876)], []),
    ("mode 16877", "plain", FIRST, [(20, 16877)], []),
    ("dsize one less", "plain", FIRST, [(52, 4)], []),
    ("dsize one more", "plain", FIRST, [(52, 6)], []),
    ("csize one less", "plain", FIRST, [(4, 72), (48, 4)], []),
    ("hole with data", "plain", FIRST, [(56, 1)], []),
    ("plain without its data", "hole", FIRST, [(56, 0)], []),
    ("hole of 512", "hole", FIRST, [(52, 512)], []),
    ("hole of 513", "hole", FIRST, [(52, 513)], []),
    ("hole up to isize", "hole", FIRST, [(52, 900)], []),
    ("hole one above isize", "hole", FIRST, [(52, 901)], []),
    ("hole of 0", "hole", FIRST, [(52, 0)], []),
    ("dsize 512", "plain", FIRST, [(4, 580), (48, 512), (52, 512)], []),
    ("dsize 513", "plain", FIRST, [(4, 581), (48, 513), (52, 513)], []),
    ("isize 65536", "plain", FIRST, [(28, 65536)], []),
    ("isize 65537", "plain", FIRST, [(28, 65537)], []),
    ("whole file a hole", "hole", FIRST, [(28, 65536), (44, 0), (52, 65536)], []),
    ("end at isize", "plain", FIRST, [(28, 105)], []),
    ("end one above isize", "plain", FIRST, [(28, 104)], []),
    ("the greatest offset", "plain", FIRST, [(44, 0xffffffff)], []),
    ("offset up to 2^32", "plain", FIRST, [(44, 0xfffffffb)], []),
    ("no data, offset above isize", "plain", FIRST, [(4, 68), (44, 1001), (48, 0), (52, 0)], []),
    ("hole of 0, offset above isize", "hole", FIRST, [(44, 0xffffffff), (52, 0)], []),
    ("totlen 1 more", "plain", FIRST, [(4, 74)], []),
    ("totlen up to the end", "plain", FIRST, [(4, 4084)], []),
    ("totlen beyond the end", "plain", FIRST, [(4, 4085)], []),
    ("compr 2", "plain", FIRST, [(56, 2)], []),
    ("compr 255", "plain", FIRST, [(56, 255)], []),
    ("compr 2 and version 0", "plain", FIRST, [(16, 0), (56, 2)], []),
    ("compr 2 and other dsize", "plain", FIRST, [(52, 4000), (56, 2)], []),
    ("bytes behind compr", "plain", FIRST, [(56, 0xffffff00)], []),
    ("fields without a name", "plain", FIRST, [(24, 1), (32, 2), (36, 3), (40, 0xffffffff)], []),
    ("all causes of 7", "plain", FIRST, [(4, 74), (12, 0), (16, 0), (20, 0), (28, 65537), (52, 66000)], []),
]

ENDS = [
    ("entry up to the end", "file", (4052, 4096), [], []),
    ("entry that needs 4 more", "file", (4056, 4096), [], []),
    ("entry, its padding cut off", "file", (12, 55), [], []),
    ("entry, nothing cut off", "file", (12, 56), [], []),
    ("content up to the end", "plain", (4020, 4096), [], []),
    ("content that needs 4 more", "plain", (4024, 4096), [], []),
    ("hole up to the end", "hole", (4028, 4096), [], []),
    ("hole that needs 4 more", "hole", (4032, 4096), [], []),
    ("zero words up to the end", "bare", (4096, 4096), [], []),
    ("zero words, 2 bytes behind", "bare", (4096, 4094), [], []),
    ("zero words, no item behind", "bare", (4000, 4096), [], []),
    ("zero words, an item behind", "file", (20, 4096), [], []),
    ("a zero word at 0", "file", (0, 4096), [], [(0, 0xe0011985)]),
    ("an entry at 0", "file", (0, 4096), [], []),
    ("marker of 13 bytes", "bare", (0, 4096), [(4, 13)], []),
    ("marker of 16 bytes", "bare", (0, 4096), [(4, 16)], []),
    ("marker with a wrong sum", "bare", (0, 4096), [], [(8, 0x80000000)]),
    ("padding at 0", "bare", (0, 4096), [(0, 0x20041985)], []),
    ("all ff", "blank", (12, 4096), [], []),
    ("length 0", "bare", (12, 0), [], []),
    ("length 11", "bare", (12, 11), [], []),
    ("length 12", "bare", (12, 12), [], []),
    ("length 15", "bare", (16, 15), [], []),
    ("length 16", "bare", (16, 16), [], []),
    ("length 12, all ff", "blank", (12, 12), [], []),
]

# The end, the batch and the room.
FILLINGS = [
    (500, 512, 600), (504, 512, 600), (508, 512, 600), (512, 512, 600), (0, 512, 600), (516, 512, 600),
    (500, 512, 12), (500, 512, 11), (504, 512, 7), (512, 512, 0), (496, 512, 600), (500, 528, 600),
    (528, 528, 600), (500, 4, 600), (498, 512, 600), (500, 0, 600),
]

# Numbers at which something changes.
VALUES = [0, 1, 2, 3, 4, 5, 8, 11, 12, 40, 42, 73, 512, 65536, 0x80000000, 0xFFFFFFFF]


# --- what a line answers -----------------------------------------------------------------------------------------------

NONE = 9999


def mixed(all, n):
    """One more number in a number."""
    return (all ^ n) * 0x100000001B3 % 2 ** 64


def digest(data):
    """A number for all bytes; a sum would not do, as that of a header with its own sum is always 0."""
    all = 1
    for byte in data:
        all = mixed(all, byte)
    return all


def numbers(item):
    """The kind, the length and the fields of an item."""
    kind, totlen, f = item
    if kind == "zero":
        return [4]
    if kind == ENTRY:
        return [kind, totlen, len(f["name"]), f["pino"], f["version"], f["ino"], f["type"], crc(f["name"])]
    if kind == CONTENT:
        fields = [f[k] for k in ("ino", "version", "mode", "isize", "offset", "dsize", "compr")]
        return [kind, totlen, len(f["data"]), *fields, crc(f["data"])]
    return [kind, totlen]


def filling(end, batch, room):
    """What fills a batch from an end on, or None if it does not."""
    if batch == 0:
        return None
    n = -end % batch
    if n % 4 or n > room:
        return None
    return header(PADDING, n) + bytes(n - 12) if n >= 12 else bytes(n)


class Script:
    """The lines of a script and what is printed for them, with the block that they are about."""

    def __init__(self):
        self.lines, self.out = [], []

    def say(self, line, *given):
        self.lines.append(line)
        self.out.append(f"{line}: {list(given) + [0] * (4 - len(given))}")

    def erase(self):
        self.lines.append("block")
        self.bytes, self.readable = bytearray(b"\xff" * 4096), [True] * 1024

    def put(self, at, data):
        self.lines.append(f"put {at} 0 {bytes(data).hex()}")
        data = bytes(data)[:4096 - at]
        self.bytes[at:at + len(data)] = data

    def zero(self, at, n):
        self.lines.append(f"zero {at} {n}")
        self.bytes[at:at + n] = bytes(n)

    def lose(self, page):
        self.lines.append(f"lose {page}")
        self.readable[page] = False

    def walk(self, length, flags, label=""):
        met = walk(bytes(self.bytes[:length]), self.readable[:flags])
        offences = [o for o in (offence(item) for _, item in met) if o]
        all = 1
        for _, item in met:
            for n in numbers(item):
                all = mixed(all, n)
        self.say(f"walk {length} {flags} {label}".strip(), len(met), met[-1][0] if met else 0, offences[0] if offences else 0, all)

    def sum(self, n):
        self.say(f"sum {n}", crc(self.bytes[:n]))

    def encode(self, line, at, data, room=4096):
        """A line that lays what an encoder makes, or nothing where that is None."""
        if data is not None:
            self.bytes[at:at + len(data)] = data
        self.say(line, NONE if data is None else len(data), digest(self.bytes[:room]))

    def written(self):
        return "\n".join(self.lines) + "\n", "\n".join(self.out) + "\n"


# --- blocks ------------------------------------------------------------------------------------------------------------

BASES = {
    "blank": b"",
    "bare": b"",
    "file": entry(1, 3, 2, 8, b"ab"),
    "removal": entry(1, 3, 0, 0, b"ab"),
    "plain": content(2, 4, 33188, 1000, 100, 5, 0, b"hello"),
    "hole": content(2, 4, 33188, 1000, 100, 300, 1, b""),
}


def mended(item):
    """The bytes with the sums of the item that they begin with made right, for the lengths that it states."""
    item = bytearray(item)

    def put(at, value):
        item[at:at + 4] = le(value)[:max(0, len(item) - at)]

    put(8, crc(item[:8]))
    if bytes(item[:4]) == le(MAGIC, 2) + le(ENTRY, 2):
        put(32, crc(item[:32]))
        put(36, crc(item[40:40 + item[28]]))
    if bytes(item[:4]) == le(MAGIC, 2) + le(CONTENT, 2):
        put(60, crc(item[68:68 + num(item, 48)]))
        put(64, crc(item[:60]))
    return bytes(item)


def lay(script, base, place, edits, flips):
    """A block with the item of a base at a place, where zero words lead from the marker to it, and changes there."""
    script.erase()
    if base != "blank":
        script.put(0, header(MARKER, 12))
    if place > 12:
        script.zero(12, place - 12)
    if place >= 4096:
        return
    block = bytearray(script.bytes)
    block[place:place + len(BASES[base])] = BASES[base]
    block = block[:4096]
    for at, value in edits:
        block[place + at:place + at + 4] = le(value)[:max(0, 4096 - place - at)]
    if edits:
        block[place:] = mended(block[place:])
    for at, bits in flips:
        block[place + at:place + at + 4] = le(num(block, place + at) ^ bits)
    item = bytes(block[place:4096]).rstrip(b"\xff")
    if item:
        script.put(place, item)
    assert bytes(script.bytes) == bytes(block[:4096])


# --- trials ------------------------------------------------------------------------------------------------------------


class Chance:
    """Numbers that look random, by a linear congruence."""

    def __init__(self, seed):
        self.state = seed

    def number(self):
        self.state = (self.state * 1664525 + 1013904223) % 2 ** 32
        return self.state

    def below(self, n):
        return (self.number() >> 8) % n


def sums(script):
    chance = Chance(12345)
    random = bytes(chance.number() >> 24 for _ in range(1000))
    for data in (b"", b"\0", b"\1", b"\x80", b"123456789", bytes(range(256)), b"\xff" * 4096, random):
        script.erase()
        if data:
            script.put(0, data)
        script.sum(len(data))


def encoders(script):
    """The items that the cases begin with, and some whose length is a multiple of 4."""
    script.erase()
    script.encode("marker", 0, header(MARKER, 12))
    script.encode("entry 2 8 ab", 12, BASES["file"])
    script.walk(4096, 1024)
    for line, data in (("entry 0 0 ab", BASES["removal"]), ("entry 7 4 abcd", entry(1, 3, 7, 4, b"abcd")),
                       ("entry 2 8 a", entry(1, 3, 2, 8, b"a")), ("content 5 0 hello", BASES["plain"]),
                       ("content 300 1", BASES["hole"]), ("content 8 0 hello yo", content(2, 4, 33188, 1000, 100, 8, 0, b"hello yo"))):
        script.erase()
        script.put(0, header(MARKER, 12))
        script.encode(line, 12, data)
        script.walk(4096, 1024)


def fillings(script):
    for end, batch, room in FILLINGS:
        script.erase()
        script.encode(f"filling {end} {batch} {room}", 0, filling(end, batch, room), room)


def pages(script):
    """A block of which one page cannot be read, or all from one on."""
    items = header(MARKER, 12) + BASES["file"] + header(PADDING, 16) + bytes(4) + BASES["plain"] + bytes(4)
    script.erase()
    script.put(0, items)
    for n in (*range(41), 1024):
        script.walk(4096, n)
    for page in range(41):
        script.erase()
        script.put(0, items)
        script.lose(page)
        script.walk(4096, 1024, f"without {page}")
    # several items one by one: each ends the walk where it is the first that is torn
    for end in range(0, len(items) + 1, 4):
        script.erase()
        script.put(0, items[:end])
        script.walk(4096, 1024, f"torn at {end}")


def tables(script):
    for title, cases in (("header", HEADERS), ("entry", ENTRIES), ("content", CONTENTS), ("end", ENDS)):
        for label, base, (place, length), edits, flips in cases:
            lay(script, base, place, edits, flips)
            script.walk(length, 1024, f"{title}: {label}")


def random_change(chance):
    at = 4 * chance.below(18)
    value = chance.number() if chance.below(3) == 0 else VALUES[chance.below(16)]
    return at, value


def by_chance(script):
    """Two changed words and right sums, or one changed word and the sums as they were."""
    chance = Chance(7)
    for _ in range(1000):
        base = ("file", "removal", "plain", "hole")[chance.below(4)]
        one, two = random_change(chance), random_change(chance)
        if chance.below(4) == 0:
            lay(script, base, 12, [], [one])
        else:
            lay(script, base, 12, [one, two], [])
        script.walk(4096, 1024)


def whole():
    script = Script()
    for tried in (sums, encoders, fillings, pages, tables, by_chance):
        tried(script)
    return script.written()


if __name__ == "__main__":
    crate = Path(__file__).parent.parent / "crates" / "trials_items"
    for name, text in zip(("stdin", "stdout"), whole()):
        (crate / name).write_text(text)
