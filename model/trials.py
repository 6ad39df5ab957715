"""The expected tables of the trials, from the rules alone.

An independent model: it reads nothing of the crates. `python3 model/trials.py nodes` prints the table of trials_nodes,
and likewise parts that of trials_parts and nor that of trials_nor.
"""

import sys

from cases import *

# --- sums -------------------------------------------------------------------------------------------------------------


def crc(data):
    """CRC-32, reflected, polynomial 0xEDB88320, starting at 0, not inverted: bit by bit."""
    register = 0
    for byte in data:
        for k in range(8):
            feedback = (register ^ (byte >> k)) & 1
            register >>= 1
            if feedback:
                register ^= 0xEDB88320
    return register


def digest(data):
    """A number that tells blocks apart: the sum of a header and its own sum is always 0, so that sum would not do."""
    all = 1
    for byte in data:
        all = (all ^ byte) * 16777619 % 2 ** 32
    return all


def le(value, size=4):
    return value.to_bytes(size, "little")


def num(data, at, size=4):
    return int.from_bytes(data[at:at + size], "little")


def up4(n):
    return -(-n // 4) * 4


# --- items ------------------------------------------------------------------------------------------------------------

MAGIC, MARKER, PADDING, ENTRY, CONTENT = 0x1985, 0x2003, 0x2004, 0xE001, 0xE002


def header(kind, totlen):
    front = le(MAGIC, 2) + le(kind, 2) + le(totlen)
    return front + le(crc(front))


def zero_padded(item):
    return item + bytes(up4(len(item)) - len(item))


def entry(pino, version, ino, kind, name):
    fixed = header(ENTRY, 40 + len(name)) + le(pino) + le(version) + le(ino) + le(0) + bytes([len(name), kind, 0, 0])
    assert len(fixed) == 32
    return zero_padded(fixed + le(crc(fixed)) + le(crc(name)) + name)


def content(ino, version, mode, isize, offset, dsize, compr, payload):
    fixed = bytearray(60)
    fixed[0:12] = header(CONTENT, 68 + len(payload))
    for at, value in ((12, ino), (16, version), (20, mode), (28, isize), (44, offset), (48, len(payload)), (52, dsize)):
        fixed[at:at + 4] = le(value)
    fixed[56] = compr
    fixed = bytes(fixed)
    return zero_padded(fixed + le(crc(payload)) + le(crc(fixed)) + payload)


def can_read(flags, start, end):
    """Whether every byte from start up to end lies in a page that can be read."""
    return all(i // 4 < len(flags) and flags[i // 4] for i in range(start, end))


def item_at(block, flags, at):
    """What stands at a place: its kind, how many bytes it says that it has, and its fields; None where nothing does."""
    size = len(block)
    if at + 4 > size or not can_read(flags, at, at + 4):
        return None
    if block[at:at + 4] == bytes(4):
        return ("zero", 4, {})
    if at + 12 > size or not can_read(flags, at, at + 12):
        return None
    if block[at] != 0x85 or block[at + 1] != 0x19:
        return None
    kind, totlen = num(block, at + 2, 2), num(block, at + 4)
    if num(block, at + 8) != crc(block[at:at + 8]) or totlen < 12 or at + up4(totlen) > size:
        return None
    if kind not in (ENTRY, CONTENT):
        return (kind, totlen, {})
    if not can_read(flags, at, at + totlen):
        return None
    node = block[at:at + totlen]
    fields = entry_fields(node) if kind == ENTRY else content_fields(node)
    return None if fields is None else (kind, totlen, fields)


def entry_fields(node):
    if len(node) < 40:
        return None
    nsize = node[28]
    if 40 + nsize > len(node):
        return None
    name = node[40:40 + nsize]
    if crc(node[:32]) != num(node, 32) or crc(name) != num(node, 36):
        return None
    return {"pino": num(node, 12), "version": num(node, 16), "ino": num(node, 20), "type": node[29], "name": name}


def content_fields(node):
    if len(node) < 68:
        return None
    csize = num(node, 48)
    if 68 + csize > len(node):
        return None
    data = node[68:68 + csize]
    if crc(data) != num(node, 60) or crc(node[:60]) != num(node, 64):
        return None
    return {
        "ino": num(node, 12), "version": num(node, 16), "mode": num(node, 20), "isize": num(node, 28),
        "offset": num(node, 44), "dsize": num(node, 52), "compr": node[56], "data": data,
    }


def walk(block, flags):
    """The items of a block, each with its place."""
    met = []
    if block[:12] != header(MARKER, 12) or not can_read(flags, 0, 12):
        return met
    at = 0
    while True:
        item = item_at(block, flags, at)
        if item is None:
            return met
        met.append((at, item))
        at += up4(item[1])


def offence(item):
    """6, 7, or 0 for none."""
    kind, totlen, f = item
    if kind in ("zero", MARKER, PADDING):
        return 0
    if kind == ENTRY:
        return 7 if entry_breaks(totlen, f) else 0
    if kind == CONTENT:
        if f["compr"] > 1:
            return 6
        return 7 if content_breaks(totlen, f) else 0
    return 6 if kind & 0x8000 else 0


def entry_breaks(totlen, f):
    name = f["name"]
    return any((
        totlen != 40 + len(name),
        len(name) == 0, len(name) > 32, 0 in name, 0x2F in name, name in (b".", b".."),
        f["pino"] == 0, f["version"] == 0,
        f["type"] not in (0, 4, 8),
        f["type"] == 0 and f["ino"] != 0,
        f["type"] != 0 and f["ino"] == 0,
    ))


def content_breaks(totlen, f):
    csize, dsize, hole = len(f["data"]), f["dsize"], f["compr"] == 1
    return any((
        totlen != 68 + csize,
        f["ino"] == 0, f["version"] == 0,
        f["mode"] not in (0o100644, 0o40755),
        hole and csize != 0,
        not hole and csize != dsize,
        not hole and dsize > 512,
        f["isize"] > 65536,
        dsize > 0 and f["offset"] + dsize > f["isize"],
    ))


# --- cases on a block -------------------------------------------------------------------------------------------------

BASES = {
    "blank": b"",
    "bare": b"",
    "file": entry(1, 3, 2, 8, b"ab"),
    "removal": entry(1, 3, 0, 0, b"ab"),
    "plain": content(2, 4, 33188, 1000, 100, 5, 0, b"hello"),
    "hole": content(2, 4, 33188, 1000, 100, 300, 1, b""),
}


def mended(item):
    """The bytes with the sums of the item that they begin with made right, for the lengths that it states."""
    item = bytearray(item)

    def put(at, value):
        item[at:at + 4] = le(value)[:max(0, len(item) - at)]

    put(8, crc(item[:8]))
    if bytes(item[:4]) == le(MAGIC, 2) + le(ENTRY, 2):
        put(32, crc(item[:32]))
        put(36, crc(item[40:40 + item[28]]))
    if bytes(item[:4]) == le(MAGIC, 2) + le(CONTENT, 2):
        put(60, crc(item[68:68 + num(item, 48)]))
        put(64, crc(item[:60]))
    return bytes(item)


def block_of(base, where, edits, flips):
    place, length = where
    block = bytearray(b"\xff" * 4096)
    if base != "blank":
        block[:12] = header(MARKER, 12)
    block[12:max(12, place)] = bytes(max(0, place - 12))
    block[place:place + len(BASES[base])] = BASES[base]
    block = block[:4096]
    for at, value in edits:
        block[place + at:place + at + 4] = le(value)[:max(0, 4096 - place - at)]
    if edits:
        block[place:] = mended(block[place:])
    for at, bits in flips:
        block[place + at:place + at + 4] = le(num(block, place + at) ^ bits)
    assert len(block) == 4096
    return bytes(block[:length])


ALL = [True] * 1024


def print_cases(title, cases):
    print(title)
    for label, base, where, edits, flips in cases:
        block = block_of(base, where, edits, flips)
        met = walk(block, ALL)
        last = met[-1][0] if met else 0
        bad = [o for o in (offence(item) for _, item in met) if o]
        print(f"{label}: block {digest(block):08x}, items {len(met)}, last at {last}, offence {bad[0] if bad else 0}")


def print_sums():
    x, random = 12345, []
    for _ in range(1000):
        x = (x * 1664525 + 1013904223) % 2 ** 32
        random.append(x >> 24)
    for label, data in (
        ("nothing", b""), ("00", b"\0"), ("01", b"\1"), ("80", b"\x80"), ("123456789", b"123456789"),
        ("0 to 255", bytes(range(256))), ("4096 bytes ff", b"\xff" * 4096), ("1000 random bytes", bytes(random)),
    ):
        print(f"sum of {label}: {crc(data):08x}")


def numbers(item):
    kind, totlen, f = item
    row = [0 if kind == "zero" else kind, 0 if kind == "zero" else totlen]
    if kind == ENTRY:
        row += [f["pino"], f["version"], f["ino"], f["type"], len(f["name"]), crc(f["name"])]
    if kind == CONTENT:
        row += [f[k] for k in ("ino", "version", "mode", "isize", "offset", "dsize", "compr")]
        row += [len(f["data"]), crc(f["data"])]
    return row + [0] * (11 - len(row))


def print_pages():
    print("pages")
    items = header(MARKER, 12) + BASES["file"] + header(PADDING, 16) + bytes(4) + BASES["plain"] + bytes(4)
    block = items + b"\xff" * (4096 - len(items))
    for at, item in walk(block, ALL):
        print(f"at {at}: {numbers(item)}")
    counts = []
    for page in range(41):
        flags = list(ALL)
        flags[page] = False
        counts.append(len(walk(block, flags)))
    print("items without page 0, 1, ..:", *counts)
    print("items with flags for 0, 1, .. pages:", *[len(walk(block, ALL[:n])) for n in range(41)])


def print_fillings():
    print("fillings")
    for end, batch, room in FILLINGS:
        filling = None
        if batch > 0:
            n = up_to(end, batch) - end
            filling = header(PADDING, n) + bytes(n - 12) if n >= 12 else bytes(n)
            if n % 4 or n > room:
                filling = None
        said = "None" if filling is None else f"Some({len(filling)})"
        out = (filling or b"") + b"\xff" * (room - len(filling or b""))
        print(f"end {end}, batch {batch}, room {room}: {said}, digest {digest(out):08x}")


class Random:
    """Numbers that look random, by a linear congruence."""

    def __init__(self):
        self.state = 7

    def number(self):
        self.state = (self.state * 1664525 + 1013904223) % 2 ** 32
        return self.state

    def below(self, n):
        return (self.number() >> 8) % n


def fold(all, more):
    """One more number in a digest."""
    return (all ^ more) * 16777619 % 2 ** 32


def random_change(random):
    at = 4 * random.below(18)
    value = random.number() if random.below(3) == 0 else VALUES[random.below(16)]
    return at, value


def print_random_changes():
    print("random changes")
    random, all, items, offences = Random(), 1, 0, 0
    for i in range(1000):
        base = ("file", "removal", "plain", "hole")[random.below(4)]
        one, two = random_change(random), random_change(random)
        block = block_of(base, FIRST, [], [one]) if random.below(4) == 0 else block_of(base, FIRST, [one, two], [])
        met = walk(block, ALL)
        bad = [o for o in (offence(item) for _, item in met) if o]
        number = bad[0] if bad else 0
        all = fold(fold(fold(all, digest(block)), number), met[-1][0])
        items += len(met)
        offences += number > 0
        if i % 50 == 49:
            print(f"{i}: {all:08x}, items {items}, offences {offences}")


def up_to(n, batch):
    return -(-n // batch) * batch


# --- the NOR chip -----------------------------------------------------------------------------------------------------


class Refused(Exception):
    def __init__(self, number):
        self.number = number


class Nor:
    """Blocks of 4,096 bytes, each a list of words; a step is a word programmed or a block erased."""

    def __init__(self, size):
        if size % 4096 or not 4 <= size // 4096 <= 16:
            raise Refused(4)
        self.blocks = [[bytes(4)] * 1024 for _ in range(size // 4096)]
        self.off = False
        self.count = None
        self.fault = 0

    def powered(self):
        if self.off:
            raise Refused(20)

    def inside(self, block, offset, n):
        if block >= len(self.blocks) or offset + n > 4096:
            raise Refused(11)

    def step(self):
        """Whether the next step succeeds."""
        if self.count is None:
            return True
        if self.count == 0:
            self.off = True
            self.count = None
            return False
        self.count -= 1
        return True

    def spoilt(self, word):
        return bytes(b | self.fault for b in word)

    def shown(self, block):
        return b"".join(self.blocks[block])

    def mark(self, block):
        self.powered()
        self.inside(block, 0, 0)
        return self.last(block)

    def last(self, block):
        return max((4 * k + 4 for k, w in enumerate(self.blocks[block]) if w != b"\xff" * 4), default=0)

    def read(self, block, offset, n):
        self.powered()
        self.inside(block, offset, n)
        return self.shown(block)[offset:offset + n]

    def program(self, block, offset, data):
        self.powered()
        self.inside(block, offset, len(data))
        if offset % 4 or len(data) % 4:
            raise Refused(12)
        if offset < self.last(block):
            raise Refused(13)
        for k in range(0, len(data), 4):
            word = data[k:k + 4]
            good = self.step()
            self.blocks[block][(offset + k) // 4] = word if good else self.spoilt(word)
            if not good:
                raise Refused(20)

    def erase(self, block):
        self.powered()
        self.inside(block, 0, 0)
        if self.step():
            self.blocks[block] = [b"\xff" * 4] * 1024
        else:
            self.blocks[block] = [self.spoilt(w) for w in self.blocks[block]]
            raise Refused(20)

    def arm(self, n, fault):
        self.powered()
        self.count, self.fault = n, fault

    def restart(self):
        self.off, self.count = False, None


def answer(act, *args):
    """The answer as it is printed: the value of a mark, 0 of what answers nothing."""
    try:
        value = act(*args)
        return f": done, {value if isinstance(value, int) else 0}"
    except Refused as refused:
        return f": refused {refused.number}"


def pattern(bits, n):
    return bytes((i % 64) | bits for i in range(n))


def looked(chip, block):
    try:
        data = chip.read(block, 0, 24)
    except Refused:
        data = bytes(24)
    return "".join(f" {b:02x}" for b in data)


def asked(chip, name, *args):
    """The line of one call."""
    if name == "read":
        block, offset, n = args
        try:
            buffer = chip.read(*args)
        except Refused:
            buffer = b"\xa5" * n
        return f"read {block} {offset} {n}, buffer {crc(buffer):08x}" + answer(chip.read, *args)
    if name == "program":
        bits, block, offset, n = args
        return f"program {block} {offset} {n}" + answer(chip.program, block, offset, pattern(bits, n))
    if name == "look":
        return f"look {args[0]}:" + looked(chip, args[0]) + answer(chip.read, args[0], 0, 24)
    if name == "arm":
        return f"arm {args[0]} {args[1]:02x}" + answer(chip.arm, *args)
    if name == "restart":
        return "restart" + answer(chip.restart)
    act = {"erase": chip.erase, "mark": chip.mark}[name]
    return f"{name} {args[0]}" + answer(act, *args)


def print_calls(chip, title, calls):
    print(title)
    for call in calls:
        print(asked(chip, *call))


def print_sizes():
    for n in SIZES:
        try:
            print(f"memory of {n} bytes: {len(Nor(n).blocks)} blocks")
        except Refused as refused:
            print(f"memory of {n} bytes: refused {refused.number}, {n} bytes back")


def number_of(act, *args):
    """An answer as one number."""
    try:
        value = act(*args)
        return value % 65536 if isinstance(value, int) else 0
    except Refused as refused:
        return 65536 + refused.number


def near(chip, random, block):
    try:
        mark = chip.mark(block)
    except Refused:
        mark = 0
    way = random.below(8)
    if way == 0:
        up = random.below(4097)
    elif way == 1:
        up = random.below(4)
    elif way == 2:
        up = 4 * random.below(1000)
    else:
        up = 4 * random.below(2)
    down = 4 if random.below(8) == 0 else 0
    return max(0, mark + up - down)


def random_call(chip, random):
    block = random.below(9) // 2
    way = random.below(10)
    if way == 0:
        return number_of(chip.erase, block)
    if way == 1:
        steps = random.below(12)
        return number_of(chip.arm, steps, random.below(256))
    if way == 2:
        chip.restart()
        return 0
    if way == 3:
        return number_of(chip.mark, block)
    if way in (4, 5):
        offset, n = random.below(4097), random.below(300)
        try:
            buffer = chip.read(block, offset, n)
        except Refused:
            buffer = b"\xa5" * n
        return fold(crc(buffer), number_of(chip.read, block, offset, n))
    offset = near(chip, random, block)
    bits = random.below(256)
    more = 1 if random.below(10) == 0 else 0
    n = 4 * random.below(9) + more
    return number_of(chip.program, block, offset, pattern(bits, n))


def print_random_calls(chip):
    print("random calls")
    random, all = Random(), 1
    for i in range(4000):
        all = fold(all, random_call(chip, random))
        if i % 200 == 199:
            print(f"{i}: {all:08x}")


def print_cuts(chip):
    print("cuts")
    for what, counts in (("program", range(7)), ("erase", range(2))):
        for n in counts:
            for j in FAULTS:
                chip.erase(0)
                if what == "erase":
                    chip.program(0, 0, pattern(0, 20))
                chip.arm(n, j)
                said = answer(chip.erase, 0) if what == "erase" else answer(chip.program, 0, 0, pattern(0, 20))
                chip.restart()
                print(f"cut {what} n={n} j={j:02x}{said},{looked(chip, 0)}, mark{answer(chip.mark, 0)}")


# --- the three tables --------------------------------------------------------------------------------------------------


def parts():
    print_sums()
    print_fillings()
    print_pages()


def nodes():
    print_cases("headers", HEADERS)
    print_cases("entries", ENTRIES)
    print_cases("contents", CONTENTS)
    print_cases("block ends", ENDS)
    print_random_changes()


def nor():
    print_sizes()
    chip = Nor(4 * 4096)
    print_calls(chip, "refusals", REFUSALS)
    print_calls(chip, "without power", WITHOUT_POWER)
    print_cuts(chip)
    print_calls(chip, "counts", COUNTS)
    print_random_calls(chip)


if __name__ == "__main__":
    {"parts": parts, "nodes": nodes, "nor": nor}[sys.argv[1]]()
