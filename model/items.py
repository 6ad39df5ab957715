"""The items of a block, as docs/FORMAT.md has them: their bytes, what a walk meets, and which of them a mount refuses."""

from sums import crc


def le(value, size=4):
    return value.to_bytes(size, "little")


def num(data, at, size=4):
    return int.from_bytes(data[at:at + size], "little")


def up4(n):
    return -(-n // 4) * 4


MAGIC, MARKER, PADDING, ENTRY, CONTENT = 0x1985, 0x2003, 0x2004, 0xE001, 0xE002


def header(kind, totlen):
    front = le(MAGIC, 2) + le(kind, 2) + le(totlen)
    return front + le(crc(front))


def zero_padded(item):
    return item + bytes(up4(len(item)) - len(item))


def entry(pino, version, ino, kind, name):
    fixed = header(ENTRY, 40 + len(name)) + le(pino) + le(version) + le(ino) + le(0) + bytes([len(name), kind, 0, 0])
    assert len(fixed) == 32
    return zero_padded(fixed + le(crc(fixed)) + le(crc(name)) + name)


def content(ino, version, mode, isize, offset, dsize, compr, payload):
    fixed = bytearray(60)
    fixed[0:12] = header(CONTENT, 68 + len(payload))
    for at, value in ((12, ino), (16, version), (20, mode), (28, isize), (44, offset), (48, len(payload)), (52, dsize)):
        fixed[at:at + 4] = le(value)
    fixed[56] = compr
    fixed = bytes(fixed)
    return zero_padded(fixed + le(crc(payload)) + le(crc(fixed)) + payload)


def can_read(flags, start, end):
    """Whether every byte from start up to end lies in a page that can be read."""
    return all(i // 4 < len(flags) and flags[i // 4] for i in range(start, end))


def item_at(block, flags, at):
    """What stands at a place: its kind, how many bytes it says that it has, and its fields; None where nothing does."""
    size = len(block)
    if at + 4 > size or not can_read(flags, at, at + 4):
        return None
    if block[at:at + 4] == bytes(4):
        return ("zero", 4, {})
    if at + 12 > size or not can_read(flags, at, at + 12):
        return None
    if block[at] != 0x85 or block[at + 1] != 0x19:
        return None
    kind, totlen = num(block, at + 2, 2), num(block, at + 4)
    if num(block, at + 8) != crc(block[at:at + 8]) or totlen < 12 or at + up4(totlen) > size:
        return None
    if kind not in (ENTRY, CONTENT):
        return (kind, totlen, {})
    if not can_read(flags, at, at + totlen):
        return None
    node = block[at:at + totlen]
    fields = entry_fields(node) if kind == ENTRY else content_fields(node)
    return None if fields is None else (kind, totlen, fields)


def entry_fields(node):
    if len(node) < 40:
        return None
    nsize = node[28]
    if 40 + nsize > len(node):
        return None
    name = node[40:40 + nsize]
    if crc(node[:32]) != num(node, 32) or crc(name) != num(node, 36):
        return None
    return {"pino": num(node, 12), "version": num(node, 16), "ino": num(node, 20), "type": node[29], "name": name}


def content_fields(node):
    if len(node) < 68:
        return None
    csize = num(node, 48)
    if 68 + csize > len(node):
        return None
    data = node[68:68 + csize]
    if crc(data) != num(node, 60) or crc(node[:60]) != num(node, 64):
        return None
    return {
        "ino": num(node, 12), "version": num(node, 16), "mode": num(node, 20), "isize": num(node, 28),
        "offset": num(node, 44), "dsize": num(node, 52), "compr": node[56], "data": data,
    }


def walk(block, flags):
    """The items of a block, each with its place."""
    met = []
    if block[:12] != header(MARKER, 12) or not can_read(flags, 0, 12):
        return met
    at = 0
    while True:
        item = item_at(block, flags, at)
        if item is None:
            return met
        met.append((at, item))
        at += up4(item[1])


def offence(item):
    """6, 7, or 0 for none."""
    kind, totlen, f = item
    if kind in ("zero", MARKER, PADDING):
        return 0
    if kind == ENTRY:
        return 7 if entry_breaks(totlen, f) else 0
    if kind == CONTENT:
        if f["compr"] > 1:
            return 6
        return 7 if content_breaks(totlen, f) else 0
    return 6 if kind & 0x8000 else 0


def entry_breaks(totlen, f):
    name = f["name"]
    return any((
        totlen != 40 + len(name),
        len(name) == 0, len(name) > 32, 0 in name, 0x2F in name, name in (b".", b".."),
        f["pino"] == 0, f["version"] == 0,
        f["type"] not in (0, 4, 8),
        f["type"] == 0 and f["ino"] != 0,
        f["type"] != 0 and f["ino"] == 0,
    ))


def content_breaks(totlen, f):
    csize, dsize, hole = len(f["data"]), f["dsize"], f["compr"] == 1
    return any((
        totlen != 68 + csize,
        f["ino"] == 0, f["version"] == 0,
        f["mode"] not in (0o100644, 0o40755),
        hole and csize != 0,
        not hole and csize != dsize,
        not hole and dsize > 512,
        f["isize"] > 65536,
        dsize > 0 and f["offset"] + dsize > f["isize"],
    ))
