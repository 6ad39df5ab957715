"""The rules of docs/STORE.md about nodes that stand: which of them is the newest, what the tree is, which nodes are needed,
and which blocks can be done without. Every definition is taken as it stands there, byte by byte where it speaks of bytes.

A node has its block, its offset there, and its fields; the nodes of a table are given in rising order of their places.
"""

from dataclasses import dataclass


@dataclass(frozen=True)
class Entry:
    block: int
    place: int
    pino: int
    version: int
    ino: int
    kind: int
    name: bytes

    def twin(self):
        """What twins agree in: all but where they stand."""
        return "entry", self.pino, self.version, self.ino, self.kind, self.name


@dataclass(frozen=True)
class Content:
    block: int
    place: int
    ino: int
    version: int
    mode: int
    isize: int
    offset: int
    dsize: int
    hole: int

    def twin(self):
        return "content", self.ino, self.version, self.mode, self.isize, self.offset, self.dsize, self.hole

    def gives(self, i):
        return self.offset <= i < self.offset + self.dsize


# Sections 2 and 3: the newest of a key, names, lengths and bytes.


def newest(nodes):
    """Of nodes with one key that of the highest version; of twins that at the lowest place. None if there are none."""
    top = max((n.version for n in nodes), default=None)
    return next((n for n in nodes if n.version == top), None)


class Table:
    def __init__(self, entries, contents):
        self.entries = sorted(entries, key=lambda n: (n.block, n.place))
        self.contents = sorted(contents, key=lambda n: (n.block, n.place))
        kinds = {}
        for node in self.nodes():
            twin = node.twin()
            key = twin[0], twin[1], twin[2]
            assert kinds.setdefault(key, twin) == twin, "a mount refuses this"

    def nodes(self):
        return self.entries + self.contents

    def titled(self, pino, name):
        return [e for e in self.entries if (e.pino, e.name) == (pino, name)]

    def entry_of(self, pino, name):
        """The entry of a name that counts."""
        found = newest(self.titled(pino, name))
        return found if found and found.ino != 0 else None

    def counts(self, e):
        found = self.entry_of(e.pino, e.name)
        return found is not None and found.twin() == e.twin()

    def names(self, pino):
        return {e.name for e in self.entries if e.pino == pino and self.counts(e)}

    def next_entry(self, pino, name):
        """Of the names above one the smallest; Python too orders bytes by the first difference, and a beginning first."""
        above = [n for n in self.names(pino) if n > name]
        return self.entry_of(pino, min(above)) if above else None

    def of_number(self, ino):
        return [c for c in self.contents if c.ino == ino]

    def length(self, ino):
        last = newest(self.of_number(ino))
        return last.isize if last else 0

    def giver(self, ino, i):
        return newest([c for c in self.of_number(ino) if c.gives(i)])

    def run(self, ino, at, limit):
        """The content that gives a byte, and where its run ends at the latest."""
        content = self.giver(ino, at)
        ends = [limit] + [c.offset for c in self.of_number(ino) if c.offset > at]
        if content:
            ends.append(content.offset + content.dsize)
        end = min(ends)
        # what makes it a run: every byte of it has the same giver
        assert all(self.giver(ino, i) == content for i in some_of(at, end))
        return content, end

    # Section 4: needed nodes.

    def is_named(self, ino):
        return any(e.ino == ino and self.counts(e) for e in self.entries)

    def is_needed(self, node):
        if isinstance(node, Entry):
            same = self.titled(node.pino, node.name)
            if newest(same).twin() != node.twin():
                return False
            return node.ino != 0 or any(e.version < node.version for e in same)
        if not self.is_named(node.ino):
            return False
        if newest(self.of_number(node.ino)).twin() == node.twin():
            return True
        return self.gives_below_length(node)

    def gives_below_length(self, node):
        end = min(self.length(node.ino), node.offset + node.dsize)
        bytes_of_it = some_of(node.offset, end, self.edges(node.ino))
        return any(self.giver(node.ino, i).twin() == node.twin() for i in bytes_of_it)

    def edges(self, ino):
        """Places at which the giver may change."""
        return {p for c in self.of_number(ino) for p in (c.offset, c.offset + c.dsize)}

    # Sections 6 and 8: what would be missed, and the look at the blocks in rising order.

    def is_missed(self, node, spent):
        """Whether it is needed and no block but its own that is not among the spent ones has a twin of it."""
        elsewhere = {n.block for n in self.nodes() if n.twin() == node.twin()} - {node.block} - spent
        return self.is_needed(node) and not elsewhere

    def found_spent(self, blocks):
        spent = set()
        for block in range(blocks):
            if not any(self.is_missed(n, spent) for n in self.nodes() if n.block == block):
                spent.add(block)
        return spent

    # Section 10: versions and numbers.

    def highest_version(self, number):
        return max([e.version for e in self.entries if e.pino == number] + [c.version for c in self.of_number(number)], default=0)

    def highest_number(self):
        return max([1] + [n for e in self.entries for n in (e.pino, e.ino)] + [c.ino for c in self.contents])


def some_of(start, end, edges=()):
    """The places from start up to end; of a long way only its first 300 and those at edges."""
    if end - start <= 300:
        return range(start, max(start, end))
    return sorted(set(range(start, start + 300)) | {p + d for p in edges for d in (-1, 0, 1) if start <= p + d < end})
