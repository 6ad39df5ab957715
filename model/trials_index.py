"""Makes the script of crates/trials_index and what its program has to print.

`python3 model/trials_index.py` writes crates/trials_index/stdin and crates/trials_index/stdout. What the lines of a script
mean stands at the beginning of that crate's main.rt; what they answer comes from tree.py, and so from docs/STORE.md.
"""

from pathlib import Path

from tree import Content, Entry, Table

FILE, DIRECTORY, GONE = 8, 4, 0
MOST = 2 ** 32 - 1


STATES = {"spent": 1, "bare": 2, "open": 3, "full": 4}


def folded(all, said, numbers):
    """Takes an answer into a number."""
    all ^= len(said)
    for n in numbers:
        all = (all ^ n) * 0x100000001B3 % 2 ** 64
    return all


# --- scripts -----------------------------------------------------------------------------------------------------------


class Case:
    """A table in the making, with the lines that make it and ask about it, and what they answer: a word and five numbers."""

    def __init__(self, blocks):
        self.entries, self.contents, self.states, self.ends = [], [], [], []
        self.answered = []
        self.table = Table([], [])
        for _ in range(blocks):
            self.tell("block")
            self.states.append("bare")
            self.ends.append(12)

    def ask(self, line, said, *numbers):
        self.answered.append((line, said, list(numbers) + [0] * (5 - len(numbers))))

    def tell(self, line):
        self.ask(line, "done")

    def laid(self, block, length):
        at = self.ends[block]
        self.ends[block] += -(-length // 4) * 4
        return at

    def entry(self, block, pino, version, ino, kind, name):
        at = self.laid(block, 40 + len(name))
        self.tell(f"entry {block} {at} {pino} {version} {ino} {kind} {name.decode()}")
        self.entries.append(Entry(block, at, pino, version, ino, kind, name))
        self.table = None

    def removal(self, block, pino, version, name):
        self.entry(block, pino, version, 0, GONE, name)

    def content(self, block, ino, version, isize, offset=0, dsize=0, hole=0, mode=33188):
        at = self.laid(block, 68 if hole else 68 + dsize)
        self.tell(f"content {block} {at} {ino} {version} {mode} {isize} {offset} {dsize} {hole}")
        self.contents.append(Content(block, at, ino, version, mode, isize, offset, dsize, hole))
        self.table = None

    def copy(self, block, node):
        """A twin of a node in a block."""
        if isinstance(node, Entry):
            self.entry(block, node.pino, node.version, node.ino, node.kind, node.name)
        else:
            self.content(block, node.ino, node.version, node.isize, node.offset, node.dsize, node.hole, node.mode)

    def state(self, block, state, end=0):
        self.tell(f"state {block} {STATES[state]} {end}")
        self.states[block] = state

    def now(self):
        if self.table is None:
            self.table = Table(self.entries, self.contents)
        return self.table

    # questions

    def found(self, line, e):
        if e is None:
            self.ask(line, "none")
        else:
            self.ask(line, "found", e.block, e.place, e.version, e.ino, e.kind)

    def of(self, pino, name):
        self.found(f"of {pino} {name.decode()}", self.now().entry_of(pino, name))

    def next(self, pino, name):
        e = self.now().next_entry(pino, name)
        self.found(f"next {pino} {name.decode()}", e)
        return e

    def listing(self, pino):
        """From the empty name to the last."""
        name = b""
        while e := self.next(pino, name):
            name = e.name

    def names(self, pino):
        self.ask(f"names {pino}", "is", len(self.now().names(pino)))

    def length(self, ino):
        self.ask(f"length {ino}", "is", self.now().length(ino))

    def run(self, ino, at, limit):
        content, end = self.now().run(ino, at, limit)
        line = f"run {ino} {at} {limit}"
        if content is None:
            self.ask(line, "none", 0, 0, end)
        else:
            self.ask(line, "hole" if content.hole else "plain", content.block, content.place, end)
        return end

    def runs(self, ino):
        """All runs of a file, and the bytes before and behind each end."""
        limit = self.now().length(ino)
        at = 0
        while at < limit:
            end = self.run(ino, at, limit)
            self.run(ino, end - 1, limit)
            at = end
        self.run(ino, limit, limit)

    def version(self, number):
        self.ask(f"version {number}", "is", self.now().highest_version(number))

    def number(self):
        self.ask("number", "is", self.now().highest_number())

    def missed(self):
        table, bits = self.now(), "1"
        spent = {block for block, state in enumerate(self.states) if state == "spent"}
        for block in range(len(self.states)):
            for node in table.nodes():
                if node.block == block:
                    bits += str(int(table.is_missed(node, spent)))
        self.ask("missed", "is", int(bits, 2) % 2 ** 64)

    def look(self):
        self.ask("states", "is", int("0" + "".join(str(STATES[state]) for state in self.states)))

    def find(self):
        spent = self.now().found_spent(len(self.states))
        self.states = ["spent" if block in spent else "full" for block in range(len(self.states))]
        self.tell("find")
        self.look()

    def everything(self):
        """Every question about the table; the last of them changes the states, so what would be missed is asked twice."""
        table = self.now()
        numbers = {1, MOST} | {n for e in table.entries for n in (e.pino, e.ino)} | {c.ino for c in table.contents}
        for pino in sorted(numbers):
            names = {e.name for e in table.entries if e.pino == pino}
            self.names(pino)
            self.version(pino)
            self.length(pino)
            self.listing(pino)
            for name in sorted(names | {b"zz"}):
                self.of(pino, name)
                if self.now().entry_of(pino, name) is None:
                    self.next(pino, name)
        for ino in sorted({c.ino for c in table.contents}):
            self.runs(ino)
        self.number()
        self.missed()
        self.find()
        self.missed()


# --- cases -------------------------------------------------------------------------------------------------------------


def truncated_and_grown():
    """What lay behind a cut must not come back where the file grows again."""
    case = Case(4)
    case.entry(0, 1, 1, 2, FILE, b"f")
    case.content(0, 2, 1, 0)
    case.content(0, 2, 2, 100, 0, 100)
    case.content(1, 2, 3, 40)
    case.everything()
    case.content(1, 2, 4, 100, 40, 60, hole=1)
    case.everything()
    case.content(2, 2, 5, 70, 60, 10)
    case.everything()
    case.content(3, 2, 6, 0)
    case.everything()
    case.content(3, 2, 7, 1, 0, 1)
    case.everything()
    return case


def holes():
    case = Case(3)
    case.entry(0, 1, 1, 2, FILE, b"f")
    case.content(0, 2, 1, 512, 0, 512, hole=1)
    case.content(0, 2, 2, 65536, 512, 65024, hole=1)
    case.everything()
    case.content(1, 2, 3, 65536, 30000, 1)
    case.content(1, 2, 4, 65536, 0, 65536, hole=1)
    case.everything()
    case.content(2, 2, 5, 65536, 65535, 1)
    case.everything()
    return case


def middles():
    """Ranges of which a newer one takes the beginning, the middle, the end or all, and one that several take together."""
    case = Case(4)
    case.entry(0, 1, 1, 2, FILE, b"f")
    case.content(0, 2, 1, 100, 0, 100)
    case.content(1, 2, 2, 100, 40, 20)
    case.everything()
    case.content(1, 2, 3, 100, 0, 10)
    case.content(1, 2, 4, 100, 90, 10)
    case.content(2, 2, 5, 100, 30, 40)
    case.everything()
    case.content(2, 2, 6, 100, 10, 20)
    case.content(3, 2, 7, 100, 70, 19)
    case.everything()
    case.content(3, 2, 8, 100, 89, 1)
    case.everything()
    case.content(0, 2, 9, 99, 99, 0)
    case.everything()
    return case


def falling():
    """Versions met in falling order."""
    case = Case(3)
    for block, version in ((0, 9), (0, 8), (0, 7), (1, 6), (1, 5), (2, 4), (2, 3)):
        case.content(block, 2, version, 10 * version, 8 * version, 20)
        case.entry(block, 1, version, version if version % 3 else 0, FILE if version % 3 else GONE, b"n")
    case.entry(2, 1, 1, 2, FILE, b"other")
    case.everything()
    return case


def names_come_and_go():
    """A name that is removed and made again, for another number, and as a directory."""
    case = Case(3)
    case.entry(0, 1, 1, 2, FILE, b"a")
    case.content(0, 2, 1, 5, 0, 5)
    case.everything()
    case.removal(0, 1, 2, b"a")
    case.everything()
    case.entry(1, 1, 3, 3, FILE, b"a")
    case.content(1, 3, 1, 7, 0, 7)
    case.everything()
    case.removal(2, 1, 4, b"a")
    case.removal(2, 1, 5, b"a")
    case.everything()
    case.entry(2, 1, 6, 2, DIRECTORY, b"a")
    case.everything()
    return case


def two_names():
    """Two names of one number, of which one goes, and then the other."""
    case = Case(2)
    case.entry(0, 1, 1, 2, FILE, b"a")
    case.entry(0, 1, 2, 2, FILE, b"b")
    case.entry(0, 9, 1, 2, DIRECTORY, b"a")
    case.content(1, 2, 1, 5, 0, 5)
    case.everything()
    case.removal(0, 1, 3, b"a")
    case.everything()
    case.removal(0, 9, 2, b"a")
    case.removal(0, 1, 4, b"b")
    case.everything()
    return case


def inside_itself():
    case = Case(2)
    case.entry(0, 5, 1, 5, DIRECTORY, b"self")
    case.entry(0, 6, 1, 7, DIRECTORY, b"x")
    case.entry(0, 7, 1, 6, DIRECTORY, b"y")
    case.content(1, 5, 2, 0, mode=16877)
    case.content(1, 6, 2, 3, 0, 3, mode=16877)
    case.everything()
    case.removal(1, 5, 3, b"self")
    case.everything()
    return case


def removals():
    """A removal whose older entry lies in the same block, in another, in a spent one, or nowhere."""
    case = Case(5)
    case.entry(0, 1, 1, 2, FILE, b"same")
    case.removal(0, 1, 2, b"same")
    case.entry(1, 1, 3, 3, FILE, b"another")
    case.removal(0, 1, 4, b"another")
    case.entry(2, 1, 5, 4, FILE, b"spent")
    case.removal(0, 1, 6, b"spent")
    case.removal(3, 1, 7, b"gone")
    case.everything()
    for block, state, end in ((0, "full", 0), (1, "open", 60), (2, "spent", 0), (3, "bare", 0)):
        case.state(block, state, end)
    case.look()
    case.missed()
    case.state(0, "spent")
    case.missed()
    case.removal(4, 1, 8, b"same")
    case.everything()
    return case


def older_removals():
    """An older entry that is a removal itself keeps a removal needed; an older one that comes last in the table does too."""
    case = Case(3)
    case.removal(0, 1, 2, b"r")
    case.everything()
    case.removal(1, 1, 5, b"r")
    case.everything()
    case.removal(2, 1, 1, b"r")
    case.everything()
    case.removal(2, 2, 1, b"r")
    case.removal(2, 1, 3, b"rr")
    case.everything()
    return case


def twins():
    """Twins in two and in three blocks, of both kinds, and twins in one block."""
    case = Case(4)
    case.entry(0, 1, 1, 2, FILE, b"f")
    case.content(1, 2, 1, 5, 0, 5)
    case.everything()
    entry, content = case.entries[0], case.contents[0]
    case.copy(2, entry)
    case.everything()
    case.copy(2, content)
    case.everything()
    case.copy(3, entry)
    case.copy(3, content)
    case.everything()
    case.copy(3, entry)
    case.copy(3, content)
    case.everything()
    case.state(3, "spent")
    case.missed()
    case.state(2, "spent")
    case.missed()
    return case


def twins_of_removals():
    case = Case(3)
    case.entry(0, 1, 1, 2, FILE, b"f")
    case.removal(0, 1, 2, b"f")
    case.removal(1, 1, 2, b"f")
    case.everything()
    case.entry(2, 1, 1, 2, FILE, b"f")
    case.everything()
    return case


def twins_in_a_ring():
    """Each block has twins in the next: not all can be done without."""
    case = Case(3)
    for n in range(3):
        case.entry(n, 1, n + 1, n + 2, FILE, bytes([97 + n]))
    for n in range(3):
        case.copy((n + 1) % 3, case.entries[n])
    case.everything()
    return case


def kinds_apart():
    """A content and an entry that agree in number and version are no twins."""
    case = Case(2)
    case.entry(0, 2, 3, 2, DIRECTORY, b"d")
    case.content(1, 2, 3, 0, mode=16877)
    case.everything()
    return case


def root_with_contents():
    case = Case(2)
    case.content(0, 1, 1, 4, 0, 4, mode=16877)
    case.entry(0, 1, 1, 2, FILE, b"f")
    case.everything()
    case.entry(1, 2, 1, 1, DIRECTORY, b"up")
    case.everything()
    case.removal(1, 2, 2, b"up")
    case.everything()
    return case


def orders():
    """Names that are beginnings of one another, and bytes above 127."""
    case = Case(3)
    every = [text.encode() for text in (
        "a", "ab", "abc", "b", "A", "\x01", "\x7f", "\x80", "\u00e9", "a\u00e9", "ab\u07ff", "\u00e9\u00e9", "\uffff",
        "\U0010ffff", "z" * 31, "z" * 32, "z" * 30 + "\x80", "\U0010ffff" * 8)]
    for n, name in enumerate(every):
        case.entry(n % 3, 1, len(every) - n, n + 2, FILE if n % 2 else DIRECTORY, name)
    case.everything()
    case.removal(0, 1, 40, b"ab")
    case.removal(1, 1, 41, "\uffff".encode())
    case.removal(2, 1, 42, b"\x01")
    case.everything()
    for text in ("aa", "abb", "\x02", "\x7f\x7f", "\u00ea", "z" * 33, "\U0010ffff" * 9):
        case.next(1, text.encode())
    return case


def versions():
    """The highest over both kinds, at the ends of what a version can be."""
    case = Case(2)
    case.everything()
    case.content(0, 5, 9, 0)
    case.entry(0, 5, 8, 6, FILE, b"x")
    case.entry(1, 6, 9, 5, FILE, b"x")
    case.content(1, 6, 8, 0)
    case.everything()
    case.removal(1, 5, MOST, b"x")
    case.content(0, 6, MOST - 1, 0)
    case.everything()
    return case


def numbers():
    """The highest number may stand in any field, also of a node that is not needed."""
    for field in range(3):
        case = Case(2)
        case.entry(0, 7, 2, 6, FILE, b"x")
        case.content(0, 5, 1, 0)
        if field == 0:
            case.removal(1, 90, 1, b"x")
        elif field == 1:
            case.entry(1, 7, 1, MOST, FILE, b"x")
        else:
            case.content(1, 77, 1, 0)
        case.everything()
        yield case


def far():
    """Ranges and lengths up to the end of what a number can be."""
    case = Case(3)
    case.entry(0, MOST, MOST, MOST, DIRECTORY, b"x")
    case.content(0, MOST, 1, MOST, 0, MOST, hole=1)
    case.content(1, MOST, 2, MOST, MOST - 10, 10, hole=1)
    case.everything()
    case.content(2, MOST, 3, MOST, MOST - 5, MOST, hole=1)
    case.run(MOST, MOST - 5, MOST)
    case.run(MOST, MOST, MOST)
    case.everything()
    case.content(2, MOST, 4, MOST, MOST, MOST, hole=1)
    case.run(MOST, MOST - 1, MOST)
    case.run(MOST, MOST, MOST)
    case.run(MOST, 0, 0)
    case.run(MOST, 20, 10)
    case.everything()
    return case


def shown_by_one_byte():
    """An old content of which just one byte is left, at each place, and just none."""
    for left in range(6):
        case = Case(2)
        case.entry(0, 1, 1, 2, FILE, b"f")
        case.content(0, 2, 1, 6, 1, 4)
        version = 2
        for i in range(6):
            if i != left:
                case.content(1, 2, version, 6, i, 1)
                version += 1
        case.everything()
        case.content(1, 2, version, left, 0, 0)
        case.everything()
        yield case


def bad_lines():
    case = Case(1)
    for line in ("nonsense", "", "entry", "entry 0 12 1 1 2 8", "entry 0 12 1 1 2 8 61", "entry 0 12 1 1 2 8 a b", "of 1", "of a",
                 "of a 1", "names", "names a", "names 1 2", "names -1", "names 4294967296", "run 1 2", "run 1 2 3 4", "number 0",
                 "missed 0", "states ", "content 0 12 2 1 33188 5 0 5", "content 0 12 2 1 33188 5 0 5 0 0", "state 0 3", "block 1"):
        case.ask(line, "not understood")
    for line in ("entry 1 12 1 1 2 8 a", "entry 0 12 1 1 2 256 a", "entry 0 12 1 1 2 8 " + "a" * 33, "state 1 1 0", "state 0 0 0",
                 "state 0 5 0", "content 1 12 2 1 33188 5 0 5 0", "state 4294967295 3 12"):
        case.ask(line, "not possible")
    case.everything()
    return case


def without_blocks():
    case = Case(0)
    case.ask("state 0 4 0", "not possible")
    case.everything()
    return case


def cases():
    for make in (truncated_and_grown, holes, middles, falling, names_come_and_go, two_names, inside_itself, removals,
                 older_removals, twins, twins_of_removals, twins_in_a_ring, kinds_apart, root_with_contents, orders, versions, far,
                 bad_lines, without_blocks):
        yield make()
    yield from numbers()
    yield from shown_by_one_byte()


# --- by chance ---------------------------------------------------------------------------------------------------------


class Chance:
    """Numbers that look random, by a linear congruence."""

    def __init__(self, seed):
        self.state = seed

    def below(self, n):
        self.state = (self.state * 6364136223846793005 + 1442695040888963407) % 2 ** 64
        return (self.state >> 33) % n

    def of(self, *choices):
        return choices[self.below(len(choices))]


def random_entry(case, chance, block, used):
    pino = chance.of(1, 1, 2, 3)
    version = chance.below(12) + 1
    if ("entry", pino, version) in used:
        return
    used.add(("entry", pino, version))
    name = chance.of(b"a", b"b", b"ab", "\u00e9".encode())
    if chance.below(3) == 0:
        case.removal(block, pino, version, name)
    else:
        case.entry(block, pino, version, chance.of(1, 2, 3, 4), chance.of(FILE, DIRECTORY), name)


def random_content(case, chance, block, used):
    ino = chance.of(1, 2, 2, 2, 3)
    version = chance.below(16) + 1
    if ("content", ino, version) in used:
        return
    used.add(("content", ino, version))
    offset, dsize = chance.below(12), chance.below(8)
    isize = chance.of(chance.below(16), offset + dsize)
    case.content(block, ino, version, isize, offset, dsize, hole=chance.below(4) // 3)


def random_table(chance):
    """A small table, in which a node in four is a twin of one before."""
    blocks = chance.below(4) + 2
    case = Case(blocks)
    used = set()
    for _ in range(chance.below(18) + 3):
        block = chance.below(blocks)
        nodes = case.entries + case.contents
        if nodes and chance.below(4) == 0:
            case.copy(block, nodes[chance.below(len(nodes))])
        else:
            chance.of(random_entry, random_content)(case, chance, block, used)
    for block in range(blocks):
        case.state(block, chance.of("full", "full", "spent", "bare"))
    case.everything()
    return case


def whole():
    parts, out = [], []
    for case in cases():
        parts.append([line for line, _, _ in case.answered])
        out += [f"{line}: {said} {numbers}" for line, said, numbers in case.answered]
    chance = Chance(11)
    for _ in range(300):
        case = random_table(chance)
        case.ask("quiet", "not understood")
        parts.append([line for line, _, _ in case.answered])
        all = 1
        for _, said, numbers in case.answered:
            all = folded(all, said, numbers)
        out.append(f"all: is {[all, 0, 0, 0, 0]}")
    return "\n#\n".join("\n".join(lines) for lines in parts) + "\n", "\n".join(out) + "\n"


if __name__ == "__main__":
    crate = Path(__file__).parent.parent / "crates" / "trials_index"
    for name, text in zip(("stdin", "stdout"), whole()):
        (crate / name).write_text(text)
