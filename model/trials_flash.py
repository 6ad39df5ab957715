"""Makes the script of crates/trials_flash and what its program has to print.

`python3 model/trials_flash.py` writes crates/trials_flash/stdin and crates/trials_flash/stdout. What the lines of a script
mean stands at the beginning of that crate's main.rt; what they answer comes from flashes.py, and so from docs/FLASH.md.
"""

from pathlib import Path

import flashes
from flashes import Refused
from sums import crc

FAR = 2 ** 64 - 1
FAULTS = [0, 1, 0x10, 0x80, 0xFF]
MOST_MEMORY, MOST_RUN = 131072, 8192
ACTS = {"shape": 0, "mark": 1, "read": 3, "program": 4, "erase": 1, "arm": 2, "restart": 0, "look": 1}
NOT_UNDERSTOOD = (255, [])


def pattern(n, bits):
    return bytes(i % 251 | bits for i in range(n))


def mixed(all, n):
    """One more number in a number."""
    return (all ^ n) * 0x100000001B3 % 2 ** 64


# --- what a line answers -----------------------------------------------------------------------------------------------


def parsed(line):
    """The word of a line, and the numbers behind it; None where one of them is no number."""
    verb, *words = line.split(" ")
    if all(w.isascii() and w.isdigit() and int(w) <= FAR for w in words):
        return verb, [int(w) for w in words]
    return verb, None


def answer(flash, line):
    """The number of a refusal, or 0, and the numbers that are answered."""
    verb, given = parsed(line)
    if verb in ("chip", "pile"):
        return 0, list(flash.shape())
    if given is None or ACTS.get(verb) != len(given):
        return NOT_UNDERSTOOD
    if verb in ("read", "program") and given[2] > MOST_RUN or verb in ("program", "arm") and given[-1] > 255:
        return NOT_UNDERSTOOD
    return {"read": read, "look": look, "shape": shape, "restart": restart}.get(verb, plain)(flash, verb, given)


def plain(flash, verb, given):
    """A call that answers a number or nothing."""
    if verb == "program":
        block, offset, n, bits = given
        given = [block, offset, pattern(n, bits)]
    try:
        said = getattr(flash, verb)(*given)
    except Refused as refusal:
        return refusal.number, []
    return 0, [] if said is None else [said]


def shape(flash, verb, given):
    return 0, list(flash.shape())


def restart(flash, verb, given):
    flash.restart()
    return plain(flash, "mark", [0])


def read(flash, verb, given):
    try:
        buffer, number = flash.read(*given), 0
    except Refused as refusal:
        buffer, number = b"\xa5" * given[2], refusal.number
    return number, [len(buffer), crc(buffer)]


def look(flash, verb, given):
    eighth = flash.shape()[1] // 8
    all, readable = 1, 0
    for i in range(8):
        try:
            all = mixed(all, crc(flash.read(given[0], i * eighth, eighth)))
            readable |= 0x80 >> i
        except Refused:
            pass
    return 0, [all, readable]


# --- a script as it is made --------------------------------------------------------------------------------------------


class Script:
    """The lines of a script and what is printed for them, with the flash of the part at hand."""

    def __init__(self):
        self.parts, self.out = [], []

    def part(self, first, *lines, quiet=False):
        """Begins a part; where there is no flash, the lines are all of it."""
        self.parts.append([first, *lines])
        self.flash, self.all, self.quiet = None, 1, quiet
        text = "\n".join([first, *lines])
        verb, given = parsed(first)
        if verb not in ("chip", "pile") or given is None or len(given) != 3 or given[2] not in (4, 512, 528) or \
                given[0] > MOST_MEMORY or given[1] > 255:
            self.print(text, *NOT_UNDERSTOOD)
            return
        size, bits, page = given[:3]
        memory = pattern(size, bits)
        try:
            flash = flashes.nor(memory) if page == 4 else flashes.nand(memory, page)
        except Refused as refusal:
            self.print(text, refusal.number, [size, crc(memory)])
            return
        try:
            self.flash = flashes.Buffer(flash) if verb == "pile" else flash
        except Refused as refusal:
            self.print(text, refusal.number, list(flash.shape()))
            return
        self.parts[-1] = []
        for line in (first, *lines):
            self.call(line)

    def print(self, line, number, given):
        verdict = {0: "done", 255: "not understood"}.get(number, "refused")
        self.out.append(f"{line}: {verdict} {number} {given + [0] * (4 - len(given))}")

    def call(self, line):
        """One line, with its answer."""
        self.parts[-1].append(line)
        number, given = answer(self.flash, line)
        for n in [number] + given + [0] * (4 - len(given)):
            self.all = mixed(self.all, n)
        if not self.quiet:
            self.print(line, number, given)

    def calls(self, text):
        """Lines, but for what stands behind a '-'."""
        for line in text.splitlines():
            line = line.partition("-")[0].strip()
            if line:
                self.call(line)

    def written(self):
        return "#".join("\n".join(part) + "\n" for part in self.parts), "\n".join(self.out) + "\n"


# --- memory ------------------------------------------------------------------------------------------------------------


def sizes(script):
    """Memory that is just right and just wrong."""
    for name, page, block in (("chip", 4, 4096), ("chip", 512, 4096), ("chip", 528, 4224), ("pile", 4, 4096), ("pile", 512, 4096),
                              ("pile", 528, 4224)):
        for n in (0, 4, block, 3 * block, 4 * block - 1, 4 * block, 4 * block + 1, 4 * block + 4, 5 * block, 16 * block - 1,
                  16 * block, 16 * block + 4, 17 * block):
            script.part(f"{name} {n} 3 {page}")
    # what the memory holds is what the blocks hold; the shape can be had without power
    for first in (NOR, NAND, LARGE, OVER_NOR, PILE):
        for bits in (0, 255):
            script.part(first.replace(" 0 ", f" {bits} "))
            script.calls("mark 0\nmark 3\nlook 0\nlook 1\nlook 3\nread 2 100 16\narm 0 0\nerase 0\nshape")


def bad_lines(script):
    """Lines that are no calls change nothing."""
    for first in ("chip", "chip 16384", "chip 16384 0", "chip 16384 0 4 0", "chip 16384 256 4", "chip 16384 0 513", "chip x 0 4",
                  "chip 16384 0 -4", "flash 16384 0 4", f"chip {MOST_MEMORY + 1} 0 4", f"chip {FAR} 0 4", f"chip {FAR + 1} 0 4", "", "mark 0"):
        script.part(first)
    script.part(NOR)
    for line in ("erase", "erase 0 0", "erase x", "erase -1", "mark", "mark 1 2", "read 0 0", "read 0 0 4 0", f"read 0 0 {MOST_RUN + 1}",
                 "program 0 0 4", "program 0 0 4 256", "program 0 0 4 0 0", f"program 0 0 {MOST_RUN + 1} 0", "arm 0", "arm 0 256",
                 "arm 0 0 0", "look", "look 0 0", "shape 0", "restart 0", "wipe 0", "Erase 0", f"erase {FAR + 1}", f"erase {FAR}",
                 "erase 99999999999999999999999", f"read 0 0 {MOST_RUN}", f"program 0 0 {MOST_RUN} 0", f"arm {FAR} 255", "read  0 0 4", "",
                 "look 0", "mark 0"):
        script.call(line)


# --- refusals ----------------------------------------------------------------------------------------------------------


def refusals(script):
    """Each refusal alone, and then every two that apply at once. The memory begins as a pattern: every block is full."""
    b, s, p, _ = script.flash.shape()
    script.calls(f"""
        mark 0
        mark {b - 1}
        mark {b}
        mark {FAR}
        program 0 0 {p} 0
        program 0 {s - p} {p} 0
        program 0 {s} 0 0
        erase 0
        erase 1
        erase {b - 1}
        erase {b}
        erase {FAR}
        mark 0
        mark 2
        - reads: by block, by offset, by length, and just inside
        read 0 0 {s}
        read 0 0 {s + 1}
        read 0 1 {s}
        read 0 {s - 1} 1
        read 0 {s - 1} 2
        read 0 {s} 0
        read 0 {s} 1
        read 0 {s + 1} 0
        read 0 {FAR} 0
        read 0 {FAR} 2
        read 2 {s - 96} 96
        read {b - 1} 0 {s}
        read {b - 1} {s} 0
        read {b} 0 0
        read {b} 0 4
        read {FAR} 0 4
        read 1 3 5
        - programs: just inside, and 11 by block, by offset and by length
        program 0 0 0 0
        program 0 0 {2 * p} 0
        mark 0
        program 0 {2 * p} {p} 64
        program {b - 1} 0 {s} 0
        program {b - 1} {s} 0 0
        program 1 {s - p} {p} 0
        program 1 {s - p} {2 * p} 0
        program 0 {s} {p} 0
        program 0 {s} 0 0
        program 0 {s + p} 0 0
        program 0 {FAR - FAR % p - p} {p} 0
        program 0 {FAR - FAR % p} {2 * p} 0
        program 0 {FAR - 3} 4 0
        program 0 {FAR - 3} 8 0
        program 0 {p} {s + p} 0
        program {b} 0 {p} 0
        program {b} 0 0 0
        program {FAR} 0 {p} 0
        - 12 by offset and by length
        program 0 {3 * p + 2} {p} 0
        program 0 {3 * p} {p - 1} 0
        program 0 {3 * p + 1} 0 0
        program 0 {3 * p + 2} {p - 2} 0
        program 0 {3 * p} {p + 2} 0
        - 13, and just inside
        program 0 {2 * p} {p} 0
        program 0 0 0 0
        program 0 {3 * p} {p} 0
        - 11 and 12, by block and by offset and length
        program {b} 2 {p} 0
        program {b} 0 {p - 1} 0
        program 0 {s - 2} {p} 0
        program 0 {s - 1} 2 0
        program 0 {s + 1} 0 0
        - 11 and 13
        program 0 0 {s + p} 0
        program 0 {3 * p} {s - 2 * p} 0
        - 12 and 13
        program 0 2 {p} 0
        program 0 0 {p - 1} 0
        program 0 3 0 0
        - 11, 12 and 13
        program 0 2 {s} 0
        - nothing of all this changed the blocks
        look 0
        mark 0
        read 0 0 {s}
        look 1
        look 2
        look {b - 1}
    """)
    if p == 4:
        # words of ff do not raise the mark; a word with one other byte does
        script.calls("restart\nerase 2\nprogram 2 0 8 255\nmark 2\nprogram 2 4 4 0\nmark 2\nprogram 2 8 4 252\nmark 2\nlook 2")
        script.calls("program 2 8 4 0\nprogram 2 12 4 0\nmark 2\nread 2 0 16\nerase 2\nmark 2")
    else:
        script.calls(f"erase 2\nprogram 2 0 {2 * p} 255\nmark 2\nprogram 2 {p} {p} 254\nmark 2\nlook 2\nerase 2\nmark 2")


def without_power(script):
    """20 alone and before every other; what takes no step. Block 0 has its first four pages programmed."""
    b, s, p, g = script.flash.shape()
    script.calls(f"""
        restart
        erase 0
        erase 1
        program 0 0 {4 * p} 0
        program 1 0 {g} 0
        arm 0 0
        erase 1
        - 20 alone
        erase 1
        read 0 0 4
        read 0 0 0
        program 0 {4 * p} {p} 0
        program 0 {4 * p} 0 0
        mark 0
        arm 5 255
        - 20 and 11
        erase {b}
        erase {FAR}
        mark {b}
        mark {FAR}
        read {b} 0 4
        read 0 {s - 3} 4
        read 0 {s + 1} 0
        program {b} 0 {p} 0
        program 0 {s} {p} 0
        program 0 {p} {s} 0
        - 20 and 12
        program 0 {4 * p + 1} {p} 0
        program 0 {4 * p} {p - 1} 0
        - 20 and 13
        program 1 0 {p} 0
        - all of them
        program {b} 2 {p - 1} 0
        program 1 2 {s + p - 1} 0
        - the shape can be had; nothing changed, and the power is steady again
        shape
        look 0
        restart
        look 0
        mark 0
        look 1
        mark 1
        erase 0
        program 0 0 {4 * p} 0
        erase 1
        mark 1
        - a refused call is no step, nor is a program of no bytes
        restart
        arm 0 128
        program 1 2 {p} 0
        program 1 0 {p - 1} 0
        program {b} 0 {p} 0
        erase {b}
        read 0 {s} 1
        read 0 0 16
        mark {b}
        program 1 {2 * p} 0 0
        mark 1
        program 1 0 {2 * g} 0
        restart
        look 1
        mark 1
    """)


# --- cuts of the power -------------------------------------------------------------------------------------------------


def cuts(script):
    """A program of five pages and an erase, cut at every step."""
    _, _, p, g = script.flash.shape()
    if p == g:
        for n in range(7):
            for j in FAULTS:
                script.calls(f"restart\nerase 0\narm {n} {j}\nprogram 0 {p} {5 * p} 2\nrestart\nlook 0\nmark 0\nread 0 {p} 16")
    for n in range(2):
        for j in FAULTS + [0x11]:
            script.calls(f"restart\nerase 0\nprogram 0 0 {2 * g} 2\narm {n} {j}\nerase 0\nrestart\nlook 0\nmark 0\nread 0 {g} 16")


def counts(script):
    """Steps are counted from call to call; an arming replaces that before it; a restart disarms."""
    _, s, _, g = script.flash.shape()
    script.calls(f"""
        restart
        erase 0
        erase 1
        arm 0 1
        arm 2 128
        program 0 0 {5 * g} 0
        restart
        look 0
        mark 0
        erase 0
        arm 9 1
        arm 0 64
        program 0 0 {5 * g} 0
        restart
        look 0
        - over programs and erases of one block
        erase 0
        arm 6 16
        program 0 0 {3 * g} 0
        erase 0
        program 0 0 {3 * g} 64
        mark 0
        restart
        look 0
        mark 0
        - over blocks
        erase 0
        erase 1
        arm 4 32
        program 0 0 {2 * g} 0
        program 1 0 {2 * g} 0
        erase 1
        restart
        look 0
        look 1
        mark 1
        - a restart disarms
        erase 0
        arm 0 255
        restart
        program 0 0 {2 * g} 0
        look 0
        - a whole block
        erase 2
        arm {s // g} 0
        program 2 0 {s} 0
        mark 2
        erase 2
        restart
        look 2
        erase 2
        arm {s // g - 1} 4
        program 2 0 {s} 0
        restart
        look 2
        - the greatest count
        erase 2
        arm {FAR} 255
        program 2 0 {s} 0
        erase 2
        mark 2
        restart
    """)


# --- pages that cannot be read -----------------------------------------------------------------------------------------


def unreadable(script):
    """Pages that an odd fault left unreadable; block 0 has its second so, block 1 its last, which was to be 0xff."""
    b, s, _, g = script.flash.shape()
    script.calls(f"""
        restart
        erase 0
        erase 1
        erase 2
        arm 1 1
        program 0 0 {3 * g} 0
        restart
        arm 7 129
        program 1 0 {s} 255
        restart
        look 0
        mark 0
        look 1
        mark 1
        - up to it, into it, from it on, behind it, and no bytes of it
        read 0 0 {g}
        read 0 0 {g + 1}
        read 0 {g - 1} 1
        read 0 {g - 1} 2
        read 0 {g} 1
        read 0 {2 * g - 1} 1
        read 0 {2 * g - 1} 2
        read 0 {2 * g} 1
        read 0 {2 * g} {s - 2 * g}
        read 0 {g} 0
        read 0 {g + 5} 0
        read 0 0 {s}
        read 1 {s - 1} 1
        read 1 {s - g} {g}
        read 1 {s - g} 0
        read 1 {s} 0
        read 1 0 {s - g}
        - 11 and 28
        read 1 {s - 1} 2
        read 1 0 {s + 1}
        read {b} {g} {g}
        - 13 below it, and just behind it
        program 0 0 {g} 0
        program 0 {g} {g} 0
        program 0 {2 * g} {g} 32
        program 1 {s - g} {g} 0
        program 1 {s} 0 0
        mark 0
        look 0
        - 20 and 28, 20 and 11 and 28
        arm 0 0
        erase 2
        read 0 {g} {g}
        read 1 {s - 1} 2
        restart
        - they stay so over a restart and the erase of another block
        erase 2
        look 0
        look 1
        look 2
        - a failed erase with an even fault leaves them so, and the others readable
        arm 0 2
        erase 0
        restart
        look 0
        mark 0
        read 0 {2 * g} 16
        - with an odd one every page is
        program 2 0 {g} 0
        arm 0 3
        erase 2
        restart
        look 2
        mark 2
        program 2 {s} 0 0
        program 2 {s - g} {g} 0
        - a full erase ends it
        erase 0
        look 0
        mark 0
        erase 1
        look 1
        mark 1
        arm 0 3
        erase 1
        restart
        arm 1 1
        erase 1
        look 1
        erase 2
        restart
        look 2
        erase 2
        look 2
        program 2 0 {s} 0
        look 2
    """)


def last_block(script):
    """The last pages of the largest chip."""
    b, s, _, g = script.flash.shape()
    script.calls(f"""
        arm 7 1
        program {b - 1} 0 {s} 0
        restart
        look {b - 1}
        look {b - 2}
        look 0
        mark {b - 1}
        mark {b - 2}
        program {b - 2} {s - g} {g} 0
        arm 1 5
        erase {b - 2}
        erase {b - 1}
        restart
        look {b - 1}
        mark {b - 2}
        look {b - 2}
        erase {b - 1}
        look {b - 1}
        mark {b}
    """)


# --- the write buffer over pages of 512 --------------------------------------------------------------------------------


def holding(script):
    """What is held: reads, gaps, marks, and what passes it down."""
    script.calls("""
        restart
        erase 0
        erase 1
        erase 2
        - part held, part settled
        program 0 0 600 0
        mark 0
        read 0 500 16
        read 0 508 8
        read 0 512 16
        read 0 596 8
        read 0 0 4096
        look 0
        - a gap, which is 0xff
        program 0 700 8 3
        mark 0
        read 0 596 16
        read 0 696 16
        read 0 0 4096
        - a run up to the batch's end
        program 0 708 316 5
        mark 0
        read 0 1020 8
        restart
        look 0
        mark 0
        - lost by a restart
        program 0 1024 4 9
        mark 0
        read 0 1020 16
        restart
        mark 0
        read 0 1020 16
        - the last byte that is not 0xff is the mark
        program 0 1024 4 252
        mark 0
        program 0 1028 4 255
        mark 0
        program 0 1024 4 0
        program 0 1028 4 254
        mark 0
        read 0 1024 16
        - the last word of a batch
        program 0 1532 4 0
        mark 0
        restart
        look 0
        mark 0
        - over several batches, with a rest
        program 0 1540 1600 0
        mark 0
        look 0
        restart
        look 0
        mark 0
        - up to the block's end
        program 0 3172 924 0
        mark 0
        look 0
        restart
        look 0
        program 0 4096 0 0
        - a whole block
        program 1 0 4096 0
        restart
        look 1
        - a run that is just a batch, and one word more or less
        erase 1
        program 1 0 512 0
        program 1 512 508 0
        restart
        look 1
        program 1 512 516 1
        mark 1
        restart
        look 1
        mark 1
    """)


def empty_programs(script):
    """Programs of no bytes, and programs into a later batch."""
    script.calls("""
        restart
        erase 0
        program 0 0 0 0
        program 0 512 0 0
        program 0 4096 0 0
        mark 0
        - inside the held batch it stays held
        program 0 0 20 0
        program 0 20 0 0
        program 0 508 0 0
        mark 0
        restart
        look 0
        mark 0
        - at its end it is passed down
        program 0 0 20 0
        program 0 512 0 0
        mark 0
        restart
        look 0
        mark 0
        - and behind that too
        program 0 512 20 0
        program 0 2048 0 0
        mark 0
        restart
        look 0
        mark 0
        - the last batch, by an empty program at the block's end
        program 0 3584 4 0
        mark 0
        program 0 4096 0 0
        restart
        look 0
        - a run in a later batch passes the held one down
        erase 0
        program 0 8 20 0
        program 0 1024 4 7
        mark 0
        look 0
        restart
        look 0
        mark 0
        program 0 516 4 0
        program 0 1536 516 0
        look 0
        restart
        look 0
        mark 0
        - no run may begin below the mark
        program 0 2047 0 0
        program 0 2044 4 0
        program 0 2048 4 0
        program 0 2048 0 0
        program 0 2052 0 0
    """)


def nothing_but_ff(script):
    """Bytes 0xff alone hold nothing; a whole batch of them is passed down all the same."""
    script.calls("""
        restart
        erase 0
        erase 1
        program 0 0 8 255
        mark 0
        program 1 0 4 0
        mark 1
        program 0 0 4 255
        program 0 512 0 0
        erase 1
        program 0 0 508 255
        program 1 0 4 255
        program 0 1024 4 255
        mark 0
        program 0 0 4 0
        read 0 0 16
        mark 0
        - with 0xff in a later batch, held bytes are passed down
        program 0 512 4 255
        mark 0
        program 1 0 4 0
        mark 1
        restart
        look 0
        look 1
        - 0xff over a gap of a batch that is held
        program 0 520 4 0
        program 0 524 4 255
        program 1 0 4 0
        program 0 600 4 255
        mark 0
        program 0 1020 4 255
        mark 0
        program 1 0 4 0
        restart
        look 0
        mark 0
        - 508 bytes take no step, 512 do
        erase 2
        arm 0 1
        program 2 0 508 255
        program 2 0 0 0
        mark 2
        program 2 0 512 255
        restart
        look 2
        mark 2
        erase 2
        arm 0 2
        program 2 508 4 255
        restart
        look 2
        mark 2
        read 2 0 16
    """)


def other_blocks(script):
    """14, alone and with others; erases, arms and refused calls while a batch is held."""
    script.calls(f"""
        restart
        erase 0
        erase 1
        erase 2
        program 1 0 512 0
        program 0 0 20 0
        - 14 alone: with bytes, with none, with 0xff only, at a batch's start and inside
        program 2 0 4 0
        program 2 0 0 0
        program 2 0 4 255
        program 2 516 8 0
        program 2 4096 0 0
        program 2 0 4096 0
        - 11 and 14, 12 and 14, 13 and 14, and three
        program 4 0 4 0
        program {FAR} 0 0 0
        program 2 4096 4 0
        program 2 4100 0 0
        program 2 2 4 0
        program 2 0 3 0
        program 1 0 4 0
        program 1 508 0 0
        program 1 2 4 0
        program 1 0 4100 0
        program 2 4094 4 0
        program 1 2 4099 0
        - what is held is as it was
        mark 0
        read 0 0 24
        read 0 12 16
        look 0
        look 1
        - refused calls of its own block leave it too
        program 0 16 4 0
        program 0 22 4 0
        program 0 20 3 0
        program 0 20 4080 0
        program 0 4100 0 0
        erase 4
        erase {FAR}
        mark 4
        read 0 4095 2
        read 0 12 16
        - an erase of another block leaves it, an erase of its own drops it
        erase 1
        look 0
        mark 0
        mark 1
        program 1 0 4 0
        arm 9 1
        read 0 12 16
        erase 0
        look 0
        mark 0
        program 1 0 4 0
        mark 1
        - a failed erase of another block drops it
        arm 0 16
        erase 2
        restart
        look 1
        mark 1
        look 2
        - and one of its own
        program 1 0 4 0
        arm 0 16
        erase 1
        restart
        look 1
        mark 1
        program 0 0 4 0
        mark 0
        - passed down, another block may follow
        program 1 0 4 0
        program 0 512 0 0
        program 1 0 4 0
        mark 1
        restart
        look 0
        look 1
    """)


def held_cuts(script):
    """Cuts where a batch is held: a run over its end, a run in a later batch, an empty program at its end, an erase."""
    runs = (("0 20 1600 3", 5), ("0 1024 600 3", 4), ("0 512 0 0", 2), ("0 100 4 3", 1), ("0 508 4 255", 2))
    for run, steps in runs:
        for n in range(steps):
            for j in FAULTS:
                script.calls(f"restart\nerase 0\nprogram 0 0 20 0\narm {n} {j}\nprogram {run}")
                script.calls("read 0 1528 16\nread 0 8 16\nmark 0\nrestart\nlook 0\nmark 0")
    for block in (0, 1):
        for n in range(2):
            for j in FAULTS:
                script.calls(f"restart\nerase 0\nerase 1\nprogram 1 0 520 3\nprogram 0 512 20 0\narm {n} {j}\nerase {block}")
                script.calls("mark 0\nmark 1\nrestart\nlook 0\nlook 1\nmark 0\nmark 1")


def held_steps(script):
    """A batch passed down is a step, and a run that stays in the buffer is none."""
    script.calls("""
        restart
        erase 0
        erase 1
        arm 2 16
        program 0 0 4 0
        program 0 4 4 0
        program 0 100 200 0
        program 0 508 4 0
        program 0 512 20 0
        program 0 532 20 0
        program 0 1024 4 0
        program 0 1028 4 0
        mark 0
        program 0 1536 0 0
        restart
        look 0
        mark 0
        - armed anew while a batch is held
        erase 0
        arm 0 1
        program 0 0 8 0
        arm 1 128
        program 0 8 504 0
        program 0 512 4 0
        arm 0 4
        program 0 516 508 0
        mark 0
        restart
        look 0
        mark 0
        - a restart disarms, and what was held is no more
        erase 0
        program 0 0 8 0
        arm 0 1
        restart
        program 0 0 512 0
        look 0
        - an arming without power is refused, and changes nothing
        arm 0 1
        erase 1
        arm 5 0
        restart
        erase 1
        look 1
    """)


def held_unreadable(script):
    """A held batch beside a page that cannot be read."""
    script.calls("""
        restart
        erase 0
        arm 1 1
        program 0 0 1024 0
        restart
        look 0
        mark 0
        program 0 1024 20 0
        mark 0
        look 0
        read 0 1024 16
        read 0 1040 8
        read 0 1023 2
        read 0 1016 8
        read 0 512 1
        read 0 512 0
        read 0 0 4096
        program 0 1020 4 0
        program 0 1536 0 0
        restart
        look 0
        mark 0
        - the held batch fails and cannot be read
        program 0 1536 8 0
        arm 0 1
        program 0 2048 8 0
        restart
        look 0
        mark 0
        program 0 2048 8 0
        erase 0
        look 0
        mark 0
    """)


# --- chance ------------------------------------------------------------------------------------------------------------


class Chance:
    """Numbers that look random, by a linear congruence."""

    def __init__(self, seed):
        self.state = seed

    def below(self, n):
        self.state = (self.state * 6364136223846793005 + 1442695040888963407) % 2 ** 64
        return (self.state >> 33) % n

    def of(self, *choices):
        return choices[self.below(len(choices))]


def known_mark(flash, block):
    try:
        return flash.mark(block)
    except Refused:
        return 0


def random_program(flash, chance, block):
    """Mostly whole pages at or a little behind the mark."""
    _, s, p, g = flash.shape()
    end = -(-known_mark(flash, block) // p) * p
    up = chance.of(0, 0, 0, 0, p * chance.below(3), p * chance.below(3), g, p * chance.below(s // p), chance.below(4), chance.below(s + 1))
    offset = max(0, end + up - chance.of(0, 0, 0, 0, 0, 0, 0, p))
    room = max(0, s - offset) // p
    most = chance.of(9, 9, 9, 9, 2 * g // p + 1, room + 1, room + 2)
    n = p * min(chance.below(most), chance.of(room, room, room, most)) + chance.of(0, 0, 0, 0, 0, 0, 0, 0, 0, 1)
    bits = chance.of(0, 255, 252, chance.below(256), chance.below(256))
    return f"program {block} {offset} {n} {bits}"


def random_call(flash, chance):
    blocks, s, p, g = flash.shape()
    block = chance.below(2 * blocks + 1) // 2 if chance.below(8) == 0 else chance.below(2)
    if chance.below(5) == 0 and known_mark(flash, 0) == known_mark(flash, 1) == 0:
        return "restart"
    way = chance.below(100)
    if way < 6:
        return f"erase {block}"
    if way < 13:
        return f"arm {chance.below(8)} {chance.of(0, 1, 16, chance.below(256), chance.below(256))}"
    if way < 16:
        return "restart"
    if way < 22:
        return f"mark {block}"
    if way < 27:
        return f"look {block}"
    if way < 40:
        offset = chance.of(chance.below(s + 1), max(0, known_mark(flash, block) - chance.below(16)))
        return f"read {block} {offset} {chance.of(chance.below(300), chance.below(17), chance.below(s + 1))}"
    return random_program(flash, chance, block)


def by_chance(script, first, seed, calls):
    script.part(first, quiet=True)
    chance = Chance(seed)
    for _ in range(calls):
        script.call(random_call(script.flash, chance))
    script.call("quiet")
    script.print("all", 0, [script.all])


# --- the script --------------------------------------------------------------------------------------------------------

NOR, NAND, LARGE = "chip 16384 0 4", "chip 16384 0 512", "chip 16896 0 528"
OVER_NOR, PILE = "pile 16384 0 4", "pile 16384 0 512"


def whole():
    script = Script()
    sizes(script)
    bad_lines(script)
    for first in (NOR, NAND, LARGE, OVER_NOR, PILE):
        for tried in (refusals, without_power, counts, cuts):
            script.part(first)
            tried(script)
    for first in (NAND, LARGE, PILE):
        script.part(first)
        unreadable(script)
    for first in ("chip 65536 255 4", "chip 65536 255 512", "chip 67584 255 528", "pile 65536 255 512"):
        script.part(first)
        last_block(script)
    for tried in (holding, empty_programs, nothing_but_ff, other_blocks, held_cuts, held_steps, held_unreadable):
        script.part(PILE)
        tried(script)
    for seed in range(4):
        for first in (NOR, NAND, LARGE, OVER_NOR, PILE, PILE.replace("16384", "20480")):
            by_chance(script, first, seed, 500)
    return script.written()


if __name__ == "__main__":
    crate = Path(__file__).parent.parent / "crates" / "trials_flash"
    for name, text in zip(("stdin", "stdout"), whole()):
        (crate / name).write_text(text)
