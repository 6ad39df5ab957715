"""The flashes of docs/FLASH.md: the NOR and the NAND chip, and the write buffer over either."""


class Refused(Exception):
    """A refusal with its number."""

    def __init__(self, number):
        super().__init__(number)
        self.number = number


def blank(n):
    return b"\xff" * n


class Chip:
    """A device: blocks of whole pages, each of which settles as it is programmed. A step is a page or the erase of a block."""

    def __init__(self, memory, page, pages, can_lose):
        size = page * pages
        if len(memory) % size or not 4 <= len(memory) // size <= 16:
            raise Refused(4)
        starts = range(0, len(memory), size)
        self.blocks = [[memory[b + i:b + i + page] for i in range(0, size, page)] for b in starts]
        self.lost = [[False] * pages for _ in starts]
        self.page, self.batch, self.size = page, page, size
        self.can_lose = can_lose
        self.off, self.steps, self.fault = False, None, 0

    # looks

    def shape(self):
        return len(self.blocks), self.size, self.page, self.batch

    def check(self, block, offset, n):
        if self.off:
            raise Refused(20)
        if block >= len(self.blocks) or offset + n > self.size:
            raise Refused(11)

    def mark(self, block):
        self.check(block, 0, 0)
        used = [i for i, page in enumerate(self.blocks[block]) if self.lost[block][i] or page != blank(self.page)]
        return (used[-1] + 1) * self.page if used else 0

    def read(self, block, offset, n):
        self.check(block, offset, n)
        if any(self.lost[block][i // self.page] for i in range(offset, offset + n)):
            raise Refused(28)
        return b"".join(self.blocks[block])[offset:offset + n]

    # changes

    def step(self):
        """Whether the next step succeeds; if not, the power is off."""
        if self.steps is None:
            return True
        if self.steps == 0:
            self.off, self.steps = True, None
            return False
        self.steps -= 1
        return True

    def spoilt(self, page):
        return bytes(b | self.fault for b in page)

    def loses(self):
        return self.can_lose and self.fault % 2 == 1

    def program(self, block, offset, run):
        self.check(block, offset, len(run))
        if offset % self.page or len(run) % self.page:
            raise Refused(12)
        if offset < self.mark(block):
            raise Refused(13)
        for k in range(0, len(run), self.page):
            page, i = run[k:k + self.page], (offset + k) // self.page
            if self.step():
                self.blocks[block][i], self.lost[block][i] = page, False
            else:
                self.blocks[block][i], self.lost[block][i] = self.spoilt(page), self.loses()
                raise Refused(20)

    def erase(self, block):
        self.check(block, 0, 0)
        pages = len(self.blocks[block])
        if self.step():
            self.blocks[block], self.lost[block] = [blank(self.page)] * pages, [False] * pages
            return
        self.blocks[block] = [self.spoilt(page) for page in self.blocks[block]]
        if self.loses():
            self.lost[block] = [True] * pages
        raise Refused(20)

    def arm(self, steps, fault):
        if self.off:
            raise Refused(20)
        self.steps, self.fault = steps, fault

    def restart(self):
        self.off, self.steps = False, None


def nor(memory):
    return Chip(memory, 4, 1024, can_lose=False)


def nand(memory, page):
    return Chip(memory, page, 8, can_lose=True)


class Buffer:
    """A write buffer: empty, or with a batch that it fills, which has a block, a start and bytes."""

    def __init__(self, below):
        _, _, page, batch = below.shape()
        if page != batch or batch % 4 or batch > 512:
            raise Refused(3)
        self.below, self.batch = below, batch
        self.held = None

    # looks

    def shape(self):
        blocks, size, _, batch = self.below.shape()
        return blocks, size, 4, batch

    def mark(self, block):
        mark = self.below.mark(block)
        if self.held and self.held[0] == block:
            _, start, d = self.held
            return start + len(bytes(d).rstrip(b"\xff"))
        return -(-mark // self.batch) * self.batch

    def read(self, block, offset, n):
        out = bytearray(self.below.read(block, offset, n))
        if self.held and self.held[0] == block:
            _, start, d = self.held
            for i in range(max(offset, start), min(offset + n, start + self.batch)):
                out[i - offset] = d[i - start]
        return bytes(out)

    # changes

    def program(self, block, offset, run):
        mark = self.mark(block)
        end = offset + len(run)
        if end > self.shape()[1]:
            raise Refused(11)
        if offset % 4 or len(run) % 4:
            raise Refused(12)
        if offset < mark:
            raise Refused(13)
        if self.held and self.held[0] != block:
            raise Refused(14)
        if self.held and offset >= self.held[1] + self.batch:
            self.pass_down()
        start = offset - offset % self.batch
        _, _, d = self.held or (block, start, blank(self.batch))
        d = bytearray(d)
        room = start + self.batch - offset
        d[offset - start:offset - start + min(room, len(run))] = run[:room]
        self.held = (block, start, d)
        while end >= start + self.batch:
            self.pass_down()
            start += self.batch
            rest = run[start - offset:start - offset + self.batch]
            self.held = (block, start, rest + blank(self.batch - len(rest)))
        if bytes(self.held[2]) == blank(self.batch):
            self.held = None

    def pass_down(self):
        block, start, d = self.held
        self.held = None
        self.below.program(block, start, bytes(d))

    def erase(self, block):
        self.below.mark(block)
        if self.held and self.held[0] == block:
            self.held = None
        try:
            self.below.erase(block)
        except Refused:
            self.held = None
            raise

    def arm(self, steps, fault):
        self.below.arm(steps, fault)

    def restart(self):
        self.below.restart()
        self.held = None
