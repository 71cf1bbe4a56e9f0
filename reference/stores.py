"""A second implementation of the two chunk stores, and of the account of a list's lines in them.

It follows docs/RULES.md and shares no code with the proved crates; `compare.py` runs both side by side.
"""
import pages

MOST_CHUNKS = 256
EMPTY = (0, [0] * 8)


class Refused(Exception):
    """A refusal's number and its values, as the arguments."""


class Store:
    """What the two makes share; a make says its rows and how a line stands in its memory."""

    def __init__(self, memory):
        self.memory = memory
        self.chunks = min(MOST_CHUNKS, len(memory) // (self.rows * self.width))
        self.out = set()
        self.mark = 0

    def free(self):
        return self.chunks - len(self.out)

    def spare(self, k):
        if k > self.free():
            raise Refused(14, k, self.free())

    def take(self):
        for chunk in list(range(self.mark, self.chunks)) + list(range(self.mark)):
            if chunk < self.chunks and chunk not in self.out:
                break
        else:
            raise Refused(16)
        for row in range(self.rows):
            self.put(chunk * self.rows + row, EMPTY)
        self.out.add(chunk)
        self.mark = chunk + 1
        return chunk

    def give_back(self, chunk):
        if chunk not in self.out:
            raise Refused(17)
        self.out.remove(chunk)

    def reach(self, chunk, row):
        if chunk not in self.out:
            raise Refused(17)
        if row >= self.rows:
            raise Refused(18)
        return chunk * self.rows + row

    def read(self, chunk, row):
        return self.get(self.reach(chunk, row))

    def write(self, chunk, row, line):
        self.put(self.reach(chunk, row), line)


class RecordStore(Store):
    name, rows, width, row_bytes = "record", 4, 1, 72

    def get(self, at):
        return self.memory[at][0], self.memory[at][1:]

    def put(self, at, line):
        self.memory[at] = [line[0]] + line[1]


class PackedStore(Store):
    name, rows, width, row_bytes = "packed", 128, 64, 64

    def get(self, at):
        return pages.unpack(bytes(self.memory[64 * at:64 * at + 64]))

    def put(self, at, line):
        self.memory[64 * at:64 * at + 64] = pages.pack(*line)


def answer(refused):
    if refused is None:
        return "agreed"
    number, *values = refused.args
    return "refused %d" % number + (", needed %d, free %d" % tuple(values) if values else "")


def stay(store, lines):
    """Lays the lines into the store, reads them back, gives the chunks back, and tells of it."""
    asked = stopped = None
    taken, written = [], 0
    needed = -(-len(lines) // store.rows)
    try:
        store.spare(needed)
    except Refused as refused:
        asked = refused
    for k, line in enumerate(lines):
        if k % store.rows == 0:
            try:
                taken.append(store.take())
            except Refused as refused:
                stopped = refused
                break
        store.write(taken[-1], k % store.rows, line)
        written += 1
    same = sum(store.read(taken[k // store.rows], k % store.rows) == lines[k] for k in range(written))
    for chunk in taken:
        store.give_back(chunk)
    out = "%s store: %d chunks of %d rows, %d bytes\n" % (store.name, store.chunks, store.rows, store.chunks * store.rows * store.row_bytes)
    out += "  asked for %d chunks: %s\n" % (needed, answer(asked))
    out += "  taken: %d chunks\n" % len(taken)
    out += "  written: %d lines in %d rows, %d bytes\n" % (written, written, written * store.row_bytes)
    if stopped is not None:
        out += "  stopped: %s, %d lines left out\n" % (answer(stopped), len(lines) - written)
    out += "  read back the same: %d lines\n" % same
    out += "  given back: %d chunks, %d free\n" % (len(taken), store.free())
    return out


def account(text):
    lines = sorted(pages.lay_out(text)[0].items())
    packed = PackedStore(bytearray(b"\xa5" * 20000))
    record = RecordStore([[2 ** 64 - 1] * 9 for _ in range(35)])
    return stay(packed, lines) + stay(record, lines)
