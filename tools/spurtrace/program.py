"""Writes straight programs: for each access of a board the instructions that make it, with base registers that are kept.

Register 1 takes what is read, register 2 what is written, and 3 to 15 hold bases. Each base stands in the middle of a piece of 64 KiB of the
board's addresses, so that an access to a piece with a base costs one instruction.
"""

from .addresses import SEGMENT

MOST_INSTRUCTIONS = 4096
MOST_PAGES = 2048
MOST_WORDS = 65536
READ, WRITTEN, FIRST_BASE, LAST_BASE = 1, 2, 3, 15
PIECE = 1 << 16
MNEMONIC = {"load": "ld", "store": "st", "tas": "tas"}


class Full(Exception):
    """An access that no longer fits, and why."""


def signed(number):
    """A number of 16 bits as a signed one."""
    return number - PIECE if number >= PIECE // 2 else number


class Board:
    """The program of one board."""

    def __init__(self):
        self.segments = []
        self.code = []
        self.bases = {}  # the piece of each register, the one used longest ago first
        self.written = None

    def access(self, kind, at, value):
        """Adds the instructions of an access, or none of them where they do not fit."""
        slot = self._segment(at // SEGMENT)
        address = slot * SEGMENT + at % SEGMENT
        made, bases, written = [], dict(self.bases), self.written
        if kind == "store":
            register, written = self._value(value, made)
        else:
            register = READ
        base, offset = self._base(address, made, bases)
        made.append("%s r%d, %d(r%d)" % (MNEMONIC[kind], register, offset, base))
        if len(self.code) + len(made) > MOST_INSTRUCTIONS:
            raise Full("the board would need more than %d instructions" % MOST_INSTRUCTIONS)
        if slot == len(self.segments):
            self.segments.append(at // SEGMENT)
        self.code += made
        self.bases, self.written = bases, written

    def _segment(self, segment):
        """The place of a segment among the board's four."""
        if segment in self.segments:
            return self.segments.index(segment)
        if len(self.segments) == 4:
            raise Full("the board would need a fifth segment")
        return len(self.segments)

    def _value(self, value, made):
        """The register that holds a value, and what register 2 holds then."""
        if value == 0:
            return 0, self.written
        if value != self.written:
            made.append("li r%d, %d" % (WRITTEN, signed(value % PIECE)))
            high = value // PIECE
            if high != (0xFFFF if value % PIECE >= PIECE // 2 else 0):
                made.append("lih r%d, %d" % (WRITTEN, high))
        return WRITTEN, value

    def _base(self, address, made, bases):
        """The base register and the offset of an address."""
        if address < PIECE // 2 or address >= (1 << 32) - PIECE // 2:
            return 0, address if address < PIECE // 2 else address - (1 << 32)
        piece = address // PIECE
        offset = address % PIECE - PIECE // 2
        for register, held in bases.items():
            if held == piece:
                bases[register] = bases.pop(register)
                return register, offset
        if len(bases) <= LAST_BASE - FIRST_BASE:
            register = FIRST_BASE + len(bases)
            made.append("li r%d, %d" % (register, -PIECE // 2))
        else:
            register = next(iter(bases))
            del bases[register]
        made.append("lih r%d, %d" % (register, piece))
        bases[register] = piece
        return register, offset

    def lines(self):
        """The lines of the board's program. It ends behind its last instruction."""
        segments = self.segments + [segment for segment in (0, 1, 2, 3) if segment not in self.segments]
        head = [".board", ".seg %d %d %d %d" % tuple(segments[:4])]
        return head + ["        " + line for line in self.code]


def text(comment, pages, words, boards):
    """The text of a program: pages by their addresses, first words by theirs, and the boards."""
    lines = ["; " + line for line in comment]
    lines += [".page %d %d rw" % (page // SEGMENT, page % SEGMENT // 4096) for page in pages]
    lines += [".word %d %d %d" % (at // SEGMENT, at % SEGMENT, value) for at, value in words]
    for board in boards:
        lines += [""] + board.lines()
    return "\n".join(lines) + "\n"
