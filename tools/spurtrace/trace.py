"""Reads a trace: its header, and one entry a line."""

from collections import namedtuple

from .addresses import END

Header = namedtuple("Header", "boards frames lines")
Entry = namedtuple("Entry", "number line kind board at value fault access layer need holder frame")
Entry.__new__.__defaults__ = (None,) * 7

ACCESSES = ("load", "store", "tas")
FAULTS = ("align", "unmapped", "missing", "leaving", "protection", "reference", "dirty")
PAGER = ("leave", "out", "in", "setref", "setdirty", "clearref")
TRANSACTIONS = ("fill", "claim", "writeback", "flush")
DIGITS = frozenset("0123456789abcdef")


class TraceFault(Exception):
    """A line of the trace that is that of no entry, or no header; lines are counted from the trace's first as 1."""

    def __init__(self, line, what):
        super().__init__("trace line %d: %s" % (line, what))
        self.line = line
        self.what = what


def decimal(word, limit):
    """A decimal number without leading zeros below a limit."""
    if not word.isascii() or not word.isdigit() or (word[0] == "0" and word != "0") or len(word) > 10:
        raise ValueError(word)
    number = int(word)
    if number >= limit:
        raise ValueError(word)
    return number


def hexadecimal(word, digits):
    """A number in this many lower-case hexadecimal digits."""
    if len(word) != digits or not DIGITS.issuperset(word):
        raise ValueError(word)
    return int(word, 16)


def address(word, step):
    """A global address that is a multiple of a step."""
    at = hexadecimal(word, 10)
    if at >= END or at % step:
        raise ValueError(word)
    return at


def one_of(word, words):
    """A word of a list."""
    if word not in words:
        raise ValueError(word)
    return word


def entry_of_line(number, line, boards):
    """The entry that a line tells; a ValueError where it is that of none."""
    words = line.split(" ")
    kind, fields = words[0], words[1:]
    board = decimal(fields[0], boards) if fields else None
    count = len(fields)
    if kind in ACCESSES and count == 3:
        return Entry(number, line, kind, board, address(fields[1], 4), value=hexadecimal(fields[2], 8))
    if kind == "fault" and count == 4:
        fault, access = one_of(fields[1], FAULTS), one_of(fields[2], ACCESSES)
        return Entry(number, line, kind, board, address(fields[3], 1), fault=fault, access=access)
    if kind == "fill" and count == 4:
        layer, need = one_of(fields[1], ("root", "pte", "data")), one_of(fields[2], ("read", "write"))
        return Entry(number, line, kind, board, address(fields[3], 32), layer=layer, need=need)
    if kind in ("claim", "writeback", "refresh") and count == 2:
        return Entry(number, line, kind, board, address(fields[1], 32))
    if kind == "flush" and count == 3:
        return Entry(number, line, kind, board, address(fields[2], 32), holder=decimal(fields[1], boards))
    if kind == "in" and count == 3:
        return Entry(number, line, kind, board, address(fields[1], 4096), frame=decimal(fields[2], 4096))
    if kind in PAGER and kind != "in" and count == 2:
        return Entry(number, line, kind, board, address(fields[1], 4096))
    raise ValueError(line)


def header_of_line(line):
    """The header that a line tells; a ValueError where it is none."""
    words = line.split(" ")
    if len(words) != 5 or words[:2] != ["%trace", "1"]:
        raise ValueError(line)
    boards, frames, lines = decimal(words[2], 13), decimal(words[3], 3901), decimal(words[4], 4097)
    if boards < 1 or frames < 1 or lines < 16 or lines & (lines - 1):
        raise ValueError(line)
    return Header(boards, frames, lines)


class Trace:
    """A trace with what stands before it. Its lines are kept as bytes, and its entries are read anew each time they are gone through."""

    def __init__(self, data):
        start = 0 if data.startswith(b"%") else data.find(b"\n%") + 1
        if start == 0 and not data.startswith(b"%"):
            raise TraceFault(1, "bad header")
        self.before = data[:start].decode("utf-8", "replace")
        self.data = data
        self.start = start
        line, self.first, whole = self._line(start)
        try:
            self.header = header_of_line(line)
        except ValueError:
            raise TraceFault(1, "bad header")
        if not whole:
            raise TraceFault(1, "bad header")

    def _line(self, start):
        """A line, where the next one starts, and whether it has its line feed."""
        end = self.data.find(b"\n", start)
        if end < 0:
            return self.data[start:].decode("utf-8", "replace"), len(self.data), False
        return self.data[start:end].decode("utf-8", "replace"), end + 1, True

    def entries(self):
        """The entries, in order; a TraceFault at the first line that is that of none."""
        place, number = self.first, 0
        while place < len(self.data):
            line, place, whole = self._line(place)
            number += 1
            try:
                entry = entry_of_line(number, line, self.header.boards)
            except ValueError:
                raise TraceFault(number + 1, "bad line")
            if not whole:
                raise TraceFault(number + 1, "bad line")
            yield entry

    def busiest(self):
        """The block with most transactions, the lowest of them where there are several; None where there is none."""
        counts = {}
        try:
            for entry in self.entries():
                if entry.kind in TRANSACTIONS:
                    counts[entry.at] = counts.get(entry.at, 0) + 1
        except TraceFault:
            pass
        return min(counts, key=lambda at: (-counts[at], at)) if counts else None
