"""The command `tools/accesses`: a program and its trace, made of a list of accesses."""

import sys
from collections import namedtuple

from .addresses import PAGE, TABLE, full, page_of
from .emitter import Emitter
from .program import MOST_PAGES, MOST_WORDS, Board, Full, text
from .trace import Header

HELP = """usage: tools/accesses TEXT TRACE [--din] [--board N] [--lines N] < ACCESSES

Reads accesses, and writes a program whose boards make them to the file TEXT, and a lawful trace of it to the file TRACE. The accesses of the
trace stand in the order in which they are read. Nothing here is proved; `tools/judge TEXT < TRACE` has the trace judged, as good.

A line of the input is `board kind address [value]`: a board from 0 to 11; `load`, `store` or `tas`; a global address of a word in hexadecimal;
and a word in hexadecimal. The value of a store is what it writes. That of a load or a test-and-set is what it reads: where nothing
wrote the word before, it becomes the word's first value. Without a value a load or a test-and-set reads what is there, and a store writes the
number of the store, counted from 1, in its low 15 bits. Empty lines and what stands behind # are skipped.

  --din        the input is Dinero's din: `label address`, where 0 is a read, 1 a write, and 2, a fetch of an instruction, is skipped. The address of an
               access is that of its word: its last two bits are dropped
  --board N    the board that makes the accesses of a din input, 0 where it is not given
  --lines N    how many lines each cache has: a power of two from 16 to 4096, which it is where it is not given

The exit status is 0; 1 where an access no longer fits, which is named, and then nothing is written; 2 for words that are refused, or a file that
cannot be written; 3 for an input that is refused.

Example:
  printf '0 store 40 2a\\n1 load 40\\n' | tools/accesses two.s two.trace && tools/judge two.s < two.trace
"""

MOST_FRAMES = 4096  # frames in all, of which the root has 64
ROOT_FRAMES = 64

Access = namedtuple("Access", "line board kind at value")


class Words(Exception):
    """Words of the command line that are refused."""


class Input(Exception):
    """A line of the input that is refused."""


class NoRoom(Exception):
    """The first access that no longer fits."""


def word_number(word, base, limit):
    """A number below a limit, as a word tells it."""
    digits = "0123456789abcdef"[:base]
    low = word.lower()[2:] if base == 16 and word.lower().startswith("0x") else word.lower()
    if not low or not set(low) <= set(digits) or len(low) > 16 or int(low, base) >= limit:
        raise ValueError(word)
    return int(low, base)


def read_plain(words, line, _board):
    """The access of a line `board kind address [value]`."""
    if len(words) not in (3, 4) or words[1] not in ("load", "store", "tas"):
        raise ValueError(line)
    at = word_number(words[2], 16, TABLE)
    if at % 4:
        raise ValueError(line)
    value = word_number(words[3], 16, 1 << 32) if len(words) == 4 else None
    return Access(line, word_number(words[0], 10, 12), words[1], at, value)


def read_din(words, line, board):
    """The access of a line of a din input, or None where it is skipped."""
    if len(words) < 2 or words[0] not in ("0", "1", "2"):
        raise ValueError(line)
    at = word_number(words[1], 16, TABLE)
    if words[0] == "2":
        return None
    return Access(line, board, "store" if words[0] == "1" else "load", at - at % 4, None)


def read_accesses(stream, din, board):
    """The accesses of an input."""
    read = read_din if din else read_plain
    for number, text_line in enumerate(stream, 1):
        words = text_line.split("#")[0].split()
        if not words:
            continue
        try:
            access = read(words, number, board)
        except ValueError:
            raise Input("line %d is no access: %s" % (number, text_line.strip()))
        if access is not None:
            yield access


class Maker:
    """Takes accesses one after another: the programs of the boards, the pages, the first words, and what each access reads or writes."""

    def __init__(self):
        self.boards, self.pages, self.regions = [], {}, set()
        self.first, self.now = {}, {}
        self.stores, self.done = 0, []

    def take(self, access):
        """Takes an access, or says why it does not fit."""
        try:
            self._page(page_of(access.at))
            while len(self.boards) <= access.board:
                self.boards.append(Board())
            value = self._value(access)
            self.boards[access.board].access(access.kind, access.at, value)
        except Full as why:
            raise NoRoom("line %d does not fit: %s of board %d at %s: %s" % (access.line, access.kind, access.board, full(access.at), why))
        if access.kind != "load":
            self.now[access.at] = value if access.kind == "store" else 1
        self.done.append((access.kind, access.board, access.at, value))

    def _page(self, page):
        if page in self.pages:
            return
        regions = len(self.regions | {page // (1024 * PAGE)})
        if len(self.pages) == MOST_PAGES or len(self.pages) + 1 + regions + ROOT_FRAMES > MOST_FRAMES:
            raise Full("the program would need more pages than there may be")
        self.pages[page] = True
        self.regions.add(page // (1024 * PAGE))

    def _value(self, access):
        """What an access reads or writes."""
        if access.kind == "store":
            self.stores += 1
            return self.stores % 32768 if access.value is None else access.value
        if access.at not in self.now:
            if access.value and len(self.first) == MOST_WORDS:
                raise Full("the program would need more than %d first words" % MOST_WORDS)
            if access.value:
                self.first[access.at] = access.value
            self.now[access.at] = access.value or 0
        elif access.value not in (None, self.now[access.at]):
            raise Full("it reads %08x, but the word is %08x then" % (access.value, self.now[access.at]))
        return self.now[access.at]

    def text(self):
        """The program."""
        comment = ["Made by tools/accesses of %d accesses. Its boards make them by one schedule of many." % len(self.done)]
        return text(comment, self.pages, sorted(self.first.items()), self.boards or [Board()])

    def trace(self, lines):
        """The lines of the trace."""
        frames = max(1, len(self.pages))
        header = Header(len(self.boards) or 1, frames, lines)
        emitter = Emitter(header, ROOT_FRAMES + len(self.regions))
        for kind, board, at, value in self.done:
            emitter.access(kind, board, at, value)
        return [emitter.header_line()] + emitter.lines


class Options:
    """What the words ask for."""

    def __init__(self):
        self.files, self.din, self.board, self.lines = [], False, 0, 4096


def read_words(words):
    """The options that the words ask for; None where they ask for help."""
    options, place = Options(), 0
    while place < len(words):
        word = words[place]
        place += 1
        if word == "--help":
            return None
        if word == "--din":
            options.din = True
        elif word in ("--board", "--lines"):
            if place == len(words):
                raise Words("a value is missing behind " + word)
            take_value(options, word, words[place])
            place += 1
        elif word.startswith("--"):
            raise Words("no such word: " + word)
        else:
            options.files.append(word)
    if len(options.files) != 2:
        raise Words("two files are wanted, one for the text and one for the trace")
    return options


def take_value(options, word, value):
    """Takes a word that has a value."""
    try:
        number = word_number(value, 10, 4097)
    except ValueError:
        raise Words("no number that fits %s: %s" % (word, value))
    if word == "--board":
        if number > 11:
            raise Words("boards are 0 to 11: " + value)
        options.board = number
    else:
        if number < 16 or number & (number - 1):
            raise Words("lines are a power of two from 16 to 4096: " + value)
        options.lines = number


def main(words):
    """Runs the command, and gives its exit status."""
    try:
        options = read_words(words)
        if options is None:
            sys.stdout.write(HELP)
            return 0
        maker = Maker()
        stream = open(sys.stdin.fileno(), encoding="utf-8", errors="replace", closefd=False)
        for access in read_accesses(stream, options.din, options.board):
            maker.take(access)
        with open(options.files[0], "w", encoding="utf-8", newline="\n") as file:
            file.write(maker.text())
        with open(options.files[1], "w", encoding="utf-8", newline="\n") as file:
            file.write("\n".join(maker.trace(options.lines)) + "\n")
    except (Words, OSError) as fault:
        return said(fault, 2)
    except Input as fault:
        return said(fault, 3)
    except NoRoom as fault:
        return said(fault, 1)
    return 0


def said(fault, status):
    """Says what went wrong, and gives the exit status."""
    print("accesses: %s" % fault, file=sys.stderr)
    return status
