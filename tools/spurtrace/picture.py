"""The command `tools/picture`: its words, and which form is written."""

import sys

from . import perfetto, plain, svg, vcd
from .addresses import END, block_of
from .sentences import VerdictFault, read_verdict
from .trace import Trace, TraceFault

HELP = """usage: tools/picture [--block A].. [--from N] [--count N] [--verdict V] [--text|--vcd|--perfetto] < REPORT_WITH_TRACE

Draws a trace as `./spur sched N --trace` writes it, with or without the report before it. Nothing here is proved; `check` judges traces.

  (no form)      one HTML file that stands by itself: a lane a board, entries downwards, at most 5000 of them
  --text         one plain sentence for each entry
  --vcd          a value change dump: the state of the chosen blocks by board; the entry's number is the time, which is no time
  --perfetto     trace events as JSON: a track a board; the entry's number is the time, which is no time

  --block A      a block whose states are shown, by the hexadecimal address of any byte of it; may be given again.
                 Without it, the block with most transactions, the lowest of them where there are several
  --from N       the first entry that is shown; states are carried from the first entry of the trace all the same
  --count N      how many entries are shown at most
  --verdict V    the verdict of `check`, such as 'bad 7 answer 41 42': the refused entry is marked, and explained

The exit status is 0, or 2 for words that are refused, and 3 where there is no trace. A line of the trace that cannot be read ends what is shown
and is told there; so is the first entry that does not fit the states.

Example:
  ./spur sched 1 --trace < examples/sum.s | tools/picture > sum.html
"""


class Words(Exception):
    """Words of the command line that are refused."""


class Options:
    """What the words ask for."""

    def __init__(self):
        self.blocks, self.first, self.count, self.verdict, self.form = [], None, None, None, None


def number(word):
    """A number of entries, at least 1."""
    if not word.isascii() or not word.isdigit() or int(word) < 1:
        raise Words("a number from 1 is wanted: " + word)
    return int(word)


def block(word):
    """The block of a hexadecimal address."""
    try:
        at = int(word, 16)
    except ValueError:
        raise Words("a hexadecimal address is wanted: " + word)
    if not 0 <= at < END:
        raise Words("the address is past the last one: " + word)
    return block_of(at)


def read_words(words):
    """The options that the words ask for; None where they ask for help."""
    options, place = Options(), 0
    while place < len(words):
        word = words[place]
        place += 1
        if word == "--help":
            return None
        if word in ("--text", "--vcd", "--perfetto"):
            if options.form:
                raise Words("one form at a time: " + word)
            options.form = word[2:]
            continue
        if word not in ("--block", "--from", "--count", "--verdict"):
            raise Words("no such word: " + word)
        if place == len(words):
            raise Words("a value is missing behind " + word)
        take_value(options, word, words[place])
        place += 1
    return options


def take_value(options, word, value):
    """Takes a word that has a value."""
    if word == "--block":
        if block(value) not in options.blocks:
            options.blocks.append(block(value))
    elif word == "--from":
        options.first = number(value)
    elif word == "--count":
        options.count = number(value)
    else:
        try:
            options.verdict = read_verdict(value)
        except VerdictFault:
            raise Words("no verdict of check: " + value)


def main(words):
    """Runs the command, and gives its exit status."""
    try:
        options = read_words(words)
    except Words as fault:
        print("picture: %s (--help tells the words)" % fault, file=sys.stderr)
        return 2
    if options is None:
        sys.stdout.write(HELP)
        return 0
    try:
        trace = Trace(sys.stdin.buffer.read())
    except TraceFault as fault:
        print("picture: %s" % fault, file=sys.stderr)
        return 3
    forms = {None: svg.write, "text": plain.write, "vcd": vcd.write, "perfetto": perfetto.write}
    out = open(sys.stdout.fileno(), "w", encoding="utf-8", newline="\n", closefd=False)
    try:
        forms[options.form](trace, options, out)
        out.flush()
    except BrokenPipeError:
        return 1
    return 0


def chosen(trace, options):
    """The blocks whose states are shown."""
    if options.blocks:
        return options.blocks
    busiest = trace.busiest()
    return [] if busiest is None else [busiest]
