"""A trace as a value change dump for a waveform viewer: the states of the chosen blocks by board."""

from .addresses import full
from .history import History
from .machine import STATES


def write(trace, options, out):
    """Writes the dump. The number of an entry stands where a dump has the time."""
    from .picture import chosen

    blocks = chosen(trace, options)
    pairs = [(at, board) for at in blocks for board in range(trace.header.boards)]
    names = {pair: identifier(place) for place, pair in enumerate(pairs)}
    out.write(head(blocks, range(trace.header.boards), names))
    history = History(trace)
    first = options.first or 1
    shown = {pair: 0 for pair in pairs}
    last = first - 1
    begun = first == 1
    if begun:
        begin(out, 0, shown, names)
    for moment in history.moments():
        number = moment.entry.number
        if options.count and number >= first + options.count:
            break
        now = {(at, board): history.machine.state(board, at) for at, board in pairs}
        if number == first - 1:
            begun = True
            begin(out, number, now, names)
        elif number >= first:
            last = number
            changed = {pair: state for pair, state in now.items() if state != shown[pair]}
            if changed:
                out.write("#%d\n" % number + values(changed, names))
        shown = now
    if not begun:
        begin(out, last, shown, names)
    out.write("#%d\n" % (last + 1))


def begin(out, number, states, names):
    """The values at the beginning."""
    out.write("#%d\n$dumpvars\n%s$end\n" % (number, values(states, names)))


def identifier(place):
    """The identifier of a variable: printable characters."""
    text = chr(33 + place % 94)
    while place >= 94:
        place = place // 94 - 1
        text += chr(33 + place % 94)
    return text


def head(blocks, boards, names):
    """The declarations."""
    codes = ", ".join("%s %s" % (format(number, "02b"), name) for number, name in enumerate(STATES))
    text = "$comment the time is the number of the entry, and is no time $end\n"
    text += "$comment a block's state at a board: %s $end\n" % codes
    text += "$timescale 1 ns $end\n"
    for at in blocks:
        text += "$scope module block_%s $end\n" % full(at)
        text += "".join("$var wire 2 %s board%d $end\n" % (names[(at, board)], board) for board in boards)
        text += "$upscope $end\n"
    return text + "$enddefinitions $end\n"


def values(states, names):
    """Values of variables."""
    return "".join("b%s %s\n" % (format(state, "02b"), names[pair]) for pair, state in states.items())
