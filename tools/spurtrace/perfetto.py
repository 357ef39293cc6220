"""A trace as trace events in JSON, for a viewer of such files: a track a board."""

import json

from .addresses import full
from .history import History
from .machine import STATES
from .sentences import sentence

ABOUT = "the time is the number of the entry, and is no time"


def write(trace, options, out):
    """Writes the events. The number of an entry stands where events have a time, and each entry lasts for one."""
    from .picture import chosen

    blocks = chosen(trace, options)
    boards = range(trace.header.boards)
    out.write('{"otherData":{"time":%s},"traceEvents":[\n' % json.dumps(ABOUT))
    out.write(event({"ph": "M", "pid": 1, "name": "process_name", "args": {"name": "boards (%s)" % ABOUT}}, True))
    for board in boards:
        out.write(event({"ph": "M", "pid": 1, "tid": board + 1, "name": "thread_name", "args": {"name": "board %d" % board}}))
    history = History(trace)
    first = options.first or 1
    shown = {}
    for moment in history.moments():
        number = moment.entry.number
        if options.count and number >= first + options.count:
            break
        if number < first:
            continue
        out.write("".join(event(made) for made in events_of(history.machine, moment)))
        for at in blocks:
            for board in boards:
                state = history.machine.state(board, at)
                if shown.get((at, board)) != state:
                    shown[(at, board)] = state
                    out.write(event(state_event(number, at, board, state)))
    out.write("]}\n")


def event(fields, first=False):
    """One event, on a line of its own."""
    return ("" if first else ",") + json.dumps(fields, separators=(",", ":")) + "\n"


def events_of(machine, moment):
    """The event of an entry, and an arrow from the board that supplied."""
    entry = moment.entry
    track, number = entry.board + 1, entry.number
    said = {"entry": number, "line": entry.line, "what": sentence(machine, entry, moment.step)}
    name = entry.kind if entry.kind != "fault" else "fault " + entry.fault
    yield {"ph": "X", "pid": 1, "tid": track, "ts": number, "dur": 1, "name": name, "cat": "entry", "args": said}
    supplier = moment.step.supplier
    if supplier is not None and supplier != entry.board:
        arrow = {"pid": 1, "name": "supplies", "cat": "supply", "id": number, "ts": number}
        yield {"ph": "X", "pid": 1, "tid": supplier + 1, "ts": number, "dur": 1, "name": "supplies", "cat": "supply"}
        yield dict(arrow, ph="s", tid=supplier + 1)
        yield dict(arrow, ph="f", bp="e", tid=track)


def state_event(number, at, board, state):
    """The state of a block at a board, as a counter: 0 Invalid, 1 UnOwned, 2 OwnedNonExclusive, 3 OwnedExclusive."""
    name = "block %s at board %d (%s)" % (full(at), board, ", ".join("%d %s" % pair for pair in enumerate(STATES)))
    return {"ph": "C", "pid": 1, "ts": number, "name": name, "args": {"state": state}}
