"""A trace as text: one plain sentence for each entry."""

from .history import History
from .sentences import counted, explained, sentence


def write(trace, options, out):
    """Writes what stands before the trace as it is, and then a line an entry."""
    out.write(trace.before)
    header = trace.header
    counts = (counted(header.boards, "board"), counted(header.frames, "data frame"), header.lines)
    out.write("Trace of %s, %s and %d lines in each cache.\n" % counts)
    history = History(trace)
    first = options.first or 1
    for moment in history.moments():
        number = moment.entry.number
        if number >= first and not (options.count and number >= first + options.count):
            out.write("%d: %s\n" % (number, sentence(history.machine, moment.entry, moment.step)))
        if moment.misfit and history.odd(options.verdict):
            out.write(misfit_line(history.misfit))
        if options.verdict and options.verdict[0] == number:
            out.write(verdict_line(options.verdict, moment.entry))
    if history.fault:
        out.write("Here the trace ends: its line %d is that of no entry, or lacks its line feed.\n" % history.fault.line)
    if options.verdict and options.verdict[0] > history.count:
        out.write("The verdict is of entry %d, which this trace does not have.\n" % options.verdict[0])


def misfit_line(misfit):
    """What is said of the first entry that does not fit the states."""
    number, why, entry = misfit
    return "  ! Entry %d does not fit the states before it. %s\n" % (number, explained(why.rule, why.wanted, why.found, entry))


def verdict_line(verdict, entry):
    """What is said of the entry that a verdict refuses."""
    number, rule, wanted, found = verdict
    return "  ! Entry %d is refused. %s\n" % (number, explained(rule, wanted, found, entry))
