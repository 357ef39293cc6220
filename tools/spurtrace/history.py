"""Goes through a trace with the machine that it leads to, from its first entry on."""

from collections import namedtuple

from .machine import Machine
from .trace import TraceFault

Moment = namedtuple("Moment", "entry step misfit")


class History:
    """The moments of a trace, from its first entry on. What went wrong on the way is told when all of it was gone through.

    `misfit` is the number of the first entry that does not fit, with why; `fault` the line at which the trace cannot be read further.
    """

    def __init__(self, trace):
        self.trace = trace
        self.machine = Machine(trace.header)
        self.count = 0
        self.misfit = None
        self.fault = None

    def odd(self, verdict):
        """The first entry that does not fit, where a verdict does not say the same of it."""
        if self.misfit and verdict and (self.misfit[0],) + tuple(self.misfit[1][:2]) == tuple(verdict[:3]):
            return None
        return self.misfit

    def moments(self):
        """Each entry with what it did; the machine is the one after it. Only the first entry that does not fit is told as such."""
        try:
            for entry in self.trace.entries():
                misfit = None if self.misfit else self.machine.misfit(entry)
                if misfit:
                    self.misfit = (entry.number, misfit, entry)
                self.count = entry.number
                yield Moment(entry, self.machine.apply(entry), misfit)
        except TraceFault as fault:
            self.fault = fault
