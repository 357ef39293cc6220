"""Makes the entries of a lawful history: what a board does on the way to an access, with all pages kept in their frames."""

from .addresses import block_of, entry_block, full, layer_of
from .machine import EXCLUSIVE, INVALID, NONEXCLUSIVE, Machine
from .trace import entry_of_line


class Emitter:
    """Writes the entries of accesses, and keeps the machine that they lead to."""

    def __init__(self, header, first_frame):
        self.header, self.machine = header, Machine(header)
        self.frame = first_frame
        self.lines = []

    def header_line(self):
        """The first line of the trace."""
        return "%%trace 1 %d %d %d" % self.header

    def access(self, kind, board, at, value):
        """All entries of an access that is done, the last one its own. The word that is read or written is handed in."""
        while not self._step(kind, board, at):
            pass
        self._add("%s %d %s %08x" % (kind, board, full(at), value))

    def _add(self, line):
        entry = entry_of_line(len(self.lines) + 1, line, self.header.boards)
        self.machine.apply(entry)
        self.lines.append(line)

    def _step(self, kind, board, at):
        """Does the first thing that is missing, and tells whether nothing was."""
        page, tag = self.machine.page(at), self.machine.tag(board, at)
        writes = kind != "load"
        if tag is not None:
            if not writes:
                return True
            if tag.dirty:
                if tag.state != EXCLUSIVE:
                    self._add("claim %d %s" % (board, full(block_of(at))))
                return True
        if self._fetch(board, entry_block(at)):
            return False
        if page.frame is None:
            self._fault("missing", kind, board, at)
            self._add("in %d %s %d" % (board, full(at - at % 4096), self.frame))
            self.frame += 1
        elif writes and not page.dirty:
            self._fault("dirty", kind, board, at)
            self._add("setdirty %d %s" % (board, full(at - at % 4096)))
        elif tag is not None:
            self._add("refresh %d %s" % (board, full(block_of(at))))
        else:
            self._fill(board, block_of(at), "write" if writes else "read")
        return False

    def _fault(self, fault, kind, board, at):
        """A fault, and the board owns the block of the page's entry alone behind it, so that the pager may change it."""
        self._add("fault %d %s %s %s" % (board, fault, kind, full(at)))
        if self.machine.state(board, entry_block(at)) != EXCLUSIVE:
            self._add("claim %d %s" % (board, full(entry_block(at))))

    def _fetch(self, board, block):
        """Brings a block of page-table entries, and tells whether it was missing."""
        if self.machine.state(board, block) != INVALID:
            return False
        root = block_of(entry_block(block))
        if self.machine.state(board, root) == INVALID:
            self._fill(board, root, "read")
        self._fill(board, block, "read")
        return True

    def _fill(self, board, block, need):
        """Fills a block, and writes the one back that stands on its line where it is owned."""
        standing = self.machine.standing(board, block)
        if standing is not None and standing.state >= NONEXCLUSIVE:
            self._add("writeback %d %s" % (board, full(standing.block)))
        self._add("fill %d %s %s %s" % (board, layer_of(block), need, full(block)))
