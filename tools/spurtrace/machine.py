"""What the entries of a trace lead to: the states of blocks in the caches, and which pages are in frames.

Everything begins as a run does: empty caches, no page in a frame. The text of the program is not known here, so that nothing is known of
declared pages, protections, first words and what a program does next. `misfit` finds an entry that does not fit what the entries before it
lead to, as far as that can be told; only `check` judges.
"""

from collections import namedtuple

from .addresses import block_of, entry_block, layer_of, line_of, page_of, root_block
from .trace import ACCESSES, FAULTS, PAGER

INVALID, UNOWNED, NONEXCLUSIVE, EXCLUSIVE = range(4)
STATES = ("Invalid", "UnOwned", "OwnedNonExclusive", "OwnedExclusive")
SERVED = 6  # fills, claims and write-backs that one access takes at most

Misfit = namedtuple("Misfit", "rule wanted found")
Change = namedtuple("Change", "board block old new")


class Tag:
    """What a cache line holds: a block, its state, and the line's dirty copy."""

    __slots__ = ("block", "state", "dirty")

    def __init__(self, block, state, dirty):
        self.block, self.state, self.dirty = block, state, dirty


class Page:
    """What is known of a page: its frame or None, and its bits."""

    __slots__ = ("frame", "referenced", "dirty", "leaving", "was_in")

    def __init__(self):
        self.frame, self.referenced, self.dirty, self.leaving, self.was_in = None, False, False, False, False


class Step(namedtuple("Step", "changes supplier replaced")):
    """What an entry did: the changes of states, the board that supplied the block or None for memory, and a block that was replaced."""


class Machine:
    """The caches and pages, moved by one entry at a time."""

    def __init__(self, header):
        self.lines = header.lines
        self.tags = [{} for _ in range(header.boards)]
        self.pages = {}
        self.words = {}
        self.open = [[] for _ in range(header.boards)]

    # What is so.

    def tag(self, board, at):
        """The tag of a block at a board, or None."""
        tag = self.tags[board].get(line_of(at, self.lines))
        return tag if tag is not None and tag.block == block_of(at) else None

    def standing(self, board, at):
        """What stands on the line of an address at a board, or None."""
        return self.tags[board].get(line_of(at, self.lines))

    def state(self, board, at):
        """The state of a block at a board."""
        tag = self.tag(board, at)
        return INVALID if tag is None else tag.state

    def states(self, at):
        """The states of a block at all boards."""
        return [self.state(board, at) for board in range(len(self.tags))]

    def owner(self, at):
        """The board that owns a block, or None."""
        for board in range(len(self.tags)):
            if self.state(board, at) >= NONEXCLUSIVE:
                return board
        return None

    def page(self, at):
        """What is known of the page of an address."""
        return self.pages.get(page_of(at)) or Page()

    def holder_of_page(self, at):
        """The first board that has a block of a page, or None."""
        page = page_of(at)
        for board, tags in enumerate(self.tags):
            if any(page_of(tag.block) == page for tag in tags.values()):
                return board
        return None

    # What an entry does.

    def apply(self, entry):
        """Moves by an entry, also by one that does not fit, and tells what it did."""
        before = {}
        supplier = replaced = None
        kind = entry.kind
        if kind == "fill":
            supplier, replaced = self.owner(entry.at), self._fill(entry, before)
        elif kind == "claim":
            self._claim(entry, before)
        elif kind == "writeback":
            self._put(before, entry.board, entry.at, UNOWNED)
        elif kind == "flush":
            self._put(before, entry.holder, entry.at, INVALID)
        elif kind == "refresh":
            tag = self.tag(entry.board, entry.at)
            if tag is not None:
                tag.dirty = True
        elif kind in ("store", "tas"):
            self.words[entry.at] = entry.value if kind == "store" else 1
        elif kind == "load":
            self.words[entry.at] = entry.value
        elif kind in PAGER:
            self._page(entry)
        self._keep_open(entry)
        changes = [
            Change(board, block, old, self.state(board, block))
            for (board, block), old in sorted(before.items())
            if old != self.state(board, block)
        ]
        return Step(changes, supplier, replaced)

    def _put(self, before, board, at, state):
        """Gives a block that a board has another state."""
        tag = self.tag(board, at)
        if tag is None:
            return
        before.setdefault((board, tag.block), tag.state)
        if state == INVALID:
            del self.tags[board][line_of(at, self.lines)]
        else:
            tag.state = state

    def _others_see(self, before, entry, exclusive):
        """The other boards see a transaction that takes all copies away, or a read."""
        for board in range(len(self.tags)):
            if board == entry.board:
                continue
            if exclusive:
                self._put(before, board, entry.at, INVALID)
            elif self.state(board, entry.at) == EXCLUSIVE:
                self._put(before, board, entry.at, NONEXCLUSIVE)

    def _fill(self, entry, before):
        """A block comes into a cache; the block that it replaces, if any."""
        standing = self.standing(entry.board, entry.at)
        before[(entry.board, entry.at)] = self.state(entry.board, entry.at)
        replaced = None
        if standing is not None and standing.block != entry.at:
            replaced = standing.block
            before[(entry.board, replaced)] = standing.state
        self._others_see(before, entry, entry.need == "write")
        dirty = self.page(entry.at).dirty if layer_of(entry.at) == "data" else True
        state = EXCLUSIVE if entry.need == "write" else UNOWNED
        self.tags[entry.board][line_of(entry.at, self.lines)] = Tag(entry.at, state, dirty)
        return replaced

    def _claim(self, entry, before):
        self._put(before, entry.board, entry.at, EXCLUSIVE)
        self._others_see(before, entry, True)

    def _page(self, entry):
        page = self.pages.setdefault(entry.at, Page())
        if entry.kind == "in":
            page.frame, page.was_in = entry.frame, True
            page.referenced, page.dirty, page.leaving = True, False, False
        elif entry.kind == "out":
            page.frame, page.referenced, page.dirty, page.leaving = None, False, False, False
        elif entry.kind == "leave":
            page.leaving = True
        elif entry.kind == "setdirty":
            page.dirty = True
        else:
            page.referenced = entry.kind == "setref"

    def _keep_open(self, entry):
        if entry.kind in ("fill", "claim", "writeback"):
            self.open[entry.board].append(entry)
        elif is_serving(entry):
            self.open[entry.board] = []

    # Whether an entry fits.

    def misfit(self, entry):
        """Why an entry does not fit what the entries before it lead to, or None, by the rules in the order of `check`."""
        return self._bars(entry) or self._value(entry) or self._paging(entry) or self._tagging(entry) or self._needing(entry)

    def _answer(self, entry, access):
        """The number of the answer that an access has here, where its page is declared and allows it."""
        page = self.page(entry.at)
        if entry.at % 4:
            return 1
        if page.frame is None:
            return 3
        if page.leaving:
            return 4
        if not page.referenced:
            return 6
        return 7 if access != "load" and not page.dirty else 0

    def _bars(self, entry):
        if entry.kind in ACCESSES:
            page = self.page(entry.at)
            if page.frame is None:
                return Misfit("fault", 3, 0)
            return Misfit("fault", 7, 0) if entry.kind != "load" and not page.dirty else None
        if entry.kind != "fault" or self._may_fault(entry):
            return None
        return Misfit("fault", self._answer(entry, entry.access), FAULTS.index(entry.fault) + 1)

    def _may_fault(self, entry):
        page, fault = self.page(entry.at), entry.fault
        if entry.at % 4 or fault == "align":
            return bool(entry.at % 4) and fault == "align"
        if fault == "unmapped":
            return not page.was_in
        if fault == "missing":
            return page.frame is None
        if fault == "leaving":
            return page.frame is not None and page.leaving
        if fault == "protection":
            return page.frame is not None and not (page.dirty and entry.access != "load")
        if fault == "reference":
            return page.frame is not None and not page.leaving and not page.referenced
        return page.frame is not None and not page.leaving and not page.dirty and entry.access != "load"

    def _value(self, entry):
        if entry.kind in ("load", "tas"):
            word = self.words.get(entry.at)
            if word is not None and word != entry.value:
                return Misfit("answer", word, entry.value)
        return None

    def _paging(self, entry):
        if entry.kind not in PAGER:
            return None
        page = self.page(entry.at)
        there = page.frame is not None
        if entry.kind == "in" and not there:
            taken = any(other.frame == entry.frame for other in self.pages.values())
            return Misfit("pager", 5, entry.frame) if taken else None
        number, fits = {
            "leave": (2, there and not page.leaving),
            "out": (3, there and page.leaving),
            "in": (4, not there),
            "setref": (6, there and not page.referenced),
            "setdirty": (7, there and not page.dirty),
            "clearref": (8, there and page.referenced and not page.leaving),
        }[entry.kind]
        return None if fits else Misfit("pager", number, None)

    def _tagging(self, entry):
        for number, fits, found in self._conditions(entry):
            if not fits:
                return Misfit("tags", number, found)
        return None

    def _conditions(self, entry):
        """The conditions on an entry that are numbered, with whether they hold and what was found; what the text alone tells is left out."""
        kind, board, at = entry.kind, entry.board, entry.at
        state = self.state(board, at)
        tag = self.tag(board, at)
        if kind == "load":
            yield 1, state != INVALID, state
        elif kind in ("store", "tas"):
            yield 2, state == EXCLUSIVE, state
            yield 3, tag is not None and tag.dirty, 0
        elif kind in PAGER:
            entries = self.state(board, entry_block(at))
            yield 4, entries == EXCLUSIVE, entries
            if kind == "out":
                holder = self.holder_of_page(at)
                yield 18, holder is None, holder
        elif kind == "fill":
            yield from self._fill_conditions(entry, state)
        elif kind == "claim":
            yield 12, state in (UNOWNED, NONEXCLUSIVE), state
        elif kind == "writeback":
            yield 13, state >= NONEXCLUSIVE, state
        elif kind == "refresh":
            entries = self.state(board, entry_block(at))
            yield 14, tag is not None and not tag.dirty and entries != INVALID, entries
            page = self.page(at)
            yield 15, page.frame is not None and page.dirty and not page.leaving, None
        elif kind == "flush":
            found = self.state(entry.holder, at)
            yield 16, found != INVALID, found
            page = self.page(at)
            yield 17, page.frame is not None and page.leaving, None

    def _fill_conditions(self, entry, state):
        board, at = entry.board, entry.at
        standing = self.standing(board, at)
        yield 5, entry.layer == layer_of(at), 0
        yield 6, state == INVALID, state
        yield 7, standing is None or standing.state < NONEXCLUSIVE, standing.state if standing else 0
        if entry.layer == "data":
            yield 8, self.state(board, entry_block(at)) != INVALID, INVALID
            page = self.page(at)
            fits = page.frame is not None and page.referenced and not page.leaving
            yield 10, fits and (entry.need == "read" or page.dirty), None
        elif entry.layer == "pte":
            yield 9, self.state(board, block_of(entry_block(at))) != INVALID, INVALID

    def _needing(self, entry):
        opened = self.open[entry.board]
        if entry.kind in ("fill", "claim", "writeback"):
            return Misfit("needed", 1, SERVED + 1) if len(opened) >= SERVED else None
        if not is_serving(entry):
            return None
        blocks = serving_blocks(entry)
        lines = [line_of(at, self.lines) for at in blocks]
        for other in opened:
            serves = line_of(other.at, self.lines) in lines if other.kind == "writeback" else other.at in blocks
            if not serves:
                return Misfit("needed", 2, other.number)
        written = written_block(entry)
        for other in opened:
            asks = other.kind == "claim" or other.need == "write"
            if asks and other.at != written:
                return Misfit("needed", 3, other.number)
        return None


def is_serving(entry):
    """Whether an entry is one that fills, claims and write-backs are made for."""
    return entry.kind in ACCESSES or entry.kind == "fault" or entry.kind in PAGER


def serving_blocks(entry):
    """The blocks that serve an access, a fault or an entry of the pager."""
    blocks = [entry_block(entry.at), root_block(entry.at)]
    return blocks if entry.kind in PAGER else [block_of(entry.at)] + blocks


def written_block(entry):
    """The block that an entry writes, or None."""
    if entry.kind in PAGER:
        return entry_block(entry.at)
    return block_of(entry.at) if entry.kind in ("store", "tas") else None
