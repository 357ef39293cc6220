"""A trace as one HTML file that stands by itself: inline SVG, a lane a board, entries downwards."""

from html import escape

from .addresses import block_of, full, page_of, short
from .history import History
from .machine import STATES
from .sentences import counted, explained, sentence
from .trace import PAGER

MOST = 5000  # entries drawn at most
FRAMES = 16  # frames drawn at most

ROW = 20
NUMBERS = 58  # the width of the column of numbers
LANE = 196
CELL = 26
FRAME = 58
GAP = 18

LETTERS = ("", "U", "N", "E")
COLORS = {
    "load": "#dbe7f3",
    "store": "#b9d0ea",
    "tas": "#d5c8ec",
    "fault": "#f6c9c4",
    "fill": "#cfe8cf",
    "claim": "#f8dfae",
    "writeback": "#e6d3bd",
    "refresh": "#cdeae6",
    "flush": "#e6d3bd",
}
PAGER_COLOR = "#efe9b4"

STYLE = """
body { font: 14px/1.45 sans-serif; margin: 16px; color: #222; background: #fff; }
h1 { font-size: 20px; margin: 0 0 8px; }
pre { background: #f5f5f2; border: 1px solid #ddd; padding: 8px; overflow: auto; max-height: 20em; font-size: 12px; }
p { margin: 6px 0; max-width: 60em; }
p.bad { border-left: 6px solid #c0281c; background: #fdecea; padding: 6px 10px; }
p.odd { border-left: 6px solid #b86e00; background: #fdf3e1; padding: 6px 10px; }
.key span { display: inline-block; margin: 0 12px 4px 0; }
.key i { display: inline-block; width: 18px; height: 14px; border: 1px solid #999; vertical-align: -2px; margin-right: 4px;
  font: 11px/14px monospace; text-align: center; }
.head { position: sticky; top: 0; background: #fff; border-bottom: 1px solid #999; }
svg { display: block; font: 11px monospace; }
svg .big { font: bold 12px sans-serif; }
svg .n { fill: #777; text-anchor: end; }
svg .c { text-anchor: middle; }
svg .s { fill: #555; font-size: 10px; text-anchor: middle; }
svg .hit { fill: #000; fill-opacity: 0; }
svg g.e:hover .hit { fill-opacity: .07; }
svg .lane { stroke: #ccc; }
svg .a { stroke: #2a7a2a; stroke-width: 1.6; fill: none; }
svg .m { stroke: #999; stroke-width: 1; fill: none; stroke-dasharray: 3 3; }
svg .x { stroke: #b86e00; stroke-width: 1; fill: none; stroke-dasharray: 2 2; }
svg .u { fill: #cfe2f5; } svg .o { fill: #f6cf9a; } svg .w { fill: #9bd49b; } svg .f { fill: #eee7f7; } svg .d { fill: #c9b3e6; }
svg .edge { stroke: #fff; stroke-width: 1; }
svg .bad { fill: #fdecea; stroke: #c0281c; stroke-width: 2; }
svg .odd { fill: #fdf3e1; stroke: #b86e00; stroke-width: 2; }
i.u { background: #cfe2f5; } i.o { background: #f6cf9a; } i.w { background: #9bd49b; }
"""
STATE_CLASSES = ("", "u", "o", "w")


class Layout:
    """Where the columns stand: numbers, a lane a board, the lane of memory, the states of the blocks, the frames."""

    def __init__(self, boards, blocks, frames):
        self.boards, self.blocks, self.frames = boards, blocks, frames
        self.memory = NUMBERS + boards * LANE
        self.group = max(boards * CELL, 92) + GAP
        self.states = self.memory + LANE + GAP
        self.frames_at = self.states + len(blocks) * self.group
        self.width = self.frames_at + len(frames) * FRAME + 8

    def lane(self, board):
        """The left edge of a board's lane."""
        return NUMBERS + board * LANE

    def middle(self, board):
        """The middle of a board's lane, or of that of memory."""
        return (self.memory if board is None else self.lane(board)) + LANE // 2

    def cell(self, place, board):
        """The left edge of the column of a block and a board."""
        return self.states + place * self.group + board * CELL

    def frame(self, place):
        """The left edge of the column of a frame."""
        return self.frames_at + place * FRAME


class Bands:
    """Columns that hold one value over many rows: each is drawn once, from its first row to its last."""

    def __init__(self):
        self.running, self.done = {}, []

    def at(self, key, value, row):
        """Takes the value of a column at a row."""
        value_before, start = self.running.get(key, (None, row))
        if value != value_before:
            if value_before is not None:
                self.done.append((key, value_before, start, row))
            self.running[key] = (value, row)

    def end(self, row):
        """Ends all columns before a row, and gives what is drawn."""
        for key, (value, start) in self.running.items():
            if value is not None:
                self.done.append((key, value, start, row))
        return sorted(self.done, key=lambda band: (band[2], str(band[0])))


class Picture:
    """What is gathered while a trace is gone through, and drawn at the end."""

    def __init__(self, trace, options, blocks, first, count):
        self.trace, self.verdict, self.blocks = trace, options.verdict, blocks
        self.first, self.count = first, count
        self.rows, self.states, self.frames, self.seen = [], Bands(), Bands(), []
        self.refused = None

    def gather(self, history):
        """Goes through the trace from its first entry, and keeps what is shown."""
        for moment in history.moments():
            entry = moment.entry
            if self.verdict and self.verdict[0] == entry.number:
                self.refused = entry
            if entry.number < self.first or len(self.rows) >= self.count:
                continue
            row = len(self.rows)
            self.rows.append((moment, sentence(history.machine, entry, moment.step)))
            for at in self.blocks:
                for board, state in enumerate(history.machine.states(at)):
                    self.states.at((at, board), state or None, row)
            self._frames(history.machine, row)

    def _frames(self, machine, row):
        there = {page.frame: (at, page.dirty, page.leaving) for at, page in machine.pages.items() if page.frame is not None}
        for frame in sorted(there):
            if frame not in self.seen:
                self.seen.append(frame)
        for frame in self.seen:
            self.frames.at(frame, there.get(frame), row)

    def draw(self, out, history):
        """Writes the file."""
        frames = sorted(self.seen)[:FRAMES]
        layout = Layout(self.trace.header.boards, self.blocks, frames)
        out.write("<!DOCTYPE html>\n<html lang=\"en\">\n<head>\n<meta charset=\"utf-8\">\n<title>A trace</title>\n<style>%s</style>\n</head>\n<body>\n" % STYLE)
        out.write("<h1>A trace of %s</h1>\n" % counted(self.trace.header.boards, "board"))
        out.write(self._before() + self._about(history, frames) + self._notes(history) + key(self.blocks))
        out.write("<div class=\"head\">%s</div>\n" % heads(layout))
        out.write("<svg width=\"%d\" height=\"%d\" xmlns=\"http://www.w3.org/2000/svg\">\n%s" % (layout.width, len(self.rows) * ROW + 4, MARKERS))
        out.write(self._lanes(layout))
        out.write(self._bands(layout))
        for row, (moment, said) in enumerate(self.rows):
            out.write(self._row(layout, row, moment, said))
        out.write("</svg>\n</body>\n</html>\n")

    def _before(self):
        return "<pre>%s</pre>\n" % escape(self.trace.before) if self.trace.before else ""

    def _about(self, history, frames):
        header = self.trace.header
        text = "%s, %d lines in each cache, %s." % (counted(header.frames, "data frame"), header.lines, "1 entry" if history.count == 1 else "%d entries" % history.count)
        if self.rows:
            text += " Drawn are the entries %d to %d." % (self.first, self.first + len(self.rows) - 1)
        else:
            text += " None of them is drawn."
        if len(frames) < len(self.seen):
            text += " Of the %d frames with a page %d are drawn." % (len(self.seen), len(frames))
        return "<p>%s An entry's line and what it did are shown where the mouse rests on it.</p>\n" % text

    def _notes(self, history):
        text = ""
        if self.verdict:
            number, rule, wanted, found = self.verdict
            if self.refused is None:
                text += note("bad", "The verdict is of entry %d, which this trace does not have." % number)
            else:
                said = explained(rule, wanted, found, self.refused)
                text += note("bad", "Entry %d is refused: <code>%s</code>. %s" % (number, escape(self.refused.line), escape(said)))
        if history.odd(self.verdict):
            number, why, entry = history.misfit
            said = explained(why.rule, why.wanted, why.found, entry)
            text += note("odd", "Entry %d does not fit the states before it: <code>%s</code>. %s" % (number, escape(entry.line), escape(said)))
        if history.fault:
            text += note("odd", "The trace cannot be read further: its line %d is that of no entry, or lacks its line feed." % history.fault.line)
        return text

    def _lanes(self, layout):
        height = len(self.rows) * ROW
        edges = [layout.lane(board) for board in range(layout.boards)] + [layout.memory, layout.memory + LANE]
        return "".join("<line class=\"lane\" x1=\"%d\" x2=\"%d\" y1=\"0\" y2=\"%d\"/>\n" % (x, x, height) for x in edges)

    def _bands(self, layout):
        last, text = len(self.rows), ""
        for (at, board), state, start, end in self.states.end(last):
            x = layout.cell(layout.blocks.index(at), board)
            text += band(x, CELL, start, end, STATE_CLASSES[state], LETTERS[state])
        for frame, (at, dirty, leaving), start, end in self.frames.end(last):
            if frame in layout.frames:
                name = short(at // 4096) + ("*" if dirty else "") + ("!" if leaving else "")
                text += band(layout.frame(layout.frames.index(frame)), FRAME - 6, start, end, "d" if dirty else "f", name)
        return text

    def _row(self, layout, row, moment, said):
        entry, y = moment.entry, row * ROW
        mark = "bad" if self.verdict and self.verdict[0] == entry.number else "odd" if moment.misfit else None
        text = "<g class=\"e\"><title>%s</title>" % escape("entry %d: %s\n%s" % (entry.number, entry.line, said))
        if mark:
            text += "<rect class=\"%s\" x=\"1\" y=\"%d\" width=\"%d\" height=\"%d\" fill-opacity=\".6\"/>" % (mark, y + 1, layout.memory + LANE - 2, ROW - 2)
        text += "<text class=\"n\" x=\"%d\" y=\"%d\">%d</text>" % (NUMBERS - 6, y + 14, entry.number)
        text += arrows(layout, moment, y) + pill(layout, entry, y) + beside(layout, moment, y)
        return text + "<rect class=\"hit\" x=\"0\" y=\"%d\" width=\"%d\" height=\"%d\"/></g>\n" % (y, layout.width, ROW)


MARKERS = """<defs>
<marker id="t" markerWidth="8" markerHeight="8" refX="7" refY="4" orient="auto"><path d="M0,0 L8,4 L0,8 z" fill="#2a7a2a"/></marker>
<marker id="g" markerWidth="8" markerHeight="8" refX="7" refY="4" orient="auto"><path d="M0,1 L7,4 L0,7 z" fill="#999"/></marker>
</defs>
"""


def note(kind, text):
    """A paragraph that is marked."""
    return "<p class=\"%s\">%s</p>\n" % (kind, text)


def key(blocks):
    """What letters and colours mean."""
    items = "".join("<span><i class=\"%s\">%s</i>%s</span>" % (STATE_CLASSES[n], LETTERS[n], STATES[n]) for n in range(4))
    text = "<p class=\"key\">%s</p>\n" % items
    text += "<p>A solid arrow comes from the board that supplied a block, a dashed one from memory or to it. A frame's column has the number of its page"
    text += " in hexadecimal, with * while it is dirty and ! while it is leaving.%s</p>\n" % ("" if blocks else " No block has a transaction.")
    return text


def heads(layout):
    """The heads of the columns."""
    text = "<svg width=\"%d\" height=\"40\" xmlns=\"http://www.w3.org/2000/svg\">\n" % layout.width
    for board in range(layout.boards):
        text += "<text class=\"big c\" x=\"%d\" y=\"26\">board %d</text>\n" % (layout.middle(board), board)
    text += "<text class=\"big c\" x=\"%d\" y=\"26\">memory and pages</text>\n" % layout.middle(None)
    for place, at in enumerate(layout.blocks):
        text += "<text class=\"big\" x=\"%d\" y=\"15\">%s</text>\n" % (layout.cell(place, 0), full(at))
        for board in range(layout.boards):
            text += "<text class=\"c\" x=\"%d\" y=\"34\">%d</text>\n" % (layout.cell(place, board) + CELL // 2, board)
    if layout.frames:
        text += "<text class=\"big\" x=\"%d\" y=\"15\">frames</text>\n" % layout.frame(0)
    for place, frame in enumerate(layout.frames):
        text += "<text class=\"c\" x=\"%d\" y=\"34\">%d</text>\n" % (layout.frame(place) + (FRAME - 6) // 2, frame)
    return text + "</svg>"


def band(x, width, start, end, kind, letter):
    """A value of a column over some rows, with its letter at the first of them and again after each 20."""
    text = "<rect class=\"edge %s\" x=\"%d\" y=\"%d\" width=\"%d\" height=\"%d\"/>" % (kind, x, start * ROW, width, (end - start) * ROW)
    for row in range(start, end, 20):
        text += "<text class=\"c\" x=\"%d\" y=\"%d\">%s</text>" % (x + width // 2, row * ROW + 14, letter)
    return text + "\n"


def label(entry):
    """What stands in an entry's box."""
    kind, at = entry.kind, short(entry.at)
    if kind in ("load", "store", "tas"):
        return "%s %s = %x" % (kind, at, entry.value)
    if kind == "fault":
        return "%s %s %s" % (entry.fault, entry.access, at)
    if kind == "fill":
        return "fill %s %s %s" % (entry.layer, entry.need, at)
    if kind in PAGER:
        return "%s page %s" % (kind, short(entry.at // 4096))
    return "%s %s" % (kind, at)


def pill(layout, entry, y):
    """An entry's box in the lane of its board."""
    color = COLORS.get(entry.kind, PAGER_COLOR)
    x = layout.lane(entry.board) + 4
    text = "<rect x=\"%d\" y=\"%d\" width=\"%d\" height=\"%d\" rx=\"4\" fill=\"%s\"/>" % (x, y + 2, LANE - 8, ROW - 4, color)
    return text + "<text x=\"%d\" y=\"%d\">%s</text>" % (x + 5, y + 14, escape(label(entry)))


def arrow(kind, marker, start, end, y):
    """A line between two lanes, with a head at its end where it has a marker."""
    head = " marker-end=\"url(#%s)\"" % marker if marker else ""
    return "<line class=\"%s\" x1=\"%d\" x2=\"%d\" y1=\"%d\" y2=\"%d\"%s/>" % (kind, start, end, y + ROW // 2, y + ROW // 2, head)


def edge(layout, board, other):
    """The edge of a board's box that looks to a place."""
    left, right = layout.lane(board) + 4, layout.lane(board) + LANE - 4
    return right if other > left else left


def arrows(layout, moment, y):
    """From where a block comes, or to where it goes."""
    entry, step = moment.entry, moment.step
    memory = layout.memory + 6
    if entry.kind == "fill":
        if step.supplier is None or step.supplier == entry.board:
            return arrow("m", "g", memory, edge(layout, entry.board, memory) + 2, y)
        from_right = step.supplier > entry.board
        start = layout.middle(step.supplier) + (-54 if from_right else 54)
        end = edge(layout, entry.board, start)
        return arrow("a", "t", start, end + (2 if from_right else -2), y)
    if entry.kind == "writeback":
        return arrow("m", "g", edge(layout, entry.board, memory), memory, y)
    if entry.kind == "flush" and any(change.old >= 2 for change in step.changes):
        return arrow("m", "g", layout.middle(entry.holder), memory, y)
    if entry.kind in PAGER:
        return arrow("x", None, edge(layout, entry.board, memory), memory, y)
    return ""


def beside(layout, moment, y):
    """What an entry did at other boards, and to the page."""
    entry, supplier = moment.entry, moment.step.supplier
    lines, plates = "", ""
    for change in moment.step.changes:
        if change.board == entry.board or change.block != block_of(entry.at):
            continue
        x = layout.middle(change.board)
        said = "%s to %s" % (LETTERS[change.old] or "I", LETTERS[change.new] or "I")
        plates += plate(x, y, "supplies, " + said if change.board == supplier else said)
        if change.board != supplier and entry.kind in ("fill", "claim"):
            lines += arrow("x", None, edge(layout, entry.board, x), x - 30 if change.board > entry.board else x + 30, y)
    if supplier not in (None, entry.board) and "supplies" not in plates:
        plates += plate(layout.middle(supplier), y, "supplies")
    if entry.kind in PAGER:
        plates += plate(layout.middle(None), y, page_said(entry))
    return lines + plates


def plate(x, y, said):
    """A word on white, so that arrows do not cross it."""
    width = 6 * len(said) + 8
    text = "<rect x=\"%d\" y=\"%d\" width=\"%d\" height=\"%d\" fill=\"#fff\"/>" % (x - width // 2, y + 3, width, ROW - 6)
    return text + "<text class=\"s\" x=\"%d\" y=\"%d\">%s</text>" % (x, y + 14, escape(said))


def page_said(entry):
    """What an entry of the pager does to its page."""
    page = "page " + short(page_of(entry.at) // 4096)
    return {
        "in": "%s into frame %s" % (page, entry.frame),
        "out": "%s out of its frame" % page,
        "leave": "%s leaves" % page,
        "setref": "%s referenced" % page,
        "setdirty": "%s dirty" % page,
        "clearref": "%s not referenced" % page,
    }[entry.kind]


def write(trace, options, out):
    """Writes the file."""
    from .picture import chosen

    count = min(options.count or MOST, MOST)
    first = options.first or 1
    if options.verdict and options.first is None and options.verdict[0] >= first + count:
        first = options.verdict[0] - count // 2
    picture = Picture(trace, options, chosen(trace, options), first, count)
    history = History(trace)
    picture.gather(history)
    picture.draw(out, history)
