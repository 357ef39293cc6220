"""Histories that `check` refuses, one for each rule and each condition that has a number, with their verdicts.

Each begins with so many entries of the run of examples/sum.s and goes on with more. The text is that of sum.s with page 1, which may only be
read. Where the program of a row is another, it is told.
"""

EXAMPLE = """fill 0 root read 3fcff00000
fill 0 pte read 3fc0000000
fault 0 missing load 0000000040
claim 0 3fc0000000
in 0 0000000000 65
fill 0 data read 0000000040
load 0 0000000040 00000029
fault 0 dirty store 0000000040
setdirty 0 0000000000
refresh 0 0000000040
claim 0 0000000040
store 0 0000000040 0000002a""".split("\n")

SUM = "ld r1, 64(r0)|addi r1, r1, 1|st r1, 64(r0)|halt"

# The boards, how many entries of the example, the entries behind them, the verdict, and the program.
ROWS = [
    (1, 7, ["load 0 0000000040 00000029"], "bad 8 program 2 1", SUM),
    (1, 6, ["load 0 0000000044 00000029"], "bad 7 program 64 68", SUM),
    (1, 11, ["store 0 0000000040 0000002b"], "bad 12 program 42 43", SUM),
    (1, 12, ["load 0 0000000040 0000002a"], "bad 13 program 0 1", SUM),
    (1, 0, ["load 0 0000000040 00000029"], "bad 1 fault 3 0", SUM),
    (1, 7, ["store 0 0000000040 0000002a"], "bad 8 fault 7 0", SUM),
    (1, 0, ["fault 0 align load 0000000040"], "bad 1 fault 3 1", SUM),
    (1, 0, ["fault 0 unmapped load 0000000040"], "bad 1 fault 3 2", SUM),
    (1, 5, ["fault 0 missing load 0000000040"], "bad 6 fault 0 3", SUM),
    (1, 0, ["fault 0 leaving load 0000000040"], "bad 1 fault 3 4", SUM),
    (1, 0, ["fault 0 protection load 0000000040"], "bad 1 fault 3 5", SUM),
    (1, 0, ["fault 0 reference load 0000000040"], "bad 1 fault 3 6", SUM),
    (1, 0, ["fault 0 dirty load 0000000040"], "bad 1 fault 3 7", SUM),
    (1, 0, ["fault 0 missing load 0000000002"], "bad 1 fault 1 3", "ld r1, 2(r0)"),
    (1, 0, ["fault 0 align load 0000000002", "load 0 0000000000 00000000"], "bad 2 program 0 1", "ld r1, 2(r0)"),
    (1, 0, ["load 0 0000002000 00000000"], "bad 1 fault 2 0", "ld r1, 8192(r0)"),
    (1, 2, ["claim 0 3fc0000000", "in 0 0000001000 65", "store 0 0000001000 00000000"], "bad 5 fault 5 0", "st r1, 4096(r0)"),
    (1, 6, ["load 0 0000000040 0000002a"], "bad 7 answer 41 42", SUM),
    (
        1,
        2,
        ["claim 0 3fc0000000", "in 0 0000000000 65", "setdirty 0 0000000000", "fill 0 data write 0000000040", "tas 0 0000000040 0000002a"],
        "bad 7 answer 41 42",
        "tas r1, 64(r0)",
    ),
    (1, 0, ["leave 0 0000002000"], "bad 1 pager 1 0", SUM),
    (1, 0, ["leave 0 0000000000"], "bad 1 pager 2 48", SUM),
    (1, 0, ["out 0 0000000000"], "bad 1 pager 3 48", SUM),
    (1, 5, ["in 0 0000000000 66"], "bad 6 pager 4 266259", SUM),
    (1, 0, ["in 0 0000000000 64"], "bad 1 pager 5 64", SUM),
    (1, 5, ["in 0 0000001000 65"], "bad 6 pager 5 65", SUM),
    (1, 0, ["setref 0 0000000000"], "bad 1 pager 6 48", SUM),
    (1, 0, ["setdirty 0 0000000000"], "bad 1 pager 7 48", SUM),
    (1, 2, ["claim 0 3fc0000000", "in 0 0000001000 65", "setdirty 0 0000001000"], "bad 5 pager 7 266251", SUM),
    (1, 0, ["clearref 0 0000000000"], "bad 1 pager 8 48", SUM),
    (1, 5, ["load 0 0000000040 00000029"], "bad 6 tags 1 0", SUM),
    (1, 10, ["store 0 0000000040 0000002a"], "bad 11 tags 2 1", SUM),
    (1, 9, ["claim 0 0000000040", "store 0 0000000040 0000002a"], "bad 11 tags 3 0", SUM),
    (1, 0, ["in 0 0000000000 65"], "bad 1 tags 4 0", SUM),
    (1, 0, ["fill 0 root read 0000000040"], "bad 1 tags 5 0", SUM),
    (1, 1, ["fill 0 root read 3fcff00000"], "bad 2 tags 6 1", SUM),
    (1, 5, ["fill 0 data read 0000000000"], "bad 6 tags 7 3", SUM),
    (1, 0, ["fill 0 data read 0000000040"], "bad 1 tags 8 0", SUM),
    (1, 0, ["fill 0 pte read 3fc0000000"], "bad 1 tags 9 0", SUM),
    (1, 2, ["fill 0 data read 0000000040"], "bad 3 tags 10 48", SUM),
    (1, 1, ["fill 0 pte read 3fc0001000"], "bad 2 tags 11 0", SUM),
    (1, 0, ["claim 0 3fc0000000"], "bad 1 tags 12 0", SUM),
    (1, 2, ["writeback 0 3fc0000000"], "bad 3 tags 13 1", SUM),
    (1, 0, ["refresh 0 0000000040"], "bad 1 tags 14 0", SUM),
    (1, 6, ["refresh 0 0000000040"], "bad 7 tags 15 266259", SUM),
    (1, 0, ["flush 0 0 0000000040"], "bad 1 tags 16 0", SUM),
    (1, 6, ["flush 0 0 0000000040"], "bad 7 tags 17 266259", SUM),
    (1, 7, ["leave 0 0000000000", "out 0 0000000000"], "bad 9 tags 18 0", SUM),
    (
        2,
        5,
        [
            "fill 1 root read 3fcff00000",
            "fill 1 pte read 3fc0000000",
            "fill 1 data read 0000000040",
            "load 1 0000000040 00000029",
            "claim 0 3fc0000000",
            "leave 0 0000000000",
            "out 0 0000000000",
        ],
        "bad 12 tags 18 1",
        SUM,
    ),
    (
        1,
        2,
        [
            "fill 0 root read 3fcff00000",
            "fill 0 pte read 3fc0000000",
            "fill 0 root read 3fcff00000",
            "fill 0 pte read 3fc0000000",
            "fill 0 root read 3fcff00000",
        ],
        "bad 7 needed 1 7",
        SUM,
    ),
    (1, 1, ["fill 0 root read 3fcff00020", "fault 0 missing load 0000000040"], "bad 3 needed 2 2", SUM),
    (1, 0, ["fill 0 root write 3fcff00000", "fault 0 missing load 0000000040"], "bad 2 needed 3 1", SUM),
]

# Of these the trace alone does not tell, so that their last entry fits what the entries before it lead to.
UNTOLD = {
    "bad 8 program 2 1",
    "bad 7 program 64 68",
    "bad 12 program 42 43",
    "bad 13 program 0 1",
    "bad 1 fault 3 2",
    "bad 7 answer 41 42",
    "bad 5 pager 7 266251",
    "bad 2 tags 11 0",
}

# Of these the trace alone finds another rule that is broken: it knows of no declared pages, no data frames, no protections, and of no program.
OTHERWISE = {
    "bad 2 program 0 1": ("fault", 3, 0),
    "bad 1 fault 2 0": ("fault", 3, 0),
    "bad 5 fault 5 0": ("fault", 7, 0),
    "bad 1 pager 1 0": ("pager", 2, None),
    "bad 1 pager 5 64": ("tags", 4, 0),
}


def trace_of(row):
    """The trace of a row."""
    return "\n".join(["%%trace 1 %d 256 4096" % row[0]] + EXAMPLE[: row[1]] + row[2]) + "\n"


def text_of(row):
    """The text of a row."""
    board = "\n.board\n" + "\n".join(row[4].split("|")) + "\n"
    return ".page 0 0 rw\n.page 0 1 ro\n.word 0 64 41\n" + board * row[0]
