"""The states of blocks on worked traces, and which entries do not fit them."""

import unittest

from common import bytes_of, history_of, run, states_of, traces_of_document, traces_of_source
from rows import EXAMPLE, OTHERWISE, ROWS, UNTOLD, trace_of
from spurtrace.sentences import read_verdict

SUM = ("%trace 1 1 256 4096\n" + "\n".join(EXAMPLE) + "\n").encode()
WATCHED = bytes_of("examples", "late", "watch.out")
ROOT, ENTRIES = 0x3FCFF00000, 0x3FC0000000


class States(unittest.TestCase):
    def test_of_the_sum(self):
        self.assertEqual(states_of(SUM, ROOT), ". U . . . . . . . . . . .")
        self.assertEqual(states_of(SUM, ENTRIES), ". . U U E E E E E E E E E")
        self.assertEqual(states_of(SUM, 0x40), ". . . . . . U U U U U E E")

    def test_of_two_boards(self):
        root = ".. U. .. .. .. .. .. .. .U .. .. .. .. .. .. .. .. .. .."
        entries = ".. .. U. U. E. E. E. E. E. NU NU NU NU NU .E .E .E .E .E"
        data = ".. .. .. .. .. .. U. U. U. U. U. U. U. U. U. U. U. U. U."
        other = ".. .. .. .. .. .. .. .. .. .. .U .U .U .U .U .U .U .E .E"
        for at, wanted in ((ROOT, root), (ENTRIES, entries), (0x40, data), (0x60, other)):
            self.assertEqual(states_of(WATCHED, at), wanted)

    def test_of_an_owner_that_supplies_and_is_replaced(self):
        trace = b"""%trace 1 3 4 16
fill 0 data write 0000000040
fill 1 data read 0000000040
fill 2 data read 0000000040
claim 2 0000000040
fill 0 data write 0000000040
writeback 0 0000000040
fill 0 data read 0000000240
flush 0 0 0000000240
"""
        self.assertEqual(states_of(trace, 0x40), "... E.. NU. NUU ..E E.. U.. ... ...")
        self.assertEqual(states_of(trace, 0x240), "... ... ... ... ... ... ... U.. ...")
        steps = [moment.step for moment in history_of(trace)[1]]
        self.assertEqual([step.supplier for step in steps], [None, 0, 0, None, 2, None, None, None])
        self.assertEqual([step.replaced for step in steps], [None] * 6 + [0x40, None])

    def test_that_pages_come_and_go(self):
        history, _ = history_of(bytes_of("examples", "judged", "free.check"))
        self.assertIsNone(history.misfit)
        self.assertIsNone(history.machine.page(0).frame)
        there, _ = history_of(SUM)
        page = there.machine.page(0x40)
        self.assertEqual((page.frame, page.referenced, page.dirty, page.leaving), (65, True, True, False))


class Fits(unittest.TestCase):
    def test_every_worked_trace(self):
        traces = [SUM, WATCHED] + traces_of_document("README.md")
        for name in ("commands", "probes", "late"):
            traces += traces_of_source("crates", "spur_tests", "src", name + ".rt")
        for path in (("late", "two_logs.out"), ("endings", "watch.out"), ("judged", "free.check"), ("judged", "stopped.check")):
            traces.append(bytes_of("examples", *path))
        self.assertGreater(len(traces), 10)
        for trace in traces:
            history, _ = history_of(trace)
            self.assertIsNone(history.misfit, trace)
            self.assertIsNone(history.fault, trace)

    def test_the_mistake_of_the_document(self):
        prelude, mistake = traces_of_document("docs", "TRACE.md")
        self.assertTrue(bytes_of("tools", "foreign", "prelude.trace").startswith(prelude))
        for trace in (bytes_of("examples", "judged", "unclaimed.check"), mistake):
            history, _ = history_of(trace)
            self.assertEqual((history.misfit[0], tuple(history.misfit[1])), (11, ("tags", 2, 1)))

    def test_each_refused_history(self):
        for row in ROWS:
            verdict = row[3]
            at, rule, wanted, found = read_verdict(verdict)
            history, _ = history_of(trace_of(row).encode())
            if verdict in UNTOLD:
                self.assertIsNone(history.misfit, verdict)
                continue
            self.assertEqual(history.misfit[0], at, verdict)
            told = tuple(history.misfit[1])
            if verdict in OTHERWISE:
                self.assertEqual(told, OTHERWISE[verdict], verdict)
            else:
                self.assertEqual(told[:2], (rule, wanted), verdict)
                self.assertIn(told[2], (None, found), verdict)

    def test_a_word_that_was_read_before(self):
        history, _ = history_of(SUM + b"load 0 0000000040 0000002b\n")
        self.assertEqual((history.misfit[0], tuple(history.misfit[1])), (13, ("answer", 0x2A, 0x2B)))

    def test_a_bad_trace_is_gone_through_to_its_end(self):
        history, moments = history_of(bytes_of("examples", "judged", "unclaimed.check") + b"claim 0 0000000040\nclaim 0 0000000040\n")
        self.assertEqual(len(moments), 13)
        self.assertEqual([moment.entry.number for moment in moments if moment.misfit], [11])

    def test_a_line_that_is_no_entry(self):
        history, moments = history_of(bytes_of("examples", "judged", "line.check"))
        self.assertEqual((history.fault.line, len(moments)), (4, 2))


class Reading(unittest.TestCase):
    def test_lines_that_are_refused(self):
        good = "%trace 1 2 256 4096\n"
        for line in (
            "load 0 40 00000029\n",
            "load 2 0000000040 00000029\n",
            "load 0 0000000041 00000029\n",
            "load 0 0000000040 00000029 \n",
            "load 0 0000000040 00000029\r\n",
            "load 0 0000000040 00000029",
            "load 0 00000000A0 00000029\n",
            "load 00 0000000040 00000029\n",
            "load 0 4000000000 00000029\n",
            "fill 0 user read 0000000040\n",
            "fill 0 data read 0000000044\n",
            "in 0 0000000000 4096\n",
            "in 0 0000000020 65\n",
            "fault 0 missing 0000000040\n",
            "flush 0 0000000040\n",
            "\n",
        ):
            history, moments = history_of((good + line).encode())
            self.assertEqual((history.fault and history.fault.line, moments), (2, []), line)

    def test_headers_that_are_refused(self):
        for line in ("%trace 1 0 256 4096\n", "%trace 1 13 256 4096\n", "%trace 1 1 0 4096\n", "%trace 1 1 3901 4096\n", "%trace 1 1 256 24\n"):
            self.assertEqual(run("picture", ["--text"], line.encode())[0], 3, line)
        for data in (b"", b"load 0 0000000040 00000029\n", b"%trace 2 1 256 4096\n", b"%trace 1 1 256 4096", b"%trace 1 1 256 4096\r\n"):
            self.assertEqual(run("picture", ["--text"], data)[0], 3, data)


if __name__ == "__main__":
    unittest.main()
