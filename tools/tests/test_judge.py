"""The command `tools/judge`: what it hands to the program, and what the proved program answers."""

import os
import stat
import tempfile
import unittest

from common import PROGRAM, bytes_of, judged, run
from rows import EXAMPLE, ROWS, text_of, trace_of

TRACE = ("%trace 1 1 256 4096\n" + "\n".join(EXAMPLE) + "\n").encode()
REPORT = b"board 0 halted retired 4\nshown 0 5\n"
SUM = bytes_of("examples", "sum.s")


class Room(unittest.TestCase):
    def setUp(self):
        room = tempfile.TemporaryDirectory()
        self.addCleanup(room.cleanup)
        self.room = room.name

    def file(self, name, data):
        path = os.path.join(self.room, name)
        with open(path, "wb") as file:
            file.write(data)
        return path


class Cut(Room):
    """With a program in the place of the true one that writes its words and its input."""

    def handed(self, text, trace, *words):
        program = self.file("program", b'#!/bin/sh\necho "$*"\ncat\nexit 7\n')
        os.chmod(program, stat.S_IRWXU)
        env = dict(os.environ, SPUR=program)
        status, out, said = run("judge", [self.file("text", text)] + list(words), trace, env)
        self.assertEqual((status, said), (7, b""))
        return out

    def test_the_report_is_dropped(self):
        self.assertEqual(self.handed(SUM, REPORT + TRACE), b"check\n" + SUM + TRACE)
        self.assertEqual(self.handed(SUM, TRACE), b"check\n" + SUM + TRACE)

    def test_the_text_gets_its_last_line_feed(self):
        self.assertEqual(self.handed(b".board\nhalt", b"%trace 1 1 1 16\n"), b"check\n.board\nhalt\n%trace 1 1 1 16\n")

    def test_the_trace_is_handed_on_as_it_is(self):
        self.assertEqual(self.handed(b"", b"%trace 1 1 1 16\r\nload"), b"check\n%trace 1 1 1 16\r\nload")

    def test_the_budget_is_handed_on(self):
        self.assertEqual(self.handed(b"", TRACE, "--budget", "9"), b"check --budget 9\n" + TRACE)

    def test_words_that_are_refused(self):
        text = self.file("text", SUM)
        for words in ([], [text, "--budget"], [text, "--lines", "16"], [os.path.join(self.room, "none")], [text, text]):
            status, out, said = run("judge", words, TRACE)
            self.assertEqual((status, out), (2, b""), words)
            self.assertTrue(said.startswith(b"judge: "), words)


@unittest.skipUnless(PROGRAM, "no program is proved from these sources")
class Judged(Room):
    def verdict(self, text, trace, *words):
        env = dict(os.environ, SPUR=PROGRAM)
        status, out, _ = run("judge", [self.file("text", text)] + list(words), trace, env)
        return status, out.decode()

    def test_a_run(self):
        self.assertEqual(self.verdict(SUM, REPORT + TRACE), (0, "good 12\n"))
        self.assertEqual(self.verdict(SUM, TRACE, "--budget", "2"), (1, "bad 8 program 0 2\n"))

    def test_the_mistakes_of_a_first_try(self):
        self.assertEqual(self.verdict(SUM, TRACE.replace(b"\n", b"\r\n")), (3, "refused: trace line 1: bad header\n"))
        self.assertEqual(self.verdict(SUM, TRACE[:-1]), (3, "refused: trace line 13: bad line\n"))
        self.assertEqual(judged(SUM, REPORT + TRACE), (3, "refused: line 10 column 1: unknown name\n"))

    def test_each_refused_history(self):
        for row in ROWS:
            self.assertEqual(self.verdict(text_of(row).encode(), trace_of(row).encode()), (1, row[3] + "\n"))


if __name__ == "__main__":
    unittest.main()
