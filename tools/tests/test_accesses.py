"""The command `tools/accesses`: instructions, traces, and what no longer fits."""

import os
import random
import re
import unittest

from common import PROGRAM, history_of, judged, run
from test_judge import Room


class Accesses(Room):
    def made(self, accesses, *words):
        """The text and the trace that are made."""
        text, trace = os.path.join(self.room, "text"), os.path.join(self.room, "trace")
        status, out, said = run("accesses", [text, trace] + list(words), accesses.encode())
        self.assertEqual((status, out), (0, b""), said)
        with open(text, "rb") as one, open(trace, "rb") as other:
            made = one.read(), other.read()
        self.fits(*made)
        return made[0].decode(), made[1].decode()

    def fits(self, text, trace):
        """The trace fits its states, and is judged good where the program is there."""
        history, _ = history_of(trace)
        self.assertEqual((history.misfit, history.fault), (None, None))
        if PROGRAM:
            self.assertEqual(judged(text, trace), (0, "good %d\n" % history.count))

    def refused(self, accesses, *words):
        """The exit status and what is said where nothing is made."""
        text, trace = os.path.join(self.room, "no_text"), os.path.join(self.room, "no_trace")
        status, out, said = run("accesses", [text, trace] + list(words), accesses.encode())
        self.assertFalse(os.path.exists(text) or os.path.exists(trace))
        self.assertEqual(out, b"")
        return status, said.decode()


def code_of(text):
    """The instructions of a text."""
    return [line.strip() for line in text.split("\n") if line.startswith("        ")]


def accesses_of(trace):
    """The lines of a trace that tell of accesses that were done."""
    return re.findall(r"^(?:load|store|tas) .*$", trace, re.M)


class Programs(Accesses):
    def test_near_accesses_cost_one_instruction(self):
        text, _ = self.made("0 load 12340000\n0 load 1234fffc\n0 load 12348000\n0 load 40\n0 load 7ffc\n")
        wanted = ["li r3, -32768", "lih r3, 4660", "ld r1, -32768(r3)", "ld r1, 32764(r3)", "ld r1, 0(r3)", "ld r1, 64(r0)", "ld r1, 32764(r0)"]
        self.assertEqual(code_of(text), wanted)

    def test_a_fourteenth_piece_takes_the_base_used_longest_ago(self):
        lines = "".join("0 load %x\n" % (piece << 16) for piece in [1, 2, 3, 4, 5, 6, 7, 8, 9, 10, 11, 12, 13, 1, 14, 2])
        code = code_of(self.made(lines)[0])
        self.assertEqual(code[-5:], ["ld r1, -32768(r3)", "lih r4, 14", "ld r1, -32768(r4)", "lih r5, 2", "ld r1, -32768(r5)"])

    def test_values(self):
        values = (0, 1, 0x7FFF, 0x8000, 0xFFFF, 0xFFFF8000, 0xFFFFFFFF, 0x12348765)
        text, trace = self.made("".join("0 store %x %x\n" % (4 * place, value) for place, value in enumerate(values)))
        self.assertEqual(accesses_of(trace), ["store 0 %010x %08x" % (4 * place, value) for place, value in enumerate(values)])
        self.assertIn("st r0, 0(r0)", text)

    def test_first_words_and_what_is_read(self):
        text, trace = self.made("0 load 40 7\n0 tas 40\n1 tas 40 1\n1 load 44\n0 store 44 9\n1 load 44 9\n")
        self.assertIn(".word 0 64 7\n", text)
        wanted = ["load 0 0000000040 00000007", "tas 0 0000000040 00000007", "tas 1 0000000040 00000001"]
        self.assertEqual(accesses_of(trace)[:3], wanted)

    def test_four_segments_of_each_board(self):
        text, _ = self.made("0 load 3f80000000\n0 load 0\n0 load 280000000\n0 load 2c0000000\n1 load 2c0000000\n")
        self.assertIn(".seg 254 0 10 11\n", text)
        self.assertIn(".seg 11 0 1 2\n", text)

    def test_no_access_at_all(self):
        self.assertEqual(self.made("# nothing\n\n")[1], "%trace 1 1 1 4096\n")

    def test_one_random_list_over_small_caches(self):
        chance = random.Random(7)
        for lines in ("16", "4096"):
            made = []
            for _ in range(400):
                at = chance.choice((0, 0x1000, 0x3F80000000, 0x400000, 0x12345000)) + 4 * chance.randrange(1024)
                kind = chance.choice(("load", "store", "tas"))
                made.append("%d %s %x%s" % (chance.randrange(4), kind, at, " %x" % chance.getrandbits(32) if kind == "store" else ""))
            _, trace = self.made("\n".join(made) + "\n", "--lines", lines)
            self.assertEqual(len(accesses_of(trace)), 400)

    def test_the_same_bytes_twice(self):
        accesses = "0 store 40 2a\n1 load 40\n2 tas 3f80000000\n"
        self.assertEqual(self.made(accesses), self.made(accesses))


class Din(Accesses):
    def test_reads_writes_and_fetches(self):
        _, trace = self.made("0 1000\n2 400\n1 1004\n1 1006 extra\n0 0x1004\n", "--din", "--board", "1")
        self.assertEqual(accesses_of(trace), ["load 1 0000001000 00000000", "store 1 0000001004 00000001", "store 1 0000001004 00000002", "load 1 0000001004 00000002"])

    def test_lines_that_are_refused(self):
        self.assertEqual(self.refused("3 40\n", "--din"), (3, "accesses: line 1 is no access: 3 40\n"))


class TooMuch(Accesses):
    def test_a_board_with_too_many_instructions(self):
        status, said = self.refused("1 load 40\n" * 10 + "0 load 40\n" * 4097)
        self.assertEqual(status, 1)
        self.assertEqual(said, "accesses: line 4107 does not fit: load of board 0 at 0000000040: the board would need more than 4096 instructions\n")
        text, _ = self.made("0 load 40\n" * 4096)
        self.assertEqual(len(code_of(text)), 4096)

    def test_an_access_whose_base_no_longer_fits(self):
        status, said = self.refused("0 load 40\n" * 4095 + "0 load 10000\n")
        self.assertEqual(status, 1)
        self.assertIn("line 4096 does not fit", said)

    def test_a_fifth_segment(self):
        self.assertIn("line 5 does not fit", self.refused("".join("0 load %x\n" % (segment << 30) for segment in range(5)))[1])

    def test_a_word_that_cannot_have_been_read(self):
        status, said = self.refused("0 store 40 5\n1 load 40 6\n")
        self.assertEqual((status, said), (1, "accesses: line 2 does not fit: load of board 1 at 0000000040: it reads 00000006, but the word is 00000005 then\n"))

    def test_too_many_pages(self):
        self.assertIn("line 2049 does not fit", self.refused("".join("%d load %x\n" % (page % 12, page << 12) for page in range(2049)))[1])
        text, _ = self.made("".join("%d load %x\n" % (page % 12, page << 12) for page in range(2048)))
        self.assertEqual(text.count(".page"), 2048)

    def test_lines_that_are_refused(self):
        for line in ("0 load 41", "0 load", "12 load 40", "0 read 40", "0 load 3fc0000000", "0 store 40 100000000", "0 load 40 7 8", "x load 40", "0 load -40"):
            self.assertEqual(self.refused(line + "\n"), (3, "accesses: line 1 is no access: %s\n" % line))

    def test_words_that_are_refused(self):
        for words in (["--lines", "24"], ["--lines"], ["--board", "12"], ["--other"], ["third"]):
            self.assertEqual(self.refused("", *words)[0], 2, words)


if __name__ == "__main__":
    unittest.main()
