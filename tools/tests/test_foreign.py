"""What other simulators are refused by, and the page numbers whose lines never meet an entry's."""

import glob
import os
import random
import unittest

from common import PROGRAM, TOOLS, bytes_of, history_of, judged
from spurtrace.addresses import entry_block, line_of, root_block
from spurtrace.emitter import Emitter
from spurtrace.sentences import read_verdict
from spurtrace.trace import Header

NAMES = sorted(os.path.basename(path)[:-6] for path in glob.glob(os.path.join(TOOLS, "foreign", "*.trace")))


def page(segment, number):
    """The first byte of a page."""
    return (segment << 30) + number * 4096


class Foreign(unittest.TestCase):
    def test_each_trace_has_its_verdict(self):
        self.assertEqual(NAMES, ["exclusive_clean", "prelude", "snoop_writeback", "two_ways"])
        for name in NAMES:
            text, trace = (bytes_of("tools", "foreign", name + end) for end in (".s", ".trace"))
            verdict = bytes_of("tools", "foreign", name + ".verdict").decode()
            bad = read_verdict(verdict)
            misfit = history_of(trace)[0].misfit
            self.assertEqual(misfit and (misfit[0],) + tuple(misfit[1]), bad, name)
            if PROGRAM:
                self.assertEqual(judged(text, trace), (1 if bad else 0, verdict), name)

    def test_each_verdict_stands_in_the_document(self):
        document = bytes_of("docs", "TRACE.md").decode()
        for name in NAMES:
            self.assertIn("tools/foreign/" + name, document)
            self.assertIn("`%s`" % bytes_of("tools", "foreign", name + ".verdict").decode().strip(), document)


class Lines(unittest.TestCase):
    def test_data_never_meets_an_entry(self):
        for lines in (256, 512, 1024, 2048, 4096):
            tables = {line_of(entry(page(segment, number)), lines) for entry in (entry_block, root_block) for segment in range(4) for number in range(1024)}
            for segment in range(4):
                for number in range(1024):
                    data = {line_of(page(segment, number) + 32 * place, lines) for place in range(128)}
                    self.assertEqual(bool(data & tables), number % (lines // 128) == 0, (lines, segment, number))

    def test_where_the_entries_stand(self):
        for lines in (256, 4096):
            for segment in range(4):
                for number in range(1024):
                    self.assertEqual(line_of(entry_block(page(segment, number)), lines), number // 8)
                    self.assertEqual(line_of(root_block(page(segment, number)), lines), 32 * segment)

    def test_an_entry_block_is_fetched_again_only_after_a_claim(self):
        chance = random.Random(3)
        for lines in (256, 4096):
            # pages of two segments: no multiples of lines/128, no two segments in one eight, and not the first eights of 0 and 32
            numbers = [number for number in range(1024) if number % (lines // 128) and number // 8 not in (0, 32)]
            pages = [page(number // 8 % 2, number) for number in chance.sample(numbers, 60)]
            emitter = Emitter(Header(3, len(pages), lines), 66)
            for _ in range(1500):
                kind = chance.choice(("load", "store"))
                emitter.access(kind, chance.randrange(3), chance.choice(pages) + 4 * chance.randrange(1024), 0)
            had, lost = set(), set()
            for line in emitter.lines:
                words = line.split()
                key = (words[1], words[-1])
                if words[0] == "claim":
                    lost |= {(board, at) for board, at in had if at == words[-1] and board != words[1]}
                elif words[:1] + words[2:3] == ["fill", "pte"]:
                    self.assertTrue(key not in had or key in lost, line)
                    had.add(key)
                    lost.discard(key)


if __name__ == "__main__":
    unittest.main()
