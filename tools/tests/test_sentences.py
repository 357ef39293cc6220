"""The sentences: what each entry did, and which rule a refused one breaks, with its two numbers."""

import unittest

from common import bytes_of, history_of
from rows import EXAMPLE, ROWS, trace_of
from spurtrace.sentences import PAGER_CONDITIONS, RULES, TAG_CONDITIONS, NEEDED_CONDITIONS, VerdictFault, explained, read_verdict, sentence
from spurtrace.history import History
from spurtrace.trace import Trace

# What is said of each verdict of the rows.
SAID = {
    "bad 8 program 2 1": "Rule program: a board's accesses have to be those of its program, in order. The program's next access is a store, the entry is a load.",
    "bad 7 program 64 68": "Rule program: a board's accesses have to be those of its program, in order. The program's address is 0000000040, the entry's is 0000000044.",
    "bad 12 program 42 43": "Rule program: a board's accesses have to be those of its program, in order. The program stores 42 (0000002a), the entry 43 (0000002b).",
    "bad 13 program 0 1": "Rule program: a board's accesses have to be those of its program, in order. The board has no access left: it has ended, or its budget is spent; the entry is a load.",
    "bad 1 fault 3 0": "Rule fault: an access has to be answered as its page's entry says. The access was done (0), but the fault missing (3) bars it: the page is in no frame.",
    "bad 8 fault 7 0": "Rule fault: an access has to be answered as its page's entry says. The access was done (0), but the fault dirty (7) bars it: the page is not marked as dirty.",
    "bad 1 fault 3 1": "Rule fault: an access has to be answered as its page's entry says. It was answered by the fault align (1), but the fault that should have come is missing (3): the page is in no frame.",
    "bad 1 fault 3 2": "Rule fault: an access has to be answered as its page's entry says. It was answered by the fault unmapped (2), but the fault that should have come is missing (3): the page is in no frame.",
    "bad 6 fault 0 3": "Rule fault: an access has to be answered as its page's entry says. It was answered by the fault missing (3), but it could have been done (0).",
    "bad 1 fault 3 4": "Rule fault: an access has to be answered as its page's entry says. It was answered by the fault leaving (4), but the fault that should have come is missing (3): the page is in no frame.",
    "bad 1 fault 3 5": "Rule fault: an access has to be answered as its page's entry says. It was answered by the fault protection (5), but the fault that should have come is missing (3): the page is in no frame.",
    "bad 1 fault 3 6": "Rule fault: an access has to be answered as its page's entry says. It was answered by the fault reference (6), but the fault that should have come is missing (3): the page is in no frame.",
    "bad 1 fault 3 7": "Rule fault: an access has to be answered as its page's entry says. It was answered by the fault dirty (7), but the fault that should have come is missing (3): the page is in no frame.",
    "bad 1 fault 1 3": "Rule fault: an access has to be answered as its page's entry says. It was answered by the fault missing (3), but the fault that should have come is align (1): the address is no multiple of 4.",
    "bad 2 program 0 1": "Rule program: a board's accesses have to be those of its program, in order. The board has no access left: it has ended, or its budget is spent; the entry is a load.",
    "bad 1 fault 2 0": "Rule fault: an access has to be answered as its page's entry says. The access was done (0), but the fault unmapped (2) bars it: the page is not declared.",
    "bad 5 fault 5 0": "Rule fault: an access has to be answered as its page's entry says. The access was done (0), but the fault protection (5) bars it: the page may not be accessed so.",
    "bad 7 answer 41 42": "Rule answer: a load or a test-and-set has to read the word that was last written. The word is 41 (00000029), but the entry read 42 (0000002a).",
    "bad 1 pager 1 0": "Rule pager, condition 1: the page of an entry of the pager has to be declared. It is not; the second number is always 0 here.",
    "bad 1 pager 2 48": "Rule pager, condition 2: a page that is marked as leaving has to be in a frame, and not leaving yet. The word of the entry of page 0 of segment 0 (0000000000) is 48, hexadecimal 00000030: on swap in slot 0, not referenced, not dirty, not leaving, may be read and written.",
    "bad 1 pager 3 48": "Rule pager, condition 3: a page that goes out has to be in a frame, and leaving. The word of the entry of page 0 of segment 0 (0000000000) is 48, hexadecimal 00000030: on swap in slot 0, not referenced, not dirty, not leaving, may be read and written.",
    "bad 6 pager 4 266259": "Rule pager, condition 4: a page that comes in has to be on swap. The word of the entry of page 0 of segment 0 (0000000000) is 266259, hexadecimal 00041013: in frame 65, referenced, not dirty, not leaving, may be read and written.",
    "bad 1 pager 5 64": "Rule pager, condition 5: a page has to come into a data frame in which no page is. The entry's frame is 64.",
    "bad 6 pager 5 65": "Rule pager, condition 5: a page has to come into a data frame in which no page is. The entry's frame is 65.",
    "bad 1 pager 6 48": "Rule pager, condition 6: a page that is marked as referenced has to be in a frame, and not referenced yet. The word of the entry of page 0 of segment 0 (0000000000) is 48, hexadecimal 00000030: on swap in slot 0, not referenced, not dirty, not leaving, may be read and written.",
    "bad 1 pager 7 48": "Rule pager, condition 7: a page that is marked as dirty has to be in a frame, not dirty yet, and may be written. The word of the entry of page 0 of segment 0 (0000000000) is 48, hexadecimal 00000030: on swap in slot 0, not referenced, not dirty, not leaving, may be read and written.",
    "bad 5 pager 7 266251": "Rule pager, condition 7: a page that is marked as dirty has to be in a frame, not dirty yet, and may be written. The word of the entry of page 1 of segment 0 (0000001000) is 266251, hexadecimal 0004100b: in frame 65, referenced, not dirty, not leaving, may be read.",
    "bad 1 pager 8 48": "Rule pager, condition 8: a page whose mark as referenced is cleared has to be in a frame, referenced, and not leaving. The word of the entry of page 0 of segment 0 (0000000000) is 48, hexadecimal 00000030: on swap in slot 0, not referenced, not dirty, not leaving, may be read and written.",
    "bad 6 tags 1 0": "Rule tags, condition 1: a board that loads has to have the block. Found was the state 0, Invalid, of the block 0000000040 at board 0.",
    "bad 11 tags 2 1": "Rule tags, condition 2: a board that writes has to own the block alone. Found was the state 1, UnOwned, of the block 0000000040 at board 0.",
    "bad 11 tags 3 0": "Rule tags, condition 3: a board that writes needs the dirty copy of the block's line set. It is clear; the second number is always 0 here.",
    "bad 1 tags 4 0": "Rule tags, condition 4: a board that changes a page-table entry has to own its block alone. Found was the state 0, Invalid, of the block 3fc0000000 at board 0.",
    "bad 1 tags 5 0": "Rule tags, condition 5: a fill has to name the layer of its address. The layer of this address is data; the second number is always 0 here.",
    "bad 2 tags 6 1": "Rule tags, condition 6: a board that fills a block has to lack it. Found was the state 1, UnOwned, of the block 3fcff00000 at board 0.",
    "bad 6 tags 7 3": "Rule tags, condition 7: a fill may not replace an owned block, which has to be written back first. Found was the state 3, OwnedExclusive, of the block that stands on the line at board 0.",
    "bad 1 tags 8 0": "Rule tags, condition 8: a fill of data needs the block of the page's entry in the same cache. Found was the state 0, Invalid, of the block 3fc0000000 at board 0.",
    "bad 1 tags 9 0": "Rule tags, condition 9: a fill of page-table entries needs the block of their root entry in the same cache. Found was the state 0, Invalid, of the block 3fcff00000 at board 0.",
    "bad 3 tags 10 48": "Rule tags, condition 10: a fill of data needs a page that is in a frame, referenced, not leaving and may be accessed so, and for writing is dirty. The word of the page's entry is 48, hexadecimal 00000030: on swap in slot 0, not referenced, not dirty, not leaving, may be read and written.",
    "bad 2 tags 11 0": "Rule tags, condition 11: a fill of page-table entries needs a valid root entry. The word of the root entry is 0, which is no entry's.",
    "bad 1 tags 12 0": "Rule tags, condition 12: a board that claims a block has to have it, and not to own it alone yet. Found was the state 0, Invalid, of the block 3fc0000000 at board 0.",
    "bad 3 tags 13 1": "Rule tags, condition 13: a board that writes a block back has to own it. Found was the state 1, UnOwned, of the block 3fc0000000 at board 0.",
    "bad 1 tags 14 0": "Rule tags, condition 14: a refresh needs the block with its dirty copy clear, and the block of the page's entry, in the same cache. Found was the state 0, Invalid, of the block 3fc0000000 at board 0.",
    "bad 7 tags 15 266259": "Rule tags, condition 15: a refresh needs a page that is dirty and not leaving. The word of the page's entry is 266259, hexadecimal 00041013: in frame 65, referenced, not dirty, not leaving, may be read and written.",
    "bad 1 tags 16 0": "Rule tags, condition 16: a flush needs a holder that has the block. Found was the state 0, Invalid, of the block 0000000040 at board 0.",
    "bad 7 tags 17 266259": "Rule tags, condition 17: a flush needs a page that is leaving. The word of the page's entry is 266259, hexadecimal 00041013: in frame 65, referenced, not dirty, not leaving, may be read and written.",
    "bad 9 tags 18 0": "Rule tags, condition 18: a page may only go out when no board has a block of it. Board 0 is the first that has one.",
    "bad 12 tags 18 1": "Rule tags, condition 18: a page may only go out when no board has a block of it. Board 1 is the first that has one.",
    "bad 7 needed 1 7": "Rule needed, condition 1: a board may have at most 6 fills, claims and write-backs open before the access that they are for. This one would be number 7.",
    "bad 3 needed 2 2": "Rule needed, condition 2: each open fill and claim has to be of a block that serves the access, and each open write-back on the line of one. Entry 2 is the first that does not serve. The blocks that serve entry 3 are 0000000040, 3fc0000000, 3fcff00000.",
    "bad 2 needed 3 1": "Rule needed, condition 3: each open claim and each open fill for writing has to be of the block that is written. Entry 1 is the first of another block. Entry 2 writes none.",
}

ENTRIES = [
    "Board 0 fills a block of root entries, 3fcff00000, for reading, and memory supplies it; at board 0 Invalid became UnOwned.",
    "Board 0 fills a block of page-table entries, 3fc0000000, for reading, and memory supplies it; at board 0 Invalid became UnOwned, "
    "board 0 no longer has the block 3fcff00000.",
    "Board 0 is answered a load by the fault missing at 0000000040: the page is in no frame.",
    "Board 0 claims the block 3fc0000000, so that it owns it alone; at board 0 UnOwned became OwnedExclusive.",
    "Board 0 brings page 0 of segment 0 (0000000000) from its swap slot into frame 65.",
    "Board 0 fills a block of data, 0000000040, for reading, and memory supplies it; at board 0 Invalid became UnOwned.",
    "Board 0 loads 00000029 from 0000000040, which it has as UnOwned.",
    "Board 0 is answered a store by the fault dirty at 0000000040: the page is not marked as dirty.",
    "Board 0 marks page 0 of segment 0 (0000000000) as dirty.",
    "Board 0 sets the dirty copy of the line of 0000000040, since its page is dirty now.",
    "Board 0 claims the block 0000000040, so that it owns it alone; at board 0 UnOwned became OwnedExclusive.",
    "Board 0 stores 0000002a to 0000000040, which it has as OwnedExclusive.",
]


class Sentences(unittest.TestCase):
    def test_each_verdict_of_the_rows(self):
        for row in ROWS:
            at, rule, wanted, found = read_verdict(row[3])
            entry = history_of(trace_of(row).encode())[1][at - 1].entry
            self.assertEqual(explained(rule, wanted, found, entry), SAID[row[3]])

    def test_each_rule_and_condition_has_a_row(self):
        seen = {tuple(row[3].split()[2:4]) for row in ROWS}
        self.assertEqual({rule for rule, _ in seen}, set(RULES))
        for rule, conditions in (("pager", PAGER_CONDITIONS), ("tags", TAG_CONDITIONS), ("needed", NEEDED_CONDITIONS)):
            self.assertEqual({int(number) for name, number in seen if name == rule}, set(conditions))
        self.assertEqual((len(PAGER_CONDITIONS), len(TAG_CONDITIONS), len(NEEDED_CONDITIONS)), (8, 18, 3))

    def test_each_answer_that_is_wanted_or_found(self):
        names = ("align", "unmapped", "missing", "leaving", "protection", "reference", "dirty")
        for number, name in enumerate(names, 1):
            self.assertIn("but the fault %s (%d) bars it" % (name, number), explained("fault", number, 0))
            self.assertIn("by the fault %s (%d), but it could have been done (0)" % (name, number), explained("fault", 0, number))
            other = number % 7 + 1
            said = explained("fault", number, other)
            self.assertIn("by the fault %s (%d), but the fault that should have come is %s (%d)" % (names[other - 1], other, name, number), said)

    def test_each_state_that_is_found(self):
        for number, name in enumerate(("Invalid", "UnOwned", "OwnedNonExclusive", "OwnedExclusive")):
            self.assertIn("Found was the state %d, %s." % (number, name), explained("tags", 2, number))

    def test_a_state_at_the_holder(self):
        entry = history_of(b"%trace 1 3 4 16\nflush 0 2 0000000040\n")[1][0].entry
        self.assertIn("the state 0, Invalid, of the block 0000000040 at board 2.", explained("tags", 16, 0, entry))

    def test_numbers_of_a_program_that_may_be_of_two_things(self):
        store = history_of(b"%trace 1 1 4 16\nstore 0 0000000040 00000040\n")[1][0].entry
        said = explained("program", 68, 64, store)
        self.assertIn("The program's address is 0000000044, the entry's is 0000000040, or else the program stores 68", said)
        self.assertIn("The program's next access is a test-and-set, the entry is a store.", explained("program", 3, 2, store))
        self.assertIn("which are not this entry's", explained("program", 9, 8, store))

    def test_words_that_are_no_verdict(self):
        for words in ("", "bad", "bad 1 tags 19 0", "bad 1 pager 0 0", "bad 0 tags 1 0", "bad 1 needed 4 0", "bad 1 other 1 0", "bad x tags 1 0", "good"):
            self.assertRaises(VerdictFault, read_verdict, words)
        self.assertIsNone(read_verdict("good 12"))
        self.assertEqual(read_verdict("bad 7 answer 41 42"), (7, "answer", 41, 42))


class Entries(unittest.TestCase):
    def said(self, data):
        history = History(Trace(data))
        return [sentence(history.machine, moment.entry, moment.step) for moment in history.moments()]

    def test_of_the_sum(self):
        self.assertEqual(self.said(("%trace 1 1 256 4096\n" + "\n".join(EXAMPLE) + "\n").encode()), ENTRIES)

    def test_of_the_pager(self):
        said = self.said(bytes_of("examples", "judged", "free.check"))
        self.assertEqual(said[5], "Board 0 clears the mark of page 0 of segment 0 (0000000000) as referenced.")
        self.assertEqual(said[7], "Board 0 marks page 0 of segment 0 (0000000000) as referenced.")
        self.assertEqual(said[8], "Board 0 marks page 0 of segment 0 (0000000000) as leaving its frame.")
        self.assertEqual(said[10], "Board 0 puts page 0 of segment 0 (0000000000) out of its frame, to its swap slot.")

    def test_of_an_owner(self):
        said = self.said(
            b"%trace 1 2 4 16\nfill 0 data write 0000000040\nfill 1 data read 0000000040\ntas 1 0000000044 00000000\n"
            b"claim 1 0000000040\nwriteback 1 0000000040\nflush 0 1 0000000040\n"
        )
        self.assertEqual(
            said[1],
            "Board 1 fills a block of data, 0000000040, for reading, and board 0, its owner, supplies it; "
            "at board 0 OwnedExclusive became OwnedNonExclusive, at board 1 Invalid became UnOwned.",
        )
        self.assertEqual(said[2], "Board 1 reads 00000000 from 0000000044 and sets it to 1 in one step, and has it as UnOwned.")
        self.assertEqual(
            said[3],
            "Board 1 claims the block 0000000040, so that it owns it alone; "
            "at board 0 OwnedNonExclusive became Invalid, at board 1 UnOwned became OwnedExclusive.",
        )
        self.assertEqual(said[4], "Board 1 writes the block 0000000040 back to memory; at board 1 OwnedExclusive became UnOwned.")
        self.assertEqual(
            said[5], "Board 0 flushes the block 0000000040 out of the cache of board 1, since its page is leaving; at board 1 UnOwned became Invalid."
        )


if __name__ == "__main__":
    unittest.main()
