"""The command `tools/picture`: its four forms, marks and words."""

import json
import re
import unittest
from html.parser import HTMLParser

from common import bytes_of, run
from rows import EXAMPLE

SUM = ("board 0 halted retired 4\n%trace 1 1 256 4096\n" + "\n".join(EXAMPLE) + "\n").encode()
WATCHED = bytes_of("examples", "late", "watch.out")
FORMS = ([], ["--text"], ["--vcd"], ["--perfetto"])


def picture(words, data=SUM):
    """What the command writes; it ends with 0."""
    status, out, said = run("picture", words, data)
    assert status == 0, said
    return out.decode()


class Balance(HTMLParser):
    """Looks whether each element that is opened is closed, and for what is taken from elsewhere."""

    VOID = {"meta", "line", "rect", "path"}

    def __init__(self):
        super().__init__()
        self.open, self.links = [], []

    def handle_starttag(self, tag, attrs):
        self.links += [value for name, value in attrs if name in ("href", "src")]
        if tag not in self.VOID:
            self.open.append(tag)

    def handle_endtag(self, tag):
        if tag not in self.VOID:
            assert self.open and self.open[-1] == tag, (tag, self.open)
            self.open.pop()


class Html(unittest.TestCase):
    def test_it_is_whole_and_stands_by_itself(self):
        for words in ([], ["--verdict", "bad 7 answer 41 42"], ["--block", "40", "--block", "3fc0000000"]):
            parser = Balance()
            parser.feed(picture(words, WATCHED))
            parser.close()
            self.assertEqual((parser.open, parser.links), ([], []))

    def test_what_stands_before_is_shown(self):
        self.assertIn("<pre>board 0 halted retired 4\n</pre>", picture([]))
        self.assertIn("&lt;b&gt;", picture([], b"<b>\n" + SUM))

    def test_each_entry_has_its_line(self):
        drawn = picture([])
        for number, line in enumerate(EXAMPLE, 1):
            self.assertIn("<title>entry %d: %s\n" % (number, line), drawn)

    def test_the_busiest_block(self):
        self.assertIn(">3fc0000000</text>", picture([], WATCHED))
        self.assertNotIn(">0000000040</text>", picture([], WATCHED))
        self.assertIn(">0000000040</text>", picture(["--block", "47"], WATCHED))
        # two blocks have as many: the lower one is shown
        self.assertIn(">0000000040</text>", picture([]))

    def test_the_refused_entry_is_marked(self):
        drawn = picture(["--verdict", "bad 7 answer 41 42"])
        row = next(line for line in re.findall(r'<g class="e">.*?</g>', drawn, re.S) if "entry 7:" in line)
        self.assertIn('class="bad"', row)
        self.assertEqual(drawn.count('<rect class="bad"'), 1)
        self.assertIn("Entry 7 is refused: <code>load 0 0000000040 00000029</code>. Rule answer:", drawn)
        self.assertIn("The word is 41 (00000029), but the entry read 42 (0000002a).", drawn)

    def test_a_verdict_of_an_entry_that_is_not_there(self):
        self.assertIn("The verdict is of entry 99, which this trace does not have.", picture(["--verdict", "bad 99 answer 41 42"]))

    def test_the_first_entry_that_does_not_fit_is_marked(self):
        drawn = picture([], bytes_of("examples", "judged", "unclaimed.check"))
        self.assertEqual(drawn.count('<rect class="odd"'), 1)
        self.assertIn("Entry 11 does not fit the states before it:", drawn)
        self.assertIn("Drawn are the entries 1 to 11.", drawn)

    def test_a_part(self):
        drawn = picture(["--from", "4", "--count", "2", "--block", "3fc0000000"])
        self.assertIn("Drawn are the entries 4 to 5.", drawn)
        self.assertEqual(drawn.count('<g class="e">'), 2)
        self.assertIn('class="edge w"', drawn)

    def test_states_are_carried_from_the_first_entry(self):
        drawn = picture(["--from", "12", "--block", "3fc0000000"])
        self.assertIn('class="edge w"', drawn)
        self.assertIn('class="edge d"', drawn)

    def test_at_most_5000_are_drawn(self):
        loads = b"load 0 0000000040 0000002a\n" * 6000
        drawn = picture([], SUM + loads)
        self.assertEqual(drawn.count('<g class="e">'), 5000)
        self.assertIn("Drawn are the entries 1 to 5000.", drawn)
        late = picture(["--verdict", "bad 6000 answer 41 42"], SUM + loads)
        self.assertIn('<rect class="bad"', late)

    def test_an_arrow_comes_from_the_board_that_supplied(self):
        self.assertEqual(picture([]).count('class="a"'), 0)
        self.assertEqual(picture([], WATCHED).count('class="a"'), 1)


class Forms(unittest.TestCase):
    def test_the_same_bytes_twice(self):
        for form in FORMS:
            for data in (SUM, WATCHED, bytes_of("examples", "judged", "line.check"), b"%trace 1 12 1 16\n"):
                self.assertEqual(picture(form, data), picture(form, data))

    def test_text(self):
        said = picture(["--text"], WATCHED).split("\n")
        start = said.index("Trace of 2 boards, 256 data frames and 4096 lines in each cache.")
        self.assertEqual(len(said) - start - 2, 18)
        supplied = "9: Board 1 fills a block of page-table entries, 3fc0000000, for reading, and board 0, its owner, supplies it; "
        self.assertTrue(said[start + 9].startswith(supplied + "at board 0 OwnedExclusive became OwnedNonExclusive"))

    def test_text_tells_what_is_wrong(self):
        said = picture(["--text", "--verdict", "bad 11 tags 2 1"], bytes_of("examples", "judged", "unclaimed.check"))
        self.assertIn("  ! Entry 11 is refused. Rule tags, condition 2:", said)
        self.assertNotIn("does not fit", said)
        other = picture(["--text", "--verdict", "bad 7 answer 41 42"], bytes_of("examples", "judged", "unclaimed.check"))
        self.assertIn("  ! Entry 7 is refused. Rule answer:", other)
        self.assertIn("  ! Entry 11 does not fit the states before it. Rule tags, condition 2:", other)
        self.assertIn("its line 4 is that of no entry", picture(["--text"], bytes_of("examples", "judged", "line.check")))

    def test_text_takes_more_than_is_drawn(self):
        said = picture(["--text"], SUM + b"load 0 0000000040 0000002a\n" * 6000)
        self.assertIn("\n6012: Board 0 loads", said)

    def test_vcd(self):
        dump = picture(["--vcd", "--block", "3fc0000000"], WATCHED)
        self.assertIn("is no time", dump)
        self.assertEqual(dump.split("$enddefinitions $end\n")[1], "#0\n$dumpvars\nb00 !\nb00 \"\n$end\n#2\nb01 !\n#4\nb11 !\n#9\nb10 !\nb01 \"\n#14\nb00 !\nb11 \"\n#19\n")
        part = picture(["--vcd", "--block", "3fc0000000", "--from", "10", "--count", "2"], WATCHED)
        self.assertEqual(part.split("$enddefinitions $end\n")[1], "#9\n$dumpvars\nb10 !\nb01 \"\n$end\n#12\n")

    def test_perfetto(self):
        events = json.loads(picture(["--perfetto"], WATCHED))
        self.assertIn("is no time", events["otherData"]["time"])
        entries = [event for event in events["traceEvents"] if event.get("cat") == "entry"]
        self.assertEqual([event["ts"] for event in entries], list(range(1, 19)))
        tracks = [event["args"]["name"] for event in events["traceEvents"] if event["name"] == "thread_name"]
        self.assertEqual(tracks, ["board 0", "board 1"])
        self.assertEqual([event["ts"] for event in events["traceEvents"] if event["ph"] in "sf"], [9, 9])


class Words(unittest.TestCase):
    def test_words_that_are_refused(self):
        for words in (["--from"], ["--from", "0"], ["--block", "x"], ["--block", "4000000000"], ["--verdict", "bad"], ["--text", "--vcd"], ["more"]):
            status, out, said = run("picture", words, SUM)
            self.assertEqual((status, out), (2, b""), words)
            self.assertTrue(said.startswith(b"picture: "), words)

    def test_help(self):
        for tool in ("picture", "accesses", "judge"):
            status, out, _ = run(tool, ["--help"], b"")
            self.assertEqual(status, 0)
            self.assertTrue(out.startswith(b"usage: tools/" + tool.encode()))
            self.assertIn(b"Example:", out)


if __name__ == "__main__":
    unittest.main()
