"""The emitter in C: the form of its lines, and that what its driver computes is judged good."""

import os
import shutil
import subprocess
import unittest

from common import PROGRAM, TOOLS, history_of, judged
from test_judge import Room

COMPILER = shutil.which("cc")
FLAGS = ["-std=c99", "-Wall", "-Wextra", "-Wpedantic", "-Werror", "-O1"]
EACH = """#include "entries.h"
int main(void) {
    spur_header(stdout, 2, 256, 4096);
    spur_load(stdout, 0, 0x40, 41);
    spur_store(stdout, 1, 0x3fbffffffc, 0xffffffff);
    spur_tas(stdout, 0, 0x40, 0);
    spur_fault(stdout, 0, SPUR_ALIGN, SPUR_LOAD, 0x41);
    spur_fault(stdout, 0, SPUR_UNMAPPED, SPUR_STORE, 0x40);
    spur_fault(stdout, 0, SPUR_MISSING, SPUR_TAS, 0x40);
    spur_fault(stdout, 0, SPUR_LEAVING, SPUR_LOAD, 0x40);
    spur_fault(stdout, 0, SPUR_PROTECTION, SPUR_LOAD, 0x40);
    spur_fault(stdout, 0, SPUR_REFERENCE, SPUR_LOAD, 0x40);
    spur_fault(stdout, 0, SPUR_DIRTY, SPUR_STORE, 0x40);
    spur_fill(stdout, 0, SPUR_READ, spur_block_of(0x5f));
    spur_fill(stdout, 0, SPUR_WRITE, spur_block_of(spur_entry_of(0x40)));
    spur_fill(stdout, 0, SPUR_READ, spur_block_of(spur_entry_of(spur_entry_of(0x40))));
    spur_claim(stdout, 1, 0x40);
    spur_writeback(stdout, 1, 0x40);
    spur_refresh(stdout, 1, 0x40);
    spur_flush(stdout, 1, 0, 0x40);
    spur_leave(stdout, 1, spur_page_of(0x1fff));
    spur_out(stdout, 1, 0x1000);
    spur_in(stdout, 1, 0x1000, 65);
    spur_setref(stdout, 1, 0x1000);
    spur_setdirty(stdout, 1, 0x1000);
    spur_clearref(stdout, 1, 0x1000);
    return 0;
}
"""
LINES = """%trace 1 2 256 4096
load 0 0000000040 00000029
store 1 3fbffffffc ffffffff
tas 0 0000000040 00000000
fault 0 align load 0000000041
fault 0 unmapped store 0000000040
fault 0 missing tas 0000000040
fault 0 leaving load 0000000040
fault 0 protection load 0000000040
fault 0 reference load 0000000040
fault 0 dirty store 0000000040
fill 0 data read 0000000040
fill 0 pte write 3fc0000000
fill 0 root read 3fcff00000
claim 1 0000000040
writeback 1 0000000040
refresh 1 0000000040
flush 1 0 0000000040
leave 1 0000001000
out 1 0000001000
in 1 0000001000 65
setref 1 0000001000
setdirty 1 0000001000
clearref 1 0000001000
"""

# The number, the boards and the pages of the text; the frames and the lines.
RUNS = ("0 1 1 256 4096", "7 3 4 2 16", "7 12 8 3 64", "1 2 5 1 16", "4294967295 12 40 7 4096")


@unittest.skipUnless(COMPILER, "there is no C compiler")
class Emitter(Room):
    def built(self, *sources):
        program = os.path.join(self.room, "program")
        folder = os.path.join(TOOLS, "emitter")
        files = [source if os.path.isabs(source) else os.path.join(folder, source) for source in sources]
        subprocess.run([COMPILER] + FLAGS + ["-I", folder, "-o", program] + files, check=True)
        return program

    def test_each_kind_of_line(self):
        each = self.file("each.c", EACH.encode())
        written = subprocess.run([self.built(each, "entries.c")], stdout=subprocess.PIPE, check=True).stdout
        self.assertEqual(written.decode(), LINES)

    def test_what_the_driver_computes(self):
        driver = self.built("driver.c", "entries.c")
        for words in RUNS:
            trace = subprocess.run([driver] + words.split(), stdout=subprocess.PIPE, check=True).stdout
            history, _ = history_of(trace)
            self.assertEqual((history.misfit, history.fault), (None, None), words)
            if PROGRAM:
                text = subprocess.run([PROGRAM, "gen"] + words.split()[:3], stdout=subprocess.PIPE, check=True).stdout
                self.assertEqual(judged(text, trace), (0, "good %d\n" % history.count), words)

    def test_words_that_are_refused(self):
        driver = self.built("driver.c", "entries.c")
        for words in ("", "0 0 1 256 4096", "0 1 1 256 24", "x 1 1 256 4096", "0 1 513 256 4096", "0 1 1 0 4096"):
            self.assertEqual(subprocess.run([driver] + words.split(), stdout=subprocess.PIPE, stderr=subprocess.PIPE).returncode, 2, words)


if __name__ == "__main__":
    unittest.main()
