"""tools/refused, over a program that prints what it is told by the number of the refused request."""
import os
import tempfile
import unittest

from helper import ROOT, put, ran_command

# The lines of the short script.
WHOLE = """\
1 insert ok
2 insert ok
3 barrier ok
4 split ok 1 2
5 move ok
6 tree 1 height 1 rows 1 queued 0
6 node 0 leaf 1 1 1 5 5 5 2:0
7 shard 1 worker 0 rows 1 queued 0 box 2:0
7 shard 2 worker 0 rows 1 queued 0 box 2:1
8 audit 2 12 5 7 shards 2
9 group 2:0 1 5 5 5
9 group 2:1 1 7 7 7
9 group all 2 12 5 7
"""
# The same where no memory was found for the first insert.
WITHOUT_ROW = WHOLE.replace("1 insert ok", "1 insert nomem").replace("8 audit 2 12 5", "8 audit 1 7 7")
WITHOUT_ROW = WITHOUT_ROW.replace("9 group 2:0 1 5 5 5\n", "").replace("group all 2 12 5", "group all 1 7 7")
# It prints the file of the refused request, if there is one, and else the whole.
PROGRAM = """#!/bin/sh
cd "$(dirname "$0")"
if [ -f "$REFUSED_FIRST.txt" ]; then echo "-- refused" >&2; cat "$REFUSED_FIRST.txt"; exit $(cat "$REFUSED_FIRST.status"); fi
cat whole.txt
"""
# The kit's compiler and linker, which write nothing that is used here.
WRITES = """#!/bin/sh
while [ $# -gt 1 ]; do [ "$1" = -o ] && : > "$2"; shift; done
"""


class Refused(unittest.TestCase):
    def swept(self, *runs):
        """How the tool ends where the program ends so, for each request the status and the text."""
        files = {"whole.txt": WHOLE, "program": PROGRAM, "kit/bin/rt": "", "kit/toolchain/bin/clang": WRITES,
                 "kit/toolchain/bin/ld.lld": WRITES}
        for at, (status, text) in enumerate(runs, 1):
            files.update({"%d.txt" % at: text, "%d.status" % at: "%d" % status})
        with tempfile.TemporaryDirectory() as folder:
            put(folder, files)
            for path in ("program", "kit/bin/rt", "kit/toolchain/bin/clang", "kit/toolchain/bin/ld.lld"):
                os.chmod(os.path.join(folder, path), 0o755)
            words = [os.path.join(ROOT, "tools", "refused"), "--program", "program", "--script", "short", "--words", "step"]
            return ran_command(words, folder, env={"PATH": os.path.join(folder, "kit", "bin") + ":" + os.environ["PATH"]})

    def test_ways_that_are_right(self):
        told = self.swept((5, ""), (5, WHOLE[:WHOLE.index("4 ")]), (0, WHOLE), (0, WITHOUT_ROW))
        self.assertEqual((told.status, told.out), (0, """\
short, step: 4 runs met a refusal, 0 wrong
     1  Done, insert nomem
     1  Done, the same lines
     1  NoMemory, behind 0 of 5 phases
     1  NoMemory, behind 1 of 5 phases
"""))

    def test_ways_that_are_wrong(self):
        for status, text, why in (
                (0, WHOLE[:-5], "these are not the lines of whole phases"),
                (5, WHOLE[:WHOLE.index("3 ")], "these are not the lines of whole phases"),
                (0, WHOLE[:WHOLE.index("4 ")], "it is done, and these are not all lines"),
                (5, WITHOUT_ROW[:WITHOUT_ROW.index("4 ")], "memory was wanting too often"),
                (0, WITHOUT_ROW.replace("2 insert ok", "2 insert nomem"), "memory was wanting too often"),
                (0, WITHOUT_ROW.replace("8 audit 1 7 7", "8 audit 2 12 5"), "acknowledged were 1 rows"),
                (0, WITHOUT_ROW.replace("9 group 2:1", "9 group 2:0"), "acknowledged were 1 rows"),
                (0, WITHOUT_ROW.replace("9 group all 1 7 7 7\n", ""), "acknowledged were 1 rows"),
                (0, WHOLE.replace("4 split ok 1 2", "4 split declined oneplace"), "what stands before all want of memory"),
                (4, WHOLE, "it ends with the status 4"), (132, "", "it ends with the status 132")):
            with self.subTest(why):
                told = self.swept((status, text))
                self.assertEqual(told.status, 1)
                self.assertIn("1 wrong\n  WRONG at request 1: ", told.out)
                self.assertIn(why, told.out)
