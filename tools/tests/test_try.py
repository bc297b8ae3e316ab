"""tools/try, over a program that prints what it is given, and more by a seed above 4."""
import os
import shutil
import tempfile
import unittest

from helper import ROOT, put, ran_command

PROGRAM = """#!/bin/sh
cat
if [ "$1" = step ] && [ "$2" = --seed ] && [ "$3" -gt 4 ]; then echo 2 query 1 5 5 5; echo 3 tree more; fi
if [ "$1" = run ]; then echo 2 query 0 0 - -; fi
if [ "$1" = step ] && [ "$2" = --seed ] && [ "$3" -gt 8 ]; then echo volap: BadScript >&2; exit 3; fi
"""


class Try(unittest.TestCase):
    def tried(self, *words):
        with tempfile.TemporaryDirectory() as folder:
            put(folder, {
                "volap": "#!/bin/sh\n[ -n \"$VOLAP_PATH\" ] && echo %s/program\n" % folder, "program": PROGRAM,
                "tools/try": "", "a.csv": "1 insert ok\n", "b.csv": "1 insert ok\n2 query 0 0 - -\n"})
            shutil.copy(os.path.join(ROOT, "tools", "try"), os.path.join(folder, "tools", "try"))
            for path in ("volap", "program", "tools/try"):
                os.chmod(os.path.join(folder, path), 0o755)
            return ran_command(["tools/try", *words], folder)

    def test_seeds_side_by_side(self):
        told = self.tried("a.csv", "--seeds", "3-6,8")
        self.assertEqual((told.status, told.err), (0, ""))
        self.assertEqual(told.out, """\
a.csv: 6 runs, 2 different texts
          | in order, 3-4 | 5-6, 8
  2 query | -             | 1 5 5 5
  3 tree  | -             | more

""")

    def test_runs_with_threads(self):
        told = self.tried("a.csv", "--seeds", "4-6", "--runs", "3")
        self.assertEqual((told.status, told.err), (0, ""))
        self.assertEqual(told.out, """\
a.csv: 7 runs, 3 different texts
          | in order, 4 | 5-6     | run 1-3
  2 query | -           | 1 5 5 5 | 0 0 - -
  3 tree  | -           | more    | =

""")
        self.assertIn("x is no number of runs", self.tried("a.csv", "--runs", "x").err)

    def test_runs_that_are_all_the_same(self):
        told = self.tried("a.csv", "--seeds=0-2")
        self.assertEqual(told.out, "a.csv: 4 runs, all the same\n  1 insert ok\n\n")

    def test_scripts_side_by_side(self):
        told = self.tried("a.csv", "b.csv")
        self.assertEqual(told.out, """\
in order: 2 runs, 2 different texts
          | a.csv | b.csv
  2 query | -     | 0 0 - -

""")

    def test_a_run_that_fails(self):
        told = self.tried("a.csv", "--seeds", "9")
        self.assertEqual(told.status, 3)
        self.assertIn("status 3: volap: BadScript; tools/why a.csv tells more", told.out)

    def test_words(self):
        self.assertIn("there is no script c.csv", self.tried("c.csv").err)
        self.assertIn("0-x is no list of seeds", self.tried("a.csv", "--seeds", "0-x").err)
        self.assertIn("Usage: tools/try", self.tried().err)
        self.assertEqual(self.tried("c.csv").status, 1)
