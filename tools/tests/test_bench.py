"""The scripts of bench/, and its programs in plain Rust where there is a rustc."""
import ctypes
import os
import shutil
import subprocess
import sys
import tempfile
import unittest

from helper import PATIENCE, ROOT, put, ran_command

BENCH = os.path.join(ROOT, "bench")
# A package duckdb that has what sql.py needs of one.
DUCKDB = "import sqlite3\n\n\ndef connect(name):\n    return sqlite3.connect(name)\n"

# A program that answers inserts, queries of one name, barriers and groups, by a look at all rows for each.
PLAIN = """#!%s
import sys
rows, above, number = [], {}, 0
for record in sys.stdin.read().split():
    word, *fields = record.split(",")
    if word == "dim":
        above[fields[0]] = {}
    if word == "concept":
        dim, name, parent = fields
        level, _, up = above[dim].get(parent, (0, 0, {}))
        place = sum(it[0] == level + 1 for it in above[dim].values())
        above[dim][name] = level + 1, place, {**up, level + 1: name}
    if word in ("volap", "use", "dim", "concept"):
        continue
    number += 1

    def told(what, found):
        ends = (min(found), max(found)) if found else ("-", "-")
        print(number, what, len(found), sum(found), *ends)

    def measures(filters):
        return [it[0] for it in rows if all(
            pick == "*" or pick in of[pick_in][2].values() for pick, pick_in, of in zip(filters, above, it[1]))]

    if word == "insert":
        rows.append((int(fields[1]), [{dim: above[dim][name]} for dim, name in zip(above, fields[2:])]))
        print(number, "insert ok")
    elif word == "barrier":
        print(number, "barrier ok")
    elif word == "query":
        told("query", measures(fields[1:]))
    else:
        dim, level = fields[0], int(fields[1])
        for name, it in sorted(above[dim].items(), key=lambda it: it[1][1]):
            found = measures([name if other == dim else "*" for other in above]) if it[0] == level else []
            if found:
                told("group %%d:%%d" %% it[:2], found)
        told("group all", measures(["*"] * len(above)))
"""


def script(*words):
    return ran_command([sys.executable, os.path.join(BENCH, "script.py"), *words], BENCH).out


def answers(*command, given, env=None):
    told = ran_command(command, BENCH, given, env)
    return told.out if told.status == 0 else "status %d: %s" % (told.status, told.err)


class Bench(unittest.TestCase):
    def setUp(self):
        self.folder = tempfile.mkdtemp()
        self.addCleanup(shutil.rmtree, self.folder)

    def test_a_script_ends_quietly_where_its_reader_goes_away(self):
        line = '"%s" script.py 60000 4 1 | head -n 1' % sys.executable
        told = subprocess.run(
            ["sh", "-c", line], cwd=BENCH, stdout=subprocess.PIPE, stderr=subprocess.PIPE, timeout=PATIENCE)
        self.assertEqual((told.stdout, told.stderr), (b"volap,1\n", b""))

    def test_databases_answer_alike(self):
        text, sql = script("300", "40", "3"), os.path.join(BENCH, "sql.py")
        first = answers(sys.executable, sql, "sqlite", given=text)
        self.assertEqual(len(first.split("\n")), 341)
        self.assertIn(" query ", first)
        self.assertEqual(answers(sys.executable, sql, "indexed", given=text), first)
        put(self.folder, {"duckdb.py": DUCKDB})
        self.assertEqual(answers(sys.executable, sql, "duckdb", given=text, env={"PYTHONPATH": self.folder}), first)

    @unittest.skipUnless(shutil.which("rustc"), "there is no rustc")
    def test_flat_list_and_twin_answer_as_a_database_does(self):
        paths = [os.path.join(self.folder, name) for name in ("flat", "twin")]
        for path in paths:
            name = os.path.join(BENCH, os.path.basename(path) + ".rs")
            subprocess.run(["rustc", "-O", "-D", "warnings", "-o", path, name], timeout=PATIENCE, check=True)
        for words in ("3000", "400", "3"), ("3000", "400", "4", "shuffled"):
            # With few cells the twin has rows in its queue.
            for text in (script(*words), script(*words).replace("65536", "100")):
                wanted = answers(sys.executable, os.path.join(BENCH, "sql.py"), "sqlite", given=text)
                for path in paths:
                    self.assertTrue(answers(path, given=text) == wanted, path)

    def test_a_run_is_measured_and_a_wrong_status_ends_the_whole(self):
        sys.path.insert(0, BENCH)
        self.addCleanup(sys.path.remove, BENCH)
        import compare
        ctypes.CDLL(None).prctl(compare.SUBREAPER, 1)
        self.addCleanup(ctypes.CDLL(None).prctl, compare.SUBREAPER, 0)
        put(self.folder, {"script.csv": "volap,1\n"})
        files = os.path.join(self.folder, "script.csv"), os.path.join(self.folder, "output")
        seconds, kilobytes, output = compare.measured(["cat"], *files)
        self.assertEqual(output, b"volap,1\n")
        self.assertLess(seconds, 1)
        self.assertLess(kilobytes, 8192)
        with self.assertRaisesRegex(SystemExit, "sh -c exit 3 ended with status 3"):
            compare.measured(["sh", "-c", "exit 3"], *files)

    def test_growth_is_told_for_twice_the_work_and_marked_where_it_is_more(self):
        sys.path.insert(0, BENCH)
        self.addCleanup(sys.path.remove, BENCH)
        import compare
        import growth
        ctypes.CDLL(None).prctl(compare.SUBREAPER, 1)
        self.addCleanup(ctypes.CDLL(None).prctl, compare.SUBREAPER, 0)
        # A program that ends at once may be waited for by the shell that started it.
        put(self.folder, {"program": "#!/bin/sh\nsleep 0.2\n", "wrong": "#!/bin/sh\nsleep 0.2\nexit 1\n"})
        for name in ("program", "wrong"):
            os.chmod(os.path.join(self.folder, name), 0o755)
        kind = growth.Kind("rows", [2, 4], [1], growth.rows)
        said = []
        self.assertEqual(growth.table(os.path.join(self.folder, "program"), [kind], False, False, said.append), 0)
        self.assertEqual([it.split()[0] for it in said], ["rows", "2", "4"])
        self.assertRegex(said[2], r"^ +4 +\d+ ms .* MB +\d\.\d\d$")
        said = []
        growth.table(os.path.join(self.folder, "wrong"), [kind], True, False, said.append)
        self.assertEqual(said, ["rows", "        1 did not end well, or took too long"])
        self.assertTrue(growth.line(8, (100, 20), (40, 10), "ms").endswith("2.00 <- more than 2.3 times"))
        self.assertTrue(growth.line(8, (100, 40), (50, 16), "ms").endswith("2.50 <- more than 2.3 times"))
        self.assertFalse(growth.line(8, (10, 5), (1, 1), "ms").endswith("times"))

    def test_inserts_of_sessions_are_timed_where_each_is_acknowledged(self):
        text = '#!/bin/sh\nsleep 0.2\ngrep -c ^insert\n'
        put(self.folder, {"program": text, "step": text, "wrong": "#!/bin/sh\nsleep 0.2\necho 29\n"})
        paths = {name: os.path.join(self.folder, name) for name in ("program", "step", "wrong")}
        for path in paths.values():
            os.chmod(path, 0o755)
        hall = [sys.executable, os.path.join(BENCH, "hall.py")]
        told = ran_command([*hall, paths["program"], "30", "--volap", paths["step"]], BENCH)
        self.assertEqual((told.status, told.err), (0, ""))
        self.assertEqual(
            [line.split(" | ")[0] for line in told.out.split("\n")],
            ["| inserts: 30", "|---|---|---|---|", "| volap step", "| 1 session", "| 2 sessions", "| 4 sessions", ""])
        told = ran_command([*hall, paths["wrong"], "30", "--volap", paths["step"]], BENCH)
        self.assertEqual(told.status, 1)
        self.assertRegex(told.err, "^hall: .* 1 tells of other than 30 inserts\n$")

    def test_runs_with_threads_are_timed_beside_those_in_order(self):
        said = '#!/bin/sh\nif [ "$1" != "$FAST" ]; then sleep 0.3; fi\n%s\n'
        put(self.folder, {
            "program": said % "wc -l", "lines": said % 'if [ "$1" = run ]; then echo; fi; wc -l',
            "other": said % 'if [ "$1" = run ]; then echo 1; else echo 2; fi', "wrong": "#!/bin/sh\nexit 3\n"})

        def told(name, fast=""):
            path = os.path.join(self.folder, name)
            os.chmod(path, 0o755)
            return ran_command([sys.executable, os.path.join(BENCH, "threads.py"), path, "--quick"], BENCH, env={"FAST": fast})

        ran = told("program", "run")
        self.assertEqual((ran.status, ran.err), (0, ""))
        heads = ["inserts by 4 servers", "queries beside inserts", "queries alone", "load --rows 20000 --seed 1"]
        lines = ran.out.split("\n")
        self.assertEqual([line.split(" | ")[0] for line in lines[2:]], ["| " + it for it in heads] + [""])
        # The program of the last is told the same word twice.
        self.assertEqual([line.endswith("<- more than asked") for line in lines[2:6]], [False, False, False, True])
        self.assertIn("inserts by 4 servers: the texts are not alike", told("lines").err)
        self.assertIn("queries alone: the texts are not alike", told("other", "run").err)
        self.assertIn("step ended with status 3", told("wrong").err)

    def test_groups_are_timed_beside_queries_and_a_database(self):
        sys.path.insert(0, BENCH)
        self.addCleanup(sys.path.remove, BENCH)
        import compare
        import groups
        ctypes.CDLL(None).prctl(compare.SUBREAPER, 1)
        self.addCleanup(ctypes.CDLL(None).prctl, compare.SUBREAPER, 0)
        for name, fewer in (("RUNS", 1), ("GROUPS", 2), ("QUERIES", 10)):
            self.addCleanup(setattr, groups, name, getattr(groups, name))
            setattr(groups, name, fewer)
        put(self.folder, {
            "plain": PLAIN % sys.executable, "none": PLAIN.replace("else:\n        dim", "else:\n        sys.exit(3)\n        dim") % sys.executable,
            "wrong": PLAIN.replace("sum(found)", "sum(found) + 1") % sys.executable})
        sales, where = groups.Sales(60), ("place", 2)
        base = groups.table_of(sales)

        def told(name):
            os.chmod(os.path.join(self.folder, name), 0o755)
            timer = groups.Timer(os.path.join(self.folder, name), self.folder)
            return groups.row(timer, sales, base, where, timer.has_groups())

        self.assertRegex(told("plain"), r"^\| place 2, 20 \| \d+\.\d\d \| ")
        self.assertRegex(told("none"), r"^\| place 2, 20 \| - \| \d+\.\d \| - \| \d+\.\d \| - \| \d+\.\d \| - \|$")
        with self.assertRaisesRegex(SystemExit, "groups: .* by place 2: the answers are not SQLite's"):
            told("wrong")
        self.assertEqual(groups.part(2.0, 8.0, 0.1), "0.250 <- more than 0.1")
        for lines in (sales.with_groups(*where), sales.with_queries(*where, 2)):
            said = ran_command([sys.executable, os.path.join(ROOT, "tools", "why"), "-"], BENCH, "".join(it + "\n" for it in lines))
            self.assertEqual((said.status, said.err), (0, ""))

    def test_scripts_with_threads_have_no_bad_record(self):
        sys.path.insert(0, BENCH)
        self.addCleanup(sys.path.remove, BENCH)
        import threads
        for kind in threads.kinds(1000):
            if kind.script:
                told = ran_command(
                    [sys.executable, os.path.join(ROOT, "tools", "why"), "-"], BENCH, "".join(it + "\n" for it in kind.script))
                self.assertEqual((kind.head, told.status, told.err), (kind.head, 0, ""))

    def test_scripts_of_growth_have_no_bad_record(self):
        sys.path.insert(0, BENCH)
        self.addCleanup(sys.path.remove, BENCH)
        import growth
        self.addCleanup(setattr, growth, "FIXED", growth.FIXED)
        growth.FIXED = 100
        why = os.path.join(ROOT, "tools", "why")
        for kind in growth.KINDS:
            for make in filter(None, (kind.script, kind.off)):
                script = "".join(line + "\n" for line in make(8))
                told = ran_command([sys.executable, why, "-"], BENCH, script)
                self.assertEqual((kind.head, told.status, told.err), (kind.head, 0, ""))
