"""Cases of tools/report, over scripts and answers of examples/ and small ones."""
import json
import os
import subprocess
import sys
import tempfile
import unittest

from helper import EXAMPLES, ROOT, ran

sys.path.append(os.path.join(ROOT, "tools"))
import volap_script

NAMES = 'volap,1\nuse,1,1,1,64\ndim,"a, b",1\nconcept,"a, b","x ""y""",*\nconcept,"a, b",Zürich,*\n'


def example(name):
    with open(os.path.join(EXAMPLES, name), encoding="utf-8") as it:
        return it.read()


def reported(name, *words, seed=""):
    """What is told of an example and its answer."""
    return ran("report", "s.csv", *words, given=example(name + seed + ".txt"), files={"s.csv": example(name + ".csv")})


class Report(unittest.TestCase):
    def test_questions_beside_their_answers(self):
        said = reported("load")
        self.assertEqual(said.out, (
            "command  server  question    rows  sum    mean  least  greatest\n"
            "      7       2  everything     5  500  100.00     40       200\n"
            "      8       2  geo de         3  260   86.67     60       120\n"
            "      9       1  geo fr         2  240  120.00     40       200\n"
            "     11       0  everything     5  500  100.00     40       200\n"
            "     12       1  everything     5  500  100.00     40       200\n"
            "     13       2  everything     5  500  100.00     40       200\n"
            "     14       2  geo de         3  260   86.67     60       120\n"
            "     15       0  day mon        3  400  133.33     80       200\n\n"
            "5 of 5 rows came in\n"))
        self.assertEqual((said.err, said.status), ("", 0))

    def test_measures_are_divided_again(self):
        said = reported("load", "--measure", "amount*100")
        self.assertIn("sum amount  mean amount  least amount  greatest amount\n", said.out)
        self.assertIn("  8       2  geo de         3        2.60       0.8667          0.60             1.20\n", said.out)

    def test_as_csv(self):
        said = reported("load", "--measure", "amount*1000", "--csv")
        self.assertTrue(said.out.startswith(
            "command,server,question,rows,sum,mean,least,greatest\n7,2,everything,5,0.500,0.10000,0.040,0.200\n"), said.out)
        self.assertEqual((said.err, said.status), ("5 of 5 rows came in\n", 0))

    def test_as_json(self):
        told = json.loads(reported("query", "--json", "--measure", "n*10").out)
        self.assertEqual(told["questions"][3], {
            "command": 8, "server": 0, "question": "geo berlin or paris", "rows": 3, "sum": 38.0, "mean": 12.667,
            "least": 6.0, "greatest": 20.0, "filters": {"geo": ["berlin", "paris"]}})
        self.assertEqual(told["questions"][0]["least"], None)
        self.assertEqual(told["rows"], {"came_in": 4, "of": 4})
        self.assertEqual(told["lost"][1], {
            "command": 13, "record": 24, "line": 24, "kind": "query", "why": "a name is not known",
            "names": [{"field": 4, "dimension": "day", "name": "sun", "why": "is not known in `day`"}]})

    def test_numbers_of_any_size_stay_exact(self):
        said = reported("measures", "--json")
        self.assertIn('"least": -9223372036854775808, "greatest": 9223372036854775807', said.out)

    def test_rows_that_did_not_come_in(self):
        said = reported("insert")
        self.assertTrue(said.out.endswith(
            "3 of 7 rows came in\n"
            "record 11, line 11, insert 4, field 4 (geo): `rome` is not known in `geo`\n"
            "record 12, line 12, insert 5, field 4 (geo): `de` is a concept of level 1 of `geo`, and a row has one of level 2; "
            "under it stands `berlin`\n"
            "record 13, line 13, insert 6, field 5 (day): `tue` is not known in `day`\n"
            "record 14, line 14, insert 7, field 4 (geo): `rome` is not known in `geo`, and field 5 (day): `tue` is not known in `day`\n"),
            said.out)
        self.assertEqual(said.status, 1)

    def test_the_nearest_known_name(self):
        script = NAMES + 'insert,0,1,zurich\ninsert,0,1,"x ""y"\nquery,0,"Zürich|x ""z"""\n'
        said = ran("report", "s", given="1 insert unknown 0\n2 insert unknown 0\n3 query unknown 0\n", files={"s": script})
        self.assertEqual(said.out, (
            "0 of 2 rows came in\n"
            "record 6, line 6, insert 1, field 4 (a, b): `zurich` is not known in `a, b`; the nearest known name is `Zürich`\n"
            'record 7, line 7, insert 2, field 4 (a, b): `x "y` is not known in `a, b`; the nearest known name is `x "y"`\n'
            'record 8, line 8, query 3, field 3 (a, b): `x "z"` is not known in `a, b`; the nearest known name is `x "y"`\n'))
        self.assertEqual(said.status, 1)

    def test_all_wrong_names_of_a_record(self):
        script = "volap,1\ndim,geo,1\ndim,day,1\nconcept,geo,berlin,*\nconcept,day,monday,*\ninsert,0,1,berln,mondy\nquery,0,a|berlin|b,*\n"
        said = ran("report", "s", given="1 insert unknown 0\n2 query unknown 0\n", files={"s": script})
        self.assertEqual(said.out, (
            "0 of 1 row came in\n"
            "record 6, line 6, insert 1, field 4 (geo): `berln` is not known in `geo`; the nearest known name is `berlin`, and "
            "field 5 (day): `mondy` is not known in `day`; the nearest known name is `monday`\n"
            "record 7, line 7, query 2, field 3 (geo): `a` is not known in `geo`, and field 3 (geo): `b` is not known in `geo`\n"))

    def test_groups_by_names(self):
        said = reported("group", "--measure", "amount*10")
        self.assertIn((
            "8  day by level 1: geo de\n"
            "concept  rows  sum amount  mean amount  least amount  greatest amount\n"
            "mon         2        20.0       10.000           8.0             12.0\n"
            "tue         1         6.0        6.000           6.0              6.0\n"
            "all         3        26.0        8.667           6.0             12.0\n"), said.out)
        self.assertIn("9  geo by level 2: geo munich or fr, day tue\n", said.out)
        self.assertIn("record 21, line 21, group 10, field 4 (geo): `rome` is not known in `geo`", said.out)
        self.assertEqual(said.status, 1)
        told = json.loads(reported("group", "--json").out)
        self.assertEqual(told["groups"][3], {
            "command": 9, "dimension": "geo", "level": 2, "question": "geo munich or fr, day tue",
            "concepts": [{"concept": "paris", "rows": 1, "sum": 40, "mean": 40, "least": 40, "greatest": 40}],
            "all": {"rows": 1, "sum": 40, "mean": 40, "least": 40, "greatest": 40},
            "filters": {"geo": ["munich", "fr"], "day": ["tue"]}})

    def test_groups_of_no_row_cut_or_without_memory(self):
        script = NAMES + 3 * 'group,"a, b",1,*\n'
        said = ran("report", "s", given="1 group all 0 0 - -\n2 group nomem\n3 group 1:1 1 7 7 7\n", files={"s": script})
        self.assertEqual(said.out, (
            "1  a, b by level 1: everything\nconcept  rows  sum  mean  least  greatest\nall         0    0     -      -         -\n\n"
            "0 of 0 rows came in\nrecord 7, line 7, group 2: found no memory\n"
            "1 command has no line of their own in this output, 3 the first: it is cut, or that of another script\n"))

    def test_records_and_lines_differ(self):
        script = '\ufeffvolap,1\r\n\r\ndim,d,1\n\n\nconcept,d,"two\nlines",*\ninsert,0,1,twolines\n'
        said = ran("report", "s", given="1 insert unknown 0\n", files={"s": script})
        self.assertIn("record 4, line 8, insert 1, field 4 (d): `twolines`", said.out)

    def test_want_of_memory(self):
        script = NAMES + 'insert,0,1,Zürich\nquery,0,*\nshards\nbalance,2\nsplit,0\n'
        answers = "1 insert nomem\n2 query nomem\n3 shards nomem\n4 balance nomem\n5 split postponed\n"
        said = ran("report", "s", given=answers, files={"s": script})
        self.assertEqual(said.out, (
            "3  shards: found no memory\n4  balance by at most 2: found no memory\n"
            "5  split of shard 0: found no memory, and is postponed\n\n"
            "0 of 1 row came in\nrecord 6, line 6, insert 1: found no memory\nrecord 7, line 7, query 2: found no memory\n"))
        self.assertEqual(said.status, 1)

    def test_shards_by_names(self):
        said = reported("shards")
        self.assertIn("11  shards\nworker  shard  rows  queued  box\n     0      0     4       0  berlin, paris\n"
                      "     1      1     1       0  munich\n", said.out)
        self.assertIn("12  all rows: 5 rows, sum 15, in 2 shards\n", said.out)
        told = json.loads(reported("shards", "--json").out)
        self.assertEqual(told["shards"][2]["shards"][0], {
            "shard": 0, "worker": 0, "rows": 4, "queued": 0, "box": {"geo": ["berlin", "paris"]}})

    def test_a_box_of_more_dimensions(self):
        script = "volap,1\ndim,geo,2\ndim,day,1\nconcept,geo,de,*\nconcept,geo,berlin,de\nconcept,day,mon,*\nshards\n"
        page = "1 shard 0 worker 0 rows 1 queued 2 box 1:0/1:\n1 shard 1 worker 1 rows 0 queued 0 box 0:0/1:0\n"
        said = ran("report", "s", given=page, files={"s": script})
        self.assertIn("     0      0     1       2  geo: de\n                             day: nothing\n"
                      "     1      1     0       0  geo: all\n                             day: mon\n", said.out)

    def test_work_and_trees(self):
        said = reported("split")
        self.assertIn(
            "5  split of shard 0: it became shards 1 and 2\n"
            "12  split of shard 0: declined, for there is no such shard, or no such worker\n"
            "13  split of shard 1: declined, for nothing tells its rows apart\n"
            "14  split of shard 2: it became shards 3 and 4\n", said.out)
        self.assertIn("10  move of shard 0 to worker 1: done\n", reported("move").out)
        self.assertIn("98  balance by at most 4: 1 of 1 planned are done\n", reported("balance").out)
        self.assertIn(
            "34  tree of shard 0: height 2, 33 rows in the tree, 0 in the queue\n"
            "    directory of 1 block, 33 rows, sum 33, from 1 to 1: berlin, munich\n"
            "      leaf of 1 block, 17 rows, sum 17, from 1 to 1: berlin\n", reported("tree").out)
        script = NAMES + "split,0\nmove,0,1\n"
        said = ran("report", "s", given="1 split declined nocell 70 3\n2 move declined nocell 71 3\n", files={"s": script})
        self.assertIn("split of shard 0: declined, for it needs 70 cells, and 3 are free\n", said.out)

    def test_an_output_that_is_cut(self):
        answers = "".join(example("load.txt").splitlines(True)[:-2])
        said = ran("report", "s", given=answers, files={"s": example("load.csv")})
        self.assertIn("2 commands have no line of their own in this output, 14 the first: it is cut, or that of another script\n", said.out)
        self.assertEqual(said.status, 1)

    def test_an_output_of_another_script(self):
        said = ran("report", "s", given=example("tree.txt"), files={"s": example("load.csv")})
        self.assertIn("no line of their own in this output", said.out)
        self.assertIn("this output has lines of commands that the script doesn't have, 16 the first\n", said.out)
        self.assertEqual(said.status, 1)

    def test_a_script_that_is_none(self):
        said = ran("report", "s.csv", given="bad 5 number\n", files={"s.csv": example("load.csv")})
        self.assertEqual((said.out, said.status), ("", 2))
        self.assertEqual(said.err, "report: s.csv is no script, at record 5, for `number`: `tools/why s.csv` tells more\n")
        said = ran("report", "s.csv", given="1 insert ok\n", files={"s.csv": "volap,2\n"})
        self.assertIn("report: s.csv is no script: record 1, line 1: the first record is not `volap,1`", said.err)
        self.assertEqual(said.status, 2)
        said = ran("report", "s.csv", given="", files={"s.csv": example("load.csv")})
        self.assertIn("report: there is no answer on standard input", said.err)

    def test_all_examples_are_told(self):
        for file in sorted(os.listdir(EXAMPLES)):
            if file.endswith(".txt") and not file.startswith("bad"):
                name = file.split(".")[0]
                said = ran("report", "s", given=example(file), files={"s": example(name + ".csv")})
                self.assertIn(" came in\n", said.out, file)
                self.assertEqual(said.status, 1 if " unknown " in example(file).replace("declined unknown", "") else 0, file)


def plain_answers(data):
    """What a script that settles before it asks prints, by a plain look at all rows; no page has a shard."""
    script, rows, lines = volap_script.read_script(data), [], []
    for command in script.commands:
        if command.word == "insert":
            rows.append(command)
            lines.append("insert ok")
        elif command.word in ("query", "audit"):
            wanted = command.names() if command.word == "query" else ["*"] * len(script.dims)
            found = [int(row.fields[2]) for row in rows if all(
                it == "*" or any(dim.is_under(name, one) for one in it.split("|"))
                for dim, name, it in zip(script.dims, row.names(), wanted))]
            bounds = (min(found), max(found)) if found else ("-", "-")
            end = " shards 1" if command.word == "audit" else ""
            lines.append("%s %d %d %s %s%s" % (command.word, len(found), sum(found), *bounds, end))
        else:
            lines.append({"shards": "shards nomem", "balance": "balance 0 0"}.get(command.word, command.word + " ok"))
    return "".join("%d %s\n" % it for it in enumerate(lines, 1))


class Shop(unittest.TestCase):
    """examples/shop/ with few rows: the export, its script, a plain run of that, the report, and SQLite."""

    def test_ten_answers_are_those_of_sqlite(self):
        shop = os.path.join(EXAMPLES, "shop")
        export = subprocess.run([sys.executable, os.path.join(shop, "make.py"), "20000"], stdout=subprocess.PIPE, check=True).stdout
        with open(os.path.join(shop, "questions.txt"), "rb") as it:
            files = {"sales.csv": export, "questions.txt": it.read()}
        made = ran(
            "table", "sales.csv", "--dim", "place=country/town/store", "--dim", "date=date:quarter/month/day", "--dim",
            "product=group/product", "--measure", "amount*100", "--queries", "questions.txt", files=files)
        self.assertEqual(made.status, 0)
        script = made.out.encode()
        told = ran("report", "s", "--measure", "amount*100", "--json", given=plain_answers(script), files={"s": script})
        self.assertEqual([it["rows"] > 0 for it in json.loads(told.out)["questions"]], [True] * 10)
        with tempfile.NamedTemporaryFile() as it:
            it.write(export)
            it.flush()
            ended = subprocess.run(
                [sys.executable, os.path.join(shop, "check.py"), it.name], input=told.out.encode(), stdout=subprocess.PIPE)
        self.assertEqual((ended.stdout.decode(), ended.returncode), ("10 of 10 answers are SQLite's\n", 0))
