"""Cases of tools/lanes, over runs that `tools/lanes SCRIPT --seed N --keep FILE` kept: beside this file
split.seed3.told and load.seed11.told are those of examples/split.csv and examples/load.csv."""
import os
import re
import unittest
import xml.dom.minidom

from helper import EXAMPLES, ROOT, ran

HERE = os.path.dirname(os.path.abspath(__file__))
SPLIT = """\
split.csv, seed 3

       server 0                            server 1                             administrator
    2  -- 1 insert 5 berlin: ok, shard 0
    4  -- 2 insert 7 munich: ok, shard 0
    6  -- 3 insert 3 paris: ok, shard 0
    8                                                                           .- 4 settle
    9                                                                           |  pulls of servers 0, 1, 0, 1
   13                                                                           '- ok

   14                                      .- 6 query *
   15  .- 8 insert 1 berlin                |
   16  |                                   |                                    .- 5 split 0
   17  |                                   '- 3 rows, sum 15                    |
       |                                      must count 1 to 3                 |
       |                                      may miss 8, and leaves it out     |
   18  |                                   .- 7 query berlin                    |
   19  '- ok, shard 0                      |                                    |
   20  .- 9 query berlin                   |                                    |
   21  |                                   '- 2 rows, sum 6                     |
       |                                      must count 1                      |
       |                                      may miss 8, and counts it         |
   22  |                                                                        |  shard 0: now 1 and 2
   23  |                                                                        '- ok 1 2
   24  '- 2 rows, sum 6
          must count 1, 8
          may miss none
   25                                                                           -- 10 barrier: ok
   27                                                                           -- 11 shards: shown

   30                                                                           -- 12 split 0: declined unknown
   32                                                                           -- 13 split 1: declined oneplace
   34                                                                           .- 14 split 2
   35                                                                           |  shard 2: now 3 and 4
   36                                                                           '- ok 3 4
   37                                                                           -- 15 barrier: ok
   39                                                                           -- 16 shards: shown

   42                                                                           .- 17 settle
   43                                                                           |  pulls of servers 0, 1, 0, 1
   47                                                                           '- ok

   48                                      -- 18 insert 4 munich: ok, shard 3
   50                                      -- 19 query de: 4 rows, sum 17
                                              must count 1, 2, 8, 18
                                              may miss none
   52                                                                           -- 20 audit: shown
"""
SCRIPT = "volap,1\nuse,2,1,1,64\ndim,d,1\nconcept,d,a,*\nconcept,d,b,*\n"


def text_of(*path):
    with open(os.path.join(*path), encoding="utf-8") as it:
        return it.read()


def drawn(name, told, *words):
    """The picture of an example by a run that was kept."""
    return ran("lanes", name, "--told", "told", *words, files={name: text_of(EXAMPLES, name), "told": text_of(HERE, told)})


def of_events(commands, printed, told, *words):
    """The picture of a small script, by its output and its history."""
    files = {"s": SCRIPT + commands, "told": printed + "== history\n0 synced 0\n0 shard 0 worker 0 rows 0 queued 0 box 1:\n"
             "1 synced 1\n1 shard 0 worker 0 rows 0 queued 0 box 1:\n" + told}
    return ran("lanes", "s", "--told", "told", *words, files=files)


class Lanes(unittest.TestCase):
    def test_a_split_among_queries(self):
        said = drawn("split.csv", "split.seed3.told")
        self.assertEqual((said.out, said.err, said.status), (SPLIT, "", 0))

    def test_the_kept_runs_have_the_answers_of_the_examples(self):
        for name in ("split.seed3", "load.seed11", "tour.seed1"):
            answers = text_of(HERE, name + ".told").partition("== history\n")[0].partition("\n")[2]
            self.assertEqual(answers, text_of(EXAMPLES, name + ".txt"))

    def test_the_tour_shows_this_picture(self):
        tour = text_of(ROOT, "docs", "tour.md")
        if "tools/lanes examples/tour.csv --seed 1" not in tour:
            self.skipTest("docs/tour.md shows no lanes")
        for line in drawn("tour.csv", "tour.seed1.told").out.split("\n")[1:]:
            self.assertIn(line, tour)

    def test_three_servers_at_once(self):
        said = drawn("load.csv", "load.seed11.told")
        self.assertIn("load.csv, seed 11\n", said.out)
        self.assertIn(
            "   18  |                            |                            '- 2 rows, sum 320\n"
            "       |                            |                               must count 1, 2\n"
            "       |                            |                               may miss 4, 6, and leaves them out\n", said.out)
        self.assertEqual(said.out.count("must count"), 8)
        self.assertNotIn("not right", said.out)

    def test_what_a_box_lists_must_be_counted(self):
        commands = "insert,0,1,a\nsettle\ninsert,0,2,a\ninsert,0,4,b\nquery,1,*\n"
        said = of_events(commands, "1 insert ok\n2 settle ok\n3 insert ok\n4 insert ok\n5 query 2 3 1 2\n", (
            "2 begun 0\n3 acked 2 0\n4 called 3\n5 synced 0\n5 shard 0 worker 0 rows 0 queued 0 box 1:\n"
            "6 synced 1\n6 shard 0 worker 0 rows 0 queued 0 box 1:0\n7 ended 4\n8 begun 0\n9 acked 8 0\n10 begun 0\n11 acked 10 0\n"
            "12 asked 1\n13 answered 12\n"))
        self.assertIn("5 query *: 2 rows, sum 3\n", said.out)
        self.assertIn("must count 1, 3\n", said.out)
        self.assertIn("may miss 4, and leaves it out\n", said.out)

    def test_what_another_server_published_must_be_counted(self):
        commands = "sync,0\nsync,1\ninsert,0,1,a\nquery,1,a\nquery,1,b\n"
        printed = "1 sync ok\n2 sync ok\n3 insert ok\n4 query 1 1 1 1\n5 query 0 0 - -\n"
        box = "shard 0 worker 0 rows 0 queued 0 box 1:\n"
        first = "2 begun 0\n3 acked 2 0\n"
        both = "4 called 2\n5 synced 0\n5 %s6 ended 4\n7 called 2\n8 synced 1\n8 %s9 ended 7\n" % (box, box)
        last = "10 asked 1\n11 answered 10\n12 asked 1\n13 answered 12\n"
        said = of_events(commands, printed, first + both + last)
        self.assertIn("pulls", said.out.split("\n")[2])
        self.assertIn("must count 3\n", said.out)
        # Where the other server pulled before, it needn't know the row.
        other = "2 called 2\n3 synced 0\n3 %s4 ended 2\n5 begun 0\n6 acked 5 0\n7 called 2\n8 synced 1\n8 %s9 ended 7\n" % (box, box)
        said = of_events(commands, printed, other + last)
        self.assertIn("may miss 3, and counts it\n", said.out)

    def test_where_more_sets_of_rows_would_do_none_is_told(self):
        commands = "insert,0,1,a\ninsert,0,1,a\nquery,1,*\n"
        told = "2 begun 0\n3 acked 2 0\n4 begun 0\n5 acked 4 0\n6 asked 1\n7 answered 6\n"
        said = of_events(commands, "1 insert ok\n2 insert ok\n3 query 1 1 1 1\n", told)
        self.assertIn("must count none\n", said.out)
        self.assertIn("may miss 1, 2\n", said.out)

    def test_an_answer_that_is_not_right(self):
        commands = "insert,0,1,a\nquery,0,*\n"
        told = "2 begun 0\n3 acked 2 0\n4 asked 0\n5 answered 4\n"
        said = of_events(commands, "1 insert ok\n2 query 0 0 - -\n", told)
        self.assertIn("must count 1\n", said.out)
        self.assertIn("and is not right\n", said.out)

    def test_ends_without_a_beginning_and_failures(self):
        commands = "insert,0,1,c\nquery,0,c\ninsert,0,1,a\nquery,0,a\nsplit,9\n"
        printed = "1 insert unknown 0\n2 query unknown 0\n3 insert nomem\n4 query nomem\n5 split postponed\n"
        said = of_events(commands, printed, "2 unknown 0\n3 unknown 0\n4 begun 0\n5 failed 4\n6 asked 0\n7 failed 6\n8 refused 3\n")
        self.assertEqual([line.split("-- ")[1] for line in said.out.split("\n") if "-- " in line], [
            "1 insert 1 c: unknown 0", "2 query c: unknown 0", "3 insert 1 a: nomem", "4 query a: nomem", "5 split 9: postponed"])

    def test_a_group_ends_a_phase(self):
        printed = "1 insert ok\n2 group 1:0 1 1 1 1\n2 group all 1 1 1 1\n3 group unknown 0\n4 insert ok\n"
        said = of_events("insert,0,1,a\ngroup,d,1,*\ngroup,d,1,c\ninsert,0,1,a\n", printed, (
            "2 begun 0\n3 acked 2 0\n4 called 3\n5 shown 4\n6 ended 4\n7 unknown 3\n8 begun 0\n9 acked 8 0\n"))
        self.assertEqual([line.split("-- ")[1] for line in said.out.split("\n") if "-- " in line], [
            "1 insert 1 a: ok, shard 0", "2 group d 1 *: shown", "3 group d 1 c: unknown 0", "4 insert 1 a: ok, shard 0"])

    def test_many_inserts_are_two(self):
        commands, printed = 9 * "insert,0,1,a\n", "".join("%d insert ok\n" % it for it in range(1, 10))
        told = "".join("%d begun 0\n%d acked %d 0\n" % (it, it + 1, it) for it in range(2, 20, 2))
        said = of_events(commands, printed, told)
        self.assertIn("\n    2  -- 1 insert 1 a: ok, shard 0\n   ..  7 inserts more\n   18  -- 9 insert 1 a: ok, shard 0\n", said.out)

    def test_as_svg(self):
        for name, told in (("split.csv", "split.seed3.told"), ("load.csv", "load.seed11.told")):
            said = drawn(name, told, "--svg")
            picture = xml.dom.minidom.parseString(said.out.encode())
            texts = [it.firstChild.data for it in picture.getElementsByTagName("text")]
            self.assertIn("administrator", texts)
            words = [line for line in drawn(name, told).out.split("\n")[3:] if line]
            self.assertEqual(len([it for it in texts if re.fullmatch(r"\d+", it)]), len([it for it in words if it[:5].strip()]))
        links = [it for it in xml.dom.minidom.parseString(drawn("split.csv", "split.seed3.told", "--svg").out.encode())
                 .getElementsByTagName("line") if it.hasAttribute("stroke-width")]
        self.assertEqual([it.hasAttribute("stroke-dasharray") for it in links], [True, False])

    def test_names_with_signs_of_svg(self):
        said = ran("lanes", "s", "--told", "t", "--svg", files={
            "s": 'volap,1\nuse,1,1,1,64\ndim,d,1\nconcept,d,"<&"">",*\ninsert,0,1,"<&"">"\n',
            "t": "1 insert ok\n== history\n0 synced 0\n0 shard 0 worker 0 rows 0 queued 0 box 1:\n1 begun 0\n2 acked 1 0\n"})
        xml.dom.minidom.parseString(said.out.encode())
        self.assertIn("1 insert 1 &lt;&amp;&quot;&gt;: ok", said.out)

    def test_what_is_refused(self):
        said = drawn("load.csv", "split.seed3.told")
        self.assertEqual((said.out, said.err, said.status), ("", "lanes: this is not what a run of load.csv told\n", 1))
        said = of_events("", "", "")
        self.assertEqual((said.err, said.status), ("lanes: nothing happened in this run\n", 1))
        self.assertEqual(ran("lanes", "none.csv", "--told", "x").status, 2)
        self.assertEqual(drawn("split.csv", "split.seed3.told", "--seed", "3").status, 2)
        self.assertEqual(ran("lanes", "s", "--seed", "x", files={"s": SCRIPT}).status, 2)
