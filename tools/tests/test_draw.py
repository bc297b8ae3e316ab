"""Cases of tools/draw, over answers of examples/ and small ones."""
import os
import shutil
import subprocess
import unittest

from helper import EXAMPLES, ran

SHARDS = "7 shard 0 worker 0 rows 3 queued 0 box 2:0+1/1:0\n7 shard 2 worker 1 rows 0 queued 2 box 2:/1:\n"
SCRIPT = (
    'volap,1\nuse,1,3,1,64\ndim,geo,2\ndim,day,1\nconcept,geo,de,*\nconcept,geo,berlin,de\nconcept,geo,"halle, ""saale""",de\n'
    "concept,day,mon,*\nshards\n")


def example(name):
    with open(os.path.join(EXAMPLES, name), encoding="utf-8") as it:
        return it.read()


def drawn(name, *words):
    return ran("draw", *words, given=example(name + ".txt"), files={"s": example(name + ".csv")})


class Draw(unittest.TestCase):
    def test_a_tree_as_it_always_was(self):
        self.assertEqual(drawn("tree").out, (
            "34 tree of shard 0: height 2, 33 rows in the tree, 0 in the queue\n"
            "+------------------------------+\n"
            "| directory, 2 entries         |\n"
            "| 33 rows, sum 33, from 1 to 1 |\n"
            "| 2:0+1                        |\n"
            "+------------------------------+\n"
            "   |\n"
            "   |  +------------------------------+\n"
            "   |  | leaf                         |\n"
            "   +--| 17 rows, sum 17, from 1 to 1 |\n"
            "   |  | 2:0                          |\n"
            "   |  +------------------------------+\n"
            "   |\n"
            "   |  +------------------------------+\n"
            "   |  | leaf                         |\n"
            "   +--| 16 rows, sum 16, from 1 to 1 |\n"
            "      | 2:1                          |\n"
            "      +------------------------------+\n"))

    def test_names_in_a_tree(self):
        said = drawn("tree", "--script", "s")
        self.assertIn("| berlin, munich               |\n", said.out)
        self.assertNotIn("2:", said.out)

    def test_a_queue_is_a_box(self):
        self.assertEqual(drawn("queue").out, (
            "521 tree of shard 0: height 1, 497 rows in the tree, 23 in the queue\n"
            "+-------------------------------------+   +--------------------+\n"
            "| leaf, 31 blocks linked to the right |   | queue              |\n"
            "| 497 rows, sum 497, from 1 to 1      |   | 23 rows in no tree |\n"
            "| 2:0                                 |   +--------------------+\n"
            "+-------------------------------------+\n"))
        self.assertIn('    q0 [label="queue\\n23 rows in no tree", style=dashed];\n', drawn("queue", "--dot").out)

    def test_shards_by_worker(self):
        said = ran("draw", given=SHARDS)
        self.assertEqual(said.out, (
            "7 shards: 2 shards on 2 workers\n"
            "           +------------------------+\n"
            "worker 0   | shard 0                |\n"
            "           | 3 rows                 |\n"
            "           | 2:0+1/1:0              |\n"
            "           +------------------------+\n"
            "\n"
            "           +------------------------+\n"
            "worker 1   | shard 2                |\n"
            "           | 0 rows, 2 in the queue |\n"
            "           | 2:/1:                  |\n"
            "           +------------------------+\n"))

    def test_names_of_shards_and_a_worker_without_one(self):
        said = ran("draw", "--script", "s", given=SHARDS, files={"s": SCRIPT})
        self.assertEqual(said.out, (
            "7 shards: 2 shards on 2 workers\n"
            "           +-----------------------------+\n"
            "worker 0   | shard 0                     |\n"
            "           | 3 rows                      |\n"
            '           | geo: berlin, halle, "saale" |\n'
            "           | day: mon                    |\n"
            "           +-----------------------------+\n"
            "\n"
            "           +-----------------------------+\n"
            "worker 1   | shard 2                     |\n"
            "           | 0 rows, 2 in the queue      |\n"
            "           | nothing                     |\n"
            "           +-----------------------------+\n"
            "\n"
            "\n"
            "worker 2     no shard\n"))

    def test_before_and_after_a_balance(self):
        said = drawn("balance", "--script", "s", "102")
        self.assertEqual(said.out, (
            "102 balance: 1 done of 1 planned, between the pages 101 and 105\n"
            "           before                       after\n"
            "           +------------------------+   +------------------------+\n"
            "worker 0   | shard 2                |   | shard 2                |\n"
            "           | 50 rows                |   | 50 rows                |\n"
            "           | berlin                 |   | berlin                 |\n"
            "           +------------------------+   +------------------------+\n"
            "           +------------------------+\n"
            "           | shard 3                |\n"
            "           | 45 rows                |\n"
            "           | paris                  |\n"
            "           +------------------------+\n"
            "\n"
            "           +------------------------+   +------------------------+\n"
            "worker 1   | shard 1                |   | shard 1                |\n"
            "           | 1 row                  |   | 1 row                  |\n"
            "           | munich                 |   | munich                 |\n"
            "           +------------------------+   +------------------------+\n"
            "                                        +------------------------+\n"
            "                                        | shard 3, from worker 0 |\n"
            "                                        | 45 rows                |\n"
            "                                        | paris                  |\n"
            "                                        +------------------------+\n"))

    def test_pages_of_a_balance_are_drawn_within_its_picture_alone(self):
        said = drawn("balance")
        titles = [line for line in said.out.split("\n") if line[:1].isdigit()]
        self.assertEqual(titles, [
            "98 balance: 1 done of 1 planned, between the pages 97 and 101",
            "102 balance: 1 done of 1 planned, between the pages 101 and 105"])
        self.assertTrue(drawn("balance", "101").out.startswith("101 shards: 3 shards on 2 workers\n"))

    def test_graphviz_reads_all_examples(self):
        if not shutil.which("dot"):
            self.skipTest("there is no command dot")
        for name in ("tree", "queue", "shards", "split", "balance", "move", "workers"):
            for words in (["--dot"], ["--dot", "--script", "s"]):
                said = drawn(name, *words)
                self.assertEqual(said.status, 0)
                subprocess.run(["dot", "-Tsvg"], input=said.out.encode(), stdout=subprocess.DEVNULL, check=True)
        odd = ran("draw", "--dot", "--script", "s", given=SHARDS, files={"s": SCRIPT.replace("berlin", "<b>&")})
        subprocess.run(["dot", "-Tsvg"], input=odd.out.encode(), stdout=subprocess.DEVNULL, check=True)

    def test_where_there_is_nothing_to_draw(self):
        said = drawn("load")
        self.assertEqual((said.out, said.err, said.status), ("", "draw: no page of a tree or of shards is in this output\n", 1))
        self.assertEqual(drawn("tree", "35").status, 1)
        self.assertEqual(ran("draw", "--script", "none", given=SHARDS).status, 2)
