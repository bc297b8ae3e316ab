"""Odd scripts, and what tools/why says of them: the place, the cause, the field and a value that would do."""
import glob
import os
import re
import unittest

from helper import EXAMPLES, ran

HEAD = """volap,1
use,2,2,1,256
dim,geo,2
concept,geo,de,*
concept,geo,berlin,de
concept,geo,"munich, east",de
dim,day,1
concept,day,mon,*
"""
# A title, what stands in the script, the editor's line and column with the answer, and what the message says.
WHOLE = [
    ("nothing", "\n\n", "1:1: bad 1 version", ["no record", "volap,1"]),
    ("comment above", "# sales\nvolap,1\n", "1:1: bad 1 version", ['"# sales"', "no comment"]),
    ("line of a spreadsheet", "sep=,\nvolap,1\n", "1:1: bad 1 version", ['"sep=,"', "volap,1"]),
    ("header", "server,amount\n1,5\n", "1:1: bad 1 version", ['"server,amount"', "no header stands above"]),
    ("no version", "dim,geo,1\nconcept,geo,de,*\n", "1:1: bad 1 version", ["line volap,1 is missing above"]),
    ("other version", "volap,2\n", "1:7: bad 1 version", ["FORMAT is \"2\"", "volap,1"]),
    ("version with a blank", "volap, 1\n", "1:7: bad 1 version", ['FORMAT is " 1"', "volap,1"]),
    ("version in capitals", "VOLAP,1\n", "1:1: bad 1 version", ['the first field is "VOLAP"', "volap,1"]),
    ("version by semicolons", "volap;1\n",
        "1:1: bad 1 version", ["parted by commas, and here by semicolons", "volap,1"]),
    ("UTF-16", "volap,1\ndim,geo,1\n".encode("utf-16"), "1:1: bad 1 version", ["UTF-16", "iconv", "volap,1"]),
    ("two byte order marks", b"\xef\xbb\xbf\xef\xbb\xbfvolap,1\n", "1:1: bad 1 version", ["\\ufeffvolap", "volap,1"]),
    ("settings out of range", "volap,1\nuse,17,2,2,64\n",
        "2:5: bad 2 number", ["SERVERS", "from 1 to 16", "for instance 16"]),
    ("few cells", "volap,1\nuse,2,2,2,32\n", "2:11: bad 2 number", ["CELLS", "from 64 to 65536", "for instance 64"]),
    ("settings of three", "volap,1\nuse,2,2,2\n",
        "2:9: bad 2 fields", ["use,SERVERS,WORKERS,THREADS,CELLS", "CELLS is missing"]),
    ("nine levels", "volap,1\ndim,geo,9\n", "2:9: bad 2 number", ["LEVELS", "from 1 to 8", "for instance 8"]),
    ("no levels", "volap,1\ndim,geo\n", "2:5: bad 2 fields", ["dim,NAME,LEVELS", "LEVELS is missing"]),
    ("no dimension", "volap,1\ninsert,0,5\n", "2:1: bad 2 order", ["below the dimensions", "dim,place,1"]),
    ("ninth dimension", "volap,1\n" + "".join("dim,d%d,1\n" % it for it in range(9)),
        "10:1: bad 10 dimfull", ["8 dimensions"]),
    ("old line ends", HEAD.replace("\n", "\r") + "insert,7,5,berlin,mon\r",
        "9:8: bad 9 number", ["SERVER", "for instance 1"]),
    ("line ends of two", HEAD.replace("\n", "\r\n") + "insert,7,5,berlin,mon\r\n",
        "9:8: bad 9 number", ["SERVER", "for instance 1"]),
    ("empty lines", HEAD.replace("\n", "\n\n") + "insert,7,5,berlin,mon\n",
        "17:8: bad 9 number", ["SERVER", "for instance 1"]),
    ("byte order mark", b"\xef\xbb\xbfvolap,1\ndim,,1\n", "2:5: bad 2 name", ["NAME is empty", "for instance"]),
    ("one server", "volap,1\nuse,1,1,1,64\ndim,geo,1\nsync,1\n",
        "4:6: bad 4 number", ["SERVER", "0 alone, as there is 1 server", "for instance 0"]),
    ("no settings", "volap,1\ndim,geo,1\nsync,2\n",
        "3:6: bad 3 number", ["SERVER", "where no use record says otherwise", "for instance 1"]),
]
# The same with what stands behind the head.
BEHIND = [
    ("capital", "Insert,0,5,berlin,mon",
        "9:1: bad 9 kind", ['"Insert"', "small letters", "insert,SERVER,MEASURE,NAME of geo,NAME of day"]),
    ("slip of the pen", "isnert,0,5,berlin,mon", "9:1: bad 9 kind", ['"isnert"', "insert,SERVER,MEASURE"]),
    ("comment", "# rows", "9:1: bad 9 kind", ["no comments", "take the line out"]),
    ("semicolons", "insert;0;5;berlin;mon", "9:1: bad 9 kind", ["by semicolons", "insert,SERVER,MEASURE"]),
    ("tabs", "insert\t0\t5\tberlin\tmon", "9:1: bad 9 kind", ["by tabs", "insert,SERVER,MEASURE"]),
    ("record in quotes", '"insert,0,5,berlin,mon"',
        "9:1: bad 9 kind", ["quotes stand around all", "insert,SERVER,MEASURE"]),
    ("row without a word", "0,5,berlin,mon", "9:1: bad 9 kind", ['"0"', "begins with one of dim, concept, insert"]),
    ("blank before a number", "insert, 1,5,berlin,mon",
        "9:8: bad 9 number", ['SERVER is " 1": nothing is trimmed', "for instance 1"]),
    ("third server of two", "insert,2,5,berlin,mon",
        "9:8: bad 9 number", ['SERVER is "2"', "from 0 to 1, as there are 2 servers", "for instance 1"]),
    ("decimal", "insert,0,12.5,berlin,mon", "9:10: bad 9 number", ['MEASURE is "12.5"', "whole", "for instance 1250"]),
    ("decimal comma in quotes", 'insert,0,"12,50",berlin,mon',
        "9:10: bad 9 number", ['MEASURE is "12,50"', "for instance 1250"]),
    ("decimal comma", "insert,0,12,50,berlin,mon", "9:23: bad 9 fields", ["12,50 is two fields", "for instance 1250"]),
    ("thousands", 'insert,0,"1,250",berlin,mon',
        "9:10: bad 9 number", ["MEASURE", "has commas within", "for instance 1250"]),
    ("another minus", "insert,0,\u22125,berlin,mon", "9:10: bad 9 number", ["MEASURE", "for instance -5"]),
    ("plus", "insert,0,+5,berlin,mon", "9:10: bad 9 number", ["MEASURE", "for instance 5"]),
    ("money", "insert,0,5 \u20ac,berlin,mon", "9:10: bad 9 number", ["MEASURE", "for instance 5"]),
    ("word as a number", "insert,0,five,berlin,mon",
        "9:10: bad 9 number", ['MEASURE is "five", which is no number', "for instance 100"]),
    ("empty number", "insert,0,,berlin,mon", "9:10: bad 9 number", ["MEASURE is empty", "for instance 100"]),
    ("great number", "insert,0,9223372036854775808,berlin,mon",
        "9:10: bad 9 number", ["-2^63 to 2^63 - 1", "for instance 9223372036854775807"]),
    ("21 digits", "insert,0,%021d,berlin,mon" % 5,
        "9:10: bad 9 number", ["MEASURE has 21 digits, and may have 20", "for instance 5"]),
    ("missing name", "insert,0,5,berlin", "9:12: bad 9 fields", ["NAME of day is missing"]),
    ("name with a comma", "insert,0,5,munich, east,mon", "9:25: bad 9 fields", ['stands in quotes: "munich, east"']),
    ("commas at the end", "insert,0,5,berlin,mon,,", "9:23: bad 9 fields", ["take the commas at its end away"]),
    ("open quote", 'insert,0,5,"berlin,mon\nsettle',
        "9:12: bad 9 fields", ["the quote that opens in NAME of geo", "close it"]),
    ("query with a measure", "query,0,5,*,*",
        "9:13: bad 9 fields", ["query,SERVER,FILTER of geo,FILTER of day", "no MEASURE"]),
    ("star in a row", "insert,0,5,*,mon", "9:12: bad 9 name", ['NAME of geo is "*"', "for instance berlin"]),
    ("bar in a row", "insert,0,5,berlin|de,mon",
        "9:12: bad 9 name", ["NAME of geo", "vertical bar", "for instance berlin"]),
    ("bar at the end", "query,0,berlin|,*", "9:9: bad 9 name", ['FILTER of geo is "berlin|"', "for instance berlin"]),
    ("star among names", "query,0,*|berlin,*",
        "9:9: bad 9 name", ["FILTER of geo", "a * stands alone", "for instance *"]),
    ("empty filter", "query,0,,*", "9:9: bad 9 name", ["FILTER of geo is empty", "for instance *"]),
    ("66 bytes of 33 letters", "concept,geo,%s,*" % ("\u00e4" * 33),
        "9:13: bad 9 name", ["NAME has 66 bytes", "may have 64", "\u00e4" * 32]),
    ("64 bytes and 65", "concept,geo,%s,*\nconcept,geo,%s,*" % ("x" * 64, "y" * 65), "10:13: bad 10 name",
        ["NAME has 65 bytes", "may have 64", "y" * 64]),
    ("empty parent", "concept,geo,fr,", "9:16: bad 9 name", ["PARENT is empty", "for instance *"]),
    ("dimension twice", "dim,geo,2",
        "9:5: bad 9 dimtwice", ['NAME is "geo"', "in line 3 already", "for instance geo-2"]),
    ("unknown dimension", "concept,goe,paris,*", "9:9: bad 9 nodim", ['DIM is "goe"', "for instance geo"]),
    ("unknown parent", "concept,geo,bonn,dee", "9:18: bad 9 noparent", ['PARENT is "dee"', "for instance de"]),
    ("parent below", "concept,geo,paris,fr\nconcept,geo,fr,*",
        "9:19: bad 9 noparent", ['PARENT is "fr"', "it stands in line 10", "move that line above"]),
    ("concept twice", "concept,geo,berlin,*",
        "9:13: bad 9 concepttwice", ['NAME is "berlin"', "in line 5 already", "for instance berlin-2"]),
    ("below a leaf", "concept,geo,mitte,berlin",
        "9:19: bad 9 toodeep", ['PARENT is "berlin"', "on level 2, the last", "for instance de", "dim,geo,3 in line 3"]),
    ("late dimension", "settle\ndim,art,1", "10:1: bad 10 order", ["dim stands above all commands", "above line 9"]),
    ("late settings", "use,2,2,2,64", "9:1: bad 9 order", ["use stands once", "take this one out"]),
    ("version again", "volap,1", "9:1: bad 9 order", ["volap,1 stands once", "take this one out"]),
    ("shard below zero", "split,-1", "9:7: bad 9 number", ["SHARD", "from 0 to 4294967295", "for instance 0"]),
    ("worker 256", "move,0,256", "9:8: bad 9 number", ["WORKER", "from 0 to 255", "for instance 255"]),
    ("17 moves", "balance,17", "9:9: bad 9 number", ["MOST", "from 1 to 16", "for instance 16"]),
    ("settle with a field", "settle,0", "9:8: bad 9 fields", ["1: settle", 'the field "0" is one too many']),
    ("group with a filter too few", "group,geo,1,*",
        "9:13: bad 9 fields", ["group,DIM,LEVEL,FILTER of geo,FILTER of day", "FILTER of day is missing"]),
    ("group by level 0", "group,geo,0,*,*", "9:11: bad 9 number", ["LEVEL", "from 1 to 8", "for instance 1"]),
    ("group by no dimension", "group,*,1,*,*", "9:7: bad 9 name", ['DIM is "*"', "for instance day"]),
    ("group with an empty filter", "group,goe,8,*,", "9:15: bad 9 name", ["FILTER of day is empty", "for instance *"]),
    ("group by a dimension that is unknown", "group,goe,8,*,*", "9:7: bad 9 nodim", ['DIM is "goe"', "for instance geo"]),
    ("group by a level that is not there", "group,geo,3,*,*",
        "9:11: bad 9 toodeep", ['LEVEL is 3, and "geo" has 2 levels, by line 3', "for instance 2"]),
]


class Why(unittest.TestCase):
    def explained(self, script, *words):
        return ran("why", *words, "sales.csv", files={"sales.csv": script})

    def test_odd_scripts(self):
        for title, script, place, parts in WHOLE + [(it[0], HEAD + it[1] + "\n", *it[2:]) for it in BEHIND]:
            with self.subTest(title):
                said = self.explained(script)
                first = said.out.split("\n")[0]
                self.assertEqual((said.status, said.err), (1, ""))
                self.assertTrue(first.startswith("sales.csv:%s: " % place), first)
                for part in parts:
                    self.assertIn(part, first)

    def test_all_bad_records_each_with_its_line(self):
        rows = ["insert,0,5,berlin,mon", "insert,5,1.5,berlin,mon", "query,0,berlin", "foo", "settle", "move,0,1,2"]
        said = self.explained(HEAD + "\n".join(rows))
        places = re.findall(r"^sales\.csv:(\d+):(\d+): bad (\d+) (\w+): ", said.out, flags=re.M)
        self.assertEqual(places, [
            ("10", "8", "10", "number"), ("10", "10", "10", "number"), ("11", "9", "11", "fields"), ("12", "1", "12", "kind"),
            ("14", "10", "14", "fields")])
        self.assertIn("    insert,5,1.5,berlin,mon\n             ^\n", said.out)

    def test_a_mended_record_leaves_no_more_faults_behind(self):
        head = HEAD.replace("dim,geo,2", "dim,geo,two").replace("concept,geo,de,*", "concept,geo,de,world")
        said = self.explained(head + "insert,0,5,berlin,mon\n")
        self.assertEqual(re.findall(r"bad (\d+) (\w+)", said.out), [("3", "number"), ("4", "noparent")])
        said = self.explained("comment\n" + HEAD + "insert,0,5,berlin,mon\n")
        self.assertEqual(re.findall(r"bad (\d+) (\w+)", said.out), [("1", "version")])

    def test_at_most_so_many(self):
        said = self.explained(HEAD + "foo\n" * 5, "--most", "2")
        self.assertEqual(len(re.findall("bad ", said.out)), 3)
        self.assertIn("there are more bad records: tools/why sales.csv tells all", said.out)

    def test_good_scripts(self):
        for script in sorted(glob.glob(os.path.join(EXAMPLES, "*.csv"))):
            answer = open(script[:-3] + "txt").read() if os.path.exists(script[:-3] + "txt") else ""
            said = ran("why", script)
            self.assertEqual(said.status, int(answer.startswith("bad ")), script)
            self.assertIn(answer.strip() if said.status else "the script is good", said.out)

    def test_a_long_text_and_one_that_is_not_there(self):
        said = ran("why", "-", given="\n" * (2 ** 26 + 1))
        self.assertEqual(said.status, 1)
        self.assertIn("67108865 bytes, and a script has at most 67108864", said.out)
        said = ran("why", "nothing.csv")
        self.assertEqual((said.status, said.out), (2, ""))
        self.assertIn("nothing.csv can't be read", said.err)
