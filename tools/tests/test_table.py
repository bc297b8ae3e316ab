"""Cases of tools/table: small exports, what becomes of them, and what is told."""
import os
import subprocess
import sys
import unittest

from helper import EXAMPLES, ran

HEADER = "volap,1\nuse,2,2,1,65536\n"
FOOT = "settle\nshards\naudit\n"


def made(export, *words, **files):
    """What tools/table makes of an export."""
    return ran("table", "e.csv", *words, files={"e.csv": export, **{name.replace("_", "."): text for name, text in files.items()}})


class Table(unittest.TestCase):
    def check(self, said, script, told, status=0):
        """The script without its head and its foot, what is told without the last line, and the status."""
        self.assertTrue(said.out.startswith(HEADER), said)
        self.assertTrue(said.out.endswith("shards\naudit\n"), said)
        self.assertEqual(said.out.removeprefix(HEADER).removesuffix(FOOT), script)
        self.assertEqual("".join(said.err.splitlines(True)[:-1]), told)
        self.assertEqual(said.status, status)

    def refuses(self, said, told):
        self.assertEqual((said.out, said.err, said.status), ("", told, 2))

    def test_columns_a_date_and_a_measure(self):
        said = made(
            "country,town,on,amount\nDE,Berlin,2026-03-14,12.34\nDE,Köln,2026-04-01,-5\nDE,Berlin,2026-03-15,0.1\n",
            "--dim", "place=country/town", "--dim", "day=on:month/day", "--measure", "amount*100")
        self.check(said, (
            "dim,place,2\ndim,day,2\nconcept,place,DE,*\nconcept,place,Berlin,DE\nconcept,place,Köln,DE\n"
            "concept,day,2026-03,*\nconcept,day,2026-03-14,2026-03\nconcept,day,2026-03-15,2026-03\n"
            "concept,day,2026-04,*\nconcept,day,2026-04-01,2026-04\n"
            "insert,0,1234,Berlin,2026-03-14\ninsert,1,-500,Köln,2026-04-01\ninsert,0,10,Berlin,2026-03-15\n"), "")
        self.assertEqual(said.err, (
            "table: 3 of 3 rows fit, 0 did not; 0 questions, 0 did not fit; 8 concepts in 2 dimensions; %d bytes\n"
            % len(said.out.encode())))

    def test_quotes_commas_and_lines_in_names(self):
        said = made('p,n\n"tea, green",1\n"12"" disc",2\n"two\nlines",3\n', "--dim", "p", "--measure", "n")
        self.check(said, (
            'dim,p,1\nconcept,p,"tea, green",*\nconcept,p,"12"" disc",*\nconcept,p,"two\nlines",*\n'
            'insert,0,1,"tea, green"\ninsert,1,2,"12"" disc"\ninsert,0,3,"two\nlines"\n'), "")

    def test_without_a_measure_each_row_has_one(self):
        said = made("p\ntea\n", "--dim", "p")
        self.check(said, "dim,p,1\nconcept,p,tea,*\ninsert,0,1,tea\n", "")

    def test_a_town_in_two_countries_and_one_with_its_name(self):
        said = made("c,t\nFR,Paris\nUS,Paris\nLU,LU\n", "--dim", "place=c/t")
        self.check(said, (
            "dim,place,2\nconcept,place,FR,*\nconcept,place,Paris (FR),FR\nconcept,place,US,*\n"
            "concept,place,Paris (US),US\nconcept,place,LU,*\nconcept,place,LU (LU),LU\n"
            "insert,0,1,Paris (FR)\ninsert,1,1,Paris (US)\ninsert,0,1,LU (LU)\n"), (
            "place: `LU` stands in 2 places, which become `LU`, `LU (LU)`\n"
            "place: `Paris` stands in 2 places, which become `Paris (FR)`, `Paris (US)`\n"))

    def test_a_name_that_another_one_becomes(self):
        said = made("c,t\nFR,Paris\nUS,Paris\nUS,Paris (US)\n", "--dim", "place=c/t")
        self.assertIn("insert,1,1,Paris (US) ~2\ninsert,0,1,Paris (US)\n", said.out)

    def test_rows_that_do_not_fit_are_told(self):
        said = made(
            "t,on,n\nBerlin,2026-03-14,1\na|b,2026-03-14,1\n,2026-03-14,1\n*,2026-03-14,1\nBerlin,2026-02-30,1.005\n"
            "%s,2026-03-14,1\n%s,2026-03-14,1\nBerlin,x\n" % (65 * "x", 64 * "x"),
            "--dim", "t", "--dim", "day=on:day", "--measure", "n*100")
        self.check(said, (
            "dim,t,1\ndim,day,1\nconcept,t,Berlin,*\nconcept,t,%s,*\nconcept,day,2026-03-14,*\n"
            "insert,0,100,Berlin,2026-03-14\ninsert,1,100,%s,2026-03-14\n" % (64 * "x", 64 * "x")), (
            "e.csv:9: 2 fields, where the header has 3\n"
            "e.csv:3: t: `a|b` has a bar, which stands between the names of a question\n"
            "e.csv:4: t: `` is empty, and a name has 1 to 64 bytes\n"
            "e.csv:5: t: `*` is the star, which stands for everything\n"
            "e.csv:6: n: `1.005` times 100 is 100.500, which is no whole number; day: `2026-02-30` is no date such as "
            "2026-03-14; the nearest known name is `2026-03-14`\n"
            "e.csv:7: t: `%s` has 65 bytes, and a name has at most 64\n" % (65 * "x")), 1)
        self.assertIn("table: 2 of 8 rows fit, 6 did not;", said.err)

    def test_64_bytes_are_counted_in_bytes(self):
        said = made("t\n%s\n%s\n" % (32 * "é", 32 * "é" + "x"), "--dim", "t")
        self.check(said, "dim,t,1\nconcept,t,%s,*\ninsert,0,1,%s\n" % (32 * "é", 32 * "é"), (
            "e.csv:3: t: `%sx` has 65 bytes, and a name has at most 64; the nearest known name is `%s`\n"
            % (32 * "é", 32 * "é")), 1)

    def test_mending_keeps_all_names_apart(self):
        long = [59 * "x" + it for it in ("aaaaaa", "bbbbbb")]
        said = made("t\na|b\na/b\n\"\"\n*\n%s\n%s\n" % tuple(long), "--dim", "t", "--mend")
        names = [line.split(",")[3] for line in said.out.split("\n") if line.startswith("insert")]
        self.assertEqual(names[:4], ["a/b", "a/b ~2", "(empty)", "(star)"])
        self.assertEqual([len(it) for it in names[4:]], [64, 64])
        self.assertEqual(len(set(names)), 6)
        self.assertEqual(said.err.count("it becomes"), 6)
        self.assertEqual(said.status, 0)

    def test_a_name_that_its_place_makes_too_long(self):
        export = "c,t\n%s,Paris\nUS,Paris\n" % (60 * "F")
        said = made(export, "--dim", "place=c/t")
        self.assertIn("e.csv:2: t: `Paris (%s)` has 68 bytes, and a name has at most 64\n" % (60 * "F"), said.err)
        self.assertIn("insert,0,1,Paris (US)\n", said.out)
        self.assertNotIn("F", said.out)
        self.assertEqual(said.status, 1)
        said = made(export, "--dim", "place=c/t", "--mend")
        self.assertIn("insert,1,1,Paris (US)\n", said.out)
        self.assertEqual((said.out.count("insert"), said.status), (2, 0))

    def test_measures(self):
        export = "t,n\n" + "".join("a,%s\n" % it for it in (
            "+1.50", "-0.00", "1e2", ".5", "7.", " 3 ", "-92233720368547758.08", "92233720368547758.07"))
        said = made(export, "--dim", "t", "--measure", "n*100")
        measures = [line.split(",")[2] for line in said.out.split("\n") if line.startswith("insert")]
        self.assertEqual(measures, ["150", "0", "10000", "50", "700", "300", str(-2**63), str(2**63 - 1)])
        self.assertEqual(said.status, 0)

    def test_measures_that_do_not_fit(self):
        for text, why in [
                ('"1,50"', "is no number such as -12.50; say --decimal , for 12,50"),
                ("1.505", "times 100 is 150.500, which is no whole number"), ("1e99", "times 100 is beyond 64 bits"),
                ("92233720368547758.08", "times 100 is beyond 64 bits"), ("(5.00)", "is no number such as -12.50"),
                ("", "is no number such as -12.50"), ("NaN", "is no number such as -12.50"), ("5-", "is no number such as -12.50")]:
            said = made("t,n\na,%s\n" % text, "--dim", "t", "--measure", "n*100")
            self.assertEqual(said.err.split("\n")[0], "e.csv:2: n: `%s` %s" % (text.strip('"'), why))
            self.assertEqual((said.out.count("insert"), said.status), (0, 1))

    def test_a_decimal_comma(self):
        said = made("t;n\na;12,5\nb;1.000,5\n", "--dim", "t", "--measure", "n*100", "--decimal", ",", "--delimiter", ";")
        self.check(said, "dim,t,1\nconcept,t,a,*\ninsert,0,1250,a\n", (
            "e.csv:3: n: `1.000,5` is no number such as -12,50\n"), 1)

    def test_parts_of_dates(self):
        said = made(
            "on\n2026-01-01T08:30\n2026-12-31 23:59:59\n", "--dim", "w=on:week/day", "--dim",
            "y=on:year/quarter/month/day/hour")
        self.assertIn("insert,0,1,2026-01-01,2026-01-01T08\n", said.out)
        for record in (
                "concept,w,2026-W01,*", "concept,w,2026-W53,*", "concept,y,2026,*", "concept,y,2026-Q4,2026",
                "concept,y,2026-12,2026-Q4", "concept,y,2026-12-31,2026-12", "concept,y,2026-12-31T23,2026-12-31"):
            self.assertIn(record + "\n", said.out)
        self.refuses(made("on\n2026-01-01\n", "--dim", "d=on:month/week"), (
            "table: `d`: the parts of a date are some of year/quarter/month/day/hour in this order, or of week/day/hour\n"))

    def test_dates_in_another_form(self):
        said = made("on\n14.03.2026\n03/14/2026\n", "--dim", "d=on:day", "--dates", "%d.%m.%Y")
        self.check(said, "dim,d,1\nconcept,d,2026-03-14,*\ninsert,0,1,2026-03-14\n", (
            "e.csv:3: d: `03/14/2026` is no date in the form %d.%m.%Y\n"), 1)
        said = made("on\n14.03.2026\n", "--dim", "d=on:day")
        self.assertIn("say --dates %d.%m.%Y for 14.03.2026", said.err)

    def test_concepts_of_another_file(self):
        said = made(
            "store,n\nS1,1\nS3,2\nS33,3\n", "--dim", "place=town/store@stores.csv", "--measure", "n",
            stores_csv="store,town\nS1,Berlin\nS2,Berlin\nS3,Köln\nS3,Bonn\n")
        self.check(said, (
            "dim,place,2\nconcept,place,Berlin,*\nconcept,place,S1,Berlin\nconcept,place,S2,Berlin\nconcept,place,Köln,*\n"
            "concept,place,S3,Köln\ninsert,0,1,S1\ninsert,1,2,S3\n"), (
            "stores.csv:5: store: `S3` stood elsewhere before\n"
            "e.csv:4: store: `S33` is not in stores.csv; the nearest known name is `S3`\n"), 1)

    def test_questions(self):
        said = made(
            "c,t,p\nFR,Paris,tea\nUS,Paris,coffee\n", "--dim", "place=c/t", "--dim", "p", "--queries", "q", "--servers", "3",
            q="# a comment\n\n*\nc=FR\nplace=Paris (US),p=tea|coffee\nt=Paris\np=te\nq=1\nc=Paris (FR)\nc=FR,t=Paris (FR)\n")
        self.assertIn("settle\nquery,0,*,*\nquery,1,FR,*\nquery,2,Paris (US),tea|coffee\nshards\n", said.out)
        self.assertIn((
            "q:6: t: `Paris` is one of `Paris (FR)`, `Paris (US)`: say which\n"
            "q:7: p: `te` is not known; the nearest known name is `tea`\n"
            "q:8: condition: `q=1` has no dimension and no level before =\n"
            "q:9: c: `Paris (FR)` is not known\n"
            "q:10: condition: `t=Paris (FR)` is a second one for `place`\n"), said.err)
        self.assertIn("3 questions, 5 did not fit", said.err)
        self.assertEqual(said.status, 1)

    def test_questions_by_a_level(self):
        said = made(
            "c,t,p\nFR,Paris,tea\nUS,Paris,coffee\n", "--dim", "place=c/t", "--dim", "p", "--queries", "q",
            q="by c\nby place,p=tea\n*\nby t,c=FR,p=tea|coffee\nby p,*\nby x\np=tea,by c\nby c,by t\n")
        self.assertIn((
            "settle\ngroup,place,1,*,*\ngroup,place,2,*,tea\nquery,0,*,*\ngroup,place,2,FR,tea|coffee\ngroup,p,1,*,*\nshards\n"), said.out)
        self.assertIn("q:6: condition: `by x` has no dimension and no level behind by\n", said.err)
        self.assertIn("q:7: condition: `by c` has no dimension and no level before =", said.err)
        self.assertIn("q:8: condition: `by t` has no dimension and no level before =", said.err)
        self.assertIn("5 questions, 3 did not fit", said.err)

    def test_names_that_look_alike_are_told(self):
        said = made("t\nBerlin\nberlin \n", "--dim", "t")
        self.assertIn("t: `Berlin` and `berlin ` differ in blanks or capitals alone, and stay apart\n", said.err)
        self.assertEqual((said.out.count("insert"), said.status), (2, 0))

    def test_a_quote_that_is_open_to_the_end(self):
        said = made('t\na\n"b\nc\nd\n', "--dim", "t")
        self.assertIn("e.csv:3: no record of CSV: unexpected end of data, and with it all lines to 5\n", said.err)
        self.assertEqual((said.out.count("insert"), said.status), (1, 1))

    def test_a_quote_within_a_field(self):
        said = made('t\n"a"b\nc\n', "--dim", "t")
        self.assertIn("e.csv:2: no record of CSV:", said.err)
        self.assertEqual((said.out.count("insert"), said.status), (1, 1))

    def test_encodings(self):
        said = made("t\nKöln\n".encode("latin-1"), "--dim", "t")
        self.refuses(said, "table: e.csv:2: the bytes are no text in utf-8: say which it is, as --encoding latin-1\n")
        for encoding, text in [("latin-1", "t\nKöln\n"), ("utf-8", "\ufefft\r\nKöln\r\n"), ("utf-16", "t\nKöln\n")]:
            said = made(text.encode(encoding), "--dim", "t", "--encoding", encoding)
            self.check(said, "dim,t,1\nconcept,t,Köln,*\ninsert,0,1,Köln\n", "")
        self.refuses(made("t\nKöln\n".encode("utf-16"), "--dim", "t"), "table: e.csv: this is UTF-16: say --encoding utf-16\n")

    def test_columns_that_are_not_there(self):
        self.refuses(made("town,n\na,1\n", "--dim", "twon"), "table: e.csv: there is no column `twon`; the nearest is `town`\n")
        self.refuses(made("town;n\na;1\n", "--dim", "xyz"), (
            "table: e.csv: there is no column `xyz`; the whole header is `town;n`: is another --delimiter meant?\n"))
        self.refuses(made("a,a\n1,1\n", "--dim", "a"), "table: e.csv: two columns have the name `a`\n")
        self.refuses(made("", "--dim", "a"), "table: e.csv: there is no header\n")
        self.refuses(ran("table", "none.csv", "--dim", "a"), "table: none.csv: No such file or directory\n")

    def test_words_of_a_dimension_that_say_nothing(self):
        self.refuses(made("a,b\n1,2\n", "--dim", "a/b"), (
            "table: `a/b` has no name for the dimension in front: say for instance place=a/b\n"))
        self.refuses(made("a,b\n1,2\n", "--dim", "d=a:day@b"), (
            "table: `d`: the parts of a date are in no file, so there can't be @b\n"))
        said = ran("table")
        self.assertEqual((said.status, said.err[:30]), (2, "Makes a script for volap of an"))
        self.assertEqual((ran("table", "e.csv").status, ran("table", "--help").status), (2, 0))

    def test_columns_by_number_and_with_signs(self):
        said = made("Price/piece,b=c\nx,y\n", "--dim", "Price/piece", "--dim", "other=#2")
        self.assertIn("dim,Price/piece,1\ndim,other,1\n", said.out)
        self.assertIn("insert,0,1,x,y\n", said.out)

    def test_limits(self):
        self.refuses(made("a\n1\n", "--dim", "a", "--dim", "a"), "table: two dimensions have the name `a`\n")
        self.refuses(made("a\n1\n", "--dim", "x=a/a/a/a/a/a/a/a/a"), "table: `x` has 9 levels, and a dimension at most 8\n")
        self.refuses(made("a\n1\n", "--dim", "%s=a" % (65 * "x")), (
            "table: the dimension's name `%s` has 65 bytes, and a name has at most 64\n" % (65 * "x")))
        self.assertEqual(made("a\n1\n", *(9 * ["--dim", "a"])).status, 2)

    def test_servers_take_turns_and_settle(self):
        said = made("t\n" + 10001 * "a\n", "--dim", "t", "--servers", "4", "--cells", "64")
        self.assertIn("use,4,2,1,64\n", said.out)
        self.assertIn("insert,2,1,a\ninsert,3,1,a\nsettle\nbalance,4\ninsert,0,1,a\nsettle\nshards\naudit\n", said.out)

    def test_a_script_that_is_too_large(self):
        dims = [word for it in range(8) for word in ("--dim", "d%d=t" % it)]
        said = made("t\n" + 128000 * (64 * "a" + "\n"), *dims)
        self.refuses(said, (
            "table: the script would have 67968944 bytes, and a script has at most 67108864: about 126380 of the 128000 rows would do\n"))


class Shop(unittest.TestCase):
    """What examples/shop/README.md shows of the export's odd rows."""

    def test_odd_rows(self):
        shop = os.path.join(EXAMPLES, "shop")
        export = subprocess.run(
            [sys.executable, os.path.join(shop, "make.py"), "2000", "--odd"], stdout=subprocess.PIPE, check=True).stdout
        words = [
            "--dim", "place=country/town/store", "--dim", "date=date:quarter/month/day", "--dim", "product=group/product",
            "--measure", "amount*100"]
        said = ran("table", "odd.csv", *words, files={"odd.csv": export})
        with open(os.path.join(shop, "README.md"), encoding="utf-8") as it:
            shown = [line[4:] for line in it.read().split("\n") if line.startswith(("    odd.csv:", "    table: 2000"))]
        self.assertEqual([it for it in said.err.split("\n") if it.startswith(("odd.csv:", "table:"))], shown)
        self.assertEqual((len(shown), said.status), (6, 1))
        mended = ran("table", "odd.csv", *words, "--mend", files={"odd.csv": export})
        self.assertIn("table: 2003 of 2005 rows fit, 2 did not;", mended.err)
