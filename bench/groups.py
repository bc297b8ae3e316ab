#!/usr/bin/env python3
"""Times a group by each level beside a query for each concept of that level, and beside SQLite, on one core.

Usage: groups.py [PROGRAM] [--quick]

PROGRAM is what `VOLAP_PATH=1 ./volap` prints where none is named. The rows are 200000 of script.py, shuffled, over its
three dimensions, which one server takes. Three scripts are run in turn by `step`, three times each: one that puts the
rows in and has a barrier, one with 40 groups behind that, and one with queries in their place. A group takes the least
processor time of the second less that of the first, by the number of groups, and so do the queries. So reading and
inserts fall out. SQLite, by Python's sqlite3, has the same rows in a table in memory, with a whole number for the
concept of each level of each dimension; once without an index, and once with one of the level and the measure, in
which a concept's rows lie together. Its time is the least of three of one statement. All have to answer alike.

Prints milliseconds, what part of the queries' time and of SQLite's a group takes, and what part was asked for at most;
what is above that is marked. For a program without groups dashes stand in their place. --quick takes a tenth of the
rows, which tells little."""
import collections
import ctypes
import os
import sqlite3
import subprocess
import sys
import tempfile
import time

import script
from compare import SUBREAPER, measured
from threads import volap

ROWS, SEED, RUNS = 200000, 6, 3
# So many groups stand in a script, and about so many queries.
GROUPS, QUERIES = 40, 1000
# At most these parts of the queries' time, at the level of the articles, and of SQLite's, were asked for.
OF_QUERIES, OF_SQLITE = {("article", 3): 0.1}, 0.5


class Sales:
    """The records of the rows, and the concepts of each level, in the order of their numbers."""

    def __init__(self, rows):
        self.base = list(script.script(rows, 0, SEED, True)) + ["barrier"]
        self.levels, parents = {}, {}
        for dim, levels in script.LEVELS.items():
            for level, made in enumerate(script.concepts_of(levels), 1):
                self.levels[dim, level] = [name for name, _ in made]
                parents.update(((dim, name), parent) for name, parent in made)
        self.place = {(dim, name): at for (dim, _), names in self.levels.items() for at, name in enumerate(names)}
        self.parents = parents

    def lineage(self, dim, name):
        """The places of a concept and of those above it, the highest first."""
        found = []
        while name != "*":
            found.insert(0, self.place[dim, name])
            name = self.parents[dim, name]
        return found

    def rows(self):
        """The measure of each row, and the places of its concepts on all levels."""
        for record in self.base:
            word, *fields = record.split(",")
            if word == "insert":
                yield [int(fields[1])] + [it for dim, name in zip(script.LEVELS, fields[2:]) for it in self.lineage(dim, name)]

    def with_groups(self, dim, level):
        return self.base + ["group,%s,%d,%s" % (dim, level, ",".join("*" for _ in script.LEVELS))] * GROUPS

    def with_queries(self, dim, level, times):
        """Queries for all concepts of a level, so many times over."""
        asked = ["query,0," + ",".join(name if it == dim else "*" for it in script.LEVELS) for name in self.levels[dim, level]]
        return self.base + asked * times


class Timer:
    """Processor times of the program, on scripts of its folder."""

    def __init__(self, program, folder):
        self.program, self.script, self.output = program, os.path.join(folder, "script.csv"), os.path.join(folder, "output")

    def put(self, lines):
        with open(self.script, "w") as text:
            text.write("".join(line + "\n" for line in lines))

    def run(self, lines):
        """The processor seconds of a run, and the words of the lines that it printed."""
        self.put(lines)
        seconds, _, text = measured([self.program, "step"], self.script, self.output)
        return seconds, [line.split() for line in text.decode().splitlines()]

    def has_groups(self):
        """Whether the program knows the word."""
        self.put(["volap,1", "dim,a,1", "group,a,1,*"])
        with open(self.script, "rb") as source:
            told = subprocess.run([self.program, "step"], stdin=source, stdout=subprocess.PIPE, stderr=subprocess.PIPE)
        return told.stdout == b"1 group all 0 0 - -\n"


def totals_of(words, names, where):
    """The answers of lines, by the place of the concept: of the groups of a script or of its queries the first ones."""
    first = [it for it in words if it[1] == where]
    if where == "group":
        mine = [it[2:] for it in first if it[0] == first[0][0]]
        return {int(it[0].split(":")[1]): it[1:] for it in mine[:-1]}
    return {at: it[2:] for at, it in enumerate(first[:len(names)]) if it[2] != "0"}


def timed(base, column):
    """The least seconds of a statement, and its answers by the place of the concept."""
    asked = "select %s, count(*), sum(measure), min(measure), max(measure) from sales group by 1" % column
    seconds = []
    for _ in range(RUNS):
        began = time.process_time()
        found = base.execute(asked).fetchall()
        seconds.append(time.process_time() - began)
    return min(seconds), {at: list(map(str, it)) for at, *it in found}


def by_sqlite(base, dim, level):
    """The least seconds without an index and with one, and the answers."""
    column = "%s%d" % (dim, level)
    plain, totals = timed(base, column)
    base.execute("create index by_concept on sales (%s, measure)" % column)
    indexed, same = timed(base, column)
    base.execute("drop index by_concept")
    if same != totals:
        sys.exit("groups: SQLite answers in two ways")
    return plain, indexed, totals


def table_of(sales):
    """A base with a table of the rows."""
    base = sqlite3.connect(":memory:", isolation_level=None)
    columns = ["measure"] + ["%s%d" % it for it in sales.levels]
    base.execute("create table sales (%s)" % ", ".join(it + " integer" for it in columns))
    base.executemany("insert into sales values (%s)" % ", ".join("?" * len(columns)), sales.rows())
    return base


def part(mine, other, asked):
    """What part of another time a time is, with a mark where that is more than was asked for."""
    if mine is None or not other:
        return "-"
    mark = " <- more than %s" % asked if asked and mine > asked * other else ""
    return "%.3f%s" % (mine / other, mark)


def row(timer, sales, base, where, has_groups):
    """A line of the table, for a level."""
    names = sales.levels[where]
    times = max(1, QUERIES // len(names))
    scripts = {"base": sales.base, "query": sales.with_queries(*where, times)}
    if has_groups:
        scripts["group"] = sales.with_groups(*where)
    seconds = collections.defaultdict(list)
    plain, indexed, totals = by_sqlite(base, *where)
    for _ in range(RUNS):
        for name, lines in scripts.items():
            took, words = timer.run(lines)
            seconds[name].append(took)
            if name != "base" and totals_of(words, names, name) != totals:
                sys.exit("groups: %s by %s %d: the answers are not SQLite's" % (name, *where))
    least = {name: max(0.0, min(of) - min(seconds["base"])) for name, of in seconds.items()}
    group, queries = least["group"] / GROUPS if has_groups else None, least["query"] / times
    cells = ["%s %d, %d" % (*where, len(names)), "-" if group is None else "%.2f" % (group * 1000)]
    for other, asked in ((queries, OF_QUERIES.get(where)), (plain, OF_SQLITE), (indexed, OF_SQLITE)):
        cells += ["%.1f" % (other * 1000), part(group, other, asked)]
    return "| %s |" % " | ".join(cells)


def main():
    words = [word for word in sys.argv[1:] if word != "--quick"]
    if len(words) > 1 or any(word.startswith("-") for word in words):
        sys.exit(__doc__)
    program = os.path.abspath(words[0]) if words else volap()
    ctypes.CDLL(None).prctl(SUBREAPER, 1)
    sales = Sales(ROWS // 10 if "--quick" in sys.argv else ROWS)
    base = table_of(sales)
    print("| ms of the processor: level, concepts | group | queries | part | SQLite | part | SQLite, indexed | part |")
    print("|---|---|---|---|---|---|---|---|", flush=True)
    with tempfile.TemporaryDirectory() as folder:
        timer = Timer(program, folder)
        has_groups = timer.has_groups()
        for where in sales.levels:
            print(row(timer, sales, base, where, has_groups), flush=True)


if __name__ == "__main__":
    main()
