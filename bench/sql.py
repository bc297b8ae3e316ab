#!/usr/bin/env python3
"""The same script in a database in memory: reads a script of script.py on standard input and prints the answers.

Usage: sql.py sqlite      by Python's sqlite3, without indexes
       sql.py indexed     the same with an index on each column of a level
       sql.py duckdb      by Python's package duckdb, where that is installed

One table of sales, with a whole number for the concept of each level of each dimension; all inserts up to the
next query go in as one call."""
import sys

ENGINES = ("sqlite", "indexed", "duckdb")
# DuckDB takes so many rows in a statement.
ROWS = 10000


def opened(engine):
    """A base in memory."""
    if engine == "duckdb":
        import duckdb
        return duckdb.connect(":memory:")
    import sqlite3
    return sqlite3.connect(":memory:", isolation_level=None)


class Sales:
    """The table, and the rows that are to go into it."""

    def __init__(self, engine, levels):
        self.engine, self.base, self.rows = engine, opened(engine), []
        columns = ["%s%d" % (dim, level) for dim in levels for level in range(1, levels[dim] + 1)]
        self.base.execute("create table sales (measure bigint, %s)" % ", ".join(it + " integer" for it in columns))
        if engine == "indexed":
            for column in columns:
                self.base.execute("create index by_%s on sales (%s)" % (column, column))

    def insert(self):
        if self.engine != "duckdb":
            for row in self.rows[:1]:
                self.base.executemany("insert into sales values (%s)" % ", ".join("?" * len(row)), self.rows)
        for at in range(0, len(self.rows) if self.engine == "duckdb" else 0, ROWS):
            values = ("(%s)" % ", ".join(map(str, row)) for row in self.rows[at:at + ROWS])
            self.base.execute("insert into sales values " + ", ".join(values))
        self.rows.clear()

    def query(self, picks):
        """The answer to a query for the rows with these concepts, each with its column."""
        self.insert()
        where = " where " + " and ".join("%s = %d" % it for it in picks) if picks else ""
        asked = "select count(*), coalesce(sum(measure), 0), min(measure), max(measure) from sales" + where
        count, total, least, greatest = self.base.execute(asked).fetchone()
        return "%d %d %s %s" % (count, total, *(("-", "-") if count == 0 else (least, greatest)))


def main():
    if len(sys.argv) != 2 or sys.argv[1] not in ENGINES:
        sys.exit(__doc__)
    levels, lineages, sales, lines = {}, {}, None, []
    for record in sys.stdin.read().split("\n"):
        word, *fields = record.split(",")
        if word == "dim":
            levels[fields[0]], lineages[fields[0]] = int(fields[1]), {}
        elif word == "concept":
            dim, name, parent = fields
            lineages[dim][name] = lineages[dim].get(parent, ()) + (len(lineages[dim]),)
        elif word in ("insert", "query"):
            sales = sales or Sales(sys.argv[1], levels)
            if word == "insert":
                named = (lineages[dim][name] for dim, name in zip(levels, fields[2:]))
                sales.rows.append([int(fields[1]), *(it for lineage in named for it in lineage)])
                answer = "ok"
            else:
                named = [(dim, lineages[dim][name]) for dim, name in zip(levels, fields[1:]) if name != "*"]
                answer = sales.query([("%s%d" % (dim, len(it)), it[-1]) for dim, it in named])
            lines.append("%d %s %s" % (len(lines) + 1, word, answer))
    print("\n".join(lines))


main()
