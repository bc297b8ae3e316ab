#!/usr/bin/env python3
"""Asks SQLite the ten questions of questions.txt, and compares its answers with those on standard input.

Usage: tools/report SCRIPT --measure 'amount*100' --json < ANSWERS | check.py EXPORT

The export is read as it is, without the script that was made of it. The status is 1 where answers differ."""
import csv
import decimal
import json
import sqlite3
import sys

QUESTIONS = [
    "1",
    "country = 'Germany'",
    "country = 'France' and town = 'Paris'",
    "country = 'United States' and town = 'Paris' and kind = 'Coffee'",
    "town = 'Luxembourg' and date between '2025-01-01' and '2025-03-31'",
    "date like '2025-03-%'",
    "date = '2025-12-24' and country in ('Germany', 'France')",
    "kind in ('Tea', 'Coffee') and date between '2025-04-01' and '2025-06-30'",
    "product = 'Crème, 500 g' and town = 'München'",
    "product = 'Cheesecake 12\"' and country = 'Brazil' and date like '2025-07-%'",
]


def base_of(export):
    """The export as a table, with whole cents."""
    base = sqlite3.connect(":memory:")
    base.execute("create table sales (date text, country text, town text, store text, kind text, product text, cents integer)")
    with open(export, encoding="utf-8", newline="") as it:
        rows = [
            [row["date"], row["country"], row["town"], row["store"], row["group"], row["product"],
             int(decimal.Decimal(row["amount"]) * 100)] for row in csv.DictReader(it)]
    base.executemany("insert into sales values (?, ?, ?, ?, ?, ?, ?)", rows)
    return base


def main():
    if len(sys.argv) != 2:
        sys.exit(__doc__)
    base, told = base_of(sys.argv[1]), json.load(sys.stdin, parse_float=decimal.Decimal)
    same = 0
    for question, answer in zip(QUESTIONS, told["questions"]):
        asked = "select count(*), coalesce(sum(cents), 0), min(cents), max(cents) from sales where " + question
        wanted = list(base.execute(asked).fetchone())
        given = [answer["rows"]] + [it if it is None else it * 100 for it in (answer["sum"], answer["least"], answer["greatest"])]
        if given == wanted:
            same += 1
        else:
            print("%s: SQLite has %s, and the report %s" % (question, wanted, given))
    print("%d of %d answers are SQLite's" % (same, len(QUESTIONS)))
    sys.exit(same != len(QUESTIONS) or len(told["questions"]) != len(QUESTIONS))


main()
