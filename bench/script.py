#!/usr/bin/env python3
"""Writes a script for measuring to standard output.

Usage: script.py ROWS QUERIES SEED [shuffled]

The hierarchies are those of a chain of shops: 1008 days in 36 months of 3 years, 100 shops in 20 towns
of 4 countries, 200 articles in 20 lines of 5 groups. One server takes ROWS sales, day after day or
shuffled, with QUERIES queries spread evenly among them. A query picks in each dimension everything or
one concept of some level, each with a fixed chance."""
import random
import signal
import sys

LEVELS = {
    "date": [("year", 3), ("month", 12), ("day", 28)],
    "place": [("country", 4), ("town", 5), ("shop", 5)],
    "article": [("group", 5), ("line", 4), ("item", 10)],
}
# Of ten queries, how many pick in a dimension everything, a concept of level 1, 2 and 3.
CHANCES = {"date": (3, 2, 3, 2), "place": (5, 2, 3, 0), "article": (5, 3, 2, 0)}


def concepts_of(levels):
    """The concepts of a dimension level by level, each a pair of its name and its parent's."""
    above, by_level = ["*"], []
    for word, count in levels:
        made = []
        for parent in above:
            stem = "" if parent == "*" else parent + "."
            made += [("%s%s%d" % (stem, word, place), parent) for place in range(count)]
        by_level.append(made)
        above = [name for name, _ in made]
    return by_level


def script(rows, queries, seed, shuffled):
    """The records of a script, each a line."""
    chance = random.Random(seed)
    dims = {dim: concepts_of(levels) for dim, levels in LEVELS.items()}
    yield "volap,1"
    yield "use,1,1,1,65536"
    for dim, levels in LEVELS.items():
        yield "dim,%s,%d" % (dim, len(levels))
    for dim, by_level in dims.items():
        for level in by_level:
            for name, parent in level:
                yield "concept,%s,%s,%s" % (dim, name, parent)
    days, shops, items = ([name for name, _ in by_level[-1]] for by_level in dims.values())
    sales = []
    for number in range(rows):
        day = days[number * len(days) // rows]
        sales.append((chance.randint(-100, 100), day, chance.choice(shops), chance.choice(items)))
    if shuffled:
        chance.shuffle(sales)

    def filter_of(dim):
        level = chance.choices(range(4), CHANCES[dim])[0]
        return chance.choice(dims[dim][level - 1])[0] if level else "*"

    asked = 0
    for number, (measure, *names) in enumerate(sales, 1):
        yield "insert,0,%d,%s" % (measure, ",".join(names))
        while asked * rows < queries * number:
            asked += 1
            yield "query,0,%s" % ",".join(filter_of(dim) for dim in dims)


if __name__ == "__main__":
    if len(sys.argv) not in (4, 5) or sys.argv[4:] not in ([], ["shuffled"]):
        sys.exit(__doc__)
    # It ends quietly where its reader goes away.
    signal.signal(signal.SIGPIPE, signal.SIG_DFL)
    print("\n".join(script(*map(int, sys.argv[1:4]), len(sys.argv) == 5)))
