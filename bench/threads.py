#!/usr/bin/env python3
"""Times `run`, which has a thread for each actor, beside `step` on the same scripts, by the clock.

Usage: threads.py [PROGRAM] [--quick]

PROGRAM is what `VOLAP_PATH=1 ./volap` prints where none is named. Both words run each script in turn, three times
each; `load --threads` and `load` make their own. The scripts have the hierarchies of script.py, four servers and
four workers. Prints the least times in milliseconds, how many times as long `run` takes, and how many times it was
asked to take at most, on a machine of four processors that does nothing else; what is above that is marked. --quick
takes a tenth of the work, which tells little. A run that ends with another status than 0 ends the whole, and so do
texts that are not alike: where no rows come beside queries they are the same, and else they have as many lines."""
import os
import random
import subprocess
import sys
import tempfile
import time

from compare import ROOT
from script import CHANCES, LEVELS, concepts_of

RUNS = 3
SERVERS = 4


class Kind:
    """A kind of work: its head, the bound that was asked for, the words of both runs, the lines of its script or nothing,
    and whether both print the same."""

    def __init__(self, head, bound, words, script=(), is_same=True):
        self.head, self.bound, self.words, self.script, self.is_same = head, bound, words, script, is_same


class Shops:
    """Records over the hierarchies, drawn by chance, for one server after the other."""

    def __init__(self, seed):
        self.chance = random.Random(seed)
        self.dims = {dim: concepts_of(levels) for dim, levels in LEVELS.items()}
        self.number = 0

    def head(self):
        """The records before the first command."""
        yield "volap,1"
        yield "use,%d,4,1,65536" % SERVERS
        for dim, levels in LEVELS.items():
            yield "dim,%s,%d" % (dim, len(levels))
        for dim, by_level in self.dims.items():
            for level in by_level:
                for name, parent in level:
                    yield "concept,%s,%s,%s" % (dim, name, parent)

    def server(self):
        self.number += 1
        return self.number % SERVERS

    def insert(self):
        names = (self.chance.choice(by_level[-1])[0] for by_level in self.dims.values())
        return "insert,%d,%d,%s" % (self.server(), self.chance.randint(-100, 100), ",".join(names))

    def pick(self, dim):
        level = self.chance.choices(range(4), CHANCES[dim])[0]
        return self.chance.choice(self.dims[dim][level - 1])[0] if level else "*"

    def query(self):
        return "query,%d,%s" % (self.server(), ",".join(map(self.pick, self.dims)))


def inserts(count):
    """So many rows by all servers at once."""
    shops = Shops(1)
    return [*shops.head(), *(shops.insert() for _ in range(count))]


def both(count):
    """Half as many rows, and behind a settle as many again with three queries for each ten of them."""
    shops = Shops(2)
    lines = [*shops.head(), *(shops.insert() for _ in range(count // 2)), "settle"]
    for number in range(count // 2):
        lines.append(shops.insert())
        if number % 10 < 3:
            lines.append(shops.query())
    return lines


def queries(count):
    """As many rows, and behind a settle so many queries."""
    shops = Shops(3)
    return [*shops.head(), *(shops.insert() for _ in range(count)), "settle", *(shops.query() for _ in range(count))]


def kinds(part):
    """The kinds of work, of which this part is done."""
    load = ["load", "--rows", str(200000 // part), "--seed", "1"]
    words = ["step"], ["run"]
    return [
        Kind("inserts by 4 servers", 1.0, words, inserts(100000 // part), False),
        Kind("queries beside inserts", 0.6, words, both(40000 // part), False),
        Kind("queries alone", 0.4, words, queries(20000 // part)),
        Kind(" ".join(load), 0.8, (load, load + ["--threads"])),
    ]


def timed(command, script):
    """The seconds of a run by the clock, and what it prints."""
    with open(script, "rb") as source:
        began = time.monotonic()
        told = subprocess.run(command, stdin=source, stdout=subprocess.PIPE)
        seconds = time.monotonic() - began
    if told.returncode:
        sys.exit("threads: %s ended with status %d" % (" ".join(command), told.returncode))
    return seconds, told.stdout


def row(program, kind, script):
    """A line of the table."""
    with open(script, "w") as text:
        text.write("".join(line + "\n" for line in kind.script))
    seconds, texts = ([], []), ([], [])
    for _ in range(RUNS):
        for at, words in enumerate(kind.words):
            took, text = timed([program, *words], script)
            seconds[at].append(took)
            texts[at].append(text if kind.is_same else text.count(b"\n"))
    if len({*texts[0], *texts[1]}) > 1:
        sys.exit("threads: %s: the texts are not alike" % kind.head)
    step, run = map(min, seconds)
    mark = " <- more than asked" if run > kind.bound * step else ""
    return "| %s | %.0f | %.0f | %.2f | %.1f |%s" % (kind.head, step * 1000, run * 1000, run / step, kind.bound, mark)


def volap():
    """The path of the program that the launcher would run."""
    told = subprocess.run([os.path.join(ROOT, "volap")], env={**os.environ, "VOLAP_PATH": "1"}, stdout=subprocess.PIPE)
    if told.returncode:
        sys.exit(told.returncode)
    return os.fsdecode(told.stdout).rstrip("\n")


def main():
    words = [word for word in sys.argv[1:] if word != "--quick"]
    if len(words) > 1 or any(word.startswith("-") for word in words):
        sys.exit(__doc__)
    program = os.path.abspath(words[0]) if words else volap()
    print("| ms by the clock | step | run | times | asked |\n|---|---|---|---|---|", flush=True)
    with tempfile.TemporaryDirectory() as folder:
        for kind in kinds(10 if "--quick" in sys.argv else 1):
            print(row(program, kind, os.path.join(folder, "script.csv")), flush=True)


if __name__ == "__main__":
    main()
