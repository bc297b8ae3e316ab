#!/usr/bin/env python3
"""Tells how the program's time and memory grow with what it is given, for sizes of which each is twice the last.

Usage: growth.py [PROGRAM] [--quick] [--count] [--only WORD]

PROGRAM is what `VOLAP_PATH=1 ./volap` prints where none is named. For each kind of work it prints a line for
each size: the least processor time of three runs (user and system) in milliseconds, how many times that of the
size before, and the greatest resident memory in megabytes, also with a factor. A line whose time or memory is
more than 2.3 times that of half the work is marked, where it is long enough to tell. Of some kinds the time of
what comes before the work is taken off, and the head of the kind says so. --quick takes smaller sizes, --only
the kinds whose head has the words. --count counts instructions by valgrind, in millions, of one run in place of
the time of three, and no memory: these hardly differ from run to run, and take some fifty times as long. A run
has at most a minute of processor time, twenty with --count; where it ends otherwise than well, or takes longer,
the kind ends there. The whole takes some minutes, and half an hour more to find names of like hashes; it ends by
itself."""
import ctypes
import os
import re
import subprocess
import sys
import tempfile

from compare import ROOT, STARTER, SUBREAPER

HERE = os.path.dirname(os.path.abspath(__file__))
# A run that takes so many seconds is made once.
SLOW = 3
# A run has so many seconds of processor time, and so many where its instructions are counted.
MOST, MOST_COUNTED = 60, 1200
# More than this for twice the work is marked.
MARKED = 2.3
# What takes less, in milliseconds or millions of instructions, and in megabytes, tells nothing of growth.
LITTLE = 20, 16
RUNS = 3
# So many rows stand in the scripts for numbers of servers, workers and threads.
FIXED = 20000


def doubled(first, times):
    """So many sizes, each twice the one before."""
    return [first << k for k in range(times)]


# Scripts.

def opened(servers=1, workers=1, threads=1, cells=65536):
    """The first records."""
    return ["volap,1", "use,%d,%d,%d,%d" % (servers, workers, threads, cells)]


def tree_of(levels, wide, dim="place"):
    """The records of a dimension in which each concept has so many beneath it, and the names of its leaves."""
    lines, above = ["dim,%s,%d" % (dim, levels)], [("*", "")]
    for _ in range(levels):
        made = []
        for name, stem in above:
            for k in range(wide):
                lines.append("concept,%s,%s%d,%s" % (dim, stem, k, name))
                made.append((stem + str(k), stem + str(k)))
        above = made
    return lines, [name for name, _ in above]


def rows(count, servers=1, workers=1, threads=1, more=()):
    """So many rows over two dimensions, spread over the leaves, and a query behind each hundredth."""
    days, leaves = tree_of(4, 6, "day")
    shops, places = tree_of(2, 10, "shop")
    lines = opened(servers, workers, threads) + days + shops
    for k in range(count):
        day, shop = leaves[k * len(leaves) // count], places[k * 37 % 100]
        lines.append("insert,%d,%d,%s,%s" % (k % servers, k % 199, day, shop))
        if k % 100 == 99:
            lines.append("query,%d,%s,*" % (k % servers, leaves[k * 7 % len(leaves)][:2]))
    return lines + list(more)


def shards(count, queries=0, given=4096):
    """So many shards, by splits of the first one, and queries over all of them."""
    places, leaves = tree_of(6, 4)
    lines = opened() + places
    lines += ["insert,0,%d,%s" % (k % 7, leaves[k * 1365 % 4096]) for k in range(given)]
    # The shards of a split have the next two numbers, so the lowest number is always a shard that stands.
    lines += ["settle"] + ["split,%d" % k for k in range(count - 1)] + ["settle"]
    return lines + ["query,0,*"] * queries


def settles(count):
    """So many settles of 16 servers over 16 shards."""
    places, leaves = tree_of(2, 4)
    lines = opened(16, 16) + places
    lines += ["insert,%d,1,%s" % (k % 16, leaves[k % 16]) for k in range(64)]
    return lines + ["settle"] * count


def phases(count):
    """So many phases of a row, a query and a barrier."""
    places, leaves = tree_of(2, 4)
    lines = opened(2, 2) + places
    for k in range(count):
        lines += ["insert,%d,1,%s" % (k % 2, leaves[k % 16]), "query,%d,*" % (k % 2), "barrier"]
    return lines


def page(count, shown=True):
    """The page of a tree of so many rows."""
    places, leaves = tree_of(6, 4)
    lines = opened() + places
    lines += ["insert,0,%d,%s" % (k % 7, leaves[k * 4096 // count]) for k in range(count)]
    return lines + ["tree,0"] * shown


def names(count, kind):
    """So many concepts, and a query of all their names; bench/names.py tells the kinds."""
    told = subprocess.run(
        [sys.executable, os.path.join(HERE, "names.py"), str(count), kind], stdout=subprocess.PIPE, check=True)
    return told.stdout.decode().split("\n")[:-1]


def one_by_one(count):
    """So many concepts and a row, and so many queries, each of one name."""
    lines = opened() + ["dim,d,1"] + ["concept,d,c%06d,*" % k for k in range(count)]
    lines += ["insert,0,1,c%06d" % k for k in range(0, count, max(count // 50, 1))]
    return lines + ["query,0,c%06d" % (k * 7919 % count) for k in range(count)]


def sides(servers, workers, threads):
    """A function that makes a script of a fixed number of rows for a number of servers, workers or threads."""
    def made(count):
        return rows(FIXED, count if servers else 2, count if workers else 2, count if threads else 1)
    return made


# The kinds.

class Kind:
    """A kind of work: its head, its sizes, fewer of them for --quick, what makes a script of a size, the words of
    the program, and what makes the script whose time is taken off."""

    def __init__(self, head, sizes, quick, script, words=("step",), off=None):
        self.head, self.sizes, self.quick, self.script, self.words, self.off = head, sizes, quick, script, words, off


SEED = "step", "--seed", "3"
KINDS = [
    Kind("rows", doubled(12500, 7), doubled(3125, 3), rows),
    Kind("500 queries over shards, less the splits", doubled(50, 6), doubled(50, 2),
         lambda n: shards(n, 500), off=shards),
    Kind("500 queries over shards by a seed, less the splits", doubled(50, 6), doubled(50, 2),
         lambda n: shards(n, 500), SEED, shards),
    Kind("splits to so many shards, less the rows", doubled(125, 4), doubled(125, 2),
         shards, off=lambda n: shards(1)),
    Kind("servers, %d rows by a seed" % FIXED, doubled(1, 5), [1, 2], sides(True, False, False), SEED),
    Kind("workers, %d rows by a seed" % FIXED, doubled(1, 5), [1, 2], sides(False, True, False), SEED),
    Kind("threads a worker, %d rows by a seed" % FIXED, doubled(1, 4), [1, 2], sides(False, False, True), SEED),
    Kind("settles of 16 servers over 16 shards", doubled(1000, 5), doubled(500, 2), settles),
    Kind("phases", doubled(3125, 6), doubled(3125, 2), phases),
    Kind("phases by a seed", doubled(3125, 6), doubled(3125, 2), phases, SEED),
    Kind("rows of a tree page, less the rows", doubled(125000, 4), doubled(5000, 2), page,
         off=lambda n: page(n, False)),
    Kind("load, rows", doubled(25000, 4), doubled(2500, 2), None, ("load", "--seed", "1", "--rows")),
    Kind("plain names and a query of them", doubled(12500, 4), doubled(1000, 2), lambda n: names(n, "plain")),
    Kind("names of like hashes and a query of them", doubled(12500, 4), doubled(500, 2), lambda n: names(n, "alike")),
    Kind("concepts and as many queries of one name each", doubled(6250, 4), doubled(1000, 2), one_by_one),
]


# Runs.

def ended(command, script, output, most):
    """What a run used, which had so many seconds; nothing where it didn't end well."""
    limited = ["sh", "-c", 'ulimit -t %d; exec "$@"' % most, "sh", *command]
    told = subprocess.run(
        ["sh", "-c", STARTER, "sh", *limited], env={**os.environ, "SCRIPT": script, "OUTPUT": output},
        stdout=subprocess.PIPE, check=True)
    _, status, usage = os.wait4(int(told.stdout), 0)
    return None if status else usage


def timed(command, script, folder):
    """The least milliseconds and the most megabytes of three runs; nothing where one didn't end well."""
    found = []
    while len(found) < RUNS and not (found and found[0].ru_utime + found[0].ru_stime > SLOW):
        usage = ended(command, script, os.path.join(folder, "output.txt"), MOST)
        if usage is None:
            return None
        found.append(usage)
    return min(it.ru_utime + it.ru_stime for it in found) * 1000, max(it.ru_maxrss for it in found) / 1024


def counted(command, script, folder):
    """The millions of instructions of one run, and no memory; nothing where it didn't end well."""
    log = os.path.join(folder, "valgrind.txt")
    valgrind = ["valgrind", "--tool=callgrind", "--callgrind-out-file=/dev/null", "--log-file=" + log]
    if ended(valgrind + command, script, os.path.join(folder, "output.txt"), MOST_COUNTED) is None:
        return None
    with open(log) as text:
        return int(re.search(r"Collected : (\d+)", text.read()).group(1)) / 1e6, 0


def cost(program, kind, size, measure, folder):
    """What a size of a kind takes."""
    script = os.path.join(folder, "script.csv")

    def of(lines, *words):
        with open(script, "w") as text:
            text.write("".join(line + "\n" for line in lines))
        return measure([program, *words], script, folder)

    if kind.script is None:
        return of([], *kind.words, str(size))
    whole = of(kind.script(size), *kind.words)
    if whole is None or kind.off is None:
        return whole
    before = of(kind.off(size), *kind.words)
    return before and (max(whole[0] - before[0], 0), whole[1])


def factor(now, before, little):
    """How many times as much, as text, and whether that is marked."""
    if not before:
        return "", False
    return "%.2f" % (now / before), before >= little and now / before > MARKED


def line(size, found, before, unit):
    """A line of the table."""
    (work, work_marked), (memory, memory_marked) = (
        factor(found[k], before and before[k], LITTLE[k]) for k in range(2))
    told = "%9d %10.0f %-2s %6s" % (size, found[0], unit, work)
    if found[1]:
        told += " %8.0f MB %6s" % (found[1], memory)
    return told.rstrip() + " <- more than %.1f times" % MARKED * (work_marked or memory_marked)


def table(program, kinds, quick, count, say):
    """Says the lines of each kind, and tells how many are marked."""
    measure, unit = (counted, "M") if count else (timed, "ms")
    marked = 0
    with tempfile.TemporaryDirectory() as folder:
        for kind in kinds:
            say(kind.head)
            before = None
            for size in kind.quick if quick else kind.sizes:
                found = cost(program, kind, size, measure, folder)
                if found is None:
                    say("%9d did not end well, or took too long" % size)
                    break
                told = line(size, found, before, unit)
                marked += "<-" in told
                say(told)
                before = found
    return marked


def built():
    """The program that ./volap runs."""
    told = subprocess.run([os.path.join(ROOT, "volap")], env={**os.environ, "VOLAP_PATH": "1"}, stdout=subprocess.PIPE)
    if told.returncode:
        sys.exit(told.returncode)
    return os.fsdecode(told.stdout).rstrip("\n")


def main():
    words, flags, only, program = sys.argv[1:], set(), "", None
    while words:
        word = words.pop(0)
        if word in ("--quick", "--count"):
            flags.add(word)
        elif word == "--only" and words:
            only = words.pop(0)
        elif program is None and not word.startswith("-"):
            program = os.path.abspath(word)
        else:
            sys.exit(__doc__)
    kinds = [kind for kind in KINDS if only in kind.head]
    if not kinds:
        sys.exit("growth: no kind has the words %s" % only)
    program = program or built()
    ctypes.CDLL(None).prctl(SUBREAPER, 1)
    unproved = os.path.basename(os.path.dirname(program)) == "unproved"
    print(program + ", not proved" * unproved, flush=True)
    marked = table(program, kinds, "--quick" in flags, "--count" in flags, lambda text: print(text, flush=True))
    print("%d marked" % marked)


if __name__ == "__main__":
    main()
