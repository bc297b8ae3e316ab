#!/usr/bin/env python3
"""Compares what scripts of many splits and moves tell in a small stock of cells with what they tell in a large one.

Usage: tools/tests/fuzz_reuse.py [SCRIPTS [FIRST [PROGRAM [OTHER]]]]

Makes so many scripts (200) by the seeds from FIRST (0) on, of a few hundred to some thousand splits, moves, balances,
inserts, queries and groups. Each runs with few cells, and with as many as there may be, in order and by two seeds. As old
cells are used again, the texts are the same, unless a split or a move is declined for want of cells, or a row goes to
a queue for it; a script in whose first text `nocell` stands is counted apart, up to there. With OTHER the large stock
is that program's, in order alone. It runs the program that ./volap would, and builds it first where that is due, so
`tools/test` leaves it out. Prints each script on which the texts differ, and the status is 1 where some do."""
import os
import random
import subprocess
import sys

sys.dont_write_bytecode = True
ROOT = os.path.dirname(os.path.dirname(os.path.dirname(os.path.abspath(__file__))))
MOST = 65536


def made(seed):
    """A script without its settings, and how many servers, workers and cells it has."""
    chance = random.Random(seed)
    servers, workers, towns = chance.randint(1, 3), chance.randint(1, 3), chance.randint(2, 12)
    rows, commands = chance.randint(1, 60), chance.choice([200, 200, 600, 2000])
    lines = ["dim,geo,2"] + ["concept,geo,c%d,*" % it for it in range(3)]
    lines += ["concept,geo,t%d,c%d" % (it, it % 3) for it in range(towns)]

    def insert():
        lines.append("insert,%d,%d,t%d" % (chance.randrange(servers), chance.randint(-9, 9), chance.randrange(towns)))

    for _ in range(rows):
        insert()
    shards = workers
    for _ in range(commands):
        what = chance.choices(
            ["split", "move", "balance", "insert", "query", "group", "settle", "barrier"], [2, 12, 2, 1, 4, 0.5, 0.3, 0.3])[0]
        if what == "split":
            lines.append("split,%d" % chance.randrange(shards))
            shards += 2 * (chance.random() < 0.2)
        elif what == "move":
            lines.append("move,%d,%d" % (chance.randrange(shards), chance.randrange(workers)))
        elif what == "balance":
            lines.append("balance,%d" % chance.randint(1, 4))
        elif what == "insert":
            insert()
        elif what == "query":
            lines.append("query,%d,%s" % (chance.randrange(servers), chance.choice(["*", "c0", "t0", "t1|c2"])))
        elif what == "group":
            lines.append("group,geo,%d,%s" % (chance.randint(1, 2), chance.choice(["*", "c0", "t0", "t1|c2"])))
        else:
            lines.append(what)
    lines += ["settle", "shards", "audit"] + ["query,%d,*" % it for it in range(servers)]
    return lines, servers, workers, chance.choice([64, 128, 256, 1024])


def told(program, lines, servers, workers, cells, words):
    """What the program prints."""
    script = "\n".join(["volap,1", "use,%d,%d,2,%d" % (servers, workers, cells)] + lines) + "\n"
    done = subprocess.run([program, "step", *words], input=script.encode(), stdout=subprocess.PIPE, stderr=subprocess.DEVNULL)
    if done.returncode:
        sys.exit("status %d of:\n%s" % (done.returncode, script))
    return done.stdout.decode().splitlines()


def first_without(lines):
    """The place of the first line that tells that cells were wanting, or how many lines there are."""
    return next((at for at, it in enumerate(lines) if " nocell " in it), len(lines))


def main():
    count = int(sys.argv[1]) if len(sys.argv) > 1 else 200
    first = int(sys.argv[2]) if len(sys.argv) > 2 else 0
    if len(sys.argv) > 3:
        program = sys.argv[3]
    else:
        asked = subprocess.run([os.path.join(ROOT, "volap")], env={**os.environ, "VOLAP_PATH": "1"}, stdout=subprocess.PIPE)
        program = os.fsdecode(asked.stdout).rstrip("\n")
    other = sys.argv[4] if len(sys.argv) > 4 else program
    runs = wanting = differ = 0
    for seed in range(first, first + count):
        lines, servers, workers, cells = made(seed)
        for words in [[], ["--seed", str(seed)], ["--seed", str(seed + 1000)]][:3 if other == program else 1]:
            small = told(program, lines, servers, workers, cells, words)
            large = told(other, lines, servers, workers, MOST, words)
            upto = first_without(small)
            wanting += upto < len(small)
            runs += 1
            if small[:upto] != large[:upto] or len(small) != len(large):
                differ += 1
                at = next((it for it in range(upto) if small[it:it + 1] != large[it:it + 1]), upto)
                print("script %d, %s cells, %s: line %d: %s, %s" % (seed, cells, " ".join(words) or "in order", at + 1, small[at:at + 1], large[at:at + 1]))
    print("%d runs, %d of them with too few cells at last, %d differ" % (runs, wanting, differ))
    sys.exit(differ > 0)


main()
