#!/usr/bin/env python3
"""Judges what scripts print with threads by the rules alone: by the lines, without a history.

Usage: tools/tests/fuzz_run.py [SCRIPTS [RUNS [FIRST [PROGRAM]]]] [-- WORDS]

Makes so many scripts (200) by the seeds from FIRST (0) on, of two to three servers and workers, with inserts, queries,
pulls, splits, moves, balances, groups and pages, and runs each so often (20) by the word run, or by WORDS in its
place. A row's measure is a power of two of its own, so that a sum tells which rows it counts. Each answer has all
matching rows that its server put in before, and all that were told by pulls before its phase; it has none that begins
behind it or in a later phase; and each once. So behind a settle it is of all. An audit and a page of all shards are of
all rows before them, and a group is of those that match, each under its concept. It runs the program that ./volap
would, and builds it first where that is due, so `tools/test` leaves it out. Prints each run that isn't as it must be,
and the status is 1 where there is one."""
import os
import random
import subprocess
import sys

sys.dont_write_bytecode = True
ROOT = os.path.dirname(os.path.dirname(os.path.dirname(os.path.abspath(__file__))))
COUNTRIES, TOWNS, DAYS = 2, 10, 4
PLACES = ["*", "*", "*", "c0", "c1", "t0", "t1", "t2|t5", "t1|c0", "t3|t3", "t9|t6|t0", "nowhere"]
DATES = ["*", "*", "*", "d0", "d1|d3", "d2"]
CLOSING = "barrier", "settle", "shards", "audit", "tree", "group"
# So many runs are told of at most.
MOST = 10


class Wrong(Exception):
    """A line that isn't as it must be."""


def made(seed):
    """The settings of a script and its commands, each a list of words."""
    chance = random.Random(seed)
    servers, workers = chance.randint(2, 3), chance.randint(2, 3)
    use = servers, workers, chance.randint(1, 2), chance.choice([64, 64, 256, 1024])
    commands, rows = [], 0
    for _ in range(chance.randint(20, 90)):
        server = str(chance.randrange(servers))
        what = chance.choices(
            ["insert", "query", "sync", "split", "move", "balance", *CLOSING],
            [10, 5, 2, 1.5, 1.5, 1, 0.5, 0.6, 0.3, 0.3, 0.3, 0.8])[0]
        if what == "insert" and rows < 62:
            town = chance.randrange(TOWNS + 1) if chance.random() < 0.3 else chance.randrange(3)
            commands.append([what, server, str(1 << rows), "t%d" % town, "d%d" % chance.randrange(DAYS)])
            rows += 1
        elif what == "query":
            commands.append([what, server, chance.choice(PLACES), chance.choice(DATES)])
        elif what == "sync":
            commands.append([what, server])
        elif what in ("split", "tree"):
            commands.append([what, str(chance.randrange(9))])
        elif what == "move":
            commands.append([what, str(chance.randrange(9)), str(chance.randrange(4))])
        elif what == "balance":
            commands.append([what, str(chance.randint(1, 4))])
        elif what == "group":
            by = chance.choice([("place", "1"), ("place", "2"), ("day", "1")])
            commands.append([what, *by, chance.choice(PLACES), chance.choice(DATES)])
        elif what != "insert":
            commands.append([what])
    commands += [["settle"]] + [["query", str(it), "*", "*"] for it in range(servers)] + [["shards"], ["audit"]]
    commands += [["group", "place", "2", "*", "*"]]
    return use, commands


def text_of(use, commands):
    """The script."""
    lines = ["volap,1", "use,%d,%d,%d,%d" % use, "dim,place,2", "dim,day,1"]
    lines += ["concept,place,c%d,*" % it for it in range(COUNTRIES)]
    lines += ["concept,place,t%d,c%d" % (it, it % COUNTRIES) for it in range(TOWNS)]
    lines += ["concept,day,d%d,*" % it for it in range(DAYS)]
    return "".join(it + "\n" for it in lines + [",".join(it) for it in commands])


def is_known(name):
    """Whether this is a concept of its dimension."""
    return name != "nowhere" and name != "t%d" % TOWNS


def is_picked(name, pick):
    """Whether a row's name is under what a query or a group picks."""
    over = "c%d" % (int(name[1:]) % COUNTRIES)
    return pick == "*" or any(it == name or (name[0] == "t" and it == over) for it in pick.split("|"))


def concept_of(row, group):
    """The concept that a row is under at the level of a group, as a page says it."""
    number = int(row[4 if group[1] == "day" else 3][1:])
    return "%s:%d" % (group[2], number % COUNTRIES if group[1:3] == ["place", "1"] else number)


def phases(commands):
    """The places of the commands, phase by phase."""
    found = [[]]
    for at, command in enumerate(commands):
        found[-1].append(at)
        if command[0] in CLOSING:
            found.append([])
    return found


class Told:
    """What has been told so far. Rows are bits, which their measures are."""

    def __init__(self, use, commands):
        self.servers, self.workers = use[0], use[1]
        self.commands = commands
        self.own = [0] * self.servers
        self.passed = [0] * self.servers
        self.published = 0
        # How many splits were done at least, how many at most, and the greatest shard.
        self.splits, self.more, self.greatest = 0, 0, self.workers - 1

    def inserts(self, rows, filters):
        """The inserts of those of the rows that a filter matches."""
        for other in self.commands:
            if other[0] == "insert" and rows & int(other[2]):
                if is_picked(other[3], filters[0]) and is_picked(other[4], filters[1]):
                    yield other

    def matching(self, rows, command):
        """Those of the rows that a query's filter matches."""
        return sum(int(it[2]) for it in self.inserts(rows, command[2:]))

    def pull(self, server, acked):
        """A server pulls, which has acknowledged these for certain."""
        self.passed[server] |= self.published
        self.published |= acked

    def check(self, is_right, why):
        if not is_right:
            raise Wrong(why)

    def aggregate(self, words):
        """The rows that an aggregate counts."""
        count, total = int(words[0]), int(words[1])
        least = str(total & -total) if total else "-"
        greatest = str(1 << total.bit_length() - 1) if total else "-"
        self.check(total.bit_count() == count and words[2:4] == [least, greatest], "is no aggregate of rows, each once")
        return total

    def insert(self, command, words):
        if not is_known(command[3]):
            self.check(words == ["unknown", "0"], "names a town that isn't known")
            return
        self.check(words == ["ok"], "is an insert of known names")
        self.own[int(command[1])] |= int(command[2])

    def query(self, command, words, known, beside):
        """A query, where its server had been told of some rows before the phase, and others are put in beside it."""
        if not is_known(command[2]):
            self.check(words == ["unknown", "0"], "asks for a town that isn't known")
            return
        own = self.own[int(command[1])]
        rows, may = self.aggregate(words), self.matching(own | beside, command)
        must = self.matching(own | known, command)
        self.check(rows & must == must, "leaves out %x of %x" % (must & ~rows, must))
        self.check(rows & ~may == 0, "counts %x, which may not be" % (rows & ~may))

    def action(self, command, words):
        """A split, a move or a balance."""
        if command[0] == "balance":
            done, planned = map(int, words)
            self.check(done <= planned <= int(command[1]), "does more than it may")
            self.more += done
            self.greatest += 2 * done
        elif command[0] == "split" and words[0] == "ok":
            left, right = map(int, words[1:])
            self.check(right == left + 1 and left > self.workers - 1, "gives ids that aren't the next ones")
            self.splits += 1
        else:
            self.check(words in (["ok"], ["declined", "unknown"], ["declined", "oneplace"]) or words[:2] == ["declined", "nocell"],
                       "can't end so")
            self.check(words != ["ok"] or command[0] == "move", "is a split that tells no shards")

    def shards(self, lines, rows):
        ids = [int(it[2]) for it in lines]
        self.check(ids == sorted(set(ids)), "has shards that aren't in order")
        self.check(sum(int(it[6]) + int(it[8]) for it in lines) == rows.bit_count(), "tells of other rows than there are")
        self.check(self.workers + self.splits <= len(ids) <= self.workers + self.splits + self.more, "has too few or too many shards")

    def group(self, command, lines, rows):
        """A page of groups, whose lines are those of the concepts with rows, in order, and one of all."""
        if not is_known(command[3]):
            self.check([it[2:] for it in lines] == [["unknown", "0"]], "asks for a town that isn't known")
            return
        under = {}
        for it in self.inserts(rows, command[3:]):
            under[concept_of(it, command)] = under.get(concept_of(it, command), 0) | int(it[2])
        concepts = sorted(under, key=lambda it: int(it.split(":")[1]))
        self.check([it[2] for it in lines] == concepts + ["all"], "are other concepts than those of rows, or in another order")
        for it in lines[:-1]:
            self.check(self.aggregate(it[3:]) == under[it[2]], "is of other rows than there are under %s" % it[2])
        self.check(self.aggregate(lines[-1][3:]) == sum(under.values()), "is of other rows in all than there are")

    def close(self, command, lines):
        """The command that closes a phase."""
        rows = 0
        for it in self.own:
            rows |= it
        words = lines[0][2:]
        if command[0] == "settle":
            self.check(words == ["ok"], "can't end so")
            for server in [*range(self.servers)] * 2:
                self.pull(server, self.own[server])
        elif command[0] == "barrier":
            self.check(words == ["ok"], "can't end so")
        elif command[0] == "shards":
            self.shards(lines, rows)
        elif command[0] == "audit":
            self.check(self.aggregate(words) == rows, "is of other rows than there are")
            self.check(words[4] == "shards", "is no audit")
        elif command[0] == "group":
            self.group(command, lines, rows)
        else:
            self.check(words[1:] == ["declined", "unknown"] or words[0:2] == ["declined", "unknown"] or words[1] == "height", "is no page")


def judge(use, commands, text):
    """Stops by Wrong at the first command whose lines aren't as they must be."""
    lines = {}
    for line in text.splitlines():
        words = line.split(" ")
        lines.setdefault(int(words[0]) - 1, []).append(words)
    if [*lines] != [*range(len(commands))]:
        raise Wrong("the lines aren't those of the commands in their order")
    told = Told(use, commands)
    for phase in phases(commands):
        # What was told before the phase, and what comes in it through others.
        known, before = list(told.passed), list(told.own)
        coming = [0] * told.servers
        for at in phase:
            command = commands[at]
            if command[0] == "insert" and is_known(command[3]):
                coming[int(command[1])] |= int(command[2])
        for at in phase:
            command, of = commands[at], lines[at]
            try:
                if command[0] in CLOSING:
                    # A page of shards has lines of another word.
                    told.check(command[0] != "group" or {it[1] for it in of} == {"group"}, "has lines of another command")
                    told.close(command, of)
                    continue
                told.check(len(of) == 1 and of[0][1] == command[0], "has lines of another command")
                words = of[0][2:]
                if command[0] == "insert":
                    told.insert(command, words)
                elif command[0] == "query":
                    server, beside = int(command[1]), 0
                    for other in range(told.servers):
                        if other != server:
                            beside |= before[other] | coming[other]
                    told.query(command, words, known[server], beside)
                elif command[0] == "sync":
                    told.check(words == ["ok"], "can't end so")
                    told.pull(int(command[1]), before[int(command[1])])
                else:
                    told.action(command, words)
            except (Wrong, ValueError, IndexError) as fault:
                raise Wrong("%s: %s" % ("; ".join(" ".join(it) for it in of), fault)) from None


def program():
    """The path of the program that the launcher would run."""
    asked = subprocess.run([os.path.join(ROOT, "volap")], env={**os.environ, "VOLAP_PATH": "1"}, stdout=subprocess.PIPE)
    if asked.returncode:
        sys.exit(asked.returncode)
    return os.fsdecode(asked.stdout).rstrip("\n")


def main():
    words, asked = sys.argv[1:], ["run"]
    if "--" in words:
        at = words.index("--")
        words, asked = words[:at], words[at + 1:]
    if len(words) > 4 or not all(it.isdigit() for it in words[:3]):
        sys.exit(__doc__)
    scripts, runs, first = [int(it) for it in words[:3]] + [200, 20, 0][len(words[:3]):]
    path = words[3] if len(words) > 3 else program()
    wrong = 0
    for seed in range(first, first + scripts):
        use, commands = made(seed)
        for number in range(runs):
            ran = subprocess.run(
                [path, *asked], input=text_of(use, commands).encode(), stdout=subprocess.PIPE, stderr=subprocess.PIPE)
            try:
                if ran.returncode:
                    raise Wrong("status %d" % ran.returncode)
                judge(use, commands, ran.stdout.decode())
            except Wrong as fault:
                wrong += 1
                if wrong <= MOST:
                    print("script %d, run %d: %s" % (seed, number, fault), flush=True)
    print("%d scripts, %d runs each, %d runs are not as they must be" % (scripts, runs, wrong))
    sys.exit(wrong > 0)


main()
