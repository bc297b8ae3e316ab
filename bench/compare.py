#!/usr/bin/env python3
"""Times volap beside a flat list, its twin and databases, on scripts of script.py, and compares their answers.

Usage: compare.py [RUNS] [--without-sql] [NAME=PROGRAM ...]

Builds what it needs by rustc and ./volap, whose lines tell how far that is, then runs each script RUNS times
(3 if not said) with each program in turn, or once where that takes long. Prints the table of
docs/performance.md: the least processor time in milliseconds and the greatest resident memory in megabytes,
then whether all answers are the same to the byte. DuckDB has a column where Python finds its package. A further
PROGRAM reads a script on standard input and prints the answers, as the others do. A program that ends with
another status than 0 ends the whole."""
import ctypes
import importlib.util
import os
import subprocess
import sys
import tempfile

HERE = os.path.dirname(os.path.abspath(__file__))
ROOT = os.path.dirname(HERE)
# A program that takes so many seconds is run once.
SLOW = 5
SCRIPTS = ["20000 4000 3", "60000 2400 4", "200000 4 1", "200000 4000 4", "200000 4000 5 shuffled"]
# Linux hands this process the children of a child that has ended.
SUBREAPER = 36
# Starts a program from a small process, whose memory is less than that of any program, and tells its number.
STARTER = '"$@" < "$SCRIPT" > "$OUTPUT" & echo $!'


def measured(command, script, output):
    """Processor seconds, resident kilobytes and output of one run."""
    told = subprocess.run(
        ["sh", "-c", STARTER, "sh", *command], env={**os.environ, "SCRIPT": script, "OUTPUT": output},
        stdout=subprocess.PIPE, check=True)
    _, status, usage = os.wait4(int(told.stdout), 0)
    if status != 0:
        sys.exit("compare: %s ended with status %d" % (" ".join(command), os.waitstatus_to_exitcode(status)))
    with open(output, "rb") as it:
        return usage.ru_utime + usage.ru_stime, usage.ru_maxrss, it.read()


def built(name, folder):
    """A program of this folder in plain Rust."""
    path = os.path.join(folder, name)
    subprocess.run(["rustc", "-O", "-o", path, os.path.join(HERE, name + ".rs")], check=True)
    return [path]


def programs_in(folder):
    """The command of each program, by its name in the table."""
    told = subprocess.run([os.path.join(ROOT, "volap")], env={**os.environ, "VOLAP_PATH": "1"}, stdout=subprocess.PIPE)
    if told.returncode:
        sys.exit(told.returncode)
    path = os.fsdecode(told.stdout).rstrip("\n")
    name = "volap, not proved" if os.path.basename(os.path.dirname(path)) == "unproved" else "volap"
    found = {name: [path, "step"], "flat list": built("flat", folder), "twin": built("twin", folder)}
    sql = [sys.executable, os.path.join(HERE, "sql.py")]
    if "--without-sql" not in sys.argv:
        found.update({"SQLite": sql + ["sqlite"], "SQLite, indexed": sql + ["indexed"]})
        if importlib.util.find_spec("duckdb"):
            found["DuckDB"] = sql + ["duckdb"]
    return found


def row(words, programs, runs, folder):
    """A line of the table: what each program took for the script of these words."""
    script, output = os.path.join(folder, "script.csv"), os.path.join(folder, "output.txt")
    with open(script, "w") as text:
        subprocess.run([sys.executable, os.path.join(HERE, "script.py"), *words.split()], stdout=text, check=True)
    all_runs = {name: [] for name in programs}
    for _ in range(runs):
        for name, command in programs.items():
            if not all_runs[name] or all_runs[name][0][0] < SLOW:
                all_runs[name].append(measured(command, script, output))
    found = list(all_runs.values())
    cells = ["%.0f, %.0f" % (min(it[0] for it in of) * 1000, max(it[1] for it in of) / 1024) for of in found]
    answers = {run[2] for of in found for run in of}
    return "| %s | %s | %s |" % (words, " | ".join(cells), "same" if len(answers) == 1 else "DIFFER")


def main():
    runs, more = 3, {}
    for word in sys.argv[1:]:
        name, equals, program = word.partition("=")
        if equals:
            more[name] = [os.path.abspath(program)]
        elif word.isdigit() and int(word):
            runs = int(word)
        elif word != "--without-sql":
            sys.exit(__doc__)
    ctypes.CDLL(None).prctl(SUBREAPER, 1)
    with tempfile.TemporaryDirectory() as folder:
        programs = {**programs_in(folder), **more}
        print("| rows, queries, seed | %s | answers |" % " | ".join(programs))
        print("|---|%s---|" % ("---|" * len(programs)), flush=True)
        for words in SCRIPTS:
            print(row(words, programs, runs, folder), flush=True)


if __name__ == "__main__":
    main()
