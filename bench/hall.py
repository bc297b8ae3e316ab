#!/usr/bin/env python3
"""Times the inserts of sessions on threads of their own beside `volap step` on a script of the same inserts.

Usage: hall.py PROGRAM [ROWS] [--count] [--volap PROGRAM]

PROGRAM is that of the crate hall_bench, which `rt run` there builds. ROWS, 20000 if not said, stand in a script of
script.py. Prints for `volap step`, and for 1, 2 and 4 sessions with a server each, the least processor time of five
runs in milliseconds, how many times that of `volap step` it is, and the least time by the clock; with --count in place
of these the millions of instructions of one run, counted by valgrind, which lets one thread run at a time. --volap
names a program in place of that of `VOLAP_PATH=1 ./volap`. A program that ends with another status than 0 ends the
whole, and so do sessions of which not every insert is acknowledged."""
import ctypes
import os
import re
import subprocess
import sys
import tempfile
import time

from compare import HERE, ROOT, SUBREAPER, measured

RUNS = 5
SESSIONS = 1, 2, 4


def volap():
    """The path of the program that the launcher would run."""
    told = subprocess.run([os.path.join(ROOT, "volap")], env={**os.environ, "VOLAP_PATH": "1"}, stdout=subprocess.PIPE)
    if told.returncode:
        sys.exit(told.returncode)
    return os.fsdecode(told.stdout).rstrip("\n")


def counted(command, script):
    """The millions of instructions of one run, and what it prints."""
    tool = ["valgrind", "--tool=callgrind", "--callgrind-out-file=/dev/null"]
    with open(script) as text:
        told = subprocess.run(tool + command, stdin=text, stdout=subprocess.PIPE, stderr=subprocess.PIPE)
    if told.returncode:
        sys.exit("hall: %s ended with status %d" % (" ".join(command), told.returncode))
    return int(re.search(rb"Collected : (\d+)", told.stderr)[1]) / 1e6, told.stdout


def timed(command, script, output):
    """The least processor time of the runs and the least by the clock, in milliseconds, and what the last prints."""
    seconds, clock = [], []
    for _ in range(RUNS):
        began = time.monotonic()
        used, _, said = measured(command, script, output)
        clock.append(time.monotonic() - began)
        seconds.append(used)
    return min(seconds) * 1000, min(clock) * 1000, said


def main():
    words = [word for word in sys.argv[1:] if word != "--count"]
    base = None
    if "--volap" in words:
        at = words.index("--volap")
        base = os.path.abspath(words[at + 1]) if at + 1 < len(words) else sys.exit(__doc__)
        del words[at:at + 2]
    if not 1 <= len(words) <= 2 or not all(word.isdigit() for word in words[1:]):
        sys.exit(__doc__)
    program, rows = os.path.abspath(words[0]), words[1] if len(words) == 2 else "20000"
    ctypes.CDLL(None).prctl(SUBREAPER, 1)
    with tempfile.TemporaryDirectory() as folder:
        script, output = os.path.join(folder, "script.csv"), os.path.join(folder, "output.txt")
        with open(script, "w") as text:
            subprocess.run([sys.executable, os.path.join(HERE, "script.py"), rows, "0", "3"], stdout=text, check=True)
        commands = {"volap step": [base or volap(), "step"]}
        commands.update({"%d session%s" % (count, "s" if count > 1 else ""): [program, str(count)] for count in SESSIONS})
        first, is_count = None, "--count" in sys.argv
        heads = ["inserts: " + rows] + (["million instructions", "times"] if is_count else ["ms", "times", "ms by the clock"])
        print("| %s |\n|%s" % (" | ".join(heads), "---|" * len(heads)), flush=True)
        for name, command in commands.items():
            found, *clock, said = counted(command, script) if is_count else timed(command, script, output)
            if first and said != b"%s\n" % rows.encode():
                sys.exit("hall: %s tells of other than %s inserts" % (" ".join(command), rows))
            first = first or found
            cells = [name, "%.0f" % found, "%.2f" % (found / first), *("%.0f" % it for it in clock)]
            print("| %s |" % " | ".join(cells), flush=True)


if __name__ == "__main__":
    main()
