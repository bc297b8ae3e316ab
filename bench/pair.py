#!/usr/bin/env python3
"""Tells how many times as long one program takes as another, with both on one core at the same time.

Usage: pair.py FIRST SECOND SCRIPT [TURNS]

FIRST and SECOND are commands that read the script on standard input, each as one word of the shell. In a turn
both are started on the same core, and whichever ends is started again, until each has ended beside the other.
So what slows the machine slows both alike, and the figures differ far less than those of runs one after the
other. Prints the processor time of a run of FIRST by that of a run of SECOND, of TURNS turns (5 if not said),
the least first, and the times of the turn in the middle."""
import os
import shlex
import signal
import subprocess
import sys


def started(command, script):
    """A run of the command, without its output."""
    with open(script) as source:
        return subprocess.Popen(command, stdin=source, stdout=subprocess.DEVNULL)


def turn(commands, script):
    """The mean processor seconds of the runs of each command that ended beside the other."""
    times = [[] for _ in commands]
    running = {run.pid: (run, which) for which, run in enumerate(started(it, script) for it in commands)}
    while not all(times):
        pid, status, usage = os.wait4(-1, 0)
        run, which = running.pop(pid)
        run.returncode = os.waitstatus_to_exitcode(status)
        if run.returncode != 0:
            sys.exit("%s: status %d" % (commands[which][0], run.returncode))
        times[which].append(usage.ru_utime + usage.ru_stime)
        again = started(commands[which], script)
        running[again.pid] = again, which
    for run, _ in running.values():
        run.send_signal(signal.SIGKILL)
        run.wait()
    return [sum(it) / len(it) for it in times]


def main():
    if len(sys.argv) not in (4, 5):
        sys.exit(__doc__)
    commands, script = [shlex.split(it) for it in sys.argv[1:3]], sys.argv[3]
    turns = int(sys.argv[4]) if len(sys.argv) == 5 else 5
    # What is started from here stays on the same core.
    os.sched_setaffinity(0, {max(os.sched_getaffinity(0))})
    found = []
    for _ in range(turns):
        first, second = turn(commands, script)
        found.append((first / second, first, second))
    found.sort()
    middle = found[len(found) // 2]
    print("%s (%.0f ms and %.0f ms)" % (" ".join("%.2f" % it[0] for it in found), middle[1] * 1000, middle[2] * 1000))


main()
