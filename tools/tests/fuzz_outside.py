#!/usr/bin/env python3
"""Runs the program under little memory, and over streams that are closed, full, slow or go away, and sends it signals.

Usage: tools/tests/fuzz_outside.py [PROGRAM]

Of a run that is Done the whole text must have come; of one that isn't, the lines of whole phases, or, where a write
failed or the program was killed while a phase was being written, a first part of the text. Nothing comes twice. It
runs the program that ./volap would, and builds it first where that is due, so `tools/test` leaves it out. Prints what
came of each try, a line for each; the status is 1 where one isn't as it must be."""
import os
import random
import resource
import signal
import subprocess
import sys
import tempfile
import threading
import time

ROOT = os.path.dirname(os.path.dirname(os.path.dirname(os.path.abspath(__file__))))
WORDS = "step", "step --seed 7", "run"
# A run has so many seconds. One that waits for what does not come never ends.
PATIENCE = 10
PHASES, ROWS = 8, 2000
TOWNS = "berlin", "munich", "paris"
HEAD = "volap,1\nuse,2,2,2,4096\ndim,geo,2\nconcept,geo,de,*\nconcept,geo,berlin,de\nconcept,geo,munich,de\nconcept,geo,paris,de\n"


def script():
    """A script of some phases, and its text phase by phase. All words print the same."""
    lines, phases, number, rows = [HEAD], [], 0, 0
    for phase in range(PHASES):
        told = []
        for at in range(ROWS):
            lines.append("insert,0,1,%s\n" % TOWNS[at % 3])
            number += 1
            told.append("%d insert ok\n" % number)
        rows += ROWS
        lines.append("query,0,*\naudit\n")
        told += ["%d query %d %d 1 1\n" % (number + 1, rows, rows), "%d audit %d %d 1 1 shards 2\n" % (number + 2, rows, rows)]
        number += 2
        phases.append("".join(told).encode())
    return "".join(lines).encode(), phases


SCRIPT, TEXTS = script()
WHOLE = b"".join(TEXTS)
ENDS = [b"".join(TEXTS[:at]) for at in range(PHASES + 1)]


class Tally:
    wrong = 0

    @classmethod
    def tell(cls, what, is_right, how):
        cls.wrong += not is_right
        print("%-7s%s: %s" % ("" if is_right else "WRONG ", what, how))
        sys.stdout.flush()


def phases_of(text):
    """How many whole phases these lines are; None where they are none."""
    return ENDS.index(text) if text in ENDS else None


def limited(megabytes):
    def limit():
        resource.setrlimit(resource.RLIMIT_AS, (megabytes << 20, megabytes << 20))
    return limit


def run(program, words, given=SCRIPT, **how):
    """Status, output and standard error; the status is None where it did not end."""
    try:
        told = subprocess.run([program, *words.split()], input=given, stdout=subprocess.PIPE, stderr=subprocess.PIPE,
                              timeout=PATIENCE, **how)
    except subprocess.TimeoutExpired:
        return None, b"", b""
    return told.returncode, told.stdout, told.stderr


def has_wants(text):
    return any(it.endswith((b" nomem", b" postponed")) for it in text.splitlines())


def little_memory(program):
    """Address space from 4 to 400 MB. A run is Done, or ends as NoMemory behind whole phases; lines may say nomem."""
    for words in WORDS:
        found = {}
        for megabytes in [*range(4, 16), *range(16, 64, 4), *range(64, 401, 24)]:
            status, text, said = run(program, words, preexec_fn=limited(megabytes))
            if status is None:
                how, is_right = "does not end", False
            elif status in (127, -signal.SIGSEGV) and not text:
                how, is_right = "is not started by the system", True
            elif status == 0:
                how, is_right = ("Done, with lines nomem", True) if has_wants(text) else ("Done", text == WHOLE)
            else:
                whole = phases_of(text)
                how, is_right = "status %d behind %s phases" % (status, whole), status == 5 and (whole is not None or has_wants(text))
            found.setdefault((how, is_right), []).append(megabytes)
        for (how, is_right), sizes in found.items():
            Tally.tell("%s with %s MB" % (words, ", ".join(map(str, sizes))), is_right, how)


def odd_streams(program):
    """Streams that are closed, full or of the wrong kind."""
    for words in WORDS:
        for what, line, status in (
                ("a closed input", "%s <&-", 1), ("a folder as input", "%s < /", 1), ("an input that is empty", "%s < /dev/null", 3),
                ("a closed output", "%s >&-", 4), ("a full output", "%s > /dev/full", 4), ("an output to be read", "%s 1< /dev/null", 4),
                ("a closed standard error", "%s 2>&- | cat", 0), ("a full standard error", "%s 2> /dev/full | cat", 0)):
            told = subprocess.run(
                ["bash", "-c", "set -o pipefail; " + line % ('"$0" ' + words), program], input=SCRIPT, timeout=PATIENCE, capture_output=True)
            wanted = WHOLE if status == 0 else b"bad 1 version\n" if status == 3 else b""
            Tally.tell("%s over %s" % (words, what), (told.returncode, told.stdout) == (status, wanted), "status %d" % told.returncode)


def slow_streams(program):
    """Input in small pieces with pauses, and a reader that reads a little at a time, stopped and continued meanwhile."""
    for words in WORDS:
        child = subprocess.Popen([program, *words.split()], stdin=subprocess.PIPE, stdout=subprocess.PIPE)

        def feed():
            for at in range(0, len(SCRIPT), 4093):
                child.stdin.write(SCRIPT[at:at + 4093])
                child.stdin.flush()
                time.sleep(0.002)
            child.stdin.close()

        feeder = threading.Thread(target=feed)
        feeder.start()
        text = b""
        while True:
            piece = os.read(child.stdout.fileno(), 1021)
            if not piece:
                break
            text += piece
            if len(text) // 1021 % 40 == 0:
                child.send_signal(signal.SIGSTOP)
                time.sleep(0.005)
                child.send_signal(signal.SIGCONT)
        feeder.join()
        Tally.tell("%s over slow streams, stopped at times" % words, (child.wait(), text) == (0, WHOLE), "status %d" % child.wait())


def readers_that_go(program):
    """The reader takes so many bytes and goes."""
    for words in WORDS:
        for most in (0, 1, 70000):
            child = subprocess.Popen([program, *words.split()], stdin=subprocess.PIPE, stdout=subprocess.PIPE, stderr=subprocess.PIPE)
            text = b""
            child.stdin.write(SCRIPT)
            child.stdin.close()
            while len(text) < most:
                text += os.read(child.stdout.fileno(), most - len(text))
            child.stdout.close()
            said = child.stderr.read()
            status = child.wait(PATIENCE)
            Tally.tell("%s with a reader that goes after %d bytes" % (words, most),
                       (status, said) == (4, b"volap: WriteFault\n") and WHOLE.startswith(text), "status %d" % status)


def signals(program):
    """Signals at moments by chance, with a file as output: what stands there is whole phases."""
    chance = random.Random(1)
    for words in WORDS:
        for name in ("TERM", "INT", "HUP", "KILL"):
            found = {}
            for _ in range(12):
                with tempfile.TemporaryFile() as out:
                    child = subprocess.Popen([program, *words.split()], stdin=subprocess.PIPE, stdout=out, stderr=subprocess.PIPE)
                    child.stdin.write(SCRIPT)
                    child.stdin.close()
                    time.sleep(chance.random() * 0.4)
                    child.send_signal(getattr(signal, "SIG" + name))
                    status = child.wait(PATIENCE)
                    child.stderr.close()
                    out.seek(0)
                    whole = phases_of(out.read())
                is_right = whole is not None and (status == -getattr(signal, "SIG" + name) or status == 0 and whole == PHASES)
                found.setdefault((status, is_right), []).append(str(whole))
            for (status, is_right), counts in found.items():
                Tally.tell("%s sent %s" % (words, name), is_right, "status %d behind %s phases" % (status, ", ".join(counts)))


def main():
    if sys.argv[1:]:
        program = os.path.abspath(sys.argv[1])
    else:
        told = subprocess.run([os.path.join(ROOT, "volap")], env={**os.environ, "VOLAP_PATH": "1"}, stdout=subprocess.PIPE, check=True)
        program = os.fsdecode(told.stdout).rstrip("\n")
    for part in (odd_streams, slow_streams, readers_that_go, signals, little_memory):
        part(program)
    print("%d wrong" % Tally.wrong)
    sys.exit(Tally.wrong > 0)


main()
