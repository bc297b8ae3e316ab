#!/usr/bin/env python3
"""Compares tools/why with the program on bad scripts made by chance: the first bad record and its cause.

Usage: tools/tests/fuzz_why.py [SCRIPTS [FIRST]]

Makes scripts from those of examples/ by the seeds from FIRST (0) on, until so many (2000) are bad: records,
fields and bytes are dropped, doubled, swapped and changed, and some texts get other line ends, quotes or a byte
order mark. A script that stays good is to be good for both. It runs the program that ./volap would, and builds it
first where that is due, so `tools/test` leaves it out. Prints each script on which they differ, and then
how often each cause came; the status is 1 where they differ."""
import collections
import glob
import importlib.machinery
import importlib.util
import os
import random
import subprocess
import sys

sys.dont_write_bytecode = True
ROOT = os.path.dirname(os.path.dirname(os.path.dirname(os.path.abspath(__file__))))
# Scripts up to so many bytes are changed.
SHORT = 2500
# The program has so many seconds for a script.
PATIENCE = 60
# What may stand in place of a field.
FIELDS = [
    b"", b" ", b"*", b"|", b"a|b", b"a|", b"*|a", b"-1", b"-0", b"--1", b"+1", b"0", b"1", b"2", b"8", b"9", b"16", b"17",
    b"00000000000000000001", b"000000000000000000001", b"63", b"64", b"65536", b"65537", b"4294967295", b"4294967296",
    b"9223372036854775807", b"9223372036854775808", b"-9223372036854775808", b"-9223372036854775809", b"255", b"256",
    b"1.5", b"1e3", b"0x10", b" 1", b"1 ", b"x" * 64, b"x" * 65, b"\xc3\xa4" * 33, b"\xff", b"\0", b"volap", b"use", b"dim",
    b"concept", b"insert", b"query", b"group", b"Insert", b"#", b"geo", b"berlin", b"de", b'"', b'"a""b"', b'"a,b"', b'"a"b', b'a"b']
BYTES = [bytes([it]) for it in b'",|*-\r\n \t\0;#019azA'] + [b"\xff", b"\xef\xbb\xbf", b'""', b"\r\n", b"\n\n"]


def loaded(path):
    """A tool as a module."""
    loader = importlib.machinery.SourceFileLoader("why", path)
    module = importlib.util.module_from_spec(importlib.util.spec_from_loader("why", loader))
    loader.exec_module(module)
    return module


def change_records(chance, lines):
    """Drops, doubles, moves or swaps a record."""
    at, other = chance.randrange(len(lines)), chance.randrange(len(lines))
    how = chance.randrange(4)
    if how == 0:
        del lines[at]
    elif how == 1:
        lines.insert(other, lines[at])
    elif how == 2:
        lines.insert(other, lines.pop(at))
    else:
        lines[at], lines[other] = lines[other], lines[at]


def change_field(chance, lines):
    """Puts another field in place of one, drops it, or adds one."""
    at = chance.randrange(len(lines))
    fields = lines[at].split(b",")
    place, how = chance.randrange(len(fields)), chance.randrange(6)
    if how == 0:
        del fields[place]
    elif how == 1:
        fields.insert(place, chance.choice(FIELDS))
    elif how == 2:
        fields[place] = b'"%s"' % fields[place]
    else:
        fields[place] = chance.choice(FIELDS)
    lines[at] = b",".join(fields)


def change_hierarchy(chance, lines):
    """Adds dimensions, or a concept under one that stands somewhere, at a place behind such a record."""
    parts = [(at, line.split(b",")) for at, line in enumerate(lines) if line.startswith((b"dim,", b"concept,"))]
    concepts = [it for _, it in parts if len(it) == 4]
    if not concepts:
        return
    at, of = chance.choice(parts)[0], chance.choice(concepts)
    if chance.randrange(3) == 0:
        lines[at + 1:at + 1] = [b"dim,d%d,1" % it for it in range(chance.choice((1, 5, 6, 7, 8)))]
    else:
        name = chance.choice((b"new", chance.choice(concepts)[2]))
        lines.insert(at + 1, b",".join([b"concept", of[1], name, chance.choice(concepts)[2]]))


def change_bytes(chance, text):
    """Drops, adds or changes a byte."""
    at = chance.randrange(len(text) + 1)
    return text[:at] + chance.choice(BYTES + [b""]) + text[at + chance.randrange(2):]


def script_by(seed, texts):
    """A script made by chance."""
    chance = random.Random(seed)
    lines = chance.choice(texts).split(b"\n")
    for _ in range(chance.choice((0, 0, 1, 2))):
        change_hierarchy(chance, lines)
    for _ in range(chance.choice((0, 0, 1, 1, 2))):
        change_records(chance, lines)
    for _ in range(chance.choice((0, 1, 1, 2, 3))):
        change_field(chance, lines)
    text = chance.choice((b"\n",) * 6 + (b"\r\n", b"\r", b"\n\r\n")).join(lines)
    for _ in range(chance.choice((0, 0, 0, 1, 2))):
        text = change_bytes(chance, text)
    if chance.randrange(20) == 0:
        text = b"\xef\xbb\xbf" + text
    if chance.randrange(100) == 0:
        text = text.decode("latin-1").encode("utf-16")
    return text


def by_program(program, text):
    """The number and the cause that the program answers, or nothing for a good script."""
    ran = subprocess.run([program, "step"], input=text, stdout=subprocess.PIPE, stderr=subprocess.DEVNULL, timeout=PATIENCE)
    if ran.returncode not in (0, 3):
        sys.exit("fuzz_why: the program ended with status %d" % ran.returncode)
    told = ran.stdout.decode().split()
    return (int(told[1]), told[2]) if ran.returncode == 3 else None


def by_why(why, text):
    """The same by tools/why, which tells of all bad records, and each with something to show."""
    found = [(number, faults[0][0].cause) for number, faults in why.bad_records(text)]
    return found[0] if found else None


def main():
    wanted, seed = [int(it) for it in (sys.argv[1:] + ["2000", "0"][len(sys.argv) - 1:])]
    told = subprocess.run([os.path.join(ROOT, "volap")], env={**os.environ, "VOLAP_PATH": "1"}, stdout=subprocess.PIPE)
    program, why = told.stdout.decode().strip(), loaded(os.path.join(ROOT, "tools", "why"))
    if told.returncode:
        sys.exit("fuzz_why: there is no program to run")
    files = sorted(glob.glob(os.path.join(ROOT, "examples", "*.csv")))
    texts = [it for it in (open(file, "rb").read() for file in files) if len(it) <= SHORT]
    causes, good, differ = collections.Counter(), 0, 0
    while sum(causes.values()) < wanted:
        text = script_by(seed, texts)
        one, other = by_program(program, text), by_why(why, text)
        if one != other:
            differ += 1
            print("seed %d: the program says %s, and tools/why %s" % (seed, one, other))
        good += one is None
        causes.update([one[1]] if one else [])
        seed += 1
    print("%d bad scripts and %d good ones up to seed %d: %d differ" % (sum(causes.values()), good, seed - 1, differ))
    print(", ".join("%s %d" % it for it in causes.most_common()))
    sys.exit(differ > 0)


main()
