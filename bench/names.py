#!/usr/bin/env python3
"""Writes a script of many concepts, and a query of all their names.

Usage: bench/names.py CONCEPTS            names such as c000001
       bench/names.py CONCEPTS long       names with a long common beginning
       bench/names.py CONCEPTS alike      names whose hashes by std's hasher agree in the lower bits

The seed of std's hasher is fixed, so that such names can be found by trying. Python tries a million and more
a second, and one in 16384 will do."""
import itertools
import sys

MASK = 2**64 - 1
MULTIPLIER = 0x9E3779B97F4A7C15
LETTERS = b"abcdefghijklmnopqrstuvwxyz0123456789ABCDEFGHIJKLMNOPQRSTUVWXYZ"
# So many of the lower bits agree.
BITS = 14


def folded(state, value, size):
    """The hasher's state after a number of so many bytes."""
    product = (state ^ value) * (MULTIPLIER ^ 2 * size)
    return product & MASK ^ product >> 64


def alike(count):
    """Names of six letters or digits whose hashes agree in the lower bits."""
    start = folded(0x243F6A8885A308D3, 6, 8)
    for letters in itertools.product(LETTERS, repeat=5):
        state = start
        for letter in letters:
            state = folded(state, letter * 0x010101, 1)
        for letter in LETTERS:
            found = folded(state, letter * 0x010101, 1)
            if (found ^ found >> 32) % 2**BITS == 0:
                yield bytes((*letters, letter))
                count -= 1
                if count == 0:
                    return


KINDS = {
    "plain": lambda count: [b"c%06d" % k for k in range(1, count + 1)],
    "long": lambda count: [b"Customer number %06d" % k for k in range(1, count + 1)],
    "alike": alike,
}


def main():
    if len(sys.argv) not in (2, 3) or not sys.argv[1].isdigit() or sys.argv[-1] not in {sys.argv[1], *KINDS}:
        sys.exit(__doc__)
    names = list(KINDS[sys.argv[2] if len(sys.argv) == 3 else "plain"](int(sys.argv[1])))
    lines = [b"volap,1", b"use,1,1,1,256", b"dim,d,1"]
    lines += [b"concept,d,%s,*" % name for name in names]
    lines.append(b"query,0," + b"|".join(names))
    sys.stdout.buffer.write(b"\n".join(lines) + b"\n")


main()
