"""Runs both programs beside the second implementation on random lists and compares every byte.

  python3 reference/compare.py [LISTS] [SEED]

Run the programs once first, as the README does, so that they are built. Exit status 1 where an account differs.
"""
import os
import random
import subprocess
import sys

import pages
import stores

CRATES = os.path.join(os.path.dirname(os.path.abspath(__file__)), "..", "crates")


def random_number(rng, top):
    pick = rng.random()
    if pick < 0.5:
        return rng.randrange(64)
    if pick < 0.9:
        return rng.randrange(top)
    return rng.choice([top - 1, top, top + 1, 10 ** 15 - 1])


def random_row(rng):
    row = b"%d,%d,%d" % (random_number(rng, 1 << 36), random_number(rng, 1 << 34), rng.randrange(10))
    if rng.random() < 0.1:
        at = rng.randrange(len(row) + 1)
        row = row[:at] + rng.choice([b"", b",", b" ", b"\r", b"-", b"x", bytes([rng.randrange(256)])]) + row[at + rng.randrange(2):]
    if rng.random() < 0.03:
        row = b"0" * rng.randrange(16) + row
    return row


def random_list(rng):
    """Mostly short; some of as many clusters as just fill a store, or one more or fewer."""
    text = b"".join(random_row(rng) + b"\n" * rng.choice([1, 1, 1, 1, 2]) for _ in range(rng.randrange(60)))
    if rng.random() < 0.2:
        text += b"".join(b"%d,5,1\n" % (8 * k + 1024) for k in range(rng.choice([4, 31, 32, 33, 127, 128, 129, 255, 256, 257, 300])))
    return text[:-1] if text and rng.random() < 0.3 else text


def differs(program, text, expected):
    got = subprocess.run([os.path.join(CRATES, program, "out", program)], input=text, stdout=subprocess.PIPE, check=True).stdout
    return got != expected.encode()


def main():
    count = int(sys.argv[1]) if len(sys.argv) > 1 else 500
    rng = random.Random(int(sys.argv[2]) if len(sys.argv) > 2 else 1)
    rows = 0
    for k in range(count):
        text = random_list(rng)
        rows += len(pages.lines_of(text))
        if differs("lay_pages", text, pages.account(text)) or differs("store_pages", text, stores.account(text)):
            print("list %d differs: %r" % (k, text))
            return 1
    print("%d lists with %d lines: every account of both programs is the same" % (count, rows))
    return 0


sys.exit(main())
