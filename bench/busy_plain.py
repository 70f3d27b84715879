#!/usr/bin/env python3
"""Prints a busy step file of 1,000 lines for `plain`: eight takes, 256 votes that are kept, and
then votes that are refused. The updates use all 64 bits."""
import os
import sys

sys.dont_write_bytecode = True
sys.path.insert(0, os.path.join(os.path.dirname(os.path.abspath(__file__)), "..", "tests"))
from plain_log import LINES, STORES, TXS, joined, update_text
from plain_reference import STEPS


def spread(number):
    """An update of 64 bits, another for each number."""
    return number * 0x9E3779B97F4A7C15 % 2**64


def vote(store, tx, number):
    update = update_text(spread(number))
    return STEPS.text("vote", store + 1, store, store, tx, "ff", "commit", update)


def data():
    rows = [STEPS.text("take", s + 1, s) for s in range(STORES)]
    rows += [vote(s, tx, STORES * tx + s) for tx in range(TXS) for s in range(STORES)]
    rows += [vote(0, 0, number) for number in range(len(rows), LINES)]
    return joined(row.encode() for row in rows)


if __name__ == "__main__":
    sys.stdout.buffer.write(data())
