#!/usr/bin/env python3
"""Prints a busy step file of 1,000 lines for `world`: eight stores taken, sixteen votes, two
coordinators, until all 128 numbers are used; then every message that is still answered 0 is
delivered again, in turn. The updates use all 64 bits."""
import itertools
import os
import sys

sys.dont_write_bytecode = True
sys.path.insert(0, os.path.join(os.path.dirname(os.path.abspath(__file__)), "..", "tests"))
from busy_plain import spread
from plain_log import LINES
from world_script import Script


def decided():
    """Six instances, of which a second coordinator learned two."""
    script = Script()
    script.queue(*(script.take(s + 1, s) for s in range(8)))
    script.learn(0, 3)
    script.learn(0, 3)
    for p in range(1, 9):
        script.deliver(*script.restore(0, p))
    for instance in range(4):  # two transactions of two stores each
        pairs = [(2 * instance + k, s) for k in (0, 1) for s in (2 * instance, 2 * instance + 1)]
        stores = "%02x" % (3 << 2 * instance)
        votes = (script.commit(s + 1, s, tx, stores, spread(16 * tx + s)) for tx, s in pairs)
        script.queue(*votes)
        script.learn(0, 3)
    script.learn(1, 4, (1, 2))
    script.learn(1, 4, (0, 2))
    return script


def busy():
    script = decided()
    for p in range(1, 9):
        script.deliver(*script.tell(0, p, p - 1), *script.restore(0, p))
    assert script.world.left() == 0
    return script


def again(script, numbers):
    """The messages of these numbers in turn, those that are answered 0, up to line 1,000."""
    for number in itertools.cycle(numbers):
        if len(script.rows) == LINES:
            return
        script.deliver(number)
        if script.answer:
            script.rows.pop()


def data():
    script = busy()
    again(script, range(128))
    return script.data()


if __name__ == "__main__":
    sys.stdout.buffer.write(data())
