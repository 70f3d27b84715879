#!/usr/bin/env python3
"""Prints a busy step file of 1,000 lines for `finish`: that of `world` up to its tells, and one
more entry, so that numbers are left for a list; then every message that no acceptor answers is
delivered again, in turn."""
import os
import sys

sys.dont_write_bytecode = True
sys.path.insert(0, os.path.join(os.path.dirname(os.path.abspath(__file__)), "..", "tests"))
from busy_world import again, decided


def data():
    script = decided()
    script.queue(script.take(9, 0))
    sent = script.world.messages
    again(script, [n for n, message in enumerate(sent) if message.role != "acceptor"])
    return script.data()


if __name__ == "__main__":
    sys.stdout.buffer.write(data())
