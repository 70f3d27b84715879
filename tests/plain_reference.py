#!/usr/bin/env python3
"""The program `plain`, written from documents 01 and 02 alone, to derive expected outputs.

    plain_reference.py < STEPS          prints what `plain` prints
    plain_reference.py check DIR        compares each DIR/NAME.steps with DIR/NAME.out
"""
from plain_log import Log, Reader, Take, Vote, printed, reference_main

STEPS = Reader({"take": "proc turn? store", "vote": "proc turn? by store tx list say upd"})
ENTRIES = {"take": Take, "vote": Vote}


def answer(log, line):
    step = STEPS.read(line)
    if step is None:
        return 1
    name, values = step
    return log.enter(ENTRIES[name](*values.values()))


def run(data):
    return printed(Log(), answer, data)


if __name__ == "__main__":
    reference_main(run)
