#!/usr/bin/env python3
"""Writes the cases of crates/finish_cases: `make_finish_cases.py crates/finish_cases`.

Files of data/ that end in .steps stand there already (shared vectors); all others are made here,
with args (the names) and stdout (each name, then what finish_reference.py prints). The files of
finish_by_hand.py have their list reasoned by hand: where the reference differs from it, nothing is
written."""
import itertools

import case_files
import finish_reference as reference
import world_reference
from finish_by_hand import BY_HAND
from plain_log import BYTES, LINES, joined, lines_of
from world_by_hand import parts
from world_random import Draw, followed_script, guided_script, last_ballot, mixed_file
from world_random import random_script, returned_script, stalled_script
from world_reference import COORDINATORS
from world_script import Script

NEEDED = {3: 10, 5: 16}  # message numbers of a list, by acceptors
STEPS = {3: 10, 5: 14}  # its lines
CRASH = b"do=crash role=coord id=0"


def queued(acceptors=3, coordinators=(0,)):
    """Each of these coordinators has an entry."""
    script = Script(acceptors)
    script.queue(*(script.take(c + 1, c, c) for c in coordinators))
    return script


def majority(script):
    return range(script.world.acceptor_count() // 2 + 1)


def names(numbers):
    """As a part of a file's name."""
    return "".join(map(str, numbers)) or "none"


def subsets(n):
    sizes = (itertools.combinations(range(n), size) for size in range(n + 1))
    return itertools.chain.from_iterable(sizes)


# Bytes and lines


def byte_cases():
    good = queued().data()
    yield "empty", b""
    yield "one-lf", b"\n"
    yield "setup-alone", b"do=setup acceptors=3"
    yield "no-final-lf", good[:-1]
    yield "lf-behind", good + b"\n"
    yield "cr-lf", good.replace(b"\n", b"\r\n")
    yield "cr-at-the-end", good[:-1] + b"\r\n"
    yield "nul-at-the-end", good[:-1] + b"\0"
    odd = [bytes([b]) for b in range(256) if b != 10]
    yield "each-byte", good + joined(odd)
    yield "each-byte-before-a-crash", good + joined(byte + CRASH for byte in odd)
    yield "each-byte-behind-a-crash", good + joined(CRASH + byte for byte in odd)
    yield "each-byte-before-the-setup", joined(byte + good[:-1] for byte in odd)


def long_line_cases():
    """A crash with zeros behind its number does not read; with blanks neither."""
    good = queued().data()
    for length in (BYTES - 1, BYTES, BYTES + 1):
        yield "line-of-%d" % length, good + CRASH.ljust(length, b"0") + b"\n"
    yield "long-line-before", b"x" * 5000 + b"\n" + good
    yield "long-line-between", good.replace(b"\n", b"\n" + b"0" * 70000 + b"\n", 1)
    yield "long-line-behind", good + CRASH + b" " * 140000


def line_cases():
    """Files that have room for the list behind them, and files that have none."""
    for acceptors, steps in STEPS.items():
        rows = queued(acceptors).rows
        for count in (LINES - steps, LINES - steps + 1, LINES, LINES + 1, LINES + 2):
            yield "lines-%d-of-%d" % (count, acceptors), joined(rows + [b"x"] * (count - len(rows)))
    rows = queued().rows
    rest = rows[:-1] + [b""] * (LINES - len(rows))
    yield "delivered-on-line-1000-no-lf", joined(rest + rows[-1:])[:-1]
    yield "delivered-on-line-1001-no-lf", joined(rest + [b""] + rows[-1:])[:-1]
    yield "crash-on-line-1000", joined(rows + [b""] * (LINES - 1 - len(rows)) + [CRASH])
    yield "crash-on-line-1001", joined(rows + [b""] * (LINES - len(rows)) + [CRASH])
    yield "setup-on-line-1000", joined([b""] * (LINES - 1) + rows)


def setup_cases():
    rows = queued().rows
    yield "no-setup", joined(rows[1:])
    yield "setup-behind", joined(rows[1:] + rows[:1])
    yield "two-setups", joined(rows[:1] + [b"do=setup acceptors=5"] + rows[1:])
    yield "setup-of-four", joined([b"do=setup acceptors=4"] + rows[1:])
    yield "crashes-before-setup", joined([CRASH, b"do=crash role=acceptor id=0"] + rows)


# Who is up, and who has an entry


def up_cases():
    for acceptors in STEPS:
        for down in subsets(acceptors):
            script = queued(acceptors)
            for a in down:
                script.crash("acceptor", a)
            yield "acceptors-%d-down-%s" % (acceptors, names(down)), script.data()
    for down in subsets(COORDINATORS):
        script = queued(coordinators=range(COORDINATORS))
        for c in down:
            script.crash("coord", c)
        yield "coordinators-down-" + names(down), script.data()
        script = queued(coordinators=[c for c in range(COORDINATORS) if c not in down])
        yield "coordinators-without-entry-" + names(down), script.data()
    script = queued()
    script.crash("proc", 1)  # the entry stays queued
    yield "process-down", script.data()


def queue_cases():
    script = Script()
    script.queue(*(script.take(s + 1, s) for s in range(8)))
    yield "queue-of-eight", script.data()
    script.learn(0, 3)
    yield "queue-of-eight-once-learned", script.data()
    script.learn(0, 3)
    yield "queue-of-eight-twice-learned", script.data()
    script = queued(coordinators=(0, 1))
    script.queue(script.take(2, 1))  # coordinator 1's entry too
    script.learn(1, 1)
    yield "one-of-two-entries-decided", script.data()
    script.learn(0, 3)
    yield "adopted-and-another-left", script.data()
    script = Script()
    script.hold((1, 0))
    yield "held", script.data()
    script.queue(script.commit(1, 0, 4, "01"))
    yield "vote-queued", script.data()
    script.back(1, 7)
    script.queue(script.take(1, 0))
    yield "turn-queued", script.data()


# Ballots


def opened_cases():
    """The coordinator opened this ballot, and no prepare arrived."""
    for c in range(COORDINATORS):
        first, last = c or COORDINATORS, last_ballot(c)
        for ballot in (first, first + 3, 126 + c, last - 6, last - 3, last):
            script = queued(coordinators=[c])
            script.open(c, 0, ballot)
            yield "opened-%d" % ballot, script.data()


def no_ballot_cases():
    """All have an entry. Some opened their last ballot; or the last one of a coordinator was
    promised."""
    for out in subsets(COORDINATORS):
        script = queued(coordinators=range(COORDINATORS))
        for c in out:
            script.open(c, 0, last_ballot(c))
        yield "no-ballot-left-" + names(out), script.data()
    for promised in range(COORDINATORS):
        script = queued(coordinators=range(COORDINATORS))
        script.deliver(script.open(promised, 0, last_ballot(promised))[2])
        script.crash("coord", 0)
        yield "promised-the-last-of-%d" % promised, script.data()


def promised_cases():
    """An acceptor promised a ballot, up or down; each coordinator in turn has an entry."""
    for ballot in (1, 2, 3, 4, 127, 128, 251, 252, 253, 254, 255):
        for c in range(COORDINATORS):
            script = queued(coordinators=[c])
            a = ballot % 3
            script.deliver(script.open(ballot % COORDINATORS, 0, ballot)[a])
            if c == 1:
                script.crash("acceptor", a)
            yield "promised-%d-entry-at-%d" % (ballot, c), script.data()


def highest_promise_cases():
    """The acceptors promised different ballots; the highest is that of one up, or of one down."""
    for acceptors in STEPS:
        for highest in range(acceptors):
            for down in (False, True):
                script = queued(acceptors)
                for k, ballot in enumerate((19, 23, 31, 35, 43)[:acceptors], 1):
                    a = (highest + k) % acceptors
                    script.deliver(script.open(ballot % COORDINATORS, 0, ballot)[a])
                if down:
                    script.crash("acceptor", highest)
                word = "down" if down else "up"
                yield "highest-of-%d-at-%d-%s" % (acceptors, highest, word), script.data()


def stages():
    """One ballot in all its stages. Name, and what is delivered in each."""
    yield "prepared-by-one", 1, 0, 0, 0
    yield "promised-by-one", 1, 1, 0, 0
    yield "promised-by-all", 9, 1, 0, 0
    yield "majority-of-promises", 9, 9, 0, 0
    yield "accepted-by-one", 9, 9, 1, 0
    yield "accepted-by-all", 9, 9, 9, 0
    yield "one-acceptance", 9, 9, 9, 1


def staged(script, c, ballot, prepares, promises, accepts, acceptances):
    """So many of each are delivered, of those that there are."""
    instance = script.world.coordinators[c].applied
    promised = script.deliver(*script.open(c, instance, ballot)[:prepares])
    script.deliver(*promised[:promises])
    accepted = script.deliver(*script.propose(c, instance, ballot)[:accepts])
    script.deliver(*accepted[:acceptances])


def stage_cases():
    """Coordinator 1 went so far with ballot 4. It goes on itself, or it is down, and coordinator 2
    has an entry, or has none."""
    for name, *delivered in stages():
        for acceptors in STEPS:
            for ends in ("goes-on", "crashes", "leaves-nothing"):
                script = queued(acceptors, (1,) if ends == "leaves-nothing" else (1, 2))
                staged(script, 1, 4, *delivered)
                if ends != "goes-on":
                    script.crash("coord", 1)
                yield "%s-of-%d-%s" % (name, acceptors, ends), script.data()


def adopted_cases():
    """Two acceptors accepted different batches; the higher ballot's is adopted."""
    for down in ((), (0,), (2,)):
        script = queued(coordinators=range(COORDINATORS))
        script.promises(1, 1, (0, 1))
        script.deliver(script.propose(1, 0, 1)[0])
        script.promises(2, 2, (1, 2))
        script.deliver(script.propose(2, 0, 2)[2])
        for a in down:
            script.crash("acceptor", a)
        yield "two-batches-down-" + names(down), script.data()


# Message numbers


def number_cases():
    for acceptors, needed in NEEDED.items():
        for left in (0, 1, needed - 1, needed, needed + 1):
            script = queued(acceptors)
            script.leave(left)
            yield "left-%d-of-%d" % (left, acceptors), script.data()
        for left in (needed - 1, needed):
            script = queued(acceptors, (1,))
            script.learn(1, 253, majority(script))
            script.queue(script.take(3, 2, 1))
            script.leave(left)
            yield "left-%d-of-%d-instance-1" % (left, acceptors), script.data()


# Instances, and lists one after the other


def instance_cases():
    """The last instances that the message numbers allow, and one more."""
    for acceptors, most in ((3, 11), (5, 6)):
        script = queued(acceptors)
        for _ in range(most):
            script.learn(0, 3, majority(script))
            script.deliver(0)
        yield "instance-%d-of-%d" % (most, acceptors), script.data()
        script.learn(0, 3, majority(script))
        script.deliver(0)
        yield "instance-%d-of-%d" % (most + 1, acceptors), script.data()


def behind_cases():
    """Coordinator 2 learned some instances. Others have an entry, and learn what was decided."""
    for applied in (1, 2, 3):
        script = queued(coordinators=(2, 1))
        for _ in range(applied):
            script.learn(2, 2)
            script.deliver(0)
        yield "behind-by-%d" % applied, script.data()
        script.learn(1, 4)
        yield "behind-by-%d-less-one" % applied, script.data()


def again(name, data):
    """The list put behind the file, and the list of that behind it, until there is none."""
    for count in itertools.count(1):
        printed = reference.run(data)
        if not printed:
            return
        data += printed
        yield "%s-again-%d" % (name, count), data


def again_cases():
    script = Script()
    script.queue(*(script.take(s + 1, s, 0) for s in range(5)))
    script.queue(script.take(1, 0, 1), script.take(7, 7, 1))
    script.crash("acceptor", 1)
    yield from again("two-queues", script.data())
    script = queued(5, (0, 2))
    staged(script, 0, 3, 9, 9, 1, 0)
    script.crash("coord", 0)
    yield from again("adopted", script.data())


# Drawn files

KINDS = {
    "guided": guided_script,
    "random": random_script,
    "followed": followed_script,
    "returned": returned_script,
}


def cut(rows, draw):
    """The first of the rows, a tenth of them or more."""
    return rows[: len(rows) // 10 + draw.below(len(rows))]


def drawn_cases():
    for seed in range(70):
        yield "stalled-%d" % seed, stalled_script(seed).data()
    for kind, script in KINDS.items():
        for seed in range(15):
            yield "%s-%d" % (kind, seed), joined(cut(script(seed).rows, Draw(seed)))
    for seed in range(20):
        yield "mixed-%d" % seed, joined(cut(lines_of(mixed_file(seed)), Draw(seed)))[:-1]


GROUPS = (
    byte_cases, long_line_cases, line_cases, setup_cases, up_cases, queue_cases, opened_cases,
    no_ballot_cases, promised_cases, highest_promise_cases, stage_cases, adopted_cases,
    number_cases, instance_cases, behind_cases, again_cases, drawn_cases,
)


def answered(steps):
    """The answers to the lines, as `world` prints them."""
    rows = lines_of(world_reference.run(steps))
    return joined(row for row in rows if row.startswith(b"step="))


def cases():
    for name, text in BY_HAND.items():
        steps, expected = parts(text)
        assert answered(steps) + reference.run(steps) == expected, name
        yield name, steps
    for group in GROUPS:
        yield from group()


def files(where):
    return case_files.step_files(where, dict(cases()), reference.run)


if __name__ == "__main__":
    case_files.main(files)
