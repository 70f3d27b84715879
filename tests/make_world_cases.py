#!/usr/bin/env python3
"""Writes the cases of crates/world_cases: `make_world_cases.py crates/world_cases`.

Files of data/ that end in .steps stand there already (shared vectors); all others are made here,
with args (the names) and stdout (each name, then what world_reference.py prints). The files of
world_by_hand.py have their output reasoned by hand: where the reference differs from it, nothing is
written."""
import case_files
import turn_texts
import update_texts
import world_reference as reference
from plain_log import FORMS, SHORT_DIGITS, TXS, joined as lines, update_text
from world_by_hand import BY_HAND, parts
from world_random import followed_script, guided_script, random_script, returned_script
from world_script import Script, step

GOOD = {
    "setup": (3,), "take": (1, 0, 0), "vote": (1, 0, 0, 4, "01", "commit", update_text(10), 0), "open": (1, 0, 25), "propose": (1, 0, 25),
    "deliver": (12,), "tell": (1, 12, 31), "restore": (1, 12), "follow": (1, 12, 31), "crash": ("acceptor", 1),
}
SHORT_VOTE = step("vote", 1, 0, 0, 4, "01", "commit", update_text(10, SHORT_DIGITS), 0)
BACK = (12, 25)
TURNS = (None, 0, 1, 2, 3, 254, 255, 256)  # None is a line without the field


# Bytes and lines

def byte_cases():
    take = step("take", 1, 0, 0).encode()
    yield "empty", b""
    yield "one-lf", b"\n"
    yield "two-lfs", b"\n\n"
    yield "no-final-lf", b"do=setup acceptors=3\n" + take
    yield "cr-lf", b"do=setup acceptors=3\r\ndo=setup acceptors=5\n" + take + b"\r\n\r\n" + take
    yield "nul", b"do=setup acceptors=3\0\ndo=setup acceptors=3\n\0\n" + take + b"\0" + take + b"\ndo=take\0proc=1 store=0 to=0\n" + take + b"\0\n\0"
    yield "first-line-of-a-megabyte", b"do=setup acceptors=" + b"3" * 1000000 + b"\ndo=setup acceptors=3\n" + take + b"\n"
    for n in (99, 100, 101, 102):
        long = b"do=deliver msg=" + b"1" * (n - 15)
        yield "bytes-%d" % n, long + b"\n" + long + b"0\nd" + long[1:-1] + b"\n" + long
    yield "after-each-byte", lines([b"do=setup acceptors=3"] + [take + bytes([b]) for b in range(256) if b != 10])
    yield "before-each-byte", lines([b"do=setup acceptors=3"] + [bytes([b]) + take for b in range(256) if b != 10])
    yield "each-byte-as-number", lines([b"do=setup acceptors=3"] + [b"do=take proc=" + bytes([b]) + b" store=0 to=0" for b in range(256) if b != 10])
    yield "each-byte-as-list", lines([b"do=setup acceptors=3"] + [
        b"do=vote proc=1 by=0 store=0 tx=0 list=" + digits + b" say=commit upd=00000001 to=0"
        for b in range(256) if b != 10 for digits in (b"0" + bytes([b]), bytes([b]) + b"0")])


def line_cases():
    short = [b"do=setup acceptors=3"] + [b"x"] * 998
    last = [b"do=take proc=1 store=0 to=0"]
    for n in (999, 1000, 1001, 1002):
        rows = short[:n - 1] + [b"x"] * (n - 1 - len(short)) + last
        yield "lines-%d" % n, lines(rows)
        yield "lines-%d-no-lf" % n, lines(rows)[:-1]
    thousand = lines(short + last)
    yield "lines-1000-and-lf", thousand + b"\n"
    yield "lines-1000-and-long", thousand + b"x" * 300
    steps, _ = parts(BY_HAND["learned-on-line-1001"])
    yield "learned-on-line-1000", steps.replace(b"do=?\n", b"", 1)
    yield "not-read-behind-1001", steps + b"do=deliver msg=10\n" * 3


# Reading: every kind of step with one thing wrong

def wrong_cases(good):
    """By name, the good lines with one thing wrong."""
    every = [(row, i) for row in good for i in range(len(row))]
    yield "one-byte-less", lines((row[:i] + row[i + 1:]).encode() for row, i in every)
    yield "one-byte-twice", lines((row[:i] + row[i] + row[i:]).encode() for row, i in every)
    yield "one-byte-other-case", lines((row[:i] + chr(ord(row[i]) ^ 32) + row[i + 1:]).encode("latin-1") for row, i in every)
    yield "one-byte-high", lines((row[:i] + chr(ord(row[i]) ^ 128) + row[i + 1:]).encode("latin-1") for row, i in every)
    yield "cut-short", lines(row[:i].encode() for row, i in every)
    spaced = [row.split(" ") for row in good]
    yield "fields", lines(" ".join(fields).encode() for f in spaced for i in range(1, len(f)) for fields in (
        f[:i] + f[i + 1:], f[:i] + [f[i]] + f[i:], f[:i] + [f[i] + " "] + f[i + 1:], f[:i] + [f[i].replace("=", "")] + f[i + 1:],
        f[:i] + [f[i].split("=")[0] + "="] + f[i + 1:], f[:i - 1] + [f[i], f[i - 1]] + f[i + 1:], f + [f[i]], f + ["to=0"]))


def reading_cases():
    yield from wrong_cases([step(name, *values) for name, values in GOOD.items()] + [SHORT_VOTE])
    yield "words", lines(text.encode() for text in (
        "", "do", "do=", "do= ", "do=take", "do=take ", "take proc=1 store=0 to=0", "do=taken proc=1 store=0 to=0", "do= take proc=1 store=0 to=0",
        "Do=take proc=1 store=0 to=0", " do=take proc=1 store=0 to=0", "do=take\tproc=1 store=0 to=0", "do=take proc=1 store=0",
        "do=vote proc=1 by=0 store=0 tx=0 list=01 say=commit upd=00000000", "do=vote proc=1 by=0 store=0 tx=0 list=01 say=open upd=00000000 to=0",
        "do=vote proc=1 by=0 store=0 tx=0 list=01 say=commits upd=00000000 to=0", "do=vote proc=1 by=0 store=0 tx=0 list=1 say=commit upd=00000000 to=0",
        "do=vote proc=1 by=0 store=0 tx=0 list=001 say=commit upd=00000000 to=0", "do=vote proc=1 by=0 store=0 tx=0 list=FF say=commit upd=00000000 to=0",
        "do=vote proc=1 by=0 store=0 tx=0 list=01 say=commit upd=000000000 to=0", "do=vote proc=1 by=0 store=0 tx=0 list=01 say=commit upd=0000000A to=0",
        "do=crash role=acceptors id=0", "do=crash role=coordinator id=0", "do=crash role=process id=1", "do=crash role= id=1", "do=crash id=1 role=proc",
        "do=followed coord=0 proc=1 tx=0", "do=follow coord=0 proc=1", "do=back proc=1 turn=2", "do=setup acceptors=three", "do=setup acceptors=3,5", "do=deliver msg=0x1",
        "\ufeffdo=setup acceptors=3", "do=setup acceptors=３", "do=setup acceptors=3"))
    vote = step("vote", 1, 0, 0, 4, "01", "commit", "", 0).encode()
    for name, texts in update_texts.reading():
        yield name, lines([b"do=setup acceptors=3"] + [vote.replace(b"upd=", b"upd=" + text) for text in texts])


def turn_reading_cases():
    """The same of lines with a turn; the field at every place of every kind of step."""
    take, vote = (step(name, *GOOD[name], turn=25) for name in ("take", "vote"))
    for name, data in wrong_cases([step("back", *BACK), take, vote]):
        yield "turns-" + name, data
    for name, values in {**GOOD, "back": BACK}.items():
        script = Script(0 if name == "setup" else 3)
        for text in turn_texts.places(step(name, *values)):
            script.row(text)
        yield "turn-places-of-" + name, script.data()
    script = Script()
    held(script)
    for text in turn_texts.NUMBERS:
        script.step("take", 3, 2, 0, turn=text)
        script.step("vote", *GOOD["vote"], turn=text)
        script.step("back", 4, text)
    yield "numbers-of-turns", script.data()
    script = Script()
    held(script)
    for name, values in (("take", (3, 2, 0)), ("vote", GOOD["vote"])):
        for text in turn_texts.long(step(name, *values, turn="T")):
            script.row(text)
    for text in turn_texts.long(step("back", 4, "T")):
        script.row(text)
    yield "bytes-of-turns", script.data()
    for name, values in (("take", (3, 2, 0)), ("vote", GOOD["vote"])):
        script = Script()
        held(script)
        script.back(3, 200)  # a turn that no line names
        for line in turn_texts.each_byte(step(name, *values, turn="T")):
            script.row(line)
        yield "turn-bytes-of-" + name, script.data()
    script = Script()
    for line in turn_texts.each_byte(step("back", 4, "T")):
        script.row(line)
    yield "turn-bytes-of-back", script.data()


NUMBERS = ["0", "1", "2", "3", "4", "5", "6", "7", "8", "14", "15", "16", "17", "30", "31", "32", "33", "126", "127", "128", "129", "254", "255", "256",
           "257", "258", "259", "271", "383", "511", "512", "65535", "65536", "65537", "65539", "4294967295", "4294967296", "4294967297", "4294967299",
           "18446744073709551615", "18446744073709551616", "18446744073709551617", "18446744073709551619",
           "340282366920938463463374607431768211457", "00", "01", "03", "015", "-1", "+1", "1.", "1e0", "", "a", "0x1"]


def number_cases():
    """Each number of each kind of step, at its limits and beyond."""
    for name, values in GOOD.items():
        script = Script(0 if name == "setup" else 5)
        for place, key in enumerate(reference.STEPS.keys(name)):
            if key not in FORMS:
                for number in NUMBERS:
                    if name == "crash":
                        for role in ("acceptor", "coord", "proc"):
                            script.step(name, role, number)
                    else:
                        script.step(name, *values[:place], number, *values[place + 1:])
        yield "numbers-of-" + name, script.data()
    script = Script()
    for name, values in GOOD.items():
        for place, key in enumerate(reference.STEPS.keys(name)):
            if key not in FORMS:
                for first in "1", "9", "0":
                    room = 100 - len(step(name, *values[:place], "", *values[place + 1:]))
                    for length in min(room, 90) - 1, min(room, 90), room, room + 1:
                        script.step(name, *values[:place], first + "0" * (length - 1), *values[place + 1:])
    yield "ninety-digits", script.data()
    script = Script()
    for low in ("do=take proc=99 store=x to=0", "do=take proc=x store=99 to=0", "do=open coord=9 inst=99 ballot=", "do=tell coord=9 proc=99 tx=01",
                "do=vote proc=99 by=0 store=0 tx=0 list=01 say=commit upd=x to=0", "do=vote proc=1 by=0 store=0 tx=99 list=0g say=commit upd=00000000 to=0",
                "do=crash role=x id=99", "do=crash role=acceptor id=3", "do=crash role=acceptor id=4", "do=crash role=acceptor id=5", "do=setup acceptors=4"):
        script.row(low)
    yield "unreadable-before-outside", script.data()


# Every refusal of every kind of step

def sweep(script):
    """Steps of every kind, with values of every sort; crashes come last."""
    for n in range(0, 128, 5):
        script.deliver(n)
    script.deliver(127, len(script.world.messages), min(127, len(script.world.messages) + 1))
    for p, s, to in ((1, 0, 0), (1, 1, 1), (2, 0, 2), (15, 7, 0), (15, 7, 2)):
        script.take(p, s, to)
    for p in (1, 2, 15):
        for by, s, stores in ((0, 0, "01"), (0, 0, "02"), (0, 1, "03"), (1, 1, "02"), (1, 0, "01"), (7, 7, "ff")):
            for say, update in (("commit", 5), ("abort", 0), ("abort", 2**32)):
                script.step("vote", p, by, s, 9, stores, say, update_text(update), p % 3)
    for name in ("open", "propose"):
        for c in range(3):
            now = script.world.coordinators[c].applied
            for i in sorted({0, now, now + 1, 15}):
                for b in sorted({1, 2, 3, 5, 7, 253, 254, 255} | {script.world.coordinators[c].opened or 9}):
                    script.step(name, c, i, b)
    for c in range(3):
        for p in (1, 2, 15):
            script.restore(c, p)
            for tx in (0, 9, 31):
                script.tell(c, p, tx)
                script.follow(c, p, tx)
    for acceptors in (3, 5):
        script.setup(acceptors)
    for role, top in (("acceptor", 5), ("coord", 3), ("proc", 16)):
        for i in (0, 1, 0, top - 1, top):
            script.crash(role, i)


def busy(acceptors=3):
    """A world with stores 0 and 1 held, one committed, one aborted and one open transaction, and
    messages of every kind."""
    script = Script(acceptors)
    among = range(acceptors // 2 + 1)
    script.queue(script.take(1, 0), script.take(2, 1))
    script.learn(0, 3, among)
    script.deliver(*script.restore(0, 1), *script.restore(0, 2))
    script.queue(script.commit(1, 0, 0, "03", 10), script.commit(2, 1, 0, "03", 11), script.abort(1, 0, 3, 31, "09"), script.commit(2, 1, 9, "03", 12))
    script.learn(0, 6, among)
    script.tell(0, 2, 0)
    script.restore(0, 1)
    script.queue(script.commit(1, 0, 5, "01", 13))
    return script


def sweep_cases():
    script = Script(0)
    sweep(script)
    yield "every-step-before-setup", script.data()
    for acceptors in (3, 5):
        script = Script(acceptors)
        sweep(script)
        yield "every-step-fresh-%d" % acceptors, script.data()
        script = busy(acceptors)
        sweep(script)
        yield "every-step-busy-%d" % acceptors, script.data()
    for left in (0, 1, 2, 4):
        script = busy()
        script.leave(left)
        sweep(script)
        yield "every-step-%d-left" % left, script.data()
    for name, downs in (("coord-0", [("coord", 0)]), ("proc-1", [("proc", 1)]), ("acceptors", [("acceptor", a) for a in range(3)]),
                        ("coord-0-and-none-left", [("coord", 0)])):
        script = busy()
        if name.endswith("left"):
            script.leave(0)
        for down in downs:
            script.crash(*down)
        sweep(script)
        yield "every-step-down-" + name, script.data()


def turn_sweep(script):
    """Steps that have a turn, with turns of all sorts, while processes crash and come back."""
    processes = (0, 1, 2, 15, 16)
    for now in (1, 2, 3, 2, 255):
        for p in processes:
            script.back(p, now)
            for turn in TURNS:
                script.step("take", p, p % 8, p % 3, turn=turn)
                script.step("vote", p, 0, 0, 9, "01", "commit", update_text(5), 0, turn=turn)
                script.step("vote", p, 1, 0, 9, "02", "abort", update_text(0), 1, turn=turn)
        for p in (1, 2, 15):
            script.deliver(*script.restore(0, p), *script.tell(0, p, 0), *script.follow(0, p, 0))
        script.crash("proc", 1)
    for p in processes:
        for turn in TURNS[1:]:
            script.back(p, turn)


def turn_sweep_cases():
    script = Script(0)
    turn_sweep(script)
    yield "every-turn-before-setup", script.data()
    for acceptors in (3, 5):
        script = Script(acceptors)
        turn_sweep(script)
        yield "every-turn-fresh-%d" % acceptors, script.data()
    for left in (0, 1):
        script = busy()
        script.leave(left)
        turn_sweep(script)
        yield "every-turn-%d-left" % left, script.data()
    script = busy()
    turn_sweep(script)
    yield "every-turn-busy", script.data()
    for role, i in (("proc", 1), ("coord", 0), ("coord", 1)):
        script = busy()
        script.crash(role, i)
        turn_sweep(script)
        yield "every-turn-down-%s-%d" % (role, i), script.data()


# The last message numbers, at each kind of step that sends

def held(script):
    script.hold((1, 0), (2, 1))


def last_number_steps():
    """Name, acceptors, numbers needed, what comes before, the step."""
    def opened(s): s.queue(s.take(1, 0)); s.promises(0, 3, range(s.world.acceptor_count() // 2 + 1))
    def decided(s): held(s); s.queue(s.commit(1, 0, 4, "01")); s.learn(0, 6)
    def prepared(s): s.first = s.open(0, 0, 3)
    def proposed(s): opened(s); s.first = s.propose(0, 0, 3)
    yield "take", 3, 1, lambda s: None, lambda s: s.take(1, 0)
    yield "vote", 3, 1, held, lambda s: s.commit(1, 0, 4, "01")
    yield "open-3", 3, 3, lambda s: None, lambda s: s.open(0, 0, 255)
    yield "open-5", 5, 5, lambda s: None, lambda s: s.open(0, 0, 255)
    yield "propose-3", 3, 3, opened, lambda s: s.propose(0, 0, 3)
    yield "propose-5", 5, 5, opened, lambda s: s.propose(0, 0, 3)
    yield "prepare", 3, 1, prepared, lambda s: s.deliver(s.first[1])
    yield "accept", 3, 1, proposed, lambda s: s.deliver(s.first[2])
    yield "tell", 3, 1, decided, lambda s: s.tell(0, 2, 4)
    yield "restore", 3, 1, decided, lambda s: s.restore(0, 1)
    yield "follow", 3, 1, decided, lambda s: s.follow(0, 1, 4)


def last_number_cases():
    for name, acceptors, needed, before, last in last_number_steps():
        for left in (needed - 1, needed):
            script = Script(acceptors)
            before(script)
            script.leave(left)
            sent = last(script)
            last(script)
            script.deliver(*sent, *range(124, 128))
            for c in range(3):
                script.open(c, script.world.coordinators[c].applied, 253 + (c + 2) % 3)
            script.take(1, 5, 1)
            yield "%s-with-%d-left" % (name, left), script.data()
    script = Script()
    script.queue(script.take(1, 0))
    script.promises(0, 3)
    accepts = script.propose(0, 0, 3)
    acceptances = script.deliver(*accepts)
    script.leave(0)
    script.deliver(*accepts, *acceptances)  # an accept again needs a number, an acceptance none
    yield "learned-with-0-left", script.data()


# Traffic

def most_instances():
    for acceptors, most in ((3, 12), (5, 7)):
        among = range(acceptors // 2 + 1)
        script = Script(acceptors)
        request = script.take(1, 0)
        for _ in range(most):
            script.deliver(*request)
            script.learn(0, 3, among)
        script.deliver(*request)
        script.promises(0, 3, among)
        script.propose(0, most, 3)
        script.open(0, most, 6)
        script.open(0, most + 1, 6)
        script.restore(0, 1)
        yield "most-instances-%d" % acceptors, script.data()


def eight_stores_two_down():
    script = Script(5)
    script.crash("acceptor", 3)
    script.crash("acceptor", 4)
    script.queue(*(script.take(s + 1, s, 1) for s in range(8)))
    script.learn(1, 1, (0, 1, 2))
    script.learn(1, 4, (2, 0, 1))
    for p in range(1, 9):
        script.deliver(*script.restore(1, p))
    script.queue(*(script.commit(s + 1, s, 31, "ff", 2**64 - 1 - s, 1) for s in range(8)))
    script.learn(1, 253, (1, 2, 0))
    script.learn(1, 1, (0, 1, 2))
    script.deliver(*script.tell(1, 15, 31), *script.restore(1, 8))
    yield "eight-stores-two-down", script.data()


def outbid():
    script = Script()
    script.queue(*(script.take(c + 1, c, c) for c in range(3)))
    for ballot in range(1, 10):  # each outbids the last before its accepts arrive
        c = ballot % 3
        script.promises(c, ballot, (ballot % 3, (ballot + 1) % 3))
        accepts = script.propose(c, 0, ballot)
        if ballot > 1:
            script.deliver(*before)
        before = accepts
    script.deliver(*script.deliver(*before))
    for c, ballot in ((1, 10), (2, 11)):
        script.learn(c, ballot, (0, 2))
    yield "outbid", script.data()


def every_ballot():
    script = Script()
    for ballot in range(1, reference.BALLOTS + 1):
        for c in range(3):
            script.open(c, 0, ballot)
    yield "every-ballot-opened", script.data()
    most = 13  # of nine messages each; there are three takes, and 128 numbers in all
    for first in range(1, reference.BALLOTS + 1, most):
        ballots = range(first, min(first + most, reference.BALLOTS + 1))
        yield "replies-from-ballot-%d" % first, replies_to(ballots).data()


def replies_to(ballots):
    """Replies to prepares and accepts, delivered with one coordinator more down each time."""
    script = Script()
    script.queue(*(script.take(c + 1, c, c) for c in range(3)))
    replies = []
    for ballot in ballots:
        c = ballot % 3
        promises = script.deliver(*script.open(c, 0, ballot)[:2])
        script.deliver(*promises)
        accepts = script.propose(c, 0, ballot)
        replies += promises + script.deliver(accepts[0])
    for c in range(3):
        script.crash("coord", c)
        script.deliver(*replies)
    return script


def learned_by_three_and_all_again():
    script = Script()
    script.queue(*(script.take(c + 1, c, c) for c in range(3)))
    for c, ballot in ((1, 1), (2, 2), (0, 3), (2, 2), (0, 3), (1, 4)):  # two instances
        script.learn(c, ballot, (c, (c + 1) % 3))
    for n in range(len(script.world.messages)):
        script.deliver(n)
    for n in reversed(range(128)):
        script.deliver(n)
    yield "learned-by-three-and-all-again", script.data()


def everything_thrice():
    script = busy()
    for _ in range(3):
        for n in range(len(script.world.messages)):
            script.deliver(n)
    yield "everything-thrice", script.data()


def everything_backwards():
    script = busy()
    for n in reversed(range(len(script.world.messages))):
        script.deliver(n)
    yield "everything-backwards", script.data()


def takeovers():
    script = Script()
    script.queue(*(script.take(p, 0) for p in (1, 2, 3, 4)))  # four takers in one batch: the last one holds
    script.learn(0, 3)
    for p in (1, 2, 3, 4):
        script.deliver(*script.restore(0, p))
    script.queue(*(script.take(p, s) for p, s in ((4, 1), (1, 1), (2, 2), (3, 0))))  # holds one; free; free; held before
    script.learn(0, 3)
    for p in (1, 2, 3, 4):
        script.deliver(*script.restore(0, p))
    for p, s in ((1, 0), (1, 1), (2, 2), (4, 0), (4, 1), (3, 0)):
        script.commit(p, s, 7, "07")
    yield "takeovers", script.data()


def restores_of_three_stores():
    script = Script()
    requests = [script.take(p, s) for p, s in ((1, 0), (2, 0), (1, 1), (2, 1), (1, 2))]
    restores = []
    for request, p in zip(requests, (1, 2, 1, 2, 1)):
        script.queue(request)
        script.learn(0, 3)
        restores += script.restore(0, p)
    for n in (restores[2], restores[0], restores[4], restores[2], restores[3], restores[1], restores[3]):
        script.deliver(n)
        for p in (1, 2):
            for s in range(3):
                script.step("vote", p, s, s, 1, "00", "commit", update_text(0), 0)  # 7 where it believes, else 5
    yield "restores-of-three-stores", script.data()


def groups():
    script = Script()
    script.hold((1, 0), (2, 1))
    first = script.commit(1, 0, 1, "03") + script.commit(1, 0, 2, "03") + script.commit(2, 1, 1, "03")
    script.deliver(*first)
    script.learn(0, 3)
    script.queue(script.commit(1, 0, 3, "03"), script.commit(2, 1, 2, "03"), script.commit(2, 1, 3, "03"), script.abort(1, 0, 1, 4, "03"))
    script.learn(0, 3)
    script.queue(script.commit(2, 1, 4, "03"), script.commit(1, 0, 5, "01", 0))
    script.learn(0, 3)
    for tx in (1, 4, 5):
        script.deliver(*script.tell(0, tx, tx))
    script.deliver(*script.restore(0, 2), *script.restore(0, 1))
    yield "groups", script.data()


def every_transaction_running():
    script = Script()
    script.hold((1, 0))
    for tx in range(TXS):  # store 1 never votes
        script.queue(script.commit(1, 0, tx, "03", tx))
        if tx % 4 == 3:
            script.learn(0, 3)
    script.deliver(*script.restore(0, 1))  # lists all
    script.follow(0, 1, 0)
    script.follow(0, 1, 31)
    yield "every-transaction-running", script.data()


def many_follows():
    script = Script()
    script.hold((1, 0), (2, 1))
    txs = [0, 1, 2, 3, 9, 10, 11, 19, 28, 29, 30, 31]
    entries = [(script.commit, 1, 0, tx, "03", 2**64 - 1 - tx) for tx in txs] + [(script.take, 3, 0)]
    entries += [(script.commit, 2, 1, tx, "03", tx) if tx % 3 else (script.abort, 2, 1, 1, tx, "03") for tx in txs]
    for at, (send, *values) in enumerate(entries, 1):
        script.queue(send(*values))
        if at % 4 == 0 or at == len(entries):
            script.learn(0, 3)
        if at == 16:  # three are decided, nine run
            script.deliver(*script.restore(0, 3))
    follows = [number for tx in txs for number in script.follow(0, 3, tx)]
    script.deliver(*reversed(follows))
    yield "many-follows", script.data()


def sender_down():
    script = Script()
    script.crash("coord", 1)
    script.queue(script.take(1, 0))
    sent = script.open(0, 0, 3)
    promised = script.deliver(*sent)
    script.crash("coord", 0)
    script.deliver(*sent, *promised)
    script.open(2, 0, 5)
    script.deliver(*range(len(script.world.messages)))
    script.take(2, 0, 0)
    yield "sender-down", script.data()


def equal_entries():
    script = Script()
    equal = [script.take(1, 0) for _ in range(9)] + [script.take(1, 0, 1), script.take(1, 1), script.take(2, 0)]
    script.queue(*equal)
    script.learn(0, 3)
    script.queue(*equal)
    script.learn(0, 3)
    yield "equal-entries", script.data()


def batch_of_another():
    script = Script()
    script.queue(*(script.take(s + 1, s) for s in range(8)))
    script.queue(script.take(9, 0, 1), script.take(2, 1, 1), script.take(5, 4, 1))
    script.learn(1, 1)
    script.learn(0, 3)  # the same batch: processes 2 and 5 leave the queue
    script.learn(0, 3)  # processes 1, 3, 4 and 6; 7 and 8 are left
    yield "batch-of-another", script.data()


def entries_that_differ_in_one_value():
    script = Script()
    script.hold((1, 0))
    votes = [script.abort(1, 0, s, tx, stores, 1) for s, tx, stores in ((1, 4, "0f"), (2, 4, "0f"), (1, 5, "0f"), (1, 4, "1f"), (0, 4, "0f"))]
    votes += [script.commit(1, 0, 4, "0f", update, 1) for update in (0, 2**32)]
    script.hold((2, 0))
    votes += [script.abort(2, 0, 1, 4, "0f", 1)]
    script.hold((1, 1))
    votes += [script.abort(1, 1, 1, 4, "0f", 1), script.take(1, 1, 1), script.take(1, 0, 1), script.take(2, 1, 1)]
    script.queue(*votes)  # eight that differ in one value each, then four too many
    script.queue(*votes)
    for _ in range(4):
        script.learn(1, 4)
    script.queue(*votes)
    yield "entries-that-differ-in-one-value", script.data()


def full_queues():
    script = Script()
    for c in range(3):
        script.queue(*(script.take(p, s, c) for p, s in ((1, 0), (1, 1), (1, 2), (2, 0), (2, 1), (2, 2), (3, 0), (3, 1), (15, 7))))
    script.deliver(0, 7, 8, 9, 16, 17, 18, 25, 26)
    script.crash("coord", 1)
    script.deliver(8, 9, 17, 26)
    script.leave(0)
    script.deliver(8, 9, 17, 26)
    yield "full-queues", script.data()


def every_turn_back():
    script = Script()
    for turn in range(1, 257):  # one by one; from the last down; each with the ones below it
        script.back(1, turn)
        script.back(2, 256 - turn)
    for turn in range(1, 256, 6):
        for below in (0, 1, turn // 2, turn - 1, turn, turn + 1, turn):
            script.back(3, below)
            if below == turn + 1:
                script.crash("proc", 3)
    yield "every-turn-back", script.data()


def machines_come_back():
    script = Script()
    script.hold(*((s + 1, s) for s in range(4)))
    votes = [script.commit(s + 1, s, 7, "0f", 16 + s) for s in range(4)]
    script.queue(*votes[:2])
    script.learn(0, 3)
    for p in range(1, 5):
        if p % 2:
            script.crash("proc", p)
        script.back(p, 2 + p)
    script.hold(*((s + 1, s) for s in range(4)))  # the restores of stores 0 and 1 list 7
    script.queue(*votes)  # 10 and 12
    script.learn(0, 3)
    script.queue(*(script.commit(p, p - 1, 7, "0f", 32 + p) for p in (3, 4)))
    script.learn(0, 3)
    for p in range(1, 5):
        script.deliver(*script.follow(0, p, 7), *script.tell(0, p, 7))
    script.deliver(*script.restore(0, 4), *script.restore(0, 3))
    yield "machines-come-back", script.data()


def turn_after_turn():
    """A late vote of the turn before comes before the take of the next turn, or behind it."""
    script = Script()
    script.hold((1, 0))
    for turn in range(2, 11):
        late = script.commit(1, 0, turn, "01", turn)
        late += script.restore(0, 1)
        if turn % 3:
            script.crash("proc", 1)
        script.back(1, turn if turn < 10 else 255)
        take = script.take(1, 0)
        script.deliver(*(late[:1] + take if turn % 2 else take + late[:1]))
        if script.world.left() > 10:
            script.learn(0, 3)
        script.deliver(*late)
        script.deliver(*script.restore(0, 1))
    yield "turn-after-turn", script.data()


def turns_and_coordinators():
    """Each coordinator has the take of another turn in its queue, and all learn the same."""
    script = Script()
    takes = []
    for c in (0, 1, 2):
        takes.append(script.take(1, 0, c))
        script.back(1, c + 2)
    script.queue(*takes)
    for c, ballot in ((2, 2), (0, 3), (1, 4)):  # instance 0: turn 3
        script.learn(c, ballot)
    for c, ballot in ((0, 3), (1, 4)):  # instance 1: turn 1, which is 12
        script.learn(c, ballot)
    script.queue(*(script.take(1, 0, c) for c in (1, 2)))
    script.learn(1, 4)  # instance 2: turn 2, and turn 4
    for c in range(3):
        script.deliver(*script.restore(c, 1))  # of turns 3, 4 and 3
    yield "turns-and-coordinators", script.data()


TRAFFIC = (
    most_instances, eight_stores_two_down, outbid, every_ballot, learned_by_three_and_all_again,
    everything_thrice, everything_backwards, takeovers, restores_of_three_stores, groups,
    every_transaction_running, many_follows, sender_down, equal_entries, batch_of_another, entries_that_differ_in_one_value, full_queues,
    every_turn_back, machines_come_back, turn_after_turn, turns_and_coordinators,
)


def traffic_cases():
    for group in TRAFFIC:
        yield from group()


def random_cases():
    for seed in range(6):
        yield "random-%d" % seed, random_script(seed).data()
    for seed in range(10):
        yield "guided-%d" % seed, guided_script(seed).data()
        yield "followed-%d" % seed, followed_script(seed).data()
    for seed in range(20):
        yield "returned-%d" % seed, returned_script(seed).data()


def cases():
    for name, text in BY_HAND.items():
        steps, expected = parts(text)
        assert reference.run(steps) == expected, name
        yield name, steps
    for group in (byte_cases, line_cases, reading_cases, turn_reading_cases, number_cases,
                  sweep_cases, turn_sweep_cases, last_number_cases, traffic_cases, random_cases):
        yield from group()


def files(where):
    return case_files.step_files(where, dict(cases()), reference.run)


if __name__ == "__main__":
    case_files.main(files)
