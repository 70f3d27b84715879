"""Step files for the tests of reading and writing."""
import plain_reference
import world_reference
from plain_log import SHORT_DIGITS, UPDATE_DIGITS, joined, update_text
from world_script import Script

LINES, BYTES = 1000, 100
# The longest piece. In `plain` and `world` it is as long as the buffer for the output.
PIECES = {"plain": 36230, "world": 131270, "finish": 4096}
LARGEST = 2**64 - 1


def plain_vote(process, store, tx, stores="ff", update=0, digits=UPDATE_DIGITS):
    values = process, store, store, tx, stores, "commit", update_text(update, digits)
    return plain_reference.STEPS.text("vote", *values).encode()


def plain_take(process, store):
    return plain_reference.STEPS.text("take", process, store).encode()


def short(name):
    """A few lines of each sort; the last lacks its LF."""
    if name == "plain":
        rows = [plain_take(1, 0), plain_vote(1, 0, 4, "01", LARGEST)]
        rows += [plain_vote(1, 0, 5, "01", 10, SHORT_DIGITS), b"do=take proc=1 store=9"]
        rows += [b"do=take proc=1 turn=255 store=0", b"do=take proc=1 turn=256 store=0"]
    else:
        script = Script()
        script.queue(script.take(1, 0))
        script.back(1, 255)
        script.take(1, 0)
        rows = script.rows + [b"do=open coord=0 inst=0 ballot=999", b"do=crash role=acceptor id=0"]
    return joined(rows + [b"", b"x" * (BYTES + 1)])[:-1]


def whole(name):
    """Inputs as they come: none, lines without bytes, lines that are too long, more than a piece."""
    good, piece = short(name) + b"\n", PIECES[name]
    junk = [b"%d" % n * (n + 1) for n in range(1, 400)]
    return [
        ("no bytes", b""),
        ("no final LF", good + good[:-1]),
        ("one LF", b"\n"),
        *(("%d LFs" % n, b"\n" * n) for n in (LINES - 1, LINES, LINES + 1, LINES + 2)),
        *(("a line of %d bytes" % n, b"x" * n + b"\n" + good) for n in range(98, 104)),
        *(("a line of %d bytes" % n, b"x" * n + b"\n" + good) for n in (piece - 1, piece, 10**6)),
        ("junk lines of several pieces", joined(junk) + good),
        ("steps between junk lines", b"".join(row + b"\n" + good for row in junk[::8])),
        ("an LF at the end of a piece", b"x" * (piece - 1) + b"\n" + good),
        ("an LF at the start of a piece", b"x" * piece + b"\n" + good),
        ("a line after line 1,001", b"\n" * LINES + good + good),
    ]


def longest(name):
    rows = {"plain": longest_plain, "world": longest_world, "finish": longest_finish}[name]()
    assert len(rows) == LINES + 1
    return [("the longest output", joined(rows))]


def longest_plain():
    """Every store is held and has a replay of every transaction; each transaction has its own
    group. The rest of the lines are answered 10. No output is longer."""
    holders = range(8, 16)
    rows = [plain_take(p, s) for s, p in enumerate(holders)]
    rows += [
        plain_vote(p, s, tx, "ff", LARGEST) for tx in range(32) for s, p in enumerate(holders)
    ]
    return rows + rows[-1:] * (LINES + 1 - len(rows))


def longest_world():
    """A store with many updates, handed from process to process, each of which takes a restore; all
    128 numbers are used. The longest output of a few such files."""
    scripts = [handed_on(votes) for votes in (8, 12, 16, 20, 24)]
    rows = max(scripts, key=lambda script: len(world_reference.run(script.data()))).rows
    return rows + [b"do=deliver msg=0"] * (LINES + 1 - len(rows))


def handed_on(votes):
    script = Script()
    script.hold((15, 0))
    for tx in range(31, 31 - votes, -1):
        script.queue(script.commit(15, 0, tx, "01", LARGEST))
        if tx % 4 == 0:
            script.learn(0, 3)
    script.deliver(*script.restore(0, 15))
    for process in range(14, 0, -1):
        if script.world.left() >= 12:
            script.hold((process, 0))
    for tx in range(31, 31 - votes, -1):
        script.deliver(*script.tell(0, 15, tx))
    return script


def longest_finish():
    """A list for five acceptors whose numbers and ballot have three digits. No output is longer:
    with five acceptors there are numbers for no instance of two digits."""
    script = Script(5)
    script.queue(script.take(1, 0))
    script.open(0, 0, 99)
    script.leave(16)
    return script.rows + [b"x"] * (LINES + 1 - len(script.rows))
