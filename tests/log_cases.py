"""Step files of `plain` about the log itself: document 01's cases, each refusal at its limits,
groups, take-overs, turns, the longest lists. make_plain_cases.py puts them among its own."""
from plain_log import SHORT_DIGITS, UPDATE_DIGITS, joined, update_text
from plain_reference import STEPS

files = {}


def case(name, holders=True):
    """Begins a file; with holders, process s + 1 takes store s first."""
    files[name] = []
    for s in range(8 if holders else 0):
        take(s + 1, s)


def put(line):
    files[list(files)[-1]].append(line.encode())


def take(process, store, turn=None):
    put(STEPS.text("take", process, store, turn=turn))


def vote(process, by, store, tx, list_, say, update=0, digits=UPDATE_DIGITS, turn=None):
    says = {"c": "commit", "a": "abort"}[say]
    values = process, by, store, tx, "%02x" % list_, says, update_text(update, digits)
    put(STEPS.text("vote", *values, turn=turn))


def commit(store, tx, list_, update=0, turn=None):
    vote(store + 1, store, store, tx, list_, "c", update, turn=turn)


def abort(store, tx, list_, turn=None):
    vote(store + 1, store, store, tx, list_, "a", turn=turn)


# P1 to P10
case("p1")
case("p2"); commit(0, 0, 0x01)
case("p3"); commit(0, 0, 0x03)
case("p4"); abort(3, 0, 0x08); commit(0, 0, 0x03)
case("p5"); commit(0, 0, 0x03); commit(1, 0, 0x07)
case("p6"); commit(0, 0, 0x03); commit(1, 0, 0x03); abort(1, 0, 0x03)
case("p7"); commit(0, 1, 0x03); commit(0, 2, 0x03); commit(1, 1, 0x03); commit(1, 2, 0x03)
case("p8"); commit(0, 1, 0x03); commit(0, 2, 0x03); commit(1, 1, 0x03); commit(0, 3, 0x03); commit(1, 2, 0x03); commit(1, 3, 0x03)
case("p9"); commit(0, 1, 0x03); commit(0, 2, 0x03); commit(1, 1, 0x03); commit(0, 3, 0x03); commit(1, 3, 0x03); commit(1, 2, 0x03)
case("p10", holders=False); take(3, 0); take(4, 0); vote(3, 0, 0, 0, 0x01, "c"); take(3, 0)

# 2: each number at its limit and beyond, of a take and of a vote
case("take-limits", holders=False)
for p in (0, 1, 15, 16, 255):
    take(p, 0)
for s in (7, 8, 255):
    take(2, s)
case("vote-limits")
for p, by, s, tx in ((0, 0, 0, 0), (16, 0, 0, 0), (255, 0, 0, 0), (1, 8, 0, 0), (1, 255, 0, 0), (1, 0, 8, 0), (1, 0, 255, 0), (1, 0, 0, 32), (1, 0, 0, 255), (16, 8, 8, 32), (1, 0, 0, 31), (8, 7, 7, 0)):
    vote(p, by, s, tx, 0xFF, "c", 1)
case("largest-numbers")
commit(0, 0, 0xFF, 2**64 - 1); commit(7, 31, 0x80, 0); commit(7, 30, 0xFF, 2**63)

# 7: list without store, without by, with neither; commit on behalf; abort with an update, also one
# that has its high half alone
case("ill-formed")
vote(1, 0, 0, 0, 0x02, "c"); vote(1, 0, 1, 0, 0x02, "a"); vote(1, 0, 1, 0, 0x01, "a"); vote(1, 0, 1, 0, 0x04, "a"); vote(1, 0, 1, 0, 0x00, "a")
vote(1, 0, 1, 0, 0x03, "c"); vote(1, 0, 0, 0, 0x01, "a", 1); vote(1, 0, 1, 0, 0x03, "a", 7)
vote(1, 0, 0, 0, 0x01, "a", 2**32); vote(1, 0, 0, 0, 0x01, "a", 2**63); vote(1, 0, 1, 0, 0x03, "a", 2**32)
vote(1, 0, 0, 0, 0x01, "a", 0); vote(1, 0, 1, 0, 0x03, "a", 0)
vote(1, 0, 0, 1, 0x01, "a", 1, SHORT_DIGITS); vote(1, 0, 0, 1, 0x01, "a", 0, SHORT_DIGITS)
# 7 before 8, 9 and 10
case("ill-formed-first")
commit(0, 0, 0x01); vote(2, 0, 0, 0, 0x02, "c"); vote(1, 0, 0, 0, 0x02, "c")

# 8: no holder, another holder, holder of another store, on behalf by one who does not hold by;
# 8 before 9 and 10
case("not-holder", holders=False)
vote(1, 0, 0, 0, 0x01, "c"); take(1, 0); vote(2, 0, 0, 0, 0x01, "c"); vote(1, 1, 1, 0, 0x02, "c"); vote(1, 1, 0, 0, 0x03, "a"); vote(1, 0, 0, 0, 0x01, "c")
vote(2, 0, 0, 0, 0x01, "c"); vote(2, 0, 0, 0, 0x03, "c"); vote(1, 0, 3, 1, 0x09, "a")

# 9: a commit with another list (wider, narrower, beside); an abort not within, within, equal;
# a kept abort never causes 9; 9 before 10
case("other-list")
commit(0, 0, 0x03); commit(1, 0, 0x07); commit(1, 0, 0x02); commit(1, 0, 0x06); commit(0, 0, 0x01); commit(0, 0, 0x03)
abort(2, 0, 0x04); abort(1, 0, 0x07); abort(1, 0, 0x02)
case("lists-after-an-abort")
abort(1, 0, 0x06); commit(0, 0, 0x03); commit(2, 0, 0x07); abort(0, 0, 0x03); commit(1, 0, 0x03)
case("abort-within-the-list")
commit(0, 5, 0x07); vote(1, 0, 1, 5, 0x03, "a"); vote(3, 2, 1, 5, 0x06, "a"); commit(1, 5, 0x07); commit(2, 5, 0x07, 9)
vote(3, 2, 3, 5, 0x0C, "a")

# 10: the same vote again, another say, after an abort on behalf
case("kept-already")
commit(0, 0, 0x03, 1); commit(0, 0, 0x03, 1); commit(0, 0, 0x03, 2); abort(0, 0, 0x01); vote(2, 1, 0, 0, 0x03, "a")
vote(1, 0, 1, 0, 0x03, "a"); commit(1, 0, 0x03)
# and the same number in eight and in sixteen digits, or one that differs in a half
case("kept-in-either-form")
for tx, first, then in ((0, SHORT_DIGITS, UPDATE_DIGITS), (1, UPDATE_DIGITS, SHORT_DIGITS)):
    vote(1, 0, 0, tx, 0x01, "c", 10, first); vote(1, 0, 0, tx, 0x01, "c", 10, then); vote(1, 0, 0, tx, 0x01, "c", 2**32 + 10); vote(1, 0, 0, tx, 0x01, "c", 11)

# 11: holds another now; 12: holds it, or held it before and holds none; a process that lost a store
# may take one it never held
case("holds-or-held", holders=False)
take(1, 0); take(1, 0); take(1, 1); take(2, 0); take(1, 0); take(1, 1); take(2, 1); take(3, 0); take(3, 1); take(2, 1); take(2, 0); take(1, 2)

# take-overs with votes of the old holder arriving
case("take-overs", holders=False)
take(1, 0); take(2, 1); vote(1, 0, 0, 0, 0x03, "c", 10); take(3, 0); vote(1, 0, 0, 1, 0x01, "c", 11); vote(1, 0, 1, 0, 0x03, "a")
vote(2, 1, 1, 0, 0x03, "c", 12); vote(3, 0, 0, 0, 0x03, "c", 13); vote(3, 0, 0, 1, 0x01, "c", 14); vote(3, 0, 0, 2, 0x03, "c", 15); take(4, 0)
vote(4, 0, 1, 2, 0x03, "a"); vote(2, 1, 1, 2, 0x03, "c", 16)

# an abort on behalf against the store's own commit, either order
case("abort-on-behalf")
vote(1, 0, 1, 0, 0x03, "a"); commit(1, 0, 0x03); commit(0, 0, 0x03)
commit(1, 1, 0x03); vote(1, 0, 1, 1, 0x03, "a"); commit(0, 1, 0x03)

# update 0 is replayed too; replay by group and then tx
case("update-0-replayed")
commit(0, 9, 0x03, 0); commit(0, 3, 0x01, 5); commit(1, 9, 0x03, 7); commit(0, 1, 0x01, 0); commit(1, 20, 0x03, 8); commit(0, 20, 0x03, 6); commit(0, 2, 0x01, 4)

# all eight stores in one transaction
case("eight-stores")
for s in range(8):
    commit(s, 17, 0xFF, 0x100 + s)

# all 32 transactions, a group each, from the last to the first
case("a-group-each")
for tx in range(31, -1, -1):
    commit(tx % 8, tx, 1 << (tx % 8), tx)

# all 32 transactions running, then all committed: one group
case("one-group")
for tx in range(32):
    commit(tx % 8, tx, 1 << (tx % 8) | 1 << ((tx + 1) % 8), tx)
for tx in range(32):
    s = (tx + 1) % 8
    commit(s, tx, 1 << (tx % 8) | 1 << s, 2**64 - 1 - tx)

# two at a time: groups of two, 16 of them; aborted ones between
case("groups-of-two")
for k in range(0, 32, 4):
    commit(0, k, 0x03, k); commit(0, k + 1, 0x03, k); abort(2, k + 2, 0x04); commit(1, k, 0x03, k); commit(0, k + 3, 0x03, k); commit(1, k + 1, 0x03, k); commit(1, k + 3, 0x03, k)

# every process takes every store once; each take beyond is refused
case("every-take", holders=False)
for r in range(16):
    for s in range(8):
        take((r + s) % 15 + 1, s)

# Turns. A line without one means turn 1
case("turn-limits", holders=False)
for t in (0, 256, 999, 65537, 1, 255):
    take(1, 0, t)
for t in (0, 256, 999, 65537, 255):
    vote(1, 0, 0, 0, 0x01, "c", 1, turn=t)
case("turns-and-none", holders=False)
take(1, 0); take(2, 1, 1); vote(1, 0, 0, 0, 0x03, "c", 1, turn=1); vote(2, 1, 1, 0, 0x03, "c", 2)
take(1, 0, 1); take(2, 1); vote(1, 0, 0, 0, 0x03, "c", 1)
# the first take of a process may have any turn; then its votes have that one
case("turns-of-a-first-take", holders=False)
take(1, 0, 7); take(2, 1, 255); take(3, 2)
for t in (None, 1, 6, 8, 255, 7):
    vote(1, 0, 0, 0, 0x01, "c", 7, turn=t)
for t in (None, 1, 7, 254, 255):
    vote(2, 1, 1, 1, 0x02, "c", 255, turn=t)
for t in (2, 7, 255, None):
    vote(3, 2, 2, 2, 0x04, "c", 1, turn=t)

# its own store again: the same turn or an earlier one is 12, a later one accepted
case("turns-of-its-own-store", holders=False)
take(1, 0); take(1, 0); take(1, 0, 2); take(1, 0, 2); take(1, 0); take(1, 0, 9); take(1, 0, 8)
take(1, 0, 3); take(1, 0, 255); take(1, 0, 254); take(1, 0, 255)
# another store while it holds one is 11 whatever the turn, also an earlier one
case("turns-of-another-store", holders=False)
take(1, 0, 3); take(1, 1, 3); take(1, 1, 4); take(1, 1, 2); take(1, 1); take(1, 1, 255)
take(1, 0, 4); take(2, 0); take(1, 1, 3); take(1, 1, 4); take(1, 0, 5); take(1, 1, 5)
# the last accepted turn of a process is that of its last take, of whatever store
case("turns-below-the-last", holders=False)
take(1, 0, 5); take(2, 0); take(1, 1, 4); take(1, 1); take(1, 1, 5); take(3, 1); take(1, 2, 4)
take(1, 2, 6); take(4, 2); take(1, 3, 5); take(1, 3, 6)
# and each process has its own
take(5, 4, 9); take(6, 5, 2); take(7, 6); take(6, 5, 3); take(7, 6, 2)
# it held store 0 in turn 1 and store 1 in turn 2: in turn 2 it takes neither, but one that it never
# held; in turn 3 any
case("turns-held-before", holders=False)
take(1, 0); take(2, 0); take(1, 1, 2); take(3, 1); take(1, 0, 2); take(1, 0, 1); take(1, 1, 2)
take(1, 2, 1); take(1, 2, 2); take(1, 0, 3); take(4, 2); take(1, 2, 2); take(1, 0, 3)
# the store goes to and fro, a turn later each time; turns between may be left out
case("turns-to-and-fro", holders=False)
for t in (1, 2, 4, 100, 255):
    take(1, 0, t); take(2, 0, t); vote(1, 0, 0, t % 32, 0x01, "c", t, turn=t)
    vote(2, 0, 0, t % 32, 0x01, "c", t, turn=t)
    take(1, 0, t); take(2, 0, t)

# a vote has the turn of the holder of by, also on behalf of a store whose holder has another
case("turns-on-behalf", holders=False)
take(1, 0, 2); take(2, 1, 5)
for tx, t in enumerate((None, 1, 5, 3, 2)):
    vote(1, 0, 1, tx, 0x03, "a", turn=t)
for tx, t in enumerate((None, 2, 4, 6, 5)):
    vote(2, 1, 0, 8 + tx, 0x03, "a", turn=t)
vote(1, 0, 2, 16, 0x05, "a", turn=5); vote(1, 0, 2, 16, 0x05, "a", turn=2)

# 12 is last: after 2, 7, 8, 9 and 10 of a vote, and after 2 and 11 of a take
case("turns-refused-last", holders=False)
take(1, 0, 2); take(2, 1); vote(1, 0, 0, 0, 0x03, "c", 1, turn=2)
vote(1, 0, 0, 32, 0x01, "c", turn=1); vote(1, 0, 0, 0, 0x02, "c", turn=1)
vote(1, 0, 1, 0, 0x03, "c", turn=1); vote(1, 0, 0, 1, 0x01, "a", 1, turn=1)
vote(2, 0, 0, 0, 0x03, "c", turn=2); vote(3, 0, 0, 0, 0x03, "c", turn=2)
vote(1, 2, 2, 0, 0x04, "c", turn=1)
vote(1, 0, 0, 0, 0x07, "c", turn=1); vote(1, 0, 0, 0, 0x07, "a", turn=1)
vote(1, 0, 0, 0, 0x03, "c", 1, turn=1); vote(1, 0, 0, 0, 0x01, "a", turn=3)
vote(1, 0, 0, 0, 0x03, "c", 1, turn=2); vote(1, 0, 0, 1, 0x01, "c", turn=1)
vote(1, 0, 0, 1, 0x01, "c", turn=0); vote(1, 0, 0, 1, 0x01, "c", turn=2)
take(1, 1, 1); take(1, 8, 1); take(1, 0, 1); take(1, 0, 0); take(0, 0, 1)

# votes of the turns before: kept until the take of a later turn, refused after it, on behalf too
case("turns-of-late-votes")
commit(0, 0, 0x03, 1); vote(1, 0, 2, 1, 0x05, "a"); take(1, 0, 2); commit(0, 2, 0x01, 2)
vote(1, 0, 2, 3, 0x05, "a"); commit(0, 0, 0x03, 1); commit(0, 0, 0x07, 1)
commit(0, 2, 0x01, 3, turn=2); commit(1, 0, 0x03, 4); take(1, 0, 4); commit(0, 4, 0x01, 5)
commit(0, 4, 0x01, 6, turn=2); commit(0, 4, 0x01, 7, turn=3)
commit(0, 4, 0x01, 8, turn=5); commit(0, 4, 0x01, 9, turn=4); abort(0, 5, 0x01, turn=2)
abort(0, 5, 0x01, turn=4)
# a lost store: 8 whatever the turn
take(9, 0, 4); commit(0, 6, 0x01, turn=4); commit(0, 6, 0x01, turn=5)
vote(9, 0, 0, 6, 0x01, "c", turn=4)

# a late take of turn 1 is accepted before any later one: then another store is 11 in turn 2, the
# same one accepted, and so is another once that store is lost
case("turns-of-late-takes", holders=False)
take(1, 0); take(1, 1, 2); take(1, 0, 2); take(1, 1, 2); take(2, 0); take(1, 1, 2); take(1, 0, 1)
take(1, 2, 1)
take(3, 2); take(3, 3, 2); take(4, 2); take(3, 3, 2)

# a process that holds its store in every turn; another that begins with the last one
case("every-turn", holders=False)
for t in range(1, 256):
    take(1, 0, t); take(2, 1, 256 - t)
for t in range(1, 256):
    vote(1, 0, 0, t % 32, 0x01, "c", t, turn=t)
for t in range(1, 200):
    take(2, 1, t)
# two of them, more entries than a log without turns accepts; then both vote on everything
case("most-turns", holders=False)
for t in range(1, 256):
    take(1, 0, t); take(2, 1, t)
for tx in range(32):
    vote(1, 0, 0, tx, 0x03, "c", tx, turn=255); vote(2, 1, 1, tx, 0x03, "c", tx, turn=255)
# every process takes every store, in each of three turns
case("every-take-of-three-turns", holders=False)
for t in (1, 2, 255):
    for r in range(16):
        for s in range(8):
            take((r + s) % 15 + 1, s, t)


def cases():
    for name, rows in files.items():
        yield name, joined(rows)
