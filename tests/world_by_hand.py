"""Step files for `world` with every answer and the report reasoned by hand from documents 01 and
02: a check on world_reference.py.

A row is a step, its answer after an arrow, and after a # the numbers of the messages that it sends,
or why it is answered so. The report stands after a row of dashes. Most votes have their update in
eight digits, which are still read; a report has it in sixteen."""

NOTHING = "coord=0 applied=0\ncoord=1 applied=0\ncoord=2 applied=0\n"


def learn(coord, inst, ballot, first):
    """One instance learned by way of acceptors 0 and 1 of three: ten numbers, from first."""
    rows = ["open coord=%d inst=%d ballot=%d" % (coord, inst, ballot)]  # first, + 1, + 2
    rows += ["deliver msg=%d" % (first + k) for k in (0, 1)]  # promises + 3, + 4
    rows += ["deliver msg=%d" % (first + k) for k in (3, 4)]
    rows += ["propose coord=%d inst=%d ballot=%d" % (coord, inst, ballot)]  # + 5, + 6, + 7
    rows += ["deliver msg=%d" % (first + k) for k in (5, 6)]  # accepted + 8, + 9
    rows += ["deliver msg=%d" % (first + k) for k in (8, 9)]
    return "".join(row + " -> 0\n" for row in rows)


# One store from its take to its restored update. The vote needs the restore, the restore the
# learned take.
LIFE = """
setup acceptors=3 -> 0
take proc=1 store=0 to=0 -> 0 # 0
deliver msg=0 -> 0
open coord=0 inst=0 ballot=3 -> 0 # 1 2 3
deliver msg=1 -> 0 # 4
deliver msg=2 -> 0 # 5
deliver msg=4 -> 0
propose coord=0 inst=0 ballot=3 -> 5 # one promise of three acceptors
deliver msg=5 -> 0
propose coord=0 inst=0 ballot=3 -> 0 # 6 7 8
deliver msg=6 -> 0 # 9
deliver msg=7 -> 0 # 10
deliver msg=9 -> 0
deliver msg=9 -> 0 # the same acceptor again
restore coord=0 proc=1 -> 5 # not learned yet
deliver msg=10 -> 0 # learned
vote proc=1 by=0 store=0 tx=4 list=01 say=commit upd=0000000a to=0 -> 5 # believes nothing yet
restore coord=0 proc=1 -> 0 # 11
deliver msg=11 -> 0
vote proc=1 by=0 store=0 tx=4 list=01 say=commit upd=0000000a to=0 -> 0 # 12
deliver msg=12 -> 0
open coord=0 inst=1 ballot=3 -> 0 # 13 14 15, ballots start anew
deliver msg=13 -> 0 # 16
deliver msg=15 -> 0 # 17, of acceptor 2
deliver msg=16 -> 0
deliver msg=17 -> 0
propose coord=0 inst=1 ballot=3 -> 0 # 18 19 20
deliver msg=18 -> 0 # 21
deliver msg=19 -> 0 # 22, acceptor 1 promised nothing and accepts
deliver msg=21 -> 0
tell coord=0 proc=2 tx=4 -> 5 # open
deliver msg=22 -> 0 # learned
tell coord=0 proc=2 tx=4 -> 0 # 23
deliver msg=23 -> 0
restore coord=0 proc=1 -> 0 # 24
deliver msg=24 -> 0
deliver msg=11 -> 0 # position 1 is not above 2
---
coord=0 applied=2
tx=4 outcome=commit group=1
store=0 holder=1
store=0 group=1 tx=4 upd=000000000000000a
coord=1 applied=0
coord=2 applied=0
proc=2 tx=4 heard=commit
proc=1 store=0 position=2
store=0 group=1 tx=4 upd=000000000000000a
"""

# Two of five accepted coordinator 1's take under 1, one accepted coordinator 2's under 2:
# coordinator 0 hears all three and proposes the one of ballot 2, though more promises carry the
# other. Its own take stays queued.
HIGHEST = """
setup acceptors=5 -> 0
take proc=1 store=0 to=1 -> 0 # 0
deliver msg=0 -> 0
take proc=2 store=1 to=2 -> 0 # 1
deliver msg=1 -> 0
take proc=3 store=2 to=0 -> 0 # 2
deliver msg=2 -> 0
open coord=1 inst=0 ballot=1 -> 0 # 3 to 7
deliver msg=3 -> 0 # 8
deliver msg=4 -> 0 # 9
deliver msg=5 -> 0 # 10
deliver msg=8 -> 0
deliver msg=9 -> 0
deliver msg=10 -> 0
propose coord=1 inst=0 ballot=1 -> 0 # 11 to 15
deliver msg=11 -> 0 # 16
deliver msg=12 -> 0 # 17
open coord=2 inst=0 ballot=2 -> 0 # 18 to 22
deliver msg=20 -> 0 # 23
deliver msg=21 -> 0 # 24
deliver msg=22 -> 0 # 25
deliver msg=23 -> 0
deliver msg=24 -> 0
deliver msg=25 -> 0
propose coord=2 inst=0 ballot=2 -> 0 # 26 to 30
deliver msg=28 -> 0 # 31, acceptor 2
open coord=0 inst=0 ballot=3 -> 0 # 32 to 36
deliver msg=32 -> 0 # 37
deliver msg=33 -> 0 # 38
deliver msg=34 -> 0 # 39
deliver msg=37 -> 0
deliver msg=38 -> 0
deliver msg=39 -> 0
propose coord=0 inst=0 ballot=3 -> 0 # 40 to 44
deliver msg=40 -> 0 # 45
deliver msg=41 -> 0 # 46
deliver msg=42 -> 0 # 47
deliver msg=45 -> 0
deliver msg=46 -> 0
deliver msg=47 -> 0 # learned
deliver msg=13 -> 0 # acceptor 2 promised 3: nothing
deliver msg=14 -> 0 # acceptor 3 promised 2: nothing
deliver msg=16 -> 0
deliver msg=17 -> 0 # two of five: coordinator 1 does not learn
---
coord=0 applied=1
store=1 holder=2
coord=1 applied=0
coord=2 applied=0
"""

# Eight entries fill the queue; a ninth is 6 until a batch is learned, an equal one is 0. The
# batches are the entries in their order, by four. A learned entry that is delivered again is queued
# again, and then refused by the log (12).
QUEUE = ("setup acceptors=3 -> 0\n"
         + "".join("take proc=%d store=%d to=0 -> 0\n" % (s + 1, s) for s in range(8))  # 0 to 7
         + "".join("deliver msg=%d -> 0\n" % s for s in range(8)) + """
take proc=9 store=0 to=0 -> 0 # 8
deliver msg=8 -> 6
deliver msg=3 -> 0
take proc=4 store=3 to=0 -> 0 # 9, equal to the fourth
deliver msg=9 -> 0
open coord=0 inst=0 ballot=3 -> 0 # 10 11 12
deliver msg=10 -> 0 # 13
deliver msg=11 -> 0 # 14
deliver msg=13 -> 0
deliver msg=14 -> 0
propose coord=0 inst=0 ballot=3 -> 0 # 15 16 17
deliver msg=8 -> 6 # proposed is not learned
deliver msg=15 -> 0 # 18
deliver msg=16 -> 0 # 19
deliver msg=18 -> 0
deliver msg=19 -> 0 # learned: processes 1 to 4
deliver msg=8 -> 0
deliver msg=0 -> 0 # queued again, after process 9
""" + learn(0, 1, 3, 20)  # processes 5 to 8
         + learn(0, 2, 3, 30)  # process 9 takes over store 0; process 1 held it before
         + """
open coord=0 inst=3 ballot=3 -> 0 # 40 41 42
deliver msg=40 -> 0 # 43
deliver msg=41 -> 0 # 44
deliver msg=43 -> 0
deliver msg=44 -> 0
propose coord=0 inst=3 ballot=3 -> 5 # nothing to propose
---
coord=0 applied=3
store=0 holder=9
store=1 holder=2
store=2 holder=3
store=3 holder=4
store=4 holder=5
store=5 holder=6
store=6 holder=7
store=7 holder=8
coord=1 applied=0
coord=2 applied=0
""")

# 42 opens use 126 numbers, a take and a promise the last two. Then a prepare that would promise is
# 6 and changes nothing (acceptor 0 never promised 126, so ballot 3 still would promise: 6 again),
# one that does nothing is 0.
NUMBERS = ("setup acceptors=3 -> 0\n"
           + "".join("open coord=0 inst=0 ballot=%d -> 0\n" % (3 * k) for k in range(1, 43)) + """
open coord=0 inst=0 ballot=127 -> 5 # not its own; 6 would be higher
open coord=0 inst=0 ballot=129 -> 6 # two left, three needed
take proc=1 store=0 to=0 -> 0 # 126
deliver msg=127 -> 4
deliver msg=125 -> 0 # 127: ballot 126, acceptor 2
take proc=1 store=0 to=0 -> 6
vote proc=1 by=0 store=0 tx=0 list=00 say=commit upd=00000000 to=0 -> 5 # believes nothing; also 6 and 7
deliver msg=123 -> 6
deliver msg=124 -> 6
deliver msg=0 -> 6
deliver msg=2 -> 0 # acceptor 2 promised 126: nothing
deliver msg=125 -> 0
deliver msg=127 -> 0
deliver msg=126 -> 0
propose coord=0 inst=0 ballot=126 -> 5 # one promise
tell coord=0 proc=1 tx=0 -> 5
restore coord=0 proc=1 -> 5
crash role=acceptor id=1 -> 0
deliver msg=124 -> 3
deliver msg=128 -> 2
---
""" + NOTHING)

# A majority accepted ballot 3, but the coordinator opened 6 before the second acceptance came:
# passed over. One acceptor's acceptance sent twice counts once. Ballot 6 finds the batch with
# acceptor 0.
LATE = """
setup acceptors=3 -> 0
take proc=1 store=0 to=0 -> 0 # 0
deliver msg=0 -> 0
open coord=0 inst=0 ballot=3 -> 0 # 1 2 3
deliver msg=1 -> 0 # 4
deliver msg=2 -> 0 # 5
deliver msg=4 -> 0
deliver msg=5 -> 0
propose coord=0 inst=0 ballot=3 -> 0 # 6 7 8
deliver msg=6 -> 0 # 9
deliver msg=7 -> 0 # 10
deliver msg=7 -> 0 # 11: accepts again
deliver msg=10 -> 0
deliver msg=11 -> 0
restore coord=0 proc=1 -> 5
open coord=0 inst=0 ballot=3 -> 5
open coord=0 inst=0 ballot=6 -> 0 # 12 13 14
deliver msg=9 -> 0 # ballot 3 is not the one opened last
restore coord=0 proc=1 -> 5
propose coord=0 inst=0 ballot=3 -> 5
propose coord=0 inst=0 ballot=6 -> 5
deliver msg=14 -> 0 # 15: nothing accepted
deliver msg=12 -> 0 # 16: accepted under 3
deliver msg=15 -> 0
deliver msg=4 -> 0 # a promise of 3: passed over
propose coord=0 inst=0 ballot=6 -> 5
deliver msg=16 -> 0
propose coord=0 inst=0 ballot=6 -> 0 # 17 18 19
propose coord=0 inst=0 ballot=6 -> 5
deliver msg=8 -> 0 # acceptor 2 promised 6: nothing
deliver msg=18 -> 0 # 20
deliver msg=19 -> 0 # 21
deliver msg=20 -> 0
deliver msg=21 -> 0 # learned
deliver msg=9 -> 0
deliver msg=20 -> 0
restore coord=0 proc=1 -> 0 # 22
restore coord=1 proc=1 -> 5 # by its log nobody holds
---
coord=0 applied=1
store=0 holder=1
coord=1 applied=0
coord=2 applied=0
"""

# Before setup every step is 5 but where 1, 2 or 4 applies; five acceptors count. Afterwards three.
BEFORE = """
take proc=1 store=0 to=0 -> 5
vote proc=1 by=0 store=0 tx=0 list=01 say=commit upd=00000000 to=0 -> 5
vote proc=1 by=0 store=0 tx=0 list=00 say=abort upd=00000001 to=0 -> 5
open coord=0 inst=0 ballot=3 -> 5
open coord=0 inst=16 ballot=3 -> 2
propose coord=0 inst=0 ballot=3 -> 5
deliver msg=0 -> 4
deliver msg=127 -> 4
deliver msg=128 -> 2
tell coord=0 proc=1 tx=0 -> 5
restore coord=0 proc=1 -> 5
crash role=acceptor id=4 -> 5
crash role=acceptor id=5 -> 2
crash role=coord id=2 -> 5
crash role=coord id=3 -> 2
crash role=proc id=15 -> 5
crash role=proc id=16 -> 2
crash role=proc id=0 -> 2
setup acceptors=4 -> 2
setup acceptors=05 -> 1
setup acceptors=3 -> 0
setup acceptors=3 -> 5
setup acceptors=5 -> 5
setup acceptors=4 -> 2
crash role=acceptor id=3 -> 2
crash role=acceptor id=2 -> 0
crash role=acceptor id=2 -> 3
---
""" + NOTHING

# Process 1 holds store 0 and is restored: instance 0, messages 0 to 11.
ONE_HOLDER = """
setup acceptors=3 -> 0
take proc=1 store=0 to=0 -> 0 # 0
deliver msg=0 -> 0
""" + learn(0, 0, 3, 1) + """
restore coord=0 proc=1 -> 0 # 11
deliver msg=11 -> 0
"""

# Process 2 takes over store 0 while votes of process 1 are on the wire. The one before the take is
# kept, the ones after it are refused 8 when applied, though process 1 still believes. Transaction
# 1 ran when nothing had committed: group 1; transaction 2 commits by its first vote: group 2.
TAKEOVER = ONE_HOLDER + """
vote proc=1 by=0 store=0 tx=1 list=03 say=commit upd=0000000a to=0 -> 0 # 12
vote proc=1 by=0 store=1 tx=2 list=03 say=abort upd=00000000 to=0 -> 0 # 13
take proc=2 store=0 to=0 -> 0 # 14
take proc=3 store=1 to=0 -> 0 # 15
deliver msg=12 -> 0
deliver msg=14 -> 0
deliver msg=13 -> 0
deliver msg=15 -> 0
""" + learn(0, 1, 3, 16) + """
restore coord=0 proc=1 -> 5
vote proc=1 by=0 store=0 tx=3 list=01 say=commit upd=0000000b to=0 -> 0 # 26
vote proc=2 by=0 store=0 tx=3 list=01 say=commit upd=0000000b to=0 -> 5
restore coord=0 proc=2 -> 0 # 27
deliver msg=27 -> 0
restore coord=0 proc=3 -> 0 # 28
deliver msg=28 -> 0
vote proc=3 by=1 store=1 tx=1 list=03 say=commit upd=0000000c to=0 -> 0 # 29
vote proc=2 by=0 store=0 tx=2 list=01 say=commit upd=0000000d to=0 -> 0 # 30
deliver msg=26 -> 0
deliver msg=29 -> 0
deliver msg=30 -> 0
""" + learn(0, 2, 6, 31) + """
tell coord=0 proc=1 tx=1 -> 0 # 41
deliver msg=41 -> 0
tell coord=0 proc=1 tx=3 -> 5
restore coord=0 proc=2 -> 0 # 42
deliver msg=42 -> 0
---
coord=0 applied=3
tx=1 outcome=commit group=1
tx=2 outcome=commit group=2
store=0 holder=2
store=1 holder=3
store=0 group=1 tx=1 upd=000000000000000a
store=0 group=2 tx=2 upd=000000000000000d
store=1 group=1 tx=1 upd=000000000000000c
coord=1 applied=0
coord=2 applied=0
proc=1 tx=1 heard=commit
proc=1 store=0 position=1
proc=2 store=0 position=3
store=0 group=1 tx=1 upd=000000000000000a
store=0 group=2 tx=2 upd=000000000000000d
proc=3 store=1 position=2
"""

# Process 1 held store 0, lost it and took store 1. The restore of position 3 comes before that of
# position 1, which is then not taken: it believes in store 1 only. The update 0 is replayed.
RESTORES = """
setup acceptors=3 -> 0
take proc=1 store=0 to=0 -> 0 # 0
deliver msg=0 -> 0
""" + learn(0, 0, 3, 1) + """
restore coord=0 proc=1 -> 0 # 11
take proc=2 store=0 to=0 -> 0 # 12
deliver msg=12 -> 0
""" + learn(0, 1, 3, 13) + """
take proc=1 store=1 to=0 -> 0 # 23
deliver msg=23 -> 0
""" + learn(0, 2, 3, 24) + """
restore coord=0 proc=1 -> 0 # 34
restore coord=0 proc=2 -> 0 # 35
deliver msg=34 -> 0
deliver msg=11 -> 0
vote proc=1 by=0 store=0 tx=0 list=01 say=commit upd=00000000 to=0 -> 5
vote proc=1 by=1 store=1 tx=0 list=02 say=commit upd=00000000 to=0 -> 0 # 36
crash role=proc id=2 -> 0
deliver msg=35 -> 3
deliver msg=36 -> 0
""" + learn(0, 3, 3, 37) + """
tell coord=0 proc=2 tx=0 -> 3
restore coord=0 proc=1 -> 0 # 47, never delivered
deliver msg=34 -> 0
---
coord=0 applied=4
tx=0 outcome=commit group=1
store=0 holder=2
store=1 holder=1
store=1 group=1 tx=0 upd=0000000000000000
coord=1 applied=0
coord=2 applied=0
proc=1 store=1 position=3
"""

# Five acceptors: with two down three are a majority, with three down nothing is learned any more.
# Numbers go to those down too.
TWO_DOWN = """
setup acceptors=5 -> 0
crash role=acceptor id=0 -> 0
crash role=acceptor id=1 -> 0
take proc=15 store=7 to=2 -> 0 # 0
deliver msg=0 -> 0
open coord=2 inst=0 ballot=254 -> 0 # 1 to 5
deliver msg=1 -> 3
deliver msg=2 -> 3
deliver msg=3 -> 0 # 6
deliver msg=4 -> 0 # 7
deliver msg=6 -> 0
deliver msg=7 -> 0
propose coord=2 inst=0 ballot=254 -> 5
deliver msg=5 -> 0 # 8
deliver msg=8 -> 0
propose coord=2 inst=0 ballot=254 -> 0 # 9 to 13
deliver msg=9 -> 3
deliver msg=11 -> 0 # 14
deliver msg=12 -> 0 # 15
deliver msg=13 -> 0 # 16
deliver msg=14 -> 0
deliver msg=15 -> 0
restore coord=2 proc=15 -> 5
deliver msg=16 -> 0 # learned
restore coord=2 proc=15 -> 0 # 17
deliver msg=17 -> 0
crash role=acceptor id=2 -> 0
open coord=2 inst=1 ballot=2 -> 0 # 18 to 22
deliver msg=20 -> 3
deliver msg=21 -> 0 # 23
deliver msg=22 -> 0 # 24
deliver msg=23 -> 0
deliver msg=24 -> 0
propose coord=2 inst=1 ballot=2 -> 5
open coord=2 inst=1 ballot=254 -> 0 # 25 to 29
open coord=2 inst=1 ballot=254 -> 5
open coord=2 inst=1 ballot=255 -> 5
open coord=2 inst=0 ballot=254 -> 5
open coord=2 inst=2 ballot=254 -> 5
---
coord=0 applied=0
coord=1 applied=0
coord=2 applied=1
store=7 holder=15
proc=15 store=7 position=1
"""

# The acceptance that makes the majority stands on line 1,001: 6, nothing learned, and what follows
# is not read.
LINE_1001 = ("setup acceptors=3 -> 0\ntake proc=1 store=0 to=0 -> 0\ndeliver msg=0 -> 0\n"
             + learn(0, 0, 3, 1).replace("deliver msg=10 -> 0\n", "") + "? -> 1\n" * 988
             + "deliver msg=10 -> 6\n---\n" + NOTHING)

# Three coordinators in instance 0. Coordinator 1's take is accepted by acceptors 1 and 2 under 4:
# chosen. Coordinator 2 hears it from acceptor 2, coordinator 0 from both; each learns it by its own
# ballot and keeps its own take queued. In instance 1 coordinator 1 learns coordinator 0's take with
# an empty queue.
THREE = """
setup acceptors=3 -> 0
take proc=1 store=0 to=0 -> 0 # 0
take proc=2 store=1 to=1 -> 0 # 1
take proc=3 store=2 to=2 -> 0 # 2
deliver msg=0 -> 0
deliver msg=1 -> 0
deliver msg=2 -> 0
open coord=0 inst=0 ballot=3 -> 0 # 3 4 5
deliver msg=3 -> 0 # 6
deliver msg=4 -> 0 # 7
deliver msg=6 -> 0
deliver msg=7 -> 0
propose coord=0 inst=0 ballot=3 -> 0 # 8 9 10
open coord=1 inst=0 ballot=4 -> 0 # 11 12 13
deliver msg=12 -> 0 # 14
deliver msg=13 -> 0 # 15
deliver msg=14 -> 0
deliver msg=15 -> 0
propose coord=1 inst=0 ballot=4 -> 0 # 16 17 18
deliver msg=8 -> 0 # 19: acceptor 0 accepts under 3
deliver msg=9 -> 0 # acceptor 1 promised 4: nothing
deliver msg=18 -> 0 # 20: acceptor 2 accepts under 4
open coord=2 inst=0 ballot=5 -> 0 # 21 22 23
deliver msg=21 -> 0 # 24: accepted under 3
deliver msg=23 -> 0 # 25: accepted under 4
deliver msg=24 -> 0
deliver msg=25 -> 0
propose coord=2 inst=0 ballot=5 -> 0 # 26 27 28
deliver msg=17 -> 0 # 29: acceptor 1 accepts under 4
deliver msg=20 -> 0
deliver msg=29 -> 0 # coordinator 1 learns
deliver msg=26 -> 0 # 30
deliver msg=28 -> 0 # 31
deliver msg=30 -> 0
deliver msg=31 -> 0 # coordinator 2 learns
deliver msg=19 -> 0
deliver msg=10 -> 0 # acceptor 2 promised 5: nothing
open coord=0 inst=0 ballot=6 -> 0 # 32 33 34
deliver msg=33 -> 0 # 35
deliver msg=34 -> 0 # 36
deliver msg=35 -> 0
deliver msg=36 -> 0
propose coord=0 inst=0 ballot=6 -> 0 # 37 38 39
deliver msg=37 -> 0 # 40
deliver msg=39 -> 0 # 41
deliver msg=40 -> 0
deliver msg=41 -> 0 # coordinator 0 learns
""" + learn(0, 1, 3, 42) + """
open coord=1 inst=1 ballot=1 -> 0 # 52 53 54
deliver msg=52 -> 0 # acceptor 0 promised 3: nothing
deliver msg=54 -> 0 # 55
deliver msg=55 -> 0
propose coord=1 inst=1 ballot=1 -> 5
open coord=1 inst=1 ballot=4 -> 0 # 56 57 58
deliver msg=57 -> 0 # 59: accepted under 3
deliver msg=58 -> 0 # 60: nothing accepted
deliver msg=59 -> 0
deliver msg=60 -> 0
propose coord=1 inst=1 ballot=4 -> 0 # 61 62 63
deliver msg=62 -> 0 # 64
deliver msg=63 -> 0 # 65
deliver msg=64 -> 0
deliver msg=65 -> 0 # coordinator 1 learns
---
coord=0 applied=2
store=0 holder=1
store=1 holder=2
coord=1 applied=2
store=0 holder=1
store=1 holder=2
coord=2 applied=1
store=1 holder=2
"""

# All parties crash: nothing is lost from the report, every step is 3 but a second setup, a number
# not sent and one outside its limits.
ALL_DOWN = (ONE_HOLDER + """
vote proc=1 by=0 store=0 tx=0 list=01 say=abort upd=00000000 to=0 -> 0 # 12
deliver msg=12 -> 0
""" + learn(0, 1, 3, 13) + """
tell coord=0 proc=15 tx=0 -> 0 # 23
deliver msg=23 -> 0
""" + "".join("crash role=%s id=%d -> %d\n" % (role, i, answer) for answer in (0, 3)
              for role, ids in (("acceptor", range(3)), ("coord", range(3)), ("proc", range(1, 16))) for i in ids) + """
setup acceptors=3 -> 5
take proc=1 store=0 to=0 -> 3
vote proc=1 by=0 store=0 tx=1 list=00 say=commit upd=00000000 to=0 -> 3
open coord=0 inst=2 ballot=3 -> 3
open coord=0 inst=0 ballot=1 -> 3
propose coord=0 inst=0 ballot=3 -> 3
deliver msg=0 -> 3
deliver msg=1 -> 3
deliver msg=4 -> 3
deliver msg=6 -> 3
deliver msg=9 -> 3
deliver msg=11 -> 3
deliver msg=23 -> 3
deliver msg=24 -> 4
tell coord=0 proc=1 tx=0 -> 3
tell coord=0 proc=1 tx=5 -> 3
tell coord=0 proc=1 tx=32 -> 2
restore coord=0 proc=1 -> 3
crash role=acceptor id=3 -> 2
---
coord=0 applied=2
tx=0 outcome=abort group=0
store=0 holder=1
coord=1 applied=0
coord=2 applied=0
proc=15 tx=0 heard=abort
proc=1 store=0 position=1
""")

# A sent vote: the lowest of 1, 2, 3, 5, 6 and 7. Process 1 believes in store 0; coordinator 2 is
# down; 35 opens use up the numbers: 12 before, 1 + 1 votes, 35 * 3 = 105 opens, 9 takes, 128 in
# all.
VOTES = (ONE_HOLDER + """
crash role=coord id=2 -> 0
vote proc=1 by=0 store=0 tx=0 list=02 say=commit upd=00000000 to=0 -> 7
vote proc=1 by=0 store=1 tx=0 list=02 say=abort upd=00000000 to=0 -> 7
vote proc=1 by=0 store=1 tx=0 list=01 say=abort upd=00000000 to=0 -> 7
vote proc=1 by=0 store=1 tx=0 list=03 say=commit upd=00000000 to=0 -> 7
vote proc=1 by=0 store=0 tx=0 list=01 say=abort upd=00000001 to=0 -> 7
vote proc=1 by=1 store=1 tx=0 list=02 say=commit upd=00000000 to=0 -> 5
vote proc=1 by=1 store=1 tx=0 list=00 say=commit upd=00000000 to=0 -> 5
vote proc=2 by=0 store=0 tx=0 list=01 say=commit upd=00000000 to=0 -> 5
vote proc=2 by=0 store=0 tx=0 list=00 say=commit upd=00000000 to=2 -> 3
vote proc=1 by=0 store=0 tx=0 list=01 say=commit upd=00000000 to=2 -> 3
vote proc=1 by=0 store=0 tx=32 list=01 say=commit upd=00000000 to=2 -> 2
vote proc=1 by=0 store=0 tx=32 list=01 say=commit upd=0000000 to=2 -> 1
vote proc=1 by=0 store=0 tx=0 list=ff say=commit upd=ffffffff to=0 -> 0 # 12
vote proc=1 by=0 store=7 tx=0 list=81 say=abort upd=00000000 to=1 -> 0 # 13
""" + "".join("open coord=0 inst=1 ballot=%d -> 0\n" % (3 * k) for k in range(1, 36))
         + "take proc=3 store=3 to=1 -> 0\n" * 9 + """
vote proc=1 by=0 store=0 tx=0 list=01 say=commit upd=00000000 to=0 -> 6
vote proc=1 by=0 store=0 tx=0 list=02 say=commit upd=00000000 to=0 -> 6
vote proc=1 by=1 store=1 tx=0 list=02 say=commit upd=00000000 to=0 -> 5
vote proc=1 by=0 store=0 tx=0 list=02 say=commit upd=00000000 to=2 -> 3
crash role=proc id=1 -> 0
vote proc=1 by=0 store=0 tx=0 list=01 say=commit upd=00000000 to=0 -> 3
---
coord=0 applied=1
store=0 holder=1
coord=1 applied=0
coord=2 applied=0
proc=1 store=0 position=1
""")

# Instance 0 was learned under ballot 3, instance 1 is opened under 3 too: promises and acceptances
# of instance 0 come again and are passed over, and only instance 1 is opened and proposed.
OTHER_INSTANCE = """
setup acceptors=3 -> 0
take proc=1 store=0 to=0 -> 0 # 0
deliver msg=0 -> 0
""" + learn(0, 0, 3, 1) + """
take proc=2 store=1 to=0 -> 0 # 11
deliver msg=11 -> 0
open coord=0 inst=1 ballot=3 -> 0 # 12 13 14
deliver msg=4 -> 0
deliver msg=5 -> 0
propose coord=0 inst=1 ballot=3 -> 5 # nobody promised in instance 1
deliver msg=12 -> 0 # 15
deliver msg=13 -> 0 # 16
deliver msg=15 -> 0
deliver msg=16 -> 0
propose coord=0 inst=0 ballot=3 -> 5
propose coord=0 inst=2 ballot=3 -> 5
open coord=0 inst=0 ballot=6 -> 5
open coord=0 inst=2 ballot=6 -> 5
propose coord=0 inst=1 ballot=3 -> 0 # 17 18 19
deliver msg=9 -> 0
deliver msg=10 -> 0
restore coord=0 proc=2 -> 5 # not learned
deliver msg=6 -> 0 # 20: acceptor 0 accepts again in instance 0
deliver msg=20 -> 0
deliver msg=17 -> 0 # 21
deliver msg=21 -> 0
restore coord=0 proc=2 -> 5
deliver msg=18 -> 0 # 22
deliver msg=22 -> 0 # learned
restore coord=0 proc=2 -> 0 # 23
---
coord=0 applied=2
store=0 holder=1
store=1 holder=2
coord=1 applied=0
coord=2 applied=0
"""

# Ballot 6 is proposed when the acceptances of ballot 3, a majority, arrive: passed over.
OLDER_BALLOT = """
setup acceptors=3 -> 0
take proc=1 store=0 to=0 -> 0 # 0
deliver msg=0 -> 0
open coord=0 inst=0 ballot=3 -> 0 # 1 2 3
deliver msg=1 -> 0 # 4
deliver msg=2 -> 0 # 5
deliver msg=4 -> 0
deliver msg=5 -> 0
propose coord=0 inst=0 ballot=3 -> 0 # 6 7 8
deliver msg=6 -> 0 # 9
deliver msg=7 -> 0 # 10
open coord=0 inst=0 ballot=6 -> 0 # 11 12 13
deliver msg=11 -> 0 # 14
deliver msg=12 -> 0 # 15
deliver msg=14 -> 0
deliver msg=15 -> 0
propose coord=0 inst=0 ballot=3 -> 5
propose coord=0 inst=0 ballot=7 -> 5
propose coord=0 inst=0 ballot=9 -> 5
propose coord=1 inst=0 ballot=6 -> 5
propose coord=0 inst=0 ballot=6 -> 0 # 16 17 18
deliver msg=9 -> 0
deliver msg=10 -> 0
restore coord=0 proc=1 -> 5
deliver msg=16 -> 0 # 19
deliver msg=17 -> 0 # 20
deliver msg=19 -> 0
restore coord=0 proc=1 -> 5
deliver msg=20 -> 0 # learned
restore coord=0 proc=1 -> 0 # 21
---
coord=0 applied=1
store=0 holder=1
coord=1 applied=0
coord=2 applied=0
"""

# Acceptors answer a coordinator that is down, and the answers have numbers. Another one finishes
# what it proposed.
REPLIES = """
setup acceptors=3 -> 0
take proc=1 store=0 to=0 -> 0 # 0
deliver msg=0 -> 0
open coord=0 inst=0 ballot=3 -> 0 # 1 2 3
deliver msg=1 -> 0 # 4
deliver msg=2 -> 0 # 5
deliver msg=4 -> 0
deliver msg=5 -> 0
propose coord=0 inst=0 ballot=3 -> 0 # 6 7 8
crash role=coord id=0 -> 0
deliver msg=3 -> 0 # 9
deliver msg=9 -> 3
deliver msg=6 -> 0 # 10
deliver msg=10 -> 3
take proc=2 store=1 to=1 -> 0 # 11
deliver msg=11 -> 0
deliver msg=12 -> 4
open coord=1 inst=0 ballot=4 -> 0 # 12 13 14
deliver msg=12 -> 0 # 15: accepted under 3
deliver msg=13 -> 0 # 16
deliver msg=15 -> 0
deliver msg=16 -> 0
propose coord=1 inst=0 ballot=4 -> 0 # 17 18 19
deliver msg=17 -> 0 # 20
deliver msg=18 -> 0 # 21
deliver msg=20 -> 0
deliver msg=21 -> 0 # learned: process 1's take
restore coord=0 proc=1 -> 3
restore coord=1 proc=2 -> 5
restore coord=1 proc=1 -> 0 # 22
deliver msg=22 -> 0
---
coord=0 applied=0
coord=1 applied=1
store=0 holder=1
coord=2 applied=0
proc=1 store=0 position=1
"""

# Lists. Transaction 4: a commit of list 03 is kept, so a commit of 07 and an abort of 04 are
# refused 9, a second vote of store 0 is 10; it commits at last. 5: a kept abort of 04 hinders no
# commit of 03, and counts. 6: an abort within 03 is kept.
LISTS = """
setup acceptors=3 -> 0
take proc=1 store=0 to=0 -> 0 # 0
take proc=2 store=1 to=0 -> 0 # 1
take proc=3 store=2 to=0 -> 0 # 2
deliver msg=0 -> 0
deliver msg=1 -> 0
deliver msg=2 -> 0
""" + learn(0, 0, 3, 3) + """
restore coord=0 proc=1 -> 0 # 13
restore coord=0 proc=2 -> 0 # 14
restore coord=0 proc=3 -> 0 # 15
deliver msg=13 -> 0
deliver msg=14 -> 0
deliver msg=15 -> 0
vote proc=1 by=0 store=0 tx=4 list=03 say=commit upd=00000001 to=0 -> 0 # 16, kept
vote proc=2 by=1 store=1 tx=4 list=07 say=commit upd=00000002 to=0 -> 0 # 17, refused 9
vote proc=3 by=2 store=2 tx=4 list=04 say=abort upd=00000000 to=0 -> 0 # 18, refused 9
vote proc=3 by=2 store=2 tx=5 list=04 say=abort upd=00000000 to=0 -> 0 # 19, kept
deliver msg=16 -> 0
deliver msg=17 -> 0
deliver msg=18 -> 0
deliver msg=19 -> 0
""" + learn(0, 1, 3, 20) + """
tell coord=0 proc=3 tx=4 -> 5
vote proc=1 by=0 store=0 tx=5 list=03 say=commit upd=00000004 to=0 -> 0 # 30, kept
vote proc=1 by=0 store=0 tx=6 list=03 say=commit upd=00000005 to=0 -> 0 # 31, kept
vote proc=2 by=1 store=1 tx=6 list=02 say=abort upd=00000000 to=0 -> 0 # 32, kept
vote proc=1 by=0 store=0 tx=4 list=03 say=abort upd=00000000 to=0 -> 0 # 33, refused 10
deliver msg=30 -> 0
deliver msg=31 -> 0
deliver msg=32 -> 0
deliver msg=33 -> 0
""" + learn(0, 2, 3, 34) + """
tell coord=0 proc=3 tx=4 -> 5
vote proc=2 by=1 store=1 tx=4 list=03 say=commit upd=00000003 to=0 -> 0 # 44, kept
deliver msg=44 -> 0
""" + learn(0, 3, 3, 45) + """
tell coord=0 proc=3 tx=5 -> 0 # 55
tell coord=0 proc=3 tx=6 -> 0 # 56, never delivered
deliver msg=55 -> 0
---
coord=0 applied=4
tx=4 outcome=commit group=1
tx=5 outcome=abort group=0
tx=6 outcome=abort group=0
store=0 holder=1
store=1 holder=2
store=2 holder=3
store=0 group=1 tx=4 upd=0000000000000001
store=1 group=1 tx=4 upd=0000000000000003
coord=1 applied=0
coord=2 applied=0
proc=3 tx=5 heard=abort
proc=1 store=0 position=1
proc=2 store=1 position=1
proc=3 store=2 position=1
"""

# No number left: an accept below the promise is 0, one that would be accepted 6 and changes
# nothing, so that acceptor 2, which promised nothing, would still promise 3. 13 numbers, 38 opens
# and a take are 128.
ACCEPTS = """
setup acceptors=3 -> 0
take proc=1 store=0 to=0 -> 0 # 0
deliver msg=0 -> 0
open coord=0 inst=0 ballot=3 -> 0 # 1 2 3
deliver msg=1 -> 0 # 4
deliver msg=2 -> 0 # 5
deliver msg=4 -> 0
deliver msg=5 -> 0
propose coord=0 inst=0 ballot=3 -> 0 # 6 7 8
open coord=1 inst=0 ballot=4 -> 0 # 9 10 11
deliver msg=9 -> 0 # 12: acceptor 0 promises 4
""" + "".join("open coord=2 inst=0 ballot=%d -> 0\n" % (3 * k + 2) for k in range(38)) + """
take proc=1 store=0 to=0 -> 0 # 127
deliver msg=6 -> 0
deliver msg=7 -> 6
deliver msg=8 -> 6
deliver msg=10 -> 6
deliver msg=3 -> 6
deliver msg=1 -> 0
deliver msg=2 -> 0
deliver msg=12 -> 0
deliver msg=4 -> 0
---
""" + NOTHING

# Processes 1 and 2 hold stores 0 and 1 and are restored: instance 0, messages 0 to 13.
TWO_HOLDERS = """
setup acceptors=3 -> 0
take proc=1 store=0 to=0 -> 0 # 0
take proc=2 store=1 to=0 -> 0 # 1
deliver msg=0 -> 0
deliver msg=1 -> 0
""" + learn(0, 0, 3, 2) + """
restore coord=0 proc=1 -> 0 # 12
restore coord=0 proc=2 -> 0 # 13
deliver msg=12 -> 0
deliver msg=13 -> 0
"""

# Process 3 takes store 0 over while 4 and 5 run with its commit votes: the restore lists both. A
# follow is refused while they run, to who holds nothing, and where the store that the process holds
# has no kept commit vote: none at all, an abort, or only another store's. Coordinator 1 has learned
# nothing. A follow of 6, which no restore lists, is sent and not taken. The update of 5, aborted,
# is 0.
FOLLOW = TWO_HOLDERS + """
vote proc=1 by=0 store=0 tx=4 list=03 say=commit upd=0000000a to=0 -> 0 # 14
vote proc=1 by=0 store=0 tx=5 list=03 say=commit upd=0000000b to=0 -> 0 # 15
take proc=3 store=0 to=0 -> 0 # 16
deliver msg=14 -> 0
deliver msg=15 -> 0
deliver msg=16 -> 0
follow coord=0 proc=1 tx=4 -> 5 # no vote is kept yet
""" + learn(0, 1, 3, 17) + """
follow coord=0 proc=3 tx=4 -> 5 # it runs
follow coord=0 proc=1 tx=4 -> 5 # it runs, and process 1 holds nothing any more
restore coord=0 proc=3 -> 0 # 27: lists 4 and 5
deliver msg=27 -> 0
vote proc=2 by=1 store=1 tx=4 list=03 say=commit upd=0000000c to=0 -> 0 # 28
vote proc=2 by=1 store=1 tx=5 list=03 say=abort upd=00000000 to=0 -> 0 # 29
vote proc=2 by=1 store=1 tx=6 list=02 say=commit upd=0000000d to=0 -> 0 # 30
vote proc=2 by=1 store=0 tx=7 list=03 say=abort upd=00000000 to=0 -> 0 # 31, on behalf
deliver msg=28 -> 0
deliver msg=29 -> 0
deliver msg=30 -> 0
deliver msg=31 -> 0
""" + learn(0, 2, 3, 32) + """
follow coord=0 proc=1 tx=4 -> 5 # process 1 holds nothing
follow coord=0 proc=3 tx=6 -> 5 # committed, but of store 0 no vote is kept
follow coord=0 proc=3 tx=7 -> 5 # store 0's kept vote is an abort
follow coord=0 proc=2 tx=5 -> 5 # and so is store 1's
follow coord=0 proc=2 tx=7 -> 5 # aborted, but of store 1 no vote is kept
follow coord=0 proc=3 tx=8 -> 5 # nobody voted
follow coord=1 proc=3 tx=4 -> 5 # coordinator 1 has no vote and no holder
follow coord=0 proc=3 tx=4 -> 0 # 42
follow coord=0 proc=3 tx=5 -> 0 # 43
follow coord=0 proc=2 tx=6 -> 0 # 44
deliver msg=43 -> 0
deliver msg=42 -> 0
deliver msg=44 -> 0 # not listed: nothing
---
coord=0 applied=3
tx=4 outcome=commit group=1
tx=5 outcome=abort group=0
tx=6 outcome=commit group=2
tx=7 outcome=abort group=0
store=0 holder=3
store=1 holder=2
store=0 group=1 tx=4 upd=000000000000000a
store=1 group=1 tx=4 upd=000000000000000c
store=1 group=2 tx=6 upd=000000000000000d
coord=1 applied=0
coord=2 applied=0
proc=1 store=0 position=1
proc=2 store=1 position=1
proc=3 store=0 position=2
running=4
running=5
follow=4 outcome=commit upd=000000000000000a
follow=5 outcome=abort upd=0000000000000000
"""

# The lowest of 1, 2, 3, 5 and 6. Transaction 4 is committed by store 0 alone. Process 2 and
# coordinator 2 crash. 24 numbers are used when 34 opens take 102 more and two takes the last ones.
FOLLOW_REFUSED = ("""
follow coord=0 proc=1 tx=4 -> 5 # no setup
follow coord=3 proc=1 tx=4 -> 2
follow coord=0 proc=0 tx=4 -> 2
follow coord=0 proc=16 tx=4 -> 2
follow coord=0 proc=1 tx=32 -> 2
follow coord=0 proc=1 -> 1
follow coord=0 proc=1 tx= -> 1
follow coord=0 proc=1 tx=04 -> 1
follow coord=3 proc=16 tx=04 -> 1
follow proc=1 coord=0 tx=4 -> 1
follow coord=0 tx=4 -> 1
follow coord=0 proc=1 store=0 tx=4 -> 1
follow coord=0 proc=1 tx=4 to=0 -> 1
follow  coord=0 proc=1 tx=4 -> 1
follows coord=0 proc=1 tx=4 -> 1
setup acceptors=3 -> 0
follow coord=0 proc=1 tx=4 -> 5 # nobody holds a store
take proc=1 store=0 to=0 -> 0 # 0
deliver msg=0 -> 0
""" + learn(0, 0, 3, 1) + """
restore coord=0 proc=1 -> 0 # 11
deliver msg=11 -> 0
vote proc=1 by=0 store=0 tx=4 list=01 say=commit upd=0000000a to=0 -> 0 # 12
deliver msg=12 -> 0
""" + learn(0, 1, 3, 13) + """
crash role=proc id=2 -> 0
crash role=coord id=2 -> 0
follow coord=0 proc=2 tx=4 -> 3 # the process; also 5
follow coord=2 proc=1 tx=4 -> 3 # the coordinator; also 5
follow coord=2 proc=2 tx=32 -> 2
follow coord=0 proc=1 tx=4 -> 0 # 23
""" + "".join("open coord=1 inst=0 ballot=%d -> 0\n" % (3 * k + 1) for k in range(34))
                  + "take proc=3 store=3 to=1 -> 0\n" * 2 + """
follow coord=0 proc=1 tx=4 -> 6
follow coord=0 proc=1 tx=5 -> 5 # nobody voted; 6 would be higher
follow coord=0 proc=3 tx=4 -> 5 # not the holder
follow coord=2 proc=1 tx=4 -> 3
deliver msg=23 -> 0 # a delivered follow needs no number
crash role=proc id=1 -> 0
deliver msg=23 -> 3
follow coord=0 proc=1 tx=4 -> 3
---
coord=0 applied=2
tx=4 outcome=commit group=1
store=0 holder=1
store=0 group=1 tx=4 upd=000000000000000a
coord=1 applied=0
coord=2 applied=0
proc=1 store=0 position=1
""")

# A follow that comes before the restore does nothing; delivered again after it, it is taken, and a
# third time it does nothing. The restore of position 3 has the update in its rows: it empties the
# follows and lists 2 alone, so the follow of 1 does nothing from then on.
FOLLOW_BEFORE_RESTORE = TWO_HOLDERS + """
vote proc=1 by=0 store=0 tx=1 list=03 say=commit upd=0000000a to=0 -> 0 # 14
vote proc=1 by=0 store=0 tx=2 list=03 say=commit upd=0000000b to=0 -> 0 # 15
take proc=3 store=0 to=0 -> 0 # 16
deliver msg=14 -> 0
deliver msg=15 -> 0
deliver msg=16 -> 0
""" + learn(0, 1, 3, 17) + """
restore coord=0 proc=3 -> 0 # 27: lists 1 and 2
vote proc=2 by=1 store=1 tx=1 list=03 say=commit upd=0000000c to=0 -> 0 # 28
deliver msg=28 -> 0
""" + learn(0, 2, 3, 29) + """
follow coord=0 proc=3 tx=1 -> 0 # 39
deliver msg=39 -> 0 # process 3 took no restore: nothing
deliver msg=27 -> 0
deliver msg=39 -> 0 # taken
deliver msg=39 -> 0 # taken already: nothing
restore coord=0 proc=3 -> 0 # 40: one row, lists 2
deliver msg=40 -> 0
deliver msg=39 -> 0 # not listed any more: nothing
deliver msg=27 -> 0 # position 2 is not above 3
deliver msg=39 -> 0
vote proc=2 by=1 store=1 tx=2 list=03 say=abort upd=00000000 to=0 -> 0 # 41
deliver msg=41 -> 0
""" + learn(0, 3, 3, 42) + """
follow coord=0 proc=3 tx=2 -> 0 # 52
follow coord=0 proc=3 tx=2 -> 0 # 53, the same again
deliver msg=53 -> 0 # taken
deliver msg=52 -> 0 # nothing
---
coord=0 applied=4
tx=1 outcome=commit group=1
tx=2 outcome=abort group=0
store=0 holder=3
store=1 holder=2
store=0 group=1 tx=1 upd=000000000000000a
store=1 group=1 tx=1 upd=000000000000000c
coord=1 applied=0
coord=2 applied=0
proc=1 store=0 position=1
proc=2 store=1 position=1
proc=3 store=0 position=3
store=0 group=1 tx=1 upd=000000000000000a
running=2
follow=2 outcome=abort upd=0000000000000000
"""

# Restores of positions 2 and 3 both list 1, which store 2's vote commits afterwards. Processes 3
# and 4 take the first restore and their follow. The second restore empties both. Process 3 then
# takes its follow once more, process 4 gets none.
FOLLOW_NEWER_RESTORE = TWO_HOLDERS + """
vote proc=1 by=0 store=0 tx=1 list=07 say=commit upd=0000000a to=0 -> 0 # 14
vote proc=2 by=1 store=1 tx=1 list=07 say=commit upd=0000000b to=0 -> 0 # 15
take proc=3 store=0 to=0 -> 0 # 16
take proc=4 store=1 to=0 -> 0 # 17
deliver msg=14 -> 0
deliver msg=15 -> 0
deliver msg=16 -> 0
deliver msg=17 -> 0
""" + learn(0, 1, 3, 18) + """
restore coord=0 proc=3 -> 0 # 28: position 2, lists 1
restore coord=0 proc=4 -> 0 # 29: the same of store 1
take proc=5 store=2 to=0 -> 0 # 30
deliver msg=30 -> 0
""" + learn(0, 2, 3, 31) + """
restore coord=0 proc=3 -> 0 # 41: position 3, lists 1
restore coord=0 proc=4 -> 0 # 42
restore coord=0 proc=5 -> 0 # 43: lists nothing, store 2 has no vote
deliver msg=43 -> 0
vote proc=5 by=2 store=2 tx=1 list=07 say=commit upd=0000000c to=0 -> 0 # 44
deliver msg=44 -> 0
""" + learn(0, 3, 3, 45) + """
follow coord=0 proc=3 tx=1 -> 0 # 55
follow coord=0 proc=4 tx=1 -> 0 # 56
deliver msg=28 -> 0
deliver msg=29 -> 0
deliver msg=55 -> 0 # taken
deliver msg=56 -> 0 # taken
deliver msg=41 -> 0
deliver msg=42 -> 0
deliver msg=55 -> 0 # taken, since none was since that restore
---
coord=0 applied=4
tx=1 outcome=commit group=1
store=0 holder=3
store=1 holder=4
store=2 holder=5
store=0 group=1 tx=1 upd=000000000000000a
store=1 group=1 tx=1 upd=000000000000000b
store=2 group=1 tx=1 upd=000000000000000c
coord=1 applied=0
coord=2 applied=0
proc=1 store=0 position=1
proc=2 store=1 position=1
proc=3 store=0 position=3
running=1
follow=1 outcome=commit upd=000000000000000a
proc=4 store=1 position=3
running=1
proc=5 store=2 position=3
"""

# Process 3 holds store 1, loses it and holds store 0, while 1 runs with commit votes of both. Its
# follow is of store 0. After the restore of store 1, which lists 1 too, it does nothing; after that
# of store 0 it is taken, with store 0's update.
FOLLOW_OTHER_STORE = TWO_HOLDERS + """
vote proc=1 by=0 store=0 tx=1 list=07 say=commit upd=0000000a to=0 -> 0 # 14
vote proc=2 by=1 store=1 tx=1 list=07 say=commit upd=0000000b to=0 -> 0 # 15
take proc=3 store=1 to=0 -> 0 # 16
deliver msg=14 -> 0
deliver msg=15 -> 0
deliver msg=16 -> 0
""" + learn(0, 1, 3, 17) + """
restore coord=0 proc=3 -> 0 # 27: store 1, lists 1
take proc=4 store=1 to=0 -> 0 # 28
take proc=3 store=0 to=0 -> 0 # 29
take proc=5 store=2 to=0 -> 0 # 30
deliver msg=28 -> 0
deliver msg=29 -> 0
deliver msg=30 -> 0
""" + learn(0, 2, 3, 31) + """
restore coord=0 proc=3 -> 0 # 41: store 0, lists 1
restore coord=0 proc=5 -> 0 # 42
deliver msg=42 -> 0
vote proc=5 by=2 store=2 tx=1 list=07 say=commit upd=0000000c to=0 -> 0 # 43
deliver msg=43 -> 0
""" + learn(0, 3, 3, 44) + """
follow coord=0 proc=3 tx=1 -> 0 # 54: store 0
follow coord=0 proc=4 tx=1 -> 0 # 55: store 1
deliver msg=27 -> 0
deliver msg=54 -> 0 # of another store: nothing
deliver msg=41 -> 0
deliver msg=54 -> 0 # taken
deliver msg=55 -> 0 # process 4 took no restore: nothing
---
coord=0 applied=4
tx=1 outcome=commit group=1
store=0 holder=3
store=1 holder=4
store=2 holder=5
store=0 group=1 tx=1 upd=000000000000000a
store=1 group=1 tx=1 upd=000000000000000b
store=2 group=1 tx=1 upd=000000000000000c
coord=1 applied=0
coord=2 applied=0
proc=1 store=0 position=1
proc=2 store=1 position=1
proc=3 store=0 position=3
running=1
follow=1 outcome=commit upd=000000000000000a
proc=5 store=2 position=3
"""

# Process 3 takes store 0 over while 1 and 2 run, and loses it to process 4 before 2 is decided. Its
# follow of 1 was sent before, and is taken all the same. One of 2 is not sent to it: its list stays
# incomplete. Coordinator 1 learns three instances: in its log 3 is still the holder and 2 runs.
FOLLOW_REPLACED = TWO_HOLDERS + """
vote proc=1 by=0 store=0 tx=1 list=03 say=commit upd=0000000a to=0 -> 0 # 14
vote proc=1 by=0 store=0 tx=2 list=03 say=commit upd=0000000b to=0 -> 0 # 15
take proc=3 store=0 to=0 -> 0 # 16
deliver msg=14 -> 0
deliver msg=15 -> 0
deliver msg=16 -> 0
""" + learn(0, 1, 3, 17) + """
restore coord=0 proc=3 -> 0 # 27: lists 1 and 2
deliver msg=27 -> 0
vote proc=2 by=1 store=1 tx=1 list=03 say=commit upd=0000000c to=0 -> 0 # 28
deliver msg=28 -> 0
""" + learn(0, 2, 3, 29) + """
follow coord=0 proc=3 tx=1 -> 0 # 39
take proc=4 store=0 to=0 -> 0 # 40
deliver msg=40 -> 0
""" + learn(0, 3, 3, 41) + """
follow coord=0 proc=3 tx=1 -> 5 # not the holder any more
follow coord=0 proc=4 tx=1 -> 0 # 51
restore coord=0 proc=4 -> 0 # 52: one row, lists 2
deliver msg=52 -> 0
deliver msg=51 -> 0 # 1 is not listed: nothing
vote proc=2 by=1 store=1 tx=2 list=03 say=commit upd=0000000d to=0 -> 0 # 53
deliver msg=53 -> 0
""" + learn(0, 4, 3, 54) + """
follow coord=0 proc=3 tx=2 -> 5
follow coord=0 proc=4 tx=2 -> 0 # 64
deliver msg=64 -> 0 # taken
deliver msg=39 -> 0 # taken by process 3
""" + learn(1, 0, 4, 65) + learn(1, 1, 4, 75) + learn(1, 2, 4, 85) + """
follow coord=1 proc=3 tx=2 -> 5 # it runs in this log
follow coord=1 proc=4 tx=1 -> 5 # not the holder in this log
follow coord=1 proc=3 tx=1 -> 0 # 95
deliver msg=95 -> 0 # one of 1 was taken: nothing
---
coord=0 applied=5
tx=1 outcome=commit group=1
tx=2 outcome=commit group=1
store=0 holder=4
store=1 holder=2
store=0 group=1 tx=1 upd=000000000000000a
store=0 group=1 tx=2 upd=000000000000000b
store=1 group=1 tx=1 upd=000000000000000c
store=1 group=1 tx=2 upd=000000000000000d
coord=1 applied=3
tx=1 outcome=commit group=1
tx=2 outcome=open group=0
store=0 holder=3
store=1 holder=2
store=0 group=1 tx=1 upd=000000000000000a
store=1 group=1 tx=1 upd=000000000000000c
coord=2 applied=0
proc=1 store=0 position=1
proc=2 store=1 position=1
proc=3 store=0 position=2
running=1
running=2
follow=1 outcome=commit upd=000000000000000a
proc=4 store=0 position=4
store=0 group=1 tx=1 upd=000000000000000a
running=2
follow=2 outcome=commit upd=000000000000000b
"""

# An update is a number of 64 bits. Eight digits and sixteen that mean the same number make one
# entry, which joins once. One that differs in the high half alone, or in the low half alone, is
# another: the eighth fills the queue. The first four are learned, and the first of them is kept.
UPDATES_QUEUED = ONE_HOLDER + """
vote proc=1 by=0 store=0 tx=4 list=01 say=commit upd=0000000a to=0 -> 0 # 12
vote proc=1 by=0 store=0 tx=4 list=01 say=commit upd=000000000000000a to=0 -> 0 # 13, as 12
vote proc=1 by=0 store=0 tx=4 list=01 say=commit upd=000000010000000a to=0 -> 0 # 14, the high half
vote proc=1 by=0 store=0 tx=4 list=01 say=commit upd=000000000000000b to=0 -> 0 # 15, the low half
vote proc=1 by=0 store=0 tx=4 list=01 say=commit upd=0000000a00000000 to=0 -> 0 # 16
vote proc=1 by=0 store=0 tx=4 list=01 say=commit upd=0000000a0000000a to=0 -> 0 # 17
vote proc=1 by=0 store=0 tx=4 list=01 say=commit upd=800000000000000a to=0 -> 0 # 18
vote proc=1 by=0 store=0 tx=4 list=01 say=commit upd=0000000000000000 to=0 -> 0 # 19
vote proc=1 by=0 store=0 tx=4 list=01 say=commit upd=00000000ffffffff to=0 -> 0 # 20
vote proc=1 by=0 store=0 tx=4 list=01 say=commit upd=ffffffff to=0 -> 0 # 21, as 20
vote proc=1 by=0 store=0 tx=4 list=01 say=commit upd=ffffffffffffffff to=0 -> 0 # 22
deliver msg=12 -> 0
deliver msg=13 -> 0 # there already
deliver msg=14 -> 0
deliver msg=15 -> 0
deliver msg=16 -> 0
deliver msg=17 -> 0
deliver msg=18 -> 0
deliver msg=19 -> 0
deliver msg=20 -> 0 # the eighth
deliver msg=22 -> 6
deliver msg=13 -> 0 # there already
deliver msg=21 -> 0 # there already
""" + learn(0, 1, 3, 23) + """
deliver msg=22 -> 0 # the fifth, after 17 to 20
deliver msg=13 -> 0 # queued again
deliver msg=12 -> 0 # there already
deliver msg=14 -> 0
deliver msg=15 -> 0 # the eighth
deliver msg=16 -> 6
---
coord=0 applied=2
tx=4 outcome=commit group=1
store=0 holder=1
store=0 group=1 tx=4 upd=000000000000000a
coord=1 applied=0
coord=2 applied=0
proc=1 store=0 position=1
"""

# Coordinator 1 has the vote in sixteen digits, coordinators 0 and 2 have it in eight. Coordinator 1
# proposes it, and all three learn it. It leaves coordinator 0's queue, which is empty then. In
# coordinator 2's full queue it makes one place: the votes with another high or low half stay.
UPDATES_LEARNED = ONE_HOLDER + """
vote proc=1 by=0 store=0 tx=4 list=01 say=commit upd=89abcdef to=0 -> 0 # 12
vote proc=1 by=0 store=0 tx=4 list=01 say=commit upd=0000000089abcdef to=1 -> 0 # 13
vote proc=1 by=0 store=0 tx=4 list=01 say=commit upd=0000000189abcdef to=2 -> 0 # 14
vote proc=1 by=0 store=0 tx=4 list=01 say=commit upd=0000000089abcdee to=2 -> 0 # 15
vote proc=1 by=0 store=0 tx=4 list=01 say=commit upd=89abcdef to=2 -> 0 # 16
take proc=2 store=1 to=2 -> 0 # 17
take proc=3 store=2 to=2 -> 0 # 18
take proc=4 store=3 to=2 -> 0 # 19
take proc=5 store=4 to=2 -> 0 # 20
take proc=6 store=5 to=2 -> 0 # 21
take proc=7 store=6 to=2 -> 0 # 22
take proc=8 store=7 to=2 -> 0 # 23
""" + "".join("deliver msg=%d -> 0\n" % n for n in range(12, 22)) + """
deliver msg=22 -> 6 # 14 to 21 are queued
""" + learn(1, 0, 4, 24) + learn(1, 1, 1, 34) + learn(0, 1, 3, 44) + """
open coord=0 inst=2 ballot=3 -> 0 # 54 55 56
deliver msg=54 -> 0 # 57
deliver msg=55 -> 0 # 58
deliver msg=57 -> 0
deliver msg=58 -> 0
propose coord=0 inst=2 ballot=3 -> 5 # nothing to propose
""" + learn(2, 0, 5, 59) + learn(2, 1, 5, 69) + """
deliver msg=22 -> 0 # in the place of 16
deliver msg=23 -> 6
---
coord=0 applied=2
tx=4 outcome=commit group=1
store=0 holder=1
store=0 group=1 tx=4 upd=0000000089abcdef
coord=1 applied=2
tx=4 outcome=commit group=1
store=0 holder=1
store=0 group=1 tx=4 upd=0000000089abcdef
coord=2 applied=2
tx=4 outcome=commit group=1
store=0 holder=1
store=0 group=1 tx=4 upd=0000000089abcdef
proc=1 store=0 position=1
"""

# All 64 bits stand in the log's rows, in a restore's rows and in follows. 6 commits while 4 and 5
# run, which join its group; 7 and 8 commit by their first vote.
UPDATES_PRINTED = TWO_HOLDERS + """
vote proc=1 by=0 store=0 tx=4 list=03 say=commit upd=0123456789abcdef to=0 -> 0 # 14
vote proc=1 by=0 store=0 tx=5 list=03 say=commit upd=fedcba9876543210 to=0 -> 0 # 15
take proc=3 store=0 to=0 -> 0 # 16
vote proc=2 by=1 store=1 tx=6 list=02 say=commit upd=8000000000000000 to=0 -> 0 # 17
deliver msg=14 -> 0
deliver msg=15 -> 0
deliver msg=16 -> 0
deliver msg=17 -> 0
""" + learn(0, 1, 3, 18) + """
restore coord=0 proc=3 -> 0 # 28: no row, lists 4 and 5
deliver msg=28 -> 0
vote proc=2 by=1 store=1 tx=4 list=03 say=commit upd=0000000100000000 to=0 -> 0 # 29
vote proc=2 by=1 store=1 tx=5 list=03 say=commit upd=ffffffff00000000 to=0 -> 0 # 30
vote proc=2 by=1 store=1 tx=7 list=02 say=commit upd=89abcdef to=0 -> 0 # 31
vote proc=2 by=1 store=1 tx=8 list=02 say=commit upd=ffffffffffffffff to=0 -> 0 # 32
deliver msg=29 -> 0
deliver msg=30 -> 0
deliver msg=31 -> 0
deliver msg=32 -> 0
""" + learn(0, 2, 3, 33) + """
follow coord=0 proc=3 tx=4 -> 0 # 43
follow coord=0 proc=3 tx=5 -> 0 # 44
deliver msg=44 -> 0
deliver msg=43 -> 0
restore coord=0 proc=2 -> 0 # 45
deliver msg=45 -> 0
---
coord=0 applied=3
tx=4 outcome=commit group=1
tx=5 outcome=commit group=1
tx=6 outcome=commit group=1
tx=7 outcome=commit group=2
tx=8 outcome=commit group=3
store=0 holder=3
store=1 holder=2
store=0 group=1 tx=4 upd=0123456789abcdef
store=0 group=1 tx=5 upd=fedcba9876543210
store=1 group=1 tx=4 upd=0000000100000000
store=1 group=1 tx=5 upd=ffffffff00000000
store=1 group=1 tx=6 upd=8000000000000000
store=1 group=2 tx=7 upd=0000000089abcdef
store=1 group=3 tx=8 upd=ffffffffffffffff
coord=1 applied=0
coord=2 applied=0
proc=1 store=0 position=1
proc=2 store=1 position=3
store=1 group=1 tx=4 upd=0000000100000000
store=1 group=1 tx=5 upd=ffffffff00000000
store=1 group=1 tx=6 upd=8000000000000000
store=1 group=2 tx=7 upd=0000000089abcdef
store=1 group=3 tx=8 upd=ffffffffffffffff
proc=3 store=0 position=2
running=4
running=5
follow=4 outcome=commit upd=0123456789abcdef
follow=5 outcome=commit upd=fedcba9876543210
"""

# An abort's update is 0 in all 64 bits, else 7. Only eight or sixteen digits in lower case read.
UPDATES_REFUSED = ONE_HOLDER + """
vote proc=1 by=0 store=0 tx=4 list=01 say=abort upd=0000000100000000 to=0 -> 7
vote proc=1 by=0 store=0 tx=4 list=01 say=abort upd=8000000000000000 to=0 -> 7
vote proc=1 by=0 store=0 tx=4 list=01 say=abort upd=0000000000000001 to=0 -> 7
vote proc=1 by=0 store=0 tx=4 list=01 say=abort upd=00000001 to=0 -> 7
vote proc=1 by=0 store=1 tx=4 list=03 say=abort upd=0000000100000000 to=0 -> 7
vote proc=2 by=1 store=1 tx=4 list=02 say=abort upd=0000000100000000 to=0 -> 5 # also 7
vote proc=1 by=0 store=0 tx=32 list=01 say=abort upd=0000000100000000 to=0 -> 2 # also 7
vote proc=1 by=0 store=0 tx=4 list=01 say=commit upd= to=0 -> 1
vote proc=1 by=0 store=0 tx=4 list=01 say=commit upd=000000a to=0 -> 1 # seven
vote proc=1 by=0 store=0 tx=4 list=01 say=commit upd=00000000a to=0 -> 1 # nine
vote proc=1 by=0 store=0 tx=4 list=01 say=commit upd=00000000000000a to=0 -> 1 # fifteen
vote proc=1 by=0 store=0 tx=4 list=01 say=commit upd=0000000000000000a to=0 -> 1 # seventeen
vote proc=1 by=0 store=0 tx=4 list=01 say=commit upd=00000000 0000000a to=0 -> 1
vote proc=1 by=0 store=0 tx=4 list=01 say=commit upd=0000000A to=0 -> 1
vote proc=1 by=0 store=0 tx=4 list=01 say=commit upd=000000000000000A to=0 -> 1
vote proc=1 by=0 store=0 tx=32 list=01 say=commit upd=000000000000000A to=0 -> 1 # also 2
vote proc=1 by=0 store=0 tx=4 list=01 say=abort upd=0000000000000000 to=0 -> 0 # 12
vote proc=1 by=0 store=0 tx=4 list=01 say=abort upd=00000000 to=0 -> 0 # 13
deliver msg=12 -> 0
deliver msg=13 -> 0 # there already
""" + learn(0, 1, 3, 14) + """
tell coord=0 proc=1 tx=4 -> 0 # 24
deliver msg=24 -> 0
---
coord=0 applied=2
tx=4 outcome=abort group=0
store=0 holder=1
coord=1 applied=0
coord=2 applied=0
proc=1 tx=4 heard=abort
proc=1 store=0 position=1
"""

# A machine votes, crashes and comes back with turn 2: it has heard nothing and holds nothing. Lines
# of turn 1 and of a turn to come are refused 5. It takes its store again, is restored, and votes.
BACK = ONE_HOLDER + """
vote proc=1 by=0 store=0 tx=4 list=01 say=commit upd=0000000a to=0 -> 0 # 12
deliver msg=12 -> 0
""" + learn(0, 1, 3, 13) + """
tell coord=0 proc=1 tx=4 -> 0 # 23
deliver msg=23 -> 0 # heard
crash role=proc id=1 -> 0
take proc=1 turn=2 store=0 to=0 -> 3 # also 5
back proc=1 turn=2 -> 0 # no number used
take proc=1 store=0 to=0 -> 5 # turn 1
take proc=1 turn=1 store=0 to=0 -> 5
take proc=1 turn=3 store=0 to=0 -> 5
vote proc=1 by=0 store=0 tx=5 list=01 say=commit upd=0000000b to=0 -> 5 # turn 1
vote proc=1 turn=2 by=0 store=0 tx=5 list=01 say=commit upd=0000000b to=0 -> 5 # holds nothing
take proc=1 turn=2 store=0 to=0 -> 0 # 24
deliver msg=24 -> 0
""" + learn(0, 2, 3, 25) + """
restore coord=0 proc=1 -> 0 # 35: turn 2, position 3, one row
deliver msg=35 -> 0
vote proc=1 turn=2 by=0 store=0 tx=5 list=01 say=commit upd=0000000b to=0 -> 0 # 36
deliver msg=36 -> 0
""" + learn(0, 3, 3, 37) + """
tell coord=0 proc=1 tx=5 -> 0 # 47
deliver msg=47 -> 0
---
coord=0 applied=4
tx=4 outcome=commit group=1
tx=5 outcome=commit group=2
store=0 holder=1
store=0 group=1 tx=4 upd=000000000000000a
store=0 group=2 tx=5 upd=000000000000000b
coord=1 applied=0
coord=2 applied=0
proc=1 tx=5 heard=commit
proc=1 store=0 position=3
store=0 group=1 tx=4 upd=000000000000000a
"""

# A back needs a turn above the present one, 1 at setup. It is 5 before setup, never 3 and never 6:
# one of a process that is down, and with no number left, is accepted. Acceptors and coordinators do
# not come back. After a refused back a process that was down is down. 1 number, 42 opens and a take
# are 128.
BACK_REFUSED = ("""
back proc=1 turn=2 -> 5 # no setup
back proc=1 turn=1 -> 5
back proc=0 turn=2 -> 2
back proc=16 turn=2 -> 2
back proc=1 turn=0 -> 2
back proc=1 turn=256 -> 2
back proc=1 turn=999 -> 2
back proc=1 turn=18446744073709551618 -> 2
back proc=1 -> 1
back proc=1 turn= -> 1
back proc=1 turn=02 -> 1
back proc=16 turn=02 -> 1 # also 2
back proc=1 turn=2 turn=2 -> 1
back proc=1 turn=2 to=0 -> 1
back turn=2 proc=1 -> 1
back turn=2 -> 1
back -> 1
back role=proc id=1 turn=2 -> 1
back  proc=1 turn=2 -> 1
backs proc=1 turn=2 -> 1
setup acceptors=3 -> 0
back proc=1 turn=1 -> 5 # it is 1 at setup
back proc=1 turn=2 -> 0 # of one that is up
back proc=1 turn=2 -> 5
back proc=1 turn=1 -> 5
back proc=1 turn=0 -> 2
crash role=proc id=1 -> 0
back proc=1 turn=2 -> 5
crash role=proc id=1 -> 3 # still down
back proc=1 turn=9 -> 0 # turns may be left out
crash role=proc id=1 -> 0 # it was up again
back proc=1 turn=255 -> 0
back proc=1 turn=255 -> 5
back proc=1 turn=254 -> 5
back proc=1 turn=256 -> 2
crash role=proc id=1 -> 0
back proc=1 turn=255 -> 5 # never again
take proc=1 turn=255 store=0 to=0 -> 3
crash role=coord id=2 -> 0
crash role=acceptor id=2 -> 0
crash role=proc id=2 -> 0
back proc=2 turn=2 -> 0 # the process alone
crash role=coord id=2 -> 3
crash role=acceptor id=2 -> 3
take proc=2 turn=2 store=0 to=2 -> 3
take proc=2 turn=2 store=0 to=0 -> 0 # 0
""" + "".join("open coord=0 inst=0 ballot=%d -> 0\n" % (3 * k) for k in range(1, 43)) + """
take proc=3 store=1 to=0 -> 0 # 127
take proc=2 turn=2 store=0 to=0 -> 6
take proc=2 turn=3 store=0 to=0 -> 5 # also 6
back proc=2 turn=3 -> 0 # needs no number
take proc=2 turn=3 store=0 to=0 -> 6
take proc=2 turn=2 store=0 to=0 -> 5
crash role=proc id=3 -> 0
back proc=3 turn=2 -> 0
deliver msg=127 -> 0
---
""" + NOTHING)

# turn= stands behind proc= of a take or a vote, or not at all; anywhere else, and in lines of other
# steps, the line does not read. One that names turn 1 is the same as one that names none.
TURN_LINES = ONE_HOLDER + """
take turn=1 proc=2 store=1 to=0 -> 1
take proc=2 store=1 turn=1 to=0 -> 1
take proc=2 store=1 to=0 turn=1 -> 1
take proc=2 turn=1 turn=1 store=1 to=0 -> 1
take proc=2 turn= store=1 to=0 -> 1
take proc=2 turn store=1 to=0 -> 1
take proc=2 turn=01 store=1 to=0 -> 1
take proc=2 turn=00 store=1 to=0 -> 1
take proc=2 turn=-1 store=1 to=0 -> 1
take proc=2 turn=1  store=1 to=0 -> 1
take proc=2 Turn=1 store=1 to=0 -> 1
take proc=2 turn=0 store=1 to=0 -> 2
take proc=2 turn=256 store=1 to=0 -> 2
take proc=2 turn=4294967297 store=1 to=0 -> 2
take proc=2 turn=0 store=01 to=0 -> 1 # also 2
take proc=2 turn=1 store=1 to=0 -> 0 # 12
take proc=2 store=1 to=0 -> 0 # 13, as 12
vote turn=1 proc=1 by=0 store=0 tx=4 list=01 say=commit upd=0000000a to=0 -> 1
vote proc=1 by=0 turn=1 store=0 tx=4 list=01 say=commit upd=0000000a to=0 -> 1
vote proc=1 by=0 store=0 turn=1 tx=4 list=01 say=commit upd=0000000a to=0 -> 1
vote proc=1 by=0 store=0 tx=4 turn=1 list=01 say=commit upd=0000000a to=0 -> 1
vote proc=1 by=0 store=0 tx=4 list=01 turn=1 say=commit upd=0000000a to=0 -> 1
vote proc=1 by=0 store=0 tx=4 list=01 say=commit turn=1 upd=0000000a to=0 -> 1
vote proc=1 by=0 store=0 tx=4 list=01 say=commit upd=0000000a turn=1 to=0 -> 1
vote proc=1 by=0 store=0 tx=4 list=01 say=commit upd=0000000a to=0 turn=1 -> 1
vote proc=1 turn=1 turn=1 by=0 store=0 tx=4 list=01 say=commit upd=0000000a to=0 -> 1
vote proc=1 turn=01 by=0 store=0 tx=4 list=01 say=commit upd=0000000a to=0 -> 1
vote proc=1 turn= by=0 store=0 tx=4 list=01 say=commit upd=0000000a to=0 -> 1
vote proc=1 turn=0 by=0 store=0 tx=4 list=01 say=commit upd=0000000a to=0 -> 2
vote proc=1 turn=256 by=0 store=0 tx=4 list=01 say=commit upd=0000000a to=0 -> 2
vote proc=1 turn=1 by=0 store=0 tx=4 list=01 say=commit upd=0000000a to=0 -> 0 # 14
vote proc=1 by=0 store=0 tx=4 list=01 say=commit upd=000000000000000a to=0 -> 0 # 15, as 14
setup acceptors=3 turn=1 -> 1
open coord=0 inst=1 ballot=3 turn=1 -> 1
open coord=0 turn=1 inst=1 ballot=3 -> 1
propose coord=0 inst=1 ballot=3 turn=1 -> 1
deliver msg=12 turn=1 -> 1
tell coord=0 proc=1 turn=1 tx=4 -> 1
tell coord=0 proc=1 tx=4 turn=1 -> 1
restore coord=0 proc=1 turn=1 -> 1
follow coord=0 proc=1 turn=1 tx=4 -> 1
follow coord=0 proc=1 tx=4 turn=1 -> 1
crash role=proc id=1 turn=1 -> 1
turn=1 -> 1
deliver msg=12 -> 0
deliver msg=13 -> 0 # there already
deliver msg=14 -> 0
deliver msg=15 -> 0 # there already
""" + learn(0, 1, 3, 16) + """
open coord=0 inst=2 ballot=3 -> 0 # 26 27 28
deliver msg=26 -> 0 # 29
deliver msg=27 -> 0 # 30
deliver msg=29 -> 0
deliver msg=30 -> 0
propose coord=0 inst=2 ballot=3 -> 5 # nothing to propose
---
coord=0 applied=2
tx=4 outcome=commit group=1
store=0 holder=1
store=1 holder=2
store=0 group=1 tx=4 upd=000000000000000a
coord=1 applied=0
coord=2 applied=0
proc=1 store=0 position=1
"""

# A sent vote or take of another turn than the process's: 5, after 1, 2 and 3, before 6 and 7. 12
# and 13 are votes; 38 opens use up the numbers.
TURNS_SENT = (ONE_HOLDER + """
vote proc=1 turn=2 by=0 store=0 tx=0 list=01 say=commit upd=00000000 to=0 -> 5
vote proc=1 turn=255 by=0 store=0 tx=0 list=01 say=commit upd=00000000 to=0 -> 5
vote proc=1 turn=2 by=0 store=0 tx=0 list=02 say=commit upd=00000000 to=0 -> 5 # also 7
vote proc=1 turn=2 by=0 store=1 tx=0 list=03 say=commit upd=00000000 to=0 -> 5 # also 7
vote proc=1 turn=2 by=1 store=1 tx=0 list=02 say=commit upd=00000000 to=0 -> 5 # nor does it hold 1
vote proc=1 turn=1 by=0 store=0 tx=0 list=02 say=commit upd=00000000 to=0 -> 7
vote proc=1 turn=1 by=0 store=0 tx=0 list=01 say=commit upd=00000000 to=0 -> 0 # 12
vote proc=1 turn=2 by=0 store=1 tx=0 list=03 say=abort upd=00000000 to=0 -> 5
vote proc=1 turn=1 by=0 store=1 tx=0 list=03 say=abort upd=00000000 to=0 -> 0 # 13
take proc=1 turn=2 store=0 to=0 -> 5
take proc=2 turn=2 store=1 to=0 -> 5
crash role=coord id=2 -> 0
vote proc=1 turn=2 by=0 store=0 tx=0 list=01 say=commit upd=00000000 to=2 -> 3 # also 5
take proc=2 turn=2 store=1 to=2 -> 3 # also 5
vote proc=1 turn=2 by=0 store=0 tx=32 list=01 say=commit upd=00000000 to=2 -> 2
crash role=proc id=2 -> 0
take proc=2 turn=2 store=1 to=0 -> 3 # also 5
back proc=2 turn=2 -> 0
take proc=2 turn=1 store=1 to=2 -> 3 # also 5
take proc=2 turn=2 store=1 to=2 -> 3
""" + "".join("open coord=0 inst=1 ballot=%d -> 0\n" % (3 * k) for k in range(1, 39)) + """
vote proc=1 turn=2 by=0 store=0 tx=0 list=01 say=commit upd=00000000 to=0 -> 5 # also 6
vote proc=1 turn=2 by=0 store=0 tx=0 list=02 say=commit upd=00000000 to=0 -> 5 # also 6 and 7
vote proc=1 turn=1 by=0 store=0 tx=0 list=02 say=commit upd=00000000 to=0 -> 6 # also 7
take proc=2 turn=1 store=1 to=0 -> 5 # also 6
take proc=2 turn=2 store=1 to=0 -> 6
---
coord=0 applied=1
store=0 holder=1
coord=1 applied=0
coord=2 applied=0
proc=1 store=0 position=1
""")

# Three votes of turn 1 are on the wire when the machine comes back. What counts is the take of turn
# 2 in the log, not the back: the first vote is decided before that take is sent, the second before
# it in one batch, and both are kept. The third, behind it, is refused 12, and once more later.
LATE_VOTES = ONE_HOLDER + """
vote proc=1 by=0 store=0 tx=1 list=01 say=commit upd=0000000a to=0 -> 0 # 12
vote proc=1 by=0 store=0 tx=2 list=01 say=commit upd=0000000b to=0 -> 0 # 13
vote proc=1 by=0 store=0 tx=3 list=01 say=commit upd=0000000c to=0 -> 0 # 14
crash role=proc id=1 -> 0
back proc=1 turn=2 -> 0
deliver msg=12 -> 0
""" + learn(0, 1, 3, 15) + """
take proc=1 turn=2 store=0 to=0 -> 0 # 25
deliver msg=13 -> 0
deliver msg=25 -> 0
deliver msg=14 -> 0
""" + learn(0, 2, 3, 26) + """
tell coord=0 proc=1 tx=2 -> 0 # 36
tell coord=0 proc=1 tx=3 -> 5 # no vote is kept
restore coord=0 proc=1 -> 0 # 37: two rows
deliver msg=37 -> 0
vote proc=1 turn=2 by=0 store=0 tx=3 list=01 say=commit upd=0000000d to=0 -> 0 # 38
deliver msg=14 -> 0 # of turn 1, queued again
deliver msg=38 -> 0
""" + learn(0, 3, 3, 39) + """
---
coord=0 applied=4
tx=1 outcome=commit group=1
tx=2 outcome=commit group=2
tx=3 outcome=commit group=3
store=0 holder=1
store=0 group=1 tx=1 upd=000000000000000a
store=0 group=2 tx=2 upd=000000000000000b
store=0 group=3 tx=3 upd=000000000000000d
coord=1 applied=0
coord=2 applied=0
proc=1 store=0 position=3
store=0 group=1 tx=1 upd=000000000000000a
store=0 group=2 tx=2 upd=000000000000000b
"""

# The same of votes on behalf: it is the holder of by whose turn counts. Process 1 votes abort for
# store 1 in turn 1: kept before its take of turn 2, refused behind it. In turn 2 its vote for store
# 1 is kept, though the holder of store 1 is in turn 1.
LATE_ON_BEHALF = TWO_HOLDERS + """
vote proc=1 by=0 store=1 tx=1 list=03 say=abort upd=00000000 to=0 -> 0 # 14
vote proc=1 by=0 store=1 tx=2 list=03 say=abort upd=00000000 to=0 -> 0 # 15
back proc=1 turn=2 -> 0
take proc=1 turn=2 store=0 to=0 -> 0 # 16
deliver msg=14 -> 0
deliver msg=16 -> 0
deliver msg=15 -> 0
""" + learn(0, 1, 3, 17) + """
tell coord=0 proc=3 tx=1 -> 0 # 27
tell coord=0 proc=3 tx=2 -> 5
restore coord=0 proc=1 -> 0 # 28
deliver msg=28 -> 0
vote proc=1 turn=2 by=0 store=1 tx=3 list=03 say=abort upd=00000000 to=0 -> 0 # 29
vote proc=2 by=1 store=1 tx=2 list=02 say=commit upd=0000000a to=0 -> 0 # 30
vote proc=2 by=1 store=0 tx=4 list=03 say=abort upd=00000000 to=0 -> 0 # 31, of turn 1 as its holder
deliver msg=29 -> 0
deliver msg=30 -> 0
deliver msg=31 -> 0
""" + learn(0, 2, 3, 32) + """
---
coord=0 applied=3
tx=1 outcome=abort group=0
tx=2 outcome=commit group=1
tx=3 outcome=abort group=0
tx=4 outcome=abort group=0
store=0 holder=1
store=1 holder=2
store=1 group=1 tx=2 upd=000000000000000a
coord=1 applied=0
coord=2 applied=0
proc=1 store=0 position=2
proc=2 store=1 position=1
"""

# A take of turn 1 comes late and is accepted: the machine holds store 0 in a turn that is over.
# Its take of store 1 in turn 2 is then refused 11. The restore names turn 1, and is not taken.
# What helps is to take store 0 in turn 2, or that another process takes it.
LATE_TAKE = """
setup acceptors=3 -> 0
take proc=1 store=0 to=0 -> 0 # 0
back proc=1 turn=2 -> 0
take proc=1 turn=2 store=1 to=0 -> 0 # 1
deliver msg=0 -> 0
deliver msg=1 -> 0
""" + learn(0, 0, 3, 2) + """
restore coord=0 proc=1 -> 0 # 12: store 0, turn 1
deliver msg=12 -> 0 # not its turn: nothing
vote proc=1 turn=2 by=0 store=0 tx=0 list=01 say=commit upd=00000001 to=0 -> 5
deliver msg=1 -> 0
""" + learn(0, 1, 3, 13) + """
take proc=1 turn=2 store=0 to=0 -> 0 # 23
deliver msg=23 -> 0
""" + learn(0, 2, 3, 24) + """
restore coord=0 proc=1 -> 0 # 34: store 0, turn 2
deliver msg=34 -> 0
vote proc=1 turn=2 by=0 store=0 tx=0 list=01 say=commit upd=00000001 to=0 -> 0 # 35, never delivered
take proc=2 store=0 to=0 -> 0 # 36
deliver msg=36 -> 0
deliver msg=1 -> 0
""" + learn(0, 3, 3, 37) + """
restore coord=0 proc=1 -> 0 # 47: store 1, turn 2
restore coord=0 proc=2 -> 0 # 48, never delivered
deliver msg=47 -> 0
---
coord=0 applied=4
store=0 holder=2
store=1 holder=1
coord=1 applied=0
coord=2 applied=0
proc=1 store=1 position=4
"""

# Two takes of turn 1 come behind one of turn 2, which process 3 has replaced: 12, though process 1
# holds nothing and held neither store. In turn 2 it may take one of them.
LATE_TAKES_REFUSED = """
setup acceptors=3 -> 0
take proc=1 store=0 to=0 -> 0 # 0
take proc=1 store=1 to=0 -> 0 # 1
back proc=1 turn=2 -> 0
take proc=1 turn=2 store=2 to=0 -> 0 # 2
take proc=3 store=2 to=0 -> 0 # 3
deliver msg=2 -> 0
deliver msg=3 -> 0
deliver msg=0 -> 0
deliver msg=1 -> 0
""" + learn(0, 0, 3, 4) + """
restore coord=0 proc=1 -> 5 # holds nothing
take proc=1 turn=2 store=1 to=0 -> 0 # 14
deliver msg=0 -> 0
deliver msg=14 -> 0
""" + learn(0, 1, 3, 15) + """
restore coord=0 proc=1 -> 0 # 25
deliver msg=25 -> 0
---
coord=0 applied=2
store=1 holder=1
store=2 holder=3
coord=1 applied=0
coord=2 applied=0
proc=1 store=1 position=2
"""

# Process 1 held store 0 in turn 1 and store 1 in turn 2, and lost both. In turn 2 it may not take
# store 0 (12), which it held at any time; it has to come back once more.
HELD_BEFORE = """
setup acceptors=3 -> 0
take proc=1 store=0 to=0 -> 0 # 0
take proc=2 store=0 to=0 -> 0 # 1
back proc=1 turn=2 -> 0
take proc=1 turn=2 store=1 to=0 -> 0 # 2
take proc=3 store=1 to=0 -> 0 # 3
take proc=1 turn=2 store=0 to=0 -> 0 # 4
deliver msg=0 -> 0
deliver msg=1 -> 0
deliver msg=2 -> 0
deliver msg=3 -> 0
deliver msg=4 -> 0
""" + learn(0, 0, 3, 5) + learn(0, 1, 3, 15) + """
restore coord=0 proc=1 -> 5 # refused
back proc=1 turn=3 -> 0
take proc=1 turn=3 store=0 to=0 -> 0 # 25
deliver msg=25 -> 0
deliver msg=4 -> 0 # of turn 2, behind it: 12
""" + learn(0, 2, 3, 26) + """
restore coord=0 proc=2 -> 5
restore coord=0 proc=1 -> 0 # 36
deliver msg=36 -> 0
---
coord=0 applied=3
store=0 holder=1
store=1 holder=3
coord=1 applied=0
coord=2 applied=0
proc=1 store=0 position=3
"""

# A restore names the turn of the holder in its sender's log. It is sent whatever turn the process
# is in, and uses a number; it is taken in that turn alone. Coordinator 1 learns two instances: in
# its log the holder is in turn 2.
RESTORES_OF_TURNS = ONE_HOLDER + """
restore coord=0 proc=1 -> 0 # 12: turn 1
back proc=1 turn=2 -> 0 # its store, its position are gone
deliver msg=12 -> 0 # nothing
deliver msg=11 -> 0 # nothing
restore coord=0 proc=1 -> 0 # 13: turn 1
deliver msg=13 -> 0 # nothing
vote proc=1 turn=2 by=0 store=0 tx=0 list=01 say=commit upd=00000001 to=0 -> 5
take proc=1 turn=2 store=0 to=0 -> 0 # 14
deliver msg=14 -> 0
""" + learn(0, 1, 3, 15) + """
restore coord=0 proc=1 -> 0 # 25: turn 2, position 2
back proc=1 turn=3 -> 0
deliver msg=25 -> 0 # nothing
restore coord=0 proc=1 -> 0 # 26: turn 2
deliver msg=26 -> 0 # nothing
take proc=1 turn=3 store=0 to=0 -> 0 # 27
deliver msg=27 -> 0
""" + learn(0, 2, 3, 28) + """
restore coord=0 proc=1 -> 0 # 38: turn 3, position 3
deliver msg=26 -> 0 # nothing
deliver msg=38 -> 0 # taken
deliver msg=13 -> 0 # nothing
""" + learn(1, 0, 4, 39) + learn(1, 1, 4, 49) + """
restore coord=1 proc=1 -> 0 # 59: turn 2, position 2
deliver msg=59 -> 0 # nothing
vote proc=1 turn=3 by=0 store=0 tx=0 list=01 say=commit upd=00000001 to=0 -> 0 # 60
---
coord=0 applied=3
store=0 holder=1
coord=1 applied=2
store=0 holder=1
coord=2 applied=0
proc=1 store=0 position=3
"""

# A tell names no turn: sent before the machine came back, it is heard after it. What was heard
# before is gone, also what the new turn heard once it is over.
BACK_TELLS = ONE_HOLDER + """
vote proc=1 by=0 store=0 tx=4 list=01 say=commit upd=0000000a to=0 -> 0 # 12
vote proc=1 by=0 store=0 tx=5 list=01 say=abort upd=00000000 to=0 -> 0 # 13
deliver msg=12 -> 0
deliver msg=13 -> 0
""" + learn(0, 1, 3, 14) + """
tell coord=0 proc=1 tx=4 -> 0 # 24
tell coord=0 proc=1 tx=5 -> 0 # 25
tell coord=0 proc=2 tx=4 -> 0 # 26
deliver msg=24 -> 0
deliver msg=26 -> 0
crash role=proc id=1 -> 0
deliver msg=25 -> 3
tell coord=0 proc=1 tx=4 -> 3
back proc=1 turn=2 -> 0
deliver msg=25 -> 0 # heard
back proc=1 turn=5 -> 0
deliver msg=25 -> 0 # heard again
---
coord=0 applied=2
tx=4 outcome=commit group=1
tx=5 outcome=abort group=0
store=0 holder=1
store=0 group=1 tx=4 upd=000000000000000a
coord=1 applied=0
coord=2 applied=0
proc=1 tx=5 heard=abort
proc=2 tx=4 heard=commit
"""

# Follows name no turn either. One of 4 was taken before, and is gone; the others of 4 find no
# restore that lists it. The holder is asked for by its number, so one is sent to turn 2 before it
# took the store. Then a restore of turn 2 lists 5, which runs with this machine's own vote of turn
# 1, and the follow of 5 is taken.
BACK_FOLLOWS = TWO_HOLDERS + """
vote proc=1 by=0 store=0 tx=4 list=03 say=commit upd=0000000a to=0 -> 0 # 14
vote proc=1 by=0 store=0 tx=5 list=03 say=commit upd=0000000b to=0 -> 0 # 15
deliver msg=14 -> 0
deliver msg=15 -> 0
""" + learn(0, 1, 3, 16) + """
restore coord=0 proc=1 -> 0 # 26: lists 4 and 5
deliver msg=26 -> 0
vote proc=2 by=1 store=1 tx=4 list=03 say=commit upd=0000000c to=0 -> 0 # 27
deliver msg=27 -> 0
""" + learn(0, 2, 3, 28) + """
follow coord=0 proc=1 tx=4 -> 0 # 38
follow coord=0 proc=1 tx=4 -> 0 # 39
deliver msg=38 -> 0 # taken
back proc=1 turn=2 -> 0
deliver msg=39 -> 0 # no restore was taken: nothing
follow coord=0 proc=1 tx=4 -> 0 # 40
follow coord=0 proc=1 tx=5 -> 5 # it runs
deliver msg=40 -> 0 # nothing
take proc=1 turn=2 store=0 to=0 -> 0 # 41
deliver msg=41 -> 0
""" + learn(0, 3, 3, 42) + """
restore coord=0 proc=1 -> 0 # 52: position 4, one row, lists 5
deliver msg=52 -> 0
deliver msg=39 -> 0 # 4 is not listed: nothing
vote proc=2 by=1 store=1 tx=5 list=03 say=commit upd=0000000d to=0 -> 0 # 53
deliver msg=53 -> 0
""" + learn(0, 4, 3, 54) + """
follow coord=0 proc=1 tx=5 -> 0 # 64
deliver msg=64 -> 0 # taken
---
coord=0 applied=5
tx=4 outcome=commit group=1
tx=5 outcome=commit group=1
store=0 holder=1
store=1 holder=2
store=0 group=1 tx=4 upd=000000000000000a
store=0 group=1 tx=5 upd=000000000000000b
store=1 group=1 tx=4 upd=000000000000000c
store=1 group=1 tx=5 upd=000000000000000d
coord=1 applied=0
coord=2 applied=0
proc=1 store=0 position=4
store=0 group=1 tx=4 upd=000000000000000a
running=5
follow=5 outcome=commit upd=000000000000000b
proc=2 store=1 position=1
"""

# Takes that differ in their turn alone are different entries: those of turns 1 to 8 fill a queue.
# All are accepted, by four, as each is of a later turn. A restore in between names turn 4, and the
# machine is in turn 9 already.
TURNS_QUEUED = ("""
setup acceptors=3 -> 0
take proc=1 store=0 to=0 -> 0 # 0
take proc=1 turn=1 store=0 to=0 -> 0 # 1, as 0
""" + "".join("back proc=1 turn=%d -> 0\ntake proc=1 turn=%d store=0 to=0 -> 0\n" % (t, t)
              for t in range(2, 10))  # 2 to 9
                + "".join("deliver msg=%d -> 0\n" % n for n in range(9)) + """
deliver msg=9 -> 6
deliver msg=1 -> 0 # there already
deliver msg=8 -> 0 # there already
""" + learn(0, 0, 3, 10) + """
restore coord=0 proc=1 -> 0 # 20: turn 4
deliver msg=20 -> 0 # nothing
deliver msg=9 -> 0
deliver msg=8 -> 0 # there already
""" + learn(0, 1, 3, 21) + learn(0, 2, 3, 31) + """
deliver msg=0 -> 0 # queued again, and refused 12
deliver msg=9 -> 0 # the same
""" + learn(0, 3, 3, 41) + """
restore coord=0 proc=1 -> 0 # 51: turn 9
deliver msg=51 -> 0
---
coord=0 applied=4
store=0 holder=1
coord=1 applied=0
coord=2 applied=0
proc=1 store=0 position=4
""")

# Coordinator 1 learns the take of turn 2, and coordinator 0 learns it from the acceptors. In
# coordinator 0's queue that of turn 1 stays: in the next instance there is something to propose. It
# is refused 12, and then nothing is left.
TURNS_LEARNED = """
setup acceptors=3 -> 0
take proc=1 store=0 to=0 -> 0 # 0
back proc=1 turn=2 -> 0
take proc=1 turn=2 store=0 to=0 -> 0 # 1
take proc=1 turn=2 store=0 to=1 -> 0 # 2
deliver msg=0 -> 0
deliver msg=1 -> 0
deliver msg=2 -> 0
""" + learn(1, 0, 1, 3) + learn(0, 0, 3, 13) + learn(0, 1, 3, 23) + """
open coord=0 inst=2 ballot=3 -> 0 # 33 34 35
deliver msg=33 -> 0 # 36
deliver msg=34 -> 0 # 37
deliver msg=36 -> 0
deliver msg=37 -> 0
propose coord=0 inst=2 ballot=3 -> 5 # nothing to propose
restore coord=0 proc=1 -> 0 # 38: turn 2
deliver msg=38 -> 0
---
coord=0 applied=2
store=0 holder=1
coord=1 applied=1
store=0 holder=1
coord=2 applied=0
proc=1 store=0 position=2
"""

# A machine that took nothing comes back with turn 7: its first take has turn 7. It crashes again,
# and process 2 takes the store. It comes back with the last turn, 255, gets the store back, and can
# never come back again.
BACK_AGAIN = """
setup acceptors=3 -> 0
crash role=proc id=1 -> 0
back proc=1 turn=7 -> 0
take proc=1 turn=7 store=0 to=0 -> 0 # 0
deliver msg=0 -> 0
""" + learn(0, 0, 3, 1) + """
restore coord=0 proc=1 -> 0 # 11
deliver msg=11 -> 0
vote proc=1 turn=7 by=0 store=0 tx=0 list=01 say=commit upd=00000007 to=0 -> 0 # 12
deliver msg=12 -> 0
crash role=proc id=1 -> 0
crash role=proc id=1 -> 3
take proc=2 store=0 to=0 -> 0 # 13
deliver msg=13 -> 0
""" + learn(0, 1, 3, 14) + """
restore coord=0 proc=1 -> 3 # also 5
back proc=1 turn=255 -> 0
restore coord=0 proc=1 -> 5 # process 2 holds the store
deliver msg=11 -> 0 # nothing
take proc=1 turn=255 store=0 to=0 -> 0 # 24
deliver msg=24 -> 0
""" + learn(0, 2, 3, 25) + """
restore coord=0 proc=1 -> 0 # 35
deliver msg=35 -> 0
crash role=proc id=2 -> 0
back proc=2 turn=2 -> 0
take proc=2 turn=2 store=0 to=0 -> 0 # 36, never delivered
back proc=1 turn=255 -> 5
vote proc=1 turn=255 by=0 store=0 tx=1 list=01 say=commit upd=000000ff to=0 -> 0 # 37
deliver msg=37 -> 0
""" + learn(0, 3, 3, 38) + """
---
coord=0 applied=4
tx=0 outcome=commit group=1
tx=1 outcome=commit group=2
store=0 holder=1
store=0 group=1 tx=0 upd=0000000000000007
store=0 group=2 tx=1 upd=00000000000000ff
coord=1 applied=0
coord=2 applied=0
proc=1 store=0 position=3
store=0 group=1 tx=0 upd=0000000000000007
"""

BY_HAND = {
    "life": LIFE, "highest-ballot": HIGHEST, "queue": QUEUE, "numbers-used-up": NUMBERS, "late-acceptances": LATE, "before-setup": BEFORE,
    "takeover": TAKEOVER, "restores-out-of-order": RESTORES, "two-down": TWO_DOWN, "learned-on-line-1001": LINE_1001,
    "three-coordinators": THREE, "all-down": ALL_DOWN, "votes": VOTES, "other-instance": OTHER_INSTANCE, "older-ballot": OLDER_BALLOT,
    "replies-to-one-down": REPLIES, "vote-lists": LISTS, "accepts-without-a-number": ACCEPTS,
    "follow": FOLLOW, "follow-refused": FOLLOW_REFUSED, "follow-before-restore": FOLLOW_BEFORE_RESTORE,
    "follow-newer-restore": FOLLOW_NEWER_RESTORE, "follow-other-store": FOLLOW_OTHER_STORE, "follow-replaced": FOLLOW_REPLACED,
    "updates-queued": UPDATES_QUEUED, "updates-learned": UPDATES_LEARNED, "updates-printed": UPDATES_PRINTED, "updates-refused": UPDATES_REFUSED,
    "back": BACK, "back-refused": BACK_REFUSED, "back-again": BACK_AGAIN, "back-tells": BACK_TELLS,
    "back-follows": BACK_FOLLOWS, "turn-lines": TURN_LINES, "turns-sent": TURNS_SENT,
    "turns-queued": TURNS_QUEUED, "turns-learned": TURNS_LEARNED, "turns-held-before": HELD_BEFORE,
    "late-votes": LATE_VOTES, "late-votes-on-behalf": LATE_ON_BEHALF, "late-take": LATE_TAKE,
    "late-takes-refused": LATE_TAKES_REFUSED, "restores-of-turns": RESTORES_OF_TURNS,
}


def parts(text):
    """The step file and the expected output."""
    rows, report = text.split("---\n")
    pairs = [row.split(" -> ") for row in rows.splitlines() if row]
    steps = "".join("do=%s\n" % step for step, _ in pairs)
    answers = "".join("step=%d answer=%s\n" % (i, answer.split("#")[0].strip()) for i, (_, answer) in enumerate(pairs, 1))
    return steps.encode(), (answers + report).encode()
