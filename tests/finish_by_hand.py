"""Step files for `finish` with every answer and the printed list reasoned by hand from documents 01
and 02: a check on finish_reference.py.

The rows are as in world_by_hand.py. After the row of dashes stands what `finish` prints."""
from world_by_hand import learn

# One entry is queued and nothing else was done. With three acceptors the prepares are 1 2 3, the
# promises 4 5, the accepts 6 7 8 and the acceptances 9 10. The lowest ballot of coordinator 0 is 3.
FIRST = """
setup acceptors=3 -> 0
take proc=1 store=0 to=0 -> 0 # 0
deliver msg=0 -> 0
---
do=open coord=0 inst=0 ballot=3
do=deliver msg=1
do=deliver msg=2
do=deliver msg=4
do=deliver msg=5
do=propose coord=0 inst=0 ballot=3
do=deliver msg=6
do=deliver msg=7
do=deliver msg=9
do=deliver msg=10
"""

# The same of five: prepares 1 to 5, promises 6 7 8, accepts 9 to 13, acceptances 14 15 16. Only
# coordinator 2 has an entry, and its lowest ballot is 2.
FIRST_OF_FIVE = """
setup acceptors=5 -> 0
take proc=1 store=0 to=2 -> 0 # 0
deliver msg=0 -> 0
---
do=open coord=2 inst=0 ballot=2
do=deliver msg=1
do=deliver msg=2
do=deliver msg=3
do=deliver msg=6
do=deliver msg=7
do=deliver msg=8
do=propose coord=2 inst=0 ballot=2
do=deliver msg=9
do=deliver msg=10
do=deliver msg=11
do=deliver msg=14
do=deliver msg=15
do=deliver msg=16
"""

# A request that was sent and not delivered is in no queue.
NOT_DELIVERED = """
setup acceptors=3 -> 0
take proc=1 store=0 to=0 -> 0 # 0
---
"""

# Acceptors 1 and 2 of three are up: prepares 2 and 3 of 1 2 3, accepts 7 and 8 of 6 7 8.
ONE_DOWN = """
setup acceptors=3 -> 0
take proc=1 store=0 to=1 -> 0 # 0
deliver msg=0 -> 0
crash role=acceptor id=0 -> 0
---
do=open coord=1 inst=0 ballot=1
do=deliver msg=2
do=deliver msg=3
do=deliver msg=4
do=deliver msg=5
do=propose coord=1 inst=0 ballot=1
do=deliver msg=7
do=deliver msg=8
do=deliver msg=9
do=deliver msg=10
"""

# One of three is no majority.
TWO_DOWN = """
setup acceptors=3 -> 0
take proc=1 store=0 to=1 -> 0 # 0
deliver msg=0 -> 0
crash role=acceptor id=0 -> 0
crash role=acceptor id=2 -> 0
---
"""

# Acceptors 0, 2 and 4 of five are up: prepares 1 3 5 of 1 to 5, accepts 9 11 13 of 9 to 13.
TWO_OF_FIVE_DOWN = """
setup acceptors=5 -> 0
take proc=1 store=0 to=0 -> 0 # 0
deliver msg=0 -> 0
crash role=acceptor id=3 -> 0
crash role=acceptor id=1 -> 0
---
do=open coord=0 inst=0 ballot=3
do=deliver msg=1
do=deliver msg=3
do=deliver msg=5
do=deliver msg=6
do=deliver msg=7
do=deliver msg=8
do=propose coord=0 inst=0 ballot=3
do=deliver msg=9
do=deliver msg=11
do=deliver msg=13
do=deliver msg=14
do=deliver msg=15
do=deliver msg=16
"""

# Coordinator 0 is down, coordinator 1 has no entry.
FIRST_DOWN = """
setup acceptors=3 -> 0
take proc=1 store=0 to=0 -> 0 # 0
take proc=2 store=1 to=2 -> 0 # 1
deliver msg=0 -> 0
deliver msg=1 -> 0
crash role=coord id=0 -> 0
---
do=open coord=2 inst=0 ballot=2
do=deliver msg=2
do=deliver msg=3
do=deliver msg=5
do=deliver msg=6
do=propose coord=2 inst=0 ballot=2
do=deliver msg=7
do=deliver msg=8
do=deliver msg=10
do=deliver msg=11
"""

# Acceptor 2 promised 8 and is down. No other promised anything, and yet 8 counts: the lowest ballot
# of coordinator 0 above it is 9.
PROMISED_BY_ONE_DOWN = """
setup acceptors=3 -> 0
take proc=1 store=0 to=0 -> 0 # 0
deliver msg=0 -> 0
open coord=2 inst=0 ballot=8 -> 0 # 1 2 3
deliver msg=3 -> 0 # 4
crash role=acceptor id=2 -> 0
---
do=open coord=0 inst=0 ballot=9
do=deliver msg=5
do=deliver msg=6
do=deliver msg=8
do=deliver msg=9
do=propose coord=0 inst=0 ballot=9
do=deliver msg=10
do=deliver msg=11
do=deliver msg=13
do=deliver msg=14
"""

# Acceptors 1, 2 and 3 of five promised 4 to its prepares, acceptor 0 by its accept. Then 1 and 2
# crash. Coordinator 2's lowest ballot above 4 is 5. Acceptors 0, 3 and 4 are asked: prepares 16 19
# 20 of 16 to 20, accepts 24 27 28 of 24 to 28.
PROMISED_BY_AN_ACCEPT = """
setup acceptors=5 -> 0
take proc=1 store=0 to=1 -> 0 # 0
take proc=2 store=1 to=2 -> 0 # 1
deliver msg=0 -> 0
deliver msg=1 -> 0
open coord=1 inst=0 ballot=4 -> 0 # 2 to 6
deliver msg=3 -> 0 # 7
deliver msg=4 -> 0 # 8
deliver msg=5 -> 0 # 9
deliver msg=7 -> 0
deliver msg=8 -> 0
deliver msg=9 -> 0
propose coord=1 inst=0 ballot=4 -> 0 # 10 to 14
deliver msg=10 -> 0 # 15
crash role=acceptor id=1 -> 0
crash role=acceptor id=2 -> 0
crash role=coord id=1 -> 0
---
do=open coord=2 inst=0 ballot=5
do=deliver msg=16
do=deliver msg=19
do=deliver msg=20
do=deliver msg=21
do=deliver msg=22
do=deliver msg=23
do=propose coord=2 inst=0 ballot=5
do=deliver msg=24
do=deliver msg=27
do=deliver msg=28
do=deliver msg=29
do=deliver msg=30
do=deliver msg=31
"""

# Coordinator 0 opened 3 and 6, and no prepare arrived: 9 is its next. Coordinator 1 opened 250,
# and no prepare arrived: that counts for coordinator 1 alone.
OPENED = """
setup acceptors=3 -> 0
take proc=1 store=0 to=0 -> 0 # 0
deliver msg=0 -> 0
open coord=0 inst=0 ballot=3 -> 0 # 1 2 3
open coord=0 inst=0 ballot=6 -> 0 # 4 5 6
open coord=1 inst=0 ballot=250 -> 0 # 7 8 9
---
do=open coord=0 inst=0 ballot=9
do=deliver msg=10
do=deliver msg=11
do=deliver msg=13
do=deliver msg=14
do=propose coord=0 inst=0 ballot=9
do=deliver msg=15
do=deliver msg=16
do=deliver msg=18
do=deliver msg=19
"""

# Coordinator 0 proposed under 3, and one accept arrived. It may not propose again under 3: it opens
# 6, hears its own batch and proposes it again.
PROPOSED = """
setup acceptors=3 -> 0
take proc=1 store=0 to=0 -> 0 # 0
deliver msg=0 -> 0
open coord=0 inst=0 ballot=3 -> 0 # 1 2 3
deliver msg=1 -> 0 # 4
deliver msg=2 -> 0 # 5
deliver msg=4 -> 0
deliver msg=5 -> 0
propose coord=0 inst=0 ballot=3 -> 0 # 6 7 8
deliver msg=8 -> 0 # 9
---
do=open coord=0 inst=0 ballot=6
do=deliver msg=10
do=deliver msg=11
do=deliver msg=13
do=deliver msg=14
do=propose coord=0 inst=0 ballot=6
do=deliver msg=15
do=deliver msg=16
do=deliver msg=18
do=deliver msg=19
"""

# Acceptor 0 accepted the take of process 1 under 3, and coordinator 0 is down. Coordinator 1 has
# nothing queued. It could adopt the batch, and yet nothing is printed.
NOTHING_QUEUED = """
setup acceptors=3 -> 0
take proc=1 store=0 to=0 -> 0 # 0
deliver msg=0 -> 0
open coord=0 inst=0 ballot=3 -> 0 # 1 2 3
deliver msg=1 -> 0 # 4
deliver msg=2 -> 0 # 5
deliver msg=4 -> 0
deliver msg=5 -> 0
propose coord=0 inst=0 ballot=3 -> 0 # 6 7 8
deliver msg=6 -> 0 # 9
crash role=coord id=0 -> 0
---
"""

# The same with an entry in coordinator 1's queue, whose lowest ballot above 3 is 4. Acceptor 0's
# promise brings the batch of coordinator 0, which is applied; the queued entry stays.
ADOPTED = """
setup acceptors=3 -> 0
take proc=1 store=0 to=0 -> 0 # 0
deliver msg=0 -> 0
open coord=0 inst=0 ballot=3 -> 0 # 1 2 3
deliver msg=1 -> 0 # 4
deliver msg=2 -> 0 # 5
deliver msg=4 -> 0
deliver msg=5 -> 0
propose coord=0 inst=0 ballot=3 -> 0 # 6 7 8
deliver msg=6 -> 0 # 9
crash role=coord id=0 -> 0
take proc=2 store=1 to=1 -> 0 # 10
deliver msg=10 -> 0
---
do=open coord=1 inst=0 ballot=4
do=deliver msg=11
do=deliver msg=12
do=deliver msg=14
do=deliver msg=15
do=propose coord=1 inst=0 ballot=4
do=deliver msg=16
do=deliver msg=17
do=deliver msg=19
do=deliver msg=20
"""

# The list of FIRST was run: instance 0 is closed and the queue is empty.
CLOSED = """
setup acceptors=3 -> 0
take proc=1 store=0 to=0 -> 0 # 0
deliver msg=0 -> 0
""" + learn(0, 0, 3, 1) + """
---
"""

# A learned entry that arrives again is queued again. In instance 1 nothing was promised or opened
# yet, so the ballot is 3 once more. Numbers 0 to 10 are used.
NEXT_INSTANCE = """
setup acceptors=3 -> 0
take proc=1 store=0 to=0 -> 0 # 0
deliver msg=0 -> 0
""" + learn(0, 0, 3, 1) + """
deliver msg=0 -> 0
---
do=open coord=0 inst=1 ballot=3
do=deliver msg=11
do=deliver msg=12
do=deliver msg=14
do=deliver msg=15
do=propose coord=0 inst=1 ballot=3
do=deliver msg=16
do=deliver msg=17
do=deliver msg=19
do=deliver msg=20
"""

# Coordinator 1 learned instances 0 and 1 and has an entry for instance 2. Coordinator 0 is the
# lowest and is behind: it closes instance 0, in which 1 is promised, and learns what was decided.
BEHIND = """
setup acceptors=3 -> 0
take proc=1 store=0 to=1 -> 0 # 0
take proc=2 store=1 to=0 -> 0 # 1
deliver msg=0 -> 0
""" + learn(1, 0, 1, 2) + """
deliver msg=0 -> 0
""" + learn(1, 1, 4, 12) + """
deliver msg=0 -> 0
deliver msg=1 -> 0
---
do=open coord=0 inst=0 ballot=3
do=deliver msg=22
do=deliver msg=23
do=deliver msg=25
do=deliver msg=26
do=propose coord=0 inst=0 ballot=3
do=deliver msg=27
do=deliver msg=28
do=deliver msg=30
do=deliver msg=31
"""

# The last ballot of coordinator 0 is 255.
LAST_BALLOT = """
setup acceptors=3 -> 0
take proc=1 store=0 to=0 -> 0 # 0
deliver msg=0 -> 0
open coord=2 inst=0 ballot=254 -> 0 # 1 2 3
deliver msg=2 -> 0 # 4
---
do=open coord=0 inst=0 ballot=255
do=deliver msg=5
do=deliver msg=6
do=deliver msg=8
do=deliver msg=9
do=propose coord=0 inst=0 ballot=255
do=deliver msg=10
do=deliver msg=11
do=deliver msg=13
do=deliver msg=14
"""

# Coordinator 0 opened 255 and has no ballot left. No prepare of 255 arrived: coordinator 1 may open
# its lowest, which is 1.
NO_BALLOT_LEFT = """
setup acceptors=3 -> 0
take proc=1 store=0 to=0 -> 0 # 0
take proc=1 store=0 to=1 -> 0 # 1
deliver msg=0 -> 0
deliver msg=1 -> 0
open coord=0 inst=0 ballot=255 -> 0 # 2 3 4
---
do=open coord=1 inst=0 ballot=1
do=deliver msg=5
do=deliver msg=6
do=deliver msg=8
do=deliver msg=9
do=propose coord=1 inst=0 ballot=1
do=deliver msg=10
do=deliver msg=11
do=deliver msg=13
do=deliver msg=14
"""

# Acceptor 1 promised 255. The last ballots of coordinators 1 and 2 are 253 and 254.
ALL_BALLOTS_BELOW = """
setup acceptors=3 -> 0
take proc=1 store=0 to=0 -> 0 # 0
take proc=1 store=0 to=1 -> 0 # 1
take proc=1 store=0 to=2 -> 0 # 2
deliver msg=0 -> 0
deliver msg=1 -> 0
deliver msg=2 -> 0
open coord=0 inst=0 ballot=255 -> 0 # 3 4 5
deliver msg=4 -> 0 # 6
---
"""

# Coordinator 2 opens 2, 5 and so on up to 116: 39 ballots, numbers 1 to 117. Ten are left.
TEN_LEFT = ("""
setup acceptors=3 -> 0
take proc=1 store=0 to=0 -> 0 # 0
deliver msg=0 -> 0
""" + "".join("open coord=2 inst=0 ballot=%d -> 0\n" % b for b in range(2, 117, 3)) + """
---
do=open coord=0 inst=0 ballot=3
do=deliver msg=118
do=deliver msg=119
do=deliver msg=121
do=deliver msg=122
do=propose coord=0 inst=0 ballot=3
do=deliver msg=123
do=deliver msg=124
do=deliver msg=126
do=deliver msg=127
""")

# One more request, and nine are left.
NINE_LEFT = TEN_LEFT.split("---\n")[0] + """
take proc=1 store=0 to=0 -> 0 # 118
---
"""

# The same of five: 22 ballots, from 2 to 65, use numbers 1 to 110, a request 111. Sixteen are left.
SIXTEEN_LEFT = ("""
setup acceptors=5 -> 0
take proc=1 store=0 to=0 -> 0 # 0
deliver msg=0 -> 0
""" + "".join("open coord=2 inst=0 ballot=%d -> 0\n" % b for b in range(2, 66, 3)) + """
take proc=1 store=0 to=0 -> 0 # 111
---
do=open coord=0 inst=0 ballot=3
do=deliver msg=112
do=deliver msg=113
do=deliver msg=114
do=deliver msg=117
do=deliver msg=118
do=deliver msg=119
do=propose coord=0 inst=0 ballot=3
do=deliver msg=120
do=deliver msg=121
do=deliver msg=122
do=deliver msg=125
do=deliver msg=126
do=deliver msg=127
""")

FIFTEEN_LEFT = SIXTEEN_LEFT.split("---\n")[0] + """
take proc=1 store=0 to=0 -> 0 # 112
---
"""

# Refused lines change nothing: the list is that of FIRST.
REFUSED_LINES = """
take proc=1 store=0 to=0 -> 5
setup acceptors=4 -> 2
setup acceptors=3 -> 0
setup acceptors=5 -> 5
open coord=0 inst=1 ballot=3 -> 5
open coord=0 inst=0 ballot=4 -> 5
take proc=1 store=0 to=0 -> 0 # 0
take proc=1 store=0 to=3 -> 2
deliver msg=1 -> 4
deliver msg=0 -> 0
propose coord=0 inst=0 ballot=3 -> 5
crash role=acceptor id=3 -> 2
? -> 1
---
do=open coord=0 inst=0 ballot=3
do=deliver msg=1
do=deliver msg=2
do=deliver msg=4
do=deliver msg=5
do=propose coord=0 inst=0 ballot=3
do=deliver msg=6
do=deliver msg=7
do=deliver msg=9
do=deliver msg=10
"""

# The request is delivered on line 1,000: it counts.
LINE_1000 = ("""
setup acceptors=3 -> 0
take proc=1 store=0 to=0 -> 0 # 0
""" + "? -> 1\n" * 997 + """
deliver msg=0 -> 0
---
do=open coord=0 inst=0 ballot=3
do=deliver msg=1
do=deliver msg=2
do=deliver msg=4
do=deliver msg=5
do=propose coord=0 inst=0 ballot=3
do=deliver msg=6
do=deliver msg=7
do=deliver msg=9
do=deliver msg=10
""")

# Delivered on line 1,001, it does not.
LINE_1001 = """
setup acceptors=3 -> 0
take proc=1 store=0 to=0 -> 0 # 0
""" + "? -> 1\n" * 998 + """
deliver msg=0 -> 6
---
"""

BY_HAND = {
    "first": FIRST, "first-of-five": FIRST_OF_FIVE, "not-delivered": NOT_DELIVERED,
    "one-down": ONE_DOWN, "two-down": TWO_DOWN, "two-of-five-down": TWO_OF_FIVE_DOWN,
    "first-coordinator-down": FIRST_DOWN, "promised-by-one-down": PROMISED_BY_ONE_DOWN,
    "promised-by-an-accept": PROMISED_BY_AN_ACCEPT, "opened": OPENED, "proposed": PROPOSED,
    "nothing-queued": NOTHING_QUEUED, "adopted": ADOPTED, "closed": CLOSED,
    "next-instance": NEXT_INSTANCE, "behind": BEHIND, "last-ballot": LAST_BALLOT,
    "no-ballot-left": NO_BALLOT_LEFT, "all-ballots-below": ALL_BALLOTS_BELOW,
    "ten-left": TEN_LEFT, "nine-left": NINE_LEFT, "sixteen-left": SIXTEEN_LEFT,
    "fifteen-left": FIFTEEN_LEFT, "refused-lines": REFUSED_LINES, "line-1000": LINE_1000,
    "line-1001": LINE_1001,
}
