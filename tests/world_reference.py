#!/usr/bin/env python3
"""The program `world`, written from documents 01 and 02 alone, to derive expected outputs.

    world_reference.py < STEPS          prints what `world` prints
    world_reference.py check DIR        compares each DIR/NAME.steps with DIR/NAME.out
"""
import itertools
from collections import namedtuple

from plain_log import (
    FIRST_TURN,
    LIMITS,
    PROCESSES,
    Log,
    Reader,
    Take,
    Vote,
    answers,
    lowest,
    malformed,
    printed,
    reference_main,
    replay_lines,
    update_text,
)

MESSAGES, QUEUE, BATCH = 128, 8, 4
COORDINATORS, INSTANCES, BALLOTS = 3, 16, 255

Message = namedtuple("Message", "kind role id values")


# The world


class Acceptor:
    def __init__(self):
        self.promised = [0] * INSTANCES
        self.accepted = [(0, None)] * INSTANCES


class Coordinator:
    def __init__(self):
        self.log = Log()
        self.applied = 0
        self.queue = []
        self.begin(0)

    def begin(self, ballot):
        self.opened = ballot
        self.promises = {}  # acceptor: its accepted pair
        self.proposed = None
        self.accepted = set()

    def batch(self):
        ballot, batch = max(self.promises.values(), key=lambda pair: pair[0], default=(0, None))
        return batch if ballot else tuple(self.queue[:BATCH])


class Process:
    def __init__(self, turn=FIRST_TURN):
        self.turn = turn
        self.heard = {}
        self.store = None
        self.position = 0
        self.rows = []
        self.running = []  # as the restore lists them
        self.follows = {}  # tx: outcome and update, taken since the restore


class World:
    def __init__(self):
        self.acceptors = None
        self.coordinators = [Coordinator() for _ in range(COORDINATORS)]
        self.processes = [Process() for _ in range(PROCESSES + 1)]
        self.down = set()  # (role, id)
        self.messages = []

    def send(self, *message):
        self.messages.append(Message(*message))

    def left(self):
        return MESSAGES - len(self.messages)

    def majority(self, heard):
        return 2 * len(heard) > len(self.acceptors or ())

    def refusal(self, *conditions):
        return lowest((5, self.acceptors is None), *conditions)

    def crashed(self, *parties):
        return (3, any(party in self.down for party in parties))

    def setup(self, acceptors):
        if self.acceptors is not None:
            return 5
        self.acceptors = [Acceptor() for _ in range(acceptors)]
        return 0

    def back(self, process, turn):
        """The process starts again, down or up, as one of a fresh world in that turn."""
        answer = self.refusal((5, turn <= self.processes[process].turn))
        if not answer:
            self.processes[process] = Process(turn)
            self.down.discard(("proc", process))
        return answer

    def take(self, *values):
        take, to = Take(*values[:-1]), values[-1]
        return self.request(take, to)

    def vote(self, *values):
        vote, to = Vote(*values[:-1]), values[-1]
        believes = self.processes[vote.process].store == vote.by
        return self.request(vote, to, (5, not believes), (7, malformed(vote)))

    def request(self, entry, to, *conditions):
        answer = self.refusal(
            self.crashed(("proc", entry.process), ("coord", to)),
            (5, self.processes[entry.process].turn != entry.turn),
            (6, self.left() < 1),
            *conditions,
        )
        if not answer:
            self.send("request", "coord", to, entry)
        return answer

    def open(self, coord, instance, ballot):
        c = self.coordinators[coord]
        answer = self.refusal(
            self.crashed(("coord", coord)),
            (5, instance != c.applied or ballot % COORDINATORS != coord or ballot <= c.opened),
            (6, self.left() < len(self.acceptors or ())),
        )
        if not answer:
            c.begin(ballot)
            for a in range(len(self.acceptors)):
                self.send("prepare", "acceptor", a, (instance, ballot))
        return answer

    def propose(self, coord, instance, ballot):
        c = self.coordinators[coord]
        answer = self.refusal(
            self.crashed(("coord", coord)),
            (
                5,
                instance != c.applied
                or ballot != c.opened
                or not self.majority(c.promises)
                or c.proposed
                or not c.batch(),
            ),
            (6, self.left() < len(self.acceptors or ())),
        )
        if not answer:
            c.proposed = c.batch()
            for a in range(len(self.acceptors)):
                self.send("accept", "acceptor", a, (instance, ballot, c.proposed))
        return answer

    def deliver(self, number):
        if number >= len(self.messages):
            return 4
        message = self.messages[number]
        if (message.role, message.id) in self.down:
            return 3
        return getattr(self, "deliver_" + message.kind)(message.id, message.values)

    def deliver_request(self, coord, entry):
        queue = self.coordinators[coord].queue
        if entry in queue:
            return 0
        if len(queue) == QUEUE:
            return 6
        queue.append(entry)
        return 0

    def deliver_prepare(self, id, values):
        instance, ballot = values
        acceptor = self.acceptors[id]
        if ballot <= acceptor.promised[instance]:
            return 0
        if self.left() < 1:
            return 6
        acceptor.promised[instance] = ballot
        self.send(
            "promise",
            "coord",
            ballot % COORDINATORS,
            (instance, ballot, id, acceptor.accepted[instance]),
        )
        return 0

    def deliver_accept(self, id, values):
        instance, ballot, batch = values
        acceptor = self.acceptors[id]
        if ballot < acceptor.promised[instance]:
            return 0
        if self.left() < 1:
            return 6
        acceptor.promised[instance] = ballot
        acceptor.accepted[instance] = (ballot, batch)
        self.send("accepted", "coord", ballot % COORDINATORS, (instance, ballot, id))
        return 0

    def deliver_promise(self, coord, values):
        instance, ballot, acceptor, pair = values
        c = self.coordinators[coord]
        if instance == c.applied and ballot == c.opened:
            c.promises[acceptor] = pair
        return 0

    def deliver_accepted(self, coord, values):
        instance, ballot, acceptor = values
        c = self.coordinators[coord]
        if instance == c.applied and ballot == c.opened:
            c.accepted.add(acceptor)
            if self.majority(c.accepted):
                for entry in c.proposed:
                    c.log.enter(entry)
                c.queue = [entry for entry in c.queue if entry not in c.proposed]
                c.applied += 1
                c.begin(0)
        return 0

    def deliver_outcome(self, process, values):
        tx, outcome = values
        self.processes[process].heard[tx] = outcome
        return 0

    def deliver_restore(self, process, values):
        store, turn, position, rows, running = values
        p = self.processes[process]
        if turn == p.turn and position > p.position:
            p.store, p.position, p.rows = store, position, rows
            p.running, p.follows = running, {}
        return 0

    def deliver_follow(self, process, values):
        store, tx, outcome, update = values
        p = self.processes[process]
        if store == p.store and tx in p.running and tx not in p.follows:
            p.follows[tx] = outcome, update
        return 0

    def tell(self, coord, process, tx):
        outcome = self.coordinators[coord].log.outcome(tx)
        answer = self.refusal(
            self.crashed(("coord", coord), ("proc", process)),
            (5, outcome == "open"),
            (6, self.left() < 1),
        )
        if not answer:
            self.send("outcome", "proc", process, (tx, outcome))
        return answer

    def restore(self, coord, process):
        c = self.coordinators[coord]
        stores = c.log.held_by(process)
        answer = self.refusal(
            self.crashed(("coord", coord), ("proc", process)), (5, not stores), (6, self.left() < 1)
        )
        if not answer:
            store = stores[0]
            turn, rows = c.log.holder_turn(store), c.log.replay(store)
            running = [tx for tx in c.log.running() if c.log.has_commit(tx, store)]
            self.send("restore", "proc", process, (store, turn, c.applied, rows, running))
        return answer

    def follow(self, coord, process, tx):
        log = self.coordinators[coord].log
        outcome = log.outcome(tx)
        stores = [store for store in log.held_by(process) if log.has_commit(tx, store)]
        answer = self.refusal(
            self.crashed(("coord", coord), ("proc", process)),
            (5, outcome == "open" or not stores),
            (6, self.left() < 1),
        )
        if not answer:
            store = stores[0]
            update = log.kept[tx, store].update if outcome == "commit" else 0
            self.send("follow", "proc", process, (store, tx, outcome, update))
        return answer

    def crash(self, role, id):
        answer = self.refusal(self.crashed((role, id)))
        if not answer:
            self.down.add((role, id))
        return answer

    def acceptor_count(self):
        return 5 if self.acceptors is None else len(self.acceptors)

    def next_ballot(self, coord):
        """The lowest ballot of the coordinator's above all that any acceptor, up or down, promised
        in its current instance and above the last that it opened there. It may be past the last."""
        c = self.coordinators[coord]
        seen = max([c.opened] + [a.promised[c.applied] for a in self.acceptors])
        return next(b for b in itertools.count(seen + 1) if b % COORDINATORS == coord)

    def lines(self):
        for i, c in enumerate(self.coordinators):
            yield "coord=%d applied=%d" % (i, c.applied)
            yield from c.log.lines()
        for i, p in enumerate(self.processes):
            for tx in sorted(p.heard):
                yield "proc=%d tx=%d heard=%s" % (i, tx, p.heard[tx])
        for i, p in enumerate(self.processes):
            if p.position:
                yield "proc=%d store=%d position=%d" % (i, p.store, p.position)
                yield from replay_lines(p.store, p.rows)
                yield from ("running=%d" % tx for tx in p.running)
                for tx, (outcome, update) in sorted(p.follows.items()):
                    yield "follow=%d outcome=%s upd=%s" % (tx, outcome, update_text(update))


# Step files

FIELDS = {
    "setup": "acceptors",
    "back": "proc turn",
    "take": "proc turn? store to",
    "vote": "proc turn? by store tx list say upd to",
    "open": "coord inst ballot",
    "propose": "coord inst ballot",
    "deliver": "msg",
    "tell": "coord proc tx",
    "restore": "coord proc",
    "follow": "coord proc tx",
    "crash": "role id",
}
STEPS = Reader(FIELDS)
WORLD_LIMITS = {
    **LIMITS,
    "to": range(COORDINATORS),
    "coord": range(COORDINATORS),
    "inst": range(INSTANCES),
    "ballot": range(1, BALLOTS + 1),
    "msg": range(MESSAGES),
    "acceptors": (3, 5),
}


def limits(world, values):
    """Of each number of a step; a crash's depends on the role."""
    roles = {
        "acceptor": range(world.acceptor_count()),
        "coord": WORLD_LIMITS["coord"],
        "proc": WORLD_LIMITS["proc"],
    }
    return {**WORLD_LIMITS, "id": roles.get(values.get("role"))}


def answer(world, line):
    step = STEPS.read(line)
    if step is None:
        return 1
    name, values = step
    within = limits(world, values)
    if any(values[key] not in within[key] for key in values if key in within):
        return 2
    return getattr(world, name)(*values.values())


def world_after(data):
    """The world at the end of an input."""
    world = World()
    for _ in answers(world, answer, data):
        pass
    return world


def run(data):
    return printed(World(), answer, data)


if __name__ == "__main__":
    reference_main(run)
