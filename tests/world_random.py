"""Drawn step files for `world`: traffic of every kind, from a seed."""
from plain_log import FIRST_TURN, LAST_TURN, SHORT_DIGITS, STORES, TXS, UPDATE_DIGITS, Vote
from plain_log import update_text
from update_texts import BORDERS
from world_reference import BALLOTS, COORDINATORS
from world_script import Script


class Draw:
    """Numbers that any machine draws alike."""

    def __init__(self, seed):
        self.state = seed

    def below(self, n):
        self.state = (1664525 * self.state + 1013904223) % 2**32
        return (self.state >> 8) % n

    def of(self, values):
        return values[self.below(len(values))]

    def update(self):
        """A small one, which often comes again, one at a border, or any of 32 or of 64 bits."""
        bits = sum(self.below(1 << 16) << 16 * k for k in range(4))
        return self.of([self.below(4), self.below(16), self.of(BORDERS), bits, bits >> 32])

    def digits(self, update):
        """How many to write it with: at times the fewer, where these are enough."""
        fits = update < 16**SHORT_DIGITS
        return SHORT_DIGITS if fits and self.below(2) else UPDATE_DIGITS


def commit(script, draw, p, by, tx, stores, c):
    update = draw.update()
    return script.commit(p, by, tx, stores, update, c, draw.digits(update))


def abort(script, draw, p, by, store, tx, stores, c):
    """Mostly with update 0, without which it is refused."""
    update = 0 if draw.below(6) else draw.update()
    return script.abort(p, by, store, tx, stores, c, update, draw.digits(update))


def vote_again(script, draw):
    """A vote that was sent, once more: its update in either form, or with a bit changed. At times
    it has digits that do not read."""
    sent = [(m.values, m.id) for m in script.world.messages[-60:] if isinstance(m.values, Vote)]
    if not sent:
        return []
    vote, to = draw.of(sent)
    update = vote.update ^ draw.of([0, 0, 0, 1, 1 << 32, 1 << 63])
    text = update_text(update, draw.digits(update))
    if not draw.below(8):
        text = draw.of([text[1:], text + "0", "0" * SHORT_DIGITS + text, text.upper()])
    stores = "%02x" % sum(1 << s for s in vote.stores)
    says = "commit" if vote.commit else "abort"
    values = vote.by, vote.store, vote.tx, stores, says, text
    return script.vote(vote.process, *values, draw.of([to, to, draw.below(3)]))


def random_step(script, draw, hostile):
    """Any step but a follow, which needs a store taken over to do something (see takeover), and a
    back (see comes_back)."""
    world = script.world
    c = draw.below(3)
    coordinator, process, store = world.coordinators[c], 1 + draw.below(6), draw.below(3)
    kind = draw.below(20)
    if kind < 11 and world.messages:
        count = len(world.messages)
        script.deliver(
            count - 1 - draw.below(min(count, 12)) if draw.below(4) else draw.below(count + hostile)
        )
    elif kind == 11:
        script.take(process, store, c)
    elif kind < 14:
        believers = [p for p in range(1, 7) if world.processes[p].position] or [process]
        p = draw.of(believers)
        by = world.processes[p].store or 0
        tx, stores = draw.below(4), draw.of(["01", "03", "03", "07", "06", "%02x" % (1 << by)])
        if not draw.below(4):
            vote_again(script, draw)
        elif draw.below(3):
            commit(script, draw, p, by, tx, stores, c)
        else:
            abort(script, draw, p, by, store, tx, stores, c)
    elif kind == 14:
        script.open(
            c, coordinator.applied, (c or 3) + 3 * ((coordinator.opened + 2) // 3 + draw.below(2))
        )
    elif kind < 17:
        script.propose(c, coordinator.applied, coordinator.opened or 1)
    elif kind == 17:
        script.tell(c, process, draw.below(4))
    elif kind == 18:
        script.restore(c, process)
    elif hostile and not draw.below(3):
        script.crash(*draw.of([("acceptor", draw.below(5)), ("coord", c), ("proc", process)]))
    else:
        c = draw.below(3)
        script.open(c, draw.below(3), 1 + draw.below(30))


def random_script(seed):
    draw = Draw(seed)
    script = Script(draw.of([3, 3, 5]))
    for _ in range(60 + draw.below(300)):
        random_step(script, draw, seed % 3 == 0)
        if script.world.left() == 0 and not draw.below(40):
            break
    return script


def guided_round(script, draw, hostile):
    """Some steps, then mostly an instance that a coordinator brings near its end, and restores."""
    world = script.world
    acceptors = world.acceptor_count()
    for _ in range(draw.below(12)):
        random_step(script, draw, hostile)
    c = draw.below(3)
    now = world.coordinators[c]
    ballot = world.next_ballot(c)
    first = draw.below(acceptors)
    among = [(first + k) % acceptors for k in range(acceptors // 2 + 1)]
    if draw.below(4) and ballot < 256:
        sent = script.open(c, now.applied, ballot)
        if sent:
            script.deliver(*script.deliver(*(sent[a] for a in among)))
            if not draw.below(4):
                random_step(script, draw, False)
            sent = script.propose(c, now.applied, ballot)
            if sent:
                script.deliver(*script.deliver(*(sent[a] for a in among if draw.below(8))))
    for p in range(1, 7):
        if not draw.below(6):
            script.deliver(*script.restore(c, p))


def guided_script(seed):
    """As random_script, with a coordinator that often brings an instance to its end."""
    draw = Draw(seed)
    script = Script(draw.of([3, 3, 5]))
    while script.world.left() > 6 and len(script.rows) < 900:
        guided_round(script, draw, seed % 4 == 0)
    return script


# Everything mixed: traffic, repeats, full queues, used up numbers, crashes and hostile lines

NUMBERS = ["", "0", "1", "2", "3", "4", "5", "7", "8", "15", "16", "31", "32", "127", "128", "255"]
NUMBERS += ["256", "257", "00", "01", "-1", "4294967296", "18446744073709551617", "9" * 60]


def one_byte_other(draw, line):
    at = draw.below(len(line) + 1)
    byte = bytes([draw.below(256)]).replace(b"\n", b" ")
    return line[:at] + draw.of([b"", byte, byte * 2, line[at : at + 1] * 2]) + line[at + 1 :]


def one_number_other(draw, line):
    words = line.split(b" ")
    at = draw.below(len(words))
    words[at] = words[at].split(b"=")[0] + b"=" + draw.of(NUMBERS).encode()
    return b" ".join(words)


def fields_moved(draw, line):
    words = line.split(b" ")
    at = draw.below(len(words))
    return b" ".join(words[:at] + draw.of([[], words[at:][::-1], words, [b""] + words[at:]]))


def any_bytes(draw, _):
    return bytes(draw.below(256) for _ in range(draw.of([0, 1, 5, 99, 101]))).replace(b"\n", b"")


def as_long_as(draw, line):
    return line[:99].ljust(draw.of([99, 100, 101, 102]), draw.of([b"0", b" ", b"x"]))


def with_a_turn(draw, line):
    """The field where it may stand, mostly, or anywhere."""
    words = line.split(b" ")
    at = 2 if draw.below(2) else draw.below(len(words) + 1)
    number = draw.of(["1", "1", "2", "2", "3"] + NUMBERS).encode()
    return b" ".join(words[:at] + [b"turn=" + number] + words[at:])


HOSTILE = [one_byte_other, one_byte_other, one_number_other, one_number_other, fields_moved]
HOSTILE += [any_bytes, as_long_as, with_a_turn]


def hostile_lines(script, draw):
    for _ in range(1 + draw.below(6)):
        line = draw.of(HOSTILE)(draw, draw.of(script.rows or [b"do=setup acceptors=3"]))
        script.row(line)


def full_queue(script, draw):
    """More different requests than a queue has places, each delivered, some twice."""
    c = draw.below(3)
    for k in range(draw.of([3, 9, 11])):
        sent = script.take(1 + (k + draw.below(4)) % 15, draw.below(8), c)
        script.deliver(*sent * draw.of([1, 1, 2]))


def numbers_used_up(script, draw):
    """Takes until few numbers are left, which the steps that follow use."""
    world, left = script.world, draw.below(7)
    sends = [(p, c) for p in range(1, 16) for c in range(3)]
    ups = [(p, c) for p, c in sends if not world.down & {("proc", p), ("coord", c)}]
    while world.acceptors and ups and world.left() > left:
        p, c = draw.of(ups)
        script.take(p, draw.below(8), c)


def all_again(script, draw):
    """Many of the messages once more, from the first or from the last."""
    numbers = list(range(len(script.world.messages)))[:: draw.of([1, -1])]
    script.deliver(*numbers[draw.below(3) :: 1 + draw.below(4)])


def crashes(script, draw):
    for _ in range(1 + draw.below(2)):
        role = draw.of(["acceptor", "coord", "proc"])
        script.crash(role, draw.below({"acceptor": 5, "coord": 3, "proc": 7}[role]))


def some_follow(script, draw, c):
    """Mostly one that the coordinator may send."""
    log = script.world.coordinators[c].log
    decided = [tx for tx in log.txs() if log.outcome(tx) != "open"]
    held = [(log.holder(s), s) for s in range(STORES) if log.holder(s)]
    allowed = [(p, tx) for p, s in held for tx in decided if log.has_commit(tx, s)]
    any_pair = 1 + draw.below(6), draw.below(4)
    return script.follow(c, *(draw.of(allowed) if allowed and draw.below(3) else any_pair))


def traffic(script, draw):
    for _ in range(10 + draw.below(40)):
        if draw.below(16):
            random_step(script, draw, True)
        else:
            some_follow(script, draw, draw.below(3))


def instances(script, draw):
    for _ in range(1 + draw.below(5)):
        if script.world.acceptors and script.world.left() > 6:
            guided_round(script, draw, False)


def learned(script, draw, c, requests):
    """The requests in the coordinator's queue, and an instance that it mostly learns."""
    script.queue(*(request for request in requests if draw.below(9)))
    count, now = script.world.acceptor_count(), script.world.coordinators[c]
    first = draw.below(count)
    among = [(first + k) % count for k in range(count // 2 + 1)]
    for phase in (script.open, script.propose):
        ballot = script.world.next_ballot(c) if phase == script.open else now.opened or 1
        sent = phase(c, now.applied, ballot)
        if sent:
            script.deliver(*script.deliver(*(sent[a] for a in among)))


def stores_held(script, draw):
    """Some stores get holders, which are restored."""
    if script.world.acceptors:
        c, pairs = draw.below(3), [(s + 1 + draw.below(2), s) for s in range(1 + draw.below(4))]
        learned(script, draw, c, [script.take(p, s, c) for p, s in pairs])
        script.deliver(*(n for p, _ in pairs for n in script.restore(c, p)))


def one_vote(script, draw, p, tx, stores, c):
    by = script.world.processes[p].store
    if draw.below(8):
        return commit(script, draw, p, by, tx, stores, c)
    return abort(script, draw, p, by, draw.of([by, draw.below(4)]), tx, stores, c)


def believers_of(script):
    return [p for p in range(1, 16) if script.world.processes[p].position]


def furthest(script, draw):
    """Mostly the coordinator that applied most."""
    applied = [c.applied for c in script.world.coordinators]
    return applied.index(max(applied)) if draw.below(8) else draw.below(3)


def list_of(script, processes):
    return "%02x" % sum({1 << script.world.processes[p].store for p in processes})


def transaction(script, draw):
    """All that believe they hold a store vote; the outcome is told, and some are restored."""
    believers = believers_of(script)
    if script.world.acceptors and believers:
        c = furthest(script, draw)
        tx = draw.of([0, 1, 2, 3, 30, 31])
        stores = list_of(script, believers)
        votes = [one_vote(script, draw, p, tx, stores, c) for p in believers]
        if not draw.below(4):
            votes.append(vote_again(script, draw))
        learned(script, draw, c, votes)
        script.deliver(*script.tell(c, draw.of(believers), tx), *script.tell(c, 9, draw.below(32)))
        script.deliver(*script.restore(c, draw.of(believers)))


def takeover(script, draw):
    """A store is taken over while its vote runs. The others vote, and the new holder follows."""
    c = furthest(script, draw)
    log, processes = script.world.coordinators[c].log, script.world.processes
    holders = [p for p in believers_of(script) if log.held_by(p) == [processes[p].store]]
    if not script.world.acceptors or len(holders) < 2:
        return
    old, new = draw.of(holders), 9 + draw.below(7)
    others = [p for p in holders if p != old][: 1 + draw.below(3)]
    tx = draw.of([tx for tx in range(TXS) if tx not in log.txs() or not draw.below(8)])
    store, stores = processes[old].store, list_of(script, [old] + others)
    early = some_follow(script, draw, c)
    vote = commit(script, draw, old, store, tx, stores, c)
    learned(script, draw, c, [vote, script.take(new, store, c)])
    script.deliver(*script.restore(c, new), *early)
    script.deliver(*script.follow(c, new, tx))  # refused, where the transaction runs
    learned(script, draw, c, [one_vote(script, draw, p, tx, stores, c) for p in others])
    sent = script.follow(c, new, tx)
    if not draw.below(4):
        script.deliver(*script.restore(c, new))
    script.deliver(*sent * draw.of([1, 1, 2]), *early)


ALIKE = [high << 32 | low for high in (0, 1, 1 << 31) for low in (0, 1, 1 << 31)]


def votes_alike(script, draw):
    """Votes that differ in their update or its form alone, in the queues of two coordinators. One
    learns some of them, the other learns that, and all are delivered again."""
    believers = believers_of(script)
    if not script.world.acceptors or not believers:
        return
    first = furthest(script, draw)
    second = (first + 1 + draw.below(2)) % 3
    p, tx = draw.of(believers), draw.below(TXS)
    by, sent = script.world.processes[p].store, []
    for _ in range(draw.of([8, 20, 30])):
        update = draw.of(ALIKE)
        to = draw.of([first, second])
        sent += script.commit(p, by, tx, list_of(script, [p]), update, to, draw.digits(update))
    script.deliver(*sent)
    for c in first, second, second, second:
        if script.world.left() > 12:
            learned(script, draw, c, [])
    script.deliver(*sent)


# Machines that come back


def some_back(script, draw):
    """Mostly with the next turn; at times one later, the same, an earlier one or none at all."""
    believers = believers_of(script)
    p = draw.of(believers) if believers and draw.below(2) else 1 + draw.below(6)
    now = script.world.processes[p].turn
    later = [now + 1] * 5 + [now + 2, now, FIRST_TURN, draw.below(300), LAST_TURN - draw.below(30)]
    script.back(p, draw.of(later))


def other_turn(script, draw):
    """A take or a vote that names a turn, mostly not the process's present one."""
    p, c = 1 + draw.below(6), draw.below(3)
    now = script.world.processes[p].turn
    turn = draw.of([None, FIRST_TURN, now, now + 1, now - 1, 0, LAST_TURN, LAST_TURN + 1, "01", ""])
    if draw.below(2):
        return script.step("take", p, draw.below(3), c, turn=turn)
    by = script.world.processes[p].store or 0
    values = by, by, draw.below(4), "%02x" % (1 << by), "commit", update_text(draw.update()), c
    return script.step("vote", p, *values, turn=turn)


def on_the_wire(script, draw, p, c):
    """What a process sent, and what was sent to it, before it comes back: not delivered yet."""
    process = script.world.processes[p]
    sent = [] if draw.below(3) else script.take(p, draw.of([process.store or 0, draw.below(4)]), c)
    if process.position:
        stores = list_of(script, [p, draw.of(believers_of(script))])
        for _ in range(draw.below(3)):
            sent += one_vote(script, draw, p, draw.below(TXS), stores, c)
    log = script.world.coordinators[c].log
    to_it = script.restore(c, p) if draw.below(2) else []
    decided = [tx for tx in log.txs() if log.outcome(tx) != "open"]
    if decided:
        to_it += script.tell(c, p, draw.of(decided))
        to_it += script.follow(c, p, draw.of(decided)) if draw.below(2) else []
    return sent, to_it


def comes_back(script, draw):
    """A machine crashes, or not, and comes back in a later turn. It takes its store again, mostly.
    What was on the wire is delivered before the take, with it or behind it."""
    believers = believers_of(script)
    if not script.world.acceptors or not believers:
        return
    c, p = furthest(script, draw), draw.of(believers)
    store = script.world.processes[p].store
    sent, to_it = on_the_wire(script, draw, p, c)
    early = [number for number in sent if draw.below(2)]
    if draw.below(3):
        script.crash("proc", p)
    script.deliver(*early, *(number for number in to_it if not draw.below(4)))
    left_out = 0 if draw.below(4) else draw.below(40)
    script.back(p, script.world.processes[p].turn + 1 + left_out)
    script.deliver(*to_it)
    if not draw.below(4):
        learned(script, draw, c, [])  # the votes of the turn before are kept
    if not draw.below(6):
        script.deliver(*script.restore(c, p))  # for the turn before
    late = [number for number in sent if number not in early]
    store = store if draw.below(5) else draw.below(4)
    take = script.take(p, store, c)
    learned(script, draw, c, draw.of([[take, late], [late, take], [take], [take]]))
    script.deliver(*script.restore(c, p), *late, *to_it)
    if draw.below(3):
        what_ran(script, draw, p, c)


def what_ran(script, draw, p, c):
    """The others vote on a transaction that the process's restore lists, and it follows."""
    log, processes = script.world.coordinators[c].log, script.world.processes
    running = [tx for tx in processes[p].running if log.votes(tx)]
    if not running:
        return
    tx = draw.of(running)
    stores = sorted(log.votes(tx)[0].stores)
    others = [log.holder(s) for s in stores if (tx, s) not in log.kept]
    votes = [q for q in others if processes[q].store in stores]
    bits = "%02x" % sum(1 << s for s in stores)
    learned(script, draw, c, [one_vote(script, draw, q, tx, bits, c) for q in votes])
    script.deliver(*script.follow(c, p, tx) * draw.of([1, 1, 2]))


def returned_script(seed):
    """Machines that come back again and again, with votes and takeovers between."""
    draw = Draw(seed)
    script = Script(draw.of([3, 3, 3, 5]))
    pairs = ((s + 1, s) for s in range(2 + draw.below(2)))
    script.queue(*(script.take(p, s) for p, s in pairs))
    learned(script, draw, 0, [])
    script.deliver(*(n for p in (1, 2, 3) for n in script.restore(0, p)))
    while script.world.left() > 12 and len(script.rows) < 900:
        parts = [comes_back, comes_back, comes_back, transaction, transaction, takeover]
        draw.of(parts if believers_of(script) else [stores_held])(script, draw)
        for _ in range(draw.below(5)):
            strays = {0: some_back, 1: other_turn, 2: other_turn}
            strays.get(draw.below(12), any_step)(script, draw)
    all_again(script, draw)
    return script


# Instances that stall


def last_ballot(c):
    return BALLOTS - (BALLOTS - c) % COORDINATORS


def some_ballot(script, draw, c):
    """Mostly the coordinator's next one; at times a later one, or one of its last."""
    following = script.world.next_ballot(c)
    later, last = following + 3 * draw.below(4), last_ballot(c) - 3 * draw.below(3)
    return draw.of([following, following, following, later, later, last])


def stalls(script, draw):
    """A coordinator opens and maybe proposes; some of the messages arrive, and nobody goes on."""
    c = draw.below(3)
    now = script.world.coordinators[c]
    prepares = script.open(c, now.applied, some_ballot(script, draw, c))
    promises = script.deliver(*(number for number in prepares if draw.below(3)))
    script.deliver(*(number for number in promises if draw.below(6)))
    accepts = script.propose(c, now.applied, now.opened or 1)
    acceptances = script.deliver(*(number for number in accepts if not draw.below(3)))
    script.deliver(*(number for number in acceptances if draw.below(2)))


def some_requests(script, draw):
    """Takes to any coordinator, mostly delivered."""
    for _ in range(1 + draw.below(4)):
        sent = script.take(1 + draw.below(6), draw.below(4), draw.below(3))
        script.deliver(*(number for number in sent if draw.below(6)))


def stalled_script(seed):
    """Requests, instances that stall or are learned, and crashes."""
    draw = Draw(seed)
    script = Script(draw.of([3, 3, 5]))
    some_requests(script, draw)
    for _ in range(1 + draw.below(7)):
        parts = [stalls, stalls, stalls, some_requests, some_requests, instances, crashes]
        draw.of(parts)(script, draw)
    return script


def any_step(script, draw):
    random_step(script, draw, not draw.below(8))


def setups(script, draw):
    script.setup(draw.of([3, 4, 5]))


PARTS = [transaction, transaction, transaction, takeover, takeover, comes_back, comes_back]
PARTS += [stores_held, instances, traffic, hostile_lines, votes_alike]
RARE = [numbers_used_up, crashes, setups, full_queue, all_again, hostile_lines]
RARE += [some_back, other_turn]


def followed_script(seed):
    """Stores that are taken over again and again while votes run; some traffic between."""
    draw = Draw(seed)
    script = Script()
    script.hold(*((s + 1, s) for s in range(2 + draw.below(3))))
    while script.world.left() > 12 and len(script.rows) < 900:
        takeover(script, draw)
        for _ in range(draw.below(6)):
            random_step(script, draw, seed % 4 == 0)
    all_again(script, draw)
    return script


def mixed_file(seed):
    """A step file; at times without setup or its last LF, or with more than 1,000 lines."""
    draw = Draw(seed)
    script = Script(draw.of([3, 3, 3, 5, 5, 0]))
    stores_held(script, draw)
    for _ in range(2 + draw.below(8)):
        draw.of(PARTS if draw.below(3) else RARE)(script, draw)
    long = draw.below(40) == 0
    while long and len(script.rows) < 990 + draw.below(30):
        all_again(script, draw)
        hostile_lines(script, draw)
    data = script.data()
    return data[:-1] if not draw.below(5) else data
