"""What the lines of a step file of `world` do, after the reference of the tests."""
import copy
import os
import sys
from dataclasses import dataclass, field

sys.path.insert(0, os.path.join(os.path.dirname(os.path.abspath(__file__)), "..", "tests"))
import world_reference as reference
from plain_log import FIRST_TURN, LINES, Take, answers

WORDS = {
    1: "unreadable",
    2: "number outside its limits",
    3: "party is down",
    4: "not sent yet",
    5: "condition not met",
    6: "no place left",
    7: "ill-formed vote",
    8: "not the holder",
    9: "another list",
    10: "vote kept already",
    11: "holds another store",
    12: "not its turn",
}
SHOWN = 90  # bytes of a line


@dataclass
class Flight:
    """A message from its sending on."""

    number: int
    kind: str
    sender: tuple  # role and id
    receiver: tuple
    line: int  # that sent it
    says: str
    deliveries: list = field(default_factory=list)  # lines


@dataclass
class Row:
    """A line, its answer and what it did."""

    line: int
    text: str
    answer: int
    step: str = ""
    party: tuple = None  # who acts
    says: str = ""
    sent: list = field(default_factory=list)
    delivered: Flight = None
    again: bool = False
    learned: bool = False

    def word(self):
        return "reading ends" if self.line > LINES else WORDS[self.answer]


@dataclass
class Story:
    rows: list
    flights: list
    world: reference.World

    def parties(self):
        """All that take part, by role and id."""
        every = {row.party for row in self.rows if row.party and not row.answer}
        every |= {party for flight in self.flights for party in (flight.sender, flight.receiver)}
        roles = ("proc", "coord", "acceptor")
        return sorted(every, key=lambda party: (roles.index(party[0]), party[1]))


# Words


def listed(stores):
    return "%02x" % sum(1 << s for s in stores)


def turned(turn):
    """A turn is said where it is not the first."""
    return "" if turn == FIRST_TURN else " turn %d" % turn


def request(entry):
    """An entry as its process sends it."""
    return meant(entry) + turned(entry.turn)


def meant(entry):
    if isinstance(entry, Take):
        return "take s%d" % entry.store
    store = (
        "s%d" % entry.store
        if entry.by == entry.store
        else "for s%d by s%d" % (entry.store, entry.by)
    )
    if not entry.commit:
        return "abort tx%d %s (%s)" % (entry.tx, store, listed(entry.stores))
    return "commit tx%d %s (%s) upd %x" % (entry.tx, store, listed(entry.stores), entry.update)


def short(entry):
    """An entry among others."""
    if isinstance(entry, Take):
        what = "take"
    else:
        what = "%s tx%d" % ("commit" if entry.commit else "abort", entry.tx)
    return "p%d %s s%d%s" % (entry.process, what, entry.store, turned(entry.turn))


def batch(entries):
    return ", ".join(map(short, entries))


def says(message):
    """What a message says."""
    values = message.values
    if message.kind == "request":
        return request(values)
    if message.kind == "outcome":
        return "tell tx%d %s" % values
    if message.kind == "restore":
        store, turn, position, rows, running = values
        runs = ", running " + " ".join("tx%d" % tx for tx in running) if running else ""
        place = "restore s%d%s pos %d" % (store, turned(turn), position)
        return "%s, %s%s" % (place, counted(len(rows), "row"), runs)
    if message.kind == "follow":
        return "follow s%d %s" % (values[0], followed(*values[1:]))
    place = "%s i%d b%d" % ((message.kind,) + values[:2])
    if message.kind == "accept":
        return "%s: %s" % (place, batch(values[2]))
    if message.kind == "promise":
        ballot, entries = values[3]
        return (
            "%s, accepted b%d: %s" % (place, ballot, batch(entries))
            if ballot
            else place + ", none accepted"
        )
    return place


def followed(tx, outcome, update):
    """What a follow says of its transaction."""
    return "tx%d %s" % (tx, outcome) + (" upd %x" % update if outcome == "commit" else "")


def counted(n, thing):
    return "%d %s%s" % (n, thing, "" if n == 1 else "s")


def shown(line):
    """The bytes of a line as printable text, cut where it is long."""
    text = "".join(chr(b) if 32 <= b < 127 and b != 92 else "\\x%02x" % b for b in line[:SHOWN])
    text = text[3:] if text.startswith("do=") else text
    return text + " .." if len(line) > SHOWN else text


# What a line does


class Teller:
    def __init__(self):
        self.world = reference.World()
        self.flights = []
        self.rows = []
        self.accepted = {}  # (instance, ballot): acceptors
        self.decided = set()

    def answer(self, _, line):
        """As the reference answers; the row is told beside it."""
        step = reference.STEPS.read(line)
        number = len(self.rows) + 1
        before = self.before(step)
        given = reference.answer(self.world, line)
        row = Row(number, shown(line), given, step[0] if step else "")
        self.rows.append(row)
        if not given:
            self.tell(row, step[1], before)
        return given

    def before(self, step):
        """Of a delivery, what its receiver has before it."""
        number = step[1]["msg"] if step and step[0] == "deliver" else None
        if number is None or number >= len(self.flights):
            return None
        return copy.deepcopy(self.party(self.flights[number].receiver))

    def party(self, party):
        role, id = party
        world = self.world
        return {"proc": world.processes, "coord": world.coordinators, "acceptor": world.acceptors}[
            role
        ][id]

    def tell(self, row, values, before):
        if row.step == "setup":
            row.says = "setup: %d acceptors" % values["acceptors"]
            return
        if row.step == "deliver":
            self.deliver(row, values["msg"], before)
        else:
            self.act(row, values)
        for number in range(len(self.flights), len(self.world.messages)):
            message = self.world.messages[number]
            receiver = (message.role, message.id)
            self.flights.append(
                Flight(number, message.kind, row.party, receiver, row.line, says(message))
            )
            row.sent.append(number)

    def act(self, row, values):
        if row.step in ("take", "vote"):
            row.party = ("proc", values["proc"])
            row.says = "%s to c%d" % (says(self.world.messages[-1]), values["to"])
        elif row.step == "crash":
            row.party = (values["role"], values["id"])
            row.says = "crash"
        elif row.step == "back":
            row.party = ("proc", values["proc"])
            row.says = "back, turn %d" % values["turn"]
        else:
            row.party = ("coord", values["coord"])
            row.says = self.coordinator_says(row.step, values)

    def coordinator_says(self, step, values):
        last = self.world.messages[-1]
        if step == "open":
            return "open i%d b%d" % (values["inst"], values["ballot"])
        if step == "propose":
            return "propose i%d b%d: %s" % (values["inst"], values["ballot"], batch(last.values[2]))
        return "%s to p%d" % (says(last), values["proc"])

    def deliver(self, row, number, before):
        flight = self.flights[number]
        row.delivered, row.party, row.again = flight, flight.receiver, bool(flight.deliveries)
        flight.deliveries.append(row.line)
        row.says = "%d %s%s" % (number, "again: " if row.again else "", flight.says)
        row.says += "".join("; " + effect for effect in self.effects(row, before))

    def effects(self, row, before):
        message, now = self.world.messages[row.delivered.number], self.party(row.party)
        replied = len(self.world.messages) > len(self.flights)
        if message.kind == "accept" and replied:
            return self.accepts(message)
        if message.kind == "accepted" and now.applied > before.applied:
            row.learned = True
            return self.learns(before, now)
        if message.kind == "promise" and self.world.majority(now.promises) > self.world.majority(
            before.promises
        ):
            return ["majority"]
        return [] if replied or state(before) != state(now) else ["no change"]

    def accepts(self, message):
        """A batch is decided once a majority accepted it under one ballot."""
        instance, ballot, _ = message.values
        accepted = self.accepted.setdefault((instance, ballot), set())
        accepted.add(message.id)
        if instance in self.decided or not self.world.majority(accepted):
            return []
        self.decided.add(instance)
        return ["i%d decided" % instance]

    def learns(self, before, now):
        told = ["learned i%d" % before.applied]
        log = copy.deepcopy(before.log)
        for entry in before.proposed:
            refused = log.enter(entry)
            if refused:
                told.append("%s skipped (%d %s)" % (short(entry), refused, WORDS[refused]))
        for tx in now.log.txs():
            outcome = now.log.outcome(tx)
            if outcome != before.log.outcome(tx):
                told.append("tx%d %s" % (tx, outcome))
        return told


def state(party):
    """All of a party but its log, to see whether a delivery changed it."""
    return {key: value for key, value in vars(party).items() if key != "log"}


def story(data):
    teller = Teller()
    for number, line, answer in answers(None, teller.answer, data):
        if number > LINES:
            teller.rows.append(Row(number, shown(line), answer))
    return Story(teller.rows, teller.flights, teller.world)
