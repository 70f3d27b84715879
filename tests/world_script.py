"""Step files for `world`, built step by step."""
import world_reference as reference
from plain_log import FIRST_TURN, UPDATE_DIGITS, joined, update_text

step = reference.STEPS.text  # a step's text from its name and values


class Script:
    """A step file that grows with a world beside it, so that a step knows the numbers it sends, and
    in which turn its process is."""

    def __init__(self, acceptors=3):
        self.world, self.rows = reference.World(), []
        if acceptors:
            self.setup(acceptors)

    def row(self, text):
        line = text if isinstance(text, bytes) else text.encode()
        before = len(self.world.messages)
        self.rows.append(line)
        self.answer = reference.answer(self.world, line)
        return list(range(before, len(self.world.messages)))

    def step(self, name, *values, **others):
        return self.row(step(name, *values, **others))

    def turn(self, p):
        """As a line of the process names it: not at all while it is the first."""
        now = self.world.processes[p].turn
        return None if now == FIRST_TURN else now

    def setup(self, acceptors):
        return self.step("setup", acceptors)

    def back(self, p, turn):
        return self.step("back", p, turn)

    def take(self, p, s, to=0):
        return self.step("take", p, s, to, turn=self.turn(p))

    def commit(self, p, s, tx, stores, update=1, to=0, digits=UPDATE_DIGITS):
        return self.vote(p, s, s, tx, stores, "commit", update_text(update, digits), to)

    def abort(self, p, by, s, tx, stores, to=0, update=0, digits=UPDATE_DIGITS):
        return self.vote(p, by, s, tx, stores, "abort", update_text(update, digits), to)

    def vote(self, p, *values):
        return self.step("vote", p, *values, turn=self.turn(p))

    def open(self, c, i, b):
        return self.step("open", c, i, b)

    def propose(self, c, i, b):
        return self.step("propose", c, i, b)

    def tell(self, c, p, tx):
        return self.step("tell", c, p, tx)

    def restore(self, c, p):
        return self.step("restore", c, p)

    def follow(self, c, p, tx):
        return self.step("follow", c, p, tx)

    def crash(self, role, i):
        return self.step("crash", role, i)

    def deliver(self, *numbers):
        return [sent for number in numbers for sent in self.step("deliver", number)]

    def queue(self, *requests):
        self.deliver(*(n for request in requests for n in request))

    def promises(self, c, b, among=(0, 1)):
        """Opens and hears the promises of those acceptors."""
        sent = self.open(c, self.world.coordinators[c].applied, b)
        return self.deliver(*self.deliver(*(sent[a] for a in among)))

    def learn(self, c, b, among=(0, 1)):
        self.promises(c, b, among)
        sent = self.propose(c, self.world.coordinators[c].applied, b)
        self.deliver(*self.deliver(*(sent[a] for a in among)))

    def hold(self, *pairs, coord=0, ballot=3):
        """Each process takes its store, and is restored."""
        self.queue(*(self.take(p, s, coord) for p, s in pairs))
        self.learn(coord, ballot)
        self.deliver(*(n for p, _ in pairs for n in self.restore(coord, p)))

    def leave(self, left, spare=2):
        """Opens of a coordinator that does nothing else, then takes, until `left` numbers are left."""
        ballot, count = spare or 3, self.world.acceptor_count()
        while self.world.left() - left >= count:
            self.open(spare, 0, ballot)
            ballot += 3
        while self.world.left() > left:
            self.take(15, 7, spare)

    def data(self):
        return joined(self.rows)
