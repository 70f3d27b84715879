"""The plain log of document 01, and how step files are read and answered: what the references
share. An update is as wide as document 02, request 3, makes it, and entries have the turns of its
request 4.

It is written from the documents' sentences alone and shares no code, table or layout with the
crates."""
import os
import re
import sys
from collections import namedtuple

LINES, BYTES = 1000, 100
TXS, STORES, PROCESSES = 32, 8, 15
FIRST_TURN, LAST_TURN = 1, 255  # the first one also where a line names none
UPDATE_DIGITS, SHORT_DIGITS = 16, 8  # of an update: as written, and as also read

Take = namedtuple("Take", "process turn store")
Vote = namedtuple("Vote", "process turn by store tx stores commit update")

LIMITS = {
    "proc": range(1, PROCESSES + 1),
    "turn": range(FIRST_TURN, LAST_TURN + 1),
    "store": range(STORES),
    "by": range(STORES),
    "tx": range(TXS),
}


def lowest(*conditions):
    return min((number for number, applies in conditions if applies), default=0)


def stores_of(bits):
    """The stores of a list, which has bit s for store s."""
    return frozenset(s for s in range(STORES) if bits >> s & 1)


# Entries and the log


def outside(entry):
    """A number is outside its limits."""
    values = {"proc": entry.process, "turn": entry.turn, "store": entry.store}
    if isinstance(entry, Vote):
        values.update(by=entry.by, tx=entry.tx)
    return any(number not in LIMITS[key] for key, number in values.items())


def malformed(vote):
    return (
        not {vote.store, vote.by} <= vote.stores
        or (vote.commit and vote.by != vote.store)
        or (not vote.commit and vote.update != 0)
    )


class Log:
    def __init__(self):
        self.kept = {}  # (tx, store): Vote
        self.takes = [[] for _ in range(STORES)]  # accepted, by store; the last is the holder's
        self.turns = {}  # process: the turn of its last accepted take, of whatever store
        self.groups = (
            []
        )  # for each, its transactions and those running just before its first commit

    def holder(self, store):
        return self.takes[store][-1].process if self.takes[store] else 0

    def holder_turn(self, store):
        """The turn in which the holder took the store; 0 if nobody holds it."""
        return self.takes[store][-1].turn if self.takes[store] else 0

    def held_by(self, process):
        return [s for s in range(STORES) if self.holder(s) == process]

    def ever_held(self, process, store):
        """The process holds the store or held it before, in whatever turn."""
        return any(take.process == process for take in self.takes[store])

    def txs(self):
        """The transactions with a kept vote."""
        return sorted({tx for tx, _ in self.kept})

    def votes(self, tx):
        return [self.kept[t, s] for t, s in sorted(self.kept) if t == tx]

    def has_commit(self, tx, store):
        """The store has a kept commit vote on the transaction."""
        return (tx, store) in self.kept and self.kept[tx, store].commit

    def outcome(self, tx):
        votes = self.votes(tx)
        if not all(v.commit for v in votes):
            return "abort"
        if any(v.stores <= {w.store for w in votes} for v in votes):
            return "commit"
        return "open"

    def involvement(self, tx, store):
        """Where a commit vote is kept, its list alone says yes or no."""
        votes = self.votes(tx)
        for v in votes:
            if v.commit:
                return "yes" if store in v.stores else "no"
        return "yes" if any(store in v.stores for v in votes) else "unknown"

    def running(self):
        """The transactions that run."""
        return [tx for tx in self.txs() if self.outcome(tx) == "open"]

    def group(self, tx):
        """0 if it has none."""
        return next((i for i, (members, _) in enumerate(self.groups, 1) if tx in members), 0)

    def refusal(self, entry):
        if isinstance(entry, Take):
            last, held = self.turns.get(entry.process, 0), self.held_by(entry.process)
            again = self.ever_held(entry.process, entry.store)
            return lowest(
                (11, any(store != entry.store for store in held)),
                (12, entry.turn < last or (entry.turn == last and again)),
            )
        lists = [v.stores for v in self.votes(entry.tx) if v.commit]
        return lowest(
            (7, malformed(entry)),
            (8, self.holder(entry.by) != entry.process),
            (9, any(entry.stores != l if entry.commit else not entry.stores <= l for l in lists)),
            (10, (entry.tx, entry.store) in self.kept),
            (12, self.holder_turn(entry.by) != entry.turn),
        )

    def enter(self, entry):
        """The answer; the log is the one after the entry."""
        answer = 2 if outside(entry) else self.refusal(entry)
        if answer:
            return answer
        if isinstance(entry, Take):
            self.takes[entry.store].append(entry)
            self.turns[entry.process] = entry.turn
            return 0
        running = self.running()
        self.kept[entry.tx, entry.store] = entry
        if self.outcome(entry.tx) == "commit":
            if self.groups and entry.tx in self.groups[-1][1]:
                self.groups[-1][0].add(entry.tx)
            else:
                self.groups.append(({entry.tx}, running))
        return 0

    def replay(self, store):
        return [
            (g, tx, self.kept[tx, store].update)
            for g, (members, _) in enumerate(self.groups, 1)
            for tx in sorted(members)
            if (tx, store) in self.kept
        ]

    def lines(self):
        for tx in self.txs():
            yield "tx=%d outcome=%s group=%d" % (tx, self.outcome(tx), self.group(tx))
        yield from self.store_lines()

    def store_lines(self):
        for store in range(STORES):
            if self.holder(store):
                yield "store=%d holder=%d" % (store, self.holder(store))
        for store in range(STORES):
            yield from replay_lines(store, self.replay(store))


def replay_lines(store, rows):
    return [
        "store=%d group=%d tx=%d upd=%s" % (store, group, tx, update_text(update))
        for group, tx, update in rows
    ]


def update_text(update, digits=UPDATE_DIGITS):
    return "%0*x" % (digits, update)


# Step files

DECIMAL = "0|[1-9][0-9]*"
FORMS = {
    "list": "[0-9a-f]{2}",
    "upd": "|".join("[0-9a-f]{%d}" % digits for digits in (SHORT_DIGITS, UPDATE_DIGITS)),
    "say": "commit|abort",
    "role": "acceptor|coord|proc",
}
VALUES = {
    "list": lambda text: stores_of(int(text, 16)),
    "upd": lambda text: int(text, 16),
    "say": lambda text: text == b"commit",
    "role": bytes.decode,
}
ABSENT = {"turn": b"%d" % FIRST_TURN}  # what a line means that lacks the field


class Reader:
    """Reads the lines of a program whose steps have these keys, in this order. A key with a ? may
    lack."""

    def __init__(self, fields):
        self.fields = {name: keys.split() for name, keys in fields.items()}
        self.forms = {name.encode(): re.compile(self.form(name).encode()) for name in fields}

    def form(self, name):
        return "do=" + name + "".join(map(self.field_form, self.fields[name]))

    def field_form(self, field):
        key = field.rstrip("?")
        form = " %s=(%s)" % (key, FORMS.get(key, DECIMAL))
        return "(?:%s)?" % form if key != field else form

    def keys(self, name):
        """Those that no line of the step lacks."""
        return [field for field in self.fields[name] if not field.endswith("?")]

    def read(self, line):
        """The step's name and values by key, or None."""
        name = line[3:BYTES].split(b" ", 1)[0]
        match = name in self.forms and self.forms[name].fullmatch(line)
        if not match or len(line) > BYTES:
            return None
        keys = [field.rstrip("?") for field in self.fields[name.decode()]]
        texts = [ABSENT.get(k) if v is None else v for k, v in zip(keys, match.groups())]
        return name.decode(), {k: VALUES.get(k, int)(v) for k, v in zip(keys, texts)}

    def text(self, name, *values, **others):
        """A line of the step, from the values of its keys. The others are those that may lack; one
        that is None does."""
        given = {**dict(zip(self.keys(name), values)), **others}
        keys = [field.rstrip("?") for field in self.fields[name]]
        pairs = ((key, given.get(key)) for key in keys)
        return "do=" + name + "".join(" %s=%s" % pair for pair in pairs if pair[1] is not None)


def lines_of(data):
    lines = data.split(b"\n")
    return lines if lines[-1] else lines[:-1]


def joined(rows):
    """The rows as the lines of a file, each with its LF."""
    return b"".join(row + b"\n" for row in rows)


def answers(state, answer, data):
    """Each line's number, bytes and answer, up to the line that ends the reading."""
    for number, line in enumerate(lines_of(data)[: LINES + 1], 1):
        yield number, line, 6 if number > LINES else answer(state, line)


def printed(state, answer, data):
    """What a program prints that holds this state and answers each line so."""
    rows = [
        "step=%d answer=%d" % (number, given) for number, _, given in answers(state, answer, data)
    ]
    return joined(row.encode() for row in rows + list(state.lines()))


def check(run, where):
    """Sets what run gives for each NAME.steps beside NAME.out."""
    names = sorted(name[:-6] for name in os.listdir(where) if name.endswith(".steps"))
    bad = 0
    for name in names:
        given, want = (read_file(os.path.join(where, name + end)) for end in (".steps", ".out"))
        if run(given) != want:
            bad += 1
            print("differs:", name)
    print("%d files, %d differ" % (len(names), bad))
    return bad != 0


def read_file(name):
    with open(name, "rb") as file:
        return file.read()


def reference_main(run):
    """`NAME < STEPS` prints what the program prints; `NAME check DIR` compares."""
    if len(sys.argv) == 1:
        sys.stdout.buffer.write(run(sys.stdin.buffer.read()))
    elif len(sys.argv) == 3 and sys.argv[1] == "check":
        sys.exit(check(run, sys.argv[2]))
    else:
        sys.exit("usage: %s < STEPS, or %s check DIR" % (sys.argv[0], sys.argv[0]))
