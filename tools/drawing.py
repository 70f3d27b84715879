"""A story of a step file drawn as a message chart."""
import math
from xml.sax.saxutils import escape

from marks import COLOURS, back_mark, crash_mark, late_mark, learned_mark, legend, lost_mark
from marks import open_mark, propose_mark, stroke
from story import counted, followed, turned
from svg import BOLD, FONT, GREY, INK, LETTER, PALE, PAPER, SMALL
from svg import arrow, document, element, grounded, line, path, text, width, wrapped

ROLES = {"proc": "process", "coord": "coordinator", "acceptor": "acceptor"}
ROW, LINE, STUBS = 20, 12, 14  # heights: a row, each further line of a label, a row's stubs
COLUMN, NUMBERS, EDGE = 100, 34, 14  # widths
GAP = 9  # between a lifeline and a label
MIDDLE = 4  # from the middle of a row down to the foot of its letters
FAR = 12  # rows: a message that travels longer is drawn as two stubs
STUB = 46  # length of the stub that arrives
AGAIN = 50  # rows: the names of the lifelines stand again
TOP, NAMES, PART = 112, 26, 15  # heights: above the names, the names, a line of the outcomes
LEAST_WIDTH, LEAST_TEXT = 1000, 120  # of the picture; of a refused line between the lifelines

NOTE = (
    "Drawn after the reference of the tests (tests/world_reference.py), not by the proved program."
)
SHORT = (
    "p process, c coordinator, a acceptor, s store, i instance, b ballot; "
    "in brackets a vote's list, then its update. Numbers at arrows are messages."
)


def named(party):
    return "%s %d" % (ROLES[party[0]], party[1])


def answered(row):
    return "refused %d: %s" % (row.answer, row.word())


def far(flight, delivery):
    return flight is not None and delivery - flight.line > FAR


class Label:
    """A row's words, beside the lifeline of who acts, on the side that its arrows do not use."""

    def __init__(self, row, left):
        since = " (sent in line %d)" % row.delivered.line if far(row.delivered, row.line) else ""
        letter = BOLD if row.learned else LETTER
        self.left = left
        self.lines = wrapped(row.says + since)
        self.width = max(width(words, letter=letter) for words in self.lines)


class Places:
    """Where the columns and rows of a chart are."""

    def __init__(self, story):
        self.story = story
        self.parties = story.parties()
        self.labels = {row.line: self.label(row) for row in story.rows if row.party}
        self.place_columns()
        self.place_rows()

    def label(self, row):
        """To the left if a message comes from the right, or if those sent go to the right."""
        flight = row.delivered or (self.story.flights[row.sent[0]] if row.sent else None)
        if flight is None:
            return Label(row, False)
        there = flight.sender if row.delivered else flight.receiver
        return Label(row, self.column(there) > self.column(row.party))

    def column(self, party):
        return self.parties.index(party)

    def place_columns(self):
        """The outer columns leave room for the labels beside them."""
        left = right = COLUMN / 2
        last = len(self.parties) - 1
        for row in self.story.rows:
            label = self.labels.get(row.line)
            if label and label.left:
                left = max(left, label.width + GAP - COLUMN * self.column(row.party))
            elif label:
                right = max(right, label.width + GAP - COLUMN * (last - self.column(row.party)))
            elif row.answer:
                right = max(right, width(answered(row), letter=BOLD) + GAP)
        self.first = NUMBERS + EDGE + left
        self.last = self.first + COLUMN * max(last, 0)
        self.x = {party: self.first + COLUMN * i for i, party in enumerate(self.parties)}
        self.width = max(LEAST_WIDTH, self.last + right + EDGE)

    def place_rows(self):
        self.y, self.height, self.names = {}, {}, []
        y, rows = TOP, self.story.rows
        for i, row in enumerate(rows):
            if i % AGAIN == 0 and (i == 0 or len(rows) - i >= AGAIN / 2):
                self.names.append(y)
                y += NAMES
            lines = len(self.labels[row.line].lines) if row.line in self.labels else 1
            below = max(LINE * (lines - 1), STUBS if self.stubs(row) else 0)
            self.y[row.line], self.height[row.line] = y + ROW / 2, ROW + below
            y += ROW + below
        self.bottom = y

    def stubs(self, row):
        """The messages sent here that are never delivered, or far below."""
        sent = [self.story.flights[n] for n in row.sent]
        return [f for f in sent if not f.deliveries or far(f, f.deliveries[0])]


class Chart(Places):
    """The parts of the picture, those below first."""

    def rows(self):
        for row in self.story.rows:
            y, high = self.y[row.line] - ROW / 2, self.height[row.line]
            if row.answer:
                where = dict(x=EDGE, y=y + 1, width=self.width - 2 * EDGE, height=high - 2)
                yield element("rect", **where, fill=PALE)
            else:
                yield line(EDGE, y + high, self.width - EDGE, y + high, stroke="#f0f0f0")
            looks = dict(text_anchor="end", font_size=SMALL, fill=GREY, class_="line")
            yield text(NUMBERS, self.y[row.line] + MIDDLE, str(row.line), **looks)

    def lifelines(self):
        """Each in pieces: from the top, from each crash, and from each time that it came back."""
        kinds = {"crash": crash_mark, "back": back_mark}
        for party, x in self.x.items():
            rows = [row for row in self.story.rows if row.step in kinds and not row.answer]
            own = [row for row in rows if row.party == party]
            ends = [self.y[row.line] for row in own] + [self.bottom]
            yield self.lifeline(x, TOP, ends[0])
            for row, end in zip(own, ends[1:]):
                y = self.y[row.line]
                yield self.lifeline(x, y, end, row.step == "crash") + kinds[row.step](x, y)

    def lifeline(self, x, y, end, down=False):
        looks = dict(stroke="#8a8a8a", stroke_width=1.4, class_="lifeline")
        if down:
            looks = dict(stroke="#b0b0b0", stroke_dasharray="2 5", class_="down")
        return line(x, y, x, end, **looks)

    def headings(self):
        for y in self.names:
            for party, x in self.x.items():
                where = dict(x=x - COLUMN / 2 + 6, y=y + 3, width=COLUMN - 12, height=NAMES - 7)
                round_, wide = 9 if party[0] == "proc" else 0, 1.8 if party[0] == "coord" else 0.8
                yield element("rect", **where, rx=round_, fill=PAPER, stroke=INK, stroke_width=wide)
                looks = dict(text_anchor="middle", font_weight="bold", class_="name")
                yield text(x, y + 16.5, named(party), **looks)

    def arrows(self):
        for row in self.story.rows:
            if row.delivered:
                yield self.arrow(row)
        for row in self.story.rows:
            stubs = list(enumerate(self.stubs(row)))
            for place, flight in reversed(stubs):  # the words of one lie on the line of the next
                yield self.stub(row, place, flight)

    def arrow(self, row):
        """From the line that sent it; from a small square, if that line is far above."""
        flight, colour = row.delivered, COLOURS[row.delivered.kind]
        x, y = self.x[flight.sender], self.y[flight.line]
        to_x, to_y = self.x[flight.receiver], self.y[row.line]
        begun = element("circle", cx=x, cy=y, r=2.2, fill=colour, stroke="none")
        if far(flight, row.line):
            x, y = to_x + math.copysign(STUB, x - to_x), to_y
            begun = element("rect", x=x - 2.5, y=y - 2.5, width=5, height=5, fill=PAPER)
        bent = abs(to_x - x) > 1.5 * COLUMN
        drawn = arrow(x, y, to_x, to_y, colour, bent=bent, dashed=row.again)
        return self.message(flight, "again" if row.again else "delivered", row.line, drawn, begun)

    def stub(self, row, place, flight):
        """Ends in the open; a triangle and a line say where a late one arrives."""
        x, y, low = self.x[flight.sender], self.y[row.line], self.y[row.line] + STUBS
        way = math.copysign(1, self.x[flight.receiver] - x)
        end = x + way * (24 + sum(map(self.stub_room, self.stubs(row)[:place])))
        kind, mark = ("late", late_mark) if flight.deliveries else ("lost", lost_mark)
        looks = dict(text_anchor="start" if way > 0 else "end", stroke="none", fill=INK)
        words = grounded(
            end + way * 6, low + 3.2, self.stub_words(flight), SMALL, opacity=1, **looks
        )
        shaft = path("M{} {}L{} {}H{}", x, y, x + way * 9, low, end)
        return self.message(
            flight, kind, row.line, shaft, mark(end, low, COLOURS[flight.kind]), words
        )

    def stub_words(self, flight):
        later = ", line %d" % flight.deliveries[0] if flight.deliveries else ""
        return "%d%s" % (flight.number, later)

    def stub_room(self, flight):
        return 16 + width(self.stub_words(flight), SMALL)

    def message(self, flight, kind, at, *parts):
        """All that is drawn of a message, with a title that says the whole of it."""
        ends = {
            "delivered": "delivered in line %d" % at,
            "again": "delivered again in line %d" % at,
            "late": "delivered far below",
            "lost": "never delivered",
        }
        parties = (named(flight.sender), named(flight.receiver))
        sent = "sent in line %d by %s to %s" % (flight.line, *parties)
        title = "%d: %s, %s, %s" % (flight.number, flight.says, sent, ends[kind])
        names = dict(class_="message " + kind, data_number=flight.number, data_line=at)
        looks = dict(stroke=COLOURS[flight.kind], fill="none", stroke_width=stroke(flight.kind))
        return element("g", element("title", escape(title)), *parts, **names, **looks)

    def words(self):
        for row in self.story.rows:
            y = self.y[row.line] + MIDDLE
            if row.answer:
                yield from self.refused(row, y)
            elif row.party:
                yield from self.label_at(row, y)
            elif row.says:
                yield text(self.last + GAP, y, row.says, class_="says", data_line=row.line)

    def refused(self, row, y):
        """The answer at the side; the line between the lifelines, or after the answer."""
        x, start, end = self.last + GAP, self.first + GAP, self.last - GAP
        yield text(x, y, answered(row), font_weight="bold", class_="refused", data_line=row.line)
        if end - start < LEAST_TEXT:
            start, end = x + width(answered(row), letter=BOLD) + GAP, self.width - EDGE
        room = int((end - start) / (FONT * LETTER))
        shown = row.text if len(row.text) <= room else row.text[: room - 3] + " .."
        looks = dict(ground=PALE, fill="#444444", class_="refused-line", data_line=row.line)
        yield grounded(start, y, shown, **looks)

    def label_at(self, row, y):
        label = self.labels[row.line]
        x = self.x[row.party] + (-GAP if label.left else GAP)
        looks = dict(
            text_anchor="end" if label.left else "start",
            font_weight="bold" if row.learned else None,
            class_="says",
            data_line=row.line,
        )
        for i, words in enumerate(label.lines):
            yield grounded(x, y + LINE * i, words, **looks)

    def marks(self):
        kinds = {"open": open_mark, "propose": propose_mark}
        for row in self.story.rows:
            kind = learned_mark if row.learned else kinds.get(row.step)
            if kind and not row.answer:
                yield kind(self.x[row.party], self.y[row.line])

    def title(self, name):
        heading = "%s: %s of `world`" % (name, counted(len(self.story.rows), "line"))
        yield text(EDGE, 24, heading, font_size=17, font_weight="bold")
        yield text(EDGE, 42, NOTE, fill=GREY)
        yield text(EDGE, 58, SHORT, fill=GREY)
        yield element("g", *legend(EDGE, 80), class_="legend")

    def outcomes(self):
        """What each party knows at the end, in blocks side by side; and where the picture ends."""
        parts = [text(EDGE, self.bottom + 32, "At the end", font_size=14, font_weight="bold")]
        x, y, lowest = EDGE, self.bottom + 54, self.bottom + 54
        for heading, rows in known(self.story.world):
            room = max([width(heading, letter=BOLD)] + [width(words) for words in rows]) + 24
            if x + room > self.width and x > EDGE:
                x, y = EDGE, lowest + 2 * PART
            parts.append(text(x, y, heading, font_weight="bold", class_="knows"))
            for i, words in enumerate(rows, 1):
                parts.append(text(x, y + PART * i, words, class_="knows"))
            x, lowest = x + room, max(lowest, y + PART * len(rows))
        return parts, lowest + 24

    def svg(self, name):
        layers = (self.rows, self.lifelines, self.headings, self.arrows, self.words, self.marks)
        outcomes, foot = self.outcomes()
        parts = [part for layer in layers for part in layer()] + [*self.title(name), *outcomes]
        return document(self.width, foot, "Message chart of " + name, NOTE, parts)


def known(world):
    """By party a heading and rows: a coordinator's log, what a process heard, restored, followed."""
    for i, c in enumerate(world.coordinators):
        down = ", down" if ("coord", i) in world.down else ""
        yield "coordinator %d%s: applied %d" % (i, down, c.applied), list(log_rows(c.log))
    for i, p in enumerate(world.processes):
        down = ", down" if ("proc", i) in world.down else ""
        rows = ["heard tx%d %s" % (tx, p.heard[tx]) for tx in sorted(p.heard)]
        if p.position:
            place = (p.store, p.position, counted(len(p.rows), "row"))
            rows.append("restored s%d at position %d, %s" % place)
            rows += ["group %d tx%d upd %x" % row for row in p.rows]
            rows += ["running tx%d" % tx for tx in p.running]
            rows += ["follow " + followed(tx, *p.follows[tx]) for tx in sorted(p.follows)]
        if rows or turned(p.turn):
            yield "process %d%s%s" % (i, turned(p.turn), down), rows


def log_rows(log):
    for tx in log.txs():
        group = ", group %d" % log.group(tx) if log.group(tx) else ""
        yield "tx%d %s%s" % (tx, log.outcome(tx), group)
    for store in range(len(log.takes)):
        if log.holder(store):
            holder = log.holder(store), turned(log.holder_turn(store))
            yield "s%d held by p%d%s" % (store, *holder)


def drawn(story, name):
    return Chart(story).svg(name)
