"""The marks and colours of a message chart, and their legend."""
from svg import INK, PALE, PAPER, arrow, element, path, text, width

# Colours that also the colour-blind tell apart (Okabe and Ito); every arrow is labelled as well.
COLOURS = {
    "request": "#0072b2",
    "prepare": "#d55e00",
    "promise": "#d55e00",
    "accept": "#00785a",
    "accepted": "#00785a",
    "outcome": "#882255",
    "restore": "#882255",
    "follow": "#882255",
}
LEARNED = "#f0c000"


def stroke(kind):
    """Accepts are wider, for print."""
    return 2.2 if kind in ("accept", "accepted") else 1.3


def square(x, y, fill, name):
    form = "M{} {}m-5 -5h10v10h-10z"
    return path(form, x, y, fill=fill, stroke=INK, stroke_width=1.6, class_=name)


def open_mark(x, y):
    return square(x, y, PAPER, "open")


def propose_mark(x, y):
    return square(x, y, INK, "propose")


def learned_mark(x, y):
    form = "M{} {}m0 -8l8 8l-8 8l-8 -8z"
    return path(form, x, y, fill=LEARNED, stroke=INK, stroke_width=1.4, class_="learned")


def crash_mark(x, y):
    form = "M{} {}m-6 -6l12 12m0 -12l-12 12"
    return path(form, x, y, stroke=INK, stroke_width=2.4, class_="crash")


def back_mark(x, y):
    form = "M{} {}m0 -7l7 12h-14z"
    return path(form, x, y, fill=PAPER, stroke=INK, stroke_width=1.6, class_="back")


def lost_mark(x, y, colour=INK):
    return element("circle", cx=x, cy=y, r=3, fill=PAPER, stroke=colour)


def late_mark(x, y, colour=INK):
    return path("M{} {}m0 3l-4 -6h8z", x, y, fill=colour)


def refused_mark(x, y):
    return element("rect", x=x - 8, y=y - 7, width=16, height=14, fill=PALE)


ARROWS = [
    ("request", "request"),
    ("prepare", "prepare, promise"),
    ("accept", "accept, accepted"),
    ("restore", "tell, restore, follow"),
    ("again", "delivered again"),
]
MARKS = [
    (lost_mark, "never delivered"),
    (late_mark, "delivered far below, in that line"),
    (open_mark, "ballot opened"),
    (propose_mark, "batch proposed"),
    (learned_mark, "instance learned"),
    (crash_mark, "crashed"),
    (back_mark, "came back"),
    (refused_mark, "refused line"),
]


def legend(x, y):
    """The arrows in a row, and the marks in one below it."""
    at = x
    for kind, words in ARROWS:
        colour, dashed = COLOURS.get(kind, INK), kind == "again"
        looks = dict(stroke=colour, stroke_width=stroke(kind), fill="none")
        yield arrow(at, y, at + 34, y, colour, dashed=dashed, **looks)
        yield text(at + 40, y + 4, words)
        at += 56 + width(words)
    at = x + 8
    for mark, words in MARKS:
        yield mark(at, y + 19)
        yield text(at + 13, y + 23, words)
        at += 34 + width(words)
