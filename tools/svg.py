"""Elements of an SVG picture, as text: words in <text>, no script, no outside font."""
import math
import re
import textwrap
from xml.sax.saxutils import escape, quoteattr

INK, GREY, PALE, PAPER = "#1a1a1a", "#666666", "#e4e4e4", "#ffffff"
FONT, SMALL = 11, 9
LETTER, BOLD = 0.53, 0.6  # a letter's width, of the font's size, about
WRAP, KEPT = 46, "\u00a0"  # letters in a line; a space at which no line ends
HEAD, SHAFT = 8, 6  # an arrow's head: its length, and as far as it covers the shaft


def width(words, size=FONT, letter=LETTER):
    return math.ceil(len(words) * size * letter)


def wrapped(words):
    """Lines that break after a comma or a semicolon, or before the bracket `(sent`."""
    kept = re.sub("(?<![,;]) (?!\\(sent)", KEPT, words)
    lines = textwrap.wrap(kept, WRAP, break_long_words=False)
    return [line.replace(KEPT, " ") for line in lines] or [""]


def number(value):
    return ("%.1f" % value).rstrip("0").rstrip(".")


def attribute(key, value):
    """`_` stands for `-`, and at the end of a key for nothing, as in class_."""
    given = number(value) if isinstance(value, (int, float)) else value
    return " %s=%s" % (key.rstrip("_").replace("_", "-"), quoteattr(given))


def element(name, *inside, **attributes):
    """Inside are elements, or text that is escaped already."""
    named = "".join(attribute(key, value) for key, value in attributes.items() if value is not None)
    if not inside:
        return "<%s%s/>" % (name, named)
    return "<%s%s>%s</%s>" % (name, named, "".join(inside), name)


def text(x, y, words, **attributes):
    return element("text", escape(words), x=x, y=y, **attributes)


def path(form, *numbers, **attributes):
    """A path whose form has a {} for each number."""
    return element("path", d=form.format(*map(number, numbers)), **attributes)


def line(x, y, to_x, to_y, **attributes):
    return path("M{} {}L{} {}", x, y, to_x, to_y, **attributes)


def grounded(x, y, words, size=FONT, ground=PAPER, opacity=0.85, **attributes):
    """Words on a ground that covers what runs below them."""
    room = width(words, size)
    left = x - room if attributes.get("text_anchor") == "end" else x
    where = dict(x=left, y=y - size + 2, width=room, height=size)
    rect = element("rect", **where, fill=ground, fill_opacity=opacity, stroke="none")
    return rect + text(x, y, words, font_size=size if size != FONT else None, **attributes)


def arrow(x, y, to_x, to_y, colour, bent=False, dashed=False, **attributes):
    """A shaft and its head. A bent one runs level first, past what straight ones meet."""
    by_x, by_y = (x + 0.6 * (to_x - x), y + 0.15 * (to_y - y)) if bent else (x, y)
    rest = SHAFT / math.hypot(to_x - by_x, to_y - by_y)
    end_x, end_y = to_x - rest * (to_x - by_x), to_y - rest * (to_y - by_y)
    dashes = "6 4" if dashed else None
    shaft = path(
        "M{} {}Q{} {} {} {}", x, y, by_x, by_y, end_x, end_y, stroke_dasharray=dashes, **attributes
    )
    return shaft + head(to_x, to_y, math.atan2(to_y - by_y, to_x - by_x), colour)


def head(x, y, angle, colour):
    corners = [
        (x - HEAD * math.cos(angle + turn), y - HEAD * math.sin(angle + turn))
        for turn in (0.4, -0.4)
    ]
    return path("M{} {}L{} {}L{} {}Z", x, y, *corners[0], *corners[1], fill=colour)


def document(wide, high, title, description, parts):
    first = [
        element("title", escape(title)),
        element("desc", escape(description)),
        element("rect", width=wide, height=high, fill=PAPER),
    ]
    svg = element(
        "svg",
        *("\n" + part for part in first + parts),
        "\n",
        xmlns="http://www.w3.org/2000/svg",
        width=wide,
        height=high,
        viewBox="0 0 %s %s" % (number(wide), number(high)),
        font_family="Helvetica, Arial, 'DejaVu Sans', sans-serif",
        font_size=FONT,
        fill=INK,
    )
    return '<?xml version="1.0" encoding="UTF-8"?>\n' + svg + "\n"
