#!/usr/bin/env python3
"""Writes the cases of crates/plain_cases: `make_plain_cases.py crates/plain_cases`.

Files of data/ that end in .steps stand there already (shared vectors); all others are made here,
with args (the names) and stdout (each name, what plain_reference.py prints, and who is involved)."""
import case_files
import log_cases
import plain_reference as reference
import turn_texts
import update_texts
from plain_log import SHORT_DIGITS, STORES, TXS, UPDATE_DIGITS, Log, joined, printed, update_text

INVOLVED = {"no": "0", "yes": "1", "unknown": "2"}


def vote(p=1, by=0, store=0, tx=0, lst="01", say="commit", upd=update_text(1), turn=None):
    return reference.STEPS.text("vote", p, by, store, tx, lst, say, upd, turn=turn).encode()


def take(p=1, store=0, turn=None):
    return reference.STEPS.text("take", p, store, turn=turn).encode()


def lines(*rows):
    return joined(rows)


def long_take(length):
    """A take of that length, by the digits of its process."""
    return take("9" * (length - len(take(""))))


def long_vote(length, digits):
    """The same of a vote, its update with so many digits."""
    update = update_text(1, digits)
    return vote("9" * (length - len(vote("", upd=update))), upd=update)


def shape_cases():
    good = take()
    yield "empty", b""
    yield "one-lf", b"\n"
    yield "two-lfs", b"\n\n"
    yield "no-final-lf", good
    yield "lf-then-text", b"\n" + good
    for n in (99, 100, 101, 102):
        yield "bytes-%d" % n, long_take(n)
        yield "bytes-%d-lf" % n, long_take(n) + b"\n" + good + b"\n"
    yield "bytes-of-votes", lines(*[long_vote(n, digits) for digits in (SHORT_DIGITS, UPDATE_DIGITS) for n in (99, 100, 101, 102)])
    for n in (999, 1000, 1001, 1002):
        yield "lines-%d" % n, lines(*[take(1 + i % 15, i % 8) for i in range(n)])
        yield "lines-%d-no-lf" % n, lines(*[take(1 + i % 15, i % 8) for i in range(n)])[:-1]
    yield "lines-1000-and-lf", lines(*[good] * 1000) + b"\n"
    yield "lines-1000-and-long", lines(*[good] * 1000) + b"x" * 300
    yield "lines-1000-and-bad", lines(*[good] * 1000) + b"x\n" + good
    yield "long-first-line", b"x" * 70000 + b"\n" + good + b"\n"
    yield "long-line-of-digits", take("1" * 70000) + b"\n" + good + b"\n"
    yield "all-bytes", b"".join(bytes([b]) + b"\n" for b in range(256)) + b"".join(good + bytes([b]) + b"\n" for b in range(256))
    yield "all-bytes-inside", b"".join(b"do=take proc=" + bytes([b]) + b" store=0\n" for b in range(256))
    yield "all-bytes-hex", b"".join(b"do=vote proc=1 by=0 store=0 tx=0 list=0" + bytes([b]) + b" say=commit upd=00000001\n" for b in range(256))


def value_cases():
    numbers = ["0", "1", "7", "8", "15", "16", "31", "32", "99", "100", "127", "128", "255", "256", "257", "264", "287", "511", "512", "999", "1000",
               "65535", "65536", "65537", "4294967295", "4294967296", "4294967297", "18446744073709551615", "18446744073709551616",
               "18446744073709551617", "340282366920938463463374607431768211457", "00", "01", "015", "-1", "+1", "1.", "", " 1", "1 ", "0x1", "１"]
    yield "process-numbers", lines(*[take(n, 0) for n in numbers])
    yield "store-numbers", lines(*[take(1 + i % 15, n) for i, n in enumerate(numbers)])
    yield "vote-process-numbers", lines(take(), *[vote(p=n) for n in numbers])
    yield "by-numbers", lines(take(), *[vote(by=n) for n in numbers])
    yield "vote-store-numbers", lines(take(), *[vote(store=n) for n in numbers])
    yield "tx-numbers", lines(take(), *[vote(tx=n) for n in numbers])
    lists = ["00", "01", "ff", "FF", "fF", "0", "1", "001", "0g", "g0", "1 ", " 1", "", "/0", ":0", "`0", "{0", "@0"]
    yield "lists", lines(take(), *[vote(tx=i, lst=x) for i, x in enumerate(lists)])
    says = ["commit", "abort", "Commit", "commits", "commi", "", "aborted", "open", "abort "]
    yield "says", lines(take(), *[vote(tx=i, say=x, upd=update_text(0)) for i, x in enumerate(says)])
    yield "ninety-digits", lines(take("9" * 79, 0), take("1" + "0" * 76, 0), b"do=vote proc=1 by=0 store=0 tx=" + b"9" * 40 + b" list=01 say=abort upd=00000000",
                                 take("0" * 76, 0), b"do=take proc=" + b"9" * 80 + b" store=0")
    yield "unreadable-before-outside", lines(take(99, "x"), take("x", 99), vote(p=99, upd="x"), vote(tx=99, say="no"), vote(by=300, lst="FF"), take(99, 99))


def update_cases():
    for name, texts in update_texts.reading():
        yield name, lines(take(), *[vote(tx=i % TXS, upd="") + text for i, text in enumerate(texts)])
    yield "updates", lines(take(), *[vote(tx=i, upd=text) for i, text in enumerate(update_texts.values())])


def turn_cases():
    """The field turn= at every place of takes and votes, with numbers and bytes of all sorts."""
    rows = [take().decode(), vote(tx=1).decode()]
    open_rows = [take(turn="T").decode(), vote(turn="T").decode()]
    numbers = list(enumerate(turn_texts.NUMBERS))
    yield "turn-numbers", lines(*[take(1 + i % 15, i % 8, turn=n) for i, n in numbers])
    yield "vote-turn-numbers", lines(take(), *[vote(tx=i % TXS, turn=n) for i, n in numbers])
    places = [text.encode() for row in rows for text in turn_texts.places(row)]
    yield "turn-places", lines(take(), *places)
    yield "turn-bytes", lines(*turn_texts.each_byte(open_rows[0]))
    votes = turn_texts.each_byte(open_rows[1])
    yield "vote-turn-bytes", lines(take(turn=200), *votes)  # none is of turn 200
    yield "bytes-of-turns", lines(*[t.encode() for row in open_rows for t in turn_texts.long(row)])
    longest = vote(15, 7, 7, 31, "ff", "commit", update_text(2**64 - 1), turn=255)
    yield "longest-line", lines(take(15, 7, turn=255), longest, longest + b" ", longest + b"0")
    yield "turn-unreadable-before-outside", lines(
        take(99, turn="x"), take("x", turn=999), take(turn=999, store="x"), take(99, 99, turn=999),
        vote(turn=0, upd="x"), vote(p=99, turn="01"), vote(turn=256, tx="01"))


def step_cases():
    yield "document-01", lines(
        take(1, 0), take(2, 1), vote(1, 0, 0, 4, "03", upd="0000000a"), vote(2, 1, 1, 4, "03", upd="0000000b"), vote(2, 1, 1, 4, "03", "abort", "00000000"))
    yield "words", lines(b"do=take", b"do=", b"do", b"", b"do=taken proc=1 store=0", b"do= take proc=1 store=0", b"Do=take proc=1 store=0",
                         b"do=take  proc=1 store=0", b"do=take proc=1  store=0", b"do=take proc=1 store=0 ", b" do=take proc=1 store=0", b"do=take store=0 proc=1",
                         b"do=take proc=1", b"do=take proc=1 store=0 to=0", b"do=take proc=1 proc=1 store=0", b"do=take\tproc=1 store=0", b"do=take proc=1 store=0\r",
                         b"do=take proc=1 store=0\0", b"\xef\xbb\xbfdo=take proc=1 store=0", b"do=setup acceptors=3", b"do=vote", b"do=take,proc=1,store=0", take())
    yield "refusals", lines(
        b"bad", take(0, 0), take(1, 0), take(1, 1), take(2, 1), take(3, 2),
        vote(p=1, by=0, store=0, tx=1, lst="02"), vote(p=1, by=0, store=1, tx=1, lst="03"), vote(p=1, by=0, store=1, tx=1, lst="03", say="abort"),
        vote(p=2, by=0, store=0, tx=1, lst="01"), vote(p=1, by=0, store=0, tx=1, lst="03"), vote(p=2, by=1, store=1, tx=1, lst="07"),
        vote(p=3, by=2, store=2, tx=1, lst="04", say="abort", upd=update_text(0)), vote(p=1, by=0, store=0, tx=1, lst="03"), vote(p=2, by=1, store=1, tx=1, lst="03"),
        take(4, 0), take(1, 0), vote(p=1, by=0, store=0, tx=2), take(1, 3), take(5, 0), take(4, 0))
    yield "groups", lines(
        *[take(s + 1, s) for s in range(8)],
        vote(1, 0, 0, 1, "03"), vote(1, 0, 0, 2, "03"), vote(2, 1, 1, 1, "03"), vote(1, 0, 0, 3, "03"), vote(2, 1, 1, 2, "03"), vote(2, 1, 1, 3, "03"),
        *[vote(s + 1, s, s, 31, "ff", "commit", update_text(s * 0x1111111111111111)) for s in range(8)],
        *[vote(s + 1, s, s, 30, "ff", "commit", update_text(2**64 - 1)) for s in range(7)], vote(1, 0, 7, 30, "81", "abort", update_text(0)))
    # 256 updates, each of two digits again and again: each digit at each place
    yield "full-log", lines(*[take(s + 1, s) for s in range(8)], *[
        vote(s + 1, s, s, t, "ff", "commit", update_text((t * 8 + s) * 0x0101010101010101)) for t in range(32) for s in range(8)])
    yield "one-store-each", lines(*[take(s + 1, s) for s in range(8)], *[vote(s + 1, s, s, t, "%02x" % (1 << s), "commit", update_text(2**64 - 1)) for t in range(32) for s in (t % 8,)])


def cases():
    for group in (shape_cases, value_cases, update_cases, turn_cases, step_cases, log_cases.cases):
        yield from group()


def involvement(log, tx):
    """By store, for a transaction with a kept vote and for a number that is no transaction."""
    return "tx=%d involvement=%s" % (tx, "".join(INVOLVED[log.involvement(tx, s)] for s in range(STORES)))


def run(data):
    log = Log()
    out = printed(log, reference.answer, data)
    return out + joined(involvement(log, tx).encode() for tx in [*log.txs(), TXS])


def files(where):
    return case_files.step_files(where, dict(cases()), run)


if __name__ == "__main__":
    case_files.main(files)
