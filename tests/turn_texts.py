"""Lines with `turn=` in them, good and bad: for the cases of both programs."""
from plain_log import BYTES

# Behind turn=, where it may stand. Those that read are from 1 to 255, or outside.
NUMBERS = [
    "0", "1", "2", "9", "10", "99", "100", "127", "128", "199", "200", "249", "250", "254",
    "255", "256", "257", "260", "299", "300", "511", "512", "513", "999", "1000", "2550",
    "65535", "65536", "65537", "4294967295", "4294967296", "4294967297", "18446744073709551615",
    "18446744073709551616", "18446744073709551617", "340282366920938463463374607431768211457",
    "00", "01", "02", "001", "0255", "0256", "-1", "+1", "1.", "1e0", "0x1", "ff", "a", "", " 1",
    "1 ", "1,2", "1=1", "１",
]
FIELDS = [
    "turn=1", "turn=2", "turn=0", "turn=256", "turn=", "turn", "Turn=1", "turns=1", "turn =1",
    "turn:1", "tur=1", "=1", "",
]


def places(line):
    """The field, and others much like it, at every place among the words of the line, and twice."""
    words = line.split(" ")
    for at in range(len(words) + 1):
        for field in FIELDS:
            yield " ".join(words[:at] + [field] + words[at:])
        yield " ".join(words[:at] + ["turn=1", "turn=1"] + words[at:])
        yield " ".join(words[:at] + ["turn=1"] + words[at:] + ["turn=1"])


def each_byte(line):
    """Each byte in the place of the turn of the line, which is T, and beside a digit there."""
    head, tail = line.encode().split(b"T")
    for byte in (bytes([b]) for b in range(256) if b != 10):
        yield from (head + turn + tail for turn in (byte, b"1" + byte, byte + b"1"))


def long(line):
    """The line with so many digits in the place of T that it is as long as a line may be, nearly,
    or longer."""
    for length in (BYTES - 1, BYTES, BYTES + 1, BYTES + 2):
        digits = length - len(line) + len("T")
        for first in "190":
            yield line.replace("T", first + "0" * (digits - 1))
