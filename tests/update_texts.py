"""What may stand behind `upd=` in a vote, good and bad: for the cases of both programs."""
from plain_log import SHORT_DIGITS, UPDATE_DIGITS, update_text

COUNTS = [*range(21), 24, 32, 36, 40]
NEARLY = b"/:@AFG`g -\0\xb0"  # beside the digits; upper case; a digit with its highest bit set
BORDERS = [0, 1, 2**32 - 1, 2**32, 2**63, 2**64 - 1]


def digits(count):
    return (b"abcdef9876543210" * 3)[:count]


def reading():
    """By name, texts of which few read."""
    lengths = SHORT_DIGITS, UPDATE_DIGITS
    yield "update-counts", [text for n in COUNTS for text in (b"0" * n, digits(n))]
    yield "update-bytes", [
        digits(n)[:at] + bytes([byte]) + digits(n)[at + 1 :]
        for n in lengths
        for at in range(n)
        for byte in NEARLY
    ]
    yield "update-behind", [
        digits(n) + bytes([byte]) for n in lengths for byte in range(256) if byte != 10
    ]


def values():
    """Texts that all read: numbers at borders, also in eight digits; one digit at each place."""
    short = [update_text(n, SHORT_DIGITS) for n in BORDERS if n < 2**32]
    each = [max(k, 1) << 4 * k for k in range(UPDATE_DIGITS)]
    others = [0x0123456789ABCDEF, 0xFEDCBA9876543210, 2**31, 2**32 + 1, 2**63 - 1]
    return short + [update_text(n) for n in BORDERS + others + each]
