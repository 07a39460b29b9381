"""Makes tables of typical messages for the writer: every code of the base protocol, and of credit-control, with values of its kind, in both forms of
the AVP header.

A table comes with the header fields and the bytes that its places point into, as function 3 of a frame takes them (model.py). The kinds are those of the
RFC reading and of edition 8506, of which tshark doesn't know 659 to 669. Left out is what tshark doesn't take for Diameter: messages under 36 bytes,
reserved bits of the message flags, R together with E; what makes it stop: a Time of 1 to 3 bytes, an Address of 1 byte, groups that don't tile; and what it
doesn't show as it is: a longer Time, 258 and 259 with a wrong length, which it doesn't test in these two, and in text the characters that XML can't hold.
It shows Restriction-Filter-Rule (438) as text, so that is given text.
"""
from model import EDITIONS, KIND, kind_of, parented

UNTESTED, FILTER_RULE = (258, 259), 438
UNKNOWN = (0, 999, 77777, 16777216, 4294967295)
VENDORS = (0, 10415, 99999, 4294967295)
CREDIT_CONTROL, CREDIT_CONTROL_APPLICATION = 272, 4
COMMANDS = (257, 258, 271, 272, 274, 275, 280, 282, 316, 0, 8388607, 16777215)
APPLICATIONS = (0, 3, 4, 16777216, 16777238, 4294967295)
MESSAGE_FLAGS = (0x00, 0x10, 0x20, 0x30, 0x40, 0x50, 0x60, 0x70, 0x80, 0x90, 0xC0, 0xD0)
DEEPEST = 64

# RFC 8506, section 3: the AVPs of a Credit-Control-Request and an Answer after Session-Id; section 8: those of each group. Without what tshark doesn't know.
REQUEST = (264, 296, 283, 258, 461, 416, 415, 293, 1, 419, 50, 278, 55, 443, 443, 439, 295, 437, 436, 446, 455, 456, 456, 440, 411, 458, 653, 284, 282)
ANSWER = (268, 264, 296, 258, 416, 415, 1, 418, 419, 50, 278, 55, 431, 456, 456, 423, 430, 422, 427, 428, 448, 292, 261, 262, 284, 282, 279)
UNITS = (420, 413, 421, 412, 414, 417)
MEMBERS = {
    413: (445, 425),
    423: (445, 425, 424),
    430: (449, 438, 438, 11, 434),
    431: (451, *UNITS),
    434: (433, 435),
    437: UNITS,
    440: (441, 442),
    443: (450, 444),
    445: (447, 429),
    446: (452, *UNITS),
    456: (431, 437, 446, 446, 452, 439, 439, 432, 457, 448, 268, 430),
    457: (453, 454, 445),
    458: (459, 460),
    653: (654, 655, 656, 657, 658),
    # RFC 6733, 6.7.2 and 7.5
    284: (280, 33),
    279: (263,),
}

WORDS = (0, 1, 2, 2001, 3600, 5012, 0x7FFFFFFF, 0x80000000, 0xFFFFFFFE, 0xFFFFFFFF)
LONG_WORDS = (*WORDS, 1 << 32, (1 << 63) - 1, 1 << 63, (1 << 64) - 1)
# the turn of 2036; the last of all, in 2104, and the first, in 1968; around 1970; in 2004 and 2026; the last before the turn
TIMES = (0, 0x7FFFFFFF, 0x80000000, 0x83AA7E7F, 0x83AA7E80, 0xC3A1E4B0, 0xED2F0A11, 0xFFFFFFFF)
TEXTS = (
    "", "a", "ab", "abc", "host.example.net;1876543210;523;mobile@200.1.1.88", 'He said "no" & <left>', "Grüße", "Ελλάδα", "日本語", "\U0001F600",
    "é", "\u0080x", "\u07ff", "\u0800", "\ud7ff", "\ue000", "\ufffd", "\U00010000", "\U0010ffff", "x" * 301,
)
# RFC 3629's ranges, just left, behind characters of each size
FRONTS = ("ab", "", "é", "日本", "x\U0001F600")
ILL_FORMED = [
    FRONTS[at % len(FRONTS)].encode() + bytes.fromhex(text)
    for at, text in enumerate("80 bf c0af c1bf c2 c241 e09fbf e0a0 e28228 eda080 edbfbf f08fbfbf f09080 f4908080 f5808080 fe ff".split())
]
IDENTITIES = ("", "a", "h.example", "peer.example.com", "realm.example.org", "xn--bcher-kva.example")
FILTER_RULES = (
    "permit in ip from any to any", "deny out tcp from 10.0.0.0/8 to ! 192.0.2.1 80,443 established", "permit out 17 from 2001:db8::1 to assigned", "x", "",
)
URIS = ("aaa://host.example.com", "aaa://host.example.com:6666;transport=tcp", "aaas://h.example:5658;protocol=diameter", "")
ADDRESSES = (
    "0001c0000201", "00010a000001", "0001ffffffff", "000100000000", "000220010db8000000000000000000000001", "0002" + "00" * 15 + "01",
    "0002fe80000000000000021122fffe334455", "000831323334353637", "0003616263", "0001c00002", "0001c000020101", "0002" + "ab" * 15, "0002" + "ab" * 17, "",
)


def wide(numbers, size, *unfit):
    return [number.to_bytes(size, "big") for number in numbers] + [bytes(range(1, 1 + length)) for length in unfit]


OCTETS = [bytes(range(250, 250 + n)) if n < 6 else bytes(range(n)) for n in (0, 1, 2, 3, 4, 5, 8, 13, 22, 256)]
VALUES = {
    0: OCTETS,
    1: OCTETS,
    2: wide(WORDS, 4, 0, 3, 5, 6),
    3: wide(LONG_WORDS, 8, 0, 4, 7, 9),
    4: wide(WORDS, 4, 0, 3, 5, 6),
    5: wide(LONG_WORDS, 8, 0, 4, 7, 9),
    9: wide(WORDS, 4, 0, 2, 7),
    10: [text.encode() for text in TEXTS] + ILL_FORMED,
    11: [text.encode() for text in IDENTITIES] + ILL_FORMED,
    12: [text.encode() for text in URIS] + ILL_FORMED,
    13: [bytes.fromhex(text) for text in ADDRESSES],
    14: wide(TIMES, 4, 0),
}


class Book:
    """A reading or an edition, its codes that tshark knows too, those of them that are groups, and what its messages have in their header."""

    def __init__(self, reading, codes, commands, applications):
        self.reading, self.codes, self.commands, self.applications = reading, codes, commands, applications
        self.groups = [code for code in codes if self.kind(code) == 8]
        self.leaves = [code for code in codes if code not in self.groups]

    def kind(self, code, vendor=None):
        return kind_of(self.reading, code, vendor or 0)

    def values(self, code, vendor=None):
        kind = self.kind(code, vendor)
        if kind and code == FILTER_RULE:
            return [text.encode() for text in FILTER_RULES]
        return wide(WORDS, 4) if kind and code in UNTESTED else VALUES[kind]


BASE = Book("rfc", sorted({*KIND, 283} - {235}), COMMANDS, APPLICATIONS)
CREDIT_CODES = [code for code in sorted(EDITIONS[8506]) if code < 659]
CREDIT = Book(8506, [*BASE.codes, *CREDIT_CODES], (CREDIT_CONTROL,), (CREDIT_CONTROL_APPLICATION,))


class Table:
    """Rows without their parents, and the bytes that they point into with some between that nothing points at."""

    def __init__(self, r, book):
        self.r, self.book, self.rows, self.pool = r, book, [], b""

    def row(self, depth, code, kind, flags, vendor, data):
        pads = self.r.choice((b"\0\0\0", b"\0\0\0", b"\0\0\0", b"\0\0\0", b"\x01\x80\xff"))[: -len(data) % 4]
        size = len(data) + (8 if vendor is None else 12)
        self.pool += self.r.randbytes(self.r.randrange(4))
        self.rows.append(
            code.to_bytes(4, "big") + bytes([flags | (0 if vendor is None else 0x80)]) + size.to_bytes(3, "big")
            + (vendor or 0).to_bytes(4, "big") + len(self.pool).to_bytes(4, "big") + bytes([depth, kind, 0, len(pads)]) + pads.ljust(12, b"\0")
        )
        self.pool += data

    def leaf(self, depth, code, data, flags=0x40, vendor=None):
        self.row(depth, code, self.book.kind(code, vendor), flags, vendor, data)

    def group(self, depth, code, flags=0x40, vendor=None):
        self.row(depth, code, 8, flags, vendor, b"")

    def written(self):
        """The header fields and the table as the writer takes them, and the bytes."""
        r = self.r
        ids = r.choice(self.book.applications).to_bytes(4, "big") + r.randbytes(8)
        return bytes([r.choice(MESSAGE_FLAGS)]) + r.choice(self.book.commands).to_bytes(4, "big") + ids, b"".join(parented(self.rows)), self.pool


def started(r, book):
    table = Table(r, book)
    table.leaf(1, 263, b"host.example.net;1876543210;%d" % r.randrange(1000))
    return table


def every_value(r, book, code):
    """One code with all values of its kind, with and without a vendor."""
    table = started(r, book)
    for data in book.values(code):
        for vendor in (None, 0):
            table.leaf(1, code, data, r.choice((0x00, 0x20, 0x40, 0x60)), vendor)
    for data in OCTETS[:6]:
        table.leaf(1, code, data, 0x40, 99999)
    return table


def every_flag(r, book, code, vendor):
    table = started(r, book)
    for flags in range(128):
        table.leaf(1, code, r.choice(book.values(code, vendor)[:6]), flags, vendor)
    return table


def nest(r, book, depth, empty):
    """Groups in groups, and an empty group or a text in the deepest."""
    table = started(r, book)
    for level in range(1, depth):
        table.group(level, r.choice(book.groups), r.choice((0x00, 0x40)), r.choice((None, None, 0)))
    if empty:
        table.group(depth, 279)
    else:
        table.leaf(depth, 264, b"deep.example")
    return table


def members(r, table, depth):
    book = table.book
    for _ in range(r.randrange(1, 12) if depth == 1 else r.randrange(5)):
        vendor = r.choice((None, None, None, None, 0, 99999))
        if depth < 7 and r.random() < 0.25:
            table.group(depth, r.choice(book.groups), r.choice((0x00, 0x20, 0x40)), None if vendor else vendor)
            members(r, table, depth + 1)
            continue
        code = r.choice(book.leaves) if r.random() < 0.9 else r.choice(UNKNOWN)
        data = r.choice(book.values(code, vendor)) if r.random() < 0.7 else likely(r, book, code, vendor)
        table.leaf(depth, code, data, r.choice((0x00, 0x20, 0x40, 0x40, 0x40, 0x60, 0x41, 0x1F)), vendor)


def likely(r, book, code, vendor=None):
    """Data of a kind at random."""
    kind = book.kind(code, vendor)
    if kind and code == FILTER_RULE:
        return f"permit in ip from any to 10.0.0.{r.randrange(256)}".encode()
    if kind in (10, 11, 12):
        return "".join(r.choices("abcxyz019.-;:@éπ日\U0001F600", k=r.randrange(1, 40))).encode()
    if kind == 13:
        return r.choice((b"\0\1" + r.randbytes(4), b"\0\2" + r.randbytes(16)))
    return r.randbytes({2: 4, 4: 4, 9: 4, 14: 4, 3: 8, 5: 8}.get(kind) or r.randrange(40))


def tree(r, book):
    table = started(r, book)
    members(r, table, 1)
    return table


def by_grammar(r, table, depth, codes):
    """Most of what a grammar names, in its order; and what the groups among it hold."""
    for code in codes:
        if r.random() < 0.3:
            continue
        if code in MEMBERS:
            table.group(depth, code)
            by_grammar(r, table, depth + 1, MEMBERS[code])
        else:
            table.leaf(depth, code, likely(r, table.book, code))


def exchange(r, codes):
    """A request or an answer of credit-control."""
    table = started(r, CREDIT)
    by_grammar(r, table, 1, codes)
    return table


def tables(r):
    """Header fields, table and bytes of each message of the base protocol."""
    made = [every_value(r, BASE, code) for code in (*BASE.leaves, *UNKNOWN)]
    made += [every_flag(r, BASE, code, vendor) for code, vendor in ((264, None), (25, None), (264, 0), (77777, None), *((77777, v) for v in VENDORS))]
    made += [nest(r, BASE, depth, empty) for depth in (1, 2, 3, 5, 10, 31, 63, DEEPEST) for empty in (True, False)]
    made += [tree(r, BASE) for _ in range(400)]
    return [table.written() for table in made]


def credit_tables(r):
    """The same of credit-control."""
    made = [every_value(r, CREDIT, code) for code in CREDIT.leaves if code in CREDIT_CODES]
    made += [every_flag(r, CREDIT, code, vendor) for code in (429, 447, FILTER_RULE) for vendor in (None, 0, 99999)]
    made += [nest(r, CREDIT, depth, empty) for depth in (1, 2, 3, 5, 10, 31, 63, DEEPEST) for empty in (True, False)]
    made += [tree(r, CREDIT) for _ in range(300)]
    made += [exchange(r, codes) for codes in (REQUEST, ANSWER) for _ in range(100)]
    return [table.written() for table in made]
