"""Makes cases from a seed, a line each as in cases.txt: python3 oracle/made.py SEED COUNT, of the RFC reading, or, with a word behind it, others: `search` for
searches and steps, which know no reading, `edition` for messages and AVPs by an edition, `compare` for comparisons, `table` for tables to be written, `radius`
for packets of RADIUS, read and to be written, `moved` for tables to be moved, `joined` for two messages to be joined, each pair followed by the message that
has the AVPs of both.

Messages are laid out as RFC 6733 sections 3 and 4 say, with the codes of docs/FORMAT.md and a few others, text at the edges of RFC 3629's ranges, and
Address data of several families. Some are then damaged: a length, a byte, the end. Packets are laid out as RFC 2865 sections 3 and 5 say, and damaged too;
a table of a packet to be written is what the model reads of one. Other tables have rows at any depths that may stand one after the other. Some are then
altered: a parent, a byte of a record, the end of the table or that of the bytes. A table to be moved is read of a message or made of any bytes, and often moved
just as far as its largest place or parent can be.
"""
import random
import sys

from model import EDITIONS, KIND, LAST, RADIUS, RECORD, SPARE, TOP_LEVEL, Refused, bytes_of, packet, parent, parented, rows_of, together
from model import message as decoded

# types of RADIUS, those of text more often, and some that neither RFC has
TYPES = [*sorted(RADIUS), *(11, 18, 22, 44) * 4, 0, 17, 21, 52, 59, 64, 128, 255]
# kinds of rows that are no groups
LEAVES = (0, 1, 4, 7, 10, 14)
DEEPEST = 64
# bytes of AVPs that stand many times in a message
MANY = 8000
# of Value-Digits, 64 bits with a sign
LARGEST = 2**63 - 1


class Codes:
    """Kinds by code, all codes that an AVP is given, and those of groups."""

    def __init__(self, kinds, *others):
        self.kinds = kinds
        self.all = [*sorted(kinds), *others]
        self.groups = [code for code in kinds if kinds[code] == 8]


BASE = Codes(KIND, 283, 2, 511, 512, 70000)
# Both editions get the codes of the larger one, those beside its blocks, and more often those whose kind no other code has.
CREDIT = Codes({**KIND, **EDITIONS[8506]}, 283, 2, 11, 410, 462, 509, 511, 512, 652, 670, 70000, *(429, 447, 666, 451) * 8)
TEXTS = [
    bytes.fromhex(text)
    for text in (
        "41 7f c280 c1bf dfbf e0a080 e09fbf ed9fbf eda080 ee8080 efbfbf f0908080 f08fbfbf f3bfbfbf f48fbfbf f4908080 80 bf c2 e0a0 f09080 ff"
    ).split()
]


def data(r, codes, code):
    kind = codes.kinds.get(code, 0)
    if code == 283 or kind in (10, 11, 12):
        return b"".join(r.choices(TEXTS, k=r.randrange(4)))
    if kind == 13:
        family = r.choice(("", "00", "0001", "0001", "0002", "0002", "0003", "0008"))
        return bytes.fromhex(family) + r.randbytes(r.choice((0, 3, 4, 5, 15, 16, 17)))
    return r.randbytes(r.choice((0, 3, 4, 4, 4, 5, 7, 8, 9)))


def avp(r, codes, depth):
    group = depth < 7 and r.random() < 0.25
    code = r.choice(codes.groups if group else codes.all)
    flags = r.choice((0, 0x40, 0x80, 0xC0, 0x20, r.randrange(256)))
    body = run(r, codes, depth + 1) if group else data(r, codes, code)
    vendor = r.choice((0, 1, 10415)).to_bytes(4, "big") if flags & 0x80 else b""
    length = 8 + len(vendor) + len(body)
    padding = r.choice((bytes(3), bytes(3), r.randbytes(3)))[: -length % 4]
    if r.random() < 0.03:
        length = max(0, length + r.choice((-9, -1, 1, 4)))
    return code.to_bytes(4, "big") + bytes([flags]) + length.to_bytes(3, "big") + vendor + body + padding


def run(r, codes, depth):
    return b"".join(avp(r, codes, depth) for _ in range(r.randrange(4)))


def message(r, codes):
    avps = run(r, codes, 1)
    length = 20 + len(avps) + (r.choice((-4, 1, 4)) if r.random() < 0.05 else 0)
    flags = r.choice((0, 0x80, 0xC0, r.randrange(256)))
    return bytes([1]) + length.to_bytes(3, "big") + bytes([flags]) + r.randbytes(15) + avps


def damaged(r, wire):
    if wire and r.random() < 0.1:
        at = r.randrange(len(wire))
        return wire[:at] + (r.randbytes(1) + wire[at + 1 :] if r.random() < 0.5 else b"")
    return wire + (b"\x01" if r.random() < 0.05 else b"")


def wire(r, codes):
    """Is it a message or one AVP, its bytes, a limit and the room."""
    whole = r.choice((True, True, True, False))
    case = damaged(r, message(r, codes) if whole else avp(r, codes, 1))
    limit = r.choice((64, 64, 64, 7, 3, 2, 1, 0, 65))
    return whole, case.hex() or "-", limit, r.randrange(13)


def read(r):
    """A message or one AVP to be decoded."""
    whole, case, limit, room = wire(r, BASE)
    return "message" if whole else "avp", "rfc", limit, room, case


def read_by(r):
    """The same by an edition, now and then by one that there is not."""
    whole, case, limit, room = wire(r, CREDIT)
    edition = r.choice((4006, 8506)) if r.random() < 0.95 else r.choice((0, 1, 4005, 4007, 8505, 8507, 69542, 74042, 2**32 - 1))
    return "message-by" if whole else "avp-by", edition, limit, room, case


def search(r):
    """A code, most often one that stands somewhere in the message, and the message; or steps over it."""
    case = damaged(r, message(r, BASE))
    if r.random() < 0.3:
        return "steps", "sawp", 0, 0, case.hex() or "-"
    words = [case[at : at + 4] for at in range(20, len(case) - 3, 4)]
    codes = [word for word in words if word[:2] == b"\0\0"] if r.random() < 0.9 else []
    code = r.choice(codes or [r.choice(BASE.all).to_bytes(4, "big")])
    return "find", "sawp", 0, 0, (code + case).hex()


def digits(r, most):
    """A number of any size up to one, either sign."""
    return r.choice((-1, 1)) * r.randint(0, min(most, 10 ** r.randint(0, 19)))


def apart(r):
    """Two Unit-Values that may have their digits in common, their first digits, or nothing; the exponents near each other, or anywhere."""
    one, zeros = digits(r, LARGEST), r.choice((0, 0, 1, 2, r.randint(0, 18)))
    other = r.choice((one, -one, -LARGEST - 1, LARGEST, one // 10**zeros, digits(r, LARGEST)))
    exponent = r.randint(-19, 19)
    return one, exponent, other, r.choice((exponent + zeros, exponent - zeros, exponent + r.randint(-2, 2), r.randint(-19, 19)))


def moved(r):
    """The same number twice, zeros moved from its digits into its exponent, and one of the two perhaps off by one."""
    zeros = r.randint(0, 18)
    few, exponent = digits(r, LARGEST // 10**zeros), r.randint(-18, 18 - zeros)
    many = few * 10**zeros + r.choice((0, 0, -1, 1))
    return few + r.choice((0, 0, 0, 0, -1, 1)), exponent + zeros, many, exponent


def fitting(number):
    return max(-LARGEST - 1, min(LARGEST, number))


def comparison(r):
    one, exponent, other, other_exponent = r.choice((apart, moved))(r)
    pairs = [(fitting(one), exponent), (fitting(other), other_exponent)]
    r.shuffle(pairs)
    return "compare", *pairs[0], *pairs[1]


def attribute(r):
    code = r.choice(TYPES)
    if RADIUS.get(code) == 10:
        body = b"".join(r.choices(TEXTS, k=r.randrange(4)))
    else:
        body = r.randbytes(r.choice((0, 1, 3, 4, 4, 4, 4, 5, 6, 16, r.randrange(254))))
    length = 2 + len(body)
    if r.random() < 0.02:
        length = r.choice((0, 1, length - 1, min(length + 1, 255), 255))
    return bytes([code, length]) + body


def radius_packet(r):
    body = b"".join(attribute(r) for _ in range(r.randrange(8)))
    length = 20 + len(body) + (r.choice((-20, -2, -1, 1, 2)) if r.random() < 0.05 else 0)
    if r.random() < 0.03:
        length = r.choice((0, 19, 20, 4096, 4097, 65535))
    return r.randbytes(2) + length.to_bytes(2, "big") + r.randbytes(16) + body


def mistaken(r, depths, at):
    """What might be taken for a record's parent: a neighbour, another record one depth less, its number within its group, a place in bytes."""
    right = parent(depths, at)
    above = [i for i, depth in enumerate(depths) if depth == depths[at] - 1]
    near = (at - 1, at, at + 1, right - 1, right + 1, at - right)
    taken = r.choice((*near, *near, *above, *above, 0, 0, TOP_LEVEL, TOP_LEVEL, len(depths), right * RECORD, right << 8, r.randrange(2**32)))
    return (taken % 2**32).to_bytes(4, "big")


def reparented(r, table):
    """One parent replaced, now and then by itself."""
    at = r.randrange(len(table) // RECORD)
    end = RECORD * (at + 1)
    return table[: end - 4] + mistaken(r, table[16::RECORD], at) + table[end:]


def altered(r, table, pool):
    """One byte of a record, or the end of the table or of the bytes."""
    at = r.randrange(len(table) + 4)
    if at < len(table):
        return table[:at] + bytes([r.choice((0, 1, 2, 255, r.randrange(256)))]) + table[at + 1 :], pool
    if at % 2:
        return r.choice((table + r.randbytes(r.randrange(1, RECORD)), table[: -r.randrange(1, RECORD)])), pool
    return table, pool[: r.randrange(len(pool) + 1)]


def shape(r):
    """Depths and kinds of rows that may stand one after the other, some of them as deep as can be."""
    steep, allowed = r.choice((0.5, 0.5, 0.98)), 1
    for _ in range(r.choice((1, 2, 3, 5, 8, 13)) if steep < 0.9 else 80):
        depth = min(DEEPEST, allowed) if r.random() < steep else r.randint(1, min(DEEPEST, allowed))
        kind = 8 if r.random() < steep else r.choice(LEAVES)
        allowed = depth + (kind == 8)
        yield depth, kind


def row(r, depth, kind, pool):
    """A row that keeps the rules, without its parent."""
    flags = r.choice((0, 0x40, 0x80, 0xC0, r.randrange(256)))
    place = r.randrange(len(pool) + 1)
    size = r.choice((0, 1, 3, 4, 4, 8)) if kind == 8 else min(r.choice((0, 1, 3, 4, 4, 8)), len(pool) - place)
    padding = 0 if kind == 8 else -size % 4
    pads = r.choice((bytes(3), r.randbytes(3)))[:padding].ljust(3, b"\0")
    head = r.choice(BASE.all).to_bytes(4, "big") + bytes([flags]) + ((12 if flags & 0x80 else 8) + size).to_bytes(3, "big")
    vendor = r.choice((0, 1, 10415)) if flags & 0x80 else 0
    return head + vendor.to_bytes(4, "big") + place.to_bytes(4, "big") + bytes([depth, kind, r.randrange(16), padding]) + pads + r.randbytes(9)


def writing(r):
    """A table to be written, some of them with one parent replaced, something else altered, or both."""
    pool = r.randbytes(r.randrange(40))
    rows = b"".join(parented([row(r, depth, kind, pool) for depth, kind in shape(r)]))
    if r.random() < 0.5:
        rows = reparented(r, rows)
    if r.random() < 0.3:
        rows, pool = altered(r, rows, pool)
    fields = r.randbytes(1) + r.choice((*(272,) * 20, 0xFFFFFF, 0x1000000)).to_bytes(4, "big") + r.randbytes(12)
    return "table", "sawp", 0, r.choice((0, 2, 8, 60)), (fields + len(rows).to_bytes(4, "big") + rows + pool).hex()


def radius(r):
    """A packet to be read, or what was read of one to be written again."""
    wire = radius_packet(r)
    try:
        _, records, need, length = packet(len(wire), wire)
    except Refused:
        return "packet", 8, wire.hex()
    if r.random() < 0.5:
        return "packet", max(0, need + r.choice((-1, 0, 0, 1))), damaged(r, wire).hex() or "-"
    table, pool = b"".join(records), wire
    if table and r.random() < 0.2:
        table = reparented(r, table)
    if r.random() < 0.5:
        table, pool = altered(r, table, pool)
    room = (length - SPARE + RECORD - 1) // RECORD - (r.random() < 0.1)
    return "packet-table", room, (wire[:2] + wire[4:20] + len(table).to_bytes(4, "big") + table + pool).hex()


def records_of(reading, wire):
    """The records of a message, none where it is refused."""
    try:
        return decoded(reading, DEEPEST, len(wire), wire)[1]
    except Refused:
        return []


def part(r, flags):
    """A message with these flags in its header: with few AVPs, with more, or with the same ones many times, and some of them damaged."""
    wire = message(r, BASE)
    if r.random() < 0.6:
        avps = b"".join(run(r, BASE, 1) for _ in range(r.randrange(5)))
        avps *= r.randint(1, 1 + MANY // (1 + len(avps))) if r.random() < 0.1 else 1
        wire = wire[:1] + (20 + len(avps)).to_bytes(3, "big") + wire[4:20] + avps
    wire = damaged(r, wire) if r.random() < 0.5 else wire
    return wire[:4] + flags + wire[5:] if len(wire) > 4 else wire


def odd(r, row):
    """A record with one field replaced: its place, its depth, byte 23 or its parent."""
    number = r.choice((0, 1, 2**31, LAST - 1, LAST, r.randrange(2**32))).to_bytes(4, "big")
    depth, free = bytes([r.choice((0, 1, 2, 65, 255))]), r.randbytes(1)
    return r.choice((row[:12] + number + row[16:], row[:16] + depth + row[17:], row[:23] + free + row[24:], row[:32] + number))


def rows(r):
    """Those of a message or any bytes, some of them odd."""
    read = records_of(r.choice(("sawp", "rfc")), part(r, b"\0")) if r.random() < 0.7 else []
    if not read:
        read = [r.randbytes(16) + bytes([r.choice((0, 1, 1, 2, 3, 255))]) + r.randbytes(19) for _ in range(r.choice((0, 1, 2, 5)))]
    return [odd(r, row) if r.random() < 0.2 else row for row in read]


def far(r, numbers):
    """How far numbers are moved: a little, as far as the largest can be or one beside that, or farther than any."""
    edge = LAST - max(numbers, default=0) + r.choice((0, 0, -1, 1))
    farther = r.choice((2**31, LAST, 2**63, 2**64 - 1, 2**64 - r.randrange(2**32)))
    return r.choice((0, r.randrange(1, 9), r.randrange(2**16), edge, edge, edge, 2**32, farther)) % 2**64


def moving(r):
    """A table to be moved, in a store that it fills or in a larger one, now and then with bytes left over."""
    table = b"".join(rows(r))
    known = rows_of(table)
    places, parents = [row["place"] for row in known], [row["parent"] for row in known if row["depth"] != 1]
    if r.random() < 0.1:
        table = r.choice((table + r.randbytes(r.randrange(1, RECORD)), table[: -r.randrange(1, RECORD)]))
    room = max(0, len(table) - SPARE + RECORD - 1) // RECORD
    return "moved", far(r, places), far(r, parents), room + r.choice((0, 0, 1)), table.hex() or "-"


def joining(r):
    """Two messages with the same flags in their headers, and room for the records of both, for one less or more, for the first one's or for any number."""
    flags, reading = bytes([r.choice((0, 0x80, r.randrange(256)))]), r.choice(("sawp", "rfc"))
    first, second = part(r, flags), part(r, flags)
    need = len(records_of(reading, first))
    both = need + len(records_of(reading, second))
    room = r.choice((both, both, both, both + 1, max(0, both - 1), need, r.randrange(13)))
    return "joined", reading, r.choice((*(64,) * 12, 7, 3, 3, 2, 2, 1, 0, 65)), room, first.hex() or "-", second.hex() or "-"


def beside(case):
    """Of two messages, the one that has the AVPs of both, if the headers of the two are accepted."""
    if case[0] == "joined":
        try:
            yield "message", *case[1:4], together(*map(bytes_of, case[4:])).hex()
        except Refused:
            return


def sizes():
    """Each type of RADIUS with data of each size, in a packet of its own: letters, and letters with a last byte that is no text."""
    for code in range(256):
        for size in range(254):
            for body in (b"a" * size, b"a" * (size - 1) + b"\xff"[:size]):
                wire = b"\x04\x00" + (22 + size).to_bytes(2, "big") + bytes(16) + bytes([code, 2 + size]) + body
                yield "packet", 1, wire.hex()


MAKERS = {
    "read": read, "search": search, "edition": read_by, "compare": comparison, "table": writing, "radius": radius, "moved": moving, "joined": joining,
}


def made(sort, seed, count):
    """So many cases of a sort, and what stands beside them."""
    r = random.Random(seed)
    for _ in range(count):
        case = MAKERS[sort](r)
        yield case
        yield from beside(case)


def main():
    seed, count, sort = (*sys.argv[1:], "read")[:3]
    for case in made(sort, int(seed), int(count)):
        print(*case)


if __name__ == "__main__":
    main()
