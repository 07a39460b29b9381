"""A model of the format (docs/FORMAT.md), written from its text and from RFC 6733, RFC 3629, RFC 4006, RFC 8506, RFC 2865 and RFC 2866. It shares no code with ours.

It answers a case as docs/FORMAT.md says: message, header alone or one AVP alone, in either reading, message or one AVP alone by an edition, a table to be
written, a search, a comparison, a RADIUS packet, read or to be written, a table to be moved, or two messages to be joined. It is slow and plain on purpose:
a search decodes the whole message and looks for the record, a parent is found by walking back over the depths, a comparison works with fractions, and two
messages are joined before they are decoded. `oracle/run replay` makes with it frames that crates/replay reads and answers that it must write:

    python3 oracle/model.py frames < oracle/cases.txt
    python3 oracle/model.py answers < oracle/cases.txt

A frame: function (0 message, 1 header alone, 2 one AVP, 3 a table to be written, 4 a search, 5 steps, 6 a message by an edition, 7 one AVP by an edition,
8 a comparison, 9 a packet, 10 a packet to be written, 11 a table to be moved, 12 two messages to be joined), reading (0 sawp, 1 RFC) and depth limit in a
byte each, room in records in 2 bytes, length in 4, and the bytes. An answer: the number in a byte and the amount in 4; where the number is 0, the header's
20 bytes (not for one AVP), the flags in a byte, the number of records in 2, headers tried in 4, the length in 4; and always the whole store afterwards,
which has 5 bytes more than its records take and was lent full of the byte A5.

For a table the bytes are flags in 1, command code, application, hop-by-hop, end-to-end and the table's length in 4 each, the table and the bytes that its
places point into; the store is the output, and an acceptance answers the total in 4 bytes. For a search the bytes are a code in 4 and a message; an
acceptance answers 1 in a byte and bytes 0..15 and 19..22 of the record, or 0. For steps they are a message's own; the answer is, for each AVP of the top
level, 1 in a byte, those 20 bytes and the place past it in 4, and then 0, or 2 at the failing place, and that place in 4. Neither changes the store.

By an edition the bytes are the edition in 4 and the message or AVP, from whose first byte places count; the answer has the form of functions 0 and 2, and
the reading means nothing. For a comparison they are two Unit-Values, each its Value-Digits in 8 and its Exponent in 4, signed; an acceptance answers 0
less, 1 equal or 2 greater in a byte, and the store stays as it was lent.

Of a packet of RADIUS an acceptance answers code and identifier in a byte each in place of the header; its authenticator, 16 bytes that are 0 in a refusal,
stands before the store in any case. For a packet to be written the bytes are code, identifier, authenticator, the table's length in 4, the table and the
bytes that its places point into; the answer is that for a table. The reading and the depth limit mean nothing for both.

For a table to be moved the bytes are how many bytes and how many records it is moved by, in 8 each, and the table, for which the store has room. The store
holds the table at its front, moved or, refused, as it was, and behind it what was lent. An acceptance answers the number of records in 4.

For two messages the bytes are the first one's size in 4, the first and the second. Each may be refused by itself, the first one first. The second has the room
that the first one's records leave, so the amount of its NoRecords is its own number of records. Accepted, the answer is that for a message which has the
first one's header and the AVPs of both, without the header. The two have the same flags in their headers, which so are the joined ones. Where the second is
refused, the store holds the first one's records and zeros.
"""
import re
import sys
from fractions import Fraction

INCOMPLETE, NOT_VERSION, BAD_LENGTH, NOT_TILED, TOO_DEEP, NO_RECORDS, BAD_DEPTH = 1, 2, 3, 4, 5, 6, 7
BAD_HEADER, BAD_TABLE, TOO_LONG, NO_ROOM, BAD_EDITION, BAD_EXPONENT = 8, 9, 10, 11, 12, 13
DATA_VALUE, DATA_LENGTH, RESERVED, PADDING = 1, 2, 4, 8

SAWP_KINDS = {
    1: [44, 33],
    4: [85, 485, 259, 258, 291, 276, 298, 267, 299, 272, 278, 262, 268, 27, 270, 265, 266],
    5: [287],
    8: [297, 279, 284, 260],
    9: [483, 480, 274, 277, 285, 273, 261, 271, 295],
    10: [50, 25, 281, 269, 263, 1],
    11: [293, 235, 294, 264, 296, 280, 282],
    12: [292],
    13: [257],
    14: [55],
}
# RFC 4006, section 8. Restriction-Filter-Rule (438) is an IPFilterRule, which has no kind here.
KINDS_4006 = {
    1: [411, 438, 442, 460],
    2: [429],
    3: [447],
    4: [415, 420, 425, 432, 439, 441, 448, 453],
    5: [412, 414, 417, 419, 421],
    8: [413, 423, 430, 431, 434, 437, 440, 443, 445, 446, 456, 457, 458],
    9: [416, 418, 422, 426, 427, 428, 433, 436, 449, 450, 452, 454, 455, 459],
    10: [424, 435, 444, 461],
    14: [451],
}
# RFC 8506, section 8, which has the rows of RFC 4006 and these.
KINDS_8506 = {
    1: [654, 655, 656, 657, 658],
    8: [653, 659, 665, 669],
    10: [660, 661, 662, 663, 664, 667, 668],
    13: [666],
}
# RFC 2865, sections 5.1 to 5.43, and RFC 2866, sections 5.1 to 5.12. CHAP-Password (3) and Vendor-Specific (26) have formats of their own.
KINDS_RADIUS = {
    1: [1, 2, 3, 19, 20, 24, 25, 26, 30, 31, 32, 33, 34, 35, 36, 39, 50, 60, 63],
    4: [5, 6, 7, 10, 12, 13, 15, 16, 23, 27, 28, 29, 37, 38, 40, 41, 42, 43, 45, 46, 47, 48, 49, 51, 61, 62],
    10: [11, 18, 22, 44],
    13: [4, 8, 9, 14],
}
SMALLEST_PACKET, LARGEST_PACKET = 20, 4096
# the bytes of a record, the parent of one at depth 1, and the largest place and parent
RECORD, TOP_LEVEL, LAST = 36, 0xFFFFFFFF, 2**32 - 1


def by_code(kinds):
    return {code: kind for kind, codes in kinds.items() for code in codes}


KIND = by_code(SAWP_KINDS)
EDITIONS = {4006: by_code(KINDS_4006), 8506: {**by_code(KINDS_4006), **by_code(KINDS_8506)}}
RADIUS = by_code(KINDS_RADIUS)


class Refused(Exception):
    def __init__(self, number, amount=0):
        super().__init__(number, amount)
        self.number, self.amount = number, amount


def be(data):
    return int.from_bytes(data, "big")


def kind_of(reading, code, vendor):
    """The kind in a reading, "sawp" or "rfc", or by an edition, whose codes come before those of the RFC reading."""
    if reading == "sawp":
        return KIND.get(code, 0)
    if vendor != 0:
        return 0
    if code in EDITIONS.get(reading, ()):
        return EDITIONS[reading][code]
    return {25: 1, 235: 0, 283: 11}.get(code, KIND.get(code, 0))


def text(kind, data):
    try:
        data.decode("utf-8", "strict")
        return kind, 0, 0
    except UnicodeDecodeError as broken:
        return 0, DATA_VALUE, broken.start


def value(reading, kind, data):
    """Kind, error flags and value field of data that are no group."""
    if kind in (2, 4, 9, 14, 3, 5):
        width = 8 if kind in (3, 5) else 4
        if len(data) < width:
            return 0, DATA_LENGTH, 0
        return kind, DATA_LENGTH if len(data) > width else 0, be(data[:width])
    if kind in (10, 11, 12):
        return text(kind, data)
    if kind == 13 and reading == "sawp":
        if len(data) == 4:
            return 13, 0, be(data)
        return (13, 0, 0) if len(data) == 16 else (0, DATA_LENGTH, 0)
    if kind == 13:
        if len(data) < 2:
            return 0, DATA_LENGTH, 0
        family = be(data[:2])
        if family == 1:
            return (13, 0, be(data[2:])) if len(data) == 6 else (0, DATA_LENGTH, 0)
        if family == 2:
            return (13, 0, 0) if len(data) == 18 else (0, DATA_LENGTH, 0)
        return 0, 0, 0
    return kind, 0, 0


def avp_front(data):
    """The AVP at the front: (code, flags, length, vendor, header size, padded size), or the refusal."""
    n = len(data)
    if n < 4:
        raise Refused(INCOMPLETE, 4 - n)
    if n == 4:
        raise Refused(INCOMPLETE, 1)
    if n < 8:
        raise Refused(INCOMPLETE, 8 - n)
    code, flags, length = be(data[:4]), data[4], be(data[5:8])
    if length < 8:
        raise Refused(BAD_LENGTH)
    if length > n:
        raise Refused(INCOMPLETE, length - n)
    head = 12 if flags & 0x80 else 8
    if length < head:
        raise Refused(BAD_LENGTH)
    size = length + (4 - (length - head) % 4) % 4
    if size > n:
        raise Refused(INCOMPLETE, size - n)
    vendor = be(data[8:12]) if flags & 0x80 else 0
    return code, flags, length, vendor, head, size


def run(reading, data, place, depth):
    """Of a run: does it tile, its records without their parents, its flags, headers tried, the deepest level."""
    at, records, flags, tried, deepest = 0, [], 0, 0, 0
    while at < len(data):
        tried, deepest = tried + 1, max(deepest, depth)
        try:
            code, bits, length, vendor, head, size = avp_front(data[at:])
        except Refused:
            return False, records, flags, tried, deepest
        payload = data[at + head : at + length]
        pads = data[at + length : at + size]
        kind = kind_of(reading, code, vendor)
        members = []
        if kind == 8:
            tiles, members, errors, more, deep = run(reading, payload, place + at + head, depth + 1)
            tried, deepest, number = tried + more, max(deepest, deep), 0
            if not tiles:
                kind, errors, members = 0, DATA_VALUE, []
        else:
            kind, errors, number = value(reading, kind, payload)
        errors |= (RESERVED if bits & 0x1F else 0) | (PADDING if any(pads) else 0)
        own = (
            code.to_bytes(4, "big") + bytes([bits]) + length.to_bytes(3, "big") + vendor.to_bytes(4, "big")
            + (place + at + head).to_bytes(4, "big") + bytes([depth, kind, errors, len(pads)])
            + pads.ljust(3, b"\0") + b"\0" + number.to_bytes(8, "big")
        )
        records += [own] + members
        flags |= errors
        at += size
    return True, records, flags, tried, deepest


def parent(depths, index):
    """The last earlier record one depth less, by walking back."""
    if depths[index] == 1:
        return TOP_LEVEL
    return next(at for at in reversed(range(index)) if depths[at] == depths[index] - 1)


def parented(records):
    """The records of a whole table with their parents, which are told by the depths alone."""
    depths = [r[16] for r in records]
    return [r + parent(depths, index).to_bytes(4, "big") for index, r in enumerate(records)]


def header(data):
    if len(data) < 1:
        raise Refused(INCOMPLETE, 1)
    if data[0] != 1:
        raise Refused(NOT_VERSION)
    if len(data) < 4:
        raise Refused(INCOMPLETE, 4 - len(data))
    length = be(data[1:4])
    if length < 4:
        raise Refused(BAD_LENGTH)
    if length > len(data):
        raise Refused(INCOMPLETE, length - len(data))
    if length < 20:
        raise Refused(BAD_LENGTH)
    return length, RESERVED if data[4] & 0x0F else 0


def limits(limit):
    if not 1 <= limit <= 64:
        raise Refused(BAD_DEPTH)


def fits(limit, room, deepest, records):
    if deepest > limit:
        raise Refused(TOO_DEEP)
    if len(records) > room:
        raise Refused(NO_RECORDS, len(records))


def message(reading, limit, room, data):
    """Flags, records, tried, length."""
    limits(limit)
    length, own = header(data)
    tiles, records, flags, tried, deepest = run(reading, data[20:length], 20, 1)
    if not tiles:
        raise Refused(NOT_TILED)
    fits(limit, room, deepest, records)
    return own | flags, parented(records), tried, length


def header_alone(data):
    return header(data)[1], [], 0, 20


def avp_alone(reading, limit, room, data):
    limits(limit)
    size = avp_front(data)[5]
    _, records, flags, tried, deepest = run(reading, data[:size], 0, 1)
    fits(limit, room, deepest, records)
    return flags, parented(records), tried, size


def by_edition(ask, edition, limit, room, data):
    """A message or one AVP."""
    limits(limit)
    if edition not in EDITIONS:
        raise Refused(BAD_EDITION)
    return ask(edition, limit, room, data)


def unit_value(data):
    """Value-Digits and Exponent."""
    return int.from_bytes(data[:8], "big", signed=True), int.from_bytes(data[8:12], "big", signed=True)


def comparison(data):
    """0 less, 1 equal, 2 greater."""
    pairs = unit_value(data[:12]), unit_value(data[12:])
    if not all(-18 <= exponent <= 18 for _, exponent in pairs):
        raise Refused(BAD_EXPONENT)
    one, other = (digits * Fraction(10) ** exponent for digits, exponent in pairs)
    return 0 if one < other else 1 if one == other else 2


def top_level(reading, data):
    """The outline and the place past it of each AVP at the top level, from byte 20 on and up to the failing place; and whether there is none."""
    tiles, records, _, _, _ = run(reading, data[20:], 20, 1)
    tops = [r[0:16] + r[19:23] for r in records if r[16] == 1]
    return tiles, [(o, be(o[12:16]) + be(o[5:8]) - (12 if o[4] & 0x80 else 8) + o[16]) for o in tops]


def search(reading, code, data):
    """The outline of the first AVP with the code, or none."""
    length, _ = header(data)
    tiles, tops = top_level(reading, data[:length])
    found = [outline for outline, _ in tops if outline[0:4] == code]
    if not found and not tiles:
        raise Refused(NOT_TILED)
    return b"\1" + found[0] if found else b"\0"


def steps(reading, data):
    tiles, tops = top_level(reading, data)
    last = tops[-1][1] if tops else 20
    return b"".join(b"\1" + outline + past.to_bytes(4, "big") for outline, past in tops) + bytes([0 if tiles else 2]) + last.to_bytes(4, "big")


def row(r):
    """A record as the writer takes it."""
    return {
        "code": r[0:4], "flags": r[4], "length": be(r[5:8]), "vendor": r[8:12], "place": be(r[12:16]),
        "depth": r[16], "kind": r[17], "padding": r[19], "pads": r[20:23], "head": 12 if r[4] & 0x80 else 8, "parent": be(r[32:36]),
    }


def rows_of(table):
    """The whole ones."""
    return [row(table[at : at + RECORD]) for at in range(0, len(table) // RECORD * RECORD, RECORD)]


def keeps(r, allowed, pool):
    if not 1 <= r["depth"] <= 64 or r["depth"] > allowed or r["kind"] > 14:
        return False
    if r["head"] == 8 and any(r["vendor"]):
        return False
    if r["kind"] == 8:
        return r["padding"] == 0 and not any(r["pads"])
    size = r["length"] - r["head"]
    if size < 0 or r["place"] + size > len(pool):
        return False
    return r["padding"] == (4 - size % 4) % 4 and not any(r["pads"][r["padding"] :])


def avps_of(rows, depth, pool):
    """The AVPs of the rows at the front that stand at a depth, and the rows after them."""
    out = b""
    while rows and rows[0]["depth"] >= depth:
        r, rows = rows[0], rows[1:]
        if r["kind"] == 8:
            body, rows = avps_of(rows, r["depth"] + 1, pool)
        else:
            body = pool[r["place"] : r["place"] + r["length"] - r["head"]]
        head = r["code"] + bytes([r["flags"]]) + ((r["head"] + len(body)) & 0xFFFFFF).to_bytes(3, "big")
        out += head + (r["vendor"] if r["head"] == 12 else b"") + body + r["pads"][: r["padding"]]
    return out, rows


def written(data, room):
    flags, code, ids, size = data[0], be(data[1:5]), data[5:17], be(data[17:21])
    table, pool = data[21 : 21 + size], data[21 + size :]
    if code > 0xFFFFFF:
        raise Refused(BAD_HEADER)
    rows, allowed = rows_of(table), 1
    depths = [r["depth"] for r in rows]
    for index, r in enumerate(rows):
        if not keeps(r, allowed, pool) or r["parent"] != parent(depths, index):
            raise Refused(BAD_TABLE, index)
        allowed = r["depth"] + (r["kind"] == 8)
    if len(table) % RECORD:
        raise Refused(BAD_TABLE, len(rows))
    body = avps_of(rows, 1, pool)[0]
    total = 20 + len(body)
    if total > 0xFFFFFF:
        raise Refused(TOO_LONG)
    if total > room:
        raise Refused(NO_ROOM, total)
    return bytes([1]) + total.to_bytes(3, "big") + bytes([flags]) + code.to_bytes(3, "big") + ids + body


def packet_value(kind, data):
    """Kind, error flags and value field of an attribute's data."""
    if kind == 10:
        return text(kind, data)
    if kind in (4, 13):
        return (kind, 0, be(data)) if len(data) == 4 else (0, DATA_LENGTH, 0)
    return kind, 0, 0


def attributes(data):
    """The type of each attribute of a packet, where its data stand, and the data."""
    at = SMALLEST_PACKET
    while at < len(data):
        length = be(data[at + 1 : at + 2])
        if length < 2 or at + length > len(data):
            raise Refused(NOT_TILED)
        yield data[at], at + 2, data[at + 2 : at + length]
        at += length


def packet_length(data):
    if len(data) < 4:
        raise Refused(INCOMPLETE, 4 - len(data))
    length = be(data[2:4])
    if not SMALLEST_PACKET <= length <= LARGEST_PACKET:
        raise Refused(BAD_LENGTH)
    if length > len(data):
        raise Refused(INCOMPLETE, length - len(data))
    return length


def packet(room, data):
    """Flags, records, tried, length, of a packet of RADIUS."""
    length, flags, records = packet_length(data), 0, []
    for code, place, body in attributes(data[:length]):
        kind, errors, number = packet_value(RADIUS.get(code, 0), body)
        flags |= errors
        records.append(
            code.to_bytes(4, "big") + (2 + len(body)).to_bytes(4, "big") + bytes(4) + place.to_bytes(4, "big")
            + bytes([1, kind, errors]) + bytes(5) + number.to_bytes(8, "big") + TOP_LEVEL.to_bytes(4, "big")
        )
    if len(records) > room:
        raise Refused(NO_RECORDS, len(records))
    return flags, records, len(records), length


def is_attribute(r, pool):
    """Does a row keep the rules of the writer of packets?"""
    if r["flags"] or any(r["vendor"]) or r["padding"] or any(r["pads"]) or r["depth"] != 1 or r["parent"] != TOP_LEVEL:
        return False
    return be(r["code"]) <= 255 and 2 <= r["length"] <= 255 and r["place"] + r["length"] - 2 <= len(pool)


def packet_written(data, room):
    size = be(data[18:22])
    table, pool = data[22 : 22 + size], data[22 + size :]
    rows = rows_of(table)
    for index, r in enumerate(rows):
        if not is_attribute(r, pool):
            raise Refused(BAD_TABLE, index)
    if len(table) % RECORD:
        raise Refused(BAD_TABLE, len(rows))
    body = b"".join(r["code"][3:] + bytes([r["length"]]) + pool[r["place"] : r["place"] + r["length"] - 2] for r in rows)
    total = SMALLEST_PACKET + len(body)
    if total > LARGEST_PACKET:
        raise Refused(TOO_LONG)
    if total > room:
        raise Refused(NO_ROOM, total)
    return data[:2] + total.to_bytes(2, "big") + data[2:18] + body


def moved(data):
    """A table, every place and every parent in it more by a number; at depth 1 the parent stays."""
    more, records, table, out = be(data[:8]), be(data[8:16]), data[16:], b""
    if len(table) % RECORD:
        raise Refused(BAD_TABLE, len(table) // RECORD)
    for at in range(0, len(table), RECORD):
        r = table[at : at + RECORD]
        place, above = be(r[12:16]) + more, be(r[32:36]) + (0 if r[16] == 1 else records)
        if place > LAST or above > LAST:
            raise Refused(TOO_LONG)
        out += r[:12] + place.to_bytes(4, "big") + r[16:32] + above.to_bytes(4, "big")
    return out


def together(first, second):
    """A message with the first one's header and the AVPs of both."""
    avps = first[20 : header(first)[0]] + second[20 : header(second)[0]]
    return first[:1] + (20 + len(avps)).to_bytes(3, "big") + first[4:20] + avps


LENT, SPARE = 0xA5, 5
# (00)*3 in a case is 000000
REPEATED = re.compile(r"\(([0-9a-f]+)\)\*([0-9]+),?")
FUNCTIONS = ("message", "header", "avp", "table", "find", "steps", "message-by", "avp-by", "compare", "packet", "packet-table", "moved", "joined")
READINGS = ("sawp", "rfc")
WRITERS = {"table": written, "packet-table": packet_written}


def frame(function, reading, limit, room, data):
    head = bytes([FUNCTIONS.index(function), READINGS.index(reading), limit])
    return head + room.to_bytes(2, "big") + len(data).to_bytes(4, "big") + data


def decoded(function, reading, limit, room, data):
    """The header's bytes, where there is one, or a packet's first two; and what was read."""
    if function == "header":
        return data[:20], header_alone(data)
    if function == "avp":
        return b"", avp_alone(reading, limit, room, data)
    if function == "avp-by":
        return b"", by_edition(avp_alone, be(data[:4]), limit, room, data[4:])
    if function == "message-by":
        return data[4:24], by_edition(message, be(data[:4]), limit, room, data[4:])
    if function == "packet":
        return data[:2], packet(room, data)
    return data[:20], message(reading, limit, room, data)


def authenticator(function, data):
    """That of a packet; nothing else has one."""
    return data[4:20] if function == "packet" else b""


def counts(flags, records, tried, length):
    return bytes([flags]) + len(records).to_bytes(2, "big") + tried.to_bytes(4, "big") + length.to_bytes(4, "big")


def refusal(r):
    return bytes([r.number]) + r.amount.to_bytes(4, "big")


def moved_answer(data, size):
    """The store holds the table, moved or as it was."""
    try:
        table = moved(data)
        said = bytes(5) + (len(table) // RECORD).to_bytes(4, "big")
    except Refused as r:
        said, table = refusal(r), data[16:]
    return said + table.ljust(size, bytes([LENT]))


def joined_answer(reading, limit, room, data, size):
    """Each message is read by itself, which may refuse it, and then the one that has the AVPs of both. No table is made of two."""
    end = 4 + be(data[:4])
    first, second, store = data[4:end], data[end:], bytes([LENT]) * size
    try:
        records = message(reading, limit, room, first)[1]
        store = b"".join(records).ljust(size, b"\0")
        message(reading, limit, room - len(records), second)
        read = message(reading, limit, room, together(first, second))
    except Refused as r:
        return refusal(r) + store
    return bytes(5) + counts(*read) + b"".join(read[1]).ljust(size, b"\0")


def answer(function, reading, limit, room, data):
    size = room * RECORD + SPARE
    if function == "moved":
        return moved_answer(data, size)
    if function == "joined":
        return joined_answer(reading, limit, room, data, size)
    try:
        if function in WRITERS:
            out = WRITERS[function](data, size)
            return bytes(5) + len(out).to_bytes(4, "big") + out.ljust(size, bytes([LENT]))
        if function == "find":
            return bytes(5) + search(reading, data[:4], data[4:]) + bytes([LENT]) * size
        if function == "steps":
            return steps(reading, data) + bytes([LENT]) * size
        if function == "compare":
            return bytes(5) + bytes([comparison(data)]) + bytes([LENT]) * size
        head, read = decoded(function, reading, limit, room, data)
    except Refused as r:
        return refusal(r) + authenticator(function, bytes(20)) + bytes([LENT]) * size
    out = bytes(5) + head + counts(*read) + authenticator(function, data)
    if function == "header":
        return out + bytes([LENT]) * size
    return out + b"".join(read[1]).ljust(size, b"\0")


def unit_values(words):
    """The bytes of two Unit-Values from their numbers in decimal."""
    return b"".join(int(word).to_bytes(size, "big", signed=True) for word, size in zip(words, (8, 4, 8, 4)))


def bytes_of(text):
    return b"" if text == "-" else bytes.fromhex(REPEATED.sub(lambda m: m[1] * int(m[2]), text))


def case(function, *words):
    """A case from the words of its line."""
    if function == "compare":
        return function, "rfc", 0, 0, unit_values(words)
    if function == "moved":
        more, records, room, table = words
        return function, "rfc", 0, int(room), int(more).to_bytes(8, "big") + int(records).to_bytes(8, "big") + bytes_of(table)
    if function == "joined":
        reading, limit, room, *pair = words
        first, second = map(bytes_of, pair)
        return function, reading, int(limit), int(room), len(first).to_bytes(4, "big") + first + second
    reading, limit, room, text = ("rfc", 0, *words) if function in ("packet", "packet-table") else words
    data = bytes_of(text)
    if function in ("message-by", "avp-by"):
        reading, data = "rfc", int(reading).to_bytes(4, "big") + data
    return function, reading, int(limit), int(room), data


def main():
    make = {"frames": frame, "answers": answer}[sys.argv[1]]
    for line in sys.stdin:
        words = line.split()
        if words and not words[0].startswith("#"):
            sys.stdout.buffer.write(make(*case(*words)))


if __name__ == "__main__":
    main()
