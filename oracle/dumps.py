#!/usr/bin/env python3
"""Makes what crates/dump and crates/dumps are run on, and what they must write: `python3 oracle/dumps.py` writes their stdin and stdout.

The messages are made here, and each text is the answer of `model.py` in Python's own decimal. A frame of crates/dumps is a message with its
length before it, in 4 bytes with the highest first.
"""
from pathlib import Path

import model

INPUT, DEPTH, RECORDS = 32768, 64, 1024
CRATES = Path(__file__).resolve().parent.parent / "crates"

# codes of RFC 6733: Class, Acct-Sub-Session-Id, Failed-AVP, Session-Id, Result-Code, Host-IP-Address; and Destination-Realm in the Rust
CLASS, SUB_SESSION, FAILED, SESSION, RESULT, HOST, REALM = 25, 287, 279, 263, 268, 257, 235
UNKNOWN = 0xFFFFFFFF
# text that broke at its second byte, and at its first
CUT_OFF, OVERLONG = b"a\xe2\x82", b"\xc0\x80"


def u24(n):
    return n.to_bytes(3, "big")


def u32(n):
    return n.to_bytes(4, "big")


def avp(code, data=b"", flags=0x40, vendor=None, pad=b"\0"):
    head = b"" if vendor is None else u32(vendor)
    flags |= 0 if vendor is None else 0x80
    return u32(code) + bytes([flags]) + u24(8 + len(head) + len(data)) + head + data + pad * (-len(data) % 4)


def nest(levels, inside):
    for _ in range(levels):
        inside = avp(FAILED, inside)
    return inside


def message(*avps, flags=0x80, length=None):
    body = b"".join(avps)
    return b"\x01" + u24(20 + len(body) if length is None else length) + bytes([flags]) + u24(257) + u32(0) + u32(7) + u32(9) + body


def filled(size, *avps):
    """A message of so many bytes: its last AVP takes what is left."""
    left = size - len(message(*avps)) - 8
    return message(*avps, avp(UNKNOWN, b"\xa5" * left))


# in the RFC reading the first two are no text and so no error
READINGS = [avp(CLASS, CUT_OFF), avp(REALM, OVERLONG), avp(HOST, b"\0\1\x0a\0\0\1"), avp(HOST, b"\x0a\0\0\1")]
# a vendor, a value of 64 bits, one of 32, and each flag of a record
VALUES = [
    avp(RESULT, u32(2001), vendor=10415),
    avp(UNKNOWN, b"x", vendor=0xFFFFFFFF),
    avp(SUB_SESSION, b"\xfe\xdc\xba\x98\x76\x54\x32\x10"),
    avp(SUB_SESSION, b"\xff" * 8),
    avp(RESULT, u32(2001) + b"\0", flags=0x5F, pad=b"\xff"),
    avp(RESULT, b"\0"),
]
# tried headers that have no records: a group that does not tile
UNTILED = [avp(FAILED, avp(RESULT, u32(1)) + avp(SESSION, b"a;b") + b"\0"), avp(FAILED, b"\0" * 9)]
LONE = avp(UNKNOWN)
GROUPS = [
    nest(2, avp(RESULT, u32(5012)) + avp(SESSION, b"host;1;2")),
    avp(FAILED, b"".join(VALUES)),
    avp(FAILED, b"".join(UNTILED) + b"".join(READINGS)),
    avp(FAILED),
    # members behind a deeper group, of the first group and of a second one
    avp(FAILED, LONE + nest(2, LONE + LONE) + LONE) + avp(FAILED, avp(FAILED) + LONE),
]

# as much as there is room for: 32,768 bytes, 64 levels, 1,024 records. Every smaller limit shows
MIXED = [*READINGS, *VALUES, *UNTILED, *GROUPS, nest(DEPTH - 1, avp(SUB_SESSION, b"\1" * 8))]
COUNT = len(model.message("sawp", DEPTH, 65535, message(*MIXED))[1])
MOST = filled(INPUT, *MIXED, *[LONE] * (RECORDS - COUNT - 1))

# Incomplete with several amounts, and what else a header is refused for
CUTS = [MOST[:n] for n in (0, 1, 2, 3, 4, 5, 19, 20, 21, 1000, INPUT - 1)]
HEADERS = [b"\x02", b"\0" * 24, b"\x01\0\0\x03" + b"\0" * 20, b"\x01\0\0\x13" + b"\0" * 20, message(length=0xFFFFFF), message(flags=0x8F)]

MESSAGES = [
    *CUTS,
    *HEADERS,
    message(),
    message(*READINGS),
    message(*VALUES),
    message(*UNTILED),
    message(*GROUPS, flags=0x01),
    message(b"\0"),
    message(LONE, u32(RESULT) + b"\0" + u24(7)),
    message(nest(DEPTH - 1, LONE)),
    message(nest(DEPTH, LONE)),
    message(nest(DEPTH, b"")),
    message(nest(DEPTH, b"\0")),
    message(nest(DEPTH, LONE), b"\0"),
    message(*[LONE] * 300, nest(2, LONE)),
    message(*[LONE] * RECORDS),
    message(*[LONE] * (RECORDS + 1)),
    message(*[LONE] * 4093),
    MOST,
    MOST + b"\x02" * 99,
    filled(INPUT, *VALUES),
    filled(INPUT + 4, *VALUES),
    filled(40000, *VALUES),
]


def line(*numbers):
    return " ".join(map(str, numbers)) + "\n"


def text(data):
    try:
        flags, records, tried, length = model.message("sawp", DEPTH, RECORDS, data[:INPUT])
    except model.Refused as r:
        return "refused " + line(r.number, r.amount)
    be = model.be
    rows = [line(r[16], be(r[0:4]), be(r[8:12]), r[17], r[18], be(r[5:8]), be(r[24:32]), be(r[32:36])) for r in records]
    return line(length, flags, len(records), tried) + "".join(rows)


def write(crate, stdin, stdout):
    (CRATES / crate / "stdin").write_bytes(stdin)
    (CRATES / crate / "stdout").write_text(stdout)


write("dump", MOST + b"\x02" * 99, text(MOST))
write("dumps", b"".join(u32(len(m)) + m for m in MESSAGES), "".join(map(text, MESSAGES)))
