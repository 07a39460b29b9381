"""Sets tshark's fields of a message beside our records of it, in the RFC reading or by an edition.

Where the two are known to part, the departure is counted under its number in docs/DIFFERENCES.md: D3 wrong lengths, D7 other families of addresses.
"""
import calendar
import ipaddress
import time

import capture
from model import TOP_LEVEL, be

KINDS = {
    "OctetString": 1, "Integer32": 2, "Integer64": 3, "Unsigned32": 4, "Unsigned64": 5, "Grouped": 8, "Enumerated": 9, "UTF8String": 10,
    "DiameterIdentity": 11, "DiameterURI": 12, "Address": 13, "Time": 14,
}
NAMES = {kind: name for name, kind in KINDS.items()}
UNHANDLED, OCTETS, INTEGER32, INTEGER64, UNSIGNED32, UNSIGNED64, GROUPED, ENUMERATED, ADDRESS, TIME = 0, 1, 2, 3, 4, 5, 8, 9, 13, 14
NUMBERS = (INTEGER32, INTEGER64, UNSIGNED32, UNSIGNED64, ENUMERATED)
# The types in tshark's dictionary that are others than ours, by our kind:
DEPARTED = {
    UNSIGNED32: {
        258: "AppId", 259: "AppId", 265: "VendorId", 266: "VendorId", 268: "Enumerated", 270: "Enumerated", 291: "Integer32", 298: "Enumerated",
        299: "Enumerated",
    },
    OCTETS: {438: "IPFilterRule"},
}
LISTED = {code: kind for kind, names in DEPARTED.items() for code in names}
HEADER = {
    "version": (0, 1), "message length": (1, 4), "message flags": (4, 5), "command code": (5, 8), "application": (8, 12), "hop-by-hop": (12, 16),
    "end-to-end": (16, 20),
}
# Seconds from 1900 to 1970 and from there to the turn of 2036.
FROM_1900, TO_2036 = 2208988800, 2085978496
WRAP = 1 << 32


def type_name(code, kind):
    """Our type by tshark's name for it."""
    return DEPARTED.get(kind, {}).get(code, NAMES.get(kind))


def head_size(record):
    return 12 if record[4] & 0x80 else 8


def data_of(record, pool):
    place = be(record[12:16])
    return pool[place : place + be(record[5:8]) - head_size(record)]


def kind_shown(avp):
    """The kind that tshark's type is, or None where it makes nothing of the data."""
    if avp.type is None or avp.ill_formed():
        return UNHANDLED
    if avp.misfits():
        return None
    if avp.type == "Address" and avp.part("addr_family") not in ("1", "2"):
        return UNHANDLED
    return LISTED[avp.code] if avp.code in LISTED else KINDS[avp.type]


def signed(number, bits):
    return number - (number >> bits - 1 << bits)


def our_value(kind, record, data):
    """The value in the form in which tshark shows it."""
    number = be(record[24:32])
    if kind == OCTETS:
        return data.hex(":")
    if kind == ADDRESS:
        family = be(data[:2])
        return family, record[28:32] if family == 1 else data[2:]
    if kind in (ENUMERATED, INTEGER32):
        return signed(number, 32)
    if kind == INTEGER64:
        return signed(number, 64)
    if kind == TIME:
        return number + TO_2036 if number < WRAP // 2 else number - FROM_1900
    return number if kind in NUMBERS else data.decode(errors="replace")


def shown_value(kind, avp):
    """tshark's value; a number of a listed type by its bits, and text of one by its bytes."""
    text = avp.field.get("show")
    if kind == ADDRESS:
        return int(avp.part("addr_family")), ipaddress.ip_address(avp.part("IPv4") or avp.part("IPv6")).packed
    if kind == TIME:
        return calendar.timegm(time.strptime(text.split(".")[0], "%b %d, %Y %H:%M:%S"))
    if kind in NUMBERS:
        return int(text) % WRAP if avp.code in LISTED else int(text)
    if not avp.data:
        return ""
    return text.encode().hex(":") if avp.code in LISTED else text


def of_avp(record, avp, data, listed):
    """Sort, ours and tshark's of each thing that both say of an AVP."""
    yield "depth", record[16], avp.depth
    yield "parent", be(record[32:36]), TOP_LEVEL if avp.group is None else avp.group.index
    yield "code", be(record[:4]), avp.code
    yield "flags", record[4], avp.flags
    yield "length", be(record[5:8]), avp.length
    yield "vendor", be(record[8:12]), avp.vendor
    yield "place", be(record[12:16]), avp.place
    yield "padding", record[19:23], bytes([len(avp.padding)]) + avp.padding.ljust(3, b"\0")
    yield "error flags", record[18], avp.errors
    yield "data", data, avp.data
    if avp.ill_formed():
        yield "where text broke", be(record[24:32]), avp.broke_at()
    kind = kind_shown(avp)
    if kind is None:
        listed["D3"] += 1
        return
    listed["D7"] += kind == UNHANDLED and avp.type == "Address"
    yield "kind", record[17], kind
    if kind not in (UNHANDLED, GROUPED):
        yield NAMES[kind], our_value(kind, record, data), shown_value(kind, avp)


def compared(message, tree, types, listed):
    """Sort, where, ours and tshark's of all that is compared in a message."""
    yield "shown as Diameter", "", True, tree is not None
    if tree is None:
        return
    for (sort, (start, end)), theirs in zip(HEADER.items(), capture.header(tree)):
        yield sort, "", be(message.header[start:end]), theirs
    avps = capture.avps(tree, types)
    yield "number of AVPs", "", len(message.records), len(avps)
    for at, (record, avp) in enumerate(zip(message.records, avps)):
        for sort, ours, theirs in of_avp(record, avp, data_of(record, message.wire), listed):
            yield sort, f", AVP {at}, code {avp.code}", ours, theirs
