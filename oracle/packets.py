"""RADIUS for the judge: makes tables of typical packets for the writer, has tshark read what was written, and sets its fields beside our records.

Every type of RFC 2865 and RFC 2866 is given data of its format, wrong lengths and ill-formed text too. Left out is what tshark makes a number of, an integer
of 1, 2, 3 or 8 bytes; what it calls wrong where nothing is wrong here: strings that it takes for bytes without any, a CHAP-Password of another length than
17; and Vendor-Specific data of vendors that it knows, or that don't hold attributes, at which it stops.
"""
import ipaddress
import re
import xml.etree.ElementTree as ElementTree
from pathlib import Path

import capture
from model import DATA_LENGTH, DATA_VALUE, RADIUS, TOP_LEVEL, be
from typical import ILL_FORMED, OCTETS, TEXTS, WORDS, wide

PORT, ACCOUNTING_PORT = 1812, 1813
CODES, ACCOUNTING_CODES = (1, 2, 3, 11, 12, 13), (4, 5)
PASSWORD, CHAP_PASSWORD, IPX_NETWORK, VENDOR_SPECIFIC = 2, 3, 23, 26
UNKNOWN_TYPES = (0, 21, 54, 200, 240, 255)
UNKNOWN_VENDORS = (99999, 4294967295)
UNHANDLED, STRING, INTEGER, TEXT, ADDRESS = 0, 1, 4, 10, 13
NAMES = {STRING: "string", INTEGER: "integer", TEXT: "text", ADDRESS: "address"}
HEADER = {"code": (0, 1), "identifier": (1, 2), "packet length": (2, 4), "authenticator": (4, 20)}
OWN = ("radius.avp.type", "radius.avp.length")

# tshark's names of our kinds, and its types that are others:
TYPED = {STRING: "octets", INTEGER: "integer", TEXT: "string", ADDRESS: "ipaddr"}
DEPARTED = {
    STRING: dict.fromkeys((1, 2, 19, 20, 30, 31, 32, 34, 35, 39, 50, 63), "string"),
    INTEGER: {IPX_NETWORK: "ipaddr"},
}


def type_name(code, kind):
    """Our type by tshark's name for it."""
    return DEPARTED.get(kind, {}).get(code, TYPED.get(kind))


# ---- tables

LETTERS = [b"x" * 253] + [text.encode() for text in TEXTS if len(text) < 254]
ADDRESSES = [bytes.fromhex(text) for text in ("c0000201", "0a000001", "00000000", "ffffffff", "fffffffe", "", "0a0000", "0a00000100", "20" * 16)]
VALUES = {
    STRING: [data for data in OCTETS if 0 < len(data) < 254] + [bytes(range(253))],
    INTEGER: wide(WORDS, 4, 0, 5, 6, 7, 9, 253),
    TEXT: LETTERS + ILL_FORMED,
    ADDRESS: ADDRESSES,
}


def vendors_own():
    """Data of Vendor-Specific: a vendor and attributes of its own."""
    for vendor in UNKNOWN_VENDORS:
        for own in (b"", b"\x01\x03a", b"\x07\x06\xff\x00\x01\x02" * 3, b"\xff\xf9" + bytes(247)):
            yield vendor.to_bytes(4, "big") + own


def values(code):
    if code not in RADIUS:
        return [data for data in VALUES[STRING] if len(data) < 60]
    if code == PASSWORD:
        return [bytes(range(size, 2 * size)) for size in (16, 32, 112)]
    if code == CHAP_PASSWORD:
        return [bytes(range(first, first + 17)) for first in (0, 100, 239)]
    if code == VENDOR_SPECIFIC:
        return list(vendors_own())
    return LETTERS if code in DEPARTED[STRING] else VALUES[RADIUS[code]]


def table(r, given):
    """The header's fields, the table and the bytes that it points into, some between that nothing points at, of types with their data."""
    rows, pool = b"", b""
    for code, data in given:
        pool += r.randbytes(r.randrange(4))
        rows += (
            code.to_bytes(4, "big") + (2 + len(data)).to_bytes(4, "big") + bytes(4) + len(pool).to_bytes(4, "big")
            + bytes([1, RADIUS.get(code, 0)]) + bytes(14) + TOP_LEVEL.to_bytes(4, "big")
        )
        pool += data
    return bytes([r.choice((*CODES, *ACCOUNTING_CODES))]) + r.randbytes(17), rows, pool


def fitting(given):
    """As many of them as a packet holds."""
    size = 20
    for code, data in given:
        size += 2 + len(data)
        if size > 4096:
            return
        yield code, data


def tables(r):
    codes = (*RADIUS, *UNKNOWN_TYPES)
    made = [[(code, data) for data in values(code)] for code in codes]
    made += [[(code, r.choice(values(code))) for code in r.sample(codes, r.randrange(1, 40))] for _ in range(300)]
    return [table(r, list(fitting(given))) for given in made]


# ---- what tshark shows


def datagram(number, packet):
    port = ACCOUNTING_PORT if packet[0] in ACCOUNTING_CODES else PORT
    ports = (capture.FIRST_PORT + number).to_bytes(2, "big") + port.to_bytes(2, "big")
    return capture.ip(17, ports + (8 + len(packet)).to_bytes(2, "big") + bytes(2) + packet)


def trees(packets):
    """tshark's tree of each packet, or None where it saw no RADIUS or stopped in it."""
    out = capture.tshark("-n", "-r", "-", "-T", "pdml", given=capture.pcap([datagram(*given) for given in enumerate(packets)]))
    return [capture.tree_of(packet, "radius") for packet in ElementTree.fromstring(out)]


def types(codes):
    """The type of each code in tshark's own dictionary."""
    text = "".join(Path(capture.folder(), "radius", "dictionary." + name).read_text("utf-8") for name in ("rfc2865", "rfc2866"))
    found = {int(code): name for code, name in re.findall(r"^ATTRIBUTE\s+\S+\s+(\d+)\s+(\w+)", text, re.MULTILINE)}
    return {code: found[code] for code in codes if code in found}


class Attribute:
    """An attribute as tshark shows it; `type` is None if the code isn't one of those whose types are known."""

    def __init__(self, field, start, types):
        own = {part.get("name"): part for part in field}
        self.code = int(own["radius.avp.type"].get("show"))
        self.length = int(own["radius.avp.length"].get("show"))
        self.type = types.get(self.code)
        self.place = int(field.get("pos")) - start + 2
        self.data = bytes.fromhex(field.get("value"))[2:]
        self.said = field.get("showname")
        self.field = next((part for part in field if part.get("name") not in OWN and not part.get("name").startswith("_ws")), None)
        self.errors = (DATA_LENGTH if self.misfits() else 0) | (DATA_VALUE if self.ill_formed() else 0)

    def misfits(self):
        """Does tshark say that the data don't have their type's length?"""
        return self.type is not None and ("[wrong length" in self.said or "[unhandled integer length" in self.said)

    def ill_formed(self):
        """Does tshark show U+FFFD where the text has none?"""
        return RADIUS.get(self.code) == TEXT and self.show().count("\ufffd") > self.data.count("\ufffd".encode())

    def show(self):
        return "" if self.field is None else self.field.get("show")

    def kind(self):
        if self.type is None or self.errors:
            return UNHANDLED
        kinds = {name: kind for kind, name in TYPED.items()}
        return next((kind for kind, codes in DEPARTED.items() if self.code in codes), kinds[self.type])

    def value(self, kind):
        """What tshark shows, as our value or our data."""
        if self.code == VENDOR_SPECIFIC:
            return int(self.show())
        if kind == INTEGER:
            return int(self.show(), 0)
        if kind == ADDRESS:
            return be(ipaddress.ip_address(self.show()).packed)
        return bytes.fromhex(self.show().replace(":", "")) if self.octets() else self.show().encode()

    def octets(self):
        return self.type == "octets" or self.code == PASSWORD


def attributes(tree, types):
    start = int(tree.get("pos"))
    return [Attribute(field, start, types) for field in tree.iter("field") if field.get("name") == "radius.avp"]


def header(tree):
    return [be(bytes.fromhex(tree.find(f"field[@name='radius.{name}']").get("value"))) for name in ("code", "id", "length", "authenticator")]


# ---- the comparison


def head_size(_):
    return 2


def data_of(record, pool):
    place = be(record[12:16])
    return pool[place : place + be(record[5:8]) - 2]


def our_value(kind, record, data):
    if be(record[:4]) == VENDOR_SPECIFIC:
        return be(data[:4])
    return be(record[24:32]) if kind in (INTEGER, ADDRESS) else data


def of_attribute(record, shown, data):
    """Sort, ours and tshark's of each thing that both say of an attribute."""
    yield "type", be(record[:4]), shown.code
    yield "length", be(record[5:8]), shown.length
    yield "place", be(record[12:16]), shown.place
    # flags, vendor, padding, depth and parent, of which RADIUS has none
    yield "other fields", record[4:5] + record[8:12] + record[19:23] + record[16:17] + record[32:36], bytes(9) + b"\1" + TOP_LEVEL.to_bytes(4, "big")
    yield "error flags", record[18], shown.errors
    yield "data", data, shown.data
    yield "kind", record[17], shown.kind()
    if shown.ill_formed():
        yield "where text broke", be(record[24:32]), len(shown.show().split("\ufffd")[0].encode())
    if shown.kind() != UNHANDLED:
        yield "vendor" if shown.code == VENDOR_SPECIFIC else NAMES[shown.kind()], our_value(shown.kind(), record, data), shown.value(shown.kind())


def compared(packet, tree, types, _):
    """Sort, where, ours and tshark's of all that is compared in a packet."""
    yield "shown as RADIUS", "", True, tree is not None
    if tree is None:
        return
    for (sort, (start, end)), theirs in zip(HEADER.items(), header(tree)):
        yield sort, "", be(packet.header[start:end]), theirs
    shown = attributes(tree, types)
    yield "number of attributes", "", len(packet.records), len(shown)
    for at, (record, attribute) in enumerate(zip(packet.records, shown)):
        for sort, ours, theirs in of_attribute(record, attribute, data_of(record, packet.wire)):
            yield sort, f", attribute {at}, type {attribute.code}", ours, theirs


# ---- what is altered


def is_broken(record):
    """Is it that of ill-formed text?"""
    return record[18] == DATA_VALUE


def has_data(kind):
    return lambda record: record[17] == kind and be(record[5:8]) > 2


# Which record, which byte counted from the attribute's start, which bits.
BREAKS = {
    "type": (has_data(INTEGER), lambda r: 0, 0x10),
    "length": (has_data(STRING), lambda r: 1, 1),
    "ill-formed text": (has_data(TEXT), lambda r: 2, 0x80),
    "where text broke": (lambda r: is_broken(r) and be(r[24:32]) > 1, lambda r: 2, 0x80),
    **{NAMES[kind]: (has_data(kind), lambda r: be(r[5:8]) - 1, 1) for kind in NAMES},
}
# Records of which tshark shows all.
SHOWN = {NAMES[INTEGER]: has_data(INTEGER), NAMES[ADDRESS]: has_data(ADDRESS), "ill-formed text": is_broken}
