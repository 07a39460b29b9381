"""Makes what crates/witness must write:

    python3 oracle/witness.py RFC3629 RFC4330 RFC6733 RFC4006 RFC8506 RFC2865 RFC2866 RUST > crates/witness/stdout

RFC3629 is the text of that RFC: its lines of section 4 give the ranges of UTF-8, the texts at their ends and what is well-formed.
RFC4330 is the text of that RFC: its section 3 says from when a Time is reckoned with its top bit set and with it clear.
RFC6733 is the text of that RFC (rfc-editor.org/rfc/rfc6733.txt): its table of section 4.5 gives codes, names and data types, and its
pictures in sections 3 and 4.1 the flag bits. RFC4006 and RFC8506 are the texts of those: their tables of section 8 give the codes and
data types of each edition. RFC2865 and RFC2866 are the texts of those: their pictures of section 5 give the types of RADIUS and what
their data are. RUST is sawp-diameter/src/lib.rs: its enums give the names of its codes and the numbers of the kinds, and
`Value::new` the kind of each name. docs/FORMAT.md gives the rest: that in the RFC reading another vendor's AVP is Unhandled, the
refusals, and, by oracle/model.py, what is read and written of P8, how a table is moved and how Unit-Values compare.
Nothing is taken from our code.
"""
import calendar
import functools
import re
import sys
import time

import model

CODES, EDITION_CODES, STORE, LENT = 513, 701, 41, 0xA5
P8 = bytes.fromhex("01000024" + "00" * 16 + "0000010c0000000d000007d100000000")
BROKEN = bytes.fromhex("01000025" + "00" * 16 + "0000010c0000000d000007d10000000000")
RECORD = bytes.fromhex("0000010c0000000d000000000000001c" + "0104020300000000" + "00000000000007d1" + "ffffffff")
ROWS = b"abcdefghijkl\0\0\0\x1c\1mnopqrstuvwxyzA\xff\xff\xff\xff" + b"BCDEFGHIJKLM\0\0\0\x24\2NOPQRSTUVWXYZab\0\0\0\0"
PACKET = bytes.fromhex("0407001f" + "101112131415161718191a1b1c1d1e1f" + "2c044133" + "2e070000000100" + "ff")
# What each refusal returns, by its number from 1 on, where it was made with 12.
AMOUNTS = [12, 0, 0, 0, 0, 12, 0, 0, 12, 0, 12, 0, 0]
# What the order holds before a comparison.
NO_ORDER = 7
LARGEST, SMALLEST = 2**63 - 1, -(2**63)
COMPARED = (
    (15, 0, 150, -1), (-15, 0, 15, 0), (15, 0, -15, 0), (0, 18, 0, -18), (9, 18, 9 * 10**18 + 1, 0), (9, 18, 9 * 10**18 - 1, 0), (-9, 18, -9 * 10**18, 0),
    (LARGEST, 18, LARGEST, 18), (SMALLEST, 18, LARGEST, -18), (1, 1, LARGEST, -18), (-1, 1, SMALLEST, -18), (1, 19, 1, 0), (1, 0, 1, -19), (0, 19, 0, 19),
    (1, 2**31 - 1, 1, 0), (1, 0, 1, -(2**31)),
)


def rfc_table(text):
    """Code: (name, data type), of section 4.5. A name goes on in the next line, which is indented more."""
    section = text[text.rindex("4.5.  Diameter Base Protocol AVPs") : text.rindex("5.  Diameter Peers")]
    rows = []
    for indent, name, code, kind in re.findall(r"^( {3,6})([A-Z-][A-Za-z-]*) +(?:(\d+) +[\d.]+ +(\w+) *)?\|", section, re.M):
        if len(indent) == 3:
            rows.append(["", "", ""])
        rows[-1] = [was + more for was, more in zip(rows[-1], (name, code, kind))]
    return {int(code): (name, kind.replace("Diam", "Diameter").replace("Ident", "Identity")) for name, code, kind in rows}


def edition_table(text):
    """Code: data type, of section 8 of RFC 4006 or RFC 8506. Only the first line of a name has its code."""
    section = text[text.rindex("\n8.  Credit-Control AVPs") : text.rindex("\n8.1.  CC-Correlation-Id AVP")]
    return {int(code): kind for code, kind in re.findall(r"^   [A-Z].* +(\d+) +8\.\d+ +(\w+) *\|", section, re.M)}


def radius_table(text):
    """Type: the first field of its data in its picture, of section 5 of RFC 2865 or RFC 2866."""
    table = {}
    for section in re.split(r"^5\.\d+\.  ", text, flags=re.M)[1:]:
        field = re.search(r"^ +\| +Type +\| +Length +\| +(\w[\w-]*)", section, re.M)
        if field:
            table[int(re.search(r"^ +Type\n\n +(\d+) for ", section, re.M)[1])] = field[1]
    return table


def utf8_rows(text):
    """The alternatives of UTF8-char, of RFC 3629, section 4, each a list of the (lowest, highest) of its bytes."""
    section = text[text.rindex("UTF8-octets =") : text.rindex("NOTE -- The authoritative definition")]
    rules = {name: first + more for name, first, more in re.findall(r"^   (UTF8-\w+) += (.*)\n((?: {17}.*\n)*)", section, re.M)}

    def row(alternative):
        elements = re.findall(r"(?:(\d)\( )?(?:%x(\w\w)(?:-(\w\w))?|(UTF8-tail))", alternative)
        return [r for n, low, high, tail in elements for r in int(n or 1) * (row(rules[tail]) if tail else [(int(low, 16), int(high or low, 16))])]

    return [row(alternative) for name in rules["UTF8-char"].split(" / ") for alternative in rules[name].split("/")]


def time_starts(text):
    """From when a Time is reckoned with its top bit clear and with it set, in Unix seconds: RFC 4330, section 3, over the turn of a page."""
    words = re.sub(r"\s+", " ", re.sub(r"^(?:Mills|RFC 4330) .*$", "", text, flags=re.M))
    section = words[words.rindex("3. NTP Timestamp Format") : words.rindex("4. Message Format")]
    when = dict(re.findall(r"If bit 0 is (set|not set), .*? UTC time is reckoned from (\d+h \d+m \d+s UTC on \d+ \w+ \d+)", section))
    return [calendar.timegm(time.strptime(when[bit], "%Hh %Mm %Ss UTC on %d %B %Y")) for bit in ("not set", "set")]


def rust_names(text):
    return {name: int(code) for name, code in re.findall(r"(\w+) = (\d+),", re.search(r"enum AttributeCode \{(.*?)\}", text, re.S)[1])}


def rust_kinds(text):
    """The kinds in order, and the kind that `Value::new` gives each name: the names of an arm stand before its values."""
    order = re.findall(r"^    (\w+)\(", re.search(r"enum Value \{(.*?)\n\}", text, re.S)[1], re.M)
    kinds, arm = {}, []
    for name, kind in re.findall(r"AttributeCode::(\w+)|Value::(\w+)\(", text[text.index("impl Value") : text.index("pub struct AVP")]):
        if name:
            arm = [name] if arm and arm[-1] in kinds else arm + [name]
        elif kind != "Unhandled":
            kinds.update(dict.fromkeys(arm, kind))
    return order, kinds


def bits_of(text, picture):
    """The mask of each named bit, the highest first, and of the reserved bits, from a picture such as |R P E T r r r r|."""
    assert picture in text
    masks = {}
    for at, name in enumerate(picture.strip("|").split()):
        masks[name] = masks.get(name, 0) | 0x80 >> at
    return masks


def line(*words):
    print(*(int(word) if isinstance(word, bool) else word for word in words))


def codes(rfc_text, rust_text):
    rfc, (order, rust_kind) = rfc_table(rfc_text), rust_kinds(rust_text)
    hyphens = {name.replace("-", ""): name for name, _ in rfc.values()}
    sawp = {code: (hyphens[name], rust_kind[name]) for name, code in rust_names(rust_text).items() if name != "Unknown"}
    none = ("Unknown", "Unhandled")
    for code in range(CODES):
        line("new", code, sawp.get(code, none)[0])
        for label, table in (("sawp", sawp), ("rfc", rfc)):
            name, kind = table.get(code, none)
            # without a vendor and with one, which the Rust does not look at
            kinds = [kind, kind if label == "sawp" else "Unhandled"]
            line(label, code, name, *map(order.index, kinds), *(k == "Grouped" for k in kinds))


def editions(rfc_text, edition_texts, rust_text):
    """The kind of each code by each edition; a data type without a kind is an OctetString."""
    base, order = {code: kind for code, (_, kind) in rfc_table(rfc_text).items()}, rust_kinds(rust_text)[0]
    tables = {edition: {**base, **edition_table(text)} for edition, text in edition_texts.items()}
    for code in range(EDITION_CODES):
        for edition, table in tables.items():
            kind = table.get(code, "Unhandled")
            line("edition", edition, code, order.index(kind if kind in order else "OctetString"))


def types(rfc2865_text, rfc2866_text, rust_text):
    """The kind of each type of RADIUS; what is drawn as neither text, an address nor a value is bytes."""
    table, order = {**radius_table(rfc2865_text), **radius_table(rfc2866_text)}, rust_kinds(rust_text)[0]
    drawn = {"Text": "UTF8String", "Address": "Address", "Value": "Unsigned32", None: "Unhandled"}
    for code in range(256):
        line("radius", code, order.index(drawn.get(table.get(code), "OctetString")))


def flags(rfc_text):
    header, avp = bits_of(rfc_text, "|R P E T r r r r|"), bits_of(rfc_text, "|V M P r r r r r|")
    for byte in range(256):
        line("header", byte, *(byte & header[b] != 0 for b in "RPET"), byte & header["r"])
        vendor = byte & avp["V"] != 0
        size = 12 if vendor else 8
        line("avp", byte, vendor, vendor, *(byte & avp[b] != 0 for b in "MP"), byte & avp["r"], size, size)


def numbers(starts):
    for length in (19, 20, 2**24 - 1):
        line("stated", length, max(length - 20, 0))
    for length, available in ((20, 8), (20, 20)):
        line("length", length, available, *(["absent", length - available] if available < length else ["enough"]))
    for bits in (0, 1, 2**31 - 1, 2**31, 2208988800, 2**32 - 1):
        unix = starts[bits >> 31] + bits
        line("signed", bits, int.from_bytes(bits.to_bytes(4, "big"), "big", signed=True), unix, unix)
    for size in (32, 64):
        for bits in (0, 1, 2 ** (size - 1) - 1, 2 ** (size - 1), 2**size - 1):
            line(f"integer{size}", bits, int.from_bytes(bits.to_bytes(size // 8, "big"), "big", signed=True))
    for number, amount in enumerate(AMOUNTS, 1):
        line("refusal", number, amount)


def lent(size):
    return bytes([LENT]) * size


def answered(ask, was, head):
    """The thirteen numbers of a result, and what memory holds afterwards, which a refusal leaves as it was."""
    try:
        errors, records, tried, length, memory = ask()
    except model.Refused as r:
        return [r.number, r.amount] + [0] * 11, was
    fields = [model.be(head[a:b]) for a, b in ((0, 1), (1, 4), (4, 5), (5, 8), (8, 12), (12, 16), (16, 20))] if head else [0] * 7
    return [0, 0, errors, records, tried, length] + fields, memory


def outlined(ask):
    """The ten numbers of an outline."""
    try:
        found = ask()
    except model.Refused as r:
        return [r.number, r.amount] + [0] * 8
    fields = [model.be(found[a:b]) for a, b in ((1, 5), (5, 6), (6, 9), (9, 13), (13, 17), (17, 18), (18, 21))]
    return [0, 0, found[0]] + fields


def stepped(answer, place):
    """The first of some steps, over a message of which the bytes from the place on were put behind a header."""
    if answer[0] == 2:
        raise model.Refused(model.NOT_TILED)
    if answer[0] == 0:
        return b"\0"
    return answer[:13] + (model.be(answer[13:17]) + place - 20).to_bytes(4, "big") + answer[17:21]


def read(ask, dictionary, limit, data):
    """What a store of that room holds afterwards, behind the numbers of the answer."""
    errors, records, tried, length = ask(dictionary, limit, STORE // model.RECORD, data)
    return errors, len(records), tried, length, b"".join(records).ljust(STORE, b"\0")


def show(label, words, result):
    line(label, *words, *result[0], "leaves", *result[1])


def readings():
    for rfc, limit in ((0, 64), (1, 64), (1, 0)):
        ask = functools.partial(read, model.message, model.READINGS[rfc], limit, P8)
        show("message", (rfc, limit), answered(ask, lent(STORE), P8))
    for rfc, limit in ((0, 64), (1, 65)):
        ask = functools.partial(read, model.avp_alone, model.READINGS[rfc], limit, P8[20:])
        show("one-avp", (rfc, limit), answered(ask, lent(STORE), None))


def searches():
    for code in (268, 263):
        found = (outlined(lambda: model.search("sawp", code.to_bytes(4, "big"), data)) for data in (P8, BROKEN))
        line("find", code, *(number for outline in found for number in outline))
    for place in (20, 21, 36):
        answer = model.steps("sawp", bytes(20) + P8[place:])
        past = place if answer[0] != 1 else place - 20 + model.be(answer[21:25])
        line("next", place, past, *outlined(lambda: stepped(answer, place)))


def writes():
    ids = b"".join(n.to_bytes(4, "big") for n in (257, 1, 2, 3, len(RECORD)))
    for size in (40, 35):
        def write():
            out = model.written(bytes([0x80]) + ids + RECORD + P8, size)
            return 0, 0, 0, len(out), out.ljust(size, bytes([LENT]))

        show("write", (), answered(write, lent(size), None))


def shifts():
    """Two rows, moved; the second one's place and then its parent past four bytes; the last byte absent."""
    for size, more, records in ((72, 44, 3), (72, 2**32 - 36, 3), (72, 44, 2**32), (71, 44, 3)):
        table = ROWS[:size]

        def shift():
            moved = model.moved(more.to_bytes(8, "big") + records.to_bytes(8, "big") + table)
            return 0, len(moved) // model.RECORD, 0, 0, moved

        show("shift", (more, records), answered(shift, table, None))


def by_edition():
    for label, ask, data, head in (("message-by", model.message, P8, P8), ("avp-by", model.avp_alone, P8[20:], None)):
        by = functools.partial(model.by_edition, ask)
        for edition, limit in ((4006, 64), (8506, 64), (1, 64), (8506, 0), (1, 0)):
            show(label, (edition, limit), answered(lambda: read(by, edition, limit, data), lent(STORE), head))


def comparisons():
    for words in COMPARED:
        try:
            number, order = 0, model.comparison(model.unit_values(words)) - 1
        except model.Refused as r:
            number, order = r.number, NO_ORDER
        line("compare", *words, number, order)


def texts(rows, order):
    """Both ends of each range and one outside, the other bytes of the row at their lowest and then at their highest: alone, and between letters.
    Each with what its value is: text, or Unhandled where it broke."""
    octets = re.compile(b"(?:%s)*" % b"|".join(b"".join(b"[\\x%02x-\\x%02x]" % r for r in row) for row in rows))
    for row in rows:
        for at, (low, high) in enumerate(row):
            for others in zip(*row):
                for b in (low - 1, low, high, high + 1):
                    if 0 <= b <= 255:
                        text = bytes((*others[:at], b, *others[at + 1 :]))
                        for whole in (text, b"a" + text + b"b"):
                            good = octets.fullmatch(whole) is not None
                            line("utf8", good, octets.match(whole).end(), order.index("UTF8String" if good else "Unhandled"), *whole)


def library():
    readings()
    line("header-alone", *answered(lambda: (model.header_alone(P8)[0], 0, 0, 20, b""), b"", P8)[0])
    searches()
    writes()
    shifts()
    by_edition()
    comparisons()


def packets():
    """A packet, in a store for its two records and in one a byte too short; its first record, written, in room enough and in a byte too little."""
    for size in (77, 71):
        def read_packet():
            errors, records, tried, length = model.packet(size // model.RECORD, PACKET)
            return [0, 0, errors, len(records), tried, length, *PACKET[:2]], b"".join(records).ljust(size, b"\0"), PACKET[4:20]

        packet_line("packet", read_packet, size, 16)
    row = model.packet(2, PACKET)[1][0]
    for size in (30, 23):
        def write_packet():
            out = model.packet_written(PACKET[:2] + PACKET[4:20] + len(row).to_bytes(4, "big") + row + PACKET, size)
            return [0, 0, 0, 0, 0, len(out), 0, 0], out.ljust(size, bytes([LENT])), b""

        packet_line("packet-written", write_packet, size, 0)


def packet_line(label, ask, size, more):
    """The eight numbers of a result, and what lent memory of that size, and of more, holds afterwards."""
    try:
        numbers, memory, authenticator = ask()
    except model.Refused as r:
        numbers, memory, authenticator = [r.number, r.amount] + [0] * 6, lent(size), lent(more)
    line(label, *numbers, "leaves", *memory, *authenticator)


def main():
    given = (open(path, encoding="utf-8").read() for path in sys.argv[1:])
    rfc3629_text, rfc4330_text, rfc_text, rfc4006_text, rfc8506_text, rfc2865_text, rfc2866_text, rust_text = given
    codes(rfc_text, rust_text)
    editions(rfc_text, {4006: rfc4006_text, 8506: rfc8506_text}, rust_text)
    types(rfc2865_text, rfc2866_text, rust_text)
    flags(rfc_text)
    numbers(time_starts(rfc4330_text))
    texts(utf8_rows(rfc3629_text), rust_kinds(rust_text)[0])
    library()
    packets()


if __name__ == "__main__":
    main()
