"""Puts messages into a capture, has tshark read it, and takes from its tree what the records hold.

A message is one TCP segment in one IPv4 packet. Each has a source port of its own, so that no segment is taken for a part or a repetition of another.
"""
import os
import re
import subprocess
import xml.etree.ElementTree as ElementTree
from pathlib import Path

from model import DATA_LENGTH, DATA_VALUE, PADDING, RESERVED

DIAMETER_PORT, FIRST_PORT = 3868, 20000
RAW_IP = 101
OWN = {"diameter.avp." + name for name in ("code", "flags", "len", "vendorId", "pad")}
FIELDS = ("version", "length", "flags", "cmd.code", "applicationId", "hopbyhopid", "endtoendid")
RENAMED = {"": "Grouped", "IPAddress": "Address"}
TEXT = ("UTF8String", "DiameterIdentity", "DiameterURI")
ANY_LENGTH = ("Grouped", "OctetString", "IPFilterRule", *TEXT)
# the base protocol, and credit-control, which the first names as a part of it
DICTIONARIES = ("dictionary.xml", "chargecontrol.xml")
TYPED = re.compile(r'<avp\s([^>]*)>\s*<(?:grouped|type type-name="([^"]*)")')


def packet(number, message):
    ports = (FIRST_PORT + number).to_bytes(2, "big") + DIAMETER_PORT.to_bytes(2, "big")
    return ip(6, ports + bytes.fromhex("00000001 00000001 5018 ffff 0000 0000") + message)


def ip(protocol, data):
    head = bytes.fromhex("4500") + (20 + len(data)).to_bytes(2, "big") + bytes.fromhex("0000 0000 40") + bytes([protocol])
    return head + bytes.fromhex("0000 0a000001 0a000002") + data


def pcap(packets):
    out = bytes.fromhex("a1b2c3d4 0002 0004 00000000 00000000 00040000") + RAW_IP.to_bytes(4, "big")
    for number, data in enumerate(packets):
        out += number.to_bytes(4, "big") + bytes(4) + 2 * len(data).to_bytes(4, "big") + data
    return out


def tshark(*words, given=None):
    """What tshark prints, with no one's settings, in UTC."""
    env = dict(os.environ, WIRESHARK_CONFIG_DIR="/nonexistent", TZ="UTC", LC_ALL="C.UTF-8")
    return subprocess.run(["tshark", *words], env=env, input=given, stdout=subprocess.PIPE, stderr=subprocess.DEVNULL, check=True).stdout


def version():
    return tshark("--version").decode().split("\n")[0]


def trees(messages):
    """tshark's tree of each message, or None where it saw no Diameter or stopped in it."""
    out = tshark("-n", "-r", "-", "-d", f"tcp.port=={DIAMETER_PORT},diameter", "-T", "pdml", given=pcap([packet(*given) for given in enumerate(messages)]))
    return [tree_of(shown, "diameter") for shown in ElementTree.fromstring(out)]


def tree_of(shown, protocol):
    found = {proto.get("name"): proto for proto in shown.findall("proto")}
    return None if "_ws.malformed" in found else found.get(protocol)


def folder():
    """Where tshark has its dictionaries."""
    return re.search(r"^Global configuration:\s*(.*)$", tshark("-G", "folders").decode(), re.MULTILINE)[1]


def types(codes):
    """The type of each code in tshark's own dictionary, without a vendor."""
    text = "".join(Path(folder(), "diameter", name).read_text("utf-8") for name in DICTIONARIES)
    found = {}
    for words, name in TYPED.findall(re.sub(r"<!--.*?-->", "", text, flags=re.DOTALL)):
        code = int(re.search(r'code="(\d+)"', words)[1])
        if code in codes and "vendor-id" not in words:
            found[code] = RENAMED.get(name, name)
    return found


class Avp:
    """An AVP as tshark shows it; `type` is None if the code isn't one of those whose types are known, `group` if it stands in none."""

    def __init__(self, field, start, group, types):
        own = {part.get("name"): part for part in field}
        self.group, self.depth = group, 1 if group is None else group.depth + 1
        self.code = int(own["diameter.avp.code"].get("show"))
        self.flags = int(own["diameter.avp.flags"].get("show"), 16)
        self.length = int(own["diameter.avp.len"].get("show"))
        vendor = own.get("diameter.avp.vendorId")
        self.vendor = 0 if vendor is None else int(vendor.get("show"))
        self.type = types.get(self.code) if self.vendor == 0 else None
        self.field = next(part for part in field if part.get("name") not in OWN and not part.get("name").startswith("_ws"))
        self.place = int(self.field.get("pos")) - start
        self.data = bytes.fromhex(self.field.get("value") or "")
        pad = own.get("diameter.avp.pad")
        self.padding = b"" if pad is None else bytes.fromhex(pad.get("value"))
        self.members = []
        if self.type == "Grouped":
            self.members = [Avp(part, start, self, types) for part in self.field.findall("field[@name='diameter.avp']")]
        self.errors = self.own_errors(own["diameter.avp.flags"], pad)
        for member in self.members:
            self.errors |= member.errors

    def own_errors(self, flags, pad):
        found = RESERVED if any("reserved" in bit.get("name") and bit.get("show") == "1" for bit in flags) else 0
        if pad is not None and has(pad, "diameter.avp.pad.non_zero"):
            found |= PADDING
        return found | (DATA_LENGTH if self.misfits() else 0) | (DATA_VALUE if self.ill_formed() else 0)

    def misfits(self):
        """Does tshark say that the data don't have their type's length?"""
        if self.type is None or self.type in ANY_LENGTH:
            return False
        return has(self.field, "diameter.avp.invalid-len") or has(self.field, "diameter.avp.no_data")

    def ill_formed(self):
        """Does tshark show U+FFFD where the text has none?"""
        return self.type in TEXT and self.field.get("show").count("\ufffd") > self.data.count("\ufffd".encode())

    def broke_at(self):
        """How many bytes the text takes that tshark shows before the first U+FFFD."""
        return len(self.field.get("show").split("\ufffd")[0].encode())

    def part(self, name):
        """What tshark shows of a part of the value, or None."""
        found = [part.get("show") for part in self.field if part.get("name").endswith("." + name)]
        return found[0] if found else None

    def run(self):
        """The AVP and all that is in it, in order."""
        yield self
        for member in self.members:
            yield from member.run()


def has(field, name):
    return any(part.get("name") == name for part in field.iter())


def avps(tree, types):
    """All in order, each with its index."""
    start = int(tree.get("pos"))
    found = [avp for field in tree.findall("field[@name='diameter.avp']") for avp in Avp(field, start, None, types).run()]
    for index, avp in enumerate(found):
        avp.index = index
    return found


def header(tree):
    return [int(tree.find(f"field[@name='diameter.{name}']").get("show"), 0) for name in FIELDS]
