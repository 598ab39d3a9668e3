"""The formats that a replay reads and writes: frames, captures and scenarios, each with its checks in order. It is a part of model.py."""

import json
import math
import re
import struct

MOST_ITEMS = 65536
MOST_FRAMES, MOST_CAPTURED, LONGEST_FRAME = 100_000, 262_144, 65_499


class Refused(Exception):
    """A file that is refused, with what the program says of it."""


# ---- frames


def read_frame(frame):
    """The source address and the tuple of a frame, or the name of the first check that fails."""
    if len(frame) > LONGEST_FRAME:
        return "TooLong"
    if len(frame) < 14:
        return "Short"
    if frame[12:14] != b"\x08\x00":
        return "NotIp4"
    packet = frame[14:]
    if len(packet) < 20:
        return "Cut"
    header = 4 * (packet[0] & 15)
    total = int.from_bytes(packet[2:4], "big") or len(packet)
    if packet[0] >> 4 != 4 or header < 20 or total < header:
        return "BadIp4"
    if len(packet) < total:
        return "Cut"
    fragment = int.from_bytes(packet[6:8], "big") & 0x3FFF != 0
    protocol = packet[9]
    ports = (0, 0)
    if not fragment and protocol in (6, 17):
        if total < header + 4:
            return "ShortPorts"
        ports = struct.unpack(">HH", packet[header:header + 4])
    addresses = struct.unpack(">II", packet[12:20])
    return int.from_bytes(frame[6:12], "big"), (protocol, *addresses, *ports)


def flow_hash(tuple_):
    """The hash of a flow: of 13 bytes, each time 31 times as much and the next byte, modulo 65536."""
    value = 0
    for byte in struct.pack(">BIIHH", *tuple_):
        value = (31 * value + byte) % 65536
    return value


# ---- captures


def read_capture(data):
    """Whether times are in nanoseconds, and the frames as (seconds, fraction, original length, bytes)."""
    if len(data) < 24:
        raise Refused("capture: CutHeader", 3)
    spellings = {b"\xd4\xc3\xb2\xa1": ("<", False), b"\xa1\xb2\xc3\xd4": (">", False),
                 b"\x4d\x3c\xb2\xa1": ("<", True), b"\xa1\xb2\x3c\x4d": (">", True)}
    if data[:4] not in spellings:
        raise Refused("capture: Magic", 3)
    order, nanos = spellings[data[:4]]
    if struct.unpack(order + "H", data[4:6])[0] != 2:
        raise Refused("capture: Major", 3)
    if struct.unpack(order + "I", data[20:24])[0] != 1:
        raise Refused("capture: LinkType", 3)
    frames, at = [], 24
    while at < len(data):
        if len(frames) == MOST_FRAMES:
            raise Refused("capture: TooMany", 3)
        if len(data) - at < 16:
            raise Refused(f"capture: CutRecord {at}", 3)
        seconds, fraction, captured, original = struct.unpack(order + "IIII", data[at:at + 16])
        if captured > MOST_CAPTURED:
            raise Refused(f"capture: LongRecord {at}", 3)
        if len(data) - at - 16 < captured:
            raise Refused(f"capture: CutRecord {at}", 3)
        frames.append((seconds, fraction, original, data[at + 16:at + 16 + captured]))
        at += 16 + captured
    return nanos, frames


def write_capture(link, nanos, frames):
    """The bytes of a written capture."""
    magic = 0xA1B23C4D if nanos else 0xA1B2C3D4
    out = struct.pack("<IHHIIII", magic, 2, 4, 0, 0, 262144, link)
    for seconds, fraction, original, frame in frames:
        out += struct.pack("<IIII", seconds, fraction, len(frame), original) + frame
    return out


# ---- scenarios


def whole(low, high):
    """A whole number of 64 bits within these bounds."""
    def check(value):
        if type(value) is not int or not 0 <= value < 2**64:
            return "Field", None
        return (None, value) if low <= value <= high else ("Range", None)
    return check


def text(form):
    """A text whose value the form gives, or None where it is outside the form."""
    def check(value):
        if type(value) is not str:
            return "Field", None
        got = form(value)
        return ("Range", None) if got is None else (None, got)
    return check


def plain_number(digits, most):
    """The number of these decimal digits, without a leading zero and at most so large."""
    if not re.fullmatch(r"0|[1-9][0-9]{0,8}", digits) or int(digits) > most:
        return None
    return int(digits)


def ip_of(value):
    """An address of four numbers."""
    numbers = [plain_number(part, 255) for part in value.split(".")]
    return None if len(numbers) != 4 or None in numbers else int.from_bytes(bytes(numbers), "big")


def prefix_of(value):
    """An address and a length, with the bits past the length taken as 0."""
    head, slash, tail = value.partition("/")
    address, length = ip_of(head), plain_number(tail, 32)
    if not slash or address is None or length is None:
        return None
    return address >> (32 - length) << (32 - length), length


def mac_of(value):
    """An Ethernet address of six pairs."""
    return int(value.replace(":", ""), 16) if re.fullmatch(r"[0-9a-fA-F]{2}(:[0-9a-fA-F]{2}){5}", value) else None


def node_of(value):
    """A host or a gateway, by its number."""
    number = plain_number(value[1:], 10**9 - 1) if value[:1] in ("h", "g") else None
    return None if number is None else (value[0], number)


def ports_of(value):
    """Two ports, the first not above the second."""
    if type(value) is not list or len(value) != 2 or any(type(v) is not int or not 0 <= v < 2**64 for v in value):
        return "Field", None
    return (None, tuple(value)) if value[0] <= value[1] <= 65535 else ("Range", None)


def protocol_of(value):
    """A protocol, by its name or its number."""
    if type(value) is str:
        number = {"tcp": 6, "udp": 17, "icmp": 1}.get(value)
        return ("Range", None) if number is None else (None, number)
    return whole(0, 255)(value)


def backends_of(value):
    """One to eight addresses."""
    if type(value) is not list or any(type(v) is not str for v in value):
        return "Field", None
    found = [ip_of(v) for v in value]
    return ("Range", None) if not 1 <= len(found) <= 8 or None in found else (None, found)


def truth(value):
    """A truth value."""
    return (None, value) if type(value) is bool else ("Field", None)


def items(value):
    """The script."""
    if type(value) is not list:
        return "Field", None
    return ("Limit", None) if len(value) > MOST_ITEMS else (None, value)


def one_of(*words):
    """One of these words."""
    return text(lambda value: value if value in words else None)


NET, NUMBER = whole(1, 2**24 - 1), whole(1, 2**32 - 1)
VM = text(lambda value: value if re.fullmatch(r"[A-Za-z0-9_.-]{1,32}", value) else None)
PREFIX, ANYWHERE, ALL_PORTS = text(prefix_of), (0, 0), (0, 65535)
REQUIRED = object()
TOP = [("hosts", whole(1, 64), REQUIRED), ("gateways", whole(1, 8), REQUIRED), ("workers", whole(1, 4), 2),
       ("hop_limit", whole(1, 32), 16), ("out_queue", whole(1, 4096), 256), ("wire_queue", whole(1, 4096), 256),
       ("seal_queue", whole(1, 4096), 256), ("park", whole(0, 256), 0), ("threshold", whole(1, 10**9), 20000), ("life", whole(1, 10**4), 3),
       ("script", items, REQUIRED)]
HOST = ("host", whole(0, 2**32 - 1), REQUIRED)
NODE = [("node", text(node_of), REQUIRED), ("what", one_of("install", "forward"), REQUIRED)]
ITEM = {
    "add_net": [("net", NET, REQUIRED)],
    "add_vm": [("vm", VM, REQUIRED), ("net", NET, REQUIRED), ("mac", text(mac_of), REQUIRED), ("ip", text(ip_of), REQUIRED), HOST],
    "remove_vm": [("vm", VM, REQUIRED)],
    "add_rule": [("net", NET, REQUIRED), ("number", NUMBER, REQUIRED), ("priority", whole(0, 65535), REQUIRED),
                 ("side", one_of("egress", "ingress"), REQUIRED), ("action", one_of("allow", "deny"), REQUIRED),
                 ("protocol", protocol_of, None), ("source", PREFIX, ANYWHERE), ("destination", PREFIX, ANYWHERE),
                 ("source_ports", ports_of, ALL_PORTS), ("destination_ports", ports_of, ALL_PORTS), ("sealed", truth, False)],
    "del_rule": [("net", NET, REQUIRED), ("number", NUMBER, REQUIRED)],
    "add_route": [("net", NET, REQUIRED), ("number", NUMBER, REQUIRED), ("prefix", PREFIX, REQUIRED),
                  ("target", one_of("local", "drop", "peer", "balance"), REQUIRED)],
    "del_route": [("net", NET, REQUIRED), ("number", NUMBER, REQUIRED)],
    "tick": [], "wait": [], "send": [("frames", whole(1, 100_000), None)],
    "blackout": [("vm", VM, REQUIRED), HOST], "resume": [("vm", VM, REQUIRED)], "hold": NODE, "free": NODE,
}


def read_object(value, fields, known, at):
    """The fields of an object, by the table's order of checks."""
    for name in sorted(value, key=lambda name: name.encode()):
        if name not in known:
            raise Refused(f"scenario: Unknown {at}/{name}", 2)
    read = {}
    for name, check, default in fields:
        if name not in value and default is not REQUIRED:
            read[name] = default
            continue
        fault, got = check(value[name]) if name in value else ("Field", None)
        if name == "sealed" and fault is None and got and (read["side"], read["action"]) != ("egress", "allow"):
            fault = "Range"
        if fault:
            raise Refused(f"scenario: {fault} {at}/{name}", 2)
        read[name] = got
    return read


def read_item(value, at):
    """One item of the script."""
    if type(value) is not dict:
        raise Refused(f"scenario: Field {at}", 2)
    if type(value.get("do")) is not str:
        raise Refused(f"scenario: Field {at}/do", 2)
    if value["do"] not in ITEM:
        raise Refused(f"scenario: Unknown {at}/do", 2)
    fields = ITEM[value["do"]]
    more = {"peer": ("peer", NET, REQUIRED), "balance": ("backends", backends_of, REQUIRED)}
    if value["do"] == "add_route" and type(value.get("target")) is str and value["target"] in more:
        fields = fields + [more[value["target"]]]
    read = read_object(value, fields, {"do"} | {name for name, _, _ in fields}, at)
    return {"do": value["do"], **read}


def read_scenario(data):
    """The settings with the items, or a refusal."""
    def number(digits):
        if math.isinf(float(digits)):
            raise ValueError
        return float(digits)

    def none(_):
        raise ValueError
    try:
        decoded = data.decode()
        value = json.loads(decoded, parse_float=number, parse_constant=none)
    except (ValueError, RecursionError):
        raise Refused("scenario: NotJson", 2) from None
    if depth(decoded) > 127:
        raise Refused("scenario: NotJson", 2)
    if type(value) is not dict:
        raise Refused("scenario: Field ", 2)
    read = read_object(value, TOP, {name for name, _, _ in TOP}, "")
    read["script"] = [read_item(item, f"/script/{i}") for i, item in enumerate(read["script"])]
    return read


def depth(decoded):
    """How many brackets are open at once at most, outside texts."""
    most = open_ = 0
    for mark in re.sub(r'"(\\.|[^"\\])*"', "", decoded):
        open_ += (mark in "[{") - (mark in "]}")
        most = max(most, open_)
    return most
