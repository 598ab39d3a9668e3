#!/usr/bin/env python3
"""Looks at the two captures of a replay: that of the underlay has for each send of the trace one packet of IPv4 (with a good header checksum), UDP to port
4789 and VXLAN, in which is the frame of the packet that was sent, at its time, with a correct UDP checksum where the packet is sealed and with 0 where it is
not; that of what was delivered has for each delivery the record of the input capture. Needs no tool but Python.

Use: captures.py SCENARIO CAPTURE OUT
"""

import struct
import sys

import model


def records(data, link):
    """The records of a written capture: time stamp, original length and bytes."""
    magic, major, minor, zone, sigfigs, snaplen, found = struct.unpack_from("<IHHIIII", data)
    assert (major, minor, zone, sigfigs, snaplen, found) == (2, 4, 0, 0, 262144, link), "the header"
    at, found = 24, []
    while at < len(data):
        seconds, fraction, captured, original = struct.unpack_from("<IIII", data, at)
        at += 16
        assert at + captured <= len(data), "a record is cut"
        found.append((seconds, fraction, original, data[at:at + captured]))
        at += captured
    return magic, found


def inner(packet):
    """The frame in an outer packet."""
    total = sum(struct.unpack_from(">10H", packet))
    while total > 0xFFFF:
        total = (total & 0xFFFF) + (total >> 16)
    assert packet[0] == 0x45 and total == 0xFFFF, "the IPv4 header"
    assert struct.unpack_from(">H", packet, 2)[0] == len(packet) and packet[9] == 17, "the IPv4 header"
    port, length = struct.unpack_from(">HH", packet, 22)
    assert (port, length) == (4789, len(packet) - 20), "the UDP header"
    assert packet[28:32] == b"\x08\0\0\0" and packet[35] == 0, "the VXLAN header"
    return packet[36:]


def is_sealed(packet):
    """Whether an outer packet has a UDP checksum, which then has to be correct (RFC 768): with it, pseudo header and datagram add up to ffff."""
    if packet[26:28] == b"\0\0":
        return False
    summed = packet[12:20] + struct.pack(">HH", 17, len(packet) - 20) + packet[20:] + bytes(len(packet) % 2)
    total = sum(struct.unpack(f">{len(summed) // 2}H", summed))
    while total > 0xFFFF:
        total = (total & 0xFFFF) + (total >> 16)
    assert total == 0xFFFF, "a UDP checksum"
    return True


def to_seal(lines):
    """The packets that a rule seals."""
    return {int(words[2]) for words in map(str.split, lines) if words[0] == "egress" and "sealed" in words}


def seals_as_told(trace, underlay):
    """Asserts that of the packets of an underlay capture just those that its trace seals have a checksum."""
    lines = trace.split("\n")[1:-1]
    sealed = to_seal(lines)
    assert [is_sealed(packet) for _, _, _, packet in records(underlay, 101)[1]] == [i in sealed for i in sends(lines)[0]], "what is sealed"


def sends(lines):
    """The packets that are sent, and those that are delivered, in order."""
    sent, arrived = [], []
    for words in map(str.split, lines):
        if words[0] == "ingress" and words[-1] == "deliver":
            arrived.append(int(words[2]))
        elif words[0] in ("egress", "sealed", "route", "redirect", "ingress") and words[-1] == "queued" and "sealed" not in words[1:]:
            sent.append(int(words[2]))
    return sent, arrived


def main() -> int:
    scenario, capture, out = sys.argv[1:]
    with open(scenario, "rb") as one, open(capture, "rb") as two:
        plan = model.Plan(model.read_scenario(one.read()), model.read_capture(two.read()))
    with open(f"{out}.trace", encoding="ascii") as file:
        trace = file.read()
    sent, arrived = sends(trace.split("\n")[1:-1])
    frames = [packet["taken"] for packet in plan.packets]
    magic = 0xA1B23C4D if plan.nanos else 0xA1B2C3D4
    with open(f"{out}.underlay.pcap", "rb") as file:
        underlay = file.read()
    unit, packets = records(underlay, 101)
    seals_as_told(trace, underlay)
    assert unit == magic, "the unit of time"
    assert [(s, f, inner(packet)) for s, f, _, packet in packets] == [(frames[i][0], frames[i][1], frames[i][3]) for i in sent], "the sent frames"
    assert all(original == len(packet) for _, _, original, packet in packets), "a length"
    with open(f"{out}.delivered.pcap", "rb") as file:
        unit, delivered = records(file.read(), 1)
    assert unit == magic, "the unit of time"
    assert delivered == [tuple(frames[i]) for i in arrived], "the delivered frames"
    print(f"{len(sent)} packets of the underlay, {len(arrived)} delivered frames")
    return 0


if __name__ == "__main__":
    sys.exit(main())
