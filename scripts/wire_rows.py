#!/usr/bin/env python3
"""Writes the rows of crates/wire_rows: frames and outer packets, and what is read and written of them, and batches of operations.

What a row must answer is worked out by formats.py and model.py, which share nothing with the program; the vectors below were worked out from the
standards by hand, and are tested here.
"""
import json
import struct
import sys

import formats
import model

rows = []

# TCP from 10.0.0.1 port 4096 to 10.0.0.2 port 80; the same with one byte of data; and with a checksum that makes the sealed sum 0.
F1 = bytes.fromhex("020000000002020000000001080045000028000040004006" "26ce0a0000010a0000021000005000000001000000005002200000000000")
F2 = F1[:16] + b"\x00\x29" + F1[18:24] + b"\x26\xcd" + F1[26:] + b"\x41"
F3 = F1[:50] + b"\x37\x7d" + F1[52:]
TO_GATEWAY = bytes.fromhex("4500005a0000400010111270ac100001ac110001c1b512b5004600000800000000000700")
TO_HOST = bytes.fromhex("4500005a000040000f111270ac110001ac100101c1b512b5004600000800000000000700")
SEALED_TO_GATEWAY = bytes.fromhex("4500005b000040001011126fac100001ac110001c1b512b50047f67a0800000000000700")
SEALED_TO_HOST = bytes.fromhex("4500005b000040000f11126fac110001ac100101c1b512b50047f57a0800000000000700")


def put(line, answer):
    rows.append((line, answer))


def changed(data, at, byte):
    """The bytes with another one in a place."""
    return data[:at] + bytes([byte]) + data[at + 1:]


# ---- frames


def frame(data, name=None):
    """A frame, and the name of the check that it fails by hand, where it fails one."""
    said = formats.read_frame(data)
    if isinstance(said, str):
        assert said == name, (said, name)
        return put(f"frame {data.hex()}", said)
    assert name is None
    mac, x = said
    hash_ = formats.flow_hash(x)
    return put(f"frame {data.hex()}", " ".join(map(str, [mac, *x, hash_, 49152 + hash_ % 16384])))


def frames():
    assert formats.flow_hash((6, 0x0A000001, 0x0A000002, 4096, 80)) == 16821
    assert formats.flow_hash((6, 0x0A000001, 0x0A000064, 4096, 80)) == 16663
    assert formats.flow_hash((6, 0x0A000001, 0x0A000064, 4097, 80)) == 17624
    for data in (F1, F2, F3, F1[:33] + b"\x64" + F1[34:], F1[:33] + b"\x64\x10\x01" + F1[36:]):
        frame(data)
    frame(changed(F1, 23, 1))  # ICMP has no ports
    frame(changed(F1, 23, 17))  # UDP has
    frame(changed(F1, 20, 0x20))  # more fragments
    frame(changed(F1, 21, 1))  # a later fragment
    frame(F1[:16] + b"\0\0" + F1[18:])  # a total length of 0 stands for what is there
    frame(F1 + bytes(6))  # padding
    options = changed(changed(F1, 14, 0x46), 17, 44)
    frame(options[:34] + bytes(4) + options[34:])  # four bytes of options
    frame(F1[:13], "Short")
    frame(changed(F1, 13, 6), "NotIp4")
    frame(F1[:33], "Cut")
    frame(F1[:53], "Cut")
    frame(changed(F1, 14, 0x65), "BadIp4")
    frame(changed(F1, 14, 0x44), "BadIp4")
    frame(changed(F1, 17, 19), "BadIp4")
    frame(changed(F1, 17, 23)[:37], "ShortPorts")
    frame(F1 + bytes(65_499 - len(F1)))
    frame(F1 + bytes(65_500 - len(F1)), "TooLong")


# ---- outer packets


def address(word):
    """The underlay address of a node: a host, a gateway, or a gateway's redirect address."""
    return model.underlay(("h" if word[0] == "h" else "g", int(word[1:])), word[0] == "r")


def said(source, destination, ttl, vni, port, sealed):
    return f"{source} {destination} {ttl} {vni} {port} {'sealed' if sealed else 'open'}"


def wrap(how, source, destination, ttl, vni, data, head=None):
    """An outer packet, and its headers where they were worked out by hand."""
    sealed = how != "open"
    x = formats.read_frame(data)[1]
    ends = address(source), address(destination)
    packet = model.outer_packet(data, x, *ends, ttl, vni, sealed)
    assert head is None or packet[:36] == head, (how, packet[:36].hex())
    port = 49152 + formats.flow_hash(x) % 16384
    put(f"wrap {how} {source} {destination} {ttl} {vni} {data.hex()}", f"{packet.hex()} 3 1 true {said(*ends, ttl, vni, port, sealed)}")
    return packet


def outer(data, answer):
    put(f"outer {data.hex()}", answer)


def wraps():
    assert [address(word) for word in ("h1", "g0", "r7")] == [0xAC100101, 0xAC110001, 0xAC110702]
    open_ = wrap("open", "h0", "g0", 16, 7, F1, TO_GATEWAY)
    wrap("open", "g0", "h1", 15, 7, F1, TO_HOST)
    for how in ("sealed", "later"):
        wrap(how, "h0", "g0", 16, 7, F2, SEALED_TO_GATEWAY)
        wrap(how, "g0", "h1", 15, 7, F2, SEALED_TO_HOST)
        # A computed sum of 0 is sent as ffff.
        assert wrap(how, "h0", "g0", 16, 7, F3)[26:28] == b"\xff\xff"
    sealed = wrap("sealed", "h63", "r7", 1, 16_777_215, F2)
    wrap("open", "h1", "r7", 255, 1, F2)
    said_open = said(address("h0"), address("g0"), 16, 7, 49152 + 16821 % 16384, False)
    said_sealed = said(address("h63"), address("r7"), 1, 16_777_215, 49152 + 16821 % 16384, True)
    outer(open_, said_open)
    outer(changed(open_, 29, 0x55), said_open)  # reserved bits are not looked at
    outer(changed(open_, 28, 0x0C), said_open)  # nor are the other flags
    for at, byte, name in [(0, 0x46, "Version"), (8, 0x11, "Header"), (25, 0x45, "Length"), (23, 0xB6, "Port"), (27, 0x01, "Checksum"), (28, 0x00, "Flag")]:
        outer(changed(open_, at, byte), name)
    # Another protocol, with the header's sum mended: its word is larger by 0x0100 for each number past 17.
    protocol = changed(open_, 9, 6)
    outer(protocol[:10] + struct.pack(">H", int.from_bytes(open_[10:12], "big") + 11) + protocol[12:], "Protocol")
    outer(open_[:89], "Length")
    outer(open_[:35], "Length")
    outer(b"", "Length")
    outer(sealed, said_sealed)
    outer(changed(sealed, 50, sealed[50] ^ 1), "Checksum")


# ---- batches


def batches():
    put("batch 0", "0")
    put("batch 3", "3")


def main():
    frames()
    wraps()
    batches()
    where = sys.argv[1] if len(sys.argv) > 1 else "crates/wire_rows"
    with open(where + "/stdin", "w", encoding="utf-8") as lines:
        lines.writelines(row + "\n" for row, _ in rows)
    with open(where + "/stdout", "w", encoding="utf-8") as lines:
        lines.writelines(answer + "\n" for _, answer in rows)
    print(json.dumps({"rows": len(rows)}))


main()
