#!/usr/bin/env python3
"""Prints one short capture in each of the four spellings of the pcap format, as the arrays of the tests of
`and_capture`.

Where scapy is installed its writer gives the bytes, and they are compared with those of the few lines below that lay
them out by hand; without scapy those stand alone, and standard error says so.
"""

import io
import struct
import sys

# seconds, fraction, original length, captured bytes
RECORDS = [(1700000000, 123456, 60, bytes([0x02, 0x00, 0xFE])), (1700000001, 999999, 5, b"hello")]
SPELLINGS = [("LITTLE_MICROS", "<", False), ("LITTLE_NANOS", "<", True), ("BIG_MICROS", ">", False), ("BIG_NANOS", ">", True)]
SNAPSHOT_LENGTH = 65535


def by_hand(order: str, nanos: bool) -> bytes:
    """The capture, field by field."""
    magic = 0xA1B23C4D if nanos else 0xA1B2C3D4
    out = struct.pack(order + "IHHiIII", magic, 2, 4, 0, 0, SNAPSHOT_LENGTH, 1)
    for seconds, fraction, original, frame in RECORDS:
        out += struct.pack(order + "IIII", seconds, fraction, len(frame), original) + frame
    return out


def by_scapy(order: str, nanos: bool) -> bytes:
    """The capture, as scapy writes it."""
    from scapy.utils import RawPcapWriter

    class Kept(io.BytesIO):
        def close(self) -> None:
            pass

    kept = Kept()
    writer = RawPcapWriter(kept, linktype=1, endianness=order, nano=nanos, snaplen=SNAPSHOT_LENGTH)
    writer.write_header(None)
    for seconds, fraction, original, frame in RECORDS:
        writer.write_packet(frame, sec=seconds, usec=fraction, caplen=len(frame), wirelen=original)
    writer.flush()
    return kept.getvalue()


def main() -> int:
    try:
        import scapy  # noqa: F401
    except ImportError:
        print("scapy is not installed: the bytes are laid out by hand", file=sys.stderr)
        writer = by_hand
    else:
        writer = by_scapy
    for name, order, nanos in SPELLINGS:
        text = writer(order, nanos)
        if text != by_hand(order, nanos):
            print(f"{name}: scapy writes other bytes", file=sys.stderr)
            return 1
        print(f"const {name}: [u8; {len(text)}] = [")
        for start in range(0, len(text), 12):
            print("    " + " ".join(f"0x{byte:02x}," for byte in text[start:start + 12]))
        print("];\n")
    return 0


if __name__ == "__main__":
    sys.exit(main())
