#!/usr/bin/env python3
"""Writes an underlay capture (pcap, link type 101: raw IP) of the first outer packets that a parcel is wrapped into by the rows of crates/wire_rows. The
bytes are those of the stored run, which the gate shows to be the parcel's.

Use: underlay_capture.py FOLDER COUNT OUT.pcap
"""

import struct
import sys


def packets(folder):
    """The outer packets without a checksum that the rows ask for, in their order."""
    with open(f"{folder}/stdin", encoding="ascii") as asked, open(f"{folder}/stdout", encoding="ascii") as answered:
        for line, answer in zip(asked, answered):
            if line.startswith("wrap open "):
                yield bytes.fromhex(answer.split(" ")[0])


def main() -> int:
    folder, count, out = sys.argv[1:]
    with open(out, "wb") as file:
        file.write(struct.pack("<IHHIIII", 0xA1B2C3D4, 2, 4, 0, 0, 262144, 101))
        for packet in list(packets(folder))[:int(count)]:
            file.write(struct.pack("<IIII", 1, 2, len(packet), len(packet)) + packet)
    return 0


if __name__ == "__main__":
    sys.exit(main())
