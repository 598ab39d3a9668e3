#!/usr/bin/env python3
"""Writes a hundred TCP frames between the two VMs of scenario.json as a classic pcap in microseconds.

Needs scapy (Debian: python3-scapy). Usage: make_capture.py FILE

Fifty times, VM a sends a segment from a port of its own to VM b: forty to port 80 and ten to port 22.
To each, VM b sends one back from the port that was asked. The times are fixed, so that the file is the
same each time.
"""
import sys

from scapy.layers.inet import IP, TCP
from scapy.layers.l2 import Ether
from scapy.utils import PcapWriter

A = ("02:00:00:00:00:01", "10.0.0.1")
B = ("02:00:00:00:00:02", "10.0.0.2")


def segment(source, destination, source_port, destination_port, number):
    return (
        Ether(src=source[0], dst=destination[0])
        / IP(src=source[1], dst=destination[1], id=number, ttl=64)
        / TCP(sport=source_port, dport=destination_port, flags="PA", seq=1, ack=1)
        / (b"frame %03d" % number)
    )


def main():
    with PcapWriter(sys.argv[1], linktype=1, endianness="<", nano=False, sync=True) as out:
        for i in range(50):
            port = 80 if i % 5 else 22
            for j, frame in enumerate(
                (segment(A, B, 40000 + i, port, 2 * i), segment(B, A, port, 40000 + i, 2 * i + 1))
            ):
                frame.time = 1700000000 + i + j * 0.5
                out.write(frame)


main()
