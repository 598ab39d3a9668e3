#!/usr/bin/env python3
"""Writes scenarios and captures for `run.sh`: 8 hosts, 4 networks of 15 rules each (60 in all), 40 VMs, and captures of the frames that are asked for, of 100
bytes each; the same with 64 hosts, with 4 and with 4,000 rules in networks that no frame is of, and with 4 and with 256 rules in each network of the frames;
with a tick every 1,000 frames, at which no flow reaches the threshold, and at which all do; with 1,000 migrations over 64 hosts, each VM in a blackout for
50 of 100 frames; with a rule in each network that lets all frames leave, which seals and which does not; and 10,000 and 20,000 frames of 1,400 bytes (a capture
has room for 23,696 of these).

Usage: make_input.py FOLDER FRAMES..
"""
import json
import os
import struct
import sys

HOSTS, NETS, RULES, VMS = 8, 4, 15, 40


def rule(net, r):
    """Rule number r + 1 of a network: of both sides in turns, most of which allow a port of TCP."""
    port = 80 + r
    return {"do": "add_rule", "net": net, "number": 1 + r, "priority": 10 * r, "side": "egress" if r % 2 else "ingress",
            "action": "allow" if r % 3 else "deny", "protocol": "tcp", "destination_ports": [port, port]}


def moves(hosts):
    """1,000 migrations, of one VM after the other to the next host, each with 50 frames before the blackout and 50 in it."""
    items = []
    for k in range(1000):
        vm = k % VMS
        items += [{"do": "send", "frames": 50}, {"do": "blackout", "vm": f"v{vm}", "host": (vm + k // VMS + 1) % hosts},
                  {"do": "send", "frames": 50}, {"do": "resume", "vm": f"v{vm}"}]
    return items


def leaves(net, sealed):
    """A rule that is tried before the others for what leaves, and takes all of it."""
    return {"do": "add_rule", "net": net, "number": 1000, "priority": 0, "side": "egress", "action": "allow", "sealed": sealed}


def scenario(hosts=HOSTS, rules=RULES, elsewhere=0, threshold=None, moving=False, sealed=None):
    """Each of the networks of the VMs has so many rules, and 20 others, which have no VM, have so many together. With a threshold, 1,000 frames are sent a tick. Where
    it is said whether frames are sealed, all of them leave, by one rule more in each network."""
    script = [{"do": "add_net", "net": 1 + n} for n in range(NETS + 20)]
    for v in range(VMS):
        script.append({"do": "add_vm", "vm": f"v{v}", "net": 1 + v % NETS, "mac": mac(v), "ip": f"10.0.0.{v + 1}", "host": v % hosts})
    script += [rule(1 + n, r) for n in range(NETS) for r in range(rules)]
    script += [rule(1 + NETS + r % 20, r // 20) for r in range(elsewhere)]
    script += [leaves(1 + n, sealed) for n in range(NETS)] if sealed is not None else []
    if threshold:
        ticks = [{"do": "send", "frames": 1000}, {"do": "tick"}] * 100
        return {"hosts": hosts, "gateways": 1, "threshold": threshold, "script": script + [{"do": "wait"}] + ticks}
    return {"hosts": hosts, "gateways": 1, "script": script + [{"do": "wait"}] + (moves(hosts) if moving else [{"do": "send"}])}


SCENARIOS = {"scenario": {}, "64-hosts": {"hosts": 64}, "4-elsewhere": {"elsewhere": 4}, "4000-elsewhere": {"elsewhere": 4000},
             "4-rules": {"rules": 4}, "256-rules": {"rules": 256}, "ticks": {"threshold": 1_000_000}, "offloads": {"threshold": 500},
             "moves": {"hosts": 64, "moving": True}, "unsealed": {"sealed": False}, "sealed": {"sealed": True}}


def mac(v):
    return "02:00:00:00:00:%02x" % (v + 1)


def frame(i, size):
    source = i % VMS
    destination = (source + NETS * (1 + i // VMS % 3)) % VMS
    total = size - 14
    ethernet = bytes.fromhex(mac(destination).replace(":", "")) + bytes.fromhex(mac(source).replace(":", "")) + b"\x08\x00"
    ip = struct.pack(">BBHHHBBHII", 0x45, 0, total, 0, 0, 64, 6, 0, 0x0A000001 + source, 0x0A000001 + destination)
    tcp = struct.pack(">HHIIBBHHH", 1024 + i % 1000, 80 + i % 20, 0, 0, 0x50, 0x10, 0, 0, 0)
    return (ethernet + ip + tcp).ljust(size, b"\0")


def capture(path, count, size):
    with open(path, "wb") as out:
        out.write(struct.pack("<IHHIIII", 0xA1B2C3D4, 2, 4, 0, 0, 262144, 1))
        for i in range(count):
            data = frame(i, size)
            out.write(struct.pack("<IIII", i // 1000, i % 1000, len(data), len(data)) + data)


def main():
    folder = sys.argv[1]
    for name, options in SCENARIOS.items():
        with open(os.path.join(folder, f"{name}.json"), "w") as out:
            json.dump(scenario(**options), out)
    with open(os.path.join(folder, "no-vms.json"), "w") as out:
        json.dump({"hosts": 1, "gateways": 1, "script": [{"do": "send"}]}, out)
    for count in map(int, sys.argv[2:]):
        capture(os.path.join(folder, f"{count}.pcap"), count, 100)
    capture(os.path.join(folder, "long.pcap"), 10000, 1400)
    capture(os.path.join(folder, "longer.pcap"), 20000, 1400)


main()
