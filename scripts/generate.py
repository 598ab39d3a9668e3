#!/usr/bin/env python3
"""Writes generated scenarios with their captures and the texts that the model composes for them: FOLDER/N.json, N.pcap, N.report
and N.trace for N from 0 on.

Use: generate.py FOLDER COUNT SEED
The scenarios have all kinds of items: networks, VMs, rules, of which some seal, routes, what deletes these, ticks, blackouts, resumes, sends, waits, holds and
frees, on up to seven hosts and eight gateways, with settings of all kinds. About half of the packets are of the flow of an earlier one.
"""

import os
import random
import struct
import sys

import model


def settings_of(draw):
    """Settings that are named, each now and then: small queues and hop limits, so that packets are lost to them."""
    ranges = {"workers": (1, 4), "hop_limit": (1, 3), "out_queue": (1, 4), "wire_queue": (1, 3), "seal_queue": (1, 3), "threshold": (1, 150), "life": (1, 4)}
    return "".join(f'"{name}":{draw.randint(*ranges[name])},' for name in ranges if draw.random() < (0.8 if name == "threshold" else 0.2))


def scenario_of(draw):
    """A scenario, and the VMs that it adds as (network, number, Ethernet address, address)."""
    hosts, nets = draw.randrange(1, 8), draw.sample(range(1, 100), draw.randrange(1, 4))
    items, vms = [f'{{"do":"add_net","net":{net}}}' for net in nets], []
    for number in range(draw.randrange(2, 12)):
        net = draw.choice(nets)
        vms.append((net, number, 0x020000000001 + number, f"10.{net}.0.{number + 1}"))
        mac = ":".join(f"{byte:02x}" for byte in vms[-1][2].to_bytes(6, "big"))
        items.append(f'{{"do":"add_vm","vm":"v{number}","net":{net},"mac":"{mac}","ip":"{vms[-1][3]}","host":{draw.randrange(hosts)}}}')
    for number in range(1, draw.randrange(1, 10)):
        side, low = draw.choice(["ingress", "ingress", "egress"]), draw.choice([22, 53, 80, 443])
        protocol = draw.choice(["", ',"protocol":"tcp"', ',"protocol":"udp"', ',"protocol":1'])
        ports = draw.choice(["", f',"destination_ports":[{low},{low + draw.randrange(0, 400)}]'])
        source = draw.choice(["", f',"source":"{draw.choice(vms)[3]}/{draw.choice([16, 24, 31, 32])}"'])
        action = draw.choice(["allow", "allow", "deny"])
        sealed = draw.choice(["", ',"sealed":true', ',"sealed":true', ',"sealed":false']) if (side, action) == ("egress", "allow") else ""
        items.append(f'{{"do":"add_rule","net":{draw.choice(nets)},"number":{number},"priority":{draw.randrange(0, 4)},"side":"{side}",'
                     f'"action":"{action}"{protocol}{source}{ports}{sealed}}}')
    for net in nets:
        if draw.random() < 0.5:
            items.append(f'{{"do":"add_rule","net":{net},"number":20,"priority":{draw.randrange(0, 6)},"side":"ingress","action":"allow"}}')
        # Now and then all that leaves is sealed, where no other rule decides.
        if draw.random() < 0.2:
            items.append(f'{{"do":"add_rule","net":{net},"number":21,"priority":{draw.randrange(2, 6)},"side":"egress","action":"allow","sealed":true}}')
    for number in range(1, draw.randrange(1, 6)):
        target = draw.choice(['"local"', '"drop"', f'"peer","peer":{draw.choice(nets)}', f'"peer","peer":{draw.choice(nets)}'])
        prefix = f"{draw.choice(vms)[3]}/{draw.choice([0, 8, 16, 24, 32])}"
        items.append(f'{{"do":"add_route","net":{draw.choice(nets)},"number":{number},"prefix":"{prefix}","target":{target}}}')
    # Deletions of what may be there, some of which are refused; sends stand anywhere behind the networks, and some frames are reached by none.
    for _ in range(draw.randrange(0, 4)):
        items.insert(draw.randrange(len(nets) + 1, len(items) + 1),
                     f'{{"do":"del_{draw.choice(["rule", "route"])}","net":{draw.choice(nets)},"number":{draw.randrange(1, 6)}}}')
    for _ in range(draw.randrange(1, 5)):
        items.insert(draw.randrange(len(nets) + 1, len(items) + 1), draw.choice(
            ['{"do":"wait"}', '{"do":"send","frames":%d}' % draw.randrange(1, 6)]))
    # Holds and frees stand anywhere: some are of nodes that are not there, some free what is not held, and what is left held is freed at the end.
    for _ in range(draw.choice([0, 0, 1, 3, 6])):
        items.insert(draw.randrange(0, len(items) + 1), f'{{"do":"{draw.choice(["hold", "hold", "free"])}",'
                     f'"node":"{draw.choice("hhg")}{draw.randrange(0, hosts)}","what":"{draw.choice(["install", "forward"])}"}}')
    # Ticks between sends in about half of them: usage reaches the threshold, flows are offloaded, and orders end by ticks and by what changes their networks.
    if draw.random() < 0.5:
        for _ in range(draw.randrange(2, 7)):
            items.append('{"do":"send","frames":%d}' % draw.randrange(3, 14))
            items.append(draw.choice(['{"do":"tick"}'] * 3 + [f'{{"do":"del_rule","net":{draw.choice(nets)},"number":{draw.randrange(1, 6)}}}',
                                                              f'{{"do":"del_route","net":{draw.choice(nets)},"number":{draw.randrange(1, 6)}}}']))
    if draw.random() < 0.6:
        items += moves_of(draw, hosts, len(vms))
    if draw.random() < 0.7:
        items.append('{"do":"send"}')
    return f'{{"hosts":{hosts},"gateways":{draw.randrange(1, 9)},{settings_of(draw)}"script":[' + ",\n".join(items) + "]}\n", vms


def moves_of(draw, hosts, count):
    """Blackouts and resumes between sends, now and then of the same VM again before its hairpin ends, held back at some node so that others decide by what
    was, or refused; and now and then a VM is removed, in a blackout too."""
    items = []
    for _ in range(draw.randrange(2, 9)):
        vm, node, what = f"v{draw.randrange(count)}", f"h{draw.randrange(hosts)}", draw.choice(["install", "install", "forward"])
        move = [f'{{"do":"blackout","vm":"{vm}","host":{draw.randrange(hosts)}}}', f'{{"do":"resume","vm":"{vm}"}}']
        if draw.random() < 0.1:
            move[draw.randrange(2)] = f'{{"do":"remove_vm","vm":"{vm}"}}'
        if draw.random() < 0.5:
            move = [f'{{"do":"hold","node":"{node}","what":"{what}"}}'] + move + [f'{{"do":"free","node":"{node}","what":"{what}"}}']
        if draw.random() < 0.3:
            move.insert(0, '{"do":"tick"}')
        for item in move:
            items.append(item)
            if draw.random() < 0.7:
                items.append('{"do":"send","frames":%d}' % draw.randrange(2, 12))
        if draw.random() < 0.2:
            items.append('{"do":"wait"}')
    return items


def frame_of(draw, vms, number):
    """A frame, now and then one that is skipped, spoofed, or for nobody."""
    source, destination = draw.choice(vms), draw.choice(vms)
    if draw.random() < 0.6:
        destination = draw.choice([vm for vm in vms if vm[0] == source[0]])
    mac = draw.choice([source[2]] * 9 + [0x02FFFFFFFFFF])
    addresses = [draw.choice([source[3]] * 9 + ["10.9.9.9"]), draw.choice([destination[3]] * 9 + ["10.8.8.8"])]
    protocol, port = draw.choice([6, 6, 17, 1]), draw.choice([22, 53, 80, 443, 500])
    data = bytes(draw.randrange(8, 60))
    body = struct.pack(">HH", 10000 + number, port) + data
    total = draw.choice([20 + len(body)] * 12 + [0, 19, 22, 2000])
    head = struct.pack(">BBHHHBBH", 0x45, 0, total, number, draw.choice([0] * 9 + [0x2000]), 64, protocol, 0)
    head += bytes(int(part) for address in addresses for part in address.split("."))
    kind = draw.choice([b"\x08\x00"] * 15 + [b"\x86\xdd"])
    return (0x020000000001).to_bytes(6, "big") + mac.to_bytes(6, "big") + kind + head + body


def capture_of(draw, vms):
    """A capture of up to three hundred frames, of which about half repeat an earlier one, whose packet is then of the same flow."""
    out, frames = struct.pack("<IHHIIII", 0xA1B2C3D4, 2, 4, 0, 0, 262144, 1), []
    for number in range(draw.randrange(0, 300)):
        data = draw.choice(frames) if frames and draw.random() < 0.5 else frame_of(draw, vms, number)
        frames.append(data)
        out += struct.pack("<IIII", 1_000_000_000 + number, number, len(data), len(data)) + data
    return out


def main():
    folder, count, seed = sys.argv[1], int(sys.argv[2]), int(sys.argv[3])
    os.makedirs(folder, exist_ok=True)
    packets, seals = 0, 0
    for number in range(count):
        draw = random.Random(seed * 1_000_003 + number)
        scenario, vms = scenario_of(draw)
        capture = capture_of(draw, vms)
        run = model.replay(scenario.encode(), capture)
        packets += len(run.plan.packets)
        seals += sum(line.startswith("sealed ") for line in run.lines)
        texts = {"json": scenario.encode(), "pcap": capture, "report": model.report(run).encode(), "trace": model.trace(run).encode(),
                 "delivered.pcap": model.delivered_capture(run), "underlay.pcap": model.underlay_capture(run)}
        for kind, data in texts.items():
            with open(os.path.join(folder, f"{number}.{kind}"), "wb") as file:
                file.write(data)
    print(f"{count} scenarios with {packets} packets, {seals} of them sealed")
    return 0


if __name__ == "__main__":
    sys.exit(main())
