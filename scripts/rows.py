#!/usr/bin/env python3
"""Writes the folders of the rows, crates/rows/data, or with --check says whether each is what this script composes.

A row is a scenario and a capture; its expected texts are composed by the model of model.py, and what is known of a row
beside the model, the lines that its trace and its report must have, is tested here. The lists not-yet and not-judged of that
folder and its table changes are kept by hand.
"""

import os
import random
import shutil
import struct
import sys

import captures
import model

DATA = os.path.join(os.path.dirname(os.path.abspath(__file__)), "..", "crates", "rows", "data")

# What that folder has beside what is composed.
BY_HAND = {"not-yet", "not-judged", "changes"}

# TCP from 10.0.0.1 port 4096 to 10.0.0.2 port 80; the same with one byte of data; and with a checksum that makes the sealed sum 0.
F1 = bytes.fromhex("020000000002020000000001080045000028000040004006"
                   "26ce0a0000010a0000021000005000000001000000005002200000000000")
F2 = F1[:16] + b"\x00\x29" + F1[18:24] + b"\x26\xcd" + F1[26:] + b"\x41"
F3 = F1[:50] + b"\x37\x7d" + F1[52:]
ARP = bytes.fromhex("ffffffffffff0200000000010806000108000604000102000000000" "10a000001" "0000000000000a000002")

NET_7 = '{"do":"add_net","net":7}'
VM_A = '{"do":"add_vm","vm":"a","net":7,"mac":"02:00:00:00:00:01","ip":"10.0.0.1","host":0}'
RULE_1 = '{"do":"add_rule","net":7,"number":1,"priority":100,"side":"ingress","action":"allow",\n"protocol":"tcp","destination_ports":[80,80]}'
SEND, SEND_1, WAIT, TICK = '{"do":"send"}', '{"do":"send","frames":1}', '{"do":"wait"}', '{"do":"tick"}'
SEND_2, SEND_3 = '{"do":"send","frames":2}', '{"do":"send","frames":3}'
NO_RULE_1 = '{"do":"del_rule","net":7,"number":1}'
NO_UDP = '{"do":"add_rule","net":7,"number":2,"priority":10,"side":"egress","action":"deny","protocol":"udp"}'
SEALED = '{"do":"add_rule","net":7,"number":2,"priority":50,"side":"egress","action":"allow","sealed":true}'
SEALED_TCP = SEALED.replace('"sealed"', '"protocol":"tcp","sealed"')
PEER_ITEMS = [
    '{"do":"add_net","net":8}',
    '{"do":"add_vm","vm":"c","net":8,"mac":"02:00:00:00:00:03","ip":"10.0.1.3","host":0}',
    '{"do":"add_rule","net":8,"number":1,"priority":100,"side":"ingress","action":"allow"}',
    '{"do":"add_route","net":7,"number":1,"prefix":"10.0.0.0/8","target":"drop"}',
    '{"do":"add_route","net":7,"number":2,"prefix":"10.0.1.0/24","target":"peer","peer":8}', WAIT]


def vm_b(host):
    """The second VM, at this host."""
    return f'{{"do":"add_vm","vm":"b","net":7,"mac":"02:00:00:00:00:02","ip":"10.0.0.2","host":{host}}}'


def base(*more, hosts=2, gateways=1, settings=""):
    """Two VMs of network 7 at hosts 0 and 1, of which b takes TCP to port 80, a wait, and these items."""
    script = ",\n".join([NET_7, VM_A, vm_b(hosts > 1 and 1 or 0), RULE_1, WAIT, *more])
    return f'{{"hosts":{hosts},"gateways":{gateways},{settings}"script":[{script}]}}\n'


def move(vm, host):
    """A blackout of the VM to a host."""
    return f'{{"do":"blackout","vm":"{vm}","host":{host}}}'


def resume(vm):
    """The end of its blackout."""
    return f'{{"do":"resume","vm":"{vm}"}}'


def hold(node, what):
    """A hold."""
    return f'{{"do":"hold","node":"{node}","what":"{what}"}}'


def free(node, what):
    """Its end."""
    return f'{{"do":"free","node":"{node}","what":"{what}"}}'


# Two packets that host 0 takes together, since its forwarding was held before.
HELD_2 = [hold("h0", "forward"), SEND_2, free("h0", "forward")]


def frame(source_port=4096, destination="10.0.0.2", port=80, source_mac=1, protocol=6):
    """The first frame with other ports, another destination, another source address or another protocol."""
    address = bytes(int(part) for part in destination.split("."))
    return F1[:6] + (0x020000000000 + source_mac).to_bytes(6, "big") + F1[12:23] + bytes([protocol]) + F1[24:30] + address + struct.pack(">HH", source_port, port) + F1[38:]


def capture(*frames, order="<", magic=0xA1B2C3D4):
    """A capture of these frames, each at 1 second and a fraction of 2."""
    out = struct.pack(order + "IHHIIII", magic, 2, 4, 0, 0, 262144 if order == ">" else 0x40000, 1)
    for data in frames:
        out += struct.pack(order + "IIII", 1, 2, len(data), len(data)) + data
    return out


ROWS = []


def row(name, shows, scenario, data, trace="", report="", words=None, without=(), lengths=None, said=None, more=None, failing=None, left=(),
        by_network=False):
    """A row: its name, what it shows, its two files, lines that it must have, and what is not plain of it: the call that fails, and what stands then;
    and whether a cached outcome is as good as its network is untouched."""
    ROWS.append({"name": name, "shows": shows, "scenario": scenario, "capture": data, "trace": trace, "report": report, "words": words,
                 "without": without, "lengths": lengths or {}, "said": said, "more": more or {}, "failing": failing, "left": left,
                 "by_network": by_network})


BEGINNINGS = []


def beginning(name, shows, scenario, data, lines):
    """A trace that no run of the program writes, since its turns are others: it goes on so behind the wait of the base script."""
    BEGINNINGS.append({"name": name, "shows": shows, "scenario": scenario, "capture": data, "lines": lines})


def begun(it):
    """The files of such a trace."""
    head = model.trace(model.replay(base().encode(), capture())).split("finish")[0]
    return {"scenario.json": it["scenario"].encode(), "capture.pcap": it["capture"], "out.trace": (head + it["lines"]).encode()}


def whole_runs():
    """Runs of one or a few packets."""
    one = capture(F1)
    row("nothing-sent", "Four entries that every node installs, a wait and no packet: every count is 0.", base(), capture(),
        trace="wait 4\nfinish 5", report="frames 0\nsends 0")
    row("delivered-through-the-gateway", "The whole way of one packet: its VM's host, the gateway, the owner's host.", base(SEND), one,
        trace="inject 5 0 queued\ntake h0.w0 out 0\negress h0.w0 0 4 slow allow implied plain hover g0 queued\ntake g0.w wire 0\n"
        "route g0.w 0 4 implied send h1 7 queued\ntake h1.w0 wire 0\ningress h1.w0 0 4 slow vm 1 running rule 1 deliver\nfinish 6",
        report="delivered 1\nsends 2\nhover 1\nslow 2\nvm a sent 1 received 0\nvm b sent 0 received 1")
    row("dropped-by-default", "No ingress rule takes port 81, so the packet is dropped by the implied verdict.", base(SEND), capture(frame(port=81)),
        trace="ingress h1.w0 0 4 slow vm 1 running implied drop", report="drop ingress 7 implied 1")
    row("sixty-four-hosts", "The most hosts, and an empty script.", '{"hosts":64,"gateways":1,"script":[]}', capture())
    row("two-workers", "A host with two workers, as where nothing is said.", base(SEND, settings='"workers":2,'), one, report="delivered 1")
    row("two-vms-on-one-host", "The way leads over the gateway on one host too.", base(SEND, hosts=1), one,
        report="delivered 1\nsends 2\nhover 1\nslow 2")
    row("two-vms-on-one-host-dropped", "The same to a port that no rule takes.", base(SEND, hosts=1), capture(frame(port=81)),
        report="delivered 0\ndropped 1\ndrop ingress 7 implied 1")
    row("address-that-no-vm-has", "The gateway finds no owner of the destination address.", base(SEND, hosts=1), capture(frame(destination="10.0.0.9")),
        report="dropped 1\nsends 1\nslow 1\ndrop noowner 1")
    row("frames-that-are-skipped", "ARP and an unknown source address are skipped, padding stays in the frame, and what no send reached is unsent.",
        base(SEND_3), capture(ARP, frame(source_mac=9), F1 + bytes(6), F1),
        report="frames 4\nskipped 2\nunsent 1\ninjected 1\nskip NotIp4 1\nskip NoSource 1")
    row("frames-skipped-in-a-blackout", "The same, and then a frame of a VM in a blackout.", base(SEND_3, move("a", 1), SEND_1),
        capture(ARP, frame(source_mac=9), F1 + bytes(6), F1), report="delivered 1\nskip NotIp4 1\nskip NoSource 1\nskip PausedSource 1")
    row("three-hundred-packets", "Three hundred flows of one packet each.", base(SEND), capture(*[frame(source_port=5000 + i) for i in range(300)]),
        report="frames 300\ninjected 300\ndelivered 300\nsends 600\nslow 600")
    row("repeated-flow-is-fast", "The second packet of a flow is decided by the flow caches.", base(SEND), capture(F1, F1),
        trace="egress h0.w0 1 4 fast allow implied plain hover g0 queued\ningress h1.w0 1 4 fast vm 1 running rule 1 deliver",
        report="delivered 2\nfast 2\nslow 2")
    row("host-behind-the-log", "A host whose installs are held decides by the prefix that it has installed.",
        base(hold("h1", "install"), NO_RULE_1, SEND_1), one,
        trace="egress h0.w0 0 5 slow allow implied plain hover g0 queued\ningress h1.w0 0 4 slow vm 1 running rule 1 deliver\nfree 8\nfinish 9")
    row("gateways-by-the-flow", "Each flow goes by one gateway, that of its hash, and each gateway routes by what it has installed.",
        base(hold("g1", "install"), '{"do":"add_route","net":7,"number":1,"prefix":"10.0.0.2/32","target":"drop"}', SEND, gateways=3),
        capture(frame(source_port=4098), frame(source_port=4097), frame(source_port=4096), frame(source_port=4097)),
        trace="egress h0.w0 0 5 slow allow implied plain hover g2 queued\nroute g2.w 0 5 route 1 drop\n"
        "egress h0.w0 1 5 slow allow implied plain hover g1 queued\nroute g1.w 1 4 implied send h1 7 queued\n"
        "egress h0.w0 2 5 slow allow implied plain hover g0 queued\nroute g0.w 2 5 route 1 drop\n"
        "egress h0.w0 3 5 fast allow implied plain hover g1 queued\nroute g1.w 3 4 implied send h1 7 queued\nfree 11\nannounce g1 5",
        report="delivered 2\ndropped 2\nhover 4\nsends 6\ndrop route 7 1 2")
    row("cache-that-grew-stale", "A deletion makes the cached verdict stale.", base(SEND_1, NO_RULE_1, SEND_1), capture(F1, F1),
        trace="egress h0.w0 1 5 slow\ningress h1.w0 1 5 slow vm 1 running implied drop")
    row("cache-kept-over-a-tick", "A tick touches no network, so the cached outcomes still answer.", base(SEND_1, TICK, SEND_1), capture(F1, F1),
        trace="egress h0.w0 1 5 fast allow implied plain hover g0 queued\ningress h1.w0 1 5 fast vm 1 running rule 1 deliver",
        report="fast 2\nslow 2", by_network=True)
    row("full-out-queue", "The second packet finds the queue of its VM's host full.",
        base(hold("h0", "forward"), SEND_2, free("h0", "forward"), settings='"out_queue":1,'), capture(F1, F1),
        trace="inject 6 0 queued\ninject 7 1 full", report="delivered 1\nlost queue 1")
    row("one-hop", "The packet has one hop, which it takes to the gateway.", base(SEND, settings='"hop_limit":1,'), one,
        trace="route g0.w 0 4 implied hops", report="lost hops 1\nsends 1")
    row("two-hops", "Two hops are just enough.", base(SEND, settings='"hop_limit":2,'), one, report="delivered 1\nsends 2")
    row("thirty-two-hops", "The largest hop limit.", base(SEND, settings='"hop_limit":32,'), one, report="delivered 1\nsends 2")
    row("queues-of-one", "Every queue takes one packet at a time, which is enough for one.",
        base(SEND, settings='"out_queue":1,"wire_queue":1,"seal_queue":1,'), one, report="delivered 1")
    row("big-endian-nanoseconds", "A capture in the other byte order, with nanoseconds: the same run, and a written capture with nanoseconds.",
        base(SEND), capture(F1, order=">", magic=0xA1B23C4D), report="delivered 1\nsends 2")
    row("peers", "A longer prefix leads into a peered network, a shorter one drops.", base(*PEER_ITEMS, SEND), capture(frame(destination="10.0.1.3"), F1),
        trace="route g0.w 0 9 route 2 send h0 8 queued\ningress h0.w0 0 9 slow vm 2 running rule 1 deliver\nroute g0.w 1 9 route 1 drop",
        report="drop route 7 1 1")
    row("address-taken", "An item whose address is taken is refused, and the script goes on.",
        base('{"do":"add_vm","vm":"c","net":7,"mac":"02:00:00:00:00:03","ip":"10.0.0.2","host":1}'), capture(), report="item 5 AddressTaken")


def offloads():
    """Ticks, reviews and orders."""
    low = '"threshold":108,"life":5,'
    row("offload-at-the-threshold", "Usage that reaches the threshold gets an order, which a tick ends.",
        base(SEND_2, TICK, SEND_1, TICK, TICK, SEND_1, settings='"threshold":108,"life":2,'), capture(F1, F1, F1, F1),
        trace="egress h0.w0 2 6 slow allow implied plain offload h1 7 queued\negress h0.w0 3 8 slow allow implied plain hover g0 queued",
        report="orders 1\nsends 7\noffload 1\nhover 3\ndelivered 4")
    row("order-ended-by-a-rule", "A rule of the source network ends the order.", base(SEND_2, TICK, NO_UDP, SEND_1, settings=low), capture(F1, F1, F1),
        trace="egress h0.w0 2 7 slow allow implied plain hover g0 queued")
    peer = [SEND_2, TICK, SEND_1, NO_UDP.replace('"net":7', '"net":8'), SEND_1]
    row("order-into-a-peer", "An order leads into the peered network, and an entry of that network ends it.", base(*PEER_ITEMS, *peer, settings=low),
        capture(*[frame(destination="10.0.1.3")] * 4),
        trace="egress h0.w0 2 11 slow allow implied plain offload h0 8 queued\negress h0.w0 3 12 slow allow implied plain hover g0 queued",
        report="orders 1")
    row("dropped-route-gets-no-order", "An address whose route drops gets no order.", base(*PEER_ITEMS, SEND_2, TICK, settings=low), capture(F1, F1),
        report="orders 0\ndrop route 7 1 2")


def migrations():
    """Blackouts, hairpins, redirects and removals."""
    low = '"threshold":108,"life":5,'
    row("blackout-and-resume", "A packet is lost in the blackout, and one after it is delivered at the new host.",
        base(move("b", 0), SEND_1, resume("b"), SEND_1), capture(F1, F1),
        trace="ingress h1.w0 0 4 slow vm 1 blackout\nunpin h1 1\ningress h0.w0 1 5 slow vm 1 running rule 1 deliver",
        report="lost blackout 1\ndelivered 1")
    row("hairpin-to-the-new-host", "A host that is behind sends to the old host, which sends on to the new one.",
        base(SEND_2, TICK, hold("h0", "install"), move("b", 2), resume("b"), SEND_1, hosts=3, settings=low), capture(F1, F1, F1),
        trace="egress h0.w0 2 6 slow allow implied plain offload h1 7 queued\ningress h1.w0 2 6 slow vm 1 hairpin h2 queued\n"
        "ingress h2.w0 2 6 slow vm 1 running rule 1 deliver\nfree 13\nannounce h0 7\ninstalled h0 7\nunpin h1 1\nfinish 14")
    row("absent-port-is-redirected", "The port is gone, so a gateway redirects the packet to the owner's place.",
        base(SEND_2, TICK, hold("h1", "forward"), SEND_1, move("b", 0), resume("b"), free("h1", "forward"), settings=low), capture(F1, F1, F1),
        trace="ingress h1.w0 2 6 slow vm 1 absent g0 queued\nredirect g0.w 2 6 send h0 queued\ningress h0.w0 2 7 slow vm 1 running rule 1 deliver")
    row("hairpin-without-a-hop", "The old host would send on, and the packet's one hop is spent.",
        base(SEND_2, TICK, hold("h0", "install"), move("b", 2), resume("b"), SEND_1, hosts=3, settings=low + '"hop_limit":1,'), capture(F1, F1, F1),
        trace="egress h0.w0 2 6 slow allow implied plain offload h1 7 queued\ningress h1.w0 2 6 slow vm 1 hairpin h2 hops", report="lost hops 3")
    gone = [SEND_2, TICK, hold("h1", "forward"), SEND_1, move("b", 0), resume("b"), free("h1", "forward")]
    row("absent-port-without-a-hop", "The port is gone, and the packet's one hop is spent.", base(*gone, settings=low + '"hop_limit":1,'),
        capture(F1, F1, F1), trace="ingress h1.w0 2 6 slow vm 1 absent g0 hops", report="lost hops 3")
    row("redirect-without-a-hop", "The gateway would redirect the packet, and its two hops are spent.", base(*gone, settings=low + '"hop_limit":2,'),
        capture(F1, F1, F1), trace="ingress h1.w0 2 6 slow vm 1 absent g0 queued\nredirect g0.w 2 6 hops", report="lost hops 1\ndelivered 2")
    again = '{"do":"add_vm","vm":"c","net":7,"mac":"02:00:00:00:00:03","ip":"10.0.0.2","host":1}'
    row("address-used-again", "An address is free again once its VM is removed.", base(again, '{"do":"remove_vm","vm":"b"}', again, SEND), capture(F1),
        trace="vm 2 running rule 1 deliver", report="item 5 AddressTaken\nvm c sent 0 received 1")
    beginning("two-packets-at-one-host", "A packet has come to the host of its VM, where another one waits to leave: the worker takes what has come.",
              base(move("b", 0), resume("b"), SEND_1, SEND_1), capture(F1, F1),
              "blackout 5\nresume 6\n" + "".join(f"announce {node} 5\ninstalled {node} 5\n" for node in ("h0", "h1", "g0")) + "unpin h1 1\n"
              "inject 7 0 queued\ntake h0.w0 out 0\negress h0.w0 0 5 slow allow implied plain hover g0 queued\ntake g0.w wire 0\n"
              "route g0.w 0 5 implied send h0 7 queued\ninject 8 1 queued\ntake h0.w0 wire 0\n")


def sealings():
    """Packets that a coprocessor seals."""
    row("sealed-by-the-coprocessor", "The egress rule seals, so the coprocessor sends, with an outer UDP checksum at each send.", base(SEALED, SEND),
        capture(F2), trace="egress h0.w0 0 5 slow allow rule 2 sealed hover g0 queued\ntake h0.c seal 0\nsealed h0.c 0 queued")
    row("sealed-with-a-zero-sum", "A computed checksum of 0 is sent as ffff.", base(SEALED, SEND), capture(F3))
    row("sealed-beside-plain", "What no rule seals goes on from its worker, with no checksum, and what is sealed waits for the coprocessor.",
        base(SEALED_TCP, *HELD_2), capture(F2, frame(protocol=17)),
        trace="egress h0.w0 0 5 slow allow rule 2 sealed hover g0 queued\negress h0.w0 1 5 slow allow implied plain hover g0 queued\n"
        "take h0.c seal 0\nsealed h0.c 0 queued\nroute g0.w 1 5 implied send h1 7 queued\nroute g0.w 0 5 implied send h1 7 queued",
        report="delivered 1\ndropped 1\nsends 4")
    row("sealed-in-order", "Two packets wait for the coprocessor, and the first one goes first; the second is decided by the flow cache.",
        base(SEALED, *HELD_2), capture(F2, F2),
        trace="egress h0.w0 0 5 slow allow rule 2 sealed hover g0 queued\negress h0.w0 1 5 fast allow rule 2 sealed hover g0 queued\n"
        "take h0.c seal 0\nsealed h0.c 0 queued\ntake h0.c seal 1\nsealed h0.c 1 queued", report="delivered 2\nsends 4\nfast 2\nslow 2")
    row("full-seal-queue", "The second packet is to be sealed, and finds the queue of the coprocessor full.",
        base(SEALED, *HELD_2, settings='"seal_queue":1,'), capture(F2, F2),
        trace="egress h0.w0 0 5 slow allow rule 2 sealed hover g0 queued\negress h0.w0 1 5 fast allow rule 2 sealed hover g0 full\n"
        "take h0.c seal 0\nsealed h0.c 0 queued", report="delivered 1\nlost queue 1\nsends 2\nhover 2")
    row("sealed-for-a-full-wire-queue", "The coprocessor sends the second packet too, and finds the gateway's queue full.",
        base(SEALED, *HELD_2, settings='"wire_queue":1,'), capture(F2, F2), trace="sealed h0.c 0 queued\ntake h0.c seal 1\nsealed h0.c 1 full",
        report="delivered 1\nlost queue 1\nsends 2")
    row("sealed-with-one-hop", "Sealing takes no hop; the send takes the only one.", base(SEALED, SEND, settings='"hop_limit":1,'), capture(F2),
        trace="sealed h0.c 0 queued\nroute g0.w 0 5 implied hops", report="lost hops 1\nsends 1")
    low = '"threshold":110,"life":5,'
    row("sealed-by-an-order", "An order leads the third packet straight to its host, by the coprocessor.", base(SEALED, SEND_2, TICK, SEND_1, settings=low),
        capture(F2, F2, F2), trace="egress h0.w0 2 7 slow allow rule 2 sealed offload h1 7 queued\ntake h0.c seal 2\nsealed h0.c 2 queued\ntake h1.w0 wire 2",
        report="offload 1\nsends 5\ndelivered 3")
    row("sealed-over-a-hairpin", "The old host sends the sealed packet on to the new one: each send has its checksum.",
        base(SEALED, SEND_2, TICK, hold("h0", "install"), move("b", 2), resume("b"), SEND_1, hosts=3, settings=low), capture(F2, F2, F2),
        trace="egress h0.w0 2 7 slow allow rule 2 sealed offload h1 7 queued\ntake h0.c seal 2\nsealed h0.c 2 queued\n"
        "ingress h1.w0 2 7 slow vm 1 hairpin h2 queued\ningress h2.w0 2 7 slow vm 1 running rule 1 deliver", report="hairpin 1\nsends 6\ndelivered 3")
    row("sealed-and-redirected", "The port is gone: the sealed packet goes back to a gateway and on, and each send has its checksum.",
        base(SEALED, SEND_2, TICK, hold("h1", "forward"), SEND_1, move("b", 0), resume("b"), free("h1", "forward"), settings=low), capture(F2, F2, F2),
        trace="sealed h0.c 2 queued\ningress h1.w0 2 7 slow vm 1 absent g0 queued\nredirect g0.w 2 7 send h0 queued\n"
        "ingress h0.w0 2 8 slow vm 1 running rule 1 deliver", report="redirect 1\nsends 7\ndelivered 3")
    row("sealed-at-a-held-host", "A host whose forwarding is held takes nothing, so its coprocessor seals once it is freed; a wait does not wait for it.",
        base(SEALED, hold("h0", "forward"), SEND_2, WAIT, free("h0", "forward")), capture(F2, F2),
        trace="hold 6\ninject 7 0 queued\ninject 8 1 queued\nwait 9\nfree 10\ntake h0.w0 out 0\ntake h0.c seal 0\nsealed h0.c 0 queued\n"
        "take h0.c seal 1\nsealed h0.c 1 queued", report="delivered 2")
    beginning("held-with-packets-to-seal", "Forwarding is held while the coprocessor has a packet in hand and another one waits: what it has in hand goes on.",
              base(SEALED, SEND_2, hold("h0", "forward"), free("h0", "forward")), capture(F2, F2),
              "append 5\n" + "".join(f"announce {node} 5\ninstalled {node} 5\n" for node in ("h0", "h1", "g0")) +
              "inject 6 0 queued\ninject 7 1 queued\ntake h0.w0 out 0\negress h0.w0 0 5 slow allow rule 2 sealed hover g0 queued\ntake h0.c seal 0\n"
              "take h0.w0 out 1\negress h0.w0 1 5 fast allow rule 2 sealed hover g0 queued\nhold 8\nsealed h0.c 0 queued\nfree 9\ntake h0.c seal 1\n"
              "sealed h0.c 1 queued\n")


def balanced_and_parked():
    """Balanced addresses, and packets that wait in a blackout."""
    items = ['{"do":"add_vm","vm":"c","net":7,"mac":"02:00:00:00:00:03","ip":"10.0.0.3","host":0}',
             '{"do":"add_route","net":7,"number":1,"prefix":"10.0.0.100/32","target":"balance","backends":["10.0.0.2","10.0.0.3"]}', WAIT, SEND]
    two = capture(frame(destination="10.0.0.100"), frame(4097, "10.0.0.100"))
    row("balanced-by-the-flow", "Two flows to one balanced address reach two backends.", base(*items), two,
        trace="route g0.w 0 6 route 1 send h0 7 queued\ningress h0.w0 0 6 slow vm 2 running rule 1 deliver\n"
        "route g0.w 1 6 route 1 send h1 7 queued\ningress h1.w0 1 6 slow vm 1 running rule 1 deliver")
    row("balanced-address-gets-no-order", "Usage of a balanced address gets no order.", base(*items, TICK, settings='"threshold":54,'), two,
        report="orders 0")
    row("balanced-by-no-backend", "A list of backends is not empty.", base(items[0], items[1].replace('["10.0.0.2","10.0.0.3"]', "[]"), WAIT, SEND), two,
        said="scenario: Range /script/6/backends")
    parked = "ingress h1.w0 0 4 slow vm 1 parked\ningress h1.w0 1 4 fast vm 1 blackout\nresume 8\ntake h0.w0 park 0\n" \
        "ingress h0.w0 0 5 slow vm 1 running rule 1 deliver\nunpin h1 1\nfinish 9"
    row("parked-in-the-blackout", "One packet waits for the end of the blackout, a second finds no place.",
        base(move("b", 0), SEND_2, resume("b"), settings='"park":1,'), capture(F1, F1), trace=parked,
        report="delivered 1\nlost blackout 1\nparked 1")
    row("parked-and-resumed-at-the-end", "A blackout that no item ends is ended by the plan.", base(move("b", 0), SEND_2, settings='"park":1,'),
        capture(F1, F1), trace=parked, report="delivered 1\nlost blackout 1\nparked 1")


def refusals():
    """Scenarios and captures that are refused, and files that are too long."""
    one = capture(F1)
    for name, shows, scenario, said in [
            ("field-that-is-unknown", "A field that no scenario has.", '{"hosts":2,"gateways":1,"colour":1,"script":[]}', "Unknown /colour"),
            ("scenario-that-is-no-json", "Two hundred brackets are too deep for JSON.", "[" * 200 + "]" * 200, "NotJson"),
            ("scenario-that-is-no-object", "A list is no scenario; its path is empty.", "[]", "Field "),
            ("sixty-five-hosts", "One host too many.", '{"hosts":65,"gateways":1,"script":[]}', "Range /hosts"),
            ("priority-too-large", "A priority past its range, in the item's path.", base().replace('"priority":100', '"priority":65536'),
             "Range /script/3/priority"),
            ("seal-of-what-is-denied", "A rule seals what it allows to leave, and nothing else.",
             base(SEALED.replace("allow", "deny")), "Range /script/5/sealed"),
            ("items-past-the-limit", "A script of 65,537 items; the limit comes before the items.",
             '{"hosts":1,"gateways":1,"script":[' + ",".join(["0"] * 65537) + "]}", "Limit /script")]:
        row(name, shows, scenario, one, said=f"scenario: {said}")
    for name, shows, data, said in [
            ("capture-cut-in-a-record", "The record's header is cut.", one[:30], "CutRecord 24"),
            ("capture-cut-in-its-header", "The capture's header is cut.", one[:23], "CutHeader"),
            ("capture-of-another-format", "The magic of pcapng.", b"\x0a\x0d\x0d\x0a" + one[4:], "Magic"),
            ("capture-of-another-version", "A major version 3.", one[:4] + b"\x03" + one[5:], "Major"),
            ("capture-of-raw-packets", "Link type 101.", one[:20] + b"\x65" + one[21:], "LinkType"),
            ("record-too-long", "A captured length of 262,145.", one[:32] + struct.pack("<I", 262145) + one[36:], "LongRecord 24")]:
        row(name, shows, base(SEND), data, said=f"capture: {said}")
    row("frames-past-the-limit", "100,001 records of no byte; the capture is its header, filled with zeros.", base(SEND), capture(),
        lengths={"capture.pcap": 24 + 16 * 100_001}, said="capture: TooMany")
    row("scenario-too-long", "A scenario of one byte more than the limit, filled with zeros.", base(SEND), one,
        lengths={"scenario.json": 16_777_217}, said="too long: scenario.json")
    row("capture-too-long", "A capture of one byte more than the limit, filled with zeros.", base(SEND), one,
        lengths={"capture.pcap": 33_554_433}, said="too long: capture.pcap")
    row("capture-that-is-not-there", "A file that cannot be read.", base(SEND), None, said="read failed: capture.pcap")
    row("scenario-that-is-not-there", "The scenario is read first.", None, one, said="read failed: scenario.json")


def holds():
    """What is held at the end."""
    row("holds-freed-at-the-end", "What is still held at the end is freed before it, installs of a node before its forwarding, hosts before gateways.",
        '{"hosts":1,"gateways":2,"script":[%s]}' % ",".join([hold("g1", "install"), hold("h0", "forward"), NET_7, hold("h0", "install"), WAIT]), capture(),
        trace="hold 3\nwait 4\nfree 5\nfree 6\nfree 7\nannounce g1 1\ninstalled g1 1\nfinish 8")


def faults():
    """Reads, writes and puts that fail: each call of a run in turn. What was written before stands, and nothing else is changed."""
    one, written = capture(F1), ("out.trace", "out.delivered.pcap", "out.underlay.pcap")
    for name, shows, failing, said, left in [
            ("scenario-whose-read-fails", "The file is there, and the run's first call fails.", "files 0", "read failed: scenario.json", 0),
            ("capture-whose-read-fails", "The second call fails.", "files 1", "read failed: capture.pcap", 0),
            ("trace-whose-write-fails", "The third call fails: there is no trace, and no report.", "files 2", "write failed: out.trace", 0),
            ("delivered-capture-whose-write-fails", "The trace stands.", "files 3", "write failed: out.delivered.pcap", 1),
            ("underlay-capture-whose-write-fails", "The trace and the delivered capture stand.", "files 4", "write failed: out.underlay.pcap", 2),
            ("report-whose-put-fails", "All files stand, and there is no report.", "out 0", "write failed: output", 3)]:
        row(name, shows, base(SEND), one, failing=failing, said=said, left=written[:left])
    row("refusal-that-is-not-told", "A failure of standard error changes no status.", '{"hosts":2,"gateways":1,"colour":1,"script":[]}', one,
        failing="err 0", said="scenario: Unknown /colour")


USAGE = ["usage: andromeda replay SCENARIO CAPTURE OUT [--seed N]", "       andromeda threads SCENARIO CAPTURE OUT --threads T",
         "       andromeda drill N"]


def words():
    """Command lines."""
    whole = next(it for it in ROWS if it["name"] == "delivered-through-the-gateway")
    names = ["scenario.json", "capture.pcap", "out"]
    for name, shows, given in [
            ("turns-by-a-seed", "A seed orders the turns; the report is that of the plain order.", ["replay", *names, "--seed", "1"]),
            ("seed-with-leading-zeros", "A number may have leading zeros.", ["replay", *names, "--seed=007"]),
            ("on-four-threads", "Four threads give the report of one.", ["threads", *names, "--threads", "4"])]:
        row(name, shows, whole["scenario"], whole["capture"], report=whole["report"], words=given, without=["out.trace", "out.underlay.pcap"])
    for name, shows, given in [
            ("words-too-few", "A replay without its third name.", ["replay", "x", "y"]),
            ("words-for-help", "There is no option for help.", ["--help"]),
            ("words-with-two-seeds", "An option stands at most once.", ["replay", *names, "--seed", "1", "--seed", "1"]),
            ("words-with-too-many-threads", "There are at most 16 threads.", ["threads", *names, "--threads", "17"]),
            ("words-of-no-drill", "A drill has at least one frame.", ["drill", "0"]),
            ("words-of-a-long-drill", "A drill has at most 50,000 frames.", ["drill", "50001"])]:
        row(name, shows, None, None, words=given, said="\n".join(USAGE))


def a_day():
    """5,000 frames of ordinary flows among 40 VMs of 8 hosts, with two migrations."""
    draw = random.Random(2014)
    vms = [(f"v{i}", 1 + i % 4, i) for i in range(40)]
    script = [f'{{"do":"add_net","net":{net}}}' for net in range(1, 5)]
    script += [f'{{"do":"add_vm","vm":"{vm}","net":{net},"mac":"02:00:00:00:00:{i + 1:02x}","ip":"10.0.{net}.{i + 1}","host":{i % 8}}}'
               for vm, net, i in vms]
    for net in range(1, 5):
        script.append(f'{{"do":"add_rule","net":{net},"number":1,"priority":10,"side":"egress","action":"deny","destination_ports":[25,25]}}')
        script += [f'{{"do":"add_rule","net":{net},"number":{2 + k},"priority":{100 + k},"side":"ingress","action":"allow",'
                   f'"protocol":"{"udp" if port == 53 else "tcp"}","destination_ports":[{port},{port}]}}'
                   for k, port in enumerate([22, 53, 80, 443, 3306, 5432, 6379, 8080, 8443, 9000, 9090, 9200, 11211, 27017])]
    script += [WAIT, '{"do":"send","frames":2000}', move("v5", 2), '{"do":"send","frames":500}', resume("v5"),
               '{"do":"send","frames":1000}', move("v14", 0), '{"do":"send","frames":500}', resume("v14"), SEND]
    flows = []
    for _ in range(400):
        net = draw.randrange(4)
        source, destination = draw.sample(range(net, 40, 4), 2)
        port = draw.choice([22, 53, 80, 80, 443, 443, 443, 5432, 8080, 25])
        flows.append((net, source, destination, 17 if port == 53 else 6, draw.randrange(32768, 61000), port))
    frames, time = [], 0
    for _ in range(5000):
        time += draw.randrange(20, 4000)
        net, source, destination, protocol, source_port, port = draw.choice(flows)
        data = bytes(draw.randrange(0, 60))
        body = struct.pack(">HHHH", source_port, port, 8 + len(data), 0) if protocol == 17 else \
            struct.pack(">HHIIBBHHH", source_port, port, 1, 1, 0x50, 0x10, 502, 0, 0)
        head = struct.pack(">BBHHHBBH", 0x45, 0, 20 + len(body) + len(data), 0, 0x4000, 64, protocol, 0) \
            + bytes([10, 0, net + 1, source + 1, 10, 0, net + 1, destination + 1])
        macs = (0x020000000001 + destination).to_bytes(6, "big") + (0x020000000001 + source).to_bytes(6, "big")
        frames.append((1_400_000_000 + time // 1_000_000, time % 1_000_000, macs + b"\x08\x00" + head + body + data))
    data = struct.pack("<IHHIIII", 0xA1B2C3D4, 2, 4, 0, 0, 262144, 1)
    for seconds, fraction, frame_ in frames:
        data += struct.pack("<IIII", seconds, fraction, len(frame_), len(frame_)) + frame_
    row("a-day-of-traffic", "5,000 frames among 40 VMs of 8 hosts over 2 gateways, with two migrations and 60 rules; only the report is compared.",
        '{"hosts":8,"gateways":2,"script":[' + ",\n".join(script) + "]}\n", data, report="lost queue 0",
        without=["out.trace", "out.delivered.pcap", "out.underlay.pcap"])


def composed(it):
    """The files of a row, by their names."""
    files = {"scenario.json": it["scenario"], "capture.pcap": it["capture"], **it["more"]}
    files = {name: data.encode() if isinstance(data, str) else data for name, data in files.items() if data is not None}
    for kind in ("words", "without"):
        if it[kind]:
            files[kind] = "".join(f"{word}\n" for word in it[kind]).encode()
    if it["failing"]:
        files["failing"] = f"{it['failing']}\n".encode()
    if it["lengths"]:
        files["lengths"] = "".join(f"{name} {length}\n" for name, length in it["lengths"].items()).encode()
    status = 0
    if it["said"] is not None:
        files["error"] = f"{it['said']}\n".encode()
        status = {"usage": 1, "scenario": 2, "capture": 3, "read failed": 4, "write failed": 5, "too long": 7}[it["said"].split(":")[0]]
        if it["left"]:
            files.update({name: data for name, data in run_texts(it).items() if name in it["left"]})
        if it["failing"] and it["failing"].startswith("err"):
            del files["error"]
        if status in (2, 3):
            padded = [files[n].ljust(it["lengths"].get(n, 0), b"\0") for n in ("scenario.json", "capture.pcap")]
            try:
                model.replay(*padded)
            except model.Refused as refused:
                assert refused.args == (it["said"], status), (it["name"], refused.args)
            else:
                raise AssertionError(f"{it['name']} is not refused")
    else:
        files.update(run_texts(it))
    if status:
        files["status"] = f"{status}\n".encode()
    return files


def run_texts(it):
    """What the run of a row gives, with the lines that are known beside the model tested."""
    model.STAMPS_PER_NETWORK = it["by_network"]
    run = model.replay(it["scenario"].encode(), it["capture"])
    texts = {"out.trace": model.trace(run).encode(), "report": model.report(run).encode(),
             "out.delivered.pcap": model.delivered_capture(run), "out.underlay.pcap": model.underlay_capture(run)}
    for name, wanted in (("out.trace", it["trace"]), ("report", it["report"])):
        lines, at = texts[name].decode().split("\n"), 0
        for line in filter(None, wanted.split("\n")):
            found = [i for i in range(at if name == "out.trace" else 0, len(lines)) if line in lines[i]]
            assert found, (it["name"], line)
            at = found[0] + 1
    return {name: data for name, data in texts.items() if name not in it["without"]}


def known_bytes(folders):
    """Values that are known beside the model: lengths, outer headers, sums."""
    whole = folders["delivered-through-the-gateway"]
    assert len(folders["nothing-sent"]["out.trace"].split(b"\n")) == 32
    assert len(whole["out.trace"].split(b"\n")) == 39
    assert len(folders["nothing-sent"]["out.delivered.pcap"]) == len(folders["nothing-sent"]["out.underlay.pcap"]) == 24
    assert whole["capture.pcap"][:40].hex() == "d4c3b2a1020004000000000000000000000004000100000001000000020000003600000036000000"
    heads = ["4500005a0000400010111270ac100001ac110001c1b512b5004600000800000000000700",
             "4500005a000040000f111270ac110001ac100101c1b512b5004600000800000000000700"]
    outer = whole["out.underlay.pcap"]
    assert [outer[40:76].hex(), outer[146:182].hex()] == heads and outer[76:130] == outer[182:236] == F1
    assert whole["out.delivered.pcap"] == whole["capture.pcap"]
    heads = ["4500005b000040001011126fac100001ac110001c1b512b50047f67a0800000000000700",
             "4500005b000040000f11126fac110001ac100101c1b512b50047f57a0800000000000700"]
    outer = folders["sealed-by-the-coprocessor"]["out.underlay.pcap"]
    assert [outer[40:76].hex(), outer[147:183].hex()] == heads
    assert folders["sealed-with-a-zero-sum"]["out.underlay.pcap"][66:68].hex() == "ffff"
    for folder in folders.values():
        if "out.trace" in folder and "out.underlay.pcap" in folder:
            captures.seals_as_told(folder["out.trace"].decode(), folder["out.underlay.pcap"])
    other = folders["big-endian-nanoseconds"]
    assert (other["out.trace"], other["report"]) == (whole["out.trace"], whole["report"])
    assert other["out.delivered.pcap"][:4].hex() == "4d3cb2a1"
    outer = folders["absent-port-is-redirected"]["out.underlay.pcap"]
    assert [outer[24 + 106 * k + 16 + 8] for k in range(4, 7)] == [16, 15, 14]
    outer = folders["one-hop"]["out.underlay.pcap"]
    assert outer[48] == 1
    skipped = folders["frames-skipped-in-a-blackout"]["out.delivered.pcap"]
    assert len(skipped) == 24 + 16 + 60
    assert folders["parked-and-resumed-at-the-end"]["out.trace"] == folders["parked-in-the-blackout"]["out.trace"]


def all_files():
    """Every file of the folder, by its path."""
    for part in (whole_runs, offloads, migrations, sealings, balanced_and_parked, refusals, holds, faults, words, a_day):
        part()
    folders = {it["name"]: composed(it) for it in ROWS}
    known_bytes(folders)
    folders.update({it["name"]: begun(it) for it in BEGINNINGS})
    files = {f"{name}/{file}": data for name, folder in folders.items() for file, data in folder.items()}
    files["rows"] = "".join(f"{it['name']}\n" for it in ROWS).encode()
    files["beginnings"] = "".join(f"{it['name']}\n" for it in BEGINNINGS).encode()
    readme = ["# Rows", "",
              "Each folder is a run: what goes in, and what must come out, byte for byte. `words` are the words of the command, one a line, where they are",
              "not `replay scenario.json capture.pcap out`; `lengths` names files that are filled with zeros to a length; `failing` names the call that fails,",
              "by its number from 0 among the calls of files, the puts into standard output (`out`) or those into standard error (`err`); `report` is what",
              "goes to standard output, `error` what goes to standard error, `status` the status where it is not 0; `without` names outputs that are not",
              "compared. All files are compared, those that went in and those that a run may write: each is there exactly where the row has it. The",
              "program `rows` runs them all; `not-yet` lists those, and the outputs, that the program cannot give so far, with what they wait for.", "",
              "Then the plain program, which computes the definitions of runs, judges each trace that a row has: whether it is legal, complete and in the",
              "plain order, whether each packet has one fate, which has its reason, and whether its decisions are fresh. `beginnings` lists folders whose",
              "trace is no whole run: they are legal, just and fresh. `not-judged` lists traces that cannot be judged yet, with what they wait for.", "",
              "`changes` is a table of spoilt traces. A line has, with tabs between: the folder; the number of a line of its trace; what stands there in",
              "its place (`-`: nothing, `+ TEXT`: this line before it); what the plain program must say; and why. `illegal LINE`: that line is the first",
              "that is not legal. `unjust PACKET LINE`: up to that line, and not before, a fate of the packet is without its reason, while its decisions",
              "are fresh up to the change. `stale PACKET LINE`: by that line, and not before, a decision about the packet is not fresh, while its fates have",
              "their reasons.", ""]
    readme += [f"- `{it['name']}`: {it['shows']}" for it in ROWS + BEGINNINGS]
    files["README.md"] = ("\n".join(readme) + "\n").encode()
    return files


def main():
    files = all_files()
    if sys.argv[1:] == ["--check"]:
        there = {os.path.relpath(os.path.join(at, name), DATA) for at, _, names in os.walk(DATA) for name in names} - BY_HAND
        wrong = sorted(there ^ set(files))
        for name, data in files.items():
            if name in there:
                with open(os.path.join(DATA, name), "rb") as file:
                    wrong += [name] if file.read() != data else []
        for name in wrong:
            print(f"differs: {name}")
        return 1 if wrong else 0
    for it in ROWS + BEGINNINGS:
        shutil.rmtree(os.path.join(DATA, it["name"]), ignore_errors=True)
        os.makedirs(os.path.join(DATA, it["name"]))
    for name, data in files.items():
        with open(os.path.join(DATA, name), "wb") as file:
            file.write(data)
    return 0


if __name__ == "__main__":
    sys.exit(main())
