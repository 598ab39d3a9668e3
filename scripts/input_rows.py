#!/usr/bin/env python3
"""Writes the rows of crates/input_rows: texts and files that are read, and what each is answered.

The tables below are written from the formats' tables of items and fields. What a row must answer follows from them by the order of checks: an
unknown name, then the fields in the table's order, and of each field its kind before its form. Rows that no table gives stand by hand, and so do
the plans of scripts; the model of model.py has to plan the same.
"""
import json
import struct
import sys

import formats
import model

NO_NUMBER = ['"1"', "1.0", "1e2", "-1", "null", "true", "[1]", "{}", "18446744073709551616"]
NO_TEXT = ["7", "null", "true", '["a"]', "{}"]
NO_PORTS = ["80", '"80"', "null", "{}", "[]", "[80]", "[1,2,3]", '[1,"x"]', '["x",1]', "[1.0,2]", "[-1,2]", '[70000,"x"]', '["x",70000]', "[2,null]"]
PREFIXES = ['"0.0.0.0/0"', '"10.1.2.3/8"', '"255.255.255.255/32"']
NO_PREFIXES = ['"10.0.0.0/33"', '"10.0.0.0/08"', '"10.0.0.0/"', '"10.0.0.0"', '"10.0.0/8"', '"10.0.0.0/-1"', '"10.0.0.0/8/8"', '"010.0.0.0/8"', '"/8"', '""']
PORTS = ["[0,65535]", "[80,80]", "[0,0]", "[65535,65535]"]
OUT_OF_PORTS = ["[2,1]", "[0,65536]", "[70000,1]", "[70000,70000]"]


def required(name, taken, wrong, outside):
    return (name, False, taken, wrong, outside)


def optional(name, taken, wrong, outside):
    return (name, True, taken, wrong, outside)


NET = required("net", ["1", "16777215"], NO_NUMBER, ["0", "16777216", "18446744073709551615"])
NUMBER = required("number", ["1", "4294967295"], NO_NUMBER, ["0", "4294967296"])
HOST = required("host", ["0", "4294967295"], NO_NUMBER, ["4294967296"])
VM = required("vm", ['"a"', '"A-z_0.9"', '"abcdefghijklmnopqrstuvwxyz012345"'], NO_TEXT,
              ['""', '"a b"', '"a/b"', '"é"', '"abcdefghijklmnopqrstuvwxyz0123456"'])
PREFIX = required("prefix", PREFIXES, NO_TEXT, NO_PREFIXES)
NODE = required("node", ['"h0"', '"g7"', '"h999999999"'], NO_TEXT, ['"h01"', '"h"', '"0"', '"x1"', '"H1"', '"h1000000000"', '"h1 "', '""'])
WHAT = required("what", ['"install"', '"forward"'], NO_TEXT, ['"all"', '"Install"', '""'])
MAC = required("mac", ['"02:00:00:00:00:01"', '"aA:bB:cC:dD:eE:fF"'], NO_TEXT,
               ['"02-00-00-00-00-01"', '"02:00:00:00:00:0g"', '"02:00:00:00:00"', '"02:00:00:00:00:01:02"', '"2:0:0:0:0:1"', '""'])
IP = required("ip", ['"0.0.0.0"', '"255.255.255.255"'], NO_TEXT,
              ['"10.0.0.256"', '"10.0.0.01"', '"10.0.0"', '"10.0.0.1.1"', '"10.0.0."', '" 10.0.0.1"', '"10..0.1"', '""'])
TOP = [
    required("hosts", ["1", "64"], NO_NUMBER, ["0", "65"]),
    required("gateways", ["1", "8"], NO_NUMBER, ["0", "9"]),
    optional("workers", ["1", "4"], NO_NUMBER, ["0", "5"]),
    optional("hop_limit", ["1", "32"], NO_NUMBER, ["0", "33"]),
    optional("out_queue", ["1", "4096"], NO_NUMBER, ["0", "4097"]),
    optional("wire_queue", ["1", "4096"], NO_NUMBER, ["0", "4097"]),
    optional("seal_queue", ["1", "4096"], NO_NUMBER, ["0", "4097"]),
    optional("threshold", ["1", "1000000000"], NO_NUMBER, ["0", "1000000001"]),
    optional("life", ["1", "10000"], NO_NUMBER, ["0", "10001"]),
    required("script", ["[]", '[{"do":"wait"}]'], ["7", '"x"', "null", "true", "{}"], []),
]
RULE = [
    NET, NUMBER,
    required("priority", ["0", "65535"], NO_NUMBER, ["65536"]),
    required("side", ['"egress"', '"ingress"'], NO_TEXT, ['"out"', '"Egress"', '""']),
    required("action", ['"allow"', '"deny"'], NO_TEXT, ['"drop"', '"Allow"', '""']),
    optional("protocol", ['"tcp"', '"udp"', '"icmp"', "0", "255"], ["null", "1.0", "-1", "true", "[6]", "{}", "18446744073709551616"],
             ["256", '"sctp"', '"TCP"', '"6"', '""']),
    optional("source", PREFIXES, NO_TEXT, NO_PREFIXES),
    optional("destination", PREFIXES, NO_TEXT, NO_PREFIXES),
    optional("source_ports", PORTS, NO_PORTS, OUT_OF_PORTS),
    optional("destination_ports", PORTS, NO_PORTS, OUT_OF_PORTS),
    optional("sealed", ["false", "true"], ["1", '"true"', "null", "[]"], []),
]
TARGET = required("target", ['"local"', '"drop"'], NO_TEXT, ['"up"', '"Local"', '""'])
# A route with the target `peer` has one field more. Its target stands in the head, since with another one it would have no peer.
PEER = required("peer", ["1", "16777215"], NO_NUMBER, ["0", "16777216"])
FRAMES = optional("frames", ["1", "100000"], NO_NUMBER, ["0", "100001"])
# The head of an item, and its fields. The scenario itself has no head.
OBJECTS = [
    ("", TOP),
    ('"do":"add_net"', [NET]),
    ('"do":"add_vm"', [VM, NET, MAC, IP, HOST]),
    ('"do":"remove_vm"', [VM]),
    ('"do":"add_rule"', RULE),
    ('"do":"del_rule"', [NET, NUMBER]),
    ('"do":"add_route"', [NET, NUMBER, PREFIX, TARGET]),
    ('"do":"add_route","target":"peer"', [NET, NUMBER, PREFIX, PEER]),
    ('"do":"del_route"', [NET, NUMBER]),
    ('"do":"tick"', []),
    ('"do":"wait"', []),
    ('"do":"send"', [FRAMES]),
    ('"do":"blackout"', [VM, HOST]),
    ('"do":"resume"', [VM]),
    ('"do":"hold"', [NODE, WHAT]),
    ('"do":"free"', [NODE, WHAT]),
]
# All names of the tables, and some of none.
NAMES = """do net peer number priority host frames vm mac ip prefix source destination protocol source_ports destination_ports side action sealed
target node what hosts gateways workers hop_limit out_queue wire_queue seal_queue threshold life script colour Net ne netnet""".split() + ["", "net "]

rows = []


def scenario(text, answer):
    rows.append(("scenario " + text, answer))


def capture(data, answer):
    rows.append(("capture " + data.hex(), answer))


def one_item(item):
    return '{"hosts":2,"gateways":1,"script":[' + item + "]}"


def text_of(head, fields, changes, more=None):
    """The members, the last field of the table first: the order of the text decides nothing."""
    members = [head] if head else []
    for name, _, taken, _, _ in reversed(fields):
        value = changes.get(name, taken[0])
        if value:
            members.append('"%s":%s' % (name, value))
    if more is not None:
        members.append('"%s":1' % more)
    text = "{" + ",".join(members) + "}"
    return text if head == "" else one_item(text)


def at(head, cause, name):
    return cause + (" /" if head == "" else " /script/0/") + name


def faults_of(field):
    """A fault of each kind, and its cause."""
    name, may_miss, _, wrong, outside = field
    some = [] if may_miss else [("", "Field")]
    return some + [(wrong[0], "Field")] + ([(outside[0], "Range")] if outside else [])


def each_field(head, fields):
    for name, may_miss, taken, wrong, outside in fields:
        for value in taken:
            scenario(text_of(head, fields, {name: value}), "accepted")
        for value in wrong:
            scenario(text_of(head, fields, {name: value}), at(head, "Field", name))
        for value in outside:
            scenario(text_of(head, fields, {name: value}), at(head, "Range", name))
        scenario(text_of(head, fields, {name: ""}), "accepted" if may_miss else at(head, "Field", name))


def names_come_first(head, fields):
    known = {field[0] for field in fields} | {word.split('"')[1] for word in head.split(",") if word}
    for name in NAMES:
        if name not in known:
            scenario(text_of(head, fields, {}, name), at(head, "Unknown", name))
    for field in fields:
        for value, _ in faults_of(field):
            scenario(text_of(head, fields, {field[0]: value}, "zebra"), at(head, "Unknown", "zebra"))


def fields_by_the_table(head, fields):
    for place, first in enumerate(fields):
        for second in fields[place + 1:]:
            for (value, cause), (other, _) in zip(faults_of(first), reversed(faults_of(second))):
                scenario(text_of(head, fields, {first[0]: value, second[0]: other}), at(head, cause, first[0]))


def by_hand():
    good = '"gateways":1,"script":[]'
    for text, answer in [
        ("[" * 200 + "]" * 200, "NotJson"), ("[" * 127 + "]" * 127, "Field "), ("[" * 128 + "]" * 128, "NotJson"),
        ("[]", "Field "), ("7", "Field "), ("{}", "Field /hosts"), ("", "NotJson"), (" ", "NotJson"),
        ('{"hosts":65,' + good + "}", "Range /hosts"), ('{"hosts":64,' + good + "}", "accepted"),
        ('{"hosts":2,"gateways":1,"colour":1,"script":[]}', "Unknown /colour"),
        ('{"hosts":65,"gateways":1,"b":1,"a":1,"script":[]}', "Unknown /a"),
        ('{"hosts":0,"gateways":9,"script":[]}', "Range /hosts"),
        ('{"hosts":65,"hosts":2,' + good + "}", "accepted"), ('{"hosts":2,"hosts":65,' + good + "}", "Range /hosts"),
        ('{"hosts":2,"\\u0068osts":65,' + good + "}", "Range /hosts"), ('{"hosts":2,"gateways":1,"script":7,"script":[]}', "accepted"),
        ('{"\\u0068\\u006f\\u0073\\u0074\\u0073":2,' + good + "}", "accepted"),
        ('{"hosts":2,"gateways":1,"b":1,"\\u0061":1,"script":[]}', "Unknown /a"),
        ('{"hosts":2,"gateways":1,"":1,"script":[]}', "Unknown /"), ('{"hosts":2,"gateways":1,"a":1,"":1,"script":[]}', "Unknown /"),
        # In the path stand the name's own bytes, no escapes.
        ('{"hosts":2,"gateways":1,"a/b~\\"c":1,"script":[]}', 'Unknown /a/b~"c'), ('{"hosts":2,"gateways":1,"\\u00e9":1,"script":[]}', "Unknown /é"),
        # Names are compared by their bytes in UTF-8: capital letters first, and U+FF61 before U+1F600, whose first unit in UTF-16 is smaller.
        ('{"hosts":2,"gateways":1,"a":1,"Z":1,"script":[]}', "Unknown /Z"), ('{"hosts":2,"gateways":1,"\\u00e9":1,"z":1,"script":[]}', "Unknown /z"),
        ('{"hosts":2,"gateways":1,"\\ud83d\\ude00":1,"\\uff61":1,"script":[]}', "Unknown /\uff61"),
        ('{"hosts":2,"gateways":1,"Life":1,"life":0,"script":[]}', "Unknown /Life"),
        ('{"hosts":1', "NotJson"), ('{"hosts":2,' + good + "} x", "NotJson"), ('{"hosts":2,' + good + "},", "NotJson"), ('{"hosts":2,' + good + ",}", "NotJson"),
        ('{"hosts":2,"gateways":1,"script":[7,]}', "NotJson"), ("{hosts:2}", "NotJson"), ('{"hosts":02,' + good + "}", "NotJson"),
        ('{"hosts":+2,' + good + "}", "NotJson"), ('{"hosts":1e400,' + good + "}", "NotJson"), ('{"colour":-1e400}', "NotJson"),
        ('{"hosts":' + "1" * 400 + "," + good + "}", "NotJson"), ('{"hosts":2,"\\ud83d":1}', "NotJson"), ('{"hosts":2,"\\x41":1}', "NotJson"),
        ('\ufeff{"hosts":2,' + good + "}", "NotJson"),
    ]:
        scenario(text, answer)
    for item, answer in [
        ("7", "Field /script/0"), ("[" * 125 + "]" * 125, "Field /script/0"), ("[" * 126 + "]" * 126, "NotJson"), ("{}", "Field /script/0/do"),
        ('{"do":7,"x":1}', "Field /script/0/do"), ('{"do":"fly","x":1}', "Unknown /script/0/do"), ('{"do":"w\\u0061it"}', "accepted"),
        # A rule may seal what it allows to leave, and nothing else.
        ('{"do":"add_rule","net":7,"number":1,"priority":0,"side":"egress","action":"deny","sealed":true}', "Range /script/0/sealed"),
        ('{"do":"add_rule","net":7,"number":1,"priority":0,"side":"ingress","action":"allow","sealed":true}', "Range /script/0/sealed"),
        ('{"do":"add_rule","net":7,"number":1,"priority":0,"side":"egress","action":"allow","sealed":true}', "accepted"),
        ('{"do":"add_rule","net":7,"number":1,"priority":0,"side":"ingress","action":"deny","sealed":true}', "Range /script/0/sealed"),
        ('{"do":"add_rule","net":7,"number":1,"priority":0,"side":"egress","action":"deny","sealed":false}', "accepted"),
        ('{"do":"add_rule","net":7,"number":1,"priority":0,"side":"ingress","action":"allow","sealed":false}', "accepted"),
        ('{"do":"add_rule","net":7,"number":1,"priority":0,"side":"ingress","action":"allow","sealed":1}', "Field /script/0/sealed"),
        ('{"do":"add_rule","net":7,"number":1,"priority":0,"side":"ingress","action":"allow","destination_ports":[2,1],"sealed":true}',
         "Range /script/0/destination_ports"),
        # An unknown peer comes before the faults of the target.
        ('{"do":"add_route","net":7,"number":1,"prefix":"10.0.0.0/8","target":"local","peer":8}', "Unknown /script/0/peer"),
        ('{"do":"add_route","net":7,"number":1,"prefix":"10.0.0.0/8","target":7,"peer":8}', "Unknown /script/0/peer"),
        ('{"do":"add_route","net":7,"number":1,"prefix":"10.0.0.0/8","peer":8}', "Unknown /script/0/peer"),
        ('{"do":"wait"},{"do":"tick","net":1}', "Unknown /script/1/net"), ('{"do":"wait"},7', "Field /script/1"),
    ]:
        scenario(one_item(item), answer)
    scenario(one_item(",".join(['{"do":"wait"}'] * 3 + ['{"do":"add_rule","net":7,"number":1,"priority":65536,"side":"egress","action":"allow"}'])),
             "Range /script/3/priority")
    # The length of the script comes before its items.
    scenario(one_item(",".join(["7"] * 65537)), "Limit /script")
    scenario(one_item(",".join(["7"] * 65536)), "Field /script/0")


def file_of(order, magic, records, major=2, link=1):
    data = struct.pack(order + "IHHiIII", magic, major, 4, -1 if len(records) > 1 else 0, 7, 99, link)
    for seconds, fraction, original, frame in records:
        data += struct.pack(order + "IIII", seconds, fraction, len(frame), original) + frame
    return data


def told_of(nanos, records):
    return "accepted " + ("nanos" if nanos else "micros") + "".join(" %d %d %d %s" % (s, f, o, b.hex()) for s, f, o, b in records)


def written(link, data, nanos, records):
    """The capture of a file, as it is written: low byte first, without a time zone."""
    rows.append((f"written {link} {data.hex()}", formats.write_capture(link, nanos, records).hex()))


def captures():
    two = [(1700000000, 123456, 60, b"\x02\x00\xfe"), (1700000001, 999999, 5, b"hello")]
    for order in "<>":
        for magic, nanos in ((0xA1B2C3D4, False), (0xA1B23C4D, True)):
            data = file_of(order, magic, two)
            capture(data, told_of(nanos, two))
            capture(file_of(order, magic, []), told_of(nanos, []))
            written(1, data, nanos, two)
            written(101, data, nanos, two)
            written(1, file_of(order, magic, []), nanos, [])
            capture(file_of(order, magic, two, 3), "Major")
            capture(file_of(order, magic, two, 512), "Major")
            capture(file_of(order, magic, two, 3, 101), "Major")
            capture(file_of(order, magic, two, 2, 101), "LinkType")
            capture(file_of(order, magic, two, 2, 1 << 24), "LinkType")
            long = file_of(order, magic, two)[:32] + struct.pack(order + "I", 262145) + data[36:]
            capture(long, "LongRecord 24")
            capture(data[:32] + struct.pack(order + "I", 262144) + data[36:], "CutRecord 24")
            capture(data + data[24:32] + struct.pack(order + "I", 262145), "CutRecord %d" % len(data))
            # The first record ends at byte 43, the second, with its five bytes, at byte 64.
            for length in range(len(data)):
                cut = data[:length]
                if length < 24:
                    capture(cut, "CutHeader")
                elif length == 24:
                    capture(cut, told_of(nanos, []))
                elif length < 43:
                    capture(cut, "CutRecord 24")
                elif length == 43:
                    capture(cut, told_of(nanos, two[:1]))
                else:
                    capture(cut, "CutRecord 43")
    for start in ("0a0d0d0a", "00000000", "d4c3b2a2", "a1b2c34d"):
        capture(bytes.fromhex(start) + bytes(20), "Magic")


# ---- plans

# A frame of the VM a, one of b, one that is no IPv4, one of nobody, and one of nobody that is no IPv4 either.
FRAME_A = bytes.fromhex("0200000000020200000000010800450000280000400040060000" "0a0000010a000002" "1000005000000001000000005002200000000000")
FRAME_B = FRAME_A[:11] + b"\x02" + FRAME_A[12:]
ARP_OF_A = FRAME_A[:12] + b"\x08\x06" + FRAME_A[14:]
NOBODY = FRAME_A[:11] + b"\x09" + FRAME_A[12:]
ARP_OF_NOBODY = ARP_OF_A[:11] + b"\x09" + ARP_OF_A[12:]


def item(do, **fields):
    return json.dumps({"do": do, **fields}, separators=(",", ":"))


def vm(name, number, host, net=7):
    return item("add_vm", vm=name, net=net, mac="02:00:00:00:%02x:%02x" % divmod(number, 256), ip="10.0.%d.%d" % divmod(number, 256), host=host)


def rule(number, net=7):
    return item("add_rule", net=net, number=number, priority=1, side="ingress", action="allow")


def route(number, net=7, **target):
    return item("add_route", net=net, number=number, prefix="10.0.0.0/8", **target)


TWO_VMS = [item("add_net", net=7), vm("a", 1, 0), vm("b", 2, 1), rule(1), route(1, target="drop")]
TWO_VMS_LOG = "add_net:7 add_vm:0:0 add_vm:1:1 add_rule:7:1 add_route:7:1".split()


def words_of_entry(entry):
    numbers = {"add_vm": ("vm", "host"), "remove_vm": ("vm",), "place": ("vm", "host"), "tick": ()}.get(entry["do"], ("net", "number"))
    sealed = ["sealed"] if entry.get("sealed") else []
    return ":".join([entry["do"], *(str(entry[n]) for n in numbers if n in entry), *sealed])


def words_of_step(step):
    if step["do"] == "append":
        return "append:" + words_of_entry(step["entry"])
    if step["do"] in ("hold", "free"):
        return "%s:%s%d:%s" % (step["do"], *step["node"], step["what"])
    return ":".join([step["do"], *(str(step[n]) for n in ("packet", "vm", "host") if n in step)])


def planned_by_model(text, data):
    made = model.Plan(formats.read_scenario(text.encode()), formats.read_capture(data))
    parts = [("steps", map(words_of_step, made.steps)), ("log", map(words_of_entry, made.log)), ("packets", (str(p["vm"]) for p in made.packets)),
             ("refused", ("%d:%s" % it for it in made.refused)), ("skipped", ("%d:%s" % it for it in made.skipped)),
             ("unsent", [str(len(made.frames) - made.next)])]
    return "; ".join(" ".join([name, *words]) for name, words in parts)


def plan(items, steps, log, frames=(), packets="", refused=(), skipped="", unsent=0):
    """A row of the plan of these items, in a system of two hosts and a gateway."""
    text = '{"hosts":2,"gateways":1,"script":[' + ",".join(items) + "]}"
    data = file_of("<", 0xA1B2C3D4, [(1, 2, len(frame), frame) for frame in frames])
    parts = ["steps", *steps, "finish;", "log", *log, ";", "packets", *packets.split(), ";", "refused", *refused, ";", "skipped", *skipped.split(), ";", "unsent", str(unsent)]
    answer = " ".join(parts).replace(" ;", ";")
    assert planned_by_model(text, data) == answer, (planned_by_model(text, data), answer)
    rows.append((f"plan {data.hex()} {text}", answer))


def appended(log):
    return ["append:" + words for words in log]


def plans():
    # Items of each kind that fit. A tick is reviewed, and the end of a blackout places the VM.
    log = "add_net:7 add_net:8 add_vm:0:0 add_vm:1:1 add_rule:7:1 del_rule:7:1 add_route:7:1 add_route:7:2 del_route:7:1 tick".split()
    plan([item("add_net", net=7), item("add_net", net=8), vm("a", 1, 0), vm("b", 2, 1), rule(1), item("del_rule", net=7, number=1), route(1, target="drop"),
          route(2, target="peer", peer=8), item("del_route", net=7, number=1), item("tick"), item("wait"), item("hold", node="h1", what="install"),
          item("free", node="h1", what="install"), item("blackout", vm="a", host=1), item("resume", vm="a"), item("remove_vm", vm="b"), item("send")],
         appended(log) + "review wait hold:h1:install free:h1:install blackout:0:1 resume:0 append:remove_vm:1 inject:0".split(),
         log + ["place:0:1", "remove_vm:1"], [FRAME_A], packets="0")
    # A rule that seals is planned with its mark, one with the mark false without.
    sealed = item("add_rule", net=7, number=2, priority=1, side="egress", action="allow", sealed=True)
    log = TWO_VMS_LOG + ["add_rule:7:2:sealed", "add_rule:7:3"]
    plan(TWO_VMS + [sealed, item("add_rule", net=7, number=3, priority=1, side="egress", action="allow", sealed=False), sealed, item("send")],
         appended(log) + ["inject:0"], log, [FRAME_A], packets="0", refused=["7:RuleTaken"])
    # Each item alone is refused, by the first check that fails, and changes nothing.
    faults = [
        ("NetTaken", item("add_net", net=7)), ("NoNet", vm("a", 1, 9, net=9)), ("VmTaken", vm("a", 1, 9)), ("NoHost", vm("c", 1, 2)),
        ("MacTaken", vm("c", 1, 0)), ("AddressTaken", vm("c", 3, 0).replace("10.0.0.3", "10.0.0.1")), ("NoVm", item("remove_vm", vm="c")),
        ("NoNet", rule(1, net=9)), ("RuleTaken", rule(1)), ("NoNet", item("del_rule", net=9, number=1)), ("NoRule", item("del_rule", net=7, number=2)),
        ("NoNet", route(1, net=9, target="local")), ("NoNet", route(1, target="peer", peer=9)), ("RouteTaken", route(1, target="local")),
        ("NoNet", item("del_route", net=9, number=1)), ("NoRoute", item("del_route", net=7, number=2)), ("NoVm", item("blackout", vm="c", host=9)),
        ("NoHost", item("blackout", vm="a", host=2)), ("SameHost", item("blackout", vm="a", host=0)), ("NoVm", item("resume", vm="c")),
        ("NotPaused", item("resume", vm="a")), ("NoNode", item("hold", node="h2", what="install")), ("NoNode", item("free", node="g1", what="forward")),
        ("NoHold", item("free", node="g0", what="forward"))]
    plan(TWO_VMS + [it for _, it in faults] + [item("wait")], appended(TWO_VMS_LOG) + ["wait"], TWO_VMS_LOG,
         refused=["%d:%s" % (len(TWO_VMS) + i, fault) for i, (fault, _) in enumerate(faults)])
    # What is held and who is in a blackout stands after a refusal, and what is held at the end is freed, hosts before gateways, installs before forwarding.
    plan(TWO_VMS + [item("hold", node="g0", what="forward"), item("hold", node="h1", what="install"), item("hold", node="h1", what="install"),
                    item("hold", node="h0", what="forward"), item("blackout", vm="b", host=0), item("hold", node="h0", what="install"), vm("c", 3, 1),
                    item("blackout", vm="a", host=1), item("blackout", vm="b", host=9), item("blackout", vm="b", host=1), item("remove_vm", vm="b"),
                    item("resume", vm="b"), item("resume", vm="b"), item("blackout", vm="b", host=1)],
         appended(TWO_VMS_LOG) + "hold:g0:forward hold:h1:install hold:h0:forward blackout:1:0 hold:h0:install resume:1".split()
         + "free:h0:install free:h0:forward free:h1:install free:g0:forward".split(),
         TWO_VMS_LOG + ["place:1:0"],
         refused="7:HoldTaken 11:Held 12:Held 13:NoHost 14:Paused 15:Paused 17:NotPaused 18:Held".split())
    # A send reaches so many frames, of which some are skipped, each for the first reason that holds.
    plan(TWO_VMS + [item("send", frames=2), item("blackout", vm="b", host=0), item("send", frames=4), item("send", frames=1)],
         appended(TWO_VMS_LOG) + "inject:0 blackout:1:0 inject:1 inject:2".split(), TWO_VMS_LOG,
         [FRAME_B, ARP_OF_A, FRAME_B, NOBODY, ARP_OF_NOBODY, FRAME_A, FRAME_A, FRAME_A], packets="1 0 0",
         skipped="1:NotIp4 2:PausedSource 3:NoSource 4:NotIp4", unsent=1)
    plan(TWO_VMS + [item("send"), item("send", frames=1)], appended(TWO_VMS_LOG) + ["inject:0", "inject:1"], TWO_VMS_LOG, [FRAME_A, FRAME_B], packets="0 1")
    # The most networks, VMs, rules and routes, and one more of each.
    nets = ["add_net:%d" % n for n in range(1, 65)]
    plan([item("add_net", net=n) for n in range(1, 66)], appended(nets), nets, refused=["64:TooMany"])
    vms = ["add_net:7"] + ["add_vm:%d:1" % n for n in range(1024)]
    plan([item("add_net", net=7)] + [vm("v%d" % n, n, 1) for n in range(1025)], appended(vms), vms, refused=["1025:TooMany"])
    numbered = ["add_net:7"] + ["add_rule:7:%d" % n for n in range(1, 257)] + ["add_route:7:%d" % n for n in range(1, 257)]
    plan([item("add_net", net=7)] + [rule(n) for n in range(1, 257)] + [route(n, target="local") for n in range(1, 257)] + [rule(257), route(257, target="local")],
         appended(numbered), numbered, refused=["513:TooMany", "514:TooMany"])


def main():
    for head, fields in OBJECTS:
        each_field(head, fields)
        names_come_first(head, fields)
        fields_by_the_table(head, fields)
    by_hand()
    captures()
    plans()
    where = sys.argv[1] if len(sys.argv) > 1 else "crates/input_rows"
    with open(where + "/stdin", "w", encoding="utf-8") as lines:
        lines.writelines(row + "\n" for row, _ in rows)
    with open(where + "/stdout", "w", encoding="utf-8") as lines:
        lines.writelines(answer + "\n" for _, answer in rows)
    print(json.dumps({"rows": len(rows)}))


main()
