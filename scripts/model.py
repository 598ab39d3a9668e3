#!/usr/bin/env python3
"""A model of the whole replay in plain Python, written from the rules and formats alone and sharing nothing with the
program: it searches lists anew wherever the program keeps an index. The expected texts of the rows are composed with it.

Use: model.py SCENARIO CAPTURE OUT
It writes OUT.trace, OUT.delivered.pcap and OUT.underlay.pcap, and the report to standard output. A refused file is a line
on standard error and status 2 or 3, as the program's.
"""

import struct
import sys

from formats import Refused, flow_hash, read_capture, read_frame, read_scenario, write_capture

MOST_NETS, MOST_VMS, MOST_RULES = 64, 1024, 256
# Whether a cached outcome answers as long as its network is not touched. So far it answers at the number of operations at which it was put, alone.
STAMPS_PER_NETWORK = False


# ---- the policy under a list of entries


def entry_net(entries, entry):
    """The network of an entry, or None."""
    if "net" in entry:
        return entry["net"]
    if "vm" in entry:
        return next(e["net"] for e in entries if e["do"] == "add_vm" and e["vm"] == entry["vm"])
    return None


def live_vms(entries):
    """The AddVm entries of the VMs that are live, by number."""
    live = {}
    for e in entries:
        if e["do"] == "add_vm":
            live[e["vm"]] = e
        elif e["do"] == "remove_vm":
            del live[e["vm"]]
    return live


def live_numbered(entries, net, kind):
    """The live rules or routes of a network, by number."""
    live = {}
    for e in entries:
        if e.get("net") == net and e["do"] == f"add_{kind}":
            live[e["number"]] = e
        elif e.get("net") == net and e["do"] == f"del_{kind}":
            del live[e["number"]]
    return live


def now(entries):
    """How many ticks there were."""
    return sum(e["do"] == "tick" for e in entries)


def holds(prefix, address):
    """Whether the prefix holds the address."""
    return address >> (32 - prefix[1]) == prefix[0] >> (32 - prefix[1])


def matches(rule, x):
    """Whether a rule matches a tuple."""
    return (rule["protocol"] in (None, x[0]) and holds(rule["source"], x[1]) and holds(rule["destination"], x[2])
            and rule["source_ports"][0] <= x[3] <= rule["source_ports"][1]
            and rule["destination_ports"][0] <= x[4] <= rule["destination_ports"][1])


def first_rule(entries, net, side, x):
    """The matching rule of a side with the least priority and number, or None."""
    found = [r for r in live_numbered(entries, net, "rule").values() if r["side"] == side and matches(r, x)]
    return min(found, key=lambda r: (r["priority"], r["number"]), default=None)


def with_address(entries, net, address):
    """The live VM of a network with this address, or None."""
    return next((v for v, e in live_vms(entries).items() if (e["net"], e["ip"]) == (net, address)), None)


def deciding(entries, net, address):
    """The route of a network that decides for an address: the longest prefix, then the least number; or None."""
    found = [r for r in live_numbered(entries, net, "route").values() if holds(r["prefix"], address)]
    return min(found, key=lambda r: (-r["prefix"][1], r["number"]), default=None)


def is_balanced(entries, net, address):
    """Whether the address is balanced in the network, or in the peer to which its route leads."""
    route = deciding(entries, net, address)
    if route is not None and route["target"] == "peer":
        route = deciding(entries, route["peer"], address)
    return route is not None and route["target"] == "balance"


def owner(entries, net, x):
    """The live VM of a network to which the tuple goes, by its destination or by the backend that its hash names; or None."""
    route = deciding(entries, net, x[2])
    aim = x[2]
    if route is not None and route["target"] == "balance":
        aim = route["backends"][flow_hash(x) % len(route["backends"])]
    return with_address(entries, net, aim)


def place(entries, vm):
    """The host of a VM's last AddVm or Place."""
    return [e["host"] for e in entries if e["do"] in ("add_vm", "place") and e["vm"] == vm][-1]


def routed(entries, net, x):
    """(name, what): what is 'drop', 'noowner', or a network and a host."""
    route = deciding(entries, net, x[2])
    name = "implied" if route is None else f"route {route['number']}"
    if route is not None and route["target"] == "drop":
        return name, "drop"
    to = route["peer"] if route is not None and route["target"] == "peer" else net
    vm = owner(entries, to, x)
    return name, "noowner" if vm is None else (to, place(entries, vm))


def fault_of(hosts, entries, e):
    """The first check of an entry that fails after these entries, or None."""
    nets = [x["net"] for x in entries if x["do"] == "add_net"]
    live = live_vms(entries)
    kind = e["do"]
    if kind == "add_net":
        return "NetTaken" if e["net"] in nets else "TooMany" if len(nets) == MOST_NETS else None
    if kind in ("remove_vm", "place") and e["vm"] not in live:
        return "NoVm"
    if kind == "place" and e["host"] >= hosts:
        return "NoHost"
    if kind in ("remove_vm", "place", "tick"):
        return None
    if e["net"] not in nets or e.get("peer", e["net"]) not in nets:
        return "NoNet"
    if kind == "add_vm":
        added = [x["vm"] for x in entries if x["do"] == "add_vm"]
        checks = [("VmTaken", e["vm"] in added), ("NoHost", e["host"] >= hosts),
                  ("MacTaken", any(x["mac"] == e["mac"] for x in live.values())),
                  ("AddressTaken", with_address(entries, e["net"], e["ip"]) is not None), ("TooMany", len(added) == MOST_VMS)]
        return next((name for name, failed in checks if failed), None)
    what, noun = kind[4:], kind[4:].capitalize()
    there = live_numbered(entries, e["net"], what)
    if kind.startswith("del"):
        return None if e["number"] in there else f"No{noun}"
    return f"{noun}Taken" if e["number"] in there else "TooMany" if len(there) == MOST_RULES else None


# ---- the plan


class Plan:
    """The items of a script applied in order to a plain state, before anything runs."""

    def __init__(self, scenario, capture):
        self.settings = scenario
        self.nanos, self.frames = capture
        self.steps, self.log, self.packets, self.refused, self.skipped = [], [], [], [], []
        self.names, self.paused, self.held, self.next = [], {}, set(), 0
        for i, item in enumerate(scenario["script"]):
            item = dict(item)
            if "vm" in item:
                if item["vm"] not in self.names:
                    self.names.append(item["vm"])
                item["vm"] = self.names.index(item["vm"])
            fault = self.apply(item)
            if fault:
                self.refused.append((i, fault))
        for vm in sorted(self.paused) if scenario["park"] else []:
            self.apply({"do": "resume", "vm": vm})
        for node, what in sorted(self.held, key=lambda it: (it[0][0] == "g", it[0][1], it[1] == "forward")):
            self.steps.append({"do": "free", "node": node, "what": what})
        self.steps.append({"do": "finish"})

    def append(self, entry):
        """An entry of the log."""
        self.log.append(entry)

    def has_node(self, node):
        """Whether there is such a node."""
        return node[1] < self.settings["hosts" if node[0] == "h" else "gateways"]

    def apply(self, item):
        """Applies one item, or answers its fault and changes nothing."""
        hosts, kind = self.settings["hosts"], item["do"]
        if kind == "wait":
            self.steps.append(item)
        elif kind == "send":
            self.send(item["frames"])
        elif kind in ("hold", "free"):
            thing = (item["node"], item["what"])
            if not self.has_node(item["node"]):
                return "NoNode"
            if (thing in self.held) == (kind == "hold"):
                return "HoldTaken" if kind == "hold" else "NoHold"
            self.held ^= {thing}
            self.steps.append(item)
        elif kind in ("blackout", "resume"):
            return self.move(item)
        else:
            fault = fault_of(hosts, self.log, item)
            if fault:
                return fault
            if kind == "add_vm" and (("h", item["host"]), "install") in self.held:
                return "Held"
            if kind == "remove_vm" and item["vm"] in self.paused:
                return "Paused"
            self.append(item)
            self.steps.append({"do": "append", "entry": item})
            if kind == "tick":
                self.steps.append({"do": "review"})
        return None

    def move(self, item):
        """A blackout or a resume."""
        vm = item["vm"]
        if vm not in live_vms(self.log):
            return "NoVm"
        if item["do"] == "resume":
            if vm not in self.paused:
                return "NotPaused"
            self.append({"do": "place", "vm": vm, "host": self.paused.pop(vm)})
        else:
            host = item["host"]
            checks = [("NoHost", host >= self.settings["hosts"]), ("Paused", vm in self.paused),
                      ("SameHost", host == place(self.log, vm)), ("Held", (("h", host), "install") in self.held)]
            fault = next((name for name, failed in checks if failed), None)
            if fault:
                return fault
            self.paused[vm] = host
        self.steps.append(item)
        return None

    def send(self, count):
        """The next frames: each is a packet, or is skipped."""
        end = len(self.frames) if count is None else min(len(self.frames), self.next + count)
        live = live_vms(self.log)
        for i in range(self.next, end):
            read = read_frame(self.frames[i][3])
            vm = None if isinstance(read, str) else next((v for v, e in live.items() if e["mac"] == read[0]), None)
            reason = read if isinstance(read, str) else "NoSource" if vm is None else "PausedSource" if vm in self.paused else None
            if reason:
                self.skipped.append((i, reason))
                continue
            self.steps.append({"do": "inject", "packet": len(self.packets)})
            self.packets.append({"vm": vm, "x": read[1], "taken": self.frames[i], "length": len(self.frames[i][3])})
        self.next = end


# ---- the run in the plain order


class Run:
    """A run: the events so far, and what they left."""

    def __init__(self, plan):
        self.plan, self.s = plan, plan.settings
        hosts, gates = [("h", h) for h in range(self.s["hosts"])], [("g", g) for g in range(self.s["gateways"])]
        self.nodes = hosts + gates
        self.actors = ([("install", n) for n in self.nodes]
                       + [("worker", h, i) for h in hosts for i in range(self.s["workers"])]
                       + [("coproc", h) for h in hosts] + [("gate", g) for g in gates] + [("controller",), ("driver",)])
        self.log, self.step = [], 0
        self.programme = {n: [] for n in self.nodes}
        self.announced = dict.fromkeys(self.nodes, 0)
        self.installed = dict.fromkeys(self.nodes, 0)
        self.held = set()
        self.ports, self.usage, self.orders = {}, {}, 0
        self.parks, self.parked = {}, 0
        self.queues = {(n, q): [] for n in self.nodes for q in (("out", "wire", "seal") if n[0] == "h" else ("wire",))}
        self.hand = {}
        self.hops = [self.s["hop_limit"]] * len(plan.packets)
        self.sealed = [False] * len(plan.packets)
        self.way_on = [None] * len(plan.packets)
        self.caches = {}
        self.kept = {}
        self.lines, self.sends, self.delivered, self.fates = [], [], [], []
        self.counts = dict.fromkeys(("offload", "hover", "hairpin", "redirect", "fast", "slow"), 0)

    def whole(self):
        """Runs to the end, the enabled actor with the smallest number first."""
        while not self.lines or not self.lines[-1].startswith("finish"):
            if not any(self.act(actor) for actor in self.actors):
                raise AssertionError("no actor is enabled")
        return self

    def act(self, actor):
        """One event of this actor, where one is legal."""
        if actor[0] == "install":
            return self.install(actor[1])
        if actor[0] == "controller":
            return self.unpin()
        if actor[0] == "driver":
            return self.drive()
        if actor in self.hand:
            packet, queue = self.hand.pop(actor)
            onward = self.ingress if actor[0] == "worker" else self.gateway
            {"out": self.egress, "seal": self.seal, "wire": onward, "park": onward}[queue](actor, packet)
            return True
        return self.take(actor)

    # -- installers, controller, driver

    def entries(self, node, count):
        """The entries of the log among the first operations of a node."""
        if (node, count) not in self.kept:
            self.kept[node, count] = [op for op in self.programme[node][:count] if op["do"] != "order"]
        return self.kept[node, count]

    def install(self, node):
        """An announcement, or its end."""
        if self.announced[node] > self.installed[node]:
            self.installed[node] = self.announced[node]
            self.lines.append(f"installed {name(node)} {self.installed[node]}")
            return True
        if (node, "install") in self.held or len(self.programme[node]) == self.announced[node]:
            return False
        self.announced[node] = len(self.programme[node])
        self.lines.append(f"announce {name(node)} {self.announced[node]}")
        return True

    def has_entry(self, node, entry):
        """Whether the node has installed the log's entry with this number, from 1."""
        return len(self.entries(node, self.installed[node])) >= entry

    def unpin(self):
        """The end of the smallest hairpin whose entry every node has installed."""
        for (host, vm), port in sorted(self.ports.items()):
            if port[0] == "hairpin" and all(self.has_entry(n, port[2]) for n in self.nodes):
                del self.ports[host, vm]
                self.lines.append(f"unpin h{host} {vm}")
                return True
        return False

    def add_entry(self, entry):
        """An entry goes into the log and into every programme."""
        self.log.append(entry)
        for node in self.nodes:
            self.programme[node].append(entry)

    def added(self, vm):
        """The number of the entry that added the VM, from 1."""
        return next(i for i, e in enumerate(self.log, 1) if e["do"] == "add_vm" and e["vm"] == vm)

    def calm(self):
        """The condition of a wait."""
        return (all(self.installed[n] == len(self.programme[n]) for n in self.nodes if (n, "install") not in self.held)
                and not self.hand and not any(q for (n, _), q in self.queues.items() if (n, "forward") not in self.held)
                and not any(self.open_park(n) for n in self.nodes if (n, "forward") not in self.held))

    def open_park(self, node):
        """The park at a host of the smallest VM without a paused port, of those that are not empty; or None."""
        at = [vm for vm, (host, queue) in sorted(self.parks.items())
              if ("h", host) == node and queue and not any(v == vm and port == ("paused",) for (_, v), port in self.ports.items())]
        return self.parks[at[0]][1] if at else None

    def drive(self):
        """The next step, where its condition holds."""
        step, kind = self.plan.steps[self.step], self.plan.steps[self.step]["do"]
        tail = ""
        if kind == "append":
            entry = step["entry"]
            self.add_entry(entry)
            if entry["do"] == "add_vm":
                self.ports[entry["host"], entry["vm"]] = ("running",)
            elif entry["do"] == "remove_vm":
                self.ports = {at: port for at, port in self.ports.items() if at[1] != entry["vm"]}
        elif kind == "review":
            self.review()
        elif kind == "hold":
            node = step["node"]
            if step["what"] == "install" and not self.announced[node] == self.installed[node] == len(self.programme[node]):
                return False
            self.held.add((node, step["what"]))
        elif kind == "free":
            self.held.remove((step["node"], step["what"]))
        elif kind == "wait":
            if not self.calm():
                return False
        elif kind == "inject":
            packet = step["packet"]
            host = ("h", place(self.log, self.plan.packets[packet]["vm"]))
            if not self.has_entry(host, self.added(self.plan.packets[packet]["vm"])):
                return False
            queue = self.queues[host, "out"]
            full = len(queue) == self.s["out_queue"]
            if full:
                self.fates.append((packet, "queue"))
            else:
                queue.append(packet)
            tail = f" {packet} {'full' if full else 'queued'}"
        elif kind == "blackout":
            if not self.has_entry(("h", step["host"]), self.added(step["vm"])):
                return False
            self.ports[place(self.log, step["vm"]), step["vm"]] = ("paused",)
            self.ports[step["host"], step["vm"]] = ("arriving",)
            self.parks[step["vm"]] = (step["host"], self.parks.get(step["vm"], (0, []))[1])
        elif kind == "resume":
            vm = step["vm"]
            old = place(self.log, vm)
            new = next(h for (h, v), port in self.ports.items() if v == vm and port == ("arriving",))
            self.add_entry({"do": "place", "vm": vm, "host": new})
            self.ports[new, vm] = ("running",)
            self.ports[old, vm] = ("hairpin", new, len(self.log))
        elif kind == "finish" and (self.hand or any(self.queues.values()) or any(queue for _, queue in self.parks.values()) or any(p[0] == "hairpin" for p in self.ports.values())
                                   or any(self.installed[n] != len(self.programme[n]) for n in self.nodes)):
            return False
        self.lines.append(f"{kind} {self.step}{tail}")
        self.step += 1
        return True

    def review(self):
        """Orders for the keys over the threshold, in the order of keys; usage begins anew."""
        for (host, net, ip), used in sorted(self.usage.items()):
            to = routed(self.log, net, (0, 0, ip, 0, 0))[1]
            if used >= self.s["threshold"] and not is_balanced(self.log, net, ip) and to not in ("drop", "noowner"):
                self.programme["h", host].append({"do": "order", "net": net, "ip": ip, "to_net": to[0], "to_host": to[1],
                                                  "until": now(self.log) + self.s["life"]})
                self.orders += 1
        self.usage = {}

    # -- packets

    def take(self, actor):
        """The front of a queue, where the actor's node forwards."""
        node = actor[1]
        if (node, "forward") in self.held:
            return False
        park = self.open_park(node) if actor[0] == "worker" else None
        for queue in {"worker": ("park", "wire", "out"), "coproc": ("seal",), "gate": ("wire",)}[actor[0]]:
            waiting = park if queue == "park" else self.queues[node, queue]
            if waiting:
                packet = waiting.pop(0)
                self.hand[actor] = (packet, queue)
                self.lines.append(f"take {who(actor)} {queue} {packet}")
                return True
        return False

    def enter(self, node, queue, packet):
        """Puts the packet into a queue, or loses it there."""
        if len(self.queues[node, queue]) == self.s[f"{queue}_queue"]:
            self.fates.append((packet, "queue"))
            return "full"
        self.queues[node, queue].append(packet)
        return "queued"

    def send_on(self, node, packet):
        """A send of the packet from a node to where it goes on: the hops first, then the queue."""
        target, redirect, vni = self.way_on[packet]
        if self.hops[packet] == 0:
            self.fates.append((packet, "hops"))
            return "hops"
        end = self.enter(target, "wire", packet)
        if end == "queued":
            self.sends.append((packet, underlay(node, False), underlay(target, redirect), self.hops[packet], vni, self.sealed[packet]))
            self.hops[packet] -= 1
        return end

    def is_live(self, node, count, at):
        """Whether the order at a place, from 0, is live among so many operations."""
        ops, order = self.programme[node][:count], self.programme[node][at]
        entries = self.entries(node, count)
        for later in ops[at + 1:]:
            if later["do"] == "order":
                if (later["net"], later["ip"]) == (order["net"], order["ip"]):
                    return False
            elif entry_net(entries, later) in (order["net"], order["to_net"]):
                return False
        return order["until"] > now(entries)

    def live_order(self, node, count, net, ip):
        """The live order of a network for an address, or None."""
        found = [op for at, op in enumerate(self.programme[node][:count])
                 if op["do"] == "order" and (op["net"], op["ip"]) == (net, ip) and self.is_live(node, count, at)]
        return found[0] if found else None

    def touched(self, node, count, net):
        """The place, from 1, of the last operation that touched the network, or 0."""
        orders = [at for at, op in enumerate(self.programme[node][:count]) if op["do"] == "order" and op["net"] == net]
        for place_ in range(count, 0, -1):
            op = self.programme[node][place_ - 1]
            if op["do"] == "order" and op["net"] == net:
                return place_
            if op["do"] != "order" and entry_net(self.entries(node, count), op) == net:
                return place_
            if any(at < place_ - 1 and self.is_live(node, place_ - 1, at) and not self.is_live(node, place_, at) for at in orders):
                return place_
        return 0

    def way(self, actor, key, net, count):
        """Whether the actor's flow cache answers; where it does not, the outcome is put."""
        kept = ("touched", actor[1], count, net)
        if kept not in self.kept:
            self.kept[kept] = self.touched(actor[1], count, net) if STAMPS_PER_NETWORK else count
        group = self.caches.setdefault((actor, flow_hash(key[2]) % 64), [])
        if any(k == key and stamp >= self.kept[kept] for k, stamp in group):
            self.counts["fast"] += 1
            return "fast"
        group[:] = [it for it in group if it[0] != key] + [(key, count)]
        if len(group) == 17:
            group.pop(0)
        self.counts["slow"] += 1
        return "slow"

    def egress(self, actor, packet):
        """The decision where a packet leaves its VM's host."""
        node, p = actor[1], self.plan.packets[packet]
        at, x, vm = self.installed[node], p["x"], p["vm"]
        entries = self.entries(node, at)
        added = live_vms(entries).get(vm)
        head = f"egress {who(actor)} {packet} {at}"
        if added is None:
            self.counts["slow"] += 1
            self.fates.append((packet, "novm"))
            self.lines.append(f"{head} slow novm")
            return
        net = added["net"]
        head += f" {self.way(actor, ('egress', vm, x), net, at)}"
        rule = first_rule(entries, net, "egress", x)
        if x[1] != added["ip"]:
            self.fates.append((packet, "spoofed"))
            self.lines.append(f"{head} spoofed")
            return
        if rule is not None and rule["action"] == "deny":
            self.fates.append((packet, "egress", net, rule["number"]))
            self.lines.append(f"{head} denied {rule['number']}")
            return
        used = (node[1], net, x[2])
        self.usage[used] = self.usage.get(used, 0) + p["length"]
        order = self.live_order(node, at, net, x[2])
        if order is not None:
            self.way_on[packet] = (("h", order["to_host"]), False, order["to_net"])
            dest = f"offload h{order['to_host']} {order['to_net']}"
            self.counts["offload"] += 1
        else:
            gate = ("g", flow_hash(x) % self.s["gateways"])
            self.way_on[packet] = (gate, False, net)
            dest = f"hover {name(gate)}"
            self.counts["hover"] += 1
        self.sealed[packet] = rule is not None and rule["sealed"]
        end = self.enter(node, "seal", packet) if self.sealed[packet] else self.send_on(node, packet)
        named = "implied" if rule is None else f"rule {rule['number']}"
        self.lines.append(f"{head} allow {named} {'sealed' if self.sealed[packet] else 'plain'} {dest} {end}")

    def seal(self, actor, packet):
        """A coprocessor sends what its host decided to seal."""
        self.lines.append(f"sealed {who(actor)} {packet} {self.send_on(actor[1], packet)}")

    def gateway(self, actor, packet):
        """A gateway routes, or redirects what came to its redirect address."""
        node = actor[1]
        _, redirect, vni = self.way_on[packet]
        at, x = self.installed[node], self.plan.packets[packet]["x"]
        entries = self.entries(node, at)
        if redirect:
            vm = owner(entries, vni, x)
            named, to = "", "noowner" if vm is None else (vni, place(entries, vm))
        else:
            named, to = routed(entries, vni, x)
            named += " "
        head = f"{'redirect' if redirect else 'route'} {who(actor)} {packet} {at} {named}"
        if to == "noowner":
            self.fates.append((packet, "noowner"))
        elif to == "drop":
            self.fates.append((packet, "route", vni, int(named.split()[1])))
        else:
            self.way_on[packet] = (("h", to[1]), False, to[0])
            end = self.send_on(node, packet)
            number = "" if redirect else f" {to[0]}"
            to = "hops" if end == "hops" else f"send h{to[1]}{number} {end}"
        self.lines.append(head + to)

    def ingress(self, actor, packet):
        """The decision where a packet comes to a host."""
        node, x = actor[1], self.plan.packets[packet]["x"]
        _, _, vni = self.way_on[packet]
        at = self.installed[node]
        entries = self.entries(node, at)
        head = f"ingress {who(actor)} {packet} {at} {self.way(actor, ('ingress', vni, x), vni, at)}"
        vm = owner(entries, vni, x)
        if vm is None:
            self.fates.append((packet, "noowner"))
            self.lines.append(f"{head} noowner")
            return
        port = self.ports.get((node[1], vm), ("absent",))
        if port[0] == "running":
            rule = first_rule(entries, vni, "ingress", x)
            named, passed = "implied" if rule is None else f"rule {rule['number']}", rule is not None and rule["action"] == "allow"
            self.fates.append((packet, "delivered", vm) if passed else (packet, "ingress", vni, 0 if rule is None else rule["number"]))
            if passed:
                self.delivered.append(packet)
            tail = f"running {named} {'deliver' if passed else 'drop'}"
        elif port[0] in ("paused", "arriving") and len(self.parks[vm][1]) < self.s["park"]:
            self.parks[vm][1].append(packet)
            self.parked += 1
            tail = "parked"
        elif port[0] in ("paused", "arriving"):
            self.fates.append((packet, "blackout"))
            tail = "blackout"
        elif port[0] == "hairpin":
            self.counts["hairpin"] += 1
            self.way_on[packet] = (("h", port[1]), False, vni)
            tail = f"hairpin h{port[1]} {self.send_on(node, packet)}"
        else:
            self.counts["redirect"] += 1
            gate = ("g", flow_hash(x) % self.s["gateways"])
            self.way_on[packet] = (gate, True, vni)
            tail = f"absent {name(gate)} {self.send_on(node, packet)}"
        self.lines.append(f"{head} vm {vm} {tail}")


def name(node):
    """A node's word."""
    return f"{node[0]}{node[1]}"


def who(actor):
    """The word of an actor that takes packets."""
    return name(actor[1]) + {"worker": ".w", "coproc": ".c", "gate": ".w"}[actor[0]] + (str(actor[2]) if actor[0] == "worker" else "")


def underlay(node, redirect):
    """A node's address in the underlay."""
    return (172 << 24) + ((16 if node[0] == "h" else 17) << 16) + 256 * node[1] + (2 if redirect else 1)


# ---- texts


def ones_sum(data):
    """The one's complement sum of 16-bit words."""
    data += b"\0" * (len(data) % 2)
    total = sum(struct.unpack(f">{len(data) // 2}H", data))
    while total > 0xFFFF:
        total = (total & 0xFFFF) + (total >> 16)
    return total


def outer_packet(frame, x, source, destination, ttl, vni, sealed):
    """The outer IPv4, UDP and VXLAN headers, and the frame."""
    head = struct.pack(">BBHHHBBHII", 0x45, 0, 36 + len(frame), 0, 0x4000, ttl, 17, 0, source, destination)
    head = head[:10] + struct.pack(">H", 0xFFFF - ones_sum(head)) + head[12:]
    ports = struct.pack(">HH", 49152 + flow_hash(x) % 16384, 4789)
    rest = bytes([8, 0, 0, 0]) + vni.to_bytes(3, "big") + b"\0" + frame
    size, check = struct.pack(">H", 16 + len(frame)), 0
    if sealed:
        check = 0xFFFF - ones_sum(struct.pack(">IIBB", source, destination, 0, 17) + size + ports + size + b"\0\0" + rest)
        check = check or 0xFFFF
    return head + ports + size + struct.pack(">H", check) + rest


def trace(run):
    """The trace of a run."""
    return "".join(line + "\n" for line in ["andromeda trace 1"] + run.lines)


def report(run):
    """The report of a run."""
    plan, kinds = run.plan, [fate[1] for fate in run.fates]
    losses = [kinds.count("blackout"), kinds.count("queue"), kinds.count("hops")]
    dropped = len(kinds) - kinds.count("delivered") - sum(losses)
    rows = [("frames", len(plan.frames)), ("skipped", len(plan.skipped)), ("unsent", len(plan.frames) - plan.next),
            ("injected", len(plan.packets)), ("delivered", kinds.count("delivered")), ("dropped", dropped),
            ("lost blackout", losses[0]), ("lost queue", losses[1]), ("lost hops", losses[2]), ("sends", len(run.sends)),
            *run.counts.items(), ("orders", run.orders), ("refused", len(plan.refused))]
    lines = ["andromeda report 1"] + [f"{what} {count}" for what, count in rows]
    if run.parked:
        lines.append(f"parked {run.parked}")
    reasons = [reason for _, reason in plan.skipped]
    for reason in ("TooLong", "Short", "NotIp4", "Cut", "BadIp4", "ShortPorts", "NoSource", "PausedSource"):
        if reason in reasons:
            lines.append(f"skip {reason} {reasons.count(reason)}")
    for reason in ("spoofed", "novm", "noowner"):
        if reason in kinds:
            lines.append(f"drop {reason} {kinds.count(reason)}")
    for kind in ("egress", "ingress", "route"):
        keys = [fate[2:] for fate in run.fates if fate[1] == kind]
        for net, number in sorted(set(keys)):
            named = str(number) if kind == "route" else f"rule {number}" if number else "implied"
            lines.append(f"drop {kind} {net} {named} {keys.count((net, number))}")
    lines += [f"item {i} {fault}" for i, fault in plan.refused]
    sources, owners = [p["vm"] for p in plan.packets], [fate[2] for fate in run.fates if fate[1] == "delivered"]
    for vm, vm_name in enumerate(plan.names):
        if any(e["do"] == "add_vm" and e["vm"] == vm for e in plan.log):
            lines.append(f"vm {vm_name} sent {sources.count(vm)} received {owners.count(vm)}")
    return "".join(line + "\n" for line in lines)


def delivered_capture(run):
    """Each delivered frame, in the order of delivery."""
    return write_capture(1, run.plan.nanos, [run.plan.packets[packet]["taken"] for packet in run.delivered])


def underlay_capture(run):
    """Each outer packet, in the order of sends."""
    frames = []
    for packet, source, destination, ttl, vni, sealed in run.sends:
        seconds, fraction, _, frame = run.plan.packets[packet]["taken"]
        outer = outer_packet(frame, run.plan.packets[packet]["x"], source, destination, ttl, vni, sealed)
        frames.append((seconds, fraction, len(outer), outer))
    return write_capture(101, run.plan.nanos, frames)


def replay(scenario, capture):
    """The run of a scenario's bytes over a capture's bytes."""
    return Run(Plan(read_scenario(scenario), read_capture(capture))).whole()


def main():
    scenario, capture, out = sys.argv[1:]
    try:
        with open(scenario, "rb") as one, open(capture, "rb") as two:
            run = replay(one.read(), two.read())
    except Refused as refused:
        line, status = refused.args
        print(line, file=sys.stderr)
        return status
    for tail, data in [(".trace", trace(run).encode()), (".delivered.pcap", delivered_capture(run)), (".underlay.pcap", underlay_capture(run))]:
        with open(out + tail, "wb") as file:
            file.write(data)
    sys.stdout.write(report(run))
    return 0


if __name__ == "__main__":
    sys.exit(main())
