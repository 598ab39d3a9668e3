"""What the tools share: reading a trace, the scenario and the capture that it is of, and words for what became of a packet."""
import argparse
import os
import signal
import sys

sys.path.insert(0, os.path.join(os.path.dirname(os.path.abspath(__file__)), "..", "scripts"))

import formats  # noqa: E402
import model  # noqa: E402

TITLE = "andromeda trace 1"
PROTOCOLS = {1: "icmp", 6: "tcp", 17: "udp"}
# The word of an event at which the packet's number stands.
PACKET_AT = {"inject": 2, "take": 3, "egress": 2, "sealed": 2, "route": 2, "redirect": 2, "ingress": 2}


class Failure(Exception):
    """What went wrong, in one line."""


class Parser(argparse.ArgumentParser):
    """Arguments; a wrong one is answered by one line and status 2."""

    def error(self, message):
        self.exit(2, f"{self.prog}: {message}\n")


def run(main):
    """Runs a tool's main function: a failure is one line and status 2."""
    # A reader that closes early, as `head` does, ends the tool quietly.
    signal.signal(signal.SIGPIPE, signal.SIG_DFL)
    try:
        sys.exit(main())
    except Failure as failure:
        sys.exit(say(failure))
    except (AttributeError, IndexError, KeyError, ValueError):
        sys.exit(say("a line of the trace is none of a trace, or the files are not of one replay"))
    except KeyboardInterrupt:
        sys.exit(130)


def say(failure):
    print(f"{os.path.basename(sys.argv[0])}: {failure}", file=sys.stderr)
    return 2


def read_bytes(path):
    try:
        with open(path, "rb") as file:
            return file.read()
    except OSError as error:
        raise Failure(f"{path}: {error.strerror}") from None


def lines_of(path):
    """The lines of a trace after its title, in order."""
    try:
        with open(path, encoding="ascii") as file:
            if file.readline().rstrip("\n") != TITLE:
                raise Failure(f"{path} is no trace: its first line is not '{TITLE}'")
            last = ""
            for last in file:
                yield last
            if last and not last.endswith("\n"):
                raise Failure(f"{path} is cut: its last line has no end")
    except OSError as error:
        raise Failure(f"{path}: {error.strerror}") from None
    except UnicodeDecodeError:
        raise Failure(f"{path} is no trace") from None


def trace_of(path):
    """The events of a trace, each as its words, in order."""
    return map(str.split, lines_of(path))


def ends_of(path):
    """The events of a trace that may end a packet: the others, most of a long trace, are not taken apart."""
    of_packets = ("egress", "ingress", "route", "redirect", "inject", "sealed")
    return (line.split() for line in lines_of(path) if not line.endswith(" queued\n") and line.startswith(of_packets))


def plan_of(scenario, capture):
    """The plan of a scenario's and a capture's file."""
    scenario_bytes, capture_bytes = read_bytes(scenario), read_bytes(capture)
    try:
        return model.Plan(formats.read_scenario(scenario_bytes), formats.read_capture(capture_bytes))
    except formats.Refused as refused:
        raise Failure(str(refused.args[0])) from None


def packet_of(words):
    """The packet that an event is of, or None."""
    at = PACKET_AT.get(words[0])
    return int(words[at]) if at is not None and len(words) > at else None


def address(ip):
    return ".".join(str(ip >> shift & 255) for shift in (24, 16, 8, 0))


def tuple_words(x):
    """A five-tuple as people write it: protocol, source, destination; ports where there are any."""
    protocol, source, destination, source_port, destination_port = x
    name = PROTOCOLS.get(protocol, str(protocol))
    if source_port or destination_port:
        return f"{name} {address(source)}:{source_port} > {address(destination)}:{destination_port}"
    return f"{name} {address(source)} > {address(destination)}"


def five(packet):
    x = packet["x"]
    if isinstance(x, dict):
        return tuple(x[key] for key in ("protocol", "source", "destination", "source_port", "destination_port"))
    return tuple(x)


def fate_of(words):
    """What an event says of a packet for good: (fate, reason), or None where the packet goes on."""
    kind, rest = words[0], words[4:]
    if kind == "inject":
        return ("lost", "full out queue") if words[3] == "full" else None
    if words[-1] == "full":
        # A packet that leaves sealed enters its host's seal queue first; every other send enters a wire queue.
        return "lost", "full seal queue" if kind == "egress" and "sealed" in words else "full wire queue"
    if words[-1] == "hops":
        return "lost", "hop limit"
    if kind == "egress":
        rest = words[5:]
        if rest[0] == "denied":
            return "dropped", f"egress rule {rest[1]}"
        return ("dropped", rest[0]) if rest[0] in ("novm", "spoofed") else None
    if kind == "route":
        if rest[-1] == "drop":
            return "dropped", " ".join(rest[:-1])
        return ("dropped", "noowner") if rest[-1] == "noowner" else None
    if kind == "redirect":
        return ("dropped", "noowner") if rest[0] == "noowner" else None
    if kind == "ingress":
        rest = words[5:]
        if rest[0] == "noowner":
            return "dropped", "noowner"
        if rest[2] == "blackout":
            return "lost", "blackout"
        if rest[2] == "running":
            name = " ".join(rest[3:-1])
            return ("delivered", f"ingress {name}") if rest[-1] == "deliver" else ("dropped", f"ingress {name}")
    return None


def fates_of(events):
    """By packet: its fate, the reason, and where; of events that may end a packet."""
    fates = {}
    for words in events:
        fate = fate_of(words)
        if fate:
            fates[packet_of(words)] = (*fate, words[1].split(".")[0] if words[0] != "inject" else "")
    return fates


def rule_words(rule):
    """A rule as people write it."""
    said = [rule["side"], rule["action"]]
    if rule.get("protocol") is not None:
        said.append(PROTOCOLS.get(rule["protocol"], str(rule["protocol"])))
    for name, key in (("from", "source"), ("to", "destination")):
        prefix = rule.get(key)
        if prefix and prefix[1]:
            said.append(f"{name} {address(prefix[0])}/{prefix[1]}")
    for name, key in (("source port", "source_ports"), ("port", "destination_ports")):
        ports = rule.get(key)
        if ports and tuple(ports) != (0, 65535):
            said.append(f"{name} {ports[0]}" if ports[0] == ports[1] else f"{name}s {ports[0]} to {ports[1]}")
    if rule.get("sealed"):
        said.append("sealed")
    return f"{' '.join(said)}, priority {rule['priority']}"


def rule_of(plan, net, number, kind="add_rule"):
    """The last entry of the plan that adds this rule or route to the network, or None."""
    return next((it for it in reversed(plan.log) if it["do"] == kind and it["net"] == net and it["number"] == number), None)


def vm_entry(plan, vm):
    """The entry that adds the VM."""
    return next((it for it in plan.log if it["do"] == "add_vm" and it["vm"] == vm), None)
