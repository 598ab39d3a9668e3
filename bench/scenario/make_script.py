#!/usr/bin/env python3
"""Writes a scenario of 65,536 items of twelve of the fourteen kinds for `run.sh`. Usage: make_script.py FILE"""
import json
import sys

ITEMS = 65536
script = [{"do": "add_net", "net": 1 + n} for n in range(64)]
for v in range(1024):
    script.append({"do": "add_vm", "vm": f"machine-{v}", "net": 1 + v % 64, "mac": "02:00:00:00:%02x:%02x" % (v // 256, v % 256),
                   "ip": f"10.0.{v // 256}.{v % 256}", "host": v % 64})
i = 0
while len(script) < ITEMS:
    i += 1
    net = 1 + i % 64
    script.append([
        {"do": "add_rule", "net": net, "number": i, "priority": i % 65536, "side": "ingress", "action": "allow", "protocol": "tcp",
         "source": "10.0.0.0/8", "destination_ports": [i % 1000, 1000 + i % 1000]},
        {"do": "add_route", "net": net, "number": i, "prefix": "10.1.0.0/16", "target": "peer", "peer": 1 + (i + 1) % 64},
        {"do": "del_rule", "net": net, "number": i},
        {"do": "hold", "node": f"h{i % 64}", "what": "install"},
        {"do": "free", "node": f"h{i % 64}", "what": "install"},
        {"do": "tick"},
        {"do": "blackout", "vm": f"machine-{i % 1024}", "host": i % 64},
        {"do": "resume", "vm": f"machine-{i % 1024}"},
        {"do": "send", "frames": 1},
        {"do": "wait"},
    ][i % 10])
with open(sys.argv[1], "w") as out:
    json.dump({"hosts": 64, "gateways": 8, "script": script}, out)
