#!/usr/bin/env python3
"""The pictures of docs/: crates.svg, the crates as crates.txt lists them, each above the ones that it stands on; and packet.svg, the way of packet 2 of
examples/three-hosts, which tools/ladder draws from the trace there.

Use: pictures.py [FOLDER]
It writes both into the folder, docs where none is named. A wrong argument is one line and status 2."""
import os
import subprocess
import sys

TOP = os.path.join(os.path.dirname(os.path.abspath(__file__)), "..")
BOX, HIGH, GAP, ROW, LETTER = 104, 30, 12, 78, 6.4
# What a crate is for, by its name: tests and programs that are only timed stand apart in colour.
KINDS = [("program", "#d9ead3"), ("library", "#dce6f5"), ("tests", "#f3f3f3"), ("bench", "#fdf0d5")]


def kind_of(name):
    if name.startswith("bench_"):
        return "bench"
    if name.endswith("_tests"):
        return "tests"
    return "library" if name.startswith("and_") else "program"


def crates_of(path):
    """By crate: what it stands on, in the order of the file."""
    crates = {}
    with open(path, encoding="ascii") as file:
        for line in file:
            if line.strip() and not line.startswith("#"):
                name, below = line.split(":")
                crates[name] = below.split()
    return crates


def layers_of(crates):
    """By crate: how long the longest chain below it is."""
    layers = {}

    def layer(name):
        if name not in layers:
            layers[name] = 1 + max((layer(it) for it in crates[name] if it in crates), default=-1)
        return layers[name]

    for name in crates:
        layer(name)
    return layers


def edges_of(crates):
    """The pairs (above, below) that no longer way connects: a crate also stands on what those below stand on."""
    reach = {}

    def under(name):
        if name not in reach:
            reach[name] = set()
            for it in crates[name]:
                if it in crates:
                    reach[name] |= {it} | under(it)
        return reach[name]

    return [(a, b) for a in crates for b in crates[a] if b in crates
            and not any(b in under(other) for other in crates[a] if other in crates)]


def ways_of(layers, edges):
    """By edge: what stands on its way, from above to below; in each layer that it passes a gap (above, below, layer) is kept for it."""
    return {(a, b): [a, *((a, b, i) for i in range(layers[a] - 1, layers[b], -1)), b] for a, b in edges}


def rows_of(layers, ways):
    """The crates and gaps of each layer from left to right: each near the middle of those that it is joined to."""
    rows = [sorted(name for name in layers if layers[name] == i) for i in range(max(layers.values()) + 1)]
    joined = {name: [] for name in layers}
    for way in ways.values():
        for gap in way[1:-1]:
            rows[gap[2]].append(gap)
        for one, two in zip(way, way[1:]):
            joined.setdefault(one, []).append(two)
            joined.setdefault(two, []).append(one)
    place = {}
    for row in rows:
        place.update(places_of(row, 1000))
    for sweep in range(24):
        for row in rows if sweep % 2 == 0 else reversed(rows):
            row.sort(key=lambda it: (sum(place[other] for other in joined[it]) / len(joined[it]) if joined[it] else place[it], str(it)))
            place.update(places_of(row, 1000))
    return rows


def wide(it):
    return BOX + GAP if isinstance(it, str) else 2 * GAP


def places_of(row, width):
    """The middle of each of a layer, the layer in the middle of the picture."""
    places, x = {}, (width - sum(map(wide, row))) / 2
    for it in row:
        places[it] = x + wide(it) / 2
        x += wide(it)
    return places


def line(way, at):
    """An edge: from the lower side of one box through the gaps to the upper side of the other."""
    x, y = at[way[0]][0], at[way[0]][1] + HIGH
    words = [f"M{x:.0f},{y}"]
    for it in way[1:]:
        to_x, to_y = at[it]
        bend = (to_y - y) / 2
        words.append(f"C{x:.0f},{y + bend:.0f} {to_x:.0f},{to_y - bend:.0f} {to_x:.0f},{to_y}")
        x, y = to_x, to_y
        if not isinstance(it, str):
            y += HIGH
            words.append(f"V{y}")
    return f'<path d="{" ".join(words)}" fill="none" stroke="#9aa7b8"/>'


def box(name, others, x, y):
    """A crate with, in small letters, the libraries of the toolchain that it uses."""
    colour = dict(KINDS)[kind_of(name)]
    lines = [f'<rect x="{x - BOX / 2:.0f}" y="{y}" width="{BOX}" height="{HIGH}" rx="4" fill="{colour}" stroke="#777"/>',
             f'<text x="{x:.0f}" y="{y + (13 if others else 19)}" text-anchor="middle">{name}</text>']
    if others:
        lines.append(f'<text x="{x:.0f}" y="{y + 25}" text-anchor="middle" font-size="8.5" fill="#555">{", ".join(others)}</text>')
    return lines


def crates_picture(crates):
    layers, edges = layers_of(crates), edges_of(crates)
    ways = ways_of(layers, edges)
    rows = rows_of(layers, ways)
    width = max(sum(map(wide, row)) for row in rows) + 2 * GAP
    height = ROW * len(rows) + 30
    at = {}
    for i, row in enumerate(rows):
        at.update({it: (x, 60 + ROW * (len(rows) - 1 - i)) for it, x in places_of(row, width).items()})
    out = [f'<svg xmlns="http://www.w3.org/2000/svg" width="{width}" height="{height}" viewBox="0 0 {width} {height}" font-family="sans-serif" font-size="11">',
           f'<rect width="{width}" height="{height}" fill="white"/>',
           '<text x="12" y="22" font-size="14">The crates: each stands on those below it that a line leads to, and on what these stand on</text>']
    x = 12
    for kind, colour in KINDS:
        out += [f'<rect x="{x}" y="33" width="12" height="12" fill="{colour}" stroke="#777"/>', f'<text x="{x + 17}" y="43">{kind}</text>']
        x += int(30 + LETTER * len(kind) + 12)
    out += [line(way, at) for way in ways.values()]
    for name in crates:
        out += box(name, [it for it in crates[name] if it not in crates], *at[name])
    return "\n".join([*out, "</svg>", ""])


def packet_picture():
    example = os.path.join(TOP, "examples", "three-hosts")
    files = [os.path.join(example, it) for it in ("trace.txt", "scenario.json", "traffic.pcap")]
    return subprocess.run([os.path.join(TOP, "tools", "ladder"), *files, "--packet", "2"], check=True, capture_output=True, text=True).stdout


def main():
    if len(sys.argv) > 2 or len(sys.argv) == 2 and not os.path.isdir(sys.argv[1]):
        print("pictures.py: usage: pictures.py [FOLDER], a folder that is there", file=sys.stderr)
        return 2
    folder = sys.argv[1] if len(sys.argv) == 2 else os.path.join(TOP, "docs")
    for name, text in [("crates.svg", crates_picture(crates_of(os.path.join(TOP, "crates.txt")))), ("packet.svg", packet_picture())]:
        with open(os.path.join(folder, name), "w", encoding="utf-8") as file:
            file.write(text)
    return 0


sys.exit(main())
