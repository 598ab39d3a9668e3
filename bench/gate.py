#!/usr/bin/env python3
"""What a gate run costs, crate by crate. `gate.py watch LOG` samples the prover's processes twice a second while a run of the gate (`rt ci`) goes on, and
writes to LOG, at its end, a line for each: crate, kind (proof, tests, edit, seed), processor seconds, and of an edit its name. `gate.py table LOG` prints from
such a log each crate's processor minutes for its own proof, its tests and its edits, the sums, the dearest edits, and the longest chain of crates by their
own proofs. For the whole cost the run has to begin from nothing (`rt ci --anew`, or a machine that has kept nothing)."""
import glob
import os
import sys
import time

TICKS = os.sysconf("SC_CLK_TCK")


def text(path):
    try:
        with open(path, "rb") as it:
            return it.read().decode(errors="replace")
    except OSError:
        return ""


TOP = os.path.join(os.path.dirname(os.path.abspath(__file__)), "..")


def edit_in(crate, folder):
    """The name of the crate's edit whose new lines stand in the folder's files and whose old ones do not: none in a seed, or where the files are gone."""
    for edit in sorted(glob.glob(f"{TOP}/crates/{crate}/must-fail/*.edit")):
        pairs, file, stands = text(edit).splitlines(), "", True
        for line in pairs:
            word, _, rest = line.partition(": ")
            if word == "file":
                file = text(os.path.join(folder, rest))
            elif word == "new":
                stands = stands and rest in file
        if stands and pairs and any(line.startswith("old: ") and line[5:] not in file for line in pairs):
            return os.path.basename(edit)[:-5]
    return "seed"


NAMED = {}


def prover(pid):
    """The crate, the kind, the processor seconds and the edit's name of a process of the prover, or None for another process."""
    words = text(f"/proc/{pid}/cmdline").split("\0")
    if os.path.basename(words[0]) != "rattle" or "--crate-name" not in words:
        return None
    crate = words[words.index("--crate-name") + 1]
    try:
        folder = os.readlink(f"/proc/{pid}/cwd")
    except OSError:
        folder = ""
    kind, name = "tests" if "--test" in words else "proof", "-"
    if "rt-edit-" in folder:
        if folder not in NAMED:
            NAMED[folder] = edit_in(crate, folder)
        name = NAMED[folder]
        kind = "seed" if name == "seed" else "edit"
    stat = text(f"/proc/{pid}/stat").rpartition(")")[2].split()
    if len(stat) < 15:
        return None
    # user and system, its own and its ended children's
    return crate, kind, sum(int(it) for it in stat[11:15]) / TICKS, name


def is_running():
    return any("rt\0ci" in text(f"/proc/{it}/cmdline") for it in os.listdir("/proc") if it.isdigit())


def watch(log):
    seen = {}
    while not is_running():
        time.sleep(0.5)
    while is_running():
        for pid in filter(str.isdigit, os.listdir("/proc")):
            said = prover(pid)
            if said:
                begun = text(f"/proc/{pid}/stat").rpartition(")")[2].split()[19:20]
                seen[pid, *begun] = said
        time.sleep(0.5)
    with open(log, "w", encoding="utf-8") as it:
        for crate, kind, seconds, name in seen.values():
            it.write(f"{crate} {kind} {seconds:.2f} {name}\n")


def crates():
    """What each crate stands on, of this repository's crates."""
    given = {}
    for line in text(os.path.join(TOP, "crates.txt")).splitlines():
        name, found, below = line.partition(":")
        if found and not line.startswith("#"):
            given[name.split()[0]] = below.split()
    return {it: [dep for dep in below if dep in given] for it, below in given.items()}


def chain(own, below, crate, known):
    if crate not in known:
        best = max((chain(own, below, it, known) for it in below.get(crate, [])), default=(0, []))
        known[crate] = best[0] + own.get(crate, 0), best[1] + [crate]
    return known[crate]


def table(log):
    spent, edits = {}, []
    for line in text(log).splitlines():
        crate, kind, seconds, name = (line + " -").split()[:4]
        spent.setdefault(crate, {"proof": 0, "tests": 0, "seed": 0, "edit": 0, "edits": 0})
        spent[crate][kind] += float(seconds)
        if kind == "edit":
            spent[crate]["edits"] += 1
            edits.append((float(seconds), f"{crate}/{name}"))
    kinds = ["proof", "tests", "seed", "edit"]
    print("| crate | proof | tests | what its edits begin with | edits | number of edits | sum |")
    print("|---|---|---|---|---|---|---|")
    for crate, of in sorted(spent.items(), key=lambda it: -sum(it[1][kind] for kind in kinds)):
        print(f"| {crate} | {' | '.join(f'{of[kind] / 60:.1f}' for kind in kinds)} | {of['edits']} | {sum(of[kind] for kind in kinds) / 60:.1f} |")
    sums = [sum(of[kind] for of in spent.values()) / 60 for kind in kinds]
    print(f"| all | {' | '.join(f'{it:.1f}' for it in sums)} | {len(edits)} | {sum(sums):.1f} |")
    print(f"\nProcessor minutes. Edits over 40 s: {', '.join(f'{name} {it:.0f}' for it, name in sorted(edits, reverse=True) if it > 40) or 'none'}.")
    own, known = {crate: of["proof"] for crate, of in spent.items()}, {}
    seconds, path = max((chain(own, crates(), it, known) for it in own), default=(0, []))
    print(f"The longest chain: {', '.join(path)}: {seconds / 60:.1f} minutes.")


if __name__ == "__main__":
    if len(sys.argv) != 3 or sys.argv[1] not in ("watch", "table"):
        sys.exit("usage: gate.py watch|table LOG")
    {"watch": watch, "table": table}[sys.argv[1]](sys.argv[2])
