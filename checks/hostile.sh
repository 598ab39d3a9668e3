#!/usr/bin/env bash
# Hostile text costs what it weighs: texts of a million bytes, of 65,537 items and of names that stand twice end with their line in under a second
# and 200 MB of memory each, and so does a capture of 100,001 records. The files stand at each limit, too, and one past it.
set -u
cd "$(dirname "$0")/.." || exit 1
program=crates/andromeda/out/andromeda
[ -x "$program" ] || { echo "skipped: $program is not built"; exit 0; }
command -v python3 >/dev/null || { echo "skipped: no python3"; exit 0; }
work=$(mktemp -d) || exit 1
trap 'rm -rf "$work"' EXIT
python3 - "$program" "$work" <<'PY'
import os
import resource
import struct
import subprocess
import sys

program, work = sys.argv[1], sys.argv[2]
SIZE = 1_000_000
HEAD = b'{"hosts":2,"gateways":1,"script":['
EMPTY = struct.pack("<IHHiIII", 0xA1B2C3D4, 2, 4, 0, 0, 262144, 1)


def filled(start, piece, end=b""):
    return start + piece * ((SIZE - len(start) - len(end)) // len(piece)) + end


def record(length):
    return struct.pack("<IIII", 0, 0, length, length) + bytes(length)


# A capture of 33,554,432 bytes: 127 records of the longest frame, and one of what is left.
LONGEST = EMPTY + record(262_144) * 127 + record(260_072)
assert len(LONGEST) == 33_554_432

# A text, a capture, the status and the line.
rows = [
    ("opening brackets", b"[" * SIZE, EMPTY, 2, b"scenario: NotJson\n"),
    ("brackets of each kind", filled(b"", b'[{"a":'), EMPTY, 2, b"scenario: NotJson\n"),
    # These are 333,321 items, and the number of items is looked at before any of them.
    ("pairs of brackets", filled(HEAD, b"[],", b"7]}"), EMPTY, 2, b"scenario: Limit /script\n"),
    ("one string", filled(b'"', b"a", b'"'), EMPTY, 2, b"scenario: Field \n"),
    ("a string that does not end", filled(b'"', b"a"), EMPTY, 2, b"scenario: NotJson\n"),
    ("escapes", filled(b'"', b"\\u0061", b'"'), EMPTY, 2, b"scenario: Field \n"),
    ("one number", b"1" * SIZE, EMPTY, 2, b"scenario: NotJson\n"),
    ("zeros behind a point", filled(b"0.", b"0", b"1"), EMPTY, 2, b"scenario: Field \n"),
    ("an exponent", filled(b"1e", b"0"), EMPTY, 2, b"scenario: Field \n"),
    # The line has the name, whole.
    ("a field name", b'{"hosts":2,"gateways":1,"script":[],"' + b"z" * SIZE + b'":1}', EMPTY, 2, b"scenario: Unknown /" + b"z" * SIZE + b"\n"),
    ("names that stand twice", filled(b"{", b'"a":1,', b'"a":1}'), EMPTY, 2, b"scenario: Unknown /a\n"),
    ("names of one start", b"{" + b",".join(b'"%07d":1' % n for n in range(80_000)) + b"}", EMPTY, 2, b"scenario: Unknown /0000000\n"),
    ("items", HEAD + b",".join([b'{"do":"wait"}'] * 65_537) + b"]}", EMPTY, 2, b"scenario: Limit /script\n"),
    ("spaces", b" " * SIZE, EMPTY, 2, b"scenario: NotJson\n"),
    ("bytes that are no UTF-8", b"\xff" * SIZE, EMPTY, 2, b"scenario: NotJson\n"),
    # Each item is refused, and has its line.
    ("names of VMs", HEAD + b",".join(b'{"do":"resume","vm":"m%d"}' % n for n in range(65_536)) + b"]}", EMPTY, 0, b""),
    ("records", HEAD + b"]}", EMPTY + bytes(16 * 100_001), 3, b"capture: TooMany\n"),
    # The longest files are read, and not one byte more.
    ("the longest scenario", b" " * 16_777_216, EMPTY, 2, b"scenario: NotJson\n"),
    ("a byte more", b" " * 16_777_217, EMPTY, 7, ("too long: %s/s.json\n" % work).encode()),
    ("the longest capture", HEAD + b"]}", bytes(33_554_432), 3, b"capture: Magic\n"),
    ("a byte more of it", HEAD + b"]}", bytes(33_554_433), 7, ("too long: %s/c.pcap\n" % work).encode()),
    ("as many records", HEAD + b"]}", EMPTY + bytes(16 * 100_000), 0, b""),
    # Each limit, and one past it.
    ("64 hosts", b'{"hosts":64,"gateways":1,"script":[]}', EMPTY, 0, b""),
    ("65 hosts", b'{"hosts":65,"gateways":1,"script":[]}', EMPTY, 2, b"scenario: Range /hosts\n"),
    ("as many items", HEAD + b",".join([b'{"do":"wait"}'] * 65_536) + b"]}", EMPTY, 0, b""),
    ("the longest scenario that is taken", HEAD + b" " * (16_777_216 - len(HEAD) - 2) + b"]}", EMPTY, 0, b""),
    ("the longest capture that is taken", HEAD + b"]}", LONGEST, 0, b""),
    ("the longest record", HEAD + b"]}", EMPTY + record(262_144), 0, b""),
    ("a byte more of it", HEAD + b"]}", EMPTY + record(262_145), 3, b"capture: LongRecord 24\n"),
    ("a long record", HEAD + b"]}", EMPTY + struct.pack("<IIII", 0, 0, 0xFFFFFFFF, 0), 3, b"capture: LongRecord 24\n"),
]
bad = 0
for name, text, capture, status, line in rows:
    with open(work + "/s.json", "wb") as out:
        out.write(text)
    with open(work + "/c.pcap", "wb") as out:
        out.write(capture)
    # Both go to files: a pipe that nobody reads would stop the program.
    with open(work + "/report", "w+b") as report, open(work + "/errors", "w+b") as errors:
        child = subprocess.Popen([program, "replay", work + "/s.json", work + "/c.pcap", work + "/out"], stdout=report, stderr=errors)
        _, code, usage = os.wait4(child.pid, 0)
        report.seek(0)
        errors.seek(0)
        out, err = report.read(), errors.read()
    memory, spent = usage.ru_maxrss, usage.ru_utime + usage.ru_stime
    right = os.waitstatus_to_exitcode(code) == status and err == line and (status == 0) == (out != b"")
    if name == "names of VMs":
        right = right and b"".join(b"item %d NoVm\n" % n for n in range(65_536)) in out
    if not right or spent > 1 or memory > 200_000:
        bad += 1
        print("failed: %s: status %d, %r, %.2f s, %d kB" % (name, os.waitstatus_to_exitcode(code), err[:60], spent, memory))
if bad:
    sys.exit(1)
print("passed: %d hostile texts and captures, each in under a second and 200 MB" % len(rows))
PY
