#!/usr/bin/env bash
# Every output that the pages of docs/cookbook show is what their commands print: the commands and the outputs are taken from the pages themselves.
# A block of commands is fenced with `sh`, where it needs a tool that may be missing with `sh TOOL`; what it prints is the block `text` behind it. The built program
# stands in for ./demo, and a folder of its own for runs/. With --write the outputs in the pages are written anew, to be read before they are kept.
set -u
cd "$(dirname "$0")/.." || exit 1
case ${*:-} in '' | --write) ;; *) echo "usage: cookbook.sh [--write]" >&2; exit 2 ;; esac
program=crates/andromeda/out/andromeda
[ -x "$program" ] || { echo "skipped: $program is not built"; exit 0; }
command -v python3 >/dev/null || { echo "skipped: python3 is not installed"; exit 0; }
work=$(mktemp -d) || exit 1
trap 'rm -rf "$work"' EXIT
python3 - "$program" "$work" "${1:-}" <<'PY'
import difflib
import glob
import os
import re
import shutil
import subprocess
import sys

program, work, option = sys.argv[1:]
BLOCK = re.compile(r"^```sh ?(?P<tool>[a-z]*)\n(?P<commands>.*?)^```\n(?P<shown>```text\n(?P<text>.*?)^```\n)?", re.M | re.S)
bad, ran, compared = 0, 0, 0


def check(page, block, folder):
    """Runs a block's commands, and gives the block as it should stand."""
    global bad, ran, compared
    tool, commands = block["tool"], block["commands"]
    if tool and not shutil.which(tool):
        print(f"skipped: a block of {page}: {tool} is not installed")
        return block[0]
    here = commands.replace("./demo ", f"{program} replay ").replace("runs/", folder + "/")
    done = subprocess.run(["bash", "-u", "-o", "pipefail", "-c", here], stdout=subprocess.PIPE, stderr=subprocess.PIPE, text=True, timeout=60)
    ran += 1
    # `diff` and `grep` end with 1 where they find a difference or nothing.
    if done.returncode not in (0, 1) or done.stderr:
        bad += 1
        print(f"failed: {page}: status {done.returncode}: {done.stderr.strip()[:200]}\n{commands}")
    if block["shown"] is None:
        return block[0]
    compared += 1
    if done.stdout != block["text"] and not option:
        bad += 1
        print(f"failed: {page} shows another output of\n{commands}")
        sys.stdout.writelines(difflib.unified_diff(block["text"].splitlines(True), done.stdout.splitlines(True), "shown", "printed"))
    return block[0].replace(block["shown"], f"```text\n{done.stdout}```\n")


for page in sorted(glob.glob("docs/cookbook/*.md")):
    folder = os.path.join(work, os.path.basename(page))
    os.mkdir(folder)
    with open(page, encoding="utf-8") as file:
        text = file.read()
    new = BLOCK.sub(lambda block: check(page, block, folder), text)
    if option and new != text:
        with open(page, "w", encoding="utf-8") as file:
            file.write(new)
if not compared:
    bad += 1
    print("failed: no page shows an output")
if bad:
    sys.exit(1)
print(f"passed: {ran} blocks of commands of the cookbook run, and the {compared} outputs shown are theirs")
PY
