#!/usr/bin/env python3
"""What the gate costs, crate by crate: runs `rt ci`, and adds up the processor time of the checks that it starts.

    python3 tools/gate.py [--write] [--anew] [CRATE ..]

Each second it looks at the checks below `rt ci` (their processor time, as Linux counts it), so a check's last second may be missed; the line behind the table has the
whole as the kernel counts it. Processor time hardly depends on what else runs. What `rt` took from an earlier run costs nothing and has no row: --anew, or a machine where nothing is kept.
--write puts the table into docs/GATE.md, between its first and its last lines. Ends with rt's status."""
import os
import re
import resource
import subprocess
import sys
import time
from collections import defaultdict
from pathlib import Path

ROOT = Path(__file__).resolve().parent.parent
PAGE = ROOT / "docs" / "GATE.md"
TICK = os.sysconf("SC_CLK_TCK")


def stat(pid):
    """(parent, seconds of processor time, start) of a process."""
    text = Path(f"/proc/{pid}/stat").read_text()
    fields = text[text.rindex(")") + 2:].split()
    return int(fields[1]), (int(fields[11]) + int(fields[12])) / TICK, fields[19]


def look(top, seen):
    """Notes each check below the process `top`: its crate, whether it tries an edit, and its processor time so far."""
    parents, own = {}, {}
    for pid in filter(str.isdigit, os.listdir("/proc")):
        try:
            parents[int(pid)], seconds, start = stat(pid)
            words = Path(f"/proc/{pid}/cmdline").read_bytes().decode("utf-8", "replace").split("\0")
            if "--crate-name" in words:
                own[int(pid)] = (start, words[words.index("--crate-name") + 1], "rt-edit" in os.readlink(f"/proc/{pid}/cwd"), seconds)
        except OSError:
            continue  # it has ended
    for pid, (start, crate, edit, seconds) in own.items():
        above = pid
        while above in parents and above != top:
            above = parents[above]
        if above == top:
            seen[pid, start] = (crate, edit, seconds)


def table(seen):
    """The rows of the table, dearest first."""
    proof, edits = defaultdict(float), defaultdict(float)
    for crate, edit, seconds in seen.values():
        (edits if edit else proof)[crate] += seconds
    rows, all_tried = [], 0
    for crate in sorted(set(proof) | set(edits), key=lambda c: -proof[c] - edits[c]):
        tried = len(list((ROOT / "crates" / crate / "must-fail").glob("*.edit")))
        rows.append(f"| `{crate}` | {proof[crate]:,.0f} | {edits[crate]:,.0f} | {tried} |")
        all_tried += tried
    rows.append(f"| all | {sum(proof.values()):,.0f} | {sum(edits.values()):,.0f} | {all_tried} |")
    return rows


def main():
    arguments = [a for a in sys.argv[1:] if a != "--write"]
    began, seen = time.monotonic(), {}
    gate = subprocess.Popen(["rt", "ci", *arguments], cwd=ROOT)
    while gate.poll() is None:
        look(gate.pid, seen)
        time.sleep(1)
    spent = resource.getrusage(resource.RUSAGE_CHILDREN)
    rows = table(seen)
    whole = f"Whole: {(spent.ru_utime + spent.ru_stime) / 60:.0f} processor minutes in {(time.monotonic() - began) / 60:.0f} minutes."
    print("\n".join([*rows, whole]), file=sys.stderr)
    if "--write" in sys.argv:
        text = PAGE.read_text(encoding="utf-8")
        text = re.sub(r"(\|---\|---\|---\|---\|\n)(?:\|.*\n)*(?:\nWhole: .*\n)?", lambda m: m.group(1) + "\n".join(rows) + "\n\n" + whole + "\n", text, count=1)
        PAGE.write_text(text, encoding="utf-8")
    sys.exit(gate.returncode)


if __name__ == "__main__":
    main()
