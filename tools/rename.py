#!/usr/bin/env python3
"""Gives crates new names, wherever a crate is named: its folder, crates.txt, paths in code, specs, proofs and edits, and what the pages and scripts put in back quotes or in a path.

    python3 tools/rename.py ROOT [OLD NEW ..]

Without pairs it takes those below, by which the list of crates came to sort into the modules of docs/CRATES.md; a tree that has them already stays as it is. Swaps are fine:
every name is looked at once. Pages of docs/history keep the names of their time. What it can't decide, a word in back quotes that is a crate and something else too, stands in KEPT."""
import re
import shutil
import sys
from pathlib import Path

PAIRS = """
replacing replace
places replace_table
replacing_calls replace_calls
comparing types_compare
lending records_buffers
satisfying solve_step
rounds solve_round
finishing solve_finish
solving solve
adding solve_add
batches solve_batch
ceiling solve_ceiling
confirming solve_confirm
conflicts solve_conflict
renaming schemes_renaming
handing schemes_handed
quantifying schemes_quantify
instantiating schemes_instantiate
entries judge_entries
meaning judge_meaning
trials judge_trials
proposals judge_proposals
judging judge
laying engine_rows
elimination engine_matrix
eliminating engine
lines lines_entry
line_steps lines_set
line_calls lines
spelling text_spell
scanning text_scan
reading text_grammar
terms text_names
dimensions text_dimensions
phrases text_types
statements text_lines
sheet_lines text_columns
sheet_reading text_sheet
sheet_writing text_write
sheets text_laws
reporting edition_report
page_text edition_html
certificates edition_certificates
certified edition_certified
look_alikes edition_look_alikes
saying calls_defined
calling_values calls_values
calling_lists calls_lists
calling calls
wording library_words
pairs library_pairs
ending theorems_ending
soundness theorems_soundness
completeness theorems_completeness
offices theorems_offices
shared_compaction theorems_compaction
sheets_apart theorems_sheets_apart
agreement theorems_engine
line_theorems theorems_lines
""".split()
# words in back quotes that are no crate there, but a function, a parameter or a key
KEPT = {
    "docs/CALLERS.md": {"lines", "ceiling"},
    "docs/CONTRACTS.md": {"certified"},
    "docs/DECISIONS.md": {"lines", "pairs"},
    "docs/EDITION.md": {"sheets", "rounds"},
    "docs/SERVE.md": {"ceiling"},
    "docs/THEOREMS.md": {"ceiling"},
    "bindings/rust/src/lib.rs": {"lines"},
    "crates/calling/src/sheets.rt": {"sheets"},
    "crates/ceiling/proofs/ceiling/Answers.antt": {"ceiling"},
    "crates/ceiling/specs/Theorems.antt": {"ceiling"},
    "crates/ceiling/src/theorems.rt": {"ceiling"},
    "crates/ending/src/lib.rt": {"ceiling"},
    "crates/line_calls/src/lib.rt": {"lines"},
    "crates/shupkelen/src/on_sets.rt": {"lines"},
}
SKIPPED = {"out", "target", ".git", "history", "dist"}


def below(text):
    """crate: all crates below it, by crates.txt."""
    listed = {}
    for line in text.splitlines():
        line = line.split("#")[0]
        if ":" in line:
            head, uses = line.split(":", 1)
            listed[head.split()[0]] = uses.split()
    found = {}

    def of(c):
        if c not in found:
            found[c] = set()
            for u in listed.get(c, []):
                found[c] |= {u} | of(u)
        return found[c]

    return {c: of(c) for c in listed}


def code(text, names, seen):
    """A file of a crate that has the crates `seen` below it."""
    word = "|".join(sorted(names, key=len, reverse=True))
    text = re.sub(rf"\bRattle\.({word})(?=\.)", lambda m: "Rattle." + names[m[1]], text)
    return re.sub(rf"(?<![\w:.$])({word})(?=::)", lambda m: names[m[1]] if m[1] in seen else m[1], text)


def page(kept, text, names):
    """A page, a comment or a script: a crate in back quotes, or a path that begins with one."""
    word = "|".join(sorted(names, key=len, reverse=True))
    text = re.sub(rf"\bcrates/({word})\b", lambda m: "crates/" + names[m[1]], text)

    def quoted(m):
        inside = m[1]
        if inside in names:
            return m[0] if inside in kept else f"`{names[inside]}`"
        return "`" + re.sub(rf"^({word})(?=/[A-Za-z]|::)", lambda n: names[n[1]], inside) + "`"

    return re.sub(r"`([^`\n]+)`", quoted, text)


def main():
    root = Path(sys.argv[1])
    pairs = sys.argv[2:] or PAIRS
    listed = (root / "crates.txt").read_text(encoding="utf-8")
    lower = below(listed)
    names = {o: n for o, n in zip(pairs[::2], pairs[1::2]) if o in lower and o != n}
    if not names or (not sys.argv[2:] and "solve_step" in lower):
        return
    for path in sorted(p for p in root.rglob("*") if p.is_file() and not SKIPPED & set(p.relative_to(root).parts)):
        inner = path.relative_to(root).parts
        if path.suffix not in {".rt", ".antt", ".edit", ".md", ".py", ".sh", ".rs", ".h", ".toml", ".c", ".1", ""} or path.name == "rename.py":
            continue
        try:
            text = path.read_text(encoding="utf-8")
        except UnicodeDecodeError:
            continue
        new = text
        if path.suffix in {".rt", ".antt", ".edit"}:
            crate = inner[1]
            own = set(re.findall(r"^[ \t]*(?:pub )?mod (\w+);", "\n".join(f.read_text(encoding="utf-8") for f in (root / "crates" / crate / "src").rglob("*.rt")), re.M))
            new = code(new, names, lower.get(crate, set()) - own)
        new = page(KEPT.get("/".join(inner), set()), new, names)
        if new != text:
            path.write_text(new, encoding="utf-8")
    (root / "crates.txt").write_text("\n".join(re.sub(r"[\w]+", lambda m: names.get(m[0], m[0]), l.split("#")[0]) + ("#" + l.split("#", 1)[1] if "#" in l else "") for l in listed.splitlines()) + "\n", encoding="utf-8")
    moved = [(root / "crates" / o, root / "crates" / n) for o, n in names.items() if (root / "crates" / o).exists()]
    for old, new in moved:
        shutil.rmtree(old / "out", ignore_errors=True)
        old.rename(old.with_name(old.name + ".moving"))
    for old, new in moved:
        old.with_name(old.name + ".moving").rename(new)


main()
