#!/usr/bin/env python3
"""Compares docs/RECORDS.md with the definitions of rules, with include/shupkelen.h and with the Rust crate.

The numbers of kinds are those that crates/rules/specs/Writing.antt and Views.antt write, those of steps that Steps.antt reads; each has its name in the header's
enum shupkelen_kind or shupkelen_step, and in the modules `kind` and `step` of bindings/rust. Each example begins with its row's kind, its lengths are true, and words that
the row gives as 0 are 0. Prints what differs and ends with 1 if something does."""
import re
import sys
from pathlib import Path

ROOT = Path(__file__).resolve().parent.parent


def read(path):
    return (ROOT / path).read_text(encoding="utf-8")


def rows(page, section):
    """The cells of each row of the table behind that heading."""
    part = page.split(f"## {section}\n")[1].split("\n## ")[0]
    return [[cell.strip() for cell in line.strip("|").split("|")] for line in part.splitlines() if re.match(r"\| \d", line)]


def kinds_of_rules():
    written = {int(n) for n in re.findall(r"\(head (\d+) ", read("crates/rules/specs/Writing.antt"))}
    views = read("crates/rules/specs/Views.antt")
    return written | {int(n) for n in re.findall(r"^ *kind(?:Open|Basic) .*= (\d+)$", views, re.M)}


def steps_of_rules():
    return {int(n) for n in re.findall(r"^ +∷? ?\((\d+), ", read("crates/rules/specs/Steps.antt"), re.M)}


def in_header(enum, prefix):
    body = re.search(r"enum " + enum + r" \{(.*?)\};", read("include/shupkelen.h"), re.S)
    return {} if body is None else {name: int(n) for name, n in re.findall(prefix + r"_(\w+) = (\d+)", body.group(1))}


def in_rust(module):
    body = re.search(r"pub mod " + module + r" \{(.*?)\n\}", read("bindings/rust/src/lib.rs"), re.S)
    return {} if body is None else {name: int(n) for name, n in re.findall(r"pub const (\w+): u32 = (\d+);", body.group(1))}


def example_differs(number, row):
    """What is wrong with a row's example, if anything: its records are those of one part."""
    records = [[int(w) for w in re.split(r"[:,] ?", r)] for r in re.findall(r"\(([^)]*)\)", row[7])]
    if not records or any(len(r) != 5 for r in records):
        return "its example isn't records of a kind, a length and three words"
    if records[0][:2] != [number, len(records)]:
        return "its example begins otherwise, or has another length"
    if any(cell == "0" and word != 0 for cell, word in zip(row[2:5], records[0][2:])):
        return "a word that is 0 isn't 0 in its example"
    return None


def differences():
    page = read("docs/RECORDS.md")
    for section, rules, enum, prefix, module in (
        ("The 22 kinds", kinds_of_rules(), "shupkelen_kind", "SHUPKELEN_KIND", "kind"),
        ("Steps of a calculation line", steps_of_rules(), "shupkelen_step", "SHUPKELEN_STEP", "step"),
    ):
        table = {row[1]: int(row[0]) for row in rows(page, section)}
        if set(table.values()) != rules:
            yield f"{section}: the rules have the numbers {sorted(rules)}"
        if in_header(enum, prefix) != table:
            yield f"{section}: the header's enum {enum} differs"
        if in_rust(module) != table:
            yield f"{section}: the Rust crate's module {module} differs"
    for row in rows(page, "The 22 kinds"):
        differs = example_differs(int(row[0]), row)
        if differs is not None:
            yield f"kind {row[0]}: {differs}"


def main():
    found = list(differences())
    for line in found:
        print(line)
    print(f"records: {len(found)} differences")
    return 1 if found else 0


if __name__ == "__main__":
    sys.exit(main())
