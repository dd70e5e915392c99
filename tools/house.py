#!/usr/bin/env python3
"""Draws docs/house.svg: the modules of docs/CRATES.md as boxes with their crates, and an arrow from each module to those it uses by crates.txt.

An arrow that follows from others is left out. Users stand above what they use; the theorems, on which some crates stand and which stand on others, have a
wing on the right without arrows. Each crate has a line in crates.txt and a row in docs/CRATES.md. `--write` draws anew, and adds lines and rows that are
missing: a line with the crates that the files cite, a row with the first sentence of src/lib.rt, behind those of its module. Without `--write` it ends
with 1 where one is missing, where a crate is cited and not listed, or where the drawing is another one. It warns of each crate that crates.txt lists for
another whose files don't cite it; with `--edges` it writes crates.txt anew, each crate with what its files cite and no more."""
import re
import sys
from pathlib import Path

ROOT = Path(__file__).resolve().parent.parent
WING = "Theorems"
WIDTH, LINE, GAP, DROP = 178, 13, 22, 40
MARKED = "rules"


def used():
    """crate: the crates of this house that it uses."""
    lines = [l.split("#")[0].strip() for l in (ROOT / "crates.txt").read_text(encoding="utf-8").splitlines()]
    listed = {l.split(":")[0].split()[0]: l.split(":")[1].split() for l in lines if ":" in l}
    return {c: [u for u in us if u in listed] for c, us in listed.items()}


def without_followers(uses):
    """The same without what follows from others."""
    below = {}

    def all_below(c):
        if c not in below:
            below[c] = set()
            for u in uses[c]:
                below[c] |= {u} | all_below(u)
        return below[c]

    return {c: [u for u in us if not any(u in all_below(v) for v in us if v != u)] for c, us in uses.items()}


def edges(write, add):
    """What each crate's files cite of the others, beside what crates.txt lists; the kit's own libraries stay as listed. Names what is missing."""
    path = ROOT / "crates.txt"
    lines = [l for l in path.read_text(encoding="utf-8").splitlines() if ":" in l.split("#")[0]]
    listed = {l.split(":")[0].split()[0]: (l.split(":")[0], l.split(":")[1].split()) for l in lines}
    new = sorted({p.parent.name for p in (ROOT / "crates").glob("*/src")} - listed.keys())
    listed.update({c: (c, []) for c in new if write or add})
    missing = [f"crates.txt: no line for {c}" for c in new]
    text = {c: "" for c in listed}
    for c in listed:
        for f in (ROOT / "crates" / c).rglob("*"):
            if f.suffix in (".rt", ".antt") and f.relative_to(ROOT / "crates" / c).parts[0] in ("src", "specs", "proofs"):
                text[c] += re.sub(r"(--|//).*", "", f.read_text(encoding="utf-8"))
    own = {c: set(re.findall(r"^[ \t]*(?:pub )?mod (\w+);", text[c], re.M)) for c in listed}
    named = {c: set(re.findall(r"\bRattle\.(\w+)\.|\b(\w+)::", text[c])) for c in listed}
    cited = {c: {d for pair in named[c] for d in pair if d} for c in listed}
    used_by = {c: set(re.findall(r"\bRattle\.(\w+)\.(?:specs|proofs)\.", text[c])) | set(re.findall(r"^[ \t]*(?:pub |ghost )*use (\w+)::", text[c], re.M)) for c in listed}
    for c, (head, uses) in listed.items():
        idle = [d for d in uses if d in listed and d not in cited[c]]
        asked = [d for d in listed if d != c and d not in uses and d not in own[c] and d in used_by[c]]
        missing += [f"crates.txt: {c} cites {d} and doesn't list it" for d in asked]
        if write or add:
            listed[c] = (head, [d for d in uses if d not in idle or not write] + asked)
        print(*[f"warning: {c} lists {d} and cites nothing of it" for d in idle if not write], sep="\n", end="\n" if idle and not write else "")
    if write or add and missing:
        path.write_text("".join(head + ":" + "".join(" " + d for d in uses) + "\n" for head, uses in listed.values()), encoding="utf-8")
    return [] if write or add else missing


def described(crate):
    """The first sentence of a crate's source, as a row has it."""
    path = ROOT / "crates" / crate / "src" / "lib.rt"
    words = " ".join(re.findall(r"^//! ?(.*)", path.read_text(encoding="utf-8") if path.exists() else "", re.M))
    sentence = re.split(r"\.(?: |$)", words)[0]
    return sentence[:1].lower() + sentence[1:]


def rows(crates, add):
    """Crates without a row in docs/CRATES.md; a row that is added stands behind the last one of the crate's module."""
    path = ROOT / "docs" / "CRATES.md"
    for c in [c for c in crates if c not in groups()]:
        text = path.read_text(encoding="utf-8")
        beside = re.findall(rf"^\| `{c.split('_')[0]}(?:_\w+)?`.*\n", text, re.M)
        if add and beside and described(c):
            path.write_text(text.replace(beside[-1], f"{beside[-1]}| `{c}` | {described(c)} |\n"), encoding="utf-8")
        else:
            yield f"docs/CRATES.md: no row for {c}" + ("" if beside else ", whose module has none: by hand") + ("" if described(c) else f": crates/{c}/src/lib.rt begins with no //!")


def groups():
    """crate: its group in the table of docs/CRATES.md."""
    group, found = "", {}
    for line in (ROOT / "docs" / "CRATES.md").read_text(encoding="utf-8").splitlines():
        head = re.match(r"\| \*\*(.+?)\*\* \|", line)
        row = re.match(r"\| ((?:`\w+`(?:, )?)+) \|", line)
        if head:
            group = head.group(1).replace("`", "")
        elif row and group:
            found.update({c: group for c in re.findall(r"`(\w+)`", row.group(1))})
    return found


def modules(uses, group):
    """module: its crates; module: the modules that its crates use, the wing aside."""
    inside = {}
    for c in [c for c in group if c in uses] + [c for c in uses if c not in group]:
        inside.setdefault(group.get(c, "Others"), []).append(c)
    between = {m: sorted({group.get(u, "Others") for c in cs for u in uses[c]} - {m, WING}, key=list(inside).index) for m, cs in inside.items() if m != WING}
    return inside, without_followers(between)


def layers(uses):
    level = {}

    def of(c):
        if c not in level:
            level[c] = 1 + max((of(u) for u in uses[c]), default=-1)
        return level[c]

    for c in uses:
        of(c)
    return level


def height(crates):
    return 24 + LINE * len(crates)


def places(inside, uses, level):
    """module: (x, y) of its box's left upper corner; the order in a row follows what is used below it, and a module alone in its row stands aside by turns, so that arrows show."""
    rows, place = {}, {}
    for m in uses:
        rows.setdefault(level[m], []).append(m)
    most = max(len(ms) for ms in rows.values())
    bottom = 30 + sum(max(height(inside[m]) for m in ms) + DROP for ms in rows.values())
    for l, ms in sorted(rows.items()):
        aside = (l % 2 - 0.5) * 1.3 * WIDTH if len(ms) == 1 else 0
        ms.sort(key=lambda m: sum(place[u][0] for u in uses[m]) / max(1, len(uses[m])))
        bottom -= max(height(inside[m]) for m in ms) + DROP
        for i, m in enumerate(ms):
            place[m] = (20 + (most - len(ms)) * (WIDTH + GAP) / 2 + aside + i * (WIDTH + GAP), bottom)
    place[WING] = (20 + most * (WIDTH + GAP) + GAP, 30)
    return place


def box(module, crates, x, y):
    title = module.split(" (")[0].split(":")[0]
    yield f'<rect x="{x:.0f}" y="{y:.0f}" width="{WIDTH}" height="{height(crates)}" rx="5" fill="#f4f7fb" stroke="#555"/>'
    yield f'<text x="{x + 10:.0f}" y="{y + 16:.0f}" font-weight="bold">{title}</text>'
    for i, c in enumerate(crates):
        at = y + 31 + LINE * i
        if c == MARKED:
            yield f'<rect x="{x + 5:.0f}" y="{at - 10:.0f}" width="{WIDTH - 10}" height="{LINE}" fill="#ffe08a" stroke="#b8860b"/>'
        yield f'<text x="{x + 10:.0f}" y="{at:.0f}">{c}{" (the crate to believe)" if c == MARKED else ""}</text>'


def drawn():
    """The drawing, and what there is in it."""
    uses, group = used(), groups()
    inside, between = modules(uses, group)
    place = places(inside, between, layers(between))
    right = max(x for x, _ in place.values()) + WIDTH + 20
    bottom = max(y + height(inside[m]) for m, (_, y) in place.items()) + 20
    out = [f'<svg xmlns="http://www.w3.org/2000/svg" viewBox="0 0 {right:.0f} {bottom:.0f}" font-family="sans-serif" font-size="11">',
           '<rect width="100%" height="100%" fill="white"/>',
           '<defs><marker id="a" markerWidth="7" markerHeight="6" refX="6" refY="3" orient="auto"><path d="M0,0 L7,3 L0,6 z" fill="#888"/></marker></defs>']
    for m, us in between.items():
        x, y = place[m]
        for u in us:
            v, w = place[u]
            a, b, d, e = x + WIDTH / 2, y + height(inside[m]), v + WIDTH / 2, w
            out.append(f'<path d="M{a:.0f},{b:.0f} C{a:.0f},{b + 25:.0f} {d:.0f},{e - 25:.0f} {d:.0f},{e:.0f}" fill="none" stroke="#999" marker-end="url(#a)"/>')
    for m, (x, y) in place.items():
        out += box(m, inside[m], x, y)
    return "\n".join(out + ["</svg>", ""]), f"{len(uses)} crates, {len(inside)} modules, {sum(map(len, between.values()))} arrows"


def main():
    write = "--write" in sys.argv[1:]
    found = edges("--edges" in sys.argv[1:], write)
    found += rows(used(), write)
    drawing, what = drawn()
    path = ROOT / "docs" / "house.svg"
    if write:
        path.write_text(drawing, encoding="utf-8")
    elif path.read_text(encoding="utf-8") != drawing:
        found.append("docs/house.svg: crates.txt or docs/CRATES.md has changed")
    for line in found:
        print(f"{line}: python3 tools/house.py --write" if "by hand" not in line and "//!" not in line else line)
    print(f"{what}, {len(found)} failures")
    return 1 if found else 0


if __name__ == "__main__":
    sys.exit(main())
