#!/usr/bin/env python3
"""Holds the pages against the source: README.md, the pages of docs/ and the notes of docs/requests/.

A bare name in back quotes stands somewhere in the source: as a word of a .rt or .antt file, of the header, of the bindings or of a script, or as the name
of a file, a folder or an edit. In back quotes `crate/specs/File` or `crate/proofs/File` names a file of definitions, statements or theorems,
`crate/specs/File.name` one of them, `crate/edit` a file of that crate's must-fail/, `crate::function` a public function, or another item or a module of
its source. In AUDIT.md's and README.md's tables the names in back quotes behind a file or a function stand in that file, or are public functions of that
crate. A table that was measured says so in a line
    Measured at COMMIT, KIT, MACHINE, DATE, of: CRATE ..
and is older than the code once the source of one of these crates has changed since: a warning. The figures of AUDIT.md are counted anew. And what the
source has stands on the pages: each theorem in THEOREMS.md or CONTRACTS.md, each call of the rules (`..Call`) in CONTRACTS.md with an edit that it
refuses, in CallsAlike (two offices), each file of definitions in RULES.md, each file of specs/ and proofs/ in Lib, each exported function that dist/ lacks
in CHANGELOG.md. `--write` writes figures, rows of theorems (their `///`), and names in Lib. Prints each name that isn't found, each that no page has, each
figure that is wrong and each measured line that is too old; ends with 1 but for the last."""
import functools
import re
import subprocess
import sys
from pathlib import Path

ROOT = Path(__file__).resolve().parent.parent
CRATES = ROOT / "crates"
# what the pages PORT.. say of older forms is no longer there
PAGES = [ROOT / "README.md"] + [p for p in sorted((ROOT / "docs").rglob("*.md")) if not p.name.startswith("PORT")]
SOURCES = ["crates", "include", "bindings", "compare", "tools", "examples"]
# calls that have a theorem of their own on two name tables, and calls that are lent none
APART = {"checkLineCall", "compactCall", "sumCall", "timesCall", "negationCall", "quotientCall"}
KINDS = {".rt", ".antt", ".edit", ".h", ".c", ".rs", ".py", ".sh", ".toml", ".sheet", ".txt"}


def source(crate):
    return "\n".join(f.read_text(encoding="utf-8") for f in sorted((CRATES / crate / "src").rglob("*.rt")))


def declared(path, name):
    """Is the name declared in the file: a definition, a theorem, or a field of a record?"""
    text = path.read_text(encoding="utf-8")
    return re.search(r"^\s*(?:(?:unfoldable|abbrev|pub|data|record)\s+)*" + re.escape(name) + r"(?=[\s:])[^=\n]*(?::| where)", text, re.M) is not None


def public(crate, name):
    """Is it a public item of that crate?"""
    return re.search(r'pub (?:extern "C" |const )?(?:fn|struct|enum|trait|const|mod) ' + re.escape(name) + r"\b", source(crate)) is not None


def item(crate, path):
    """`crate::a::b`: is b an item, a variant or a module of the crate's source?"""
    return re.search(r"\b" + re.escape(path.split("::")[-1]) + r"\b", source(crate)) is not None


@functools.cache
def words():
    """Each word of the sources, and the name of each file, folder and edit."""
    found = set((ROOT / "crates.txt").read_text(encoding="utf-8").split())
    for path in (p for top in SOURCES for p in (ROOT / top).rglob("*")):
        if "out" in path.parts or "target" in path.parts:
            continue  # what the kit and cargo make
        found.update((path.name, path.stem))
        if path.suffix in KINDS and path.is_file():
            found.update(re.findall(r"[A-Za-z_][\w'-]*", path.read_text(encoding="utf-8", errors="replace")))
    return found


def bare(word):
    """A name by itself: no path, no command, no letter or number alone, no word in capitals."""
    return re.fullmatch(r"[A-Za-z_][\w'-]{2,}", word) is not None and not word.isupper()


def file_of(item):
    for it in (ROOT / item, CRATES / (item + ".antt"), CRATES / item):
        if it.exists():
            return it
    crate, _, name = item.partition("/")
    edit = CRATES / crate / "must-fail" / (name + ".edit")
    return edit if edit.exists() else None


def tables(page):
    """Each row of a page's tables, with what it names that isn't there."""
    strict = page.name in ("AUDIT.md", "README.md", "THEOREMS.md")
    for number, line in enumerate(page.read_text(encoding="utf-8").splitlines(), 1):
        here, crate = None, None
        for it in re.findall(r"`([^`]+)`", line):
            word = re.fullmatch(r"[\w.:/'-]+", it) is not None
            head = re.split(r"::|/", it)[0]
            if word and "::" in it and (CRATES / head).is_dir():
                crate, here = head, None
                good = public(head, it.split("::")[-1]) if strict else item(head, it)
            elif "/out/" in it or it.startswith("./"):
                continue  # what the kit makes; a path that somebody types
            elif word and "/" in it and ((CRATES / head).is_dir() or (ROOT / head).exists()):
                path, _, name = it.partition(".") if file_of(it) is None else (it, "", "")
                here, crate = file_of(path), head
                good = here is not None and (not name or declared(here, name))
            elif word and strict and line.startswith("|") and here is not None and here.suffix == ".antt":
                good = declared(here, it) or (crate is not None and public(crate, it))
            elif word and strict and line.startswith("|") and crate is not None and not (CRATES / it).is_dir():
                good = item(crate, it)
            elif bare(it):
                good = it in words()
            else:
                continue
            yield None if good else f"{page.relative_to(ROOT)}, line {number}: {it}"


def measured(page):
    for number, line in enumerate(page.read_text(encoding="utf-8").splitlines(), 1):
        said = re.match(r"Measured at ([0-9a-f]{7,40}), .*, of: ([\w ]+)\.?$", line)
        if said:
            paths = [f"crates/{c}/src" for c in said.group(2).split()]
            same = subprocess.run(["git", "diff", "--quiet", said.group(1), "--", *paths], cwd=ROOT, stderr=subprocess.DEVNULL).returncode == 0
            yield None if same else f"{page.relative_to(ROOT)}, line {number}: warning: measured at {said.group(1)}, before the code changed"


def without_imports(path):
    return re.sub(r"^use [^{\n]*(\{[^}]*\})?.*$", "", path.read_text(encoding="utf-8"), flags=re.M)


def bare_lines(path):
    """The lines of definitions in a file: without comments, imports and blank lines."""
    return sum(1 for line in without_imports(path).splitlines() if line.strip() and not line.strip().startswith("--"))


def definitions():
    """The files of definitions: without cases, and without the lists that open all definitions for a computation."""
    specs = (CRATES / "rules" / "specs").glob("*.antt")
    return sorted(f for f in specs if not re.match(r"CasesOf|Examples|Lengths|Lib|Rules|Engine|Sheets$", f.stem))


def theorems():
    """Each function without parameters and with an empty body, whose contract is a theorem: its path, and its words."""
    for f in sorted(CRATES.glob("*/src/**/*.rt")):
        inside = [m for m in f.relative_to(CRATES).with_suffix("").parts if m not in ("src", "lib")]
        text = f.read_text(encoding="utf-8")
        for words, name in re.findall(r"((?:^///.*\n)*)^pub fn (\w+)(?:<[^>]*>)?\(\)\s*\n(?:\s+ensures[^\n]*\n)+\{\}", text, re.M):
            yield "::".join((*inside, name)), " ".join(line.removeprefix("///").strip() for line in words.splitlines())


def row(path, words):
    """A theorem's row: its words without the names of lemmas."""
    words = re.sub(r" \((?:`[\w-]+`(?:, )?)+\)", "", words).rstrip(".")
    return f"| {words[:1].lower() + words[1:]} | `{path}` |\n"


def unnamed(write):
    """Theorems, calls, files of definitions and exported functions that no page has."""
    page = {name: (ROOT / name).read_text(encoding="utf-8") for name in ("docs/THEOREMS.md", "docs/CONTRACTS.md", "docs/RULES.md", "CHANGELOG.md")}

    def says(name, text):
        return re.search(rf"\b{re.escape(name)}\b", page[text]) is not None

    for path, words in theorems():
        if says(path.split("::")[-1], "docs/THEOREMS.md") or says(path.split("::")[-1], "docs/CONTRACTS.md"):
            continue
        if write and words:
            page["docs/THEOREMS.md"] += row(path, words)
            (ROOT / "docs/THEOREMS.md").write_text(page["docs/THEOREMS.md"], encoding="utf-8")
        else:
            yield f"docs/THEOREMS.md: nothing of {path}" + (": tools/audit.py --write" if words else ", which has no ///")
    offices = without_imports(CRATES / "rules/specs/Offices.antt")
    for f in definitions():
        if not says(f"rules/specs/{f.stem}", "docs/RULES.md"):
            yield f"docs/RULES.md: nothing of rules/specs/{f.stem}"
        for call in re.findall(r"^\s*(?:unfoldable |abbrev )?pub (\w+Call) :", f.read_text(encoding="utf-8"), re.M):
            if not re.search(rf"^\| .*`{call}`.*`\w+/\w+`[^|]*\|$", page["docs/CONTRACTS.md"], re.M):
                yield f"docs/CONTRACTS.md: no row for {call} (rules/specs/{f.stem}), with an edit that is refused"
            if call not in APART and not re.search(rf"\b{call}\b", offices):
                yield f"crates/rules/specs/Offices.antt: nothing of {call} in CallsAlike, though docs/CONTRACTS.md says that any call is answered alike"
    for name in exported("include") - exported("dist/include"):
        if not says(name, "CHANGELOG.md"):
            yield f"CHANGELOG.md: nothing of {name}, which dist/ doesn't have"


def exported(folder):
    return set(re.findall(r"^uint32_t (shupkelen_\w+)\(", (ROOT / folder / "shupkelen.h").read_text(encoding="utf-8"), re.M))


def listed(write):
    """Files of specs/ and proofs/ that Lib doesn't name."""
    for lib in sorted([*CRATES.glob("*/specs/Lib.antt"), *CRATES.glob("*/proofs/Lib.antt")]):
        text = lib.read_text(encoding="utf-8")
        for stem in sorted({f.stem for f in lib.parent.glob("*.antt")} - {"Lib"} - set(re.findall(r"\bmod (\w+)", text))):
            if write:
                text += f"pub mod {stem}\n"
                lib.write_text(text, encoding="utf-8")
            else:
                yield f"{lib.relative_to(ROOT)}: no {stem}: tools/audit.py --write"


def counted():
    """What AUDIT.md says in figures, counted."""
    code = "\n".join(f.read_text(encoding="utf-8") for f in sorted(CRATES.glob("*/src/**/*.rt")))
    return {
        "lines of definitions": sum(map(bare_lines, definitions())),
        "functions": len(re.findall(r"^\s*(?:pub(?:\(\w+\))? )?(?:const |unsafe )?(?:extern \"C\" )?fn \w+", code, re.M)),
        "theorems": len(list(theorems())),
        "edits": len(list(CRATES.glob("*/must-fail/*.edit"))),
    }


def figures(write):
    """Each row `| what | number | ..` of AUDIT.md whose number isn't what is counted."""
    page = ROOT / "docs" / "AUDIT.md"
    text = page.read_text(encoding="utf-8")
    for what, number in counted().items():
        row = re.search(r"^\| " + what + r" \| ([\d,]+) \|", text, re.M)
        said = None if row is None else int(row.group(1).replace(",", ""))
        if said != number and row is not None and write:
            text = text[: row.start(1)] + f"{number:,}" + text[row.end(1) :]
        elif said != number:
            yield f"docs/AUDIT.md: {what} are {number:,}, not {said}: tools/audit.py --write"
    if write:
        page.write_text(text, encoding="utf-8")


def main():
    write = "--write" in sys.argv
    wrong = [*unnamed(write), *listed(write), *figures(write)]
    names = [s for page in PAGES for s in tables(page)]
    old = [s for page in PAGES for s in measured(page) if s is not None]
    missing = [s for s in names if s is not None]
    for line in (*wrong, *missing, *old):
        print(line)
    print(f"{len(names)} looked up, {len(missing)} missing; {len(old)} tables were measured before the code changed")
    return 1 if missing or wrong else 0


if __name__ == "__main__":
    sys.exit(main())
