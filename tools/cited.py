#!/usr/bin/env python3
"""Names what stands in a folder specs/ and no contract cites: it belongs in proofs/. What stands in proofs/ and a contract comes down to: it belongs in specs/,
with the definitions between them. And what stands in proofs/ and nothing cites: it goes.

A contract is what a clause of src/ names, and every definition that such a definition names in turn. Cases that are computed beside definitions (CasesOf..,
Examples) stay there, with what they name; the crate `rules` is read for its definitions alone and isn't looked at. A lemma that a page cites stays, and so do
computed instances (Instances) and the theorems of ByNames, which are read for themselves. `--lines` tells for each crate how many lines its specs/ has."""
import re
import sys
from collections import Counter, defaultdict
from pathlib import Path

CRATES = Path(__file__).resolve().parent.parent / "crates"
CASES = re.compile(r"(Cases(Of\w*)?|\w*Examples)$")
READ = re.compile(r"(Cases(Of\w*)?|Instances|ByNames)$")
TOKEN = re.compile(r"[^\s(){}\[\],;]+")
USE = re.compile(r"^ *(pub )?(?:ghost )?use (\w+(?:\.\w+)*)(?:\.\{([^}]*)\}| as ([^\s;]+))?", re.M)
START = re.compile(r"^ *((?:(?:pub|abbrev|unfoldable) )*)(record |data |ruleset )?(\S+)((?: .*)?)$")
BOUND = re.compile(r"[({]\s*((?:[^\s:(){}\[\],;]+\s+)+):\s")


def bare(text):
    """Without comments."""
    return re.sub(r"(^|(?<=[\s(]))--[^\n]*", "", text, flags=re.M)


class Module:
    """A file of specs/ or proofs/: its declarations by name, each with the lines that it stands in, and where its other names come from."""

    def __init__(self, path):
        crate, part, *rest = path.relative_to(CRATES).with_suffix("").parts
        self.crate, self.part, self.file = crate, part, "/".join(rest)
        self.text, self.names, self.whole, self.owner, self.together = bare(path.read_text(encoding="utf-8")), {}, {}, {}, {}
        for _, place, names, whole in USE.findall(self.text):
            for name in filter(None, map(str.strip, names.split(","))):
                self.names[name.split(" as ")[-1]] = (place, name.split(" as ")[0])
            self.whole[whole or place.split(".")[-1]] = place
        self.declared = defaultdict(list)
        self.read(self.text.split("\n"))

    def read(self, lines):
        blocks, name, at = [(0, "", None)], None, 0
        while at < len(lines):
            line, indent = lines[at], len(lines[at]) - len(lines[at].lstrip())
            while line.strip() and indent < blocks[-1][0]:
                blocks.pop()
            if re.match(r" *(module _|(\w+ )*mutual$)", line):
                end = next(i for i in range(at, len(lines)) if re.search(r"\b(where|mutual)\s*$", lines[i]))
                inner = next(i for i in range(end + 1, len(lines)) if lines[i].strip())
                head = " ".join([blocks[-1][1], *lines[at:end + 1]])
                mutual = [] if line.endswith("mutual") else None
                blocks.append((len(lines[inner]) - len(lines[inner].lstrip()), head, mutual))
                name, at = None, end + 1
                continue
            found = START.match(line) if line.strip() and indent == blocks[-1][0] else None
            if found and (found[1] or found[2] or re.match(r" *:", found[4])) and found[3] not in ("use", "unfolding"):
                name = found[3].rstrip(":")
                self.declared[name].append(blocks[-1][1])
                kind = found[2]
                if blocks[-1][2] is not None:
                    blocks[-1][2].append(name)
                    self.together[name] = blocks[-1][2]
            if name:
                self.declared[name].append(line)
                made = re.match(r"\s+([^\s:(){}]+(?: [^\s:(){}]+)*) : ", line) if kind == "data " else None
                self.owner.update({it: name for it in made[1].split()} if made else {})
            at += 1


def resolved(modules, place, word, seen=()):
    """Where the name stands that a module knows by this word: pairs of a module and a declaration's name."""
    module = modules.get(place)
    if module is None or place in seen:
        return
    first, _, rest = word.partition(".")
    for name in {word, first}:
        if name in module.declared:
            yield place, name
        elif name in module.owner:
            yield place, module.owner[name]
        elif name in module.names:
            yield from resolved(modules, *module.names[name], (*seen, place))
    if rest and first in module.whole:
        yield from resolved(modules, module.whole[first], rest, (*seen, place))


def variables(text):
    """Names that stand for what is bound near them: parameters, patterns, λ, let, steps."""
    groups = BOUND.findall(text) + re.findall(r"λ ([^.()]*)\.", text) + re.findall(r"^\s*[^\s()→]+ ([^=:{≡→\n]*?) = ", text, re.M)
    alone = re.findall(r"\blet ([^\s()]+) [:=]", text) + re.findall(r"^\s*(\S+) ← ", text, re.M)
    return {word for group in groups + alone for word in TOKEN.findall(group)}


def cited(modules, place, text):
    """What a text in this module names."""
    module = modules[place]
    words = set(TOKEN.findall(text)) - (variables(text) - module.owner.keys())
    # an operator is cited by its parts, and ◌>>=◌ by steps one after another
    mixed = {n for n in [*module.declared, *module.names] if "◌" in n and all(p in words for p in n.split("◌") if p)}
    steps = {"◌>>=◌"} if "←" in words else set()
    for word in words | mixed | steps:
        yield from resolved(modules, place, word)


def clauses(modules):
    """What clauses name, each with the file that has the clause."""
    for path in sorted(CRATES.glob("*/src/**/*.rt")):
        text = path.read_text(encoding="utf-8")
        for _, place, names, whole in USE.findall(text):
            known = list(filter(None, map(str.strip, names.split(","))))
            if not known:
                known = set(re.findall(rf"(?<![\w.]){re.escape(whole or place.split('.')[-1])}\.([^\s(){{}}\[\],;]+)", text))
            for name in known:
                for here in resolved(modules, place, name.split(" as ")[0]):
                    yield here, path


def beside(modules):
    """What stays in specs/ beside what clauses name: definitions that a function unfolds, and those that computed cases name."""
    for path in CRATES.glob("*/src/**/*.rt"):
        text = path.read_text(encoding="utf-8")
        for crate, file, name in re.findall(r"(\w+)::specs::([\w:]+)::(\w+)", " ".join(re.findall(r"unfolding\(([^()]*)\)", text))):
            home = path.relative_to(CRATES).parts[0] if crate == "crate" else crate
            yield from resolved(modules, f"Rattle.{home}.specs.{file.replace('::', '.')}", name)
    for place, module in modules.items():
        if module.part == "specs" and CASES.match(module.file):
            yield from cited(modules, place, module.text)


def reached(modules, starts):
    """All that these come down to, each with what names it on the shortest way there."""
    by, ahead = {}, list(starts)
    for here, namer in ahead:
        if here not in by:
            by[here] = namer
            place, name = here
            module = modules[place]
            ahead += [(there, here) for there in cited(modules, place, "\n".join(module.declared[name]))]
            ahead += [((place, other), here) for other in module.together.get(name, [])]
    return by


def out_of_place(modules, by):
    """What stands in proofs/ and a contract comes down to, with the file of the clause and the definitions on the way."""
    for (place, name), namer in sorted(by.items(), key=lambda it: it[0]):
        module = modules[place]
        if module.part == "proofs":
            way = []
            while isinstance(namer, tuple):
                way.append(namer[1])
                namer = by[namer]
            through = f" by {', '.join(reversed(way))}" if way else ""
            yield f"crates/{module.crate}/proofs/{module.file}.antt: {namer.relative_to(CRATES.parent)} cites {name}{through}"


def alone(modules):
    """What stands in proofs/ and no other declaration, clause, edit or page cites."""
    words = re.compile(r"[^\s(){}\[\],;.:`\"]+")
    code = [p.read_text(encoding="utf-8") for kind in ("src/**/*.rt", "must-fail/*.edit") for p in CRATES.glob(f"*/{kind}")]
    pages = [p.read_text(encoding="utf-8") for p in (*CRATES.parent.glob("*.md"), *CRATES.parent.glob("docs/**/*.md")) if "history" not in p.parts]
    count = Counter(word for text in code + pages + [USE.sub("", m.text) for m in modules.values()] for word in words.findall(text))
    for module in modules.values():
        if module.part == "proofs" and not module.file.endswith(("Answers", "Invariants")) and not READ.search(module.file):
            for name, lines in module.declared.items():
                own = words.findall("\n".join(lines[1:]))
                if "◌" not in name and count[name] <= own.count(name):
                    yield f"crates/{module.crate}/proofs/{module.file}.antt: nothing cites {name}"


def main():
    paths = [p for part in ("specs", "proofs") for p in CRATES.glob(f"*/{part}/**/*.antt") if p.name != "Lib.antt" and "out" not in p.parts]
    made = map(Module, paths)
    modules = {f"Rattle.{m.crate}.{m.part}.{m.file.replace('/', '.')}": m for m in made}
    by = reached(modules, clauses(modules))
    needed = by.keys() | reached(modules, ((here, None) for here in beside(modules))).keys()
    idle, lines = [], defaultdict(int)
    for place, module in sorted(modules.items()):
        if module.part == "specs" and module.crate != "rules" and not CASES.match(module.file) and not module.file.startswith("declared"):
            lines[module.crate] += sum(bool(line.strip()) for of in module.declared.values() for line in of[1:])
            idle += [f"crates/{module.crate}/specs/{module.file}.antt: no contract cites {n}" for n in module.declared if (place, n) not in needed]
    lone, strayed = list(alone(modules)), list(out_of_place(modules, by))
    print(*(f"{line}\n" for line in [*strayed, *idle, *lone]), sep="", end="")
    if "--lines" in sys.argv:
        print(*[f"{c} {n}" for c, n in sorted(lines.items(), key=lambda it: -it[1])], sep="\n")
    print(f"{sum(lines.values())} lines of definitions beside rules, {len(idle)} names that no contract cites,"
          f" {len(strayed)} that contracts cite in proofs/, {len(lone)} lemmas that nothing cites")
    return 1 if idle or strayed or lone else 0


if __name__ == "__main__":
    sys.exit(main())
