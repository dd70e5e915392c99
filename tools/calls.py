#!/usr/bin/env python3
"""Carries a public call into the places that repeat its name or its number, and names each place that lacks one. It needs nothing built.

By hand are two places: a variant at the end of `Call` (crates/calls_defined/src/numbers.rt), whose words are `/// Takes a the set. Says ..`, and its line
of `dispatch` (crates/calls_defined/specs/Dispatch.antt). `--write` adds what follows from them: its number, in numbers.rt and specs/Numbers; the arm of
`called` and its answer, where the line has a form that others have; whether it takes the work buffer (crates/calls_run); its row of docs/SERVE.md, from
its words. A row of a call without words stays by hand. Without `--write` each place is looked at, and that crates/calls_run/stdin has a case of each call
and crates/shupkelen a function. Prints what is missing and ends with 1 if something is."""
import re
import sys
from pathlib import Path
from typing import Callable, NamedTuple

ROOT = Path(__file__).resolve().parent.parent
CRATES = ROOT / "crates"
NUMBERS = CRATES / "calls_defined/src/numbers.rt"
DISPATCH = CRATES / "calls_defined/specs/Dispatch.antt"
SERVE = ROOT / "docs/SERVE.md"
WRITE = "--write" in sys.argv[1:]
# calls that the library doesn't export: which lines conflict is asked of an edition's sheets alone
ALONE = {"conflictCall"}
# what a line of `dispatch` tells an answer by: the function that does so in code, and the lemma that the arm's answer cites
TOLD = {
    "solution": ("solution", "solves"),
    "written": ("written", "writes"),
    "askedAs": ("asked", "told askedAs"),
    "checkedAs": ("checked", "told checkedAs"),
    "ceilingAs": ("limited", "told ceilingAs"),
}


def read(path):
    return path.read_text(encoding="utf-8")


class Call:
    def __init__(self, number, words, name):
        self.number, self.name = number, name
        self.words = " ".join(line.strip().removeprefix("///").strip() for line in words.splitlines())
        self.comes_to = re.search(rf"^  dispatch {name} = (.*)$", read(DISPATCH), re.M)
        told = self.comes_to and re.fullmatch(r"(?:does|says) \((\w+) \((\w+) ([\w ]+)\)\)", self.comes_to.group(1))
        self.told, self.definition, self.lent = told.groups() if told and told.group(1) in TOLD else (None, None, "")

    def function(self):
        """The crate and the name of the public function that equals its definition."""
        for path in sorted(CRATES.glob("*/src/**/*.rt")):
            found = re.search(rf"^pub fn (\w+)\([^{{]*ensures[^\n]*\b{self.definition}\b", read(path), re.M) if self.definition else None
            if found and path.parts[len(CRATES.parts)] != "shupkelen":
                return path.parts[len(CRATES.parts)], found.group(1)
        return None

    def arm(self):
        if self.function() is None:
            return None
        lent = ", ".join("res" if name == "result" else name for name in self.lent.split())
        return f"        Call::{self.name} => {TOLD[self.told][0]}({self.function()[1]}({lent})),\n"

    def imported(self, text):
        """The source with an import of its function."""
        line = "use {}::{};\n".format(*self.function())
        return text if line in text else re.sub(r"(?:^use .*\n)+", lambda found: found.group() + line, text, count=1, flags=re.M)

    def answer(self, text):
        """What proves the arm: a function that the others cite, too, is cited by the name of the arm."""
        if self.function() is None:
            return None
        code, lemma = TOLD[self.told]
        own = f"-in-{self.name}" if f"c.{code}.ensures" in text else ""
        goal = f"returns-in-{self.name}"
        return (
            f"\npub {goal} : goal.{goal}\nunfolding dispatch\n"
            f"{goal} c = rw c.in-{self.name}.is ({lemma} c.{code}{own}.ensures c.{self.function()[1]}.ensures)\n"
        )

    def row(self):
        """Its row of docs/SERVE.md, where it has words for one."""
        said = re.fullmatch(r"(?:Takes (.*?)\.)? ?(?:Says (.*)\.)?", self.words)
        if not self.words or said is None:
            return None
        name = re.sub(r"(?<=[a-z])(?=[A-Z])", "_", self.name).lower()
        return f"| {self.number} `{name}` | {said.group(1) or ''} | {said.group(2) or ''} |\n".replace("|  |", "| |").replace("|  |", "| |")


def calls():
    body = re.search(r"pub enum Call \{\n(.*?)\n\}", read(NUMBERS), re.S).group(1)
    return [Call(n, *part) for n, part in enumerate(re.findall(r"((?:^ +///.*\n)*)^ +(\w+),$", body, re.M), 1)]


class Place(NamedTuple):
    """Where a call has to stand: what stands there, which files may have it, what is found of a call, behind what it is added, what is added to a text."""

    what: str
    paths: list
    there: Callable
    behind: str = ""
    added: Callable = lambda text: None


def places(before, call):
    last, name, n = before.name, call.name, call.number
    numbers, program = CRATES / "calls_defined/specs/Numbers.antt", CRATES / "calls_run/src/main.rt"
    sources, answers = sorted((CRATES / "calls/src").rglob("*.rt")), sorted((CRATES / "calls/proofs").rglob("Answers.antt"))
    works = f"        Call::{name} => {'true' if 'work' in call.lent.split() else 'false'},\n" if call.told else None

    def imported(path):
        return Place("import", [path], lambda c: rf"^  {c.name},$", rf"  {last},\n", lambda text: f"  {name},\n")

    def numbered(path, entry):
        return Place("number", [path], lambda c: re.escape(entry(c).strip()), re.escape(entry(before)), lambda text: entry(call))

    return [
        numbered(NUMBERS, lambda c: f"            {c.number} => Some(Call::{c.name}),\n"),
        numbered(numbers, lambda c: f"    ∷ ({c.number}, {c.name})\n"),
        imported(numbers),
        imported(DISPATCH),
        Place("line of dispatch", [DISPATCH], lambda c: rf"^  dispatch {c.name} = "),
        Place("arm", sources, lambda c: rf"Call::{c.name}\b", rf" +Call::{last} => .*\n", lambda text: call.arm()),
        Place("answer", answers, lambda c: rf"^returns-in-{c.name} c = ", rf"^returns-in-{last} c = .*\n(?:.+\n)*", call.answer),
        Place("yes or no to the work buffer", [program], lambda c: rf"Call::{c.name}\b", r" +Call::[^\n]* => false,\n(?!.* => false)", lambda text: works),
    ]


def missing(before, call):
    """The places that lack a call, after what can be written was; one that lacks the call before, too, is no place of calls."""
    for place in places(before, call):
        texts = {path: read(path) for path in place.paths}
        path = next((p for p, text in texts.items() if re.search(place.there(before), text, re.M)), None)
        if path is None or any(re.search(place.there(call), text, re.M) for text in texts.values()):
            continue
        line = place.added(texts[path]) if place.behind and re.search(place.behind, texts[path], re.M) else None
        if line is None:
            how = "and its line of dispatch makes none" if place.behind else "which is by hand"
            yield f"{path.relative_to(ROOT)}: {call.name} has no {place.what}, {how}"
        elif WRITE:
            text = re.sub(place.behind, lambda found: found.group() + line, texts[path], count=1, flags=re.M)
            path.write_text(call.imported(text) if place.what == "arm" else text, encoding="utf-8")
        else:
            yield f"{path.relative_to(ROOT)}: {call.name} has no {place.what}: python3 tools/calls.py --write"


def numbers_of(cell):
    """The numbers that the first cell of a row has: `5 to 8 ..`, `21 .., 22 ..`."""
    ends = re.findall(r"(\d+)(?: to (\d+))?", re.sub(r"`[^`]*`", "", cell))
    return {n for first, last in ends for n in range(int(first), int(last or first) + 1)}


def served(all_calls):
    """Calls without a row in docs/SERVE.md, and rows that say something else than the call's words."""
    head, table = read(SERVE).split("## Calls\n")
    rows = re.findall(r"^\| (\d[^|]*) \|.*\n", table, re.M)
    there = {n for cell in rows for n in numbers_of(cell)}
    last = re.findall(r"^\| \d.*\n", table, re.M)[-1]
    for call in all_calls:
        row = call.row()
        if call.number in there and (row is None or row in table):
            continue
        if WRITE and row is not None:
            old = re.search(rf"^\| {call.number} `.*\n", table, re.M)
            table = table.replace(old.group(), row) if old else table.replace(last, last + row)
            last = row if old is None else last
        else:
            how = "or another: python3 tools/calls.py --write" if row else "which has no words (Takes .. Says ..) in numbers.rt"
            yield f"docs/SERVE.md: no row for {call.number}, {call.name}, {how}"
    if WRITE:
        SERVE.write_text(head + "## Calls\n" + table, encoding="utf-8")


def counted(all_calls):
    """How many calls there are, where that is said."""
    said_in = ((NUMBERS, r"(has a number: 1 to )\d+"), (SERVE, r"(number of the call, 1 to )\d+"), (ROOT / "README.md", r"(puts )\d+(?= calls)"))
    for path, said in said_in:
        text = read(path)
        right = re.sub(said, rf"\g<1>{len(all_calls)}", text)
        if WRITE:
            path.write_text(right, encoding="utf-8")
        elif text != right:
            yield f"{path.relative_to(ROOT)}: there are {len(all_calls)} calls: python3 tools/calls.py --write"


def stored(all_calls):
    """Calls of which no case is stored."""
    cases = read(CRATES / "calls_run/stdin")
    yield from (f"crates/calls_run/stdin: no case of {c.number}, {c.name}: compare/README.md" for c in all_calls if f"\nasks {c.number} " not in cases)


def elsewhere(all_calls):
    """Lines of `dispatch` without a variant, and calls of the rules that the library doesn't export."""
    names = {c.name for c in all_calls}
    lines = re.findall(r"^  dispatch (\w+) = ", read(DISPATCH), re.M)
    yield from (f"crates/calls_defined/src/numbers.rt: no variant {name}, which dispatch has" for name in lines if name not in names)
    library = "".join(read(path) for path in (CRATES / "shupkelen/src").rglob("*.rt"))
    for path in sorted((CRATES / "rules/specs").glob("*.antt")):
        for call in re.findall(r"^\s*(?:unfoldable |abbrev )?pub (\w+Call) :", read(path), re.M):
            if call not in ALONE and not re.search(rf"\({call} ", library):
                yield f"crates/shupkelen/src: no exported function equals {call} (rules/specs/{path.stem})"


def main():
    all_calls = calls()
    found = [line for before, call in zip(all_calls, all_calls[1:]) for line in missing(before, call)]
    found += [*served(all_calls), *counted(all_calls), *stored(all_calls), *elsewhere(all_calls)]
    for line in found:
        print(line)
    print(f"calls: {len(all_calls)} by number, {len(found)} places without one")
    return 1 if found else 0


if __name__ == "__main__":
    sys.exit(main())
