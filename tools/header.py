#!/usr/bin/env python3
"""Writes what C and Rust declare of the library, and compares it with the functions that the library exports. It needs no archive.

The one text is that of crates/shupkelen/src: of each exported function its `///`, its name and its parameters. `--write` makes of it what stands between the
marks of include/shupkelen.h (comments and prototypes), of bindings/rust-sys (declarations) and of bindings/rust/src/raw.rs (the calls over slices); all else
there is by hand. Without `--write` what stands there is compared. bindings/c/empty.c asks each call, or `--write` adds it. Compared too: that the Rust crate
has a safe function for each call, that the refusals and sizes of the header and of the Rust crate are those of the crates rules and text, and that the version
is that of the file VERSION. Prints what differs and ends with 1 if something does."""
import re
import sys
import textwrap
from pathlib import Path

ROOT = Path(__file__).resolve().parent.parent
RUST = "bindings/rust/src"
HEADER = "include/shupkelen.h"
EXPORTS = "crates/shupkelen/src"
WIDTH = 160

# a parameter's kind, as it is written in the source, to its form in C, in the declarations and in the calls over slices; a slice is a pointer and a count
SLICES = {
    "&[u8]": ("const uint8_t *", "*const u8", "&"),
    "&[u32]": ("const uint32_t *", "*const u32", "&"),
    "&mut [u8]": ("uint8_t *", "*mut u8", "mut "),
    "&mut [u32]": ("uint32_t *", "*mut u32", "mut "),
}
NUMBERS = {"u32": "uint32_t ", "i32": "int32_t ", "usize": "size_t "}
# numbers that say yes or no
FLAGS = {"parameters"}
# more parameters than these are too many for clippy
MOST = 7
# calls that the Rust crate has over slices alone
ALONE = re.compile(r"version$|compare$|check_number$|lent$|exponent_|product_")


def read(path):
    return (ROOT / path).read_text(encoding="utf-8")


def glued(text):
    """The text with blanks at which no line ends."""
    return text.replace(" ", "\0")


def filled(text, first, other):
    lines = textwrap.wrap(text, WIDTH, initial_indent=first, subsequent_indent=other, break_on_hyphens=False)
    return [line.replace("\0", " ") for line in lines]


def laid(indent, head, parameters, tail):
    """A signature as rustfmt lays it out."""
    line = f"{indent}{head}({', '.join(parameters)}){tail}"
    return [line] if len(line) <= WIDTH else [f"{indent}{head}(", *(f"{indent}    {p}," for p in parameters), f"{indent}){tail}"]


class Exported:
    """A function as the source exports it: its name, its parameters as (name, kind), and its words as one line."""

    def __init__(self, words, name, parameters):
        self.name, self.short = name, name.removeprefix("shupkelen_")
        # contracts have the word 'result' for what is returned
        named = [p.strip().split(": ") for p in parameters.split(",") if p.strip()]
        self.parameters = [("result" if name == "res" else name, kind) for name, kind in named]
        self.words = " ".join(line.removeprefix("///").strip() for line in words.splitlines()).replace("`res`", "`result`")

    def flat(self, slices, numbers):
        """The parameters as C has them: what `slices` and `numbers` make of each, and a count behind each slice."""
        for name, kind in self.parameters:
            if kind in SLICES:
                yield slices(name, kind)
                yield numbers(name + "_len", "usize")
            else:
                yield numbers(name, kind)

    def in_c(self):
        """Its comment and its prototype."""
        comment = filled(self.words.replace("`", "") + glued(" */"), "/* ", " * ")
        parameters = self.flat(lambda name, kind: SLICES[kind][0] + name, lambda name, kind: NUMBERS[kind] + name)
        return [*comment, *filled(f"uint32_t {self.name}({', '.join(glued(p) for p in parameters) or 'void'});", "", "    ")]

    def docs(self, indent):
        return filled(self.words, indent + "/// ", indent + "/// ")

    def declared(self):
        """Its declaration in Rust."""
        parameters = list(self.flat(lambda name, kind: f"{name}: {SLICES[kind][1]}", lambda name, kind: f"{name}: {kind}"))
        return [*self.docs("    "), *laid("    ", f"pub fn {self.name}", parameters, " -> u32;")]

    def called(self):
        """The call over slices; where it ends with an answer, its words are told."""
        answers = self.parameters[-1:] == [("answer", "&mut [u32]")]
        own = self.parameters[:-1] if answers else self.parameters
        flags = [name for name, _ in own if name in FLAGS]
        parameters = [f"{name}: {'bool' if name in FLAGS else kind}" for name, kind in own]
        lent = ", ".join((SLICES[kind][2] if kind in SLICES else "") + name for name, kind in own)
        return [
            *self.docs(""),
            *(["#[allow(clippy::too_many_arguments)]"] if len(own) > MOST else []),
            *laid("", f"pub fn {self.short}", parameters, f" -> {'Told' if answers else 'u32'} {{"),
            *(f"    let {name} = {name} as u32;" for name in flags),
            f"    {'ask' if answers else 'lend'}!({', '.join([self.name, lent]).rstrip()})",
            "}",
        ]


def source():
    """file: its exported functions, in their order."""
    found = {}
    for path in sorted((ROOT / EXPORTS).rglob("*.rt")):
        text = path.read_text(encoding="utf-8")
        parts = re.findall(r'((?:^///.*\n)+)#\[unsafe\(no_mangle\)\]\npub extern "C" fn (\w+)\(([^)]*)\) -> u32\n', text, re.M)
        if len(parts) != text.count("#[unsafe(no_mangle)]"):
            raise SystemExit(f"{path.relative_to(ROOT)}: an exported function is written otherwise, or has no words")
        if parts:
            found[str(path.relative_to(ROOT))] = [Exported(*part) for part in parts]
    return found


# a mark with the file or the folder that the text behind it is made from; the text; the mark behind it
MARKED = re.compile(r"(from (crates/shupkelen/src\S*), by tools/header\.py[^\n]*\n)(.*?)(?=\n *(?:// |/\* )end\b)", re.S)
# where that is done, how a function stands there, and what stands between two
PLACES = [(HEADER, Exported.in_c, "\n\n"), ("bindings/rust-sys/src/lib.rs", Exported.declared, "\n"), (f"{RUST}/raw.rs", Exported.called, "\n\n")]


def differ(ours, text, form, between):
    """The text with what is made of the functions between its marks, and the names of those of which something else stood there."""
    names = []

    def made(marked):
        functions = [f for file, fs in ours.items() if file.startswith(marked.group(2)) for f in fs]
        parts = ["\n".join(form(f)) for f in functions]
        if marked.group(3) != between.join(parts):
            names.extend([f.name for f, part in zip(functions, parts) if part not in marked.group(3)] or [marked.group(2)])
        return marked.group(1) + between.join(parts)

    return MARKED.sub(made, text), names


def declarations(ours, write):
    for path, form, between in PLACES:
        text, names = differ(ours, read(path), form, between)
        if names and write:
            (ROOT / path).write_text(text, encoding="utf-8")
        elif names:
            yield f"{path}: {', '.join(names)}: not as crates/shupkelen exports and words it: python3 tools/header.py --write"


def asked(ours, write):
    """Calls that bindings/c/empty.c doesn't ask; written, they are lent the slices that stand there under the same names."""
    path = "bindings/c/empty.c"
    text = read(path)
    there = set(re.findall(r"\bCALL\((\w+),", text))
    for f in (f for fs in ours.values() for f in fs if f.short not in there and f.parameters):
        call = f"CALL({f.short}, {', '.join(f'S({name})' if kind in SLICES else '1' for name, kind in f.parameters)})"
        if write:
            text = re.sub(r"^(    CALL\(.*\))$", r"\1 \\\n    " + call, text, flags=re.M)
            (ROOT / path).write_text(text, encoding="utf-8")
        else:
            yield f"{path}: no {call}: python3 tools/header.py --write"


def wrapped(ours):
    """Calls that no safe function of the Rust crate makes."""
    made = set(re.findall(r"\braw::(\w+)\(", read(f"{RUST}/lib.rs")))
    yield from (f"{RUST}/lib.rs: no safe function over raw::{f.short}" for fs in ours.values() for f in fs if f.short not in made and not ALONE.match(f.short))


def constants(text):
    """Constants of a Rust or Rattle source, and members of the header's enums."""
    return {name: int(n.replace("_", "")) for name, n in re.findall(r"\b([A-Z][A-Z_]*)(?:: usize)? = ([\d_]+)\b", text)}


def in_capitals(name):
    return re.sub(r"(?<=[a-z])(?=[A-Z])", "_", name).upper()


def numbers():
    c, rust = constants(read("include/shupkelen.h")), read(f"{RUST}/lib.rs")
    rules = read("crates/rules/src/lib.rt")
    refusals = dict(re.findall(r"Refusal::(\w+) => (\d+)", rules))
    theirs = dict(re.findall(r"^    (\w+) = (\d+),", re.search(r"pub enum Refusal \{(.*?)\n\}", rust, re.S).group(1), re.M))
    if refusals != theirs:
        yield "the refusals of the Rust crate differ"
    if any(c.get("SHUPKELEN_" + in_capitals(name)) != int(n) for name, n in refusals.items()):
        yield "the refusals of the header differ"
    limits = {**constants(rules), **constants(read("crates/text/src/lib.rt"))}
    raw = {**constants(rust), **constants(read(f"{RUST}/raw.rs"))}
    for name in ("POOL_BYTES", "TABLE_WORDS", "NAMES", "NAME_BYTES", "RECORDS", "FACTORS", "WORK_WORDS", "TEXT_BYTES"):
        if c["SHUPKELEN_" + name] != limits[name] or raw.get(name, limits[name]) != limits[name]:
            yield f"{name} differs"
    if c["SHUPKELEN_LIST_WORDS"] != limits["RECORD_WORDS"]:
        yield "LIST_WORDS differs"
    for name in ("LIST_WORDS", "PRODUCT_WORDS", "KEPT_BYTES", "SKIPPED_WORDS", "ANSWER_WORDS"):
        if c["SHUPKELEN_" + name] != raw[name]:
            yield f"{name} differs between the header and the Rust crate"


def versions():
    version = read("VERSION").strip()
    first, second, third = map(int, version.split("."))
    said = re.search(r'SHUPKELEN_VERSION (\d+)\n#define SHUPKELEN_VERSION_TEXT "([^"]*)"', read("include/shupkelen.h"))
    if said.groups() != (str(first * 10_000 + second * 100 + third), version):
        yield "the header has another version"
    if f"ensures {{ result ≡ version {first} {second} {third} }}" not in read("crates/shupkelen/src/version.rt"):
        yield "the library has another version"
    if f'version = "{version}"\nedition' not in read("bindings/Cargo.toml"):
        yield "the Rust crates have another version"
    if f'shupkelen-sys = {{ path = "../rust-sys", version = "{version}" }}' not in read("bindings/rust/Cargo.toml"):
        yield "shupkelen asks for another version of shupkelen-sys"
    if f'.version("{version}")' not in read("crates/edition_command/src/arguments.rt"):
        yield "check_edition has another version"


def main():
    named = re.findall(MARKED, read(HEADER))
    found = source()
    # in the order of the header's marks
    ours = {file: found[file] for _, file, _ in named if file in found}
    missing = [f"{HEADER}: no mark names {file}" for file in found.keys() - ours.keys()]
    write = "--write" in sys.argv[1:]
    found = [*missing, *declarations(ours, write), *asked(ours, write), *wrapped(ours), *numbers(), *versions()]
    for line in found:
        print(line)
    print(f"declarations: {sum(map(len, ours.values()))} functions, {len(found)} differences")
    return 1 if found or not ours else 0


if __name__ == "__main__":
    sys.exit(main())
