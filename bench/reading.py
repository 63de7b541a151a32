#!/usr/bin/env python3
"""Prints the definitions that one reads to believe what Tau promises, in three tiers, and compares them with docs/reading.md.

    bench/reading.py            prints the tables of the tiers; the status is 1 where docs/reading.md has others
    bench/reading.py --write    writes them into docs/reading.md, between the two marks of each tier

It starts from a few names (`tiers` below), in the last tier from those that the contracts of the top calls cite, and follows,
definition by definition, what a definition names: what its file has or brings in by `use Rattle.CRATE.specs..`, and the types
of the program in `src/`, by their fields, or by their models where they have one; of a trait its contracts. Where a law that is
a contract says all that there is to know of a definition (`LAWS` below), the law is listed in its place, and nothing of the
definition is followed. A definition is in the first tier that reaches it. Lines are those of the definitions, without comments
and empty lines. Crates stand in the order of their layers in docs/crates.md, and files of a crate so that each comes after those
that it imports. What the kit's crates define isn't followed.
"""

import re
import sys
from dataclasses import dataclass, field
from functools import cache
from pathlib import Path

ROOT = Path(__file__).resolve().parent.parent
CRATES = ROOT / "crates"
DOCUMENT = ROOT / "docs" / "reading.md"
USE = re.compile(r"^\s*(?:ghost |pub )?use Rattle\.(\w+)\.specs\.([\w.]+?)(?:\.\{([^}]*)\}| as (\w+));?\s*$", re.M)
RUST_USE = re.compile(r"^use (\w+)::(?:\w+::)*(?:\{([^}]*)\}|(\w+));", re.M)
HEAD = re.compile(r"^(?:(?:abbrev|unfoldable)(?: pub)?|(?:pub )?(?:data|record)) (?P<kind>\S+)|^(?:pub )?(?P<law>\S+) :|^mutual$")
INNER_HEAD = re.compile(r"^  pub (?:data |record )?(\S+) ", re.M)
VARIANT = re.compile(r"^ +(\w+) :", re.M)
RUST_HEAD = re.compile(r"^(?:pub(?:\(\w+\))? )?(struct|enum|type|const|trait) (\w+)", re.M)
RUST_END = re.compile(r";$|^\}$|\{\}$", re.M)
WORD = re.compile(r"[^\s(){}\[\],;:=λ→×≡<>&]+")


# By crate, module and name: the law, of the same module, that determines a definition.
LAWS = {("tau_eval", "Same", "same_values"): "SameValuesAreEqual"}


@dataclass(frozen=True)
class Definition:
    """A definition: its file, and which block of the file it is."""

    file: Path
    block: int


@dataclass
class Block:
    """Lines of a file, without comments, that define these names together; the first are those by which it is told."""

    names: list
    lines: list

    def text(self):
        """Its lines as one."""
        return "\n".join(self.lines)


@dataclass
class Source:
    """A file: its blocks; what each name that it brings in is, as file and name there; and what a word before a dot stands for."""

    blocks: list = field(default_factory=list)
    names: dict = field(default_factory=dict)
    aliases: dict = field(default_factory=dict)


# ---- reading files


def file_of(crate, module):
    """The file of a module of definitions, or of the source that declares a type."""
    parts = module.split(".")
    if parts[0] != "declared":
        return CRATES / crate / "specs" / ("/".join(parts) + ".antt")
    for end in range(len(parts), 1, -1):
        path = CRATES / crate / "src" / ("/".join(parts[1:end]) + ".rt")
        if path.exists():
            return path
    raise SystemExit(f"no source declares {crate} {module}")


def bring_in(text, source):
    """Adds what the lines `use Rattle.CRATE.specs..` of a text bring in, but what the kit's crates have."""
    for crate, module, names, alias in USE.findall(text):
        if not (CRATES / crate).is_dir():
            continue
        file = file_of(crate, module)
        owner = module.split(".")[-2] if module.endswith(".TheVariants") else None
        if alias:
            source.aliases[alias] = (file, owner)
        for name in filter(None, (part.strip() for part in names.split(","))):
            original, _, renamed = name.partition(" as ")
            source.names[renamed or original] = (file, owner or original)


def owner_of(line, blocks):
    """The block to which a line belongs that begins none."""
    if line[0] in " }":
        return blocks[-1]
    for block in blocks:
        if line.split()[0] in block.names:
            return block
    raise SystemExit(f"what defines this? {line}")


def blocks_of(text):
    """The blocks of a file of definitions."""
    blocks = []
    for line in text.splitlines():
        if not line.strip() or line.startswith(("use ", "pub use ")) or line.lstrip().startswith("--"):
            continue
        head = HEAD.match(line)
        if head:
            blocks.append(Block([head["kind"] or head["law"]], [line]))
        else:
            owner_of(line, blocks).lines.append(line)
    for block in blocks:
        if "mutual" in block.lines[0].split():
            block.names = INNER_HEAD.findall(block.text()) + VARIANT.findall(block.text())
        elif "data" in block.lines[0].split()[:2]:
            block.names += VARIANT.findall(block.text())
    return blocks


def rust_block(text, head, source):
    """A type, a trait or a constant of a source, as contracts see it: by its model, where it has one, or by its fields."""
    sort, name = head.groups()
    end = re.compile(r"^\}$", re.M) if sort == "trait" else RUST_END
    body = text[head.start():end.search(text, head.start()).end()]
    model = re.search(rf"^impl(?:<[^{{]*>)? Model for {name}\b.*?^\}}$", text, re.M | re.S)
    if model:
        bring_in(model.group(), source)
        value = re.search(r"^ +ghost Value = \{.*?\};$", model.group(), re.M | re.S)
        body = value.group() if value else ""
    lines = [line for line in body.splitlines() if line.strip() and not line.lstrip().startswith(("//", "#["))]
    return Block([name], lines)


def named_in_rust(block):
    """What a block of a source names: of a struct and an enum the types behind the names of their fields and variants."""
    if re.match(r"(pub(\(\w+\))? )?(struct|enum) ", block.text()):
        return "\n".join(re.sub(r"^\s+(pub(\(\w+\))? )?\w+", "", line) for line in block.lines)
    return block.text()


@cache
def source_of(file):
    """A file, read."""
    text = file.read_text(encoding="utf-8")
    source = Source()
    bring_in(text, source)
    if file.suffix == ".antt":
        source.blocks = blocks_of(text)
        return source
    crate = crate_of(file)
    source.blocks = [rust_block(text, head, source) for head in RUST_HEAD.finditer(text)]
    for owner, names, name in RUST_USE.findall(text):
        known = types_of(crate if owner == "crate" else owner)
        for word in filter(None, (part.strip() for part in (names or name).split(","))):
            if word in known:
                source.names[word] = (known[word], word)
    for word, place in types_of(crate).items():
        source.names.setdefault(word, (place, word))
    return source


@cache
def types_of(crate):
    """The types, traits and constants of a crate, each with its file."""
    files = sorted((CRATES / crate / "src").rglob("*.rt"))
    return {name: file for file in files for _, name in RUST_HEAD.findall(file.read_text(encoding="utf-8"))}


def crate_of(file):
    """The crate of a file."""
    return file.relative_to(CRATES).parts[0]


# ---- what is read


def find(file, name):
    """The definition of a name in a file, or None where it has none."""
    for number, block in enumerate(source_of(file).blocks):
        if name in block.names:
            return Definition(file, number)
    return None


def found_at(file, name):
    """The definition of a name in a file, which there has to be."""
    definition = find(file, name)
    if definition is None:
        raise SystemExit(f"{file.relative_to(ROOT)} defines no {name}")
    return definition


def resolved(text, source, file):
    """The definitions that a text of a file names."""
    for word in WORD.findall(text):
        head, _, rest = word.partition(".")
        if file and find(file, head):
            yield find(file, head)
        elif head in source.aliases:
            place, owner = source.aliases[head]
            yield found_at(place, owner or rest.split(".")[0])
        elif head in source.names:
            yield found_at(*source.names[head])


def named_by(definition):
    """The definitions that one names."""
    source = source_of(definition.file)
    block = source.blocks[definition.block]
    text = named_in_rust(block) if definition.file.suffix == ".rt" else block.text()
    return resolved(text, source, definition.file)


@cache
def laws():
    """The law by which each definition is told that has one."""
    told = {}
    for (crate, module, name), law in LAWS.items():
        file = file_of(crate, module)
        told[found_at(file, name)] = found_at(file, law)
    return told


def reach(starts, before):
    """The definitions that some reach, but those that were reached before."""
    found, left = set(), list(starts)
    while left:
        definition = left.pop()
        definition = laws().get(definition, definition)
        if definition not in found and definition not in before:
            found.add(definition)
            left.extend([] if definition in laws().values() else named_by(definition))
    return found


def cited_by(crate, path, calls):
    """The definitions, and the traits, that the contracts of these public functions name."""
    file = CRATES / crate / "src" / path
    text = file.read_text(encoding="utf-8")
    for call in calls:
        contract = re.search(rf"^pub fn {call}\b.*?^\{{$", text, re.M | re.S)
        if contract is None:
            raise SystemExit(f"{crate} has no {call}")
        yield from resolved(contract.group(), source_of(file), None)


def tiers():
    """The three tiers, each with its name and the definitions that no tier before it has."""
    meaning = [
        found_at(file_of("tau_legal", "Traces"), "Legal"),
        found_at(file_of("tau_legal", "Traces"), "Complete"),
        found_at(file_of("tau_past", "Safety"), "Safe"),
        found_at(file_of("tau_past", "States"), "SavedWith"),
    ]
    text = [found_at(file_of("tau_output", "Runs"), "RunsBy")]
    process = [
        *cited_by("tau_cli", "calls.rt", ["tau_still", "tau"]),
        *cited_by("tau_cli", "process.rt", ["run_process", "run_words"]),
    ]
    before = set()
    for name, starts in (("meaning", meaning), ("text", text), ("process", process)):
        found = reach(starts, before)
        before |= found
        yield name, found


# ---- the tables


@cache
def depth(file):
    """How many files stand below one, counted along the longest way."""
    places = [*source_of(file).names.values(), *source_of(file).aliases.values()]
    return 1 + max((depth(place) for place, _ in places if place.suffix == ".antt" and place != file), default=0)


@cache
def layers():
    """The layer of each crate in the map of docs/crates.md."""
    text = (ROOT / "docs" / "crates.md").read_text(encoding="utf-8")
    rows = re.findall(r"^(\d+) +((?:\w+ *)+)$", text, re.M)
    return {crate: int(number) for number, crates in rows for crate in crates.split()}


def order_of(file):
    """Where a file stands in a table."""
    crate = crate_of(file)
    if crate not in layers():
        raise SystemExit(f"the map of docs/crates.md has no {crate}")
    return layers()[crate], crate, depth(file) if file.suffix == ".antt" else 0, str(file)


def table(found):
    """The tables of a tier: of its files of definitions, and of its types of the program."""
    read = {}
    for definition in found:
        read.setdefault(definition.file, []).append(definition.block)
    for suffix, title in ((".antt", "files of definitions"), (".rt", "sources of types")):
        files = sorted((file for file in read if file.suffix == suffix), key=order_of)
        blocks = {file: [source_of(file).blocks[number] for number in sorted(read[file])] for file in files}
        lines = {file: sum(len(block.lines) for block in blocks[file]) for file in files}
        yield f"{len(files)} {title}, {sum(lines.values()):,} lines:"
        yield ""
        yield "| file | lines | to read |"
        yield "|---|---|---|"
        for file in files:
            yield f"| `{file.relative_to(CRATES)}` | {lines[file]} | {', '.join(told(block) for block in blocks[file])} |"
        yield ""


def told(block):
    """How a table names a block: by what it defines, without the variants of a list of cases."""
    if "mutual" in block.lines[0].split():
        return ", ".join(f"`{name}`" for name in INNER_HEAD.findall(block.text()))
    return f"`{block.names[0]}`"


def parts_of(text, name):
    """A document before, between and after the two marks of a tier."""
    begin, end = f"<!-- {name} -->\n", f"<!-- end of {name} -->"
    if begin not in text or end not in text:
        raise SystemExit(f"{DOCUMENT.name} has no marks of the tier {name}")
    head, rest = text.split(begin)
    old, tail = rest.split(end)
    return head + begin, old.strip(), end + tail


def main(options):
    """Prints the tables, and compares or writes them."""
    text = DOCUMENT.read_text(encoding="utf-8")
    other = []
    for name, found in tiers():
        new = "\n".join(table(found)).strip()
        print(f"## {name}\n\n{new}\n")
        head, old, tail = parts_of(text, name)
        text = f"{head}\n{new}\n\n{tail}"
        if old != new:
            other.append(name)
    if "--write" in options:
        DOCUMENT.write_text(text, encoding="utf-8")
    elif other:
        print(f"docs/reading.md has other tables of: {', '.join(other)}", file=sys.stderr)
        return 1
    return 0


if __name__ == "__main__":
    sys.exit(main(sys.argv[1:]))
