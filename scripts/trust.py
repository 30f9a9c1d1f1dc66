#!/usr/bin/env python3
"""Writes the lists of docs/TRUST.md: the definition files behind the exported contracts, with their lines and their
sentences. With --check it writes nothing and fails where the file would change."""
import re
from dataclasses import dataclass, field
from functools import cache
from textwrap import wrap

from repository import ROOT, crates, sources, write_or_check

PAGE = ROOT / "docs" / "TRUST.md"
EXPORTER = "wirescript"
WIDTH = 112

# a definition file, or a type declared in code: the crate, then the path below its specs
SPEC = re.compile(r"Rattle\.(?!std\b)(\w+)\.specs\.((?:\w+\.)*\w+)")
LIBRARY = r"(?:Rattle\.std|mathlib|Prim)(?:\.\w+)+"
KIT = re.compile(rf"\b({LIBRARY})\.\{{([^}}]*)\}}")
KIT_AS = re.compile(rf"^use ({LIBRARY}) as (\w+)", re.MULTILINE)
EXPORT = re.compile(r'^#\[unsafe\(no_mangle\)\]\npub extern "C" fn (\w+)(.*?)^\{', re.MULTILINE | re.DOTALL)
USE = re.compile(r"^(?:ghost )?use ([^;{]+?)(?:\.\{([^}]*)\})?;", re.MULTILINE)
WORD = re.compile(r"[\w']+")


def named(path, names):
    """The names that a use line brings in."""
    return [name.strip() for name in names.split(",")] if names else [re.split(r"::|\.", path)[-1]]


def contract_uses(text, signature):
    """The use lines of a file that a function's signature and contract need, as one text."""
    words = set(WORD.findall(signature))
    lines = [match for match in USE.finditer(text) if words & set(named(*match.groups()))]
    return "\n".join(match.group(0) for match in lines)


def asking_nothing(name, signature):
    """A signature and its contract, which must have no requires: the page says so."""
    assert "requires" not in signature, f"{name} asks something of its caller"
    return signature


def exports():
    """Each exported function with the use lines of its contract."""
    found = {}
    for path in sources(EXPORTER):
        text = path.read_text()
        found.update({name: contract_uses(text, asking_nothing(name, rest)) for name, rest in EXPORT.findall(text)})
    return dict(sorted(found.items()))


def place(crate, dotted):
    """The file that a path below a crate's specs stands for; a declared type stands in the code."""
    parts = dotted.split(".")
    if parts[0] == "declared":
        return declared(crate, parts[1:])
    folder = ROOT / "crates" / crate / "specs"
    # a path may go on into a type of the file
    lengths = range(len(parts), 0, -1)
    return next(path for path in (folder.joinpath(*parts[:n]).with_suffix(".antt") for n in lengths) if path.exists())


def declared(crate, parts):
    """The code file with the type's declaration: a path below declared is that of modules, then of the type."""
    kinds = re.compile(rf"^pub (?:struct|enum) ({'|'.join(parts)})\b", re.MULTILINE)
    return next(path for path in sources(crate) if kinds.search(path.read_text()))


@cache
def cited(path):
    """The definition files that a definition file cites."""
    return frozenset(spec_files(path.read_text())) if path.suffix == ".antt" else frozenset()


def spec_files(text):
    return {place(crate, dotted) for crate, dotted in SPEC.findall(text)}


def reached(text):
    """All files behind a contract's use lines."""
    done, ahead = set(), spec_files(text)
    while ahead:
        done |= ahead
        ahead = set().union(*(cited(path) for path in ahead)) - done
    return done


def behind():
    """Each file with the exported functions that it is behind."""
    files = {}
    for name, uses in exports().items():
        for path in reached(uses):
            files.setdefault(path, []).append(name)
    return files


def order(path):
    """Lowest crate first, as crates.txt has them."""
    return list(crates()).index(path.relative_to(ROOT / "crates").parts[0]), str(path)


def shown(path):
    return str(path.relative_to(ROOT))


def length(path):
    return len(path.read_text().splitlines())


def extent(files, function):
    """How much stands behind a function."""
    own_files = [path for path, calls in files.items() if function in calls]
    return f"{sum(map(length, own_files)):,} lines in {len(own_files)} files"


def table(files, numbers):
    """A line for each file: how long it is, and the numbers of the functions that it is behind."""
    rows = [(length(path), shown(path), files[path]) for path in sorted(files, key=order)]
    wide = max(len(name) for _, name, _ in rows)
    lines = [f"{count:5}  {name:{wide}}  {' '.join(str(numbers[f]) for f in calls)}" for count, name, calls in rows]
    return [*lines, f"{sum(row[0] for row in rows):5}  lines in {len(rows)} files"]


HEADING = re.compile(r"-- ---- (.*)")
COMMENT = re.compile(r"( *)-- (.*)")
BESIDE = re.compile(r" +(\S.*?) : .*?  -- (.*)")
DEFINED = re.compile(r"(?:(?:abbrev|unfoldable|opaque) )?pub (?:record |data )?(?!mod |use )([^\s:({]+)")
FIELD = re.compile(r"  pub (\S+) :")


@dataclass
class Block:
    """A comment, how far it is indented, and the names that are defined under it."""

    indent: int = 0
    comment: list = field(default_factory=list)
    names: list = field(default_factory=list)


def blocks(text):
    """The comments of a file: the first is the file's own, and ends where a line follows that is no comment."""
    found, going_on = [Block()], True
    for line in text.splitlines():
        comment = COMMENT.match(line)
        if comment and not going_on:
            found.append(Block(len(comment.group(1))))
        going_on = bool(comment) and not HEADING.match(line)
        add_line(found, line, comment)
    return found


def add_line(found, line, comment):
    """A line's comment or the names that it defines, added to the block that it belongs to."""
    beside = BESIDE.match(line)
    if comment:
        found[-1].comment.append(HEADING.sub(r"**\1**", line).strip().removeprefix("-- "))
    elif beside:
        found.append(Block(2, [beside.group(2)], beside.group(1).split()))
    else:
        add_name(found, line)


def add_name(found, line):
    """A definition under no comment of its own goes with the one before, but not with a field's or a case's."""
    field_name, name = FIELD.match(line), DEFINED.match(line)
    if name and found[-1].indent:
        found.append(Block())
    match = name or (field_name if found[-1].indent else None)
    found[-1].names.extend([match.group(1)] if match else [])


def item(block):
    text = " ".join(block.comment) or "(no sentence of its own)"
    tail = f" ({', '.join(f'`{name}`' for name in block.names)})" if block.names else ""
    return wrap(f"- {text}{tail}", WIDTH, subsequent_indent="  ", break_long_words=False, break_on_hyphens=False)


def sentences(path):
    """A section for a definition file."""
    head, *rest = blocks(path.read_text())
    lines = [f"### `{shown(path)}`", "", *wrap(" ".join(head.comment), WIDTH, break_on_hyphens=False), ""]
    first = [Block(names=head.names)] if head.names else []
    return lines + [line for block in first + rest for line in item(block)] + [""]


def declared_types(files):
    """The types that definitions and code share, from the paths that the definition files name."""
    types = {}
    for path in files:
        for crate, dotted in SPEC.findall(path.read_text()):
            if dotted.startswith("declared."):
                types.setdefault(shown(place(crate, dotted)), set()).add(declared_name(crate, dotted))
    return types


def declared_name(crate, dotted):
    text = place(crate, dotted).read_text()
    return next(p for p in dotted.split(".")[1:] if re.search(rf"^pub (?:struct|enum) {p}\b", text, re.MULTILINE))


def kit_names(files):
    """The toolchain's own definitions that the files use, by their names or through a module's short name."""
    used = {}
    for text in (path.read_text() for path in files):
        for module, names in KIT.findall(text):
            used.setdefault(module, set()).update(name.strip() for name in names.split(","))
        for module, short in KIT_AS.findall(text):
            used.setdefault(module, set()).update(re.findall(rf"(?<![\w.]){short}\.([^\s().]+)", text))
    return used


def in_bytes(row):
    """The row in lines of at most WIDTH bytes: an operator's signs take three each."""
    padded = "".join(sign + "\0" * (len(sign.encode()) - 1) for sign in row)
    lines = wrap(padded, WIDTH, subsequent_indent="  ", break_on_hyphens=False)
    return [line.replace("\0", "") for line in lines]


def listing(named_sets):
    quoted = {key: ", ".join(f"`{name}`" for name in sorted(names)) for key, names in named_sets.items()}
    rows = (f"- `{key}`: {names}" for key, names in sorted(quoted.items()))
    return [line for row in rows for line in in_bytes(row)]


def unsafe_blocks():
    """The Rust that a host runs beside the library, with its unsafe blocks."""
    others = {"target", "runs", "upstream", "ec4rs", "tests"}
    rust = (path for path in ROOT.rglob("*.rs") if not others & set(path.parts))
    counts = {shown(path): len(re.findall(r"\bunsafe\b(?! extern)", path.read_text())) for path in sorted(rust)}
    return [f"- `{name}`: {count}" for name, count in counts.items() if count]


def programs():
    """The crates that read and write: those that name the toolchain's `std::io`."""
    texts = {name: "".join(path.read_text() for path in sources(name)) for name in crates()}
    return [f"- `{name}`" for name, text in texts.items() if re.search(r"\bstd::io\b", text)]


def parts():
    """What stands between the markers of the page, by the marker's name."""
    files = {path: calls for path, calls in behind().items() if path.suffix == ".antt"}
    numbers = {name: n for n, name in enumerate(exports(), 1)}
    return {
        "exports": [f"{n}. `{name}`: {extent(files, name)}" for name, n in numbers.items()],
        "files": ["```", *table(files, numbers), "```"],
        "types": listing(declared_types(files)),
        "kit": listing(kit_names(files)),
        "unsafe": unsafe_blocks(),
        "programs": programs(),
        "sentences": [line for path in sorted(files, key=order) for line in sentences(path)][:-1],
    }


def main():
    page = PAGE.read_text()
    for name, lines in parts().items():
        made = f"<!-- made: {name} -->\n\n" + "\n".join(lines) + f"\n\n<!-- end: {name} -->"
        page, count = re.subn(rf"<!-- made: {name} -->.*?<!-- end: {name} -->", lambda _: made, page, flags=re.DOTALL)
        assert count == 1, f"docs/TRUST.md has no place for {name}"
    write_or_check(PAGE, page)


main()
