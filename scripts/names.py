#!/usr/bin/env python3
"""Fails where a document cites a function, a type, a definition file or a path that is not there."""
import re
import sys
from pathlib import Path

from repository import ROOT, crates, definitions, sources

CITED = re.compile(r"\b([a-z][a-z_0-9]*)((?:::\w+)+)")
FILE = re.compile(r"\b\w+\.antt\b")
# a path from the repository's root; what is built is not looked for
PATH = re.compile(r"(?<![\w/.-])((?:crates|rust|c|tools|docs|scripts)/[\w./-]*\w)")
# a stand-in for any name, files that the toolchain generates or has, and the older form of a proof
ANY = {"FN.antt", "Lts.antt", "Proof.antt", "Digits.antt"}
# it has old names beside the new ones
PAST = {"DESIGN-PASS.md"}


def documents():
    return sorted(path for path in ROOT.rglob("*.md") if "target" not in path.parts and path.name not in PAST)


def is_missing(crate, path):
    """The last name of a path that starts with a crate of this repository."""
    text = "".join(source.read_text() for source in sources(crate)) if crate in crates() else ""
    return bool(text) and not re.search(rf"\b{path.split('::')[-1]}\b", text)


def is_gone(path):
    return not {"target", "out"} & set(Path(path).parts) and not (ROOT / path).exists()


def missing(path, files):
    text = path.read_text()
    code = {crate + rest for crate, rest in CITED.findall(text) if is_missing(crate, rest)}
    gone = {cited for cited in PATH.findall(text) if is_gone(cited)}
    names = sorted(code | gone | set(FILE.findall(text)) - files)
    return [f"{path.relative_to(ROOT)}: {name} is not there" for name in names]


known = {path.name for crate in crates() for path in definitions(crate)} | ANY
found = [line for path in documents() for line in missing(path, known)]
print("\n".join(found) or "what the documents cite is there")
sys.exit(bool(found))
