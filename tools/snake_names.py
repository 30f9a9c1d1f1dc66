#!/usr/bin/env python3
"""Spells the repository's own definitions, fields and lemmas in snake case.

usage: python3 tools/snake_names.py [--look]

It runs once, at the top, on what port.py has left. A name that specs/ or a file of laws (proofs/*.antt) declares with
dashes or in camel case gets underscores everywhere: in texts, clauses, must-fail edits and, between backticks, in the
documents. A name that a file brings in from a library stays there. Where two names would fall together, the law's gets
`_law` behind it; TABLE has the others that need a name of their own. --look writes nothing and lists, by file, the new
names that the file has already.
"""

import collections
import glob
import os
import re
import sys

DECLARED = re.compile(
    r"^(\s*)(?:(?:pub|abbrev|unfoldable|private) )*([^\s(){}.;,@\"«»:]+)(?: \{[^{}\n]*\})* :(?= |$)", re.M
)
TOKEN = re.compile(r"[^\s(){}\[\].;,@\"«»`:|]+")
USE = re.compile(r"\buse ([^\s;{]+)\.\{([^}]*)\}")
CRATES = set(os.listdir("crates"))
LAW = "_law"

# Names that a rule would give to two things in one file.
TABLE = {}


def snake(name):
    return re.sub(r"(?<=[a-z0-9])([A-Z])", r"_\1", name).replace("-", "_").lower()


def is_text(path):
    """Whether the file declares for others: specs/, or laws in proofs/."""
    parts = path.split("/")
    return parts[2] == "specs" or parts[2] == "proofs" and len(parts) == 4


def read(path):
    with open(path, encoding="utf-8") as file:
        return file.read()


def files(end):
    return sorted(it for it in glob.glob(f"crates/**/*{end}", recursive=True) if "/out/" not in it)


def names():
    """The table of new names, from what the texts declare."""
    homes = collections.defaultdict(set)
    for path in files(".antt"):
        if is_text(path):
            for found in DECLARED.finditer(read(path)):
                homes[found[2]].add(path)
    table = {it: snake(it) for it in homes if is_old(it)}
    alike = collections.defaultdict(set)
    for it in homes:
        alike[table.get(it, it)].add(it)
    for new, olds in alike.items():
        if len(olds) > 1:
            in_specs = lambda it: any("/specs/" in home for home in homes[it])
            # A definition keeps the name: one of specs/, else the one in camel case.
            keeps = min(olds, key=lambda it: (not in_specs(it), "-" in it, it == new))
            for it in olds - {keeps}:
                table[it] = new + LAW
            if keeps == new:
                table.pop(new, None)
    table.update(TABLE)
    return table


def brought(text):
    """The names that the file brings in from libraries."""
    out = set()
    for path, items in USE.findall(text):
        steps = path.split(".")
        if steps[0] == "Rattle" and steps[1] in CRATES:
            continue
        out.update(TOKEN.findall(items))
    return out


def is_old(name):
    return name[0].islower() and bool(re.search(r"-\w|[a-z0-9][A-Z]", name))


def laws_of(text, path):
    """The names that the file declares for others or brings in from the repository's laws."""
    out = {it[2] for it in DECLARED.finditer(text)} if is_text(path) else set()
    for steps, items in USE.findall(text):
        if ".proofs." in steps:
            out.update(TOKEN.findall(items))
    return out


def turned(text, table, path):
    stay, laws = set(), set()
    if path.endswith((".antt", ".rt")):
        stay = brought(text)
        laws = laws_of(text, path)
    comment = "//" if path.endswith(".rt") else None
    is_proof = path.endswith("/Proof.antt")

    def line(of):
        code, note = of, ""
        if comment and comment in of:
            at = of.index(comment)
            code, note = of[:at], of[at:]

        def one(found):
            word = found[0]
            new = table.get(word)
            if new is None or word in stay:
                return word
            # a law that is spelled as a step or a name of the source
            if not is_old(word) and word not in laws:
                return word
            before = code[: found.start()]
            if before.endswith(".") and (is_proof or not is_old(word)):
                return word
            return new

        return TOKEN.sub(one, code) + note

    return "\n".join(line(it) for it in text.split("\n"))


def main():
    table = names()
    look = "--look" in sys.argv
    paths = files(".antt") + files(".rt") + files(".edit")
    for path in paths:
        text = read(path)
        new = turned(text, table, path)
        if look:
            words = lambda of: set(re.findall(r"(?<![^\s(){}\[\];,@`:|])[^\s(){}\[\].;,@\"«»`:|]+", re.sub(r"(--|//).*", "", of)))
            had = words(text)
            turn = {table[it]: it for it in had if it in table and it not in brought(text)}
            both = {new: old for new, old in turn.items() if new in had and new not in table}
            if path.endswith(".rt"):
                both = {n: o for n, o in both.items() if not re.search(rf"\bfn {n}\b|\b{n}\(", text) or re.search(rf"\b{n}:", text)}
            if both:
                print(path, both)
        elif new != text:
            with open(path, "w", encoding="utf-8") as file:
                file.write(new)
    if not look:
        for path in ["README.md", *sorted(set(glob.glob("docs/*.md")) - {"docs/EDITORS.md"}), *glob.glob("wip/*.txt")]:
            text = read(path)
            new = re.sub(r"`[^`\n]+`", lambda it: turned(it[0], table, path), text)
            if new != text:
                with open(path, "w", encoding="utf-8") as file:
                    file.write(new)
    print(len(table), "names")


main()
