#!/usr/bin/env python3
"""Counts, in crates/*/src, the places where the older language shows (docs/DESIGN-PASS.md), a row for each sign.

A sign finds candidates by their text; the page says which of them are places and what became of each.
  scripts/places.py            the counts
  scripts/places.py --list     each candidate: crate, file, name
  scripts/places.py --list 3a  those of one sign
"""
import collections
import pathlib
import re
import sys

ROOT = pathlib.Path(__file__).resolve().parent.parent
FN = re.compile(r"^( *)(?:pub )?(?:const )?(?:extern \"C\" )?fn (\w+)", re.M)
NONE_NAMES = {"Nothing", "Unset", "None", "Off", "Kept", "Whole", "Accepted", "Refused", "NoText"}
NUMBER = r"(?:u8|u16|u32|u64|usize)"
KEYWORDS = {
    "as", "break", "continue", "else", "false", "for", "if", "in", "let", "loop", "match", "mut", "return", "true",
    "while",
}


def files():
    for path in sorted(ROOT.glob("crates/*/src/**/*.rt")):
        yield path.relative_to(ROOT / "crates"), path.read_text()


def opens(line, indent):
    """Whether a function's body starts with this line, and not a clause of its contract."""
    return line == indent + "{" or line.endswith(" {") and "requires" not in line and "ensures" not in line


def functions(text):
    """Name, comment above, head (with the clauses) and body of each function."""
    lines = text.split("\n")
    for i, line in enumerate(lines):
        found = FN.match(line)
        if not found:
            continue
        indent, name = found.group(1), found.group(2)
        above = []
        k = i - 1
        while 0 <= k and (lines[k].strip().startswith("//") or lines[k].strip().startswith("#[")):
            above.insert(0, lines[k].strip())
            k -= 1
        head = []
        k = i
        while k < len(lines) and not opens(lines[k], indent):
            head.append(lines[k])
            k += 1
        if k < len(lines) and lines[k] != indent + "{":
            head.append(lines[k])
        body = []
        k += 1
        while k < len(lines) and lines[k] != indent + "}":
            body.append(lines[k])
            k += 1
        yield name, " ".join(above), "\n".join(head), "\n".join(body)


def items(text, word):
    attributes = r"((?:^ *#\[[^\n]*\n)*)"
    item = attributes + r"^ *(?:pub )?" + word + r" (\w+)[^{;\n]*\{\n(.*?)^ *\}"
    for found in re.finditer(item, text, re.M | re.S):
        yield found.group(2), found.group(1), found.group(3)


def variants(body):
    body = re.sub(r"//[^\n]*", "", body)
    found = re.findall(r"^\s*(\w+(?:\([^)]*\)|\s*\{[^}]*\})?),", body, re.M)
    return [(re.match(r"\w+", v).group(0), "(" in v or "{" in v) for v in found]


def bare(code):
    """The shape of a body: no comments, each name and number replaced."""
    code = re.sub(r"//[^\n]*", "", code)
    code = re.sub(r"b?'(?:\\.|[^'])'|b?\"[^\"]*\"", "n", code)
    code = re.sub(r"\b(?:0x)?\d[\d_]*\w*", "n", code)
    code = re.sub(r"\b[A-Za-z_]\w*", lambda m: m.group(0) if m.group(0) in KEYWORDS else "v", code)
    return re.sub(r"\s+", " ", code).strip()


def clauses(head):
    for found in re.finditer(r"\brequires(?: \w+)? \{(.*?)\}\s*(?=\n|$)", head, re.S):
        yield re.sub(r"\s+", " ", found.group(1)).strip()


def params(head):
    found = re.search(r"fn \w+(?:<[^>]*>)?\((.*?)\)(?: ->|\n|$| \{)", head, re.S)
    if not found:
        return []
    return [re.sub(r"\s+", " ", p).strip() for p in re.split(r",(?![^\[<(]*[\]>)])", found.group(1)) if ":" in p]


def collect():
    signs = collections.OrderedDict()

    def add(sign, what, path, name):
        signs.setdefault((sign, what), []).append(f"{path}: {name}")

    shapes = collections.defaultdict(list)
    rows = collections.defaultdict(set)
    stated = collections.defaultdict(list)
    for path, text in files():
        crate = str(path).split("/")[0]
        for name, attrs, body in items(text, "enum"):
            vs = variants(body)
            if any(v in NONE_NAMES for v, _ in vs) or len(vs) == 2 and any(d for _, d in vs):
                add("1a", "enums of the shape of Option or Result", path, name)
            if "PartialEq" not in attrs:
                add("4c", "enums with no derived equality", path, name)
        for name, attrs, body in items(text, "struct"):
            if "repr(C)" in attrs:
                continue
            if re.search(r": bool,", body):
                add("1b", "structs with a flag", path, name)
            if re.search(r"\b(refusal|rank|kind|number): " + NUMBER, body):
                add("1d", "fields that hold a kind or a refusal as a number", path, name)
            if re.search(r": \[", body):
                add("6a", "structs with a buffer of fixed length", path, name)
        for found in re.finditer(r"^ *(?:pub )?const (\w+): (?:u8|u64|usize) = ", text, re.M):
            add("1e", "constants that are numbers", path, found.group(1))
        for name, above, head, body in functions(text):
            numbered = re.search(r"-> .*\b" + NUMBER, head) and re.search(r"\b(?:0|COUNT|UNTOLD|none|None)\b", above)
            if numbered and re.search(r"\b(?:or|if|where|else|for)\b", above):
                add("1c", "functions with a number for `none`", path, name)
            for found in re.finditer(r"^ *while ", body, re.M):
                add("3a", "`while` loops", path, name)
            if body.count("return true;") + body.count("return false;") >= 2:
                add("4a", "chains of `return true` and `return false`", path, name)
            arms = re.findall(r"=> ([^\n]*),$", body, re.M)
            plain = arms and all(re.match(r"(true|false|\d+|[\w:]+(\(\w*\))?)$", a) for a in arms)
            if re.match(r"\s*match \w+ \{", body) and plain:
                add("4b", "conversions and tests by `match`", path, name)
            calls = re.findall(r"=> ([\w:]+\([^\n]*\)),$", body, re.M)
            if "match " in body and len(calls) >= 2 and not all(re.match(r"[\w:]*[A-Z]\w*\(", a) for a in calls):
                add("7a", "switches on which function to run", path, name)
            shape = bare(body)
            if len(shape) > 40:
                shapes[shape].append((path, name))
            ps = params(head)
            for n in range(3, min(len(ps), 6) + 1):
                for k in range(len(ps) - n + 1):
                    rows[tuple(ps[k:k + n])].add((str(path), name))
            for clause in clauses(head):
                stated[clause].append((path, name))
    for shape, places in shapes.items():
        if len(places) > 1:
            for path, name in places:
                add("2a", "functions of one shape, with other names and numbers", path, name)
    longest = {k: v for k, v in rows.items() if len(v) >= 3}
    within = {k for k, v in longest.items() if any(set(k) < set(o) and v <= w for o, w in longest.items())}
    longest = {k: v for k, v in longest.items() if k not in within}
    for ps, places in longest.items():
        row = f"{', '.join(ps)} ({len(places)})"
        add("5a", "rows of three parameters or more that three functions or more take", "*", row)
    for clause, places in stated.items():
        if len(places) >= 3:
            add("5b", "`requires` clauses that three functions or more state", "*", f"{clause} ({len(places)})")
    answers = list(ROOT.glob("crates/*/proofs/**/Answers.antt"))
    for path in answers:
        add("8a", "files of answers", path.relative_to(ROOT / "crates").parent, "Answers")
    return signs


def main():
    listed = "--list" in sys.argv
    only = [a for a in sys.argv[1:] if not a.startswith("-")]
    for (sign, what), places in sorted(collect().items()):
        if only and sign not in only:
            continue
        print(f"{sign} {what}: {len(places)}")
        if listed:
            for place in places:
                print(f"    {place}")


main()
