#!/usr/bin/env python3
"""Fails where a line of a document, of a script here or of the C side has more than 120 columns."""
import sys

from repository import ROOT

MOST = 120


def written():
    documents = (path for path in ROOT.rglob("*.md") if "target" not in path.parts)
    return sorted({*documents, *(ROOT / "scripts").glob("*.py"), *(ROOT / "c").iterdir()})


def wide(path):
    lines = enumerate(path.read_text().splitlines(), 1)
    return [f"{path.relative_to(ROOT)}:{n}: {len(line)} columns" for n, line in lines if len(line) > MOST]


found = [line for path in written() for line in wide(path)]
print("\n".join(found) or f"no line has more than {MOST} columns")
sys.exit(bool(found))
