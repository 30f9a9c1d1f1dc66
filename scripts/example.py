#!/usr/bin/env python3
"""Fills README's example: what the program given, by default crates/wsfmt/out/wsfmt, writes for the text before. With
--check it fails where README has something else."""
import re
import subprocess
import sys

from repository import ROOT, write_or_check

PAGE = ROOT / "README.md"
BLOCK = r"(<!-- {} -->\n```\n)(.*?)(```\n)"


def main():
    program = next((word for word in sys.argv[1:] if word != "--check"), ROOT / "crates" / "wsfmt" / "out" / "wsfmt")
    page = PAGE.read_text()
    before = re.search(BLOCK.format("before"), page, re.DOTALL).group(2)
    run = subprocess.run([program], input=before.encode(), capture_output=True, check=True)
    after = run.stdout.decode()
    made = re.sub(BLOCK.format("after"), lambda found: found[1] + after + found[3], page, flags=re.DOTALL)
    write_or_check(PAGE, made)


main()
