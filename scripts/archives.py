#!/usr/bin/env python3
"""archives.py [--over-ci] [NAME..]: builds target/staticlib/libNAME.a of each static library that crates.txt lists, or
of those that are named. An archive is built only from what is proved.

`rt lib` builds it: the first time it proves every crate below, in minutes, later what has changed. With --over-ci the
libraries that `rt ci` has just left in out/ are taken instead, as `rt ci` builds its programs over them, and nothing
below is proved again: for .ci/run in a clean clone, where they can't be older than the sources."""
import shutil
import subprocess
import sys
from pathlib import Path

from repository import ROOT, below, crates, own, statics

# what the code may need of a processor: any x86-64 has it
CPU = "--cpu=x86-64"
TO = ROOT / "target" / "staticlib"


def rlib(crate):
    return ROOT / "crates" / crate / "out" / "rlib" / f"{crate}.rlib"


def over_ci(crate, archive):
    """The command that builds an archive over the libraries of a run of rt ci."""
    guide = subprocess.run(["rt", "doc"], check=True, capture_output=True, text=True).stdout.strip()
    kit = Path(guide).parent
    command = [kit / "bin" / "rattle", "build", "--crate-name", crate, "src/lib.rt", "--crate-type", "staticlib", CPU]
    command += ["--extern", f"std={kit / 'rlibs' / 'std.rlib'}", "-L", f"dependency={kit / 'rlibs'}"]
    for name in own(crates()[crate]):
        command += ["--extern", f"{name}={rlib(name)}"]
    for name in sorted(below(crate)):
        command += ["-L", f"dependency={rlib(name).parent}"]
    command += ["--antt-project", kit / "rattle" / "logic" / "antt-project.json"]
    command += ["--logic-built", kit / "logic_built", "--toolchain", kit / "toolchain", "--jobs", "2"]
    return [*command, "--links", f"{crate}=", "-o", archive]


def build(crate, is_over_ci):
    archive = ROOT / "crates" / crate / "out" / f"lib{crate}.a"
    command = over_ci(crate, archive) if is_over_ci else ["rt", "lib", CPU]
    made = subprocess.run(command, cwd=ROOT / "crates" / crate, stdout=subprocess.PIPE, stderr=subprocess.STDOUT,
                          text=True)
    if made.returncode:
        sys.exit(f"{made.stdout}{crate} did not build")
    TO.mkdir(parents=True, exist_ok=True)
    shutil.copyfile(archive, TO / archive.name)
    print(f"{(TO / archive.name).relative_to(ROOT)}: {made.stdout.splitlines()[-1]}")


def main():
    words = sys.argv[1:]
    for crate in [word for word in words if word != "--over-ci"] or statics():
        if crate not in statics():
            sys.exit(f"crates.txt lists no static library {crate}")
        build(crate, "--over-ci" in words)


main()
