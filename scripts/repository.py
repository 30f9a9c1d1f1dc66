"""What the scripts read of this repository: its crates, their dependencies, and files that are made."""
import re
import sys
from functools import cache
from pathlib import Path

ROOT = Path(__file__).resolve().parent.parent


@cache
def listed():
    """The lines of crates.txt: the words before the colon, a crate's name the first, and those behind it."""
    lines = (line.split("#")[0].strip() for line in (ROOT / "crates.txt").read_text().splitlines())
    return [[part.split() for part in line.split(":")] for line in lines if line]


@cache
def crates():
    """Each crate with the libraries that it names, in the order of crates.txt."""
    return {head[0]: libraries for head, libraries in listed()}


@cache
def statics():
    """The crates that are built as archives."""
    return [head[0] for head, _ in listed() if "staticlib" in head]


def own(names):
    """Those that are crates of this repository; the others are the toolchain's."""
    return [name for name in names if name in crates()]


@cache
def below(crate):
    """All that a crate needs, directly or through others."""
    direct = own(crates()[crate])
    return frozenset(direct).union(*(below(name) for name in direct))


@cache
def needs(crate):
    """Its dependencies without those that another of them brings along."""
    direct = own(crates()[crate])
    return [name for name in direct if not any(name in below(other) for other in direct)]


@cache
def sources(crate):
    return sorted((ROOT / "crates" / crate / "src").rglob("*.rt"))


@cache
def definitions(crate):
    """The files of specs/ and proofs/."""
    folder = ROOT / "crates" / crate
    return sorted(path for part in ("specs", "proofs") for path in (folder / part).rglob("*.antt"))


@cache
def functions(crate):
    """How many functions a crate has, but for its tests: each is proved."""
    text = "\n".join(path.read_text() for path in sources(crate) if path.stem != "tests")
    return len(re.findall(r"^\s*(?:pub )?(?:extern \"C\" )?fn \w+", text, re.MULTILINE))


@cache
def edits(crate):
    """How many edits of a crate the prover must refuse."""
    return len(list((ROOT / "crates" / crate / "must-fail").glob("*.edit")))


def write_or_check(path, text):
    """Writes a made file; with --check says whether it is what would be written, by the exit status."""
    if "--check" not in sys.argv[1:]:
        path.write_text(text)
        return
    if not path.exists() or path.read_text() != text:
        sys.exit(f"{path.relative_to(ROOT)} is not what {Path(sys.argv[0]).name} writes: run it and commit the file")
    print(f"{path.relative_to(ROOT)} is what {Path(sys.argv[0]).name} writes")
