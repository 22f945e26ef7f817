"""The crates of this repository, as crates.txt lists them, for the other scripts here."""
import pathlib
import re
import shutil

ROOT = pathlib.Path(__file__).resolve().parent.parent


def text_of(file):
    """The text of a file, empty if there is none."""
    return file.read_text(encoding="utf-8") if file.exists() else ""


def named(lines):
    """The lines of a crates.txt, by the names of their crates."""
    rows = (it for it in lines.splitlines() if it.partition("#")[0].strip())
    return {re.split(r"[\s:]", row, maxsplit=1)[0]: row for row in rows}


def deps_of(row):
    """The crates that a line of crates.txt lists after the colon."""
    return row.partition("#")[0].partition(":")[2].split()


LIBRARY = named(text_of(ROOT / "crates.txt"))


def is_archive(name):
    """Whether a crate is a static library."""
    return "staticlib" in LIBRARY[name].partition(":")[0].split()


def with_below(names):
    """The lines of these crates and of those below them, by name."""
    found = [*names]
    for it in found:
        found += [below for below in deps_of(LIBRARY.get(it, "")) if below not in found]
    return {name: row for name, row in LIBRARY.items() if name in found}


def copy_crate(source, target):
    """Copies a crate without its edits and without what commands left in its out/. What stands in `target` stays."""
    own = lambda folder, _: ["more-edits", "out"] if folder == str(source) else []
    shutil.copytree(source, target, ignore=own, dirs_exist_ok=True)
