"""What a program or an archive was made of, for bin/build and bin/prebuild.

FILE.made, next to FILE, names the kit, and has a line for the file and for each source of its crate and those below, as
sha256sum reads them. bin/lockreplay and bin/lockexplore compare it. A program itself tells the SHA-256 of
the lines of its sources.
"""
import hashlib
import subprocess

from crates import ROOT, with_below

# what a program tells in the place of that sum until it is finished
UNMADE = b"not proved as it is: bin/build writes the sum of the sources here after a proof."


def sum_of(data):
    return hashlib.sha256(data).hexdigest()


def row(file, data):
    """The line of a file of the repository with this content."""
    return f"{sum_of(data)}  {file.relative_to(ROOT)}\n"


def source_rows(name):
    """The lines of the sources of a crate and of those below it."""
    folders = [(ROOT / "crates" / it / folder, kind) for it in sorted(with_below([name])) for folder, kind in (("specs", "*.antt"), ("src", "*.rt"))]
    files = [file for folder, kind in folders for file in sorted(folder.rglob(kind), key=str)]
    return "".join(row(it, it.read_bytes()) for it in files if not {"tests", "tests.rt"} & {*it.parts})


def kit():
    """The kit's name and logic."""
    return subprocess.run(["rt", "version"], stdout=subprocess.PIPE, encoding="utf-8", check=True).stdout.strip()


def finished(program, sources):
    """The bytes of a linked program that tells the sum of these lines of sources."""
    return program.replace(UNMADE, b"proved, sources " + sum_of(sources.encode()).encode())


def made(file, content, sources):
    """The text of FILE.made for this content."""
    return f"# {kit()}\n{row(file, content)}{sources}"


def write(file, content, sources):
    """Writes a program, an archive or a module, and its FILE.made."""
    file.write_bytes(content)
    file.chmod(0o644 if file.suffix in (".a", ".wasm") else 0o755)
    file.with_name(f"{file.name}.made").write_text(made(file, content, sources), encoding="utf-8")
