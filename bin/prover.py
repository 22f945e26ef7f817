"""Calls of the prover on a crate, over the libraries that `rt` left of the crates below it, each in its out/."""
import pathlib
import subprocess
import sys
import tempfile

from crates import LIBRARY, ROOT, deps_of, with_below


def kit_folder():
    """The folder of the kit of `rt`."""
    page = subprocess.run(["rt", "doc"], stdout=subprocess.PIPE, encoding="utf-8", check=True).stdout
    return pathlib.Path(page.strip()).parent


def library_of(name):
    """Where `rt` leaves a crate of this repository as a library."""
    return ROOT / "crates" / name / "out/rlib" / f"{name}.rlib"


def not_built(name):
    """What to do where a crate below this one is not there as a library, or None."""
    missing = [it for it in with_below([name]) if it != name and not library_of(it).is_dir()]
    return f"{missing[0]} is not built: run rt ci, or rt check in crates/{name}" if missing else None


def words_of(name, kit):
    """The words of the prover that name a crate, its libraries, and the logic of the kit in this folder."""
    below = [it for it in with_below([name]) if it != name]
    words = ["--crate-name", name, "src/lib.rt", f"--links={name}="]
    words += [f"--extern={it}={library_of(it) if it in below else f'{kit}/rlibs/{it}.rlib'}" for it in ["std", *deps_of(LIBRARY[name])]]
    words += [f"-Ldependency={it}" for it in [f"{kit}/rlibs", *(library_of(it).parent for it in below)]]
    return [*words, f"--antt-project={kit}/rattle/logic/antt-project.json", f"--logic-built={kit}/logic_built"]


def build_archive(name, archive, *words, toolchain=None):
    """Proves a crate that is a static library, and writes it, with these further words for the prover. Where that fails, the script ends."""
    kit, why = kit_folder(), not_built(name)
    if why:
        sys.exit(why)
    words = [*words_of(name, kit), "--crate-type=staticlib", f"--toolchain={toolchain or kit / 'toolchain'}", "--incremental=out/incremental", *words]
    how = {"stdout": subprocess.PIPE, "stderr": subprocess.STDOUT, "encoding": "utf-8", "check": False}
    ran = subprocess.run([f"{kit}/bin/rattle", "build", *words, "-o", archive], cwd=ROOT / "crates" / name, **how)
    if ran.returncode:
        sys.exit(f"{ran.stdout[-2000:]}\n{name} was not built")


def archive_for(name, target):
    """The bytes of a crate that is a static library, for a target, after its proof."""
    with tempfile.TemporaryDirectory() as room:
        archive = pathlib.Path(room) / f"lib{name}.a"
        build_archive(name, archive, f"--target={target}")
        return archive.read_bytes()
