"""The module of the page, web/lock_page.wasm, for bin/prebuild.

The kit makes a module for wasm64 only of a crate that has no heap. So `rattle build` makes the crate lock_page for x86-64, and what it gives to
the kit's clang, in LLVM's form, is kept. The same clang compiles that for wasm64, next to the heap of web/heap.c, and `rattle-link` links both.
No proof covers this, as none covers what clang makes for x86-64.
"""
import pathlib
import re
import subprocess
import tempfile

from crates import ROOT
from prover import build_archive, kit_folder

CRATE = "lock_page"
HEAP = ROOT / "web/heap.c"
TARGET = ["--target=wasm64-unknown-unknown", "-mcpu=lime1", "--no-default-config"]
# as the kit's own compilation for wasm64 has them
PASSES = ["expand-div-rem-bits=64", "expand-fp-convert-bits=64", "trap-unreachable", "no-x86-call-frame-opt"]
PASSES += ["disable-machine-licm", "disable-postra-machine-licm", "sink-common-insts=false"]
# the stack of the module, in bytes
STACK = 8 << 20

# the kit's clang, which first keeps what it is to compile
CLANG = """\
#!/bin/sh
case " $* " in *' module.bc '*) /bin/cp module.bc {room}/ ;; esac
exec {clang} "$@"
"""


def call(*words, **how):
    """Runs a command, and returns what it writes. Where it fails, the script ends."""
    return subprocess.run([*map(str, words)], stdout=subprocess.PIPE, encoding="utf-8", check=True, **how).stdout


def proved_code(kit, room):
    """The code of the crate in LLVM's form, after its proof."""
    tools = room / "toolchain"
    (tools / "bin").mkdir(parents=True)
    (tools / "lib").symlink_to(kit / "toolchain/lib")
    for it in (kit / "toolchain/bin").iterdir():
        (tools / "bin" / it.name).symlink_to(it)
    clang = tools / "bin/clang"
    clang.unlink()
    clang.write_text(CLANG.format(room=room, clang=kit / "toolchain/bin/clang"), encoding="utf-8")
    clang.chmod(0o755)
    build_archive(CRATE, room / "native.a", toolchain=tools)
    return call(kit / "toolchain/bin/clang", "-xir", room / "module.bc", "-S", "-emit-llvm", "-Xclang", "-disable-llvm-passes", "-o", "-")


def for_wasm(code, layout):
    """This code of LLVM's for wasm64: its data lie as for x86-64. What the crate exports, the module exports."""
    code = re.sub(r"^target datalayout = .*$", layout, code, flags=re.M)
    code = re.sub(r"^target triple = .*$", 'target triple = "wasm64-unknown-unknown"', code, flags=re.M)
    code = re.sub(r' "(probe-stack|stack-probe-size|target-cpu|target-features)"="[^"]*"', "", code)
    return re.sub(rf"^(define (?!internal).*@({CRATE}_\w+)\(.*\)) (#\d+) \{{$", r'\1 "wasm-export-name"="\2" \3 {', code, flags=re.M)


def module():
    """The bytes of the module, after a proof."""
    kit = kit_folder()
    clang = [kit / "toolchain/bin/clang", *TARGET]
    with tempfile.TemporaryDirectory() as folder:
        room = pathlib.Path(folder)
        layout = re.search("^target datalayout = .*$", call(*clang, "-S", "-emit-llvm", "-xc", "/dev/null", "-o", "-"), re.M)[0]
        (room / "code.ll").write_text(for_wasm(proved_code(kit, room), layout), encoding="utf-8")
        call(*clang, "-O3", "-ffunction-sections", "-fdata-sections", *(f"-mllvm=-{it}" for it in PASSES), "-c", "-xir", room / "code.ll", "-o", room / "code.o")
        call(*clang, "-O2", "-ffreestanding", "-nostdinc", "-c", HEAP, "-o", room / "heap.o")
        call(kit / "toolchain/bin/llvm-ar", "rcsD", room / "wasm.a", room / "code.o", room / "heap.o")
        link = [kit / "bin/rattle-link", "--target", "wasm64-unknown-unknown", "--toolchain", kit / "toolchain", "--stack", STACK]
        call(*link, "-o", room / "module.wasm", room / "wasm.a")
        return (room / "module.wasm").read_bytes()
