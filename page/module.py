"""The proved calls as a module of WebAssembly.

platforms/build keeps the LLVM module of the proved crate saga_c, which the kit compiles for
x86-64. The module is retargeted to wasm64 (retarget.py). The tools of the kit compile and link it
with the heap of heap.c. Then it gets a memory of 32 bits (narrow.py). The proof covers the crate.
It does not cover these steps and the compiler, which are tested against the program byte for byte.
"""

from __future__ import annotations

import subprocess
import sys
import tempfile
from pathlib import Path

from narrow import narrowed
from retarget import retargeted

HERE = Path(__file__).resolve().parent
STACK = 4 * 1024 * 1024

# The calls of a coordinator: the page and the module of JavaScript have none of them. The C file
# frees the memory of a coordinator at once.
COORDINATOR = frozenset({"sagas_open", "sagas_answer", "sagas_reply", "sagas_close"})
CLOSING = frozenset({"sagas_close"})

# The options with which the kit compiles a module for wasm64.
OPTIONS = (
    "--target=wasm64-unknown-unknown -mcpu=lime1 -mllvm -expand-div-rem-bits=64 "
    "-mllvm -expand-fp-convert-bits=64 -ffunction-sections -fdata-sections "
    "-mllvm -trap-unreachable -mllvm -no-x86-call-frame-opt -mllvm -disable-machine-licm "
    "-mllvm -disable-postra-machine-licm -mllvm -sink-common-insts=false --no-default-config "
    "-no-canonical-prefixes -fintegrated-cc1 -fno-crash-diagnostics -Werror"
).split()


def fail(why: str) -> None:
    """End the program with a message."""
    sys.exit(f"page: {why}")


def kit() -> Path:
    """Return the folder of the kit."""
    return Path(
        subprocess.run(["rt", "doc"], check=True, capture_output=True, text=True).stdout.strip()
    ).parent


def made(module: Path, left_out: frozenset[str] = COORDINATOR) -> bytes:
    """Return the WebAssembly module for an LLVM module of x86-64, without some of its calls."""
    folder_of_kit = kit()
    clang = str(folder_of_kit / "toolchain" / "bin" / "clang")
    with tempfile.TemporaryDirectory(prefix="sagas-page-") as name:
        folder = Path(name)

        def run(*command: str, tool: str = clang) -> None:
            ran = subprocess.run(
                command, executable=tool, cwd=folder, capture_output=True, text=True, check=False
            )
            if ran.returncode:
                fail(f"{command[0]} failed: {ran.stderr[-2000:]}")

        run(
            "clang",
            "--target=x86_64-unknown-linux-gnu",
            "-S",
            "-emit-llvm",
            "-Xclang",
            "-disable-llvm-passes",
            "-x",
            "ir",
            str(module.resolve()),
            "-o",
            "module.ll",
        )
        text = (folder / "module.ll").read_text(encoding="utf-8")
        (folder / "wasm.ll").write_text(retargeted(text, left_out), encoding="utf-8")
        run("clang", *OPTIONS, "-c", "-O3", "-x", "ir", "wasm.ll", "-o", "module.o")
        run(
            "clang",
            *OPTIONS,
            "-c",
            "-O2",
            "-fwrapv",
            "-ffreestanding",
            "-nostdinc",
            "-fno-builtin",
            "-x",
            "c",
            str(HERE / "heap.c"),
            "-o",
            "heap.o",
        )
        run("llvm-ar", "rcsD", "page.a", "module.o", "heap.o")
        linker = str(folder_of_kit / "bin" / "rattle-link")
        run(
            linker,
            "--target",
            "wasm64-unknown-unknown",
            "--toolchain",
            str(folder_of_kit / "toolchain"),
            "--stack",
            str(STACK),
            "-o",
            "sagas.wasm",
            "page.a",
            tool=linker,
        )
        return narrowed((folder / "sagas.wasm").read_bytes())
