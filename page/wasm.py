"""The proved program as a WebAssembly module with a 32-bit memory, and the check of how it is lowered."""

import re
import shutil
from functools import cache
from pathlib import Path
from typing import Optional

import retarget
from common import Bad
from toolchain import toolchain
from workshop import BYTES, CALLS, Workshop, run

EXPORT, ROOM = "papr_bytes_call", "page_room"
DECODING = {"papr_decode", "papr_rights"}  # what the page calls of the library for C
STACK = 2**23  # bytes
WASM = ["--target=wasm64-unknown-unknown", "-mcpu=lime1", "--no-default-config"]
# The flags with which `rattle build` has its modules compiled for wasm64.
AS_THE_TOOLCHAIN = """
    -mllvm -expand-div-rem-bits=64 -mllvm -expand-fp-convert-bits=64 -ffunction-sections -fdata-sections
    -mllvm -trap-unreachable -mllvm -no-x86-call-frame-opt -mllvm -disable-machine-licm
    -mllvm -disable-postra-machine-licm -mllvm -sink-common-insts=false -no-canonical-prefixes
    -fintegrated-cc1 -fno-crash-diagnostics -Werror
""".split()
HEAP_FLAGS = "-std=gnu11 -O2 -fwrapv -ffreestanding -nostdinc -Wall -Wextra -Werror".split()
# What every engine has by now. The memory's numbers become 32 bits wide.
FEATURES = "memory64 bulk-memory sign-ext nontrapping-float-to-int mutable-globals multivalue".split()
NARROWED = [*(f"--enable-{it}" for it in FEATURES), "--memory64-lowering", "--strip-producers"]


def made_with(kit: Path) -> str:
    """The tools that a module is made with."""
    name = (kit / "KIT-ID").read_text(encoding="utf-8").split("\n")[0].strip()
    binaryen = re.search(r"version (\d+)", run(["wasm-opt", "--version"]))
    return f"Made with {name} and binaryen {binaryen[1] if binaryen else 'of no known version'}."


def missing(page: str, built: Path) -> Optional[str]:
    """Why a page can't be built here with the bytes that it has, over what is proved; or nothing."""
    for tool in ("rt", "wasm-opt"):
        if shutil.which(tool) is None:
            return f"{tool} is not here"
    if not (built / "papr_top.rlib").exists():
        return f"what ./papr proves isn't kept in {built}"
    made = made_with(toolchain().kit)
    return None if f"<p>{made}</p>" in page else f"the page was made with other tools; here: {made}"


@cache
def lowered(shop: Workshop) -> str:
    """The library for C as the toolchain lowers it for wasm64, which it can, since there is no heap in it."""
    return shop.module(CALLS, retarget.TARGET)


def compared(shop: Workshop) -> retarget.Compared:
    """The retargeting of the library for C against the toolchain's own lowering of it."""
    return retarget.compared(shop.module(CALLS), lowered(shop))


def heap(shop: Workshop) -> Path:
    """The heap for wasm64, with the room for the page's own bytes exported."""
    text, made = shop.work / "heap.ll", shop.work / "heap.o"
    run([shop.clang, *WASM, *HEAP_FLAGS, "-S", "-emit-llvm", "page/heap.c", "-o", str(text)])
    given = text.read_text(encoding="utf-8")
    put = rf'\g<0>"wasm-export-name"="{ROOM}" '
    found, count = re.subn(rf"(?m)^define .* @{ROOM}\(.* #\d+ ", put, given)
    if count != 1:
        raise Bad(f"heap.c has {count} functions {ROOM}")
    text.write_text(found, encoding="utf-8")
    run([shop.clang, *WASM, "-O2", "-Werror", "-c", "-x", "ir", str(text), "-o", str(made)])
    return made


def compiled(shop: Workshop, name: str, text: str) -> Path:
    """An object for wasm64 of a module of LLVM, compiled as the toolchain would."""
    given, made = shop.work / f"{name}.ll", shop.work / f"{name}.o"
    given.write_text(text, encoding="utf-8")
    run([shop.clang, *WASM, *AS_THE_TOOLCHAIN, "-c", "-x", "ir", str(given), "-o", str(made), "-O3"])
    return made


def module(shop: Workshop) -> Path:
    """The module: proved, retargeted, compiled for wasm64, linked with the heap, and made of 32 bits."""
    program = compiled(shop, "program", retarget.retargeted(shop.module(BYTES), {EXPORT}))
    decoding = compiled(shop, "decoding", retarget.exporting(lowered(shop), DECODING))
    library, wide, narrow = (shop.work / it for it in ("libmodule.a", "papr64.wasm", "papr.wasm"))
    library.unlink(missing_ok=True)
    run([shop.archiver, "rcs", str(library), *map(str, (program, decoding, heap(shop)))])
    link = [f"{shop.kit.kit}/bin/rattle-link", "--target", retarget.TARGET]
    link += ["--toolchain", f"{shop.kit.kit}/toolchain", "--stack", str(STACK)]
    run([*link, "-o", str(wide), str(library)])
    run(["wasm-opt", *NARROWED, str(wide), "-o", str(narrow)])
    return narrow
