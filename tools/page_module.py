#!/usr/bin/env python3
"""Makes the WebAssembly module of the page: tools/page_module.py MODULE. It takes some three minutes, if an earlier `rt ci` proved the libraries.

For the target wasm64 the toolchain compiles nothing that has a heap ("a call of C on wasm64 that is not an import is not supported yet"), and all code here has
one. So the module is made on another way, in these steps:

0. The crate dsr_page and all below it are copied to a temporary repository, in which `rt ci` proves them. What it proved before on this machine is kept, and is
   not proved again.
1. `rattle build --backend llvm` is asked for x86-64, whose pointers have 64 bits too. It proves dsr_page once more, and hands a file of LLVM bitcode to the
   clang of the folder that `--toolchain` names. That folder is one made here, in which this script stands in clang's place.
2. In clang's place, the bitcode is written out as text; the data layout and the triple are replaced by those of wasm64; the attributes that only x86-64 has are
   dropped; the one function that is exported is named. The toolchain's own clang compiles the result for wasm64, with the flags that the toolchain
   itself uses for that target.
3. The same clang compiles page/parts/heap.c, which has the three functions of the heap, and `llvm-ar` adds it to the library.
4. `rattle-link` links the library to a module that imports nothing.
5. Names are dropped, and the table of functions, which must be unused.
6. If `wasm-opt` (binaryen) is on the path, the memory of 64 bits is lowered to one of 32, which more browsers know, as Safari.

Each step says what it expects, and stops with one line if the toolchain does otherwise. The same sources and tools give the same bytes.

Proved is the library, as for x86-64. Neither the compiler is, nor that code made for x86-64 may be compiled for wasm64, nor the heap, nor the lowering:
there the tests speak (tests/page.py).
"""

import os
import re
import shutil
import subprocess
import sys
import tempfile

import libraries
from page_sources import NAME, PARTS, TOP, crates

EXPORT, TARGET = "dsr_page_run", "wasm64-unknown-unknown"
HEAP = f"{PARTS}/heap.c"
# Binaryen's lowering knows no loads of vectors. An engine that has memories of 64 bits has vectors of 128.
CPU = {"lowered": ["-mcpu=lime1", "-mno-simd128"], "wasm64": ["-mcpu=lime1", "-msimd128"]}
HEAP_CODE = ["-O2", "-Wall", "-Wextra", "-Werror", "-ffreestanding", "-fno-builtin"]
# What the toolchain gives its clang for wasm64, as far as it can be read off it.
CODE = ["-O3", "-ffunction-sections", "-fdata-sections", "-Werror", "-Wno-override-module", "--no-default-config", "-fno-crash-diagnostics",
        *(word for flag in ("-disable-machine-licm", "-expand-div-rem-bits=64", "-expand-fp-convert-bits=64") for word in ("-mllvm", flag))]
LAYOUT = "e-m:e-p:64:64-p10:8:8-p20:8:8-i64:64-i128:128-n32:64-S128-ni:1:10:20"
# What is for x86-64 alone in a module of LLVM's: attributes of functions.
ELSEWHERE = re.compile(r' "(?:probe-stack|stack-probe-size|target-cpu|target-features|tune-cpu)"="[^"]*"')
# As a thread's stack is on Linux.
STACK = 8 << 20
# Kinds of sections: names and the like; the table of functions, and what is in it.
CUSTOM, TABLE, ELEMENTS = 0, 4, 9
LOWERING = ["--enable-memory64", "--enable-bulk-memory", "--enable-sign-ext", "--enable-mutable-globals", "--enable-nontrapping-float-to-int",
            "--enable-multivalue", "--memory64-lowering"]
# How the module is said to be in the page.
SAID = {"lowered": "memory of 32 bits, lowered from 64 by binaryen", "wasm64": "memory of 64 bits"}


class Otherwise(Exception):
    """The toolchain does a step otherwise than expected."""


def run(words, what):
    """Runs a command, which must end with status 0."""
    ran = subprocess.run(words, stdin=subprocess.DEVNULL, stdout=subprocess.PIPE, stderr=subprocess.STDOUT, text=True, errors="replace")
    if ran.returncode:
        raise Otherwise(f"{what}: {words[0]} ended with status {ran.returncode}\n{ran.stdout}")


def kind():
    """Which module is made here: lowered to a memory of 32 bits, or wasm64."""
    return "lowered" if shutil.which("wasm-opt") else "wasm64"


# ---- in the place of clang

def retargeted(text):
    """The text of a module for x86-64, for wasm64."""
    text, layouts = re.subn(r'(?m)^target datalayout = "e-[^"]*"', f'target datalayout = "{LAYOUT}"', text)
    text, triples = re.subn(r'(?m)^target triple = "x86_64-[^"]*"', f'target triple = "{TARGET}"', text)
    text, exports = re.subn(rf"(?m)^(define .*@{EXPORT}\(.*\).* #\d+)", rf'\1 "wasm-export-name"="{EXPORT}"', text)
    if (layouts, triples, exports) != (1, 1, 1):
        raise Otherwise(f"the toolchain's bitcode has {layouts} data layouts and {triples} triples of x86-64, and {exports} functions {EXPORT}, and not one of each")
    return ELSEWHERE.sub("", text)


def compile_in_its_place(clang, made, words):
    """Compiles for wasm64 what the toolchain hands to its clang."""
    given = [word for word in words if word.endswith(".bc")]
    if len(given) != 1 or "-o" not in words:
        raise Otherwise(f"the toolchain calls its clang otherwise than with one file of bitcode and -o: {' '.join(words)}")
    with tempfile.TemporaryDirectory(prefix="page-clang-") as room:
        text = f"{room}/module.ll"
        run([clang, "-x", "ir", given[0], "-S", "-emit-llvm", "-O0", "-Xclang", "-disable-llvm-passes", "-o", text], "writing out the bitcode")
        with open(text, encoding="utf-8") as file:
            retold = retargeted(file.read())
        with open(text, "w", encoding="utf-8") as file:
            file.write(retold)
        run([clang, f"--target={TARGET}", *CPU[made], *CODE, "-c", "-x", "ir", text, "-o", words[words.index("-o") + 1]], "compiling for wasm64")


def own_toolchain(tools, folder, made):
    """Makes a folder of compilers, as the toolchain's, but with this script in the place of clang."""
    os.makedirs(f"{folder}/bin")
    os.symlink(f"{tools}/lib", f"{folder}/lib")
    for name in os.listdir(f"{tools}/bin"):
        if name != "clang":
            os.symlink(f"{tools}/bin/{name}", f"{folder}/bin/{name}")
    with open(f"{folder}/bin/clang", "w", encoding="utf-8") as file:
        file.write(f'#!/bin/sh\nexec "{sys.executable}" -B "{os.path.realpath(__file__)}" --in-its-place "{tools}/bin/clang" {made} "$@"\n')
    os.chmod(f"{folder}/bin/clang", 0o755)


# ---- the module

def sections(module):
    """The sections of a module: of each its kind and its bytes."""
    at = 8
    while at < len(module):
        size = shift = 0
        end = at + 1
        while True:
            byte = module[end]
            size, shift, end = size | (byte & 127) << shift, shift + 7, end + 1
            if byte < 128:
                break
        yield module[at], module[at:end + size]
        at = end + size


def bare(module):
    """The module without the names in it, and without its table: one of 64 bits is known to fewer engines than a memory of 64 bits."""
    kept = list(sections(module))
    if any(number == ELEMENTS for number, _ in kept):
        raise Otherwise("the module uses its table of functions, which is dropped here")
    return module[:8] + b"".join(section for number, section in kept if number not in (CUSTOM, TABLE))


def prove(top):
    """Makes a repository of the page's crate and all below it in this folder, and has `rt ci` prove them there, which leaves them built."""
    needed = crates()
    for crate in needed:
        shutil.copytree(f"{TOP}/crates/{crate}", f"{top}/crates/{crate}", ignore=shutil.ignore_patterns("out"))
    shutil.copy2(f"{TOP}/HANDLES", top)
    os.mkdir(f"{top}/.git")
    with open(f"{top}/crates.txt", "w", encoding="utf-8") as file:
        file.writelines(f"{row}\n" for row in needed.values())
    if subprocess.run(["rt", "ci"], cwd=top, stdin=subprocess.DEVNULL, stdout=sys.stderr).returncode:
        raise Otherwise(f"{NAME} is not proved")


def link(top, room, kit, made):
    """Makes the library of the repository in the one folder and the heap, and links them to a module in the other."""
    tools, archive, heap, linked = f"{kit}/toolchain", f"{room}/lib{NAME}.a", f"{room}/heap.o", f"{room}/module.wasm"
    own_toolchain(tools, f"{room}/toolchain", made)
    said = libraries.build_archive(top, NAME, archive, f"{room}/toolchain")
    if said is not None:
        raise Otherwise(f"{said}the library {NAME} is not made")
    run([f"{tools}/bin/clang", f"--target={TARGET}", *CPU[made], *HEAP_CODE, "-c", HEAP, "-o", heap], "compiling the heap")
    run([f"{tools}/bin/llvm-ar", "rs", archive, heap], "adding the heap")
    run([f"{kit}/bin/rattle-link", "--target", TARGET, "--toolchain", tools, "--stack", str(STACK), "-o", linked, archive], "linking the module")
    return linked


def build(made=None):
    """Makes the module, and gives its bytes and how it is said to be."""
    made = made or kind()
    with tempfile.TemporaryDirectory(prefix="page-module-") as room, tempfile.TemporaryDirectory(prefix="page-crates-") as top:
        prove(top)
        linked = link(top, room, libraries.toolchain().KIT, made)
        with open(linked, "rb") as file:
            module = bare(file.read())
        if made == "lowered":
            with open(linked, "wb") as file:
                file.write(module)
            run(["wasm-opt", *LOWERING, linked, "-o", f"{room}/lowered.wasm"], "lowering the memory")
            with open(f"{room}/lowered.wasm", "rb") as file:
                module = file.read()
    return module, SAID[made]


def main(words):
    try:
        if words[:1] == ["--in-its-place"]:
            compile_in_its_place(words[1], words[2], words[3:])
        elif len(words) == 1 and not words[0].startswith("-"):
            module, said = build()
            with open(words[0], "wb") as file:
                file.write(module)
            print(f"{words[0]}: {len(module):,} bytes, {said}")
        else:
            print(__doc__, file=sys.stderr)
            return 2
    except (Otherwise, libraries.OtherToolchain) as fault:
        print(f"tools/page_module.py: {fault}", file=sys.stderr)
        return 1
    return 0


if __name__ == "__main__":
    sys.exit(main(sys.argv[1:]))
