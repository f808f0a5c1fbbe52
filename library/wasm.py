#!/usr/bin/env python3
"""Makes a WebAssembly module of the library for C, for engines with 32-bit memory.

    library/wasm.py KIT OUT.wasm [MODULE.bc]

The kit proves crates/fed_c and lowers it to one LLVM module for x86-64, which is kept as its compiler comes to it (or given as MODULE.bc);
the kit refuses to lower what allocates for wasm64. Target, data layout and processor are changed, and nothing else: both targets are
little-endian with pointers of 64 bits and the same alignments. The one intrinsic of x86-64 in it, a shuffle of bytes, is written out. The
kit's clang compiles the module with the flags that the kit passes for wasm64, heap.c stands for malloc, and the kit's linker links both.
Last, wasm-opt turns 64-bit memory into 32-bit memory. What this trusts beyond the proofs stands in docs/library.md."""
import os
import re
import shutil
import subprocess
import sys
import tempfile

HERE = os.path.dirname(os.path.abspath(__file__))
TOP = os.path.dirname(HERE)
CRATE = os.path.join(TOP, "crates", "fed_c")
TARGET = "wasm64-unknown-unknown"
LAYOUT = "e-m:e-p:64:64-p10:8:8-p20:8:8-i64:64-i128:128-n32:64-S128-ni:1:10:20"
# What `rattle build` passes to clang for wasm64.
FLAGS = ["-mcpu=lime1", "-mllvm", "-expand-div-rem-bits=64", "-mllvm", "-expand-fp-convert-bits=64", "-ffunction-sections",
         "-fdata-sections", "-mllvm", "-trap-unreachable", "-mllvm", "-disable-machine-licm", "-mllvm", "-disable-postra-machine-licm",
         "-mllvm", "-sink-common-insts=false", "--no-default-config", "-no-canonical-prefixes", "-fno-crash-diagnostics", "-Werror"]
# 0 where the index has its high bit, else the byte at the index modulo 16.
SHUFFLED = "".join([
    "define internal <16 x i8> @shuffled(<16 x i8> %bytes, <16 x i8> %places) noinline {\n",
    *[f"""  %p{i} = extractelement <16 x i8> %places, i32 {i}
  %h{i} = icmp slt i8 %p{i}, 0
  %m{i} = and i8 %p{i}, 15
  %n{i} = zext i8 %m{i} to i32
  %v{i} = extractelement <16 x i8> %bytes, i32 %n{i}
  %s{i} = select i1 %h{i}, i8 0, i8 %v{i}
  %r{i} = insertelement <16 x i8> {f'%r{i - 1}' if i else 'zeroinitializer'}, i8 %s{i}, i32 {i}
""" for i in range(16)],
    "  ret <16 x i8> %r15\n}"])
# Keeps the large module that it is asked to compile, and compiles what it is asked to.
SHIM = """#!/bin/bash
for word in "$@"; do
  case $word in
    *.bc) if [ -f "$word" ] && [ "$(stat -c %s "$word")" -gt 100000 ]; then cp "$word" "{kept}"; fi ;;
  esac
done
exec "{clang}" "$@"
"""


def call(*words, **how):
    ended = subprocess.run(words, stdin=subprocess.DEVNULL, check=False, **how)
    if ended.returncode:
        sys.exit(f"library/wasm.py: {os.path.basename(words[0])} ended with status {ended.returncode}")


def toolchain(kit, room, kept):
    """The kit's toolchain by links, with a compiler that keeps the module."""
    made = os.path.join(room, "toolchain")
    os.makedirs(os.path.join(made, "bin"))
    for part in os.listdir(os.path.join(kit, "toolchain")):
        if part != "bin":
            os.symlink(os.path.join(kit, "toolchain", part), os.path.join(made, part))
    for name in os.listdir(os.path.join(kit, "toolchain", "bin")):
        if name != "clang":
            os.symlink(os.path.join(kit, "toolchain", "bin", name), os.path.join(made, "bin", name))
    shim = os.path.join(made, "bin", "clang")
    with open(shim, "w", encoding="utf-8") as file:
        file.write(SHIM.replace("{kept}", kept).replace("{clang}", os.path.join(kit, "toolchain", "bin", "clang")))
    os.chmod(shim, 0o755)
    return made


def proved_module(kit, room):
    """The LLVM module of the proved library, by the words with which `rt lib` has it built."""
    sys.path.insert(0, os.path.join(kit, "bin"))
    sys.dont_write_bytecode = True
    import rtlib  # the kit's own

    kept = os.path.join(room, "kept.bc")
    crate = rtlib.Crate(CRATE, TOP, {})
    words = crate.words(["--jobs", "2"])
    call(rtlib.RATTLE, "build", *words, "--incremental", "out/incremental", "--toolchain", toolchain(kit, room, kept), "--backend", "llvm",
         "-o", os.path.join(room, "libfed_c.a"), cwd=CRATE)
    if not os.path.exists(kept):
        sys.exit("library/wasm.py: the kit's compiler was given no module")
    return kept


def exports():
    """The names that the library exports, by its sources."""
    found = []
    for name in sorted(os.listdir(os.path.join(CRATE, "src"))):
        if name.endswith(".rt"):
            with open(os.path.join(CRATE, "src", name), encoding="utf-8") as file:
                found += re.findall(r'^pub extern "C" fn (\w+)\(', file.read(), flags=re.M)
    return found


def exported(text, name, number):
    """The text with a function exported under its own name, by a set of attributes of this number."""
    line = re.search(rf"^define [^\n]* @{name}\([^\n]*\) (?:[^\n]*)#(\d+) \{{$", text, flags=re.M)
    body = re.search(rf"^attributes #{line[1]} = \{{(.*)\}}$", text, flags=re.M)[1]
    changed = line[0].replace(f"#{line[1]} {{", f"#{number} {{")
    return text.replace(line[0], changed) + f'\nattributes #{number} = {{{body}"wasm-export-name"="{name}" }}\n'


def retargeted(text):
    text = re.sub(r'^target datalayout = ".*"$', f'target datalayout = "{LAYOUT}"', text, flags=re.M)
    text = re.sub(r'^target triple = ".*"$', f'target triple = "{TARGET}"', text, flags=re.M)
    text = re.sub(r'"probe-stack"="inline-asm"( "stack-probe-size"="\d+")? "target-cpu"="[^"]*"',
                  '"no-builtin-bcmp" "no-builtin-memcmp" "no-builtin-strlen" "target-cpu"="lime1"', text)
    text = text.replace("@llvm.x86.ssse3.pshuf.b.128(", "@shuffled(")
    text = re.sub(r"^declare <16 x i8> @shuffled\(<16 x i8>, <16 x i8>\).*$", lambda _: SHUFFLED, text, flags=re.M)
    left = re.findall(r"llvm\.x86\.[\w.]+|x86-64[\w-]*|probe-stack", text)
    if left:
        sys.exit(f"library/wasm.py: the module has more of x86-64 than is known here: {', '.join(sorted(set(left)))}")
    for at, name in enumerate(exports()):
        text = exported(text, name, 9000 + at)
    return text


def leb(data, at):
    number = shift = 0
    while True:
        byte = data[at]
        number |= (byte & 127) << shift
        shift += 7
        at += 1
        if byte < 128:
            return number, at


def with_old_table(data):
    """The module with a table of 32-bit indices, which wasm-opt wants; the module calls nothing through its table."""
    data = bytearray(data)
    at = 8
    while at < len(data):
        size, body = leb(data, at + 1)
        if data[at] == 4:
            count, place = leb(data, body)
            if count != 1 or data[place] != 0x70:
                sys.exit("library/wasm.py: the module has another table than is known here")
            data[place + 1] &= ~4
        at = body + size
    return bytes(data)


def main():
    kit, to, *given = sys.argv[1:]
    clang = os.path.join(kit, "toolchain", "bin", "clang")
    if shutil.which("wasm-opt") is None:
        sys.exit("library/wasm.py: there is no wasm-opt; it is in Debian's package binaryen")
    with tempfile.TemporaryDirectory() as room:
        at = lambda name: os.path.join(room, name)
        module = given[0] if given else proved_module(kit, room)
        call(clang, "--target=x86_64-unknown-linux-gnu", "-x", "ir", "-S", "-emit-llvm", "-O0", module, "-o", at("module.ll"))
        with open(at("module.ll"), encoding="utf-8") as file:
            text = retargeted(file.read())
        with open(at("wasm.ll"), "w", encoding="utf-8") as file:
            file.write(text)
        call(clang, f"--target={TARGET}", *FLAGS, "-c", "-x", "ir", at("wasm.ll"), "-o", at("module.o"), "-O3")
        call(clang, f"--target={TARGET}", "-mcpu=lime1", "-O2", "-fwrapv", "-ffreestanding", "-nostdinc", "-c",
             os.path.join(HERE, "heap.c"), "-o", at("heap.o"))
        call(os.path.join(kit, "toolchain", "bin", "llvm-ar"), "rcs", at("libmodule.a"), at("module.o"), at("heap.o"))
        call(os.path.join(kit, "bin", "rattle-link"), "--target", TARGET, "--toolchain", os.path.join(kit, "toolchain"),
             "-o", at("module.wasm"), at("libmodule.a"))
        with open(at("module.wasm"), "rb") as file:
            data = with_old_table(file.read())
        with open(at("table.wasm"), "wb") as file:
            file.write(data)
        call("wasm-opt", "-all", "--memory64-lowering", at("table.wasm"), "-o", at("lowered.wasm"))
        os.makedirs(os.path.dirname(os.path.abspath(to)), exist_ok=True)
        shutil.move(at("lowered.wasm"), to)


main()
