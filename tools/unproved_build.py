#!/usr/bin/env python3
"""Builds `cmrun` of a checkout with optimisation and without a proof, in some three minutes, to look at it and to measure it.

usage: tools/unproved_build.py CHECKOUT PROGRAM

`rt run` gives the program that users get, once all below it is proved, which takes half an hour after a change in a low
crate. To see before that what a change gains, this lets `rt try` compile the program (it makes LLVM code with checks in it),
takes that code out on its way to clang, drops the checks and the filling of locals that stand for the proofs, and links it
anew. It counts some 15 % more instructions than the proved program does (bounds of slices are still looked at), in the same
proportions: 525 million where the proved one had 458. Nothing that it builds is ever handed in, and no verdict rests on it.
The toolchain is the one whose `rt` is the command; it works with the kits 13b and 13f.
"""
import os
import re
import shutil
import subprocess
import sys
import tempfile

RT = shutil.which("rt")
if RT is None:
    sys.exit("unproved_build: there is no command `rt`: put the kit's folder bin on the PATH")
KIT = os.path.dirname(os.path.dirname(os.path.realpath(RT)))
CLANG = f"{KIT}/toolchain/bin/clang"
# What stands in for clang and for the linker while `rt try` runs: each keeps what it is given, and goes on.
KEEPS_CODE = f"""#!/bin/sh
case " $* " in *" -fsanitize=address "*) cp module.bc "KEPT/module.bc";; esac
exec {CLANG} "$@"
"""
KEEPS_LINK = f"""#!/bin/bash
cp input-* KEPT/ && printf '%s\\n' "$@" > KEPT/link
exec -a ld.lld {CLANG} "$@"
"""
# Functions whose loops over eight or four bytes are one load where nothing is left to check.
LOADS = {
    "core::slice::words::read_u64_le": ("i64", "  ret i64 %v"),
    "core::cmp::bytes::read_u64_be": ("i64", "  %w = call i64 @llvm.bswap.i64(i64 %v)\n  ret i64 %w"),
    "core::hash::fold::read_u32": ("i32", "  %w = zext i32 %v to i64\n  ret i64 %w"),
}


def other_kit(folder, kept):
    """A kit whose `rt` is the toolchain's, with another clang and linker."""
    for name in os.listdir(KIT):
        if name not in ("bin", "toolchain"):
            os.symlink(f"{KIT}/{name}", f"{folder}/{name}")
    os.makedirs(f"{folder}/bin")
    for name in os.listdir(f"{KIT}/bin"):
        put = shutil.copy if name in ("rt", "rtlib.py") else os.symlink
        put(f"{KIT}/bin/{name}", f"{folder}/bin/{name}")
    os.makedirs(f"{folder}/toolchain/bin")
    os.symlink(f"{KIT}/toolchain/lib", f"{folder}/toolchain/lib")
    texts = {"clang": KEEPS_CODE, "ld.lld": KEEPS_LINK}
    for name in os.listdir(f"{KIT}/toolchain/bin"):
        file = f"{folder}/toolchain/bin/{name}"
        if name not in texts:
            os.symlink(f"{KIT}/toolchain/bin/{name}", file)
            continue
        with open(file, "w", encoding="utf-8") as it:
            it.write(texts[name].replace("KEPT", kept))
        os.chmod(file, 0o755)


def with_load(code, name, width, rest):
    """The code with the function's body in place of one that loads that many bits."""
    found = re.search(rf'^define [^\n]*@"{re.escape(name)}"\(.*\)[^\n]*\{{\n', code, re.M)
    if not found:
        return code
    end = code.index("\n}\n", found.end())
    body = f"start:\n  %p = getelementptr i8, ptr %a0, i64 %a2\n  %v = load {width}, ptr %p, align 1\n{rest}"
    return code[: found.end()] + body + code[end:]


def without_checks(code):
    """The code without what stands for the proofs."""
    dropped = re.compile(r'^.*call void (@llvm\.memset\.p0\.i64\(ptr %\w+, i8 -86,|@"rattle-llvm-checks::).*\n', re.M)
    code = dropped.sub("", code)
    code = re.sub(r' "(frame-pointer|probe-stack|stack-probe-size)"="[^"]*"', "", code)
    code = code.replace("= { }", "= { nounwind }")
    for name, (width, rest) in LOADS.items():
        code = with_load(code, name, width, rest)
    return code if "@llvm.bswap.i64(i64)" in code else code + "\ndeclare i64 @llvm.bswap.i64(i64)\n"


def main():
    if len(sys.argv) != 3:
        sys.exit(__doc__)
    crate, program = f"{os.path.realpath(sys.argv[1])}/crates/cmrun", os.path.realpath(sys.argv[2])
    with tempfile.TemporaryDirectory() as kit, tempfile.TemporaryDirectory() as kept:
        other_kit(kit, kept)
        subprocess.run([f"{kit}/bin/rt", "try", "--", "load", "1", "--summary"], cwd=crate, check=True)
        words = ["--target=x86_64-unknown-linux-gnu", f"--sysroot={KIT}/toolchain", "-march=x86-64"]
        words = [CLANG, *words, "--no-default-config", "-no-canonical-prefixes", "-fintegrated-cc1", "-x", "ir"]
        subprocess.run([*words, "module.bc", "-S", "-emit-llvm", "-O0", "-o", "module.ll"], cwd=kept, check=True)
        with open(f"{kept}/module.ll", encoding="utf-8") as it:
            code = without_checks(it.read())
        with open(f"{kept}/module.ll", "w", encoding="utf-8") as it:
            it.write(code)
        sections = ["-ffunction-sections", "-fdata-sections"]
        subprocess.run([*words, "module.ll", "-c", "-o", "input-0", "-fPIE", "-O2", *sections], cwd=kept, check=True)
        with open(f"{kept}/link", encoding="utf-8") as it:
            link = it.read().split("\n")[:-1]
        # (the last input is what the checks of addresses need)
        at = link.index("--whole-archive")
        link = link[:at] + link[at + 3 :]
        link[link.index("-o") + 1] = program
        link = [it.replace(f"{kit}/toolchain", f"{KIT}/toolchain") for it in link]
        subprocess.run(["ld.lld", *link], executable=CLANG, cwd=kept, check=True)


if __name__ == "__main__":
    main()
