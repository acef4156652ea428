#!/usr/bin/env python3
"""Builds the program without its proofs, to count instructions with: a few minutes in place of the hour that the proofs take.

Usage: bench/unproved.py OUT [--root=FOLDER]

FOLDER is a checkout, by default this one. **What it writes is a measure, and is never released**: nothing of it was proved. Compare two such builds with each
other (`bench/same.py OLD NEW --instructions`), and not one with the released program: it takes some 15 % more instructions than the proved build of the same
sources. What one of two builds takes more than the other was seen to differ from that of proved builds by up to two and a half points. Wants Rattle's kit.

How: `rt try` compiles the program before any proof, with tests at each step. A compiler of this script's takes the module from it, takes the tests out, puts the
hints on inlining in, which `rt try` leaves out, and hands it to the kit's own compiler as a proved build does.
"""
import glob
import os
import re
import shutil
import stat
import subprocess
import sys
import tempfile

from words import HOME, split

TARGET = "x86_64-unknown-linux-gnu"
PASSES = "no-trap-after-noreturn trap-unreachable no-x86-call-frame-opt disable-machine-licm disable-postra-machine-licm sink-common-insts=false".split()
CATCHER = """#!/bin/bash
# The module of a program is kept, and that of a probe compiled.
for file in "$@"; do
    if [ -f "$file" ] && [ "$(stat -c %s "$file")" -gt 100000 ]; then mv "$file" "{module}"; exit 1; fi
done
exec {clang} "$@"
"""
HINTS = {"#[inline(always)]": "alwaysinline", "#[inline(never)]": "noinline", "#[inline]": "inlinehint", "#[cold]": "cold"}
FUNCTION = re.compile(r"(?:pub(?:\([a-z]+\))? )?(?:const )?(?:unsafe )?fn (\w+)")


def kit():
    """The folder of Rattle's kit."""
    page = subprocess.run(["rt", "doc"], capture_output=True, text=True, check=True).stdout.split()
    return next(os.path.dirname(it) for it in page if it.startswith("/"))


def catching(real, folder):
    """A kit as the real one is, but that its compiler keeps the module in the folder."""
    tools = f"{folder}/toolchain"
    for place, names, copied in ((folder, os.listdir(real), ("bin", "toolchain")), (f"{folder}/bin", os.listdir(f"{real}/bin"), ("rt", "rtlib.py"))):
        os.makedirs(place, exist_ok=True)
        for name in set(names) - set(copied):
            os.symlink(f"{real}{place[len(folder):]}/{name}", f"{place}/{name}")
    for name in ("rt", "rtlib.py"):
        shutil.copy(f"{real}/bin/{name}", f"{folder}/bin/{name}")
    os.makedirs(f"{tools}/bin")
    os.symlink(f"{real}/toolchain/lib", f"{tools}/lib")
    for name in set(os.listdir(f"{real}/toolchain/bin")) - {"clang"}:
        os.symlink(f"{real}/toolchain/bin/{name}", f"{tools}/bin/{name}")
    with open(f"{tools}/bin/clang", "w", encoding="utf-8") as it:
        it.write(CATCHER.format(module=f"{folder}/module.bc", clang=f"{real}/toolchain/bin/clang"))
    os.chmod(it.name, stat.S_IRWXU)


def hints_in(root, real):
    """The hints on inlining, by module and name of the function, and by crate and name where all hints of the name are one."""
    found = {}
    for base in (f"{root}/crates/", f"{real}/rattle/"):
        for file in glob.glob(f"{base}*/src/**/*.rt", recursive=True):
            crate, _, *inner = file[len(base) : -len(".rt")].split("/")
            module, said = "::".join([crate, *(it for it in inner if it not in ("lib", "main", "mod"))]), []
            with open(file, encoding="utf-8", errors="replace") as lines:
                for line in map(str.strip, lines):
                    name = FUNCTION.match(line)
                    if line.startswith("#["):
                        said.append(line)
                    elif name:
                        hint = " ".join(HINTS[it] for it in said if it in HINTS)
                        for key in {module, crate} if hint else {module}:
                            found.setdefault((key, name.group(1)), set()).add(hint)
                        said = []
                    elif line and not line.startswith("//"):
                        said = []
    return {key: min(it) for key, it in found.items() if len(it) == 1}


def hint_of(name, hints):
    """The hint of a function of the module."""
    *path, last = re.sub(r"::<.*", "", name).split("::")
    for end in range(len(path), 0, -1):
        if ("::".join(path[:end]), last) in hints:
            return hints["::".join(path[:end]), last]
    return ""


def plain(line, hints):
    """A line of the module without what `rt try` adds; None where nothing is left."""
    if 'call void @"rattle-llvm-checks::' in line or line.startswith("  call void @llvm.trap()") or ("llvm.memset" in line and "i8 -86" in line):
        return None
    if line.startswith("attributes #"):
        for it in ("sanitize_address", '"frame-pointer"="all"', '"probe-stack"="inline-asm"', '"stack-probe-size"="3072"'):
            line = line.replace(f" {it}", "")
        return line.replace("{ }", "{ nounwind }")
    name = re.search(r'^define internal .*?@"((?:[^"\\]|\\.)*)"\(', line)
    if name:
        hint = hint_of(name.group(1), hints)
        return re.sub(r"\) (#\d+ )?\{$", lambda it: f") {hint} {it.group(1) or ''}{{", line.rstrip("\n")) + "\n"
    return line


def compile_plain(real, folder, root, out):
    """Compiles the module that was kept."""
    clang = f"{real}/toolchain/bin/clang"
    text, bare, module = f"{folder}/module.ll", f"{folder}/plain.ll", f"{folder}/plain.o"
    subprocess.run([clang, "-target", TARGET, "-S", "-emit-llvm", "-x", "ir", f"{folder}/module.bc", "-O0", "-Xclang", "-disable-llvm-passes", "-o", text], check=True)
    hints = hints_in(root, real)
    with open(text, encoding="utf-8") as before, open(bare, "w", encoding="utf-8") as after:
        after.writelines(it for it in (plain(line, hints) for line in before) if it is not None)
    flags = [f"--target={TARGET}", f"--sysroot={real}/toolchain", "-march=x86-64", *(it for name in PASSES for it in ("-mllvm", f"-{name}"))]
    flags += "-ffunction-sections -fdata-sections --no-default-config -no-canonical-prefixes -fintegrated-cc1 -c -x ir -fPIE -O3".split()
    subprocess.run([clang, *flags, bare, "-o", module], check=True)
    link = [f"{real}/bin/rattle-link", "--target", TARGET, "--toolchain", f"{real}/toolchain", "-o", out, module]
    subprocess.run([*link, f"{real}/c/libos_c.a", f"{real}/c/liblibc_c.a"], stderr=subprocess.DEVNULL, check=True)


def main():
    """Builds it."""
    (out,), values = split(__doc__, 1, 1, root=HOME)
    real, root, out = kit(), os.path.realpath(values["root"]), os.path.realpath(out)
    with tempfile.TemporaryDirectory() as folder:
        catching(real, folder)
        tried = subprocess.run([f"{folder}/bin/rt", "try", "--", "--version"], cwd=f"{root}/crates/q_main", capture_output=True, text=True, check=False)
        if not os.path.exists(f"{folder}/module.bc"):
            sys.exit(f"the program does not compile:\n{tried.stdout}{tried.stderr}")
        compile_plain(real, folder, root, out)


if __name__ == "__main__":
    main()
