#!/usr/bin/env python3
"""Build a program of this repository as fast code without proving it, to try ways in which it may get faster.

    python3 bench/unproved.py benchmarks /tmp/trial

It takes two minutes, where a proof takes an hour. What it builds is not proved, and has no checks either: where the
code is wrong it may do anything. So it is for trials alone; figures that stand are those of a proved program.

`rt try` compiles the crate with checks at each step. This script has it do so with a copy of the kit, made of links,
whose compiler keeps what it was given, takes the checks out of that, and compiles it with optimisation. It rests on how
`rt try` of the kit rattle-kit-13f goes about it, and says so where it finds no checks to take out.
"""

import argparse
import pathlib
import re
import shutil
import subprocess
import sys
import tempfile

ROOT = pathlib.Path(__file__).resolve().parents[1]
TARGET = "x86_64-unknown-linux-gnu"
COMPILER = """#!/bin/sh
for word in "$@"; do
    case "$word" in *.bc) cp "$word" "{kept}/$$.bc";; esac
done
exec "{clang}" "$@"
"""
CHECKS = re.compile(
    r'^ *call void (?:@llvm\.memset[^\n]*i8 -86|@"rattle-llvm-checks::[^\n]*|@llvm\.trap\(\))[^\n]*\n', re.M)
FLAGS = [f"--target={TARGET}", "-march=x86-64-v2", "--no-default-config", "-x", "ir"]


def stop(why):
    """Say why, and end with status 1."""
    sys.exit(f"unproved.py: {why}")


def kit():
    """The folder of the kit that `rt` belongs to."""
    page = subprocess.run(["rt", "doc"], capture_output=True, text=True, check=True).stdout
    return pathlib.Path(page.strip()).resolve().parent


def link_all(source, target, but):
    """Link each entry of a folder into another one, but for these."""
    target.mkdir()
    for entry in source.iterdir():
        if entry.name not in but:
            (target / entry.name).symlink_to(entry)


def kit_that_keeps(kit, folder):
    """A copy of the kit whose compiler keeps each module that it was given in `folder`/kept."""
    copy, kept = folder / "kit", folder / "kept"
    kept.mkdir()
    link_all(kit, copy, ("bin", "toolchain"))
    link_all(kit / "bin", copy / "bin", ("rt", "rtlib.py"))
    for name in ("rt", "rtlib.py"):  # each looks for the kit beside itself
        shutil.copy(kit / "bin" / name, copy / "bin" / name)
    link_all(kit / "toolchain", copy / "toolchain", ("bin",))
    link_all(kit / "toolchain/bin", copy / "toolchain/bin", ("clang",))
    clang = copy / "toolchain/bin/clang"
    clang.write_text(COMPILER.format(kept=kept, clang=kit / "toolchain/bin/clang"))
    clang.chmod(0o755)
    return copy, kept


def module_of(crate, kit, folder):
    """The file with the module that `rt try` compiles of a crate."""
    copy, kept = kit_that_keeps(kit, folder)
    tried = subprocess.run([copy / "bin/rt", "try"], cwd=ROOT / "crates" / crate, stdin=subprocess.DEVNULL,
                           capture_output=True, text=True)
    modules = sorted(kept.iterdir(), key=lambda file: file.stat().st_size)
    if not modules:
        stop(f"rt try compiled nothing of {crate}:\n{tried.stdout}{tried.stderr}")
    return modules[-1]


def without_checks(text):
    """The module's text without what `rt try` puts in to find faults."""
    if not CHECKS.search(text):
        stop("this kit's rt try compiles another kind of code, so its checks were not found")
    text = CHECKS.sub("", text)
    return text.replace(" sanitize_address", "").replace('"target-cpu"="x86-64"', '"target-cpu"="x86-64-v2"')


def main():
    """Build what the command line names."""
    parser = argparse.ArgumentParser(description="Build a program as fast code without proving it.")
    parser.add_argument("crate", help="a crate with a program, such as benchmarks")
    parser.add_argument("program", type=pathlib.Path, help="the file to be written")
    words = parser.parse_args()
    if not (ROOT / "crates" / words.crate / "src/main.rt").is_file():
        parser.error(f"{words.crate} is no crate with a program")
    own = kit()
    clang = own / "toolchain/bin/clang"
    with tempfile.TemporaryDirectory() as name:
        folder = pathlib.Path(name)
        text, fast, code = folder / "module.ll", folder / "fast.ll", folder / "fast.o"
        module = module_of(words.crate, own, folder)
        subprocess.run([clang, *FLAGS, "-S", "-emit-llvm", "-O0", module, "-o", text], check=True,
                       stderr=subprocess.DEVNULL)
        fast.write_text(without_checks(text.read_text()))
        subprocess.run([clang, *FLAGS, "-c", "-O3", "-fPIE", "-ffunction-sections", "-fdata-sections", fast,
                        "-o", code], check=True)
        subprocess.run([own / "bin/rattle-link", "--target", TARGET, "--toolchain", own / "toolchain", "-o",
                        words.program.resolve(), code, own / "c/libos_c.a", own / "c/liblibc_c.a"], check=True,
                       stdout=subprocess.DEVNULL)


if __name__ == "__main__":
    main()
