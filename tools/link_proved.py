#!/usr/bin/env python3
"""Links libraries that are proved already into a checkout, so that `rt check` above them begins at once.

usage: tools/link_proved.py [CHECKOUT] [--from PROVED]

In a fresh clone `rt check` proves every library below anew. This gives each crate of the checkout, from the lowest on, the library
that was made of just its files and of just the libraries below it, and says which crates had none. With `--from` they are those that
`rt check` and `rt all check` left in another checkout; this works with each kit. Without it they are those that `rt ci` keeps beside
the toolchain, which kit 13f does, and kit 13b does not. It is for writing alone: every verdict is `rt ci`'s, which reads nothing that
this made. It calls functions of the toolchain's own scripts: the first way was run
with kit 13b, the second with kit 13f.
"""
import argparse
import importlib.machinery
import importlib.util
import os
import shutil
import sys

BIN = "/opt/rattle/bin"


def toolchain():
    """The toolchain's script as a module."""
    sys.path.insert(0, BIN)
    loader = importlib.machinery.SourceFileLoader("rt_script", f"{BIN}/rt")
    module = importlib.util.module_from_spec(importlib.util.spec_from_loader("rt_script", loader))
    sys.modules["rt_script"] = module
    loader.exec_module(module)
    return module


def linked(kept, crate):
    """Whether the crate has its library now, of those that `rt ci` keeps."""
    if not crate.is_built():
        # (over what stands of another text, what is kept is taken for damaged, and is removed)
        shutil.rmtree(f"{crate.folder}/out/rlib", ignore_errors=True)
        if not kept.give(crate, False, kept.key(crate)):
            return False
    kept.is_built(crate)
    with open(f"{crate.folder}/out/rlib/stamp", "w", encoding="utf-8") as stamp:
        stamp.write(crate.stamp())
    return True


def copied(proved, crate):
    """Whether the crate has its library now, of those of another checkout. Its stamp is a sum of all that it was made from."""
    made, here = f"{proved}/crates/{crate.name}/out/rlib", f"{crate.folder}/out/rlib"
    if not crate.is_built() and os.path.isdir(made):
        shutil.rmtree(here, ignore_errors=True)
        shutil.copytree(made, here, symlinks=True)
        if not crate.is_built():
            shutil.rmtree(here)
    return crate.is_built()


def main():
    parser = argparse.ArgumentParser()
    parser.add_argument("checkout", nargs="?", default=".")
    parser.add_argument("--from", dest="proved")
    given = parser.parse_args()
    root, proved = os.path.realpath(given.checkout), given.proved and os.path.realpath(given.proved)
    os.chdir(root)
    rt = toolchain()
    if proved:
        crates = rt.rtlib.crates_below(root)
        link = lambda crate: copied(proved, crate)
    elif hasattr(rt, "Kept"):
        crates = rt.crates_of(root)
        crates = list(crates.values()) if isinstance(crates, dict) else list(crates)
        rt.Crate.allowed = rt.handles_of(root)
        kept = rt.Kept(crates)
        link = lambda crate: linked(kept, crate)
    else:
        sys.exit("rt ci of this kit keeps nothing that it proved: name a checkout by --from in which rt all check was run")
    left, has, lacks = list(crates), set(), set()
    while left:
        for crate in [it for it in left if all(below.name in has | lacks for below in it.below())]:
            left.remove(crate)
            is_whole = not crate.is_program and not any(below.name in lacks for below in crate.below())
            (has if is_whole and link(crate) else lacks).add(crate.name)
    print(f"linked {len(has)}, not there: {' '.join(sorted(lacks))}")


if __name__ == "__main__":
    main()
