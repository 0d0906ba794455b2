#!/usr/bin/env python3
"""Lists the lemmas of proof files that nothing cites, and with --imports the names that a proof file imports and does not use.

usage: tools/uncited.py [--imports] [CRATE ..]

A lemma is cited where its name stands in any source, definition or proof of the repository beside its own lines. Answers to
goals are not listed: the prover asks for them by their names. Once a lemma is taken out, others may come to be uncited: run it
again until it lists none. An operator that is written between its arguments counts as used where it stands, and those of `do`
blocks are not listed. It is for writing alone, and no part of the gate.
"""
import argparse
import collections
import pathlib
import re

WORD = re.compile(r"[A-Za-z_][A-Za-z0-9_'\-]*")
LEMMA = re.compile(r"(?m)^(?:abbrev |unfoldable |opaque )?(?:pub )?([a-z][A-Za-z0-9_'\-]*) :")
ANSWERS = ("Answers.antt", "Invariants.antt")


def sources():
    """The text of each source and proof file, without the comments of proof files."""
    texts = {}
    for path in sorted(pathlib.Path("crates").rglob("*")):
        if path.suffix in (".antt", ".rt") and "out" not in path.parts:
            text = path.read_text(encoding="utf-8")
            texts[path] = re.sub(r"(?m)(^|\s)-- .*$", "", text) if path.suffix == ".antt" else text
    return texts


def is_lemma_file(path):
    return path.suffix == ".antt" and "proofs" in path.parts and path.name not in ANSWERS


def uncited(texts, counts, total, path):
    """The lemmas of the file that stand nowhere but in their own lines."""
    for found in LEMMA.finditer(texts[path]):
        name = found.group(1)
        if total[name] > counts[path][name]:
            continue
        others = re.sub(rf"(?m)^(?:pub )?{re.escape(name)}(?= )", "", texts[path])
        if not re.search(rf"(?<![\w\-']){re.escape(name)}(?![\w\-'])", others):
            yield name


def unused_imports(text):
    """The plain names that the file imports and uses nowhere."""
    lines = text.split("\n")
    used = set(WORD.findall("\n".join(line for line in lines if not re.match(r"(pub )?use ", line))))
    for line in lines:
        found = re.match(r"use \S+\.\{(.*)\}$", line)
        for item in re.split(r", (?![^{]*\})", found.group(1)) if found else ():
            name = item.split(" as ")[-1].strip()
            if WORD.fullmatch(name) and name not in used:
                yield name


def main():
    parser = argparse.ArgumentParser(description=__doc__.split("\n", maxsplit=1)[0])
    parser.add_argument("--imports", action="store_true")
    parser.add_argument("crates", nargs="*")
    arguments = parser.parse_args()
    texts = sources()
    counts = {path: collections.Counter(WORD.findall(text)) for path, text in texts.items()}
    total = sum(counts.values(), collections.Counter())
    found = 0
    for path in texts:
        if arguments.crates and path.parts[1] not in arguments.crates:
            continue
        names = list(uncited(texts, counts, total, path)) if is_lemma_file(path) else []
        if arguments.imports and path.suffix == ".antt":
            names += [f"import of {name}" for name in unused_imports(texts[path])]
        for name in names:
            print(f"{path}: {name}")
        found += len(names)
    print(f"{found} found")


if __name__ == "__main__":
    main()
