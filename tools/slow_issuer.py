#!/usr/bin/env python3
"""Times loads whose issuers take their time, with and without threads.

usage: tools/slow_issuer.py [--count 200] [--milliseconds 2] [--workers 0,8] [--times 10] [--from PROVED]

It makes a copy of the repository, puts into its `main` a gate that sleeps for so long before each question to an issuer
(the gate is called where the issuer is, outside of the lock), links proved libraries into the copy (tools/link_proved.py: those
of the checkout PROVED, this one where none is named; each kit will do), builds the program by `rt run`, which proves it alone once more (some minutes), and prints the best time of
`cmrun load COUNT --summary` of so many, for each number of workers. It is no part of the gate.
"""
import argparse
import pathlib
import shutil
import subprocess
import tempfile
import time

GATE = '''
/// An issuer that takes its time.
#[derive(Drop)]
struct Slow<'a, C: Clock> {
    clock: &'a C,
}

impl<C: Clock + Sync> Gate for Slow<'_, C> {
    fn at(&self, point: Point) {
        if matches!(point.work, Work::Sign) {
            thread::sleep(self.clock, Duration::from_millis(MILLISECONDS));
        }
    }
}

fn main('''


def patched(main, milliseconds):
    """The text of `main` with the gate in it."""
    main = main.replace("use cmc_workers::NoGate;", "use cmc_workers::{Gate, Point, Work};")
    main = main.replace("use std::process::ExitCode;", "use std::process::ExitCode;\nuse std::thread;\nuse std::time::{Clock, Duration};")
    main = main.replace("&NoGate,", "&Slow { clock: &rt },")
    main = main.replace("\nfn main(", GATE.replace("MILLISECONDS", str(milliseconds)), 1)
    return main


def built(root, proved, milliseconds):
    """The program with the gate, in a copy of the repository."""
    copy = pathlib.Path(tempfile.mkdtemp()) / "repository"
    shutil.copytree(root, copy, ignore=shutil.ignore_patterns(".git", "must-fail", "out"))
    subprocess.run([root / "tools" / "link_proved.py", copy, "--from", proved], check=True)
    crate = copy / "crates" / "cmrun"
    main = crate / "src" / "main.rt"
    main.write_text(patched(main.read_text(), milliseconds))
    subprocess.run(["rt", "run", "--", "load", "1", "--summary"], cwd=crate, check=True, stdin=subprocess.DEVNULL)
    return crate / "out" / "cmrun"


def seconds(program, count, workers):
    began = time.monotonic()
    words = [program, "load", str(count), "--summary", "--workers", str(workers)]
    subprocess.run(words, check=True, stdout=subprocess.DEVNULL)
    return time.monotonic() - began


def main():
    parser = argparse.ArgumentParser()
    parser.add_argument("--count", type=int, default=200)
    parser.add_argument("--milliseconds", type=int, default=2)
    parser.add_argument("--workers", default="0,8")
    parser.add_argument("--times", type=int, default=10)
    root = pathlib.Path(__file__).resolve().parent.parent
    parser.add_argument("--from", dest="proved", default=root)
    given = parser.parse_args()
    program = built(root, given.proved, given.milliseconds)
    for workers in map(int, given.workers.split(",")):
        best = min(seconds(program, given.count, workers) for _ in range(given.times))
        print(f"{workers} workers: {best:.2f} seconds, best of {given.times}", flush=True)


if __name__ == "__main__":
    main()
