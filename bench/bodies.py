#!/usr/bin/env python3
"""Reads the wrong bodies of mutants/ as plain Rust: names those that no longer fit their files, or do not compile.

    bench/bodies.py FOLDER [CRATE | CRATE/NAME ..]      (none named: all of all crates; about a second for each)

`mutants/run` says so too, once everything is proved. Run this after a change of names or shapes. It writes into FOLDER as
bench/as_rust.py does, needs cargo and no network, and proves nothing: that each is refused, `mutants/run` alone shows.
"""
import os
import subprocess
import sys
from runpy import run_path

import as_rust

MUTANTS = run_path(os.path.join(as_rust.TOP, "mutants/run"))


def write(folder, crate, texts):
    """Writes these files of the crate, named as in the repository, as Rust."""
    for file, text in texts.items():
        name = file.removesuffix(".rt")
        as_rust.write_if_new(os.path.join(folder, crate, name + ".rs"), as_rust.as_rust(text, name in ("src/lib", "src/main")))


def said_of(folder, crate):
    """What the compiler says of the crate, if it refuses it."""
    done = subprocess.run(["cargo", "check", "--offline", "--quiet", "-p", crate], cwd=folder, stderr=subprocess.PIPE, text=True,
                          env={**os.environ, "RUSTC_BOOTSTRAP": "1"})
    return done.stderr if done.returncode else ""


def fault(folder, crate, edit):
    """What is wrong with a wrong body of the crate, whose own sources are written; nothing where it can be read."""
    source = os.path.join(as_rust.TOP, "crates", crate)
    texts = edit.changed({}, source)
    if texts is None:
        return "does not fit the files"
    write(folder, crate, texts)
    try:
        return said_of(folder, crate)
    finally:
        write(folder, crate, {file: MUTANTS["read"](os.path.join(source, file)) for file in texts})


def main():
    if len(sys.argv) < 2 or sys.argv[1].startswith("-"):
        sys.exit(__doc__)
    folder, faults, count = os.path.join(os.path.realpath(sys.argv[1]), "crates"), 0, 0
    by_crate = MUTANTS["edits_of"](sys.argv[2:])
    as_rust.write_all(folder, [as_rust.MAIN, *by_crate])
    for crate, edits in by_crate.items():
        if said := said_of(folder, crate):
            sys.exit(f"{crate} itself: {said}")
        for edit in edits:
            said = fault(folder, crate, edit)
            if said:
                print(f"{edit.name}: {said}", flush=True)
            faults, count = faults + bool(said), count + 1
    print(f"{count - faults} can be read, {faults} cannot")
    return faults > 0


if __name__ == "__main__":
    sys.exit(main())
