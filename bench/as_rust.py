#!/usr/bin/env python3
"""Makes plain Rust of the crates and builds it, so that a change can be timed before it is proved.

    bench/as_rust.py FOLDER [CRATE ..]       writes FOLDER/crates, and builds FOLDER/CRATE (none named: FOLDER/espresso)
    bench/as_rust.py FOLDER --lines ..       likewise, with the lines of the sources for callgrind and perf
    bench/as_rust.py FOLDER --write ..       writes the sources and builds nothing
    bench/as_rust.py FOLDER effort           builds bench/effort.rs: what the covering solver does on a file, in figures

Contracts, ghost items and tactics are left out; the rest of each file stays as it is, line by line, so that a line of
the Rust is the line of the .rt file. What the crates use of Rattle's library and of its ports stands in
bench/rust_shim. A second run into the same FOLDER builds what has changed. It needs cargo and no network. Nothing is
proved: the program answers what its bodies say, and ends where memory is refused.
"""
import os
import re
import shutil
import subprocess
import sys

TOP = os.path.dirname(os.path.dirname(os.path.realpath(__file__)))
SHIM = os.path.join(TOP, "bench/rust_shim")
MAIN = "espresso_program"          # the crate of the program, whose file is called espresso
OWN = {"effort": ["pla", "minimum"]}   # programs of the workbench itself, bench/NAME.rs, with their libraries
PORTS = ("smallvec", "memchr", "itoa", "itertools", "clap")          # each is a file of the shim

# What is no code: comments, texts, characters and lifetimes.
QUIET = re.compile(r'//[^\n]*|/\*.*?\*/|b?"(?:\\.|[^"\\])*"|b?\'(?:\\[^\n]{1,8}?|[^\'\\\n])\'|\'[a-z_]+', re.S)
# Methods of Rust's slices and iterators that take no allocator there: the shim has them under these names.
ALLOCATING = re.compile(r"\.(to_vec|sort|sort_by|sort_by_key|collect)\(")
CLAUSE = re.compile(r"\b(?:requires|ensures)\b\*?[ \n]*(?:[a-z_0-9]+[ \n]*)?(?=\{)")
GHOST_USE = re.compile(r"\bghost\s+use\b[^;]*;")
GHOST_ITEM = re.compile(r"\bghost\s+[A-Za-z_]+\s*[:=]\s*(?=\{)")
# A model, or a `drop` that only takes its value apart: Rust does that by itself.
LEFT_OUT = re.compile(r"\bimpl(?:<[^{]*?>)?\s+(?:Model|Drop)\s+for\b[^{]*(?=\{)")
TACTIC = re.compile(r"#!?\[(?:tactic|cycle)\b(?:[^\[\]]|\[[^\]]*\])*\]")


def blank(text):
    """Nothing, on as many lines."""
    return "\n" * text.count("\n")


def quiet_ends(text):
    """For each place where a comment or the like begins, where it ends."""
    return {found.start(): found.end() for found in QUIET.finditer(text)}


def closing(text, at, quiet):
    """The place after the brace that closes the one at `at`."""
    depth = 0
    while True:
        if at in quiet:
            at = quiet[at]
            continue
        depth += {"{": 1, "}": -1}.get(text[at], 0)
        at += 1
        if depth == 0:
            return at


def without_ghosts(text):
    """The text without contracts and other ghost items, line by line."""
    quiet, kept, at = quiet_ends(text), [], 0
    while at < len(text):
        if at in quiet:
            kept.append(text[at:quiet[at]])
            at = quiet[at]
            continue
        end = None
        if text[at] in "regi#":
            if found := GHOST_USE.match(text, at) or TACTIC.match(text, at):
                end = found.end()
            elif found := CLAUSE.match(text, at) or LEFT_OUT.match(text, at):
                end = closing(text, found.end(), quiet)
            elif found := GHOST_ITEM.match(text, at):
                end = closing(text, found.end(), quiet)
                end += text[end:end + 1] in ";,"
        if end is None:
            kept.append(text[at])
            end = at + 1
        else:
            kept.append(blank(text[at:end]))
        at = end
    return "".join(kept)


def with_rust_names(text):
    """The text with Rust's names for the rest: the shim for std, and no `Drop` that Rust writes itself."""
    text = text.replace("use std::marker::Model;", "")
    text = re.sub(r"#\[derive\(([^)]*)\)\]", lambda found: "#[derive(" + ", ".join(
        name for name in found[1].split(", ") if name != "Drop") + ")]", text)
    text = text.replace("fn main(rt: HostRuntime) -> ExitCode {", "fn main() -> ExitCode { let rt = HostRuntime;")
    text = re.sub(r" \+ Drop\b|: Drop\b(?= *[,>{])", "", text)
    text = re.sub(r"\b(?=vec!\[in |e?println!\(\w+;)", "rattle_std::", text)
    text = ALLOCATING.sub(r".try_\1(", text)
    return re.sub(r"\bstd::", "rattle_std::", text)


def as_rust(text, is_root):
    """The Rust of a file. The names that each Rattle file has come in with its first item."""
    text = with_rust_names(without_ghosts(text))
    head = re.match(r"(?:[ \t]*//[^\n]*\n|[ \t]*\n)*", text).end()
    first = "use rattle_std::prelude::*; "
    if is_root:
        first = "#![allow(warnings)] #![feature(portable_simd)] " + first
    return re.sub(r"//![^\n]*", "", text[:head]) + first + text[head:]


def listed():
    """Each crate of crates.txt with its libraries, and the programs of the workbench."""
    with open(os.path.join(TOP, "crates.txt")) as file:
        lines = [line.partition("#")[0].partition(":") for line in file]
    return {**OWN, **{name.split()[0]: needs.split() for name, colon, needs in lines if colon}}


def needed(programs):
    """The crates that the programs are made of."""
    crates, found, left = listed(), {}, list(programs)
    while left:
        name = left.pop()
        if name in crates and name not in found:
            found[name] = crates[name]
            left.extend(found[name])
    return found


def write_if_new(path, text):
    """Writes a file, unless it has this text already: cargo builds by the times of files."""
    if os.path.exists(path):
        with open(path) as file:
            if file.read() == text:
                return
    os.makedirs(os.path.dirname(path), exist_ok=True)
    with open(path, "w") as file:
        file.write(text)


def write_package(folder, name, needs):
    rows = [f'[package]\nname = "{name}"\nversion = "0.1.0"\nedition = "2024"\n[dependencies]\n']
    rows += [f'{need} = {{ path = "../{need}" }}\n' for need in needs]
    write_if_new(os.path.join(folder, name, "Cargo.toml"), "".join(rows))


def files_below(folder, ending):
    """The files below a folder with this ending, without it."""
    return {os.path.relpath(os.path.join(place, name), folder).removesuffix(ending)
            for place, _, names in os.walk(folder) for name in names if name.endswith(ending)}


def as_it_is(path, text):
    return text


def write_own(folder, name, needs):
    write_package(folder, name, ["rattle_std", *needs])
    with open(os.path.join(TOP, "bench", name + ".rs")) as file:
        write_if_new(os.path.join(folder, name, "src/main.rs"), file.read())


def write_crate(folder, name, needs, changed):
    write_package(folder, name, ["rattle_std", *needs])
    source, target = os.path.join(TOP, "crates", name, "src"), os.path.join(folder, name, "src")
    files = files_below(source, ".rt")
    for file in sorted(files):
        with open(os.path.join(source, file + ".rt")) as opened:
            text = as_rust(changed(f"{name}/{file}", opened.read()), file in ("lib", "main"))
        write_if_new(os.path.join(target, file + ".rs"), text)
    for file in files_below(target, ".rs") - files:
        os.remove(os.path.join(target, file + ".rs"))


def write_shim(folder):
    for name in ("rattle_std", *PORTS):
        write_package(folder, name, [] if name == "rattle_std" else ["rattle_std"])
        with open(os.path.join(SHIM, name + ".rs")) as file:
            write_if_new(os.path.join(folder, name, "src/lib.rs"), file.read())


def write_all(folder, programs, changed=as_it_is):
    """Writes the sources; `changed` gives the text of a file, named by crate and path, that stands for its own."""
    crates = needed(programs)
    write_shim(folder)
    for name, needs in crates.items():
        if name in OWN:
            write_own(folder, name, needs)
        else:
            write_crate(folder, name, needs, changed)
    members = ", ".join(f'"{name}"' for name in [*crates, "rattle_std", *PORTS])
    write_if_new(os.path.join(folder, "Cargo.toml"), f"""[workspace]
members = [{members}]
resolver = "2"
[profile.release]
opt-level = 3
codegen-units = 1
lto = "fat"
panic = "abort"
[profile.lines]
inherits = "release"
debug = 1
""")


def build(folder, programs, profile):
    words = ["cargo", "build", "--offline", "--quiet", "--profile", profile]
    for name in programs:
        words += ["-p", name]
    # The crates use vectors of words, which stable Rust does not have.
    status = subprocess.run(words, cwd=folder, env={**os.environ, "RUSTC_BOOTSTRAP": "1"}).returncode
    if status:
        sys.exit(status)


def main():
    words = sys.argv[1:]
    options = {word for word in words if word.startswith("--")}
    places = [word for word in words if not word.startswith("--")]
    if not places or not options <= {"--lines", "--write"}:
        sys.exit(__doc__)
    target, programs = os.path.realpath(places[0]), places[1:] or [MAIN]
    folder = os.path.join(target, "crates")
    write_all(folder, programs)
    if "--write" in options:
        return
    profile = "lines" if "--lines" in options else "release"
    build(folder, programs, profile)
    for name in programs:
        shutil.copy2(os.path.join(folder, "target", profile, name), os.path.join(target, "espresso" if name == MAIN else name))


if __name__ == "__main__":
    main()
