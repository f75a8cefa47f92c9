#!/usr/bin/env python3
"""Lists what the code carries for its proofs alone: parameters that no body reads, and lines `let _name = ..`.

usage: tests/unread.py [CRATE ..]      (none named: each crate of crates/, but for those of tests)

A line `FILE:LINE: ..` for each, then how many there are by crate and in all. What a contract says of a parameter is no
reading of it. A method of a trait has the parameters that the trait prescribes: `self`, and names that begin with `_`,
may stay unread there. A line `let _ = ..` is no matter of proofs: it drops an answer. The status is 1 where there is any.
"""
import os
import re
import sys
from collections import Counter

TOP = os.path.dirname(os.path.dirname(os.path.abspath(__file__)))
sys.path.insert(0, os.path.join(TOP, "bench"))

from as_rust import QUIET, blank, without_ghosts  # noqa: E402

OPENING, CLOSING = "([{", ")]}"
ITEM = re.compile(r"\bfn\s+(\w+)|\b(?:impl|trait)\b[^{;]*\{")
KEPT = re.compile(r"\blet\s+(?:mut\s+)?(_\w+)|\blet\s*\(([^=;]*\b_\w[^=;]*)\)\s*=")


def quieted(found):
    """What is left of a comment, a literal or a lifetime: its line ends, the names that a text prints, the lifetime."""
    if re.fullmatch(r"'[a-z_]+", found[0]):
        return found[0]
    printed = re.findall(r"\{([a-z_]\w*)", found[0]) if found[0].endswith('"') else []
    return " ".join(printed) + blank(found[0])


def code_of(text):
    """The text without contracts, ghost items, comments and literals, line by line."""
    return QUIET.sub(quieted, without_ghosts(text))


def end_of(code, at):
    """The place after the bracket that closes the one at `at`."""
    depth = 0
    while True:
        depth += (code[at] in OPENING) - (code[at] in CLOSING)
        at += 1
        if depth == 0:
            return at


def after_generics(code, at):
    """The place of the `(` that opens a function's parameters."""
    depth = 0
    while depth or code[at] != "(":
        depth += (code[at] == "<") - (code[at] == ">" and code[at - 1] != "-")
        at += 1
    return at


def parts_of(text):
    """The parameters of a list: what stands between commas outside all brackets, each with its place."""
    depth, begin = 0, 0
    for at, sign in enumerate(text + ","):
        depth += (sign in OPENING + "<") - (sign in CLOSING or sign == ">" and text[at - 1] != "-")
        if sign == "," and depth == 0:
            yield begin, text[begin:at]
            begin = at + 1


def names_in(pattern):
    """The names that a parameter binds: those of its pattern, before its type."""
    if re.search(r"\bself\b", pattern.partition(":")[0]):
        return ["self"]
    bound = re.match(r"(?:[^:]|::)*", pattern)[0]
    return [name for name in re.findall(r"\b[a-z_]\w*\b(?!\s*[({:])", bound) if name not in ("mut", "ref", "box")]


def body_of(code, at):
    """The body of a function whose parameters end at `at`, or none where it has no body."""
    while code[at] not in "{;":
        at = end_of(code, at) if code[at] in OPENING else at + 1
    return code[at:end_of(code, at)] if code[at] == "{" else None


def by_trait(code):
    """The places of the code that stand in an `impl` of a trait."""
    return [(found.end(), end_of(code, found.end() - 1)) for found in ITEM.finditer(code)
            if found[1] is None and re.match(r"impl\b.*\bfor\s", found[0], re.S)]


def reads(body, name):
    """Whether a body reads a parameter: its name stands there, and neither as a member's nor as one that is bound anew."""
    return re.search(rf"(?<![^.]\.)(?<!\blet )(?<!\blet mut )\b{name}\b(?!\s*:[^:])", body) is not None


def unread_in(code):
    """Each parameter that no body reads, and each `let` of a name that is not to be read, with its place."""
    prescribed = by_trait(code)
    for found in ITEM.finditer(code):
        if found[1] is None:
            continue
        begin = after_generics(code, found.end())
        end = end_of(code, begin)
        body = body_of(code, end)
        if body is None:
            continue
        in_trait = any(first < begin < last for first, last in prescribed)
        for at, part in parts_of(code[begin + 1:end - 1]):
            place = begin + 1 + at + len(part) - len(part.lstrip())
            for name in names_in(part):
                if not (in_trait and (name == "self" or name.startswith("_"))) and not reads(body, name):
                    yield place, f"no body reads `{name}` of `{found[1]}`"
    for found in KEPT.finditer(code):
        yield found.start(), f"`let {found[1] or '(' + found[2] + ')'}`"


def unread_of(path):
    """What is unread in a file, as pairs of a line's number and what it is."""
    with open(path, encoding="utf-8") as file:
        code = code_of(file.read())
    return sorted((code.count("\n", 0, place) + 1, what) for place, what in unread_in(code))


def files_of(crate):
    """The files of a crate's `src`, in order."""
    for folder, _, names in sorted(os.walk(os.path.join(TOP, "crates", crate, "src"))):
        yield from (os.path.join(folder, name) for name in sorted(names) if name.endswith(".rt"))


def crates():
    """The crates but for those of tests."""
    return [name for name in sorted(os.listdir(os.path.join(TOP, "crates"))) if not name.endswith("_tests")]


def main():
    counts = Counter()
    for crate in sys.argv[1:] or crates():
        for path in files_of(crate):
            for line, what in unread_of(path):
                counts[crate] += 1
                print(f"{os.path.relpath(path, TOP)}:{line}: {what}")
    print("".join(f"{crate} {count}, " for crate, count in counts.items()) + f"{sum(counts.values())} in all")
    sys.exit(1 if counts else 0)


if __name__ == "__main__":
    main()
