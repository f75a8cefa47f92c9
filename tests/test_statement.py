"""The pages with what has to be believed are those that their script writes of the sources as they stand, and they are closed."""
import os
import re
import shutil
import subprocess
import sys
import tempfile
import unittest

TOP = os.path.dirname(os.path.dirname(os.path.abspath(__file__)))
DOCS = os.path.join(TOP, "docs")
sys.path.insert(0, DOCS)

import definitions  # noqa: E402
import statement  # noqa: E402

PAGES = {"STATEMENT.md": (), "LIBRARIES.md": ("--libraries",)}


def printed(top, *words):
    """What the script prints of the sources in a folder."""
    command = [sys.executable, os.path.join(top, "docs", "statement.py"), "--print", *words]
    return subprocess.run(command, capture_output=True, timeout=300)


def page(name):
    with open(os.path.join(DOCS, name), encoding="utf-8") as file:
        return file.read()


INSIDE = r"[^()]"
for _ in range(4):
    INSIDE = rf"(?:[^()]|\({INSIDE}*\))"
GROUP = rf"(?:\({INSIDE}*\)|\{{[^{{}}]*\}})"                          # an argument with its type, or several
DECLARED = rf"^(\S+)(?: {GROUP})* : "                               # the first line of a definition that is no data type and no record
WITH_ARGUMENTS = re.compile(rf"(\S+)((?: {GROUP})*) : (.*?) =(?: (.*))?")
RUST = re.compile(r"//|    |}|(pub|impl|struct|enum|trait)\b")


def paragraphs(text):
    """The parts of a page's code between empty lines, and whether each is Rust."""
    for code in re.findall(r"^```\n(.*?)^```$", text, re.M | re.S):
        yield [(part, bool(RUST.match(part))) for part in code.strip("\n").split("\n\n")]


def as_in_a_file(code):
    """A page's definitions as a file has them: one equation, field or case on a line, with no comment behind it."""
    for line in code.split("\n"):
        line = re.sub(r"(?<=\S)  -- .*", "", line)
        found = WITH_ARGUMENTS.fullmatch(line)
        if found:
            name, groups, type_, body = found.groups()
            given = re.findall(GROUP, groups)
            names = [name for group in given if group[0] == "(" for name in group[1:].partition(" : ")[0].split()]
            yield f"{name} : {' → '.join([*given, type_])}"
            yield f"{' '.join([name, *names])} = {body or ''}"
        else:
            indent = re.match(" *", line).group()
            yield from (indent + part.strip() for part in line.split(statement.BETWEEN))


def defined_on(text):
    """The names that a page defines: in its code, and in its table of the logic's own words."""
    names = set()
    for part, is_rust in (found for code in paragraphs(text) for found in code):
        if is_rust:
            part = re.sub(r"^(.*(?:enum|struct) .*) \{ (.*) \}(?:  //.*)?$", lambda found: "\n    ".join([found[1], *(f"{one}," for one in found[2].split(", "))]), part, flags=re.M)
            names |= set(re.findall(r"\b(?:enum|struct|trait|const|fn) (\w+)|^    (\w+)(?:\(.*\))?(?: = .*)?,(?:  //.*)?$|^    ghost (\w+)", part, re.M))
        else:
            names |= set(re.findall(r"^(?:data |record )(\S+)|" + DECLARED + r"|^  ((?:\S+ )+):", "\n".join(as_in_a_file(part)), re.M))
    names |= {a or b for a, b in re.findall(r"`(\w+)`[\s-]+is[\s-]+`\w+`[\s-]+of|^// (\w+) is \w+ of", text, re.M)}
    words = re.findall(r"^\| (`.*`) \|", text, re.M) + re.findall(r"\b[A-Z]\b", text.partition("are any types")[0].rpartition("\n\n")[2])
    found = {word for group in names for part in ([group] if isinstance(group, str) else group) for word in part.split()} | set(re.findall(r"[^\s`,\"]+", " ".join(words)))
    return found | {part for name in found for part in definitions.parts(name)}


class OnPage(definitions.Module):
    """A block of a page's code, read as a module whose imports are all that the page defines."""

    def __init__(self, code, names):
        self.place, self.about, self.entries, self.own = "page", "", [], {}
        self.names, self.short, self.missing = dict.fromkeys(names, ("page", "")), {}, set()
        self.read([re.sub(rf"^(?={DECLARED}|(?:data|record) )", "pub ", line) for line in as_in_a_file(code)])
        for entry in self.entries:
            self.cite(entry)

    def find(self, name, projection=""):
        return name if name in self.names or definitions.LEVELS & {name} else None

    def is_constructor(self, name, projection):
        return self.find(name) is not None

    def note(self, entry, found, bound):
        self.missing |= {(entry.name, name) for name, _ in definitions.free(found, bound) if self.find(name) is None}


@unittest.skipUnless(shutil.which("rt"), "the command rt is not on the PATH")
class Statement(unittest.TestCase):
    def test_the_pages_are_fresh(self):
        for name, words in PAGES.items():
            with self.subTest(name):
                run = printed(TOP, *words)
                self.assertEqual((run.returncode, run.stderr), (0, b""))
                self.assertTrue(page(name).encode() == run.stdout, f"docs/{name} is old: run docs/statement.py")

    def test_a_name_without_a_meaning_stops_the_script(self):
        with tempfile.TemporaryDirectory() as copy:
            os.mkdir(os.path.join(copy, "docs"))
            for script in ("statement.py", "definitions.py"):
                shutil.copy(os.path.join(DOCS, script), os.path.join(copy, "docs"))
            for crate in os.listdir(os.path.join(TOP, "crates")):
                for part in ("specs", "src"):
                    folder = os.path.join("crates", crate, part)
                    if os.path.isdir(os.path.join(TOP, folder)):
                        shutil.copytree(os.path.join(TOP, folder), os.path.join(copy, folder))
            path = os.path.join(copy, "crates", "espresso", "specs", "Tool.antt")
            with open(path, encoding="utf-8") as file:
                text = file.read()
            with open(path, "w", encoding="utf-8") as file:
                file.write(text.replace("line_of words", "line_behind words"))
            run = printed(copy)
            self.assertEqual(run.returncode, 1)
            self.assertIn(b"tool cites line_behind, which is found nowhere", run.stderr)


class Closed(unittest.TestCase):
    def check(self, text, names):
        """Each name in the definitions and contracts of a page is one of these."""
        sections = list(paragraphs(text))
        blocks = ["\n\n".join(part for part, is_rust in code if not is_rust) for code in sections]
        self.assertGreater(sum(block.count("\n\n") for block in blocks), 100)
        self.assertEqual(set().union(*(OnPage(code, names).missing for code in blocks)), set())
        for code in ("\n\n".join(part for part, is_rust in code if is_rust) for code in sections):
            plain = re.sub(r"//.*", "", code)
            own = {"self", "Self", "result", *re.findall(r"(\w+): ", plain), *re.findall(r"\b[A-Z]\b", plain)}
            for clause in definitions.clauses(plain):
                self.assertEqual({name for name, _ in definitions.free(definitions.tokens(clause), own)} - names, set())

    def test_each_name_of_the_statement_is_defined_on_it(self):
        text = page("STATEMENT.md")
        self.check(text, defined_on(text))

    def test_each_name_of_the_libraries_page_is_defined_on_it_or_on_the_statement(self):
        text = page("LIBRARIES.md")
        self.check(text, defined_on(page("STATEMENT.md")) | defined_on(text))

    def test_a_name_that_is_not_defined_is_seen(self):
        block = "twice : ℕ → ℕ  -- twice as much\ntwice n = add n n\n"
        self.assertEqual(OnPage(block, {"twice", "ℕ"}).missing, {("twice", "add")})
        self.assertEqual(OnPage(block, {"twice", "ℕ", "add"}).missing, set())
