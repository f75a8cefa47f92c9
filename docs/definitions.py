"""The definitions of the specs and the items of src, and what the names mean that they cite.

A name is looked up where it stands: among the variables of its equation, the definitions of its module, and what
the module's `use` lines bring from other modules, from enums and structs of src, or from the kit's libraries, whose
files are read as the repository's are. A name that is found in none of these is an error, so that nothing is left
out unseen.
"""
import functools
import itertools
import os
import re
import subprocess
import sys
from dataclasses import dataclass, field

ROOT = os.path.dirname(os.path.dirname(os.path.abspath(__file__)))
CRATES = sorted(os.listdir(os.path.join(ROOT, "crates")))
KEYWORDS = {"abbrev", "unfoldable", "pub", "data", "record", "mod"}
LANGUAGE = set("→ × : = _ ⊥ ¬ . ( ) { } , ; [] λ let in where record pub Type Unit".split())
LEVELS = {"ℓ", "ℓ'", "κ", "⊔"}      # a type's level, as the kit's files have it
# The modules of the kit of which each name is one of the logic's own words, and has no definition to be read.
WORDS = {"Prim.Native.Nat", "mathlib.Core.Path", "lib.Dec", "lib.Chars", "lib.Bits", "denote.Ref",
         "Rattle.std_alloc.specs.String", "Rattle.std_alloc.specs.Vec"}
TOKEN = re.compile(r'"[^"]*"|--.*|\.[\w\']+|[(){},;.]|[^\s(){},;."]+')
PUBLIC = r"(?:pub(?:\(crate\))? )?(?:const )?"
TRAITS = ("Input", "Output", "Opener")      # those of devices, of which a page has what contracts see
USE = re.compile(r"^\s*(?:unfoldable )?(?:pub )?(?:ghost )?use ([\w.]+?)(?:\.\{(.*?)\})?(?: as (\w+))?;?$", re.M | re.S)


@dataclass(eq=False)
class Entry:
    """A definition of a module, or an item of src: its own lines, and the names that it cites."""
    place: str                     # `crate.Module`, or `crate::` for an item of src
    name: str
    comment: list
    section: tuple = ()            # the loose comment that it stands under
    lines: list = field(default_factory=list)
    members: list = field(default_factory=list)     # constructors or variants
    cited: dict = field(default_factory=dict)       # a name as it is written: the entry, or a name of std


def declaration(name):
    """A line that begins an enum, a struct, a trait or a constant."""
    return PUBLIC + rf"(?:enum|struct|trait|const) {name}\b"


def tokens(text):
    return [token for token in TOKEN.findall(text) if not token.startswith(("--", '"'))]


def imports(text):
    """The names that `use` lines bring: each with its module and its name there; and the modules' short names."""
    names, short = {}, {}
    for module, listed, alias in USE.findall(text):
        if not listed:
            short[alias or module.rpartition(".")[2]] = module
        for word in filter(None, (word.strip() for word in listed.split(","))):
            name, _, other = word.partition(" as ")
            names[other or name] = (module, name)
    for name, origin in list(names.items()):
        names.update((part, origin) for part in parts(name))
    return names, short


def parts(name):
    """The parts of an operator's name, as it is written between what it is applied to."""
    return [part for part in name.split("◌") if part] if "◌" in name else []


def free(found, bound):
    """The names that no binder around them binds, each with the projection behind it."""
    scopes = [set(bound)]
    at = 0
    while at < len(found):
        token, after = found[at], found[at + 1] if at + 1 < len(found) else ""
        if token in ("(", "{"):
            end = at + 1
            while end < len(found) and found[end] not in LANGUAGE - {"_"}:
                end += 1
            if found[end:end + 1] == [":"]:
                scopes[-1].update(found[at + 1:end])
            scopes.append({"{"} if token == "{" else set())
        elif token in (")", "}"):
            scopes.pop()
        elif token == "λ":
            end = found.index(".", at)
            scopes[-1].update(found[at + 1:end])
            at = end
        elif token == "let":
            scopes[-1].add(after)
        elif token[0] != "." and not (after == "=" and "{" in scopes[-1]):
            if token not in LANGUAGE and not token[0].isdigit() and not any(token in s for s in scopes):
                yield token, after[1:] if after[:1] == "." else ""
        at += 1


def clauses(code):
    """What stands in the braces of the promises of an item of src, and in those of what contracts see of it."""
    for match in re.finditer(r"\b(?:ensures|requires|ghost)\b[^{;]*\{", code):
        end, depth = match.end(), 1
        while depth:
            depth += {"{": 1, "}": -1}.get(code[end], 0)
            end += 1
        yield code[match.end():end - 1]


class Module:
    """A file of specs: its definitions in order, and what its names mean."""

    def __init__(self, book, place, path):
        self.book, self.place = book, place
        text = open(path, encoding="utf-8").read()
        self.names, self.short = imports(text)
        self.about, self.entries, self.own = "", [], {}
        self.read(USE.sub("", text).split("\n"))
        for entry in self.entries:
            for name in [entry.name, *entry.members]:
                self.own.update((spelling, entry) for spelling in [name, *parts(name)])

    def read(self, lines):
        comment, section = [], ()
        for line in lines:
            words = line.split()
            if not words:
                if comment and not self.entries and not self.about:
                    self.about = " ".join(part[3:] for part in comment)
                elif comment:
                    section = tuple(comment)
                comment = []
            elif line.startswith("--"):
                comment.append(line)
            elif line[0] != " " and (words[0] in KEYWORDS or words[1:2] == [":"]):
                name = next(word for word in words if word not in KEYWORDS)
                self.entries.append(Entry(self.place, name, comment, section, [line]))
                comment = []
            else:
                last = self.entries[-1]
                last.lines.append(line)
                if "data" in last.lines[0].split()[:2] and ":" in words:
                    last.members += words[:words.index(":")]

    def find(self, name, projection=""):
        """The entry of a name, or its whole name where it is a word of the logic; None where it has no meaning."""
        if projection and name in self.short:
            return self.book.lookup(self.short[name], projection)
        if name in self.own:
            return self.own[name]
        return self.book.lookup(*self.names[name]) if name in self.names else None

    def is_constructor(self, name, projection):
        found = self.find(name, projection)
        if isinstance(found, Entry):
            origin = self.names.get(name, ("", name))[1]
            return bool(projection) or bool({name, origin} & {*found.members, *(part for it in found.members for part in parts(it))})
        return found is not None

    def cite(self, entry):
        """Notes what an entry cites: its type, or the fields or cases that it has, and then each of its equations."""
        first, *equations = re.split(r"\n(?![ }])", "\n".join(entry.lines))
        head, _, body = first.partition(entry.name)
        labels = " ".join(re.findall(r"^\s+(?:pub )?(.+?) :", body, re.M) if {"data", "record"} & set(head.split()) else ())
        self.note(entry, tokens(body), labels.split())
        for equation in equations:
            found = tokens(equation)[0 if parts(entry.name) else 1:]
            end = found.index("=")
            pattern = free(found[:end], ())
            self.note(entry, found[:end] + found[end + 1:], [name for name, case in pattern if not self.is_constructor(name, case)])

    def note(self, entry, found, bound):
        for name, projection in free(found, [*bound, entry.name, *parts(entry.name)]):
            meant = self.find(name, projection)
            if meant is None:
                sys.exit(f"statement: {self.place}: {entry.name} cites {name}, which is found nowhere")
            entry.cited[f"{name}.{projection}" if projection and name in self.short else name] = meant


class KitModule(Module):
    """A file of the kit's libraries. Some of its definitions share variables, which stand before them."""

    def __init__(self, book, place, path):
        self.shared, self.renamed = set(LEVELS), {}
        super().__init__(book, place, path)
        for entry in self.entries:
            entry.section = ()
            entry.comment = entry.comment if place.startswith("Rattle.") else []

    def read(self, lines):
        plain, inside = [], False
        for line in lines:
            if line.startswith("module _ "):
                inside = True
                self.shared.update(" ".join(re.findall(r"\{([^:}]*)", line)).split())
            elif not re.match(r"\s*(infix|(pub )?mod )", line):
                inside = inside and line[:1] in ("", " ")
                plain.append(line[2:] if inside else line)
        super().read(plain)

    def note(self, entry, found, bound):
        super().note(entry, found, [*bound, *self.shared])

    def as_named(self, name, other):
        """The entry of a name, under another one by which it is passed on."""
        entry = self.find(name)
        if name == other or not isinstance(entry, Entry) or name in entry.members or entry.place != self.place:
            return entry
        if other not in self.renamed:
            lines = [re.sub(rf"(?<![\w◌]){re.escape(name)}(?![\w◌])", other, line) for line in entry.lines]
            self.renamed[other] = Entry(entry.place, other, entry.comment, (), lines, entry.members)
        return self.renamed[other]

    def all_entries(self):
        return [*self.entries, *self.renamed.values()]


class Source:
    """A file of src: contracts, enums, structs, traits and models, as far as they are asked for."""

    def __init__(self, book, crate, dotted, path):
        self.book, self.crate, self.dotted = book, crate, dotted
        self.text = text = open(path, encoding="utf-8").read()
        self.lines = text.split("\n")
        self.names, _ = imports("\n".join(re.findall(r"^\s*ghost use [^;]*;", text, re.M)))
        self.types = {}
        for origin, listed in re.findall(r"^(?:pub )?use (\w+)(?:::\w+)*::(\{.*?\}|\w+);", text, re.M | re.S):
            for name in re.findall(r"\w+", listed):
                self.types[name] = crate if origin in ("crate", "self", "super") else origin

    def item(self, name):
        """The entry of an item, by its name, of a method as `Type::method`, or of a trait's block as `Trait for Type`."""
        if " for " in name:
            return self.block_of(name)
        inside, _, method = name.rpartition("::")
        begin = self.block_with(inside, method) if inside else 0
        what = PUBLIC + rf"fn {method}\b" if method[0].islower() else declaration(method)
        begin = self.line_of(rf"\s*{what}", begin)
        text, indent = [], re.match(" *", self.lines[begin]).group()
        for line in self.lines[begin:]:
            if method[0].islower() and line.startswith((indent + "{", indent + "}")):
                break
            text.append(line)
            if line == "}" or line.endswith(";") and len(text) == 1:
                break
        comment = []
        while re.match(r"\s*(///|#\[)", self.lines[begin - 1]):
            begin -= 1
            comment.insert(0, self.lines[begin])
        comment = comment or self.comment_of_trait(self.lines[self.block_with(inside, method)] if inside else "", method)
        lines = self.text_of(comment, indent), self.text_of(text, indent)
        entry = Entry(f"{self.crate}::", name, lines[0], (), lines[1])
        entry.members = re.findall(r"^    (\w+).*,$", "\n".join(text), re.M) if " enum " in " " + text[0] else []
        self.add_model(entry)
        entry.lines += self.renamings(entry)
        return entry

    def block_of(self, name):
        """What contracts see of a type by a trait: the block without its functions."""
        begin = self.line_of(self.block_like(*name.split(" for ")))
        text = "\n".join(self.text_of(self.lines[begin + 1:self.line_of(r"\}", begin)], ""))
        ghosts = re.findall(r"^    ghost \w+ = \{.*?\};$", text, re.M | re.S)
        return Entry(f"{self.crate}::", name, [], (), [self.lines[begin], *"\n".join(ghosts).split("\n"), "}"])

    @staticmethod
    def block_like(trait, name):
        return rf"impl(?:<.*>)? {trait}(?:<.*>)? for {name}(?:<.*>)? \{{"

    def blocks_of(self, name):
        """What stands in the blocks with the methods of a type, its own and those of the traits that are no devices."""
        return [block for _, block in self.found_blocks(name)]

    def found_blocks(self, name):
        traits = "|".join(TRAITS)
        pattern = rf"^impl(?:<[^\n{{]*>)? (?:(?!(?:{traits}|Drop|Model|Clone)\b)\w+ for )?{name}(?:<[^\n{{]*>)? \{{\n(.*?)^\}}"
        return [(found.start(), found[1]) for found in re.finditer(pattern, self.text, re.M | re.S)]

    def block_with(self, name, method):
        """The line with which the block begins that has a method of a type."""
        for start, block in self.found_blocks(name):
            if re.search(rf"^    {PUBLIC}fn {method}\b", block, re.M):
                return self.text.count("\n", 0, start)
        sys.exit(f"statement: no file of {self.crate} has {name}::{method}")

    def comment_of_trait(self, block, method):
        """What a trait says of a method; nothing for a block that is of no trait, or of one of another file."""
        trait = re.match(r"impl(?:<.*>)? (\w+) for ", block)
        if not trait:
            return []
        at = self.line_of(rf"    fn {method}\b", self.line_of(rf"{PUBLIC}trait {trait[1]}\b"))
        begin = at
        while self.lines[begin - 1].lstrip().startswith("///"):
            begin -= 1
        return self.lines[begin:at]

    def line_of(self, pattern, begin=0):
        for at in range(begin, len(self.lines)):
            if re.match(pattern, self.lines[at]):
                return at
        sys.exit(f"statement: no line of a file of {self.crate} is like {pattern}")

    @staticmethod
    def text_of(lines, indent):
        return [line[len(indent):] for line in lines if not re.match(r"\s*(#\[|ghost use)", line)]

    def add_model(self, entry):
        """A type with a model: what contracts see of it."""
        begin = next((at for at, line in enumerate(self.lines) if line == f"impl Model for {entry.name} {{"), None)
        if begin is not None:
            end = self.line_of(r"\}", begin)
            text = "\n".join(self.text_of(self.lines[begin:end + 1], ""))
            text = re.sub(r"^    ghost (?!Value)\w+ = \{.*?\};$", "", text, flags=re.M | re.S)      # how it is kept in the fields
            entry.lines += ["", *(line for line in text.split("\n") if line)]

    def renamings(self, entry):
        """A comment for each name of a contract that an import has renamed."""
        code = re.sub(r"//.*", "", "\n".join(entry.lines))
        names = sorted({name for clause in clauses(code) for name in tokens(clause)} & set(self.names))
        return [f"// {name} is {origin} of {self.book.place_of(module.split('.')[1], module.split('.')[3:])}"
                for name in names for module, origin in [self.names[name]] if origin != name and name not in parts(origin)]

    def cite(self, entry):
        """Notes the types that an item names, and what its clauses cite."""
        code = re.sub(r"//.*", "", "\n".join(entry.lines))
        for name in re.findall(r"\b[A-Z]\w*[a-z]\w*", code):
            self.note(entry, name, self.book.type_in(self, name))
        own = {"self", "Self", "result", *re.findall(r"(\w+): ", code), *re.findall(r"\b[A-Z]\b", code)}
        for clause in clauses(code):
            for name, _ in free(tokens(clause), own):
                meant = self.book.lookup(*self.names[name]) if name in self.names else self.book.type_in(self, name)
                if meant is None:
                    sys.exit(f"statement: {entry.place}{entry.name} cites {name}, which is found nowhere")
                self.note(entry, name, meant)

    @staticmethod
    def note(entry, name, meant):
        if meant is not None and meant is not entry:
            entry.cited[name] = meant


class Book:
    """All modules and sources, looked up by their names."""

    def __init__(self):
        self.modules, self.sources, self.items, self.passed_on = {}, {}, {}, {}
        for crate in CRATES:
            for path, dotted in files(f"crates/{crate}/specs", ".antt"):
                self.modules[f"{crate}.{dotted}"] = Module(self, f"{crate}.{dotted}", path)
            self.passed_on.update(modules_passed_on(crate))
            for path, dotted in files(f"crates/{crate}/src", ".rt"):
                dotted = re.sub(r"\.mod$|^lib$", "", dotted)
                self.sources[crate, dotted] = Source(self, crate, dotted, path)

    def cite(self, entry):
        """Notes what an entry cites."""
        (getattr(entry, "source", None) or self.modules[entry.place]).cite(entry)

    def lookup(self, module, name):
        """The entry of a name of a module, or its whole name where it is a word of the logic."""
        if module in WORDS:
            return f"{module}.{name}"
        root, crate, _, *path = *module.split("."), "", ""
        if root != "Rattle" or crate not in CRATES:
            return self.lookup_in_kit(module, name)
        path = path[:-2]
        if path[0] == "declared":
            path = path[1:-1] if path[-1] == "TheVariants" else path[1:]
            return self.item(crate, ".".join(path[:-1]), path[-1])
        return self.modules[self.place_of(crate, path)].find(name)

    def place_of(self, crate, path):
        """`crate.Module` of a module, also of one that the crate passes on."""
        place = ".".join([crate, *path])
        return self.passed_on.get(place, place)

    def lookup_in_kit(self, module, name):
        """The entry of a name of a module of the kit, under that name."""
        root, library, _, *path = *module.split("."), "", ""
        if "declared" in path:
            path = path[1:-3] if path[-3] == "TheVariants" else path[1:-2]
            return self.type_of_kit(library, path)
        found = self.module_of_kit(module)
        if found is None:
            outside, _, inside = module.rpartition(".")     # a module that another one passes on
            passing = self.module_of_kit(outside) or sys.exit(f"statement: the kit has no module {module}, for {name}")
            return self.lookup(passing.short[inside], name)
        origin = found.names.get(name)
        if name not in found.own and origin and origin[0] not in WORDS and origin[1] != name and "declared" not in origin[0]:
            return self.module_of_kit(origin[0]).as_named(origin[1], name)
        return found.find(name)

    def module_of_kit(self, module):
        """A module of the kit, or none where no file has that name."""
        place, path = path_in_kit(module)
        if path and place not in self.modules:
            self.modules[place] = KitModule(self, place, path)
        return self.modules.get(place)

    def type_of_kit(self, library, path):
        """An enum of the kit, or the whole name of another type, which is Rust's."""
        *folders, name = path
        for crate, end in itertools.product((library, *KIT_LIBRARIES), (".rt", "/mod.rt")):
            file = os.path.join(kit(), crate, "src", *folders) + end
            place, dotted = f"std.{crate}", ".".join(folders)
            if (place, dotted) not in self.sources and os.path.isfile(file):
                self.sources[place, dotted] = Source(self, place, dotted, file)
            if (place, dotted) in self.sources:
                return self.item(place, dotted, name) if f"pub enum {name}" in self.sources[place, dotted].text else f"std.{name}"
        return f"std.{name}"

    def item(self, crate, dotted, name):
        if (crate, dotted, name) not in self.items:
            source = self.sources[crate, dotted]
            self.items[crate, dotted, name] = source.item(name)
            self.items[crate, dotted, name].source = source
        return self.items[crate, dotted, name]

    @functools.cache
    def item_of(self, crate, name):
        """The item of a crate by its name alone, which has one file, or the item of another crate that it passes on."""
        inside, _, last = name.rpartition("::")
        pattern = rf"^    {PUBLIC}fn {last}\b" if inside else "^" + (
            Source.block_like(*last.split(" for ")) if " for " in last else declaration(last) if last[0].isupper() else PUBLIC + rf"fn {last}\b")
        found = [dotted for (of, dotted), source in self.sources.items() if of == crate
                 for text in (source.blocks_of(inside) if inside else [source.text]) if re.search(pattern, text, re.M)]
        passed_on = self.sources[crate, ""].types.get(name) if (crate, "") in self.sources else None
        if not found and passed_on in CRATES and passed_on != crate:
            return self.item_of(passed_on, name)
        if len(found) != 1:
            sys.exit(f"statement: {crate}::{name} is found in {len(found)} files")
        return self.item(crate, found[0], name)

    def public_calls(self, crate):
        """The calls that a library shows and that promise something: functions, and methods of types as `crate::Type::method`."""
        text = self.sources[crate, ""].text
        names = [name for origin, listed in re.findall(r"^pub use (\w+)(?:::\w+)*::(\{.*?\}|\w+);", text, re.M | re.S)
                 if origin not in CRATES or origin == crate for name in re.findall(r"\w+", listed)]
        names += [name for module in re.findall(r"^pub mod (\w+);", text, re.M)
                  for name in re.findall(r"^pub fn (\w+)", self.sources[crate, module].text, re.M)]
        calls = []
        for name in names:
            calls += [*self.methods_of(crate, name), *self.blocks_with_trait(crate, name)] if name[0].isupper() else [name]
        return [f"{crate}::{call}" for call in calls if " for " in call or any("ensures" in line for line in self.item_of(crate, call).lines)]

    def blocks_with_trait(self, crate, name):
        """What contracts see of a type by the traits of devices, as `Trait for Type`."""
        return [f"{trait} for {name}" for (of, _), source in self.sources.items() if of == crate
                for trait in TRAITS if re.search("^" + Source.block_like(trait, name), source.text, re.M)]

    def methods_of(self, crate, name):
        """The public methods of a type, as `Type::method`; of a trait, those of the types that have it."""
        texts = [source for (of, _), source in self.sources.items() if of == crate]
        found = [f"{name}::{method}" for source in texts for block in source.blocks_of(name)
                 for method in re.findall(r"^    pub (?:const )?fn (\w+)", block, re.M)]
        for source in texts if name not in TRAITS else ():
            for type_, block in re.findall(rf"^impl(?:<[^\n{{]*>)? {name} for (\w+) \{{\n(.*?)^\}}", source.text, re.M | re.S):
                found += [f"{type_}::{method}" for method in re.findall(r"^    fn (\w+)", block, re.M)]
        return found

    def type_in(self, source, name):
        """The item that a name of a type means in a file; None where it is one of std's."""
        if not name[:1].isupper():
            return None
        if re.search("^" + declaration(name), source.text, re.M):
            return self.item(source.crate, source.dotted, name)
        crate = source.types.get(name)
        return self.item_of(crate, name) if crate in CRATES else None


KIT_LIBRARIES = ("core", "std_alloc", "std")


@functools.cache
def kit():
    """The folder of the kit's libraries, which lies beside the page that `rt doc` names."""
    try:
        page = subprocess.run(["rt", "doc"], capture_output=True, encoding="utf-8", check=True).stdout.strip()
    except (OSError, subprocess.CalledProcessError) as error:
        sys.exit(f"statement: the command rt of the Rattle kit has to be on the PATH: {error}")
    return os.path.join(os.path.dirname(page), "rattle")


@functools.cache
def path_in_kit(module):
    """A module of the kit under the name of the library that has it, since std passes on those of others; and its file, if any."""
    root, *path = module.split(".")
    if root == "Rattle":
        places = [("Rattle." + ".".join([crate, *path[1:]]), os.path.join(crate, *path[1:])) for crate in (path[0], *KIT_LIBRARIES)]
    else:
        places = [(module, os.path.join({"lib": "logic/Lib", "mathlib": "antt/port/mathlib/src"}.get(root, root), *path))]
    for place, file in places:
        if os.path.isfile(os.path.join(kit(), file + ".antt")):
            return place, os.path.join(kit(), file + ".antt")
    return module, None


def modules_passed_on(crate):
    """The modules of other crates that a crate passes on: for each `crate.Module` the one whose it is."""
    path = os.path.join(ROOT, "crates", crate, "specs/Lib.antt")
    if not os.path.isfile(path):
        return {}
    with open(path, encoding="utf-8") as file:
        found = re.findall(r"^pub use Rattle\.(\w+)\.specs\.(\w+)$", file.read(), re.M)
    return {f"{crate}.{name}": f"{origin}.{name}" for origin, name in found}


def files(folder, ending):
    """The files of a folder and those in it, each with its dotted name."""
    top = os.path.join(ROOT, folder)
    for inside, _, names in sorted(os.walk(top)):
        for name in sorted(names):
            if name.endswith(ending) and name != "Lib.antt":
                path = os.path.join(inside, name)
                yield path, os.path.relpath(path, top)[:-len(ending)].replace(os.sep, ".")
