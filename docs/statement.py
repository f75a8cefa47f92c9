#!/usr/bin/env python3
"""Writes docs/STATEMENT.md: the contracts of the program and every definition that they reach, and nothing else.
And docs/LIBRARIES.md: the contracts of the libraries' other public calls, and what these reach beyond.

usage: docs/statement.py [--print [--libraries]]      (--print: one of the pages to standard output, and no file is written)
"""
import itertools
import os
import re
import sys
import textwrap
from collections import defaultdict

sys.dont_write_bytecode = True
HERE = os.path.dirname(os.path.abspath(__file__))
sys.path.insert(0, HERE)

from definitions import Book, Entry, parts  # noqa: E402

# The contracts that are to be believed of the program.
CONTRACTS = ("espresso::execute", "espresso::Status::code")

# The libraries, of whose public calls the second page has the contracts, each with its subject and what it says.
LIBRARIES = (
    ("espresso", "The parts of a process", """For callers who have words and sources of their own. `Line::read` and `refuse` treat words as the process does, and `run` runs a
line on two sources that are there, with the contract of a run."""),
    ("minimum", "Primes and covers", """`primes` are the complete sum of the ON-set with the DC-set. `essential` and `find_essential` return the primes that hold a place of
the ON-set outside the DC-set that no other prime holds, the latter without a list of all primes; `find_essential_outside` does so of
two lists (`IsSampled`), for all three sets whose ON-set outside the DC-set is the places of the first, and whose ON-set with the
DC-set is the places outside the second. `exact` is the first of the smallest covers by primes, or of those of fewest literals; no
contract says which primes are listed on the way. `primes_of_pla`, `essential_of_pla` and `exact_of_pla` return the same of a description of any type. The covers of a table that `Table::build` makes are exactly the covers by primes.

The law `points_are_enough`: given are three sets with an ON list of cubes of their size; some essential primes; points, each a cube
of one wanted place that none of these holds; and columns, cubes that rise strictly in row order, no two with the same literals. Each
prime that contains a point is dominated by a column: it contains each point that the prime contains, and its literals come no later
or, where literals count, are fewer. If the cubes of the least cover of the table with a row for each point are primes, and with the
essential primes hold each wanted place, then all these together are the least cover by primes, for either choice of what is least."""),
    ("growth", "Cubes that grow", """`grow` returns a cube that contains the given one, and lies on the same side of the rows, inside or outside, if that one does: then
it is a prime of that side, whose literals come no later than those of any other that contains the cube (`AreFirst`). With it come rows
that hold the same places beside it as all rows (`AreNear`), or none, which stands for all rows; `rows_to_ask` returns these. `columns_of_point`
returns primes outside a list, or none: each cube outside the list that contains the point is dominated by one. `large_first` returns
the same cubes, those of fewer literals first. No contract says how few the columns are, which part `outputs_at` takes, or which rows
are near. The others are questions about cubes, copies, and rows by their outputs."""),
    ("covering", "The covering problem", """`least_cover`, `least_cover_with_effort` and `least_cover_plain` return the first by list order of the shortest covers of a table, or of
those with the fewest literals: for every table, and there is one (`least_is_unique`). Lists of one length compare by the least
number in which they differ (`least_difference_decides`). A reduced table comes from the old one by steps that drop a row, choose a
column or drop a column; none applies any more, and the least cover stays. No contract speaks of the figures of an `Effort`."""),
    ("pla", "The format", """`read_pla` returns a description, with its shape, names, type and lists, exactly if no line has a fault, nothing is missing at its
end, and no read fails before that; else the first line with a fault and the first kind on it, or one of the other two. The bytes may come in any pieces. It has written the echoes that are due up to there, and at most 4,096 bytes are delivered beyond the line that ends the description or has the fault. `Scan` promises the same, piece by
piece, for every text that its state stands for. `sets` keeps given lists; a computed one is the complete sum of its places where
it is asked for, else empty. `write_pla` and `write_covers` print the text for each output type and any three lists, or a prefix of it
if the output failed; they are refused no memory. `Reading` and `Writing` deliver and take what the reader or writer inside reports.

Laws: a printed text of type fdr is read again as its shape, names and lists, whatever follows it (`read_back`), and so is what
`echo` prints with all three lists, without the echoes before it (`echo_read_back`). Names have to be such as a file can give, and a
text has at most 16,777,216 lines. Under wider limits a file without a fault keeps its description, and a fault stays unless it comes
from a limit that differs; so too from an older profile's limits, 256 inputs and outputs and lines of 65,536 bytes (`wider_limits`)."""),
    ("cover", "Lists of cubes", """A `Cover` is a list of cubes of one shape. Its cofactor by a cube is the exact list, and holds everything exactly where the cover
holds the cube. `tautology` asks whether every place of every output is held. `contain` returns the exact list without contained cubes. `intersects`, `agree_outside`, `is_within_either` and `are_meets_within_either` decide exactly whether lists share a place, agree outside a
third, or lie in two others, alone or as far as they meet a third. `complete_sum`, `complement`, `intersect` and `difference` return complete sums: all maximal cubes of their places, in row order, each once. `sum_containing` returns the cubes of the complete sum outside
a list that contain a region, in row order, and `cubes_containing` those of a list, in their order. `outside` and `subtract` return lists with exactly the places outside a list, or in the first list alone; no contract says which cubes these are. These two and
`sum_containing` may also return none. `in_row_order` returns the same cubes in row order, each once."""),
    ("cube", "Cubes", """A `Cube` means its set of places, and so does each call: containment, disjointness, meet, join, sharp, cofactor, row order. All calls
but `set_symbol` leave the cube as it is. A cube of up to four words is refused memory by no call but `sharp`. The law
`complete_sum_is_maximal_cubes`: a set's complete sum is the one list that rises strictly in row order and whose members are its maximal cubes."""),
)

# The subjects in reading order: a title, what it says, and its modules (`crate.Module`) and items of src
# (`crate::item`). An enum or struct that is not listed stands before the first module that names it, and a module that is
# not listed at the end.
SUBJECTS = (
    ("What a process does", """`execute` is given the words of the process and an opener of files. Words that form no command line are refused, and no file is
opened. Otherwise the file that each word names is opened, once, and no other; no word, or `-`, is standard input. The second is opened only after a
first that was read without a fault. Output, message and status are those of `tool`, unless memory runs out or the output fails.

This is a claim for every input and output that reports its bytes. The code is the same for those that report none, as the system's
files and streams: no contract says anything of their bytes.""",
     ("espresso::execute", "espresso.Program")),
    ("The tool", """What a run prints, says and answers, as a function of the words and of what the files give. The first file is read whole before the
second. The echoes of both come first, in order; then sizes are compared, and then the command answers.""",
     ("espresso.Tool",)),
    ("How a run ends", """In one of three ways. As `tool` says: no write failed, and with status 0 or 1 no flush failed and standard error is left alone. Without
memory: status 3, and the output took a prefix of what was due. With an output that failed: status 2, and either one write failed, none
came after it, and the output took a prefix of what was due; or all of it was taken, and the flush failed.

Each time the output is flushed once, last, and standard error takes the message, or a prefix of it if a write failed. No read follows
a failed one, and at most 4,096 bytes are delivered beyond the line that ends a description or has a fault. Every source keeps its
case and name. A second source is asked for only after a first one without a fault, and else stays as it was.""",
     ("espresso.Run",)),
    ("The words of a command line", """Which words say which line. All others are refused: standard error gets the usage line, or a prefix of it if it fails, and the status
is 2. Apart from that, the only answer is that memory ran out.""", ("espresso.Words",)),
    ("Messages and statuses", "", ("espresso::Status::code", "espresso.Messages")),
    ("What each command answers", """`primes` prints all primes once, in row order; `essen` the essential ones; `exact` the first of the smallest covers by primes, or with
`--literals` of those of fewest literals. `verify` says equal exactly where each place that is in neither file's DC-set is in both ON-sets or
in neither. `intersect` and `sharp` print the complete sum of the places in both ON-sets, or in the first alone, under the first
file's names.""", ("espresso.Answer", "espresso.Check")),
    ("Lines of a file", "", ("pla.Lines", "pla.Keywords", "pla.Symbols", "pla.Header")),
    ("Faults, and what is passed on", """A file is read exactly where no line has a fault, nothing is missing at its end, and no read fails before that. Else the first line that
has a fault is reported, with the first kind on it; where no line has one, the read that failed, with the line that was being read, or
what is missing, with the last line.""",
     ("pla::ReadKind", "pla::ReadFault", "pla.Fault", "pla::Echo", "pla.Echoes")),
    ("What a file describes", """Given lists stay as they are; a list that is left open is the complete sum of its places.""",
     ("pla.Lists", "pla.Description", "pla.Sets", "pla.Completed")),
    ("Cubes, places and complete sums", "",
     ("cube.Size", "cube.Limits", "cube.Pattern", "cube.Cube", "cube.Order", "cube.Sum")),
    ("Lists of cubes", "", ("rows.Cubes", "rows.Places", "rows.Contained")),
    ("Primes and covers by primes", "", ("minimum.Primes", "covering.Cover", "covering.Table")),
    ("The printed text", "", ("pla.Text",)),
    ("Devices", """What a contract sees of files, of outputs, and of the calls to them. `start` gives `execute` the files and streams of the system, of which
no contract says what they hold.""",
     ("espresso::Opener", "pla::Input", "pla::Output", "pla::Broken", "pla::ReadCalls", "pla::WriteCalls", "pla::Counts",
      "pla.Device", "pla.Reads")),
)

READING = """`pla.Fault` is the file `crates/pla/specs/Fault.antt`, and `pla::Echo` an item of `crates/pla/src`. A definition has its type, and
then an equation for each case, of which the first that fits counts; a `record` has fields, and a `data` cases. `P × Q` is
both, `P ⊎ Q` either, `P → Q` whenever P then Q, `(x : T) → P` for each x, `(x : T) × P` for some x, `⊤` what always holds and `⊥`
what never does. `λ x. t` is the function that answers t. Texts are lists of bytes, and `codes` gives those of a quoted one. In a
contract `x.old` and `x.new` are what a borrowed value is before and after the call, `x.now` is what a shared one is, and `result`
is what the call answers; a type that has a model is seen as its model. A name that several sections define is that of its own
module, unless the line with `====` above the module says otherwise. The page leaves out the words `abbrev`, `unfoldable` and `pub`,
which say when the checker looks into a definition and who may use it. It wraps comments anew or puts them beside what they are about.
A definition with one equation has its arguments in its first line, as in `twice (n : ℕ) : ℕ = n + n` for `twice : ℕ → ℕ` and
`twice n = n + n`. Equations, fields and cases stand side by side where they are short, with a semicolon between them."""

STATEMENT = """# The statement

All that has to be believed of this program. It is the contract of `execute`, which is that of the whole process on the words, files
and streams that `start` hands it, and each definition, enum, struct and trait that it reaches, also in the kit: {definitions} in
all, on {lines:,} lines with {comments} of comments. A checker has proved that the code keeps the contract; no proof
has to be read.

The page is written by `docs/statement.py` from `crates/*/specs`, `crates/*/src` and the kit's files, and `tests/run` checks that it is
fresh and that each name on it is defined on it. The libraries' other contracts are in [LIBRARIES.md](LIBRARIES.md).

{reading}
"""

LIBRARIES_PAGE = """# The contracts of the libraries

What the public calls of the libraries promise to those who call them from elsewhere, and the definitions that these contracts reach and
[the statement](STATEMENT.md) does not have: {definitions} in all, on {lines:,} lines and {comments} of comments. The program needs
none of them to be believed. The statement says how a contract and a definition are read; what is defined there is not repeated.

The page is written by `docs/statement.py`.
"""

WIDTH, SHORT = 130, 120     # of a line, and of one with several equations, fields or cases
BETWEEN = ";  "             # which stands between these
KIT = "What std defines"
KIT_ABOUT = """Definitions of the kit's libraries, as its files have them: `Rattle.core.specs.List` is `core/specs/List.antt`, `lib.ListN` is
`logic/Lib/ListN.antt`, and `mathlib.Core.Bool` is `antt/port/mathlib/src/Core/Bool.antt`. They stand in this order: {origins}. A, B, X, Y and T are any types, and ℓ and κ,
the levels of types, say nothing here. These words are the logic's own:
"""
KIT_ORDER = ("mathlib", "lib", "Rattle.core", "Rattle")

# The logic's own words, which have no definition to be read.
WORDS = (
    ("`a ≡ b`", "≡", "the two are the same"),
    ("`ℕ`", "ℕ", "the numbers from 0 on, without a limit"),
    ("`zero`, `suc n`", "zero suc", "0, and the number after n"),
    ("`m + n`, `m - n`, `m * n`, `m / n`, `m % n`, `m ^ n`, `min m n`", "+ - * / % ^ min",
     "arithmetic of such numbers: `m - n` is 0 if m is less, `/` leaves out the rest, and `%` is the rest"),
    ("`m ≤ n`, `m < n`", "≤ <", "the fact that m is at most n, or less"),
    ("`nat_le m n`, `nat_lt m n`, `nat_eq m n`, or `leb`, `ltb`, `eqb`", "nat_le nat_lt nat_eq eqb leb ltb",
     "the answers to whether m is at most n, less, or equal"),
    ('`codes "ab"`', "codes", "the numbers of the characters of a text"),
    ("`string_bytes s`", "string_bytes", "the bytes of a `String`"),
    ("`bit_and m n`", "bit_and", "the number of the bits that are in both"),
    ("`Bor T`", "Bor", "a borrowed T"),
    ("`Vec`, `String`, `Global`", "Vec String Global", "Rust's types; `items` are what a `Vec` holds"),
    ("`vec_len v`", "vec_len", "the length of a `Vec`"),
    ("`→`, `×`, `λ`, `⊥`, `Type`, `Unit`, `let`, `record`, `data`", "", "as said above; `Unit` has one value, and `¬ P` is `P → ⊥`"),
)


def is_item(entry):
    return entry.place.endswith("::")


def is_of_kit(entry):
    return entry.place.startswith(("std.", "Rattle.", "lib.", "mathlib."))


def reached(book, contracts):
    """Every entry that the contracts reach."""
    todo = [book.item_of(*name.split("::", 1)) for name in contracts]
    seen = {}
    while todo:
        entry = todo.pop()
        if entry not in seen:
            seen[entry] = True
            book.cite(entry)
            todo += [cited for cited in entry.cited.values() if isinstance(cited, Entry)]
    return seen


def items_of(entries, done):
    """The enums, structs and traits of src that the entries name and that are not done, each behind those that it names."""
    for entry in entries:
        for cited in entry.cited.values():
            if isinstance(cited, Entry) and is_item(cited) and cited not in done:
                done.add(cited)
                yield from items_of([cited], done)
                yield cited


def filled(text):
    """The text with its paragraphs wrapped, but for a table at its end."""
    text, bar, table = text.partition("\n|")
    paragraphs = [textwrap.fill(" ".join(part.split()), WIDTH, break_long_words=False, break_on_hyphens=False)
                  for part in text.strip().split("\n\n")]
    return "\n\n".join(paragraphs) + ("\n\n" + bar.strip() + table if bar else "")


def wrapped(lines):
    """The lines with their comments wrapped anew."""
    found = []
    for line in lines:
        last = found[-1] if found else ""
        mark = re.match(r" *(--|///) (?!----|[#*-] )", line)
        if mark and last.startswith(mark.group()) and " ----" not in last:
            found[-1:] = textwrap.wrap(f"{last} {line[mark.end():]}", WIDTH, subsequent_indent=mark.group(), break_long_words=False,
                                       break_on_hyphens=False)
        else:
            found.append(line)
    return found


def joined(lines):
    """The lines of a definition, with the parts of one that goes on over several put together where they fit."""
    found = []
    for line in lines:
        if found and is_continued(found[-1], line) and len(found[-1]) + len(line.strip()) < WIDTH:
            found[-1] += " " + line.strip()
        else:
            found.append(line)
    return found


def is_continued(last, line):
    """Whether a line of a definition goes on from the one before it, neither of which is a comment."""
    is_part = line.startswith("    ") or last.endswith(("{", ";")) or line.strip().startswith("}")
    return is_part and not line.lstrip().startswith("--") and not last.lstrip().startswith("--")


def beside(lines):
    """The lines of an item: on one line if there is no comment; with a comment of one line after the variant or field that it is
    about, and with arguments put together where they fit."""
    if lines[0].endswith(" {") and lines[-1:] == ["}"] and all(re.match(r"    [^/]*,$", line) for line in lines[1:-1]):
        whole = f"{lines[0]} {' '.join(line.strip() for line in lines[1:-1]).rstrip(',')} }}"
        return [whole] if len(whole) <= WIDTH else lines
    found, in_arguments = [], False
    for line in lines:
        about = re.match(r"    /// (.*)", found[-1]) if found else None
        is_alone = about and not (len(found) > 1 and found[-2].startswith("    ///"))
        is_argument = re.match(r"    \w+: .*,$", line) and found and (found[-1].endswith("(") or in_arguments)
        in_arguments = bool(is_argument)
        if is_alone and re.match(r"    [\w ]+(: \w+)?,$", line) and len(line) + len(about[1]) + 5 <= WIDTH:
            found[-1] = f"{line}  // {about[1]}"
        elif is_argument and not found[-1].endswith("(") and len(found[-1]) + len(line.strip()) < WIDTH:
            found[-1] += " " + line.strip()
        else:
            found.append(line)
    return found


def without_titles(lines):
    """The lines without the titles of what is said of errors."""
    return re.sub(r"^ *///\n */// # Errors\n *///\n", "", "\n".join(lines), flags=re.M).split("\n") if lines else []


def printed(entry):
    """The lines of an entry, as a page shows them."""
    comment, lines = wrapped(without_titles(entry.comment)), wrapped(without_titles(entry.lines))
    if is_item(entry):
        head, *body = beside(lines)
        is_short = len(comment) == 1 and re.search(r"\b(enum|struct) ", head) and len(head) + len(comment[0]) + 1 <= WIDTH
        return [f"{head}  {comment[0][1:]}", *body] if is_short else [*comment, head, *body]
    lines = [re.sub(r"^( *)((abbrev|unfoldable|pub) )+", r"\1", line) for line in lines]
    if lines[0].startswith(("data ", "record ")):
        return with_comment(comment, side_by_side(joined(with_fields(lines))))
    head, *body = joined(with_arguments(lines)[:1]) + joined(with_arguments(lines)[1:])
    is_whole = len(body) == 1 and head.endswith(" =") and len(f"{head} {body[0].strip()}") <= WIDTH
    if head.endswith(" =") and (is_whole or len(comment) != 1 or len(f"{head}  {comment[0]}") > WIDTH):
        return with_comment(comment, joined([head, *body]))
    return with_comment(comment, [head, *body] if head.endswith(" =") else side_by_side(joined(lines)))


def with_fields(lines):
    """The lines of a record or a data type: neighbours of one type on one line, and a comment of one line after its field."""
    found = []
    for at, line in enumerate(lines):
        name, _, type_ = line.partition(" : ")
        last, _, same = found[-1].partition(" : ") if found else ("", "", "")
        is_whole = re.match(r"  [^ }-]", line)
        goes_on = lines[at + 1:at + 2] and lines[at + 1].startswith("   ")
        if is_whole and not goes_on and type_ == same and re.match(r"  [^ }-]", last):
            found[-1] = f"{last} {name.strip()} : {type_}"
        else:
            found.append(line)
    for at in range(len(found) - 1, 1, -1):
        about, line = found[at - 1], found[at]
        is_alone = re.match(r"  -- ", about) and not re.match(r"  -- ", found[at - 2]) and re.match(r"  \S+ : ", line)
        if is_alone and len(line) + len(about) <= WIDTH and not (found[at + 1:at + 2] and found[at + 1].startswith("   ")):
            found[at - 1:at + 1] = [f"{line}  {about.strip()}"]
    return found


def with_arguments(lines):
    """The lines of a definition; of one with one equation, whose arguments are names, with these and their types in its first line."""
    first, *equations = re.split(r"\n(?![ }])", "\n".join(lines))
    if first.startswith(("data ", "record ")) or len(equations) != 1:
        return lines
    name, _, type_ = " ".join(first.split()).partition(" : ")
    left, _, right = equations[0].partition(" =")
    types, arguments = arrows(type_), left.split()[1:]
    shared = [part for part in itertools.takewhile(lambda part: part.startswith("{"), types)]
    types = types[len(shared):]
    is_plain = all(re.fullmatch(r"[a-z]\w*", argument) for argument in arguments) and not any(re.match(r"\([^()]* : ", part) for part in types)
    if "◌" in name or not is_plain or len(arguments) >= len(types):
        return lines
    groups = []
    for argument, part in zip(arguments, types):
        if groups and groups[-1][1] == part:
            groups[-1][0].append(argument)
        else:
            groups.append(([argument], part))
    given = [f"({' '.join(names)} : {part[1:-1] if re.fullmatch(r'[(].*→.*[)]', part) else part})" for names, part in groups]
    head = f"{' '.join([name, *shared, *given])} : {' → '.join(types[len(arguments):])} ="
    rest = [part for part in right.split("\n") if part.strip()]
    return [head, "    " + rest[0].strip(), *rest[1:]] if len(head) <= WIDTH else lines


def arrows(type_):
    """The parts of a type between its arrows."""
    found, depth = [""], 0
    for sign in type_:
        depth += {"(": 1, "{": 1, ")": -1, "}": -1}.get(sign, 0)
        if sign == "→" and not depth:
            found.append("")
        else:
            found[-1] += sign
    return [part.strip() for part in found]


def side_by_side(lines):
    """The lines of a definition, with its equations, fields or cases on one line where they all fit, or on fewer where each is short."""
    first, *others = lines
    indent = "  " if first.startswith(("data ", "record ")) else ""
    if not others or not all(re.match(indent + r"[^ }-]", line) and "  --" not in line for line in others):
        return lines
    found = [others[0]]
    for line in others[1:]:
        if len(found[-1]) + len(BETWEEN) + len(line.strip()) <= SHORT:
            found[-1] += BETWEEN + line.strip()
        else:
            found.append(line)
    return [first, *found] if len(found) == 1 or max(map(len, others)) <= SHORT // 2 else lines


def with_comment(comment, lines):
    """The lines of a definition under its comment; one of a single line stands after the first line, where it fits."""
    is_head = len(lines) == 1 or lines[0].endswith((" =", " where")) or " : " in lines[0] and not lines[1].startswith("   ")
    if len(comment) == 1 and is_head and len(lines[0]) + len(comment[0]) + 2 <= WIDTH:
        return [f"{lines[0]}  {comment[0]}", *lines[1:]]
    return [*comment, *lines]


def counted(entries):
    """How many entries there are, how many lines they have, and how many of comments."""
    lines = [line.strip() for entry in entries for line in printed(entry) if line.strip()]
    comments = sum(line.startswith(("--", "//")) for line in lines)
    return len(entries), len(lines) - comments, comments


def block(parts):
    """The entries of a section as code: those of each part under its heading, and those of a module under its loose comments."""
    lines = []
    for heading, entries in parts:
        section = ()
        lines += [*heading, ""] if heading else []
        for entry in entries:
            if entry.section != section:
                section = entry.section
                lines += [*section, ""]
            lines += [*printed(entry), ""]
    return ["```", *lines[:-1], "```", ""]


def headed(place, about=""):
    """The heading of a module or of a call, as a comment."""
    return textwrap.wrap(f"-- ==== {place}{about}", WIDTH, subsequent_indent="-- ", break_long_words=False, break_on_hyphens=False)


class Page:
    """A page: its subjects with their entries, each entry once, but for those that another page has."""

    def __init__(self, book, contracts, subjects, elsewhere=()):
        self.book, self.order = book, {call: k for k, call in enumerate(contracts)}
        self.seen = [entry for entry in reached(book, contracts) if entry not in elsewhere]
        self.owners = defaultdict(set)
        for entry in [*self.seen, *elsewhere]:
            for name in [entry.name, *entry.members]:
                self.owners[name].add(entry)
        listed = {place for _, _, places in subjects for place in places}
        self.done = {entry for entry in self.seen if is_item(entry) and (is_of_kit(entry) or entry.place + entry.name in listed)}
        self.done |= set(elsewhere)
        rest = sorted({entry.place for entry in self.seen if not is_item(entry) and not is_of_kit(entry)} - listed)
        self.sections = [(title, about, [part for place in places for part in self.parts(place)])
                         for title, about, places in (*subjects, ("Further definitions", "", rest))]
        printed = [entry for _, _, found in self.sections for _, entries in found for entry in entries]
        left_out = {entry for entry in self.seen if not is_of_kit(entry)} - set(printed)
        if left_out or len(printed) != len(set(printed)):
            sys.exit(f"statement: not printed once: {', '.join(entry.place + entry.name for entry in left_out)}")
        kit = list(self.parts_of_kit())
        origins = "; ".join(f"`{entries[0].place}` from `{entries[0].name}` on" for _, entries in kit if not is_item(entries[0]))
        self.sections.append((KIT, "\n".join([KIT_ABOUT.format(origins=origins), *self.words()]), kit))

    def parts(self, place):
        """The entries of a place, behind those of src that they name: each list with its heading, or none."""
        if "::" in place:
            found = [entry for entry in self.seen if (entry.place + entry.name + "::").startswith(place + "::")]
            found.sort(key=lambda entry: self.order.get(entry.place + entry.name, -1))
            is_call = place.split("::")[-1][0].islower() or any("::" in entry.name for entry in found)
            items = list(items_of(found, self.done))
            return [(headed(place) if is_call else [], items + found)] if found else []
        module = self.book.modules.get(place) or sys.exit(f"statement: there is no module {place}")
        entries = [entry for entry in module.entries if entry in self.seen]
        items = list(items_of(entries, self.done))
        notes = self.notes(entries)
        heading = headed(place, f": {module.about[:1].lower()}{module.about[1:]}" + (f" Here {notes}." if notes else ""))
        return [(heading, items + entries)] if entries else []

    def parts_of_kit(self):
        """The entries of the kit: its types, and then its modules, each with its name."""
        types = sorted((entry for entry in self.seen if is_of_kit(entry) and is_item(entry)), key=lambda entry: entry.name)
        if types:
            yield [], types
        places = {entry.place for entry in self.seen if is_of_kit(entry) and not is_item(entry)}
        for place in sorted(places, key=lambda place: (next(k for k, it in enumerate(KIT_ORDER) if place.startswith(it)), place)):
            yield [], [entry for entry in self.book.modules[place].all_entries() if entry in self.seen]

    def notes(self, entries):
        """What the entries mean by those names that mean several things on the page."""
        groups = defaultdict(set)
        for entry in entries:
            for name, meant in entry.cited.items():
                last = name.split(".")[-1]
                if not isinstance(meant, Entry):
                    owner = "std" if self.owners[name] else ""
                elif "." in name or self.owners[name] - {meant} and meant.place != entry.place:
                    owner = meant.name if last in meant.members else "std" if is_of_kit(meant) else re.sub(r"(.*)::", r"crates/\1/src", meant.place)
                else:
                    owner = ""
                if owner:
                    groups[owner].add(f"{name.split('.')[0]}.…" if "." in name and last in meant.members else name)
        renamed = [f"`{name}` is `{origin}` of `{meant.name}`" for entry in entries for name, meant in entry.cited.items()
                   for origin in [self.book.modules[entry.place].names.get(name, ("", name))[1]]
                   if origin != name and isinstance(meant, Entry) and origin in meant.members and name not in parts(origin)]
        told = [(", ".join(f"`{name}`" for name in sorted(names)), owner) for owner, names in sorted(groups.items())]
        told = [f"{names} {'is' if ',' not in names else 'are'} of `{owner}`" for names, owner in told]
        return "; ".join(told + sorted(set(renamed)))

    def words(self):
        """The words of the logic that the entries use, each with what it means."""
        cited = {name for entry in self.seen for name, meant in entry.cited.items() if not isinstance(meant, Entry)}
        unknown = sorted(cited - {name for _, names, _ in WORDS for name in names.split()})
        if unknown:
            sys.exit(f"statement: what the logic's own words mean is not said: {', '.join(unknown)}")
        return ["| Word | Meaning |", "|---|---|", *(f"| {shown} | {meaning} |" for shown, names, meaning in WORDS if not names or cited & set(names.split()))]

    def text(self, introduction):
        definitions, code, comments = counted(self.seen)
        lines = [introduction.format(definitions=definitions, lines=code, comments=comments, reading=READING)]
        for title, about, parts in self.sections:
            if parts:
                lines += [f"## {title}", "", *([filled(about), ""] if about else []), *block(parts)]
        return "\n".join(lines).rstrip("\n") + "\n"


def pages():
    """Both pages, each with its file's name."""
    book = Book()
    statement = Page(book, CONTRACTS, SUBJECTS)
    contracts, subjects = [], []
    for crate, title, about in LIBRARIES:
        calls = book.public_calls(crate)
        contracts += calls
        modules = [place for place in book.modules if place.startswith(crate + ".")]
        modules = sorted(modules + [origin for place, origin in book.passed_on.items() if place.startswith(crate + ".")])
        subjects.append((title, f"The library `{crate}`. {about}", [*dict.fromkeys("::".join(call.split("::")[:2]) for call in calls), *modules]))
    libraries = Page(book, contracts, subjects, statement.seen)
    return {"STATEMENT.md": statement.text(STATEMENT), "LIBRARIES.md": libraries.text(LIBRARIES_PAGE)}


def main():
    if sys.argv[1:] not in ([], ["--print"], ["--print", "--libraries"]):
        sys.exit(__doc__)
    for name, text in pages().items():
        if not sys.argv[1:]:
            with open(os.path.join(HERE, name), "w", encoding="utf-8") as page:
                page.write(text)
        elif (name == "LIBRARIES.md") == ("--libraries" in sys.argv):
            sys.stdout.buffer.write(text.encode())


if __name__ == "__main__":
    main()
