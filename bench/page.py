"""Writes docs/PERFORMANCE.md, its pictures, its tables and the table of README.md from what runs of peers.py and minute.py found."""
import math
import os
import platform
import re
import textwrap

from picture import Panel, Series, picture, power
from results import kept_minute
from tools import JOBS, LIMIT, MEMORY, MINUTE, MINUTES, SECOND, SHORT, is_installed, start, version

TOP = os.path.dirname(os.path.dirname(os.path.abspath(__file__)))
DOCS = os.path.join(TOP, "docs")
LOOKS = {                          # colour, mark and dashes of the lines: they differ in black and white too
    "exact": ("#0072b2", "circle", ""), "espresso": ("#0072b2", "circle", ""), "minimised": ("#56b4e9", "triangle", "6 3"),
    "primes": ("#d55e00", "square", "8 3"), "source": ("#d55e00", "square", "8 3"),
    "literals": ("#56b4e9", "triangle", "2 2"), "essen": ("#009e73", "diamond", "8 3 2 3"),
    "cbc": ("#d55e00", "square", "8 3"), "HiGHS": ("#009e73", "diamond", "2 2"), "minisat": ("#d55e00", "square", "8 3"),
    "cadical": ("#009e73", "diamond", "2 2"), "cec": ("#d55e00", "square", "8 3"), "SOPform": ("#009e73", "diamond", "2 2")}
SAME = 1.25                        # ratios up to this count as the same time
NOTED = 0.005                      # seconds from which on it is noted that another tool is faster
OUT_OF_MEMORY = f"{MEMORY / 2 ** 30:.0f} GiB of memory"
NO_SOURCE = "their sources have no answers"

# The rows of README's table, and the families that they are.
README_ROWS = {
    "decoded control logic, as inputs / outputs": ("control logic", "decoded control logic"),
    "tables of truth: two numbers added": ("tables of truth", "sums"),
    "samples of type fr: 100 points": ("samples", "one output, 100 rows"),
    "tables of truth: a number squared": ("tables of truth", "squares")}
README_HEAD = "| Files that `exact` answers | within a second | within a minute |"


# Figures.

def figure(number):
    """Two digits that count, or all before the point."""
    return f"{number:.{max(0, 1 - math.floor(math.log10(number)))}f}" if number else "0"


def capital(text):
    return text[0].upper() + text[1:]


def main_tool(comparison):
    """The one of ours that others are compared with."""
    return next(tool for tool in comparison.tools if tool.main)


def others(comparison):
    return [tool for tool in comparison.tools if tool.needs]


def time_of(row, tool):
    """The seconds of a tool at a size, None where it gave no answer or was not asked."""
    total = row.totals.get(tool.label)
    return total.seconds if total else None


def fastest_other(row, comparison):
    """The other tool that took the least time, None where none answered."""
    answered = [tool for tool in others(comparison) if time_of(row, tool) is not None]
    return min(answered, key=lambda tool: time_of(row, tool), default=None)


def ratio_at(row, comparison):
    """How many times as long the fastest other tool takes, None where none or this one did not answer."""
    other, here = fastest_other(row, comparison), time_of(row, main_tool(comparison))
    return time_of(row, other) / here if other and here else None


def is_loss(row, tool, comparison):
    """Another tool is faster, and the time of some function is not too short to count."""
    here, there = time_of(row, main_tool(comparison)), time_of(row, tool)
    return here is not None and there is not None and there * SAME < here and row.totals[main_tool(comparison).label].longest >= NOTED


def ratio_cell(row, comparison):
    """In bold where another tool is faster."""
    ratio = ratio_at(row, comparison)
    if ratio is None:
        return ""
    return f"**{figure(ratio)}**" if is_loss(row, fastest_other(row, comparison), comparison) else figure(ratio)


# Tables.

def table(head, lines, left=1):
    """Lines of cells, of which the first so many stand at the left and the others at the right."""
    yield "| " + " | ".join(head) + " |"
    yield "|" + "|".join("---" if i < left else "---:" for i in range(len(head))) + "|"
    for line in lines:
        yield "| " + " | ".join(line) + " |"
    yield ""


def is_asked(row, tool):
    """Whether a tool was run on all functions of a size; `exact` on its own answers is not, where it has none."""
    return tool.label in row.totals and row.totals[tool.label].why != "source"


def cell(row, tool):
    if not is_asked(row, tool):
        return "–"
    return "*none*" if time_of(row, tool) is None else figure(time_of(row, tool))


def count_of_primes(row):
    """All digits, or two and a power of ten."""
    if row.primes is None or row.primes < 1e8:
        return str(row.primes or "")
    tens = math.floor(math.log10(row.primes))
    return f"{row.primes / 10 ** tens:.1f} · {power(10 ** tens)}"


def family_table(comparison, family, rows):
    """All sizes of a family."""
    yield f"**{capital(family.name)}**: {family.told}."
    yield ""
    tools = [tool for tool in comparison.tools if any(tool.label in row.totals for row in rows)]
    listed = any(row.shape for row in rows)
    beside = bool(others(comparison))
    cells = [[row.shape or row.label, str(row.rows), *([count_of_primes(row)] if listed else []), *(cell(row, tool) for tool in tools),
              *([ratio_cell(row, comparison)] if beside else []), row.shown] for row in rows]
    head = ["Inputs / outputs" if listed else "Size", "Rows", *(["Primes"] if listed else []), *(tool.label for tool in tools),
            *(["Ratio"] if beside else []), comparison.counted]
    yield from table(head, cells)


def largest(rows, tool, within=math.inf):
    """The last row of which a tool answered each function within these seconds."""
    return next((row for row in reversed(rows) if time_of(row, tool) is not None and row.totals[tool.label].longest <= within), None)


def answered(family, rows, tool, within=math.inf):
    """How many of the members of a family that does not grow a tool answered."""
    found = [row for row in rows if time_of(row, tool) is not None and row.totals[tool.label].longest <= within]
    return f"{len(found)} of {len(family.sizes)}"


def reach(family, rows, tool, within=math.inf):
    """How far a tool came in these seconds."""
    if not family.grows:
        return answered(family, rows, tool, within)
    row = largest(rows, tool, within)
    return row.label if row else "none"


def others_reach(comparison, family, rows):
    """How far the other tools came, in words."""
    found = {}
    for tool in others(comparison):
        if any(tool.label in row.totals for row in rows):
            found.setdefault(reach(family, rows, tool), []).append(tool.label)
    return "; ".join(f"{' and '.join(labels)} {size}" for size, labels in found.items())


def last_ratio(comparison, rows):
    return "".join([ratio_cell(row, comparison) for row in rows if ratio_at(row, comparison)][-1:])


def stopped(comparison, family, rows):
    """What stopped our tool, in words."""
    left = [row for row in rows if time_of(row, main_tool(comparison)) is None]
    if not left:
        return "" if not family.grows else family.ends if rows[-1].label == family.sizes[-1].label else "no larger one was tried"
    why = {"memory": OUT_OF_MEMORY, "source": NO_SOURCE}.get(left[0].totals[main_tool(comparison).label].why, family.stops)
    return why if family.grows else f"{', '.join(row.label.split(':')[0] for row in left)}: {why}"


def shorter_files(compared, run):
    """In words: the sizes at which a file in few rows takes longer than its source."""
    for comparison in compared:
        for family, rows in of_comparison(comparison, run):
            times = [(row, row.totals["minimised"].seconds, row.totals["source"].seconds) for row in rows if "minimised" in row.totals]
            slower = [f"{row.label.split(':')[0]} ({figure(few)} s and {figure(many)} s)" for row, few, many in times
                      if few and many and few >= NOTED and few > SAME * many]
            if slower:
                yield f"{family.name} of {', '.join(slower)}"


def seconds_of_largest(family, rows, tool):
    """The longest time of one function, at the largest size that was answered."""
    row = largest(rows, tool) if family.grows else None
    return figure(row.totals[tool.label].longest) if row else ""


def by_comparison(compared, run, head, line):
    """A table of all families; a line for each comparison stands before them."""
    lines = []
    for comparison in compared:
        lines.append([f"**{capital(comparison.name)}**", *[""] * (len(head) - 1)])
        lines += [[capital(family.name), *line(comparison, family, rows)] for family, rows in of_comparison(comparison, run)]
    return table(head, lines, left=len(head) - (head[-1] == "Ratio"))


def minute_line(comparison, family, rows):
    tool = main_tool(comparison)
    return [reach(family, rows, tool, SECOND), reach(family, rows, tool), seconds_of_largest(family, rows, tool), stopped(comparison, family, rows)]


def minute_table(compared, minute):
    """How far `exact` came in each family, and what stopped it."""
    head = ["Family", "Within a second", f"Within {minute_told(minute)}", "Seconds", "What stops larger ones"]
    return by_comparison(compared, minute, head, minute_line)


def reach_line(comparison, family, rows):
    tool = main_tool(comparison)
    return [reach(family, rows, tool), seconds_of_largest(family, rows, tool), others_reach(comparison, family, rows), last_ratio(comparison, rows)]


def reach_table(compared, run):
    """How far each family came within the limit: our tool and the others."""
    return by_comparison(compared, run, ["Family", "This one", "Seconds", "Others", "Ratio"], reach_line)


def of_comparison(comparison, run):
    """Its families and their rows."""
    return [(family, run.rows[comparison.name, family.name]) for family in comparison.families if (comparison.name, family.name) in run.rows]


# Where others are faster, and what is open.

def faster_there(comparison, rows, tool):
    """In words: the sizes at which another tool takes less time."""
    faster = [row for row in rows if is_loss(row, tool, comparison)]
    if faster:
        shares = {row.label: time_of(row, tool) / time_of(row, main_tool(comparison)) for row in faster}
        least = min(shares, key=shares.get)
        rest = ", ".join(label.split(":")[0] for label in shares if label != least)
        yield (f"{tool.label} takes {figure(shares[least])} of the time at {least.split(':')[0]}"
               + (f", and less time also at {rest}" if rest else ""))


def answered_there(comparison, rows, tool):
    """In words: the sizes that another tool answers, and this one does not."""
    alone = [row for row in rows if time_of(row, tool) is not None and time_of(row, main_tool(comparison)) is None]
    if alone:
        sizes = ", ".join(row.label.split(":")[0] for row in alone)
        yield f"{tool.label} alone answers {sizes}, {'the last ' if len(alone) > 1 else ''}in {figure(time_of(alone[-1], tool))} s"


def reason(comparison, family, rows):
    """In words: why others are faster. They are given the primes, or it is what takes our time."""
    lost = [row for row in rows if any(is_loss(row, tool, comparison) for tool in others(comparison))]
    primes = [row.totals["primes"].seconds if "primes" in row.totals else None for row in lost]
    if lost and all(seconds and seconds + time_of(row, fastest_other(row, comparison)) > time_of(row, main_tool(comparison)) / SAME
                    for row, seconds in zip(lost, primes)):
        return "with the time of the primes, which they are given, they take as long"
    return family.stops


def losses(compared, run):
    for comparison in compared:
        for family, rows in of_comparison(comparison, run):
            told = [part for tool in others(comparison)
                    for part in (*faster_there(comparison, rows, tool), *answered_there(comparison, rows, tool))]
            if told:
                why = reason(comparison, family, rows)
                yield f"- **{capital(comparison.name)}, {family.name}**: " + "; ".join(told) + (f". Why: {why}." if why else ".")


def bounds_told(comparison, row):
    """What another tool knew of the size of a least cover when it was stopped, of the first function that it did not answer."""
    for tool in others(comparison):
        low, high = (row.totals[tool.label].bounds if tool.label in row.totals else None) or (None, None)
        if low is not None and high is not None:
            yield f"{tool.label} knew of {low} to {high} rows"


def known_there(comparison, label, rows):
    """In words: what the others knew of a size that `exact` did not answer, if they were asked of it."""
    row = next((row for row in rows if row.label == label and any(tool.label in row.totals for tool in others(comparison))), None)
    if row is None:
        return ""
    known = ", ".join([*(["nobody"] if not fastest_other(row, comparison) else []), *bounds_told(comparison, row)])
    return f" ({known})" if known else ""


def unanswered(comparison, family, rows, beside):
    """In words: the sizes that this tool was asked of and did not answer; `beside` are the rows of the run with others."""
    for row in rows:
        if is_asked(row, main_tool(comparison)) and time_of(row, main_tool(comparison)) is None:
            yield f"{family.name} at {row.label.split(':')[0]}{known_there(comparison, row.label, beside)}"


def open_lines(compared, run, minute):
    """For each thing that stops this tool what it did not answer: `exact` within a minute, and other commands within the limit."""
    found = {}
    for comparison in compared:
        for family, rows in of_comparison(comparison, minute if comparison.is_exact else run):
            told = list(unanswered(comparison, family, rows, run.rows.get((comparison.name, family.name), [])))
            if told:
                found.setdefault(stopped(comparison, family, rows).split(": ")[-1], {}).setdefault(comparison.name, []).extend(told)
    for why, groups in found.items():
        yield f"- **{capital(why)}**"
        yield from (f"  - {name}: {'; '.join(told)}" for name, told in groups.items())


# Pictures.

def picture_name(comparison):
    return comparison.name.replace(" ", "-") + ".svg"


def drawn(comparison, run):
    """Of each family that grows the longest seconds of a function, over the rows of a function or the primes of the first."""
    tools = [tool for tool in comparison.tools if tool.label != comparison.unseen]

    def place(row):
        return row.rows / row.functions if comparison.picture == "rows" else row.primes

    def line(rows, tool):
        points = [(place(row), row.totals[tool.label].longest) for row in rows if is_asked(row, tool)]
        return sorted(((size, seconds) for size, seconds in points if size), key=lambda point: point[0])
    panels = [Panel(family.name, [line(rows, tool) for tool in tools], comparison.picture)
              for family, rows in of_comparison(comparison, run) if family.grows]
    panels = [panel for panel in panels if any(len(points) > 1 for points in panel.lines)]
    series = [Series(tool.label, *LOOKS[tool.label]) for tool in tools]
    return picture(f"{capital(comparison.title)}: seconds of a function over its {comparison.picture}", series, panels, run.limit)


# The machine.

def told_by_processor(name, value, otherwise):
    """What the system tells of the processor under this name."""
    try:
        with open("/proc/cpuinfo") as told:
            return next(value(line.split(":", 1)[1].strip()) for line in told if line.startswith(name))
    except (OSError, StopIteration, ValueError):
        return otherwise


def facts(compared):
    """What is to be told of the machine and of the other tools, for the page."""
    tools = {tool.label: tool for comparison in compared for tool in others(comparison)}
    found = {}
    for label, tool in tools.items():
        begin = start(tool) if is_installed(tool) else None
        found[label] = (version(tool), "" if begin is None else figure(begin)) if is_installed(tool) else ("left out: not installed", "")
    return {
        "cores": os.cpu_count(), "system": platform.system(), "load": f"{os.getloadavg()[0]:.1f}",
        "processor": told_by_processor("model name", str, platform.processor()),
        "speed": told_by_processor("cpu MHz", lambda text: f" at {float(text) / 1000:.1f} GHz", ""),
        "memory": f"{os.sysconf('SC_PAGE_SIZE') * os.sysconf('SC_PHYS_PAGES') / 2 ** 30:.0f} GiB", "tools": found}


def tools_table(compared, run):
    lines = {}
    for comparison in compared:
        for tool in others(comparison):
            names, _ = lines.setdefault(tool.label, ([], tool))
            names.append(comparison.name)
    cells = [[label, ", ".join(names), f"`{tool.told}`", *run.facts["tools"][label]] for label, (names, tool) in lines.items()]
    return table(["Tool", "Beside", "Run as", "Package", "Its start alone"], cells, left=4)


# The page.

HEAD = """# Performance

How long a file of your kind takes, and which is the largest that `exact` answers: the first table. Then how far other tools come on the
same files, where they are faster, and what is open. [All sizes](performance/tables.md) stand in tables of their own.

## The largest files that `exact` answers"""

REACH = """A line is a family of files, from small to large, with five files a size where chance plays a part: the largest size of which each file
was answered within a second, and within {limit}, with the seconds of the longest, and what stops larger ones. A size of 83 / 60 has 83 inputs
and 60 outputs; where one file is not always harder than the one before, it is told how many were answered."""

BESIDE = """## Beside other tools"""

LIMITED = """The largest size of each family that was answered within {limit:g} seconds by this tool, with its seconds, and by others. *Ratio*
is the time of the fastest other divided by this one's at the largest size that both answered, in bold where the other is faster. This one's
time is that of the whole; cbc and HiGHS have to solve the covering problem alone, and cadical to find the size of samples alone."""

LOSSES = """## Where others are faster"""

FASTER = """All sizes at which this tool takes {noted:g} milliseconds or more for a function and another one less than four fifths of its time, or only
another one answers; and why. cbc and HiGHS are given the primes and the table, which this tool has to find in its time."""

OPEN = """## Open"""

UNANSWERED = """The first size of each family that `exact` did not answer within {minute}, and other commands within {limit:g} seconds, by what
takes the time. *Nobody* is said where the other tools were asked of that size and did not answer all of its functions within {limit:g} seconds
either, with the bounds that HiGHS then had on a least cover of the first that it left open."""

HARDEST = "In an hour of one processor, subgradient steps, cbc and a local search came to these bounds on least covers: {told}."

LATE = ".\nAfter {deadline:g} minutes the first asked larger files for a second alone"

SHORTER = "Files that are minimised already are not always answered sooner than their sources: {told}."

COMMAND = """## How it was measured

Two commands write this page, its pictures and the tables, and the table in README.md. The first asks this tool alone, for the first table
here, and took {asked:.0f} minutes; the second runs all tools, writes the pages, and took {minutes:.0f} minutes{builds}{late}:

    bench/minute.py PROGRAM --write{minute_options}
    bench/peers.py PROGRAM --write{options}
"""

FILES = """PROGRAM is the built program, `crates/espresso_program/out/espresso`; the files come from fixed seeds and are written to `bench/data`.
`--only WORD` runs the families with the word in their names, `--quick` sets a limit of two seconds, and `bench/peers.py --page` writes the
page of the last runs anew. `bench/bench.py PROGRAM` times single functions, memory and long files."""

MACHINE = """A machine of {cores} processors ({processor}{speed}) and {memory} of memory, under {system}; its load was {load} at the end.
{running}. The time of a process is from its start to its end, including the reading of the files: the least of three runs, or that of one
run if it takes more than {short:g} seconds; HiGHS and SOPform tell their own time, and run once. A tool is dropped from a family that grows
at the first size that it does not answer within {limit:g} seconds ({minute} for the first table) and {bytes:.0f} GiB. Where a size has
several functions, the limit holds for each; times, rows and answers in the tables are sums, and pictures show the longest."""

CELLS = """In the tables, times are in seconds, *none* means no answer within these limits, and – a size on which a tool was not run. Times count as the
same where the longer is less than 1.25 times the other. Wherever two tools answered, their answers were compared: {agreed}."""

GIVEN = """cbc and HiGHS are given the covering table: a column for each prime, a row for each place of the ON-set outside the DC-set, of equal rows
one, where it has at most a million entries. They find the size of a least cover alone; `exact` reads the file, finds the primes, builds the
table, and answers the first of the least covers. Finding the primes and making the table do not count as their time, nor do HiGHS's
start and its reading; *primes* is the time of `espresso -Dprimes`."""

PACKAGES = """The other tools are Debian's, and sympy is Python's: `apt-get install berkeley-abc minisat cadical coinor-cbc python3-scipy` and
`pip install sympy`. One that is not installed is left out."""

TABLES = """# Times by family

The tables of [PERFORMANCE.md](../PERFORMANCE.md), which says how they were measured.
"""

# Bounds that took an hour, of functions that may have no answer.
HARD = {("tables of truth", "squares", "8 inputs"): "squares of 8 inputs 166 to 170 rows",
        ("tables of truth", "products", "5 × 5 bits"): "products of 5 × 5 bits 453 to 457 rows"}


def filled(text, **parts):
    """A paragraph, and an empty line."""
    return textwrap.fill(" ".join(text.format(**parts).split()), 130, break_on_hyphens=False) + "\n"


def agreed(run):
    rows = [row for rows in run.rows.values() for row in rows if row.agree is not None]
    wrong = [row for row in rows if not row.agree]
    return f"{len(rows)} times, and {'they agreed each time' if not wrong else f'{len(wrong)} TIMES THEY DIFFER'}"


def hardest(compared, run):
    """Bounds on functions that have no answer."""
    return [HARD[comparison.name, family.name, row.label]
            for comparison in compared for family, rows in of_comparison(comparison, run) for row in rows
            if (comparison.name, family.name, row.label) in HARD and time_of(row, main_tool(comparison)) is None]


def minute_told(minute):
    return "a minute" if minute.limit == MINUTE else f"{minute.limit:g} seconds"


def open_section(compared, run, minute):
    yield OPEN + "\n"
    yield filled(UNANSWERED, limit=run.limit, minute=minute_told(minute))
    yield from list(open_lines(compared, run, minute)) or ["- nothing in these runs."]
    yield ""
    for text, told in ((HARDEST, hardest(compared, minute)), (SHORTER, list(shorter_files(compared, run)))):
        if told:
            yield filled(text, told="; ".join(told))


def options_of(run, limit):
    return ("" if run.limit == limit else f" --limit {run.limit:g}") + ("" if run.jobs == JOBS else f" --jobs {run.jobs}")


def minute_options(minute):
    return options_of(minute, MINUTE) + ("" if minute.deadline == MINUTES else f" --minutes {minute.deadline:g}")


def how(compared, run, minute):
    count = {2: "Two", 3: "Three", 4: "Four"}.get(run.jobs, run.jobs)
    running = "One process ran at a time" if run.jobs == 1 else f"{count} processes ran at a time, each on a processor of its own"
    machine = {name: value for name, value in run.facts.items() if name != "tools"}
    yield COMMAND.format(minutes=run.minutes, asked=minute.minutes, options=options_of(run, LIMIT), minute_options=minute_options(minute),
                         late=LATE.format(deadline=minute.deadline) if minute.minutes > minute.deadline else "",
                         builds="" if run.program == minute.program else ", on another build of this tool")
    yield filled(FILES)
    yield filled(MACHINE, running=running, short=SHORT, limit=run.limit, minute=minute_told(minute), bytes=MEMORY / 2 ** 30, **machine)
    yield filled(CELLS, agreed=agreed(run))
    yield filled(GIVEN)
    yield filled(PACKAGES)
    yield from tools_table(compared, run)


def printed_sizes(comparison, run):
    """The functions of a comparison of which the size of a least cover is printed elsewhere, and was found."""
    for family, rows in of_comparison(comparison, run):
        found = [f"{row.label.split(':')[0]} {size.least}" for size, row in zip(family.sizes, rows)
                 if size.least and time_of(row, main_tool(comparison)) is not None]
        if found:
            yield filled("Answered with as many rows as the literature prints: {told}.", told=", ".join(found))


def section(comparison, run):
    yield f"## {capital(comparison.title)}\n"
    yield filled(comparison.told)
    yield from printed_sizes(comparison, run)
    if comparison.picture:
        yield f"![{capital(comparison.title)}: seconds over {comparison.picture}](performance/{picture_name(comparison)})\n"


def lines(compared, run, minute):
    yield HEAD + "\n"
    yield filled(REACH, limit=minute_told(minute))
    yield from minute_table([comparison for comparison in compared if comparison.is_exact], minute)
    yield BESIDE + "\n"
    yield filled(LIMITED, limit=run.limit)
    yield from reach_table([comparison for comparison in compared if others(comparison)], run)
    yield LOSSES + "\n"
    yield filled(FASTER, noted=NOTED * 1000)
    yield from list(losses(compared, run)) or ["None in this run."]
    yield ""
    yield from open_section(compared, run, minute)
    yield from how(compared, run, minute)
    for comparison in compared:
        yield from section(comparison, run)


def readme_rows(compared, minute):
    """README's table: how far some families came."""
    found = {(comparison.name, family.name): (comparison, family, rows) for comparison in compared
             for family, rows in of_comparison(comparison, minute)}
    lines = [[told, *minute_line(*found[names])[:2]] for told, names in README_ROWS.items() if names in found]
    return [README_HEAD, "|---|---|---|", *(f"| {' | '.join(line)} |" for line in lines)]


def write_readme(compared, minute):
    path = os.path.join(TOP, "README.md")
    with open(path) as file:
        text = file.read()
    table_there = re.search(re.escape(README_HEAD) + r"\n(?:\|.*\n)+", text)
    with open(path, "w") as out:
        out.write(text.replace(table_there[0], "".join(line + "\n" for line in readme_rows(compared, minute))))


def tables_of(comparison, run):
    """A heading, and the table of each family."""
    found = [line for family, rows in of_comparison(comparison, run) for line in family_table(comparison, family, rows)]
    return "\n".join([f"## {capital(comparison.title)}", "", *found]).rstrip()


def put(name, text):
    with open(os.path.join(DOCS, name), "w") as out:
        out.write(text)


def write(compared, run):
    """The page of a run, its tables, and its pictures in place of all others."""
    folder = os.path.join(DOCS, "performance")
    os.makedirs(folder, exist_ok=True)
    for name in os.listdir(folder):
        if name.endswith(".svg"):
            os.remove(os.path.join(folder, name))
    for comparison in compared:
        if comparison.picture:
            put(f"performance/{picture_name(comparison)}", drawn(comparison, run))
    minute = kept_minute({comparison.name: main_tool(comparison).label for comparison in compared})
    put("PERFORMANCE.md", "\n".join(lines(compared, run, minute)).rstrip() + "\n")
    if minute.rows and minute.limit == MINUTE:
        write_readme(compared, minute)
    put("performance/tables.md", "\n\n".join([TABLES.rstrip(), *(tables_of(comparison, run) for comparison in compared)]) + "\n")
