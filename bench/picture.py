"""Pictures of time over size on logarithmic axes, as SVG. Lines differ by dashes and marks as well as by colour."""
import math
from dataclasses import dataclass
from html import escape

WIDTH, HEIGHT = 300, 214           # a panel with its axes
LEFT, TOP, RIGHT, BOTTOM = 46, 30, 14, 34
HEAD = 62                          # title and legend
COLUMNS = 3
LOWEST, HIGHEST = 1e-3, 1e2        # the least range of seconds
ABOVE = 8                          # times the limit that a panel reaches up to
STEP = 9                           # between the marks of several series past the limit
TICKS = 9                          # about as many powers of ten as an axis shows


@dataclass(frozen=True)
class Series:
    label: str
    colour: str
    shape: str                     # circle, square, diamond or triangle
    dashes: str = ""               # of its line, as SVG has them


@dataclass(frozen=True)
class Panel:
    title: str
    lines: list                    # for each series a list of pairs: size, and seconds, or None where the limit was passed
    across: str = "rows"           # what the sizes count


def text(x, y, what, size=11, anchor="start", more=""):
    return f'<text x="{x:.1f}" y="{y:.1f}" font-size="{size}" text-anchor="{anchor}"{more}>{escape(what)}</text>'


def mark(series, x, y, passed=False):
    """A point; it is hollow where the limit was passed."""
    paint = f'fill="{"#ffffff" if passed else series.colour}" stroke="{series.colour}" stroke-width="1.5"'
    if series.shape == "circle":
        return f'<circle cx="{x:.1f}" cy="{y:.1f}" r="3.6" {paint}/>'
    if series.shape == "square":
        return f'<rect x="{x - 3.4:.1f}" y="{y - 3.4:.1f}" width="6.8" height="6.8" {paint}/>'
    outline = "l4.6 4.6l-4.6 4.6l-4.6 -4.6z" if series.shape == "diamond" else "l4.3 7.4h-8.6z"
    return f'<path d="M{x:.1f} {y - 4.6:.1f}{outline}" {paint}/>'


def power(number):
    """A power of ten, with its exponent above the line."""
    return "10" + str(round(math.log10(number))).translate(str.maketrans("0123456789", "⁰¹²³⁴⁵⁶⁷⁸⁹"))


def short(number):
    """1000 as 1k, and so on."""
    if number >= 1e9:
        return power(number)
    for unit, sign in ((1e6, "M"), (1e3, "k")):
        if number >= unit:
            return f"{number / unit:g}{sign}"
    return f"{number:g}"


def ticks(low, high):
    """Round numbers of the range: powers of ten, with their doubles and fives where the range is short, and fewer where it is
    long."""
    factors = (1, 2, 5) if high < 100 * low else (1,)
    first, last = math.floor(math.log10(low)), math.ceil(math.log10(high))
    step = next(step for step in (1, 3, 6, 12, 24, 48) if last - first < TICKS * step)
    decades = [decade for decade in range(first, last + 1) if decade % step == 0]
    return [tick for decade in decades for factor in factors if low <= (tick := factor * 10.0 ** decade) <= high]


class Scale:
    """Where a number stands between two ends of a logarithmic axis."""

    def __init__(self, low, high, begin, end):
        self.low, self.high, self.begin, self.end = low, high, begin, end

    def at(self, number):
        share = math.log(min(max(number, self.low), self.high) / self.low) / math.log(self.high / self.low)
        return self.begin + share * (self.end - self.begin)


def axes(panel, x, y, limit):
    """The frame of a panel, its ticks, and the line of the limit."""
    yield (f'<rect x="{x.begin:.1f}" y="{y.end:.1f}" width="{x.end - x.begin:.1f}" height="{y.begin - y.end:.1f}" '
           'fill="#fbfbfb" stroke="#8a8a8a"/>')
    yield text((x.begin + x.end) / 2, y.end - 9, panel.title, 12, "middle", ' font-weight="bold"')
    for tick in ticks(y.low, y.high):
        yield f'<path d="M{x.begin:.1f} {y.at(tick):.1f}H{x.end:.1f}" stroke="#dedede"/>'
        yield text(x.begin - 5, y.at(tick) + 3.5, f"{tick:g}", 10, "end")
    for tick in ticks(x.low, x.high):
        yield f'<path d="M{x.at(tick):.1f} {y.begin:.1f}V{y.end:.1f}" stroke="#ececec"/>'
        yield text(x.at(tick), y.begin + 14, short(tick), 10, "middle")
    yield f'<path d="M{x.begin:.1f} {y.at(limit):.1f}H{x.end:.1f}" stroke="#111111" stroke-width="1.4"/>'
    yield text((x.begin + x.end) / 2, y.begin + 28, panel.across, 10, "middle", ' fill="#444444"')


def stroke(series, width=1.8):
    dashes = f' stroke-dasharray="{series.dashes}"' if series.dashes else ""
    return f'fill="none" stroke="{series.colour}" stroke-width="{width}"{dashes}'


def curve(series, points, x, y, past):
    """A line through the points of a series; a thin one leads to one past the limit at its end. Such a one stands at this
    height."""
    places = [(x.at(size), past if seconds is None else y.at(seconds)) for size, seconds in points]
    passed = bool(points) and points[-1][1] is None
    solid = [place for place, (_, seconds) in zip(places, points) if seconds is not None]
    if solid:
        yield f'<polyline points="{" ".join(f"{a:.1f},{b:.1f}" for a, b in solid)}" {stroke(series)}/>'
    if passed and len(places) > 1:
        (a, b), (c, d) = places[-2:]
        yield f'<path d="M{a:.1f} {b:.1f}L{c:.1f} {d:.1f}" {stroke(series, 0.7)}/>'
    for (a, b), (_, seconds) in zip(places, points):
        yield mark(series, a, b, seconds is None)


def drawn(panel, series, left, top, lowest, limit):
    sizes = [size for line in panel.lines for size, _ in line] or [1]
    x = Scale(min(sizes) / 1.25, max(sizes) * 1.25, left + LEFT, left + WIDTH - RIGHT)
    y = Scale(lowest, max(HIGHEST, ABOVE * limit), top + HEIGHT - BOTTOM, top + TOP)
    yield from axes(panel, x, y, limit)
    past = y.at(limit)
    for one, points in zip(series, panel.lines):
        yield from curve(one, points, x, y, past)
        past -= STEP if points and points[-1][1] is None else 0


def lowest_line(panels):
    """The power of ten below all times, or a little above the least."""
    times = [seconds for panel in panels for line in panel.lines for _, seconds in line if seconds]
    return min(LOWEST, 10.0 ** math.floor(math.log10(2 * min(times)))) if times else LOWEST


def legend(series, limit):
    x = 14
    for one in series:
        yield f'<path d="M{x:.1f} 45h36" {stroke(one)}/>'
        yield mark(one, x + 18, 45)
        yield text(x + 43, 49, one.label, 12)
        x += 62 + 6.7 * len(one.label)
    yield f'<path d="M{x:.1f} 45h26" stroke="#111111" stroke-width="1.4"/>'
    yield text(x + 33, 49, f"limit of {limit:g} s; a hollow mark: no answer in that time", 12)


def picture(title, series, panels, limit):
    """The SVG of panels side by side, with a title and a legend."""
    rows = -(-len(panels) // COLUMNS)
    width, height = COLUMNS * WIDTH, HEAD + rows * HEIGHT
    parts = [f'<svg xmlns="http://www.w3.org/2000/svg" viewBox="0 0 {width} {height}" width="{width}" height="{height}" '
             'font-family="Helvetica, Arial, sans-serif" fill="#1a1a1a">',
             f'<rect width="{width}" height="{height}" fill="#ffffff"/>',
             text(14, 24, title, 15, more=' font-weight="bold"'), *legend(series, limit)]
    lowest = lowest_line(panels)
    for i, panel in enumerate(panels):
        parts += drawn(panel, series, i % COLUMNS * WIDTH, HEAD + i // COLUMNS * HEIGHT, lowest, limit)
    return "\n".join([*parts, "</svg>", ""])
