"""Writes docs/SPEED.md: the text of bench/page.md with the tables in their places, and the pictures."""
import os
import re
import textwrap

import pictures
import shapes
from calls import ORDER
from programs import TOP

TEXT = os.path.join(TOP, "bench", "page.md")
HURT = os.path.join(TOP, "bench", "hostile.txt")
# The shape that stands for a call in the picture of growth.
DRAWN = {"encode": "records", "metadata::encode": "world-functions", "decode": "records", "decode_world": "world-functions", "print": "records",
         "semver_check": "records", "same_sense": "records", "metadata::decode": "tens"}
SIZED = 10_000      # the size of the ratios that are drawn and summed up


def titles():
    out = {}
    for part in (shapes.PACKAGES, shapes.WORLDS, shapes.COMPARED, shapes.MODULES):
        for name, (_, title) in part.items():
            out.setdefault(name, title)
    return out


def mark(stored):
    """The word behind the head of each column of a build without a proof."""
    return " (unproved)" if stored.about["build"] == "unproved" else ""


def is_busy(stored):
    return float(stored.about["load"]) > int(stored.about["machine"].split()[0]) / 2


def plain_number(value, digits=2):
    if value is None:
        return "-"
    return f"{value:,.0f}" if value >= 100 else f"{value:.1f}" if value >= 10 else f"{value:.{digits}f}"


def three(stored, call, shape, size, field, scale=1.0):
    """The library's figure, the plain program's, and how many times as much it is."""
    own, plain = (stored.get(call, shape, size, program, field) for program in ("cases", "plain"))
    if own is None:
        return "-"
    ratio = stored.ratio(call, shape, size, field)
    parts = [plain_number(x / scale) for x in (own, plain) if x is not None]
    return ", ".join(parts) + (f": **{ratio:.2f}**" if ratio else "")


def last_with(stored, call, field):
    """The largest size at which most shapes of a call have a figure, or nothing."""
    listed = stored.shapes(call)
    fit = [n for n in stored.sizes(call) if 2 * sum(stored.get(call, s, n, "cases", field) is not None for s in listed) > len(listed)]
    return fit[-1] if fit else None


def grows(stored, call, shape, field):
    """Both exponents of growth."""
    both = [stored.exponent(call, shape, program, field) for program in ("cases", "plain")]
    return ", ".join(f"{x:.2f}" for x in both if x is not None) or "-"


def columns(stored, call):
    """The columns of a call's table: their heads, and for a shape their cells."""
    counted = [n for n in stored.sizes(call) if any(stored.get(call, s, n, "cases", "count") for s in stored.shapes(call))]
    out = [(f"M instructions, {n:,}", lambda s, n=n: three(stored, call, s, n, "count", 1e6)) for n in counted]
    fields = (["count"] if counted else []) + ([] if is_busy(stored) else ["ms"])
    for field in fields:
        out.append(("grows by" if field == "count" else "time grows by", lambda s, field=field: grows(stored, call, s, field)))
    for field, unit in (("ms", "ms"), ("peak", "MB at most")):
        n = last_with(stored, call, field)
        if n:
            out.append((f"{unit}, {n:,}", lambda s, n=n, field=field: three(stored, call, s, n, field)))
    return out


def table(stored, call):
    if not stored.shapes(call):
        return "Not measured."
    listed = columns(stored, call)
    named = titles()
    head = "| Shape | " + " | ".join(text + mark(stored) for text, _ in listed) + " |"
    lines = [head, "|---" * (len(listed) + 1) + "|"]
    for shape in stored.shapes(call):
        lines.append(f"| {named.get(shape, shape)} | " + " | ".join(cell(shape) for _, cell in listed) + " |")
    return "\n".join(lines)


def ratios(stored, call, size, field="count"):
    found = [(shape, stored.ratio(call, shape, size, field)) for shape in stored.shapes(call)]
    return [(shape, ratio) for shape, ratio in found if ratio]


def middle(values):
    ordered = sorted(values)
    half = len(ordered) // 2
    return ordered[half] if len(ordered) % 2 else (ordered[half - 1] + ordered[half]) / 2


def summary(stored):
    """A line for each call: the least, the middle and the greatest ratio of instructions, and the middle ones of time and memory."""
    lines = [f"| Call | instructions: least, middle, greatest{mark(stored)} | time, middle{mark(stored)} | memory, middle{mark(stored)} |", "|---|---|---|---|"]
    for call in ORDER:
        found = [ratio for _, ratio in ratios(stored, call, SIZED)]
        if not found:
            continue
        cells = [f"{min(found):.2f}, {middle(found):.2f}, {max(found):.2f}"]
        for field in ("ms", "peak"):
            others = [ratio for _, ratio in ratios(stored, call, SIZED, field)]
            cells.append(f"{middle(others):.2f}" if others else "-")
        lines.append(f"| `{call}` | " + " | ".join(cells) + " |")
    return "\n".join(lines)


def whole(stored):
    """`witc print` from start to end."""
    lines = [f"| `witc print` of | bytes | instructions in thousands{mark(stored)} | ms{mark(stored)} |", "|---|---|---|---|"]
    for (call, shape, size) in stored.figures:
        if call == "witc print":
            lines.append(f"| `examples/packages/{shape}.wasm` | {size:,} | {three(stored, call, shape, size, 'count', 1e3)} | "
                         f"{three(stored, call, shape, size, 'ms')} |")
    return "\n".join(lines)


def measured_on(stored):
    about = stored.about
    build = ("the programs that `rt ci` leaves" if about["build"] == "proved" else
             "**programs built without a proof** (`--unproved`): the tables say so at each column. They have no traps, but have the inline hints of their sources")
    busy = (f" Other programs ran on the machine meanwhile (load {about['load']}). So times are rough here, and instructions are more reliable."
            if is_busy(stored) else "")
    counter = {"perf": "`perf`", "valgrind": "`valgrind`"}.get(about["counter"], "nothing")
    runs = "one process" if about.get("runs", "1") == "1" else f"{about['runs']} processes"
    text = (f"Measured on {about['date']}: {build}; the library as of commit {about['commit']}; {about['kit']}; {about['rustc']}; {about['machine']}. "
            f"Instructions were counted by {counter}, and times are the least of {runs}, with three calls each.{busy}")
    return textwrap.fill(text, 160, break_on_hyphens=False)


def hostile():
    """The table of bytes made to hurt, as it was kept."""
    from hostile import HEAD, MEGABYTES, SECONDS
    if not os.path.exists(HURT):
        return "Not measured."
    with open(HURT, encoding="utf-8") as f:
        lines = f.read().splitlines()
    about = dict(line.split(": ", 1) for line in lines if not line.startswith("|") and ": " in line)
    build = "a build without a proof" if about["build"] == "unproved" else "the proved build"
    mega = about["sizes"].replace(",", ", ")
    head = (f"CPU seconds of {build}, at about {mega} million bytes. A process may take {SECONDS} s and {MEGABYTES:,} MB of addresses. "
            "A dash stands for what is too little to tell.")
    return "\n".join([head, "", *HEAD, *(x for x in lines if x.startswith("|"))])


def before_and_after():
    """An earlier commit beside later sources, as it was kept."""
    import before
    return before.section()


def drawn(stored, folder):
    """Both pictures, each twice."""
    field, unit = ("count", "millions of instructions") if is_busy(stored) else ("ms", "milliseconds")
    scale = 1e6 if field == "count" else 1.0
    groups = [(call, ratios(stored, call, SIZED)) for call in ORDER if ratios(stored, call, SIZED)]
    panels = []
    for call, shape in DRAWN.items():
        series = {}
        for program in ("cases", "plain"):
            seen = [(n, stored.get(call, shape, n, program, field)) for n in stored.sizes(call)]
            series[program] = [(n, v / scale) for n, v in seen if v]
        if all(len(line) > 1 for line in series.values()):
            panels.append((f"{call}, {shape}", series))
    build = "unproved build" if mark(stored) else "proved build"
    what = f"{build}, commit {stored.about['commit']}"
    for theme in pictures.THEMES:
        if groups:
            pictures.bars(groups, "How many times as many instructions as plain Rust", f"values of {SIZED:,} entries; {what}",
                          os.path.join(folder, f"speed-{theme}.svg"), theme)
        if panels:
            pictures.growth(panels, f"{unit[0].upper()}{unit[1:]} against the entries of a value", what, unit,
                            os.path.join(folder, f"growth-{theme}.svg"), theme)


def write(stored, page):
    """The page: each line `<!-- WORD .. -->` of the text gives way to what it names."""
    parts = {"measured on": lambda: measured_on(stored), "summary": lambda: summary(stored), "whole": lambda: whole(stored), "hostile": hostile,
             "before": before_and_after}

    def part(found):
        word = found[1]
        return parts[word]() if word in parts else table(stored, word.split(" ", 1)[1])
    with open(TEXT, encoding="utf-8") as f:
        text = re.sub(r"<!-- (.*?) -->", part, f.read())
    with open(page, "w", encoding="utf-8") as f:
        f.write(text)
    drawn(stored, os.path.dirname(page))
