"""An earlier commit of the library beside today's sources, both built without a proof, and beside plain Rust."""
import hashlib
import os
import textwrap

import calls
import programs
from measure import Bar, Bench
from stored import THREE, Stored, read

KEPT = os.path.join(programs.TOP, "bench", "before.txt")
SIZES = (10_000, 100_000)
PEAKS = ("encode", "decode", "semver_check", "metadata::decode")    # the calls whose memory is measured, at the last size
PACKAGES = ("records", "tuples", "lists", "functions", "resources", "islands", "world-records", "world-functions", "worlds", "small-worlds")
ROWS = {
    "encode": PACKAGES,
    "decode": PACKAGES,
    "print": ("records", "tuples", "functions"),
    "semver_check": ("records", "functions", "resources", "two-worlds"),
    "metadata::decode": ("tens", "ones", "record-tens"),
    "Bindgen::merge": ("tens", "ones", "record-tens"),
}


# The words of a run that say whether the figures of a program are of it still, besides what counted them.
SAME = {"before": ("before", "kit"), "now": ("program",), "plain": ("plain", "rustc")}


def plain_sources():
    """A digest of the sources of the plain program."""
    digest = hashlib.sha256()
    folder = os.path.join(programs.TOP, "bench", "plain")
    for file in sorted(os.listdir(folder)):
        with open(os.path.join(folder, file), "rb") as f:
            digest.update(f.read())
    return digest.hexdigest()[:16]


class Beside(Bench):
    """Both programs of the library, and the plain one."""

    def __init__(self, commit, count_to):
        self.earlier = programs.earlier_program("cases", commit)
        super().__init__(True, 1, count_to or SIZES[-1])
        said = programs.said(["git", "log", "-1", "--format=%h of %cs", commit])
        self.stored = Stored({"before": said, "plain": plain_sources(), **self.stored.about}, THREE)

    def paths(self):
        return {"before": self.earlier, "now": self.cases, "plain": self.plain}

    def beside_count(self, row, name, before):
        """The plain program frees the value by its end in any case. With 100,000 entries it takes more to free it in the middle, after a call that is
        refused, than after one that isn't."""
        return self.lines_count(self.plain, before) if name == "plain" else super().beside_count(row, name, before)

    def keep_earlier_figures(self):
        """What was measured of the same programs isn't measured again, so that a run that was ended goes on where it stopped."""
        old = read(KEPT, THREE) if os.path.exists(KEPT) else Stored(programs=THREE)
        for name, words in SAME.items():
            if any(old.about.get(word) != self.stored.about[word] for word in (*words, "counter")):
                for figures in old.figures.values():
                    figures[name] = {}
        self.stored.figures = old.figures

    def measure(self, row, size):
        """What isn't there yet of a row at a size."""
        lacking = {field: [name for name in THREE if self.stored.get(row.call, row.shape, size, name, field) is None] for field in ("peak", "count")}
        peaks = lacking["peak"] if row.call in PEAKS and size == SIZES[-1] else []
        counts = lacking["count"] if size <= self.count_to else []
        if peaks or counts:
            before, call = row.make(size)
            if peaks:
                self.time_row(row, size, before, call, peaks)
            if counts:
                self.count_row(row, size, before, call, counts)
            self.stored.write(KEPT)


def chosen(plain, a):
    return [row for row in calls.rows(plain) if row.shape in ROWS.get(row.call, ()) and (a.call or "") in row.call and (a.shape or "") in row.shape]


def run(a):
    """All rows at one size, and then at the next."""
    bench = Beside(a.before, a.count_to)
    if not bench.tool:
        raise programs.Missing("neither perf nor valgrind is there to count instructions; on Debian, apt install valgrind")
    rows = chosen(bench.plain, a)
    bench.check_answers(rows)
    bench.keep_earlier_figures()
    sizes = [int(n) for n in a.sizes.split(",")] if a.sizes else SIZES
    bar = Bar(sum(sizes) * len(rows))
    for size in sizes:
        for row in rows:
            bench.measure(row, size)
            print(line_of(bench.stored, row.call, row.shape, row.title), flush=True)
            bar.step(size, f"{row.call} on {row.shape}, {size}")


# ---- the table

def cell(stored, call, shape, size, field, scale=1.0):
    """Before, now and plain, and how many times as much as plain the library takes now."""
    from report import plain_number
    values = [stored.get(call, shape, size, name, field) for name in THREE]
    if all(value is None for value in values):
        return "-"
    _, now, plain = values
    shown = ", ".join(plain_number(None if x is None else x / scale) for x in values)
    return shown + (f": **{now / plain:.2f}**" if now and plain else "")


def change(stored, call, shape, size, field):
    """How much more or less it is now than it was before."""
    old, now = (stored.get(call, shape, size, name, field) for name in ("before", "now"))
    if not old or not now:
        return "-"
    more = round(100 * now / old - 100)
    return f"{more:+d} %".replace("-", "−") if more else "0 %"


def line_of(stored, call, shape, title):
    cells = []
    for field, sizes, scale in (("count", SIZES, 1e6), ("peak", SIZES[-1:], 1.0)):
        for size in sizes:
            cells += [cell(stored, call, shape, size, field, scale), change(stored, call, shape, size, field)]
    return f"| `{call}`: {title} | " + " | ".join(cells) + " |"


HEAD = "| Call and shape | " + " | ".join([f"M instructions, {n:,} | change" for n in SIZES] + [f"MB, {SIZES[-1]:,} | change"]) + " |"


def in_short(stored):
    """How the instructions of each call have changed, at the first size: on the shape that gained most, and on the one that gained least."""
    parts = []
    for call, shapes in ROWS.items():
        both = [[stored.get(call, shape, SIZES[0], name, "count") for name in ("before", "now")] for shape in shapes]
        listed = sorted((now / old, shape) for shape, (old, now) in zip(shapes, both) if old and now)
        if listed:
            changes = [change(stored, call, shape, SIZES[0], "count") for _, shape in (listed[0], listed[-1])]
            parts.append(f"- `{call}`: {changes[0]} to {changes[1]}")
    return "\n".join([f"How instructions at {SIZES[0]:,} entries have changed, from the shape that gained most to the one that gained least:", "", *parts])


def section():
    """The table as it was kept, and what was compared."""
    from report import titles
    if not os.path.exists(KEPT):
        return "Not measured."
    stored = read(KEPT, THREE)
    named = titles()
    about = stored.about
    text = (f"\"Before\" is the library as of commit {about['before']}, and \"now\" as of commit {about['commit']}. Both programs were built without a "
            f"proof, with the inline hints of their sources, as `--unproved` builds them. So \"now\" takes up to an eighth more than the proved programs of "
            f"the other tables. Plain Rust is the same program as there. For its `semver_check`, too, the instructions of a process that only reads the value "
            f"are subtracted. Instructions were counted by `{about['counter']}`, on {about['date']}.")
    cells = ("Each cell has the figure before, the one now and that of plain Rust, and after the colon how many times as much the library takes now as plain "
             "Rust. \"Change\" is from before to now. A dash means that it wasn't measured.")
    lines = [HEAD, "|---" * HEAD.count(" | ") + "|---|"]
    for call, shapes in ROWS.items():
        lines += [line_of(stored, call, shape, named[shape]) for shape in shapes]
    filled = [textwrap.fill(part, 160, break_on_hyphens=False) for part in (text, cells)]
    return "\n".join([filled[0], "", in_short(stored), "", filled[1], "", *lines])
