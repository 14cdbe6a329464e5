"""Figures, and the file that keeps them."""
import math

FIELDS = ("count", "ms", "peak", "ready")
PROGRAMS = ("cases", "plain")   # the library's program and the plain one
THREE = ("before", "now", "plain")      # that of an earlier commit, today's, and the plain one
WHICH = {PROGRAMS: "the library's program and for the plain one", THREE: "the library's program at an earlier commit, for today's and for the plain one"}
HEAD = """# What bench/run measured: call, shape, size, and then for {which}
# the instructions of a call, its milliseconds, the most megabytes of the process, and those before the call; - where there is none.
"""


def word(value):
    if value is None:
        return "-"
    return str(value) if isinstance(value, int) else f"{value:.3f}"


def number(text):
    if text == "-":
        return None
    return float(text) if "." in text else int(text)


class Stored:
    """What a run says of itself, and by call, shape and size the figures of each program."""

    def __init__(self, about=None, programs=PROGRAMS):
        self.about = about or {}
        self.programs = programs
        self.figures = {}

    def put(self, call, shape, size, program, **figures):
        kept = self.figures.setdefault((call, shape, size), {name: {} for name in self.programs})
        kept[program].update(figures)

    def get(self, call, shape, size, program, field):
        return self.figures.get((call, shape, size), {}).get(program, {}).get(field)

    def ratio(self, call, shape, size, field):
        """How many times as much the library takes as the plain program."""
        own, plain = (self.get(call, shape, size, program, field) for program in ("cases", "plain"))
        return own / plain if own and plain else None

    def shapes(self, call):
        return list(dict.fromkeys(shape for c, shape, _ in self.figures if c == call))

    def sizes(self, call=None):
        return sorted({size for c, _, size in self.figures if call in (None, c)})

    def exponent(self, call, shape, program, field):
        """The exponent of growth between the first size and the last one that have the figure."""
        seen = [(n, self.get(call, shape, n, program, field)) for n in self.sizes(call)]
        seen = [(n, value) for n, value in seen if value]
        if len(seen) < 2:
            return None
        (low, a), (high, b) = seen[0], seen[-1]
        return math.log(b / a) / math.log(high / low)

    def write(self, file):
        with open(file, "w", encoding="utf-8") as f:
            f.write(HEAD.format(which=WHICH[self.programs]))
            for key, value in self.about.items():
                f.write(f"{key}: {value}\n")
            for (call, shape, size), programs in self.figures.items():
                words = [word(programs[p].get(field)) for p in self.programs for field in FIELDS]
                f.write(" ".join([call.replace(" ", "_"), shape, str(size), *words]) + "\n")


def read(file, programs=PROGRAMS):
    stored = Stored(programs=programs)
    with open(file, encoding="utf-8") as f:
        for line in f:
            if line.startswith("#") or not line.strip():
                continue
            key, colon, value = line.rstrip("\n").partition(": ")
            if colon and " " not in key:
                stored.about[key] = value
                continue
            call, shape, size, *words = line.split()
            for k, program in enumerate(programs):
                values = dict(zip(FIELDS, map(number, words[k * len(FIELDS):])))
                stored.put(call.replace("_", " ", 1) if call.startswith("witc") else call, shape, int(size), program,
                           **{field: value for field, value in values.items() if value is not None})
    return stored
