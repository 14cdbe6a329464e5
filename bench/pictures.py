"""Pictures as SVG, each for a light page and for a dark one; drawn here, so that nothing has to be installed."""
import math
from xml.sax.saxutils import escape

THEMES = {
    "light": {"page": "#ffffff", "ink": "#1f2328", "soft": "#59636e", "grid": "#d9dee3", "cases": "#2a6fdb", "plain": "#c2571a"},
    "dark": {"page": "#0d1117", "ink": "#e6edf3", "soft": "#9198a1", "grid": "#30363d", "cases": "#6ea8fe", "plain": "#f0954f"},
}
FONT = "font-family='system-ui, sans-serif'"


class Picture:
    def __init__(self, width, height, theme):
        self.width, self.height, self.theme = width, height, THEMES[theme]
        self.parts = []

    def rect(self, x, y, width, height, colour, title=""):
        inner = f"<title>{escape(title)}</title>" if title else ""
        self.parts.append(f"<rect x='{x:.1f}' y='{y:.1f}' width='{width:.1f}' height='{max(height, 0.5):.1f}' "
                          f"fill='{self.theme[colour]}'>{inner}</rect>")

    def line(self, points, colour, width=1.0):
        listed = " ".join(f"{x:.1f},{y:.1f}" for x, y in points)
        self.parts.append(f"<polyline points='{listed}' fill='none' stroke='{self.theme[colour]}' stroke-width='{width}' stroke-linejoin='round'/>")

    def dot(self, x, y, colour):
        self.parts.append(f"<circle cx='{x:.1f}' cy='{y:.1f}' r='3.5' fill='{self.theme[colour]}'/>")

    def text(self, x, y, text, colour="ink", size=12, anchor="start", weight="normal"):
        self.parts.append(f"<text x='{x:.1f}' y='{y:.1f}' {FONT} font-size='{size}' font-weight='{weight}' text-anchor='{anchor}' "
                          f"fill='{self.theme[colour]}'>{escape(text)}</text>")

    def write(self, file, about):
        with open(file, "w", encoding="utf-8") as f:
            f.write(f"<svg xmlns='http://www.w3.org/2000/svg' viewBox='0 0 {self.width} {self.height}' width='{self.width}' height='{self.height}' role='img'>\n"
                    f"<title>{escape(about)}</title>\n"
                    f"<rect width='{self.width}' height='{self.height}' fill='{self.theme['page']}'/>\n")
            f.write("\n".join(self.parts) + "\n</svg>\n")


# ---- ratios as bars

BAR, GAP, BESIDE = 9, 26, 2


def top_of(groups):
    """The next whole number above all ratios."""
    return max(2, math.ceil(max(ratio for _, bars in groups for _, ratio in bars)))


def bars(groups, title, below, file, theme):
    """Groups of bars: each a name and pairs of a shape and a ratio. A line stands at 1, where both programs take as much."""
    left, high, low = 44, 66, 250
    width = left + sum(len(b) * (BAR + BESIDE) + GAP for _, b in groups) + 10
    p = Picture(max(width + 30, 560), 322, theme)
    top = top_of(groups)

    def y_of(ratio):
        return low - (low - high) * ratio / top
    p.text(12, 24, title, size=15, weight="600")
    p.text(12, 44, below, "soft")
    for ratio in range(top + 1):
        p.line([(left, y_of(ratio)), (p.width - 12, y_of(ratio))], "soft" if ratio == 1 else "grid", 1.4 if ratio == 1 else 1)
        p.text(left - 6, y_of(ratio) + 4, str(ratio), "soft", 11, "end")
    x = left + GAP / 2
    for k, (name, listed) in enumerate(groups):
        begin = x
        for shape, ratio in listed:
            p.rect(x, y_of(ratio), BAR, low - y_of(ratio), "cases", f"{name}, {shape}: {ratio:.2f}")
            x += BAR + BESIDE
        p.text((begin + x - BESIDE) / 2, low + 18 + 17 * (k % 2), name, size=11, anchor="middle")
        x += GAP
    p.text(12, low + 60, "Each bar is one shape of value, in the order of the tables. At the line 1 both programs take as much.", "soft", 11)
    p.write(file, title)


# ---- growth, log by log

ROOM_X, ROOM_Y = 240, 190


def decades(values):
    return math.floor(math.log10(min(values))), math.ceil(math.log10(max(values)))


def power(n):
    """A power of ten as a text."""
    return "10" + "".join("⁰¹²³⁴⁵⁶⁷⁸⁹"[int(d)] for d in str(n))


def panel(p, x, y, name, series, unit):
    """One call: for each program its points of size and figure."""
    points = [point for line in series.values() for point in line]
    (left, right), (low, high) = decades([n for n, _ in points]), decades([v for _, v in points])
    right, high = max(right, left + 1), max(high, low + 1)
    wide, tall = ROOM_X - 62, ROOM_Y - 72

    def at(n, v):
        return (x + 44 + wide * (math.log10(n) - left) / (right - left), y + 34 + tall * (1 - (math.log10(v) - low) / (high - low)))
    p.text(x + 10, y + 20, name, size=12, weight="600")
    for k in range(low, high + 1):
        p.line([at(10 ** left, 10 ** k), at(10 ** right, 10 ** k)], "grid")
        p.text(x + 40, at(1, 10 ** k)[1] + 4, f"{10.0 ** k:g}", "soft", 10, "end")
    for k in range(left, right + 1):
        p.text(at(10 ** k, 10 ** low)[0], y + 34 + tall + 15, power(k), "soft", 10, "middle")
    p.text(x + 44, y + 34 + tall + 29, unit, "soft", 10)
    for program in ("plain", "cases"):
        line = [at(n, v) for n, v in series.get(program, [])]
        p.line(line, program, 2)
        for place in line:
            p.dot(*place, program)


def growth(panels, title, below, unit, file, theme):
    """A panel for each call: both programs against the size, on scales by powers of ten."""
    across = min(4, len(panels))
    down = -(-len(panels) // across)
    p = Picture(across * ROOM_X + 12, down * ROOM_Y + 84, theme)
    p.text(12, 24, title, size=15, weight="600")
    p.text(12, 44, below, "soft")
    for k, (program, name) in enumerate((("cases", "the library"), ("plain", "plain Rust"))):
        p.dot(18 + 110 * k, 62, program)
        p.text(28 + 110 * k, 66, name, size=12)
    for k, (name, series) in enumerate(panels):
        panel(p, 4 + k % across * ROOM_X, 74 + k // across * ROOM_Y, name, series, unit)
    p.write(file, title)
