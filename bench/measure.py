"""Measures rows: time and memory by turns, then instructions."""
import datetime
import hashlib
import os
import subprocess
import sys
import time

import calls
import programs
from stored import Stored

SMALL = 200     # the size at which the answers are compared


class Bar:
    """How far it is, and about how long it takes still, on a terminal; a line for each tenth elsewhere."""

    def __init__(self, total):
        self.total, self.done, self.begun, self.tenth = max(total, 1e-9), 0.0, time.monotonic(), 0

    def step(self, weight, what):
        self.done += weight
        part = min(self.done / self.total, 1.0)
        left = (time.monotonic() - self.begun) * (1 - part) / max(part, 1e-9)
        text = f"[{'#' * int(part * 30):30}] {part:4.0%}, about {left / 60:.0f} min left, {what}"
        if sys.stderr.isatty():
            print(f"\r{text[:100]:100}", end="\n" if part >= 1 else "", file=sys.stderr, flush=True)
        elif int(part * 10) > self.tenth:
            self.tenth = int(part * 10)
            print(f"bench: {text}", file=sys.stderr, flush=True)


class Bench:
    """The programs, and what is measured of them."""

    def __init__(self, unproved, times, count_to):
        self.unproved, self.times = unproved, times
        self.plain = programs.plain_program()
        self.cases = programs.library_program("cases", unproved)
        self.tool = programs.counter()
        self.count_to = count_to or (10_000 if self.tool == "valgrind" else 10 ** 9)
        self.before = {}
        self.stored = Stored(self.about())

    def paths(self):
        return {"cases": self.cases, "plain": self.plain}

    def about(self):
        """What the figures are of."""
        with open("/proc/cpuinfo", encoding="utf-8") as f:
            model = next((line.split(":", 1)[1].strip() for line in f if line.startswith("model name")), "unknown")
        with open(self.cases, "rb") as f:
            digest = hashlib.sha256(f.read()).hexdigest()[:16]
        changed = "" if not programs.said(["git", "status", "--porcelain", "crates"]) else ", with changes"
        return {
            "commit": (programs.said(["git", "log", "-1", "--format=%h of %cs", "--", "crates", "crates.txt"]) or "unknown") + changed,
            "kit": programs.said(["rt", "version"]) or "unknown",
            "build": "unproved" if self.unproved else "proved",
            "program": digest,
            "counter": self.tool or "none",
            "runs": str(self.times),
            "rustc": programs.said(["rustc", "--version"]),
            "machine": f"{os.cpu_count()} processors, {model}",
            "load": f"{os.getloadavg()[0]:.1f}",
            "date": datetime.date.today().isoformat(),
        }

    # ---- the same answers

    def check_answers(self, rows):
        """Both programs answer the same on each shape."""
        for row in rows:
            if not row.has_plain:
                continue
            lines = calls.answers_for(row, SMALL)
            own, plain = (programs.on_lines(p, lines) for p in (self.cases, self.plain))
            for line, a, b in zip(lines, own, plain):
                if a != b or a.startswith(("unmet", "bad", "refused", "no-reading")):
                    raise RuntimeError(f"the answers to `{line[:40]}` differ, of {row.call} on {row.shape}: {a[:60]} and {b[:60]}")
            if row.refused:
                before, _ = row.make(SMALL)
                for path in self.paths().values():
                    answer = programs.on_lines(path, [*before, row.refused])[-1]
                    if not answer.startswith("refused"):
                        raise RuntimeError(f"`{row.refused}` isn't refused on {row.shape}: {answer[:60]}")

    # ---- one row

    def time_row(self, row, size, before, call, names=None):
        """The programs by turns, each run a process; the least of all."""
        found = {}
        for _ in range(self.times):
            for name, path in self.paths().items():
                if name not in (names or self.paths()) or name == "plain" and not row.has_plain:
                    continue
                ms, peak, ready, answer = programs.timed(path, before, call, 1 if row.refused else 3)
                found.setdefault(name, []).append((ms, peak, ready, answer))
        for name, runs in found.items():
            figures = {"peak": max(r[1] for r in runs), "ready": max(r[2] for r in runs)}
            if runs[0][0] > 0:
                figures["ms"] = min(r[0] for r in runs)
            self.stored.put(row.call, row.shape, size, name, **figures)
        if len({runs[0][3] for runs in found.values()}) > 1 and row.call != "decode":
            raise RuntimeError(f"the answers of {row.call} on {row.shape} differ at {size}")

    def lines_count(self, path, lines):
        """The instructions of a process on these lines, kept for the lines that make ready."""
        given = "\n".join(["brief", *lines, ""]).encode()
        key = (path, hashlib.sha256(given).digest())
        if key not in self.before:
            self.before[key] = programs.counted(self.tool, [path], given)
        return self.before[key]

    def beside_count(self, row, name, before):
        """The instructions of what a process does beside the call: it makes ready, tests, and frees what was read."""
        path = self.paths()[name]
        if row.refused:
            return self.lines_count(path, [*before, row.refused])
        if name == "plain" or not row.checks:
            return self.lines_count(path, before)
        tested = self.lines_count(path, [*before, "check"])
        return tested if row.checks == 1 else row.checks * tested - (row.checks - 1) * self.lines_count(path, before)

    def count_row(self, row, size, before, call, names=None):
        """The instructions of a call: of a process that makes it, less what it does besides."""
        for name in names or self.paths():
            if name == "plain" and not row.has_plain:
                continue
            path = self.paths()[name]
            if row.inside:
                given = "\n".join(["brief", *before, call, ""]).encode()
                count = programs.counted_inside([path], given, row.inside["plain" if name == "plain" else "cases"])
            elif self.tool:
                count = self.lines_count(path, [*before, call]) - self.beside_count(row, name, before)
            else:
                continue
            if count is not None:
                self.stored.put(row.call, row.shape, size, name, count=count)

    def run(self, rows, sizes, report=None):
        """All rows at all sizes."""
        weight = {size: 1 + size / 5000 for size in sizes}
        bar = Bar(sum(weight.values()) * len(rows))
        for row in rows:
            for size in sizes:
                before, call = row.make(size)
                if not row.inside:
                    self.time_row(row, size, before, call)
                if size <= self.count_to:
                    self.count_row(row, size, before, call)
                bar.step(weight[size], f"{row.call} on {row.shape}, {size}")
                if report:
                    report(row, size)

    # ---- a whole program

    def run_whole(self, witc, report):
        """`witc print` from start to end on each sample, beside the plain program on a line with the same bytes."""
        folder = os.path.join(programs.TOP, "examples", "packages")
        for sample in sorted(f for f in os.listdir(folder) if f.endswith(".wasm")):
            with open(os.path.join(folder, sample), "rb") as f:
                given = f.read()
            line = b"text ." + given.hex().encode() + b"\n"
            for name, command, source in (("cases", [witc, "print"], given), ("plain", [self.plain], line)):
                figures = {"ms": min(wall(command, source) for _ in range(20))}
                if self.tool:
                    figures["count"] = programs.counted(self.tool, command, source)
                self.stored.put("witc print", sample[:-5], len(given), name, **figures)
            report(calls.Row("witc print", sample[:-5], "", None), len(given))


def wall(command, given):
    """The milliseconds of a process, from its start to its end."""
    begun = time.perf_counter()
    subprocess.run(command, input=given, stdout=subprocess.DEVNULL, check=True)
    return (time.perf_counter() - begun) * 1000
