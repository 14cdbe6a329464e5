"""Measures the library beside plain Rust: the words of bench/run."""
import argparse
import os
import sys

import before
import calls
import hostile
import programs
import report
from measure import Bench
from stored import read

RECORDED = os.path.join(programs.TOP, "bench", "recorded.txt")
MEASURED = os.path.join(programs.OUT, "measured.txt")
PAGE = os.path.join(programs.TOP, "docs", "SPEED.md")


def parsed():
    p = argparse.ArgumentParser(prog="bench/run", description="Speed and memory of the library, beside a plain Rust program that does the same work.")
    p.add_argument("--quick", action="store_true", help="values of 1,000 entries alone, each once: three minutes")
    p.add_argument("--call", metavar="WORD", help="the calls alone whose name has this word: encode, decode, print, ..")
    p.add_argument("--shape", metavar="WORD", help="the shapes alone whose name has this word: records, worlds, ..")
    p.add_argument("--sizes", metavar="N,N", help="how many entries a value has (1000,10000,100000)")
    p.add_argument("--count-to", metavar="N", type=int, help="the largest size at which instructions are counted (10000 with valgrind)")
    p.add_argument("--report", action="store_true", help="writes docs/SPEED.md, its pictures and bench/recorded.txt")
    p.add_argument("--written", action="store_true", help="with --report: writes the page from bench/recorded.txt, and measures nothing")
    p.add_argument("--hostile", action="store_true", help="bytes that are made to hurt, at 0.25, 1 and 4 MB; with --report the page has them")
    p.add_argument("--before", metavar="COMMIT", help="an earlier commit beside today's sources, kept in bench/before.txt; with --report the page has it")
    p.add_argument("--compare", metavar="FILE", help="instructions now against a stored run; status 1 where a call takes over a tenth more")
    p.add_argument("--unproved", action="store_true", help="builds without a proof, and marks each figure so")
    a = p.parse_args()
    if a.report and not a.before and (a.call or a.shape):
        p.error("--report is of all calls and shapes: leave --call and --shape out")
    if a.compare and not os.path.isfile(a.compare):
        p.error(f"there is no file {a.compare}")
    return a


def chosen(bench, a):
    rows = [row for row in calls.rows(bench.plain) if (a.call or "") in row.call and (a.shape or "") in row.shape]
    if not rows:
        raise programs.Missing("no call has that word on such a shape; the names are in bench/calls.py and bench/shapes.py")
    return rows


def say(bench):
    about = bench.stored.about
    print(f"{about['build']} build of {about['commit']}, {about['kit']}; {about['rustc']}; {about['machine']}; load {about['load']}")
    if not bench.tool:
        print("no instructions: neither perf nor valgrind is there, or the machine lets perf count none; on Debian, apt install valgrind")
    else:
        print(f"instructions are counted by {bench.tool}")


def shown(stored, row, size):
    """A line for what was measured."""
    cells = [f"{row.call:17} {row.shape:16} {size:7d}"]
    for field, unit, scale in (("ms", "ms", 1), ("count", "M", 1e6), ("peak", "MB", 1)):
        own, plain = (stored.get(row.call, row.shape, size, p, field) for p in ("cases", "plain"))
        ratio = stored.ratio(row.call, row.shape, size, field)
        parts = ["-" if x is None else f"{x / scale:.2f}" for x in (own, plain)]
        cells.append(f"{parts[0]:>9} {parts[1]:>9} {unit} {f'{ratio:5.2f}' if ratio else '    -'}")
    print(" | ".join(cells), flush=True)


def measured(a):
    """Measures and shows line by line, and keeps what there is so far in out/bench/measured.txt."""
    bench = Bench(a.unproved, 1 if a.quick else 3, a.count_to)
    rows = chosen(bench, a)
    say(bench)
    bench.check_answers(rows)
    print("both programs give the same answers on all shapes", flush=True)
    sizes = [int(n) for n in a.sizes.split(",")] if a.sizes else [1000] if a.quick else [1000, 10_000, 100_000]

    def keep(row, size):
        shown(bench.stored, row, size)
        bench.stored.write(MEASURED)
    bench.run(rows, sizes, keep)
    if not a.call and not a.shape:
        bench.run_whole(programs.library_program("witc", a.unproved), keep)
    return bench.stored


def say_growth(stored):
    """The exponent of growth of each call on each shape, between the first size and the last one that were measured."""
    for call in dict.fromkeys(key[0] for key in stored.figures):
        for shape in stored.shapes(call):
            parts = []
            for field, what in (("count", "instructions"), ("ms", "time"), ("peak", "memory")):
                both = [stored.exponent(call, shape, program, field) for program in ("cases", "plain")]
                if both[0] is not None and call != "witc print":
                    parts.append(f"{what} by {', '.join(f'{x:.2f}' for x in both if x is not None)}")
            if parts:
                print(f"{call:17} {shape:16} grows in {'; '.join(parts)}")


def compared(a):
    """Instructions of the library's program now, beside those of a stored run."""
    old = read(a.compare)
    bench = Bench(a.unproved, 1, a.count_to)
    for key in ("build", "counter"):
        if old.about.get(key) != bench.stored.about[key]:
            raise programs.Missing(f"{a.compare} has another {key} ({old.about.get(key)}) than this run ({bench.stored.about[key]})")
    say(bench)
    grown = seen = 0
    for row in chosen(bench, a):
        for size in old.sizes(row.call):
            then = old.get(row.call, row.shape, size, "cases", "count")
            is_left_out = size > bench.count_to or a.quick and size > 1000 or a.sizes and str(size) not in a.sizes.split(",")
            if then is None or is_left_out:
                continue
            bench.count_row(row, size, *row.make(size), names=("cases",))
            now = bench.stored.get(row.call, row.shape, size, "cases", "count")
            if now is None:
                continue
            seen += 1
            is_more = now > then * 1.1
            grown += is_more
            print(f"{row.call:17} {row.shape:16} {size:7d} {then / 1e6:10.2f} {now / 1e6:10.2f} M {now / then - 1:+7.1%}"
                  f"{'  more than a tenth' if is_more else ''}", flush=True)
    print(f"{seen} compared, {grown} grew by more than a tenth")
    return 1 if grown or not seen else 0


def main():
    a = parsed()
    try:
        if a.compare:
            return compared(a)
        if a.hostile:
            hostile.run(a)
        if a.before:
            before.run(a)
        if a.report and (a.written or a.hostile or a.before):
            report.write(read(RECORDED), PAGE)
        if a.hostile or a.before or a.report and a.written:
            return 0
        stored = measured(a)
        say_growth(stored)
        if a.report:
            stored.write(RECORDED)
            report.write(stored, PAGE)
        return 0
    except programs.Missing as missing:
        print(f"bench: {missing}", file=sys.stderr)
        return 2
    except RuntimeError as wrong:
        print(f"bench: {wrong}", file=sys.stderr)
        return 1


if __name__ == "__main__":
    sys.exit(main())
