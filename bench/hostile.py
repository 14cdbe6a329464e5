"""Bytes made to hurt, each shape at several sizes: time of the processor, memory, and how they grow."""
import math
import os
import resource
import signal
import subprocess
import sys
import tempfile
import time

import hurt
import programs
from measure import Bar

KEPT = os.path.join(programs.TOP, "bench", "hostile.txt")
SECONDS = 60            # time of the processor that a run may take
MEGABYTES = 4000        # memory that it may take
LEAST = {1: 0.02, 2: 1}     # seconds and megabytes that tell something: of a process that ends at once no memory is seen


def limits():
    resource.setrlimit(resource.RLIMIT_CPU, (SECONDS, SECONDS + 5))
    resource.setrlimit(resource.RLIMIT_AS, (MEGABYTES << 20, MEGABYTES << 20))


def watched(child):
    """Waits for a process: its use of the machine, its status, and the most memory that was seen. A process counts as its own what its parent had
    when it began, so the larger of the two sights counts where it is larger than that."""
    seen = 0.0
    while True:
        try:
            seen = max(seen, programs.peak_of(child.pid))
        except (OSError, UnicodeDecodeError):
            pass
        pid, status, used = os.wait4(child.pid, os.WNOHANG)
        if pid:
            break
        time.sleep(0.001)
    own = resource.getrusage(resource.RUSAGE_SELF).ru_maxrss / 1024
    peak = used.ru_maxrss / 1024
    return used.ru_utime + used.ru_stime, max(seen, peak if peak > own + 1 else 0.0), os.waitstatus_to_exitcode(status)


def run_once(command, data):
    """Seconds, megabytes, the status, and the length and the front of what is written."""
    with tempfile.TemporaryFile() as given, tempfile.TemporaryFile() as out:
        given.write(data)
        given.seek(0)
        child = subprocess.Popen(command, stdin=given, stdout=out, stderr=subprocess.DEVNULL, preexec_fn=limits)
        seconds, peak, status = watched(child)
        child.returncode = status
        out.seek(0)
        front = out.read(60).decode(errors="replace")
        return seconds, peak, status, out.seek(0, os.SEEK_END), front


def has_failed(run):
    """Whether a run was stopped, or had not memory enough."""
    return run[3] < 0 or "want of memory" in run[5]


def answer_of(status, front):
    """What came of it, in a few words."""
    if status < 0:
        return f"stopped after {SECONDS} s" if status == -signal.SIGXCPU else f"ended by signal {-status}"
    return front.split("\n")[0][:40] if status else "ok"


def exponent(low, high, at):
    """How a figure grows between two runs, where it is large enough to tell."""
    (n, a), (k, b) = (low[0], low[at]), (high[0], high[at])
    return math.log(b / a) / math.log(k / n) if min(a, b) > LEAST[at] and k > 1.5 * n else None


def rows(witc, chosen, sizes, bar):
    """A row for each shape and command: the runs, each with its size, seconds, megabytes, status, length and front."""
    for make, commands in chosen:
        for words in commands:
            runs = []
            for size in sizes:
                data = make(int(size * 1_000_000), words == hurt.PRINT)
                runs.append((len(data), *run_once([witc, *words], data)))
                bar.step(size, f"{make.__name__}, {size} MB")
                if runs[-1][3] < 0:
                    break
            yield make, words, runs


def line_of(make, words, runs):
    """One line of the table."""
    ended = [r for r in runs if not has_failed(r)]
    failed = [r for r in runs if has_failed(r)]
    last = runs[-1]
    answer = answer_of(last[3], last[5]) + (f", from {failed[0][0] / 1e6:.2f} MB on" if failed else "")
    grows = [exponent(*ended[-2:], at) if len(ended) > 1 else None for at in (1, 2)]
    shown = ["-" if x is None else f"{x:.2f}" for x in grows]
    seconds = ", ".join(f"{r[1]:.2f}" for r in runs)
    memory = f"{last[2]:.0f}" if last[2] > LEAST[2] else "-"
    return (f"| {make.__doc__} | `{words[0]}` | {last[0] / 1e6:.1f} | {seconds} | {shown[0]} | {memory} | {shown[1]} | "
            f"{last[4] / 1e6:.1f} | {answer} | {hurt.FORCED.get((make, words), '')} |")


HEAD = ("| Shape | `witc` | MB | Seconds | Grows by | Memory, MB | Grows by | Written, MB | Answer | Forced, since |",
        "|---|---|---|---|---|---|---|---|---|---|")


def colliding(count):
    """So many names whose hashes are equal: found in half a minute for each 4,096, and kept."""
    file = os.path.join(programs.OUT, "colliding.txt")
    if os.path.exists(file):
        with open(file, encoding="ascii") as f:
            names = f.read().split()
        if len(names) >= count:
            return names[:count]
    print(f"bench: looking for {count} names that collide, for some {count // 8000 + 1} minutes and this once", file=sys.stderr)
    done = subprocess.run([programs.plain_program(), str(count)], capture_output=True, text=True, check=True)
    with open(file, "w", encoding="ascii") as f:
        f.write(done.stdout)
    return done.stdout.split()


def run(a):
    """All shapes, or those of a word."""
    witc = programs.library_program("witc", a.unproved)
    sizes = [float(x) for x in a.sizes.split(",")] if a.sizes else [0.25] if a.quick else [0.25, 1, 4]
    chosen = [(make, commands) for make, commands in hurt.SHAPES if (a.shape or "") in make.__name__]
    if any("collide" in make.__name__ for make, _ in chosen):
        hurt.COLLIDING[:] = colliding(min(int(max(sizes) * 4096), 16384))
    bar = Bar(sum(sizes) * sum(len(commands) for _, commands in chosen))
    print("\n".join(HEAD), flush=True)
    lines = []
    for make, words, runs in rows(witc, chosen, sizes, bar):
        lines.append(line_of(make, words, runs))
        print(lines[-1], flush=True)
    if a.report:
        with open(KEPT, "w", encoding="utf-8") as f:
            f.write("\n".join([f"sizes: {a.sizes or ','.join(map(str, sizes))}", f"build: {'unproved' if a.unproved else 'proved'}", *lines, ""]))
