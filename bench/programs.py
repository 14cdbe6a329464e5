"""The programs that are measured: found or built, and run on lines, with time, memory and instructions."""
import array
import fcntl
import os
import re
import shutil
import subprocess
import sys
import tempfile
import termios
import time

TOP = os.path.dirname(os.path.dirname(os.path.abspath(__file__)))
OUT = os.path.join(TOP, "out", "bench")
LIMIT = 300     # seconds that a process may take


class Missing(Exception):
    """Something that has to be there isn't."""


def said(command):
    """What a command writes, without the end of the line; nothing where it fails."""
    done = subprocess.run(command, cwd=TOP, capture_output=True, text=True, check=False)
    return done.stdout.strip() if done.returncode == 0 else ""


# ---- finding and building

def newest_source():
    newest = os.path.getmtime(os.path.join(TOP, "crates.txt"))
    for crate in os.listdir(os.path.join(TOP, "crates")):
        for here, _, files in os.walk(os.path.join(TOP, "crates", crate, "src")):
            newest = max([newest] + [os.path.getmtime(os.path.join(here, f)) for f in files])
    return newest


def is_current(program, sources):
    return os.access(program, os.X_OK) and os.path.getmtime(program) >= sources


def library_program(name, unproved):
    """The program of a crate: as `rt ci` or `rt run` leave it, or one that is built without a proof and kept."""
    sources = newest_source()
    if not unproved:
        program = os.path.join(TOP, "crates", name, "out", name)
        if not is_current(program, sources):
            raise Missing(f"there is no proved build of `{name}` of the sources as they are: `rt ci` makes it, or `rt run` in crates/{name}; "
                          "--unproved measures one that is built without a proof")
        return program
    program = os.path.join(OUT, name)
    if not is_current(program, sources):
        print(f"bench: building {name} without a proof, for about five minutes and this once", file=sys.stderr)
        if subprocess.run([os.path.join(TOP, "bench", "unproved"), name, program], check=False).returncode != 0:
            raise Missing(f"`{name}` could not be built without a proof")
    return program


def earlier_program(name, commit):
    """The program of a crate as an earlier commit had it, built without a proof as today's is, and kept."""
    program = os.path.join(OUT, f"{name}-{commit}")
    if os.access(program, os.X_OK):
        return program
    with tempfile.TemporaryDirectory() as tree:
        packed = subprocess.run(["git", "archive", commit, "crates", "crates.txt"], cwd=TOP, capture_output=True, check=False)
        if packed.returncode != 0:
            raise Missing(f"git has no commit {commit}")
        subprocess.run(["tar", "-x", "-C", tree], input=packed.stdout, check=True)
        print(f"bench: building {name} of {commit} without a proof, for about five minutes and this once", file=sys.stderr)
        if subprocess.run([os.path.join(TOP, "bench", "unproved"), name, program, tree], check=False).returncode != 0:
            raise Missing(f"`{name}` of {commit} could not be built without a proof")
    return program


def plain_program():
    """The plain Rust program, built where it is older than its sources."""
    if not shutil.which("rustc"):
        raise Missing("rustc isn't on the PATH, which builds the plain Rust program: on Debian, apt install rustc")
    folder = os.path.join(TOP, "bench", "plain")
    sources = max(os.path.getmtime(os.path.join(folder, f)) for f in os.listdir(folder))
    program = os.path.join(OUT, "plain")
    if not is_current(program, sources):
        os.makedirs(OUT, exist_ok=True)
        command = ["rustc", "-O", "--edition", "2021", os.path.join(folder, "main.rs"), "-o", program]
        if subprocess.run(command, check=False).returncode != 0:
            raise Missing("the plain Rust program was not built")
    return program


# ---- running

def on_lines(program, lines):
    """The answers to lines, one each."""
    done = subprocess.run([program], input="\n".join(lines) + "\n", capture_output=True, text=True, timeout=LIMIT, check=False)
    answers = done.stdout.split("\n")[:-1]
    if done.returncode != 0 or len(answers) != len(lines):
        raise RuntimeError(f"{program} stopped at line {len(answers) + 1} of {len(lines)}: {done.stderr[-400:]}")
    return answers


def peak_of(pid):
    """The most memory that a process has had so far, in MB."""
    with open(f"/proc/{pid}/status", encoding="ascii", errors="replace") as f:
        found = re.search(r"VmHWM:\s+(\d+) kB", f.read())
    return int(found[1]) / 1024 if found else 0.0


def wait_until_idle(child):
    """Until the process has read all that was written, and waits for more."""
    end = time.monotonic() + LIMIT
    left = array.array("i", [0])
    idle = 0
    while idle < 2:
        fcntl.ioctl(child.stdin.fileno(), termios.FIONREAD, left)
        with open(f"/proc/{child.pid}/stat", encoding="ascii", errors="replace") as f:
            state = f.read().rsplit(")", 1)[1].split()[0]
        if state in "ZX":
            raise RuntimeError("the process has ended")
        idle = idle + 1 if left[0] == 0 and state == "S" else 0
        if time.monotonic() > end:
            child.kill()
            raise RuntimeError(f"more than {LIMIT} s")
        time.sleep(0.001)


def timed(program, before, call, times):
    """A call in a process of its own: the least milliseconds, the most megabytes with the call, and those before it. `before` are the lines that make
    ready; they come again for each call where that is needed, which the caller says by `times` of 1."""
    with tempfile.TemporaryFile() as answers:
        child = subprocess.Popen([program], stdin=subprocess.PIPE, stdout=answers)
        try:
            child.stdin.write("\n".join(["brief", *before, ""]).encode())
            child.stdin.flush()
            wait_until_idle(child)
            ready = peak_of(child.pid)
            child.stdin.write(f"{call}\n".encode())
            child.stdin.flush()
            wait_until_idle(child)
            peak = peak_of(child.pid)
            child.stdin.write(f"{call}\n".encode() * (times - 1))
            child.stdin.close()
            child.wait(LIMIT)
        finally:
            child.kill()
            child.wait()
        answers.seek(0)
        lines = answers.read().decode().splitlines()[1 + len(before):]
    if len(lines) != times:
        raise RuntimeError(f"{program} answered {len(lines)} of {times} calls")
    spent = min(int(line.rsplit(" ", 1)[1]) for line in lines)
    return spent / 1e6, peak, ready, lines[0].rsplit(" ", 1)[0]


# ---- instructions

def has_perf():
    if not shutil.which("perf"):
        return False
    done = subprocess.run(["perf", "stat", "-x,", "-e", "instructions:u", "true"], capture_output=True, text=True, check=False)
    return bool(re.match(r"\d+,", done.stderr))


def counter():
    """What counts instructions here: `perf`, `valgrind`, or nothing."""
    return "perf" if has_perf() else "valgrind" if shutil.which("valgrind") else None


def counted(tool, command, given):
    """The instructions of a command with that input."""
    if tool == "perf":
        words = ["perf", "stat", "-x,", "-e", "instructions:u", *command]
        pattern = r"^(\d+),"
    else:
        words = ["valgrind", "--tool=cachegrind", "--cache-sim=no", "--cachegrind-out-file=/dev/null", *command]
        pattern = r"I\s+refs:\s+([\d,]+)"
    with tempfile.TemporaryFile() as source:
        source.write(given)
        source.seek(0)
        done = subprocess.run(words, stdin=source, stdout=subprocess.DEVNULL, stderr=subprocess.PIPE, check=False)
    found = re.search(pattern, done.stderr.decode(errors="replace"), re.MULTILINE)
    if not found:
        raise RuntimeError(f"no count of instructions: {done.stderr[-300:]!r}")
    return int(found[1].replace(",", ""))


def counted_inside(command, given, function):
    """The instructions of a command inside functions of a name, with all that they call; None where there is none of that name."""
    if not shutil.which("valgrind"):
        return None
    with tempfile.TemporaryFile() as source:
        source.write(given)
        source.seek(0)
        done = subprocess.run(["valgrind", "--tool=callgrind", "--callgrind-out-file=/dev/null", f"--toggle-collect={function}", *command],
                              stdin=source, stdout=subprocess.DEVNULL, stderr=subprocess.PIPE, check=False)
    found = re.search(rb"Collected : (\d+)", done.stderr)
    return int(found[1]) or None if found else None
