"""Gives the functions of a compiled module the inline hints of their sources, and takes the traps out: `hints.py FOLDER.. < IN.ll > OUT.ll`, where each
folder holds crates. `rt try` drops the hints, and a proved program keeps them."""
import collections
import os
import re
import sys

WORDS = {"always": "alwaysinline", "never": "noinline", None: "inlinehint"}
HINT = re.compile(r"#\[(inline(?:\((always|never)\))?|cold)\][^;{}]*?\bfn\s+([a-z_0-9]+)")
DEFINED = re.compile(r'@"([^"]+)"\(|@([\w.$]+)\(')
ATTRIBUTES = re.compile(r"\) (#\d+)( align \d+)? \{")


def hints_of(folder):
    """For each crate and name of a function, the modules that have one of the name with a hint, and the hint."""
    found = collections.defaultdict(dict)
    for crate in os.listdir(folder):
        source = os.path.join(folder, crate, "src")
        for here, _, files in os.walk(source):
            for file in (f for f in files if f.endswith(".rt")):
                path = os.path.join(here, file)
                module = os.path.relpath(path, source)[:-3].replace(os.sep, "::")
                with open(path, encoding="utf-8", errors="replace") as f:
                    for hint in HINT.finditer(f.read()):
                        word = "cold" if hint[1] == "cold" else WORDS[hint[2]]
                        found[crate].setdefault(hint[3], {})[module] = word
    return found


def hint_of(name, hints):
    """The hint of a function in the module, whose path begins with its crate; none where several of its name have different ones."""
    parts = re.sub(r"::<#[0-9a-f]+>$|::<[^<>]*>$", "", name).split("::")
    by_module = hints.get(parts[0], {}).get(parts[-1], {})
    path = "::" + "::".join(parts[1:]) + "::"
    exact = [word for module, word in by_module.items() if f"::{module}::" in path or module == "lib"]
    if exact:
        return exact[-1]
    words = set(by_module.values())
    return words.pop() if len(words) == 1 else None


def main():
    hints = {}
    for folder in sys.argv[1:]:
        hints.update(hints_of(folder))
    for stream in (sys.stdin, sys.stdout):
        stream.reconfigure(encoding="utf-8", errors="surrogateescape")
    for line in sys.stdin:
        if "call void @llvm.trap()" in line:
            continue
        if line.startswith("define internal "):
            found = DEFINED.search(line)
            word = hint_of(found[1] or found[2], hints)
            if word:
                line = ATTRIBUTES.sub(lambda k, word=word: f") {word} {k[1]}{k[2] or ''} {{", line)
        sys.stdout.write(line)


main()
