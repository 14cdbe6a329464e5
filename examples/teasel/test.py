#!/usr/bin/env python3
"""Tests of the program `teasel`: what each word answers, what it refuses and how, and what becomes of files.

    examples/teasel/test.py [PROGRAM [TEST..]]    PROGRAM is ./teasel unless it is named, TEST as Words.test_json

What is wanted comes from the samples, from the formats (forms.py) and from other tools. The last line counts.
"""

import json
import os
import pty
import re
import resource
import select
import shutil
import signal
import stat
import subprocess
import sys
import tempfile
import unittest
from pathlib import Path

import forms

TOP = Path(__file__).resolve().parent.parent
PROGRAM = os.path.abspath("teasel")
CLOCK, FILES, SERVICES = (TOP / "packages" / f"{it}.wasm" for it in ("clock", "files", "services"))
MODULE, STRIPPED = TOP / "modules/service.wasm", TOP / "modules/service.stripped.wasm"
CHOSEN = "its worlds: service, service-next, service-bytes"
NO_CORE = "it is no core module"
WORDS = "text json wasm kind check compat diff embed strip sections completion man help version".split()
COMPLETE = "check that it is complete"

# The keys of each object that --json lists.
KEYS = {
    "kind": ["file", "kind"],
    "check": ["file", "ok", "message", "hint"],
    "compat": ["old", "new", "compatible", "difference"],
    "sections": ["number", "bytes", "world"],
}

# Each option with a value, a word that takes it, a bad value, and what is said of that.
VALUES = [
    ("--encoding", "embed", "ascii", "it is one of utf8|utf16|latin1+utf16"),
    ("--as", "text", "component", "it is one of package|world|module"),
    ("--color", "check", "sometimes", "it is one of auto|always|never"),
    ("--most", "text", "12X", "it is a number of bytes, as 500, 64K, 64M or 2G"),
    ("--most", "text", "-1", "it is a number of bytes, as 500, 64K, 64M or 2G"),
    ("--most-read", "json", "much", "it is a number of bytes, as 500, 64K, 64M or 2G"),
]


def closed(*streams):
    """What a child does first, so that it has none of these streams."""
    return lambda: [os.close(it) for it in streams]


def limited(what, most):
    """What a child does first, so that it has no more of something."""
    return lambda: resource.setrlimit(what, (most, most))


def as_nobody():
    """What a child does first, so that permissions hold for it."""
    if os.getuid() == 0:
        os.setgroups([])
        os.setgid(65534)
        os.setuid(65534)


class Room(unittest.TestCase):
    """A folder for each test, and runs of the program in it."""

    def setUp(self):
        room = tempfile.TemporaryDirectory()
        self.addCleanup(room.cleanup)
        self.room = Path(room.name)
        self.room.chmod(0o755)

    def run_(self, *words, program=None, environment=None, stdin=b"", **more):
        given = {"input": stdin} if isinstance(stdin, bytes) else {"stdin": stdin}
        for stream in "stdout", "stderr":
            given[stream] = more.pop(stream, subprocess.PIPE)
        kept = {it: value for it, value in os.environ.items() if it not in ("NO_COLOR", "TERM")}
        return subprocess.run(
            [program or PROGRAM, *words], **given, **{"cwd": self.room, **more}, env={**kept, **(environment or {})}, timeout=120
        )

    def answer(self, *words, status=0, **more):
        done = self.run_(*words, **more)
        self.assertEqual((done.returncode, done.stderr), (status, b""), words)
        return done.stdout

    def kept(self):
        """All that is in the room: each name with its kind and mode, and a file's bytes."""
        found = {}
        for path in sorted(self.room.rglob("*")):
            state = path.lstat()
            found[path] = (state.st_mode, path.read_bytes() if stat.S_ISREG(state.st_mode) and os.access(path, os.R_OK) else None)
        return found

    def refused(self, message, hint, *words, **more):
        """The words are refused by this message, whose place may be given by a pattern, and nothing else comes of them."""
        before = self.kept()
        done = self.run_(*words, **more)
        wanted = f"teasel: {message}\n" + (f"  {hint}\n" if hint else "")
        self.assertEqual((done.returncode, done.stdout or b"", done.stderr.decode()), (2, b"", wanted), words)
        self.assertEqual(self.kept(), before, words)

    def refused_at(self, file, pattern, hint, *words, most=None, **more):
        """The same of a message that names a byte of the file."""
        before = self.kept()
        done = self.run_(*words, **more)
        self.assertEqual((done.returncode, done.stdout), (2, b""), words)
        found = re.fullmatch(rf"teasel: {re.escape(str(file))}: byte (\d+): {pattern}\n" + (f"  {re.escape(hint)}\n" if hint else ""), done.stderr.decode())
        self.assertTrue(found, (words, done.stderr))
        if most is not None:
            self.assertLessEqual(int(found[1]), most)
        self.assertEqual(self.kept(), before, words)

    def store(self, file, data):
        (self.room / file).write_bytes(data)
        return file


class Texts(Room):
    """WIT text in the place of a package."""

    def test_a_text_is_its_package(self):
        for path in CLOCK, SERVICES:
            text = path.with_suffix(".wit")
            self.assertEqual(self.answer("wasm", text), path.read_bytes())
            for word in "text", "json", "wasm":
                self.assertEqual(self.answer(word, text), self.answer(word, path))
                self.assertEqual(self.answer(word, stdin=text.read_bytes()), self.answer(word, path))
            self.assertEqual(self.answer("diff", text, path), b"")
            self.assertEqual(self.answer("kind", text), f"{text}: package\n".encode())
            self.assertEqual(self.answer("check", text).split(b": ", 1)[1], self.answer("check", path).split(b": ", 1)[1])
        self.assertEqual(self.answer("embed", STRIPPED, CLOCK.with_suffix(".wit")), self.answer("embed", STRIPPED, CLOCK))

    # A text with gates, as it is written.
    GATED = """package a:b@1.2.0;

@since(version = 1.0.0)
interface i {
  @since(version = 1.1.0)
  @deprecated(version = 1.2.0)
  record r {
    a: u8,
  }

  resource s {
    @unstable(feature = later)
    m: func();
  }

  @unstable(feature = later)
  f: func() -> r;
}

@since(version = 1.0.0)
world w {
  @since(version = 1.0.0)
  import i;

  @unstable(feature = soon)
  export g: func();
}
"""

    # A text with documentation, as it is written.
    DOCUMENTED = """package a:b;

/// an interface
///
/// of two items
interface i {
  /// a record
  record r {
    /// a field
    a: u8,
  }

  /// a function
  f: func() -> r;
}

/// a world
world w {
  /// an import
  import i;

  /// an export
  export g: func();
}
"""

    def test_gates_are_kept(self):
        """The text of a text has its gates, though its bytes, which all else is made of, have none."""
        file = self.store("gated.wit", self.GATED.encode())
        for words in ["text", file], ["text", "--as", "package", file]:
            self.assertEqual(self.answer(*words).decode(), self.GATED)
        self.assertEqual(self.answer("text", stdin=self.GATED.encode()).decode(), self.GATED)
        (self.room / "wit").mkdir()
        (self.room / "wit/a.wit").write_text(self.GATED)
        self.assertEqual(self.answer("text", "wit").decode(), self.GATED)
        self.assertEqual(self.answer("wasm", file, "-o", "gated.wasm"), b"")
        bare = "".join(it for it in self.GATED.splitlines(True) if not it.strip().startswith("@"))
        self.assertEqual(self.answer("text", "gated.wasm").decode(), bare)
        self.assertEqual(self.answer("json", file), self.answer("json", "gated.wasm"))
        self.refused(f"{file}: {NO_CORE}", "`teasel kind` says what a file is", "text", "--as", "module", file)
        length = len(self.GATED)
        self.assertEqual(self.answer("text", file, "--most", str(length)).decode(), self.GATED)
        for most in length - 1, 1, 0:
            self.refused(f"{file}: its text is longer than {most} bytes", "--most SIZE allows more", "text", file, "--most", str(most))

    def test_gates_differ(self):
        """Texts that differ in a gate alone differ, though their bytes are the same."""
        old = self.store("old.wit", self.GATED.encode())
        new = self.store("new.wit", self.GATED.replace("since(version = 1.1.0)", "since(version = 1.1.1)").encode())
        self.assertEqual(self.answer("wasm", old), self.answer("wasm", new))
        shown = self.answer("diff", old, new, status=1).decode()
        lines = [it for it in shown.splitlines()[2:] if it[0] in "+-"]
        self.assertEqual(lines, ["-  @since(version = 1.1.0)", "+  @since(version = 1.1.1)"])
        self.assertEqual(self.answer("diff", old, old), b"")
        self.assertEqual(self.answer("wasm", old, "-o", "old.wasm"), b"")
        shown = self.answer("diff", old, "old.wasm", status=1).decode()
        lines = [it for it in shown.splitlines()[2:] if it[0] in "+-"]
        self.assertEqual(lines, ["-" + it for it in self.GATED.splitlines() if it.strip().startswith("@")])

    # Take this line away once the documentation of texts is read.
    @unittest.skip("the documentation of texts isn't read")
    def test_documentation_is_kept(self):
        """The text of a text has its documentation, though its bytes have none."""
        file = self.store("documented.wit", self.DOCUMENTED.encode())
        self.assertEqual(self.answer("text", file).decode(), self.DOCUMENTED)
        self.assertEqual(self.answer("wasm", file, "-o", "documented.wasm"), b"")
        bare = "".join(it for it in self.DOCUMENTED.splitlines(True) if not it.strip().startswith("///"))
        self.assertEqual(self.answer("text", "documented.wasm").decode(), bare)
        other = self.store("other.wit", self.DOCUMENTED.replace("a field", "another field").encode())
        shown = self.answer("diff", file, other, status=1).decode()
        self.assertEqual([it for it in shown.splitlines()[2:] if it[0] in "+-"], ["-    /// a field", "+    /// another field"])

    def test_a_text_that_is_typed(self):
        bytes_ = self.answer("wasm", stdin=b"package a:b; interface i { f: func(); }")
        self.assertEqual(self.answer("text", stdin=bytes_), b"package a:b;\n\ninterface i {\n  f: func();\n}\n\n")

    def test_a_text_is_written_in_one_way(self):
        text = b"// a\n@since(version = 1.0.0)\ninterface i {}\n"
        self.refused("standard input: line 1, column 1: no `package` in this text, nor in another of its folder", "// a\n  ^", "text", stdin=text)
        text = b"/// a\npackage %a : b@1.0.0-rc.1 ;\ninterface %bool{type t=own<r>;f:func(a:own<r>,)->r;resource r{}}"
        wanted = b"package a:b@1.0.0-rc.1;\n\ninterface %bool {\n  resource r;\n\n  type t = own<r>;\n\n  f: func(a: r) -> r;\n}\n\n"
        self.assertEqual(self.answer("text", stdin=text), wanted)

    def test_golden_texts(self):
        """The texts of packages that the golden tests have are read: written again, they have the same lines, in another order at most. So they have by way of
        their bytes, if they have no gates."""
        golden = (TOP.parent / "crates/cases/stdout").read_text().splitlines()
        unquoted = re.compile(r"\\u\{([0-9a-f]+)\}|\\(.)")
        ends = {"n": "\n", "r": "\r", "t": "\t", "0": "\0"}
        count = gated = 0
        for line in golden:
            if not line.startswith('text "package ') or re.search(r"\\npackage |[\w-]+:%?[\w-]+/", line):
                continue
            text = unquoted.sub(lambda it: chr(int(it[1], 16)) if it[1] else ends.get(it[2], it[2]), line[6:-1])
            bare = [it for it in text.splitlines() if not it.strip().startswith("///")]
            if any(it.lstrip("%").startswith(("interface ", "world ")) for it in bare):
                read = self.answer("text", stdin=text.encode()).decode().splitlines()
                self.assertEqual(sorted(it for it in read if not it.strip().startswith("///")), sorted(bare), text)
                count += 1
                if re.search("@since|@unstable", text):
                    gated += 1
                else:
                    written = self.answer("text", stdin=self.answer("wasm", stdin=text.encode())).decode()
                    self.assertEqual(sorted(written.splitlines()), sorted(bare), text)
        self.assertGreater(count, 200)
        self.assertGreater(gated, 20)

    def test_packages_of_one_text(self):
        text = b"package a:b; world w { import c:d/i; export f: func(); } package c:d { interface i { use j.{t}; f: func() -> t; } interface j { type t = u8; } }"
        file = self.store("both.wit", text)
        wanted = b"package a:b;\n\nworld w {\n  import c:d/j;\n  import c:d/i;\n\n  export f: func();\n}\n"
        self.assertEqual(self.answer("text", file), wanted)
        self.assertEqual(self.answer("compat", file, "-w", "w"), b"ok   w\n")


class Folders(Room):
    """Folders of WIT texts in the place of a package."""

    # Texts of one package, in two files, that use two others; the text that is read of them; and one text with all of them.
    OWN = {"b.wit": "package a:b;\ninterface i {\n  use c:d/x.{t};\n  f: func() -> t;\n}\n", "a.wit": "package a:b;\nworld w {\n  import i;\n  import e:f/y;\n}\n"}
    USED = {"deps/c/x.wit": "package c:d;\ninterface x {\n  type t = u8;\n}\n", "deps/e.wit": "package e:f;\ninterface y {\n  g: func();\n}\n"}
    WANTED = """package a:b;

interface i {
  use c:d/x.{t};

  f: func() -> t;
}

world w {
  import c:d/x;
  import i;
  import e:f/y;
}
"""

    INCLUDING = {
        "a.wit": "use c:d/x;\n\n/* without a package */\ninterface i {\n  use x.{t};\n}\n",
        "b.wit": "package a:b;\n\nworld w {\n  include c:d/v with { f as g }\n  export i;\n}\n",
        "deps/c.wit": "package c:d;\n\ninterface x {\n  type t = u8;\n}\n\nworld v {\n  import x;\n  import f: func();\n}\n",
    }
    INCLUDED = "package a:b;\n\ninterface i {\n  use c:d/x.{t};\n}\n\nworld w {\n  import c:d/x;\n  import g: func();\n\n  export i;\n}\n"

    def folder(self, texts, name="wit"):
        """A folder of these texts."""
        for path, text in texts.items():
            file = self.room / name / path
            file.parent.mkdir(parents=True, exist_ok=True)
            file.write_bytes(text if isinstance(text, bytes) else text.encode())
        return name

    def test_an_inclusion_and_a_text_without_a_package(self):
        self.assertEqual(self.answer("text", self.folder(self.INCLUDING)).decode(), self.INCLUDED)
        bad = {**self.INCLUDING, "b.wit": self.INCLUDING["b.wit"].replace("f as g", "e as g")}
        self.refused("wit/b.wit: line 4, column 24: what is included has nothing of this name", "  include c:d/v with { e as g }\n                         ^", "text", self.folder(bad))

    def test_a_folder_is_its_package(self):
        wit = self.folder({**self.OWN, **self.USED})
        for name in wit, f"{wit}/", f"./{wit}", self.room / wit:
            self.assertEqual(self.answer("text", name).decode(), self.WANTED)
        self.assertEqual(self.answer("text", ".", cwd=self.room / wit).decode(), self.WANTED)
        self.assertEqual(self.answer("wasm", wit, "-o", "wit.wasm"), b"")
        for word in "text", "json", "wasm":
            self.assertEqual(self.answer(word, wit), self.answer(word, "wit.wasm"))
        self.assertEqual(self.answer("kind", wit, "wit.wasm"), b"wit: package\nwit.wasm: package\n")
        shown = "a package; interfaces: 1; worlds: w\n"
        self.assertEqual(self.answer("check", wit, "wit.wasm").decode(), f"ok   wit: {shown}ok   wit.wasm: {shown}")
        self.assertEqual(self.answer("diff", wit, "wit.wasm"), b"")
        self.assertEqual(self.answer("compat", wit, "-w", "w"), b"ok   w\n")
        self.assertEqual(self.answer("embed", STRIPPED, wit), self.answer("embed", STRIPPED, "wit.wasm"))
        for words in ["strip", wit], ["sections", wit], ["embed", wit, CLOCK]:
            hint = "the files stand as MODULE PACKAGE" if words[0] == "embed" else "`teasel kind` says what a file is"
            self.refused(f"wit: {NO_CORE}", hint, *words)

    def test_it_is_one_text_with_all(self):
        own = "".join(self.OWN.values()).replace("package a:b;\n", "")
        nested = "".join(re.sub(r"package (.*);((?s:.*))", r"package \1 {\2}\n", it) for it in self.USED.values())
        text = self.store("all.wit", f"package a:b;\n{own}{nested}".encode())
        self.assertEqual(self.answer("wasm", self.folder({**self.OWN, **self.USED})), self.answer("wasm", text))

    def test_the_order_of_names(self):
        """Interfaces come in the order of the names of their files, as bytes."""
        names = ["B", "a-b", "a.b", "a", "a0", "\u00e9", "\u65e5"]
        texts = {f"{it}.wit": f"package a:b;\ninterface i{number} {{\n  f: func();\n}}\n" for number, it in enumerate(names)}
        self.folder(dict(reversed(texts.items())))
        self.assertEqual(re.findall(r"interface i(\d)", self.answer("text", "wit").decode()), [str(it) for it in range(len(names))])
        # The first of the texts that is refused is told: own ones come first, then the others in the order of their paths.
        bad = "package a:b"
        for path in "deps/b/a.wit", "deps/a/c.wit", "deps/a.wit", "z.wit", "B.wit":
            self.folder({path: bad})
            self.refused(f"wit/{path}: line 1, column 12: expected `{{`", f"{bad}\n             ^", "text", "wit")

    def test_what_is_passed_over(self):
        wit = self.folder({**self.OWN, **self.USED})
        bad = "no text"
        others = ["readme.md", ".x.wit", "x.wit.bak", "wit", "sub/x.wit", "deps/x.wasm", "deps/.x.wit", "deps/.x/x.wit", "deps/c/sub/x.wit", "deps/c/.x.wit", "deps/c/x.txt"]
        self.folder({it: bad for it in others})
        (self.room / wit / "folder.wit").mkdir()
        (self.room / wit / "deps/c/folder.wit").mkdir()
        (Path(os.fsencode(self.room / wit).decode()) / os.fsdecode(b"caf\xe9.wit")).write_bytes(b"no text")
        self.assertEqual(self.answer("text", wit).decode(), self.WANTED)
        # A folder in deps is read also where its name is that of a text.
        self.folder({"deps/folder.wit/x.wit": "package a:b"})
        self.refused("wit/deps/folder.wit/x.wit: line 1, column 12: expected `{`", "package a:b\n             ^", "text", wit)

    def test_deps_that_is_a_file(self):
        self.folder({"a.wit": "package a:b;\ninterface i {\n  f: func();\n}\n", "deps": "no folder"})
        self.assertEqual(self.answer("text", "wit"), b"package a:b;\n\ninterface i {\n  f: func();\n}\n\n")

    def test_links(self):
        """Links to texts and to folders are followed, and one that leads nowhere is a text that isn't there."""
        self.folder(self.OWN, "own")
        self.folder({Path(it).name: text for it, text in self.USED.items()}, "used")
        (self.room / "wit/deps").mkdir(parents=True)
        for path in self.OWN:
            (self.room / "wit" / path).symlink_to(f"../own/{path}")
        (self.room / "wit/deps/all").symlink_to("../../used")
        (self.room / "other").symlink_to("wit")
        for name in "wit", "other":
            self.assertEqual(self.answer("text", name).decode(), self.WANTED)
        (self.room / "wit/c.wit").symlink_to("nowhere")
        self.refused("wit/c.wit: there is no such file", "", "text", "wit")

    def test_two_packages(self):
        texts = {"a.wit": "package a:b;", "b.wit": "package a:b@1.0.0;"}
        wit = self.folder({**texts, "deps/c.wit": "package c:d;"})
        message, hint = "wit: wit/a.wit and wit/b.wit begin with two packages", "texts of other packages stand in deps in it"
        for words in ["text", wit], ["json", wit], ["wasm", wit, "-o", "new.wasm"], ["strip", wit], ["sections", wit], ["compat", wit, "-w", "a"], ["diff", CLOCK, wit]:
            self.refused(message, hint, *words)
        self.refused(message, hint, "embed", STRIPPED, wit)
        self.assertEqual(self.answer("kind", wit, status=1), b"wit: unknown\n")
        self.assertEqual(self.answer("check", wit, status=1).decode(), f"no   {message}\n       {hint}\n")
        listed = [{"file": "wit", "ok": False, "message": message, "hint": hint}]
        self.assertEqual(json.loads(self.answer("check", "--json", wit, status=1)), listed)

    def test_a_package_nested_in_a_text(self):
        """A text begins with its own package, though another is nested in it."""
        self.folder({"a.wit": "package a:b;\npackage c:d { interface x {} }", "b.wit": "package a:b;\ninterface i {\n  f: func();\n}"})
        self.assertEqual(self.answer("text", "wit"), b"package a:b;\n\ninterface i {\n  f: func();\n}\n\n")

    def test_the_package_of_its_own_texts(self):
        """What is in deps is no package of the folder, also where it is read first."""
        self.folder({"z.wit": "package z:z;\ninterface i {\n  use a:a/x.{t};\n}", "deps/a.wit": "package a:a;\ninterface x {\n  type t = u8;\n}"})
        self.assertEqual(self.answer("text", "wit"), b"package z:z;\n\ninterface i {\n  use a:a/x.{t};\n}\n\n")

    def test_no_text(self):
        message = "wit: there is no WIT text in it"
        (self.room / "wit").mkdir()
        self.refused(message, "", "text", "wit")
        self.folder({**self.USED, "x.txt": "package a:b;"})
        for words in ["text", "wit"], ["check", CLOCK, "wit"], ["kind", "wit"], ["diff", CLOCK, "wit"], ["embed", STRIPPED, "wit"], ["strip", "wit"]:
            self.refused(message, "", *words)

    def test_texts_that_are_refused(self):
        wit = self.folder({**self.OWN, **self.USED})
        for path in "a.wit", "c.wit", "deps/c/x.wit", "deps/e.wit", "deps/g/h.wit":
            file = self.room / wit / path
            kept = file.read_bytes() if file.exists() else None
            for data, message, hint in (
                (b"package a:b;\n\ninterface j {\n  f: func() -> ;\n}\n", ": line 4, column 16: expected a type", "  f: func() -> ;\n" + " " * 17 + "^"),
                (b"package a:b;\n// caf\xe9\n", ": it is WIT text that isn't UTF-8", "write it as UTF-8"),
                (b"", ": the file is empty", ""),
                (b"no text", ": it is no WIT text", ""),
                (CLOCK.read_bytes(), ": it is no WIT text", ""),
            ):
                self.folder({path: data})
                self.refused(f"wit/{path}{message}", hint, "text", wit)
                shown = "".join(f"       {it}\n" for it in hint.split("\n  ", 1) if hint)
                self.assertEqual(self.answer("check", wit, status=1).decode(), f"no   wit/{path}{message}\n{shown}")
            file.unlink()
            if kept is not None:
                file.write_bytes(kept)

    def test_without_permission(self):
        program = shutil.copy(PROGRAM, self.room / "program")
        wit = self.folder({**self.OWN, **self.USED})
        for path, message in (
            ("a.wit", "wit/a.wit: permission to read it is denied"),
            ("deps/c/x.wit", "wit/deps/c/x.wit: permission to read it is denied"),
            ("deps/c", "wit/deps/c: permission to read it is denied"),
            ("deps", "wit/deps: permission to read it is denied"),
            ("", "wit: permission to read it is denied"),
        ):
            place = self.room / wit / path
            mode = place.stat().st_mode
            place.chmod(0)
            # What is kept isn't looked at here, where nobody may look into a folder.
            done = self.run_("text", wit, program=program, preexec_fn=as_nobody)
            self.assertEqual((done.returncode, done.stdout, done.stderr.decode()), (2, b"", f"teasel: {message}\n"))
            place.chmod(mode)

    def test_the_bound_of_what_is_read(self):
        """A folder's texts have the bytes of one file at most, all together."""
        wit = self.folder({**self.OWN, **self.USED})
        length = sum(len(it) for it in [*self.OWN.values(), *self.USED.values()])
        self.assertEqual(self.answer("text", wit, "--most-read", str(length)).decode(), self.WANTED)
        long, hint = "it is longer than what is read", "--most-read SIZE allows more"
        self.refused(f"wit/deps/e.wit: {long}", hint, "text", wit, "--most-read", str(length - 1))
        self.refused(f"wit/a.wit: {long}", hint, "text", wit, "--most-read", "10")

    def test_many_texts(self):
        count = 1000
        text = "package a:b;\ninterface i{0} {{\n  use c:d{0}/x.{{t}};\n}}\n"
        self.folder({f"{it:04}.wit": text.format(it) for it in range(count)})
        self.folder({f"deps/d{it}/x.wit": f"package c:d{it};\ninterface x {{\n  type t = u8;\n}}\n" for it in range(count)})
        self.assertEqual(self.answer("text", "wit").count(b"interface i"), count)

    def test_output_into_it(self):
        wit = self.folder({**self.OWN, **self.USED})
        self.assertEqual(self.answer("wasm", wit, "-o", "wit/wit.wasm"), b"")
        self.assertEqual(self.answer("text", "wit/wit.wasm").decode(), self.WANTED)
        self.assertEqual(self.answer("text", wit, "-o", "wit/deps/wit.txt"), b"")
        (self.room / "link").symlink_to("wit/deps/e.wit")
        for path in "wit/a.wit", "wit/deps/c/x.wit", "wit/deps/../b.wit", "link", "wit":
            self.refused(f"{path}: it is the file that is read", "name another file by --output", "text", wit, "-o", path)
        # A file beside those that are read is written, also a text that isn't there yet.
        self.assertEqual(self.answer("text", wit, "-o", "wit/deps/c/sub.wit"), b"")
        self.assertEqual((self.room / "wit/deps/c/sub.wit").read_text(), self.WANTED)


class Misuse(Room):
    def test_no_word(self):
        self.refused("there is no word", "`teasel help` lists the words")

    def test_wrong_words(self):
        for word in "frobnicate", "TEXT", "--foo", "", "clock.wasm":
            self.refused(f"there is no word {word}", "`teasel help` lists the words", word)

    def test_near_words(self):
        for word, meant in ("tex", "text"), ("compt", "compat"), ("jsno", "json"), ("checkk", "check"), ("dift", "diff"):
            self.refused(f"there is no word {word}", f"did you mean {meant}?", word)

    def test_options_that_a_word_lacks(self):
        for word, option in ("text", "--foo"), ("text", "--json"), ("kind", "-o"), ("diff", "--world"), ("text", "-x"), ("help", "--quiet"):
            self.refused(f"{word} has no option {option}", f"`teasel help {word}` says more", word, option, CLOCK)

    def test_options_without_value(self):
        for word, option, name, value in (
            ("text", "-o", "--output", "FILE"),
            ("text", "--output", "--output", "FILE"),
            ("embed", "-w", "--world", "NAME"),
            ("embed", "--encoding", "--encoding", "utf8|utf16|latin1+utf16"),
            ("text", "--as", "--as", "package|world|module"),
            ("check", "--color", "--color", "auto|always|never"),
            ("text", "--most", "--most", "SIZE"),
            ("text", "--most-read", "--most-read", "SIZE"),
        ):
            self.refused(f"{name} needs a value: {value}", "", word, CLOCK, option)

    def test_bad_values(self):
        for option, word, value, hint in VALUES:
            self.refused(f"{option} can't be {value}", hint, word, CLOCK, option, value)
            self.refused(f"{option} can't be {value}", hint, word, f"{option}={value}", CLOCK)
            self.refused(f"{option} can't be empty", hint, word, f"{option}=", CLOCK)

    def test_values_of_options_that_take_none(self):
        for option, word in ("--json", "kind"), ("--quiet", "check"), ("--force", "wasm"), ("--help", "text"):
            self.refused(f"{option} takes no value", "", word, f"{option}=yes", CLOCK)

    def test_numbers_of_files(self):
        for words, takes, usage in (
            (["text", CLOCK, CLOCK], "text takes one file at most", "text [FILE]"),
            (["compat", SERVICES, SERVICES], "compat takes one file", "compat FILE -w OLD=NEW"),
            (["compat"], "compat takes one file", "compat FILE -w OLD=NEW"),
            (["diff", CLOCK], "diff takes two files", "diff OLD NEW"),
            (["diff", CLOCK, CLOCK, CLOCK], "diff takes two files", "diff OLD NEW"),
            (["embed", MODULE], "embed takes two files", "embed MODULE PACKAGE"),
            (["kind"], "kind takes one file at least", "kind FILE.."),
            (["check"], "check takes one file at least", "check FILE.."),
            (["man", "text"], "man takes no file", "man"),
            (["version", "text"], "version takes no file", "version"),
            (["help", "text", "json"], "help takes one word at most", "help [WORD]"),
            (["completion"], "completion takes the name of a shell", "completion bash|zsh|fish"),
        ):
            self.refused(takes, f"usage: teasel {usage}", *words)

    def test_words_behind_help_and_completion(self):
        self.refused("frob: there is no such word", "`teasel help` lists the words", "help", "frob")
        self.refused("ksh: no completions are made for this shell", "it is one of bash, zsh and fish", "completion", "ksh")

    def test_what_is_not_utf8(self):
        for words in ([b"\xff"], ["text", b"caf\xe9.wasm"], ["text", CLOCK, "-o", b"\xff.wit"]):
            self.refused("a word isn't UTF-8", "a file whose name isn't can be given as standard input", *words)

    def test_empty_names(self):
        for words in (["text", ""], ["check", CLOCK, ""], ["text", CLOCK, "-o", ""], ["text", CLOCK, "--output="]):
            self.refused("the name of a file is empty", "", *words)


class Inputs(Room):
    def test_no_such_file(self):
        for word in "text", "json", "wasm", "strip", "sections":
            self.refused("nowhere.wasm: there is no such file", "", word, "nowhere.wasm")
        self.refused("nowhere.wasm: there is no such file", "", "diff", CLOCK, "nowhere.wasm")

    def test_a_folder(self):
        self.refused(f"{TOP}: there is no WIT text in it", "", "text", TOP)
        folder = os.open(TOP, os.O_RDONLY)
        self.addCleanup(os.close, folder)
        self.refused("standard input: it is a folder", "", "text", stdin=folder)

    def test_without_permission(self):
        program = shutil.copy(PROGRAM, self.room / "program")
        secret = self.room / "secret.wasm"
        shutil.copy(CLOCK, secret)
        secret.chmod(0)
        self.refused("secret.wasm: permission to read it is denied", "", "text", "secret.wasm", program=program, preexec_fn=as_nobody)

    def test_an_empty_file(self):
        for word in "text", "json", "wasm", "strip", "sections":
            self.refused("empty.wasm: the file is empty", "", word, self.store("empty.wasm", b""))
            self.refused("standard input: the file is empty", "", word)

    def test_what_is_no_webassembly(self):
        wat = "make it binary by `wasm-tools parse`"
        for data, message, hint in (
            (b"package a:b; // caf\xe9\n", "it is WIT text that isn't UTF-8", "write it as UTF-8"),
            (b"(module)", "it is WAT text", wat),
            (b"\n(component)\n", "it is WAT text", wat),
            (b"\x1f\x8b\x08" + bytes(20), "it is compressed (gzip)", "decompress it first"),
            (b"PK\3\4" + bytes(20), "it is a zip archive", "unpack it first"),
            (b"\x7fELF\2\1\1", "it is no WebAssembly file", ""),
            (b"\0\0\0\0", "it is no WebAssembly file", ""),
        ):
            file = self.store("given", data)
            for words in ["text", file], ["json", file], ["wasm", file], ["strip", file], ["sections", file], ["compat", file, "-w", "a"], ["diff", CLOCK, file]:
                self.refused(f"given: {message}", hint, *words)
            self.refused(f"given: {message}", hint, "embed", STRIPPED, file)
            self.assertEqual(self.answer("kind", file, status=1), b"given: unknown\n")

    def test_texts_that_are_refused(self):
        for text, place, message, line, marks in (
            ("interface i {}\n", "line 1, column 1", "no `package` in this text, nor in another of its folder", "interface i {}", "^"),
            ("\n  // é\npackage a:b;\n\ninterface i {\n\tf: func() -> ;\n}\n", "line 6, column 15", "expected a type", "\tf: func() -> ;", "\t             ^"),
            ("package a:b;\ninterface i {\n  f: func(x: lst);\n}\n", "line 3, column 14", "there is no type of this name here", "  f: func(x: lst);", "             ^^^"),
            ("package a:b; interface i { use c:d/e.{t}; }", "line 1, column 32", "no text has this package", None, " " * 31 + "^^^"),
            ("package a:b; interface i { use j.{t}; }", "line 1, column 32", "the package has no interface of this name", None, " " * 31 + "^"),
            ("package a:b; interface i { type t = u8; type t = u8; }", "line 1, column 46", "the name is taken", None, " " * 45 + "^"),
            ("package a:b; interface i { type t = option<t>; }", "line 1, column 44", "what has this name needs itself", None, " " * 43 + "^"),
            ("package a:b; interface i { type t = borrow<u>; type u = u8; }", "line 1, column 44", "the type of this name is no resource", None, " " * 43 + "^"),
            ("package a:b; interface i { type t = list<u8, 0>; }", "line 1, column 46", "a length is 1 to 4294967295", None, " " * 45 + "^"),
            ("package a:b; interface ï {}", "line 1, column 24", "no token begins here", None, " " * 23 + "^"),
            ("package a:b;\r\ninterface i {\r\n  f func();\r\n}\r\n", "line 3, column 5", "expected `:`", "  f func();", "    ^"),
        ):
            file = self.store("given.wit", text.encode())
            hint = f"{text if line is None else line}\n  {marks}"
            for words in ["text", file], ["json", file], ["wasm", file, "-o", "new.wasm"], ["strip", file], ["compat", file, "-w", "a"], ["diff", CLOCK, file]:
                self.refused(f"given.wit: {place}: {message}", hint, *words)
            self.refused(f"standard input: {place}: {message}", hint, "wasm", stdin=text.encode())
            shown = self.answer("check", file, status=1).decode()
            self.assertEqual(shown, f"no   given.wit: {place}: {message}\n" + "".join(f"       {it}\n" for it in hint.split("\n  ", 1)))
            self.assertEqual(self.answer("kind", file, status=1), b"given.wit: unknown\n")

    def test_each_kind_in_the_place_of_another(self):
        world = self.store("world.wasm", forms.world_in(MODULE.read_bytes(), "component-type:clock"))
        whole = self.store("whole.wasm", forms.WHOLE)
        says = "`teasel kind` says what a file is"
        for file in CLOCK, world, whole:
            for words in ["strip", file], ["sections", file], ["text", "--as", "module", file], ["json", "--as=module", file]:
                self.refused(f"{file}: {NO_CORE}", says, *words)
            self.refused(f"{file}: {NO_CORE}", "the files stand as MODULE PACKAGE", "embed", file, CLOCK)
        self.refused(f"{MODULE}: it is a core module, and no package", "the files stand as MODULE PACKAGE", "embed", STRIPPED, MODULE)
        for kind in "package", "world":
            self.refused(f"{MODULE}: byte 0: it doesn't begin as a component does", "", "text", "--as", kind, MODULE)
        both = "the component is neither a WIT package nor a single world"
        self.refused_at(CLOCK, both, "", "text", "--as", "world", CLOCK)
        self.refused_at(world, both, "", "text", "--as", "package", world)
        for word in "text", "json", "wasm":
            self.refused_at(whole, "a section has an id that packages don't use", "it may be a whole component, whose world isn't read yet", word, whole)

    def test_cut_files(self):
        for path in CLOCK, FILES, SERVICES:
            data = path.read_bytes()
            ends = {end for end, _, _ in forms.sections(data)}
            for at in sorted({1, 2, 3, 4, 5, 7, 9, 11, len(data) - 1, *range(13, len(data), len(data) // 8)} - ends):
                file = self.store("cut.wasm", data[:at])
                if at < 8:
                    self.refused("cut.wasm: the file ends too early", COMPLETE, "text", file)
                else:
                    self.refused_at(file, "the file ends too early", COMPLETE, "text", file, most=at)
        data = MODULE.read_bytes()
        ends = {end for end, _, _ in forms.sections(data)}
        for at in sorted({9, 12, len(data) - 1, *range(13, len(data), len(data) // 8)} - ends):
            file = self.store("cut.wasm", data[:at])
            for word in "text", "strip", "sections":
                self.refused_at(file, "no section of a core module begins here", "check that the file is complete", word, file, most=at)

    def test_endless_input(self):
        self.refused("/dev/zero: it is no WebAssembly file", "", "text", "/dev/zero")
        for command, message in (["yes"], "it is no WebAssembly file"), (["sh", "-c", r"printf '\0asm\1\0\0\0'; cat /dev/zero"], None):
            with subprocess.Popen(command, stdout=subprocess.PIPE, stderr=subprocess.DEVNULL) as endless:
                hint = "" if message else "--most-read SIZE allows more"
                self.refused(f"standard input: {message or 'it is longer than what is read'}", hint, "strip", "--most-read=1M", stdin=endless.stdout)
                endless.stdout.close()

    def test_the_bound_of_what_is_read(self):
        length = CLOCK.stat().st_size
        self.assertEqual(self.answer("text", CLOCK, "--most-read", str(length)), CLOCK.with_suffix(".wit").read_bytes())
        self.refused(f"{CLOCK}: it is longer than what is read", "--most-read SIZE allows more", "text", CLOCK, "--most-read", str(length - 1))

    def test_the_bound_of_what_is_written(self):
        data, length = forms.tower(6)
        file = self.store("tower.wasm", data)
        self.assertEqual(len(self.answer("text", file, "--most", str(length))), length)
        for words in (["text", file], ["text", file, "-o", "new.wit"], ["diff", file, CLOCK], ["diff", CLOCK, file]):
            self.refused(f"{file}: its text is longer than {length - 1} bytes", "--most SIZE allows more", *words, "--most", str(length - 1))
        data, length = forms.tower(22)
        self.assertTrue(len(data) <= 160 and length > 46_000_000)
        file = self.store("tower.wasm", data)
        self.refused(f"{file}: its text is longer than 65536 bytes", "--most SIZE allows more", "text", file, "--most", "64K")
        for word in "json", "wasm", "kind", "check":
            self.assertLess(len(self.answer(word, file)), 10_000)

    def test_out_of_memory(self):
        module = forms.CORE + forms.section(0, forms.name("x") + bytes(50_000_000))
        self.refused("out of memory", "", "strip", stdin=module, preexec_fn=limited(resource.RLIMIT_AS, 60_000_000))

    def test_worlds_that_are_not_there(self):
        for name in "nobody", "Service", "":
            self.refused(f"{SERVICES}: there is no world {name}", CHOSEN, "compat", SERVICES, "--world", f"service={name}")
            self.refused(f"{SERVICES}: there is no world {name}", CHOSEN, "embed", STRIPPED, SERVICES, "-w", name)
        self.refused(f"{SERVICES}: choose worlds by --world OLD=NEW", CHOSEN, "compat", SERVICES)
        self.refused(f"{SERVICES}: the package has several worlds", f"choose one by --world: {CHOSEN[12:]}", "embed", STRIPPED, SERVICES)
        file = self.store("plain.wasm", forms.functions("f")[0])
        self.refused(f"{file}: the package has no world", "", "embed", STRIPPED, file)
        self.refused(f"{file}: there is no world a", "it has none", "compat", file, "-w", "a")

    def test_a_clash(self):
        removes = "`teasel sections` lists its worlds, and `teasel strip` removes them"
        self.refused(f"{MODULE}: two sections both export handle", removes, "embed", MODULE, SERVICES, "-w", "service")

    def test_closed_streams(self):
        self.refused("standard input: it can't be read", "", "text", preexec_fn=closed(0), stdin=None)
        self.assertEqual(self.run_("text", "nowhere", preexec_fn=closed(2)).returncode, 2)
        self.assertEqual(self.run_("text", CLOCK, "-o", "new.wit", preexec_fn=closed(0, 1, 2), stdin=None).returncode, 0)
        self.assertEqual((self.room / "new.wit").read_bytes(), CLOCK.with_suffix(".wit").read_bytes())

    def test_standard_input_named_twice(self):
        for words in ["diff", "-", "-"], ["check", "-", CLOCK, "-"], ["kind", "-", "-"]:
            self.refused("standard input is named twice", "name a file in place of one -", *words, stdin=CLOCK.read_bytes())


class Outputs(Room):
    WIT = CLOCK.with_suffix(".wit").read_bytes()

    def mode(self, file):
        return stat.S_IMODE((self.room / file).stat().st_mode)

    def test_a_new_file(self):
        for words in ["-o", "new.wit"], ["--output", "new.wit"], ["--output=new.wit"], ["-o=new.wit"], ["-onew.wit"]:
            self.assertEqual(self.answer("text", CLOCK, *words, umask=0o027), b"")
            self.assertEqual([it.name for it in self.room.iterdir()], ["new.wit"])
            self.assertEqual(((self.room / "new.wit").read_bytes(), self.mode("new.wit")), (self.WIT, 0o640))
            (self.room / "new.wit").unlink()

    def test_dash_is_standard_output(self):
        self.assertEqual(self.answer("text", CLOCK, "-o", "-"), self.WIT)

    def test_the_mode_of_a_file_is_kept(self):
        for mode in 0o600, 0o644, 0o755:
            (self.room / self.store("old.wit", b"old")).chmod(mode)
            self.answer("text", CLOCK, "-o", "old.wit")
            self.assertEqual(((self.room / "old.wit").read_bytes(), self.mode("old.wit")), (self.WIT, mode))

    def test_links(self):
        (self.room / "folder").mkdir()
        self.store("folder/old.wit", b"old")
        (self.room / "link.wit").symlink_to("folder/old.wit")
        self.answer("text", CLOCK, "-o", "link.wit")
        self.assertTrue((self.room / "link.wit").is_symlink())
        self.assertEqual((self.room / "folder/old.wit").read_bytes(), self.WIT)
        self.assertEqual(len(list(self.room.rglob("*"))), 3)

    def test_a_pipe_stays_one(self):
        os.mkfifo(self.room / "pipe")
        with subprocess.Popen(["cat", "pipe"], stdout=subprocess.PIPE, cwd=self.room) as reader:
            try:
                self.answer("text", CLOCK, "-o", "pipe")
                self.assertEqual(reader.communicate(timeout=60)[0], self.WIT)
            finally:
                reader.kill()
        self.assertEqual([(it.name, it.is_fifo()) for it in self.room.iterdir()], [("pipe", True)])

    def test_a_refusal_leaves_the_file(self):
        self.store("old.wit", b"old")
        for words in ["text", "nowhere"], ["text", MODULE, "--as=package"], ["strip", CLOCK], ["text", CLOCK, "--most=9"], ["diff", CLOCK, "nowhere"]:
            done = self.run_(*words, "-o", "old.wit")
            self.assertEqual((done.returncode, done.stdout), (2, b""))
            self.assertEqual({it.name: it.read_bytes() for it in self.room.iterdir()}, {"old.wit": b"old"})

    def test_a_folder_that_is_not_there(self):
        self.refused("nowhere/new.wit: its folder isn't there", "make it first", "text", CLOCK, "-o", "nowhere/new.wit")

    def test_a_folder_in_place_of_a_file(self):
        (self.room / "folder").mkdir()
        for name in "folder", "folder/", ".":
            self.refused(f"{name}: it is a folder", "", "text", CLOCK, "-o", name)

    def test_a_folder_that_cannot_be_written(self):
        program = shutil.copy(PROGRAM, self.room / "program")
        data = shutil.copy(CLOCK, self.room / "clock.wasm")
        (self.room / "folder").mkdir(mode=0o755)
        more = {"program": program, "preexec_fn": as_nobody}
        if os.getuid():
            (self.room / "folder").chmod(0o555)
        self.refused("folder/new.wit: permission to write it is denied", "", "text", data, "-o", "folder/new.wit", **more)

    def test_onto_the_input(self):
        shutil.copy(CLOCK, self.room / "clock.wasm")
        (self.room / "link.wasm").symlink_to("clock.wasm")
        (self.room / "again.wasm").hardlink_to(self.room / "clock.wasm")
        for written in "clock.wasm", "./clock.wasm", "link.wasm", "again.wasm", str(self.room / "clock.wasm"):
            for read in "clock.wasm", "link.wasm":
                self.refused(f"{written}: it is the file that is read", "name another file by --output", "wasm", read, "-o", written)
        self.refused("link.wasm: it is the file that is read", "name another file by --output", "diff", SERVICES, "clock.wasm", "-o", "link.wasm")

    def test_a_full_disk(self):
        steps = 'mount -t tmpfs -o size=4k none full && cd full && echo old >old.wit || exit 9; "$0" text "$1" -o old.wit; echo $? *; cat old.wit'
        (self.room / "full").mkdir()
        done = subprocess.run(["unshare", "-rm", "sh", "-c", steps, PROGRAM, FILES], capture_output=True, cwd=self.room, timeout=120)
        if done.returncode == 9 or b"unshare failed" in done.stderr:
            self.skipTest("no file system can be made here")
        self.assertEqual((done.stdout, done.stderr), (b"2 old.wit\nold\n", b"teasel: old.wit: there is no room left\n"))

    def test_a_bound_of_what_a_process_may_write(self):
        def bounded():
            signal.signal(signal.SIGXFSZ, signal.SIG_IGN)
            limited(resource.RLIMIT_FSIZE, 100)()

        self.store("old.wit", b"old")
        self.refused("old.wit: it can't be written", "", "text", FILES, "-o", "old.wit", preexec_fn=bounded, restore_signals=False)

    def test_a_pipe_that_nobody_reads(self):
        for words in ["text", CLOCK], ["help"], ["diff", CLOCK, SERVICES]:
            end, pipe = os.pipe()
            os.close(end)
            done = self.run_(*words, stdout=pipe)
            os.close(pipe)
            self.assertEqual((done.returncode, done.stderr), (2, b""))

    def test_standard_output_that_cannot_be_written(self):
        with open("/dev/full", "wb") as full:
            self.refused("standard output can't be written: there is no room left", "", "text", CLOCK, stdout=full)
        self.refused("standard output can't be written", "", "text", CLOCK, preexec_fn=closed(1))


class Terminals(Room):
    """What is said and done at a terminal."""

    def at_terminal(self, *words, typed=None, environment=None):
        """The words' status, what the terminal shows, and what standard error has. Standard input is the terminal where something is typed."""
        master, slave = pty.openpty()
        given = {"stdin": slave if typed else subprocess.DEVNULL, "stdout": slave, "stderr": subprocess.PIPE}
        environment = {"PATH": os.environ["PATH"], "TERM": "xterm", **(environment or {})}
        shown = b""
        with subprocess.Popen([PROGRAM, *words], **given, env=environment, cwd=self.room) as child:
            os.close(slave)
            if typed:
                os.write(master, typed)
            while select.select([master], [], [], 60)[0]:
                try:
                    shown += os.read(master, 65536)
                except OSError:
                    break
            error = child.stderr.read()
        os.close(master)
        return child.returncode, shown.replace(b"\r\n", b"\n"), error

    ASKED = (
        (["check", CLOCK], 0, b"\x1b[32mok\x1b[0m   "),
        (["compat", SERVICES, "-wservice"], 0, b"\x1b[32mok\x1b[0m   service\n"),
        (["compat", SERVICES, "-w", "service=service-bytes"], 1, b"\x1b[31mno\x1b[0m   service -> service-bytes\n"),
        (["diff", CLOCK, SERVICES], 1, b"\x1b[31m-package example:clock@1.2.0;"),
    )

    def test_colours(self):
        for words, status, shown in self.ASKED:
            plain = re.sub(rb"\x1b\[\d*m", b"", shown)
            self.assertIn(shown, self.at_terminal(*words)[1])
            self.assertIn(shown, self.answer(*words, "--color", "always", status=status))
            self.assertIn(shown, self.answer(*words, "--color=always", status=status, environment={"NO_COLOR": "1"}))
            for more, environment in ([], {"NO_COLOR": "1"}), ([], {"TERM": "dumb"}), (["--color=never"], {}):
                at_terminal = self.at_terminal(*words, *more, environment=environment)[1]
                self.assertNotIn(b"\x1b", at_terminal)
                self.assertIn(plain, at_terminal)
            for more in [], ["--color", "auto"], ["--color", "never"]:
                self.assertNotIn(b"\x1b", self.answer(*words, *more, status=status))
        self.assertNotIn(b"\x1b", self.at_terminal("compat", "--json", SERVICES, "-w", "service")[1])

    def test_bytes_are_kept_from_a_terminal(self):
        wanted = STRIPPED.read_bytes()
        for words in ["strip", MODULE], ["wasm", CLOCK], ["embed", STRIPPED, CLOCK]:
            status, shown, error = self.at_terminal(*words)
            self.assertEqual((status, shown), (2, b""))
            self.assertEqual(error, b"teasel: the answer is bytes, and standard output is a terminal\n  name a file by --output, or say --force\n")
        status, shown, error = self.at_terminal("strip", MODULE, "--force")
        self.assertEqual((status, shown, error), (0, wanted.replace(b"\r\n", b"\n"), b""))
        self.assertEqual(self.at_terminal("strip", MODULE, "-o", "new.wasm"), (0, b"", b""))
        self.assertEqual((self.room / "new.wasm").read_bytes(), wanted)

    def test_it_says_that_it_waits(self):
        status, _, error = self.at_terminal("text", typed=b"\x04")
        self.assertEqual((status, error), (2, b"teasel: reading standard input; end it by Ctrl-D\nteasel: standard input: the file is empty\n"))


class Answers(Room):
    def test_text(self):
        for path in CLOCK, FILES, SERVICES, MODULE:
            wanted = path.with_suffix(".wit").read_bytes()
            self.assertEqual(self.answer("text", path), wanted)
            for words in ["text"], ["text", "-"], ["text", "--", "-"]:
                self.assertEqual(self.answer(*words, stdin=path.read_bytes()), wanted)
        self.assertEqual(self.answer("text", "--as", "package", CLOCK), CLOCK.with_suffix(".wit").read_bytes())
        self.assertEqual(self.answer("text", "--as", "module", MODULE), MODULE.with_suffix(".wit").read_bytes())

    def test_text_of_a_world(self):
        data = forms.world_in(MODULE.read_bytes(), "component-type:service")
        text = self.answer("text", "--as", "world", stdin=data).decode()
        self.assertIn("world service {\n  import log: func(text: string);\n\n  export handle: func(request: string) -> string;\n}\n", text)

    def test_text_of_packages_made_here(self):
        for names in ["f"], ["a", "b", "c-d"], [f"p{it}" for it in range(300)]:
            data, text = forms.functions(*names)
            self.assertEqual(self.answer("text", stdin=data).decode(), text)

    def test_a_file_whose_name_is_like_an_option(self):
        shutil.copy(CLOCK, self.room / "-x")
        self.assertEqual(self.answer("text", "--", "-x"), CLOCK.with_suffix(".wit").read_bytes())
        self.assertEqual(self.answer("kind", "--", "-x", "-x"), b"-x: package\n-x: package\n")
        self.refused("text has no option -x", "`teasel help text` says more", "text", "-x")
        self.refused("--json: there is no such file", "", "text", "--", "--json")

    def test_json(self):
        listing = json.loads(self.answer("json", CLOCK))
        package = listing["packages"][listing["package"]]
        self.assertEqual([package[it] for it in ("namespace", "name", "version")], ["example", "clock", "1.2.0"])
        [world], [interface], [record] = listing["worlds"], listing["interfaces"], listing["types"]
        self.assertEqual((world["name"], world["imports"]), ("clock", []))
        self.assertEqual([it["key"] for it in world["exports"]], ["example:clock/wall-clock@1.2.0"])
        self.assertEqual([it["name"] for it in interface["functions"]], ["now", "resolution"])
        fields = [("seconds", "u64"), ("nanoseconds", "u32")]
        self.assertEqual([(it["name"], it["type"]) for it in record["kind"]["record"]["fields"]], fields)
        self.assertEqual([it["name"] for it in json.loads(self.answer("json", SERVICES))["worlds"]], ["service", "service-next", "service-bytes"])
        bound = json.loads(self.answer("json", MODULE))
        self.assertEqual([(it["namespace"], it["name"]) for it in bound["packages"]], [("root", "root"), ("example", "services"), ("example", "clock")])
        self.assertEqual(bound["encodings"]["imports"], [{"interface": None, "function": "log", "encoding": "utf8"}])

    def test_wasm_and_back(self):
        for path in CLOCK, FILES, SERVICES:
            self.answer("wasm", path, "-o", "again.wasm")
            self.assertEqual(self.answer("text", "again.wasm"), path.with_suffix(".wit").read_bytes())
            self.assertEqual(self.answer("diff", path, "again.wasm"), b"")

    def test_embed_and_strip(self):
        for world in "service", "service-next", "service-bytes":
            for encoding in [], ["--encoding", "utf16"], ["--encoding=latin1+utf16"]:
                self.answer("embed", STRIPPED, SERVICES, "-w", world, *encoding, "-o", "new.wasm")
                [section] = json.loads(self.answer("sections", "new.wasm", "--json"))
                self.assertEqual(section["world"], world)
                bound = json.loads(self.answer("json", "new.wasm"))
                self.assertEqual(bound["encodings"]["imports"][0]["encoding"], (encoding or ["utf8"])[-1].split("=")[-1])
                self.assertIn(f"  world {world} {{\n", self.answer("text", "new.wasm").decode())
                self.assertEqual(self.answer("strip", "new.wasm"), STRIPPED.read_bytes())
        added = self.answer("embed", STRIPPED, CLOCK)
        self.assertTrue(added.startswith(STRIPPED.read_bytes()))
        self.assertEqual([identity for _, identity, _ in forms.sections(added)][-1], 0)
        self.assertEqual(self.answer("strip", STRIPPED), STRIPPED.read_bytes())
        self.assertEqual(self.answer("sections", STRIPPED), b"")

    def test_sections(self):
        wanted = [contents for _, identity, contents in forms.sections(MODULE.read_bytes()) if identity == 0]
        lengths = [len(it) - 1 - it[0] for it in wanted]
        self.assertEqual([line.split() for line in self.answer("sections", MODULE).decode().splitlines()],
                         [[str(it), str(length), "bytes", "world", name] for it, (length, name) in enumerate(zip(lengths, ["service", "clock"]))])

    def test_a_damaged_section(self):
        data = bytearray(MODULE.read_bytes())
        starts = [end - len(contents) + 1 + contents[0] for end, identity, contents in forms.sections(bytes(data)) if identity == 0]
        # an unknown id of the first section of the second world: its contents, behind the id and a length of one byte, are refused
        data[starts[1] + 8] = 99
        file = self.store("damaged.wasm", bytes(data))
        for word in "sections", "text", "json", "wasm", "strip":
            with self.subTest(word):
                self.refused(f"{file}: byte {starts[1] + 10}: a section has an id that packages don't use",
                             "it may be a whole component, whose world isn't read yet", word, file)

    def test_kinds(self):
        world = self.store("world.wasm", forms.world_in(MODULE.read_bytes(), "component-type:clock"))
        whole, other = self.store("whole.wasm", forms.WHOLE), self.store("other", b"no such")
        (self.room / "folder").mkdir()
        self.assertEqual(self.answer("kind", CLOCK, MODULE, world, whole).decode(), f"{CLOCK}: package\n{MODULE}: module\nworld.wasm: world\nwhole.wasm: component\n")
        self.assertEqual(self.answer("kind", other, world, status=1), b"other: unknown\nworld.wasm: world\n")
        self.refused("nowhere: there is no such file", "", "kind", world, "nowhere", whole)
        self.refused("folder: there is no WIT text in it", "", "kind", world, "folder")
        self.assertEqual(self.answer("kind", "-", stdin=CLOCK.read_bytes()), b"standard input: package\n")

    def test_checks(self):
        wit = self.store("other.wit", b"package a:b;\ninterface i {\n  f: func(x: t);\n}\n")
        shown = self.answer("check", CLOCK, wit, MODULE, status=1).decode().splitlines()
        self.assertEqual([it[:4] for it in shown], ["ok  ", "no  ", "    ", "    ", "ok  "])
        self.assertIn("worlds: clock", shown[0])
        wanted = ["no   other.wit: line 3, column 14: there is no type of this name here", "         f: func(x: t);", " " * 20 + "^"]
        self.assertEqual(shown[1:4], wanted)
        self.refused("nowhere: there is no such file", "", "check", CLOCK, "nowhere")
        self.assertEqual(self.answer("check", "-q", CLOCK, wit, status=1), b"")
        self.assertEqual(self.answer("check", "--quiet", CLOCK), b"")

    def test_lists(self):
        other = self.store("other", b"no such")
        for words, status, count in (
            (["kind", CLOCK, other], 1, 2),
            (["check", CLOCK, other], 1, 2),
            (["sections", MODULE], 0, 2),
            (["sections", STRIPPED], 0, 0),
            (["compat", SERVICES, "-w", "service", "-w", "service=service-bytes"], 1, 2),
        ):
            listed = json.loads(self.answer(*words, "--json", status=status))
            self.assertEqual([list(it) for it in listed], [KEYS[words[0]]] * count)
        self.assertEqual([it["kind"] for it in json.loads(self.answer("kind", "--json", CLOCK, MODULE))], ["package", "module"])
        self.assertEqual([it["ok"] for it in json.loads(self.answer("check", "--json", CLOCK, other, status=1))], [True, False])
        odd = self.store('a"b\\\u00e9\n.wasm', CLOCK.read_bytes())
        self.assertEqual([it["file"] for it in json.loads(self.answer("kind", "--json", odd))], [odd])

    def test_compat(self):
        for pair in "service", "service=service", "service=service-next", "service-bytes":
            self.assertTrue(self.answer("compat", SERVICES, "--world", pair).startswith(b"ok   "))
        for pair in "service=service-bytes", "service-next=service", "service-bytes=service":
            old, new = pair.split("=")
            shown = self.answer("compat", SERVICES, "-w", pair, status=1).decode().splitlines()
            self.assertEqual((len(shown), shown[0]), (2, f"no   {old} -> {new}"))
            self.assertEqual(self.answer("compat", "-q", SERVICES, "-w", pair, status=1), b"")
        [first, second] = json.loads(self.answer("compat", SERVICES, "-w", "service=service-next", "-w", "service=service-bytes", "--json", status=1))
        self.assertEqual((first["old"], first["new"], first["compatible"], first["difference"]), ("service", "service-next", True, None))
        self.assertFalse(second["compatible"])
        self.assertIn("handle", second["difference"])


class Differences(Room):
    def compared(self, old, new):
        """What `diff` answers of two packages, its hunks, and what GNU's diff says of their texts without the head."""
        for file, data in ("old.wasm", old), ("new.wasm", new):
            self.store(file, data)
            self.store(file.replace("wasm", "wit"), self.answer("text", file))
        shown = self.answer("diff", "old.wasm", "new.wasm", status=int(old != new))
        wanted = subprocess.run(["diff", "-u", "old.wit", "new.wit"], capture_output=True, cwd=self.room)
        return shown, shown.split(b"\n", 2)[2] if shown else b"", wanted.stdout.split(b"\n", 2)[2] if wanted.stdout else b""

    @unittest.skipUnless(shutil.which("diff"), "no diff")
    def test_as_diff_has_it(self):
        plain = [f"p{it}" for it in range(60)]
        for changed in [], [30], [0], [59], [0, 59], [10, 12, 14], [10, 20, 30, 40], range(60):
            # Each changed line has one place in either text, so there is one least script.
            other = [f"q{it}" if it in changed else f"p{it}" for it in range(60)]
            shown, hunks, wanted = self.compared(forms.functions(*plain)[0], forms.functions(*other)[0])
            if changed:
                self.assertTrue(shown.startswith(b"--- old.wasm\n+++ new.wasm\n@@ "))
            self.assertEqual(len(hunks), len(wanted))
            if len(changed) < 60:
                self.assertEqual(hunks, wanted)

    @unittest.skipUnless(shutil.which("patch"), "no patch")
    def test_it_can_be_applied(self):
        few, many, even = (forms.functions(*names)[0] for names in (["a", "c", "b"], [f"p{it}" for it in range(40)], [f"p{it}" for it in range(0, 80, 2)]))
        clock, files, services = (it.read_bytes() for it in (CLOCK, FILES, SERVICES))
        for old, new in (clock, files), (files, clock), (files, services), (services, clock), (few, many), (many, few), (many, even), (even, many), (few, files):
            shown, _, _ = self.compared(old, new)
            # As few lines are removed and added as by GNU's diff with --minimal.
            least = subprocess.run(["diff", "-u", "--minimal", "old.wit", "new.wit"], capture_output=True, cwd=self.room).stdout
            self.assertEqual(len(re.findall(rb"(?m)^[-+]", shown)), len(re.findall(rb"(?m)^[-+]", least)))
            subprocess.run(["patch", "-s", "old.wit"], input=shown, check=True, cwd=self.room)
            self.assertEqual((self.room / "old.wit").read_bytes(), (self.room / "new.wit").read_bytes())

    def test_its_status(self):
        self.assertEqual(self.answer("diff", "-q", CLOCK, SERVICES, status=1), b"")
        self.assertEqual(self.answer("diff", "-q", CLOCK, CLOCK), b"")
        self.assertEqual(self.answer("diff", CLOCK, CLOCK), b"")
        self.assertEqual(self.answer("diff", CLOCK, "-", stdin=CLOCK.read_bytes()), b"")
        self.assertEqual(self.answer("diff", CLOCK, SERVICES, "-o", "new.diff", status=1), b"")
        self.assertTrue((self.room / "new.diff").read_bytes().startswith(f"--- {CLOCK}\n+++ {SERVICES}\n".encode()))


class Helps(Room):
    def test_version(self):
        for words in ["--version"], ["-V"], ["version"]:
            self.assertRegex(self.answer(*words).decode(), r"^teasel \d+\.\d+\.\d+ \(wit-component \d+\.\d+\.\d+\)\n$")

    def test_help(self):
        every = self.answer("help").decode()
        for words in ["-h"], ["--help"]:
            self.assertEqual(self.answer(*words).decode(), every)
        self.assertEqual([it.split()[0] for it in every.splitlines() if it.startswith("  ")], WORDS)
        for word in WORDS:
            page = self.answer("help", word).decode()
            self.assertRegex(page, rf"^usage: teasel {word}( .*)?\n\n")
            self.assertIn("  -h, --help\n", page)
            self.assertNotRegex(page, r"(?m) $")
            for words in [word, "--help"], [word, "-h"], [word, CLOCK, "nowhere", "-h"]:
                self.assertEqual(self.answer(*words).decode(), page)

    def test_options_of_each_word(self):
        """Each option that a word's page names is one that the word takes, and no other is."""
        options = ["--output", "--world", "--encoding", "--as", "--json", "--quiet", "--color", "--force", "--most", "--most-read", "--help"]
        for word in WORDS:
            page = self.answer("help", word).decode()
            for option in options:
                error = self.run_(word, option, "--help").stderr.decode()
                named = re.search(rf"(?m)^  (-\w, )?{option}( |$)", page) is not None
                self.assertEqual(named, f"{word} has no option" not in error, (word, option))

    def test_manual_page(self):
        page = self.answer("man")
        for word in WORDS:
            self.assertIn(f".B {word}".encode(), page)
        self.assertNotRegex(page, rb"(?m) $")
        self.store("teasel.1", page)
        for command in "groff -man -ww -z teasel.1", "mandoc -T lint -W error teasel.1", "man --warnings -l -Tutf8 -Z teasel.1":
            command = command.split()
            if shutil.which(command[0]):
                done = subprocess.run(command, capture_output=True, cwd=self.room, env={**os.environ, "MANROFFSEQ": ""})
                self.assertEqual((done.returncode, done.stderr), (0, b""), command)

    def test_completions_of_bash(self):
        script = self.answer("completion", "bash").decode()
        self.store("files.wasm", b"")
        for words, wanted in (
            (["co"], ["compat", "completion"]),
            ([""], WORDS),
            (["text", "--m"], ["--most", "--most-read"]),
            (["text", "--color", ""], ["auto", "always", "never"]),
            (["embed", "--encoding", "utf"], ["utf8", "utf16"]),
            (["completion", ""], ["bash", "zsh", "fish"]),
            (["help", "st"], ["strip"]),
            (["text", "fi"], ["files.wasm"]),
            (["strip", "x", "--"], ["--output", "--force", "--most-read", "--help"]),
        ):
            asked = f'\nCOMP_WORDS=(teasel "$@"); COMP_CWORD={len(words)}; _teasel; printf "%s\\n" "${{COMPREPLY[@]}}"'
            done = subprocess.run(["bash", "-c", script + asked, "bash", *words], capture_output=True, text=True, cwd=self.room)
            self.assertEqual((done.stdout.split(), done.stderr), (wanted, ""), words)

    @unittest.skipUnless(shutil.which("zsh"), "no zsh")
    def test_completions_of_zsh(self):
        # The calls by which a completion answers are put in its place here.
        script = 'compdef() { : }\ncompadd() { shift; print -l -- "$@" }\n_files() { print files }\n_describe() { print -l -- ${(P)2%%:*} }\n'
        script += self.answer("completion", "zsh").decode()
        for words, wanted in (
            (["te"], WORDS),
            (["text", "--"], ["--output", "--as", "--most", "--most-read", "--help"]),
            (["check", "--color", ""], ["auto", "always", "never"]),
            (["completion", ""], ["bash", "zsh", "fish"]),
            (["help", ""], WORDS),
            (["text", "f"], ["files"]),
        ):
            asked = f'\nwords=(teasel "$@"); CURRENT={len(words) + 1}; PREFIX="${{words[-1]}}"; _teasel'
            done = subprocess.run(["zsh", "-f", "-c", script + asked, "zsh", *words], capture_output=True, text=True, cwd=self.room)
            self.assertEqual((done.stdout.split(), done.stderr), (wanted, ""), words)

    @unittest.skipUnless(shutil.which("fish"), "no fish")
    def test_completions_of_fish(self):
        self.store("teasel.fish", self.answer("completion", "fish"))
        for line, wanted in (
            ("teasel co", ["compat", "completion"]),
            ("teasel text --", ["--as", "--help", "--most", "--most-read", "--output"]),
            ("teasel check --color ", ["always", "auto", "never"]),
            ("teasel completion ", ["bash", "fish", "zsh"]),
        ):
            asked = f"source teasel.fish; complete -C '{line}'"
            done = subprocess.run(["fish", "--no-config", "-c", asked], capture_output=True, text=True, cwd=self.room, env={**os.environ, "HOME": str(self.room)})
            self.assertEqual((sorted(it.split("\t")[0] for it in done.stdout.splitlines()), done.stderr), (wanted, ""), line)


if __name__ == "__main__":
    if len(sys.argv) > 1:
        PROGRAM = os.path.abspath(sys.argv.pop(1))
    if not os.access(PROGRAM, os.X_OK):
        sys.exit(f"test: there is no program {PROGRAM}")
    ran = unittest.main(exit=False).result
    failed = len({str(test).split(" (")[0] for test, _ in ran.failures + ran.errors})
    sys.stderr.flush()
    print(f"{ran.testsRun - len(ran.skipped) - failed} passed, {failed} failed")
    sys.exit(failed > 0)
