"""The calls that are measured, each on its shapes."""
import ast

import forms
import shapes
from programs import on_lines


class Row:
    """One call on one shape. `make` gives for a size the lines that make ready and the line that calls; `checks` is how often the program `cases` tests
    before the call that its value is valid, which is counted with the line and taken off. A call that uses its value up has in `refused` the line of one
    that is refused at once: it tests and frees the same value, and is taken off in place of the tests."""

    def __init__(self, call, shape, title, make, checks=0, refused=None, has_plain=True, inside=None):
        self.call, self.shape, self.title, self.make = call, shape, title, make
        self.checks, self.refused, self.has_plain = checks, refused, has_plain
        self.inside = inside


class Maker:
    """Makes lines; bytes come from the plain program, whose bytes are those of the library (which the first step checks)."""

    def __init__(self, plain):
        self.plain = plain
        self.kept = {}

    def value(self, make, n):
        key = (make, n)
        if key not in self.kept:
            if len(self.kept) > 2:
                self.kept.clear()
            self.kept[key] = make(n)
        return self.kept[key]

    def on_value(self, make, call):
        return lambda n: (["resolve " + self.value(make, n)], call)

    def on_two(self, make, call):
        return lambda n: (["resolve " + self.value(make, n), "other " + self.value(make, n)], call)

    def bytes_of(self, value, call):
        answer = on_lines(self.plain, ["resolve " + value, call])[1]
        if not answer.startswith("bytes ."):
            raise RuntimeError(f"no bytes: {answer[:80]}")
        return bytes.fromhex(answer[7:])

    def on_bytes(self, make, encode, call):
        return lambda n: (["bytes ." + self.bytes_of(self.value(make, n), encode).hex()], call)

    def text_of(self, value, call):
        """The text that a call prints, as a word of a line."""
        answer = on_lines(self.plain, ["resolve " + value, call])[1]
        if not answer.startswith('text "'):
            raise RuntimeError(f"no text: {answer[:80]}")
        return "." + ast.literal_eval(answer[5:]).encode().hex()

    def on_texts(self, make, own):
        """The texts of the packages up to this one."""
        def made(n):
            value = self.value(make, n)
            words = [self.text_of(value, f"print {number} 1 0") for number in range(own + 1)]
            return [f"texts {len(words)} " + " ".join(words)], "read"
        return made

    def module(self, sides):
        """A core module with a section for each world."""
        return forms.module([self.bytes_of(side, "metadata 0 8 0") for side in sides])

    def on_module(self, make, call):
        return lambda n: (["bytes ." + self.module(self.value(make, n)).hex()], call)


MERGE = {"cases": "wit_bind::bindgen::merge_matched", "plain": "*merge::Bindgen::merge*"}


def rows(plain):
    maker = Maker(plain)
    out = []
    for name, (make, title) in shapes.PACKAGES.items():
        own = shapes.OWN.get(name, 0)
        encode, show = f"encode {own} 0", f"print {own} 1 0"
        out.append(Row("encode", name, title, maker.on_value(make, encode), checks=1))
        out.append(Row("decode", name, title, maker.on_bytes(make, encode, "decode")))
        out.append(Row("print", name, title, maker.on_value(make, show), checks=1))
        out.append(Row("check", name, title, maker.on_value(make, "check"), has_plain=False))
        out.append(Row("read_texts", name, title, maker.on_texts(make, own)))
    for name, (make, title) in shapes.WORLDS.items():
        encode = "metadata 0 8 0"
        out.append(Row("metadata::encode", name, title, maker.on_value(make, encode), checks=1))
        out.append(Row("decode_world", name, title, maker.on_bytes(make, encode, "world-text")))
        out.append(Row("same_sense", name, title, maker.on_two(make, "sense w 0 w 0"), checks=2))
    for name in ("records", "tuples", "functions", "resources"):
        make, title = shapes.PACKAGES[name]
        out.append(Row("same_sense", name, title, maker.on_two(make, "sense i 0 i 0"), checks=2))
    for name, (make, title) in shapes.COMPARED.items():
        out.append(Row("semver_check", name, title, maker.on_value(make, "semver 0 1"), refused="semver 0 2"))
    for name, (make, title) in shapes.MODULES.items():
        out.append(Row("metadata::decode", name, title, maker.on_module(make, "stripped")))
        out.append(Row("Bindgen::merge", name, title, maker.on_module(make, "stripped"), inside=MERGE))
    return sorted(out, key=lambda row: ORDER.index(row.call))


ORDER = ["encode", "metadata::encode", "decode", "decode_world", "print", "semver_check", "same_sense", "check", "read_texts", "Bindgen::merge", "metadata::decode"]


def answers_for(row, n):
    """The lines on which both programs have to give the same answers, beside a call's own: the text of what bytes mean."""
    before, call = row.make(n)
    lines = [*before, call]
    if row.call == "decode":
        lines[-1] = "text"
    return lines
