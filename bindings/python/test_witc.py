"""The samples of this repository, and bad input. With WITC_CALLS in the environment also the calls that this file lists, one a line: the input's file, the file of what
is answered, the status and the words, with a tab between each and the next.

    WITC_LIBRARY=PREFIX/lib/libwitc.so.2 python3 bindings/python/test_witc.py
"""

import concurrent.futures
import copy
import json
import os
import pickle
import re
import subprocess
import sys
import threading
import typing
import unittest

import witc

TOP = os.path.join(os.path.dirname(os.path.abspath(__file__)), "..", "..")
EMPTY = b"\0asm\1\0\0\0"
sys.path.insert(0, os.path.join(TOP, "examples", "python"))


def read(path):
    with open(path, "rb") as file:
        return file.read()


def sample(name):
    return read(os.path.join(TOP, "examples", name))


def leb(number):
    """A number as the binary format spells it."""
    return bytes([number]) if number < 128 else bytes([number % 128 + 128]) + leb(number // 128)


def custom_section(name, data):
    contents = leb(len(name)) + name + data
    return b"\0" + leb(len(contents)) + contents


def tower(levels):
    """A package with a type that is a tuple of two `bool`, or of the type one level below, twice."""
    tuples = b"".join(b"\x01\x6f\x02" + part * 2 for part in [b"\x7f", *map(leb, range(levels - 1))])
    members = leb(levels + 1) + tuples + b"\x04\x00\x01t\x03\x00" + leb(levels - 1)
    interface = b"\x01\x42" + members + b"\x04\x00\x05a:b/i\x05\x00"
    types = b"\x01\x41\x02" + interface
    return b"\0asm\x0d\0\x01\0\x07" + leb(len(types)) + types + b"\x0b\x07\x01\x00\x01i\x03\x00\x00"


def refusal_of(call, *words, **named):
    """The refusal of a call."""
    try:
        call(*words, **named)
    except witc.Refusal as refusal:
        return refusal
    raise AssertionError("not refused")


def parts(refusal):
    return str(refusal), refusal.args, refusal.code, refusal.number, refusal.detail, refusal.detail_number, refusal.offset, refusal.subject, refusal.is_no


class Calls(unittest.TestCase):
    def refused(self, code, subject, call, *words):
        with self.assertRaises(witc.Refusal) as raised:
            call(*words)
        self.assertEqual((raised.exception.code, raised.exception.subject), (code, subject))

    def test_packages(self):
        for name in "clock", "files", "services":
            self.assertEqual(witc.package_text(sample(f"packages/{name}.wasm")).encode(), sample(f"packages/{name}.wit"))

    def test_modules(self):
        module, stripped = sample("modules/service.wasm"), sample("modules/service.stripped.wasm")
        self.assertEqual(witc.module_text(module).encode(), sample("modules/service.wit"))
        for given, wanted in (module, stripped), (stripped, stripped), (EMPTY, EMPTY):
            for kind in bytes, bytearray, memoryview:
                self.assertEqual(witc.module_strip(kind(given)), wanted)

    def test_worlds(self):
        package = sample("packages/services.wasm")
        self.assertIs(witc.compatible(package, "service", b"service-next"), True)
        self.assertIs(witc.compatible(package, "service", "service-bytes"), False)
        self.refused("DIFFERS", "handle", witc.require_compatible, package, "service", "service-bytes")
        for prev, new, name in ("nobody", "service", "nobody"), ("service", "caf\u00e9", "caf\u00e9"), ("", "service", ""):
            self.refused("NO_SUCH_WORLD", name or None, witc.require_compatible, package, prev, new)
        self.refused("NOT_UTF8", None, witc.require_compatible, package, b"\xff", "service")
        self.assertFalse(witc.same_world(package, "service", package, "service-next"))

    def test_worlds_by_themselves(self):
        package = sample("packages/services.wasm")
        for encoding in witc.ENCODINGS:
            for canonical in False, True:
                data = witc.embed(package, "service", encoding, canonical)
                alone = witc.world_package(data)
                self.assertIn("world service {", witc.world_text(data))
                self.assertEqual(witc.embed(alone, "service", encoding, canonical), data)
                self.assertTrue(witc.same_world(package, "service", alone, "service"))
                self.assertEqual(witc.kinds(data) & {"world"}, {"world"})
                self.assertIn("package", witc.kinds(alone))
                made = witc.attach(EMPTY, package, "service", encoding, canonical)
                self.assertEqual(witc.module_sections(made), [data])
                self.assertEqual((witc.module_strip(made), witc.kinds(made)), (EMPTY, {"module"}))
        made = witc.attach(EMPTY, package, "service", "utf8")
        with self.assertRaises(witc.Refusal) as raised:
            witc.attach(made, package, "service")
        self.assertEqual((raised.exception.code, raised.exception.detail, raised.exception.subject), ("CLASH", "EXPORT", "handle"))
        self.refused("NO_SUCH_WORLD", "nobody", witc.embed, package, "nobody")
        self.refused("NO_SUCH_WORLD", "nobody", witc.attach, EMPTY, package, "nobody")
        self.refused("NOT_UTF8", None, witc.embed, package, b"\xff")

    def test_listings(self):
        listing = json.loads(witc.package_json(sample("packages/clock.wasm")))
        package = listing["packages"][listing["package"]]
        self.assertEqual([package[it] for it in ("namespace", "name", "version")], ["example", "clock", "1.2.0"])
        [world], [interface], [record] = listing["worlds"], listing["interfaces"], listing["types"]
        self.assertEqual((world["name"], world["imports"]), ("clock", []))
        self.assertEqual([it["key"] for it in world["exports"]], ["example:clock/wall-clock@1.2.0"])
        self.assertEqual([it["name"] for it in interface["functions"]], ["now", "resolution"])
        fields = [("seconds", "u64"), ("nanoseconds", "u32")]
        self.assertEqual([(it["name"], it["type"]) for it in record["kind"]["record"]["fields"]], fields)
        services = sample("packages/services.wasm")
        self.assertEqual([it["name"] for it in json.loads(witc.package_json(services))["worlds"]], ["service", "service-next", "service-bytes"])
        alone = json.loads(witc.world_json(witc.embed(services, "service-next")))
        world = alone["worlds"][alone["world"]]
        self.assertEqual((world["name"], [it["key"] for it in world["imports"]]), ("service-next", ["log", "now"]))
        bound = json.loads(witc.module_json(witc.attach(EMPTY, services, "service", "utf16")))
        encodings = {side: [(it["interface"], it["function"], it["encoding"]) for it in bound["encodings"][side]] for side in ("imports", "exports")}
        self.assertEqual(encodings, {"imports": [(None, "log", "utf16")], "exports": [(None, "handle", "utf16")]})

    def test_encodings_of_listings(self):
        """Each side of the merged world has its functions, each with the encoding of the section that it came with."""
        def sides(module):
            listed = json.loads(witc.module_json(module))["encodings"]
            return [[(it["interface"], it["function"], it["encoding"]) for it in listed[side]] for side in ("imports", "exports")]

        made = witc.attach(EMPTY, sample("packages/services.wasm"), "service-next", "utf16")
        made = witc.attach(made, sample("packages/clock.wasm"), "clock", "latin1+utf16")
        clock = "example:clock/wall-clock@1.2.0"
        exports = [(None, "handle", "utf16"), (clock, "now", "latin1+utf16"), (clock, "resolution", "latin1+utf16")]
        self.assertEqual(sides(made), [[(None, "log", "utf16"), (None, "now", "utf16")], exports])
        made = witc.attach(EMPTY, sample("packages/files.wasm"), "browser")
        types, folders = "example:files/types@0.3.1", "example:files/folders@0.3.1"
        file = ["[constructor]file", "[method]file.length", "[method]file.read", "[static]file.open"]
        imports = [(types, it, "utf8") for it in file] + [(folders, it, "utf8") for it in ("entries", "watch", "copy", "digest", "closed")]
        self.assertEqual(sides(made), [imports, [(None, "run", "utf8")]])

    def test_whole_listing(self):
        """The listing of a package, byte for byte as the form of listings says."""
        functions = ",".join('{"name":"%s","kind":"freestanding","params":[],"result":0,"external-id":null}' % it for it in ("now", "resolution"))
        fields = '{"name":"seconds","type":"u64"},{"name":"nanoseconds","type":"u32"}'
        wanted = (
            '{"format":1,"packages":[{"namespace":"example","name":"clock","version":"1.2.0","interfaces":[0],"worlds":[0]}],'
            '"worlds":[{"name":"clock","package":0,"imports":[],"exports":[{"key":"example:clock/wall-clock@1.2.0","interface":0,"external-id":null}]}],'
            '"interfaces":[{"name":"wall-clock","package":0,"types":[0],"functions":[' + functions + "]}],"
            '"types":[{"name":"datetime","kind":{"record":{"fields":[' + fields + ']}},"owner":{"interface":0},"external-id":null}],'
        )
        clock = sample("packages/clock.wasm")
        self.assertEqual(witc.package_json(clock), wanted + '"package":0}')
        self.assertEqual(witc.world_json(witc.embed(clock, "clock")), wanted + '"world":0}')

    def test_packages_nested_in_a_world(self):
        """They stand in the order in which the world's imports come to them."""
        made = witc.attach(witc.attach(EMPTY, sample("packages/files.wasm"), "browser"), sample("packages/services.wasm"), "service")
        text = witc.world_text(witc.embed(witc.module_package(made), "root"))
        self.assertEqual(re.findall(r"^package (.*?)[ ;]", text, re.M), ["root:root", "example:clock@1.2.0", "example:files@0.3.1"])
        self.assertEqual(re.findall(r"^  import (.*?)[:@]", text, re.M), ["example", "example", "example", "log"])

    def test_canonical_names(self):
        """A canonical name has its version up to the first number that isn't 0, and the rest behind it."""
        clock = sample("packages/clock.wasm")
        plain, canonical = b"\x00\x1eexample:clock/wall-clock@1.2.0", b"\x02\x1aexample:clock/wall-clock@1\x01\x01\x04.2.0"
        for call, given in (witc.package_bytes, [clock]), (witc.embed, [clock, "clock"]), (witc.attach, [EMPTY, clock, "clock"]):
            for asked in False, True:
                made = call(*given, canonical=asked)
                self.assertEqual((plain in made, canonical in made), (not asked, asked))

    def test_sections(self):
        services, clock = sample("packages/services.wasm"), sample("packages/clock.wasm")
        first, second = witc.embed(services, "service"), witc.embed(clock, "clock", "utf16", True)
        made = witc.attach(EMPTY, services, "service")
        self.assertEqual(made, EMPTY + custom_section(b"component-type:service", first))
        both = witc.attach(made, clock, "clock", "utf16", True)
        self.assertEqual(both, made + custom_section(b"component-type:clock", second))
        self.assertEqual(witc.module_sections(both), [first, second])
        self.assertEqual([witc.module_section(both, number) for number in range(2)], [first, second])
        self.refused("NO_SUCH_SECTION", None, witc.module_section, both, 2)
        self.assertEqual(witc.module_sections(EMPTY + custom_section(b"other", b"abc")), [])
        hollow = EMPTY + custom_section(b"component-type", b"") + custom_section(b"component-type:a", b"abc") + custom_section(b"component-type:b", b"")
        self.assertEqual(witc.module_sections(hollow), [b"", b"abc", b""])
        many = EMPTY + custom_section(b"component-type", bytes(300)) * 300
        self.assertEqual(witc.module_sections(many), [bytes(300)] * 300)
        for number in -1, 2**64:
            self.assertRaises(OverflowError, witc.module_section, both, number)

    def test_texts_with_a_bound(self):
        module, files = sample("modules/service.wasm"), sample("packages/files.wasm")
        world = witc.embed(files, "browser")
        texts = [(witc.package_text, files, sample("packages/files.wit")), (witc.module_text, module, sample("modules/service.wit"))]
        texts.append((witc.world_text, world, witc.world_text(world).encode()))
        for call, data, text in texts:
            for most in len(text), len(text) + 1, 2**64 - 1:
                self.assertEqual(call(data, most).encode(), text)
            for most in 0, 1, len(text) - 1:
                refusal = refusal_of(call, data, most=most)
                self.assertEqual((refusal.code, refusal.offset, refusal.subject, refusal.detail), ("TEXT_TOO_LONG", None, None, 0))
                self.assertIn(f"longer than {most} bytes", str(refusal))
            for most in -1, 2**64:
                self.assertRaises(OverflowError, call, data, most)
            self.assertNotEqual(refusal_of(call, data[:20], 0).code, "TEXT_TOO_LONG")

    def test_texts(self):
        """The package of a text, and of texts that use another."""
        clock, files = sample("packages/clock.wit"), sample("packages/files.wit")
        for name in "clock", "services":
            text = sample(f"packages/{name}.wit")
            for given in text, bytearray(text), text.decode():
                self.assertEqual(witc.texts_package([(f"{name}.wit", given)]), sample(f"packages/{name}.wasm"))
        package = witc.texts_package([("files.wit", files), ("clock.wit", clock)], 1)
        self.assertEqual(witc.package_text(package).encode(), files)
        self.assertTrue(witc.same_world(package, "browser", sample("packages/files.wasm"), "browser"))
        own = b"package example:clock@1.2.0;\n\ninterface hands {\n  use wall-clock.{datetime};\n}\n"
        package = witc.texts_package([(b"a.wit", own), ("clock.wit", clock)])
        self.assertRegex(witc.package_text(package), r"interface hands \{\n  use wall-clock\.\{datetime\};")
        nested = clock.replace(b"package example:clock@1.2.0;", b"package example:clock@1.2.0 {") + b"}\n"
        self.assertEqual(witc.package_text(witc.texts_package([("", files + nested)])).encode(), files)

    def test_texts_refused(self):
        clock, files, count = sample("packages/clock.wit"), sample("packages/files.wit"), "the number of own texts isn't 1 to the number of all texts"
        place = "package a:b;\n// \u00e9\ninterface \u00e9 {}"
        refusals = {
            (23, 0, 54, "files.wit: line 4, column 7: no text has this package"): [[("files.wit", files)]],
            (23, 1, 29, "text 1: line 3, column 11: no token begins here"): [[("clock.wit", clock), ("", place)]],
            (23, 0, 0, "text 0: line 1, column 1: no `package` in this text, nor in another of its folder"): [[("", "")]],
            (24, 1, None, "files.wit and clock.wit begin with two packages"): [[("files.wit", files), ("clock.wit", clock)]],
            (18, 0, None, "text 0 isn't UTF-8"): [[("", b"package a:b; \xff"), ("b", b"\xff")]],
            (18, 1, None, "b.wit isn't UTF-8"): [[("", "package a:b; oh"), ("b.wit", b"\xff")]],
            (18, 1, None, "the name of text 1 isn't UTF-8"): [[("", b"\xff"), (b"\xff", ""), (b"\xff", "")], 9],
            (25, 0, None, count): [[("", b"\xff")], 2],
        }
        for (number, detail, offset, message), given in refusals.items():
            refusal = refusal_of(witc.texts_package, *given)
            self.assertEqual((refusal.number, refusal.detail, refusal.offset, str(refusal)), (number, detail, offset, message))
            self.assertIsNone(refusal.subject)
            self.assertFalse(refusal.is_no)
        for texts, own in ([], None), ([], 0), ([], 1), ([("", clock)], 0), ([("", clock)], 2), ([("", clock)], 2**64 - 1):
            self.refused("BAD_COUNT", None, witc.texts_package, texts, own)
        for own in -1, 2**64:
            self.assertRaises(OverflowError, witc.texts_package, [("", clock)], own)
        for given in 7, None, [1], [("a", "b", "c")], [("a", 7)]:
            self.assertRaises((TypeError, ValueError), witc.texts_package, given)

    def test_damaged_texts(self):
        """Each beginning of a text, and a text with each byte changed: a package or a refusal at a place."""
        text = sample("packages/clock.wit")
        for at in range(len(text)):
            for given in text[:at], text[:at] + bytes([text[at] ^ 1]) + text[at + 1 :], text[:at] + b"\xc3\xa9" + text[at:]:
                try:
                    self.assertEqual(witc.texts_package([("it.wit", given)])[:8], b"\0asm\x0d\0\x01\0")
                except witc.Refusal as refusal:
                    before = given[: refusal.offset].decode()
                    line, column = before.count("\n") + 1, len(before) - before.rfind("\n")
                    self.assertEqual((refusal.code, refusal.detail), ("BAD_TEXT", 0))
                    self.assertTrue(str(refusal).startswith(f"it.wit: line {line}, column {column}: "), str(refusal))

    def test_text_that_never_ends(self):
        """The text of a tower doubles with each level: with 22 it has 54 MB, and with 60 no disk could hold it."""
        for levels in 1, 2, 12:
            length = len("package a:b;\n\ninterface i {\n  type t = ;\n}\n\n") + (len("tuple<bool, bool>") + len("tuple<, >")) * 2 ** (levels - 1) - len("tuple<, >")
            self.assertEqual(len(witc.package_text(tower(levels), length)), length)
            self.assertEqual(refusal_of(witc.package_text, tower(levels), length - 1).code, "TEXT_TOO_LONG")
        self.assertLess(len(tower(22)), 160)
        for levels in 22, 60:
            self.assertEqual(refusal_of(witc.package_text, tower(levels), 100_000).code, "TEXT_TOO_LONG")
            self.assertLess(len(witc.package_json(tower(levels))), 20_000)

    def test_bad_bytes(self):
        package = sample("packages/clock.wasm")
        for given in b"", b"\0", EMPTY, b"no package", package[: len(package) // 2]:
            with self.assertRaises(witc.Refusal) as raised:
                witc.package_text(given)
            self.assertEqual(raised.exception.code, "NO_READING")
            self.assertLessEqual(raised.exception.offset, len(given))
        for call in witc.module_text, witc.module_strip:
            for given in b"", package, EMPTY + b"\1":
                self.assertRaises(witc.Refusal, call, given)

    def test_preambles(self):
        for at in range(8):
            for bit in range(8):
                given = bytearray(EMPTY)
                given[at] ^= 1 << bit
                for call in witc.module_text, witc.module_json, witc.module_package, witc.module_strip, witc.module_sections:
                    self.refused("NOT_A_MODULE", None, call, bytes(given))
                self.assertEqual(witc.kinds(given), set())

    def test_causes(self):
        """Bytes with one fault, those that the golden tests lack."""
        head, clock = b"\0asm\x0d\0\x01\0", sample("packages/clock.wasm")
        faults = {
            "BAD_PREAMBLE": EMPTY,
            "BAD_NUMBER": head + b"\x07\xff\xff\xff\xff\xff\x00",
            "BAD_UTF8": head + b"\x00\x02\x01\xff",
            "UNKNOWN_SECTION": head + b"\x63\x00",
            "BAD_NAME": clock.replace(b"wall-clock@", b"wall_clock@"),
            "TRUNCATED": clock[:-1],
        }
        for cause, given in faults.items():
            refusal = refusal_of(witc.package_text, given)
            self.assertEqual((refusal.code, refusal.detail, refusal.detail_number), ("NO_READING", cause, witc.CAUSES.index(cause)))
            self.assertLessEqual(refusal.offset, len(given))

    def test_order_of_refusals(self):
        """The first package is read before the second, and a name that isn't UTF-8 comes before both."""
        first, second, good = b"", sample("packages/clock.wasm")[:100], sample("packages/services.wasm")
        self.assertEqual(refusal_of(witc.same_world, first, "a", second, "b").offset, 0)
        self.assertEqual(refusal_of(witc.same_world, second, "a", first, "b").offset, 8)
        self.refused("NO_SUCH_WORLD", "nobody", witc.same_world, good, "nobody", first, "b")
        self.refused("NO_SUCH_WORLD", "no-one", witc.same_world, good, "service", good, "no-one")
        self.refused("NO_SUCH_WORLD", "nobody", witc.require_compatible, good, "nobody", "no-one")
        self.refused("NOT_UTF8", None, witc.same_world, first, "a", second, b"\xff")

    def test_attach_looks_at_the_module_first(self):
        """A module that is cut is refused as it would be by itself, whatever would come of it with one more section."""
        package = sample("packages/services.wasm")
        whole = EMPTY + custom_section(b"component-type:clock", witc.embed(sample("packages/clock.wasm"), "clock"))
        for cut in range(len(whole)):
            module = whole[:cut]
            if cut in (0, 8):
                continue
            self.assertEqual(parts(refusal_of(witc.attach, module, package, "service")), parts(refusal_of(witc.module_text, module)), cut)
        length = len(custom_section(b"component-type:service", witc.embed(package, "service")))
        trap = EMPTY + b"\x0a" + leb(length + 3) + b"abc"
        refusal = refusal_of(witc.attach, trap, package, "service")
        self.assertEqual((refusal.code, refusal.offset), ("BAD_MODULE", 8))

    def test_clashes(self):
        """What two sections clash in is the detail, in words in the message, and its name stands last. Other clashes are among the golden tests."""
        services = sample("packages/services.wasm")
        refusal = refusal_of(witc.attach, witc.attach(EMPTY, services, "service"), services, "service")
        self.assertEqual((refusal.code, refusal.detail, refusal.subject), ("CLASH", "EXPORT", "handle"))
        self.assertIn("export", str(refusal))
        self.assertTrue(str(refusal).endswith("handle"))

    def test_other_types(self):
        for given in "text", 7, None, [1]:
            for call in witc.package_text, witc.module_text, witc.module_strip:
                self.assertRaises(TypeError, call, given)
        self.assertRaises(TypeError, witc.require_compatible, b"", 7, "a")

    def test_damaged_bytes(self):
        package = sample("packages/files.wasm")
        calls = [getattr(witc, f"{kind}_{form}") for kind in ("package", "world", "module") for form in ("text", "json")]
        calls += [witc.package_bytes, witc.world_package, witc.module_package, witc.module_strip, witc.module_sections]
        for at in range(len(package)):
            for given in package[:at], package[:at] + bytes([package[at] ^ 0x81]) + package[at + 1 :]:
                for call in calls:
                    try:
                        self.assertGreater(len(call(given)), 0)
                    except witc.Refusal as refusal:
                        self.assertLessEqual(refusal.offset or 0, len(given))

    def test_refusals(self):
        """They are copied and pickled with all that they say, and come out of other processes."""
        package = sample("packages/services.wasm")
        made = witc.attach(EMPTY, package, "service")
        refusals = [
            refusal_of(witc.package_text, b"no package"),
            refusal_of(witc.require_compatible, package, "service", "service-bytes"),
            refusal_of(witc.attach, made, package, "service"),
            refusal_of(witc.embed, package, "nobody"),
            refusal_of(witc.embed, package, "service", "utf-8"),
            refusal_of(witc.package_text, package, 0),
            refusal_of(witc.texts_package, [("a.wit", "package a:b; oh")]),
        ]
        for refusal in refusals:
            self.assertIsInstance(refusal, ValueError)
            self.assertEqual(refusal.code, witc.CODES[refusal.number])
            for other in copy.copy(refusal), copy.deepcopy(refusal), pickle.loads(pickle.dumps(refusal)):
                self.assertIs(type(other), witc.Refusal)
                self.assertEqual(parts(other), parts(refusal))
        with concurrent.futures.ProcessPoolExecutor(1) as pool:
            raised = pool.submit(witc.require_compatible, package, "service", "service-bytes").exception()
        self.assertEqual(parts(raised), parts(refusals[1]))

    def test_codes(self):
        noes = {"OTHER_PACKAGE", "TWICE_WITHOUT_VERSION", "MISSING", "DIFFERS"}
        for number, code in enumerate(witc.CODES):
            refusal = witc.Refusal("no", number)
            self.assertEqual((refusal.code, refusal.is_no, refusal.offset, refusal.subject), (code, code in noes, None, None))
        self.assertEqual((witc.Refusal("new", 99).code, witc.Refusal("new", 4, 77).detail), ("UNKNOWN_99", "UNKNOWN_77"))

    def test_unknown_encodings(self):
        package = sample("packages/services.wasm")
        for encoding in "utf-8", "UTF8", "", None, 0:
            for refusal in refusal_of(witc.embed, package, "service", encoding), refusal_of(witc.attach, EMPTY, package, "service", encoding=encoding):
                self.assertEqual(refusal.code, "BAD_ENCODING")
                for known in witc.ENCODINGS:
                    self.assertIn(known, str(refusal))

    def test_names_and_hints(self):
        for name in witc.__all__:
            self.assertTrue(hasattr(witc, name), name)
            it = getattr(witc, name)
            if callable(it) and not isinstance(it, type):
                self.assertIn("return", typing.get_type_hints(it), name)
                self.assertTrue(it.__doc__, name)
        self.assertTrue(os.path.exists(os.path.join(os.path.dirname(witc.__file__), "py.typed")))

    def test_library_is_looked_at(self):
        """Where there is no library, or one without the calls, the error says what to do."""
        folder = os.path.dirname(os.path.dirname(os.path.abspath(witc.__file__)))
        for library, said in ("/no/such/libwitc.so", "./install PREFIX"), ("libc.so.6", "is older than this package"):
            run = subprocess.run([sys.executable, "-c", "import witc"], env={**os.environ, "WITC_LIBRARY": library, "PYTHONPATH": folder}, capture_output=True, text=True)
            self.assertEqual(run.returncode, 1)
            self.assertIn("LibraryError", run.stderr)
            self.assertIn(library, run.stderr)
            self.assertIn(said, run.stderr)

    def test_threads(self):
        module, text, wrong = sample("modules/service.wasm"), sample("modules/service.wit"), []
        texts, package = [("clock.wit", sample("packages/clock.wit"))], sample("packages/clock.wasm")

        def run():
            wrong.extend(1 for _ in range(20) if witc.module_text(module).encode() != text or witc.texts_package(texts) != package)

        threads = [threading.Thread(target=run) for _ in range(4)]
        for thread in threads:
            thread.start()
        for thread in threads:
            thread.join()
        self.assertEqual(wrong, [])

    @unittest.skipUnless("WITC_CALLS" in os.environ, "no list of calls")
    def test_listed(self):
        from print import told

        for line in read(os.environ["WITC_CALLS"]).splitlines():
            given, wanted, status, *words = map(os.fsdecode, line.split(b"\t"))
            self.assertEqual(told(words, read(given)), (read(wanted), int(status)), words)


if __name__ == "__main__":
    unittest.main()
