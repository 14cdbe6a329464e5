"""The golden tests that are about bytes, asked of the package `witc`; and listings, turned into text and compared with the same answers.

    WITC_LIBRARY=PREFIX/lib/libwitc.so.2 python3 bindings/python/test_golden.py
"""

import json
import unittest

import witc
from golden import outcome, questions, refusal_of, shouted, text_of
from listing import Listing, words_of

CALLS = {"text": witc.package_text, "world-text": witc.world_text, "bound": witc.module_text, "stripped": witc.module_strip}
LISTINGS = {"text": witc.package_json, "world-text": witc.world_json, "bound": witc.module_json}


class Golden(unittest.TestCase):
    def is_refused(self, found, answer):
        """Whether a refusal is the one that the answer says. What the answer leaves open isn't compared."""
        code, detail, subject = refusal_of(answer)
        self.assertIsInstance(found, witc.Refusal, answer)
        self.assertEqual((found.code, found.subject), (code, subject))
        if detail is not None:
            self.assertEqual(found.detail, detail)
        if subject is not None:
            self.assertTrue(str(found).endswith(subject))
        if code == "CLASH":
            self.assertIn(detail.lower(), str(found))
        self.assertEqual(found.offset is not None, code in ("NO_READING", "BAD_MODULE"))
        self.assertFalse(found.is_no)

    def test_texts(self):
        count = 0
        for word, data, answer in questions("text", "world-text", "bound"):
            with self.subTest(word=word, data=data.hex()):
                found, wanted = outcome(CALLS[word], data), text_of(answer)
                if wanted is None:
                    self.is_refused(found, answer)
                elif word == "world-text":
                    # The answer is the text of the world's package alone, and the call nests the others behind it.
                    self.assertTrue(found == wanted or found.startswith(wanted + "package "))
                else:
                    self.assertEqual(found, wanted)
                count += 1
        self.assertGreater(count, 500)

    def test_listings(self):
        count = 0
        for word, data, answer in questions("text", "world-text", "bound"):
            with self.subTest(word=word, data=data.hex()):
                found, wanted = outcome(LISTINGS[word], data), text_of(answer)
                if wanted is None:
                    self.is_refused(found, answer)
                    continue
                listing = Listing(found)
                (words, strings), (wanted_words, wanted_strings) = words_of(listing.text()), words_of(wanted)
                if word == "world-text":
                    words, strings = words[: len(wanted_words)], strings[: len(wanted_strings)]
                self.assertEqual((words, strings), (wanted_words, wanted_strings))
                self.owners_are_right(listing.all)
                count += 1
        self.assertGreater(count, 300)

    def owners_are_right(self, listing):
        """A type with a name is owned by the interface or the world that lists it, and one without a name by nothing."""
        owned = {}
        for number, interface in enumerate(listing["interfaces"]):
            owned.update((it, {"interface": number}) for it in interface["types"])
        for number, world in enumerate(listing["worlds"]):
            owned.update((it["type"], {"world": number}) for it in world["imports"] if "type" in it)
        for number, entry in enumerate(listing["types"]):
            self.assertEqual(entry["owner"], owned.get(number))
            self.assertEqual(entry["owner"] is None, entry["name"] is None)

    def test_readings(self):
        causes = set()
        for _, data, answer in questions("decode", "decode-at"):
            with self.subTest(data=data.hex()):
                found = outcome(witc.package_json, data)
                word, *rest = answer.split(" ")
                if word == "resolved":
                    listing = json.loads(found)
                    self.assertEqual([listing["package"], len(listing["types"])], [int(it) for it in rest])
                elif word == "no-reading":
                    self.assertEqual((found.code, found.detail), ("NO_READING", shouted(rest[0])))
                    causes.add(found.detail)
                    if len(rest) == 2:
                        self.assertEqual(found.offset, int(rest[1]))
        self.assertGreater(len(causes), 6)

    def test_modules_stripped(self):
        count = 0
        for _, data, answer in questions("stripped"):
            with self.subTest(data=data.hex()):
                found = outcome(witc.module_strip, data)
                if answer.startswith("refused "):
                    self.is_refused(found, answer)
                else:
                    self.assertEqual(found, data if answer == "nothing" else bytes.fromhex(answer.partition(" .")[2]))
                count += 1
        self.assertGreater(count, 100)

    def test_refused_sections(self):
        """A section that has no reading is found by asking each, one by one."""
        count = 0
        for _, data, answer in questions("refused-section"):
            with self.subTest(data=data.hex()):
                found = outcome(witc.module_text, data)
                if isinstance(found, witc.Refusal) and found.code == "NO_READING":
                    number = 0
                    while not isinstance(outcome(witc.world_text, witc.module_section(data, number)), witc.Refusal):
                        number += 1
                    self.assertEqual(answer, f"number {number}")
                    count += 1
        self.assertGreater(count, 2)


if __name__ == "__main__":
    unittest.main()
