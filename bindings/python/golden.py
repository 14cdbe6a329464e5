"""The golden tests of this repository that are about bytes: what is asked, and what the formats answer, as calls of the package `witc` can be asked it.

The lines of crates/cases are described in docs/CASES.md. Their answers come from an implementation of the formats that is independent of this repository, or were
written by hand.
"""

import os
import re

import witc

CASES = os.path.join(os.path.dirname(os.path.abspath(__file__)), "..", "..", "crates", "cases")
ESCAPES = {"n": "\n", "r": "\r", "t": "\t"}
# An error's text, with the code, and what its groups are: the detail or the subject.
ERRORS = (
    (r"no reading", "NO_READING"),
    (r"bad module", "BAD_MODULE"),
    (r"not a core module", "NOT_A_MODULE"),
    (r"missing custom section of name `wit-component-encoding`", "ENCODING_MISSING"),
    (r"custom section `wit-component-encoding` in unknown format", "ENCODING_UNKNOWN_FORMAT"),
    (r"custom section `wit-component-encoding` uses format (?P<detail>\d+) but only 4 is supported", "ENCODING_VERSION"),
    (r"invalid string encoding (?P<detail>0x[0-9a-f]+)", "BAD_STRING_ENCODING"),
    (r"the historical format \d+ is not supported", "HISTORICAL"),
    (r"clash of (?P<detail>\w+) (?P<subject>.*)", "CLASH"),
)


def questions(*words):
    """The lines that begin with one of these words and have bytes: the word, the bytes and the answer."""
    with open(os.path.join(CASES, "stdin"), encoding="utf-8") as asked, open(os.path.join(CASES, "stdout"), encoding="utf-8") as answered:
        for question, answer in zip(asked, answered):
            word, _, given = question.rstrip("\n").partition(" ")
            if word in words and given.startswith("."):
                yield word, bytes.fromhex(given[1:]), answer.rstrip("\n")


def text_of(answer):
    """The text in an answer `text "TEXT"`, or None."""
    match = re.fullmatch(r'text "(.*)"', answer)
    return match and re.sub(r"\\(?:u\{([0-9a-f]+)\}|(.))", lambda it: chr(int(it[1], 16)) if it[1] else ESCAPES.get(it[2], it[2]), match[1])


def refusal_of(answer):
    """The code of an answer `refused TEXT`, with its detail and subject where the text has them; or None."""
    if not answer.startswith("refused "):
        return None
    for pattern, code in ERRORS:
        match = re.fullmatch(pattern, answer[len("refused ") :])
        if match:
            found = match.groupdict()
            detail = found.get("detail")
            return code, int(detail, 0) if detail and detail[0].isdigit() else detail and shouted(detail), found.get("subject")
    raise ValueError(f"no error of this library has the text {answer}")


def shouted(name):
    """A name of Rattle as the package spells it: `BadUtf8` is `BAD_UTF8`."""
    return re.sub(r"(?<!^)(?=[A-Z])", "_", name).upper()


def outcome(call, data):
    """What a call returns, or its refusal."""
    try:
        return call(data)
    except witc.Refusal as refusal:
        return refusal
