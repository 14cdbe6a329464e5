"""WIT packages, worlds and core modules, in binary form and as text, by the library libwitc.so.

    import witc
    print(witc.package_text(open("clock.wasm", "rb").read()))

A call takes bytes, or what has a buffer, and returns str or bytes. It raises witc.Refusal, or MemoryError when out of memory. Threads may call at the same time.

Bound the text of bytes from strangers by `most`, since a text may be millions of times as long as the package.

The library is the file that WITC_LIBRARY names, or the one of the same PREFIX as this package, or the one that the system's loader finds.
"""

from __future__ import annotations

import ctypes
import os
from typing import Any, List, Optional, Sequence, Set, Tuple, Union

__version__ = "0.262.0"
__all__ = [
    "CAUSES", "CLASHES", "CODES", "ENCODINGS", "LibraryError", "Refusal", "attach", "compatible", "embed", "kinds", "module_json", "module_package",
    "module_section", "module_sections", "module_strip", "module_text", "package_bytes", "package_json", "package_text", "require_compatible", "same_world",
    "texts_package", "world_json", "world_package", "world_text",
]  # fmt: skip

Buffer = Union[bytes, bytearray, memoryview]
Name = Union[str, Buffer]

DONE, REFUSED, BAD_ARGUMENT, NO_MEMORY = range(4)
ENCODINGS = {"utf8": 0, "utf16": 1, "latin1+utf16": 2}
CODES = (
    "OK OUT_OF_MEMORY TOO_LARGE CANONICAL_CLASH NO_READING ENCODING_MISSING ENCODING_UNKNOWN_FORMAT ENCODING_VERSION BAD_STRING_ENCODING HISTORICAL NOT_A_MODULE "
    "BAD_MODULE CLASH OTHER_PACKAGE TWICE_WITHOUT_VERSION MISSING DIFFERS NO_SUCH_WORLD NOT_UTF8 BAD_ENCODING NO_SUCH_SECTION TEXT_TOO_LONG NULL_WITH_LENGTH "
    "BAD_TEXT TWO_PACKAGES BAD_COUNT"
).split()
CAUSES = "- TRUNCATED BAD_NUMBER BAD_UTF8 BAD_PREAMBLE UNKNOWN_SECTION UNKNOWN_FORM OUT_OF_SCOPE BAD_NAME NOT_WIT DISAGREE TOO_DEEP TRAILING NO_PACKAGE".split()
CLASHES = "- INTERFACE WORLD IMPORT EXPORT ENCODING".split()
_NO = ("OTHER_PACKAGE", "TWICE_WITHOUT_VERSION", "MISSING", "DIFFERS")
_ABI = 2
_NAME = "libwitc.so.2"
_KIND_UNKNOWN = 128
_NOWHERE = ctypes.c_size_t(-1).value


class LibraryError(ImportError):
    """libwitc.so isn't found, or is no library for this version of the package."""


class Refusal(ValueError):
    """Why a call is refused.

    code     the name of the refusal, one of CODES
    number   its number, as in witc.h
    detail   of NO_READING one of CAUSES, of CLASH one of CLASHES, of BAD_TEXT and TWO_PACKAGES the number of the text, else a number, which is 0 if there
             is nothing to say
    offset   where in the bytes, or in the text, or None
    subject  the name that it is about, or None
    """

    def __init__(self, message: str, number: int, detail: int = 0, offset: Optional[int] = None, subject: Optional[str] = None) -> None:
        super().__init__(message)
        self.message = message
        self.number = number
        self.detail_number = detail
        self.offset = offset
        self.subject = subject

    @property
    def code(self) -> str:
        return _named(CODES, self.number)

    @property
    def detail(self) -> Union[str, int]:
        names = {"NO_READING": CAUSES, "CLASH": CLASHES}.get(self.code)
        return _named(names, self.detail_number) if names else self.detail_number

    @property
    def is_no(self) -> bool:
        """Whether this is the answer no of require_compatible: the worlds are read, and one can't replace the other."""
        return self.code in _NO

    def __reduce__(self) -> Any:
        return type(self), (self.message, self.number, self.detail_number, self.offset, self.subject), self.__dict__


def _named(names: Sequence[str], number: int) -> str:
    """The name of a number. A newer library may have others."""
    return names[number] if number < len(names) else f"UNKNOWN_{number}"


class _Answer(ctypes.Structure):
    _fields_ = [("at", ctypes.c_void_p), ("length", ctypes.c_size_t), ("owner", ctypes.c_void_p)]


class _Why(ctypes.Structure):
    _fields_ = [("offset", ctypes.c_size_t), ("subject", ctypes.c_size_t), ("code", ctypes.c_uint32), ("detail", ctypes.c_uint32)]


class _Text(ctypes.Structure):
    _fields_ = [("at", ctypes.c_char_p), ("length", ctypes.c_size_t), ("name", ctypes.c_char_p), ("name_length", ctypes.c_size_t)]


def _path() -> str:
    """The library's file: the one that is named, or lib/ beside share/witc/witc, or what the loader finds."""
    named = os.environ.get("WITC_LIBRARY")
    beside = os.path.join(os.path.dirname(os.path.abspath(__file__)), "..", "..", "..", "lib", _NAME)
    return named or (beside if os.path.exists(beside) else _NAME)


def _load() -> Any:
    path = _path()
    try:
        return ctypes.CDLL(path)
    except OSError as error:
        advice = "run `./install PREFIX`, and set WITC_LIBRARY to PREFIX/lib/" + _NAME
        raise LibraryError(f"{path} can't be loaded ({error}): {advice}", name=__name__, path=path) from error


_library = _load()
_slice, _flag, _size = (ctypes.c_char_p, ctypes.c_size_t), ctypes.c_uint32, ctypes.c_size_t
_answer, _why = ctypes.POINTER(_Answer), ctypes.POINTER(_Why)


def _function(name: str, result: Any, *given: Any) -> Any:
    """A function of the library. An older one may lack it."""
    try:
        function = getattr(_library, name)
    except AttributeError as error:
        advice = f"it is older than this package, so install libwitc {__version__} or later"
        raise LibraryError(f"{_path()} has no {name}: {advice}", name=__name__, path=_path()) from error
    function.argtypes = given
    function.restype = result
    return function


def _call(name: str, *given: Any) -> Any:
    """A function that takes these, an answer and its numbers."""
    return _function(name, ctypes.c_uint8, *given, _answer, _why)


_abi = _function("witc_abi", ctypes.c_uint32)
if _abi() != _ABI:
    raise LibraryError(f"{_path()} has interface {_abi()}, and this package is for {_ABI}: install both from one version", name=__name__, path=_path())
_free = _function("witc_free", None, _answer)
_kinds = _function("witc_kinds_slice", ctypes.c_uint8, *_slice)
_package_text = _call("witc_package_text_slice", *_slice)
_package_text_within = _call("witc_package_text_within_slice", *_slice, _size)
_package_bytes = _call("witc_package_bytes_slice", *_slice, _flag)
_package_json = _call("witc_package_json_slice", *_slice)
_world_text = _call("witc_world_text_slice", *_slice)
_world_text_within = _call("witc_world_text_within_slice", *_slice, _size)
_world_json = _call("witc_world_json_slice", *_slice)
_world_package = _call("witc_world_package_slice", *_slice)
_module_text = _call("witc_module_text_slice", *_slice)
_module_text_within = _call("witc_module_text_within_slice", *_slice, _size)
_module_json = _call("witc_module_json_slice", *_slice)
_module_package = _call("witc_module_package_slice", *_slice)
_module_strip = _call("witc_module_strip_slice", *_slice)
_module_section = _call("witc_module_section_slice", *_slice, _size)
_module_sections = _call("witc_module_sections_slice", *_slice)
_embed = _call("witc_embed_slices", *_slice, *_slice, _flag, _flag)
_attach = _call("witc_attach_slices", *_slice, *_slice, *_slice, _flag, _flag)
_compat = _call("witc_compat_slices", *_slice, *_slice, *_slice)
_same_world = _call("witc_same_world_slices", *_slice, *_slice, *_slice, *_slice)
_texts_package = _call("witc_texts_package_slice", ctypes.POINTER(_Text), _size, _size)


def _plain(data: Buffer) -> bytes:
    """Bytes that nothing changes: those of a buffer are copied. Text and numbers have none, and are refused with a TypeError."""
    return data if type(data) is bytes else bytes(memoryview(data))


def _name(name: Name) -> bytes:
    return name.encode() if isinstance(name, str) else _plain(name)


def _count(number: int) -> int:
    """A number that the library can be given: ctypes would cut one that is too large, or below 0."""
    if not 0 <= number <= _NOWHERE:
        raise OverflowError(f"{number} is no length, no count and no number of a section")
    return number


def _encoding(name: str) -> int:
    if name not in ENCODINGS:
        raise Refusal(f"no string encoding is called {name!r}: there are {', '.join(ENCODINGS)}", CODES.index("BAD_ENCODING"))
    return ENCODINGS[name]


def _refusal(message: bytes, why: _Why) -> Refusal:
    subject = message[len(message) - why.subject :].decode() if why.subject else None
    return Refusal(message.decode(), why.code, why.detail, None if why.offset == _NOWHERE else why.offset, subject)


def _ask(call: Any, slices: Sequence[bytes], *numbers: int) -> bytes:
    """What a call answers to these bytes and numbers."""
    return _answered(call, *(word for it in slices for word in (it, len(it))), *numbers)


def _answered(call: Any, *words: Any) -> bytes:
    """What a call answers to these words. The answer is freed, also if it is a refusal's message."""
    answer, why = _Answer(), _Why()
    status = call(*words, ctypes.byref(answer), ctypes.byref(why))
    try:
        if status == NO_MEMORY:
            raise MemoryError("out of memory")
        found = ctypes.string_at(answer.at, answer.length) if answer.length else b""
    finally:
        _free(ctypes.byref(answer))
    if status != DONE:
        raise _refusal(found, why)
    return found


def _text(call: Any, within: Any, data: Buffer, most: Optional[int]) -> str:
    """A text, with a bound if there is one."""
    plain = [_plain(data)]
    return (_ask(call, plain) if most is None else _ask(within, plain, _count(most))).decode()


def package_text(package: Buffer, most: Optional[int] = None) -> str:
    """The text of a package. A text of more than `most` bytes is refused (TEXT_TOO_LONG)."""
    return _text(_package_text, _package_text_within, package, most)


def package_json(package: Buffer) -> str:
    """The package as JSON: its packages, worlds, interfaces and types, each by its number."""
    return _ask(_package_json, [_plain(package)]).decode()


def package_bytes(package: Buffer, canonical: bool = False) -> bytes:
    """The package encoded again, with canonical names if you ask for them: bytes that mean the same."""
    return _ask(_package_bytes, [_plain(package)], bool(canonical))


def world_text(world: Buffer, most: Optional[int] = None) -> str:
    """The text of the world that the data of a section carries, with the packages that it uses nested in it; `most` as for package_text."""
    return _text(_world_text, _world_text_within, world, most)


def world_json(world: Buffer) -> str:
    """The same world as JSON, with all that it uses."""
    return _ask(_world_json, [_plain(world)]).decode()


def world_package(world: Buffer) -> bytes:
    """The package of the same world, as bytes."""
    return _ask(_world_package, [_plain(world)])


def module_text(module: Buffer, most: Optional[int] = None) -> str:
    """The text of what the sections of a core module bind together; `most` as for package_text."""
    return _text(_module_text, _module_text_within, module, most)


def module_json(module: Buffer) -> str:
    """The same as JSON, with the string encoding of each function."""
    return _ask(_module_json, [_plain(module)]).decode()


def module_package(module: Buffer) -> bytes:
    """The same as the bytes of the package `root:root`."""
    return _ask(_module_package, [_plain(module)])


def module_strip(module: Buffer) -> bytes:
    """The core module without the sections that carry worlds."""
    return _ask(_module_strip, [_plain(module)])


def texts_package(texts: Sequence[Tuple[Name, Name]], own: Optional[int] = None) -> bytes:
    """The package with which the first `own` WIT texts begin, or all of them if `own` is None. Each is a pair: its name in messages, and the text.

    The other texts are of packages that the own ones use. A text that is refused raises BAD_TEXT: `detail` is its number, from 0, and `offset` is in it.
    """
    plain = [(_name(name), _name(text)) for name, text in texts]
    raw = (_Text * max(1, len(plain)))(*(_Text(text, len(text), name, len(name)) for name, text in plain))
    return _answered(_texts_package, raw, len(plain), len(plain) if own is None else _count(own))


def module_section(module: Buffer, number: int) -> bytes:
    """The data of the section of this number, from 0, among those that carry worlds. NO_SUCH_SECTION past the last one."""
    return _ask(_module_section, [_plain(module)], _count(number))


def module_sections(module: Buffer) -> List[bytes]:
    """The data of each section that carries a world, in order."""
    joined, found, at = _ask(_module_sections, [_plain(module)]), [], 0
    while at < len(joined):
        begin = at + 4
        at = begin + int.from_bytes(joined[at:begin], "little")
        found.append(joined[begin:at])
    return found


def embed(package: Buffer, world: Name, encoding: str = "utf8", canonical: bool = False) -> bytes:
    """The data of a section that carries the package's world of this name. The encoding is one of ENCODINGS."""
    return _ask(_embed, [_plain(package), _name(world)], _encoding(encoding), bool(canonical))


def attach(module: Buffer, package: Buffer, world: Name, encoding: str = "utf8", canonical: bool = False) -> bytes:
    """The core module with one more section, at its end, which carries that world."""
    return _ask(_attach, [_plain(module), _plain(package), _name(world)], _encoding(encoding), bool(canonical))


def require_compatible(package: Buffer, prev: Name, next: Name) -> None:
    """Raises a Refusal if the package's world `next` can't replace its world `prev`: `is_no` holds of it, and `subject` is the first item in the way."""
    _ask(_compat, [_plain(package), _name(prev), _name(next)])


def compatible(package: Buffer, prev: Name, next: Name) -> bool:
    """Whether the package's world `next` can replace its world `prev`. Raises a Refusal if the bytes or a name are bad."""
    try:
        require_compatible(package, prev, next)
        return True
    except Refusal as refusal:
        if not refusal.is_no:
            raise
        return False


def same_world(package: Buffer, world: Name, other: Buffer, other_world: Name) -> bool:
    """Whether a world of one package means exactly what a world of another package does."""
    try:
        _ask(_same_world, [_plain(package), _name(world), _plain(other), _name(other_world)])
        return True
    except Refusal as refusal:
        if refusal.code != "DIFFERS":
            raise
        return False


def kinds(data: Buffer) -> Set[str]:
    """What bytes are: a subset of {"package", "world", "module"}."""
    plain = _plain(data)
    found = _kinds(plain, len(plain))
    if found == _KIND_UNKNOWN:
        raise MemoryError("out of memory, or a list of bindings would get too long")
    return {name for bit, name in ((1, "package"), (2, "world"), (4, "module")) if found & bit}
