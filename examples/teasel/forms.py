"""Bytes for the tests of `teasel`, written here by the formats of core modules and components."""

CORE = b"\0asm\1\0\0\0"
COMPONENT = b"\0asm\x0d\0\1\0"

# A whole component, without imports and exports, which has a core module in it.
WHOLE = bytes.fromhex(
    "0061736d0d00010001410061736d0100000001090160047f7f7f7f017f020100030201000503010001071902066d656d6f727902000c636162695f7265616c6c6f6300000a05010300000b020401"
    "000000060c0100020100066d656d6f727900320e636f6d706f6e656e742d6e616d65010b00020100066d656d6f7279010900110100046d61696e010900120100046d61696e"
)


def number(value):
    """A number as both formats spell it, seven bits a byte."""
    out = bytearray()
    while value >= 128:
        out.append(value % 128 + 128)
        value //= 128
    return bytes(out) + bytes([value])


def name(text):
    return number(len(text)) + text.encode()


def listed(parts):
    return number(len(parts)) + b"".join(parts)


def section(identity, contents):
    return bytes([identity]) + number(len(contents)) + contents


def sections(data):
    """The sections behind the preamble: the place at which each ends, its id and its contents."""
    at = 8
    while at < len(data):
        identity, length, shift = data[at], 0, 0
        at += 1
        while True:
            byte = data[at]
            length |= (byte & 127) << shift
            at, shift = at + 1, shift + 7
            if byte < 128:
                break
        yield at + length, identity, data[at : at + length]
        at += length


def world_in(module, title):
    """The data of the module's custom section of this name."""
    start = name(title)
    return next(contents[len(start) :] for _, identity, contents in sections(module) if identity == 0 and contents.startswith(start))


def interface(key, declarations):
    """The package a:b with one interface, as the instance type that these declarations make."""
    instance = b"\x42" + listed(declarations)
    outer = b"\x41" + listed([b"\1" + instance, b"\4\0" + name(f"a:b/{key}") + b"\5\0"])
    return COMPONENT + section(7, listed([outer])) + section(11, listed([b"\0" + name(key) + b"\3\0\0"]))


def functions(*names):
    """The package of an interface whose functions have these names, no parameter and no result, and the package's text, which ends with an empty line."""
    declarations = [b"\1\x40\0\1\0"] + [b"\4\0" + name(it) + b"\1\0" for it in names]
    return interface("i", declarations), "package a:b;\n\ninterface i {\n" + "\n".join(f"  {it}: func();\n" for it in names) + "}\n\n"


def tower(levels):
    """A package of one function whose result is an unnamed tuple of two tuples, each of two tuples, and so on, and the number of bytes of its text."""
    declarations = [b"\1\x6f" + listed([b"\x7d", b"\x7d"])]
    declarations += [b"\1\x6f" + listed([number(it), number(it)]) for it in range(levels - 1)]
    declarations += [b"\1\x40\0\0" + number(levels - 1), b"\4\0" + name("f") + b"\1" + number(levels)]
    length = len("u8")
    for _ in range(levels):
        length = len("tuple<, >") + 2 * length
    return interface("i", declarations), len("package a:b;\n\ninterface i {\n  f: func() -> ;\n}\n\n") + length
