"""The forms of component bytes, written by hand (Binary.md): what bench/hurt.py builds its inputs from."""


def leb(n):
    """An unsigned number, seven bits a byte."""
    out = bytearray()
    while n >= 0x80:
        out.append(n & 0x7f | 0x80)
        n >>= 7
    out.append(n)
    return bytes(out)


def slot(n):
    """A type's index where a primitive could stand: a signed number of 33 bits."""
    out = bytearray()
    while n >= 0x40:
        out.append(n & 0x7f | 0x80)
        n >>= 7
    out.append(n)
    return bytes(out)


PREAMBLE = bytes.fromhex("0061736d0d000100")
MODULE = bytes.fromhex("0061736d01000000")
U8, U32, STRING = b"\x7d", b"\x79", b"\x73"


def name(text):
    data = text if isinstance(text, bytes) else text.encode()
    return leb(len(data)) + data


def ext(text):
    """The name of an import or export."""
    return b"\0" + name(text)


def many(parts):
    return leb(len(parts)) + b"".join(parts)


def typed(definition):
    """A declaration of a type."""
    return b"\x01" + definition


def func(params=(), result=None):
    """A declaration of a function's type: pairs of a name and a value type."""
    listed = many([name(text) + ty for text, ty in params])
    return typed(b"\x40" + listed + (b"\x01\x00" if result is None else b"\x00" + result))


FUNC = func()


def list_of(ty):
    return typed(b"\x70" + ty)


def option_of(ty):
    return typed(b"\x6b" + ty)


def tuple_of(types):
    return typed(b"\x6f" + many(types))


def record(fields):
    return typed(b"\x72" + many([name(text) + ty for text, ty in fields]))


def flags(names):
    return typed(b"\x6e" + many([name(text) for text in names]))


def enum(names):
    return typed(b"\x6d" + many([name(text) for text in names]))


def borrow(index):
    return typed(b"\x68" + leb(index))


def instance(declarations):
    return typed(b"\x42" + many(declarations))


def export_type(text, index):
    return b"\x04" + ext(text) + b"\x03\x00" + leb(index)


def export_resource(text):
    return b"\x04" + ext(text) + b"\x03\x01"


def export_func(text, index):
    return b"\x04" + ext(text) + b"\x01" + leb(index)


def export_instance(text, index):
    return b"\x04" + ext(text) + b"\x05" + leb(index)


def import_func(text, index):
    return b"\x03" + ext(text) + b"\x01" + leb(index)


def import_instance(text, index):
    return b"\x03" + ext(text) + b"\x05" + leb(index)


def import_implementing(label, path, index):
    """An import under a label of an interface that it implements."""
    return b"\x03\x02" + name(label) + b"\x01\x00" + name(path) + b"\x05" + leb(index)


def alias(instance_index, text):
    """A type of an instance of the component type around."""
    return b"\x02\x03\x00" + leb(instance_index) + name(text)


def outer(index):
    """A type of the component type around an instance type."""
    return b"\x02\x03\x02\x01" + leb(index)


def section(ident, items):
    body = many(items)
    return bytes([ident]) + leb(len(body)) + body


def custom(text, data):
    body = name(text) + data
    return b"\0" + leb(len(body)) + body


def world(path, declarations):
    return b"\x41\x02" + typed(b"\x41" + many(declarations)) + b"\x04" + ext(path) + b"\x04\x00"


def interface(declarations):
    return b"\x41" + many(declarations)


def package(members):
    """All component types in one section, and their exports in another."""
    exports = [ext(short) + b"\x03" + leb(k) + b"\x00" for k, (short, _) in enumerate(members)]
    return PREAMBLE + section(7, [declared for _, declared in members]) + section(11, exports)


def worlds(declarations, n=2):
    """Worlds w0, w1, .. of a:b with the same declarations."""
    return package([(f"w{k}", world(f"a:b/w{k}", declarations)) for k in range(n)])


def carried(short, declarations):
    """What a section of a module carries: a world x:SHORT/w, strings in UTF-8."""
    exports = section(11, [ext("w") + b"\x03\x00\x00"])
    return PREAMBLE + custom("wit-component-encoding", b"\4\0") + section(7, [world(f"x:{short}/w", declarations)]) + exports


def module(parts):
    """A module with a section for each."""
    return MODULE + b"".join(custom(f"component-type:{k}", part) for k, part in enumerate(parts))


def named_types(n, definition=lambda k: typed(U32)):
    """n definitions, each exported as t0, t1, ..: slot 2k defines and slot 2k + 1 is named."""
    out = []
    for k in range(n):
        out += [definition(k), export_type(f"t{k}", 2 * k)]
    return out
