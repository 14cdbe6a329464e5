"""Values as the words of a line (docs/CASES.md): each function below answers the words of one part, with a space between."""

PRIMITIVES = ("bool", "u8", "u16", "u32", "u64", "s8", "s16", "s32", "s64", "f32", "f64", "char", "string", "error-context")


def text(word):
    """A text as its bytes, or nothing."""
    return "-" if word is None else "." + word.encode().hex()


def many(parts):
    """A list: its count and its entries."""
    return " ".join([str(len(parts)), *parts])


def type_def(name, owner, kind):
    """A type of an owner: `i 0`, `w 0`, or `-`."""
    return f"{text(name)} {owner} - - - {kind}"


def record(fields):
    return "record " + many([f"{text(name)} {ty} -" for name, ty in fields])


def tuple_of(types):
    return "tuple " + many([str(t) for t in types])


def function(name, params, result="-", sort="f"):
    """A function; `sort` is `f`, or `m`, `s` or `c` and its resource."""
    listed = many([f"{text(param)} {ty}" for param, ty in params])
    return f"{text(name)} {sort} {listed} {result} - - -"


def interface(name, package, types, functions):
    """An interface: pairs of a name and a number, and pairs of a name and a function's words."""
    named = many([f"{text(t)} {number}" for t, number in types])
    called = many([f"{text(f)} {words}" for f, words in functions])
    return f"{text(name)} - - {package} {named} {called}"


def import_interface(number):
    """A key and an item of a world."""
    return f"i {number} i {number} - - -"


def item_function(name, words):
    return f"n {text(name)} f {words}"


def item_type(name, number):
    return f"n {text(name)} t {number}"


def world(name, package, imports, exports=()):
    return f"{text(name)} - - {package} {many(list(imports))} {many(list(exports))}"


def package(name, version=None, interfaces=(), worlds=()):
    """A package `a:NAME` with names and numbers of its interfaces and worlds."""
    listed = [many([f"{text(x)} {number}" for x, number in part]) for part in (interfaces, worlds)]
    return f"{text('a')} {text(name)} {text(version)} - {listed[0]} {listed[1]}"


def resolve(packages, interfaces=(), worlds=(), types=()):
    return " ".join(many(list(part)) for part in (packages, interfaces, worlds, types))
