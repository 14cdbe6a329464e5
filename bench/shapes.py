"""The values that are measured: each function makes one of about n entries, as the words of a `resolve` line."""
from words import (PRIMITIVES, function, import_interface, interface, item_function, item_type, package, record, resolve, tuple_of,
                   type_def, world)

# ---- one interface: its types and functions, where its first type has the number `at`, and the interface `home`


def plain_function(k, is_distinct):
    """A function of two parameters; where all are distinct, no two have the same type."""
    first = f"p{k}" if is_distinct else "p"
    return f"f{k}", function(f"f{k}", [(first, "u32"), ("y", "string")], "u64")


def named(types):
    """The type definitions, and the pairs of names and numbers of those that have a name."""
    return [words for _, words in types], [(name, k) for k, (name, _) in enumerate(types) if name]


def records(n, at, home):
    types = []
    for k in range(n):
        fields = [("x", "u32"), ("y", "string"), ("z", at + k - 1 if k else "u8"), ("w", PRIMITIVES[k % 14])]
        types.append((f"t{k}", type_def(f"t{k}", f"i {home}", record(fields))))
    return types, []


def tuples(n, at, _home):
    types, functions = [], []
    for k in range(n):
        low = at + k - 1 if k % 90 else "u8"
        others = [PRIMITIVES[k // d % 14] for d in (1, 14, 196)]
        types.append((None, type_def(None, "-", tuple_of([low, *others]))))
        if k % 90 == 89 or k == n - 1:
            name = f"f{len(functions)}"
            functions.append((name, function(name, [("x", at + k)])))
    return types, functions


def lists(n, at, _home):
    types = [(None, type_def(None, "-", "list u8")) for _ in range(n)]
    return types, [(f"f{k}", function(f"f{k}", [("x", at + k)])) for k in range(n)]


def functions(n, _at, _home):
    return [], [plain_function(k, True) for k in range(n)]


def one_type(n, _at, _home):
    return [], [plain_function(k, False) for k in range(n)]


def resources(n, at, home):
    q = n // 4
    types = [(f"r{k}", type_def(f"r{k}", f"i {home}", "resource")) for k in range(q)]
    types += [(None, type_def(None, "-", f"own {at + k}")) for k in range(q)]
    types += [(None, type_def(None, "-", f"borrow {at + k}")) for k in range(q)]
    called = []
    for k in reversed(range(q)):
        name = f"[constructor]r{k}"
        called.append((name, function(name, [], at + q + k, f"c {at + k}")))
        name = f"[method]r{k}.f"
        called.append((name, function(name, [("self", at + 2 * q + k)], "-", f"m {at + k}")))
    return types, called


def alone(members):
    """A package of that interface."""
    def made(n):
        types, called = members(n, 0, 0)
        words, names = named(types)
        return resolve([package("b", None, [("i", 0)])], [interface("i", 0, names, called)], (), words)
    return made


def and_another(packages, worlds):
    """A world of another package besides, without imports and exports: a comparison with it is refused at once."""
    packages.append(package("other", None, (), [("w", len(worlds))]))
    worlds.append(world("w", len(packages) - 1, ()))


def versions(members):
    """The interface of half the size in two versions of a package, and a world of each that imports it."""
    def made(n):
        packages, interfaces, worlds, types = [], [], [], []
        for k, version in enumerate(("1.0.0", "1.1.0")):
            own, called = members(n // 2, len(types), k)
            words, names = named(own)
            interfaces.append(interface("i", k, [(x, t + len(types)) for x, t in names], called))
            types += words
            worlds.append(world("w", k, [import_interface(k)]))
            packages.append(package("b", version, [("i", k)], [("w", k)]))
        and_another(packages, worlds)
        return resolve(packages, interfaces, worlds, types)
    return made


# ---- several interfaces


def islands(n):
    """Interfaces of ten records each, of which none uses another."""
    types, interfaces = [], []
    for i in range(n // 10):
        at = len(types)
        for k in range(10):
            types.append(type_def(f"t{k}", f"i {i}", record([("x", at + k - 1 if k else "u32"), ("y", "string")])))
        called = [("f", function("f", [("x", at + 9)]))]
        interfaces.append(interface(f"i{i}", 0, [(f"t{k}", at + k) for k in range(10)], called))
    return resolve([package("b", None, [(f"i{i}", i) for i in range(len(interfaces))])], interfaces, (), types)


def chained(n):
    """Interfaces of ten aliases each, of which one is of a type of the interface before: (interfaces, types)."""
    types, interfaces = [], []
    for i in range(n // 10):
        at = len(types)
        for k in range(10):
            of = at - 10 if k == 0 and i else "u32"
            types.append(type_def(f"t{k}", f"i {i}", f"alias {of}"))
        interfaces.append(interface(f"i{i}", 0, [(f"t{k}", at + k) for k in range(10)], []))
    return interfaces, types


def foreign_world(n):
    """A world that imports all interfaces of another package."""
    interfaces, types = chained(n)
    count = len(interfaces)
    packages = [package("b", None, [(f"i{i}", i) for i in range(count)]), package("d", None, (), [("w", 0)])]
    return resolve(packages, interfaces, [world("w", 1, [import_interface(i) for i in range(count)])], types)


# ---- worlds


def one_world(imports, exports=(), types=()):
    return resolve([package("b", None, (), [("w", 0)])], (), [world("w", 0, imports, exports)], types)


def world_records(n):
    """A world of records, each of the one before, and functions of them."""
    h = n // 2
    types = [type_def(f"t{k}", "w 0", record([("x", k - 1 if k else "u8"), ("y", "u8")])) for k in range(h)]
    imports = [item_type(f"t{k}", k) for k in range(h)]
    imports += [item_function(f"f{k}", function(f"f{k}", [("x", k)])) for k in range(h)]
    return one_world(imports, (), types)


def world_of(n, is_distinct):
    sides = ([], [])
    for k in range(n):
        sides[k % 2].append(item_function(*plain_function(k, is_distinct)))
    return one_world(sides[1], sides[0])


def world_functions(n):
    return world_of(n, True)


def world_one_type(n):
    return world_of(n, False)


def many_worlds(worlds):
    listed = [(f"w{i}", i) for i in range(len(worlds))]
    return resolve([package("b", None, (), listed)], (), worlds, ())


def worlds(n):
    imports = [item_function(*plain_function(k, True)) for k in range(10)]
    return many_worlds([world(f"w{i}", 0, imports) for i in range(n // 10)])


def small_worlds(n):
    a, b = item_function("a", function("a", [])), item_function("b", function("b", []))
    return many_worlds([world(f"w{i}", 0, [a], [b]) for i in range(n // 2)])


def two_worlds(n):
    imports = [item_function(*plain_function(k, True)) for k in range(1, n // 2, 2)]
    exports = [item_function(*plain_function(k, True)) for k in range(0, n // 2, 2)]
    packages = [package("b", None, (), [("w0", 0), ("w1", 1)])]
    worlds = [world(f"w{k}", 0, imports, exports) for k in range(2)]
    and_another(packages, worlds)
    return resolve(packages, (), worlds, ())


# ---- modules: the two worlds whose sections a module carries, each as a `resolve` line and the number of its world


def two_sides(n, count, members):
    """Two worlds of packages of their own, which import `count` interfaces each of a third one, half of them common."""
    sides = []
    for name, first in (("p", 0), ("q", count // 2)):
        interfaces, types = [], []
        for i in range(count):
            own, called = members(n // count, len(types), i)
            words, names = named(own)
            interfaces.append(interface(f"i{first + i}", 0, [(x, t + len(types)) for x, t in names], called))
            types += words
        packages = [package("b", None, [(f"i{first + i}", i) for i in range(count)]), package(name, None, (), [("w", 0)])]
        imports = [import_interface(i) for i in range(count)]
        sides.append(resolve(packages, interfaces, [world("w", 1, imports)], types))
    return sides


def module_tens(n):
    return two_sides(n // 2, n // 20, functions)


def module_ones(n):
    return two_sides(n // 2, n // 2, functions)


def module_records(n):
    return two_sides(n // 2, n // 20, records)


# ---- what they are called, in a table and by --shape

PACKAGES = {
    "records": (alone(records), "records, each of the one before"),
    "tuples": (alone(tuples), "tuples without a name, each of the one before"),
    "lists": (alone(lists), "lists without a name, and a function for each"),
    "functions": (alone(functions), "functions, no two of one type"),
    "one-type": (alone(one_type), "functions of one type"),
    "resources": (alone(resources), "resources, with a constructor and a method each"),
    "islands": (islands, "records in interfaces of ten"),
    "foreign-world": (foreign_world, "a world that imports interfaces of another package"),
    "world-records": (world_records, "a world of records and of functions of them"),
    "world-functions": (world_functions, "a world of functions"),
    "worlds": (worlds, "worlds of ten functions"),
    "small-worlds": (small_worlds, "worlds of two functions"),
}
WORLDS = {name: PACKAGES[name] for name in ("foreign-world", "world-records", "world-functions")}
WORLDS["world-one-type"] = (world_one_type, "a world of functions of one type")
COMPARED = {name: (versions(make), PACKAGES[name][1] + ", in two versions") for name, make in
            (("records", records), ("tuples", tuples), ("functions", functions), ("resources", resources))}
COMPARED["two-worlds"] = (two_worlds, "two worlds of functions")
MODULES = {
    "tens": (module_tens, "functions in interfaces of ten, half of them in both worlds"),
    "ones": (module_ones, "functions, each in an interface of its own, half of them in both worlds"),
    "record-tens": (module_records, "records in interfaces of ten, half of them in both worlds"),
}
# The package that is encoded and printed.
OWN = {"foreign-world": 1}
