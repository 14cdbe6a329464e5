"""Bytes made to hurt: each function makes about so many of them, of one shape. What takes more than linear time in one of the steps would show here."""
from forms import (FUNC, PREAMBLE, U32, U8, alias, borrow, carried, custom, enum, export_func, export_instance, export_resource, export_type, ext,
                   flags, func, import_func, import_implementing, import_instance, instance, interface, leb, list_of, module, named_types, option_of,
                   outer, package, record, section, slot, tuple_of, typed, world, worlds)

COLLIDING = []      # names whose hashes are equal where they are hashed without a key


def inside(declarations, prints):
    """What stands in an interface: the package's own one where it is printed, and else one that two worlds import."""
    if prints:
        return package([("i", interface([instance(declarations), export_instance("a:b/i", 0)]))])
    return worlds([instance(declarations), import_instance("c:d/i", 0)])


def small_instance():
    return instance([FUNC, export_func("f", 0)])


def filled(size, one):
    """A module of sections, each of which imports what `one` gives for its number."""
    parts, total = [], 0
    while total < size:
        parts.append(carried(f"p{len(parts)}", one(len(parts))))
        total += len(parts[-1]) + 22
    return module(parts)


# ---- worlds and imports

def one_import(size, _prints):
    """n worlds that each import the same interface of one function"""
    return worlds([small_instance(), import_instance("c:d/i", 0)], size // 70)


def big_import(size, _prints):
    """k worlds that each import the same interface of k types"""
    n = int((size / 14) ** 0.5)
    return worlds([instance(named_types(n)), import_instance("c:d/i", 0)], n)


def many_packages(size, _prints):
    """n imports of interfaces of n packages"""
    out = []
    for k in range(size // 44):
        out += [small_instance(), import_instance(f"c:d{k}/i", k)]
    return worlds(out)


def many_versions(size, _prints):
    """n imports of one interface at n versions"""
    out = []
    for k in range(size // 54):
        out += [small_instance(), import_instance(f"c:d/i@0.{k}.0", k)]
    return worlds(out)


def compatible_versions(size, _prints):
    """n imports of one interface at n versions that are the same without their last parts"""
    out = []
    for k in range(size // 54):
        out += [small_instance(), import_instance(f"c:d/i@1.{k}.0", k)]
    return worlds(out)


def labels(size, _prints):
    """n imports of one interface of another package under labels"""
    out = []
    for k in range(size // 40):
        out += [small_instance(), import_implementing(f"x{k}", "c:d/i", k)]
    return worlds(out)


def implements(size, _prints):
    """n imports under labels, each of an interface of its own"""
    out = []
    for k in range(size // 44):
        out += [small_instance(), import_implementing(f"x{k}", f"c:d/i{k}", k)]
    return worlds(out)


def typed_instance():
    return instance([typed(U32), export_type("t", 0), func([("y", slot(1))]), export_func("f", 2)])


def inline(size, _prints):
    """n inline interfaces of a type and a function each"""
    out = []
    for k in range(size // 52):
        out += [typed_instance(), import_instance(f"x{k}", k)]
    return worlds(out)


def both_sides(size, _prints):
    """n interfaces, imported and exported"""
    n = size // 4 // 44
    out = []
    for k in range(2 * n):
        side = import_instance if k < n else export_instance
        out += [small_instance(), side(f"c:d/i{k % n}", k)]
    return worlds(out)


def own_interfaces(size, _prints):
    """k interfaces, each of which uses the one before and so imports all of them"""
    n = int((size / 26) ** 0.5)
    members = []
    for i in range(n):
        out, at = [], 0
        for j in range(i + 1):
            inner = [outer(at - 1) if j else typed(U32), export_type("t", 0)]
            side = import_instance if j < i else export_instance
            out += [instance(inner), side(f"a:b/i{j}", at)]
            at += 1
            if j < i:
                out.append(alias(j, "t"))
                at += 1
        members.append((f"i{i}", interface(out)))
    return package(members)


def uses_chain(size, _prints):
    """n interfaces, each of which uses a type of the one before, imported by two worlds"""
    out, at = [], 0
    for k in range(size // 2 // 62):
        inner = [typed(U32), export_type("t", 0)]
        if k:
            out.append(alias(k - 1, "t"))
            at += 1
            inner[0] = outer(at - 1)
        out += [instance(inner), import_instance(f"c:d/i{k}", at)]
        at += 1
    return worlds(out)


# ---- types and functions of an interface

def aliases(size, _prints):
    """an interface of n types, and n aliases of the last one"""
    n = size // 22
    return worlds([instance(named_types(n)), import_instance("c:d/i", 0)] + [alias(0, f"t{n - 1}")] * n, 1)


def used_types(n, path):
    """An interface of n types under a path, an alias of each, and an interface that uses each."""
    out = [instance(named_types(n)), import_instance(path, 0)] + [alias(0, f"t{k}") for k in range(n)]
    inner = []
    for k in range(n):
        inner += [outer(k + 1), export_type(f"u{k}", 2 * k)]
    return worlds(out + [instance(inner), import_instance("c:d/j", n + 1)], 1)


def aliases_each(size, _prints):
    """an interface of n types, an alias of each, and an interface that uses each"""
    return used_types(size // 50, "c:d/i")


def alias_chain(size, prints):
    """n types, each an alias of the one before"""
    out = [typed(U32), export_type("t0", 0)]
    return inside(out + [export_type(f"t{k}", k) for k in range(1, size // 14)], prints)


def list_chain(size, prints):
    """n lists without a name, each of the one before, and a function of the last: too many levels"""
    n = size // 6
    out = [list_of(U8)] + [list_of(slot(k)) for k in range(n - 1)]
    return inside(out + [func([("x", slot(n - 1))]), export_func("f", n)], prints)


def tower(at, levels, first, second):
    """Tuples, each of twice the one before."""
    out = [tuple_of([first, second])]
    return out + [tuple_of([slot(at + k), slot(at + k)]) for k in range(levels - 1)]


def many_towers(n):
    """Towers of 100 tuples, and a function of each."""
    out = []
    for k in range(n):
        at = len(out) - k
        out += tower(at, 100, bytes([0x7f - k % 13]), bytes([0x7f - k // 13 % 13]))
        out += [func([(f"x{k}", slot(at + 99))]), export_func(f"f{k}", at + 100)]
    return out


def towers(size, prints):
    """towers of 100 tuples, each of twice the one before, and a function of each"""
    return inside(many_towers(size // 1200), prints)


def tower_text(size, prints):
    """one tower of as many tuples as the size has bits: its text is as large as the size and larger"""
    n = size.bit_length() - 3
    return inside(tower(0, n, U8, U8) + [func([("x", slot(n - 1))]), export_func("f", n)], prints)


def tower_many(size, prints):
    """a tower of 60 lists and options, and n functions of its top"""
    out = [list_of(U8)] + [(list_of if k % 2 else option_of)(slot(k)) for k in range(60)]
    out.append(func([("x", slot(60))]))
    return inside(out + [export_func(f"f{k}", 61) for k in range(size // 24)], prints)


def huge_record(size, prints):
    """one record of n fields, and n functions of it"""
    n = size // 40
    out = [record([(f"x{k}", U32) for k in range(n)]), export_type("t", 0)]
    for k in range(n):
        out += [func([(f"y{k}", slot(1))]), export_func(f"f{k}", k + 2)]
    return inside(out, prints)


def huge_tuple(size, prints):
    """a tuple of n parts without a name, and k functions of it"""
    n = size // 3
    out = [tuple_of([U8] * n)]
    for k in range(int(n ** 0.5)):
        out += [func([(f"y{k}", slot(0))]), export_func(f"f{k}", k + 1)]
    return inside(out, prints)


def same_tuples(size, prints):
    """k equal tuples of k parts each"""
    n = int(size ** 0.5) // 2
    return inside([tuple_of([U8] * n)] * n + [FUNC, export_func("f", n)], prints)


def huge_function(size, prints):
    """one function of n parameters"""
    return inside([func([(f"x{k}", U32) for k in range(size // 18)]), export_func("f", 0)], prints)


def flags_and_enum(size, prints):
    """flags and an enum of n names each"""
    n = size // 16
    out = [flags([f"f{k}" for k in range(n)]), export_type("a", 0), enum([f"e{k}" for k in range(n)]), export_type("b", 2)]
    return inside(out, prints)


def unused(size, prints):
    """n definitions that nothing uses"""
    n = size // 8
    return inside([list_of(U8)] * n + [FUNC, export_func("f", n)], prints)


def resources(size, prints):
    """n resources with a method each, the methods in the other order"""
    n = size // 110
    out = [export_resource(f"r{k}") for k in range(n)]
    for k in range(n):
        out += [borrow(k), func([("self", slot(n + 2 * k))])]
    out += [export_func(f"[method]r{k}.f", n + 2 * k + 1) for k in reversed(range(n))]
    return inside(out, prints)


def methods(size, prints):
    """one resource of n methods"""
    out = [export_resource("r"), borrow(0), func([("self", slot(1))])]
    return inside(out + [export_func(f"[method]r.f{k}", 2) for k in range(size // 54)], prints)


def pairs(size, _prints):
    """two versions of 24 levels of records that are all equal trees, whose fields go to others below: almost all pairs of a level meet"""
    levels = 24
    n = max(size // (levels * 2 * 26), 1)
    out = []
    for side in range(2):
        declared = []
        for level in range(levels):
            for k in range(n):
                low = (2 * k, 2 * k + 1) if side == 0 else (3 * k + level, 5 * k + 1)
                parts = [slot(2 * ((level - 1) * n + x % n) + 1) if level else U32 for x in low]
                declared += [record(list(zip("xy", parts))), export_type(f"l{level}k{k}", len(declared))]
        out.append((f"w{side}", world(f"a:b/w{side}", [instance(declared), import_instance(f"c:d/i@1.{side}.0", 0)])))
    return package(out)


# ---- names

def long_path(size, _prints):
    """an interface under a path of a quarter of the bytes, of records that use one another"""
    declared = named_types(size // 60, lambda k: record([("x", slot(2 * k - 1) if k else U32)]))
    return worlds([instance(declared), import_instance("c:d/" + "a" * (size // 4), 0)])


def long_path_uses(size, _prints):
    """n uses of types of an interface under a path of a third of the bytes"""
    return used_types(size // 70, "c:d/" + "a" * (size // 3))


def long_names(size, prints):
    """k functions with names of k letters, and a parameter of one"""
    n = int((size / 2) ** 0.5)
    return inside([func([("p" * n, U32)])] + [export_func("f" * (n - 6) + f"-x{k:04}", 0) for k in range(n)], prints)


def long_parameters(size, prints):
    """k functions whose parameters have names of k letters that differ at the end"""
    n = int(size ** 0.5)
    out = []
    for k in range(n):
        out += [func([("p" * (n - 20) + f"-x{k:04}", U32)]), export_func(f"f{k}", k)]
    return inside(out, prints)


def colliding(size):
    return COLLIDING[:size * 4096 // 1_000_000]


def collide_types(size, prints):
    """types whose names collide in a table that is hashed without a key (at most 4,096 names for each million bytes)"""
    return inside([typed(U32)] + [export_type(x, 0) for x in colliding(size)], prints)


def collide_functions(size, prints):
    """functions whose names collide so"""
    return inside([FUNC] + [export_func(x, 0) for x in colliding(size)], prints)


def collide_imports(size, _prints):
    """two worlds that import functions whose names collide so"""
    return worlds([FUNC] + [import_func(x, 0) for x in colliding(size)])


def collide_paths(size, _prints):
    """two worlds that import interfaces whose names collide so"""
    out = []
    for k, x in enumerate(colliding(size)):
        out += [small_instance(), import_instance(f"c:d/{x}", k)]
    return worlds(out)


def collide_fields(size, prints):
    """a record whose fields' names collide so, and a function whose parameters' names do"""
    pairs_of = [(x, U32) for x in colliding(size)]
    return inside([record(pairs_of), export_type("t", 0), func(pairs_of), export_func("f", 2)], prints)


# ---- frames

def components_nested(size, _prints):
    """component types, each in another"""
    return PREAMBLE + section(7, [b"\x41\x01\x01" * (size // 6) + b"\x41\x00"]) + section(11, [ext("a") + b"\x03\x00\x00"])


def instances_nested(size, _prints):
    """instance types, each in another"""
    body = b"\x41\x01\x01" + b"\x42\x01\x01" * (size // 3) + b"\x42\x00"
    return PREAMBLE + section(7, [body]) + section(11, [ext("a") + b"\x03\x00\x00"])


def counts(size, _prints):
    """counts that promise 4,294,967,295 entries, in each of many instance types"""
    return PREAMBLE + section(7, [interface([instance([typed(b"\x6f" + leb(2 ** 32 - 1))])] * (size // 10))])


def customs(size, _prints):
    """custom sections of one byte"""
    return worlds([], 1) + b"\x00\x01\x00" * (size // 3)


def empty_sections(size, _prints):
    """type sections without a type"""
    return worlds([], 1) + b"\x07\x01\x00" * (size // 3)


# ---- modules

def same_world(size, _prints):
    """n sections of the same world"""
    part = carried("p", [FUNC, import_func("f", 0), import_func("g", 0)])
    return module([part] * (size // (len(part) + 20)))


def imports_twice(size, _prints):
    """a world of n functions, twice"""
    part = carried("p", [FUNC] + [import_func(f"f{k}", 0) for k in range(size // 28)])
    return module([part, part])


def worlds_apart(size, _prints):
    """n sections, each of a world of a package of its own"""
    return filled(size, lambda k: [FUNC, import_func("f", 0)])


def growing(size, _prints):
    """k sections, of which each imports the interfaces of all before and one more"""
    parts, out = [], []
    for k in range(int((size / 20) ** 0.5)):
        out += [small_instance(), import_instance(f"c:d/i{k}", k)]
        parts.append(carried(f"p{k}", out))
    return module(parts)


def grown_package(size, _prints):
    """n sections, of which each imports another interface of one package"""
    return filled(size, lambda k: [small_instance(), import_instance(f"c:d/i{k}", 0)])


def grown_versions(size, _prints):
    """n sections, of which each imports one interface at another version that is the same without its last parts"""
    return filled(size, lambda k: [small_instance(), import_instance(f"c:d/i@1.{k}.0", 0)])


def same_interface(size, _prints):
    """k sections that each import the same interface of k types"""
    n = int((size / 14) ** 0.5)
    return module([carried(f"p{k}", [instance(named_types(n)), import_instance("c:d/i", 0)]) for k in range(n)])


def towers_twice(size, _prints):
    """two sections with the same towers of 100 tuples"""
    out = [instance(many_towers(size // 2400)), import_instance("c:d/i", 0)]
    return module([carried("p", out), carried("q", out)])


def pairs_merged(size, _prints):
    """two sections with 24 levels of tuples whose parts go to others below: many pairs of a level meet"""
    levels = 24
    n = max(size // (levels * 2 * 9), 1)
    parts = []
    for side in range(2):
        out = []
        for level in range(levels):
            for k in range(n):
                low = (2 * k, 2 * k + 1) if side == 0 else (3 * k + level, 5 * k + 1)
                out.append(tuple_of([slot((level - 1) * n + x % n) if level else U32 for x in low]))
        out += [func([("x", slot((levels - 1) * n + k))]) for k in range(n)]
        out += [export_func(f"f{k}", levels * n + k) for k in range(n)]
        parts.append(carried(f"p{side}", [instance(out), import_instance("c:d/i", 0)]))
    return module(parts)


def inline_twice(size, _prints):
    """two sections of n inline interfaces under labels of their own"""
    parts = []
    for side in "xy":
        out = []
        for k in range(size // 120):
            out += [typed_instance(), import_instance(f"{side}{k}", k)]
        parts.append(carried(f"p{side}", out))
    return module(parts)


def long_path_carried(size, _prints):
    """one section of an interface under a path of half the bytes, with functions in the other half"""
    functions = [FUNC] + [export_func(f"f{k}", 0) for k in range(size // 24)]
    return module([carried("p", [instance(functions), import_instance("c:d/" + "a" * (size // 2), 0)])])


def long_path_twice(size, _prints):
    """two sections of one interface under a path of a quarter of the bytes, with functions in the rest"""
    functions = [FUNC] + [export_func(f"f{k}", 0) for k in range(size // 48)]
    out = [instance(functions), import_instance("c:d/" + "a" * (size // 4), 0)]
    return module([carried("p", out), carried("q", out)])


def collide_carried(size, _prints):
    """two sections of functions whose names collide in a table that is hashed without a key"""
    part = carried("p", [FUNC] + [import_func(x, 0) for x in colliding(size)])
    return module([part, part])


def other_sections(size, _prints):
    """custom sections of other names, and one that carries a world"""
    other = custom("n", b"x")
    return module([carried("p", [])]) + other * (size // len(other))


PRINT, COMPAT, BOUND, STRIP = ("print",), ("compat", "w0", "w1"), ("module",), ("strip",)
BOTH = (PRINT, COMPAT)
SHAPES = [
    *((make, BOTH) for make in (one_import, big_import, many_packages, many_versions, compatible_versions, labels, implements, inline, both_sides)),
    (own_interfaces, (PRINT,)), (uses_chain, BOTH), (aliases, (PRINT,)), (aliases_each, (PRINT,)), (alias_chain, BOTH), (list_chain, (PRINT,)),
    (towers, (COMPAT,)), (tower_text, (PRINT,)), (tower_many, BOTH),
    *((make, BOTH) for make in (huge_record, huge_tuple, same_tuples, huge_function, flags_and_enum, unused, resources, methods)),
    (pairs, (COMPAT,)), (long_path, BOTH), (long_path_uses, (PRINT,)), (long_names, BOTH), (long_parameters, BOTH),
    *((make, BOTH) for make in (collide_types, collide_functions, collide_imports, collide_paths, collide_fields)),
    *((make, (PRINT,)) for make in (components_nested, instances_nested, counts, customs, empty_sections)),
    *((make, (BOUND,)) for make in (same_world, imports_twice, worlds_apart, growing, grown_package, grown_versions, same_interface, inline_twice,
                                    long_path_carried, long_path_twice, collide_carried)),
    *((make, (STRIP,)) for make in (towers_twice, pairs_merged, other_sections)),
]
# What no program can do in linear time, and why.
FORCED = {
    (tower_text, PRINT): "the text is larger than the package",
    (tower_many, PRINT): "the text is larger than the package",
    (huge_tuple, PRINT): "the text is larger than the package",
    (pairs, COMPAT): "all pairs that meet are compared, as the contract says",
}
