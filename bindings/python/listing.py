"""Turns a listing, the JSON that the library makes, into WIT text again, so that tests can compare it with text from elsewhere.

It knows the form of the listing and the grammar of WIT, and nothing of the library. Both texts are compared as words: `words_of` leaves out how lines are broken
and which names are escaped.
"""

import json
import re


def words_of(text):
    """A text as words, with the escapes in its strings undone."""
    strings = []

    def kept(match):
        plain = re.sub(r"\\(?:u\{([0-9a-f]+)\}|(.))", lambda it: chr(int(it[1], 16)) if it[1] else {"n": "\n", "r": "\r", "t": "\t"}.get(it[2], it[2]), match[1])
        strings.append(plain)
        return " STRING "

    plain = re.sub(r'"((?:[^"\\]|\\.)*)"', kept, text).replace("%", "")
    return re.findall(r"[^\s{}()<>,;:=]+|[{}()<>,;:=]", plain), strings


def quoted(text):
    """A string as WIT text spells it, with every character but letters and digits escaped."""
    return '"' + "".join(it if it.isascii() and it.isalnum() else f"\\u{{{ord(it):x}}}" for it in text) + '"'


class Listing:
    """A listing, and the text of its parts."""

    def __init__(self, text):
        self.all = json.loads(text)
        if self.all["format"] != 1:
            raise ValueError("another format")
        self.types, self.interfaces = self.all["types"], self.all["interfaces"]

    def package_path(self, number):
        package = self.all["packages"][number]
        version = f"@{package['version']}" if package["version"] is not None else ""
        return f"{package['namespace']}:{package['name']}", version

    def path(self, number, home):
        """The path of an interface, as it is written in a package."""
        interface = self.interfaces[number]
        if interface["package"] == home:
            return interface["name"]
        package, version = self.package_path(interface["package"])
        return f"{package}/{interface['name']}{version}"

    # ---- types

    def type_name(self, it):
        """A type that is used: a primitive, a name, or what a type without a name is made of."""
        if isinstance(it, str):
            return it
        entry = self.types[it]
        return entry["name"] if entry["name"] is not None else self.structure(entry["kind"])

    def either(self, it):
        return "_" if it is None else self.type_name(it)

    def structure(self, kind):
        [(word, of)] = kind.items()
        if word == "handle":
            [(mode, resource)] = of.items()
            return self.type_name(resource) if mode == "own" else f"borrow<{self.type_name(resource)}>"
        if word == "result":
            parts = [] if of["ok"] is None and of["err"] is None else [self.either(of["ok"])] + ([] if of["err"] is None else [self.type_name(of["err"])])
        elif word == "tuple":
            parts = [self.type_name(it) for it in of["types"]]
        elif word == "map":
            parts = [self.type_name(it) for it in of]
        elif word == "fixed-length-list":
            word, parts = "list", [self.type_name(of[0]), str(of[1])]
        elif word == "type":
            return self.type_name(of)
        else:
            parts = [] if of is None else [self.type_name(of)]
        return f"{word}<{', '.join(parts)}>" if parts else word

    def declaration(self, number, functions):
        """How a type is declared, with the functions that are called on it."""
        entry = self.types[number]
        name, kind, front = entry["name"], entry["kind"], self.external(entry)
        if kind == "resource":
            inside = "".join(self.function(it) for it in functions if number in self.called_on(it))
            return f"{front}resource {name}" + (f" {{ {inside} }}" if inside else ";")
        [(word, of)] = kind.items()
        if word == "record":
            return f"{front}record {name} {{ {self.members(of['fields'], ': ', '')} }}"
        if word == "variant":
            return f"{front}variant {name} {{ {self.members(of['cases'], '(', ')')} }}"
        if word in ("flags", "enum"):
            return f"{front}{word} {name} {{ {''.join(it['name'] + ', ' for it in of['flags' if word == 'flags' else 'cases'])} }}"
        named = f"own<{self.type_name(of['own'])}>" if word == "handle" and "own" in of else self.structure(kind)
        return f"{front}type {name} = {named};"

    def members(self, members, front, behind):
        return "".join(it["name"] + ("" if it["type"] is None else f"{front}{self.type_name(it['type'])}{behind}") + ", " for it in members)

    def external(self, entry):
        return "" if entry.get("external-id") is None else f"@external-id({quoted(entry['external-id'])}) "

    # ---- functions

    def called_on(self, function):
        """The resource that a function is called on, as a list of none or one."""
        kind = function["kind"]
        return [] if isinstance(kind, str) else list(kind.values())

    def function(self, function):
        kind = function["kind"] if isinstance(function["kind"], str) else next(iter(function["kind"]))
        params = function["params"][1:] if kind.endswith("method") else function["params"]
        given = "(" + ", ".join(f"{it['name']}: {self.type_name(it['type'])}" for it in params) + ")"
        result = "" if function["result"] is None else f" -> {self.type_name(function['result'])}"
        if kind == "constructor":
            own = {"handle": {"own": self.called_on(function)[0]}}
            is_own = isinstance(function["result"], int) and self.types[function["result"]]["kind"] == own
            return f"{self.external(function)}constructor{given}{'' if is_own else result}; "
        name = function["name"].rpartition(".")[2] if self.called_on(function) else function["name"]
        words = ("static " if kind.endswith("static") else "") + ("async " if kind.startswith("async") else "")
        return f"{self.external(function)}{name}: {words}func{given}{result}; "

    # ---- interfaces, worlds and packages

    def is_used(self, number):
        """The type of another owner that a type is a name for, or none."""
        entry = self.types[number]
        target = entry["kind"].get("type") if isinstance(entry["kind"], dict) else None
        if not isinstance(target, int) or self.types[target]["name"] is None or self.types[target]["owner"] == entry["owner"]:
            return None
        return target

    def declarations(self, numbers, functions, home):
        """Types of one owner: first those of other interfaces, by the interface, and then those that are declared."""
        uses, text = {}, ""
        for number in numbers:
            target = self.is_used(number)
            if target is None:
                text += self.declaration(number, functions)
            else:
                name, of = self.types[number]["name"], self.types[target]["name"]
                entry = of if name == of else f"{of} as {name}"
                uses.setdefault((self.types[target]["owner"]["interface"], self.external(self.types[number])), []).append(entry)
        front = "".join(f"{external}use {self.path(interface, home)}.{{{', '.join(names)}}}; " for (interface, external), names in uses.items())
        return front + text

    def inside(self, interface, home):
        free = "".join(self.function(it) for it in interface["functions"] if not self.called_on(it))
        return f"{{ {self.declarations(interface['types'], interface['functions'], home)}{free} }}"

    def item(self, word, entry, home):
        """An import or an export of a world."""
        key = entry["key"]
        if "function" in entry:
            return self.external(entry["function"]) + f"{word} {self.function(dict(entry['function'], **{'external-id': None}))}"
        interface = self.interfaces[entry["interface"]]
        front = f"{self.external(entry)}{word} "
        if interface["name"] is None:
            return f"{front}{key}: interface {self.inside(interface, home)}"
        path = self.path(entry["interface"], home)
        return f"{front}{path}; " if ":" in key else f"{front}{key}: {path}; "

    def world(self, world):
        """A world: the interfaces that it imports, its types with the functions that are called on them, its other imports, and its exports."""
        home, imports = world["package"], world["imports"]
        functions = [it["function"] for it in imports if "function" in it]
        text = "".join(self.item("import", it, home) for it in imports if "interface" in it)
        text += self.declarations([it["type"] for it in imports if "type" in it], functions, home)
        text += "".join(self.item("import", it, home) for it in imports if "function" in it and not self.called_on(it["function"]))
        return f"world {world['name']} {{ {text}{''.join(self.item('export', it, home) for it in world['exports'])} }}"

    def package(self, number, is_nested):
        package = self.all["packages"][number]
        inside = "".join(f"interface {self.interfaces[it]['name']} {self.inside(self.interfaces[it], number)} " for it in package["interfaces"])
        inside += "".join(self.world(self.all["worlds"][it]) + " " for it in package["worlds"])
        path = "".join(self.package_path(number))
        return f"package {path} {{ {inside} }} " if is_nested else f"package {path}; {inside}"

    def text(self):
        """The text of the package that the listing is of, or of the world's package with all others nested in it."""
        if "package" in self.all:
            return self.package(self.all["package"], False)
        home = self.all["worlds"][self.all["world"]]["package"]
        return self.package(home, False) + "".join(self.package(number, True) for number in range(len(self.all["packages"])) if number != home)
