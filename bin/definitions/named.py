"""What a definition of `specs/*.antt`, a type of `src/*.rt` or a clause names: each name is found by the lines `use` of
its file."""

import functools
import os
import re
from typing import NamedTuple

from definitions import antt, rust_types
from definitions.antt_names import Names

# What the kit's types have as fields, and what each value of a borrowed type has.
KIT_FIELDS = frozenset("items now entry old new".split())
# Constructors of the kit that have small letters.
KIT_CONSTRUCTORS = frozenset("zero suc true false [] pos negsuc inl inr refl nil fzero fsuc".split())
# What is built in, without a line `use`.
BUILT_IN = frozenset("Prim Unit tt absurd ⊥ ¬ Path Id IsProp IsSet".split())


class Place(NamedTuple):
    """A definition by its file and its name."""

    crate: str
    path: str
    name: str
    line: int


class Definition(NamedTuple):
    """A definition or a type: its first and last line, or those of its parts, with its comment; its constructors or
    fields; the lines of the heads of the modules with parameters round it; and what kind it is of."""

    place: Place
    spans: tuple
    members: tuple
    section: tuple
    kind: str

    @property
    def lines(self):
        return sum(last - first + 1 for first, last in self.spans)


class Kit(NamedTuple):
    """A name of the kit, with the module that has it."""

    module: str
    name: str


class Unknown(NamedTuple):
    """A name that isn't found, with the line that has it."""

    path: str
    line: int
    name: str


class Module(NamedTuple):
    """A whole module by an alias."""

    crate: str
    module: str


class Variants(NamedTuple):
    """The variants of a type of the code, by an alias; of what the kit makes of a type beside them all is told."""

    definition: Definition
    is_strict: bool


class World:
    """The crates of a folder, each file of which is read once."""

    def __init__(self, top):
        self.top = top
        with open(os.path.join(top, "crates.txt"), encoding="utf-8") as file:
            rows = [line.split(":")[0] for line in file if ":" in line and not line.startswith("#")]
        self.crates = rows
        self.unknown = []

    def lines_of(self, path):
        return self.text_of(path).split("\n")

    @functools.lru_cache(maxsize=None)
    def text_of(self, path):
        """The text of a file; None where it isn't there."""
        try:
            with open(os.path.join(self.top, path), encoding="utf-8") as file:
                return file.read()
        except OSError:
            return None

    # ---- files of definitions

    @functools.lru_cache(maxsize=None)
    def file(self, path):
        text = self.text_of(path)
        return None if text is None else antt.File(text)

    @functools.lru_cache(maxsize=None)
    def own(self, crate, path):
        """The definitions of a file, and the constructors of its data types, by their names."""
        found = {}
        for item in self.file(path).items:
            made = self.definition(crate, path, item)
            found[item.name] = made
            if item.kind == "data":
                found.update((name, made) for name in item.members)
        return found

    @functools.lru_cache(maxsize=None)
    def definition(self, crate, path, item):
        place = Place(crate, path, item.name, item.line)
        return Definition(place, ((item.first, item.last),), item.members, item.section, item.kind)

    @functools.lru_cache(maxsize=None)
    def scope(self, crate, path):
        """What the names of a file mean that aren't bound."""
        found = {}
        for use in self.file(path).uses:
            found.update(self.brought(use, path))
        found.update(self.own(crate, path))
        return found

    @functools.lru_cache(maxsize=None)
    def ghost_scope(self, path):
        """What the names of the clauses of a file of code mean."""
        found = {}
        for use in antt.uses_of(re.sub(r"^ *(pub )?use ", "", self.text_of(path), flags=re.M).split("\n")):
            found.update(self.brought(use, path))
        return found

    def brought(self, use, path):
        """What a line `use` brings, by what it is called."""
        parts = use.path.split(".")
        if parts[0] != "Rattle" or parts[1] not in self.crates:
            if not use.names:
                return {use.alias: Kit(use.path, "")}
            return {called: Kit(use.path, name) for name, called in use.names}
        crate, rest = parts[1], parts[3:]
        if rest[0] in ("declared", "contracts"):
            return self.declared(use, crate, rest, path)
        if not use.names:
            return {use.alias: Module(crate, ".".join(rest))}
        found = {called: self.passed(crate, ".".join(rest), name) for name, called in use.names}
        self.missing((name for name, it in found.items() if it is None), use, path)
        return {name: it for name, it in found.items() if it is not None}

    def missing(self, names, use, path):
        for name in names:
            line = next((n for n, it in enumerate(self.lines_of(path), 1) if use.path in it and name in it), 1)
            self.unknown.append(Unknown(path, line, f"{use.path}.{name}"))

    def passed(self, crate, module, name):
        """What a module gives by a name: a definition of its own, or one that it passes on."""
        path = f"crates/{crate}/specs/{module.replace('.', '/')}.antt"
        if self.file(path) is None:
            return None
        own = self.own(crate, path).get(name)
        if own is not None:
            return own
        for use in self.file(path).uses:
            if use.is_public:
                found = self.brought(use, path).get(name)
                if found is not None:
                    return found
        return None

    def declared(self, use, crate, rest, path):
        """What a line `use` brings of the types of the code."""
        at = next((n for n, it in enumerate(rest) if it.startswith("The")), len(rest))
        modules, of_type = rest[1:at], rest[at:]
        if of_type == ["TheConstants"]:
            found = {called: self.type_at(crate, tuple(modules), name) for name, called in use.names}
        else:
            modules, type_name = modules[:-1], modules[-1]
            if of_type[:1] == ["TheOpen"] and len(of_type) > 1:
                type_name = of_type[1].removesuffix("-F")
            if not use.names:
                definition = self.type_at(crate, tuple(modules), type_name)
                found = {use.alias: definition and Variants(definition, of_type == ["TheVariants"])}
            else:
                found = {
                    called: self.of_type(crate, modules, type_name, of_type, name) for name, called in use.names
                }
        self.missing((name for name, it in found.items() if it is None), use, path)
        return {name: it for name, it in found.items() if it is not None}

    def of_type(self, crate, modules, type_name, of_type, name):
        """The type that a name means, which is its own, one of its variants, or what the kit makes of it."""
        if of_type in (["TheOpen"], ["TheViews"]):
            # Types that name each other are opened together.
            type_name = name.removesuffix("-F").removeprefix("out-")
        found = self.type_at(crate, tuple(modules), name if not of_type else type_name)
        is_variant = of_type == ["TheVariants"] or (of_type[:1] == ["TheOpen"] and len(of_type) > 1)
        if found and is_variant and name not in found.members:
            return None
        return found

    # ---- files of code

    @functools.lru_cache(maxsize=None)
    def source(self, path):
        text = self.text_of(path)
        return None if text is None else rust_types.Source(text)

    def source_path(self, crate, modules):
        return f"crates/{crate}/src/{'/'.join(modules) or 'lib'}.rt"

    def type_at(self, crate, modules, name):
        """A type of a module of the code, or one that it passes on."""
        path = self.source_path(crate, modules)
        source = self.source(path)
        if source is None:
            return None
        if name in source.types:
            found = source.types[name]
            members = tuple(it for it, _ in found.members)
            return Definition(Place(crate, path, name, found.line), found.spans, members, (), "type")
        return self.named_type(crate, modules, source.uses[name]) if name in source.uses else None

    def named_type(self, crate, modules, written):
        """The type that a path means in a module of the code: a definition, the kit's, or None."""
        source = self.source(self.source_path(crate, modules))
        parts = written.split("::")
        if len(parts) == 1 and parts[0] in source.types:
            return self.type_at(crate, modules, parts[0])
        if parts[0] in source.uses and source.uses[parts[0]] != written:
            parts = [*source.uses[parts[0]].split("::"), *parts[1:]]
        if parts[0] == "crate":
            return self.type_at(crate, tuple(parts[1:-1]), parts[-1])
        if parts[0] in ("self", "super"):
            around = modules if parts[0] == "self" else modules[:-1]
            return self.type_at(crate, (*around, *parts[1:-1]), parts[-1])
        if parts[0] in self.crates:
            return self.type_at(parts[0], tuple(parts[1:-1]), parts[-1])
        if len(parts) > 1 and self.source(self.source_path(crate, (*modules, parts[0]))):
            return self.type_at(crate, (*modules, *parts[:-1]), parts[-1])
        return Kit("::".join(parts[:-1]), parts[-1]) if len(parts) > 1 else None


class Reading:
    """Follows names: what each definition names, and which names aren't found."""

    def __init__(self, world):
        self.world = world
        self.unknown = []
        self.fields = []
        self.kit = set()

    def names(self, definition, fields=None):
        """The definitions that a definition names; those of these fields alone, if some are given."""
        place = definition.place
        if definition.kind == "type":
            return self.of_type(place, fields)
        scope = self.world.scope(place.crate, place.path)
        item = next(it for it in self.world.file(place.path).items if it.line == place.line)
        names = Names(lambda name: is_constructor(scope, name))
        names.item(item)
        return self.meant(names, scope, place.path, {place.name})

    def of_type(self, place, fields):
        source = self.world.source(place.path)
        type_ = source.types[place.name]
        modules = tuple(place.path.split("/src/")[1].removesuffix(".rt").split("/"))
        modules = () if modules == ("lib",) else modules
        found = []
        for written in source.named(type_, fields):
            target = self.world.named_type(place.crate, modules, written)
            if target is None and type_.kind == "const":
                continue
            self.take(found, target, Unknown(place.path, place.line, written))
        for text, line in type_.ghosts if fields is None else ():
            found += self.clause(text, line, place.path, type_.generics + tuple(it for it, _ in type_.members))
        return found

    def clause(self, text, line, path, bound):
        """What the text of a clause names, where these names are bound."""
        scope = self.world.ghost_scope(path)
        names = Names(lambda name: is_constructor(scope, name))
        names.bind(bound)
        names.span(antt.tokens_of(text.split("\n"), line))
        return self.meant(names, scope, path, ())

    def meant(self, names, scope, path, own):
        self.fields += [Unknown(path, it.line, it.parts[0]) for it in names.fields]
        found = []
        for name in names.found:
            self.take(found, self.target(scope, name, path), Unknown(path, name.line, ".".join(name.parts)))
        return [it for it in found if it.place.name not in own or it.place.path != path]

    def take(self, found, target, unknown):
        """Notes what a name means."""
        if target is None:
            self.unknown.append(unknown)
        elif isinstance(target, Kit):
            self.kit.add(target)
        elif target not in found:
            found.append(target)

    def target(self, scope, name, path):
        """What a name means; None where that isn't found."""
        parts = list(name.parts)
        whole = ".".join(parts)
        if parts[0] in BUILT_IN:
            return Kit("built in", whole)
        found = scope.get(whole) or scope.get(parts[0])
        if found is None and parts[0] not in scope:
            return operator(scope, parts[0])
        rest = parts[1:]
        if isinstance(found, Module) and rest:
            found, rest = self.world.passed(found.crate, found.module, rest[0]), rest[1:]
        if isinstance(found, Variants) and rest:
            if found.is_strict and rest[0] not in found.definition.members:
                return None
            found, rest = found.definition, []
        if isinstance(found, Definition) and rest and rest[0] not in found.members:
            self.fields += [Unknown(path, name.line, it) for it in rest]
        if isinstance(found, Kit) and not found.name:
            return Kit(found.module, ".".join(rest))
        return found if isinstance(found, (Definition, Kit)) else None


def is_constructor(scope, name):
    found = scope.get(name)
    if name == "tt":
        return True
    if isinstance(found, Kit):
        return name in KIT_CONSTRUCTORS or found.name[0].isupper()
    return isinstance(found, Definition) and found.place.name != name


def operator(scope, sign):
    """What an operator means, by one of its signs."""
    for name in scope:
        if "◌" in name and sign in name.split("◌"):
            return scope[name]
    return None
