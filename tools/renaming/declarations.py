"""What a checkout declares, and what each name in it means."""
import pathlib

from kit import dependencies

from .antt_syntax import AnttFile
from .lexing import antt_tokens
from .rust_syntax import RustFile

KIT = pathlib.Path("/opt/rattle/rattle")
HEAD = "Rattle"
# The crates of which the kit's standard library is made.
STANDARD = ("core", "std_alloc", "std_collections", "std_heap")
# The folders of what is generated of a crate's Rust declarations.
GENERATED = ("declared", "contracts")


class Symbol:
    """A declared thing: its kind, crate, name, where it is declared, and of what it is a member. `new` is the name that it gets."""

    def __init__(self, kind, crate, name, module=None, item=None, owner=None):
        self.kind, self.crate, self.name, self.module, self.item, self.owner = kind, crate, name, module, item, owner
        self.members = {}
        self.new = None
        self.traits = []

    @property
    def new_name(self):
        """The name that it has afterwards."""
        return self.new or self.name

    def add(self, symbol):
        """Adds a member."""
        self.members.setdefault(symbol.name, []).append(symbol)

    def where(self):
        """Its crate, the types of which it is a member, and its name."""
        return f"{self.owner.where()}/{self.name}" if self.owner else f"{self.crate}/{self.name}"


class RustModule:
    """A module of a crate: its source, the names that it declares and imports, and its folder of submodules."""

    def __init__(self, checkout, crate, path, file):
        self.checkout, self.crate, self.path, self.file = checkout, crate, path, file
        self.source = RustFile(file.read_text())
        self.symbol = Symbol("module", crate, path[-1] if path else crate, self)
        self.names, self.children, self.impls = {}, {}, []
        self.ghosts = None

    def declare(self):
        """Makes the symbols of its items."""
        for item in self.source.items:
            if item.kind == "impl":
                self.impls.append(item)
                continue
            if item.kind == "ghost":
                continue
            symbol = Symbol(item.kind, self.crate, item.name, self, item)
            item.symbol = symbol
            self.names.setdefault(item.name, []).append(symbol)
            members = [("field", one.name, one) for one in item.fields if one.at is not None] + [("variant", one.name, one) for one in item.variants]
            members += [("method" if one.kind == "fn" else one.kind, one.name, one) for one in item.members]
            for kind, name, one in members:
                member = Symbol(kind, self.crate, name, self, one, symbol)
                one.symbol = member
                symbol.add(member)
                if kind == "variant":
                    for field in one.fields:
                        if field.at is not None:
                            field.symbol = Symbol("field", self.crate, field.name, self, field, member)
                            member.add(field.symbol)

    def import_names(self):
        """Binds what it imports, as far as that is found; says whether something new was."""
        changed = False
        for use in self.source.uses:
            if use.name in ("*", "_"):
                continue
            found = self.checkout.rust_path(self, [self.source.tokens[at].text for at in use.path])[-1]
            for symbol in found:
                known = self.names.setdefault(use.name, [])
                if symbol not in known:
                    known.append(symbol)
                    changed = True
        return changed

    def implement(self):
        """Gives the members of its `impl` blocks to their types."""
        for item in self.impls:
            item.owner = self.checkout.rust_type_symbol(self, item.self_type)
            item.trait_symbol = self.checkout.rust_type_symbol(self, item.trait) if item.trait else None
            for one in item.members:
                kind = "method" if one.kind == "fn" else one.kind
                one.symbol = Symbol(kind, self.crate, one.name, self, one, item.owner)
                one.symbol.trait = item.trait_symbol
                one.symbol.of_trait = item.trait is not None
                if item.owner:
                    item.owner.add(one.symbol)
                    if item.trait_symbol and item.trait_symbol not in item.owner.traits:
                        item.owner.traits.append(item.trait_symbol)


class AnttModule:
    """A file of definitions or proofs, and the names that it declares and imports. `path` is that of its imports, as `Rattle.crate.specs.Name`."""

    def __init__(self, checkout, crate, path, file, text=None):
        self.checkout, self.crate, self.path, self.file = checkout, crate, path, file
        text = file.read_text() if text is None else text
        self.source = AnttFile(text, antt_tokens(text))
        self.symbol = Symbol("file", crate, path[-1], self)
        self.declared, self.names, self.aliases = {}, None, {}
        self.declare()

    def text(self, at):
        return self.source.tokens[at].text

    def where(self):
        """Its path as an entry of the table has it."""
        return "/".join(self.path[1:])

    def declare(self):
        """Makes the symbols of what it declares."""
        for one in self.source.declarations:
            symbol = Symbol(one.kind, self.crate, self.text(one.at), self, one)
            one.symbol = symbol
            if one.outer is None:
                self.declared.setdefault(symbol.name, symbol)
            for at, type in one.fields:
                kind = "field" if one.kind == "record" else "constructor"
                member = Symbol(kind, self.crate, self.text(at), self, (at, type), symbol)
                symbol.add(member)
                if kind == "constructor":
                    self.declared.setdefault(member.name, member)

    def scope(self):
        """What each name means in the file; None where it is none of this checkout's."""
        if self.names is None:
            self.names = {}
            for one in self.source.imports:
                space = self.checkout.space([self.text(at) for at in one.path])
                for at, known in one.names:
                    goal = Symbol("goal", self.crate, self.text(at), self, space) if isinstance(space, Goals) else None
                    self.names[self.text(at if known is None else known)] = goal or (space.get(self.text(at)) if space else None)
                if one.path and not one.names:
                    self.aliases[self.text(one.path[-1] if one.alias is None else one.alias)] = space
            self.names.update(self.declared)
        return self.names

    def get(self, name):
        """What the name means to those who import it from here."""
        return self.declared.get(name) or self.scope().get(name)


class Space:
    """Names that are generated of Rust declarations: a type, its variants, or constants."""

    def __init__(self, table):
        self.table = table

    def get(self, name):
        """What the name means to those who import it."""
        return self.table.get(name)


class Goals:
    """The generated names of the goals of a function. `symbols` has what each part of the path of its folder of proofs names, `cycle` the functions of a cycle."""

    def __init__(self, parts, symbols, cycle):
        self.parts, self.symbols, self.cycle = parts, symbols, cycle

    def get(self, name):
        """Goals have no symbols."""
        return None


class Implementation:
    """The implementation of a trait, which has a folder of proofs under the names of its type and its trait."""

    kind, new, module = "implementation", None, None

    def __init__(self, item, trait):
        self.item, self.trait = item, trait
        self.members = {}
        for one in item.members:
            self.members.setdefault(one.name, []).append(one.symbol)
        self.name = item.owner.name + trait

    @property
    def new_name(self):
        return self.item.owner.new_name + (self.item.trait_symbol.new_name if self.item.trait_symbol else self.trait)

    def where(self):
        """Its name."""
        return self.name


class Checkout:
    """All crates of a checkout."""

    def __init__(self, top):
        self.top = pathlib.Path(top)
        self.dependencies = dependencies(top)
        self.rust, self.antt, self.kit, self.folders, self.ghost_records = {}, {}, {}, {}, {}
        for crate in self.dependencies:
            self.read_crate(crate)
        for module in self.rust.values():
            module.declare()
        while any([module.import_names() for module in self.rust.values()]):
            pass
        for module in self.rust.values():
            module.implement()

    def read_crate(self, crate):
        """Reads all sources, definitions and proofs of a crate."""
        folder = self.top / "crates" / crate
        for file in sorted((folder / "src").rglob("*.rt")):
            path = file.relative_to(folder / "src").with_suffix("").parts
            path = () if path in (("lib",), ("main",)) else path
            self.rust[crate, path] = RustModule(self, crate, path, file)
        for (name, path), module in self.rust.items():
            if name == crate and path:
                self.rust[crate, path[:-1]].children[path[-1]] = module
        for kind in ("specs", "proofs"):
            for file in sorted((folder / kind).rglob("*.antt")):
                parts = (HEAD, crate, kind, *file.relative_to(folder / kind).with_suffix("").parts)
                self.antt[parts] = AnttModule(self, crate, parts, file)
                for end in range(4, len(parts)):
                    self.folders.setdefault(parts[:end], Symbol("folder", crate, parts[end - 1]))

    def module_at(self, where):
        """The source or the file of definitions or proofs at a path such as crate/src/name."""
        crate, kind, *path = where.split("/")
        if kind == "src":
            return self.rust.get((crate, () if path in (["lib"], ["main"]) else tuple(path)))
        return self.antt.get((HEAD, crate, kind, *path))

    # ---- paths of Rust

    def rust_path(self, module, names):
        """What each part of a path means in a module: a list of symbols for each."""
        first, found = names[0], []
        if first == "crate":
            here = [self.rust[module.crate, ()].symbol]
        elif first == "self":
            here = [module.symbol]
        elif first == "super":
            here = [self.rust[module.crate, module.path[:-1]].symbol] if module.path else []
        else:
            here = list(module.names.get(first, ()))
            if first in module.children:
                here.append(module.children[first].symbol)
            if not here and (first, ()) in self.rust:
                here = [self.rust[first, ()].symbol]
        found.append(here)
        for name in names[1:]:
            behind = []
            for symbol in here:
                behind += self.inside(symbol, name)
            here = behind
            found.append(here)
        return found

    def inside(self, symbol, name):
        """What a name means behind `::` of a module or type."""
        if symbol.kind == "module":
            module = symbol.module
            if name == "super":
                return [self.rust[module.crate, module.path[:-1]].symbol]
            if name == "self":
                return [symbol]
            found = list(module.names.get(name, ()))
            if name in module.children:
                found.append(module.children[name].symbol)
            return found
        if symbol.kind == "alias" and symbol.item.type:
            under = self.rust_type_symbol(symbol.module, symbol.item.type)
            return self.inside(under, name) if under else []
        return self.member(symbol, name)

    def member(self, symbol, name):
        """The members of this name of a type, also those that its traits give."""
        found = list(symbol.members.get(name, ()))
        for trait in symbol.traits:
            found += [one for one in trait.members.get(name, ()) if one not in found]
        return found

    def rust_type_symbol(self, module, type):
        """The symbol of a written type, without references."""
        while type is not None and type.head == "&":
            type = type.args[0]
        if type is None or type.head != "path":
            return None
        names = [module.source.tokens[at].text for at in type.path]
        for symbol in self.rust_path(module, names)[-1]:
            if symbol.kind == "alias" and symbol.item.type:
                return self.rust_type_symbol(symbol.module, symbol.item.type) or symbol
            if symbol.kind in ("struct", "enum", "trait", "alias"):
                return symbol
        return None

    # ---- paths of definitions

    def space(self, parts):
        """What a path of definitions names: a file, a type's names, its variants, constants, or the goals of a function; None where it is the kit's and not there."""
        parts = tuple(parts)
        if parts in self.antt:
            return self.antt[parts]
        if len(parts) > 3 and parts[1] in self.dependencies:
            if parts[3] in GENERATED:
                return self.declared(parts[1], parts[4:])
            if parts[-1] in ("Goals", "Given"):
                return self.goals(parts)
            above = self.antt.get(parts[:-1])
            type = above.get(parts[-1]) if above else None
            return Space({name: ones[0] for name, ones in type.members.items()}) if type else None
        return self.kit_module(parts)

    def goals(self, parts):
        """The goals of the functions of a folder of proofs."""
        cycle = self.cycles.get((parts[1], parts[-2][1:]), []) if parts[-2].startswith("+") else []
        return Goals(parts, self.function(parts[1], parts[3:-1]), cycle)

    def kit_module(self, parts):
        """A file of the kit's definitions."""
        if parts not in self.kit:
            self.kit[parts] = None
            if len(parts) > 3 and parts[0] == HEAD and parts[3] not in GENERATED:
                # what the lower crates of the standard library declare stands under its name too
                for crate in (parts[1], *STANDARD):
                    file = KIT.joinpath(crate, *parts[2:]).with_suffix(".antt")
                    if file.exists():
                        self.kit[parts] = AnttModule(self, crate, parts, file)
                        break
        return self.kit[parts]

    def declared(self, crate, parts):
        """The names that are generated of a type, its variants or constants."""
        parts, module = list(parts), self.rust.get((crate, ()))
        while parts and module and parts[0] in module.children:
            module = module.children[parts.pop(0)]
        if not module or not parts:
            return None
        if parts[0] == "TheConstants":
            if len(parts) > 1:
                owner = self.own(module, parts[1])
                return Space({name: ones[0] for name, ones in owner.members.items() if ones[0].kind == "const"}) if owner else None
            return Space({name: one for name, ones in module.names.items() for one in ones if one.kind == "const"})
        symbol = self.own(module, parts[0])
        if not symbol:
            return None
        if parts[1:] == ["TheVariants"]:
            return Space({name: one for name, ones in symbol.members.items() for one in ones if one.kind == "variant"})
        return Space({symbol.name: symbol, "Ghosts": self.ghosts(symbol)} if symbol.kind == "trait" else {symbol.name: symbol})

    def ghosts(self, trait):
        """The record of a trait's ghost members, which is generated under the name `Ghosts`."""
        if trait not in self.ghost_records:
            record = self.ghost_records[trait] = Symbol("ghosts", trait.crate, "Ghosts", trait.module, trait.item)
            record.members = {name: members for name, members in trait.members.items() if members[0].kind == "ghost"}
        return self.ghost_records[trait]

    def own(self, module, name):
        """The type of this name that a module declares."""
        return next((one for one in module.names.get(name, ()) if one.kind in ("struct", "enum", "trait", "alias") and one.module is module), None)

    def function(self, crate, parts):
        """What each part of the path of a folder of proofs names: modules, perhaps a type, and a function; None where it names nothing."""
        module, owner, found = self.rust.get((crate, ())), None, []
        for at, part in enumerate(parts):
            is_last = at == len(parts) - 1
            if owner is not None:
                found.append(next((one for one in owner.members.get(part, ()) if one.kind == "method"), None))
            elif part in module.children and not is_last:
                module = module.children[part]
                found.append(module.symbol)
            else:
                owner = self.own(module, part) or self.implemented(module, part)
                found.append(self.function_in(module, part) or owner if is_last else owner)
        return found

    def function_in(self, module, name):
        """The function of this name that a module declares, or where there is no type of that name the module in it."""
        found = next((one for one in module.names.get(name, ()) if one.kind == "fn" and one.module is module), None)
        is_module = found is None and name in module.children and not self.own(module, name) and not self.implemented(module, name)
        return module.children[name].symbol if is_module else found

    def implemented(self, module, name):
        """The `impl` of a trait whose folder of proofs has this name: that of the type, and of the trait behind it."""
        for item in module.impls:
            if item.trait is not None and item.owner is not None:
                trait = module.source.tokens[item.trait.path[-1]].text
                if item.owner.name + trait == name:
                    return Implementation(item, trait)
        return None

    def file_symbols(self, parts):
        """What each part of a path of definitions is: `Rattle`, the crate, `specs` or `proofs`, and the folders and files."""
        found = [None, self.rust[parts[1], ()].symbol, None]
        for end in range(4, len(parts) + 1):
            module = self.antt.get(tuple(parts[:end]))
            found.append(module.symbol if module else None)
        return found
