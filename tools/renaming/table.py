"""The table of new names: its entries, and the symbols of a checkout that they name.

An entry is a line of fields separated by tabs; crates, paths and names are the old ones, and a line that begins with `#` is a comment:

    crate   CRATE NEW                     a crate
    file    CRATE/KIND/PATH NEW           a file or folder of src, specs or proofs; only the last part of its path changes
    name    WHERE OLD NEW                 what is named without a dot before it: a type, trait, function or constant of Rust, a definition, record, constructor or lemma;
                                          WHERE is a crate, or one file of it
    member  CRATE/TYPE OLD NEW            a field, method or variant of a type, or a field of a record of definitions; also CRATE/KIND/PATH/TYPE
    param   CRATE/src/PATH FUNCTION OLD NEW
                                          a parameter, a variable or (with its quote) the label of a loop; FUNCTION may be Type::method
    binder  OLD NEW                       a bound variable in all definitions and proofs (`binders`)
    binder  FILE ITEM OLD NEW             the same in one definition or lemma alone
    clause  OLD NEW                       the name of an `ensures` clause of any function, and what has its name in invariants
    hint    FILE OLD CRATE/TYPE,..        of which types the member OLD is in a file where that cannot be inferred; `-` where it is of none

What has a name follows by itself: uses, imports, the folder of a module or of a function's proofs, and the names of goals.
"""
import pathlib

FIELDS = {"crate": (3,), "file": (3,), "name": (4,), "member": (4,), "param": (5,), "binder": (3, 5), "clause": (3,), "hint": (4,)}
# Kinds of entries that name no symbol.
PLAIN = ("binder", "clause", "hint")
TYPES = ("struct", "enum", "trait", "record", "data", "alias")


class Entry:
    """A line of the table. `symbols` are those that it renames, `line` is where it stands."""

    __slots__ = ("kind", "where", "function", "old", "new", "line", "symbols")

    def __init__(self, fields, line):
        self.kind, self.new, self.line, self.symbols = fields[0], fields[-1], line, []
        self.where = None if self.kind in ("binder", "clause") and len(fields) == 3 else fields[1]
        self.function = fields[2] if len(fields) == 5 else None
        self.old = fields[1].split("/")[-1] if self.kind in ("crate", "file") else fields[-2]

    def __str__(self):
        return " ".join([f"{self.line}: {self.kind}", *filter(None, (self.where, self.function)), f"{self.old} -> {self.new}"])


def read_table(paths):
    """The entries of these files, and the lines that are none."""
    entries, malformed = [], []
    for path in map(pathlib.Path, paths):
        for number, line in enumerate(path.read_text().splitlines(), 1):
            fields = [field.strip() for field in line.split("\t")]
            if not line.strip() or line.startswith("#"):
                continue
            if len(fields) in FIELDS.get(fields[0], ()):
                entries.append(Entry(fields, f"{path.name}:{number}"))
            else:
                malformed.append(f"{path.name}:{number}: {line}")
    return entries, malformed


class Table:
    """Finds what the entries name in a checkout, and gives it the new names."""

    def __init__(self, checkout, entries):
        self.checkout, self.entries, self.declared = checkout, entries, {}
        for entry in entries:
            entry.symbols = list(dict.fromkeys(getattr(self, f"find_{entry.kind}")(entry)))
        self.checkout.clauses = {entry.old: entry.new for entry in entries if entry.kind == "clause"}

    def unused(self):
        """The entries that name nothing of the checkout."""
        return [str(entry) for entry in self.entries if not entry.symbols]

    def find_clause(self, entry):
        """Names of clauses have no symbols: such an entry stands for itself."""
        return [entry]

    def find_binder(self, entry):
        """Bound variables have none either; the definition that is named has to be there."""
        return [entry] if entry.where is None or self.declared_in(entry.where).get(entry.function) else []

    def find_hint(self, entry):
        """Notes the types of a member in a file."""
        module = self.checkout.module_at(entry.where)
        if module is not None:
            self.checkout.hints[module, entry.old] = entry.new
        return [entry] if module is not None else []

    # Each of these gives the symbols of an entry of its kind.

    def find_crate(self, entry):
        module = self.checkout.rust.get((entry.where, ()))
        return [module.symbol] if module else []

    def find_file(self, entry):
        parts = entry.where.split("/")
        if len(parts) < 3:
            return []
        module, folder = self.checkout.module_at(entry.where), self.checkout.folders.get(("Rattle", *parts))
        return ([module.symbol] if module else []) + ([folder] if folder else [])

    # ---- names and members

    def find_name(self, entry):
        return self.declared_in(entry.where).get(entry.old, [])

    def declared_in(self, where):
        """The symbols that a crate, or one of its files, declares, by name."""
        if where not in self.declared:
            found = self.declared[where] = {}
            for module in self.modules_of(where):
                for symbol in self.symbols_of(module):
                    found.setdefault(symbol.name, []).append(symbol)
        return self.declared[where]

    def modules_of(self, where):
        """The sources of a crate, or its one file of this path."""
        if "/" in where:
            module = self.checkout.module_at(where)
            return [module] if module else []
        return [one for (crate, _), one in self.checkout.rust.items() if crate == where] + [one for path, one in self.checkout.antt.items() if path[1] == where]

    def symbols_of(self, module):
        """What a source declares, but for members of types."""
        if hasattr(module, "declared"):
            for one in module.source.declarations:
                yield one.symbol
                if one.kind == "data":
                    for constructors in one.symbol.members.values():
                        yield from constructors
            return
        for name, symbols in module.names.items():
            for symbol in symbols:
                if symbol.module is module and symbol.kind != "module" and symbol.name == name and symbol.owner is None:
                    yield symbol

    def find_member(self, entry):
        where, _, path = entry.where.rpartition("/")
        type, *inner = path.split("::")
        owners = [symbol for symbol in self.declared_in(where).get(type, ()) if symbol.kind in TYPES]
        for name in inner:
            owners = [one for owner in owners for one in owner.members.get(name, ())]
        return [member for owner in owners for member in self.members(owner, entry.old)]

    def members(self, owner, name):
        """The members of this name, also the fields of variants; those of a trait with all that implement them."""
        found = []
        for member in owner.members.get(name, ()):
            found.append(member)
            trait = owner if owner.kind == "trait" else getattr(member, "trait", None)
            if trait is not None:
                found += self.implementations(trait, name)
        if owner.kind == "enum":
            for variants in owner.members.values():
                for variant in variants:
                    if variant.kind == "variant":
                        found += variant.members.get(name, ())
        return found

    def implementations(self, trait, name):
        """A member of a trait of this checkout, in the trait and in each implementation."""
        found = list(trait.members.get(name, ()))
        for module in self.checkout.rust.values():
            for item in module.impls:
                if item.trait_symbol is trait:
                    found += [one.symbol for one in item.members if one.name == name]
        return found

    # ---- variables of functions

    def find_param(self, entry):
        module = self.checkout.module_at(entry.where)
        type, _, name = entry.function.rpartition("::")
        found = []
        for function in getattr(module, "functions", ()):
            if function.symbol.name == name and type in ("", self.owner_name(function.symbol)):
                found += [one for one in [*function.variables(), *function.labels.values()] if one.name == entry.old]
        return found

    def owner_name(self, symbol):
        """The type or trait in whose block a function stands."""
        block = symbol.item.owner
        if block is None or block.kind == "trait":
            return block.name if block else ""
        if block.owner:
            return block.owner.name
        return symbol.module.source.tokens[block.self_type.path[-1]].text if block.self_type.path else ""

    # ---- new names

    def apply(self):
        """Gives the symbols their new names. `entry_of` has the entry of each; returns the entries that name a symbol otherwise than one before."""
        self.entry_of, clashing = {}, []
        for module in self.checkout.rust.values():
            for function in module.functions:
                for one in [*function.variables(), *function.labels.values()]:
                    one.new = None
        for entry in self.entries:
            if entry.kind in PLAIN:
                continue
            for symbol in entry.symbols:
                before = self.entry_of.setdefault(id(symbol), entry)
                if before.new != entry.new:
                    clashing.append(f"{entry}: but {before}")
                    continue
                self.entry_of[id(symbol)] = entry
                symbol.new = entry.new if entry.new != entry.old else None
        return clashing

    def leave_out(self, entries):
        """Takes entries out of the table again."""
        gone = {id(entry) for entry in entries}
        self.entries = [entry for entry in self.entries if id(entry) not in gone]
        for entry in entries:
            for symbol in entry.symbols:
                symbol.new = None
