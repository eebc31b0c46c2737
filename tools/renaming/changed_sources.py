"""Sources that are no files of the checkout: the text of a module after an edit, and a source that stands in a script."""
from .declarations import RustModule, Symbol
from .clause_names import Clauses
from .rust_names import RustNames
from .rust_syntax import RustFile


class ScriptSource(RustModule):
    """A source that stands by itself, in a script: what it names is of the crates that it imports from."""

    def __init__(self, checkout, text):
        self.checkout, self.crate, self.path, self.file = checkout, "", (), None
        self.source = RustFile(text)
        self.symbol = Symbol("module", "", "", self)
        self.names, self.children, self.impls = {}, {}, []
        self.declare()
        self.import_names()
        self.implement()
        resolve(self)


class ChangedSource(RustModule):
    """A module with another text. What it declares are the symbols of the module where they have their names; what is new in it has new ones."""

    def __init__(self, checkout, module, text):
        self.checkout, self.crate, self.path, self.file, self.symbol = checkout, module.crate, module.path, module.file, module.symbol
        self.source, self.original = RustFile(text), module
        self.names, self.children, self.impls = {}, module.children, []
        self.declare()
        self.join_names()
        self.join_blocks()
        checkout.scopes[self] = checkout.ghost_scope(module)
        resolve(self)
        self.join_variables()

    def join_names(self):
        """Gives its items the new names of those of the module."""
        known = {name: list(symbols) for name, symbols in self.original.names.items()}
        for name, symbols in self.names.items():
            for symbol in symbols if name in known else ():
                twin = next((one for one in known[name] if one.module is self.original and one.kind == symbol.kind), None)
                if twin is not None:
                    self.join(symbol, twin)
            known.setdefault(name, symbols)
        self.names = known

    def join(self, symbol, twin):
        """Gives an item and its members the new names of its twin."""
        symbol.new, symbol.twin = twin.new, twin
        for name, members in symbol.members.items():
            for member, other in zip(members, twin.members.get(name, ())):
                self.join(member, other)

    def join_blocks(self):
        """Gives the members of its `impl` blocks the new names of those of the module."""
        for item in self.impls:
            item.owner = self.checkout.rust_type_symbol(self, item.self_type)
            item.trait_symbol = self.checkout.rust_type_symbol(self, item.trait) if item.trait else None
            for one in item.members:
                one.symbol = Symbol("method" if one.kind == "fn" else one.kind, self.crate, one.name, self, one, item.owner)
                twin = next((other for other in (item.owner.members.get(one.name, ()) if item.owner else ()) if other.module is self.original), None)
                if twin is not None:
                    one.symbol.new, one.symbol.twin = twin.new, twin

    def join_variables(self):
        """Gives the variables of its functions the new names of those that these functions had."""
        before = {one.symbol: one for one in self.original.functions}
        for function in self.functions:
            twin = before.get(getattr(function.symbol, "twin", None))
            new_names = {local.name: local.new for local in twin.variables() if local.new} if twin else {}
            for local in function.variables():
                local.new = new_names.get(local.name, local.new)


def resolve(module):
    """Finds what the names of such a source mean."""
    names = RustNames(module.checkout, module)
    module.checkout.names[module] = names.run()
    module.functions = names.functions
    Clauses(module.checkout, module, names.names).name_clauses()
