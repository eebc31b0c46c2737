"""What the names of a `.rt` source mean, but for those in clauses."""
from .rust_expressions import Expressions
from .rust_types import Function, Local


class RustNames(Expressions):
    """Goes over the items of a source once and says what their names mean."""

    def run(self):
        """Names what the whole source says."""
        for at in self.source.mods:
            child = self.module.children.get(self.text(at))
            self.names.put(at, [child.symbol] if child else [])
        for use in self.source.uses:
            self.put_path(use.path, self.checkout.rust_path(self.module, [self.text(at) for at in use.path]))
        self.items(self.source.items)
        return self.names

    def put_path(self, path, found):
        """Notes what each part of a path means."""
        for at, symbols in zip(path, found):
            if self.text(at) not in ("crate", "self", "super"):
                self.names.put(at, symbols)

    def items(self, items):
        """Each of these items, by its kind."""
        for item in items:
            if item.kind != "impl" and getattr(item, "symbol", None) is not None:
                self.names.put(item.at, [item.symbol])
            for first, last in item.attributes:
                self.attribute(first, last)
            handler = getattr(self, f"item_{item.kind}", None)
            if handler:
                handler(item)

    def attribute(self, first, last):
        """Paths within an attribute name definitions of proofs and specs, written as paths of Rust."""
        at, path = first, []
        while at <= last:
            if self.kind(at) == "name":
                path.append(at)
                if self.text(at + 1) == "::":
                    at += 2
                    continue
            if len(path) > 2:
                self.attribute_path(path)
            path = []
            at += 1

    def attribute_path(self, path):
        """A path of an attribute, where it names a definition."""
        crate, *names = [self.text(at) for at in path]
        parts = ["Rattle", self.module.crate if crate == "crate" else crate, *names[:-1]]
        space = self.checkout.space(parts) if parts[1] in self.checkout.dependencies else None
        if space is not None:
            symbols = [*self.checkout.file_symbols(parts)[1:], space.get(names[-1])]
            self.put_path(path, [[symbol] if symbol else [] for symbol in symbols])

    def fields(self, fields):
        """The names of fields."""
        for field in fields:
            if field.at is not None:
                self.names.put(field.at, [field.symbol])

    def item_struct(self, item):
        """The fields of a struct and their types."""
        self.fields(item.fields)
        self.written(item.at + 1, item.last, self.types.generics(self.module, item.generics))

    def item_enum(self, item):
        """The variants of an enum with their fields and types."""
        for variant in item.variants:
            self.names.put(variant.at, [variant.symbol])
            self.fields(variant.fields)
        self.written(item.at + 1, item.last, self.types.generics(self.module, item.generics))

    def item_alias(self, item):
        """The type of an alias."""
        self.written(item.at + 1, item.last, self.types.generics(self.module, item.generics))

    def item_const(self, item):
        """The type of a constant and its value."""
        first, last = item.body
        self.written(item.at + 1, first, {})
        self.scopes, self.function = [{}], Function(None)
        if self.text(first) == "=":
            self.expression(self.after(first), last)

    def item_trait(self, item):
        """The members of a trait."""
        self.generic = self.types.generics(self.module, item.generics)
        self.self_type = ("type", item.symbol, ())
        self.members_of(item, item.at + 1)

    def item_impl(self, item):
        """The members of an `impl` block."""
        self.generic = self.types.generics(self.module, item.generics)
        self.self_type = self.types.of(self.module, item.self_type, self.generic)
        self.members_of(item, item.first)

    def members_of(self, item, first):
        """The head of a block from this token on, and its members."""
        self.written(first, self.next_brace(first), self.generic)
        self.items(item.members)
        self.self_type, self.generic = None, {}

    def item_fn(self, item):
        """A function: its parameters, its types and its body."""
        outer = self.generic
        self.generic = {**outer, **self.types.generics(self.module, item.generics)}
        self.function = item.symbol.function = Function(item.symbol)
        self.functions.append(self.function)
        self.scopes = [{}]
        self.function.params = [self.parameter(one) for one in item.params]
        self.function.result = self.types.of(self.module, item.result, self.generic, self.self_type)
        self.function.self_type, self.function.generic, self.function.module = self.self_type, self.generic, self.module
        self.written(item.at + 1, item.body[0] if item.body else item.last, self.generic)
        if item.body:
            self.block(item.body[0])
        self.generic = outer

    def parameter(self, item):
        """Binds a parameter; None where it is a pattern."""
        if item.at is None:
            return None
        if item.name == "self":
            local = self.scopes[-1]["self"] = Local("self", self.self_type, item.at)
            return local
        return self.bind(item.at, self.types.of(self.module, item.type, self.generic, self.self_type))
