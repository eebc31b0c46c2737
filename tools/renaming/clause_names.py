"""What the names of contracts and ghost items of Rust sources mean."""
from .antt_syntax import read_term
from .antt_types import Evaluator
from .imports import Imports
from .places import ClausePlace, View
from .rust_types import Local


class Clauses:
    """Names what the contracts and ghost items of a Rust source state."""

    def __init__(self, checkout, module, names):
        self.checkout, self.module, self.names = checkout, module, names
        self.tokens = module.source.tokens
        self.evaluator = Evaluator(checkout, ClausePlace(checkout, module), self.tokens, names)

    def run(self):
        """Names what stands in imports, clauses and ghost items."""
        imports = Imports(self.checkout, self.names, self.tokens)
        for use in self.checkout.ghost_scope(self.module).imports:
            imports.run(use)
        self.name_clauses()

    def name_clauses(self):
        """Names what stands in all clauses and ghost items, but in imports."""
        owners = list(self.owners(self.module.source.items, None))
        for first, last, word in self.module.source.clauses:
            if word != "use":
                around = [(item, owner) for item, owner in owners if item.first <= first <= item.last + 1]
                self.clause(read_term(self.tokens, first, last), *(around[-1] if around else (None, None)))

    def owners(self, items, owner):
        """All items with the blocks of which they are members, the members behind their blocks."""
        for item in items:
            yield item, owner
            yield from self.owners(item.members, item)

    def clause(self, term, item, owner):
        """The text of a clause or ghost item, by the item in which it stands."""
        self.evaluator.scopes = [{}]
        if item is None:
            self.evaluator.infer(term)
        elif item.kind == "fn":
            self.parameters(item.symbol.function)
            self.evaluator.infer(term)
        elif item.kind == "ghost":
            self.ghost_member(term, item, owner)
        else:
            self.ghost_field(term, item)

    def bind_type(self, name, type):
        """Binds a name of a type."""
        self.evaluator.scopes[0][name] = Local(name, type, None)

    def parameters(self, function):
        """Binds what a contract of a function names."""
        scopes = self.evaluator.scopes
        self.bounds(function.generic)
        self.bind_type("Self", ("is", self.checkout.modelled(function.self_type)))
        block = function.symbol.item.owner
        self.ghosts(block.symbol if block is not None and block.kind == "trait" else getattr(block, "trait_symbol", None))
        for local in function.params:
            if local is not None:
                scopes[-1][local.name] = View(local, self.checkout.modelled(local.type))
        scopes[-1]["result"] = Local("result", self.checkout.modelled(function.result), None)
        scopes.append({})

    def ghosts(self, trait):
        """The ghost members of a trait are named without a dot in its own contracts."""
        for members in trait.members.values() if trait is not None else ():
            if members[0].kind == "ghost":
                self.evaluator.scopes[-1][members[0].name] = View(members[0], self.checkout.signature(members[0]))

    def bounds(self, generic):
        """Binds the type parameters that have a trait."""
        for name, type in generic.items():
            bound = type[2] if type and type[0] == "variable" else None
            if bound and bound[0] == "type":
                self.bind_type(name, ("bound", bound[1]))

    def ghost_member(self, term, item, owner):
        """A ghost member of a trait or an `impl`: its type, or its value."""
        generic = self.checkout.types.generics(self.module, owner.generics if owner else [])
        self.bounds(generic)
        if owner is not None and owner.kind == "impl":
            self.member_of_impl(term, item, owner, generic)
            return
        is_trait = owner is not None and owner.kind == "trait"
        self.bind_type("Self", ("bound", owner.symbol) if is_trait else ("is", None))
        if is_trait:
            self.ghosts(owner.symbol)
        self.evaluator.infer(term)

    def member_of_impl(self, term, item, owner, generic):
        """A ghost member of an `impl`: of a model it is about the type itself, else about its values."""
        type = self.checkout.types.of(self.module, owner.self_type, generic)
        value = self.checkout.modelled(type)
        self.bind_type("Self", ("is", value))
        if item.name == "Value":
            self.evaluator.type(term)
            return
        is_model = owner.trait is not None and self.tokens[owner.trait.path[-1]].text == "Model"
        self.evaluator.infer(term, ("function", (type if is_model else value,), value if item.name == "view" else None))

    def ghost_field(self, term, item):
        """A ghost field of a struct, which names its fields."""
        generic = self.checkout.types.generics(self.module, item.generics)
        for field in item.fields:
            if field.at is not None:
                type = self.checkout.modelled(self.checkout.types.of(self.module, field.type, generic))
                self.evaluator.scopes[-1][field.name] = View(field.symbol, type)
        self.evaluator.scopes.append({})
        self.evaluator.infer(term)
