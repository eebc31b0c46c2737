"""The types of what is declared, as contracts, definitions and proofs see them."""
from .antt_syntax import read_import, read_term
from .antt_types import Evaluator
from .declarations import Checkout, RustModule
from .places import ClausePlace, GhostScope, Place
from .rust_types import Local, Types, nth

# Types of the kit by what contracts see of their values.
MODELS = {"[]": "List", "str": "List", **dict.fromkeys(("usize", "u64", "u32", "u16", "u8"), "ℕ"), "bool": "Bool"}
SORT = ("sort",)


def extent(type):
    """How much a type states."""
    if type is None or type[0] == "meta":
        return 0
    if type[0] in ("type", "kit"):
        return 2 + sum(extent(one) for one in type[2]) - (type[0] == "kit")
    if type[0] == "tuple":
        return 1 + sum(extent(one) for one in type[1])
    if type[0] == "function":
        return 1 + extent(type[1][0]) + extent(type[2])
    return 1


class Signatures(Checkout):
    """A checkout with the types of its declarations. `names` has what the names of each source mean, `hints` and `clauses` what the table says of members and clauses."""

    def __init__(self, top):
        super().__init__(top)
        self.types = Types(self)
        self.names, self.scopes, self.cache, self.records, self.below = {}, {}, {}, {}, {}
        self.hints, self.clauses = {}, {}

    def remembered(self, key, find):
        """What was found under this key before; None while it is being found."""
        if key not in self.cache:
            self.cache[key] = None
            self.cache[key] = find()
        return self.cache[key]

    # ---- scopes

    def ghost_scope(self, module):
        """What the `ghost use` lines of a source import."""
        if module not in self.scopes:
            tokens = module.source.tokens
            imports = [read_import(tokens, range(first, last), 0, last - first) for first, last, word in module.source.clauses if word == "use"]
            self.scopes[module] = GhostScope(self, tokens, imports)
        return self.scopes[module]

    def evaluator(self, module):
        """What infers types in a source, without noting them."""
        place = ClausePlace(self, module) if isinstance(module, RustModule) else Place(self, module)
        return Evaluator(self, place, module.source.tokens)

    def with_dependencies(self, crate):
        """The crate and all that stand below it."""
        if crate not in self.below:
            found = {crate}
            for one in self.dependencies.get(crate, ()):
                if one in self.dependencies:
                    found |= self.with_dependencies(one)
            self.below[crate] = found
        return self.below[crate]

    def clause_name(self, word, name):
        """The name that a clause of a function has afterwards."""
        return self.clauses.get(name, name) if word == "ensures" else name

    def record_of(self, crate, names, module):
        """The one record or struct with just these fields that a file imports, or else that its crate can see, if there is one."""
        if not self.records:
            self.find_records()
        below = self.with_dependencies(crate)
        found = [one for one in self.records.get(frozenset(names), ()) if one.crate in below]
        if len(found) > 1:
            scope = self.ghost_scope(module).names if isinstance(module, RustModule) else module.scope()
            found = [one for one in found if scope.get(one.name) is one] or found
        return found[0] if len(found) == 1 else None

    def find_records(self):
        """All records and structs by their fields."""
        declared = [symbol for module in self.antt.values() for symbol in module.declared.values() if symbol.kind == "record"]
        declared += [symbol for module in self.rust.values() for ones in module.names.values() for symbol in ones if symbol.kind == "struct" and symbol.module is module]
        for symbol in declared:
            fields = frozenset(name for name, members in symbol.members.items() if members[0].kind == "field")
            self.records.setdefault(fields, []).append(symbol)

    # ---- types of what is declared

    def signature(self, symbol, inside=()):
        """The type of a declared thing, as a text sees it that stands inside these sections; None where it has none."""
        if symbol is None:
            return None
        outer = tuple(id(one) for one in symbol.item.section if any(one is other for other in inside)) if symbol.kind == "def" else ()
        handler = getattr(self, f"signature_of_{symbol.kind}", None)
        return self.remembered(("signature", symbol, outer), lambda: handler(symbol, outer)) if handler else None

    def signature_of_def(self, symbol, outer):
        """A definition or lemma."""
        evaluator = self.evaluator(symbol.module)
        return self.under(evaluator, symbol.item.section, outer, lambda: evaluator.type(symbol.item.type))

    def signature_of_record(self, symbol, outer):
        """A record or data type."""
        return self.under(self.evaluator(symbol.module), [*symbol.item.section, *symbol.item.binders], (), lambda: SORT)

    signature_of_data = signature_of_record

    def signature_of_constructor(self, symbol, outer):
        """A constructor, for which the parameters of its type are implicit."""
        evaluator, owner = self.evaluator(symbol.module), symbol.owner.item
        hidden = [(names, type, True) for names, type, _ in [*owner.section, *owner.binders]]
        return self.under(evaluator, hidden, (), lambda: evaluator.type(symbol.item[1]))

    def signature_of_variant(self, symbol, outer):
        """A variant of an enum."""
        owner = symbol.owner
        generic = self.types.generics(owner.module, owner.item.generics)
        result = ("type", owner, tuple(generic[name] for name, _ in owner.item.generics))
        for field in reversed(symbol.item.fields):
            result = ("function", (self.modelled(self.types.of(owner.module, field.type, generic)),), result)
        for name, _ in reversed(owner.item.generics):
            result = ("implicit", name, result)
        return result

    def signature_of_const(self, symbol, outer):
        """A constant of Rust."""
        return self.modelled(self.types.of(symbol.module, symbol.item.type, {}))

    def signature_of_struct(self, symbol, outer):
        """A struct as a type."""
        return SORT

    def signature_of_ghost(self, symbol, outer):
        """A ghost member of a trait: the type that its text states."""
        term = self.ghost_term(symbol) if symbol.owner is not None and symbol.owner.kind == "trait" else None
        return self.evaluator(symbol.module).type(term) if term else None

    def ghost_term(self, member):
        """The text of a ghost member."""
        for first, last, word in member.module.source.clauses:
            if word == "ghost" and member.item.at < first <= member.item.last + 1:
                return read_term(member.module.source.tokens, first, last)
        return None

    def under(self, evaluator, binders, outer, made):
        """A type under binders; of those that are in `outer` it says nothing."""
        bound = []
        for binder in binders:
            for local, type, implicit in evaluator.binder(binder):
                if id(binder) not in outer:
                    bound.append((local, type, implicit))
        result = made()
        for local, type, implicit in reversed(bound):
            variable = local.type[1][1] if local.type and local.type[0] == "is" and local.type[1] else None
            if variable is not None:
                result = ("implicit", variable, result if implicit else ("function", (("sort",),), result))
            elif not implicit:
                result = ("function", (type,), result)
        return result

    # ---- abbreviations and fields

    def expansion(self, symbol, args):
        """What an abbreviation of a type states at these arguments: of several clauses the one that states most."""
        return self.remembered(("expansion", symbol, args), lambda: max((self.expansion_by(symbol, clause, args) for clause in symbol.item.clauses), key=extent, default=None))

    def expansion_by(self, symbol, clause, args):
        """What a clause of an abbreviation of a type states."""
        evaluator = self.evaluator(symbol.module)
        for binder in symbol.item.section:
            evaluator.binder(binder)
        signature, number = self.signature(symbol, symbol.item.section), 0
        for one in clause[0][1:]:
            if one[0] == "implicit":
                continue
            while signature is not None and signature[0] == "implicit":
                signature = signature[2]
            wanted, signature = (signature[1][0], signature[2]) if signature and signature[0] == "function" else (None, None)
            if wanted == SORT and one[0] == "name":
                evaluator.bind(one[1], ("is", nth(args, number)))
            else:
                evaluator.pattern(one, wanted)
            number += 1
        body = clause[1]
        if body[0] == "lambda" and number < len(args):
            self.bind_arguments(evaluator, body[1], signature)
            body = body[2]
        return evaluator.type(body)

    def bind_arguments(self, evaluator, binders, signature):
        """Binds the arguments of a function that is an abbreviation: those of the abbreviation."""
        for names, written, _ in binders:
            for at in names:
                type = evaluator.type(written) if written is not None else None
                wanted, signature = (signature[1][0], signature[2]) if signature is not None and signature[0] == "function" else (None, None)
                evaluator.bind(at, type if type is not None else wanted)

    def field_type(self, owner, field, args):
        """The type of a field of a record or struct with these arguments."""
        if owner.kind == "struct":
            return self.modelled(self.types.field(owner, args, field.item))
        return self.remembered(("field", field, args), lambda: self.record_field_type(owner, field, args)) if owner.kind == "record" else None

    def record_field_type(self, owner, field, args):
        """The type of a field of a record."""
        evaluator = self.evaluator(owner.module)
        for binder in owner.item.section:
            evaluator.binder(binder)
        number = 0
        for names, written, _ in owner.item.binders:
            type = evaluator.type(written) if written is not None else None
            for at in names:
                evaluator.bind(at, ("is", nth(args, number)) if type == SORT else type)
                number += 1
        return evaluator.type(field.item[1])

    # ---- models

    def modelled(self, type):
        """What a contract sees of a value of this type."""
        if type is None or type[0] not in ("kit", "tuple", "type"):
            return type
        if type[0] == "tuple":
            return ("tuple", tuple(self.modelled(one) for one in type[1]))
        args = tuple(self.modelled(one) for one in type[2])
        if type[0] == "kit":
            return ("kit", MODELS.get(type[1], type[1]), args)
        value = self.remembered(("model", type[1], args), lambda: self.model(type[1], args))
        return value if value is not None else ("type", type[1], args)

    def model(self, symbol, args):
        """The type of the values of a type with an `impl Model`."""
        found = None
        for member in symbol.members.get("Value", ()):
            term = self.ghost_term(member) if member.kind == "ghost" and member.item.owner is None else None
            if term:
                evaluator = self.evaluator(member.module)
                block = next(one for one in member.module.impls if any(other is member.item for other in one.members))
                for number, (name, _) in enumerate(block.generics):
                    evaluator.scopes[-1][name] = Local(name, ("is", nth(args, number)), None)
                found = evaluator.type(term)
        return found
