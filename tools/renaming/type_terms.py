"""What the terms of a text of definitions, proofs or contracts mean as types."""
from .antt_patterns import Patterns
from .declarations import Goals
from .imports import path_symbols

# Definitions of the kit that state their last argument of a value, or of what is in one.
WRAPPERS = {"OnOk", "OnErr", "OnSome", "IfOk", "IfErr", "IfSome", "IsSomeAnd", "IsOkAnd", "IsErrAnd"}
# What may be named as a type.
NAMED_TYPES = ("record", "data", "struct", "enum", "def", "alias", "ghosts")
# Arguments whose types are inferred after those of the others.
LATER = ("lambda", "record", "other", "tuple")
SORT = ("sort",)


class TypeTerms(Patterns):
    """The types that terms state. Each method `type_..` handles the terms of a kind, as `term_..` of the subclass does where they are values."""

    def type(self, term):
        """The type that a term states; None where it states none."""
        handler = getattr(self, f"type_{term[0]}", None)
        if handler:
            return handler(term)
        self.infer(term)
        return None

    def type_name(self, term):
        """A variable or a declared type."""
        at = term[1]
        text, local = self.text(at), self.local(self.text(at))
        if local is not None:
            self.put(at, [local])
            return local.type[1] if local.type and local.type[0] == "is" else None
        symbol = self.meaning(text)
        if text == "Type":
            return SORT
        if symbol is None:
            self.put(at, self.place.rust(text))
            rust = [one for one in self.place.rust(text) if one.kind in ("struct", "enum", "trait")]
            return ("type", rust[0], ()) if rust else ("kit", text, ())
        if symbol.kind == "goal":
            self.goal_name(at, symbol.item)
            return ("goal", symbol.item, text)
        self.put(at, [symbol])
        if symbol.kind == "data" and symbol.module.crate not in self.checkout.dependencies:
            return ("kit", text, ())
        return ("type", symbol, ()) if symbol.kind in NAMED_TYPES else None

    def type_field(self, term):
        """A type behind an alias or a path."""
        symbol = self.whole_path(term)
        if symbol is not None:
            return ("type", symbol, ()) if symbol.kind in NAMED_TYPES else None
        found, symbol = self.behind_alias(term)
        if not found:
            self.infer(term)
            return None
        return symbol if isinstance(symbol, tuple) else ("type", symbol, ()) if symbol else None

    def type_apply(self, term):
        """A type with arguments."""
        _, head, args = term
        if head[0] == "name" and self.text(head[1]) in WRAPPERS and len(args) == 2:
            return self.wrapped(term)
        type = self.type(head)
        found = self.type_arguments(type, args)
        if type and type[0] in ("type", "kit"):
            return (type[0], type[1], tuple(found))
        return type if type == SORT else None

    def type_lambda(self, term):
        return self.lambda_type(term, None)

    def type_operators(self, term):
        return self.operator_type(term[1], term[2])

    def type_binding(self, term):
        """`(x : A) → ..` and `(x : A) × ..`."""
        _, binders, rest, operator = term
        self.scopes.append({})
        bound = [one for binder in binders for one in self.binder(binder)]
        result = self.type(rest)
        self.scopes.pop()
        if operator is not None and self.text(operator) == "×":
            return ("tuple", (*(type for _, type, _ in bound), *(result[1] if result and result[0] == "tuple" and rest[0] == "operators" else (result,))))
        for local, type, implicit in reversed(bound):
            if implicit:
                result = ("implicit", local.type[1][1] if local.type and local.type[0] == "is" else f"{local.name}@{local.at}", result)
            elif local.type and local.type[0] == "is":
                result = ("implicit", local.type[1][1], ("function", (SORT,), result))
            else:
                result = ("function", (type,), result)
        return result

    def type_record(self, term):
        """A type of records without a name. The labels of an invariant follow the names of clauses."""
        if not self.is_labels(term):
            self.infer(term)
            return None
        type = ("labels", tuple((self.text(at), self.type(value[1])) for at, value in term[2]))
        if self.place.of_invariants:
            type += ((None, "ensures"),)
            self.note_clauses(type, [at for at, _ in term[2]])
        return type

    def is_labels(self, term):
        """Whether a term between the braces of a record states types, and no values."""
        return bool(term[2]) and all(value[0] == "label" for _, value in term[2])

    def note_clauses(self, type, places):
        """Notes which labels of such a type are names of clauses."""
        if len(type) > 2 and self.names is not None:
            self.names.goals.update((at, ("clause", type[2])) for at in places)

    def type_let(self, term):
        return self.let(term, self.type)

    def type_if(self, term):
        """The type of a branch that states one."""
        self.infer(term[1])
        one, other = self.type(term[2]), self.type(term[3])
        return one if one is not None else other

    def type_tuple(self, term):
        for one in term[1]:
            self.type(one)

    # ---- parts of these

    def let(self, term, body):
        """The type of a `let`, whose body is handled by this function."""
        _, pattern, written, value, rest = term
        type = self.type(written) if written is not None else None
        found = self.infer(value, type)
        self.scopes.append({})
        self.pattern(pattern, type if type is not None else found)
        result = body(rest)
        self.scopes.pop()
        return result

    def wrapped(self, term):
        """What `OnOk r P` or `IfOk r (λ x. P)` states, as if the value were that."""
        _, head, (value, body) = term
        self.infer(head)
        type = self.unfolded(self.infer(value))
        inner = None
        if type and type[0] == "kit" and type[2]:
            inner = type[2][1] if "Err" in self.text(head[1]) and len(type[2]) > 1 else type[2][0]
        return self.lambda_type(body, inner)[2] if body[0] == "lambda" else self.type(body)

    def lambda_type(self, term, inner):
        """A function to types, whose first argument has this type where none is written."""
        self.scopes.append({})
        wanted = inner
        for names, written, _ in term[1]:
            type = self.type(written) if written is not None else wanted
            for at in names:
                self.declare(at, type)
                wanted = None
        result = self.type(term[2])
        self.scopes.pop()
        return ("function", (inner,), result)

    def type_arguments(self, head, terms):
        """What the arguments of a type are, as types; those that are no types are None."""
        type = self.declared_type(head[1]) if head and head[0] == "type" else None
        if type is None:
            return [self.type_argument(one) for one in terms]
        found, later = [], []
        for one in terms:
            type = self.explicit(type)
            if one[0] == "implicit" or type is None or type[0] != "function":
                found.append(self.type_argument(one))
                continue
            wanted, type = self.solved(type[1][0]), type[2]
            found.append(self.type(one) if wanted == SORT else None)
            if wanted != SORT and one[0] in LATER:
                later.append((one, wanted))
            elif wanted != SORT:
                self.unify(wanted, self.infer(one, wanted))
        for one, wanted in later:
            self.unify(wanted, self.infer(one, wanted))
        return found

    def type_argument(self, term):
        """An argument of which it is not known whether it is a type."""
        if term[0] in ("name", "apply", "operators", "binding", "field"):
            return self.type(term)
        self.infer(term)
        return None

    def whole_path(self, term):
        """What a name with its whole path means, as `Rattle.crate.specs.File.name`; None where the term is none."""
        places = []
        while term[0] == "field":
            places.append(term[2])
            term = term[1]
        if term[0] != "name" or self.text(term[1]) != "Rattle" or len(places) < 4:
            return None
        places = [term[1], *reversed(places)]
        parts = [self.text(at) for at in places]
        for end in range(len(parts) - 1, 3, -1):
            space = self.checkout.space(parts[:end])
            if space is not None:
                for at, symbol in zip(places, path_symbols(self.checkout, parts[:end], space)):
                    self.put(at, [symbol])
                symbol = space.get(parts[end])
                self.put(places[end], [symbol])
                for at in places[end + 1 :]:
                    self.unknown(at, None)
                return symbol if end == len(parts) - 1 else None
        return None

    def behind_alias(self, term):
        """Whether a field is a name behind an alias; and its symbol, or of a goal its type."""
        _, base, at = term
        space = self.place.alias(self.text(base[1])) if base[0] == "name" and self.local(self.text(base[1])) is None else None
        if isinstance(space, Goals):
            self.goal_name(at, space)
            return True, ("goal", space, self.text(at))
        symbol = space.get(self.text(at)) if space is not None else None
        if space is not None:
            self.put(at, [symbol])
        return space is not None, symbol

    def operator_type(self, operands, places):
        """A type of functions, pairs or alternatives; of other operators the terms are values."""
        words = [self.text(at) for at in places]
        if "→" in words:
            first = words.index("→")
            left = self.operator_type(operands[: first + 1], places[:first])
            return ("function", (left,), self.operator_type(operands[first + 1 :], places[first + 1 :]))
        if len(operands) == 1:
            return self.type(operands[0])
        if words and words[0] == "⊎":
            return ("kit", "⊎", tuple(self.type(one) for one in operands))
        if "×" in words:
            return ("tuple", tuple(self.operator_type(*part) for part in self.split(operands, places, "×")))
        self.operators(operands, places)
        return None

    def split(self, operands, places, word):
        """The pieces between these operators."""
        parts, first = [], 0
        for number, at in enumerate(places):
            if self.text(at) == word:
                parts.append((operands[first : number + 1], places[first:number]))
                first = number + 1
        parts.append((operands[first:], places[first:]))
        return parts

    def binder(self, binder):
        """Binds the names of a binder; returns each with its type and whether it is implicit."""
        names, written, implicit = binder
        type = self.type(written) if written is not None else None
        return [(self.declare(at, type), type, implicit) for at in names]
