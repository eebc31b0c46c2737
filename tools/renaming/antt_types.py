"""What each name in a text of definitions, proofs or contracts means, by the types of terms as far as they can be inferred."""
from .rust_types import arguments_of, nth
from .type_terms import SORT, WRAPPERS, TypeTerms
from .unification import LISTS

# Fields that the kit gives to what is behind a reference, and that stand for the same value.
REFERENCE_FIELDS = {"now", "old", "new", "entry", "exit"}
# What a proof knows of a function.
FACTS = ("goal", "step", "args", "ensures", "generic")
# Arguments whose types are inferred after those of the others.
LATER = ("lambda", "record", "other", "tuple", "if", "let")


class Evaluator(TypeTerms):
    """The types of terms in one text. Each method `term_..` handles the terms of a kind, with the type that is expected of them."""

    def infer(self, term, expected=None):
        """The type of a term."""
        return getattr(self, f"term_{term[0]}")(term, expected)

    def term_other(self, term, expected):
        """A list in brackets, or what has no meaning here."""
        type = self.unfolded(expected)
        inner = nth(type[2], 0) if type and type[0] == "kit" and type[1] in LISTS else None
        for one in term[1]:
            self.infer(one, inner)
        return expected

    def term_name(self, term, expected):
        """A variable, what is declared, or a constructor of the kit."""
        at = term[1]
        text, local = self.text(at), self.local(self.text(at))
        if local is not None:
            self.put(at, [local])
            return local.type
        symbol = self.meaning(text)
        if symbol is not None and symbol.kind == "goal":
            self.goal_name(at, symbol.item)
            return None
        if symbol is not None:
            self.put(at, [symbol])
            return self.declared_type(symbol)
        rust = self.place.rust(text)
        if not rust:
            return self.kit_value(text)
        self.put(at, rust)
        if rust[0].kind == "const":
            return self.checkout.modelled(self.types.of(rust[0].module, rust[0].item.type, {}))
        return ("static", rust[0])

    def kit_value(self, text):
        """The types of the kit's constructors."""
        if text in ("true", "false"):
            return ("kit", "Bool", ())
        one, other = self.new_meta(), self.new_meta()
        made = {
            "None": ("kit", "Option", (one,)),
            "Some": ("function", (one,), ("kit", "Option", (one,))),
            "Ok": ("function", (one,), ("kit", "Result", (one, other))),
            "Err": ("function", (other,), ("kit", "Result", (one, other))),
            "inl": ("function", (one,), ("kit", "⊎", (one, other))),
            "inr": ("function", (other,), ("kit", "⊎", (one, other))),
        }
        return made.get(text)

    # ---- fields

    def term_field(self, term, expected):
        """A name behind an alias or a path, or the field of a value."""
        symbol = self.whole_path(term)
        if symbol is not None:
            return self.declared_type(symbol)
        found, symbol = self.behind_alias(term)
        if found:
            return symbol if isinstance(symbol, tuple) else self.declared_type(symbol) if symbol else None
        _, base, at = term
        type = self.unfolded(self.infer(base))
        if self.text(at) == "inside":
            return self.checkout.raw(self, base) or type
        local = self.local(self.text(base[1])) if type is None and base[0] == "name" and self.names is not None else None
        if local is not None and hasattr(local, "fields"):
            local.fields.add(self.text(at))
            self.names.bases[at] = local
        return self.projection(type, at)

    def projection(self, type, at):
        """The type of a field of what has this type."""
        text = self.text(at)
        if type is not None and type[0] in FACTS:
            return self.checkout.goal_field(self, type, at)
        if type is not None and type[0] == "tuple" and text.isdigit():
            return nth(type[1], int(text))
        found, result = self.member(type, at)
        if found:
            return result
        if text in REFERENCE_FIELDS or (text == "value" and type is not None):
            return type
        if text == "items" and type is not None and type[0] == "kit" and type[1] in LISTS:
            return ("kit", "List", type[2])
        self.unknown(at, type)
        return None

    def member(self, type, at):
        """Whether a type decides what its member is; and the type of that."""
        text, kind = self.text(at), type[0] if type is not None else None
        if kind == "labels":
            known = dict(type[1])
            self.note_clauses(type, [at] if text in known else [])
            if text not in known:
                self.unknown(at, type)
            return True, known.get(text)
        if kind == "static":
            members = [one for one in self.checkout.inside(type[1], text) if one.kind in ("variant", "const", "ghost", "field")]
            if not members:
                self.unknown(at, type)
        elif kind == "bound":
            members = self.checkout.member(type[1], text)
        elif kind == "type":
            return self.member_of_type(type, at)
        else:
            return False, None
        self.put(at, members)
        return True, self.declared_type(members[0]) if members else None

    def member_of_type(self, type, at):
        """The same for a field of a declared type, by its name or number, or a ghost member of a trait."""
        _, symbol, args = type
        text = self.text(at)
        fields = [one for one in symbol.members.get(text, ()) if one.kind == "field"]
        if fields:
            self.put(at, fields)
            return True, self.checkout.field_type(symbol, fields[0], args)
        ghosts = [one for one in self.checkout.member(symbol, text) if one.kind == "ghost"] if symbol.kind in ("trait", "ghosts") else []
        if ghosts:
            self.put(at, ghosts)
            return True, self.declared_type(ghosts[0])
        if text.isdigit() and symbol.kind == "struct":
            field = nth(symbol.item.fields, int(text))
            return True, self.checkout.modelled(self.types.field(symbol, args, field)) if field else None
        return False, None

    # ---- applications

    def term_apply(self, term, expected):
        """An application: its result helps to determine its arguments."""
        _, head, args = term
        word = self.text(head[1]) if head[0] == "name" else ""
        if word == "Type":
            return SORT
        if word in WRAPPERS and len(args) == 2 and self.local(word) is None:
            self.wrapped(term)
            return SORT
        type = self.infer(head)
        result = self.result_after(type, len(args))
        if expected is not None and result is not None:
            self.unify(result, expected)
        return self.instance(self.applied(type, args))

    def applied(self, type, args):
        """The type of a function of this type behind its arguments, whose types are determined."""
        later = []
        for one in args:
            type = self.unfolded(type)
            if one[0] == "implicit":
                self.infer(one[2])
                continue
            type = self.explicit(type)
            if type is None or type[0] != "function":
                later.append((one, None))
                type = None
                continue
            wanted, type = type[1][0], type[2]
            if wanted == SORT:
                self.type(one)
            elif one[0] in LATER:
                later.append((one, wanted))
            else:
                self.unify(wanted, self.infer(one, wanted))
        for one, wanted in later:
            self.unify(wanted, self.infer(one, wanted))
        return type

    def term_implicit(self, term, expected):
        """An argument by its name."""
        self.infer(term[2])

    def term_lambda(self, term, expected):
        """A function, whose arguments have the types that are written or expected."""
        _, binders, body = term
        self.scopes.append({})
        wanted, found = self.unfolded(expected), []
        for names, written, _ in binders:
            type = self.type(written) if written is not None else None
            for at in names:
                argument, wanted = (wanted[1][0], self.unfolded(wanted[2])) if wanted is not None and wanted[0] == "function" else (None, None)
                if type is not None:
                    self.unify(argument, type)
                found.append(self.declare(at, type if type is not None else argument).type)
        result = self.infer(body, wanted)
        self.scopes.pop()
        for one in reversed(found):
            result = ("function", (one,), result)
        return result

    def term_if(self, term, expected):
        """The type of a branch."""
        self.infer(term[1])
        one = self.infer(term[2], expected)
        other = self.infer(term[3], expected if expected is not None else one)
        return one if self.solved(one) is not None else other

    def term_elim(self, term, expected):
        """Cases: the type of the first whose type is known."""
        _, scrutinee, motive, cases = term
        type, result = self.infer(scrutinee), None
        if motive is not None:
            self.infer(motive, ("function", (type,), None))
        for patterns, body in cases:
            self.scopes.append({})
            is_constructed = len(patterns) > 1 and patterns[0][0] in ("name", "field")
            for one in [("apply", patterns[0], patterns[1:])] if is_constructed else patterns:
                self.pattern(one, type)
            found = self.infer(body, expected)
            result = result if result is not None else found
            self.scopes.pop()
        return result

    def term_let(self, term, expected):
        """A `let`: the type of its body."""
        return self.let(term, lambda body: self.infer(body, expected))

    # ---- records

    def term_record(self, term, expected):
        """A record, a changed one, or a type of records without a name."""
        _, base, fields = term
        if self.is_labels(term):
            self.type(term)
            return SORT
        type = self.infer(base) if base is not None else expected
        unfolded = self.unfolded(type)
        if unfolded and unfolded[0] == "labels":
            return self.labelled(type, unfolded, fields)
        labels = [self.text(at) for at, _ in fields]
        if not unfolded or unfolded[0] != "type":
            symbol = self.place.record_of(labels)
            unfolded = ("type", symbol, ()) if symbol else None
        for at, value in fields:
            self.record_field(unfolded, at, value, labels)
        return type if type is not None else unfolded

    def labelled(self, type, unfolded, fields):
        """A record whose type has labels and no name."""
        known = dict(unfolded[1])
        self.note_clauses(unfolded, [at for at, _ in fields])
        for at, value in fields:
            if self.text(at) not in known:
                self.unknown(at, unfolded)
            self.infer(value, known.get(self.text(at)))
        return type

    def record_field(self, type, at, value, labels):
        """A field of a record with these labels."""
        found = [one for one in type[1].members.get(self.text(at), ()) if one.kind == "field"] if type else []
        if found:
            self.put(at, found)
        else:
            self.unknown(at, type)
            if self.names is not None:
                self.names.literals[at] = frozenset(labels)
        self.infer(value, self.checkout.field_type(type[1], found[0], type[2]) if found else None)

    # ---- operators

    def term_tuple(self, term, expected):
        """A tuple."""
        wanted = self.unfolded(expected)
        parts = wanted[1] if wanted and wanted[0] == "tuple" else ()
        return ("tuple", tuple(self.infer(one, nth(parts, number)) for number, one in enumerate(term[1])))

    def term_operators(self, term, expected):
        """Terms between operators; a type of functions, pairs or alternatives has no type of interest."""
        _, operands, places = term
        if {self.text(at) for at in places} & {"→", "×", "⊎"}:
            self.operator_type(operands, places)
            return None
        return self.operators(operands, places, expected)

    def operators(self, operands, places, expected=None):
        """Terms between operators: at an equation the right side has the type of the left one."""
        words = [self.text(at) for at in places]
        for relation in ("↔", "≡", "≢", "=="):
            if relation in words:
                first = None
                for part, inner in self.split(operands, places, relation):
                    found = self.operators(part, inner, first)
                    first = first if self.solved(first) is not None else found
                return None
        if len(operands) == 1:
            return self.infer(operands[0], expected)
        if "∷" in words or "++" in words:
            return self.lists(operands, words, expected)
        first = words[0] if words else ""
        types = [self.infer(one, expected if first == ">>=" else None) for one in operands]
        if first == "∙":
            return None
        if first == ">>=":
            # what the function behind it gives
            last = self.solved(types[-1])
            return last[2] if last and last[0] == "function" else None
        return types[0] if types and first in ("+", "-", "*", "/", "%", "^") else ("kit", "Bool", ())

    def lists(self, operands, words, expected):
        """Items and lists that are joined to one."""
        item, found = nth(arguments_of(self.unfolded(expected)), 0), None
        for number, one in enumerate(operands):
            if nth(words, number) == "∷":
                found = self.infer(one, item)
                item = item if self.solved(item) is not None else found
            else:
                found = self.unfolded(self.infer(one, ("kit", "List", (item,)) if item is not None else expected))
                item = item if item is not None else nth(arguments_of(found), 0)
        return ("kit", "List", (item,)) if item is not None else expected or found

    def term_binding(self, term, expected):
        """A type as a value."""
        self.type(term)
