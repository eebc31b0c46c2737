"""Variables and patterns in a text of definitions, proofs or contracts."""
from .declarations import Goals
from .rust_types import Local, Types, arguments_of, innermost, nth
from .unification import Unifier

# The constructors of the kit, and patterns that bind nothing.
CONSTRUCTORS = {"Some", "None", "Ok", "Err", "true", "false", "zero", "suc", "inl", "inr", "refl", "tt", "[]", "pos", "negsuc", "Less", "Equal", "Greater", "_", "?"}
TYPES = {"constructor", "variant"}
# What the name of a step of a proof begins with where it is an arm or a branch.
STEPS = ("then-", "else-", "in-")


class Patterns(Unifier):
    """The variables of one text, with what binds them. Where `names` is given, what the names mean is noted there."""

    def __init__(self, checkout, place, tokens, names=None):
        super().__init__(checkout)
        self.place, self.tokens, self.names, self.types = place, tokens, names, Types(checkout)
        # the variables by scope; the sections around them; the goal that is proved
        self.scopes, self.inside, self.goal = [{}], [], None

    def text(self, at):
        """The text of a token."""
        return self.tokens[at].text

    def put(self, at, symbols):
        """Notes what a name means."""
        if self.names is not None:
            self.names.put(at, [one for one in symbols if one is not None])

    def unknown(self, at, type):
        """Notes a member of a value of this type that is not found."""
        if self.names is not None and not self.text(at).isdigit():
            self.names.members[at] = type

    def goal_name(self, at, space):
        """Notes the name of a goal."""
        if self.names is not None:
            self.names.goals[at] = space

    def meaning(self, name):
        """What a name means that is no variable."""
        return self.place.get(name)

    def declared_type(self, symbol):
        """The type of what is declared, each implicit argument still to be determined."""
        return self.instance(self.checkout.signature(symbol, self.inside))

    # ---- variables

    def bind(self, at, type):
        """Binds the variable of this token."""
        local = self.scopes[-1][self.text(at)] = Local(self.text(at), type, at)
        if self.names is not None:
            self.names.symbols[at] = [local]
        return local

    def local(self, name):
        """The variable that a name means here."""
        return innermost(self.scopes, name)

    def declare(self, at, type):
        """Binds a name of this type; a name of a type stands for one."""
        local = self.bind(at, type)
        if type == ("sort",) or (type and type[0] == "function" and self.ends_in_sort(type)):
            local.type = ("is", ("variable", f"{local.name}@{id(self.place)}:{at}", None)) if type == ("sort",) else type
        return local

    def ends_in_sort(self, type):
        """Whether a function gives types after all arguments."""
        while type and type[0] == "function":
            type = type[2]
        return type == ("sort",)

    # ---- patterns

    def pattern(self, term, type):
        """Binds the variables of a pattern for a value of this type."""
        handler = getattr(self, f"pattern_{term[0]}", None)
        if handler:
            handler(term, self.unfolded(type))

    def pattern_name(self, term, type):
        """A variable, or a constructor without parts."""
        symbol = self.meaning(self.text(term[1]))
        if self.text(term[1]) in CONSTRUCTORS:
            return
        if symbol is not None and symbol.kind in TYPES:
            self.put(term[1], [symbol])
        else:
            self.declare(term[1], type)

    def pattern_tuple(self, term, type):
        """A tuple, or a record without its labels."""
        types = type[1] if type and type[0] == "tuple" else ()
        if type and type[0] == "type" and type[1].kind in ("record", "struct"):
            types = [self.checkout.field_type(type[1], one, type[2]) for ones in type[1].members.values() for one in ones if one.kind == "field"]
        for number, one in enumerate(term[1]):
            self.pattern(one, nth(types, number))

    def pattern_operators(self, term, type):
        """Items before a list."""
        *items, rest = term[1]
        for one in items:
            self.pattern(one, nth(arguments_of(type), 0))
        self.pattern(rest, type)

    def pattern_record(self, term, type):
        """A record with its labels."""
        for at, value in term[2]:
            found = type[1].members.get(self.text(at), []) if type and type[0] == "type" else []
            self.put(at, found)
            if not found:
                self.unknown(at, type)
            self.pattern(value, self.checkout.field_type(type[1], found[0], type[2]) if found else None)

    def pattern_implicit(self, term, type):
        """An argument by its name."""
        self.pattern(term[2], None)

    def pattern_other(self, term, type):
        """What has no meaning here."""
        for one in term[1]:
            self.pattern(one, None)

    def pattern_apply(self, term, type):
        """A constructor with its parts; in an answer also a goal or a step with what is known in it."""
        _, head, args = term
        symbol = self.constructor(head)
        text = self.text(head[1]) if head[0] == "name" else ""
        is_constructor = symbol is not None and symbol.kind in TYPES or text in CONSTRUCTORS
        for number, one in enumerate(args):
            if symbol is not None and symbol.kind == "goal":
                self.pattern(one, ("goal", symbol.item, text))
            elif not is_constructor and text.startswith(STEPS):
                self.pattern(one, self.goal)
            else:
                self.pattern(one, self.part(text, symbol, number, type))

    def pattern_field(self, term, type):
        """A constructor behind an alias or a type."""
        self.constructor(term)

    def constructor(self, head):
        """What the head of a pattern means."""
        if head[0] == "name":
            symbol = self.meaning(self.text(head[1]))
            if symbol is not None and symbol.kind == "goal":
                self.goal_name(head[1], symbol.item)
            elif symbol is not None and symbol.kind in TYPES:
                self.put(head[1], [symbol])
            return symbol
        _, base, at = head
        name = self.text(base[1]) if base[0] == "name" else None
        space = self.place.alias(name) if name else None
        symbol = space.get(self.text(at)) if space is not None and not isinstance(space, Goals) else None
        owner = (self.meaning(name) or next(iter(self.place.rust(name)), None)) if name and symbol is None else None
        if owner is not None:
            self.put(base[1], [owner])
            symbol = next(iter(self.checkout.inside(owner, self.text(at))), None)
        self.put(at, [symbol])
        return symbol

    def part(self, name, symbol, number, type):
        """The type of a part of what a constructor makes."""
        if symbol is None or symbol.kind not in TYPES:
            return nth(arguments_of(type), 1 if name in ("Err", "inr") else 0)
        made = self.declared_type(symbol)
        self.unify(self.final_result(made), type)
        made = self.unfolded(self.result_after(made, number))
        return made[1][0] if made and made[0] == "function" else None
