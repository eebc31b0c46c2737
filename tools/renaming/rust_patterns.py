"""Variables and patterns in the code of a `.rt` source, and the paths of types that it writes."""
from .rust_syntax import OPENING, Cursor, Parser
from .rust_types import Local, Names, Types, arguments_of, innermost, nth

KEYWORDS = set(
    "if else match while for loop let return break continue mut ref in as move unsafe fn struct enum impl use pub const static where type trait mod dyn true false crate super "
    "self Self extern async await".split()
)
# Words that name nothing in a pattern.
UNNAMED = KEYWORDS - {"self", "Self", "crate", "super"} | {"box"}
CONSTANTS = ("const", "variant")


class Patterns(Cursor):
    """Names what patterns bind and what types are written; the paths of constructors are named by what goes over expressions."""

    def __init__(self, checkout, module):
        super().__init__(module.source)
        self.checkout, self.module, self.source = checkout, module, module.source
        self.types, self.parser, self.names = Types(checkout), Parser(module.source), Names()
        self.scopes, self.self_type, self.generic = [], None, {}
        self.function, self.functions = None, []

    # ---- variables

    def bind(self, at, type):
        """Binds the variable of this token."""
        local = self.scopes[-1][self.text(at)] = Local(self.text(at), type, at)
        self.names.put(at, [local])
        if self.function is not None:
            self.function.locals.append(local)
        return local

    def local(self, name):
        """The variable that a name means here."""
        return innermost(self.scopes, name)

    def visible(self):
        """All variables that are in scope, by name."""
        found = {}
        for scope in self.scopes:
            found.update(scope)
        return found

    # ---- written types

    def written(self, first, last, generic):
        """The names of types between two tokens, where no values stand."""
        at = self.skip(first)
        while at < last:
            if self.text(at) in ("requires", "ensures", "ghost"):
                at = self.after(self.close(self.next_brace(at)))
            elif self.kind(at) == "name" and at not in self.names.symbols and self.text(at) not in KEYWORDS | {"Self"} and self.text(at) not in generic:
                at = self.path(at, last)
            else:
                at = self.after(at)

    def path(self, at, last):
        """Names the parts of the path that begins here, and returns the place behind it."""
        path = [at]
        at = self.after(at)
        while self.text(at) == "::" and self.kind(self.after(at)) == "name" and at < last:
            path.append(self.after(at))
            at = self.after(path[-1])
        names = [self.text(one) for one in path]
        if names[0] == "Self" or (len(path) == 1 and self.text(at) == ":"):
            return at
        for one, symbols in zip(path, self.checkout.rust_path(self.module, names)):
            if self.text(one) not in ("crate", "self", "super"):
                self.names.put(one, symbols)
        return at

    def written_type(self, at):
        """The type that is written here, with its names noted; and the place behind it."""
        written, behind = self.parser.type(at)
        self.written(at, behind, self.generic)
        return self.types.of(self.module, written, self.generic, self.self_type), behind

    # ---- patterns

    def pattern_end(self, at, end, stops):
        """The place of the first of these words, outside brackets."""
        while at < end and self.text(at) not in stops:
            at = self.after(self.close(at)) if self.text(at) in OPENING else self.after(at)
        return at

    def pattern(self, at, end, type):
        """Binds the variables of the pattern between two tokens."""
        at = self.skip(at)
        while at < end:
            if self.text(at) in ("(", "["):
                at = self.pattern_in_brackets(at, type)
            elif self.kind(at) == "name" and self.text(at) not in UNNAMED:
                at = self.named_pattern(at, end, type)
            else:
                at = self.after(at)

    def parts(self, at, end):
        """The pieces between commas."""
        pieces, first = [], at
        while at < end:
            if self.text(at) == ",":
                pieces.append((first, at))
                at = first = self.after(at)
            elif self.text(at) in OPENING:
                at = self.after(self.close(at))
            else:
                at = self.after(at)
        if first < end:
            pieces.append((first, end))
        return pieces

    def pattern_in_brackets(self, at, type):
        """A tuple, or one pattern in parentheses; or the pattern of a slice. Returns the place behind it."""
        closed = self.close(at)
        parts = self.parts(self.after(at), closed)
        if self.text(at) == "[":
            types = [type if any(self.text(one) == ".." for one in range(first, last)) else nth(arguments_of(type), 0) for first, last in parts]
        elif len(parts) == 1 and self.text(self.before(closed)) != ",":
            types = [type]
        else:
            types = type[1] if type and type[0] == "tuple" else ()
        for number, (first, last) in enumerate(parts):
            self.pattern(first, last, nth(types, number))
        return self.after(closed)

    def named_pattern(self, at, end, type):
        """A pattern that begins with a name: a variable, a constant, or a constructor; returns the place behind it."""
        if self.text(self.after(at)) not in ("::", "(", "{"):
            return self.variable_pattern(at, end, type)
        symbols, behind, _ = self.value_path(at)
        fields, args = self.pattern_fields(symbols, self.text(self.before(behind)), type)
        opening = self.text(behind)
        if opening not in ("(", "{"):
            return behind
        closed = self.close(behind)
        owner = next((one for one in symbols if one.kind in ("struct", "variant")), None)
        for number, (first, last) in enumerate(self.parts(self.after(behind), closed)):
            if opening == "(":
                self.pattern(first, last, nth(fields, number))
            else:
                self.field_pattern(owner, args, first, last)
        return self.after(closed)

    def variable_pattern(self, at, end, type):
        """A variable, perhaps with a pattern behind `@`, or a constant."""
        name, behind = self.text(at), self.after(at)
        known = [one for one in self.module.names.get(name, ()) if one.kind in CONSTANTS or (one.kind == "struct" and not one.item.fields)]
        if name == "_" or known or name == "None":
            self.names.put(at, known)
            return behind
        self.bind(at, type)
        if self.text(behind) == "@":
            behind = self.after(behind)
            inner = self.pattern_end(behind, end, (",", "|"))
            self.pattern(behind, inner, type)
            return inner
        return behind

    def pattern_fields(self, symbols, name, type):
        """The types of the parts of a pattern by its constructor."""
        if name in ("Some", "Ok", "Err"):
            return [nth(arguments_of(type), name == "Err")], ()
        args = type[2] if type and type[0] == "type" else ()
        for symbol in symbols:
            if symbol.kind in ("variant", "struct"):
                owner = symbol.owner if symbol.kind == "variant" else symbol
                return [self.types.field(owner, args, one) for one in symbol.item.fields], args
        return [], args

    def field_pattern(self, owner, args, first, last):
        """The pattern of one named field."""
        while self.text(first) in ("ref", "mut", "&"):
            first = self.after(first)
        if self.text(first) == "..":
            return
        name = self.text(first)
        field = next((one for one in owner.members.get(name, ()) if one.kind == "field"), None) if owner else None
        type = None
        if field:
            type = self.types.field(owner.owner if owner.kind == "variant" else owner, args, field.item)
        if self.text(self.after(first)) == ":":
            self.member_at(first, [field] if field else None, None)
            self.pattern(self.after(self.after(first)), last, type)
            return
        local = self.bind(first, type)
        self.short(first, [field] if field else None, local)

    def member_at(self, at, symbols, type):
        """Notes what a member means, or that this is not known."""
        if symbols:
            self.names.put(at, symbols)
        else:
            self.names.members[at] = type

    def short(self, at, fields, local):
        """A name that is a field and a variable."""
        self.names.shorthand[at] = (fields or [], [local] if local else [])
        self.names.symbols.pop(at, None)
