"""The items of a `.rt` source: types, traits, functions with their parameters and bodies, imports."""
from .lexing import rust_tokens

OPENING, CLOSING = {"(": ")", "[": "]", "{": "}"}, {")", "]", "}"}
QUALIFIERS = {"pub", "unsafe", "const", "async", "extern", "default"}


class Type:
    """A written type: a path with arguments, or `&`, `[]`, `()`, `fn`, with its parts. `path` has the tokens of the segments of a path."""

    __slots__ = ("head", "path", "args", "result")

    def __init__(self, head, path=(), args=(), result=None):
        self.head, self.path, self.args, self.result = head, path, args, result


class Field:
    """A field of a struct or variant, or a parameter: its name with its place, its type, and whether it is public; a field of a tuple has no place."""

    __slots__ = ("name", "at", "type", "public", "symbol")

    def __init__(self, name, at, type, public=False):
        self.name, self.at, self.type, self.public = name, at, type, public


class Item:
    """A declaration. `at` is the token of its name, `first` and `last` bound its tokens; the rest by kind."""

    def __init__(self, kind, name, at, **rest):
        self.kind, self.name, self.at = kind, name, at
        self.fields, self.variants, self.members, self.params, self.generics = [], [], [], [], []
        self.result = self.body = self.owner = self.trait = self.type = self.self_type = None
        self.first = self.last = at
        self.attributes = []
        self.public = False
        self.__dict__.update(rest)


class Use:
    """One imported name: the places of the segments of its path, and the name under which it is known."""

    __slots__ = ("path", "name")

    def __init__(self, path, name):
        self.path, self.name = path, name


class RustFile:
    """A source with its tokens, its clauses and its items.

    `inside` marks the tokens of clauses, and `next_code` has for each place the first token there or behind it that is code.
    """

    def __init__(self, text):
        self.text = text
        self.tokens, self.clauses = rust_tokens(text)
        self.clause_starts = {first for first, _, _ in self.clauses}
        self.inside = bytearray(len(self.tokens))
        for first, last, _ in self.clauses:
            self.inside[first:last] = b"\1" * (last - first)
        self.next_code = self.find_code()
        self.items, self.uses, self.mods = [], [], []
        Parser(self).items(0, len(self.tokens), self.items, None)

    def find_code(self):
        """The next token of code for each place."""
        following = len(self.tokens)
        found = [following] * (following + 1)
        for at in range(len(self.tokens) - 1, -1, -1):
            if self.tokens[at].kind != "comment" and not self.inside[at]:
                following = at
            found[at] = following
        return found


class Cursor:
    """Goes over the tokens of a source, past comments and clauses."""

    def __init__(self, file):
        self.file, self.tokens = file, file.tokens

    def text(self, at):
        return self.tokens[at].text if at < len(self.tokens) else ""

    def kind(self, at):
        return self.tokens[at].kind if at < len(self.tokens) else ""

    def skip(self, at):
        """The first token of code here or behind."""
        return self.file.next_code[min(at, len(self.tokens))]

    def after(self, at):
        """The first token of code behind this one."""
        return self.skip(at + 1)

    def before(self, at):
        """The token before this one that is no comment."""
        at -= 1
        while self.kind(at) == "comment":
            at -= 1
        return at

    def next_brace(self, at):
        """The place of the next opening brace."""
        while self.text(at) != "{":
            at = self.after(at)
        return at

    def behind_comma(self, at, end):
        """The place behind the next comma, or behind the end."""
        while at < end and self.text(at) != ",":
            at = self.after(at)
        return self.after(at)

    def close(self, at):
        """The place of the bracket that closes the one that stands here."""
        depth = 0
        while at < len(self.tokens):
            text = self.tokens[at].text if self.kind(at) == "mark" else ""
            if text in OPENING:
                depth += 1
            elif text in CLOSING:
                depth -= 1
                if depth == 0:
                    return at
            at = self.after(at)
        return at

    def angle(self, at):
        """The place behind the `>` that closes the `<` that stands here."""
        depth = 0
        while at < len(self.tokens):
            text = self.text(at)
            if text == "<":
                depth += 1
            elif text == ">":
                depth -= 1
                if depth == 0:
                    return self.after(at)
            at = self.after(at)
        return at


class Parser(Cursor):
    """Finds the items of a source."""

    def items(self, first, last, into, owner):
        """The items from one token up to another; `owner` is the trait or `impl` whose members they are."""
        at, attributes = self.skip(first), []
        while at < last:
            if self.text(at) == "#":
                opening = self.after(at)
                if self.text(opening) == "!":
                    opening = self.after(opening)
                attributes.append((opening, self.close(opening)))
                at = self.after(attributes[-1][1])
                continue
            at = self.item(at, into, owner, attributes)
            attributes = []

    def item(self, begun, into, owner, attributes):
        """The item that begins here, if one does; returns the place behind it."""
        at, public = self.qualifiers(begun)
        handler = getattr(self, f"item_{self.text(at)}", None)
        if handler:
            item, end = handler(at)
            if item is not None and (owner is not None or item.kind != "ghost"):
                item.attributes, item.public, item.first, item.last = attributes, public, begun, end
                item.owner = owner if item.kind == "fn" else None
                into.append(item)
            return self.after(end)
        if self.text(at) == "{" and owner is None:
            # the body of `extern`
            self.items(at + 1, self.close(at), into, owner)
            return self.after(self.close(at))
        return self.after(at)

    def qualifiers(self, at):
        """The place behind the words before an item, and whether it is public."""
        public = False
        while self.text(at) in QUALIFIERS and not (self.text(at) == "const" and self.text(self.after(at)) not in ("fn", "unsafe")):
            public = public or self.text(at) == "pub"
            at = self.after(at)
            if self.text(at) == "(":
                at = self.after(self.close(at))
            elif self.kind(at) == "string":
                at = self.after(at)
        return at, public

    def item_mod(self, at):
        """A module in a file of its own."""
        name = self.after(at)
        self.file.mods.append(name)
        return None, self.after(name)

    def item_use(self, at):
        """An import."""
        end = at
        while self.text(end) != ";":
            end = self.after(end)
        self.use_tree(self.after(at), end, [])
        return None, end

    def use_tree(self, at, end, path):
        """One tree of an import behind this path; returns the place behind it."""
        path = list(path)
        while at < end and self.text(at) not in (",", "}"):
            text = self.text(at)
            if text == "{":
                return self.use_list(at, path)
            if text == "as":
                alias = self.after(at)
                self.file.uses.append(Use(path, self.text(alias)))
                return self.after(alias)
            if text != "::":
                path.append(at)
            at = self.after(at)
        if path:
            if self.text(path[-1]) == "self":
                path.pop()
            self.file.uses.append(Use(path, self.text(path[-1])))
        return at

    def use_list(self, at, path):
        """The trees between the braces that open here."""
        closed = self.close(at)
        at = self.after(at)
        while at < closed:
            at = self.use_tree(at, closed, path)
            if self.text(at) == ",":
                at = self.after(at)
        return self.after(closed)

    def generics(self, at):
        """The names of the parameters in `<..>`, with their bounds, and the place behind them."""
        if self.text(at) != "<":
            return [], at
        end, names, depth = self.angle(at), [], 0
        begins = True
        while at < end:
            text = self.text(at)
            if text == "<":
                depth += 1
            elif text == ">":
                depth -= 1
            elif depth == 1 and text == ",":
                begins = True
                at = self.after(at)
                continue
            elif depth == 1 and begins and self.kind(at) == "name" and text != "const":
                bound = None
                if self.text(self.after(at)) == ":":
                    bound, _ = self.type(self.after(self.after(at)))
                names.append((text, bound))
                begins = False
            elif depth == 1 and self.kind(at) == "lifetime":
                begins = False
            at = self.after(at)
        return names, end

    def type(self, at):
        """The type that begins here, and the place behind it."""
        text = self.text(at)
        if text in ("&", "*", "&&"):
            at = self.after(at)
            while self.kind(at) == "lifetime" or self.text(at) in ("mut", "const"):
                at = self.after(at)
            return self.wrapped("&", at)
        if text in ("dyn", "impl"):
            return self.type(self.after(at))
        if text == "[":
            inner, _ = self.type(self.after(at))
            return Type("[]", args=(inner,)), self.after(self.close(at))
        if text == "(":
            return self.tuple_type(at)
        if text in ("fn", "Fn", "FnMut", "FnOnce"):
            opening = self.after(at)
            parts, end = self.tuple_type(opening)
            result = None
            if self.text(end) == "->":
                result, end = self.type(self.after(end))
            return Type("fn", args=parts.args if parts.head == "()" else (parts,), result=result), end
        if text == "<":
            end = self.angle(at)
            while self.text(end) == "::":
                end = self.after(self.after(end))
            return Type("?"), end
        return self.path_type(at)

    def wrapped(self, head, at):
        """A type behind a sign, as `&`."""
        inner, end = self.type(at)
        return Type(head, args=(inner,)), end

    def tuple_type(self, at):
        """A tuple of types, or one type in parentheses."""
        end, parts = self.close(at), []
        inner = self.after(at)
        while inner < end:
            part, inner = self.type(inner)
            parts.append(part)
            inner = self.behind_comma(inner, end)
        behind = self.after(end)
        if len(parts) == 1 and self.text(self.before(end)) != ",":
            return parts[0], behind
        return Type("()", args=tuple(parts)), behind

    def path_type(self, at):
        """A path with its arguments; further bounds behind `+` are passed over."""
        path, args = [], []
        while self.kind(at) == "name":
            path.append(at)
            at = self.after(at)
            if self.text(at) == "<":
                end = self.angle(at)
                args = self.type_args(self.after(at), end)
                at = end
            if self.text(at) != "::":
                break
            at = self.after(at)
            if self.text(at) == "<":
                end = self.angle(at)
                args = self.type_args(self.after(at), end)
                at = end
                break
        while self.text(at) == "+":
            _, at = self.type(self.after(at)) if self.kind(self.after(at)) != "lifetime" else (None, self.after(self.after(at)))
        if not path:
            return Type("?"), self.after(at)
        return Type("path", tuple(path), tuple(args)), at

    def type_args(self, at, end):
        """The types between angle brackets of which the last ends before `end`."""
        args = []
        while at < end and self.text(at) != ">":
            if self.kind(at) in ("lifetime", "number"):
                at = self.after(at)
            elif self.kind(at) == "name" and self.text(self.after(at)) == "=":
                part, at = self.type(self.after(self.after(at)))
                args.append(part)
            else:
                part, at = self.type(at)
                args.append(part)
            if self.text(at) == ",":
                at = self.after(at)
        return args

    def named_fields(self, at):
        """The fields between the braces of which the first stands here."""
        end, fields, public = self.close(at), [], False
        at = self.after(at)
        while at < end:
            text = self.text(at)
            if text == "#":
                at = self.after(self.close(self.after(at)))
            elif text == "pub":
                at, public = self.after(at), True
                if self.text(at) == "(":
                    at = self.after(self.close(at))
            elif text == "ghost":
                while at < end and self.text(at) != "}":
                    at = self.after(at)
                at = self.after(at)
                if self.text(at) in (",", ";"):
                    at = self.after(at)
            elif self.kind(at) == "name" and self.text(self.after(at)) == ":":
                type, behind = self.type(self.after(self.after(at)))
                fields.append(Field(text, at, type, public))
                at, public = self.behind_comma(behind, end), False
            else:
                at = self.after(at)
        return fields, end

    def tuple_fields(self, at):
        """The fields between parentheses, whose names are their numbers."""
        end, fields = self.close(at), []
        at = self.after(at)
        while at < end:
            while self.text(at) == "pub":
                at = self.after(at)
                if self.text(at) == "(":
                    at = self.after(self.close(at))
            type, at = self.type(at)
            fields.append(Field(str(len(fields)), None, type))
            at = self.behind_comma(at, end)
        return fields, end

    def item_struct(self, at):
        """A struct with named fields, with fields in parentheses, or with none."""
        name = self.after(at)
        generics, at = self.generics(self.after(name))
        item = Item("struct", self.text(name), name, generics=generics)
        while self.text(at) not in ("{", "(", ";"):
            at = self.after(at)
        end = at
        if self.text(at) == "{":
            item.fields, end = self.named_fields(at)
        elif self.text(at) == "(":
            item.fields, end = self.tuple_fields(at)
        return item, end

    def item_enum(self, at):
        """An enum with its variants."""
        name = self.after(at)
        generics, at = self.generics(self.after(name))
        while self.text(at) != "{":
            at = self.after(at)
        end = self.close(at)
        item = Item("enum", self.text(name), name, generics=generics)
        at = self.after(at)
        while at < end:
            text = self.text(at)
            if text == "#":
                at = self.after(self.close(self.after(at)))
                continue
            variant = Item("variant", text, at)
            at = self.after(at)
            if self.text(at) == "{":
                variant.fields, at = self.named_fields(at)
                at = self.after(at)
            elif self.text(at) == "(":
                variant.fields, at = self.tuple_fields(at)
                at = self.after(at)
            item.variants.append(variant)
            at = self.behind_comma(at, end)
        return item, end

    def item_type(self, at):
        """An alias of a type."""
        name = self.after(at)
        generics, at = self.generics(self.after(name))
        item = Item("alias", self.text(name), name, generics=generics)
        if self.text(at) == "=":
            item.type, at = self.type(self.after(at))
        while self.text(at) != ";":
            at = self.after(at)
        return item, at

    def item_const(self, at):
        """A constant, whose body is its value."""
        name = self.after(at)
        item = Item("const", self.text(name), name)
        at = self.after(name)
        if self.text(at) == ":":
            item.type, at = self.type(self.after(at))
        value = at
        while self.text(at) != ";":
            at = self.after(self.close(at)) if self.text(at) in OPENING else self.after(at)
        item.body = (value, at)
        return item, at

    item_static = item_const

    def item_fn(self, at):
        """A function: its clauses are passed over."""
        name = self.after(at)
        generics, at = self.generics(self.after(name))
        item = Item("fn", self.text(name), name, generics=generics)
        item.params, end = self.parameters(at)
        at = self.after(end)
        if self.text(at) == "->":
            item.result, at = self.type(self.after(at))
        while at < len(self.tokens) and not (self.text(at) in ("{", ";") and not self.is_clause_brace(at)):
            at = self.after(self.close(at)) if self.text(at) in OPENING else self.after(at)
        end = at
        if self.text(at) == "{":
            end = self.close(at)
            item.body = (at, end)
        return item, end

    def is_clause_brace(self, at):
        """Whether the brace that stands here opens the text of a clause."""
        return self.text(at) == "{" and at + 1 in self.file.clause_starts

    def parameters(self, at):
        """The parameters between the parentheses of which the first stands here."""
        end, params = self.close(at), []
        at = self.after(at)
        while at < end:
            stop = at
            while stop < end and self.text(stop) != ",":
                stop = self.after(self.close(stop)) if self.text(stop) in OPENING else self.angle(stop) if self.text(stop) == "<" else self.after(stop)
            while at < stop and (self.text(at) in ("&", "mut") or self.kind(at) == "lifetime"):
                at = self.after(at)
            if self.text(at) == "self":
                params.append(Field("self", at, None))
            elif self.kind(at) == "name" and self.text(self.after(at)) == ":":
                type, _ = self.type(self.after(self.after(at)))
                params.append(Field(self.text(at), at, type))
            else:
                params.append(Field("", None, None))
            at = self.after(stop)
        return params, end

    def item_trait(self, at):
        """A trait."""
        name = self.after(at)
        generics, at = self.generics(self.after(name))
        item = Item("trait", self.text(name), name, generics=generics)
        return self.block(at, item)

    def item_impl(self, at):
        """An `impl` block of a type, or of a trait for a type."""
        generics, at = self.generics(self.after(at))
        first, at = self.type(at)
        item = Item("impl", "", at, generics=generics, self_type=first)
        if self.text(at) == "for":
            item.trait = first
            item.self_type, at = self.type(self.after(at))
        return self.block(at, item)

    def block(self, at, item):
        """The members between the braces of a trait or an `impl`."""
        while self.text(at) != "{":
            at = self.after(at)
        end = self.close(at)
        self.items(at + 1, end, item.members, item)
        return item, end

    def item_ghost(self, at):
        """A ghost member of a trait or an `impl`; other ghost items have no name of their own."""
        name = self.after(at)
        if self.kind(name) != "name":
            return None, at
        item = Item("ghost", self.text(name), name)
        end = name
        while end < len(self.tokens) and self.text(end) != ";":
            end = self.after(end)
        return item, end
