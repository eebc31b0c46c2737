"""The types of expressions in the code of a `.rt` source."""
from .rust_patterns import Patterns
from .rust_syntax import CLOSING, OPENING
from .rust_types import BOOL, NOTHING, NUMBER, RANGE, Label, better, bound_function, filled, item_of, kit_parameters, kit_result, match_types, nth

# What ends an expression, and the words that begin an item within a block.
ENDS = (";", ",", "=>", "else", *CLOSING)
ITEMS = ("const", "static", "use", "fn", "struct", "enum", "impl")
COMPARISONS = ("&&", "||", "==", "!=", "<", ">", "<=", ">=")


class Expressions(Patterns):
    """Goes over blocks and expressions, and names what stands in them."""

    # ---- statements

    def block(self, at):
        """The block whose brace stands here; returns its type. It is left behind its closing brace by the caller."""
        end = self.close(at)
        self.scopes.append({})
        at, type = self.after(at), NOTHING
        while at < end:
            text = self.text(at)
            type = NOTHING
            if text == ";":
                at = self.after(at)
            elif text == "let":
                at = self.let(at, end)
            elif text == "#":
                at = self.after(self.close(self.after(at)))
            elif text in ITEMS:
                at = self.inner_item(at)
            else:
                before = at
                type, at = self.expression(at, end)
                if at == before:
                    at = self.after(at)
                if self.text(at) == ";":
                    type = NOTHING
                    at = self.after(at)
        self.scopes.pop()
        return type

    def inner_item(self, at):
        """An item in a block: of these a constant has a name that the block uses."""
        if self.text(at) == "const":
            item, last = self.parser.item_const(at)
            self.bind(item.at, self.types.of(self.module, item.type, self.generic, self.self_type))
            self.written(item.at + 1, item.body[0], self.generic)
            self.expression(self.after(item.body[0]), item.body[1])
            return self.after(last)
        return self.after(at)

    def let(self, at, end):
        """A `let`, perhaps with `else`; returns the place behind it."""
        pattern = self.after(at)
        behind = self.pattern_end(pattern, end, ("=", ":", ";"))
        type, at = None, behind
        if self.text(at) == ":":
            type, at = self.written_type(self.after(at))
        if self.text(at) == "=":
            before = len(self.function.ended)
            found, at = self.expression(self.after(at), end, expected=type)
            type = type or found
            for call in self.last_call(before):
                for one in range(pattern, behind):
                    if self.kind(one) == "name":
                        self.function.lets.setdefault(self.text(one), []).append(call)
        if self.text(at) == "else":
            opening = self.after(at)
            self.block(opening)
            at = self.after(self.close(opening))
        self.pattern(pattern, behind, type)
        return at

    # ---- expressions

    def expression(self, at, end, expected=None, literal=True):
        """The expression that begins here, up to what ends it: its type, and the place behind it. Without `literal` a brace ends it."""
        type, operands = None, []
        at = self.skip(at)
        while at < end and self.text(at) not in ENDS and not (self.text(at) == "{" and (operands or not literal)):
            found, behind = self.operand(at, end, None if operands else expected, literal)
            if behind == at:
                at = self.after(at)
                continue
            operands.append(found)
            at = behind
            if self.text(at) == "as":
                _, at = self.parser.type(self.after(at))
                operands[-1] = NUMBER
            elif self.kind(at) == "mark" and self.text(at) not in (*ENDS, "{", "?"):
                operator, at = self.operator(at)
                type = self.operator_type(operator) or type or operands[0]
            else:
                break
        return type or nth(operands, 0), at

    def operator(self, at):
        """The operator that begins here, of one sign or several, and the place behind it."""
        operator, at = self.text(at), self.after(at)
        while self.text(at) in ("=", "<", ">", "&", "|") and self.tokens[at - 1].end == self.tokens[at].start and operator not in ("..", "..=", "==", "!="):
            operator += self.text(at)
            at = self.after(at)
        return operator, at

    def operator_type(self, operator):
        """The type of what an operator gives; None where it is that of its operands."""
        if operator in COMPARISONS:
            return BOOL
        if operator in ("..", "..="):
            return RANGE
        return NOTHING if operator.endswith("=") else None

    def operand(self, at, end, expected, literal):
        """A value with what is asked of it."""
        text = self.text(at)
        while text in ("&", "*", "-", "!", "&&", "mut", "box"):
            at = self.after(at)
            text = self.text(at)
        if text in ("..", "..="):
            behind = self.after(at)
            if self.text(behind) in CLOSING or self.text(behind) == ",":
                return RANGE, behind
            _, behind = self.operand(behind, end, None, literal)
            return RANGE, behind
        type, at = self.primary(at, end, expected, literal)
        return self.postfix(type, at, end)

    def primary(self, at, end, expected, literal):
        """A value before its postfixes, and the place behind it."""
        text, kind = self.text(at), self.kind(at)
        if kind == "number":
            return NUMBER, self.after(at)
        if kind == "string":
            return ("kit", "[]", ()), self.after(at)
        if kind == "char":
            return NUMBER, self.after(at)
        if kind == "lifetime":
            self.label(at)
            at = self.after(at)
            return (None, self.after(at)) if self.text(at) == ":" else (None, at)
        if text in ("true", "false"):
            return BOOL, self.after(at)
        if text == "(":
            return self.parenthesised(at, expected)
        if text == "[":
            return self.array(at, expected)
        if text == "{":
            return self.block(at), self.after(self.close(at))
        if text in ("|", "||"):
            return self.closure(at, end, expected)
        handler = getattr(self, f"word_{text}", None) if kind == "name" else None
        if handler:
            return handler(at, end, expected)
        if kind == "name":
            return self.named(at, end, expected, literal)
        return None, at

    def parenthesised(self, at, expected):
        """A tuple, or one expression in parentheses."""
        closed, types = self.close(at), []
        parts = self.parts(self.after(at), closed)
        wanted = expected[1] if expected and expected[0] == "tuple" else ()
        single = len(parts) == 1 and self.text(self.before(closed)) != ","
        for number, (first, last) in enumerate(parts):
            want = expected if single else wanted[number] if number < len(wanted) else None
            types.append(self.expression(first, last, want)[0])
        behind = self.after(closed)
        return (types[0] if single else ("tuple", tuple(types))), behind

    def array(self, at, expected):
        """An array in brackets."""
        closed, type = self.close(at), None
        inner = self.after(at)
        wanted = expected[2][0] if expected and expected[0] == "kit" and expected[2] else None
        while inner < closed:
            found, inner = self.expression(inner, closed, wanted)
            type = type or found
            if self.text(inner) in (",", ";"):
                inner = self.after(inner)
        return ("kit", "[]", (type or wanted,)), self.after(closed)

    def closure(self, at, end, expected):
        """A closure, whose parameters have the types that are expected of a function here."""
        wanted = expected[1] if expected and expected[0] == "function" else ()
        self.scopes.append({})
        at = self.closure_parameters(at, wanted) if self.text(at) == "|" else self.after(at)
        if self.text(at) == "->":
            _, at = self.written_type(self.after(at))
        while self.text(at) in ("requires", "ensures"):
            at = self.after(self.close(self.next_brace(at)))
        result, at = self.expression(at, end)
        self.scopes.pop()
        return ("function", tuple(wanted), result), at

    def closure_parameters(self, at, wanted):
        """Binds the parameters between two bars; returns the place behind them."""
        at, number = self.after(at), 0
        while self.text(at) != "|":
            begun = at
            behind = at = self.pattern_end(at, len(self.tokens), (",", "|", ":"))
            type = nth(wanted, number)
            if self.text(at) == ":":
                type, at = self.written_type(self.after(at))
            self.pattern(begun, behind, type)
            if self.text(at) == ",":
                at = self.after(at)
            number += 1
        return self.after(at)

    # Each of these handles the expression that begins with its word; returns its type and the place behind it.

    def word_if(self, at, end, expected):
        """`if`, perhaps with `else`."""
        self.scopes.append({})
        at = self.condition(self.after(at), end)
        type = self.block(at)
        at = self.after(self.close(at))
        self.scopes.pop()
        if self.text(at) == "else":
            at = self.after(at)
            if self.text(at) == "if":
                other, at = self.word_if(at, end, expected)
            else:
                other = self.block(at)
                at = self.after(self.close(at))
            type = better(type, other)
        return type, at

    def condition(self, at, end):
        """The test of an `if` or `while`; returns the place of the brace behind it."""
        while at < end and self.text(at) != "{":
            if self.text(at) == "let":
                pattern = self.after(at)
                behind = self.pattern_end(pattern, end, ("=",))
                type, at = self.operand(self.after(behind), end, None, False)
                self.pattern(pattern, behind, type)
            elif self.text(at) == "&&":
                at = self.after(at)
            else:
                before = at
                _, at = self.expression(at, end, literal=False)
                if at == before:
                    at = self.after(at)
        return at

    def word_while(self, at, end, expected):
        """A loop with a test."""
        self.scopes.append({})
        at = self.condition(self.after(at), end)
        self.block(at)
        self.scopes.pop()
        return NOTHING, self.after(self.close(at))

    def word_loop(self, at, end, expected):
        """A loop without a test."""
        at = self.after(at)
        self.block(at)
        return None, self.after(self.close(at))

    def word_unsafe(self, at, end, expected):
        """An unsafe block."""
        at = self.after(at)
        return self.block(at), self.after(self.close(at))

    def word_for(self, at, end, expected):
        """A loop over items."""
        pattern = self.after(at)
        behind = self.pattern_end(pattern, end, ("in",))
        type, at = self.expression(self.after(behind), end, literal=False)
        self.scopes.append({})
        self.pattern(pattern, behind, item_of(type))
        if self.text(at) == "{":
            self.block(at)
            at = self.after(self.close(at))
        self.scopes.pop()
        return NOTHING, at

    def word_match(self, at, end, expected):
        """`match`: the type of its arms; and the calls whose results they take apart."""
        before = len(self.function.ended)
        type, at = self.expression(self.after(at), end, literal=False)
        calls = self.last_call(before)
        closed, result = self.close(at), None
        at = self.after(at)
        while at < closed:
            if self.text(at) == "#":
                at = self.after(self.close(self.after(at)))
                continue
            self.scopes.append({})
            stop = self.pattern_end(at, closed, ("=>", "if"))
            self.pattern(at, stop, type)
            for one in range(at, stop):
                if calls and self.kind(one) == "name":
                    self.function.arms.setdefault(self.text(one), []).extend(calls)
            at = stop
            if self.text(at) == "if":
                at = self.guard(self.after(at), closed)
            at = self.after(at)
            found, at = self.expression(at, closed, expected)
            result = better(result, found)
            self.scopes.pop()
            if self.text(at) == ",":
                at = self.after(at)
        return result, self.after(closed)

    def guard(self, at, end):
        """The test of an arm; returns the place of the arrow behind it."""
        while at < end and self.text(at) != "=>":
            before = at
            _, at = self.expression(at, end)
            if at == before:
                at = self.after(at)
        return at

    def word_return(self, at, end, expected):
        """`return`, perhaps with a value."""
        at = self.after(at)
        if self.text(at) in (";", "}", ","):
            return None, at
        _, at = self.expression(at, end, self.function.result)
        return None, at

    def word_break(self, at, end, expected):
        """`break` and `continue`, perhaps with a label and a value."""
        at = self.after(at)
        if self.kind(at) == "lifetime":
            self.label(at)
            at = self.after(at)
        if self.text(at) in (";", "}", ","):
            return None, at
        return self.expression(at, end)

    word_continue = word_break

    def label(self, at):
        """The label of a loop, where it is set or used."""
        name = self.text(at)
        if name[1:] not in self.function.labels:
            self.function.labels[name[1:]] = Label(name, next((one for one in self.function.locals if one.name == name[1:]), None))
        self.names.labels[at] = self.function.labels[name[1:]]

    def word_move(self, at, end, expected):
        """A closure that takes what it uses."""
        return self.primary(self.after(at), end, expected, True)

    def word_let(self, at, end, expected):
        """A `let` within a test."""
        return None, self.condition(at, end)

    # ---- paths as values

    def value_path(self, at):
        """The path that begins here: what its last part means, the place behind it, and the type of which it is a member."""
        path, behind = self.path_parts(at)
        names = [self.text(one) for one in path]
        if names == ["Self"] and self.self_type and self.self_type[0] == "type":
            return [self.self_type[1]], behind, self.self_type
        found, owner = self.path_meanings(names)
        for number, (one, symbols) in enumerate(zip(path, found)):
            if len(symbols) > 1:
                # of a module, a type and a function of one name
                unwanted = "module" if one == path[-1] else "fn"
                found[number] = [symbol for symbol in symbols if symbol.kind != unwanted] or symbols
            if names[number] not in ("crate", "self", "super", "Self"):
                self.names.put(one, found[number])
        return found[-1], behind, owner or self.path_owner(found)

    def path_parts(self, at):
        """The names of the path that begins here, without its arguments, and the place behind it."""
        path, at = [at], self.after(at)
        while self.text(at) == "::":
            behind = self.after(at)
            if self.text(behind) == "<":
                at = self.angle(behind)
                self.written(behind, at, self.generic)
            else:
                path.append(behind)
                at = self.after(behind)
        return path, at

    def path_meanings(self, names):
        """What each part of a path may mean, and the type of which its last part is a member where the path begins with that type."""
        if names[0] == "Self":
            here, found = [self.self_type[1]] if self.self_type and self.self_type[0] == "type" else [], [[]]
            for name in names[1:]:
                here = [one for symbol in here for one in self.checkout.inside(symbol, name)]
                found.append(here)
            return found, self.self_type
        if names[0] in self.generic and len(names) > 1:
            type = self.generic[names[0]]
            bound = type[2] if type and type[0] == "variable" else None
            members = self.checkout.member(bound[1], names[1]) if bound and bound[0] == "type" else []
            return [[], members, *([] for _ in names[2:])], type
        return self.checkout.rust_path(self.module, names), None

    def path_owner(self, found):
        """The type that the last part but one of a path names."""
        types = [one for one in found[-2] if one.kind in ("struct", "enum", "trait", "alias")] if len(found) > 1 else []
        if not types:
            return None
        if types[0].kind == "alias" and types[0].item.type:
            return self.types.of(types[0].module, types[0].item.type, self.types.owner_args(types[0], ()))
        return ("type", types[0], ())

    def named(self, at, end, expected, literal):
        """A value that begins with a name: a variable, a call, a literal, a constant or a macro."""
        name, behind = self.text(at), self.after(at)
        if self.text(behind) == "!" and self.text(self.after(behind)) in OPENING:
            return self.macro(at)
        if name == "self" and self.text(behind) != "::":
            return self.self_type, behind
        if self.text(behind) != "::":
            local = self.local(name)
            if local and not (self.text(behind) == "{" and literal and name[:1].isupper()):
                self.names.put(at, [local])
                return local.type, behind
        symbols, behind, owner = self.value_path(at)
        if self.text(behind) == "{" and literal and (symbols or name[:1].isupper()) and self.is_literal(symbols):
            return self.literal(symbols, behind, expected)
        if self.text(behind) == "(":
            return self.call(symbols, owner, behind, self.text(self.before(behind)), expected)
        for symbol in symbols:
            if symbol.kind == "variant":
                return ("type", symbol.owner, expected[2] if expected and expected[0] == "type" else ()), behind
            if symbol.kind == "const":
                return self.types.of(symbol.module, symbol.item.type, {}, owner), behind
            if symbol.kind == "struct" and not symbol.item.fields:
                return ("type", symbol, ()), behind
            if symbol.kind in ("fn", "method"):
                return self.function_type(symbol, owner), behind
        if name == "None":
            return expected or ("kit", "Option", (None,)), behind
        return None, behind

    def is_literal(self, symbols):
        """Whether a brace behind these opens the fields of a literal."""
        return any(one.kind in ("struct", "variant", "alias") for one in symbols) or not symbols

    def function_type(self, symbol, owner):
        """The type of a function that is passed as a value."""
        item = symbol.item
        generic = self.signature_generic(symbol)
        own = ("variable", "Self", None)
        params = tuple(owner or own if one.name == "self" else self.types.of(symbol.module, one.type, generic, owner) for one in item.params)
        return ("function", params, self.types.of(symbol.module, item.result, generic, owner))

    def signature_generic(self, symbol):
        """The type parameters of a function and of its block."""
        lists = [symbol.item.generics]
        if symbol.item.owner is not None and hasattr(symbol.item.owner, "generics"):
            lists.insert(0, symbol.item.owner.generics)
        return self.types.generics(symbol.module, *lists)

    def call(self, symbols, owner, at, name, expected):
        """A call by a path, whose parentheses open here."""
        if name in ("Some", "Ok", "Err") and not symbols:
            return self.wrap(name, at, expected)
        for symbol in symbols:
            if symbol.kind in ("fn", "method"):
                return self.called(symbol, owner, at, symbol.item.params, expected)
            if symbol.kind in ("variant", "struct"):
                return self.built(symbol, at, expected)
        types = self.arguments(at, ())
        if name in ("take", "replace", "identity", "drop") and types:
            return types[0], self.after(self.close(at))
        if name in ("new", "default") and owner:
            return owner, self.after(self.close(at))
        return None, self.after(self.close(at))

    def wrap(self, name, at, expected):
        """`Some`, `Ok` or `Err` of a value."""
        args = expected[2] if expected and expected[0] == "kit" else ()
        wanted = (args[1] if len(args) > 1 else None) if name == "Err" else args[0] if args else None
        types = self.arguments(at, (wanted,))
        behind = self.after(self.close(at))
        if expected and expected[0] == "kit" and all(one is not None for one in args):
            return expected, behind
        inner = types[0] if types else None
        if name == "Some":
            return ("kit", "Option", (inner,)), behind
        return ("kit", "Result", (inner, None) if name == "Ok" else (None, inner)), behind

    def arguments(self, at, wanted, found=None):
        """The types of the arguments between the parentheses that open here; they determine the type parameters in `found`."""
        closed, types = self.close(at), []
        at = self.after(at)
        while at < closed:
            want = nth(wanted, len(types))
            if found is not None:
                want = bound_function(want)
            type, behind = self.expression(at, closed, filled(want, found or {}))
            match_types(want, type, found if found is not None else {})
            types.append(type)
            if behind == at:
                behind = self.after(at)
            at = self.after(behind) if self.text(behind) in (",", ";") else behind
        return types

    def called(self, symbol, owner, at, params, expected):
        """A call of a known function; `params` are those that the arguments answer."""
        generic, written, found, expecting = self.signature_generic(symbol), self.owner_type(symbol), {}, {}
        match_types(written, owner, found)
        itself = owner or written
        result = self.types.of(symbol.module, symbol.item.result, generic, itself)
        match_types(result, expected, expecting)
        found = {**expecting, **found}
        wanted = [itself if one.name == "self" else self.types.of(symbol.module, one.type, generic, itself) for one in params]
        self.arguments(at, wanted, found)
        self.note_call(symbol)
        return filled(result, found), self.after(self.close(at))

    def note_call(self, symbol):
        """Notes that the function calls another one."""
        known = self.function.calls.setdefault(symbol.name, [])
        if symbol not in known:
            known.append(symbol)
        self.function.ended.append(symbol)

    def last_call(self, before):
        """The last call that ended since there were so many."""
        return self.function.ended[-1:] if len(self.function.ended) > before else []

    def owner_type(self, symbol):
        """The type of which a function is a method, as its `impl` writes it."""
        block = symbol.item.owner
        if block is None:
            return None
        if block.kind == "impl":
            return self.types.of(symbol.module, block.self_type, self.types.generics(symbol.module, block.generics))
        return ("variable", "Self", ("type", block.symbol, ()))

    def built(self, symbol, at, expected):
        """A variant or tuple struct with its values."""
        owner = symbol.owner if symbol.kind == "variant" else symbol
        generic = self.types.generics(owner.module, owner.item.generics)
        found = {}
        if expected and expected[0] == "type" and expected[1] is owner:
            found = self.types.owner_args(owner, expected[2])
        wanted = [self.types.of(owner.module, one.type, generic) for one in symbol.item.fields]
        types = self.arguments(at, [filled(one, found) for one in wanted])
        for want, type in zip(wanted, types):
            match_types(want, type, found)
        return ("type", owner, tuple(found.get(name) for name, _ in owner.item.generics)), self.after(self.close(at))

    def literal(self, symbols, at, expected):
        """A struct or variant with named fields between the braces that open here: its type, and the place behind it."""
        symbol = self.literal_symbol(symbols)
        whole = (symbol.owner if symbol.kind == "variant" else symbol) if symbol else None
        generic = self.types.generics(whole.module, whole.item.generics) if whole else {}
        found = self.types.owner_args(whole, expected[2] if expected and expected[0] == "type" and expected[1] is whole else ()) if whole else {}
        for first, last in self.parts(self.after(at), self.close(at)):
            if self.text(first) == "..":
                self.expression(self.after(first), last)
                continue
            field = next((one for one in symbol.members.get(self.text(first), ()) if one.kind == "field"), None) if symbol else None
            wanted = self.types.of(whole.module, field.item.type, generic) if field else None
            match_types(wanted, self.literal_field(first, last, [field] if field else None, filled(wanted, found)), found)
        type = ("type", whole, tuple(found.get(name) for name, _ in whole.item.generics)) if whole else None
        return type, self.after(self.close(at))

    def literal_symbol(self, symbols):
        """The struct or variant of which a literal is, also by an alias."""
        for symbol in symbols:
            if symbol.kind in ("struct", "variant"):
                return symbol
        for symbol in symbols:
            if symbol.kind == "alias" and symbol.item.type:
                made = self.types.of(symbol.module, symbol.item.type, self.types.owner_args(symbol, ()))
                return made[1] if made and made[0] == "type" else None
        return None

    def literal_field(self, first, last, fields, wanted):
        """The type of the value of one field of a literal."""
        if self.kind(first) == "number":
            return self.expression(self.after(self.after(first)), last)[0]
        if self.text(self.after(first)) == ":":
            self.member_at(first, fields, None)
            return self.expression(self.after(self.after(first)), last, wanted)[0]
        local = self.local(self.text(first))
        self.short(first, fields, local)
        return local.type if local else None

    def macro(self, at):
        """A call of a macro: its arguments are read as expressions."""
        name = self.text(at)
        opening = self.after(self.after(at))
        closed, inner, types = self.close(opening), self.after(opening), []
        if name == "matches":
            self.matches(inner, closed)
            return BOOL, self.after(closed)
        while inner < closed:
            if self.text(inner) == "in":
                inner = self.after(inner)
            if self.kind(inner) == "string":
                self.names.strings.setdefault(inner, self.visible())
            type, behind = self.expression(inner, closed)
            types.append(type)
            if behind == inner:
                behind = self.after(inner)
            inner = self.after(behind) if self.text(behind) in (",", ";", "=") else behind
        return ("kit", "Vec", (types[-1] if types else None,)) if name == "vec" else None, self.after(closed)

    def matches(self, at, closed):
        """The value, the pattern and the test of `matches!`."""
        type, at = self.expression(at, closed)
        self.scopes.append({})
        stop = self.pattern_end(self.after(at), closed, ("if",))
        self.pattern(self.after(at), stop, type)
        if stop < closed:
            self.expression(self.after(stop), closed)
        self.scopes.pop()

    # ---- members of a value

    def postfix(self, type, at, end):
        """The type of a value with its fields, methods, indices and calls, and the place behind them."""
        while at < end:
            text = self.text(at)
            if text == "?":
                type = nth(type[2], 0) if type and type[0] == "kit" and type[1] in ("Option", "Result") else None
                at = self.after(at)
            elif text == ".":
                type, at = self.member_of(type, self.after(at))
            elif text == "[":
                closed = self.close(at)
                ranged = any(self.text(one) in ("..", "..=") for one in range(at, closed))
                self.expression(self.after(at), closed)
                if not ranged:
                    type = item_of(type)
                at = self.after(closed)
            elif text == "(":
                self.arguments(at, type[1] if type and type[0] == "function" else ())
                type = type[2] if type and type[0] == "function" else None
                at = self.after(self.close(at))
            else:
                break
        return type, at

    def member_of(self, type, at):
        """The type of the field or method that stands here behind a dot, and the place behind it."""
        if self.kind(at) == "number":
            return self.position(type, self.text(at)), self.after(at)
        behind = self.after(at)
        if self.text(behind) == "::":
            behind = self.angle(self.after(behind))
        return self.method(type, at, behind) if self.text(behind) == "(" else (self.field(type, at), behind)

    def position(self, type, number):
        """The type of a field by its number."""
        if type and type[0] == "tuple" and int(number) < len(type[1]):
            return type[1][int(number)]
        if type and type[0] == "type" and type[1].kind == "struct":
            fields = type[1].item.fields
            if int(number) < len(fields) and fields[int(number)].at is None:
                return self.types.field(type[1], type[2], fields[int(number)])
        return None

    def members(self, type, name, kinds):
        """The members of this name of a value."""
        if type and type[0] == "variable":
            type = type[2]
        if not type or type[0] != "type":
            return []
        return [one for one in self.checkout.member(type[1], name) if one.kind in kinds]

    def field(self, type, at):
        """The type of a field by its name."""
        found = self.members(type, self.text(at), ("field",))
        if found:
            self.names.put(at, found)
            owner = found[0].owner
            return self.types.field(owner, type[2] if type[0] == "type" else (), found[0].item)
        self.names.members[at] = type
        return None

    def method(self, type, at, opening):
        """The type of what a method gives, and the place behind its arguments."""
        name = self.text(at)
        found = self.members(type, name, ("method",))
        if found:
            self.names.put(at, found)
            params = found[0].item.params[1:] if found[0].item.params and found[0].item.params[0].name == "self" else found[0].item.params
            return self.called(found[0], type, opening, params, None)
        self.names.members[at] = type
        return kit_result(type, name, self.arguments(opening, kit_parameters(type, name))), self.after(self.close(opening))
