"""What each name in the code of a `.rt` source means, by the types of values as far as they can be inferred.

Types of values are tuples: ("type", symbol, arguments), ("kit", name, arguments), ("tuple", types), ("function", types, result), ("variable", name, bound), and None where
nothing is known. References are left out: what points to a value has its type.
"""

# Methods of the kit by what they give: the same type, the item, or an option of it.
SAME = set(
    "as_ref as_mut take copied cloned or or_else filter replace rev skip by_ref chain peekable as_slice as_mut_slice to_vec borrow borrow_mut as_deref as_deref_mut skip_while "
    "take_while inspect step_by map_err clone as_bytes trim iter_mut xor insert get_or_insert".split()
)
ITEM = {"unwrap", "expect", "unwrap_or", "unwrap_or_default", "unwrap_or_else", "remove", "swap_remove", "unwrap_unchecked"}
OPTIONAL_ITEM = set("get get_mut first last first_mut last_mut pop find min max min_by_key max_by_key nth next next_back ok pop_front pop_back peek max_by min_by".split())
ITERATORS = {"iter", "iter_mut", "into_iter", "drain", "windows", "chunks"}
POINTERS = {"Box", "Rc", "Arc", "ManuallyDrop"}
NUMBER, BOOL, RANGE, NOTHING = ("kit", "number", ()), ("kit", "bool", ()), ("kit", "Range", ()), ("tuple", ())


def arguments_of(type):
    """The arguments of a type of the kit; none where it is another."""
    return type[2] if type and type[0] == "kit" else ()


def nth(types, number):
    """One of these types, or None where there are not so many."""
    return types[number] if number < len(types) else None


class Local:
    """A variable: a parameter, or what a pattern, a closure or a binder binds at a token. `fields` are those that are taken of it where its type is not known."""

    def __init__(self, name, type, at):
        self.kind, self.name, self.type, self.at = "local", name, type, at
        self.new, self.fields = None, set()

    @property
    def new_name(self):
        return self.new or self.name

    def where(self):
        return self.name


def innermost(scopes, name):
    """The variable of this name in the innermost of these scopes that has one."""
    for scope in reversed(scopes):
        if name in scope:
            return scope[name]
    return None


class Label:
    """The label of a loop, with its quote. It has the name of a variable, if there is one, as the names of the loop's goals do."""

    kind = "label"

    def __init__(self, name, variable):
        self.name, self.variable, self.new = name, variable, None

    @property
    def new_name(self):
        return self.new or (f"'{self.variable.new_name}" if self.variable else self.name)


class Names:
    """What the tokens of a source mean, by their places.

    `symbols` has the symbols that a name may mean; `members` the type of the value before a name behind a dot, where its meaning is not found; `shorthand` the symbols of a name
    that is a field and a variable at once, in two lists; `bases` the variable whose field an unknown member is; `literals` the labels of the record in which it stands; `labels`
    the labels of loops; `goals` what a name of a goal, or of what is known in a proof, is made of; `strings` the variables that a string of a macro may name.
    """

    def __init__(self):
        self.symbols, self.members, self.shorthand, self.bases, self.literals = {}, {}, {}, {}, {}
        self.labels, self.goals, self.strings = {}, {}, {}

    def put(self, at, found):
        if found:
            self.symbols[at] = list(found)


class Types:
    """Types of the code of a module."""

    def __init__(self, checkout):
        self.checkout = checkout

    def of(self, module, type, generics, self_type=None):
        """The type that is written, where these names are type parameters (with their types)."""
        if type is None:
            return NOTHING
        if type.head == "path":
            return self.of_path(module, type, generics, self_type)
        args = tuple(self.of(module, one, generics, self_type) for one in type.args)
        if type.head == "&":
            return args[0]
        if type.head == "[]":
            return ("kit", "[]", args)
        if type.head == "()":
            return ("tuple", args)
        if type.head == "fn":
            return ("function", args, self.of(module, type.result, generics, self_type) if type.result else None)
        return None

    def of_path(self, module, type, generics, self_type):
        """The type that a path with its arguments names."""
        names = [module.source.tokens[at].text for at in type.path]
        if names[0] == "Self":
            return self_type if len(names) == 1 else None
        if len(names) == 1 and names[0] in generics:
            return generics[names[0]]
        args = tuple(self.of(module, one, generics, self_type) for one in type.args)
        for symbol in self.checkout.rust_path(module, names)[-1]:
            if symbol.kind == "alias" and symbol.item.type:
                return self.of(symbol.module, symbol.item.type, self.owner_args(symbol, args))
            if symbol.kind in ("struct", "enum", "trait", "alias"):
                return ("type", symbol, args)
        if names[-1] in POINTERS and args:
            return args[0]
        return ("kit", names[-1], args)

    def generics(self, module, *lists):
        """The type parameters of these lists, each with its bound."""
        found = {}
        for names in lists:
            for name, bound in names:
                found[name] = ("variable", name, None)
                if bound is not None:
                    found[name] = ("variable", name, self.of(module, bound, dict(found)))
        return found

    def owner_args(self, symbol, args):
        """The type parameters of a declared type with these arguments."""
        return {name: nth(args, at) for at, (name, _) in enumerate(getattr(symbol.item, "generics", ()))}

    def field(self, symbol, args, field):
        """The type of a field of a type with these arguments."""
        return self.of(symbol.module, field.type, self.owner_args(symbol, args))


def match_types(pattern, type, found):
    """Fills in the variables of a pattern of types."""
    if pattern is None or type is None:
        return
    if pattern[0] == "variable":
        if found.get(pattern[1]) is None:
            found[pattern[1]] = type
    elif pattern[0] == type[0]:
        if pattern[0] in ("type", "kit") and pattern[1] == type[1]:
            for one, other in zip(pattern[2], type[2]):
                match_types(one, other, found)
        elif pattern[0] == "tuple":
            for one, other in zip(pattern[1], type[1]):
                match_types(one, other, found)
        elif pattern[0] == "function":
            for one, other in zip(pattern[1], type[1]):
                match_types(one, other, found)
            match_types(pattern[2], type[2], found)


def filled(type, found):
    """The type with its variables filled in."""
    if type is None:
        return None
    if type[0] == "variable":
        return found[type[1]] if found.get(type[1]) is not None else type
    if type[0] in ("type", "kit"):
        return (type[0], type[1], tuple(filled(one, found) for one in type[2]))
    if type[0] == "tuple":
        return ("tuple", tuple(filled(one, found) for one in type[1]))
    if type[0] == "function":
        return ("function", tuple(filled(one, found) for one in type[1]), filled(type[2], found))
    return type


class Function:
    """What is known of a function for its proofs: its parameters and variables, and what it calls."""

    def __init__(self, symbol):
        self.symbol, self.params, self.locals, self.calls, self.result = symbol, [], [], {}, None
        self.clauses = {}
        # all calls in the order in which they end; and by the names that `let` and the arms of `match` bind the calls whose results these are
        self.ended, self.lets, self.arms, self.labels = [], {}, {}, {}

    def variables(self):
        """The parameters and variables that have names."""
        return [one for one in self.params + self.locals if one is not None]


def bound_function(type):
    """A parameter whose type is a function by its bound takes that function."""
    if type and type[0] == "variable" and type[2] and type[2][0] == "function":
        return type[2]
    return type


def item_of(type):
    """The type of what is in a list or comes of an iterator."""
    if type and type[0] == "kit" and type[2]:
        return type[2][0]
    if type and type[0] == "kit" and type[1] == "Range":
        return NUMBER
    if type and type[0] == "type" and type[2]:
        return type[2][0]
    return None


def better(one, other):
    """Of two types of branches the one that says more."""
    if one is None or one == NOTHING:
        return other if other is not None else one
    if other is None:
        return one
    if one[0] == "kit" and other[0] == "kit" and one[1] == other[1] and len(one[2]) == len(other[2]):
        return ("kit", one[1], tuple(better(a, b) for a, b in zip(one[2], other[2])))
    return one


def kit_result(type, name, args):
    """What a method of the kit gives, of a value of this type with arguments of these types."""
    if type is None or type[0] == "type":
        return type if type and name in ("clone", "borrow", "as_ref", "as_mut", "iter", "by_ref") else None
    if type[0] != "kit":
        return None
    head, item, first = type[1], nth(type[2], 0), nth(args, 0)
    result = args[-1][2] if args and args[-1] and args[-1][0] == "function" else None
    if head in ("Option", "Result") and name == "iter" or name in ITERATORS:
        return ("kit", "Iter", (item,))
    if head == "Result" and name == "err":
        return ("kit", "Option", (nth(type[2], 1),))
    made = {
        "map": (type[0], head, (result, *type[2][1:])),
        **dict.fromkeys(("filter_map", "flat_map"), ("kit", "Iter", (item_of(result),))),
        **dict.fromkeys(("and_then", "find_map"), result),
        **dict.fromkeys(("fold", "map_or", "map_or_else"), first),
        "enumerate": ("kit", "Iter", (("tuple", (NUMBER, item)),)),
        "zip": ("kit", "Iter", (("tuple", (item, item_of(first))),)),
        **dict.fromkeys(("ok_or", "ok_or_else"), ("kit", "Result", (item, first))),
        **dict.fromkeys(("split_at", "split_at_mut"), ("tuple", (type, type))),
        **dict.fromkeys(("split_first", "split_last"), ("kit", "Option", (("tuple", (item, type)),))),
        "collect": ("kit", "Result", (("kit", "Vec", (item,)), None)),
        **dict.fromkeys(OPTIONAL_ITEM, ("kit", "Option", (item,))),
        **dict.fromkeys(ITEM, item),
        **dict.fromkeys(SAME, type),
    }
    return made.get(name)


def kit_parameters(type, name):
    """The types of the arguments of a method of the kit, as far as they are functions over the items of the value."""
    item = type[2][0] if type and type[0] == "kit" and type[2] else None
    over_item, over_error = ("function", (item,), None), ("function", (nth(arguments_of(type), 1),), None)
    pairs, folding = ("function", (item, item), None), (None, ("function", (None, item), None))
    found = {
        **dict.fromkeys(("fold", "try_fold"), folding),
        **dict.fromkeys(("sort_by", "is_sorted_by"), (pairs,)),
        **dict.fromkeys(("map_or", "map_or_else"), (None, over_item)),
        "map_err": (over_error,),
    }
    return found.get(name, (over_item, over_item))
