"""Types of terms in the language of definitions, as far as they are determined.

Types are as in `rust_types`, and besides: ("meta", number) for what is still to be determined, ("implicit", variable, type) before what it binds, ("sort",) for a type of types,
("labels", pairs of labels and types) for records without a name, ("static", symbol) and ("bound", trait) for what has members, and what a proof knows: ("goal", goals, name),
("step", goals, name), ("args", functions), ("ensures", functions, word), ("generic", bound).
"""
LISTS = {"List", "Vec", "[]", "Iter", "VecDeque"}
# Types without parts.
ATOMS = ("meta", "variable", "sort", "goal", "step", "args", "goals", "ensures")
# How often abbreviations are unfolded in one type.
DEEPEST = 12


def mapped(type, change):
    """The type with each of its parts changed by a function."""
    if type[0] in ("type", "kit"):
        return (type[0], type[1], tuple(change(one) for one in type[2]))
    if type[0] == "tuple":
        return ("tuple", tuple(change(one) for one in type[1]))
    if type[0] == "function":
        return ("function", tuple(change(one) for one in type[1]), change(type[2]))
    if type[0] == "implicit":
        return ("implicit", type[1], change(type[2]))
    return type


def parts(type):
    """The parts of a type."""
    if type[0] in ("type", "kit"):
        return type[2]
    if type[0] == "tuple":
        return type[1]
    return (*type[1], type[2]) if type[0] == "function" else ()


class Unifier:
    """Determines types by what has to be equal."""

    def __init__(self, checkout):
        self.checkout, self.solutions, self.metas = checkout, {}, 0

    def new_meta(self):
        """A type that is still to be determined."""
        self.metas += 1
        return ("meta", self.metas)

    def solved(self, type):
        """The type with what is determined filled in, at its head."""
        while type is not None and type[0] == "meta" and type[1] in self.solutions:
            type = self.solutions[type[1]]
        return type

    def fully_solved(self, type):
        """The type with all that is determined filled in."""
        type = self.solved(type)
        return type if type is None or type[0] in (*ATOMS, "implicit") else mapped(type, self.fully_solved)

    def solve(self, meta, type):
        """Determines a type, unless it would be a part of itself."""
        if not self.occurs(meta[1], type):
            self.solutions[meta[1]] = type

    def occurs(self, number, type):
        """Whether a type has this part that is still to be determined."""
        type = self.solved(type)
        if type is None:
            return False
        return type[1] == number if type[0] == "meta" else any(self.occurs(number, one) for one in parts(type))

    def unify(self, one, other, depth=0):
        """Lets two types be one, as far as that determines something; recursive definitions are unfolded a few times."""
        one, other = self.solved(one), self.solved(other)
        if one is None or other is None or one is other or depth > DEEPEST:
            return
        if one[0] == "meta":
            self.solve(one, other)
        elif other[0] == "meta":
            self.solve(other, one)
        elif self.has_same_head(one, other):
            for a, b in zip(parts(one), parts(other)):
                self.unify(a, b, depth + 1)
        elif "type" in (one[0], other[0]):
            found = self.unfolded(one), self.unfolded(other)
            if None not in found and (found[0][0], found[1][0]) != (one[0], other[0]):
                self.unify(*found, depth + 1)

    def has_same_head(self, one, other):
        """Whether two types are made in the same way of their parts; lists of all kinds are."""
        if one[0] != other[0] or one[0] not in ("type", "kit", "tuple", "function"):
            return False
        if one[0] == "kit":
            return one[1] == other[1] or (one[1] in LISTS and other[1] in LISTS)
        return one[0] != "type" or one[1] is other[1]

    def replaced(self, type, found):
        """The type with these variables replaced."""
        if type is None:
            return None
        return found.get(type[1], type) if type[0] == "variable" else mapped(type, lambda one: self.replaced(one, found))

    def instance(self, type):
        """The type with each variable that it binds at its head made one that is still to be determined."""
        found = {}
        while type is not None and type[0] == "implicit":
            found[type[1]] = self.new_meta()
            type = type[2]
        return self.replaced(type, found) if found else type

    def explicit(self, type):
        """The type without what it binds at its head, with abbreviations there unfolded."""
        type = self.unfolded(type)
        while type is not None and type[0] == "implicit":
            type = self.instance(type)
        return type

    def unfolded(self, type):
        """The type with abbreviations at its head unfolded."""
        type = self.solved(type)
        for _ in range(DEEPEST):
            if type is None or type[0] != "type" or type[1].kind != "def":
                return type
            type = self.solved(self.checkout.expansion(type[1], tuple(self.fully_solved(one) for one in type[2])))
        return type

    def result_after(self, type, count):
        """What a function of this type gives after so many arguments."""
        for _ in range(count):
            type = self.unfolded(type)
            if type is None or type[0] != "function":
                return None
            type = type[2]
        return type

    def final_result(self, type):
        """What a function of this type gives after all arguments."""
        while type is not None and type[0] == "function":
            type = self.unfolded(type[2])
        return type
