"""What a proof knows of the function that is proved: goals, steps and clauses."""
from .antt_types import REFERENCE_FIELDS
from .clause_names import Clauses
from .signatures import Signatures

# The fields of a step of a proof that are the kit's.
OF_STEPS = set("result ensures requires invariant is true false branch either auto type_inv lifetimes value follows remaining at fn initial behind deref".split())


class ProofFacts(Signatures):
    """The types of what stands behind `c.` in an answer; each name is noted with the part that it plays."""

    def functions_of(self, space):
        """The functions of which a folder of proofs is."""
        return [one.function for one in space.symbols[-1:] if one is not None and getattr(one, "function", None)] or space.cycle

    def goal_field(self, evaluator, type, at):
        """The type of a field of what a proof knows."""
        return getattr(self, f"field_of_{type[0]}")(evaluator, type, at)

    def note(self, evaluator, at, part):
        """Notes of what a name is made: a word or a part of a step, a parameter, or the name of a clause."""
        if evaluator.names is not None:
            evaluator.names.goals[at] = part

    # ---- goals and steps

    def field_of_goal(self, evaluator, type, at):
        """A step or a variable behind `c.`, or what is known of the function itself."""
        space, text = type[1], evaluator.text(at)
        functions = self.functions_of(space)
        if text in ("args", "fn"):
            return ("args", functions)
        if text in ("ensures", "requires"):
            return ("ensures", functions, text)
        if text in ("initial", "iterator", "auto"):
            return ("goal", space, text)
        for function in functions:
            bound = function.generic.get(text)
            if bound is not None and bound[0] == "variable":
                return ("generic", bound[2])
        self.note(evaluator, at, ("word", space))
        local = self.variable(functions, text.removesuffix("-inside"))
        if local is None or any(text in function.labels for function in functions) or self.callees(space, text):
            return ("step", space, text)
        return local.type if text.endswith("-inside") else self.modelled(local.type)

    def variable(self, functions, name):
        """The variable or parameter of this name of one of these functions."""
        return next((local for function in functions for local in [*function.locals, *function.params] if local is not None and local.name == name), None)

    def field_of_args(self, evaluator, type, at):
        """A parameter."""
        self.note(evaluator, at, ("param", type[1]))
        found = next((local for function in type[1] for local in function.params if local is not None and local.name == evaluator.text(at)), None)
        return self.modelled(found.type) if found else None

    def field_of_generic(self, evaluator, type, at):
        """The trait of a type parameter."""
        bound = type[1]
        for trait in [bound[1], *bound[1].traits] if bound and bound[0] == "type" else ():
            if trait.name == evaluator.text(at):
                evaluator.put(at, [trait])
                return ("bound", trait)
        return None

    def field_of_step(self, evaluator, type, at):
        """What is known behind a step."""
        _, space, step = type
        text, callees = evaluator.text(at), self.called(space, step)
        if text in REFERENCE_FIELDS - {"now"}:
            return ("args", callees)
        if text == "result":
            return self.modelled(callees[0].result) if callees else None
        if text in ("ensures", "requires"):
            return ("ensures", callees, text)
        if text == "invariant":
            return self.invariant(space, step)
        if text in OF_STEPS or text.isdigit():
            return None
        self.note(evaluator, at, ("part", space))
        found = next((local for function in self.functions_of(space) for local in function.locals if local.name == text), None)
        return self.modelled(found.type) if found else None

    def callees(self, space, step):
        """The symbols of the functions that a step may call, by its words."""
        found, words = [], step.split("-")
        for function in self.functions_of(space):
            for word in words:
                found += function.calls.get(word, [])
            if not found:
                for word in words:
                    found += function.lets.get(word, []) + (function.arms.get(word, []) if words[0] == "in" else [])
        return found

    def called(self, space, step):
        """The functions of this checkout that a step may call."""
        return [one.function for one in self.callees(space, step) if getattr(one, "function", None)]

    def raw(self, evaluator, base):
        """The type under its model of a variable that a proof knows."""
        type = evaluator.infer(base[1]) if base[0] == "field" else None
        if not type or type[0] not in ("goal", "step", "args"):
            return None
        local = self.variable(type[1] if type[0] == "args" else self.functions_of(type[1]), evaluator.text(base[2]))
        return local.type if local else None

    # ---- clauses

    def field_of_ensures(self, evaluator, type, at):
        """A clause by its name, or a field of the only clause."""
        _, functions, word = type
        text = evaluator.text(at)
        for function in functions:
            if (word, text) in function.clauses:
                self.note(evaluator, at, ("clause", (function, word)))
                return self.clause_type(function, word, text)
        for function in functions:
            if (word, "") in function.clauses:
                return evaluator.projection(evaluator.unfolded(self.clause_type(function, word, "")), at)
        self.note(evaluator, at, ("clause", (None, word)))
        return None

    def clause_type(self, function, word, name):
        """What a clause states, as a type."""

        def find():
            clauses = Clauses(self, function.module, None)
            clauses.parameters(function)
            return clauses.evaluator.type(function.clauses[word, name])

        return self.remembered(("clause", function, word, name), find)

    def clauses_as_type(self, function, word, name):
        """A clause, or where none is named and there are several the record of all."""
        if (word, name) in function.clauses:
            return self.clause_type(function, word, name)
        names = [clause for kind, clause in function.clauses if kind == word and clause]
        return ("labels", tuple((clause, self.clause_type(function, word, clause)) for clause in names), (function, word)) if names and not name else None

    def goal_type(self, type):
        """What a goal states, as far as its name tells."""
        _, space, name = type
        words = name.split("-")
        for function in self.functions_of(space):
            if "returns" in words:
                return self.clauses_as_type(function, "ensures", words[-1] if "clause" in words else "")
            if "requires" in words:
                clause = words[words.index("requires") + 1] if words[-1] != "requires" else ""
                for one in self.called(space, name):
                    return self.clauses_as_type(one, "requires", clause)
        for end in ("-init", "-preserved"):
            if name.endswith(end):
                return self.invariant(space, name.removesuffix(end))
        return None

    def invariant(self, space, step):
        """What the invariant of a loop states."""
        module = self.antt.get((*space.parts[:-1], "Invariants"))
        symbol = module.declared.get(f"invariant-{step}") if module else None
        if symbol is None or not symbol.item.clauses:
            return None

        def find():
            evaluator, (patterns, body) = self.evaluator(module), symbol.item.clauses[0]
            type = evaluator.type(symbol.item.type)
            for one in patterns[1:]:
                evaluator.pattern(one, type)
            return evaluator.type(body)

        return self.remembered(("invariant", symbol), find)
