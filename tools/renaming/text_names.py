"""What the names of files of definitions and proofs mean."""
from .antt_types import Evaluator
from .declarations import Goals
from .imports import Imports
from .places import Place, View
from .rust_types import Names

# What an answer calls that which is known.
KNOWN = ("c", "l", "_c", "_l")
SORT = ("sort",)


class Sources:
    """Names what a file of definitions or proofs says."""

    def __init__(self, checkout, module):
        self.checkout, self.module, self.source, self.names = checkout, module, module.source, Names()
        self.evaluator = Evaluator(checkout, Place(checkout, module), self.source.tokens, self.names)

    def run(self):
        """Names what the whole file says."""
        imports = Imports(self.checkout, self.names, self.source.tokens)
        for use in self.source.imports:
            imports.run(use)
            for _, known in use.names:
                self.names.symbols.pop(known, None)
        for at in self.source.mods:
            self.file(at)
        for before, at in zip([None, None, *self.source.unfoldings], self.source.unfoldings):
            self.unfolding(before, at)
        for one in self.source.declarations:
            self.declaration(one)
        for number in range(len(self.source.clauses)):
            self.clause(number)
        return self.names

    def file(self, at):
        """A file or folder behind `mod`: those that Lib names stand beside it, those that another file names in its folder."""
        path = (*(self.module.path[:-1] if self.module.path[-1] == "Lib" else self.module.path), self.module.text(at))
        module = self.checkout.antt.get(path)
        symbol = module.symbol if module else self.checkout.folders.get(path)
        self.names.put(at, [symbol] if symbol else [])

    def unfolding(self, before, at):
        """A name of a list of abbreviations to unfold, perhaps behind an alias and a dot."""
        text = self.module.text(at)
        space = self.evaluator.place.alias(self.module.text(before)) if before is not None and self.module.text(at - 1) == "." else None
        symbol = (space if space is not None and not isinstance(space, Goals) else self.module.scope()).get(text)
        if symbol is not None:
            self.names.put(at, [symbol])

    # ---- what is around a clause

    def enter(self, section, outer):
        """Begins with the variables of sections and of the clause around a local definition."""
        evaluator = self.evaluator
        evaluator.scopes, evaluator.inside, evaluator.goal = [{}], list(section), None
        for binder in section:
            evaluator.binder(binder)
        if outer is not None:
            self.around(outer)
        evaluator.scopes.append({})

    def around(self, number):
        """Binds the variables of a clause, and of those around it."""
        declaration, clause, _, outer = self.source.clauses[number]
        if outer is not None:
            self.around(outer)
        self.patterns(declaration, clause)
        self.locals(number)

    def locals(self, number):
        """Binds the definitions behind the `where` of a clause."""
        for one in self.source.declarations:
            if one.outer == number:
                self.evaluator.scopes.append({})
                type = self.evaluator.type(one.type) if one.type is not None else None
                self.evaluator.scopes.pop()
                self.evaluator.bind(one.at, type)

    # ---- declarations and clauses

    def declaration(self, one):
        """The name of a declaration, its binders and type, and its fields or constructors."""
        self.enter(one.section, one.outer)
        evaluator = self.evaluator
        if one.outer is None:
            self.names.put(one.at, [one.symbol])
        for binder in one.binders:
            evaluator.binder(binder)
        if one.type is not None:
            evaluator.type(one.type)
        for at, type in one.fields:
            member = next(member for member in one.symbol.members[self.module.text(at)] if member.item[0] == at)
            self.names.put(at, [member])
            found = evaluator.type(type)
            if one.kind == "record":
                evaluator.scopes[-1][member.name] = View(member, found)

    def clause(self, number):
        """The patterns and the term of an equation."""
        declaration, clause, section, outer = self.source.clauses[number]
        self.enter(section, outer)
        result = self.patterns(declaration, clause)
        self.locals(number)
        self.evaluator.infer(clause[1], result)

    def patterns(self, declaration, clause):
        """Binds the variables of a clause's patterns; returns the type of its term."""
        patterns, type = clause[0], None
        if not patterns:
            return None
        if declaration is not None and declaration.outer is None:
            type = self.checkout.signature(declaration.symbol, declaration.section)
            if patterns[0][0] == "name":
                self.names.put(patterns[0][1], [declaration.symbol])
        elif declaration is not None:
            local = self.evaluator.local(self.module.text(declaration.at))
            type = local.type if local else None
        if type is not None and type[0] == "goal":
            return self.goal_patterns(patterns[1:], type)
        return self.argument_patterns(patterns[1:], type)

    def argument_patterns(self, patterns, type):
        """Binds the variables of patterns for the arguments of a function of this type; returns the type of what it gives."""
        evaluator = self.evaluator
        for one in patterns:
            type = evaluator.unfolded(type)
            if one[0] == "implicit":
                type = self.implicit_pattern(one, type)
                continue
            while type is not None and type[0] == "implicit":
                type = evaluator.unfolded(type[2])
            wanted, type = (type[1][0], type[2]) if type is not None and type[0] == "function" else (None, None)
            if wanted == SORT and one[0] == "name":
                evaluator.bind(one[1], ("is", ("variable", self.module.text(one[1]), None)))
            else:
                evaluator.pattern(one, wanted)
        return type

    def implicit_pattern(self, one, type):
        """An argument by its name; returns the type behind it."""
        if type is None or type[0] != "implicit":
            self.evaluator.pattern(one[2], None)
            return type
        if one[2][0] == "name":
            self.evaluator.bind(one[2][1], ("is", ("variable", type[1], None)) if "@" in str(type[1]) else None)
        return type[2]

    def goal_patterns(self, patterns, type):
        """The patterns of an answer: first what is known, as `c` or `g c`, then what the claim is of."""
        self.evaluator.goal = type
        names = [self.module.text(one[1]) if one[0] == "name" else "" for one in patterns]
        known = next((number + 1 for number, name in enumerate(names) if name in KNOWN), min(1, len(names)))
        for one in patterns[:known]:
            self.evaluator.pattern(one, type)
        return self.argument_patterns(patterns[known:], self.checkout.goal_type(type))
