"""New names of goals, and of what is known in a proof as `c.STEP.FIELD`: they are made of words of the function that is proved, joined by `-` and `+`."""
import re

from .declarations import Goals

CALLS, VARIABLES, FIELDS, VARIANTS = {"fn", "method", "member"}, {"local"}, {"field"}, {"variant"}
# By the word before: of several things of one name the kinds that are meant first.
# An arm is named after a variant, a test after what it compares, `?` after the variable of its `let`.
AFTER_WORD = {
    **dict.fromkeys(("in", "is"), (VARIANTS, VARIABLES, FIELDS, CALLS)),
    **dict.fromkeys(("in_ok", "in_err"), (VARIABLES, CALLS, FIELDS, VARIANTS)),
    **dict.fromkeys(("if", "then", "else", "loop"), (VARIABLES, FIELDS, CALLS, VARIANTS)),
}
# A call is named by the function and the variable of its `let`; what a step has, by variables.
STEP, OF_CALL = (CALLS, VARIABLES, FIELDS, VARIANTS), (VARIABLES, FIELDS, CALLS, VARIANTS)


class GoalNames:
    """Gives the names of goals and steps their new words. `member` has the new name of a member whose value's type is not known; `problems` lists words of several meanings."""

    def __init__(self, checkout, member):
        self.checkout, self.member = checkout, member
        self.words, self.problems = {}, []

    def text(self, module, at, note):
        """The new text of a token whose note says what it is made of; None where it stays."""
        text = module.source.tokens[at].text
        if isinstance(note, Goals):
            return self.name(note, text)
        kind, of = note
        if kind == "clause":
            return self.checkout.clause_name(of[1], text)
        if kind == "param":
            names = {local.new_name for function in of for local in function.params if local is not None and local.name == text}
            if len(names) > 1:
                self.problems.append(f"parameter {text} of several functions")
            return names.pop() if len(names) == 1 else None
        if not re.search("[-+]", text) and not any(text in self.word_map(function) for function in self.checkout.functions_of(of)):
            # no word of the function, but a member of something whose type was not inferred
            return self.member(module, at, None)
        return self.name(of, text, kind == "part")

    def name(self, space, text, part=False):
        """The new name of a goal or step, or of a part of a step."""
        pieces, before = [], ""
        for number, word in enumerate(re.split("([-+])", text)):
            if number % 2:
                pieces.append(word)
            else:
                pieces.append(self.piece(space, word, before, number == 0, part))
                before = word
        return "".join(pieces)

    def piece(self, space, word, before, first, part):
        """The new form of one word of a name, behind another."""
        if before in ("clause", "ensures"):
            return self.checkout.clause_name("ensures", word)
        if before == "requires" or not word:
            return word
        options = self.options(space, word, first)
        if len(options) < 2:
            return next(iter(options), word)
        return self.choose(options, self.order(space, before, part), word, space, part)

    def options(self, space, word, first):
        """The new names that a word may have, each with the kinds of what has it."""
        functions, options = self.checkout.functions_of(space), {}
        if len(functions) > 1 or space.cycle:
            for function in functions:
                if function.symbol.name == word:
                    options.setdefault(function.symbol.new_name, set()).add("method")
        if not options or not first:
            for function in functions:
                for new, kinds in self.word_map(function).get(word, {}).items():
                    options.setdefault(new, set()).update(kinds)
        return options

    def order(self, space, before, part):
        """The kinds that a word behind another one means, the first ones first."""
        if before in AFTER_WORD:
            return AFTER_WORD[before]
        called = any(kinds & CALLS for function in self.checkout.functions_of(space) for kinds in self.word_map(function).get(before, {}).values())
        return OF_CALL if part or called else STEP

    def choose(self, options, order, word, space, part):
        """Of several new names the one whose kind comes first; the label of a loop before all others."""
        for kinds in [*([] if part else [{"label"}]), *order]:
            found = [new for new, have in options.items() if have & kinds]
            if found and (len(found) == 1 or "label" in kinds):
                return found[0]
        self.problems.append(f"`{word}` of {[one.symbol.where() for one in self.checkout.functions_of(space)]} may be any of {sorted(options)}")
        return word

    # ---- words of a function

    def word_map(self, function):
        """For each word in the text of a function its new names, with the kinds of what it names."""
        symbol = function.symbol
        if symbol not in self.words:
            found = self.words[symbol] = {}
            for at in range(symbol.item.at + 1, symbol.item.last + 1):
                for word, new, kind in self.meanings(symbol.module, at):
                    found.setdefault(word, {}).setdefault(new, set()).add(kind)
        return self.words[symbol]

    def meanings(self, module, at):
        """The word of a token, with the new name and the kind of each thing that it may name."""
        token, names = module.source.tokens[at], self.checkout.names[module]
        if token.kind == "lifetime":
            return [(token.text[1:], names.labels[at].new_name[1:], "label")] if at in names.labels else []
        if token.kind != "name" or module.source.inside[at]:
            return []
        if at in names.members:
            return [(token.text, self.member(module, at, names.members[at]) or token.text, "member")]
        fields, variables = names.shorthand.get(at, ([], []))
        return [(token.text, one.new_name, one.kind) for one in [*fields, *variables, *names.symbols.get(at, [])]]
