"""The lines of a text of definitions or proofs, with the brackets around each of their tokens.

`rt fmt` has two layouts of brackets. What is in parentheses goes on four columns deeper than the declaration, clause or element in which it stands, wherever it is broken. Of
a tuple, a record and the cases of an `elim` each element has a line of its own, two columns deeper than the line that opens them, once there is any line end between them.
"""
from renaming.antt_syntax import ATOMS, is_operator

OPENERS, CLOSERS = set("({["), set(")}]")
# Words before the name that an item declares.
HEADS = {"pub", "abbrev", "unfoldable", "pattern", "axiom", "private", "record", "data", "module", "use", "mod", "unfolding", "mutual"}
TYPES = {"record", "data", "module"}
RANKS = {"in": 0, "=": 0, "↦": 0, "→": 1, "×": 2, "⊎": 2, "then": 2, "else": 2, "≡": 3, "≢": 3, "≤": 3, "<": 3, "≥": 3, ">": 3, "$": 3}
OPERATOR, APPLICATION = 4, 5


def rank(token):
    """How tightly an operator binds, the loosest first; None where the token is no operator."""
    if token.kind != "name" or token.text in ("¬", ":"):
        return None
    if token.text in RANKS:
        return RANKS[token.text]
    return OPERATOR if token.text not in ATOMS and token.text != "|" and is_operator(token.text) else None


class Bracket:
    """A pair of brackets: the places of its tokens, its kind (`record`, `tuple`, `cases`, or `plain` where it goes on freely), whether it has a line for each element, and the
    place of a colon behind names that it binds, or of the `=` behind the name of an implicit argument."""

    __slots__ = ("opener", "closer", "kind", "outer", "is_open", "colon", "equals")

    def __init__(self, opener, outer):
        self.opener, self.outer = opener, outer
        self.closer, self.kind, self.is_open, self.colon, self.equals = None, "plain", False, None, None


class Line:
    """A line with code: its first token and the one behind its last, where its text begins and ends, its indentation and that of what would go on."""

    __slots__ = ("first", "last", "start", "end", "indent", "further", "item")

    def __init__(self, first, last, start, end, indent, further, item):
        self.first, self.last, self.start, self.end, self.indent, self.further, self.item = first, last, start, end, indent, further, item


class Layout:
    """The lines of a range of tokens of a text.

    Of each token it has the bracket around it (`around`), the group of what stands beside it at the same level (`group`), and whether it is among the binders of a `λ` or between
    `let` and `=` (`bound`). Of each group it has the ranks of its operators (`ranks`). `base` is the indentation of the clause that has the text, or None for a file.
    """

    def __init__(self, text, tokens, base=None):
        self.text, self.tokens, self.base = text, tokens, base
        self.around, self.group, self.bound, self.ranks, self.marks = [], [], {}, {}, {}
        self.find_brackets()
        self.lines = list(self.find_lines())
        self.find_groups()

    # ---- brackets

    def find_brackets(self):
        """Pairs the brackets, and says of each what it holds."""
        outer = None
        for at, token in enumerate(self.tokens):
            if token.kind == "mark" and token.text in CLOSERS and outer:
                outer.closer, outer = at, outer.outer
            self.around.append(outer)
            if token.kind == "mark" and token.text in OPENERS:
                outer = Bracket(at, outer)
                if token.text == "{" and self.is_record(at):
                    outer.kind = "record"
                self.marks[at] = outer
            elif outer and token.text == "," and self.tokens[outer.opener].text == "(":
                outer.kind = "tuple"
            elif outer and token.text == "↦" and self.tokens[outer.opener].text == "[":
                outer.kind = "cases"
            elif outer and token.text == ":" and all(one.kind == "name" and one.text not in ("let", "λ", ":") for one in self.tokens[outer.opener + 1 : at]):
                outer.colon = at
            elif outer and token.text == "=" and at == outer.opener + 2:
                outer.equals = at
        for bracket in self.marks.values():
            if bracket.kind != "plain" and bracket.closer is not None:
                bracket.is_open = "\n" in self.text[self.tokens[bracket.opener].start : self.tokens[bracket.closer].start]

    def is_record(self, at):
        """Whether this brace opens the fields of a record: `record {`, `record r.x {` or `record (..) {`."""
        at -= 1
        if at >= 0 and self.tokens[at].text == ")":
            at = next(one.opener for one in self.marks.values() if one.closer == at) - 1
        else:
            while at > 0 and self.tokens[at].text != "record" and (self.tokens[at].text == "." or self.tokens[at - 1].text == "." or self.tokens[at - 1].text == "record"):
                at -= 1
        return at >= 0 and self.tokens[at].text == "record"

    def enclosing(self, at):
        """The brackets around a token, the innermost first, up to one whose elements have lines of their own."""
        bracket = self.around[at]
        while bracket and not bracket.is_open:
            yield bracket
            bracket = bracket.outer

    # ---- lines

    def find_lines(self):
        """The lines, each with the indentation at which it would go on."""
        starts, first, item = [self.base], 0, 0
        while first < len(self.tokens):
            token = self.tokens[first]
            start = self.text.rfind("\n", 0, token.start) + 1
            end = self.text.find("\n", token.start)
            end = len(self.text) if end < 0 else end
            last = first
            while last < len(self.tokens) and self.tokens[last].start < end:
                last += 1
            indent = len(self.text[start:end]) - len(self.text[start:end].lstrip(" "))
            closes = token.text in CLOSERS and next((one for one in self.marks.values() if one.closer == first and one.is_open), None)
            if closes and len(starts) > 1:
                starts.pop()
            elif token.kind != "comment" and (starts[-1] is None or indent < starts[-1] + 4) and not (self.base is not None and len(starts) == 1):
                starts[-1], item = indent, first
            further = starts[-1] + 4 if starts[-1] is not None else indent
            yield Line(first, last, start, end, indent, max(further, indent), item)
            opened = self.marks.get(last - 1 - (self.tokens[last - 1].kind == "comment"))
            if opened and opened.is_open:
                starts.append(None)
            first = last

    # ---- groups

    def find_groups(self):
        """Numbers the groups, collects the ranks of their operators, and marks what a `λ` or a `let` binds."""
        starts, numbers, current, binding = {line.item for line in self.lines}, {}, 0, {}
        for at, token in enumerate(self.tokens):
            outer = self.around[at]
            if outer not in numbers or (at in starts and (outer is None or outer.is_open)):
                current += 1
                numbers[outer] = current
            if outer and outer.kind != "plain" and token.text in (",", ";", "|"):
                current += 1
                numbers[outer] = current
            self.group.append(numbers[outer])
            found = rank(token)
            if found is not None:
                self.ranks.setdefault(numbers[outer], set()).add(found)
            if token.kind == "comment":
                continue
            if token.text in ("λ", "let"):
                binding[outer] = token.text
            kinds = [binding[one] for one in (outer, *self.all_outer(outer)) if one in binding]
            if kinds:
                self.bound[at] = "λ" if "λ" in kinds else "let"
            if binding.get(outer) == "λ" and self.is_dot(at) or binding.get(outer) == "let" and token.text == "=":
                del binding[outer]
                self.bound.pop(at, None)
            if at in self.marks:
                numbers.pop(self.marks[at], None)

    def all_outer(self, bracket):
        """The brackets around this one, and None for what stands in none."""
        while bracket:
            bracket = bracket.outer
            yield bracket

    def is_dot(self, at):
        """Whether a dot ends binders here: a blank or a line end follows."""
        return self.tokens[at].text == "." and self.text[self.tokens[at].end : self.tokens[at].end + 1].isspace()
