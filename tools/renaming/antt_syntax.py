"""Declarations and terms of the language of definitions and proofs.

A term is a tuple whose first member says what it is; tokens are named by their places in the file:

    ("name", at)                 a word
    ("field", term, at)          a word behind a dot
    ("apply", term, terms)       an application
    ("implicit", at, term)       an argument in braces, perhaps by its name, `{x = e}`
    ("lambda", binders, term)    the binders as below
    ("let", pattern, type, value, term)
    ("if", test, yes, no)
    ("elim", term, motive, cases)    a case is its patterns and its term
    ("record", base, fields)     a field is the place of its name and its term; in a type of records without a name the term is ("label", term)
    ("tuple", terms)
    ("operators", terms, places) the terms between operators, in order
    ("binding", binders, term)   `(x : A) → ..` and `(x : A) × ..`
    ("other", terms)             what has no more meaning here

A binder is the places of its names, its type or None, and whether it is implicit.
"""
CLOSERS = {")", "}", "]"}
# Words that end a term; those before a declaration; those that look like operators and are none.
STOPS = {"=", "↦", "|", "in", "where"}
HEADS = {"pub", "abbrev", "unfoldable", "private", "package"}
ATOMS = {"⊥", "⊤", "?", "_", "⊤ℓ"}


def is_operator(text):
    """Whether a word stands between its arguments."""
    return text not in ATOMS and not text[0].isalnum() and text[0] not in "_«◌'" and text not in STOPS and text != ":"


class Import:
    """A `use` line: the tokens of its path, of its alias, and of the names that it imports, in pairs (the second behind `as`, or None); and where it begins and ends."""

    __slots__ = ("path", "names", "alias", "first", "last")

    def __init__(self, path, names, alias, first, last):
        self.path, self.names, self.alias, self.first, self.last = path, names, alias, first, last


class Declaration:
    """What a file declares: kind `def`, `record` or `data`, the place of its name, its binders and type, the clauses of a definition, the fields or constructors.

    `section` has the binders of the sections around it, and `outer` the number of the clause behind whose `where` it stands.
    """

    def __init__(self, kind, at, type):
        self.kind, self.at, self.type = kind, at, type
        self.binders, self.clauses, self.fields, self.section = [], [], [], []
        self.outer = None


class Terms:
    """Reads terms from the tokens of a file, between two places of its code."""

    def __init__(self, tokens, code, first, last):
        self.tokens, self.code, self.at, self.last = tokens, code, first, last
        # the word for which an `if` waits, within each bracket
        self.awaited = [None]

    # ---- tokens

    def peek(self, ahead=0):
        """The text of the next word, or of one behind it."""
        at = self.at + ahead
        return self.tokens[self.code[at]].text if at < self.last else ""

    def token(self, ahead=0):
        """The next token, or one behind it."""
        return self.tokens[self.code[self.at + ahead]]

    def is_name(self):
        """Whether the next token is a word."""
        return self.at < self.last and self.token().kind == "name"

    def place(self):
        """The place of the next token, which is passed."""
        self.at += 1
        return self.code[self.at - 1]

    def skip(self, text):
        """Passes the next word if it is this one; says whether it was."""
        found = self.peek() == text
        self.at += found
        return found

    def joined(self):
        """Whether a dot stands here that takes a field of what stands before it."""
        if self.peek() != "." or self.at + 1 >= self.last:
            return False
        dot, behind = self.token(), self.token(1)
        return self.token(-1).end == dot.start and dot.end == behind.start and behind.kind == "name"

    def stops(self, text):
        """Whether this word ends a term: `then` and `else` do where an `if` waits for them, and are names elsewhere."""
        return text in CLOSERS or text in (";", ",") or self.is_name() and (text in STOPS or text == ":" or text == self.awaited[-1])

    # ---- terms

    def nested(self, word=None):
        """A term within brackets, or one behind which this word is awaited."""
        self.awaited.append(word)
        term = self.term()
        self.awaited.pop()
        return term

    def term(self):
        """A term, up to what ends it."""
        operands, places, words = [], [], []
        while self.at < self.last and not self.stops(self.peek()):
            text = self.peek()
            if text in ("(", "{") and self.is_binder():
                operands += applied(words)
                operands.append(self.binding())
                words = []
            elif not (self.is_name() and is_operator(text)):
                words.append(self.operand(text))
            elif text == "¬" or not (words or operands):
                self.at += 1
            else:
                operands += applied(words)
                places.append(self.place())
                words = []
        operands += applied(words)
        if len(operands) == 1 and not places:
            return operands[0]
        return ("operators", tuple(operands), tuple(places)) if operands else ("other", ())

    def operand(self, text):
        """One of the terms of an application."""
        if text == "λ":
            return self.lambda_()
        if text == "{":
            return self.implicit()
        if self.is_name() and text in ("let", "if"):
            return self.let() if text == "let" else self.choice()
        return self.atom()

    def atom(self):
        """A word, a term in brackets or a record, with the fields that are taken of it."""
        text, is_name = self.peek(), self.is_name()
        if text == "(":
            self.at += 1
            terms = self.listed(")")
            return self.fields_of(terms[0] if len(terms) == 1 else ("tuple", terms))
        if text == "[":
            self.at += 1
            return self.fields_of(("other", self.listed("]")))
        if is_name and text in ("record", "elim"):
            return self.fields_of(self.record() if text == "record" else self.elim())
        place = self.place()
        return self.fields_of(("name", place)) if is_name else ("other", ())

    def fields_of(self, term):
        """A term with the fields behind it."""
        while self.joined():
            term = ("field", term, self.code[self.at + 1])
            self.at += 2
        return term

    def listed(self, closer):
        """The terms up to a closing bracket, which is passed."""
        terms = []
        while self.at < self.last and self.peek() != closer:
            before = self.at
            terms.append(self.nested())
            if self.peek() in (",", ";", ":") or self.peek() in STOPS or (self.peek() != closer and self.at == before):
                self.at += 1
        self.at += 1
        return tuple(terms)

    # ---- binders

    def is_binder(self):
        """Whether names and a type stand in this bracket."""
        at = begun = self.at + 1
        if self.peek(1) in ("let", "λ", "if", "elim", "record"):
            return False
        while at < self.last and self.tokens[self.code[at]].kind == "name" and self.tokens[self.code[at]].text not in (":", "="):
            at += 1
        return begun < at < self.last and self.tokens[self.code[at]].text == ":"

    def binder(self):
        """A group of names with their type, in brackets."""
        implicit, names = self.peek() == "{", []
        self.at += 1
        while self.at < self.last and self.peek() not in (":", "}", ")"):
            names.append(self.place())
        type = self.nested() if self.skip(":") else None
        self.at += 1
        return (tuple(names), type, implicit)

    def binders(self):
        """All binders that stand here."""
        found = []
        while self.peek() in ("(", "{") and self.is_binder():
            found.append(self.binder())
        return tuple(found)

    def binding(self):
        """`(x : A) → ..` and `(x : A) × ..`."""
        binders = self.binders()
        operator = self.place() if self.is_name() and is_operator(self.peek()) else None
        return ("binding", binders, self.term(), operator)

    def implicit(self):
        """An argument in braces, perhaps by its name."""
        self.at += 1
        if self.at + 1 < self.last and self.peek(1) == "=":
            at = self.place()
            self.at += 1
            term = self.nested()
            self.at += 1
            return ("implicit", at, term)
        terms = self.listed("}")
        return ("implicit", None, terms[0] if terms else ("other", ()))

    def lambda_(self):
        """`λ x. ..`"""
        self.at += 1
        binders = []
        while self.at < self.last and self.peek() != "." and self.peek() not in CLOSERS:
            if self.peek() not in ("(", "{"):
                binders.append(((self.place(),), None, False))
            elif self.is_binder():
                binders.append(self.binder())
            else:
                self.at += 1
        self.at += 1
        return ("lambda", tuple(binders), self.term())

    # ---- words with parts

    def let(self):
        """`let x : A = .. in ..`"""
        self.at += 1
        pattern = self.atom()
        type = self.nested() if self.skip(":") else None
        self.skip("=")
        value = self.nested()
        self.skip("in")
        return ("let", pattern, type, value, self.term())

    def choice(self):
        """`if .. then .. else ..`"""
        self.at += 1
        parts = []
        for word in ("then", "else"):
            parts.append(self.nested(word))
            self.skip(word)
        return ("if", *parts, self.term())

    def elim(self):
        """`elim x as .. [ .. ↦ .. | .. ]`"""
        self.at += 1
        scrutinee = self.atom()
        motive = self.atom() if self.skip("as") else None
        cases = []
        if self.skip("["):
            while self.at < self.last and self.peek() != "]":
                if not self.skip("|"):
                    cases.append(self.case())
            self.at += 1
        return ("elim", scrutinee, motive, tuple(cases))

    def case(self):
        """The patterns of a case, and its term."""
        before, patterns = self.at, []
        while self.at < self.last and self.peek() not in ("↦", "]", "|"):
            patterns.append(self.pattern())
        self.skip("↦")
        term = self.nested()
        self.at += self.at == before
        return tuple(patterns), term

    def pattern(self):
        """One pattern of a case or clause, as a term; an operator between patterns has no meaning."""
        if self.peek() == "{":
            return self.implicit()
        if self.is_name() and is_operator(self.peek()):
            self.at += 1
            return ("other", ())
        return self.atom()

    def record(self):
        """`record { .. }`, or what changes another one."""
        self.at += 1
        base = self.atom() if self.peek() != "{" else None
        fields = []
        if self.skip("{"):
            while self.at < self.last and self.peek() != "}":
                if not self.skip(";") and not self.skip(","):
                    fields.append((self.place(), self.value()))
            self.at += 1
        return ("record", base, tuple(fields))

    def value(self):
        """What stands behind a label: a value, or a type."""
        if self.skip("="):
            return self.nested()
        return ("label", self.nested()) if self.skip(":") else ("other", ())


def applied(words):
    """The application of a term to those behind it; none where there is no term."""
    return [("apply", words[0], tuple(words[1:]))] if len(words) > 1 else words


def read_term(tokens, first, last):
    """The term between two tokens."""
    code = [at for at in range(first, last) if tokens[at].kind != "comment"]
    return Terms(tokens, code, 0, len(code)).term()


def read_import(tokens, code, at, end, first=0):
    """The import whose path begins at one place of the code and that ends at another; its line begins at the first."""
    path, names, alias = [], [], None
    while at < end:
        word = tokens[code[at]].text
        if word == "{":
            at, names = import_list(tokens, code, at + 1, end)
        elif word == "as":
            at += 1
            alias = code[at]
        elif word != ".":
            path.append(code[at])
        at += 1
    return Import(tuple(path), names, alias, first, end)


def import_list(tokens, code, at, end):
    """The place of the brace that closes a list of imported names, and these names."""
    names = []
    while at < end and tokens[code[at]].text != "}":
        if tokens[code[at]].text != ",":
            known = code[at + 2] if tokens[code[at + 1]].text == "as" else None
            names.append((code[at], known))
            at += 2 if known is not None else 0
        at += 1
    return at, names


class AnttFile:
    """The imports and declarations of a text of definitions or proofs."""

    def __init__(self, text, tokens):
        self.text, self.tokens = text, tokens
        self.code = [at for at, token in enumerate(tokens) if token.kind != "comment"]
        self.imports, self.mods, self.declarations, self.unfoldings, self.clauses = [], [], [], [], []
        self.lines = self.starts()
        # the clause behind whose `where` the declarations stand
        self.outer = None
        self.block(0, len(self.lines), 0, [])

    def starts(self):
        """The place in the code and the column of each line that begins with code; a line that only closes brackets goes on with the one before."""
        lines, line_end = [], -1
        for at, place in enumerate(self.code):
            token = self.tokens[place]
            if token.start > line_end:
                begun = self.text.rfind("\n", 0, token.start) + 1
                line_end = self.text.find("\n", token.start)
                line_end = len(self.text) if line_end < 0 else line_end
                if token.text not in CLOSERS:
                    lines.append((at, token.start - begun))
        return lines

    def word(self, at):
        """The text at a place of the code."""
        return self.tokens[self.code[at]].text if at < len(self.code) else ""

    def terms(self, at, end):
        """Reads terms between two places of the code."""
        return Terms(self.tokens, self.code, at, end)

    def start(self, line):
        """Where in the code a line begins."""
        return self.lines[line][0] if line < len(self.lines) else len(self.code)

    def head(self, at):
        """The place behind the words before a declaration."""
        while self.word(at) in HEADS and self.word(at + 1) != ":":
            at += 1
        return at

    # ---- items

    def block(self, line, last, indent, section):
        """The declarations of the lines from one to another that begin at a column."""
        current = None
        while line < last:
            behind = line + 1
            while behind < last and self.lines[behind][1] > indent:
                behind += 1
            current = self.item(line, behind, section, current)
            line = behind

    def inner_block(self, at, line, behind, section):
        """The declarations of those lines among these that begin behind a place of the code."""
        inner = next((one for one in range(line + 1, behind) if self.lines[one][0] > at), behind)
        if inner < behind:
            self.block(inner, behind, self.lines[inner][1], section)

    def item(self, line, behind, section, current):
        """The item of these lines; returns the definition whose clauses may follow."""
        first, end = self.start(line), self.start(behind)
        at = self.head(first)
        word = self.word(at)
        if word == "use":
            self.imports.append(read_import(self.tokens, self.code, at + 1, end, first))
        elif word == "mod":
            self.mods.append(self.code[at + 1])
        elif word == "module":
            terms = self.terms(at + 2, end)
            binders = terms.binders()
            self.inner_block(terms.at, line, behind, [*section, *binders])
        elif word == "mutual":
            self.block(line + 1, behind, self.lines[line + 1][1], section)
        elif word in ("record", "data"):
            self.typed(word, at, line, behind, section)
        elif word == "unfolding":
            self.unfoldings.extend(self.code[at + 1 : end])
            return current
        elif word in ("infixl", "infixr", "infix"):
            return current
        elif first != at or self.word(at + 1) == ":":
            return self.definition(at, end, section)
        else:
            self.clause(at, line, behind, section, current)
            return current
        return None

    def definition(self, at, end, section):
        """The type of a definition or lemma."""
        found = Declaration("def", self.code[at], self.terms(at + 2, end).term())
        found.section, found.outer = list(section), self.outer
        self.declarations.append(found)
        return found

    def typed(self, kind, at, line, behind, section):
        """A record or data type with its fields or constructors."""
        found, terms = Declaration(kind, self.code[at + 1], None), self.terms(at + 2, self.start(behind))
        found.section, found.binders = list(section), list(terms.binders())
        if terms.skip(":"):
            found.type = terms.term()
        self.declarations.append(found)
        inner = next((one for one in range(line + 1, behind) if self.lines[one][0] > terms.at), behind)
        for one in range(inner, behind):
            if self.lines[one][1] == self.lines[inner][1]:
                later = next((other for other in range(one + 1, behind) if self.lines[other][1] <= self.lines[one][1]), behind)
                found.fields += self.members(self.head(self.start(one)), self.start(later))

    def members(self, at, end):
        """The fields or constructors of one line, each with its type."""
        names = []
        while at < end and self.word(at) != ":":
            names.append(self.code[at])
            at += 1
        type = self.terms(at + 1, end).term()
        return [(name, type) for name in names]

    def clause(self, at, line, behind, section, current):
        """An equation: its patterns, of which the first is the name that is defined, its term, and the definitions behind its `where`, which see its variables."""
        terms, end, patterns = self.terms(at, self.start(behind)), self.start(behind), []
        while terms.at < end and terms.peek() != "=":
            before = terms.at
            patterns.append(terms.pattern())
            terms.at += terms.at == before
        terms.at += 1
        found = (tuple(patterns), terms.term() if terms.at < end else ("other", ()))
        if current is not None:
            current.clauses.append(found)
        self.clauses.append((current, found, list(section), self.outer))
        if terms.peek() == "where":
            outer, self.outer = self.outer, len(self.clauses) - 1
            self.inner_block(terms.at, line, behind, section)
            self.outer = outer
