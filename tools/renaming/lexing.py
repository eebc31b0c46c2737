"""Tokens of `.rt` and `.antt` sources, with the places where they stand.

A clause, a ghost item and a `ghost use` of a `.rt` file are written in the language of definitions: their tokens are those of an `.antt` file.
"""
import re
import sys

# What no token of definitions contains.
CUTS = r'\s(){}\[\];,."'
ANTT = re.compile(rf'(?P<comment>--[^\n]*)|(?P<string>"(?:[^"\\]|\\.)*")|(?P<name>[^{CUTS}]+)|(?P<mark>[(){{}}\[\];,.])')
RUST = re.compile(
    r"(?P<comment>//[^\n]*|/\*.*?\*/)"
    r'|(?P<string>\b[bc]?r(?P<hash>#*)".*?"(?P=hash)|\b[bc]?"(?:[^"\\]|\\.)*"|"(?:[^"\\]|\\.)*")'
    r"|(?P<char>\bb?'(?:[^'\\\n]|\\(?:x[0-9a-fA-F]{2}|u\{[^}]*\}|.))'|'(?:[^'\\\n]|\\(?:x[0-9a-fA-F]{2}|u\{[^}]*\}|.))')"
    r"|(?P<lifetime>'[A-Za-z_]\w*)"
    r"|(?P<number>\d\w*)"
    r"|(?P<name>[A-Za-z_]\w*)"
    r"|(?P<mark>::|->|=>|\.\.=|\.\.|&&|\|\||[^\s])",
    re.S,
)
# The head of a clause or a ghost item, up to the brace that opens its text.
CLAUSE = re.compile(r"(?:requires|ensures|ghost|measure|decreases)\b\*?(?:\s+\w+)?\s*[:=]?\s*(?=\{)")
GHOST_USE = re.compile(r"(?:pub )?ghost use\b")


class Token:
    """A word of a source: its kind (`name`, `mark`, `string`, `comment`, `number`, ..), its text, and where it begins and ends."""

    __slots__ = ("kind", "text", "start", "end")

    def __init__(self, kind, text, start, end):
        self.kind, self.text, self.start, self.end = kind, text, start, end


def antt_tokens(text, start=0, end=None):
    """The tokens of a text of definitions."""
    end = len(text) if end is None else end
    return [Token(found.lastgroup, sys.intern(found.group()), found.start(), found.end()) for found in ANTT.finditer(text, start, end)]


def closing(text, at):
    """Where the brace at this place closes, in a text of definitions."""
    depth = 0
    for found in ANTT.finditer(text, at):
        if found.group() == "{":
            depth += 1
        elif found.group() == "}":
            depth -= 1
            if depth == 0:
                return found.start()
    return len(text)


def rust_tokens(text):
    """The tokens of a source, and which of them are a text of definitions: the first, the place behind the last, and the word before, without the braces."""
    tokens, clauses, at = [], [], 0
    while True:
        found = RUST.search(text, at)
        if not found:
            return tokens, clauses
        kind = found.lastgroup if found.lastgroup != "hash" else "string"
        at = found.end()
        if kind == "name" and found.group() in ("requires", "ensures", "ghost", "measure", "decreases"):
            at = clause_tokens(text, found.start(), tokens, clauses) or found.end()
            if at != found.end():
                continue
        tokens.append(Token(kind, sys.intern(found.group()), found.start(), found.end()))


def clause_tokens(text, at, tokens, clauses):
    """Takes the clause, ghost item or `ghost use` that begins here, and returns where it ends; 0 where none does."""
    used = GHOST_USE.match(text, at)
    if used:
        end = text.index(";", at)
        first = len(tokens)
        tokens.extend(antt_tokens(text, used.end(), end))
        clauses.append((first, len(tokens), "use"))
        return end
    head = CLAUSE.match(text, at)
    if not head:
        return 0
    for found in RUST.finditer(text, at, head.end()):
        tokens.append(Token(found.lastgroup, found.group(), found.start(), found.end()))
    word = text[at : head.end()].split()[0].rstrip("*")
    opening, end = head.end(), closing(text, head.end())
    tokens.append(Token("mark", "{", opening, opening + 1))
    first = len(tokens)
    tokens.extend(antt_tokens(text, opening + 1, end))
    clauses.append((first, len(tokens), word))
    tokens.append(Token("mark", "}", end, end + 1))
    return end + 1
