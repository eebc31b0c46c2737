"""Where a line of a text of definitions or proofs is broken.

Each blank between two tokens has a price: the deeper its brackets, and the tighter the operators there bind, the higher. A line is broken where the sum is least with all parts
narrow enough. An arrow, `in`, `=`, `↦` and `∷` end a line, other operators begin one.
"""
from .layout import APPLICATION, CLOSERS, HEADS, OPENERS, TYPES, rank

BREAK, DEPTH, LOOSER = 3, 12, 3
ENDING = {"in", "=", "↦", "→", "∷"}
UNENDING = {"record", "elim", "if", "then", "else", "let", "as", "|", "unfold"}
TACTICS = {"rw", "simp", "search", "grind", "omega"}
UNLIKELY, LAST_RESORT = 30, 1000
# What it costs to give each element a line of its own.
OPENING = {"cases": 8, "record": 14, "tuple": 24}


class Breaker:
    """Breaks the lines of one layout: those wider than `limit`, or than `width` if `is_fine`, into parts of at most `width` columns where good places are found, and of at most
    `limit` where any is."""

    def __init__(self, layout, width, limit, is_fine=False):
        self.layout, self.width, self.limit, self.is_fine = layout, width, limit, is_fine
        self.text, self.tokens = layout.text, layout.tokens
        self.heads = {}

    def changes(self, is_kept):
        """What replaces the blanks at the new line ends, as places of the text with the new text; a line stays where `is_kept` says so of its range."""
        for line in self.layout.lines:
            columns = line.end - line.start
            if columns > (self.width if self.is_fine else self.limit) and not is_kept(line.start, line.end):
                for at in self.places(line):
                    yield self.tokens[at].end, self.tokens[at + 1].start, "\n" + " " * line.further

    def places(self, line):
        """The tokens behind which the line is broken. Where that is between the elements of a bracket, the bracket is opened instead, and the rest is left to a later pass."""
        chosen = self.cheapest(line)
        opened = {one.opener for one in map(self.outermost, chosen) if one}
        return sorted(opened) if opened else chosen

    def outermost(self, at):
        """The outermost bracket of elements that the place behind a token is in, if any."""
        return next((one for one in reversed(list(self.layout.enclosing(at + 1))) if one.kind != "plain"), None)

    # ---- the least price

    def cheapest(self, line):
        """The tokens of the line behind which to break it."""
        gaps = [(at, price) for at in range(line.first, line.last - 1) if (price := self.price(line, at)) is not None]
        ends = [at for at, _ in gaps] + [line.last - 1]
        best, back = [0.0] * (len(ends)), [None] * len(ends)
        for to, at in enumerate(ends):
            best[to] = self.waste(self.columns(line, None, at), to == len(ends) - 1)
            for since in range(to - 1, -1, -1):
                columns = self.columns(line, ends[since], at)
                price = best[since] + gaps[since][1] + self.waste(columns, to == len(ends) - 1)
                if price < best[to]:
                    best[to], back[to] = price, since
                if columns > self.limit:
                    break
        found, to = [], back[-1]
        while to is not None:
            found.append(ends[to])
            to = back[to]
        return found[::-1]

    def columns(self, line, since, to):
        """How wide the part of a line is from behind one token up to another."""
        end = line.end if to == line.last - 1 else self.tokens[to].end
        return end - line.start if since is None else line.further + end - self.tokens[since + 1].start

    def waste(self, columns, is_last):
        """What a line of this width costs."""
        if columns > self.limit:
            return 10000 + 10 * (columns - self.limit)
        if columns > self.width:
            return 4 + 0.4 * (columns - self.width)
        slack = 1 - columns / self.width
        return (1.5 if slack > 0.85 else 0) if is_last else 2 * slack * slack

    # ---- the price of a place

    def price(self, line, at):
        """What a line end behind this token costs; None where there can be none."""
        layout, here, behind = self.layout, self.tokens[at], self.tokens[at + 1]
        if "comment" in (here.kind, behind.kind) or behind.text in CLOSERS or layout.bound.get(at) == "λ":
            return None
        inner = self.outermost(at)
        if here.text in OPENERS:
            return self.opening(inner) if inner and layout.marks[at] is inner else None
        if here.end == behind.start or at + 1 in layout.marks and layout.marks[at + 1].kind in ("record", "cases"):
            return None
        own = self.own_price(line, at)
        if own is None:
            return None
        if inner is None:
            return BREAK + self.depth(at + 1) + own
        if layout.around[at + 1] is inner and (here.text in (",", ";") or behind.text == "|"):
            return self.opening(inner)
        return LAST_RESORT + self.depth(at + 1) + own

    def opening(self, bracket):
        """The price of a line end between the elements of a bracket."""
        return BREAK + self.depth(bracket.opener) + OPENING[bracket.kind]

    def depth(self, at):
        """The price of the brackets around a token: each costs more than any place beside it."""
        layout = self.layout
        return sum(DEPTH + LOOSER * len(layout.ranks.get(layout.group[one.opener], ())) for one in layout.enclosing(at) if one.kind == "plain")

    def own_price(self, line, at):
        """The price without the brackets around."""
        here, behind, bracket = self.tokens[at], self.tokens[at + 1], self.layout.around[at + 1]
        if here.text in UNENDING:
            return None
        sign = bracket and (bracket.colon or bracket.equals)
        if sign and at <= sign:
            return UNLIKELY if at == sign else None
        head = self.head_price(line, at)
        if head != 0:
            return head
        bound = UNLIKELY / 2 if self.layout.bound.get(at) == "let" else 0
        if behind.text in (":", "where"):
            return None
        if behind.text == "as":
            return UNLIKELY
        if here.text == ":":
            return bound
        if here.text in ENDING:
            return bound + self.looser(at, rank(here))
        if behind.text in ENDING or behind.text in (",", ";"):
            return UNLIKELY if behind.text in ("→", "∷") else None
        if rank(behind) is not None:
            return bound + self.looser(at + 1, rank(behind))
        if rank(here) is not None or here.text == "¬" or here.text in TACTICS:
            return UNLIKELY
        return bound + self.application(at)

    def application(self, at):
        """The price between two terms of an application, or between two groups of binders."""
        here, behind = self.tokens[at], self.tokens[at + 1]
        opened = self.layout.marks.get(at + 1)
        if opened and opened.colon and here.text in CLOSERS:
            return 9 + self.looser(at + 1, 1)
        first = 1.5 if self.begins(at) else 0
        return (1 if behind.text in OPENERS else 2) + first + self.looser(at + 1, APPLICATION)

    def begins(self, at):
        """Whether the term that ends with this token is the head of an application."""
        while self.tokens[at].text in CLOSERS or at and self.tokens[at - 1].text == "." and self.tokens[at - 1].end == self.tokens[at].start:
            at = next(one.opener for one in self.layout.marks.values() if one.closer == at) if self.tokens[at].text in CLOSERS else at - 2
        before = self.tokens[at - 1] if at else None
        return before is None or before.text in OPENERS or rank(before) is not None or before.text in (";", ",", ".", ":")

    def looser(self, at, own):
        """The price of a place whose operator has this rank: more, the more kinds of looser operators stand beside it."""
        ranks = self.layout.ranks.get(self.layout.group[at], ())
        return LOOSER * sum(one < own for one in ranks) + (own > 2)

    # ---- what an item declares

    def head_price(self, line, at):
        """The price in the head of a declaration, clause, field or case; 0 where the place is behind that, None where there can be no line end."""
        kind, end = self.head(line.item)
        if at > end or self.layout.around[at + 1] is not self.layout.around[line.item]:
            return UNLIKELY if at < end and kind == "=" else 0
        here, behind = self.tokens[at], self.tokens[at + 1]
        if here.text in HEADS and kind != "unfolding":
            return None
        if kind == ":":
            return 1 if at == end else None
        if kind == "type":
            if here.text == ":" or behind.text in (":", "where"):
                return None
            return 1.5
        if kind == "=":
            return self.looser(at, 0) if at == end else None if at + 1 == end else UNLIKELY
        return 0

    def head(self, first):
        """Of the item that begins at a token: `:` for a signature, `=` for a clause or field, `type` for a record, data or module, and the token with which its head ends; "" if
        it has no head."""
        if first not in self.heads:
            self.heads[first] = self.find_head(first)
        return self.heads[first]

    def find_head(self, first):
        layout, outer, words = self.layout, self.layout.around[first], []
        if self.tokens[first].text in CLOSERS:
            return "", -1
        for at in range(first, len(self.tokens)):
            token = self.tokens[at]
            if layout.group[at] != layout.group[first] and layout.around[at] is outer:
                break
            if layout.around[at] is not outer:
                continue
            if not words and token.text not in HEADS:
                words = [one.text for one in self.tokens[first:at]]
                if set(words) & TYPES:
                    end = next((one for one in range(at, len(self.tokens)) if self.tokens[one].text == "where"), at)
                    return "type", end
                if token.text != "_" and "unfolding" in words:
                    return "unfolding", -1
                words = words or ["name"]
            if token.text in (":", "=", "↦") and token.kind == "name":
                return (":" if token.text == ":" else "="), at
            if token.text in ("let", "λ", "if", "elim", "→"):
                break
        return "", -1
