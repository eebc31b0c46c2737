"""Whether a renamed checkout says what it said before: by what its names mean, and by the words of its contracts and definitions."""
import collections

from .lexing import antt_tokens, rust_tokens
from .resolution import ResolvedCheckout


def line_of(text, start):
    """The number of the line of a place in a text."""
    return text.count("\n", 0, start) + 1


# ---- what names mean


def declared_at(symbol):
    """The module and the token where a symbol is declared; no token where that is the whole file, and None where it is neither."""
    item, module = getattr(symbol, "item", None), getattr(symbol, "module", None)
    if symbol.kind in ("module", "file"):
        return module, None
    if symbol.kind == "folder" or item is None or module is None:
        return None
    if isinstance(item, tuple):
        return module, item[0]
    return (module, item.at) if hasattr(item, "at") else None


class Meanings:
    """Compares what the names of a checkout meant with what they mean in the folder to which it was written under the new ones."""

    def __init__(self, renamed, top):
        self.old, self.texts, self.new = renamed.checkout, renamed.texts, ResolvedCheckout(top)
        self.modules = {str(module.file.relative_to(self.new.top)): module for module in [*self.new.rust.values(), *self.new.antt.values()]}

    def differences(self):
        """A line for each name that means something else."""
        for module, (path, _, places) in self.texts.items():
            other = self.modules.get(path)
            if other is None:
                yield f"{path}: is not there"
            else:
                yield from self.compare(module, other, places)

    def compare(self, module, other, places):
        """The differences of one source."""
        tokens = {token.start: at for at, token in enumerate(other.source.tokens)}
        before, after = self.old.names[module], self.new.names[other]
        old_numbers, new_numbers = self.variables(before), self.variables(after)
        uses = [*before.symbols.items(), *((at, fields) for at, (fields, _) in before.shorthand.items())]
        for at, symbols in uses:
            now = tokens.get(places.get(at))
            if now is None:
                continue
            found = after.shorthand[now][0] if now in after.shorthand and at in before.shorthand else after.symbols.get(now, [])
            meant, means = {self.key(one, self.old_place, old_numbers) for one in symbols}, {self.key(one, self.new_place, new_numbers) for one in found}
            if meant != means:
                place = f"{other.file.relative_to(self.new.top)}:{line_of(other.source.text, other.source.tokens[now].start)}"
                yield f"{place}: `{module.source.tokens[at].text}`, now `{other.source.tokens[now].text}`, meant {sorted(map(str, meant))}, means {sorted(map(str, means))}"

    def variables(self, names):
        """The numbers of the variables of a source in the order in which they are bound."""
        symbols = [one for found in names.symbols.values() for one in found] + [one for _, found in names.shorthand.values() for one in found]
        return {at: number for number, at in enumerate(sorted({one.at for one in symbols if one.kind == "local" and one.at is not None}))}

    def key(self, symbol, place, numbers):
        """By what a symbol is known in both: a variable by its number, others by their file and where they are declared there, as `place` says it of a module and a token."""
        symbol = getattr(symbol, "target", symbol)
        if symbol.kind == "local":
            return ("local", numbers.get(symbol.at))
        where = declared_at(symbol)
        if where is None or where[0] is None:
            return (symbol.kind, symbol.new_name)
        return place(*where) or ("kit", symbol.name)

    def new_place(self, module, at):
        """The path of a source of the new checkout, and where a token of it stands."""
        if not module.file.is_relative_to(self.new.top):
            return None
        return str(module.file.relative_to(self.new.top)), module.source.tokens[at].start if at is not None else None

    def old_place(self, module, at):
        """The same of a source of the old one, as it is written."""
        if module not in self.texts:
            return None
        path, _, places = self.texts[module]
        return path, places.get(at) if at is not None else None


# ---- what contracts and definitions say


class Part:
    """Tokens that are compared as one: a clause of a contract, a definition, or what stands between such."""

    def __init__(self, kind, tokens):
        self.kind, self.tokens = kind, [token for token in tokens if token.kind != "comment"]


def rust_parts(text):
    """The clauses and ghost items of a source, each with its name, and the code between them, where imports and commas are the layout's."""
    tokens, clauses = rust_tokens(text)
    code, done = [], 0
    for first, last, word in [*clauses, (len(tokens), len(tokens), "")]:
        code += tokens[done:first]
        done = last
        if word == "use":
            continue
        yield Part("code", [token for token in without_imports(code) if token.text != ","])
        code = []
        if word:
            name = tokens[first - 2 : first - 1] if tokens[first - 2].kind == "name" else []
            yield Part("contracts", name + tokens[first:last])


def without_imports(tokens):
    """Tokens of Rust but for those from `use` or `mod` to the semicolon."""
    skipping = False
    for token in tokens:
        skipping = skipping or token.text in ("use", "mod")
        if not skipping:
            yield token
        skipping = skipping and token.text != ";"


def antt_parts(text, kind):
    """The items of a file of definitions or proofs, each from one first column to the next, without imports."""
    item = []
    for token in antt_tokens(text):
        if token.kind != "comment" and (token.start == 0 or text[token.start - 1] == "\n") and token.text not in ("}", ")", "]"):
            yield Part(kind, item)
            item = []
        item.append(token)
    yield Part(kind, item)


def is_import(part):
    """Whether a part is a line of imports or of files."""
    return [token.text for token in part.tokens[:2] if token.text != "pub"][:1] in (["use"], ["mod"])


def parts(path, text):
    """The parts of a source by the path at which it stands."""
    found = rust_parts(text) if path.endswith(".rt") else antt_parts(text, "definitions" if "/specs/" in path else "proofs")
    return [part for part in found if part.tokens and not (path.endswith(".antt") and is_import(part))]


class Comparison:
    """Compares the sources of a checkout, under the names of the table, with those of another one.

    Of each kind of part it counts those that are the same, those that differ only in names which the table does not give, and those that differ otherwise. Names alone differ
    where in the whole part each name of one stands wherever a certain name of the other does.
    """

    KINDS = ("contracts", "definitions", "code", "proofs")

    def __init__(self, renamed, top):
        self.expected = {path: text for path, text, _ in renamed.texts.values()}
        self.top = top
        self.counts = {kind: collections.Counter() for kind in self.KINDS}
        self.names, self.different = collections.defaultdict(list), []

    def run(self):
        """Compares all sources, and says what is in neither or in one alone."""
        present = {str(file.relative_to(self.top)) for end in ("rt", "antt") for kind in ("src", "specs", "proofs") for file in self.top.glob(f"crates/*/{kind}/**/*.{end}")}
        self.different += [f"{path}: is in one alone" for path in sorted(present ^ self.expected.keys())]
        for path in sorted(present & self.expected.keys()):
            self.source(path, (self.top / path).read_text())

    def source(self, path, text):
        """Compares the parts of one source in their order."""
        before, after = parts(path, self.expected[path]), parts(path, text)
        for one, other in zip(before, after):
            self.part(path, text, one, other)
        if len(before) != len(after):
            self.different.append(f"{path}: {len(before)} parts, and {len(after)}")

    def part(self, path, text, one, other):
        """Compares a part with that of the other checkout."""
        pairs = self.renamed_pairs(one.tokens, other.tokens)
        place = f"{path}:{line_of(text, other.tokens[0].start)}"
        if pairs is None:
            self.counts[one.kind]["differ"] += 1
            self.different.append(f"{place} ({one.kind}): {self.first_difference(one.tokens, other.tokens)}")
        elif pairs:
            self.counts[one.kind]["other names"] += 1
            for pair in pairs:
                self.names[pair].append(f"{place} ({one.kind})")
        else:
            self.counts[one.kind]["same"] += 1

    def renamed_pairs(self, before, after):
        """The pairs of names in which two lists of tokens differ; None where they differ otherwise."""
        if len(before) != len(after):
            return None
        there, back = {}, {}
        for one, other in zip(before, after):
            if one.text != other.text and not (one.kind == other.kind == "name"):
                return None
            if one.kind == "name" and (there.setdefault(one.text, other.text) != other.text or back.setdefault(other.text, one.text) != one.text):
                return None
        return [pair for pair in there.items() if pair[0] != pair[1]]

    def first_difference(self, before, after):
        """The first words in which two lists of tokens differ, with some before them."""
        at = next((at for at, (one, other) in enumerate(zip(before, after)) if one.text != other.text), min(len(before), len(after)))
        words = [[token.text.replace("\n", " ")[:40] for token in tokens[max(at - 4, 0) : at + 6]] for tokens in (before, after)]
        return " | ".join(map(" ".join, words))

    def report(self):
        """The lines that say what was found."""
        for kind, counts in self.counts.items():
            yield f"{kind}: {counts['same']} the same but for the table's names, {counts['other names']} with other names besides, {counts['differ']} that differ"
        for (old, new), places in sorted(self.names.items()):
            yield f"{old} -> {new}, not by the table: {len(places)}, as {places[0]}"
        yield from self.different
