"""New names of bound variables of definitions and proofs: the entries `binder` of the table.

Such a word is changed in a whole file or not at all: in every place where it is neither a field behind a dot, nor the label of a record, nor imported. It stays in a file that
imports or declares it, or that has the new name already, since one variable could then hide the other.
"""
import collections

from .antt_syntax import HEADS

# The words before the name of a declaration.
WORDS = HEADS | {"record", "data"}


class Binders:
    """The words that bound variables get by the table. `kept` lists each file and word that was left out, with the reason."""

    def __init__(self, entries):
        self.words = {entry.old: entry.new for entry in entries if entry.kind == "binder" and entry.where is None}
        self.of_items, self.kept = collections.defaultdict(dict), []
        for entry in entries:
            if entry.kind == "binder" and entry.where is not None:
                self.of_items[entry.where][entry.function, entry.old] = entry.new

    def edits(self, module, edits):
        """The new text of each token of a file of definitions or proofs that is a renamed variable, where its other tokens get these edits."""
        source = module.source
        texts = [edits.get(at, token.text) for at, token in enumerate(source.tokens)]
        if self.words.keys().isdisjoint(texts) and module.where() not in self.of_items:
            return {}
        imported = {at for use in source.imports for at in source.code[use.first : use.last]}
        fields = {at for one in source.declarations for at, _ in one.fields}
        plain = [at for at in source.code if at not in fields and not self.is_field(source, at) and not self.is_label(source, at)]
        bare, names = collections.Counter(texts[at] for at in plain), {texts[at] for at in imported}
        declared = {edits.get(at, source.tokens[at].text) for at in self.declarations(source)}
        found = {}
        for old, new in self.words.items():
            reason = self.reason(old, new, bare, names, declared)
            if reason:
                self.kept.append((module, f"{old} -> {new}: {reason}"))
            elif bare[old]:
                found.update((at, new) for at in plain if texts[at] == old and at not in imported)
        if module.where() in self.of_items:
            words, items = self.of_items[module.where()], self.items(source)
            found.update((at, words[items[at], texts[at]]) for at in plain if (items.get(at), texts[at]) in words)
        return found

    def items(self, source):
        """The name of the definition or lemma in which each token stands, by its old name."""
        found, name = {}, ""
        columns = {source.code[at] for at, column in source.lines if column == 0}
        for at in source.code:
            name = "" if at in columns else name
            name = name or (source.tokens[at].text if source.tokens[at].text not in WORDS else "")
            found[at] = name
        return found

    def reason(self, old, new, bare, imported, declared):
        """Why a word stays in a file where it stands; empty where it is changed."""
        if not bare[old]:
            return ""
        for name in (old, new):
            if name in imported:
                return f"{name} is imported"
        if old in declared:
            return f"{old} is declared"
        return f"{new} is there" if bare[new] else ""

    def declarations(self, source):
        """The places of the names that a file declares, but for those that are local to a section or an equation."""
        for one in source.declarations:
            if not one.section and one.outer is None:
                yield one.at
            for at, _ in one.fields:
                yield at

    def is_field(self, source, at):
        """Whether a name stands behind a dot, without a space."""
        return at > 0 and source.tokens[at - 1].text == "." and source.tokens[at - 1].end == source.tokens[at].start and source.tokens[at - 2].end == source.tokens[at - 1].start

    def is_label(self, source, at):
        """Whether a name is the label of a record's field."""
        following = next((one for one in range(at + 1, len(source.tokens)) if source.tokens[one].kind != "comment"), None)
        return following is not None and source.tokens[following].text == "=" and source.tokens[at - 1].text in ("{", ";")
