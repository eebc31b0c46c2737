"""What is wrong with a table, for a checkout that is not renamed yet."""
import pathlib

from .declarations import RustModule

# The items of Rust whose names are types or modules: a value may have the same name.
NAMES_OF_TYPES = ("struct", "enum", "trait", "alias", "module")


class Checker:
    """Finds what is wrong with the table of a renamed checkout. `kept` is a file whose lines have a crate and the public names that it keeps, as `crate: Item Type::member`."""

    def __init__(self, renamed, kept):
        self.renamed, self.checkout = renamed, renamed.checkout
        self.kept = [line for line in pathlib.Path(kept).read_text().splitlines() if not line.startswith("#")]

    def findings(self):
        """The title and the lines of each kind of fault."""
        renamed = self.renamed
        yield "lines that are no entries", renamed.malformed
        yield "entries that name nothing", renamed.unused
        yield "entries that clash with another", renamed.clashing
        yield "entries that are left out", [f"{entry}: {reason}" for entry, reason in renamed.left_out]
        yield "names that would hide another", [*self.hidden_names(), *self.hidden_members()]
        yield "kept names that would change", list(self.changed_names())
        yield "names that may be any of several", renamed.rewriter.problems + renamed.rewriter.goals.problems

    # ---- names that would be one

    def hidden_names(self):
        """Two names of one file, declared or imported, that would be the same."""
        for module in self.renamed.sources():
            after = {}
            for name, symbols in self.scope(module):
                for symbol in symbols:
                    new = symbol.new_name if symbol is not None and symbol.name == name else name
                    before = after.setdefault((self.namespace(module, symbol), new), name)
                    if before != name:
                        yield f"{module.file.relative_to(self.checkout.top)}: {before} and {name} would both be {new}"

    def scope(self, module):
        """The names that a source declares or imports, with what each may mean."""
        if isinstance(module, RustModule):
            return module.names.items()
        return [(name, [symbol]) for name, symbol in module.scope().items()]

    def namespace(self, module, symbol):
        return isinstance(module, RustModule) and symbol.kind in NAMES_OF_TYPES

    def hidden_members(self):
        """Two members of one type that would have one name."""
        for symbol in self.declared():
            after = {}
            for name, members in symbol.members.items():
                for member in members:
                    before = after.setdefault((member.kind, member.new_name), name)
                    if before != name:
                        yield f"{symbol.where()}: {before} and {name} would both be {member.new_name}"

    def declared(self):
        """All types, records and other items of the checkout."""
        for module in self.renamed.sources():
            yield from self.renamed.table.symbols_of(module)

    # ---- names that are to stay

    def changed_names(self):
        """Public items of Rust that are to keep their names and would get another, or that are not there."""
        for line in self.kept:
            crate, _, names = line.partition(":")
            for name in names.split():
                symbols = self.items(crate, *name.split("::"))
                if not symbols:
                    yield f"{crate}/{name} is not there"
                yield from (f"{crate}/{name} would be {one.new}" for one in symbols if one.new)

    def items(self, crate, name, member=None):
        """The public items of this name of a crate, or their members of another name."""
        found = [one for one in self.renamed.table.declared_in(crate).get(name, ()) if isinstance(one.module, RustModule) and one.item.public]
        return found if member is None else [one for item in found for one in item.members.get(member, ())]
