"""A checkout under the names of a table."""
import pathlib
import re
import shutil
import subprocess

from .binders import Binders
from .pages import Pages
from .resolution import ResolvedCheckout
from .rewriting import Rewriter
from .table import Table, read_table

TEXTS = {".md", ".py", ".txt", ".edit", ".c", ".cfg", ".sh", ""}
# What this script is made of keeps the old names.
OWN = re.compile(r"tools/(rename(\.\w+)?|renaming/.*)")


class Renamed:
    """The new texts of a checkout. Entries of the table that cannot be decided are left out as a whole: `left_out` has each with its reason."""

    def __init__(self, top, tables):
        self.top = pathlib.Path(top).resolve()
        self.checkout = ResolvedCheckout(self.top)
        entries, self.malformed = read_table(tables)
        self.table = Table(self.checkout, entries)
        self.unused, self.left_out = self.table.unused(), []
        self.rename()

    def rename(self):
        """Applies the table, again without the entries that are undecided until there are none."""
        while True:
            self.clashing = self.table.apply()
            self.rewriter = Rewriter(self.checkout, Binders(self.table.entries))
            self.texts = {module: (self.rewriter.path(module), *self.rewriter.text(module)) for module in self.sources()}
            out = list(dict.fromkeys([*self.hiding(), *self.undecided()]))
            if not out:
                break
            self.table.leave_out(out)
        self.files = Pages(self.checkout, self.rewriter)

    def sources(self):
        """All sources, definitions and proofs."""
        return [*self.checkout.rust.values(), *self.checkout.antt.values()]

    def undecided(self):
        """The entries of members that are used where the type of a value cannot be inferred."""
        for module, at, members in self.rewriter.members.undecided:
            for symbol in members:
                entry = self.table.entry_of.get(id(symbol))
                if symbol.new and entry is not None:
                    self.leave_out(entry, f"undecided at {self.rewriter.place(module, at)}")
                    yield entry

    def leave_out(self, entry, reason):
        """Notes the first reason for which an entry is left out."""
        if not any(one is entry for one, _ in self.left_out):
            self.left_out.append((entry, reason))

    def hiding(self):
        """The entries of variables that would hide a function, type or constant that their function names."""
        for module in self.checkout.rust.values():
            for function in module.functions:
                variables = {local.new_name: local for local in function.variables() if local.new}
                for at, symbol in self.hidden(module, function, variables):
                    entry = self.table.entry_of.get(id(variables[symbol.new_name]))
                    if entry is not None:
                        self.leave_out(entry, f"would hide {symbol.where()} at {self.rewriter.place(module, at)}")
                        yield entry

    def hidden(self, module, function, variables):
        """The uses in a function of what would have the name of one of these variables, without a path or value before it."""
        names, item = self.checkout.names[module].symbols, function.symbol.item
        for at in range(item.first, item.last + 1) if variables else ():
            for symbol in names.get(at, ()):
                if symbol.kind in ("fn", "const", "struct", "enum", "module") and symbol.new_name in variables and module.source.tokens[at - 1].text not in ("::", "."):
                    yield at, symbol

    # ---- writing

    def write(self, out):
        """Writes the renamed checkout to a folder that is not there yet."""
        places = {module.file: text for module, text in self.texts.items()}
        listed = subprocess.run(["git", "ls-files", "-z"], cwd=self.top, capture_output=True, text=True, check=True).stdout.split("\0")
        for name in filter(None, listed):
            source = self.top / name
            path, text = places[source][:2] if source in places else (self.moved(name), self.other(name, source))
            target = out / path
            target.parent.mkdir(parents=True, exist_ok=True)
            if text is None:
                shutil.copy2(source, target)
            else:
                target.write_text(text)
                shutil.copymode(source, target)

    def moved(self, name):
        """Where a file that is no source stands afterwards."""
        parts = name.split("/")
        if parts[0] == "crates":
            parts[1] = self.files.crates.get(parts[1], parts[1])
        return "/".join(parts)

    def other(self, name, source):
        """The new text of a file that is no source; None where it is copied."""
        if source.suffix not in TEXTS or source.is_symlink() or OWN.fullmatch(name):
            return None
        try:
            text = source.read_text()
        except UnicodeDecodeError:
            return None
        if source.suffix == ".edit":
            return self.files.edit(name.split("/")[1], text)
        return self.files.page(name, text) if source.suffix == ".md" else self.files.script(text)
