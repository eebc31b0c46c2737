"""Crates, paths of files and paths of names in any text, under the new names."""
import re

from .changed_sources import ScriptSource
from .imports import path_symbols

PATH = re.compile(r"\b(?P<crate>mmtel\w*)/(?P<kind>src|specs|proofs)/(?P<path>[\w/+]+)(?P<end>\.rt|\.antt)?")
RUST_PATH = re.compile(r"\bmmtel\w*(?:::\w+)+")
DOTTED = re.compile(r"\bRattle\.mmtel\w*(?:\.[\w+]+)+")
CRATE = re.compile(r"\bmmtel_\w+")


class Paths:
    """New texts of files that name crates, modules and what they declare by their paths."""

    def __init__(self, checkout, rewriter):
        self.checkout, self.rewriter = checkout, rewriter
        self.crates = {crate: checkout.rust[crate, ()].symbol.new_name for crate in checkout.dependencies}

    def paths(self, text):
        """The text with all that it names so under the new names."""
        text = RUST_PATH.sub(lambda found: self.rust_path(found.group()), text)
        text = DOTTED.sub(lambda found: self.dotted(found.group()), text)
        text = PATH.sub(self.file_path, text)
        return CRATE.sub(lambda found: self.crates.get(found.group(), found.group()), text)

    def rust_path(self, path):
        """A path of Rust from its crate on."""
        names = path.split("::")
        if (names[0], ()) not in self.checkout.rust:
            return path
        found = self.checkout.rust_path(self.checkout.rust[names[0], ()], names)
        new_names = [{symbol.new_name for symbol in symbols if symbol.name == name} for symbols, name in zip(found, names)]
        return "::".join(new.pop() if len(new) == 1 else name for new, name in zip(new_names, names))

    def dotted(self, path):
        """A path of definitions or proofs, as `Rattle.crate.specs.File.name`."""
        parts = path.split(".")
        for end in range(len(parts), 3, -1):
            space = self.checkout.space(parts[:end])
            if space is not None:
                symbols = [*path_symbols(self.checkout, parts[:end], space), *(space.get(part) for part in parts[end:])]
                return ".".join(symbol.new_name if symbol is not None else part for symbol, part in zip(symbols, parts))
        return path

    def file_path(self, found):
        """A path of a file or folder of sources, definitions or proofs."""
        crate, kind, path, end = found.group("crate", "kind", "path", "end")
        if crate not in self.crates:
            return found.group()
        parts = path.strip("/").split("/")
        new = [self.part(crate, kind, parts[: end + 1], end + 1 == len(parts)) for end in range(len(parts))]
        return f"{self.crates[crate]}/{kind}/{'/'.join(new)}{'/' if path.endswith('/') else ''}{end or ''}"

    def part(self, crate, kind, path, is_last):
        """The new name of the folder or file at a path behind `src`, `specs` or `proofs`."""
        if kind == "src":
            found = self.checkout.rust.get((crate, tuple(path)))
        else:
            found = self.checkout.antt.get(("Rattle", crate, kind, *path)) if is_last else None
        symbol = found.symbol if found else self.checkout.folders.get(("Rattle", crate, kind, *path))
        return symbol.new_name if symbol else path[-1]

    def script(self, text):
        """A script, with the sources that stand in it behind `<<'SOURCE'`."""
        parts = re.split(r"(?<=<<'SOURCE'\n)(.*?)(?=^SOURCE$)", text, flags=re.S | re.M)
        return "".join(self.rewriter.region(ScriptSource(self.checkout, part), 0, len(part)) if number % 2 else self.paths(part) for number, part in enumerate(parts))
