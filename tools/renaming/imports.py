"""What the imports of definitions name: files, what they declare, and what is generated of Rust declarations."""
from .declarations import GENERATED, Goals


class Imports:
    """Names the parts of imports."""

    def __init__(self, checkout, names, tokens):
        self.checkout, self.names, self.tokens = checkout, names, tokens

    def run(self, use):
        """The path of an import, and the names that it imports."""
        parts = [self.tokens[at].text for at in use.path]
        space = self.checkout.space(parts)
        for at, symbol in zip(use.path, path_symbols(self.checkout, parts, space)):
            self.names.put(at, [symbol] if symbol is not None else [])
        for at, _ in use.names:
            if isinstance(space, Goals):
                self.names.goals[at] = ("word", space)
                self.names.symbols.pop(at, None)
                continue
            symbol = space.get(self.tokens[at].text) if space is not None else None
            self.names.put(at, [symbol] if symbol is not None else [])


def path_symbols(checkout, parts, space):
    """A symbol for each part of a path of definitions, or None where it is no name of this checkout."""
    if len(parts) < 2 or parts[0] != "Rattle" or parts[1] not in checkout.dependencies:
        return [None] * len(parts)
    found = [None, checkout.rust[parts[1], ()].symbol, None]
    if len(parts) > 3 and parts[3] in GENERATED:
        return found + [None] + declared_symbols(checkout, parts[1], list(parts[4:]))
    if isinstance(space, Goals):
        return found + list(space.symbols) + [None]
    for end in range(4, len(parts) + 1):
        module = checkout.antt.get(tuple(parts[:end]))
        found.append(module.symbol if module else folder_symbol(checkout, tuple(parts[:end])))
    return found


def folder_symbol(checkout, parts):
    """A folder of files, or a type of definitions behind the path of its file."""
    above = checkout.antt.get(parts[:-1])
    return checkout.folders.get(parts) or (above.get(parts[-1]) if above else None)


def declared_symbols(checkout, crate, parts):
    """The modules and the type of a path of generated names."""
    module, found = checkout.rust.get((crate, ())), []
    while parts and module and parts[0] in module.children:
        module = module.children[parts.pop(0)]
        found.append(module.symbol)
    return found + [checkout.own(module, part) if module else None for part in parts]
