"""What the names of a text mean by where it stands."""


class Place:
    """A file of definitions or proofs."""

    def __init__(self, checkout, module):
        self.checkout, self.module, self.crate = checkout, module, module.crate
        self.of_invariants = module.path[-1:] == ("Invariants",)

    def get(self, name):
        """What it declares or imports under a name."""
        return self.module.scope().get(name)

    def alias(self, name):
        """The file or the generated names for which an alias stands."""
        return self.module.aliases.get(name) if self.get(name) is None else None

    def rust(self, name):
        """The items of Rust that a name may mean."""
        return []

    def record_of(self, names):
        """The record that has just these fields."""
        return self.checkout.record_of(self.crate, names, self.module)


class ClausePlace(Place):
    """A contract or ghost item of a Rust module."""

    def get(self, name):
        return self.checkout.ghost_scope(self.module).names.get(name)

    def alias(self, name):
        return self.checkout.ghost_scope(self.module).aliases.get(name)

    def rust(self, name):
        return [one for one in self.module.names.get(name, ()) if one.kind in ("struct", "enum", "trait", "const", "alias")]


class GhostScope:
    """The names and aliases that the `ghost use` lines of a source import."""

    def __init__(self, checkout, tokens, imports):
        self.imports, self.names, self.aliases = imports, {}, {}
        for use in imports:
            space = checkout.space([tokens[at].text for at in use.path])
            for at, known in use.names:
                self.names[tokens[at if known is None else known].text] = space.get(tokens[at].text) if space else None
            if not use.names and use.path:
                self.aliases[tokens[use.path[-1] if use.alias is None else use.alias].text] = space


class View:
    """A parameter or field as a contract or a record sees it: a variable that gets the name of that."""

    kind = "local"

    def __init__(self, target, type):
        self.target, self.type, self.name, self.at = target, type, target.name, getattr(target, "at", None)

    @property
    def new_name(self):
        return self.target.new_name

    @property
    def new(self):
        return self.target.new
