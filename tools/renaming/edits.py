"""Edits that must fail, under the new names: each names a file of its crate, a text of it and what it becomes, and the clause by which that is refused."""
from .changed_sources import ChangedSource
from .paths import Paths


class Edits(Paths):
    """New texts of edits. `wrong` lists those whose text is not found once."""

    def __init__(self, checkout, rewriter):
        super().__init__(checkout, rewriter)
        self.wrong = []

    def edit(self, crate, text):
        """The new text of an edit of this crate."""
        lines, module, before = iter(text.split("\n")), None, ""
        done = []
        for line in lines:
            word, _, rest = line.partition(": ")
            if word == "file":
                named = self.file(crate, rest.strip())
                before = before if named is module else named.file.read_text()
                module = named
                done.append("file: " + self.rewriter.path(module).split("/", 2)[2])
            elif word == "old":
                replacement = next(lines).removeprefix("new: ")
                done += self.change(module, before, rest, replacement)
                before = before.replace(rest, replacement) if before.count(rest) == 1 else before
            elif word == "# clause":
                done.append("# clause: " + self.clause(crate, rest.strip()))
            else:
                done.append(self.paths(line))
        return "\n".join(done)

    def file(self, crate, path):
        """The module of a path as src/name.rt."""
        parts = tuple(path.removeprefix("src/").removesuffix(".rt").split("/"))
        return self.checkout.rust[crate, () if parts in (("lib",), ("main",)) else parts]

    def change(self, module, before, old, new):
        """The lines of a change of a text, which is found once in what stood before."""
        if before.count(old) != 1:
            self.wrong.append(f"{module.crate}: an edit's text is found {before.count(old)} times: {old.strip()}")
            return [f"old: {old}", f"new: {new}"]
        at = before.index(old)
        return ["old: " + self.region(module, before, at, old), "new: " + self.region(module, before.replace(old, new), at, new)]

    def region(self, module, text, at, part):
        """The new form of a part of a changed text of a module."""
        return self.rewriter.region(ChangedSource(self.checkout, module, text), at, at + len(part))

    def clause(self, crate, text):
        """`call.clause` or `Type::call.clause`."""
        path, dot, clause = text.partition(".")
        return self.call(crate, path.split("::")) + dot + self.checkout.clause_name("ensures", clause)

    def call(self, crate, names):
        """A function of a crate, by its own name or behind its type."""
        modules = [module for (name, _), module in self.checkout.rust.items() if name == crate]
        for symbol in (one for module in modules for one in module.names.get(names[0], ()) if one.module.crate == crate and one.kind != "module"):
            members = [symbol.members.get(name, ()) for name in names[1:]]
            return "::".join([symbol.new_name, *(found[0].new_name if found else name for found, name in zip(members, names[1:]))])
        methods = {member.symbol.new_name for module in modules for item in module.impls for member in item.members if [member.name] == names}
        return methods.pop() if len(methods) == 1 else "::".join(names)
