"""New names of members where the type of the value before the dot is not known."""
from .antt_types import REFERENCE_FIELDS
from .declarations import RustModule

# Members that the kit gives to values: where a type is not known, such a name may be the kit's.
KIT_MEMBERS = set(
    "len push pop insert remove get get_mut iter iter_mut next map format read write take replace extend last first back front reserve destroy_empty into_block parts block value "
    "ip port kind alloc is_empty contains clone as_ref as_mut into_iter entries unwrap expect ok err and_then filter find position any all create open flush close seek push_str "
    "as_str bytes chars split of key".split()
)
# What is generated for a value beside its own members.
GENERATED = {"view_is", "inside", "invariant", "ranges", "told", "told2", "ok", "holds", "code", "keys"}


class MemberNames:
    """Decides by the name of a member, by what else is used of the same value, and by the hints of the table. `undecided` lists what stays open: module, token and symbols."""

    def __init__(self, checkout):
        self.checkout, self.undecided, self.by_name = checkout, [], {}
        for symbol in self.types():
            self.add(symbol)

    def types(self):
        """All types, traits and records of the checkout."""
        for module in self.checkout.rust.values():
            for symbols in module.names.values():
                yield from (one for one in symbols if one.module is module and one.kind in ("struct", "enum", "trait"))
        for module in self.checkout.antt.values():
            yield from (one for one in module.declared.values() if one.kind == "record")

    def add(self, symbol):
        """Adds the members of a type, and the fields of its variants."""
        for name, members in symbol.members.items():
            for member in members:
                self.by_name.setdefault(name, []).append(member)
                if member.kind == "variant":
                    self.add(member)

    def new_name(self, module, at, type):
        """The new name of a member of which only the name is known, or None where it stays."""
        text = module.source.tokens[at].text
        rust = isinstance(module, RustModule) and not module.source.inside[at]
        found = self.fitting(module, at, self.visible(module, text, ("field", "method") if rust else ("field", "ghost")))
        hint = self.checkout.hints.get((module, text))
        if hint is not None:
            found = [one for one in found if f"{one.owner.crate}/{one.owner.name}" in hint.split(",")]
        if not any(one.new for one in found) or hint is None and self.is_other(type, rust or text in GENERATED):
            return None
        new = {one.new_name for one in found}
        if len(new) == 1 and not (rust and text in KIT_MEMBERS):
            return new.pop()
        self.undecided.append((module, at, found))
        return None

    def is_other(self, type, generated):
        """Whether a value of this type has a member that is none of this checkout's, or, where it may be generated, one that its own type does not declare."""
        if type is None:
            return False
        return type[0] in ("kit", "variable", "function", "tuple") or type[0] == "type" and generated and type[1].kind in ("struct", "enum", "record", "trait")

    def visible(self, module, name, kinds):
        """The members of this name and of these kinds in the crates that a source may use."""
        crates = self.checkout.with_dependencies(module.crate) if module.crate else self.checkout.dependencies
        return [one for one in self.by_name.get(name, ()) if one.crate in crates and one.kind in kinds]

    def fitting(self, module, at, found):
        """Of members of one name those of types that have all fields that are taken of the same variable, or that stand in the same record."""
        names = self.checkout.names[module]
        base, labels = names.bases.get(at), names.literals.get(at)
        fitting = found
        if base is not None:
            fitting = [one for one in fitting if base.fields <= set(one.owner.members) | REFERENCE_FIELDS]
        if labels is not None:
            fitting = [one for one in fitting if labels <= {name for name, members in one.owner.members.items() if members[0].kind == "field"}]
        return fitting or found
