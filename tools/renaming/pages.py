"""Pages under the new names: what stands in backticks in README.md, docs/*.md and crates/*/README.md.

A path of a file or a name that begins with its crate means what it says. Any other name is that of a file that its row names, of the crate that the line names last before it,
of the page's crate or of one below, or one of any crate; where it may be several things that get different names, it stays, and is listed.
"""
import dataclasses
import re

from .declarations import RustModule
from .edits import Edits

SPAN = re.compile(r"`([^`\n]+)`")
CALL = re.compile(r"^((?:\w+::)*\w+)\.(\w+|\{\w+(?:, \w+)*\})$")
BRACED = re.compile(r"^(.*)\{([\w/]+(?:, ?[\w/]+)*)\}(.*)$")
RELATIVE = re.compile(r"^(src|specs|proofs)/([\w/+]+)(\.rt|\.antt)?$")
CODE = re.compile(r"^[\w<>, &\[\]()']+$")
LISTED = re.compile(r"\((?:`[^`]+`(?:, |; | and ))*$")
NAMED_FILE = re.compile(r"`(mmtel_\w+/(?:src|specs|proofs)/[\w/]+)(?:\.rt|\.antt)?`: (?:`[^`]*`, )*$")
NAMED_CRATE = re.compile(r"`(mmtel_\w+)`")
WITH_MEMBERS = ("struct", "enum", "trait", "record")
# Of several things of one name the ones that a page means first.
RANKS = [("struct", "enum", "trait", "alias"), ("fn", "method"), ("def", "record", "data", "constructor"), ("variant", "const", "ghost"), ("field",), ("file", "module")]


@dataclasses.dataclass
class Span:
    """What stands around a name: the page's crate, the crates that the line names before and behind it, the files that it is of, whether clauses are listed there, and the place."""

    crate: str
    named: list
    behind: list
    files: list
    is_clause: bool
    place: str


class Pages(Edits):
    """New texts of pages. `open` lists the names that may be several things."""

    def __init__(self, checkout, rewriter):
        super().__init__(checkout, rewriter)
        self.names, self.clauses, self.open = {}, {}, []
        self.kit_crates = {one for below in checkout.dependencies.values() for one in below if one not in checkout.dependencies}
        for module in checkout.rust.values():
            self.index_rust(module)
        for module in checkout.antt.values():
            if module.path[-1] not in ("Answers", "Invariants"):
                self.index_definitions(module)

    # ---- the index of names

    def index_rust(self, module):
        """Notes the items of a source, and the clauses of its functions."""
        for symbol in [module.symbol, *self.declared(module)]:
            if symbol.kind != "variant":
                self.index(module.crate, symbol)
        for function in module.functions:
            for word, name in function.clauses:
                if word == "ensures" and name:
                    self.clauses.setdefault(module.crate, set()).add(name)

    def index_definitions(self, module):
        """Notes a file of definitions or proofs and what it declares."""
        if module.path[-1] != "Lib":
            self.index(module.crate, module.symbol)
        for symbol in module.declared.values():
            if symbol.kind != "goal":
                self.index(module.crate, symbol)

    def index(self, crate, symbol):
        """Notes a symbol and the members that are declared with it."""
        members = [one for ones in symbol.members.values() for one in ones if one.module is symbol.module] if symbol.kind in WITH_MEMBERS else []
        for one in [symbol, *members]:
            self.names.setdefault(crate, {}).setdefault(one.name, []).append(one)

    def declared(self, module):
        """What a source declares, with the members of `impl` blocks."""
        if not isinstance(module, RustModule):
            return list(module.declared.values())
        found = [symbol for symbols in module.names.values() for symbol in symbols if symbol.module is module and symbol.kind != "module"]
        return found + [member.symbol for item in module.impls for member in item.members]

    def named_in(self, name, modules):
        """The symbols of this name that these sources declare, or else the members."""
        found = [symbol for module in modules for symbol in self.declared(module)]
        members = [one for symbol in found if symbol.kind in WITH_MEMBERS for ones in symbol.members.values() for one in ones]
        found = [one for one in found + members if one.name == name]
        return [one for one in found if one.owner is None] or found

    # ---- pages

    def page(self, name, text):
        """The new text of a page."""
        crate = name.split("/")[1] if name.startswith("crates/") else None
        lines, fenced = [], False
        for number, line in enumerate(text.split("\n"), 1):
            is_fence = line.startswith("```")
            fenced = fenced != is_fence
            lines.append(self.paths(line) if fenced or is_fence else self.line(crate, line, f"{name}:{number}"))
        return "\n".join(lines)

    def line(self, crate, line, place):
        """The new text of a line."""
        files = self.files_of_row(crate, line)
        return SPAN.sub(lambda found: f"`{self.span(found.group(1), self.around(found, crate, line, files, place))}`", line)

    def around(self, found, crate, line, files, place):
        """What stands around a name of a line."""
        before, behind = line[: found.start()], line[found.end() :]
        owner = re.match(r" of `(mmtel_\w+)`", behind)
        named = [*NAMED_CRATE.findall(before), *([owner.group(1)] if owner else [])]
        file = NAMED_FILE.search(before)
        module = self.checkout.module_at(file.group(1)) if file else None
        is_clause = bool(LISTED.search(before)) and bool(re.match(r"\s*- ", line))
        return Span(crate, named[-1:], NAMED_CRATE.findall(behind), [module] if module else files, is_clause, place)

    def files_of_row(self, crate, line):
        """The files of definitions that a row of a table names."""
        if not line.startswith("| "):
            return []
        paths = [name if name.startswith("mmtel_") else f"{crate}/{name}" for name in re.findall(r"`((?:mmtel_\w+/)?specs/[\w/]+)`", line)]
        paths += [f"{other}/specs/{name}" for name, other in re.findall(r"`specs/([\w/]+)` of `(mmtel_\w+)`", line)]
        found = [self.checkout.antt.get(("Rattle", *path.split("/"))) for path in paths]
        return [module for module in found if module]

    def span(self, text, around):
        """The new text between two backticks."""
        if text.startswith("Rattle.") or re.match(r"mmtel\w*(::|/|$)", text) or text.startswith("crates/"):
            braced = BRACED.match(text)
            return self.braced(braced, self.paths) if braced and "/" in braced.group(1) else self.paths(text)
        if RELATIVE.match(text) or (BRACED.match(text) and re.match(r"(src|specs|proofs)/", text)):
            return self.relative(text, around)
        if re.fullmatch(r"\w+\.(rt|antt)", text):
            stem, end = text.split(".")
            return f"{self.word(stem, dataclasses.replace(around, files=[], is_clause=False), ('module', 'file'))}.{end}"
        call = CALL.match(text)
        if call:
            return self.called(call.group(1), call.group(2), dataclasses.replace(around, is_clause=False))
        if re.fullmatch(r"\w+(::\w+)+", text):
            return self.member_path(text.split("::"), around)
        if text in self.kit_crates:
            return text
        if re.fullmatch(r"\w+", text):
            return self.word(text, around)
        if CODE.match(text) and re.match(r"[A-Z]\w+<", text):
            return re.sub(r"\w+", lambda found: self.word(found.group(), dataclasses.replace(around, is_clause=False)), text)
        return self.paths(text)

    # ---- paths

    def braced(self, braced, one):
        """A path with several ends in braces, each of which is renamed by this function."""
        ends = [part.strip() for part in braced.group(2).split(",")]
        front = one(braced.group(1).rstrip("/")).rstrip("/") + "/"
        parts = [one(braced.group(1) + end + braced.group(3)).removesuffix(braced.group(3)).removeprefix(front) for end in ends]
        return front + "{" + (", " if ", " in braced.group(2) else ",").join(parts) + "}" + braced.group(3)

    def relative(self, text, around):
        """A path within a crate: that of the page, one that the line names, or the only one that has it."""
        there = [one for one in [*around.named, *around.behind, *self.crates] if self.exists(one, text)]
        for owner in [*([around.crate] if around.crate else []), *there]:

            def one(path, owner=owner):
                return self.paths(f"{owner}/{path}").split("/", 1)[1] if "/" in path else path

            braced = BRACED.match(text)
            new = self.braced(braced, one) if braced else one(text)
            if new != text or self.exists(owner, text):
                return new
        return text

    def exists(self, crate, path):
        """Whether a crate has the file or folder, or the first of several."""
        braced = BRACED.match(path)
        path = braced.group(1) + braced.group(2).split(",")[0] + braced.group(3) if braced else path
        return any((self.checkout.top / "crates" / crate / (path + end)).exists() for end in ("", ".rt", ".antt"))

    # ---- names

    def choices(self, name, around, files):
        """The symbols that a name may mean: of each place in order those that are there."""
        if files:
            yield self.named_in(name, files)
        for one in around.named:
            yield self.names.get(one, {}).get(name, [])
        if around.crate:
            yield self.names.get(around.crate, {}).get(name, [])
            yield [symbol for one in self.checkout.with_dependencies(around.crate) for symbol in self.names.get(one, {}).get(name, [])]
        yield [symbol for one in self.names for symbol in self.names[one].get(name, [])]

    def word(self, name, around, kinds=None):
        """One name, perhaps only of these kinds."""
        if around.is_clause and around.crate and name in self.clauses.get(around.crate, ()):
            return self.checkout.clause_name("ensures", name)
        for symbols in self.choices(name, around, around.files):
            symbols = [one for one in symbols if not kinds or one.kind in kinds]
            if symbols:
                new_names = {one.new_name for one in symbols}
                new_names = new_names if len(new_names) == 1 else self.first(symbols)
                if len(new_names) == 1:
                    return new_names.pop()
                self.open.append(f"{around.place}: `{name}` may be {sorted({f'{one.kind} {one.where()} -> {one.new_name}' for one in symbols})}")
                return name
        return name

    def first(self, symbols):
        """The new names of those of the first rank that is there."""
        ranked = ({one.new_name for one in symbols if one.kind in kinds} for kinds in RANKS)
        return next(filter(None, ranked), {one.new_name for one in symbols})

    def member_path(self, parts, around):
        """`Type::member` or `module::function`."""
        for owners in self.choices(parts[0], around, []):
            for owner in owners:
                new_names, here = [owner.new_name], owner
                for name in parts[1:]:
                    found = self.checkout.inside(here, name) if here is not None and here.kind in ("module", "struct", "enum", "trait", "alias", "variant") else []
                    here = found[0] if found else None
                    new_names.append(here.new_name if here is not None else None)
                if None not in new_names:
                    return "::".join(new_names)
        return "::".join(parts)

    # ---- clauses and fields

    def called(self, path, members, around):
        """`call.clause` and `call.{clause, clause}`, or `record.field`."""
        parts, names = path.split("::"), re.findall(r"\w+", members)
        functions = self.having(self.functions(parts, around), names) or self.anywhere(parts, names)
        new_paths = {self.new_path(one, parts) for one in functions}
        if len(new_paths) > 1:
            self.open.append(f"{around.place}: call `{path}` may be {sorted(new_paths)}")
            return f"{path}.{members}"
        if functions:
            front, new_names = new_paths.pop(), [self.checkout.clause_name("ensures", name) for name in names]
        else:
            front, new_names = "::".join([*parts[:-1], self.word(parts[-1], around)]), self.fields(parts[-1], names, around)
        return front + "." + ("{" + ", ".join(new_names) + "}" if members.startswith("{") else new_names[0])

    def functions(self, path, around):
        """The functions that a path names, in the first place that has some."""
        *owner, name = path
        for symbols in self.choices(name, around, []):
            found = [one for one in symbols if one.kind in ("fn", "method") and (not owner or owner[-1] in (self.owner(one), *one.module.path[-1:]))]
            if found:
                return [one for one in found if getattr(one, "function", None)]
        return []

    def having(self, functions, names):
        """Those of these functions that have all these clauses, or else some."""
        return next(filter(None, ([one for one in functions if some(("ensures", name) in one.function.clauses for name in names)] for some in (all, any))), [])

    def anywhere(self, parts, names):
        """The functions of any crate of this path and with all these clauses."""
        functions = [function.symbol for module in self.checkout.rust.values() for function in module.functions if function.symbol.name == parts[-1]]
        return [one for one in functions if (len(parts) == 1 or self.owner(one) == parts[-2]) and all(("ensures", name) in one.function.clauses for name in names)]

    def owner(self, symbol):
        """The name of the type or trait in whose block a function stands."""
        owner = self.owner_symbol(symbol)
        return owner.name if owner else None

    def owner_symbol(self, symbol):
        """The type or trait in whose block a function stands."""
        block = getattr(symbol.item, "owner", None)
        return block.symbol if block is not None and block.kind == "trait" else block.owner if block is not None else None

    def new_path(self, symbol, parts):
        """The new form of a path that names a function."""
        front = [] if len(parts) == 1 else [(self.owner_symbol(symbol) or symbol.module.symbol).new_name]
        return "::".join([*front, symbol.new_name])

    def fields(self, owner, names, around):
        """The new names of fields of a record or type."""
        owners = [one for symbols in self.choices(owner, around, around.files) for one in symbols if one.kind in WITH_MEMBERS]
        if not owners:
            return [self.word(name, around) for name in names]
        members = [{member.new_name for member in owners[0].members.get(name, ())} for name in names]
        return [found.pop() if len(found) == 1 else name for found, name in zip(members, names)]
