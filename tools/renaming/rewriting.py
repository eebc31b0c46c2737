"""New texts and places of the sources of a checkout."""
import re

from .declarations import Goals, RustModule
from .goal_names import GoalNames
from .member_names import MemberNames


class NewText:
    """A text that is made of an old one, token by token. `places` says where each token stands in it."""

    def __init__(self, old):
        self.old, self.pieces, self.length, self.done, self.places = old, [], 0, 0, {}

    def put(self, text):
        self.pieces.append(text)
        self.length += len(text)

    def skip_to(self, place):
        """Goes on from this place of the old text."""
        self.done = place

    def copy_to(self, place):
        """Copies the old text up to this place."""
        self.put(self.old[self.done : place])
        self.done = place

    def token(self, at, token, new):
        """Puts a token with its new text, and what stands before it."""
        self.copy_to(token.start)
        self.places[at] = self.length
        self.put(new)
        self.done = token.end

    def whole(self):
        """The whole text."""
        self.copy_to(len(self.old))
        return "".join(self.pieces)


class Rewriter:
    """The new texts and places of all sources of a checkout whose symbols have their new names. `problems` lists names that mean several things of different new names."""

    def __init__(self, checkout, binders):
        self.checkout, self.binders, self.problems = checkout, binders, []
        self.members = MemberNames(checkout)
        self.goals = GoalNames(checkout, self.members.new_name)
        self.name_folders()
        self.name_goals()

    # ---- what the proofs follow

    def name_folders(self):
        """Folders of proofs follow the module, type or function whose proofs they have."""
        for parts, folder in self.checkout.folders.items():
            symbol = self.checkout.function(parts[1], parts[3:])[-1] if parts[2] == "proofs" else None
            if symbol is not None:
                folder.new = symbol.new_name if symbol.new_name != folder.name else None

    def name_goals(self):
        """Answers have the names of their goals."""
        for module in self.checkout.antt.values():
            notes = self.checkout.names[module].goals if module.path[2] == "proofs" else ()
            for one in module.source.declarations:
                if one.kind == "def" and one.type and one.type[0] == "field" and one.type[2] in notes and module.text(one.type[2]) == one.symbol.name:
                    note = notes[one.type[2]]
                    new = self.goals.name(note if isinstance(note, Goals) else note[1], one.symbol.name)
                    one.symbol.new = new if new != one.symbol.name else None

    # ---- new names of tokens

    def edits(self, module):
        """The new text of each token that changes."""
        found = {}
        for kind in (self.symbols, self.strings, self.unknown_members, self.labels, self.shorthand, self.clauses, self.goal_names):
            found.update((at, new) for at, new in kind(module) if new and new != module.source.tokens[at].text)
        if not isinstance(module, RustModule):
            found.update(self.binders.edits(module, found))
        return found

    def symbols(self, module):
        """Names whose meaning is known. What has another name here was given it by `as`."""
        for at, symbols in self.checkout.names[module].symbols.items():
            text = module.source.tokens[at].text
            new_names = {one.new_name for one in symbols if one.name == text}
            if len(new_names) > 1:
                self.problems.append(f"{self.place(module, at)}: `{text}` names several: {[f'{one.kind} {one.where()} -> {one.new_name}' for one in symbols]}")
            elif new_names:
                yield at, new_names.pop()

    def strings(self, module):
        """Strings of macros, which name variables in braces."""
        for at, variables in self.checkout.names[module].strings.items():

            def renamed(found):
                return "{" + (variables[found.group(1)].new_name if found.group(1) in variables else found.group(1))

            yield at, re.sub(r"(?<!\{)\{(\w+)(?=[:}])", renamed, module.source.tokens[at].text)

    def unknown_members(self, module):
        """Members of values whose type is not known."""
        for at, type in self.checkout.names[module].members.items():
            yield at, self.members.new_name(module, at, type)

    def labels(self, module):
        """Labels of loops."""
        for at, label in self.checkout.names[module].labels.items():
            yield at, label.new_name

    def shorthand(self, module):
        """Names that are a field and a variable at once."""
        for at, (fields, variables) in self.checkout.names[module].shorthand.items():
            text = module.source.tokens[at].text
            field = fields[0].new_name if fields else self.members.new_name(module, at, None) or text
            variable = variables[0].new_name if variables else text
            yield at, field if field == variable else f"{field}: {variable}"

    def clauses(self, module):
        """The names of clauses where they are stated."""
        tokens = module.source.tokens
        for function in module.functions if isinstance(module, RustModule) else ():
            item = function.symbol.item
            for first, _, word in module.source.clauses:
                if word == "ensures" and item.first < first <= item.last and tokens[first - 2].kind == "name" and tokens[first - 2].text != word:
                    yield first - 2, self.checkout.clause_name(word, tokens[first - 2].text)

    def goal_names(self, module):
        """Names of goals, and of what is known in proofs."""
        for at, note in self.checkout.names[module].goals.items():
            yield at, self.goals.text(module, at, note)

    def place(self, module, at):
        """The file and the line of a token."""
        line = module.source.text.count("\n", 0, module.source.tokens[at].start) + 1
        return f"{module.file.relative_to(self.checkout.top)}:{line}" if module.file else f"a script's source, line {line}"

    # ---- texts

    def text(self, module):
        """The new text of a source, and where each of its tokens stands there."""
        tokens, edits = module.source.tokens, self.edits(module)
        lists, text, at = self.import_lists(module, edits), NewText(module.source.text), 0
        while at < len(tokens):
            if at in lists:
                text.copy_to(tokens[at].start)
                at, items = lists[at]
                self.put_list(text, items)
                text.skip_to(tokens[at].start)
            else:
                text.token(at, tokens[at], edits.get(at, tokens[at].text))
                at += 1
        return text.whole(), text.places

    def put_list(self, text, items):
        """Puts a list of imported names."""
        for number, (item, inside) in enumerate(items):
            for at, offset in inside:
                text.places[at] = text.length + offset
            text.put(item + (", " if number + 1 < len(items) else ""))

    def region(self, module, start, end):
        """The new form of a part of the text of a source."""
        edits = self.edits(module)
        pieces, done = [], start
        for at, token in enumerate(module.source.tokens):
            if token.start >= start and token.end <= end and at in edits:
                pieces += [module.source.text[done : token.start], edits[at]]
                done = token.end
        return "".join([*pieces, module.source.text[done:end]])

    def import_lists(self, module, edits):
        """The lists of imports in braces that change: by their first token the place of the closing brace, and the items; they stay sorted if they were."""
        found, tokens = {}, module.source.tokens
        for use in self.checkout.ghost_scope(module).imports if isinstance(module, RustModule) else module.source.imports:
            if not use.names or not any(at in edits for names in use.names for at in names):
                continue
            last = next(at for at in reversed(use.names[-1]) if at is not None)
            if tokens[last + 1].text == "}":
                items = [self.import_item(tokens, edits, *names) for names in use.names]
                before = [tokens[name].text for name, _ in use.names]
                found[use.names[0][0]] = (last + 1, sorted(items, key=lambda item: item[0]) if before == sorted(before) else items)
        return found

    def import_item(self, tokens, edits, name, known):
        """An imported name with its alias, without one that is the same; and at which offset each of its tokens stands."""
        new = edits.get(name, tokens[name].text)
        alias = edits.get(known, tokens[known].text) if known is not None else new
        if alias == new:
            return new, [(name, 0)]
        return f"{new} as {alias}", [(name, 0), (known, len(new) + len(" as "))]

    # ---- places

    def path(self, module):
        """Where a source stands afterwards, from the top."""
        crate = self.checkout.rust[module.crate, ()].symbol.new_name
        if isinstance(module, RustModule):
            if not module.path:
                return f"crates/{crate}/src/{module.file.name}"
            parts = [self.checkout.rust[module.crate, module.path[:end]].symbol.new_name for end in range(1, len(module.path) + 1)]
            return f"crates/{crate}/src/{'/'.join(parts)}.rt"
        folders = [self.checkout.folders.get(module.path[:end]) or self.checkout.antt[module.path[:end]].symbol for end in range(4, len(module.path))]
        return "/".join(["crates", crate, module.path[2], *(one.new_name for one in folders), module.symbol.new_name]) + ".antt"
