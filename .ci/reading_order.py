"""Which files of definitions the contract of `run` reaches, and whether the reading order of docs/ARCHITECTURE.md has just these.

A definition reaches each definition that it names, through imports, aliases, constructors and fields; the contract of `run` (crates/mmtel_cli/src/top.rt) reaches those that
its clauses name. A file that is reached is in a portion of the reading order, and a file of a portion is reached. Names are followed by their text and not by the
compiler, so a file that is reached by none of its names and has to be read all the same is in `READ_ANYWAY`, with the reason.
"""
import collections
import re

READ_ANYWAY = {}

TOKEN = re.compile(r"[^\s(){}\[\],;:=λ→×.\"|↦]+(?:\.[^\s(){}\[\],;:=λ→×\"|↦.]+)*")
USE = re.compile(r"\s*(?:pub )?(?:ghost )?use (\S+?)(?:\.\{(.*)\})?(?: as (\S+?))?;?\s*$")
DEFINITION = re.compile(r"(?P<indent>\s*)(?:(?:abbrev|unfoldable|opaque|pub|record|data) )+(?P<name>[^\s:(]+)")
CONSTRUCTOR = re.compile(r"\s+([^\s:]+)\s*:")


class Definitions:
    """The definitions of one file: what it imports, and the lines of each definition, by name."""

    def __init__(self, text):
        self.imports, self.aliases, self.lines, self.owner = {}, {}, collections.OrderedDict(), {}
        current = None
        for line in (line.split("--")[0].rstrip() for line in text.splitlines()):
            use = USE.match(line)
            opened = DEFINITION.match(line)
            if use:
                self.add_use(*use.groups())
            elif opened and self.is_definition(opened, line, current):
                current = opened.group("name")
                self.lines.setdefault(current, []).append(line)
            elif line.strip() and current:
                self.lines[current].append(line)
        for name, lines in self.lines.items():
            if re.match(r"\s*(?:pub )?data ", lines[0]):
                self.owner.update((found.group(1), name) for found in map(CONSTRUCTOR.match, lines[1:]) if found)

    def is_definition(self, opened, line, current):
        """Whether the line begins a definition: none of a record's fields does, which are indented further."""
        if not opened.group("indent") or not current:
            return True
        return "record" not in self.lines[current][0].split() or len(opened.group("indent")) <= len(re.match(r"\s*", self.lines[current][0]).group())

    def add_use(self, module, names, alias):
        """Adds an import, of names or of a module by an alias."""
        if names is None:
            self.aliases[alias or module.split(".")[-1]] = module
            return
        for name in names.split(","):
            there, _, here = name.strip().partition(" as ")
            self.imports[here or there] = (module, there)

    def names_in(self, lines, itself=None):
        """What the lines name: names of this file by themselves, others with their module."""
        for line in lines:
            for token in TOKEN.findall(line):
                first, *more = token.split(".")
                if first != itself and (first in self.lines or first in self.owner):
                    yield (None, self.owner.get(first, first))
                elif first in self.imports:
                    yield self.imports[first]
                elif first in self.aliases and more:
                    yield (self.aliases[first], more[0])


def definitions_of(top):
    """Each file of definitions, by its module."""
    found = {}
    for source in top.glob("crates/*/specs/**/*.antt"):
        crate, parts = source.relative_to(top / "crates").parts[0], source.relative_to(top / "crates").with_suffix("").parts[2:]
        found[".".join(("Rattle", crate, "specs", *parts))] = Definitions(source.read_text())
    return found


def resolved(module, name, files):
    """The file that defines the name, and the definition there; a name that is passed on is followed."""
    for _ in range(8):
        if module not in files:
            break
        file = files[module]
        if name in file.lines:
            return module, name
        if name in file.owner:
            return module, file.owner[name]
        if name not in file.imports:
            break
        module, name = file.imports[name]
    return None


def contract_of_run(top):
    """The names in the clauses of `run`."""
    text = (top / "crates/mmtel_cli/src/top.rt").read_text()
    contract = re.search(r"\npub fn run<.*?\n\{\n", text, re.S).group().splitlines()
    uses = "\n".join(line for line in text.splitlines() if line.startswith("ghost use"))
    return Definitions(uses).names_in([line for line in contract if not line.strip().startswith("//")])


def reached(top):
    """The modules that the contract of `run` reaches, each with the name by which it was reached first."""
    files, found, seen = definitions_of(top), {}, set()
    waiting = collections.deque(contract_of_run(top))
    while waiting:
        at = resolved(*waiting.popleft(), files)
        if at is None or at in seen:
            continue
        seen.add(at)
        module, name = at
        found.setdefault(module, name)
        waiting.extend((there or module, what) for there, what in files[module].names_in(files[module].lines[name], name))
    return found


def listed(top):
    """The modules of the portions of the reading order."""
    found = set()
    for row in re.findall(r"^\| \d+\. .* \|$", (top / "docs/ARCHITECTURE.md").read_text(), re.M):
        for crate, names in re.findall(r"`(mmtel_\w+)`: ([\w/, ]+)", row.split(" | ")[1]):
            found.update(f"Rattle.{crate}.specs.{name.replace('/', '.')}" for name in names.split(", "))
    return found


def wrong_reading(top):
    """Files that are reached and are in no portion, and files of a portion that nothing reaches."""
    there, order = reached(top), listed(top)
    for module in sorted(set(there) - order):
        yield f"reading order: {module} is in no portion, and `run` reaches its `{there[module]}`"
    for module in sorted(order - set(there) - set(READ_ANYWAY)):
        yield f"reading order: {module} is in a portion, and `run` reaches none of its words"
