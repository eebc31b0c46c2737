"""The sources of Rattle, read by their text: the functions of each file, with the names in their heads and bodies. Used by `.ci/reached` and `tools/figures`."""
import pathlib
import re

TOP = pathlib.Path(__file__).resolve().parent.parent
TESTS = re.compile(r"mmtel_(test_tables|rows|transaction_examples|units(_\w+)?)$")

HIDDEN = re.compile(r"""//[^\n]*|br?"(?:[^"\\]|\\[\s\S])*"|r#"[\s\S]*?"#|"(?:[^"\\]|\\[\s\S])*"|b?'(?:[^'\\\n]|\\[^\n]{1,4})'|^[ ]*(?:pub )?ghost [^\n]*$""", re.M)
BLOCK = re.compile(r"^(?:pub )?(?:unsafe )?(impl|trait)\b(?:<.*?>(?= ))? (.*?) ?(?:where\b.*)?\{", re.M | re.S)
FUNCTION = re.compile(r"^( *)(pub )?(?:pub\(\w+\) )?(?:unsafe |const )*fn (\w+)", re.M)
HEAD = re.compile(r"\b(?:ensures|requires)\b|[\[{;]")
USE = re.compile(r"^ *(?:pub )?use ([\w:]+?)(?:::\{([^}]*)\})?(?: as (\w+))?;", re.M)


def closed(text, at):
    """The position after the bracket that closes the one at this position."""
    depth = 0
    for found in re.finditer(r"[(\[{}\])]", text[at:]):
        depth += 1 if found.group() in "([{" else -1
        if depth == 0:
            return at + found.end()
    raise ValueError(text[at:at + 60])


def arguments(text):
    """How many items are in the text of a list, separated by commas outside brackets."""
    depth, items, some = 0, 0, False
    for found in re.finditer(r"->|=>|[(\[{<>}\]),]|\|[^|]*\||[^\s(\[{<>}\]),|]+", text):
        sign = found.group()
        if sign in "([{<":
            depth += 1
        elif sign in ")]}>":
            depth -= 1
        if sign == "," and depth == 0:
            items, some = items + some, False
        else:
            some = True
    return items + some


class Function:
    """A function: its crate, its type where it has one, whether it is public, what its list of parameters has, and its body."""

    def __init__(self, file, found, block):
        text = file.text
        self.file, self.name, self.public = file, found.group(3), bool(found.group(2))
        self.owner, self.of_trait = block or (None, None)
        begin = text.index("(", closed_generics(text, found.end()))
        end = closed(text, begin)
        parameters = text[begin + 1:end - 1]
        self.is_method = bool(re.match(r"\s*(?:&(?:'\w+ )?)?(?:mut )?self\b", parameters))
        self.arity = arguments(parameters) - self.is_method
        at = end
        while (mark := HEAD.search(text, at)).group() not in "{;":
            at = closed(text, mark.start() if mark.group() == "[" else text.index("{", mark.end()))
        self.is_law = "->" not in text[end:mark.start()] and not re.search(r"&mut\b|&'\w+ mut\b|^\s*(?:mut )?self\b", parameters)
        self.body = text[mark.start():closed(text, mark.start())] if mark.group() == "{" else None
        self.begin, self.end = found.start(), mark.start() + len(self.body or "")

    def label(self):
        return f"{self.file.crate}::{self.owner}::{self.name}" if self.owner else f"{self.file.crate}::{self.name}"


def closed_generics(text, at):
    """The position after the generic parameters that begin at this position, if any do."""
    if text[at] != "<":
        return at
    depth = 0
    for found in re.finditer(r"->|[<>]", text[at:]):
        depth += {"<": 1, ">": -1}.get(found.group(), 0)
        if depth == 0:
            return at + found.end()
    raise ValueError(text[at:at + 60])


class File:
    """A source: its crate, what it imports, and its functions."""

    def __init__(self, crate, path):
        self.crate, self.path, self.text = crate, path, HIDDEN.sub(blank, path.read_text())
        self.imports, self.functions = {}, []
        for path, names, alias in USE.findall(self.text):
            for name in names.split(",") if names else [path.split("::")[-1] + (f" as {alias}" if alias else "")]:
                there, _, here = name.strip().partition(" as ")
                if there:
                    self.imports[here or there] = (path.split("::")[0], there)
        blocks = [(found.start(), closed(self.text, found.end() - 1), owner_of(*found.groups())) for found in BLOCK.finditer(self.text)]
        for found in FUNCTION.finditer(self.text):
            if self.functions and found.start() < self.functions[-1].end:
                continue
            inside = [block for begin, end, block in blocks if begin < found.start() < end]
            self.functions.append(Function(self, found, inside[0] if inside else None))
        self.blocks = blocks

    def without(self, owner):
        """The text without the blocks of this type."""
        text = self.text
        for begin, end, block in reversed(self.blocks):
            if block[0] == owner:
                text = text[:begin] + text[end:]
        return text


def blank(found):
    """The replacement of a comment, a text or a ghost line: as many lines."""
    return ('""' if found.group()[-1] in "\"#'" else "") + "\n" * found.group().count("\n")


def owner_of(kind, head):
    """The type of a block, and the trait that the block is of, if any."""
    of_trait = re.match(r"(\w+)(?:<.*?>)? for (?:&(?:'\w+ )?(?:mut )?)?(\w+)", head)
    if of_trait:
        return of_trait.group(2), of_trait.group(1)
    name = re.match(r"\w+", head).group()
    return name, name if kind == "trait" else None


def dependencies(top):
    """All crates on which each crate depends, itself included."""
    below = {line.split(":")[0]: line.split(":")[1].split() for line in (top / "crates.txt").read_text().splitlines() if ":" in line and not line.startswith("#")}
    whole = {}

    def gather(name):
        if name not in whole:
            whole[name] = {name}.union(*(gather(one) for one in below.get(name, ())))
        return whole[name]

    for name in below:
        gather(name)
    return whole


def files_of(top):
    """All sources of the crates of crates.txt."""
    return [File(crate, path) for crate in sorted(dependencies(top)) for path in sorted((top / "crates" / crate / "src").glob("**/*.rt"))]
