"""Whether two texts of a file have the same tokens and comments, whatever their layout."""
import json
import re
import subprocess

from kit import KIT

COMMENT = re.compile(r"(?:--|//[/!]?)(.*)")


class Refused(Exception):
    """A text that the formatter does not read."""


def rattle_fmt(path, *flags):
    """What the kit's formatter prints for a file."""
    run = subprocess.run([f"{KIT}/bin/rattle", "fmt", *flags, str(path)], capture_output=True, text=True)
    if run.returncode:
        raise Refused(run.stderr.strip())
    return run.stdout


def tokens_of(path):
    """The tokens of a file as the check reads them, but for what its layout adds or parts: a separator before a closing bracket, a bar behind an opening one, and imports from one
    module in one list or in several."""
    words = [(kind, json.loads(text)) for *_, kind, text in (line.split(" ", 4) for line in rattle_fmt(path, "--tokens").splitlines()[1:])]
    found, at = [], 0
    while at < len(words):
        kind, text = words[at]
        if text == "use" and kind in ("Antt", "Head") and [one for _, one in words[at + 2 : at + 4]] == [".", "{"]:
            at = imported(words, at, found)
            continue
        if text in (")", "}") and kind == "Antt" and found and found[-1] in (("Antt", ","), ("Antt", ";")):
            found.pop()
        if not (text == "|" and found and found[-1] == ("Antt", "[")):
            found.append(words[at])
        at += 1
    return found


def imported(words, at, found):
    """Adds each name of the list of imports that begins at this word, with its module; returns the place behind the list."""
    head = []
    while found and found[-1][1] in ("pub", "unfoldable", "ghost"):
        head.append(found.pop()[1])
    module, name, at = words[at + 1][1], [], at + 4
    while words[at][1] != "}":
        if words[at][1] == ",":
            name = []
        else:
            name.append(words[at][1])
            if words[at + 1][1] in (",", "}"):
                found.append(("use", (*head, module, *name)))
        at += 1
    return at + 2 if at + 1 < len(words) and words[at + 1][1] == ";" else at + 1


def comments_of(text, kind):
    """The words of the comments, one behind another."""
    return [word for token in kind(text) if token.kind == "comment" for word in COMMENT.sub(r"\1", token.text).split()]
