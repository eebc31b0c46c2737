"""What the tools of this folder share: the dependencies of crates, and the arguments of a call of the prover over libraries that are built."""
import pathlib

KIT = "/opt/rattle"


def dependencies(top):
    """The direct dependencies of each crate of crates.txt, in its order, those of the kit included."""
    found = {}
    for line in (pathlib.Path(top) / "crates.txt").read_text().splitlines():
        line = line.split("#")[0].strip()
        if ":" in line:
            name, below = line.split(":")
            found[name.split()[0]] = below.split()
    return found


def below(name, direct):
    """All crates of the repository on which this one depends, directly or indirectly."""
    found = set()
    for one in direct.get(name, ()):
        if one in direct and one not in found:
            found |= {one} | below(one, direct)
    return found


def arguments(top, name, verb, links):
    """The arguments by which the prover checks or builds the crate in the current folder over the libraries in the `out` folders of the checkout, with one job."""
    direct = dependencies(top)
    given = [f"{KIT}/bin/rattle", verb, "--crate-name", name, "src/lib.rt", "--extern", f"std={KIT}/rlibs/std.rlib"]
    for one in direct[name]:
        place = f"{top}/crates/{one}/out/rlib" if one in direct else f"{KIT}/rlibs"
        given += ["--extern", f"{one}={place}/{one}.rlib"]
    for place in [f"{KIT}/rlibs", *(f"{top}/crates/{one}/out/rlib" for one in sorted(below(name, direct)))]:
        given += ["-L", f"dependency={place}"]
    return given + ["--antt-project", f"{KIT}/rattle/logic/antt-project.json", "--logic-built", f"{KIT}/logic_built", "--links", f"{name}={links}", "--jobs", "1"]
