#!/usr/bin/env python3
"""tools/rattle.py CRATE: prints the words that rattle takes, in the crate's folder, to check or build it over the libraries that are built below it.

What the scripts share that call rattle themselves, and not through rt: where the kit stands, what crates.txt says, and the words that
give rattle a crate over the libraries that rt has built below it."""
import pathlib, subprocess, sys

ROOT = pathlib.Path(__file__).resolve().parent.parent


def kit():
    """The kit's folder."""
    try:
        page = subprocess.run(["rt", "doc"], capture_output=True, text=True, check=True).stdout.strip()
    except (OSError, subprocess.CalledProcessError):
        sys.exit("rt is missing: install the Rattle kit and put its bin/ on PATH")
    return pathlib.Path(page).parent


def depends():
    """The crates of crates.txt in their order, each with what it names there."""
    rows = [line.split("#")[0].partition(":") for line in (ROOT / "crates.txt").read_text().split("\n")]
    return {head.split()[0]: deps.split() for head, colon, deps in rows if colon}


def is_static(crate):
    """Whether crates.txt names the crate as a static library."""
    rows = [line.split("#")[0].partition(":")[0].split() for line in (ROOT / "crates.txt").read_text().split("\n")]
    return [crate, "staticlib"] in rows


def below(crate):
    """The repository's libraries below a crate, each after those that it uses."""
    deps, found = depends(), []
    for name in deps[crate]:
        if name in deps:
            found += [it for it in (*below(name), name) if it not in found]
    return found


def library(crate):
    """Where rt builds a crate's library."""
    return ROOT / "crates" / crate / "out" / "rlib" / f"{crate}.rlib"


def words(crate):
    """What rattle takes to check or build a crate, called in its folder, or in one that has its text."""
    home, deps = kit(), depends()
    root = "src/main.rt" if (ROOT / "crates" / crate / "src" / "main.rt").exists() else "src/lib.rt"
    found = ["--crate-name", crate, root, "--extern", f"std={home}/rlibs/std.rlib"]
    for name in deps[crate]:
        found += ["--extern", f"{name}={library(name) if name in deps else home / 'rlibs' / (name + '.rlib')}"]
    for name in below(crate):
        found += ["-L", f"dependency={library(name).parent}"]
    found += ["-L", f"dependency={home}/rlibs", "--antt-project", f"{home}/rattle/logic/antt-project.json"]
    found += ["--logic-built", f"{home}/logic_built"]
    return found + ["--crate-type", "staticlib"] * is_static(crate)


def main(crate="", *more):
    if crate in ("--help", "-h") and not more:
        print(__doc__)
        return 0
    if crate not in depends() or more:
        print(f"tools/rattle.py: '{' '.join((crate, *more))}' is no crate of crates.txt (tools/rattle.py --help)", file=sys.stderr)
        return 2
    print(" ".join(words(crate)))
    return 0


if __name__ == "__main__":
    sys.exit(main(*sys.argv[1:]))
