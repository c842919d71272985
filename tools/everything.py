#!/usr/bin/env python3
"""Writes a crate's proofs/Everything.antt: one name, `everything`, that opens every definition of the crates it uses, so that a proof which only computes says
`unfolding everything` and `refl`. Run at the top of the repository.

    tools/everything.py NAME          writes it. What a crate passes on of another (`Rattle.A.specs.of_B`) is opened too where the file has named it before
    tools/everything.py --check       that each such file is today's; exit 1 where one is not
"""
import glob
import os
import re
import sys

UNFOLDABLE = re.compile(r"^\s*unfoldable pub (\S+) :", re.M)


def uses(name):
    """the crates that it uses, each with the path of its specs: those of its line of crates.txt, and those passed on that its file names, each where its own line would place it"""
    order, listed = [], None
    for line in open("crates.txt", encoding="utf-8"):
        head, colon, rest = line.split("#")[0].partition(":")
        if colon:
            order += head.split()[:1]
            if head.split()[:1] == [name]:
                listed = [(used, f"Rattle.{used}.specs") for used in rest.split() if os.path.isdir(f"crates/{used}")]
    if listed is None:
        sys.exit(f"crates.txt has no {name}")
    path = f"crates/{name}/proofs/Everything.antt"
    text = open(path, encoding="utf-8").read() if os.path.exists(path) else ""
    for specs, crate in dict.fromkeys(re.findall(r"^use\s+(Rattle\.\w+\.specs\.of_(\w+))\.", text, re.M)):
        if crate not in [used for used, _ in listed]:
            at = next((k for k, (used, _) in enumerate(listed) if order.index(used) > order.index(crate)), len(listed))
            listed.insert(at, (crate, specs))
    return listed


def made(name):
    modules = []  # the path of the crate's specs, module, its definitions
    for crate, specs in uses(name):
        for path in sorted(glob.glob(f"crates/{crate}/specs/*.antt")):
            found = UNFOLDABLE.findall(open(path, encoding="utf-8").read())
            if found:
                modules.append((specs, os.path.basename(path)[: -len(".antt")], found))
    every = [n for _, _, found in modules for n in found]
    imports, names, prefixes = [], [], []
    for specs, module, found in modules:
        plain = [n for n in found if every.count(n) == 1]
        if plain:
            imports.append(f"use {specs}.{module}.{{{', '.join(plain)}}}")
        if len(plain) < len(found):  # a name that two modules have goes by its module
            imports.append(f"use {specs}.{module} as {module}")
            prefixes.append(module)
        names += [n if every.count(n) == 1 else f"{module}.{n}" for n in found]
    twice = sorted({m for m in prefixes if prefixes.count(m) > 1})
    if twice:
        sys.exit(f"two modules of one name share names with others: {', '.join(twice)}")
    return "\n".join(
        ["-- Made by tools/everything.py: one name that opens every definition of the crates that this one uses.", "use Prim.Native.Nat.{ℕ}"]
        + imports
        + ["", "unfoldable pub everything : ℕ", "unfolding " + " ".join(names), "everything = 0", ""]
    )


def main():
    if sys.argv[1:] == ["--check"]:
        # (rt fmt may break the lines)
        stale = [p for p in sorted(glob.glob("crates/*/proofs/Everything.antt")) if open(p, encoding="utf-8").read().split() != made(p.split("/")[1]).split()]
        for path in stale:
            print(f"{path} is not today's: run tools/everything.py {path.split('/')[1]}")
        return bool(stale)
    if len(sys.argv) != 2:
        sys.exit(__doc__)
    with open(f"crates/{sys.argv[1]}/proofs/Everything.antt", "w", encoding="utf-8") as out:
        out.write(made(sys.argv[1]))
    return False


if __name__ == "__main__":
    sys.exit(main())
