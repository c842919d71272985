#!/usr/bin/env python3
"""Brings the repository's own names of antt to one spelling, once, behind the kit's port: words in snake case, types in camel case.

usage: tools/respell.py [--check] [FOLDER]     FOLDER is the top of the repository, by default this one

    nameEnd, name-past, readN-flat  ->  name_end, name_past, read_n_flat

A name turns where specs/ or proofs/ declares it; a name of the source, of the kit or of a goal stays. A lemma that would get the name of the definition that it is
about ends in _lem. Any two other names of one file that would fall together stop the script before it writes. It turns whole words: in .antt files, in the clauses and
comments of .rt files, in must-fail edits, and between backticks in pages. --check writes nothing.
"""

import collections
import os
import re
import sys

WORD = r"[^\s(){}.;,@\"«»`\[\]]+"
DECLARED = re.compile(r"^\s*(?:(?:abbrev|unfoldable|pub|axiom)\s+)*(" + WORD + r")\s+:\s+(.*)$")
TOKEN = re.compile(WORD)
# pairs that may fall together: two fields of two records; and variables of a file that give way
FIELDS = {"gpDisp"}
GIVES_WAY = {
    ("carry_homes", "first_home"): ("same_home", "asked"),
    ("carry_homes", "home_name"): ("target_code", "coded"),
}

def snake(name):
    if name[0].isupper() and "-" not in name:
        return name
    if not re.match(r"[A-Za-z][A-Za-z0-9'_₀-₉-]*$", name):
        return name
    parts = name.split("-")
    out = []
    for p in parts:
        if p[:1].isupper() and len(p) > 1 and re.search(r"[a-z]", p):
            out.append(p)
        elif p.isupper() and len(p) > 1:
            out.append(p)
        else:
            out.append(re.sub(r"(?<=[a-z0-9])([A-Z])", r"_\1", p).lower())
    # a type keeps its capital, and a dash joins it to the words behind it
    text = ""
    for i, p in enumerate(out):
        if i:
            text += "-" if (out[i - 1][:1].isupper() or p[:1].isupper()) else "_"
        text += p
    return text


def files(top):
    for d, ds, fs in os.walk(os.path.join(top, "crates")):
        ds[:] = sorted(x for x in ds if x not in ("out", "data"))
        for f in sorted(fs):
            if f.endswith((".antt", ".rt", ".edit")):
                yield os.path.join(d, f)


def of_a_function(path):
    parts = path.split(os.sep)
    return "proofs" in parts and parts.index("proofs") < len(parts) - 2


def declared(top):
    """The names that turn: declared in specs/ or proofs/, but for goals and what the check makes."""
    names = set()
    for p in files(top):
        if not p.endswith(".antt") or os.path.basename(p) == "Lts.antt" or os.sep + "Proof" + os.sep in p:
            continue
        for line in open(p, encoding="utf-8"):
            if line.lstrip().startswith("--"):
                continue
            m = DECLARED.match(line.rstrip("\n"))
            if not m:
                continue
            if of_a_function(p) and (re.match(r"(tie|need|given|goal)\.", m.group(2)) or m.group(1).endswith("-spec") or m.group(1).endswith("_spec")):
                continue
            names.add(m.group(1))
    return names


def turned(names):
    """Each name that turns and its new spelling."""
    defined = {snake(n) for n in names if re.search(r"[a-z][A-Z]", n) and "-" not in n and n[0].islower()}
    plain = {n for n in names if snake(n) == n}
    table = {}
    for n in names:
        new = snake(n)
        if (new == n and n in defined) or ("-" in n and (new in defined or new in plain)):
            new += "_lem"
        if new != n:
            table[n] = new
    return table


def own_words(text):
    """The words of a text that no dot stands before, without comments."""
    text = re.sub(r"--[^\n]*|//[^\n]*", "", text)
    return {m.group(0) for m in TOKEN.finditer(text) if text[m.start() - 1 : m.start()] != "."}


def rust_names(text):
    """The parameters, variables and fields of a source: its words that are no function, module or call."""
    text = re.sub(r"//[^\n]*|ghost use[^;]*;", "", text)
    return {m.group(0) for m in re.finditer(r"[a-z_][a-z0-9_]*", text) if text[m.end() : m.end() + 1] not in ("(", ":", "<") or text[m.end() : m.end() + 2] == ": "}


def main(argv):
    check = "--check" in argv
    argv = [a for a in argv if a != "--check"]
    top = argv[0] if argv else os.path.dirname(os.path.dirname(os.path.realpath(__file__)))
    table = turned(declared(top))
    texts = {p: open(p, encoding="utf-8").read() for p in files(top)}
    for p in texts:
        parts = p.split(os.sep)
        if parts[-1] == "Proof.antt" and (parts[-4], parts[-2]) in GIVES_WAY:
            old, new = GIVES_WAY[(parts[-4], parts[-2])]
            texts[p] = re.sub(r"(?<![\w.'-])" + old + r"(?![\w'-])", new, texts[p])
    bad = 0
    for p, t in texts.items():
        if p.endswith(".edit"):
            continue
        back = collections.defaultdict(set)
        for w in own_words(t):
            back[table.get(w, w)].add(w)
        if p.endswith(".rt"):
            there = rust_names(t)
            pairs = [(new, old - {new}) for new, old in back.items() if old - {new} and new in there]
        else:
            pairs = [(new, old) for new, old in back.items() if len(old) > 1 and not old & FIELDS]
        for new, old in sorted(pairs):
            print("together:", os.path.relpath(p, top), new, *sorted(old))
            bad += 1
    if check or bad:
        print(len(table), "names turn;", bad, "pairs fall together")
        return 1 if bad else 0
    n = 0
    for p, t in texts.items():
        source = p.endswith((".rt", ".edit"))

        def turn(m):
            w = m.group(0)
            if w not in table or (snake(w) == w and (source or m.string[m.start() - 1 : m.start()] == ".")):
                return w
            return table[w]

        new = TOKEN.sub(turn, t)
        if new != open(p, encoding="utf-8").read():
            open(p, "w", encoding="utf-8").write(new)
            n += 1
    pages = [os.path.join(top, "README.md")] + [os.path.join(top, "docs", f) for f in sorted(os.listdir(os.path.join(top, "docs"))) if f.endswith(".md")]
    for p in pages:
        t = open(p, encoding="utf-8").read()
        new = re.sub(r"`([^`\n]+)`", lambda m: "`" + TOKEN.sub(lambda w: table.get(w.group(0), w.group(0)) if snake(w.group(0)) != w.group(0) else w.group(0), m.group(1)) + "`", t)
        if new != t:
            open(p, "w", encoding="utf-8").write(new)
            n += 1
    print(len(table), "names turned in", n, "files")
    return 0


if __name__ == "__main__":
    raise SystemExit(main(sys.argv[1:]))
