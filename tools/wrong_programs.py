#!/usr/bin/env python3
"""Holds each wrong program of a must-fail edit to its own refusal. Run at the top of the repository.

An edit file groups wrong programs of one crate, so that rt checks the crate once for all of them; rt takes a group for refused when any one of them is. Each program has
a line

    # wrong: LABEL, fn FUNCTION: false at ..             (TYPE::FUNCTION where it belongs to a type)
    # wrong: LABEL, definition NAME, theorem THEOREM: false at ..

and the replacements that follow it. Here each must be refused for itself: goals of the function's own proof, or the theorem, are refused, and not only because something
that it cites was not admitted, or because a proof names a goal, a step or a word that is no longer there. (A goal's name goes by the text of the code: where a program
changes that, the function's proof is tried once more under the new names.)

A refusal says that the proof that is there, and what rt finds by itself, do not hold of the program; that it is wrong is what its line says, by an input.

A program that changes nothing but the body of its function F is tried on a copy of F: behind F, which stays as it is, stands a function F_wrong_K with F's contract and the
program's body, and proofs/F_wrong_K holds F's proof under the copy's name. Nothing calls a copy, so its refusal holds up no caller, and one check has all the copies of a
crate. Beside them stands F_as_it_is_K with F's own body: where rt does not prove it, the copies of F show nothing. A proof that names a goal by the old text is tried under
the new names, of all such copies at once. The same check shows that all else of the crate is proved; where it does not, the crate is checked as it stands.

Each other program is tried by itself, in the place of what it changes: one of a definition, of a constant or of a contract; one of a function that has attributes, is
exported, calls itself, belongs to a trait or a module within a file, or whose records or goals another file names; and each copy that is not refused for itself. A program
fails only by itself. Checks begin with what rt check kept. What was refused is noted below ~/.cache/daphulle, by the checksums of all that its check read, and is not tried
again: of the crates below that is specs/, the lemmas of proofs/ (no function's own proof), and src/ without the bodies of its functions.

    tools/wrong_programs.py [--anew] [NAME..]   those of all crates, or of these; exit 1 where one is not refused for itself, or an edit file is not in this form.
                                                --anew takes nothing from earlier runs
    tools/wrong_programs.py --self-test         that this test can fail, on made-up logs and edits
"""
import collections
import contextlib
import fcntl
import functools
import glob
import hashlib
import itertools
import os
import re
import shutil
import subprocess
import sys
import tempfile
import threading
import time
from concurrent.futures import ThreadPoolExecutor

PROGRAM = re.compile(r"^# wrong: (\w+), (?:fn ([\w:]+)|definition ([\w'-]+)(?:, theorem ([\w'-]+))?): (.+)$")
VERDICT = re.compile(r"^fn (\S+): (.+)$", re.M)
ERROR = re.compile(r"^\./proofs/(\S+)\.antt:\d+:\d+: error: (?:`([^`]+)`: )?(.*)$", re.M)
# what a proof that only no longer fits says: something that it cites was refused, or is not there
UNFIT = re.compile(r"was not admitted|that can be named from here|has no field|has no `|is not in scope|is no name")
# an open goal that is false at some values; and a verdict's line
FALSE = re.compile(r"^note: src/\S+: it is not proved that .* allow values at which this goal is false", re.M)
OPEN = re.compile(r"^note: src/\S+: it is not proved that .*? \(`([^`]+)`\)", re.M)
GONE = re.compile(r"`goal\.([^`]+)`: module `[^`]+` has no `")
FIELD = re.compile(r"^\./proofs/(\S+)\.antt:\d+:\d+: error: [^\n]*has no field `(if-[^`]+)`[^\n]*(?:\n  [^\n]*)*?the fields that can be named here are ([^\n]*)", re.M)
ENDED = re.compile(r"^(?:fn|struct|enum|trait|impl|type) \S+: .*$", re.M)
HEAD = re.compile(r"(\s*)(?:pub(?:\(\w+\))? )?(const )?(?:unsafe )?(?:extern \"C\" )?fn (\w+)")
CACHE = os.path.join(os.environ.get("XDG_CACHE_HOME") or os.path.expanduser("~/.cache"), "daphulle", "wrong_programs")
READ = ("src", "specs", "proofs")

Program = collections.namedtuple("Program", "label function theorem changes text")  # changes: file, old, new
Function = collections.namedtuple("Function", "name indent head opens ends")  # the rows of its head, and of its body's first and last line
Copy = collections.namedtuple("Copy", "program name file row text proofs control")  # text goes behind the row; control: the copy with the body as it is
Log = collections.namedtuple("Log", "ended text")


def is_named(function, name):
    """whether a function's full name, with its module and type, is meant by the one that an edit gives"""
    return name == function or name.endswith("::" + function)


def programs(path):
    """the programs of an edit file, and what is wrong with the file's form"""
    found, faults, file, old = [], [], None, None
    for number, line in enumerate(open(path, encoding="utf-8").read().split("\n"), 1):
        if line.startswith("# wrong:"):
            match = PROGRAM.match(line)
            if not match:
                faults.append(f"{path}:{number}: no label, function and input: {line[:80]}")
                continue
            label, function, definition, theorem, _ = match.groups()
            if definition and not theorem:
                faults.append(f"{path}:{number}: no theorem that refuses {definition}")
            found.append(Program(label, function, theorem, [], [line]))
        elif line.startswith("file: "):
            file = line[len("file: ") :].strip()
        elif line.startswith("old: "):
            old = line[len("old: ") :]
        elif line.startswith("new:"):
            if not found:
                faults.append(f"{path}:{number}: a replacement that belongs to no program")
            else:
                found[-1].changes.append((file, old, line[len("new:") :].removeprefix(" ")))
    faults += [f"{path}: {one.label} replaces nothing" for one in found if not one.changes]
    if not found:
        faults.append(f"{path}: names no wrong program")
    functions = [one.function for one in found if one.function]
    for name in sorted({f for f in functions if functions.count(f) > 1}):
        faults.append(f"{path}: two wrong programs of one function, {name}")
    return found, faults


def applied(texts, chosen):
    """the texts with the programs' changes in them; None where one does not stand once"""
    texts = dict(texts)
    for one in chosen:
        for file, old, new in one.changes:
            if texts.get(file, "").count(old) != 1:
                return None
            texts[file] = texts[file].replace(old, new)
    return texts


def function_from(rows, number, last):
    """the function whose head is this row and whose body is opened at the latest in the row `last`; None where none is"""
    indent, _, name = HEAD.match(rows[number]).groups()
    for opens in range(number, last + 1):
        row = rows[opens]
        if row == indent + "{" or (row.endswith("{") and (opens == number or row.startswith(indent + ")"))):
            ends = next((k for k in range(opens + 1, len(rows)) if rows[k] == indent + "}"), -1)
            return Function(name, indent, number, opens, ends)
    return None


def function_at(text, at):
    """the function in whose body, behind its contract, this place of a source lies; None where it lies in none"""
    here = text[:at].count("\n")
    rows = text.split("\n")
    number = next((k for k in range(here, -1, -1) if HEAD.match(rows[k])), None)
    found = None if number is None else function_from(rows, number, here)
    return found if found and found.opens < here <= found.ends else None


def body_of(text, at):
    """the name of the function in whose body this place of a source lies; None where it lies in none"""
    found = function_at(text, at)
    return found.name if found else None


def is_of_a_body(one, texts):
    """whether a program changes nothing but the body of its function"""
    if not one.function:
        return False
    for file, old, _ in one.changes:
        text = texts.get(file, "")
        at = text.find(old)
        if not file.startswith("src/") or at < 0 or body_of(text, at) != one.function.split("::")[-1]:
            return False
        texts = {**texts, file: text}
    return True


def refused(one, log):
    """whether a log refuses a program for its own sake; and in a word why not"""
    if log.ended != 1 or not re.search(r"^logic=not-proved", log.text, re.M):
        return False, "the crate is proved" if log.ended == 0 else "the check came to no verdict"
    if not one.function:
        own = [said for _, name, said in ERROR.findall(log.text) if name == one.theorem]
        return any(not UNFIT.search(said) for said in own), f"nothing of {one.theorem} is refused for itself"
    verdicts = {name.partition("::")[2]: said for name, said in VERDICT.findall(log.text)}
    names = [name for name in verdicts if is_named(one.function, name)]
    if len(names) != 1:
        return False, f"{one.function} names {'more than one function' if names else 'no function that has a verdict'}"
    said = verdicts[names[0]]
    folder = names[0].replace("::", "/") + "/"
    own = [message for file, _, message in ERROR.findall(log.text) if file.startswith(folder)]
    fits = not any(UNFIT.search(it) for it in own)
    # what rt says of a function's open goals stands right above its verdict
    above = log.text[: next(it.start() for it in VERDICT.finditer(log.text) if it[1].partition("::")[2] == names[0])]
    is_false = FALSE.search(above[max((it.end() for it in ENDED.finditer(above)), default=0) :])
    is_open = said.startswith("no proof: expected answers") and "`search` did not prove" in said and fits
    is_own = is_open or is_false or said.startswith("not proved") and any(not UNFIT.search(it) for it in own)
    why = "" if fits else f"; a proof file names what is gone: {next(it for it in own if UNFIT.search(it))[:120]}"
    return bool(is_own), f"nothing of {one.function} is refused for itself ({said[:120]}{why})"


def renamed(one, texts, log):
    """the texts with the proof of a program's function under the names that its goals and tests have now, which go by the text of the code, and without answers to goals that rt
    finds by itself now; None where none went"""
    verdict = next((it for it in VERDICT.finditer(log.text) if one.function and is_named(one.function, it[1].partition("::")[2])), None)
    if not verdict:
        return None
    folder = f"proofs/{verdict[1].partition('::')[2].replace('::', '/')}/"
    above = log.text[: verdict.start()]
    opened = OPEN.findall(above[max((it.end() for it in ENDED.finditer(above)), default=0) :])
    gone = [it[1] for file, _, said in ERROR.findall(log.text) if f"proofs/{file}".startswith(folder) for it in GONE.finditer(said)]
    mine = "\n".join(text for path, text in texts.items() if path.startswith(folder))
    words, answered = {}, []
    for old in dict.fromkeys(gone):
        head, _, where = old.rpartition("-then-")
        new = next((it for it in opened if it.rpartition("-then-")[0] == head and it not in words.values()), None)
        if new:
            words[old] = new
            words[f"if-{where}"] = f"if-{new.rpartition('-then-')[2]}"
        else:
            answered.append(old)
    for file, old, fields in FIELD.findall(log.text):
        new = [it for it in re.findall(r"`(if-[^`]+)`", fields) if it not in mine]
        if f"proofs/{file}".startswith(folder) and len(new) == 1:
            words.setdefault(old, new[0])
    changed = dict(texts)
    for path, text in texts.items():
        if path.startswith(folder):
            for name in answered:
                text = re.sub(rf"(?ms)^pub {re.escape(name)} : goal\.{re.escape(name)}$.*?(?=^\S[^\n]* : |\Z)", "", text)
            changed[path] = re.sub(r"[\w'-]+", lambda it: words.get(it[0], it[0]), text)
    return changed if changed != texts else None


def owner_of(rows, function):
    """the path of the type that a function belongs to: empty where it belongs to none, None where it stands in anything but an `impl TYPE {`"""
    if not function.indent:
        return []
    around = next((rows[k] for k in range(function.head, -1, -1) if rows[k] and not rows[k].startswith(" ")), "")
    own = re.fullmatch(r"impl (\w+) \{", around)
    return [own[1]] if own and function.indent == "    " else None


def calls_itself(function, owner, body):
    """whether a function's body calls it"""
    path = "(?:Self|" + "|".join(owner) + r")::|\." if owner else r"(?<![\w:.])(?:(?:crate|super|self)::)?"
    return re.search(rf"(?:{path}){function.name}\s*(?:\(|::<)", body) is not None


def copy_of(one, changes, texts, crate, suffix):
    """the function of a program once more, under its name with a suffix, with these changes in its body, and with its proof; None where no copy can stand for the function"""
    file = one.changes[0][0]
    module = re.fullmatch(r"src/(\w+)\.rt", file)
    if not module or any(other != file for other, _, _ in one.changes):
        return None
    rows = texts[file].split("\n")
    function = function_at(texts[file], texts[file].find(one.changes[0][1]))
    first = function.head
    while first and rows[first - 1].startswith(function.indent + "//"):
        first -= 1
    owner = owner_of(rows, function)
    # (above it stands a blank line or the start of its type, so it has no attributes)
    if owner is None or "extern" in rows[function.head] or first and rows[first - 1] and not rows[first - 1].endswith("{"):
        return None
    body = "\n".join(rows[function.head : function.ends + 1])
    for _, old, new in changes:
        if body.count(old) != 1:
            return None
        body = body.replace(old, new)
    within = [] if module[1] in ("lib", "main") else [module[1]]
    path, name = [*within, *owner, function.name], function.name + suffix
    folder = f"proofs/{'/'.join(path)}/"
    mine = {at: text for at, text in texts.items() if at.startswith(folder)}
    cited = rf"proofs\.{re.escape('.'.join(path))}(?![\w'-])"
    if (
        not is_named(one.function, "::".join(path))
        or calls_itself(function, owner, "\n".join(body.split("\n")[function.opens - function.head + 1 :]))
        or any("/+" in at and function.name in at for at in texts)
        or any("/" in at[len(folder) :] for at in mine)
        or any(re.search(rf"\b{cited}", text) for at, text in texts.items() if at not in mine)
    ):
        return None
    head = re.sub(rf"\bfn {function.name}\b", f"fn {name}", body, count=1)
    own = [*path[:-1], name]
    turned = lambda text: re.sub(rf"\bRattle\.{crate}\.{cited}", f"Rattle.{crate}.proofs.{'.'.join(own)}", text)
    proofs = {f"proofs/{'/'.join(own)}/{at[len(folder) :]}": turned(text) for at, text in mine.items()}
    return Copy(one, "::".join(own), file, function.ends + 1, "\n".join(["", *rows[first : function.head], head]), proofs, None)


def copies_of(found, texts, crate):
    """the copies of the functions of these programs, each with the control of its function, and the programs that are to be tried on the function itself"""
    whole = "\n".join([*texts, *texts.values()])
    free = (k for k in itertools.count(1) if f"_wrong_{k}" not in whole and f"_as_it_is_{k}" not in whole)
    copies, alone, controls = [], [], {}
    for one in found:
        number = next(free)
        copy, control = (
            copy_of(one, changes, texts, crate, f"_{word}_{number}") if is_of_a_body(one, texts) else None
            for word, changes in (("wrong", one.changes), ("as_it_is", []))
        )
        if copy and control:
            copies.append(copy._replace(control=controls.setdefault((copy.file, copy.row), control)))
        else:
            alone.append(one)
    return copies, alone


def with_copies(texts, copies):
    """the texts with copies in them, each right behind its function, and its proof"""
    changed = dict(texts)
    for copy in copies:
        changed.update(copy.proofs)
    for file in {copy.file for copy in copies}:
        rows = texts[file].split("\n")
        for copy in sorted((copy for copy in reversed(copies) if copy.file == file), key=lambda copy: -copy.row):
            rows[copy.row : copy.row] = copy.text.split("\n")
        changed[file] = "\n".join(rows)
    return changed


def as_copied(copy):
    """a copy's program as one of the copy itself"""
    return copy.program._replace(function=copy.name)


def again(copy, texts, log):
    """a copy with its proof under the names that its goals have now; None where none went"""
    changed = renamed(as_copied(copy), with_copies(texts, [copy]), log)
    return copy._replace(proofs={path: changed[path] for path in copy.proofs}) if changed else None


def shows_the_rest(log, copies):
    """whether a check with copies in the crate shows that all else of it is proved"""
    names = {copy.name for copy in copies}
    folders = tuple(f"./proofs/{name.replace('::', '/')}/" for name in names)
    said = [it[0].split(" ", 1)[1].partition(": ") for it in ENDED.finditer(log.text)]
    own = {name.partition("::")[2]: verdict for name, _, verdict in said if name.partition("::")[2] not in names}
    errors = [line for line in log.text.split("\n") if re.search(r"(?:^|: )error\b", line) and not line.startswith(folders)]
    copied = {re.sub(r"_(?:wrong|as_it_is)_\d+$", "", name) for name in names}
    return copied <= own.keys() and all(verdict == "proved" for verdict in own.values()) and not errors


def together(copies, texts, check, say):
    """the programs that are refused for themselves in checks of all these copies at once, and whether the first shows all else of the crate proved"""
    if not copies:
        return [], False
    controls = list({copy.control.name: copy.control for copy in copies}.values())
    log = check(with_copies(texts, [*copies, *controls]))
    if not re.search(r"^logic=(?:not-)?proved", log.text, re.M):
        say(f"{len(copies)} copies came to no verdict")
        half = len(copies) // 2
        return (together(copies[:half], texts, check, say)[0] + together(copies[half:], texts, check, say)[0] if half else []), False
    verdicts = {name.partition("::")[2]: said for name, said in VERDICT.findall(log.text)}
    others = verdicts.keys() - {copy.name for copy in [*copies, *controls]}
    is_one = lambda function: sum(is_named(function, name) for name in others) == 1
    left = [copy for copy in copies if verdicts.get(copy.control.name) == "proved" and is_one(copy.program.function)]
    if len(left) < len(copies):
        say(f"{len(copies) - len(left)} copies are of functions that no copy stands for")
    is_shown, good = shows_the_rest(log, [*copies, *controls]), []
    for turn in range(5):
        done = [copy for copy in left if refused(as_copied(copy), log)[0]]
        say(f"{len(done)} of {len(left)} copies at once{', their proofs under new names' if turn else ''}")
        good += done
        left = [new for new in (again(copy, texts, log) for copy in left if copy not in done) if new] if turn < 4 else []
        if not left:
            break
        log = check(with_copies(texts, left))
    return [copy.program for copy in good], is_shown


def uses():
    """each crate's own libraries below it, all of them, by crates.txt"""
    direct = {}
    for line in open("crates.txt", encoding="utf-8"):
        head, colon, rest = line.split("#")[0].partition(":")
        if colon and head.split():
            direct[head.split()[0]] = rest.split()
    below = {}

    def of(name):
        if name not in below:
            mine = [used for used in direct[name] if used in direct]
            below[name] = sorted(set(mine).union(*(of(used) for used in mine)))
        return below[name]

    for name in direct:
        of(name)
    return below


def files_of(folder):
    """the texts of a crate that its check reads, by their path in its folder"""
    texts = {}
    for part in READ:
        for at, _, names in os.walk(f"{folder}/{part}"):
            for name in names:
                path = os.path.join(at, name)
                texts[os.path.relpath(path, folder)] = open(path, encoding="utf-8").read()
    return texts


def without_bodies(text):
    """a source without its comments and the bodies of its functions; those of constant functions stay, and all where macros are written"""
    if "macro_rules" in text:
        return text
    rows = [row for row in text.split("\n") if not row.lstrip().startswith("//")]
    heads = [k for k, row in enumerate(rows) if HEAD.match(row)]
    kept, behind = [], 0
    for number, following in zip(heads, [*heads[1:], len(rows)]):
        function = function_from(rows, number, following - 1) if number >= behind else None
        if function and function.ends > 0 and not HEAD.match(rows[number])[2]:
            kept += rows[behind : function.opens + 1]
            behind = function.ends
    return "\n".join(kept + rows[behind:])


def read_above(path, text):
    """what the check of a crate above reads of a file; None where it reads nothing"""
    if path.startswith("src/"):
        return without_bodies(text)
    return None if re.fullmatch(r"proofs/.+/(?:Answers|Invariants|Proof)\.antt", path) else text


@functools.lru_cache(maxsize=None)
def sum_of(folder, is_below):
    """the checksum of a crate's files; of one below, of what is read of it above"""
    texts = files_of(folder)
    read = {path: read_above(path, text) for path, text in texts.items()} if is_below else texts
    return hashlib.sha256(repr(sorted((path, text) for path, text in read.items() if text is not None)).encode()).hexdigest()


def key_of(one, crate, below, top, kit):
    """the name under which it is noted that a program was refused: a sum of all that its check reads, and of this tool"""
    tool = open(os.path.abspath(__file__), "rb").read()
    read = [sum_of(f"{top}/crates/{name}", name != crate) for name in [crate, *below]]
    return hashlib.sha256(repr((kit, tool, crate, below, read, one.changes, one.function, one.theorem)).encode()).hexdigest()


class Lane:
    """A copy of the crates, in which one check runs at a time. Its folder stays the same from run to run, since rt notes where it left work."""

    def __init__(self, top):
        for number in range(1000):
            self.folder = os.path.join(tempfile.gettempdir(), f"wrong_programs.{os.getuid()}.{number}")
            os.makedirs(self.folder, 0o700, exist_ok=True)
            self.held = os.open(self.folder, os.O_RDONLY)
            try:
                fcntl.flock(self.held, fcntl.LOCK_EX | fcntl.LOCK_NB)
                break
            except BlockingIOError:
                os.close(self.held)
        self.clear()
        skips = lambda at, names: [name for name in names if name not in READ] if os.path.dirname(at) == f"{top}/crates" else []
        shutil.copytree(f"{top}/crates", f"{self.folder}/crates", ignore=skips)
        shutil.copy(f"{top}/crates.txt", self.folder)

    def clear(self):
        for name in os.listdir(self.folder):
            shutil.rmtree(f"{self.folder}/{name}", ignore_errors=True)
            with contextlib.suppress(OSError):
                os.remove(f"{self.folder}/{name}")

    def write(self, crate, texts):
        """makes these texts the files of the crate, without touching one that is as it should be"""
        here = f"{self.folder}/crates/{crate}"
        there = files_of(here)
        for path in there.keys() - texts.keys():
            os.remove(f"{here}/{path}")
            with contextlib.suppress(OSError):
                os.removedirs(os.path.dirname(f"{here}/{path}"))
        for path, text in texts.items():
            if there.get(path) != text:
                os.makedirs(os.path.dirname(f"{here}/{path}"), exist_ok=True)
                with open(f"{here}/{path}", "w", encoding="utf-8") as file:
                    file.write(text)

    def checked(self, crate, texts):
        """what rt check says of the crate with these texts"""
        here = f"{self.folder}/crates/{crate}"
        self.write(crate, texts)
        ran = subprocess.run(["rt", "check", "--jobs", "1"], cwd=here, stdin=subprocess.DEVNULL, stdout=subprocess.PIPE, stderr=subprocess.STDOUT, text=True, errors="replace")
        return Log(ran.returncode, ran.stdout)


def missed(found, texts, crate, check, passed, say=lambda text: None):
    """the programs that are not refused for themselves, each with the reason; `check` gives the log of a check of these texts, `passed` is told of each that is refused"""
    faults, waiting = [], []
    for one in found:
        if applied(texts, [one]) is None:
            faults.append((one, "an `old:` text does not stand once"))
        else:
            waiting.append(one)
    copies, _ = copies_of(waiting, texts, crate)
    good, is_shown = together(copies, texts, check, say)
    if not is_shown:
        log = check(texts)
        if log.ended:
            say("\n".join(["the crate as it stands:", *log.text.split("\n")[-8:]]))
            return [(one, "the crate is not proved as it stands") for one in found]
    for one in good:
        passed(one)
    for one in [one for one in waiting if one not in good]:
        changed = applied(texts, [one])
        log = check(changed)
        is_refused, why = refused(one, log)
        for _ in range(4):
            changed = None if is_refused else renamed(one, changed, log)
            if not changed:
                break
            say(f"{one.label}: its proof under the goals' new names")
            log = check(changed)
            is_refused, why = refused(one, log)
        say(f"{one.label} alone: {'refused' if is_refused else why}")
        if is_refused:
            passed(one)
        else:
            faults.append((one, why))
    return faults


def room_for():
    """how many checks at a time: one a processor, and for each 4 GB that are free"""
    free = next((int(line.split()[1]) for line in open("/proc/meminfo") if line.startswith("MemAvailable:")), 0)
    return max(1, min(len(os.sched_getaffinity(0)), free // 4_000_000))


def main(words):
    anew, names = "--anew" in words, [word for word in words if word != "--anew"]
    below = uses()
    lacking = [name for name in names if name not in below]
    if lacking:
        sys.exit(f"crates.txt has no {lacking[0]}")
    kit = subprocess.run(["rt", "version"], capture_output=True, text=True, check=True).stdout
    os.makedirs(CACHE, exist_ok=True)
    # (the checkout may change meanwhile: what is tried and noted is the crates as they stand now)
    first = Lane(os.getcwd())
    count, faults, tried, work = 0, [], 0, []
    for crate in sorted(below, key=lambda name: len(below[name])):
        found = []
        for path in sorted(glob.glob(f"crates/{crate}/must-fail/*.edit")) if not names or crate in names else []:
            own, form = programs(path)
            faults += form
            found += own
        keys = {id(one): key_of(one, crate, below[crate], first.folder, kit) for one in found}
        new = [one for one in found if anew or not os.path.exists(f"{CACHE}/{keys[id(one)]}")]
        if new:
            work.append((crate, new, keys))
        count, tried = count + len(found), tried + len(new)
    print(f"{tried} of {count} wrong programs are to be tried, of {len(work)} crates; the others were refused before", flush=True)
    number = max(1, min(room_for(), len(work)))
    free = [first, *(Lane(first.folder) for _ in range(number - 1))]
    printing, taking = threading.Lock(), iter(work)

    def lane(here):
        while True:
            with printing:
                job = next(taking, None)
            if job is None:
                return
            crate, found, keys = job
            begun, notes, texts = time.time(), [], files_of(f"{here.folder}/crates/{crate}")
            passed = lambda one: open(f"{CACHE}/{keys[id(one)]}", "w").close()
            told = missed(found, texts, crate, lambda changed: here.checked(crate, changed), passed, notes.append)
            here.write(crate, texts)
            with printing:
                print(f"{crate}: {len(found) - len(told)} of {len(found)} are refused for themselves ({time.time() - begun:.0f} s: {'; '.join(notes)})", flush=True)
                faults.extend(f"{crate}: {one.label}: {why}" for one, why in told)

    try:
        with ThreadPoolExecutor(number) as pool:
            for done in [pool.submit(lane, here) for here in free]:
                done.result()
    finally:
        for here in free:
            here.clear()
    for fault in faults:
        print(fault)
    print(f"{count} wrong programs, {len(faults)} faults")
    return len(faults) > 0


def self_test():
    def program(label, function=None, theorem=None, changes=()):
        return Program(label, function, theorem, list(changes), [])

    f, g = program("left", "f"), program("harmless", "g")
    end = "\nlogic=not-proved\n"
    own = "./proofs/%s/Answers.antt:3:1: error: `returns`: %s\n"
    log = lambda text: Log(1, text + end)
    two = "fn a::f: not proved\nfn a::g: %s\n"
    assert refused(f, log(own % ("f", "the two types differ") + two % "proved"))[0]
    assert not refused(g, log(own % ("f", "the two types differ") + two % "proved"))[0], "a planted harmless program must be reported"
    assert not refused(g, log(two % "no proof: it calls `a::f`, which is not proved"))[0], "one that is refused through another must be reported"
    assert not refused(g, log(own % ("g", "`inv` was not admitted, so this cannot be checked") + two % "not proved"))[0], "one whose lemma is refused must be reported"
    assert not refused(g, log(own % ("g", "module `a.g.Goals` has no `goal` that can be named from here") + two % "not proved"))[0], "one whose proof no longer fits must be reported"
    assert not refused(g, log(own % ("g", "record `a.g.Lts.Start` has no field `before`") + two % "not proved"))[0], "one whose proof reads a step that is gone must be reported"
    assert refused(g, log(own % ("g", "the two types differ") + two % "not proved; it calls `a::f`, which is not proved"))[0]
    assert refused(g, log(two % "no proof: expected answers in ./proofs/g/Answers.antt; `search` did not prove `returns`"))[0]
    gone = own % ("g", "module `a.g.Goals` has no `goal` that can be named from here")
    goal = "note: src/lib.rt:7:1: it is not proved that what the function ensures holds when it returns (`returns`)%s\n"
    values = "; the facts known there allow values at which this goal is false"
    only = gone + "fn a::f: proved\n" + goal + "fn a::g: not proved\n"
    assert not refused(g, log(only % ""))[0], "one whose proof no longer fits must be reported, though goals of other names are open"
    assert refused(g, log(only % values))[0]
    assert not refused(g, log(gone + goal % values + "fn a::f: not proved\nfn a::g: not proved\n"))[0], "the values of another function's goal are no refusal"
    assert not refused(g, log(two % "no proof: expected invariants in ./proofs/g/Invariants.antt"))[0], "one that only lacks a proof file must be reported"
    assert not refused(g, Log(0, two % "proved" + "logic=proved\n"))[0]
    assert not refused(g, Log(3, own % ("g", "the two types differ") + two % "not proved"))[0], "one without a verdict must be reported"
    law = log("./proofs/Laws.antt:9:1: error: `known`: the two types differ")
    assert refused(program("late", theorem="known"), law)[0]
    assert not refused(program("late", theorem="other"), law)[0]
    cited = log("./proofs/Laws.antt:9:1: error: `known`: `other` was not admitted")
    assert not refused(program("late", theorem="known"), cited)[0], "a theorem that is refused through another must be reported"
    assert not refused(program("bare"), law)[0], "one that names no theorem must be reported"
    types = log(own % ("T/new", "the two types differ") + "fn a::T::new: not proved\nfn a::S::new: proved\n")
    assert not refused(program("other", "S::new"), types)[0], "a function of another type must be reported"
    assert refused(program("own", "T::new"), types)[0]
    assert not refused(program("both", "new"), types)[0], "a name of two functions must be reported"
    source = "pub fn f(x: u8) -> u8\n    ensures { result ≡ x }\n{\n    x + 0\n}\n\nfn g() {\n    one();\n}\n\nconst N: u8 = 7;\n"
    inside = lambda old: body_of(source, source.find(old))
    assert (inside("x + 0"), inside("one()"), inside("result ≡ x"), inside("7"), inside("x: u8")) == ("f", "g", None, None, None)
    # a copy stands behind its function, with its comment and contract, and its proof goes by its name
    first = "// The first.\npub fn f(x: u8) -> u8\n    ensures { result ≡ f x }\n{\n    a\n}\n"
    method = "    // The last.\n    fn k(self) {\n        f(d)\n    }\n"
    source = f"{first}\nfn g() {{\n    b\n}}\n\nfn h() {{\n    c\n}}\n\nimpl T {{\n{method}}}\n"
    texts = {"src/lib.rt": source, "proofs/Laws.antt": "law : f ≡ f", "proofs/f/Answers.antt": "use Rattle.a.proofs.f.Goals as goal\nuse Rattle.a.specs.f.{f}\n"}
    texts["proofs/T/k/Invariants.antt"] = "use Rattle.a.proofs.T.k.Given as given\nuse Rattle.a.proofs.f.Goals\n"
    twice = lambda name, old, label=None: program(label or name, name, changes=[("src/lib.rt", f"{old}\n", f"{old}{old}\n")])
    called = {**texts, "proofs/T/k/Invariants.antt": "use Rattle.a.proofs.T.k.Given as given\n"}
    copies, alone = copies_of([twice("f", "    a"), twice("T::k", "f(d)")], called, "a")
    assert [copy.name for copy in copies] == ["f_wrong_1", "T::k_wrong_2"] and not alone
    made = with_copies(called, [*copies, copies[0].control])
    again_f = lambda name, old: "\n" + first.replace("fn f(", f"fn {name}(").replace("    a\n", f"    {old}\n")
    behind = first + again_f("f_wrong_1", "a    a") + again_f("f_as_it_is_1", "a")
    wanted = source.replace(first, behind).replace(method, method + "\n" + method.replace("fn k(", "fn k_wrong_2(").replace("f(d)", "f(d)f(d)"))
    assert made["src/lib.rt"] == wanted, made["src/lib.rt"]
    assert made["proofs/f_wrong_1/Answers.antt"] == "use Rattle.a.proofs.f_wrong_1.Goals as goal\nuse Rattle.a.specs.f.{f}\n"
    assert made["proofs/T/k_wrong_2/Invariants.antt"] == "use Rattle.a.proofs.T.k_wrong_2.Given as given\n"
    assert all(made[path] == text for path, text in called.items() if path != "src/lib.rt")
    header = {"src/header.rt": source, "proofs/header/f/Answers.antt": "use Rattle.a.proofs.header.f.Goals as goal\n"}
    one = copies_of([program("in", "f", changes=[("src/header.rt", "    a", "    aa")])], header, "a")[0][0]
    assert (one.name, one.proofs) == ("header::f_wrong_1", {"proofs/header/f_wrong_1/Answers.antt": "use Rattle.a.proofs.header.f_wrong_1.Goals as goal\n"})
    assert copies_of([twice("f", "    a")], {**called, "specs/Names.antt": "f_wrong_1 = 0"}, "a")[0][0].name == "f_wrong_2"

    def stands_alone(name, old, **changed):
        texts = {**called, **{{"source": "src/lib.rt", "laws": "proofs/Laws.antt"}.get(path, path): text for path, text in changed.items()}}
        return copies_of([twice(name, old)], texts, "a") == ([], [twice(name, old)])

    assert not stands_alone("f", "    a") and not stands_alone("T::k", "f(d)")
    assert stands_alone("f", "    a", source=source.replace("pub fn f", "#[inline]\npub fn f")), "one that has attributes"
    assert stands_alone("f", "    a", source=source.replace("// The", "#[unsafe(no_mangle)]\n// The")), "one that has attributes above its comment"
    assert stands_alone("f", "    a", source=source.replace("pub fn f", "pub extern \"C\" fn f")), "one that is exported"
    assert stands_alone("f", "    a", source=source.replace("    a\n", "    f(x);\n    a\n")), "one that calls itself"
    assert stands_alone("T::k", "f(d)", source=source.replace("f(d)", "self.k();\n        f(d)")), "a method that calls itself"
    assert stands_alone("T::k", "f(d)", source=source.replace("impl T", "impl Tr for T")), "one of a trait"
    assert stands_alone("T::k", "f(d)", source=source.replace("impl T", "mod T")), "one of a module within a file"
    assert stands_alone("f", "    a", laws="use Rattle.a.proofs.f.Goals.{After-f}"), "one whose records a lemma names"
    assert copies_of([twice("f", "    a")], texts, "a")[1], "one whose records another function's proof names"
    assert copies_of([twice("f", "    a")], {**called, "proofs/f/closure/Answers.antt": ""}, "a")[1], "one whose closures have proofs"
    assert copies_of([twice("f", "    a")], {**called, "proofs/+f/Answers.antt": ""}, "a")[1], "one of a cycle of calls"
    apart = program("two", "f", changes=[("src/lib.rt", "    a", "    aa"), ("src/other.rt", "    a", "    b")])
    assert copies_of([apart], {**called, "src/other.rt": source}, "a")[1], "one of two files"
    assert copies_of([program("late", theorem="known", changes=[("specs/A.antt", "0", "1")])], {**called, "specs/A.antt": "0"}, "a")[1]
    assert stands_alone("f", "    a\n}\n\nfn g() {\n    b"), "one whose change goes over an end"
    assert stands_alone("S::k", "f(d)"), "one that names another type's function"
    calls = {**called, "src/lib.rt": source.replace("    a\n", "    f(x)\n")}
    assert copies_of([program("on", "f", changes=[("src/lib.rt", "f(x)", "a")])], calls, "a")[1], "one of a function that calls itself"
    assert not stands_alone("f", "    a", laws="use Rattle.a.proofs.first.Goals.{After-f}"), "another function's name may begin alike"

    # a made-up rt: `aa`, `bb` and `dd` are refused for themselves, `kk` only through another function, `ee` is no code, and `cc` is harmless
    def rt(texts, unproved=(), tried=None):
        tried is None or tried.append(texts)
        text = texts["src/lib.rt"]
        if "ee" in text:
            return Log(1, "error: src/lib.rt:5:5: no such name\n")
        lines = []
        for indent, name, body in re.findall(r"^( *)(?:pub )?fn (\w+)\([^{]*(?:\{ result[^{]*)?\{\n(.*?)^\1\}", text, re.M | re.S):
            folder = f"T/{name}" if indent else name
            is_wrong = any(it in body for it in ("aa", "bb", "dd")) or name in unproved
            said = "not proved" if is_wrong else "no proof: it calls `a::l`, which is not proved" if "kk" in body else "proved"
            lines.append((own % (folder, "the two types differ") if is_wrong else "") + f"fn a::{folder.replace('/', '::')}: {said}\n")
        is_proved = all(line.endswith(": proved\n") for line in lines)
        return Log(0 if is_proved else 1, "".join(lines) + f"logic={'' if is_proved else 'not-'}proved\n")

    pair = lambda label, name, old, new: program(label, name, changes=[("src/lib.rt", old, new)])
    wrong = [pair("left", "f", "    a", "    aa"), pair("mid", "g", "    b", "    bb"), pair("end", "T::k", "f(d)", "f(dd)")]
    harmless, through = pair("harmless", "h", "    c", "    cc"), pair("through", "f", "    a", "    kk")

    def tried(found, **ways):
        well, checks = [], []
        told = missed(found, called, "a", lambda changed: rt(changed, tried=checks, **ways), well.append)
        return [one.label for one in well], [(one.label, why) for one, why in told], checks

    well, told, checks = tried(wrong)
    assert (well, told, len(checks)) == (["left", "mid", "end"], [], 1), (well, told, len(checks))
    well, told, checks = tried([*wrong, harmless, through])
    assert (well, [label for label, _ in told]) == (["left", "mid", "end"], ["harmless", "through"]), (well, told)
    assert [sorted(set(texts) - set(called)) for texts in checks[1:]] == [[], []], "what is not refused as a copy is tried on the function itself"
    well, told, checks = tried([*wrong, pair("unread", "h", "    c", "    ee")])
    assert (well, [label for label, _ in told]) == (["left", "mid", "end"], ["unread"]), "one that is no code spoils no other"
    assert sum("_wrong_" not in texts["src/lib.rt"] for texts in checks) == 2, "only the crate as it stands and the one that is no code are tried without copies"
    well, told, checks = tried(wrong, unproved=("h",))
    assert (well, {why for _, why in told}) == ([], {"the crate is not proved as it stands"}), (well, told)
    well, told, checks = tried([harmless, wrong[0]], unproved=("h_wrong_1", "h_as_it_is_1"))
    assert (well, [label for label, _ in told]) == (["left"], ["harmless"]), "a copy shows nothing where the function as it is gets no proof as a copy"
    again_k = {**called, "src/lib.rt": source + "\nimpl S {\n    fn k(self) {\n        0\n    }\n}\n"}
    both = lambda texts: Log(1, rt(texts).text.replace("logic=", "fn a::S::k: proved\nlogic="))
    assert [one.label for one, _ in missed([pair("both", "k", "f(d)", "f(dd)")], again_k, "a", lambda texts: both(texts) if "dd" in texts["src/lib.rt"] else rt(texts), print)] == ["both"], "a name of two functions must be reported"
    seen = lambda *unproved: shows_the_rest(rt(with_copies(called, copies), unproved), copies)
    assert seen() and not seen("g") and not seen("f"), "what is no copy must be proved"
    assert not shows_the_rest(Log(1, "fn a::f: proved\n"), copies), "each function that has a copy must be proved"
    assert not shows_the_rest(Log(1, "./proofs/Laws.antt:1:1: error: `law`: the two types differ\nfn a::f: proved\nfn a::T::k: proved\n"), copies), "nor may a lemma be refused"
    # a proof that names a goal by the old text is tried under the new name, and only what is refused then counts
    texts = {"src/lib.rt": "fn f() {\n    a7\n}\n", "proofs/f/Answers.antt": "returns-then-a-gt7 : goal.returns-then-a-gt7 = c.if-a-gt7.true\n"}
    moved = program("moved", "f", changes=[("src/lib.rt", "    a7", "    a6")])
    fits = "returns-then-a-gt6 : goal.returns-then-a-gt6 = c.if-a-gt6.true\n"

    def renaming(last):
        def check(changed, names):
            name = next((name for name in ("f_wrong_1", "f") if f"fn {name}() {{\n    a6" in changed["src/lib.rt"]), None)
            rest = "fn a::f_as_it_is_1: proved\n" + ("" if name == "f" else "fn a::f: proved\n")
            names.append(name)
            if not name:
                return Log(0, "fn a::f: proved\nlogic=proved\n")
            if changed[f"proofs/{name}/Answers.antt"] == fits:
                return last(name, rest)
            lost = own % (name, "`goal.returns-then-a-gt7`: module `a.Goals` has no `returns-then-a-gt7` that can be named from here")
            lost += f"note: src/lib.rt:2:5: it is not proved that {name} ensures it (`returns-then-a-gt6`); `search` gave up\nfn a::{name}: not proved\n"
            return log(rest + lost)

        well, names = [], []
        told = missed([moved], texts, "a", lambda changed: check(changed, names), well.append)
        return len(well), len(told), names

    assert renaming(lambda name, rest: log(rest + own % (name, "the two types differ") + f"fn a::{name}: not proved\n")) == (1, 0, 2 * ["f_wrong_1"])
    assert renaming(lambda name, rest: Log(0, rest + f"fn a::{name}: proved\nlogic=proved\n")) == (0, 1, 2 * ["f_wrong_1"] + 2 * ["f"])
    # of a crate below, the bodies and the comments are not read above
    below = "// %s\npub fn f(x: u8) -> u8\n    ensures { result ≡ %s }\n{\n    %s\n}\n\nimpl T {\n    fn k(self) {\n        %s\n    }\n}\n\nconst fn n() -> u8 {\n    %s\n}\n\nconst N: u8 = %s;\n"
    seen = without_bodies(below % ("One.", "f x", "a", "b", "1", "7"))
    assert seen == without_bodies(below % ("Two.", "f x", "if a {\n        c\n    }", "d", "1", "7")), seen
    for others in [("One.", "g x", "a", "b", "1", "7"), ("One.", "f x", "a", "b", "2", "7"), ("One.", "f x", "a", "b", "1", "8")]:
        assert seen != without_bodies(below % others), "contracts, constant functions and constants are read above"
    assert {read_above(path, "x") for path in ("specs/deep/A.antt", "proofs/A.antt", "proofs/Answers.antt", "proofs/deep/A.antt")} == {"x"}
    assert {read_above(path, "x") for path in ("proofs/f/Answers.antt", "proofs/T/k/Invariants.antt", "proofs/f/Proof.antt")} == {None}
    print("self-test: passed")
    return False


if __name__ == "__main__":
    if sys.argv[1:] == ["--self-test"]:
        sys.exit(self_test())
    if any(word.startswith("-") and word != "--anew" for word in sys.argv[1:]):
        sys.exit(__doc__)
    sys.exit(main(sys.argv[1:]))
