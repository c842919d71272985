#!/usr/bin/env python3
"""Makes the list of jobs that the program prog_statics_jobs replays, and what it must print.

  tools/statics_jobs.py               writes crates/prog_statics_jobs/{data/jobs,args,stdout}
  tools/statics_jobs.py SEED COUNT    runs COUNT other jobs, made and damaged, through target/bin/prog_statics_jobs, and compares each answer with the model's and,
                                      where the Rust (oracle/target/release/oracle) merges the object, with the statics in its symbol table
  tools/statics_jobs.py FOLDER        writes jobs that take long into FOLDER: entries, names; time `target/bin/prog_statics_jobs FOLDER/entries`

A job is an object with a debug section, a statics mode, a path, and by how much its debug sections move. Some objects come from gas -mdebug of Debian's
binutils-mips-linux-gnu, some are made here to stand at a limit, and some are those with a byte changed. What must be printed comes from the model of
document 01 (MODEL, by default ../shared/model), never from the program under test.
"""
import os, random, re, struct, subprocess, sys, tempfile

TOP = os.path.dirname(os.path.dirname(os.path.abspath(__file__)))
sys.path.insert(0, os.path.join(TOP, 'tools'))
sys.path.insert(0, os.environ.get('MODEL', os.path.join(TOP, '..', 'shared', 'model')))
import merge_jobs, model, symbol_jobs  # noqa: E402

OUT = os.path.join(TOP, 'crates', 'prog_statics_jobs')
DEBUG = 0x70000005
STATIC, PROC, BLOCK, END, FILE, STATIC_PROC, UNION = 2, 6, 7, 8, 11, 14, 27
TEXT, DATA, BSS, RODATA = 1, 2, 3, 15
SECTIONS = b'.text', b'.data', b'.rodata', b'.bss'
SYMBOLS_AT, STRINGS_AT, FILES, FILES_AT = 8, 14, 17, 18     # words of a debug header, from 0 behind its magic


# ---------------------------------------------------------------- objects of a real assembler

def source(r):
    """assembly with statics of every section, procedures, blocks in them, and names that repeat"""
    lines, labels = ['.file 1 "one.c"'], 0
    for section, words in (('.data', '.word'), ('.rdata', '.word'), ('.bss', '.space')):
        lines.append(section)
        for _ in range(r.randrange(4)):
            labels += 1
            lines.append(f's{labels}: {words} 4')
    lines += ['.data', 'value: .word 1', '.text']
    for p in range(r.randrange(1, 4)):
        hidden = r.random() < 0.5
        if hidden:
            lines.append(f'.def p{p}; .val p{p}; .scl 3; .endef')
        else:
            lines.append(f'.globl p{p}')
        lines += [f'.ent p{p}', f'p{p}:']
        depth = r.randrange(3)
        for d in range(depth):
            lines.append(f'.begin p{p}')
            for _ in range(r.randrange(3)):
                lines.append(f'.def {r.choice("nmk")}; .val value; .scl 3; .endef')
        lines += ['jr $31', 'nop'] + [f'.bend p{p}'] * depth + [f'.end p{p}']
    return '\n'.join(lines) + '\n'


def assembled(count, seed):
    r, out = random.Random(seed), []
    with tempfile.TemporaryDirectory() as d:
        # The source is named without a folder: the debug section stores its name.
        for _ in range(count):
            with open(os.path.join(d, 'in.s'), 'w') as f:
                f.write(source(r))
            subprocess.run(['mips-linux-gnu-as', '-32', '-EB', '-mdebug', '-o', 'o', 'in.s'], check=True, cwd=d)
            with open(os.path.join(d, 'o'), 'rb') as f:
                out.append(f.read())
    return out


# ---------------------------------------------------------------- made objects

def section_header(name=0, kind=1, flags=0, addr=0, offset=0, size=0, link=0, info=0, align=1, entsize=0):
    return struct.pack('>10I', name, kind, flags, addr, offset, size, link, info, align, entsize)


def entry(kind, storage=0, name=0, value=0):
    return struct.pack('>III', name, value, kind << 26 | storage << 21)


def scoped(*inner):
    """a file and a procedure around entries"""
    return [entry(FILE), entry(PROC, TEXT), *inner, entry(END), entry(END)]


def debug_section(start, files, strings=b'n\0m\0', magic=0x7009, counts=None, firsts=None, records=None, bases=None):
    """a .mdebug that stands at `start` and has these files, each a list of entries; counts, firsts, records and bases replace what its descriptors and header say"""
    symbols = start + 96
    flat = b''.join(e for f in files for e in f)
    text = symbols + len(flat)
    fds = text + len(strings) + -len(strings) % 4
    words = [0] * 23
    words[7], words[SYMBOLS_AT], words[13], words[STRINGS_AT], words[FILES], words[FILES_AT] = len(flat) // 12, symbols, len(strings), text, len(files), fds
    words[1], words[2], words[21], words[22] = 1, 0x260, 0, 0x260
    for i, x in (records or {}).items():
        words[i] = x
    header = struct.pack('>HH', magic, 0) + struct.pack('>23I', *words)
    table, first = b'', 0
    for i, f in enumerate(files):
        count = len(f) if counts is None else counts[i]
        table += struct.pack('>18I', 0, 0, 0 if bases is None else bases[i], 0, first if firsts is None else firsts[i], count, *([0] * 12))
        first += len(f)
    return header + flat + strings + b'\0' * (-len(strings) % 4) + table


def made(files, strings=b'n\0m\0', has=SECTIONS, size=None, kind=DEBUG, tail=b'', **more):
    """an object whose .mdebug has these files, and what else a debug section is made with"""
    parts = [(b'', 0, b''), (b'.shstrtab', 3, None), (b'.symtab', 2, b'\0' * 16), (b'.strtab', 3, b'\0')]
    parts += [(n, 8 if n == b'.bss' else 1, b'' if n == b'.bss' else b'\0' * 16) for n in has]
    names, at = b'', {}
    for n in [p[0] for p in parts] + [b'.mdebug']:
        at.setdefault(n, len(names))
        names += n + b'\0'
    body, heads = b'', []
    for n, k, data in parts:
        data = names if data is None else data
        heads.append(section_header(at[n], k, offset=52 + len(body) if k else 0, size=16 if k == 8 else len(data), link=3 if k == 2 else 0,
                                    info=1 if k == 2 else 0, entsize=16 if k == 2 else 0))
        body += data
    body += b'\0' * (-len(body) % 4)
    debug = debug_section(52 + len(body), files, strings, **more)
    heads.append(section_header(at[b'.mdebug'], kind, offset=52 + len(body), size=len(debug) if size is None else size))
    body += debug
    shoff = 52 + len(body)
    head = b'\x7fELF' + bytes([1, 2, 1]) + b'\0' * 9 + struct.pack('>HHIIIIIHHHHHH', 1, 8, 1, 0, 0, shoff, 0, 52, 0, 0, 40, len(heads), 1)
    return head + body + b''.join(heads) + tail


def last_descriptor(cut):
    """an object whose last bytes are its only descriptor, cut"""
    b = made([[entry(STATIC, DATA)]])
    fd = struct.pack('>18I', 0, 0, 0, 0, 0, 1, *([0] * 12))[:cut]
    return made([[entry(STATIC, DATA)]], records={FILES_AT: len(b)}) + fd


def debug_of(b):
    """the section .mdebug of an object"""
    c = model.read_object(b)
    return c.sections[model.first_named(c.sections, b'.mdebug')]


def with_another(b, debug, in_front):
    """a made object with one more section .mdebug, of these bytes, behind all others or in front of the one that it has"""
    at, count = model.be32(b, 32), model.be16(b, 48)
    heads = [b[at + 40 * i:at + 40 * i + 40] for i in range(count)]
    heads.insert(count - in_front, section_header(model.be32(heads[-1], 0), DEBUG, offset=len(b), size=len(debug)))
    b = model.splice(b + debug, 32, struct.pack('>I', len(b) + len(debug)))
    return model.splice(b, 48, struct.pack('>H', count + 1)) + b''.join(heads)


def ends():
    """a name that starts at the end of the file or shortly before it, with a zero end and without"""
    files = [scoped(entry(STATIC, DATA))]
    for tail in (b'no end', b'end\0', b'', b'\0', b'x' * 1024, b'x' * 1024 + b'\0'):
        yield made(files, records={STRINGS_AT: len(made(files))}, tail=tail)


def levels():
    """a name at level 1 or 0 between, before and behind its namesakes above, in one file and in others"""
    n, opened, closed = entry(STATIC, DATA, 0, 4), entry(PROC, TEXT), entry(END)
    yield made([[entry(FILE), opened, n, closed, n, opened, n, n, closed, n, closed]])
    yield made([[entry(FILE), n, opened, n, closed, n, opened, n, closed, closed]])
    yield made([scoped(n), [entry(FILE), n, closed], scoped(n), [n], scoped(n)])


def sums():
    """sums of offsets that pass 2^32, and would lead to what is there if they were taken modulo 2^32"""
    files = [scoped(entry(STATIC, DATA))]
    debug = debug_of(made(files)).data
    symbols, strings = model.be32(debug, 4 + 4 * SYMBOLS_AT), model.be32(debug, 4 + 4 * STRINGS_AT)
    for base in (1 << 31, strings + 1):
        yield made(files, records={STRINGS_AT: (strings - base) % (1 << 32)}, bases=[base])
    yield made([scoped(entry(STATIC, DATA, (1 << 32) - 4))], records={STRINGS_AT: strings + 4})
    # 12 * first is three quarters of 2^32, and 8 more than four times 2^32
    yield made(files, records={SYMBOLS_AT: symbols + (1 << 30)}, firsts=[1 << 28])
    yield made(files, records={SYMBOLS_AT: symbols - 8}, firsts=[0x55555556])


def others():
    """an object with two sections of the name .mdebug, or with that name on section 0"""
    b, empty = made([scoped(entry(STATIC, DATA))]), struct.pack('>HH', 0x7009, 0) + bytes(92)
    for debug in (empty, debug_of(b).data, empty[:79]):
        for in_front in (0, 1):
            yield with_another(b, debug, in_front)
    yield model.splice(b, model.be32(b, 32), struct.pack('>I', debug_of(b).sh_name))


def limits():
    n, m = entry(STATIC, DATA, 0, 4), entry(STATIC, BSS, 2, 8)
    long = lambda k: b'x' * k + b'\0'
    yield made([scoped(n, n)])
    yield made([[entry(FILE), n, entry(END)]])
    yield made([[n]])
    yield made([])
    yield made([[]])
    yield made([scoped(n, m, n), scoped(n, m)])
    yield made([scoped(n), [entry(FILE), entry(END)], scoped(n, n)])
    yield made([scoped(entry(STATIC, RODATA), entry(STATIC, TEXT))])
    yield made([[entry(FILE), entry(STATIC_PROC, TEXT), n, entry(END), entry(END)]])
    yield made([[entry(END), n, entry(FILE)]])
    yield made([[entry(END), entry(END), entry(FILE), entry(PROC), n, m]])
    for kind in range(64):                                      # accepted where the type opens no scope, and where it opens one
        yield made([[entry(FILE), entry(kind, TEXT), n, entry(END)]])
        yield made([[entry(FILE), entry(kind, TEXT), n, entry(END), entry(END)]])
    for storage in (0, 1, 2, 3, 4, 14, 15, 16, 31):
        yield made([scoped(n, entry(STATIC, storage))])
    for name in SECTIONS:
        yield made([scoped(entry(STATIC, TEXT), n, m, entry(STATIC, RODATA))], has=tuple(x for x in SECTIONS if x != name))
    yield made([[entry(FILE), n]])
    yield made([scoped(n), [entry(FILE), n], scoped(n)])
    yield made([scoped(n), [n, entry(END)]])
    for k in (0, 1, 1023, 1024, 1025):
        yield made([scoped(n)], strings=long(k))
    yield made([scoped(entry(STATIC, DATA, 1 << 20))])
    yield made([scoped(entry(STATIC, DATA, 0xffffffff))], bases=[0xffffffff], records={STRINGS_AT: 0xffffffff})
    yield made([scoped(n, m), scoped(n, m)], strings=b'n\0m\0k\0', bases=[0, 2])
    yield from ends()
    yield from levels()
    yield from sums()
    yield from others()
    for k in (4095, 4096, 4097):
        yield made([[n] * k])
    yield made([scoped(*[n] * 4096)])
    yield made([scoped(*[n, m] * 600)])
    for k in (0, 36, 76, 79, 80, 95, 96):
        yield made([scoped(n)], size=k)
    yield made([scoped(n)], kind=8)
    yield made([scoped(n)], kind=1)
    yield made([scoped(n)], magic=0x7010)
    yield made([scoped(n)], counts=[4])
    yield made([scoped(n)], counts=[6])
    yield made([scoped(n)], counts=[0xffffffff])
    yield made([scoped(n)], records={FILES: 2})
    yield made([scoped(n)], records={FILES: 0xffffffff})
    yield made([scoped(n)], records={FILES_AT: 0xffffffff})
    yield made([scoped(n)], records={SYMBOLS_AT: 0xffffffff})
    yield made([scoped(n)] * 40)
    for cut in (8, 12, 23, 24, 72):
        yield last_descriptor(cut)
    yield made([scoped(n)], records={k: 1 for k in range(1, 23, 2) if k not in (7, 13, FILES)})
    b = made([scoped(n, n)])
    yield b.replace(b'.mdebug', b'.mdebuh')


def damaged(objects, count, seed):
    """one random byte of a debug section changed"""
    r = random.Random(seed)
    for k in range(count):
        b = r.choice(objects)
        s = debug_of(b)
        at = s.sh_offset + r.randrange(s.sh_size)
        yield b[:at] + bytes([r.choice([0, 1, 8, 0x20, 0x38, 0xff, b[at] ^ (1 << r.randrange(8))])]) + b[at + 1:]


# ---------------------------------------------------------------- jobs

def jobs():
    real = assembled(30, 1)
    r = random.Random(2)
    out = [(b, r.choice((1, 2, 3)), r.choice((b'src/a.c', b'x')), 16) for b in real]
    out += [(b, 3, b'f.c', r.choice((0, 16, 0xfffffff0))) for b in limits()]
    out += [(made([scoped(entry(STATIC, DATA))]), mode, path, by) for mode in (0, 1, 2, 3) for path, by in ((b'', 0), (b'p' * 255, 1))]
    out += [(made([[entry(FILE)]]), mode, b'p', 4) for mode in (0, 1)]
    out += [(b, r.choice((1, 2, 3)), b'd', r.randrange(1 << 32)) for b in damaged(real, 60, 3)]
    return out


def listing(b, mode, path):
    """(refusal, None), or (None, statics): of each its symbol, whose st_name counts from the first static's, and its written name"""
    bad = model.object_refusal(b, 1)
    if bad is not None:
        return bad, None
    c = model.read_object(b)
    i = model.first_named(c.sections, b'.mdebug')
    place, statics = (None, []) if mode == 0 or i is None else model.walk_statics(c, c.sections[i].data)
    if place is not None:
        return ('refused', 17, 1, place), None
    return None, [(y, model.written_name(s, path, mode)) for s, y in zip(statics, model.static_symbols(c, statics, path, mode, 0))]


def answer(b, mode, path, by):
    bad, statics = listing(b, mode, path)
    out = f'listed {len(statics)}\n'.encode() if bad is None else f'refused {bad[1]} {bad[3]}\n'.encode()
    if bad is not None and bad[1] != 17:
        return out
    for y, name in statics or ():
        out += f'{y.st_value} {y.st_shndx} {y.st_type} {y.st_bind} {y.st_name} '.encode() + name + b'\n'
    for i, s in enumerate(model.read_object(b).sections):
        if s.sh_type == DEBUG:
            new = (s.sh_offset + by) % 2 ** 32
            fit = len(s.data) >= 96 and model.be16(s.data, 0) == 0x7009
            if new != s.sh_offset and not fit:
                words = ' refused'
            elif len(s.data) < 96:
                words = ''
            else:
                d = model.shift_debug(s.data, s.sh_offset, new)
                words = ''.join(f' {model.be32(d, 4 * k)}' for k in range(1, 24))
            out += f'debug {i}{words}\n'.encode()
    return out


def hostile():
    """jobs that take long, by name: 3,200 file records over the same 67,000 entries; 4,096 counted statics whose names have one length, begin alike and end alike"""
    yield 'entries', made([[]] * 3199 + [[entry(5)] * 67000], counts=[67000] * 3200)
    names = [b'x' * 233 + b'%04dy' % k + b'\0' for k in range(4096)]
    yield 'names', made([scoped(*[entry(STATIC, DATA, 239 * k) for k in range(4096)])], strings=b''.join(names))


def packed(b, mode, path, by):
    return struct.pack('>4I', len(b), mode, len(path), by) + b + path


# ---------------------------------------------------------------- beside the Rust

class Maker:
    """objects with files of random entries; a name at level 1 or below has one place in an object, so that the Rust can merge it"""
    NAMES = b'n', b'm', b'nm', b'value', b'n:1', b'_asmpp_n', b'', b'y' * 1024, b'z' * 1025
    WEIGHTS = 40, 40, 20, 20, 4, 4, 2, 2, 1
    CLASSES = TEXT, DATA, BSS, RODATA

    def __init__(self, chance, names=len(NAMES)):
        self.chance, self.names, self.weights = chance, self.NAMES[:names], self.WEIGHTS[:names]
        # Bytes in front of the names leave room for the start of a file's names.
        self.strings, self.at = b'front\0', {}
        for name in self.names:
            self.at[name] = len(self.strings)
            self.strings += name + b'\0'

    def static(self, kind, level, base):
        r = self.chance
        name, = r.choices(self.names, self.weights)
        fixed = self.NAMES.index(name)
        storage, value = (r.choice(self.CLASSES), r.getrandbits(32)) if level > 1 else (self.CLASSES[fixed % 4], 4 * fixed)
        return entry(kind, storage if r.randrange(60) else r.randrange(32), self.at[name] - base, value)

    def scope(self, level, base):
        """entries at a level, with the scopes among them"""
        r = self.chance
        for _ in range(r.randrange(5)):
            kind = r.choice((STATIC, STATIC, STATIC, r.randrange(64), *model.OPENS))
            if kind in (STATIC, STATIC_PROC):
                yield self.static(kind, level, base)
            elif kind != END:
                yield entry(kind, r.randrange(32), r.getrandbits(32), r.getrandbits(32))
            if kind in model.OPENS:
                yield from self.scope(level + 1, base) if level < 4 else ()
                yield entry(END)

    def files(self):
        """files of entries, and where their names start and what else their descriptors say"""
        r = self.chance
        bases = [r.randrange(7) for _ in range(r.choice((1, 1, 2, 3)))]
        files = [[entry(FILE), *self.scope(1, base), entry(END)] if r.randrange(6) else list(self.scope(0, base)) for base in bases]
        more = {}
        if not r.randrange(8):
            # Every file has the entries of the first.
            bases, more = bases[:1] * len(files), dict(firsts=[0] * len(files), counts=[len(files[0])] * len(files))
        if not r.randrange(2000):
            files[0] += [entry(STATIC, DATA, self.at[b'm'] - bases[0], 4)] * r.choice((4090, 4097, 4200))
            more = {}
        return files, dict(bases=bases, **more)

    def object(self):
        r = self.chance
        files, more = self.files()
        has = tuple(x for x in SECTIONS if r.randrange(60))
        b = made(files, self.strings, has=has, **more)
        if not r.randrange(20):
            b = with_another(b, r.choice((struct.pack('>HH', 0x7009, 0) + bytes(92), debug_of(b).data, bytes(20))), r.randrange(2))
        return b


def damage(b, chance):
    """one or two words or bits changed, most of them in the debug section"""
    at = debug_of(b)
    for _ in range(chance.randrange(1, 3)):
        start, size = chance.choice(((0, len(b)), (at.sh_offset, 96), (at.sh_offset, at.sh_size), (at.sh_offset, at.sh_size)))
        place = start + chance.randrange(size)
        if chance.randrange(2) and place + 4 <= len(b):
            place -= (place - start) % 4
            new = chance.choice((0, 1, 2, 7, 8, len(b), 0x7fffffff, 0xffffffff, model.be32(b, place) + 1, model.be32(b, place) + 12, chance.getrandbits(32)))
            b = model.splice(b, place, struct.pack('>I', new % (1 << 32)))
        else:
            b = model.splice(b, place, bytes([b[place] ^ 1 << chance.randrange(8)]))
    return b


def other_jobs(seed, count):
    chance = random.Random(seed)
    maker = Maker(chance)
    for k in range(count):
        b = maker.object()
        yield damage(b, chance) if k % 2 else b, chance.choice((0, 1, 1, 2, 3)), chance.choice((b'c.o', b'src/a.c')), chance.choice((0, 16, 0xfffffff0))


def over_limits(names, head):
    """whether the written names of statics, each behind a head, pass document 01's limits"""
    return len(names) > model.STATIC_LIMIT or any(len(re.sub(rb':[0-9]+$', b'', x[head:])) > model.STATIC_NAME_LIMIT for x in names)


def other_statics(merged, before, head, statics):
    """how the statics of the Rust's object, whose names start at `before` of its string table, differ from those that are listed; nothing where they do not"""
    if merged.sections[merged.strtab].data[before:] != b''.join(name + b'\0' for _, name in statics):
        return 'the Rust writes other names'
    own = {y.st_name - before: y for y in merged.symbols if y.st_name >= before}
    # A static whose name and place another symbol has is merged with that one.
    held = {(y.name[head:] if y.st_name >= before else y.name, y.st_shndx, y.st_value) for y in merged.symbols}
    for s, name in statics:
        y = own.pop(s.st_name, None)
        if y is None and (name[head:], s.st_shndx, s.st_value) not in held:
            return f'the Rust has no {name!r}'
        if y is not None and (y.name, y.st_value, y.st_shndx, y.st_type, y.st_bind) != (name, s.st_value, s.st_shndx, s.st_type, s.st_bind):
            return f'the Rust has {y} for {name!r}'
    return f'the Rust has {len(own)} more' if own else None


def beside_rust(rust, b, mode, path, bad, statics):
    """whether the Rust merges an object, and how it differs from what the program has"""
    assembled = symbol_jobs.made({}, [])
    merged = rust.merged(b, assembled, b'', path, mode)
    if merged is None:
        return False, None
    before = sum(len(x.sections[x.strtab].data) for x in map(model.read_object, (b, assembled)))
    head = len(path) + 1 if mode == 3 else 0
    if bad is None:
        return True, other_statics(merged, before, head, statics)
    names = merged.sections[merged.strtab].data[before:].split(b'\0')[:-1]
    return True, None if over_limits(names, head) else f'the Rust merges, the program has {bad}'


def compare(seed, count):
    every = list(other_jobs(seed, count))
    with tempfile.NamedTemporaryFile() as f:
        f.write(b''.join(packed(*job) for job in every))
        f.flush()
        out = subprocess.run([os.path.join(TOP, 'target', 'bin', 'prog_statics_jobs'), f.name], stdout=subprocess.PIPE, check=True).stdout
    rust, at, refused, listed, merged, limits, wrong = merge_jobs.Rust(), 0, 0, 0, 0, 0, 0
    for k, (b, mode, path, by) in enumerate(every):
        line = f'job {k} '.encode() + answer(b, mode, path, by)
        if out[at:at + len(line)] != line:
            sys.exit(f'job {k} of seed {seed}: the model has {line[:200]!r}, the program {out[at:at + 200]!r}')
        at += len(line)
        bad, statics = listing(b, mode, path)
        refused += bad is not None
        listed += len(statics or ())
        # What the Rust makes of an object that is refused by 2 to 6 says nothing of statics.
        there, words = beside_rust(rust, b, mode, path, bad, statics) if bad is None or bad[1] == 17 else (False, None)
        merged += there and bad is None
        limits += there and bad is not None
        if words:
            wrong += 1
            print(f'job {k} of seed {seed}: {words}')
    if out[at:] != f'job {count} is not there\n'.encode():
        sys.exit(f'behind the last job of seed {seed} the program prints {out[at:at + 200]!r}')
    print(f'{count} jobs: {refused} refusals and {count - refused} lists with {listed} statics as the model has them; {merged} lists and {limits} refusals over a limit '
          f'of document 01 merged by the Rust, {wrong} of them otherwise')
    return wrong != 0 or merged == 0


def main():
    if len(sys.argv) == 3:
        sys.exit(compare(int(sys.argv[1]), int(sys.argv[2])))
    if len(sys.argv) > 1:
        for name, b in hostile():
            with open(os.path.join(sys.argv[1], name), 'wb') as f:
                f.write(packed(b, 1, b'', 0))
        return
    os.makedirs(os.path.join(OUT, 'data'), exist_ok=True)
    data, lines, listed = b'', b'', 0
    every = jobs()
    for k, (b, mode, path, by) in enumerate(every):
        data += packed(b, mode, path, by)
        a = answer(b, mode, path, by)
        listed += a.startswith(b'listed')
        lines += f'job {k} '.encode() + a
    lines += f'job {len(every)} is not there\n'.encode()
    open(os.path.join(OUT, 'data', 'jobs'), 'wb').write(data)
    open(os.path.join(OUT, 'args'), 'w').write('jobs\n')
    open(os.path.join(OUT, 'stdout'), 'wb').write(lines)
    print(f'{len(every)} jobs, {listed} listed')


if __name__ == '__main__':
    main()
