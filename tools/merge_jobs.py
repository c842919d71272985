#!/usr/bin/env python3
"""Makes the jobs that the program prog_merge_jobs runs, and what it must print.

  tools/merge_jobs.py               writes crates/prog_merge_jobs/{data/jobs,args,stdout}
  tools/merge_jobs.py SEED COUNT    runs COUNT other jobs, made and damaged, through target/bin/prog_merge_jobs, and compares each answer with the model's and, where
                                    the Rust (oracle/target/release/oracle) merges the job, with its object, byte for byte

A job is a compiled object, an assembled one and a block file, a path, a statics mode and a drop flag, and the lengths of the output and of the working buffers. What is
expected comes from the model of document 01 (MODEL, by default ../shared/model): a refusal or the merged object. Every merged object is read again by the model's
demand3.py, which says whether no reference was lost, doubled or redirected. Real jobs come from Debian's gcc-mips-linux-gnu and binutils-mips-linux-gnu, where the
model's draft is assembled, and from CASES (by default ../shared/cases/real.tar.xz); where either is not there, its jobs are those of the recorded list. The program
has no say.
"""
import os
import random
import shutil
import struct
import subprocess
import sys
import tarfile
import tempfile

TOP = os.path.dirname(os.path.dirname(os.path.abspath(__file__)))
sys.path.insert(0, os.path.join(TOP, 'tools'))
sys.path.insert(0, os.environ.get('MODEL', os.path.join(TOP, '..', 'shared', 'model')))
import carry_jobs, demand3, draft_jobs, model, real_jobs, symbol_jobs, write_jobs  # noqa: E402

CASES = os.environ.get('CASES', os.path.join(TOP, '..', 'shared', 'cases', 'real.tar.xz'))
FOLDER = os.path.join(TOP, 'crates', 'prog_merge_jobs')
PROGRAM = os.path.join(TOP, 'target', 'bin', 'prog_merge_jobs')
LATE_LABELS = b'_asmpp_late_rodata_start', b'_asmpp_late_rodata_end'
SH_TYPE, SH_LINK, SH_INFO, SH_ENTSIZE = 1, 6, 7, 9


# ---------------------------------------------------------------- made objects

class Splice:
    """the parts of a job, each of which a variation may change"""

    def __init__(self, chance, blocks=2, late=True, every=False):
        fill = lambda n: bytes(chance.randrange(1, 128) for _ in range(n))  # noqa: E731
        self.c = {b'.text': fill(64), b'.data': fill(48), b'.rodata': b'', b'.bss': 32, b'.reginfo': fill(24)}
        self.a = {b'.text': fill(64), b'.data': fill(48), b'.rodata': fill(64), b'.bss': 32, b'.reginfo': fill(24), b'.late_rodata': b''}
        self.c_symbols, self.a_symbols, self.blocks = [], [], []
        rodata = fill(16)
        for i in range(blocks):
            block = dict(desc=b'routine %d' % i)
            for key, section, at, size in (('text', b'.text', 8 + 24 * i, 8), ('data', b'.data', 4 + 16 * i, 6), ('rodata', b'.rodata', 4 + 6 * i, 4), ('bss', b'.bss', 12 * i, 8)):
                if not every and not chance.randrange(4):
                    continue
                label = b'_asmpp_%s%d' % (key.encode(), i)
                block[key] = b'%s %d 0' % (label, size)
                self.c_symbols.append((label, section, at))
                self.a_symbols += [(label + b'_asm_start', section, at), (label + b'_asm_end', section, at + size)]
            if late:
                words = [0xE0123400 + 16 * i + k for k in range(chance.randrange(4))]
                block['dummies'] = [b'%08x' % w for w in words]
                block['jtbl'] = chance.choice((0, 0, 4, 8, 10)) if words else 0
                rodata += fill(chance.randrange(3))
                for k, w in enumerate(words):
                    rodata += struct.pack('>I', w) + (bytes(4) if k == 0 and chance.randrange(2) else b'') + fill(chance.randrange(3))
                # the table stands behind the last late word
                rodata += fill(block['jtbl'])
            self.blocks.append(block)
        self.c[b'.rodata'] = rodata + fill(5)
        need = sum(4 * len(b.get('dummies', ())) + b.get('jtbl', 0) for b in self.blocks)
        if need:
            self.a[b'.late_rodata'] = bytes(8) + fill(need + chance.randrange(3))
            self.a_symbols += [(LATE_LABELS[0], b'.late_rodata', 8), (LATE_LABELS[1], b'.late_rodata', 8 + need)]

    def job(self):
        file = b''.join(draft_jobs.block(**b) for b in self.blocks)
        return symbol_jobs.Job(symbol_jobs.made(self.c, self.c_symbols), symbol_jobs.made(self.a, self.a_symbols), file)


def set_symbol(symbols, which, **new):
    """that symbol with another value or section; nothing where it is not there"""
    for i, s in enumerate(symbols):
        if s[0] == which:
            symbols[i] = symbol_jobs.Sym(*s)._replace(**new)


def first_end(splice):
    return next((s for s in splice.a_symbols if s[0].endswith(b'_asm_end')), (b'', b'', 0))


# Each changes one thing; what comes of it is the model's to say.
VARIATIONS = [
    lambda s, r: None,
    lambda s, r: s.c.pop(r.choice(list(s.c))),
    lambda s, r: s.a.pop(r.choice(list(s.a))),
    lambda s, r: s.c.update({b'.text': s.c[b'.text'][:r.choice((12, 16, 36, 40))]}),
    lambda s, r: s.a.update({b'.text': s.a[b'.text'][:r.choice((12, 16, 36, 40))]}),
    lambda s, r: s.a.update({b'.data': s.a[b'.data'][:r.choice((9, 10, 25, 26))]}),
    lambda s, r: s.c.update({b'.rodata': s.c[b'.rodata'][:r.randrange(len(s.c[b'.rodata']))]}),
    lambda s, r: s.a.update({b'.rodata': s.a[b'.rodata'][:r.choice((7, 8, 13, 14))]}),
    lambda s, r: set_symbol(s.c_symbols, b'_asmpp_text0', value=r.choice((6, 10, 9))),
    lambda s, r: set_symbol(s.a_symbols, first_end(s)[0], value=first_end(s)[2] + r.choice((-1, 1))),
    lambda s, r: set_symbol(s.a_symbols, first_end(s)[0], section=b'.rodata' if first_end(s)[1] != b'.rodata' else b'.text'),
    lambda s, r: set_symbol(s.a_symbols, first_end(s)[0], name=b'other'),
    lambda s, r: s.a_symbols.insert(0, (first_end(s)[0], b'.text', 60)),
    lambda s, r: set_symbol(s.a_symbols, b'_asmpp_data1_asm_start', value=3),
    lambda s, r: set_symbol(s.a_symbols, LATE_LABELS[r.randrange(2)], value=r.choice((0, 4, 9, 40))),
    lambda s, r: set_symbol(s.a_symbols, LATE_LABELS[r.randrange(2)], section=b'.text'),
    lambda s, r: set_symbol(s.a_symbols, LATE_LABELS[r.randrange(2)], name=b'elsewhere'),
    lambda s, r: s.a.update({b'.late_rodata': s.a[b'.late_rodata'][:-r.randrange(1, 5)]}),
    lambda s, r: s.blocks[-1].update(dummies=[b'e0999999']),
    lambda s, r: s.blocks[0].update(jtbl=r.choice((4, 1000)), dummies=[]),
    lambda s, r: s.c_symbols.pop(0) if s.c_symbols else None,
    lambda s, r: s.a.update({b'.reginfo': s.a.get(b'.reginfo', b'')[:r.choice((0, 8, 20))]}),
    lambda s, r: s.c.update({b'.reginfo': s.c.get(b'.reginfo', b'')[:r.choice((0, 8, 20))]}),
    lambda s, r: s.a.update({b'.reginfo': s.a.get(b'.reginfo', b'') + bytes(range(1, 9))}),
    lambda s, r: s.c.pop(b'.reginfo', None),
    lambda s, r: s.blocks.clear(),
]


def made_jobs(seed, count):
    chance = random.Random(seed)
    for n in range(count):
        splice = Splice(chance, blocks=1 + n % 3, late=n % 5 != 4)
        VARIATIONS[n % len(VARIATIONS)](splice, chance)
        yield splice.job()


def damaged_jobs(count, seed):
    """bytes changed anywhere in a job"""
    chance = random.Random(seed)
    for _ in range(count):
        job = [bytearray(x) for x in Splice(chance).job()[:3]]
        for _ in range(chance.randrange(1, 3)):
            part = chance.choice(job)
            part[chance.randrange(len(part))] ^= 1 << chance.randrange(8)
        yield symbol_jobs.Job(*map(bytes, job))


def laid_out_jobs(count, seed):
    """C laid out in every way: alignments, a debug section that moves or not, sections in one another, headers in front; A brings tables, some of them new"""
    chance = random.Random(seed)
    for n in range(count):
        c = write_jobs.KINDS[n % len(write_jobs.KINDS)](chance)
        has = [name for name in (b'.text', b'.data', b'.rodata') if b'\0' + name + b'\0' in c and chance.randrange(3)]
        tables = [(chance.choice((b'.rel', b'.rela')) + name, [chance.randrange(1, 3) for _ in range(chance.randrange(3))]) for name in has]
        a = {b'.reginfo': chance.randbytes(24), **{name: chance.randbytes(8) for name in has}, **{name: symbol_jobs.table_of(name, used) for name, used in tables}}
        assembled = symbol_jobs.made(a, [symbol_jobs.Sym(b'bc', has[0] if has else 0, 4), symbol_jobs.Sym(b'd', 0)])
        yield symbol_jobs.Job(c, assembled, b'', chance.choice((b'c.o', b'src/c.o')), chance.randrange(4), flag=chance.randrange(2))


# ---------------------------------------------------------------- jobs at a limit

def whole():
    """a splice with every line and late words"""
    return Splice(random.Random(3), every=True)


def length_jobs():
    """refusals 1 and 21: lengths at what is asked for and one below or above it"""
    for job in (Splice(random.Random(3), blocks=1, late=False).job(), whole().job()):
        size = len(expected(job)[1])
        for room in (0, size - 1, size, size + 1):
            yield job._replace(room=room)
    for k, least in enumerate(symbol_jobs.BUFFERS):
        for length in (0, least - 1):
            yield job._replace(buffers=symbol_jobs.BUFFERS[:k] + (length,) + symbol_jobs.BUFFERS[k + 1:])
    # Without a path the zeros at the end of a file are not stored.
    job = job._replace(path=b'')
    for length in (model.FILE_LIMIT, model.FILE_LIMIT + 1):
        yield job._replace(compiled=job.compiled.ljust(length, b'\0'), assembled=b'', file=b'')
        yield job._replace(assembled=job.assembled.ljust(length, b'\0'), file=b'')
        yield job._replace(file=job.file.ljust(length, b'\0'))
    yield symbol_jobs.Job(b'', b'', b'x', room=0, buffers=(0, 0, 0, 0))     # 1 before all others
    splice = whole()
    splice.c[b'.rodata'] = bytes(99)
    yield splice.job()._replace(room=0)                             # 14 before 21


def header_jobs():
    """refusal 2: each field of C's file header and of A's, and files that are too short"""
    c, a, file = whole().job()[:3]
    for at, new in [(at, bytes([c[at] ^ 1])) for at in (0, 1, 2, 3, 4, 5, 17, 19, 31, 46)] + [(32, bytes(4)), (50, bytes(2))]:
        yield model.splice(c, at, new), a, file
        yield c, model.splice(a, at, new), file
    for length in (0, 51):
        yield c[:length], a, file
        yield c, a[:length], file
    yield model.splice(c, 5, b'\1'), a[:3], file                    # C before A


def table_jobs():
    """refusal 6: each field of a relocation table of C and of A"""
    splice = whole()
    for sections in (splice.c, splice.a):
        sections.update({b'.rel.text': bytes(16), b'.rel.data': bytes(8)})
    c, a, file = splice.job()[:3]
    yield c, a, file

    def wrong(b, sections, table, field, value):
        return model.splice(b, model.be32(b, 32) + 40 * (list(sections).index(table) + 1) + 4 * field, struct.pack('>I', value))
    for table, field, value in ((b'.rel.text', SH_ENTSIZE, 4), (b'.rel.data', SH_ENTSIZE, 4), (b'.rel.text', SH_TYPE, 4), (b'.rel.data', SH_LINK, 0), (b'.rel.text', SH_INFO, 99)):
        yield wrong(c, splice.c, table, field, value), a, file
        yield c, wrong(a, splice.a, table, field, value), file
    yield wrong(c, splice.c, b'.rel.data', SH_LINK, 0), wrong(a, splice.a, b'.rel.text', SH_LINK, 0), file
    # the first section that is not there, and the last that is
    for value in (len(splice.a) + 4, len(splice.a) + 3):
        yield c, wrong(a, splice.a, b'.rel.text', SH_INFO, value), file


def place_jobs():
    """refusals 8 and 9: sizes, places and alignments of each line of each block"""
    def changed(*lines):
        splice = whole()
        for k, key, size, align8 in lines:
            label, old, _ = splice.blocks[k][key].split(b' ')
            splice.blocks[k][key] = b'%s %d %d' % (label, int(old) if size is None else size, align8)
        return splice
    for k in (0, 1):
        for key in draft_jobs.FOUR:
            yield changed((k, key, 0, 0)).job()
            for align8 in (4, 8):
                yield changed((k, key, None, align8)).job()
    for key, end in (('text', 16), ('data', 10), ('rodata', 8), ('bss', 8)):
        for value in (end - 1, end):
            splice = whole()
            set_symbol(splice.c_symbols, b'_asmpp_%s1' % key.encode(), value=value)
            yield splice.job()
    for size in (0, None):                                          # a label that is not there, of size 0 and before one of size 0
        splice = changed((1, 'text', size, 0), (1, 'bss', 0, 0))
        set_symbol(splice.c_symbols, b'_asmpp_text1', name=b'other')
        yield splice.job()
    yield changed((0, 'data', None, 8), (1, 'text', 0, 0)).job()    # 9 in block 0 before 8 in block 1
    yield changed((0, 'text', 0, 4), (0, 'data', None, 8)).job()    # 8 before 9 in a line
    yield changed((1, 'bss', 0, 0)).job()._replace(assembled=b'')   # 8 before A's 2


def limit_jobs():
    return [symbol_jobs.Job(*job) for job in (*length_jobs(), *header_jobs(), *table_jobs(), *place_jobs())]


# ---------------------------------------------------------------- real jobs

def late_blocks(blocks):
    """the block file with two late words and a table for the dummies that the source `constants` has, without its .rodata block behind them"""
    blocks = blocks[:blocks.index(b'desc=half\n')] if b'desc=half\n' in blocks else blocks
    return blocks.replace(b'jtbl=0\n', b'dummy=e0123456\ndummy=e0123457\njtbl=4\n', 1).replace(b'end=\n', b'late=.word 1, 2\nlate=.word 3\nend=\n', 1)


def in_modes(compiled, assembled, file, path=b'c.o'):
    """a real job in each mode where C has statics, else in mode 0"""
    has = model.first_named(model.named_sections(compiled), b'.mdebug') is not None
    return [symbol_jobs.Job(compiled, assembled, file, path, mode) for mode in (range(4) if has else (0,))]


def compiled_splices():
    """C compiled from each source with each set of options, and the model's draft assembled"""
    with tempfile.TemporaryDirectory() as d:
        for source in real_jobs.SOURCES:
            for options in real_jobs.OPTIONS:
                with open(os.path.join(d, 'c.c'), 'w') as f:
                    f.write(real_jobs.SOURCES[source])
                subprocess.run(['mips-linux-gnu-gcc', *options, '-Wa,-mno-pdr', '-fdebug-prefix-map=' + d + '=', '-fno-toplevel-reorder', '-c', 'c.c', '-o', 'c.o'], check=True, cwd=d)
                with open(os.path.join(d, 'c.o'), 'rb') as f:
                    compiled = f.read()
                blocks, _ = real_jobs.blocks_of(compiled)
                for file in (blocks, late_blocks(blocks)) if source == 'constants' else (blocks,):
                    with open(os.path.join(d, 'a.s'), 'wb') as f:
                        f.write(model.draft(compiled, real_jobs.PRELUDE, file)[1])
                    machine = [x for x in options if x.startswith(('-mabi', '-mips'))]
                    subprocess.run(['mips-linux-gnu-as', '-EB', '-mno-pdr', *machine, 'a.s', '-o', 'a.o'], check=True, cwd=d)
                    with open(os.path.join(d, 'a.o'), 'rb') as f:
                        yield from in_modes(compiled, f.read(), file)


def stored_cases():
    """(name, C, A, block file, path, mode) of each job of CASES"""
    with tarfile.open(CASES) as tar:
        held = {m.name: tar.extractfile(m).read() for m in tar if m.isfile()}
    for folder in sorted(os.path.dirname(name) for name in held if name.endswith('/a.o')):
        path, _, mode = held[folder + '/settings'].split(b'\n')[:3]
        yield os.path.basename(folder), held[folder + '/c.o'], held[folder + '/a.o'], held[folder + '/blocks'], path, int(mode)


def debug_splices():
    """a stored job whose C has a .mdebug from gas, in each mode"""
    for name, compiled, assembled, file, path, _ in stored_cases():
        if name == 'mdebug_01':
            yield from in_modes(compiled, assembled, file, path)


def recorded():
    """the jobs of the recorded list"""
    with open(os.path.join(FOLDER, 'data', 'jobs'), 'rb') as f:
        data = f.read()
    while data:
        *lengths, stored, mode, room = struct.unpack('>7I', data[:28])
        flag, = struct.unpack('>I', data[44:48])
        held, data = data[48:48 + stored].ljust(sum(lengths), b'\0'), data[48:]
        parts = [held[sum(lengths[:k]):sum(lengths[:k + 1])] for k in range(4)]
        yield symbol_jobs.Job(*parts, mode, room, flag=flag)
        data = data[stored:]


def real_splices():
    """real jobs, made anew or those of the recorded list, which are known by a section that the toolchain adds; those with a .mdebug last"""
    old = [job for job in recorded() if b'\0.gnu.attributes\0' in job.compiled]
    has_debug = lambda job: b'\0.mdebug\0' in job.compiled  # noqa: E731
    plain = compiled_splices() if shutil.which('mips-linux-gnu-gcc') else [job for job in old if not has_debug(job)]
    return [*plain, *(debug_splices() if os.path.exists(CASES) else [job for job in old if has_debug(job)])]


# ---------------------------------------------------------------- what is expected

def expected(job):
    """the model's refusal, or the merged object"""
    if any(n < least for n, least in zip(job.buffers, symbol_jobs.BUFFERS)):
        return 'refused', 1, 0, 0
    return model.merge(*job[:4], job.flag, job.mode, job.room)


def demanded(job, merged):
    """whether a merged object fulfils demand 3: in it no reference is lost, doubled or redirected"""
    try:
        demand3.check(*job[:4], job.flag, job.mode, merged)
        return True
    except AssertionError:
        return False


def packed(job):
    """a job in the list; zeros at the end of its files are left out"""
    files = job[:4]
    stored = b''.join(files).rstrip(b'\0')
    return struct.pack('>12I', *map(len, files), len(stored), job.mode, job.room, *job.buffers, job.flag) + stored


def written(k, got):
    """what the program prints for job k"""
    return b'job %d ' % k + (b'accepted %d\n' % len(got[1]) + got[1] + b'\n' if got[0] == 'ok' else b'refused %d %d %d\n' % got[1:])


# ---------------------------------------------------------------- beside the Rust

class Rust:
    """the oracle, asked for one merge after another"""

    def __init__(self):
        if not os.path.exists(real_jobs.ORACLE):
            sys.exit(f'{real_jobs.ORACLE} is not there: cargo build --release in oracle/')
        self.process = subprocess.Popen([real_jobs.ORACLE, 'serve'], stdin=subprocess.PIPE, stdout=subprocess.PIPE)

    def ask(self, compiled, assembled, file, path=b'c.o', mode=0, flag=0):
        """0 and the merged object; 1 and why the Rust refuses; 2 where the oracle gives no verdict"""
        fields = (compiled, assembled, b'', file, path)
        self.process.stdin.write(b'\x01' + b''.join(struct.pack('>I', len(x)) + x for x in fields) + bytes([flag, mode]))
        self.process.stdin.flush()
        kind, length = struct.unpack('>BI', self.process.stdout.read(5))
        return kind, self.process.stdout.read(length)

    def merged(self, *job):
        """the merged object; nothing where the Rust has none"""
        kind, answer = self.ask(*job)
        return model.read_object(answer) if kind == 0 else None


def header_rows(b, number, place):
    """rows of docs/DIFFERENCES.md about an object's header and sections, and whether it meets them"""
    if number == 2:
        yield 'EI_DATA 1 (little-endian)', place == 5 and b[5] == 1
        yield 'e_shentsize other than 40', place == 46 and model.be16(b, 46) > 40
    if number == 3 and place == 0:
        yield 'e_shnum 0', model.be16(b, 48) == 0
        yield 'more than 128 sections', model.be16(b, 48) > model.SECTION_LIMIT
    if number == 3 and model.header_inside(b, place):
        s = model.section_header(b, place)
        yield 'section 0 of another type or with a size; a later section of type 0', (s.sh_type != 0 or s.sh_size != 0) if place == 0 else s.sh_type == 0
        yield 'sh_addralign over 65,536', s.sh_addralign > model.ALIGN_LIMIT
        yield '.text, .data, .rodata, .late_rodata, .bss or .reginfo of another type', not model.faults_3(b) and place in model.faults_3_by_name(b)


def table_rows(b, number, place):
    """the same about its symbol table and its relocation tables"""
    sections = model.named_sections(b)
    if number == 5 and model.symtab_index(sections) is not None:
        t = sections[model.symtab_index(sections)]
        yield 'no entries in the symbol table, or more than 4,096', place == 0 and not 1 <= t.sh_size // 16 <= model.SYMBOL_LIMIT
        yield 'symbol 0 not all zeros, or with a name', place == 0 and model.symtab_ok(sections)
        yield "a symbol's section index from the count to FEFF hex", place > 0 and len(sections) <= model.be16(t.data, 16 * place + 14) < model.SHN_LORESERVE
    if number == 6:
        t = sections[place]
        size = model.ENTRY[t.sh_type]
        yield 'relocations longer than 8 bytes (REL) or 12 (RELA), or of another size in an empty table', t.sh_entsize > size or t.sh_entsize != size and t.sh_size == 0
        yield 'a relocation table whose sh_link is not the symbol table', t.sh_link != model.symtab_index(sections)


def clash_rows(job, place):
    """the same about tables and dropped sections: refusal 10"""
    c = model.read_object(job.compiled)
    stay = model.dropped_from(c.sections, job.flag)
    s = c.sections[place]
    four = [model.find(c, code) for code in model.BLOCK_CODES]
    yield "a relocation table of C with entries for another section than its first .text, .data, .rodata or .bss", model.is_table(s) and s.sh_size > 0 and s.sh_info not in four
    yield 'a symbol or a relocation table of C that refers to a dropped section', place >= stay or model.is_table(s) and s.sh_info >= stay
    yield "A's relocations join a table of C of another type or for another section", s.name.startswith(b'.rel')


def symbol_rows(job, number, place):
    """the same about A's symbols and C's statics"""
    if number == 15:
        a = model.read_object(job.assembled)
        y = a.symbols[place]
        second = model.placed(y) and y.st_shndx < len(a.sections) and a.sections[y.st_shndx].name in [model.NAME[code] for code in model.SOURCE_CODES]
        yield 'a symbol of A that is taken over, in a second section of one of the five names', second and model.code_of(a, y.st_shndx) is None
    if number == 17:
        yield 'a static whose name is over 1,024 bytes, or more than 4,096 statics', over_limits(job.compiled)


def over_limits(compiled):
    """whether the walk over C's statics is refused for its limits alone"""
    c, held = model.read_object(compiled), (model.STATIC_LIMIT, model.STATIC_NAME_LIMIT)
    debug = c.sections[model.first_named(c.sections, b'.mdebug')].data
    model.STATIC_LIMIT = model.STATIC_NAME_LIMIT = len(compiled) + (1 << 20)
    try:
        return model.walk_statics(c, debug)[0] is None
    finally:
        model.STATIC_LIMIT, model.STATIC_NAME_LIMIT = held


def row_of(job, number, who, place):
    """the row of docs/DIFFERENCES.md that a refused job meets; nothing where it meets none"""
    b = job.assembled if who == model.OBJ_A else job.compiled
    if number == 7:
        return 'a bad block file, which is not asked of the Rust'
    if number == 10:
        return next((name for name, met in clash_rows(job, place) if met), None)
    rows = header_rows(b, number, place) if number < 5 else table_rows(b, number, place) if number < 7 else symbol_rows(job, number, place)
    return next((name for name, met in rows if met), None)


def not_for_rust(job):
    """why the Rust, or the oracle, cannot have a job: its path names no file or has a stem of over 239 bytes, or a label has bytes over 127; nothing where it can"""
    stem = os.path.splitext(os.path.basename(job.path))[0]
    if job.path.startswith(b'/') or stem in (b'', b'.', b'..') or len(stem) > 239:
        return 'a path that the Rust cannot have'
    return 'bytes over 127 in a block file' if max(job.file, default=0) > 127 else None


class Beside:
    """answers held against the Rust's, and how many there are of each kind"""

    def __init__(self):
        self.rust, self.counts, self.wrong = Rust(), {}, 0

    def hold_refusal(self, job, got, kind):
        """how the Rust's answer to a refused job stands to the refusal, and whether that is on the list"""
        if kind != 0:
            return 'refused by both' if kind == 1 else 'refused here, without a verdict', True
        row = row_of(job, *got[1:])
        return f'refused here, merged by the Rust: {row}', row is not None

    def hold_result(self, job, got, kind, answer):
        """how the Rust's answer to an accepted job stands to the result, and whether that is on the list"""
        if kind == 0:
            return ('merged alike', True) if answer == got[1] else ('merged otherwise by the Rust', False)
        why = not_for_rust(job)
        return f'accepted here, left out: {why}', why is not None

    def hold(self, name, job, got):
        """counts a job; prints it where the Rust differs for a reason on no list, or the merged object does not fulfil demand 3"""
        if got[0] == 'ok' and not demanded(job, got[1]):
            self.wrong += 1
            print(f'{name}: the merged object does not fulfil demand 3')
        if got[:2] in (('refused', 1), ('refused', 21)):
            return
        kind, answer = self.rust.ask(*job[:5], job.flag)
        words, listed = self.hold_result(job, got, kind, answer) if got[0] == 'ok' else self.hold_refusal(job, got, kind)
        self.counts[words] = self.counts.get(words, 0) + 1
        if not listed:
            self.wrong += 1
            print(f'{name}: the model has {got!r}; {words}: not on the list')

    def print(self):
        print('beside the Rust: ' + '; '.join(f'{n} {words}' for words, n in sorted(self.counts.items(), key=lambda x: -x[1])) + f'; {self.wrong} on no list')


def other_jobs(seed, count):
    """made and damaged jobs that are not on the list"""
    n = count // 7
    return [*made_jobs(seed, n), *damaged_jobs(n, seed + 1), *symbol_jobs.tangled_jobs(n, seed + 2, 9), *symbol_jobs.damaged_tables(n, seed + 3),
            *carry_jobs.made_jobs(seed + 4, n), *laid_out_jobs(n, seed + 6), *carry_jobs.damaged_jobs(count - 6 * n, seed + 5)]


def compare(seed, count):
    """holds the program's answers to other jobs against the model's, those against the Rust's, and each merged object against demand 3; whether something differs"""
    jobs = other_jobs(seed, count)
    with tempfile.NamedTemporaryFile() as f:
        f.write(b''.join(map(packed, jobs)))
        f.flush()
        out = subprocess.run([PROGRAM, f.name], stdout=subprocess.PIPE, check=True).stdout
    beside, at, accepted = Beside(), 0, 0
    for k, job in enumerate(jobs):
        got = expected(job)
        line = written(k, got)
        if out[at:at + len(line)] != line:
            sys.exit(f'job {k} of seed {seed}: the model has {line[:200]!r}, the program {out[at:at + 200]!r}')
        at += len(line)
        accepted += got[0] == 'ok'
        beside.hold(f'job {k} of seed {seed}', job, got)
    if out[at:] != b'job %d is not there\n' % len(jobs):
        sys.exit(f'behind the last job of seed {seed} the program prints {out[at:at + 200]!r}')
    print(f'{len(jobs)} jobs: {len(jobs) - accepted} refusals and {accepted} merged objects as the model has them')
    beside.print()
    return beside.wrong != 0 or 'merged alike' not in beside.counts


def number_of(got):
    """the number of a refusal, 0 for a result"""
    return 0 if got[0] == 'ok' else got[1]


def some(jobs, each, most=1250):
    """the first of some jobs that take few bytes in the list: that many of each number"""
    held = {}
    for job in jobs:
        same = held.setdefault(number_of(expected(job)), [])
        if len(same) < each and len(packed(job)) <= most:
            same.append(job)
    return [job for number in sorted(held) for job in held[number]]


def listed_jobs():
    """the jobs of the recorded list"""
    tangled, damaged = symbol_jobs.tangled_jobs(400, 5), symbol_jobs.damaged_tables(400, 6)
    return [*made_jobs(1, 5 * len(VARIATIONS)), *damaged_jobs(60, 2), *real_splices(), *limit_jobs(), *symbol_jobs.aimed_jobs(), *some(tangled, 3), *some(damaged, 2),
            *carry_jobs.made_jobs(7, 3 * len(carry_jobs.VARIATIONS)), *laid_out_jobs(8 * len(write_jobs.KINDS), 8)]


def main():
    if len(sys.argv) == 3:
        sys.exit(compare(int(sys.argv[1]), int(sys.argv[2])))
    jobs, beside = listed_jobs(), Beside() if os.path.exists(real_jobs.ORACLE) else None
    data, out, numbers = b'', b'', {}
    for k, job in enumerate(jobs):
        got = expected(job)
        data, out = data + packed(job), out + written(k, got)
        numbers[number_of(got)] = numbers.get(number_of(got), 0) + 1
        if beside:
            beside.hold(f'job {k}', job, got)
    out += b'job %d is not there\n' % len(jobs)
    os.makedirs(os.path.join(FOLDER, 'data'), exist_ok=True)
    for name, content in (('data/jobs', data), ('args', b'jobs\n'), ('stdout', out)):
        with open(os.path.join(FOLDER, name), 'wb') as f:
            f.write(content)
    print(f'{len(jobs)} jobs, {len(data)} bytes: ' + ', '.join(f'{n} refused by {k}' if k else f'{n} accepted' for k, n in sorted(numbers.items())))
    if beside:
        beside.print()


if __name__ == '__main__':
    main()
