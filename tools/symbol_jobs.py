"""Jobs of the merge in which symbols are the point, for tools/merge_jobs.py: made objects with symbol tables, relocation tables of A, glabels, late symbols and statics.

Each changes one thing or is random; what comes of it is the model's to say.
"""
import os
import random
import struct
import sys
from typing import NamedTuple

TOP = os.path.dirname(os.path.dirname(os.path.abspath(__file__)))
sys.path.insert(0, os.path.join(TOP, 'tools'))
sys.path.insert(0, os.environ.get('MODEL', os.path.join(TOP, '..', 'shared', 'model')))
import check_objects, draft_jobs, model, statics_jobs  # noqa: E402

KINDS = {b'.bss': 8, b'.reginfo': 0x70000006, b'.mdebug': 0x70000005, b'.shstrtab': 3, b'.symtab': 2, b'.strtab': 3}
ROOM = 1310720                                  # the program's output, where a job does not say less
BUFFERS = 147456, 57344, 328511, 57344          # docs/SIZES.md: the working buffers of a merge
LATE_LABELS = b'_asmpp_late_rodata_start', b'_asmpp_late_rodata_end'
ABSOLUTE, COMMON = 0xFFF1, 0xFFF2
SH_INFO = 7


class Job(NamedTuple):
    """what the program gets"""
    compiled: bytes
    assembled: bytes
    file: bytes
    path: bytes = b'c.o'
    mode: int = 0
    room: int = ROOM
    buffers: tuple = BUFFERS
    flag: int = 0


class Sym(NamedTuple):
    """a symbol of a made object; its section is a name, or an index"""
    name: bytes
    section: object = b'.text'
    value: int = 0
    bind: int = 1
    kind: int = 0
    size: int = 0
    other: int = 0

    def entry(self, at, names):
        """its 16 bytes, where its name stands at `at` and the object has sections of these names"""
        index = self.section
        if not isinstance(index, int):
            index = names.index(index) + 1 if index in names else 0
        return struct.pack('>IIIBBH', at, self.value, self.size, 16 * self.bind + self.kind, self.other, index)


def kind_of(name):
    """the type of a section"""
    tables = model.SHT_RELA if name.startswith(b'.rela.') else model.SHT_REL if name.startswith(b'.rel.') else model.SHT_PROGBITS
    return KINDS.get(name, tables)


def made(sections, symbols, info=1, tail=None):
    """an object of sections (name: bytes, a size for .bss, or what makes bytes of an offset), symbols (fields of a Sym) and the symbol table's sh_info; those of the tail
    stand behind the string tables"""
    names, tail = list(sections), tail or {}
    every = names + [b'.shstrtab', b'.symtab', b'.strtab', *tail]
    strings, entries = b'\0', b'\0' * 16
    for y in (Sym(*s) for s in symbols):
        entries += y.entry(len(strings), every)
        strings += y.name + b'\0'
    table = b'\0' + b''.join(n + b'\0' for n in every)
    body, heads = b'', [check_objects.section_header(kind=0)]
    for name, data in [*sections.items(), (b'.shstrtab', table), (b'.symtab', entries), (b'.strtab', strings), *tail.items()]:
        kind = kind_of(name)
        data = data(52 + len(body)) if callable(data) else data
        more = dict(link=len(names) + 3, info=info, entsize=16) if kind == 2 else {}
        if kind in model.ENTRY:
            more = dict(link=len(names) + 2, info=every.index(name[name.index(b'.', 1):]) + 1, entsize=model.ENTRY[kind])
        size = data if kind == 8 else len(data)
        heads.append(check_objects.section_header(table.index(b'\0' + name + b'\0') + 1, kind, 3, 0, 52 + len(body), size, align=4, **more))
        body += b'' if kind == 8 else data
    body += bytes(-len(body) % 4)
    head = b'\x7fELF' + bytes([1, 2, 1]) + bytes(9) + struct.pack('>HHIIIIIHHHHHH', 1, 8, 1, 0, 0, 52 + len(body), 0, 52, 0, 0, 40, len(heads), len(names) + 1)
    return head + body + b''.join(heads)


def table_of(name, symbols):
    """a relocation table that uses those symbols, of the type that its name says"""
    return b''.join(struct.pack('>II', 4 * i, 256 * k + 5) + (bytes(4) if kind_of(name) == model.SHT_RELA else b'') for i, k in enumerate(symbols))


def changed(b, section, at, new):
    """an object with other bytes in a section"""
    return model.splice(b, model.read_object(b).sections[section].sh_offset + at, new)


# ---------------------------------------------------------------- small objects

PLAIN = {b'.text': b'text', b'.data': b'data'}
LATE_RODATA = bytes.fromhex('e0123456e0123457') + bytes(8)
FOUR = {**PLAIN, b'.rodata': b'read', b'.bss': 4}


def named_by(symbols, used=()):
    """the sections of PLAIN that symbols or relocation tables name"""
    names = {Sym(*s).section for s in symbols} | {name[name.index(b'.', 1):] for name in used}
    return {name: data for name, data in PLAIN.items() if name in names}


def pair(c=(), a=(), used=None, info=1, file=b'', c_has=None, a_has=None, **more):
    """a job of two small objects with those symbols; A has those relocation tables, each the symbols that it uses, and that sh_info"""
    used = used or {}
    a_has = named_by(a, used) if a_has is None else a_has
    c_has = named_by([*c, *a], used) if c_has is None else c_has
    tables = {name: table_of(name, symbols) for name, symbols in used.items()}
    return Job(made(c_has, c), made({**a_has, **tables}, a, info), file, **more)


def with_statics(entries, c=(), a=(), level=1, strings=b'n\0m\0', c_has=PLAIN, mode=2, **more):
    """a job whose C has a file of those debug entries at that level; above 1 their names are counted"""
    files = [[statics_jobs.entry(statics_jobs.FILE)] * level + list(entries) + [statics_jobs.entry(statics_jobs.END)] * level]
    return pair(c, a, c_has={**c_has, b'.mdebug': lambda at: statics_jobs.debug_section(at, files, strings)}, mode=mode, **more)


def with_late(a=(), used=None, start=8, info=1, text=b'', **more):
    """a job of two late words and a table of two words; A's late span starts at `start`"""
    file = draft_jobs.block(desc=b'late', text=text, dummies=[b'e0123456', b'e0123457'], jtbl=8)
    labels = [Sym(LATE_LABELS[0], b'.late_rodata', start), Sym(LATE_LABELS[1], b'.late_rodata', start + 16)]
    a_has = {**({b'.text': b''} if used else {}), b'.late_rodata': bytes(start) + bytes(range(1, 17))}
    return pair((), [*a, *labels], used, info, file, {b'.rodata': LATE_RODATA}, a_has, **more)


def with_blocks(lines, c=(), a=()):
    """a job of blocks, each the fields of draft_jobs.block; each has four bytes of .text where its label is t0, t1, .."""
    labels = [b'_asmpp_t%d' % i for i in range(4)]
    file = b''.join(draft_jobs.block(desc=b'block', **line) for line in lines)
    spans = [(label, 4 * i) for i, label in enumerate(labels) if label in file]
    ends = [Sym(label + end, b'.text', at + by) for label, at in spans for end, by in ((b'_asm_start', 0), (b'_asm_end', 4))]
    has = {**PLAIN, b'.text': bytes(range(1, 17))}
    return pair([*(Sym(label, b'.text', at) for label, at in spans), *c], [*a, *ends], file=file, c_has=has, a_has=has)


# ---------------------------------------------------------------- aimed jobs

def jobs_15():
    """a symbol of A that has no home, and a relocated name that begins _asmpp_"""
    for code in model.SOURCE_CODES:                                 # A's sections hold no bytes: C may lack the target
        home, target = model.NAME[code], model.NAME[model.target_code(code)]
        has = {home: 0 if code == model.BSS else b''}
        for c_has in ({}, {target: 4 if code == model.BSS else b'1234'}):
            yield pair(a=[Sym(b'f', home, 4)], c_has=c_has, a_has=has)
        for used in ({}, {b'.rel' + home: [1]}):                    # a local that nothing uses is not taken over
            yield pair(a=[Sym(b'f', home, 4, 0)], used=used, info=2, c_has={}, a_has=has)
        yield pair(a=[Sym(b'_asmpp_f', 0)], used={b'.rel' + home: [1]}, c_has={}, a_has=has)
    for index in (COMMON, 0xFF00, 0xFFFE, 0xFFF0, ABSOLUTE, 0, 1, 3, 5):    # 3 and 5: .shstrtab and .strtab
        yield pair(a=[Sym(b'g'), Sym(b'f', index, 4)], c_has=PLAIN, a_has=PLAIN)
    yield pair(c=[Sym(b'f', COMMON, 4)], a=[Sym(b'f', 0)])          # C may have a common one
    for symbol in (Sym(b'_asmpp_', 0), Sym(b'_asmpp_f', ABSOLUTE), Sym(b'_asmpp_f', bind=0), Sym(b'_asmpp', 0), Sym(b'x_asmpp_', 0)):
        yield pair(a=[symbol], used={b'.rela.text': [1]}, info=2)
        yield pair(a=[symbol], info=1)
    yield pair(a=[Sym(b'_asmpp_f', COMMON)])
    yield pair(a=[Sym(b'l', bind=0), Sym(b'm', bind=0), Sym(b'_asmpp_f')], used={b'.rel.text': [1, 1], b'.rela.text': [1, 2]}, info=3)
    yield pair(a=[Sym(b'l', bind=0), Sym(b'_asmpp_f')], used={b'.rel.text': [], b'.rela.text': [1, 2]}, info=2)
    yield pair(a=[Sym(b'_asmpp_f')], used={b'.rel.strange': [1]}, a_has={b'.text': b'', b'.strange': b'1234'})
    yield pair(a=[Sym(b'f', COMMON), Sym(b'_asmpp_f')], used={b'.rel.text': [2]})
    yield pair(a=[Sym(b'_asmpp_f'), Sym(b'f', COMMON)], used={b'.rel.data': [2, 1]})
    # The symbol stands in A's second .text.
    job = pair(a=[Sym(b'f', b'.tex2', 4)], c_has=PLAIN, a_has={**PLAIN, b'.tex2': b'1234'})
    yield job._replace(assembled=job.assembled.replace(b'.tex2\0', b'.text\0'))
    yield with_late([Sym(b'f', b'.late_rodata', 2), Sym(b'g', COMMON)])                         # 15 before 16
    yield with_late([Sym(b'g', COMMON)])._replace(compiled=made({b'.rodata': bytes(16)}, ()))   # 14 before 15
    yield with_statics([statics_jobs.entry(statics_jobs.STATIC, 9)], a=[Sym(b'', 0, bind=0), Sym(b'g', COMMON)])    # 15 before 17 and 18


def jobs_16():
    """late symbols of each value, moved and not moved"""
    for value in (0, 7, 8, 9, 12, 16, 18, 20, 23, 24):
        yield with_late([Sym(b'f', b'.late_rodata', value)])
    for info, used in ((1, None), (2, None), (2, {b'.rel.text': [1]}), (2, {b'.rel.late_rodata': [1]})):
        yield with_late([Sym(b'', b'.late_rodata', 0, 0, 3)], used, info=info)
    yield with_late([Sym(b'f', b'.late_rodata', 0)], start=0)       # 0 is moved, and refused all the same
    yield with_late([Sym(b'l', b'.late_rodata', 0, 0)], {b'.rel.text': [1]}, 0, 2)
    yield with_late([Sym(b'f', b'.late_rodata', 4)], start=0)
    yield with_late([Sym(b'f', b'.late_rodata', 8)], text=b'absent 4 0')    # the late step does not run
    yield pair(a=[Sym(b'f', b'.late_rodata', 8)], c_has=FOUR, a_has={b'.late_rodata': bytes(12)})
    yield with_late([Sym(b'a', b'.late_rodata', 12), Sym(b'b', b'.late_rodata', 1), Sym(b'c', b'.late_rodata', 0)])
    for value in (1, 12):                                           # 16 before 17
        yield with_late([Sym(b'f', b'.late_rodata', value)], mode=1)._replace(compiled=made({b'.rodata': LATE_RODATA, b'.mdebug': b''}, ()))


def jobs_17():
    """a walk over statics that fails at each kind of place, in each mode"""
    n, bad = statics_jobs.entry(statics_jobs.STATIC, statics_jobs.DATA, 0, 4), statics_jobs.entry(statics_jobs.STATIC, 9)
    for mode in (0, 1, 2, 3):
        yield with_statics([n, n, bad], mode=mode, level=2)
        yield with_statics([n, statics_jobs.entry(statics_jobs.END)], mode=mode)
        for size in (0, 79, 80):
            yield pair(c_has={**PLAIN, b'.mdebug': bytes(size)}, mode=mode, path=b'x.c')
    yield with_statics([statics_jobs.entry(statics_jobs.STATIC, statics_jobs.DATA, 1 << 30)])
    for storage, name in ((1, b'.text'), (2, b'.data'), (3, b'.bss'), (15, b'.rodata')):
        yield with_statics([statics_jobs.entry(statics_jobs.STATIC, storage)], c_has={k: v for k, v in FOUR.items() if k != name})
    for length in (1024, 1025):
        yield with_statics([n], strings=b'x' * length + b'\0')
    for mode in (1, 2, 3):                                          # a static of each section, and a static procedure
        each = [statics_jobs.entry(statics_jobs.STATIC, k, 2 * (k % 3), 8 * k) for k in (1, 2, 3, 15)]
        each += [statics_jobs.entry(statics_jobs.STATIC_PROC, 1, 2, 24), statics_jobs.entry(statics_jobs.END)]
        yield with_statics(each, c_has=FOUR, mode=mode, strings=b'a\0b\0c\0d\0', level=2)
    yield with_statics([bad], c=[Sym(b'f', 0, bind=0)])             # 17 before 18
    yield with_statics([bad], c=[Sym(b'f'), Sym(b'f', value=4)])    # and before 19


def many_statics(files, mode, level):
    """a job of files of 128 statics at a level, all of them the first's: 32 files have 4,096 statics"""
    static, opened, closed = (statics_jobs.entry(*x) for x in ((statics_jobs.STATIC, statics_jobs.DATA, 0, 4), (statics_jobs.PROC,), (statics_jobs.END,)))
    first = [opened] * level + [static] * 128 + [closed] * level
    debug = lambda at: statics_jobs.debug_section(at, [first] + [[]] * (files - 1), firsts=[0] * files, counts=[len(first)] * files)  # noqa: E731
    return pair(c_has={**PLAIN, b'.mdebug': debug}, mode=mode)


def jobs_18():
    """local and undefined, or unnamed and not local; of C, of A and of statics"""
    lost, bare = Sym(b'f', 0, bind=0), Sym(b'', b'.text', 4)
    n = statics_jobs.entry(statics_jobs.STATIC, statics_jobs.DATA, 0, 4)
    for y in (lost, bare, lost._replace(name=b''), bare._replace(bind=0), bare._replace(bind=2), bare._replace(section=0), bare._replace(section=ABSOLUTE)):
        yield pair(c=[Sym(b'g'), y])
        yield pair(a=[y, Sym(b'g')], used={b'.rel.text': [1]}, info=2)
    for y in (lost, bare):
        yield pair(a=[y, Sym(b'g')], info=2)                        # not taken over
        yield pair(c=[Sym(b'h', 0), Sym(b'h', 0)], a=[y, Sym(b'g')], info=1)
    for info in (0, 1, 2, 3, 4, 0xFFFFFFFF):                        # entry 0 is taken over where sh_info is 0, a local where it is too small
        yield pair(a=[Sym(b'g', bind=0), lost, Sym(b'h', 0)], info=info)
        yield pair(a=[Sym(b'g', bind=0), Sym(b'h', b'.data', 8), Sym(b'i', 0)], info=info)
    yield pair(a=[Sym(b'g')], used={b'.rel.data': [0]})             # and where a relocation uses it
    for mode in (1, 2, 3):
        yield with_statics([n, n], strings=b'\0', mode=mode)        # unnamed statics, and counted ones
        yield with_statics([n, n], strings=b'\0', mode=mode, level=2)
    yield with_late([lost], {b'.rel.text': [1]}, info=2)
    yield pair(c=[Sym(b'g'), Sym(b'g', value=4), lost])             # 18 before 19, although its position is behind


def jobs_19():
    """a name that is defined twice: at one place and at two"""
    first, n = Sym(b'n', b'.data', 4), statics_jobs.entry(statics_jobs.STATIC, statics_jobs.DATA, 0, 4)
    others = first, first._replace(value=8), first._replace(section=b'.text'), first._replace(section=ABSOLUTE), first._replace(section=0, value=9), first._replace(bind=0)
    for second in others:
        yield pair(c=[Sym(b'f'), first, second])
        yield pair(c=[second], a=[Sym(b'f'), first])
        yield pair(a=[first, Sym(b'f', 0), second])
        yield with_statics([n], c=[second], mode=1)
        yield with_statics([n], a=[Sym(b'm'), second])
    for value in (4, 8):
        twice = [n, statics_jobs.entry(statics_jobs.STATIC, statics_jobs.DATA, 0, value)]
        yield with_statics(twice, mode=3, path=b'src/a.c')
        yield with_statics(twice, c=[Sym(b'n:2', b'.data', 4)], mode=1, level=2)    # n:1 and n:2
        yield with_statics(twice, a=[Sym(b'n:1', b'.data', value)], mode=3, path=b'a.c', level=2)
    for second in others[1:3]:
        yield pair(c=[first._replace(bind=0), second._replace(bind=0)])
    yield pair(c=[Sym(b'_gp_disp')], a=[Sym(b'_gp_disp', value=4)])
    yield pair(c=[Sym(b'f', 0), Sym(b'f', value=4), Sym(b'u', 0)], a=[Sym(b'f', value=4, bind=0), Sym(b'f', value=8)])
    yield with_statics([n], c=[Sym(b'a/b.c:n', b'.data', 8), Sym(b'n', 0)], mode=3, path=b'a/b.c')      # the written name plays no part
    yield with_statics([n, n], c=[Sym(b'_asmpp_n', b'.data', 8)], strings=b'_asmpp_n\0')            # a static of that name stays, the symbol does not
    yield pair(c=[Sym(b'f'), Sym(b'f', value=4)], room=0)           # 19 before 21


def merged_names():
    """names of C and of A: defined and undefined, bindings, types, sizes and st_other; _gp_disp; order of the result"""
    full = Sym(b'f', b'.text', 4, 0, 2, 12, 0xFF)
    lost = full._replace(section=0, bind=2, size=3)
    for c, a in ((full, lost), (lost, full), (Sym(b'f', 0, 7), Sym(b'f', 0, 9, 2)), (full, full._replace(bind=1, kind=1))):
        yield pair(c=[Sym(b'u', 0), c], a=[Sym(b'v', 0), a], used={b'.rel.text': [1, 2]}, info=1)
    for bind in (0, 1):
        for section in (0, b'.text', ABSOLUTE):
            disp = Sym(b'_gp_disp', section, 0, bind if section else 1, 5)
            yield pair(c=[disp, Sym(b'g', bind=0), Sym(b'h')], a=[Sym(b'i'), Sym(b'j', bind=0)])
            yield pair(c=[Sym(b'g', bind=0), Sym(b'h')], a=[disp, Sym(b'i')], used={b'.rel.text': [1]}, info=2)
    yield pair(c=[Sym(b'_gp_disp_', kind=6), Sym(b'_gp_disp', bind=0), Sym(b'_gp_dis')], a=[Sym(b'_gp_disp', 0), Sym(b'_gp_disp_', 0), Sym(b'g')])
    for kind, bind, other in ((15, 15, 0xFF), (3, 0, 2), (0, 2, 4), (4, 10, 1)):
        yield pair(c=[Sym(b'f', kind=kind, bind=bind, other=other, size=0xFFFFFFFF, value=0xFFFFFFFF)], a=[Sym(b'g', ABSOLUTE, 0xFFFFFFFF, bind, kind, 7, other)])
    unnamed = Sym(b'', b'.text', 0, 0, 3)
    yield pair(c=[unnamed, unnamed], a=[unnamed, unnamed._replace(section=b'.data')], used={b'.rel.text': [1, 2, 1]}, info=3)
    yield pair(c=[Sym(b'_asmpp_f', 0, bind=0), Sym(b'_asmpp_g', COMMON), Sym(b'_asmpp')], a=[Sym(b'_asmpp_f', bind=0)])
    yield pair()
    # C's sh_info plays no part.
    job = pair(c=[Sym(b'g'), Sym(b'l', value=4, bind=0), Sym(b'u', 0)])
    c = model.read_object(job.compiled)
    for info in (0, 4, 0xFFFFFFFF):
        yield job._replace(compiled=model.splice(job.compiled, model.be32(job.compiled, 32) + 40 * c.symtab + 4 * SH_INFO, struct.pack('>I', info)))


def glabel_jobs():
    """glabels: types, and sizes of the first and of the last block; blocks that are switched off"""
    f, g = Sym(b'f', b'.text', 0, 1, 0, 99), Sym(b'g', b'.data', 4, 1, 1, 98)
    both = [b'f', b'g']
    yield with_blocks([dict(text=b'_asmpp_t0 4 0', glabels=both)], a=[f, g])
    yield with_blocks([dict(text=b'_asmpp_t0 4 0', glabels=both[::-1])], a=[f, g])
    yield with_blocks([dict(glabels=both)], a=[f, g])               # without .text there is no size
    yield with_blocks([dict(data=b'absent 4 0', glabels=both)], a=[f, g])
    off = dict(text=b'_asmpp_t1 4 0', data=b'absent 4 0', glabels=[b'f'])
    yield with_blocks([off], a=[f])                                 # switched off behind its .text line: no type, so no size
    yield with_blocks([off, dict(glabels=[b'f'])], a=[f])           # another block gives the type, this one the size
    yield with_blocks([dict(glabels=[b'f']), dict(text=b'absent 4 0', glabels=[b'f'])], a=[f])
    for last in (b'f', b'g'):
        blocks = [dict(text=b'_asmpp_t0 4 0', glabels=both), dict(text=b'_asmpp_t2 4 0', glabels=[last, b'f'])]
        job = with_blocks(blocks, a=[f, g])
        yield job
        # The last block has eight bytes.
        a = [f, g, *(Sym(b'_asmpp_t%d_asm_%s' % (k, end), b'.text', at) for k, end, at in ((0, b'start', 0), (0, b'end', 4), (2, b'start', 8), (2, b'end', 16)))]
        yield job._replace(file=job.file.replace(b't2 4 0', b't2 8 0'), assembled=made({b'.text': bytes(range(1, 17)), b'.data': b''}, a))
    # A block with .data as well, and one with .data alone.
    ends = [Sym(b'_asmpp_d0_asm_start', b'.data', 0), Sym(b'_asmpp_d0_asm_end', b'.data', 2)]
    for text in (b'_asmpp_t0 4 0', b''):
        yield with_blocks([dict(text=text, data=b'_asmpp_d0 2 0', glabels=[b'f'])], c=[Sym(b'_asmpp_d0', b'.data', 0)], a=[f, *ends])
    for section in (0, ABSOLUTE):
        yield with_blocks([dict(text=b'_asmpp_t0 4 0', glabels=[b'f'])], a=[f._replace(section=section)])
    yield with_blocks([dict(text=b'_asmpp_t0 4 0', glabels=[b'f'])], c=[f._replace(kind=1)], a=[f])     # C's comes first and stays
    yield with_blocks([dict(text=b'_asmpp_t0 4 0', glabels=[b'f'])], c=[f._replace(section=0)], a=[f, f])
    yield with_blocks([dict(text=b'_asmpp_t0 4 0', glabels=[b'_gp_disp'])], a=[f._replace(name=b'_gp_disp')])
    yield with_blocks([dict(text=b'_asmpp_t0 4 0', glabels=[b'_asmpp_f'])], a=[f._replace(name=b'_asmpp_f')])
    yield with_late([Sym(b'f', b'.late_rodata', 12)])._replace(file=draft_jobs.block(desc=b'late', glabels=[b'f'], dummies=[b'e0123456', b'e0123457'], jtbl=8))


def hash_jobs():
    """names that agree in what an index of names may go by: lengths, sums of words of eight bytes, the first 2,048 bytes, all but one byte of a word"""
    alike = [x + y for x, y in ((b'abcdefgh', b'ijklmnop'), (b'ijklmnop', b'abcdefgh'), (b'ibcdefgh', b'ajklmnop'), (b'ajklmnop', b'ibcdefgh'))]
    homes = [Sym(name, b'.data', k) for k, name in enumerate(alike)]
    lost = [y._replace(section=0, value=0) for y in homes]
    yield pair(c=homes[:2] + lost[2:], a=lost[:2] + homes[2:])
    yield pair(c=homes, a=[homes[3], homes[1]._replace(value=9), homes[0]])
    yield with_blocks([dict(text=b'_asmpp_t0 4 0', glabels=[alike[1], alike[0]])], a=[y._replace(section=b'.text') for y in homes])
    long = [b'x' * 2048 + tail for tail in (b'', b'a', b'b')]
    ends = [b'x' * length + tail for length in range(26) for tail in (b'y', b'z')]
    for names in (long, ends):
        yield pair(c=[Sym(name, value=4 * k) for k, name in enumerate(names)], a=[Sym(name, 0) for name in reversed(names)])
    for length in (2046, 2047, 2048):                                  # a count that ends, starts and stands behind those bytes
        name = b'y' * length
        entries = [statics_jobs.entry(statics_jobs.STATIC, statics_jobs.DATA, 0, 4 * k) for k in range(2)]
        yield with_statics(entries, c=[Sym(name + b':2', b'.data', 4)], a=[Sym(name + b':1', 0), Sym(name + b':3')], strings=name + b'\0', level=2)


def call_jobs():
    """refusal 1 by path and mode, on both sides of each limit, and statics with paths"""
    entries = [statics_jobs.entry(statics_jobs.STATIC, statics_jobs.DATA, 2 * (k % 2), 4 * k) for k in range(3)]
    job = with_statics(entries, level=2)
    for mode in (0, 1, 2, 3, 4, 0xFFFFFFFF):
        yield job._replace(mode=mode, path=b'build/src/a.o')
    for path in (b'', b'p' * 255, b'p' * 256, b'a\0b', b'a\1b', b'a\x7fb', b'a\x80b', b'\xff', b'\0', b'a\x7f', b'a\x80'):
        yield job._replace(mode=3, path=path)
    yield job._replace(mode=0, path=b'p' * 255)
    yield job._replace(mode=0, path=b'p' * 256)
    yield job._replace(compiled=b'', path=b'p' * 256)               # 1 before all others
    yield job._replace(compiled=b'', mode=4)


def aimed_jobs():
    """all of these"""
    many = many_statics(32, 1, 2), many_statics(33, 2, 0)
    return [*jobs_15(), *jobs_16(), *jobs_17(), *many, *jobs_18(), *jobs_19(), *merged_names(), *glabel_jobs(), *hash_jobs(), *call_jobs()]


# ---------------------------------------------------------------- random jobs

class Tangle:
    """a random job with symbols in both objects, relocation tables of A, blocks with glabels, late words and statics; a name has one place, mostly"""
    # The first seven are places of the statics that statics_jobs.Maker makes.
    HOMES = {b'n': (b'.text', 0), b'm': (b'.data', 4), b'nm': (b'.bss', 8), b'value': (b'.rodata', 12), b'n:1': (b'.text', 16), b'f': (b'.text', 8), b'g': (b'.data', 0),
             b'k': (ABSOLUTE, 5), b'_gp_disp': (ABSOLUTE, 0), b'_asmpp_n': (b'.data', 20), b'nn': (b'.text', 8)}
    NAMES = tuple(HOMES)

    def __init__(self, chance):
        self.chance = r = chance
        self.c = {b'.text': r.randbytes(24), b'.data': r.randbytes(16), b'.rodata': b'', b'.bss': 24}
        self.a = {b'.text': r.randbytes(24), b'.data': b'', b'.rodata': b'', b'.bss': 8}
        self.c_symbols, self.a_symbols, self.late, self.file = [], [], [], b''
        for i in range(r.randrange(3)):
            self.block(i)
        if r.randrange(3) == 0:
            self.late_words()
        if not r.randrange(12):
            (self.c if r.randrange(2) else self.a).pop(r.choice((b'.bss', b'.rodata', b'.data')))
        self.c_symbols += [self.symbol() for _ in range(r.randrange(7))]
        self.a_symbols += [self.late_symbol() if self.late and not r.randrange(3) else self.symbol() for _ in range(r.randrange(7))]
        r.shuffle(self.c_symbols)
        if r.randrange(8):
            self.a_symbols.sort(key=lambda y: y.bind != 0)
        self.tables()

    def rarely(self):
        """whether something happens that may be refused"""
        return not self.chance.randrange(60)

    def block(self, i):
        """a block of four bytes of .text, sometimes switched off, and its labels"""
        r, label = self.chance, b'_asmpp_t%d' % i
        at = 8 * i
        self.file += draft_jobs.block(text=b'%s 4 0' % label, bss=b'' if r.randrange(5) else b'absent 4 0', glabels=[r.choice(self.NAMES) for _ in range(r.randrange(3))])
        self.c_symbols.append(Sym(label, b'.text', at))
        self.a_symbols += [Sym(label + b'_asm_start', b'.text', at), Sym(label + b'_asm_end', b'.text', at + 4)]

    def late_words(self):
        """a block with late words, and a table behind them"""
        r = self.chance
        words, table = r.randrange(1, 3), r.choice((0, 4, 6))
        self.file += draft_jobs.block(dummies=[b'e012345%d' % k for k in range(words)], jtbl=table, glabels=[r.choice(self.NAMES)])
        need, start = 4 * words + table, r.choice((0, 8, 8))
        self.c[b'.rodata'] = r.randbytes(r.randrange(3)) + b''.join(bytes.fromhex('e012345%d' % k) for k in range(words)) + bytes(table + 4)
        self.a[b'.late_rodata'] = bytes(start) + r.randbytes(need)
        self.a_symbols += [Sym(LATE_LABELS[0], b'.late_rodata', start), Sym(LATE_LABELS[1], b'.late_rodata', start + need)]
        self.late = list(range(start, start + need, 4))

    def symbol(self):
        """a symbol of any kind; few of them lead to a refusal"""
        r = self.chance
        name = r.choice(self.NAMES)
        section, value = self.HOMES[name]
        bind, = r.choices((0, 1, 2, 13), (40, 50, 8, 2))
        y = Sym(name, section, value, bind, r.choice((0, 0, 1, 2, 3, 13)), r.choice((0, 4, 1 << 31)), r.choice((0, 0, 3, 0xFE)))
        way = r.randrange(16)
        if way < 4:
            y = y._replace(section=0, value=r.choice((0, 8)), bind=0 if self.rarely() else r.choice((1, 1, 2)), name=r.choice((name, b'u', b'outside')))
        elif way < 6:
            y = y._replace(name=b'', section=r.choice((b'.text', b'.data')), value=0, bind=1 if self.rarely() else 0)
        if self.rarely():
            y = y._replace(value=y.value + 4)
        return y._replace(section=r.choice((COMMON, 0xFF00, 1, 2, 5))) if self.rarely() else y

    def late_symbol(self):
        """a symbol of A's .late_rodata, mostly of a word that moves"""
        r = self.chance
        value = r.choice(self.late) if r.randrange(12) else r.choice((0, 2, 100))
        return Sym(b'late%d' % value, b'.late_rodata', value or 4 * self.rarely() or 4, r.choice((0, 1)))

    def tables(self):
        """relocation tables of A, and its sh_info"""
        r, count = self.chance, len(self.a_symbols)
        fit = [k + 1 for k, y in enumerate(self.a_symbols) if not y.name.startswith(model.PREFIX)]
        for name in list(self.a):
            if count and not r.randrange(3):
                table = (b'.rela' if not r.randrange(4) else b'.rel') + name
                self.a[table] = table_of(table, [r.randrange(count + 2) if self.rarely() or not fit else r.choice(fit) for _ in range(r.randrange(4))])
        self.info = 1 + sum(y.bind == 0 for y in self.a_symbols)
        if not r.randrange(6):
            self.info = max(0, self.info + r.choice((-1, 1, 1, 2, 100)))

    def job(self, most=7):
        """the job, with statics of that many names at most"""
        r = self.chance
        maker = statics_jobs.Maker(r, most)
        if r.randrange(3) == 0:
            files, more = maker.files()
            self.c[b'.mdebug'] = lambda at: statics_jobs.debug_section(at, files, maker.strings, **more)
        path = r.choice((b'c.o', b'src/a.c', b'x' * 40))
        return Job(made(self.c, self.c_symbols), made(self.a, self.a_symbols, self.info), self.file, path, r.choice((0, 1, 1, 2, 3)))


def tangled_jobs(count, seed, most=7):
    """random jobs, whose statics have that many names at most"""
    chance = random.Random(seed)
    for _ in range(count):
        yield Tangle(chance).job(most)


def damaged_tables(count, seed):
    """tangled jobs with one or two entries changed in a symbol table, a string table or a relocation table, or in the header of one"""
    chance = random.Random(seed)
    for _ in range(count):
        job = Tangle(chance).job()
        for _ in range(chance.randrange(1, 3)):
            which = chance.choice(('compiled', 'assembled'))
            job = job._replace(**{which: damaged_table(getattr(job, which), chance)})
        yield job


def damaged_table(b, chance):
    """one field of a symbol or of a relocation, one byte of a string or one word of a header changed; nothing where the object cannot be read"""
    if model.object_refusal(b, model.OBJ_C):
        return b
    o = model.read_object(b)
    kind = chance.randrange(8)
    if kind < 4 and len(o.symbols) > 1:
        return damaged_symbol(b, o, chance)
    tables = [i for i, s in enumerate(o.sections) if model.is_table(s) and s.data]
    if kind < 6 and tables:
        i = chance.choice(tables)
        return changed(b, i, chance.randrange(len(o.sections[i].data)), bytes([chance.choice((0, 1, 2, 5, 255))]))
    if kind < 7 and len(o.sections[o.strtab].data) > 1:
        return changed(b, o.strtab, chance.randrange(1, len(o.sections[o.strtab].data)), bytes([chance.choice((0, 95, 102, 110, 255))]))
    at = model.be32(b, 32) + 40 * chance.choice([o.symtab, *tables]) + 4 * SH_INFO
    return model.splice(b, at, struct.pack('>I', chance.choice((0, 1, 2, 3, len(o.symbols), 1 << 31))))


def damaged_symbol(b, o, chance):
    """one field of a symbol changed to one that others have, or to another"""
    at = 16 * chance.randrange(1, len(o.symbols))
    field, size, values = chance.choice((
        (0, 4, [y.st_name for y in o.symbols] + [1, 2]), (4, 4, [y.st_value for y in o.symbols] + [0, 4, 0xFFFFFFFF]), (8, 4, [1, 0x80000000]),
        (12, 1, [0, 1, 2, 3, 16, 18, 32, 255]), (13, 1, [1, 4, 255]), (14, 2, [0, 0, 1, 2, 3, ABSOLUTE, COMMON, 0xFEFF])))
    return changed(b, o.symtab, at + field, chance.choice(values).to_bytes(size, 'big'))
