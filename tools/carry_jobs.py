"""Jobs of the merge in which relocation tables are the point, for tools/merge_jobs.py: tables of C and of A by type, target and name, dropped sections, entries that are
left out, renumbered or moved.

Each changes one thing or is random; what comes of it is the model's to say.
"""
import os
import random
import struct
import sys
from typing import NamedTuple

TOP = os.path.dirname(os.path.dirname(os.path.abspath(__file__)))
sys.path.insert(0, os.path.join(TOP, 'tools'))
sys.path.insert(0, os.environ.get('MODEL', os.path.join(TOP, '..', 'shared', 'model')))
import draft_jobs, model, symbol_jobs  # noqa: E402
from symbol_jobs import Sym  # noqa: E402

SH_TYPE, SH_INFO = 1, 7
GPTAB, DEBUG = 0x70000003, 0x70000005
DUMMIES = bytes.fromhex('e0123456e0123457')
LATE = symbol_jobs.LATE_LABELS


class Entry(NamedTuple):
    """an entry of a relocation table"""
    offset: int
    symbol: int
    kind: int = 5
    addend: int = 0

    def bytes(self, rela):
        return struct.pack('>II', self.offset, 256 * self.symbol + self.kind) + (struct.pack('>I', self.addend) if rela else b'')


def table(name, *entries):
    """the bytes of a table of that name"""
    return b''.join(e.bytes(name.startswith(b'.rela.')) for e in entries)


def header_word(b, index, field, value):
    """an object with another word in the header of a section"""
    return model.splice(b, model.be32(b, 32) + 40 * index + 4 * field, model.w32(value))


def section_index(b, name):
    """the index of an object's first section of a name"""
    return model.first_named(model.named_sections(b), name)


class Carry:
    """the parts of a job, each of which a variation may change: C and A have tables for all that is relocated, blocks replace words, and there may be late words"""

    def __init__(self, chance, late=True, rela=(False, False)):
        self.chance, self.late = chance, late
        prefix = [b'.rela' if r else b'.rel' for r in rela]
        fill = lambda n: bytes(chance.randrange(1, 128) for _ in range(n))  # noqa: E731
        self.c = {b'.text': fill(64), b'.data': fill(48), b'.rodata': fill(12) + DUMMIES[:4] + DUMMIES[4:] + fill(20), b'.bss': 16}
        self.a = {b'.text': fill(64), b'.data': fill(48), b'.rodata': fill(12)}
        self.blocks = [dict(desc=b'first', text=b'_asmpp_t0 8 0', data=b'_asmpp_d0 8 0'), dict(desc=b'second', text=b'_asmpp_t1 12 0', rodata=b'_asmpp_r1 4 0')]
        self.c_symbols = [Sym(b'_asmpp_t0', b'.text', 8), Sym(b'_asmpp_d0', b'.data', 4), Sym(b'_asmpp_t1', b'.text', 32), Sym(b'_asmpp_r1', b'.rodata', 4)]
        spans = [(b'_asmpp_t0', b'.text', 8, 8), (b'_asmpp_d0', b'.data', 4, 8), (b'_asmpp_t1', b'.text', 32, 12), (b'_asmpp_r1', b'.rodata', 4, 4)]
        self.a_symbols = [Sym(label + end, section, at + size * (end == b'_asm_end')) for label, section, at, size in spans for end in (b'_asm_start', b'_asm_end')]
        if late:
            self.blocks[1].update(dummies=[b'e0123456', b'e0123457'], jtbl=8)
            self.a[b'.late_rodata'] = fill(16)
            self.a_symbols += [Sym(LATE[0], b'.late_rodata', 0), Sym(LATE[1], b'.late_rodata', 16)]
        self.c_symbols += [Sym(b'own', b'.data', 4), Sym(b'shared', 0), Sym(b'routine', b'.text', 8, 1, 2)]
        self.a_symbols += [Sym(b'shared', b'.data', 20), Sym(b'other', 0), Sym(b'routine', b'.text', 8, 1, 2)]
        n, m = len(self.c_symbols), len(self.a_symbols)
        own = lambda: chance.randrange(n - 2, n + 1)  # noqa: E731
        its = lambda: chance.randrange(m - 2, m + 1)  # noqa: E731
        self.c_tables = {prefix[0] + name: [Entry(at, own(), chance.randrange(1, 256), chance.randrange(1 << 32)) for at in places]
                         for name, places in ((b'.text', (0, 8, 12, 14, 40, 60)), (b'.data', (4, 8, 40)), (b'.rodata', (0, 4, 12, 16, 20, 24, 26)))}
        self.a_tables = {prefix[1] + name: [Entry(at, its(), chance.randrange(1, 256), chance.randrange(1 << 32)) for at in places]
                         for name, places in ((b'.text', (8, 12, 32)), (b'.data', (4,)), (b'.rodata', (4,)), *([(b'.late_rodata', (0, 4, 8, 12))] if late else []))}
        self.flag, self.after = 0, lambda c, a: (c, a)
        self.c_tail = {}

    def job(self):
        c = symbol_jobs.made({**self.c, **{name: table(name, *es) for name, es in self.c_tables.items()}}, self.c_symbols, tail=self.c_tail)
        a = symbol_jobs.made({**self.a, **{name: table(name, *es) for name, es in self.a_tables.items()}}, self.a_symbols)
        c, a = self.after(c, a)
        return symbol_jobs.Job(c, a, b''.join(draft_jobs.block(**b) for b in self.blocks), flag=self.flag)

    def in_c(self, name, field, value):
        """another word in a header of C, whose value may be found in C"""
        self.after = lambda c, a: (header_word(c, section_index(c, name), field, value(c) if callable(value) else value), a)

    def in_a(self, name, field, value):
        self.after = lambda c, a: (c, header_word(a, section_index(a, name), field, value(a) if callable(value) else value))


def some_table(tables, chance):
    return chance.choice(list(tables))


def entry_changed(tables, chance, **new):
    """one entry of one table with other fields"""
    name = some_table(tables, chance)
    k = chance.randrange(len(tables[name]))
    tables[name][k] = tables[name][k]._replace(**new)


def no_table(s):
    """one of C's tables is not there"""
    name = s.chance.choice((b'.rel.text', b'.rel.data', b'.rel.rodata'))
    s.c_tables.pop(name, None)


def trailing(s, kind, symbol=False, related=False):
    """sections that the drop flag takes off, which a symbol is in, or a table is for"""
    s.flag = s.chance.randrange(2)
    s.c_tail = {b'.extra': b'extra bytes'}
    if related:
        s.c_tables[b'.rel.extra'] = []
    if symbol:
        s.c_symbols.append(Sym(b'far', b'.extra', 4))
    s.in_c(b'.extra', SH_TYPE, kind)


def stale(s):
    """a table of C with entries for another section than the four"""
    s.c.update({b'.pdr': bytes(8)})
    s.c_tables.update({b'.rel.pdr': [Entry(0, 5)]})


# Each changes one thing; what comes of it is the model's to say.
VARIATIONS = [
    lambda s: None,
    no_table,
    lambda s: s.c_tables.clear(),
    lambda s: s.a_tables.clear(),
    lambda s: s.a_tables.update({some_table(s.a_tables, s.chance): []}),
    lambda s: s.c_tables.update({some_table(s.c_tables, s.chance): []}),
    # 10, the first cause
    stale,
    lambda s: (s.c.update({b'.pdr': bytes(8)}), s.c_tables.update({b'.rel.pdr': []})),
    lambda s: s.in_c(b'.rel.data', SH_INFO, 0),
    lambda s: (s.c.update({b'.late_rodata': bytes(8)}), s.c_tables.update({b'.rel.late_rodata': [Entry(0, 5)]})),
    lambda s: s.c_tables.update({b'.rel.bss': [Entry(0, 5)]}),
    # the second
    lambda s: trailing(s, DEBUG),
    lambda s: trailing(s, GPTAB, symbol=True),
    lambda s: trailing(s, DEBUG, related=True),
    lambda s: trailing(s, model.SHT_PROGBITS, symbol=True),
    lambda s: setattr(s, 'flag', s.chance.choice((1, 2))),
    # the third
    lambda s: s.in_c(b'.rel.data', SH_TYPE, model.SHT_PROGBITS),
    lambda s: s.in_c(b'.rel.data', SH_INFO, lambda c: section_index(c, b'.text')),
    lambda s: s.in_c(b'.rel.rodata', SH_INFO, lambda c: section_index(c, b'.bss')),
    lambda s: (s.a_tables.update({b'.rel.data': []}), s.in_c(b'.rel.data', SH_INFO, lambda c: section_index(c, b'.text'))),
    lambda s: s.in_c(b'.rel.text', SH_INFO, lambda c: section_index(c, b'.data')),
    # symbols that are not in the result
    lambda s: entry_changed(s.c_tables, s.chance, symbol=s.chance.choice((0, 1, 99, len(s.c_symbols) + 1))),
    lambda s: entry_changed(s.a_tables, s.chance, symbol=s.chance.choice((99, len(s.a_symbols) + 1))),
    lambda s: (entry_changed(s.c_tables, s.chance, symbol=99), entry_changed(s.a_tables, s.chance, symbol=99)),
    lambda s: [entry_changed(s.c_tables, s.chance, symbol=99, offset=s.chance.randrange(64)) for _ in range(3)],
    # offsets
    lambda s: entry_changed(s.c_tables, s.chance, offset=s.chance.choice((9, 10, 12, 36, 44, 0xFFFFFFFF))),
    lambda s: entry_changed(s.a_tables, s.chance, offset=s.chance.choice((1, 2, 16, 0xFFFFFFFF))),
    lambda s: s.a_tables.update({b'.rel.late_rodata': [Entry(s.chance.choice((0, 4, 6, 12, 16)), len(s.a_symbols))]}) if s.late else None,
    # order
    lambda s: setattr(s, 'a_tables', dict(reversed(s.a_tables.items()))),
    lambda s: setattr(s, 'c_tables', dict(reversed(s.c_tables.items()))),
    lambda s: s.blocks.clear(),
    # 10 before 12, 19 and 20
    lambda s: (stale(s), s.a_symbols.__setitem__(0, s.a_symbols[0]._replace(value=9))),
    lambda s: (stale(s), s.c_symbols.append(Sym(b'shared', b'.text', 4))),
    lambda s: (stale(s), entry_changed(s.c_tables, s.chance, symbol=99)),
]


def made_jobs(seed, count):
    """that many jobs, each variation in turn"""
    chance = random.Random(seed)
    for n in range(count):
        rela = [chance.randrange(4) == 0 for _ in range(2)]
        which = n % len(VARIATIONS)
        plain = which in (1, 27) or 6 <= which < 21
        carry = Carry(chance, late=chance.randrange(4) != 0, rela=(False, False) if plain else rela)
        VARIATIONS[which](carry)
        yield carry.job()


def damaged_jobs(count, seed):
    """bytes changed anywhere in a job's objects"""
    chance = random.Random(seed)
    for _ in range(count):
        job = Carry(chance, late=chance.randrange(2) == 0).job()
        parts = [bytearray(x) for x in job[:2]]
        for _ in range(chance.randrange(1, 3)):
            part = chance.choice(parts)
            part[chance.randrange(len(part))] ^= 1 << chance.randrange(8)
        yield job._replace(compiled=bytes(parts[0]), assembled=bytes(parts[1]), flag=chance.randrange(2))
