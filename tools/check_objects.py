#!/usr/bin/env python3
"""Makes the objects that the program check_objects reads, and what it must print of them.

  tools/check_objects.py        writes crates/check_objects/{data/,args,stdout}

The real objects come from Debian's gcc-mips-linux-gnu and binutils-mips-linux-gnu; the others are those with one thing changed, or made
here to stand at a limit. What must be printed comes from the model of document 01 (MODEL, by default ../shared/model), never from the
program under test.
"""
import os, random, shutil, struct, subprocess, sys, tempfile

TOP = os.path.dirname(os.path.dirname(os.path.abspath(__file__)))
sys.path.insert(0, os.environ.get('MODEL', os.path.join(TOP, '..', 'shared', 'model')))
import model  # noqa: E402

OUT = os.path.join(TOP, 'crates', 'check_objects')

C_SOURCE = r'''
extern int limit, other(int); extern const char *words[];
static int hidden = 3; int shared[4] = {1, 2, 3, 4}; int later; const int *const where = &shared[2];
static int helper(int x) { return x * hidden + limit; }
int pick(int x) {
    switch (x) {
        case 0: return other(1); case 1: return helper(2); case 2: return 7; case 3: return later;
        case 4: return other(5); case 5: return hidden++; case 6: return 0; default: return x;
    }
}
const char *word(int i) { return words[i] ? words[i] : "none"; }
'''
ASM_SOURCE = r'''
.section .late_rodata, "a", @progbits
late: .word 0x40490fdb
.rdata
table: .word first, second
.data
value: .word table
.text
.globl first
.ent first
first: lui $4, %hi(value)
lw $4, %lo(value)($4)
jr $31
nop
.end first
.globl second
second: jal missing
nop
'''


def real_objects():
    """{name: bytes} of objects that a toolchain made"""
    out = {}
    with tempfile.TemporaryDirectory() as d:
        for source, content in (('in.c', C_SOURCE), ('in.s', ASM_SOURCE)):
            with open(os.path.join(d, source), 'w') as f:
                f.write(content)
        # Names without a folder: debug sections store them, and the same source makes the same object.
        base = ['mips-linux-gnu-gcc', '-O1', '-ffreestanding', '-fno-asynchronous-unwind-tables', '-fdebug-prefix-map=' + d + '=', '-c', 'in.c', '-o', 'o']
        jobs = {
            'o32': base + ['-mabi=32', '-mno-abicalls', '-fno-pic', '-G0'],
            'o32_pic': base + ['-mabi=32', '-fPIC'],
            'n32': base + ['-mabi=n32', '-mno-abicalls', '-fno-pic', '-G0'],
            'o32_debug': base + ['-mabi=32', '-mno-abicalls', '-fno-pic', '-G0', '-g'],
            'o32_little': base + ['-mabi=32', '-mno-abicalls', '-fno-pic', '-G0', '-EL'],
            'gas': ['mips-linux-gnu-as', '-32', '-EB', '-o', 'o', 'in.s'],
            'gas_mdebug': ['mips-linux-gnu-as', '-32', '-EB', '-mdebug', '-o', 'o', 'in.s'],
        }
        for name, words in jobs.items():
            subprocess.run(words, check=True, cwd=d)
            out[name] = open(os.path.join(d, 'o'), 'rb').read()
    return out


# ---------------------------------------------------------------- made objects

def section_header(name=0, kind=1, flags=0, addr=0, offset=0, size=0, link=0, info=0, align=1, entsize=0):
    return struct.pack('>10I', name, kind, flags, addr, offset, size, link, info, align, entsize)


def made(sections=4, symbols=1, length=None, extra=b''):
    """a small object: null, .shstrtab, .symtab, .strtab and empty sections, with so many symbols; padded to a length"""
    names = b'\0.shstrtab\0.symtab\0.strtab\0.x\0'
    strings = b'\0sym\0'
    table = b'\0' * 16 + struct.pack('>IIIBBH', 1, 0, 0, 16, 0, 0) * (symbols - 1)
    at = 52
    offsets = []
    body = b''
    for part in (names, table, strings):
        offsets.append(at + len(body))
        body += part
    body += extra
    shoff = at + len(body)
    heads = [section_header(kind=0),
             section_header(1, 3, offset=offsets[0], size=len(names)),
             section_header(11, 2, offset=offsets[1], size=len(table), link=3, info=1, entsize=16),
             section_header(19, 3, offset=offsets[2], size=len(strings))]
    heads += [section_header(27, 1, offset=52)] * (sections - 4)
    ident = b'\x7fELF' + bytes([1, 2, 1]) + b'\0' * 9
    head = ident + struct.pack('>HHIIIIIHHHHHH', 1, 8, 1, 0, 0, shoff, 0, 52, 0, 0, 40, sections, 1)
    out = head + body + b''.join(heads)
    return out if length is None else out + b'\0' * (length - len(out))


# ---------------------------------------------------------------- damage

def put(b, at, new):
    return b[:at] + new + b[at + len(new):]


def shoff(b):
    return struct.unpack_from('>I', b, 32)[0]


def field(b, i, word, value):
    """section header i with one of its ten words changed"""
    return put(b, shoff(b) + 40 * i + 4 * word, struct.pack('>I', value))


def sections_of(b):
    n = struct.unpack_from('>H', b, 48)[0]
    return [struct.unpack_from('>10I', b, shoff(b) + 40 * i) for i in range(n)]


def index(b, kind):
    return next(i for i, s in enumerate(sections_of(b)) if s[1] == kind)


def named(b, name):
    secs = model.named_sections(b)
    return model.first_named(secs, name)


def damaged(b):
    """(label, object) pairs: one thing wrong in each, or one thing odd and allowed"""
    secs = sections_of(b)
    n = len(secs)
    sym, rel = index(b, 2), index(b, 9)
    strtab = secs[sym][6]
    names = struct.unpack_from('>H', b, 50)[0]
    text = named(b, b'.text')
    size, symat = len(b), secs[sym][4]
    nsyms = secs[sym][5] // 16
    for at in range(6):
        yield f'ident_{at}', put(b, at, bytes([b[at] ^ 3]))
    for label, at, new in (('type', 16, b'\0\2'), ('machine', 18, b'\0\7'), ('phoff', 28, b'\0\0\0\1'), ('no_shoff', 32, b'\0\0\0\0'),
                           ('shentsize', 46, b'\0\x29'), ('no_shstrndx', 50, b'\0\0'), ('flags_free', 36, b'\xff\xff\xff\xff'),
                           ('version_free', 6, b'\7\7\7\7\7\7\7\7\7\7'), ('phnum_free', 44, b'\0\5'), ('two_fields', 18, b'\0\7')):
        yield label, put(b, at, new)
    yield 'count_0', put(b, 48, b'\0\0')
    yield 'count_65535', put(b, 48, b'\xff\xff')
    yield 'headers_outside', put(b, 32, struct.pack('>I', size - 39))
    yield 'headers_half_outside', put(b, 32, struct.pack('>I', shoff(b) + 40))
    yield 'headers_far', put(b, 32, b'\xff\xff\xff\xff')
    yield 'null_typed', field(b, 0, 1, 1)
    yield 'null_sized', field(b, 0, 5, 1)
    yield 'null_offset_at_end', field(b, 0, 4, size)
    yield 'null_offset_past_end', field(b, 0, 4, size + 1)
    yield 'second_null', field(b, text, 1, 0)
    yield 'link_order', field(b, text, 2, secs[text][2] | 0x80)
    yield 'flag_bits_around', field(b, text, 2, secs[text][2] | 0x140)
    yield 'entsize_3', field(b, text, 9, 3 if secs[text][5] % 3 else 7)
    yield 'size_past_end', field(b, text, 5, size)
    yield 'size_to_end', field(b, text, 5, size - secs[text][4])
    yield 'size_one_past', field(b, text, 5, size - secs[text][4] + 1)
    yield 'offset_wraps', field(field(b, text, 4, 0xffffffff), text, 5, 4)
    yield 'empty_outside', field(field(b, text, 5, 0), text, 4, size + 1)
    yield 'align_65536', field(b, text, 8, 65536)
    yield 'align_65537', field(b, text, 8, 65537)
    yield 'align_3', field(b, text, 8, 3)
    yield 'nobits_anywhere', field(field(b, named(b, b'.bss'), 4, 0xffffffff), named(b, b'.bss'), 5, 0xffffffff)
    yield 'two_bad_sections', field(field(b, n - 1, 8, 65537), text, 8, 65537)
    yield 'shstrndx_past', put(b, 50, struct.pack('>H', n))
    yield 'shstrndx_not_strings', put(b, 50, struct.pack('>H', text))
    yield 'name_past', field(b, text, 0, secs[names][5])
    yield 'name_at_last', field(b, text, 0, secs[names][5] - 1)
    yield 'name_far', field(b, text, 0, 0xffffffff)
    yield 'name_no_end', field(b, names, 5, secs[names][5] - 1)
    yield 'name_over_127', put(b, secs[names][4] + secs[text][0], b'\x80')
    yield 'name_127', put(b, secs[names][4] + secs[text][0], b'\x7f')
    yield 'names_empty', field(field(b, names, 5, 0), names, 9, 0)
    yield 'text_nobits', field(b, text, 1, 8)
    yield 'bss_progbits', field(b, named(b, b'.bss'), 1, 1)
    yield 'reginfo_progbits', field(b, named(b, b'.reginfo'), 1, 1)
    yield 'text_and_data_typed', field(field(b, named(b, b'.data'), 1, 7), text, 1, 7)
    yield 'null_named_text', field(b, 0, 0, secs[text][0])
    yield 'second_text_typed', field(field(b, named(b, b'.data'), 0, secs[text][0]), named(b, b'.data'), 1, 7)
    yield 'no_symtab', field(b, sym, 1, 1)
    yield 'symtab_entsize_0', field(b, sym, 9, 0)
    yield 'symtab_entsize_8', field(b, sym, 9, 8)
    yield 'symtab_link_past', field(b, sym, 6, n)
    yield 'symtab_link_text', field(b, sym, 6, text)
    yield 'symtab_empty', field(b, sym, 5, 0)
    yield 'symtab_earlier', field(field(b, named(b, b'.gnu.attributes'), 1, 2), named(b, b'.gnu.attributes'), 9, 0)
    yield 'symtab_info_free', field(b, sym, 7, 0xffffffff)
    for k in range(16):
        yield f'symbol_0_byte_{k}', put(b, symat + k, b'\1')
    yield 'symbol_name_past', put(b, symat + 16 * (nsyms - 1), struct.pack('>I', secs[strtab][5]))
    yield 'symbol_name_last', put(b, symat + 16 * (nsyms - 1), struct.pack('>I', secs[strtab][5] - 1))
    yield 'symbol_no_end', field(b, strtab, 5, secs[strtab][5] - 1)
    yield 'symbol_0_named', put(b, secs[strtab][4], b'x')
    for label, x in (('count', n), ('last', n - 1), ('feff', 0xfeff), ('ff00', 0xff00), ('fffe', 0xfffe), ('ffff', 0xffff)):
        yield f'symbol_index_{label}', put(b, symat + 16 * 2 + 14, struct.pack('>H', x))
    yield 'two_bad_symbols', put(put(b, symat + 16 * 3 + 14, b'\xff\xff'), symat + 16 * 2 + 14, b'\xff\xff')
    yield 'rel_entry_12', field(field(b, rel, 9, 12), rel, 5, 24)
    yield 'rel_entry_0', field(b, rel, 9, 0)
    yield 'rela_entry_8', field(b, rel, 1, 4)
    yield 'rela_entry_12', field(field(field(b, rel, 1, 4), rel, 9, 12), rel, 5, 24)
    yield 'rel_info_past', field(b, rel, 7, n)
    yield 'rel_info_0', field(b, rel, 7, 0)
    yield 'rel_link', field(b, rel, 6, strtab)
    yield 'rel_empty_bad', field(field(b, rel, 5, 0), rel, 9, 4)
    yield 'symbols_before_relocations', put(field(b, rel, 6, strtab), symat + 16 + 14, b'\xff\xff')
    yield 'names_before_types', field(put(b, 50, struct.pack('>H', text)), text, 1, 7)
    yield 'headers_before_names', field(put(b, 50, struct.pack('>H', text)), n - 1, 8, 65537)
    for cut in (0, 1, 3, 16, 17, 51, 52, 53):
        yield f'cut_{cut}', b[:cut]
    yield 'cut_one_short', b[:-1]
    yield 'longer', b + b'\0' * 7


def limits():
    yield 'made', made()
    yield 'sections_128', made(sections=128)
    yield 'sections_129', made(sections=129)
    yield 'symbols_1', made(symbols=1)
    yield 'symbols_4096', made(symbols=4096)
    yield 'symbols_4097', made(symbols=4097)
    yield 'file_1048576', made(symbols=4096, length=1048576)
    yield 'size_17_of_16', field(field(made(extra=b'\0' * 40), 2, 5, 17), 2, 9, 1)


def flips(b, count, seed):
    """one random byte changed, in what the checks read more often than elsewhere"""
    r = random.Random(seed)
    secs = sections_of(b)
    sym = secs[index(b, 2)]
    ranges = [(0, 52), (shoff(b), 40 * len(secs)), (sym[4], sym[5]), (0, len(b))]
    for k in range(count):
        start, length = r.choice(ranges)
        at = start + r.randrange(length)
        yield f'flip_{seed}_{k}', put(b, at, bytes([r.choice([0, 1, 0x7f, 0x80, 0xff, b[at] ^ (1 << r.randrange(8))])]))


def answer(b):
    r = model.object_refusal(b, 1)
    return 'accepted' if r is None else f'refused {r[1]} {r[3]}'


def main():
    real = real_objects()
    jobs = list(real.items())
    jobs += list(damaged(real['o32'])) + list(limits())
    jobs += list(flips(real['o32_pic'], 30, 1)) + list(flips(real['gas_mdebug'], 30, 2)) + list(flips(real['n32'], 20, 3))
    assert len({name for name, _ in jobs}) == len(jobs)
    data = os.path.join(OUT, 'data')
    shutil.rmtree(data, ignore_errors=True)
    os.makedirs(data)
    lines, args = [], []
    for name, b in jobs:
        with open(os.path.join(data, name + '.o'), 'wb') as f:
            f.write(b)
        args.append(name + '.o')
        lines.append(f'{name}.o: {answer(b)}')
    open(os.path.join(OUT, 'args'), 'w').write('\n'.join(args) + '\n')
    open(os.path.join(OUT, 'stdout'), 'w').write('\n'.join(lines) + '\n')
    print(f'{len(jobs)} objects, {sum("accepted" in line for line in lines)} accepted')


if __name__ == '__main__':
    main()
