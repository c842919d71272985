#!/usr/bin/env python3
"""Makes the jobs that the programs draft and prog_draft_jobs run, and what they must print.

  tools/draft_jobs.py            writes crates/draft/{data/draft.case,args,stdout} and crates/prog_draft_jobs/{data/jobs,args,stdout}

Compiled objects are real ones (Debian's gcc-mips-linux-gnu) or made here. Refusals come from the model of document 01 (MODEL, by default
../shared/model). Accepted drafts come from the unchanged Rust where the oracle is built (oracle/target/release/oracle), and the model must agree with it;
without the oracle the model alone answers, and the script says so. The program under test has no say.
"""
import os, random, struct, subprocess, sys

TOP = os.path.dirname(os.path.dirname(os.path.abspath(__file__)))
sys.path.insert(0, os.path.join(TOP, 'tools'))
sys.path.insert(0, os.environ.get('MODEL', os.path.join(TOP, '..', 'shared', 'model')))
import check_objects, model  # noqa: E402

ORACLE = os.path.join(TOP, 'oracle', 'target', 'release', 'oracle')


# ---------------------------------------------------------------- compiled objects

def compiled(symbols, sections=(b'.text', b'.data', b'.rodata', b'.bss')):
    """an object with those sections and symbols (name, value, section index, st_info)"""
    names = b'\0' + b'\0'.join(sections) + b'\0.shstrtab\0.symtab\0.strtab\0'
    strings, entries = b'\0', b'\0' * 16
    for name, value, index, info in symbols:
        entries += struct.pack('>IIIBBH', len(strings), value, 0, info, 0, index)
        strings += name + b'\0'
    n = len(sections)
    body, heads = b'', [check_objects.section_header(kind=0)]

    def place(data):
        nonlocal body
        at = 52 + len(body)
        body += data
        return at
    for s in sections:
        data = b'' if s == b'.bss' else bytes(64)
        heads.append(check_objects.section_header(names.index(b'\0' + s + b'\0') + 1, 8 if s == b'.bss' else 1, 3, 0, place(data), 64, 0, 0, 4))
    heads.append(check_objects.section_header(names.index(b'.shstrtab'), 3, offset=place(names), size=len(names)))
    heads.append(check_objects.section_header(names.index(b'.symtab'), 2, offset=place(entries), size=len(entries), link=n + 3, info=1, entsize=16, align=4))
    heads.append(check_objects.section_header(names.index(b'.strtab'), 3, offset=place(strings), size=len(strings)))
    head = b'\x7fELF' + bytes([1, 2, 1]) + bytes(9) + struct.pack('>HHIIIIIHHHHHH', 1, 8, 1, 0, 0, 52 + len(body), 0, 52, 0, 0, 40, n + 4, n + 1)
    return head + body + b''.join(heads)


def block(desc=b'', text=b'', data=b'', rodata=b'', bss=b'', glabels=(), dummies=(), jtbl=0, asm=(), late=()):
    lines = [b'desc=' + desc, b'text=' + text, b'data=' + data, b'rodata=' + rodata, b'bss=' + bss]
    lines += [b'glabel=' + g for g in glabels] + [b'dummy=' + d for d in dummies] + [b'jtbl=%d' % jtbl]
    lines += [b'asm=' + a for a in asm] + [b'late=' + x for x in late] + [b'end=']
    return b''.join(line + b'\n' for line in lines)


T, D, R, S = (b'_asmpp_t%d', b'_asmpp_d%d', b'_asmpp_r%d', b'_asmpp_b%d')
FOUR = ('text', 'data', 'rodata', 'bss')


def usual(n=6):
    """symbols for n blocks in all four sections, 16 bytes apart"""
    out = []
    for k in range(n):
        for index, label in enumerate((T, D, R, S)):
            out.append((label % k, 16 * k + 4 * index, index + 1, 0))
    return out


# ---------------------------------------------------------------- jobs: (compiled, prelude, blocks, room or None)

def example():
    return compiled([(b'_asmpp_t1', 8, 1, 0)]), b'.set noat', block(text=b'_asmpp_t1 4 0', asm=[b'jr $ra'])


def written_jobs():
    c = compiled(usual())
    yield example() + (None,)
    yield c, b'', b'', None
    yield c, b'\n', b'', None
    yield c, b'.set noat\n.set noreorder', b'', None
    full = dict(text=b'_asmpp_t1 8 0', data=b'_asmpp_d1 4 0', rodata=b'_asmpp_r1 3 0', bss=b'_asmpp_b1 16 0')
    yield c, b'p', block(b'all four', **full, glabels=[b'f', b'g'], dummies=[b'00ff00ff'], jtbl=8, asm=[b'nop', b'', b' x y '], late=[b'.word 1']), None
    for key in FOUR:                                                    # one section alone
        yield c, b'p', block(**{key: full[key]}, asm=[b'a']), None
    for key in FOUR:                                                    # an absent label in each position
        yield c, b'p', block(**{**full, key: b'absent 4 0'}, glabels=[b'f'], asm=[b'gone'], late=[b'gone']) + block(text=b'_asmpp_t3 4 0', asm=[b'stays'], late=[b'stays']), None
        yield c, b'p', block(**{**full, key: b'absent 0 0'}), None      # size 0 on the absent label
        later = dict(full)
        for after in FOUR[FOUR.index(key) + 1:]:
            later[after] = full[after].replace(b' 4 0', b' 0 0').replace(b' 3 0', b' 0 0').replace(b' 16 0', b' 0 0')
        yield c, b'p', block(**{**later, key: b'absent 4 0'}, asm=[b'gone']), None  # size 0 behind it
    for key in FOUR:
        yield c, b'p', block(**{**full, key: full[key].rsplit(b' ', 2)[0] + b' 0 0'}), None
    for align in range(9):                                              # places 16, 20, 24, 28
        yield c, b'p', block(text=b'_asmpp_t1 4 %d' % align), None
        yield c, b'p', block(data=b'_asmpp_d1 4 %d' % align), None
    yield c, b'', block(text=b'_asmpp_t1 4 0') + block(text=b'_asmpp_t1 4 0'), None          # the same place again
    yield c, b'', block(text=b'_asmpp_t0 16 0') + block(text=b'_asmpp_t1 4 0'), None         # place = end
    yield c, b'', block(text=b'_asmpp_t0 17 0') + block(text=b'_asmpp_t1 4 0'), None         # place = end - 1
    yield c, b'', block(data=b'_asmpp_d0 20 0') + block(text=b'_asmpp_t1 4 0'), None         # another section
    yield c, b'', block(text=b'_asmpp_t0 17 0') + block(text=b'_asmpp_t1 4 8', data=b'_asmpp_d1 0 0'), None   # 8 before 9
    yield c, b'', block(text=b'_asmpp_t1 4 4', data=b'_asmpp_d1 0 0'), None                  # 9 in text before 8 in data
    yield c, b'', block(text=b'_asmpp_t1 4 4') + block(text=b'_asmpp_t0 4 0'), None          # 9 in block 0 before 8 in block 1
    for late in ([], [b''], [b'x'], [b'.word 1', b'.word 2']):
        yield c, b'', block(text=b'_asmpp_t1 4 0', late=late), None
        yield c, b'', block(text=b'absent 4 0', late=late) + block(late=late), None
    yield c, b'\0\x80\xff', block(b'\0\r\xff', text=b'_asmpp_t1 4 0', glabels=[b'\x80\0'], asm=[b'\0', b'\xff\xfe', b'\ta'], late=[b'\x80']), None
    yield c, b'', block(text=b'a\0b 4 0', asm=[b'x']), None
    yield compiled([(b'\xff\xfe', 4, 1, 0)]), b'', block(text=b'\xff\xfe 4 0', asm=[b'x']), None
    yield c, b'', block(text=b'_asmpp_t1 4 0').replace(b'\n', b'\r\n'), None
    yield compiled([(b'u', 12, 0, 16), (b'v', 20, 0xfff1, 16), (b'w', 8, 0xfff2, 16)]), b'', block(text=b'u 4 0', data=b'v 4 0', rodata=b'w 4 0'), None
    yield compiled([(b'u', 12, 1, 0), (b'u', 20, 1, 0)]), b'', block(text=b'u 4 0'), None    # the first of a name
    for value in (1, 2, 3, 5, 7, 1000):
        yield compiled([(b'u', value, 1, 0)]), b'', block(text=b'u 4 0'), None
        yield compiled([(b'u', value, 2, 0)]), b'', block(data=b'u 4 0'), None
    for value in (999, 1000, 99999, 2 ** 31, 2 ** 32 - 1):
        yield compiled([(b'u', value, 2, 0)]), b'', block(rodata=b'u 1048576 0'), None
    for value in (0xfffffffc, 0xffffffff):                              # 2 ^ 30 nops: 21 at once
        yield compiled([(b'u', value, 1, 0)]), b'q', block(text=b'u 4 0'), None
    text = model.draft(c, b'p', block(b'd', **full, asm=[b'x'], late=[b'y']))[1]
    for room in (len(text) - 1, len(text), len(text) + 1, 0):           # 21 one byte short, exact, one more, none
        yield c, b'p', block(b'd', **full, asm=[b'x'], late=[b'y']), room


def grammar_jobs():
    """refusal 7: one thing wrong in a block file"""
    c = compiled(usual())
    good = block(b'd', text=b'_asmpp_t1 4 0', glabels=[b'g', b'h'], dummies=[b'0123abcd'], jtbl=4, asm=[b'a', b'b'], late=[b'c'])
    lines = good.split(b'\n')[:-1]
    for k in range(len(lines)):
        yield c, b'', b'\n'.join(lines[:k] + lines[k + 1:]) + b'\n', None            # a line left out
        yield c, b'', b'\n'.join(lines[:k] + [lines[k]] + lines[k:]) + b'\n', None   # a line twice
    for k in range(len(lines) - 1):
        yield c, b'', b'\n'.join(lines[:k] + [lines[k + 1], lines[k]] + lines[k + 2:]) + b'\n', None
    for old, new in ((b'end=', b'end=x'), (b'4 0', b'4  0'), (b'4 0', b'04 0'), (b'4 0', b'4 00'), (b'4 0', b'4 9'), (b'4 0', b'1048577 0'), (b'4 0', b'1048576 0'),
                     (b'4 0', b'4'), (b'4 0', b'4 0 '), (b'4 0', b'-4 0'), (b'4 0', b'4a 0'), (b'4 0', b'10485760 0'), (b'text=_asmpp_t1 4 0', b'text= 4 0'),
                     (b'text=_asmpp_t1 4 0', b'text=_asmpp_t1'), (b'glabel=g', b'glabel='), (b'glabel=g', b'glabel=a b'), (b'0123abcd', b'0123abc'), (b'0123abcd', b'0123abcde'),
                     (b'0123abcd', b'0123ABCD'), (b'0123abcd', b'0123abcg'), (b'jtbl=4', b'jtbl='), (b'jtbl=4', b'jtbl=1048576'), (b'jtbl=4', b'jtbl=1048577'), (b'jtbl=4', b'jtbl=00'),
                     (b'desc=d', b'Desc=d'), (b'desc=d', b' desc=d'), (b'asm=a', b'asm'), (b'asm=a', b'ASM=a')):
        yield c, b'', good.replace(old, new, 1), None
        yield c, b'', good + good.replace(b'_asmpp_t1', b'_asmpp_t2').replace(old, new, 1), None
    for cut in (1, 2, 5, len(good) // 2):
        yield c, b'', good[:-cut], None
        yield c, b'', good + good[:-cut], None
    yield c, b'', b'\n', None
    yield c, b'', good + b'\n', None
    yield c, b'', b'x', None


def wide_jobs():
    many = [(b'l%d' % k, 4 * k, 1, 0) for k in range(1030)]
    c = compiled(many)
    for n in (1024, 1025):
        yield c, b'', b''.join(block(text=b'l%d 4 0' % k, asm=[b'nop']) for k in range(n)), None
    yield compiled(usual()), bytes(1048577), b'', None                  # 1: the prelude over the limit


def object_jobs():
    """C refused by 2 to 6, and real objects accepted"""
    real = check_objects.real_objects()
    for name in ('o32', 'o32_pic', 'n32', 'gas', 'gas_mdebug', 'o32_little'):
        yield real[name], b'.set noat', block(b'r', text=b'pick 4 0', data=b'shared 4 0', asm=[b'jr $ra']) + block(text=b'first 4 0', asm=[b'x'], late=[b'.word 3']), None
    for label, b in list(check_objects.damaged(real['o32']))[::6]:
        yield b, b'', block(text=b'pick 4 0', asm=[b'jr $ra']), None
    o32 = real['o32']
    for index in (1, 255):                                              # 4: e_shstrndx names another section, or none
        yield o32[:50] + struct.pack('>H', index) + o32[52:], b'', block(text=b'pick 4 0', asm=[b'jr $ra']), None
    names = o32.index(b'\0.symtab\0')                                   # 4: a section name with a byte over 127
    yield o32[:names + 2] + b'\x80' + o32[names + 3:], b'', block(text=b'pick 4 0', asm=[b'jr $ra']), None


def random_jobs(count, seed):
    r = random.Random(seed)
    for _ in range(count):
        n = r.randrange(1, 7)
        symbols = usual(n)
        r.shuffle(symbols)
        symbols = symbols[:r.randrange(len(symbols) + 1)] if r.random() < .3 else symbols
        blocks = b''
        for k in sorted(r.choice(range(n)) for _ in range(r.randrange(5))) if r.random() < .8 else [r.randrange(n) for _ in range(4)]:
            spans = {}
            for key, label in zip(FOUR, (T, D, R, S)):
                if r.random() < .6:
                    spans[key] = b'%s %d %d' % (label % k if r.random() < .95 else b'absent', r.choice([1, 2, 3, 4, 8, 12, 16]), r.choice([0, 0, 0, 0, 4, 8]))
            blocks += block(b'b%d' % k, **spans, glabels=[b'g%d' % r.randrange(3) for _ in range(r.randrange(3))], dummies=[b'%08x' % r.getrandbits(32) for _ in range(r.randrange(3))],
                            jtbl=r.choice([0, 0, 4, 7]), asm=[b'line %d' % r.randrange(99) for _ in range(r.randrange(4))], late=[b'.word %d' % r.randrange(9) for _ in range(r.choice([0, 0, 1, 2]))])
        yield compiled(symbols), r.choice([b'', b'.set noat', b'a\nb']), blocks, None


# ---------------------------------------------------------------- answers

def rust_draft(c, prelude, blocks):
    """the unchanged Rust's draft, or None where it refuses"""
    names = []
    for k, data in enumerate((c, prelude, blocks)):
        names.append(os.path.join('/tmp', f'draft_job_{os.getpid()}_{k}'))
        open(names[-1], 'wb').write(data)
    got = subprocess.run([ORACLE, 'draft'] + names, capture_output=True)
    return got.stdout if got.returncode == 0 else None


ROOM = 1310720


def answer(job, counts):
    c, prelude, blocks, room = job
    got = model.draft(c, prelude, blocks, ROOM if room is None else room)
    if got[0] == 'ok' and os.path.exists(ORACLE) and all(x < 128 for x in prelude + blocks):
        counts['rust'] += 1
        assert rust_draft(c, prelude, blocks) == got[1], 'the model and the Rust differ'
    counts['accepted' if got[0] == 'ok' else 'refused'] += 1
    return got


def case(c, prelude, blocks):
    return struct.pack('>III', len(c), len(prelude), len(blocks)) + c + prelude + blocks


def main():
    counts = dict(accepted=0, refused=0, rust=0)
    jobs = [*written_jobs(), *grammar_jobs(), *wide_jobs(), *object_jobs(), *random_jobs(60, 7)]
    data, out = b'', b''
    for k, job in enumerate(jobs):
        c, prelude, blocks, room = job
        data += struct.pack('>IIII', len(c), len(prelude), len(blocks), ROOM if room is None else room) + c + prelude + blocks
        got = answer(job, counts)
        out += b'job %d ' % k + (b'accepted %d\n' % len(got[1]) + got[1] if got[0] == 'ok' else b'refused %d %d %d\n' % got[1:])
    out += b'job %d is not there\n' % len(jobs)

    def write(crate, name, content):
        path = os.path.join(TOP, 'crates', crate, name)
        os.makedirs(os.path.dirname(path), exist_ok=True)
        open(path, 'wb').write(content)
    write('prog_draft_jobs', 'data/jobs', data), write('prog_draft_jobs', 'args', b'jobs\n'), write('prog_draft_jobs', 'stdout', out)
    c, prelude, blocks = example()
    write('draft', 'data/draft.case', case(c, prelude, blocks))
    write('draft', 'args', b'draft.case\n'), write('draft', 'stdout', model.draft(c, prelude, blocks)[1])
    print(f'{len(jobs)} jobs: {counts["accepted"]} accepted, {counts["refused"]} refused; {counts["rust"]} drafts are the Rust\'s' + ('' if os.path.exists(ORACLE) else ' (no oracle: the model answered alone)'))


if __name__ == '__main__':
    main()
