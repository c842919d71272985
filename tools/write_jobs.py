#!/usr/bin/env python3
"""Makes the objects that the program prog_write_jobs writes anew from their own sections, and what it must print.

  tools/write_jobs.py               writes crates/prog_write_jobs/{data/jobs,args,stdout}
  tools/write_jobs.py SEED COUNT    runs COUNT other objects, made and damaged, through target/bin/prog_write_jobs, and compares each answer with the model's

What is expected comes from the model of document 01 (MODEL, by default ../shared/model): refusals 1 to 6, the 17 of a debug section that moves, 21, or the object. Real
objects are those of the jobs of prog_merge_jobs.
"""
import os
import random
import struct
import subprocess
import sys
import tempfile

TOP = os.path.dirname(os.path.dirname(os.path.abspath(__file__)))
sys.path.insert(0, os.path.join(TOP, 'tools'))
sys.path.insert(0, os.environ.get('MODEL', os.path.join(TOP, '..', 'shared', 'model')))
import carry_jobs, merge_jobs, model, statics_jobs, symbol_jobs  # noqa: E402

FOLDER = os.path.join(TOP, 'crates', 'prog_write_jobs')
ROOM = 1310720
SH_OFFSET, SH_ALIGN = 4, 8


def object_of(chance, extra=()):
    """an object of some sections, in any order"""
    fill = lambda n: bytes(chance.randrange(256) for _ in range(n))  # noqa: E731
    names = [b'.text', b'.data', b'.rodata', b'.bss', b'.reginfo', b'.comment', b'.note']
    chance.shuffle(names)
    sections = {name: chance.randrange(64) if name == b'.bss' else fill(chance.choice((0, 1, 4, 24, 33))) for name in names[:chance.randrange(2, 8)]}
    sections.update(extra)
    symbols = [symbol_jobs.Sym(b'a', chance.choice(list(sections)), 4), symbol_jobs.Sym(b'bc', 0)]
    return symbol_jobs.made(sections, symbols)


def with_words(b, chance, *choices):
    """an object with other words in some headers: (field, values)"""
    for field, values in choices:
        for i in range(1, model.be16(b, 48)):
            if chance.randrange(3) == 0:
                b = carry_jobs.header_word(b, i, field, chance.choice(values))
    return b


def aligned(chance):
    """sections of any alignment"""
    return with_words(object_of(chance), chance, (SH_ALIGN, (0, 1, 2, 3, 8, 16, 64, 100, 1024)))


def debug_at(chance, whole=True):
    """an object with a debug section, whole or not, which moves where something before it is aligned"""
    held = (lambda at: statics_jobs.debug_section(at, [[statics_jobs.entry(statics_jobs.FILE)]], b'n\0')) if whole else bytes(chance.randrange(96)) + bytes(chance.choice((0, 40)))
    b = object_of(chance, {b'.mdebug': held})
    return with_words(b, chance, (SH_ALIGN, (4, 16))) if chance.randrange(2) else b


def overlapped(chance):
    """sections that lie in one another, and a null section with an offset"""
    b = object_of(chance)
    b = carry_jobs.header_word(b, 0, SH_OFFSET, chance.choice((0, 52, 0xFFFFFFFF)))
    return with_words(b, chance, (SH_OFFSET, (52, 53, 60)))


def last_first(chance):
    """an object whose headers stand before its sections, with bytes in no section"""
    b = object_of(chance)
    at, n = model.be32(b, 32), model.be16(b, 48)
    heads, grown = b[at:], 40 * n + 12
    moved = b''.join(heads[40 * i:40 * i + 16] + model.w32(model.be32(heads, 40 * i + 16) + (grown if i else 0)) + heads[40 * i + 20:40 * i + 40] for i in range(n))
    return model.splice(b[:52], 32, model.w32(52)) + moved + b'no section..'[:12] + b[52:at]


KINDS = [object_of, aligned, aligned, debug_at, lambda c: debug_at(c, False), overlapped, last_first]


def damaged(chance):
    b = bytearray(chance.choice(KINDS)(chance))
    for _ in range(chance.randrange(1, 3)):
        b[chance.randrange(len(b))] ^= 1 << chance.randrange(8)
    return bytes(b)


def made_jobs(seed, count):
    chance = random.Random(seed)
    for n in range(count):
        b = damaged(chance) if n % 4 == 3 else KINDS[n % len(KINDS)](chance)
        got = expected(b, ROOM)
        size = len(got[1]) if got[0] == 'ok' else ROOM
        room = chance.choice((ROOM, ROOM, ROOM, ROOM, size, size - 1, 0))
        yield b, room


def real_objects():
    """a C and an A of each kind that a toolchain made"""
    jobs = [job for job in merge_jobs.recorded() if b'\0.gnu.attributes\0' in job.compiled]
    return [(b, ROOM) for job in jobs[::4] for b in (job.compiled, job.assembled)]


def expected(b, room):
    """the model's refusal, or the object written from its own sections"""
    if len(b) > model.FILE_LIMIT:
        return 'refused', 1, 0, 0
    r = model.object_refusal(b, model.OBJ_C)
    if r:
        return r
    sections = list(model.read_object(b).sections)
    r = model.refusal(17, model.faults_17_moved(sections))
    if r:
        return r
    out = model.write_object(b, sections)
    return ('ok', out) if len(out) <= room else ('refused', 21, 0, len(out))


def packed(job):
    b, room = job
    stored = b.rstrip(b'\0')
    return struct.pack('>3I', len(b), len(stored), room) + stored


def listed_jobs():
    whole = object_of(random.Random(3))
    limits = [(whole.ljust(n, b'\0'), ROOM) for n in (model.FILE_LIMIT, model.FILE_LIMIT + 1)] + [(carry_jobs.header_word(whole, 1, SH_ALIGN, n), ROOM) for n in (65536, 65537)]
    return [*made_jobs(1, 220), *real_objects(), *limits, (b'', ROOM), (whole[:51], ROOM)]


def compare(seed, count):
    jobs = list(made_jobs(seed, count))
    with tempfile.NamedTemporaryFile() as f:
        f.write(b''.join(map(packed, jobs)))
        f.flush()
        out = subprocess.run([os.path.join(TOP, 'target', 'bin', 'prog_write_jobs'), f.name], stdout=subprocess.PIPE, check=True).stdout
    at, accepted = 0, 0
    for k, job in enumerate(jobs):
        got = expected(*job)
        line = merge_jobs.written(k, got)
        if out[at:at + len(line)] != line:
            sys.exit(f'object {k} of seed {seed}: the model has {line[:200]!r}, the program {out[at:at + 200]!r}')
        at += len(line)
        accepted += got[0] == 'ok'
    print(f'{len(jobs)} objects: {len(jobs) - accepted} refusals and {accepted} objects as the model has them')


def main():
    if len(sys.argv) == 3:
        return compare(int(sys.argv[1]), int(sys.argv[2]))
    jobs = listed_jobs()
    answers = [expected(*job) for job in jobs]
    os.makedirs(os.path.join(FOLDER, 'data'), exist_ok=True)
    with open(os.path.join(FOLDER, 'data', 'jobs'), 'wb') as f:
        f.write(b''.join(map(packed, jobs)))
    with open(os.path.join(FOLDER, 'args'), 'w') as f:
        f.write('jobs\n')
    with open(os.path.join(FOLDER, 'stdout'), 'wb') as f:
        f.write(b''.join(merge_jobs.written(k, got) for k, got in enumerate(answers)) + b'job %d is not there\n' % len(jobs))
    counts = {}
    for got in answers:
        n = merge_jobs.number_of(got)
        counts[n] = counts.get(n, 0) + 1
    print(f'{len(jobs)} objects, {sum(len(packed(j)) for j in jobs)} bytes: ' + ', '.join(f'{counts[n]} refused by {n}' if n else f'{counts[n]} written' for n in sorted(counts)))


if __name__ == '__main__':
    main()
