#!/usr/bin/env python3
"""Real jobs: compiles C with Debian's MIPS compiler, drafts with the command, assembles that draft with the real assembler, merges with the command, and compares.

  tools/real_jobs.py --install     installs gcc-mips-linux-gnu and binutils-mips-linux-gnu (as root)
  tools/real_jobs.py [FOLDER]      makes the jobs (in FOLDER, or in one that is removed) and compares

Needs host/target/release/daphulle and oracle/target/release/oracle (`cargo build --release` in host/ and in oracle/). For each source, ABI and set of options,
every second function and object of the compiled object becomes a block of its own size, written anew in assembly. Compared: the command's draft with the
Rust's, byte for byte; in the object that the assembler makes of it, the two labels of every block with place and place + size; and, in every mode and with both flags,
the command's merged object with the Rust's, byte for byte, or its refusal with that of the model of document 01 (MODEL, by default ../shared/model).
"""
import os
import struct
import subprocess
import sys
import tempfile

TOP = os.path.dirname(os.path.dirname(os.path.abspath(__file__)))
sys.path.insert(0, os.environ.get('MODEL', os.path.join(TOP, '..', 'shared', 'model')))
import model  # noqa: E402

DAPHULLE = os.path.join(TOP, 'host', 'target', 'release', 'daphulle')
ORACLE = os.path.join(TOP, 'oracle', 'target', 'release', 'oracle')
MODES = 'no', 'local', 'global', 'global-with-filename'

# What a firmware's C has: calls, statics, tables, jump tables, floating point constants, strings, weak and common symbols.
SOURCES = {
    'calls': '''
extern int outside(int); int shared_counter; static int private_counter = 5; int table[4] = {1, 2, 3, 4};
int first(int x) { return outside(x) + shared_counter; }
static int __attribute__((noinline)) hidden(int x) { return x * private_counter + table[x & 3]; }
int second(int x) { private_counter += x; return hidden(x) + hidden(x + 1); }
int third(int *p) { return *p + first(2); }
''',
    'switches': '''
extern void act(int);
int choose(int x) { switch (x) { case 0: act(5); return 3; case 1: act(9); return 7; case 2: return 11; case 3: act(1); return 2; case 4: return 8;
  case 5: act(77); return 4; case 6: return 21; default: return 0; } }
int expiry(unsigned now, unsigned limit) { return now > limit; }
int again(int x) { switch (x & 7) { case 1: return choose(2); case 2: act(2); break; case 3: act(3); break; case 4: act(44); break; case 5: return 1;
  case 6: act(6); break; } return x; }
''',
    'constants': '''
const char name[] = "locker"; const unsigned words[6] = {0xe0123456, 0, 0xe0123457, 4, 5, 6}; static const double half = 0.5; float scale = 1.5f;
double area(double r) { return r * r * 3.14159265358979; }
float mean(float a, float b) { return (a + b) * 0.3333f + (float)half; }
const char *label(int i) { return i ? name : "none"; }
unsigned pick(int i) { return words[i]; }
''',
    'storage': '''
int zeroed[8]; static short small; char letters[] = "abcdefgh"; int common_one; int __attribute__((weak)) maybe(void) { return 1; }
void clear(void) { for (int i = 0; i < 8; i++) zeroed[i] = 0; small = 0; }
int sum(void) { int s = maybe(); for (int i = 0; i < 8; i++) s += zeroed[i]; return s + small; }
char letter(int i) { return letters[i & 7]; }
''',
}
OPTIONS = [
    ['-mabi=32', '-mno-abicalls', '-fno-pic', '-G0', '-O2'],
    ['-mabi=32', '-mno-abicalls', '-fno-pic', '-G0', '-O0', '-g'],
    ['-mabi=32', '-O2'],
    ['-mabi=32', '-fPIC', '-Os', '-ffunction-sections'],
    ['-mabi=n32', '-mips3', '-O2'],
    ['-mabi=n32', '-mips3', '-mno-abicalls', '-fno-pic', '-O1', '-fcommon'],
]
PRELUDE = b'.set noat\n.set noreorder\n.set nomacro\n.macro glabel label\n.global \\label\n\\label:\n.endm'


def run(*words):
    """the command's exit status, standard output and standard error"""
    done = subprocess.run(words, stdin=subprocess.DEVNULL, capture_output=True)
    return done.returncode, done.stdout, done.stderr.decode(errors='replace')


def symbols(data):
    """(name, value, size, type, section's name) of every symbol of an object"""
    at, = struct.unpack('>I', data[32:36])
    count, names_in = struct.unpack('>HH', data[48:52])
    heads = [struct.unpack('>10I', data[at + 40 * i:at + 40 * i + 40]) for i in range(count)]
    held = [data[h[4]:h[4] + h[5]] if h[1] != 8 else b'' for h in heads]

    def text(table, start):
        return table[start:table.index(b'\0', start)]
    names = [text(held[names_in], h[0]) for h in heads]
    table = next(i for i, h in enumerate(heads) if h[1] == 2)
    found = []
    for k in range(len(held[table]) // 16):
        name, value, size, info, _, index = struct.unpack('>IIIBBH', held[table][16 * k:16 * k + 16])
        found.append((text(held[heads[table][6]], name), value, size, info & 15, names[index] if 0 < index < count else b''))
    return found


def section_lines(section, size):
    """assembly of that many bytes"""
    if section == b'.text':
        body = [b'addiu $v0, $zero, %d' % i for i in range(size // 4)]
        if len(body) > 3:
            body[0:2] = [b'lui $a0, %hi(shared_table)', b'addiu $a0, $a0, %lo(shared_table)']
        return body
    if section == b'.bss':
        return [b'.section .bss', b'.space %d' % size]
    return [b'.section ' + section] + [b'.word %d' % i for i in range(size // 4)] + [b'.byte 7'] * (size % 4)


def blocks_of(compiled):
    """a block file, and the spans (label, place, size): every second function or object of each section, where its size is right"""
    spans, file = [], b''
    for section in (b'.text', b'.data', b'.rodata', b'.bss'):
        kind = 2 if section == b'.text' else 1
        own = sorted((value, name, size) for name, value, size, k, s in symbols(compiled) if s == section and k == kind and size > 0)
        end = 0
        for i, (value, name, size) in enumerate(own):
            if value < end or i % 2 or section == b'.text' and size % 4 or b'$' in name or b'.' in name:
                continue
            end = value + size
            spans.append((name, value, size))
            lines = [b'desc=' + name]
            for s in (b'.text', b'.data', b'.rodata', b'.bss'):
                lines.append(s[1:] + b'=' + (b'%s %d 0' % (name, size) if s == section else b''))
            lines += [b'glabel=' + name] if section == b'.text' else []
            lines += [b'jtbl=0'] + [b'asm=' + x for x in section_lines(section, size)] + [b'end=']
            file += b''.join(x + b'\n' for x in lines)
    return file, spans


def merges(path):
    """what went wrong with a merge in any mode and with either flag, or nothing, and the number of merged objects"""
    count = 0
    compiled, assembled, blocks = (open(path(name), 'rb').read() for name in ('c.o', 'a.o', 'blocks'))
    for mode, flag in ((mode, flag) for mode in range(4) for flag in range(2)):
        drop = ['--drop-mdebug-gptab'] if flag else []
        status, merged, words = run(DAPHULLE, 'merge', path('c.o'), path('a.o'), '--blocks', path('blocks'), '--path', 'c.o', '--convert-statics', MODES[mode], *drop, '-o', '-')
        got = model.merge(compiled, assembled, blocks, b'c.o', flag, mode)
        if got[0] == 'refused' and (status == 0 or 'refused %d %d %d' % got[1:] not in words):
            return f'mode {mode}, flag {flag}: the model has {got}, the command {words.strip()}', 0
        if got[0] == 'ok' and (status, merged) != run(ORACLE, 'merge', path('c.o'), path('a.o'), path('prelude'), path('blocks'), 'c.o', str(flag), str(mode))[:2]:
            return f'mode {mode}, flag {flag}: the Rust has another object; the command: {words.strip()}', 0
        count += got[0] == 'ok'
    return '', count


def job(folder, source, options):
    """what went wrong, or nothing, and the numbers of blocks and of merged objects"""
    path = lambda name: os.path.join(folder, name)  # noqa: E731
    with open(path('c.c'), 'w') as f:
        f.write(SOURCES[source])
    status, _, words = run('mips-linux-gnu-gcc', *options, '-Wa,-mno-pdr', '-fno-toplevel-reorder', '-c', path('c.c'), '-o', path('c.o'))
    if status:
        return f'the compiler: {words}', 0, 0
    with open(path('c.o'), 'rb') as f:
        blocks, spans = blocks_of(f.read())
    for name, data in (('blocks', blocks), ('prelude', PRELUDE)):
        with open(path(name), 'wb') as f:
            f.write(data)
    status, _, words = run(DAPHULLE, 'draft', path('c.o'), '--prelude', path('prelude'), '--blocks', path('blocks'), '-o', path('a.s'))
    if status:
        return words.strip(), 0, 0
    with open(path('a.s'), 'rb') as f:
        draft = f.read()
    status, rust, words = run(ORACLE, 'draft', path('c.o'), path('prelude'), path('blocks'))
    if status or rust != draft:
        return f'the Rust: another draft {words}', 0, 0
    machine = [x for x in options if x.startswith('-mabi') or x.startswith('-mips')]
    status, _, words = run('mips-linux-gnu-as', '-EB', '-mno-pdr', *machine, path('a.s'), '-o', path('a.o'))
    if status:
        return f'the assembler: {words}', 0, 0
    with open(path('a.o'), 'rb') as f:
        at = {name: value for name, value, *_ in symbols(f.read())}
    for label, place, size in spans:
        if (at.get(label + b'_asm_start'), at.get(label + b'_asm_end')) != (place, place + size):
            return f'{label.decode()} does not stand at {place} to {place + size}', 0, 0
    fault, count = merges(path)
    return fault, len(spans), count


def main(folder):
    count = total = merged = wrong = 0
    for source in SOURCES:
        for n, options in enumerate(OPTIONS):
            place = os.path.join(folder, f'{source}_{n}')
            os.makedirs(place, exist_ok=True)
            fault, blocks, objects = job(place, source, options)
            count, total, merged = count + 1, total + blocks, merged + objects
            if fault:
                wrong += 1
                print(f'{source} {" ".join(options)}: {fault}')
    print(f'{count} real jobs with {total} blocks, {merged} merged objects, {wrong} differences')
    return 1 if wrong or total == 0 or merged == 0 else 0


if __name__ == '__main__':
    if sys.argv[1:] == ['--install']:
        sys.exit(subprocess.call(['apt-get', 'install', '-y', '--no-install-recommends', 'gcc-mips-linux-gnu', 'binutils-mips-linux-gnu']))
    if len(sys.argv) > 1:
        sys.exit(main(sys.argv[1]))
    with tempfile.TemporaryDirectory() as made:
        sys.exit(main(made))
