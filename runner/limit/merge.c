/* The merge: C, A and a block file into one object. The sections are measured first, so that each is written once, in its place. */
#include "merge.h"
#include "limit.h"

enum { ADDED = 6, MOST_SECTIONS = SECTION_LIMIT + ADDED };

size_t limit_merge_work(void) { return sizeof(struct work); }

/* A table of A, and the section of the result that it joins. */
struct carried {
    uint32_t table, code, home;
};

/* The sections of the result: C's that stay, and those that are added. */
struct result {
    uint32_t count, names_length; /* of the result's section names */
    uint64_t length;
    struct section section[MOST_SECTIONS];
    uint32_t carried;
    struct carried carry[SECTION_LIMIT];
};

static struct section *of_code(struct object *o, uint32_t code) { return o->found[code] == 0 ? NULL : &o->section[o->found[code]]; }

/* The code of C's section of this index, if a block may have spans in it; else 0. */
static uint32_t span_code(const struct merge *m, uint32_t section) {
    for (uint32_t code = TEXT; code <= SPANS; code++)
        if (section != 0 && m->c.found[code] == section) return code;
    return 0;
}

/* ---- 10: tables and symbols of what stays */

static uint32_t check_kept(struct merge *m) {
    const struct object *c = &m->c;
    m->stay = c->count;
    while (m->flag && m->stay > 0 && (c->section[m->stay - 1].type == SHT_DEBUG || c->section[m->stay - 1].type == SHT_GPTAB)) m->stay--;
    for (uint32_t i = 0; i < c->count; i++) {
        const struct section *s = &c->section[i];
        if (is_table(s) && (s->info >= m->stay || (s->size > 0 && span_code(m, s->info) == 0))) return 10;
    }
    for (uint32_t k = 0; m->stay < c->count && k < c->symbol_count; k++) {
        uint32_t section = be16(c->symbols + 16 * k + 14);
        if (section >= m->stay && section < c->count) return 10;
    }
    return 0;
}

/* The section that a table joins: the first of the name among the result's, or a new one. */
static uint32_t home_of(const struct merge *m, struct result *r, uint32_t code, uint32_t type) {
    char name[16];
    uint32_t prefix = type == SHT_REL ? 4 : 5, to = code == LATE ? RODATA : code;
    memcpy(name, ".rela", prefix);
    memcpy(name + prefix, CODE[to].name, CODE[to].length + 1);
    for (uint32_t i = 0; i < m->stay; i++)
        if (is_called(&m->c, i, name, prefix + CODE[to].length)) return i;
    for (uint32_t i = m->stay; i < r->count; i++)
        if (r->section[i].type == type && r->section[i].info == target(m, code)) return i;
    r->section[r->count] = (struct section){r->names_length, type, 0, 0, 0, 0, m->c.symtab, target(m, code), 4, entry_size(type)};
    r->names_length += prefix + CODE[to].length + 1;
    return r->count++;
}

/* Which of A's tables are carried, and where to. */
static uint32_t carry_tables(struct merge *m, struct result *r) {
    struct object *a = &m->a;
    r->count = m->stay;
    r->carried = 0;
    memcpy(r->section, m->c.section, m->stay * sizeof *r->section);
    for (uint32_t s = 0; s < SOURCES; s++) {
        const struct section *source = of_code(a, SOURCE[s]);
        if (source == NULL || held(source) == 0) continue;
        if (target(m, SOURCE[s]) == 0) return 11;
        for (uint32_t i = 0; i < a->count; i++) {
            const struct section *table = &a->section[i];
            if (!is_table(table) || table->info != a->found[SOURCE[s]]) continue;
            uint32_t home = home_of(m, r, SOURCE[s], table->type);
            const struct section *joined = &r->section[home];
            if (table->size > 0 && (joined->type != table->type || joined->info != target(m, SOURCE[s]))) return 10;
            r->carry[r->carried++] = (struct carried){i, SOURCE[s], home};
        }
    }
    return 0;
}

/* ---- 11, 12: sections and labels of the spans */

static bool is_label_at(const struct merge *m, const struct span *s, uint64_t hash, uint32_t end, uint32_t section, uint64_t value) {
    const uint8_t *label = m->file + s->label;
    uint32_t k = find_ended(&m->a_names, ended_hash(label, s->label_length, hash, end), label, s->label_length, end);
    return k != NONE && be16(m->a.symbols + 16 * k + 14) == section && be32(m->a.symbols + 16 * k + 4) == value;
}

static uint32_t line_up(struct merge *m) {
    const struct blocks *b = &m->work->blocks;
    if (m->c.found[REGINFO] != 0 && m->a.found[REGINFO] == 0) return 11;
    for (uint32_t code = TEXT; code <= SPANS; code++) {
        const struct section *of_c = of_code(&m->c, code), *of_a = of_code(&m->a, code);
        for (uint32_t i = 0; i < b->spans[code - 1]; i++) {
            const struct span *s = &b->span[code - 1][i];
            uint64_t end = span_end(s);
            if (of_a == NULL || (code != BSS && (of_c == NULL || end > of_c->size || end > of_a->size))) return 11;
            if (code == TEXT && (s->place | s->size) % 4 != 0) return 11;
            uint64_t hash = bytes_hash(m->file + s->label, s->label_length);
            if (!is_label_at(m, s, hash, ASM_START, m->a.found[code], s->place) || !is_label_at(m, s, hash, ASM_END, m->a.found[code], end))
                return 12;
        }
    }
    return 0;
}

/* ---- carrying */

/* The last .text span that does not start behind an offset; mostly it is that of the entry before, or the next one. */
static bool is_replaced(const struct blocks *b, uint32_t offset, uint32_t *near) {
    const struct span *s = b->span[TEXT - 1];
    uint32_t low = *near, high = b->spans[TEXT - 1];
    if (low + 1 < high && s[low + 1].place <= offset) low++;
    if (s[low].place > offset) high = low, low = 0;
    else if (low + 1 == high || s[low + 1].place > offset) high = low + 1;
    while (high - low > 1) {
        uint32_t middle = (low + high) / 2;
        if (s[middle].place <= offset) low = middle;
        else high = middle;
    }
    if (high == 0) return false;
    *near = low;
    return offset - s[low].place < s[low].size && offset % 4 == 0;
}

/* Which entries of a table of C are left out. */
enum { LEAVES_NONE, LEAVES_REPLACED, LEAVES_JUMPS };

static uint32_t leaves(const struct merge *m, const struct section *table) {
    uint32_t code = span_code(m, table->info);
    if (code == TEXT && m->work->blocks.spans[TEXT - 1] > 0) return LEAVES_REPLACED;
    return code == RODATA && m->work->late.runs > 0 ? LEAVES_JUMPS : LEAVES_NONE;
}

static inline bool is_left_out(const struct merge *m, uint32_t which, uint32_t offset, uint32_t *near) {
    return (which == LEAVES_REPLACED && is_replaced(&m->work->blocks, offset, near))
        || (which == LEAVES_JUMPS && is_jump_word(&m->work->late, offset));
}

/* The bytes of C's entries that stay in a table. */
static uint32_t kept_bytes(const struct merge *m, const struct section *table) {
    uint32_t which = leaves(m, table), step = entry_size(table->type), near = 0, bytes = table->size;
    for (uint32_t at = 0; which != LEAVES_NONE && at < table->size; at += step)
        if (is_left_out(m, which, be32(m->c.file + table->offset + at), &near)) bytes -= step;
    return bytes;
}

/* The number of a symbol of C or of A in the result; 0 where it is not in it. */
static inline uint32_t number_of(const struct merge *m, uint32_t ids, uint32_t count, uint32_t symbol) {
    uint32_t group = symbol < count ? m->work->listed[ids + symbol].group : NONE;
    return group == NONE ? 0 : m->work->listed[group].number;
}

/* Writes an entry with another symbol; false where that is not in the result (20). */
static inline bool put_relocation(uint8_t *to, const uint8_t *from, uint32_t step, uint32_t number) {
    memcpy(to, from, 4);
    put32(to + 4, number << 8 | from[7]);
    if (step == 12) memcpy(to + 8, from + 8, 4);
    return number != 0;
}

static bool write_kept(const struct merge *m, const struct section *table, uint8_t **to) {
    uint32_t which = leaves(m, table), step = entry_size(table->type), near = 0;
    for (uint32_t at = 0; at < table->size; at += step) {
        const uint8_t *from = m->c.file + table->offset + at;
        if (is_left_out(m, which, be32(from), &near)) continue;
        if (!put_relocation(*to, from, step, number_of(m, 0, m->c.symbol_count, be32(from + 4) >> 8))) return false;
        *to += step;
    }
    return true;
}

static bool write_carried(const struct merge *m, struct carried carried, uint8_t **to) {
    const struct section *table = &m->a.section[carried.table];
    uint32_t step = entry_size(table->type), place;
    for (uint32_t at = 0; at < table->size; at += step, *to += step) {
        const uint8_t *from = m->a.file + table->offset + at;
        if (!put_relocation(*to, from, step, number_of(m, A_IDS, m->a.symbol_count, be32(from + 4) >> 8))) return false;
        if (carried.code != LATE) continue;
        if (!late_moved(&m->work->late, be32(from), &place)) return false;
        put32(*to, place);
    }
    return true;
}

/* ---- the writer */

static uint64_t aligned(uint64_t at, uint32_t align) { return align == 0 ? at : (at + align - 1) / align * align; }
static bool has_place(const struct section *s) { return s->type != SHT_NOBITS && s->type != SHT_NULL; }

/* Sizes and offsets of the result's sections. */
static void lay_out(struct merge *m, struct result *r) {
    const struct object *c = &m->c;
    uint32_t symbols = 1;
    for (uint32_t kind = 0; kind < 5; kind++) symbols += m->counts[kind];
    for (uint32_t i = 0; i < m->stay; i++)
        if (is_table(&r->section[i])) r->section[i].size = kept_bytes(m, &c->section[i]);
    for (uint32_t i = 0; i < r->carried; i++) r->section[r->carry[i].home].size += m->a.section[r->carry[i].table].size;
    r->section[c->symtab].size = 16 * symbols;
    r->section[c->symtab].info = 1 + m->counts[0] + m->counts[1];
    // Both string tables may be one.
    r->section[c->names].size = r->names_length;
    if (c->names != c->strtab) r->section[c->strtab].size += m->a.strings_length + m->static_bytes;
    uint64_t at = 52;
    for (uint32_t i = 0; i < r->count; i++) {
        struct section *s = &r->section[i];
        if (!has_place(s)) continue;
        s->offset = at = aligned(at, s->align);
        at += s->size;
    }
    r->length = aligned(at, 4) + 40 * (uint64_t)r->count;
}

static void copy_spans(const struct merge *m, uint32_t code, uint8_t *to) {
    const struct blocks *b = &m->work->blocks;
    const uint8_t *from = m->a.file + m->a.section[m->a.found[code]].offset;
    for (uint32_t i = 0; i < b->spans[code - 1]; i++) {
        const struct span *s = &b->span[code - 1][i];
        memcpy(to + s->place, from + s->place, s->size);
    }
}

static void or_reginfo(const struct merge *m, uint8_t *to, uint32_t size) {
    const struct section *other = &m->a.section[m->a.found[REGINFO]];
    for (uint32_t i = 0; i < size && i < other->size; i++) to[i] |= m->a.file[other->offset + i];
}

/* 17, tested after 20: the offsets of a debug section that moved. */
static bool move_debug(uint8_t *debug, uint32_t size, uint32_t old, uint32_t new) {
    if (size < 96 || be16(debug) != 0x7009) return false;
    for (uint32_t part = 0; part < 11; part++) {
        uint32_t count = 8 + 8 * part;
        if (be32(debug + count) != 0) put32(debug + count + 4, be32(debug + count + 4) + (new - old));
    }
    return true;
}

/* The names of added sections, behind all others. */
static void write_added_names(const struct merge *m, const struct result *r, uint8_t *names) {
    for (uint32_t i = m->stay; i < r->count; i++) {
        const struct section *s = &r->section[i];
        uint32_t code = span_code(m, s->info), prefix = s->type == SHT_REL ? 4 : 5;
        memcpy(names + s->name, ".rela", prefix);
        memcpy(names + s->name + prefix, CODE[code].name, CODE[code].length + 1);
    }
}

/* The bytes of section i: 0, or a number. */
static uint32_t write_section(const struct merge *m, const struct result *r, uint32_t i, uint8_t *to) {
    const struct object *c = &m->c;
    const struct section *s = &r->section[i], *old = i < m->stay ? &c->section[i] : NULL;
    if (is_table(s)) {
        if (old != NULL && !write_kept(m, old, &to)) return 20;
        for (uint32_t k = 0; k < r->carried; k++)
            if (r->carry[k].home == i && !write_carried(m, r->carry[k], &to)) return 20;
        return 0;
    }
    if (i == c->symtab) return 0; // It is there: relocations need the numbers.
    memcpy(to, c->file + old->offset, old->size);
    if (i == c->strtab) {
        memcpy(to + old->size, m->a.strings, m->a.strings_length);
        write_static_names(m, to + old->size + m->a.strings_length);
    }
    if (i == c->names) write_added_names(m, r, to);
    if (i == c->found[REGINFO]) or_reginfo(m, to, s->size);
    for (uint32_t code = TEXT; code <= RODATA; code++)
        if (i == c->found[code]) copy_spans(m, code, to);
    if (i == c->found[RODATA]) write_late(m, to);
    if (s->type == SHT_DEBUG && s->offset != old->offset && !move_debug(to, s->size, old->offset, s->offset)) return 17;
    return 0;
}

static uint32_t write_object(struct merge *m, const struct result *r, uint8_t *out) {
    uint64_t at = 52;
    memcpy(out, m->c.file, 52);
    write_symbols(m, out + r->section[m->c.symtab].offset);
    for (uint32_t i = 0; i < r->count; i++) {
        const struct section *s = &r->section[i];
        if (!has_place(s)) continue;
        memset(out + at, 0, s->offset - at);
        uint32_t number = write_section(m, r, i, out + s->offset);
        if (number != 0) return number;
        at = (uint64_t)s->offset + s->size;
    }
    uint64_t headers = aligned(at, 4);
    memset(out + at, 0, headers - at);
    put32(out + 32, headers);
    put16(out + 48, r->count);
    for (uint32_t i = 0; i < r->count; i++) {
        uint32_t word[10];
        memcpy(word, &r->section[i], sizeof word);
        for (uint32_t k = 0; k < 10; k++) put32(out + headers + 40 * i + 4 * k, word[k]);
    }
    return 0;
}

/* ---- the call */

static bool is_plain_path(const uint8_t *path, size_t length) {
    if (length > PATH_LIMIT) return false;
    for (size_t i = 0; i < length; i++)
        if (path[i] == 0 || path[i] > 127) return false;
    return true;
}

static uint32_t read_inputs(struct merge *m, const uint8_t *compiled, size_t compiled_length, const uint8_t *assembled,
                            size_t assembled_length, size_t file_length) {
    struct work *w = m->work;
    m->c_names = (struct names){&m->c, w->name, w->heads[0]};
    m->a_names = (struct names){&m->a, w->name + A_IDS, w->heads[1]};
    uint32_t number = read_object(&m->c, compiled, compiled_length);
    if (number == 0) number = index_symbols(&m->c_names);
    if (number == 0) number = read_blocks(&w->blocks, m->file, file_length, &m->c_names);
    if (number == 0) number = read_object(&m->a, assembled, assembled_length);
    if (number == 0) number = index_symbols(&m->a_names);
    return number;
}

/* 10 to 21: 0, or a number. */
static uint32_t make_result(struct merge *m, uint8_t *out, size_t room, uint64_t *length) {
    struct result r;
    uint32_t number = check_kept(m);
    r.names_length = m->c.section[m->c.names].size;
    if (number == 0) number = carry_tables(m, &r);
    if (number == 0) number = line_up(m);
    if (number == 0) number = find_late(m);
    if (number == 0) number = list_symbols(m);
    if (number != 0) return number;
    if (m->c.names == m->c.strtab) {
        // Added names stand behind A's strings and the statics.
        for (uint32_t i = m->stay; i < r.count; i++) r.section[i].name += m->a.strings_length + m->static_bytes;
        r.names_length += m->a.strings_length + m->static_bytes;
    }
    lay_out(m, &r);
    *length = r.length;
    return r.length > room ? 21 : write_object(m, &r, out);
}

struct limit_outcome limit_merge(const uint8_t *compiled, size_t compiled_length, const uint8_t *assembled, size_t assembled_length,
                                 const uint8_t *blocks, size_t blocks_length, const uint8_t *path, size_t path_length, uint32_t flag,
                                 uint32_t mode, uint8_t *out, size_t out_length, void *work, size_t work_length) {
    struct merge m;
    m.work = work;
    m.file = blocks;
    m.path = path;
    m.path_length = path_length;
    m.flag = flag;
    m.mode = mode;
    uint64_t length = 0;
    uint32_t number = 1;
    if (work_length >= sizeof(struct work) && compiled_length <= FILE_LIMIT && assembled_length <= FILE_LIMIT && blocks_length <= FILE_LIMIT
        && flag <= 1 && mode <= 3 && is_plain_path(path, path_length))
        number = read_inputs(&m, compiled, compiled_length, assembled, assembled_length, blocks_length);
    if (number == 0) number = make_result(&m, out, out_length, &length);
    memset(work, 0, work_length);
    size_t written = number == 0 ? length : 0;
    memset(out + written, 0, out_length - written);
    return (struct limit_outcome){written, number, 0, number == 21 ? length : 0};
}
