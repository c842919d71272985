/* The symbols of a merge: which of A's are taken (15, 16), the statics of C's debug section (17), the list of all (18, 19), and the
 * table of those that stay. */
#include "merge.h"

/* Where a symbol stands in the result: behind all of the kinds before its own. A `_gp_disp` is the last of its group. */
enum { OF_LOCAL, OF_LOCAL_GP, OF_DEFINED, OF_UNDEFINED, OF_GP };

/* A symbol as it stands in the list. */
struct entry {
    uint32_t section, value;
    uint8_t bind;
};

/* The code of A's section of this index, if it is one of the five; else 0. */
static uint32_t source_code(const struct merge *m, uint32_t section) { return section < m->a.count ? m->source[section] : 0; }

static bool is_placed(uint32_t section) { return section != SHN_UNDEF && section != SHN_ABS; }

/* ---- 17: statics */

/* A bit for each type that opens a scope: 6, 7, 11, 14, 26, 27 and 28. */
static const uint32_t OPENS = 0x1c0048c0;
enum { CLOSES = 8 };

static uint32_t static_digits(const struct stored_static *s, uint8_t text[5]) {
    uint32_t n = 1 + (s->count > 9) + (s->count > 99) + (s->count > 999), rest = s->count;
    for (uint32_t i = n; i-- > 0; rest /= 10) text[i] = '0' + rest % 10;
    return n;
}

/* Writes a working name, and gives its length: at most STATIC_NAME_LIMIT and 5 bytes. */
static uint32_t static_name(const struct merge *m, const struct stored_static *s, uint8_t *to) {
    memcpy(to, m->c.file + s->name, s->length);
    if (s->count == 0) return s->length;
    to[s->length] = ':';
    return s->length + 1 + static_digits(s, to + s->length + 1);
}

static bool is_same_static(const struct merge *m, const struct stored_static *s, const uint8_t *name, uint32_t length) {
    uint8_t own[STATIC_NAME_LIMIT + 8];
    return static_name(m, s, own) == length && memcmp(own, name, length) == 0;
}

/* The count of a static above level 1: one more than the last of its stored name. */
static void count_static(struct merge *m, uint32_t k) {
    struct stored_static *statics = m->work->statics, *s = &statics[k];
    const uint8_t *name = m->c.file + s->name;
    uint16_t *head = &m->work->heads[3][name_hash(name, s->length) >> 20];
    uint32_t i = *head;
    while (i != NONE && !(statics[i].length == s->length && memcmp(m->c.file + statics[i].name, name, s->length) == 0))
        i = statics[i].next;
    s->count = i == NONE ? 1 : statics[i].count + 1;
    s->next = *head;
    *head = k;
}

/* The group of a static's working name: the first symbol of C, of A or the first static that has it. */
static uint32_t static_group(struct merge *m, uint32_t k) {
    uint8_t name[STATIC_NAME_LIMIT + 8];
    struct name *own = &m->work->name[STATIC_IDS + k];
    uint32_t length = static_name(m, &m->work->statics[k], name), hash = name_hash(name, length);
    own->hash = hash;
    if (length == 0) return STATIC_IDS + k;
    uint32_t found = find(&m->c_names, hash, name, length);
    if (found != NONE) return found;
    found = find(&m->a_names, hash, name, length);
    if (found != NONE) return A_IDS + found;
    uint16_t *head = &m->work->heads[2][hash >> 20];
    for (found = *head; found != NONE; found = m->work->name[found].next)
        if (m->work->name[found].hash == hash && is_same_static(m, &m->work->statics[found - STATIC_IDS], name, length)) return found;
    own->next = *head;
    *head = STATIC_IDS + k;
    return STATIC_IDS + k;
}

/* The length of a written name, with its zero. */
static uint32_t written_length(const struct merge *m, const struct stored_static *s) {
    uint8_t text[5];
    return (m->mode == 3 ? m->path_length + 1 : 0) + s->length + (s->count == 0 ? 0 : 1 + static_digits(s, text)) + 1;
}

/* An entry of type 2 or 14. */
static bool add_static(struct merge *m, uint64_t name, uint32_t value, uint32_t storage, int64_t level) {
    static const uint8_t STORAGE[32] = {[1] = TEXT, [2] = DATA, [3] = BSS, [15] = RODATA};
    uint32_t code = STORAGE[storage];
    if (code == 0 || m->c.found[code] == 0 || m->statics == STATIC_LIMIT || name >= m->c.length) return false;
    size_t most = m->c.length - name;
    const uint8_t *start = m->c.file + name, *end = memchr(start, 0, most < STATIC_NAME_LIMIT + 1 ? most : STATIC_NAME_LIMIT + 1);
    if (end == NULL) return false;
    struct stored_static *s = &m->work->statics[m->statics];
    *s = (struct stored_static){value, name, end - start, 0, NONE, code};
    if (level > 1) count_static(m, m->statics);
    m->static_bytes += written_length(m, s);
    m->statics++;
    return true;
}

static uint32_t read_statics(struct merge *m) {
    const struct object *c = &m->c;
    m->statics = m->static_bytes = 0;
    if (m->mode == 0 || !c->debug) return 0;
    const struct section *section = &c->section[c->found[MDEBUG]];
    if (held(section) < 80) return 17;
    const uint8_t *debug = c->file + section->offset;
    uint32_t files = be32(debug + 72);
    uint64_t fd_at = be32(debug + 76), sym_at = be32(debug + 36), names_at = be32(debug + 60);
    memset(m->work->heads[3], 0xff, sizeof m->work->heads[3]);
    for (uint32_t i = 0; i < files; i++) {
        uint64_t fd = fd_at + 72 * (uint64_t)i;
        if (fd + 24 > c->length) return 17;
        uint64_t base = names_at + be32(c->file + fd + 8), at = sym_at + 12 * (uint64_t)be32(c->file + fd + 16);
        int64_t level = 0;
        for (uint32_t left = be32(c->file + fd + 20); left > 0; left--, at += 12) {
            if (at + 12 > c->length) return 17;
            uint32_t bits = be32(c->file + at + 8), kind = bits >> 26;
            if ((kind == 2 || kind == 14)
                && !add_static(m, base + be32(c->file + at), be32(c->file + at + 4), bits >> 21 & 31, level))
                return 17;
            if (kind < 32 && OPENS >> kind & 1) level++;
            else if (kind == CLOSES) level--;
        }
        if (level != 0) return 17;
    }
    return 0;
}

uint8_t *write_static_names(const struct merge *m, uint8_t *to) {
    for (uint32_t k = 0; k < m->statics; k++) {
        if (m->mode == 3) {
            memcpy(to, m->path, m->path_length);
            to += m->path_length;
            *to++ = ':';
        }
        to += static_name(m, &m->work->statics[k], to);
        *to++ = 0;
    }
    return to;
}

/* ---- 15, 16: A's symbols */

static void mark_used(struct merge *m) {
    const struct object *a = &m->a;
    memset(m->work->used, 0, a->symbol_count);
    for (uint32_t i = 0; i < a->count; i++) {
        const struct section *table = &a->section[i];
        if (!is_table(table) || table->size == 0 || source_code(m, table->info) == 0) continue;
        uint32_t step = entry_size(table->type);
        for (uint32_t at = 0; at < table->size; at += step) {
            uint32_t k = be32(a->file + table->offset + at + 4) >> 8;
            if (k < a->symbol_count) m->work->used[k] = 1;
        }
    }
}

/* Marks A's names that are glabels of live blocks, and those that the last .text block gives a size. */
static void mark_glabels(struct merge *m) {
    const struct blocks *b = &m->work->blocks;
    memset(m->work->glabel, 0, m->a.symbol_count * sizeof *m->work->glabel);
    for (uint32_t n = 0; n < b->count; n++) {
        const struct block *block = &b->block[n];
        bool sized = block->taken & 1;
        const uint8_t *at = m->file + block->glabels, *end = m->file + block->dummies;
        for (; at < end && (block->live || sized); sized = false) {
            at += sizeof "glabel=" - 1;
            const uint8_t *line_end = memchr(at, '\n', end - at);
            uint32_t k = find(&m->a_names, name_hash(at, line_end - at), at, line_end - at);
            if (k != NONE && sized) m->work->glabel[k] = (m->work->glabel[k] & GLABEL_LIVE) | (n + 1);
            if (k != NONE && block->live) m->work->glabel[k] |= GLABEL_LIVE;
            at = line_end + 1;
        }
    }
}

/* A's symbol k as it stands in the list. */
static struct entry entry_of_a(const struct merge *m, uint32_t k) {
    const uint8_t *entry = m->a.symbols + 16 * k;
    struct entry e = {be16(entry + 14), be32(entry + 4), entry[12] >> 4};
    if (!is_placed(e.section)) return e;
    uint32_t code = source_code(m, e.section);
    e.section = target(m, code);
    if (code == LATE) late_moved(&m->work->late, e.value, &e.value);
    return e;
}

static struct entry entry_of_c(const struct merge *m, uint32_t k) {
    const uint8_t *entry = m->c.symbols + 16 * k;
    return (struct entry){be16(entry + 14), be32(entry + 4), entry[12] >> 4};
}

static struct entry entry_of_static(const struct merge *m, uint32_t k) {
    const struct stored_static *s = &m->work->statics[k];
    return (struct entry){m->c.found[s->code], s->value, m->mode == 1 ? STB_LOCAL : STB_GLOBAL};
}

static struct entry entry_of(const struct merge *m, uint32_t id) {
    return id < A_IDS ? entry_of_c(m, id) : id < STATIC_IDS ? entry_of_a(m, id - A_IDS) : entry_of_static(m, id - STATIC_IDS);
}

/* ---- 18, 19: the list */

static uint32_t kind_of(struct entry e, uint32_t hash) {
    bool gp = hash & IS_GP_DISP;
    if (e.bind == STB_LOCAL) return gp ? OF_LOCAL_GP : OF_LOCAL;
    return gp ? OF_GP : e.section == SHN_UNDEF ? OF_UNDEFINED : OF_DEFINED;
}

/* Puts an id into the list. The first defined one of a name holds it, else the first. */
static uint32_t list(struct merge *m, uint32_t id, uint32_t group, struct entry e) {
    struct listed *listed = m->work->listed;
    uint32_t hash = m->work->name[id].hash, kind = kind_of(e, hash);
    if (e.bind == STB_LOCAL ? e.section == SHN_UNDEF : (hash & IS_EMPTY) != 0) return 18;
    listed[id].group = group;
    if (listed[group].holder == NONE) {
        listed[group].holder = id;
        m->counts[kind]++;
        return 0;
    }
    if (e.section == SHN_UNDEF) return 0;
    struct entry held = entry_of(m, listed[group].holder);
    if (held.section != SHN_UNDEF) return held.section == e.section && held.value == e.value ? 0 : 19;
    m->counts[kind_of(held, hash)]--;
    m->counts[kind]++;
    listed[group].holder = id;
    return 0;
}

static void unlist(struct merge *m, uint32_t from, uint32_t count) {
    // Group and holder are NONE.
    memset(m->work->listed + from, 0xff, count * sizeof *m->work->listed);
}

static uint32_t list_c(struct merge *m) {
    for (uint32_t k = 1; k < m->c.symbol_count; k++) {
        const struct name *name = &m->work->name[k];
        if (name->hash & IS_LABEL) continue;
        uint32_t number = list(m, k, name->hash & IS_EMPTY ? k : name->first, entry_of_c(m, k));
        if (number != 0) return number;
    }
    return 0;
}

static uint32_t list_a(struct merge *m) {
    uint32_t locals = m->a.section[m->a.symtab].info, place;
    for (uint32_t k = 0; k < m->a.symbol_count; k++) {
        const uint8_t *entry = m->a.symbols + 16 * k;
        const struct name *own = &m->work->name[A_IDS + k];
        bool used = m->work->used[k];
        if (own->hash & IS_LABEL && used) return 15;
        if (own->hash & IS_LABEL || (k < locals && !used)) continue;
        uint32_t section = be16(entry + 14), code = source_code(m, section);
        if (is_placed(section) && (code == 0 || target(m, code) == 0)) return 15;
        if (is_placed(section) && code == LATE && (be32(entry + 4) == 0 || !late_moved(&m->work->late, be32(entry + 4), &place))) return 16;
        uint32_t group = A_IDS + k;
        if ((own->hash & IS_EMPTY) == 0) {
            const uint8_t *name = m->a.strings + be32(entry);
            uint32_t in_c = find(&m->c_names, own->hash, name, strlen((const char *)name));
            if (in_c != NONE) group = in_c;
            else group = A_IDS + own->first;
        }
        uint32_t number = list(m, A_IDS + k, group, entry_of_a(m, k));
        if (number != 0) return number;
    }
    return 0;
}

static uint32_t list_statics(struct merge *m) {
    if (m->statics == 0) return 0;
    memset(m->work->heads[2], 0xff, sizeof m->work->heads[2]);
    for (uint32_t k = 0; k < m->statics; k++) {
        uint32_t number = list(m, STATIC_IDS + k, static_group(m, k), entry_of_static(m, k));
        if (number != 0) return number;
    }
    return 0;
}

uint32_t list_symbols(struct merge *m) {
    memset(m->counts, 0, sizeof m->counts);
    memset(m->source, 0, sizeof m->source);
    for (uint32_t i = 0; i < SOURCES; i++) m->source[m->a.found[SOURCE[i]]] = SOURCE[i];
    m->source[0] = 0; // where one of the five is not there
    mark_used(m);
    mark_glabels(m);
    uint32_t number = read_statics(m);
    if (number != 0) return number;
    unlist(m, 0, m->c.symbol_count);
    unlist(m, A_IDS, m->a.symbol_count);
    unlist(m, STATIC_IDS, m->statics);
    number = list_c(m);
    if (number == 0) number = list_a(m);
    if (number == 0) number = list_statics(m);
    return number;
}

/* ---- the result's table */

/* The number of an id, if it stays; else 0. */
static uint32_t numbered(struct merge *m, uint32_t id, struct entry e, uint32_t next[5]) {
    struct listed *listed = m->work->listed;
    uint32_t group = listed[id].group;
    if (group == NONE || listed[group].holder != id) return 0;
    return listed[group].number = next[kind_of(e, m->work->name[id].hash)]++;
}

static void put_entry(uint8_t *to, uint32_t name, uint32_t size, uint32_t type, uint32_t visibility, struct entry e) {
    put32(to, name);
    put32(to + 4, e.value);
    put32(to + 8, size);
    to[12] = e.bind << 4 | type;
    to[13] = visibility;
    put16(to + 14, e.section);
}

static uint32_t type_of(const struct merge *m, uint32_t id, uint32_t type) {
    return m->work->name[id].hash & IS_GP_DISP ? STT_OBJECT : type;
}

static void write_a(struct merge *m, uint8_t *table, uint32_t k, struct entry e, uint32_t number) {
    const uint8_t *entry = m->a.symbols + 16 * k;
    uint32_t size = be32(entry + 8), type = entry[12] & 15, glabel = m->work->glabel[m->work->name[A_IDS + k].first];
    if (glabel & GLABEL_LIVE && is_placed(e.section)) {
        const struct blocks *b = &m->work->blocks;
        type = STT_FUNC;
        if (glabel != GLABEL_LIVE) size = b->span[TEXT - 1][b->block[(glabel & ~GLABEL_LIVE) - 1].text].size;
    }
    put_entry(table + 16 * number, be32(entry) + m->c.strings_length, size, type_of(m, A_IDS + k, type), entry[13] & 3, e);
}

void write_symbols(struct merge *m, uint8_t *table) {
    uint32_t next[5], name = m->c.strings_length + m->a.strings_length;
    for (uint32_t kind = 0, number = 1; kind < 5; number += m->counts[kind++]) next[kind] = number;
    memset(table, 0, 16);
    for (uint32_t k = 1; k < m->c.symbol_count; k++) {
        struct entry e = entry_of_c(m, k);
        const uint8_t *entry = m->c.symbols + 16 * k;
        uint32_t number = numbered(m, k, e, next);
        if (number != 0) put_entry(table + 16 * number, be32(entry), be32(entry + 8), type_of(m, k, entry[12] & 15), entry[13] & 3, e);
    }
    for (uint32_t k = 0; k < m->a.symbol_count; k++) {
        if (m->work->listed[A_IDS + k].group == NONE) continue;
        struct entry e = entry_of_a(m, k);
        uint32_t number = numbered(m, A_IDS + k, e, next);
        if (number != 0) write_a(m, table, k, e, number);
    }
    for (uint32_t k = 0; k < m->statics; k++) {
        const struct stored_static *s = &m->work->statics[k];
        struct entry e = entry_of_static(m, k);
        uint32_t number = numbered(m, STATIC_IDS + k, e, next), type = s->code == TEXT ? STT_FUNC : STT_OBJECT;
        if (number != 0) put_entry(table + 16 * number, name, 0, type_of(m, STATIC_IDS + k, type), 0, e);
        name += written_length(m, s);
    }
}
