#include "elf.h"

const struct code CODE[CODES] = {
    [TEXT] = {".text", 5, SHT_PROGBITS},
    [DATA] = {".data", 5, SHT_PROGBITS},
    [RODATA] = {".rodata", 7, SHT_PROGBITS},
    [BSS] = {".bss", 4, SHT_NOBITS},
    [LATE] = {".late_rodata", 12, SHT_PROGBITS},
    [REGINFO] = {".reginfo", 8, SHT_REGINFO},
    [MDEBUG] = {".mdebug", 7, 0},
};

/* 2: the file header. */
static bool header_ok(const uint8_t *file, size_t length) {
    return length >= 52 && memcmp(file, "\177ELF\1\2", 6) == 0 && be16(file + 16) == 1 && be16(file + 18) == 8
        && be32(file + 28) == 0 && be32(file + 32) != 0 && be16(file + 46) == 40 && be16(file + 50) != 0;
}

/* 3: a section header, its type by name apart. */
static bool section_ok(const struct section *s, bool first, size_t length) {
    return (s->type == SHT_NULL) == first && !(first && s->size != 0) && (s->flags & 0x80) == 0
        && (s->entsize == 0 || s->size % s->entsize == 0)
        && (s->type == SHT_NOBITS || (uint64_t)s->offset + s->size <= length) && s->align <= ALIGN_LIMIT;
}

static bool read_sections(struct object *o) {
    uint64_t at = be32(o->file + 32);
    o->count = be16(o->file + 48);
    if (o->count < 1 || o->count > SECTION_LIMIT || at + 40 * (uint64_t)o->count > o->length) return false;
    for (uint32_t i = 0; i < o->count; i++) {
        uint32_t word[10];
        for (uint32_t k = 0; k < 10; k++) word[k] = be32(o->file + at + 40 * i + 4 * k);
        memcpy(&o->section[i], word, sizeof word);
        if (!section_ok(&o->section[i], i == 0, o->length)) return false;
    }
    return true;
}

bool is_called(const struct object *o, uint32_t i, const char *name, size_t length) {
    const struct section *names = &o->section[o->names];
    uint32_t at = o->section[i].name;
    return length < names->size - at && memcmp(o->file + names->offset + at, name, length + 1) == 0;
}

/* 4, and the first section of each code's name. */
static bool name_sections(struct object *o) {
    o->names = be16(o->file + 50);
    if (o->names >= o->count || o->section[o->names].type != SHT_STRTAB) return false;
    const uint8_t *names = o->file + o->section[o->names].offset;
    uint32_t size = o->section[o->names].size;
    memset(o->found, 0, sizeof o->found);
    o->debug = false;
    for (uint32_t i = 0; i < o->count; i++) {
        uint32_t at = o->section[i].name;
        if (at >= size) return false;
        const uint8_t *name = names + at;
        uint32_t n = 0;
        for (; n < size - at && name[n] != 0; n++)
            if (name[n] > 127) return false;
        if (n == size - at) return false;
        for (uint32_t c = TEXT; c < CODES; c++) {
            if (n != CODE[c].length || memcmp(name, CODE[c].name, n) != 0) continue;
            if (c == MDEBUG ? !o->debug : o->found[c] == 0) o->found[c] = i;
            o->debug |= c == MDEBUG;
            // Section 0 is of type 0, which none of codes 1 to 6 has.
            if (c != MDEBUG && i == 0) return false;
        }
    }
    return true;
}

/* 5: the symbol table as a whole. */
static bool read_symtab(struct object *o) {
    for (o->symtab = 0; o->symtab < o->count && o->section[o->symtab].type != SHT_SYMTAB; o->symtab++) continue;
    if (o->symtab == o->count) return false;
    const struct section *table = &o->section[o->symtab];
    o->strtab = table->link;
    o->symbol_count = table->size / 16;
    if (table->entsize != 16 || o->strtab >= o->count || o->section[o->strtab].type != SHT_STRTAB || o->symbol_count < 1
        || o->symbol_count > SYMBOL_LIMIT)
        return false;
    o->symbols = o->file + table->offset;
    o->strings = o->file + o->section[o->strtab].offset;
    o->strings_length = o->section[o->strtab].size;
    return true;
}

uint32_t read_object(struct object *o, const uint8_t *file, size_t length) {
    o->file = file;
    o->length = length;
    if (!header_ok(file, length)) return 2;
    if (!read_sections(o)) return 3;
    if (!name_sections(o)) return 4;
    for (uint32_t c = TEXT; c <= REGINFO; c++)
        if (o->found[c] != 0 && o->section[o->found[c]].type != CODE[c].type) return 3;
    if (!read_symtab(o)) return 5;
    for (uint32_t i = 0; i < o->count; i++) {
        const struct section *s = &o->section[i];
        if (is_table(s) && (s->entsize != entry_size(s->type) || s->info >= o->count || s->link != o->symtab)) return 6;
    }
    return 0;
}

uint32_t index_symbols(const struct names *names) {
    static const uint8_t ZEROS[16];
    const struct object *o = names->object;
    // A name has a zero end if it starts no later than the last zero of the table.
    uint32_t ends = o->strings_length;
    while (ends > 0 && o->strings[ends - 1] != 0) ends--;
    if (ends == 0 || o->strings[0] != 0 || memcmp(o->symbols, ZEROS, 16) != 0) return 5;
    memset(names->heads, 0xff, BUCKETS * sizeof *names->heads);
    for (uint32_t k = 0; k < o->symbol_count; k++) {
        const uint8_t *entry = o->symbols + 16 * k;
        uint32_t at = be32(entry), section = be16(entry + 14);
        if (at >= ends || (section >= o->count && (section < SHN_LORESERVE || section == SHN_XINDEX))) return 5;
        const uint8_t *name = o->strings + at;
        size_t length = strlen((const char *)name);
        uint32_t hash = name_hash(name, length), first = find(names, hash, name, length);
        names->name[k] = (struct name){hash, names->heads[hash >> 20], first == NONE ? k : first};
        if (first == NONE) names->heads[hash >> 20] = k;
    }
    return 0;
}
