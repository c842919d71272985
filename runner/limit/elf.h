/* Objects: what document 01 asks of one ("Reading an object", refusals 2 to 6), and its symbols by name. */
#ifndef LIMIT_ELF_H
#define LIMIT_ELF_H

#include <stdbool.h>
#include <stddef.h>
#include <stdint.h>
#include <string.h>

enum {
    FILE_LIMIT = 1048576,
    SECTION_LIMIT = 128,
    SYMBOL_LIMIT = 4096,
    ALIGN_LIMIT = 65536,
};

enum { SHT_NULL, SHT_PROGBITS, SHT_SYMTAB, SHT_STRTAB, SHT_RELA, SHT_NOBITS = 8, SHT_REL = 9 };
enum { SHT_GPTAB = 0x70000003, SHT_DEBUG = 0x70000005, SHT_REGINFO = 0x70000006 };
enum { SHN_UNDEF = 0, SHN_LORESERVE = 0xff00, SHN_ABS = 0xfff1, SHN_XINDEX = 0xffff };
enum { STB_LOCAL, STB_GLOBAL };
enum { STT_OBJECT = 1, STT_FUNC = 2 };

/* Document 01's section codes, and .mdebug. */
enum { TEXT = 1, DATA, RODATA, BSS, LATE, REGINFO, MDEBUG, CODES };

static inline uint32_t be16(const uint8_t *at) { return (uint32_t)at[0] << 8 | at[1]; }
static inline uint32_t be32(const uint8_t *at) {
    uint32_t word;
    memcpy(&word, at, 4);
    return __builtin_bswap32(word);
}
static inline void put16(uint8_t *at, uint32_t half) { at[0] = half >> 8, at[1] = half; }
static inline void put32(uint8_t *at, uint32_t word) {
    word = __builtin_bswap32(word);
    memcpy(at, &word, 4);
}

/* A section header's ten words. */
struct section {
    uint32_t name, type, flags, addr, offset, size, link, info, align, entsize;
};

struct object {
    const uint8_t *file;
    size_t length;
    uint32_t count;
    struct section section[SECTION_LIMIT];
    uint32_t names; /* e_shstrndx */
    uint32_t symtab, strtab;
    const uint8_t *symbols;
    uint32_t symbol_count;
    const uint8_t *strings;
    uint32_t strings_length;
    /* The first section of each code's name; 0 where there is none. Section 0 can have the name .mdebug alone, hence `debug`. */
    uint32_t found[CODES];
    bool debug;
};

static inline bool is_table(const struct section *s) { return s->type == SHT_REL || s->type == SHT_RELA; }
static inline uint32_t entry_size(uint32_t type) { return type == SHT_REL ? 8 : 12; }
/* The bytes that a section holds. */
static inline uint32_t held(const struct section *s) { return s->type == SHT_NOBITS ? 0 : s->size; }

extern const struct code {
    const char *name;
    uint32_t length, type;
} CODE[CODES];

/* Refusals 2 to 6, but for the symbols' entries, which `index_symbols` tests: 0, or a number. */
uint32_t read_object(struct object *object, const uint8_t *file, size_t length);

/* Whether section i has this name. */
bool is_called(const struct object *object, uint32_t i, const char *name, size_t length);

/* ---- Names: buckets by a hash of the length and of the first bytes. */

enum { BUCKETS = 4096, NONE = 0xffff, HASHED = 2048 };

/* The low bits of a hash say what document 01 asks of a name: it begins `_asmpp_`, it is empty, it is `_gp_disp`. */
enum { IS_LABEL = 1, IS_EMPTY = 2, IS_GP_DISP = 4, NAME_BITS = 7 };

/* A symbol's name. */
struct name {
    uint32_t hash;
    uint16_t next;  /* in its bucket, which has the first of each name */
    uint16_t first; /* the first symbol of the same name */
};

struct names {
    const struct object *object;
    struct name *name;
    uint16_t *heads;
};

static inline uint64_t mixed(uint64_t hash, uint64_t word) {
    hash = (hash ^ word) * 0x9e3779b97f4a7c15;
    return hash ^ hash >> 32;
}

static inline uint64_t word64(const uint8_t *at) {
    uint64_t word;
    memcpy(&word, at, 8);
    return word;
}

static inline uint64_t bytes_hash(const uint8_t *bytes, size_t length) {
    size_t n = length < HASHED ? length : HASHED;
    uint64_t hash = length, word = 0;
    if (n >= 8) {
        for (size_t i = 0; i + 8 < n; i += 8) hash = mixed(hash, word64(bytes + i));
        return mixed(hash, word64(bytes + n - 8));
    }
    for (size_t i = 0; i < n; i++) word = word << 8 | bytes[i];
    return mixed(hash, word);
}

/* The ends that a draft puts behind its labels. A name with one of them is hashed without it, so that a label is hashed once for both. */
enum { NO_END, ASM_START, ASM_END, ENDS };
static const struct name_end {
    const char *text;
    uint32_t length;
} NAME_END[ENDS] = {{"", 0}, {"_asm_start", 10}, {"_asm_end", 8}};

/* The hash of a name: the bytes before its end, their hash, and which end it is. */
static inline uint32_t ended_hash(const uint8_t *bytes, size_t n, uint64_t hash, uint32_t end) {
    bool is_label = n >= 7 ? memcmp(bytes, "_asmpp_", 7) == 0 : n == 6 && end != NO_END && memcmp(bytes, "_asmpp", 6) == 0;
    bool is_gp_disp = n == 8 && end == NO_END && memcmp(bytes, "_gp_disp", 8) == 0;
    uint32_t bits = is_label * IS_LABEL | (n == 0 && end == NO_END) * IS_EMPTY | is_gp_disp * IS_GP_DISP;
    return (uint32_t)(mixed(hash, end) >> 32 & ~(uint64_t)NAME_BITS) | bits;
}

static inline uint32_t end_of(const uint8_t *name, size_t length) {
    if (length > 10 && memcmp(name + length - 10, "_asm_start", 10) == 0) return ASM_START;
    return length > 8 && memcmp(name + length - 8, "_asm_end", 8) == 0 ? ASM_END : NO_END;
}

static inline uint32_t name_hash(const uint8_t *name, size_t length) {
    uint32_t end = end_of(name, length);
    size_t n = length - NAME_END[end].length;
    return ended_hash(name, n, bytes_hash(name, n), end);
}

/* Whether the zero-ended string at `at` is these bytes and this end. */
static inline bool is_named(const struct object *object, uint32_t at, const uint8_t *bytes, size_t n, uint32_t end) {
    const uint8_t *string = object->strings + at;
    size_t length = n + NAME_END[end].length;
    return length < object->strings_length - at && string[length] == 0 && memcmp(string, bytes, n) == 0
        && memcmp(string + n, NAME_END[end].text, NAME_END[end].length) == 0;
}

/* The first symbol of a name with this end, or NONE. */
static inline uint32_t find_ended(const struct names *names, uint32_t hash, const uint8_t *bytes, size_t n, uint32_t end) {
    uint32_t k = names->heads[hash >> 20];
    while (k != NONE && !(names->name[k].hash == hash && is_named(names->object, be32(names->object->symbols + 16 * k), bytes, n, end)))
        k = names->name[k].next;
    return k;
}

static inline uint32_t find(const struct names *names, uint32_t hash, const uint8_t *name, size_t length) {
    return find_ended(names, hash, name, length, NO_END);
}

/* Tests the entries of the symbol table (refusal 5) and fills the buckets. */
uint32_t index_symbols(const struct names *names);

#endif
