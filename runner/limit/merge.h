/* What the steps of a merge hand to each other. */
#ifndef LIMIT_MERGE_H
#define LIMIT_MERGE_H

#include "blocks.h"

enum {
    PATH_LIMIT = 255,
    STATIC_LIMIT = 4096,
    STATIC_NAME_LIMIT = 1024,
    DUMMY_LIMIT = FILE_LIMIT / DUMMY_LINE,
    /* Symbols of C, of A, then statics. */
    A_IDS = SYMBOL_LIMIT,
    STATIC_IDS = 2 * SYMBOL_LIMIT,
    ID_LIMIT = 2 * SYMBOL_LIMIT + STATIC_LIMIT,
};

/* A live block with dummies: its late words stand in A's .late_rodata from `start` on, its jump table at `jump_at` of C's .rodata. */
struct late_run {
    uint32_t start, dummies, block;
    uint32_t first; /* the number of its first dummy */
    uint32_t jump_at, jump;
    uint32_t moved_on; /* 1 where its first dummy moved on by 4 */
};

/* The late words. Places ascend and are below 2^20, so that a half for each dummy is enough, with the number of the first dummy in
 * each 65,536 bytes. */
struct late {
    uint32_t runs, dummies, high;
    uint32_t first_of[FILE_LIMIT >> 16];
    struct late_run run[BLOCK_LIMIT];
    uint16_t place[DUMMY_LIMIT];
};

/* A static of C's debug section. */
struct stored_static {
    uint32_t value, name; /* the name stands in C */
    uint16_t length;
    uint16_t count; /* behind the name and a colon; 0 where it has none */
    uint16_t next;  /* of those with a count, in the bucket of its stored name */
    uint16_t code;
};

/* An id's part in the list of symbols. */
struct listed {
    uint16_t group;  /* stands for its working name; NONE where it is not in the list */
    uint16_t holder; /* of a group: the id that stays */
    uint16_t number; /* of a group: its number in the result */
};

struct work {
    struct blocks blocks;
    uint16_t heads[4][BUCKETS]; /* names of C, of A, working names of statics, stored names of counted ones */
    struct name name[ID_LIMIT];
    struct listed listed[ID_LIMIT];
    struct stored_static statics[STATIC_LIMIT];
    uint16_t glabel[SYMBOL_LIMIT]; /* of A's first symbol of a name: GLABEL_LIVE, and the block with its size, from 1 */
    uint8_t used[SYMBOL_LIMIT];    /* A's symbols that a relocation of its five sections uses */
    struct late late;
};

enum { GLABEL_LIVE = 0x8000 };

struct merge {
    struct work *work;
    struct object c, a;
    struct names c_names, a_names;
    const uint8_t *file; /* the block file */
    const uint8_t *path;
    uint32_t path_length, flag, mode;
    uint32_t stay; /* C's sections that are not dropped */
    uint8_t source[SECTION_LIMIT]; /* of A's sections, the code of each of the five */
    uint32_t statics, static_bytes;
    /* How many symbols stay, by their place in the result. */
    uint32_t counts[5];
};

/* A's five sections, in the order in which the Rust takes them. */
enum { SOURCES = 5 };
static const uint8_t SOURCE[SOURCES] = {DATA, TEXT, RODATA, BSS, LATE};

/* C's section that a section of A goes to. */
static inline uint32_t target(const struct merge *m, uint32_t code) { return m->c.found[code == LATE ? RODATA : code]; }

/* Where a late word moved to; false where nothing stands at this offset of A's .late_rodata. */
bool late_moved(const struct late *late, uint32_t offset, uint32_t *place);
/* Whether a jump-table word starts at this offset of C's .rodata. */
bool is_jump_word(const struct late *late, uint32_t offset);
uint32_t find_late(struct merge *m);
void write_late(const struct merge *m, uint8_t *rodata);

/* 15 to 19: the list of symbols, and which of them stay. */
uint32_t list_symbols(struct merge *m);
/* Numbers them, and writes the symbol table. */
void write_symbols(struct merge *m, uint8_t *table);
/* The statics' names, as the string table has them. */
uint8_t *write_static_names(const struct merge *m, uint8_t *to);

#endif
