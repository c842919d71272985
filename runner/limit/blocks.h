/* The block file (refusal 7) and the places of its blocks (8 and 9). */
#ifndef LIMIT_BLOCKS_H
#define LIMIT_BLOCKS_H

#include "elf.h"

enum {
    BLOCK_LIMIT = 1024,
    NUMBER_LIMIT = 1048576,
    SPANS = 4,           /* codes 1 to 4 are those of a block's spans */
    DUMMY_LINE = 15,     /* `dummy=`, eight digits and LF */
};

/* A span that is taken: its label in the block file, its bytes and its place. */
struct span {
    uint32_t label, label_length, size, place;
};

static inline uint64_t span_end(const struct span *s) { return (uint64_t)s->place + s->size; }

/* Where a block's groups of lines start in the block file. */
struct block {
    uint32_t glabels, dummies, jump, lines, late, end;
    uint32_t table; /* bytes of its jump table */
    uint8_t taken;  /* bit code - 1: its span of this code is taken */
    bool live;      /* no label was absent */
    uint16_t text;  /* the number of its .text span, if that is taken */
};

struct blocks {
    uint32_t count;
    uint32_t spans[SPANS];
    uint64_t line_bytes, late_bytes; /* of live blocks' lines, as a draft has them */
    struct block block[BLOCK_LIMIT];
    struct span span[SPANS][BLOCK_LIMIT]; /* of each code, their places ascend */
};

/* 0, or a number: 7, 8 or 9. The names are C's. */
uint32_t read_blocks(struct blocks *blocks, const uint8_t *file, size_t length, const struct names *names);

#endif
