#include "blocks.h"

/* The next byte to read, and the end of the file. */
struct reader {
    const uint8_t *at, *end;
};

/* Takes a key, if the line starts with it. A macro, so that each key's length is known to the compiler. */
#define KEY(r, word) \
    ((size_t)((r)->end - (r)->at) >= sizeof word - 1 && memcmp((r)->at, word, sizeof word - 1) == 0 && ((r)->at += sizeof word - 1, true))

/* Takes what is left of a line, and its LF. */
static inline bool rest(struct reader *r) {
    const uint8_t *end = memchr(r->at, '\n', r->end - r->at);
    if (end != NULL) r->at = end + 1;
    return end != NULL;
}

static inline bool byte(struct reader *r, uint8_t wanted) { return r->at < r->end && *r->at++ == wanted; }

/* Takes a number without leading zero. */
static inline bool number(struct reader *r, uint32_t limit, uint32_t *value) {
    const uint8_t *start = r->at;
    *value = 0;
    while (r->at < r->end && r->at - start < 8 && (uint8_t)(*r->at - '0') < 10) *value = 10 * *value + (*r->at++ - '0');
    return r->at > start && !(*start == '0' && r->at - start > 1) && *value <= limit;
}

/* Takes a label, which is not empty, up to a space or LF. */
static inline uint32_t label(struct reader *r) {
    const uint8_t *start = r->at;
    while (r->at < r->end && *r->at != ' ' && *r->at != '\n') r->at++;
    return r->at - start;
}

static inline bool dummy(struct reader *r) {
    if (r->end - r->at < 9) return false;
    for (int i = 0; i < 8; i++) {
        uint8_t digit = r->at[i];
        if ((uint8_t)(digit - '0') > 9 && (uint8_t)(digit - 'a') > 5) return false;
    }
    r->at += 8;
    return *r->at++ == '\n';
}

struct walk {
    struct blocks *blocks;
    const uint8_t *file;
    const struct names *names;
    uint64_t ends[SPANS]; /* of the block before in each section */
    uint32_t fault;       /* 8 or 9, which count only if the file is well formed */
};

/* 8 and 9: takes a span if its block is on and C has its label. */
static void place(struct walk *w, struct block *block, uint32_t code, struct span span, uint32_t align8) {
    uint32_t *count = &w->blocks->spans[code - 1];
    const uint8_t *name = w->file + span.label;
    if (!block->live || w->fault) return;
    if (span.size == 0) {
        w->fault = 8;
        return;
    }
    uint32_t k = find(w->names, name_hash(name, span.label_length), name, span.label_length);
    if (k == NONE) {
        block->live = false;
        return;
    }
    span.place = be32(w->names->object->symbols + 16 * k + 4);
    if (span.place < w->ends[code - 1]) w->fault = 8;
    else if (align8 != 0 && align8 != 8 - span.place % 8) w->fault = 9;
    w->ends[code - 1] = span_end(&span);
    block->taken |= 1 << (code - 1);
    if (code == TEXT) block->text = *count;
    w->blocks->span[code - 1][(*count)++] = span;
}

/* The value of a span's line: empty, or label, size and align8. */
static bool span_line(struct walk *w, struct reader *r, struct block *block, uint32_t code) {
    if (r->at < r->end && *r->at == '\n') {
        r->at++;
        return true;
    }
    struct span span = {.label = r->at - w->file};
    uint32_t align8;
    span.label_length = label(r);
    if (span.label_length == 0 || !byte(r, ' ') || !number(r, NUMBER_LIMIT, &span.size) || !byte(r, ' ') || !number(r, 8, &align8)
        || !byte(r, '\n'))
        return false;
    place(w, block, code, span, align8);
    return true;
}

static bool read_block(struct walk *w, struct reader *r, struct block *block) {
    *block = (struct block){.live = true};
    if (!KEY(r, "desc=") || !rest(r)) return false;
    if (!KEY(r, "text=") || !span_line(w, r, block, TEXT)) return false;
    if (!KEY(r, "data=") || !span_line(w, r, block, DATA)) return false;
    if (!KEY(r, "rodata=") || !span_line(w, r, block, RODATA)) return false;
    if (!KEY(r, "bss=") || !span_line(w, r, block, BSS)) return false;
    block->glabels = r->at - w->file;
    while (KEY(r, "glabel="))
        if (label(r) == 0 || !byte(r, '\n')) return false;
    block->dummies = r->at - w->file;
    while (KEY(r, "dummy="))
        if (!dummy(r)) return false;
    block->jump = r->at - w->file;
    if (!KEY(r, "jtbl=") || !number(r, NUMBER_LIMIT, &block->table) || !byte(r, '\n')) return false;
    uint32_t lines = 0, late = 0;
    block->lines = r->at - w->file;
    for (; KEY(r, "asm="); lines++)
        if (!rest(r)) return false;
    block->late = r->at - w->file;
    for (; KEY(r, "late="); late++)
        if (!rest(r)) return false;
    block->end = r->at - w->file;
    if (block->live) {
        w->blocks->line_bytes += block->late - block->lines - 4 * lines;
        w->blocks->late_bytes += block->end - block->late - 5 * late;
    }
    return KEY(r, "end=") && byte(r, '\n');
}

uint32_t read_blocks(struct blocks *blocks, const uint8_t *file, size_t length, const struct names *names) {
    struct walk w = {.blocks = blocks, .file = file, .names = names};
    struct reader r = {file, file + length};
    blocks->count = 0;
    blocks->line_bytes = blocks->late_bytes = 0;
    memset(blocks->spans, 0, sizeof blocks->spans);
    while (r.at < r.end) {
        if (blocks->count == BLOCK_LIMIT || !read_block(&w, &r, &blocks->block[blocks->count])) return 7;
        blocks->count++;
    }
    return w.fault;
}
