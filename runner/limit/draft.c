/* The draft: C, a prelude and a block file into assembly text. */
#include "blocks.h"
#include "limit.h"

struct work {
    struct blocks blocks;
    uint16_t heads[BUCKETS];
    struct name name[SYMBOL_LIMIT];
};

size_t limit_draft_work(void) { return sizeof(struct work); }

#define SECTION ".section "
#define GLABEL "glabel "
#define START "_asm_start\n"
#define END "_asm_end\n"
#define LATE_HEAD ".section .late_rodata\n.word 0, 0\nglabel _asmpp_late_rodata_start\n"
#define LATE_TAIL "glabel _asmpp_late_rodata_end\n"
#define LENGTH(text) (sizeof text - 1)

static uint32_t digits(uint64_t n) {
    uint32_t count = 1;
    for (; n > 9; n /= 10) count++;
    return count;
}

static uint64_t section_line(uint32_t code) { return LENGTH(SECTION) + CODE[code].length + 1; }

/* The draft's exact length (refusal 21). */
static uint64_t draft_length(const struct blocks *b, size_t prelude_length) {
    uint64_t length = prelude_length + 1 + b->line_bytes;
    if (b->late_bytes > 0) length += LENGTH(LATE_HEAD) + b->late_bytes + LENGTH(LATE_TAIL);
    uint32_t next[SPANS] = {0};
    uint64_t ends[SPANS] = {0};
    for (uint32_t n = 0; n < b->count; n++) {
        const struct block *block = &b->block[n];
        for (uint32_t code = TEXT; code <= SPANS; code++) {
            if ((block->taken >> (code - 1) & 1) == 0) continue;
            const struct span *s = &b->span[code - 1][next[code - 1]++];
            uint64_t gap = s->place - ends[code - 1];
            if (gap > 0) length += section_line(code) + (code == TEXT ? gap / 4 * 4 : LENGTH(".space ") + digits(gap) + 1);
            ends[code - 1] = span_end(s);
            if (block->live) length += 2 * (section_line(code) + LENGTH(GLABEL) + s->label_length) + LENGTH(START) + LENGTH(END);
        }
        if (block->live) length += LENGTH(".text\n");
    }
    return length;
}

static inline uint8_t *put(uint8_t *to, const void *from, size_t length) {
    memcpy(to, from, length);
    return to + length;
}

#define PUT(to, text) put(to, text, LENGTH(text))

static uint8_t *put_section(uint8_t *to, uint32_t code) {
    to = PUT(to, SECTION);
    to = put(to, CODE[code].name, CODE[code].length);
    *to++ = '\n';
    return to;
}

/* The lines that lead from the end before to a span's place. */
static uint8_t *put_gap(uint8_t *to, uint32_t code, uint64_t gap) {
    to = put_section(to, code);
    if (code == TEXT) {
        for (; gap >= 4; gap -= 4) to = PUT(to, "nop\n");
        return to;
    }
    to = PUT(to, ".space ");
    uint32_t n = digits(gap);
    for (uint32_t i = n; i-- > 0; gap /= 10) to[i] = '0' + gap % 10;
    to += n;
    *to++ = '\n';
    return to;
}

/* The lines of a group, each without its key. */
static uint8_t *put_lines(uint8_t *to, const uint8_t *from, const uint8_t *end, size_t key) {
    while (from < end) {
        from += key;
        const uint8_t *next = (const uint8_t *)memchr(from, '\n', end - from) + 1;
        to = put(to, from, next - from);
        from = next;
    }
    return to;
}

static uint8_t *put_labels(uint8_t *to, const struct blocks *b, const uint8_t *file, const struct block *block, const uint32_t *next,
                           const char *end, size_t end_length) {
    for (uint32_t code = TEXT; code <= SPANS; code++) {
        if ((block->taken >> (code - 1) & 1) == 0) continue;
        const struct span *s = &b->span[code - 1][next[code - 1]];
        to = put_section(to, code);
        to = PUT(to, GLABEL);
        to = put(to, file + s->label, s->label_length);
        to = put(to, end, end_length);
    }
    return to;
}

static void put_draft(uint8_t *to, const struct blocks *b, const uint8_t *file, const uint8_t *prelude, size_t prelude_length) {
    uint32_t next[SPANS] = {0};
    uint64_t ends[SPANS] = {0};
    to = put(to, prelude, prelude_length);
    *to++ = '\n';
    for (uint32_t n = 0; n < b->count; n++) {
        const struct block *block = &b->block[n];
        for (uint32_t code = TEXT; code <= SPANS; code++) {
            if ((block->taken >> (code - 1) & 1) == 0) continue;
            const struct span *s = &b->span[code - 1][next[code - 1]];
            if (s->place > ends[code - 1]) to = put_gap(to, code, s->place - ends[code - 1]);
            ends[code - 1] = span_end(s);
        }
        if (block->live) {
            to = put_labels(to, b, file, block, next, START, LENGTH(START));
            to = PUT(to, ".text\n");
            to = put_lines(to, file + block->lines, file + block->late, LENGTH("asm="));
            to = put_labels(to, b, file, block, next, END, LENGTH(END));
        }
        for (uint32_t code = TEXT; code <= SPANS; code++) next[code - 1] += block->taken >> (code - 1) & 1;
    }
    if (b->late_bytes == 0) return;
    to = PUT(to, LATE_HEAD);
    for (uint32_t n = 0; n < b->count; n++)
        if (b->block[n].live) to = put_lines(to, file + b->block[n].late, file + b->block[n].end, LENGTH("late="));
    PUT(to, LATE_TAIL);
}

/* 0, or a number; the draft is in `out` where the length that it needs is not over the room. */
static uint32_t make_draft(struct work *w, const uint8_t *compiled, size_t compiled_length, const uint8_t *prelude, size_t prelude_length,
                           const uint8_t *file, size_t file_length, uint8_t *out, size_t room, uint64_t *length) {
    if (compiled_length > FILE_LIMIT || prelude_length > FILE_LIMIT || file_length > FILE_LIMIT) return 1;
    struct object object;
    struct names names = {&object, w->name, w->heads};
    uint32_t number = read_object(&object, compiled, compiled_length);
    if (number == 0) number = index_symbols(&names);
    if (number == 0) number = read_blocks(&w->blocks, file, file_length, &names);
    if (number != 0) return number;
    *length = draft_length(&w->blocks, prelude_length);
    if (*length > room) return 21;
    put_draft(out, &w->blocks, file, prelude, prelude_length);
    return 0;
}

struct limit_outcome limit_draft(const uint8_t *compiled, size_t compiled_length, const uint8_t *prelude, size_t prelude_length,
                                 const uint8_t *blocks, size_t blocks_length, uint8_t *out, size_t out_length, void *work,
                                 size_t work_length) {
    uint64_t length = 0;
    uint32_t number = work_length < sizeof(struct work)
        ? 1
        : make_draft(work, compiled, compiled_length, prelude, prelude_length, blocks, blocks_length, out, out_length, &length);
    memset(work, 0, work_length);
    size_t written = number == 0 ? length : 0;
    memset(out + written, 0, out_length - written);
    return (struct limit_outcome){written, number, 0, number == 21 ? length : 0};
}
