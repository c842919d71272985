/* The late words: refusals 13 and 14, where each of A's goes, and the moves. */
#include "merge.h"

#define LATE_START "_asmpp_late_rodata_start"
#define LATE_END "_asmpp_late_rodata_end"

static uint32_t place_of(const struct late *late, uint32_t dummy) {
    uint32_t high = 0;
    while (high < late->high && late->first_of[high + 1] <= dummy) high++;
    return high << 16 | late->place[dummy];
}

static void add_place(struct late *late, uint32_t place) {
    while (late->high < place >> 16) late->first_of[++late->high] = late->dummies;
    late->place[late->dummies++] = place;
}

/* The last run whose first late word, or whose jump table, is not behind an offset. */
static const struct late_run *run_at(const struct late *late, uint32_t offset, bool by_jump) {
    uint32_t low = 0, high = late->runs;
    while (low < high) {
        uint32_t middle = (low + high) / 2;
        if ((by_jump ? late->run[middle].jump_at : late->run[middle].start) <= offset) low = middle + 1;
        else high = middle;
    }
    return low == 0 ? NULL : &late->run[low - 1];
}

bool late_moved(const struct late *late, uint32_t offset, uint32_t *place) {
    const struct late_run *run = run_at(late, offset, false);
    if (run == NULL) return false;
    uint32_t words = offset - run->start, jump = words - 4 * run->dummies;
    if (words % 4 != 0) return false;
    if (words < 4 * run->dummies) *place = place_of(late, run->first + words / 4);
    else if (jump < run->jump) *place = run->jump_at + jump;
    else return false;
    return true;
}

bool is_jump_word(const struct late *late, uint32_t offset) {
    const struct late_run *run = run_at(late, offset, true);
    return run != NULL && offset - run->jump_at < run->jump && (offset - run->jump_at) % 4 == 0;
}

static const uint8_t *label_of(const struct merge *m, const char *name) {
    size_t length = strlen(name);
    uint32_t k = find(&m->a_names, name_hash((const uint8_t *)name, length), (const uint8_t *)name, length);
    return k == NONE ? NULL : m->a.symbols + 16 * k;
}

static uint32_t digit(uint8_t c) { return c <= '9' ? c - '0' : c - 'a' + 10; }

/* The word of a dummy's line. */
static void dummy_word(const uint8_t *line, uint8_t word[4]) {
    for (int i = 0; i < 4; i++) word[i] = digit(line[6 + 2 * i]) << 4 | digit(line[7 + 2 * i]);
}

/* The first of these bytes where a word stands, or NULL. */
static const uint8_t *search(const uint8_t *at, const uint8_t *end, const uint8_t word[4]) {
    for (; end - at >= 4; at++) {
        at = memchr(at, word[0], end - at - 3);
        if (at == NULL || memcmp(at, word, 4) == 0) return at;
    }
    return NULL;
}

/* 14: the dummies of a block, from `*last` on in C's .rodata, which is as block copying leaves it there: no block ends behind. */
static bool find_dummies(struct late *late, struct late_run *run, const uint8_t *lines, const uint8_t *rodata, uint32_t length,
                         uint32_t *last) {
    for (uint32_t k = 0; k < run->dummies; k++) {
        uint8_t word[4];
        dummy_word(lines + DUMMY_LINE * k, word);
        const uint8_t *found = search(rodata + *last, rodata + length, word);
        if (found == NULL) return false;
        uint32_t at = found - rodata;
        if (k == 0 && run->dummies > 1) {
            if (length - at < 8) return false;
            run->moved_on = be32(found + 4) == 0;
            at += 4 * run->moved_on;
        }
        add_place(late, at);
        *last = at + 4;
    }
    return true;
}

uint32_t find_late(struct merge *m) {
    struct late *late = &m->work->late;
    const struct blocks *b = &m->work->blocks;
    late->runs = late->dummies = late->high = 0;
    uint64_t length = 0;
    for (uint32_t n = 0; n < b->count; n++) {
        const struct block *block = &b->block[n];
        if (!block->live || (block->dummies == block->jump && block->table == 0)) continue;
        uint32_t dummies = (block->jump - block->dummies) / DUMMY_LINE;
        // A jump table without a dummy is refused by 14.
        if (dummies == 0) return 14;
        late->run[late->runs++] = (struct late_run){.start = length, .dummies = dummies, .block = n, .jump = block->table};
        length += 4 * dummies + block->table;
    }
    if (late->runs == 0) return 0;
    uint32_t of_c = m->c.found[RODATA], of_a = m->a.found[LATE];
    if (of_c == 0 || of_a == 0) return 11;
    const uint8_t *start = label_of(m, LATE_START), *end = label_of(m, LATE_END);
    if (start == NULL || end == NULL || be16(start + 14) != of_a || be16(end + 14) != of_a
        || be32(start + 4) + length != be32(end + 4) || be32(end + 4) > m->a.section[of_a].size)
        return 13;
    const uint8_t *rodata = m->c.file + m->c.section[of_c].offset;
    uint32_t room = m->c.section[of_c].size, spans = b->spans[RODATA - 1], last = 0;
    if (spans > 0) last = span_end(&b->span[RODATA - 1][spans - 1]);
    for (uint32_t i = 0; i < late->runs; i++) {
        struct late_run *run = &late->run[i];
        run->start += be32(start + 4);
        run->first = late->dummies;
        if (!find_dummies(late, run, m->file + b->block[run->block].dummies, rodata, room, &last)) return 14;
        run->jump_at = last;
        if (run->jump > room - last) return 14;
        last += run->jump;
    }
    return 0;
}

void write_late(const struct merge *m, uint8_t *rodata) {
    const struct late *late = &m->work->late;
    if (late->runs == 0) return;
    const uint8_t *words = m->a.file + m->a.section[m->a.found[LATE]].offset;
    for (uint32_t i = 0; i < late->runs; i++) {
        const struct late_run *run = &late->run[i];
        for (uint32_t k = 0; k < run->dummies; k++) {
            uint32_t place = place_of(late, run->first + k);
            if (k == 0 && run->moved_on) memset(rodata + place - 4, 0, 4);
            memcpy(rodata + place, words + run->start + 4 * k, 4);
        }
        memcpy(rodata + run->jump_at, words + run->start + 4 * run->dummies, run->jump);
    }
}
