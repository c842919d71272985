/* Document 01's example, by itself and as a job, and three refusals, from C: draft CASE TEXT, where CASE is
 * three big-endian lengths, then the compiled object, the prelude and the block
 * file, and TEXT is their draft. Prints what differs, and then ends with 1. */
#include "expect.h"

static struct bytes compiled, prelude, blocks, text;
static uint8_t out[4096], table[DAPHULLE_OPEN_TABLE], places[DAPHULLE_PLACE_TABLE];
static struct daphulle_work work;

/* The k-th length at the front of a case. */
static size_t length_at(struct bytes file, size_t k) {
    const uint8_t *p = file.start + 4 * k;
    return (size_t)p[0] << 24 | (size_t)p[1] << 16 | (size_t)p[2] << 8 | p[3];
}

/* Calls the draft with noise in the buffers, and looks at what it leaves there. */
static struct daphulle_outcome call(size_t compiled_length, size_t out_length, size_t table_length) {
    memset(out, 0xA5, sizeof out);
    memset(table, 0xA5, sizeof table);
    memset(places, 0xA5, sizeof places);
    struct daphulle_outcome r = daphulle_draft(compiled.start, compiled_length, prelude.start, prelude.length, blocks.start, blocks.length,
                                               out_length ? out : NULL, out_length, table, table_length, places, sizeof places);
    expect("the output is clear", r.length <= out_length && is_zero(out + r.length, out_length - r.length));
    expect("nothing is written past the output", out_length == sizeof out || out[out_length] == 0xA5);
    expect("the table is clear", is_zero(table, table_length));
    expect("the places are clear", is_zero(places, sizeof places));
    return r;
}

int main(int argc, char **argv) {
    if (argc != 3) return 2;
    struct bytes file = contents(argv[1]);
    text = contents(argv[2]);
    if (file.length < 12) return 2;
    compiled = (struct bytes){file.start + 12, length_at(file, 0)};
    prelude = (struct bytes){compiled.start + compiled.length, length_at(file, 1)};
    blocks = (struct bytes){prelude.start + prelude.length, length_at(file, 2)};
    if (text.length > sizeof out || blocks.start + blocks.length != file.start + file.length) return 2;

    struct daphulle_outcome r = call(compiled.length, sizeof out, sizeof table);
    expect("the draft is accepted", r.number == DAPHULLE_ACCEPTED && r.object == DAPHULLE_NONE && r.place == 0);
    expect("the draft is the text", r.length == text.length && memcmp(out, text.start, text.length) == 0);

    struct daphulle_job job = {
        .compiled = lent(compiled), .prelude = lent(prelude), .blocks = lent(blocks), .out = out, .out_length = sizeof out};
    memset(out, 0xA5, sizeof out);
    memset(&work, 0xA5, sizeof work);
    r = daphulle_draft_job(&job, &work);
    expect("the job is accepted", r.number == DAPHULLE_ACCEPTED && r.object == DAPHULLE_NONE && r.place == 0);
    expect("the job is the text", r.length == text.length && memcmp(out, text.start, text.length) == 0);
    expect("what a draft needs of the work area is clear",
           is_zero(work.table, DAPHULLE_OPEN_TABLE) && is_zero(work.places, DAPHULLE_PLACE_TABLE));

    r = call(51, sizeof out, sizeof table);
    expect("a short object is refused", is_refusal(r, DAPHULLE_FILE_HEADER, DAPHULLE_COMPILED, 51));
    r = call(compiled.length, 0, sizeof table);
    expect("no output is refused", is_refusal(r, DAPHULLE_OUTPUT_ROOM, DAPHULLE_NONE, text.length));
    r = call(compiled.length, sizeof out, sizeof table - 1);
    expect("a short table is refused", is_refusal(r, DAPHULLE_LIMITS, DAPHULLE_NONE, 0));

    printf("%d differences\n", differences);
    return differences != 0;
}
