/* A known merge, by itself and as a job, and refusals, from C: merge COMPILED ASSEMBLED BLOCKS MERGED. Prints
 * what differs, and then ends with 1. */
#include "expect.h"

static struct bytes compiled, assembled, blocks, merged;
static uint8_t out[65536], table[DAPHULLE_BLOCK_BUFFER], places[DAPHULLE_PLACE_BUFFER];
static uint8_t steps[DAPHULLE_STEP_BUFFER], index_[DAPHULLE_INDEX_BUFFER];
static struct daphulle_work work;

/* Calls the merge with noise in the buffers, and looks at what it leaves there. */
static struct daphulle_outcome call(size_t assembled_length, uint32_t flag, uint32_t mode, size_t out_length, size_t index_length) {
    memset(out, 0xA5, sizeof out);
    memset(table, 0xA5, sizeof table);
    memset(places, 0xA5, sizeof places);
    memset(steps, 0xA5, sizeof steps);
    memset(index_, 0xA5, sizeof index_);
    struct daphulle_outcome r = daphulle_merge(compiled.start, compiled.length, assembled.start, assembled_length, blocks.start, blocks.length,
                                               (const uint8_t *)"c.o", 3, flag, mode, out_length ? out : NULL, out_length, table, sizeof table,
                                               places, sizeof places, steps, sizeof steps, index_, index_length);
    expect("the output is clear", r.length <= out_length && is_zero(out + r.length, out_length - r.length));
    expect("nothing is written past the output", out_length == sizeof out || out[out_length] == 0xA5);
    expect("the working buffers are clear", is_zero(table, sizeof table) && is_zero(places, sizeof places) && is_zero(steps, sizeof steps) && is_zero(index_, index_length));
    return r;
}

int main(int argc, char **argv) {
    if (argc != 5) return 2;
    compiled = contents(argv[1]);
    assembled = contents(argv[2]);
    blocks = contents(argv[3]);
    merged = contents(argv[4]);

    struct daphulle_outcome r = call(assembled.length, 0, DAPHULLE_STATICS_LOCAL, sizeof out, sizeof index_);
    expect("the merge is accepted", r.number == DAPHULLE_ACCEPTED && r.object == DAPHULLE_NONE && r.place == 0);
    expect("the merge is the known one", r.length == merged.length && memcmp(out, merged.start, merged.length) == 0);

    struct daphulle_job job = {
        .compiled = lent(compiled), .assembled = lent(assembled), .blocks = lent(blocks), .path = {(const uint8_t *)"c.o", 3},
        .flag = 0, .mode = DAPHULLE_STATICS_LOCAL, .out = out, .out_length = sizeof out};
    memset(out, 0xA5, sizeof out);
    memset(&work, 0xA5, sizeof work);
    r = daphulle_merge_job(&job, &work);
    expect("the job is accepted", r.number == DAPHULLE_ACCEPTED && r.object == DAPHULLE_NONE && r.place == 0);
    expect("the job is the known merge", r.length == merged.length && memcmp(out, merged.start, merged.length) == 0);
    expect("the work area is clear", is_zero((const uint8_t *)&work, sizeof work));
    job.flag = 2;
    expect("the job's flag is looked at", is_refusal(daphulle_merge_job(&job, &work), DAPHULLE_LIMITS, DAPHULLE_NONE, 0));
    job.flag = 0;
    job.mode = 4;
    expect("the job's mode is looked at", is_refusal(daphulle_merge_job(&job, &work), DAPHULLE_LIMITS, DAPHULLE_NONE, 0));
    job.mode = 0;
    job.path.length = 4;
    expect("the job's path is looked at", is_refusal(daphulle_merge_job(&job, &work), DAPHULLE_LIMITS, DAPHULLE_NONE, 0));

    r = call(51, 0, DAPHULLE_STATICS_NO, sizeof out, sizeof index_);
    expect("a short object is refused", is_refusal(r, DAPHULLE_FILE_HEADER, DAPHULLE_ASSEMBLED, 51));
    r = call(assembled.length, 0, DAPHULLE_STATICS_NO, 0, sizeof index_);
    expect("no output is refused", is_refusal(r, DAPHULLE_OUTPUT_ROOM, DAPHULLE_NONE, merged.length));
    r = call(assembled.length, 0, DAPHULLE_STATICS_NO, sizeof out, sizeof index_ - 1);
    expect("a short index is refused", is_refusal(r, DAPHULLE_LIMITS, DAPHULLE_NONE, 0));
    r = call(assembled.length, 2, DAPHULLE_STATICS_NO, sizeof out, sizeof index_);
    expect("an unknown flag is refused", is_refusal(r, DAPHULLE_LIMITS, DAPHULLE_NONE, 0));
    r = call(assembled.length, 1, DAPHULLE_STATICS_GLOBAL_WITH_FILENAME + 1, sizeof out, sizeof index_);
    expect("an unknown mode is refused", is_refusal(r, DAPHULLE_LIMITS, DAPHULLE_NONE, 0));

    printf("%d differences\n", differences);
    return differences != 0;
}
