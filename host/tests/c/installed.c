/* The installed library beside functions that have document 01's names for its calls:
 * installed COMPILED PRELUDE BLOCKS TEXT ASSEMBLED MERGED, where TEXT is the draft of the
 * first three, and MERGED their merge with ASSEMBLED. Prints the words for refusals, a
 * line for each, then what differs, and then ends with 1. */
#include "expect.h"

int draft(int number);
int merge(int number, int other);

int draft(int number) { return number + 1; }
int merge(int number, int other) { return number * other; }

static struct daphulle_job job;
static struct daphulle_work work;
static uint8_t out[65536], long_prelude[DAPHULLE_FILE_LIMIT + 1];

/* Prints the words for an outcome; a length that is wrong is a difference. */
static void tell(uint32_t call, struct daphulle_outcome outcome) {
    char line[1024];
    memset(line, '-', sizeof line);
    size_t length = daphulle_words(call, &job, outcome, line, sizeof line);
    expect("the line ends where it is said to", length < sizeof line && strlen(line) == length);
    expect("the length is told without room", daphulle_words(call, &job, outcome, NULL, 0) == length);
    printf("%s\n", line);
    memset(line, '-', sizeof line);
    expect("the line has its length where it is cut", daphulle_words(call, &job, outcome, line, 5) == length);
    expect("the line is cut", length < 4 || (strlen(line) == 4 && line[5] == '-'));
}

static void tell_draft(void) { tell(DAPHULLE_DRAFT, daphulle_draft_job(&job, &work)); }
static void tell_merge(void) { tell(DAPHULLE_MERGE, daphulle_merge_job(&job, &work)); }

int main(int argc, char **argv) {
    if (argc != 7) return 2;
    struct bytes text = contents(argv[4]), merged = contents(argv[6]);
    const struct daphulle_job whole = {
        .compiled = lent(contents(argv[1])), .prelude = lent(contents(argv[2])), .assembled = lent(contents(argv[5])),
        .blocks = lent(contents(argv[3])), .path = {(const uint8_t *)"c.o", 3},
        .mode = DAPHULLE_STATICS_LOCAL, .out = out, .out_length = sizeof out};

    job = whole;
    struct daphulle_outcome r = daphulle_draft_job(&job, &work);
    expect("the draft is the text", r.length == text.length && memcmp(out, text.start, text.length) == 0);
    expect("an accepted draft has no words", daphulle_words(DAPHULLE_DRAFT, &job, r, NULL, 0) == 0);
    r = daphulle_merge_job(&job, &work);
    expect("the merge is the known one", r.length == merged.length && memcmp(out, merged.start, merged.length) == 0);
    expect("an accepted merge has no words", daphulle_words(DAPHULLE_MERGE, &job, r, NULL, 0) == 0);
    expect("the program's own functions are its own", draft(1) == 2 && merge(3, 4) == 12);

    job.compiled.length = 51;
    tell_draft();
    job = whole;
    job.out_length = 7;
    tell_draft();
    job = whole;
    job.blocks.length--;
    tell_draft();
    job = whole;
    job.prelude = (struct daphulle_bytes){long_prelude, sizeof long_prelude};
    tell_draft();

    job = whole;
    job.assembled.length = 51;
    tell_merge();
    job = whole;
    job.assembled = job.compiled;
    tell_merge();
    job = whole;
    job.path = (struct daphulle_bytes){(const uint8_t *)"c.\200", 3};
    tell_merge();

    job = whole;
    job.flag = 2;
    tell_merge();
    job = whole;
    job.mode = 4;
    tell_merge();
    job = whole;
    tell(2, (struct daphulle_outcome){.number = DAPHULLE_LIMITS});
    tell(DAPHULLE_MERGE, (struct daphulle_outcome){.number = 22});

    printf("%d differences\n", differences);
    return differences != 0;
}
