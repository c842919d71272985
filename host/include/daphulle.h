/* Daphulle, a proved object splicer for MIPS firmware: the calls of libdaphulle.a,
 * and of libdaphulle_words.a the words for a refusal. `tools/install PREFIX` in the
 * repository puts both under a prefix, with files for pkg-config.
 *
 * A call answers every input. Whatever the bytes and the lengths are, it reads
 * only what it is lent, writes only its buffers, ends, and gives back what
 * docs/MANUAL.md says, which has the block file, the refusals and the limits. It
 * asks two things of the caller: each pointer leads to as many bytes as the length
 * behind it says (with length 0 it is not used), and the buffers share no byte with
 * each other or with an input.
 *
 * The buffers may hold anything. On return the working buffers are zeros, and so
 * is the output past the length; after a refusal all of it is.
 *
 * daphulle_draft_job and daphulle_merge_job take the inputs as one struct and the
 * working buffers as another; daphulle_draft and daphulle_merge take each by itself. */
#ifndef DAPHULLE_H
#define DAPHULLE_H

#include <stddef.h>
#include <stdint.h>

#ifdef __cplusplus
extern "C" {
#endif

/* In the archive that `rt lib` writes in crates/daphulle, the calls are named `draft` and
 * `merge`, as document 01 has them. A program that links that one, and not the
 * installed one, defines this, and can have no functions of these names. */
#ifdef DAPHULLE_PLAIN_NAMES
#define daphulle_draft draft
#define daphulle_merge merge
#endif

/* The most bytes of an object, a prelude or a block file, and of a path. */
#define DAPHULLE_FILE_LIMIT 1048576
#define DAPHULLE_PATH_LIMIT 255

/* The least bytes of the working buffers of a draft: `table` and `places`. */
#define DAPHULLE_OPEN_TABLE 73728
#define DAPHULLE_PLACE_TABLE 32768

/* The least bytes of the working buffers of a merge: `table`, `places`, `steps`
 * and `index`. */
#define DAPHULLE_BLOCK_BUFFER 147456
#define DAPHULLE_PLACE_BUFFER 57344
#define DAPHULLE_STEP_BUFFER 328511
#define DAPHULLE_INDEX_BUFFER 57344

/* The number of an outcome; 10 to 20 are the merge's alone. Behind each: what its
 * place is; docs/MANUAL.md has the causes. Section codes: 1 .text, 2 .data,
 * 3 .rodata, 4 .bss, 5 .late_rodata, 6 .reginfo. */
enum daphulle_number {
    DAPHULLE_ACCEPTED = 0,
    DAPHULLE_LIMITS = 1,           /* 0 */
    DAPHULLE_FILE_HEADER = 2,      /* offset of the field; a short file's length */
    DAPHULLE_SECTION_HEADER = 3,   /* section; 0 for their count */
    DAPHULLE_SECTION_NAME = 4,     /* section; 0 for e_shstrndx */
    DAPHULLE_SYMBOL_TABLE = 5,     /* symbol; 0 for the whole table */
    DAPHULLE_RELOCATION_TABLE = 6, /* section */
    DAPHULLE_BLOCK_FILE = 7,       /* line, from 1 */
    DAPHULLE_BLOCK_PLACE = 8,      /* block, from 0 */
    DAPHULLE_BLOCK_ALIGNMENT = 9,  /* block, from 0 */
    DAPHULLE_CLASH = 10,           /* table, or a symbol's section */
    DAPHULLE_MISSING_SECTION = 11, /* section code */
    DAPHULLE_BLOCK_LABELS = 12,    /* block, from 0 */
    DAPHULLE_LATE_LABELS = 13,     /* 0 */
    DAPHULLE_LATE_STEP = 14,       /* block, from 0 */
    DAPHULLE_SYMBOL_SECTION = 15,  /* symbol */
    DAPHULLE_LATE_SYMBOL = 16,     /* symbol */
    DAPHULLE_STATICS = 17,         /* debug entry, from 0; 0 for a debug section */
    DAPHULLE_LOOSE_SYMBOL = 18,    /* position in the list of symbols, from 0 */
    DAPHULLE_NAME_TWICE = 19,      /* position in the list of symbols, from 0 */
    DAPHULLE_LOST_ENTRY = 20,      /* offset of the relocation */
    DAPHULLE_OUTPUT_ROOM = 21      /* the length that the output needs */
};

/* The object that a refusal is about. */
enum daphulle_object {
    DAPHULLE_NONE = 0,
    DAPHULLE_COMPILED = 1,
    DAPHULLE_ASSEMBLED = 2
};

/* The mode of a merge: what it makes of the statics that C's debug section names. */
enum daphulle_mode {
    DAPHULLE_STATICS_NO = 0,
    DAPHULLE_STATICS_LOCAL = 1,
    DAPHULLE_STATICS_GLOBAL = 2,
    DAPHULLE_STATICS_GLOBAL_WITH_FILENAME = 3 /* path and colon before the name */
};

/* What a call gives back. Accepted: number, object and place are 0. Refused: the
 * length is 0. */
struct daphulle_outcome {
    uint64_t length;
    uint32_t number; /* enum daphulle_number */
    uint32_t object; /* enum daphulle_object */
    uint64_t place;
};

/* The draft of a compiled object, a prelude and a block file, into `out`. An
 * output that is too short is refused with DAPHULLE_OUTPUT_ROOM and the exact
 * length as the place: a call with no output (NULL, 0) asks for the length. */
struct daphulle_outcome daphulle_draft(const uint8_t *compiled, size_t compiled_length,
                                       const uint8_t *prelude, size_t prelude_length,
                                       const uint8_t *blocks, size_t blocks_length,
                                       uint8_t *out, size_t out_length,
                                       uint8_t *table, size_t table_length,
                                       uint8_t *places, size_t places_length);

/* The merge of a compiled object, the object that the assembler made of its
 * draft, and the block file, into `out`; room for the output as for a draft. The
 * path has bytes from 1 to 127; `flag` is 1 to drop trailing debug and gptab
 * sections, else 0; `mode` is of enum daphulle_mode. */
struct daphulle_outcome daphulle_merge(const uint8_t *compiled, size_t compiled_length,
                                       const uint8_t *assembled, size_t assembled_length,
                                       const uint8_t *blocks, size_t blocks_length,
                                       const uint8_t *path, size_t path_length,
                                       uint32_t flag, uint32_t mode,
                                       uint8_t *out, size_t out_length,
                                       uint8_t *table, size_t table_length,
                                       uint8_t *places, size_t places_length,
                                       uint8_t *steps, size_t steps_length,
                                       uint8_t *index, size_t index_length);

/* Bytes that are lent. */
struct daphulle_bytes {
    const uint8_t *start;
    size_t length;
};

/* What a call is asked for, and where its result goes. A draft does not look at
 * `assembled`, `path`, `flag` and `mode`, nor a merge at `prelude`. */
struct daphulle_job {
    struct daphulle_bytes compiled;
    struct daphulle_bytes prelude;
    struct daphulle_bytes assembled;
    struct daphulle_bytes blocks;
    struct daphulle_bytes path;
    uint32_t flag;
    uint32_t mode;
    uint8_t *out;
    size_t out_length;
};

/* The working buffers of either call. It has 590,655 bytes: it is for static or
 * allocated memory, not for a stack. One that was used may be used again. */
struct daphulle_work {
    uint8_t table[DAPHULLE_BLOCK_BUFFER];
    uint8_t places[DAPHULLE_PLACE_BUFFER];
    uint8_t steps[DAPHULLE_STEP_BUFFER];
    uint8_t index[DAPHULLE_INDEX_BUFFER];
};

/* daphulle_draft on a job. Of the work area it takes, and clears, what a draft needs. */
static inline struct daphulle_outcome daphulle_draft_job(const struct daphulle_job *job,
                                                         struct daphulle_work *work) {
    return daphulle_draft(job->compiled.start, job->compiled.length,
                          job->prelude.start, job->prelude.length,
                          job->blocks.start, job->blocks.length,
                          job->out, job->out_length,
                          work->table, DAPHULLE_OPEN_TABLE,
                          work->places, DAPHULLE_PLACE_TABLE);
}

/* daphulle_merge on a job. */
static inline struct daphulle_outcome daphulle_merge_job(const struct daphulle_job *job,
                                                         struct daphulle_work *work) {
    return daphulle_merge(job->compiled.start, job->compiled.length,
                          job->assembled.start, job->assembled.length,
                          job->blocks.start, job->blocks.length,
                          job->path.start, job->path.length,
                          job->flag, job->mode,
                          job->out, job->out_length,
                          work->table, sizeof work->table,
                          work->places, sizeof work->places,
                          work->steps, sizeof work->steps,
                          work->index, sizeof work->index);
}

/* The call that an outcome is of. */
enum daphulle_call {
    DAPHULLE_DRAFT = 0,
    DAPHULLE_MERGE = 1
};

/* The words for a refusal (libdaphulle_words.a): what is at fault, as the command says
 * it behind `refused NUMBER OBJECT PLACE: `. `call` is of enum daphulle_call, `job` is
 * the one that was refused, with its inputs as they were; its output is not read.
 * `line` gets as much of the words as it has room for, and a zero byte; it shares no
 * byte with an input. The length of all the words, without the zero, is given back: a
 * call with no room (NULL, 0) asks for it. Where nothing was refused, it is 0.
 *
 * The words are not proved. They are read from the inputs again; where these do not
 * show the fault, the words are the number's general clause. */
size_t daphulle_words(uint32_t call, const struct daphulle_job *job,
                      struct daphulle_outcome outcome,
                      char *line, size_t line_length);

#ifdef __cplusplus
}
#endif

#endif
