/* The two calls in plain C, written to be measured beside the proved ones: the same inputs, the same bytes for every job that document 01 accepts,
 * and zeros where document 01 asks for them. A job that document 01 refuses gets a number, which need not be the right one; object and place are 0, but
 * for the length that refusal 21 gives.
 *
 * Nothing here is proved, and nothing but the runner links it. No function is called `draft` or `merge`: the runner's fuzzing knows the proved calls by these
 * names. */
#ifndef LIMIT_H
#define LIMIT_H

#include <stddef.h>
#include <stdint.h>

struct limit_outcome {
    uint64_t length;
    uint32_t number;
    uint32_t object;
    uint64_t place;
};

/* The bytes of `work`, which is one buffer here, aligned for words. All of it is zeroed on every return, whatever it held. */
size_t limit_draft_work(void);
size_t limit_merge_work(void);

struct limit_outcome limit_draft(const uint8_t *compiled, size_t compiled_length,
                                 const uint8_t *prelude, size_t prelude_length,
                                 const uint8_t *blocks, size_t blocks_length,
                                 uint8_t *out, size_t out_length,
                                 void *work, size_t work_length);

struct limit_outcome limit_merge(const uint8_t *compiled, size_t compiled_length,
                                 const uint8_t *assembled, size_t assembled_length,
                                 const uint8_t *blocks, size_t blocks_length,
                                 const uint8_t *path, size_t path_length,
                                 uint32_t flag, uint32_t mode,
                                 uint8_t *out, size_t out_length,
                                 void *work, size_t work_length);

#endif
