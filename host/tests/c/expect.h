/* What the programs beside it share: bytes of a file, what is expected, refusals. */
#ifndef EXPECT_H
#define EXPECT_H

#include <daphulle.h>
#include <stdio.h>
#include <stdlib.h>
#include <string.h>

struct bytes {
    uint8_t *start;
    size_t length;
};

static int differences;

static struct bytes contents(const char *name) {
    struct bytes file = {malloc(65536), 0};
    FILE *stream = fopen(name, "rb");
    if (!stream || !file.start) {
        perror(name);
        exit(2);
    }
    file.length = fread(file.start, 1, 65536, stream);
    fclose(stream);
    return file;
}

static inline struct daphulle_bytes lent(struct bytes file) { return (struct daphulle_bytes){file.start, file.length}; }

static void expect(const char *what, int holds) {
    if (!holds) {
        printf("differs: %s\n", what);
        differences++;
    }
}

static inline int is_zero(const uint8_t *bytes, size_t length) {
    for (size_t i = 0; i < length; i++)
        if (bytes[i]) return 0;
    return 1;
}

static inline int is_refusal(struct daphulle_outcome r, enum daphulle_number number, enum daphulle_object object, uint64_t place) {
    return r.length == 0 && r.number == (uint32_t)number && r.object == (uint32_t)object && r.place == place;
}

#endif
