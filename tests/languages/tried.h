/* What the tests in C share: counting, and buffers that show what was written to them. */
#ifndef TRIED_H
#define TRIED_H

#include "debctl.h"

#include <stdio.h>
#include <stdlib.h>
#include <string.h>

static int passed, failed;

#define IS(what)                                                                                   \
    ((what) ? (void)passed++ : (void)(failed++, printf("%s:%d: %s\n", __FILE__, __LINE__, #what)))

static inline const uint8_t *bytes(const char *text) { return (const uint8_t *)text; }

/* Memory of so many bytes, all 7. It is taken from the heap, so that a byte after it is one too
 * many for the address sanitiser and valgrind. */
static inline void *sevens(size_t size) {
    void *it = malloc(size ? size : 1);
    memset(it, 7, size);
    return it;
}

/* Whether these bytes are all 7, as nothing was written to them. */
static inline int untouched(const void *from, size_t size) {
    size_t at;
    for (at = 0; at < size; at++)
        if (((const uint8_t *)from)[at] != 7)
            return 0;
    return 1;
}

static inline int is(struct deb_answer answer, int status, int code, uint64_t line,
                     uint64_t count) {
    return answer.status == status && answer.code == code && answer.line == line &&
           answer.count == count;
}

/* Prints how many tests passed and failed, and returns the exit status. */
static inline int counted(const char *name) {
    printf("%s: %d passed, %d failed\n", name, passed, failed);
    return failed != 0;
}

#endif
