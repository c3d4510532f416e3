/* The text of a table of rows of deb_rows, printed again by the rule of each kind. */
#ifndef PRINTED_H
#define PRINTED_H

#include "debctl.h"

#include <stdlib.h>
#include <string.h>

/* What is before each cell of a row of a kind, `|` for each cell, and what is after the last. */
static const char *const rules[] = {
    "met |", "unmet |", "ignored |", " | | | |", " |: |", " |: | | | | |",
    "unmet | | | | | |", "unsure | | | | | |",
    "removed | | | |", "changed | | | | |", "upgraded | | | | | |", "added | | | |",
    " -|", " +|", "|: |", "", "ok |", "ok |, | refused", "ok",
    "downgraded | | | | | |",
    "unmet | | | | | |", "unsure | | | | | |",
    "conflict | | | | | | by | | | |", "unsure | | | | | | by | | | |", "duplicate | | | | with | | |",
    "state | | | | |",
    "uninstallable | | | |", "unsure | | | |", "undecided | | | |",
    " | | | | needs |: |", " | | | | excludes | | | |", " | | | | is left out",
    " | | | | @|", " |: | | | | | @|",
};

/* Appends a row to `to`, with the newline, and returns its end; NULL if the row isn't one of its
 * kind, or the text would have more than `room` bytes. */
static uint8_t *print_row(const struct deb_row *row, const uint8_t *text, uint8_t *to,
                          size_t room) {
    const char *rule;
    uint8_t cell = 0;
    if (row->kind >= sizeof rules / sizeof *rules)
        return NULL;
    for (rule = rules[row->kind]; *rule; rule++) {
        size_t length = *rule == '|' ? row->cells[cell].length : 1;
        if (length > room)
            return NULL;
        if (*rule == '|')
            memcpy(to, text + row->cells[cell++].start, length);
        else
            *to = (uint8_t)*rule;
        to += length;
        room -= length;
    }
    if (cell != row->cell_count || room == 0)
        return NULL;
    *to = '\n';
    return to + 1;
}

/* Whether the rows of a text, printed again, are the text; the spans after the last cell are 0. */
static int prints_as(const struct deb_row *rows, size_t count, const uint8_t *text,
                     size_t length) {
    uint8_t *again = malloc(length + 1), *to = again;
    size_t at, cell;
    int same = again != NULL;
    for (at = 0; at < count && same; at++) {
        for (cell = rows[at].cell_count; cell < 10; cell++)
            same &= rows[at].cells[cell].start == 0 && rows[at].cells[cell].length == 0;
        to = print_row(&rows[at], text, to, length - (size_t)(to - again));
        same &= to != NULL;
    }
    same = same && (size_t)(to - again) == length &&
           (length == 0 || memcmp(again, text, length) == 0);
    free(again);
    return same;
}

#endif
