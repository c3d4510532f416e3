/* A file fed to a reader in pieces, and the fields of all its paragraphs put together. */
#ifndef FED_H
#define FED_H

#include "debctl.h"

#include <stdlib.h>
#include <string.h>

/* The tables of deb_fields. */
struct tables {
    struct deb_field *fields;
    uint8_t *names, *values;
    size_t count, names_length, values_length;
};

static void free_tables(struct tables *it) {
    free(it->fields);
    free(it->names);
    free(it->values);
}

/* Room for the tables of a text with so many bytes. */
static struct tables room_for(size_t length) {
    struct tables it = {NULL, NULL, NULL, 0, 0, 0};
    it.fields = malloc((length + 1) * sizeof *it.fields);
    it.names = malloc(length + 1);
    it.values = malloc(length + 1);
    return it;
}

static int same_tables(const struct tables *left, const struct tables *right) {
    return left->count == right->count && left->names_length == right->names_length &&
           left->values_length == right->values_length &&
           memcmp(left->fields, right->fields, left->count * sizeof *left->fields) == 0 &&
           memcmp(left->names, right->names, left->names_length) == 0 &&
           memcmp(left->values, right->values, left->values_length) == 0;
}

/* Appends the fields that the last feed has read; whether there is room for them. */
static int append_fields(const struct deb_reader *reader, size_t room, struct tables *to) {
    struct deb_field *fields = to->fields + to->count;
    size_t count, names, values, at;
    struct deb_answer answer =
        deb_reader_fields(reader, fields, room + 1 - to->count, &count,
                          to->names + to->names_length, room + 1 - to->names_length, &names,
                          to->values + to->values_length, room + 1 - to->values_length, &values);
    for (at = 0; at < count && answer.status == DEB_YES; at++) {
        fields[at].name += (uint32_t)to->names_length;
        fields[at].value += (uint32_t)to->values_length;
    }
    to->count += count;
    to->names_length += names;
    to->values_length += values;
    return answer.status == DEB_YES;
}

/* Feeds a text to a reader in pieces of so many bytes, with an empty one at the end, and gathers
 * its fields; the last answer, with the status 100 if a call went wrong. */
static struct deb_answer feed(uint8_t kind, const uint8_t *text, size_t length, size_t size,
                              struct tables *gathered) {
    struct deb_reader *reader = malloc(deb_reader_size());
    struct deb_answer answer;
    size_t at, piece;
    int is_whole = 1;
    deb_reader_start(reader, kind, &answer);
    for (at = 0; at < length; at += piece) {
        piece = length - at < size ? length - at : size;
        deb_reader_feed(reader, text + at, piece, 0, &answer);
        is_whole &= append_fields(reader, length, gathered);
    }
    deb_reader_feed(reader, NULL, 0, 1, &answer);
    is_whole &= append_fields(reader, length, gathered);
    deb_reader_free(reader);
    free(reader);
    if (!is_whole)
        answer.status = 100;
    return answer;
}

/* Whether a file fed in pieces of so many bytes has the answer and the fields of deb_fields. */
static int reads_alike(uint8_t kind, const uint8_t *text, size_t length, size_t size) {
    struct tables whole = room_for(length), gathered = room_for(length);
    struct deb_answer fed = feed(kind, text, length, size, &gathered);
    struct deb_answer read =
        deb_fields(kind, text, length, whole.fields, length + 1, &whole.count, whole.names,
                   length + 1, &whole.names_length, whole.values, length + 1, &whole.values_length);
    int alike = fed.status == read.status && fed.code == read.code && fed.line == read.line &&
                fed.count == read.count && same_tables(&whole, &gathered);
    free_tables(&whole);
    free_tables(&gathered);
    return alike;
}

#endif
