/* Questions to several files: to an index of several, for unmet relations with options, and for the latest
 * versions. A refusal has the place of its file as the count, and OLD if it is that of the old index. */
#ifndef SEVERAL_H
#define SEVERAL_H

#include "debctl.h"

enum { OLD = 999 };

/* What is asked: the number, the texts of the call itself, and the texts after them, of which the first
 * are files and the others profiles. */
struct asked {
    int is_unmet, why;
    long long number;
    struct deb_text own[4];
    const struct deb_text *more;
    size_t more_count;
    const struct deb_text *names;
    size_t name_count;
};

/* An index of several files, or NULL. */
static struct deb_index *read_several(const struct deb_text *texts, size_t count,
                                      struct deb_answer *answer) {
    struct deb_index *index = deb_index_new(texts[0].bytes, texts[0].length, answer);
    size_t at;
    for (at = 1; index && at < count; at++) {
        deb_index_read_more(index, texts[at].bytes, texts[at].length, answer);
        if (answer->status != DEB_YES) {
            deb_index_delete(index);
            index = NULL;
        }
    }
    if (!index && answer->status == DEB_REFUSED)
        answer->count = at;
    return index;
}

/* The answer of an index, and of an old one or NULL, on unmet relations. */
static struct deb_answer ask_unmet(const struct asked *q, const struct deb_index *index,
                                   const struct deb_index *old, const struct deb_text *profiles,
                                   size_t profile_count, uint8_t *out, size_t room,
                                   size_t *length) {
    uint8_t options = (uint8_t)(q->number / 8 % 4 + (old ? DEB_UNLESS : 0));
    return deb_index_unmet_with(index, old ? old : index, (uint8_t)(q->number % 8), options,
                                q->own[0].bytes, q->own[0].length, q->own[1].bytes,
                                q->own[1].length, profiles, profile_count, q->names, q->name_count,
                                q->own[2].bytes, q->own[2].length, out, room, length);
}

/* The answer of an index. */
static struct deb_answer ask_loaded(const struct asked *q, struct deb_index *index,
                                    const struct deb_index *old, const struct deb_text *profiles,
                                    size_t profile_count, uint8_t *out, size_t room,
                                    size_t *length) {
    struct deb_answer answer;
    if (q->is_unmet) {
        deb_index_without(index, q->names, q->name_count, &answer);
        if (answer.status != DEB_YES)
            return answer;
        return ask_unmet(q, index, old, profiles, profile_count, out, room, length);
    }
    return (q->why ? deb_index_query_why : deb_index_query)(
        index, q->own[0].bytes, q->own[0].length, profiles, profile_count, q->own[1].bytes,
        q->own[1].length, out, room, length);
}

/* The answer where the words are asked of no package: they are refused before a file is. */
static struct deb_answer ask_words(const struct asked *q, const struct deb_text *profiles,
                                   size_t profile_count) {
    struct deb_answer answer;
    size_t length;
    struct deb_index *index = deb_index_new(NULL, 0, &answer);
    if (!index)
        return answer;
    answer = ask_loaded(q, index, NULL, profiles, profile_count, NULL, 0, &length);
    deb_index_delete(index);
    return answer;
}

/* The answer of a question to an index of several files. */
static struct deb_answer ask_several(const struct asked *q, uint8_t *out, size_t room,
                                     size_t *length) {
    size_t has_old = q->is_unmet ? (size_t)(q->number / 32 % 2) : 0;
    size_t count = (size_t)(q->is_unmet ? q->number / 64 : q->number);
    const struct deb_text *profiles = q->more + has_old + count;
    size_t profile_count = q->more_count - has_old - count;
    struct deb_index *old = NULL, *index;
    struct deb_answer answer = ask_words(q, profiles, profile_count);
    *length = 0;
    if (answer.status == DEB_NO_KIND || (answer.status == DEB_REFUSED && answer.code != DEB_WILDCARD))
        return answer;
    if (has_old) {
        old = deb_index_new(q->more[0].bytes, q->more[0].length, &answer);
        answer.count = OLD;
        if (!old)
            return answer;
    }
    index = read_several(q->more + has_old, count, &answer);
    if (index)
        answer = ask_loaded(q, index, old, profiles, profile_count, out, room, length);
    deb_index_delete(index);
    deb_index_delete(old);
    return answer;
}

/* Whether an index of several files has of each package of a report the file that this names. */
static int files_agree(const struct asked *q, const struct deb_row *rows, size_t count,
                       const uint8_t *text) {
    struct deb_answer answer;
    struct deb_index *index = read_several(q->more, (size_t)q->number, &answer);
    size_t at, file;
    int agree = index != NULL || count == 0;
    for (at = 0; index && at < count; at++) {
        size_t first = rows[at].kind == DEB_ROW_PACKAGE_REASON_OF_FILE;
        const struct deb_span *cells = rows[at].cells;
        const char *last = (const char *)text + cells[rows[at].cell_count - 1].start;
        if (rows[at].kind == DEB_ROW_PACKAGE || rows[at].kind == DEB_ROW_PACKAGE_REASON)
            agree = 0;
        if (rows[at].kind != DEB_ROW_PACKAGE_OF_FILE && !first)
            continue;
        answer = deb_index_file(
            index, strtoull((const char *)text + cells[first].start, NULL, 10), &file);
        agree &= answer.status == DEB_YES && file == strtoull(last, NULL, 10);
    }
    deb_index_delete(index);
    return agree;
}

#endif
