/* Answers one question after another, until standard input ends. A question is a line `FUNCTION
 * NUMBER COUNT`, and so many texts, each after a line with its length. The answer is a text after
 * its length too: `STATUS CODE LINE COUNT`, or `STATUS CODE ORDER` of a comparison, and in the lines
 * below the text that is returned, or `LINE CODE` of each refusal. A line such as `rows differ` is
 * added if the same answer isn't returned in another way: by the rows of the text, by the parts of
 * a version or relation put together again, by a loaded index, or by a reader. */
#define _POSIX_C_SOURCE 200809L
#include "fed.h"
#include "printed.h"
#include "several.h"

#include <stdio.h>

enum { FILES = 4, SMALL = 1 << 20 };

struct file {
    uint8_t *bytes;
    size_t length;
};

/* What is asked: the number, three files or, of `witness` and `buildable`, four, and all further files
 * as profiles; of `unmet-with` four, of a question to an index of several files two, and of `latest`,
 * `select` and `count` one: the file, before the conditions and the names of fields.
 * `out` gathers the answer. The number is that of a kind, and with more that is asked: 8
 * times a detail or whether Recommends is asked, 16 times whether essential packages are, 32 times
 * whether reasons are, and 64 times a budget. The second file of `witness` is the name. The last file of
 * a search is the names that are left out, with commas between them; there are none if it is empty. */
struct question {
    char call[32];
    long long number;
    struct file files[FILES];
    struct deb_text *profiles, *without;
    size_t profile_count, without_count;
    FILE *out;
};

/* Reads a text, in memory that ends where it does, so that a sanitiser sees each byte read past it. */
static struct file read_text(void) {
    struct file it;
    if (scanf("%zu", &it.length) != 1 || getchar() != '\n')
        exit(100);
    it.bytes = malloc(it.length);
    if ((!it.bytes && it.length > 0) || fread(it.bytes, 1, it.length, stdin) != it.length)
        exit(100);
    return it;
}

static int calls(const struct question *q, const char *call) { return strcmp(q->call, call) == 0; }

static int is_query(const struct question *q) { return calls(q, "query") || calls(q, "why"); }

/* Whether an index of several files is asked. */
static int is_of_files(const struct question *q) {
    return calls(q, "query-files") || calls(q, "why-files");
}

/* Whether paragraphs are selected. */
static int is_selection(const struct question *q) { return calls(q, "select") || calls(q, "count"); }

/* How many files aren't profiles. */
static int own_files(const struct question *q) {
    if (calls(q, "latest") || is_selection(q))
        return 1;
    if (is_of_files(q))
        return 2;
    return calls(q, "witness") || calls(q, "buildable") || calls(q, "unmet-with") ? 4 : 3;
}

/* Splits the names that are left out. */
static void leave_out(struct question *q) {
    const struct file *file = &q->files[own_files(q) - 1];
    size_t start = 0, at;
    if (file->length == 0)
        return;
    for (at = 0; at <= file->length; at++)
        if (at == file->length || file->bytes[at] == ',') {
            q->without = realloc(q->without, (q->without_count + 1) * sizeof *q->without);
            q->without[q->without_count++] = (struct deb_text){file->bytes + start, at - start};
            start = at + 1;
        }
}

/* The same question, to several files. */
static struct asked of_several(const struct question *q) {
    struct asked it = {calls(q, "unmet-with"), calls(q, "why-files"), q->number, {{NULL, 0}},
                       q->profiles, q->profile_count, q->without, q->without_count};
    int at;
    for (at = 0; at < own_files(q); at++)
        it.own[at] = (struct deb_text){q->files[at].bytes, q->files[at].length};
    return it;
}

/* The answer of a call about one file, or about two of a kind. */
static struct deb_answer ask_file(const struct question *q, uint8_t *out, size_t room,
                                  size_t *length) {
    const struct file *file = &q->files[0], *other = &q->files[1];
    uint8_t kind = (uint8_t)(q->number % 8);
    if (calls(q, "canonical"))
        return deb_version_canonical(file->bytes, file->length, out, room, length);
    if (calls(q, "key"))
        return deb_version_key(file->bytes, file->length, out, room, length);
    if (calls(q, "explain-version"))
        return deb_explain_version(file->bytes, file->length, out, room, length);
    if (calls(q, "explain-relation"))
        return deb_explain_relation(file->bytes, file->length, out, room, length);
    if (calls(q, "check"))
        return deb_check(kind, file->bytes, file->length);
    if (calls(q, "normalise"))
        return deb_normalise(kind, file->bytes, file->length, out, room, length);
    if (calls(q, "explain"))
        return deb_explain(kind, file->bytes, file->length, out, room, length);
    if (calls(q, "explain-all"))
        return deb_explain_all(kind, file->bytes, file->length, out, room, length);
    if (calls(q, "same"))
        return deb_same(kind, file->bytes, file->length, other->bytes, other->length);
    if (calls(q, "diff"))
        return deb_diff(kind, (uint8_t)(q->number / 8), file->bytes, file->length, other->bytes,
                        other->length, out, room, length);
    exit(100);
}

/* The answer of a call, and its text. */
static struct deb_answer ask(const struct question *q, uint8_t *out, size_t room, size_t *length) {
    const struct file *target = &q->files[0], *first = &q->files[1], *second = &q->files[2];
    *length = 0;
    if (calls(q, "query"))
        return deb_query(target->bytes, target->length, q->profiles, q->profile_count, first->bytes,
                         first->length, second->bytes, second->length, out, room, length);
    if (calls(q, "why"))
        return deb_query_why(target->bytes, target->length, q->profiles, q->profile_count,
                             first->bytes, first->length, second->bytes, second->length, out, room,
                             length);
    if (calls(q, "unmet"))
        return deb_unmet((uint8_t)(q->number % 8), (uint8_t)(q->number / 8), target->bytes,
                         target->length, q->profiles, q->profile_count, first->bytes, first->length,
                         second->bytes, second->length, out, room, length);
    if (calls(q, "healthy"))
        return deb_healthy((uint8_t)(q->number % 8), (uint8_t)(q->number / 8), target->bytes,
                           target->length, first->bytes, first->length, out, room, length);
    return ask_file(q, out, room, length);
}

/* The same of the paragraphs that are selected. The number is that of the kind, and 8 more for the
 * others, 16 times the form, and 64 times how many conditions there are. */
static struct deb_answer ask_selected(const struct question *q, uint8_t *out, size_t room,
                                      size_t *length) {
    const struct file *file = &q->files[0];
    size_t count = (size_t)(q->number / 64);
    return deb_select((uint8_t)(q->number % 8), (uint8_t)(q->number / 8 % 2),
                      (uint8_t)(q->number / 16 % 4), q->profiles, count, q->profiles + count,
                      q->profile_count - count, file->bytes, file->length, out, room, length);
}

/* The same of a search for sets of packages. */
static struct deb_answer search(const struct question *q, uint8_t *out, size_t room,
                                size_t *length) {
    const struct file *target = &q->files[0], *first = &q->files[1], *second = &q->files[2];
    uint8_t kind = (uint8_t)(q->number % 8), recommends = (uint8_t)(q->number / 8 % 2);
    uint8_t essential = (uint8_t)(q->number / 16 % 2), reasons = (uint8_t)(q->number / 32 % 2);
    uint32_t budget = (uint32_t)(q->number / 64);
    *length = 0;
    if (is_of_files(q) || calls(q, "unmet-with")) {
        struct asked several = of_several(q);
        return ask_several(&several, out, room, length);
    }
    if (calls(q, "latest"))
        return deb_latest(kind, recommends, target->bytes, target->length, q->profiles,
                          q->profile_count, out, room, length);
    if (is_selection(q))
        return ask_selected(q, out, room, length);
    if (calls(q, "explain-condition"))
        return deb_explain_condition(kind, target->bytes, target->length, out, room, length);
    if (calls(q, "installable"))
        return deb_installable(kind, recommends, essential, reasons, budget, target->bytes,
                               target->length, q->without, q->without_count, first->bytes,
                               first->length, out, room, length);
    if (calls(q, "witness"))
        return deb_witness(kind, recommends, essential, reasons, budget, target->bytes,
                           target->length, first->bytes, first->length, q->without,
                           q->without_count, second->bytes, second->length, out, room, length);
    if (calls(q, "buildable"))
        return deb_buildable(kind, essential, reasons, budget, target->bytes, target->length,
                             q->profiles, q->profile_count, q->without, q->without_count,
                             first->bytes, first->length, second->bytes, second->length, out, room,
                             length);
    return ask(q, out, room, length);
}

/* The same of a loaded index. */
static struct deb_answer ask_index(const struct question *q, const struct deb_index *index,
                                   uint8_t *out, size_t room, size_t *length) {
    const struct file *target = &q->files[0], *first = &q->files[1], *second = &q->files[2];
    if (calls(q, "query"))
        return deb_index_query(index, target->bytes, target->length, q->profiles, q->profile_count,
                               first->bytes, first->length, out, room, length);
    if (calls(q, "why"))
        return deb_index_query_why(index, target->bytes, target->length, q->profiles,
                                   q->profile_count, first->bytes, first->length, out, room,
                                   length);
    return deb_index_unmet(index, (uint8_t)(q->number % 8), (uint8_t)(q->number / 8), target->bytes,
                           target->length, q->profiles, q->profile_count, second->bytes,
                           second->length, out, room, length);
}

/* The rows of a text; how many there are, or SIZE_MAX if it has none of this form. */
static size_t rows_of(uint8_t form, const uint8_t *text, size_t length, struct deb_row **rows) {
    size_t count;
    *rows = NULL;
    if (deb_rows(form, text, length, NULL, 0, &count).status == DEB_NO_ROOM) {
        *rows = malloc(count * sizeof **rows);
        if (deb_rows(form, text, length, *rows, count, &count).status == DEB_YES)
            return count;
    }
    return count == 0 && length == 0 ? 0 : SIZE_MAX;
}

/* Whether the text of an answer is what its rows print. */
static int rows_agree(const struct question *q, struct deb_answer answer, const uint8_t *text,
                      size_t length) {
    int is_set = calls(q, "witness") && answer.status == DEB_YES;
    uint8_t form = is_query(q) || is_of_files(q) || is_set ? DEB_REPORT
                   : calls(q, "unmet") ? DEB_UNMET_LINES
                   : calls(q, "unmet-with") ? DEB_UNMET_LINES
                   : calls(q, "healthy") ? DEB_HEALTH_LINES
                   : calls(q, "installable") ? DEB_INSTALLABLE_LINES
                   : calls(q, "witness") ? DEB_INSTALLABLE_LINES
                   : calls(q, "buildable") ? DEB_INSTALLABLE_LINES
                   : calls(q, "diff")  ? DEB_DIFF_LINES
                                       : DEB_EXPLANATION;
    struct deb_row *rows;
    size_t count;
    int agree;
    if (form == DEB_EXPLANATION && strncmp(q->call, "explain", 7) != 0)
        return 1;
    count = rows_of(form, text, length, &rows);
    agree = count != SIZE_MAX && prints_as(rows, count, text, length);
    if (agree && is_of_files(q)) {
        struct asked several = of_several(q);
        agree = files_agree(&several, rows, count, text);
    }
    free(rows);
    return agree;
}

/* Whether the parts of a version, put together again, are the version. */
static int version_agrees(const struct file *file) {
    struct deb_version_parts it = deb_version_parts(file->bytes, file->length);
    size_t at = it.has_epoch ? it.epoch_length + 1 : 0;
    int is_version =
        deb_version_compare(file->bytes, file->length, file->bytes, file->length).status == DEB_YES;
    if (!is_version)
        return it.status == DEB_REFUSED && it.code == DEB_BAD_VERSION;
    if (it.status != DEB_YES || (it.has_epoch && file->bytes[it.epoch_length] != ':') ||
        it.upstream != at)
        return 0;
    at += it.upstream_length;
    if (it.has_revision && (file->bytes[at] != '-' || it.revision != at + 1))
        return 0;
    return at + (it.has_revision ? 1 + it.revision_length : 0) == file->length;
}

/* Appends a part of a relation, if it isn't absent, with what is before and after it. */
static char *append(char *to, const char *before, const struct file *from, size_t start,
                    size_t length, const char *after) {
    if (length == 0)
        return to;
    to += sprintf(to, "%s", before);
    memcpy(to, from->bytes + start, length);
    return to + length + sprintf(to + length, "%s", after);
}

/* Puts the alternatives of a relation together again; each takes at most 16 bytes more than its
 * parts. */
static size_t rebuild(const struct file *from, const struct deb_alternative *all, size_t count,
                      char *text) {
    size_t at;
    char *to = text;
    for (at = 0; at < count; at++) {
        const struct deb_alternative *it = &all[at];
        if (at)
            *to++ = it->group == all[at - 1].group ? '|' : ',';
        to = append(to, "", from, it->name, it->name_length, "");
        to = append(to, ":", from, it->qualifier, it->qualifier_length, "");
        to = append(to, " (", from, it->op, it->op_length, " ");
        to = append(to, "", from, it->version, it->version_length, ")");
        to = append(to, " [", from, it->architectures, it->architectures_length, "]");
        to = append(to, " ", from, it->formula, it->formula_length, "");
    }
    return (size_t)(to - text);
}

/* The canonical text of a relation, to be freed. */
static struct file canonical_of(const uint8_t *text, size_t length) {
    struct file it = {NULL, 0};
    if (deb_relation_canonical(text, length, NULL, 0, &it.length).status == DEB_NO_ROOM) {
        it.bytes = malloc(it.length);
        deb_relation_canonical(text, length, it.bytes, it.length, &it.length);
    }
    return it;
}

/* Whether the parts of a relation, put together again, mean what the relation does. */
static int relation_agrees(const struct file *file) {
    size_t count, none;
    struct deb_answer first = deb_relation_canonical(file->bytes, file->length, NULL, 0, &none);
    struct deb_answer answer = deb_relation_parts(file->bytes, file->length, NULL, 0, &count);
    struct deb_alternative *all = malloc((count + 1) * sizeof *all);
    char *text = malloc(file->length + 16 * count + 1);
    int agree = answer.status == first.status && answer.code == first.code;
    if (first.status != DEB_REFUSED) {
        struct file one = canonical_of(file->bytes, file->length), two;
        answer = deb_relation_parts(file->bytes, file->length, all, count, &count);
        two = canonical_of((uint8_t *)text, rebuild(file, all, count, text));
        agree = answer.status == DEB_YES && one.length == two.length &&
                (one.length == 0 || memcmp(one.bytes, two.bytes, one.length) == 0);
        free(one.bytes);
        free(two.bytes);
    }
    free(all);
    free(text);
    return agree;
}

/* Whether the versions and relations of a question are what their parts say. */
static int parts_agree(const struct question *q) {
    if (calls(q, "compare"))
        return version_agrees(&q->files[0]) && version_agrees(&q->files[1]);
    if (calls(q, "canonical") || calls(q, "key") || calls(q, "explain-version"))
        return version_agrees(&q->files[0]);
    if (calls(q, "explain-relation"))
        return relation_agrees(&q->files[0]);
    return !is_query(q) || relation_agrees(&q->files[1]);
}

/* Whether an index keeps of a package what a report says of it: `NAME VERSION ARCHITECTURE`. */
static int details_agree(const struct deb_index *index, uint64_t number, const char *said,
                         size_t said_length) {
    char shown[3][256] = {"", "", ""}, wanted[768];
    uint8_t kept[4096], again[4096];
    size_t length, again_length;
    const char *line;
    struct deb_answer answer = deb_index_details(index, number, kept, sizeof kept - 1, &length);
    if (answer.status == DEB_NO_ROOM || said_length > 255)
        return 1;
    kept[answer.status == DEB_YES ? length : 0] = '\0';
    for (line = (const char *)kept; line && *line; line = strchr(line, '\n') + 1) {
        sscanf(line, "Package: %255s", shown[0]);
        sscanf(line, "Version: %255s", shown[1]);
        sscanf(line, "Architecture: %255s", shown[2]);
    }
    sprintf(wanted, "%s %s %s", shown[0], shown[1], shown[2]);
    answer = deb_normalise(DEB_PACKAGES, kept, length, again, sizeof again, &again_length);
    return strlen(wanted) == said_length && memcmp(wanted, said, said_length) == 0 &&
           answer.status == DEB_YES && again_length == length && memcmp(again, kept, length) == 0;
}

/* Whether the index keeps of each package of a report what the report says. */
static int packages_agree(const struct deb_index *index, const uint8_t *text, size_t length) {
    struct deb_row *rows;
    size_t count = rows_of(DEB_REPORT, text, length, &rows), at;
    int agree = count != SIZE_MAX;
    for (at = 0; at < count && agree; at++) {
        size_t number = rows[at].kind == DEB_ROW_PACKAGE_REASON;
        const struct deb_span *cells = rows[at].cells + number;
        if (rows[at].kind == DEB_ROW_PACKAGE || number)
            agree = details_agree(index, strtoull((const char *)text + cells[0].start, NULL, 10),
                                  (const char *)text + cells[1].start,
                                  cells[3].start + cells[3].length - cells[1].start);
    }
    free(rows);
    return agree;
}

/* Whether a loaded index gives the same answer. */
static int index_agrees(const struct question *q, struct deb_answer answer, const uint8_t *text,
                        size_t length) {
    const struct file *file = &q->files[is_query(q) ? 2 : 1];
    struct deb_answer read, asked;
    struct deb_index *index;
    uint8_t *again;
    size_t again_length;
    int agree;
    if (!is_query(q) && !calls(q, "unmet"))
        return 1;
    index = deb_index_new(file->bytes, file->length, &read);
    if (!index)
        return answer.status > DEB_NO;
    again = malloc(length + 1);
    asked = ask_index(q, index, again, length, &again_length);
    agree = asked.status == answer.status && asked.code == answer.code &&
            asked.line == answer.line && asked.count == answer.count && again_length == length &&
            (length == 0 || memcmp(again, text, length) == 0) &&
            (!is_query(q) || packages_agree(index, text, length));
    free(again);
    deb_index_delete(index);
    return agree;
}

/* Whether a reader that is fed the file in pieces reads the same of it. */
static int reader_agrees(const struct question *q) {
    const struct file *file = &q->files[0];
    if (!calls(q, "check") || file->length > SMALL)
        return 1;
    return reads_alike((uint8_t)q->number, file->bytes, file->length, file->length / 3 + 1) &&
           reads_alike((uint8_t)q->number, file->bytes, file->length, file->length / 100 + 1);
}

static void write_head(const struct question *q, struct deb_answer answer) {
    fprintf(q->out, "%d %d %llu %llu\n", answer.status, answer.code,
            (unsigned long long)answer.line, (unsigned long long)answer.count);
}

/* Writes all refusals of a file: `LINE CODE` of each. */
static void write_refusals(const struct question *q) {
    const struct file *file = &q->files[0];
    struct deb_refusal *refusals = NULL;
    size_t count, at;
    uint8_t kind = (uint8_t)q->number;
    struct deb_answer answer = deb_check_all(kind, file->bytes, file->length, NULL, 0, &count);
    if (answer.status == DEB_NO_ROOM) {
        refusals = malloc(count * sizeof *refusals);
        answer = deb_check_all(kind, file->bytes, file->length, refusals, count, &count);
    }
    write_head(q, answer);
    for (at = 0; at < count; at++)
        fprintf(q->out, "%llu %d\n", (unsigned long long)refusals[at].line, refusals[at].code);
    free(refusals);
}

/* Writes why a text is no condition, and whether its rows say so. */
static void write_reason(const struct question *q, const struct deb_text *text) {
    uint8_t kind = (uint8_t)(q->number % 8), *out;
    struct deb_row *rows;
    size_t length, count;
    deb_explain_condition(kind, text->bytes, text->length, NULL, 0, &length);
    out = malloc(length + 1);
    if (deb_explain_condition(kind, text->bytes, text->length, out, length, &length).status ==
        DEB_REFUSED)
        fwrite(out, 1, length, q->out);
    count = rows_of(DEB_EXPLANATION, out, length, &rows);
    if (count == SIZE_MAX || !prints_as(rows, count, out, length))
        fprintf(q->out, "rows differ\n");
    free(rows);
    free(out);
}

/* Writes the answer of a call and its text, and whether it is the same in other ways. */
static void write_answer(const struct question *q) {
    uint8_t *out = NULL;
    size_t length;
    struct deb_answer answer = search(q, NULL, 0, &length);
    if (answer.status == DEB_NO_ROOM) {
        out = malloc(length + 1);
        answer = search(q, out, length, &length);
        out[length] = '\0';
    }
    write_head(q, answer);
    if (out)
        fwrite(out, 1, length, q->out);
    if (is_selection(q) && answer.status == DEB_SECOND_REFUSED)
        write_reason(q, &q->profiles[answer.count - 1]);
    if (!rows_agree(q, answer, out, length))
        fprintf(q->out, "rows differ\n");
    if (!index_agrees(q, answer, out, length))
        fprintf(q->out, "index differs\n");
    if (!reader_agrees(q))
        fprintf(q->out, "reader differs\n");
    free(out);
}

/* Reads a question; whether there is one. */
static int read_question(struct question *q) {
    size_t count, at, own;
    memset(q, 0, sizeof *q);
    if (scanf("%31s %lld %zu", q->call, &q->number, &count) != 3)
        return 0;
    getchar();
    own = (size_t)own_files(q);
    q->profile_count = count > own ? count - own : 0;
    q->profiles = malloc((q->profile_count + 1) * sizeof *q->profiles);
    for (at = 0; at < count; at++) {
        struct file it = read_text();
        if (at < own)
            q->files[at] = it;
        else
            q->profiles[at - own] = (struct deb_text){it.bytes, it.length};
    }
    if (calls(q, "installable") || own == 4)
        leave_out(q);
    return 1;
}

static void free_question(struct question *q) {
    size_t at;
    for (at = 0; at < FILES; at++)
        free(q->files[at].bytes);
    for (at = 0; at < q->profile_count; at++)
        free((void *)q->profiles[at].bytes);
    free(q->profiles);
    free(q->without);
}

static void write_question(const struct question *q) {
    const struct file *first = &q->files[0], *second = &q->files[1];
    if (calls(q, "compare")) {
        struct deb_comparison order =
            deb_version_compare(first->bytes, first->length, second->bytes, second->length);
        fprintf(q->out, "%d %d %d\n", order.status, order.code, order.order);
    } else if (calls(q, "check-all")) {
        write_refusals(q);
    } else {
        write_answer(q);
    }
    if (!parts_agree(q))
        fprintf(q->out, "parts differ\n");
}

int main(void) {
    struct question q;
    while (read_question(&q)) {
        char *text;
        size_t length;
        q.out = open_memstream(&text, &length);
        if (!q.out)
            exit(100);
        write_question(&q);
        fclose(q.out);
        printf("%zu\n", length);
        fwrite(text, 1, length, stdout);
        fflush(stdout);
        free(text);
        free_question(&q);
    }
    return 0;
}
