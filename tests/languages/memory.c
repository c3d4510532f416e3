/* Each growth of memory of each call is refused in turn: the answer is DEB_NO_MEMORY, and the
 * buffer is as it was; or the call asked once more, for less, as `collect` of std does, and answers
 * as if none were refused. Then, with none refused, its status is the right one. Linked with
 * -Wl,--wrap=malloc,--wrap=realloc. */
#include "debctl.h"

#include <stdio.h>
#include <stdlib.h>
#include <string.h>

void *__real_malloc(size_t size);
void *__real_realloc(void *old, size_t size);

static long until_refused = -1; /* how many growths are granted first; below 0: all are */
static long growths; /* how many were asked for */

static int is_refused(void) {
    growths++;
    return until_refused >= 0 && until_refused-- == 0;
}

/* What was asked for at an address, of the last block there; an address that another one has pushed
 * out isn't known, and a realloc of it is a growth. */
static struct {
    void *at;
    size_t size;
} asked[4096];

static size_t place_of(void *at) { return ((uintptr_t)at >> 4) % 4096; }

static void *noted(void *at, size_t size) {
    asked[place_of(at)].at = at;
    asked[place_of(at)].size = size;
    return at;
}

void *__wrap_malloc(size_t size) {
    return is_refused() ? NULL : noted(__real_malloc(size), size);
}

/* A realloc to a smaller size is no growth: a call may go on without it. */
void *__wrap_realloc(void *old, size_t size) {
    int is_known = old != NULL && asked[place_of(old)].at == old;
    int is_smaller = is_known && size < asked[place_of(old)].size;

    return !is_smaller && is_refused() ? NULL : noted(__real_realloc(old, size), size);
}

static const uint8_t *bytes(const char *text) { return (const uint8_t *)text; }

static const char *index_of_two =
    "Package: hello\nVersion: 1.0-0\nArchitecture: amd64\nDepends: libc6 (>= 2.36), aa | bb\n\n"
    "Package: mailer\nVersion: 2\nArchitecture: all\nProvides: mta (= 2), other\n";

static const char *refused = "Package: hello\nVersion: 1\nArchitecture: all\n\n"
                             "Package: mailer\nDepends: aa (>= 1), bb cc\n";

static const char *twice_refused = "Package: hello\nDepends: aa (>= 1), bb cc\n\nx y\n\n"
                                   "Package: mailer\nVersion: 3\nArchitecture: all\n";

static const char *other_index = "Package: mailer\nVersion: 3\nArchitecture: all\n";

/* A line of each kind, and of some a second one. */
static const char *unhealthy =
    "Package: aa\nVersion: 1\nArchitecture: all\nDepends: libc6 (>= 2.36), dd [linux-any]\n"
    "Recommends: ee | ff\nConflicts: bb, mta\nBreaks: bb (<< 3) [linux-any]\n\n"
    "Package: bb\nVersion: 2\nArchitecture: all\nProvides: mta (= 2), other\n\n"
    "Package: aa\nVersion: 2\nArchitecture: all\n";

static const char *installed =
    "Package: aa\nStatus: deinstall ok config-files\nVersion: 1\nArchitecture: all\n\n"
    "Package: dd\nStatus: install ok half-configured\nVersion: 3\nArchitecture: all\n\n"
    "Package: bb\nStatus: install ok installed\nVersion: 2\nArchitecture: all\nDepends: aa | cc\n";

/* The search learns that no choice of the first package is right, and an architecture wildcard decides
 * about the last one. */
static const char *uninstallable =
    "Package: aa\nVersion: 1\nArchitecture: all\nDepends: bb | cc, dd | mta\nRecommends: ee\n\n"
    "Package: bb\nVersion: 1\nArchitecture: all\nConflicts: dd, ee\n\n"
    "Package: cc\nVersion: 1\nArchitecture: all\nBreaks: dd (<< 2), mta\n\n"
    "Package: dd\nVersion: 1\nArchitecture: all\n\n"
    "Package: ee\nVersion: 1\nArchitecture: all\nProvides: mta (= 2), other\n\n"
    "Package: ff\nVersion: 1\nArchitecture: all\nDepends: zz [linux-any]\n";

/* One choice is right, of an essential package. */
static const char *sought =
    "Package: aa\nVersion: 01\nArchitecture: all\nDepends: bb | cc, dd | mta\n\n"
    "Package: bb\nVersion: 1\nArchitecture: all\nConflicts: dd, mta\n\n"
    "Package: cc\nVersion: 1\nArchitecture: all\nBreaks: dd (<< 2)\nEssential: yes\n\n"
    "Package: dd\nVersion: 1\nArchitecture: all\n\n"
    "Package: ee\nVersion: 1-0\nArchitecture: all\nProvides: mta (= 2), other\n";

/* The same as before, for source packages. */
static const char *sources =
    "Package: ss\nVersion: 01\nBuild-Depends: bb | cc, dd | mta, gg <!nocheck>\n\n"
    "Package: tt\nVersion: 2\nBuild-Depends-Indep: ff\nBuild-Conflicts: aa\n"
    "Build-Conflicts-Arch: bb, mta (= 2)\n";

static uint8_t out[1024];
static size_t length;

/* The fields of two paragraphs, in parts of the same buffer. */
static struct deb_answer fields_of(const char *text) {
    struct deb_field *fields = (struct deb_field *)(void *)out;
    size_t count = 0, names_length = 0;
    struct deb_answer answer =
        deb_fields(DEB_PACKAGES, bytes(text), strlen(text), fields, 16, &count, out + 512, 256,
                   &names_length, out + 768, 256, &length);
    if (answer.status == DEB_NO_MEMORY)
        length += count + names_length;
    return answer;
}

static struct deb_index *loaded; /* read with no growth refused */

/* Reads an index and changes it: by one more file, or without the packages of a name. */
static struct deb_answer change_index(const char *text, const struct deb_text *name) {
    static uint64_t changed[128];
    struct deb_index *index = (struct deb_index *)(void *)&changed;
    struct deb_answer answer;
    deb_index_read(index, bytes(text), strlen(text), &answer);
    if (answer.status == DEB_YES && name)
        deb_index_without(index, name, 1, &answer);
    else if (answer.status == DEB_YES)
        deb_index_read_more(index, bytes(text), strlen(text), &answer);
    deb_index_free(index);
    return answer;
}

/* Reads an index to other memory, whatever its answer is. */
static struct deb_answer read_index(const char *text) {
    static union {
        uint64_t words[128];
        unsigned char bytes[1024];
    } memory;
    struct deb_index *index = (struct deb_index *)(void *)&memory;
    struct deb_answer answer;
    deb_index_read(index, bytes(text), strlen(text), &answer);
    deb_index_free(index);
    return answer;
}

/* An index in memory of malloc: there is one exactly if the answer is DEB_YES. */
static struct deb_answer new_index(const char *text) {
    struct deb_answer answer;
    struct deb_index *index = deb_index_new(bytes(text), strlen(text), &answer);
    if ((index != NULL) != (answer.status == DEB_YES))
        length = 1;
    deb_index_delete(index);
    return answer;
}

/* Feeds a file to a reader in three pieces: each answer after one that isn't DEB_YES is the same, and
 * then no fields are read. */
static struct deb_answer feed_file(const char *text) {
    static union {
        uint64_t words[512];
        unsigned char bytes[4096];
    } memory;
    struct deb_reader *reader = (struct deb_reader *)(void *)&memory;
    struct deb_answer answer, last;
    size_t third = strlen(text) / 3, at, count = 0, names = 0, values = 0;
    length += deb_reader_size() > sizeof memory;
    deb_reader_start(reader, DEB_PACKAGES, &answer);
    for (at = 0; at < 3; at++) {
        last = answer;
        deb_reader_feed(reader, bytes(text) + third * at, at < 2 ? third : strlen(text) - 2 * third,
                        at == 2, &answer);
        deb_reader_fields(reader, NULL, 0, &count, NULL, 0, &names, NULL, 0, &values);
        if (last.status != DEB_YES)
            length += answer.status != last.status || count != 0;
    }
    deb_reader_free(reader);
    return answer;
}

static struct deb_answer call(int which) {
    const uint8_t *text = bytes(index_of_two);
    size_t size = strlen(index_of_two);
    struct deb_text profile = {bytes("nocheck"), 7};
    struct deb_text fields[] = {{bytes("Depends"), 7}, {bytes("version"), 7}};
    struct deb_text conditions[] = {{bytes("Depends names aa"), 16}, {bytes("version >= 1"), 12},
                                    {bytes("Architecture = all"), 18}, {bytes("Size >= 1k"), 10}};
    switch (which) {
    case 0:
        return deb_version_canonical(bytes("01:02.030-0004"), 14, out, sizeof out, &length);
    case 1:
        return deb_check(DEB_PACKAGES, text, size);
    case 2:
        return deb_normalise(DEB_PACKAGES, text, size, out, sizeof out, &length);
    case 3:
        return deb_explain(DEB_PACKAGES, text, size, out, sizeof out, &length);
    case 4:
        return deb_explain(DEB_PACKAGES, bytes(refused), strlen(refused), out, sizeof out, &length);
    case 5:
        return deb_same(DEB_PACKAGES, text, size, text, size);
    case 6:
        return deb_version_key(bytes("01:02.030-0004"), 14, out, sizeof out, &length);
    case 7:
        return deb_relation_canonical(bytes("bb (>= 01) | cc:any, aa [!amd64] <xx yy>"), 40, out,
                                      sizeof out, &length);
    case 8:
        return fields_of(index_of_two);
    case 9:
        return fields_of(refused);
    case 10:
        return deb_unmet(DEB_PACKAGES, 1, bytes("amd64"), 5, &profile, 1, text, size, text, size,
                         out, sizeof out, &length);
    case 11:
        return read_index(index_of_two);
    case 12:
        return deb_index_query(loaded, bytes("amd64"), 5, &profile, 1,
                               bytes("hello (>= 1) | xx, mta"), 22, out, sizeof out, &length);
    case 13:
        return deb_index_package(loaded, 2, out, sizeof out, &length);
    case 14:
        return deb_diff(DEB_PACKAGES, DEB_VALUES, text, size, bytes(other_index),
                        strlen(other_index), out, sizeof out, &length);
    case 15:
        return deb_index_unmet(loaded, DEB_PACKAGES, 1, bytes("amd64"), 5, &profile, 1, text, size,
                               out, sizeof out, &length);
    case 16:
        return deb_check_all(DEB_PACKAGES, bytes(twice_refused), strlen(twice_refused),
                             (struct deb_refusal *)(void *)out, 2, &length);
    case 17:
        return deb_explain_all(DEB_PACKAGES, text, size, out, sizeof out, &length);
    case 18:
        return deb_explain_all(DEB_PACKAGES, bytes(twice_refused), strlen(twice_refused), out,
                               sizeof out, &length);
    case 19:
        return deb_query_why(bytes("amd64"), 5, &profile, 1, bytes("hello (>= 2) | xx, mta"), 22,
                             text, size, out, sizeof out, &length);
    case 20:
        return deb_index_query_why(loaded, bytes("amd64"), 5, &profile, 1,
                                   bytes("hello (>= 2) | xx, mta"), 22, out, sizeof out, &length);
    case 21:
        return deb_index_details(loaded, 2, out, sizeof out, &length);
    case 22:
        return deb_explain_relation(bytes("aa [!amd64] <xx yy>, bb cc"), 26, out, sizeof out,
                                    &length);
    case 23:
        return deb_explain_relation(bytes("bb (>= 01) | cc:any, aa [!amd64] <xx yy>"), 40, out,
                                    sizeof out, &length);
    case 24:
        return deb_explain_version(bytes("1_2"), 3, out, sizeof out, &length);
    case 25:
        return deb_explain_version(bytes("1:2-3"), 5, out, sizeof out, &length);
    case 26:
        return deb_relation_parts(bytes("bb (>= 01) | cc:any, aa [!amd64] <xx yy>"), 40,
                                  (struct deb_alternative *)(void *)out, 3, &length);
    case 27:
        return feed_file(index_of_two);
    case 28:
        return feed_file(refused);
    case 29:
        return new_index(index_of_two);
    case 30:
        return deb_healthy(DEB_PACKAGES, 1, bytes("amd64"), 5, bytes(unhealthy), strlen(unhealthy),
                           out, sizeof out, &length);
    case 31:
        return deb_healthy(DEB_STATUS, 1, bytes("amd64"), 5, bytes(installed), strlen(installed), out,
                           sizeof out, &length);
    case 32:
        return deb_installable(DEB_PACKAGES, 1, 0, 0, 0, bytes("amd64"), 5, NULL, 0,
                               bytes(uninstallable), strlen(uninstallable), out, sizeof out,
                               &length);
    case 33:
        return deb_installable(DEB_STATUS, 1, 1, 1, 0, bytes("amd64"), 5, &profile, 1,
                               bytes(installed), strlen(installed), out, sizeof out, &length);
    case 34:
        return deb_witness(DEB_PACKAGES, 0, 1, 0, 0, bytes("amd64"), 5, bytes("aa"), 2, &profile, 1,
                           bytes(sought), strlen(sought), out, sizeof out, &length);
    case 35:
        return deb_witness(DEB_PACKAGES, 1, 0, 1, 0, bytes("amd64"), 5, bytes("aa"), 2, NULL, 0,
                           bytes(uninstallable), strlen(uninstallable), out, sizeof out, &length);
    case 36:
        return deb_buildable(DEB_SOURCES, 1, 1, 0, bytes("amd64"), 5, &profile, 1, &profile, 1,
                             bytes(uninstallable), strlen(uninstallable), bytes(sources),
                             strlen(sources), out, sizeof out, &length);
    case 37:
        return change_index(index_of_two, NULL);
    case 38:
        return change_index(index_of_two, &profile);
    case 39:
        return deb_index_unmet_with(loaded, loaded, DEB_PACKAGES, DEB_RECOMMENDS | DEB_UNLESS,
                                    bytes("amd64"), 5, bytes("i386"), 4, &profile, 1, &profile, 1,
                                    text, size, out, sizeof out, &length);
    case 40: {
        struct deb_text texts[] = {{text, size}, {text, size}};
        return deb_latest(DEB_PACKAGES, DEB_NAME, bytes("9"), 1, texts, 2, out, sizeof out, &length);
    }
    case 41:
        return deb_select(DEB_PACKAGES, 0, DEB_CONTROL, conditions, 2, fields, 2, text, size, out,
                          sizeof out, &length);
    case 42:
        return deb_select(DEB_PACKAGES, 1, DEB_TABLE, conditions, 3, fields, 2, text, size, out,
                          sizeof out, &length);
    case 43:
        return deb_select(DEB_PACKAGES, 0, DEB_JSON_LINES, NULL, 0, NULL, 0, text, size, out,
                          sizeof out, &length);
    case 44:
        return deb_select(DEB_PACKAGES, 0, DEB_COUNT, conditions + 2, 2, NULL, 0, text, size, out,
                          sizeof out, &length);
    case 45:
        return deb_explain_condition(DEB_PACKAGES, bytes("Version >= 1_"), 13, out, sizeof out,
                                     &length);
    case 46:
        return deb_explain_condition(DEB_PACKAGES, bytes("Version >= 1"), 12, out, sizeof out,
                                     &length);
    default:
        return deb_query(bytes("amd64"), 5, &profile, 1, bytes("hello (>= 1) | xx, mta"), 22, text,
                         size, out, sizeof out, &length);
    }
}

int main(void) {
    static const char *names[] = {"version_canonical", "check",   "normalise", "explain",
                                  "explain, refused",  "same",    "version_key",
                                  "relation_canonical", "fields", "fields, refused",
                                  "unmet",             "index_read", "index_query",
                                  "index_package",     "diff",    "index_unmet",
                                  "check_all",         "explain_all", "explain_all, refused",
                                  "query_why",         "index_query_why", "index_details",
                                  "explain_relation, refused", "explain_relation",
                                  "explain_version, refused",  "explain_version",
                                  "relation_parts",    "reader_feed", "reader_feed, refused",
                                  "index_new",         "healthy",     "healthy, installed",
                                  "installable",       "installable, installed",
                                  "witness",           "witness, not found",
                                  "buildable",         "index_read_more", "index_without",
                                  "index_unmet_with",  "latest",  "select", "select, table",
                                  "select, JSON",      "select, no condition",
                                  "explain_condition, refused", "explain_condition", "query"};
    enum { CALLS = sizeof names / sizeof *names };
    static const int statuses[CALLS] = {
        DEB_YES, DEB_YES, DEB_YES, DEB_YES, DEB_REFUSED, DEB_YES,
        DEB_YES, DEB_YES, DEB_YES, DEB_REFUSED, DEB_NO, DEB_YES,
        DEB_YES, DEB_YES, DEB_NO,  DEB_NO,  DEB_REFUSED, DEB_YES,
        DEB_REFUSED, DEB_NO,  DEB_NO,  DEB_YES, DEB_REFUSED, DEB_YES,
        DEB_REFUSED, DEB_YES, DEB_YES, DEB_YES, DEB_REFUSED, DEB_YES,
        DEB_NO,  DEB_NO,  DEB_NO,  DEB_NO,  DEB_YES, DEB_NO,
        DEB_NO,  DEB_YES, DEB_YES, DEB_YES, DEB_YES, DEB_YES,
        DEB_YES, DEB_YES, DEB_SECOND_REFUSED, DEB_REFUSED, DEB_YES, DEB_YES,
    };
    struct deb_answer reading;
    int which, passed = 0, failed = 0;
    loaded = malloc(deb_index_size());
    deb_index_read(loaded, bytes(index_of_two), strlen(index_of_two), &reading);
    failed += reading.status != DEB_YES || deb_index_size() > 1024;
    for (which = 0; which < CALLS; which++) {
        long growth = 0, most;
        struct deb_answer answer;
        growths = 0;
        call(which);
        most = growths;
        do {
            size_t at, touched = 0;
            memset(out, 7, sizeof out);
            length = 0;
            until_refused = growth;
            growths = 0;
            answer = call(which);
            if (until_refused >= 0)
                break; /* there is no such growth */
            until_refused = -1;
            for (at = 0; at < sizeof out; at++)
                touched += out[at] != 7;
            if ((answer.status == DEB_NO_MEMORY && touched == 0 && length == 0) ||
                (answer.status == statuses[which] && growths > most))
                passed++;
            else {
                printf("deb_%s, growth %ld: status %d\n", names[which], growth, answer.status);
                failed++;
            }
        } while (growth++ < 10000);
        until_refused = -1;
        if (answer.status == statuses[which] && growth > 0)
            passed++;
        else {
            printf("deb_%s: status %d after %ld growths\n", names[which], answer.status, growth);
            failed++;
        }
    }
    deb_index_free(loaded);
    free(loaded);
    printf("memory: %d passed, %d failed\n", passed, failed);
    return failed != 0;
}
