/* Four threads call every function at once, and each is answered as one alone is. They do so as
 * often as the first argument says, or 2000 times. */
#include "debctl.h"

#include <pthread.h>
#include <stdio.h>
#include <stdlib.h>
#include <string.h>

static const uint8_t *bytes(const char *text) { return (const uint8_t *)text; }

static const char *hello = "Package: hello\nVersion: 1.0-0\nArchitecture: amd64\n";

static const char *bad = "Package: hello\nVersion: 1-\n";

static int turns = 2000;
static struct deb_reader *shared; /* all threads ask it for its fields */

/* How many of these calls return something else than they should. */
static int ask_more(const uint8_t *text, size_t size) {
    struct deb_reader *reader = malloc(deb_reader_size());
    struct deb_alternative alternative;
    struct deb_row rows[2];
    struct deb_answer answer;
    struct deb_field fields[4];
    uint8_t out[512], names[64], values[64];
    size_t length, names_length, values_length;
    int wrong = 0;
    wrong += deb_query_why(bytes("amd64"), 5, NULL, 0, bytes("zz"), 2, text, size, out, sizeof out,
                           &length)
                     .status != DEB_NO ||
             deb_rows(DEB_REPORT, out, length, rows, 2, &length).status != DEB_YES || length != 2 ||
             rows[0].kind != DEB_ROW_UNMET || rows[1].kind != DEB_ROW_REASON;
    wrong += deb_version_parts(bytes("1:2-3"), 5).revision != 4;
    wrong += deb_relation_parts(bytes("aa:any"), 6, &alternative, 1, &length).status != DEB_YES ||
             alternative.qualifier != 3;
    wrong +=
        deb_explain_version(bytes("1_"), 2, out, sizeof out, &length).code != DEB_BAD_VERSION ||
        deb_explain_relation(bytes("("), 1, out, sizeof out, &length).code != DEB_BAD_RELATION;
    deb_reader_start(reader, DEB_PACKAGES, &answer);
    deb_reader_feed(reader, text, 20, 0, &answer);
    deb_reader_feed(reader, text + 20, size - 20, 1, &answer);
    wrong += answer.status != DEB_YES || answer.count != 1;
    deb_reader_free(reader);
    free(reader);
    answer = deb_reader_fields(shared, fields, 4, &length, names, sizeof names, &names_length, values,
                               sizeof values, &values_length);
    wrong += answer.status != DEB_YES || length != 3 || values_length != 18 ||
             memcmp(values + fields[2].value, "amd64", 6) != 0;
    return wrong;
}

static void *run(void *wrong) {
    int turn;
    for (turn = 0; turn < turns; turn++) {
        uint8_t out[512];
        struct deb_refusal refusal;
        size_t length;
        const uint8_t *text = bytes(hello);
        const char *source = "Package: aa\nVersion: 1-2\n";
        struct deb_text without = {bytes("aa"), 2};
        size_t size = strlen(hello);
        struct deb_comparison order = deb_version_compare(bytes("1~"), 2, bytes("1"), 1);
        *(int *)wrong += order.status != DEB_YES || order.order >= 0;
        *(int *)wrong += deb_check(DEB_PACKAGES, text, size).count != 1;
        *(int *)wrong += deb_same(DEB_PACKAGES, text, size, text, size).status != DEB_YES;
        *(int *)wrong +=
            deb_normalise(DEB_PACKAGES, text, size, out, sizeof out, &length).status != DEB_YES ||
            length != 48 || memcmp(out, "Architecture: amd64\nPackage: hello\nVersion: 1.0\n", 48);
        *(int *)wrong +=
            deb_explain(DEB_PACKAGES, bytes(bad), strlen(bad), out, sizeof out, &length).line !=
                2 ||
            memcmp(out, "line: 2\ncode: 18\nname: BadVersion\n", 34);
        *(int *)wrong +=
            deb_check_all(DEB_PACKAGES, bytes(bad), strlen(bad), &refusal, 1, &length).line != 2 ||
            length != 1 || refusal.line != 2 || refusal.code != DEB_BAD_VERSION;
        *(int *)wrong +=
            deb_explain_all(DEB_PACKAGES, text, size, out, sizeof out, &length).count != 1 ||
            length != 16 || memcmp(out, "ok 1, 0 refused\n", 16);
        *(int *)wrong += deb_query(bytes("amd64"), 5, NULL, 0, bytes("hello"), 5, text, size, out,
                                   sizeof out, &length)
                                 .status != DEB_YES ||
                         length != 29;
        *(int *)wrong +=
            deb_version_key(bytes("1.0"), 3, out, sizeof out, &length).status != DEB_YES ||
            length != 12;
        *(int *)wrong += deb_unmet(DEB_PACKAGES, 0, bytes("amd64"), 5, NULL, 0, text, size, text,
                                   size, out, sizeof out, &length)
                             .status != DEB_YES;
        *(int *)wrong += deb_healthy(DEB_PACKAGES, 0, bytes("amd64"), 5, text, size, out, sizeof out,
                                     &length)
                             .status != DEB_YES;
        *(int *)wrong += deb_installable(DEB_PACKAGES, 0, 0, 1, 0, bytes("amd64"), 5, &without, 1,
                                         text, size, out, sizeof out, &length)
                             .status != DEB_YES;
        *(int *)wrong += deb_witness(DEB_PACKAGES, 0, 1, 0, 0, bytes("amd64"), 5, bytes("hello"), 5,
                                     &without, 1, text, size, out, sizeof out, &length)
                                 .status != DEB_YES ||
                         length != 19 || memcmp(out, " 1 hello 1.0 amd64\n", 19) != 0;
        *(int *)wrong += deb_buildable(DEB_SOURCES, 1, 0, 0, bytes("amd64"), 5, NULL, 0, &without, 1,
                                       text, size, bytes(source), strlen(source), out, sizeof out,
                                       &length)
                                 .status != DEB_NO ||
                         length != 30;
        *(int *)wrong += ask_more(text, size);
    }
    return NULL;
}

int main(int count, char **words) {
    pthread_t threads[4];
    struct deb_answer answer;
    int wrong[4] = {0}, sum = 0, at;
    if (count > 1)
        turns = atoi(words[1]);
    shared = malloc(deb_reader_size());
    deb_reader_start(shared, DEB_PACKAGES, &answer);
    deb_reader_feed(shared, bytes(hello), strlen(hello), 1, &answer);
    for (at = 0; at < 4; at++)
        if (pthread_create(&threads[at], NULL, run, &wrong[at]) != 0)
            return 1;
    for (at = 0; at < 4; at++) {
        pthread_join(threads[at], NULL);
        sum += wrong[at] != 0;
    }
    deb_reader_free(shared);
    free(shared);
    printf("threads: %d passed, %d failed\n", 4 - sum, sum);
    return sum != 0;
}
