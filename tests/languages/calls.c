/* The table of statuses of debctl.h, and its buffers, function by function. */
#include "debctl.h"

#include <stdio.h>
#include <stdlib.h>
#include <string.h>

static int passed, failed;

#define IS(what) \
    ((what) ? (void)passed++ : (void)(failed++, printf("calls.c:%d: %s\n", __LINE__, #what)))

static const uint8_t *bytes(const char *text) { return (const uint8_t *)text; }

/* A buffer of so much room, whose bytes are all 7, and what was written to it. The room is taken
 * from the heap, so that a byte behind it is one too many for the address sanitiser. */
struct buffer {
    uint8_t *bytes;
    size_t room, length;
};

static struct buffer buffer_of(size_t room) {
    struct buffer it = {room ? malloc(room) : NULL, room, 99};
    if (room)
        memset(it.bytes, 7, room);
    return it;
}

/* The text stands at the front, and nothing was written behind it. */
static int holds(struct buffer it, const char *text) {
    size_t at = strlen(text);
    if (it.length != at || at > it.room || (at && memcmp(it.bytes, text, at) != 0))
        return 0;
    for (; at < it.room; at++)
        if (it.bytes[at] != 7)
            return 0;
    return 1;
}

/* Nothing was written, and this length is told. */
static int untouched(struct buffer it, size_t length) {
    size_t at;
    for (at = 0; at < it.room; at++)
        if (it.bytes[at] != 7)
            return 0;
    return it.length == length;
}

static int is(struct deb_answer answer, int status, int code, uint64_t line, uint64_t count) {
    return answer.status == status && answer.code == code && answer.line == line &&
           answer.count == count;
}

static struct deb_comparison compare(const char *left, const char *right) {
    return deb_version_compare(bytes(left), strlen(left), bytes(right), strlen(right));
}

static int compares(const char *left, const char *right, int status, int code, int order) {
    struct deb_comparison answer = compare(left, right);
    return answer.status == status && answer.code == code && answer.order == order;
}

static void try_versions(void) {
    size_t rooms[] = {0, 4, 5, 6, 64}, at;
    struct deb_comparison empty = deb_version_compare(NULL, 0, bytes("1"), 1);

    IS(compares("1.0~rc1", "1.0", DEB_YES, 0, -1));
    IS(compares("0:1.0-0", "1.00", DEB_YES, 0, 0));
    IS(compares("1.10", "1.9", DEB_YES, 0, 1));
    IS(compares("1_", "1", DEB_REFUSED, DEB_BAD_VERSION, 0));
    IS(compares("1", "1_", DEB_SECOND_REFUSED, DEB_BAD_VERSION, 0));
    IS(compares("1_", "1_", DEB_REFUSED, DEB_BAD_VERSION, 0));
    IS(empty.status == DEB_REFUSED && empty.code == DEB_BAD_VERSION && empty.order == 0);
    for (at = 0; at < sizeof rooms / sizeof *rooms; at++) {
        struct buffer it = buffer_of(rooms[at]), bad = buffer_of(rooms[at]);
        struct deb_answer answer =
            deb_version_canonical(bytes("00:1:02-0"), 9, it.bytes, it.room, &it.length);
        if (rooms[at] < 5)
            IS(is(answer, DEB_NO_ROOM, 0, 0, 0) && untouched(it, 5));
        else
            IS(is(answer, DEB_YES, 0, 0, 0) && holds(it, "0:1:2"));
        answer = deb_version_canonical(bytes("1-"), 2, bad.bytes, bad.room, &bad.length);
        IS(is(answer, DEB_REFUSED, DEB_BAD_VERSION, 0, 0) && untouched(bad, 0));
        answer = deb_version_canonical(NULL, 0, bad.bytes, bad.room, &bad.length);
        IS(is(answer, DEB_REFUSED, DEB_BAD_VERSION, 0, 0) && untouched(bad, 0));
        free(it.bytes);
        free(bad.bytes);
    }
}

static const char *hello = "vERSION: 01.0-0\npackage:hello\nArchitecture: amd64\n";
static const char *canonical = "Architecture: amd64\nPackage: hello\nVersion: 1.0\n";
static const char *newer = "Package: hello\nVersion: 1.1\nArchitecture: amd64\n";
static const char *bad = "Package: hello\nVersion: 1.1\nArchitecture: amd64\nSize: 1k\n";
static const char *statuses =
    "Package: aa\nStatus: install ok installed\nVersion: 1.0\nArchitecture: all\n\n"
    "Package: bb\nStatus: purge ok not-installed\n";

static struct deb_answer check(int kind, const char *text) {
    return deb_check((uint8_t)kind, bytes(text), strlen(text));
}

static struct deb_answer same(int kind, const char *text, const char *other) {
    return deb_same((uint8_t)kind, bytes(text), strlen(text), bytes(other), strlen(other));
}

static void try_files(void) {
    size_t whole = strlen(canonical), at;
    size_t rooms[] = {0, whole - 1, whole, whole + 1, 4096};

    IS(is(check(DEB_PACKAGES, hello), DEB_YES, 0, 0, 1));
    IS(is(check(DEB_PACKAGES, "Package hello\n"), DEB_REFUSED, DEB_NO_COLON, 1, 0));
    IS(is(check(DEB_PACKAGES, bad), DEB_REFUSED, DEB_BAD_NUMBER, 4, 0));
    IS(is(check(DEB_ANY, bad), DEB_YES, 0, 0, 1));
    IS(is(check(DEB_STATUS, statuses), DEB_YES, 0, 0, 2));
    IS(is(check(DEB_STATUS, hello), DEB_REFUSED, DEB_MISSING_FIELD, 1, 0));
    IS(is(check(6, hello), DEB_NO_KIND, 0, 0, 0));
    IS(is(check(255, "x"), DEB_NO_KIND, 0, 0, 0));
    IS(is(deb_check(DEB_PACKAGES, NULL, 0), DEB_YES, 0, 0, 0));
    IS(is(deb_check(DEB_BINARY, NULL, 0), DEB_REFUSED, DEB_NO_PARAGRAPH, 1, 0));
    for (at = 0; at < sizeof rooms / sizeof *rooms; at++) {
        struct buffer it = buffer_of(rooms[at]), no = buffer_of(rooms[at]);
        struct deb_answer answer =
            deb_normalise(DEB_PACKAGES, bytes(hello), strlen(hello), it.bytes, it.room, &it.length);
        if (rooms[at] < whole)
            IS(is(answer, DEB_NO_ROOM, 0, 0, 0) && untouched(it, whole));
        else
            IS(is(answer, DEB_YES, 0, 0, 1) && holds(it, canonical));
        answer = deb_normalise(DEB_PACKAGES, bytes(bad), strlen(bad), no.bytes, no.room, &no.length);
        IS(is(answer, DEB_REFUSED, DEB_BAD_NUMBER, 4, 0) && untouched(no, 0));
        answer = deb_normalise(9, bytes(hello), strlen(hello), no.bytes, no.room, &no.length);
        IS(is(answer, DEB_NO_KIND, 0, 0, 0) && untouched(no, 0));
        answer = deb_normalise(DEB_PACKAGES, NULL, 0, no.bytes, no.room, &no.length);
        IS(is(answer, DEB_YES, 0, 0, 0) && holds(no, ""));
        free(it.bytes);
        free(no.bytes);
    }
    IS(is(same(DEB_PACKAGES, hello, canonical), DEB_YES, 0, 0, 0));
    IS(is(same(DEB_PACKAGES, hello, newer), DEB_NO, 0, 0, 0));
    IS(is(same(DEB_PACKAGES, hello, ""), DEB_NO, 0, 0, 0));
    IS(is(same(DEB_PACKAGES, bad, "x"), DEB_REFUSED, DEB_BAD_NUMBER, 4, 0));
    IS(is(same(DEB_PACKAGES, hello, bad), DEB_SECOND_REFUSED, DEB_BAD_NUMBER, 4, 0));
    IS(is(same(7, hello, hello), DEB_NO_KIND, 0, 0, 0));
    IS(is(deb_same(DEB_PACKAGES, NULL, 0, NULL, 0), DEB_YES, 0, 0, 0));
}

static struct deb_answer diff(int kind, int detail, const char *old, const char *changed,
                              struct buffer *it) {
    return deb_diff((uint8_t)kind, (uint8_t)detail, bytes(old), strlen(old), bytes(changed),
                    strlen(changed), it->bytes, it->room, &it->length);
}

static void try_differences(void) {
    const char *line = "upgraded 1 hello 1.0 1.1 amd64 Version\n";
    const char *values =
        "upgraded 1 hello 1.0 1.1 amd64 Version\n -Version: 1.0\n +Version: 1.1\n";
    size_t rooms[] = {0, strlen(line) - 1, strlen(line), 4096}, at;
    for (at = 0; at < sizeof rooms / sizeof *rooms; at++) {
        struct buffer it = buffer_of(rooms[at]), none = buffer_of(rooms[at]);
        struct deb_answer answer = diff(DEB_PACKAGES, DEB_FIELDS, hello, newer, &it);
        if (rooms[at] < strlen(line))
            IS(is(answer, DEB_NO_ROOM, 0, 0, 0) && untouched(it, strlen(line)));
        else
            IS(is(answer, DEB_NO, 0, 0, 0) && holds(it, line));
        IS(is(diff(DEB_BINARY, DEB_VALUES, hello, canonical, &none), DEB_YES, 0, 0, 0));
        IS(untouched(none, 0));
        IS(is(diff(DEB_PACKAGES, 0, bad, "x", &none), DEB_REFUSED, DEB_BAD_NUMBER, 4, 0));
        IS(is(diff(DEB_PACKAGES, 1, hello, bad, &none), DEB_SECOND_REFUSED, DEB_BAD_NUMBER, 4, 0));
        IS(is(diff(DEB_ANY, DEB_FIELDS, hello, newer, &none), DEB_NO_KIND, 0, 0, 0));
        IS(is(diff(6, DEB_FIELDS, hello, newer, &none), DEB_NO_KIND, 0, 0, 0));
        IS(is(diff(DEB_PACKAGES, 2, hello, newer, &none), DEB_NO_KIND, 0, 0, 0));
        IS(untouched(none, 0));
        if (rooms[at] == 4096) {
            struct buffer full = buffer_of(4096);
            IS(is(diff(DEB_PACKAGES, DEB_VALUES, hello, newer, &full), DEB_NO, 0, 0, 0));
            IS(holds(full, values));
            free(full.bytes);
            full = buffer_of(4096);
            IS(is(diff(DEB_STATUS, DEB_FIELDS, statuses, "", &full), DEB_NO, 0, 0, 0));
            IS(holds(full, "removed 1 aa 1.0 all\nremoved 2 bb  \n"));
            free(full.bytes);
        }
        free(it.bytes);
        free(none.bytes);
    }
}

/* If several things are wrong: no kind, the first text, the second, and room, in this order; but an
 * explanation needs room. An index is tried in index.c. */
static void try_order(void) {
    const uint8_t *no = bytes("x"), *any = bytes("any");
    const struct deb_text profile = {bytes("No"), 2};
    const uint8_t sets[] = {DEB_PACKAGES, DEB_STATUS};
    const uint8_t others[] = {DEB_BINARY, DEB_SOURCE, DEB_SOURCES, DEB_ANY, 6, 255};
    size_t length, count, at;
    IS(is(deb_normalise(6, no, 1, NULL, 0, &length), DEB_NO_KIND, 0, 0, 0));
    IS(is(deb_normalise(DEB_ANY, no, 1, NULL, 0, &length), DEB_REFUSED, DEB_NO_COLON, 1, 0));
    IS(is(same(6, "x", "x"), DEB_NO_KIND, 0, 0, 0));
    IS(is(same(DEB_ANY, "x", "\nx"), DEB_REFUSED, DEB_NO_COLON, 1, 0));
    IS(is(deb_diff(DEB_ANY, 0, no, 1, no, 1, NULL, 0, &length), DEB_NO_KIND, 0, 0, 0));
    IS(is(deb_diff(DEB_BINARY, 2, no, 1, no, 1, NULL, 0, &length), DEB_NO_KIND, 0, 0, 0));
    IS(is(deb_diff(DEB_PACKAGES, 1, bytes("\nx"), 2, no, 1, NULL, 0, &length), DEB_REFUSED,
          DEB_NO_COLON, 2, 0));
    IS(is(deb_diff(DEB_PACKAGES, 1, bytes(hello), strlen(hello), no, 1, NULL, 0, &length),
          DEB_SECOND_REFUSED, DEB_NO_COLON, 1, 0));
    IS(is(deb_unmet(DEB_ANY, 0, any, 3, &profile, 1, no, 1, no, 1, NULL, 0, &length), DEB_NO_KIND, 0,
          0, 0));
    IS(is(deb_unmet(DEB_SOURCE, 1, any, 3, &profile, 1, no, 1, no, 1, NULL, 0, &length), DEB_NO_KIND,
          0, 0, 0));
    IS(is(deb_unmet(DEB_SOURCE, 0, any, 3, NULL, 0, no, 1, no, 1, NULL, 0, &length), DEB_REFUSED,
          DEB_BAD_ENVIRONMENT, 0, 0));
    for (at = 0; at < sizeof others; at++) {
        length = 9;
        IS(is(deb_healthy(others[at], 0, any, 3, no, 1, NULL, 0, &length), DEB_NO_KIND, 0, 0, 0) &&
           length == 0);
        length = 9;
        IS(is(deb_installable(others[at], 0, 0, 0, 1, any, 3, &profile, 1, no, 1, NULL, 0, &length),
              DEB_NO_KIND, 0, 0, 0) &&
           length == 0);
        length = 9;
        IS(is(deb_witness(others[at], 0, 0, 0, 1, any, 3, no, 1, &profile, 1, no, 1, NULL, 0, &length),
              DEB_NO_KIND, 0, 0, 0) &&
           length == 0);
    }
    for (at = 0; at < 8; at++) {
        int is_kind = at == DEB_SOURCES || at == DEB_SOURCE;
        length = 9;
        IS(is(deb_buildable((uint8_t)at, 1, 1, 1, any, 3, &profile, 1, &profile, 1, no, 1, no, 1, NULL,
                            0, &length),
              is_kind ? DEB_REFUSED : DEB_NO_KIND, is_kind ? DEB_BAD_ENVIRONMENT : 0, 0, 0) &&
           length == 0);
    }
    IS(is(deb_buildable(DEB_SOURCE, 0, 0, 0, any, 2, NULL, 0, NULL, 0, no, 1, no, 1, NULL, 0, &length),
          DEB_REFUSED, DEB_NO_COLON, 1, 0));
    IS(is(deb_buildable(DEB_SOURCES, 0, 0, 0, any, 2, NULL, 0, NULL, 0, NULL, 0, no, 1, NULL, 0,
                        &length),
          DEB_SECOND_REFUSED, DEB_NO_COLON, 1, 0));
    for (at = 0; at < sizeof sets; at++) {
        IS(is(deb_healthy(sets[at], 0, any, 3, no, 1, NULL, 0, &length), DEB_REFUSED,
              DEB_BAD_ENVIRONMENT, 0, 0));
        IS(is(deb_healthy(sets[at], 0, any, 2, no, 1, NULL, 0, &length), DEB_REFUSED, DEB_NO_COLON, 1,
              0) &&
           length == 0);
        IS(is(deb_installable(sets[at], 0, 1, 0, 1, any, 3, &profile, 1, no, 1, NULL, 0, &length),
              DEB_REFUSED, DEB_BAD_ENVIRONMENT, 0, 0));
        IS(is(deb_installable(sets[at], 0, 0, 1, 1, any, 2, NULL, 0, no, 1, NULL, 0, &length),
              DEB_REFUSED, DEB_NO_COLON, 1, 0) &&
           length == 0);
        IS(is(deb_witness(sets[at], 0, 1, 0, 1, any, 3, no, 1, &profile, 1, no, 1, NULL, 0, &length),
              DEB_REFUSED, DEB_BAD_ENVIRONMENT, 0, 0));
        IS(is(deb_witness(sets[at], 0, 0, 1, 1, any, 2, NULL, 0, NULL, 0, no, 1, NULL, 0, &length),
              DEB_REFUSED, DEB_NO_COLON, 1, 0) &&
           length == 0);
    }
    IS(is(deb_explain(6, no, 1, NULL, 0, &length), DEB_NO_KIND, 0, 0, 0) && length == 0);
    IS(is(deb_explain(DEB_ANY, no, 1, NULL, 0, &length), DEB_NO_ROOM, 0, 0, 0));
    IS(is(deb_explain_all(6, no, 1, NULL, 0, &length), DEB_NO_KIND, 0, 0, 0) && length == 0);
    IS(is(deb_explain_all(DEB_ANY, no, 1, NULL, 0, &length), DEB_NO_ROOM, 0, 0, 0));
    IS(is(deb_check_all(6, no, 1, NULL, 0, &count), DEB_NO_KIND, 0, 0, 0) && count == 0);
    IS(is(deb_check_all(DEB_ANY, no, 1, NULL, 0, &count), DEB_NO_ROOM, 0, 0, 0) && count == 1);
}

struct explained {
    uint8_t kind;
    const char *text;
    int status, code;
    uint64_t line, count;
    const char *lines;
};

typedef struct deb_answer explainer(uint8_t kind, const uint8_t *text, size_t text_length,
                                    uint8_t *out, size_t out_size, size_t *length);

/* An explanation in buffers that are too short, long enough, and longer. */
static void try_explained(explainer *explain, const struct explained *it) {
    size_t whole = it->lines ? strlen(it->lines) : 1, turn;
    size_t rooms[] = {0, whole - 1, whole, whole + 1, 4096};
    for (turn = 0; turn < sizeof rooms / sizeof *rooms; turn++) {
        struct buffer out = buffer_of(rooms[turn]);
        struct deb_answer answer = explain(it->kind, bytes(it->text),
                                           it->text ? strlen(it->text) : 0, out.bytes, out.room,
                                           &out.length);
        if (!it->lines)
            IS(is(answer, it->status, 0, 0, 0) && untouched(out, 0));
        else if (out.room < whole)
            IS(is(answer, DEB_NO_ROOM, 0, 0, 0) && untouched(out, whole));
        else
            IS(is(answer, it->status, it->code, it->line, it->count) && holds(out, it->lines));
        free(out.bytes);
    }
}

static void try_explanations(void) {
    const struct explained all[] = {
        {DEB_PACKAGES, hello, DEB_YES, 0, 0, 1, "ok 1\n"},
        {DEB_PACKAGES, NULL, DEB_YES, 0, 0, 0, "ok 0\n"},
        {DEB_ANY, bad, DEB_YES, 0, 0, 1, "ok 1\n"},
        {DEB_PACKAGES, bad, DEB_REFUSED, DEB_BAD_NUMBER, 4, 0,
         "line: 4\ncode: 15\nname: BadNumber\nfield: Size\nvalue: 1k\n"
         "rule: Installed-Size (Debian Policy 5.6.20) and Size must be one or more decimal digits.\n"
         "usually: a unit after the number\n"},
        {DEB_BINARY, NULL, DEB_REFUSED, DEB_NO_PARAGRAPH, 1, 0,
         "line: 1\ncode: 10\nname: NoParagraph\n"
         "rule: A file of this kind must contain exactly one paragraph (Debian Policy 5.3, 5.4).\n"
         "usually: an empty file, such as a failed command leaves\n"},
        {DEB_SOURCES, "Package: aa\nVersion: 1_2\n\\\t", DEB_REFUSED, DEB_NO_COLON, 3, 0,
         "line: 3\ncode: 6\nname: NoColon\nvalue: \\\\\\t\n"
         "rule: The first line of a field must have a colon after the name (Debian Policy 5.1).\n"
         "usually: no control data, a blank line within a field, or lines that end in CR LF\n"},
        {6, hello, DEB_NO_KIND, 0, 0, 0, NULL},
        {255, NULL, DEB_NO_KIND, 0, 0, 0, NULL},
    };
    size_t at;
    for (at = 0; at < sizeof all / sizeof *all; at++)
        try_explained(deb_explain, &all[at]);
}

/* Blocks of two refusals, and a paragraph that passes. */
static void try_all_explanations(void) {
    static const char *two =
        "Package: hello\nVersion: 1.1\nArchitecture: amd64\nSize: 1k\n\nx y\n\n"
        "Package: hello\nVersion: 1.0\nArchitecture: amd64\n";
    const struct explained all[] = {
        {DEB_PACKAGES, hello, DEB_YES, 0, 0, 1, "ok 1, 0 refused\n"},
        {DEB_PACKAGES, NULL, DEB_YES, 0, 0, 0, "ok 0, 0 refused\n"},
        {DEB_PACKAGES, two, DEB_REFUSED, DEB_BAD_NUMBER, 4, 1,
         "line: 4\ncode: 15\nname: BadNumber\nfield: Size\nvalue: 1k\n"
         "rule: Installed-Size (Debian Policy 5.6.20) and Size must be one or more decimal digits.\n"
         "usually: a unit after the number\n\n"
         "line: 6\ncode: 6\nname: NoColon\nvalue: x y\n"
         "rule: The first line of a field must have a colon after the name (Debian Policy 5.1).\n"
         "usually: no control data, a blank line within a field, or lines that end in CR LF\n\n"
         "ok 1, 2 refused\n"},
        {DEB_ANY, two, DEB_REFUSED, DEB_NO_COLON, 6, 2,
         "line: 6\ncode: 6\nname: NoColon\nvalue: x y\n"
         "rule: The first line of a field must have a colon after the name (Debian Policy 5.1).\n"
         "usually: no control data, a blank line within a field, or lines that end in CR LF\n\n"
         "ok 2, 1 refused\n"},
        {DEB_BINARY, NULL, DEB_REFUSED, DEB_NO_PARAGRAPH, 1, 0,
         "line: 1\ncode: 10\nname: NoParagraph\n"
         "rule: A file of this kind must contain exactly one paragraph (Debian Policy 5.3, 5.4).\n"
         "usually: an empty file, such as a failed command leaves\n\n"
         "ok 0, 1 refused\n"},
        {6, two, DEB_NO_KIND, 0, 0, 0, NULL},
        {255, NULL, DEB_NO_KIND, 0, 0, 0, NULL},
    };
    size_t at;
    for (at = 0; at < sizeof all / sizeof *all; at++)
        try_explained(deb_explain_all, &all[at]);
}

/* A query of an index of hello and of a package for the profiles, whose report is as told. */
static struct deb_answer query(const char *target, const char *profile, const char *relation,
                               const char *index, struct buffer *it) {
    struct deb_text profiles[2] = {{bytes("stage1"), 6}, {NULL, 0}};
    profiles[1].bytes = bytes(profile ? profile : "");
    profiles[1].length = profile ? strlen(profile) : 0;
    return deb_query(bytes(target), strlen(target), profile ? profiles : NULL, profile ? 2 : 0,
                     bytes(relation), strlen(relation), bytes(index), strlen(index), it->bytes,
                     it->room, &it->length);
}

struct question {
    const char *target, *profile, *relation, *index;
    int status, code;
    uint64_t line;
    const char *report;
};

static void try_queries(void) {
    const struct question all[] = {
        {"amd64", NULL, "hello (>= 1)", hello, DEB_YES, 0, 0,
         "met hello (>= 1)\n 1 hello 1.0 amd64\n"},
        {"i386", NULL, "hello", hello, DEB_NO, 0, 0, "unmet hello\n"},
        {"amd64", "nodoc", "hello <!nodoc>", hello, DEB_YES, 0, 0, "ignored hello <!nodoc>\n"},
        {"amd64", "nodoc", "hello <!stage1>", hello, DEB_YES, 0, 0, "ignored hello <!stage1>\n"},
        {"amd64", NULL, "", hello, DEB_YES, 0, 0, ""},
        {"amd64", NULL, "hello (", "x", DEB_REFUSED, DEB_BAD_RELATION, 0, NULL},
        {"any", NULL, "hello (", "x", DEB_REFUSED, DEB_BAD_RELATION, 0, NULL},
        {"any", NULL, "hello", "x", DEB_REFUSED, DEB_BAD_ENVIRONMENT, 0, NULL},
        {"", NULL, "hello", hello, DEB_REFUSED, DEB_BAD_ENVIRONMENT, 0, NULL},
        {"amd64", "No", "hello", hello, DEB_REFUSED, DEB_BAD_ENVIRONMENT, 0, NULL},
        {"amd64", "", "hello", hello, DEB_REFUSED, DEB_BAD_ENVIRONMENT, 0, NULL},
        {"amd64", NULL, "hello [linux-any]", bad, DEB_REFUSED, DEB_BAD_NUMBER, 4, NULL},
        {"amd64", NULL, "hello [linux-any]", hello, DEB_REFUSED, DEB_WILDCARD, 0, NULL},
    };
    size_t at;
    for (at = 0; at < sizeof all / sizeof *all; at++) {
        const struct question *q = &all[at];
        size_t whole = q->report ? strlen(q->report) : 5, room = whole ? whole - 1 : 0;
        for (; room <= whole + 1; room++) {
            struct buffer it = buffer_of(room);
            struct deb_answer answer = query(q->target, q->profile, q->relation, q->index, &it);
            if (!q->report)
                IS(is(answer, q->status, q->code, q->line, 0) && untouched(it, 0));
            else if (room < whole)
                IS(is(answer, DEB_NO_ROOM, 0, 0, 0) && untouched(it, whole));
            else
                IS(is(answer, q->status, 0, 0, 0) && holds(it, q->report));
            free(it.bytes);
        }
    }
}

/* Packages of one name, each of which meets the relation: more than a megabyte is reported, and so
 * many bytes are asked for without a buffer, and with one that is too short by a byte. */
static void try_long_report(void) {
    enum { PACKAGES = 5000, LONGEST = 320 };
    char *index = malloc(PACKAGES * LONGEST), *report = malloc(PACKAGES * LONGEST);
    char *at = index, *told = report + sprintf(report, "met hello\n");
    struct buffer none = buffer_of(0), it;
    size_t room;
    int number;

    for (number = 1; number <= PACKAGES; number++) {
        at += sprintf(at, "Package: hello\nVersion: 1%0250d\nArchitecture: all\n\n", number);
        told += sprintf(told, " %d hello 1%0250d all\n", number, number);
    }
    IS(told - report > 1 << 20);
    IS(is(query("amd64", NULL, "hello", index, &none), DEB_NO_ROOM, 0, 0, 0));
    IS(none.length == (size_t)(told - report));
    for (room = none.length - 1; room <= none.length + 1; room++) {
        it = buffer_of(room);
        if (room < none.length)
            IS(is(query("amd64", NULL, "hello", index, &it), DEB_NO_ROOM, 0, 0, 0) &&
               untouched(it, none.length));
        else
            IS(is(query("amd64", NULL, "hello", index, &it), DEB_YES, 0, 0, 0) &&
               holds(it, report));
        free(it.bytes);
    }
    free(index);
    free(report);
}

/* An architecture, a profile and a name of a package, each of so many bytes, in the environment and
 * in a group of the report. */
static void try_long_names(size_t length) {
    char *name = malloc(length + 1), *relation = malloc(length + 16), *report = malloc(length + 32);
    struct buffer it = buffer_of(length + 32);

    memset(name, 'a', length);
    name[length] = '\0';
    sprintf(relation, "hello [!%s]", name);
    sprintf(report, "ignored %s\n", relation);
    IS(is(query(name, NULL, relation, hello, &it), DEB_YES, 0, 0, 0) && holds(it, report));
    free(it.bytes);
    it = buffer_of(length + 32);
    sprintf(relation, "hello <!%s>", name);
    sprintf(report, "ignored %s\n", relation);
    IS(is(query("amd64", name, relation, hello, &it), DEB_YES, 0, 0, 0) && holds(it, report));
    free(it.bytes);
    it = buffer_of(length + 32);
    sprintf(report, "unmet %s\n", name);
    IS(is(query("amd64", NULL, name, hello, &it), DEB_NO, 0, 0, 0) && holds(it, report));
    free(it.bytes);
    name[length - 1] = 'A';
    it = buffer_of(16);
    IS(is(query(name, NULL, "hello", hello, &it), DEB_REFUSED, DEB_BAD_ENVIRONMENT, 0, 0) &&
       untouched(it, 0));
    IS(is(query("amd64", name, "hello", hello, &it), DEB_REFUSED, DEB_BAD_ENVIRONMENT, 0, 0) &&
       untouched(it, 0));
    free(it.bytes);
    free(name);
    free(relation);
    free(report);
}

/* With an argument, as under memcheck, the long names are shorter. */
int main(int count, char **words) {
    (void)words;
    try_versions();
    try_files();
    try_differences();
    try_order();
    try_explanations();
    try_all_explanations();
    try_queries();
    try_long_report();
    try_long_names(count > 1 ? 1000000 : 16000000);
    printf("calls: %d passed, %d failed\n", passed, failed);
    return failed != 0;
}
