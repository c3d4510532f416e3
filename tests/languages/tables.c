/* Keys of versions, canonical relations, unmet relations, sets of packages, which packages can be
 * installed, and the tables of fields and of refusals. */
#include "debctl.h"

#include <stdio.h>
#include <stdlib.h>
#include <string.h>

static int passed, failed;

#define IS(what) \
    ((what) ? (void)passed++ : (void)(failed++, printf("tables.c:%d: %s\n", __LINE__, #what)))

static const uint8_t *bytes(const char *text) { return (const uint8_t *)text; }

static int is(struct deb_answer answer, int status, int code, uint64_t line, uint64_t count) {
    return answer.status == status && answer.code == code && answer.line == line &&
           answer.count == count;
}

/* Whether the bytes are all 7, as before a call. */
static int untouched(const void *buffer, size_t size) {
    const uint8_t *at = buffer;
    for (; size > 0; size--)
        if (*at++ != 7)
            return 0;
    return 1;
}

/* ---- keys */

/* Ascending; the second is the same version as the first, and so are two others. */
static const char *const versions[] = {
    "0",     "00-0",  "1~~",     "1~",    "1",      "1-0",    "1a",       "1+",  "1.0~rc1",
    "1.0",   "1.0-1", "1.0-1.1", "1.9",   "1.10",   "1.10.0", "2.0~beta", "2.0", "9:0",
    "10:0~", "10:0",
};

static size_t key_of(const char *version, uint8_t *key, size_t room) {
    size_t length = 0;
    struct deb_answer answer =
        deb_version_key(bytes(version), strlen(version), key, room, &length);
    IS(is(answer, DEB_YES, 0, 0, 0));
    return length;
}

static void try_order_of_keys(void) {
    size_t count = sizeof versions / sizeof *versions, at, other;
    for (at = 0; at < count; at++)
        for (other = 0; other < count; other++) {
            uint8_t left[64], right[64];
            size_t left_length = key_of(versions[at], left, sizeof left);
            size_t right_length = key_of(versions[other], right, sizeof right);
            size_t shared = left_length < right_length ? left_length : right_length;
            int order = memcmp(left, right, shared);
            struct deb_comparison told =
                deb_version_compare(bytes(versions[at]), strlen(versions[at]),
                                    bytes(versions[other]), strlen(versions[other]));
            if (order == 0)
                order = (left_length > right_length) - (left_length < right_length);
            IS((order > 0) - (order < 0) == told.order);
            IS(at >= other || told.order < 0 ||
               (told.order == 0 && left_length == right_length));
        }
}

static void try_keys(void) {
    static const uint8_t wanted[] = {1, 0, 2, 1, 0x31, 0xae, 2, 0, 1, 0x72, 0x63, 2, 1, 0x31, 2, 2, 0, 2};
    size_t room, length;
    for (room = 0; room < sizeof wanted + 2; room++) {
        uint8_t *key = malloc(room + 1);
        struct deb_answer answer;
        memset(key, 7, room + 1);
        length = 99;
        answer = deb_version_key(bytes("1.0~rc1"), 7, key, room, &length);
        IS(length == sizeof wanted);
        if (room < sizeof wanted)
            IS(is(answer, DEB_NO_ROOM, 0, 0, 0) && untouched(key, room + 1));
        else
            IS(is(answer, DEB_YES, 0, 0, 0) && memcmp(key, wanted, length) == 0 &&
               untouched(key + length, room + 1 - length));
        memset(key, 7, room + 1);
        answer = deb_version_key(bytes("1_"), 2, key, room, &length);
        IS(is(answer, DEB_REFUSED, DEB_BAD_VERSION, 0, 0) && length == 0 &&
           untouched(key, room + 1));
        free(key);
    }
    IS(is(deb_version_key(NULL, 0, NULL, 0, &length), DEB_REFUSED, DEB_BAD_VERSION, 0, 0));
}

/* ---- relations */

static void try_relation(const char *text, const char *canonical) {
    size_t whole = canonical ? strlen(canonical) : 0, room, length;
    for (room = whole ? whole - 1 : 0; room <= whole + 1; room++) {
        uint8_t *out = malloc(room + 1);
        struct deb_answer answer;
        memset(out, 7, room + 1);
        length = 99;
        answer = deb_relation_canonical(bytes(text), strlen(text), out, room, &length);
        IS(length == whole);
        if (!canonical)
            IS(is(answer, DEB_REFUSED, DEB_BAD_RELATION, 0, 0) && untouched(out, room + 1));
        else if (room < whole)
            IS(is(answer, DEB_NO_ROOM, 0, 0, 0) && untouched(out, room + 1));
        else
            IS(is(answer, DEB_YES, 0, 0, 0) && memcmp(out, canonical, whole) == 0 &&
               untouched(out + whole, room + 1 - whole));
        free(out);
    }
}

/* ---- unmet */

static const char *packages = "Package: aa\nVersion: 1\nArchitecture: amd64\nDepends: bb, cc | dd\n"
                              "Recommends: ee\n\nPackage: dd\nVersion: 2\nArchitecture: all\n";
static const char *source = "Format: 1.0\nSource: ss\nVersion: 01\nBuild-Depends: aa, zz, dd [linux-any]\n";

struct asked {
    int kind, recommends;
    const char *target, *index, *text;
    int status, code;
    uint64_t line, count;
    const char *lines;
};

static void try_unmet(void) {
    const struct asked all[] = {
        {DEB_PACKAGES, 0, "amd64", packages, packages, DEB_NO, 0, 0, 2,
         "unmet 1 aa 1 amd64 Depends bb\n"},
        {DEB_PACKAGES, 1, "amd64", packages, packages, DEB_NO, 0, 0, 2,
         "unmet 1 aa 1 amd64 Depends bb\nunmet 1 aa 1 amd64 Recommends ee\n"},
        {DEB_PACKAGES, 255, "amd64", "", packages, DEB_NO, 0, 0, 2,
         "unmet 1 aa 1 amd64 Depends bb\nunmet 1 aa 1 amd64 Depends cc | dd\n"
         "unmet 1 aa 1 amd64 Recommends ee\n"},
        {DEB_SOURCE, 0, "amd64", packages, source, DEB_NO, 0, 0, 1,
         "unmet 1 ss 1 source Build-Depends zz\n"},
        {DEB_SOURCES, 0, "amd64", packages, "", DEB_YES, 0, 0, 0, ""},
        {DEB_BINARY, 0, "amd64", packages, "Package: xx\nVersion: 1\nArchitecture: all\n", DEB_YES,
         0, 0, 1, ""},
        {DEB_PACKAGES, 0, "any", "x", "x", DEB_REFUSED, DEB_BAD_ENVIRONMENT, 0, 0, NULL},
        {DEB_PACKAGES, 0, "amd64", "\nx", "x", DEB_REFUSED, DEB_NO_COLON, 2, 0, NULL},
        {DEB_PACKAGES, 0, "amd64", packages, "\n\nx", DEB_SECOND_REFUSED, DEB_NO_COLON, 3, 0, NULL},
        {DEB_ANY, 0, "amd64", packages, packages, DEB_NO_KIND, 0, 0, 0, NULL},
        {DEB_STATUS, 0, "amd64", packages, packages, DEB_NO_KIND, 0, 0, 0, NULL},
        {DEB_SOURCE, 1, "amd64", packages, source, DEB_NO_KIND, 0, 0, 0, NULL},
        {DEB_SOURCES, 1, "amd64", packages, "", DEB_NO_KIND, 0, 0, 0, NULL},
        {200, 0, "amd64", packages, packages, DEB_NO_KIND, 0, 0, 0, NULL},
    };
    size_t at;
    for (at = 0; at < sizeof all / sizeof *all; at++) {
        const struct asked *q = &all[at];
        size_t whole = q->lines ? strlen(q->lines) : 0, room, length;
        for (room = whole ? whole - 1 : 0; room <= whole + 1; room++) {
            uint8_t *out = malloc(room + 1);
            struct deb_answer answer;
            memset(out, 7, room + 1);
            length = 99;
            answer = deb_unmet((uint8_t)q->kind, (uint8_t)q->recommends, bytes(q->target),
                               strlen(q->target), NULL, 0, bytes(q->index), strlen(q->index),
                               bytes(q->text), strlen(q->text), out, room, &length);
            IS(length == whole);
            if (!q->lines)
                IS(is(answer, q->status, q->code, q->line, 0) && untouched(out, room + 1));
            else if (room < whole)
                IS(is(answer, DEB_NO_ROOM, 0, 0, 0) && untouched(out, room + 1));
            else
                IS(is(answer, q->status, 0, 0, q->count) && memcmp(out, q->lines, whole) == 0 &&
                   untouched(out + whole, room + 1 - whole));
            free(out);
        }
    }
}

/* ---- sets of packages */

static const char set[] = "Package: aa\nVersion: 01\nArchitecture: amd64\nDepends: bb, cc\n"
                          "Conflicts: bb\nBreaks: dd [linux-any]\nRecommends: ee\n\n"
                          "Package: bb\nVersion: 2\nArchitecture: all\n\n"
                          "Package: dd\nVersion: 3\nArchitecture: i386\n\n"
                          "Package: aa\nVersion: 2\nArchitecture: amd64\n";
#define UNMET_IN_SET "unmet 1 aa 1 amd64 Depends cc\n"
#define UNHEALTHY                                                                                  \
    "conflict 1 aa 1 amd64 Conflicts bb by 2 bb 2 all\n"                                           \
    "unsure 1 aa 1 amd64 Breaks dd [linux-any] by 3 dd 3 i386\n"                                   \
    "duplicate 1 aa 1 amd64 with 4 2 amd64\n"

/* A status file of a removed package, of one that is half installed, and of an installed one. */
static const char status_file[] =
    "Package: aa\nStatus: deinstall ok config-files\nVersion: 1\nArchitecture: all\nDepends: zz\n\n"
    "Package: bb\nStatus: install ok half-installed\nVersion: 1\nArchitecture: all\n"
    "Conflicts: cc\n\n"
    "Package: cc\nStatus: install ok installed\nVersion: 02\nArchitecture: all\nDepends: aa, cc\n"
    "Recommends: bb\n";

/* What the next searches ask of sets: whether the essential packages are in them, and reasons of what
 * can't be installed; and the names that are left out. */
static uint8_t essential, reasons;
static const struct deb_text *without;
static size_t without_count;

/* What is asked of a set of packages, and the answer; no lines are written if these are NULL. */
struct of_set {
    int kind, recommends;
    const char *target, *index;
    int status, code;
    uint64_t line, count;
    const char *lines;
};

typedef struct deb_answer set_asker(const struct of_set *q, uint8_t *out, size_t room,
                                    size_t *length);

static struct deb_answer ask_healthy(const struct of_set *q, uint8_t *out, size_t room,
                                     size_t *length) {
    size_t target = strlen(q->target), size = strlen(q->index);
    return deb_healthy((uint8_t)q->kind, (uint8_t)q->recommends, target ? bytes(q->target) : NULL,
                       target, size ? bytes(q->index) : NULL, size, out, room, length);
}

static struct deb_answer ask_installable(const struct of_set *q, uint8_t *out, size_t room,
                                         size_t *length) {
    size_t target = strlen(q->target), size = strlen(q->index);
    return deb_installable((uint8_t)q->kind, (uint8_t)q->recommends, essential, reasons, 0,
                           target ? bytes(q->target) : NULL, target, without, without_count,
                           size ? bytes(q->index) : NULL, size, out, room, length);
}

/* Asks with a buffer that is a byte too short, one that is long enough, and a longer one. */
static void try_set(set_asker *ask, const struct of_set *q) {
    size_t whole = q->lines ? strlen(q->lines) : 0, room, length;
    for (room = whole ? whole - 1 : 0; room <= whole + 1; room++) {
        uint8_t *out = malloc(room + 1);
        struct deb_answer answer;
        memset(out, 7, room + 1);
        length = 99;
        answer = ask(q, out, room, &length);
        IS(length == whole);
        if (!q->lines)
            IS(is(answer, q->status, q->code, q->line, 0) && untouched(out, room + 1));
        else if (room < whole)
            IS(is(answer, DEB_NO_ROOM, 0, 0, 0) && untouched(out, room + 1));
        else
            IS(is(answer, q->status, 0, 0, q->count) && memcmp(out, q->lines, whole) == 0 &&
               untouched(out + whole, room + 1 - whole));
        free(out);
    }
}

static void try_healthy(void) {
    static const struct of_set all[] = {
        {1, 0, "amd64", set, DEB_NO, 0, 0, 4, UNMET_IN_SET UNHEALTHY},
        {1, 1, "amd64", set, DEB_NO, 0, 0, 4,
         UNMET_IN_SET "unmet 1 aa 1 amd64 Recommends ee\n" UNHEALTHY},
        {1, 255, "amd64", "Package: aa\nVersion: 1\nArchitecture: all\nRecommends: bb\n", DEB_NO, 0,
         0, 1, "unmet 1 aa 1 all Recommends bb\n"},
        {1, 0, "amd64", "Package: aa\nVersion: 1\nArchitecture: all\nRecommends: bb\n", DEB_YES, 0,
         0, 1, ""},
        {1, 0, "amd64", "", DEB_YES, 0, 0, 0, ""},
        {1, 0, "any", "x", DEB_REFUSED, DEB_BAD_ENVIRONMENT, 0, 0, NULL},
        {1, 0, "", set, DEB_REFUSED, DEB_BAD_ENVIRONMENT, 0, 0, NULL},
        {1, 1, "amd64", "\nx", DEB_REFUSED, DEB_NO_COLON, 2, 0, NULL},
        {1, 0, "amd64", status_file, DEB_NO, 0, 0, 3,
         "unmet 1 aa 1 all Depends zz\nconflict 2 bb 1 all Conflicts cc by 3 cc 2 all\n"},
        {5, 0, "amd64", status_file, DEB_NO, 0, 0, 1,
         "state 2 bb 1 all half-installed\nunmet 1 cc 2 all Depends aa\n"},
        {5, 1, "amd64", status_file, DEB_NO, 0, 0, 1,
         "state 2 bb 1 all half-installed\nunmet 1 cc 2 all Depends aa\n"
         "unmet 1 cc 2 all Recommends bb\n"},
        {5, 0, "amd64", "Package: aa\nStatus: purge ok not-installed\n", DEB_YES, 0, 0, 0, ""},
        {5, 1, "amd64", "Package: aa\nStatus: not-installed\n", DEB_NO, 0, 0, 0,
         "state 1 aa - - -\n"},
        {5, 1, "amd64", "", DEB_YES, 0, 0, 0, ""},
        {5, 0, "any", "x", DEB_REFUSED, DEB_BAD_ENVIRONMENT, 0, 0, NULL},
        {5, 0, "amd64", set, DEB_REFUSED, DEB_MISSING_FIELD, 1, 0, NULL},
        {5, 1, "amd64", "Package: aa\nStatus: deinstall ok config-files\nVersion: 1_\n", DEB_REFUSED,
         DEB_BAD_VERSION, 3, 0, NULL},
        {0, 0, "amd64", set, DEB_NO_KIND, 0, 0, 0, NULL},
        {2, 1, "any", "x", DEB_NO_KIND, 0, 0, 0, NULL},
        {3, 0, "amd64", "", DEB_NO_KIND, 0, 0, 0, NULL},
        {4, 255, "amd64", status_file, DEB_NO_KIND, 0, 0, 0, NULL},
        {6, 0, "", "", DEB_NO_KIND, 0, 0, 0, NULL},
        {255, 1, "amd64", set, DEB_NO_KIND, 0, 0, 0, NULL},
    };
    size_t at;
    for (at = 0; at < sizeof all / sizeof *all; at++)
        try_set(ask_healthy, &all[at]);
}

/* aa needs bb, which needs cc, which aa excludes. dd may need zz, which isn't there, and ee needs dd or
 * aa. */
static const char chain[] =
    "Package: aa\nVersion: 01\nArchitecture: all\nDepends: bb\nConflicts: cc\n\n"
    "Package: bb\nVersion: 1\nArchitecture: all\nDepends: cc\nRecommends: aa\n\n"
    "Package: cc\nVersion: 1\nArchitecture: amd64\n\n"
    "Package: dd\nVersion: 1\nArchitecture: all\nPre-Depends: zz [linux-any]\n\n"
    "Package: ee\nVersion: 1:0\nArchitecture: amd64\nDepends: aa | dd\n";

static void try_installable(void) {
    static const struct of_set all[] = {
        {1, 0, "amd64", set, DEB_NO, 0, 0, 4, "uninstallable 1 aa 1 amd64\n"},
        {1, 0, "amd64", chain, DEB_NO, 0, 0, 5,
         "uninstallable 1 aa 1 all\nunsure 4 dd 1 all\nunsure 5 ee 1:0 amd64\n"},
        {1, 1, "amd64", chain, DEB_NO, 0, 0, 5,
         "uninstallable 1 aa 1 all\nuninstallable 2 bb 1 all\nunsure 4 dd 1 all\n"
         "unsure 5 ee 1:0 amd64\n"},
        {1, 255, "amd64", "Package: aa\nVersion: 1\nArchitecture: all\nRecommends: bb\n", DEB_NO, 0,
         0, 1, "uninstallable 1 aa 1 all\n"},
        {1, 0, "amd64", "Package: aa\nVersion: 1\nArchitecture: all\nRecommends: bb\n", DEB_YES, 0,
         0, 1, ""},
        {1, 0, "amd64", "", DEB_YES, 0, 0, 0, ""},
        {1, 0, "any", "x", DEB_REFUSED, DEB_BAD_ENVIRONMENT, 0, 0, NULL},
        {1, 0, "", set, DEB_REFUSED, DEB_BAD_ENVIRONMENT, 0, 0, NULL},
        {1, 1, "amd64", "\nx", DEB_REFUSED, DEB_NO_COLON, 2, 0, NULL},
        {1, 0, "amd64", status_file, DEB_NO, 0, 0, 3,
         "uninstallable 1 aa 1 all\nuninstallable 3 cc 2 all\n"},
        {5, 0, "amd64", status_file, DEB_NO, 0, 0, 1, "uninstallable 1 cc 2 all\n"},
        {5, 0, "amd64", "Package: aa\nStatus: not-installed\n", DEB_YES, 0, 0, 0, ""},
        {5, 1, "amd64", "", DEB_YES, 0, 0, 0, ""},
        {5, 0, "any", "x", DEB_REFUSED, DEB_BAD_ENVIRONMENT, 0, 0, NULL},
        {5, 0, "amd64", set, DEB_REFUSED, DEB_MISSING_FIELD, 1, 0, NULL},
        {5, 1, "amd64", "Package: aa\nStatus: deinstall ok config-files\nVersion: 1_\n", DEB_REFUSED,
         DEB_BAD_VERSION, 3, 0, NULL},
        {0, 0, "amd64", set, DEB_NO_KIND, 0, 0, 0, NULL},
        {2, 1, "any", "x", DEB_NO_KIND, 0, 0, 0, NULL},
        {3, 0, "amd64", "", DEB_NO_KIND, 0, 0, 0, NULL},
        {4, 255, "amd64", status_file, DEB_NO_KIND, 0, 0, 0, NULL},
        {6, 0, "", "", DEB_NO_KIND, 0, 0, 0, NULL},
        {255, 1, "amd64", set, DEB_NO_KIND, 0, 0, 0, NULL},
    };
    size_t at;
    for (at = 0; at < sizeof all / sizeof *all; at++)
        try_set(ask_installable, &all[at]);
}

/* ---- healthy sets with a package */

static const char *wanted; /* the name */

static struct deb_answer ask_witness(const struct of_set *q, uint8_t *out, size_t room,
                                     size_t *length) {
    size_t target = strlen(q->target), name = strlen(wanted), size = strlen(q->index);
    return deb_witness((uint8_t)q->kind, (uint8_t)q->recommends, essential, reasons, 0,
                       target ? bytes(q->target) : NULL, target, name ? bytes(wanted) : NULL, name,
                       without, without_count, size ? bytes(q->index) : NULL, size, out, room,
                       length);
}

/* Three versions of one package; the first needs zz, and the last two aren't in one set. */
static const char of_one_name[] =
    "Package: aa\nVersion: 1\nArchitecture: all\nDepends: zz\n\n"
    "Package: aa\nVersion: 02\nArchitecture: all\nConflicts: bb\n\n"
    "Package: aa\nVersion: 3\nArchitecture: all\n\n"
    "Package: bb\nVersion: 1\nArchitecture: all\nDepends: zz | aa\n";

static void try_witness(void) {
    static const struct {
        const char *name;
        struct of_set of;
    } all[] = {
        {"bb", {1, 0, "amd64", chain, DEB_YES, 0, 0, 5, " 2 bb 1 all\n 3 cc 1 amd64\n"}},
        {"cc", {1, 1, "amd64", chain, DEB_YES, 0, 0, 5, " 3 cc 1 amd64\n"}},
        {"aa", {1, 0, "amd64", chain, DEB_NO, 0, 0, 5, "uninstallable 1 aa 1 all\n"}},
        {"bb", {1, 255, "amd64", chain, DEB_NO, 0, 0, 5, "uninstallable 2 bb 1 all\n"}},
        {"ee", {1, 0, "amd64", chain, DEB_NO, 0, 0, 5, "unsure 5 ee 1:0 amd64\n"}},
        {"b", {1, 0, "amd64", chain, DEB_NO, 0, 0, 5, ""}},
        {"bbb", {1, 0, "amd64", chain, DEB_NO, 0, 0, 5, ""}},
        {"bb,cc", {1, 0, "amd64", chain, DEB_NO, 0, 0, 5, ""}},
        {"", {1, 0, "amd64", chain, DEB_NO, 0, 0, 5, ""}},
        {"aa", {1, 0, "amd64", "", DEB_NO, 0, 0, 0, ""}},
        {"aa", {1, 0, "amd64", of_one_name, DEB_YES, 0, 0, 4, " 2 aa 2 all\n"}},
        {"bb", {1, 0, "amd64", of_one_name, DEB_YES, 0, 0, 4, " 3 aa 3 all\n 4 bb 1 all\n"}},
        {"zz", {1, 0, "amd64", of_one_name, DEB_NO, 0, 0, 4, ""}},
        {"bb", {1, 0, "amd64", status_file, DEB_YES, 0, 0, 3, " 2 bb 1 all\n"}},
        {"cc", {1, 0, "amd64", status_file, DEB_NO, 0, 0, 3, "uninstallable 3 cc 2 all\n"}},
        {"cc", {5, 0, "amd64", status_file, DEB_NO, 0, 0, 1, "uninstallable 1 cc 2 all\n"}},
        {"bb", {5, 0, "amd64", status_file, DEB_NO, 0, 0, 1, ""}},
        {"aa", {5, 1, "amd64", "", DEB_NO, 0, 0, 0, ""}},
        {"aa", {1, 0, "any", "x", DEB_REFUSED, DEB_BAD_ENVIRONMENT, 0, 0, NULL}},
        {"", {1, 0, "", set, DEB_REFUSED, DEB_BAD_ENVIRONMENT, 0, 0, NULL}},
        {"aa", {1, 1, "amd64", "\nx", DEB_REFUSED, DEB_NO_COLON, 2, 0, NULL}},
        {"aa", {5, 0, "any", "x", DEB_REFUSED, DEB_BAD_ENVIRONMENT, 0, 0, NULL}},
        {"aa", {5, 0, "amd64", set, DEB_REFUSED, DEB_MISSING_FIELD, 1, 0, NULL}},
        {"aa", {0, 0, "amd64", set, DEB_NO_KIND, 0, 0, 0, NULL}},
        {"aa", {2, 1, "any", "x", DEB_NO_KIND, 0, 0, 0, NULL}},
        {"", {3, 0, "amd64", "", DEB_NO_KIND, 0, 0, 0, NULL}},
        {"aa", {4, 255, "amd64", status_file, DEB_NO_KIND, 0, 0, 0, NULL}},
        {"aa", {6, 0, "", "", DEB_NO_KIND, 0, 0, 0, NULL}},
        {"aa", {255, 1, "amd64", set, DEB_NO_KIND, 0, 0, 0, NULL}},
    };
    size_t at;
    for (at = 0; at < sizeof all / sizeof *all; at++) {
        wanted = all[at].name;
        try_set(ask_witness, &all[at].of);
    }
}

/* A name may have any bytes and any length, but only the whole name is that of a package. */
static void try_names(void) {
    enum { LONG = 1 << 20 };
    static const char *others[] = {"aa\n", "a\xff", "\xc3\xa9", " aa", "a\0", "aa,", "AA", "\0\0"};
    static const size_t lengths[] = {3, 2, 2, 3, 2, 3, 2, 2};
    const char *index = "Package: aa\nVersion: 1\nArchitecture: all\n";
    uint8_t *name = malloc(LONG), out[16];
    size_t at, length;
    memset(name, 'a', LONG);
    for (at = 0; at <= LONG; at += at < 4 ? 1 : at == 4 ? LONG - 4 : LONG) {
        length = 99;
        IS(is(deb_witness(DEB_PACKAGES, 0, 0, 0, 0, bytes("amd64"), 5, name, at, NULL, 0,
                          bytes(index), strlen(index), out, sizeof out, &length),
              at == 2 ? DEB_YES : DEB_NO, 0, 0, 1) &&
           length == (at == 2 ? 12 : 0));
    }
    for (at = 0; at < sizeof others / sizeof *others; at++)
        IS(is(deb_witness(DEB_PACKAGES, 0, 0, 0, 0, bytes("amd64"), 5, bytes(others[at]),
                          lengths[at], NULL, 0, bytes(index), strlen(index), out, sizeof out,
                          &length),
              DEB_NO, 0, 0, 1) &&
           length == 0);
    free(name);
}

/* ---- source packages */

static const char toolchain[] =
    "Package: build-essential\nVersion: 1\nArchitecture: amd64\n\n"
    "Package: aa\nVersion: 2\nArchitecture: all\nConflicts: bb\n\n"
    "Package: bb\nVersion: 1\nArchitecture: amd64\nProvides: mm\n";
static const char built[] =
    "Package: ss\nVersion: 01\nBuild-Depends: aa\nBuild-Depends-Indep: mm <!nodoc>\n\n"
    "Package: tt\nVersion: 1:0-0\nBuild-Depends-Arch: aa | bb\n\n"
    "Package: uu\nVersion: 3\nBuild-Depends: zz [linux-any]\n\n"
    "Package: vv\nVersion: 4\nBuild-Conflicts: build-essential <nodoc>\n";
static const char described[] =
    "Format: 1.0\nSource: ss\nVersion: 1.0-0\nBuild-Depends: zz\n";

/* What is asked of source packages, and the answer; no lines are written if these are NULL. */
struct of_sources {
    int kind;
    const char *target, *profile, *index, *text;
    int status, code;
    uint64_t line, count;
    const char *lines;
};

static struct deb_answer ask_buildable(const struct of_sources *q, uint8_t *out, size_t room,
                                       size_t *length) {
    struct deb_text profile = {NULL, 0};
    size_t index = strlen(q->index), text = strlen(q->text);
    if (q->profile) {
        profile.bytes = bytes(q->profile);
        profile.length = strlen(q->profile);
    }
    return deb_buildable((uint8_t)q->kind, essential, reasons, 0, bytes(q->target),
                         strlen(q->target), q->profile ? &profile : NULL, q->profile != NULL,
                         without, without_count, index ? bytes(q->index) : NULL, index,
                         text ? bytes(q->text) : NULL, text, out, room, length);
}

static void try_sources(const struct of_sources *q) {
    size_t whole = q->lines ? strlen(q->lines) : 0, room, length;
    for (room = whole ? whole - 1 : 0; room <= whole + 1; room++) {
        uint8_t *out = malloc(room + 1);
        struct deb_answer answer;
        memset(out, 7, room + 1);
        length = 99;
        answer = ask_buildable(q, out, room, &length);
        IS(length == whole);
        if (!q->lines)
            IS(is(answer, q->status, q->code, q->line, 0) && untouched(out, room + 1));
        else if (room < whole)
            IS(is(answer, DEB_NO_ROOM, 0, 0, 0) && untouched(out, room + 1));
        else
            IS(is(answer, q->status, 0, 0, q->count) && memcmp(out, q->lines, whole) == 0 &&
               untouched(out + whole, room + 1 - whole));
        free(out);
    }
}

static void try_buildable(void) {
    static const struct of_sources all[] = {
        {3, "amd64", NULL, toolchain, built, DEB_NO, 0, 0, 4,
         "uninstallable 1 ss 1 source\nunsure 3 uu 3 source\n"},
        {3, "amd64", "nodoc", toolchain, built, DEB_NO, 0, 0, 4,
         "unsure 3 uu 3 source\nuninstallable 4 vv 4 source\n"},
        {3, "amd64", NULL, "", "Package: ss\nVersion: 1\n", DEB_NO, 0, 0, 1,
         "uninstallable 1 ss 1 source\n"},
        {3, "i386", NULL, toolchain, "Package: ss\nVersion: 1\n", DEB_NO, 0, 0, 1,
         "uninstallable 1 ss 1 source\n"},
        {3, "amd64", NULL, toolchain, "Package: ss\nVersion: 1\n", DEB_YES, 0, 0, 1, ""},
        {3, "amd64", NULL, "", "", DEB_YES, 0, 0, 0, ""},
        {2, "amd64", NULL, toolchain, described, DEB_NO, 0, 0, 1,
         "uninstallable 1 ss 1.0 source\n"},
        {2, "amd64", NULL, toolchain, "Format: 1.0\nSource: ss\nVersion: 1\n", DEB_YES, 0, 0, 1, ""},
        {3, "any", NULL, "x", "x", DEB_REFUSED, DEB_BAD_ENVIRONMENT, 0, 0, NULL},
        {3, "amd64", "", "x", "x", DEB_REFUSED, DEB_BAD_ENVIRONMENT, 0, 0, NULL},
        {3, "amd64", NULL, "\nx", "x", DEB_REFUSED, DEB_NO_COLON, 2, 0, NULL},
        {3, "amd64", NULL, toolchain, "\n\nx", DEB_SECOND_REFUSED, DEB_NO_COLON, 3, 0, NULL},
        {2, "amd64", NULL, toolchain, "", DEB_SECOND_REFUSED, DEB_NO_PARAGRAPH, 1, 0, NULL},
        {2, "amd64", NULL, toolchain, built, DEB_SECOND_REFUSED, DEB_MISSING_FIELD, 1, 0, NULL},
        {0, "amd64", NULL, toolchain, built, DEB_NO_KIND, 0, 0, 0, NULL},
        {1, "any", NULL, "x", "x", DEB_NO_KIND, 0, 0, 0, NULL},
        {4, "amd64", "", "", "", DEB_NO_KIND, 0, 0, 0, NULL},
        {5, "amd64", NULL, status_file, built, DEB_NO_KIND, 0, 0, 0, NULL},
        {255, "amd64", NULL, toolchain, built, DEB_NO_KIND, 0, 0, 0, NULL},
    };
    size_t at;
    for (at = 0; at < sizeof all / sizeof *all; at++)
        try_sources(&all[at]);
}

/* Reasons follow the line of a source package that can't be built, and no other. */
static void try_unbuilt(void) {
    static const struct of_sources all[] = {
        {3, "amd64", NULL, toolchain, built, DEB_NO, 0, 0, 4,
         "uninstallable 1 ss 1 source\n 1 ss 1 source needs aa: 2\n"
         " 1 ss 1 source needs mm <!nodoc>: 3\n 2 aa 2 all excludes 3 bb 1 amd64\n"
         "unsure 3 uu 3 source\n"},
        {3, "amd64", "nodoc", toolchain, built, DEB_NO, 0, 0, 4,
         "unsure 3 uu 3 source\nuninstallable 4 vv 4 source\n"
         " 4 vv 4 source needs build-essential:native: 1\n"
         " 4 vv 4 source excludes 1 build-essential 1 amd64\n"},
        {2, "amd64", NULL, toolchain, described, DEB_NO, 0, 0, 1,
         "uninstallable 1 ss 1.0 source\n 1 ss 1.0 source needs zz: none\n"},
        {3, "amd64", NULL, toolchain, "Package: ss\nVersion: 1\n", DEB_YES, 0, 0, 1, ""},
    };
    size_t at;
    reasons = 1;
    for (at = 0; at < sizeof all / sizeof *all; at++)
        try_sources(&all[at]);
    reasons = 0;
}

/* aa needs one of bb and cc, and one of dd and ee; neither of the first goes with one of the others. So
 * no choice is the right one. */
static const char choices[] =
    "Package: aa\nVersion: 1\nArchitecture: all\nDepends: bb | cc, dd | ee\n\n"
    "Package: bb\nVersion: 1\nArchitecture: all\nConflicts: dd, ee\n\n"
    "Package: cc\nVersion: 1\nArchitecture: all\nConflicts: dd, ee\n\n"
    "Package: dd\nVersion: 1\nArchitecture: all\n\n"
    "Package: ee\nVersion: 1\nArchitecture: all\n";

static int has_lines_within(uint32_t budget, const char *index, const char *lines) {
    uint8_t out[256];
    size_t length = 0;
    struct deb_answer answer = deb_installable(DEB_PACKAGES, 0, 0, reasons, budget,
                                               bytes("amd64"), 5, NULL, 0, bytes(index),
                                               strlen(index), out, sizeof out, &length);
    return answer.status == (*lines ? DEB_NO : DEB_YES) && length == strlen(lines) &&
           memcmp(out, lines, length) == 0;
}

static int seeks_within(uint32_t budget, const char *index, int status, const char *lines) {
    uint8_t out[256];
    size_t length = 0;
    struct deb_answer answer =
        deb_witness(DEB_PACKAGES, 0, 0, reasons, budget, bytes("amd64"), 5, bytes("aa"), 2, NULL, 0,
                    bytes(index), strlen(index), out, sizeof out, &length);
    return answer.status == status && length == strlen(lines) && memcmp(out, lines, length) == 0;
}

/* One step doesn't find out that no choice is right. Of versions of one package, which exclude each
 * other, each takes a step, and all together may take a hundred for each. */
static void try_budgets(void) {
    enum { VERSIONS = 102 };
    char versions[VERSIONS * 48], *to = versions;
    unsigned at;
    for (at = 1; at <= VERSIONS; at++)
        to += sprintf(to, "Package: aa\nVersion: %u\nArchitecture: all\n\n", at);
    IS(has_lines_within(0, choices, "uninstallable 1 aa 1 all\n"));
    IS(has_lines_within(1, choices, "undecided 1 aa 1 all\n"));
    IS(has_lines_within(4294967295, choices, "uninstallable 1 aa 1 all\n"));
    IS(has_lines_within(0, versions, ""));
    IS(has_lines_within(1, versions, ""));
    IS(has_lines_within(4294967295, versions, ""));
    IS(seeks_within(0, choices, DEB_NO, "uninstallable 1 aa 1 all\n"));
    IS(seeks_within(1, choices, DEB_NO, "undecided 1 aa 1 all\n"));
    IS(seeks_within(4294967295, choices, DEB_NO, "uninstallable 1 aa 1 all\n"));
    IS(seeks_within(1, versions, DEB_YES, " 1 aa 1 all\n"));
    reasons = 1;
    IS(has_lines_within(1, choices, "undecided 1 aa 1 all\n"));
    IS(seeks_within(1, choices, DEB_NO, "undecided 1 aa 1 all\n"));
    IS(seeks_within(1, versions, DEB_YES, " 1 aa 1 all\n"));
    reasons = 0;
}

/* ---- essential packages, packages that are left out, and reasons */

/* bb and dd are essential on amd64, and the first bb excludes dd; ee is marked too, but of another
 * architecture. cc needs what isn't there, and the second bb excludes aa. */
static const char marked[] =
    "Package: aa\nVersion: 01\nArchitecture: all\nDepends: bb (<< 3) | ff\n\n"
    "Package: bb\nVersion: 2\nArchitecture: amd64\nEssential: yes\nConflicts: dd\n\n"
    "Package: cc\nVersion: 1\nArchitecture: all\nDepends: zz (>= 01)\nEssential: no\n\n"
    "Package: dd\nVersion: 1-0\nArchitecture: all\nEssential: yes\n\n"
    "Package: ee\nVersion: 1\nArchitecture: i386\nEssential: yes\n\n"
    "Package: bb\nVersion: 3\nArchitecture: all\nConflicts: aa\n";

#define CC "uninstallable 3 cc 1 all\n"
#define CC_NEEDS " 3 cc 1 all needs zz (>= 1): none\n"
#define WITHOUT_BB                                                                                 \
    "uninstallable 1 aa 1 all\n 1 aa 1 all needs bb (<< 3) | ff: 2\n 2 bb 2 amd64 is left out\n"

static void try_terms(void) {
    const struct deb_text names[] = {
        {bytes("dd"), 2}, {bytes("cc"), 2}, {bytes("bb"), 2}, {bytes("bb\0"), 3},
        {bytes("\xff"), 1}, {NULL, 0}, {bytes("cc,dd"), 5}, {bytes(" cc"), 3},
    };
    static const struct {
        uint8_t essential, reasons;
        size_t first, count;
        const char *lines, *wanted, *set;
    } all[] = {
        {0, 0, 0, 0, CC, "bb", " 2 bb 2 amd64\n"},
        {0, 0, 3, 5, CC, "aa", " 1 aa 1 all\n 2 bb 2 amd64\n"},
        {0, 0, 1, 1, "", "cc", ""},
        {0, 0, 0, 3, "uninstallable 1 aa 1 all\n", "dd", ""},
        {0, 0, 0, 8, "uninstallable 1 aa 1 all\n", "aa", "uninstallable 1 aa 1 all\n"},
        {255, 0, 1, 1, "uninstallable 1 aa 1 all\nuninstallable 2 bb 2 amd64\n", "ee",
         " 4 dd 1 all\n 5 ee 1 i386\n 6 bb 3 all\n"},
        {1, 0, 0, 1, CC, "aa", " 1 aa 1 all\n 2 bb 2 amd64\n"},
        {0, 1, 0, 0, CC CC_NEEDS, "cc", CC CC_NEEDS},
        {0, 255, 1, 2, WITHOUT_BB, "aa", WITHOUT_BB},
        {1, 1, 0, 1, CC CC_NEEDS, "dd", ""},
    };
    size_t at;
    for (at = 0; at < sizeof all / sizeof *all; at++) {
        struct of_set q = {1, 0, "amd64", marked, DEB_NO, 0, 0, 6, NULL};
        essential = all[at].essential;
        reasons = all[at].reasons;
        without = all[at].count ? &names[all[at].first] : NULL;
        without_count = all[at].count;
        q.lines = all[at].lines;
        q.status = *q.lines ? DEB_NO : DEB_YES;
        try_set(ask_installable, &q);
        wanted = all[at].wanted;
        q.lines = all[at].set;
        q.status = *q.lines == ' ' ? DEB_YES : DEB_NO;
        try_set(ask_witness, &q);
    }
    essential = reasons = 0;
    without_count = 0;
}

/* No set has two essential packages of which one excludes the other, or one that can't be installed.
 * That of a source package has the essential ones too. */
static void try_marked_toolchain(void) {
    const struct deb_text names[] = {{bytes("aa"), 2}, {bytes("build-essential"), 15}};
    static const struct of_set none = {
        1, 0, "amd64", "Package: aa\nVersion: 1\nArchitecture: all\nEssential: yes\nConflicts: bb\n\n"
        "Package: bb\nVersion: 1\nArchitecture: all\nEssential: yes\n", DEB_NO, 0, 0, 2,
        "uninstallable 1 aa 1 all\nuninstallable 2 bb 1 all\n"};
    static const struct of_set needed = {
        1, 0, "amd64", "Package: aa\nVersion: 1\nArchitecture: all\nEssential: yes\nDepends: zz\n\n"
        "Package: bb\nVersion: 1\nArchitecture: all\n", DEB_NO, 0, 0, 2,
        "uninstallable 1 aa 1 all\n 1 aa 1 all needs zz: none\n"
        "uninstallable 2 bb 1 all\n 2 bb 1 all needs aa (Essential): 1\n"
        " 1 aa 1 all needs zz: none\n"};
    static const struct of_sources unbuilt = {
        3, "amd64", NULL,
        "Package: build-essential\nVersion: 1\nArchitecture: amd64\nConflicts: aa\n\n"
        "Package: aa\nVersion: 1\nArchitecture: all\nEssential: yes\n",
        "Package: ss\nVersion: 01\n", DEB_NO, 0, 0, 1, "uninstallable 1 ss 1 source\n"};
    struct of_sources built_of = unbuilt;
    built_of.status = DEB_YES;
    built_of.lines = "";
    try_sources(&built_of);
    essential = 1;
    try_set(ask_installable, &none);
    reasons = 1;
    try_set(ask_installable, &needed);
    reasons = 0;
    try_sources(&unbuilt);
    without = names;
    without_count = 1;
    try_sources(&built_of);
    without_count = 2;
    try_sources(&unbuilt);
    essential = 0;
    without_count = 0;
}

/* ---- fields */

/* A paragraph whose second value has two lines, one with an empty value, and a refused one. */
static const char *file = "\nPackage: hello \nDepends:\taa,\n bb\n\nx:\n \t\nbad\n";

static void try_fields(void) {
    static const struct deb_field wanted[] = {
        {1, 2, 0, 7, 0, 5}, {1, 3, 8, 7, 6, 7}, {2, 6, 16, 1, 14, 0},
    };
    static const char names[] = "Package\0Depends\0x", values[] = "hello\0aa,\n bb\0";
    size_t short_of, count, names_length, values_length, size = strlen(file);
    for (short_of = 0; short_of < 4; short_of++) {
        size_t rooms[] = {3, sizeof names, sizeof values};
        struct deb_field *fields;
        uint8_t *names_out, *values_out;
        struct deb_answer answer;
        if (short_of < 3)
            rooms[short_of]--;
        fields = malloc((rooms[0] + 1) * sizeof *fields);
        names_out = malloc(rooms[1] + 1);
        values_out = malloc(rooms[2] + 1);
        memset(fields, 7, (rooms[0] + 1) * sizeof *fields);
        memset(names_out, 7, rooms[1] + 1);
        memset(values_out, 7, rooms[2] + 1);
        answer = deb_fields(DEB_ANY, bytes(file), size - 4, fields, rooms[0], &count, names_out,
                            rooms[1], &names_length, values_out, rooms[2], &values_length);
        IS(count == 3 && names_length == sizeof names && values_length == sizeof values);
        if (short_of < 3) {
            IS(is(answer, DEB_NO_ROOM, 0, 0, 0));
            IS(untouched(fields, (rooms[0] + 1) * sizeof *fields));
            IS(untouched(names_out, rooms[1] + 1) && untouched(values_out, rooms[2] + 1));
        } else {
            IS(is(answer, DEB_YES, 0, 0, 2));
            IS(memcmp(fields, wanted, sizeof wanted) == 0);
            IS(memcmp(names_out, names, sizeof names) == 0);
            IS(memcmp(values_out, values, sizeof values) == 0);
            IS(untouched(fields + 3, sizeof *fields));
            IS(names_out[rooms[1]] == 7 && values_out[rooms[2]] == 7);
            IS(strcmp((const char *)values_out + fields[1].value, "aa,\n bb") == 0);
        }
        /* the whole file is refused in its third paragraph, after the fields of two */
        answer = deb_fields(DEB_ANY, bytes(file), size, fields, rooms[0], &count, names_out,
                            rooms[1], &names_length, values_out, rooms[2], &values_length);
        IS(count == 3 && names_length == sizeof names && values_length == sizeof values);
        IS(short_of < 3 ? is(answer, DEB_NO_ROOM, 0, 0, 0)
                        : is(answer, DEB_REFUSED, DEB_NO_COLON, 8, 0));
        IS(short_of < 3 || memcmp(fields, wanted, sizeof wanted) == 0);
        free(fields);
        free(names_out);
        free(values_out);
    }
    IS(is(deb_fields(DEB_ANY, NULL, 0, NULL, 0, &count, NULL, 0, &names_length, NULL, 0,
                     &values_length),
          DEB_YES, 0, 0, 0));
    IS(count == 0 && names_length == 0 && values_length == 0);
    IS(is(deb_fields(DEB_BINARY, NULL, 0, NULL, 0, &count, NULL, 0, &names_length, NULL, 0,
                     &values_length),
          DEB_REFUSED, DEB_NO_PARAGRAPH, 1, 0));
    IS(is(deb_fields(6, bytes(file), size, NULL, 0, &count, NULL, 0, &names_length, NULL, 0,
                     &values_length),
          DEB_NO_KIND, 0, 0, 0));
    IS(count == 0 && names_length == 0 && values_length == 0);
}

/* ---- refusals */

/* Two paragraphs that pass, and between them one with a bad version and one without a colon. */
static const char two_refused[] = "Package: aa\nVersion: 1\nArchitecture: all\n\n"
                                  "Version: 1-\nPackage: bb\n\nbad\n\n"
                                  "Package: cc\nVersion: 2\nArchitecture: all\n";

struct checked {
    uint8_t kind;
    const char *text;
    uint64_t passed;
    size_t count;
    struct deb_refusal refusals[3];
};

/* All refusals of a file, in a table of so much room: whether the answer is right, and nothing else
 * was written. */
static void try_table(const struct checked *it, size_t room) {
    struct deb_refusal *table = malloc((room + 1) * sizeof *table);
    size_t count = 99, at;
    struct deb_answer answer, first = deb_check(it->kind, bytes(it->text), strlen(it->text));
    memset(table, 7, (room + 1) * sizeof *table);
    answer = deb_check_all(it->kind, bytes(it->text), strlen(it->text), table, room, &count);
    IS(count == it->count);
    IS(first.status == (count ? DEB_REFUSED : DEB_YES));
    if (room < it->count) {
        IS(is(answer, DEB_NO_ROOM, 0, 0, 0) && untouched(table, (room + 1) * sizeof *table));
    } else {
        IS(is(answer, first.status, first.code, first.line, it->passed));
        for (at = 0; at < it->count; at++)
            IS(table[at].line == it->refusals[at].line && table[at].code == it->refusals[at].code);
        IS(untouched(table + it->count, (room + 1 - it->count) * sizeof *table));
    }
    free(table);
}

static void try_refusals(void) {
    static const struct checked all[] = {
        {DEB_PACKAGES, "", 0, 0, {{0, 0}}},
        {DEB_PACKAGES, "Package: aa\nVersion: 1\nArchitecture: all\n", 1, 0, {{0, 0}}},
        {DEB_PACKAGES, two_refused, 2, 2, {{5, DEB_BAD_VERSION}, {8, DEB_NO_COLON}}},
        {DEB_ANY, two_refused, 3, 1, {{8, DEB_NO_COLON}}},
        {DEB_BINARY, two_refused, 1, 1, {{5, DEB_TOO_MANY_PARAGRAPHS}}},
        {DEB_SOURCE, two_refused, 0, 1, {{1, DEB_MISSING_FIELD}}},
        {DEB_BINARY, "", 0, 1, {{1, DEB_NO_PARAGRAPH}}},
        {DEB_ANY, "bad\n\nbad\nbad\n\n\nbad", 0, 3,
         {{1, DEB_NO_COLON}, {3, DEB_NO_COLON}, {7, DEB_NO_COLON}}},
        {DEB_ANY, "a: 1\nA: 2\n\nb: 1\n c\n\n x\n", 1, 2,
         {{2, DEB_DUPLICATE_FIELD}, {7, DEB_STRAY_CONTINUATION}}},
        {DEB_ANY, "# x\na: 1\n\nb: 2\n", 1, 1, {{1, DEB_COMMENT}}},
    };
    size_t at, room, count;
    for (at = 0; at < sizeof all / sizeof *all; at++)
        for (room = 0; room <= all[at].count + 1; room++)
            try_table(&all[at], room);
    IS(is(deb_check_all(DEB_PACKAGES, NULL, 0, NULL, 0, &count), DEB_YES, 0, 0, 0) && count == 0);
    IS(is(deb_check_all(DEB_SOURCE, NULL, 0, NULL, 0, &count), DEB_NO_ROOM, 0, 0, 0) && count == 1);
    for (at = 6; at <= 255; at += 249)
        IS(is(deb_check_all((uint8_t)at, bytes(two_refused), strlen(two_refused), NULL, 0, &count),
              DEB_NO_KIND, 0, 0, 0) &&
           count == 0);
}

/* A file of so many refused lines, each after a blank line. */
static void try_many_refusals(void) {
    enum { LINES = 100000 };
    char *text = malloc(3 * LINES);
    struct deb_refusal *table = malloc((LINES + 1) * sizeof *table);
    size_t count, at, wrong = 0;
    for (at = 0; at < LINES; at++)
        memcpy(text + 3 * at, "x\n\n", 3);
    memset(table, 7, (LINES + 1) * sizeof *table);
    IS(is(deb_check_all(DEB_PACKAGES, bytes(text), 3 * LINES, table, LINES - 1, &count), DEB_NO_ROOM,
          0, 0, 0));
    IS(count == LINES && untouched(table, (LINES + 1) * sizeof *table));
    IS(is(deb_check_all(DEB_PACKAGES, bytes(text), 3 * LINES, table, LINES, &count), DEB_REFUSED,
          DEB_NO_COLON, 1, 0));
    for (at = 0; at < LINES; at++)
        wrong += table[at].line != 2 * at + 1 || table[at].code != DEB_NO_COLON;
    IS(count == LINES && wrong == 0 && untouched(table + LINES, sizeof *table));
    free(text);
    free(table);
}

/* Nothing is checked after a paragraph whose lines are too long. */
static void try_last_refusal(void) {
    enum { LONG = 17000000 };
    char *text = malloc(LONG + 16), *at = text;
    struct deb_refusal table[3];
    uint8_t out[2048];
    size_t count, length;
    at += sprintf(at, "x\n\na: ");
    memset(at, 'b', LONG);
    at += LONG;
    at += sprintf(at, "\n\nx\n");
    IS(is(deb_check_all(DEB_ANY, bytes(text), (size_t)(at - text), table, 3, &count), DEB_REFUSED,
          DEB_NO_COLON, 1, 0));
    IS(count == 2 && table[0].line == 1 && table[0].code == DEB_NO_COLON && table[1].line == 3 &&
       table[1].code == DEB_PARAGRAPH_TOO_LONG);
    IS(is(deb_explain_all(DEB_ANY, bytes(text), (size_t)(at - text), out, sizeof out, &length),
          DEB_REFUSED, DEB_NO_COLON, 1, 0));
    IS(length > 17 && memcmp(out + length - 17, "\nok 0, 2 refused\n", 17) == 0);
    free(text);
}

int main(void) {
    try_order_of_keys();
    try_keys();
    try_relation("bb|aa , aa(>>01)[ amd64 ]<!nocheck>", "aa (>> 1) [amd64] <!nocheck>, bb | aa");
    try_relation("aa:any (= 1:1.0-1) <aa bb> <!cc>", "aa:any (= 1:1.0-1) <!cc> <aa bb>");
    try_relation("", "");
    try_relation("aa (", NULL);
    try_unmet();
    try_healthy();
    try_installable();
    try_witness();
    try_names();
    try_buildable();
    try_unbuilt();
    try_terms();
    try_marked_toolchain();
    try_budgets();
    try_fields();
    try_refusals();
    try_many_refusals();
    try_last_refusal();
    printf("tables: %d passed, %d failed\n", passed, failed);
    return failed != 0;
}
