/* An index that is read once and asked often: each status, each buffer, and four threads at once, so
 * often as the first argument says, or 2000 times. */
#include "tried.h"

#include <pthread.h>

static const char *text_of_three =
    "Package: hello\nVersion: 1.0-0\nArchitecture: amd64\n\n"
    "Package: mailer\nVersion: 2\nArchitecture: all\nProvides: mta (= 2), other\n\n"
    "Package: hello\nVersion: 0:2.10\nArchitecture: i386\nProvides: mta\n";

static const char *bad = "Package: hello\nVersion: 1.1\nArchitecture: amd64\nSize: 1k\n";

/* An index in as much memory as it needs, so that a byte too many is one for the sanitiser. */
static struct deb_index *loaded(const char *text, size_t length, struct deb_answer *answer) {
    struct deb_index *index = malloc(deb_index_size());
    deb_index_read(index, bytes(text), length, answer);
    return index;
}

static void release(struct deb_index *index) {
    deb_index_free(index);
    free(index);
}

static struct deb_answer query(const struct deb_index *index, const char *relation, uint8_t *out,
                               size_t room, size_t *length) {
    return deb_index_query(index, bytes("amd64"), 5, NULL, 0, bytes(relation), strlen(relation),
                           out, room, length);
}

static struct deb_answer unmet(const struct deb_index *index, const char *file, uint8_t *out,
                               size_t room, size_t *length) {
    return deb_index_unmet(index, DEB_PACKAGES, 0, bytes("amd64"), 5, NULL, 0, bytes(file),
                           strlen(file), out, room, length);
}

static void try_queries(const struct deb_index *index) {
    static const char *relations[] = {"hello", "hello (>= 2)", "mta | aa, xx", "aa [linux-any]",
                                      "aa (", "other", ""};
    struct deb_text profile = {bytes("nocheck"), 7};
    uint8_t out[512], other[512];
    size_t at, length, size = strlen(text_of_three), other_length;
    for (at = 0; at < sizeof relations / sizeof *relations; at++) {
        const uint8_t *relation = bytes(relations[at]);
        struct deb_answer answer, direct;
        memset(out, 7, sizeof out);
        memset(other, 7, sizeof other);
        answer = query(index, relations[at], out, sizeof out, &length);
        direct = deb_query(bytes("amd64"), 5, NULL, 0, relation, strlen(relations[at]),
                           bytes(text_of_three), size, other, sizeof other, &other_length);
        IS(is(answer, direct.status, direct.code, direct.line, direct.count));
        IS(length == other_length && memcmp(out, other, sizeof out) == 0);
    }
    IS(is(query(index, "hello", NULL, 0, &length), DEB_NO_ROOM, 0, 0, 0) && length == 29);
    IS(is(deb_index_query(index, bytes("any"), 3, NULL, 0, bytes("aa"), 2, out, 9, &length),
          DEB_REFUSED, DEB_BAD_ENVIRONMENT, 0, 0) && length == 0);
    IS(is(deb_index_query(index, bytes("amd64"), 5, &profile, 1, bytes("hello <!nocheck>"), 16, out,
                          sizeof out, &length), DEB_YES, 0, 0, 0));
    IS(length == 25 && memcmp(out, "ignored hello <!nocheck>\n", length) == 0);
    IS(is(deb_index_query(index, bytes("amd64"), 5, NULL, 0, NULL, 0, NULL, 0, &length), DEB_YES, 0,
          0, 0) && length == 0);
}

static const char *files[] = {
    "", "x",
    "Package: aa\nVersion: 1\nArchitecture: all\nDepends: zz, mta\n"
    "Recommends: yy <!nocheck>, hello (>> 3)\n",
    "Format: 1.0\nSource: ss\nVersion: 1\nBuild-Depends: zz, hello\n",
};

/* The answers of deb_unmet, and the room that one of them needs. */
static void try_unmet(const struct deb_index *index) {
    static const char *targets[] = {"amd64", "any"};
    struct deb_text profile = {bytes("nocheck"), 7};
    size_t size = strlen(text_of_three), at, active, target, length, other_length;
    int kind, recommends, seen[8] = {0};
    for (at = 0; at < 4 * 2 * 2 * 7 * 2; at++) {
        uint8_t out[256], other[256];
        const char *file = files[at % 4];
        struct deb_answer answer, direct;
        active = at / 4 % 2;
        target = at / 8 % 2;
        kind = (int)(at / 16 % 7);
        recommends = (int)(at / 112 % 2);
        memset(out, 7, sizeof out);
        memset(other, 7, sizeof other);
        answer = deb_index_unmet(index, (uint8_t)kind, (uint8_t)recommends, bytes(targets[target]),
                                 strlen(targets[target]), &profile, active, bytes(file),
                                 strlen(file), out, sizeof out, &length);
        direct = deb_unmet((uint8_t)kind, (uint8_t)recommends, bytes(targets[target]),
                           strlen(targets[target]), &profile, active, bytes(text_of_three), size,
                           bytes(file), strlen(file), other, sizeof other, &other_length);
        IS(is(answer, direct.status, direct.code, direct.line, direct.count));
        IS(length == other_length && memcmp(out, other, sizeof out) == 0);
        seen[answer.status & 7]++;
    }
    IS(seen[DEB_YES] && seen[DEB_NO] && seen[DEB_REFUSED] && seen[DEB_SECOND_REFUSED] &&
       seen[DEB_NO_KIND]);
    IS(is(unmet(index, files[2], NULL, 0, &length), DEB_NO_ROOM, 0, 0, 0) && length == 28);
    for (at = 27; at <= 28; at++) {
        uint8_t *out = malloc(at);
        memset(out, 7, at);
        if (at == 27)
            IS(is(unmet(index, files[2], out, at, &length), DEB_NO_ROOM, 0, 0, 0) && out[0] == 7);
        else
            IS(is(unmet(index, files[2], out, at, &length), DEB_NO, 0, 0, 1) &&
               memcmp(out, "unmet 1 aa 1 all Depends zz\n", 28) == 0);
        IS(length == 28);
        free(out);
    }
}

static void try_names(const struct deb_index *index) {
    uint64_t numbers[3] = {9, 9, 9};
    size_t count = 99;
    IS(is(deb_index_packages(index, bytes("hello"), 5, numbers, 3, &count), DEB_YES, 0, 0, 0));
    IS(count == 2 && numbers[0] == 1 && numbers[1] == 3 && numbers[2] == 9);
    IS(is(deb_index_providers(index, bytes("mta"), 3, numbers, 2, &count), DEB_YES, 0, 0, 0));
    IS(count == 2 && numbers[0] == 2 && numbers[1] == 3);
    numbers[0] = 9;
    IS(is(deb_index_packages(index, bytes("hello"), 5, numbers, 1, &count), DEB_NO_ROOM, 0, 0, 0));
    IS(count == 2 && numbers[0] == 9);
    IS(is(deb_index_providers(index, bytes("mta"), 3, NULL, 0, &count), DEB_NO_ROOM, 0, 0, 0));
    IS(count == 2);
    IS(is(deb_index_providers(index, bytes("hello"), 5, NULL, 0, &count), DEB_YES, 0, 0, 0));
    IS(count == 0);
    IS(is(deb_index_packages(index, NULL, 0, NULL, 0, &count), DEB_YES, 0, 0, 0) && count == 0);
}

static void try_numbers(const struct deb_index *index) {
    uint8_t out[64];
    size_t length = 99;
    IS(is(deb_index_package(index, 3, out, sizeof out, &length), DEB_YES, 0, 0, 0));
    IS(length == 15 && memcmp(out, "hello 2.10 i386", length) == 0);
    IS(is(deb_index_package(index, 1, out, 15, &length), DEB_YES, 0, 0, 0));
    IS(length == 15 && memcmp(out, "hello 1.0 amd64", length) == 0);
    memset(out, 7, sizeof out);
    IS(is(deb_index_package(index, 1, out, 14, &length), DEB_NO_ROOM, 0, 0, 0));
    IS(length == 15 && out[0] == 7);
    IS(is(deb_index_package(index, 2, NULL, 0, &length), DEB_NO_ROOM, 0, 0, 0) && length == 12);
    IS(is(deb_index_package(index, 0, NULL, 0, &length), DEB_NO, 0, 0, 0) && length == 0);
    IS(is(deb_index_package(index, 4, NULL, 0, &length), DEB_NO, 0, 0, 0) && length == 0);
    IS(is(deb_index_package(index, UINT64_MAX, NULL, 0, &length), DEB_NO, 0, 0, 0));
}

/* What an index keeps of a package, in each amount of room. */
static void try_details(void) {
    static const char *text =
        "\nPackage: aa\nVersion: 01\nArchitecture: all\n\n\n"
        "Multi-Arch: same\nArchitecture: amd64\nPackage: bb\nSize: 1\nVersion: 0:2-0\n"
        "Provides: dd (= 03), cc\n\nPackage: ee\nVersion: 1\nArchitecture: i386\nProvides: ff:any\n";
    static const char *kept[] = {
        "Architecture: all\nPackage: aa\nVersion: 1\n",
        "Architecture: amd64\nMulti-Arch: same\nPackage: bb\nProvides: cc, dd (= 3)\nVersion: 2\n",
        "Architecture: i386\nPackage: ee\nVersion: 1\n",
    };
    static const uint64_t lines[] = {2, 7, 14};
    struct deb_answer answer;
    struct deb_index *index = loaded(text, strlen(text), &answer);
    size_t number, room, length;
    IS(is(answer, DEB_YES, 0, 0, 3));
    for (number = 1; number <= 3; number++) {
        size_t whole = strlen(kept[number - 1]);
        for (room = whole - 1; room <= whole + 1; room++) {
            uint8_t *out = sevens(room);
            answer = deb_index_details(index, number, out, room, &length);
            IS(length == whole);
            if (room < whole)
                IS(is(answer, DEB_NO_ROOM, 0, 0, 0) && untouched(out, room));
            else
                IS(is(answer, DEB_YES, 0, lines[number - 1], 0) &&
                   memcmp(out, kept[number - 1], whole) == 0 && untouched(out + whole, room - whole));
            free(out);
        }
        IS(is(deb_index_details(index, number, NULL, 0, &length), DEB_NO_ROOM, 0, 0, 0));
        IS(length == whole);
    }
    IS(is(deb_index_details(index, 0, NULL, 0, &length), DEB_NO, 0, 0, 0) && length == 0);
    IS(is(deb_index_details(index, 4, NULL, 0, &length), DEB_NO, 0, 0, 0) && length == 0);
    IS(is(deb_index_details(index, UINT64_MAX, NULL, 0, &length), DEB_NO, 0, 0, 0));
    release(index);
}

/* A report with reasons, in each amount of room, and each status. */
static void try_reasons(const struct deb_index *index) {
    static const char *report =
        "met hello\n 1 hello 1.0 amd64\nunmet hello (>= 2) | xx\n"
        " hello (>= 2): 1 hello 1.0 amd64 is earlier\n"
        " hello (>= 2): 3 hello 2.10 i386 is of another architecture\n"
        " xx: no package has this name\n"
        "ignored other <!nocheck>\n"
        "ignored xx [linux-amd64]\n xx [linux-amd64]: linux-amd64 isn't the target amd64\n";
    static const char *relation = "other <!nocheck>, hello, hello (>= 2) | xx, xx [linux-amd64]";
    struct deb_text profile = {bytes("nocheck"), 7};
    size_t size = strlen(text_of_three), at, whole = 0, length, other_length;
    struct deb_answer answer, direct;
    answer = deb_index_query_why(index, bytes("amd64"), 5, &profile, 1, bytes(relation),
                                 strlen(relation), NULL, 0, &whole);
    IS(is(answer, DEB_NO_ROOM, 0, 0, 0) && whole == strlen(report));
    for (at = whole - 1; at <= whole + 1; at++) {
        uint8_t *one = sevens(at), *two = sevens(at);
        answer = deb_index_query_why(index, bytes("amd64"), 5, &profile, 1, bytes(relation),
                                     strlen(relation), one, at, &length);
        direct = deb_query_why(bytes("amd64"), 5, &profile, 1, bytes(relation), strlen(relation),
                               bytes(text_of_three), size, two, at, &other_length);
        IS(is(answer, at < whole ? DEB_NO_ROOM : DEB_NO, 0, 0, 0) && length == whole);
        IS(is(direct, answer.status, 0, 0, 0) && other_length == whole);
        IS(memcmp(one, two, at) == 0);
        IS(at < whole ? untouched(one, at)
                      : memcmp(one, report, whole) == 0 && untouched(one + whole, at - whole));
        free(one);
        free(two);
    }
}

/* The answers with reasons are those of the text, and a refused one has no text. */
static void try_more_reasons(const struct deb_index *index) {
    static const char *relations[] = {"hello", "mta | aa, xx", "aa [linux-any]", "aa (", "other", ""};
    size_t size = strlen(text_of_three), at, length, other_length;
    struct deb_answer answer, direct;
    uint8_t out[1024], other[1024];
    for (at = 0; at < sizeof relations / sizeof *relations; at++) {
        const char *target = at % 2 ? "amd64" : "i386";
        memset(out, 7, sizeof out);
        memset(other, 7, sizeof other);
        answer = deb_index_query_why(index, bytes(target), strlen(target), NULL, 0,
                                     bytes(relations[at]), strlen(relations[at]), out, sizeof out,
                                     &length);
        direct = deb_query_why(bytes(target), strlen(target), NULL, 0, bytes(relations[at]),
                               strlen(relations[at]), bytes(text_of_three), size, other,
                               sizeof other, &other_length);
        IS(is(answer, direct.status, direct.code, direct.line, direct.count));
        IS(length == other_length && memcmp(out, other, sizeof out) == 0);
    }
    IS(is(deb_query_why(bytes("any"), 3, NULL, 0, bytes("aa"), 2, bytes("x"), 1, out, 9, &length),
          DEB_REFUSED, DEB_BAD_ENVIRONMENT, 0, 0) && length == 0);
    IS(is(deb_query_why(bytes("amd64"), 5, NULL, 0, NULL, 0, bytes(bad), strlen(bad), NULL, 0,
                        &length), DEB_REFUSED, DEB_BAD_NUMBER, 4, 0) && length == 0);
    IS(is(deb_query_why(bytes("amd64"), 5, NULL, 0, NULL, 0, NULL, 0, NULL, 0, &length), DEB_YES, 0,
          0, 0) && length == 0);
    IS(is(deb_index_query_why(index, NULL, 0, NULL, 0, bytes("aa"), 2, NULL, 0, &length),
          DEB_REFUSED, DEB_BAD_ENVIRONMENT, 0, 0) && length == 0);
}

/* An index in memory of malloc: none if the file is refused. */
static void try_new(void) {
    struct deb_answer answer;
    struct deb_index *index = deb_index_new(bytes(text_of_three), strlen(text_of_three), &answer);
    uint8_t out[32];
    size_t length;
    IS(index != NULL && is(answer, DEB_YES, 0, 0, 3));
    IS(is(deb_index_package(index, 3, out, sizeof out, &length), DEB_YES, 0, 0, 0));
    deb_index_delete(index);
    IS(deb_index_new(bytes(bad), strlen(bad), &answer) == NULL);
    IS(is(answer, DEB_REFUSED, DEB_BAD_NUMBER, 4, 0));
    index = deb_index_new(NULL, 0, &answer);
    IS(index != NULL && is(answer, DEB_YES, 0, 0, 0));
    deb_index_delete(index);
    deb_index_delete(NULL);
}

/* An index that is refused holds none, and is freed as any other. DEB_NO_KIND comes first. */
static void try_refused(void) {
    struct deb_answer answer;
    struct deb_index *index = loaded(bad, strlen(bad), &answer);
    uint64_t number = 9;
    uint8_t out[9] = {7};
    size_t length = 99;
    IS(is(answer, DEB_REFUSED, DEB_BAD_NUMBER, 4, 0));
    IS(is(query(index, "hello", out, 9, &length), DEB_NO_INDEX, 0, 0, 0) && length == 0);
    IS(is(unmet(index, "", out, 9, &length), DEB_NO_INDEX, 0, 0, 0) && length == 0);
    IS(is(deb_index_packages(index, bytes("aa"), 2, &number, 1, &length), DEB_NO_INDEX, 0, 0, 0));
    IS(is(deb_index_providers(index, bytes("aa"), 2, &number, 1, &length), DEB_NO_INDEX, 0, 0, 0));
    IS(is(deb_index_package(index, 1, out, 9, &length), DEB_NO_INDEX, 0, 0, 0) && length == 0);
    IS(is(deb_index_details(index, 1, out, 9, &length), DEB_NO_INDEX, 0, 0, 0) && length == 0);
    IS(is(deb_index_query_why(index, bytes("any"), 3, NULL, 0, bytes("("), 1, out, 9, &length),
          DEB_NO_INDEX, 0, 0, 0) && length == 0);
    IS(is(deb_index_unmet(index, DEB_ANY, 0, bytes("any"), 3, NULL, 0, bytes("x"), 1, out, 9,
                          &length), DEB_NO_KIND, 0, 0, 0) && length == 0);
    IS(number == 9 && out[0] == 7);
    deb_index_free(index);
    deb_index_read(index, NULL, 0, &answer); /* its memory may be used again */
    IS(is(answer, DEB_YES, 0, 0, 0));
    IS(is(query(index, "hello", out, 0, &length), DEB_NO_ROOM, 0, 0, 0) && length == 12);
    release(index);
}

static const struct deb_index *shared;
/* One more file, and packages that are left out; nothing is loaded after a refusal. */
static void try_more(void) {
    static const char *more = "Package: hello\nVersion: 3\nArchitecture: all\n";
    struct deb_text names[] = {{bytes("mailer"), 6}, {bytes("zz"), 2}};
    struct deb_answer answer;
    struct deb_index *index = loaded(text_of_three, strlen(text_of_three), &answer);
    uint8_t out[128];
    uint64_t numbers[4];
    size_t length, file;
    IS(is(deb_index_file(index, 3, &file), DEB_YES, 0, 0, 0) && file == 1);
    deb_index_read_more(index, bytes(more), strlen(more), &answer);
    IS(is(answer, DEB_YES, 0, 0, 4));
    IS(is(query(index, "hello (>= 3)", out, sizeof out, &length), DEB_YES, 0, 0, 0) &&
       length == 35 && memcmp(out, "met hello (>= 3)\n 4 hello 3 all @2\n", length) == 0);
    deb_index_without(index, names, 2, &answer);
    IS(is(answer, DEB_YES, 0, 0, 3));
    IS(is(deb_index_packages(index, bytes("hello"), 5, numbers, 4, &length), DEB_YES, 0, 0, 0) &&
       length == 3 && numbers[0] == 1 && numbers[2] == 3);
    IS(is(deb_index_file(index, 3, &file), DEB_YES, 0, 0, 0) && file == 2);
    IS(is(deb_index_file(index, 4, &file), DEB_NO, 0, 0, 0) && file == 0);
    IS(is(deb_index_file(index, 0, &file), DEB_NO, 0, 0, 0) && file == 0);
    deb_index_read_more(index, bytes(bad), strlen(bad), &answer);
    IS(is(answer, DEB_REFUSED, DEB_BAD_NUMBER, 4, 0));
    IS(is(deb_index_file(index, 1, &file), DEB_NO_INDEX, 0, 0, 0) && file == 0);
    deb_index_read_more(index, bytes(more), strlen(more), &answer);
    IS(is(answer, DEB_NO_INDEX, 0, 0, 0));
    deb_index_without(index, names, 2, &answer);
    IS(is(answer, DEB_NO_INDEX, 0, 0, 0));
    release(index);
}

/* Unmet relations with options. */
static struct deb_answer with_options(const struct deb_index *index, const struct deb_index *unless,
                                      uint8_t kind, uint8_t options, const char *all_for,
                                      const struct deb_text *without, const char *file,
                                      uint8_t *out, size_t room, size_t *length) {
    return deb_index_unmet_with(index, unless, kind, options, bytes("amd64"), 5, bytes(all_for),
                                strlen(all_for), NULL, 0, without, without != NULL, bytes(file),
                                strlen(file), out, room, length);
}

static void try_options(void) {
    static const char *file = "Package: aa\nVersion: 1\nArchitecture: all\nDepends: hello, zz\n";
    static const char *source = "Package: ss\nVersion: 1\nArchitecture: i386\nBuild-Depends: zz\n";
    struct deb_text name = {bytes("aa"), 2};
    struct deb_answer answer;
    struct deb_index *index = loaded("", 0, &answer), *none = loaded(bad, strlen(bad), &answer);
    struct deb_index *old = loaded(text_of_three, strlen(text_of_three), &answer);
    uint8_t out[128];
    size_t length;
    IS(is(with_options(index, index, DEB_PACKAGES, 0, "", NULL, file, out, sizeof out, &length),
          DEB_NO, 0, 0, 1) && length == 59);
    IS(is(with_options(index, old, DEB_PACKAGES, DEB_UNLESS, "", NULL, file, out, sizeof out,
                       &length), DEB_NO, 0, 0, 1));
    IS(length == 31 && memcmp(out, "unmet 1 aa 1 all Depends hello\n", length) == 0);
    IS(is(with_options(index, index, DEB_PACKAGES, 0, "", &name, file, out, sizeof out, &length),
          DEB_YES, 0, 0, 1) && length == 0);
    IS(is(with_options(index, index, DEB_PACKAGES, 0, "all", NULL, file, out, sizeof out, &length),
          DEB_REFUSED, DEB_BAD_ENVIRONMENT, 0, 0) && length == 0);
    IS(is(with_options(index, none, DEB_PACKAGES, DEB_UNLESS, "", NULL, file, out, sizeof out,
                       &length), DEB_NO_INDEX, 0, 0, 0));
    IS(is(with_options(none, index, DEB_PACKAGES, 0, "", NULL, file, out, sizeof out, &length),
          DEB_NO_INDEX, 0, 0, 0));
    IS(is(with_options(index, none, DEB_SOURCES, 0, "", NULL, source, out, sizeof out, &length),
          DEB_YES, 0, 0, 1) && length == 0);
    IS(is(with_options(index, none, DEB_SOURCES, DEB_ALL_SOURCES, "", NULL, source, NULL, 0, &length),
          DEB_NO_ROOM, 0, 0, 0) && length == 37);
    IS(is(with_options(index, none, DEB_SOURCES, DEB_RECOMMENDS, "", NULL, source, out, sizeof out,
                       &length), DEB_NO_KIND, 0, 0, 0));
    IS(is(with_options(index, none, DEB_SOURCES, 0, "i386", NULL, source, out, sizeof out, &length),
          DEB_NO_KIND, 0, 0, 0));
    IS(is(with_options(index, none, DEB_PACKAGES, 8, "", NULL, file, out, sizeof out, &length),
          DEB_NO_KIND, 0, 0, 0));
    release(index);
    release(none);
    release(old);
}

/* The latest versions. */
static void try_latest(void) {
    static const char *first = "Package: aa\nVersion: 1\nArchitecture: all\n";
    static const char *second = "Package: aa\nVersion: 1.1\nArchitecture: i386";
    struct deb_text texts[] = {
        {bytes(first), 41}, {bytes(second), 43}, {bytes(bad), strlen(bad)}};
    uint8_t out[128];
    size_t length;
    IS(is(deb_latest(DEB_PACKAGES, DEB_NAME, NULL, 0, texts, 2, out, sizeof out, &length), DEB_YES,
          0, 0, 1) && length == 44 && memcmp(out, second, 43) == 0 && out[43] == '\n');
    IS(is(deb_latest(DEB_PACKAGES, DEB_NAME, bytes("1.1"), 3, texts, 2, out, sizeof out, &length),
          DEB_YES, 0, 0, 1) && length == 41 && memcmp(out, first, 41) == 0);
    IS(is(deb_latest(DEB_PACKAGES, DEB_NAME_AND_ARCHITECTURE, NULL, 0, texts, 2, NULL, 0, &length),
          DEB_NO_ROOM, 0, 0, 0) && length == 86);
    IS(is(deb_latest(DEB_PACKAGES, DEB_NAME, NULL, 0, NULL, 0, NULL, 0, &length), DEB_YES, 0, 0,
          0) && length == 0);
    IS(is(deb_latest(DEB_PACKAGES, DEB_NAME, NULL, 0, texts, 3, out, sizeof out, &length),
          DEB_REFUSED, DEB_BAD_NUMBER, 4, 3) && length == 0);
    IS(is(deb_latest(DEB_PACKAGES, DEB_NAME, bytes("1_"), 2, texts, 3, out, sizeof out, &length),
          DEB_REFUSED, DEB_BAD_VERSION, 0, 0));
    IS(is(deb_latest(DEB_BINARY, DEB_NAME, NULL, 0, texts, 2, out, sizeof out, &length),
          DEB_NO_KIND, 0, 0, 0));
    IS(is(deb_latest(DEB_SOURCES, 2, NULL, 0, texts, 2, out, sizeof out, &length), DEB_NO_KIND, 0,
          0, 0));
}

static int turns = 2000;

static void *ask(void *wrong) {
    int turn;
    for (turn = 0; turn < turns; turn++) {
        uint8_t out[64];
        uint64_t number;
        size_t length;
        *(int *)wrong += query(shared, "hello", out, sizeof out, &length).status != DEB_YES ||
                         memcmp(out, "met hello\n 1 hello 1.0 amd64\n", 29) != 0;
        *(int *)wrong += deb_index_packages(shared, bytes("mailer"), 6, &number, 1, &length)
                                 .status != DEB_YES ||
                         number != 2;
        *(int *)wrong += unmet(shared, text_of_three, out, 0, &length).status != DEB_YES;
        *(int *)wrong += deb_index_package(shared, 2, out, sizeof out, &length).status != DEB_YES;
        *(int *)wrong += deb_index_details(shared, 1, out, sizeof out, &length).line != 1 ||
                         length != 48;
        *(int *)wrong += deb_index_query_why(shared, bytes("amd64"), 5, NULL, 0, bytes("zz"), 2, out,
                                             sizeof out, &length).status != DEB_NO ||
                         length != 39;
    }
    return NULL;
}

static void try_threads(const struct deb_index *index) {
    pthread_t threads[4];
    int wrong[4] = {0}, at;
    shared = index;
    for (at = 0; at < 4; at++)
        if (pthread_create(&threads[at], NULL, ask, &wrong[at]) != 0)
            wrong[at] = 1;
    for (at = 0; at < 4; at++) {
        pthread_join(threads[at], NULL);
        IS(wrong[at] == 0);
    }
}

int main(int count, char **words) {
    struct deb_answer answer;
    struct deb_index *index = loaded(text_of_three, strlen(text_of_three), &answer);
    if (count > 1)
        turns = atoi(words[1]);
    IS(is(answer, DEB_YES, 0, 0, 3));
    try_queries(index);
    try_unmet(index);
    try_names(index);
    try_numbers(index);
    try_reasons(index);
    try_more_reasons(index);
    try_threads(index);
    release(index);
    try_details();
    try_new();
    try_refused();
    try_more();
    try_options();
    try_latest();
    return counted("index");
}
