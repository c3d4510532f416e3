/* Versions and relations as they are spelled, why such a text is refused, the names of codes, and
 * the version of the library. */
#include "tried.h"

struct version {
    const char *text, *epoch, *upstream, *revision; /* NULL: there is none */
};

/* Whether a part has this offset and this text. */
static int is_part(const char *text, size_t start, size_t length, const char *wanted) {
    if (!wanted)
        return start == 0 && length == 0;
    return length == strlen(wanted) && memcmp(text + start, wanted, length) == 0;
}

static void try_version_parts(void) {
    static const struct version all[] = {
        {"1", NULL, "1", NULL},
        {"1.0-1", NULL, "1.0", "1"},
        {"00:1:2-3-04", "00", "1:2-3", "04"},
        {"2023.03.02-1", NULL, "2023.03.02", "1"},
        {"0:1~rc1", "0", "1~rc1", NULL},
        {"1-0", NULL, "1", "0"},
    };
    static const char *refused[] = {"", "1-", ":1", "1_", "-1", "a:1", "1 ", "1:", "1:-1"};
    size_t at;
    for (at = 0; at < sizeof all / sizeof *all; at++) {
        const struct version *it = &all[at];
        struct deb_version_parts parts = deb_version_parts(bytes(it->text), strlen(it->text));
        IS(parts.status == DEB_YES && parts.code == 0);
        IS(parts.has_epoch == (it->epoch != NULL) && parts.has_revision == (it->revision != NULL));
        IS(is_part(it->text, 0, parts.epoch_length, it->epoch));
        IS(is_part(it->text, parts.upstream, parts.upstream_length, it->upstream));
        IS(is_part(it->text, parts.revision, parts.revision_length, it->revision));
    }
    for (at = 0; at < sizeof refused / sizeof *refused; at++) {
        size_t length = strlen(refused[at]);
        struct deb_version_parts parts =
            deb_version_parts(length ? bytes(refused[at]) : NULL, length);
        IS(parts.status == DEB_REFUSED && parts.code == DEB_BAD_VERSION);
        IS(!parts.has_epoch && !parts.has_revision && parts.epoch_length == 0);
        IS(parts.upstream == 0 && parts.upstream_length == 0);
        IS(parts.revision == 0 && parts.revision_length == 0);
    }
}

struct spelled {
    size_t group;
    const char *name, *qualifier, *op, *version, *architectures, *formula;
};

static const char *relation =
    " ,, bb:any ( >=\t01.0-0 ) [!amd64  !i386] < !nocheck x > <yy>|aa|aa,\n bb [ amd64 ],"
    "cc(<1) , ";

static const struct spelled wanted[] = {
    {1, "bb", "any", ">=", "01.0-0", "!amd64  !i386", "< !nocheck x > <yy>"},
    {1, "aa", NULL, NULL, NULL, NULL, NULL},
    {1, "aa", NULL, NULL, NULL, NULL, NULL},
    {2, "bb", NULL, NULL, NULL, " amd64 ", NULL},
    {3, "cc", NULL, "<", "1", NULL, NULL},
};

enum { ALTERNATIVES = sizeof wanted / sizeof *wanted };

static int is_spelled(const char *text, const struct deb_alternative *it,
                      const struct spelled *as) {
    return it->group == as->group && is_part(text, it->name, it->name_length, as->name) &&
           is_part(text, it->qualifier, it->qualifier_length, as->qualifier) &&
           is_part(text, it->op, it->op_length, as->op) &&
           is_part(text, it->version, it->version_length, as->version) &&
           is_part(text, it->architectures, it->architectures_length, as->architectures) &&
           is_part(text, it->formula, it->formula_length, as->formula);
}

static void try_relation_parts(void) {
    static const char *refused[] = {"aa (", "aa b", "aa (>= 1-)", "|", "aa |", "aa [", "A"};
    size_t room, count, at, length = strlen(relation);
    for (room = 0; room <= ALTERNATIVES + 1; room++) {
        size_t size = (room + 1) * sizeof(struct deb_alternative);
        struct deb_alternative *table = sevens(size);
        struct deb_answer answer;
        count = 99;
        answer = deb_relation_parts(bytes(relation), length, table, room, &count);
        IS(count == ALTERNATIVES);
        if (room < ALTERNATIVES) {
            IS(is(answer, DEB_NO_ROOM, 0, 0, 0) && untouched(table, size));
        } else {
            IS(is(answer, DEB_YES, 0, 0, 0));
            for (at = 0; at < ALTERNATIVES; at++)
                IS(is_spelled(relation, &table[at], &wanted[at]));
            IS(untouched(table + count, (room + 1 - count) * sizeof *table));
        }
        for (at = 0; at < sizeof refused / sizeof *refused; at++) {
            memset(table, 7, size);
            count = 99;
            answer =
                deb_relation_parts(bytes(refused[at]), strlen(refused[at]), table, room, &count);
            IS(is(answer, DEB_REFUSED, DEB_BAD_RELATION, 0, 0) && count == 0);
            IS(untouched(table, size));
        }
        free(table);
    }
    IS(is(deb_relation_parts(bytes(relation), length, NULL, 0, &count), DEB_NO_ROOM, 0, 0, 0));
    IS(count == ALTERNATIVES);
    IS(is(deb_relation_parts(NULL, 0, NULL, 0, &count), DEB_YES, 0, 0, 0) && count == 0);
    IS(is(deb_relation_parts(bytes(" ,,"), 3, NULL, 0, &count), DEB_YES, 0, 0, 0) && count == 0);
}

typedef struct deb_answer explainer(const uint8_t *text, size_t text_length, uint8_t *out,
                                    size_t out_size, size_t *length);

/* The lines of an explanation in buffers that are too short, long enough, and longer. */
static void try_explained(explainer *explain, const char *text, int code, const char *lines) {
    size_t whole = strlen(lines), turn, length, rooms[5];
    rooms[0] = 0;
    rooms[1] = whole - 1;
    rooms[2] = whole;
    rooms[3] = whole + 1;
    rooms[4] = 4096;
    for (turn = 0; turn < 5; turn++) {
        uint8_t *out = sevens(rooms[turn]);
        struct deb_answer answer = explain(text ? bytes(text) : NULL, text ? strlen(text) : 0,
                                           rooms[turn] ? out : NULL, rooms[turn], &length);
        IS(length == whole);
        if (rooms[turn] < whole)
            IS(is(answer, DEB_NO_ROOM, 0, 0, 0) && untouched(out, rooms[turn]));
        else
            IS(is(answer, code ? DEB_REFUSED : DEB_YES, code, 0, 0) &&
               memcmp(out, lines, whole) == 0 && untouched(out + whole, rooms[turn] - whole));
        free(out);
    }
}

static void try_explanations(void) {
    try_explained(deb_explain_relation, relation, 0, "ok\n");
    try_explained(deb_explain_relation, NULL, 0, "ok\n");
    try_explained(deb_explain_version, "1:2-3", 0, "ok\n");
    try_explained(deb_explain_relation, "bb, cc dd", DEB_BAD_RELATION,
                  "code: 19\nname: BadRelation\nplace: 7\nreason: Trailing\nvalue: bb, cc dd\n"
                  "rule: The value must be a list of packages, with versions in parentheses "
                  "(Debian Policy 7.1).\n"
                  "usually: a substitution variable, a version without an operator, or upper case "
                  "in a name\n");
    try_explained(
        deb_explain_version, "1_2", DEB_BAD_VERSION,
        "code: 18\nname: BadVersion\nplace: 1\nreason: UpstreamByte\nvalue: 1_2\n"
        "rule: A version must have the form [epoch:]upstream[-revision] (Debian Policy "
        "5.6.12); it consists of letters, digits, `.`, `+` and `~`, and upstream may also "
        "contain `-` and `:`. The epoch consists of digits, and no part is empty.\n"
        "usually: an underscore, an empty revision, a trailing CR, or a substitution "
        "variable\n");
}

/* Each code has a name, which is the one that an explanation writes; no other number has one. */
static void try_names(void) {
    struct deb_answer answer;
    uint8_t out[1024];
    char line[64];
    size_t length;
    int code, named = 0;
    for (code = 0; code < 256; code++) {
        const char *name = deb_code_name((uint8_t)code);
        IS((name != NULL) == (code >= DEB_NOT_UTF8 && code <= DEB_BAD_ENVIRONMENT));
        named += name != NULL;
    }
    IS(named == 23 && strcmp(deb_code_name(DEB_BAD_VERSION), "BadVersion") == 0);
    answer = deb_explain(DEB_PACKAGES, bytes("x"), 1, out, sizeof out - 1, &length);
    out[length] = '\0';
    sprintf(line, "\nname: %s\n", deb_code_name(answer.code));
    IS(answer.code == DEB_NO_COLON && strstr((char *)out, line) != NULL);
}

/* The version of the header, in its two forms, is that of the library. */
static void try_library(void) {
    unsigned version = (unsigned)deb_library_version();
    char text[32];
    sprintf(text, "%u.%u.%u", version / 10000, version / 100 % 100, version % 100);
    IS(version == DEB_VERSION_NUMBER && strcmp(text, DEB_VERSION) == 0);
}

int main(void) {
    try_version_parts();
    try_relation_parts();
    try_explanations();
    try_names();
    try_library();
    return counted("spelled");
}
