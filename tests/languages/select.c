/* The paragraphs of a text that are selected: each status, each form, each buffer, and texts with a byte
 * 0, without UTF-8 and without a byte. */
#include "tried.h"

static const char *three = "Package: aa\nVersion: 1.9\nArchitecture: all\nNote: a\tb\\\n\n"
                           "package: bb \nVersion: 1.10\nArchitecture: all\nDepends: cc, aa (>= 1)\n\n"
                           "Package: cc\nVersion: 2\nArchitecture: all\n";

/* What is asked: the numbers, at most two conditions and two names, of which NULL is none. */
struct asked {
    uint8_t kind, others, form;
    const char *conditions[2], *names[2];
};

static size_t texts_of(const char *const from[2], struct deb_text to[2]) {
    size_t count = 0;
    for (; count < 2 && from[count]; count++)
        to[count] = (struct deb_text){bytes(from[count]), strlen(from[count])};
    return count;
}

static struct deb_answer ask(struct asked it, const char *text, uint8_t *out, size_t room,
                             size_t *length) {
    struct deb_text conditions[2], names[2];
    size_t condition_count = texts_of(it.conditions, conditions);
    size_t name_count = texts_of(it.names, names);
    return deb_select(it.kind, it.others, it.form, condition_count ? conditions : NULL,
                      condition_count, name_count ? names : NULL, name_count, bytes(text),
                      strlen(text), out, room, length);
}

/* Whether so many paragraphs are selected with exactly this text, in a buffer that is just long enough,
 * and nothing is written to one that is a byte shorter. */
static int selects(struct asked it, uint64_t count, const char *text) {
    size_t wanted = strlen(text), length = 99;
    uint8_t *out = sevens(wanted), *less = sevens(wanted);
    struct deb_answer answer = ask(it, three, out, wanted, &length);
    int right = is(answer, count ? DEB_YES : DEB_NO, 0, 0, count) && length == wanted &&
                memcmp(out, text, wanted) == 0;
    if (wanted) {
        answer = ask(it, three, less, wanted - 1, &length);
        right &= is(answer, DEB_NO_ROOM, 0, 0, 0) && length == wanted && untouched(less, wanted);
    }
    free(out);
    free(less);
    return right;
}

static void try_forms(void) {
    struct asked all = {DEB_PACKAGES, 0, DEB_CONTROL, {NULL}, {NULL}};
    struct asked newer = {DEB_PACKAGES, 0, DEB_CONTROL, {"Version >> 1.9", "Package != cc"}, {NULL}};
    struct asked others = {DEB_PACKAGES, 1, DEB_COUNT, {"Version >> 1.9", "Package != cc"}, {NULL}};
    struct asked none = {DEB_PACKAGES, 1, DEB_CONTROL, {NULL}, {NULL}};
    struct asked fields = {DEB_PACKAGES, 0, DEB_CONTROL, {"Package"}, {"VERSION", "package"}};
    struct asked table = {DEB_PACKAGES, 0, DEB_TABLE, {"Architecture = all"}, {"note", "Package"}};
    struct asked cells = {DEB_ANY, 0, DEB_TABLE, {"Note ~ a\tb"}, {NULL}};
    IS(selects(all, 3, three));
    IS(selects(newer, 1, "package: bb \nVersion: 1.10\nArchitecture: all\nDepends: cc, aa (>= 1)\n"));
    IS(selects(others, 2, ""));
    IS(selects(none, 0, ""));
    IS(selects(fields, 3, "Version: 1.9\nPackage: aa\n\nVersion: 1.10\npackage: bb \n\n"
                          "Version: 2\nPackage: cc\n"));
    IS(selects(table, 3, "a\\tb\\\\\taa\n\tbb\n\tcc\n"));
    IS(selects(cells, 1, "\n"));
    all.form = DEB_COUNT;
    IS(selects(all, 3, ""));
    none.form = DEB_TABLE;
    IS(selects(none, 0, ""));
    none.form = DEB_JSON_LINES;
    IS(selects(none, 0, ""));
}

static void try_json(void) {
    struct asked asked = {DEB_ANY, 0, DEB_JSON_LINES, {"Package = bb"}, {"Version"}};
    uint8_t out[512];
    size_t length = 0, none;
    IS(is(ask(asked, three, out, sizeof out, &length), DEB_YES, 0, 0, 1));
    IS(length > 20 && memcmp(out, "{\"line\":6,\"fields\":{", 20) == 0 && out[length - 1] == '\n');
    IS(is(ask(asked, three, NULL, 0, &none), DEB_NO_ROOM, 0, 0, 0) && none == length);
}

static void try_refused(void) {
    static const char *bad = "Package: aa\nVersion: 1\nArchitecture: all\n\nPackage: bb\nVersion: 1_\n";
    struct asked asked = {DEB_PACKAGES, 0, DEB_CONTROL, {"Package", NULL}, {NULL}};
    uint8_t out[64];
    size_t length = 99;
    memset(out, 7, sizeof out);
    IS(is(ask(asked, bad, out, sizeof out, &length), DEB_REFUSED, DEB_BAD_VERSION, 6, 0));
    IS(length == 0 && untouched(out, sizeof out));
    asked.conditions[1] = "Package >> aa";
    IS(is(ask(asked, bad, out, sizeof out, &length), DEB_SECOND_REFUSED, 0, 0, 2) && length == 0);
    asked.conditions[0] = "";
    IS(is(ask(asked, bad, NULL, 0, &length), DEB_SECOND_REFUSED, 0, 0, 1));
    asked.form = 4;
    IS(is(ask(asked, bad, out, sizeof out, &length), DEB_NO_KIND, 0, 0, 0));
    asked.form = DEB_JSON_LINES;
    asked.others = 2;
    IS(is(ask(asked, bad, out, sizeof out, &length), DEB_NO_KIND, 0, 0, 0));
    asked.others = 1;
    asked.kind = 6;
    IS(is(ask(asked, bad, out, sizeof out, &length), DEB_NO_KIND, 0, 0, 0) && length == 0);
    IS(untouched(out, sizeof out));
}

/* Texts in which a byte 0 is, which aren't UTF-8, and which are NULL. */
static void try_bytes(void) {
    static const uint8_t zero[] = {'a', '=', 0, 'b'}, high[] = {'a', '~', 255}, text[] = "a: \0b\n";
    struct deb_text condition = {zero, sizeof zero}, name = {(const uint8_t *)"A\0", 2};
    uint8_t out[64];
    size_t length = 99;
    IS(is(deb_select(DEB_ANY, 0, DEB_CONTROL, &condition, 1, NULL, 0, text, 6, out, sizeof out,
                     &length), DEB_YES, 0, 0, 1) && length == 6 && memcmp(out, text, 6) == 0);
    IS(is(deb_select(DEB_ANY, 0, DEB_TABLE, NULL, 0, &name, 1, text, 6, out, sizeof out, &length),
          DEB_YES, 0, 0, 1) && length == 1 && out[0] == '\n');
    name.length = 1;
    IS(is(deb_select(DEB_ANY, 0, DEB_TABLE, NULL, 0, &name, 1, text, 6, out, sizeof out, &length),
          DEB_YES, 0, 0, 1) && length == 6 && memcmp(out, "\\x00b\n", 6) == 0);
    condition = (struct deb_text){high, sizeof high};
    IS(is(deb_select(DEB_ANY, 0, DEB_CONTROL, &condition, 1, NULL, 0, text, 6, out, sizeof out,
                     &length), DEB_NO, 0, 0, 0) && length == 0);
    condition = (struct deb_text){NULL, 0};
    IS(is(deb_select(DEB_ANY, 0, DEB_CONTROL, &condition, 1, NULL, 0, NULL, 0, NULL, 0, &length),
          DEB_SECOND_REFUSED, 0, 0, 1));
    IS(is(deb_select(DEB_ANY, 0, DEB_CONTROL, NULL, 0, NULL, 0, NULL, 0, NULL, 0, &length), DEB_NO, 0,
          0, 0) && length == 0);
}

static struct deb_answer explain(uint8_t kind, const char *text, uint8_t *out, size_t room,
                                 size_t *length) {
    return deb_explain_condition(kind, bytes(text), strlen(text), out, room, length);
}

static void try_explanations(void) {
    static const char *why = "place: 8\nreason: NoOrder\nvalue: Package >= \\taa\n"
                             "rule: Only versions and numbers have an order.\n";
    uint8_t out[256];
    size_t length = 99, wanted = strlen(why);
    memset(out, 7, sizeof out);
    IS(is(explain(DEB_PACKAGES, "Package >= \taa", out, wanted - 1, &length), DEB_NO_ROOM, 0, 0, 0));
    IS(length == wanted && untouched(out, sizeof out));
    IS(is(explain(DEB_PACKAGES, "Package >= \taa", out, wanted, &length), DEB_REFUSED, 0, 0, 0));
    IS(length == wanted && memcmp(out, why, wanted) == 0 && out[wanted] == 7);
    IS(is(explain(DEB_PACKAGES, "Version >= 1", out, sizeof out, &length), DEB_YES, 0, 0, 0));
    IS(length == 3 && memcmp(out, "ok\n", 3) == 0);
    IS(is(explain(6, "Version >= 1", out, sizeof out, &length), DEB_NO_KIND, 0, 0, 0));
    IS(length == 0);
    IS(is(deb_explain_condition(DEB_ANY, NULL, 0, out, sizeof out, &length), DEB_REFUSED, 0, 0, 0));
    IS(memcmp(out, "place: 0\nreason: NameExpected\nvalue: \n", 38) == 0);
}

int main(void) {
    try_forms();
    try_json();
    try_refused();
    try_bytes();
    try_explanations();
    return counted("select");
}
