/* How much memory a reader holds while it is fed, and that the calls that free leave nothing held.
 * Linked with -Wl,--wrap=malloc,--wrap=realloc,--wrap=free. */
#include "tried.h"

#include <malloc.h>

enum { PIECE = 1 << 20, PIECES = 64, PARAGRAPH = 1 << 24 };

void *__real_malloc(size_t size);
void *__real_realloc(void *old, size_t size);
void __real_free(void *it);

static size_t held, most; /* bytes from malloc that weren't freed: now, and at most */

static void *taken(void *it) {
    held += it ? malloc_usable_size(it) : 0;
    most = held > most ? held : most;
    return it;
}

void *__wrap_malloc(size_t size) { return taken(__real_malloc(size)); }

void *__wrap_realloc(void *old, size_t size) {
    size_t had = old ? malloc_usable_size(old) : 0;
    void *it = __real_realloc(old, size);
    held -= it || size == 0 ? had : 0;
    return taken(it);
}

void __wrap_free(void *it) {
    held -= it ? malloc_usable_size(it) : 0;
    __real_free(it);
}

static void fed(struct deb_reader *reader, const uint8_t *text, size_t length, uint8_t is_last,
                uint64_t count) {
    struct deb_answer answer;
    deb_reader_feed(reader, text, length, is_last, &answer);
    IS(is(answer, DEB_YES, 0, 0, count));
}

/* The line of the one field that the last feed read. */
static uint32_t line_of_field(const struct deb_reader *reader) {
    struct deb_field field;
    uint8_t name[2], value[2];
    size_t count, names, values;
    struct deb_answer answer = deb_reader_fields(reader, &field, 1, &count, name, sizeof name,
                                                 &names, value, sizeof value, &values);
    IS(is(answer, DEB_YES, 0, 0, 0) && count == 1 && name[0] == 'b' && value[0] == '2');
    return field.line;
}

/* Blank lines before a paragraph, between two and after the last one: a reader doesn't hold them,
 * and counts them. `blank` is the lines of one piece, `room` what may be held at most. */
static void try_blank_lines(const uint8_t *blank, uint32_t lines, size_t room) {
    struct deb_reader *reader = malloc(deb_reader_size());
    struct deb_answer answer;
    size_t before = held;
    uint32_t at;
    deb_reader_start(reader, DEB_ANY, &answer);
    most = held;
    for (at = 0; at < PIECES; at++)
        fed(reader, blank, PIECE, 0, 0);
    IS(held - before < room && most - before < room + 6 * PIECE);
    fed(reader, bytes("a: 1\n\n"), 6, 0, 0);
    for (at = 0; at < PIECES; at++)
        fed(reader, blank, PIECE, 0, 1);
    IS(held - before < room && most - before < room + 6 * PIECE);
    fed(reader, bytes("b: 2\n\n"), 6, 0, 1);
    fed(reader, blank, PIECE, 0, 2);
    IS(line_of_field(reader) == 2 * PIECES * lines + 3);
    for (at = 0; at < PIECES; at++)
        fed(reader, blank, PIECE, 0, 2);
    IS(held - before < room && most - before < room + 6 * PIECE);
    deb_reader_feed(reader, bytes("c"), 1, 1, &answer);
    IS(is(answer, DEB_REFUSED, DEB_NO_COLON, (3 * PIECES + 1) * (uint64_t)lines + 5, 0));
    deb_reader_free(reader);
    IS(held == before);
    free(reader);
}

static void try_kinds_of_blank_lines(void) {
    static const char *patterns[] = {"\n", " \n", "\t \t \t  \n"};
    uint8_t *blank = malloc(PIECE);
    size_t at, it, length;
    for (it = 0; it < sizeof patterns / sizeof *patterns; it++) {
        length = strlen(patterns[it]);
        for (at = 0; at < PIECE; at++)
            blank[at] = (uint8_t)patterns[it][at % length];
        try_blank_lines(blank, (uint32_t)(PIECE / length), 2 * PIECE);
    }
    /* One line a piece: two are held, and as much as a paragraph may have is read ahead. */
    memset(blank, ' ', PIECE);
    blank[PIECE - 1] = '\n';
    try_blank_lines(blank, 1, PARAGRAPH + 6 * PIECE);
    free(blank);
}

/* A line that never ends, after some text: once it has as many bytes as a paragraph may have, and
 * at most a MiB more, a reader only counts them. `size` is that of the pieces up to there. */
static void try_endless_line(const char *front, char byte, size_t size, uint64_t count,
                             uint64_t line) {
    struct deb_reader *reader = malloc(deb_reader_size());
    uint8_t *piece = malloc(PIECE);
    struct deb_answer answer;
    size_t before = held, at, highest = 0;
    memset(piece, byte, PIECE);
    deb_reader_start(reader, DEB_ANY, &answer);
    most = held;
    fed(reader, bytes(front), strlen(front), 0, count);
    for (at = 0; at < PARAGRAPH + PIECE; at += size) {
        deb_reader_feed(reader, piece, size, 0, &answer);
        highest = held > highest ? held : highest;
        if (answer.status != DEB_YES)
            break;
    }
    IS(is(answer, DEB_YES, 0, 0, count) && at >= PARAGRAPH + PIECE);
    IS(highest - before < 2 * (size_t)PARAGRAPH + 2 * PIECE);
    for (at = 17; at < PIECES; at++)
        fed(reader, piece, PIECE, 0, count);
    IS(held - before < 2 * PIECE && most - before < 4 * (size_t)PARAGRAPH);
    fed(reader, bytes("\n"), 1, 0, count);
    IS(held - before < 2 * PIECE);
    deb_reader_feed(reader, bytes("a"), 1, 0, &answer);
    IS(is(answer, DEB_REFUSED, DEB_PARAGRAPH_TOO_LONG, line, 0));
    IS(most - before < 4 * (size_t)PARAGRAPH);
    deb_reader_free(reader);
    IS(held == before);
    free(piece);
    free(reader);
}

static void try_endless_lines(void) {
    static const size_t sizes[] = {1, 1000, 65536, PIECE};
    size_t at;
    for (at = 0; at < sizeof sizes / sizeof *sizes; at++) {
        try_endless_line("", 'a', sizes[at], 0, 1);
        try_endless_line("a: 1\n", ' ', sizes[at], 0, 2);
        try_endless_line("\n\na: 1\nb: 2\n\n \n", '#', sizes[at], 1, 7);
    }
}

/* What an index holds is freed: one of packages, and none. */
static void try_index(void) {
    static const char *texts[] = {
        "Package: aa\nVersion: 1\nArchitecture: all\nProvides: bb\n\n"
        "Package: cc\nVersion: 2\nArchitecture: amd64\n",
        "Package: aa\nVersion: 1-\n",
    };
    size_t at, before;
    for (at = 0; at < 2; at++) {
        struct deb_index *index = malloc(deb_index_size());
        struct deb_answer answer;
        before = held;
        deb_index_read(index, bytes(texts[at]), strlen(texts[at]), &answer);
        IS(answer.status == (at ? DEB_REFUSED : DEB_YES));
        IS((held > before) == (at == 0));
        deb_index_free(index);
        IS(held == before);
        free(index);
    }
}

int main(void) {
    try_kinds_of_blank_lines();
    try_endless_lines();
    try_index();
    return counted("held");
}
