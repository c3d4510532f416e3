/* A reader that is fed a file in pieces, of each size: it reads what deb_fields reads of all of it.
 */
#include "fed.h"
#include "tried.h"

static const char *files[] = {
    "",
    "\n",
    "x",
    "a: 1",
    "Package: aa\nVersion: 1\nArchitecture: all\n",
    "Package: aa\nVersion: 1\nArchitecture: all\n\n\n",
    "\n\nPackage: aa\nVersion: 1\nArchitecture: all\nDescription: x\n  y\n\n\t\n \n"
    "Package: bb\nVersion: 2\nArchitecture: all\n\nPackage: cc\nVersion: 3\nArchitecture: all",
    "Package: aa\nVersion: 1\nArchitecture: all\n\nPackage: bb\nVersion: 1-\n\nPackage: cc\n",
    "a: 1\n\nb\n\nc: 1\n",
    "a: 1\n\n b\n",
    "a: 1\nA: 2\n",
    "a: \xff\n\nb: 1\n",
    "# x\na: 1\n",
    "a: 1\r\n\r\nb: 2\r\n",
    "Format: 1.0\nSource: ss\nVersion: 1\nChecksums-Sha1: 1\n\n",
};

static void try_pieces(void) {
    uint8_t kind;
    size_t file, size, length;
    for (file = 0; file < sizeof files / sizeof *files; file++)
        for (kind = DEB_BINARY; kind <= DEB_STATUS; kind++) {
            length = strlen(files[file]);
            for (size = 1; size <= length + 1; size++)
                IS(reads_alike(kind, bytes(files[file]), length, size));
        }
}

static struct deb_answer feed_text(struct deb_reader *reader, const char *text, uint8_t is_last) {
    struct deb_answer answer;
    deb_reader_feed(reader, bytes(text), strlen(text), is_last, &answer);
    return answer;
}

/* How many fields the last feed read. */
static size_t field_count(const struct deb_reader *reader) {
    size_t count = 99, names, values;
    struct deb_answer answer =
        deb_reader_fields(reader, NULL, 0, &count, NULL, 0, &names, NULL, 0, &values);
    IS(answer.status == (count ? DEB_NO_ROOM : DEB_YES));
    IS((count > 0) == (names > 0) && (count > 0) == (values > 0));
    return count;
}

/* A paragraph is read once a byte follows the blank line after it. */
static void try_steps(void) {
    struct deb_reader *reader = malloc(deb_reader_size());
    struct deb_answer answer;
    deb_reader_start(reader, DEB_ANY, &answer);
    IS(is(answer, DEB_YES, 0, 0, 0) && field_count(reader) == 0);
    IS(is(feed_text(reader, "a: 1\nb: 2\n\n", 0), DEB_YES, 0, 0, 0) && field_count(reader) == 0);
    IS(is(feed_text(reader, "c", 0), DEB_YES, 0, 0, 1) && field_count(reader) == 2);
    IS(field_count(reader) == 2);
    IS(is(feed_text(reader, "", 0), DEB_YES, 0, 0, 1) && field_count(reader) == 0);
    IS(is(feed_text(reader, ": 3\n\nd: 4\n\ne: 5\n", 0), DEB_YES, 0, 0, 3));
    IS(field_count(reader) == 2);
    IS(is(feed_text(reader, "f: 6", 255), DEB_YES, 0, 0, 4) && field_count(reader) == 2);
    IS(is(feed_text(reader, "x", 0), DEB_YES, 0, 0, 4) && field_count(reader) == 0);
    IS(is(feed_text(reader, "x", 1), DEB_YES, 0, 0, 4) && field_count(reader) == 0);
    deb_reader_free(reader);
    deb_reader_start(reader, DEB_BINARY, &answer); /* its memory may be used again */
    IS(is(answer, DEB_YES, 0, 0, 0));
    deb_reader_feed(reader, NULL, 0, 1, &answer);
    IS(is(answer, DEB_REFUSED, DEB_NO_PARAGRAPH, 1, 0));
    deb_reader_free(reader);
    free(reader);
}

/* After an error each call returns it again, and reads nothing. */
static void try_errors(void) {
    struct deb_reader *reader = malloc(deb_reader_size());
    struct deb_answer answer;
    int kind;
    deb_reader_start(reader, DEB_ANY, &answer);
    IS(is(feed_text(reader, "a: 1\n\nb\n\nc: 1\n\nd", 0), DEB_REFUSED, DEB_NO_COLON, 3, 0));
    IS(field_count(reader) == 1);
    IS(is(feed_text(reader, "e: 1\n\nf", 0), DEB_REFUSED, DEB_NO_COLON, 3, 0));
    IS(field_count(reader) == 0);
    IS(is(feed_text(reader, "", 1), DEB_REFUSED, DEB_NO_COLON, 3, 0) && field_count(reader) == 0);
    deb_reader_free(reader);
    for (kind = 6; kind < 256; kind += 50) {
        deb_reader_start(reader, (uint8_t)kind, &answer);
        IS(is(answer, DEB_NO_KIND, 0, 0, 0));
        IS(is(feed_text(reader, "a: 1\n\nb: 1\n", 0), DEB_NO_KIND, 0, 0, 0));
        IS(is(feed_text(reader, "", 1), DEB_NO_KIND, 0, 0, 0) && field_count(reader) == 0);
        deb_reader_free(reader);
    }
    free(reader);
}

/* The tables with an item less, with as many as they need, and with one more. */
static void try_room(void) {
    static const struct deb_field wanted = {2, 4, 0, 1, 0, 4};
    struct deb_reader *reader = malloc(deb_reader_size());
    struct deb_answer answer;
    size_t short_of, count, names_length, values_length;
    deb_reader_start(reader, DEB_ANY, &answer);
    IS(is(feed_text(reader, "a: 1\n\n\nb", 0), DEB_YES, 0, 0, 1));
    IS(is(feed_text(reader, ": 2\n 3\n\nc", 0), DEB_YES, 0, 0, 2));
    for (short_of = 0; short_of < 4; short_of++) {
        size_t rooms[] = {1, 2, 5};
        struct deb_field *fields = sevens(2 * sizeof *fields);
        uint8_t *names = sevens(3), *values = sevens(6);
        if (short_of < 3)
            rooms[short_of]--;
        answer = deb_reader_fields(reader, fields, rooms[0], &count, names, rooms[1], &names_length,
                                   values, rooms[2], &values_length);
        IS(count == 1 && names_length == 2 && values_length == 5);
        if (short_of < 3) {
            IS(answer.status == DEB_NO_ROOM && untouched(fields, 2 * sizeof *fields));
            IS(untouched(names, 3) && untouched(values, 6));
        } else {
            IS(answer.status == DEB_YES && memcmp(fields, &wanted, sizeof wanted) == 0);
            IS(memcmp(names, "b", 2) == 0 && memcmp(values, "2\n 3", 5) == 0);
            IS(untouched(fields + 1, sizeof *fields) && names[2] == 7 && values[5] == 7);
        }
        free(fields);
        free(names);
        free(values);
    }
    deb_reader_free(reader);
    free(reader);
}

/* A file of many paragraphs, in pieces that end anywhere in them, and one long paragraph. */
static void try_long(void) {
    enum { PARAGRAPHS = 2000, LONG = 1000000 };
    static const size_t sizes[] = {1, 63, 64, 65, 4095, 4096, 100000};
    char *text = malloc(PARAGRAPHS * 64 + LONG + 8), *to = text;
    size_t at;
    for (at = 0; at < PARAGRAPHS; at++)
        to += sprintf(to, "Package: p%u\nVersion: %u\nArchitecture: all\n\n", (unsigned)at,
                      (unsigned)at);
    for (at = 0; at < sizeof sizes / sizeof *sizes; at++)
        IS(reads_alike(DEB_PACKAGES, bytes(text), (size_t)(to - text), sizes[at]));
    to += sprintf(to, "x: ");
    memset(to, 'y', LONG);
    to += LONG;
    for (at = 1; at < sizeof sizes / sizeof *sizes; at++)
        IS(reads_alike(DEB_ANY, bytes(text), (size_t)(to - text), sizes[at]));
    free(text);
}

/* A paragraph of as many bytes as one may have is read, and one of a byte more is refused. */
static void try_longest(size_t more) {
    enum { LONGEST = 1 << 24, PIECE = 1 << 20 };
    struct deb_reader *reader = malloc(deb_reader_size());
    uint8_t *text = malloc(LONGEST + more);
    struct deb_answer answer;
    size_t at;
    memset(text, 'x', LONGEST + more);
    memcpy(text, "a: ", 3);
    text[LONGEST + more - 1] = '\n';
    deb_reader_start(reader, DEB_ANY, &answer);
    for (at = 0; at < LONGEST; at += PIECE)
        deb_reader_feed(reader, text + at, PIECE, 0, &answer);
    deb_reader_feed(reader, text + at, more, 0, &answer);
    answer = feed_text(reader, "\nb: 2\n\nc", 0);
    IS(more ? is(answer, DEB_REFUSED, DEB_PARAGRAPH_TOO_LONG, 1, 0) : is(answer, DEB_YES, 0, 0, 2));
    answer = feed_text(reader, ": 3\n", 1);
    IS(more ? is(answer, DEB_REFUSED, DEB_PARAGRAPH_TOO_LONG, 1, 0) : is(answer, DEB_YES, 0, 0, 3));
    deb_reader_free(reader);
    free(reader);
    free(text);
}

/* The answer of deb_check on all of a text, and that of a reader that is fed it in pieces. */
static int answers_alike(uint8_t kind, const uint8_t *text, size_t length, size_t size) {
    struct deb_reader *reader = malloc(deb_reader_size());
    struct deb_answer fed, checked = deb_check(kind, text, length);
    size_t at;
    deb_reader_start(reader, kind, &fed);
    for (at = 0; at < length; at += size)
        deb_reader_feed(reader, text + at, length - at < size ? length - at : size, 0, &fed);
    deb_reader_feed(reader, NULL, 0, 1, &fed);
    deb_reader_free(reader);
    free(reader);
    return fed.status == checked.status && fed.code == checked.code && fed.line == checked.line &&
           fed.count == checked.count;
}

/* A line of about as many bytes as a paragraph may have, after some text and before another. */
static void try_long_line(uint8_t kind, const char *front, char byte, size_t length,
                          const char *rest, size_t size) {
    size_t before = strlen(front), after = strlen(rest), whole = before + length + after;
    uint8_t *text = malloc(whole);
    memcpy(text, front, before);
    memset(text + before, byte, length);
    memcpy(text + before + length, rest, after);
    IS(answers_alike(kind, text, whole, size));
    free(text);
}

/* Each text with each length; kinds, bytes of the line and pieces in turn. `pairs` leaves out what
 * has the rest of another one: each two of front, length and rest are still tried together. */
static void try_long_lines(int pairs) {
    enum { LONGEST = 1 << 24, PIECE = 1 << 20 };
    static const char *fronts[] = {"", "a: 1\n", "a: 1\n\n", "x\n", "x\n\n"};
    static const char *rests[] = {"", "\n", "\n\nx\n"};
    static const size_t sizes[] = {PIECE, PIECE + 1, 3 * PIECE - 1, LONGEST - 1};
    size_t front, more, rest, turn = 0;
    for (front = 0; front < sizeof fronts / sizeof *fronts; front++)
        for (more = 0; more < 4; more++)
            for (rest = 0; rest < sizeof rests / sizeof *rests; rest++, turn++)
                if (!pairs || rest == (front + more) % 3)
                    try_long_line((uint8_t)(turn % 2 ? DEB_ANY : DEB_BINARY + turn / 2 % 4),
                                  fronts[front], "a #"[turn / 3 % 3],
                                  (more < 3 ? LONGEST - 1 : LONGEST + LONGEST / 4) + more,
                                  rests[rest], sizes[turn % 4]);
}

/* With an argument, as under memcheck, it tries fewer long lines. */
int main(int count, char **words) {
    (void)words;
    try_pieces();
    try_steps();
    try_errors();
    try_room();
    try_long();
    try_longest(0);
    try_longest(1);
    try_long_lines(count > 1);
    return counted("reader");
}
