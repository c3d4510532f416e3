/* A target of libFuzzer for each exported function of the library, which `tests/fuzzing/run` builds.
 *
 * An input is three bytes that choose (what is called, the kind, a number), and texts with a byte 0
 * between two of them. Laws that need no second program decide: what one call answers agrees with
 * others, canonical texts are their own, each text has its rows, and an answer doesn't depend on the
 * room that a buffer has.
 *
 * Each text and buffer ends at a page that can't be touched, and so does all memory that the library
 * takes; memory that it frees is overwritten, and none may be left. A growth fails if the number says
 * so: then the answer is out of memory, or the same as without.
 *
 * The library isn't instrumented. Instead, `run` lists where its basic blocks begin, and there is a
 * breakpoint at each, which counts the first visit and is removed. */
#define _GNU_SOURCE
#include <fcntl.h>
#include <signal.h>
#include <stdio.h>
#include <string.h>
#include <sys/mman.h>
#include <ucontext.h>
#include <unistd.h>

#include "debctl.h"

#define REQUIRE(fact)                                                                              \
    do {                                                                                           \
        if (!(fact)) {                                                                             \
            fprintf(stderr, "%s:%d: %s: %s\n", __FILE__, __LINE__, __func__, #fact);               \
            abort();                                                                               \
        }                                                                                          \
    } while (0)

/* Memory. */

enum { PAGE = 4096, SLOT = 1 << 18, SLOTS = 512, MOST_BLOCKS = 1 << 15 };

static uint8_t *slots;
static size_t lengths[SLOTS];
static size_t live, growths, failing; /* `failing`: the number of the growth that fails, from 1 */

static void *slot_of(size_t length) {
    size_t used = (length + 15) / 16 * 16;
    REQUIRE(used <= SLOT);
    for (size_t i = 0; i < SLOTS; i++)
        if (!lengths[i]) {
            uint8_t *end = slots + (i + 1) * (SLOT + PAGE) - PAGE;
            lengths[i] = used ? used : 16;
            memset(end - used, 0xA5, used - length);
            return end - lengths[i];
        }
    REQUIRE(!"a slot is free");
    return NULL;
}

static size_t slot_at(const void *it) {
    size_t i = ((const uint8_t *)it - slots) / (SLOT + PAGE);
    REQUIRE(i < SLOTS && lengths[i] && (const uint8_t *)it == slots + (i + 1) * (SLOT + PAGE) - PAGE - lengths[i]);
    return i;
}

void library_free(void *it) {
    if (it) {
        size_t i = slot_at(it);
        memset(it, 0xDD, lengths[i]);
        lengths[i] = 0;
        live--;
    }
}

void *library_malloc(size_t length) {
    if (++growths == failing)
        return NULL;
    live++;
    return slot_of(length);
}

void *library_realloc(void *it, size_t length) {
    uint8_t *found = library_malloc(length);
    if (it && found) {
        size_t old = lengths[slot_at(it)];
        memcpy(found, it, old < length ? old : length);
        library_free(it);
    }
    return found;
}

/* A text or a buffer that ends at its guard page, a byte less or more being wrong. */
static uint8_t *rooms[8];

static uint8_t *room_of(int number, size_t length) {
    REQUIRE(length <= (size_t)SLOT * 16);
    uint8_t *begin = rooms[number] + (size_t)SLOT * 16 - length;
    memset(begin, 0xA5, length);
    return begin;
}

static int is_untouched(const uint8_t *begin, size_t length) {
    for (size_t i = 0; i < length; i++)
        if (begin[i] != 0xA5)
            return 0;
    return 1;
}

/* Basic blocks. */

__attribute__((section("__libfuzzer_extra_counters"))) static uint8_t counters[MOST_BLOCKS];
static struct { uintptr_t at; uint8_t byte, hit; } blocks[MOST_BLOCKS];
static size_t block_count;

static void visit(int number, siginfo_t *info, void *context) {
    greg_t *at = &((ucontext_t *)context)->uc_mcontext.gregs[REG_RIP];
    size_t low = 0, high = block_count;
    (void)number, (void)info;
    --*at;
    while (low + 1 < high) {
        size_t middle = (low + high) / 2;
        *(blocks[middle].at <= (uintptr_t)*at ? &low : &high) = middle;
    }
    if (blocks[low].at != (uintptr_t)*at)
        abort();
    *(uint8_t *)blocks[low].at = blocks[low].byte;
    counters[low] = blocks[low].hit = 1;
}

static void report(void) {
    size_t hit = 0;
    const char *name = getenv("FUZZING_MISSED");
    FILE *file = name ? fopen(name, "w") : NULL;
    for (size_t i = 0; i < block_count; i++) {
        hit += blocks[i].hit;
        if (file && !blocks[i].hit)
            fprintf(file, "%lx\n", (unsigned long)blocks[i].at);
    }
    if (file)
        fclose(file);
    fprintf(stderr, "basic blocks of the library: %zu of %zu visited\n", hit, block_count);
}

static void set_breakpoints(void) {
    char name[4096];
    ssize_t length = readlink("/proc/self/exe", name, sizeof name - 8);
    REQUIRE(length > 0);
    strcpy(name + length, ".blocks");
    FILE *file = fopen(name, "r");
    unsigned long at;
    REQUIRE(file);
    while (fscanf(file, "%lx", &at) == 1) {
        REQUIRE(block_count < MOST_BLOCKS);
        blocks[block_count++].at = at;
    }
    fclose(file);
    REQUIRE(block_count);
    uintptr_t first = blocks[0].at / PAGE * PAGE, last = blocks[block_count - 1].at + 1;
    REQUIRE(!mprotect((void *)first, last - first, PROT_READ | PROT_WRITE | PROT_EXEC));
    struct sigaction action = {.sa_sigaction = visit, .sa_flags = SA_SIGINFO | SA_NODEFER};
    sigaction(SIGTRAP, &action, NULL);
    for (size_t i = 0; i < block_count; i++) {
        blocks[i].byte = *(uint8_t *)blocks[i].at;
        *(uint8_t *)blocks[i].at = 0xCC;
    }
    atexit(report);
}

int LLVMFuzzerInitialize(int *count, char ***words) {
    (void)count, (void)words;
    size_t whole = (size_t)SLOTS * (SLOT + PAGE);
    slots = mmap(NULL, whole, PROT_READ | PROT_WRITE, MAP_PRIVATE | MAP_ANONYMOUS | MAP_NORESERVE, -1, 0);
    REQUIRE(slots != MAP_FAILED);
    for (size_t i = 0; i < SLOTS; i++)
        REQUIRE(!mprotect(slots + (i + 1) * (SLOT + PAGE) - PAGE, PAGE, PROT_NONE));
    for (size_t i = 0; i < sizeof rooms / sizeof *rooms; i++) {
        size_t room = (size_t)SLOT * 16;
        rooms[i] = mmap(NULL, room + PAGE, PROT_READ | PROT_WRITE, MAP_PRIVATE | MAP_ANONYMOUS | MAP_NORESERVE, -1, 0);
        REQUIRE(rooms[i] != MAP_FAILED && !mprotect(rooms[i] + room, PAGE, PROT_NONE));
    }
    set_breakpoints();
    return 0;
}

/* Answers. */

static uint8_t chosen; /* the number in the input */

static int is_same(struct deb_answer one, struct deb_answer other) {
    return one.status == other.status && one.code == other.code && one.line == other.line && one.count == other.count;
}

/* Whether one answer is another one's, but for the count, which some calls don't return. */
static int agrees(struct deb_answer one, struct deb_answer other) {
    return one.status == other.status && one.code == other.code && one.line == other.line;
}

struct written {
    struct deb_answer answer;
    const uint8_t *text;
    size_t length;
};

/* Sets `it` to what a call writes into room `number`; CALL has `out`, `room` and `length`. It is called
 * without room, with exactly as much as it needs, with a unit less, and with a growth that fails. */
#define WRITE(it, number, unit, CALL)                                                              \
    do {                                                                                           \
        uint8_t *out = NULL;                                                                       \
        size_t room = 0, unlike = 0, *length = &unlike;                                            \
        struct deb_answer first = CALL;                                                            \
        room = first.status == DEB_NO_ROOM ? unlike : 0;                                           \
        REQUIRE(first.status != DEB_NO_MEMORY && (room || first.status != DEB_NO_ROOM));           \
        out = room_of(number, room * (unit));                                                      \
        (it).length = 0, length = &(it).length;                                                    \
        (it).answer = CALL;                                                                        \
        (it).text = out;                                                                           \
        if (first.status == DEB_NO_ROOM) {                                                         \
            REQUIRE((it).answer.status != DEB_NO_ROOM && (it).length == room);                     \
            room--, length = &unlike;                                                              \
            out = room_of(7, room * (unit));                                                       \
            REQUIRE(is_same(CALL, first) && unlike == room + 1);                                   \
            REQUIRE(is_untouched(out, room * (unit)));                                             \
            room++;                                                                                \
        } else                                                                                     \
            REQUIRE(is_same((it).answer, first) && ((it).length == 0 || (it).answer.status > 1));  \
        if (chosen & 64) {                                                                         \
            out = room_of(7, room * (unit)), length = &unlike;                                     \
            growths = 0, failing = 1 + (chosen & 63);                                              \
            struct deb_answer last = CALL;                                                         \
            failing = 0;                                                                           \
            REQUIRE(last.status == DEB_NO_MEMORY || is_same(last, (it).answer));                   \
        }                                                                                          \
    } while (0)

static void try_rows(uint8_t form, struct written it, uint8_t status) {
    struct written rows;
    WRITE(rows, 6, sizeof(struct deb_row), deb_rows(form, it.text, it.length, (struct deb_row *)out, room, length));
    REQUIRE(rows.answer.status == status || (status == DEB_NO && rows.answer.status == DEB_YES));
    size_t lines = 0, at = 0;
    for (size_t i = 0; i < it.length; i++)
        lines += it.text[i] == '\n';
    if (rows.answer.status == DEB_YES)
        REQUIRE(rows.length == lines && (!it.length || it.text[it.length - 1] == '\n'));
    else
        REQUIRE(rows.length == 0);
    for (size_t i = 0; i < rows.length; i++) {
        const struct deb_row *row = (const struct deb_row *)rows.text + i;
        REQUIRE(row->kind <= DEB_ROW_LEFT_OUT && row->cell_count <= 10);
        for (int cell = 0; cell < 10; cell++)
            if (cell < row->cell_count) {
                REQUIRE(row->cells[cell].start >= at && row->cells[cell].length <= it.length);
                REQUIRE(row->cells[cell].start <= it.length - row->cells[cell].length);
                at = row->cells[cell].start + row->cells[cell].length;
            } else
                REQUIRE(!row->cells[cell].start && !row->cells[cell].length);
    }
}

/* What is tried. */

static void try_versions(struct deb_text one, struct deb_text two) {
    struct written text[2], key[2], again, why;
    struct deb_text both[] = {one, two};
    for (int i = 0; i < 2; i++) {
        WRITE(text[i], i, 1, deb_version_canonical(both[i].bytes, both[i].length, out, room, length));
        WRITE(key[i], 2 + i, 1, deb_version_key(both[i].bytes, both[i].length, out, room, length));
        WRITE(why, 4, 1, deb_explain_version(both[i].bytes, both[i].length, out, room, length));
        try_rows(DEB_EXPLANATION, why, DEB_YES);
        struct deb_version_parts parts = deb_version_parts(both[i].bytes, both[i].length);
        REQUIRE(agrees(text[i].answer, key[i].answer) && agrees(text[i].answer, why.answer));
        REQUIRE(parts.status == text[i].answer.status && parts.code == text[i].answer.code);
        if (parts.status == DEB_YES) {
            size_t whole = parts.upstream_length;
            REQUIRE(parts.has_epoch == (parts.upstream > 0) && parts.upstream == parts.epoch_length + parts.has_epoch);
            whole += parts.upstream + (parts.has_revision ? parts.revision_length + 1 : 0);
            REQUIRE(whole == both[i].length && text[i].length <= 2 * both[i].length);
            REQUIRE(key[i].length <= 2 * both[i].length + 8);
            WRITE(again, 4, 1, deb_version_canonical(text[i].text, text[i].length, out, room, length));
            REQUIRE(again.length == text[i].length && !memcmp(again.text, text[i].text, again.length));
        }
    }
    struct deb_comparison order = deb_version_compare(one.bytes, one.length, two.bytes, two.length);
    struct deb_comparison other = deb_version_compare(two.bytes, two.length, one.bytes, one.length);
    if (text[0].answer.status || text[1].answer.status) {
        REQUIRE(order.status == (text[0].answer.status ? DEB_REFUSED : DEB_SECOND_REFUSED));
        return;
    }
    size_t least = key[0].length < key[1].length ? key[0].length : key[1].length;
    int keys = memcmp(key[0].text, key[1].text, least);
    REQUIRE(!order.status && !other.status && (order.order > 0) == (other.order < 0));
    REQUIRE((order.order > 0) == (keys > 0) && (order.order < 0) == (keys < 0));
    REQUIRE(keys || key[0].length == key[1].length);
    REQUIRE(!keys == (text[0].length == text[1].length && !memcmp(text[0].text, text[1].text, text[0].length)));
}

static void try_relation(struct deb_text it) {
    struct written text, again, why, parts;
    WRITE(text, 0, 1, deb_relation_canonical(it.bytes, it.length, out, room, length));
    WRITE(why, 1, 1, deb_explain_relation(it.bytes, it.length, out, room, length));
    WRITE(parts, 2, sizeof(struct deb_alternative),
          deb_relation_parts(it.bytes, it.length, (struct deb_alternative *)out, room, length));
    REQUIRE(agrees(text.answer, why.answer) && agrees(text.answer, parts.answer));
    try_rows(DEB_EXPLANATION, why, DEB_YES);
    if (text.answer.status != DEB_YES)
        return;
    for (size_t i = 0; i < parts.length; i++) {
        const struct deb_alternative *part = (const struct deb_alternative *)parts.text + i;
        REQUIRE(part->name_length && part->name < it.length && part->name_length <= it.length - part->name);
        REQUIRE(part->version <= it.length && part->version_length <= it.length - part->version);
        REQUIRE(part->formula <= it.length && part->formula_length <= it.length - part->formula);
        REQUIRE(!part->op_length == !part->version_length);
        if (part->version_length)
            REQUIRE(!deb_version_parts(it.bytes + part->version, part->version_length).status);
    }
    WRITE(again, 3, 1, deb_relation_canonical(text.text, text.length, out, room, length));
    REQUIRE(again.answer.status == DEB_YES && again.length == text.length);
    REQUIRE(!again.length || !memcmp(again.text, text.text, text.length));
}

/* The number of fields, and the answer, of a file that a reader is fed in pieces. */
static struct deb_answer feed(uint8_t kind, struct deb_text it, size_t piece, size_t *fields) {
    struct deb_answer answer;
    struct deb_reader *reader = (struct deb_reader *)(room_of(5, (deb_reader_size() + 15) / 16 * 16));
    deb_reader_start(reader, kind, &answer);
    *fields = 0;
    for (size_t at = 0; at <= it.length; at += piece) {
        size_t length = it.length - at < piece ? it.length - at : piece;
        size_t count = 0, names = 0, values = 0;
        deb_reader_feed(reader, it.bytes + at, length, it.length - at < piece, &answer);
        struct deb_answer found = deb_reader_fields(reader, NULL, 0, &count, NULL, 0, &names, NULL, 0, &values);
        REQUIRE(found.status == (count ? DEB_NO_ROOM : DEB_YES));
        *fields += count;
    }
    deb_reader_free(reader);
    return answer;
}

static void try_fields(uint8_t kind, struct deb_text it, struct deb_answer answer) {
    size_t count = 0, names = 0, values = 0, fed;
    struct deb_answer found = deb_fields(kind, it.bytes, it.length, NULL, 0, &count, NULL, 0, &names, NULL, 0, &values);
    REQUIRE(count ? found.status == DEB_NO_ROOM : agrees(found, answer));
    struct deb_field *fields = (struct deb_field *)room_of(1, count * sizeof *fields);
    uint8_t *name = room_of(2, names), *value = room_of(3, values);
    size_t counted = count;
    found = deb_fields(kind, it.bytes, it.length, fields, count, &count, name, names, &names, value, values, &values);
    REQUIRE(agrees(found, answer) && counted == count);
    for (size_t i = 0; i < count; i++) {
        REQUIRE(fields[i].name + (size_t)fields[i].name_length < names && !name[fields[i].name + fields[i].name_length]);
        REQUIRE(fields[i].value + (size_t)fields[i].value_length < values);
        REQUIRE(!value[fields[i].value + fields[i].value_length] && fields[i].line && fields[i].paragraph);
        REQUIRE(!i || (fields[i].line > fields[i - 1].line && fields[i].paragraph >= fields[i - 1].paragraph));
    }
    struct deb_answer last = feed(kind, it, it.length > 4096 ? 1000 : 1 + chosen % 64, &fed);
    REQUIRE(agrees(last, answer) && fed == count && (last.status || last.count == answer.count));
}

static void try_file(uint8_t kind, struct deb_text it) {
    struct written text, again, why, all, refusals;
    struct deb_answer answer = deb_check(kind, it.bytes, it.length);
    WRITE(text, 1, 1, deb_normalise(kind, it.bytes, it.length, out, room, length));
    WRITE(why, 2, 1, deb_explain(kind, it.bytes, it.length, out, room, length));
    WRITE(all, 3, 1, deb_explain_all(kind, it.bytes, it.length, out, room, length));
    WRITE(refusals, 4, sizeof(struct deb_refusal),
          deb_check_all(kind, it.bytes, it.length, (struct deb_refusal *)out, room, length));
    REQUIRE(agrees(answer, text.answer) && agrees(answer, why.answer));
    REQUIRE(agrees(answer, refusals.answer) && is_same(all.answer, refusals.answer));
    if (answer.status == DEB_NO_KIND)
        return;
    try_rows(DEB_EXPLANATION, why, DEB_YES);
    try_rows(DEB_EXPLANATION, all, DEB_YES);
    REQUIRE((answer.status == DEB_REFUSED) == (refusals.length > 0));
    const struct deb_refusal *first = (const struct deb_refusal *)refusals.text;
    REQUIRE(!refusals.length || (first->line == answer.line && first->code == answer.code));
    for (size_t i = 1; i < refusals.length; i++)
        REQUIRE(first[i].line > first[i - 1].line);
    if (answer.status == DEB_YES) {
        WRITE(again, 5, 1, deb_normalise(kind, text.text, text.length, out, room, length));
        REQUIRE(is_same(again.answer, text.answer) && again.length == text.length);
        REQUIRE(!text.length || !memcmp(again.text, text.text, text.length));
        REQUIRE(deb_same(kind, it.bytes, it.length, text.text, text.length).status == DEB_YES);
    }
    try_fields(kind, it, answer);
}

static void try_pair(uint8_t kind, struct deb_text one, struct deb_text two) {
    struct written lines, back, own, text[2];
    struct deb_text both[] = {one, two};
    struct deb_answer same = deb_same(kind, one.bytes, one.length, two.bytes, two.length);
    WRITE(lines, 1, 1, deb_diff(kind, chosen & 1, one.bytes, one.length, two.bytes, two.length, out, room, length));
    WRITE(back, 2, 1, deb_diff(kind, chosen & 1, two.bytes, two.length, one.bytes, one.length, out, room, length));
    WRITE(own, 3, 1, deb_diff(kind, chosen & 1, one.bytes, one.length, one.bytes, one.length, out, room, length));
    for (int i = 0; i < 2; i++)
        WRITE(text[i], 4 + i, 1, deb_normalise(kind, both[i].bytes, both[i].length, out, room, length));
    if (same.status > DEB_NO) {
        REQUIRE(kind == DEB_ANY || agrees(lines.answer, same));
        return;
    }
    int is_equal = text[0].length == text[1].length && (!text[0].length || !memcmp(text[0].text, text[1].text, text[0].length));
    REQUIRE(is_equal == (same.status == DEB_YES));
    if (kind == DEB_ANY)
        return;
    REQUIRE(lines.answer.status <= DEB_NO && lines.answer.status == back.answer.status);
    REQUIRE((lines.length > 0) == lines.answer.status && own.answer.status == DEB_YES && own.length == 0);
    REQUIRE(same.status == DEB_NO || lines.answer.status == DEB_YES);
    try_rows(DEB_DIFF_LINES, lines, DEB_YES);
}

/* Whether the lines that don't begin with a space are these. */
static int has_heads(struct written why, struct written heads) {
    const uint8_t *at = why.text, *end = at + why.length, *next;
    size_t seen = 0;
    for (; at < end; at = next) {
        next = (const uint8_t *)memchr(at, '\n', end - at) + 1;
        if (*at == ' ')
            continue;
        if ((size_t)(next - at) > heads.length - seen || memcmp(at, heads.text + seen, next - at))
            return 0;
        seen += next - at;
    }
    return seen == heads.length;
}

/* The set of a file: an index of its packages is asked about the same ones, a status file of some. */
static void try_set(uint8_t kind, struct deb_text text, struct deb_text target) {
    struct written lines, those, why;
    struct deb_answer checked = deb_check(kind, text.bytes, text.length);
    WRITE(those, 2, 1, deb_installable(kind, chosen >> 7, 0, 0, chosen % 3, target.bytes, target.length, NULL, 0, text.bytes, text.length, out, room, length));
    WRITE(lines, 1, 1, deb_healthy(kind, chosen >> 7, target.bytes, target.length, text.bytes, text.length, out, room, length));
    WRITE(why, 3, 1, deb_installable(kind, chosen >> 7, 0, 1, chosen % 3, target.bytes, target.length, NULL, 0, text.bytes, text.length, out, room, length));
    int has_set = kind == DEB_PACKAGES || kind == DEB_STATUS;
    REQUIRE((lines.answer.status == DEB_NO_KIND) == !has_set);
    REQUIRE(is_same(why.answer, those.answer) && has_heads(why, those));
    int is_either = lines.answer.status <= DEB_NO && (those.answer.status == DEB_YES || (chosen % 3 && those.answer.status == DEB_NO));
    REQUIRE(is_either || agrees(lines.answer, those.answer));
    if (lines.answer.status <= DEB_NO) {
        REQUIRE(checked.status == DEB_YES && lines.answer.status == (lines.length > 0));
        REQUIRE(kind == DEB_PACKAGES ? lines.answer.count == checked.count : lines.answer.count <= checked.count);
        REQUIRE(those.answer.count == lines.answer.count && those.answer.status == (those.length > 0));
        try_rows(DEB_HEALTH_LINES, lines, DEB_YES);
        try_rows(DEB_INSTALLABLE_LINES, those, DEB_YES);
        try_rows(DEB_INSTALLABLE_LINES, why, DEB_YES);
    } else if (has_set)
        REQUIRE(lines.answer.code == DEB_BAD_ENVIRONMENT || agrees(lines.answer, checked));
}

/* A set with a package of an index: it has such a package, and no wildcard decides whether it is healthy. */
static void try_witness(struct deb_text name, struct deb_text text, struct deb_text target) {
    struct written set, all;
    WRITE(set, 4, 1, deb_witness(DEB_PACKAGES, chosen >> 7, 0, 0, chosen % 3, target.bytes, target.length, name.bytes, name.length, NULL, 0, text.bytes, text.length, out, room, length));
    WRITE(all, 5, 1, deb_installable(DEB_PACKAGES, chosen >> 7, 0, 0, 0, target.bytes, target.length, NULL, 0, text.bytes, text.length, out, room, length));
    if (set.answer.status > DEB_NO) {
        REQUIRE(agrees(set.answer, all.answer));
        return;
    }
    REQUIRE(set.length && set.answer.count == all.answer.count);
    REQUIRE(set.answer.status == DEB_YES || all.answer.status == DEB_NO || chosen % 3);
    try_rows(set.answer.status == DEB_YES ? DEB_REPORT : DEB_INSTALLABLE_LINES, set, DEB_YES);
    size_t lines = 0, with_name = 0;
    for (const uint8_t *at = set.text, *end = at + set.length; at < end; at = (const uint8_t *)memchr(at, '\n', end - at) + 1) {
        const uint8_t *word = memchr(at, ' ', end - at);
        word = (const uint8_t *)memchr(word + 1, ' ', end - word - 1) + 1;
        lines++;
        with_name += (size_t)(end - word) > name.length && !memcmp(word, name.bytes, name.length) && word[name.length] == ' ';
    }
    REQUIRE(with_name && (set.answer.status == DEB_YES || with_name == lines));
}

static void try_index(uint8_t kind, struct deb_text relation, struct deb_text text, struct deb_text target) {
    struct deb_answer answer;
    struct written one, two, numbers, package;
    struct deb_index *index = (struct deb_index *)room_of(0, (deb_index_size() + 15) / 16 * 16);
    struct deb_text profiles[] = {{(const uint8_t *)"nocheck", 7}, {relation.bytes, relation.length < 5 ? relation.length : 5}};
    size_t count = chosen % 3, held;
    deb_index_read(index, text.bytes, text.length, &answer);
    held = answer.status == DEB_YES ? (size_t)answer.count : 0;
    struct deb_answer checked = deb_check(DEB_PACKAGES, text.bytes, text.length);
    REQUIRE(is_same(answer, checked));
#define ASK target.bytes, target.length, profiles, count
    WRITE(one, 1, 1, deb_query(ASK, relation.bytes, relation.length, text.bytes, text.length, out, room, length));
    WRITE(two, 2, 1, deb_index_query(index, ASK, relation.bytes, relation.length, out, room, length));
    int is_held = answer.status == DEB_YES;
    REQUIRE(is_held ? is_same(one.answer, two.answer) && one.length == two.length : two.answer.status == DEB_NO_INDEX);
    if (is_held) {
        REQUIRE(!one.length || !memcmp(one.text, two.text, one.length));
        if (one.answer.status <= DEB_NO)
            try_rows(DEB_REPORT, one, DEB_YES);
    }
    WRITE(one, 1, 1, deb_query_why(ASK, relation.bytes, relation.length, text.bytes, text.length, out, room, length));
    WRITE(two, 2, 1, deb_index_query_why(index, ASK, relation.bytes, relation.length, out, room, length));
    REQUIRE(is_held ? is_same(one.answer, two.answer) && one.length == two.length : two.answer.status == DEB_NO_INDEX);
    if (is_held && one.answer.status <= DEB_NO)
        try_rows(DEB_REPORT, one, DEB_YES);
    WRITE(one, 1, 1, deb_unmet(kind, chosen >> 7, ASK, text.bytes, text.length, relation.bytes, relation.length, out, room, length));
    WRITE(two, 2, 1, deb_index_unmet(index, kind, chosen >> 7, ASK, relation.bytes, relation.length, out, room, length));
    REQUIRE(!is_held || (agrees(one.answer, two.answer) && one.length == two.length));
    if (one.answer.status <= DEB_NO)
        try_rows(DEB_UNMET_LINES, one, DEB_YES);
    WRITE(two, 2, 1, deb_buildable(kind, 0, 0, chosen % 3, ASK, NULL, 0, text.bytes, text.length, relation.bytes, relation.length, out, room, length));
    REQUIRE((two.answer.status == DEB_NO_KIND) == (kind != DEB_SOURCE && kind != DEB_SOURCES));
    if (two.answer.status != DEB_NO_KIND) {
        WRITE(one, 1, 1, deb_unmet(kind, 0, ASK, text.bytes, text.length, relation.bytes, relation.length, out, room, length));
        REQUIRE(two.answer.status > DEB_NO ? agrees(one.answer, two.answer) : one.answer.status <= two.answer.status);
        if (two.answer.status <= DEB_NO) {
            REQUIRE(two.answer.count == one.answer.count && two.answer.status == (two.length > 0));
            try_rows(DEB_INSTALLABLE_LINES, two, DEB_YES);
        }
    }
    WRITE(one, 1, 1, deb_unmet(DEB_PACKAGES, chosen >> 7, ASK, text.bytes, text.length, text.bytes, text.length, out, room, length));
    if (one.answer.status <= DEB_NO)
        try_rows(DEB_UNMET_LINES, one, DEB_YES);
    if (one.answer.status <= DEB_NO) {
        WRITE(two, 2, 1, deb_healthy(DEB_PACKAGES, chosen >> 7, target.bytes, target.length, text.bytes, text.length, out, room, length));
        REQUIRE(two.answer.status <= DEB_NO && two.answer.count == one.answer.count && two.length >= (count ? 0 : one.length));
        try_rows(DEB_HEALTH_LINES, two, DEB_YES);
    }
    try_set(kind, text, target);
    for (uint64_t number = 0; number <= held + 1 && number < 8; number++) {
        WRITE(package, 3, 1, deb_index_package(index, number, out, room, length));
        WRITE(two, 2, 1, deb_index_details(index, number, out, room, length));
        int is_there = number && number <= held;
        REQUIRE(package.answer.status == (!is_held ? DEB_NO_INDEX : is_there ? DEB_YES : DEB_NO));
        REQUIRE(two.answer.status == package.answer.status && !is_there == !two.answer.line);
        if (!is_there)
            continue;
        struct written again;
        WRITE(again, 4, 1, deb_normalise(DEB_PACKAGES, two.text, two.length, out, room, length));
        REQUIRE(!again.answer.status && again.length == two.length && !memcmp(again.text, two.text, two.length));
        const uint8_t *end = memchr(package.text, ' ', package.length);
        REQUIRE(end);
        WRITE(numbers, 4, 8, deb_index_packages(index, package.text, end - package.text, (uint64_t *)out, room, length));
        REQUIRE(numbers.answer.status == DEB_YES && numbers.length);
        int found = 0;
        for (size_t i = 0; i < numbers.length; i++) {
            uint64_t at = ((const uint64_t *)numbers.text)[i];
            REQUIRE(at && at <= held && (!i || at > ((const uint64_t *)numbers.text)[i - 1]));
            found |= at == number;
        }
        REQUIRE(found);
        if (number == 1 + chosen % 7)
            try_witness((struct deb_text){package.text, end - package.text}, text, target);
    }
    WRITE(numbers, 4, 8, deb_index_providers(index, relation.bytes, relation.length, (uint64_t *)out, room, length));
    REQUIRE(numbers.answer.status == (is_held ? DEB_YES : DEB_NO_INDEX));
    deb_index_free(index);
}

int LLVMFuzzerTestOneInput(const uint8_t *data, size_t size) {
    struct deb_text texts[3] = {{0}};
    if (size < 3 || size > 1 << 15)
        return 0;
    uint8_t what = data[0] % 7, kind = data[1] % 7;
    const uint8_t *at = data + 3, *end = data + size;
    chosen = data[2];
    /* The texts themselves end at a guard page each. */
    static uint8_t *copies[3];
    for (int i = 0; i < 3; i++) {
        if (!copies[i]) {
            copies[i] = mmap(NULL, (1 << 15) + PAGE, PROT_READ | PROT_WRITE, MAP_PRIVATE | MAP_ANONYMOUS, -1, 0);
            REQUIRE(copies[i] != MAP_FAILED && !mprotect(copies[i] + (1 << 15), PAGE, PROT_NONE));
        }
        const uint8_t *zero = i < 2 && at < end ? memchr(at, 0, end - at) : NULL;
        texts[i].length = (zero ? zero : end) - at;
        texts[i].bytes = copies[i] + (1 << 15) - texts[i].length;
        memcpy((uint8_t *)texts[i].bytes, at, texts[i].length);
        at = zero ? zero + 1 : end;
    }
    REQUIRE(deb_library_version() == DEB_VERSION_NUMBER);
    switch (what) {
    case 0: try_versions(texts[0], texts[1]); break;
    case 1: try_relation(texts[0]); break;
    case 2: case 3: try_file(kind, texts[0]); break;
    case 4: try_pair(kind, texts[0], texts[1]); break;
    case 5: try_index(kind, texts[0], texts[1], texts[2]); break;
    default: try_rows(kind % 5, (struct written){.text = texts[0].bytes, .length = texts[0].length}, DEB_NO); break;
    }
    REQUIRE(live == 0);
    return 0;
}
