/* The rows of the texts that the library writes: each kind, each status, and each amount of room.
 */
#include "printed.h"
#include "tried.h"

struct lined {
    uint8_t form;
    const char *text;
    size_t count;
    uint8_t kinds[8];
    const char *cells; /* of all rows, with `/` after each */
};

static const struct lined all[] = {
    {DEB_REPORT, "", 0, {0}, ""},
    {DEB_REPORT,
     "met aa (>= 1) | bb\n 12 aa 1:2-3 amd64\n",
     2,
     {DEB_ROW_MET, DEB_ROW_PACKAGE},
     "aa (>= 1) | bb/12/aa/1:2-3/amd64/"},
    {DEB_REPORT,
     "unmet aa (>= 3) | bb\n aa (>= 3): 1 cc 1 all is earlier\n bb: no package has this name\n"
     "ignored dd <!nocheck>\n dd <!nocheck>: profile nocheck is active\nmet \n",
     6,
     {DEB_ROW_UNMET, DEB_ROW_PACKAGE_REASON, DEB_ROW_REASON, DEB_ROW_IGNORED, DEB_ROW_REASON,
      DEB_ROW_MET},
     "aa (>= 3) | bb/aa (>= 3)/1/cc/1/all/is earlier/bb/no package has this name/"
     "dd <!nocheck>/dd <!nocheck>/profile nocheck is active//"},
    {DEB_UNMET_LINES,
     "unmet 1 aa 1 amd64 Depends bb | cc\nunsure 2 ss 2 source Build-Depends x [y]\n",
     2,
     {DEB_ROW_UNMET_GROUP, DEB_ROW_UNSURE_GROUP},
     "1/aa/1/amd64/Depends/bb | cc/2/ss/2/source/Build-Depends/x [y]/"},
    {DEB_DIFF_LINES,
     "removed 1 aa 1 all\n -Package: aa\n -x\nchanged 2 bb 1 all Depends Size\n +Size: 1\n"
     "upgraded 3 cc 1 2 all Version\ndowngraded 5 ee 2 1~ all Version X\nadded 4 dd 1 all\n",
     8,
     {DEB_ROW_REMOVED, DEB_ROW_OLD_LINE, DEB_ROW_OLD_LINE, DEB_ROW_CHANGED, DEB_ROW_NEW_LINE,
      DEB_ROW_UPGRADED, DEB_ROW_DOWNGRADED, DEB_ROW_ADDED},
     "1/aa/1/all/Package: aa/x/2/bb/1/all/Depends Size/Size: 1/3/cc/1/2/all/Version/"
     "5/ee/2/1~/all/Version X/4/dd/1/all/"},
    {DEB_EXPLANATION,
     "line: 2\nvalue: a: b\n\nok 1, 2 refused\n",
     4,
     {DEB_ROW_KEY, DEB_ROW_KEY, DEB_ROW_END, DEB_ROW_SUMMARY},
     "line/2/value/a: b/1/2/"},
    {DEB_HEALTH_LINES,
     "unmet 1 aa 1 amd64 Depends bb | by (>= 1) [by x]\nunsure 1 aa 1 amd64 Depends x [any] | by\n"
     "conflict 1 aa 1 amd64 Conflicts mm by 2 by 2 all\n"
     "unsure 2 by 2 all Breaks by (<< 2) [3 by linux-any] by 1 aa 1 amd64\n"
     "duplicate 1 aa 1 amd64 with 3 1.1 amd64\nconflict 4 dd 1 all Breaks by by 5 by 6 all\n"
     "state 7 ee - all x:\n",
     7,
     {DEB_ROW_UNMET_NEED, DEB_ROW_UNSURE_NEED, DEB_ROW_CONFLICT, DEB_ROW_UNSURE_CONFLICT,
      DEB_ROW_DUPLICATE, DEB_ROW_CONFLICT, DEB_ROW_STATE},
     "1/aa/1/amd64/Depends/bb | by (>= 1) [by x]/1/aa/1/amd64/Depends/x [any] | by/"
     "1/aa/1/amd64/Conflicts/mm/2/by/2/all/2/by/2/all/Breaks/by (<< 2) [3 by linux-any]/1/aa/1/amd64/"
     "1/aa/1/amd64/3/1.1/amd64/4/dd/1/all/Breaks/by/5/by/6/all/7/ee/-/all/x:/"},
    {DEB_INSTALLABLE_LINES,
     "uninstallable 1 aa 1:2-3 amd64\nunsure 12 bb 1 all\nundecided 345 by 1~ i386\n",
     3,
     {DEB_ROW_UNINSTALLABLE, DEB_ROW_UNSURE, DEB_ROW_UNDECIDED},
     "1/aa/1:2-3/amd64/12/bb/1/all/345/by/1~/i386/"},
    {DEB_INSTALLABLE_LINES,
     "uninstallable 1 aa 1 all\n 1 aa 1 all needs bb:any (>= 1:2) | needs: 12 345\n"
     " 12 bb 2 i386 needs excludes (Essential): none\n 12 bb 2 i386 excludes 1 is 1:1 all\n"
     " 345 is 1 left is left out\nunsure 346 cc 1 all\n",
     6,
     {DEB_ROW_UNINSTALLABLE, DEB_ROW_NEED, DEB_ROW_NEED, DEB_ROW_EXCLUSION, DEB_ROW_LEFT_OUT,
      DEB_ROW_UNSURE},
     "1/aa/1/all/1/aa/1/all/bb:any (>= 1:2) | needs/12 345/12/bb/2/i386/excludes (Essential)/none/"
     "12/bb/2/i386/1/is/1:1/all/345/is/1/left/346/cc/1/all/"},
    {DEB_EXPLANATION, "ok 12\nok\n", 2, {DEB_ROW_OK, DEB_ROW_VALID}, "12/"},
};

/* The cells of all rows, with `/` after each. */
static int has_cells(const struct deb_row *rows, size_t count, const char *text,
                     const char *wanted) {
    size_t at, cell;
    for (at = 0; at < count; at++)
        for (cell = 0; cell < rows[at].cell_count; cell++) {
            const struct deb_span *span = &rows[at].cells[cell];
            if (strncmp(text + span->start, wanted, span->length) != 0 ||
                wanted[span->length] != '/')
                return 0;
            wanted += span->length + 1;
        }
    return *wanted == '\0';
}

static void try_lines(const struct lined *it) {
    size_t room, at, length = strlen(it->text), count;
    for (room = 0; room <= it->count + 1; room++) {
        size_t size = (room + 1) * sizeof(struct deb_row);
        struct deb_row *rows = sevens(size);
        struct deb_answer answer;
        count = 99;
        answer = deb_rows(it->form, length ? bytes(it->text) : NULL, length, rows, room, &count);
        IS(count == it->count);
        if (room < it->count) {
            IS(is(answer, DEB_NO_ROOM, 0, 0, 0) && untouched(rows, size));
        } else {
            IS(is(answer, DEB_YES, 0, 0, 0));
            for (at = 0; at < count; at++)
                IS(rows[at].kind == it->kinds[at]);
            IS(has_cells(rows, count, it->text, it->cells));
            IS(prints_as(rows, count, bytes(it->text), length));
            IS(untouched(rows + count, (room + 1 - count) * sizeof *rows));
        }
        free(rows);
    }
    IS(is(deb_rows(it->form, bytes(it->text), length, NULL, 0, &count),
          it->count ? DEB_NO_ROOM : DEB_YES, 0, 0, 0) &&
       count == it->count);
}

/* Texts of no form, and texts of another one. deb_healthy may write the lines of deb_unmet too. */
static void try_others(void) {
    static const char *texts[] = {
        "x",
        "\n\n",
        "met aa",
        "met aa\nx\n",
        "met\n",
        " 1 aa 1\n",
        " x aa 1 all\n",
        " 1 aa 1 all\nmet",
        "unmet 1 aa 1 all Depends\n",
        "unmet x aa 1 all Depends bb\n",
        "removed 1 aa 1\n",
        "removed 1 aa 1 all \n",
        "changed 1 aa 1 all\n",
        "Line: 1\n",
        ": x\n",
        "line:1\n",
        "ok x\n",
        "ok 1, refused\n",
        "ok 1, 2\n",
        " aa:\n",
        "conflict 1 aa 1 all Breaks bb\n",
        "conflict 1 aa 1 all Breaks bb by 2 bb 1 all x\n",
        "duplicate 1 aa 1 all with 2 aa 1 all\n",
        "unmet 1 aa 1 all Depends bb by 2 bb 1 all\n",
        "state 1 aa 1 all\n",
        "state 1 aa  all unpacked\n",
        "state - aa 1 all unpacked\n",
        "uninstallable 1 aa 1\n",
        "uninstallable 1 aa 1 all Depends\n",
        "unsure x aa 1 all\n",
        "undecided 1 aa 1 all:\n",
        " 1 aa 1 all needs bb\n",
        " 1 aa 1 all needs bb:2\n",
        " 1 aa 1 all: needs bb: 2\n",
        " x aa 1 all needs bb: 2\n",
        " 1 aa 1 all excludes 2 bb 1\n",
        " 1 aa 1 all excludes 2 bb 1 all all\n",
        " 1 aa 1 all excludes bb 1 all\n",
        " 1 aa 1 is left out\n",
        " 1 aa 1 all is left out \n",
        " 1 aa 1 all was left out\n",
    };
    static const uint8_t forms[] = {6, 7, 128, 255};
    uint8_t form;
    size_t at, count;
    for (at = 0; at < sizeof texts / sizeof *texts; at++)
        for (form = 0; form < 6; form++) {
            struct deb_row *rows = sevens(4 * sizeof *rows);
            struct deb_answer answer;
            count = 99;
            answer = deb_rows(form, bytes(texts[at]), strlen(texts[at]), rows, 4, &count);
            if (answer.status == DEB_YES)
                IS(prints_as(rows, count, bytes(texts[at]), strlen(texts[at])));
            else
                IS(is(answer, DEB_NO, 0, 0, 0) && count == 0 && untouched(rows, 4 * sizeof *rows));
            free(rows);
        }
    for (at = 0; at < sizeof all / sizeof *all; at++)
        for (form = 0; form < 6; form++)
            if (form != all[at].form && all[at].count &&
                (form != DEB_HEALTH_LINES || all[at].form != DEB_UNMET_LINES))
                IS(is(deb_rows(form, bytes(all[at].text), strlen(all[at].text), NULL, 0, &count),
                      DEB_NO, 0, 0, 0) &&
                   count == 0);
    for (at = 0; at < sizeof forms; at++)
        IS(is(deb_rows(forms[at], bytes("met aa\n"), 7, NULL, 0, &count), DEB_NO_KIND, 0, 0, 0) &&
           count == 0);
}

/* A text of more than a megabyte. */
static void try_many(void) {
    enum { LINES = 50000 };
    char *text = malloc(LINES * 32), *to = text;
    struct deb_row *rows = sevens((LINES + 2) * sizeof *rows);
    size_t count, line;
    to += sprintf(to, "met hello\n");
    for (line = 1; line <= LINES; line++)
        to += sprintf(to, " %u hello %u all\n", (unsigned)line, (unsigned)line);
    IS(is(deb_rows(DEB_REPORT, bytes(text), (size_t)(to - text), rows, LINES, &count), DEB_NO_ROOM,
          0, 0, 0));
    IS(count == LINES + 1 && untouched(rows, (LINES + 2) * sizeof *rows));
    IS(is(deb_rows(DEB_REPORT, bytes(text), (size_t)(to - text), rows, LINES + 1, &count), DEB_YES,
          0, 0, 0));
    IS(prints_as(rows, count, bytes(text), (size_t)(to - text)));
    IS(untouched(rows + count, sizeof *rows));
    free(text);
    free(rows);
}

int main(void) {
    size_t at;
    for (at = 0; at < sizeof all / sizeof *all; at++)
        try_lines(&all[at]);
    try_others();
    try_many();
    return counted("rows");
}
