/* Debian control data for programs in C and C++: versions, files of control data and their fields,
 * why they are refused, which packages of an index meet a relation, which relations of a file nothing
 * meets, whether a set of packages is consistent, and which packages can't be installed. The functions
 * of the library return what the program debctl prints; that, and the sizes that two of them return, is
 * proved. Only tested are the functions with a body in this header, and that deb_index_free and
 * deb_reader_free free all that was held.
 *
 * Texts. A text is a pointer to bytes and their number; no NUL is needed after them. The bytes are
 * only read, and only during the call. A pointer may be NULL only if its length is 0. No function
 * can check that a pointer points to as many bytes as its length says.
 *
 * Buffers. A function that returns a text writes it to the start of `out`, which has room for
 * `out_size` bytes, and its length to `length`, without a NUL after it. `out` and `length` belong
 * to the caller, and may not overlap each other or another argument. If the text doesn't fit, nothing
 * is written to `out`, and `length` is the length that it needs. So a call with NULL and 0 returns
 * that length, and a second call does the work again.
 *
 * Order. If several things are wrong, the status is the first of these that applies: DEB_NO_KIND,
 * DEB_NO_INDEX, DEB_REFUSED, DEB_SECOND_REFUSED, DEB_NO_ROOM; of deb_select DEB_SECOND_REFUSED comes
 * before DEB_REFUSED. A call that also writes something of a refused text (deb_check_all, deb_fields,
 * and the explanations) needs room for that: it returns DEB_NO_ROOM before DEB_REFUSED. DEB_NO_MEMORY
 * may come in place of any status but DEB_NO_KIND and DEB_NO_INDEX.
 *
 * Lengths are in bytes, and lines are counted from 1. Several threads may call at once. Memory is
 * taken with malloc and realloc, and freed before the call returns: only an index and a reader keep
 * some, until they are freed. Don't call a function from a signal handler, or between fork and exec
 * in the child of a process with several threads.
 *
 * docs/FORMAT.md has the rules and the meaning of each error code, docs/LIBRARIES.md examples. */
#ifndef DEBCTL_H
#define DEBCTL_H

#include <stddef.h>
#include <stdint.h>
#include <stdlib.h>

#ifdef __cplusplus
extern "C" {
#endif

/* The version that this header belongs to; deb_library_version returns that of the library. */
#define DEB_VERSION "0.1.0"
#define DEB_VERSION_NUMBER 100

/* The status of a call. */
enum deb_status {
    DEB_YES = 0,            /* done, or yes */
    DEB_NO = 1,             /* deb_same, deb_diff: the files differ; deb_query, deb_unmet: a group is
                             * unmet; deb_healthy: the set isn't healthy; deb_installable: a package
                             * has a line; deb_buildable: a source package has one; deb_witness:
                             * no set is found; deb_index_package: there is no such package;
                             * deb_select: no paragraph is selected */
    DEB_REFUSED = 2,        /* a text is refused, or the first of two */
    DEB_SECOND_REFUSED = 3, /* the first text is accepted, and the second is refused; deb_select: a
                             * condition is refused */
    DEB_NO_ROOM = 4,        /* the buffer is too small; its length is what it needs */
    DEB_NO_MEMORY = 5,      /* out of memory */
    DEB_NO_KIND = 6,        /* no kind of document has this number, or no detail; deb_diff, deb_unmet,
                             * deb_healthy, deb_installable, deb_witness, deb_buildable: the call
                             * doesn't take this kind */
    DEB_NO_INDEX = 7        /* the index that is asked holds none, since it was refused */
};

/* Kinds of documents. */
enum deb_kind {
    DEB_BINARY = 0,   /* the control file of a binary package: one paragraph */
    DEB_PACKAGES = 1, /* an index of binary packages: any number of paragraphs */
    DEB_SOURCE = 2,   /* the description of a source package: one paragraph */
    DEB_SOURCES = 3,  /* an index of source packages: any number of paragraphs */
    DEB_ANY = 4,      /* any control data; its values aren't checked */
    DEB_STATUS = 5    /* the status file of dpkg: any number of paragraphs */
};

/* Why a text is refused. */
enum deb_code {
    DEB_NOT_UTF8 = 1,
    DEB_ARMOUR = 2,
    DEB_COMMENT = 3,
    DEB_STRAY_CONTINUATION = 4,
    DEB_BAD_FIELD_NAME = 5,
    DEB_NO_COLON = 6,
    DEB_DUPLICATE_FIELD = 7,
    DEB_PARAGRAPH_TOO_LONG = 8,
    DEB_FILE_TOO_LONG = 9,
    DEB_NO_PARAGRAPH = 10,
    DEB_TOO_MANY_PARAGRAPHS = 11,
    DEB_MISSING_FIELD = 12,
    DEB_NOT_ONE_LINE = 13,
    DEB_BAD_NAME = 14,
    DEB_BAD_NUMBER = 15,
    DEB_BAD_WORD = 16,
    DEB_BAD_ARCHITECTURE = 17,
    DEB_BAD_VERSION = 18,
    DEB_BAD_RELATION = 19,
    DEB_ALTERNATIVES_NOT_ALLOWED = 20,
    DEB_PROVIDES_BOUND = 21,
    DEB_WILDCARD = 22,
    DEB_BAD_ENVIRONMENT = 23
};

/* Returns the name of a code, which the program prints after its number, such as `BadVersion`; NULL
 * if no code has this number. */
static inline const char *deb_code_name(uint8_t code) {
    static const char *const names[] = {
        "NotUtf8", "Armour", "Comment", "StrayContinuation", "BadFieldName", "NoColon",
        "DuplicateField", "ParagraphTooLong", "FileTooLong", "NoParagraph", "TooManyParagraphs",
        "MissingField", "NotOneLine", "BadName", "BadNumber", "BadWord", "BadArchitecture",
        "BadVersion", "BadRelation", "AlternativesNotAllowed", "ProvidesBound", "Wildcard",
        "BadEnvironment",
    };
    return code > 0 && code <= sizeof names / sizeof *names ? names[code - 1] : NULL;
}

/* A text among several. */
struct deb_text {
    const uint8_t *bytes;
    size_t length;
};

/* The answer of a call. Parts that don't apply are 0. */
struct deb_answer {
    uint8_t status; /* one of deb_status */
    uint8_t code;   /* one of deb_code, if a text is refused */
    uint64_t line;  /* the line of the refusal in its file; 0 for a text that isn't a file */
    uint64_t count; /* the number of paragraphs of the file: for DEB_YES of deb_check, deb_check_all,
                     * deb_normalise, deb_explain, deb_explain_all and deb_fields, and for DEB_YES
                     * and DEB_NO of deb_unmet and deb_buildable; of the paragraphs that pass, for
                     * DEB_REFUSED of deb_check_all and deb_explain_all; of the packages, for DEB_YES
                     * and DEB_NO of deb_healthy, deb_installable and deb_witness, and for DEB_YES
                     * of deb_index_read; deb_latest and deb_select say what it is for them */
};

/* The answer of a comparison of two versions. */
struct deb_comparison {
    uint8_t status; /* DEB_YES, DEB_REFUSED or DEB_SECOND_REFUSED */
    uint8_t code;   /* DEB_BAD_VERSION, if a text isn't a version */
    int8_t order;   /* below 0 if the first is earlier, above 0 if it is later, 0 if they are equal */
};

/* A field of a file, in the tables that deb_fields writes. A file has at most 4,294,967,295 bytes. */
struct deb_field {
    uint32_t paragraph;    /* the number of its paragraph in the file, from 1 */
    uint32_t line;         /* the number of its first line in the file, from 1 */
    uint32_t name;         /* the offset of its name in `names` */
    uint32_t name_length;
    uint32_t value;        /* the offset of its value in `values` */
    uint32_t value_length;
};

/* The parts of a version as they are spelled: offsets and lengths in its text. A part that isn't
 * there has the offset 0 and the length 0. */
struct deb_version_parts {
    uint8_t status;       /* DEB_YES or DEB_REFUSED */
    uint8_t code;         /* DEB_BAD_VERSION, if the text isn't a version */
    uint8_t has_epoch;    /* 1 or 0 */
    uint8_t has_revision; /* 1 or 0 */
    size_t epoch_length;  /* the epoch starts at the offset 0, and a colon follows it */
    size_t upstream;      /* the offset of the upstream version */
    size_t upstream_length;
    size_t revision;      /* the offset of the revision, which follows a hyphen */
    size_t revision_length;
};

/* One refusal of a file, in the table that deb_check_all writes. */
struct deb_refusal {
    uint64_t line; /* its line in the file, from 1 */
    uint8_t code;  /* one of deb_code */
};

/* Where the parts of an alternative are in the text of its relation, in the table that
 * deb_relation_parts writes: offsets and lengths. A part that is absent has the offset 0 and the
 * length 0. */
struct deb_alternative {
    size_t group;         /* the number of its group in the text, from 1; empty pieces between commas
                           * aren't counted */
    size_t name;          /* the name of the package */
    size_t name_length;
    size_t qualifier;     /* the qualifier, without the colon */
    size_t qualifier_length;
    size_t op;            /* the operator of the bound */
    size_t op_length;
    size_t version;       /* the version of the bound */
    size_t version_length;
    size_t architectures; /* what is between the brackets of the architecture list */
    size_t architectures_length;
    size_t formula;       /* the restriction formula, from its first `<` to its last `>` */
    size_t formula_length;
};

/* Returns the version of the library, as 10000 * major + 100 * minor + patch: 0.1.0 is 100. */
uint32_t deb_library_version(void);

/* Compares two versions in Debian's order. Takes no memory.
 * DEB_YES; DEB_REFUSED: the first isn't a version; DEB_SECOND_REFUSED. */
struct deb_comparison deb_version_compare(const uint8_t *left, size_t left_length,
                                          const uint8_t *right, size_t right_length);

/* Writes the canonical text of a version: two versions are equal if and only if theirs are the same.
 * DEB_YES; DEB_REFUSED: it isn't a version; DEB_NO_ROOM; DEB_NO_MEMORY. */
struct deb_answer deb_version_canonical(const uint8_t *text, size_t text_length,
                                        uint8_t *out, size_t out_size, size_t *length);

/* Writes the key of a version: bytes whose order, as memcmp and databases have it, is Debian's order
 * of versions; two versions are equal if and only if their keys are the same. A key has at most 8 bytes
 * more than two for each byte of the text. The encoding doesn't change; docs/FORMAT.md has it.
 * DEB_YES; DEB_REFUSED: it isn't a version; DEB_NO_ROOM; DEB_NO_MEMORY. */
struct deb_answer deb_version_key(const uint8_t *text, size_t text_length,
                                  uint8_t *out, size_t out_size, size_t *length);

/* Cuts a version into its parts as they are spelled: the epoch ends before the first colon, and the
 * revision follows the last hyphen after that. Takes no memory.
 * DEB_YES; DEB_REFUSED: it isn't a version, and all parts are 0. */
struct deb_version_parts deb_version_parts(const uint8_t *text, size_t text_length);

/* Writes the canonical text of a relation: its groups, in the order of their texts and with `, `
 * between them, each with its alternatives and ` | ` between these. Two relations mean the same
 * if and only if theirs are the same.
 * DEB_YES; DEB_REFUSED: it isn't a relation; DEB_NO_ROOM; DEB_NO_MEMORY. */
struct deb_answer deb_relation_canonical(const uint8_t *text, size_t text_length,
                                         uint8_t *out, size_t out_size, size_t *length);

/* Writes where the parts of each alternative of a relation are in its text, in the order of the text
 * and with repeats: the relation as it is spelled, where deb_relation_canonical writes what it means.
 * `alternatives` has room for `alternatives_size` alternatives; `alternative_count` is how many there
 * are, also if there is no room for them.
 * DEB_YES; DEB_REFUSED: it isn't a relation; DEB_NO_ROOM; DEB_NO_MEMORY. */
struct deb_answer deb_relation_parts(const uint8_t *text, size_t text_length,
                                     struct deb_alternative *alternatives,
                                     size_t alternatives_size, size_t *alternative_count);

/* Checks whether a file is accepted as a document of a kind.
 * DEB_YES, with the number of its paragraphs; DEB_REFUSED; DEB_NO_MEMORY; DEB_NO_KIND. */
struct deb_answer deb_check(uint8_t kind, const uint8_t *text, size_t text_length);

/* Checks all of a file, where deb_check ends at the first refusal, and writes the refusals in file
 * order: those that the program `debctl check --all` prints. What follows lines that are refused is
 * checked as if these lines were blank. Checking ends after a paragraph whose lines are too long,
 * after a file that is too long or whose canonical text is, and, for DEB_BINARY and DEB_SOURCE,
 * after the first refusal. `refusals` has room for `refusals_size` refusals; `refusal_count` is how
 * many there are, also if there is no room for them.
 * DEB_YES, with the number of paragraphs: nothing is refused; DEB_REFUSED, with the first refusal,
 * which is that of deb_check, and the number of paragraphs that pass; DEB_NO_ROOM; DEB_NO_MEMORY;
 * DEB_NO_KIND. */
struct deb_answer deb_check_all(uint8_t kind, const uint8_t *text, size_t text_length,
                                struct deb_refusal *refusals, size_t refusals_size,
                                size_t *refusal_count);

/* Writes the canonical text of a file: two files that are accepted as one kind of document mean the
 * same if and only if theirs are the same. Nothing is written for a file that is refused.
 * DEB_YES, with the number of its paragraphs; DEB_REFUSED; DEB_NO_ROOM; DEB_NO_MEMORY;
 * DEB_NO_KIND. */
struct deb_answer deb_normalise(uint8_t kind, const uint8_t *text, size_t text_length,
                                uint8_t *out, size_t out_size, size_t *length);

/* Writes where the fields of a file are, in file order: to the start of `names` the names as they are
 * in the file, each with a byte 0 after it, to the start of `values` the values likewise, and to the
 * start of `fields` the offsets and lengths of both. A value is the text after the colon with the
 * lines that continue it, without spaces and tabs at both ends; a byte 0 may be in it. Neither name
 * nor value is canonical. `field_count`, `names_length` and `values_length` are how many there are.
 * If one of the three has no room, nothing is written to any. Of a refused file the fields are those
 * of the paragraphs before the one at which it is refused.
 * DEB_YES, with the number of paragraphs; DEB_REFUSED; DEB_NO_ROOM; DEB_NO_MEMORY; DEB_NO_KIND. */
struct deb_answer deb_fields(uint8_t kind, const uint8_t *text, size_t text_length,
                             struct deb_field *fields, size_t fields_size, size_t *field_count,
                             uint8_t *names, size_t names_size, size_t *names_length,
                             uint8_t *values, size_t values_size, size_t *values_length);

/* Writes why a file is refused as a document of a kind, in lines `key: value`: those that the
 * program `debctl explain` writes, except for its first, `file`, since a text has no path. The keys
 * are, in this order and if they apply: line, code, name, field, place (the offset of the error in
 * the value), at (the same position in the file, as LINE:COLUMN, both from 1), reason, value, rule
 * and usually. Bytes of the file that aren't printable ASCII are escaped, and a long value is cut
 * after 200 bytes. For an accepted file of N paragraphs the line `ok N` is written. Each line ends
 * with a newline.
 * DEB_REFUSED, with the code and the line that deb_check returns; DEB_YES, with the number of
 * paragraphs: the file is accepted; DEB_NO_ROOM; DEB_NO_MEMORY; DEB_NO_KIND. */
struct deb_answer deb_explain(uint8_t kind, const uint8_t *text, size_t text_length,
                              uint8_t *out, size_t out_size, size_t *length);

/* Writes why a file is refused at each of the refusals that deb_check_all writes: for each the lines
 * that deb_explain writes of a refusal, and an empty line after them; at the end the line
 * `ok N, M refused`, with the number of paragraphs that pass and the number of refusals.
 * DEB_YES, DEB_REFUSED: as deb_check_all; DEB_NO_ROOM; DEB_NO_MEMORY; DEB_NO_KIND. */
struct deb_answer deb_explain_all(uint8_t kind, const uint8_t *text, size_t text_length,
                                  uint8_t *out, size_t out_size, size_t *length);

/* Writes why a text isn't a relation, in lines `key: value`: those that the program
 * `debctl explain --relation` writes. The keys are, in this order: code, name, place (the offset of the
 * error in the text), reason, value, rule and usually. Bytes that aren't printable ASCII are escaped,
 * and a long text is cut after 200 bytes. For a relation the line `ok` is written. Each line ends with
 * a newline.
 * DEB_REFUSED, with DEB_BAD_RELATION; DEB_YES: it is a relation; DEB_NO_ROOM; DEB_NO_MEMORY. */
struct deb_answer deb_explain_relation(const uint8_t *text, size_t text_length,
                                       uint8_t *out, size_t out_size, size_t *length);

/* Writes why a text isn't a version, likewise: the lines of `debctl explain --version-text`. The place
 * is 0 if the fault has no offset of its own.
 * DEB_REFUSED, with DEB_BAD_VERSION; DEB_YES: it is a version; DEB_NO_ROOM; DEB_NO_MEMORY. */
struct deb_answer deb_explain_version(const uint8_t *text, size_t text_length,
                                      uint8_t *out, size_t out_size, size_t *length);

/* Writes why a text is no condition of deb_select on paragraphs of a kind, in lines `key: value`. The
 * keys are, in this order and if they apply: place (the offset of the error in the text), code and
 * name (of a value that the field can't have), reason, value (the text, with the escapes of
 * DEB_TABLE) and rule. For a condition the line `ok` is written. Each line ends with a newline.
 * DEB_REFUSED, with the code 0; DEB_YES: it is a condition; DEB_NO_ROOM; DEB_NO_MEMORY; DEB_NO_KIND. */
struct deb_answer deb_explain_condition(uint8_t kind, const uint8_t *text, size_t text_length,
                                        uint8_t *out, size_t out_size, size_t *length);

/* Compares two files by meaning, as documents of a kind.
 * DEB_YES; DEB_NO; DEB_REFUSED: the first is refused; DEB_SECOND_REFUSED; DEB_NO_MEMORY;
 * DEB_NO_KIND. */
struct deb_answer deb_same(uint8_t kind, const uint8_t *text, size_t text_length,
                           const uint8_t *other, size_t other_length);

/* How much deb_diff writes of a paragraph. */
enum deb_detail {
    DEB_FIELDS = 0, /* a line, with the names of the fields that differ */
    DEB_VALUES = 1  /* below it also the lines of these fields, and all lines of a paragraph that was
                     * removed or added: ` -NAME: VALUE` of the old one, ` +NAME: VALUE` of the new */
};

/* Writes what changed in meaning between two files of a kind, an old one and a new one: the lines
 * that the program `debctl diff` writes. There is a line for each paragraph that was removed, added,
 * changed, or upgraded or downgraded to another version. `kind` is one of deb_kind, but not DEB_ANY,
 * and `detail` one of deb_detail.
 * DEB_YES: there is no line, the files have the same paragraphs in some order; DEB_NO: there is one.
 * DEB_REFUSED: the old file is refused; DEB_SECOND_REFUSED: the old one is accepted and the new one
 * is refused; DEB_NO_ROOM; DEB_NO_MEMORY; DEB_NO_KIND: no such kind, or no such detail. */
struct deb_answer deb_diff(uint8_t kind, uint8_t detail, const uint8_t *old, size_t old_length,
                           const uint8_t *changed, size_t changed_length,
                           uint8_t *out, size_t out_size, size_t *length);

/* Writes which packages of an index meet a relation, for a target architecture and with these build
 * profiles active: for each group of the relation a line, and after one that is met a line for
 * each package that meets it.
 * DEB_YES: no group is unmet; DEB_NO: a group is; DEB_REFUSED: the relation (DEB_BAD_RELATION),
 * the target or a profile (DEB_BAD_ENVIRONMENT), the index (any code up to DEB_PROVIDES_BOUND), or
 * a wildcard in an architecture list (DEB_WILDCARD), in this order; DEB_NO_ROOM; DEB_NO_MEMORY. */
struct deb_answer deb_query(const uint8_t *target, size_t target_length,
                            const struct deb_text *profiles, size_t profile_count,
                            const uint8_t *relation, size_t relation_length,
                            const uint8_t *index, size_t index_length,
                            uint8_t *out, size_t out_size, size_t *length);

/* Writes what deb_query writes, and below the line of each group that is unmet or ignored the lines
 * that say why it is, in the order of its alternatives: the report that the program
 * `debctl query --why` writes.
 * The statuses of deb_query. */
struct deb_answer deb_query_why(const uint8_t *target, size_t target_length,
                                const struct deb_text *profiles, size_t profile_count,
                                const uint8_t *relation, size_t relation_length,
                                const uint8_t *index, size_t index_length,
                                uint8_t *out, size_t out_size, size_t *length);

/* Writes which relations of a file no package of an index meets, for a target architecture and with
 * these build profiles active: a line for each group that is unmet, or may be. They are the lines
 * that the program `debctl unmet` writes. `kind` is that of the file: DEB_PACKAGES and DEB_BINARY ask
 * Pre-Depends and Depends, and Recommends too unless `recommends` is 0; DEB_SOURCES and DEB_SOURCE
 * ask Build-Depends, Build-Depends-Arch and Build-Depends-Indep of the source packages that are built
 * for the target (deb_index_unmet_with says which they are), and `recommends` must be 0.
 * DEB_YES: there is no line; DEB_NO: there is one; both with the number of paragraphs of the file.
 * DEB_REFUSED: the target or a profile (DEB_BAD_ENVIRONMENT) or the index, in this order;
 * DEB_SECOND_REFUSED: the file; DEB_NO_ROOM; DEB_NO_MEMORY; DEB_NO_KIND: `kind` is none of these
 * four, or Recommends is asked of sources. */
struct deb_answer deb_unmet(uint8_t kind, uint8_t recommends,
                            const uint8_t *target, size_t target_length,
                            const struct deb_text *profiles, size_t profile_count,
                            const uint8_t *index, size_t index_length,
                            const uint8_t *text, size_t text_length,
                            uint8_t *out, size_t out_size, size_t *length);

/* Writes why a set of packages isn't consistent, for a target architecture: a line for each group that
 * no package of the set meets, or may not meet, for each package that a relation of another excludes,
 * or may exclude, and for two of one name that can't be installed together. They are the lines that
 * the program `debctl healthy` writes. `kind` is that of the file `index`: the set is all packages of
 * an index (DEB_PACKAGES), or the installed ones of a status file (DEB_STATUS), which the program
 * reads with `--installed`. Of a status file there is also a line for each package that is neither
 * installed nor removed; its number counts all paragraphs, others the packages of the set. Pre-Depends
 * and Depends are asked, and Recommends too unless `recommends` is 0.
 * DEB_YES: there is no line, the set is healthy; DEB_NO: there is one; both with the number of
 * packages of the set. DEB_REFUSED: the target (DEB_BAD_ENVIRONMENT) or the file, in this order;
 * DEB_NO_ROOM; DEB_NO_MEMORY; DEB_NO_KIND: `kind` is neither of these two. */
struct deb_answer deb_healthy(uint8_t kind, uint8_t recommends,
                              const uint8_t *target, size_t target_length,
                              const uint8_t *index, size_t index_length,
                              uint8_t *out, size_t out_size, size_t *length);

/* Writes which packages of a file can't be installed, for a target architecture: no set of packages of
 * the file that is healthy, as deb_healthy has it, contains them. There is a line for each: its word is
 * `uninstallable`, or `unsure` if an architecture wildcard decides it, or `undecided` if the search took
 * all its steps. They are the lines that the program `debctl installable` writes. `kind` and
 * `recommends` are those of deb_healthy, and numbers count the packages that `kind` means. `budget` is
 * the most steps of the search for one package; 0 means 100,000. All searches take at most so
 * many, and 100 for each package.
 * Unless `essential` is 0, a set must have a package of each name that a package of the target
 * architecture, or of all, has with `Essential: yes`. `without` is an array of `without_count` names: no
 * package with one of them is in a set, essential, or has a line, but numbers count it. Unless `reasons`
 * is 0, lines that begin with a space say after an uninstallable package why it is: which package needs
 * which group, with the numbers of all packages that meet it, or `none`; which excludes which; which
 * needs which essential name; and which is left out. If the search for them took all its steps, there
 * are none.
 * DEB_YES: there is no line, each package can be installed; DEB_NO: there is one; both with the number
 * of packages. DEB_REFUSED: the target (DEB_BAD_ENVIRONMENT) or the file, in this order; DEB_NO_ROOM;
 * DEB_NO_MEMORY; DEB_NO_KIND: `kind` is neither DEB_PACKAGES nor DEB_STATUS. */
struct deb_answer deb_installable(uint8_t kind, uint8_t recommends, uint8_t essential,
                                  uint8_t reasons, uint32_t budget,
                                  const uint8_t *target, size_t target_length,
                                  const struct deb_text *without, size_t without_count,
                                  const uint8_t *index, size_t index_length,
                                  uint8_t *out, size_t out_size, size_t *length);

/* Writes a set of packages of a file that contains a package with this name and is healthy, as
 * deb_healthy has it, for a target architecture: that of the first package with the name, in the order
 * of the file, for which the search finds one. No architecture wildcard decides whether it is healthy.
 * There is a line for each package of the set, in the order of the file: a space, its number, name,
 * version and architecture. If the search finds no set, the lines are those of deb_installable, by
 * these searches: one for each package with the name. They are the lines that the program
 * `debctl installable --witness` writes. `kind`, `recommends`, `essential`, `reasons`, `budget` and
 * `without` are those of deb_installable.
 * DEB_YES: a set is found, DEB_REPORT is the form of its lines; DEB_NO: none is, the form is
 * DEB_INSTALLABLE_LINES, and there is no line if no package has the name; both with the number of
 * packages. The other statuses of deb_installable. */
struct deb_answer deb_witness(uint8_t kind, uint8_t recommends, uint8_t essential, uint8_t reasons,
                              uint32_t budget,
                              const uint8_t *target, size_t target_length,
                              const uint8_t *name, size_t name_length,
                              const struct deb_text *without, size_t without_count,
                              const uint8_t *index, size_t index_length,
                              uint8_t *out, size_t out_size, size_t *length);

/* Writes which source packages of a file can't be built with the packages of an index, for a target
 * architecture and with these build profiles active. One can be built if a healthy set of these
 * packages has build-essential and what its Build-Depends, Build-Depends-Arch and Build-Depends-Indep
 * need, and none that its Build-Conflicts, Build-Conflicts-Arch or Build-Conflicts-Indep exclude. Each
 * source package is asked by itself. The lines are those that the program `debctl installable --kind
 * sources` writes: those of deb_installable, with `source` as the architecture. `kind` is that of the
 * file `text`, DEB_SOURCES or DEB_SOURCE. `essential`, `reasons` and `without` are those of
 * deb_installable, and `budget` too, for the search for one source package; all searches take at most
 * so many steps, and 100 for each package of both files.
 * DEB_YES: there is no line, each source package can be built; DEB_NO: there is one; both with the
 * number of source packages. DEB_REFUSED: the target or a profile (DEB_BAD_ENVIRONMENT) or the index,
 * in this order; DEB_SECOND_REFUSED: the file; DEB_NO_ROOM; DEB_NO_MEMORY; DEB_NO_KIND: `kind` is
 * neither of these two. */
struct deb_answer deb_buildable(uint8_t kind, uint8_t essential, uint8_t reasons, uint32_t budget,
                                const uint8_t *target, size_t target_length,
                                const struct deb_text *profiles, size_t profile_count,
                                const struct deb_text *without, size_t without_count,
                                const uint8_t *index, size_t index_length,
                                const uint8_t *text, size_t text_length,
                                uint8_t *out, size_t out_size, size_t *length);

/* An index that is read once and asked often. It lies in memory of the caller, as many bytes as
 * deb_index_size returns, aligned as malloc aligns. deb_index_read fills that memory, whatever its
 * status is, and deb_index_free empties it; what lies there may not be copied or moved in between.
 *
 * The caller ensures that `index` points to memory that deb_index_read has filled and deb_index_free
 * hasn't emptied since. No function can check that: a pointer that is NULL or freed is undefined
 * behaviour. Any number of threads may ask one index at once, as long as no call that changes it runs
 * at the same time: of deb_index_read, deb_index_read_more, deb_index_without or deb_index_free. */
struct deb_index;

/* Returns how many bytes of memory an index has. */
size_t deb_index_size(void);

/* Reads an index of packages; the text isn't needed afterwards. `answer` becomes
 * DEB_YES, with the number of packages; DEB_REFUSED or DEB_NO_MEMORY: the index holds none. */
void deb_index_read(struct deb_index *index, const uint8_t *text, size_t text_length,
                    struct deb_answer *answer);

/* Frees the memory that an index took, and leaves that in which it lies to the caller. */
void deb_index_free(struct deb_index *index);

/* Reads one more file of packages into an index. They follow those that it has: the first has the
 * next number. The text isn't needed afterwards. `answer` becomes DEB_YES, with the number of all
 * packages; DEB_REFUSED or DEB_NO_MEMORY: the index holds none from then on; DEB_NO_INDEX. No other
 * thread may ask the index in the meantime. */
void deb_index_read_more(struct deb_index *index, const uint8_t *text, size_t text_length,
                         struct deb_answer *answer);

/* Takes the packages that have one of these names out of an index. The others keep their order, and
 * have new numbers from 1; a file of which no package is left still counts as one. A name that no
 * package has changes nothing. `names` is an array of `name_count` names. `answer` becomes DEB_YES,
 * with the number of packages that are left; DEB_NO_MEMORY: the index holds none from then on;
 * DEB_NO_INDEX. No other thread may ask the index in the meantime. */
void deb_index_without(struct deb_index *index, const struct deb_text *names, size_t name_count,
                       struct deb_answer *answer);

/* Reads an index into memory of malloc, which deb_index_delete frees. `answer` becomes that of
 * deb_index_read. Returns NULL, with nothing to free, unless it is DEB_YES. */
static inline struct deb_index *deb_index_new(const uint8_t *text, size_t text_length,
                                              struct deb_answer *answer) {
    struct deb_index *index = (struct deb_index *)malloc(deb_index_size());
    if (!index) {
        answer->status = DEB_NO_MEMORY;
        answer->code = 0;
        answer->line = answer->count = 0;
        return NULL;
    }
    deb_index_read(index, text, text_length, answer);
    if (answer->status != DEB_YES) {
        deb_index_free(index);
        free(index);
        return NULL;
    }
    return index;
}

/* Frees an index of deb_index_new, and its memory. NULL is allowed. */
static inline void deb_index_delete(struct deb_index *index) {
    if (index) {
        deb_index_free(index);
        free(index);
    }
}

/* Writes the report that deb_query writes for this index, without reading it again. If the index was
 * read of several files, the line of each package ends with the file that it is of: ` @2` is the
 * second that was read.
 * The statuses of deb_query; DEB_NO_INDEX. */
struct deb_answer deb_index_query(const struct deb_index *index,
                                  const uint8_t *target, size_t target_length,
                                  const struct deb_text *profiles, size_t profile_count,
                                  const uint8_t *relation, size_t relation_length,
                                  uint8_t *out, size_t out_size, size_t *length);

/* Writes the report that deb_query_why writes for this index, without reading it again; of several
 * files, as deb_index_query does.
 * The statuses of deb_query; DEB_NO_INDEX. */
struct deb_answer deb_index_query_why(const struct deb_index *index,
                                      const uint8_t *target, size_t target_length,
                                      const struct deb_text *profiles, size_t profile_count,
                                      const uint8_t *relation, size_t relation_length,
                                      uint8_t *out, size_t out_size, size_t *length);

/* Writes the lines that deb_unmet writes for this index, without reading it again.
 * The statuses of deb_unmet; DEB_NO_INDEX. DEB_NO_KIND comes before DEB_NO_INDEX. */
struct deb_answer deb_index_unmet(const struct deb_index *index, uint8_t kind, uint8_t recommends,
                                  const uint8_t *target, size_t target_length,
                                  const struct deb_text *profiles, size_t profile_count,
                                  const uint8_t *text, size_t text_length,
                                  uint8_t *out, size_t out_size, size_t *length);

/* What deb_index_unmet_with asks besides: any of these numbers, added. */
enum deb_option {
    DEB_RECOMMENDS = 1,  /* of binary packages: Recommends too */
    DEB_ALL_SOURCES = 2, /* of source packages: also those that aren't built for the target */
    DEB_UNLESS = 4       /* a group has a line only if the index `unless` meets or ignores it for sure */
};

/* Writes the lines that deb_index_unmet writes, with the options of the program `debctl unmet`:
 * `options` are those of deb_option. `unless` is an index, too; without DEB_UNLESS it isn't asked, but
 * may not be NULL: pass `index` again. Without DEB_ALL_SOURCES a source package is asked only if its
 * Architecture has `any`, `all` or the target, or it has no such field; if another of its names may hold
 * the target, such as `linux-any`, its lines all say `unsure`. A package of DEB_PACKAGES or DEB_BINARY is
 * asked for its own architecture; if that can't be a target, as `all`, for `all_for`, or if that is empty
 * for `target`. No binary package of `text` with one of the names `without` is asked; deb_index_without
 * takes their packages out of an index.
 * The statuses of deb_index_unmet; DEB_REFUSED also: `all_for` (DEB_BAD_ENVIRONMENT); DEB_NO_KIND also:
 * an option that the kind doesn't have, or `all_for` for source packages; DEB_NO_INDEX also: with
 * DEB_UNLESS nothing is loaded in `unless`. */
struct deb_answer deb_index_unmet_with(const struct deb_index *index,
                                       const struct deb_index *unless,
                                       uint8_t kind, uint8_t options,
                                       const uint8_t *target, size_t target_length,
                                       const uint8_t *all_for, size_t all_for_length,
                                       const struct deb_text *profiles, size_t profile_count,
                                       const struct deb_text *without, size_t without_count,
                                       const uint8_t *text, size_t text_length,
                                       uint8_t *out, size_t out_size, size_t *length);

/* Writes the numbers of the packages that have a name, in ascending order. The first package of an
 * index has the number 1. `numbers` has room for `numbers_size` numbers; `count` is how many there
 * are, also if there is no room for them. Takes no memory.
 * DEB_YES; DEB_NO_ROOM; DEB_NO_INDEX. */
struct deb_answer deb_index_packages(const struct deb_index *index,
                                     const uint8_t *name, size_t name_length,
                                     uint64_t *numbers, size_t numbers_size, size_t *count);

/* Writes the numbers of the packages that provide a name, in some version or without one, likewise.
 * A package is among them for its own name only if its Provides contains it. */
struct deb_answer deb_index_providers(const struct deb_index *index,
                                      const uint8_t *name, size_t name_length,
                                      uint64_t *numbers, size_t numbers_size, size_t *count);

/* Writes the name, the canonical version and the architecture of the package with a number, with a
 * space between: `hello 2.10-3 amd64`.
 * DEB_YES; DEB_NO: the index has no such package; DEB_NO_ROOM; DEB_NO_MEMORY; DEB_NO_INDEX. */
struct deb_answer deb_index_package(const struct deb_index *index, uint64_t number,
                                    uint8_t *out, size_t out_size, size_t *length);

/* Writes what the index keeps of the package with a number, as a paragraph of canonical text: the
 * fields Architecture, Multi-Arch if the package has it, Package, Provides if the index keeps an
 * entry of it, and Version. It keeps the entries of Provides that provide a name: those without a
 * qualifier, an architecture list and a formula. `line` of the answer is the line at which the
 * package's paragraph starts in the file, counted from 1; it is 0 if the status isn't DEB_YES.
 * DEB_YES; DEB_NO: the index has no such package; DEB_NO_ROOM; DEB_NO_MEMORY; DEB_NO_INDEX. */
struct deb_answer deb_index_details(const struct deb_index *index, uint64_t number,
                                    uint8_t *out, size_t out_size, size_t *length);

/* Finds which file the package with a number is of: `file` becomes 1 if it is of the one that was read
 * first, and 0 if the status isn't DEB_YES. Takes no memory.
 * DEB_YES; DEB_NO: the index has no such package; DEB_NO_INDEX. */
struct deb_answer deb_index_file(const struct deb_index *index, uint64_t number, size_t *file);

/* Which paragraphs are of one package. */
enum deb_by {
    DEB_NAME = 0,                 /* those with one name */
    DEB_NAME_AND_ARCHITECTURE = 1 /* those with one name and one architecture */
};

/* Writes of each package over several files the paragraph with the latest version, as its file has it,
 * with an empty line between two, in the order of the files: what the program `debctl latest` writes.
 * Of equal versions it is the first. `kind` is DEB_PACKAGES or DEB_SOURCES, `by` one of deb_by; a source
 * package has one name only. Unless `before` is empty, only versions earlier than it are considered.
 * DEB_YES, with the number of these paragraphs; DEB_REFUSED: `before` isn't a version (DEB_BAD_VERSION,
 * `count` 0), or a text is refused, whose place in `texts`, from 1, is `count`; DEB_NO_ROOM;
 * DEB_NO_MEMORY; DEB_NO_KIND: `kind` is neither of these two, or `by` none of deb_by. */
struct deb_answer deb_latest(uint8_t kind, uint8_t by,
                             const uint8_t *before, size_t before_length,
                             const struct deb_text *texts, size_t text_count,
                             uint8_t *out, size_t out_size, size_t *length);

/* What deb_select writes of each paragraph. */
enum deb_select_form {
    DEB_CONTROL = 0,    /* the fields with the names in `names`, in this order, as they are in the text,
                         * with an empty line between paragraphs; without a name, whole paragraphs */
    DEB_TABLE = 1,      /* a line with the canonical texts of these fields, with a tab between two; a
                         * field that is absent is empty, and control characters and the backslash
                         * are escaped: `\t`, `\n`, `\\`, `\x1f` */
    DEB_JSON_LINES = 2, /* a line with an object in JSON, of the meaning of all fields */
    DEB_COUNT = 3       /* nothing: the paragraphs are only counted */
};

/* Writes the paragraphs of a text for which all conditions hold, in the order of the text and in a form
 * of deb_select_form: what the program `debctl select` writes of one file. With others != 0 it
 * writes those for which not all hold; `others` is 0 or 1. A condition is `FIELD` (the field is there),
 * `FIELD OPERATOR VALUE` with one of `=`, `!=`, `<<`, `<=`, `>=`, `>>` and `~` (contains), or
 * `FIELD names NAME`; docs/FORMAT.md says what they mean. Without a condition all paragraphs are selected.
 * DEB_YES, with the number of these paragraphs; DEB_NO: there is none, and nothing is written;
 * DEB_REFUSED: the text is refused; DEB_SECOND_REFUSED: a condition is, whose place in `conditions`,
 * from 1, is `count` (deb_explain_condition says why), before the text is read; DEB_NO_ROOM;
 * DEB_NO_MEMORY; DEB_NO_KIND: `kind`, `others` or `form` has another number. */
struct deb_answer deb_select(uint8_t kind, uint8_t others, uint8_t form,
                             const struct deb_text *conditions, size_t condition_count,
                             const struct deb_text *names, size_t name_count,
                             const uint8_t *text, size_t text_length,
                             uint8_t *out, size_t out_size, size_t *length);

/* A part of a text: the offset of its first byte, and the number of its bytes. */
struct deb_span {
    size_t start;
    size_t length;
};

/* What wrote a text. */
enum deb_form {
    DEB_REPORT = 0,      /* deb_query, deb_index_query, and both with _why; deb_witness, DEB_YES */
    DEB_UNMET_LINES = 1, /* deb_unmet, deb_index_unmet, deb_index_unmet_with */
    DEB_DIFF_LINES = 2,  /* deb_diff */
    DEB_EXPLANATION = 3, /* deb_explain, deb_explain_all, deb_explain_relation, deb_explain_version,
                          * deb_explain_condition */
    DEB_HEALTH_LINES = 4, /* deb_healthy */
    DEB_INSTALLABLE_LINES = 5 /* deb_installable, deb_buildable; deb_witness, DEB_NO */
};

/* What a line of a text says, and its cells. */
enum deb_row_kind {
    DEB_ROW_MET = 0,            /* group */
    DEB_ROW_UNMET = 1,          /* group */
    DEB_ROW_IGNORED = 2,        /* group */
    DEB_ROW_PACKAGE = 3,        /* number, name, version, architecture */
    DEB_ROW_REASON = 4,         /* alternative, reason */
    DEB_ROW_PACKAGE_REASON = 5, /* alternative, number, name, version, architecture, reason */
    DEB_ROW_UNMET_GROUP = 6,    /* number, package, version, architecture, field, group */
    DEB_ROW_UNSURE_GROUP = 7,   /* the same */
    DEB_ROW_REMOVED = 8,        /* number, package, version, architecture */
    DEB_ROW_CHANGED = 9,        /* number, package, version, architecture, fields */
    DEB_ROW_UPGRADED = 10,      /* number, package, old version, new version, architecture, fields */
    DEB_ROW_ADDED = 11,         /* number, package, version, architecture */
    DEB_ROW_OLD_LINE = 12,      /* a line of the old canonical text */
    DEB_ROW_NEW_LINE = 13,      /* a line of the new one */
    DEB_ROW_KEY = 14,           /* key, value */
    DEB_ROW_END = 15,           /* no cell: the empty line after an explanation of deb_explain_all */
    DEB_ROW_OK = 16,            /* the number in `ok N` */
    DEB_ROW_SUMMARY = 17,       /* the numbers in `ok N, M refused` */
    DEB_ROW_VALID = 18,         /* no cell: the line `ok` of deb_explain_relation, _version or
                                 * _condition */
    DEB_ROW_DOWNGRADED = 19,    /* as DEB_ROW_UPGRADED, with an earlier new version */
    DEB_ROW_UNMET_NEED = 20,    /* number, package, version, architecture, field, group */
    DEB_ROW_UNSURE_NEED = 21,   /* the same */
    DEB_ROW_CONFLICT = 22,      /* the same; number, name, version, architecture of the excluded one */
    DEB_ROW_UNSURE_CONFLICT = 23, /* the same */
    DEB_ROW_DUPLICATE = 24,     /* number, package, version, architecture; number, version,
                                 * architecture of the later one */
    DEB_ROW_STATE = 25,         /* number, package, version, architecture, status; `-` for none */
    DEB_ROW_UNINSTALLABLE = 26, /* number, package, version, architecture */
    DEB_ROW_UNSURE = 27,        /* the same */
    DEB_ROW_UNDECIDED = 28,     /* the same */
    DEB_ROW_NEED = 29,          /* number, package, version, architecture, group, candidates */
    DEB_ROW_EXCLUSION = 30,     /* number, package, version, architecture of both packages */
    DEB_ROW_LEFT_OUT = 31,      /* number, package, version, architecture */
    DEB_ROW_PACKAGE_OF_FILE = 32, /* as DEB_ROW_PACKAGE, and the file; of an index of several files */
    DEB_ROW_PACKAGE_REASON_OF_FILE = 33 /* as DEB_ROW_PACKAGE_REASON, and the file, likewise */
};

/* A line of a text. `fields` is one cell, with a space between two names. `candidates` is one, too:
 * the numbers of the packages that meet the group, with a space between two, or `none`. The group
 * is `NAME (Essential)` if every package needs one of this name. Rows DEB_ROW_NEED, _EXCLUSION and
 * _LEFT_OUT say why the package of the last row DEB_ROW_UNINSTALLABLE before them can't be
 * installed, or built. */
struct deb_row {
    uint8_t kind;              /* one of deb_row_kind */
    uint8_t cell_count;        /* how many cells the kind has */
    struct deb_span cells[10]; /* where they are in the text; after them only zeros */
};

/* Writes what the lines of a text say to the start of `rows`: a row for each line, in their order.
 * `form` is one of deb_form. `row_count` is how many rows there are, also if there is no room for
 * them. Takes no memory.
 * DEB_YES; DEB_NO: the text isn't one of this form, `row_count` is 0; DEB_NO_ROOM; DEB_NO_KIND: no
 * such form. */
struct deb_answer deb_rows(uint8_t form, const uint8_t *text, size_t text_length,
                           struct deb_row *rows, size_t rows_size, size_t *row_count);

/* A reader that is fed a file in pieces. It lies in memory of the caller, which may not move it:
 *
 *     struct deb_reader *reader = malloc(deb_reader_size());
 *     struct deb_answer answer;
 *     deb_reader_start(reader, DEB_PACKAGES, &answer);
 *     deb_reader_feed(reader, piece, piece_length, 0, &answer);
 *     deb_reader_fields(reader, ..);
 *     deb_reader_free(reader);
 *     free(reader);
 *
 * It holds the bytes after the last paragraph that has ended, the fields that the last call read, and
 * one paragraph that is checked. Of blank lines between paragraphs it holds the first two, and how many
 * the others are; of a line of 16 MiB and more, once it has a MiB more, only how many bytes it has. */
struct deb_reader;

/* How many bytes the memory of a reader has. It is aligned as by malloc. */
size_t deb_reader_size(void);

/* Starts a reader of a file of this kind. Afterwards the reader has to be freed, whatever the answer.
 * DEB_YES; DEB_NO_KIND. */
void deb_reader_start(struct deb_reader *reader, uint8_t kind, struct deb_answer *answer);

/* Takes the next piece of the file, and reads each paragraph that ends in it. With is_last != 0 the
 * file ends with the piece, which may be empty. A paragraph ends with the newline of the blank line
 * after it, and is read once a byte follows or the file has ended. After an error, and after the last
 * piece, each later call takes nothing and returns the same answer.
 * DEB_YES: `count` is the number of paragraphs so far; with the last piece, the file is accepted.
 * DEB_REFUSED: the file is refused; DEB_NO_MEMORY; DEB_NO_KIND: the reader was started so. */
void deb_reader_feed(struct deb_reader *reader, const uint8_t *text, size_t text_length,
                     uint8_t is_last, struct deb_answer *answer);

/* Writes the fields of the paragraphs that the last deb_reader_feed read, as deb_fields does: of those
 * before the one that is refused, if it refused the file. Paragraphs and lines are counted in the
 * whole file. It may be called again, and by several threads at once. Takes no memory.
 * DEB_YES; DEB_NO_ROOM. */
struct deb_answer deb_reader_fields(const struct deb_reader *reader,
                                    struct deb_field *fields, size_t fields_size,
                                    size_t *field_count,
                                    uint8_t *names, size_t names_size, size_t *names_length,
                                    uint8_t *values, size_t values_size, size_t *values_length);

/* Frees what the reader holds. Its memory is the caller's again. */
void deb_reader_free(struct deb_reader *reader);

#ifdef __cplusplus
}
#endif

#endif
