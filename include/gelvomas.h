/* The column checker, configuring, finding a configuration, and the wall page, for
   C (C99 or later) and C++. Link target/staticlib/libgelvomas.a, which `tools/build
   gelvomas` writes (x86-64 Linux).

   gelvomas_check, gelvomas_configure, gelvomas_find and gelvomas_page are proved:
   they read and write only what is said here, allocate nothing, keep nothing, and
   end on any input. gelvomas_check_tables, gelvomas_configure_tables,
   gelvomas_find_tables and gelvomas_page_tables, at the end, call them with the
   tables in a struct; they are short, and not proved.

   They may be called from several threads at once, as long as no thread writes to
   what a call of another is given or lent. This is argued and not proved: they keep
   nothing between calls (docs/ASSUMPTIONS.md).

   gelvomas_configure takes at most 450 KiB of stack and the others at most 400 KiB,
   which is measured and not proved. A thread that calls them needs as much. Where
   threads have less by default (128 KiB with musl), give it more, as by
   pthread_attr_setstacksize. */

#ifndef GELVOMAS_H
#define GELVOMAS_H

#include <stdbool.h>
#include <stddef.h>
#include <stdint.h>

#ifdef __cplusplus
extern "C" {
#endif

#define GELVOMAS_VERSION_MAJOR 3
#define GELVOMAS_VERSION_MINOR 0
#define GELVOMAS_VERSION_PATCH 0
#define GELVOMAS_VERSION "3.0.0"

/* The most there may be of each. There is at least one expression and one query;
   of the others there may be none. */
#define GELVOMAS_MAX_FEATURES 10
#define GELVOMAS_MAX_ATTRIBUTES 64
#define GELVOMAS_MAX_EXPRESSIONS 256
#define GELVOMAS_MAX_ENTRIES 512
#define GELVOMAS_MAX_RELATIONS 32
#define GELVOMAS_MAX_COMPARISONS 256
#define GELVOMAS_MAX_QUERIES 256

/* The words of one form of each table. Words that a kind does not use are 0. */
#define GELVOMAS_EXPRESSION_WORDS 3 /* kind, a, b */
#define GELVOMAS_ENTRY_WORDS 2      /* attribute, expression */
#define GELVOMAS_RELATION_WORDS 2   /* expression, number of entries */
#define GELVOMAS_COMPARISON_WORDS 5 /* kind, operator, a, b, c */
#define GELVOMAS_QUERY_WORDS 4      /* kind, a, b, c */

/* The words of the column rows, 64 rows of 16 words, and of one row. */
#define GELVOMAS_ROWS 1024
#define GELVOMAS_ROW_WORDS 16

/* The bytes of one line of a page, with its line feed, and of the longest page,
   1,024 lines. */
#define GELVOMAS_PAGE_LINE 73
#define GELVOMAS_MAX_PAGE 74752

/* The set of attribute a alone, a below 64. Sets are joined by |. */
#define GELVOMAS_ATTRIBUTE(a) (UINT64_C(1) << (a))

/* Kinds of expressions. */
enum gelvomas_expression {
    GELVOMAS_EXPRESSION_FALSE = 0,
    GELVOMAS_EXPRESSION_TRUE = 1,
    GELVOMAS_EXPRESSION_FEATURE = 2,    /* feature a */
    GELVOMAS_EXPRESSION_NOT = 3,        /* not expression a */
    GELVOMAS_EXPRESSION_AND = 4,        /* expressions a and b */
    GELVOMAS_EXPRESSION_OR = 5,         /* expression a or b */
    GELVOMAS_EXPRESSION_EXACTLY_ONE = 6 /* exactly one of the b features from feature a on is on */
};

/* Kinds of comparisons. */
enum gelvomas_comparison {
    GELVOMAS_COMPARISON_NEVER = 0,
    GELVOMAS_COMPARISON_ALWAYS = 1,
    GELVOMAS_COMPARISON_CONSTANT = 2,  /* attribute a with constant b, whose kind is c */
    GELVOMAS_COMPARISON_ATTRIBUTE = 3, /* attribute a with attribute b */
    GELVOMAS_COMPARISON_NOT = 4,       /* not comparison a */
    GELVOMAS_COMPARISON_AND = 5,       /* comparisons a and b */
    GELVOMAS_COMPARISON_OR = 6,        /* comparison a or b */
    GELVOMAS_COMPARISON_CHOICE = 7     /* b where expression a holds, c elsewhere */
};

/* Kinds of attributes, one for each in the kind table, and of constants, in word c of
   GELVOMAS_COMPARISON_CONSTANT. What is compared has one kind on both sides. */
enum gelvomas_kind {
    GELVOMAS_KIND_MOMENT = 0,
    GELVOMAS_KIND_COUNT = 1,
    GELVOMAS_KIND_NAME = 2
};

/* Operators of comparisons with a constant or an attribute; of others it is 0. */
enum gelvomas_operator {
    GELVOMAS_OPERATOR_LESS = 0,
    GELVOMAS_OPERATOR_LESS_OR_EQUAL = 1,
    GELVOMAS_OPERATOR_EQUAL = 2,
    GELVOMAS_OPERATOR_NOT_EQUAL = 3,
    GELVOMAS_OPERATOR_GREATER = 4,
    GELVOMAS_OPERATOR_GREATER_OR_EQUAL = 5
};

/* Kinds of queries. */
enum gelvomas_query {
    GELVOMAS_QUERY_EMPTY = 0,
    GELVOMAS_QUERY_RELATION = 1,    /* relation a */
    GELVOMAS_QUERY_SELECT = 2,      /* by comparison a, of query b */
    GELVOMAS_QUERY_PROJECT = 3,     /* to a entries, of query b */
    GELVOMAS_QUERY_CHOICE = 4,      /* b where expression a holds, c elsewhere */
    GELVOMAS_QUERY_PRODUCT = 5,     /* of queries a and b */
    GELVOMAS_QUERY_UNION = 6,       /* of queries a and b */
    GELVOMAS_QUERY_INTERSECTION = 7 /* of queries a and b */
};

/* The number of a refusal. In brackets: what its place, its item and its
   configuration are; one that is not named is 0. */
enum gelvomas_refusal_number {
    /* over 10 features, or over 64 attributes (0 for features, 1 for attributes) */
    GELVOMAS_REFUSED_LIMIT = 1,
    /* a table's words make no whole forms, or too few or too many (table, 0 to 4) */
    GELVOMAS_REFUSED_LENGTH = 2,
    /* unknown kind, unused word not 0, feature not below `features`, operand not
       lower; of GELVOMAS_EXPRESSION_EXACTLY_ONE: b not 1 to 10, a + b over `features`
       (expression) */
    GELVOMAS_REFUSED_EXPRESSION = 3,
    /* `model` is no expression of table 0 (0) */
    GELVOMAS_REFUSED_MODEL = 4,
    /* attribute not below `attributes`, expression not in table 0 (entry) */
    GELVOMAS_REFUSED_ENTRY = 5,
    /* expression not in table 0, list past table 1 (relation) */
    GELVOMAS_REFUSED_RELATION = 6,
    /* unknown kind, unused word not 0, operand not lower, operator over 5, attribute
       not below `attributes`, expression not in table 0 (comparison) */
    GELVOMAS_REFUSED_COMPARISON = 7,
    /* unknown kind, unused word not 0, operand not lower or already taken; relation,
       comparison or expression not in its table; list past table 1 (query) */
    GELVOMAS_REFUSED_QUERY = 8,
    /* no operand of any query, and not the last (query) */
    GELVOMAS_REFUSED_QUERY_LEFT = 9,
    /* entries left after the last list (first entry left) */
    GELVOMAS_REFUSED_ENTRY_LEFT = 10,
    /* `rows` has not 1,024 words; gelvomas_check alone (0) */
    GELVOMAS_REFUSED_ROWS = 11,
    /* the model permits no configuration (0) */
    GELVOMAS_REFUSED_NONE_PERMITTED = 12,
    /* present at no permitted configuration (relation) */
    GELVOMAS_REFUSED_RELATION_NOWHERE = 13,
    /* relation and entry hold together at no permitted configuration (relation;
       attribute) */
    GELVOMAS_REFUSED_ENTRY_NOWHERE = 14,
    /* relation absent; in the filled reading at all configurations that reach the query
       (query; relation; configuration) */
    GELVOMAS_REFUSED_RELATION_ABSENT = 15,
    /* compared attribute missing (query; attribute; configuration) */
    GELVOMAS_REFUSED_COMPARED_MISSING = 16,
    /* projected attribute missing; in the filled reading at all configurations that reach
       the query and at which its list has the attribute (query; attribute;
       configuration) */
    GELVOMAS_REFUSED_PROJECTED_MISSING = 17,
    /* both operands of a product have it (query; attribute; configuration) */
    GELVOMAS_REFUSED_PRODUCT_SHARES = 18,
    /* one operand alone of a union or intersection has it (query; attribute;
       configuration) */
    GELVOMAS_REFUSED_UNEQUAL = 19,
    /* not below 2^features, or not permitted; gelvomas_configure alone (0; 0;
       configuration as given) */
    GELVOMAS_REFUSED_CONFIGURATION = 20,
    /* a table lent for writing is shorter than its source; gelvomas_configure alone
       (table, 1 to 4) */
    GELVOMAS_REFUSED_ROOM = 21,
    /* a wanted attribute is not below `attributes`; gelvomas_find alone (0) */
    GELVOMAS_REFUSED_WANTED = 22,
    /* `page` has fewer than 73 bytes for each permitted configuration; gelvomas_page
       alone (0) */
    GELVOMAS_REFUSED_PAGE = 23,
    /* checked after 10: `kinds` has not as many words as there are attributes (0), else
       a kind over 2 in it (word), else a kind over 2 of a constant (comparison) */
    GELVOMAS_REFUSED_KIND = 24,
    /* the two sides of a comparison have different kinds; looked for in a query only
       where 16 is found in it at no configuration (query; left attribute;
       configuration) */
    GELVOMAS_REFUSED_KINDS_DIFFER = 25
};

/* The four functions that are proved. A table is a pointer to its words and then
   the number of its words, which may be any number: a length or a word that the
   checker does not take is refused. A pointer is never NULL, also where the length
   is 0, and lies as its type asks. What a function writes to, at a pointer without
   `const`, overlaps no other argument.

   Each is told the reading, right after the tables. It is false for the strict one: a
   report names a relation, and projects to an attribute, only where they are there. It
   is true for the filled one, for a report that leaves the schema's conditions out: an
   absent relation counts as empty, and a projected attribute is dropped where its operand
   lacks it. What is compared is never filled in. What the strict reading accepts, the
   filled one accepts with equal rows. */

/* Checks the tables of a report. Returns 0 (accepted) or 1 (refused). */
uint64_t gelvomas_check(
    uint64_t features,           /* number of features, at most 10 */
    uint64_t attributes,         /* number of attributes (columns), at most 64 */
    uint64_t model,              /* the feature model: an expression's number, from 0 */
    const uint16_t *expressions, /* table 0, 3 words a form: kind, a, b */
    size_t expressions_length,   /* its number of words */
    const uint16_t *entries,     /* table 1, 2 words a form: attribute, expression */
    size_t entries_length,       /* its number of words */
    const uint16_t *relations,   /* table 2, 2 words a form: expression, number of entries */
    size_t relations_length,     /* its number of words */
    const uint16_t *comparisons, /* table 3, 5 words a form: kind, operator, a, b, c */
    size_t comparisons_length,   /* its number of words */
    const uint16_t *queries,     /* table 4, 4 words a form: kind, a, b, c */
    size_t queries_length,       /* its number of words */
    const uint16_t *kinds,       /* the kind table, a word for each attribute: its kind */
    size_t kinds_length,         /* its number of words; any but `attributes` is refused */
    bool filled,                 /* the reading: false strict, true filled */
    uint64_t *rows,              /* accepted: all words are written, and are then the column
                                    rows. Attribute a is in the report at configuration c
                                    where bit c % 64 of rows[16 * a + c / 64] is 1.
                                    Refused: no word is changed. */
    size_t rows_length,          /* the number of words at `rows`; any but GELVOMAS_ROWS is
                                    refused */
    uint64_t refusal[4]          /* refused: number, place, item and configuration of the
                                    refusal. Accepted: no word is changed. */
);

/* Configures the report of these tables at one configuration. Returns 0 (written)
   or 1 (refused).

   Tables 1 to 4 are written of a report that has no choices. In the filled reading the
   query empty is written for a relation that is absent at the configuration, and a
   projected attribute that is missing there is left out. The head and table 0 are not
   written: they are 0 features, as many attributes, model 0, and the one expression
   true (1 0 0). gelvomas_check accepts these tables with the same kind table in the
   strict reading, also where they were written in the filled one, and their columns at
   configuration 0 are those of the given report at the configuration. */
uint64_t gelvomas_configure(
    uint64_t features,             /* the report, as for gelvomas_check */
    uint64_t attributes,
    uint64_t model,
    const uint16_t *expressions,
    size_t expressions_length,
    const uint16_t *entries,
    size_t entries_length,
    const uint16_t *relations,
    size_t relations_length,
    const uint16_t *comparisons,
    size_t comparisons_length,
    const uint16_t *queries,
    size_t queries_length,
    const uint16_t *kinds,
    size_t kinds_length,
    bool filled,
    uint64_t configuration,        /* bit i says whether feature i is on; one that is not
                                      permitted, or that is 2^features or more, is refused */
    uint16_t *new_entries,         /* written: the new table 1, from the first word on. The
                                      words after it are not changed. Refused: no word is
                                      changed. */
    size_t new_entries_length,     /* the number of words there; fewer than entries_length are
                                      refused */
    uint16_t *new_relations,       /* the same for table 2 */
    size_t new_relations_length,   /* at least relations_length */
    uint16_t *new_comparisons,     /* the same for table 3 */
    size_t new_comparisons_length, /* at least comparisons_length */
    uint16_t *new_queries,         /* the same for table 4 */
    size_t new_queries_length,     /* at least queries_length */
    uint64_t answer[4]             /* written: the number of forms in the new tables 1, 2, 3
                                      and 4. Refused: number, place, item and configuration of
                                      the refusal. */
);

/* Finds the lowest permitted configuration at which the report of these tables has
   every wanted attribute. Returns 0 (found), 1 (refused) or 2 (none: no permitted
   configuration has them all, which is no refusal). */
uint64_t gelvomas_find(
    uint64_t features,           /* the report, as for gelvomas_check */
    uint64_t attributes,
    uint64_t model,
    const uint16_t *expressions,
    size_t expressions_length,
    const uint16_t *entries,
    size_t entries_length,
    const uint16_t *relations,
    size_t relations_length,
    const uint16_t *comparisons,
    size_t comparisons_length,
    const uint16_t *queries,
    size_t queries_length,
    const uint16_t *kinds,
    size_t kinds_length,
    bool filled,
    uint64_t wanted,             /* the set of wanted attributes: attribute a is wanted where
                                    bit a is 1. A bit at or above `attributes` is refused. For
                                    the empty set, 0, the lowest permitted configuration is
                                    found. */
    uint64_t answer[4]           /* all words are written. Found: the configuration, 0, 0 and 0.
                                    None: 0, 0, 0 and 0. Refused: number, place, item and
                                    configuration of the refusal. */
);

/* Writes the page of the report of these tables, to be pinned up: a line for each
   permitted configuration, ascending. Returns 0 (written) or 1 (refused).

   A line is 72 characters and a line feed: the configuration, right-aligned in 4; a
   space; 64 marks, for attributes 0 to 63; a space; the number of columns, which is
   that of the marks `o`, right-aligned in 2. A mark is `o` where the attribute is in
   the report at the configuration, as in the column rows, and else `.`, so also at
   and above `attributes`. The page is no C string: no 0 stands after it. */
uint64_t gelvomas_page(
    uint64_t features,           /* the report, as for gelvomas_check */
    uint64_t attributes,
    uint64_t model,
    const uint16_t *expressions,
    size_t expressions_length,
    const uint16_t *entries,
    size_t entries_length,
    const uint16_t *relations,
    size_t relations_length,
    const uint16_t *comparisons,
    size_t comparisons_length,
    const uint16_t *queries,
    size_t queries_length,
    const uint16_t *kinds,
    size_t kinds_length,
    bool filled,
    uint8_t *page,               /* written: the lines, from the first byte on. The bytes after
                                    them are not changed. Refused: no byte is changed. */
    size_t page_length,          /* the number of bytes there; fewer than GELVOMAS_PAGE_LINE for
                                    each line are refused. GELVOMAS_PAGE_LINE * 2^features are
                                    enough, and GELVOMAS_MAX_PAGE for any report. */
    uint64_t answer[4]           /* all words are written. Written: the number of lines, 0, 0
                                    and 0. Refused: number, place, item and configuration of
                                    the refusal. */
);

/* The same four with structs. Here the pointer of a table, or of a page, may be NULL
   where its length is 0, so a struct that is set to 0 holds tables without words. */

/* A report: its head, tables 0 to 4 and the kind table with their numbers of words, and
   the reading. Without attributes there are no kinds. A struct that is set to 0, or
   initialised without its last field, is read strictly. */
struct gelvomas_tables {
    uint64_t features;
    uint64_t attributes;
    uint64_t model;
    const uint16_t *expressions;
    size_t expressions_length;
    const uint16_t *entries;
    size_t entries_length;
    const uint16_t *relations;
    size_t relations_length;
    const uint16_t *comparisons;
    size_t comparisons_length;
    const uint16_t *queries;
    size_t queries_length;
    const uint16_t *kinds;
    size_t kinds_length;
    bool filled; /* the reading: false strict, true filled */
};

/* Tables 1 to 4 lent for writing, with their numbers of words. */
struct gelvomas_lent {
    uint16_t *entries;
    size_t entries_length;
    uint16_t *relations;
    size_t relations_length;
    uint16_t *comparisons;
    size_t comparisons_length;
    uint16_t *queries;
    size_t queries_length;
};

/* Why a report is refused; enum gelvomas_refusal_number says what each field is. */
struct gelvomas_refusal {
    uint64_t number;
    uint64_t place;
    uint64_t item;
    uint64_t configuration;
};

/* How many forms (not words) were written to tables 1 to 4. */
struct gelvomas_counts {
    uint64_t entries;
    uint64_t relations;
    uint64_t comparisons;
    uint64_t queries;
};

/* What the functions are given for a table without words, or a page without bytes,
   in the place of a pointer that may be NULL. It is neither read nor written. */
static inline const uint16_t *gelvomas_words(const uint16_t *table, size_t length)
{
    static const uint16_t none = 0;
    return length == 0 ? &none : table;
}

static inline uint16_t *gelvomas_lent_words(uint16_t *table, size_t length)
{
    static uint16_t none = 0;
    return length == 0 ? &none : table;
}

static inline uint8_t *gelvomas_lent_bytes(uint8_t *page, size_t length)
{
    static uint8_t none = 0;
    return length == 0 ? &none : page;
}

static inline void gelvomas_set_refusal(struct gelvomas_refusal *refusal, const uint64_t words[4])
{
    refusal->number = words[0];
    refusal->place = words[1];
    refusal->item = words[2];
    refusal->configuration = words[3];
}

/* gelvomas_check. Returns 0 (accepted): `rows` is written, `refusal` is not. Or 1
   (refused): `refusal` is written, `rows` is not. */
static inline int gelvomas_check_tables(
    const struct gelvomas_tables *tables,
    uint64_t rows[GELVOMAS_ROWS],
    struct gelvomas_refusal *refusal)
{
    uint64_t words[4] = {0, 0, 0, 0};
    if (gelvomas_check(
            tables->features, tables->attributes, tables->model,
            gelvomas_words(tables->expressions, tables->expressions_length), tables->expressions_length,
            gelvomas_words(tables->entries, tables->entries_length), tables->entries_length,
            gelvomas_words(tables->relations, tables->relations_length), tables->relations_length,
            gelvomas_words(tables->comparisons, tables->comparisons_length), tables->comparisons_length,
            gelvomas_words(tables->queries, tables->queries_length), tables->queries_length,
            gelvomas_words(tables->kinds, tables->kinds_length), tables->kinds_length, tables->filled,
            rows, GELVOMAS_ROWS, words) == 0) {
        return 0;
    }
    gelvomas_set_refusal(refusal, words);
    return 1;
}

/* gelvomas_configure. Returns 0 (written): the tables of `lent` and `counts` are
   written, `refusal` is not. Or 1 (refused): `refusal` is written, the others are
   not. */
static inline int gelvomas_configure_tables(
    const struct gelvomas_tables *tables,
    uint64_t configuration,
    const struct gelvomas_lent *lent,
    struct gelvomas_counts *counts,
    struct gelvomas_refusal *refusal)
{
    uint64_t words[4] = {0, 0, 0, 0};
    if (gelvomas_configure(
            tables->features, tables->attributes, tables->model,
            gelvomas_words(tables->expressions, tables->expressions_length), tables->expressions_length,
            gelvomas_words(tables->entries, tables->entries_length), tables->entries_length,
            gelvomas_words(tables->relations, tables->relations_length), tables->relations_length,
            gelvomas_words(tables->comparisons, tables->comparisons_length), tables->comparisons_length,
            gelvomas_words(tables->queries, tables->queries_length), tables->queries_length,
            gelvomas_words(tables->kinds, tables->kinds_length), tables->kinds_length, tables->filled,
            configuration,
            gelvomas_lent_words(lent->entries, lent->entries_length), lent->entries_length,
            gelvomas_lent_words(lent->relations, lent->relations_length), lent->relations_length,
            gelvomas_lent_words(lent->comparisons, lent->comparisons_length), lent->comparisons_length,
            gelvomas_lent_words(lent->queries, lent->queries_length), lent->queries_length,
            words) == 0) {
        counts->entries = words[0];
        counts->relations = words[1];
        counts->comparisons = words[2];
        counts->queries = words[3];
        return 0;
    }
    gelvomas_set_refusal(refusal, words);
    return 1;
}

/* gelvomas_find. Returns 0 (found): `configuration` is written, `refusal` is not.
   Or 1 (refused): `refusal` is written, `configuration` is not. Or 2 (none):
   neither is written. */
static inline int gelvomas_find_tables(
    const struct gelvomas_tables *tables,
    uint64_t wanted,
    uint64_t *configuration,
    struct gelvomas_refusal *refusal)
{
    uint64_t words[4] = {0, 0, 0, 0};
    switch (gelvomas_find(
        tables->features, tables->attributes, tables->model,
        gelvomas_words(tables->expressions, tables->expressions_length), tables->expressions_length,
        gelvomas_words(tables->entries, tables->entries_length), tables->entries_length,
        gelvomas_words(tables->relations, tables->relations_length), tables->relations_length,
        gelvomas_words(tables->comparisons, tables->comparisons_length), tables->comparisons_length,
        gelvomas_words(tables->queries, tables->queries_length), tables->queries_length,
        gelvomas_words(tables->kinds, tables->kinds_length), tables->kinds_length, tables->filled,
        wanted, words)) {
    case 0:
        *configuration = words[0];
        return 0;
    case 1:
        gelvomas_set_refusal(refusal, words);
        return 1;
    default:
        return 2;
    }
}

/* gelvomas_page. Returns 0 (written): `page`, and to `lines` the number of its lines,
   are written, `refusal` is not. Or 1 (refused): `refusal` is written, the others are
   not. */
static inline int gelvomas_page_tables(
    const struct gelvomas_tables *tables,
    uint8_t *page,
    size_t page_length,
    uint64_t *lines,
    struct gelvomas_refusal *refusal)
{
    uint64_t words[4] = {0, 0, 0, 0};
    if (gelvomas_page(
            tables->features, tables->attributes, tables->model,
            gelvomas_words(tables->expressions, tables->expressions_length), tables->expressions_length,
            gelvomas_words(tables->entries, tables->entries_length), tables->entries_length,
            gelvomas_words(tables->relations, tables->relations_length), tables->relations_length,
            gelvomas_words(tables->comparisons, tables->comparisons_length), tables->comparisons_length,
            gelvomas_words(tables->queries, tables->queries_length), tables->queries_length,
            gelvomas_words(tables->kinds, tables->kinds_length), tables->kinds_length, tables->filled,
            gelvomas_lent_bytes(page, page_length), page_length, words) == 0) {
        *lines = words[0];
        return 0;
    }
    gelvomas_set_refusal(refusal, words);
    return 1;
}

#ifdef __cplusplus
}
#endif

#endif
