/* include/gelvomas.h as a C program uses it: H1, H2 and H4 of docs/FORMAT.md, which
   configuration gives H1's columns, its page, kinds that differ, H10 in both readings,
   tables and a page that are NULL, and the words and bytes lent. ../../test compiles and
   runs it. */

#include <inttypes.h>
#include <stdio.h>
#include <string.h>

#include "gelvomas.h"

#define LENGTH(table) (sizeof(table) / sizeof((table)[0]))

/* What the words are before a call. */
#define STALE 0xBEEF

static int differences = 0;

static void expect(const char *what, uint64_t found, uint64_t wanted)
{
    if (found != wanted) {
        printf("%s: %" PRIu64 " and not %" PRIu64 "\n", what, found, wanted);
        differences++;
    }
}

static void expect_refusal(
    const char *what, const struct gelvomas_refusal *found, uint64_t number, uint64_t place,
    uint64_t item, uint64_t configuration)
{
    if (found->number != number || found->place != place || found->item != item ||
        found->configuration != configuration) {
        printf("%s: refused %" PRIu64 " %" PRIu64 " %" PRIu64 " %" PRIu64
               " and not %" PRIu64 " %" PRIu64 " %" PRIu64 " %" PRIu64 "\n",
               what, found->number, found->place, found->item, found->configuration,
               number, place, item, configuration);
        differences++;
    }
}

/* The first words as wanted, all after them stale. */
static void expect_table(
    const char *what, const uint16_t *found, size_t length, const uint16_t *wanted,
    size_t wanted_length)
{
    for (size_t at = 0; at < length; at++) {
        uint16_t word = at < wanted_length ? wanted[at] : STALE;
        if (found[at] != word) {
            printf("%s: word %zu is %u and not %u\n", what, at, found[at], word);
            differences++;
        }
    }
}

static void make_stale(uint16_t *table, size_t length)
{
    for (size_t at = 0; at < length; at++) {
        table[at] = STALE;
    }
}

/* Attributes vessel, berth and ramp; features swaps and ramps. */
enum { VESSEL, BERTH, RAMP };
enum { SWAPS, RAMPS };
enum { ALWAYS, WITH_SWAPS, WITH_RAMPS };

static const uint16_t expressions[] = {
    GELVOMAS_EXPRESSION_TRUE,    0,     0,
    GELVOMAS_EXPRESSION_FEATURE, SWAPS, 0,
    GELVOMAS_EXPRESSION_FEATURE, RAMPS, 0
};
static const uint16_t h1_entries[] = {
    VESSEL, ALWAYS, BERTH, ALWAYS, RAMP, WITH_RAMPS, /* the relation's */
    VESSEL, ALWAYS, RAMP, WITH_RAMPS                 /* the project's */
};
static const uint16_t h2_entries[] = {
    VESSEL, ALWAYS, BERTH, ALWAYS, RAMP, WITH_RAMPS,
    VESSEL, ALWAYS, RAMP, WITH_SWAPS
};
static const uint16_t relations[] = {ALWAYS, 3};
static const uint16_t queries[] = {
    GELVOMAS_QUERY_RELATION, 0, 0, 0,
    GELVOMAS_QUERY_PROJECT,  2, 0, 0
};
static const uint16_t kinds[] = {GELVOMAS_KIND_NAME, GELVOMAS_KIND_NAME, GELVOMAS_KIND_COUNT};

/* The report of H1, with these entries. It has no comparisons: they are NULL. */
static struct gelvomas_tables with_entries(const uint16_t *entries, size_t length)
{
    struct gelvomas_tables tables = {
        .features = 2,
        .attributes = 3,
        .model = ALWAYS,
        .expressions = expressions,
        .expressions_length = LENGTH(expressions),
        .entries = entries,
        .entries_length = length,
        .relations = relations,
        .relations_length = LENGTH(relations),
        .queries = queries,
        .queries_length = LENGTH(queries),
        .kinds = kinds,
        .kinds_length = LENGTH(kinds)
    };
    return tables;
}

static void check_h1(const struct gelvomas_tables *h1)
{
    uint64_t rows[GELVOMAS_ROWS];
    struct gelvomas_refusal refusal = {7, 7, 7, 7};
    memset(rows, 0xFF, sizeof rows);
    expect("H1 checked", (uint64_t)gelvomas_check_tables(h1, rows, &refusal), 0);
    expect_refusal("H1 accepted", &refusal, 7, 7, 7, 7);
    for (size_t at = 0; at < GELVOMAS_ROWS; at++) {
        /* Four configurations: vessel at all, ramp at 2 and 3. */
        uint64_t wanted = at == VESSEL * GELVOMAS_ROW_WORDS  ? 0xF
                          : at == RAMP * GELVOMAS_ROW_WORDS ? 0xC
                                                            : 0;
        expect("H1, a word of the rows", rows[at], wanted);
    }
}

/* Refused so, with the rows as they were. */
static void check_refused(
    const char *what, const struct gelvomas_tables *tables, uint64_t number, uint64_t place,
    uint64_t item, uint64_t configuration)
{
    uint64_t rows[GELVOMAS_ROWS];
    struct gelvomas_refusal refusal = {0, 0, 0, 0};
    memset(rows, 0xFF, sizeof rows);
    expect(what, (uint64_t)gelvomas_check_tables(tables, rows, &refusal), 1);
    expect_refusal(what, &refusal, number, place, item, configuration);
    for (size_t at = 0; at < GELVOMAS_ROWS; at++) {
        expect(what, rows[at], UINT64_MAX);
    }
}

/* H1 with no kinds, and with its report selected by vessel, a name, with a moment and
   with a name. */
static void compare_kinds(struct gelvomas_tables tables)
{
    static const uint16_t selected[] = {
        GELVOMAS_QUERY_RELATION, 0, 0, 0,
        GELVOMAS_QUERY_PROJECT,  2, 0, 0,
        GELVOMAS_QUERY_SELECT,   0, 1, 0
    };
    uint16_t comparison[] = {
        GELVOMAS_COMPARISON_CONSTANT, GELVOMAS_OPERATOR_EQUAL, VESSEL, 500, GELVOMAS_KIND_MOMENT
    };
    uint64_t rows[GELVOMAS_ROWS];
    struct gelvomas_refusal refusal = {7, 7, 7, 7};
    struct gelvomas_tables without_kinds = tables;
    without_kinds.kinds = NULL;
    without_kinds.kinds_length = 0;
    check_refused("no kinds", &without_kinds, GELVOMAS_REFUSED_KIND, 0, 0, 0);

    tables.comparisons = comparison;
    tables.comparisons_length = LENGTH(comparison);
    tables.queries = selected;
    tables.queries_length = LENGTH(selected);
    check_refused("kinds differ", &tables, GELVOMAS_REFUSED_KINDS_DIFFER, 2, VESSEL, 0);
    comparison[4] = GELVOMAS_KIND_NAME;
    expect("one kind", (uint64_t)gelvomas_check_tables(&tables, rows, &refusal), 0);
}

/* A report without attributes has no kinds: NULL. */
static void no_attributes(void)
{
    static const uint16_t empty[] = {GELVOMAS_QUERY_EMPTY, 0, 0, 0};
    uint64_t rows[GELVOMAS_ROWS];
    struct gelvomas_refusal refusal = {7, 7, 7, 7};
    struct gelvomas_tables tables = {0};
    tables.expressions = expressions;
    tables.expressions_length = GELVOMAS_EXPRESSION_WORDS;
    tables.queries = empty;
    tables.queries_length = LENGTH(empty);
    expect("no attributes", (uint64_t)gelvomas_check_tables(&tables, rows, &refusal), 0);
}

static void configure_h1(const struct gelvomas_tables *h1)
{
    static const uint16_t h4_entries[] = {VESSEL, 0, BERTH, 0, VESSEL, 0};
    static const uint16_t h4_relations[] = {0, 2};
    static const uint16_t h4_queries[] = {
        GELVOMAS_QUERY_RELATION, 0, 0, 0,
        GELVOMAS_QUERY_PROJECT,  1, 0, 0
    };
    uint16_t new_entries[LENGTH(h1_entries) + 3];
    uint16_t new_relations[LENGTH(relations)];
    uint16_t new_queries[LENGTH(queries) + 1];
    /* No comparisons here either. */
    struct gelvomas_lent lent = {
        .entries = new_entries,
        .entries_length = LENGTH(new_entries),
        .relations = new_relations,
        .relations_length = LENGTH(new_relations),
        .queries = new_queries,
        .queries_length = LENGTH(new_queries)
    };
    struct gelvomas_counts counts = {7, 7, 7, 7};
    struct gelvomas_refusal refusal = {0, 0, 0, 0};
    make_stale(new_entries, LENGTH(new_entries));
    make_stale(new_relations, LENGTH(new_relations));
    make_stale(new_queries, LENGTH(new_queries));

    /* Configuration 4 needs a third feature. Nothing is written. */
    expect("H1 at 4", (uint64_t)gelvomas_configure_tables(h1, 4, &lent, &counts, &refusal), 1);
    expect_refusal("H1 at 4", &refusal, GELVOMAS_REFUSED_CONFIGURATION, 0, 0, 4);
    expect("H1 at 4, count", counts.entries, 7);
    expect_table("H1 at 4, entries", new_entries, LENGTH(new_entries), NULL, 0);
    expect_table("H1 at 4, relations", new_relations, LENGTH(new_relations), NULL, 0);
    expect_table("H1 at 4, queries", new_queries, LENGTH(new_queries), NULL, 0);

    expect("H4", (uint64_t)gelvomas_configure_tables(h1, 0, &lent, &counts, &refusal), 0);
    expect_refusal("H4, refusal of before", &refusal, GELVOMAS_REFUSED_CONFIGURATION, 0, 0, 4);
    expect("H4, entries", counts.entries, 3);
    expect("H4, relations", counts.relations, 1);
    expect("H4, comparisons", counts.comparisons, 0);
    expect("H4, queries", counts.queries, 2);
    expect_table("H4, entries", new_entries, LENGTH(new_entries), h4_entries, LENGTH(h4_entries));
    expect_table("H4, relations", new_relations, LENGTH(new_relations), h4_relations, LENGTH(h4_relations));
    expect_table("H4, queries", new_queries, LENGTH(new_queries), h4_queries, LENGTH(h4_queries));
}

/* Finds a configuration of H1 with the columns of a set. What is not written is as
   it was. */
static void find_in_h1(const struct gelvomas_tables *h1)
{
    const uint64_t vessel_and_ramp = GELVOMAS_ATTRIBUTE(VESSEL) | GELVOMAS_ATTRIBUTE(RAMP);
    const uint64_t no_attribute = GELVOMAS_ATTRIBUTE(RAMP + 1);
    uint64_t configuration = STALE;
    struct gelvomas_refusal refusal = {7, 7, 7, 7};

    /* The relation has berth, and the report does not. */
    expect("berth", (uint64_t)gelvomas_find_tables(h1, GELVOMAS_ATTRIBUTE(BERTH), &configuration, &refusal), 2);
    expect("berth, configuration", configuration, STALE);
    expect_refusal("berth, refusal", &refusal, 7, 7, 7, 7);

    /* Both, where ramps is on and swaps is off. */
    expect("vessel and ramp", (uint64_t)gelvomas_find_tables(h1, vessel_and_ramp, &configuration, &refusal), 0);
    expect("vessel and ramp, configuration", configuration, 1 << RAMPS);
    expect_refusal("vessel and ramp, refusal", &refusal, 7, 7, 7, 7);

    expect("no attribute", (uint64_t)gelvomas_find_tables(h1, no_attribute, &configuration, &refusal), 1);
    expect("no attribute, configuration of before", configuration, 1 << RAMPS);
    expect_refusal("no attribute", &refusal, GELVOMAS_REFUSED_WANTED, 0, 0, 0);
}

/* The page of H1 is written, and the bytes after it are as they were. A page that is
   a byte too short, or that is NULL, is refused and as it was. */
static void page_h1(const struct gelvomas_tables *h1)
{
    static const char wanted[] =
        "   0 o...............................................................  1\n"
        "   1 o...............................................................  1\n"
        "   2 o.o.............................................................  2\n"
        "   3 o.o.............................................................  2\n"
        "and what stood there";
    const size_t needed = 4 * GELVOMAS_PAGE_LINE;
    uint8_t page[LENGTH(wanted)];
    uint64_t lines = STALE;
    struct gelvomas_refusal refusal = {0, 0, 0, 0};
    memset(page, '?', needed);
    memcpy(page + needed, wanted + needed, sizeof wanted - needed);

    expect("too short", (uint64_t)gelvomas_page_tables(h1, page, needed - 1, &lines, &refusal), 1);
    expect_refusal("too short", &refusal, GELVOMAS_REFUSED_PAGE, 0, 0, 0);
    expect("too short, lines", lines, STALE);
    for (size_t at = 0; at < needed; at++) {
        expect("too short, a byte of the page", page[at], '?');
    }
    refusal.number = 0;
    expect("no page", (uint64_t)gelvomas_page_tables(h1, NULL, 0, &lines, &refusal), 1);
    expect_refusal("no page", &refusal, GELVOMAS_REFUSED_PAGE, 0, 0, 0);

    expect("page", (uint64_t)gelvomas_page_tables(h1, page, sizeof page, &lines, &refusal), 0);
    expect_refusal("page, refusal of before", &refusal, GELVOMAS_REFUSED_PAGE, 0, 0, 0);
    expect("page, lines", lines, 4);
    expect("page, its bytes", (uint64_t)memcmp(page, wanted, sizeof wanted), 0);
}

/* H10: with ramps the relation, else empty, projected as in H1. */
static const uint16_t h10_queries[] = {
    GELVOMAS_QUERY_RELATION, 0,          0, 0,
    GELVOMAS_QUERY_EMPTY,    0,          0, 0,
    GELVOMAS_QUERY_CHOICE,   WITH_RAMPS, 0, 1,
    GELVOMAS_QUERY_PROJECT,  2,          2, 0
};

/* H10 at 0: the project of empty keeps no entry. */
static void configure_h10(const struct gelvomas_tables *h10)
{
    static const uint16_t empty_entries[] = {VESSEL, 0, BERTH, 0};
    static const uint16_t empty_relations[] = {0, 2};
    static const uint16_t empty_queries[] = {
        GELVOMAS_QUERY_EMPTY,   0, 0, 0,
        GELVOMAS_QUERY_PROJECT, 0, 0, 0
    };
    uint16_t new_entries[LENGTH(h1_entries)];
    uint16_t new_relations[LENGTH(relations)];
    uint16_t new_queries[LENGTH(h10_queries)];
    struct gelvomas_lent lent = {
        .entries = new_entries,
        .entries_length = LENGTH(new_entries),
        .relations = new_relations,
        .relations_length = LENGTH(new_relations),
        .queries = new_queries,
        .queries_length = LENGTH(new_queries)
    };
    struct gelvomas_counts counts = {7, 7, 7, 7};
    struct gelvomas_refusal refusal = {7, 7, 7, 7};
    make_stale(new_entries, LENGTH(new_entries));
    make_stale(new_relations, LENGTH(new_relations));
    make_stale(new_queries, LENGTH(new_queries));
    expect("H10 at 0", (uint64_t)gelvomas_configure_tables(h10, 0, &lent, &counts, &refusal), 0);
    expect("H10 at 0, entries", counts.entries, 2);
    expect("H10 at 0, relations", counts.relations, 1);
    expect("H10 at 0, comparisons", counts.comparisons, 0);
    expect("H10 at 0, queries", counts.queries, 2);
    expect_table("H10 at 0, entries", new_entries, LENGTH(new_entries), empty_entries, LENGTH(empty_entries));
    expect_table("H10 at 0, relations", new_relations, LENGTH(new_relations), empty_relations, LENGTH(empty_relations));
    expect_table("H10 at 0, queries", new_queries, LENGTH(new_queries), empty_queries, LENGTH(empty_queries));
}

/* The readings of H10: refused strictly, which is the reading of a struct that does not
   name one, and accepted filled, by all four functions. */
static void read_h10(struct gelvomas_tables h10)
{
    uint64_t rows[GELVOMAS_ROWS];
    uint8_t page[4 * GELVOMAS_PAGE_LINE];
    uint64_t configuration = STALE;
    uint64_t lines = STALE;
    struct gelvomas_refusal refusal = {7, 7, 7, 7};
    h10.queries = h10_queries;
    h10.queries_length = LENGTH(h10_queries);
    check_refused("H10 strictly", &h10, GELVOMAS_REFUSED_PROJECTED_MISSING, 3, VESSEL, 0);
    h10.filled = true;
    expect("H10 filled", (uint64_t)gelvomas_check_tables(&h10, rows, &refusal), 0);
    for (size_t at = 0; at < GELVOMAS_ROWS; at++) {
        /* Vessel and ramp, at 2 and 3. */
        int is_column = at == VESSEL * GELVOMAS_ROW_WORDS || at == RAMP * GELVOMAS_ROW_WORDS;
        expect("H10 filled, a word of the rows", rows[at], is_column ? 0xC : 0);
    }
    configure_h10(&h10);
    expect("H10, vessel", (uint64_t)gelvomas_find_tables(&h10, GELVOMAS_ATTRIBUTE(VESSEL), &configuration, &refusal), 0);
    expect("H10, vessel, configuration", configuration, 1 << RAMPS);
    expect("H10, page", (uint64_t)gelvomas_page_tables(&h10, page, sizeof page, &lines, &refusal), 0);
    expect("H10, page, lines", lines, 4);
    expect_refusal("H10 filled, refusal", &refusal, 7, 7, 7, 7);
}

int main(void)
{
    struct gelvomas_tables h1 = with_entries(h1_entries, LENGTH(h1_entries));
    struct gelvomas_tables h2 = with_entries(h2_entries, LENGTH(h2_entries));
    struct gelvomas_tables none = {0};
    struct gelvomas_lent no_room = {0};
    struct gelvomas_counts counts;
    struct gelvomas_refusal refusal = {0, 0, 0, 0};
    uint64_t configuration;
    uint64_t lines;

    check_h1(&h1);
    check_refused("H2", &h2, GELVOMAS_REFUSED_PROJECTED_MISSING, 1, RAMP, 1);
    check_refused("no tables", &none, GELVOMAS_REFUSED_LENGTH, 0, 0, 0);
    compare_kinds(h1);
    read_h10(h1);
    no_attributes();
    configure_h1(&h1);
    expect("no room", (uint64_t)gelvomas_configure_tables(&h1, 0, &no_room, &counts, &refusal), 1);
    expect_refusal("no room", &refusal, GELVOMAS_REFUSED_ROOM, 1, 0, 0);
    find_in_h1(&h1);
    expect("in no tables", (uint64_t)gelvomas_find_tables(&none, 0, &configuration, &refusal), 1);
    expect_refusal("in no tables", &refusal, GELVOMAS_REFUSED_LENGTH, 0, 0, 0);
    page_h1(&h1);
    expect("page of no tables", (uint64_t)gelvomas_page_tables(&none, NULL, 0, &lines, &refusal), 1);
    expect_refusal("page of no tables", &refusal, GELVOMAS_REFUSED_LENGTH, 0, 0, 0);
    return differences == 0 ? 0 : 1;
}
