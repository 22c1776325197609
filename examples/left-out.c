/* Fill in what I left out. The report of left-out.harbour does not repeat the schema's
   conditions: strictly it is refused, and read as filled it is accepted. Its columns, and
   the report that it becomes where ramps is off and lorries is on, as a harbour file.
   After `tools/build gelvomas`, in the repository's root:

   cc -Iinclude examples/left-out.c target/staticlib/libgelvomas.a -o target/left-out
   target/left-out */

#include <inttypes.h>
#include <stdio.h>

#include "gelvomas.h"

#define LENGTH(table) (sizeof(table) / sizeof((table)[0]))

enum { SAILING, DEPARTURE, RAMP, LORRY, ATTRIBUTES };
enum { RAMPS, LORRIES, FEATURES };
enum { ALWAYS, WITH_RAMPS, WITH_LORRIES };
enum { SAILINGS, BOOKINGS };

static const char *const columns[ATTRIBUTES] = {"sailing", "departure", "ramp", "lorry"};

static const uint16_t expressions[] = {
    GELVOMAS_EXPRESSION_TRUE,    0,       0,
    GELVOMAS_EXPRESSION_FEATURE, RAMPS,   0,
    GELVOMAS_EXPRESSION_FEATURE, LORRIES, 0
};
/* The schema has conditions: bookings are there with ramps, and have a lorry with lorries. */
static const uint16_t entries[] = {
    SAILING, ALWAYS, DEPARTURE, ALWAYS,        /* of the sailings */
    RAMP, ALWAYS, LORRY, WITH_LORRIES,         /* of the bookings */
    SAILING, ALWAYS, RAMP, ALWAYS, LORRY, ALWAYS /* of the project */
};
static const uint16_t relations[] = {ALWAYS, 2, WITH_RAMPS, 2};
/* The report has none: it asks for the bookings, and their ramp and lorry, everywhere. */
static const uint16_t queries[] = {
    GELVOMAS_QUERY_RELATION, SAILINGS, 0, 0,
    GELVOMAS_QUERY_RELATION, BOOKINGS, 0, 0,
    GELVOMAS_QUERY_PRODUCT,  0,        1, 0,
    GELVOMAS_QUERY_PROJECT,  3,        2, 0
};
static const uint16_t kinds[ATTRIBUTES] = {GELVOMAS_KIND_NAME, GELVOMAS_KIND_MOMENT, GELVOMAS_KIND_NAME, GELVOMAS_KIND_NAME};

/* Checks the report in its reading, and prints the refusal, or the columns at each
   configuration. */
static void check(const char *reading, const struct gelvomas_tables *tables)
{
    uint64_t rows[GELVOMAS_ROWS];
    struct gelvomas_refusal refusal;
    if (gelvomas_check_tables(tables, rows, &refusal) == 1) {
        printf("%s: refused %" PRIu64 " %" PRIu64 " %" PRIu64 " %" PRIu64 "\n",
               reading, refusal.number, refusal.place, refusal.item, refusal.configuration);
        return;
    }
    printf("%s: accepted\n", reading);
    for (int configuration = 0; configuration < 1 << FEATURES; configuration++) {
        printf("  at %d", configuration);
        for (int attribute = 0; attribute < ATTRIBUTES; attribute++) {
            if (rows[GELVOMAS_ROW_WORDS * attribute] >> configuration & 1) {
                printf(" %s", columns[attribute]);
            }
        }
        puts("");
    }
}

/* The forms of a table as lines of a harbour file. */
static void print_forms(const char *word, const uint16_t *table, uint64_t forms, int words)
{
    for (uint64_t form = 0; form < forms; form++) {
        printf("(%s", word);
        for (int at = 0; at < words; at++) {
            printf(" %u", *table++);
        }
        puts(")");
    }
}

/* Prints the report that it becomes at a configuration, with the head and the expression
   that are not written. It has no comparisons. */
static void configure(const struct gelvomas_tables *tables, uint64_t configuration)
{
    uint16_t new_entries[LENGTH(entries)];
    uint16_t new_relations[LENGTH(relations)];
    uint16_t new_queries[LENGTH(queries)];
    struct gelvomas_lent lent = {
        new_entries, LENGTH(new_entries), new_relations, LENGTH(new_relations), NULL, 0, new_queries, LENGTH(new_queries)
    };
    struct gelvomas_counts counts;
    struct gelvomas_refusal refusal;
    if (gelvomas_configure_tables(tables, configuration, &lent, &counts, &refusal) == 1) {
        printf("refused %" PRIu64 "\n", refusal.number);
        return;
    }
    printf("configured at %" PRIu64 ":\n(head 0 %d 0)\n(expression 1 0 0)\n", configuration, ATTRIBUTES);
    print_forms("entry", new_entries, counts.entries, GELVOMAS_ENTRY_WORDS);
    print_forms("relation", new_relations, counts.relations, GELVOMAS_RELATION_WORDS);
    print_forms("query", new_queries, counts.queries, GELVOMAS_QUERY_WORDS);
    print_forms("kind", kinds, ATTRIBUTES, 1);
}

int main(void)
{
    struct gelvomas_tables tables = {
        FEATURES, ATTRIBUTES, ALWAYS, expressions, LENGTH(expressions), entries, LENGTH(entries),
        relations, LENGTH(relations), NULL, 0, queries, LENGTH(queries), kinds, LENGTH(kinds), false
    };
    check("strict", &tables);
    tables.filled = true;
    check("filled", &tables);
    configure(&tables, 1 << LORRIES);
    return 0;
}
