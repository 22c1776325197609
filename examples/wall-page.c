/* The page that planners pin up: that of the report of wall-page.harbour, under a
   heading with the names of its switches and columns. After `tools/build
   gelvomas`, in the repository's root:

   cc -Iinclude examples/wall-page.c target/staticlib/libgelvomas.a -o target/wall-page
   target/wall-page */

#include <inttypes.h>
#include <stdio.h>

#include "gelvomas.h"

#define LENGTH(table) (sizeof(table) / sizeof((table)[0]))

enum { VESSEL, BERTH, HOUR, PILOT, TUG, LAMPS, ORIGIN, DESTINATION, ATTRIBUTES };
enum { PILOTS, TUGS, NIGHT_BERTHS, FEATURES };
enum { ALWAYS, WITH_PILOTS, WITH_TUGS, AT_NIGHT, WITH_TUGS_AT_NIGHT, NO_TUGS_AT_NIGHT, SOLD };
enum { ARRIVALS, DEPARTURES };

static const char *const switches[FEATURES] = {"pilots", "tugs", "night berths"};
static const char *const columns[ATTRIBUTES] = {
    "Vessel", "Berth", "Hour", "Pilot", "Tug", "Lamps", "Origin", "Destination"
};

/* Tugs at night are sold with pilots only: SOLD is the feature model. */
static const uint16_t expressions[] = {
    GELVOMAS_EXPRESSION_TRUE,    0,                  0,
    GELVOMAS_EXPRESSION_FEATURE, PILOTS,             0,
    GELVOMAS_EXPRESSION_FEATURE, TUGS,               0,
    GELVOMAS_EXPRESSION_FEATURE, NIGHT_BERTHS,       0,
    GELVOMAS_EXPRESSION_AND,     WITH_TUGS,          AT_NIGHT,
    GELVOMAS_EXPRESSION_NOT,     WITH_TUGS_AT_NIGHT, 0,
    GELVOMAS_EXPRESSION_OR,      WITH_PILOTS,        NO_TUGS_AT_NIGHT
};
static const uint16_t entries[] = {
    /* the arrivals' and the departures' */
    VESSEL, ALWAYS, BERTH, ALWAYS, HOUR, ALWAYS, ORIGIN, ALWAYS, PILOT, WITH_PILOTS, TUG, WITH_TUGS, LAMPS, AT_NIGHT,
    VESSEL, ALWAYS, BERTH, ALWAYS, HOUR, ALWAYS, DESTINATION, ALWAYS, PILOT, WITH_PILOTS, TUG, WITH_TUGS, LAMPS, AT_NIGHT,
    /* those of the projects, to what both have */
    VESSEL, ALWAYS, BERTH, ALWAYS, HOUR, ALWAYS, PILOT, WITH_PILOTS, TUG, WITH_TUGS, LAMPS, AT_NIGHT,
    VESSEL, ALWAYS, BERTH, ALWAYS, HOUR, ALWAYS, PILOT, WITH_PILOTS, TUG, WITH_TUGS, LAMPS, AT_NIGHT
};
static const uint16_t relations[] = {ALWAYS, 7, ALWAYS, 7};
static const uint16_t queries[] = {
    GELVOMAS_QUERY_RELATION, ARRIVALS,   0, 0,
    GELVOMAS_QUERY_PROJECT,  6,          0, 0,
    GELVOMAS_QUERY_RELATION, DEPARTURES, 0, 0,
    GELVOMAS_QUERY_PROJECT,  6,          2, 0,
    GELVOMAS_QUERY_UNION,    1,          3, 0
};
static const uint16_t kinds[ATTRIBUTES] = {
    [VESSEL] = GELVOMAS_KIND_NAME,
    [BERTH] = GELVOMAS_KIND_NAME,
    [HOUR] = GELVOMAS_KIND_MOMENT,
    [PILOT] = GELVOMAS_KIND_NAME,
    [TUG] = GELVOMAS_KIND_NAME,
    [LAMPS] = GELVOMAS_KIND_COUNT,
    [ORIGIN] = GELVOMAS_KIND_NAME,
    [DESTINATION] = GELVOMAS_KIND_NAME
};

/* What the number of a line stands for, and its marks: each has the first letter of
   its column above it. */
static void print_heading(void)
{
    printf("Switches on, added up:");
    for (int feature = 0; feature < FEATURES; feature++) {
        printf("%s %d %s", feature == 0 ? "" : ",", 1 << feature, switches[feature]);
    }
    printf("\nColumns:");
    for (int attribute = 0; attribute < ATTRIBUTES; attribute++) {
        printf("%s %s", attribute == 0 ? "" : ",", columns[attribute]);
    }
    printf("\n     ");
    for (int attribute = 0; attribute < ATTRIBUTES; attribute++) {
        putchar(columns[attribute][0]);
    }
    puts("");
}

int main(void)
{
    struct gelvomas_tables tables = {
        FEATURES, ATTRIBUTES, SOLD, expressions, LENGTH(expressions), entries, LENGTH(entries),
        relations, LENGTH(relations), NULL, 0, queries, LENGTH(queries), kinds, LENGTH(kinds), false
    };
    /* Room for a line for each configuration, sold or not. */
    uint8_t page[GELVOMAS_PAGE_LINE << FEATURES];
    uint64_t lines;
    struct gelvomas_refusal refusal;
    if (gelvomas_page_tables(&tables, page, sizeof page, &lines, &refusal) == 1) {
        printf("refused %" PRIu64 " %" PRIu64 " %" PRIu64 " %" PRIu64 "\n",
               refusal.number, refusal.place, refusal.item, refusal.configuration);
        return 1;
    }
    print_heading();
    fwrite(page, GELVOMAS_PAGE_LINE, (size_t)lines, stdout);
    return 0;
}
