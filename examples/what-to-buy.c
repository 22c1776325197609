/* Which switches give me these columns? The report of what-to-buy.harbour, and the
   lowest permitted configuration at which it has vessel, ramp and tide. After
   `tools/build gelvomas`, in the repository's root:

   cc -Iinclude examples/what-to-buy.c target/staticlib/libgelvomas.a -o target/what-to-buy
   target/what-to-buy */

#include <inttypes.h>
#include <stdio.h>

#include "gelvomas.h"

enum { VESSEL, BERTH, RAMP, TIDE, ATTRIBUTES };
enum { SWAPS, RAMPS, TIDE_GATES, FEATURES };
enum { ALWAYS, WITH_SWAPS, WITH_RAMPS, WITH_TIDE_GATES, WITH_SWAPS_AND_TIDE_GATES, SOLD };

static const char *const switches[FEATURES] = {"swaps", "ramps", "tide gates"};

/* Swaps and tide gates are not sold together: SOLD is the feature model. */
static const uint16_t expressions[] = {
    GELVOMAS_EXPRESSION_TRUE,    0,                         0,
    GELVOMAS_EXPRESSION_FEATURE, SWAPS,                     0,
    GELVOMAS_EXPRESSION_FEATURE, RAMPS,                     0,
    GELVOMAS_EXPRESSION_FEATURE, TIDE_GATES,                0,
    GELVOMAS_EXPRESSION_AND,     WITH_SWAPS,                WITH_TIDE_GATES,
    GELVOMAS_EXPRESSION_NOT,     WITH_SWAPS_AND_TIDE_GATES, 0
};
static const uint16_t entries[] = {
    VESSEL, ALWAYS, BERTH, ALWAYS, RAMP, WITH_RAMPS, TIDE, WITH_TIDE_GATES, /* the relation's */
    VESSEL, ALWAYS, RAMP, WITH_RAMPS, TIDE, WITH_TIDE_GATES                 /* the project's */
};
static const uint16_t relations[] = {ALWAYS, 4};
static const uint16_t queries[] = {
    GELVOMAS_QUERY_RELATION, 0, 0, 0,
    GELVOMAS_QUERY_PROJECT,  3, 0, 0
};
static const uint16_t kinds[ATTRIBUTES] = {GELVOMAS_KIND_NAME, GELVOMAS_KIND_NAME, GELVOMAS_KIND_NAME, GELVOMAS_KIND_MOMENT};

int main(void)
{
    struct gelvomas_tables tables = {FEATURES, ATTRIBUTES, SOLD, expressions, 18, entries, 14, relations, 2, NULL, 0, queries, 8, kinds, ATTRIBUTES, false};
    uint64_t wanted = GELVOMAS_ATTRIBUTE(VESSEL) | GELVOMAS_ATTRIBUTE(RAMP) | GELVOMAS_ATTRIBUTE(TIDE);
    uint64_t configuration;
    struct gelvomas_refusal refusal;
    switch (gelvomas_find_tables(&tables, wanted, &configuration, &refusal)) {
    case 0:
        printf("configuration %" PRIu64 ":", configuration);
        for (int feature = 0; feature < FEATURES; feature++) {
            printf("%s %s %s", feature == 0 ? "" : ",", switches[feature], configuration >> feature & 1 ? "on" : "off");
        }
        puts("");
        return 0;
    case 1:
        printf("refused %" PRIu64 " %" PRIu64 " %" PRIu64 " %" PRIu64 "\n",
               refusal.number, refusal.place, refusal.item, refusal.configuration);
        return 1;
    default:
        puts("no configuration that is sold has them all");
        return 0;
    }
}
