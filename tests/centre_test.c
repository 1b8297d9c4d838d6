/*
 * sheet_centre against the second implementation, bit for bit, and against
 * answers worked out by hand.
 */
#include <inttypes.h>
#include <string.h>

#include "second/second.h"
#include "sheet.h"
#include "support/dice.h"
#include "support/ground.h"
#include "support/lender.h"
#include "support/met.h"
#include "support/report.h"
#include "support/sample.h"
#include "support/table.h"
#include "support/words.h"

enum { LEAST_INPUTS = 1000000, SHEETS = 4500, TRIPLES = 256, MOST_NODES = 90, MOST_PLACE = 6 };

/* Which of the three numbers the refusals with code 11 named; and, for each
 * axis, sums that one rounding instead of two would change, and centres at an
 * origin of -0. */
static uint32_t met_wrong_number[3], met_not_fused[2], met_minus_zero[2];

static struct lender table_lender, place_lender;
static struct table table;

/* ---- one call */

/* Lends a table and a place; the place afterwards must be the one wanted, to
 * the last bit. */
static int gives(uint32_t level, const uint32_t *words, size_t length, uint32_t node, struct ground g,
                 const double *place, size_t place_length, uint64_t wanted, const double *wanted_place)
{
    uint32_t *lent_table = lend_to_read(&table_lender, words, length * sizeof *words, met_turn());
    double *lent = lend(&place_lender, place, place_length * sizeof *place, met_turn());
    uint64_t given = sheet_centre(level, lent_table, length, node, g.east, g.north, g.step, lent, place_length);
    int right = lent_unchanged(&table_lender) && lent_holds(&place_lender, wanted_place);
    return met_answer(wanted, given, right,
                      "level %" PRIu32 ", %zu words, node %" PRIu32 ", east %a, north %a, step %a, %zu numbers", level,
                      length, node, g.east, g.north, g.step, place_length);
}

/* Is the product of a number of half pixels and a step not exact? */
static int is_rounded(uint32_t half_pixels, double step)
{
    uint64_t product = half_pixels * ((bits_of(step) & UINT64_C(0xfffffffffffff)) | UINT64_C(1) << 52);
    while (product != 0 && product % 2 == 0)
        product /= 2;
    return product >> 53 != 0;
}

/* A sum or a difference that came to nothing: with one rounding for the product
 * and the sum, what the product's rounding lost would be left. */
static void meet_zeros(uint32_t node, struct ground g, const double *place)
{
    struct second_block b = second_block(table.level, table.words, node);
    if (place[0] == 0) {
        met_not_fused[0] += is_rounded(2 * b.left + b.side - 1, g.step);
        met_minus_zero[0] += bits_of(g.east) == bits_of(-0.0);
    }
    if (place[1] == 0) {
        met_not_fused[1] += is_rounded(2 * b.top + b.side - 1, g.step);
        met_minus_zero[1] += bits_of(g.north) == bits_of(-0.0);
    }
}

/* Holds the library against the second implementation. */
static void compare(uint32_t node, struct ground g, const double *place, size_t place_length)
{
    double wanted_place[MOST_PLACE];
    memcpy(wanted_place, place, place_length * sizeof *place);
    uint64_t wanted = second_centre(table.level, table.words, table.length, node, g.east, g.north, g.step, wanted_place,
                                    place_length);
    gives(table.level, table.words, table.length, node, g, place, place_length, wanted, wanted_place);
    if (wanted % 256 == SHEET_BAD_GROUND)
        met_wrong_number[wanted / 256]++;
    if (wanted % 256 == SHEET_OK)
        meet_zeros(node, g, wanted_place);
}

/* ---- answers worked out by hand */

static const uint32_t sheet_a[] = {SHEET_A};

#define TINY 4.9406564584124654e-324

struct vector {
    const char *name;
    uint32_t node;
    struct ground ground;
    uint32_t code, value;
    double place[2];
};

static const struct vector vectors[] = {
    {"node 1 of sheet A", 1, {1000, 2000, 10}, 0, 0, {1005, 1995}},
    {"the root of sheet A", 0, {1000, 2000, 10}, 0, 0, {1015, 1985}},
    {"node 2, a fork", 2, {1000, 2000, 10}, 0, 0, {1025, 1995}},
    {"node 6, a pixel", 6, {1000, 2000, 10}, 0, 0, {1030, 1990}},
    {"node 7, to the south", 7, {1000, 2000, 10}, 0, 0, {1005, 1975}},
    {"node 4, a pixel of the top row", 4, {1000, -0.0, 10}, 0, 0, {1030, -0.0}},
    {"a sum of nothing is +0", 1, {-10, 10, 20}, 0, 0, {0.0, 0.0}},
    {"minus zero is in range", 1, {-0.0, -0.0, 10}, 0, 0, {5, -5}},
    {"the smallest numbers are in range", 1, {TINY, -TINY, 10}, 0, 0, {5, -5}},
    {"the upper limits are in range", 1, {EAST_LIMIT, EAST_LIMIT, STEP_MOST}, 0, 0, {16785408, 16769024}},
    {"the lower limits are in range", 1, {-EAST_LIMIT, -EAST_LIMIT, STEP_LEAST}, 0, 0,
     {-16777216 + STEP_LEAST / 2, -16777216 - STEP_LEAST / 2}},
    /* 2.5 * step lies between 2.5 + 2^-51 and its next, nearer to the first;
     * 1.5 * step lies half way and goes to the even 1.5 + 2^-51. */
    {"the product is rounded before the sum", 8, {-2.5, 2.5, 1 + 0x1p-52}, 0, 0, {0x1p-51, -0x1p-51}},
    {"half way it goes to the even number", 0, {-1.5, 1.5, 1 + 0x1p-52}, 0, 0, {0x1p-51, -0x1p-51}},
    {"east just above its limit", 1, {EAST_LIMIT + 0x1p-28, 0, 1}, 11, 0, {0, 0}},
    {"north just below its limit", 1, {0, -EAST_LIMIT - 0x1p-28, 1}, 11, 1, {0, 0}},
    {"step just above its limit", 1, {0, 0, STEP_MOST + 0x1p-38}, 11, 2, {0, 0}},
    {"step just below its limit", 1, {0, 0, STEP_LEAST - 0x1p-63}, 11, 2, {0, 0}},
    {"step 0", 1, {0, 0, 0}, 11, 2, {0, 0}},
    {"all three wrong: east is named", 1, {-20000000, 20000000, -1}, 11, 0, {0, 0}},
    {"node 9 is not there", 9, {1000, 2000, 10}, 6, 9, {0, 0}},
    {"node 9 comes before the ground", 9, {20000000, 2000, 10}, 6, 9, {0, 0}},
};

static void run_vectors(void)
{
    for (size_t i = 0; i < sizeof vectors / sizeof *vectors; i++) {
        const struct vector *v = &vectors[i];
        double before[] = {-1, -2, -3}, after[] = {-1, -2, -3};
        if (v->code == SHEET_OK)
            memcpy(after, v->place, sizeof v->place);
        report_check(v->name, gives(2, sheet_a, 54, v->node, v->ground, before, 3, packed(v->code, v->value), after));
    }
}

/* A sheet of one pixel: its centre is the place itself, but that -0 + 0 is +0. */
static void run_origins(void)
{
    static const uint32_t pixel[] = {LEAF(NO, B)};
    static const struct {
        const char *name;
        struct ground ground;
        double place[2];
    } origins[] = {
        {"the top left pixel lies at east and north", {1000, 2000, 10}, {1000, 2000}},
        {"whatever the step", {1000, 2000, STEP_MOST}, {1000, 2000}},
        {"at the upper limits", {EAST_LIMIT, EAST_LIMIT, STEP_MOST}, {EAST_LIMIT, EAST_LIMIT}},
        {"at the lower limits", {-EAST_LIMIT, -EAST_LIMIT, STEP_LEAST}, {-EAST_LIMIT, -EAST_LIMIT}},
        {"at the smallest numbers", {TINY, -TINY, 10}, {TINY, -TINY}},
        {"at zero", {0.0, 0.0, 10}, {0.0, 0.0}},
        {"at minus zero: east is +0, north -0", {-0.0, -0.0, 10}, {0.0, -0.0}},
    };
    for (size_t i = 0; i < sizeof origins / sizeof *origins; i++) {
        double before[] = {-1, -2, -3}, after[] = {origins[i].place[0], origins[i].place[1], -3};
        report_check(origins[i].name, gives(0, pixel, 6, 0, origins[i].ground, before, 3, packed(0, 0), after));
    }
}

static void run_short_places(void)
{
    struct ground good = {1000, 2000, 10}, bad = {1000, 2000, -10};
    double place[] = {-1, -2};
    report_check("a place of one number is too short", gives(2, sheet_a, 54, 1, good, place, 1, packed(9, 2), place));
    report_check("no place is too short",
                 sheet_centre(2, sheet_a, 54, 1, good.east, good.north, good.step, NULL, 0) == packed(9, 2));
    report_check("the ground comes before the room",
                 sheet_centre(2, sheet_a, 54, 1, bad.east, bad.north, bad.step, NULL, 0) == packed(11, 2));
    report_check("no table and no place is a bad length",
                 sheet_centre(2, NULL, 0, 1, bad.east, bad.north, bad.step, NULL, 0) == packed(2, 0));
    report_check("no table at level 8 is a bad level",
                 sheet_centre(8, NULL, 0, 1, bad.east, bad.north, bad.step, NULL, 0) == packed(1, 0));
}

/* ---- numbers drawn */

/* A place with anything in it, half of it NaNs. Gives back how many numbers. */
static size_t draw_place(double *place, struct dice *d)
{
    static const size_t lengths[] = {0, 1, 2, 2, 2, 3, 3, MOST_PLACE};
    for (int i = 0; i < MOST_PLACE; i++)
        place[i] = number_of(dice_below(d, 2) ? ground_draw_nan(d) : ground_draw_bits(d));
    return lengths[dice_below(d, sizeof lengths / sizeof *lengths)];
}

/* ---- the second implementation */

static void compare_ground(uint32_t node, struct ground g, struct dice *d)
{
    double place[MOST_PLACE];
    size_t length = draw_place(place, d);
    compare(node, g, place, length);
}

static void compare_numbers(void)
{
    struct dice d = dice_from(61);
    for (uint32_t i = 0; i < SHEETS; i++) {
        do
            sample_make(&table, i % 2 ? SAMPLE_PREORDER : SAMPLE_RENUMBERED, &d);
        while (table_count(&table) > MOST_NODES);
        for (uint32_t triple = 0; triple < TRIPLES; triple++) {
            uint32_t node = dice_below(&d, table_count(&table));
            struct ground g = triple % 8 ? ground_draw(&d)
                                         : ground_draw_cancelling(table.level, table.words, node, &d);
            compare_ground(node, g, &d);
        }
    }
}

/* Every node of sheets of any size, on a good ground. */
static void compare_nodes(void)
{
    static struct picture pic;
    struct dice d = dice_from(62);
    for (uint32_t i = 0; i < 400; i++) {
        do {
            picture_draw(&pic, (enum picture_kind)dice_below(&d, PICTURE_KINDS), i % 8, &d);
            table_in_turn(&table, &pic, i / 8, &d);
        } while (table_count(&table) > 700);
        for (uint32_t node = 0; node < table_count(&table); node++) {
            struct ground g = {ground_draw_number(-10, 34, &d), ground_draw_number(-10, 34, &d),
                               1 + dice_below(&d, 1000) / 7.0};
            compare_ground(node, g, &d);
        }
    }
}

static void compare_samples(void)
{
    struct dice d = dice_from(63);
    for (uint32_t i = 0; i < 48000; i++) {
        sample_make(&table, (enum sample)(i % SAMPLES), &d);
        uint32_t node = sample_node(&table, &d);
        compare_ground(node, ground_draw(&d), &d);
    }
}

static void run_coverage(void)
{
    static const uint32_t codes[] = {0, 1, 2, 3, 4, 5, 6, 9, 11};
    met_report(codes, sizeof codes / sizeof *codes, LEAST_INPUTS);
    for (uint32_t number = 0; number < 3; number++)
        met_often("code 11 for number", number, met_wrong_number[number]);
    for (uint32_t axis = 0; axis < 2; axis++)
        met_often("a sum that fusing would change, axis", axis, met_not_fused[axis]);
    for (uint32_t axis = 0; axis < 2; axis++)
        met_often("a centre at an origin of -0, axis", axis, met_minus_zero[axis]);
}

int main(void)
{
    table_lender = lender_open(sizeof table.words);
    place_lender = lender_open(MOST_PLACE * sizeof(double));
    run_vectors();
    run_origins();
    run_short_places();
    met_group("numbers of every kind", compare_numbers);
    met_group("every node of a sheet", compare_nodes);
    met_group("sound and unsound tables", compare_samples);
    run_coverage();
    return report_end();
}
