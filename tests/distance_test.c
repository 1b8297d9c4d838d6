/*
 * sheet_distance against the second implementation, and against answers worked
 * out by hand. The bounds that document 01 gives for every black leaf are
 * looked at besides.
 */
#include <inttypes.h>

#include "second/second.h"
#include "sheet.h"
#include "support/dice.h"
#include "support/lender.h"
#include "support/met.h"
#include "support/report.h"
#include "support/sample.h"
#include "support/table.h"
#include "support/words.h"

enum { LEAST_INPUTS = 100000, SMALL_SHEETS = 24000, LARGE_SHEETS = 300, MOST_LARGE_BLACK = 2500 };
enum { ROOM = SHEET_LONGEST_TABLE / SHEET_NODE_WORDS + 8 };

/* How near white is to a black leaf of side w. */
enum nearness { TOUCHING /* w */, APART /* more */, FARTHEST /* 3w - 2, and w above 1 */, NEARNESSES };

/* Which slice the refusals with code 2 named, and how near white was. */
static uint32_t met_wrong_slice[2], met_nearness[NEARNESSES];

static struct lender table_lender, distance_lender;
static struct table table;
static uint32_t wanted_words[ROOM];

/* ---- one call */

/* Lends a table and so many words for its distances; the words afterwards must
 * be those wanted on an answer, and untouched on a refusal. */
static int gives(uint32_t level, const uint32_t *words, size_t length, size_t distances, uint64_t wanted,
                 const uint32_t *wanted_distances)
{
    uint32_t *lent_table = lend_to_read(&table_lender, words, length * sizeof *words, met_turn());
    uint32_t *lent = lend_pattern(&distance_lender, distances * sizeof *lent, met_turn());
    uint64_t given = sheet_distance(level, lent_table, length, lent, distances);
    int right = lent_unchanged(&table_lender) && (wanted % 256 == SHEET_OK
                                                      ? lent_holds(&distance_lender, wanted_distances)
                                                      : lent_unchanged(&distance_lender));
    return met_answer(wanted, given, right, "level %" PRIu32 ", %zu words, %zu distances", level, length, distances);
}

static int is_in_bounds(uint32_t side, uint32_t distance)
{
    return distance >= side && distance <= 3 * side - 2 && (distance - side) % 2 == 0;
}

static enum nearness nearness_of(uint32_t side, uint32_t distance)
{
    return distance == side ? TOUCHING : distance < 3 * side - 2 ? APART : FARTHEST;
}

/* Are the distances that were written 0 for all but black leaves, and for those
 * from w to 3w - 2, an even amount above w? */
static int bounds_hold(void)
{
    const uint32_t *distances = (const uint32_t *)(const void *)distance_lender.lent;
    for (uint32_t p = 0; p < table_count(&table); p++) {
        uint32_t side = second_block(table.level, table.words, p).side;
        if (table_node(&table, p)[SHEET_TYPE_WORD] != SHEET_BLACK) {
            if (distances[p] != 0)
                return 0;
        } else if (p == 0) {
            if (distances[p] != SHEET_NO_WHITE)
                return 0;
        } else {
            if (!is_in_bounds(side, distances[p]))
                return 0;
            met_nearness[nearness_of(side, distances[p])]++;
        }
    }
    return 1;
}

/* Holds the library against the second implementation. */
static void compare(size_t distances)
{
    uint64_t wanted = second_distance(table.level, table.words, table.length, wanted_words, distances);
    gives(table.level, table.words, table.length, distances, wanted, wanted_words);
    if (wanted % 256 == SHEET_BAD_LENGTH)
        met_wrong_slice[wanted / 256]++;
    if (wanted == SHEET_OK)
        met.unequal += !bounds_hold();
}

/* ---- answers worked out by hand */

struct vector {
    const char *name;
    uint32_t level;
    size_t nodes;
    uint32_t distances[9];
    uint32_t words[9 * 6];
};

static const struct vector vectors[] = {
    {"sheet A: 2 at node 1, 1 at node 6", 2, 9, {0, 2, 0, 0, 0, 0, 1, 0, 0}, {SHEET_A}},
    {"the estate: its ponds' distances", 3, 9, {0, 4, 0, 0, 2, 0, 2, 0, 0}, {ESTATE}},
    /* Rows 1110, 1110, 1111, 1111: the white pixels are nodes 4 and 6. */
    {"land at the far side of a quarter: 4 at NW and SW, 2 at SE", 2, 9, {0, 4, 0, 1, 0, 1, 0, 4, 2},
     {FORK(NO, 1, 2, 7, 8), LEAF(0, B), FORK(0, 3, 4, 5, 6), LEAF(2, B), LEAF(2, W), LEAF(2, B), LEAF(2, W),
      LEAF(0, B), LEAF(0, B)}},
    {"one black pixel", 0, 1, {SHEET_NO_WHITE}, {LEAF(NO, B)}},
    {"one black leaf at level 7", 7, 1, {SHEET_NO_WHITE}, {LEAF(NO, B)}},
    {"one white leaf", 3, 1, {0}, {LEAF(NO, W)}},
    {"a quarter of land: each black quarter gets its side", 5, 5, {0, 16, 16, 0, 16},
     {FORK(NO, 1, 2, 3, 4), LEAF(0, B), LEAF(0, B), LEAF(0, W), LEAF(0, B)}},
    {"sons from SE to NW", 1, 5, {0, 1, 0, 1, 1},
     {FORK(NO, 4, 3, 2, 1), LEAF(0, B), LEAF(0, W), LEAF(0, B), LEAF(0, B)}},
};

static void run_vectors(void)
{
    for (size_t i = 0; i < sizeof vectors / sizeof *vectors; i++) {
        const struct vector *v = &vectors[i];
        report_check(v->name, gives(v->level, v->words, v->nodes * SHEET_NODE_WORDS, v->nodes, packed(0, 0), v->distances));
    }
}

/* With the one white pixel in the sheet's SE corner every black leaf is as far
 * from it as a leaf of its side can be. In preorder the root is followed, for
 * each side from 64 down, by three leaves and what holds the pixel. */
static void run_farthest(void)
{
    static struct picture pic;
    uint32_t wanted[29] = {0}, *next = wanted + 1;
    for (uint32_t side = 64; side > 0; side /= 2) {
        for (int leaf = 0; leaf < 3; leaf++)
            *next++ = 3 * side - 2;
        *next++ = 0;
    }
    picture_draw_lone_pixel(&pic, 7, 127, 127);
    table_of_picture(&table, &pic);
    report_check("a lone white pixel at level 7 is 3w - 2 from every leaf",
                 table_count(&table) == 29 && gives(7, table.words, table.length, 29, packed(0, 0), wanted));
}

static void run_empty_slices(void)
{
    static const uint32_t sheet_a[] = {SHEET_A};
    uint32_t word = 7;
    report_check("no table and no distances is a bad length of the table",
                 sheet_distance(7, NULL, 0, NULL, 0) == packed(2, 0));
    report_check("no table at level 8 is a bad level", sheet_distance(8, NULL, 0, NULL, 0) == packed(1, 0));
    report_check("no table and one distance is a bad length of the table",
                 sheet_distance(7, NULL, 0, &word, 1) == packed(2, 0) && word == 7);
    report_check("no distances is a bad length of the distances",
                 sheet_distance(2, sheet_a, sizeof sheet_a / sizeof *sheet_a, NULL, 0) == packed(2, 1));
}

/* ---- the second implementation */

static void compare_picture(const struct picture *pic, uint32_t turn, struct dice *d)
{
    table_in_turn(&table, pic, turn, d);
    compare(table_count(&table));
}

static void compare_every_picture(void)
{
    static struct picture pic;
    struct dice d = dice_from(51);
    for (uint32_t level = 0; level <= 2; level++)
        for (uint32_t bits = 0; bits < UINT32_C(1) << (1 << 2 * level); bits++) {
            picture_of_bits(&pic, level, bits);
            compare_picture(&pic, bits, &d);
        }
}

static void compare_small_sheets(void)
{
    static struct picture pic;
    struct dice d = dice_from(52);
    for (uint32_t i = 0; i < SMALL_SHEETS; i++) {
        picture_draw(&pic, (enum picture_kind)(i % PICTURE_KINDS), i / PICTURE_KINDS % 6, &d);
        compare_picture(&pic, dice_word(&d), &d);
    }
}

static uint32_t count_black(void)
{
    uint32_t black = 0;
    for (uint32_t p = 0; p < table_count(&table); p++)
        black += table_node(&table, p)[SHEET_TYPE_WORD] == SHEET_BLACK;
    return black;
}

/* Trying every white pixel for every black leaf takes too long where there are
 * many of both. */
static void compare_large_sheets(void)
{
    static struct picture pic;
    struct dice d = dice_from(53);
    for (uint32_t i = 0; i < LARGE_SHEETS; i++) {
        do {
            picture_draw(&pic, (enum picture_kind)dice_below(&d, PICTURE_KINDS), 6 + i % 2, &d);
            table_in_turn(&table, &pic, i / 2, &d);
        } while (count_black() > MOST_LARGE_BLACK);
        compare(table_count(&table));
    }
}

static void compare_longest_table(void)
{
    static struct picture pic;
    struct dice d = dice_from(54);
    picture_draw(&pic, PICTURE_CHESSBOARD, 7, &d);
    compare_picture(&pic, NUMBER_RANDOM, &d);
}

/* A lone white pixel in each corner, and beside the middle. */
static void compare_lone_pixels(void)
{
    static struct picture pic;
    struct dice d = dice_from(55);
    for (uint32_t level = 0; level <= SHEET_HIGHEST_LEVEL; level++)
        for (uint32_t place = 0; place < 16 * 4; place++) {
            uint32_t last = (UINT32_C(1) << level) - 1, at[] = {0, last, last / 2, (last + 1) / 2};
            picture_draw_lone_pixel(&pic, level, at[place % 4], at[place / 4 % 4]);
            compare_picture(&pic, place / 16, &d);
        }
}

/* One to four white pixels anywhere: most leaves are far from them. */
static void compare_few_white_pixels(void)
{
    static struct picture pic;
    struct dice d = dice_from(58);
    for (uint32_t i = 0; i < 6000; i++) {
        uint32_t level = 1 + i % SHEET_HIGHEST_LEVEL, side = UINT32_C(1) << level;
        picture_draw_lone_pixel(&pic, level, dice_below(&d, side), dice_below(&d, side));
        for (uint32_t more = dice_below(&d, 4); more > 0; more--)
            pic.pixels[dice_below(&d, side * side)] = 0;
        compare_picture(&pic, i / 8, &d);
    }
}

/* ---- refusals */

/* So many distances for a table: the right number or, mostly, another one. */
static size_t draw_distances(struct dice *d)
{
    uint32_t count = table_count(&table);
    switch (dice_below(d, 8)) {
    case 0: return 0;
    case 1: return count > 0 ? count - 1 : 1;
    case 2: return count + 1;
    case 3: return table.length < ROOM ? table.length : count + 2;
    case 4: return dice_below(d, ROOM);
    default: return count < ROOM ? count : 1;
    }
}

static void compare_samples(void)
{
    struct dice d = dice_from(56);
    for (uint32_t i = 0; i < 48000; i++) {
        sample_make(&table, (enum sample)(i % SAMPLES), &d);
        compare(draw_distances(&d));
    }
}

/* Tables too long, with as many distances as they have nodes. */
static void compare_lengths(void)
{
    static const size_t lengths[] = {131064, 131069, 131070, 131071, 131072, 131075, 131076};
    static struct picture pic;
    struct dice d = dice_from(57);
    picture_draw(&pic, PICTURE_CHESSBOARD, 7, &d);
    table_of_picture(&table, &pic);
    for (uint32_t level = 6; level < 9; level++)
        for (size_t i = 0; i < sizeof lengths / sizeof *lengths; i++) {
            table.level = level;
            table.length = lengths[i];
            if (level != 7 || lengths[i] != SHEET_LONGEST_TABLE)
                compare(lengths[i] / SHEET_NODE_WORDS);
        }
}

static void run_coverage(void)
{
    static const uint32_t codes[] = {0, 1, 2, 3, 4, 5};
    met_report(codes, sizeof codes / sizeof *codes, LEAST_INPUTS);
    met_often("code 2 for slice", 0, met_wrong_slice[0]);
    met_often("code 2 for slice", 1, met_wrong_slice[1]);
    for (uint32_t nearness = 0; nearness < NEARNESSES; nearness++)
        met_often("white touching (0), apart (1) or as far as can be (2):", nearness, met_nearness[nearness]);
}

int main(void)
{
    table_lender = lender_open(sizeof table.words);
    distance_lender = lender_open(sizeof wanted_words);
    run_vectors();
    run_farthest();
    run_empty_slices();
    met_group("every picture of levels 0 to 2", compare_every_picture);
    met_group("sheets of levels 0 to 5", compare_small_sheets);
    met_group("sheets of levels 6 and 7", compare_large_sheets);
    met_group("the longest table", compare_longest_table);
    met_group("lone white pixels", compare_lone_pixels);
    met_group("few white pixels", compare_few_white_pixels);
    met_group("sound and unsound tables, any number of distances", compare_samples);
    met_group("lengths", compare_lengths);
    run_coverage();
    return report_end();
}
