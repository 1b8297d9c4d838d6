/*
 * sheet_ponds against the second implementation, which floods the raster, and
 * against answers worked out by hand. Numbers and register are lent full of a
 * pattern, and every word of both must be as wanted afterwards: what lies beyond
 * the last pond's entry, and after a refusal all, must still be the pattern.
 */
#include <inttypes.h>
#include <string.h>

#include "second/second.h"
#include "sheet.h"
#include "support/dice.h"
#include "support/lender.h"
#include "support/met.h"
#include "support/report.h"
#include "support/sample.h"
#include "support/table.h"
#include "support/words.h"

enum { LEAST_INPUTS = 150000, SMALL_SHEETS = 24000, LARGE_SHEETS = 600, CORNER_SHEETS = 6000 };
enum { NUMBERS_ROOM = SHEET_LONGEST_TABLE / SHEET_NODE_WORDS + 8, REGISTER_ROOM = SHEET_LONGEST_REGISTER + 64 };

/* How many ponds a sheet has. */
enum many { NO_POND, ONE_POND, SOME_PONDS /* up to 100 */, HUNDREDS /* more */, MANIES };

/* What may mislead: black pixels that meet at a corner alone, water in a grey
 * eastern neighbour behind a dry bank, and ponds that have another order by their
 * lowest nodes than by rows. */
enum trap { CORNER, DRY_BANK, OTHER_ORDER, TRAPS };

/* Which slice the refusals with code 2 named, by how many words registers were
 * longer or shorter than needed, how many ponds sheets had, and which traps. */
static uint32_t met_wrong_slice[2], met_longer[10], met_shorter[6], met_many[MANIES], met_trap[TRAPS];

static struct lender table_lender, numbers_lender, register_lender;
static struct table table;
static uint32_t wanted_numbers[NUMBERS_ROOM], wanted_register[REGISTER_ROOM];

/* ---- one call */

/* Lends the table at hand and so many words for its numbers and its register. */
static void lend_all(size_t numbers, size_t words)
{
    lend_to_read(&table_lender, table.words, table.length * sizeof *table.words, met_turn());
    lend_pattern(&numbers_lender, numbers * sizeof *wanted_numbers, met_turn());
    lend_pattern(&register_lender, words * sizeof *wanted_register, met_turn());
    memcpy(wanted_numbers, numbers_lender.lent, numbers_lender.lent_size);
    memcpy(wanted_register, register_lender.lent, register_lender.lent_size);
}

static uint32_t *words_of(const struct lender *l)
{
    return (uint32_t *)(void *)l->lent;
}

/* Calls with what is lent. Both slices must then be the wanted ones. */
static int gives(uint64_t wanted)
{
    size_t numbers = numbers_lender.lent_size / sizeof *wanted_numbers;
    size_t words = register_lender.lent_size / sizeof *wanted_register;
    uint64_t given = sheet_ponds(table.level, words_of(&table_lender), table.length, words_of(&numbers_lender), numbers,
                                 words_of(&register_lender), words);
    int right = lent_unchanged(&table_lender) && lent_holds(&numbers_lender, wanted_numbers) &&
                lent_holds(&register_lender, wanted_register);
    return met_answer(wanted, given, right, "level %" PRIu32 ", %zu words, %zu numbers, register of %zu words",
                      table.level, table.length, numbers, words);
}

/* Holds the library against the second implementation. */
static int compare(size_t numbers, size_t words)
{
    lend_all(numbers, words);
    uint64_t wanted =
        second_ponds(table.level, table.words, table.length, wanted_numbers, numbers, wanted_register, words);
    if (wanted % 256 == SHEET_BAD_LENGTH)
        met_wrong_slice[wanted / 256]++;
    return gives(wanted);
}

static uint32_t count_black_leaves(void)
{
    uint32_t black = 0;
    for (uint32_t p = 0; p < table_count(&table); p++)
        black += table_node(&table, p)[SHEET_TYPE_WORD] == SHEET_BLACK;
    return black;
}

/* The words that the register of the table at hand must have. */
static size_t needed(void)
{
    return (size_t)count_black_leaves() * SHEET_POND_WORDS;
}

/* ---- answers worked out by hand: tables */

enum { MOST_NODES = 13, MOST_PONDS = 2 };

struct vector {
    const char *name;
    uint32_t level, nodes, ponds;
    uint32_t numbers[MOST_NODES], entries[MOST_PONDS * SHEET_POND_WORDS], words[MOST_NODES * SHEET_NODE_WORDS];
};

static const struct vector vectors[] = {
    {"sheet A: two ponds", 2, 9, 2, {0, 1, 0, 0, 0, 0, 2, 0, 0}, {4, 0, 1, 0, 1, 1, 1, 1, 3, 3}, {SHEET_A}},
    {"the estate: two ponds, a dry bank between them and a grey eastern neighbour", 3, 9, 2,
     {0, 1, 0, 0, 2, 0, 2, 0, 0}, {16, 0, 3, 0, 3, 8, 0, 3, 6, 7}, {ESTATE}},
    /* The eastern pond moved to the bank's place: nodes 3 and 5 touch node 1. */
    {"the estate without its bank: one pond", 3, 9, 1, {0, 1, 0, 1, 0, 1, 0, 0, 0}, {24, 0, 3, 0, 5},
     {FORK(NO, 1, 2, 7, 8), LEAF(0, B), FORK(0, 3, 4, 5, 6), LEAF(2, B), LEAF(2, W), LEAF(2, B), LEAF(2, W),
      LEAF(0, W), LEAF(0, W)}},
    {"one black pixel", 0, 1, 1, {1}, {1, 0, 0, 0, 0}, {LEAF(NO, B)}},
    {"one white pixel", 0, 1, 0, {0}, {0}, {LEAF(NO, W)}},
    {"no black pixel at level 7", 7, 1, 0, {0}, {0}, {LEAF(NO, W)}},
    {"no white pixel at level 7", 7, 1, 1, {1}, {16384, 0, 127, 0, 127}, {LEAF(NO, B)}},
    {"two quarters that meet at a corner", 7, 5, 2, {0, 1, 0, 0, 2}, {4096, 0, 63, 0, 63, 4096, 64, 127, 64, 127},
     {FORK(NO, 1, 2, 3, 4), LEAF(0, B), LEAF(0, W), LEAF(0, W), LEAF(0, B)}},
    {"two quarters that meet at the other corner", 7, 5, 2, {0, 0, 1, 2, 0},
     {4096, 0, 63, 64, 127, 4096, 64, 127, 0, 63},
     {FORK(NO, 1, 2, 3, 4), LEAF(0, W), LEAF(0, B), LEAF(0, B), LEAF(0, W)}},
    {"two quarters that meet at a corner, sons from SE to NW", 7, 5, 2, {0, 2, 0, 0, 1},
     {4096, 0, 63, 0, 63, 4096, 64, 127, 64, 127},
     {FORK(NO, 4, 3, 2, 1), LEAF(0, B), LEAF(0, W), LEAF(0, W), LEAF(0, B)}},
    /* Rows 0001, 1000, 0000, 0000. */
    {"the first pond by rows is the second by nodes", 2, 13, 2, {0, 0, 0, 0, 2, 0, 0, 0, 1, 0, 0, 0, 0},
     {1, 0, 0, 3, 3, 1, 1, 1, 0, 0},
     {FORK(NO, 1, 6, 11, 12), FORK(0, 2, 3, 4, 5), LEAF(1, W), LEAF(1, W), LEAF(1, B), LEAF(1, W),
      FORK(0, 7, 8, 9, 10), LEAF(6, W), LEAF(6, B), LEAF(6, W), LEAF(6, W), LEAF(0, W), LEAF(0, W)}},
    /* Rows 0000, 0001, 1011, 0011: node 1 lies after the second pond, node 9 before it. */
    {"a pond whose first pixel is not its lowest node's", 2, 13, 2, {0, 1, 0, 0, 0, 0, 0, 0, 2, 1, 0, 0, 0},
     {5, 1, 3, 2, 3, 1, 2, 2, 0, 0},
     {FORK(NO, 4, 3, 2, 1), LEAF(0, B), FORK(0, 8, 7, 6, 5), FORK(0, 12, 11, 10, 9), LEAF(0, W), LEAF(2, W),
      LEAF(2, W), LEAF(2, W), LEAF(2, B), LEAF(3, B), LEAF(3, W), LEAF(3, W), LEAF(3, W)}},
};

static void set_table(uint32_t level, const uint32_t *words, size_t length)
{
    table.level = level;
    table.length = length;
    memcpy(table.words, words, length * sizeof *words);
}

/* With so many words more than are needed; those beyond the ponds must stay. */
static int gives_vector(const struct vector *v, size_t more)
{
    set_table(v->level, v->words, (size_t)v->nodes * SHEET_NODE_WORDS);
    lend_all(v->nodes, needed() + more);
    memcpy(wanted_numbers, v->numbers, v->nodes * sizeof *v->numbers);
    memcpy(wanted_register, v->entries, (size_t)v->ponds * SHEET_POND_WORDS * sizeof *v->entries);
    return gives(packed(SHEET_OK, v->ponds));
}

static void run_vectors(void)
{
    for (size_t i = 0; i < sizeof vectors / sizeof *vectors; i++) {
        int right = 1;
        for (size_t more = 0; more < 12; more++)
            right &= gives_vector(&vectors[i], more);
        report_check(vectors[i].name, right);
    }
}

/* ---- answers worked out by hand: pictures */

enum { SIDE = 1 << SHEET_HIGHEST_LEVEL, LAST = SIDE - 1 };

static struct picture pic;
static uint32_t entries[SHEET_LONGEST_REGISTER], entered;

static void add_entry(uint32_t pixels, uint32_t first_row, uint32_t last_row, uint32_t first_column,
                      uint32_t last_column)
{
    uint32_t *entry = &entries[entered++ * SHEET_POND_WORDS];
    entry[SHEET_PIXELS_WORD] = pixels;
    entry[SHEET_FIRST_ROW_WORD] = first_row;
    entry[SHEET_LAST_ROW_WORD] = last_row;
    entry[SHEET_FIRST_COLUMN_WORD] = first_column;
    entry[SHEET_LAST_COLUMN_WORD] = last_column;
}

/* Draws a picture of level 7, of which no pond is entered yet. */
static void set_picture(int (*is_black)(uint32_t x, uint32_t y))
{
    pic.level = SHEET_HIGHEST_LEVEL;
    for (uint32_t y = 0; y < SIDE; y++)
        for (uint32_t x = 0; x < SIDE; x++)
            pic.pixels[y * SIDE + x] = (uint8_t)is_black(x, y);
    entered = 0;
}

/* The entries must be those that were added, and the numbers are the second
 * implementation's; in every numbering. */
static void check_picture(const char *name)
{
    static uint32_t not_held[SHEET_LONGEST_REGISTER];
    struct dice d = dice_from(61);
    int right = 1;
    for (uint32_t turn = 0; turn <= NUMBERINGS; turn++) {
        table_in_turn(&table, &pic, turn, &d);
        size_t count = table_count(&table);
        lend_all(count, needed() + turn);
        second_ponds(table.level, table.words, table.length, wanted_numbers, count, not_held, SHEET_LONGEST_REGISTER);
        memcpy(wanted_register, entries, (size_t)entered * SHEET_POND_WORDS * sizeof *entries);
        right &= gives(packed(SHEET_OK, entered));
    }
    report_check(name, right);
}

static int is_chequered(uint32_t x, uint32_t y)
{
    return (x + y) % 2 == 1;
}

static int is_on_diagonal(uint32_t x, uint32_t y)
{
    return x == y;
}

static int is_on_other_diagonal(uint32_t x, uint32_t y)
{
    return x + y == LAST;
}

/* How many rings a pixel lies inside of. */
static uint32_t ring_of(uint32_t x, uint32_t y)
{
    uint32_t west = x < LAST - x ? x : LAST - x, north = y < LAST - y ? y : LAST - y;
    return west < north ? west : north;
}

static int is_on_even_ring(uint32_t x, uint32_t y)
{
    return ring_of(x, y) % 2 == 0;
}

/* The even rings, each opened just below its north-west corner; from there a
 * pixel on the odd ring leads on to the next even one. */
static int is_on_spiral(uint32_t x, uint32_t y)
{
    uint32_t ring = ring_of(x, y);
    if (x == ring && y == ring + 1 && ring < SIDE / 2 - 2)
        return ring % 2 == 1;
    return ring % 2 == 0;
}

static int is_on_comb(uint32_t x, uint32_t y)
{
    return y == LAST || x % 2 == 0;
}

/* Two combs whose teeth stand between each other's. */
static int is_on_two_combs(uint32_t x, uint32_t y)
{
    return y == 0 || y == LAST || (x % 4 == 1 && y < LAST - 1) || (x % 4 == 3 && y > 1);
}

static int is_not_in_fourth(uint32_t x, uint32_t y)
{
    return x % 2 == 0 || y % 2 == 0;
}

static void run_pictures(void)
{
    set_picture(is_chequered);
    for (uint32_t i = 0; i < SIDE * SIDE; i++)
        if (is_chequered(i % SIDE, i / SIDE))
            add_entry(1, i / SIDE, i / SIDE, i % SIDE, i % SIDE);
    report_check("chequered: 8192 entries", entered == 8192);
    check_picture("chequered: 8192 ponds");
    set_picture(is_on_diagonal);
    for (uint32_t i = 0; i < SIDE; i++)
        add_entry(1, i, i, i, i);
    check_picture("a diagonal: 128 ponds");
    set_picture(is_on_other_diagonal);
    for (uint32_t i = 0; i < SIDE; i++)
        add_entry(1, i, i, LAST - i, LAST - i);
    check_picture("the other diagonal: 128 ponds");
    set_picture(is_on_even_ring);
    for (uint32_t ring = 0; ring < SIDE / 2; ring += 2)
        add_entry(4 * (LAST - 2 * ring), ring, LAST - ring, ring, LAST - ring);
    check_picture("ring in ring: 32 ponds");
    set_picture(is_on_spiral);
    add_entry(8320, 0, LAST, 0, LAST);
    check_picture("a spiral: 1 pond");
    set_picture(is_on_comb);
    add_entry(8256, 0, LAST, 0, LAST);
    check_picture("a comb that is one pond only at its foot: 1 pond");
    set_picture(is_on_two_combs);
    add_entry(4128, 0, LAST - 2, 0, LAST);
    add_entry(4128, 2, LAST, 0, LAST);
    check_picture("two combs, tooth by tooth: 2 ponds");
    set_picture(is_not_in_fourth);
    add_entry(12288, 0, LAST, 0, LAST);
    check_picture("the most black leaves that there can be: 1 pond");
    report_check("the longest register is needed", needed() == SHEET_LONGEST_REGISTER);
    lend_all(table_count(&table), SHEET_LONGEST_REGISTER - 1);
    report_check("one word less is no room", gives(packed(9, SHEET_LONGEST_REGISTER)));
}

/* ---- refusals by hand */

static const uint32_t sheet_a[] = {SHEET_A}, estate[] = {ESTATE}, white[] = {LEAF(NO, W)}, black[] = {LEAF(NO, B)};

/* Is sheet A refused at this level, with these lengths? */
static int refuses_sheet_a(uint32_t level, size_t length, size_t numbers, size_t words, uint64_t wanted)
{
    set_table(level, sheet_a, length);
    lend_all(numbers, words);
    return gives(wanted);
}

static void run_refusals(void)
{
    report_check("a number too few", refuses_sheet_a(2, 54, 8, 10, packed(2, 1)));
    report_check("a number too many", refuses_sheet_a(2, 54, 10, 10, packed(2, 1)));
    report_check("the register's length with a word too few", refuses_sheet_a(2, 54, 9, 9, packed(9, 10)));
    report_check("room for one entry, not for two", refuses_sheet_a(2, 54, 9, 5, packed(9, 10)));
    report_check("the level comes before the lengths", refuses_sheet_a(8, 53, 8, 0, packed(1, 0)));
    report_check("the table's length comes before the numbers'", refuses_sheet_a(2, 53, 8, 0, packed(2, 0)));
    report_check("the numbers' length comes before the check", refuses_sheet_a(1, 54, 8, 0, packed(2, 1)));
    report_check("the check comes before the room", refuses_sheet_a(1, 54, 9, 0, packed(4, 2)));
    set_table(3, estate, 54);
    lend_all(9, 14);
    report_check("room is asked for black leaves, not for ponds", gives(packed(9, 15)));
}

static void run_empty_slices(void)
{
    uint32_t number = 7;
    report_check("no table, no numbers and no register is a bad length of the table",
                 sheet_ponds(7, NULL, 0, NULL, 0, NULL, 0) == packed(2, 0));
    report_check("nothing at level 8 is a bad level", sheet_ponds(8, NULL, 0, NULL, 0, NULL, 0) == packed(1, 0));
    report_check("no table and one number is a bad length of the table",
                 sheet_ponds(7, NULL, 0, &number, 1, NULL, 0) == packed(2, 0) && number == 7);
    report_check("no numbers is a bad length of the numbers",
                 sheet_ponds(2, sheet_a, 54, NULL, 0, NULL, 0) == packed(2, 1));
    report_check("no register is no room where there is water",
                 sheet_ponds(0, black, 6, &number, 1, NULL, 0) == packed(9, 5) && number == 7);
    report_check("no register is room where there is none",
                 sheet_ponds(4, white, 6, &number, 1, NULL, 0) == packed(0, 0) && number == 0);
}

/* ---- the second implementation */

/* Do two black pixels meet at a corner, with white on both sides? */
static int has_corner(void)
{
    uint32_t side = UINT32_C(1) << pic.level;
    for (uint32_t y = 1; y < side; y++)
        for (uint32_t x = 1; x < side; x++) {
            const uint8_t *below = &pic.pixels[y * side + x], *above = below - side;
            if (below[0] == above[-1] && below[-1] == above[0] && below[0] != below[-1])
                return 1;
        }
    return 0;
}

static uint32_t count_black_in(uint32_t left, uint32_t top, uint32_t width, uint32_t height)
{
    uint32_t black = 0;
    for (uint32_t y = top; y < top + height; y++)
        for (uint32_t x = left; x < left + width; x++)
            black += pic.pixels[(y << pic.level) + x];
    return black;
}

/* Is there a black leaf with water in the block of its size to the east, but
 * none along its own side? */
static int has_dry_bank(void)
{
    for (uint32_t p = 0; p < table_count(&table); p++) {
        struct second_block b = second_block(table.level, table.words, p);
        uint32_t east = b.left + b.side;
        if (table_node(&table, p)[SHEET_TYPE_WORD] == SHEET_BLACK && east < UINT32_C(1) << table.level &&
            count_black_in(east, b.top, 1, b.side) == 0 && count_black_in(east, b.top, b.side, b.side) > 0)
            return 1;
    }
    return 0;
}

/* Do the ponds' lowest nodes stand in another order than the ponds? */
static int has_other_order(void)
{
    uint32_t seen = 0;
    for (uint32_t p = 0; p < table_count(&table); p++) {
        if (wanted_numbers[p] > seen + 1)
            return 1;
        if (wanted_numbers[p] == seen + 1)
            seen++;
    }
    return 0;
}

/* Do the pixel counts that were written add up to the picture's black pixels? */
static int counts_add_up(uint32_t ponds)
{
    const uint32_t *reg = words_of(&register_lender);
    uint32_t pixels = 0;
    for (uint32_t k = 0; k < ponds; k++)
        pixels += reg[k * SHEET_POND_WORDS + SHEET_PIXELS_WORD];
    return pixels == count_black_in(0, 0, UINT32_C(1) << pic.level, UINT32_C(1) << pic.level);
}

static enum many many_of(uint32_t ponds)
{
    return ponds == 0 ? NO_POND : ponds == 1 ? ONE_POND : ponds <= 100 ? SOME_PONDS : HUNDREDS;
}

static uint32_t highest_number(void)
{
    uint32_t highest = 0;
    for (uint32_t p = 0; p < table_count(&table); p++)
        highest = wanted_numbers[p] > highest ? wanted_numbers[p] : highest;
    return highest;
}

/* The picture at hand: with a register of the words that are needed or up to
 * nine more, and at times with one to five words less. */
static void compare_picture(uint32_t turn, struct dice *d)
{
    table_in_turn(&table, &pic, turn, d);
    size_t more = dice_below(d, 10), less = 1 + dice_below(d, 15);
    compare(table_count(&table), needed() + more);
    uint32_t ponds = highest_number();
    met.unequal += !counts_add_up(ponds);
    met_longer[more]++;
    met_many[many_of(ponds)]++;
    met_trap[CORNER] += has_corner();
    met_trap[DRY_BANK] += has_dry_bank();
    met_trap[OTHER_ORDER] += has_other_order();
    if (less <= 5 && needed() > 0) {
        compare(table_count(&table), needed() - less);
        met_shorter[less]++;
    }
}

static void compare_every_picture(void)
{
    struct dice d = dice_from(62);
    for (uint32_t level = 0; level <= 2; level++)
        for (uint32_t bits = 0; bits < UINT32_C(1) << (1 << 2 * level); bits++) {
            picture_of_bits(&pic, level, bits);
            compare_picture(bits, &d);
        }
}

static void compare_small_sheets(void)
{
    struct dice d = dice_from(63);
    for (uint32_t i = 0; i < SMALL_SHEETS; i++) {
        picture_draw(&pic, (enum picture_kind)(i % PICTURE_KINDS), i / PICTURE_KINDS % 6, &d);
        compare_picture(dice_word(&d), &d);
    }
}

static void compare_large_sheets(void)
{
    struct dice d = dice_from(64);
    for (uint32_t i = 0; i < LARGE_SHEETS; i++) {
        picture_draw(&pic, (enum picture_kind)(i % PICTURE_KINDS), 6 + i / PICTURE_KINDS % 2, &d);
        compare_picture(dice_word(&d), &d);
    }
}

/* Squares that touch at corners alone, with widths that fit blocks and that do
 * not. */
static void compare_corners(void)
{
    struct dice d = dice_from(65);
    for (uint32_t i = 0; i < CORNER_SHEETS; i++) {
        uint32_t level = i % 32 == 0 ? 6 + i / 32 % 2 : 1 + i % 5;
        picture_draw_squares(&pic, level, 1 + dice_below(&d, UINT32_C(1) << (level - 1)), &d);
        compare_picture(dice_word(&d), &d);
    }
}

/* ---- unsound tables and wrong lengths */

/* So many numbers for a table: the right number or, at times, another one. */
static size_t draw_numbers(struct dice *d)
{
    uint32_t count = table_count(&table);
    switch (dice_below(d, 12)) {
    case 0: return 0;
    case 1: return count > 0 ? count - 1 : 1;
    case 2: return count + 1;
    case 3: return table.length < NUMBERS_ROOM ? table.length : count + 2;
    case 4: return dice_below(d, NUMBERS_ROOM);
    default: return count < NUMBERS_ROOM ? count : 1;
    }
}

static size_t draw_register(struct dice *d)
{
    size_t need = needed();
    switch (dice_below(d, 6)) {
    case 0: return 0;
    case 1: return dice_below(d, (uint32_t)need + 1);
    case 2: return dice_below(d, REGISTER_ROOM);
    case 3: return need / SHEET_POND_WORDS;
    default: return need < REGISTER_ROOM ? need : 5;
    }
}

static void compare_samples(void)
{
    struct dice d = dice_from(66);
    for (uint32_t i = 0; i < 48000; i++) {
        sample_make(&table, (enum sample)(i % SAMPLES), &d);
        compare(draw_numbers(&d), draw_register(&d));
    }
}

/* Tables too long, with as many numbers as they have nodes. */
static void compare_lengths(void)
{
    static const size_t lengths[] = {131064, 131069, 131070, 131071, 131072, 131075, 131076};
    struct dice d = dice_from(67);
    picture_draw(&pic, PICTURE_CHESSBOARD, 7, &d);
    table_of_picture(&table, &pic);
    for (uint32_t level = 6; level < 9; level++)
        for (size_t i = 0; i < sizeof lengths / sizeof *lengths; i++) {
            table.level = level;
            table.length = lengths[i];
            compare(lengths[i] / SHEET_NODE_WORDS, SHEET_LONGEST_REGISTER);
        }
}

/* Sheet A with every length of table, numbers and register, at every level. */
static void compare_all_lengths(void)
{
    for (uint32_t level = 0; level <= 8; level++)
        for (size_t length = 0; length <= 54; length += length < 42 ? 6 : 1)
            for (size_t numbers = 0; numbers <= 10; numbers++)
                for (size_t words = 0; words <= 12; words++) {
                    set_table(level, sheet_a, length);
                    compare(numbers, words);
                }
}

static void run_coverage(void)
{
    static const uint32_t codes[] = {0, 1, 2, 3, 4, 5, 9};
    met_report(codes, sizeof codes / sizeof *codes, LEAST_INPUTS);
    met_often("code 2 for slice", 0, met_wrong_slice[0]);
    met_often("code 2 for slice", 1, met_wrong_slice[1]);
    for (uint32_t more = 0; more < 10; more++)
        met_often("a register longer than needed by", more, met_longer[more]);
    for (uint32_t less = 1; less <= 5; less++)
        met_often("a register shorter than needed by", less, met_shorter[less]);
    for (uint32_t many = 0; many < MANIES; many++)
        met_often("no pond (0), one (1), up to a hundred (2) or more (3):", many, met_many[many]);
    for (uint32_t trap = 0; trap < TRAPS; trap++)
        met_often("pixels at a corner alone (0), a dry bank (1), nodes in another order (2):", trap, met_trap[trap]);
}

int main(void)
{
    table_lender = lender_open(sizeof table.words);
    numbers_lender = lender_open(sizeof wanted_numbers);
    register_lender = lender_open(sizeof wanted_register);
    run_vectors();
    run_pictures();
    run_refusals();
    run_empty_slices();
    met_group("every picture of levels 0 to 2", compare_every_picture);
    met_group("sheets of levels 0 to 5", compare_small_sheets);
    met_group("sheets of levels 6 and 7", compare_large_sheets);
    met_group("squares that touch at corners", compare_corners);
    met_group("sound and unsound tables, any numbers and registers", compare_samples);
    met_group("lengths of long tables", compare_lengths);
    met_group("sheet A in all lengths", compare_all_lengths);
    run_coverage();
    return report_end();
}
