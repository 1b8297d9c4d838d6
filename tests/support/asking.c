#include "support/asking.h"

#include <inttypes.h>

#include "second/second.h"
#include "sheet.h"
#include "support/dice.h"
#include "support/lender.h"
#include "support/met.h"
#include "support/report.h"
#include "support/sample.h"
#include "support/table.h"

enum { LEAST_INPUTS = 1000000, SMALL_SHEETS = 2400, LARGE_SHEETS = 72, MOST_LARGE_NODES = 1200 };

static const struct asking *call;
static struct lender lender;
static struct table table;
static struct second_cover cover;

/* How large a node that is answered is, beside the one asked about. */
enum size { LARGER, OWN_SIZE, SMALLER, SIZES };

static uint32_t met_level[SECOND_LEVELS], met_size[SIZES];

void asking_open(const struct asking *which)
{
    call = which;
    lender = lender_open(sizeof table.words);
}

/* Asks the library about a table that is lent to it. */
static int gives(const uint32_t *lent, uint32_t level, size_t length, uint32_t node, const uint32_t *numbers,
                 uint64_t wanted, int look_at_buffer)
{
    uint64_t given = call->library(level, lent, length, node, numbers);
    int unchanged = look_at_buffer ? lent_unchanged(&lender) : 1;
    return met_answer(wanted, given, unchanged, "level %" PRIu32 ", %zu words, node %" PRIu32 ", numbers %" PRIu32
                      " %" PRIu32, level, length, node, numbers[0], numbers[1]);
}

void asking_by_hand(uint32_t level, const uint32_t *words, size_t length, const struct asked *asked, size_t count)
{
    for (size_t i = 0; i < count; i++) {
        uint32_t *lent = lend_to_read(&lender, words, length * sizeof *words, met_turn());
        report_check(asked[i].name, gives(lent, level, length, asked[i].node, asked[i].numbers,
                                          packed(asked[i].code, asked[i].value), 1));
    }
}

/* ---- whole sheets */

static const uint32_t *lend_table(void)
{
    return lend_to_read(&lender, table.words, table.length * sizeof *table.words, met_turn());
}

static void count_level(uint32_t level, uint32_t own)
{
    met_level[level]++;
    met_size[level > own ? LARGER : level == own ? OWN_SIZE : SMALLER]++;
}

static void compare(const uint32_t *lent, uint32_t node, const uint32_t *numbers, int look_at_buffer)
{
    uint64_t wanted = call->second(&cover, node, numbers);
    if (wanted % 256 == SHEET_OK)
        count_level((uint32_t)(wanted / 256 % 8), (uint32_t)cover.square[node].level);
    gives(lent, table.level, table.length, node, numbers, wanted, look_at_buffer);
}

/* How many ways there are to ask about one node with numbers below the limit. */
static uint32_t ways_to_ask(void)
{
    return call->numbers == 1 ? call->below : call->below * call->below;
}

/* Numbers that do not go together are refused for every node alike, and asking
 * some of the nodes is enough. */
static int is_worth_asking(uint32_t node, const uint32_t *numbers)
{
    return node % 16 == 0 || call->numbers == 1 || call->second(&cover, node, numbers) % 256 != SHEET_BAD_DIRECTION;
}

/* Every node, asked in every way; the table is looked at after the last. */
static void compare_sheet(void)
{
    uint32_t ways = ways_to_ask();
    const uint32_t *lent = lend_table();
    second_cover(&cover, table.level, table.words, table.length);
    for (uint32_t i = table_count(&table) * ways; i-- > 0;) {
        uint32_t way = i % ways, numbers[MOST_NUMBERS] = {way % call->below, way / call->below};
        if (is_worth_asking(i / ways, numbers))
            compare(lent, i / ways, numbers, i == 0);
    }
}

static void compare_every_picture(void)
{
    static struct picture pic;
    struct dice d = dice_from(41);
    for (uint32_t level = 0; level <= 2; level++)
        for (uint32_t bits = 0; bits < UINT32_C(1) << (1 << 2 * level); bits++) {
            picture_of_bits(&pic, level, bits);
            table_in_turn(&table, &pic, bits, &d);
            compare_sheet();
        }
}

static void compare_small_sheets(void)
{
    static struct picture pic;
    struct dice d = dice_from(42);
    for (uint32_t i = 0; i < SMALL_SHEETS; i++) {
        picture_draw(&pic, (enum picture_kind)(i % PICTURE_KINDS), dice_below(&d, 6), &d);
        table_in_turn(&table, &pic, dice_word(&d), &d);
        compare_sheet();
    }
}

static void draw_large_sheet(uint32_t level, uint32_t turn, struct dice *d)
{
    static struct picture pic;
    do {
        picture_draw(&pic, (enum picture_kind)dice_below(d, PICTURE_KINDS), level, d);
        table_in_turn(&table, &pic, turn, d);
    } while (table_count(&table) > MOST_LARGE_NODES);
}

static void compare_large_sheets(void)
{
    struct dice d = dice_from(43);
    for (uint32_t i = 0; i < LARGE_SHEETS; i++) {
        draw_large_sheet(6 + i / 4 % 2, i, &d);
        compare_sheet();
    }
}

/* The longest table there is, asked here and there. */
static void compare_longest_table(void)
{
    static struct picture pic;
    struct dice d = dice_from(44);
    for (uint32_t turn = 0; turn <= NUMBERINGS; turn++) {
        picture_draw(&pic, PICTURE_CHESSBOARD, 7, &d);
        table_in_turn(&table, &pic, turn, &d);
        const uint32_t *lent = lend_table();
        second_cover(&cover, table.level, table.words, table.length);
        for (uint32_t i = 0; i < 500; i++) {
            uint32_t numbers[MOST_NUMBERS] = {dice_below(&d, call->below), dice_below(&d, call->below)};
            compare(lent, dice_below(&d, table_count(&table)), numbers, i == 499);
        }
    }
}

/* ---- wrong tables, wrong numbers */

static void compare_one_question(struct dice *d)
{
    uint32_t node = sample_node(&table, d);
    uint32_t numbers[MOST_NUMBERS] = {sample_number(call->below, d), sample_number(call->below, d)};
    const uint32_t *lent = lend_table();
    second_cover(&cover, table.level, table.words, table.length);
    compare(lent, node, numbers, 1);
}

static void compare_samples(void)
{
    struct dice d = dice_from(45);
    for (uint32_t i = 0; i < 48000; i++) {
        sample_make(&table, (enum sample)(i % SAMPLES), &d);
        compare_one_question(&d);
    }
}

static void compare_wrong_numbers(void)
{
    struct dice d = dice_from(46);
    for (uint32_t i = 0; i < 400; i++) {
        sample_make(&table, SAMPLE_RENUMBERED, &d);
        for (uint32_t questions = 0; questions < 50; questions++)
            compare_one_question(&d);
    }
}

static void compare_no_table(void)
{
    static const uint32_t numbers[MOST_NUMBERS] = {0, 0};
    for (uint32_t level = 0; level < 10; level++)
        met_answer(packed(level > 7 ? 1 : 2, 0), call->library(level, NULL, 0, 0, numbers), 1,
                   "level %" PRIu32 ", no table", level);
}

void asking_compare(void)
{
    met_group("every picture of levels 0 to 2", compare_every_picture);
    met_group("sheets of levels 0 to 5", compare_small_sheets);
    met_group("sheets of levels 6 and 7", compare_large_sheets);
    met_group("the longest table", compare_longest_table);
    met_group("sound and unsound tables", compare_samples);
    met_group("wrong numbers", compare_wrong_numbers);
    met_group("no table at all", compare_no_table);
}

void asking_codes(void)
{
    static const uint32_t codes[] = {0, 1, 2, 3, 4, 5, 6, 7, 20};
    met_report(codes, sizeof codes / sizeof *codes, LEAST_INPUTS);
}

/* No answer is the root, and so none has level 7. */
void asking_levels(void)
{
    for (uint32_t level = 0; level < SHEET_HIGHEST_LEVEL; level++)
        met_often("a node of level", level, met_level[level]);
    report_check("no node of level 7", met_level[SHEET_HIGHEST_LEVEL] == 0);
    for (uint32_t size = 0; size < (call->smaller ? SIZES : SMALLER); size++)
        met_often("a node that is larger (0), as large (1) or smaller (2):", size, met_size[size]);
    if (!call->smaller)
        report_check("no smaller node", met_size[SMALLER] == 0);
}
