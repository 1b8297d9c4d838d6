/*
 * sheet_check against the second implementation, and against answers worked
 * out by hand. Every table is lent between guards and must not be written.
 */
#include <inttypes.h>
#include <string.h>

#include "second/second.h"
#include "sheet.h"
#include "support/dice.h"
#include "support/faults.h"
#include "support/lender.h"
#include "support/met.h"
#include "support/report.h"
#include "support/sample.h"
#include "support/table.h"
#include "support/words.h"

enum { LEAST_INPUTS = 200000, FAR_FROM_ROOT = 16, RULES = 6 };

/* Each rule that decided, and each rule that decided at a node far from the
 * root. */
static uint32_t met_rule[RULES + 1], met_far_rule[RULES + 1];

static struct lender lender;
static struct table table;

/* Lends the words to the library, and holds its answer against the one wanted. */
static int gives(uint32_t level, const uint32_t *words, size_t length, uint64_t wanted)
{
    uint32_t *lent = lend_to_read(&lender, words, length * sizeof *words, met_turn());
    uint64_t given = sheet_check(level, lent, length);
    return met_answer(wanted, given, lent_unchanged(&lender), "level %" PRIu32 ", %zu words", level, length);
}

/* Holds the library against the second implementation. */
static void compare(uint32_t level, const uint32_t *words, size_t length)
{
    int rule;
    uint64_t wanted = second_check(level, words, length, &rule);
    gives(level, words, length, wanted);
    met_rule[rule]++;
    met_far_rule[rule] += wanted / 256 >= FAR_FROM_ROOT;
}

static void compare_table(void)
{
    compare(table.level, table.words, table.length);
}

/* ---- answers worked out by hand */

struct vector {
    const char *name;
    uint32_t level;
    size_t nodes;
    uint32_t code, value;
    uint32_t words[10 * 6];
};

static const struct vector vectors[] = {
    {"sheet A is accepted", 2, 9, 0, 9, {SHEET_A}},
    {"sheet A at level 7 is accepted", 7, 9, 0, 9, {SHEET_A}},
    {"sheet A at level 1 is too deep at 2", 1, 9, 4, 2, {SHEET_A}},
    {"sheet A at level 0 is too deep at the root", 0, 9, 4, 0, {SHEET_A}},
    {"sheet A at level 8 is a bad level", 8, 9, 1, 0, {SHEET_A}},
    {"sheet A in breadth first numbers is accepted", 2, 9, 0, 9,
     {FORK(NO, 1, 2, 3, 4), LEAF(0, B), FORK(0, 5, 6, 7, 8), LEAF(0, W), LEAF(0, W), LEAF(2, W), LEAF(2, W),
      LEAF(2, W), LEAF(2, B)}},
    {"sons from SE to NW are accepted", 1, 5, 0, 5,
     {FORK(NO, 4, 3, 2, 1), LEAF(0, W), LEAF(0, W), LEAF(0, W), LEAF(0, B)}},
    {"one black pixel", 0, 1, 0, 1, {LEAF(NO, B)}},
    {"one white leaf at level 7", 7, 1, 0, 1, {LEAF(NO, W)}},
    {"rule 1: a type above 2", 3, 1, 3, 0, {LEAF(NO, 3)}},
    {"rule 2: the root has a father", 3, 1, 3, 0, {LEAF(0, B)}},
    {"rule 2: a node is its own father", 3, 2, 3, 1, {LEAF(NO, B), LEAF(1, W)}},
    {"rule 2: a second root", 2, 10, 3, 9, {SHEET_A, LEAF(NO, W)}},
    {"rule 2: a son before its father", 2, 9, 3, 2,
     {FORK(NO, 1, 3, 4, 5), LEAF(0, B), LEAF(3, W), FORK(0, 2, 6, 7, 8), LEAF(0, W), LEAF(0, W), LEAF(3, W),
      LEAF(3, W), LEAF(3, B)}},
    {"rule 3: the father is a leaf", 3, 2, 3, 1, {LEAF(NO, B), LEAF(0, W)}},
    {"rule 3: the father does not name the node", 2, 10, 3, 9, {SHEET_A, LEAF(2, W)}},
    {"rule 3: a son named twice", 1, 4, 3, 1, {FORK(NO, 1, 1, 2, 3), LEAF(0, W), LEAF(0, B), LEAF(0, W)}},
    {"rule 4: a son at N", 1, 5, 3, 0, {FORK(NO, 1, 2, 3, 5), LEAF(0, W), LEAF(0, W), LEAF(0, W), LEAF(0, B)}},
    {"rule 4: a fork is its own son", 1, 5, 3, 0,
     {FORK(NO, 1, 0, 3, 4), LEAF(0, W), LEAF(0, W), LEAF(0, W), LEAF(0, B)}},
    {"rule 4: a son has another father", 1, 5, 3, 0,
     {FORK(NO, 1, 2, 3, 4), LEAF(0, W), LEAF(0, W), LEAF(0, W), LEAF(1, B)}},
    {"rule 4: a leaf with a son", 1, 5, 3, 3,
     {FORK(NO, 1, 2, 3, 4), LEAF(0, W), LEAF(0, W), 0, NO, NO, 4, NO, W, LEAF(0, B)}},
    {"rule 6: four white sons", 1, 5, 5, 0, {FORK(NO, 1, 2, 3, 4), LEAF(0, W), LEAF(0, W), LEAF(0, W), LEAF(0, W)}},
    {"rule 6: four black sons", 1, 5, 5, 0, {FORK(NO, 1, 2, 3, 4), LEAF(0, B), LEAF(0, B), LEAF(0, B), LEAF(0, B)}},
    {"rule 6 at the fork comes before rule 3 at a son", 1, 4, 5, 0,
     {FORK(NO, 1, 1, 2, 3), LEAF(0, W), LEAF(0, W), LEAF(0, W)}},
    {"rule 6 at the fork comes before rule 4 at a son", 1, 5, 5, 0,
     {FORK(NO, 1, 2, 3, 4), LEAF(0, W), LEAF(0, W), 0, 0, NO, NO, NO, W, LEAF(0, W)}},
    {"rule 5 comes before rule 6", 0, 5, 4, 0, {FORK(NO, 1, 2, 3, 4), LEAF(0, W), LEAF(0, W), LEAF(0, W), LEAF(0, W)}},
    {"rule 4 comes before rule 5", 0, 5, 3, 0, {FORK(NO, 1, 2, 3, 5), LEAF(0, W), LEAF(0, W), LEAF(0, W), LEAF(0, W)}},
    {"rule 4 comes before rule 6", 1, 5, 3, 0, {FORK(NO, 1, 2, 3, 4), LEAF(0, W), LEAF(0, W), LEAF(0, W), LEAF(3, W)}},
    {"four sons of type 3 pass at the fork", 1, 5, 3, 1,
     {FORK(NO, 1, 2, 3, 4), LEAF(0, 3), LEAF(0, 3), LEAF(0, 3), LEAF(0, 3)}},
};

static void run_vectors(void)
{
    for (size_t i = 0; i < sizeof vectors / sizeof *vectors; i++) {
        const struct vector *v = &vectors[i];
        report_check(v->name, gives(v->level, v->words, v->nodes * SHEET_NODE_WORDS, packed(v->code, v->value)));
    }
}

static void run_empty_slices(void)
{
    report_check("no table at all is a bad length", sheet_check(7, NULL, 0) == packed(2, 0));
    report_check("no table at all at level 8 is a bad level", sheet_check(8, NULL, 0) == packed(1, 0));
}

/* The tree of a level in which every block above a pixel is a fork. */
static void make_complete(uint32_t level)
{
    static struct picture pic;
    struct dice d = dice_from(level);
    picture_draw(&pic, PICTURE_CHESSBOARD, level, &d);
    table_of_picture(&table, &pic);
}

static void run_longest_tables(void)
{
    make_complete(7);
    report_check("the longest table is accepted", gives(7, table.words, 131070, packed(0, 21845)));
    report_check("the longest table at level 6 is too deep", gives(6, table.words, 131070, packed(4, 6)));
    report_check("the longest table without its last node is refused", gives(7, table.words, 131064, packed(3, 21840)));
    table_append(&table, 0, SHEET_WHITE);
    report_check("one node more is a bad length", gives(7, table.words, 131076, packed(2, 0)));
}

/* ---- the second implementation */

static const uint32_t small_words[] = {0, 1, 2, 3, SHEET_NONE - 1, SHEET_NONE};
enum { SMALL_WORDS = sizeof small_words / sizeof *small_words };

/* Every table of one node whose words are small or near None. */
static void compare_one_node(void)
{
    uint32_t words[SHEET_NODE_WORDS];
    for (uint32_t all = 0; all < 46656; all++) {
        uint32_t rest = all;
        for (int i = 0; i < SHEET_NODE_WORDS; i++, rest /= SMALL_WORDS)
            words[i] = small_words[rest % SMALL_WORDS];
        compare(all % 8, words, SHEET_NODE_WORDS);
    }
}

/* A word from 0 to 10, or one of the two highest. */
static uint32_t low_or_none(uint32_t i)
{
    return i < 11 ? i : SHEET_NONE - (i - 11);
}

/* Sheet A with every one of its words changed, at every level. */
static void compare_one_word_changed(void)
{
    uint32_t words[] = {SHEET_A};
    for (size_t place = 0; place < 54; place++) {
        uint32_t old = words[place];
        for (uint32_t i = 0; i < 13 * 8; i++) {
            words[place] = low_or_none(i % 13);
            compare(i / 13, words, 54);
        }
        words[place] = old;
    }
}

/* One fork and four leaves, with every two of its words changed. */
static void compare_two_words_changed(void)
{
    uint32_t sound[] = {FORK(NO, 1, 2, 3, 4), LEAF(0, W), LEAF(0, B), LEAF(0, B), LEAF(0, B)}, words[30];
    for (size_t first = 0; first < 30; first++)
        for (size_t second = 0; second < first; second++)
            for (uint32_t i = 0; i < 8 * 8; i++) {
                memcpy(words, sound, sizeof words);
                words[first] = i / 8 < 6 ? i / 8 : low_or_none(i / 8 + 5);
                words[second] = i % 8 < 6 ? i % 8 : low_or_none(i % 8 + 5);
                compare((uint32_t)(first + second) % 3, words, 30);
            }
}

/* Every length from 0 to 30, then some beyond the longest table, with sheet
 * A's words or a complete tree's. */
static void compare_lengths(void)
{
    static const size_t beyond[] = {131069, 131070, 131071, 131072, 131075, 131076, 131094, 200000, 200004};
    uint32_t words[] = {SHEET_A};
    for (uint32_t level = 0; level < 10; level++)
        for (size_t length = 0; length <= 30; length++)
            compare(level, words, length);
    make_complete(7);
    for (uint32_t level = 0; level < 10; level++)
        for (size_t i = 0; i < sizeof beyond / sizeof *beyond; i++)
            compare(level, table.words, beyond[i]);
}

/* A complete tree with one leaf split is a sound table, but for its length and
 * its depth. */
static void compare_splits_of_complete_trees(void)
{
    struct dice d = dice_from(77);
    for (uint32_t level = 0; level <= 7; level++)
        for (int i = 0; i < 8; i++) {
            make_complete(level);
            fault_needless_fork(&table, &d);
            compare_table();
        }
}

static const struct {
    enum sample sample;
    const char *name;
    uint32_t inputs;
    int all_accepted;
} samples[] = {
    {SAMPLE_PREORDER, "sheets in preorder", 50000, 1},
    {SAMPLE_RENUMBERED, "sheets in other numberings", 50000, 1},
    {SAMPLE_DAMAGED, "one to three words damaged", 200000, 0},
    {SAMPLE_ORPHAN, "a node that no fork has", 50000, 0},
    {SAMPLE_DOUBLE_SON, "a son named twice", 50000, 0},
    {SAMPLE_SON_BELOW_FATHER, "a son before its father", 50000, 0},
    {SAMPLE_LOWER_LEVEL, "a lower level", 50000, 0},
    {SAMPLE_DEEP_FORK, "a fork of one pixel", 50000, 0},
    {SAMPLE_NEEDLESS_FORK, "a needless fork", 50000, 0},
    {SAMPLE_RANDOM_WORDS, "random words", 20000, 0},
    {SAMPLE_CUT_LENGTH, "cut tables", 10000, 0},
    {SAMPLE_HOSTILE_LEVEL, "hostile levels", 10000, 0},
};

static void run_samples(void)
{
    for (size_t i = 0; i < sizeof samples / sizeof *samples; i++) {
        struct dice d = dice_from(1000 + i);
        uint32_t accepted = met.code[SHEET_OK];
        met_begin_group();
        for (uint32_t n = 0; n < samples[i].inputs; n++) {
            sample_make(&table, samples[i].sample, &d);
            compare_table();
        }
        met_end_group(samples[i].name);
        if (samples[i].all_accepted)
            report_check("  all of them are accepted", met.code[SHEET_OK] - accepted == samples[i].inputs);
    }
}

/* ---- was everything met? */

static void run_coverage(void)
{
    static const uint32_t codes[] = {0, 1, 2, 3, 4, 5};
    met_report(codes, sizeof codes / sizeof *codes, LEAST_INPUTS);
    for (uint32_t rule = 1; rule <= RULES; rule++)
        met_often("rule", rule, met_rule[rule]);
    for (uint32_t rule = 1; rule <= RULES; rule++)
        met_often("far from the root, rule", rule, met_far_rule[rule]);
}

int main(void)
{
    lender = lender_open(sizeof table.words);
    run_vectors();
    run_empty_slices();
    run_longest_tables();
    met_group("every table of one node", compare_one_node);
    met_group("sheet A with any word changed", compare_one_word_changed);
    met_group("one fork with any two words changed", compare_two_words_changed);
    met_group("lengths", compare_lengths);
    met_group("complete trees with a leaf split", compare_splits_of_complete_trees);
    run_samples();
    run_coverage();
    return report_end();
}
