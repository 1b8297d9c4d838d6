#include "support/question.h"

#include <inttypes.h>
#include <stdlib.h>
#include <string.h>

#include "second/second.h"
#include "sheet.h"
#include "support/table.h"

enum { MOST_BYTES = TABLE_ROOM * sizeof(uint32_t), MOST_PRINTED = 150 };

#define TABLE_SLICE "table"
#define TABLE_CODES 0, 1, 2, 3, 4, 5
#define ASKING_CODES 9, {TABLE_CODES, 6, 7, 20}

const struct call_form call_form[CALLS] = {
    {"check", 6, {TABLE_CODES}, 1, {TABLE_SLICE}, {4}},
    {"build", 5, {0, 1, 2, 8, 9}, 2, {"raster", TABLE_SLICE}, {1, 4}},
    {"decode", 6, {TABLE_CODES}, 2, {TABLE_SLICE, "raster"}, {4, 1}},
    {"neighbour", ASKING_CODES, 1, {TABLE_SLICE}, {4}},
    {"corner_leaf", ASKING_CODES, 1, {TABLE_SLICE}, {4}},
    {"diagonal_leaf", ASKING_CODES, 1, {TABLE_SLICE}, {4}},
    {"distance", 6, {TABLE_CODES}, 2, {TABLE_SLICE, "distances"}, {4, 4}},
    {"ponds", 7, {TABLE_CODES, 9}, 3, {TABLE_SLICE, "numbers", "register"}, {4, 4, 4}},
    {"read", 8, {0, 1, 4, 5, 9, 12, 13, 14}, 2, {"file", TABLE_SLICE}, {1, 4}},
    {"write", 7, {TABLE_CODES, 9}, 2, {TABLE_SLICE, "file"}, {4, 1}},
    {"centre", 9, {TABLE_CODES, 6, 9, 11}, 2, {TABLE_SLICE, "place"}, {4, 8}},
};

const struct calls library_calls = {
    sheet_check,    sheet_build, sheet_decode, sheet_neighbour, sheet_corner_leaf, sheet_diagonal_leaf,
    sheet_distance, sheet_ponds, sheet_read,   sheet_write,     sheet_centre,
};

uint64_t question_put(const struct question *q, const struct calls *to, void *const *s)
{
    const size_t *l = q->lengths;
    const uint32_t *numbers = q->numbers;
    struct ground g = q->ground;
    switch (q->call) {
    case CALL_CHECK: return to->check(q->level, s[0], l[0]);
    case CALL_BUILD: return to->build(q->level, s[0], l[0], s[1], l[1]);
    case CALL_DECODE: return to->decode(q->level, s[0], l[0], s[1], l[1]);
    case CALL_NEIGHBOUR: return to->neighbour(q->level, s[0], l[0], q->node, numbers[0]);
    case CALL_CORNER_LEAF: return to->corner_leaf(q->level, s[0], l[0], q->node, numbers[0], numbers[1]);
    case CALL_DIAGONAL_LEAF: return to->diagonal_leaf(q->level, s[0], l[0], q->node, numbers[0]);
    case CALL_DISTANCE: return to->distance(q->level, s[0], l[0], s[1], l[1]);
    case CALL_PONDS: return to->ponds(q->level, s[0], l[0], s[1], l[1], s[2], l[2]);
    case CALL_READ: return to->read(s[0], l[0], s[1], l[1]);
    case CALL_WRITE: return to->write(q->level, s[0], l[0], s[1], l[1]);
    default: return to->centre(q->level, s[0], l[0], q->node, g.east, g.north, g.step, s[1], l[1]);
    }
}

static uint64_t ask_second_near(const struct question *q)
{
    static struct second_cover cover;
    second_cover(&cover, q->level, q->contents, q->lengths[0]);
    switch (q->call) {
    case CALL_NEIGHBOUR: return second_neighbour(&cover, q->node, q->numbers[0]);
    case CALL_CORNER_LEAF: return second_corner_leaf(&cover, q->node, q->numbers[0], q->numbers[1]);
    default: return second_diagonal_leaf(&cover, q->node, q->numbers[0]);
    }
}

/* The slices to be written become what they must be afterwards. */
static uint64_t ask_second(const struct question *q, void *const *s)
{
    const size_t *l = q->lengths;
    struct ground g = q->ground;
    int rule;
    switch (q->call) {
    case CALL_CHECK: return second_check(q->level, q->contents, l[0], &rule);
    case CALL_BUILD: return second_build(q->level, q->contents, l[0], s[1], l[1]);
    case CALL_DECODE: return second_decode(q->level, q->contents, l[0], s[1], l[1]);
    case CALL_DISTANCE: return second_distance(q->level, q->contents, l[0], s[1], l[1]);
    case CALL_PONDS: return second_ponds(q->level, q->contents, l[0], s[1], l[1], s[2], l[2]);
    case CALL_READ: return second_read(q->contents, l[0], s[1], l[1]);
    case CALL_WRITE: return second_write(q->level, q->contents, l[0], s[1], l[1]);
    case CALL_CENTRE:
        return second_centre(q->level, q->contents, l[0], q->node, g.east, g.north, g.step, s[1], l[1]);
    default: return ask_second_near(q);
    }
}

/* ---- what is lent */

static struct lender lender[MOST_SLICES];
static void *wanted[MOST_SLICES];

static void open_lenders(void)
{
    if (wanted[0] != NULL)
        return;
    for (int i = 0; i < MOST_SLICES; i++) {
        lender[i] = lender_open(MOST_BYTES);
        wanted[i] = malloc(MOST_BYTES);
        if (wanted[i] == NULL)
            exit(2);
    }
}

static size_t bytes_of(const struct question *q, size_t slice)
{
    return q->lengths[slice] * call_form[q->call].element_size[slice];
}

static void lend_to_write(const struct question *q, size_t slice)
{
    size_t bytes = bytes_of(q, slice);
    if (q->filling == FILL_PATTERN) {
        lend_pattern(&lender[slice], bytes, q->at[slice]);
    } else {
        memset(wanted[slice], q->filling == FILL_ZEROS ? 0 : 255, bytes);
        lend(&lender[slice], wanted[slice], bytes, q->at[slice]);
    }
    memcpy(wanted[slice], lender[slice].lent, bytes);
}

struct outcome question_ask_of(const struct question *q, const struct calls *asked)
{
    struct outcome o = {0, 0, 1};
    size_t slices = call_form[q->call].slices;
    void *lent[MOST_SLICES] = {NULL, NULL, NULL};
    open_lenders();
    lend_to_read(&lender[0], q->contents, bytes_of(q, 0), q->at[0]);
    for (size_t i = 1; i < slices; i++)
        lend_to_write(q, i);
    for (size_t i = 0; i < slices; i++)
        lent[i] = q->lengths[i] == 0 && q->null_where_empty ? NULL : lender[i].lent;
    o.wanted = ask_second(q, wanted);
    o.given = question_put(q, asked, lent);
    o.buffers_right = lent_unchanged(&lender[0]);
    for (size_t i = 1; i < slices; i++)
        o.buffers_right &= lent_holds(&lender[i], wanted[i]);
    return o;
}

struct outcome question_ask(const struct question *q)
{
    return question_ask_of(q, &library_calls);
}

int outcome_is_right(const struct outcome *o)
{
    return o->wanted == o->given && o->buffers_right;
}

/* ---- in words */

const char *code_name(uint32_t code)
{
    switch (code) {
    case SHEET_OK: return "OK";
    case SHEET_BAD_LEVEL: return "BAD_LEVEL";
    case SHEET_BAD_LENGTH: return "BAD_LENGTH";
    case SHEET_BAD_NODE: return "BAD_NODE";
    case SHEET_TOO_DEEP: return "TOO_DEEP";
    case SHEET_NEEDLESS_FORK: return "NEEDLESS_FORK";
    case SHEET_NO_SUCH_NODE: return "NO_SUCH_NODE";
    case SHEET_BAD_DIRECTION: return "BAD_DIRECTION";
    case SHEET_BAD_PIXEL: return "BAD_PIXEL";
    case SHEET_NO_ROOM: return "NO_ROOM";
    case SHEET_BAD_GROUND: return "BAD_GROUND";
    case SHEET_BAD_RECORD: return "BAD_RECORD";
    case SHEET_FILE_ENDS: return "FILE_ENDS";
    case SHEET_BAD_COUNT: return "BAD_COUNT";
    case SHEET_NO_BLOCK: return "NO_BLOCK";
    default: return "none";
    }
}

static void print_answer(FILE *to, const char *whose, uint64_t answer)
{
    fprintf(to, "  %s: %s (%" PRIu32 ") with value %" PRIu64 "\n", whose, code_name(sheet_code(answer)),
            sheet_code(answer), sheet_value(answer));
}

static void print_contents(FILE *to, const struct question *q)
{
    const uint32_t *words = q->contents;
    const uint8_t *bytes = q->contents;
    int are_words = call_form[q->call].element_size[0] == sizeof *words;
    if (q->lengths[0] > MOST_PRINTED)
        return;
    fprintf(to, "  %s:", call_form[q->call].slice_name[0]);
    for (size_t i = 0; i < q->lengths[0]; i++)
        fprintf(to, "%s%" PRIu32, are_words && i % SHEET_NODE_WORDS == 0 ? "  " : " ", are_words ? words[i] : bytes[i]);
    fprintf(to, "\n");
}

void question_print(FILE *to, const struct question *q, const struct outcome *o)
{
    const struct call_form *form = &call_form[q->call];
    fprintf(to, "  sheet_%s, level %" PRIu32 ", node %" PRIu32 ", numbers %" PRIu32 " %" PRIu32, form->name, q->level,
            q->node, q->numbers[0], q->numbers[1]);
    if (q->call == CALL_CENTRE)
        fprintf(to, ", east %a, north %a, step %a", q->ground.east, q->ground.north, q->ground.step);
    for (size_t i = 0; i < form->slices; i++)
        fprintf(to, ", %s of %zu%s", form->slice_name[i], q->lengths[i],
                q->lengths[i] == 0 && q->null_where_empty ? " (NULL)" : "");
    fprintf(to, "\n");
    print_contents(to, q);
    print_answer(to, "wanted", o->wanted);
    print_answer(to, "given ", o->given);
    if (!o->buffers_right)
        fprintf(to, "  a slice or its guards are not as they must be\n");
}
