/*
 * Every call beside plain C written for speed, and beside a floor: a sum over the
 * table's words, or a copy of the raster or the file.
 *
 *   bench [CALL]
 *
 * For each kind of sheet and each level a line says how many nanoseconds a node
 * takes, a pixel where a call goes between table and raster, or a call where it
 * searches, and how many times the others' time the library takes; after a kind's
 * levels, how a unit's time grows from n = 4 to n = 7, and what a table numbered
 * at random takes. The distance is also held against plain C of the same method, in
 * the tree, and against two passes over the raster. The ponds are also held against
 * plain C that, like the library, has no memory that grows with the sheet, in place;
 * the other paints the raster. A call that searches is also held against the check
 * alone, and on the sparse sheets of n = 7, where the check is short, what is left of
 * it when the check is taken away against what is left of plain C. In the end a table
 * has each call's worst at n = 7, on sheets as they are built, for which its bound is
 * given, and numbered at random; and its stack.
 *
 * A call is not timed, and the status is 1, where the library or plain C does not
 * give the second implementation's answer. A bound that is not kept leaves the
 * status 0, as a machine may be busy with other things.
 */
#include <stdio.h>
#include <string.h>

#include "input.h"
#include "plain/plain.h"
#include "race.h"
#include "sheet.h"
#include "support/dice.h"
#include "support/draw.h"
#include "support/question.h"
#include "support/stack.h"

enum { LOWEST = 3, EARLY = 4, HIGHEST = SHEET_HIGHEST_LEVEL, SAMPLES_OF_A_CALL = 10000 };

enum { PROVED, PLAIN, FLOOR, CHECK, PLAIN_CHECK };

/* Plain C, with one way or another to the distances and to the ponds. */
#define PLAIN_CALLS(distance, ponds)                                                                      \
    {                                                                                                     \
        plain_check, plain_build, plain_decode, plain_neighbour, plain_corner_leaf, plain_diagonal_leaf,  \
            distance, ponds, plain_read, plain_write, plain_centre                                        \
    }

static const struct calls plain_calls = PLAIN_CALLS(plain_distance, plain_ponds);
static const struct calls in_tree_calls = PLAIN_CALLS(plain_distance_in_tree, plain_ponds);
static const struct calls two_pass_calls = PLAIN_CALLS(plain_two_pass, plain_ponds);
static const struct calls by_rows_calls = PLAIN_CALLS(plain_two_pass_rows, plain_ponds);
static const struct calls in_place_calls = PLAIN_CALLS(plain_distance, plain_ponds_in_place);

static const struct kind {
    const char *name;
    enum picture_kind pictures;
} kinds[] = {{"noise", PICTURE_NOISE},
             {"blobs", PICTURE_BLOBS},
             {"coastline", PICTURE_COASTLINE},
             {"chequered", PICTURE_CHESSBOARD},
             {"sparse", PICTURE_LONE_PIXEL}};

/* What is remembered of a call's lines at n = 7, on tables as they are built and on
 * those numbered at random. */
struct summary {
    struct worst {
        double to_plain, to_floor;
        const char *where; /* to_plain was met */
    } as_built, at_random;
    size_t stack, plain_stack;
};

/* A line's times, its units, and the nodes or pixels that were gone through. */
struct line {
    struct times times;
    double units, work;
};

/* The sheets of a line, and those of n = 4 that they are held against. */
static struct input input, early_input;

/* ---- the rivals */

/* The slices that the calls write, and what the floor copies where no call has it
 * as input. */
static double written[2][SHEET_LONGEST_TABLE / 2 + 1];
static uint8_t to_copy[SHEET_LONGEST_FILE];

static uint64_t put_all(const struct input *in, const struct calls *to)
{
    void *slices[MOST_SLICES] = {NULL, written[0], written[1]};
    uint64_t answers = 0;
    for (size_t i = 0; i < in->questions; i++) {
        slices[0] = (void *)in->question[i].contents;
        answers += question_put(&in->question[i], to, slices);
    }
    return answers;
}

static uint64_t run_proved(const void *in)
{
    return put_all(in, &library_calls);
}

static uint64_t run_plain(const void *in)
{
    return put_all(in, &plain_calls);
}

static uint64_t least_work(const struct question *q)
{
    switch (q->call) {
    case CALL_BUILD:
    case CALL_READ: memcpy(written[0], q->contents, q->lengths[0]); return 0;
    case CALL_DECODE:
    case CALL_WRITE: memcpy(written[0], to_copy, q->lengths[1]); return 0;
    default: return plain_sum(q->contents, q->lengths[0]);
    }
}

static uint64_t run_floor(const void *of)
{
    const struct input *in = of;
    uint64_t answers = 0;
    for (size_t i = 0; i < in->questions; i++)
        answers += least_work(&in->question[i]);
    return answers;
}

static uint64_t check_all(const struct input *in, const struct calls *to)
{
    uint64_t answers = 0;
    for (size_t i = 0; i < in->questions; i++)
        answers += to->check(in->question[i].level, in->question[i].contents, in->question[i].lengths[0]);
    return answers;
}

static uint64_t run_check(const void *in)
{
    return check_all(in, &library_calls);
}

static uint64_t run_plain_check(const void *in)
{
    return check_all(in, &plain_calls);
}

static uint64_t run_in_tree(const void *in)
{
    return put_all(in, &in_tree_calls);
}

static uint64_t run_two_pass(const void *in)
{
    return put_all(in, &two_pass_calls);
}

static uint64_t run_by_rows(const void *in)
{
    return put_all(in, &by_rows_calls);
}

static uint64_t run_in_place(const void *in)
{
    return put_all(in, &in_place_calls);
}

/* A rival on the early sheets, whatever it is handed. */
static rival *rival_of_early;

static uint64_t run_early(const void *in)
{
    (void)in;
    return rival_of_early(&early_input);
}

/* The rivals of a call, and which of them stand in its lines beside plain C and the
 * floor. */
static const struct field {
    rival *rivals[MOST_RIVALS];
    size_t count, also;
    const char *name[MOST_RIVALS];
} most_calls = {{run_proved, run_plain, run_floor}, 3, 0, {NULL}},
  searching = {{run_proved, run_plain, run_floor, run_check, run_plain_check}, 5, 1, {"check"}},
  distance = {{run_proved, run_plain, run_floor, run_in_tree, run_two_pass, run_by_rows},
              6,
              3,
              {"in tree", "2 passes", "by rows"}},
  ponds = {{run_proved, run_plain, run_floor, run_in_place}, 4, 1, {"in place"}};

static const struct field *field_of(enum call call)
{
    return call_searches(call)     ? &searching
           : call == CALL_DISTANCE ? &distance
           : call == CALL_PONDS    ? &ponds
                                   : &most_calls;
}

/* ---- the answers */

static int is_answered_by(const struct question *q, const struct calls *to)
{
    struct outcome o = question_ask_of(q, to);
    if (outcome_is_right(&o))
        return 1;
    printf("the answers differ:\n");
    question_print(stdout, q, &o);
    return 0;
}

static int agree(const struct question *q)
{
    return is_answered_by(q, &library_calls) && is_answered_by(q, &plain_calls) &&
           (q->call != CALL_DISTANCE || (is_answered_by(q, &in_tree_calls) && is_answered_by(q, &two_pass_calls) &&
                                         is_answered_by(q, &by_rows_calls))) &&
           (q->call != CALL_PONDS || is_answered_by(q, &in_place_calls));
}

static int agree_on_samples(enum call call)
{
    struct dice d = dice_from(5);
    struct question q;
    for (int i = 0; i < SAMPLES_OF_A_CALL; i++) {
        draw_question(&q, call, &d);
        if (!agree(&q))
            return 0;
    }
    return 1;
}

static int agree_on_input(void)
{
    for (size_t i = 0; i < input.questions; i++)
        if (!agree(&input.question[i]))
            return 0;
    return 1;
}

/* ---- the lines */

static int counts_pixels(enum call call)
{
    return call == CALL_BUILD || call == CALL_DECODE;
}

static const char *unit_of(enum call call)
{
    return call_searches(call) ? "call" : counts_pixels(call) ? "pixel" : "node";
}

static void print_head(enum call call)
{
    printf("sheet_%s: nanoseconds a %s\n%-24s %5ss %8s %8s %8s %8s %8s", call_form[call].name, unit_of(call), "",
           unit_of(call), "proved", "plain", "floor", "/plain", "/floor");
    for (size_t i = 0; i < field_of(call)->also; i++)
        printf(" %8s %8s", field_of(call)->name[i], "/it");
    printf("\n");
}

static void print_line(enum call call, const char *where, uint32_t level, const struct line *l)
{
    const double *taken = l->times.taken, *to = l->times.first_to;
    printf("%-18s n %-3u %6.0f %8.2f %8.2f %8.3f %8.2f %8.2f", where, (unsigned)level, l->units,
           taken[PROVED] / l->units, taken[PLAIN] / l->units, taken[FLOOR] / l->units, to[PLAIN], to[FLOOR]);
    for (size_t i = 0; i < field_of(call)->also; i++)
        printf(" %8.2f %8.2f", taken[FLOOR + 1 + i] / l->units, to[FLOOR + 1 + i]);
    printf("\n");
    fflush(stdout);
}

/* How much longer a rival takes for a node or a pixel on the line's sheets than on the
 * early ones: both in turns, as a machine that changes its pace would spoil it. */
static double growth(rival *run, double work, double early_work)
{
    rival *pair[] = {run, run_early};
    rival_of_early = run;
    return race(&input, pair, 2).first_to[1] * early_work / work;
}

/* How much longer a node or a pixel takes at n = 7 than at n = 4. */
static void print_growth(enum call call, const struct kind *kind, const struct line *late, const struct line *early)
{
    const struct field *f = field_of(call);
    input_draw(&early_input, call, kind->pictures, EARLY, 0);
    printf("%-18s n 7/4 %6s", kind->name, "");
    for (int rival = PROVED; rival <= FLOOR; rival++)
        printf(" %8.2f", growth(f->rivals[rival], late->work, early->work));
    for (size_t i = 0; i < f->also && !call_searches(call); i++)
        printf(" %*s %8.2f", i == 0 ? 17 : 8, "", growth(f->rivals[FLOOR + 1 + i], late->work, early->work));
    printf("\n");
}

/* What is left of a call that searches, beyond the check; taken from the ratios, since
 * a machine that changes its pace would spoil a difference of two times. */
static void print_search(const struct line *l)
{
    const double *to = l->times.first_to;
    double call = l->times.taken[PROVED] / l->units;
    double proved = call - call / to[CHECK], plain = call / to[PLAIN] - call / to[PLAIN_CHECK];
    printf("%-18s n 7   %6s %8.2f %8.2f %8s %8.2f\n", "the search alone", "", proved, plain, "", proved / plain);
}

/* ---- a call */

static void proved_once(void)
{
    run_proved(&input);
}

static void plain_once(void)
{
    run_plain(&input);
}

static double larger(double a, double b)
{
    return a > b ? a : b;
}

static size_t more(size_t a, size_t b)
{
    return a > b ? a : b;
}

static void remember(struct summary *s, const char *where, int at_random, const struct times *t)
{
    struct worst *w = at_random ? &s->at_random : &s->as_built;
    if (t->first_to[PLAIN] > w->to_plain)
        w->where = where;
    w->to_plain = larger(w->to_plain, t->first_to[PLAIN]);
    w->to_floor = larger(w->to_floor, t->first_to[FLOOR]);
    s->stack = more(s->stack, stack_used(proved_once));
    s->plain_stack = more(s->plain_stack, stack_used(plain_once));
}

/* Draws an input, times it and prints its line. Gives 0, and times nothing, where
 * an answer is not right. */
static int time_line(enum call call, const struct kind *kind, uint32_t level, int at_random, struct summary *s,
                     struct line *l)
{
    char where[40];
    snprintf(where, sizeof where, "%s%s", kind->name, at_random ? ", random" : "");
    input_draw(&input, call, kind->pictures, level, at_random);
    if (!agree_on_input())
        return 0;
    l->times = race(&input, field_of(call)->rivals, field_of(call)->count);
    l->work = (double)(counts_pixels(call) ? input.pixels : input.nodes);
    l->units = call_searches(call) ? (double)input.questions : l->work;
    print_line(call, where, level, l);
    if (level == HIGHEST)
        remember(s, kind->name, at_random, &l->times);
    return 1;
}

static int time_kind(enum call call, const struct kind *kind, struct summary *s)
{
    struct line line[HIGHEST + 1], at_random;
    for (uint32_t level = LOWEST; level <= HIGHEST; level++)
        if (!time_line(call, kind, level, 0, s, &line[level]))
            return 0;
    print_growth(call, kind, &line[HIGHEST], &line[EARLY]);
    if (call_searches(call) && kind->pictures == PICTURE_LONE_PIXEL)
        print_search(&line[HIGHEST]);
    return call == CALL_BUILD || call == CALL_READ || time_line(call, kind, HIGHEST, 1, s, &at_random);
}

static int time_call(enum call call, struct summary *s)
{
    print_head(call);
    if (!agree_on_samples(call))
        return 0;
    for (size_t i = 0; i < sizeof kinds / sizeof *kinds; i++)
        if (!time_kind(call, &kinds[i], s))
            return 0;
    printf("stack at n 7: %zu bytes, plain %zu; worst at n 7: %.2f times plain, on %s\n\n", s->stack, s->plain_stack,
           s->as_built.to_plain, s->as_built.where);
    return 1;
}

/* ---- all calls */

/* How many times plain C's time and the floor's a call may take at n = 7; only the
 * check has a bound for the floor. */
static double bound_of(enum call call)
{
    return call == CALL_DISTANCE || call == CALL_PONDS ? 1.3 : 1.15;
}

static const double CHECK_TO_FLOOR = 8;

static int is_kept(enum call call, const struct worst *w)
{
    return w->to_plain <= bound_of(call) && (call != CALL_CHECK || w->to_floor <= CHECK_TO_FLOOR);
}

static void print_worst(enum call call, const struct worst *w)
{
    if (w->where == NULL) /* a call that is given no table */
        printf("  %36s", "");
    else
        printf("  %6.2f %8.2f  %-8s %-9s", w->to_plain, w->to_floor, is_kept(call, w) ? "kept" : "not kept", w->where);
}

static void print_summary(enum call call, const struct summary *s)
{
    printf("%-13s %5.2f ", call_form[call].name, bound_of(call));
    if (call == CALL_CHECK)
        printf("%6.2f", CHECK_TO_FLOOR);
    else
        printf("%6s", "");
    print_worst(call, &s->as_built);
    print_worst(call, &s->at_random);
    printf(" %6zu\n", s->stack);
}

static void print_table(const struct summary *summaries, int first, int last)
{
    printf("%-26s  %-35s  %s\n", "worst at n 7", "as built", "numbered at random");
    printf("%-13s %5s %6s", "", "bound", "floor");
    for (int i = 0; i < 2; i++)
        printf("  %6s %8s  %-8s %-9s", "/plain", "/floor", "", "on");
    printf(" %6s\n", "stack");
    for (int call = first; call <= last; call++)
        print_summary((enum call)call, &summaries[call]);
}

static int call_named(const char *name)
{
    int call = 0;
    while (call < CALLS && strcmp(call_form[call].name, name) != 0)
        call++;
    return call;
}

int main(int argc, char **argv)
{
    static struct summary summaries[CALLS];
    int first = argc > 1 ? call_named(argv[1]) : 0, last = argc > 1 ? first : CALLS - 1;
    if (argc > 2 || first == CALLS) {
        fprintf(stderr, "usage: bench [CALL], a call's name without sheet_\n");
        return 2;
    }
    for (int call = first; call <= last; call++)
        if (!time_call((enum call)call, &summaries[call]))
            return 1;
    print_table(summaries, first, last);
    return 0;
}
