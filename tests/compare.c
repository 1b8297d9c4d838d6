/*
 * Every call against the second implementation, on as many cases as are asked
 * for, drawn from a seed: the number given back, every byte of every slice that
 * was lent, and the guards round it.
 *
 *   compare [--seed S] [--cases N | --minutes M] [--call NAME] [--first K]
 *
 * The cases of a seed are numbered from 0, and a case is the same whatever ran
 * before it. Without --cases and --minutes there are a million of them; --call
 * takes the cases of one call alone (check, build, ...), --first those from
 * number K on. A case in which library and second implementation differ is
 * printed with the command that runs it alone; after ten of them no more are
 * tried. A case that stops the program is named too. In the end a table says how
 * often each call was met with each code.
 */
#define _POSIX_C_SOURCE 200809L
#include <inttypes.h>
#include <errno.h>
#include <signal.h>
#include <stdio.h>
#include <stdlib.h>
#include <string.h>
#include <time.h>
#include <unistd.h>

#include "sheet.h"
#include "support/dice.h"
#include "support/draw.h"
#include "support/question.h"
#include "support/report.h"

enum { MILLION = 1000000, ENOUGH_TO_COUNT = 50000, MOST_UNEQUAL = 10, KEPT = 2000, PATIENCE = 120 };

/* A code is met at least once in so many cases: 100 times in a million. */
enum { CASES_TO_MEET = 10000 };

struct asked_for {
    uint64_t seed, first, cases, minutes;
    int call; /* or -1 for all of them */
};

/* What may be special about a case. */
enum special { LARGEST, EMPTY_NULL, EMPTY_POINTER, NO_SHEETS_LENGTH, TOO_LONG, SPECIALS };

static const char *const special_name[SPECIALS] = {
    "largest", "empty, NULL", "empty, no NULL", "odd length", "too long",
};

static struct asked_for asked = {1, 0, 0, 0, -1};
static uint64_t met_cases, met_unequal, met_call[CALLS], met_call_unequal[CALLS], met_code[CALLS][256];
static uint64_t met_special[CALLS][SPECIALS], kept[KEPT];
static volatile uint64_t case_at_hand;

/* ---- a case */

static uint64_t two_words(struct dice *d)
{
    uint64_t high = dice_word(d);
    return high << 32 | dice_word(d);
}

/* The dice of one case: of the seed and its number, and of nothing else. */
static struct dice dice_of(uint64_t number)
{
    struct dice of_seed = dice_from(asked.seed), of_case = dice_from(two_words(&of_seed) ^ number);
    return dice_from(two_words(&of_case));
}

static void draw_case(struct question *q, uint64_t number)
{
    struct dice d = dice_of(number);
    draw_question(q, (enum call)(number % CALLS), &d);
}

static uint64_t mixed(uint64_t sum, const void *from, size_t size)
{
    const unsigned char *bytes = from;
    for (size_t i = 0; i < size; i++)
        sum = (sum ^ bytes[i]) * UINT64_C(0x100000001b3);
    return sum;
}

/* A number that tells questions apart: made of all that is in one. */
static uint64_t sum_of(const struct question *q)
{
    uint64_t sum = mixed(UINT64_C(0xcbf29ce484222325), q->contents, q->lengths[0] * call_form[q->call].element_size[0]);
    sum = mixed(sum, q->lengths, sizeof q->lengths);
    sum = mixed(sum, q->numbers, sizeof q->numbers);
    sum = mixed(sum, &q->level, sizeof q->level);
    sum = mixed(sum, &q->node, sizeof q->node);
    sum = mixed(sum, &q->ground, sizeof q->ground);
    sum = mixed(sum, q->at, sizeof q->at);
    return mixed(sum, &q->filling, sizeof q->filling) + (uint64_t)q->null_where_empty;
}

/* ---- what was met */

static size_t longest(enum call call)
{
    return call == CALL_BUILD ? 16384 : call == CALL_READ ? SHEET_LONGEST_FILE : SHEET_LONGEST_TABLE;
}

/* Is the picture the one with the most nodes? Its raster is not longer than
 * others of its level, but the answer has its node count. */
static int is_largest(const struct question *q, const struct outcome *o)
{
    return sheet_code(o->wanted) == SHEET_OK && q->lengths[0] == longest(q->call) &&
           (q->call != CALL_BUILD || sheet_value(o->wanted) * SHEET_NODE_WORDS == SHEET_LONGEST_TABLE);
}

static int has_no_sheets_length(const struct question *q)
{
    size_t length = q->lengths[0];
    if (q->call == CALL_READ)
        return length % 3 != 2;
    if (q->call != CALL_BUILD)
        return length % SHEET_NODE_WORDS != 0;
    while (length > 0 && length % 4 == 0)
        length /= 4;
    return length != 1;
}

static void count_special(const struct question *q, const struct outcome *o)
{
    uint64_t *met = met_special[q->call];
    int empty = 0;
    for (size_t i = 0; i < call_form[q->call].slices; i++)
        empty |= q->lengths[i] == 0;
    met[LARGEST] += (uint64_t)is_largest(q, o);
    met[EMPTY_NULL] += (uint64_t)(empty && q->null_where_empty);
    met[EMPTY_POINTER] += (uint64_t)(empty && !q->null_where_empty);
    met[NO_SHEETS_LENGTH] += (uint64_t)has_no_sheets_length(q);
    met[TOO_LONG] += q->lengths[0] > longest(q->call);
}

static void print_case(uint64_t number, const struct question *q, const struct outcome *o)
{
    printf("  case %" PRIu64 " differs: compare --seed %" PRIu64 " --first %" PRIu64 " --cases 1\n", number, asked.seed,
           number);
    question_print(stdout, q, o);
    fflush(stdout);
}

static void run_case(uint64_t number)
{
    struct question q;
    case_at_hand = number;
    draw_case(&q, number);
    if (met_cases < KEPT)
        kept[met_cases] = sum_of(&q);
    struct outcome o = question_ask(&q);
    met_cases++;
    met_call[q.call]++;
    met_code[q.call][sheet_code(o.wanted)]++;
    count_special(&q, &o);
    if (outcome_is_right(&o))
        return;
    met_unequal++;
    met_call_unequal[q.call]++;
    print_case(number, &q, &o);
}

/* ---- all cases */

/* The next case from here on of a call that is asked for. */
static uint64_t next_number(uint64_t from)
{
    while (asked.call >= 0 && from % CALLS != (uint64_t)asked.call)
        from++;
    return from;
}

/* Says how far a long run is, every ten minutes. */
static void print_progress(time_t began)
{
    static long said;
    long tens = (long)(time(NULL) - began) / 600;
    if (tens > said) {
        printf("%ld minutes: %" PRIu64 " cases, %" PRIu64 " differ\n", 10 * tens, met_cases, met_unequal);
        fflush(stdout);
        said = tens;
    }
}

/* A call that does not end is stopped by the alarm, which each thousand of cases
 * puts off. */
static int goes_on(time_t began)
{
    if (met_unequal >= MOST_UNEQUAL)
        return 0;
    if (met_cases % 1000 == 0) {
        alarm(PATIENCE);
        print_progress(began);
        if (asked.minutes > 0)
            return (uint64_t)(time(NULL) - began) < 60 * asked.minutes;
    }
    return asked.minutes > 0 || met_cases < asked.cases;
}

static void run_cases(void)
{
    time_t began = time(NULL);
    for (uint64_t number = next_number(asked.first); goes_on(began); number = next_number(number + 1))
        run_case(number);
    alarm(0);
}

/* Draws the first cases once more, the last of them first. */
static int cases_are_the_same_again(void)
{
    struct question q;
    uint64_t number[KEPT], next = asked.first;
    size_t count = met_cases < KEPT ? (size_t)met_cases : KEPT;
    int same = 1;
    for (size_t i = 0; i < count; i++, next++)
        number[i] = next = next_number(next);
    for (size_t i = count; i-- > 0;) {
        draw_case(&q, number[i]);
        same &= sum_of(&q) == kept[i];
    }
    return same;
}

/* ---- a case that stops the program */

static void say(const char *text)
{
    if (write(STDOUT_FILENO, text, strlen(text)) < 0)
        _exit(2);
}

static void say_number(uint64_t number)
{
    char digits[21], *first = &digits[20];
    *first = '\0';
    do
        *--first = (char)('0' + number % 10);
    while ((number /= 10) > 0);
    say(first);
}

/* The C library's own output must not be used in a signal handler. */
static void name_case(int signal)
{
    say("  case ");
    say_number(case_at_hand);
    say(signal == SIGALRM ? " does not end" : " stops the program");
    say(": compare --seed ");
    say_number(asked.seed);
    say(" --first ");
    say_number(case_at_hand);
    say(" --cases 1\n");
    _exit(1);
}

static void watch(void)
{
    static const int signals[] = {SIGSEGV, SIGBUS, SIGILL, SIGFPE, SIGABRT, SIGTRAP, SIGALRM};
    for (size_t i = 0; i < sizeof signals / sizeof *signals; i++)
        signal(signals[i], name_case);
}

#ifdef __SANITIZE_ADDRESS__
/* What the sanitizers ask for on their start: with this they end the program by a
 * signal when they have found something. */
const char *__asan_default_options(void)
{
    return "abort_on_error=1";
}

const char *__ubsan_default_options(void)
{
    return "abort_on_error=1";
}
#endif

/* ---- the end */

static int is_asked_for(size_t call)
{
    return asked.call < 0 || asked.call == (int)call;
}

static void print_codes(void)
{
    printf("%-14s %8s", "cases", "all");
    for (uint32_t code = 0; code < 21; code++)
        if (strcmp(code_name(code), "none") != 0)
            printf(" %7" PRIu32, code);
    printf("\n");
    for (size_t call = 0; call < CALLS; call++) {
        printf("%-14s %8" PRIu64, call_form[call].name, met_call[call]);
        for (uint32_t code = 0; code < 21; code++)
            if (strcmp(code_name(code), "none") != 0)
                printf(" %7" PRIu64, met_code[call][code]);
        printf("\n");
    }
}

static void print_specials(void)
{
    printf("%-14s", "cases");
    for (size_t i = 0; i < SPECIALS; i++)
        printf(" %15s", special_name[i]);
    printf("\n");
    for (size_t call = 0; call < CALLS; call++) {
        printf("%-14s", call_form[call].name);
        for (size_t i = 0; i < SPECIALS; i++)
            printf(" %15" PRIu64, met_special[call][i]);
        printf("\n");
    }
}

static void report(int holds, const char *call, const char *what, uint64_t times)
{
    char line[160];
    snprintf(line, sizeof line, "sheet_%s: %s, %" PRIu64 " times", call, what, times);
    report_check(line, holds);
}

/* Every code that the header has for the call, and no other. */
static void report_codes(size_t call)
{
    const struct call_form *form = &call_form[call];
    uint64_t named = 0;
    for (size_t i = 0; i < form->codes; i++) {
        uint64_t times = met_code[call][form->code[i]];
        report(times >= met_cases / CASES_TO_MEET, form->name, code_name(form->code[i]), times);
        named += times;
    }
    report(named == met_call[call], form->name, "another code", met_call[call] - named);
}

/* These are rarer: 50 times in a million cases, and the largest sheets, which take
 * longest, once. */
static void report_specials(size_t call)
{
    for (size_t i = 0; i < SPECIALS; i++) {
        uint64_t least = i == LARGEST ? met_cases / MILLION : met_cases / (2 * CASES_TO_MEET);
        report(met_special[call][i] >= least, call_form[call].name, special_name[i], met_special[call][i]);
    }
}

/* What must be met is not asked of a short run, nor of one call's cases. */
static void report_all(void)
{
    char line[80];
    for (size_t call = 0; call < CALLS; call++)
        if (is_asked_for(call) && met_call[call] > 0)
            report(met_call_unequal[call] == 0, call_form[call].name, "both agree", met_call[call]);
    if (asked.call < 0 && met_cases >= ENOUGH_TO_COUNT)
        for (size_t call = 0; call < CALLS; call++) {
            report(met_call[call] >= met_cases / 20, call_form[call].name, "a fair share", met_call[call]);
            report_codes(call);
            report_specials(call);
        }
    report_check("a case is the same whatever came before it", cases_are_the_same_again());
    snprintf(line, sizeof line, "%" PRIu64 " cases", met_cases);
    report_check(line, asked.minutes > 0 ? met_cases > 0 : met_cases == asked.cases);
}

/* ---- the command line */

static int usage(void)
{
    fprintf(stderr, "usage: compare [--seed S] [--cases N | --minutes M] [--call NAME] [--first K]\n");
    return 2;
}

static int find_call(const char *name)
{
    for (int call = 0; call < CALLS; call++)
        if (strcmp(call_form[call].name, name) == 0)
            return call;
    return -1;
}

/* One word of the command line with its value. Gives back whether it is known. */
static int take(const char *word, const char *value)
{
    char *end;
    errno = 0;
    uint64_t number = strtoull(value, &end, 10);
    if (strcmp(word, "--call") == 0)
        return (asked.call = find_call(value)) >= 0;
    if (*value < '0' || *value > '9' || *end != '\0' || errno != 0)
        return 0;
    if (strcmp(word, "--seed") == 0)
        asked.seed = number;
    else if (strcmp(word, "--cases") == 0)
        return (asked.cases = number) > 0;
    else if (strcmp(word, "--minutes") == 0)
        return (asked.minutes = number) > 0;
    else if (strcmp(word, "--first") == 0)
        asked.first = number;
    else
        return 0;
    return 1;
}

int main(int count, char **words)
{
    for (int i = 1; i < count; i += 2)
        if (i + 1 == count || !take(words[i], words[i + 1]))
            return usage();
    if (asked.cases > 0 && asked.minutes > 0)
        return usage();
    if (asked.cases == 0)
        asked.cases = MILLION;
    watch();
    run_cases();
    print_codes();
    print_specials();
    report_all();
    return report_end();
}
