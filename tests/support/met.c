#include "support/met.h"

#include <inttypes.h>
#include <stdarg.h>
#include <stdio.h>

#include "support/report.h"

enum { MOST_PRINTED = 20 };

struct met met;

static uint32_t group_inputs, group_unequal;

uint64_t packed(uint32_t code, uint64_t value)
{
    return code + 256 * value;
}

enum lend_at met_turn(void)
{
    return (enum lend_at)(met.inputs % LEND_PLACES);
}

static void print_unequal(uint64_t wanted, uint64_t given, int buffers_right, const char *text, va_list parts)
{
    printf("  ");
    vprintf(text, parts);
    printf(": wanted %" PRIu64 " with %" PRIu64 ", given %" PRIu64 " with %" PRIu64 "%s\n", wanted % 256,
           wanted / 256, given % 256, given / 256,
           buffers_right ? "" : ", and a buffer or its guards are not as they must be");
}

int met_answer(uint64_t wanted, uint64_t given, int buffers_right, const char *text, ...)
{
    met.inputs++;
    met.code[wanted % 256]++;
    if (wanted == given && buffers_right)
        return 1;
    if (++met.unequal <= MOST_PRINTED) {
        va_list parts;
        va_start(parts, text);
        print_unequal(wanted, given, buffers_right, text, parts);
        va_end(parts);
    }
    return 0;
}

void met_begin_group(void)
{
    group_inputs = met.inputs;
    group_unequal = met.unequal;
}

void met_end_group(const char *name)
{
    char line[160];
    snprintf(line, sizeof line, "%s: %" PRIu32 " inputs", name, met.inputs - group_inputs);
    report_check(line, met.inputs > group_inputs && met.unequal == group_unequal);
}

void met_group(const char *name, void (*run)(void))
{
    met_begin_group();
    run();
    met_end_group(name);
}

void met_often(const char *what, uint32_t number, uint32_t times)
{
    char line[120];
    snprintf(line, sizeof line, "%s %" PRIu32 " was met: %" PRIu32 " times", what, number, times);
    report_check(line, times >= LEAST_MET);
}

void met_report(const uint32_t *codes, size_t count, uint32_t least_inputs)
{
    uint32_t named = 0;
    for (size_t i = 0; i < count; i++) {
        met_often("code", codes[i], met.code[codes[i]]);
        named += met.code[codes[i]];
    }
    report_check("no other code", named == met.inputs);
    report_check("inputs enough", met.inputs >= least_inputs);
}
