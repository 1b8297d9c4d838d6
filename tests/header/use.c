/*
 * Every name of sheet.h in use: tests/header.sh has this file compiled in each language at the strictest levels,
 * and finds it wanting if a name is missing. It is not run.
 */
#include "sheet.h"

/* Compiles only if the condition holds. */
#define HOLDS(name, condition) typedef char holds_##name[(condition) ? 1 : -1]

/* Has the expression this type? C before C11 can only ask for its size and whether it has a sign. */
#ifdef __cplusplus
template <typename type> struct kind { char size[3]; };
template <> struct kind<uint32_t> { char size[1]; };
template <> struct kind<uint64_t> { char size[2]; };
template <typename type> kind<type> kind_of(type);
#define IS_UINT32(expression) (sizeof kind_of(expression) == 1)
#define IS_UINT64(expression) (sizeof kind_of(expression) == 2)
#elif defined __STDC_VERSION__ && __STDC_VERSION__ >= 201112L
#define IS_UINT32(expression) _Generic((expression), uint32_t: 1, default: 0)
#define IS_UINT64(expression) _Generic((expression), uint64_t: 1, default: 0)
#else
#define IS_UINT32(expression) (sizeof(expression) == 4 && (expression) * 0 - 1 > 0)
#define IS_UINT64(expression) (sizeof(expression) == 8 && (expression) * 0 - 1 > 0)
#endif

/* Code 6 with the highest value; code 0 with the last node, or as high a count, and the highest level beside it. */
#define NOT_THERE (UINT64_C(256) * 4294967295u + 6)
#define LAST_NODE (UINT64_C(256) * (21844 * 8 + 7))

HOLDS(word, SHEET_WORD(NOT_THERE >> 8) == 4294967295u && IS_UINT32(SHEET_WORD(NOT_THERE)));
HOLDS(code, sheet_code(NOT_THERE) == 6 && IS_UINT32(sheet_code(NOT_THERE)));
HOLDS(value, sheet_value(NOT_THERE) == 4294967295u && IS_UINT64(sheet_value(NOT_THERE)));
HOLDS(node, sheet_node(LAST_NODE) == 21844 && IS_UINT32(sheet_node(LAST_NODE)));
HOLDS(count, sheet_count(LAST_NODE) == 21844 && IS_UINT32(sheet_count(LAST_NODE)));
HOLDS(level, sheet_level(LAST_NODE) == 7 && IS_UINT32(sheet_level(LAST_NODE)));
HOLDS(packed_levels, SHEET_PACKED_LEVELS > SHEET_HIGHEST_LEVEL);

/* Lent to the calls below; together as long as the longest sheet asks for. */
static uint8_t raster[1 << 2 * SHEET_HIGHEST_LEVEL];
static uint32_t table[SHEET_LONGEST_TABLE];
static uint32_t of_nodes[SHEET_LONGEST_TABLE / SHEET_NODE_WORDS];
static uint32_t entries[SHEET_LONGEST_REGISTER];
static uint8_t file[SHEET_LONGEST_FILE];
static const uint32_t leaf[] = {SHEET_NONE, SHEET_NONE, SHEET_NONE, SHEET_NONE, SHEET_NONE, SHEET_BLACK};

const char *use_sheet_code(uint32_t code);
size_t use_sheet_words(uint32_t node, uint32_t pond, uint32_t quadrant);
uint32_t use_sheet_type(uint32_t distance);
uint64_t use_sheet_calls(uint32_t n, uint32_t node);

const char *use_sheet_code(uint32_t code)
{
    switch (code) {
    case SHEET_OK: return SHEET_VERSION;
    case SHEET_BAD_LEVEL: return "level";
    case SHEET_BAD_LENGTH: return "length";
    case SHEET_BAD_NODE: return "node";
    case SHEET_TOO_DEEP: return "deep";
    case SHEET_NEEDLESS_FORK: return "fork";
    case SHEET_NO_SUCH_NODE: return "no node";
    case SHEET_BAD_DIRECTION: return "direction";
    case SHEET_BAD_PIXEL: return "pixel";
    case SHEET_NO_ROOM: return "room";
    case SHEET_BAD_GROUND: return "ground";
    case SHEET_BAD_RECORD: return "record";
    case SHEET_FILE_ENDS: return "end";
    case SHEET_BAD_COUNT: return "count";
    case SHEET_NO_BLOCK: return "no block";
    default: return "?";
    }
}

size_t use_sheet_words(uint32_t node, uint32_t pond, uint32_t quadrant)
{
    const uint32_t sons = SHEET_NODE_WORDS * node + SHEET_SON_WORD;
    size_t sum = SHEET_NODE_WORDS * node + SHEET_FATHER_WORD;

    sum += sons + quadrant;
    sum += sons + SHEET_QUADRANT_NW + SHEET_QUADRANT_NE + SHEET_QUADRANT_SW + SHEET_QUADRANT_SE;
    sum += SHEET_NODE_WORDS * node + SHEET_TYPE_WORD;
    sum += SHEET_POND_WORDS * (pond - 1) + SHEET_PIXELS_WORD;
    sum += SHEET_FIRST_ROW_WORD + SHEET_LAST_ROW_WORD + SHEET_FIRST_COLUMN_WORD + SHEET_LAST_COLUMN_WORD;
    return sum;
}

uint32_t use_sheet_type(uint32_t distance)
{
    if (distance == SHEET_NO_WHITE)
        return SHEET_BLACK;
    return distance == 0 ? SHEET_WHITE : SHEET_GRAY;
}

uint64_t use_sheet_calls(uint32_t n, uint32_t node)
{
    static const uint32_t directions[] = {SHEET_N, SHEET_E, SHEET_S, SHEET_W, SHEET_NW, SHEET_NE, SHEET_SW, SHEET_SE};
    double place[2] = {0.0, 0.0};
    uint64_t answer = sheet_check(0, leaf, SHEET_NODE_WORDS);
    size_t words;

    answer |= sheet_build(n, raster, sizeof raster, table, SHEET_LONGEST_TABLE);
    if (sheet_code(answer) != SHEET_OK)
        return sheet_value(answer);
    words = sheet_value(answer) * SHEET_NODE_WORDS;
    answer |= sheet_decode(n, table, words, raster, sizeof raster);
    answer |= sheet_neighbour(n, table, words, node, *directions);
    answer |= sheet_corner_leaf(n, table, words, sheet_node(answer), SHEET_E, SHEET_QUADRANT_SE);
    answer |= sheet_diagonal_leaf(n, table, words, node, SHEET_QUADRANT_NW);
    answer |= sheet_distance(n, table, words, of_nodes, sheet_value(answer));
    answer |= sheet_ponds(n, table, words, of_nodes, words / SHEET_NODE_WORDS, entries, SHEET_LONGEST_REGISTER);
    answer |= sheet_write(n, table, words, file, SHEET_LONGEST_FILE);
    answer |= sheet_read(file, sheet_value(answer), table, SHEET_LONGEST_TABLE);
    words = sheet_count(answer) * SHEET_NODE_WORDS;
    answer |= sheet_centre(sheet_level(answer), table, words, node, 1000.0, 2000.0, 10.0, place, 2);
    return answer;
}
