/*
 * A picture in the Netpbm format PBM becomes a sheet file, and a sheet file a
 * picture.
 *
 *     pbm sheet   <drawing.pbm   >drawing.sheet
 *     pbm picture <drawing.sheet >drawing.pbm
 *
 * The picture is plain (P1) or raw (P4) and at most 128 pixels wide and high. It
 * stands in the top left corner of the smallest sheet that holds it; the rest of
 * the sheet is white. The picture that comes back is the whole sheet, plain. What
 * cannot be done is said on the standard error stream, and the status is 1.
 */
#include <ctype.h>
#include <stdio.h>
#include <string.h>

#include "sheet.h"

enum { MOST_SIDE = 1 << SHEET_HIGHEST_LEVEL, LINE_WIDTH = 64, NUMBER_TOO_HIGH = 100000 };

struct picture {
    uint32_t level;
    uint8_t raster[MOST_SIDE * MOST_SIDE];
};

static struct picture picture;
static uint32_t table[SHEET_LONGEST_TABLE];

static int complain(const char *what)
{
    fprintf(stderr, "pbm: %s\n", what);
    return 1;
}

static int complain_of_refusal(const char *call, uint64_t answer)
{
    fprintf(stderr, "pbm: %s refused, code %lu, value %lu\n", call, (unsigned long)sheet_code(answer),
            (unsigned long)sheet_value(answer));
    return 1;
}

/* ---- reading PBM */

/* The next byte of a PBM header; a comment counts as the end of its line. */
static int next_byte(void)
{
    int byte = getchar();
    if (byte == '#')
        while (byte != '\n' && byte != EOF)
            byte = getchar();
    return byte;
}

static int next_byte_but_space(void)
{
    int byte = next_byte();
    while (byte != EOF && isspace(byte))
        byte = next_byte();
    return byte;
}

/* A number and the one byte of white space after it; 0 is no number here. */
static uint32_t read_number(void)
{
    uint32_t number = 0;
    int byte = next_byte_but_space();
    for (; byte != EOF && isdigit(byte); byte = next_byte())
        if (number < NUMBER_TOO_HIGH)
            number = 10 * number + (uint32_t)(byte - '0');
    return byte != EOF && isspace(byte) ? number : 0;
}

static uint8_t *pixel(uint32_t x, uint32_t y)
{
    return &picture.raster[(y << picture.level) + x];
}

static int read_plain_row(uint32_t y, uint32_t width)
{
    for (uint32_t x = 0; x < width; x++) {
        int digit = next_byte_but_space();
        if (digit != '0' && digit != '1')
            return 0;
        *pixel(x, y) = (uint8_t)(digit - '0');
    }
    return 1;
}

/* Eight pixels stand in a byte, the leftmost in its highest bit. */
static int read_raw_row(uint32_t y, uint32_t width)
{
    int byte = 0;
    for (uint32_t x = 0; x < width; x++) {
        if (x % 8 == 0 && (byte = getchar()) == EOF)
            return 0;
        *pixel(x, y) = (uint8_t)(byte >> (7 - x % 8) & 1);
    }
    return 1;
}

static uint32_t level_for(uint32_t width, uint32_t height)
{
    uint32_t level = 0;
    while (width > UINT32_C(1) << level || height > UINT32_C(1) << level)
        level++;
    return level;
}

static int read_pbm(void)
{
    int is_pbm = getchar() == 'P', kind = getchar();
    if (!is_pbm || (kind != '1' && kind != '4'))
        return complain("this is no PBM picture");
    uint32_t width = read_number(), height = read_number();
    if (width == 0 || height == 0)
        return complain("width and height are missing");
    if (width > MOST_SIDE || height > MOST_SIDE)
        return complain("the picture is wider or higher than 128 pixels");
    picture.level = level_for(width, height);
    for (uint32_t y = 0; y < height; y++)
        if (!(kind == '1' ? read_plain_row(y, width) : read_raw_row(y, width)))
            return complain("pixels are missing");
    return 0;
}

/* ---- writing PBM */

static void print_pbm(void)
{
    uint32_t side = UINT32_C(1) << picture.level;
    printf("P1\n%lu %lu\n", (unsigned long)side, (unsigned long)side);
    for (uint32_t y = 0; y < side; y++)
        for (uint32_t x = 0; x < side; x++) {
            putchar('0' + *pixel(x, y));
            if (x + 1 == side || x % LINE_WIDTH == LINE_WIDTH - 1)
                putchar('\n');
        }
}

/* ---- the two ways */

static size_t pixels_of(uint32_t level)
{
    return (size_t)1 << (2 * level);
}

static int sheet_from_picture(void)
{
    static uint8_t file[SHEET_LONGEST_FILE];
    if (read_pbm() != 0)
        return 1;
    uint64_t built = sheet_build(picture.level, picture.raster, pixels_of(picture.level), table, SHEET_LONGEST_TABLE);
    if (sheet_code(built) != SHEET_OK)
        return complain_of_refusal("sheet_build", built);
    size_t length = (size_t)sheet_value(built) * SHEET_NODE_WORDS;
    uint64_t written = sheet_write(picture.level, table, length, file, sizeof file);
    if (sheet_code(written) != SHEET_OK)
        return complain_of_refusal("sheet_write", written);
    fwrite(file, 1, (size_t)sheet_value(written), stdout);
    return 0;
}

static int picture_from_sheet(void)
{
    static uint8_t file[SHEET_LONGEST_FILE + 1];
    uint64_t read = sheet_read(file, fread(file, 1, sizeof file, stdin), table, SHEET_LONGEST_TABLE);
    if (sheet_code(read) != SHEET_OK)
        return complain_of_refusal("sheet_read", read);
    picture.level = sheet_level(read);
    size_t length = (size_t)sheet_count(read) * SHEET_NODE_WORDS;
    uint64_t decoded = sheet_decode(picture.level, table, length, picture.raster, pixels_of(picture.level));
    if (sheet_code(decoded) != SHEET_OK)
        return complain_of_refusal("sheet_decode", decoded);
    print_pbm();
    return 0;
}

int main(int count, char **words)
{
    if (count == 2 && strcmp(words[1], "sheet") == 0)
        return sheet_from_picture();
    if (count == 2 && strcmp(words[1], "picture") == 0)
        return picture_from_sheet();
    return complain("use: pbm sheet <PBM >SHEET, or pbm picture <SHEET >PBM");
}
