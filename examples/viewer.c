/*
 * Draws a sheet, so that a person sees its blocks, and what lies beside one of
 * them, or the sheet's ponds, or its distances.
 *
 *     viewer [--node P | --ponds | --distance] [--scale K] [-o FILE] [FILE]
 *
 * FILE, or else the standard input, is a sheet file or a PBM picture. The picture
 * goes to the file after -o, or else to the standard output. --node, --ponds and
 * --distance also print what they show: on the standard output, or on the standard
 * error stream where the picture goes to the other. What cannot be done is said on
 * the standard error stream, and the status is then 1 for a bad input or output and
 * 2 for bad words. PNG needs libpng: it is there if WITH_PNG is defined.
 */
#include <ctype.h>
#include <errno.h>
#include <stdarg.h>
#include <stdio.h>
#include <string.h>

#include "sheet.h"

#ifdef WITH_PNG
#include <png.h>
#endif

enum { MOST_NODES = SHEET_LONGEST_TABLE / SHEET_NODE_WORDS, MOST_SIDE = 1 << SHEET_HIGHEST_LEVEL };
enum { LONGEST_INPUT = 1 << 20, LEAST_SCALE = 4, USUAL_WIDTH = 512, MOST_WIDTH = 2048 };
enum { BAD_INPUT = 1, BAD_WORDS = 2 };

/* What a picture shows. */
enum view { BLOCKS, NODE, PONDS, DISTANCE, VIEWS };

/* What the words of the command ask for; no file is a standard stream, and no scale
 * the usual one. */
static struct {
    enum view view;
    int help;
    uint32_t node, scale;
    const char *from, *to;
} wish;

/* The input, and in the text of a PBM picture the place of the next byte. */
static uint8_t input[LONGEST_INPUT + 1];
static size_t input_length, place;

/* A node's block: the column and the row of its top left pixel, and its side. */
struct block {
    uint32_t x, y, side;
};

/* Three bytes, as PPM and PNG have them. */
struct colour {
    uint8_t red, green, blue;
};

/* The sheet, and for each node its block and, if it is a leaf, its colour. */
static uint32_t level, nodes, table[SHEET_LONGEST_TABLE];
static size_t length;
static struct block blocks[MOST_NODES];
static struct colour fills[MOST_NODES];

/* The picture: scale by scale of its pixels for each pixel of the sheet, and one
 * line more at the right and at the bottom. */
static uint32_t scale, width;
static struct colour picture[(MOST_WIDTH + 1) * (MOST_WIDTH + 1)];

/* ---- what is said */

static const char help[] =
    "viewer [--node P | --ponds | --distance] [--scale K] [-o FILE] [FILE]\n"
    "\n"
    "Draws a sheet with the borders of its blocks. FILE, or else the standard input,\n"
    "is a sheet file, or a PBM picture that is square with a side of 1, 2, 4, 8, 16,\n"
    "32, 64 or 128 pixels.\n"
    "\n"
    "  --node P    node P in orange, its neighbours at the sides in blue and at the\n"
    "              corners in green: light if they are white, dark if black. A fork\n"
    "              is only framed, since what lies in it need not touch P. A dot is\n"
    "              in each leaf that touches P at an end of a side or at a corner.\n"
    "  --ponds     each pond in a colour of its own\n"
    "  --distance  black blocks in blue, the darker the further from white\n"
    "  --scale K   K by K picture pixels for each pixel, K from 4 on; the picture is\n"
    "              at most 2049 pixels wide, and 513 if K is not given\n"
#ifdef WITH_PNG
    "  -o FILE     where the picture goes, as PNG if FILE ends in .png, else as PPM\n";
#else
    "  -o FILE     where the picture goes, as PPM\n";
#endif

/* Says in a line what is wrong and with what, and gives the status back. */
static int complain(int status, const char *what, const char *format, ...)
{
    va_list rest;
    va_start(rest, format);
    fprintf(stderr, "viewer: %s: ", what);
    vfprintf(stderr, format, rest);
    fputc('\n', stderr);
    va_end(rest);
    return status;
}

/* Says what is wrong with the input. */
#define REFUSE(...) complain(BAD_INPUT, wish.from ? wish.from : "standard input", __VA_ARGS__)

/* What each refusal means that a file or a node's number can bring about, in words
 * after which the refusal's value stands. */
static const char *words_of(uint32_t code, uint64_t value)
{
    switch (code) {
    case SHEET_BAD_LEVEL: return "the level is above 7, at byte";
    case SHEET_TOO_DEEP: return "a block of one pixel is a fork, at byte";
    case SHEET_NEEDLESS_FORK: return "a fork has four like leaves and should be one leaf, at byte";
    case SHEET_NO_SUCH_NODE: return "the sheet has no node";
    case SHEET_BAD_RECORD:
        return value < 2 ? "this is no sheet file and no PBM picture: a wrong mark, at byte"
                         : "a wrong mark or type, at byte";
    case SHEET_FILE_ENDS: return "the file ends where a byte is needed, at byte";
    case SHEET_BAD_COUNT:
        return value == 3 ? "the node count is not the number of node records, at byte"
                          : "bytes are left over, from byte";
    default: return "the library refused, with value";
    }
}

/* Says a refusal of the library in words. */
static int refuse(uint64_t answer)
{
    return REFUSE("%s %lu (code %lu)", words_of(sheet_code(answer), sheet_value(answer)),
                  (unsigned long)sheet_value(answer), (unsigned long)sheet_code(answer));
}

/* ---- reading */

/* All bytes of the input, or one more than the longest input may have. */
static int read_input(void)
{
    FILE *stream = wish.from ? fopen(wish.from, "rb") : stdin;
    int status = 0;
    if (!stream)
        return REFUSE("%s", strerror(errno));
    input_length = fread(input, 1, sizeof input, stream);
    if (ferror(stream))
        status = REFUSE("%s", strerror(errno));
    if (wish.from)
        fclose(stream);
    return status;
}

/* A sheet file. One that is too long to be read whole has bytes left over in what
 * was read. */
static int read_sheet(void)
{
    uint64_t answer = sheet_read(input, input_length, table, SHEET_LONGEST_TABLE);
    if (sheet_code(answer) != SHEET_OK)
        return refuse(answer);
    level = sheet_level(answer);
    nodes = sheet_count(answer);
    return 0;
}

/* Is the input a PBM picture of this kind, '1' for plain or '4' for raw? */
static int is_pbm(int kind)
{
    return input_length >= 2 && input[0] == 'P' && input[1] == kind;
}

/* The next byte of a PBM picture's text; a comment counts as the end of its line. */
static int next_byte(void)
{
    if (place < input_length && input[place] == '#')
        while (place < input_length && input[place] != '\n' && input[place] != '\r')
            place++;
    return place < input_length ? input[place++] : EOF;
}

static int next_byte_but_space(void)
{
    int byte = next_byte();
    while (isspace(byte))
        byte = next_byte();
    return byte;
}

/* A number and the one byte of white space after it; above the side of the largest
 * sheet the number grows no more. */
static int read_number(uint32_t *number)
{
    int byte = next_byte_but_space(), found = isdigit(byte);
    for (*number = 0; isdigit(byte); byte = next_byte())
        if (*number <= MOST_SIDE)
            *number = 10 * *number + (uint32_t)(byte - '0');
    return found && isspace(byte);
}

/* The digit of the next pixel, which is in column x. Raw pixels stand eight to a
 * byte, the leftmost in its highest bit, and each row begins with a new byte. */
static int next_pixel(uint32_t x)
{
    if (is_pbm('1'))
        return next_byte_but_space();
    place += x % 8 == 0;
    return place <= input_length ? '0' + (input[place - 1] >> (7 - x % 8) & 1) : EOF;
}

/* The pixels of a picture. After them nothing may follow but, in a plain picture,
 * white space and comments. */
static int read_pixels(uint32_t side, uint8_t *raster)
{
    for (uint32_t y = 0; y < side; y++)
        for (uint32_t x = 0; x < side; x++) {
            int pixel = next_pixel(x);
            if (pixel != '0' && pixel != '1')
                return REFUSE("%s, in column %lu and row %lu",
                              pixel == EOF ? "the file ends where a pixel is needed" : "a pixel is neither 0 nor 1",
                              (unsigned long)x, (unsigned long)y);
            raster[y * side + x] = (uint8_t)(pixel - '0');
        }
    if (is_pbm('1') ? next_byte_but_space() != EOF : place++ < input_length)
        return REFUSE("bytes are left over after the last pixel, from byte %lu", (unsigned long)place - 1);
    return 0;
}

/* A PBM picture that is as large as a sheet. */
static int read_pbm(void)
{
    static uint8_t raster[MOST_SIDE * MOST_SIDE];
    uint32_t side, height;
    uint64_t answer;
    place = 2;
    if (input_length > LONGEST_INPUT)
        return REFUSE("the picture is longer than %d bytes", LONGEST_INPUT);
    if (!isspace(next_byte()) || !read_number(&side) || !read_number(&height))
        return REFUSE("width and height are missing");
    if (side > MOST_SIDE || height > MOST_SIDE)
        return REFUSE("the picture is wider or higher than %d pixels", MOST_SIDE);
    if (side != height || side == 0 || (side & (side - 1)) != 0)
        return REFUSE("the picture is %lu by %lu pixels; a sheet is square, and its side 1, 2, 4, 8, 16, 32, 64 or 128",
                      (unsigned long)side, (unsigned long)height);
    if (read_pixels(side, raster) != 0)
        return BAD_INPUT;
    while (UINT32_C(1) << level < side)
        level++;
    answer = sheet_build(level, raster, (size_t)side * side, table, SHEET_LONGEST_TABLE);
    if (sheet_code(answer) != SHEET_OK)
        return refuse(answer);
    nodes = (uint32_t)sheet_value(answer);
    return 0;
}

/* ---- the table */

static uint32_t type_of(uint32_t node)
{
    return table[node * SHEET_NODE_WORDS + SHEET_TYPE_WORD];
}

/* Each node's block. The library made the table, so that a father stands before its
 * sons and every link can be followed. */
static void place_blocks(void)
{
    blocks[0] = (struct block){0, 0, UINT32_C(1) << level};
    for (uint32_t node = 0; node < nodes; node++) {
        const uint32_t half = blocks[node].side / 2, east = blocks[node].x + half, south = blocks[node].y + half;
        const uint32_t *sons = &table[node * SHEET_NODE_WORDS + SHEET_SON_WORD];
        if (type_of(node) != SHEET_GRAY)
            continue;
        blocks[sons[SHEET_QUADRANT_NW]] = (struct block){blocks[node].x, blocks[node].y, half};
        blocks[sons[SHEET_QUADRANT_NE]] = (struct block){east, blocks[node].y, half};
        blocks[sons[SHEET_QUADRANT_SW]] = (struct block){blocks[node].x, south, half};
        blocks[sons[SHEET_QUADRANT_SE]] = (struct block){east, south, half};
    }
}

/* ---- colours */

/* The hues are near those of Okabe and Ito, which colour-blind people tell apart
 * too. Whether a block is white or black is said by its lightness, and a border's
 * grey is seen on both. */
static const struct colour border = {128, 128, 128}, white = {255, 255, 255}, black = {34, 34, 34};

/* A mixture of two colours: so many parts of the whole are the second. */
static struct colour mixed(struct colour first, struct colour second, uint32_t parts, uint32_t whole)
{
    const uint32_t others = whole - parts;
    return (struct colour){(uint8_t)((first.red * others + second.red * parts) / whole),
                           (uint8_t)((first.green * others + second.green * parts) / whole),
                           (uint8_t)((first.blue * others + second.blue * parts) / whole)};
}

/* The sheet by itself: a block has its own colour. */
static void colour_blocks(void)
{
    for (uint32_t node = 0; node < nodes; node++)
        fills[node] = type_of(node) == SHEET_BLACK ? black : white;
}

/* ---- a node and what lies beside it */

enum { DIRECTIONS = 8, ENDS = 8, CORNERS = 4, QUESTIONS = DIRECTIONS + ENDS + CORNERS };

/* What is asked of the node, in words, and the answers: its neighbours, the leaves
 * at the two ends of each side, and the leaves beyond its corners. */
static const char *const questions[QUESTIONS] = {
    "N", "E", "S", "W", "NW", "NE", "SW", "SE",
    "N at NW", "N at NE", "E at NE", "E at SE", "S at SW", "S at SE", "W at NW", "W at SW",
    "beyond NW", "beyond NE", "beyond SW", "beyond SE"
};
static uint64_t answers[QUESTIONS];

/* The colours of a white leaf, a black leaf and a fork's frame. */
static const struct colour itself[] = {{255, 217, 140}, {176, 112, 0}, {230, 159, 0}};
static const struct colour at_side[] = {{184, 220, 245}, {0, 98, 158}, {86, 180, 233}};
static const struct colour at_corner[] = {{176, 228, 210}, {0, 108, 80}, {0, 158, 115}};

static int ask_about(uint32_t node)
{
    static const uint32_t ends[ENDS][2] = {
        {SHEET_N, SHEET_QUADRANT_NW}, {SHEET_N, SHEET_QUADRANT_NE}, {SHEET_E, SHEET_QUADRANT_NE},
        {SHEET_E, SHEET_QUADRANT_SE}, {SHEET_S, SHEET_QUADRANT_SW}, {SHEET_S, SHEET_QUADRANT_SE},
        {SHEET_W, SHEET_QUADRANT_NW}, {SHEET_W, SHEET_QUADRANT_SW}
    };
    uint64_t *next = answers;
    for (uint32_t direction = 0; direction < DIRECTIONS; direction++)
        *next++ = sheet_neighbour(level, table, length, node, direction);
    for (uint32_t end = 0; end < ENDS; end++)
        *next++ = sheet_corner_leaf(level, table, length, node, ends[end][0], ends[end][1]);
    for (uint32_t corner = 0; corner < CORNERS; corner++)
        *next++ = sheet_diagonal_leaf(level, table, length, node, corner);
    for (uint32_t question = 0; question < QUESTIONS; question++)
        if (sheet_code(answers[question]) != SHEET_OK && sheet_code(answers[question]) != SHEET_NO_BLOCK)
            return refuse(answers[question]);
    return 0;
}

/* The colours of the neighbour in a direction. */
static const struct colour *colours_at(uint32_t direction)
{
    return direction <= SHEET_W ? at_side : at_corner;
}

/* Colours the node and its neighbours, so far as they are leaves; a leaf in a fork
 * keeps its own colour. A leaf at a side and at a corner too is shown as one at a
 * side, since the sides come last. */
static int colour_node(void)
{
    if (ask_about(wish.node) != 0)
        return BAD_INPUT;
    for (uint32_t direction = DIRECTIONS; direction-- > 0;)
        if (sheet_code(answers[direction]) == SHEET_OK)
            fills[sheet_node(answers[direction])] = colours_at(direction)[type_of(sheet_node(answers[direction]))];
    fills[wish.node] = itself[type_of(wish.node)];
    return 0;
}

static void print_node(FILE *out)
{
    static const char *const types[] = {"white leaf", "black leaf", "fork"};
    fprintf(out, "neighbour   node  level\n");
    for (uint32_t question = 0; question < QUESTIONS; question++) {
        const uint64_t answer = answers[question];
        if (question == DIRECTIONS)
            fprintf(out, "corner      leaf  level\n");
        if (sheet_code(answer) == SHEET_OK)
            fprintf(out, "%-9s %6lu %6lu  %s\n", questions[question], (unsigned long)sheet_node(answer),
                    (unsigned long)sheet_level(answer), types[type_of(sheet_node(answer))]);
        else
            fprintf(out, "%-9s %6s %6s  off the sheet\n", questions[question], "-", "-");
    }
}

/* ---- ponds */

static uint32_t ponds, numbers[MOST_NODES], reg[SHEET_LONGEST_REGISTER];

/* The hues of the first ponds. The next ponds have them darker, then lighter, and
 * those after them all of these again, with a small step in red, green or blue. */
enum { HUES = 7, TONES = 3, STEPS = 9 };

static const struct colour hues[HUES] = {{0, 114, 178}, {222, 154, 0}, {0, 158, 115}, {204, 121, 167},
                                         {213, 94, 0}, {86, 178, 222}, {222, 212, 66}};
static const char *const hue_names[HUES] = {"blue", "orange", "green", "purple", "red", "sky blue", "yellow"};
static const char *const tone_names[TONES] = {"", "dark ", "light "};

/* No two ponds have one colour: the steps do not lead from one tone to another, and
 * there are more colours than a sheet has black leaves. */
static struct colour colour_of_pond(uint32_t pond)
{
    const struct colour hue = hues[(pond - 1) % HUES];
    const struct colour tones[TONES] = {hue, mixed(hue, black, 2, 5), mixed(hue, white, 1, 2)};
    const uint32_t steps = (pond - 1) / (HUES * TONES);
    struct colour colour = tones[(pond - 1) / HUES % TONES];
    colour.red = (uint8_t)(colour.red + 2 * (steps % STEPS));
    colour.green = (uint8_t)(colour.green + 2 * (steps / STEPS % STEPS));
    colour.blue = (uint8_t)(colour.blue + 2 * (steps / STEPS / STEPS));
    return colour;
}

static int colour_ponds(void)
{
    uint64_t answer = sheet_ponds(level, table, length, numbers, nodes, reg, SHEET_LONGEST_REGISTER);
    if (sheet_code(answer) != SHEET_OK)
        return refuse(answer);
    ponds = (uint32_t)sheet_value(answer);
    for (uint32_t node = 0; node < nodes; node++)
        if (numbers[node] != 0)
            fills[node] = colour_of_pond(numbers[node]);
    return 0;
}

/* The register, with the colours of the picture. */
static void print_register(FILE *out)
{
    fprintf(out, " pond  pixels    rows      columns   colour\n");
    for (uint32_t pond = 1; pond <= ponds; pond++) {
        const uint32_t *entry = &reg[(pond - 1) * SHEET_POND_WORDS];
        fprintf(out, "%5lu %7lu %5lu - %-3lu %5lu - %-3lu  %s%s\n", (unsigned long)pond,
                (unsigned long)entry[SHEET_PIXELS_WORD], (unsigned long)entry[SHEET_FIRST_ROW_WORD],
                (unsigned long)entry[SHEET_LAST_ROW_WORD], (unsigned long)entry[SHEET_FIRST_COLUMN_WORD],
                (unsigned long)entry[SHEET_LAST_COLUMN_WORD], tone_names[(pond - 1) / HUES % TONES],
                hue_names[(pond - 1) % HUES]);
    }
}

/* ---- distances */

static uint32_t furthest, distances[MOST_NODES];

/* Black leaves from shallow to deep. A sheet that has no white pixel is deep. */
static int colour_distances(void)
{
    static const struct colour shallow = {166, 206, 227}, deep = {8, 48, 107};
    uint64_t answer = sheet_distance(level, table, length, distances, nodes);
    if (sheet_code(answer) != SHEET_OK)
        return refuse(answer);
    for (uint32_t node = 1; node < nodes; node++)
        if (distances[node] > distances[furthest])
            furthest = node;
    for (uint32_t node = 0; node < nodes; node++)
        if (type_of(node) == SHEET_BLACK)
            fills[node] = node == furthest ? deep : mixed(shallow, deep, distances[node], distances[furthest]);
    return 0;
}

static void print_furthest(FILE *out)
{
    if (distances[furthest] == SHEET_NO_WHITE)
        fprintf(out, "no pixel is white: there is no distance\n");
    else if (distances[furthest] == 0)
        fprintf(out, "no pixel is black: there is no distance\n");
    else
        fprintf(out, "greatest distance: %lu half pixel%s, first at node %lu\n", (unsigned long)distances[furthest],
                distances[furthest] == 1 ? "" : "s", (unsigned long)furthest);
}

/* ---- drawing */

/* Paints a rectangle of the picture, its last column and its last row included. */
static void paint(uint32_t left, uint32_t top, uint32_t right, uint32_t bottom, struct colour colour)
{
    for (uint32_t y = top; y <= bottom; y++)
        for (uint32_t x = left; x <= right; x++)
            picture[y * width + x] = colour;
}

/* A leaf and its border, whose lines are also those of the leaves beside it. */
static void draw_leaf(struct block block, struct colour colour)
{
    const uint32_t left = block.x * scale, top = block.y * scale, side = block.side * scale;
    paint(left, top, left + side, top + side, border);
    paint(left + 1, top + 1, left + side - 1, top + side - 1, colour);
}

/* A frame on a fork's border and just inside. */
static void draw_frame(struct block block, struct colour colour)
{
    const uint32_t left = block.x * scale, right = left + block.side * scale;
    const uint32_t top = block.y * scale, bottom = top + block.side * scale;
    const uint32_t inside = scale < 16 ? 1 : scale / 8;
    paint(left, top, right, top + inside, colour);
    paint(left, bottom - inside, right, bottom, colour);
    paint(left, top, left + inside, bottom, colour);
    paint(right - inside, top, right, bottom, colour);
}

/* A round dot in the middle of a leaf. */
static void draw_dot(struct block block, struct colour colour)
{
    const uint32_t radius = block.side == 1 ? scale / 8 : scale / 4;
    const uint32_t x = block.x * scale + block.side * scale / 2, y = block.y * scale + block.side * scale / 2;
    uint32_t across = radius;
    for (uint32_t down = 0; down <= radius; down++) {
        while (across * across + down * down > radius * radius + radius)
            across--;
        paint(x - across, y - down, x + across, y - down, colour);
        paint(x - across, y + down, x + across, y + down, colour);
    }
}

/* Frames around the forks among the neighbours and around the node if it is a fork,
 * and a dot in each corner leaf, dark on white and white on black. */
static void draw_marks(void)
{
    for (uint32_t direction = DIRECTIONS; direction-- > 0;) {
        const uint32_t node = sheet_node(answers[direction]);
        if (sheet_code(answers[direction]) == SHEET_OK && type_of(node) == SHEET_GRAY)
            draw_frame(blocks[node], colours_at(direction)[SHEET_GRAY]);
    }
    if (type_of(wish.node) == SHEET_GRAY)
        draw_frame(blocks[wish.node], itself[SHEET_GRAY]);
    for (uint32_t question = DIRECTIONS; question < QUESTIONS; question++) {
        const uint32_t leaf = sheet_node(answers[question]);
        if (sheet_code(answers[question]) == SHEET_OK)
            draw_dot(blocks[leaf], type_of(leaf) == SHEET_WHITE ? black : white);
    }
}

static void draw(void)
{
    for (uint32_t node = 0; node < nodes; node++)
        if (type_of(node) != SHEET_GRAY)
            draw_leaf(blocks[node], fills[node]);
    if (wish.view == NODE)
        draw_marks();
}

/* ---- writing */

/* Writes the picture in one format, and gives 0 if it could not. */
typedef int writer(FILE *stream);

static int write_ppm(FILE *stream)
{
    const size_t pixels = (size_t)width * width;
    return fprintf(stream, "P6\n%lu %lu\n255\n", (unsigned long)width, (unsigned long)width) > 0 &&
           fwrite(picture, sizeof *picture, pixels, stream) == pixels;
}

#ifdef WITH_PNG
static int write_png(FILE *stream)
{
    png_image image;
    memset(&image, 0, sizeof image);
    image.version = PNG_IMAGE_VERSION;
    image.width = image.height = width;
    image.format = PNG_FORMAT_RGB;
    return png_image_write_to_stdio(&image, stream, 0, picture, 0, NULL);
}
#else
#define write_png NULL
#endif

/* The writer for the file asked for; NULL for PNG without libpng. */
static writer *chosen_writer(void)
{
    const char *ending = wish.to ? strrchr(wish.to, '.') : NULL;
    return ending && strcmp(ending, ".png") == 0 ? write_png : write_ppm;
}

static int write_picture(void)
{
    FILE *stream = wish.to ? fopen(wish.to, "wb") : stdout;
    int written;
    if (!stream)
        return complain(BAD_INPUT, wish.to, "%s", strerror(errno));
    written = chosen_writer()(stream);
    if ((wish.to ? fclose(stream) : fflush(stream)) != 0 || !written)
        return complain(BAD_INPUT, wish.to ? wish.to : "standard output", "%s", strerror(errno));
    return 0;
}

/* ---- the command */

/* For each view its option, what asks the library and colours the leaves, and what
 * prints the answers. The blocks alone need none of them. */
static const struct {
    const char *option;
    int (*colour)(void);
    void (*print)(FILE *out);
} views[VIEWS] = {
    [NODE] = {"--node", colour_node, print_node},
    [PONDS] = {"--ponds", colour_ponds, print_register},
    [DISTANCE] = {"--distance", colour_distances, print_furthest},
};

/* The view that an option asks for, or BLOCKS. */
static enum view view_of(const char *option)
{
    enum view view = VIEWS;
    while (--view != BLOCKS && strcmp(option, views[view].option) != 0)
        ;
    return view;
}

/* A number that is written in digits alone. */
static int take_number(const char *word, uint32_t *number)
{
    uint64_t value = 0;
    if (!word || *word == '\0')
        return 0;
    for (; isdigit((unsigned char)*word) && value <= UINT32_MAX; word++)
        value = 10 * value + (uint64_t)(*word - '0');
    *number = (uint32_t)value;
    return *word == '\0' && value <= UINT32_MAX;
}

/* Takes the command's words, which end with NULL. */
static int take_words(char **words)
{
    const char *word;
    while ((word = *words++) != NULL)
        if (view_of(word) != BLOCKS) {
            if (wish.view != BLOCKS)
                return complain(BAD_WORDS, word, "a picture shows a node, the ponds or the distances, and one of them");
            wish.view = view_of(word);
            if (wish.view == NODE && !take_number(*words++, &wish.node))
                return complain(BAD_WORDS, word, "the number of a node must follow");
        } else if (strcmp(word, "--scale") == 0) {
            if (wish.scale)
                return complain(BAD_WORDS, word, "a picture has one scale");
            if (!take_number(*words++, &wish.scale) || wish.scale < LEAST_SCALE)
                return complain(BAD_WORDS, word, "a number from %d on must follow", LEAST_SCALE);
        } else if (strcmp(word, "-o") == 0) {
            if (wish.to)
                return complain(BAD_WORDS, word, "a picture goes to one file");
            if ((wish.to = *words++) == NULL)
                return complain(BAD_WORDS, word, "the name of a file must follow");
        } else if (strcmp(word, "--help") == 0) {
            wish.help = 1;
        } else if (*word == '-') {
            return complain(BAD_WORDS, word, "there is no such option; --help lists them");
        } else if (wish.from) {
            return complain(BAD_WORDS, word, "a picture shows one file");
        } else {
            wish.from = word;
        }
    return 0;
}

/* Reads a sheet, draws it as the wish says, and prints the answers. */
static int show(void)
{
    FILE *out = wish.to ? stdout : stderr;
    if (read_input() != 0 || (is_pbm('1') || is_pbm('4') ? read_pbm() : read_sheet()) != 0)
        return BAD_INPUT;
    scale = wish.scale ? wish.scale : (uint32_t)USUAL_WIDTH >> level;
    width = (scale << level) + 1;
    if (scale > (uint32_t)MOST_WIDTH >> level)
        return complain(BAD_WORDS, "--scale", "at most %d on a sheet of level %lu", MOST_WIDTH >> level,
                        (unsigned long)level);
    length = (size_t)nodes * SHEET_NODE_WORDS;
    place_blocks();
    colour_blocks();
    if (wish.view != BLOCKS && views[wish.view].colour() != 0)
        return BAD_INPUT;
    draw();
    if (write_picture() != 0)
        return BAD_INPUT;
    if (wish.view != BLOCKS)
        views[wish.view].print(out);
    if (fflush(out) == 0 && !ferror(out))
        return 0;
    return complain(BAD_INPUT, wish.to ? "standard output" : "standard error", "%s", strerror(errno));
}

int main(int count, char **words)
{
    if (take_words(words + (count > 0)) != 0)
        return BAD_WORDS;
    if (wish.help)
        return fputs(help, stdout) < 0 || fflush(stdout) != 0;
    if (!chosen_writer())
        return complain(BAD_WORDS, wish.to, "PNG needs libpng, and this viewer was built without it");
    return show();
}
