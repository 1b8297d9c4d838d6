/*
 * Reading a sheet file as a machine that is given one byte after the other. It
 * knows which byte must come next and, of each fork whose sons are not all there
 * yet, how many sons of each type have come.
 */
#include "second/second.h"

enum { MOST_NODES = 21845, MOST_DEPTH = 7 };

static const uint32_t NONE = 4294967295u;

enum awaited {
    HEADER_MARK,
    HEADER_MARK_TOO,
    LEVEL,
    COUNT_LOW,
    COUNT_HIGH,
    NODE_MARK,
    NODE_MARK_TOO,
    TYPE,
    NOTHING
};

struct machine {
    enum awaited awaited;
    uint32_t level, count, records;
    uint8_t types[MOST_NODES];
    uint32_t open_forks;
    uint32_t sons[MOST_DEPTH][3]; /* of each open fork: its sons of each type */
};

/* Goes on to what comes next, or stays and gives the fault. */
static uint64_t awaits(struct machine *m, enum awaited next, int is_right, uint64_t fault)
{
    if (!is_right)
        return fault;
    m->awaited = next;
    return 0;
}

static uint32_t *sons_of_last_fork(struct machine *m)
{
    return m->sons[m->open_forks - 1];
}

static int has_all_sons(const uint32_t *sons)
{
    return sons[0] + sons[1] + sons[2] == 4;
}

static void open_fork(struct machine *m)
{
    m->open_forks++;
    for (int type = 0; type < 3; type++)
        sons_of_last_fork(m)[type] = 0;
}

static void close_forks(struct machine *m)
{
    while (m->open_forks > 0 && has_all_sons(sons_of_last_fork(m)))
        m->open_forks--;
}

/* A sound type byte: the file's next node. */
static void take_node(struct machine *m, uint8_t type)
{
    m->types[m->records++] = type;
    if (type == 2)
        open_fork(m);
    else
        close_forks(m);
    m->awaited = m->open_forks == 0 ? NOTHING : NODE_MARK;
}

static uint64_t take_type(struct machine *m, uint8_t type)
{
    if (type > 2)
        return 12;
    if (type == 2 && m->open_forks == m->level)
        return 4;
    if (m->open_forks > 0 && ++sons_of_last_fork(m)[type] == 4 && type != 2)
        return 5;
    take_node(m, type);
    return 0;
}

/* Takes one byte; the code of its fault, or 0. */
static uint64_t take(struct machine *m, uint8_t byte)
{
    switch (m->awaited) {
    case HEADER_MARK: return awaits(m, HEADER_MARK_TOO, byte == 0x51, 12);
    case HEADER_MARK_TOO: return awaits(m, LEVEL, byte == 0x53, 12);
    case LEVEL: m->level = byte; return awaits(m, COUNT_LOW, byte <= 7, 1);
    case COUNT_LOW: m->count = byte; return awaits(m, COUNT_HIGH, 1, 0);
    case COUNT_HIGH: m->count += 256 * (uint32_t)byte; return awaits(m, NODE_MARK, 1, 0);
    case NODE_MARK: return awaits(m, NODE_MARK_TOO, byte == 0x51, 12);
    case NODE_MARK_TOO: return awaits(m, TYPE, byte == 0x4e, 12);
    default: return take_type(m, byte);
    }
}

/* The number after the last node of the block that begins at p. */
static uint32_t end_of_block(const struct machine *m, uint32_t p)
{
    uint32_t blocks = 1;
    while (blocks > 0) {
        blocks += m->types[p] == 2 ? 4 : 0;
        blocks--;
        p++;
    }
    return p;
}

static void write_table(const struct machine *m, uint32_t *table)
{
    table[0] = NONE;
    for (uint32_t p = 0; p < m->records; p++) {
        uint32_t son = p + 1;
        table[p * 6 + 5] = m->types[p];
        for (uint32_t quadrant = 0; quadrant < 4; quadrant++) {
            table[p * 6 + 1 + quadrant] = m->types[p] == 2 ? son : NONE;
            if (m->types[p] == 2) {
                table[son * 6] = p;
                son = end_of_block(m, son);
            }
        }
    }
}

static uint64_t at_place(uint64_t code, size_t place)
{
    return code + 256 * (uint64_t)place;
}

uint64_t second_read(const uint8_t *file, size_t file_len, uint32_t *table, size_t table_len)
{
    static struct machine m;
    size_t place = 0;
    m.awaited = HEADER_MARK;
    m.records = 0;
    m.open_forks = 0;
    while (m.awaited != NOTHING) {
        if (place == file_len)
            return at_place(13, place);
        uint64_t fault = take(&m, file[place]);
        if (fault != 0)
            return at_place(fault, place);
        place++;
    }
    if (m.count != m.records)
        return at_place(14, 3);
    if (place < file_len)
        return at_place(14, place);
    if (table_len < (size_t)m.records * 6)
        return 9 + 256 * ((uint64_t)m.records * 6);
    write_table(&m, table);
    return 256 * (8 * (uint64_t)m.records + m.level);
}
