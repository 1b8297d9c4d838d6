#include "support/sample.h"

#include "sheet.h"
#include "support/faults.h"

static uint32_t draw_level(struct dice *d)
{
    uint32_t r = dice_below(d, 1000);
    if (r < 12)
        return 6 + dice_below(d, 2);
    if (r < 150)
        return 4 + (r < 50);
    return dice_below(d, 4);
}

void sample_picture(struct picture *pic, struct dice *d)
{
    picture_draw(pic, (enum picture_kind)dice_below(d, PICTURE_KINDS), draw_level(d), d);
}

static void make_preorder(struct table *t, struct dice *d)
{
    static struct picture pic;
    sample_picture(&pic, d);
    table_of_picture(t, &pic);
}

static void renumber(struct table *t, struct dice *d)
{
    table_renumber(t, (enum numbering)dice_below(d, NUMBERINGS), d);
}

static void make_any_numbering(struct table *t, struct dice *d)
{
    make_preorder(t, d);
    if (dice_below(d, 2) == 0)
        renumber(t, d);
}

uint32_t sample_node(const struct table *t, struct dice *d)
{
    uint32_t count = table_count(t);
    if (count > 0 && dice_below(d, 4) != 0)
        return dice_below(d, count);
    switch (dice_below(d, 7)) {
    case 0: return count;
    case 1: return count + 1;
    case 2: return (uint32_t)t->length;
    case 3: return SHEET_NONE;
    case 4: return UINT32_C(0x80000000) + dice_below(d, count + 1);
    case 5: return UINT32_C(65536) * (1 + dice_below(d, 9)) + dice_below(d, count + 1);
    default: return dice_word(d);
    }
}

uint32_t sample_number(uint32_t bound, struct dice *d)
{
    uint32_t good = dice_below(d, bound);
    if (dice_below(d, 4) != 0)
        return good;
    switch (dice_below(d, 6)) {
    case 0: return bound + good;
    case 1: return UINT32_C(256) + good;
    case 2: return UINT32_C(65536) + good;
    case 3: return UINT32_C(0x80000000) + good;
    case 4: return SHEET_NONE - good;
    default: return dice_word(d);
    }
}

size_t sample_room(size_t needed, struct dice *d)
{
    switch (dice_below(d, 12)) {
    case 0: return needed == 0 ? 0 : needed - 1;
    case 1: return needed + 1;
    case 2: return needed + dice_below(d, 20);
    case 3: return dice_below(d, (uint32_t)needed + 1);
    case 4: return 0;
    default: return needed;
    }
}

uint32_t sample_hostile_level(struct dice *d)
{
    static const uint32_t levels[] = {
        8, 9, 10, 31, 32, 33, 63, 64, 255, 256, 258, 263, 65536, 65538, 0x01000003u, 0x7fffffffu,
        0x80000000u, 0x80000002u, 0xfffffff8u, 0xfffffffeu, 0xffffffffu,
    };
    if (dice_below(d, 4) == 0)
        return 8 + dice_below(d, 0xfffffff8u);
    return levels[dice_below(d, sizeof levels / sizeof *levels)];
}

void sample_make(struct table *t, enum sample sample, struct dice *d)
{
    if (sample == SAMPLE_RANDOM_WORDS) {
        fault_random_words(t, d);
        return;
    }
    if (sample == SAMPLE_PREORDER)
        make_preorder(t, d);
    else
        make_any_numbering(t, d);
    switch (sample) {
    case SAMPLE_RENUMBERED: renumber(t, d); break;
    case SAMPLE_DAMAGED: fault_damage(t, 1 + dice_below(d, 3), d); break;
    case SAMPLE_ORPHAN: fault_orphan(t, d); break;
    case SAMPLE_DOUBLE_SON: fault_double_son(t, d); break;
    case SAMPLE_SON_BELOW_FATHER: fault_son_below_father(t, d); break;
    case SAMPLE_LOWER_LEVEL: t->level = dice_below(d, t->level + 1); break;
    case SAMPLE_DEEP_FORK:
        fault_deep_fork(t, d);
        if (dice_below(d, 2) == 0)
            renumber(t, d);
        break;
    case SAMPLE_NEEDLESS_FORK:
        fault_needless_fork(t, d);
        if (dice_below(d, 2) == 0)
            renumber(t, d);
        break;
    case SAMPLE_CUT_LENGTH: t->length = dice_below(d, (uint32_t)t->length); break;
    case SAMPLE_HOSTILE_LEVEL: t->level = sample_hostile_level(d); break;
    default: break;
    }
}
