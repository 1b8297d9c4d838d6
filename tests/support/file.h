/* Sheet files to lend to the reader: sound ones made from pictures, and faults
 * put into them. */
#ifndef SUPPORT_FILE_H
#define SUPPORT_FILE_H

#include <stddef.h>
#include <stdint.h>

#include "support/dice.h"
#include "support/table.h"

/* Room for files well beyond the longest one. */
enum { FILE_ROOM = 200000, FILE_HEADER_SIZE = 5, FILE_RECORD_SIZE = 3 };

struct file {
    size_t length;
    uint8_t bytes[FILE_ROOM];
};

enum file_sample {
    FILE_SOUND,
    FILE_CHANGED,        /* one to three bytes changed                        */
    FILE_CUT,            /* an end is missing                                 */
    FILE_LONGER,         /* some bytes too many                               */
    FILE_MISCOUNTED,     /* another N                                         */
    FILE_OTHER_LEVEL,    /* another level, 0 to 7                             */
    FILE_BAD_LEVEL,      /* a level above 7                                   */
    FILE_NEEDLESS_FORK,  /* a leaf split into four of its own colour          */
    FILE_SPLIT,          /* a leaf split into any four, perhaps one pixel     */
    FILE_RANDOM_RECORDS, /* a header and records, of any types                */
    FILE_RANDOM_BYTES,
    FILE_SAMPLES
};

/* The file of a table whose nodes are in preorder. */
void file_of_table(struct file *f, const struct table *preorder);

/* The whole records in the file, and the type byte of one of them. */
uint32_t file_records(const struct file *f);
uint8_t *file_type(struct file *f, uint32_t record);

/* Writes N into the header. */
void file_set_count(struct file *f, uint32_t count);

/* Puts one more record at the end; the header keeps its N. */
void file_append(struct file *f, uint8_t type);

/* Splits the leaf of this record into four leaves of these colours and counts
 * them in the header. The leaf may be one pixel. */
void file_split(struct file *f, uint32_t record, const uint8_t *colours);

/* Makes one such file. Small levels are drawn far more often than large ones. */
void file_make(struct file *f, enum file_sample sample, struct dice *d);

#endif
