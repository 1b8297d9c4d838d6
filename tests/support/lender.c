#define _GNU_SOURCE
#include "support/lender.h"

#include <stdio.h>
#include <stdlib.h>
#include <string.h>
#include <sys/mman.h>
#include <unistd.h>

enum { GUARD_SIZE = 64, GUARD_BYTE = 0xa5 };

static void stop(const char *why)
{
    perror(why);
    exit(2);
}

/* A file of zeros that has no name: in memory, or on the disk where the system has none there. */
static int nameless_file(size_t size)
{
    int file = memfd_create("lent", 0);
    if (file < 0) {
        char name[] = "/tmp/lent.XXXXXX";
        file = mkstemp(name);
        if (file >= 0)
            unlink(name);
    }
    if (file < 0 || ftruncate(file, (off_t)size) != 0)
        stop("memory for lent buffers");
    return file;
}

static unsigned char *mapped(void *at, size_t size, int allowed, int flags, int file)
{
    void *m = mmap(at, size, allowed, flags, file, 0);
    if (m == MAP_FAILED)
        stop("memory for lent buffers");
    return m;
}

/* The file's bytes between two forbidden pages. */
static unsigned char *view(int file, size_t size, int allowed)
{
    size_t page = (size_t)sysconf(_SC_PAGESIZE);
    unsigned char *whole = mapped(NULL, size + 2 * page, PROT_NONE, MAP_PRIVATE | MAP_ANONYMOUS, -1);
    return mapped(whole + page, size, allowed, MAP_SHARED | MAP_FIXED, file);
}

struct lender lender_open(size_t most)
{
    struct lender l = {0};
    size_t page = (size_t)sysconf(_SC_PAGESIZE);
    l.room_size = (most + 2 * GUARD_SIZE + page - 1) / page * page;
    int file = nameless_file(l.room_size);
    l.room = view(file, l.room_size, PROT_READ | PROT_WRITE);
    l.room_to_read = view(file, l.room_size, PROT_READ);
    close(file);
    l.copy = mapped(NULL, l.room_size, PROT_READ | PROT_WRITE, MAP_PRIVATE | MAP_ANONYMOUS, -1);
    return l;
}

static size_t guard_before(const struct lender *l)
{
    return l->lent_start < GUARD_SIZE ? l->lent_start : GUARD_SIZE;
}

static size_t guard_after(const struct lender *l)
{
    size_t after = l->room_size - l->lent_start - l->lent_size;
    return after < GUARD_SIZE ? after : GUARD_SIZE;
}

/* Takes a buffer of this size, with its guards. */
static void take(struct lender *l, size_t size, enum lend_at at)
{
    l->lent_start = at == LEND_FIRST ? 0 : at == LEND_LAST ? l->room_size - size : GUARD_SIZE;
    l->lent = l->room + l->lent_start;
    l->lent_size = size;
    memset(l->lent - guard_before(l), GUARD_BYTE, guard_before(l));
    memset(l->lent + size, GUARD_BYTE, guard_after(l));
}

void *lend(struct lender *l, const void *contents, size_t size, enum lend_at at)
{
    take(l, size, at);
    memcpy(l->lent, contents, size);
    memcpy(l->copy, contents, size);
    return l->lent;
}

void *lend_to_read(struct lender *l, const void *contents, size_t size, enum lend_at at)
{
    lend(l, contents, size, at);
    l->lent = l->room_to_read + l->lent_start;
    return l->lent;
}

void *lend_pattern(struct lender *l, size_t size, enum lend_at at)
{
    take(l, size, at);
    for (size_t i = 0; i < size; i++)
        l->copy[i] = l->lent[i] = (unsigned char)(128 + i % 123);
    return l->lent;
}

static int is_guard(const unsigned char *bytes, size_t size)
{
    for (size_t i = 0; i < size; i++)
        if (bytes[i] != GUARD_BYTE)
            return 0;
    return 1;
}

int lent_holds(const struct lender *l, const void *contents)
{
    return is_guard(l->lent - guard_before(l), guard_before(l)) &&
           is_guard(l->lent + l->lent_size, guard_after(l)) &&
           memcmp(l->lent, contents, l->lent_size) == 0;
}

int lent_unchanged(const struct lender *l)
{
    return lent_holds(l, l->copy);
}
