#define _DEFAULT_SOURCE

#include "lent.h"

#include <signal.h>
#include <stdio.h>
#include <stdlib.h>
#include <string.h>
#include <sys/mman.h>
#include <unistd.h>

enum { LEAST_MARKS = 64 };

void require(int done, const char *what)
{
    if (!done) {
        perror(what);
        exit(EXIT_FAILURE);
    }
}

/* So many bytes and the least count of marks, in whole pages. */
static size_t with_marks(size_t length)
{
    const size_t page = (size_t)sysconf(_SC_PAGESIZE);
    return (length + LEAST_MARKS + page - 1) / page * page;
}

void prepare(struct lent *lent, size_t most)
{
    const size_t page = (size_t)sysconf(_SC_PAGESIZE), bytes = with_marks(most);
    uint8_t *whole = mmap(NULL, page + bytes + page, PROT_NONE, MAP_PRIVATE | MAP_ANONYMOUS, -1, 0);
    require(whole != MAP_FAILED, "mmap");
    *lent = (struct lent){.open = whole + page + bytes, .end = whole + page + bytes, .most = most};
}

/* Opens as many pages at the end as so many bytes and the marks need, and closes those in front. */
static void open_pages(struct lent *lent, size_t length)
{
    uint8_t *open = lent->end - with_marks(length);
    if (open < lent->open)
        require(mprotect(open, (size_t)(lent->open - open), PROT_READ | PROT_WRITE) == 0, "mprotect");
    if (open > lent->open)
        require(mprotect(lent->open, (size_t)(open - lent->open), PROT_NONE) == 0, "mprotect");
    lent->open = open;
}

/* The mark of the byte so far behind the first. */
static uint8_t mark(const struct lent *lent, size_t position)
{
    return (uint8_t)(lent->first_mark + 101 * position);
}

uint8_t *lend(struct lent *lent, const uint8_t *bytes, size_t length, uint8_t first_mark)
{
    if (length > lent->most) {
        printf("%zu bytes cannot be lent, only %zu\n", length, lent->most);
        exit(EXIT_FAILURE);
    }
    open_pages(lent, length);
    lent->first_mark = first_mark;
    uint8_t *start = lent->end - length;
    for (size_t i = 0; i < (size_t)(start - lent->open); i++)
        lent->open[i] = mark(lent, i);
    memcpy(start, bytes, length);
    return start;
}

static void count(struct difference *difference, ptrdiff_t position)
{
    if (difference->count++ == 0)
        difference->first = position;
}

struct difference compare_lent(const struct lent *lent, const uint8_t *expected, size_t length)
{
    struct difference difference = {0, 0};
    const uint8_t *start = lent->end - length;
    for (size_t i = 0; i < (size_t)(start - lent->open); i++)
        if (lent->open[i] != mark(lent, i))
            count(&difference, lent->open + i - start);
    if (memcmp(start, expected, length) != 0)
        for (size_t i = 0; i < length; i++)
            if (start[i] != expected[i])
                count(&difference, (ptrdiff_t)i);
    return difference;
}

void at_fault(void (*handler)(int number))
{
    struct sigaction action = {.sa_handler = handler};
    sigemptyset(&action.sa_mask);
    require(sigaction(SIGSEGV, &action, NULL) == 0 && sigaction(SIGBUS, &action, NULL) == 0, "sigaction");
}
