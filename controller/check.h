/* Counting, drawing and guarded buffers, shared by the test programs. */
#ifndef CHECK_H
#define CHECK_H

#include <stdarg.h>
#include <stdint.h>
#include <stdio.h>
#include <stdlib.h>
#include <string.h>
#include <sys/mman.h>
#include <unistd.h>

enum { MOST_TOLD = 20 };

static unsigned long passed, failed;

/* Counts one test; says what failed, the first few times. */
static inline int check(int ok, const char *what, ...)
{
    if (ok) {
        passed++;
        return 1;
    }
    failed++;
    if (failed <= MOST_TOLD) {
        va_list args;
        va_start(args, what);
        printf("FAILED: ");
        vprintf(what, args);
        printf("\n");
        va_end(args);
    }
    return 0;
}

/* Of the numbers below `numbers` a call has given those that it can give, and no
   other, by how often it gave each. */
static inline void check_met(const char *name, const unsigned long *met, int numbers, const char *can)
{
    char line[256] = "", list[64] = "";
    for (int k = 0; k < numbers; k++) {
        if (met[k] == 0)
            continue;
        sprintf(list + strlen(list), "%s%d", *list ? " " : "", k);
        sprintf(line + strlen(line), "  %d: %lu", k, met[k]);
    }
    printf("%s by lot, answers by number:%s\n", name, line);
    check(strcmp(list, can) == 0, "%s by lot: numbers %s, not %s", name, list, can);
}

/* The last line; the exit status of the program. */
static inline int closing_count(void)
{
    printf("%lu passed, %lu failed\n", passed, failed);
    return failed == 0 ? 0 : 1;
}

static uint64_t lot = 88172645463325252u;

/* The same numbers in every run: an xorshift of 64 bits. */
static inline uint32_t draw_word(void)
{
    lot ^= lot << 13;
    lot ^= lot >> 7;
    lot ^= lot << 17;
    return (uint32_t)(lot >> 32);
}

/* One of 0 to below - 1. */
static inline uint32_t draw(uint32_t below)
{
    return draw_word() % below;
}

/* Whole pages between two that can't be touched. A buffer is laid at their very
   start or very end, so that a byte read beside it ends the process. */
struct guarded {
    uint8_t *page;
    size_t size;
};

static inline struct guarded guarded_pages(size_t bytes)
{
    struct guarded g;
    size_t one = (size_t)sysconf(_SC_PAGESIZE);
    g.size = (bytes + one - 1) / one * one;
    g.page = mmap(NULL, g.size + 2 * one, PROT_NONE, MAP_PRIVATE | MAP_ANONYMOUS, -1, 0);
    if (g.page == MAP_FAILED || mprotect(g.page + one, g.size, PROT_READ | PROT_WRITE) != 0) {
        perror("guarded pages");
        exit(2);
    }
    g.page += one;
    return g;
}

static inline struct guarded guarded_page(void)
{
    return guarded_pages(1);
}

/* The byte above; 255 + 1 is 0. */
static inline int after(int byte)
{
    return (byte + 1) & 255;
}

/* What causes 2, 3 and 4 refuse of a line and its sender, each by the test's own
   FAULT(name, statement), of a c that has n, t, T and sender. */
#define LINE_FAULTS                                               \
    FAULT(n_0, c->n = 0)                                          \
    FAULT(n_33, c->n = 33)                                        \
    FAULT(n_255, c->n = 255)                                      \
    FAULT(t_above, c->t = after(c->T))                            \
    FAULT(t_255, c->t = 255)                                      \
    FAULT(sum_is_n, c->t = c->n % 2; c->T = c->n / 2)             \
    FAULT(sum_256, c->t = 2; c->T = 127)                          \
    FAULT(sum_512, c->t = 170; c->T = 171)                        \
    FAULT(sender_0, c->sender = 0)                                \
    FAULT(sender_above, c->sender = after(c->n))                  \
    FAULT(sender_255, c->sender = 255)

/* The bytes at the end of their pages, which can only be read then. */
static inline const uint8_t *guarded_bytes(struct guarded g, const uint8_t *bytes, size_t len)
{
    uint8_t *at = g.page + g.size - len;
    if (bytes == NULL)
        return NULL;
    mprotect(g.page, g.size, PROT_READ | PROT_WRITE);
    memcpy(at, bytes, len);
    mprotect(g.page, g.size, PROT_READ);
    return at;
}

/* What fills the pages of a buffer before a call writes it. */
enum { UNWRITTEN = 170 };

/* The place of a buffer at the end of its pages, unwritten; NULL if it has no
   bytes. The pages can be written only if asked. */
static inline uint8_t *lay_unwritten(struct guarded g, size_t len, int writable)
{
    mprotect(g.page, g.size, PROT_READ | PROT_WRITE);
    memset(g.page, UNWRITTEN, g.size);
    if (!writable)
        mprotect(g.page, g.size, PROT_READ);
    return len == 0 ? NULL : g.page + g.size - len;
}

/* 1 if that buffer has these bytes and nothing is written before it. */
static inline int written_as(struct guarded g, const uint8_t *bytes, size_t len)
{
    const uint8_t *end = g.page + g.size - len;
    int same = memcmp(end, bytes, len) == 0;
    for (const uint8_t *p = g.page; p < end; p++)
        same = same && *p == UNWRITTEN;
    return same;
}

#endif
