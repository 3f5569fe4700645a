/* Shows that both calls on licence expressions are linear in the text: a text of n bytes and of 2n, of each kind that could be slow, timed in one run; and
   how `satisfy` grows with its list. Build and run: host/drivers/chains.sh. Nothing here is part of the gate. */
#include "../../include/chultarvi.h"
#include "../chain.h"
#include <stdio.h>
#include <stdlib.h>
#include <string.h>
#include <time.h>

enum { MOST = 1048576, TURNS = 7 };
static uint8_t text[MOST], out[CHULTARVI_SPELLED_MOST(MOST)], list[MOST];
static size_t list_len;

static void stop(const char *why) { fprintf(stderr, "chains: %s\n", why); exit(2); }

/* ---- the kinds: each fills at most n bytes, and gives how many */
static size_t ands(size_t n) { return put_chain(text, n, "a AND ", "a"); }
static size_t ors(size_t n) { return put_chain(text, n, "a OR ", "a"); }
static size_t wrapped(size_t n) { return put_chain(text, n, "(a OR b)AND", "(a OR b)"); }
static size_t exceptions(size_t n) { return put_chain(text, n, "a+ WITH b OR ", "a"); }
static size_t one_name(size_t n) { return put_chain(text, n, "a", "a"); }
static size_t one_reference(size_t n) { memcpy(text, "DocumentRef-a:LicenseRef-", 25); memset(text + 25, 'b', n - 25); return n; }
static size_t blanks(size_t n) { return put_chain(text, n, " ", "a"); }
static size_t opened(size_t n) { return put_chain(text, n, "(", "("); }
/* the most bytes move most often */
static size_t nested(size_t n) { return put_groups(text, n, CHULTARVI_DEPTH_MOST, "a AND ", "a"); }

static const struct kind { const char *name; size_t (*fill)(size_t); uint32_t refusal; } kinds[] = {
    {"`a AND a AND ..`", ands, 0},        {"`a OR a OR ..`", ors, 0},        {"`(a OR b)AND..`", wrapped, 0},
    {"`a+ WITH b OR ..`", exceptions, 0}, {"one identifier", one_name, 0},   {"one reference", one_reference, 0},
    {"blanks and `a`", blanks, 0},        {"32 groups", nested, 0},          {"`((((..`", opened, 14},
};

/* One call, in processor time, which other work on the machine disturbs least. */
static double seconds(const struct kind *kind, size_t n, bool write) {
    struct timespec s, e;
    size_t len = kind->fill(n);
    clock_gettime(CLOCK_PROCESS_CPUTIME_ID, &s);
    uint32_t refusal = write ? chultarvi_write_expression(text, len, out, sizeof out).refusal : chultarvi_satisfy(text, len, list, list_len).refusal;
    clock_gettime(CLOCK_PROCESS_CPUTIME_ID, &e);
    if (refusal != kind->refusal) stop(chultarvi_refusal_text(refusal));
    return (double)(e.tv_sec - s.tv_sec) + 1e-9 * (double)(e.tv_nsec - s.tv_nsec);
}

/* In turns, and the best of each. */
static void compare(const struct kind *kind, bool write) {
    double half = 1e9, whole = 1e9, t;
    for (int turn = 0; turn < TURNS; turn++) {
        if ((t = seconds(kind, MOST / 2, write)) < half) half = t;
        if ((t = seconds(kind, MOST, write)) < whole) whole = t;
    }
    printf("%-18s %s: %7.3f ms, twice as long %7.3f ms, %6.2f ns a byte, %.2f times\n", kind->name, write ? "write  " : "satisfy", 1e3 * half, 1e3 * whole,
           1e9 * whole / MOST, whole / half);
}

static void make_list(size_t lines) {
    list_len = 0;
    for (size_t i = 0; i < lines; i++) list_len += (size_t)sprintf((char *)list + list_len, "Licence-%04zu\n", i);
}

/* A text of 64 KiB, each part of which is looked for in a list that has none of it. */
static void grow_list(void) {
    double last = 0;
    for (size_t lines = 175; lines <= 1400; lines *= 2) {
        make_list(lines);
        double best = 1e9, t;
        for (int turn = 0; turn < TURNS; turn++)
            if ((t = seconds(kinds + 1, 65536, false)) < best) best = t;
        printf("a list of %4zu lines, %5zu bytes: %7.2f ms for 13,108 parts, %6.2f ns a part and line", lines, list_len, 1e3 * best,
               1e9 * best / 13108 / (double)lines);
        if (last > 0) printf(", %.2f times", best / last);
        printf("\n");
        last = best;
    }
}

int main(void) {
    memcpy(list, "q\na\nb", list_len = 5);
    for (size_t i = 0; i < sizeof kinds / sizeof *kinds; i++) {
        compare(kinds + i, true);
        compare(kinds + i, false);
    }
    grow_list();
    return 0;
}
