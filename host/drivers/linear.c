/* Shows that the check of a book is linear: a sound book of n bytes and of 2n, both timed in one run.
   Build and run: host/drivers/linear.sh. Nothing here is part of the gate. */
#include "../records.h"
#include <stdio.h>
#include <stdlib.h>
#include <time.h>

static void stop(const char *why) { fprintf(stderr, "linear: %s\n", why); exit(2); }

/* One licence whose original has as many entries as fit into size bytes: rising bigrams of eight letters, `aaaa aaaa` and so on. The last is longer
   by what is left. */
static uint8_t *book(size_t size) {
    size_t entries = (size - 7 - 6 - 8) / 17, rest = (size - 7 - 6 - 8) % 17;
    uint8_t *b = malloc(size);
    if (!b) stop("no memory");
    uint8_t *p = put_head(put_record(b, CHULTARVI_LICENCE_NAME, "A", 1), size - 13, CHULTARVI_ORIGINAL);
    p = put_number(put_number(p, entries), entries);
    for (size_t i = 0; i < entries; i++) {
        size_t more = i + 1 == entries ? rest : 0, x = i;
        p = put_number(put_number(p, 1), 9 + more);
        for (int k = 7; k >= 0; k--, x /= 26) p[k < 4 ? k : k + 1] = (uint8_t)('a' + x % 26);
        p[4] = ' ';
        memset(p + 9, 'z', more);
        p += 9 + more;
    }
    return b;
}

static double seconds(const uint8_t *b, size_t size) {
    double best = 1e9;
    for (int i = 0; i < 5; i++) {
        struct timespec s, e;
        clock_gettime(CLOCK_MONOTONIC, &s);
        chultarvi_book_checked c = chultarvi_check_book(b, size);
        clock_gettime(CLOCK_MONOTONIC, &e);
        if (c.refusal || c.texts != 1) stop(chultarvi_refusal_text(c.refusal));
        double t = (double)(e.tv_sec - s.tv_sec) + 1e-9 * (double)(e.tv_nsec - s.tv_nsec);
        if (t < best) best = t;
    }
    return best;
}

int main(void) {
    size_t sizes[] = {CHULTARVI_BOOK_MOST / 4, CHULTARVI_BOOK_MOST / 2, CHULTARVI_BOOK_MOST};
    double last = 0;
    for (int i = 0; i < 3; i++) {
        uint8_t *b = book(sizes[i]);
        double t = seconds(b, sizes[i]);
        printf("check %9zu bytes: %7.2f ms, %.2f ns a byte", sizes[i], 1e3 * t, 1e9 * t / (double)sizes[i]);
        if (i > 0) printf(", %.2f times the half", t / last);
        printf("\n");
        last = t;
        free(b);
    }
    uint8_t *over = calloc(1, CHULTARVI_BOOK_MOST + 1);
    if (!over) stop("no memory");
    printf("one byte more: refusal %u\n", chultarvi_check_book(over, CHULTARVI_BOOK_MOST + 1).refusal);
    free(over);
    return 0;
}
