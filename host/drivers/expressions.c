/* Calls the archive's two calls on licence expressions as it is told: a call on standard input, what came of it on standard output, until the input
   ends. oracle/expressions_rows.py asks. Every number is a u64, little-endian. A call: the lengths of text, list and output, then what they hold. The answer:
   refusal, satisfied and place of chultarvi_satisfy; refusal, place and length of chultarvi_write_expression; whether the bytes behind a buffer
   have changed; then what the three hold now. An empty buffer is lent as a null pointer. */
#include "../../include/chultarvi.h"
#include <stdio.h>
#include <stdlib.h>
#include <string.h>

enum { TEXT, LIST, OUT, BUFFERS };
enum { FENCE = 64, FENCE_BYTE = 0xd7 };
typedef struct { uint64_t refusal, satisfied, place, write_refusal, write_place, len, crossed; } reply;
static uint64_t len[BUFFERS];
static uint8_t *buffer[BUFFERS];

static void stop(const char *why) { fprintf(stderr, "expressions: %s\n", why); exit(2); }

static void take(void) {
    for (int i = 0; i < BUFFERS; i++) {
        size_t n = (size_t)len[i];
        buffer[i] = malloc(n + FENCE);
        if (!buffer[i]) stop("no memory");
        if (fread(buffer[i], 1, n, stdin) != n) stop("a call breaks off");
        memset(buffer[i] + n, FENCE_BYTE, FENCE);
    }
}

static uint8_t *lent(int i) { return len[i] ? buffer[i] : NULL; }

static bool crossed(void) {
    for (int i = 0; i < BUFFERS; i++)
        for (int k = 0; k < FENCE; k++) if (buffer[i][len[i] + (uint64_t)k] != FENCE_BYTE) return true;
    return false;
}

static reply answer(void) {
    chultarvi_expression_satisfied s = chultarvi_satisfy(lent(TEXT), (size_t)len[TEXT], lent(LIST), (size_t)len[LIST]);
    chultarvi_expression_spelled w = chultarvi_write_expression(lent(TEXT), (size_t)len[TEXT], lent(OUT), (size_t)len[OUT]);
    return (reply){s.refusal, s.satisfied, s.place, w.refusal, w.place, w.len, crossed()};
}

static void give(const reply *r) {
    bool good = fwrite(r, sizeof *r, 1, stdout) == 1;
    for (int i = 0; i < BUFFERS; i++) {
        good = fwrite(buffer[i], 1, (size_t)len[i], stdout) == (size_t)len[i] && good;
        free(buffer[i]);
    }
    if (!good || fflush(stdout) != 0) stop("an answer is not taken");
}

int main(void) {
    while (fread(len, sizeof len, 1, stdin) == 1) {
        take();
        reply r = answer();
        give(&r);
    }
    if (ferror(stdin)) stop("standard input fails");
    return 0;
}
