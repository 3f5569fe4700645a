/* Tests of the two calls on licence expressions as C and C++ see them: this file is compiled as both. Layout of the answers; the marked texts; every
   refusal with the neighbour that is not refused; after each call what text, list, output and the bytes behind them hold; texts of 1 MiB. Prints what
   fails, then 'N passed, M failed'. */
#include "../../include/chultarvi.h"
#include "../chain.h"
#include <assert.h>
#include <stdio.h>
#include <stdlib.h>
#include <string.h>

#define LAYOUT(type, field, at) static_assert(offsetof(type, field) == (at), #type "." #field)
static_assert(sizeof(chultarvi_expression_satisfied) == 16, "size");
LAYOUT(chultarvi_expression_satisfied, refusal, 0);
LAYOUT(chultarvi_expression_satisfied, satisfied, 4);
LAYOUT(chultarvi_expression_satisfied, place, 8);
static_assert(sizeof(chultarvi_expression_spelled) == 24, "size");
LAYOUT(chultarvi_expression_spelled, refusal, 0);
LAYOUT(chultarvi_expression_spelled, place, 8);
LAYOUT(chultarvi_expression_spelled, len, 16);

static int passed, failed;
static void check(bool good, const char *what, const char *text) {
    if (good) passed++;
    else {
        failed++;
        printf("failed: %s: %.80s\n", what, text);
    }
}

/* A copy with garbage behind it, so that a byte read or written there shows. */
enum { SPARE = 16, GARBAGE = 0xd7 };
static uint8_t *garbage(size_t len) {
    uint8_t *p = (uint8_t *)malloc(len + SPARE);
    if (!p) exit(2);
    memset(p, GARBAGE, len + SPARE);
    return p;
}
static uint8_t *copied(const void *from, size_t len) {
    uint8_t *p = garbage(len);
    memcpy(p, from, len);
    return p;
}
static bool is_garbage(const uint8_t *p, size_t len) {
    for (size_t i = 0; i < len; i++)
        if (p[i] != GARBAGE) return false;
    return true;
}
static bool unchanged(const uint8_t *p, const void *from, size_t len) { return memcmp(p, from, len) == 0 && is_garbage(p + len, SPARE); }

static chultarvi_expression_satisfied satisfy(const char *text, const char *list) {
    size_t text_len = strlen(text), list_len = strlen(list);
    uint8_t *t = copied(text, text_len), *l = copied(list, list_len);
    chultarvi_expression_satisfied s = chultarvi_satisfy(t, text_len, l, list_len);
    check(unchanged(t, text, text_len) && unchanged(l, list, list_len), "text or list changed", text);
    free(t);
    free(l);
    return s;
}
static void satisfied_is(const char *text, const char *list, bool want) {
    chultarvi_expression_satisfied s = satisfy(text, list);
    check(s.refusal == 0 && s.satisfied == want && s.place == 0, list, text);
}

/* With an output of `room` bytes of garbage: `want` stands at its front, all else is as it was. */
static void written_is(const char *text, size_t room, const char *want) {
    size_t text_len = strlen(text), len = strlen(want);
    uint8_t *t = copied(text, text_len), *out = garbage(room);
    chultarvi_expression_spelled w = chultarvi_write_expression(t, text_len, out, room);
    bool fits = len <= room;
    check(w.refusal == (fits ? 0u : 11u) && w.place == 0 && w.len == (fits ? len : 0), "the answer of writing", text);
    check(fits ? memcmp(out, want, len) == 0 && is_garbage(out + len, room - len + SPARE) : is_garbage(out, room + SPARE), "the output", text);
    check(unchanged(t, text, text_len), "the text changed", text);
    free(t);
    free(out);
}
/* Whatever is lent. */
static void written_as(const char *text, const char *want) {
    size_t len = strlen(want);
    written_is(text, CHULTARVI_SPELLED_MOST(strlen(text)), want);
    written_is(text, len, want);
    if (len > 0) written_is(text, len - 1, want);
    written_is(text, 0, want);
    written_is(want, len, want);
}
static void refused_is(const char *text, uint32_t refusal, size_t place) {
    chultarvi_expression_satisfied s = satisfy(text, "a\nMIT\nx");
    check(s.refusal == refusal && !s.satisfied && s.place == place, "the refusal of satisfying", text);
    uint8_t out[64];
    memset(out, GARBAGE, sizeof out);
    chultarvi_expression_spelled w = chultarvi_write_expression((const uint8_t *)text, strlen(text), out, sizeof out);
    check(w.refusal == refusal && w.place == place && w.len == 0 && is_garbage(out, sizeof out), "the refusal of writing", text);
    w = chultarvi_write_expression((const uint8_t *)text, strlen(text), 0, 0);
    check(w.refusal == refusal && w.place == place, "13 and 14 before 11", text);
}

static void test_satisfied(void) {
    const char *often = "MIT OR (Apache-2.0 AND BSD-3-Clause)";
    satisfied_is(often, "mit", true);
    satisfied_is(often, "apache-2.0\nBSD-3-CLAUSE", true);
    satisfied_is(often, "Apache-2.0", false);
    satisfied_is("GPL-2.0+", "GPL-2.0", false);
    satisfied_is("GPL-2.0", "GPL-2.0+", false);
    satisfied_is("GPL-2.0+", "gpl-2.0+", true);
    satisfied_is("a OR b AND c", "b", false);
    satisfied_is("(a OR b) AND c", "a", false);
    satisfied_is("a WITH x", "a", false);
    satisfied_is("a", "a WITH x", false);
    satisfied_is("a WITH x", "q\n\nA WITH X\n", true);
    satisfied_is("and", "AND", false);
    satisfied_is("and", "And", true);
    satisfied_is("licenseref-a+", "LicenseRef-a+", false);
    satisfied_is("a", "a\r", false);
    satisfied_is("a", " a", false);
    satisfied_is("a", "(a)", false);
    satisfied_is("a", "a OR a", false);
    satisfied_is("a", "", false);
}

static void test_written(void) {
    written_as("MIT OR (Apache-2.0 AND BSD-3-Clause)", "MIT OR Apache-2.0 AND BSD-3-Clause");
    written_as("(a OR b)AND(c OR d)", "(a OR b) AND (c OR d)");
    written_as("a AND ((b OR c))", "a AND (b OR c)");
    written_as("((a OR b) AND (c)) AND d", "(a OR b) AND c AND d");
    written_as("( a )OR(b AND(c))", "a OR b AND c");
    written_as("  GPL-2.0+   WITH   x  ", "GPL-2.0+ WITH x");
    written_as("((((((((((((((((((((((((((((((((a))))))))))))))))))))))))))))))))", "a");
    written_as("DocumentRef-a:LicenseRef-b WITH c", "DocumentRef-a:LicenseRef-b WITH c");
}

static void test_refused(void) {
    char deep[40];
    memset(deep, '(', sizeof deep);
    deep[33] = 0;
    refused_is(deep, 14, 32);
    memcpy(deep + 32, "a(", 3);
    refused_is(deep, 13, 33);
    memcpy(deep + 32, "a OR (", 7);
    refused_is(deep, 14, 37);
    refused_is("", 13, 0);
    refused_is("   ", 13, 3);
    refused_is("MIT MIT", 13, 4);
    refused_is("MIT ANX", 13, 6);
    refused_is("MIT AND", 13, 7);
    refused_is("MIT AN", 13, 6);
    refused_is("AND", 13, 3);
    refused_is("AND OR", 13, 3);
    refused_is("MIT AND AND x", 13, 11);
    refused_is("MIT WITH AND", 13, 12);
    refused_is("(MIT)ANDISC", 13, 8);
    refused_is("(MIT) WITH x", 13, 6);
    refused_is("MIT WITH x WITH y", 13, 11);
    refused_is("GPL-2.0 +", 13, 8);
    refused_is("MIT+AND x", 13, 4);
    refused_is("LicenseRef-x+", 13, 12);
    refused_is("LicenseRef-", 13, 11);
    refused_is("DocumentRef-a", 13, 13);
    refused_is("DocumentRef-a:MIT", 13, 14);
    refused_is("MIT\tOR x", 13, 3);
    refused_is("\xff", 13, 0);
}

/* Null pointers where the count is 0; text and list as one memory. */
static void test_lent(void) {
    chultarvi_expression_satisfied s = chultarvi_satisfy(0, 0, 0, 0);
    check(s.refusal == 13 && s.place == 0, "nothing lent", "");
    const uint8_t *text = (const uint8_t *)"a WITH b";
    s = chultarvi_satisfy(text, 8, 0, 0);
    check(s.refusal == 0 && !s.satisfied, "a null list", "");
    s = chultarvi_satisfy(text, 8, text, 8);
    check(s.refusal == 0 && s.satisfied, "a part beside itself", "");
    s = chultarvi_satisfy((const uint8_t *)"a\0b", 3, text, 8);
    check(s.refusal == 13 && s.place == 1, "a zero byte", "");
    chultarvi_expression_spelled w = chultarvi_write_expression(text, 8, 0, 0);
    check(w.refusal == 11 && w.len == 0, "a null output", "");
    check(CHULTARVI_SPELLED_MOST(0) == 0 && CHULTARVI_SPELLED_MOST(4) == 4 && CHULTARVI_SPELLED_MOST(19) == 22, "n + n/5", "");
    static_assert(CHULTARVI_DEPTH_MOST == 32, "depth");
}

enum { LARGE = 1048576 };
/* What is written is the text, with a blank behind each `)` that AND follows at once. */
static bool is_grown(const uint8_t *text, const uint8_t *out, size_t grown) {
    bool due = false;
    for (size_t i = 0; i < grown; i++) {
        if (out[i] != (due ? ' ' : *text++)) return false;
        due = !due && out[i] == ')' && *text == 'A';
    }
    return true;
}
/* more: by how many bytes each unit grows when it is written */
static void test_large(void) {
    static const struct { const char *unit, *last; uint32_t refusal; size_t place, more; bool satisfied; } texts[] = {
        {"a AND ", "b", 0, 0, 0, true},         {"a AND ", "x", 0, 0, 0, false},
        {"x OR ", "b", 0, 0, 0, true},          {"x OR ", "y", 0, 0, 0, false},
        {"(a OR x)AND ", "b", 0, 0, 1, true},   {"(a OR b)AND ", "x", 0, 0, 1, false},
        {"a", "+", 0, 0, 0, false},             {"(", "(", 14, 32, 0, false},
        {"a+ ", "b", 13, 3, 0, false},          {"LicenseRef-a", ":", 13, 1048572, 0, false},
        {"(a OR(b))AND", ")", 13, 1048572, 0, false},
    };
    uint8_t *out = garbage(CHULTARVI_SPELLED_MOST(LARGE));
    for (size_t i = 0; i < sizeof texts / sizeof *texts; i++) {
        uint8_t *text = garbage(LARGE);
        size_t len = put_chain(text, LARGE, texts[i].unit, texts[i].last), grown = len + (len - 1) / strlen(texts[i].unit) * texts[i].more;
        chultarvi_expression_spelled w = chultarvi_write_expression(text, len, out, CHULTARVI_SPELLED_MOST(len));
        check(w.refusal == texts[i].refusal && w.place == texts[i].place && w.len == (w.refusal ? 0 : grown), "1 MiB", texts[i].unit);
        if (!w.refusal) check(is_grown(text, out, grown), "1 MiB, written", texts[i].unit);
        memset(out, GARBAGE, grown);
        if (!w.refusal) check(chultarvi_write_expression(text, len, out, grown - 1).refusal == 11 && is_garbage(out, grown), "1 MiB, a byte short", texts[i].unit);
        chultarvi_expression_satisfied s = chultarvi_satisfy(text, len, (const uint8_t *)"q\na\nb", 5);
        check(s.refusal == texts[i].refusal && s.place == texts[i].place && s.satisfied == texts[i].satisfied, "1 MiB, satisfied", texts[i].unit);
        free(text);
    }
    free(out);
}

int main(void) {
    test_satisfied();
    test_written();
    test_refused();
    test_lent();
    test_large();
    printf("%d passed, %d failed\n", passed, failed);
    return failed != 0;
}
