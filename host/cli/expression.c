/* The subcommand expression: how licence expressions are written, and whether accepted parts satisfy them; a line for a person, or one of JSON, for each.
   host/expression.schema.json says each field of the JSON. */
#include "expression.h"
#include <ctype.h>
#include <inttypes.h>
#include <stdlib.h>
#include <string.h>
#include <strings.h>

/* What is asked of each text. `judged`: whether there are accepted parts, be they none. */
typedef struct { accepted_parts accepted; bool judged, json; } asked;

static bool is_satisfied(const asked *a, part text) {
    return chultarvi_satisfy(text.bytes, text.len, a->accepted.bytes, a->accepted.len).satisfied;
}

/* ---- the parts that are not accepted */

static bool has_word(const uint8_t *at, size_t left, const char *word) { return left >= strlen(word) && memcmp(at, word, strlen(word)) == 0; }

/* Of an expression as the library writes it: the part at `at`, which goes as far as an operator or a parenthesis. */
static size_t part_len(const uint8_t *at, size_t left) {
    size_t n = 0;
    while (n < left && at[n] != ')' && !has_word(at + n, left - n, " AND ") && !has_word(at + n, left - n, " OR ")) n++;
    return n;
}

static size_t run_of(char sign, const uint8_t *at, size_t left) {
    size_t n = 0;
    while (n < left && at[n] == sign) n++;
    return n;
}

/* From the end of a part, or from the beginning, to the next part. */
static size_t joint_len(const uint8_t *at, size_t left) {
    size_t n = run_of(')', at, left);
    if (has_word(at + n, left - n, " AND ")) n += 5;
    else if (has_word(at + n, left - n, " OR ")) n += 4;
    return n + run_of('(', at + n, left - n);
}

typedef struct { part *at; size_t count; } part_list;

static part_list parts_of(part written) {
    part_list all = {take((written.len / 2 + 1) * sizeof *all.at), 0};
    const uint8_t *p = written.bytes, *end = p + written.len;
    while ((p += joint_len(p, (size_t)(end - p))) < end) {
        part one = {p, part_len(p, (size_t)(end - p))};
        all.at[all.count++] = one;
        p += one.len;
    }
    return all;
}

static int by_place(const void *a, const void *b) {
    const part *x = a, *y = b;
    return x->bytes < y->bytes ? -1 : x->bytes > y->bytes;
}

/* Letter case aside, as parts are compared. */
static int compare_parts(const part *x, const part *y) {
    int order = strncasecmp((const char *)x->bytes, (const char *)y->bytes, x->len < y->len ? x->len : y->len);
    return order ? order : x->len < y->len ? -1 : x->len > y->len;
}

static int by_part(const void *a, const void *b) {
    int order = compare_parts(a, b);
    return order ? order : by_place(a, b);
}

/* Of equal ones, which stand side by side, the first is kept. */
static void leave_equal(part_list *all) {
    size_t kept = 0;
    for (size_t i = 0; i < all->count; i++)
        if (kept == 0 || compare_parts(all->at + kept - 1, all->at + i) != 0) all->at[kept++] = all->at[i];
    all->count = kept;
}

static void leave_met(part_list *all, const asked *a) {
    size_t kept = 0;
    for (size_t i = 0; i < all->count; i++)
        if (!is_satisfied(a, all->at[i])) all->at[kept++] = all->at[i];
    all->count = kept;
}

/* Each once, letter case aside, where it stands first. The list is walked for each part, so equal ones are left out before. */
static part_list unmet_parts(const asked *a, part written) {
    part_list all = parts_of(written);
    qsort(all.at, all.count, sizeof *all.at, by_part);
    leave_equal(&all);
    leave_met(&all, a);
    qsort(all.at, all.count, sizeof *all.at, by_place);
    return all;
}

/* ---- what is refused */

static bool in_name(uint8_t byte) { return isalnum(byte) || byte == '-' || byte == '.'; }

/* Where the name at a place begins, and where it ends. */
static size_t name_from(part text, size_t at) {
    while (at > 0 && in_name(text.bytes[at - 1])) at--;
    return at;
}
static size_t name_to(part text, size_t at) {
    while (at < text.len && in_name(text.bytes[at])) at++;
    return at;
}

/* Behind a closing parenthesis, and blanks. */
static bool behind_group(part text, size_t at) {
    while (at > 0 && text.bytes[at - 1] == ' ') at--;
    return at > 0 && text.bytes[at - 1] == ')';
}

/* The name at a place is AND, OR or WITH but for its letters' case, and would be right so: WITH is not where a group is before it. */
static bool is_small_word(part text, size_t place) {
    static const char *const words[] = {"AND", "OR", "WITH"};
    if (place == text.len || !isalpha(text.bytes[place])) return false;
    size_t from = name_from(text, place), len = name_to(text, place) - from;
    for (size_t i = 0; i < sizeof words / sizeof *words - behind_group(text, from); i++)
        if (strlen(words[i]) == len && strncasecmp((const char *)text.bytes + from, words[i], len) == 0)
            return memcmp(text.bytes + from, words[i], len) != 0;
    return false;
}

static const char *next_step(const chultarvi_expression_spelled *w, part text) {
    if (w->refusal == CHULTARVI_REFUSED_TOO_DEEP) return "leave out pairs that are not needed, or write it with fewer in one another";
    if (is_small_word(text, w->place)) return "AND, OR and WITH are written in capitals";
    return "chultarvi expression --help says what may";
}

/* For people bytes count from 1. */
static void refused_message(char to[MESSAGE_MOST], const chultarvi_expression_spelled *w, part text) {
    char where[64] = "it breaks off, and something has to follow";
    if (text.len == 0) snprintf(where, sizeof where, "it is empty");
    if (w->place < text.len) snprintf(where, sizeof where, "byte %zu cannot stand there", w->place + 1);
    if (w->refusal == CHULTARVI_REFUSED_TOO_DEEP) snprintf(where, sizeof where, "byte %zu opens one more", w->place + 1);
    snprintf(to, MESSAGE_MOST, "refused (%" PRIu32 "): %s: %s; %s", w->refusal, chultarvi_refusal_text(w->refusal), where, next_step(w, text));
}

/* The text about the place, and a caret under it. All that stands before the place could go on, so it is ASCII and one column a byte. */
static void put_caret(FILE *to, part text, size_t place) {
    size_t from = place > SHOWN_MOST ? place - SHOWN_MOST : 0;
    const char *cut = from ? ".." : "";
    fprintf(to, "    %s", cut);
    put_short(to, (part){text.bytes + from, text.len - from}, SHOWN_MOST + 20);
    fprintf(to, "\n    %*s^\n", (int)(strlen(cut) + place - from), "");
}

/* ---- what is said */

static void put_part(FILE *to, part p) { put_json(to, (const char *)p.bytes, p.len); }

static void json_refused(part text, const chultarvi_expression_spelled *w) {
    char message[MESSAGE_MOST];
    refused_message(message, w, text);
    fputs("{\"text\":", stdout);
    put_part(stdout, text);
    printf(",\"refusal\":%" PRIu32 ",\"message\":", w->refusal);
    put_json(stdout, message, strlen(message));
    printf(",\"place\":%zu}\n", w->place);
}

static void json_answer(const asked *a, part text, part written, bool satisfied) {
    fputs("{\"text\":", stdout);
    put_part(stdout, text);
    fputs(",\"refusal\":0,\"written\":", stdout);
    put_part(stdout, written);
    if (a->judged) {
        part_list unmet = unmet_parts(a, written);
        printf(",\"satisfied\":%s,\"unmet\":[", satisfied ? "true" : "false");
        for (size_t i = 0; i < unmet.count; i++) {
            if (i > 0) fputc(',', stdout);
            put_part(stdout, unmet.at[i]);
        }
        fputc(']', stdout);
        free(unmet.at);
    }
    fputs("}\n", stdout);
}

/* `line`: its line on standard input; 0 where it stands in the call. */
static void plain_refused(part text, size_t line, const chultarvi_expression_spelled *w) {
    char message[MESSAGE_MOST];
    refused_message(message, w, text);
    flush_output();
    if (line) say("-: line %zu: %s", line, message);
    else say("%s", message);
    put_caret(stderr, text, w->place);
}

static void plain_answer(const asked *a, part written, bool satisfied) {
    enum { NAMED_MOST = 10 };
    fwrite(written.bytes, 1, written.len, stdout);
    if (a->judged) fputs(satisfied ? ": satisfied" : ": not satisfied; not accepted: ", stdout);
    if (a->judged && !satisfied) {
        part_list unmet = unmet_parts(a, written);
        for (size_t i = 0; i < unmet.count && i < NAMED_MOST; i++)
            printf("%s%.*s", i ? ", " : "", (int)unmet.at[i].len, (const char *)unmet.at[i].bytes);
        if (unmet.count > NAMED_MOST) printf(" and %zu more", unmet.count - NAMED_MOST);
        free(unmet.at);
    }
    fputc('\n', stdout);
}

/* Gives the exit status. */
static int answer(const asked *a, part text, size_t line) {
    uint8_t *bytes;
    chultarvi_expression_spelled w = written_form(text, &bytes);
    if (w.refusal) {
        if (a->json) json_refused(text, &w);
        else plain_refused(text, line, &w);
        return REFUSED;
    }
    part written = {bytes, w.len};
    bool satisfied = a->judged && is_satisfied(a, text);
    if (a->json) json_answer(a, text, written, satisfied);
    else plain_answer(a, written, satisfied);
    free(bytes);
    return a->judged && !satisfied ? REFUSED : DONE;
}

/* Each line is a text; a newline at the end begins no further one. */
static int answer_lines(const asked *a) {
    size_t len, line = 1;
    char *text = read_list("-", &len);
    if (!text) return TROUBLE;
    int status = DONE;
    part one;
    for (char *p = text, *next; p && !ferror(stdout); p = next, line++) {
        next = cut_line(p, text + len, &one.len);
        if (next == text + len) next = 0;
        one.bytes = (const uint8_t *)p;
        if (answer(a, one, line) != DONE) status = REFUSED;
    }
    free(text);
    return status;
}

static int answer_word(const asked *a, const char *word) {
    if (strcmp(word, "-") == 0) return answer_lines(a);
    return answer(a, (part){(const uint8_t *)word, strlen(word)}, 0);
}

static int answer_words(asked *a, word_list lists, word_list parts, int count, char **words) {
    if (count < 2) return wrong_words("expression", "wants an expression, or several");
    a->judged = lists.count + parts.count > 0;
    int status = accept_parts(&a->accepted, lists, parts) ? DONE : TROUBLE;
    for (int i = 1; i < count && status != TROUBLE; i++) {
        int one = answer_word(a, words[i]);
        if (one > status) status = one;
    }
    return status;
}

int run_expression(int count, char **words) {
    asked a = {0};
    word_list lists = {0}, parts = {0};
    const option_place places[] = {{.name = "accept", .values = &lists}, {.name = "accept-part", .values = &parts}, {.name = "json", .given = &a.json}};
    int status;
    /* a list may have two million wrong lines: each message is one write */
    setvbuf(stderr, 0, _IOLBF, BUFSIZ);
    if (read_options(&count, words, places, 3, &status)) status = answer_words(&a, lists, parts, count, words);
    free(lists.at);
    free(parts.at);
    free(a.accepted.bytes);
    return status;
}
