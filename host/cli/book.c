/* The subcommand book: a book from a list of lines `NAME KIND FILE`. All that is wrong with the list and its files is said in one run, each with its
   line. Texts are compiled into memory in the order of names and kinds, the book is checked, and only then does it take its place. */
#include "host.h"
#include "../records.h"
#include <inttypes.h>
#include <stdlib.h>
#include <string.h>

/* One line of the list. file: the alias itself where the kind is alias. table, len: a text's table in the book, once it is compiled. */
typedef struct { const char *name, *file; const uint8_t *table; size_t len, line; uint32_t kind; } entry;
/* status: the worst that was met so far. ascii: texts become what the edition takes. edition: by which they are read. */
typedef struct { entry *at; size_t count; const char *list; int status; bool ascii; uint32_t edition; } entries;

/* The line is refused. */
static void refuse(entries *all, const entry *e, const char *why) {
    say_of(all->list, "line %zu: %s", e->line, why);
    if (all->status < REFUSED) all->status = REFUSED;
}

/* The same for the file that the line names; with the status DONE it is no more than a word about it. */
static void refuse_file(entries *all, const entry *e, int status, const char *why) {
    fputs("chultarvi: ", stderr);
    put_plain(stderr, all->list);
    fprintf(stderr, ": line %zu: ", e->line);
    put_plain(stderr, e->file);
    fprintf(stderr, ": %s\n", why);
    if (all->status < status) all->status = status;
}

/* ---- the list */

static bool is_name(const char *s) {
    size_t len = strlen(s);
    for (size_t i = 0; i < len; i++) if (s[i] < 33 || s[i] > 126) return false;
    return len >= 1 && len <= CHULTARVI_NAME_MOST;
}

static uint32_t kind_of(const char *word) {
    for (uint32_t kind = CHULTARVI_ORIGINAL; kind <= KIND_ALIAS; kind++) if (strcmp(word, kind_words(kind)) == 0) return kind;
    return CHULTARVI_NONE;
}

/* Cuts the word at p off what follows it, and gives where that begins. */
static char *cut(char *p) {
    p += strcspn(p, " \t");
    if (*p == 0) return p;
    *p++ = 0;
    return p + strspn(p, " \t");
}

/* Null, or what is wrong with the entry. */
static const char *wrong_entry(const entry *e) {
    if (!is_name(e->name)) return "the name is not 1 to 64 bytes of 33 to 126; a line is NAME KIND FILE";
    if (!e->kind) return "the kind is not original, alternate, header or alias; a line is NAME KIND FILE";
    if (e->kind != KIND_ALIAS) return *e->file ? 0 : "no file; a line is NAME KIND FILE";
    if (*e->file == 0) return "no alias; a line is NAME alias ALIAS";
    return is_name(e->file) ? 0 : "the alias is not 1 to 64 bytes of 33 to 126";
}

/* A line that is wrong is said and left out. */
static void read_entries(entries *all, char *text, char *end) {
    size_t line = 1, len;
    for (char *p = text, *next; p; p = next, line++) {
        next = cut_line(p, end, &len);
        if (is_comment(p)) continue;
        char *kind = cut(p), *file = cut(kind);
        entry e = {.name = p, .file = file, .line = line, .kind = kind_of(kind)};
        const char *wrong = wrong_entry(&e);
        if (wrong) refuse(all, &e, wrong);
        else all->at[all->count++] = e;
    }
}

static bool same_name(const entry *x, const entry *y) { return strcmp(x->name, y->name) == 0; }
static int by_number(size_t x, size_t y) { return x < y ? -1 : x > y; }
static int by_name_and_kind(const entry *x, const entry *y) {
    int by_name = strcmp(x->name, y->name);
    return by_name ? by_name : by_number(x->kind, y->kind);
}

/* As a book's records stand; then aliases by their bytes, and texts as the list has them. */
static int book_order(const void *a, const void *b) {
    const entry *x = a, *y = b;
    int order = by_name_and_kind(x, y);
    if (!order && x->kind == KIND_ALIAS) order = strcmp(x->file, y->file);
    return order ? order : by_number(x->line, y->line);
}

/* So that those with the same name, kind and file stand side by side. */
static int file_order(const void *a, const void *b) {
    const entry *x = a, *y = b;
    int order = by_name_and_kind(x, y);
    if (!order) order = strcmp(x->file, y->file);
    return order ? order : by_number(x->line, y->line);
}

/* The line is that of the first text too many. */
static bool are_many(entries *all) {
    size_t texts = 0;
    const entry *over = 0;
    for (const entry *e = all->at; e < all->at + all->count; e++) {
        texts += is_stored(e->kind);
        if (texts > CHULTARVI_STORED_MOST && !over) over = e;
    }
    if (!over) return false;
    char why[MESSAGE_MOST];
    snprintf(why, sizeof why, "%zu texts; a book has at most 1,024, so make two of the list", texts);
    refuse(all, over, why);
    return true;
}

static void refuse_named(entries *all, const entry *e, const char *why) {
    char words[MESSAGE_MOST];
    snprintf(words, sizeof words, "%s %s", e->name, why);
    refuse(all, e, words);
}

/* Two equal originals are two originals, which are refused anyhow. */
static void refuse_doubles(entries *all) {
    qsort(all->at, all->count, sizeof *all->at, file_order);
    for (size_t i = 1; i < all->count; i++) {
        const entry *e = all->at + i;
        if (e->kind != CHULTARVI_ORIGINAL && by_name_and_kind(e - 1, e) == 0 && strcmp(e[-1].file, e->file) == 0)
            refuse_named(all, e, "stands twice with the same kind and file");
    }
}

/* The list is in the order of the book. */
static void refuse_originals(entries *all) {
    for (size_t i = 0; i < all->count; i++) {
        const entry *e = all->at + i;
        bool first = i == 0 || !same_name(e - 1, e), original = e->kind == CHULTARVI_ORIGINAL;
        if (first && !original) refuse_named(all, e, "has no original");
        if (!first && original) refuse_named(all, e, "has two originals");
    }
}

/* ---- the book */

typedef struct { uint8_t *bytes; size_t len; bool over; } book;

/* Said once. Nothing of the book will stand, so its room serves to look at the files that are left. */
static void no_room(book *b, const entry *e, entries *all) {
    if (!b->over) refuse(all, e, "with this the book would be over 16,777,216 bytes; make two of the list");
    b->over = true;
    b->len = 0;
}

static bool has_room(const book *b, size_t len) { return CHULTARVI_BOOK_MOST - b->len >= RECORD_HEAD + len; }

static void put_word(book *b, uint32_t kind, const char *word, const entry *e, entries *all) {
    size_t len = strlen(word);
    if (!has_room(b, len)) no_room(b, e, all);
    b->len = (size_t)(put_record(b->bytes + b->len, kind, word, len) - b->bytes);
}

#define MAPPED "--ascii makes the book with such characters mapped or dropped"
static const next_steps steps = {"--edition 3 takes it; " MAPPED, MAPPED, "--ascii makes the book with such bytes read as Latin-1"};

/* Compiles the text that stands in the memory, right into its place. */
static void put_text(book *b, entry *e, const memory *m, size_t len, entries *all) {
    if (!has_room(b, 0)) no_room(b, e, all);
    uint8_t *body = b->bytes + b->len + RECORD_HEAD;
    chultarvi_text_compiled c = compile_text(m, len, all->edition, body, CHULTARVI_BOOK_MOST - b->len - RECORD_HEAD);
    if (c.refusal == CHULTARVI_REFUSED_OUTPUT_SHORT) {
        no_room(b, e, all);
    } else if (c.refusal) {
        char why[MESSAGE_MOST];
        refusal_message(why, c.refusal, m->text, len, all->edition, &steps);
        refuse_file(all, e, REFUSED, why);
    } else {
        /* a name that has headers alone says so by an original from /dev/null */
        bool meant = strcmp(e->file, "/dev/null") == 0;
        if (get_number(body) == 0 && !meant) refuse_file(all, e, DONE, "warning: no bigrams, so no note is like it; is this the right file?");
        e->table = body;
        e->len = c.len;
        b->len = (size_t)(put_record(b->bytes + b->len, e->kind, body, c.len) - b->bytes);
    }
}

/* With --ascii a text stands in `raw` first, and what was changed in it is said. */
static void read_text(book *b, entry *e, const memory *m, uint8_t *raw, entries *all) {
    size_t len;
    char why[MESSAGE_MOST];
    const char *reason = read_file(e->file, all->ascii ? raw : m->text, CHULTARVI_TEXT_MOST, &len);
    if (reason) {
        snprintf(why, sizeof why, "cannot be read: %s", reason);
        refuse_file(all, e, TROUBLE, why);
        return;
    }
    size_t changed = all->ascii ? to_taken(raw, len, all->edition, m->text, &len) : 0;
    snprintf(why, sizeof why, "--ascii changed %zu character%s", changed, plural(changed));
    if (changed) refuse_file(all, e, DONE, why);
    put_text(b, e, m, len, all);
}

/* A file in trouble does not keep the others from being looked at. */
static void build(book *b, entries *all) {
    memory m = take_memory();
    uint8_t *raw = take(CHULTARVI_TEXT_MOST + 1);
    b->len = (size_t)(put_edition(b->bytes, all->edition) - b->bytes);
    for (size_t i = 0; i < all->count; i++) {
        entry *e = all->at + i;
        if (i == 0 || !same_name(e - 1, e)) put_word(b, KIND_NAME, e->name, e, all);
        if (e->kind == KIND_ALIAS) put_word(b, KIND_ALIAS, e->file, e, all);
        else read_text(b, e, &m, raw, all);
    }
    free(raw);
    free_memory(&m);
}

/* ---- two names with one text */

static bool same_table(const entry *x, const entry *y) { return x->len == y->len && memcmp(x->table, y->table, x->len) == 0; }

/* Equal tables side by side, as they stand in the book. */
static int table_order(const void *a, const void *b) {
    const entry *x = *(const entry *const *)a, *y = *(const entry *const *)b;
    int order = by_number(x->len, y->len);
    if (!order) order = memcmp(x->table, y->table, x->len);
    return order ? order : x < y ? -1 : x > y;
}

/* Texts with bigrams, by their tables; the caller frees them. */
static const entry **sort_tables(const entries *all, size_t *count) {
    const entry **texts = take((all->count + 1) * sizeof *texts);
    *count = 0;
    for (const entry *e = all->at; e < all->at + all->count; e++)
        if (is_stored(e->kind) && get_number(e->table) > 0) texts[(*count)++] = e;
    qsort(texts, *count, sizeof *texts, table_order);
    return texts;
}

/* Of texts that score the same, as equal tables do: the one that a scan names, of the kind that goes before, then the first. */
static const entry *named_among(const entry **texts, size_t count) {
    const entry *named = texts[0];
    for (size_t i = 1; i < count; i++) if (texts[i]->kind < named->kind) named = texts[i];
    return named;
}

/* The other names are never said for such a text: a word for each. */
static void warn_of_others(const entries *all, const entry **texts, size_t count) {
    const entry *named = named_among(texts, count);
    for (size_t i = 0; i < count; i++) {
        const entry *e = texts[i];
        if (same_name(named, e) || (i > 0 && same_name(texts[i - 1], e))) continue;
        say_of(all->list, "line %zu: warning: %s %s has the same table as %s %s, line %zu; a scan names %s for both", e->line, e->name,
               kind_words(e->kind), named->name, kind_words(named->kind), named->line, named->name);
    }
}

static void warn_of_equals(const entries *all) {
    size_t count, first = 0;
    const entry **texts = sort_tables(all, &count);
    for (size_t i = 1; i <= count; i++) {
        if (i < count && same_table(texts[first], texts[i])) continue;
        warn_of_others(all, texts + first, i - first);
        first = i;
    }
    free(texts);
}

/* ---- the command */

/* What stands at `out` is replaced only by a book that the library finds sound. */
static int stand(const book *b, const char *out, const char *list) {
    chultarvi_book_checked c = chultarvi_check_book(b->bytes, b->len);
    if (c.refusal) {
        say_of(list, "refused (%" PRIu32 "): the book would not be sound", c.refusal);
        return REFUSED;
    }
    if (!write_file(out, b->bytes, b->len)) return TROUBLE;
    put_plain(stdout, out);
    printf(": %zu bytes, %" PRIu32 " stored text%s, edition %" PRIu32 "\n", b->len, c.texts, plural(c.texts), chultarvi_edition(b->bytes, b->len));
    return DONE;
}

static void make_book(const char *out, entries *all, char *text, size_t len) {
    read_entries(all, text, text + len);
    if (are_many(all)) return;
    bool whole = all->status == DONE;
    /* without the lines left out a name may seem to lack its original */
    if (whole) refuse_doubles(all);
    qsort(all->at, all->count, sizeof *all->at, book_order);
    if (whole) refuse_originals(all);
    book b = {.bytes = take(CHULTARVI_BOOK_MOST)};
    build(&b, all);
    if (all->status == DONE) {
        warn_of_equals(all);
        all->status = stand(&b, out, all->list);
    }
    free(b.bytes);
}

int run_book(int count, char **words) {
    int status;
    /* a list may have two million wrong lines: each message is one write, and not one for each letter of a name */
    setvbuf(stderr, 0, _IOLBF, BUFSIZ);
    bool ascii = false;
    const char *edition_word = 0;
    uint32_t edition;
    const option_place places[] = {{.name = "ascii", .given = &ascii}, {.name = "edition", .value = &edition_word}};
    if (!read_options(&count, words, places, 2, &status)) return status;
    if (!read_edition("book", edition_word, &edition)) return TROUBLE;
    if (count != 3) return wrong_words("book", "wants OUT and LIST");
    size_t len;
    char *text = read_list(words[2], &len);
    if (!text) return TROUBLE;
    /* a good line has at least nine bytes, as `A alias b`, and its newline */
    entries all = {.at = take((len / 10 + 1) * sizeof(entry)), .list = words[2], .status = DONE, .ascii = ascii, .edition = edition};
    make_book(words[1], &all, text, len);
    if (all.status != DONE) say_of(words[1], "no new book stands there");
    free(all.at);
    free(text);
    return all.status;
}
