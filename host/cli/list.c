/* The subcommands that look into books: check says whether books are sound and what they count, list prints a book's licences with their texts and
   aliases, for people or as JSON. */
#include "host.h"
#include "../records.h"
#include <inttypes.h>
#include <stdlib.h>

typedef struct { size_t licences, texts, aliases; } totals;

static totals count_book(const lent_book *b) {
    totals t = {0};
    book_record r;
    for (size_t at = 0; at < b->len; at = r.after) {
        r = record_at(b->bytes, at);
        t.licences += r.kind == KIND_NAME;
        t.texts += is_stored(r.kind);
        t.aliases += r.kind == KIND_ALIAS;
    }
    return t;
}

/* A book that cannot be read or is not sound is said to be so. Gives the exit status. */
static int open_sound(lent_book *b, const char *file) {
    const char *why = read_book(b, file);
    if (why) return unreadable(file, why);
    if (b->sound) return DONE;
    say_of(file, "refused (%d): %s%s" MAKE_ANEW, CHULTARVI_REFUSED_BOOK_UNSOUND, chultarvi_refusal_text(CHULTARVI_REFUSED_BOOK_UNSOUND),
           b->len > CHULTARVI_BOOK_MOST ? ", it is over 16,777,216 bytes" : "");
    return REFUSED;
}

static int check_one(lent_book *b, const char *file) {
    int status = open_sound(b, file);
    if (status != DONE) return status;
    totals t = count_book(b);
    put_plain(stdout, file);
    printf(": sound, %zu licence%s, %zu stored text%s, edition %" PRIu32 "\n", t.licences, plural(t.licences), t.texts, plural(t.texts), b->edition);
    return DONE;
}

int run_check(int count, char **words) {
    int status;
    if (!read_options(&count, words, 0, 0, &status)) return status;
    if (count < 2) return wrong_words("check", "wants a book, or several");
    lent_book b = {.bytes = take(CHULTARVI_BOOK_MOST + 1)};
    for (int i = 1; i < count; i++) {
        int one = check_one(&b, words[i]);
        if (one > status) status = one;
    }
    free(b.bytes);
    return status;
}

/* How the records of a licence are printed: `texts` and `aliases` count those of them that stand before this one. */
typedef void put_licence_record(const book_record *r, size_t number, totals before);

static void put_plain_record(const book_record *r, size_t number, totals before) {
    (void)number;
    int len = (int)r->len;
    if (r->kind == KIND_NAME) printf("%.*s:", len, (const char *)r->body);
    else if (r->kind == KIND_ALIAS) printf("%s %.*s", before.aliases ? "," : "; aliases", len, (const char *)r->body);
    else
        printf("%s %s %" PRIu32 " bigrams, %" PRIu32 " distinct", before.texts ? ";" : "", kind_words(r->kind), get_number(r->body),
               get_number(r->body + 4));
}

static void put_json_record(const book_record *r, size_t number, totals before) {
    if (r->kind == KIND_ALIAS) {
        fputs(before.aliases ? "," : "],\"aliases\":[", stdout);
        put_json(stdout, (const char *)r->body, r->len);
    } else if (r->kind == KIND_NAME) {
        fputs("{\"licence\":", stdout);
        put_json(stdout, (const char *)r->body, r->len);
        fputs(",\"texts\":[", stdout);
    } else {
        printf("%s{\"kind\":\"%s\",\"number\":%zu,\"bigrams\":%" PRIu32 ",\"distinct\":%" PRIu32 "}", before.texts ? "," : "", kind_words(r->kind),
               number, get_number(r->body), get_number(r->body + 4));
    }
}

/* Prints the licence whose name stands at `at`, its first stored text having the number `number`. Gives what it counts; *at is then behind it. */
static totals put_licence(const lent_book *b, size_t *at, size_t number, put_licence_record *put) {
    totals t = {0};
    do {
        book_record r = record_at(b->bytes, *at);
        put(&r, number + t.texts, t);
        t.texts += is_stored(r.kind);
        t.aliases += r.kind == KIND_ALIAS;
        *at = r.after;
    } while (*at < b->len && record_at(b->bytes, *at).kind != KIND_NAME);
    return t;
}

/* Once standard output takes nothing, the rest is not worth its time; main says why. */
static void put_book(const lent_book *b, bool json) {
    totals all = {0};
    for (size_t at = first_licence(b->bytes, b->len); at < b->len && !ferror(stdout); all.licences++) {
        totals t = put_licence(b, &at, all.texts, json ? put_json_record : put_plain_record);
        if (json) printf("%s],\"edition\":%" PRIu32 "}", t.aliases ? "" : "],\"aliases\":[", b->edition);
        fputc('\n', stdout);
        all.texts += t.texts;
        all.aliases += t.aliases;
    }
    if (json || ferror(stdout)) return;
    put_plain(stdout, b->file);
    printf(": %zu licence%s, %zu stored text%s, %zu alias%s, %zu byte%s, edition %" PRIu32 "\n", all.licences, plural(all.licences), all.texts,
           plural(all.texts), all.aliases, all.aliases == 1 ? "" : "es", b->len, plural(b->len), b->edition);
}

int run_list(int count, char **words) {
    bool json = false;
    const option_place places[] = {{.name = "json", .given = &json}};
    int status;
    if (!read_options(&count, words, places, 1, &status)) return status;
    if (count != 2) return wrong_words("list", "wants one book");
    lent_book b = {.bytes = take(CHULTARVI_BOOK_MOST + 1)};
    status = open_sound(&b, words[1]);
    if (status == DONE) put_book(&b, json);
    free(b.bytes);
    return status;
}
