/* A whole program over libchultarvi, to copy from: which licence does a note hold, in which lines, and how do they read?

     embed BOOK NOTE [MILLISECONDS]

   With MILLISECONDS the scan stops after about so long behind the licence's answer, as chultarvi.h tells of a budget for Save.
   Build: cc -std=c11 embed.c $(pkg-config --cflags --libs chultarvi), or by the CMakeLists.txt beside this file.
   Exit status: 0 answered; 1 refused, or stopped by the budget; 2 wrong usage, or trouble with a file or with memory. */
#include <chultarvi.h>
#include <errno.h>
#include <inttypes.h>
#include <stdio.h>
#include <stdlib.h>
#include <string.h>

enum { PASSES = 10, SHOWN = 60, MILLISECONDS_MOST = 1000000 };

typedef struct { uint8_t *bytes; size_t len; } held;
typedef struct { uint8_t *area; uint32_t *words, *results; size_t area_len, words_len, results_len; } lent;

static int trouble(const char *what, const char *why) {
    fprintf(stderr, "embed: %s: %s\n", what, why);
    return 2;
}

/* All of a file, but never more than one byte above `most`: that byte suffices for the library to refuse it. */
static int read_file(const char *path, size_t most, held *to) {
    FILE *file = fopen(path, "rb");
    if (!file) return trouble(path, strerror(errno));
    to->bytes = malloc(most + 1);
    if (to->bytes) to->len = fread(to->bytes, 1, most + 1, file);
    bool whole = !ferror(file);
    fclose(file);
    if (!to->bytes) return trouble(path, "no memory");
    return whole ? 0 : trouble(path, "cannot be read");
}

/* What a note of this length needs. A longer one than the most is refused by its length, whatever is lent. */
static int take_areas(size_t note_len, lent *to) {
    size_t n = note_len < CHULTARVI_TEXT_MOST ? note_len : CHULTARVI_TEXT_MOST;
    to->area_len = chultarvi_area_bytes(n);
    to->words_len = chultarvi_area_words(n);
    to->results_len = chultarvi_elimination_results(true, PASSES);
    to->area = malloc(to->area_len);
    to->words = malloc(to->words_len * sizeof *to->words);
    to->results = malloc(to->results_len * sizeof *to->results);
    return to->area && to->words && to->results ? 0 : trouble("the areas", "no memory");
}

/* The range's own bytes, as they stand in the note: of its first line up to SHOWN, and a dot for each that is no visible ASCII. */
static void print_bytes(const held *note, uint32_t start, uint32_t end) {
    printf("    bytes %" PRIu32 " to %" PRIu32 ": ", start, end);
    for (uint32_t at = start; at < end && at - start < SHOWN && note->bytes[at] != '\n'; at++)
        putchar(note->bytes[at] >= ' ' && note->bytes[at] <= '~' ? note->bytes[at] : '.');
    putchar('\n');
}

/* Lines count from 0 in the library, and from 1 for people. A record's number is never refused over the same book. */
static void print_range(const held *book, const held *note, const uint32_t *record) {
    chultarvi_text_named named = chultarvi_name_stored(book->bytes, book->len, record[CHULTARVI_RECORD_NUMBER]);
    const char *name = (const char *)chultarvi_stored_name(book->bytes, 0, &named);
    float score;
    memcpy(&score, &record[CHULTARVI_RECORD_SCORE], sizeof score);
    printf("  lines %" PRIu32 " to %" PRIu32 ": %.*s, score %.4f\n", record[CHULTARVI_RECORD_FIRST] + 1, record[CHULTARVI_RECORD_AFTER], (int)named.len,
           name, (double)score);
    print_bytes(note, record[CHULTARVI_RECORD_START], record[CHULTARVI_RECORD_END]);
}

static void print_answer(const held *book, const held *note, const chultarvi_note_scanned *answer, const uint32_t *results) {
    const char *name = (const char *)chultarvi_name(book->bytes, 0, answer);
    if (answer->kind == CHULTARVI_NONE) printf("no licence as a whole");
    else printf("%.*s", (int)answer->len, name);
    printf(", score %.4f, %" PRIu32 " word pairs shared, %" PRIu32 " of both together\n", (double)answer->score, answer->m, answer->t);
    for (size_t k = 0; k < answer->records; k++) print_range(book, note, results + CHULTARVI_RECORD_WIDTH * k);
    printf("  %" PRIu64 " scorings\n", answer->count);
}

/* Without a limit of time the budget is one that no scan reaches. */
static uint64_t budget_of(const held *book, const held *note, const uint64_t *milliseconds) {
    uint64_t texts = chultarvi_check_book(book->bytes, book->len).texts;
    return milliseconds ? texts + 16000 * *milliseconds / (note->len ? note->len : 1) : UINT64_MAX;
}

static int scan(const held *book, const held *note, uint64_t budget, const lent *l) {
    chultarvi_note_scanned answer = chultarvi_eliminate(note->bytes, note->len, book->bytes, book->len, 0.9f, 0.99f, true, PASSES, budget, l->area,
                                                        l->area_len, l->words, l->words_len, l->results, l->results_len);
    bool stopped = answer.refusal == CHULTARVI_STOPPED_BY_BUDGET;
    if (answer.refusal) fprintf(stderr, "embed: refused (%" PRIu32 "): %s\n", answer.refusal, chultarvi_refusal_text(answer.refusal));
    if (!answer.refusal || stopped) print_answer(book, note, &answer, l->results);
    return answer.refusal ? 1 : 0;
}

static bool read_number(const char *word, uint64_t *number) {
    char *end;
    *number = strtoull(word, &end, 10);
    return end != word && *end == 0 && *number <= MILLISECONDS_MOST;
}

int main(int count, char **words) {
    if (count != 3 && count != 4) return trouble("usage", "embed BOOK NOTE [MILLISECONDS]");
    uint64_t milliseconds = 0;
    if (count == 4 && !read_number(words[3], &milliseconds)) return trouble(words[3], "no number of milliseconds up to 1,000,000");
    held book = {0}, note = {0};
    lent areas = {0};
    int status = read_file(words[1], CHULTARVI_BOOK_MOST, &book);
    if (!status) status = read_file(words[2], CHULTARVI_TEXT_MOST, &note);
    if (!status) status = take_areas(note.len, &areas);
    if (!status) status = scan(&book, &note, budget_of(&book, &note, count == 4 ? &milliseconds : 0), &areas);
    free(book.bytes);
    free(note.bytes);
    free(areas.area);
    free(areas.words);
    free(areas.results);
    return fflush(stdout) == 0 ? status : trouble("standard output", strerror(errno));
}
