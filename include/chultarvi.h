/* Chultarvi for C and C++: a licence-note scanner whose every answer is proved. examples/embed.c is a whole caller to copy; host/cli/ is a larger one,
   and host/tests/face.c and expressions.c call everything here. host/install.sh puts header, archive, pkg-config file and CMake config in place.

   Platform. libchultarvi.a is x86-64 code of the level x86-64-v2, which has SSE4 (ELF, the System V ABI: Linux and the BSDs, not Windows). Of other
   libraries it calls memcpy and memset only. It has no unwind tables: a debugger or profiler cannot walk the stack through it; no exception can pass,
   since it calls nothing that throws. Floating point must round to nearest, as it does when a program starts. A call takes less than 8 KiB of stack,
   one on a licence expression less than 16 KiB.

   Arguments. A slice is two arguments, a pointer and a count of elements (not bytes: for uint32_t one element is four bytes). A pointer may
   be null only where its count is 0; that is an empty slice. Pointers to uint32_t are aligned as C has it.

   Memory. All of it is the caller's, lent for the length of the call: nothing is allocated, kept or freed, so free it or lend it again when the
   call is back. It need not be cleared before. What is written (area, words, out, results, an allowance) must overlap neither each other nor text or
   books. Texts and books are only read, and may be the same. Calls keep no state, so several threads may call at once, each with areas and an
   allowance of its own. The time of a call grows with the areas lent, since they are cleared: lend no more than the text needs.

   Answers. `refusal` is 0, or the first of `enum chultarvi_refusal` that applies, as they stand there: 15 comes behind 5, 17 behind 10. With 1 to 11, 15 and
   17 all else in the answer is 0. With 12 the answer holds what the scan had until it stopped. 13 and 14, with their place, are of licence expressions alone.
   After 1 to 10, 13 to 15 and 17 no lent area has changed, the allowance neither. After 0, 11 and 12 every element of area and words is 0, also those beyond
   what the text needs; out and results have changed only where the answer says that something was written (with 11: nowhere).

   Lines count from 0, and a text has one line more than it has newline bytes, so an empty text has one. A range of lines is its first line
   and the line after its last; where both are equal it is empty. Scores are IEEE 754 binary32.

   The numbers behind a score: m, word pairs shared, each as often as it stands in both; t, word pairs of both together, those of the lines and those of the
   stored text. The score is 2m/t, one division in binary32, and 0.0 where t is 0; of an empty text or table m is 0 and t still the sum. Every answer with a
   score has its m and t, 2m is at most t, and t is below 2^24 (proved: pair-told, overall-pair, crates/score_job, bounds_job and scan_job, proofs).
   Two fractions may be one float (2*4095/8191 and 2*4096/8193): stored texts are ranked by the float, so these tie (see `kind` of a scan's answer), and
   the winner has its own m and t.

   A book. Records, one behind the other, fill it; numbers are little-endian.
     record   u32 length of the body, u16 kind, the body
     kind 1   a licence's name: 1 to 64 bytes from 33 to 126. Names strictly rise by their bytes
     kind 2   its original, a table: one, right behind the name
     kind 3   its alternates, each a table, any number
     kind 4   its headers, each a table, any number
     kind 5   its aliases, each like a name, any number; no scan reads them
     kind 6   the edition of all its tables, u16: 2 or 3. Only as the very first record; a book without it is of edition 1, also an empty one
     table    u32 total, u32 distinct, the entries, which fill it: distinct is how many, total the sum of their counts, at most 8,388,608
     entry    u32 count, from 1 on, u32 length, the bytes: two words of a-z, 0-9 and _ with one space between. Entries strictly rise by their bytes.
              Words of edition 3 may also have U+00AA, U+00B5, U+00BA and U+00DF to U+00FF but U+00F7, in UTF-8: letters as lower case leaves them
   Stored texts are the records of kinds 2 to 4, numbered from 0 as they stand. chultarvi_compile makes tables; `chultarvi book` makes books.

   Editions. In edition 1 the digit 4 is a space, so that "version 4" and "version" read alike; from edition 2 on it stays. Editions 1 and 2 take ASCII,
   edition 3 takes UTF-8 up to U+00FF: bytes of 00 to 7F, or C2 or C3 and one of 80 to BF behind it; so no byte order mark. Nothing else differs: ASCII is
   answered in edition 3 as in 2. Every call reads its text by the edition of the book that it is lent, of two by that of the first, as chultarvi_edition
   says it; so tables of one book are made by one edition, and two books are of the same (15). Lengths, limits and areas count bytes, not characters.

   What a scoring costs, measured (docs/SPEED.md). Each call checks its books first: some 2 ns for each byte of them. Scoring some lines sorts them, in up
   to 60 ns for each of their bytes; against the next stored texts the same lines take 1 to 80 us each. Elimination scores the whole text against all
   N stored texts: that is the licence's answer. With optimize each pass does so again, and a search for bounds scores some 40 to 55 other views.
   A budget for Save. Without optimize a scan makes N scorings, and a budget of N never stops it: check, one sort and N steps. For ranges that may take
   t milliseconds more, in a note of n bytes, lend N + 16,000 * t / n; after 12 the licence's answer is there and ranges may be missing. Whole scans,
   with UINT64_MAX, are for later. For a Save of many notes set one number, see chultarvi_allowance: K notes without optimize make K * N scorings, and a cap
   of that stops none of them. What it has above that is for ranges: lend it to the same notes again, now with optimize. Not with optimize at once, where
   an early note may take what the later ones need. */
#ifndef CHULTARVI_H
#define CHULTARVI_H

#include <stdbool.h>
#include <stddef.h>
#include <stdint.h>

#ifdef __cplusplus
extern "C" {
#endif

/* 0.6.0: three answers have grown by m and t, so callers compile anew. 0.6.1: on equal scores a text's kind decides before its place. 0.7.0: a record has
   six numbers, so results grow; callers compile anew. 0.8.0: chultarvi_top_down_results takes the threshold too, so callers compile anew; above 0.0
   top-down needs half the results. */
#define CHULTARVI_VERSION "0.8.0"
#define CHULTARVI_VERSION_MAJOR 0
#define CHULTARVI_VERSION_MINOR 8
#define CHULTARVI_VERSION_PATCH 0

#define CHULTARVI_TEXT_MOST 1048576u   /* bytes of a text */
#define CHULTARVI_LINES_MOST 65536u    /* lines of a text */
#define CHULTARVI_BOOK_MOST 16777216u  /* bytes of a book */
#define CHULTARVI_STORED_MOST 1024u    /* stored texts of a book */
#define CHULTARVI_NAME_MOST 64u        /* bytes of a name */
#define CHULTARVI_EDITION_MOST 3u      /* the last edition; the first is 1 */
#define CHULTARVI_RECORD_WIDTH 6u      /* numbers of a record in the results */
#define CHULTARVI_RECORD_HEAD 6u       /* bytes of a book's record before its body */
#define CHULTARVI_DEPTH_MOST 32u       /* parentheses of a licence expression that are open at once */

/* Kinds of a book's records. An answer names CHULTARVI_NONE or that of a stored text: CHULTARVI_ORIGINAL, _ALTERNATE, _HEADER. */
enum {
    CHULTARVI_NONE = 0,
    CHULTARVI_LICENCE_NAME = 1,
    CHULTARVI_ORIGINAL = 2,
    CHULTARVI_ALTERNATE = 3,
    CHULTARVI_HEADER = 4,
    CHULTARVI_ALIAS = 5,
    CHULTARVI_EDITION = 6
};

/* Which number of a record in the results is what; the answer of a scan, below, says each. */
enum {
    CHULTARVI_RECORD_NUMBER, /* of the stored text */
    CHULTARVI_RECORD_FIRST,  /* line */
    CHULTARVI_RECORD_AFTER,  /* the line after the last */
    CHULTARVI_RECORD_SCORE,  /* its bits */
    CHULTARVI_RECORD_START,  /* byte of the text */
    CHULTARVI_RECORD_END     /* the byte after the last */
};

/* In the order in which they are tested. 13 and 14 are of licence expressions and come before 11: of the two the one at the earlier byte, 13 on a tie. */
enum chultarvi_refusal {
    CHULTARVI_ANSWERED = 0,
    CHULTARVI_REFUSED_TEXT_LONG = 1,
    CHULTARVI_REFUSED_TEXT_BYTES = 2, /* editions 1 and 2: a byte of 128 or more; edition 3: no UTF-8, or a character above U+00FF */
    CHULTARVI_REFUSED_TEXT_NOT_ASCII = CHULTARVI_REFUSED_TEXT_BYTES, /* its name before 0.4 */
    CHULTARVI_REFUSED_LINES_MANY = 3,
    CHULTARVI_REFUSED_BOOK_UNSOUND = 4, /* of compile, which is lent no book: no such edition */
    CHULTARVI_REFUSED_BOOK_EMPTY = 5,
    CHULTARVI_REFUSED_EDITIONS_DIFFER = 15, /* of two books */
    CHULTARVI_REFUSED_LIMIT = 6,
    CHULTARVI_REFUSED_STEP_ZERO = 7,
    CHULTARVI_REFUSED_VIEW = 8,
    CHULTARVI_REFUSED_NUMBER = 9, /* a stored number of N or more */
    CHULTARVI_REFUSED_AREA_SMALL = 10,
    CHULTARVI_REFUSED_OVERDRAWN = 17, /* of scans by an allowance: used is above cap; chultarvi_refusal_text has no words for it yet */
    CHULTARVI_REFUSED_OUTPUT_SHORT = 11,
    CHULTARVI_STOPPED_BY_BUDGET = 12,
    CHULTARVI_REFUSED_NO_EXPRESSION = 13,
    CHULTARVI_REFUSED_TOO_DEEP = 14 /* more than CHULTARVI_DEPTH_MOST parentheses open at once */
};

/* A refusal in words, in English, for people; "unknown" for a number that is none. Never null. */
static inline const char *chultarvi_refusal_text(uint32_t refusal)
{
    static const char *const refusal_texts[] = {
        "none",
        "the text is over 1,048,576 bytes",
        "the text is not ASCII, or for edition 3 not UTF-8 up to U+00FF",
        "the text is over 65,536 lines",
        "the book is not sound",
        "the book has no stored text",
        "the threshold or the shallow limit is not from 0.0 to 1.0",
        "the top-down step is 0",
        "the view is out of the text's range",
        "the book has no stored text of this number",
        "a lent area is too small",
        "the output is too short",
        "stopped by the budget",
        "the text is no licence expression",
        "more than 32 parentheses are open",
        "the two books are of differing editions",
    };
    return refusal < sizeof refusal_texts / sizeof *refusal_texts ? refusal_texts[refusal] : "unknown";
}

/* How much to lend, in elements. `area` and `words`, for a text of n bytes; areas for CHULTARVI_TEXT_MOST serve every text, since a longer one is
   refused by its length. `out`, for the table of a text of n bytes: more is never needed (proved: compiled_fits, crates/compile/proofs). `results`,
   for elimination by its passes (none without optimize), for top-down by the text's lines: with a threshold above 0.0 a record for every second line, the
   first among them, since its ranges lie apart (see chultarvi_top_down); at 0.0 and -0.0 one for each line. Results for 0.0 serve every threshold. */
static inline size_t chultarvi_area_bytes(size_t n) { return 8 * n + 64; }
static inline size_t chultarvi_area_words(size_t n) { return 12 * n + 64; }
static inline size_t chultarvi_table_bytes(size_t n) { return 24 * n + 64; }
static inline size_t chultarvi_elimination_results(bool optimize, uint16_t passes) { return optimize ? CHULTARVI_RECORD_WIDTH * (size_t)passes : 0; }
static inline size_t chultarvi_top_down_results(float threshold, size_t lines)
{
    return CHULTARVI_RECORD_WIDTH * (threshold > 0.0f ? lines / 2 + lines % 2 : lines);
}

/* Is the book sound? texts: N, the number of its stored texts. An empty book is sound, and so is the record of an edition alone; N is 0. Refusal 4.
   The other calls check the book themselves. */
typedef struct { uint32_t refusal, texts; } chultarvi_book_checked;
chultarvi_book_checked chultarvi_check_book(const uint8_t *book, size_t book_len);

/* The edition of a sound book: 1, 2 or 3. Of any other bytes it is 2 or 3 where they begin with the whole record of that, else 1; nothing is refused.
   By it a text is refused (2), also where the book is refused behind that (4). */
uint32_t chultarvi_edition(const uint8_t *book, size_t book_len);

/* Compiles a text by an edition, 1 to 3, to its table, which is the body of a record of kind 2, 3 or 4 in a book of this edition. It is written at the
   front of out; len: its length in bytes, at most chultarvi_table_bytes. Refusals 1 to 3, 4 for any other edition (before it 2 as of edition 1), 10, 11. */
typedef struct { uint32_t refusal; size_t len; } chultarvi_text_compiled;
chultarvi_text_compiled chultarvi_compile(const uint8_t *text, size_t text_len, uint32_t edition, uint8_t *area, size_t area_len, uint32_t *words,
                                          size_t words_len, uint8_t *out, size_t out_len);

/* Scores a view: the text's lines from `start` up to, and without, `end`, against the stored text `number`, counted from 0 in the book's order.
   score: from 0.0 (nothing in common) to 1.0 (the same words, pair by pair), 2m/t. Refusals 1 to 5, 8 to 10. */
typedef struct { uint32_t refusal; float score; uint32_t m, t; } chultarvi_view_scored;
chultarvi_view_scored chultarvi_score(const uint8_t *text, size_t text_len, const uint8_t *book, size_t book_len, size_t start, size_t end,
                                      uint32_t number, uint8_t *area, size_t area_len, uint32_t *words, size_t words_len);

/* Finds where in that view the stored text stands: from line `first` up to, and without, line `after`, both counted in the whole text. score: the
   score of these lines, with its m and t; count: how many scorings that took. Refusals 1 to 5, 8 to 10. */
typedef struct { uint32_t refusal, first, after; float score; uint32_t m, t; uint64_t count; } chultarvi_bounds_found;
chultarvi_bounds_found chultarvi_bounds(const uint8_t *text, size_t text_len, const uint8_t *book, size_t book_len, size_t start, size_t end,
                                        uint32_t number, uint8_t *area, size_t area_len, uint32_t *words, size_t words_len);

/* Names the stored text `number`, counted from 0 in the book's order: the number of a record of a scan, for one. kind: CHULTARVI_ORIGINAL, _ALTERNATE or
   _HEADER. second, name_at, len: where the name stands that it stands under, its licence's; `len` bytes of the second book where `second` is true, else
   of the first, from byte name_at on, and all of them lie in that book (proved: named-lies, named_spelled, named-most, crates/name_job/proofs). See
   chultarvi_stored_name. The numbers in the records of a scan over the same books are never refused (proved: records-named). No text and no area is lent,
   and nothing is written. Where it is refused kind is CHULTARVI_NONE, and second, name_at and len are false, 0 and 0. Refusals 4, 5, 9. */
typedef struct { uint32_t refusal, kind, len; bool second; size_t name_at; } chultarvi_text_named;
chultarvi_text_named chultarvi_name_stored(const uint8_t *book, size_t book_len, uint32_t number);

/* What a scan answers, of either kind.
     score      the overall score: that of the best stored text over the whole text (0.0 in top-down, which has none)
     m, t       the numbers behind that score, of that text, named or not (0 and 0 in top-down). A record has none: chultarvi_score tells them, of its lines
                against its stored text; in elimination with the lines of the records before it blanked
     kind       CHULTARVI_ORIGINAL, _ALTERNATE or _HEADER where that score is above the threshold; else CHULTARVI_NONE, and len and name are 0. On equal
                scores an original beats an alternate, an alternate a header, and only then the lower stored number wins; so it goes for every
                best text, also those of the ranges (proved: best-first, crates/rules/proofs; overall-first, crates/scan_job/proofs)
     len, name  the licence's name. It is zero-filled, so no zero ends it where len is 64
     second, name_at  where the same bytes stand: in the second book where `second` is true, else in the first, from byte name_at on, and all of
                them lie in that book (proved: part_lies, part-named, crates/scan_job/proofs). No name: false and 0. See chultarvi_name
     records    how many ranges were found. Each is a record of six numbers (CHULTARVI_RECORD_WIDTH) at the front of results: the stored text's number,
                first line, line after last, the bits of the score (memcpy them into a float), start and end. The rest of results is as it was
                start, end: the range's bytes in the text as it was lent, counted from 0. start is where its first line starts, end the byte after its last
                line, whose newline is not counted. Only byte 10 ends a line, so a carriage return belongs to its line. An empty range has the start of
                its line twice, and behind the last line the text's length twice. A text that ends with a newline has an empty last line, which starts
                and ends at the text's length. They are bytes in edition 3 too, and lines that earlier records blanked stand where they were lent.
                So of a range that is not empty the bytes from start up to end, split at newlines, are the text's lines from first up to after, as a
                viewer shows them (proved: places-cut, crates/rules/proofs; at the face: records-placed, crates/scan_job/proofs)
     count      how many scorings were made
   A scan stops, with refusal 12, at the first scoring that `budget` does not pay. Then count is the budget, finished records stay, each with all six
   numbers, and elimination has score, m, t, kind and name once each stored text has been scored once. UINT64_MAX is a budget that no scan reaches.
   Both limits are from 0.0 to 1.0. Refusals 1 to 6, 10, 12, and 7 of top-down. */
typedef struct {
    uint32_t refusal, records;
    uint64_t count;
    float score;
    uint32_t m, t, kind, len;
    uint8_t name[64];
    bool second;
    size_t name_at;
} chultarvi_note_scanned;

/* Elimination: the best stored text over the whole text. Unless it is named with a score above `shallow`, and if `optimize` is true: up to `passes`
   times, the range of the best stored text, which is recorded and blanked where its score reaches the threshold. */
chultarvi_note_scanned chultarvi_eliminate(const uint8_t *text, size_t text_len, const uint8_t *book, size_t book_len, float threshold, float shallow,
                                           bool optimize, uint16_t passes, uint64_t budget, uint8_t *area, size_t area_len, uint32_t *words,
                                           size_t words_len, uint32_t *results, size_t results_len);

/* Top-down: from the first line on, views that grow by `step` lines until a score reaches the threshold and falls below it again; the range found in
   such a view is recorded, and the search goes on one line after its end. `shallow` is tested as in elimination (6) and else not used.
   With a threshold above 0.0 the ranges are not empty, rise, and have at least one line between one and the next; so they are at most (lines + 1) / 2,
   rounded down. That holds with every step and budget (proved: top_down_beside, crates/rules/proofs; at the face: ranges_beside, crates/scan_job/proofs), so a
   viewer may draw them side by side as they come, with no test for overlaps. At 0.0 and -0.0 it does not hold, nor of elimination. */
chultarvi_note_scanned chultarvi_top_down(const uint8_t *text, size_t text_len, const uint8_t *book, size_t book_len, float threshold, float shallow,
                                          uint64_t step, uint64_t budget, uint8_t *area, size_t area_len, uint32_t *words, size_t words_len,
                                          uint32_t *results, size_t results_len);

/* The same five over two books: their stored texts count on from the first into the second, and N is the sum, also in the budget's "each stored
   text". Refusal 4 if either is unsound, 5 if neither has a text, 15 if their editions differ. An empty book, of length 0, may stand on either side of
   one of edition 1; beside one of 2 or 3 it is refused by 15, so where there is no second book take the calls above, which never are. Each book has
   its own limits of bytes and texts. Both are only read, and may be the same memory. Names rise in each book for itself, and equal ones may stand in
   both: among equal scores and kinds the lower number wins, so the first book. */
chultarvi_view_scored chultarvi_score_both(const uint8_t *text, size_t text_len, const uint8_t *book, size_t book_len, const uint8_t *second,
                                           size_t second_len, size_t start, size_t end, uint32_t number, uint8_t *area, size_t area_len,
                                           uint32_t *words, size_t words_len);
chultarvi_bounds_found chultarvi_bounds_both(const uint8_t *text, size_t text_len, const uint8_t *book, size_t book_len, const uint8_t *second,
                                             size_t second_len, size_t start, size_t end, uint32_t number, uint8_t *area, size_t area_len,
                                             uint32_t *words, size_t words_len);
chultarvi_text_named chultarvi_name_stored_both(const uint8_t *book, size_t book_len, const uint8_t *second, size_t second_len, uint32_t number);

chultarvi_note_scanned chultarvi_eliminate_both(const uint8_t *text, size_t text_len, const uint8_t *book, size_t book_len, const uint8_t *second,
                                                size_t second_len, float threshold, float shallow, bool optimize, uint16_t passes, uint64_t budget,
                                                uint8_t *area, size_t area_len, uint32_t *words, size_t words_len, uint32_t *results,
                                                size_t results_len);
chultarvi_note_scanned chultarvi_top_down_both(const uint8_t *text, size_t text_len, const uint8_t *book, size_t book_len, const uint8_t *second,
                                               size_t second_len, float threshold, float shallow, uint64_t step, uint64_t budget, uint8_t *area,
                                               size_t area_len, uint32_t *words, size_t words_len, uint32_t *results, size_t results_len);

/* One allowance for many scans, those of a whole Save: set cap, how many scorings they may make together, and used, 0, once, and lend it to each scan
   in turn. Its budget is cap less used as it finds them, and used grows by its count; cap is never written. All else, the answer, records, results and
   areas, is as of the plain call with this budget (proved: allowed_as_plain, allowed-count). So used is the sum of all counts: 12 leaves it equal to cap
   (over_fills), each other refusal as it was (else_free), and where it is at most cap it stays so (used_most; all five crates/allowance/proofs, of what
   these calls promise). Equal to cap is a budget of 0, which pays for no scan: 12, with count 0 (cap_stops,
   crates/allowance_job/proofs). Above cap is refused by 17, after 10 and before 12.
   The allowance is not null and is aligned as C has it; it overlaps nothing else that is lent, and no two threads lend the same one at once. Calls that
   are no scan charge nothing; who wants chultarvi_score in the sum adds 1 to used where it is below cap. */
typedef struct { uint64_t cap, used; } chultarvi_allowance;

/* Each scan with an allowance in the place of its budget. Refusals as of that scan, and 17. chultarvi_scan_allowed is the one that the archive has, the
   four others are names for it: the second book's bytes are looked at only where `two` is true (where there is none lend null and 0), step
   only where `top_down` is true, optimize and passes only where it is false. */
chultarvi_note_scanned chultarvi_scan_allowed(const uint8_t *text, size_t text_len, const uint8_t *book, size_t book_len, const uint8_t *second,
                                              size_t second_len, bool two, bool top_down, float threshold, float shallow, bool optimize,
                                              uint16_t passes, uint64_t step, chultarvi_allowance *allowance, uint8_t *area, size_t area_len,
                                              uint32_t *words, size_t words_len, uint32_t *results, size_t results_len);
static inline chultarvi_note_scanned chultarvi_eliminate_allowed(const uint8_t *text, size_t text_len, const uint8_t *book, size_t book_len,
                                                                 float threshold, float shallow, bool optimize, uint16_t passes,
                                                                 chultarvi_allowance *allowance, uint8_t *area, size_t area_len, uint32_t *words,
                                                                 size_t words_len, uint32_t *results, size_t results_len)
{
    return chultarvi_scan_allowed(text, text_len, book, book_len, 0, 0, false, false, threshold, shallow, optimize, passes, 0, allowance, area, area_len,
                                  words, words_len, results, results_len);
}
static inline chultarvi_note_scanned chultarvi_top_down_allowed(const uint8_t *text, size_t text_len, const uint8_t *book, size_t book_len,
                                                                float threshold, float shallow, uint64_t step, chultarvi_allowance *allowance,
                                                                uint8_t *area, size_t area_len, uint32_t *words, size_t words_len,
                                                                uint32_t *results, size_t results_len)
{
    return chultarvi_scan_allowed(text, text_len, book, book_len, 0, 0, false, true, threshold, shallow, false, 0, step, allowance, area, area_len, words,
                                  words_len, results, results_len);
}
static inline chultarvi_note_scanned chultarvi_eliminate_both_allowed(const uint8_t *text, size_t text_len, const uint8_t *book, size_t book_len,
                                                                      const uint8_t *second, size_t second_len, float threshold, float shallow,
                                                                      bool optimize, uint16_t passes, chultarvi_allowance *allowance, uint8_t *area,
                                                                      size_t area_len, uint32_t *words, size_t words_len, uint32_t *results,
                                                                      size_t results_len)
{
    return chultarvi_scan_allowed(text, text_len, book, book_len, second, second_len, true, false, threshold, shallow, optimize, passes, 0, allowance,
                                  area, area_len, words, words_len, results, results_len);
}
static inline chultarvi_note_scanned chultarvi_top_down_both_allowed(const uint8_t *text, size_t text_len, const uint8_t *book, size_t book_len,
                                                                     const uint8_t *second, size_t second_len, float threshold, float shallow,
                                                                     uint64_t step, chultarvi_allowance *allowance, uint8_t *area, size_t area_len,
                                                                     uint32_t *words, size_t words_len, uint32_t *results, size_t results_len)
{
    return chultarvi_scan_allowed(text, text_len, book, book_len, second, second_len, true, true, threshold, shallow, false, 0, step, allowance, area,
                                  area_len, words, words_len, results, results_len);
}

/* The name without a copy: its first byte in the book that holds it, of those that the call was lent; `len` bytes follow from there. With one book
   `second` is not looked at and may be null. Where there is no name it is the first book's start, so null where that is null. chultarvi_name takes a
   scan's answer, chultarvi_stored_name that of a stored text's number; chultarvi_byte_at is what both do. */
static inline const uint8_t *chultarvi_byte_at(const uint8_t *book, const uint8_t *second, bool in_second, size_t at)
{
    const uint8_t *holder = in_second ? second : book;
    return at ? holder + at : holder;
}
static inline const uint8_t *chultarvi_name(const uint8_t *book, const uint8_t *second, const chultarvi_note_scanned *answer)
{
    return chultarvi_byte_at(book, second, answer->second, answer->name_at);
}
static inline const uint8_t *chultarvi_stored_name(const uint8_t *book, const uint8_t *second, const chultarvi_text_named *answer)
{
    return chultarvi_byte_at(book, second, answer->second, answer->name_at);
}

/* Licence expressions, such as `MIT OR (Apache-2.0 AND BSD-3-Clause)`, by the annex on them of SPDX 2.3. They have nothing to do with books, and no area is
   lent for them; text and list have any length and any bytes.
     name        one or more of A-Z a-z 0-9 - .
     part        a name other than AND, OR and WITH that begins neither with LicenseRef- nor with DocumentRef-; `+` may follow it, with no blank between.
                 Or a reference: LicenseRef- and a name, before which DocumentRef-, a name and a colon may stand; no `+` follows it
                 Behind either, once, may stand WITH, blanks on both its sides, and an exception: a name other than AND, OR and WITH
     expression  parts joined by AND and OR, each with a blank or a parenthesis on both its sides; AND binds before OR. Parentheses hold an expression again,
                 and no WITH follows them
   Names are judged by their form, not by SPDX's list. The three words are in capitals, and LicenseRef- and DocumentRef- as they stand here; blanks are byte
   32, any number, at both ends too.
   Refusals: 13, no expression; `place` is the first byte with which no expression begins, counted from 0, and text_len where it breaks off (proved:
   first_bad, crates/expression_place/proofs). 14: at `place` stands a parenthesis that could go on but finds 32 open. 11, after these: out is shorter
   than what would be written. */

/* Does a list of accepted parts satisfy the text? A list has a part a line (byte 10 between), each as it would be written: single blanks, none at an
   end, and so no carriage return. A line that is none, an empty one too, accepts nothing. A part is met by its equal alone, identifier, `+` and exception,
   letters A-Z as a-z: GPL-2.0+ not by GPL-2.0. satisfied is false where it is refused, by 13 or 14. The time grows with the parts of the text times
   the bytes of the list. Text and list may be the same memory: one line satisfies itself exactly if it is a part as it would be written (proved:
   line_itself, crates/expression_place/proofs). */
typedef struct { uint32_t refusal; bool satisfied; size_t place; } chultarvi_expression_satisfied;
chultarvi_expression_satisfied chultarvi_satisfy(const uint8_t *text, size_t text_len, const uint8_t *list, size_t list_len);

/* Writes the text back: single blanks, parts and operators in their order and letters, parentheses only round an OR under an AND. The same lists satisfy
   it, and written again it stays (proved: written_same, written_again, crates/expression_job/proofs). It stands at the front of out; len: its bytes, at most
   CHULTARVI_SPELLED_MOST of text_len, so that an out of as many is never too short (proved: written-most, room-enough). Where it is refused len is 0 and
   nothing is written. Refusals 13, 14, then 11. */
#define CHULTARVI_SPELLED_MOST(n) ((n) + (n) / 5)
typedef struct { uint32_t refusal; size_t place, len; } chultarvi_expression_spelled;
chultarvi_expression_spelled chultarvi_write_expression(const uint8_t *text, size_t text_len, uint8_t *out, size_t out_len);

#ifdef __cplusplus
}
#endif
#endif
