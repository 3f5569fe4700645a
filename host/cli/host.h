/* What the files of the command line share: exit statuses, reading and writing of files, words for people and for JSON, and the memory
   that is lent to the library. The library itself is ../../include/chultarvi.h; it allocates nothing and opens no file. */
#ifndef HOST_H
#define HOST_H

#include "../../include/chultarvi.h"
#include <stdarg.h>
#include <stdio.h>
#include <sys/types.h>

#define VERSION CHULTARVI_VERSION

/* Exit statuses. Of several notes the highest counts. */
enum { DONE = 0, REFUSED = 1, TROUBLE = 2 };

enum { KIND_NAME = CHULTARVI_LICENCE_NAME, KIND_ALIAS = CHULTARVI_ALIAS, RECORD_HEAD = CHULTARVI_RECORD_HEAD };

/* Bytes of a text or of a book. */
typedef struct { const uint8_t *bytes; size_t len; } part;

/* files.c */

/* Reads all of a file, or of standard input for "-", but never more than one byte above `most`: that byte suffices for the library to
   refuse it. `to` has room for most + 1 bytes. Gives null, or the reason why it cannot be read. */
const char *read_file(const char *path, uint8_t *to, size_t most, size_t *len);
/* The same of a note: a regular file, or standard input. A folder, a FIFO or a device is not read and never waited for. */
const char *read_note(const char *path, uint8_t *to, size_t most, size_t *len);
/* Writes beside, flushes, renames. Either the file is new and whole, or what stood there still stands and the reason has been said. */
bool write_file(const char *path, const uint8_t *bytes, size_t len);
/* The same of what `fill` writes into a file that is open; it gives false, with errno, where it cannot. */
typedef bool filling(int file, void *with);
bool write_by(const char *path, filling *fill, void *with);
bool write_bytes(int file, part bytes);
/* A file without a name in the folder of a path, to write and to read again: once it is open nothing of it is left, whatever ends the program. -1 with
   errno. */
int open_unnamed(const char *path);
/* `len` bytes from byte `at` on of such a file into another. False with errno. */
bool copy_bytes(int to, int from, off_t at, size_t len);
/* Writes out what standard output holds. Gives 0, or errno's number of the first failure: it stays, since errno is each thread's own and what was not
   written is not tried again. One thread at a time. */
int flush_output(void);

/* lines.c */

/* A list of lines, with a zero byte behind it; null where it cannot be read, which is said. The caller frees it. It has at most LIST_MOST bytes. */
enum { LIST_MOST = 4194304 };
char *read_list(const char *file, size_t *len);
/* Cuts the line at p off the next one, whose beginning it gives; null behind the last. A zero byte stands at `end` and, then, behind the line of `len`
   bytes. A line may end with CR LF. */
char *cut_line(char *p, char *end, size_t *len);
/* Takes the first line off a text, and the newline behind it. */
part take_line(part *text);
/* An empty line and one that begins with `# ` say nothing. (`#` alone begins no comment: `#1` is a name.) */
bool is_comment(const char *line);

/* words.c */

void say(const char *format, ...) __attribute__((format(printf, 1, 2)));
void say_of(const char *name, const char *format, ...) __attribute__((format(printf, 2, 3)));
/* Says why a file cannot be read. Gives the exit status. */
int unreadable(const char *path, const char *why);
/* What stands behind a word that is counted: "s", or nothing behind one. */
const char *plural(size_t count);
/* A file name as a person may see it: controls and bytes that are no UTF-8 are written \n, \t, \xHH, a backslash twice. Or any bytes, so. */
void put_plain(FILE *to, const char *name);
void put_plain_bytes(FILE *to, part bytes);
/* How many bytes the character at p has, where a reader of a text sees it as it is; else 0: a control but tab and newline, what turns the order of a
   line round or ends it (U+061C, U+200E, U+200F, U+2028 to U+202E, U+2066 to U+2069), a byte order mark, a byte that is no UTF-8. */
size_t seen_len(const uint8_t *p, size_t left);
/* A line of a text as a person may see it: what is not seen as it is is written \xHH, byte by byte, a backslash twice. */
void put_line(FILE *to, part line);
/* The same as put_plain_bytes, of at most so many bytes; what is left out is said by two dots. */
void put_short(FILE *to, part bytes, size_t most);
/* A JSON string with its quotes. A byte that is no UTF-8 is written as \udcHH, which says which byte it was. */
void put_json(FILE *to, const char *bytes, size_t len);
const char *kind_words(uint32_t kind);
/* The file name of the default book of an edition, as it is installed; the last edition's is the one to scan with. */
#define DEFAULT_BOOK "debian-3.book"
const char *default_book(uint32_t edition);
bool read_number(const char *word, uint64_t most, uint64_t *number);
bool read_limit(const char *word, float *limit);
enum { MESSAGE_MOST = 320 };
/* What to do next with a text that its edition does not take: where it has a character that edition 3 takes, one that none takes, or no UTF-8. */
typedef struct { const char *wide, *beyond, *no_utf8; } next_steps;
/* A refusal in words, with its number and what to do next; where it is of the text's bytes (2) that is of `next`, after the place. */
void refusal_message(char to[MESSAGE_MOST], uint32_t refusal, const uint8_t *text, size_t len, uint32_t edition, const next_steps *next);
#define MAKE_ANEW "; make it anew by chultarvi book"

/* utf8.c */

/* The edition that takes UTF-8 up to U+00FF; the others take ASCII. */
enum { WIDE_EDITION = 3 };
/* The character at p and how many bytes it has; where that is no UTF-8, 0 bytes and the byte as Latin-1 has it. A surrogate is read as a character. */
uint32_t read_character(const uint8_t *p, size_t left, size_t *bytes);
bool is_surrogate(uint32_t code);
/* Writes a character from U+0080 to U+00FF. */
void put_latin(uint8_t to[2], uint32_t code);
bool is_taken(uint32_t code, uint32_t edition);
/* The first byte of what the edition does not take, a character or a byte that is no UTF-8; len where there is none. */
size_t first_refused(const uint8_t *text, size_t len, uint32_t edition);
/* Of characters that are taken. */
bool is_space(uint32_t code);
bool is_letter_or_digit(uint32_t code);

/* ascii.c */

/* Writes a text as its edition takes it: what is taken stays, what has a like in ASCII becomes that, the rest goes. Lines stay. Gives how many characters
   it changed; `len` is the length written. `to` has room for one byte more than a text may have; a text that is longer, or grows longer, fills it, to be
   refused by its length. */
size_t to_taken(const uint8_t *from, size_t from_len, uint32_t edition, uint8_t *to, size_t *len);

/* memory.c */

/* Lent to the library again and again. All of it is taken at the start, for the largest text; of each area a call is lent only what its text
   needs, since the library clears what it is lent. */
typedef struct { uint8_t *text, *area; uint32_t *words; } memory;
/* Room, or the end of the program with a word; `more_room` keeps what stood there. */
void *take(size_t bytes);
void *more_room(void *at, size_t bytes);
memory take_memory(void);
size_t lent_bytes(size_t text_len);
size_t lent_words(size_t text_len);
/* Compiles the text that stands in the memory. */
chultarvi_text_compiled compile_text(const memory *m, size_t text_len, uint32_t edition, uint8_t *out, size_t out_len);
void free_memory(memory *m);

/* The subcommands: each takes its name and what follows it, and gives the exit status. check and list stand in list.c. */
int run_book(int count, char **words);
int run_check(int count, char **words);
int run_compile(int count, char **words);
int run_expression(int count, char **words);
int run_list(int count, char **words);
int run_scan(int count, char **words);

/* stored.c */

/* A book as it was read, whether the library finds it sound, and its edition. */
typedef struct { const char *file; uint8_t *bytes; size_t len; bool sound; uint32_t edition; } lent_book;
/* Reads the file into the room that the book has, CHULTARVI_BOOK_MOST + 1 bytes. Gives null, or the reason why it cannot be read. */
const char *read_book(lent_book *b, const char *file);

/* Of each stored text its licence's name, its book's file, its kind and its table's body, by number. The list of a sound book goes to `to`; gives
   its length. */
typedef struct { const char *name, *book; uint32_t len, kind; const uint8_t *body; uint32_t body_len; } stored_text;
size_t list_stored(const lent_book *book, stored_text *to);

/* help.c */

/* The help of a command, or of the program where it is null, to standard output. False where there is no such command. */
bool print_help(const char *command);
/* Says what is wrong with the words of a command, and where its help is. Gives the exit status. */
int wrong_words(const char *command, const char *why);

/* options.c */

/* The values of an option that may stand several times. */
typedef struct { const char **at; size_t count; } word_list;
/* An option of a command: its letter, its long name or null, and where the value goes, or the values; without a place for one it is a switch. */
typedef struct { char letter; const char *name; const char **value; bool *given; word_list *values; } option_place;
/* Reads a command's options wherever they stand before `--`, and -h and --help of each command. The names that are left follow words[0], and *count
   counts them with it. False where all is said, and *status is the exit status; then there is nothing more to do. */
bool read_options(int *count, char **words, const option_place *places, size_t many, int *status);
/* The edition behind --edition; 1 where the word is null. False where the library has no such edition, which is said. */
bool read_edition(const char *command, const char *word, uint32_t *edition);

#endif
