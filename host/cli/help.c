/* The help texts: one for the program, one for each command. */
#include "host.h"
#include <string.h>

#define STATUS                                                                                                                     \
    "Exit status: 0 all is answered; 1 something was refused, not satisfied, or stopped by the budget or the allowance; 2 wrong usage, " \
    "or trouble with a file.\n"
#define ENDING "Options stand before or behind the names; '--' ends them. -h and --help print this.\n" STATUS

#define EDITIONS ": 1, the digit 4 counts as a space; 2, it stays; 3, it stays, and UTF-8 up to U+00FF is taken (1)"

static const char program_help[] =
    "Chultarvi says which licence a note holds, its score and its lines.\n"
    "\n"
    "  chultarvi scan [options] BOOK NOTE...   scan notes against a book, or against two\n"
    "  chultarvi list BOOK [--json]            the licences of a book, their texts and aliases\n"
    "  chultarvi check BOOK...                 are books sound, how many licences and texts, which edition?\n"
    "  chultarvi book OUT LIST                 make a book from a list of lines NAME KIND FILE\n"
    "  chultarvi compile TEXT [-o OUT]         the table of a text: its size; its bytes into OUT\n"
    "  chultarvi expression EXPRESSION...      licence expressions as they are written; whether accepted parts satisfy them\n"
    "  chultarvi COMMAND --help                the options of a command, and what it prints\n"
    "  chultarvi --help | --version\n"
    "\n"
    "'-' reads standard input, once. A name that begins with '-' stands after '--', or as ./-NAME.\n"
    "Texts have at most 1,048,576 bytes and 65,536 lines. Books have at most 16,777,216 bytes and 1,024 texts.\n"
    "A note is read by the edition of its book: in edition 1 the digit 4 counts as a space, from 2 on as a digit; editions 1 and 2 take\n"
    "ASCII, edition 3 takes UTF-8 up to U+00FF, accents that is. The default book, " DEFAULT_BOOK ", is of edition 3.\n"
    "\n" STATUS;

static const char scan_help[] =
    "chultarvi scan [options] BOOK NOTE...\n"
    "\n"
    "Says of each note which licence of the book it holds as a whole, and in which lines it holds which. On equal scores an original\n"
    "beats an alternate, an alternate a header; only then the text that stands first.\n"
    "\n"
    "  --beside BOOK2    scan against this book too, and say of each licence which book holds it; of equal scores and kinds BOOK's wins.\n"
    "                    Both are of one edition\n"
    "  --threshold X     a licence is named above this score (0.9)\n"
    "  --shallow X       above this score a note is one licence as a whole, and no ranges are looked for (0.99)\n"
    "  --passes N        at most this many ranges, up to 65535 (10)\n"
    "  --no-optimize     look for no ranges\n"
    "  --top-down STEP   look for ranges from the first line on, growing by STEP lines, and for no licence of the whole\n"
    "  --thorough        look for further licences in the lines that no range holds\n"
    "  --second          show the next licence too, and its score\n"
    "  --budget N        stop before scoring number N + 1 of a note (no limit)\n"
    "  --allowance N     one number for all notes: stop before scoring number N + 1 of the call, in their order; the last line says how many\n"
    "                    are used, JSON with each note how many until then. Not with --budget, nor with -j above 1\n"
    "  --ascii           map to ASCII or drop what BOOK's edition does not take, and say how many characters that were: in editions 1 and 2\n"
    "                    what is not ASCII, in edition 3 what lies above U+00FF; bytes that are no UTF-8 are read as Latin-1\n"
    "  --show            print the lines of each range, as they stand in the note\n"
    "  --html FILE       write a page too, for a browser: all notes, their ranges marked; those of --top-down also side by side, with a\n"
    "                    threshold above 0.0. FILE is none of the notes, no book, and not where the answers go\n"
    "  -r, --recursive   walk folders; .git, links to folders, large files and what is no file are skipped and counted\n"
    "  -j, --jobs N      scan with N threads, up to 256 (1)\n"
    "  --json            one line of JSON for each note\n"
    "\n"
    "A score is 2m/t: m word pairs shared, t word pairs of both together, of the lines and of the stored text. '2m/t = 2*214/440' is\n"
    "214 pairs shared; JSON has m and t. Of a range they take one scoring more, and are missing where the budget does not pay it.\n"
    "A budget, and an allowance, pays for every scoring: those of m and t, of --thorough and --second, and of a look for a rival too.\n"
    "For people lines count from 1. JSON counts lines from 0 and gives the line after the last; its number of a stored text counts\n"
    "from 0 through BOOK and on into BOOK2. Its start and end are bytes of the file, also with --ascii: where the range's first line\n"
    "starts, and the byte behind its last one, the newline not counted.\n"
    "A shown line stands behind '    | '; there and on a page a control but tab, what turns a line's order round, and a byte that is no\n"
    "UTF-8 are written \\xHH, and of a shown line a backslash twice. --show is for people, and --json says where to cut instead.\n"
    "\n" ENDING;

static const char list_help[] =
    "chultarvi list BOOK [--json]\n"
    "\n"
    "Prints the licences of a book, a line each: its name; of each stored text the kind, how many bigrams (pairs of words) it has and\n"
    "how many of them are distinct; its aliases. The last line says how many licences, texts, aliases and bytes, and the edition.\n"
    "\n"
    "  --json   one line of JSON for each licence, with the numbers of its stored texts and the edition, and no last line\n"
    "\n" ENDING;

static const char check_help[] =
    "chultarvi check BOOK...\n"
    "\n"
    "Says of each book whether it is sound, how many licences and stored texts it has, and its edition. Of several the worst exit\n"
    "status counts.\n"
    "\n" ENDING;

static const char book_help[] =
    "chultarvi book OUT LIST [--ascii] [--edition N]\n"
    "\n"
    "Makes the book OUT from a list of lines NAME KIND FILE, for example 'MIT original texts/mit.txt'. OUT changes only once all is\n"
    "read and the library finds the book sound.\n"
    "\n"
    "KIND is original, alternate, header, or alias, where FILE is the alias itself. Each name has one original. FILE is all that is\n"
    "left of the line, from the folder where the program runs. An empty line and one that begins with '# ' say nothing. Lines may end\n"
    "with CR LF. A text without bigrams and two names with one text are warned of; an original from /dev/null is empty without a word,\n"
    "for a name that has headers alone.\n"
    "\n"
    "  --ascii       map to ASCII or drop what the edition does not take in the texts, as scan does, and say how many characters that were\n"
    "  --edition N   the book's edition" EDITIONS "\n"
    "                A book that is to stand beside the default one is of its edition, 3\n"
    "\n" ENDING;

static const char compile_help[] =
    "chultarvi compile TEXT [-o OUT] [--edition N]\n"
    "\n"
    "Says how large the table of a text is, which is what a book stores of it.\n"
    "\n"
    "  -o OUT        write the table into this file; with '-o -' to standard output, and nothing else\n"
    "  --edition N   for a book of this edition" EDITIONS "\n"
    "\n" ENDING;

static const char expression_help[] =
    "chultarvi expression [--accept LIST]... [--accept-part PART]... [--json] EXPRESSION...\n"
    "\n"
    "Writes licence expressions, such as 'MIT OR (Apache-2.0 AND BSD-3-Clause)', with single blanks and only the parentheses that they\n"
    "need. With accepted parts it says of each whether these satisfy it, and which of its parts are not accepted. '-' reads expressions\n"
    "from standard input, one a line.\n"
    "\n"
    "  --accept LIST        accept the parts of this file, one a line, as they are written here. An empty line and one that begins with '# '\n"
    "                       say nothing, lines may end with CR LF, and a line that is no part is warned of. May stand several times\n"
    "  --accept-part PART   accept this part. May stand several times\n"
    "  --json               one line of JSON for each expression; in it bytes count from 0, and for people from 1\n"
    "\n"
    "A name is of the bytes A-Z a-z 0-9 - . A part is a name, which AND, OR and WITH are not, with '+' right behind it or not; or\n"
    "LicenseRef-NAME or DocumentRef-NAME:LicenseRef-NAME, without '+': a name that begins so must be one of these. Behind a part, once,\n"
    "may stand WITH and an exception, a name, with blanks on both sides of WITH. AND and OR join parts, with a blank or a parenthesis\n"
    "on both sides; AND binds before OR. Parentheses hold an expression again, 32 open at most, and no WITH follows them. The three\n"
    "words are in capitals. Blanks are spaces, no tabs, any number, also at both ends. Names are judged by their form. A part is met\n"
    "by its equal alone, letter case aside: GPL-2.0+ not by GPL-2.0.\n"
    "An expression that begins with '-' stands behind '--'; '-' alone is standard input there too.\n"
    "Lists, and expressions from standard input, have at most 4,194,304 bytes.\n"
    "\n" ENDING;

static const char *help_of(const char *command) {
    static const struct { const char *name, *text; } helps[] = {
        {"scan", scan_help}, {"list", list_help}, {"check", check_help}, {"book", book_help}, {"compile", compile_help},
        {"expression", expression_help},
    };
    if (!command) return program_help;
    for (size_t i = 0; i < sizeof helps / sizeof *helps; i++)
        if (strcmp(command, helps[i].name) == 0) return helps[i].text;
    return 0;
}

bool print_help(const char *command) {
    const char *text = help_of(command);
    if (text) fputs(text, stdout);
    return text != 0;
}

int wrong_words(const char *command, const char *why) {
    say("%s %s; chultarvi %s --help tells more", command, why, command);
    return TROUBLE;
}
