/* The options of the commands list, check, book, compile and expression: each has few, and all read them alike. */
#include "host.h"
#include <getopt.h>
#include <stdlib.h>

/* NAME is getopt's number for a word that is no option. PLACES lies above every byte: a letter that is none comes back as its byte. */
enum { NAME = 1, HELP = 256, PLACES, PLACES_MOST = 4 };

/* What getopt_long wants. The '-' hands names over in their turn, so that no variable of the environment changes where options may stand. */
typedef struct { char letters[4 + 2 * PLACES_MOST]; struct option names[PLACES_MOST + 2]; } tables;

static bool takes_value(const option_place *place) { return place->value || place->values; }

static tables tables_of(const option_place *places, size_t many) {
    tables t = {"-:h", {{"help", no_argument, 0, HELP}}};
    char *letter = t.letters + 3;
    struct option *name = t.names + 1;
    for (size_t i = 0; i < many; i++) {
        if (places[i].letter) *letter++ = places[i].letter;
        if (places[i].letter && takes_value(places + i)) *letter++ = ':';
        if (places[i].name) *name++ = (struct option){places[i].name, takes_value(places + i) ? required_argument : no_argument, 0, PLACES + (int)i};
    }
    return t;
}

/* Which place getopt's number means; null where none. */
static const option_place *place_of(int which, const option_place *places, size_t many) {
    for (size_t i = 0; i < many; i++)
        if (which == PLACES + (int)i || (places[i].letter && which == places[i].letter)) return places + i;
    return 0;
}

/* getopt's own words would name the command as if it were the program. */
static int wrong_option(const char *command, const char *word, int which) {
    const char letter[] = {'-', (char)optopt, 0};
    bool by_letter = optopt > 0 && optopt < HELP;
    const char *why = which == ':' ? "wants a value" : by_letter || optopt == 0 ? "no such option" : "takes no value";
    say_of(by_letter ? letter : word, "%s; chultarvi %s --help tells more", why, command);
    return TROUBLE;
}

/* As people write it: by its long name, or by its letter where it has none. */
static int wrong_value(const char *command, const option_place *place, const char *why) {
    const char letter[] = {place->letter, 0};
    say("%s%s: %s; chultarvi %s --help tells more", place->name ? "--" : "-", place->name ? place->name : letter, why, command);
    return TROUBLE;
}

static int add_value(word_list *values) {
    values->at = more_room(values->at, (values->count + 1) * sizeof *values->at);
    values->at[values->count++] = optarg;
    return DONE;
}

static int fill_place(const char *command, const option_place *place) {
    if (place->given) *place->given = true;
    if (!takes_value(place)) return DONE;
    if (*optarg == 0) return wrong_value(command, place, "wants a value that is not empty");
    if (place->values) return add_value(place->values);
    if (*place->value) return wrong_value(command, place, "stands twice");
    *place->value = optarg;
    return DONE;
}

/* One word's worth: a name goes to its place among the names. False where the reading ends. */
static bool read_one(int which, char **words, int *names, const option_place *place, int *status) {
    if (which == NAME) words[(*names)++] = optarg;
    else if (which == 'h' || which == HELP) return !print_help(words[0]);
    else *status = place ? fill_place(words[0], place) : wrong_option(words[0], words[optind - 1], which);
    return *status == DONE;
}

bool read_options(int *count, char **words, const option_place *places, size_t many, int *status) {
    tables t = tables_of(places, many);
    int names = 1;
    opterr = 0;
    *status = DONE;
    for (int which; (which = getopt_long(*count, words, t.letters, t.names, 0)) != -1;)
        if (!read_one(which, words, &names, place_of(which, places, many), status)) return false;
    while (optind < *count) words[names++] = words[optind++];
    *count = names;
    return true;
}

bool read_edition(const char *command, const char *word, uint32_t *edition) {
    uint64_t number = 1;
    bool good = !word || (read_number(word, CHULTARVI_EDITION_MOST, &number) && number > 0);
    *edition = (uint32_t)number;
    if (!good) say("--edition wants 1, 2 or 3, not '%s'; chultarvi %s --help tells more", word, command);
    return good;
}
