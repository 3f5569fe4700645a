/* The command line of Chultarvi over the archive: the entry, which finds the command. Each command has a file of its own: scan.c, list.c (list and
   check), book.c, compile.c, expression.c; help.c holds the help. Build and run: host/run.sh. */
#include "host.h"
#include <fcntl.h>
#include <signal.h>
#include <string.h>
#include <unistd.h>

static int give_help(const char *command) {
    if (print_help(command)) return DONE;
    say_of(command, "no such command; chultarvi --help tells more");
    return TROUBLE;
}

static bool is_one_of(const char *word, const char *one, const char *two, const char *three) {
    return strcmp(word, one) == 0 || strcmp(word, two) == 0 || strcmp(word, three) == 0;
}

static int run(int count, char **words) {
    static const struct { const char *name; int (*run)(int, char **); } commands[] = {
        {"scan", run_scan}, {"list", run_list}, {"check", run_check}, {"book", run_book}, {"compile", run_compile},
        {"expression", run_expression},
    };
    if (count < 2) {
        say("no command; chultarvi --help tells more");
        return TROUBLE;
    }
    if (is_one_of(words[1], "-h", "--help", "help")) return give_help(count > 2 ? words[2] : 0);
    if (strcmp(words[1], "--version") == 0) {
        puts("chultarvi " VERSION);
        return DONE;
    }
    for (size_t i = 0; i < sizeof commands / sizeof *commands; i++)
        if (strcmp(words[1], commands[i].name) == 0) return commands[i].run(count - 1, words + 1);
    say_of(words[1], "no such command; chultarvi --help tells more");
    return TROUBLE;
}

/* No file may stand where a standard stream is looked for: a closed one is plugged, by an end that can be neither read nor written. */
static void plug_streams(void) {
    for (int stream = STDIN_FILENO; stream <= STDERR_FILENO; stream++)
        if (fcntl(stream, F_GETFD) < 0) open("/dev/null", stream == STDIN_FILENO ? O_WRONLY : O_RDONLY);
}

int main(int count, char **words) {
    plug_streams();
    /* a write over the limit of a file's size is an error, which is said, and not a death */
    signal(SIGXFSZ, SIG_IGN);
    int status = run(count, words);
    /* answers that did not reach their reader are no answers */
    int why = flush_output();
    if (why) say("standard output: %s", strerror(why));
    return why ? TROUBLE : status;
}
