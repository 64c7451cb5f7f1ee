// doortumble: what is in a Windows event log, and what is broken in it. A thin program over libdoortumble.a: the calls read the
// format, and this reads files, prints and counts.
#include <errno.h>
#include <fcntl.h>
#include <signal.h>
#include <stdio.h>
#include <string.h>
#include <unistd.h>

#include "job.h"
#include "when.h"
#include "workers.h"

#ifndef DOORTUMBLE_VERSION
#define DOORTUMBLE_VERSION "not given"
#endif

static const char help[] =
    "usage: doortumble list [OPTION]... FILE...   the records, live and carved, and what cannot be read\n"
    "       doortumble show [OPTION]... FILE...   what each record says: its values, by element and attribute\n"
    "       doortumble info [OPTION]... FILE...   the header, the chunks, checksums, gaps in IDs and times\n"
    "       doortumble --help | --version\n"
    "\n"
    "Reads Windows event logs (.evtx), sound or damaged. FILE '-' is standard input.\n"
    "\n"
    "Options:\n"
    "    --json          an object a line, instead of text\n"
    "    --csv           a line of names, then a line a row, instead of text\n"
    "    --no-recovery   do not look for old records where no live one stands\n"
    "    --              what follows is a file, whatever it begins with\n"
    "Of show:\n"
    "    --id N          only the record with this ID\n"
    "    --from TIME     only records from this time on, UTC: 2025-01-15, 2025-01-15T03:01:41.5, or ticks\n"
    "    --to TIME       only records up to this time; a day, minute or second is meant with all of it\n"
    "    --live          only records that belong to the log, as --no-recovery\n"
    "    --tokens        instead of values the tokens, each below its owner\n"
    "\n"
    "What a line is about:\n"
    "    live      a record that belongs to the log\n"
    "    carved    an old record, found where no live one stands: not part of the log any more\n"
    "    refused   something that cannot be read: its number, its place, and what happened\n"
    "    empty     chunks of zeros: no damage\n"
    "    total     the counts, the last line of a file. Without it the output is not complete\n"
    "Offsets are bytes from the start of the file, places bytes from the start of the chunk. Times are UTC.\n"
    "\n"
    "Exit status, the highest over all files:\n"
    "    0  everything was read\n"
    "    1  something was refused, and said; the rest was read\n"
    "    2  a file is no event log\n"
    "    4  wrong usage, or something could not be read or written\n"
    "\n"
    "'man doortumble' has examples, and what each field of --json and --csv is.\n";

static const struct view *const views[] = {&list_view, &show_view, &info_view};

static struct job job; // too large for a stack
static char printed[65536]; // lent to its output
static char said[BUFSIZ];   // lent to stderr, so that no thread asks for memory there

// ----------------------------------------------------------------------------------------------------------------- usage

static enum status tell_usage(const char *what, const char *word, const char *next)
{
    tell(&job, "%s%s%s. 'doortumble --help' shows all of it.", what, word, next);
    return FAILED;
}

static const struct view *view_of(const char *verb)
{
    size_t n;

    for (n = 0; n < sizeof views / sizeof *views; n++)
        if (strcmp(views[n]->verb, verb) == 0)
            return views[n];
    return NULL;
}

static enum status set_form(enum form_kind kind)
{
    if (job.form.kind != FORM_TEXT && job.form.kind != kind)
        return tell_usage("--json and --csv", "", " cannot both be had: choose one");
    job.form.kind = kind;
    return ALL_READ;
}

// Options of show that stand alone. Not 0 where this is one.
static int set_shown(const char *option)
{
    if (!job.view->reads)
        return 0;
    if (strcmp(option, "--live") == 0) {
        job.recovery = 0;
        return 1;
    }
    if (strcmp(option, "--tokens") != 0)
        return 0;
    job.tokens = 1;
    return 1;
}

static enum status set_option(const char *option)
{
    if (strcmp(option, "--json") == 0)
        return set_form(FORM_JSON);
    if (strcmp(option, "--csv") == 0)
        return set_form(FORM_CSV);
    if (strcmp(option, "--no-recovery") != 0 && !set_shown(option))
        return tell_usage("there is no option ", option, "; a file whose name begins so goes behind '--'");
    if (strcmp(option, "--no-recovery") == 0)
        job.recovery = 0;
    return ALL_READ;
}

// Options of show with a value.
static int takes_value(const char *option)
{
    return job.view->reads && (strcmp(option, "--id") == 0 || strcmp(option, "--from") == 0 || strcmp(option, "--to") == 0);
}

static enum status set_value(const char *option, const char *value)
{
    struct span span;

    if (value == NULL)
        return tell_usage("behind ", option, " its value is missing");
    if (strcmp(option, "--id") == 0) {
        job.filter.by_id = 1;
        return read_number(value, &job.filter.id) ? ALL_READ : tell_usage("no record has the ID ", value, ": it is a whole number");
    }
    if (!read_span(value, &span))
        return tell_usage("there is no time ", value, ": it is written as 2025-01-15 or 2025-01-15T03:01:41.5, in UTC, or in ticks");
    if (strcmp(option, "--from") == 0)
        job.filter.from = span.first;
    else
        job.filter.to = span.last;
    return ALL_READ;
}

// Takes the options out of the arguments, and leaves the files. Answers how many these are; -1 where an option is wrong.
static int take_options(char **arguments)
{
    int files = 0;
    int options = 1; // they can still come
    char **argument;

    for (argument = arguments; *argument != NULL; argument++)
        if (options && strcmp(*argument, "--") == 0)
            options = 0;
        else if (!options || (*argument)[0] != '-' || (*argument)[1] == 0)
            arguments[files++] = *argument;
        else if (takes_value(*argument) ? set_value(argument[0], argument[1]) : set_option(*argument))
            return -1;
        else if (takes_value(*argument))
            argument++;
    arguments[files] = NULL;
    return files;
}

// ---------------------------------------------------------------------------------------------------------------- output

// Output that did not arrive is a failure, whatever was read.
static enum status end_output(enum status status)
{
    if (!out_end(&job.out))
        return status;
    if (job.out.error == EPIPE)
        tell(&job, "the output is not complete: the program that it went to has closed its end. Let that one read to the end.");
    else
        tell(&job, "the output is not complete: it could not be written: %s. Make room where it goes, and run again.",
             strerror(job.out.error));
    return FAILED;
}

static enum status read_files(char **files)
{
    enum status status = ALL_READ;

    form_head(&job.form);
    for (; *files != NULL && job.out.error == 0; files++)
        status = worse(status, read_file(&job, *files));
    return status;
}

// -------------------------------------------------------------------------------------------------------------- program

// Descriptors that the caller has closed are taken, so that no log is opened under their numbers. What is written there fails.
static void take_descriptors(void)
{
    int descriptor;

    do
        descriptor = open("/dev/null", O_RDONLY);
    while (descriptor >= 0 && descriptor <= STDERR_FILENO);
    if (descriptor >= 0)
        close(descriptor);
}

static enum status run_view(const char *verb, char **arguments)
{
    int files;

    job.view = view_of(verb);
    if (job.view == NULL)
        return tell_usage("there is no subcommand ", verb, "; 'doortumble list FILE' lists a log");
    job.form.names = job.view->names;
    files = take_options(arguments);
    if (files == 0)
        return tell_usage("name a file, or '-' for standard input: doortumble ", verb, " FILE");
    if (job.tokens && job.form.kind != FORM_TEXT)
        return tell_usage("--tokens", "", " are shown as text: leave --json and --csv out");
    job.several = files > 1;
    return files < 0 ? FAILED : read_files(arguments);
}

static int asks_help(char **arguments)
{
    for (; *arguments != NULL && strcmp(*arguments, "--") != 0; arguments++)
        if (strcmp(*arguments, "--help") == 0 || strcmp(*arguments, "-h") == 0)
            return 1;
    return 0;
}

static enum status run(char **arguments)
{
    if (asks_help(arguments))
        out_text(&job.out, help);
    else if (*arguments != NULL && strcmp(*arguments, "--version") == 0)
        out_text(&job.out, "doortumble " DOORTUMBLE_VERSION "\n");
    else if (*arguments == NULL)
        return tell_usage("say what to do with which file, as in 'doortumble list FILE'", "", "");
    else
        return run_view(*arguments, arguments + 1);
    return ALL_READ;
}

int main(int count, char **arguments)
{
    enum status status;

    take_descriptors();
    signal(SIGPIPE, SIG_IGN); // a closed pipe is then a write that fails, and is told
    setvbuf(stderr, said, _IOLBF, sizeof said); // a line at a time, also where several programs write there
    out_start(&job.out, STDOUT_FILENO, printed, sizeof printed);
    job.form.out = &job.out;
    job.recovery = 1;
    job.filter.to = UINT64_MAX;
    progress_start(&job.progress);
    status = end_output(run(count > 0 ? arguments + 1 : arguments));
    workers_end();
    return (int)status;
}
