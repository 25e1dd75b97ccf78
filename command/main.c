/* vendorfinch: the command's ways and its help. */
#include "command.h"

#include <fcntl.h>
#include <string.h>
#include <unistd.h>

static const struct way {
    const char *name;
    enum status (*run)(const struct options *);
    unsigned options;
    size_t least, most; /* files */
    const char *needs, *what;
} ways[] = {
    {"check", check, 0, 0, 0, "MODEL", "what a compiled model has, or where it is bad"},
    {"read", read_files, OPTION_JOBS | OPTION_JSON, 1, (size_t)-1, "[--jobs N] [--json] MODEL FILE...",
     "read each file, and say what is wrong with it and where"},
    {"list", list, 0, 1, 1, "MODEL FILE", "the table as numbers: answer, rows, points"},
    {"unfold", unfold, 0, 1, 1, "MODEL FILE", "the logical lines"},
    {"write", write_out, OPTION_WIDTH | OPTION_OUTPUT, 1, 1, "[--width N] [-o OUT] MODEL FILE",
     "write the table anew, for the archive"},
    {"verify", verify, OPTION_WIDTH | OPTION_JOBS | OPTION_JSON, 1, (size_t)-1,
     "[--width N] [--jobs N] [--json] MODEL FILE...", "read, write, read again and compare"},
    {"export", export, OPTION_CSV, 1, 1, "--csv DIR MODEL FILE", "a CSV file for each table, as GDAL and QGIS read it"},
};
enum { WAYS = sizeof ways / sizeof *ways };

static void put_usage(struct text *out, const struct way *way)
{
    put(out, "  vendorfinch ");
    put(out, way->name);
    put(out, " ");
    put(out, way->needs);
    put(out, "\n        ");
    put(out, way->what);
    put(out, "\n");
}

/* The help on one way, or on all. */
static enum status help(const struct way *one)
{
    struct text out = TEXT_TO(1);
    put(&out, "vendorfinch: the proved intake of INTERLIS 1 transfer files\n\n");
    for (int i = 0; i < WAYS; i++)
        if (!one || one == &ways[i])
            put_usage(&out, &ways[i]);
    put(&out, "\nMODEL is a compiled model, FILE a transfer file; one of them may be -, standard input.\n\n"
              "  -j, --jobs N      so many files at a time, 1 to 256; 1 if not given\n"
              "  --json            an object in a line for each file\n"
              "  --width N         the longest line, 16 to 65535; 80 if not given\n"
              "  -o, --output OUT  the file to write, whole or not at all; - is standard output\n"
              "  --csv DIR         the folder for the CSV files\n"
              "  --                behind it all words are names\n\n"
              "Status: 0 done, 1 refused, 2 could not. More: man vendorfinch.\n");
    return end_output(&out, DONE);
}

static enum status version(void)
{
    struct text out = TEXT_TO(1);
    put(&out, "vendorfinch " VENDORFINCH_VERSION "\n");
    return end_output(&out, DONE);
}

static enum status run(const struct way *way, char **words, int count)
{
    struct options options = {.width = 80, .jobs = 1};
    enum status status = options_of(&options, way->options | OPTION_HELP, words, count);
    if (status == DONE && options.help)
        return help(way);
    if (status == DONE)
        status = options_fit(&options, way->least, way->most, way->needs);
    if (status == DONE && way->options == OPTION_CSV && !options.csv)
        status = wrong_usage("this needs ", way->needs);
    return status == DONE ? way->run(&options) : status;
}

/* A standard descriptor that is closed gets the root folder: no file gets its number, and to read, write or open it
 * again fails. */
static void hold_descriptors(void)
{
    int opened;
    do
        opened = open("/", O_PATH);
    while (opened >= 0 && opened <= STDERR_FILENO);
    if (opened >= 0)
        close(opened);
}

int main(int count, char **words)
{
    hold_descriptors();
    if (count < 2)
        return wrong_usage("no command", "");
    if (strcmp(words[1], "--help") == 0 || strcmp(words[1], "-h") == 0 || strcmp(words[1], "help") == 0)
        return help(NULL);
    if (strcmp(words[1], "--version") == 0)
        return version();
    for (int i = 0; i < WAYS; i++)
        if (strcmp(words[1], ways[i].name) == 0)
            return run(&ways[i], words + 2, count - 2);
    return wrong_usage("no such command: ", words[1]);
}
