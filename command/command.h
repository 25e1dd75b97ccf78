/* What the parts of the command share. Each part is a file of its own name. */
#ifndef COMMAND_H
#define COMMAND_H

#include "model.h"
#include "table.h"

/* The exit status, and what became of one file. */
enum status { DONE = 0, REFUSED = 1, COULD_NOT = 2 };

/* options.c: the words behind the command's name. */
struct options {
    const char *model;
    char **files;
    size_t count;
    size_t width;
    unsigned jobs;
    int json, help;
    const char *output, *csv; /* NULL where not given */
};
enum { OPTION_JOBS = 1, OPTION_JSON = 2, OPTION_WIDTH = 4, OPTION_OUTPUT = 8, OPTION_CSV = 16, OPTION_HELP = 32 };
/* Takes the words of a command that has these options; DONE, or COULD_NOT once it is told on standard error. */
enum status options_of(struct options *options, unsigned flags, char **words, int count);
/* Whether it has a model and so many files, and standard input at most once; the same answers. */
enum status options_fit(const struct options *options, size_t least, size_t most, const char *needs);
/* Tells on standard error what is wrong, and with which word; COULD_NOT. */
enum status wrong_usage(const char *what, const char *word);

/* text.c: bytes put behind one another, kept, or written to a descriptor once they are many. */
struct text {
    int to;       /* the descriptor, or -1: keep them */
    int error;    /* the errno of the first failure, no memory too; nothing is put behind it */
    char *bytes;
    size_t length, room;
};
#define TEXT_TO(descriptor) {(descriptor), 0, 0, 0, 0}
#define TEXT_KEPT TEXT_TO(-1)
void put_bytes(struct text *text, const void *bytes, size_t length);
void put(struct text *text, const char *words);
void put_name(struct text *text, struct vendorfinch_name name);
void put_number(struct text *text, int64_t number);
/* The digits of a number, at least so many. */
void put_digits(struct text *text, uint64_t number, unsigned least);
/* A scaled value: 205 with one decimal is 20.5. */
void put_scaled(struct text *text, int64_t value, unsigned decimals);
/* A byte of a transfer file, ISO 8859-1, as UTF-8. */
void put_latin(struct text *text, uint8_t byte);
/* Writes what is still kept to the descriptor and gives the memory back. 0, or the errno of the first failure. */
int text_end(struct text *text);
/* The same, and goes on. */
int text_flush(struct text *text);
/* Gives the memory back and writes nothing. */
void text_free(struct text *text);
/* Ends what goes to standard output: the status, or COULD_NOT once it is told why. */
enum status end_output(struct text *out, enum status status);

/* input.c: the bytes of a file, or of standard input for "-". */
struct bytes {
    uint8_t *bytes;
    size_t length;
};
/* Reads at most `most` bytes and one more. 0, or an errno. */
int load(const char *name, size_t most, struct bytes *into);
#define MOST_OF_MODEL 65536
#define MOST_OF_FILE 16777216

/* output.c: a file that appears whole or not at all; a device or a pipe is written to as it is. */
struct output {
    char *name, *temporary; /* NULL for a device or a pipe */
    int to;
};
/* Each 0 or an errno. Opened, it is written to through `to`; ended, it is on the disk; kept, it has its name; settled,
 * its name is on the disk too. */
int output_open(struct output *output, const char *name);
int output_end(struct output *output);
int output_keep(struct output *output);
int output_settle(const struct output *output);
/* Settles all names of a folder at once. */
int folder_sync(const char *folder);
/* Gives all back; what was not kept is gone, and what stood there before still stands. */
void output_drop(struct output *output);

/* place.c: where a refusal is, for people: nothing here decides about a file. */
struct refusal {
    int number;
    uint64_t place[2];
};
struct place {
    uint64_t line;               /* the logical line, 0 where there is none */
    uint64_t first, last, lines; /* its physical lines, 0 0 where no line is left; how many there are up to them */
    uint64_t at;                 /* the physical one with the fault, for 3, 4 and 5; else 0 */
    uint8_t *shown;              /* the line to show, or NULL; the caller's to free */
    size_t length;
    size_t from, count;          /* its part to mark, from 0; a missing field has none */
};
/* 0, or the errno of no memory, and then there is nothing in the place. */
int place_of(struct place *place, const struct refusal *refusal, const struct bytes *model, const struct bytes *file);

/* refusal.c: a refusal in words, as the man page says it. */
void put_refusal(struct text *text, const char *name, const struct refusal *refusal, const struct place *place);
/* The members of its JSON object behind "status". */
void put_refusal_json(struct text *text, const struct refusal *refusal, const struct place *place);

/* names.c: a file's name; control characters, and what is not UTF-8, as \x and two digits for each byte. */
void put_path(struct text *text, const char *name);
/* A string of JSON: what is UTF-8 as it is, any other byte as \udc80 to \udcff. */
void put_json_path(struct text *text, const char *name);
void put_json_latin(struct text *text, const uint8_t *bytes, size_t length);

/* reading.c: a model and the one file of a command, read into a table. */
struct reading {
    struct bytes model, file;
    struct vendorfinch_table table;
    int number; /* the refusal, or 0 */
};
/* The bytes alone, nothing read. */
enum status reading_load(struct reading *reading, const struct options *options);
/* DONE; or the status, once it is told on standard error. To be closed in either case. */
enum status reading_open(struct reading *reading, const struct options *options);
void reading_close(struct reading *reading);
/* Tells on standard error that the file is refused; REFUSED, or COULD_NOT without memory. */
enum status refused(const struct reading *reading, const char *name);
/* Tells on standard error why a name could not be read or written; COULD_NOT. */
enum status could_not(const char *name, int error);
void put_could_not(struct text *text, const char *name, int error);

/* files.c: the work of a command on each of its files, several at a time, answered in order. */
struct job {
    const struct options *options;
    const struct bytes *model;
    const char *name;
    struct bytes file;
    struct vendorfinch_table table; /* kept from file to file */
    struct text report;
};
/* What became of a file, once it is in the report. */
typedef enum status task(struct job *job);
enum status each_file(const struct options *options, task *each, const char *good);

/* read.c: reads the job's file into its table; what is wrong is in the report then. */
enum status read_file(struct job *job);
/* The parts of a report: name and status, counts of a table, its end; or all of one. */
void report_begin(struct job *job, const char *status);
void put_counts(struct text *text, const struct vendorfinch_table *table, int json);
void report_end(struct job *job);
enum status report_error(struct job *job, int error);
enum status report_refusal(struct job *job, int number);

/* The commands, each in the file of its name. */
enum status check(const struct options *options);
enum status read_files(const struct options *options);
enum status verify(const struct options *options);
enum status list(const struct options *options);
enum status unfold(const struct options *options);
enum status write_out(const struct options *options);
enum status export(const struct options *options);

#endif
