/* The work of a command on each of its files: several at a time, answered in the order of their names. */
#include "command.h"

#include <errno.h>
#include <pthread.h>
#include <stdlib.h>
#include <unistd.h>

/* What became of a file. */
struct result {
    int ready;
    enum status status;
    struct text report;
};

/* What the workers and the one who prints share. */
struct shift {
    const struct options *options;
    const struct bytes *model;
    task *each;
    const char *good;
    struct result *results;
    size_t next; /* the first file that nobody has taken */
    pthread_mutex_t lock;
    pthread_cond_t ready;
};

/* Does one file; only the job's memory is kept. */
static void do_file(struct shift *shift, struct job *job, size_t number)
{
    struct result *result = &shift->results[number];
    struct text report = TEXT_KEPT;
    job->name = shift->options->files[number];
    job->report = report;
    enum status status = shift->each(job);
    if (job->report.error) {
        text_free(&job->report);
        job->report = report;
        status = report_error(job, ENOMEM);
    }
    free(job->file.bytes);
    job->file.bytes = NULL;
    pthread_mutex_lock(&shift->lock);
    result->report = job->report;
    result->status = status;
    result->ready = 1;
    pthread_cond_signal(&shift->ready);
    pthread_mutex_unlock(&shift->lock);
}

static void *work_on(void *argument)
{
    struct shift *shift = argument;
    struct job job = {shift->options, shift->model, NULL, {NULL, 0}, VENDORFINCH_NO_TABLE, TEXT_KEPT};
    for (;;) {
        pthread_mutex_lock(&shift->lock);
        size_t number = shift->next++;
        pthread_mutex_unlock(&shift->lock);
        if (number >= shift->options->count)
            break;
        do_file(shift, &job, number);
    }
    vendorfinch_table_free(&job.table);
    return NULL;
}

/* How far it is, on a terminal; nothing where it is done. */
static void show_progress(size_t done, size_t count)
{
    struct text told = TEXT_TO(2);
    put(&told, "\r\033[K");
    if (done < count) {
        put_number(&told, (int64_t)done);
        put(&told, " of ");
        put_number(&told, (int64_t)count);
        put(&told, " files");
    }
    text_end(&told);
}

/* A report goes to standard output; one of a file that could not be read to standard error, unless machines read it. */
static void print_report(const struct options *options, struct result *result, struct text *out)
{
    struct text told = TEXT_TO(2);
    if (result->status != COULD_NOT || options->json)
        put_bytes(out, result->report.bytes, result->report.length);
    text_flush(out);
    if (result->status == COULD_NOT && !options->json)
        put_bytes(&told, result->report.bytes, result->report.length);
    if (result->report.error)
        put(&told, "vendorfinch: no memory for a report\n");
    text_end(&told);
    text_free(&result->report);
}

static void wait_for(struct shift *shift, size_t number)
{
    pthread_mutex_lock(&shift->lock);
    while (!shift->results[number].ready)
        pthread_cond_wait(&shift->ready, &shift->lock);
    pthread_mutex_unlock(&shift->lock);
}

static void put_summary(struct text *out, const struct shift *shift, const size_t counts[3])
{
    const char *words[3] = {shift->good, "refused", "not read"};
    put_number(out, (int64_t)shift->options->count);
    put(out, " files");
    for (int i = 0; i < 3; i++) {
        put(out, i ? ", " : ": ");
        put_number(out, (int64_t)counts[i]);
        put(out, " ");
        put(out, words[i]);
    }
    put(out, "\n");
}

/* Prints what becomes of each file, once it is known; without workers it does the work itself. */
static enum status print_all(struct shift *shift, int workers)
{
    const struct options *options = shift->options;
    struct text out = TEXT_TO(1);
    struct job job = {options, shift->model, NULL, {NULL, 0}, VENDORFINCH_NO_TABLE, TEXT_KEPT};
    int terminal = options->count > 1 && isatty(STDERR_FILENO);
    size_t counts[3] = {0, 0, 0};
    for (size_t i = 0; i < options->count && !out.error; i++) {
        if (terminal)
            show_progress(i, options->count);
        if (workers)
            wait_for(shift, i);
        else
            do_file(shift, &job, i);
        if (terminal)
            show_progress(options->count, options->count);
        counts[shift->results[i].status]++;
        print_report(options, &shift->results[i], &out);
    }
    vendorfinch_table_free(&job.table);
    if (options->count > 1 && !options->json)
        put_summary(&out, shift, counts);
    return end_output(&out, counts[COULD_NOT] ? COULD_NOT : counts[REFUSED] ? REFUSED : DONE);
}

/* Starts the workers, prints, and waits for them. */
static enum status work_shift(struct shift *shift)
{
    const struct options *options = shift->options;
    size_t jobs = options->jobs < options->count ? options->jobs : options->count;
    pthread_t workers[256];
    unsigned started = 0;
    if (jobs > 1)
        while (started < jobs && pthread_create(&workers[started], NULL, work_on, shift) == 0)
            started++;
    enum status status = print_all(shift, started > 0);
    pthread_mutex_lock(&shift->lock);
    shift->next = options->count;
    pthread_mutex_unlock(&shift->lock);
    while (started > 0)
        pthread_join(workers[--started], NULL);
    return status;
}

enum status each_file(const struct options *options, task *each, const char *good)
{
    struct bytes model;
    int error = load(options->model, MOST_OF_MODEL, &model);
    if (error)
        return could_not(options->model, error);
    struct shift shift = {options, &model, each, good, calloc(options->count, sizeof *shift.results), 0,
                          PTHREAD_MUTEX_INITIALIZER, PTHREAD_COND_INITIALIZER};
    enum status status = shift.results ? work_shift(&shift) : could_not(options->model, ENOMEM);
    for (size_t i = 0; shift.results && i < options->count; i++)
        text_free(&shift.results[i].report);
    free(shift.results);
    free(model.bytes);
    return status;
}
