/* read MODEL FILE..: a line for each file, or what is wrong with it. */
#include "command.h"

#include <errno.h>
#include <stdlib.h>
#include <string.h>

static void put_count(struct text *text, int json, int64_t count, const char *what)
{
    put(text, json ? ", \"" : ", ");
    if (json) {
        put(text, what);
        put(text, "\": ");
    }
    put_number(text, count);
    if (json)
        return;
    put(text, " ");
    put_bytes(text, what, strlen(what) - (count == 1));
}

void put_counts(struct text *text, const struct vendorfinch_table *table, int json)
{
    put_count(text, json, (int64_t)table->objects, "objects");
    put_count(text, json, (int64_t)table->cells_used, "cells");
    put_count(text, json, (int64_t)table->points_used, "points");
}

void report_begin(struct job *job, const char *status)
{
    struct text *report = &job->report;
    if (!job->options->json) {
        put_path(report, job->name);
        put(report, ": ");
        put(report, status);
        return;
    }
    put(report, "{\"file\": ");
    put_json_path(report, job->name);
    put(report, ", \"status\": \"");
    put(report, status);
    put(report, "\"");
}

void report_end(struct job *job)
{
    put(&job->report, job->options->json ? "}\n" : "\n");
}

enum status report_error(struct job *job, int error)
{
    struct text *report = &job->report;
    if (job->options->json) {
        report_begin(job, "error");
        put(report, ", \"words\": ");
        put_json_path(report, strerror(error));
        report_end(job);
        return COULD_NOT;
    }
    put_could_not(report, job->name, error);
    return COULD_NOT;
}

enum status report_refusal(struct job *job, int number)
{
    struct refusal refusal = {number, {job->table.place[0], job->table.place[1]}};
    struct place place;
    int error = place_of(&place, &refusal, job->model, &job->file);
    if (error)
        return report_error(job, error);
    if (job->options->json) {
        report_begin(job, "refused");
        put_refusal_json(&job->report, &refusal, &place);
        report_end(job);
    } else
        put_refusal(&job->report, job->name, &refusal, &place);
    free(place.shown);
    return REFUSED;
}

enum status read_file(struct job *job)
{
    int error = load(job->name, MOST_OF_FILE, &job->file);
    if (error)
        return report_error(job, error);
    int number = vendorfinch_table_read(&job->table, job->model->bytes, job->model->length,
                                        job->file.bytes, job->file.length);
    if (number < 0)
        return report_error(job, ENOMEM);
    return number ? report_refusal(job, number) : DONE;
}

static enum status read_and_report(struct job *job)
{
    enum status status = read_file(job);
    if (status != DONE)
        return status;
    report_begin(job, "read");
    put_counts(&job->report, &job->table, job->options->json);
    report_end(job);
    return DONE;
}

enum status read_files(const struct options *options)
{
    return each_file(options, read_and_report, "read");
}
