// list: a line an answer. Where the record stands in the file, whether it is live or carved, its ID, its time and its size; of
// what was refused the number, the place and why.
#include <string.h>

#include "job.h"

static const char *const names[] = {"file", "what", "offset", "chunk", "id", "time", "ticks", "size",
                                    // of a refusal
                                    "number", "place", "why",
                                    // counts
                                    "chunks", "empty", "live", "carved", "refused", NULL};

static const char *what_of(uint64_t item)
{
    return item == DOORTUMBLE_ROW_LIVE ? "live" : "carved";
}

// -------------------------------------------------------------------------------------------------- records and refusals

void print_record(struct job *job, uint64_t chunk, doortumble_row row)
{
    char *to = out_room(&job->out, 128);

    to = put_right(to, chunk + row.offset, 10);
    to = put_left(to, row.item == DOORTUMBLE_ROW_LIVE ? "  live   " : "  carved ", 9);
    to = put_right(to, row.id, 12);
    *to++ = ' ';
    *to++ = ' ';
    to = moment_put(&job->form.moment, to, row.filetime);
    to = put_right(to, row.size, 8);
    *to++ = '\n';
    out_took(&job->out, to);
}

void begin_record(struct job *job, uint64_t chunk, doortumble_row row)
{
    struct form *form = &job->form;

    form_row(form, job->file, what_of(row.item));
    form_number(form, "offset", chunk + row.offset);
    form_number(form, "chunk", chunk);
    form_number(form, "id", row.id);
    form_time(form, "time", "ticks", row.filetime);
    form_number(form, "size", row.size);
}

static void text_refusal(struct job *job, uint64_t chunk, unsigned number, uint64_t place, const char *why)
{
    char *to = out_room(&job->out, 128);

    to = put_right(to, chunk + place, 10);
    to = put_left(to, "  refused ", 10);
    to = put_number(to, number);
    to = put_left(to, " at ", 4);
    to = put_number(to, place);
    to = put_left(to, " of the chunk at ", 17);
    to = put_number(to, chunk);
    to = put_left(to, ": ", 2);
    out_took(&job->out, to);
    out_text(&job->out, why);
    out_text(&job->out, "\n");
}

// The place counts from the chunk's start; the offset from the file's.
void print_refused(struct job *job, uint64_t chunk, unsigned number, uint64_t place, const char *why)
{
    struct form *form = &job->form;

    if (form->kind == FORM_TEXT) {
        text_refusal(job, chunk, number, place, why);
        return;
    }
    form_row(form, job->file, "refused");
    form_number(form, "offset", chunk + place);
    form_number(form, "chunk", chunk);
    form_number(form, "number", number);
    form_number(form, "place", place);
    form_text(form, "why", why);
    form_end(form);
}

// A refused row: the offset is the refusal's place, the size its number.
static void list_row(struct job *job, uint64_t chunk, doortumble_row row)
{
    if (row.item == DOORTUMBLE_ROW_REFUSED) {
        job->counts.refused++;
        print_refused(job, chunk, (unsigned)row.size, row.offset, doortumble_why((unsigned)row.size));
        return;
    }
    job->counts.live += row.item == DOORTUMBLE_ROW_LIVE;
    job->counts.carved += row.item == DOORTUMBLE_ROW_CARVED;
    if (job->form.kind == FORM_TEXT) {
        print_record(job, chunk, row);
        return;
    }
    begin_record(job, chunk, row);
    form_end(&job->form);
}

static void list_chunk(struct job *job, uint64_t offset, const uint8_t *chunk, uint64_t rows)
{
    uint64_t n;

    (void)chunk;
    for (n = 0; n < rows; n++)
        list_row(job, offset, doortumble_row_at(job->rows, n));
}

static void list_begin(struct job *job)
{
    if (job->form.kind == FORM_TEXT)
        out_text(&job->out, "    offset  what             id  time                              size\n");
}

const struct view list_view = {"list",        names,      list_begin,   print_empty,
                               print_refused, list_chunk, print_counts, "the lines with 'refused' say where and why", 0};
