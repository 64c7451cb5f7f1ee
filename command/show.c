// show: each record's line as in list, and below it what the record says: a line a field, or its tokens.
#include "show.h"

#include <string.h>

static const char *const names[] = {"file", "what", "offset", "chunk", "id", "time", "ticks", "size",
                                    // of a field
                                    "body", "path", "type", "value", "bits", "value_ticks", "unsound",
                                    // of a refusal
                                    "number", "place", "place_is", "why", "next",
                                    // counts
                                    "chunks", "empty", "live", "carved", "refused", "unread", NULL};

static struct reader reader; // too large for a stack

// --------------------------------------------------------------------------------------------------------------- unread

// What to do about a record that is refused.
static const char *next_of(unsigned number)
{
    switch (number) {
    case DOORTUMBLE_OTHER_DEFINITION:
    case DOORTUMBLE_NO_ELEMENT:
        return "take its values from an older copy of the log, where its definition still stands";
    case DOORTUMBLE_UNKNOWN_TYPE:
    case DOORTUMBLE_TYPE_NOT_READ:
        return "the record may be sound, but its values are of a kind that is not read: have another program show it, and take nothing "
               "from it unseen";
    case DOORTUMBLE_NO_ROOM:
        return "it has more values than the records of any log known: see with --tokens what it is made of";
    default:
        return "take its values from another copy of the log";
    }
}

static void text_unread(const struct shown *shown, unsigned number, uint64_t place)
{
    struct out *out = &shown->job->out;

    show_margin(shown);
    out_text(out, "refused ");
    out_number(out, number);
    out_text(out, " at ");
    out_text(out, doortumble_place_is(number));
    out_text(out, " ");
    out_number(out, place);
    if (strcmp(doortumble_place_is(number), "offset") == 0) {
        out_text(out, " of the chunk at ");
        out_number(out, shown->chunk);
    }
    out_text(out, ": ");
    out_text(out, doortumble_why(number));
    out_text(out, ". Next: ");
    out_text(out, next_of(number));
    out_text(out, "\n");
}

void show_unread(const struct shown *shown, uint64_t answer)
{
    struct form *form = &shown->job->form;
    unsigned number = doortumble_number(answer);

    shown->job->counts.unread++;
    if (form->kind == FORM_TEXT) {
        text_unread(shown, number, doortumble_place(answer));
        return;
    }
    form_number(form, "number", number);
    form_number(form, "place", doortumble_place(answer));
    form_text(form, "place_is", doortumble_place_is(number));
    form_text(form, "why", doortumble_why(number));
    form_text(form, "next", next_of(number));
    form_end(form);
}

// -------------------------------------------------------------------------------------------------------------- records

static void text_event(struct shown *shown)
{
    struct job *job = shown->job;
    uint64_t answer;

    print_record(job, shown->chunk, shown->row);
    answer = job->tokens ? show_tokens(shown) : event_read(shown->event, shown->row);
    if (doortumble_refused(answer))
        show_unread(shown, answer);
    else if (!job->tokens)
        event_print(shown->event, show_field, shown);
}

static void json_event(struct shown *shown)
{
    struct job *job = shown->job;
    uint64_t answer = event_read(shown->event, shown->row);

    begin_record(job, shown->chunk, shown->row);
    if (doortumble_refused(answer)) {
        show_unread(shown, answer);
        return;
    }
    out_text(&job->out, ",\"fields\":[");
    event_print(shown->event, show_field, shown);
    out_text(&job->out, "]");
    form_end(&job->form);
}

// A line a field. A record without any has one of its own, so that it is seen.
static void csv_event(struct shown *shown)
{
    struct job *job = shown->job;
    uint64_t answer = event_read(shown->event, shown->row);

    if (!doortumble_refused(answer))
        event_print(shown->event, show_field, shown);
    if (shown->fields > 0)
        return;
    begin_record(job, shown->chunk, shown->row);
    if (doortumble_refused(answer))
        show_unread(shown, answer);
    else
        form_end(&job->form);
}

static int is_wanted(const struct filter *filter, doortumble_row row)
{
    return (!filter->by_id || row.id == filter->id) && row.filetime >= filter->from && row.filetime <= filter->to;
}

static void show_record(struct job *job, uint64_t chunk, doortumble_row row)
{
    struct shown shown = {job, &job->reader->event, chunk, row, 0};

    job->counts.live += row.item == DOORTUMBLE_ROW_LIVE;
    job->counts.carved += row.item == DOORTUMBLE_ROW_CARVED;
    if (job->form.kind == FORM_TEXT)
        text_event(&shown);
    else if (job->form.kind == FORM_JSON)
        json_event(&shown);
    else
        csv_event(&shown);
}

// What was refused as a record has neither ID nor time: it is said, whichever records are wanted.
static void show_chunk(struct job *job, uint64_t offset, const uint8_t *chunk, uint64_t rows)
{
    uint64_t n;

    event_start(&job->reader->event, chunk);
    for (n = 0; n < rows && job->out.error == 0; n++) {
        doortumble_row row = doortumble_row_at(job->rows, n);

        if (row.item == DOORTUMBLE_ROW_REFUSED) {
            job->counts.refused++;
            print_refused(job, offset, (unsigned)row.size, row.offset, doortumble_why((unsigned)row.size));
        } else if (is_wanted(&job->filter, row)) {
            show_record(job, offset, row);
        }
    }
}

static void show_begin(struct job *job)
{
    job->reader = &reader;
    if (job->form.kind == FORM_TEXT)
        out_text(&job->out, "    offset  what             id  time                              size\n");
}

const struct view show_view = {"show",        names,      show_begin,   print_empty,
                               print_refused, show_chunk, print_counts, "the lines with 'refused' say where and why", 1};
