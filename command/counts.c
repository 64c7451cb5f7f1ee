// counts: what every subcommand prints alike: chunks of zeros, and the last line of a file.
#include "job.h"

// One line for all that stand one after the other.
void print_empty(struct job *job, uint64_t offset, uint64_t chunks)
{
    struct form *form = &job->form;

    if (form->kind == FORM_TEXT) {
        out_took(&job->out, put_right(out_room(&job->out, 32), offset, 10));
        out_text(&job->out, "  empty    ");
        out_number(&job->out, chunks);
        out_text(&job->out, chunks == 1 ? " chunk of zeros" : " chunks of zeros");
        out_text(&job->out, ": nothing was written here yet, or it was wiped\n");
        return;
    }
    form_row(form, job->file, "empty");
    form_number(form, "offset", offset);
    form_number(form, "size", chunks * DOORTUMBLE_CHUNK_BYTES);
    form_number(form, "chunks", chunks);
    form_end(form);
}

static void text_counts(struct job *job)
{
    const struct counts *counts = &job->counts;
    struct out *out = &job->out;

    out_text(out, "total: ");
    out_number(out, counts->live);
    out_text(out, " live, ");
    out_number(out, counts->carved);
    out_text(out, " carved, ");
    out_number(out, counts->refused);
    out_text(out, " refused");
    if (job->view->reads) {
        out_text(out, ", ");
        out_number(out, counts->unread);
        out_text(out, " unread");
    }
    out_text(out, "; ");
    out_number(out, counts->chunks);
    out_text(out, counts->chunks == 1 ? " chunk present, " : " chunks present, ");
    out_number(out, counts->empty);
    out_text(out, " of them empty\n");
}

// Without this line the output is not complete.
void print_counts(struct job *job)
{
    struct form *form = &job->form;

    if (form->kind == FORM_TEXT) {
        text_counts(job);
        return;
    }
    form_row(form, job->file, "total");
    form_number(form, "chunks", job->counts.chunks);
    form_number(form, "empty", job->counts.empty);
    form_number(form, "live", job->counts.live);
    form_number(form, "carved", job->counts.carved);
    form_number(form, "refused", job->counts.refused);
    if (job->view->reads)
        form_number(form, "unread", job->counts.unread);
    form_end(form);
}
