#include "finding.h"

#include <stdarg.h>
#include <stdio.h>

void step_note(struct step *step, const struct mark *from, const struct mark *to)
{
    if (step->places == 0) {
        step->from = *from;
        step->to = *to;
    }
    step->places++;
}

static void form_step(struct form *form, enum about about, const struct step *step)
{
    if (about == ABOUT_IDS) {
        form_number(form, "first_id", step->from.id);
        form_number(form, "last_id", step->to.id);
    } else if (about == ABOUT_TIMES) {
        form_time(form, "first_time", "first_ticks", step->from.ticks);
        form_time(form, "last_time", "last_ticks", step->to.ticks);
    }
    if (about != ABOUT_NONE)
        form_number(form, "places", step->places);
}

static void text_finding(struct job *job, const char *what, const char *words)
{
    out_text(&job->out, "            ");
    out_text(&job->out, what);
    out_text(&job->out, ": ");
    out_text(&job->out, words);
    out_text(&job->out, "\n");
}

void find(struct job *job, const char *what, uint64_t offset, enum about about, const struct step *step, const char *words, ...)
{
    char text[512]; // the longest has some 250 bytes
    va_list values;

    va_start(values, words);
    vsnprintf(text, sizeof text, words, values);
    va_end(values);
    if (job->form.kind == FORM_TEXT) {
        text_finding(job, what, text);
        return;
    }
    form_row(&job->form, job->file, what);
    form_number(&job->form, "offset", offset);
    form_step(&job->form, about, step);
    form_text(&job->form, "why", text);
    form_end(&job->form);
}
