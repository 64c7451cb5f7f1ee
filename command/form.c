#include "form.h"

#include <assert.h>
#include <string.h>

#include "quote.h"

void form_head(struct form *form)
{
    unsigned n;

    if (form->kind != FORM_CSV)
        return;
    for (n = 0; form->names[n] != NULL; n++) {
        out_text(form->out, n == 0 ? "" : ",");
        out_text(form->out, form->names[n]);
    }
    out_text(form->out, "\n");
}

// What stands before a field: of JSON its name, of CSV a comma, and one more for each field that was left out.
void form_open(struct form *form, const char *name)
{
    int first = form->next == 0;

    if (form->kind == FORM_JSON) {
        out_text(form->out, first ? "{\"" : ",\"");
        out_text(form->out, name);
        out_text(form->out, "\":");
    }
    for (; form->names[form->next] != NULL; form->next++) {
        if (form->kind == FORM_CSV && form->next > 0)
            out_text(form->out, ",");
        if (strcmp(form->names[form->next], name) == 0)
            break;
    }
    assert(form->names[form->next] != NULL); // else a name that is none, or out of its order: a bug here
    form->next++;
}

void form_row(struct form *form, const char *file, const char *what)
{
    form->next = 0;
    form_text(form, "file", file);
    form_text(form, "what", what);
}

void form_number(struct form *form, const char *name, uint64_t number)
{
    form_open(form, name);
    out_number(form->out, number);
}

void form_text(struct form *form, const char *name, const char *text)
{
    form_open(form, name);
    if (form->kind == FORM_JSON)
        quote_json(form->out, text);
    else
        quote_csv(form->out, text);
}

// Ticks are a string in JSON: they pass 2^53, and many readers keep a number as a double.
void form_time(struct form *form, const char *name, const char *exact, uint64_t ticks)
{
    char text[MOMENT_BYTES];

    *moment_put(&form->moment, text, ticks) = 0;
    form_text(form, name, text);
    *put_number(text, ticks) = 0;
    form_text(form, exact, text);
}

void form_end(struct form *form)
{
    if (form->kind == FORM_JSON)
        out_text(form->out, "}");
    for (; form->kind == FORM_CSV && form->names[form->next] != NULL; form->next++)
        out_text(form->out, ",");
    out_text(form->out, "\n");
}
