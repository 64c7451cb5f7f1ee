// field: one field of a record, as a line of text, as an object of JSON, or as a line of CSV.
#include <string.h>

#include "show.h"

// ----------------------------------------------------------------------------------------------------------------- text

static void text_bytes(struct out *out, const struct event *event, const struct field *field)
{
    out_text(out, field->item.length == 0 ? "no bytes" : "hex ");
    spell_hex(out, event->chunk + field->item.start, field->item.length);
    out_text(out, " (");
    out_text(out, spell_type(field));
    out_text(out, ")");
}

static void text_value(struct out *out, const struct spelling *spelling, const struct event *event, const struct field *field)
{
    int unsound = 0;

    switch (spelling->how) {
    case SPELLED_NOTHING:
        out_text(out, field->stands_for_nothing ? "no value" : "null");
        break;
    case SPELLED_TEXT:
        unsound = spell_text(out, event, field, UNITS_QUOTED);
        break;
    case SPELLED_TEXTS:
        unsound = spell_texts(out, event, field, UNITS_QUOTED);
        break;
    case SPELLED_BYTES:
        text_bytes(out, event, field);
        break;
    default:
        out_took(out, spelling->text + spelling->length);
        break;
    }
    if (unsound)
        out_text(out, " (unsound)");
    if (spelling->is_time) {
        out_text(out, " (");
        out_number(out, spelling->ticks);
        out_text(out, ")");
    }
}

// A path, to the left in a field of its width, and two spaces at least.
static void text_path(struct out *out, const struct field *field)
{
    char *to;

    if (field->path_length >= PATH_WIDTH - 2) {
        out_bytes(out, field->path, field->path_length);
        out_text(out, "  ");
        return;
    }
    to = out_room(out, PATH_WIDTH);
    if (field->path_kept) {
        memcpy(to, field->path, PATH_WIDTH);
    } else {
        memset(to, ' ', PATH_WIDTH);
        memcpy(to, field->path, field->path_length);
    }
    out_took(out, to + PATH_WIDTH);
}

// A short value is written in its place at once.
static void text_field(const struct shown *shown, struct event *event, const struct field *field)
{
    struct spelling *spelling = &shown->job->reader->spelling;
    struct out *out = &shown->job->out;

    if (field->shown_below || field->shown_in_path)
        return; // its line would say nothing of its own
    show_margin(shown);
    text_path(out, field);
    spell_value(spelling, out_room(out, SPELL_BYTES), event, field);
    text_value(out, spelling, event, field);
    out_bytes(out, "\n", 1);
}

// ----------------------------------------------------------------------------------------------------------------- JSON

// Of a path, or a value that was written: it has no quote, and its backslashes are doubled.
static void json_plain(struct out *out, const char *text, size_t length)
{
    const char *stroke;

    out_text(out, "\"");
    while ((stroke = memchr(text, '\\', length)) != NULL) {
        out_bytes(out, text, (size_t)(stroke - text));
        out_text(out, "\\\\");
        length -= (size_t)(stroke - text) + 1;
        text = stroke + 1;
    }
    out_bytes(out, text, length);
    out_text(out, "\"");
}

// Not 0 where it is text that is not well-formed.
static int json_value(struct out *out, const struct spelling *spelling, const struct event *event, const struct field *field)
{
    const uint8_t *bytes = event->chunk + field->item.start;
    int unsound = 0;

    switch (spelling->how) {
    case SPELLED_NOTHING:
        out_text(out, "null");
        break;
    case SPELLED_TEXT:
        unsound = spell_text(out, event, field, UNITS_QUOTED);
        break;
    case SPELLED_TEXTS:
        unsound = spell_texts(out, event, field, UNITS_QUOTED);
        break;
    case SPELLED_BYTES:
        out_text(out, "\"");
        spell_hex(out, bytes, field->item.length);
        out_text(out, "\"");
        break;
    default:
        json_plain(out, spelling->text, spelling->length);
        break;
    }
    return unsound;
}

static void json_field(struct shown *shown, struct event *event, const struct field *field)
{
    struct spelling *spelling = &shown->job->reader->spelling;
    struct out *out = &shown->job->out;
    int unsound;

    spell_value(spelling, spelling->room, event, field);
    out_text(out, shown->fields == 0 ? "{\"body\":" : ",{\"body\":");
    out_number(out, field->item.body);
    out_text(out, ",\"path\":");
    json_plain(out, field->path, field->path_length);
    out_text(out, ",\"type\":\"");
    out_text(out, spell_type(field));
    out_text(out, "\",\"value\":");
    unsound = json_value(out, spelling, event, field);
    if (spell_has_bits(field)) {
        out_text(out, ",\"bits\":\"");
        spell_bits(out, event, field);
        out_text(out, "\"");
    }
    if (spelling->is_time) {
        out_text(out, ",\"value_ticks\":\"");
        out_number(out, spelling->ticks);
        out_text(out, "\"");
    }
    out_text(out, unsound ? ",\"unsound\":true}" : "}");
}

// ------------------------------------------------------------------------------------------------------------------ CSV

static void csv_quoted(struct out *out, const char *text, size_t length)
{
    out_text(out, "\"");
    out_bytes(out, text, length);
    out_text(out, "\"");
}

// Escapes are those of text, so that a field is a line. Not 0 where it is text that is not well-formed.
static int csv_value(struct out *out, const struct spelling *spelling, const struct event *event, const struct field *field)
{
    const uint8_t *bytes = event->chunk + field->item.start;
    int unsound = 0;

    switch (spelling->how) {
    case SPELLED_NOTHING:
        break;
    case SPELLED_TEXT:
        unsound = spell_text(out, event, field, UNITS_CSV);
        break;
    case SPELLED_TEXTS:
        out_text(out, "\"");
        unsound = spell_texts(out, event, field, UNITS_IN_CSV);
        out_text(out, "\"");
        break;
    case SPELLED_BYTES:
        spell_hex(out, bytes, field->item.length);
        break;
    default:
        csv_quoted(out, spelling->text, spelling->length);
        break;
    }
    return unsound;
}

static void csv_field(struct shown *shown, struct event *event, const struct field *field)
{
    struct spelling *spelling = &shown->job->reader->spelling;
    struct form *form = &shown->job->form;
    int unsound;

    spell_value(spelling, spelling->room, event, field);
    begin_record(shown->job, shown->chunk, shown->row);
    form_number(form, "body", field->item.body);
    form_open(form, "path");
    csv_quoted(form->out, field->path, field->path_length);
    form_text(form, "type", spell_type(field));
    form_open(form, "value");
    unsound = csv_value(form->out, spelling, event, field);
    form_open(form, "bits");
    spell_bits(form->out, event, field);
    if (spelling->is_time)
        form_number(form, "value_ticks", spelling->ticks);
    if (unsound)
        form_text(form, "unsound", "true");
    form_end(form);
}

// ---------------------------------------------------------------------------------------------------------------- field

void show_field(void *to, struct event *event, const struct field *field)
{
    struct shown *shown = to;

    if (shown->job->form.kind == FORM_TEXT)
        text_field(shown, event, field);
    else if (shown->job->form.kind == FORM_JSON)
        json_field(shown, event, field);
    else
        csv_field(shown, event, field);
    shown->fields++;
}
