#include "event.h"

#include <assert.h>
#include <string.h>

#define NO_ELEMENT "(held by no element)"
#define NO_TEXT "(elements above not known)"
#define NOT_KEPT UINT32_MAX

void event_start(struct event *event, const uint8_t *chunk)
{
    event->chunk = chunk;
    if (event->label_round > UINT32_MAX / 2) {
        event->label_round = 0;
        memset(event->rounds, 0, sizeof event->rounds);
    }
    event->paths_used = 0;
    names_start(&event->names, chunk);
    texts_start(&event->texts, chunk);
}

// ----------------------------------------------------------------------------------------------------------- the bodies

static int is_root(doortumble_token token, uint32_t owner)
{
    return !doortumble_has_owner(owner) && (token.kind == DOORTUMBLE_KIND_OPEN || token.kind == DOORTUMBLE_KIND_INSTANCE);
}

// Each body has one root, and its root comes before the bodies inside its values: so the roots come in the bodies' order.
static void add_body(struct event *event, doortumble_token token, uint32_t *last)
{
    struct event_body *body = &event->bodies[event->bodies_count];

    memset(body, 0, sizeof *body);
    body->place = token.place;
    body->level = (uint8_t)(token.level < EVENT_LEVELS ? token.level : EVENT_LEVELS - 1);
    body->instance = token.kind == DOORTUMBLE_KIND_INSTANCE;
    last[body->level] = event->bodies_count;
    body->parent = last[body->level == 0 ? 0 : body->level - 1];
    body->above = body->level == 0 ? 0 : NOT_KEPT;
    event->bodies_count++;
}

static void find_bodies(struct event *event)
{
    struct texts *texts = &event->texts;
    uint64_t answer = doortumble_bodies(event->chunk, DOORTUMBLE_CHUNK_BYTES, event->start, event->length, 0, 0, texts->sheet,
                                        sizeof texts->sheet / sizeof *texts->sheet, texts->table, DOORTUMBLE_MOST_TOKENS);
    uint32_t last[EVENT_LEVELS] = {0};
    uint64_t n;

    event->bodies_count = 0;
    for (n = 0; !doortumble_refused(answer) && n < doortumble_count(answer); n++)
        if (is_root(doortumble_token_at(texts->sheet, n), texts->table[n]))
            add_body(event, doortumble_token_at(texts->sheet, n), last);
}

// The rows of a body stand together.
static void share_rows(struct event *event)
{
    uint32_t n = 0;

    while (n < event->rows_count) {
        uint32_t number = doortumble_item_at(event->rows, n).body;
        struct event_body *body = &event->bodies[number];

        assert(number < event->bodies_count && body->rows == 0); // else the two calls see other bodies: a bug there
        body->first = n;
        while (n < event->rows_count && doortumble_item_at(event->rows, n).body == number)
            n++;
        body->rows = n - body->first;
    }
}

uint64_t event_read(struct event *event, doortumble_row row)
{
    uint64_t answer;

    event->start = doortumble_payload_start(row);
    event->length = doortumble_payload_length(row);
    answer = doortumble_event(event->chunk, DOORTUMBLE_CHUNK_BYTES, event->start, event->length, 0, event->rows,
                              sizeof event->rows / sizeof *event->rows);
    event->rows_count = 0;
    event->bodies_count = 0;
    if (doortumble_refused(answer))
        return answer;
    event->rows_count = (uint32_t)doortumble_count(answer);
    find_bodies(event);
    share_rows(event);
    return answer;
}

// The body in a value: of those in this body's values the one whose root stands in it. 0: there is none.
static uint32_t inner_of(const struct event *event, uint32_t outer, const doortumble_item *item)
{
    uint32_t n;

    for (n = outer + 1; n < event->bodies_count && event->bodies[n].level > event->bodies[outer].level; n++)
        if (event->bodies[n].parent == outer && event->bodies[n].place - item->start < item->length)
            return n;
    return 0;
}

// Its own tokens are those of the window that it was read in.
static const struct text *text_of(struct event *event, const struct event_body *body)
{
    doortumble_item holder;

    if (body->instance)
        return text_of_instance(&event->texts, body->place);
    if (body->level == 0)
        return text_at(&event->texts, event->start, event->length, 0);
    if (body->holder == 0)
        return NULL;
    holder = doortumble_item_at(event->rows, body->holder - 1);
    return text_at(&event->texts, holder.start, holder.length, 0);
}

// ----------------------------------------------------------------------------------------------------------- the labels

static int is_same_attribute(const struct event *event, uint32_t n, const doortumble_item *item)
{
    doortumble_item other;

    if (n >= event->rows_count)
        return 0;
    other = doortumble_item_at(event->rows, n);
    return other.body == item->body && other.element == item->element && other.in_attribute && other.attribute == item->attribute;
}

static int is_short_text(const doortumble_item *item)
{
    return (item->kind == DOORTUMBLE_KIND_VALUE || item->kind == DOORTUMBLE_KIND_SUBSTITUTION) && item->type == 0x01 &&
           item->length > 0 && item->length <= 2 * NAME_UNITS;
}

// The Name of a Data; of a token that has a note this is asked once.
static int is_name(struct event *event, const doortumble_item *item, struct note *note)
{
    int is;

    if (note != NULL && note->asked)
        return note->is_name;
    is = name_is(name_at(&event->names, item->attribute_name), "Name") && name_is(name_at(&event->names, item->element_name), "Data");
    if (note != NULL) {
        note->asked = 1;
        note->is_name = (uint8_t)is;
    }
    return is;
}

// Where it is one text.
static int is_label(struct event *event, uint32_t n, const doortumble_item *item, struct note *note)
{
    return item->in_attribute && is_short_text(item) && is_name(event, item, note) && !is_same_attribute(event, n + 1, item) &&
           (n == 0 || !is_same_attribute(event, n - 1, item));
}

static int note_label(struct event *event, uint32_t n, const doortumble_item *item, struct note *note)
{
    if (item->element >= DOORTUMBLE_MOST_TOKENS || !is_label(event, n, item, note))
        return 0;
    event->labels[item->element] = n;
    event->rounds[item->element] = event->label_round;
    event->bodies[item->body].labelled = 1;
    event->changing |= item->kind == DOORTUMBLE_KIND_SUBSTITUTION;
    return 1;
}

// The labels of a body once more, for a body in one of its values.
static void note_again(struct event *event, const struct event_body *body)
{
    doortumble_item item;
    uint32_t n;

    event->label_round++;
    for (n = body->first; body->labelled && n < body->first + body->rows; n++) {
        item = doortumble_item_at(event->rows, n);
        note_label(event, n, &item, NULL);
    }
}

// ------------------------------------------------------------------------------------------------------------ the paths

static size_t put_text(struct event *event, size_t at, const char *text, size_t length)
{
    memcpy(event->path + at, text, length);
    return at + length;
}

// What stands between two parts of a path; it begins without.
static size_t put_stroke(struct event *event, size_t at)
{
    return put_text(event, at, "/", at == 0 ? 0 : 1);
}

static size_t put_words(struct event *event, size_t at, const char *words)
{
    return put_text(event, put_stroke(event, at), words, strlen(words));
}

static size_t put_name(struct event *event, size_t at, uint32_t offset)
{
    struct name name = name_at(&event->names, offset);

    return put_text(event, at, name.text, name.length);
}

static size_t put_label(struct event *event, size_t at, uint32_t element)
{
    doortumble_item item;
    char *to = event->path + at;

    if (element >= DOORTUMBLE_MOST_TOKENS || event->rounds[element] != event->label_round)
        return at;
    item = doortumble_item_at(event->rows, event->labels[element]);
    *to++ = '[';
    to = units_put(to, event->chunk + item.start, item.length / 2, UNITS_LABEL);
    *to++ = ']';
    return (size_t)(to - event->path);
}

static size_t put_element(struct event *event, size_t at, uint32_t element, uint32_t name)
{
    return put_label(event, put_name(event, put_stroke(event, at), name), element);
}

// The elements from the body's root to that in which this one stands, behind the path above the body.
static size_t put_above(struct event *event, size_t at, const struct text *text, uint32_t owner)
{
    uint32_t names[TEXT_DEPTH + 1];
    uint32_t elements[TEXT_DEPTH + 1];
    unsigned count = text_chain(&event->texts, text, owner, names, elements);
    unsigned n;

    for (n = 0; n < count; n++)
        at = put_element(event, at, elements[n], names[n]);
    return at;
}

// All elements down to the row's own. Neighbours mostly stand in the same one.
static size_t put_elements(struct event *event, size_t at, const struct text *text, const doortumble_item *item)
{
    uint32_t owner;

    if (text == NULL || item->element >= text->count)
        return put_element(event, put_words(event, at, NO_TEXT), item->element, item->element_name);
    owner = text_owner(&event->texts, text, item->element);
    if (!doortumble_has_owner(owner))
        event->above_length = at;
    else if (event->above != owner)
        event->above_length = put_above(event, at, text, doortumble_owner(owner));
    event->above = owner;
    return put_element(event, event->above_length, item->element, text_name(&event->texts, text, item->element));
}

static size_t put_attribute(struct event *event, size_t at, const doortumble_item *item)
{
    if (!item->in_attribute)
        return at;
    return put_name(event, put_text(event, at, "/@", 2), item->attribute_name);
}

// The path of the row that holds a body, in the text of the body around it.
static size_t put_holder(struct event *event, const struct event_body *body)
{
    const struct event_body *outer = &event->bodies[body->parent];
    size_t at = event->path_lengths[body->level - 1];
    doortumble_item item;

    if (body->holder == 0)
        return put_words(event, at, NO_ELEMENT);
    event->above = 0;
    note_again(event, outer);
    item = doortumble_item_at(event->rows, body->holder - 1);
    return put_attribute(event, put_elements(event, at, text_of(event, outer), &item), &item);
}

// Begins with the path above the body.
static void begin_body(struct event *event, const struct event_body *body)
{
    size_t at = 0;

    if (body->level > 0 && body->above == NOT_KEPT)
        at = put_holder(event, body);
    else if (body->level > 0)
        at = put_text(event, 0, event->paths + body->above - 1, body->above_length);
    event->path_lengths[body->level] = at;
    event->label_round++;
    event->above = 0;
    event->changing = 0;
}

// Keeps the path of a row, where there is room; its bytes stay in their place until the next chunk.
static void keep_path(struct event *event, const struct event_body *body, struct note *note, struct field *field)
{
    size_t bytes = field->path_length < PATH_WIDTH ? PATH_WIDTH : field->path_length;

    if (PATHS_BYTES - event->paths_used < bytes)
        return;
    note->above = body->above;
    note->start = event->paths_used;
    note->length = (uint32_t)field->path_length;
    event->paths_used += (uint32_t)bytes;
    memset(event->paths + note->start, ' ', bytes);
    field->path = memcpy(event->paths + note->start, field->path, field->path_length);
    field->path_kept = 1;
}

// The path of a row: the one that is kept, or else put together.
static void find_path(struct event *event, const struct event_body *body, const struct text *text, struct note *note,
                      struct field *field)
{
    int keeps = note != NULL && body->above != NOT_KEPT && !event->changing;
    size_t at;

    if (keeps && note->length > 0 && note->above == body->above) {
        field->path = event->paths + note->start;
        field->path_length = note->length;
        field->path_kept = 1;
        return;
    }
    at = put_elements(event, event->path_lengths[body->level], text, &field->item);
    field->path = event->path;
    field->path_length = put_attribute(event, at, &field->item);
    field->path_kept = 0;
    if (keeps && note->length == 0)
        keep_path(event, body, note, field);
}

// For the body that hangs below a row, where that row's path is kept.
static void set_above(struct event *event, struct event_body *inner, const struct field *field)
{
    if (!field->path_kept)
        return;
    inner->above = (uint32_t)(field->path - event->paths) + 1;
    inner->above_length = (uint32_t)field->path_length;
}

// ----------------------------------------------------------------------------------------------------------- the fields

// Where a label is the last of an element's attributes and its content comes next, the path of that shows it.
static int is_shown_in_path(const struct event *event, uint32_t n, const doortumble_item *item)
{
    doortumble_item next;

    if (n + 1 >= event->rows_count)
        return 0;
    next = doortumble_item_at(event->rows, n + 1);
    return next.body == item->body && next.element == item->element && !next.in_attribute;
}

// Of a value that two elements hold the first is the one below which its body hangs.
static void hold_body(struct event *event, uint32_t n, struct field *field)
{
    struct event_body *inner;

    field->inner = inner_of(event, field->item.body, &field->item);
    if (field->inner == 0)
        return;
    inner = &event->bodies[field->inner];
    if (inner->holder == 0)
        inner->holder = n + 1;
    field->shown_below = inner->holder == n + 1 && inner->rows > 0;
}

static void begin_field(struct event *event, uint32_t n, const struct event_body *body, struct note *note, struct field *field)
{
    field->inner = 0;
    field->shown_below = 0;
    field->shown_in_path = 0;
    field->stands_for_nothing = field->item.kind == DOORTUMBLE_KIND_SUBSTITUTION && !body->instance;
    if (field->item.kind == DOORTUMBLE_KIND_SUBSTITUTION && field->item.type == 0x21)
        hold_body(event, n, field);
    if (field->item.in_attribute && note_label(event, n, &field->item, note))
        field->shown_in_path = is_shown_in_path(event, n, &field->item);
}

// The rows of one body.
static void print_body(struct event *event, const struct event_body *body, print_field *print, void *to)
{
    const struct text *text = body->rows == 0 ? NULL : text_of(event, body);
    struct field field;
    struct note *note;
    uint32_t n;

    for (n = body->first; n < body->first + body->rows; n++) {
        field.item = doortumble_item_at(event->rows, n);
        note = text_note(&event->texts, text, field.item.number);
        begin_field(event, n, body, note, &field);
        find_path(event, body, text, note, &field);
        if (field.inner != 0 && event->bodies[field.inner].holder == n + 1)
            set_above(event, &event->bodies[field.inner], &field);
        print(to, event, &field);
    }
}

void event_print(struct event *event, print_field *print, void *to)
{
    uint32_t n;

    for (n = 0; n < event->bodies_count; n++) {
        begin_body(event, &event->bodies[n]);
        print_body(event, &event->bodies[n], print, to);
    }
}
