// info: the header, then a line for each chunk, each with what is odd about it below; last what only the whole file tells.
#include <inttypes.h>
#include <stdio.h>

#include "sequence.h"

static const char *const names[] = {"file", "what", "offset", "size",
                                    // of the file's header, and of a chunk's
                                    "version", "header_size", "block_size", "first_chunk", "last_chunk", "announced", "next_id",
                                    "first_number", "last_number", "header_first_id", "header_last_id", "last_record",
                                    "free_space", "flags", "flag_words", "header_checksum", "events_checksum",
                                    // of a chunk's live records, or of the two that a finding is about
                                    "first_id", "last_id", "first_time", "first_ticks", "last_time", "last_ticks", "places",
                                    // of a refusal or a finding
                                    "number", "place", "why",
                                    // counts
                                    "chunks", "empty", "live", "carved", "refused", NULL};

// Chunks whose checksums are wrong.
static struct wrong {
    uint64_t headers;
    uint64_t events;
} wrong;

static const char *right_or_wrong(int right)
{
    return right ? "right" : "wrong";
}

// Flags as words with commas; bits beyond the third have no name.
static const char *flag_words(uint64_t flags, const char *second)
{
    static char words[64];
    const char *const bits[] = {"dirty", second, "no checksums", "others"};
    int length = 0;
    unsigned n;

    words[0] = 0;
    for (n = 0; n < 4; n++)
        if (flags >> n & (n < 3 ? 1 : UINT64_MAX))
            length += sprintf(words + length, "%s%s", length > 0 ? ", " : "", bits[n]);
    return length > 0 ? words : "none";
}

// ---------------------------------------------------------------------------------------------------------------- header

// "3.1"
static const char *version_of(const doortumble_file_header_fields *header)
{
    static char text[24];

    snprintf(text, sizeof text, "%u.%u", header->major_version, header->minor_version);
    return text;
}

static void text_line(struct out *out, const char *name, const char *text)
{
    out_took(out, put_left(out_room(out, 64), name, 18));
    out_text(out, text);
    out_text(out, "\n");
}

// The two flags that document what state the log was left in have a line each, with what follows from them.
static void text_flags(struct out *out, uint64_t flags)
{
    const char *name = "flags";

    if (flags & DOORTUMBLE_FILE_DIRTY) {
        text_line(out, name, "dirty: it was not closed, or was copied while in use; this header may be behind");
        name = "";
    }
    if (flags & DOORTUMBLE_FILE_FULL) {
        text_line(out, name, "full: it has its largest size, and new records take the place of the oldest");
        name = "";
    }
    if (flags == 0 || flags > 3)
        text_line(out, name, flag_words(flags & ~(uint64_t)3, "full"));
}

static void text_header(struct job *job)
{
    const doortumble_file_header_fields *header = &job->header;
    struct out *out = &job->out;
    char text[128];

    text_line(out, "event log", job->name);
    text_line(out, "version", version_of(header));
    text_line(out, "header checksum", right_or_wrong(header->checksum_right));
    text_flags(out, header->flags);
    snprintf(text, sizeof text, "%" PRIu32 ", the oldest number %" PRIu64 ", the newest number %" PRIu64, header->chunk_count,
             header->first_chunk, header->last_chunk);
    text_line(out, "chunks announced", text);
    snprintf(text, sizeof text, "%" PRIu64, header->next_record_id);
    text_line(out, "next record ID", text);
    out_text(out, "\n    offset                IDs  first time                    last time                   "
                  "  header  events   live  carved  refused\n");
}

static void form_header(struct job *job)
{
    const doortumble_file_header_fields *header = &job->header;
    struct form *form = &job->form;

    form_row(form, job->file, "header");
    form_number(form, "offset", 0);
    form_text(form, "version", version_of(header));
    form_number(form, "header_size", header->header_size);
    form_number(form, "block_size", header->block_size);
    form_number(form, "first_chunk", header->first_chunk);
    form_number(form, "last_chunk", header->last_chunk);
    form_number(form, "announced", header->chunk_count);
    form_number(form, "next_id", header->next_record_id);
    form_number(form, "flags", header->flags);
    form_text(form, "flag_words", flag_words(header->flags, "full"));
    form_text(form, "header_checksum", right_or_wrong(header->checksum_right));
    form_end(form);
}

static void info_begin(struct job *job)
{
    static const struct wrong none;

    wrong = none;
    sequence_begin();
    if (job->form.kind == FORM_TEXT)
        text_header(job);
    else
        form_header(job);
}

// --------------------------------------------------------------------------------------------------------------- a chunk

static char *put_time(struct job *job, char *to, const struct chunk_seen *chunk, uint64_t ticks)
{
    return chunk->live > 0 ? moment_put(&job->form.moment, to, ticks) : put_left(to, "-", 28);
}

static void text_chunk(struct job *job, uint64_t offset, const doortumble_chunk_header_fields *header,
                       const struct chunk_seen *chunk)
{
    char ids[48] = "-";
    char *to = out_room(&job->out, 256);

    if (chunk->live > 0)
        snprintf(ids, sizeof ids, "%" PRIu64 "-%" PRIu64, chunk->first.id, chunk->last.id);
    to = put_right(to, offset, 10);
    to += sprintf(to, "  %17s  ", ids);
    to = put_time(job, to, chunk, chunk->first.ticks);
    to = put_left(to, "", 2);
    to = put_time(job, to, chunk, chunk->last.ticks);
    to = put_left(to, "", 2);
    to = put_left(to, right_or_wrong(header->header_checksum_right), 8);
    to = put_left(to, right_or_wrong(header->events_checksum_right), 6);
    to = put_right(to, chunk->live, 7);
    to = put_right(to, chunk->carved, 8);
    to = put_right(to, chunk->refused, 9);
    *to++ = '\n';
    out_took(&job->out, to);
}

static void form_chunk(struct job *job, uint64_t offset, const doortumble_chunk_header_fields *header,
                       const struct chunk_seen *chunk)
{
    struct form *form = &job->form;

    form_row(form, job->file, "chunk");
    form_number(form, "offset", offset);
    form_number(form, "header_size", header->header_size);
    form_number(form, "first_number", header->first_record_number);
    form_number(form, "last_number", header->last_record_number);
    form_number(form, "header_first_id", header->first_record_id);
    form_number(form, "header_last_id", header->last_record_id);
    form_number(form, "last_record", header->last_record_offset);
    form_number(form, "free_space", header->free_space_offset);
    form_number(form, "flags", header->flags);
    form_text(form, "flag_words", flag_words(header->flags, "2"));
    form_text(form, "header_checksum", right_or_wrong(header->header_checksum_right));
    form_text(form, "events_checksum", right_or_wrong(header->events_checksum_right));
    if (chunk->live > 0) {
        form_number(form, "first_id", chunk->first.id);
        form_number(form, "last_id", chunk->last.id);
        form_time(form, "first_time", "first_ticks", chunk->first.ticks);
        form_time(form, "last_time", "last_ticks", chunk->last.ticks);
    }
    form_number(form, "live", chunk->live);
    form_number(form, "carved", chunk->carved);
    form_number(form, "refused", chunk->refused);
    form_end(form);
}

// What the chunk's header says beside its checksums, where that is odd. Windows marks every chunk of a log in use dirty, so
// that flag alone is not told.
static void tell_header(struct job *job, uint64_t offset, const doortumble_chunk_header_fields *header,
                        const struct chunk_seen *chunk)
{
    if (header->flags > 1)
        find(job, "flags", offset, ABOUT_NONE, NULL, "the chunk is marked: %s", flag_words(header->flags, "2"));
    if (chunk->live > 0 && (header->first_record_id != chunk->first.id || header->last_record_id != chunk->last.id))
        find(job, "ids", offset, ABOUT_NONE, NULL, "the chunk's header says that its IDs are %" PRIu64 " to %" PRIu64,
             header->first_record_id, header->last_record_id);
}

static void info_chunk(struct job *job, uint64_t offset, const uint8_t *bytes, uint64_t rows)
{
    uint64_t words[DOORTUMBLE_CHUNK_HEADER_WORDS] = {0};
    doortumble_chunk_header_fields header;
    struct chunk_seen chunk;

    // It cannot be refused: the listing was not, and the words are as many as it asks for.
    doortumble_chunk_header(bytes, DOORTUMBLE_CHUNK_BYTES, words, DOORTUMBLE_CHUNK_HEADER_WORDS);
    header = doortumble_chunk_header_of(words);
    wrong.headers += !header.header_checksum_right;
    wrong.events += !header.events_checksum_right;
    sequence_chunk(&chunk, offset, job->rows, rows);
    job->counts.live += chunk.live;
    job->counts.carved += chunk.carved;
    job->counts.refused += chunk.refused;
    if (job->form.kind == FORM_TEXT)
        text_chunk(job, offset, &header, &chunk);
    else
        form_chunk(job, offset, &header, &chunk);
    tell_header(job, offset, &header, &chunk);
    sequence_tell(job, &chunk);
}

// -------------------------------------------------------------------------------------------------- in a chunk's place

static void info_refused(struct job *job, uint64_t offset, unsigned number, uint64_t place, const char *why)
{
    struct form *form = &job->form;
    char *to;

    if (form->kind == FORM_TEXT) {
        to = put_right(out_room(&job->out, 64), offset, 10);
        to += sprintf(to, "  refused %u at %" PRIu64 ": ", number, place);
        out_took(&job->out, to);
        out_text(&job->out, why);
        out_text(&job->out, "\n");
        return;
    }
    form_row(form, job->file, "refused");
    form_number(form, "offset", offset);
    form_number(form, "number", number);
    form_number(form, "place", place);
    form_text(form, "why", why);
    form_end(form);
}

static void info_end(struct job *job)
{
    uint64_t announced = job->header.chunk_count;
    uint64_t present = job->counts.chunks;

    sequence_end(job);
    if (wrong.headers + wrong.events > 0)
        find(job, "checksums", 0, ABOUT_NONE, NULL,
             "the header's checksum is wrong in %" PRIu64 " of the chunks, the events' checksum in %" PRIu64, wrong.headers,
             wrong.events);
    if (present < announced)
        find(job, "cut", 0, ABOUT_NONE, NULL, "the header announces %" PRIu64 " chunks, and the file ends after %" PRIu64,
             announced, present);
    print_counts(job);
}

const struct view info_view = {"info",       names,      info_begin, print_empty,
                               info_refused, info_chunk, info_end,   "'doortumble list' says of each where and why", 0};
