// file: one file from its header to its end, a chunk at a time. Nothing of the format is known here but document 02's "each
// 65,536 byte chunk after the block size. Chunks go on to the end of the file, whatever the count says", and "a shorter rest is
// listed as refused 1", which the call itself answers of it. Where the block size is less than the header's 128 bytes, the
// first chunk begins inside the header; the rule is the same.
#include <errno.h>
#include <inttypes.h>
#include <stdio.h>
#include <string.h>

#include "job.h"
#include "quote.h"
#include "workers.h"

#define HEADER_BYTES 128

// ------------------------------------------------------------------------------------------------------ what is no log

static enum status tell_not_opened(struct job *job, int error)
{
    const char *next = "See that it can be read, and run again.";

    if (error == ENOENT)
        next = "There is no such file: look at the name and at the folder.";
    else if (error == EACCES || error == EPERM)
        next = "You may not read it: run as a user who may, or have a copy made for you.";
    tell(job, "%s: cannot open: %s. %s", job->name, strerror(error), next);
    return FAILED;
}

static enum status tell_directory(struct job *job)
{
    tell(job, "%s: this is a folder. Name the logs in it: doortumble %s %s/*.evtx", job->name, job->view->verb, job->name);
    return FAILED;
}

// How it begins, for a person who can tell a disk image or an archive by its first bytes.
static const char *first_bytes(const uint8_t *bytes, size_t length)
{
    static char text[8 * 3 + 1];
    size_t n;

    for (n = 0; n < 8 && n < length; n++)
        snprintf(text + 3 * n, 4, " %02X", (unsigned)bytes[n]);
    return text;
}

// Refusal 18. A chunk is told by asking for its listing.
static enum status tell_no_log(struct job *job, uint64_t answer)
{
    size_t ready = input_ask(&job->input, DOORTUMBLE_CHUNK_BYTES);
    const uint8_t *bytes = input_at(&job->input);
    unsigned number = doortumble_number(answer);

    if (ready == 0)
        tell(job, "%s: this is no event log (refusal %u): it is empty. If it was copied, the copy failed: fetch it again.",
             job->name, number);
    else if (ready < HEADER_BYTES)
        tell(job,
             "%s: this is no event log (refusal %u): it ends after %zu bytes, and the header of a log has %d. If it was copied,"
             " the copy stopped early: fetch it again.",
             job->name, number, ready, HEADER_BYTES);
    else if (!doortumble_refused(doortumble_list(bytes, ready, 0, job->rows, ROWS_WORDS)))
        tell(
            job,
            "%s: this is no event log (refusal %u) but begins with a chunk that was cut out of one. examples/show in the source"
            " tree prints a chunk; or put the first 4,096 bytes of any log before it:"
            " { head -c 4096 LOG; cat CHUNK; } | doortumble %s -",
            job->name, number, job->view->verb);
    else
        tell(
            job,
            "%s: this is no event log (refusal %u): it begins with%s, and a log with 45 6C 66 46 69 6C 65 00 (\"ElfFile\" and a"
            " zero). Name the .evtx file itself. If it is one and its start was overwritten, its chunks can still be read, with"
            " the first 4,096 bytes of any other log before them:"
            " { head -c 4096 LOG; tail -c +4097 FILE; } | doortumble %s -",
            job->name, number, first_bytes(bytes, ready), job->view->verb);
    return NO_LOG;
}

// ---------------------------------------------------------------------------------------------------------- the chunks

// Whether a chunk is all zeros, as a log keeps its last ones in stock. A shorter rest is refused instead, whatever it holds.
static int is_empty(const uint8_t *bytes, size_t length)
{
    return length == DOORTUMBLE_CHUNK_BYTES && bytes[0] == 0 && memcmp(bytes, bytes + 1, length - 1) == 0;
}

// Chunks of zeros are told together, when something else comes or the file ends: a file of five gigabytes may hold little else.
static void tell_empty(struct job *job, uint64_t from, uint64_t to)
{
    if (from < to)
        job->view->empty(job, from, (to - from) / DOORTUMBLE_CHUNK_BYTES);
}

static void refuse_chunk(struct job *job, uint64_t offset, uint64_t answer)
{
    unsigned number = doortumble_number(answer);
    const char *why = doortumble_why(number);

    if (number == DOORTUMBLE_WRONG_LENGTH)
        why = "the file ends in the middle of this chunk: it was cut, or its copy stopped early";
    else if (number == DOORTUMBLE_WRONG_MAGIC)
        why = "this does not begin as a chunk does: it was overwritten, or never was one";
    job->counts.refused++;
    job->view->refused(job, offset, number, doortumble_place(answer), why);
}

int next_piece(struct job *job, struct piece *piece)
{
    struct input *input = &job->input;

    progress_show(&job->progress, job->name, input->offset, input->expected);
    piece->length = input_ask(input, DOORTUMBLE_CHUNK_BYTES);
    if (piece->length == 0 || input->error != 0)
        return 0;
    piece->bytes = input_at(input);
    piece->offset = input->offset;
    piece->zeros_from = job->zeros_from;
    piece->empty = is_empty(piece->bytes, piece->length);
    input_take(input, piece->length);
    job->counts.chunks++;
    if (piece->empty)
        job->counts.empty++;
    else
        job->zeros_from = input->offset;
    return 1;
}

void read_piece(struct job *job, const struct piece *piece)
{
    uint64_t answer = doortumble_list(piece->bytes, piece->length, (uint32_t)job->recovery, job->rows, ROWS_WORDS);

    if (job->out.terminal)
        progress_hide(&job->progress);
    tell_empty(job, piece->zeros_from, piece->offset);
    if (doortumble_refused(answer))
        refuse_chunk(job, piece->offset, answer);
    else
        job->view->chunk(job, piece->offset, piece->bytes, doortumble_count(answer));
}

// One after the other.
static void read_pieces(struct job *job)
{
    struct piece piece;

    while (job->out.error == 0 && next_piece(job, &piece)) {
        if (!piece.empty)
            read_piece(job, &piece);
        if (job->out.terminal)
            out_flush(&job->out);
    }
}

static void read_chunks(struct job *job)
{
    job->zeros_from = job->input.offset;
    if (!workers_read(job))
        read_pieces(job);
    tell_empty(job, job->zeros_from, job->input.offset);
}

// -------------------------------------------------------------------------------------------------------------- the end

static enum status tell_read_error(struct job *job)
{
    tell(job,
         "%s: cannot read on at byte %" PRIu64
         ": %s. What is printed above is what could be read before. Copy what the disk still"
         " gives (ddrescue does), and run again on the copy.",
         job->name, input_length(&job->input), strerror(job->input.error));
    return FAILED;
}

static enum status tell_shorter(struct job *job)
{
    tell(job,
         "%s: it became shorter while it was read: %" PRIu64 " bytes when it was opened, and it ended at %" PRIu64
         ". Somebody writes to it: make a copy, and run again on the copy.",
         job->name, job->input.expected, input_length(&job->input));
    return FAILED;
}

static enum status tell_refused(struct job *job)
{
    const struct counts *counts = &job->counts;

    if (counts->refused == 0 && counts->unread == 0)
        return ALL_READ;
    if (counts->unread == 0)
        tell(job, "%s: %" PRIu64 " refused. Merge nothing from what was refused; %s.", job->name, counts->refused, job->view->next);
    else
        tell(job, "%s: %" PRIu64 " refused, and %" PRIu64 " records unread. Merge nothing from them; %s.", job->name, counts->refused,
             counts->unread, job->view->next);
    return SOME_REFUSED;
}

static enum status end_file(struct job *job)
{
    if (job->out.error != 0)
        return FAILED; // the file was not read to its end, since nobody gets the output; that is told when all is over
    if (job->input.error != 0)
        return tell_read_error(job);
    if (input_length(&job->input) < job->input.expected)
        return tell_shorter(job);
    if (job->counts.chunks == 0)
        tell(job,
             "%s: it holds no chunk: it ends at byte %" PRIu64 ", and its first chunk would begin at %" PRIu32
             ". If the log had records, its copy stopped early: fetch it again.",
             job->name, input_length(&job->input), job->header.block_size);
    return tell_refused(job);
}

// ------------------------------------------------------------------------------------------------------------- the file

static enum status read_log(struct job *job)
{
    uint64_t words[DOORTUMBLE_FILE_HEADER_WORDS];
    size_t ready = input_ask(&job->input, HEADER_BYTES);
    uint64_t answer = doortumble_file_header(input_at(&job->input), ready, words, DOORTUMBLE_FILE_HEADER_WORDS);

    if (job->input.error != 0)
        return tell_read_error(job);
    if (doortumble_refused(answer))
        return tell_no_log(job, answer);
    job->header = doortumble_file_header_of(words);
    job->view->begin(job);
    input_take(&job->input, input_ask(&job->input, job->header.block_size));
    read_chunks(job);
    if (job->input.error == 0)
        job->view->end(job);
    return end_file(job);
}

// Above each file's text, where there are several.
static void head_file(struct job *job)
{
    if (job->form.kind != FORM_TEXT || !job->several)
        return;
    out_text(&job->out, job->headed ? "\n==> " : "==> ");
    out_text(&job->out, job->name);
    out_text(&job->out, " <==\n");
    job->headed = 1;
}

enum status read_file(struct job *job, const char *file)
{
    static const struct counts none;
    const char *path = strcmp(file, "-") == 0 ? NULL : file;
    enum status status;

    job->file = file;
    job->counts = none;
    quote_shown(job->name, sizeof job->name, path == NULL ? "standard input" : path);
    head_file(job);
    switch (input_open(&job->input, path)) {
    case INPUT_NOT_OPENED:
        status = tell_not_opened(job, errno);
        break;
    case INPUT_DIRECTORY:
        status = tell_directory(job);
        break;
    default:
        status = read_log(job);
        break;
    }
    progress_hide(&job->progress);
    input_close(&job->input);
    return status;
}
