// records: print the records of a Windows event log, a whole file or one chunk of it, with their tokens and whom each belongs to.
//
// The example of the C calls, made to be copied: it lends buffers that are always enough, reads each live record, its tokens and
// their owners, by one call, and keeps three things apart that must not be mixed up: a log with something unreadable in it, an input
// that is no log, and a buffer that was lent too short, which is a bug of the caller.
#include <errno.h>
#include <inttypes.h>
#include <stdio.h>
#include <stdlib.h>
#include <string.h>

#include "doortumble.h"

// The buffers' lengths in words, always enough: so nothing is asked for twice, and the same sheet and owner table serve record
// after record. They can be set from outside only so that a test can see what is said of a short one.
#ifndef ROWS_LEN
#define ROWS_LEN(bytes) doortumble_file_words(bytes) // enough for a chunk's rows too
#endif
#ifndef HEADER_LEN
#define HEADER_LEN DOORTUMBLE_FILE_HEADER_WORDS
#endif
#ifndef SHEET_LEN
#define SHEET_LEN (DOORTUMBLE_MOST_TOKENS * DOORTUMBLE_SHEET_WORDS)
#endif
#ifndef OWNERS_LEN
#define OWNERS_LEN DOORTUMBLE_MOST_TOKENS
#endif

enum status {
    ALL_READ = 0,
    SOME_REFUSED = 1,
    NO_LOG = 2,
    SHORT_BUFFER = 3,
    FAILED = 4
};

// What is read, and what is lent to the calls. All of it goes to the heap: a log may be as large as the disk.
struct job {
    const char *name; // of the input, for a person
    uint8_t *bytes;
    size_t length;
    uint64_t *rows;
    size_t rows_len;
    uint64_t sheet[SHEET_LEN];
    uint32_t owners[OWNERS_LEN];
};

struct counts {
    unsigned live;
    unsigned carved;
    unsigned refused; // records that the walk could not read, and chunks that are none
    unsigned unread;  // live records whose stream is no event body
};

static void print_help(void)
{
    fputs("usage: records [FILE]\n"
          "\n"
          "Reads a Windows event log from FILE, or from standard input where no FILE is named, and prints its records.\n"
          "It takes a whole log file, or one chunk of it: what begins with \"ElfChnk\" is a chunk.\n"
          "\n"
          "Where the start of a log file is lost, its chunks can still be read: a log file is a header of 4,096 bytes\n"
          "and then chunks of 65,536 bytes. This cuts out the first chunk; for the second, skip 17 in place of 1, then\n"
          "33, and so on:\n"
          "\n"
          "    dd if=LOG of=CHUNK bs=4096 skip=1 count=16\n"
          "\n"
          "What a line begins with:\n"
          "    chunk     of a log file: where the chunk begins in the file, in bytes\n"
          "    live      a record that belongs to the chunk; below it stand its tokens, each indented below the\n"
          "              token that owns it, or one line that begins with 'refused'. 'name' is where a token's name\n"
          "              stands, 'announced' says that an open token announces attributes\n"
          "    carved    an old record, found where no live one stands: not part of the log any more\n"
          "    refused   something that cannot be read: the refusal's number, its place, and what happened\n"
          "    done      the counts: chunks of a log file, live records, carved ones, what was refused, and live\n"
          "              records whose tokens were refused ('unread'). Without this line the output is not complete\n"
          "Places are bytes from the start of the chunk; tokens are numbered from 0.\n"
          "\n"
          "Exit status:\n"
          "    0  everything was read\n"
          "    1  something in the log was refused; the rest was read\n"
          "    2  the input is neither a log file nor a chunk\n"
          "    3  a buffer was too short: a bug in this program, not in the input\n"
          "    4  wrong usage, no memory, or the input could not be read or the output not be written\n",
          stdout);
}

// ---------------------------------------------------------------------------------------------------------------- input

static enum status tell_no_memory(const struct job *job, size_t bytes)
{
    fprintf(stderr, "records: there is no memory for the %zu bytes that %s needs. End other programs and run again.\n", bytes,
            job->name);
    return FAILED;
}

// Reads all that there is, into a buffer that doubles when it is full.
static enum status read_all(struct job *job, FILE *in)
{
    size_t room = DOORTUMBLE_CHUNK_BYTES;
    size_t got;

    do {
        uint8_t *more = realloc(job->bytes, 2 * room);

        if (more == NULL)
            return tell_no_memory(job, 2 * room);
        job->bytes = more;
        room *= 2;
        got = fread(job->bytes + job->length, 1, room - job->length, in);
        job->length += got;
    } while (job->length == room);
    if (!ferror(in))
        return ALL_READ;
    fprintf(stderr, "records: cannot read %s: %s. Nothing was listed; see that it can be read and run again.\n", job->name,
            strerror(errno));
    return FAILED;
}

// Reads a file, or standard input where path is null.
static enum status read_input(struct job *job, const char *path)
{
    FILE *in = path == NULL ? stdin : fopen(path, "rb");
    enum status status;

    if (in == NULL) {
        fprintf(stderr, "records: cannot open %s: %s. Name a log file, or a file that holds one chunk.\n", job->name,
                strerror(errno));
        return FAILED;
    }
    status = read_all(job, in);
    if (in != stdin)
        fclose(in); // it was only read, so there is nothing to lose here
    return status;
}

// ------------------------------------------------------------------------------------------------------------- refusals

// A refusal of what is in the log is part of the listing.
static void print_refusal(unsigned number, uint64_t place, const char *why)
{
    printf("refused %u %s %" PRIu64 ": %s\n", number, doortumble_place_is(number), place, why);
}

static enum status tell_no_chunk(const struct job *job, uint64_t answer)
{
    fprintf(stderr,
            "records: %s is no chunk (refusal %u): it begins like one, but a chunk has %d bytes and this has %zu. Cut one chunk"
            " out of a log as 'records --help' shows, or name the log file itself.\n",
            job->name, doortumble_number(answer), DOORTUMBLE_CHUNK_BYTES, job->length);
    return NO_LOG;
}

static enum status tell_no_file(const struct job *job, uint64_t answer)
{
    size_t n;

    fprintf(stderr, "records: %s is no log (refusal %u): it has %zu bytes", job->name, doortumble_number(answer), job->length);
    if (job->length > 0)
        fputs(" and begins with", stderr);
    for (n = 0; n < 8 && n < job->length; n++)
        fprintf(stderr, " %02X", (unsigned)job->bytes[n]);
    fputs(". A log file has 128 at least and begins with 45 6C 66 46 69 6C 65 00 (\"ElfFile\" and a zero). Name the .evtx file"
          " itself; if its start was overwritten, cut out its chunks as 'records --help' shows.\n",
          stderr);
    return NO_LOG;
}

static enum status tell_short_buffer(const char *what, size_t words, uint64_t answer)
{
    fprintf(stderr,
            "records: a bug in this program, not in the input (refusal %u): %zu words were lent for the %s, and %" PRIu64
            " are needed. Lend as many and build it again; what was printed is not complete.\n",
            doortumble_number(answer), words, what, doortumble_place(answer));
    return SHORT_BUFFER;
}

// --------------------------------------------------------------------------------------------------------------- tokens

static const char *kind_name(unsigned kind)
{
    switch (kind) {
    case DOORTUMBLE_KIND_INSTANCE:
        return "instance";
    case DOORTUMBLE_KIND_OPEN:
        return "open";
    case DOORTUMBLE_KIND_CLOSE_START:
        return "close-start";
    case DOORTUMBLE_KIND_CLOSE_EMPTY:
        return "close-empty";
    case DOORTUMBLE_KIND_CLOSE_ELEMENT:
        return "close-element";
    case DOORTUMBLE_KIND_VALUE:
        return "value";
    case DOORTUMBLE_KIND_ATTRIBUTE:
        return "attribute";
    case DOORTUMBLE_KIND_ENTITY_REF:
        return "entity-ref";
    case DOORTUMBLE_KIND_PI_TARGET:
        return "pi-target";
    case DOORTUMBLE_KIND_PI_DATA:
        return "pi-data";
    case DOORTUMBLE_KIND_CDATA:
        return "cdata";
    case DOORTUMBLE_KIND_CHAR_REF:
        return "char-ref";
    case DOORTUMBLE_KIND_SUBSTITUTION:
        return "substitution";
    default:
        return "unknown";
    }
}

// How many owners stand above a token. It comes to an end, since an owner's number is less than that of what it owns.
static int level_of(const uint32_t *owners, uint64_t n)
{
    int level = 0;

    while (doortumble_has_owner(owners[n])) {
        n = doortumble_owner(owners[n]);
        level++;
    }
    return level;
}

// Where the name stands, of the kinds that have one. A name may stand at 0: only the kind tells whether there is any.
static void print_name(doortumble_token token)
{
    if (doortumble_has_name(token))
        printf(" name %" PRIu32, token.name);
    if (token.announced)
        fputs(" announced", stdout);
}

// The number and the flag, of the kinds that have them. A dependency of 0 is one: only the flag tells whether there is any.
static void print_number(doortumble_token token)
{
    if (token.kind == DOORTUMBLE_KIND_OPEN && token.flag)
        printf(" dependency %u", token.number);
    else if (token.kind == DOORTUMBLE_KIND_CHAR_REF)
        printf(" char %u", token.number);
    else if (token.kind == DOORTUMBLE_KIND_SUBSTITUTION)
        printf(" number %u%s", token.number, token.flag ? " optional" : "");
}

static void print_token(const struct job *job, uint64_t n)
{
    doortumble_token token = doortumble_token_at(job->sheet, n);

    // One step below the record's own line, and one more for each owner and for each value that it stands in.
    printf("%*s%s %" PRIu64 " place %" PRIu32 " length %" PRIu32 " owner ", 2 + 2 * (level_of(job->owners, n) + (int)token.level), "",
           kind_name(token.kind), n, token.place, token.length);
    if (doortumble_has_owner(job->owners[n]))
        printf("%" PRIu32, doortumble_owner(job->owners[n]));
    else
        putchar('-');
    print_name(token);
    print_number(token);
    putchar('\n');
}

// -------------------------------------------------------------------------------------------------------------- records

// A refused answer for a record's stream: a line of the listing, or our own bug. The sheet's room is asked for first, and its words
// are twice as many as the tokens; so where it has them, the table is too short.
static enum status print_unread(uint64_t answer)
{
    unsigned number = doortumble_number(answer);

    if (number == DOORTUMBLE_NO_ROOM && doortumble_place(answer) > SHEET_LEN)
        return tell_short_buffer("sheet", SHEET_LEN, answer);
    if (number == DOORTUMBLE_NO_ROOM)
        return tell_short_buffer("owner table", OWNERS_LEN, answer);
    fputs("  ", stdout);
    print_refusal(number, doortumble_place(answer), doortumble_why(number));
    return SOME_REFUSED;
}

// The tokens of a live record. The stream is the whole chunk, since names are offsets in the chunk. The open tokens of a record
// carry no dependency (only those of template definitions do), and its names are not inline. A record's event mostly stands in a value
// of its instance, and its tokens come right after that.
static enum status print_tokens(struct job *job, const uint8_t *chunk, doortumble_row row)
{
    uint32_t start = doortumble_payload_start(row);
    uint32_t length = doortumble_payload_length(row);
    uint64_t answer = doortumble_bodies(chunk, DOORTUMBLE_CHUNK_BYTES, start, length, 0, 0, job->sheet, SHEET_LEN, job->owners,
                                        OWNERS_LEN);
    uint64_t n;

    if (doortumble_refused(answer))
        return print_unread(answer);
    for (n = 0; n < doortumble_count(answer); n++)
        print_token(job, n);
    return ALL_READ;
}

static void print_record(const char *item, doortumble_row row)
{
    printf("%s offset %" PRIu64 " size %" PRIu64 " id %" PRIu64 " filetime %" PRIu64 "\n", item, row.offset, row.size, row.id,
           row.filetime);
}

// Whether a chunk is all zeros, as a log keeps its last ones in stock.
static int is_unwritten(const uint8_t *chunk)
{
    return chunk[0] == 0 && memcmp(chunk, chunk + 1, DOORTUMBLE_CHUNK_BYTES - 1) == 0;
}

// A refused row: the offset is the refusal's place, the size its number. Only a file's rest is refused 1, and only a chunk, which
// then has all its bytes, 4 at 0: records begin at 512.
static void print_refused(const uint8_t *chunk, doortumble_row row)
{
    unsigned number = (unsigned)row.size;
    const char *why = doortumble_why(number);

    if (number == DOORTUMBLE_WRONG_LENGTH)
        why = "the file ends in the middle of this chunk: it was cut, or its copy stopped early";
    else if (number == DOORTUMBLE_WRONG_MAGIC && row.offset == 0 && is_unwritten(chunk))
        why = "this chunk is all zeros: nothing was written here yet, or it was wiped";
    print_refusal(number, row.offset, why);
}

static enum status print_row(struct job *job, const uint8_t *chunk, doortumble_row row, struct counts *counts)
{
    enum status status = ALL_READ;

    switch (row.item) {
    case DOORTUMBLE_ROW_LIVE:
        counts->live++;
        print_record("live", row);
        status = print_tokens(job, chunk, row);
        counts->unread += status == SOME_REFUSED;
        break;
    case DOORTUMBLE_ROW_CARVED:
        counts->carved++;
        print_record("carved", row);
        break;
    default:
        counts->refused++;
        print_refused(chunk, row);
        status = SOME_REFUSED;
        break;
    }
    return status;
}

// The last line, and what to do about refusals.
static enum status print_done(const struct job *job, const struct counts *counts)
{
    unsigned refusals = counts->refused + counts->unread;

    printf("live %u carved %u refused %u unread %u\n", counts->live, counts->carved, counts->refused, counts->unread);
    if (refusals == 0)
        return ALL_READ;
    fprintf(stderr,
            "records: %u refusals in %s. Merge nothing from what was refused; the lines with 'refused' say where and why.\n",
            refusals, job->name);
    return SOME_REFUSED;
}

// ------------------------------------------------------------------------------------------------------- chunk and file

static enum status print_chunk(struct job *job)
{
    struct counts counts = {0, 0, 0, 0};
    uint64_t answer = doortumble_list(job->bytes, job->length, 1, job->rows, job->rows_len);
    uint64_t n;

    if (doortumble_number(answer) == DOORTUMBLE_NO_ROOM)
        return tell_short_buffer("rows", job->rows_len, answer);
    if (doortumble_refused(answer))
        return tell_no_chunk(job, answer);
    for (n = 0; n < doortumble_count(answer); n++)
        if (print_row(job, job->bytes, doortumble_row_at(job->rows, n), &counts) == SHORT_BUFFER)
            return SHORT_BUFFER;
    fputs("done ", stdout);
    return print_done(job, &counts);
}

// Where the first chunk of a log file begins, as its header says: the next ones stand each 65,536 bytes on.
static enum status read_first_chunk(const struct job *job, size_t *at)
{
    uint64_t header[DOORTUMBLE_FILE_HEADER_WORDS];
    uint64_t answer = doortumble_file_header(job->bytes, job->length, header, HEADER_LEN);

    if (doortumble_number(answer) == DOORTUMBLE_NO_ROOM)
        return tell_short_buffer("file header", HEADER_LEN, answer);
    if (doortumble_refused(answer))
        return tell_no_file(job, answer);
    *at = doortumble_file_header_of(header).block_size;
    return ALL_READ;
}

// The rows come in the order of the chunks. A chunk without a row, since it holds no record, has its line all the same.
static enum status print_file(struct job *job)
{
    struct counts counts = {0, 0, 0, 0};
    uint64_t answer;
    uint64_t n = 0;
    unsigned chunks = 0;
    size_t first = 0;
    size_t at;
    enum status status = read_first_chunk(job, &first);

    if (status != ALL_READ)
        return status;
    answer = doortumble_list_file(job->bytes, job->length, 1, job->rows, job->rows_len);
    if (doortumble_number(answer) == DOORTUMBLE_NO_ROOM)
        return tell_short_buffer("rows", job->rows_len, answer);
    if (doortumble_refused(answer))
        return tell_no_file(job, answer);
    for (at = first; at < job->length; at += DOORTUMBLE_CHUNK_BYTES) {
        printf("chunk offset %zu\n", at);
        chunks++;
        for (; n < doortumble_count(answer) && doortumble_file_row_at(job->rows, n).chunk == at; n++)
            if (print_row(job, job->bytes + at, doortumble_file_row_at(job->rows, n).row, &counts) == SHORT_BUFFER)
                return SHORT_BUFFER;
    }
    if (chunks == 0)
        fprintf(stderr,
                "records: %s holds no chunk: it has %zu bytes, and its first chunk would begin at %zu. If the log had records, its"
                " copy stopped early: fetch it again.\n",
                job->name, job->length, first);
    printf("done chunks %u ", chunks);
    return print_done(job, &counts);
}

// -------------------------------------------------------------------------------------------------------------- program

// A chunk is told by its first bytes; all else has to be a log file.
static enum status print_input(struct job *job)
{
    if (job->length >= 8 && memcmp(job->bytes, "ElfChnk", 8) == 0)
        return print_chunk(job);
    return print_file(job);
}

static enum status list_input(struct job *job, const char *path)
{
    enum status status = read_input(job, path);

    if (status != ALL_READ)
        return status;
    job->rows_len = ROWS_LEN(job->length);
    job->rows = malloc(job->rows_len * sizeof *job->rows);
    if (job->rows == NULL)
        return tell_no_memory(job, job->rows_len * sizeof *job->rows);
    return print_input(job);
}

static enum status run(const char *path)
{
    struct job *job = calloc(1, sizeof *job);
    enum status status;

    if (job == NULL) {
        fprintf(stderr, "records: there is no memory for %zu bytes. End other programs and run again.\n", sizeof *job);
        return FAILED;
    }
    job->name = path == NULL ? "standard input" : path;
    status = list_input(job, path);
    free(job->rows);
    free(job->bytes);
    free(job);
    return status;
}

// Output that did not arrive is a failure, whatever was read.
static enum status end_output(enum status status)
{
    if (fflush(stdout) == 0 && !ferror(stdout))
        return status;
    fputs("records: the output could not be written. Make room where it goes and run again.\n", stderr);
    return FAILED;
}

int main(int argc, char **argv)
{
    if (argc == 2 && strcmp(argv[1], "--help") == 0) {
        print_help();
        return end_output(ALL_READ);
    }
    if (argc > 2 || (argc == 2 && argv[1][0] == '-')) {
        fputs("records: it takes one file at most and no option but --help. Run 'records --help'.\n", stderr);
        return FAILED;
    }
    return end_output(run(argc == 2 ? argv[1] : NULL));
}
