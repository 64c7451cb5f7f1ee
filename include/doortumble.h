// doortumble.h: read Windows event logs from C (C99 or later) or C++.
//
// Eleven calls of the reader, and the merge, over what the caller lends:
//
//   doortumble_list_file      the records of a whole log file, six words a row
//   doortumble_list           the records of a chunk, five words a row
//   doortumble_body           the tokens of a record's stream, two words a token, and which token each belongs to, where the
//                             stream is one event body
//   doortumble_bodies         the same with the bodies that its values hold (an archive of its own)
//   doortumble_event          what a record says: each value with the element and the attribute on which it hangs, six words a row
//                             (an archive of its own)
//   doortumble_definition     where the tokens of an instance's definition stand (in the same archive)
//   doortumble_name           the name at an offset (in the same archive)
//   doortumble_definition     where the tokens of an instance's definition stand (in the same archive)
//   doortumble_widen          a stream's sheet from a kept one of the old layout, which has one word a token
//   doortumble_narrow         a sheet of the old layout from one of two words a token
//   doortumble_file_header    the numbers of a log file's header, and whether its checksum is right
//   doortumble_chunk_header   the numbers of a chunk's header, and whether its two checksums are right
//   doortumble_merge          two controllers' lists of writes merged, three words a row (an archive of its own)
//
// To read a record, hand its row to doortumble_body or doortumble_bodies like this: the stream is the WHOLE chunk, since names are
// offsets in the chunk (of a file: the 65,536 bytes from the row's chunk on); start and length are doortumble_payload_start and
// doortumble_payload_length of the row; both flags are 0, since the open tokens of a record carry no dependency and its names are
// not inline.
// examples/records.c does just that.
//
// Of every call:
//   - It takes every input. What cannot be read is refused with a number and a place; doortumble_why says it in words.
//   - A refusal leaves the lent words as they were. Without a refusal, the words past the count stay as they were.
//   - It keeps nothing when it returns, allocates nothing, and needs at most 1 MiB of stack. Calls may run side by side.
//   - A null pointer with length 0 is allowed, for bytes and for words. Any other pointer must be good for its whole length.
//   - The lent words must not overlap the bytes or the words that are given, and nobody may change any of them while the call
//     runs.
//
// Link with target/staticlib/libdoortumble.a, which `command/archive doortumble` makes; doortumble_bodies, and it alone, is in
// target/staticlib/libnest_call.a (`command/archive nest_call`), doortumble_event, doortumble_name and doortumble_definition in
// target/staticlib/libevent_call.a (`command/archive event_call`), and doortumble_merge in target/staticlib/libmerge_call.a
// (`command/archive merge_call`). Each links by itself or beside the others.
#ifndef DOORTUMBLE_H
#define DOORTUMBLE_H

#include <stddef.h>
#include <stdint.h>

#ifdef __cplusplus
extern "C" {
#endif

// ---------------------------------------------------------------------------------------------------------------- sizes

#define DOORTUMBLE_CHUNK_BYTES 65536     // a chunk has exactly these; a stream has no more
#define DOORTUMBLE_ROW_WORDS 5           // words in a row of a chunk's listing
#define DOORTUMBLE_FILE_ROW_WORDS 6      // words in a row of a file's listing
#define DOORTUMBLE_FILE_HEADER_WORDS 11  // words of a file's header
#define DOORTUMBLE_CHUNK_HEADER_WORDS 12 // words of a chunk's header
#define DOORTUMBLE_MOST_ROWS 4645        // no chunk has more rows
#define DOORTUMBLE_MOST_TOKENS 65536     // no stream has more tokens: each is a byte at least
#define DOORTUMBLE_SHEET_WORDS 2         // words of a token in a sheet
#define DOORTUMBLE_ITEM_WORDS 6          // words in a row of an event
#define DOORTUMBLE_WRITE_WORDS 3         // words of a write, and of a row of a merge
#define DOORTUMBLE_MOST_WRITES 4096      // no list that is merged has more writes

// ------------------------------------------------------------------------------------------------------------- refusals

// What a refusal's number means, and what its place is then.
enum {
    DOORTUMBLE_WRONG_LENGTH = 1,    // chunk not 65,536 bytes (a file's rest), or stream longer than that; place: 0
    DOORTUMBLE_PAST_END = 2,        // position set past the stream's end; place: that position
    DOORTUMBLE_TOO_FEW_BYTES = 3,   // too few bytes for a read; place: where the read starts (a record: its offset)
    DOORTUMBLE_WRONG_MAGIC = 4,     // chunk or record magic wrong; place: the header's offset
    DOORTUMBLE_SMALL_RECORD = 5,    // record size below 28; place: the record's offset
    DOORTUMBLE_LATE_FILETIME = 6,   // FILETIME above 2,650,466,808,009,999,999; place: the record's offset
    DOORTUMBLE_UNKNOWN_TYPE = 7,    // type code unknown; place: after the code
    DOORTUMBLE_TYPE_NOT_READ = 8,   // type known, not read here; place: the value's start
    DOORTUMBLE_UNKNOWN_TOKEN = 9,   // token byte unknown; place: after the byte
    DOORTUMBLE_UNEVEN_ARRAY = 10,   // array size no multiple of its element; place: the value's start
    DOORTUMBLE_NAME_NOT_ENDED = 11, // inline name without final zero unit; place: the name's start
    DOORTUMBLE_NAME_HASH = 12,      // inline name hash wrong; place: the name's start
    DOORTUMBLE_NO_BODY = 13,        // no body begins with the tokens through this one; place: token number
    DOORTUMBLE_TOO_DEEP = 14,       // opens level 65; place: token number
    DOORTUMBLE_UNFINISHED = 15,     // body unfinished; place: count of tokens
    DOORTUMBLE_NO_ROOM = 16,        // lent words too few; place: words needed
    DOORTUMBLE_SIZE_COPY = 17,      // a record's size copy differs; place: the record's offset (no call here answers it)
    DOORTUMBLE_WRONG_FILE = 18,     // fewer than 128 bytes, or wrong file magic; place: 0
    DOORTUMBLE_WRONG_SHEET = 19,    // not the stream's sheet; place: number of the first word wrong, missing or extra
    DOORTUMBLE_DISAGREE = 20,       // attribute bit and attributes disagree; place: token number
    DOORTUMBLE_NINTH_LEVEL = 21,    // a body in a value would be the ninth level; place: the value's start
    DOORTUMBLE_LONG_LIST = 27,      // a list of writes too long; place: 0 for the primary's, else 1
    DOORTUMBLE_SHORT_RESULT = 28,   // result too short; place: rows needed
    DOORTUMBLE_PAST_VALUE = 29,     // the walk of a body in a value ends past it; place: the value's start
    DOORTUMBLE_OTHER_DEFINITION = 30, // where an instance's definition was, another stands; place: that offset
    DOORTUMBLE_NO_ELEMENT = 31,     // an instance's definition is no element; place: its offset
    DOORTUMBLE_PAST_COUNT = 32      // a substitution asks for a value past the last; place: the substitution's
};

// Why, in words, for the person who has to act on it.
static inline const char *doortumble_why(unsigned number)
{
    switch (number) {
    case DOORTUMBLE_WRONG_LENGTH:
        return "this is no chunk, which has 65,536 bytes, or it is a stream longer than that";
    case DOORTUMBLE_PAST_END:
        return "a position was set past the end: the input is cut, or a length or an offset in it is wrong";
    case DOORTUMBLE_TOO_FEW_BYTES:
        return "the input ends in the middle of a field";
    case DOORTUMBLE_WRONG_MAGIC:
        return "the bytes that every chunk or record begins with are not there: it was overwritten, or never was one";
    case DOORTUMBLE_SMALL_RECORD:
        return "the record says that it is shorter than its own header: the header is damaged";
    case DOORTUMBLE_LATE_FILETIME:
        return "the record's time lies past the year 9999: its header is damaged";
    case DOORTUMBLE_UNKNOWN_TYPE:
        return "a value's type code is not one that exists";
    case DOORTUMBLE_TYPE_NOT_READ:
        return "a value's type exists but cannot stand here";
    case DOORTUMBLE_UNKNOWN_TOKEN:
        return "a byte where a token should begin is no token: the stream is damaged, or read from the wrong place";
    case DOORTUMBLE_UNEVEN_ARRAY:
        return "an array's size is no multiple of its element's";
    case DOORTUMBLE_NAME_NOT_ENDED:
        return "an inline name does not end in a zero unit";
    case DOORTUMBLE_NAME_HASH:
        return "an inline name and its hash disagree: one of the two is damaged";
    case DOORTUMBLE_NO_BODY:
        return "this token cannot stand here: no event body begins like this, whatever follows";
    case DOORTUMBLE_TOO_DEEP:
        return "this token opens an element at level 65, and only 64 levels are read";
    case DOORTUMBLE_UNFINISHED:
        return "the tokens end before the event body does: its rest is missing";
    case DOORTUMBLE_NO_ROOM:
        return "the words lent are too few: lend as many as the place says";
    case DOORTUMBLE_SIZE_COPY:
        return "a record's two sizes disagree: its end was overwritten";
    case DOORTUMBLE_WRONG_FILE:
        return "this is no event log file: it has fewer than 128 bytes, or does not begin with \"ElfFile\" and a zero";
    case DOORTUMBLE_WRONG_SHEET:
        return "the sheet given is not this stream's: from the word at the place on it was changed, cut or made longer, or it was made "
               "with another start, length or flags";
    case DOORTUMBLE_DISAGREE:
        return "an element has attributes that its open token does not announce, or lacks the ones that it announces";
    case DOORTUMBLE_NINTH_LEVEL:
        return "a value holds a body eight levels down already, and only eight are read";
    case DOORTUMBLE_PAST_VALUE:
        return "the tokens in a value end past it: its size is wrong, or they are damaged";
    case DOORTUMBLE_OTHER_DEFINITION:
        return "the definition that this record was written with was overwritten by another one: its values cannot be told by name, and "
               "must not be";
    case DOORTUMBLE_NO_ELEMENT:
        return "what stands where the record's definition should be is no element: it was overwritten, or the offset is damaged";
    case DOORTUMBLE_PAST_COUNT:
        return "the definition asks for more values than the record has: one of the two is damaged";
    case DOORTUMBLE_LONG_LIST:
        return "a list has more than 4,096 writes: the primary's (place 0), or else the other's (place 1)";
    case DOORTUMBLE_SHORT_RESULT:
        return "the result is too short: lend three words for each of as many rows as the place says";
    default:
        return "there is no such refusal: this header does not belong to the library that was linked";
    }
}

// What the place of a refusal counts, in a word: "offset" (bytes from the start of the chunk, stream or file), "token" (a token's
// number, from 0), "tokens" (how many there are), "word" (a word's number, from 0), "words" or "rows" (how many are needed) or "list" (0 the
// primary's, 1 the other's).
static inline const char *doortumble_place_is(unsigned number)
{
    switch (number) {
    case DOORTUMBLE_NO_BODY:
    case DOORTUMBLE_TOO_DEEP:
    case DOORTUMBLE_DISAGREE:
        return "token";
    case DOORTUMBLE_UNFINISHED:
        return "tokens";
    case DOORTUMBLE_WRONG_SHEET:
        return "word";
    case DOORTUMBLE_NO_ROOM:
        return "words";
    case DOORTUMBLE_LONG_LIST:
        return "list";
    case DOORTUMBLE_SHORT_RESULT:
        return "rows";
    default:
        return "offset";
    }
}

// ------------------------------------------------------------------------------------------------------------ an answer

// Every call answers one word, most significant bit first: refused 1 bit, number 7, 16 zeros, place or count 40.

// Not 0 where the call refused.
static inline int doortumble_refused(uint64_t answer)
{
    return (answer >> 63) != 0;
}

// The refusal's number; 0 where the call did not refuse.
static inline unsigned doortumble_number(uint64_t answer)
{
    return (answer >> 56) & 0x7F;
}

// The refusal's place. Only where the call refused.
static inline uint64_t doortumble_place(uint64_t answer)
{
    return answer & 0xFFFFFFFFFF;
}

// How many rows or tokens there are, or words of a header. Only where the call did not refuse.
static inline uint64_t doortumble_count(uint64_t answer)
{
    return answer & 0xFFFFFFFFFF;
}

// ------------------------------------------------------------------------------------------------------------- the list

// List a chunk: walk its records from the first to the last and, with recovery, look for old ones where no live one stands.
//
//   chunk, chunk_len   the bytes of one chunk, 65,536 of them
//   recovery           not 0: carve old records too; 0: do not
//   rows, rows_len     lent for the rows, and their length in words; DOORTUMBLE_MOST_ROWS * DOORTUMBLE_ROW_WORDS is always
//                      enough
//
// Answer: how many rows were written, or a refusal: 1 or 4 where this is no chunk, then 16 where the rows are too short (its
// place is the words needed, so a call with 0 words asks for them). A record that cannot be read is no refusal of the call: it
// has a row of its own, and the walk goes on at the next live record that it can find.
//
// A refusal leaves the rows as they were; words past the last row stay. Nothing is kept or allocated, at most 1 MiB of stack is
// needed, and a null pointer with length 0 is allowed.
uint64_t doortumble_list(const uint8_t *chunk, size_t chunk_len, uint32_t recovery, uint64_t *rows, size_t rows_len);

// What a row is about.
enum {
    DOORTUMBLE_ROW_LIVE = 1,   // a record that belongs to the chunk
    DOORTUMBLE_ROW_CARVED = 2, // an old record, found where no live one stands
    DOORTUMBLE_ROW_REFUSED = 3 // a record that cannot be read
};

typedef struct doortumble_row {
    uint64_t item;     // 1 to 3, see above
    uint64_t offset;   // of the record in the chunk; refused: the refusal's place
    uint64_t size;     // of the record in bytes; refused: the refusal's number
    uint64_t id;       // of the record; refused: 0
    uint64_t filetime; // of the record, in steps of 100 ns from the year 1601; refused: 0
} doortumble_row;

// Row n, counted from 0, of the rows that doortumble_list wrote.
static inline doortumble_row doortumble_row_at(const uint64_t *rows, uint64_t n)
{
    const uint64_t *words = rows + n * DOORTUMBLE_ROW_WORDS;
    doortumble_row row;

    row.item = words[0];
    row.offset = words[1];
    row.size = words[2];
    row.id = words[3];
    row.filetime = words[4];
    return row;
}

// Where the stream of a live or carved record starts in its chunk: after the record's header, which has 24 bytes.
static inline uint32_t doortumble_payload_start(doortumble_row row)
{
    return (row.offset + 24) & 0xFFFFFFFF;
}

// How long it is: the record less its header and the copy of its size, which has 4 bytes. A refused row has none: 0.
static inline uint32_t doortumble_payload_length(doortumble_row row)
{
    return row.size < 28 ? 0 : (row.size - 28) & 0xFFFFFFFF;
}

// ------------------------------------------------------------------------------------------------------------- the file

// List a whole log file: its chunks one after the other to the end of the file, each as doortumble_list lists it.
//
//   file, file_len   the bytes of the file, all of them, from its header on
//   recovery         not 0: carve old records too; 0: do not
//   rows, rows_len   lent for the rows, and their length in words. doortumble_file_words(file_len) words are always enough, and
//                    then the file is gone through once; with fewer its rows are counted first, which takes as long again
//
// Answer: how many rows were written, or a refusal: 18 where this is no log file, then 16 where the rows are too short (its
// place is the words needed, so a call with 0 words asks for them). What cannot be read within the file is no refusal of the
// call: it has a row of its own, and nothing in one chunk changes the rows of another.
//   - A chunk that does not begin like one (overwritten, or zeros that were never written) has one row: refused 4 at 0.
//   - Where the file ends in the middle of a chunk, that rest has one row: refused 1 at 0.
//   - A chunk without records has no row, and a file that ends at or before its first chunk has none at all.
// The first chunk begins at the header's block size (doortumble_file_header), the next ones each 65,536 bytes on. How many
// chunks the header says there are, and whether its checksum is right, decides nothing.
//
// A refusal leaves the rows as they were; words past the last row stay. Nothing is kept or allocated, at most 1 MiB of stack is
// needed, and a null pointer with length 0 is allowed.
uint64_t doortumble_list_file(const uint8_t *file, size_t file_len, uint32_t recovery, uint64_t *rows, size_t rows_len);

// Words that hold every row that a file of this length can have: the most rows for each begun 65,536 bytes. That is 3.4 times
// the file's own size; an ordinary log fills a small part of it, and memory that is not written to costs little.
static inline size_t doortumble_file_words(size_t file_len)
{
    return (file_len / DOORTUMBLE_CHUNK_BYTES + 1) * DOORTUMBLE_MOST_ROWS * DOORTUMBLE_FILE_ROW_WORDS;
}

typedef struct doortumble_file_row {
    uint64_t chunk;     // offset in the file of the chunk that the row is about
    doortumble_row row; // as in the chunk's own listing: offsets count from the chunk's start
} doortumble_file_row;

// Row n, counted from 0, of the rows that doortumble_list_file wrote.
static inline doortumble_file_row doortumble_file_row_at(const uint64_t *rows, uint64_t n)
{
    const uint64_t *words = rows + n * DOORTUMBLE_FILE_ROW_WORDS;
    doortumble_file_row row;

    row.chunk = words[0];
    row.row = doortumble_row_at(words + 1, 0);
    return row;
}

// ---------------------------------------------------------------------------------------------------------- the headers

// Read the header of a log file.
//
//   file, file_len     the bytes of the file, from its first on: 128 are enough, and more are not looked at
//   words, words_len   lent for the header's words, and their length: DOORTUMBLE_FILE_HEADER_WORDS
//
// Answer: DOORTUMBLE_FILE_HEADER_WORDS, or a refusal: 18 where this is no log file, then 16 where the words are too few (its
// place is the words needed). A wrong checksum is no refusal: it is one of the words.
//
// A refusal leaves the words as they were; words past the header's stay. Nothing is kept or allocated, at most 1 MiB of stack is
// needed, and a null pointer with length 0 is allowed.
uint64_t doortumble_file_header(const uint8_t *file, size_t file_len, uint64_t *words, size_t words_len);

// Bits of a file's flags.
enum {
    DOORTUMBLE_FILE_DIRTY = 1,      // not closed when it was copied: the header's numbers may lag behind the chunks
    DOORTUMBLE_FILE_FULL = 2,       // it has reached its size
    DOORTUMBLE_FILE_NO_CHECKSUM = 4 // the header says that it stores no checksum
};

typedef struct doortumble_file_header_fields {
    uint64_t first_chunk;    // number of the first chunk and of the last one, from 0
    uint64_t last_chunk;
    uint64_t next_record_id; // what the next record would have got
    uint32_t header_size;
    unsigned minor_version;
    unsigned major_version;
    uint32_t block_size;     // where the first chunk begins
    uint32_t chunk_count;    // what the header says: chunks go on to the end of the file, whatever that is
    uint32_t flags;          // see above
    uint32_t checksum;       // as it is stored
    int checksum_right;      // 1 where it is the CRC-32 of the header's first 120 bytes, whatever the flags say; else 0
} doortumble_file_header_fields;

// The fields of the words that doortumble_file_header wrote.
static inline doortumble_file_header_fields doortumble_file_header_of(const uint64_t *words)
{
    doortumble_file_header_fields fields;

    fields.first_chunk = words[0];
    fields.last_chunk = words[1];
    fields.next_record_id = words[2];
    fields.header_size = words[3] & 0xFFFFFFFF;
    fields.minor_version = words[4] & 0xFFFF;
    fields.major_version = words[5] & 0xFFFF;
    fields.block_size = words[6] & 0xFFFF;
    fields.chunk_count = words[7] & 0xFFFF;
    fields.flags = words[8] & 0xFFFFFFFF;
    fields.checksum = words[9] & 0xFFFFFFFF;
    fields.checksum_right = words[10] != 0;
    return fields;
}

// Read the header of a chunk.
//
//   chunk, chunk_len   the bytes of one chunk, 65,536 of them
//   words, words_len   lent for the header's words, and their length: DOORTUMBLE_CHUNK_HEADER_WORDS
//
// Answer: DOORTUMBLE_CHUNK_HEADER_WORDS, or a refusal: 1 or 4 where this is no chunk, then 16 where the words are too few (its
// place is the words needed). A wrong checksum is no refusal: it is one of the words. All bytes before the free space are gone
// through for the events checksum: some 40 microseconds.
//
// A refusal leaves the words as they were; words past the header's stay. Nothing is kept or allocated, at most 1 MiB of stack is
// needed, and a null pointer with length 0 is allowed.
uint64_t doortumble_chunk_header(const uint8_t *chunk, size_t chunk_len, uint64_t *words, size_t words_len);

// Bits of a chunk's flags.
enum {
    DOORTUMBLE_CHUNK_DIRTY = 1,      // it was written to; full chunks with right checksums have it too, so it is no sign of damage
    DOORTUMBLE_CHUNK_NO_CHECKSUM = 4 // the header says that it stores no checksums
};

typedef struct doortumble_chunk_header_fields {
    uint64_t first_record_number;
    uint64_t last_record_number;
    uint64_t first_record_id;
    uint64_t last_record_id;
    uint32_t header_size;
    uint32_t last_record_offset;
    uint32_t free_space_offset; // where the records end
    uint32_t events_checksum;   // as it is stored
    uint32_t flags;             // see above
    uint32_t header_checksum;   // as it is stored
    int header_checksum_right;  // 1 where it is the CRC-32 of bytes 0 to 119 and 128 to 511, whatever the flags say; else 0
    int events_checksum_right;  // 1 where it is the CRC-32 of the bytes from 512 up to the free space offset, whatever the flags
                                // say; else 0, and where that offset lies below 512 or past the chunk
} doortumble_chunk_header_fields;

// The fields of the words that doortumble_chunk_header wrote.
static inline doortumble_chunk_header_fields doortumble_chunk_header_of(const uint64_t *words)
{
    doortumble_chunk_header_fields fields;

    fields.first_record_number = words[0];
    fields.last_record_number = words[1];
    fields.first_record_id = words[2];
    fields.last_record_id = words[3];
    fields.header_size = words[4] & 0xFFFFFFFF;
    fields.last_record_offset = words[5] & 0xFFFFFFFF;
    fields.free_space_offset = words[6] & 0xFFFFFFFF;
    fields.events_checksum = words[7] & 0xFFFFFFFF;
    fields.flags = words[8] & 0xFFFFFFFF;
    fields.header_checksum = words[9] & 0xFFFFFFFF;
    fields.header_checksum_right = words[10] != 0;
    fields.events_checksum_right = words[11] != 0;
    return fields;
}

// ------------------------------------------------------------------------------------------------------------- the body

// Read a stream as one event body: its tokens, and which token each belongs to. A body is one element or one instance, its root;
// before the root a PI target with its data may stand, and one after. An element has attributes exactly where its open token
// announces them.
//
//   stream, stream_len   the bytes that offsets count in, at most 65,536: for a record its whole chunk
//   start, length        where in the stream the first token is, and for how many bytes on a token may begin. The last token
//                        may run over, though never past the stream: an instance whose place plus length is more than start
//                        plus length has taken bytes for its own that stand behind the record
//   dependencies         not 0: open tokens carry a dependency, as in a template's definition; 0: they do not, as in a record
//   inline_names         not 0: names stand in the stream itself; 0: names are offsets, as in a chunk
//   sheet, sheet_len     lent for the sheet, and its length in words; DOORTUMBLE_MOST_TOKENS * DOORTUMBLE_SHEET_WORDS is always
//                        enough
//   table, table_len     lent for the owner table, and its length in words; DOORTUMBLE_MOST_TOKENS is always enough. Sheet and
//                        table must not overlap
//
// Answer: how many tokens there are, with two words for each in the sheet and one in the table, or a refusal: 1, then the first
// that the walk meets (2, 3, 7 to 12), then 13, 14, 15 or 20 where the tokens are no event body, then 16 where the sheet is too
// short (its place is the words needed, which are twice as many as the tokens), then 16 where the table is (its place is the
// tokens). So a stream that is no body is refused so whatever is lent, and a call with 0 words asks for the words of the sheet.
//
// A refusal leaves the sheet and the table as they were; words past the last token's stay in both. Nothing is kept or allocated,
// at most 1 MiB of stack is needed, and a null pointer with length 0 is allowed.
uint64_t doortumble_body(const uint8_t *stream, size_t stream_len, uint32_t start, uint32_t length, uint32_t dependencies,
                         uint32_t inline_names, uint64_t *sheet, size_t sheet_len, uint32_t *table, size_t table_len);

// Read a stream as one event body and, in it, the bodies that values of type 21 hold, as a record of Windows holds its event. Such a
// value is read as a window of the same stream, without dependencies and with the same kind of names, before the next value is.
//
// The parameters are those of doortumble_body. The tokens of a body in a value come right after their instance, and all tokens are
// numbered through: the owners in the table, the token numbers in the places of 13, 14 and 20, the count in that of 15 and the answer
// count all of them. Of each token the sheet has its level (doortumble_token's level): 0 for the stream's own, and one more than its
// instance's for a token in a value. Each body obeys the grammar on its own; the root of a body in a value has no owner.
//
// Answer: as doortumble_body, with two refusals more, both at the value's start and after its own read: 21, the value would be a ninth
// level, and 29, the walk in it ends past it. A value of type 21 in which no token stands is no body: 15. What a value holds is
// judged before the next value is read, so that a refusal need not be doortumble_body's.
//
// A refusal leaves the sheet and the table as they were; words past the last token's stay in both. Nothing is kept or allocated,
// at most 1 MiB of stack is needed, eight levels down too, and a null pointer with length 0 is allowed.
uint64_t doortumble_bodies(const uint8_t *stream, size_t stream_len, uint32_t start, uint32_t length, uint32_t dependencies,
                           uint32_t inline_names, uint64_t *sheet, size_t sheet_len, uint32_t *table, size_t table_len);

// The kinds of tokens, with their bytes in the stream.
enum {
    DOORTUMBLE_KIND_INSTANCE = 1,      // 0C: a template with its values
    DOORTUMBLE_KIND_OPEN = 2,          // 01, 41: an element's start tag begins; 41 announces attributes
    DOORTUMBLE_KIND_CLOSE_START = 3,   // 02: the start tag ends, content follows
    DOORTUMBLE_KIND_CLOSE_EMPTY = 4,   // 03: the start tag ends, and the element with it
    DOORTUMBLE_KIND_CLOSE_ELEMENT = 5, // 04: the element ends
    DOORTUMBLE_KIND_VALUE = 6,         // 05, 45
    DOORTUMBLE_KIND_ATTRIBUTE = 7,     // 06, 46: an attribute's name; what follows it is its value
    DOORTUMBLE_KIND_ENTITY_REF = 8,    // 09, 49
    DOORTUMBLE_KIND_PI_TARGET = 9,     // 0A
    DOORTUMBLE_KIND_PI_DATA = 10,      // 0B
    DOORTUMBLE_KIND_CDATA = 11,        // 07, 47
    DOORTUMBLE_KIND_CHAR_REF = 12,     // 08, 48
    DOORTUMBLE_KIND_SUBSTITUTION = 13  // 0D, 0E: a place for one of an instance's values
};

// The two words of token n are sheet[2 * n] and sheet[2 * n + 1], most significant bit first:
//
//   bit    63   60 59           43 42           26 25          10  9   8  7   4 3   0
//         +-------+---------------+---------------+--------------+---+---+-----+-----+
//   first | kind  |     place     |    length     |    number    | f | a |level|  0  |
//         |   4   |      17       |      17       |      16      | 1 | 1 |  4  |  4  |
//         +-------+---------------+---------------+--------------+---+---+-----+-----+
//
//   bit    63                            32 31                                   0
//         +--------------------------------+--------------------------------------+
//  second |         name's offset          |               0 .. 0                 |
//         |               32               |                 32                   |
//         +--------------------------------+--------------------------------------+
//
//   f  flag
//   a  announced
//
// The level is 0 in every sheet but those of doortumble_bodies.
//
// A sheet of the old layout has one word a token, and no name: its word n is the first word of token n here, sheet[2 * n], with
// announced cleared (& ~(UINT64_C(1) << 8)). All other fields are in the same bits. So a program that was made for it lends twice
// the words, takes token n with doortumble_token_at(sheet, n) in place of taking sheet[n] apart, and is refused 16 with twice the
// place. The count in the answer is the count of tokens, as it was. Sheets that were kept in the old layout are made anew from it by
// doortumble_widen, below.
typedef struct doortumble_token {
    unsigned kind;      // 1 to 13, see above
    uint32_t place;     // offset of the token's byte in the stream
    uint32_t length;    // bytes from there to where the next read begins
    unsigned number;    // open: its dependency; char ref: the char; substitution: the value's number; else 0
    unsigned flag;      // open: 1 where it has a dependency (0 is one too); substitution: 1 where it is optional; else 0
    unsigned announced; // open: 1 where its byte is 41, which says that attributes follow, 0 where it is 01; else 0
    unsigned level;     // 0, or from doortumble_bodies how many values it stands in, 0 to 8
    uint32_t name;      // offset of its name in the stream, see doortumble_has_name; 0 where it has none
} doortumble_token;

// Token n, counted from 0, of a sheet.
static inline doortumble_token doortumble_token_at(const uint64_t *sheet, uint64_t n)
{
    const uint64_t *words = sheet + n * DOORTUMBLE_SHEET_WORDS;
    doortumble_token token;

    token.kind = (unsigned)(words[0] >> 60);
    token.place = (words[0] >> 43) & 0x1FFFF;
    token.length = (words[0] >> 26) & 0x1FFFF;
    token.number = (words[0] >> 10) & 0xFFFF;
    token.flag = (words[0] >> 9) & 1;
    token.announced = (words[0] >> 8) & 1;
    token.level = (words[0] >> 4) & 0xF;
    token.name = (words[1] >> 32) & 0xFFFFFFFF;
    return token;
}

// Not 0 where the token has a name: an open token, an attribute, an entity ref and a PI target have. Only this tells a name at
// offset 0 from none.
//
// Where names are offsets, the offset is the one that the stream stores, whatever it is: nobody has looked at what stands there,
// and it may lie past the stream's end. There stand the next name's offset (4 bytes), a hash (2), how many UTF-16 units the name
// has (2), and the units. An inline name was read: at its offset stand the hash (2), the count (2) and the units.
static inline int doortumble_has_name(doortumble_token token)
{
    return token.kind == DOORTUMBLE_KIND_OPEN || token.kind == DOORTUMBLE_KIND_ATTRIBUTE ||
           token.kind == DOORTUMBLE_KIND_ENTITY_REF || token.kind == DOORTUMBLE_KIND_PI_TARGET;
}

// A table's word is the owner's number plus 1, or 0 where the token has no owner: the root's open token or the instance, and a PI
// target and its data before or after the root. What stands in an attribute belongs to the attribute's token; all else in an
// element, its close tokens too, to its open token. An owner's number is always less than the number of what it owns.

// Not 0 where the token has an owner.
static inline int doortumble_has_owner(uint32_t word)
{
    return word != 0;
}

// The owner's number. Only where there is one.
static inline uint32_t doortumble_owner(uint32_t word)
{
    return word - 1;
}

// ------------------------------------------------------------------------------------------------------------ the event

// What a record says: a row for each item of its bodies, with its value and the element and the attribute on which it hangs. An item is a
// value, a substitution, a char ref, an entity ref or a CDATA. Of an instance the items are those of its definition, wherever in the stream
// that stands, and the substitution with number m stands for the instance's value m. The definition must be the instance's own: the first
// word of its GUID is compared with the instance's id, since where a definition was overwritten another one may stand.
//
//   stream, stream_len   the bytes that offsets count in, at most 65,536: for a record its whole chunk
//   start, length        where in the stream the record's payload starts, and its length
//   inline_names         not 0: names stand in the stream itself; 0: names are offsets, as in a chunk
//   rows, rows_len       lent for the rows, and their length in words: DOORTUMBLE_ITEM_WORDS a row. They must not overlap the stream
//
// Answer: how many rows there are, bodies in their order and items in theirs; or a refusal: all of doortumble_bodies but 16; then body by
// body 2 or 3 where no definition stands, 30 where it is another's, what the walk of the definition meets (2, 3, 7 to 12), 31 where it is no
// element, 32 at the first substitution past the instance's last value; then 16 where the rows are too short (its place is the words needed,
// so a call with 0 words asks for them). A record that is refused 30 must not be guessed at: its values belong to a definition that is gone.
//
// The time grows with the definitions, each of which is walked once for every instance that uses it: a record of Windows takes some
// microseconds; a stream made for it, of thousands of instances that share one long definition, may take a second or two.
//
// A refusal leaves the rows as they were; words past the last row stay. Nothing is kept or allocated, at most 1 MiB of stack is needed, and a
// null pointer with length 0 is allowed.
uint64_t doortumble_event(const uint8_t *stream, size_t stream_len, uint32_t start, uint32_t length, uint32_t inline_names,
                          uint64_t *rows, size_t rows_len);

typedef struct doortumble_item {
    uint32_t body;           // number of the body, 0 the record's own; a body in a value comes after the one that holds it
    uint32_t number;         // of the item among the tokens of its text: the body's own, or its definition's
    uint32_t element;        // number of the element's open token in that text
    int in_attribute;        // not 0 where the item stands in an attribute of the element
    uint32_t attribute;      // number of the attribute's token. Only where the item stands in one
    uint32_t element_name;   // offset of the element's name, for doortumble_name
    uint32_t attribute_name; // offset of the attribute's name; 0 where there is none
    unsigned kind;           // DOORTUMBLE_KIND_VALUE, _SUBSTITUTION, _CHAR_REF, _ENTITY_REF or _CDATA
    unsigned optional;       // substitution: 1 where it is optional; else 0
    unsigned type;           // the value's type code; CDATA: 1; char and entity refs, and what stands for nothing: 0
    unsigned value;          // substitution: the value's number; char ref: the char; else 0
    uint32_t start;          // where the content starts in the stream; an entity ref: its name's offset
    uint32_t length;         // the content's bytes; of a string those before its first zero unit
    uint64_t bits;           // a number's bits: signed ones in 64 bits of two's complement, reals as they are stored; else 0
} doortumble_item;

// Row n, counted from 0, of the rows that doortumble_event wrote.
static inline doortumble_item doortumble_item_at(const uint64_t *rows, uint64_t n)
{
    const uint64_t *words = rows + n * DOORTUMBLE_ITEM_WORDS;
    uint32_t attribute = words[1] & 0xFFFFFFFF;
    doortumble_item item;

    item.body = (words[0] >> 32) & 0xFFFFFFFF;
    item.number = words[0] & 0xFFFFFFFF;
    item.element = (words[1] >> 32) & 0xFFFFFFFF;
    item.in_attribute = attribute != 0;
    item.attribute = attribute == 0 ? 0 : attribute - 1;
    item.element_name = (words[2] >> 32) & 0xFFFFFFFF;
    item.attribute_name = words[2] & 0xFFFFFFFF;
    item.kind = (words[3] >> 32) & 0xFF;
    item.optional = (words[3] >> 24) & 1;
    item.type = (words[3] >> 16) & 0xFF;
    item.value = words[3] & 0xFFFF;
    item.start = (words[4] >> 32) & 0xFFFFFFFF;
    item.length = words[4] & 0xFFFFFFFF;
    item.bits = words[5];
    return item;
}

// Where the tokens of an instance's definition stand, so that doortumble_body can give its sheet and its owner table: which element stands in
// which.
//
//   stream, stream_len   as for doortumble_event
//   place                where the instance's token stands, as doortumble_body or doortumble_bodies told it
//   word, word_len       lent for the answer's word, and their length: 1
//
// Answer: 1, or a refusal: 1, then what a read of the token at the place meets (2, 3, 7 to 12), 9 where it is no instance, 2 or 3 where no
// definition stands where it says, 30 where that is another's, then 16 where no word is lent. Hand start and length to doortumble_body with
// dependencies 1.
//
// A refusal leaves the word as it was. Nothing is kept or allocated, at most 1 MiB of stack is needed, and a null pointer with length 0 is
// allowed.
uint64_t doortumble_definition(const uint8_t *stream, size_t stream_len, uint32_t place, uint64_t *word, size_t word_len);

// Where the definition's tokens start, of the word that doortumble_definition wrote.
static inline uint32_t doortumble_definition_start(uint64_t word)
{
    return (word >> 32) & 0xFFFFFFFF;
}

// For how many bytes on a token may begin.
static inline uint32_t doortumble_definition_length(uint64_t word)
{
    return word & 0xFFFFFFFF;
}

// The name at an offset of a stream.
//
//   stream, stream_len   as for doortumble_event
//   offset               where the name stands: an item's element_name or attribute_name, or a token's name
//   inline_names         as for the call that told the offset
//   name, name_len       lent for the name's word, and their length: 1
//
// Answer: how many UTF-16 units the name has, or a refusal: 1, 2 or 3 where no name stands there (inline: 11 and 12 too), then 16 where no
// word is lent. Whether the units are well-formed and the stored hash is theirs is no refusal but told in the word.
//
// A refusal leaves the word as it was. Nothing is kept or allocated, at most 1 MiB of stack is needed, and a null pointer with length 0 is
// allowed.
uint64_t doortumble_name(const uint8_t *stream, size_t stream_len, uint32_t offset, uint32_t inline_names, uint64_t *name,
                         size_t name_len);

typedef struct doortumble_units {
    uint32_t start;   // where the name's units start in the stream
    unsigned count;   // how many they are, two bytes each, the low one first
    int sound;        // 1 where they are well-formed UTF-16; else 0
    int hash_right;   // 1 where the stored hash is theirs; else 0
} doortumble_units;

// What the word that doortumble_name wrote says.
static inline doortumble_units doortumble_units_of(uint64_t name)
{
    doortumble_units units;

    units.start = (name >> 32) & 0xFFFFFFFF;
    units.count = (name >> 8) & 0xFFFF;
    units.sound = (name >> 1) & 1;
    units.hash_right = name & 1;
    return units;
}

// Not 0 where a name's units are these ASCII characters, no more and no fewer.
static inline int doortumble_name_is(const uint8_t *stream, doortumble_units units, const char *ascii)
{
    const uint8_t *unit = stream + units.start;
    unsigned n;

    for (n = 0; n < units.count; n++) {
        if (ascii[n] == 0 || unit[2 * n] != (uint8_t)ascii[n] || unit[2 * n + 1] != 0) {
            return 0;
        }
    }
    return ascii[n] == 0;
}

// ------------------------------------------------------------------------------------------------------ the kept sheets

// Make the sheet of a stream, two words a token, from a kept one of the old layout, which has one. The old sheet must be exactly
// that of the stream, read with this start, length and these flags: whatever was changed in it since is found.
//
//   stream to inline_names   as for doortumble_body, and as when the old sheet was made; the stream need not be a body
//   old, old_len             the old sheet, and its length in words, which is the count of its tokens
//   sheet, sheet_len         lent for the sheet, and its length in words: twice old_len is enough. It must not overlap the old one
//
// Answer: how many tokens there are, or a refusal: 1, then the first that the walk meets (2, 3, 7 to 12), then 19 where the old
// sheet is not the stream's, then 16 where the words lent are too few. 19's place is the number of the first word, from 0, that
// is not the stream's; where the sheet ends too soon, how many words it has; where it goes on too long, how many it should have.
//
// A refusal leaves the sheet as it was; words past the last token's stay, and the old sheet is never written. Nothing is kept or
// allocated, at most 1 MiB of stack is needed, and a null pointer with length 0 is allowed.
uint64_t doortumble_widen(const uint8_t *stream, size_t stream_len, uint32_t start, uint32_t length, uint32_t dependencies,
                          uint32_t inline_names, const uint64_t *old, size_t old_len, uint64_t *sheet, size_t sheet_len);

// The same the other way: make the sheet of the old layout, one word a token, from one of two words a token, which must be
// exactly the stream's. What doortumble_widen wrote gives equal words back, and the other way round.
//
//   sheet, sheet_len   the sheet, and its length in words, which is twice the count of its tokens: no words behind them
//   old, old_len       lent for the old sheet, and its length in words: half of sheet_len is enough. It must not overlap the sheet
uint64_t doortumble_narrow(const uint8_t *stream, size_t stream_len, uint32_t start, uint32_t length, uint32_t dependencies,
                           uint32_t inline_names, const uint64_t *sheet, size_t sheet_len, uint64_t *old, size_t old_len);

// ------------------------------------------------------------------------------------------------------------ the merge

// Merge two lists of writes, one a controller: for each tag that occurs in either, in rising tag number, one write.
//
//   primary, primary_len   the primary's writes, and their length in words: three words a write, see doortumble_write. One or
//   other, other_len       two words more are no write. The other controller's writes likewise
//   newest                 0: rule one, the primary's newest write of the tag if it has any, else the other's newest.
//                          Not 0: rule two, the newest of both, the primary's at equal times
//   result, result_len     lent for the rows, three words each, and their length in words; as many words as both lists have are
//                          always enough
//
// Newest in a list is the write with the greatest FILETIME; at equal times within a list, the one at the later place.
//
// Answer: how many rows were written, or a refusal: 27 where a list has more than 4,096 writes (at 0 the primary's, else at 1), then
// 28 where the result is too short (its place is the rows needed, so a call with 0 words asks for them). Both lists may be empty.
//
// A refusal leaves the result as it was; words past the last row stay. The result must not overlap the lists. Nothing is kept or
// allocated, at most 1 MiB of stack is needed, and a null pointer with length 0 is allowed.
uint64_t doortumble_merge(const uint64_t *primary, size_t primary_len, const uint64_t *other, size_t other_len,
                          uint32_t newest, uint64_t *result, size_t result_len);

typedef struct doortumble_write {
    uint64_t tag;      // the tag's number
    uint64_t filetime; // when it was written, in steps of 100 ns from the year 1601; none is refused
    uint64_t value;    // the value's stored bits, which are not looked at
} doortumble_write;

// Write n, counted from 0, of a list, or row n of a result.
static inline doortumble_write doortumble_write_at(const uint64_t *words, uint64_t n)
{
    const uint64_t *three = words + n * DOORTUMBLE_WRITE_WORDS;
    doortumble_write write;

    write.tag = three[0];
    write.filetime = three[1];
    write.value = three[2];
    return write;
}

#ifdef __cplusplus
}
#endif

#endif
