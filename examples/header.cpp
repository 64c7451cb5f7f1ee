// The header from C++, and that each argument of a call arrives where the header says: nothing but a run shows that. The streams are samples
// of document 01, with null pointers where nothing is lent. It prints nothing where all holds.
#include "doortumble.h"

#include <cstdio>

namespace {

const uint64_t untouched = 0x5555555555555555;

// The checksums of the headers and the two bytes below, as another program reckoned them.
const uint32_t file_crc = 0x7CAE1AEB;
const uint32_t chunk_crc = 0x7AB2A6E9;
const uint32_t events_crc = 0xF5091701;

bool holds(const char *what, bool so)
{
    if (!so)
        std::fprintf(stderr, "header: it does not hold: %s\n", what);
    return so;
}

bool refuses(const char *what, uint64_t answer, unsigned number, uint64_t place)
{
    return holds(what, doortumble_refused(answer) && doortumble_number(answer) == number && doortumble_place(answer) == place);
}

bool counts(const char *what, uint64_t answer, uint64_t count)
{
    return holds(what, !doortumble_refused(answer) && doortumble_number(answer) == 0 && doortumble_count(answer) == count);
}

// What is held of an open token.
struct open_token {
    uint32_t length;
    unsigned number;
    unsigned flag;
    unsigned announced;
    uint32_t name;
};

// Whether a stream, read with these flags, is such an open token, an attribute where it announces them, a close empty and the end.
bool opens(const uint8_t *stream, size_t stream_len, uint32_t dependencies, uint32_t inline_names, const open_token &open)
{
    uint64_t sheet[6] = {0, 0, untouched, untouched, untouched, untouched};
    uint32_t table[3] = {7, 7, 7};
    const uint32_t last = 1 + open.announced;
    const uint64_t answer =
        doortumble_body(stream, stream_len, 0, uint32_t(stream_len), dependencies, inline_names, sheet, 6, table, 3);
    const doortumble_token token = doortumble_token_at(sheet, 0);
    const doortumble_token close = doortumble_token_at(sheet, last);

    return !doortumble_refused(answer) && doortumble_count(answer) == last + 1 && token.kind == DOORTUMBLE_KIND_OPEN && token.place == 0 &&
           token.length == open.length && token.number == open.number && token.flag == open.flag &&
           token.announced == open.announced && token.name == open.name && doortumble_has_name(token) &&
           close.kind == DOORTUMBLE_KIND_CLOSE_EMPTY && close.place == stream_len - 2 && close.length == 1 && close.number == 0 &&
           close.flag == 0 && close.announced == 0 && close.name == 0 && !doortumble_has_name(close) &&
           table[0] == 0 && table[last] == 1;
}

bool nothing_lent()
{
    bool so = true;

    so &= refuses("no bytes are no file", doortumble_list_file(nullptr, 0, 1, nullptr, 0), DOORTUMBLE_WRONG_FILE, 0);
    so &= refuses("no bytes have no file header", doortumble_file_header(nullptr, 0, nullptr, 0), DOORTUMBLE_WRONG_FILE, 0);
    so &= refuses("no bytes have no chunk header", doortumble_chunk_header(nullptr, 0, nullptr, 0), DOORTUMBLE_WRONG_LENGTH, 0);
    so &= refuses("no bytes are no chunk", doortumble_list(nullptr, 0, 1, nullptr, 0), DOORTUMBLE_WRONG_LENGTH, 0);
    so &= refuses("no bytes are no body", doortumble_body(nullptr, 0, 0, 0, 0, 0, nullptr, 0, nullptr, 0), DOORTUMBLE_UNFINISHED, 0);
    so &= refuses("a byte is missing", doortumble_body(nullptr, 0, 0, 1, 0, 0, nullptr, 0, nullptr, 0), DOORTUMBLE_TOO_FEW_BYTES, 0);
    so &= refuses("the start lies past the end", doortumble_body(nullptr, 0, 1, 0, 0, 0, nullptr, 0, nullptr, 0), DOORTUMBLE_PAST_END, 1);
    return so;
}

bool empty_element()
{
    const uint8_t stream[] = {0x01, 0, 0, 0, 0, 0x00, 0x02, 0, 0, 0x03, 0x00};
    uint64_t sheet[5] = {untouched, untouched, untouched, untouched, untouched};
    uint32_t table[3] = {7, 7, 7};
    bool so = true;

    so &= refuses("nothing lent asks for the sheet", doortumble_body(stream, 11, 0, 11, 0, 0, nullptr, 0, nullptr, 0), DOORTUMBLE_NO_ROOM, 4);
    so &= refuses("a sheet of three words is short", doortumble_body(stream, 11, 0, 11, 0, 0, sheet, 3, table, 3), DOORTUMBLE_NO_ROOM, 4);
    so &= refuses("the sheet's room is asked for first", doortumble_body(stream, 11, 0, 11, 0, 0, sheet, 3, table, 1), DOORTUMBLE_NO_ROOM, 4);
    so &= refuses("a table of a word is short", doortumble_body(stream, 11, 0, 11, 0, 0, sheet, 4, table, 1), DOORTUMBLE_NO_ROOM, 2);
    so &= refuses("a table of no words is short", doortumble_body(stream, 11, 0, 11, 0, 0, sheet, 5, nullptr, 0), DOORTUMBLE_NO_ROOM, 2);
    so &= holds("a refusal leaves the sheet", sheet[0] == untouched && sheet[1] == untouched && sheet[2] == untouched && sheet[3] == untouched);
    so &= holds("and the table", table[0] == 7 && table[1] == 7 && table[2] == 7);
    so &= counts("two tokens", doortumble_body(stream, 11, 0, 11, 0, 0, sheet, 5, table, 3), 2);
    so &= holds("the first token's words", sheet[0] == 0x2000000024000000 && sheet[1] == 0x0000020000000000);
    so &= holds("the second token's words", sheet[2] == 0x4000480004000000 && sheet[3] == 0);
    so &= holds("a word past the sheet stays", sheet[4] == untouched);
    so &= holds("the owners", !doortumble_has_owner(table[0]) && doortumble_has_owner(table[1]) && doortumble_owner(table[1]) == 0);
    so &= holds("a word past the table stays", table[2] == 7);
    so &= refuses("from the close token on it is no body", doortumble_body(stream, 11, 9, 1, 0, 0, sheet, 5, table, 3), DOORTUMBLE_NO_BODY, 0);
    so &= refuses("without it the body is unfinished", doortumble_body(stream, 11, 0, 9, 0, 0, sheet, 5, table, 3), DOORTUMBLE_UNFINISHED, 1);
    return so;
}

// A kept sheet of an element whose byte is 41, with a dependency and, behind a start, with an inline name.
bool kept_sheets()
{
    const uint8_t stream[] = {0x41, 0xFE, 0xFF, 0, 0, 0, 0, 0xFE, 0xFF, 0xFF, 0xFF, 0, 0, 0, 0, 0x03, 0x00};
    const uint8_t name[] = {0x10, 0x01, 0, 0, 0, 0, 0x41, 0x10, 0x02, 0, 0x41, 0, 0x42, 0, 0, 0, 0x03, 0x00};
    const uint64_t old[2] = {0x200000003FFFFA00, 0x4000780004000000};
    const uint64_t named[2] = {0x200008003C000000, 0x4000800004000000};
    uint64_t sheet[5] = {untouched, untouched, untouched, untouched, untouched};
    uint64_t back[3] = {untouched, untouched, untouched};
    bool so = true;

    so &= counts("no bytes have an old sheet of no words", doortumble_widen(nullptr, 0, 0, 0, 0, 0, nullptr, 0, nullptr, 0), 0);
    so &= counts("and a new one", doortumble_narrow(nullptr, 0, 0, 0, 0, 0, nullptr, 0, nullptr, 0), 0);
    so &= refuses("a word is missing", doortumble_widen(stream, 17, 0, 17, 1, 0, old, 1, sheet, 0), DOORTUMBLE_WRONG_SHEET, 1);
    so &= refuses("without the dependency it is another sheet's", doortumble_widen(stream, 17, 0, 17, 0, 0, old, 2, sheet, 5),
                  DOORTUMBLE_WRONG_SHEET, 0);
    so &= refuses("three words are few", doortumble_widen(stream, 17, 0, 17, 1, 0, old, 2, sheet, 3), DOORTUMBLE_NO_ROOM, 4);
    so &= holds("a refusal leaves the sheet", sheet[0] == untouched && sheet[4] == untouched);
    so &= counts("the old sheet is the stream's", doortumble_widen(stream, 17, 0, 17, 1, 0, old, 2, sheet, 5), 2);
    so &= holds("the new sheet", sheet[0] == old[0] + 0x100 && sheet[1] == 0xFFFFFFFE00000000 && sheet[2] == old[1] && sheet[3] == 0);
    so &= holds("a word past it stays", sheet[4] == untouched);
    so &= refuses("a word too many", doortumble_narrow(stream, 17, 0, 17, 1, 0, sheet, 5, back, 3), DOORTUMBLE_WRONG_SHEET, 4);
    so &= refuses("one word is few", doortumble_narrow(stream, 17, 0, 17, 1, 0, sheet, 4, back, 1), DOORTUMBLE_NO_ROOM, 2);
    so &= holds("a refusal leaves the old sheet", back[0] == untouched);
    so &= counts("the new sheet is the stream's", doortumble_narrow(stream, 17, 0, 17, 1, 0, sheet, 4, back, 3), 2);
    so &= holds("the old words come back", back[0] == old[0] && back[1] == old[1] && back[2] == untouched);
    so &= counts("an inline name behind a start", doortumble_widen(name, 18, 1, 17, 0, 0x80000000, named, 2, sheet, 4), 2);
    so &= holds("its offset", sheet[0] == named[0] && sheet[1] == 0x0000000600000000);
    return so;
}

bool announced()
{
    // An open token that announces attributes, an attribute, close empty; and one that announces none before the same.
    const uint8_t stream[] = {0x41, 0, 0, 0, 0, 0x00, 0x02, 0, 0, 0, 0, 0, 0, 0x06, 0x00, 0x02, 0, 0, 0x03};
    const uint8_t plain[] = {0x01, 0, 0, 0, 0, 0x00, 0x02, 0, 0, 0x06, 0x00, 0x02, 0, 0, 0x03};
    uint64_t sheet[12] = {untouched};
    uint32_t table[4] = {7, 7, 7, 7};
    bool so = true;

    so &= refuses("an attribute that was not announced", doortumble_body(plain, sizeof plain, 0, sizeof plain, 0, 0, sheet, 12, table, 4),
                  DOORTUMBLE_DISAGREE, 1);
    so &= holds("a refusal leaves sheet and table", sheet[0] == untouched && table[0] == 7 && table[1] == 7 && table[2] == 7);
    so &= holds("its place is a token", doortumble_place_is(DOORTUMBLE_DISAGREE)[0] == 't');
    so &= refuses("what is announced may come", doortumble_body(stream, 13, 0, 13, 0, 0, sheet, 12, table, 4), DOORTUMBLE_UNFINISHED, 1);
    so &= counts("announced and present", doortumble_body(stream, sizeof stream, 0, sizeof stream, 0, 0, sheet, 12, table, 4), 3);
    so &= holds("the owner is the open token", table[0] == 0 && table[1] == 1 && table[2] == 1 && table[3] == 7);
    return so;
}

bool pairs()
{
    // A PI target with its data, an empty element, and a target with its data again.
    const uint8_t stream[] = {0x0A, 0x00, 0x02, 0, 0, 0x0B, 0, 0,                    //
                              0x01, 0, 0, 0, 0, 0x00, 0x02, 0, 0, 0x03,              //
                              0x0A, 0x00, 0x02, 0, 0, 0x0B, 0, 0};
    uint64_t sheet[12] = {untouched};
    uint32_t table[7] = {7, 7, 7, 7, 7, 7, 7};
    bool so = true;

    so &= refuses("a target alone is unfinished", doortumble_body(stream, 5, 0, 5, 0, 0, sheet, 12, table, 7), DOORTUMBLE_UNFINISHED, 1);
    so &= refuses("a pair alone is unfinished", doortumble_body(stream, 8, 0, 8, 0, 0, sheet, 12, table, 7), DOORTUMBLE_UNFINISHED, 2);
    so &= refuses("data alone is no body", doortumble_body(stream, 8, 5, 3, 0, 0, sheet, 12, table, 7), DOORTUMBLE_NO_BODY, 0);
    so &= holds("a refusal leaves sheet and table", sheet[0] == untouched && table[0] == 7 && table[1] == 7);
    so &= counts("a pair on either side", doortumble_body(stream, sizeof stream, 0, sizeof stream, 0, 0, sheet, 12, table, 7), 6);
    so &= holds("the pairs have no owner", table[0] == 0 && table[1] == 0 && table[4] == 0 && table[5] == 0);
    so &= holds("the root is token 2", table[2] == 0 && doortumble_has_owner(table[3]) && doortumble_owner(table[3]) == 2);
    so &= holds("a word past the table stays", table[6] == 7);
    return so;
}

bool flags()
{
    const uint8_t none[] = {0x01, 0xFF, 0xFF, 0, 0, 0, 0, 0x00, 0x02, 0, 0, 0x03, 0x00};
    const uint8_t zero[] = {0x01, 0x00, 0x00, 0, 0, 0, 0, 0x00, 0x02, 0, 0, 0x03, 0x00};
    const uint8_t name[] = {0x01, 0, 0, 0, 0, 0x41, 0x10, 0x02, 0, 0x41, 0, 0x42, 0, 0, 0, 0x03, 0x00};
    const uint8_t both[] = {0x41, 0xFE, 0xFF, 0, 0, 0, 0, 0xFE, 0xFF, 0xFF, 0xFF, 0, 0, 0, 0, 0x06, 0, 0x02, 0, 0, 0x03, 0x00};
    const uint8_t first[] = {0x41, 0, 0, 0, 0, 0, 0, 0, 0, 0, 0, 0, 0, 0x06, 0, 0x02, 0, 0, 0x03, 0x00};
    bool so = true;

    so &= holds("dependency FFFF is none", opens(none, sizeof none, 1, 0, {11, 0, 0, 0, 512}));
    so &= holds("dependency 0 is one", opens(zero, sizeof zero, 0x80000000, 0, {11, 0, 1, 0, 512}));
    so &= holds("an inline name", opens(name, sizeof name, 0, 0x80000000, {15, 0, 0, 0, 5}));
    so &= holds("byte 41, a dependency and a name far off", opens(both, sizeof both, 1, 0, {15, 0xFFFE, 1, 1, 0xFFFFFFFE}));
    so &= holds("byte 41 and a name at 0", opens(first, sizeof first, 0, 0, {13, 0, 0, 1, 0}));
    return so;
}

// A file header that ends where its first chunk would begin, and one with two bytes behind it.
bool whole_file()
{
    uint8_t file[130] = {'E', 'l', 'f', 'F', 'i', 'l', 'e', 0};
    uint64_t rows[7] = {untouched, untouched, untouched, untouched, untouched, untouched, untouched};
    bool so = true;

    file[40] = 128;
    so &= refuses("127 bytes are no file", doortumble_list_file(file, 127, 1, rows, 7), DOORTUMBLE_WRONG_FILE, 0);
    so &= counts("no chunk and no rest", doortumble_list_file(file, 128, 1, nullptr, 0), 0);
    so &= refuses("a row has six words", doortumble_list_file(file, 130, 1, rows, 5), DOORTUMBLE_NO_ROOM, 6);
    so &= holds("a refusal leaves the rows", rows[0] == untouched);
    so &= counts("the rest has a row", doortumble_list_file(file, 130, 1, rows, 7), 1);
    so &= holds("the rest's chunk", doortumble_file_row_at(rows, 0).chunk == 128);
    const doortumble_row row = doortumble_file_row_at(rows, 0).row;
    so &= holds("the rest's row", row.item == DOORTUMBLE_ROW_REFUSED && row.offset == 0 && row.size == DOORTUMBLE_WRONG_LENGTH &&
                                      row.id == 0 && row.filetime == 0);
    so &= holds("a word past the rows stays", rows[6] == untouched);
    so &= holds("words for a file", doortumble_file_words(0) == 27870 && doortumble_file_words(65536) == 55740);
    return so;
}

// Writes a number, the lowest byte first.
void put(uint8_t *to, uint64_t number, unsigned bytes)
{
    for (unsigned n = 0; n < bytes; n++)
        to[n] = uint8_t(number >> (8 * n));
}

// A file's header, each field with a number of its own.
bool file_header()
{
    uint8_t file[128] = {'E', 'l', 'f', 'F', 'i', 'l', 'e', 0};
    uint64_t words[12];
    bool so = true;

    for (uint64_t &word : words)
        word = untouched;
    put(file + 8, 0x0102030405060708, 8);
    put(file + 16, 0x1112131415161718, 8);
    put(file + 24, 0x2122232425262728, 8);
    put(file + 32, 0x31323334, 4);
    put(file + 36, 0x4142, 2);
    put(file + 38, 0x5152, 2);
    put(file + 40, 0x6162, 2);
    put(file + 42, 0x7172, 2);
    put(file + 120, DOORTUMBLE_FILE_DIRTY + DOORTUMBLE_FILE_FULL, 4);
    put(file + 124, file_crc, 4);
    so &= refuses("127 bytes have no header", doortumble_file_header(file, 127, words, 12), DOORTUMBLE_WRONG_FILE, 0);
    so &= refuses("a file header has eleven words", doortumble_file_header(file, 128, words, 10), DOORTUMBLE_NO_ROOM, 11);
    so &= holds("a refusal leaves the words", words[0] == untouched);
    so &= counts("a file header", doortumble_file_header(file, 128, words, 12), DOORTUMBLE_FILE_HEADER_WORDS);
    so &= holds("a word past the file header stays", words[11] == untouched);
    const doortumble_file_header_fields h = doortumble_file_header_of(words);
    so &= holds("the file header's chunks", h.first_chunk == 0x0102030405060708 && h.last_chunk == 0x1112131415161718);
    so &= holds("the next record ID", h.next_record_id == 0x2122232425262728);
    so &= holds("the file header's size and versions",
                h.header_size == 0x31323334 && h.minor_version == 0x4142 && h.major_version == 0x5152);
    so &= holds("block size and chunk count", h.block_size == 0x6162 && h.chunk_count == 0x7172);
    so &= holds("the file's flags", h.flags == DOORTUMBLE_FILE_DIRTY + DOORTUMBLE_FILE_FULL);
    so &= holds("the file header's checksum", h.checksum == file_crc && h.checksum_right == 1);
    file[0x77] = 1;
    so &= counts("a changed file header", doortumble_file_header(file, 128, words, 12), DOORTUMBLE_FILE_HEADER_WORDS);
    so &= holds("its checksum is wrong", doortumble_file_header_of(words).checksum_right == 0);
    return so;
}

// A chunk's header, each field with a number of its own, and two bytes of records.
bool chunk_header()
{
    static uint8_t chunk[DOORTUMBLE_CHUNK_BYTES] = {'E', 'l', 'f', 'C', 'h', 'n', 'k', 0};
    uint64_t words[13];
    bool so = true;

    for (uint64_t &word : words)
        word = untouched;
    put(chunk + 8, 0x0102030405060708, 8);
    put(chunk + 16, 0x1112131415161718, 8);
    put(chunk + 24, 0x2122232425262728, 8);
    put(chunk + 32, 0x3132333435363738, 8);
    put(chunk + 40, 0x41424344, 4);
    put(chunk + 44, 0x51525354, 4);
    put(chunk + 48, 514, 4);
    put(chunk + 52, events_crc, 4);
    put(chunk + 120, DOORTUMBLE_CHUNK_DIRTY, 4);
    put(chunk + 124, chunk_crc, 4);
    put(chunk + 512, 0x2A2A, 2);
    so &= refuses("a byte less is no chunk", doortumble_chunk_header(chunk, 65535, words, 13), DOORTUMBLE_WRONG_LENGTH, 0);
    so &= refuses("a chunk header has twelve words", doortumble_chunk_header(chunk, 65536, words, 11), DOORTUMBLE_NO_ROOM, 12);
    so &= holds("a refusal leaves the words", words[0] == untouched);
    so &= counts("a chunk header", doortumble_chunk_header(chunk, 65536, words, 13), DOORTUMBLE_CHUNK_HEADER_WORDS);
    so &= holds("a word past the chunk header stays", words[12] == untouched);
    const doortumble_chunk_header_fields h = doortumble_chunk_header_of(words);
    so &= holds("record numbers", h.first_record_number == 0x0102030405060708 && h.last_record_number == 0x1112131415161718);
    so &= holds("record IDs", h.first_record_id == 0x2122232425262728 && h.last_record_id == 0x3132333435363738);
    so &= holds("header size and offsets",
                h.header_size == 0x41424344 && h.last_record_offset == 0x51525354 && h.free_space_offset == 514);
    so &= holds("the chunk's flags", h.flags == DOORTUMBLE_CHUNK_DIRTY);
    so &= holds("the chunk header's checksum", h.header_checksum == chunk_crc && h.header_checksum_right == 1);
    so &= holds("the events checksum", h.events_checksum == events_crc && h.events_checksum_right == 1);
    chunk[513] = 0;
    so &= counts("a changed record", doortumble_chunk_header(chunk, 65536, words, 13), DOORTUMBLE_CHUNK_HEADER_WORDS);
    so &= holds("the events checksum alone is wrong", doortumble_chunk_header_of(words).header_checksum_right == 1 &&
                                                          doortumble_chunk_header_of(words).events_checksum_right == 0);
    chunk[128] = 1;
    so &= counts("a changed table", doortumble_chunk_header(chunk, 65536, words, 13), DOORTUMBLE_CHUNK_HEADER_WORDS);
    so &= holds("the header checksum is wrong", doortumble_chunk_header_of(words).header_checksum_right == 0);
    chunk[0] = 'e';
    so &= refuses("another magic is no chunk", doortumble_chunk_header(chunk, 65536, words, 13), DOORTUMBLE_WRONG_MAGIC, 0);
    return so;
}

// The merge: both rules, a word more that is no write, a result that is too short, and lists that are too long.
bool merges()
{
    const uint64_t primary[10] = {5, 10, 1, 3, 7, 2, 5, 10, 3, 9};
    const uint64_t other[9] = {5, 12, 4, 9, 1, 5, 3, 7, 6};
    static const uint64_t too_long[3 * 4097] = {};
    uint64_t result[10];
    bool so = true;

    for (uint32_t newest = 0; newest < 2; newest++) {
        for (uint64_t &word : result)
            word = untouched;
        so &= refuses("a result for two rows", doortumble_merge(primary, 10, other, 9, newest, result, 8), DOORTUMBLE_SHORT_RESULT, 3);
        so &= holds("a refused merge writes nothing", result[0] == untouched);
        so &= counts("a merge", doortumble_merge(primary, 10, other, 9, newest, result, 10), 3);
        const doortumble_write row = doortumble_write_at(result, 1);
        so &= holds("the first row", result[0] == 3 && result[1] == 7 && result[2] == 2);
        so &= holds("the rule", row.tag == 5 && row.filetime == (newest ? 12u : 10u) && row.value == (newest ? 4u : 3u));
        so &= holds("the last row", result[6] == 9 && result[7] == 1 && result[8] == 5 && result[9] == untouched);
    }
    so &= counts("a merge of nothing", doortumble_merge(nullptr, 0, nullptr, 0, 1, nullptr, 0), 0);
    so &= counts("4,096 writes", doortumble_merge(too_long, 3 * 4096 + 2, too_long, 3 * 4096, 1, result, 3), 1);
    so &= refuses("4,097 of the primary", doortumble_merge(too_long, 3 * 4097, too_long, 3 * 4097, 1, result, 3), DOORTUMBLE_LONG_LIST, 0);
    so &= refuses("4,097 of the other", doortumble_merge(too_long, 3 * 4096, too_long, 3 * 4097, 1, result, 3), DOORTUMBLE_LONG_LIST, 1);
    return so;
}

// An event: a definition at 0, an element named at 128 with an attribute named at 144, and at 160 an instance of it with two values.
bool events()
{
    static uint8_t stream[256];
    static const uint8_t definition[] = {0x41, 0xFF, 0xFF, 0, 0, 0, 0, 128, 0, 0, 0, 0, 0, 0, 0, 0x06, 144, 0, 0, 0, 0x0D, 1, 0, 0x08,
                                         0x02, 0x0D, 0, 0, 0x04, 0x04};
    static const uint8_t instance[] = {0x0C, 0, 7, 0, 0, 0, 0, 0, 0, 0, 2, 0, 0, 0, 1, 0, 0x04, 0, 4, 0, 0x08, 0, 5, 0x78, 0x56, 0x34, 0x12};
    uint64_t rows[13];
    uint64_t name = untouched;
    bool so = true;

    for (uint64_t &word : rows)
        word = untouched;
    put(stream + 4, 7, 4);
    put(stream + 20, sizeof definition, 4);
    for (size_t n = 0; n < sizeof definition; n++)
        stream[24 + n] = definition[n];
    put(stream + 132, 'A', 2);
    put(stream + 134, 1, 2);
    put(stream + 136, 'A', 2);
    put(stream + 148, 'c', 2);
    put(stream + 150, 2, 2);
    put(stream + 152, 'b', 2);
    put(stream + 154, 0xD800, 2);
    for (size_t n = 0; n < sizeof instance; n++)
        stream[160 + n] = instance[n];
    so &= refuses("rows for one item", doortumble_event(stream, 256, 160, sizeof instance, 0, rows, 11), DOORTUMBLE_NO_ROOM, 12);
    so &= holds("a refused event writes nothing", rows[0] == untouched);
    so &= counts("an event", doortumble_event(stream, 256, 160, sizeof instance, 0, rows, 13), 2);
    so &= holds("a word past the rows stays", rows[12] == untouched);
    const doortumble_item attribute = doortumble_item_at(rows, 0);
    const doortumble_item content = doortumble_item_at(rows, 1);
    so &= holds("the attribute's item", attribute.body == 0 && attribute.number == 2 && attribute.element == 0 && attribute.in_attribute &&
                                            attribute.attribute == 1 && attribute.element_name == 128 && attribute.attribute_name == 144);
    so &= holds("its value", attribute.kind == DOORTUMBLE_KIND_SUBSTITUTION && attribute.optional == 0 && attribute.type == 8 &&
                                 attribute.value == 1 && attribute.start == 183 && attribute.length == 4 && attribute.bits == 0x12345678);
    so &= holds("the element's item", content.number == 4 && content.element == 0 && !content.in_attribute && content.attribute_name == 0);
    so &= holds("and its value", content.type == 4 && content.value == 0 && content.start == 182 && content.length == 1 && content.bits == 5);
    so &= counts("a name", doortumble_name(stream, 256, 128, 0, &name, 1), 1);
    const doortumble_units right = doortumble_units_of(name);
    so &= holds("its units", right.start == 136 && right.count == 1 && right.sound && right.hash_right);
    so &= holds("its text", doortumble_name_is(stream, right, "A") && !doortumble_name_is(stream, right, "AB") &&
                                !doortumble_name_is(stream, right, "") && !doortumble_name_is(stream, right, "B"));
    so &= counts("an overwritten name", doortumble_name(stream, 256, 144, 0, &name, 1), 2);
    so &= holds("is told", !doortumble_units_of(name).sound && !doortumble_units_of(name).hash_right);
    so &= refuses("a name past the end", doortumble_name(stream, 256, 257, 0, &name, 1), DOORTUMBLE_PAST_END, 257);
    so &= refuses("no word for a name", doortumble_name(stream, 256, 128, 0, nullptr, 0), DOORTUMBLE_NO_ROOM, 1);
    so &= counts("an inline name", doortumble_name(stream, 256, 132, 1, &name, 1), 1);
    so &= holds("where its units start", doortumble_units_of(name).start == 136);
    so &= refuses("an inline name with another's hash", doortumble_name(stream, 256, 148, 1, &name, 1), DOORTUMBLE_NAME_HASH, 148);
    so &= counts("a definition", doortumble_definition(stream, 256, 160, &name, 1), 1);
    so &= holds("where it stands", name == (UINT64_C(24) << 32) + sizeof definition);
    so &= refuses("no instance", doortumble_definition(stream, 256, 24, &name, 1), DOORTUMBLE_UNKNOWN_TOKEN, 25);
    put(stream + 162, 8, 4);
    so &= refuses("another's definition", doortumble_event(stream, 256, 160, sizeof instance, 0, rows, 13), DOORTUMBLE_OTHER_DEFINITION, 0);
    so &= refuses("another's, by itself", doortumble_definition(stream, 256, 160, &name, 1), DOORTUMBLE_OTHER_DEFINITION, 0);
    return so;
}

} // namespace

int main()
{
    const bool so[] = {nothing_lent(), empty_element(), kept_sheets(), announced(), pairs(), flags(), whole_file(), file_header(), chunk_header(), merges(), events()};

    for (const bool one : so)
        if (!one)
            return 1;
    return 0;
}
