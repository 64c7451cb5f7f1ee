// whole FILE: the rows of doortumble_list_file on the whole file in memory, six numbers a line. What the command prints chunk
// by chunk is held to it.
#include <inttypes.h>
#include <stdio.h>
#include <stdlib.h>

#include "doortumble.h"

static uint8_t file[64 * DOORTUMBLE_CHUNK_BYTES];

int main(int count, char **arguments)
{
    FILE *in = count == 2 ? fopen(arguments[1], "rb") : NULL;
    size_t length = in == NULL ? 0 : fread(file, 1, sizeof file, in);
    size_t words = doortumble_file_words(length);
    uint64_t *rows = malloc(words * sizeof *rows);
    uint64_t answer, n;

    if (in == NULL || rows == NULL)
        return 4;
    answer = doortumble_list_file(file, length, 1, rows, words);
    if (doortumble_refused(answer))
        printf("refused %u\n", doortumble_number(answer));
    for (n = 0; !doortumble_refused(answer) && n < doortumble_count(answer); n++) {
        doortumble_file_row row = doortumble_file_row_at(rows, n);

        printf("%" PRIu64 " %" PRIu64 " %" PRIu64 " %" PRIu64 " %" PRIu64 " %" PRIu64 "\n", row.chunk, row.row.item,
               row.row.offset, row.row.size, row.row.id, row.row.filetime);
    }
    free(rows);
    fclose(in);
    return 0;
}
