// out: what is printed, gathered in a buffer. The first write that fails is kept: nothing after it is written, and whoever asks
// is told.
#ifndef OUT_H
#define OUT_H

#include <stddef.h>
#include <stdint.h>
#include <string.h>

#define OUT_ROOM 4096 // the most bytes that out_room can be asked for

struct out {
    int descriptor;
    int terminal; // somebody looks on
    int error;    // errno of the first write that failed; 0: none did
    void (*wait)(void *waiter); // before each write; a null pointer where there is nothing to wait for
    void *waiter;
    size_t length;
    size_t most;  // how many bytes are gathered at most
    char *bytes;
};

// The buffer is lent; it has room for OUT_ROOM bytes at least.
void out_start(struct out *out, int descriptor, char *bytes, size_t most);

// Writes out what is gathered. Not 0 where a write has failed, now or before.
int out_flush(struct out *out);

// The same, and closes: some disks say only then that they are full.
int out_end(struct out *out);

// Room for so many bytes, at most OUT_ROOM; out_took says how far it was filled. These and the next two stand here, since most of
// what is printed goes through them a few bytes at a time.
static inline char *out_room(struct out *out, size_t bytes)
{
    if (out->most - out->length < bytes)
        out_flush(out);
    return out->bytes + out->length;
}

static inline void out_took(struct out *out, const char *end)
{
    out->length = (size_t)(end - out->bytes);
}

// What does not fit into the buffer as it is.
void out_long(struct out *out, const char *bytes, size_t length);

static inline void out_bytes(struct out *out, const char *bytes, size_t length)
{
    if (length > out->most - out->length) {
        out_long(out, bytes, length);
        return;
    }
    memcpy(out->bytes + out->length, bytes, length);
    out->length += length;
}

static inline void out_text(struct out *out, const char *text)
{
    out_bytes(out, text, strlen(text));
}

void out_number(struct out *out, uint64_t number);

// A number in decimal at a place that has room for 20 digits and for width; with fewer digits it stands to the right in a field
// of that width. Both answer where the text ends.
char *put_number(char *to, uint64_t number);
char *put_right(char *to, uint64_t number, unsigned width);

// A number's last so many digits, zeros in front.
char *put_padded(char *to, uint64_t number, unsigned digits);

// A number's last so many digits in hex, and bytes.
char *put_hex(char *to, uint64_t number, unsigned digits);
char *put_hex_bytes(char *to, const uint8_t *bytes, size_t length);

// A text, to the left in a field of that width.
char *put_left(char *to, const char *text, unsigned width);

#endif
