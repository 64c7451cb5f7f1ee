// input: a file, or standard input, from its first byte to its last, a part at a time. It is read and not mapped: a mapped file
// that somebody cuts would end the program, and a pipe cannot be mapped at all. What is kept is the same for any length.
#ifndef INPUT_H
#define INPUT_H

#include <stddef.h>
#include <stdint.h>

#define INPUT_BYTES 262144 // four chunks, which stay in the cache near the core until they are listed
#define INPUT_MOST 65536   // the most bytes that can be asked for at once

struct input {
    int descriptor;
    int error;         // errno of the read that failed; 0: none did
    int ended;         // nothing follows what is in the buffer
    uint64_t expected; // the file's length when it was opened; 0 where it has none, as a pipe
    uint64_t offset;   // in the file, of the first byte that is not taken
    size_t begin;      // the same in the buffer
    size_t end;        // where the bytes in the buffer end
    uint8_t bytes[INPUT_BYTES];
};

// Why there is nothing to read.
enum input_opened {
    INPUT_OPENED,
    INPUT_NOT_OPENED, // errno says why
    INPUT_DIRECTORY
};

// Opens a file, or standard input where path is null.
enum input_opened input_open(struct input *input, const char *path);

// How many bytes stand ready, of the so many asked for: fewer only where the file ends, or a read failed. They begin at
// input_at.
size_t input_ask(struct input *input, size_t bytes);
const uint8_t *input_at(const struct input *input);

// Goes on by so many bytes, of those that stand ready.
void input_take(struct input *input, size_t bytes);

// How long the file is, as far as it was read.
uint64_t input_length(const struct input *input);

void input_close(struct input *input);

#endif
