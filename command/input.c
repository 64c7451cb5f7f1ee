#include "input.h"

#include <errno.h>
#include <fcntl.h>
#include <poll.h>
#include <string.h>
#include <sys/stat.h>
#include <unistd.h>

// How many bytes a file has from where it stands; 0 where that cannot be told, as of a pipe.
static uint64_t length_ahead(int descriptor, const struct stat *stat)
{
    off_t at = S_ISREG(stat->st_mode) ? lseek(descriptor, 0, SEEK_CUR) : -1;

    return at >= 0 && at < stat->st_size ? (uint64_t)(stat->st_size - at) : 0;
}

enum input_opened input_open(struct input *input, const char *path)
{
    struct stat stat;

    input->error = 0;
    input->ended = 0;
    input->expected = 0;
    input->offset = 0;
    input->begin = 0;
    input->end = 0;
    input->descriptor = path == NULL ? STDIN_FILENO : open(path, O_RDONLY | O_NOCTTY | O_CLOEXEC);
    if (input->descriptor < 0 || fstat(input->descriptor, &stat) != 0)
        return INPUT_NOT_OPENED;
    input->expected = length_ahead(input->descriptor, &stat);
    return S_ISDIR(stat.st_mode) ? INPUT_DIRECTORY : INPUT_OPENED;
}

// A descriptor that does not wait, as a terminal that another program has left so.
static void wait_for(int descriptor)
{
    struct pollfd ready;

    ready.fd = descriptor;
    ready.events = POLLIN;
    poll(&ready, 1, -1);
}

// One read into what is free at the buffer's end.
static void read_more(struct input *input)
{
    ssize_t got = read(input->descriptor, input->bytes + input->end, INPUT_BYTES - input->end);

    if (got > 0)
        input->end += (size_t)got;
    else if (got == 0)
        input->ended = 1;
    else if (errno == EAGAIN || errno == EWOULDBLOCK)
        wait_for(input->descriptor);
    else if (errno != EINTR)
        input->error = errno;
}

size_t input_ask(struct input *input, size_t bytes)
{
    size_t ready = input->end - input->begin;

    // What is left goes to the front. It is less than a chunk, and from the first chunk on mostly nothing: the buffer holds
    // whole chunks.
    if (ready < bytes && input->begin > 0) {
        memmove(input->bytes, input->bytes + input->begin, ready);
        input->begin = 0;
        input->end = ready;
    }
    while (input->end - input->begin < bytes && !input->ended && input->error == 0)
        read_more(input);
    ready = input->end - input->begin;
    return ready < bytes ? ready : bytes;
}

const uint8_t *input_at(const struct input *input)
{
    return input->bytes + input->begin;
}

void input_take(struct input *input, size_t bytes)
{
    input->begin += bytes;
    input->offset += bytes;
}

uint64_t input_length(const struct input *input)
{
    return input->offset + (input->end - input->begin);
}

void input_close(struct input *input)
{
    // It was only read, so there is nothing to lose here.
    if (input->descriptor > STDIN_FILENO)
        close(input->descriptor);
}
