#include "out.h"

#include <errno.h>
#include <poll.h>
#include <string.h>
#include <unistd.h>

void out_start(struct out *out, int descriptor, char *bytes, size_t most)
{
    out->descriptor = descriptor;
    out->terminal = isatty(descriptor);
    out->error = 0;
    out->wait = NULL;
    out->waiter = NULL;
    out->length = 0;
    out->most = most;
    out->bytes = bytes;
}

// A descriptor that does not wait, as a pipe that another program has left so.
static void wait_for(int descriptor)
{
    struct pollfd ready;

    ready.fd = descriptor;
    ready.events = POLLOUT;
    poll(&ready, 1, -1);
}

int out_flush(struct out *out)
{
    size_t done = 0;

    if (out->wait != NULL && out->error == 0 && out->length > 0)
        out->wait(out->waiter);
    while (out->error == 0 && done < out->length) {
        ssize_t wrote = write(out->descriptor, out->bytes + done, out->length - done);

        if (wrote >= 0)
            done += (size_t)wrote;
        else if (errno == EAGAIN || errno == EWOULDBLOCK)
            wait_for(out->descriptor);
        else if (errno != EINTR)
            out->error = errno;
    }
    out->length = 0;
    return out->error != 0;
}

int out_end(struct out *out)
{
    if (out_flush(out) == 0 && close(out->descriptor) != 0)
        out->error = errno;
    return out->error != 0;
}

void out_long(struct out *out, const char *bytes, size_t length)
{
    while (length > 0) {
        size_t part = length < OUT_ROOM ? length : OUT_ROOM;
        char *to = out_room(out, part);

        memcpy(to, bytes, part);
        out_took(out, to + part);
        bytes += part;
        length -= part;
    }
}

void out_number(struct out *out, uint64_t number)
{
    out_took(out, put_number(out_room(out, 20), number));
}

// -------------------------------------------------------------------------------------------------------------- numbers

static unsigned digits_of(uint64_t number)
{
    unsigned digits = 1;

    for (; number >= 10000; number /= 10000)
        digits += 4;
    return digits + (number >= 10) + (number >= 100) + (number >= 1000);
}

// Two digits at a time: a listing has some millions of them.
char *put_padded(char *to, uint64_t number, unsigned digits)
{
    static const char pairs[] = "0001020304050607080910111213141516171819"
                                "2021222324252627282930313233343536373839"
                                "4041424344454647484950515253545556575859"
                                "6061626364656667686970717273747576777879"
                                "8081828384858687888990919293949596979899";
    char *end = to + digits;

    while (digits >= 2) {
        digits -= 2;
        memcpy(to + digits, pairs + 2 * (number % 100), 2);
        number /= 100;
    }
    if (digits == 1)
        to[0] = (char)('0' + number % 10);
    return end;
}

// One digit is what most numbers have.
char *put_number(char *to, uint64_t number)
{
    if (number >= 10)
        return put_padded(to, number, digits_of(number));
    *to++ = (char)('0' + number);
    return to;
}

char *put_right(char *to, uint64_t number, unsigned width)
{
    unsigned digits = digits_of(number);

    if (digits < width) {
        memset(to, ' ', width - digits);
        to += width - digits;
    }
    return put_padded(to, number, digits);
}

static const char hex_digits[] = "0123456789ABCDEF";

char *put_hex(char *to, uint64_t number, unsigned digits)
{
    unsigned n;

    for (n = digits; n > 0; n--, number >>= 4)
        to[n - 1] = hex_digits[number & 15];
    return to + digits;
}

char *put_hex_bytes(char *to, const uint8_t *bytes, size_t length)
{
    size_t n;

    for (n = 0; n < length; n++) {
        *to++ = hex_digits[bytes[n] >> 4];
        *to++ = hex_digits[bytes[n] & 15];
    }
    return to;
}

char *put_left(char *to, const char *text, unsigned width)
{
    size_t length = strlen(text);

    memcpy(to, text, length);
    if (length < width) {
        memset(to + length, ' ', width - length);
        length = width;
    }
    return to + length;
}
