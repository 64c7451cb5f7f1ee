// real: a real number in decimal, with the fewest digits that give its bits back when they are read as a number of its width.
#ifndef REAL_H
#define REAL_H

#include <stdint.h>

#define REAL_BYTES 40 // room for any real

// By its stored bits, at a place that has REAL_BYTES; answer where the text ends.
char *put_real64(char *to, uint64_t bits);
char *put_real32(char *to, uint32_t bits);

#endif
