// workers: a file's chunks read side by side, each by one of several threads; what is printed of them stands in the file's order.
#ifndef WORKERS_H
#define WORKERS_H

#include "job.h"

// Reads all chunks of the file at hand. Answers 0 where it has read none, since they are better read one after the other, or no thread
// is to be had.
int workers_read(struct job *job);

// Gives back what the threads had for memory.
void workers_end(void);

#endif
