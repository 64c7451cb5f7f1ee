#include <stdarg.h>
#include <stdio.h>

#include "job.h"

void tell(struct job *job, const char *words, ...)
{
    va_list values;

    progress_hide(&job->progress);
    out_flush(&job->out);
    fputs("doortumble: ", stderr);
    va_start(values, words);
    vfprintf(stderr, words, values);
    va_end(values);
    fputs("\n", stderr);
}
