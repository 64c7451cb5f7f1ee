// status: how a run ends. The number is the command's exit status; over several files the highest counts.
#ifndef STATUS_H
#define STATUS_H

enum status {
    ALL_READ = 0,
    SOME_REFUSED = 1,
    NO_LOG = 2,
    FAILED = 4
};

static inline enum status worse(enum status a, enum status b)
{
    return a > b ? a : b;
}

#endif
