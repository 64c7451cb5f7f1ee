// merge: merge two small lists of writes under both rules, and tell for each tag which write won, which was beaten, and why.
//
// The example of doortumble_merge, made to be copied. The lists are those of two controllers whose link was down: each write is a tag
// number, a FILETIME and the value's bits, three words. The program reads the header of no log, but links the reader beside the merge, as
// a program does that gets the writes from logs.
#include <inttypes.h>
#include <stdio.h>

#include "doortumble.h"

// What both controllers wrote, in the order of their logs.
static const uint64_t primary[] = {
    5, 10, 0xA, //
    3, 7,  0xB, //
    5, 10, 0xC, // the same tag and time at a later place
    4, 6,  0x4, //
};
static const uint64_t other[] = {
    5, 12, 0xD, // newer than the primary's
    9, 1,  0xE, // a tag that the primary never wrote
    3, 7,  0xF, // the same time as the primary's
    4, 5,  0x5, // older than the primary's
    4, 2,  0x6, // older still
};

#define PRIMARY_LEN (sizeof primary / sizeof primary[0])
#define OTHER_LEN (sizeof other / sizeof other[0])

// As many words as both lists have are always enough. It can be set from outside only so that a test can see what is said of a short one.
#ifndef RESULT_LEN
#define RESULT_LEN (PRIMARY_LEN + OTHER_LEN)
#endif

// The newest write of a tag in a list, found by going through it: 1 where there is one. The merge does not need it; this program does, to tell
// what was beaten.
static int newest_of(const uint64_t *list, size_t words, uint64_t tag, doortumble_write *newest)
{
    int found = 0;

    for (size_t n = 0; n < words / DOORTUMBLE_WRITE_WORDS; n++) {
        const doortumble_write write = doortumble_write_at(list, n);

        if (write.tag == tag && (!found || write.filetime >= newest->filetime)) {
            *newest = write;
            found = 1;
        }
    }
    return found;
}

static void print_write(const char *whose, doortumble_write write)
{
    printf("%s %" PRIX64 " of time %" PRIu64, whose, write.value, write.filetime);
}

// One row: what won, what it beat, and why.
static void print_row(doortumble_write row, int rule_two)
{
    doortumble_write first = row, second = row;
    const int in_primary = newest_of(primary, PRIMARY_LEN, row.tag, &first);
    const int in_other = newest_of(other, OTHER_LEN, row.tag, &second);

    printf("  tag %" PRIu64 ": ", row.tag);
    if (!in_other) {
        print_write("the primary's", row);
        puts(" won: the other never wrote the tag");
    } else if (!in_primary) {
        print_write("the other's", row);
        puts(" won: the primary never wrote the tag");
    } else if (!rule_two) {
        print_write("the primary's", row);
        print_write(" beat the other's", second);
        puts(": the primary wrote the tag");
    } else if (second.filetime > first.filetime) {
        print_write("the other's", row);
        print_write(" beat the primary's", first);
        puts(": it is newer");
    } else {
        print_write("the primary's", row);
        print_write(" beat the other's", second);
        puts(first.filetime > second.filetime ? ": it is newer" : ": at equal times the primary's wins");
    }
}

// One merge; 0 where it was refused.
static int print_merge(const char *rule, int rule_two)
{
    uint64_t result[RESULT_LEN];
    const uint64_t answer = doortumble_merge(primary, PRIMARY_LEN, other, OTHER_LEN, rule_two, result, RESULT_LEN);

    printf("%s\n", rule);
    if (doortumble_refused(answer)) {
        const unsigned number = doortumble_number(answer);

        printf("  refused %u, %s %" PRIu64 ": %s\n", number, doortumble_place_is(number), doortumble_place(answer), doortumble_why(number));
        return 0;
    }
    for (uint64_t n = 0; n < doortumble_count(answer); n++)
        print_row(doortumble_write_at(result, n), rule_two);
    return 1;
}

int main(void)
{
    int done = print_merge("rule one: the primary's newest write of a tag if it has any, else the other's newest", 0);

    done &= print_merge("rule two: the newest of both, the primary's at equal times", 1);

    // The reader beside it: no bytes are no log file.
    if (doortumble_number(doortumble_list_file(0, 0, 0, 0, 0)) != DOORTUMBLE_WRONG_FILE)
        return 2;
    return done ? 0 : 1;
}
