#include "sequence.h"

#include <inttypes.h>

#include "moment.h"

// What was seen of the file so far.
static struct seen {
    uint64_t live;
    struct mark first;
    struct mark last;
    struct step
        fall; // the first place where a chunk's IDs begin below the file's first one, and how many more steps back there are
} seen;

void sequence_begin(void)
{
    static const struct seen none;

    seen = none;
}

// --------------------------------------------------------------------------------------------------------------- seeing

// The first step back to below the file's first ID is kept until the whole file is seen.
static enum join join_of(const struct mark *to)
{
    if (seen.live == 0)
        return JOIN_NONE;
    return to->id < seen.first.id && to->id <= seen.last.id && seen.fall.places == 0 ? JOIN_FALL : JOIN_STEP;
}

static void see_first(struct chunk_seen *chunk, const struct mark *mark)
{
    chunk->first = *mark;
    chunk->join = join_of(mark);
    if (chunk->join != JOIN_NONE)
        step_note(&chunk->joint, &seen.last, mark);
    // Where the log may have wrapped round, the time goes back too: that is judged with it.
    if (chunk->join == JOIN_STEP && mark->ticks < seen.last.ticks)
        step_note(&chunk->back, &seen.last, mark);
    if (chunk->join == JOIN_FALL || (seen.fall.places > 0 && mark->id <= seen.last.id))
        step_note(&seen.fall, &seen.last, mark);
    if (seen.live == 0)
        seen.first = *mark;
}

static void see_next(struct chunk_seen *chunk, const struct mark *mark)
{
    if (mark->id != seen.last.id + 1)
        step_note(&chunk->broken, &seen.last, mark);
    if (mark->ticks < seen.last.ticks)
        step_note(&chunk->back, &seen.last, mark);
}

static void see_live(struct chunk_seen *chunk, uint64_t offset, doortumble_row row)
{
    struct mark mark;

    mark.chunk = offset;
    mark.offset = offset + row.offset;
    mark.id = row.id;
    mark.ticks = row.filetime;
    if (chunk->live == 0)
        see_first(chunk, &mark);
    else
        see_next(chunk, &mark);
    chunk->last = mark;
    chunk->live++;
    seen.last = mark;
    seen.live++;
}

void sequence_chunk(struct chunk_seen *chunk, uint64_t offset, const uint64_t *rows, uint64_t count)
{
    static const struct chunk_seen none;
    uint64_t n;

    *chunk = none;
    for (n = 0; n < count; n++) {
        doortumble_row row = doortumble_row_at(rows, n);

        if (row.item == DOORTUMBLE_ROW_LIVE)
            see_live(chunk, offset, row);
        chunk->carved += row.item == DOORTUMBLE_ROW_CARVED;
        chunk->refused += row.item == DOORTUMBLE_ROW_REFUSED;
    }
}

// --------------------------------------------------------------------------------------------------------------- telling

// A step between chunks that should lead to the next ID.
static void tell_joint(struct job *job, const struct step *step, const char *where)
{
    uint64_t from = step->from.id;
    uint64_t to = step->to.id;
    uint64_t offset = step->to.chunk;

    if (to <= from)
        find(job, "overlap", offset, ABOUT_IDS, step, "IDs go back %s: after %" PRIu64 " comes %" PRIu64, where, from, to);
    else if (to - from == 2)
        find(job, "gap", offset, ABOUT_IDS, step, "ID %" PRIu64 " is missing %s", from + 1, where);
    else if (to - from > 2)
        find(job, "gap", offset, ABOUT_IDS, step, "%" PRIu64 " IDs are missing %s, %" PRIu64 " to %" PRIu64, to - from - 1,
             where, from + 1, to - 1);
}

static void tell_back(struct job *job, const struct step *back)
{
    char from[MOMENT_BYTES];
    char to[MOMENT_BYTES];

    *moment_put(&job->form.moment, from, back->from.ticks) = 0;
    *moment_put(&job->form.moment, to, back->to.ticks) = 0;
    find(job, "back", back->to.offset, ABOUT_TIMES, back,
         "the time goes back in %" PRIu64 " %s, first at %" PRIu64 ": after %s comes %s", back->places,
         back->places == 1 ? "place" : "places", back->to.offset, from, to);
}

void sequence_tell(struct job *job, const struct chunk_seen *chunk)
{
    const struct step *broken = &chunk->broken;

    if (chunk->join == JOIN_STEP)
        tell_joint(job, &chunk->joint, "before this chunk");
    if (broken->places > 0)
        find(job, "broken", broken->to.offset, ABOUT_IDS, broken,
             "IDs do not follow one another in %" PRIu64 " %s of this chunk, first at %" PRIu64 ": after %" PRIu64
             " comes %" PRIu64,
             broken->places, broken->places == 1 ? "place" : "places", broken->to.offset, broken->from.id, broken->to.id);
    if (chunk->back.places > 0)
        tell_back(job, &chunk->back);
}

// ---------------------------------------------------------------------------------------------------------- the whole file

// One step back to below the file's first ID is where the log has wrapped round: where it says that it is full, or where its
// parts in the other order have rising IDs.
static int has_wrapped(const struct job *job)
{
    return seen.fall.places == 1 && ((job->header.flags & DOORTUMBLE_FILE_FULL) != 0 || seen.last.id < seen.first.id);
}

static void tell_wrap(struct job *job)
{
    const struct step *fall = &seen.fall;
    struct step round = {0, {0, 0, 0, 0}, {0, 0, 0, 0}};

    find(job, "wrap", fall->to.chunk, ABOUT_IDS, fall,
         "the log has wrapped round at %" PRIu64 ": its oldest record, ID %" PRIu64
         ", begins the chunk there, and its newest, ID %" PRIu64 ", ends the one before",
         fall->to.chunk, fall->to.id, fall->from.id);
    step_note(&round, &seen.last, &seen.first);
    tell_joint(job, &round, "between the file's last chunk and its first");
    if (seen.first.ticks < seen.last.ticks)
        tell_back(job, &round);
}

static void tell_fall(struct job *job)
{
    struct step fall = seen.fall;

    fall.places = 1; // the others were told when they were met
    find(job, "overlap", fall.to.chunk, ABOUT_IDS, &fall,
         "IDs go back before the chunk at %" PRIu64 ": after %" PRIu64 " comes %" PRIu64
         ", and the log has not just wrapped round",
         fall.to.chunk, fall.from.id, fall.to.id);
    if (fall.to.ticks < fall.from.ticks)
        tell_back(job, &fall);
}

void sequence_end(struct job *job)
{
    int wrapped = has_wrapped(job);
    struct step next = {1, {0, 0, 0, 0}, {0, 0, 0, 0}};

    if (wrapped)
        tell_wrap(job);
    else if (seen.fall.places > 0)
        tell_fall(job);
    next.from = wrapped ? seen.fall.from : seen.last;
    next.to.id = job->header.next_record_id;
    if (seen.live > 0 && next.to.id != next.from.id + 1)
        find(job, "next", 0, ABOUT_IDS, &next,
             "the header's next record ID is %" PRIu64 ", and the newest record that was found"
             " has %" PRIu64,
             next.to.id, next.from.id);
}
