// A worker takes the file's next piece, and with it a number in the file's order. It reads the piece, and what it prints is gathered in
// memory of its own; when it has its turn, since all pieces before are done, that goes out: to what the job's own output gathers where
// it is little, as with one thread, or else it is written. The reading and the turn have a lock each, so that no output waits for a read.
#include "workers.h"

#include <pthread.h>
#include <stdlib.h>
#include <string.h>
#include <sys/resource.h>
#include <unistd.h>

#include "show.h"

#define MOST 4                  // workers
#define PRINTED_BYTES (4 << 20) // some times what a chunk of Windows becomes in CSV; who has more waits for its turn in the middle
#define STACK_BYTES (2 << 20)   // 1 MiB for the library's calls, and as much for what calls them

struct worker {
    pthread_t thread;
    uint64_t number;    // of its piece
    struct piece piece; // whose bytes stand in chunk
    struct job job;     // its rows, its counts, its output
    struct reader reader;
    uint8_t chunk[DOORTUMBLE_CHUNK_BYTES];
    char printed[PRINTED_BYTES];
};

// They get their memory when a file needs them first, and keep it to the end. It is not there from the start, as all other memory is: with
// it the program would not start where the address space is limited.
static struct worker *workers[MOST];

static pthread_mutex_t reading = PTHREAD_MUTEX_INITIALIZER;
static struct job *from; // whose file is read; its output belongs to whose turn it is
static uint64_t taken;   // pieces of it

static pthread_mutex_t turning = PTHREAD_MUTEX_INITIALIZER;
static pthread_cond_t turned = PTHREAD_COND_INITIALIZER;
static uint64_t turn; // number of the first piece that is not done
static int failed;    // a write did

// ------------------------------------------------------------------------------------------------------------- the order

static int has_failed(void)
{
    int has;

    pthread_mutex_lock(&turning);
    has = failed;
    pthread_mutex_unlock(&turning);
    return has;
}

// The next piece that is not empty. 0: there is none, or nobody would get what it says.
static int take_piece(struct worker *worker)
{
    struct piece *piece = &worker->piece;
    int got;

    pthread_mutex_lock(&reading);
    do
        got = !has_failed() && next_piece(from, piece);
    while (got && piece->empty);
    if (got) {
        memcpy(worker->chunk, piece->bytes, piece->length);
        piece->bytes = worker->chunk;
        worker->number = taken++;
    }
    pthread_mutex_unlock(&reading);
    return got;
}

static void wait_for_turn(const struct worker *worker)
{
    pthread_mutex_lock(&turning);
    while (turn != worker->number)
        pthread_cond_wait(&turned, &turning);
    pthread_mutex_unlock(&turning);
}

static void end_turn(void)
{
    pthread_mutex_lock(&turning);
    failed = from->out.error != 0;
    turn++;
    pthread_cond_broadcast(&turned);
    pthread_mutex_unlock(&turning);
}

// Before a worker's own write: what was gathered before it goes first, and where that fails nothing more is written.
static void write_before(void *waiter)
{
    struct worker *worker = waiter;

    wait_for_turn(worker);
    out_flush(&from->out);
    worker->job.out.error = from->out.error;
}

// What the worker has gathered of its piece.
static void hand_out(struct worker *worker)
{
    struct out *out = &worker->job.out;

    wait_for_turn(worker);
    if (out->length > from->out.most - from->out.length)
        out_flush(out);
    out_bytes(&from->out, out->bytes, out->length);
    out->length = 0;
    if (out->error != 0)
        from->out.error = out->error;
    end_turn();
}

static void *work(void *started)
{
    struct worker *worker = started;

    while (take_piece(worker)) {
        read_piece(&worker->job, &worker->piece);
        hand_out(worker);
    }
    return NULL;
}

// --------------------------------------------------------------------------------------------------------- the beginning

// Where the address space is limited, what threads take might be what the stack needs later.
static int is_limited(void)
{
    struct rlimit limit;

    return getrlimit(RLIMIT_AS, &limit) != 0 || limit.rlim_cur != RLIM_INFINITY;
}

// The other subcommands have little to do for a chunk, and info compares it with the one before; who looks on at a terminal sees a chunk
// when it is read; and a pipe, whose length is not known, could keep a worker waiting that nobody needs any more.
static int is_shared(const struct job *job)
{
    return job->view->reads && !job->out.terminal && job->input.expected > job->input.offset && !is_limited();
}

// As many as the machine has processors, and the file has chunks.
static uint64_t count_wanted(const struct job *job)
{
    uint64_t chunks = (job->input.expected - job->input.offset) / DOORTUMBLE_CHUNK_BYTES;
    long processors = sysconf(_SC_NPROCESSORS_ONLN);
    uint64_t most = processors < 1 ? 1 : processors < MOST ? (uint64_t)processors : MOST;

    return chunks < most ? chunks : most;
}

// A worker for this job; a null pointer where there is no memory for one.
static struct worker *ready(struct worker **place, const struct job *job)
{
    static const struct counts none;
    struct job *own;

    if (*place == NULL)
        *place = calloc(1, sizeof **place);
    if (*place == NULL)
        return NULL;
    own = &(*place)->job;
    own->view = job->view;
    own->recovery = job->recovery;
    own->tokens = job->tokens;
    own->file = job->file;
    own->counts = none;
    own->filter = job->filter;
    own->form = job->form;
    own->form.out = &own->out;
    out_start(&own->out, job->out.descriptor, (*place)->printed, PRINTED_BYTES);
    own->out.wait = write_before;
    own->out.waiter = *place;
    own->reader = &(*place)->reader;
    return *place;
}

// In a thread of its own. Not 0 where it is at work.
static int start(struct worker *worker)
{
    pthread_attr_t attributes;
    int started;

    if (worker == NULL || pthread_attr_init(&attributes) != 0)
        return 0;
    started = pthread_attr_setstacksize(&attributes, STACK_BYTES) == 0 &&
              pthread_create(&worker->thread, &attributes, work, worker) == 0;
    pthread_attr_destroy(&attributes);
    return started;
}

// --------------------------------------------------------------------------------------------------------------- the end

static void add_counts(struct counts *counts, const struct counts *more)
{
    counts->live += more->live;
    counts->carved += more->carved;
    counts->refused += more->refused;
    counts->unread += more->unread;
}

int workers_read(struct job *job)
{
    uint64_t wanted = is_shared(job) ? count_wanted(job) : 0;
    struct worker *own; // this thread is a worker too
    unsigned count = 1;
    unsigned n;

    if (wanted < 2)
        return 0;
    from = job;
    taken = 0;
    turn = 0;
    failed = job->out.error != 0;
    own = ready(&workers[0], job);
    while (own != NULL && count < wanted && start(ready(&workers[count], job)))
        count++;
    if (count == 1)
        return 0;
    work(own);
    for (n = 1; n < count; n++)
        pthread_join(workers[n]->thread, NULL);
    for (n = 0; n < count; n++)
        add_counts(&job->counts, &workers[n]->job.counts);
    return 1;
}

void workers_end(void)
{
    unsigned n;

    for (n = 0; n < MOST; n++)
        free(workers[n]);
}
