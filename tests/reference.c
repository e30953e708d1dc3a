/* A second implementation of the race report and of the judge entry, to compare the proved ones with.
 *
 *   reference            < dump     what racereport prints for the dump
 *   reference judge P Q  < dump     what lenogneiss_judge answers for the dump and the positions P and Q
 *   reference reports    < stream   for each dump of the stream its report, and then an empty line
 *   reference judges     < stream   for each case of the stream a line with its answer
 *
 * A stream of dumps has for each dump its length and its bytes; a stream of cases has for each the length,
 * the bytes, P and Q. Numbers there have eight bytes, the lowest first.
 *
 * It is written from docs/FORMAT.md, docs/CALLS.md and docs/MODEL.md alone and shares nothing with the
 * crates. A closure is a set of positions with a mark for each; what a position brings with it is looked up
 * in tables that are filled once, and a list of positions still to be taken in is worked off.
 */
#include <inttypes.h>
#include <stdbool.h>
#include <stdint.h>
#include <stdio.h>
#include <stdlib.h>
#include <string.h>

enum { RECORD = 8, THREADS = 16, VARIABLES = 1024, LOCKS = 200, DEEPEST = 255 };
enum { HOST = 4096, BOARD = 1024, MOST = HOST };
enum { READ = 1, WRITE = 2, ACQUIRE = 3, RELEASE = 4, SPAWN = 5, JOIN = 6 };
enum { NONE = -1 };

struct event {
    int kind, thread, subject;
    uint32_t site;
};

/* A trace with the lookups of each event: the position found, or NONE. A release is looked up for outer acquires
 * alone, and an end for joins: the last event of the awaited thread, or its spawn where it has no event. */
struct trace {
    int count, capacity;
    struct event event[MOST];
    int previous[MOST], last_write[MOST], release[MOST], end[MOST];
    bool outer[MOST]; /* it acquires a lock that its thread is not in */
    /* the state at the end of the trace */
    int latest[THREADS];  /* the last event of the thread, or its spawn where it has no event */
    bool joined[THREADS]; /* a join named the thread */
    int written[VARIABLES];
    int depth[THREADS][LOCKS]; /* how many more acquires than releases of the lock the thread has */
    int acquired[LOCKS];       /* the last outer acquire of the lock */
};

/* A set of positions, and for each lock the latest of its outer acquires in the set. */
struct set {
    bool has[MOST];
    int latest_acquire[LOCKS];
};

static struct trace trace;

static void fail(const char *why)
{
    fprintf(stderr, "reference: %s\n", why);
    exit(2);
}

static void start(int capacity)
{
    trace.count = 0;
    trace.capacity = capacity;
    for (int i = 0; i < THREADS; i++) trace.latest[i] = NONE;
    memset(trace.joined, 0, sizeof trace.joined);
    for (int i = 0; i < VARIABLES; i++) trace.written[i] = NONE;
    for (int i = 0; i < LOCKS; i++) trace.acquired[i] = NONE;
    memset(trace.depth, 0, sizeof trace.depth);
}

static bool is_access(struct event e) { return e.kind == READ || e.kind == WRITE; }

static bool is_on_lock(struct event e) { return e.kind == ACQUIRE || e.kind == RELEASE; }

/* How many subjects there are for events of the kind. */
static int subjects(struct event e) { return is_access(e) ? VARIABLES : is_on_lock(e) ? LOCKS : THREADS; }

/* The checks 15 and 14: 0, or the number of the first that fails. */
static int thread_refusal(struct event e)
{
    if (trace.joined[e.thread]) return 15;
    if (e.kind != SPAWN && e.kind != JOIN) return 0;
    bool known = trace.latest[e.subject] != NONE || trace.joined[e.subject];
    return e.subject == e.thread || (e.kind == SPAWN && known) ? 14 : 0;
}

/* The checks 5, 13 and 6: 0, or the number of the one that fails. */
static int lock_refusal(struct event e)
{
    if (!is_on_lock(e)) return 0;
    int depth = trace.depth[e.thread][e.subject];
    if (e.kind == RELEASE) return depth > 0 ? 0 : 6;
    for (int other = 0; other < THREADS; other++)
        if (other != e.thread && trace.depth[other][e.subject] > 0) return 5;
    return depth < DEEPEST ? 0 : 13;
}

/* Takes in the acquire or the release at a position. */
static void turn(int here)
{
    struct event e = trace.event[here];
    int *depth = &trace.depth[e.thread][e.subject];
    if (e.kind == ACQUIRE) {
        trace.outer[here] = *depth == 0;
        if (trace.outer[here]) trace.acquired[e.subject] = here;
        ++*depth;
    } else if (--*depth == 0) { /* it frees the lock */
        trace.release[trace.acquired[e.subject]] = here;
    }
}

/* Puts one record through the checks 1 to 4, those of threads, those of locks and 7, and takes its event in: 0, or
 * the number of the first that fails. */
static int enter(const uint8_t *bytes, size_t length)
{
    if (length < RECORD) return 1;
    struct event e = {bytes[0], bytes[1], bytes[2] | bytes[3] << 8,
                      bytes[4] | (uint32_t)bytes[5] << 8 | (uint32_t)bytes[6] << 16 | (uint32_t)bytes[7] << 24};
    if (e.kind < READ || e.kind > JOIN) return 2;
    if (e.thread >= THREADS) return 3;
    if (e.subject >= subjects(e)) return 4;
    int refusal = thread_refusal(e);
    if (refusal == 0) refusal = lock_refusal(e);
    if (refusal != 0) return refusal;
    if (trace.count == trace.capacity) return 7;

    int here = trace.count++;
    trace.event[here] = e;
    trace.previous[here] = trace.latest[e.thread];
    trace.last_write[here] = e.kind == READ ? trace.written[e.subject] : NONE;
    trace.release[here] = NONE;
    trace.end[here] = e.kind == JOIN ? trace.latest[e.subject] : NONE;
    trace.outer[here] = false;
    trace.latest[e.thread] = here;
    if (e.kind == WRITE) trace.written[e.subject] = here;
    if (is_on_lock(e)) turn(here);
    if (e.kind == SPAWN) trace.latest[e.subject] = here;
    if (e.kind == JOIN) trace.joined[e.subject] = true;
    return 0;
}

/* Enters the records of a dump until one is refused: its number and, in *index, which one; else 0. */
static int enter_records(const uint8_t *dump, size_t length, size_t *index)
{
    for (size_t at = 0; at < length; at += RECORD) {
        int refusal = enter(dump + at, length - at);
        *index = at / RECORD;
        if (refusal != 0) return refusal;
    }
    return 0;
}

static bool conflict(int p, int q)
{
    struct event a = trace.event[p], b = trace.event[q];
    return is_access(a) && is_access(b) && a.subject == b.subject && a.thread != b.thread &&
           (a.kind == WRITE || b.kind == WRITE);
}

static void clear(struct set *set)
{
    memset(set->has, 0, sizeof set->has);
    for (int i = 0; i < LOCKS; i++) set->latest_acquire[i] = NONE;
}

/* Takes a position into a closed set, and all that must come with it so that it is closed again: with an
 * event its previous one, which is the spawn of its thread for the first of a spawned thread, with a read its last
 * write, with a join the end of the awaited thread, and of two outer acquires of a lock the release of the earlier. */
static void take(struct set *set, int seed)
{
    static int waiting[1 + 4 * MOST]; /* each position taken puts at most four others here */
    int n = 0;
    waiting[n++] = seed;
    while (n > 0) {
        int at = waiting[--n];
        if (at == NONE || set->has[at]) continue;
        set->has[at] = true;
        waiting[n++] = trace.previous[at];
        waiting[n++] = trace.last_write[at];
        waiting[n++] = trace.end[at];
        if (trace.outer[at]) {
            int *latest = &set->latest_acquire[trace.event[at].subject];
            int earlier = at < *latest ? at : *latest;
            if (at > *latest) *latest = at;
            if (earlier != NONE) waiting[n++] = trace.release[earlier];
        }
    }
}

/* Whether two conflicting accesses race, by the closure of their previous events. */
static bool race(int p, int q)
{
    static struct set closure;
    clear(&closure);
    take(&closure, trace.previous[p]);
    take(&closure, trace.previous[q]);
    return !closure.has[p];
}

/* Marks in racing[] every position below q that races with q. What q brings is closed once; and since later
 * events of a thread bring what the earlier ones bring, one set grows through each thread. */
static void partners(int q, bool *racing)
{
    static struct set base, closure;
    bool done[THREADS] = {false};
    memset(racing, 0, MOST * sizeof *racing);
    if (!is_access(trace.event[q])) return;
    clear(&base);
    take(&base, trace.previous[q]);
    for (int first = 0; first < q; first++) {
        int thread = trace.event[first].thread;
        if (done[thread] || !conflict(first, q)) continue;
        done[thread] = true;
        closure = base;
        for (int p = first; p < q; p++) {
            if (trace.event[p].thread != thread || !conflict(p, q)) continue;
            take(&closure, trace.previous[p]);
            racing[p] = !closure.has[p];
        }
    }
}

static void report(const uint8_t *dump, size_t length)
{
    static bool racing[MOST];
    size_t index = 0;
    start(HOST);
    int refusal = enter_records(dump, length, &index);
    if (refusal != 0) {
        printf("refused %d record %zu\n", refusal, index);
        return;
    }
    printf("events %d\n", trace.count);
    long pairs = 0;
    for (int q = 0; q < trace.count; q++) {
        partners(q, racing);
        for (int p = 0; p < q; p++)
            if (racing[p]) {
                pairs++;
                printf("race %d %d sites %" PRIu32 " %" PRIu32 "\n", p, q, trace.event[p].site, trace.event[q].site);
            }
    }
    printf("pairs %ld\n", pairs);
}

/* 0 no race, 1 race, or 100 and the number of the refusal. */
static int judge(const uint8_t *dump, size_t length, uint64_t p, uint64_t q)
{
    size_t index = 0;
    if (length % RECORD != 0) return 100 + 1;
    start(BOARD);
    int refusal = enter_records(dump, length, &index);
    if (refusal != 0) return 100 + refusal;
    if (p >= (uint64_t)trace.count || q >= (uint64_t)trace.count) return 100 + 8;
    if (p >= q) return 100 + 9;
    if (!conflict((int)p, (int)q)) return 100 + 10;
    return race((int)p, (int)q);
}

static uint8_t *room(uint8_t *bytes, size_t length)
{
    bytes = realloc(bytes, length > 0 ? length : 1);
    if (bytes == NULL) fail("no memory");
    return bytes;
}

static uint8_t *whole_input(size_t *length)
{
    size_t space = 65536, got;
    uint8_t *bytes = room(NULL, space);
    *length = 0;
    while ((got = fread(bytes + *length, 1, space - *length, stdin)) > 0) {
        *length += got;
        if (*length == space) bytes = room(bytes, space *= 2);
    }
    if (ferror(stdin)) fail("cannot read");
    return bytes;
}

/* Reads a number of eight bytes from the stream; false at its end. */
static bool number(uint64_t *value)
{
    uint8_t bytes[8];
    size_t got = fread(bytes, 1, 8, stdin);
    if (got == 0) return false;
    if (got < 8) fail("the stream is cut short");
    *value = 0;
    for (int i = 7; i >= 0; i--) *value = *value << 8 | bytes[i];
    return true;
}

static void stream(bool cases)
{
    uint64_t length, p, q;
    uint8_t *dump = NULL;
    while (number(&length)) {
        dump = room(dump, length);
        if (fread(dump, 1, length, stdin) < length) fail("the stream is cut short");
        if (!cases) {
            report(dump, length);
            puts("");
        } else if (number(&p) && number(&q)) {
            printf("%d\n", judge(dump, length, p, q));
        } else {
            fail("the stream is cut short");
        }
    }
    free(dump);
}

static uint64_t position(const char *text)
{
    char *end;
    uint64_t value = strtoull(text, &end, 10);
    if (end == text || *end != 0) fail("no position");
    return value;
}

int main(int count, char **words)
{
    size_t length;
    if (count == 2 && strcmp(words[1], "reports") == 0) {
        stream(false);
    } else if (count == 2 && strcmp(words[1], "judges") == 0) {
        stream(true);
    } else if (count == 1) {
        uint8_t *dump = whole_input(&length);
        report(dump, length);
        free(dump);
    } else if (count == 4 && strcmp(words[1], "judge") == 0) {
        uint64_t p = position(words[2]), q = position(words[3]);
        uint8_t *dump = whole_input(&length);
        printf("%d\n", judge(dump, length, p, q));
        free(dump);
    } else {
        fail("usage: reference [judge P Q | reports | judges]");
    }
    if (fflush(stdout) != 0 || ferror(stdout)) fail("cannot write");
    return 0;
}
