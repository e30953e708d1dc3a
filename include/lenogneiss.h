/*
 * Whether two events of a dump race.
 *
 * "rt lib" in crates/host proves the library and writes crates/host/out/libhost.a,
 * for Linux on x86-64. Link that archive; of the C library it needs memset alone.
 *
 * A dump is a trace of one run: records of eight bytes, one for each event, with no
 * header and no end mark. docs/FORMAT.md has the records, docs/CALLS.md the checks and
 * docs/MODEL.md what a race is.
 */
#ifndef LENOGNEISS_H
#define LENOGNEISS_H

#include <stddef.h>
#include <stdint.h>

/* The version. */
#define LENOGNEISS_VERSION_MAJOR 0
#define LENOGNEISS_VERSION_MINOR 1
#define LENOGNEISS_VERSION_PATCH 0

#ifdef __cplusplus
extern "C" {
#endif

/* The answers of lenogneiss_judge. There are no others. */
enum lenogneiss_answer {
    LENOGNEISS_NO_RACE = 0,       /* the two events do not race */
    LENOGNEISS_RACE = 1,          /* the two events race */

    /* 100 and the number of a refusal. The dump is refused: */
    LENOGNEISS_LENGTH = 101,      /* its length is no multiple of 8 */
    LENOGNEISS_KIND = 102,        /* a record's kind is not 1 to 6 */
    LENOGNEISS_THREAD = 103,      /* a record's thread is above 15 */
    LENOGNEISS_SUBJECT = 104,     /* a record's variable is above 1,023, its lock above 199, or the
                                     thread that it spawns or joins above 15 */
    LENOGNEISS_ENDED = 115,       /* an event of a thread that an earlier event joined */
    LENOGNEISS_NO_START = 114,    /* a spawn or a join of its own thread; or a spawn of a thread
                                     that has an event, or that an earlier spawn or join named */
    LENOGNEISS_LOCK_HELD = 105,   /* an acquire of a lock that another thread holds */
    LENOGNEISS_TOO_DEEP = 113,    /* an acquire by which its thread would hold the lock more than
                                     255 deep */
    LENOGNEISS_NOT_HOLDER = 106,  /* a release by a thread that does not hold the lock */
    LENOGNEISS_FULL = 107,        /* there are more than 1,024 records */

    /* The dump is taken, and the positions are refused: */
    LENOGNEISS_NO_EVENT = 108,    /* p or q is not below the number of events */
    LENOGNEISS_ORDER = 109,       /* p is not below q */
    LENOGNEISS_NO_CONFLICT = 110  /* the two are not a write and another access of one variable
                                     by different threads */
};

/*
 * Whether the events at the positions p and q of a dump race. Positions are counted from 0,
 * and p is the earlier one.
 *
 * dump    the first byte of the dump. It is only read. It need not be aligned. It may be
 *         NULL where length is 0.
 * length  how many bytes the dump has, any number. Of a longer dump than 8,192 bytes
 *         (1,024 records) no verdict is given.
 * p, q    any two numbers.
 *
 * The answer is one of the list above. Where several refusals apply: 101 comes before all
 * others; then the records are taken one by one, and the first that is refused decides, by
 * the refusal that stands first in the list above of those that apply to it; the positions
 * are looked at only when all records are taken, and again the first in the list decides.
 *
 * For all bytes and all numbers it is proved that the call returns, and that its answer is
 * the one that this list says. The caller owes that length bytes can be read at dump, that
 * they do not change during the call, and about 29 KiB of stack.
 *
 * The call keeps no state, allocates nothing and writes nothing but its stack, so it may run
 * in several threads at once, on the same dump too.
 */
uint32_t lenogneiss_judge(const uint8_t *dump, size_t length, size_t p, size_t q);

#ifdef __cplusplus
}
#endif

#endif
