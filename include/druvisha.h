/* Druvisha: the plant numbering machine, for programs in C, C++ or whatever links as C does.
 *
 * The machine keeps no memory of its own. A caller lends it the plant's tables, and an event; it answers, and the tables are those afterwards. Each
 * call takes any tables and any event, and gives an answer: whoever calls need not check anything first. Every refusal has value 0 and leaves the
 * tables and the output as they stood. That each call does exactly this is proved (README.md, "What is proved"; crates/abi/).
 *
 * `rt lib` in crates/abi makes the archive, crates/abi/out/libabi.a (x86-64 Linux). It needs no other library:
 *
 *     cc -I include main.c crates/abi/out/libabi.a
 *
 * What a caller answers for: each pointer leads to as many entries as the count behind it says, is aligned and isn't null; no two tables overlap;
 * and nothing else reads or writes them before the call returns. There is nothing to initialize and nothing to free. Calls on different tables may
 * run in different threads.
 */
#ifndef DRUVISHA_H
#define DRUVISHA_H

#include <stddef.h>
#include <stdint.h>

#ifdef __cplusplus
extern "C" {
#endif

/* ---- sizes ---- */

#define DRUVISHA_SERIES 64     /* series 0 to 63 */
#define DRUVISHA_STATIONS 8    /* stations 0 to 7 */
#define DRUVISHA_JOBS 16       /* jobs 0 to 15 */
#define DRUVISHA_PLACES 4      /* lock places of a job */
#define DRUVISHA_COPIES 512    /* a place for each series and station */
#define DRUVISHA_RECEIVED 4096 /* and for each of those and each sender */
#define DRUVISHA_OUT 12        /* three numbers for each of four draws */

#define DRUVISHA_GREATEST_SERIAL 999999999u /* also the greatest count of a DRAW */
#define DRUVISHA_GREATEST_SENT 9999u        /* transfers that a station can send of a series */

/* Where a station's copy of a series stands in a table of copies, and what it has received from a sender in the table of received numbers. */
#define DRUVISHA_COPY_AT(series, station) ((series) * DRUVISHA_STATIONS + (station))
#define DRUVISHA_RECEIVED_AT(series, station, sender) (DRUVISHA_COPY_AT(series, station) * DRUVISHA_STATIONS + (sender))

/* ---- the tables ----
 *
 * Each is lent as a pointer and the number of entries behind it. With fewer entries than stated here the answer is DRUVISHA_SHORT; extra entries
 * are never looked at and never touched.
 *
 *   jobs      16    a slot for each job
 *   firsts    64    by series: its first number, 0 where the series isn't open
 *   lasts     64    by series: its last number
 *   kinds     512   by copy: 0 void, 1 share, 2 exclusive
 *   values    512   by copy: the next number, from first to last + 1
 *   sent      512   by copy: how many transfers the station has sent of the series
 *   relto     512   by copy: the receiver of the Release that stands there
 *   relkind   512   by copy: its kind, 0 where none stands
 *   relvalue  512   by copy: its value
 *   received  4096  by copy and sender: the highest transfer number received
 *   up        8     by station: 1 up, 0 down
 *   out       12    where COMMIT writes series, first serial and count of each draw; not part of the plant
 *
 * All but jobs and the output are what the stations keep in reliable storage. A plant starts with druvisha_empty.
 */

/* A lock of a job. An unused place is all zero, and all unused places come after the used ones. */
typedef struct druvisha_lock {
    uint32_t series;
    uint32_t mode;  /* 1 share, 2 exclusive; 0 in an unused place */
    uint32_t drawn; /* the count drawn, 0 if none */
} druvisha_lock;

/* A job slot. An unused one is all zero. */
typedef struct druvisha_job {
    uint32_t mark; /* 1 where the job is open */
    uint32_t station;
    druvisha_lock locks[DRUVISHA_PLACES];
} druvisha_job;

/* ---- events ----
 *
 * A station draws serials in jobs: BEGIN, lock the series, DRAW, COMMIT. Locks go only at COMMIT, ABORT or CRASH. The right to draw is a token, the
 * exclusive copy; it travels by SEND, GRANT (the transfer arrives) and ACK (its acknowledgment arrives). GRANT and ACK may come late, more than
 * once, or never. A copy is free when no job locks it.
 *
 * Each kind has its fields in a, b, c, d, in this order; those that it hasn't are 0.
 *
 *   OPEN     series first last station   opens the series: exclusive at the station, void elsewhere, next number = first; value 0
 *   BEGIN    job station                 the job opens with no lock; 0
 *   LOCKX    job series                  locks a free exclusive copy of the job's station; 0
 *   LOCKS    job series                  locks a share copy there; 0
 *   DRAW     job series count            notes the count; serials leave only at COMMIT; 0
 *   READ     job series                  nothing changes; the value of the station's copy + what the job has drawn of it
 *   COMMIT   job                         adds each drawn count to its copy's value, and the job closes; number of draws
 *   ABORT    job                         the job closes, the copies stay; 0
 *   SEND     series from to              a free exclusive copy becomes void and is released to the receiver; transfer number
 *   DEMOTE   series station              a free exclusive copy becomes a share; 0
 *   SHARE    series from to              a share is released to the receiver, and from keeps its own; transfer number
 *   DROP     series station              a free share becomes void; 0
 *   PROMOTE  series station              a free share, the only one, becomes exclusive; 0
 *   GRANT    series from to number       the transfer arrives at its receiver; 1, or 0 for a repeat, which changes nothing
 *   ACK      series from to number       the acknowledgment arrives at the sender; 1 if its Release is deleted, else 0
 *   CRASH    station                     the station is down, its jobs are closed; number of jobs closed
 *   RESTART  station                     the station is up; number of its copies that aren't void
 */
enum druvisha_kind {
    DRUVISHA_OPEN = 1,
    DRUVISHA_BEGIN = 2,
    DRUVISHA_LOCKX = 3,
    DRUVISHA_LOCKS = 4,
    DRUVISHA_DRAW = 5,
    DRUVISHA_READ = 6,
    DRUVISHA_COMMIT = 7,
    DRUVISHA_ABORT = 8,
    DRUVISHA_SEND = 9,
    DRUVISHA_DEMOTE = 10,
    DRUVISHA_SHARE = 11,
    DRUVISHA_DROP = 12,
    DRUVISHA_PROMOTE = 13,
    DRUVISHA_GRANT = 14,
    DRUVISHA_ACK = 15,
    DRUVISHA_CRASH = 16,
    DRUVISHA_RESTART = 17
};

typedef struct druvisha_event {
    uint32_t kind;
    uint32_t a, b, c, d;
} druvisha_event;

/* ---- answers ---- */

/* The refusals are judged in this order, each for the kinds where it applies, and the first that is given is the answer. */
enum druvisha_code {
    DRUVISHA_DONE = 0,       /* accepted */
    DRUVISHA_SHORT = 1,      /* a table or the output has fewer entries than its size */
    DRUVISHA_NOT_WHOLE = 2,  /* the tables aren't whole (below) */
    DRUVISHA_BAD_EVENT = 3,  /* unknown kind; series, station or job too large; not 1 <= first <= last <= 999,999,999; a DRAW count of 0 or above
                                999,999,999; a GRANT or ACK number of 0 or above 9,999; from = to; an unused field that isn't 0 */
    DRUVISHA_TAKEN = 4,      /* OPEN of an open series, BEGIN of an open job */
    DRUVISHA_NONE = 5,       /* the series or job named isn't open */
    DRUVISHA_DOWN = 6,       /* the station is down: of OPEN, BEGIN, DEMOTE, DROP, PROMOTE, CRASH; from of SEND, SHARE, ACK; to of GRANT */
    DRUVISHA_UP = 7,         /* RESTART of a station that is up */
    DRUVISHA_HELD = 8,       /* LOCKX, LOCKS: the job already locks that series */
    DRUVISHA_FULL = 9,       /* LOCKX, LOCKS: the job has four locks */
    DRUVISHA_COPY = 10,      /* the copy isn't exclusive: LOCKX, SEND, DEMOTE; isn't a share: LOCKS, SHARE, DROP, PROMOTE */
    DRUVISHA_LOCKED = 11,    /* LOCKX, SEND, DEMOTE, DROP, PROMOTE: the copy isn't free */
    DRUVISHA_NO_LOCK = 12,   /* DRAW without an exclusive lock of this job, READ without any */
    DRUVISHA_DRAWN = 13,     /* DRAW: this job has drawn in this series */
    DRUVISHA_RANGE = 14,     /* DRAW: the count is above last + 1 - value */
    DRUVISHA_WAIT = 15,      /* SEND, SHARE: the sender has a standing Release of the series, not acknowledged yet */
    DRUVISHA_SPENT = 16,     /* SEND, SHARE: the sender has sent 9,999 transfers of the series */
    DRUVISHA_OTHERS = 17,    /* DROP: no other station holds a share. PROMOTE: another does, or a transfer is undelivered */
    DRUVISHA_NO_MESSAGE = 18 /* GRANT, ACK: no such message was ever sent */
};

/* Tables are whole when these hold. The tables that druvisha_empty makes are, and every step keeps them so; others come from damage.
 *
 *   W1  All numbers are in their ranges; a Release isn't addressed to its own station and needs a sent count of at least 1.
 *   W2  For each open series, counting copies held and transfers undelivered: exactly one exclusive and no share, or one or more shares and no
 *       exclusive; all those counted have equal values, the series' next number. (A transfer is undelivered while its Release stands and the
 *       receiver's highest number from that sender is below the sent count.)
 *   W3  A received number never exceeds the sender's sent count; while a Release stands, only its receiver may have that number; a station has
 *       received 0 from itself.
 *   W4  An open job is at a station that is up; its locked series differ and are open. An exclusive lock needs an exclusive copy there and no other
 *       job's lock on it, a share lock a share copy there. Only an exclusive lock has a drawn count, at most last + 1 - value.
 *   W5  Unused job slots, unused lock places, Releases that don't stand and series that aren't open, with all they keep, are zero.
 */

typedef struct druvisha_answer {
    uint32_t code;  /* enum druvisha_code */
    uint32_t value; /* 0 with every refusal */
} druvisha_answer;

/* Who holds a series: the stations with a copy that isn't void. All three are 0 with a refusal. */
typedef struct druvisha_holding {
    uint32_t code;   /* DRUVISHA_DONE, SHORT, NOT_WHOLE, BAD_EVENT or NONE */
    uint32_t set;    /* bit i for station i */
    uint32_t count;  /* how many they are */
    uint32_t lowest; /* the lowest of them, 8 if there is none: the only token is under way */
} druvisha_holding;

/* ---- the calls ---- */

/* Makes an empty plant in the tables: no series, no jobs, all stations up. The answer is DONE with value 0, or SHORT. */
druvisha_answer druvisha_empty(
    druvisha_job *jobs, size_t jobs_count,
    uint32_t *firsts, size_t firsts_count,
    uint32_t *lasts, size_t lasts_count,
    uint32_t *kinds, size_t kinds_count,
    uint32_t *values, size_t values_count,
    uint32_t *sent, size_t sent_count,
    uint32_t *relto, size_t relto_count,
    uint32_t *relkind, size_t relkind_count,
    uint32_t *relvalue, size_t relvalue_count,
    uint32_t *received, size_t received_count,
    uint32_t *up, size_t up_count);

/* One step. An accepted COMMIT writes series, first serial and count of each draw into the output, in order of locking; it leaves the places after
 * the last draw, and no other event touches the output. */
druvisha_answer druvisha_step(
    druvisha_job *jobs, size_t jobs_count,
    uint32_t *firsts, size_t firsts_count,
    uint32_t *lasts, size_t lasts_count,
    uint32_t *kinds, size_t kinds_count,
    uint32_t *values, size_t values_count,
    uint32_t *sent, size_t sent_count,
    uint32_t *relto, size_t relto_count,
    uint32_t *relkind, size_t relkind_count,
    uint32_t *relvalue, size_t relvalue_count,
    uint32_t *received, size_t received_count,
    uint32_t *up, size_t up_count,
    uint32_t *out, size_t out_count,
    druvisha_event event);

/* The holders of a series. */
druvisha_holding druvisha_holders(
    const druvisha_job *jobs, size_t jobs_count,
    const uint32_t *firsts, size_t firsts_count,
    const uint32_t *lasts, size_t lasts_count,
    const uint32_t *kinds, size_t kinds_count,
    const uint32_t *values, size_t values_count,
    const uint32_t *sent, size_t sent_count,
    const uint32_t *relto, size_t relto_count,
    const uint32_t *relkind, size_t relkind_count,
    const uint32_t *relvalue, size_t relvalue_count,
    const uint32_t *received, size_t received_count,
    const uint32_t *up, size_t up_count,
    uint32_t series);

#ifdef __cplusplus
}
#endif

/* ---- a plant in one place ----
 *
 * For a caller that has no tables of its own yet: all of them at their sizes, and the three calls on them. These are plain C on top of the calls
 * above, and not proved.
 */

typedef struct druvisha_plant {
    druvisha_job jobs[DRUVISHA_JOBS];
    uint32_t firsts[DRUVISHA_SERIES];
    uint32_t lasts[DRUVISHA_SERIES];
    uint32_t kinds[DRUVISHA_COPIES];
    uint32_t values[DRUVISHA_COPIES];
    uint32_t sent[DRUVISHA_COPIES];
    uint32_t relto[DRUVISHA_COPIES];
    uint32_t relkind[DRUVISHA_COPIES];
    uint32_t relvalue[DRUVISHA_COPIES];
    uint32_t received[DRUVISHA_RECEIVED];
    uint32_t up[DRUVISHA_STATIONS];
} druvisha_plant;

/* The eleven tables of a plant, as the calls take them. */
#define DRUVISHA_TABLES(plant) \
    (plant)->jobs, DRUVISHA_JOBS, \
    (plant)->firsts, DRUVISHA_SERIES, (plant)->lasts, DRUVISHA_SERIES, \
    (plant)->kinds, DRUVISHA_COPIES, (plant)->values, DRUVISHA_COPIES, \
    (plant)->sent, DRUVISHA_COPIES, (plant)->relto, DRUVISHA_COPIES, \
    (plant)->relkind, DRUVISHA_COPIES, \
    (plant)->relvalue, DRUVISHA_COPIES, \
    (plant)->received, DRUVISHA_RECEIVED, (plant)->up, DRUVISHA_STATIONS

static inline druvisha_answer druvisha_plant_empty(druvisha_plant *plant)
{
    return druvisha_empty(DRUVISHA_TABLES(plant));
}

static inline druvisha_answer druvisha_plant_step(druvisha_plant *plant, uint32_t out[DRUVISHA_OUT], druvisha_event event)
{
    return druvisha_step(DRUVISHA_TABLES(plant), out, DRUVISHA_OUT, event);
}

static inline druvisha_holding druvisha_plant_holders(const druvisha_plant *plant, uint32_t series)
{
    return druvisha_holders(DRUVISHA_TABLES(plant), series);
}

#endif
