/* The calls of the seabed station planner (document 01, with the requests of document 02 that have landed), for C99 and
 * C++11. Link with libstation.a.
 *
 * A plan is the bytes of a plan file as they are, with no NUL behind them. A start is a tick, a minute counted from the
 * plan's beginning. An activity is named by its place: its position in the scheduling order, from 0. That order is by
 * priority, the lowest number first, and of equal priorities by line; so a place is neither an id nor a line number.
 * Line k of the report, counted from 0, is the line of place k, and begins with the activity's id: planner_place_of
 * looks an id up there.
 *
 * Since version 3 a window is a:p:b: its first start, its preferred tick and its last start. An activity with windows is
 * placed as near as can be to the p of the window that holds its start; the preferred tick of its line counts only where
 * it has none. A window a:b, as before, is malformed.
 *
 * Each call reads the plan, does its whole work and gives its answer as one number, which the functions below take
 * apart:
 *
 *     bits 0 to 31   what was asked for: a start, a set of conditions, a length or a count; of a refusal, its line
 *     bits 32 to 39  the number of the refusal; 0 where the call is answered
 *     bit 40         1 where an activity is placed
 *     bits 41 to 63  0
 *
 * Every plan is allowed, whatever its bytes and its length, and so are every place, set and slice: each draws an answer
 * or one refusal, and every call ends. A call that is refused writes nothing. A call that is answered writes the front
 * of the slice lent to it; all behind that remains as it was.
 *
 * Pointers: each points to as many bytes or records as the call is told, aligned as its type asks; with a count of 0
 * nothing is read or written through it, and it may be NULL. The plan is only read. The plan and the slice lent may not
 * overlap; until the call returns, nobody else may write the plan, or read or write the slice. Neither may have more
 * than PTRDIFF_MAX bytes. No pointer is kept.
 *
 * The calls use no heap, keep nothing from one call to the next, and may run in several threads at once. A task that
 * calls needs PLANNER_STACK_MOST bytes of stack beside its own need: the frames are fixed and no function calls itself,
 * so the plan makes no difference. The stack is measured, and that there is no variable is seen in the object file;
 * neither is proved. docs/INTEGRATION.md says what is proved and what is trusted.
 *
 * Bare x86-64 firmware must provide the System V AMD64 convention with its red zone (so interrupts need a stack of
 * their own), SSE2 switched on, its registers saved when tasks switch, and memcpy and memset. No more is needed. */
#ifndef PLANNER_H
#define PLANNER_H

#include <stddef.h>
#include <stdint.h>

#ifdef __cplusplus
extern "C" {
#define PLANNER_CAST(type, value) static_cast<type>(value)
#else
#define PLANNER_CAST(type, value) ((type)(value))
#endif

#define PLANNER_VERSION 3 /* the version of this header; planner_version() gives that of the library */

#define PLANNER_PLAN_MOST 60000    /* the most bytes of a plan; a longer one is refused */
#define PLANNER_ACTIVITIES_MOST 64 /* the most activities of a plan */
#define PLANNER_REPORT_MOST 1584   /* bytes: room enough for every report */
#define PLANNER_RUNS_MOST 2048     /* records: room enough for every list of runs */
#define PLANNER_STACK_MOST 131072  /* bytes of stack that are enough for every call */

/* A run of starts, both bounds included. */
struct planner_interval {
    uint32_t first;
    uint32_t last;
};

/* Why a call is refused, by the numbers of the documents; only the first in their order of checks is given. With 1 to 9
 * and 13 the plan itself is refused, by every call alike; 10 to 12 are of the call. Lines count from 1; 1 and 9 to 12
 * have line 0. */
enum planner_refusal_number {
    PLANNER_REFUSAL_NONE = 0,                /* no refusal */
    PLANNER_REFUSAL_PLAN_TOO_LONG = 1,       /* over 60,000 bytes */
    PLANNER_REFUSAL_LINE_WRONG = 2,          /* first word or field count wrong, or no LF */
    PLANNER_REFUSAL_MALFORMED = 3,           /* malformed number or item, or an empty field */
    PLANNER_REFUSAL_OUT_OF_RANGE = 4,        /* number out of range */
    PLANNER_REFUSAL_TOO_MANY_ACTIVITIES = 5, /* 65th activity line */
    PLANNER_REFUSAL_ID_REPEATED = 6,         /* id of an earlier line */
    PLANNER_REFUSAL_AFTER_NOT_EARLIER = 7,   /* `after` names no activity at an earlier place */
    PLANNER_REFUSAL_LIST_WRONG = 8,          /* list not rising, a > b, or too many items */
    PLANNER_REFUSAL_HANDOVER_UNMET = 9,      /* charge at horizon T with nothing placed is under the handover charge */
    PLANNER_REFUSAL_SLICE_TOO_SHORT = 10,    /* lent slice too short for the answer */
    PLANNER_REFUSAL_NO_SUCH_PLACE = 11,      /* place not below the activity count */
    PLANNER_REFUSAL_SET_TOO_LARGE = 12,      /* set over 511 */
    PLANNER_REFUSAL_OUT_OF_WINDOW = 13       /* preferred tick outside its window */
};

/* The nine conditions that a start of an activity must meet beside those placed at earlier places. A set of them is
 * their sum. */
enum planner_condition {
    PLANNER_CONDITION_W = 1,   /* the start is in a window, or the activity has none */
    PLANNER_CONDITION_D = 2,   /* each activity that it comes after is placed and has ended by the start */
    PLANNER_CONDITION_U = 4,   /* no placed activity that shares a unit holds a tick that it holds */
    PLANNER_CONDITION_S = 8,   /* every need, its own and those of the placed, is met in each tick of the needing one */
    PLANNER_CONDITION_E = 16,  /* in each tick the engines of those holding it sum to at most the limit */
    PLANNER_CONDITION_P = 32,  /* in each tick the peaks of those holding it sum to at most the limit */
    PLANNER_CONDITION_B = 64,  /* the charge is never under the floor, nor at the horizon under the handover charge */
    PLANNER_CONDITION_V = 128, /* the volumes, its own and those of the placed, sum to at most the limit */
    PLANNER_CONDITION_H = 256, /* its warm-up, if it has one, begins at tick 0 or later */
    PLANNER_CONDITIONS_ALL = 511
};

/* The version of the library that is linked. A program that is linked with another library than it was compiled for
 * finds out by one comparison, planner_version() == PLANNER_VERSION, before its first call. */
uint32_t planner_version(void);

/* How the activity at a place is answered: placed at a start, or refused with conditions that have no start in common;
 * without any one of them the others have.
 *
 *   plan, plan_length  the plan
 *   place              the place
 *
 * The answer: planner_refusal and planner_line (1 to 9, 11, 13); where there is no refusal, planner_is_placed, and then
 * planner_start or planner_conditions. Nothing is written. */
uint64_t planner_outcome(const uint8_t *plan, size_t plan_length, size_t place);

/* The report of the plan: a line for each place, place 0 first, then the end line, in ASCII, each ended by LF; no NUL
 * behind them. The end line has seven fields: the word "end", how many are placed, how many are refused, the charge at
 * the horizon, the volume placed, the lowest charge at ticks 0 to the horizon, and the first tick that has it.
 *
 *   plan, plan_length  the plan
 *   out, out_length    the slice lent, in bytes; PLANNER_REPORT_MOST are always enough
 *
 * The answer: planner_refusal and planner_line (1 to 10, 13); where there is no refusal, planner_written, the length of
 * the report. Then that many bytes at the front of out are the report, and the others as before; on a refusal all
 * are. */
uint64_t planner_report(const uint8_t *plan, size_t plan_length, uint8_t *out, size_t out_length);

/* The starts of the activity at a place that meet every condition of a set, beside the activities placed at earlier
 * places: the longest unbroken runs of them, rising. Set 0 gives every start, 0 to horizon - duration;
 * PLANNER_CONDITIONS_ALL gives the valid ones.
 *
 *   plan, plan_length  the plan
 *   place              the place
 *   set                the conditions, added: 0 to PLANNER_CONDITIONS_ALL; or planner_all_but of one
 *   out, out_count     the slice lent, in records; PLANNER_RUNS_MOST are always enough
 *
 * The answer: planner_refusal and planner_line (1 to 13); where there is no refusal, planner_written, the count of
 * runs, 0 where no start meets the set. Then that many records at the front of out are the runs, and the others as
 * before; on a refusal all are. */
uint64_t planner_starts(const uint8_t *plan, size_t plan_length, size_t place, uint32_t set,
                        struct planner_interval *out, size_t out_count);

/* The parts of an answer. It doesn't say which call gave it: each function is for the calls that it names. */

/* Of any call: the number of its refusal (enum planner_refusal_number); 0 where it is answered. */
static inline uint32_t planner_refusal(uint64_t answer)
{
    return PLANNER_CAST(uint32_t, answer >> 32 & 0xff);
}

/* Of any call: the line that its refusal is about; 0 where it is about no single line, or the call is answered. */
static inline uint32_t planner_line(uint64_t answer)
{
    return planner_refusal(answer) != 0 ? PLANNER_CAST(uint32_t, answer) : 0;
}

/* Of planner_outcome: 1 where the activity is placed; 0 where the activity or the call is refused. */
static inline int planner_is_placed(uint64_t answer)
{
    return PLANNER_CAST(int, answer >> 40 & 1);
}

/* Of planner_outcome: the start of a placed activity; 0 where the activity or the call is refused. */
static inline uint32_t planner_start(uint64_t answer)
{
    return planner_is_placed(answer) ? PLANNER_CAST(uint32_t, answer) : 0;
}

/* Of planner_outcome: the conditions of a refused activity; 0 where it is placed, or the call is refused. */
static inline uint32_t planner_conditions(uint64_t answer)
{
    return planner_refusal(answer) == 0 && !planner_is_placed(answer) ? PLANNER_CAST(uint32_t, answer) : 0;
}

/* Of planner_report: the bytes written; of planner_starts: the records; 0 where the call is refused. */
static inline size_t planner_written(uint64_t answer)
{
    return planner_refusal(answer) == 0 ? PLANNER_CAST(uint32_t, answer) : 0;
}

/* From an id to its place: the line of the report that begins with it. SIZE_MAX where there is none, a place that
 * planner_outcome and planner_starts refuse with PLANNER_REFUSAL_NO_SUCH_PLACE.
 *
 *   report, report_length  what planner_report wrote, and its planner_written
 *   id                     the id, as in the plan */
static inline size_t planner_place_of(const uint8_t *report, size_t report_length, uint32_t id)
{
    size_t place = 0;
    for (size_t at = 0; at < report_length; at++, place++) {
        uint32_t number = 0;
        size_t first = at;
        for (; at < report_length && report[at] >= '0' && report[at] <= '9'; at++)
            number = number * 10 + report[at] - '0';
        if (number == id && at > first)
            return place;
        while (at < report_length && report[at] != '\n')
            at++;
    }
    return SIZE_MAX;
}

/* The set of all conditions but one (or but several, added), for planner_starts: with planner_all_but of
 * PLANNER_CONDITION_W it gives the starts that the activity would have without windows. */
static inline uint32_t planner_all_but(uint32_t condition)
{
    return PLANNER_CONDITIONS_ALL & ~condition;
}

/* A refusal's number in words; "unknown refusal" for a number over 13. */
static inline const char *planner_refusal_text(uint32_t number)
{
    switch (number) {
    case PLANNER_REFUSAL_NONE: return "no refusal";
    case PLANNER_REFUSAL_PLAN_TOO_LONG: return "over 60,000 bytes";
    case PLANNER_REFUSAL_LINE_WRONG: return "first word or field count wrong, or no LF";
    case PLANNER_REFUSAL_MALFORMED: return "malformed number or item, or an empty field";
    case PLANNER_REFUSAL_OUT_OF_RANGE: return "number out of range";
    case PLANNER_REFUSAL_TOO_MANY_ACTIVITIES: return "65th activity line";
    case PLANNER_REFUSAL_ID_REPEATED: return "id of an earlier line";
    case PLANNER_REFUSAL_AFTER_NOT_EARLIER: return "`after` names no activity at an earlier place";
    case PLANNER_REFUSAL_LIST_WRONG: return "list not rising, a > b, or too many items";
    case PLANNER_REFUSAL_HANDOVER_UNMET: return "charge at horizon T with nothing placed is under the handover charge";
    case PLANNER_REFUSAL_SLICE_TOO_SHORT: return "lent slice too short for the answer";
    case PLANNER_REFUSAL_NO_SUCH_PLACE: return "place not below the activity count";
    case PLANNER_REFUSAL_SET_TOO_LARGE: return "set over 511";
    case PLANNER_REFUSAL_OUT_OF_WINDOW: return "preferred tick outside its window";
    default: return "unknown refusal";
    }
}

/* The letter of one condition, as the report has it; '?' for any other number. */
static inline char planner_letter(uint32_t condition)
{
    switch (condition) {
    case PLANNER_CONDITION_W: return 'W';
    case PLANNER_CONDITION_D: return 'D';
    case PLANNER_CONDITION_U: return 'U';
    case PLANNER_CONDITION_S: return 'S';
    case PLANNER_CONDITION_E: return 'E';
    case PLANNER_CONDITION_P: return 'P';
    case PLANNER_CONDITION_B: return 'B';
    case PLANNER_CONDITION_V: return 'V';
    case PLANNER_CONDITION_H: return 'H';
    default: return '?';
    }
}

#undef PLANNER_CAST

#ifdef __cplusplus
}
#endif

#endif
