/* Holds the library to the documents through planner.h: the worked plan, every refusal and condition, the edges, windows
 * with their preferred ticks, the greatest numbers, the longest report, the most runs, the lent slices.
 *
 *   calls WORKED LONGEST_REPORT MOST_RUNS
 *
 * These are examples/worked.plan and the two of tests/plans. Stops at the first check that fails; if none does, says how
 * many passed. */
#include <stdio.h>
#include <stdlib.h>
#include <string.h>

#include "planner.h"

#define ROOM 5000 /* the most bytes or records lent, more than any answer takes */
#define GUARD 64  /* guard bytes or records before and behind each slice */
#define FILL 0xa5 /* what they hold, and the slices before a call */

#define LONGEST_REPORT 1518 /* bytes of the longest report that a plan can have (tests/README.md says why) */
#define MOST_RUNS 98        /* the most runs that we could make (tests/README.md says how) */

/* The first line of the worked plan and its second, with some fields to be put in. */
#define P_WITH(horizon, handover) "plan\t" horizon "\t840\t100\t20\t40\t1\t" handover "\t1\t10\t50\t1\n"
#define A_WITH(id, windows, after) "act\t" id "\t1\t5\t10\t" windows "\t" after "\t0\t-\t1=3\t1\t4\t3\t10\t1\n"
#define TICKS(id, duration, preferred, windows)                                                                        \
    "act\t" id "\t0\t" duration "\t" preferred "\t" windows "\t-\t0\t-\t-\t0\t0\t0\t0\t0\n"
#define ONE_TICK(id, preferred) TICKS(id, "1", preferred, "-")
#define P P_WITH("20", "0")
#define A A_WITH("7", "-", "-")

static const char worked_report[] =
    "7\tplaced\t10\t15\n8\trefused\tWD\n9\trefused\tV\n10\tplaced\t15\t17\nend\t2\t2\t37\t50\t34\t17\n";

/* Document 01's words for the refusals, with "charge at horizon T" for c(T), and words for 13. */
static const char *const refusal_texts[] = {
    "over 60,000 bytes",
    "first word or field count wrong, or no LF",
    "malformed number or item, or an empty field",
    "number out of range",
    "65th activity line",
    "id of an earlier line",
    "`after` names no activity at an earlier place",
    "list not rising, a > b, or too many items",
    "charge at horizon T with nothing placed is under the handover charge",
    "lent slice too short for the answer",
    "place not below the activity count",
    "set over 511",
    "preferred tick outside its window",
};

/* The plan, the plan as it was before a call, and the slices lent. */
static uint8_t plan_room[GUARD + PLANNER_PLAN_MOST + 1 + GUARD];
static uint8_t plan_before[sizeof plan_room];
static uint8_t out_room[GUARD + ROOM + GUARD];
static struct planner_interval runs_room[GUARD + ROOM + GUARD];

static uint8_t *const plan = plan_room + GUARD;
static size_t plan_length;
static uint8_t *const out = out_room + GUARD;
static struct planner_interval *const runs = runs_room + GUARD;

static unsigned long passed;

#define CHECK(holds) check((holds), #holds, __LINE__)

static void check(int holds, const char *what, int line)
{
    if (!holds) {
        printf("%s:%d: not so: %s\n", __FILE__, line, what);
        printf("the plan: %.*s\n", plan_length < 400 ? (int)plan_length : 400, (const char *)plan);
        exit(1);
    }
    passed++;
}

static void set_plan(const char *text, size_t length)
{
    CHECK(length <= PLANNER_PLAN_MOST + 1);
    memset(plan_room, FILL, sizeof plan_room);
    memcpy(plan, text, length);
    plan_length = length;
}

static void lend(void)
{
    memcpy(plan_before, plan_room, sizeof plan_room);
    memset(out_room, FILL, sizeof out_room);
    memset(runs_room, FILL, sizeof runs_room);
}

static int plan_remains(void)
{
    return memcmp(plan_room, plan_before, sizeof plan_room) == 0;
}

/* Whether a region is as it was lent but for what was written, `size` bytes from `written` on. */
static int rest_remains(const void *room, size_t room_size, const void *written, size_t size)
{
    const uint8_t *byte = (const uint8_t *)room, *end = byte + room_size, *from = (const uint8_t *)written;
    for (; byte < end; byte++)
        if ((byte < from || byte >= from + size) && *byte != FILL)
            return 0;
    return 1;
}

/* The calls on the plan; each looks at all that the call must leave as it was. */

static uint64_t outcome(size_t place)
{
    lend();
    uint64_t answer = planner_outcome(plan, plan_length, place);
    CHECK(plan_remains());
    return answer;
}

static uint64_t report(size_t room)
{
    lend();
    uint64_t answer = planner_report(plan, plan_length, out, room);
    CHECK(plan_remains());
    CHECK(planner_written(answer) <= room);
    CHECK(rest_remains(out_room, sizeof out_room, out, planner_written(answer)));
    return answer;
}

static uint64_t starts(size_t place, uint32_t set, size_t room)
{
    lend();
    uint64_t answer = planner_starts(plan, plan_length, place, set, runs, room);
    CHECK(plan_remains());
    CHECK(planner_written(answer) <= room);
    CHECK(rest_remains(runs_room, sizeof runs_room, runs, planner_written(answer) * sizeof *runs));
    return answer;
}

/* Whether an answer is this and says nothing else. */

static int is_no(uint64_t answer, uint32_t number, uint32_t line)
{
    return answer == ((uint64_t)number << 32 | line) && planner_refusal(answer) == number &&
           planner_line(answer) == line && !planner_is_placed(answer) && planner_start(answer) == 0 &&
           planner_conditions(answer) == 0 && planner_written(answer) == 0;
}

static int is_placed(uint64_t answer, uint32_t start)
{
    return answer == ((uint64_t)1 << 40 | start) && planner_refusal(answer) == PLANNER_REFUSAL_NONE &&
           planner_line(answer) == 0 && planner_is_placed(answer) && planner_start(answer) == start &&
           planner_conditions(answer) == 0;
}

static int is_refused(uint64_t answer, uint32_t conditions)
{
    return answer == conditions && planner_refusal(answer) == PLANNER_REFUSAL_NONE && planner_line(answer) == 0 &&
           !planner_is_placed(answer) && planner_start(answer) == 0 && planner_conditions(answer) == conditions;
}

/* Whether a text is the report, into so many bytes. */
static int is_report(const char *text, size_t room)
{
    return report(room) == strlen(text) && memcmp(out, text, strlen(text)) == 0;
}

/* Whether the starts that meet a set are one run. */
static int is_run(size_t place, uint32_t set, uint32_t first, uint32_t last)
{
    return starts(place, set, PLANNER_RUNS_MOST) == 1 && runs[0].first == first && runs[0].last == last;
}

/* Every call refuses the plan, whatever else is wrong with the call. */
static void plan_refused(const char *text, size_t length, uint32_t number, uint32_t line)
{
    set_plan(text, length);
    CHECK(is_no(outcome(0), number, line));
    CHECK(is_no(outcome(SIZE_MAX), number, line));
    CHECK(is_no(report(PLANNER_REPORT_MOST), number, line));
    CHECK(is_no(report(0), number, line));
    CHECK(is_no(starts(0, PLANNER_CONDITIONS_ALL, PLANNER_RUNS_MOST), number, line));
    CHECK(is_no(starts(SIZE_MAX, 512, 0), number, line));
}

/* P and activities with the ids 1 to count; gives the length. */
static size_t many(char *text, int count)
{
    char *end = text + sprintf(text, "%s", P);
    for (int id = 1; id <= count; id++)
        end += sprintf(end, "act\t%d\t1\t5\t10\t-\t-\t0\t-\t1=3\t1\t4\t3\t10\t1\n", id);
    return (size_t)(end - text);
}

/* The table of refusals, 1 to 9, and 13. Of 1 and 5 also the most that is not refused so. */
static void refusals_of_the_plan(void)
{
    static const char leading_zero[] = P A_WITH("07", "-", "-");
    static const char long_horizon[] = P_WITH("4097", "0");
    static const char after_itself[] = P A_WITH("7", "-", "7");
    static const char window_falls[] = P A_WITH("7", "9:9:8", "-");
    static const char two_numbers[] = P A_WITH("7", "0:8", "-");
    static const char preferred_low[] = P A_WITH("7", "3:2:8", "-");
    static const char preferred_high[] = P A_WITH("7", "3:9:8", "-");
    static const char preferred_4096[] = P A_WITH("7", "3:4096:8", "-");
    static const char handover_61[] = P_WITH("20", "61");
    static char text[PLANNER_PLAN_MOST + 1];

    plan_refused(text, 60001, PLANNER_REFUSAL_PLAN_TOO_LONG, 0);
    plan_refused(text, 60000, PLANNER_REFUSAL_LINE_WRONG, 1);
    plan_refused("", 0, PLANNER_REFUSAL_LINE_WRONG, 1);
    plan_refused(leading_zero, strlen(leading_zero), PLANNER_REFUSAL_MALFORMED, 2);
    plan_refused(two_numbers, strlen(two_numbers), PLANNER_REFUSAL_MALFORMED, 2);
    plan_refused(long_horizon, strlen(long_horizon), PLANNER_REFUSAL_OUT_OF_RANGE, 1);
    plan_refused(preferred_4096, strlen(preferred_4096), PLANNER_REFUSAL_OUT_OF_RANGE, 2);
    plan_refused(text, many(text, 65), PLANNER_REFUSAL_TOO_MANY_ACTIVITIES, 66);
    plan_refused(P A A, strlen(P A A), PLANNER_REFUSAL_ID_REPEATED, 3);
    plan_refused(after_itself, strlen(after_itself), PLANNER_REFUSAL_AFTER_NOT_EARLIER, 2);
    plan_refused(window_falls, strlen(window_falls), PLANNER_REFUSAL_LIST_WRONG, 2);
    plan_refused(handover_61, strlen(handover_61), PLANNER_REFUSAL_HANDOVER_UNMET, 0);
    plan_refused(preferred_low, strlen(preferred_low), PLANNER_REFUSAL_OUT_OF_WINDOW, 2);
    plan_refused(preferred_high, strlen(preferred_high), PLANNER_REFUSAL_OUT_OF_WINDOW, 2);

    set_plan(text, many(text, PLANNER_ACTIVITIES_MOST));
    CHECK(planner_refusal(report(PLANNER_REPORT_MOST)) == PLANNER_REFUSAL_NONE);
    CHECK(planner_refusal(outcome(PLANNER_ACTIVITIES_MOST - 1)) == PLANNER_REFUSAL_NONE);
    CHECK(is_no(outcome(PLANNER_ACTIVITIES_MOST), PLANNER_REFUSAL_NO_SUCH_PLACE, 0));
}

/* The table of refusals, 10 to 12, on the worked plan: 11 first, then 12, then 10. No bit of a place or set is lost. */
static void refusals_of_the_call(void)
{
    static const size_t places[] = {4, (size_t)1 << 32, SIZE_MAX};
    static const uint32_t sets[] = {512, 65536, 65536 + 511, UINT32_MAX};

    CHECK(is_no(report(0), PLANNER_REFUSAL_SLICE_TOO_SHORT, 0));
    CHECK(is_no(starts(0, PLANNER_CONDITIONS_ALL, 0), PLANNER_REFUSAL_SLICE_TOO_SHORT, 0));
    for (int i = 0; i < 3; i++) {
        CHECK(is_no(outcome(places[i]), PLANNER_REFUSAL_NO_SUCH_PLACE, 0));
        CHECK(is_no(starts(places[i], 0, PLANNER_RUNS_MOST), PLANNER_REFUSAL_NO_SUCH_PLACE, 0));
        CHECK(is_no(starts(places[i], 512, 0), PLANNER_REFUSAL_NO_SUCH_PLACE, 0));
    }
    for (int i = 0; i < 4; i++) {
        CHECK(is_no(starts(3, sets[i], PLANNER_RUNS_MOST), PLANNER_REFUSAL_SET_TOO_LARGE, 0));
        CHECK(is_no(starts(3, sets[i], 0), PLANNER_REFUSAL_SET_TOO_LARGE, 0));
    }
}

/* With a count of 0 a pointer may be NULL: on the worked plan, and as the plan. */
static void no_pointer(void)
{
    CHECK(is_no(planner_report(plan, plan_length, NULL, 0), PLANNER_REFUSAL_SLICE_TOO_SHORT, 0));
    CHECK(is_no(planner_starts(plan, plan_length, 0, 0, NULL, 0), PLANNER_REFUSAL_SLICE_TOO_SHORT, 0));
    CHECK(planner_starts(plan, plan_length, 1, PLANNER_CONDITIONS_ALL, NULL, 0) == 0);
    CHECK(is_no(planner_outcome(NULL, 0, 0), PLANNER_REFUSAL_LINE_WRONG, 1));
    CHECK(is_no(planner_report(NULL, 0, NULL, 0), PLANNER_REFUSAL_LINE_WRONG, 1));
    CHECK(is_no(planner_starts(NULL, 0, 0, 0, NULL, 0), PLANNER_REFUSAL_LINE_WRONG, 1));
}

/* The outcomes, the report and the starts of the worked plan. */
static void answers(void)
{
    CHECK(is_placed(outcome(0), 10));
    CHECK(is_refused(outcome(1), PLANNER_CONDITION_W + PLANNER_CONDITION_D));
    CHECK(is_refused(outcome(2), PLANNER_CONDITION_V));
    CHECK(is_placed(outcome(3), 15));
    for (size_t room = 0; room <= PLANNER_REPORT_MOST; room++)
        if (room < strlen(worked_report))
            CHECK(is_no(report(room), PLANNER_REFUSAL_SLICE_TOO_SHORT, 0));
        else
            CHECK(is_report(worked_report, room));
    CHECK(is_report(worked_report, ROOM));
    CHECK(is_run(0, 0, 0, 15));
    CHECK(is_run(1, 0, 0, 17));
    CHECK(is_run(2, 0, 0, 18));
    CHECK(is_run(3, 0, 0, 18));
    CHECK(starts(1, PLANNER_CONDITIONS_ALL, 0) == 0);
    CHECK(starts(2, PLANNER_CONDITION_V, PLANNER_RUNS_MOST) == 0);
}

/* Starts up to the last tick of the longest plan, and five runs: those of the last activity, whose unit four others of
 * one tick have. */
static void five_runs(void)
{
    static const char five_activities[] = P_WITH("4096", "0") ONE_TICK("1", "1000") ONE_TICK("2", "2000")
        ONE_TICK("3", "3000") ONE_TICK("4", "4000") ONE_TICK("5", "4095");
    static const struct planner_interval five[] = {{0, 999}, {1001, 1999}, {2001, 2999}, {3001, 3999}, {4001, 4095}};
    static const size_t rooms[] = {5, PLANNER_RUNS_MOST, PLANNER_RUNS_MOST + 1, ROOM};

    set_plan(five_activities, strlen(five_activities));
    CHECK(is_placed(outcome(3), 4000));
    CHECK(is_placed(outcome(4), 4095));
    CHECK(is_run(4, 0, 0, 4095));
    CHECK(is_no(starts(4, PLANNER_CONDITION_U, 4), PLANNER_REFUSAL_SLICE_TOO_SHORT, 0));
    for (int i = 0; i < 4; i++)
        CHECK(starts(4, PLANNER_CONDITION_U, rooms[i]) == 5 && memcmp(runs, five, sizeof five) == 0);
}

/* Behind one that has unit 0 in every tick, nine activities that are refused with one condition each, W to H: no start
 * meets that one, and every start the eight others. */
static void conditions_apart(void)
{
    static const char nine_refused[] = P
        "act\t0\t0\t20\t0\t-\t-\t0\t-\t-\t0\t0\t0\t0\t0\n"
        "act\t1\t1\t1\t0\t20:20:20\t-\t-\t-\t-\t0\t0\t0\t0\t0\n"
        "act\t2\t1\t1\t0\t-\t1\t-\t-\t-\t0\t0\t0\t0\t0\n"
        "act\t3\t1\t1\t0\t-\t-\t0\t-\t-\t0\t0\t0\t0\t0\n"
        "act\t4\t1\t1\t0\t-\t-\t-\t1=3\t-\t0\t0\t0\t0\t0\n"
        "act\t5\t1\t1\t0\t-\t-\t-\t-\t-\t2\t0\t0\t0\t0\n"
        "act\t6\t1\t1\t0\t-\t-\t-\t-\t-\t0\t11\t0\t0\t0\n"
        "act\t7\t1\t1\t0\t-\t-\t-\t-\t-\t0\t0\t99\t0\t0\n"
        "act\t8\t1\t1\t0\t-\t-\t-\t-\t-\t0\t0\t0\t51\t0\n"
        "act\t9\t1\t17\t0\t-\t-\t-\t-\t-\t0\t0\t0\t0\t1\n";

    set_plan(nine_refused, strlen(nine_refused));
    CHECK(is_placed(outcome(0), 0));
    for (size_t place = 1; place <= 9; place++) {
        uint32_t one = (uint32_t)1 << (place - 1);
        CHECK(is_refused(outcome(place), one));
        CHECK(starts(place, one, PLANNER_RUNS_MOST) == 0);
        CHECK(is_run(place, planner_all_but(one), 0, place == 9 ? 3 : 19));
    }
}

/* The preferred tick of each window, where two activities have unit 0 from a start on for some ticks and the third, of one
 * tick, has it too: the nearest start in the later window; two equally near; and without windows, by the preferred tick
 * of the line, which is 9. */
static void preferred_ticks(void)
{
    static const char later_nearer[] = P TICKS("1", "3", "0", "-") TICKS("2", "1", "12", "-")
        TICKS("3", "1", "9", "0:0:3,6:12:12");
    static const char both_near[] = P TICKS("1", "2", "0", "-") TICKS("2", "2", "11", "-")
        TICKS("3", "1", "9", "0:0:3,6:12:12");
    static const char no_window[] = P TICKS("1", "2", "0", "-") TICKS("2", "2", "11", "-") TICKS("3", "1", "9", "-");

    set_plan(later_nearer, strlen(later_nearer));
    CHECK(is_placed(outcome(2), 11));
    set_plan(both_near, strlen(both_near));
    CHECK(is_placed(outcome(2), 2));
    set_plan(no_window, strlen(no_window));
    CHECK(is_placed(outcome(2), 9));
}

/* The lowest charge at the horizon alone, and at ticks 6 and 11: 45 at tick 5 and 30 at 6, 34 at 10 and 30 at 11. */
static void lowest_charge(void)
{
    static const char at_horizon[] = P "act\t1\t0\t1\t19\t-\t-\t-\t-\t-\t0\t0\t30\t0\t0\n";
    static const char at_two[] = P "act\t1\t0\t1\t10\t-\t-\t-\t-\t-\t0\t0\t5\t0\t0\n"
        "act\t2\t0\t1\t5\t-\t-\t-\t-\t-\t0\t0\t16\t0\t0\n";

    set_plan(at_horizon, strlen(at_horizon));
    CHECK(is_report("1\tplaced\t19\t20\nend\t1\t0\t30\t0\t30\t20\n", PLANNER_REPORT_MOST));
    set_plan(at_two, strlen(at_two));
    CHECK(is_report("1\tplaced\t10\t11\n2\tplaced\t5\t6\nend\t2\t0\t39\t0\t30\t6\n", PLANNER_REPORT_MOST));
}

/* The longest report into as many bytes, and into one less. */
static void longest_report(const char *text, size_t length)
{
    char expected[LONGEST_REPORT + 1], *end = expected;
    for (int k = 0; k < PLANNER_ACTIVITIES_MOST; k++)
        end += sprintf(end, "%d\tplaced\t%d\t%d\n", 10000 + k, 1000 + k, 1001 + k);
    end += sprintf(end, "end\t64\t0\t1000000000\t1000000000\t999999999\t1001\n");
    CHECK(end == expected + LONGEST_REPORT);

    set_plan(text, length);
    CHECK(is_report(expected, LONGEST_REPORT));
    CHECK(is_report(expected, PLANNER_REPORT_MOST));
    CHECK(is_no(report(LONGEST_REPORT - 1), PLANNER_REFUSAL_SLICE_TOO_SHORT, 0));
}

/* The most runs into as many records, and into one less. */
static void most_runs(const char *text, size_t length)
{
    set_plan(text, length);
    CHECK(is_no(starts(63, PLANNER_CONDITIONS_ALL, MOST_RUNS - 1), PLANNER_REFUSAL_SLICE_TOO_SHORT, 0));
    CHECK(starts(63, planner_all_but(PLANNER_CONDITION_W), PLANNER_RUNS_MOST) == MOST_RUNS - 3);
    CHECK(starts(63, PLANNER_CONDITIONS_ALL, MOST_RUNS) == MOST_RUNS);
    CHECK(runs[0].first == 0 && runs[MOST_RUNS - 1].last == 1899);
    for (int i = 0; i < MOST_RUNS; i++)
        CHECK(runs[i].first <= runs[i].last && (i == 0 || runs[i - 1].last + 1 < runs[i].first));
}

/* Where the report says that an activity is, beyond its lines SIZE_MAX. */
static size_t place_of(uint32_t id)
{
    return planner_place_of(out, planner_written(report(PLANNER_REPORT_MOST)), id);
}

/* The place of an id: on the worked plan, and where the scheduling order isn't that of the lines. */
static void places(void)
{
    static const char priorities[] = P "act\t20\t3\t1\t0\t-\t-\t-\t-\t-\t0\t0\t0\t0\t0\n"
        "act\t2\t1\t1\t0\t-\t-\t-\t-\t-\t0\t0\t0\t0\t0\n"
        "act\t0\t2\t1\t0\t-\t-\t-\t-\t-\t0\t0\t0\t0\t0\n"
        "act\t200\t1\t1\t0\t-\t-\t-\t-\t-\t0\t0\t0\t0\t0\n";

    CHECK(place_of(7) == 0 && place_of(8) == 1 && place_of(9) == 2 && place_of(10) == 3);
    CHECK(is_placed(outcome(place_of(10)), 15));
    CHECK(place_of(0) == SIZE_MAX && place_of(1) == SIZE_MAX && place_of(11) == SIZE_MAX);
    CHECK(is_no(outcome(place_of(11)), PLANNER_REFUSAL_NO_SUCH_PLACE, 0));
    set_plan(priorities, strlen(priorities));
    CHECK(place_of(2) == 0 && place_of(200) == 1 && place_of(0) == 2 && place_of(20) == 3);
    CHECK(place_of(1) == SIZE_MAX && place_of(3) == SIZE_MAX && place_of(2000) == SIZE_MAX);
    CHECK(planner_place_of(NULL, 0, 0) == SIZE_MAX);
    set_plan(P, strlen(P));
    CHECK(place_of(0) == SIZE_MAX);
}

/* Whether w is the warm-up of entry q: starts w - 1 and w fall into q, and w is the first to meet H. */
static int warms_up(int q, int w)
{
    char text[256];
    int minute = (q * 5 + 4 - w + 1440) % 1440;
    int length = sprintf(text, "plan\t200\t%d\t100\t20\t40\t1\t0\t1\t10\t50\t1\n%s", minute, A);
    set_plan(text, (size_t)length);
    return starts(0, PLANNER_CONDITION_H, PLANNER_RUNS_MOST) > 0 && runs[0].first == (uint32_t)w;
}

/* Whether an activity that draws so much in tick 0 meets B: the charge at tick 1 is 41 without it, the floor 20. */
static int may_draw(int draw)
{
    char text[256];
    int length = sprintf(text, "%sact\t1\t0\t1\t0\t-\t-\t-\t-\t-\t0\t0\t%d\t0\t0\n", P, draw);
    set_plan(text, (size_t)length);
    return starts(0, PLANNER_CONDITION_B, PLANNER_RUNS_MOST) > 0 && runs[0].first == 0;
}

/* The marked edges of document 01, those of the worked plan first. */
static void edges(void)
{
    static const char handover_60[] = P_WITH("20", "60");
    static const char equally_near[] = P TICKS("1", "7", "9", "-") TICKS("2", "1", "12", "-");
    static const char in_window[] = P TICKS("1", "7", "9", "-") TICKS("2", "1", "0", "8:12:16");

    /* 3 and 8, 4, 5, 10 */
    CHECK(is_run(3, PLANNER_CONDITIONS_ALL, 15, 18));
    CHECK(is_run(1, PLANNER_CONDITION_W, 0, 8));
    CHECK(is_run(0, PLANNER_CONDITION_H, 4, 15));
    CHECK(is_report(worked_report, PLANNER_REPORT_MOST));
    /* 1, 2 */
    CHECK(warms_up(168, 4) && warms_up(179, 4) && warms_up(180, 5));
    CHECK(warms_up(24, 16) && warms_up(0, 14) && warms_up(287, 13));
    /* 6, 7, 9 */
    set_plan(handover_60, strlen(handover_60));
    CHECK(is_report("end\t0\t0\t60\t0\t40\t0\n", PLANNER_REPORT_MOST));
    set_plan(equally_near, strlen(equally_near));
    CHECK(is_placed(outcome(1), 8));
    set_plan(in_window, strlen(in_window));
    CHECK(is_placed(outcome(1), 8));
    CHECK(may_draw(21) && !may_draw(22));
}

/* The header's version, texts, letters, sets and record. */
static void header(void)
{
    CHECK(planner_version() == PLANNER_VERSION);
    for (uint32_t number = 1; number <= 13; number++)
        CHECK(strcmp(planner_refusal_text(number), refusal_texts[number - 1]) == 0);
    CHECK(strcmp(planner_refusal_text(0), "no refusal") == 0);
    CHECK(strcmp(planner_refusal_text(14), "unknown refusal") == 0);
    CHECK(strcmp(planner_refusal_text(257), "unknown refusal") == 0);
    CHECK(strcmp(planner_refusal_text(UINT32_MAX), "unknown refusal") == 0);
    for (int c = 0; c < 9; c++)
        CHECK(planner_letter((uint32_t)1 << c) == "WDUSEPBVH"[c]);
    for (uint32_t one = 1; one <= PLANNER_CONDITION_H; one *= 2)
        CHECK(planner_all_but(one) + one == 511 && (planner_all_but(one) & one) == 0);
    CHECK(planner_all_but(PLANNER_CONDITION_W + PLANNER_CONDITION_D) == 508 && planner_all_but(0) == 511);
    CHECK(planner_letter(0) == '?' && planner_letter(3) == '?' && planner_letter(512) == '?');
    CHECK(sizeof(struct planner_interval) == 8 && offsetof(struct planner_interval, last) == 4);
}

/* The header's functions on made-up answers: each part at its least and at its greatest. */
static void parts(void)
{
    const uint64_t refusal = (uint64_t)255 << 32, placed = (uint64_t)1 << 40;
    CHECK(is_no(refusal, 255, 0) && is_no(refusal + UINT32_MAX, 255, UINT32_MAX));
    CHECK(is_placed(placed, 0) && is_placed(placed + UINT32_MAX, UINT32_MAX));
    CHECK(is_refused(0, 0) && is_refused(UINT32_MAX, UINT32_MAX));
    CHECK(planner_written(0) == 0 && planner_written(UINT32_MAX) == UINT32_MAX);
}

/* Reads a file that is shorter than the room; gives the length. */
static size_t read_plan(const char *name, char *text, size_t room)
{
    FILE *file = fopen(name, "rb");
    if (file == NULL) {
        perror(name);
        exit(1);
    }
    size_t length = fread(text, 1, room, file);
    fclose(file);
    CHECK(length < room);
    return length;
}

int main(int count, char **words)
{
    static char text[4096];
    if (count != 4) {
        printf("calls WORKED LONGEST_REPORT MOST_RUNS\n");
        return 1;
    }
    header();
    parts();
    refusals_of_the_plan();
    five_runs();
    conditions_apart();
    preferred_ticks();
    lowest_charge();
    longest_report(text, read_plan(words[2], text, sizeof text));
    most_runs(text, read_plan(words[3], text, sizeof text));
    size_t length = read_plan(words[1], text, sizeof text);
    CHECK(strlen(P A) < length && memcmp(text, P A, strlen(P A)) == 0);
    set_plan(text, length);
    answers();
    refusals_of_the_call();
    no_pointer();
    edges();
    set_plan(text, length);
    places();
    printf("%lu checks passed\n", passed);
    return 0;
}
