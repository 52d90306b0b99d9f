// One input of the fuzzer: a plan, and behind it bytes that choose a place, a set and a slice for the calls on it.

#include "planner.h"

#include <inttypes.h>
#include <stdio.h>
#include <stdlib.h>
#include <string.h>

enum { REPORT = PLANNER_REPORT_MOST, RUNS = PLANNER_RUNS_MOST, ALL = PLANNER_CONDITIONS_ALL };
enum { GUARD = 64, CHOICES = 6, FEW = 6, WORK = 12300, WINDOWS = 4 };

// The letters of the conditions, in the order of their bits.
static const char LETTERS[] = "WDUSEPBVH";

// A plan's bytes as they are lent, and as they were.
struct plan {
    uint8_t *bytes;
    const uint8_t *kept;
    size_t length;
};

// A line of the plan or of the report, parted into its fields.
struct line {
    char text[1024];
    char *fields[16];
    int count;
};

// A window of an activity.
struct window {
    uint32_t from;
    uint32_t preferred;
    uint32_t to;
};

// What one of the three calls answered.
struct answer {
    uint32_t value;
    uint32_t number;
    int placed;
};

// Says what is wrong and stops, so that the fuzzer keeps the input.
static void ensure(int holds, const char *what) {
    if (!holds) {
        fprintf(stderr, "wrong: %s\n", what);
        abort();
    }
}

// Whether a refusal is of a call; the others are of the plan.
static int of_call(uint32_t number) {
    return number >= 10 && number <= 12;
}

// The parts of an answer's number; the plan is as it was.
static struct answer parts(const struct plan *plan, uint64_t number) {
    struct answer answer = {(uint32_t)number, number >> 32 & 255, number >> 40 & 1};
    ensure(number >> 41 == 0, "bits 41 to 63 are 0");
    ensure(answer.number <= 13, "a refusal is 1 to 13");
    ensure(!answer.placed || answer.number == 0, "a refusal isn't placed");
    ensure(!of_call(answer.number) || answer.value == 0, "refusals 10 to 12 have line 0");
    ensure(memcmp(plan->bytes, plan->kept, plan->length) == 0, "a call leaves the plan as it was");
    return answer;
}

static struct answer outcome(const struct plan *plan, size_t place) {
    struct answer answer = parts(plan, planner_outcome(plan->bytes, plan->length, place));
    ensure(answer.number != 10 && answer.number != 12, "outcome has no refusal 10 or 12");
    ensure(answer.number || answer.value <= (answer.placed ? 4095 : ALL), "an outcome is a start or a set");
    return answer;
}

// A slice of `length` bytes between guards. Each byte says its position.
static uint8_t *lend(size_t length) {
    uint8_t *block = malloc(GUARD + length + GUARD);
    ensure(block != NULL, "there is memory for a slice");
    for (size_t i = 0; i < GUARD + length + GUARD; i++) block[i] = (uint8_t)(i * 157 + 91);
    return block + GUARD;
}

// After a call, everything but the `written` bytes at the front of the slice is as it was.
static void check_lent(const uint8_t *slice, size_t length, size_t written) {
    const uint8_t *block = slice - GUARD;
    for (size_t i = 0; i < GUARD + length + GUARD; i++) {
        if (i == GUARD) i += written;
        ensure(block[i] == (uint8_t)(i * 157 + 91), "nothing is written beside an answer");
    }
}

// Report into a slice of `room` bytes, the report is kept in `text`.
static struct answer report(const struct plan *plan, size_t room, uint8_t text[REPORT]) {
    uint8_t *slice = lend(room);
    struct answer answer = parts(plan, planner_report(plan->bytes, plan->length, slice, room));
    ensure(!answer.placed && (!of_call(answer.number) || answer.number == 10), "report has no refusal 11 or 12");
    size_t written = answer.number ? 0 : answer.value;
    ensure(written <= REPORT && written <= room, "a report fits its slice");
    check_lent(slice, room, written);
    memcpy(text, slice, written);
    free(slice - GUARD);
    return answer;
}

// Starts into a slice of `room` records, which are kept in `runs`.
static struct answer starts(const struct plan *plan, size_t place, uint32_t set, size_t room,
                            struct planner_interval runs[RUNS]) {
    uint8_t *slice = lend(room * sizeof *runs);
    uint64_t number = planner_starts(plan->bytes, plan->length, place, set, (struct planner_interval *)slice, room);
    struct answer answer = parts(plan, number);
    ensure(!answer.placed, "starts places nothing");
    size_t count = answer.number ? 0 : answer.value;
    ensure(count <= RUNS && count <= room, "a list of runs fits its slice");
    check_lent(slice, room * sizeof *runs, count * sizeof *runs);
    memcpy(runs, slice, count * sizeof *runs);
    free(slice - GUARD);
    return answer;
}

static void ensure_refused(struct answer answer, uint32_t number) {
    ensure(answer.number == number && answer.value == 0, "the refusal is the one due");
}

// The line at a place of a text, from 0; its fields are parted at tabs.
static void part_line(const uint8_t *text, size_t length, size_t place, struct line *line) {
    const uint8_t *at = text, *end = text + length;
    for (; place > 0; place--) at = (const uint8_t *)memchr(at, '\n', end - at) + 1;
    size_t size = (const uint8_t *)memchr(at, '\n', end - at) - at;
    ensure(size < sizeof line->text, "a line has its bounds");
    memcpy(line->text, at, size);
    line->text[size] = 0;
    line->count = 0;
    for (char *field = line->text; field && line->count < 16; line->count++) {
        line->fields[line->count] = field;
        field = strchr(field, '\t');
        if (field) *field++ = 0;
    }
}

static size_t count_lines(const uint8_t *text, size_t length) {
    size_t count = 0;
    for (size_t i = 0; i < length; i++) count += text[i] == '\n';
    return count;
}

// The set that letters stand for.
static uint32_t set_of(const char *letters) {
    uint32_t set = 0;
    for (; *letters; letters++) {
        const char *letter = strchr(LETTERS, *letters);
        ensure(letter && 1u << (letter - LETTERS) > set, "letters stand in their order");
        set |= 1u << (letter - LETTERS);
    }
    return set;
}

static uint32_t number_of(const char *text) {
    return (uint32_t)strtoul(text, NULL, 10);
}

// All three calls refuse the bytes alike, with a line that the file has.
static void check_refused(const struct plan *plan, struct answer refusal, uint32_t set, size_t place) {
    struct planner_interval runs[RUNS];
    struct answer others[2] = {outcome(plan, place), starts(plan, place, set, place % 3, runs)};
    for (int i = 0; i < 2; i++) {
        ensure(others[i].number == refusal.number && others[i].value == refusal.value, "every call refuses alike");
    }
    size_t lines = count_lines(plan->bytes, plan->length);
    int none = refusal.number == 1 || refusal.number == 9;
    ensure(none ? refusal.value == 0 : refusal.value >= 1 && refusal.value <= lines + 1, "the line is in the file");
    ensure(refusal.number != 1 || plan->length > 60000, "refusal 1 is of a long file");
}

// The report in slices of other lengths.
static void check_report(const struct plan *plan, const uint8_t *text, size_t length, size_t room) {
    uint8_t again[REPORT];
    struct answer exact = report(plan, length, again);
    ensure(exact.number == 0 && exact.value == length, "a report fits its own length");
    ensure(memcmp(text, again, length) == 0, "a report made again is the same");
    ensure_refused(report(plan, length - 1, again), 10);
    struct answer other = report(plan, room, again);
    ensure(room < length ? other.number == 10 : other.value == length, "a report fits or doesn't");
}

// The lowest charge of an end line keeps the floor. It is at most the first charge, which it is at tick 0 alone, and at
// most the charge at the horizon, up to which the charge rises by at most the rate a tick.
static void check_lowest(const struct plan *plan, const struct line *end) {
    struct line header;
    part_line(plan->bytes, plan->length, 0, &header);
    ensure(header.count == 12, "a first line has 12 fields");
    uint32_t horizon = number_of(header.fields[1]), first = number_of(header.fields[5]);
    uint32_t last = number_of(end->fields[3]), lowest = number_of(end->fields[5]), tick = number_of(end->fields[6]);
    ensure(number_of(header.fields[4]) <= lowest, "the lowest charge keeps the floor");
    ensure(lowest <= first && lowest <= last, "the first charge and the last aren't under the lowest");
    ensure((tick == 0) == (lowest == first), "the lowest charge is the first at tick 0 alone");
    ensure(tick <= horizon, "the lowest charge is one of the plan's ticks");
    uint64_t most = lowest + (uint64_t)number_of(header.fields[6]) * (horizon - tick);
    ensure(last <= most, "the charge rises by the rate at most");
}

// The end line counts the lines before it.
static void check_end(const struct plan *plan, const uint8_t *text, size_t length, size_t count) {
    size_t placed = 0;
    struct line line;
    for (size_t place = 0; place < count; place++) {
        part_line(text, length, place, &line);
        int is_placed = line.count == 4 && strcmp(line.fields[1], "placed") == 0;
        ensure(is_placed || (line.count == 3 && strcmp(line.fields[1], "refused") == 0), "a line is placed or refused");
        placed += is_placed;
    }
    part_line(text, length, count, &line);
    ensure(line.count == 7 && strcmp(line.fields[0], "end") == 0, "the last line is the end");
    ensure(number_of(line.fields[1]) == placed && number_of(line.fields[2]) == count - placed, "the end counts");
    check_lowest(plan, &line);
}

// The outcome of a place is what its line says.
static void check_outcome(const struct plan *plan, size_t place, const struct line *line, uint32_t duration) {
    struct answer answer = outcome(plan, place);
    ensure(answer.number == 0, "a place has an outcome");
    if (answer.placed) {
        ensure(line->count == 4 && number_of(line->fields[2]) == answer.value, "a start is the line's");
        ensure(number_of(line->fields[3]) == answer.value + duration, "an end is the line's");
    } else {
        ensure(line->count == 3 && set_of(line->fields[2]) == answer.value, "letters are the line's");
    }
}

// Runs rise with a gap between them and end by the last start.
static void check_runs(const struct planner_interval *runs, uint32_t count, uint32_t last) {
    for (uint32_t i = 0; i < count; i++) {
        ensure(runs[i].first <= runs[i].last && runs[i].last <= last, "a run is of starts");
        ensure(i == 0 || runs[i - 1].last + 1 < runs[i].first, "runs rise with a gap");
    }
}

static int within(const struct planner_interval *runs, uint32_t count, uint32_t first, uint32_t last) {
    for (uint32_t i = 0; i < count; i++) {
        if (runs[i].first <= first && last <= runs[i].last) return 1;
    }
    return 0;
}

static uint32_t apart(uint32_t one, uint32_t other) {
    return one < other ? other - one : one - other;
}

// The windows of an activity's line, each with its preferred tick; without any, one of all starts with the activity's.
static uint32_t windows_of(const struct line *activity, struct window windows[WINDOWS]) {
    uint32_t count = 0;
    const char *field = activity->fields[5];
    windows[0] = (struct window){0, number_of(activity->fields[4]), UINT32_MAX};
    if (strcmp(field, "-") == 0) return 1;
    for (const char *at = field; at; at = strchr(at, ',')) {
        ensure(count < WINDOWS, "a list has at most 4 windows");
        struct window *window = &windows[count++];
        at += *at == ',';
        ensure(sscanf(at, "%" SCNu32 ":%" SCNu32 ":%" SCNu32, &window->from, &window->preferred, &window->to) == 3,
               "a window is three numbers");
    }
    return count;
}

// How far a start is from the preferred tick of its window.
static uint32_t distance(const struct window *windows, uint32_t count, uint32_t start) {
    uint32_t at = 0;
    while (at < count && (start < windows[at].from || windows[at].to < start)) at++;
    ensure(at < count, "a placed start is in a window");
    return apart(start, windows[at].preferred);
}

// A placed start is valid, and no valid one of any window is nearer to the window's preferred tick; of two equally near,
// it is the earlier.
static void check_nearest(const struct planner_interval *runs, uint32_t count, uint32_t start,
                          const struct line *activity) {
    struct window windows[WINDOWS];
    uint32_t window_count = windows_of(activity, windows);
    ensure(within(runs, count, start, start), "a placed start is valid");
    uint32_t own = distance(windows, window_count, start);
    for (uint32_t i = 0; i < count; i++) {
        for (uint32_t w = 0; w < window_count; w++) {
            uint32_t first = runs[i].first > windows[w].from ? runs[i].first : windows[w].from;
            uint32_t last = runs[i].last < windows[w].to ? runs[i].last : windows[w].to;
            if (first > last) continue;
            uint32_t near = windows[w].preferred < first ? first : windows[w].preferred;
            if (near > last) near = last;
            ensure(apart(near, windows[w].preferred) >= own, "no valid start is nearer");
            ensure(near >= start || apart(near, windows[w].preferred) > own, "none as near is earlier");
        }
    }
}

// The letters of a refusal have no start in common, and without any one of them there is one.
static void check_letters(const struct plan *plan, size_t place, uint32_t letters) {
    static struct planner_interval runs[RUNS];
    struct answer answer = starts(plan, place, letters, RUNS, runs);
    ensure(answer.number == 0 && answer.value == 0, "letters have no start in common");
    for (uint32_t bit = 1; bit <= letters; bit *= 2) {
        if (letters & bit) {
            answer = starts(plan, place, letters - bit, RUNS, runs);
            ensure(answer.number == 0 && answer.value > 0, "every letter is needed");
        }
    }
}

// The runs of a set at a place, in slices of several lengths; those of all conditions are among them.
static void check_starts(const struct plan *plan, size_t place, uint32_t set, uint32_t last,
                         const struct planner_interval *valid, uint32_t count) {
    static struct planner_interval runs[RUNS], again[RUNS];
    struct answer answer = starts(plan, place, set, RUNS, runs);
    ensure(answer.number == 0, "starts answers");
    check_runs(runs, answer.value, last);
    for (uint32_t i = 0; i < count; i++) {
        ensure(within(runs, answer.value, valid[i].first, valid[i].last), "a valid start meets every set");
    }
    ensure(set != 0 || (answer.value == 1 && within(runs, 1, 0, last)), "set 0 gives all starts");
    struct answer exact = starts(plan, place, set, answer.value, again);
    ensure(exact.number == 0 && exact.value == answer.value, "runs fit their own count");
    ensure(memcmp(runs, again, answer.value * sizeof *runs) == 0, "runs made again are the same");
    if (answer.value > 0) ensure_refused(starts(plan, place, set, answer.value - 1, again), 10);
}

// The activity's line in the plan: the report's line has its id.
static void find_activity(const struct plan *plan, size_t count, const char *id, struct line *activity) {
    for (size_t i = 1; i <= count; i++) {
        part_line(plan->bytes, plan->length, i, activity);
        ensure(activity->count == 15, "an activity has 15 fields");
        if (strcmp(activity->fields[1], id) == 0) return;
    }
    ensure(0, "a line of the report is of an activity");
}

// One place: its outcome, and with `all` its starts too.
static void check_place(const struct plan *plan, const struct line *line, size_t count, size_t place, uint32_t set,
                        int all) {
    static struct planner_interval valid[RUNS];
    struct line header, activity;
    part_line(plan->bytes, plan->length, 0, &header);
    ensure(header.count == 12, "a first line has 12 fields");
    find_activity(plan, count, line->fields[0], &activity);
    uint32_t duration = number_of(activity.fields[3]);
    check_outcome(plan, place, line, duration);
    if (!all) return;
    struct answer answer = starts(plan, place, ALL, RUNS + 1, valid);
    ensure(answer.number == 0, "starts answers");
    if (line->count == 4) {
        check_nearest(valid, answer.value, number_of(line->fields[2]), &activity);
    } else {
        ensure(answer.value == 0, "a refused activity has no valid start");
        check_letters(plan, place, set_of(line->fields[2]));
    }
    check_starts(plan, place, set & ALL, number_of(header.fields[1]) - duration, valid, answer.value);
}

// Places beyond the count, and sets over 511.
static void check_beyond(const struct plan *plan, size_t count, size_t place, uint32_t set) {
    static struct planner_interval runs[RUNS];
    const size_t beyond[] = {count, count + 1, 64, (size_t)UINT32_MAX + 1 + place, SIZE_MAX - place};
    size_t chosen = beyond[place % 5];
    uint32_t over = set > ALL ? set : set + ALL + 1;
    ensure_refused(outcome(plan, chosen), 11);
    ensure_refused(starts(plan, chosen, set, place % 2, runs), 11);
    if (count > 0) ensure_refused(starts(plan, place % count, over, place % 2, runs), 12);
}

// An accepted plan: its report, each place of a plan with few, else a chosen one, and refusals 10 to 12.
static void check_accepted(const struct plan *plan, const uint8_t *text, size_t length, size_t place, uint32_t set,
                           size_t room) {
    size_t count = count_lines(plan->bytes, plan->length) - 1;
    ensure(length > 0 && text[length - 1] == '\n', "a report ends in LF");
    ensure(count <= 64 && count_lines(text, length) == count + 1, "a report has a line for each place");
    check_end(plan, text, length, count);
    check_report(plan, text, length, room);
    check_beyond(plan, count, place, set);
    struct line line;
    for (size_t k = 0; k < count; k++) {
        int chosen = k == place % count;
        part_line(text, length, k, &line);
        if (chosen || count <= FEW) check_place(plan, &line, count, k, set, chosen);
    }
}

// Whether calls on a plan would take too long for a fuzzer: more than WORK ticks, a horizon for each line.
static int too_long(const uint8_t *bytes, size_t length) {
    size_t horizon = 0;
    for (size_t i = 5; i < length && i < 9 && bytes[i] >= '0' && bytes[i] <= '9'; i++) {
        horizon = horizon * 10 + bytes[i] - '0';
    }
    return horizon * count_lines(bytes, length) > WORK;
}

// The number of `count` bytes.
static uint32_t chosen(const uint8_t *bytes, int count) {
    uint32_t number = 0;
    for (int i = 0; i < count; i++) number = number * 256 + bytes[i];
    return number;
}

int LLVMFuzzerTestOneInput(const uint8_t *data, size_t size) {
    static const uint8_t none[CHOICES];
    static uint8_t text[REPORT];
    size_t length = size < CHOICES ? size : size - CHOICES;
    const uint8_t *choices = size < CHOICES ? none : data + length;
    size_t place = choices[0];
    uint32_t set = chosen(choices + 1, 2) << (choices[3] % 17);
    size_t room = chosen(choices + 4, 2) % (REPORT + 2);
    if (too_long(data, length)) return 0;
    struct plan plan = {malloc(length), data, length};
    ensure(length == 0 || plan.bytes != NULL, "there is memory for a plan");
    memcpy(plan.bytes, data, length);
    struct answer answer = report(&plan, REPORT, text);
    ensure(!of_call(answer.number), "PLANNER_REPORT_MOST bytes are enough for a report");
    if (answer.number) {
        check_refused(&plan, answer, set, place);
    } else {
        check_accepted(&plan, text, answer.value, place, set, room);
    }
    free(plan.bytes);
    return 0;
}
