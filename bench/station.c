/* Makes one call of the library and prints what it took.
 *
 *   station PLAN outcome|report|starts stack|time|once
 *
 * PLAN is a file. The call is made for the last of 64 places; starts for all conditions. `stack` prints the bytes that
 * the call took of a stack of its own; `time` the milliseconds of processor time, the least of at least 5 calls over at
 * least 2 seconds; `once` makes the call once and prints nothing. */
#include <stdio.h>
#include <stdlib.h>
#include <string.h>
#include <time.h>
#include <ucontext.h>

#include "planner.h"

#define STACK (1024 * 1024)
#define PAINT 0xa5

static uint8_t stack[STACK] __attribute__((aligned(64)));
static uint8_t plan[PLANNER_PLAN_MOST + 1];
static size_t plan_length;
static uint8_t text[PLANNER_REPORT_MOST];
static struct planner_interval runs[PLANNER_RUNS_MOST];
static uint64_t answer;

static void nothing(void)
{
}

static void outcome(void)
{
    answer = planner_outcome(plan, plan_length, PLANNER_ACTIVITIES_MOST - 1);
}

static void report(void)
{
    answer = planner_report(plan, plan_length, text, sizeof text);
}

static void starts(void)
{
    answer = planner_starts(plan, plan_length, PLANNER_ACTIVITIES_MOST - 1, PLANNER_CONDITIONS_ALL, runs,
                            PLANNER_RUNS_MOST);
}

/* The bytes of the painted stack that a function took. */
static size_t taken(void (*call)(void))
{
    ucontext_t here, there;
    size_t left = 0;
    memset(stack, PAINT, STACK);
    getcontext(&there);
    there.uc_stack.ss_sp = stack;
    there.uc_stack.ss_size = STACK;
    there.uc_link = &here;
    makecontext(&there, call, 0);
    swapcontext(&here, &there);
    while (left < STACK && stack[left] == PAINT)
        left++;
    return STACK - left;
}

static double milliseconds(void)
{
    struct timespec now;
    clock_gettime(CLOCK_THREAD_CPUTIME_ID, &now);
    return (double)now.tv_sec * 1e3 + (double)now.tv_nsec / 1e6;
}

/* The milliseconds that a function took, the least of many times. */
static double least(void (*call)(void))
{
    double began = milliseconds(), least = 1e9;
    for (int i = 0; i < 5 || milliseconds() - began < 2000; i++) {
        double before = milliseconds();
        call();
        double took = milliseconds() - before;
        if (took < least)
            least = took;
    }
    return least;
}

/* Prints what a call took; whether there is such a thing to print. */
static int measure(void (*call)(void), const char *what)
{
    if (strcmp(what, "stack") == 0)
        printf("%zu\n", taken(call) - taken(nothing));
    else if (strcmp(what, "time") == 0)
        printf("%.1f\n", least(call));
    else if (strcmp(what, "once") == 0)
        call();
    else
        return 0;
    return 1;
}

int main(int count, char **words)
{
    static const struct {
        const char *name;
        void (*call)(void);
    } calls[] = {{"outcome", outcome}, {"report", report}, {"starts", starts}};
    FILE *file = count == 4 ? fopen(words[1], "rb") : NULL;
    int done = 0;
    if (file == NULL) {
        fprintf(stderr, "station PLAN outcome|report|starts stack|time|once\n");
        return 1;
    }
    plan_length = fread(plan, 1, sizeof plan, file);
    fclose(file);
    for (size_t i = 0; i < sizeof calls / sizeof *calls; i++)
        if (strcmp(words[2], calls[i].name) == 0)
            done = measure(calls[i].call, words[3]);
    if (!done) {
        fprintf(stderr, "no call %s, or nothing to measure %s\n", words[2], words[3]);
        return 1;
    }
    if (planner_refusal(answer) != PLANNER_REFUSAL_NONE) {
        fprintf(stderr, "%s\n", planner_refusal_text(planner_refusal(answer)));
        return 1;
    }
    return 0;
}
