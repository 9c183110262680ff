/* test_stack FILE..: how much stack a run of the texts in the files takes, an hour in numbers, a joined curve, a classroom bid and the calls of a tally: no more than the header says. */
#define _GNU_SOURCE
#include <pthread.h>
#include <stdlib.h>
#include <string.h>

#include "check.h"
#include "noskjerf.h"

/* The thread's stack, and what a byte of it is before a call. */
#define THREAD_STACK (1 << 20)
#define PAINT 0xA5

static uint8_t *stack;

static uint8_t text[NOSKJERF_MAX_TEXT + 1];
static size_t length;
static uint8_t page[NOSKJERF_ROOM];
static uint64_t told[NOSKJERF_TOLD];

/* ---- what a thread calls */

static void *call_nothing(void *answer)
{
    *(int64_t *)answer = 0;
    return NULL;
}

static void *call_run(void *answer)
{
    *(int64_t *)answer = noskjerf_run(text, length, page, sizeof page);
    return NULL;
}

static void *call_told(void *answer)
{
    *(int64_t *)answer = noskjerf_told(text, length, page, sizeof page, told, NOSKJERF_TOLD);
    return NULL;
}

/* A day is marked, added and designated. */
static void *call_days(void *answer)
{
    static const int64_t findings[] = { 2, 0, 1, 2 };
    static uint32_t tally[NOSKJERF_TALLY], marks[NOSKJERF_MARKS], hours[NOSKJERF_HOURS];
    int64_t refused = noskjerf_mark(marks, NOSKJERF_MARKS, 17, findings, 4);

    refused += noskjerf_day(tally, NOSKJERF_TALLY, tally[1] + 1, marks[0], marks[1]);
    *(int64_t *)answer = refused == 0 ? noskjerf_designation(tally, NOSKJERF_TALLY, hours, NOSKJERF_HOURS) : -1;
    return NULL;
}

/* Case T in numbers: opened, asked why, an interval, a pass and a curve; all are accepted. */
static void *call_hour(void *answer)
{
    static const int64_t sellers[] = { 1 };
    static const int64_t blocks[NOSKJERF_BLOCK] = { 0, 10000, 2, 15000, 300000, 30000, 900000, [25] = 0, 3, 10000, 10000, 20000, 9000, 30000, 9500,
                                                    [49] = 40000, 0, 0, 20000, 1000, 3000, 50 };
    static const int64_t shadow[] = { 500000 }, outputs[] = { 600000, 20000, 30000, 0 }, factors[] = { -500000 };
    static int64_t state[NOSKJERF_STATE], verdicts[NOSKJERF_VERDICTS], causes[NOSKJERF_CAUSES], prices[NOSKJERF_HOUR_PRICES];
    static uint64_t edges[NOSKJERF_HOUR_EDGES], found[NOSKJERF_FOUND];
    int64_t refused = noskjerf_open(25, 1, sellers, 1, 1, blocks, NOSKJERF_BLOCK, state, NOSKJERF_STATE);

    refused += noskjerf_why(state, NOSKJERF_STATE, 1, shadow, 1, 1, outputs, 4, factors, 1, 100, causes, NOSKJERF_CAUSES);
    refused += noskjerf_pivotal(state, NOSKJERF_STATE, 1, shadow, 1, 1, outputs, 4, factors, 1, 100, UINT64_MAX, found, NOSKJERF_FOUND);
    refused += noskjerf_interval(state, NOSKJERF_STATE, 1, shadow, 1, 1, outputs, 4, factors, 1, 100, verdicts, NOSKJERF_VERDICTS);
    refused += noskjerf_pass(state, NOSKJERF_STATE, 1, shadow, 1, 1, outputs, 4, factors, 1, 100, verdicts, NOSKJERF_VERDICTS);
    refused += noskjerf_five_minute(state, NOSKJERF_STATE, 0, edges, NOSKJERF_HOUR_EDGES, prices, NOSKJERF_HOUR_PRICES);
    *(int64_t *)answer = refused == 0 ? 0 : -1;
    return NULL;
}

/* Two parts of eleven steps together; they are joined. */
static void *call_join(void *answer)
{
    static const int64_t proxy[] = { 1, 5, 2, 5, 3, 5, 4, 5, 5, 5, 6, 5 }, above[] = { 7, 4, 8, 4, 9, 4, 10, 6, 11, 6 };
    static uint64_t edges[NOSKJERF_EDGES];
    static int64_t prices[NOSKJERF_PRICES];
    int64_t refused = noskjerf_join(0, 6, proxy, 12, 6, 5, above, 10, edges, NOSKJERF_EDGES, prices, NOSKJERF_PRICES);

    *(int64_t *)answer = refused == 0 ? 0 : -1;
    return NULL;
}

/* The last classroom bid. */
static void *call_classroom(void *answer)
{
    static uint64_t edges[NOSKJERF_EDGES];
    static int64_t prices[NOSKJERF_PRICES];
    int64_t refused = noskjerf_classroom(NOSKJERF_CLASSROOM - 1, edges, NOSKJERF_EDGES, prices, NOSKJERF_PRICES);

    *(int64_t *)answer = refused == 0 ? 0 : -1;
    return NULL;
}

/* ---- how much it takes */

/* How many bytes of the stack a thread with this call has touched; its answer has to be 0 or more. */
static size_t touched(void *(*call)(void *))
{
    pthread_attr_t attributes;
    pthread_t thread;
    int64_t answer = -1;
    size_t at = 0;

    memset(stack, PAINT, THREAD_STACK);
    CHECK(pthread_attr_init(&attributes) == 0 && pthread_attr_setstack(&attributes, stack, THREAD_STACK) == 0);
    CHECK(pthread_create(&thread, &attributes, call, &answer) == 0 && pthread_join(thread, NULL) == 0);
    pthread_attr_destroy(&attributes);
    CHECK(answer >= 0);
    while (at < THREAD_STACK && stack[at] == PAINT) {
        at++;
    }
    return THREAD_STACK - at;
}

/* How many bytes a call takes beside what a thread takes without it. */
static size_t taken(void *(*call)(void *))
{
    size_t without = touched(call_nothing);
    size_t with = touched(call);
    return with > without ? with - without : 0;
}

static size_t larger(size_t one, size_t other)
{
    return one > other ? one : other;
}

/* The most that a run of the texts takes. */
static size_t most_of_runs(int count, char **names)
{
    size_t most = 0;
    int i;

    for (i = 0; i < count; i++) {
        FILE *file = fopen(names[i], "rb");
        CHECK(file != NULL);
        if (file != NULL) {
            length = fread(text, 1, sizeof text, file);
            fclose(file);
            most = larger(most, larger(taken(call_run), taken(call_told)));
        }
    }
    return most;
}

int main(int argc, char **argv)
{
    size_t most, hour, join, classroom, days;

    if (posix_memalign((void **)&stack, 4096, THREAD_STACK) != 0) {
        return 1;
    }
    CHECK(argc > 1);
    most = most_of_runs(argc - 1, argv + 1);
    printf("test_stack: a run takes %zu bytes of stack\n", most);
    CHECK(most > 0 && most <= NOSKJERF_RUN_STACK);
    days = taken(call_days);
    printf("test_stack: a tally takes %zu bytes of stack\n", days);
    CHECK(days > 0 && days <= NOSKJERF_STACK);
    hour = taken(call_hour);
    printf("test_stack: an hour in numbers takes %zu bytes of stack\n", hour);
    CHECK(hour > 0 && hour <= NOSKJERF_STACK);
    join = taken(call_join);
    printf("test_stack: a joined curve takes %zu bytes of stack\n", join);
    CHECK(join <= NOSKJERF_STACK);
    classroom = taken(call_classroom);
    printf("test_stack: a classroom bid takes %zu bytes of stack\n", classroom);
    CHECK(classroom <= NOSKJERF_STACK);
    free(stack);
    return report("test_stack");
}
