/*
 * example_days: the sixty-day designation of a constraint. On each of thirteen trading days the constraint binds in one hour, and Case T's
 * resource alone relieves it: dispatched it makes the verdict non-competitive, else competitive. Each day is marked by that verdict and
 * added to the tally; then the last one comes a second time.
 */
#include <inttypes.h>
#include <stdio.h>

#include "noskjerf.h"

/* The tally, fresh. To keep it as it stands, copy the array. */
static uint32_t tally[NOSKJERF_TALLY];

/* The verdict on constraint 0 in an hour with one interval, or -1 where something is refused. */
static int64_t verdict_at(int64_t dispatch)
{
    static const int64_t sellers[] = { 1 };
    static const int64_t blocks[NOSKJERF_BLOCK] = {
        0, 10000, 2, 15000, 300000, 30000, 900000, [26] = 3, 10000, 10000, 20000, 9000, 30000, 9500, [49] = 40000, 0, 0, 20000, 1000, 3000, 50
    };
    static const int64_t shadow[] = { 500000 };
    static const int64_t factors[] = { -500000 };
    static int64_t state[NOSKJERF_STATE], verdicts[NOSKJERF_VERDICTS];
    const int64_t outputs[] = { 600000, dispatch, 30000, 0 };
    if (noskjerf_open(25, 1, sellers, 1, 1, blocks, NOSKJERF_BLOCK, state, NOSKJERF_STATE) != 0) {
        return -1;
    }
    if (noskjerf_interval(state, NOSKJERF_STATE, 1, shadow, 1, 1, outputs, 4, factors, 1, 100, verdicts, NOSKJERF_VERDICTS) != 0) {
        return -1;
    }
    return verdicts[0];
}

/* Adds a day on which the constraint had this verdict in the hour from 17 to 18, and prints the designation after it. */
static void add_day(uint32_t day, int64_t verdict)
{
    uint32_t marks[NOSKJERF_MARKS] = { 0, 0 }, hours[NOSKJERF_HOURS];
    int64_t number, designation;
    noskjerf_mark(marks, NOSKJERF_MARKS, 17, &verdict, 1);
    number = noskjerf_day(tally, NOSKJERF_TALLY, day, marks[0], marks[1]);
    if (number != 0) {
        printf("day %" PRIu32 ": refused, %" PRId64 "\n", day, number);
        return;
    }
    designation = noskjerf_designation(tally, NOSKJERF_TALLY, hours, NOSKJERF_HOURS);
    printf("day %" PRIu32 ": bound %" PRIu32 ", non-competitive %" PRIu32 ": %s\n", day, hours[0], hours[1],
           designation == 0 ? "competitive" : "non-competitive");
}

int main(void)
{
    static const int64_t dispatch[] = { 0, 0, 0, 20000, 0, 0, 0, 20000, 0, 0, 0, 20000, 20000 };
    uint32_t day;
    for (day = 1; day <= 13; day++) {
        add_day(day, verdict_at(dispatch[day - 1]));
    }
    add_day(13, 0);
    return 0;
}
