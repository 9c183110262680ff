/*
 * example_hour: Case T in numbers. It opens an hour with one resource, takes an interval, and prints the verdict, whether a cap applies and
 * why, and the bid curve after it.
 */
#include <inttypes.h>
#include <stdio.h>

#include "noskjerf.h"

/* The hour. To keep it as it stands, copy the array. */
static int64_t state[NOSKJERF_STATE];

/* Opens the hour: portfolio 0 is a net seller, and resource 0 belongs to it. */
static int64_t open_hour(void)
{
    static const int64_t sellers[] = { 1 };
    static const int64_t blocks[NOSKJERF_BLOCK] = {
        0, 10000, 2, 15000, 300000, 30000, 900000,              /* portfolio; start, count and steps of the bid */
        [25] = 0, 3, 10000, 10000, 20000, 9000, 30000, 9500,    /* from costs; count and points */
        [49] = 40000, 0, 0, 20000, 1000, 3000, 50               /* gas, rate, allowance, om, msc, soc, fee */
    };
    return noskjerf_open(25, 1, sellers, 1, 1, blocks, NOSKJERF_BLOCK, state, NOSKJERF_STATE);
}

/* Asks whether a cap applies in an interval and why, takes it, and prints what is answered. */
static int64_t take_interval(void)
{
    static const int64_t shadow[] = { 500000 };
    static const int64_t outputs[] = { 600000, 20000, 30000, 0 };
    static const int64_t factors[] = { -500000 };
    static int64_t causes[NOSKJERF_CAUSES], verdicts[NOSKJERF_VERDICTS];
    int64_t number = noskjerf_why(state, NOSKJERF_STATE, 1, shadow, 1, 1, outputs, 4, factors, 1, 100, causes, NOSKJERF_CAUSES);
    if (number == 0) {
        number = noskjerf_interval(state, NOSKJERF_STATE, 1, shadow, 1, 1, outputs, 4, factors, 1, 100, verdicts, NOSKJERF_VERDICTS);
    }
    if (number == 0) {
        printf("verdict %" PRId64 ", demand %" PRId64 ", left %" PRId64 "\n", verdicts[0], verdicts[1], verdicts[2]);
        printf("capped %" PRId64 ", component %" PRId64 ", competitive price %" PRId64 ", floor price %" PRId64 "\n", causes[0], causes[1],
               causes[2], causes[3]);
    }
    return number;
}

/* Prints the curve of resource 0: where it starts, and end and price of each step. */
static int64_t print_curve(void)
{
    uint64_t edges[NOSKJERF_HOUR_EDGES];
    int64_t prices[NOSKJERF_HOUR_PRICES];
    int64_t number = noskjerf_curve(state, NOSKJERF_STATE, 0, edges, NOSKJERF_HOUR_EDGES, prices, NOSKJERF_HOUR_PRICES);
    size_t i;
    if (number == 0) {
        printf("from %" PRIu64 "\n", edges[1]);
        for (i = 0; i < edges[0]; i++) {
            printf("to %" PRIu64 " at %" PRId64 "\n", edges[2 + i], prices[i]);
        }
    }
    return number;
}

int main(void)
{
    int64_t number = open_hour();
    if (number == 0) {
        number = take_interval();
    }
    if (number == 0) {
        number = print_curve();
    }
    if (number != 0) {
        fprintf(stderr, "example_hour: refused, %" PRId64 "\n", number);
    }
    return number != 0;
}
