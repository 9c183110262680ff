/*
 * example_contract: a reliability contract unit in Case T's hour. It joins proxy prices up to 200 MW and default prices above, opens an
 * hour with the joined curve for the default energy bid, takes an interval, and prints that curve and the bid after it.
 */
#include <inttypes.h>
#include <stdio.h>

#include "noskjerf.h"

/* The hour. */
static int64_t state[NOSKJERF_STATE];

/* Prints a curve: where it starts, and end and price of each step. */
static void print_curve(const char *name, const uint64_t *edges, const int64_t *prices)
{
    size_t i;
    printf("%s from %" PRIu64 "\n", name, edges[1]);
    for (i = 0; i < edges[0]; i++) {
        printf("to %" PRIu64 " at %" PRId64 "\n", edges[2 + i], prices[i]);
    }
}

/* Joins the two parts and puts the curve into the block of a resource, as a pack. */
static int64_t join_parts(int64_t *block)
{
    static const int64_t proxy[] = { 20000, 700000 };
    static const int64_t above[] = { 24000, 500000, 30000, 800000 };
    uint64_t edges[NOSKJERF_EDGES];
    int64_t prices[NOSKJERF_PRICES];
    int64_t number = noskjerf_join(10000, 1, proxy, 2, 20000, 2, above, 4, edges, NOSKJERF_EDGES, prices, NOSKJERF_PRICES);
    size_t i;
    if (number == 0) {
        print_curve("default energy bid", edges, prices);
        block[25] = 1;
        block[56] = (int64_t)edges[1];
        block[57] = (int64_t)edges[0];
        for (i = 0; i < edges[0]; i++) {
            block[58 + 2 * i] = (int64_t)edges[2 + i];
            block[59 + 2 * i] = prices[i];
        }
    }
    return number;
}

/* Opens the hour: portfolio 0 is a net seller, and resource 0 belongs to it. */
static int64_t open_hour(const int64_t *block)
{
    static const int64_t sellers[] = { 1 };
    return noskjerf_open(25, 1, sellers, 1, 1, block, NOSKJERF_BLOCK, state, NOSKJERF_STATE);
}

/* Takes an interval with a floor price of 350100. */
static int64_t take_interval(void)
{
    static const int64_t shadow[] = { 500000 };
    static const int64_t outputs[] = { 600000, 20000, 30000, 0 };
    static const int64_t factors[] = { -500000 };
    static int64_t verdicts[NOSKJERF_VERDICTS];
    return noskjerf_interval(state, NOSKJERF_STATE, 1, shadow, 1, 1, outputs, 4, factors, 1, 100, verdicts, NOSKJERF_VERDICTS);
}

/* Prints the bid of resource 0 after the interval. */
static int64_t print_bid(void)
{
    uint64_t edges[NOSKJERF_HOUR_EDGES];
    int64_t prices[NOSKJERF_HOUR_PRICES];
    int64_t number = noskjerf_curve(state, NOSKJERF_STATE, 0, edges, NOSKJERF_HOUR_EDGES, prices, NOSKJERF_HOUR_PRICES);
    if (number == 0) {
        print_curve("bid", edges, prices);
    }
    return number;
}

int main(void)
{
    int64_t block[NOSKJERF_BLOCK] = { 0, 10000, 2, 15000, 300000, 30000, 900000 };
    int64_t number = join_parts(block);
    if (number == 0) {
        number = open_hour(block);
    }
    if (number == 0) {
        number = take_interval();
    }
    if (number == 0) {
        number = print_bid();
    }
    if (number != 0) {
        fprintf(stderr, "example_contract: refused, %" PRId64 "\n", number);
    }
    return number != 0;
}
