/*
 * example: Case T's hour with a hydro unit in place of the unit with costs. It works out the unit's default energy bid, opens an hour with it, takes an
 * interval, and prints the bid curve before and after it.
 */
#include <inttypes.h>
#include <stdio.h>

#include "noskjerf_hydro.h"

static int64_t state[NOSKJERF_STATE];

/* Where a block of an opening has the pack's mark and curve. */
enum { MARK = 25, START = 56, COUNT = 57, END = 58, PRICE = 59 };

/* Works out the hydro default of 100 to 300 MW and puts it into the block as a pack. */
static int64_t put_default(int64_t block[NOSKJERF_BLOCK])
{
    /* one hub: peak, balance of month, and five months, of which the horizon of one month reads the first */
    static const int64_t hub[] = { 500000, 400000, 300000, 0, 900000, 0, 0 };
    uint64_t edges[NOSKJERF_EDGES];
    int64_t prices[NOSKJERF_PRICES];
    int64_t number = noskjerf_hydro(10000, 30000, 10000, 40000, 1, 1, hub, 7, edges, NOSKJERF_EDGES, prices, NOSKJERF_PRICES);
    if (number == 0) {
        printf("default from %" PRIu64 " to %" PRIu64 " at %" PRId64 "\n", edges[1], edges[2], prices[0]);
        block[MARK] = 1;
        block[START] = (int64_t)edges[1];
        block[COUNT] = (int64_t)edges[0];
        block[END] = (int64_t)edges[2];
        block[PRICE] = prices[0];
    }
    return number;
}

/* Opens the hour: portfolio 0 is a net seller, and the hydro unit belongs to it, with Case T's bid. */
static int64_t open_hour(void)
{
    static const int64_t sellers[] = { 1 };
    int64_t block[NOSKJERF_BLOCK] = { 0, 10000, 2, 15000, 300000, 30000, 900000 };
    int64_t number = put_default(block);
    if (number == 0) {
        number = noskjerf_open(25, 1, sellers, 1, 1, block, NOSKJERF_BLOCK, state, NOSKJERF_STATE);
    }
    return number;
}

/* Takes Case T's interval. */
static int64_t take_interval(void)
{
    static const int64_t shadow[] = { 500000 };
    static const int64_t outputs[] = { 600000, 20000, 30000, 0 };
    static const int64_t factors[] = { -500000 };
    static int64_t verdicts[NOSKJERF_VERDICTS];
    return noskjerf_interval(state, NOSKJERF_STATE, 1, shadow, 1, 1, outputs, 4, factors, 1, 100, verdicts, NOSKJERF_VERDICTS);
}

/* Prints the unit's curve: end and price of each step. */
static int64_t print_curve(const char *when)
{
    uint64_t edges[NOSKJERF_HOUR_EDGES];
    int64_t prices[NOSKJERF_HOUR_PRICES];
    int64_t number = noskjerf_curve(state, NOSKJERF_STATE, 0, edges, NOSKJERF_HOUR_EDGES, prices, NOSKJERF_HOUR_PRICES);
    size_t i;
    if (number == 0) {
        printf("%s\n", when);
        for (i = 0; i < edges[0]; i++) {
            printf("%" PRIu64 " %" PRId64 "\n", edges[2 + i], prices[i]);
        }
    }
    return number;
}

int main(void)
{
    int64_t number = open_hour();
    if (number == 0) {
        number = print_curve("bid");
    }
    if (number == 0) {
        number = take_interval();
    }
    if (number == 0) {
        number = print_curve("after the interval");
    }
    if (number != 0) {
        fprintf(stderr, "example: refused, %" PRId64 "\n", number);
    }
    return number != 0;
}
