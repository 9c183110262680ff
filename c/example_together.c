/*
 * example_together: who leaves two constraints short together. Three net sellers have a unit each; the first relieves one constraint, the second
 * the other, and the third both, with a smaller part. It prints the sellers found without a try, and those found by trying every set.
 */
#include <inttypes.h>
#include <stdio.h>
#include <string.h>

#include "noskjerf.h"

#define SELLERS 3

static int64_t state[NOSKJERF_STATE];

/* Opens the hour: Case T's bid and costs for the unit of each portfolio. */
static int64_t open_hour(void)
{
    static const int64_t block[NOSKJERF_BLOCK] = {
        0, 10000, 2, 15000, 300000, 30000, 900000,              /* portfolio; start, count and steps of the bid */
        [25] = 0, 3, 10000, 10000, 20000, 9000, 30000, 9500,    /* from costs; count and points */
        [49] = 40000, 0, 0, 20000, 1000, 3000, 50               /* gas, rate, allowance, om, msc, soc, fee */
    };
    static const int64_t sellers[SELLERS] = { 1, 1, 1 };
    int64_t blocks[SELLERS * NOSKJERF_BLOCK];
    size_t p;
    for (p = 0; p < SELLERS; p++) {
        memcpy(blocks + NOSKJERF_BLOCK * p, block, sizeof block);
        blocks[NOSKJERF_BLOCK * p] = (int64_t)p;
    }
    return noskjerf_open(25, SELLERS, sellers, SELLERS, SELLERS, blocks, SELLERS * NOSKJERF_BLOCK, state, NOSKJERF_STATE);
}

/* Prints the sellers of a set. */
static void print_sellers(uint64_t set)
{
    unsigned p;
    printf("sellers");
    for (p = 0; set >> p != 0; p++) {
        if (set >> p & 1) {
            printf(" %u", p);
        }
    }
    printf("\n");
}

/* Asks who leaves both constraints short, trying so many sets at most. */
static int64_t ask(uint64_t budget)
{
    static const int64_t shadow[] = { 500000, 200000 };
    static const int64_t outputs[] = { 600000, 20000, 30000, 0, 600000, 20000, 30000, 0, 600000, 20000, 30000, 0 };
    static const int64_t factors[] = { [0] = -500000, [33] = -500000, [64] = -100000, -100000 };
    uint64_t found[NOSKJERF_FOUND];
    int64_t number = noskjerf_pivotal(state, NOSKJERF_STATE, 2, shadow, 2, SELLERS, outputs, 12, factors, 66, 100, budget, found, NOSKJERF_FOUND);
    if (number == 0) {
        printf("%" PRIu64 " sets tried, at least %" PRIu64 " needed: ", found[1], found[2]);
        print_sellers(found[0]);
    }
    return number;
}

int main(void)
{
    int64_t number = open_hour();
    if (number == 0) {
        number = ask(0);
    }
    if (number == 0) {
        number = ask(UINT64_MAX);
    }
    if (number != 0) {
        fprintf(stderr, "example_together: refused, %" PRId64 "\n", number);
    }
    return number != 0;
}
