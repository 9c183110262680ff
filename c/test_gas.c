/* Tests of noskjerf_gas_run and noskjerf_gas_default. */
#include <string.h>

#include "check.h"
#include "noskjerf.h"

#define LENGTH(array) (sizeof(array) / sizeof(array)[0])

/* Three published days, and a list with one day twice. */
static const uint32_t days[] = { 3, 40000, 5, 41000, 9, 39000 };
static const uint32_t twice[] = { 4, 50000, 4, 1 };

/* Trading days before, at, between and after the entries. */
static const uint32_t trading_days[] = { 0, 1, 2, 3, 4, 5, 8, 9, 10, UINT32_MAX };

/* ---- runs */

/* The run of the day-ahead list, beside a list with one day twice. */
static size_t ahead(const uint32_t *list, size_t length, uint32_t day)
{
    return noskjerf_gas_run(list, length, twice, LENGTH(twice), NOSKJERF_DAY_AHEAD, day);
}

/* The run of the real-time list, beside a list with one day twice. */
static size_t real(const uint32_t *list, size_t length, uint32_t day)
{
    return noskjerf_gas_run(twice, LENGTH(twice), list, length, NOSKJERF_REAL_TIME, day);
}

/* Whether the list has a run of this length in either market. */
static int both(size_t expected, const uint32_t *list, size_t length, uint32_t day)
{
    return ahead(list, length, day) == expected && real(list, length, day) == expected;
}

/* Whether the list has no run on any trading day, in either market. */
static int never(const uint32_t *list, size_t length)
{
    size_t i;
    for (i = 0; i < LENGTH(trading_days); i++) {
        if (!both(0, list, length, trading_days[i])) {
            return 0;
        }
    }
    return 1;
}

static void test_runs(void)
{
    CHECK(both(0, days, LENGTH(days), 0));
    CHECK(both(0, days, LENGTH(days), 2));
    CHECK(both(2, days, LENGTH(days), 3));
    CHECK(both(2, days, LENGTH(days), 4));
    CHECK(both(4, days, LENGTH(days), 5));
    CHECK(both(4, days, LENGTH(days), 8));
    CHECK(both(6, days, LENGTH(days), 9));
    CHECK(both(6, days, LENGTH(days), UINT32_MAX));
}

/* Days reach from 0 to the last that 32 bits hold; the book doesn't test prices. */
static void test_ends(void)
{
    static const uint32_t ends[] = { 0, 7, UINT32_MAX, UINT32_MAX };
    CHECK(both(2, ends, LENGTH(ends), 0));
    CHECK(both(2, ends, LENGTH(ends), UINT32_MAX - 1));
    CHECK(both(4, ends, LENGTH(ends), UINT32_MAX));
}

/* A list that ends inside a pair, whose days don't rise, or that is empty; a day past the trading day counts too. */
static void test_broken_lists(void)
{
    static const uint32_t late[] = { 1, 7, 9, 7, 9, 7 };
    static const uint32_t falling[] = { 5, 1, 4, 1 };
    CHECK(both(2, late, 4, 1));
    CHECK(never(late, LENGTH(late)));
    CHECK(never(falling, LENGTH(falling)));
    CHECK(never(twice, LENGTH(twice)));
    CHECK(never(days, 5));
    CHECK(never(days, 1));
    CHECK(never(days, 0));
}

/* Each market reads its own list, on every day the same whatever the other is; another number is no market. */
static void test_markets(void)
{
    static const uint32_t other[] = { 8, 1, 9, 2, 10, 3 };
    size_t i;
    for (i = 0; i < LENGTH(trading_days); i++) {
        uint32_t day = trading_days[i];
        CHECK(noskjerf_gas_run(days, LENGTH(days), other, LENGTH(other), NOSKJERF_DAY_AHEAD, day) == ahead(days, LENGTH(days), day));
        CHECK(noskjerf_gas_run(days, LENGTH(days), other, 0, NOSKJERF_DAY_AHEAD, day) == ahead(days, LENGTH(days), day));
        CHECK(noskjerf_gas_run(other, LENGTH(other), days, LENGTH(days), NOSKJERF_REAL_TIME, day) == real(days, LENGTH(days), day));
        CHECK(noskjerf_gas_run(other, 1, days, LENGTH(days), NOSKJERF_REAL_TIME, day) == real(days, LENGTH(days), day));
    }
    CHECK(noskjerf_gas_run(days, LENGTH(days), days, LENGTH(days), 2, 9) == 0);
    CHECK(noskjerf_gas_run(days, LENGTH(days), days, LENGTH(days), UINT32_MAX, 9) == 0);
}

/* ---- default energy bids */

/* What a cell of a buffer is before a call, one that no curve holds. */
#define BEFORE 77777777

/* The buffers, with a cell more than they have to have; the last is never lent. */
static uint64_t edges[NOSKJERF_EDGES + 1];
static int64_t prices[NOSKJERF_PRICES + 1];

/* Case T's costs, with a gas price that is not read. */
static const int64_t points_of_t[] = { 10000, 10000, 20000, 9000, 30000, 9500 };
static const int64_t charges_of_t[NOSKJERF_CHARGES] = { -1, 0, 0, 20000, 1000, 3000, 50 };

/* A book: Case T's gas price ahead, and one over its limit in real time. */
static const uint32_t of_t[] = { 1, 40000 };
static const uint32_t over[] = { 1, 1000001 };

static void fill_buffers(void)
{
    size_t i;
    for (i = 0; i < LENGTH(edges); i++) {
        edges[i] = BEFORE;
    }
    for (i = 0; i < LENGTH(prices); i++) {
        prices[i] = BEFORE;
    }
}

/* Whether every cell of both buffers is as it was. */
static int untouched(void)
{
    size_t i;
    for (i = 0; i < LENGTH(edges); i++) {
        if (edges[i] != BEFORE) {
            return 0;
        }
    }
    for (i = 0; i < LENGTH(prices); i++) {
        if (prices[i] != BEFORE) {
            return 0;
        }
    }
    return 1;
}

/* The answer for three points and charges on that book. */
static int64_t answer(uint32_t market, uint32_t day, const int64_t *points, const int64_t *charges)
{
    fill_buffers();
    return noskjerf_gas_default(of_t, LENGTH(of_t), over, LENGTH(over), market, day, 3, points, 6, charges, NOSKJERF_CHARGES, edges,
                                NOSKJERF_EDGES, prices, NOSKJERF_PRICES);
}

/* Whether the costs are refused with this number, and the buffers left alone. */
static int refused(int64_t expected, uint32_t market, uint32_t day, const int64_t *points, const int64_t *charges)
{
    return answer(market, day, points, charges) == expected && untouched();
}

static void test_curve_of_t(void)
{
    CHECK(answer(NOSKJERF_DAY_AHEAD, 1, points_of_t, charges_of_t) == 0);
    CHECK(edges[0] == 3);
    CHECK(edges[1] == 10000);
    CHECK(edges[2] == 20000);
    CHECK(edges[3] == 24000);
    CHECK(edges[4] == 30000);
    CHECK(prices[0] == 378402);
    CHECK(prices[1] == 444403);
    CHECK(prices[2] == 488402);
    CHECK(edges[NOSKJERF_EDGES] == BEFORE);
    CHECK(prices[NOSKJERF_PRICES] == BEFORE);
    CHECK(answer(NOSKJERF_DAY_AHEAD, UINT32_MAX, points_of_t, charges_of_t) == 0 && prices[0] == 378402);
}

/* The first price of Case T's costs on a day of the three, or the refusal. */
static int64_t first_price(uint32_t day)
{
    int64_t number;
    fill_buffers();
    number = noskjerf_gas_default(twice, LENGTH(twice), days, LENGTH(days), NOSKJERF_REAL_TIME, day, 3, points_of_t, LENGTH(points_of_t),
                                  charges_of_t, NOSKJERF_CHARGES, edges, NOSKJERF_EDGES, prices, NOSKJERF_PRICES);
    return number == 0 ? prices[0] : number;
}

/* 11/10, up, of 24,001 and of fuel: 8 times the price in use. */
static void test_price_in_use(void)
{
    CHECK(first_price(2) == 21);
    CHECK(first_price(3) == 378402);
    CHECK(first_price(4) == 378402);
    CHECK(first_price(5) == 387202);
    CHECK(first_price(8) == 387202);
    CHECK(first_price(9) == 369602);
    CHECK(first_price(UINT32_MAX) == 369602);
}

/* The price in use is judged with the costs, and the one in the charges isn't. */
static void test_gas_price(void)
{
    int64_t charges[NOSKJERF_CHARGES];
    CHECK(refused(7, NOSKJERF_REAL_TIME, 1, points_of_t, charges_of_t));
    memcpy(charges, charges_of_t, sizeof charges);
    charges[0] = 1;
    CHECK(refused(7, NOSKJERF_REAL_TIME, 1, points_of_t, charges));
    CHECK(answer(NOSKJERF_DAY_AHEAD, 1, points_of_t, charges) == 0 && prices[0] == 378402);
}

/* Whether costs have this refusal on a published day, and 21 where the book has none. */
static int after_the_book(int64_t expected, const int64_t *points, const int64_t *charges)
{
    return refused(expected, NOSKJERF_DAY_AHEAD, 1, points, charges) && refused(21, NOSKJERF_DAY_AHEAD, 0, points, charges)
           && refused(21, NOSKJERF_REAL_TIME, 0, points, charges) && refused(21, 2, 1, points, charges);
}

static void test_order(void)
{
    static const int64_t quantities[] = { 10000, 10000, 10000, 9000, 30000, 9500 };
    static const int64_t heat[] = { 10000, 10000, 20000, 0, 30000, 9500 };
    static const int64_t rate[] = { 10000, 10000, 29999, 1, 30000, 9500 };
    int64_t charges[NOSKJERF_CHARGES];
    memcpy(charges, charges_of_t, sizeof charges);
    charges[3] = -1;
    CHECK(after_the_book(5, quantities, charges_of_t));
    CHECK(after_the_book(6, heat, charges_of_t));
    CHECK(after_the_book(7, points_of_t, charges));
    CHECK(after_the_book(8, rate, charges_of_t));
    CHECK(refused(21, NOSKJERF_DAY_AHEAD, 0, points_of_t, charges_of_t));
    CHECK(refused(21, 2, 1, points_of_t, charges_of_t));
}

/* The answer for `count` of Case T's points on day 4, on two lists. */
static int64_t on_lists(const uint32_t *day_ahead, size_t day_ahead_len, const uint32_t *real_time, size_t real_time_len, uint32_t market,
                        size_t count)
{
    fill_buffers();
    return noskjerf_gas_default(day_ahead, day_ahead_len, real_time, real_time_len, market, 4, count, points_of_t, LENGTH(points_of_t),
                                charges_of_t, NOSKJERF_CHARGES, edges, NOSKJERF_EDGES, prices, NOSKJERF_PRICES);
}

/* A broken list is refused before the point count, and changes nothing for the other market. */
static void test_lists(void)
{
    CHECK(on_lists(days, 6, twice, 4, NOSKJERF_DAY_AHEAD, 3) == 0 && prices[2] == 488402);
    CHECK(on_lists(twice, 4, days, 6, NOSKJERF_REAL_TIME, 3) == 0 && prices[2] == 488402);
    CHECK(on_lists(days, 6, twice, 4, NOSKJERF_DAY_AHEAD, 1) == 4 && untouched());
    CHECK(on_lists(twice, 4, days, 6, NOSKJERF_DAY_AHEAD, 1) == 21 && untouched());
    CHECK(on_lists(days, 6, twice, 4, NOSKJERF_REAL_TIME, 3) == 21 && untouched());
    CHECK(on_lists(days, 5, days, 6, NOSKJERF_DAY_AHEAD, 3) == 21 && untouched());
    CHECK(on_lists(days, 6, days, 0, NOSKJERF_REAL_TIME, 3) == 21 && untouched());
}

/* A buffer that is too small is answered before the book and the costs, and both are left alone. */
static int too_small(uint32_t market, uint32_t day, size_t count, size_t edges_len, size_t prices_len)
{
    fill_buffers();
    return noskjerf_gas_default(of_t, LENGTH(of_t), over, LENGTH(over), market, day, count, points_of_t, LENGTH(points_of_t), charges_of_t,
                                NOSKJERF_CHARGES, edges, edges_len, prices, prices_len) == -1
           && untouched();
}

static void test_small_buffers(void)
{
    CHECK(too_small(NOSKJERF_DAY_AHEAD, 1, 3, NOSKJERF_EDGES - 1, NOSKJERF_PRICES));
    CHECK(too_small(NOSKJERF_DAY_AHEAD, 1, 3, NOSKJERF_EDGES, NOSKJERF_PRICES - 1));
    CHECK(too_small(NOSKJERF_DAY_AHEAD, 0, 3, 0, 0));
    CHECK(too_small(2, 1, 3, NOSKJERF_EDGES, 0));
    CHECK(too_small(NOSKJERF_REAL_TIME, 1, 1, 0, NOSKJERF_PRICES));
}

/* The answer for Case T's points and charges as far as they are there, at its gas price. */
static int64_t shortened(size_t points_len, size_t charges_len)
{
    fill_buffers();
    return noskjerf_gas_default(of_t, LENGTH(of_t), over, LENGTH(over), NOSKJERF_DAY_AHEAD, 1, 3, points_of_t, points_len, charges_of_t,
                                charges_len, edges, NOSKJERF_EDGES, prices, NOSKJERF_PRICES);
}

/* Numbers past the end count as 0: points are refused, and charges cost nothing, which leaves 11/10 of 8 times the book's price. */
static void test_short_slices(void)
{
    CHECK(shortened(5, NOSKJERF_CHARGES) == 6 && untouched());
    CHECK(shortened(4, NOSKJERF_CHARGES) == 5 && untouched());
    CHECK(shortened(6, 0) == 0 && prices[0] == 352000);
    CHECK(shortened(6, 1) == 0 && prices[0] == 352000);
    CHECK(shortened(6, 4) == 0 && prices[0] == 374000);
}

/* A pointer with length 0 may be null. */
static void test_null(void)
{
    CHECK(never(NULL, 0));
    CHECK(noskjerf_gas_run(days, LENGTH(days), NULL, 0, NOSKJERF_DAY_AHEAD, 5) == 4);
    CHECK(noskjerf_gas_run(NULL, 0, days, LENGTH(days), NOSKJERF_REAL_TIME, 5) == 4);
    CHECK(noskjerf_gas_run(NULL, 0, NULL, 0, 2, 5) == 0);
    CHECK(on_lists(NULL, 0, days, LENGTH(days), NOSKJERF_REAL_TIME, 3) == 0 && prices[2] == 488402);
    CHECK(on_lists(NULL, 0, NULL, 0, NOSKJERF_REAL_TIME, 3) == 21 && untouched());
    CHECK(noskjerf_gas_default(days, LENGTH(days), NULL, 0, NOSKJERF_DAY_AHEAD, 4, 2, NULL, 0, NULL, 0, edges, NOSKJERF_EDGES, prices,
                               NOSKJERF_PRICES) == 5
          && untouched());
    CHECK(noskjerf_gas_default(NULL, 0, NULL, 0, 0, 0, 0, NULL, 0, NULL, 0, NULL, 0, NULL, 0) == -1);
}

int main(void)
{
    test_runs();
    test_ends();
    test_broken_lists();
    test_markets();
    test_curve_of_t();
    test_price_in_use();
    test_gas_price();
    test_order();
    test_lists();
    test_small_buffers();
    test_short_slices();
    test_null();
    return report("test_gas");
}
