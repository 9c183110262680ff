/* Tests of noskjerf_bid, noskjerf_default, noskjerf_join and noskjerf_classroom. */
#include <string.h>

#include "check.h"
#include "noskjerf.h"

#define LENGTH(array) (sizeof(array) / sizeof(array)[0])

/* ---- bids */

/* The judgement on a bid of one step from 10,000 on. */
static uint64_t one_step(uint64_t month, int64_t end, int64_t price)
{
    int64_t steps[2];
    steps[0] = end;
    steps[1] = price;
    return noskjerf_bid(month, 10000, 1, steps, LENGTH(steps));
}

/* The judgement on a bid of two steps in month 25. */
static uint64_t two_steps(int64_t start, int64_t end, int64_t price, int64_t next_end, int64_t next_price)
{
    int64_t steps[4];
    steps[0] = end;
    steps[1] = price;
    steps[2] = next_end;
    steps[3] = next_price;
    return noskjerf_bid(25, start, 2, steps, LENGTH(steps));
}

/* The judgement on `count` steps of the 11 that rise by 100 and have price 0. */
static uint64_t rising_steps(size_t count)
{
    int64_t steps[22];
    size_t i;
    for (i = 0; i < 11; i++) {
        steps[2 * i] = 100 * (int64_t)(i + 1);
        steps[2 * i + 1] = 0;
    }
    return noskjerf_bid(25, 0, count, steps, LENGTH(steps));
}

static void test_step_count(void)
{
    CHECK(rising_steps(0) == 1);
    CHECK(rising_steps(1) == 0);
    CHECK(rising_steps(10) == 0);
    CHECK(rising_steps(11) == 1);
    CHECK(rising_steps(SIZE_MAX) == 1);
}

static void test_edges(void)
{
    CHECK(two_steps(10000, 15000, 300000, 30000, 900000) == 0);
    CHECK(two_steps(0, 1, 0, 1000000, 0) == 0);
    CHECK(two_steps(-1, 1, 0, 2, 0) == 2);
    CHECK(two_steps(0, 1, 0, 1000001, 0) == 2);
    CHECK(two_steps(10000, 10000, 0, 30000, 0) == 2);
    CHECK(two_steps(10000, 15000, 0, 15000, 0) == 2);
    CHECK(two_steps(10000, 15000, 0, 14999, 0) == 2);
    CHECK(two_steps(INT64_MIN, 15000, 0, INT64_MAX, 0) == 2);
}

static void test_prices(void)
{
    CHECK(one_step(1, 15000, -1500000) == 0);
    CHECK(one_step(1, 15000, -1500001) == 3);
    CHECK(one_step(25, 15000, INT64_MIN) == 3);
    CHECK(one_step(25, 15000, INT64_MAX) == 3);
    CHECK(two_steps(10000, 15000, 300000, 30000, 300000) == 0);
    CHECK(two_steps(10000, 15000, 300000, 30000, 299999) == 3);
}

static void test_months(void)
{
    CHECK(one_step(12, 15000, 5000000) == 0);
    CHECK(one_step(12, 15000, 5000001) == 3);
    CHECK(one_step(13, 15000, 5000001) == 0);
    CHECK(one_step(24, 15000, 7500000) == 0);
    CHECK(one_step(24, 15000, 7500001) == 3);
    CHECK(one_step(25, 15000, 7500001) == 0);
    CHECK(one_step(1200, 15000, 10000000) == 0);
    CHECK(one_step(1200, 15000, 10000001) == 3);
}

/* Any month is taken: 0 as month 1, and one above 1,200 as month 1,200. */
static void test_other_months(void)
{
    CHECK(one_step(0, 15000, 5000000) == 0);
    CHECK(one_step(0, 15000, 5000001) == 3);
    CHECK(one_step(1201, 15000, 10000000) == 0);
    CHECK(one_step(1201, 15000, 10000001) == 3);
    CHECK(one_step(UINT64_MAX, 15000, 10000000) == 0);
    CHECK(one_step(UINT64_MAX, 15000, 10000001) == 3);
}

/* The lowest number wins, over the whole bid. */
static void test_bid_order(void)
{
    static const int64_t falling[22] = { 5, 9, 4, 8, 3, 7, 2, 6, 1, 5, 0, 4 };
    CHECK(noskjerf_bid(25, 6, 11, falling, LENGTH(falling)) == 1);
    CHECK(noskjerf_bid(25, 6, 6, falling, LENGTH(falling)) == 2);
    CHECK(two_steps(10000, 15000, 10000001, 15000, 10000002) == 2);
}

/* Numbers past the end of the steps count as 0; those past the count are not looked at. The pointer may be null where there are none. */
static void test_bid_lengths(void)
{
    static const int64_t steps[] = { 15000, 300000, 14000, 0 };
    static const int64_t high[] = { 15000, INT64_MAX };
    CHECK(noskjerf_bid(25, 10000, 1, steps, 4) == 0);
    CHECK(noskjerf_bid(25, 10000, 1, steps, 1) == 0);
    CHECK(noskjerf_bid(25, 10000, 1, high, 2) == 3);
    CHECK(noskjerf_bid(25, 10000, 1, high, 1) == 0);
    CHECK(noskjerf_bid(25, 10000, 1, steps, 0) == 2);
    CHECK(noskjerf_bid(25, 10000, 2, steps, 2) == 2);
    CHECK(noskjerf_bid(25, 10000, 0, steps, 0) == 1);
    CHECK(noskjerf_bid(25, 10000, 1, NULL, 0) == 2);
    CHECK(noskjerf_bid(25, 10000, 0, NULL, 0) == 1);
}

/* ---- default energy bids */

/* What a cell of a buffer is before a call, one that no curve holds. */
#define BEFORE 77777777

/* The buffers, with a cell more than they have to have; the last is never lent. */
static uint64_t edges[NOSKJERF_EDGES + 1];
static int64_t prices[NOSKJERF_PRICES + 1];

/* Case T's costs. */
static const int64_t points_of_t[] = { 10000, 10000, 20000, 9000, 30000, 9500 };
static const int64_t charges_of_t[NOSKJERF_CHARGES] = { 40000, 0, 0, 20000, 1000, 3000, 50 };

static void fill_buffers(void)
{
    size_t i;
    for (i = 0; i < LENGTH(edges); i++) {
        edges[i] = BEFORE;
    }
    for (i = 0; i < LENGTH(prices); i++) {
        prices[i] = BEFORE;
    }
}

/* Whether every cell of both buffers is as it was. */
static int untouched(void)
{
    size_t i;
    for (i = 0; i < LENGTH(edges); i++) {
        if (edges[i] != BEFORE) {
            return 0;
        }
    }
    for (i = 0; i < LENGTH(prices); i++) {
        if (prices[i] != BEFORE) {
            return 0;
        }
    }
    return 1;
}

/* The answer for `count` points, of which the numbers are given, and charges. */
static int64_t answer(size_t count, const int64_t *points, size_t points_len, const int64_t *charges)
{
    fill_buffers();
    return noskjerf_default(count, points, points_len, charges, NOSKJERF_CHARGES, edges, NOSKJERF_EDGES, prices, NOSKJERF_PRICES);
}

/* Whether two points with Case T's charges are accepted (0), or refused with this number and the buffers left alone. */
static int two_points(int64_t expected, int64_t mw, int64_t heat, int64_t next_mw, int64_t next_heat)
{
    int64_t points[4];
    points[0] = mw;
    points[1] = heat;
    points[2] = next_mw;
    points[3] = next_heat;
    return answer(2, points, LENGTH(points), charges_of_t) == expected && untouched() == (expected != 0);
}

static void test_curve_of_t(void)
{
    CHECK(answer(3, points_of_t, LENGTH(points_of_t), charges_of_t) == 0);
    CHECK(edges[0] == 3);
    CHECK(edges[1] == 10000);
    CHECK(edges[2] == 20000);
    CHECK(edges[3] == 24000);
    CHECK(edges[4] == 30000);
    CHECK(prices[0] == 378402);
    CHECK(prices[1] == 444403);
    CHECK(prices[2] == 488402);
    CHECK(edges[NOSKJERF_EDGES] == BEFORE);
    CHECK(prices[NOSKJERF_PRICES] == BEFORE);
}

/* Rates and rounding: fuel 1, greenhouse 1 and fee part 34 make 36, and 39.6 is rounded up. */
static void test_rounding(void)
{
    static const int64_t points[] = { 9, 1, 12, 1, 15, 1 };
    static const int64_t charges[NOSKJERF_CHARGES] = { 1, 1, 1, 0, 0, 0, 1 };
    CHECK(answer(3, points, LENGTH(points), charges) == 0);
    CHECK(edges[0] == 2);
    CHECK(edges[1] == 9);
    CHECK(edges[2] == 12);
    CHECK(prices[0] == 40);
}

/* Up to the 80% mark the incremental heat rate is limited to the larger heat rate, here 10,000; past it, it is 17,142. The mark splits what it lies inside. */
static void test_eighty_percent(void)
{
    static const int64_t within[] = { 10000, 1, 24000, 10000, 30000, 10000 };
    static const int64_t past[] = { 10000, 1, 24001, 10000, 30000, 10000 };
    static const int64_t charges[NOSKJERF_CHARGES] = { 1000, 0, 0, 0, 0, 0, 0 };
    CHECK(answer(3, within, LENGTH(within), charges) == 0 && edges[0] == 2 && prices[0] == 11000);
    CHECK(answer(3, past, LENGTH(past), charges) == 0 && edges[0] == 3);
    CHECK(edges[2] == 24000 && prices[0] == 11000);
    CHECK(edges[3] == 24001 && prices[1] == 18857);
}

/* Fuel comes from the largest incremental heat rate so far, greenhouse from the step's own: 10,000 + 799 + 50,000 make 60,799. */
static void test_falling_heat_rate(void)
{
    static const int64_t points[] = { 10000, 10000, 20000, 10000, 20100, 9990 };
    static const int64_t charges[NOSKJERF_CHARGES] = { 1000, 100000, 1000, 0, 0, 0, 50000 };
    CHECK(answer(3, points, LENGTH(points), charges) == 0);
    CHECK(edges[0] == 3);
    CHECK(prices[0] == 13006);
    CHECK(prices[1] == 13504);
    CHECK(prices[2] == 66879);
}

/* A narrow step's fee exceeds its right neighbour's, which is raised to its price. */
static void test_raised_price(void)
{
    static const int64_t points[] = { 10000, 10000, 10100, 10000, 20100, 10000 };
    static const int64_t charges[NOSKJERF_CHARGES] = { 1000, 0, 0, 0, 0, 0, 50000 };
    CHECK(answer(3, points, LENGTH(points), charges) == 0);
    CHECK(edges[0] == 3);
    CHECK(edges[2] == 10100);
    CHECK(edges[3] == 16080);
    CHECK(edges[4] == 20100);
    CHECK(prices[0] == 66000);
    CHECK(prices[1] == 66000);
    CHECK(prices[2] == 66000);
}

/* The answer for `count` of the 12 points that rise by 100 with heat rate 1, all charges 0: fuel and greenhouse are 0 as well. */
static int64_t rising_points(size_t count)
{
    static const int64_t charges[NOSKJERF_CHARGES];
    int64_t points[24];
    size_t i;
    for (i = 0; i < 12; i++) {
        points[2 * i] = 100 * (int64_t)i;
        points[2 * i + 1] = 1;
    }
    return answer(count, points, LENGTH(points), charges);
}

static void test_point_count(void)
{
    CHECK(rising_points(0) == 4 && untouched());
    CHECK(rising_points(1) == 4 && untouched());
    CHECK(rising_points(2) == 0 && edges[0] == 2 && edges[2] == 80);
    CHECK(rising_points(11) == 0 && edges[0] == 10 && edges[11] == 1000 && prices[9] == 0);
    CHECK(rising_points(12) == 4 && untouched());
    CHECK(rising_points(SIZE_MAX) == 4 && untouched());
}

/* Eleven points whose 80% mark, 808, lies inside a segment make eleven steps. */
static void test_eleven_steps(void)
{
    static const int64_t charges[NOSKJERF_CHARGES];
    int64_t points[22];
    size_t i;
    for (i = 0; i < 11; i++) {
        points[2 * i] = 101 * (int64_t)i;
        points[2 * i + 1] = 1;
    }
    CHECK(answer(11, points, LENGTH(points), charges) == 0 && edges[0] == 10);
    points[16] = 809;
    CHECK(answer(11, points, LENGTH(points), charges) == 0 && edges[0] == 11);
    CHECK(edges[9] == 808 && edges[10] == 809 && edges[12] == 1010 && prices[10] == 0);
    CHECK(edges[NOSKJERF_EDGES] == BEFORE);
    CHECK(prices[NOSKJERF_PRICES] == BEFORE);
}

static void test_points(void)
{
    CHECK(two_points(0, 0, 9000, 1000000, 9000));
    CHECK(two_points(5, -1, 9000, 1000000, 9000));
    CHECK(two_points(5, 0, 9000, 1000001, 9000));
    CHECK(two_points(5, 10000, 9000, 10000, 9000));
    CHECK(two_points(5, INT64_MIN, 9000, INT64_MAX, 9000));
    CHECK(two_points(0, 10000, 1, 20000, 1));
    CHECK(two_points(0, 10000, 100000, 20000, 100000));
    CHECK(two_points(6, 10000, 0, 20000, 9000));
    CHECK(two_points(6, 10000, 9000, 20000, 100001));
    CHECK(two_points(6, 10000, INT64_MIN, 20000, INT64_MAX));
}

/* Every charge at its top is accepted; with one unit more, and below 0, it is refused. */
static void test_charges(void)
{
    static const int64_t top[NOSKJERF_CHARGES] = { 1000000, 200000, 10000000, 1000000, 1000000, 1000000, 1000000 };
    int64_t charges[NOSKJERF_CHARGES];
    size_t i;

    CHECK(answer(3, points_of_t, LENGTH(points_of_t), top) == 0);
    for (i = 0; i < NOSKJERF_CHARGES; i++) {
        memcpy(charges, charges_of_t, sizeof charges);
        charges[i] = top[i] + 1;
        CHECK(answer(3, points_of_t, LENGTH(points_of_t), charges) == 7 && untouched());
        charges[i] = -1;
        CHECK(answer(3, points_of_t, LENGTH(points_of_t), charges) == 7 && untouched());
    }
}

/* A jump of the heat rate over one hundredth of a MW: at the end of the curve it is refused, up to 80% of it the limit holds it. */
static void test_incremental_heat_rate(void)
{
    static const int64_t at_the_end[] = { 10000, 10000, 29999, 1, 30000, 9500 };
    static const int64_t limited[] = { 0, 1, 999, 1, 1000, 100000, 2000, 100000 };
    CHECK(two_points(0, 1, 100000, 2, 100000));
    CHECK(two_points(8, 1, 99999, 2, 100000));
    CHECK(two_points(0, 2, 50003, 3, 2));
    CHECK(two_points(8, 2, 50002, 3, 1));
    CHECK(answer(3, at_the_end, LENGTH(at_the_end), charges_of_t) == 8 && untouched());
    CHECK(answer(4, limited, LENGTH(limited), charges_of_t) == 0 && edges[0] == 4);
}

/* The lowest number wins, over the whole table. */
static void test_cost_order(void)
{
    static const int64_t negative[NOSKJERF_CHARGES] = { -1, -1, -1, -1, -1, -1, -1 };
    static const int64_t points[] = { 10000, 0, 10000, 9000 };
    static const int64_t heat[] = { 10000, 0, 20000, 9000 };
    CHECK(answer(1, points, LENGTH(points), negative) == 4);
    CHECK(answer(2, points, LENGTH(points), negative) == 5);
    CHECK(answer(2, heat, LENGTH(heat), negative) == 6);
    CHECK(answer(3, points_of_t, LENGTH(points_of_t), negative) == 7);
}

/* A buffer that is too small is answered before anything else, and both are left alone. */
static int too_small(size_t count, size_t edges_len, size_t prices_len)
{
    fill_buffers();
    return noskjerf_default(count, points_of_t, LENGTH(points_of_t), charges_of_t, NOSKJERF_CHARGES, edges, edges_len, prices,
                            prices_len) == -1
           && untouched();
}

static void test_small_buffers(void)
{
    CHECK(too_small(3, NOSKJERF_EDGES - 1, NOSKJERF_PRICES));
    CHECK(too_small(3, NOSKJERF_EDGES, NOSKJERF_PRICES - 1));
    CHECK(too_small(3, 0, 0));
    CHECK(too_small(1, 0, NOSKJERF_PRICES));
}

/* The answer for `count` of Case T's points, of which the first numbers are there, and for the first of its charges. */
static int64_t shortened(size_t count, size_t points_len, size_t charges_len)
{
    fill_buffers();
    return noskjerf_default(count, points_of_t, points_len, charges_of_t, charges_len, edges, NOSKJERF_EDGES, prices, NOSKJERF_PRICES);
}

/* Points past the end have quantity and heat rate 0, and so are refused; those past the count are not looked at. */
static void test_short_points(void)
{
    static const int64_t other_last[] = { 10000, 10000, 20000, 9000, -1, -1 };
    CHECK(shortened(3, 6, NOSKJERF_CHARGES) == 0);
    CHECK(shortened(3, 5, NOSKJERF_CHARGES) == 6 && untouched());
    CHECK(shortened(3, 4, NOSKJERF_CHARGES) == 5 && untouched());
    CHECK(shortened(2, 3, NOSKJERF_CHARGES) == 6 && untouched());
    CHECK(shortened(2, 0, NOSKJERF_CHARGES) == 5 && untouched());
    CHECK(shortened(2, 4, NOSKJERF_CHARGES) == 0);
    CHECK(answer(2, other_last, LENGTH(other_last), charges_of_t) == 0);
    CHECK(answer(3, other_last, LENGTH(other_last), charges_of_t) == 5 && untouched());
}

/* Charges past the end are 0: 11/10 of 8, 9.5 and 10.5 times the gas price of 40,000 where it is there alone. */
static void test_short_charges(void)
{
    static const int64_t longer[NOSKJERF_CHARGES + 1] = { 40000, 0, 0, 20000, 1000, 3000, 50, INT64_MIN };
    CHECK(shortened(3, 6, 1) == 0 && prices[0] == 352000 && prices[1] == 418000 && prices[2] == 462000);
    CHECK(shortened(3, 6, 4) == 0 && prices[0] == 374000 && prices[1] == 440000 && prices[2] == 484000);
    CHECK(shortened(3, 6, 0) == 0 && edges[0] == 3 && prices[0] == 0 && prices[1] == 0 && prices[2] == 0);
    fill_buffers();
    CHECK(noskjerf_default(3, points_of_t, 6, longer, LENGTH(longer), edges, NOSKJERF_EDGES, prices, NOSKJERF_PRICES) == 0);
    CHECK(prices[0] == 378402 && prices[1] == 444403 && prices[2] == 488402);
}

/* A pointer with length 0 may be null. */
static void test_null(void)
{
    fill_buffers();
    CHECK(noskjerf_default(2, NULL, 0, NULL, 0, edges, NOSKJERF_EDGES, prices, NOSKJERF_PRICES) == 5 && untouched());
    CHECK(noskjerf_default(3, points_of_t, 6, charges_of_t, NOSKJERF_CHARGES, NULL, 0, prices, NOSKJERF_PRICES) == -1 && untouched());
    CHECK(noskjerf_default(3, points_of_t, 6, charges_of_t, NOSKJERF_CHARGES, edges, NOSKJERF_EDGES, NULL, 0) == -1 && untouched());
    CHECK(noskjerf_default(0, NULL, 0, NULL, 0, NULL, 0, NULL, 0) == -1);
    CHECK(noskjerf_default(3, points_of_t, 6, NULL, 0, edges, NOSKJERF_EDGES, prices, NOSKJERF_PRICES) == 0 && prices[2] == 0);
}

/* ---- joined curves */

/* A part: where it starts, how many steps it has, and the end and the price of each in turn, with room for twelve. */
struct part {
    int64_t start;
    size_t count;
    int64_t steps[24];
};

/* The answer for two parts of which the first numbers are there. */
static int64_t join_answer(const struct part *proxy, size_t proxy_len, const struct part *above, size_t above_len)
{
    fill_buffers();
    return noskjerf_join(proxy->start, proxy->count, proxy->steps, proxy_len, above->start, above->count, above->steps, above_len, edges,
                         NOSKJERF_EDGES, prices, NOSKJERF_PRICES);
}

/* Whether the parts are refused with this number, and the buffers left alone. */
static int parts_refused(int64_t expected, struct part proxy, struct part above)
{
    return join_answer(&proxy, LENGTH(proxy.steps), &above, LENGTH(above.steps)) == expected && untouched();
}

/* Whether the buffers hold this curve and 0 past its steps, and nothing past their room was written. */
static int filled_with(const struct part *curve)
{
    size_t i;
    if (edges[0] != curve->count || edges[1] != (uint64_t)curve->start) {
        return 0;
    }
    for (i = 0; i < NOSKJERF_PRICES; i++) {
        if (edges[2 + i] != (uint64_t)curve->steps[2 * i] || prices[i] != curve->steps[2 * i + 1]) {
            return 0;
        }
    }
    return edges[NOSKJERF_EDGES] == BEFORE && prices[NOSKJERF_PRICES] == BEFORE;
}

/* Whether the parts are joined to this curve. */
static int joined_to(struct part proxy, struct part above, struct part curve)
{
    return join_answer(&proxy, LENGTH(proxy.steps), &above, LENGTH(above.steps)) == 0 && filled_with(&curve);
}

/* A part of `count` steps from `start` on, each 10 wide and with price 7. */
static struct part flat(int64_t start, size_t count)
{
    struct part part = { 0 };
    size_t i;
    part.start = start;
    part.count = count;
    for (i = 0; i < 12; i++) {
        part.steps[2 * i] = start + 10 * (int64_t)(i + 1);
        part.steps[2 * i + 1] = 7;
    }
    return part;
}

/* A part of one step. */
static struct part single(int64_t start, int64_t end, int64_t price)
{
    struct part part = { 0 };
    part.start = start;
    part.count = 1;
    part.steps[0] = end;
    part.steps[1] = price;
    return part;
}

/* A part of two steps. */
static struct part pair(int64_t start, int64_t end, int64_t price, int64_t next_end, int64_t next_price)
{
    struct part part = single(start, end, price);
    part.count = 2;
    part.steps[2] = next_end;
    part.steps[3] = next_price;
    return part;
}

/* Each price is raised to the largest before it, in the second part; prices that rise by themselves stay. */
static void test_raised(void)
{
    struct part above = pair(10, 20, 3, 30, 7);
    struct part raised = { 0, 3, { 10, 5, 20, 5, 30, 7 } };
    struct part stays = { 0, 3, { 10, 2, 20, 3, 30, 7 } };
    struct part both = { 0, 4, { 4, 5, 10, 6, 20, 6, 30, 7 } };
    struct part all = { 0, 3, { 10, 8, 20, 8, 30, 8 } };
    CHECK(joined_to(single(0, 10, 5), above, raised));
    CHECK(joined_to(single(0, 10, 2), above, stays));
    CHECK(joined_to(pair(0, 4, 5, 10, 6), above, both));
    CHECK(joined_to(single(0, 10, 8), above, all));
}

/* Prices below 0 are raised like others: nothing is raised to 0. */
static void test_negative_prices(void)
{
    CHECK(joined_to(single(0, 10, -3), single(10, 20, -9), pair(0, 10, -3, 20, -3)));
    CHECK(joined_to(single(0, 10, -9), single(10, 20, -3), pair(0, 10, -9, 20, -3)));
}

/* Neighbours of one price stay two steps, and so does a step that is raised to the one before it. */
static void test_nothing_merged(void)
{
    struct part eleven = flat(5, 11);
    CHECK(joined_to(single(0, 10, 3), single(10, 20, 3), pair(0, 10, 3, 20, 3)));
    CHECK(joined_to(flat(5, 6), flat(65, 5), eleven));
    CHECK(joined_to(flat(5, 10), flat(105, 1), eleven));
    CHECK(joined_to(flat(5, 1), flat(15, 10), eleven));
}

/* The curve of Case T's costs above proxy prices up to 100 MW: the first of its steps is raised. */
static void test_default_of_t_joined(void)
{
    struct part of_t = { 10000, 3, { 20000, 378402, 24000, 444403, 30000, 488402 } };
    struct part curve = { 0, 4, { 10000, 400000, 20000, 400000, 24000, 444403, 30000, 488402 } };
    CHECK(joined_to(single(0, 10000, 400000), of_t, curve));
}

/* 1 to 3 are those of a default curve, for either part. */
static void test_parts_checked(void)
{
    static const int64_t top = 1000000000;
    CHECK(joined_to(single(0, 10, -top), single(10, 1000000, top), pair(0, 10, -top, 1000000, top)));
    CHECK(parts_refused(1, flat(0, 0), single(0, 10, 5)));
    CHECK(parts_refused(1, single(0, 10, 5), flat(10, 0)));
    CHECK(parts_refused(1, flat(0, 12), single(120, 130, 7)));
    CHECK(parts_refused(1, single(0, 10, 7), flat(10, 12)));
    CHECK(parts_refused(2, single(-1, 10, 5), single(10, 20, 5)));
    CHECK(parts_refused(2, single(0, 10, 5), single(10, 1000001, 5)));
    CHECK(parts_refused(2, single(10, 10, 5), single(10, 20, 5)));
    CHECK(parts_refused(2, single(0, 10, 5), pair(10, 20, 5, 20, 6)));
    CHECK(parts_refused(2, single(INT64_MIN, INT64_MAX, 5), single(INT64_MAX, INT64_MIN, 5)));
    CHECK(parts_refused(3, single(0, 10, top + 1), single(10, 20, 5)));
    CHECK(parts_refused(3, single(0, 10, 5), single(10, 20, -top - 1)));
    CHECK(parts_refused(3, pair(0, 5, 7, 10, 6), single(10, 20, 9)));
    CHECK(parts_refused(3, single(0, 10, 5), pair(10, 20, 7, 30, 6)));
    CHECK(parts_refused(3, single(0, 10, INT64_MAX), single(10, 20, INT64_MIN)));
}

/* The second part starts where the first one ends, without a gap and without an overlap. */
static void test_parts_meet(void)
{
    CHECK(parts_refused(23, single(0, 10, 5), single(9, 20, 5)));
    CHECK(parts_refused(23, single(0, 10, 5), single(11, 20, 5)));
    CHECK(parts_refused(23, single(10, 20, 5), single(0, 10, 5)));
    CHECK(parts_refused(23, pair(0, 5, 5, 10, 5), single(5, 20, 5)));
    CHECK(parts_refused(23, single(0, 10, 5), single(0, 10, 5)));
}

static void test_steps_together(void)
{
    CHECK(parts_refused(24, flat(0, 6), flat(60, 6)));
    CHECK(parts_refused(24, flat(0, 11), flat(110, 1)));
    CHECK(parts_refused(24, flat(0, 1), flat(10, 11)));
    CHECK(parts_refused(24, flat(0, 11), flat(110, 11)));
}

/* The lowest number wins, over both parts, whichever of them it is of. */
static void test_join_order(void)
{
    struct part falling = pair(0, 5, 9, 10, 8), late = pair(10, 20, 9, 30, 8);
    CHECK(parts_refused(1, falling, flat(10, 0)));
    CHECK(parts_refused(1, flat(0, 0), late));
    CHECK(parts_refused(1, flat(0, 12), single(9, 5, 7)));
    CHECK(parts_refused(2, falling, pair(10, 30, 5, 20, 5)));
    CHECK(parts_refused(2, pair(0, 10, 5, 5, 5), late));
    CHECK(parts_refused(3, falling, single(11, 20, 5)));
    CHECK(parts_refused(3, flat(0, 11), pair(110, 120, 9, 130, 8)));
    CHECK(parts_refused(23, flat(0, 11), single(111, 120, 7)));
    CHECK(parts_refused(23, flat(0, 6), flat(59, 6)));
}

/* Counts may be any number: one over 11 is refused, also where the sum of both would be small again. */
static void test_join_counts(void)
{
    static const size_t counts[] = { 12, 13, 256, 65536, (size_t)UINT32_MAX + 2, SIZE_MAX / 2 + 1, SIZE_MAX - 1, SIZE_MAX };
    size_t i;
    for (i = 0; i < LENGTH(counts); i++) {
        CHECK(parts_refused(1, flat(0, counts[i]), flat(10, 1)));
        CHECK(parts_refused(1, flat(0, 1), flat(10, counts[i])));
        CHECK(parts_refused(1, flat(0, counts[i]), flat(10, counts[i])));
    }
    CHECK(parts_refused(1, flat(0, SIZE_MAX), flat(10, 2)));
}

/* Numbers past the end of a part count as 0; those past its count are not looked at. */
static void test_join_lengths(void)
{
    struct part proxy = { 0, 1, { 10, -5, 1, INT64_MIN } }, above = pair(10, 20, -2, 30, 4);
    struct part whole = { 0, 3, { 10, -5, 20, -2, 30, 4 } }, free_of_price = { 0, 3, { 10, 0, 20, 0, 30, 4 } };
    struct part last_free = { 0, 3, { 10, -5, 20, -2, 30, 0 } };
    CHECK(join_answer(&proxy, 24, &above, 24) == 0 && filled_with(&whole));
    CHECK(join_answer(&proxy, 2, &above, 4) == 0 && filled_with(&whole));
    CHECK(join_answer(&proxy, 1, &above, 4) == 0 && filled_with(&free_of_price));
    CHECK(join_answer(&proxy, 2, &above, 3) == 0 && filled_with(&last_free));
    CHECK(join_answer(&proxy, 0, &above, 4) == 2 && untouched());
    CHECK(join_answer(&proxy, 2, &above, 2) == 2 && untouched());
    CHECK(join_answer(&proxy, 2, &above, 0) == 2 && untouched());
    above.steps[3] = -3;
    CHECK(join_answer(&proxy, 2, &above, 4) == 3 && untouched());
}

/* The answer for a part up to `end` and one step from 10 to 20, with buffers of these lengths. */
static int64_t join_into(int64_t end, size_t edges_len, size_t prices_len)
{
    int64_t proxy[2] = { 0, 5 };
    static const int64_t above[] = { 20, 5 };
    proxy[0] = end;
    fill_buffers();
    return noskjerf_join(0, 1, proxy, LENGTH(proxy), 10, 1, above, LENGTH(above), edges, edges_len, prices, prices_len);
}

/* A buffer that is too small is answered before anything else, and both are left alone; what a longer one has past its room stays. */
static void test_join_buffers(void)
{
    struct part curve = pair(0, 10, 5, 20, 5);
    CHECK(join_into(10, NOSKJERF_EDGES + 1, NOSKJERF_PRICES + 1) == 0 && filled_with(&curve));
    CHECK(join_into(10, NOSKJERF_EDGES - 1, NOSKJERF_PRICES) == -1 && untouched());
    CHECK(join_into(10, NOSKJERF_EDGES, NOSKJERF_PRICES - 1) == -1 && untouched());
    CHECK(join_into(10, 0, 0) == -1 && untouched());
    CHECK(join_into(0, NOSKJERF_EDGES - 1, NOSKJERF_PRICES) == -1 && untouched());
    CHECK(join_into(9, NOSKJERF_EDGES, NOSKJERF_PRICES - 1) == -1 && untouched());
    CHECK(join_into(9, NOSKJERF_EDGES, NOSKJERF_PRICES) == 23 && untouched());
}

/* A pointer with length 0 may be null. */
static void test_join_null(void)
{
    static const int64_t steps[] = { 10, 5 };
    fill_buffers();
    CHECK(noskjerf_join(0, 0, NULL, 0, 0, 0, NULL, 0, edges, NOSKJERF_EDGES, prices, NOSKJERF_PRICES) == 1 && untouched());
    CHECK(noskjerf_join(-1, 1, NULL, 0, 0, 1, steps, 2, edges, NOSKJERF_EDGES, prices, NOSKJERF_PRICES) == 2 && untouched());
    CHECK(noskjerf_join(0, 1, steps, 2, 10, 1, NULL, 0, edges, NOSKJERF_EDGES, prices, NOSKJERF_PRICES) == 2 && untouched());
    CHECK(noskjerf_join(0, 1, steps, 2, 10, 1, steps, 2, NULL, 0, prices, NOSKJERF_PRICES) == -1 && untouched());
    CHECK(noskjerf_join(0, 1, steps, 2, 10, 1, steps, 2, edges, NOSKJERF_EDGES, NULL, 0) == -1 && untouched());
    CHECK(noskjerf_join(0, 1, NULL, 0, 0, 1, NULL, 0, NULL, 0, NULL, 0) == -1);
}

/* ---- classroom bids */

/* The bids that the request's words list, and how many they are. */
static struct part drills[NOSKJERF_CLASSROOM + 1];
static size_t drill_count;

/* Member i of list number `code` of so many numbers 0, 1 and 2, smaller lists first. */
static int64_t member(size_t code, size_t steps, size_t i)
{
    for (; i + 1 < steps; i++) {
        code /= 3;
    }
    return (int64_t)(code % 3);
}

/* Whether each member of that list is above the one before it or, where `equal` is 1, the same. */
static int climbs(size_t code, size_t steps, int equal)
{
    size_t i;
    for (i = 1; i < steps; i++) {
        if (member(code, steps, i) + equal <= member(code, steps, i - 1)) {
            return 0;
        }
    }
    return 1;
}

/* Adds the bid with these ends among 100, 200, 300 and these prices among 0, 10000, 20000, where there is room. */
static void add_drill(size_t steps, size_t ends, size_t of_prices)
{
    size_t i;
    if (drill_count < LENGTH(drills)) {
        drills[drill_count].count = steps;
        for (i = 0; i < steps; i++) {
            drills[drill_count].steps[2 * i] = 100 + 100 * member(ends, steps, i);
            drills[drill_count].steps[2 * i + 1] = 10000 * member(of_prices, steps, i);
        }
    }
    drill_count++;
}

/* By step count, then by the list of ends, then by the list of prices. */
static void list_drills(void)
{
    size_t steps, ends, of_prices, lists = 1;
    for (steps = 1; steps <= 4; steps++) {
        lists *= 3;
        for (ends = 0; ends < lists; ends++) {
            for (of_prices = 0; of_prices < lists; of_prices++) {
                if (climbs(ends, steps, 0) && climbs(of_prices, steps, 1)) {
                    add_drill(steps, ends, of_prices);
                }
            }
        }
    }
}

/* The answer for classroom bid k with buffers of these lengths. */
static int64_t classroom_into(size_t k, size_t edges_len, size_t prices_len)
{
    fill_buffers();
    return noskjerf_classroom(k, edges, edges_len, prices, prices_len);
}

/* Each bid of the list in its place, and none past the last. */
static void test_classroom(void)
{
    size_t k;
    list_drills();
    CHECK(drill_count == NOSKJERF_CLASSROOM);
    for (k = 0; k <= 40; k++) {
        int64_t number = classroom_into(k, NOSKJERF_EDGES, NOSKJERF_PRICES);
        CHECK(k < NOSKJERF_CLASSROOM ? number == 0 && filled_with(&drills[k]) : number == 1 && untouched());
    }
    CHECK(classroom_into(SIZE_MAX, NOSKJERF_EDGES, NOSKJERF_PRICES) == 1 && untouched());
}

/* Each is accepted as a bid in every month. */
static void test_classroom_accepted(void)
{
    static const uint64_t months[] = { 0, 1, 12, 13, 24, 25, 1200, UINT64_MAX };
    size_t k, i, m;
    for (k = 0; k < NOSKJERF_CLASSROOM; k++) {
        int64_t steps[2 * NOSKJERF_PRICES];
        CHECK(classroom_into(k, NOSKJERF_EDGES, NOSKJERF_PRICES) == 0);
        for (i = 0; i < NOSKJERF_PRICES; i++) {
            steps[2 * i] = (int64_t)edges[2 + i];
            steps[2 * i + 1] = prices[i];
        }
        for (m = 0; m < LENGTH(months); m++) {
            CHECK(noskjerf_bid(months[m], (int64_t)edges[1], edges[0], steps, LENGTH(steps)) == 0);
        }
    }
}

/* A buffer that is too small is answered before anything else, and both are left alone; what a longer one has past its room stays. */
static void test_classroom_buffers(void)
{
    struct part curve = pair(0, 100, 0, 200, 0);
    CHECK(classroom_into(9, NOSKJERF_EDGES + 1, NOSKJERF_PRICES + 1) == 0 && filled_with(&curve));
    CHECK(classroom_into(9, NOSKJERF_EDGES - 1, NOSKJERF_PRICES) == -1 && untouched());
    CHECK(classroom_into(9, NOSKJERF_EDGES, NOSKJERF_PRICES - 1) == -1 && untouched());
    CHECK(classroom_into(0, 0, 0) == -1 && untouched());
    CHECK(classroom_into(37, NOSKJERF_EDGES - 1, NOSKJERF_PRICES) == -1 && untouched());
    CHECK(classroom_into(SIZE_MAX, NOSKJERF_EDGES, NOSKJERF_PRICES - 1) == -1 && untouched());
}

/* A pointer with length 0 may be null. */
static void test_classroom_null(void)
{
    fill_buffers();
    CHECK(noskjerf_classroom(0, NULL, 0, prices, NOSKJERF_PRICES) == -1 && untouched());
    CHECK(noskjerf_classroom(0, edges, NOSKJERF_EDGES, NULL, 0) == -1 && untouched());
    CHECK(noskjerf_classroom(37, NULL, 0, NULL, 0) == -1);
}

int main(void)
{
    test_step_count();
    test_edges();
    test_prices();
    test_months();
    test_other_months();
    test_bid_order();
    test_bid_lengths();
    test_curve_of_t();
    test_rounding();
    test_eighty_percent();
    test_falling_heat_rate();
    test_raised_price();
    test_point_count();
    test_eleven_steps();
    test_points();
    test_charges();
    test_incremental_heat_rate();
    test_cost_order();
    test_small_buffers();
    test_short_points();
    test_short_charges();
    test_null();
    test_raised();
    test_negative_prices();
    test_nothing_merged();
    test_default_of_t_joined();
    test_parts_checked();
    test_parts_meet();
    test_steps_together();
    test_join_order();
    test_join_counts();
    test_join_lengths();
    test_join_buffers();
    test_join_null();
    test_classroom();
    test_classroom_accepted();
    test_classroom_buffers();
    test_classroom_null();
    return report("test_judgements");
}
