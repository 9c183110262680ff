/* Tests of an hour in numbers: noskjerf_state_room, _open, _interval, _pass, _why, _curve, _five_minute, _hour_bid and _default_of. */
#include <string.h>

#include "check.h"
#include "noskjerf.h"

#define LENGTH(array) (sizeof(array) / sizeof(array)[0])

/* What a number of a buffer is before a call, one that no answer holds. */
#define BEFORE 77777777

/* Buffers with some numbers more than they have to have; those past their room are never written. */
static int64_t state[NOSKJERF_STATE + 9];
static int64_t verdicts[NOSKJERF_VERDICTS + 9];
static int64_t causes[NOSKJERF_CAUSES + 9];
static uint64_t edges[NOSKJERF_HOUR_EDGES + 9];
static int64_t prices[NOSKJERF_HOUR_PRICES + 9];

static void fill(int64_t *numbers, size_t length, int64_t number)
{
    size_t i;
    for (i = 0; i < length; i++) {
        numbers[i] = number;
    }
}

/* Whether every number from one place on is as it was. */
static int untouched_from(const int64_t *numbers, size_t at, size_t length)
{
    while (at < length && numbers[at] == BEFORE) {
        at++;
    }
    return at == length;
}

/* ---- Case T */

/* A resource of portfolio 0: Case T's bid and costs. */
static const int64_t block_of_t[NOSKJERF_BLOCK] = {
    0, 10000, 2, 15000, 300000, 30000, 900000, [26] = 3, 10000, 10000, 20000, 9000, 30000, 9500, [49] = 40000, 0, 0, 20000, 1000, 3000, 50
};

/* The same bid with a pack that is the default curve of those costs. */
static const int64_t block_of_pack[NOSKJERF_BLOCK] = {
    0, 10000, 2, 15000, 300000, 30000, 900000, [25] = 1, [56] = 10000, 3, 20000, 378402, 24000, 444403, 30000, 488402
};

static const int64_t seller[] = { 1 };

/* Opens an hour of one net seller with one resource. */
static int64_t open_block(const int64_t *block)
{
    return noskjerf_open(25, 1, seller, 1, 1, block, NOSKJERF_BLOCK, state, LENGTH(state));
}

/* The numbers of an interval. */
struct interval {
    size_t constraints, resources;
    int64_t shadow[40], outputs[4 * 70], factors[2048], parameter;
};

/* Case T's interval at another locational price and dispatch: C is 250,000, and the floor price 249,900 below the locational price. */
static struct interval at(int64_t lmp, int64_t dispatch)
{
    static const struct interval none;
    struct interval v = none;
    v.constraints = v.resources = 1;
    v.shadow[0] = 500000;
    v.outputs[0] = lmp;
    v.outputs[1] = dispatch;
    v.outputs[2] = 30000;
    v.factors[0] = -500000;
    v.parameter = 100;
    return v;
}

static struct interval interval_of_t(void)
{
    return at(600000, 20000);
}

/* The three calls with an interval's numbers. */
static int64_t take(const struct interval *v)
{
    fill(verdicts, LENGTH(verdicts), BEFORE);
    return noskjerf_interval(state, LENGTH(state), v->constraints, v->shadow, LENGTH(v->shadow), v->resources, v->outputs, LENGTH(v->outputs),
                             v->factors, LENGTH(v->factors), v->parameter, verdicts, LENGTH(verdicts));
}

static int64_t pass(const struct interval *v)
{
    fill(verdicts, LENGTH(verdicts), BEFORE);
    return noskjerf_pass(state, LENGTH(state), v->constraints, v->shadow, LENGTH(v->shadow), v->resources, v->outputs, LENGTH(v->outputs),
                         v->factors, LENGTH(v->factors), v->parameter, verdicts, LENGTH(verdicts));
}

static int64_t why(const struct interval *v)
{
    fill(causes, LENGTH(causes), BEFORE);
    return noskjerf_why(state, LENGTH(state), v->constraints, v->shadow, LENGTH(v->shadow), v->resources, v->outputs, LENGTH(v->outputs),
                        v->factors, LENGTH(v->factors), v->parameter, causes, LENGTH(causes));
}

/* The same at a locational price, with Case T's dispatch. */
static int64_t take_at(int64_t lmp)
{
    struct interval v = at(lmp, 20000);
    return take(&v);
}

static int64_t pass_at(int64_t lmp)
{
    struct interval v = at(lmp, 20000);
    return pass(&v);
}

/* One of the four calls that give a curve, of the whole buffers. */
typedef int64_t curve_call(const int64_t *, size_t, size_t, uint64_t *, size_t, int64_t *, size_t);

static void fill_curve(void)
{
    size_t i;
    for (i = 0; i < LENGTH(edges); i++) {
        edges[i] = BEFORE;
    }
    fill(prices, LENGTH(prices), BEFORE);
}

static int64_t ask(curve_call *call, size_t r)
{
    fill_curve();
    return call(state, LENGTH(state), r, edges, LENGTH(edges), prices, LENGTH(prices));
}

static int edges_untouched_from(size_t i)
{
    while (i < LENGTH(edges) && edges[i] == BEFORE) {
        i++;
    }
    return i == LENGTH(edges);
}

/* Whether a call gives this curve, given as start, and end and price of each step in turn, and writes no more than its room. */
static int gives(curve_call *call, size_t count, const int64_t *curve)
{
    int of_default = call == noskjerf_default_of;
    size_t i;
    if (ask(call, 0) != 0 || edges[0] != count || edges[1] != (uint64_t)curve[0]) {
        return 0;
    }
    for (i = 0; i < count; i++) {
        if (edges[2 + i] != (uint64_t)curve[1 + 2 * i] || prices[i] != curve[2 + 2 * i]) {
            return 0;
        }
    }
    return edges_untouched_from(of_default ? NOSKJERF_EDGES : NOSKJERF_HOUR_EDGES)
           && untouched_from(prices, of_default ? NOSKJERF_PRICES : NOSKJERF_HOUR_PRICES, LENGTH(prices));
}

static const int64_t bid_of_t[] = { 10000, 15000, 300000, 30000, 900000 };
static const int64_t default_of_t[] = { 10000, 20000, 378402, 24000, 444403, 30000, 488402 };
static const int64_t cut_of_t[] = { 10000, 15000, 300000, 20000, 378402, 24000, 444403, 30000, 488402 };

static void test_room(void)
{
    CHECK(noskjerf_state_room() == NOSKJERF_STATE);
}

static void check_verdict_of_t(void)
{
    size_t i;
    CHECK(verdicts[0] == 1);
    CHECK(verdicts[1] == 10000000000);
    CHECK(verdicts[2] == 0);
    CHECK(verdicts[3] == 1);
    CHECK(verdicts[4] == 15000000000);
    for (i = 5; i < NOSKJERF_VERDICTS; i++) {
        CHECK(verdicts[i] == (i % NOSKJERF_VERDICT == 0 ? 2 : 0));
    }
    CHECK(untouched_from(verdicts, NOSKJERF_VERDICTS, LENGTH(verdicts)));
}

/* Case T, opened with a block; what stood in the state before plays no part. */
static void check_case_t(const int64_t *block, int64_t before)
{
    struct interval v = interval_of_t();
    fill(state, NOSKJERF_STATE, before);
    fill(state + NOSKJERF_STATE, LENGTH(state) - NOSKJERF_STATE, BEFORE);
    CHECK(open_block(block) == 0);
    CHECK(state[0] == 0 && state[129] == 0 && state[258] == 1);
    CHECK(gives(noskjerf_default_of, 3, default_of_t));
    CHECK(gives(noskjerf_curve, 2, bid_of_t));
    CHECK(gives(noskjerf_five_minute, 2, bid_of_t));
    CHECK(ask(noskjerf_hour_bid, 0) == 20 && edges_untouched_from(0) && untouched_from(prices, 0, LENGTH(prices)));
    CHECK(take(&v) == 0);
    check_verdict_of_t();
    CHECK(state[0] == 1 && state[129] == 0);
    CHECK(gives(noskjerf_curve, 4, cut_of_t));
    CHECK(gives(noskjerf_five_minute, 4, cut_of_t));
    CHECK(untouched_from(state, NOSKJERF_STATE, LENGTH(state)));
}

static void test_case_t(void)
{
    check_case_t(block_of_t, 0);
    check_case_t(block_of_t, -1);
    check_case_t(block_of_pack, 0);
    check_case_t(block_of_pack, INT64_MAX);
}

/* ---- passes, and the bid for the hour */

/* The price of the curve's second step. */
static int64_t second(curve_call *call)
{
    return ask(call, 0) == 0 ? prices[1] : -1;
}

static void test_passes(void)
{
    struct interval idle = at(600000, 0);
    open_block(block_of_t);
    CHECK(pass_at(600000) == 19 && untouched_from(verdicts, 0, LENGTH(verdicts)));
    CHECK(take_at(749900) == 0);
    CHECK(second(noskjerf_curve) == 500000 && second(noskjerf_five_minute) == 500000);
    CHECK(pass_at(749800) == 0);
    CHECK(verdicts[0] == 1 && verdicts[4] == 15000000000 && untouched_from(verdicts, NOSKJERF_VERDICTS, LENGTH(verdicts)));
    CHECK(second(noskjerf_curve) == 500000 && second(noskjerf_five_minute) == 499900);
    CHECK(pass_at(749900) == 0);
    CHECK(second(noskjerf_five_minute) == 499900);
    CHECK(pass_at(600000) == 0);
    CHECK(second(noskjerf_curve) == 500000 && second(noskjerf_five_minute) == 378402);
    CHECK(state[0] == 1 && state[129] == 3);
    CHECK(pass_at(600000) == 19);
    CHECK(pass_at(100000001) == 19);
    CHECK(take(&idle) == 0);
    CHECK(state[0] == 2 && state[129] == 0);
    CHECK(second(noskjerf_curve) == 500000 && second(noskjerf_five_minute) == 500000);
    /* a pass starts from the interval's curves: a floor price of 550,100 is above them */
    CHECK(pass_at(800000) == 0);
    CHECK(second(noskjerf_five_minute) == 500000);
}

static void test_hour_bid(void)
{
    static const int64_t lowest[] = { 10000, 15000, 300000, 30000, 499900 };
    static const int64_t lmps[] = { 749900, 749800, 749900, 749900 };
    size_t i;
    open_block(block_of_t);
    for (i = 0; i < LENGTH(lmps); i++) {
        CHECK(ask(noskjerf_hour_bid, 0) == 20);
        CHECK(ask(noskjerf_hour_bid, SIZE_MAX) == 20);
        CHECK(take_at(lmps[i]) == 0);
    }
    CHECK(gives(noskjerf_hour_bid, 2, lowest));
    CHECK(gives(noskjerf_curve, 2, lowest));
    CHECK(take_at(600000) == 12 && untouched_from(verdicts, 0, LENGTH(verdicts)));
    CHECK(take_at(100000001) == 12);
    CHECK(pass_at(600000) == 0);
    CHECK(gives(noskjerf_hour_bid, 2, lowest));
    CHECK(second(noskjerf_five_minute) == 378402);
}

static void test_no_such_resource(void)
{
    static curve_call *const calls[] = { noskjerf_curve, noskjerf_five_minute, noskjerf_hour_bid, noskjerf_default_of };
    static const size_t outside[] = { 1, 63, 64, SIZE_MAX };
    size_t i, k;
    open_block(block_of_t);
    for (i = 0; i < 4; i++) {
        take_at(600000);
    }
    for (i = 0; i < LENGTH(calls); i++) {
        for (k = 0; k < LENGTH(outside); k++) {
            CHECK(ask(calls[i], outside[k]) == 0);
            CHECK(edges[0] == 0 && edges[1] == 0 && edges[2] == 0 && prices[0] == 0);
        }
    }
}

/* ---- sellers */

/* Takes an interval of four resources, of portfolios 12 to 15, that can withhold 5, 4, 3 and 2 at a demand; the first may be a net buyer's. */
static int64_t take_four(int64_t first, int64_t demand)
{
    int64_t sellers[16] = { [12] = first, 1, 1, 1 }, blocks[4 * NOSKJERF_BLOCK];
    struct interval v = at(0, demand < 5 ? demand : 5);
    size_t i;
    v.resources = 4;
    v.outputs[5] = demand - v.outputs[1];
    for (i = 0; i < 4; i++) {
        memcpy(blocks + NOSKJERF_BLOCK * i, block_of_t, sizeof block_of_t);
        blocks[NOSKJERF_BLOCK * i] = 12 + (int64_t)i;
        v.outputs[4 * i + 2] = 5 - (int64_t)i;
        v.factors[32 * i] = -1;
    }
    CHECK(noskjerf_open(25, 16, sellers, 16, 4, blocks, LENGTH(blocks), state, LENGTH(state)) == 0);
    return take(&v);
}

/* Whether the first verdict is this one: number, demand, left, the sellers named, and what portfolios 12 to 15 withhold. */
static int is_verdict(int64_t number, int64_t demand, int64_t left, int64_t named, const int64_t *withheld)
{
    int64_t expected[NOSKJERF_VERDICT] = { number, demand, left, named };
    memcpy(expected + 16, withheld, 4 * sizeof withheld[0]);
    return memcmp(verdicts, expected, sizeof expected) == 0;
}

/* P5 and P6: three of four net sellers withhold, and a net buyer doesn't. */
static void test_sellers(void)
{
    static const int64_t largest[] = { 5, 4, 3, 0 }, without_buyer[] = { 0, 4, 3, 2 };
    CHECK(take_four(1, 2) == 0 && is_verdict(0, 2, 2, 7 << 12, largest));
    CHECK(take_four(1, 3) == 0 && is_verdict(1, 3, 2, 7 << 12, largest));
    CHECK(take_four(0, 5) == 0 && is_verdict(0, 5, 5, 14 << 12, without_buyer));
    CHECK(take_four(0, 6) == 0 && is_verdict(1, 6, 5, 14 << 12, without_buyer));
}

/* How many are named: of three sellers, of one, of a constraint that isn't there, and of garbage. */
static void test_sellers_counted(void)
{
    static const size_t outside[] = { 1, 31, 32, 33, SIZE_MAX / NOSKJERF_VERDICT + 1, SIZE_MAX };
    size_t i;
    CHECK(take_four(1, 3) == 0);
    CHECK(noskjerf_sellers(verdicts, LENGTH(verdicts), 0) == 3);
    for (i = 0; i < LENGTH(outside); i++) {
        CHECK(noskjerf_sellers(verdicts, LENGTH(verdicts), outside[i]) == 0);
    }
    CHECK(noskjerf_sellers(verdicts, NOSKJERF_VERDICTS - 1, 0) == -1);
    CHECK(noskjerf_sellers(NULL, 0, 0) == -1);
    open_block(block_of_t);
    CHECK(take_at(600000) == 0 && noskjerf_sellers(verdicts, LENGTH(verdicts), 0) == 1);
    fill(verdicts, LENGTH(verdicts), -1);
    CHECK(noskjerf_sellers(verdicts, LENGTH(verdicts), 31) == 0);
    fill(verdicts, LENGTH(verdicts), INT64_MAX);
    CHECK(noskjerf_sellers(verdicts, LENGTH(verdicts), 31) == 32);
}

/* ---- refusals of opening */

/* Whether an opening is refused with this number, and the state left as it was. */
static int refused_opening(int64_t number, int64_t month, size_t portfolios, int64_t mark, size_t resources, const int64_t *block)
{
    fill(state, LENGTH(state), BEFORE);
    return noskjerf_open(month, portfolios, &mark, 1, resources, block, NOSKJERF_BLOCK, state, LENGTH(state)) == number
           && untouched_from(state, 0, LENGTH(state));
}

/* The same with one number of a block changed. */
static int refused_block(int64_t number, const int64_t *block, size_t place, int64_t value)
{
    int64_t changed[NOSKJERF_BLOCK];
    memcpy(changed, block, sizeof changed);
    changed[place] = value;
    return refused_opening(number, 25, 1, 1, 1, changed);
}

static void test_refused_bids_and_costs(void)
{
    CHECK(refused_block(1, block_of_t, 2, 0));
    CHECK(refused_block(1, block_of_t, 2, -1));
    CHECK(refused_block(1, block_of_t, 2, 11));
    CHECK(refused_block(1, block_of_t, 2, INT64_MAX));
    CHECK(refused_block(2, block_of_t, 5, 15000));
    CHECK(refused_block(2, block_of_t, 1, -1));
    CHECK(refused_block(3, block_of_t, 6, 299999));
    CHECK(refused_block(3, block_of_t, 6, 10000001));
    CHECK(refused_block(4, block_of_t, 26, 1));
    CHECK(refused_block(4, block_of_t, 26, 12));
    CHECK(refused_block(4, block_of_t, 26, -3));
    CHECK(refused_block(5, block_of_t, 29, 10000));
    CHECK(refused_block(6, block_of_t, 30, 100001));
    CHECK(refused_block(7, block_of_t, 55, -1));
    CHECK(refused_block(8, block_of_t, 29, 29999));
    CHECK(refused_block(11, block_of_t, 1, 9999));
    CHECK(refused_block(11, block_of_t, 5, 30001));
}

static void test_refused_packs(void)
{
    CHECK(refused_block(1, block_of_pack, 57, 0));
    CHECK(refused_block(1, block_of_pack, 57, 12));
    CHECK(refused_block(2, block_of_pack, 56, 20000));
    CHECK(refused_block(2, block_of_pack, 62, 1000001));
    CHECK(refused_block(3, block_of_pack, 63, 1000000001));
    CHECK(refused_block(3, block_of_pack, 63, 444402));
    CHECK(refused_block(11, block_of_pack, 56, 10001));
    CHECK(refused_block(11, block_of_pack, 62, 29999));
    /* any number but 0 is a pack's */
    CHECK(refused_block(1, block_of_t, 25, -1));
    CHECK(refused_block(4, block_of_pack, 25, 0));
}

/* A bid comes before its pack or its costs, and either before 11. */
static void test_order(void)
{
    int64_t block[NOSKJERF_BLOCK];
    memcpy(block, block_of_pack, sizeof block);
    block[57] = 0;
    CHECK(refused_block(2, block, 5, 15000));
    CHECK(refused_block(1, block, 5, 30001));
    memcpy(block, block_of_t, sizeof block);
    block[55] = -1;
    CHECK(refused_block(3, block, 6, 299999));
    CHECK(refused_block(7, block, 5, 30001));
}

/* A pack may have eleven steps, and prices further out than a bid's. */
static void test_full_pack(void)
{
    int64_t block[NOSKJERF_BLOCK], curve[23];
    size_t i;
    memcpy(block, block_of_pack, sizeof block);
    block[56] = curve[0] = 0;
    block[57] = 11;
    for (i = 0; i < 11; i++) {
        block[58 + 2 * i] = curve[1 + 2 * i] = 3000 * (int64_t)(i + 1);
        block[59 + 2 * i] = curve[2 + 2 * i] = -1000000000 + 200000000 * (int64_t)i;
    }
    CHECK(open_block(block) == 0);
    CHECK(gives(noskjerf_default_of, 11, curve));
}

static void test_refused_openings(void)
{
    CHECK(refused_opening(9, 0, 1, 1, 1, block_of_t));
    CHECK(refused_opening(9, 1201, 1, 1, 1, block_of_t));
    CHECK(refused_opening(9, INT64_MIN, 1, 1, 1, block_of_t));
    CHECK(refused_opening(9, 25, 0, 1, 1, block_of_t));
    CHECK(refused_opening(9, 25, 17, 1, 1, block_of_t));
    CHECK(refused_opening(9, 25, SIZE_MAX, 1, 1, block_of_t));
    CHECK(refused_opening(9, 25, 1, 1, 0, block_of_t));
    CHECK(refused_opening(9, 25, 1, 1, 65, block_of_t));
    CHECK(refused_opening(9, 25, 1, 1, SIZE_MAX, block_of_t));
    CHECK(refused_opening(10, 25, 1, 2, 1, block_of_t));
    CHECK(refused_opening(10, 25, 1, -1, 1, block_of_t));
    CHECK(refused_block(10, block_of_t, 0, 1));
    CHECK(refused_block(10, block_of_t, 0, -1));
    /* 9 before 10, 10 before a bid; of a second resource all numbers are 0, so that it has no step */
    CHECK(refused_opening(9, 0, 1, 2, 1, block_of_t));
    CHECK(refused_opening(1, 25, 1, 1, 2, block_of_t));
}

/* The month sets the highest price, and an accepted hour may be opened over another. */
static void test_months(void)
{
    int64_t block[NOSKJERF_BLOCK];
    memcpy(block, block_of_t, sizeof block);
    block[6] = 5000001;
    CHECK(refused_opening(3, 12, 1, 1, 1, block));
    CHECK(noskjerf_open(13, 1, seller, 1, 1, block, NOSKJERF_BLOCK, state, LENGTH(state)) == 0);
    CHECK(take_at(600000) == 0 && pass_at(600000) == 0);
    CHECK(open_block(block_of_t) == 0);
    CHECK(state[0] == 0 && state[129] == 0 && gives(noskjerf_five_minute, 2, bid_of_t));
}

/* ---- refusals of intervals and passes */

/* Whether an interval, a pass and the question why are refused with this number, and state and buffers left as they were. */
static int refused(int64_t number, const struct interval *v)
{
    static int64_t kept[LENGTH(state)];
    memcpy(kept, state, sizeof kept);
    return take(v) == number && untouched_from(verdicts, 0, LENGTH(verdicts)) && pass(v) == number
           && untouched_from(verdicts, 0, LENGTH(verdicts)) && why(v) == number && untouched_from(causes, 0, LENGTH(causes))
           && memcmp(kept, state, sizeof kept) == 0;
}

/* Opens an hour with a cut in its intervals and a further one in its passes. */
static void open_and_cut(void)
{
    fill(state, LENGTH(state), BEFORE);
    open_block(block_of_t);
    take_at(749900);
    pass_at(749800);
}

static void test_refused_counts(void)
{
    struct interval v = interval_of_t();
    open_and_cut();
    v.resources = 2;
    CHECK(refused(13, &v));
    v.resources = 0;
    CHECK(refused(13, &v));
    v.resources = SIZE_MAX;
    v.constraints = 33;
    CHECK(refused(13, &v));
    v.resources = 1;
    CHECK(refused(14, &v));
    v.constraints = SIZE_MAX;
    v.shadow[0] = -1;
    CHECK(refused(14, &v));
}

/* Whether Case T's interval with one number changed is refused. */
static int refused_with(int64_t number, int64_t *place, struct interval *v, int64_t value)
{
    int64_t before = *place;
    int holds;
    *place = value;
    holds = refused(number, v);
    *place = before;
    return holds;
}

static void test_refused_values(void)
{
    struct interval v = interval_of_t();
    open_and_cut();
    CHECK(refused_with(15, &v.shadow[0], &v, -1));
    CHECK(refused_with(15, &v.shadow[0], &v, 100000001));
    CHECK(refused_with(15, &v.outputs[0], &v, -100000001));
    CHECK(refused_with(15, &v.outputs[0], &v, INT64_MAX));
    CHECK(refused_with(15, &v.factors[0], &v, -1000001));
    CHECK(refused_with(15, &v.factors[0], &v, INT64_MIN));
    CHECK(refused_with(15, &v.parameter, &v, 101));
    CHECK(refused_with(15, &v.parameter, &v, -1));
    CHECK(refused_with(16, &v.outputs[1], &v, 30001));
    CHECK(refused_with(16, &v.outputs[1], &v, -1));
    CHECK(refused_with(16, &v.outputs[2], &v, 1000001));
    CHECK(refused_with(16, &v.outputs[2], &v, 19999));
    CHECK(refused_with(16, &v.outputs[3], &v, 30001));
    CHECK(refused_with(16, &v.outputs[3], &v, -1));
    v.outputs[1] = -1;
    CHECK(refused_with(15, &v.parameter, &v, 101));
    v.outputs[1] = 20000;
    CHECK(take(&v) == 0);
}

/* Numbers past the counts are not looked at: a factor of constraint 1, an output of resource 1. */
static void test_numbers_past_the_counts(void)
{
    struct interval v = interval_of_t();
    v.shadow[1] = v.outputs[4] = v.factors[1] = v.factors[32] = INT64_MIN;
    open_block(block_of_t);
    CHECK(take(&v) == 0);
    check_verdict_of_t();
    CHECK(gives(noskjerf_curve, 4, cut_of_t));
}

/* Numbers past the end of an array count as 0. */
static void test_short_arrays(void)
{
    struct interval v = interval_of_t();
    open_block(block_of_t);
    CHECK(noskjerf_interval(state, LENGTH(state), 1, v.shadow, 0, 1, v.outputs, 4, v.factors, 1, 0, verdicts, LENGTH(verdicts)) == 0);
    CHECK(verdicts[0] == 2);
    CHECK(noskjerf_interval(state, LENGTH(state), 1, v.shadow, 1, 1, v.outputs, 4, v.factors, 0, 0, verdicts, LENGTH(verdicts)) == 0);
    CHECK(verdicts[0] == 0 && verdicts[1] == 0 && verdicts[3] == 0);
    CHECK(noskjerf_interval(state, LENGTH(state), 1, v.shadow, 1, 1, v.outputs, 2, v.factors, 1, 0, verdicts, LENGTH(verdicts)) == 16);
    CHECK(noskjerf_open(25, 2, seller, 1, 1, block_of_t, 56, state, LENGTH(state)) == 0);
    CHECK(noskjerf_open(25, 1, seller, 1, 1, block_of_t, 26, state, LENGTH(state)) == 4);
    CHECK(noskjerf_open(25, 1, seller, 1, 1, block_of_t, 0, state, LENGTH(state)) == 1);
}

/* ---- slices that are too short */

static void test_short_slices(void)
{
    struct interval v = interval_of_t();
    static int64_t kept[LENGTH(state)];
    fill(state, LENGTH(state), BEFORE);
    CHECK(noskjerf_open(25, 1, seller, 1, 1, block_of_t, NOSKJERF_BLOCK, state, NOSKJERF_STATE - 1) == -1);
    CHECK(noskjerf_open(0, 1, seller, 1, 1, block_of_t, NOSKJERF_BLOCK, state, 0) == -1);
    CHECK(untouched_from(state, 0, LENGTH(state)));
    CHECK(noskjerf_open(25, 1, seller, 1, 1, block_of_t, NOSKJERF_BLOCK, state, NOSKJERF_STATE) == 0);
    memcpy(kept, state, sizeof kept);
    fill(verdicts, LENGTH(verdicts), BEFORE);
    fill(causes, LENGTH(causes), BEFORE);
    CHECK(noskjerf_interval(state, NOSKJERF_STATE - 1, 1, v.shadow, 1, 1, v.outputs, 4, v.factors, 1, 0, verdicts, NOSKJERF_VERDICTS) == -1);
    CHECK(noskjerf_interval(state, NOSKJERF_STATE, 1, v.shadow, 1, 1, v.outputs, 4, v.factors, 1, 0, verdicts, NOSKJERF_VERDICTS - 1) == -1);
    CHECK(noskjerf_pass(state, NOSKJERF_STATE - 1, 1, v.shadow, 1, 1, v.outputs, 4, v.factors, 1, 0, verdicts, NOSKJERF_VERDICTS) == -1);
    CHECK(noskjerf_pass(state, NOSKJERF_STATE, 1, v.shadow, 1, 1, v.outputs, 4, v.factors, 1, 0, verdicts, 0) == -1);
    CHECK(noskjerf_why(state, NOSKJERF_STATE - 1, 1, v.shadow, 1, 1, v.outputs, 4, v.factors, 1, 0, causes, NOSKJERF_CAUSES) == -1);
    CHECK(noskjerf_why(state, NOSKJERF_STATE, 1, v.shadow, 1, 1, v.outputs, 4, v.factors, 1, 0, causes, NOSKJERF_CAUSES - 1) == -1);
    CHECK(untouched_from(verdicts, 0, LENGTH(verdicts)) && untouched_from(causes, 0, LENGTH(causes)));
    CHECK(memcmp(kept, state, sizeof kept) == 0);
    CHECK(noskjerf_interval(state, NOSKJERF_STATE, 1, v.shadow, 1, 1, v.outputs, 4, v.factors, 1, 0, verdicts, NOSKJERF_VERDICTS) == 0);
    CHECK(noskjerf_why(state, NOSKJERF_STATE, 1, v.shadow, 1, 1, v.outputs, 4, v.factors, 1, 0, causes, NOSKJERF_CAUSES) == 0);
}

/* Whether a curve call answers -1 for these lengths, and leaves the buffers alone. */
static int too_short(curve_call *call, size_t state_len, size_t edges_len, size_t prices_len)
{
    fill_curve();
    return call(state, state_len, 0, edges, edges_len, prices, prices_len) == -1 && edges_untouched_from(0)
           && untouched_from(prices, 0, LENGTH(prices));
}

static void test_short_curves(void)
{
    static curve_call *const calls[] = { noskjerf_curve, noskjerf_five_minute, noskjerf_hour_bid };
    size_t i;
    open_block(block_of_t);
    for (i = 0; i < LENGTH(calls); i++) {
        CHECK(too_short(calls[i], NOSKJERF_STATE - 1, NOSKJERF_HOUR_EDGES, NOSKJERF_HOUR_PRICES));
        CHECK(too_short(calls[i], NOSKJERF_STATE, NOSKJERF_HOUR_EDGES - 1, NOSKJERF_HOUR_PRICES));
        CHECK(too_short(calls[i], NOSKJERF_STATE, NOSKJERF_HOUR_EDGES, NOSKJERF_HOUR_PRICES - 1));
        CHECK(too_short(calls[i], 0, 0, 0));
    }
    CHECK(too_short(noskjerf_default_of, NOSKJERF_STATE - 1, NOSKJERF_EDGES, NOSKJERF_PRICES));
    CHECK(too_short(noskjerf_default_of, NOSKJERF_STATE, NOSKJERF_EDGES - 1, NOSKJERF_PRICES));
    CHECK(too_short(noskjerf_default_of, NOSKJERF_STATE, NOSKJERF_EDGES, NOSKJERF_PRICES - 1));
    CHECK(noskjerf_default_of(state, NOSKJERF_STATE, 0, edges, NOSKJERF_EDGES, prices, NOSKJERF_PRICES) == 0);
    CHECK(noskjerf_curve(state, NOSKJERF_STATE, 0, edges, NOSKJERF_HOUR_EDGES, prices, NOSKJERF_HOUR_PRICES) == 0);
}

/* ---- every content of a state is answered */

/* Asks all of the state that it holds: an interval for as many resources as it has, up to 65. */
static int is_answered(void)
{
    static curve_call *const calls[] = { noskjerf_curve, noskjerf_five_minute, noskjerf_default_of };
    int64_t accepted = state[0] < 0 ? 0 : state[0], passes = state[129] < 0 ? 0 : state[129], resources = state[258] < 0 ? 0 : state[258];
    int64_t number = resources > 64 ? 13 : 0;
    struct interval v = interval_of_t();
    size_t i, r;
    v.resources = resources > 65 ? 65 : (size_t)resources;
    for (i = 0; i < LENGTH(calls); i++) {
        for (r = 0; r < 66; r++) {
            if (ask(calls[i], r) != 0 || edges[0] > (calls[i] == noskjerf_default_of ? 11u : 20u)) {
                return 0;
            }
        }
    }
    return ask(noskjerf_hour_bid, 0) == (accepted < 4 ? 20 : 0) && why(&v) == number
           && pass(&v) == (accepted == 0 || passes >= 3 ? 19 : number) && take(&v) == (accepted >= 4 ? 12 : number);
}

static void test_garbage(void)
{
    static const int64_t numbers[] = { 0, 1, 2, 3, 4, 63, 64, 65, -1, INT64_MIN, INT64_MAX };
    uint64_t mixed = 1;
    size_t i, k;
    for (i = 0; i < LENGTH(numbers); i++) {
        fill(state, LENGTH(state), numbers[i]);
        CHECK(is_answered());
    }
    for (k = 0; k < 500; k++) {
        for (i = 0; i < LENGTH(state); i++) {
            mixed = mixed * 6364136223846793005u + 1442695040888963407u;
            state[i] = k % 2 == 0 ? (int64_t)mixed : (int64_t)(mixed >> 33) % 70 - 3;
        }
        CHECK(is_answered());
    }
}

/* A count past the room of a default curve, as a state that opening never made may have it: the steps that are there are handed out. */
static void test_count_past_room(void)
{
    static const int64_t counts[] = { 12, 1000000, INT64_MAX };
    const size_t cell = 363; /* the default curve's count of resource 0 */
    size_t i;
    open_block(block_of_t);
    CHECK(state[cell] == 3);
    for (i = 0; i < LENGTH(counts); i++) {
        state[cell] = counts[i];
        CHECK(ask(noskjerf_default_of, 0) == 0);
        CHECK(edges[0] == 11 && edges[2] == 20000 && prices[0] == 378402);
    }
}

/* A copy goes its own way, and goes the same way as the hour it is a copy of. */
static void test_copies(void)
{
    static int64_t kept[LENGTH(state)], later[LENGTH(state)];
    open_and_cut();
    memcpy(kept, state, sizeof kept);
    CHECK(take_at(600000) == 0);
    memcpy(later, state, sizeof later);
    memcpy(state, kept, sizeof state);
    CHECK(second(noskjerf_curve) == 500000 && second(noskjerf_five_minute) == 499900);
    CHECK(take_at(600000) == 0);
    CHECK(memcmp(state, later, sizeof later) == 0);
}

/* ---- why */

static int is_cause(int64_t capped, int64_t component, int64_t competitive, int64_t floor)
{
    return causes[0] == capped && causes[1] == component && causes[2] == competitive && causes[3] == floor;
}

static void test_why(void)
{
    struct interval v = interval_of_t();
    static int64_t kept[LENGTH(state)];
    size_t i;
    open_block(block_of_t);
    memcpy(kept, state, sizeof kept);
    CHECK(why(&v) == 0);
    CHECK(is_cause(1, 250000000000, 350000, 350100));
    for (i = 4; i < NOSKJERF_CAUSES; i++) {
        CHECK(causes[i] == 0);
    }
    CHECK(untouched_from(causes, NOSKJERF_CAUSES, LENGTH(causes)));
    /* C of 1: the whole difference is rounded up, so that the floor price is the locational price and the parameter */
    v.shadow[0] = 1;
    v.factors[0] = -1;
    CHECK(why(&v) == 0 && is_cause(1, 1, 600000, 600100));
    /* a factor of the other sign is no counterflow: nobody withholds, and nothing is non-competitive */
    v.factors[0] = 1;
    CHECK(why(&v) == 0 && is_cause(0, 0, 600000, 0));
    /* not dispatched: demand is 0, and the path is competitive */
    v = at(-7, 0);
    CHECK(why(&v) == 0 && is_cause(0, 0, -7, 0));
    CHECK(memcmp(kept, state, sizeof kept) == 0);
}

/* P8 of paper 01: a bid of 300000 below its cap, the default price. A cap applies, and nothing is cut. */
static void test_a_cap_that_changes_nothing(void)
{
    struct interval v = interval_of_t();
    int64_t block[NOSKJERF_BLOCK];
    memcpy(block, block_of_t, sizeof block);
    block[2] = 1;
    block[3] = 30000;
    CHECK(block[4] == 300000);
    open_block(block);
    CHECK(why(&v) == 0 && is_cause(1, 250000000000, 350000, 350100));
    CHECK(take(&v) == 0);
    CHECK(ask(noskjerf_curve, 0) == 0);
    CHECK(edges[0] == 1 && edges[1] == 10000 && edges[2] == 30000 && prices[0] == 300000);
}

/* Three resources of one seller: the one with the positive factor has a component below 0, to the one that is not dispatched no cap applies. */
static void test_why_of_three(void)
{
    int64_t blocks[3 * NOSKJERF_BLOCK];
    struct interval v = interval_of_t();
    size_t i;
    for (i = 0; i < 3; i++) {
        memcpy(blocks + NOSKJERF_BLOCK * i, block_of_t, sizeof block_of_t);
    }
    CHECK(noskjerf_open(25, 1, seller, 1, 3, blocks, LENGTH(blocks), state, LENGTH(state)) == 0);
    v.resources = 3;
    memcpy(v.outputs + 4, v.outputs, 4 * sizeof v.outputs[0]);
    memcpy(v.outputs + 8, v.outputs, 4 * sizeof v.outputs[0]);
    v.outputs[9] = 0;
    v.factors[32] = 500000;
    v.factors[64] = -500000;
    CHECK(why(&v) == 0);
    CHECK(is_cause(1, 250000000000, 350000, 350100));
    CHECK(causes[4] == 0 && causes[5] == -250000000000 && causes[6] == 850000 && causes[7] == 0);
    CHECK(causes[8] == 0 && causes[9] == 250000000000 && causes[10] == 350000 && causes[11] == 0);
    CHECK(take(&v) == 0);
    CHECK(second(noskjerf_curve) == 378402);
    CHECK(ask(noskjerf_curve, 1) == 0 && prices[1] == 900000);
    CHECK(ask(noskjerf_curve, 2) == 0 && prices[1] == 900000);
}

int main(void)
{
    test_room();
    test_case_t();
    test_passes();
    test_hour_bid();
    test_no_such_resource();
    test_sellers();
    test_sellers_counted();
    test_refused_bids_and_costs();
    test_refused_packs();
    test_order();
    test_full_pack();
    test_refused_openings();
    test_months();
    test_refused_counts();
    test_refused_values();
    test_numbers_past_the_counts();
    test_short_arrays();
    test_short_slices();
    test_short_curves();
    test_garbage();
    test_count_past_room();
    test_copies();
    test_why();
    test_a_cap_that_changes_nothing();
    test_why_of_three();
    return report("test_hour");
}
