/* Tests of noskjerf_pivotal. */
#include <string.h>

#include "check.h"
#include "noskjerf.h"

#define LENGTH(array) (sizeof(array) / sizeof(array)[0])

/* What a number of a buffer is before a call, one that no answer holds. */
#define BEFORE 77777777

/* More than any sets there are. */
#define ENOUGH UINT64_MAX

/* Buffers with some numbers more than they have to have; those past their room are never written. */
static int64_t state[NOSKJERF_STATE + 9];
static int64_t kept[NOSKJERF_STATE + 9];
static uint64_t found[NOSKJERF_FOUND + 9];

/* The numbers of an interval. */
struct interval {
    size_t constraints, resources;
    int64_t shadow[40], outputs[4 * 70], factors[2048], parameter;
};

/* ---- hours and intervals */

/* Opens an hour in which each of the portfolios, net sellers where their mark is 1, has a resource with Case T's bid and costs. */
static int64_t open_hour(size_t portfolios, const int64_t *sellers)
{
    static const int64_t block_of_t[NOSKJERF_BLOCK] = {
        0, 10000, 2, 15000, 300000, 30000, 900000, [26] = 3, 10000, 10000, 20000, 9000, 30000, 9500, [49] = 40000, 0, 0, 20000, 1000, 3000, 50
    };
    int64_t blocks[16 * NOSKJERF_BLOCK];
    size_t i;
    for (i = 0; i < portfolios; i++) {
        memcpy(blocks + NOSKJERF_BLOCK * i, block_of_t, sizeof block_of_t);
        blocks[NOSKJERF_BLOCK * i] = (int64_t)i;
    }
    for (i = 0; i < LENGTH(state); i++) {
        state[i] = BEFORE;
    }
    return noskjerf_open(25, portfolios, sellers, portfolios, portfolios, blocks, LENGTH(blocks), state, LENGTH(state));
}

/* An interval of resources without output; no constraint has a factor. */
static struct interval idle(size_t constraints, size_t resources)
{
    static const struct interval none;
    struct interval v = none;
    size_t c;
    v.constraints = constraints;
    v.resources = resources;
    for (c = 0; c < constraints; c++) {
        v.shadow[c] = 1;
    }
    return v;
}

/* Gives a resource dispatch and available, and effectiveness 1 on a constraint. */
static void relieve(struct interval *v, size_t resource, size_t constraint, int64_t dispatch, int64_t available)
{
    v->outputs[4 * resource + 1] = dispatch;
    v->outputs[4 * resource + 2] = available;
    v->factors[32 * resource + constraint] = -1;
}

/* P5's interval: 5, 4, 3 and 2 of supply, and what the first two have dispatched of it. */
static struct interval four(int64_t first, int64_t second)
{
    struct interval v = idle(1, 4);
    relieve(&v, 0, 0, first, 5);
    relieve(&v, 1, 0, second, 4);
    relieve(&v, 2, 0, 0, 3);
    relieve(&v, 3, 0, 0, 2);
    return v;
}

/* Two constraints that a resource each relieves, and a third resource that relieves neither. */
static struct interval two_paths(void)
{
    struct interval v = idle(2, 3);
    relieve(&v, 0, 0, 1, 1);
    relieve(&v, 1, 1, 1, 1);
    v.outputs[10] = 1;
    return v;
}

/* ---- the call */

static int64_t ask(const struct interval *v, uint64_t budget)
{
    size_t i;
    for (i = 0; i < LENGTH(found); i++) {
        found[i] = BEFORE;
    }
    memcpy(kept, state, sizeof kept);
    return noskjerf_pivotal(state, LENGTH(state), v->constraints, v->shadow, LENGTH(v->shadow), v->resources, v->outputs, LENGTH(v->outputs),
                            v->factors, LENGTH(v->factors), v->parameter, budget, found, LENGTH(found));
}

/* Whether the numbers from one place on, and the state, are as they were. */
static int untouched_from(size_t at)
{
    while (at < LENGTH(found) && found[at] == BEFORE) {
        at++;
    }
    return at == LENGTH(found) && memcmp(kept, state, sizeof kept) == 0;
}

/* Whether the call finds this set, after so many sets, and this floor. */
static int finds(uint64_t set, uint64_t tried, uint64_t floor, const struct interval *v, uint64_t budget)
{
    return ask(v, budget) == 0 && found[0] == set && found[1] == tried && found[2] == floor && untouched_from(NOSKJERF_FOUND);
}

/* Whether the call is refused with this number, whatever the budget. */
static int refused(int64_t number, const struct interval *v)
{
    return ask(v, 0) == number && untouched_from(0) && ask(v, 1) == number && untouched_from(0) && ask(v, ENOUGH) == number
           && untouched_from(0);
}

/* ---- sets of sellers */

/* Demand 3 of a supply of 14: more than 11 have to go, which is 5, 4 and 3. With demand 2 all have to. */
static void test_four_sellers(void)
{
    static const int64_t sellers[] = { 1, 1, 1, 1 };
    struct interval three = four(3, 0), all = four(2, 0);
    CHECK(open_hour(4, sellers) == 0);
    CHECK(finds(7, 15, 3, &three, ENOUGH));
    CHECK(finds(15, 15, 4, &all, ENOUGH));
}

/* Sets are tried in rising order, and 7 is the seventh; the whole set is the best before that. */
static void test_budget(void)
{
    static const int64_t sellers[] = { 1, 1, 1, 1 };
    struct interval v = four(3, 0);
    CHECK(open_hour(4, sellers) == 0);
    CHECK(finds(15, 0, 3, &v, 0));
    CHECK(finds(15, 1, 3, &v, 1));
    CHECK(finds(15, 6, 3, &v, 6));
    CHECK(finds(7, 7, 3, &v, 7));
    CHECK(finds(7, 14, 3, &v, 14));
    CHECK(finds(7, 15, 3, &v, 15));
    CHECK(finds(7, 15, 3, &v, 16));
    CHECK(finds(7, 15, 3, &v, (uint64_t)INT64_MAX + 1));
}

/* P6's: without the 5, a net buyer's, the others' 9 leave 5, which isn't below a demand of 5; below one of 6 it is. */
static void test_a_buyer(void)
{
    static const int64_t sellers[] = { 0, 1, 1, 1 }, buyers[] = { 0, 0, 0, 0 };
    struct interval equal = four(5, 0), above = four(5, 1);
    CHECK(open_hour(4, sellers) == 0);
    CHECK(finds(0, 0, 0, &equal, ENOUGH));
    CHECK(finds(0, 0, 0, &equal, 0));
    CHECK(finds(14, 7, 3, &above, ENOUGH));
    /* only sets of net sellers count as tried: 2, 4, 6, 8, 10, 12, 14 */
    CHECK(finds(14, 6, 3, &above, 6));
    CHECK(open_hour(4, buyers) == 0);
    CHECK(finds(0, 0, 0, &above, ENOUGH));
}

/* Each of two constraints needs a seller, and each another one: the floor isn't met. One that doesn't bind needs nobody. */
static void test_two_paths(void)
{
    static const int64_t sellers[] = { 1, 1, 1 };
    struct interval v = two_paths();
    CHECK(open_hour(3, sellers) == 0);
    CHECK(finds(3, 7, 1, &v, ENOUGH));
    CHECK(finds(7, 2, 1, &v, 2));
    CHECK(finds(3, 3, 1, &v, 3));
    v.shadow[0] = 0;
    CHECK(finds(2, 7, 1, &v, ENOUGH));
    CHECK(finds(7, 1, 1, &v, 1));
    v.shadow[0] = 1;
    v.shadow[1] = 0;
    CHECK(finds(1, 7, 1, &v, ENOUGH));
}

/* Of two sets of one size the lower stays; floor output isn't withheld. */
static void test_ties_and_floors(void)
{
    static const int64_t sellers[] = { 1, 1 };
    struct interval v = idle(1, 2);
    CHECK(open_hour(2, sellers) == 0);
    relieve(&v, 0, 0, 5, 5);
    relieve(&v, 1, 0, 1, 5);
    /* 10 less 5 is below 6 */
    CHECK(finds(1, 3, 1, &v, ENOUGH));
    /* the first withholds 2 of its 5, and leaves 8 */
    v.outputs[3] = 3;
    CHECK(finds(2, 3, 1, &v, ENOUGH));
    /* demand 4: both leave 3, and one alone 5 or 8 */
    v.outputs[1] = 3;
    CHECK(finds(3, 3, 2, &v, ENOUGH));
    /* demand 3: 3 isn't below it */
    v.outputs[1] = 2;
    CHECK(finds(0, 0, 0, &v, ENOUGH));
}

/* Sixteen sellers of 1 each: all have to withhold at demand 1, all but one at demand 2. Sellers that bring nothing are members too. */
static void test_sixteen_sellers(void)
{
    int64_t sellers[16];
    struct interval v = idle(1, 16);
    size_t i;
    for (i = 0; i < 16; i++) {
        sellers[i] = 1;
        relieve(&v, i, 0, 0, 1);
    }
    CHECK(open_hour(16, sellers) == 0);
    v.outputs[1] = 1;
    CHECK(finds(65535, 65535, 16, &v, ENOUGH));
    CHECK(finds(65535, 65534, 16, &v, 65534));
    v.outputs[5] = 1;
    CHECK(finds(32767, 65535, 15, &v, 65536));
    CHECK(finds(65535, 32766, 15, &v, 32766));
    CHECK(finds(32767, 32767, 15, &v, 32767));
    v = idle(32, 16);
    for (i = 0; i < 32; i++) {
        relieve(&v, 15, i, 1, 1);
    }
    CHECK(finds(32768, 65535, 1, &v, ENOUGH));
    CHECK(finds(65535, 32767, 1, &v, 32767));
    CHECK(finds(32768, 32768, 1, &v, 32768));
}

/* ---- refusals */

static void test_refused(void)
{
    static const int64_t sellers[] = { 1, 1, 1, 1 };
    struct interval v = four(3, 0);
    CHECK(open_hour(4, sellers) == 0);
    v.shadow[0] = 0;
    CHECK(refused(26, &v));
    v.constraints = 0;
    CHECK(refused(26, &v));
    v.constraints = 32;
    CHECK(refused(26, &v));
    /* 13 to 16 come first, also where nothing binds */
    v.outputs[1] = 6;
    CHECK(refused(16, &v));
    v.parameter = 101;
    CHECK(refused(15, &v));
    v.constraints = 33;
    CHECK(refused(14, &v));
    v.resources = 3;
    CHECK(refused(13, &v));
    v.constraints = 0;
    CHECK(refused(13, &v));
    v.resources = SIZE_MAX;
    CHECK(refused(13, &v));
}

/* Each value at its limit and past it. */
static void test_limits(void)
{
    static const int64_t sellers[] = { 1, 1, 1, 1 };
    static const struct { size_t output; int64_t top, bottom, number; } outputs[] = {
        { 0, 100000000, -100000000, 15 }, { 1, 5, 0, 16 }, { 2, 1000000, 3, 16 }, { 3, 5, 0, 16 }
    };
    size_t i;
    CHECK(open_hour(4, sellers) == 0);
    for (i = 0; i < LENGTH(outputs); i++) {
        struct interval v = four(3, 0);
        int64_t *place = v.outputs + outputs[i].output;
        *place = outputs[i].top;
        CHECK(ask(&v, ENOUGH) == 0);
        *place = outputs[i].top + 1;
        CHECK(refused(outputs[i].number, &v));
        *place = outputs[i].bottom;
        CHECK(ask(&v, ENOUGH) == 0);
        *place = outputs[i].bottom - 1;
        CHECK(refused(outputs[i].number, &v));
        *place = INT64_MIN;
        CHECK(refused(outputs[i].number, &v));
    }
}

static void test_prices(void)
{
    static const int64_t sellers[] = { 1, 1, 1, 1 };
    struct interval v = four(3, 0);
    CHECK(open_hour(4, sellers) == 0);
    v.shadow[0] = 100000000;
    v.parameter = 100;
    CHECK(finds(7, 15, 3, &v, ENOUGH));
    v.shadow[0]++;
    CHECK(refused(15, &v));
    v.shadow[0] = -1;
    CHECK(refused(15, &v));
    v.shadow[0] = 1;
    v.parameter = -1;
    CHECK(refused(15, &v));
    v.parameter = 0;
    v.factors[0] = -1000001;
    CHECK(refused(15, &v));
    v.factors[0] = 1000001;
    CHECK(refused(15, &v));
    /* the 5 loads the constraint now: without demand nothing is ever short, since what is left isn't below 0 */
    v.factors[0] = 1000000;
    CHECK(finds(0, 0, 0, &v, ENOUGH));
}

/* Whose turn it is plays no part: 12 is never answered. */
static void test_a_full_hour(void)
{
    static const int64_t sellers[] = { 1, 1, 1, 1 };
    static int64_t verdicts[NOSKJERF_VERDICTS];
    struct interval v = four(3, 0);
    int64_t number;
    CHECK(open_hour(4, sellers) == 0);
    do {
        CHECK(finds(7, 15, 3, &v, ENOUGH));
        number = noskjerf_interval(state, LENGTH(state), v.constraints, v.shadow, LENGTH(v.shadow), v.resources, v.outputs, LENGTH(v.outputs),
                                   v.factors, LENGTH(v.factors), v.parameter, verdicts, LENGTH(verdicts));
    } while (number == 0);
    CHECK(number == 12 && state[0] == 4);
    v.shadow[0] = 0;
    CHECK(refused(26, &v));
    v.resources = 5;
    CHECK(refused(13, &v));
}

/* ---- slices */

/* The answer on slices of these lengths. */
static int64_t on(size_t state_len, const int64_t *shadow, size_t shadow_len, size_t outputs_len, size_t factors_len, size_t found_len)
{
    struct interval v = two_paths();
    size_t i;
    for (i = 0; i < LENGTH(found); i++) {
        found[i] = BEFORE;
    }
    memcpy(kept, state, sizeof kept);
    return noskjerf_pivotal(state, state_len, 2, shadow, shadow_len, 3, v.outputs, outputs_len, v.factors, factors_len, 0, ENOUGH, found,
                            found_len);
}

/* A state or a buffer that is too short is answered before any refusal. */
static void test_short_slices(void)
{
    static const int64_t sellers[] = { 1, 1, 1 }, binding[] = { 1, 1 }, negative[] = { -1, -1 };
    CHECK(open_hour(3, sellers) == 0);
    CHECK(on(NOSKJERF_STATE - 1, binding, 2, 12, 34, NOSKJERF_FOUND) == -1 && untouched_from(0));
    CHECK(on(0, negative, 2, 0, 0, NOSKJERF_FOUND) == -1 && untouched_from(0));
    CHECK(on(NOSKJERF_STATE, binding, 2, 12, 34, NOSKJERF_FOUND - 1) == -1 && untouched_from(0));
    CHECK(on(NOSKJERF_STATE, negative, 2, 12, 34, 0) == -1 && untouched_from(0));
    CHECK(on(NOSKJERF_STATE, negative, 2, 12, 34, NOSKJERF_FOUND) == 15 && untouched_from(0));
    CHECK(on(NOSKJERF_STATE, binding, 2, 12, 34, NOSKJERF_FOUND) == 0);
    CHECK(found[0] == 3 && found[1] == 7 && found[2] == 1 && untouched_from(NOSKJERF_FOUND));
}

/* Numbers past the end of an array count as 0: a constraint that doesn't bind, available below dispatch, no factor. */
static void test_short_arrays(void)
{
    static const int64_t sellers[] = { 1, 1, 1 }, binding[] = { 1, 1 };
    CHECK(open_hour(3, sellers) == 0);
    CHECK(on(NOSKJERF_STATE, binding, 1, 12, 34, NOSKJERF_FOUND) == 0 && found[0] == 1 && found[1] == 7 && found[2] == 1);
    CHECK(on(NOSKJERF_STATE, binding, 0, 12, 34, NOSKJERF_FOUND) == 26 && untouched_from(0));
    CHECK(on(NOSKJERF_STATE, binding, 2, 6, 34, NOSKJERF_FOUND) == 16 && untouched_from(0));
    CHECK(on(NOSKJERF_STATE, binding, 2, 12, 33, NOSKJERF_FOUND) == 0 && found[0] == 0 && found[1] == 0 && found[2] == 0);
    CHECK(on(NOSKJERF_STATE, binding, 2, 12, 0, NOSKJERF_FOUND) == 0 && found[0] == 0 && found[1] == 0 && found[2] == 0);
}

/* Numbers past the counts are not looked at. */
static void test_numbers_past_the_counts(void)
{
    static const int64_t sellers[] = { 1, 1, 1, 1 };
    struct interval v = four(3, 0);
    v.shadow[1] = v.outputs[16] = v.factors[1] = v.factors[32 + 31] = v.factors[128] = INT64_MIN;
    CHECK(open_hour(4, sellers) == 0);
    CHECK(finds(7, 15, 3, &v, ENOUGH));
}

/* A pointer with length 0 may be null. */
static void test_null(void)
{
    static const int64_t sellers[] = { 1, 1, 1 };
    int64_t empty[NOSKJERF_STATE] = { 0 };
    CHECK(noskjerf_pivotal(NULL, 0, 0, NULL, 0, 0, NULL, 0, NULL, 0, 0, 0, NULL, 0) == -1);
    CHECK(noskjerf_pivotal(empty, NOSKJERF_STATE, 0, NULL, 0, 0, NULL, 0, NULL, 0, 0, ENOUGH, NULL, 0) == -1);
    CHECK(noskjerf_pivotal(empty, NOSKJERF_STATE, 0, NULL, 0, 0, NULL, 0, NULL, 0, 0, ENOUGH, found, NOSKJERF_FOUND) == 26);
    CHECK(open_hour(3, sellers) == 0);
    CHECK(on(NOSKJERF_STATE, NULL, 0, 12, 34, NOSKJERF_FOUND) == 26 && untouched_from(0));
}

/* ---- every content of a state is answered */

static uint64_t ones(uint64_t set)
{
    uint64_t count = 0;
    for (; set != 0; set &= set - 1) {
        count++;
    }
    return count;
}

/* The portfolios whose mark in the state is 1. */
static uint64_t marked(void)
{
    uint64_t set = 0;
    size_t p;
    for (p = 0; p < 16; p++) {
        set |= (uint64_t)(state[323 + p] == 1) << p;
    }
    return set;
}

/* Asks with a budget for as many resources as the state has: what is found is of its net sellers, within the budget and not below the floor. */
static int is_answered(uint64_t budget)
{
    int64_t resources = state[258] < 0 ? 0 : state[258];
    uint64_t sets = ((uint64_t)1 << ones(marked())) - 1;
    struct interval v = idle(3, resources > 65 ? 65 : (size_t)resources);
    size_t r;
    for (r = 0; r < 64; r++) {
        relieve(&v, r, r % 3, 900 + (int64_t)r, 1000);
    }
    if (resources > 64) {
        return refused(13, &v);
    }
    if (ask(&v, budget) != 0 || !untouched_from(NOSKJERF_FOUND)) {
        return 0;
    }
    if (found[0] == 0) {
        return found[1] == 0 && found[2] == 0;
    }
    return (found[0] & ~marked()) == 0 && found[1] == (budget < sets ? budget : sets) && found[2] > 0 && found[2] <= ones(found[0]);
}

static void test_garbage(void)
{
    static const int64_t numbers[] = { 0, 1, 2, 15, 16, 63, 64, 65, -1, INT64_MIN, INT64_MAX };
    uint64_t mixed = 1, some = 0;
    size_t i, k;
    for (i = 0; i < LENGTH(numbers); i++) {
        for (k = 0; k < LENGTH(state); k++) {
            state[k] = numbers[i];
        }
        CHECK(is_answered(0) && is_answered(7) && is_answered(ENOUGH));
    }
    for (k = 0; k < 500; k++) {
        for (i = 0; i < LENGTH(state); i++) {
            mixed = mixed * 6364136223846793005u + 1442695040888963407u;
            state[i] = k % 5 == 0 ? (int64_t)mixed : (int64_t)(mixed >> 33) % (i < 323 ? 20 : 3) - 1;
        }
        CHECK(is_answered(mixed >> 50));
        some += found[0] != 0 && found[0] != BEFORE;
    }
    CHECK(some > 20);
}

int main(void)
{
    test_four_sellers();
    test_budget();
    test_a_buyer();
    test_two_paths();
    test_ties_and_floors();
    test_sixteen_sellers();
    test_refused();
    test_limits();
    test_prices();
    test_a_full_hour();
    test_short_slices();
    test_short_arrays();
    test_numbers_past_the_counts();
    test_null();
    test_garbage();
    return report("test_together");
}
