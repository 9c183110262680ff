/* Tests of noskjerf_hydro: the cases of request 2.8, worked by hand. */
#include <string.h>

#include "check.h"
#include "noskjerf_hydro.h"

#define LENGTH(array) (sizeof(array) / sizeof(array)[0])
#define TABLE (NOSKJERF_HYDRO_HUBS * NOSKJERF_HYDRO_PRICES)

/* Places of some of a hub's prices. */
enum { PEAK = 0, NEXT_MONTH = 2, MONTH_2 = 3 };

static const int64_t FAR[] = { INT64_MIN, INT64_MIN + 1, -1, 100000001, INT64_MAX - 1, INT64_MAX };

/* What a call is asked. */
struct asked {
    int64_t low, high, heat, gas;
    size_t hubs, horizon;
    int64_t table[TABLE];
};

/* The first worked case: one hub, a horizon of one month. */
static struct asked worked(void)
{
    struct asked asked = { 10000, 30000, 10000, 40000, 1, 1, { 500000, 400000, 300000, 0, 900000 } };
    return asked;
}

/* All within the limits, and every amount the least that it can be. */
static struct asked least(void)
{
    struct asked asked = { 0, 1, 1, 0, 1, 1, { 0 } };
    return asked;
}

static int64_t *price_of(struct asked *asked, size_t hub, size_t j)
{
    return &asked->table[NOSKJERF_HYDRO_PRICES * hub + j];
}

/* ---- calls, with buffers that have more room than is written */

#define ROOM (NOSKJERF_EDGES + 3)

struct answer {
    int64_t number;
    uint64_t edges[ROOM];
    int64_t prices[ROOM];
};

static struct answer blank(void)
{
    struct answer answer;
    memset(&answer, 0x5a, sizeof answer);
    answer.number = 0;
    return answer;
}

static struct answer call_with(const struct asked *asked, const int64_t *table, size_t length, size_t edges, size_t prices)
{
    struct answer answer = blank();
    answer.number = noskjerf_hydro(asked->low, asked->high, asked->heat, asked->gas, asked->hubs, asked->horizon, table, length, answer.edges,
                                   edges, answer.prices, prices);
    return answer;
}

static struct answer call(const struct asked *asked)
{
    return call_with(asked, asked->table, TABLE, ROOM, ROOM);
}

/* Whether the buffers are as they were. */
static int untouched(const struct answer *answer)
{
    struct answer before = blank();
    return memcmp(answer->edges, before.edges, sizeof before.edges) == 0 && memcmp(answer->prices, before.prices, sizeof before.prices) == 0;
}

/* Whether the buffers hold one step, 0 past it, and what they held past their room. */
static int is_step(const struct answer *answer, int64_t low, int64_t high, int64_t price)
{
    struct answer due = blank();
    memset(due.edges, 0, NOSKJERF_EDGES * sizeof due.edges[0]);
    memset(due.prices, 0, NOSKJERF_PRICES * sizeof due.prices[0]);
    due.edges[0] = 1;
    due.edges[1] = (uint64_t)low;
    due.edges[2] = (uint64_t)high;
    due.prices[0] = price;
    return memcmp(answer->edges, due.edges, sizeof due.edges) == 0 && memcmp(answer->prices, due.prices, sizeof due.prices) == 0;
}

/* The price, or minus the refusal, with the buffers looked at either way. */
static int64_t priced(struct asked asked)
{
    struct answer answer = call(&asked);
    if (answer.number != 0) {
        CHECK(untouched(&answer));
        return -answer.number;
    }
    CHECK(is_step(&answer, asked.low, asked.high, answer.prices[0]));
    return answer.prices[0];
}

/* ---- the price */

/* 440,000, 700,000 and 550,000; from the third month on 990,000 for the last. */
static void test_worked(void)
{
    struct asked asked = worked();
    CHECK(priced(asked) == 700000);
    asked.horizon = 2;
    CHECK(priced(asked) == 700000);
    asked.horizon = 3;
    CHECK(priced(asked) == 990000);
    asked.horizon = 12;
    CHECK(priced(asked) == 990000);
}

/* The second hub counts for the last amount alone, and only where there are two. */
static void test_hubs(void)
{
    struct asked asked = worked();
    *price_of(&asked, 1, PEAK) = 1000000;
    CHECK(priced(asked) == 700000);
    asked.hubs = 2;
    CHECK(priced(asked) == 1100000);
    *price_of(&asked, 1, PEAK) = 600000;
    CHECK(priced(asked) == 700000);
    asked.hubs = 3;
    *price_of(&asked, 3, PEAK) = 1000000;
    CHECK(priced(asked) == 700000);
    asked.hubs = 4;
    CHECK(priced(asked) == 1100000);
}

/* The gas price alone: 11 * heat * gas / 10,000, rounded once. */
static void test_gas(void)
{
    struct asked asked = least();
    CHECK(priced(asked) == 0);
    asked.gas = 1;
    CHECK(priced(asked) == 1);
    asked.heat = 909;
    CHECK(priced(asked) == 1);
    asked.heat = 910;
    CHECK(priced(asked) == 2);
    asked.heat = 10000;
    asked.gas = 40000;
    CHECK(priced(asked) == 440000);
    asked.heat = 100000;
    asked.gas = 1000000;
    CHECK(priced(asked) == 110000000);
}

/* One price alone, at each place of each hub: 14/10 of it at the first three places of the first hub, else 11/10, each up. */
static void test_one_price(void)
{
    size_t hub, j;
    for (hub = 0; hub < NOSKJERF_HYDRO_HUBS; hub++) {
        for (j = 0; j < NOSKJERF_HYDRO_PRICES; j++) {
            struct asked asked = least();
            int near = hub == 0 && j <= NEXT_MONTH;
            asked.hubs = NOSKJERF_HYDRO_HUBS;
            asked.horizon = NOSKJERF_HYDRO_MONTHS;
            *price_of(&asked, hub, j) = 1;
            CHECK(priced(asked) == 2);
            *price_of(&asked, hub, j) = 5;
            CHECK(priced(asked) == (near ? 7 : 6));
            *price_of(&asked, hub, j) = 10;
            CHECK(priced(asked) == (near ? 14 : 11));
            *price_of(&asked, hub, j) = 100000000;
            CHECK(priced(asked) == (near ? 140000000 : 110000000));
        }
    }
}

/* Month k is read from a horizon of k months on, and hub i from i + 1 hubs on. */
static void test_what_is_read(void)
{
    size_t hub, j, hubs, horizon;
    for (hub = 0; hub < NOSKJERF_HYDRO_HUBS; hub++) {
        for (j = 0; j < NOSKJERF_HYDRO_PRICES; j++) {
            for (hubs = 1; hubs <= NOSKJERF_HYDRO_HUBS; hubs++) {
                for (horizon = 1; horizon <= NOSKJERF_HYDRO_MONTHS; horizon++) {
                    struct asked asked = least();
                    int is_read = hub < hubs && j <= horizon + 1;
                    size_t i;
                    asked.hubs = hubs;
                    asked.horizon = horizon;
                    *price_of(&asked, hub, j) = 10;
                    CHECK(priced(asked) == (is_read ? (hub == 0 && j <= NEXT_MONTH ? 14 : 11) : 0));
                    for (i = 0; i < LENGTH(FAR); i++) {
                        *price_of(&asked, hub, j) = FAR[i];
                        CHECK(priced(asked) == (is_read ? -22 : 0));
                    }
                }
            }
        }
    }
}

/* Month 2 below 0: taken with a horizon of one month, refused with two. */
static void test_unread_month(void)
{
    struct asked asked = worked();
    *price_of(&asked, 0, MONTH_2) = -1;
    CHECK(priced(asked) == 700000);
    asked.horizon = 2;
    CHECK(priced(asked) == -22);
}

/* ---- 22, each cause alone */

static void test_heat_and_gas(void)
{
    static const int64_t heats[] = { INT64_MIN, -1, 0, 100001, INT64_MAX };
    static const int64_t gases[] = { INT64_MIN, -1, 1000001, INT64_MAX };
    struct asked asked;
    size_t i;
    for (i = 0; i < LENGTH(heats); i++) {
        asked = worked();
        asked.heat = heats[i];
        CHECK(priced(asked) == -22);
    }
    for (i = 0; i < LENGTH(gases); i++) {
        asked = worked();
        asked.gas = gases[i];
        CHECK(priced(asked) == -22);
    }
}

/* Counts of any size; no price of the table is wrong. */
static void test_counts(void)
{
    static const size_t others[] = { 0, 13, 14, 56, 255, 256, 257, 260, 65537, 4294967297u, SIZE_MAX / 14 + 2, SIZE_MAX - 1, SIZE_MAX };
    struct asked asked;
    size_t i;
    for (i = 0; i < LENGTH(others); i++) {
        asked = worked();
        asked.hubs = others[i];
        CHECK(priced(asked) == -22);
        asked = worked();
        asked.horizon = others[i];
        CHECK(priced(asked) == -22);
        asked.hubs = others[i];
        CHECK(priced(asked) == -22);
    }
    asked = worked();
    asked.hubs = NOSKJERF_HYDRO_HUBS + 1;
    CHECK(priced(asked) == -22);
}

/* ---- 2, and what comes first */

static void test_quantities(void)
{
    static const int64_t bad[][2] = {
        { 10000, 10000 }, { 10000, 9999 }, { -1, 30000 }, { 0, 1000001 }, { 0, 0 }, { 1000000, 1000000 }, { -2, -1 }, { 1000001, 1000002 },
        { INT64_MIN, INT64_MAX }, { INT64_MAX, INT64_MIN }, { INT64_MIN, 0 }, { 0, INT64_MAX }, { 0, 4294967297 }
    };
    static const int64_t good[][2] = { { 0, 1 }, { 0, 1000000 }, { 999999, 1000000 } };
    struct asked asked;
    size_t i;
    for (i = 0; i < LENGTH(bad); i++) {
        asked = worked();
        asked.low = bad[i][0];
        asked.high = bad[i][1];
        CHECK(priced(asked) == -2);
        asked.heat = 0;
        CHECK(priced(asked) == -22);
    }
    for (i = 0; i < LENGTH(good); i++) {
        asked = worked();
        asked.low = good[i][0];
        asked.high = good[i][1];
        CHECK(priced(asked) == 700000);
    }
}

/* Too little room comes before 22 and 2; just enough is filled. */
static void test_room(void)
{
    struct asked asked = worked(), refused = worked();
    struct answer answer;
    size_t room;
    refused.heat = 0;
    for (room = 0; room < NOSKJERF_EDGES; room++) {
        answer = call_with(&asked, asked.table, TABLE, room, ROOM);
        CHECK(answer.number == -1 && untouched(&answer));
        answer = call_with(&refused, asked.table, TABLE, room, ROOM);
        CHECK(answer.number == -1 && untouched(&answer));
    }
    for (room = 0; room < NOSKJERF_PRICES; room++) {
        answer = call_with(&asked, asked.table, TABLE, ROOM, room);
        CHECK(answer.number == -1 && untouched(&answer));
        answer = call_with(&refused, asked.table, TABLE, ROOM, room);
        CHECK(answer.number == -1 && untouched(&answer));
    }
    answer = call_with(&asked, asked.table, TABLE, NOSKJERF_EDGES, NOSKJERF_PRICES);
    CHECK(answer.number == 0 && is_step(&answer, 10000, 30000, 700000));
    answer = call_with(&refused, asked.table, TABLE, NOSKJERF_EDGES, NOSKJERF_PRICES);
    CHECK(answer.number == 22 && untouched(&answer));
    CHECK(noskjerf_hydro(0, 1, 1, 0, 1, 1, NULL, 0, NULL, 0, NULL, 0) == -1);
}

/* ---- the table's length */

/* Prices past the end of the array count as 0, and those past the fourth hub are not read. */
static void test_lengths(void)
{
    struct asked asked = worked();
    int64_t more[TABLE + NOSKJERF_HYDRO_PRICES];
    struct answer answer = call_with(&asked, NULL, 0, ROOM, ROOM);
    size_t i;
    CHECK(answer.number == 0 && is_step(&answer, 10000, 30000, 440000));
    answer = call_with(&asked, asked.table, 0, ROOM, ROOM);
    CHECK(answer.number == 0 && is_step(&answer, 10000, 30000, 440000));
    asked.hubs = NOSKJERF_HYDRO_HUBS;
    asked.horizon = NOSKJERF_HYDRO_MONTHS;
    answer = call_with(&asked, asked.table, 4, ROOM, ROOM);
    CHECK(answer.number == 0 && is_step(&answer, 10000, 30000, 700000));
    answer = call_with(&asked, asked.table, 5, ROOM, ROOM);
    CHECK(answer.number == 0 && is_step(&answer, 10000, 30000, 990000));
    memcpy(more, asked.table, sizeof asked.table);
    for (i = TABLE; i < LENGTH(more); i++) {
        more[i] = INT64_MIN;
    }
    answer = call_with(&asked, more, LENGTH(more), ROOM, ROOM);
    CHECK(answer.number == 0 && is_step(&answer, 10000, 30000, 990000));
}

int main(void)
{
    test_worked();
    test_hubs();
    test_gas();
    test_one_price();
    test_what_is_read();
    test_unread_month();
    test_heat_and_gas();
    test_counts();
    test_quantities();
    test_room();
    test_lengths();
    return report("hydro");
}
