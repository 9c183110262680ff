/* Tests of noskjerf_room, noskjerf_run and noskjerf_told. */
#include <string.h>

#include "check.h"
#include "noskjerf.h"

/* Case T: an opening, and one interval. */
#define OPENING "month\n25\n" OPENING_AFTER_MONTH

#define OPENING_AFTER_MONTH \
    "portfolio seller\n" \
    "0 1\n" \
    "resource portfolio start\n" \
    "0 0 10000\n" \
    "resource end price\n" \
    "0 15000 300000\n" \
    "0 30000 900000\n" \
    "resource mw heat\n" \
    "0 10000 10000\n" \
    "0 20000 9000\n" \
    "0 30000 9500\n" \
    "resource gas rate allowance om msc soc fee\n" \
    "0 40000 0 0 20000 1000 3000 50\n"

#define INTERVAL \
    "constraint shadow\n" \
    "0 500000\n" \
    "resource lmp dispatch available floor\n" \
    "0 600000 20000 30000 0\n" \
    "resource constraint factor\n" \
    "0 0 -500000\n" \
    "parameter\n" \
    "100\n"

#define PAGE_OF_INTERVAL(i) \
    "interval constraint verdict demand left\n" \
    i " 0 1 10000000000 0\n" \
    "interval constraint portfolio withheld\n" \
    i " 0 0 15000000000\n" \
    "interval resource end price\n" \
    i " 0 15000 300000\n" \
    i " 0 20000 378402\n" \
    i " 0 24000 444403\n" \
    i " 0 30000 488402\n"

#define REFUSAL(number_and_line) "refusal line\n" number_and_line "\n"

/* What a byte of the page is before a call. */
#define BEFORE 0xA5

/* A page with some bytes more than it has to have. */
static uint8_t page[NOSKJERF_ROOM + 100];

static uint8_t long_text[NOSKJERF_MAX_TEXT + 1];

/* Numbers to be told, with one more than there have to be, and what each is before a call. */
static uint64_t told[NOSKJERF_TOLD + 1];

#define UNTOLD UINT64_MAX

/* Whether every byte of the page from one offset on is as it was. */
static int untouched_from(size_t at)
{
    while (at < sizeof page && page[at] == BEFORE) {
        at++;
    }
    return at == sizeof page;
}

/* Whether the first bytes of a text print what is expected on a page of some length, and leave the rest of the page as it was. */
static int prints_on(const uint8_t *text, size_t length, size_t page_len, const char *expected)
{
    size_t count = strlen(expected);
    int64_t answer;

    memset(page, BEFORE, sizeof page);
    answer = noskjerf_run(text, length, page, page_len);
    return answer == (int64_t)count && memcmp(page, expected, count) == 0 && untouched_from(count);
}

/* The same for a whole text, on a page with room to spare. */
static int prints(const char *text, const char *expected)
{
    return prints_on((const uint8_t *)text, strlen(text), sizeof page, expected);
}

/* Whether a page of some length is answered with -1 and left as it was. */
static int too_small(size_t page_len)
{
    memset(page, BEFORE, sizeof page);
    return noskjerf_run((const uint8_t *)OPENING INTERVAL, strlen(OPENING INTERVAL), page, page_len) == -1 && untouched_from(0);
}

static void test_room(void)
{
    CHECK(noskjerf_room() == NOSKJERF_ROOM);
    CHECK(too_small(NOSKJERF_ROOM - 1));
    CHECK(too_small(1));
    CHECK(too_small(0));
    CHECK(prints_on((const uint8_t *)OPENING INTERVAL, strlen(OPENING INTERVAL), NOSKJERF_ROOM, PAGE_OF_INTERVAL("1")));
}

static void test_intervals(void)
{
    CHECK(prints(OPENING, ""));
    CHECK(prints(OPENING INTERVAL, PAGE_OF_INTERVAL("1")));
    CHECK(prints(OPENING INTERVAL INTERVAL, PAGE_OF_INTERVAL("1") PAGE_OF_INTERVAL("2")));
    CHECK(prints(OPENING INTERVAL INTERVAL INTERVAL INTERVAL INTERVAL,
                 PAGE_OF_INTERVAL("1") PAGE_OF_INTERVAL("2") PAGE_OF_INTERVAL("3") PAGE_OF_INTERVAL("4") REFUSAL("12 55")));
}

/* Three net sellers with 5, 7 and 7 to withhold, in two intervals. */
#define THREE_SELLERS \
    "month\n25\n" \
    "portfolio seller\n0 1\n1 1\n2 1\n" \
    "resource portfolio start\n0 0 0\n1 1 0\n2 2 0\n" \
    "resource end price\n0 100 0\n1 100 0\n2 100 0\n" \
    "resource mw heat\n0 0 1\n0 100 1\n1 0 1\n1 100 1\n2 0 1\n2 100 1\n" \
    "resource gas rate allowance om msc soc fee\n0 0 0 0 0 0 0 0\n1 0 0 0 0 0 0 0\n2 0 0 0 0 0 0 0\n"

#define THEIR_INTERVAL \
    "constraint shadow\n0 1\n" \
    "resource lmp dispatch available floor\n0 0 0 5 0\n1 0 0 7 0\n2 0 0 7 0\n" \
    "resource constraint factor\n0 0 -1\n1 0 -1\n2 0 -1\n" \
    "parameter\n0\n"

#define PAGE_OF_THEIRS(i) \
    "interval constraint verdict demand left\n" \
    i " 0 0 0 0\n" \
    "interval constraint portfolio withheld\n" \
    i " 0 1 7\n" \
    i " 0 2 7\n" \
    i " 0 0 5\n" \
    "interval resource end price\n" \
    i " 0 100 0\n" \
    i " 1 100 0\n" \
    i " 2 100 0\n"

/* The larger amount first, equal ones by lower number: in one run and in another, and in the text so far of each interval. */
static void test_sellers(void)
{
    CHECK(prints(THREE_SELLERS THEIR_INTERVAL, PAGE_OF_THEIRS("1")));
    CHECK(prints(THREE_SELLERS THEIR_INTERVAL THEIR_INTERVAL, PAGE_OF_THEIRS("1") PAGE_OF_THEIRS("2")));
    CHECK(prints(THREE_SELLERS THEIR_INTERVAL THEIR_INTERVAL, PAGE_OF_THEIRS("1") PAGE_OF_THEIRS("2")));
}

static void test_form(void)
{
    CHECK(prints("", REFUSAL("17 1")));
    CHECK(prints("\n", REFUSAL("17 1")));
    CHECK(prints(OPENING INTERVAL "x", PAGE_OF_INTERVAL("1") REFUSAL("17 24")));
    CHECK(prints("month\n25\nportfolio seller\n0 01\n", REFUSAL("17 4")));
    /* a zero byte is a byte like any other, here in line 2 */
    CHECK(prints_on((const uint8_t *)"month\n2\0005\n", 10, sizeof page, REFUSAL("17 2")));
}

/* Case T and newlines up to the length: where it is read, line 24 is the first that is not due. */
static void test_length(void)
{
    memset(long_text, '\n', sizeof long_text);
    memcpy(long_text, OPENING INTERVAL, strlen(OPENING INTERVAL));
    CHECK(prints_on(long_text, NOSKJERF_MAX_TEXT, sizeof page, PAGE_OF_INTERVAL("1") REFUSAL("17 24")));
    CHECK(prints_on(long_text, NOSKJERF_MAX_TEXT + 1, sizeof page, REFUSAL("18 1")));
}

/* Runs the first bytes of a text on a page of some length with told of some length, all as before a call. */
static int64_t tell(const uint8_t *text, size_t length, size_t page_len, size_t told_len)
{
    size_t i;

    memset(page, BEFORE, sizeof page);
    for (i = 0; i < NOSKJERF_TOLD + 1; i++) {
        told[i] = UNTOLD;
    }
    return noskjerf_told(text, length, page, page_len, told, told_len);
}

/* Whether the first bytes of a text print what is expected, tell this number and line, and leave the rest as it was. */
static int tells_of(const uint8_t *text, size_t length, const char *expected, uint64_t number, uint64_t line)
{
    size_t count = strlen(expected);
    int64_t answer = tell(text, length, sizeof page, NOSKJERF_TOLD + 1);

    return answer == (int64_t)count && memcmp(page, expected, count) == 0 && untouched_from(count) && told[0] == number && told[1] == line &&
           told[2] == UNTOLD;
}

/* The same for a whole text. */
static int tells(const char *text, const char *expected, uint64_t number, uint64_t line)
{
    return tells_of((const uint8_t *)text, strlen(text), expected, number, line);
}

/* Whether a page or told of some length is answered with -1, and both are left as they were. */
static int nothing_told(const char *text, size_t page_len, size_t told_len)
{
    return tell((const uint8_t *)text, strlen(text), page_len, told_len) == -1 && untouched_from(0) && told[0] == UNTOLD &&
           told[1] == UNTOLD && told[2] == UNTOLD;
}

static void test_told(void)
{
    /* accepted: nothing is refused, and no line is named */
    CHECK(tells(OPENING, "", 0, 0));
    CHECK(tells(OPENING INTERVAL, PAGE_OF_INTERVAL("1"), 0, 0));
    CHECK(tells(OPENING INTERVAL INTERVAL INTERVAL INTERVAL,
                PAGE_OF_INTERVAL("1") PAGE_OF_INTERVAL("2") PAGE_OF_INTERVAL("3") PAGE_OF_INTERVAL("4"), 0, 0));
    /* refused: in the form or the values of either part, with pages before it or none, and by length */
    CHECK(tells("", REFUSAL("17 1"), 17, 1));
    CHECK(tells("month\n25\nportfolio seller\n0 01\n", REFUSAL("17 4"), 17, 4));
    CHECK(tells(OPENING "0 40000 0 0 20000 1000 3000 50\n", REFUSAL("17 16"), 17, 16));
    CHECK(tells(OPENING INTERVAL "x", PAGE_OF_INTERVAL("1") REFUSAL("17 24"), 17, 24));
    CHECK(tells("month\n0\n" OPENING_AFTER_MONTH, REFUSAL("9 15"), 9, 15));
    CHECK(tells(OPENING INTERVAL INTERVAL INTERVAL INTERVAL INTERVAL,
                PAGE_OF_INTERVAL("1") PAGE_OF_INTERVAL("2") PAGE_OF_INTERVAL("3") PAGE_OF_INTERVAL("4") REFUSAL("12 55"), 12, 55));
    memset(long_text, '\n', sizeof long_text);
    CHECK(tells_of(long_text, NOSKJERF_MAX_TEXT, REFUSAL("17 1"), 17, 1));
    CHECK(tells_of(long_text, NOSKJERF_MAX_TEXT + 1, REFUSAL("18 1"), 18, 1));
    /* no room */
    CHECK(tell((const uint8_t *)"", 0, NOSKJERF_ROOM, NOSKJERF_TOLD) == (int64_t)strlen(REFUSAL("17 1")));
    CHECK(nothing_told("", NOSKJERF_ROOM, NOSKJERF_TOLD - 1));
    CHECK(nothing_told("", NOSKJERF_ROOM, 0));
    CHECK(nothing_told("", NOSKJERF_ROOM - 1, NOSKJERF_TOLD));
    CHECK(nothing_told(OPENING INTERVAL, NOSKJERF_ROOM - 1, NOSKJERF_TOLD));
    CHECK(nothing_told(OPENING INTERVAL, NOSKJERF_ROOM, NOSKJERF_TOLD - 1));
    CHECK(nothing_told(OPENING INTERVAL, 0, 0));
}

/* A pointer with length 0 may be null. */
static void test_null(void)
{
    static const uint8_t case_t[] = OPENING INTERVAL;
    size_t length = sizeof case_t - 1;

    CHECK(prints_on(NULL, 0, sizeof page, REFUSAL("17 1")));
    CHECK(noskjerf_run(case_t, length, NULL, 0) == -1);
    CHECK(noskjerf_run(NULL, 0, NULL, 0) == -1);
    CHECK(tells_of(NULL, 0, REFUSAL("17 1"), 17, 1));
    CHECK(noskjerf_told(case_t, length, NULL, 0, told, NOSKJERF_TOLD) == -1);
    memset(page, BEFORE, sizeof page);
    CHECK(noskjerf_told(case_t, length, page, sizeof page, NULL, 0) == -1 && untouched_from(0));
    CHECK(noskjerf_told(NULL, 0, NULL, 0, NULL, 0) == -1);
}

int main(void)
{
    test_room();
    test_intervals();
    test_sellers();
    test_form();
    test_length();
    test_told();
    test_null();
    return report("test");
}
