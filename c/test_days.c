/* Tests of noskjerf_day, noskjerf_designation and noskjerf_mark. */
#include <string.h>

#include "check.h"
#include "noskjerf.h"

#define LENGTH(array) (sizeof(array) / sizeof(array)[0])

/* What a number of a buffer is before a call, one that no answer holds. */
#define BEFORE 77777777u

/* Where the bound and the non-competitive hours of the newest day stand in a tally. */
#define BOUND 2
#define NON_COMPETITIVE 62

/* A bit for each of 24 hours. */
#define ALL_HOURS 0xffffffu

/* Buffers with some numbers more than they have to have; those past their room are never written. */
static uint32_t tally[NOSKJERF_TALLY + 9];
static uint32_t kept[NOSKJERF_TALLY + 9];
static uint32_t hours[NOSKJERF_HOURS + 9];
static uint32_t marks[NOSKJERF_MARKS + 9];

static void fill(uint32_t *numbers, size_t length, uint32_t number)
{
    size_t i;
    for (i = 0; i < length; i++) {
        numbers[i] = number;
    }
}

/* Whether every number from one place on is as it was. */
static int untouched_from(const uint32_t *numbers, size_t at, size_t length)
{
    while (at < length && numbers[at] == BEFORE) {
        at++;
    }
    return at == length;
}

/* Makes every number of the tally this one. */
static void fill_tally(uint32_t number)
{
    fill(tally, NOSKJERF_TALLY, number);
    fill(tally + NOSKJERF_TALLY, LENGTH(tally) - NOSKJERF_TALLY, BEFORE);
}

static void fresh(void)
{
    fill_tally(0);
}

/* ---- days */

static int64_t add(uint32_t day, uint32_t bound, uint32_t noncompetitive)
{
    return noskjerf_day(tally, LENGTH(tally), day, bound, noncompetitive);
}

/* Whether a day is taken, and nothing past the tally's room is written. */
static int taken(uint32_t day, uint32_t bound, uint32_t noncompetitive)
{
    return add(day, bound, noncompetitive) == 0 && untouched_from(tally, NOSKJERF_TALLY, LENGTH(tally));
}

/* Whether a day is refused, and the tally left alone. */
static int refused(uint32_t day, uint32_t bound, uint32_t noncompetitive)
{
    memcpy(kept, tally, sizeof tally);
    return add(day, bound, noncompetitive) == 25 && memcmp(kept, tally, sizeof tally) == 0;
}

/* Whether the tally has these hours and this default verdict; it is only read, and nothing past the hours' room is written. */
static int says(uint32_t bound, uint32_t noncompetitive, int64_t verdict)
{
    int64_t answer;
    memcpy(kept, tally, sizeof tally);
    fill(hours, LENGTH(hours), BEFORE);
    answer = noskjerf_designation(tally, LENGTH(tally), hours, LENGTH(hours));
    return answer == verdict && hours[0] == bound && hours[1] == noncompetitive && untouched_from(hours, NOSKJERF_HOURS, LENGTH(hours))
           && memcmp(kept, tally, sizeof tally) == 0;
}

/* Adds days with these marks, numbered from one on; answers how many are taken. */
static int add_days(uint32_t first, uint32_t count, uint32_t bound, uint32_t noncompetitive)
{
    uint32_t i;
    int days = 0;
    for (i = 0; i < count; i++) {
        days += taken(first + i, bound, noncompetitive);
    }
    return days;
}

/* A mask of the first hours of a day. */
static uint32_t first_hours(unsigned count)
{
    return (1u << count) - 1;
}

static void test_fresh(void)
{
    fresh();
    CHECK(says(0, 0, 1));
}

/* 9 bound hours are too few, 10 are enough; by days of one hour, and by one day. */
static void test_ten_hours(void)
{
    fresh();
    CHECK(add_days(1, 9, 1, 0) == 9);
    CHECK(says(9, 0, 1));
    CHECK(taken(10, 1, 0));
    CHECK(says(10, 0, 0));
    fresh();
    CHECK(taken(1, first_hours(9), 0) && says(9, 0, 1));
    CHECK(taken(2, 1u << 23, 0) && says(10, 0, 0));
}

/* Three quarters of the bound hours, exactly and by one less: 4 x 9 and 4 x 8 against 3 x 12; 4 x 18 and 4 x 17 against 3 x 24. */
static void test_three_quarters(void)
{
    fresh();
    CHECK(taken(1, first_hours(12), first_hours(3)) && says(12, 3, 0));
    fresh();
    CHECK(taken(1, first_hours(12), first_hours(4)) && says(12, 4, 1));
    fresh();
    CHECK(taken(1, ALL_HOURS, first_hours(6)) && says(24, 6, 0));
    fresh();
    CHECK(taken(1, ALL_HOURS, first_hours(7)) && says(24, 7, 1));
    fresh();
    CHECK(taken(1, first_hours(10), first_hours(2)) && says(10, 2, 0));
    fresh();
    CHECK(taken(1, first_hours(10), first_hours(3)) && says(10, 3, 1));
}

/* The competitive hours of many that are not bound count for nothing. */
static void test_only_bound_hours(void)
{
    fresh();
    CHECK(add_days(1, 12, 1, 1) == 12);
    CHECK(says(12, 12, 1));
    fresh();
    CHECK(add_days(1, 60, ALL_HOURS, ALL_HOURS) == 60);
    CHECK(says(1440, 1440, 1));
    fresh();
    CHECK(add_days(1, 60, ALL_HOURS, 0x3f) == 60);
    CHECK(says(1440, 360, 0));
    CHECK(taken(61, ALL_HOURS, 0x7f) && says(1440, 361, 1));
}

/* The latest 60 days: of 61 with one hour each the first is gone, and the last one of 60 goes with the 60th after it. */
static void test_sixty_days(void)
{
    fresh();
    CHECK(add_days(1, 59, 1, 0) == 59 && tally[0] == 59 && says(59, 0, 0));
    CHECK(taken(60, 1, 0) && tally[0] == 60 && says(60, 0, 0));
    CHECK(taken(61, 1, 0) && tally[0] == 60 && says(60, 0, 0));
    CHECK(add_days(62, 59, 0, 0) == 59 && says(1, 0, 1));
    CHECK(taken(121, 0, 0) && tally[0] == 60 && says(0, 0, 1));
}

/* The oldest goes and the newest stays: 24 hours, then 59 days without a mark, then one hour. */
static void test_oldest_goes(void)
{
    fresh();
    CHECK(taken(1, ALL_HOURS, ALL_HOURS) && add_days(2, 59, 0, 0) == 59);
    CHECK(says(24, 24, 1));
    CHECK(taken(61, 2, 2));
    CHECK(says(1, 1, 1));
}

/* Gaps between numbers count for nothing: the last 60 days added are held, wherever they lie. */
static void test_gaps(void)
{
    uint32_t i;
    fresh();
    for (i = 1; i <= 60; i++) {
        CHECK(taken(1000000 * i, 1, 0));
    }
    CHECK(says(60, 0, 0));
    CHECK(taken(UINT32_MAX, 3, 0) && says(61, 0, 0));
}

/* The places of the header: count, last number, and the masks of each kind with the newest first. */
static void test_places(void)
{
    fresh();
    CHECK(taken(7, 0x805, 0x004) && taken(300, 0x800003, 0x800000));
    CHECK(tally[0] == 2 && tally[1] == 300);
    CHECK(tally[BOUND] == 0x800003 && tally[BOUND + 1] == 0x805);
    CHECK(tally[NON_COMPETITIVE] == 0x800000 && tally[NON_COMPETITIVE + 1] == 0x004);
    CHECK(tally[BOUND + 2] == 0 && tally[NON_COMPETITIVE - 1] == 0 && tally[NON_COMPETITIVE + 2] == 0 && tally[NOSKJERF_TALLY - 1] == 0);
}

/* ---- 25 */

/* A day's number is above the last one's; the first may be any, 0 too. */
static void test_numbers(void)
{
    fresh();
    CHECK(taken(5, 1, 0));
    CHECK(refused(5, 1, 0) && refused(4, 1, 0) && refused(0, 1, 0));
    CHECK(refused(5, 0, 0) && refused(5, 2, 2));
    CHECK(taken(6, 1, 0) && says(2, 0, 1));
    fresh();
    CHECK(taken(0, 1, 0) && tally[0] == 1 && tally[1] == 0);
    CHECK(refused(0, 1, 0));
    CHECK(taken(1, 1, 0) && says(2, 0, 1));
    fresh();
    CHECK(taken(UINT32_MAX, 1, 0));
    CHECK(refused(UINT32_MAX, 1, 0) && refused(0, 1, 0) && refused(UINT32_MAX - 1, 1, 0));
}

/* Numbers are compared without a sign. */
static void test_large_numbers(void)
{
    fresh();
    CHECK(taken(0x7fffffff, 1, 0) && taken(0x80000000, 1, 0) && refused(0x7fffffff, 1, 0) && says(2, 0, 1));
}

/* A refused day is not the last one added, whatever it is refused for. */
static void test_refused_days_do_not_count(void)
{
    fresh();
    CHECK(taken(5, 1, 0));
    CHECK(refused(9, 1u << 24, 0) && refused(9, 1, 2) && refused(3, 1, 0));
    CHECK(taken(6, 1, 0) && tally[0] == 2 && tally[1] == 6);
    fresh();
    CHECK(refused(9, 0, 1));
    CHECK(taken(0, 1, 1) && says(1, 1, 1));
}

/* The last hour is 23; a mark past it is refused in either kind, whichever bit it is. */
static void test_past_the_hours(void)
{
    unsigned bit;
    fresh();
    CHECK(taken(1, 1u << 23, 1u << 23) && says(1, 1, 1));
    for (bit = 24; bit < 32; bit++) {
        CHECK(refused(2, 1u << bit, 0));
        CHECK(refused(2, 1u << bit | ALL_HOURS, 0));
        CHECK(refused(2, 1u << bit, 1u << bit));
        CHECK(refused(2, ALL_HOURS, 1u << bit));
        CHECK(refused(2, 0, 1u << bit));
    }
    CHECK(taken(2, ALL_HOURS, ALL_HOURS) && says(25, 25, 1));
}

/* A non-competitive hour is bound, each one of them. */
static void test_not_bound(void)
{
    unsigned hour;
    fresh();
    CHECK(refused(1, 1, 2) && refused(1, 2, 1) && refused(1, 2, 3) && refused(1, 0, ALL_HOURS));
    for (hour = 0; hour < 24; hour++) {
        CHECK(refused(1, 0, 1u << hour));
        CHECK(refused(1, ALL_HOURS ^ 1u << hour, ALL_HOURS));
        CHECK(refused(1, ALL_HOURS ^ 1u << hour, 1u << hour));
    }
    CHECK(taken(1, 3, 2) && says(2, 1, 1));
}

/* The same where the tally is full: a refused day pushes none out. */
static void test_full_tally(void)
{
    fresh();
    CHECK(add_days(1, 70, 3, 1) == 70 && says(120, 60, 1));
    CHECK(refused(70, 3, 1) && refused(71, 1u << 24, 0) && refused(71, 1, 2));
    CHECK(says(120, 60, 1));
    CHECK(taken(71, 0, 0) && says(118, 59, 1));
}

/* ---- buffers */

static void test_short_tally(void)
{
    size_t length;
    fill(tally, LENGTH(tally), BEFORE);
    fill(hours, LENGTH(hours), BEFORE);
    for (length = 0; length < NOSKJERF_TALLY; length++) {
        CHECK(noskjerf_day(tally, length, UINT32_MAX, 1, 0) == -1);
        CHECK(noskjerf_day(tally, length, 0, 0, 1) == -1);
        CHECK(noskjerf_designation(tally, length, hours, LENGTH(hours)) == -1);
    }
    CHECK(untouched_from(tally, 0, LENGTH(tally)) && untouched_from(hours, 0, LENGTH(hours)));
    fresh();
    CHECK(noskjerf_day(tally, NOSKJERF_TALLY, 1, 1, 0) == 0 && says(1, 0, 1));
}

static void test_short_hours(void)
{
    size_t length;
    fresh();
    fill(hours, LENGTH(hours), BEFORE);
    for (length = 0; length < NOSKJERF_HOURS; length++) {
        CHECK(noskjerf_designation(tally, NOSKJERF_TALLY, hours, length) == -1);
        CHECK(noskjerf_designation(tally, 0, hours, length) == -1);
    }
    CHECK(untouched_from(hours, 0, LENGTH(hours)));
    CHECK(noskjerf_designation(tally, NOSKJERF_TALLY, hours, NOSKJERF_HOURS) == 1 && hours[0] == 0 && hours[1] == 0);
}

/* ---- any content is a tally */

/* All bits set: 60 days of 32 hours. No number is above the last, and the count stays where it is. */
static void test_all_bits(void)
{
    fill_tally(UINT32_MAX);
    CHECK(says(1920, 1920, 1));
    CHECK(refused(0, 0, 0) && refused(UINT32_MAX, 1, 1) && refused(UINT32_MAX, 0, 0));
    tally[1] = 8;
    CHECK(taken(9, 1, 0) && tally[0] == UINT32_MAX && tally[1] == 9 && says(1889, 1888, 1));
    fill_tally(UINT32_MAX);
    tally[0] = 0;
    CHECK(taken(0, 1, 1) && tally[0] == 1 && tally[1] == 0 && says(1889, 1889, 1));
}

/* Masks count whatever the count of days is, and bits past the hours too; where the count is 0 the last number plays no part. */
static void test_count_apart_from_masks(void)
{
    fresh();
    tally[BOUND + 59] = 0xfff00000;
    CHECK(says(12, 0, 0));
    tally[1] = 100;
    CHECK(taken(3, 0, 0) && tally[0] == 1 && tally[1] == 3 && says(0, 0, 1));
    fresh();
    tally[0] = 59;
    CHECK(taken(1, 1, 0) && tally[0] == 60 && taken(2, 1, 0) && tally[0] == 60);
    fresh();
    tally[0] = 61;
    CHECK(taken(1, 1, 0) && tally[0] == 61);
}

/* More non-competitive than bound hours leave no competitive ones; all bound ones competitive are enough from 10 on. */
static void test_more_non_competitive(void)
{
    fresh();
    tally[NON_COMPETITIVE] = ALL_HOURS;
    CHECK(says(0, 24, 1));
    tally[BOUND] = first_hours(12);
    CHECK(says(12, 24, 1));
    tally[NON_COMPETITIVE] = 7;
    CHECK(says(12, 3, 0));
}

/* ---- marks */

static void set_marks(uint32_t bound, uint32_t noncompetitive)
{
    fill(marks, LENGTH(marks), BEFORE);
    marks[0] = bound;
    marks[1] = noncompetitive;
}

/* Whether findings in an hour make these marks of those set before, and nothing past their room is written. */
static int marked(size_t hour, const int64_t *findings, size_t count, uint32_t bound, uint32_t noncompetitive)
{
    return noskjerf_mark(marks, LENGTH(marks), hour, findings, count) == 0 && marks[0] == bound && marks[1] == noncompetitive
           && untouched_from(marks, NOSKJERF_MARKS, LENGTH(marks));
}

/* The same of a day without a mark. */
static int marks_day(size_t hour, const int64_t *findings, size_t count, uint32_t bound, uint32_t noncompetitive)
{
    set_marks(0, 0);
    return marked(hour, findings, count, bound, noncompetitive);
}

/* Every list of four findings: bound if any is 0 or 1, non-competitive if any is 1. */
static void test_four_intervals(void)
{
    int64_t findings[4];
    int list, i;
    for (list = 0; list < 81; list++) {
        int rest = list, competitive = 0, non_competitive = 0;
        for (i = 0; i < 4; i++, rest /= 3) {
            findings[i] = rest % 3;
            competitive += rest % 3 == 0;
            non_competitive += rest % 3 == 1;
        }
        CHECK(marks_day(3, findings, 4, competitive + non_competitive > 0 ? 8 : 0, non_competitive > 0 ? 8 : 0));
    }
}

static void test_few_and_many_intervals(void)
{
    static const int64_t zero[] = { 0 }, one[] = { 1 }, two[] = { 2, 2 };
    static int64_t many[100];
    size_t i;
    CHECK(marks_day(3, zero, 1, 8, 0) && marks_day(3, one, 1, 8, 8) && marks_day(3, two, 2, 0, 0) && marks_day(3, two, 0, 0, 0));
    for (i = 0; i < LENGTH(many); i++) {
        many[i] = 2;
    }
    CHECK(marks_day(0, many, LENGTH(many), 0, 0));
    many[99] = 1;
    CHECK(marks_day(0, many, LENGTH(many), 1, 1) && marks_day(0, many, 99, 0, 0));
    many[0] = 0;
    CHECK(marks_day(0, many, LENGTH(many), 1, 1) && marks_day(0, many, 99, 1, 0));
}

/* What is no finding isn't binding, however many bits of it look like one. */
static void test_other_findings(void)
{
    static const int64_t others[] = { -1, 3, 4, 256, 257, 65536, 4294967296, 4294967297, -4294967296, -4294967295, INT64_MAX, INT64_MIN, INT64_MIN + 1 };
    size_t i;
    for (i = 0; i < LENGTH(others); i++) {
        CHECK(marks_day(5, others + i, 1, 0, 0));
    }
    CHECK(marks_day(5, others, LENGTH(others), 0, 0));
}

/* Each of the 24 hours has its bit, and an hour past them bit 24, so that the day is refused. */
static void test_hours(void)
{
    static const int64_t zero[] = { 0 }, one[] = { 1 }, two[] = { 2 };
    static const size_t past[] = { 24, 25, 31, 32, 33, 63, 64, 256, 65536, 4294967296, 4294967299, SIZE_MAX - 1, SIZE_MAX };
    size_t i;
    for (i = 0; i < 24; i++) {
        CHECK(marks_day(i, zero, 1, 1u << i, 0) && marks_day(i, one, 1, 1u << i, 1u << i) && marks_day(i, two, 1, 0, 0));
    }
    for (i = 0; i < LENGTH(past); i++) {
        CHECK(marks_day(past[i], zero, 1, 1u << 24, 0) && marks_day(past[i], one, 1, 1u << 24, 1u << 24) && marks_day(past[i], two, 1, 0, 0));
    }
    fresh();
    set_marks(1, 0);
    CHECK(marked(31, zero, 1, 1u << 24 | 1, 0) && refused(1, marks[0], marks[1]));
}

/* A mark that is there stays: hours are added one after the other, and one that is marked once more gains or keeps. */
static void test_marks_stay(void)
{
    static const int64_t zero[] = { 0 }, one[] = { 1 }, two[] = { 2 };
    set_marks(0, 0);
    CHECK(marked(3, zero, 1, 8, 0) && marked(4, one, 1, 24, 16) && marked(3, one, 1, 24, 24));
    CHECK(marked(4, zero, 1, 24, 24) && marked(3, two, 1, 24, 24) && marked(4, NULL, 0, 24, 24));
    set_marks(UINT32_MAX, 0);
    CHECK(marked(9, one, 1, UINT32_MAX, 512));
    set_marks(0, UINT32_MAX);
    CHECK(marked(9, zero, 1, 512, UINT32_MAX));
}

static void test_short_marks(void)
{
    static const int64_t one[] = { 1 };
    size_t length;
    fill(marks, LENGTH(marks), BEFORE);
    for (length = 0; length < NOSKJERF_MARKS; length++) {
        CHECK(noskjerf_mark(marks, length, 3, one, 1) == -1);
    }
    CHECK(untouched_from(marks, 0, LENGTH(marks)));
    set_marks(0, 0);
    CHECK(noskjerf_mark(marks, NOSKJERF_MARKS, 3, one, 1) == 0 && marks[0] == 8 && marks[1] == 8);
}

/* A pointer with length 0 may be null. */
static void test_null(void)
{
    static const int64_t one[] = { 1 };
    fresh();
    fill(hours, LENGTH(hours), BEFORE);
    CHECK(noskjerf_day(NULL, 0, 1, 1, 0) == -1);
    CHECK(noskjerf_designation(NULL, 0, NULL, 0) == -1);
    CHECK(noskjerf_designation(NULL, 0, hours, LENGTH(hours)) == -1 && untouched_from(hours, 0, LENGTH(hours)));
    CHECK(noskjerf_designation(tally, LENGTH(tally), NULL, 0) == -1);
    CHECK(noskjerf_mark(NULL, 0, 3, NULL, 0) == -1 && noskjerf_mark(NULL, 0, 3, one, 1) == -1);
    CHECK(marks_day(3, NULL, 0, 0, 0));
}

int main(void)
{
    test_fresh();
    test_ten_hours();
    test_three_quarters();
    test_only_bound_hours();
    test_sixty_days();
    test_oldest_goes();
    test_gaps();
    test_places();
    test_numbers();
    test_large_numbers();
    test_refused_days_do_not_count();
    test_past_the_hours();
    test_not_bound();
    test_full_tally();
    test_short_tally();
    test_short_hours();
    test_all_bits();
    test_count_apart_from_masks();
    test_more_non_competitive();
    test_four_intervals();
    test_few_and_many_intervals();
    test_other_findings();
    test_hours();
    test_marks_stay();
    test_short_marks();
    test_null();
    return report("test_days");
}
