/*
 * Noskjerf: local market power mitigation, for programs in C and C++.
 *
 * A text holds the tables that open a trading hour and those of its intervals (docs/FORMAT.md). Running it prints, for each accepted
 * interval, the verdict on every constraint, the sellers named and the mitigated bid curves; or it prints a refusal, which is a number
 * from 1 to 18 and a line of the text (docs/REFUSALS.md). An interval's parameter may be missing, the line "-", and then means 0.
 *
 * What holds for every function here:
 * - It takes any numbers and any bytes. Whatever is wrong with them is answered, never left undefined.
 * - A pointer with a length stands for that many elements. Where the length is 0 nothing is read or written through it, so that it may be
 *   null, as that of an empty std::vector; elsewhere it must not be. Buffers that are written must not overlap anything else that is passed.
 * - It keeps nothing between calls, allocates nothing and reads no files: any number of threads may call it at once. A run
 *   takes at most 144 KB of stack, and so does any other call; give a thread that calls it 256 KiB.
 *
 * Units: quantities are hundredths of a MW, prices 0.0001 dollar per MWh, heat rates Btu/kWh.
 *
 * Link with libnoskjerf.a, which `./archive` writes to target/lib:
 *
 *     gcc -Ic program.c target/lib/libnoskjerf.a
 */
#ifndef NOSKJERF_H
#define NOSKJERF_H

#include <stddef.h>
#include <stdint.h>

#ifdef __cplusplus
extern "C" {
#endif

/* How many bytes a page has to have; what noskjerf_room answers, for arrays of a fixed size. */
#define NOSKJERF_ROOM 655424

/* How many bytes a text may have; a longer one is refused (18). */
#define NOSKJERF_MAX_TEXT 65536

/* How many bytes of stack a run takes at most, and any call. */
#define NOSKJERF_RUN_STACK 144000
#define NOSKJERF_STACK 144000

/* How many numbers the last buffer of noskjerf_told has to have. */
#define NOSKJERF_TOLD 2

/* How many classroom bids there are. */
#define NOSKJERF_CLASSROOM 37

/* How many numbers the two buffers of a default curve, or of a classroom bid, have to have. */
#define NOSKJERF_EDGES 13
#define NOSKJERF_PRICES 11

/* How many numbers the charges of noskjerf_default are. */
#define NOSKJERF_CHARGES 7

/* How many numbers an hour is; what noskjerf_state_room answers. */
#define NOSKJERF_STATE 3411

/* How many numbers one resource of an opening is. */
#define NOSKJERF_BLOCK 80

/* How many numbers the verdicts of an interval are, and one of them. */
#define NOSKJERF_VERDICTS 640
#define NOSKJERF_VERDICT 20

/* How many numbers the causes of noskjerf_why are, four of each resource. */
#define NOSKJERF_CAUSES 256

/* How many numbers noskjerf_pivotal finds: a set, how many were tried, and the floor. */
#define NOSKJERF_FOUND 3

/* How many numbers the two buffers of an hour's curve have to have. */
#define NOSKJERF_HOUR_EDGES 22
#define NOSKJERF_HOUR_PRICES 20

/* The markets of a book of gas prices. */
#define NOSKJERF_DAY_AHEAD 0
#define NOSKJERF_REAL_TIME 1

/* How many numbers the tally of a constraint is. */
#define NOSKJERF_TALLY 122

/* How many numbers the hours of noskjerf_designation are, and the marks of noskjerf_mark: of each the bound ones, then the non-competitive. */
#define NOSKJERF_HOURS 2
#define NOSKJERF_MARKS 2

/* How many bytes a page lent to noskjerf_run or noskjerf_told has to have. */
size_t noskjerf_room(void);

/*
 * Runs a text.
 *
 * Puts what the text prints on the page, from its first byte on, and answers how many bytes that took. A refusal is printed like any
 * other answer. The count is 0 for a text that opens an hour and has no interval: there is nothing to print. The bytes of the page past
 * the count stay as they were.
 *
 * One text always prints the same bytes: constraints and resources rise, and within a constraint the seller with the larger withheld
 * amount comes first, equal ones by lower portfolio number.
 *
 * Answers -1 where page_len is below noskjerf_room(); the page is then untouched. No terminating zero is read or written.
 */
int64_t noskjerf_run(const uint8_t *text, size_t text_len, uint8_t *page, size_t page_len);

/*
 * Runs a text as noskjerf_run does, and tells how it ends, so that no page has to be read for it.
 *
 * The page and the answer are those of noskjerf_run. Beside them it puts two numbers into `told`, and leaves those past them as they were:
 *   told[0]  the number of the refusal, 1 to 18; 0 where nothing is refused
 *   told[1]  the refusal's line, from 1 on; 0 where nothing is refused
 *
 * Answers -1 where page_len is below noskjerf_room() or told_len below NOSKJERF_TOLD; page and told are then untouched.
 */
int64_t noskjerf_told(const uint8_t *text, size_t text_len, uint8_t *page, size_t page_len, uint64_t *told, size_t told_len);

/*
 * Judges a bid as it is submitted in a month since the rule took effect, which sets the highest price.
 *
 * The curve starts at `start` and has `count` steps. `steps` holds the end and the price of each step in turn, so 2 * count numbers;
 * those past its end count as 0, and those past the count are not looked at. The month is not judged: any is taken, 0 counts as month 1,
 * and one above 1,200 as month 1,200.
 *
 * Answers 0 where the bid is accepted, else the lowest refusal that applies:
 *   1  the step count is outside 1 to 10
 *   2  an edge (the start or an end) is outside 0 to 1,000,000, or the edges do not rise
 *   3  a price is below -1,500,000 or above the month's highest, or the prices fall
 */
uint64_t noskjerf_bid(uint64_t month, int64_t start, size_t count, const int64_t *steps, size_t steps_len);

/*
 * Works out the default energy bid of a resource from its costs.
 *
 * `points` holds the quantity (mw) and the average heat rate (heat) of each of `count` points in turn. `charges` holds gas, rate,
 * allowance, om, msc, soc and fee, in this order. Numbers past the end of either count as 0, so that points_len below 2 * count is refused
 * and a charge that is left out costs nothing; points past the count and numbers past the seventh charge are not looked at.
 *
 * The curve has a step between each two neighbouring points, and two where the 80% mark, 4/5 of the last quantity rounded down, lies
 * strictly between them. Each price is at least the one that the same rules give with nothing rounded but that mark, and above it by less
 * than 11/10 x (gas / 1000 + rate x allowance / 1,000,000,000 + 3) + 1.
 *
 * Answers 0 and fills the buffers:
 *   edges[0]                how many steps the curve has, 1 to 11
 *   edges[1]                where it starts
 *   edges[2] and after it   the end of each step
 *   prices[0] and after it  the price of each step
 * Of 13 edges and 11 prices those past the steps are 0; what stands past these is left alone.
 * Or it answers the lowest refusal that applies, and leaves the buffers as they were:
 *   4  the point count is outside 2 to 11
 *   5  a quantity is outside 0 to 1,000,000, or the quantities do not rise
 *   6  a heat rate is outside 1 to 100,000
 *   7  a price, rate or fee is outside its range
 *   8  an incremental heat rate, after the 80% limit, is outside -100,000 to 100,000
 * Or it answers -1 where edges_len is below NOSKJERF_EDGES or prices_len below NOSKJERF_PRICES, and leaves the buffers as they were.
 */
int64_t noskjerf_default(size_t count, const int64_t *points, size_t points_len, const int64_t *charges, size_t charges_len,
                         uint64_t *edges, size_t edges_len, int64_t *prices, size_t prices_len);

/*
 * Looks up a book of published gas prices: the run of entries up to a trading day, that day included.
 *
 * A book has a list for the day-ahead market and one for real time. Each holds the day and the price of its entries in turn, the days
 * strictly rising, the prices in 0.0001 dollar per MMBtu. `market` is NOSKJERF_DAY_AHEAD or NOSKJERF_REAL_TIME and chooses the list; the
 * answer never depends on the other one.
 *
 * Answers how many numbers of the chosen list are its run, which starts at the list's first number; nothing is copied. The last of them
 * is the price in use, so that an unpublished day takes the latest before it. Answers 0 for refusal 21:
 *   the chosen list ends inside a pair, its days do not rise somewhere in it, later days included, or no entry is up to that day;
 *   or the market is another number.
 */
size_t noskjerf_gas_run(const uint32_t *day_ahead, size_t day_ahead_len, const uint32_t *real_time, size_t real_time_len, uint32_t market,
                        uint32_t day);

/*
 * Works out a default energy bid as noskjerf_default does, with the book's price in use for the gas price; charges[0] counts for nothing.
 *
 * Answers as noskjerf_default, and 21 where noskjerf_gas_run answers 0. -1 comes first, then 21, then 4 to 8; a refusal and -1 leave
 * the buffers as they were.
 */
int64_t noskjerf_gas_default(const uint32_t *day_ahead, size_t day_ahead_len, const uint32_t *real_time, size_t real_time_len,
                             uint32_t market, uint32_t day, size_t count, const int64_t *points, size_t points_len, const int64_t *charges,
                             size_t charges_len, uint64_t *edges, size_t edges_len, int64_t *prices, size_t prices_len);

/*
 * Joins the two parts of a reliability contract unit's default energy bid: proxy prices up to its contract capacity, default prices above.
 *
 * A part starts at a quantity and has a count of steps, whose ends and prices stand in turn as in noskjerf_bid: numbers past their end
 * count as 0, and those past the count are not looked at. The contract capacity is where the first part ends.
 *
 * The curve has the steps of the first part and then those of the second, each price raised to the largest before it: no price of either
 * part is lowered, and neighbours of one price stay two steps. It serves as a pack's curve in noskjerf_open.
 *
 * Answers 0 and fills the buffers as noskjerf_default does. Or it answers the lowest refusal that applies to a part or to both together,
 * and leaves the buffers as they were:
 *   1   a step count is outside 1 to 11
 *   2   an edge (a start or an end) is outside 0 to 1,000,000, or the edges of a part do not rise
 *   3   a price is outside -1,000,000,000 to 1,000,000,000, or the prices of a part fall
 *   23  the second part does not start at the first one's last end
 *   24  the two parts have more than 11 steps together
 * Before any of these it answers -1 where edges_len is below NOSKJERF_EDGES or prices_len below NOSKJERF_PRICES, and leaves the buffers as
 * they were.
 */
int64_t noskjerf_join(int64_t proxy_start, size_t proxy_count, const int64_t *proxy_steps, size_t proxy_steps_len, int64_t above_start,
                      size_t above_count, const int64_t *above_steps, size_t above_steps_len, uint64_t *edges, size_t edges_len,
                      int64_t *prices, size_t prices_len);

/*
 * Classroom bid k, for drills: every bid with start 0, ends among 100, 200, 300 and prices among 0, 10000, 20000 that never fall. They are
 * NOSKJERF_CLASSROOM, numbered from 0, by step count, then by the list of ends, then by the list of prices, smaller first. noskjerf_bid
 * accepts each in every month.
 *
 * Answers 0 and fills the buffers as noskjerf_default does; or answers 1, there is no bid k, and leaves the buffers as they were. Before
 * that it answers -1 where edges_len is below NOSKJERF_EDGES or prices_len below NOSKJERF_PRICES, and leaves the buffers as they were.
 */
int64_t noskjerf_classroom(size_t k, uint64_t *edges, size_t edges_len, int64_t *prices, size_t prices_len);

/* ---- An hour in numbers
 *
 * An hour is opened, takes intervals and five-minute passes, and is asked for its curves, without a text. It is NOSKJERF_STATE numbers in
 * an array that the caller keeps: copy it to keep an hour as it stood, drop it to end it. noskjerf_open writes them, noskjerf_interval and
 * noskjerf_pass change them, and the other calls read them. Three may be read by the caller:
 *   state[0]    how many intervals are accepted
 *   state[129]  how many passes are accepted since the last accepted interval
 *   state[258]  how many resources the hour has
 * Every content of a state has a meaning, also one that noskjerf_open never wrote: a call on it is answered like any other. Numbers past
 * NOSKJERF_STATE are neither read nor written.
 *
 * Each call answers 0, the number of a refusal, or -1 where the state or a buffer to be filled is too short. -1 comes first. Where the answer
 * isn't 0, the state and every buffer hold what they held, to the last number. Numbers past the end of an array that is only read count as 0,
 * and those past a count are not looked at.
 */

/* How many numbers a state has to have. */
size_t noskjerf_state_room(void);

/*
 * Opens an hour in a month since the rule took effect.
 *
 * `sellers` holds a number for each of 1 to 16 portfolios: 1 for a net seller, 0 for a net buyer. `blocks` holds NOSKJERF_BLOCK numbers for
 * each of 1 to 64 resources, one after the other:
 *   0         the portfolio it belongs to
 *   1, 2      the start of its bid; how many steps the bid has, 1 to 10
 *   3 to 24   end and price of each step in turn, with room for 11
 *   25        where its default energy bid comes from: 0 from costs, any other number from a pack
 *   26        how many points the costs have, 2 to 11
 *   27 to 48  quantity (mw) and average heat rate (heat) of each point in turn
 *   49 to 55  gas, rate, allowance, om, msc, soc and fee
 *   56, 57    the start of the pack's curve; how many steps it has, 1 to 11
 *   58 to 79  end and price of each step in turn
 * A count below 0 is 0. Costs are not looked at where there is a pack, nor the other way round.
 *
 * Answers 0 and writes the state. Or it answers 9, then 10, then for each resource in the order of the numbers: the lowest of 1 to 3 for its
 * bid, the lowest of 4 to 8 for its costs or of 1 to 3 for its pack's curve, and 11:
 *   1 to 8  as noskjerf_bid and noskjerf_default; a pack's curve may have 11 steps, and prices from -1,000,000,000 to 1,000,000,000
 *   9       the month is outside 1 to 1,200, the portfolios outside 1 to 16, or the resources outside 1 to 64
 *   10      a seller is not 0 or 1, or a resource's portfolio is none of the portfolios
 *   11      a bid reaches outside its default curve
 */
int64_t noskjerf_open(int64_t month, size_t portfolios, const int64_t *sellers, size_t sellers_len, size_t resources, const int64_t *blocks,
                      size_t blocks_len, int64_t *state, size_t state_len);

/*
 * Takes an interval, of which an hour has four. A cut carries on to the next.
 *
 * `shadow` holds the shadow price of each of 0 to 32 constraints. `outputs` holds four numbers for each resource in turn: locational price,
 * dispatch, available and floor. `factors` holds the shift factor of resource r on constraint c at 32 * r + c. `parameter` is added to the
 * competitive price to make the floor price.
 *
 * Answers 0, changes the state, begins a quarter hour without a pass, and fills the first NOSKJERF_VERDICTS numbers of `verdicts`. Those of
 * constraint c begin at NOSKJERF_VERDICT * c; past the constraints they say "not binding":
 *   0        the verdict: 0 competitive, 1 non-competitive, 2 not binding
 *   1, 2     demand, and what is left of supply; 0 where it is not binding
 *   3        the sellers named, at most three: bit p stands for portfolio p
 *   4 to 19  what each of 16 portfolios can withhold if it is named, else 0
 * Or it answers the lowest refusal that applies:
 *   12  four intervals are accepted already
 *   13  the resource count is not the hour's
 *   14  there are more than 32 constraints
 *   15  a shadow price is outside 0 to 100,000,000, a locational price outside -100,000,000 to 100,000,000, a shift factor outside
 *       -1,000,000 to 1,000,000, or the parameter outside 0 to 100
 *   16  available is outside 0 to 1,000,000, or floor or dispatch is below 0 or above available
 */
int64_t noskjerf_interval(int64_t *state, size_t state_len, size_t constraints, const int64_t *shadow, size_t shadow_len, size_t resources,
                          const int64_t *outputs, size_t outputs_len, const int64_t *factors, size_t factors_len, int64_t parameter,
                          int64_t *verdicts, size_t verdicts_len);

/*
 * Takes a five-minute pass, of which up to three follow an accepted interval. It takes the numbers of an interval and gives verdicts as one
 * does, but it cuts the five-minute curves alone.
 *
 * Answers as noskjerf_interval, but never 12; before 13 to 16 it answers
 *   19  no interval is accepted yet, or three passes are accepted since the last
 */
int64_t noskjerf_pass(int64_t *state, size_t state_len, size_t constraints, const int64_t *shadow, size_t shadow_len, size_t resources,
                      const int64_t *outputs, size_t outputs_len, const int64_t *factors, size_t factors_len, int64_t parameter,
                      int64_t *verdicts, size_t verdicts_len);

/*
 * How many sellers the verdict on constraint c names, at most three, of the `verdicts` that an interval or a pass filled: the ones among the bits of
 * its fourth number. Past 32 constraints nobody is named. It answers -1 where verdicts_len is below NOSKJERF_VERDICTS.
 */
int64_t noskjerf_sellers(const int64_t *verdicts, size_t verdicts_len, size_t c);

/*
 * Tells whether and why an interval or a pass with these numbers caps the bid of each resource. The state is only read, and whose turn it is
 * plays no part. A cap may lie above the price that it caps, which then stays: whether a bid is cut is seen by its curve before and after.
 *
 * Answers 0 and fills the first NOSKJERF_CAUSES numbers of `causes`. Those of resource r begin at 4 * r; past the resources they are 0:
 *   0  capped: 1 where a cap applies, else 0. One applies where dispatch and component are above 0
 *   1  its component C, minus the sum of shift factor times shadow price over the non-competitive constraints, in millionths
 *   2  its competitive price: locational price less C, up
 *   3  where a cap applies its floor price, the competitive price and the parameter; else 0. The cap of a quantity is the higher of its default
 *      price and the floor price
 * Or it answers the lowest of 13 to 16 that applies, as noskjerf_interval.
 */
int64_t noskjerf_why(const int64_t *state, size_t state_len, size_t constraints, const int64_t *shadow, size_t shadow_len, size_t resources,
                     const int64_t *outputs, size_t outputs_len, const int64_t *factors, size_t factors_len, int64_t parameter,
                     int64_t *causes, size_t causes_len);

/*
 * Looks for the fewest net sellers whose full withholding leaves every binding constraint of an interval with these numbers short: supply less
 * what they can withhold below demand. The state is only read, and whose turn it is plays no part.
 *
 * Bit p of a set's number stands for portfolio p. All net sellers together are the first best. Then their sets are tried in rising order of
 * their numbers, the empty one left out, until `budget` of them are tried or none is left; a set that works becomes the best where it has fewer
 * members. Sixteen sellers have 65,535 sets, so that 65,535 always tries all.
 *
 * Answers 0 and fills the first NOSKJERF_FOUND numbers of `found`:
 *   0  the best set; 0 where not even all net sellers together leave every binding constraint short, so that no set of them does
 *   1  how many sets were tried, the smaller of the budget and how many there are; 0 where none works
 *   2  the floor: the largest count of sellers that one binding constraint alone needs to be short; 0 where none works. No set that works has
 *      fewer members, and with all sets tried none has fewer than the best
 * Or it answers the lowest of 13 to 16 that applies, as noskjerf_interval, or then
 *   26  no constraint binds
 */
int64_t noskjerf_pivotal(const int64_t *state, size_t state_len, size_t constraints, const int64_t *shadow, size_t shadow_len,
                         size_t resources, const int64_t *outputs, size_t outputs_len, const int64_t *factors, size_t factors_len,
                         int64_t parameter, uint64_t budget, uint64_t *found, size_t found_len);

/*
 * The bid curve of resource r after the accepted intervals.
 *
 * Answers 0 and fills the first NOSKJERF_HOUR_EDGES numbers of `edges` and the first NOSKJERF_HOUR_PRICES of `prices`:
 *   edges[0]                how many steps the curve has, 1 to 20; whatever stands in the state, never more than 20
 *   edges[1]                where it starts, which is where the bid does
 *   edges[2] and after it   the end of each step
 *   prices[0] and after it  the price of each step
 * Numbers past the steps are 0. A resource that an opened hour doesn't have has a curve with no steps, which starts at 0.
 */
int64_t noskjerf_curve(const int64_t *state, size_t state_len, size_t r, uint64_t *edges, size_t edges_len, int64_t *prices,
                       size_t prices_len);

/* Its five-minute curve: the same, cut further by the passes accepted since the last accepted interval. */
int64_t noskjerf_five_minute(const int64_t *state, size_t state_len, size_t r, uint64_t *edges, size_t edges_len, int64_t *prices,
                             size_t prices_len);

/*
 * Its one bid for the hour: at each quantity the lowest price of the four intervals' curves. Buffers as in noskjerf_curve; it may answer
 *   20  fewer than four intervals are accepted
 */
int64_t noskjerf_hour_bid(const int64_t *state, size_t state_len, size_t r, uint64_t *edges, size_t edges_len, int64_t *prices,
                          size_t prices_len);

/*
 * Its default curve, in buffers as noskjerf_default fills them: NOSKJERF_EDGES and NOSKJERF_PRICES numbers, all of which are written where it
 * answers 0. edges[0] is 1 to 11 in an opened hour and, whatever stands in the state, never more than 11. Numbers past the steps are 0 in an
 * hour that noskjerf_open made; else they are what stands in the state there. A resource that the hour doesn't have has a curve with no steps.
 */
int64_t noskjerf_default_of(const int64_t *state, size_t state_len, size_t r, uint64_t *edges, size_t edges_len, int64_t *prices,
                            size_t prices_len);

/* ---- Sixty-day designations
 *
 * Where an assessment fails, a constraint has a default verdict, by how often it was bound and non-competitive in the latest 60 trading days.
 * Its tally is NOSKJERF_TALLY numbers in an array that the caller keeps, zeros for a fresh one: copy it to keep a tally as it stood.
 * noskjerf_day changes it and noskjerf_designation reads it. The numbers may be read by the caller:
 *   0          how many days are held, at most 60
 *   1          the number of the last day added, 0 where there is none
 *   2 to 61    the bound hours of each of 60 days, the newest first: bit h stands for hour h, from 0
 *   62 to 121  the non-competitive hours in the same way
 * Every content has a meaning, also one that noskjerf_day never wrote: a call on it is answered like any other. Numbers past NOSKJERF_TALLY
 * are neither read nor written.
 */

/*
 * Adds a trading day to a tally: its number, and its hours, bit h of `bound` and of `noncompetitive` for hour h. Of more than 60 days the
 * oldest goes. Numbers may leave gaps; the first day of a fresh tally may have any.
 *
 * Answers 0 and changes the tally. Or it leaves the tally as it was and answers
 *   25  the number is not above that of the last day added, a mark is past the 24 hours, or a non-competitive hour is not bound
 * Or it answers -1 where tally_len is below NOSKJERF_TALLY, and leaves the tally as it was.
 */
int64_t noskjerf_day(uint32_t *tally, size_t tally_len, uint32_t day, uint32_t bound, uint32_t noncompetitive);

/*
 * The default verdict on the constraint of a tally.
 *
 * Answers 0, competitive, where at least 10 hours are bound and 4 times the competitive ones among them are at least 3 times the bound ones;
 * else 1, non-competitive, as on a fresh tally. Beside it it fills the first NOSKJERF_HOURS numbers of `hours`:
 *   0  how many hours of the days held are bound
 *   1  how many of them are non-competitive
 * Or it answers -1 where tally_len is below NOSKJERF_TALLY or hours_len below NOSKJERF_HOURS, and leaves `hours` as they were.
 */
int64_t noskjerf_designation(const uint32_t *tally, size_t tally_len, uint32_t *hours, size_t hours_len);

/*
 * Marks an hour of a trading day by the verdicts on the constraint in that hour's intervals, each the first number of a verdict that
 * noskjerf_interval filled: 0 competitive, 1 non-competitive, 2 not binding. Any other number is not binding either.
 *
 * `marks` holds the bound hours and the non-competitive hours of the day as noskjerf_day takes them, 0 and 0 for a day without a mark. The
 * hour is marked bound where any finding is 0 or 1, and non-competitive where any is 1; marks that are there stay. An hour past the 24 is
 * marked at bit 24, so that the day is refused (25).
 *
 * Answers 0. Or it answers -1 where marks_len is below NOSKJERF_MARKS, and leaves `marks` as they were.
 */
int64_t noskjerf_mark(uint32_t *marks, size_t marks_len, size_t hour, const int64_t *findings, size_t findings_len);

#ifdef __cplusplus
}
#endif

#endif
