/*
 * Noskjerf's hydro pack: the default energy bid of a hydroelectric resource (tariff 39.7.1.7), for programs in C and C++.
 *
 * It stands above the engine, whose header it takes: what noskjerf.h says of every function and of units holds here too. Link with its own
 * archive, which `hydro/archive` writes to target/lib, and with the engine's for an hour:
 *
 *     gcc -Ic -Ihydro program.c target/lib/libnoskjerf_hydro.a target/lib/libnoskjerf.a
 */
#ifndef NOSKJERF_HYDRO_H
#define NOSKJERF_HYDRO_H

#include "noskjerf.h"

#ifdef __cplusplus
extern "C" {
#endif

/* How many hubs and months there may be. */
#define NOSKJERF_HYDRO_HUBS 4
#define NOSKJERF_HYDRO_MONTHS 12

/* How many prices a hub has: day-ahead peak, balance of month, and those of twelve months. */
#define NOSKJERF_HYDRO_PRICES 14

/*
 * Works out the hydro default: one step from a lowest to a highest quantity, priced at the largest of three amounts, each rounded up:
 *   11 * heat * gas / 10,000
 *   14/10 of the largest of peak, balance of month and next month's price at the first hub, which is the default one
 *   11/10 of the largest of peak, balance of month and the monthly prices up to the storage horizon, over the hubs
 *
 * `heat` is in Btu/kWh, `gas` in 0.0001 dollar per MMBtu, `horizon` in months. `hub_prices` holds NOSKJERF_HYDRO_PRICES numbers of each hub in
 * turn, so that price j of hub i stands at 14 * i + j: 0 its day-ahead peak, 1 its balance of month, 1 + k month k, where month 1 is the next one.
 * Prices past the horizon or the hub count are not read, whatever they are; prices that are read past the end of the array count as 0.
 *
 * Answers 0 and fills the buffers as noskjerf_default does:
 *   edges[0], edges[1], edges[2]  1; the lowest quantity; the highest
 *   prices[0]                     the price, 0 to 140,000,000
 * Of 13 edges and 11 prices all others are 0; what stands past these is left alone.
 * Or it answers a refusal, 22 before 2, and leaves the buffers as they were:
 *   22  heat is outside 1 to 100,000, gas outside 0 to 1,000,000, hubs outside 1 to 4, horizon outside 1 to 12, or a price that is read outside
 *       0 to 100,000,000
 *   2   the lowest quantity is below 0, the highest above 1,000,000, or the lowest is not below the highest
 * Or it answers -1, before these, where edges_len is below NOSKJERF_EDGES or prices_len below NOSKJERF_PRICES, and leaves the buffers as they were.
 *
 * In an opening, the curve stands in its resource's block as the curve of a pack: 1 at 25, edges[1] at 56, edges[0] at 57, edges[2] at 58 and
 * prices[0] at 59. A cut on such a resource has the same causes as on any other.
 */
int64_t noskjerf_hydro(int64_t low, int64_t high, int64_t heat, int64_t gas, size_t hubs, size_t horizon, const int64_t *hub_prices,
                       size_t hub_prices_len, uint64_t *edges, size_t edges_len, int64_t *prices, size_t prices_len);

#ifdef __cplusplus
}
#endif

#endif
