/* Snow load arrangements of EN 1991-1-3:2003 for the firmware of the load terminals, and the quote desk's verdict.
 *
 * Every call takes any bytes as a sheet and any numbers, refuses what it can't answer, and ends.
 * What a caller owes: no pointer is null, each has the length given with it (in elements) and is aligned,
 * and memory lent for writing overlaps nothing else that the call gets.
 */
#ifndef WUQODLISA_H
#define WUQODLISA_H

#include <stddef.h>
#include <stdint.h>

#ifdef __cplusplus
extern "C" {
#endif

/* A refusal is 0x80000000 + 65,536 * number + item; an index above 65,535 shows as 65,535. A count is at most 32, a length
 * at most 16,384, a load at most 14,400,000 and a force at most 2,400,000, so no other answer but SNOW_NONE reaches 0x80000000. */
#define SNOW_REFUSED 0x80000000u

/* The answer where there is no such force. No refusal has this value: numbers are below 32, and its number would be
 * 32,767. */
#define SNOW_NONE 0xFFFFFFFFu

/* Whether an answer is a refusal: 0x80000000 or more, and not SNOW_NONE. */
#define SNOW_IS_REFUSAL(answer) ((uint32_t)(answer) - SNOW_REFUSED < SNOW_NONE - SNOW_REFUSED)

/* The number of a refusal and the item that it names:
 *  1 a sheet of fewer than 2 or more than 16,384 bytes, a count outside 1..32, or pairs that don't fit; at the quote desk
 *    more than 2,048 bytes, or a count outside 1..8
 *  2 an item that overlaps what is before it or runs past the sheet
 *  3 an unknown kind
 *  4 an item that is empty or not of its kind's length (a site has two: without a job day and with one)
 *  5 a first item that is no site, or a later site
 *  6 a site's field outside its range, altitude apart (a situation above 3 too); 7 an altitude above 1,500 m
 *  8 a roof's field outside its range (of kinds 4 and 9 a count of spans outside 2..16 too, of kind 12 a height above 1,000)
 *  9 a valley of kind 4 or 9 too steep; 10 a rise above half the span
 * 11 a slice shorter than four numbers a segment (in the call for one segment: under four numbers), or bytes fewer than the
 *    sheet that is written there (which names item 0)
 * 12 a station past the roof's end, or an index not below the count, of an item or of a segment
 * 13 an arrangement that the roof hasn't in this situation
 * 14 a map site's region outside 1..8 or its zone outside 1..5; 15 its ground load outside 100..25,000 N/m2
 * 16 a roof of kind 10 whose upper item is not there or not of kind 2, 3 or 10
 * 17 a roof of kind 10 that is met again when upper items are followed from it
 * 18 a store that isn't SNOW_STORE_NUMBERS numbers, has more than 32 sets or one that isn't sound; an added set that
 *    isn't sound or finds 32 there. It names item 0 and comes before every other number.
 * 19 a site whose job day is before the first day of every set in the store; it is a site's last rule */
#define SNOW_NUMBER(refusal) (((uint32_t)(refusal) - SNOW_REFUSED) / 65536u)
#define SNOW_ITEM(refusal) ((uint32_t)(refusal) % 65536u)

/* A number of bytes that holds the listing of any sheet. */
#define SNOW_LIST_ROOM 267373

/* The store of national figures, which every call on a sheet is lent: the count of its sets, 0 to 32, then six numbers a
 * set:
 *   the first day, 0..65,535, strictly later than that of the set before;
 *   the upper value of mu3 for kind 5, 1..800 hundredths;
 *   the low and the high end of the range of muw for kinds 6 and 10, 1..800 hundredths each;
 *   the low and the high end of the range of drift lengths for kinds 6 and 10, 1,000..30,000 mm each.
 * A set that keeps this and has no low end above its high end is sound. Numbers behind the last set are free.
 * A site may carry two further bytes at its end, its job day. The job then uses the last set whose first day isn't after
 * the job day. A site without a day uses the recommended figures, whatever the store holds: 200, 80, 400, 5000, 15000. */
#define SNOW_STORE_NUMBERS 193

/* A store without sets. */
static const uint32_t SNOW_EMPTY_STORE[SNOW_STORE_NUMBERS] = {0};

/* Puts a set behind the last one of the store: the six numbers above, in their order.
 * The new count, 1 to 32, or the refusal 18, also where fields isn't 6, which alters nothing. Every other number of the
 * store keeps its value, and no answer about a job without a day, or dated before the set, changes. */
uint32_t snow_add_set(uint32_t *store, size_t numbers, const uint32_t *set, size_t fields);

/* The count of a sheet's items, or a refusal (18, 1 to 10, 14 to 17, 19; a map site's 14 and 15 come after its 6 and 7, a
 * dated site's 19 after these, 16 after every item's own rules and 17 after 16). */
uint32_t snow_verdict(const uint32_t *store, size_t numbers, const uint8_t *sheet, size_t length);

/* The same for the quote desk, which takes at most 8 items and 2,048 bytes: a sheet that has more is refused by 1, item 0,
 * before any other rule on it. On every other sheet it answers what snow_verdict does. */
uint32_t snow_desk_verdict(const uint32_t *store, size_t numbers, const uint8_t *sheet, size_t length);

/* Codes of arrangements: 1, 2, 3 persistent snow; 11, 12, 13 the same shapes with exceptional falls; 30 + j, at most 45,
 * an exceptional drift in valley j of a roof of kind 9; 31 the one code of kinds 11 and 12, the drift at a parapet or at a
 * projection up to 1 m high. Situations (Annex A): 0 case A, 1 B1, 2 B2, 3 B3. Codes 12 and 13 belong to situation 1, 11 to
 * 1 and 3, drifts to 2 and 3, where kind 9 has no code 2. Kind 10 has the codes of kind 6. */

/* Writes the segments of an item's arrangement at the front of out, four numbers each: start, end, load, load.
 * Numbers behind them keep their values. 128 numbers are room for any arrangement.
 * The count of segments, or a refusal (18, 1 to 10, 14 to 17, 19, 12 for the index, 13, 11), which alters nothing. The
 * site, item 0, has no arrangement: 13. */
uint32_t snow_make(const uint32_t *store, size_t numbers, const uint8_t *sheet, size_t length, size_t item, uint8_t code,
                   uint32_t *out, size_t room);

/* For a board that has space for one segment alone: the count of an item's segments, and one segment by its index.
 *
 * The count of segments of an item's arrangement, at most 32, or a refusal (18, 1 to 10, 14 to 17, 19, 12 for the item's
 * index, 13). It is what snow_make answers in a slice that is long enough. */
uint32_t snow_segment_count(const uint32_t *store, size_t numbers, const uint8_t *sheet, size_t length, size_t item,
                            uint8_t code);

/* Writes the segment at an index, counted from 0 at the roof's left end, to the first four numbers of out: start, end,
 * load, load. Numbers behind the four keep their values. The segments of all indexes below the count, in turn, are the
 * numbers that snow_make writes.
 * 4, or a refusal (18, 1 to 10, 14 to 17, 19, 12 for the item's index, 13, 12 for a segment's index that isn't below the
 * count, 11 for a room under four numbers), which alters nothing. */
uint32_t snow_segment(const uint32_t *store, size_t numbers, const uint8_t *sheet, size_t length, size_t item,
                      uint8_t code, size_t index, uint32_t *out, size_t room);

/* The load at a station, in whole N/m2, never below the exact rule and less than 1.2 N/m2 above it, or a refusal (18,
 * 1 to 10, 14 to 17, 19, 12 for the index, 13, 12 for the station). */
uint32_t snow_load(const uint32_t *store, size_t numbers, const uint8_t *sheet, size_t length, size_t item, uint8_t code,
                   uint32_t station);

/* The overhang at the eave of a slope (1 left or only, 2 right), in N/m, SNOW_NONE, or a refusal (18, 1 to 10, 14 to 17,
 * 19, 12 for the index). Either eave of a pitched roof has that of the larger of its two slopes' loads. The site, item 0,
 * has none. */
uint32_t snow_overhang(const uint32_t *store, size_t numbers, const uint8_t *sheet, size_t length, size_t item,
                       uint8_t slope);

/* The force at the guard of a slope, from that slope's own load, in N/m, SNOW_NONE, or a refusal (18, 1 to 10, 14 to 17,
 * 19, 12 for the index). */
uint32_t snow_guard_force(const uint32_t *store, size_t numbers, const uint8_t *sheet, size_t length, size_t item,
                          uint8_t slope);

/* Writes the listing of a sheet at the front of out, the line REFUSED for a refused sheet or store (REFUSED 18 0), and
 * answers its bytes. Each next roof is the lowest item left whose upper item, if it has one, is listed already.
 * Bytes behind it keep their values. Where room is less than SNOW_LIST_ROOM nothing is written and 0 is answered. */
size_t snow_list(const uint32_t *store, size_t numbers, const uint8_t *sheet, size_t length, uint8_t *out, size_t room);

/* A number of bytes that holds any sheet. */
#define SNOW_SHEET_BYTES 16384

/* Writes an accepted sheet in the one way at the front of out: its count, its pairs, then the items in their order without
 * gaps. The sheets of one list of items give the same bytes, those of different lists different ones; the result is
 * accepted with the same items, gets the same answer from every call on an item and the same listing, and is no longer
 * than the sheet was. Written again it is the same. Bytes behind it keep their values.
 * The length of the result, or a refusal (18, 1 to 10, 14 to 17, 19, then 11, item 0), which alters nothing. */
uint32_t snow_canonical(const uint32_t *store, size_t numbers, const uint8_t *sheet, size_t length, uint8_t *out,
                        size_t room);

/* The ground load sk of a map site by Table C.1, in N/m2, or a refusal, which names item 0: 7 altitude above 1,500 m,
 * 14 region outside 1..8 or zone outside 1..5, 15 load outside 100..25,000, in this order.
 * Regions: 1 Alpine Region; 2 Central East; 3 Greece; 4 Iberian Peninsula; 5 Mediterranean Region; 6 Central West;
 * 7 Sweden, Finland; 8 UK, Republic of Ireland. For one region and zone the load never falls as the altitude rises. */
uint32_t snow_ground_load(uint8_t region, uint8_t zone, uint16_t altitude);

#ifdef __cplusplus
}
#endif

#endif
