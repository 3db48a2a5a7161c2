/* Asks the calls about one sheet, about some ground loads and about sets of national figures, prints every answer and
 * checks what the header says of them. The sheet is asked about with an empty store.
 *     c_example SHEET         all answers; the exit code is 1 where a check fails
 *     c_example SHEET list    the listing alone
 */
#include <inttypes.h>
#include <stdbool.h>
#include <stdio.h>
#include <string.h>

#include "wuqodlisa.h"

#define SLICE 128 /* 32 segments of four numbers, the most there are */
#define FIELDS 6  /* numbers of a set */
#define MARK 0xA5 /* fills memory before it is lent */

struct sheet {
    uint8_t bytes[16385]; /* the longest sheet and one more, so that a longer file is refused */
    size_t length;
};

struct refusal { uint32_t number, item; };

struct place {
    uint8_t region, zone;
    uint16_t altitude;
};

static const uint8_t codes[] = {1,  2,  3,  11, 12, 13, /* then a drift in each of up to 15 valleys; 31 at an obstruction too */
                                31, 32, 33, 34, 35, 36, 37, 38, 39, 40, 41, 42, 43, 44, 45};
static const size_t missing[] = {255, 256, 65534, 65535, 65536, SIZE_MAX}; /* no sheet has such an item */
static const struct place on_map[] = {
    {1, 2, 500}, {2, 3, 300}, {3, 1, 650}, {4, 4, 800}, {5, 2, 452}, {6, 5, 120}, {7, 3, 60}, {8, 1, 250},
};
static const struct { struct place place; uint32_t number; } off_map[] = {
    {{9, 6, 1501}, 7}, {{1, 2, 65535}, 7}, {{0, 1, 1500}, 14}, {{9, 1, 0}, 14},
    {{8, 0, 0}, 14},   {{2, 6, 1500}, 14}, {{8, 1, 0}, 15},    {{2, 5, 1500}, 15},
};
static unsigned checks, failures;

static void check(bool holds, const char *what, size_t item)
{
    checks++;
    failures += !holds;
    if (!holds)
        fprintf(stderr, "item %zu: %s\n", item, what);
}

/* Takes a refusal apart. The number is 0 for a count, a load, a force and SNOW_NONE, which are none. */
static struct refusal decode(uint32_t answer)
{
    if (!SNOW_IS_REFUSAL(answer))
        return (struct refusal){0, 0};
    return (struct refusal){SNOW_NUMBER(answer), SNOW_ITEM(answer)};
}

/* The item that a refusal names: an index above 65,535 shows as 65,535. */
static uint32_t shown(size_t item)
{
    return item < 65535 ? (uint32_t)item : 65535;
}

static bool refused_with(uint32_t answer, uint32_t number, size_t item)
{
    struct refusal why = decode(answer);
    return why.number == number && why.item == shown(item);
}

static void print_answer(uint32_t answer, const char *unit)
{
    struct refusal why = decode(answer);
    if (answer == SNOW_NONE)
        printf("none\n");
    else if (why.number != 0)
        printf("refused %" PRIu32 " item %" PRIu32 "\n", why.number, why.item);
    else
        printf("%" PRIu32 " %s\n", answer, unit);
}

static bool is_marked(const void *memory, size_t length)
{
    const uint8_t *bytes = memory;
    while (length > 0 && bytes[length - 1] == MARK)
        length--;
    return length == 0;
}

/* Lends a marked slice. A refusal alters nothing of it, an answer only the segments at its front. */
static uint32_t make(const struct sheet *sheet, size_t item, uint8_t code, uint32_t out[SLICE], size_t room)
{
    memset(out, MARK, SLICE * sizeof *out);
    uint32_t answer =
        snow_make(SNOW_EMPTY_STORE, SNOW_STORE_NUMBERS, sheet->bytes, sheet->length, item, code, out, room);
    size_t written = decode(answer).number != 0 ? 0 : 4 * (size_t)answer;
    bool kept = written <= SLICE && is_marked(out + written, (SLICE - written) * sizeof *out);
    check(kept, "snow_make altered more than its segments", item);
    return answer;
}

/* Lends the first numbers of five marked ones for one segment. A refusal alters nothing of them, an answer the four at
 * their front. */
static uint32_t segment(const struct sheet *sheet, size_t item, uint8_t code, size_t index, uint32_t out[5], size_t room)
{
    memset(out, MARK, 5 * sizeof *out);
    uint32_t answer = snow_segment(SNOW_EMPTY_STORE, SNOW_STORE_NUMBERS, sheet->bytes, sheet->length, item, code, index,
                                   out, room);
    size_t written = decode(answer).number != 0 ? 0 : 4;
    check(is_marked(out + written, (5 - written) * sizeof *out), "snow_segment altered more than its segment", item);
    return answer;
}

static uint32_t segment_count(const struct sheet *sheet, size_t item, uint8_t code)
{
    return snow_segment_count(SNOW_EMPTY_STORE, SNOW_STORE_NUMBERS, sheet->bytes, sheet->length, item, code);
}

/* The arrangement that was made, as a board reads it that has space for one segment: the count, then each index. */
static void ask_one_by_one(const struct sheet *sheet, size_t item, uint8_t code, const uint32_t *made, size_t count)
{
    uint32_t out[5];
    uint32_t number = segment_count(sheet, item, code);
    printf("COUNT %zu %u: ", item, code);
    print_answer(number, "segments");
    check(number == count, "the count is another one", item);
    for (size_t i = 0; i < count; i++) {
        uint32_t answer = segment(sheet, item, code, i, out, 5);
        check(answer == 4 && memcmp(out, made + 4 * i, 4 * sizeof *out) == 0, "a single segment differs", item);
    }
    check(refused_with(segment(sheet, item, code, 0, out, 3), 11, item), "three numbers for a segment", item);
    check(refused_with(segment(sheet, item, code, count, out, 3), 12, item), "an index at the count", item);
}

static uint32_t load(const struct sheet *sheet, size_t item, uint8_t code, uint32_t station)
{
    uint32_t answer =
        snow_load(SNOW_EMPTY_STORE, SNOW_STORE_NUMBERS, sheet->bytes, sheet->length, item, code, station);
    printf("LOAD %zu %u at %" PRIu32 ": ", item, code, station);
    print_answer(answer, "N/m2");
    return answer;
}

/* A segment and the loads on it. A position shared with a neighbour reads the greater load. */
static void ask_segment(const struct sheet *sheet, size_t item, uint8_t code, const uint32_t segment[4])
{
    uint32_t start = segment[0], end = segment[1];
    printf("SEGMENT %zu %u: %" PRIu32 " %" PRIu32 " %" PRIu32 " %" PRIu32 "\n", item, code, start, end,
           segment[2], segment[3]);
    uint32_t at_start = load(sheet, item, code, start);
    load(sheet, item, code, start + (end - start) / 2);
    uint32_t at_end = load(sheet, item, code, end);
    check(at_start < SNOW_REFUSED && at_start >= segment[2], "load below the segment's first", item);
    check(at_end < SNOW_REFUSED && at_end >= segment[3], "load below the segment's second", item);
}

/* The segments of one arrangement; their count. */
static size_t ask_arrangement(const struct sheet *sheet, size_t item, uint8_t code)
{
    uint32_t out[SLICE], one[5];
    uint32_t count = make(sheet, item, code, out, SLICE);
    printf("MAKE %zu %u: ", item, code);
    print_answer(count, "segments");
    if (decode(count).number != 0) {
        check(refused_with(count, 13, item), "refused, and not with 13", item);
        check(load(sheet, item, code, 0) == count, "a load where no arrangement is made", item);
        check(segment_count(sheet, item, code) == count, "segments where no arrangement is made", item);
        check(segment(sheet, item, code, SIZE_MAX, one, 3) == count, "a segment where no arrangement is made", item);
        return 0;
    }
    ask_one_by_one(sheet, item, code, out, count);
    for (size_t i = 0; i < count; i++)
        ask_segment(sheet, item, code, out + 4 * i);
    uint32_t past = out[4 * count - 3] + 1;
    check(refused_with(load(sheet, item, code, past), 12, item), "a load past the roof's end", item);
    check(refused_with(make(sheet, item, code, out, 4 * count - 1), 11, item), "a slice too short", item);
    return count;
}

/* The forces at eave and guard of one slope; how many there are. */
static size_t ask_slope(const struct sheet *sheet, size_t item, uint8_t slope)
{
    uint32_t overhang = snow_overhang(SNOW_EMPTY_STORE, SNOW_STORE_NUMBERS, sheet->bytes, sheet->length, item, slope);
    uint32_t guard = snow_guard_force(SNOW_EMPTY_STORE, SNOW_STORE_NUMBERS, sheet->bytes, sheet->length, item, slope);
    printf("OVERHANG %zu slope %u: ", item, slope);
    print_answer(overhang, "N/m");
    printf("GUARD %zu slope %u: ", item, slope);
    print_answer(guard, "N/m");
    return (size_t)(overhang < SNOW_REFUSED) + (guard < SNOW_REFUSED);
}

/* One roof; the count of its lines in the listing. */
static size_t ask_roof(const struct sheet *sheet, size_t item)
{
    uint32_t out[SLICE];
    size_t lines = 0;
    for (size_t i = 0; i < sizeof codes; i++)
        lines += ask_arrangement(sheet, item, codes[i]);
    check(refused_with(make(sheet, item, 99, out, SLICE), 13, item), "code 99 is made", item);
    return lines + ask_slope(sheet, item, 1) + ask_slope(sheet, item, 2);
}

/* Every call that asks for this item gives the same refusal. */
static void check_refused(const struct sheet *sheet, size_t item, uint32_t refusal)
{
    uint32_t out[SLICE], one[5];
    uint32_t reading = snow_load(SNOW_EMPTY_STORE, SNOW_STORE_NUMBERS, sheet->bytes, sheet->length, item, 1, 0);
    uint32_t overhang = snow_overhang(SNOW_EMPTY_STORE, SNOW_STORE_NUMBERS, sheet->bytes, sheet->length, item, 1);
    uint32_t guard = snow_guard_force(SNOW_EMPTY_STORE, SNOW_STORE_NUMBERS, sheet->bytes, sheet->length, item, 1);
    check(make(sheet, item, 1, out, SLICE) == refusal, "snow_make refuses otherwise", item);
    check(segment_count(sheet, item, 1) == refusal, "snow_segment_count refuses otherwise", item);
    check(segment(sheet, item, 1, 0, one, 5) == refusal, "snow_segment refuses otherwise", item);
    check(reading == refusal, "snow_load refuses otherwise", item);
    check(overhang == refusal && guard == refusal, "a force is refused otherwise", item);
}

/* An index that the sheet has no item for is refused by 12. */
static void ask_missing(const struct sheet *sheet, size_t item)
{
    printf("INDEX %zu: ", item);
    print_answer(snow_load(SNOW_EMPTY_STORE, SNOW_STORE_NUMBERS, sheet->bytes, sheet->length, item, 1, 0), "N/m2");
    check_refused(sheet, item, SNOW_REFUSED + 65536 * 12 + shown(item));
}

static uint32_t ground_load(struct place at)
{
    uint32_t answer = snow_ground_load(at.region, at.zone, at.altitude);
    printf("GROUND region %u zone %u at %u m: ", at.region, at.zone, at.altitude);
    print_answer(answer, "N/m2");
    return answer;
}

/* A ground load of each region, which is no less a metre higher up, and places that are refused. Where several numbers
 * hold, the first in the order is given. */
static void ask_map(void)
{
    for (size_t i = 0; i < sizeof on_map / sizeof *on_map; i++) {
        uint32_t load = ground_load(on_map[i]);
        uint32_t above = snow_ground_load(on_map[i].region, on_map[i].zone, on_map[i].altitude + 1);
        check(load >= 100 && load <= above && above <= 25000, "a ground load falls or is out of range", 0);
    }
    for (size_t i = 0; i < sizeof off_map / sizeof *off_map; i++) {
        uint32_t answer = ground_load(off_map[i].place);
        check(refused_with(answer, off_map[i].number, 0), "a ground load is refused otherwise", 0);
    }
}

/* Adds a set. A refusal alters nothing, an answer the count and the set's place alone. */
static uint32_t add_set(uint32_t store[SNOW_STORE_NUMBERS], const uint32_t *set, size_t fields)
{
    uint32_t after[SNOW_STORE_NUMBERS];
    memcpy(after, store, sizeof after);
    uint32_t answer = snow_add_set(store, SNOW_STORE_NUMBERS, set, fields);
    printf("SET of %zu numbers from day %" PRIu32 ": ", fields, set[0]);
    print_answer(answer, "sets");
    if (decode(answer).number == 0) {
        memcpy(after + 1 + FIELDS * after[0], set, FIELDS * sizeof *set);
        after[0]++;
        check(answer == after[0], "the count of sets is another one", 0);
    }
    check(memcmp(store, after, sizeof after) == 0, "snow_add_set altered more than its set", 0);
    return answer;
}

/* A dated job: an arch of 4,000 on 20,000 under 1,000 N/m2. mu3 is 2.2 before the upper value of the set in use limits it,
 * and the load at the right peak is 1,000 times mu3. */
static uint32_t dated_load(const uint32_t *store, size_t numbers, uint16_t day)
{
    const uint8_t low = (uint8_t)(day % 256), high = (uint8_t)(day / 256);
    const uint8_t sheet[] = {2, 0, 10, 0, 16, 0, 26, 0, 9, 0, /* then the site and the arch */
                             1, 0xE8, 3, 0, 0, 100, 0, 100, 0, 200, 0, 0, 0xF4, 1, low, high,
                             5, 0xA0, 0x0F, 0, 0, 0x20, 0x4E, 0, 0};
    uint32_t answer = snow_load(store, numbers, sheet, sizeof sheet, 1, 2, 60000);
    printf("JOB of day %u, %" PRIu32 " sets in %zu numbers: ", day, store[0], numbers);
    print_answer(answer, "N/m2");
    return answer;
}

/* A country's annex by its first day, then a later one. Open jobs stay on the old one. */
static void ask_sets(void)
{
    static const uint32_t first[] = {9000, 180, 80, 400, 5000, 15000};
    static const uint32_t second[] = {9500, 250, 100, 300, 4000, 20000, 0}; /* the last number is one too many */
    uint32_t store[SNOW_STORE_NUMBERS];
    memcpy(store, SNOW_EMPTY_STORE, sizeof store);
    check(refused_with(dated_load(store, SNOW_STORE_NUMBERS, 9132), 19, 0), "a job without a set", 0);
    check(add_set(store, first, FIELDS) == 1, "the first set", 0);
    check(refused_with(dated_load(store, SNOW_STORE_NUMBERS, 8999), 19, 0), "a job before the first set", 0);
    check(dated_load(store, SNOW_STORE_NUMBERS, 9132) == 1800, "a job of the first set", 0);
    check(refused_with(add_set(store, second, FIELDS - 1), 18, 0), "a set of five numbers is added", 0);
    check(refused_with(add_set(store, second, FIELDS + 1), 18, 0), "a set of seven numbers is added", 0);
    check(add_set(store, second, FIELDS) == 2, "the second set", 0);
    check(refused_with(add_set(store, first, FIELDS), 18, 0), "a set that isn't later is added", 0);
    check(dated_load(store, SNOW_STORE_NUMBERS, 9132) == 1800, "an open job changes", 0);
    check(dated_load(store, SNOW_STORE_NUMBERS, 9499) == 1800, "the last day of the first set", 0);
    check(dated_load(store, SNOW_STORE_NUMBERS, 9500) == 2200, "the first day of the second set", 0);
    check(refused_with(dated_load(store, SNOW_STORE_NUMBERS - 1, 9500), 18, 0), "a store of 192 numbers", 0);
}

/* Prints the listing; the count of its lines. One byte of room too little alters nothing. */
static size_t list(const struct sheet *sheet)
{
    static uint8_t text[SNOW_LIST_ROOM];
    memset(text, MARK, sizeof text);
    size_t lines = 0;
    size_t bytes =
        snow_list(SNOW_EMPTY_STORE, SNOW_STORE_NUMBERS, sheet->bytes, sheet->length, text, sizeof text - 1);
    check(bytes == 0 && is_marked(text, sizeof text), "a listing in too little room", 0);
    bytes = snow_list(SNOW_EMPTY_STORE, SNOW_STORE_NUMBERS, sheet->bytes, sheet->length, text, sizeof text);
    for (size_t i = 0; i < bytes; i++)
        lines += text[i] == '\n';
    fwrite(text, 1, bytes, stdout);
    return lines;
}

/* What the quote desk answers: the terminal's verdict, or 1 where the sheet has more than 8 items or 2,048 bytes. */
static void ask_desk(const struct sheet *sheet, uint32_t verdict)
{
    uint32_t answer = snow_desk_verdict(SNOW_EMPTY_STORE, SNOW_STORE_NUMBERS, sheet->bytes, sheet->length);
    unsigned items = sheet->length < 2 ? 0 : sheet->bytes[0] + 256u * sheet->bytes[1];
    bool inside = items <= 8 && sheet->length <= 2048;
    printf("DESK: ");
    print_answer(answer, "items");
    check(inside ? answer == verdict : refused_with(answer, 1, 0), "the desk reads otherwise", 0);
}

/* Writes the sheet in the one way, and again. A refusal is the verdict's; a byte of room too little alters nothing. */
static void ask_canonical(const struct sheet *sheet, uint32_t verdict)
{
    static uint8_t once[SNOW_SHEET_BYTES + 1], again[SNOW_SHEET_BYTES];
    memset(once, MARK, sizeof once);
    memset(again, MARK, sizeof again);
    uint32_t answer =
        snow_canonical(SNOW_EMPTY_STORE, SNOW_STORE_NUMBERS, sheet->bytes, sheet->length, once, sizeof once);
    printf("CANONICAL: ");
    print_answer(answer, "bytes");
    if (decode(verdict).number != 0) {
        check(answer == verdict && is_marked(once, sizeof once), "a refused sheet is written", 0);
        return;
    }
    bool kept = answer <= sheet->length && is_marked(once + answer, sizeof once - answer);
    check(kept, "snow_canonical altered more than its result", 0);
    uint32_t short_of = snow_canonical(SNOW_EMPTY_STORE, SNOW_STORE_NUMBERS, once, answer, again, answer - 1);
    check(refused_with(short_of, 11, 0) && is_marked(again, sizeof again), "a sheet in too little room", 0);
    uint32_t same = snow_canonical(SNOW_EMPTY_STORE, SNOW_STORE_NUMBERS, once, answer, again, answer);
    check(same == answer && memcmp(once, again, answer) == 0, "written again it is another sheet", 0);
}

static void ask(const struct sheet *sheet)
{
    size_t lines = 1; /* the header, or the line REFUSED */
    uint32_t count = snow_verdict(SNOW_EMPTY_STORE, SNOW_STORE_NUMBERS, sheet->bytes, sheet->length);
    printf("VERDICT: ");
    print_answer(count, "items");
    ask_desk(sheet, count);
    ask_canonical(sheet, count);
    if (decode(count).number != 0) {
        check_refused(sheet, 1, count);
    } else {
        for (size_t item = 1; item < count; item++)
            lines += ask_roof(sheet, item);
        ask_missing(sheet, count);
        for (size_t i = 0; i < sizeof missing / sizeof *missing; i++)
            ask_missing(sheet, missing[i]);
    }
    check(list(sheet) == lines, "the listing has other lines", 0);
    ask_map();
    ask_sets();
    printf("CHECKS: %u\n", checks);
}

int main(int count, char **arguments)
{
    static struct sheet sheet;
    FILE *file = count < 2 ? NULL : fopen(arguments[1], "rb");
    if (file == NULL) {
        fprintf(stderr, "usage: c_example SHEET [list]\n");
        return 2;
    }
    sheet.length = fread(sheet.bytes, 1, sizeof sheet.bytes, file);
    fclose(file);
    if (count > 2 && strcmp(arguments[2], "list") == 0)
        list(&sheet);
    else
        ask(&sheet);
    return failures != 0;
}
