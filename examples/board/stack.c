/* Prints how much stack each call takes at most, over the sheets that are named as arguments and the heaviest sheets there
   are: 31 multi-span roofs of 16 spans, of kind 4 in situation 1 and of kind 9 in situations 1 and 3, and 31 roofs in a
   chain of kind 10; for the quote desk six and seven of them. The store has 32 sets, and the heaviest sheets are dated.
   Each call runs on a stack of its own that is painted before. */
#include <pthread.h>
#include <stdint.h>
#include <stdio.h>
#include <stdlib.h>
#include <string.h>

#include "wuqodlisa.h"

enum { STACK = 1 << 20, PAINT = 0xA5, SHEET = 16384, CALLS = 13, SETS = 32, FIELDS = 6 };

static const char *const names[CALLS] = {
    "nothing", "snow_verdict", "snow_make", "snow_load", "snow_overhang", "snow_guard_force", "snow_list",
    "snow_ground_load", "snow_desk_verdict", "snow_add_set", "snow_canonical", "snow_segment_count", "snow_segment"};

static unsigned char stack[STACK] __attribute__((aligned(4096)));
static uint32_t store[SNOW_STORE_NUMBERS];
static uint32_t set[FIELDS];
static unsigned char sheet[SHEET];
static size_t length;
static uint8_t out[SNOW_LIST_ROOM];
static uint32_t numbers[128];
static size_t most[CALLS];

/* A question of a call. Of snow_ground_load the zone is the item, the region the code and the altitude the station; of
   snow_add_set the item is the count of the set's numbers; of snow_segment the index is the station. */
struct job {
    int call;
    size_t item;
    uint8_t code;
    uint32_t station;
};

static void *run(void *argument)
{
    const struct job *job = argument;
    switch (job->call) {
    case 1: snow_verdict(store, SNOW_STORE_NUMBERS, sheet, length); break;
    case 2: snow_make(store, SNOW_STORE_NUMBERS, sheet, length, job->item, job->code, numbers, 128); break;
    case 3: snow_load(store, SNOW_STORE_NUMBERS, sheet, length, job->item, job->code, job->station); break;
    case 4: snow_overhang(store, SNOW_STORE_NUMBERS, sheet, length, job->item, job->code); break;
    case 5: snow_guard_force(store, SNOW_STORE_NUMBERS, sheet, length, job->item, job->code); break;
    case 6: snow_list(store, SNOW_STORE_NUMBERS, sheet, length, out, sizeof out); break;
    case 7: snow_ground_load(job->code, (uint8_t)job->item, (uint16_t)job->station); break;
    case 8: snow_desk_verdict(store, SNOW_STORE_NUMBERS, sheet, length); break;
    case 9: snow_add_set(store, SNOW_STORE_NUMBERS, set, job->item); break;
    case 10: snow_canonical(store, SNOW_STORE_NUMBERS, sheet, length, out, sizeof out); break;
    case 11: snow_segment_count(store, SNOW_STORE_NUMBERS, sheet, length, job->item, job->code); break;
    case 12: snow_segment(store, SNOW_STORE_NUMBERS, sheet, length, job->item, job->code, job->station, numbers, 4); break;
    default: break;
    }
    return NULL;
}

/* Runs one job on the painted stack and notes how deep it went. */
static void measure(struct job job)
{
    pthread_attr_t attributes;
    pthread_t thread;
    memset(stack, PAINT, sizeof stack);
    if (pthread_attr_init(&attributes) != 0 || pthread_attr_setstack(&attributes, stack, sizeof stack) != 0
        || pthread_create(&thread, &attributes, run, &job) != 0 || pthread_join(thread, NULL) != 0) {
        fprintf(stderr, "no thread\n");
        exit(1);
    }
    pthread_attr_destroy(&attributes);
    size_t low = 0;
    while (low < sizeof stack && stack[low] == PAINT)
        low++;
    if (most[job.call] < sizeof stack - low)
        most[job.call] = sizeof stack - low;
}

static void measure_sheet(void)
{
    const uint8_t codes[] = {1, 2, 3, 11, 12, 13, 31, 45, 255};
    uint32_t items = snow_verdict(store, SNOW_STORE_NUMBERS, sheet, length);
    if (SNOW_IS_REFUSAL(items))
        items = 1;
    measure((struct job){0, 0, 0, 0});
    measure((struct job){1, 0, 0, 0});
    measure((struct job){6, 0, 0, 0});
    measure((struct job){8, 0, 0, 0});
    measure((struct job){10, 0, 0, 0});
    for (size_t item = 0; item <= items; item++) {
        for (size_t k = 0; k < sizeof codes; k++) {
            measure((struct job){2, item, codes[k], 0});
            measure((struct job){3, item, codes[k], 5000});
            measure((struct job){11, item, codes[k], 0});
            for (uint32_t index = 0; index <= 32; index += 8)
                measure((struct job){12, item, codes[k], index});
        }
        for (uint8_t slope = 0; slope <= 2; slope++) {
            measure((struct job){4, item, slope, 0});
            measure((struct job){5, item, slope, 0});
        }
    }
}

/* Ground loads of every region and zone, and of those beside them. */
static void measure_map(void)
{
    for (uint8_t region = 0; region <= 9; region++)
        for (size_t zone = 0; zone <= 6; zone++)
            for (uint32_t altitude = 0; altitude <= 1501; altitude += 1501)
                measure((struct job){7, zone, region, altitude});
}

/* Fills the store set by set, each with five numbers, which are refused, before it has six; then one set too many. */
static void measure_sets(void)
{
    for (uint32_t count = 0; count <= SETS; count++) {
        const uint32_t next[FIELDS] = {2000 * count, 200 + count, 80, 400 + count, 5000, 15000 + count};
        memcpy(set, next, sizeof set);
        measure((struct job){9, FIELDS - 1, 0, 0});
        measure((struct job){9, FIELDS, 0, 0});
    }
}

static void put(size_t at, uint32_t value, int bytes)
{
    for (int i = 0; i < bytes; i++)
        sheet[at + (size_t)i] = (unsigned char)(value >> (8 * i));
}

/* Each of these puts a heavy item together and answers its bytes. */
static size_t heavy_site(size_t at, uint8_t situation)
{
    sheet[at] = 1;
    put(at + 1, 24999, 4);
    put(at + 5, 119, 2);
    put(at + 7, 99, 2);
    put(at + 9, 299, 2);
    sheet[at + 11] = situation;
    put(at + 12, 1500, 2);
    put(at + 14, 65535, 2); /* the job day */
    return 16;
}

/* 16 spans; on a roof of kind 9 then a depth and a length for each valley. */
static size_t heavy_spans(size_t at, uint8_t kind)
{
    sheet[at] = kind;
    sheet[at + 1] = 16;
    for (size_t k = 0; k < 16; k++) {
        put(at + 2 + 12 * k, 300 + (uint32_t)k, 2);
        put(at + 4 + 12 * k, 250 + (uint32_t)k, 2);
        put(at + 6 + 12 * k, 99999, 4);
        put(at + 10 + 12 * k, 100000, 4);
    }
    for (size_t valley = 0; kind == 9 && valley < 15; valley++) {
        put(at + 194 + 8 * valley, 29999, 4);
        put(at + 198 + 8 * valley, 99999 - (uint32_t)valley, 4);
    }
    return kind == 9 ? 20 * 16 - 6 : 2 + 12 * 16;
}

static size_t heavy_hall(size_t at)
{
    sheet[at] = 3;
    put(at + 1, 299, 2);
    put(at + 3, 301, 2);
    put(at + 7, 100000, 4);
    put(at + 11, 99999, 4);
    return 15;
}

static size_t heavy_step(size_t at, size_t upper)
{
    sheet[at] = 10;
    put(at + 1, 99999, 4);
    put(at + 5, 29999, 4);
    put(at + 9, (uint32_t)upper, 1);
    put(at + 10, 1, 1);
    return 11;
}

/* A roof of the heaviest sheet of a kind. Stepped roofs stand each under the next item, the last one under a hall. */
static size_t heavy_roof(size_t at, uint8_t kind, size_t item, size_t items)
{
    if (kind != 10)
        return heavy_spans(at, kind);
    return item + 1 < items ? heavy_step(at, item + 1) : heavy_hall(at);
}

/* Puts together the heaviest sheet of a kind with so many items. */
static void heaviest(uint8_t kind, uint8_t situation, size_t items)
{
    size_t at = 2 + 4 * items;
    memset(sheet, 0, sizeof sheet);
    put(0, (uint32_t)items, 2);
    for (size_t i = 0; i < items; i++) {
        size_t bytes = i == 0 ? heavy_site(at, situation) : heavy_roof(at, kind, i, items);
        put(2 + 4 * i, (uint32_t)at, 2);
        put(4 + 4 * i, (uint32_t)bytes, 2);
        at += bytes;
    }
    length = at;
}

int main(int count, char **names_of_sheets)
{
    measure_sets();
    for (int i = 1; i < count; i++) {
        FILE *file = fopen(names_of_sheets[i], "rb");
        if (file == NULL) {
            perror(names_of_sheets[i]);
            return 1;
        }
        length = fread(sheet, 1, sizeof sheet, file);
        fclose(file);
        measure_sheet();
    }
    heaviest(4, 1, 32);
    measure_sheet();
    heaviest(9, 1, 32);
    measure_sheet();
    heaviest(9, 3, 32);
    measure_sheet();
    heaviest(10, 1, 32);
    measure_sheet();
    heaviest(9, 3, 7); /* the most such roofs that the desk takes */
    measure_sheet();
    heaviest(10, 1, 8);
    measure_sheet();
    measure_map();
    for (int call = 1; call < CALLS; call++)
        printf("%-18s %zu bytes of stack\n", names[call], most[call] - most[0]);
    return 0;
}
