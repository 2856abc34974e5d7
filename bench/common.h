/* What plain and tuned C share: the tests of a step, and all but the inner loops of the operations. */
#ifndef COMMON_H
#define COMMON_H

#include "windowfloor.h"

static const uint64_t LIMIT = WINDOWFLOOR_LIMIT;

static inline uint64_t round_up(uint64_t a, uint64_t b)
{
    return (a + (b - 1)) / b;
}

static inline int legal(uint64_t capacity, uint8_t family, uint64_t p, uint64_t q)
{
    if (p > LIMIT || q > LIMIT || (family <= 5 && q != 0))
        return 0;
    switch (family) {
    case 1: return 2 * p <= capacity + 1;
    case 2: return p >= 1;
    case 3: return p >= 1 && 2 * p <= capacity;
    case 4: return p >= 2 && p <= capacity;
    case 5: return p >= 1 && p <= capacity;
    default: return p >= 1 && p <= capacity && capacity % p > 0 && (q + 1) * (capacity % p) >= p;
    }
}

/* The scale of a legal step. */
static inline uint64_t scale_of(uint64_t capacity, uint8_t family, uint64_t p, uint64_t q)
{
    switch (family) {
    case 1: return capacity;
    case 2: return capacity * p;
    case 3: return 2 * (capacity / p);
    case 4: return 2 * (p - 1);
    case 5: return capacity / p * (p - capacity % p);
    case 6: return 2 * ((q + 1) * (capacity / p));
    default: return capacity / p * (p - capacity % p) * (q + 1);
    }
}

/* The refusal of a family step, or 0 and its scale. */
static inline uint64_t judge_family(uint64_t capacity, uint8_t family, uint64_t p, uint64_t q,
                                    uint64_t *scale)
{
    if (capacity < 1 || capacity > LIMIT)
        return WINDOWFLOOR_BAD_CAPACITY;
    if (family < 1 || family > WINDOWFLOOR_FAMILIES)
        return WINDOWFLOOR_BAD_FAMILY;
    if (!legal(capacity, family, p, q))
        return WINDOWFLOOR_BAD_PARAMETER;
    *scale = scale_of(capacity, family, p, q);
    return *scale > LIMIT ? WINDOWFLOOR_SCALE_TOO_LARGE : 0;
}

/* A number of a job: four bytes, high byte first. */
static inline uint32_t word(const uint8_t *at)
{
    return (uint32_t)at[0] << 24 | (uint32_t)at[1] << 16 | (uint32_t)at[2] << 8 | at[3];
}

static inline void decode(const uint8_t *bytes, uint32_t *out, size_t n)
{
    for (size_t i = 0; i < n; i++)
        out[i] = word(bytes + 4 * i);
}

/* A count of a job, or the sizes of a block: two bytes. */
static inline uint16_t halfword(const uint8_t *at)
{
    return (uint16_t)(at[0] << 8 | at[1]);
}

/* Where plain and tuned C differ. */
typedef struct windowfloor_image_answer image_function(uint64_t capacity, uint8_t family, uint64_t p,
                                                       uint64_t q, uint64_t x);

image_function plain_image, tuned_image;

/* The images of a job with their counts as they lie in it, or NULL: each is 1. */
struct counted {
    const uint32_t *images;
    const uint8_t *counts;
    size_t n;
};

struct sums {
    uint64_t sum, total;
};

/* Of count times image, over n sizes from a place on. A loop of its own for each, so that neither asks for
 * counts. */
static inline uint64_t sum_from(const struct counted *list, size_t from, size_t n)
{
    uint64_t sum = 0;
    if (list->counts == NULL)
        for (size_t i = from; i < from + n; i++)
            sum += list->images[i];
    else
        for (size_t i = from; i < from + n; i++)
            sum += (uint64_t)halfword(list->counts + 2 * i) * list->images[i];
    return sum;
}

/* A short list, each copy by itself. */
struct copies {
    size_t n;
    uint32_t sizes[WINDOWFLOOR_MOST_COPIES];
};

struct parts {
    void (*fill_bests)(const uint32_t *table, size_t capacity, uint64_t *best);
    /* the fewest sizes of a table that is not dual-feasible, and a list of so many */
    size_t (*put_shortest)(const uint32_t *table, size_t capacity, uint64_t *working, uint64_t *second,
                           uint32_t *list);
    void (*map_family)(uint64_t capacity, uint8_t family, uint64_t p, uint64_t q, uint32_t *list,
                       size_t n);
    /* by a table that an earlier row has had checked; its entries as they lie in the job */
    void (*map_table)(const uint8_t *table, size_t entries, uint32_t *list, size_t n);
    /* of count times image */
    uint64_t (*sum_of_images)(uint64_t capacity, uint8_t family, uint64_t p, const uint32_t *sizes,
                              const uint16_t *counts, size_t n);
    /* writes the floor of each block; the sum of all, and the floors' total */
    struct sums (*floor_blocks)(const struct counted *list, const uint8_t *blocks, size_t count,
                                uint64_t scale, uint32_t *floors);
    /* writes a window for each copy; the fewest. No fewer than `least` hold the sum */
    uint64_t (*fill_windows)(const struct copies *copies, uint64_t capacity, uint64_t least,
                             uint32_t *windows);
};

extern const struct parts plain_parts, tuned_parts;

/* The other operations, made of these parts. */
struct windowfloor_table_answer check_table(const struct parts *parts,
                                            const uint32_t *table, size_t entries,
                                            uint64_t *working, size_t working_places,
                                            uint32_t *list, size_t list_places);

struct windowfloor_shortest_answer run_shortest(const struct parts *parts,
                                                const uint32_t *table, size_t entries,
                                                uint64_t *working, size_t working_places,
                                                uint64_t *second, size_t second_places,
                                                uint32_t *list, size_t list_places);

struct windowfloor_floor_answer run_floor(const struct parts *parts, const uint8_t *job, size_t bytes,
                                          uint32_t *images, size_t images_places,
                                          uint64_t *working, size_t working_places,
                                          uint32_t *list, size_t list_places,
                                          uint32_t *blocks, size_t blocks_places);

struct windowfloor_cut_answer run_cut(const struct parts *parts, const uint8_t *job, size_t bytes,
                                      uint32_t *images, size_t images_places,
                                      uint64_t *working, size_t working_places,
                                      uint32_t *list, size_t list_places,
                                      uint32_t *scales, size_t scales_places);

struct windowfloor_sweep_answer run_sweep(const struct parts *parts, uint64_t capacity,
                                          uint8_t family, const uint32_t *sizes, size_t n,
                                          const uint16_t *counts, size_t counts_length,
                                          uint64_t low, uint64_t high);

struct windowfloor_exact_answer run_exact(const struct parts *parts, uint64_t capacity,
                                          const uint32_t *sizes, size_t n,
                                          const uint16_t *counts, size_t counts_length,
                                          uint32_t *windows, size_t windows_places);

#endif
