/* The operations as most would write them: each image from its formula, each best over all sizes, a shortest
 * list by rows over all sizes, a table decoded for each row, a short list by branch and bound. */
#include <string.h>

#include "common.h"

static uint64_t threshold(uint64_t capacity, uint64_t p, uint64_t x)
{
    if (x > capacity - p)
        return capacity;
    return x < p ? 0 : x;
}

static uint64_t rounding(uint64_t capacity, uint64_t p, uint64_t x)
{
    if (x * (p + 1) % capacity == 0)
        return x * p;
    return x * (p + 1) / capacity * capacity;
}

static uint64_t vanderbeck(uint64_t capacity, uint64_t p, uint64_t x)
{
    return x == 0 ? 0 : round_up(p * x, capacity) - 1;
}

static uint64_t burdett_johnson(uint64_t capacity, uint64_t p, uint64_t x)
{
    uint64_t r = capacity % p, a = x % p;
    return x / p * (p - r) + (a > r ? a - r : 0);
}

static uint64_t letchford_lodi(uint64_t capacity, uint64_t p, uint64_t q, uint64_t x)
{
    uint64_t r = capacity % p, a = x % p;
    return (q + 1) * (x / p) + (a > r ? round_up((a - r) * q, p - r) : 0);
}

static uint64_t dash_gunluk(uint64_t capacity, uint64_t p, uint64_t q, uint64_t x)
{
    uint64_t r = capacity % p, a = x % p, gap = p - r;
    uint64_t start = x / p * gap * (q + 1);
    if (a <= r)
        return start;
    if (q * (p - a) % gap == 0)
        return start + (q + 1) * (a - r);
    return start + round_up((a - r) * q, gap) * gap;
}

/* Families 3, 4 and 6 before the mirror. */
static uint64_t base(uint64_t capacity, uint8_t family, uint64_t p, uint64_t q, uint64_t x)
{
    switch (family) {
    case 3: return x / p;
    case 4: return vanderbeck(capacity, p, x);
    default: return letchford_lodi(capacity, p, q, x);
    }
}

static uint64_t mirror(uint64_t capacity, uint8_t family, uint64_t p, uint64_t q, uint64_t x)
{
    if (2 * x < capacity)
        return 2 * base(capacity, family, p, q, x);
    uint64_t top = base(capacity, family, p, q, capacity);
    if (2 * x == capacity)
        return top;
    return 2 * top - 2 * base(capacity, family, p, q, capacity - x);
}

static uint64_t image_of(uint64_t capacity, uint8_t family, uint64_t p, uint64_t q, uint64_t x)
{
    switch (family) {
    case 1: return threshold(capacity, p, x);
    case 2: return rounding(capacity, p, x);
    case 5: return burdett_johnson(capacity, p, x);
    case 7: return dash_gunluk(capacity, p, q, x);
    default: return mirror(capacity, family, p, q, x);
    }
}

struct windowfloor_image_answer plain_image(uint64_t capacity, uint8_t family, uint64_t p,
                                            uint64_t q, uint64_t x)
{
    struct windowfloor_image_answer answer = {0, 0, 0};
    uint64_t scale;
    answer.number = judge_family(capacity, family, p, q, &scale);
    if (answer.number == 0 && x > capacity)
        answer.number = WINDOWFLOOR_SIZE_OVER_CAPACITY;
    if (answer.number == 0) {
        answer.image = image_of(capacity, family, p, q, x);
        answer.scale = scale;
    }
    return answer;
}

static void fill_bests(const uint32_t *table, size_t capacity, uint64_t *best)
{
    best[0] = 0;
    for (size_t c = 1; c <= capacity; c++) {
        uint64_t most = 0;
        for (size_t y = 1; y <= c; y++)
            if (table[y] + best[c - y] > most)
                most = table[y] + best[c - y];
        best[c] = most;
    }
}

/* Row k: of at most k sizes that fit each capacity, the greatest totals. Row 0 stays 0. */
static uint64_t totals[WINDOWFLOOR_MOST_ENTRIES][WINDOWFLOOR_MOST_ENTRIES];

static void fill_row(const uint32_t *table, size_t capacity, const uint64_t *fewer, uint64_t *row)
{
    for (size_t c = 0; c <= capacity; c++) {
        uint64_t most = fewer[c];
        for (size_t y = 1; y <= c; y++)
            if (table[y] + fewer[c - y] > most)
                most = table[y] + fewer[c - y];
        row[c] = most;
    }
}

/* All rows are kept, in memory of its own, and the list is read from the last of them on. */
static size_t put_shortest(const uint32_t *table, size_t capacity, uint64_t *working, uint64_t *second,
                           uint32_t *list)
{
    size_t length = 0, c = capacity;
    (void)working;
    (void)second;
    while (totals[length][capacity] <= table[capacity]) {
        fill_row(table, capacity, totals[length], totals[length + 1]);
        length++;
    }
    for (size_t k = length; k > 0; k--) {
        size_t y = 1;
        while (table[y] + totals[k - 1][c - y] != totals[k][c])
            y++;
        list[length - k] = (uint32_t)y;
        c -= y;
    }
    return length;
}

static void map_family(uint64_t capacity, uint8_t family, uint64_t p, uint64_t q, uint32_t *list,
                       size_t n)
{
    for (size_t i = 0; i < n; i++)
        list[i] = (uint32_t)image_of(capacity, family, p, q, list[i]);
}

static void map_table(const uint8_t *table, size_t entries, uint32_t *list, size_t n)
{
    uint32_t images[WINDOWFLOOR_MOST_ENTRIES];
    decode(table, images, entries);
    for (size_t i = 0; i < n; i++)
        list[i] = images[list[i]];
}

static uint64_t sum_of_images(uint64_t capacity, uint8_t family, uint64_t p, const uint32_t *sizes,
                              const uint16_t *counts, size_t n)
{
    uint64_t sum = 0;
    for (size_t i = 0; i < n; i++)
        sum += counts[i] * image_of(capacity, family, p, 0, sizes[i]);
    return sum;
}

static struct sums floor_blocks(const struct counted *list, const uint8_t *blocks, size_t count,
                                uint64_t scale, uint32_t *floors)
{
    struct sums sums = {sum_from(list, 0, list->n), 0};
    size_t at = 0;
    for (size_t i = 0; i < count; i++) {
        size_t n = halfword(blocks + 2 * i);
        floors[i] = (uint32_t)round_up(sum_from(list, at, n), scale);
        sums.total += floors[i];
        at += n;
    }
    return sums;
}

struct search {
    const struct copies *copies;
    uint64_t least, fewest; /* the fewest so far */
    uint64_t rooms[WINDOWFLOOR_MOST_COPIES];
    uint32_t windows[WINDOWFLOOR_MOST_COPIES];
    uint32_t *best;
};

/* The copies from the i-th on, in list order: each into every open window with room for it, and into a new
 * one. */
static void place_from(struct search *s, size_t i, size_t open)
{
    if (open >= s->fewest)
        return;
    if (i == s->copies->n) {
        s->fewest = open;
        memcpy(s->best, s->windows, i * sizeof *s->best);
        return;
    }
    uint32_t size = s->copies->sizes[i];
    for (size_t w = 0; w <= open && s->fewest > s->least; w++) {
        if (s->rooms[w] < size)
            continue;
        s->rooms[w] -= size;
        s->windows[i] = (uint32_t)w;
        place_from(s, i + 1, open + (w == open));
        s->rooms[w] += size;
    }
}

static uint64_t fill_windows(const struct copies *copies, uint64_t capacity, uint64_t least,
                             uint32_t *windows)
{
    struct search s = {copies, least, copies->n + 1, {0}, {0}, windows};
    for (size_t w = 0; w < copies->n; w++)
        s.rooms[w] = capacity;
    place_from(&s, 0, 0);
    return s.fewest;
}

const struct parts plain_parts = {fill_bests, put_shortest, map_family, map_table, sum_of_images,
                                  floor_blocks, fill_windows};
