/* The operations tuned: the family is chosen once, a step is prepared once, mirrored families fold
 * y = min(x, C - x), formulas have no branches on data, the table check looks at half of the sums, two at a
 * time, and a table's entries are decoded once: rows behind the first read those they need where they
 * lie. A shortest list is found by its halves, over sizes of use alone. The search for windows takes the largest
 * copies first and leaves out what it can know to fail. */
#include <string.h>

#include "common.h"

/* What a step's formula needs and the size does not change. */
struct prepared {
    uint32_t capacity, p, r, gap; /* r and gap of families 5 to 7 */
    uint64_t q, top;              /* top: the base of a mirrored family at the capacity */
};

static inline uint32_t lesser(uint32_t a, uint32_t b)
{
    return a < b ? a : b;
}

/* How far a is above b, or 0. */
static inline uint32_t excess(uint32_t a, uint32_t b)
{
    return (a > b ? a : b) - b;
}

static inline uint64_t mirrored(const struct prepared *s, uint64_t part, uint64_t x)
{
    uint64_t below = 2 * part, above = 2 * s->top - below;
    uint64_t image = 2 * x < s->capacity ? below : above;
    return 2 * x == s->capacity ? s->top : image;
}

static inline uint64_t threshold(const struct prepared *s, uint32_t x)
{
    uint32_t kept = x < s->p ? 0 : x;
    return x > s->capacity - s->p ? s->capacity : kept;
}

/* For capacities below 2^31, as signed numbers: any x86-64 has vectors for these comparisons alone, and
 * unsigned ones take an operation more. */
static inline uint64_t small_threshold(const struct prepared *s, uint32_t x)
{
    int32_t size = (int32_t)x, least = (int32_t)s->p, most = (int32_t)(s->capacity - s->p);
    uint32_t kept = size < least ? 0 : x;
    return size > most ? s->capacity : kept;
}

static inline uint64_t rounding(const struct prepared *s, uint32_t x)
{
    uint64_t scaled = (uint64_t)x * (s->p + 1);
    uint64_t whole = scaled / s->capacity * s->capacity;
    return whole == scaled ? whole - x : whole;
}

static inline uint64_t quotient(const struct prepared *s, uint32_t x)
{
    return mirrored(s, lesser(x, s->capacity - x) / s->p, x);
}

static inline uint64_t vanderbeck(const struct prepared *s, uint32_t x)
{
    uint32_t y = lesser(x, s->capacity - x);
    return mirrored(s, ((uint64_t)s->p * y - (y > 0)) / s->capacity, x);
}

static inline uint64_t burdett_johnson(const struct prepared *s, uint32_t x)
{
    return (uint64_t)(x / s->p) * s->gap + excess(x % s->p, s->r);
}

static inline uint64_t letchford_lodi(const struct prepared *s, uint32_t x)
{
    uint32_t y = lesser(x, s->capacity - x);
    uint64_t theta = round_up(excess(y % s->p, s->r) * s->q, s->gap);
    return mirrored(s, (s->q + 1) * (y / s->p) + theta, x);
}

static inline uint64_t dash_gunluk(const struct prepared *s, uint32_t x)
{
    uint64_t b = excess(x % s->p, s->r), n = b * s->q;
    uint64_t whole = round_up(n, s->gap) * s->gap;
    uint64_t added = whole == n ? n + b : whole;
    return (uint64_t)(x / s->p) * s->gap * (s->q + 1) + added;
}

static inline struct prepared prepare(uint64_t capacity, uint8_t family, uint64_t p, uint64_t q)
{
    struct prepared s = {(uint32_t)capacity, (uint32_t)p, 0, 0, q, 0};
    switch (family) {
    case 3: s.top = s.capacity / s.p; break;
    case 4: s.top = p - 1; break;
    case 5: case 6: case 7:
        s.r = s.capacity % s.p;
        s.gap = s.p - s.r;
        s.top = (q + 1) * (s.capacity / s.p);
        break;
    }
    return s;
}

/* Puts a statement behind each family, so that the choice is made once and each has its own code. */
#define FOR_FAMILY(capacity, family, STATEMENT)                                                   \
    switch (family) {                                                                             \
    case 1:                                                                                       \
        if ((capacity) <= INT32_MAX) { STATEMENT(1, small_threshold) }                            \
        else { STATEMENT(1, threshold) }                                                          \
        break;                                                                                    \
    case 2: STATEMENT(2, rounding) break;                                                         \
    case 3: STATEMENT(3, quotient) break;                                                         \
    case 4: STATEMENT(4, vanderbeck) break;                                                       \
    case 5: STATEMENT(5, burdett_johnson) break;                                                  \
    case 6: STATEMENT(6, letchford_lodi) break;                                                   \
    case 7: STATEMENT(7, dash_gunluk) break;                                                      \
    }

static void map_family(uint64_t capacity, uint8_t family, uint64_t p, uint64_t q, uint32_t *list,
                       size_t n)
{
    const struct prepared s = prepare(capacity, family, p, q);
#define EACH(k, formula)           \
    for (size_t i = 0; i < n; i++) \
        list[i] = (uint32_t)formula(&s, list[i]);
    FOR_FAMILY(capacity, family, EACH)
#undef EACH
}

static void map_table(const uint8_t *table, size_t entries, uint32_t *list, size_t n)
{
    (void)entries;
    for (size_t i = 0; i < n; i++)
        list[i] = word(table + 4 * (size_t)list[i]);
}

static uint64_t sum_of_images(uint64_t capacity, uint8_t family, uint64_t p, const uint32_t *sizes,
                              const uint16_t *counts, size_t n)
{
    const struct prepared s = prepare(capacity, family, p, 0);
    uint64_t sum = 0;
#define ADD(k, formula)            \
    for (size_t i = 0; i < n; i++) \
        sum += counts[i] * formula(&s, sizes[i]);
    FOR_FAMILY(capacity, family, ADD)
#undef ADD
    return sum;
}

static inline uint64_t refusal(uint64_t capacity, uint8_t family, uint64_t p, uint64_t q, uint64_t x,
                               uint64_t *scale)
{
    uint64_t number = judge_family(capacity, family, p, q, scale);
    return number == 0 && x > capacity ? WINDOWFLOOR_SIZE_OVER_CAPACITY : number;
}

struct windowfloor_image_answer tuned_image(uint64_t capacity, uint8_t family, uint64_t p,
                                            uint64_t q, uint64_t x)
{
    struct windowfloor_image_answer answer = {0, 0, 0};
    uint64_t scale = 0;
#define ANSWER(k, formula)                                               \
    if ((answer.number = refusal(capacity, k, p, q, x, &scale)) == 0) {  \
        const struct prepared s = prepare(capacity, k, p, q);            \
        answer.image = formula(&s, (uint32_t)x);                         \
        answer.scale = scale;                                            \
    }                                                                    \
    return answer;
    FOR_FAMILY(capacity, family, ANSWER)
#undef ANSWER
    answer.number = refusal(capacity, family, p, q, x, &scale);
    return answer;
}

static inline uint64_t greater(uint64_t a, uint64_t b)
{
    return a < b ? b : a;
}

/* A list of two or more sizes splits in two lists, of which one fits half of the capacity. */
static void fill_bests(const uint32_t *table, size_t capacity, uint64_t *best)
{
    best[0] = 0;
    for (size_t c = 1; c <= capacity; c++) {
        uint64_t most = table[c];
        size_t y = 1;
        for (; y + 2 <= c - y; y += 2)
            most = greater(most, greater(best[y] + best[c - y], best[y + 1] + best[c - y - 1]));
        if (y <= c - y)
            most = greater(most, best[y] + best[c - y]);
        best[c] = most;
    }
}

/* Rows of a shortest list: row k has the greatest totals of at most k sizes that fit each capacity; two rows that
 * follow one another are kept. */
struct rows {
    const uint32_t *table;
    uint64_t *fewer, *row; /* rows k - 1 and k */
};

static void first_rows(const struct rows *r, size_t capacity)
{
    uint32_t top = 0;
    for (size_t c = 0; c <= capacity; c++) {
        top = r->table[c] > top ? r->table[c] : top;
        r->fewer[c] = 0;
        r->row[c] = top;
    }
}

/* To row k: the least of k sizes is at most capacity / k, and a size is of no use where a smaller one has as great
 * an image. */
static void next_row(const struct rows *r, size_t capacity, size_t k)
{
    uint32_t top = 0;
    memcpy(r->fewer, r->row, (capacity + 1) * sizeof *r->row);
    for (size_t y = 1; y <= capacity / k; y++) {
        if (r->table[y] <= top)
            continue;
        top = r->table[y];
        for (size_t c = k * y; c <= capacity; c++)
            r->row[c] = greater(r->row[c], r->fewer[c - y] + top);
    }
}

/* Of lists of two rows that fit together: half of the sums, if it is one row, and two at a time. */
static uint64_t greatest_sum(const uint64_t *first, const uint64_t *rest, size_t capacity)
{
    uint64_t most = 0;
    size_t last = first == rest ? capacity / 2 : capacity, s = 0;
    for (; s < last; s += 2)
        most = greater(most, greater(first[s] + rest[capacity - s], first[s + 1] + rest[capacity - s - 1]));
    return s == last ? greater(most, first[s] + rest[capacity - s]) : most;
}

/* The capacity for the list of the first row where both have the greatest sum: of several the one nearest to
 * half. */
static size_t place_of(uint64_t sum, const uint64_t *first, const uint64_t *rest, size_t capacity)
{
    for (size_t s = capacity / 2;; s--) {
        if (first[s] + rest[capacity - s] == sum)
            return s;
        if (first[capacity - s] + rest[s] == sum)
            return capacity - s;
    }
}

static uint32_t greatest_entry(const uint32_t *table, size_t capacity)
{
    uint32_t size = 0;
    for (uint32_t y = 1; y <= capacity; y++)
        size = table[y] > table[size] ? y : size;
    return size;
}

static void put_list(const struct rows *r, size_t capacity, size_t n, uint32_t *list);

/* n sizes of this total: half of them, from one row, and the others, from the other. */
static void put_halves(const struct rows *r, uint64_t sum, size_t capacity, size_t n, uint32_t *list)
{
    size_t first = place_of(sum, n % 2 == 0 ? r->row : r->fewer, r->row, capacity);
    put_list(r, first, n / 2, list);
    put_list(r, capacity - first, n - n / 2, list + n / 2);
}

/* n sizes within the capacity, of the greatest total. */
static void put_list(const struct rows *r, size_t capacity, size_t n, uint32_t *list)
{
    if (n == 1)
        list[0] = greatest_entry(r->table, capacity);
    if (n < 2)
        return;
    first_rows(r, capacity);
    for (size_t k = 2; k <= n - n / 2; k++)
        next_row(r, capacity, k);
    put_halves(r, greatest_sum(n % 2 == 0 ? r->row : r->fewer, r->row, capacity), capacity, n, list);
}

/* By two rows: of 2 k - 1 sizes and of 2 k. */
static size_t put_shortest(const uint32_t *table, size_t capacity, uint64_t *working, uint64_t *second,
                           uint32_t *list)
{
    const struct rows r = {table, working, second};
    first_rows(&r, capacity);
    for (size_t k = 1;; next_row(&r, capacity, ++k)) {
        size_t n = 2 * k - 1;
        uint64_t sum = greatest_sum(r.fewer, r.row, capacity);
        if (sum <= table[capacity]) {
            n = 2 * k;
            sum = greatest_sum(r.row, r.row, capacity);
        }
        if (sum > table[capacity]) {
            put_halves(&r, sum, capacity, n, list);
            return n;
        }
    }
}

/* Each image is added once: the sum of all is that of the blocks. */
static struct sums floor_blocks(const struct counted *list, const uint8_t *blocks, size_t count,
                                uint64_t scale, uint32_t *floors)
{
    struct sums sums = {0, 0};
    size_t at = 0;
    for (size_t i = 0; i < count; i++) {
        size_t n = halfword(blocks + 2 * i);
        uint64_t sum = sum_from(list, at, n), floor = round_up(sum, scale);
        floors[i] = (uint32_t)floor;
        sums.sum += sum;
        sums.total += floor;
        at += n;
    }
    return sums;
}

/* Copies from the largest on, in at most so many windows. */
struct search {
    size_t n, most;
    uint32_t capacity;
    uint32_t sizes[WINDOWFLOOR_MOST_COPIES], place[WINDOWFLOOR_MOST_COPIES]; /* in the list */
    uint32_t rooms[WINDOWFLOOR_MOST_COPIES];
    uint64_t rest[WINDOWFLOOR_MOST_COPIES]; /* the sum of a copy and those behind it */
    uint32_t *windows;                      /* of the list */
};

/* Whether the rooms that the least copy fits hold the rest. */
static inline int has_room(const struct search *s, size_t i, size_t open)
{
    uint64_t room = (uint64_t)(s->most - open) * s->capacity;
    for (size_t w = 0; w < open; w++)
        room += s->rooms[w] < s->sizes[s->n - 1] ? 0 : s->rooms[w];
    return room >= s->rest[i];
}

/* Whether a window from the first on, before this one, has the same room: then it would go the same way. */
static inline int is_repeated(const struct search *s, size_t first, size_t w)
{
    for (size_t other = first; other < w; other++)
        if (s->rooms[other] == s->rooms[w])
            return 1;
    return 0;
}

/* Whether the copies from the i-th on find windows, those of the i-th copy's size none before the first.
 * Where a copy fills a window, no other need be tried: what else would go there fits where the copy would. */
static int place_from(struct search *s, size_t i, size_t open, size_t first)
{
    if (i == s->n)
        return 1;
    if (!has_room(s, i, open))
        return 0;
    uint32_t size = s->sizes[i];
    int same = i + 1 < s->n && s->sizes[i + 1] == size;
    for (size_t w = first; w < open + (open < s->most); w++) {
        uint32_t room = s->rooms[w];
        if (room < size || is_repeated(s, first, w))
            continue;
        s->rooms[w] = room - size;
        s->windows[s->place[i]] = (uint32_t)w;
        int placed = place_from(s, i + 1, open + (w == open), same ? w : 0);
        s->rooms[w] = room;
        if (placed || room == size)
            return placed;
    }
    return 0;
}

static void sort_copies(struct search *s, const struct copies *copies)
{
    for (uint32_t i = 0; i < copies->n; i++) {
        uint32_t at = i, size = copies->sizes[i];
        for (; at > 0 && s->sizes[at - 1] < size; at--) {
            s->sizes[at] = s->sizes[at - 1];
            s->place[at] = s->place[at - 1];
        }
        s->sizes[at] = size;
        s->place[at] = i;
    }
}

/* No two copies over half of the capacity share a window. */
static uint64_t fill_windows(const struct copies *copies, uint64_t capacity, uint64_t least,
                             uint32_t *windows)
{
    struct search s;
    s.n = copies->n;
    s.capacity = (uint32_t)capacity;
    s.windows = windows;
    sort_copies(&s, copies);
    size_t halves = 0;
    while (halves < s.n && s.sizes[halves] > capacity / 2)
        halves++;
    uint64_t rest = 0;
    for (size_t i = s.n; i-- > 0;) {
        s.rest[i] = rest += s.sizes[i];
        s.rooms[i] = s.capacity;
    }
    s.most = greater(least, halves);
    while (!place_from(&s, 0, 0, 0))
        s.most++;
    return s.most;
}

const struct parts tuned_parts = {fill_bests, put_shortest, map_family, map_table, sum_of_images,
                                  floor_blocks, fill_windows};
