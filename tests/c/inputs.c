#include "inputs.h"

#include <string.h>

#include "reference.h"

static const uint64_t LIMIT = WINDOWFLOOR_LIMIT;
static const uint64_t TWO_TO_32 = (uint64_t)1 << 32;

/* Numbers */

static uint64_t state;

void seed_inputs(uint64_t seed)
{
    state = seed;
}

uint64_t any_number(void)
{
    uint64_t z = state += 0x9E3779B97F4A7C15u;
    z = (z ^ (z >> 30)) * 0xBF58476D1CE4E5B9u;
    z = (z ^ (z >> 27)) * 0x94D049BB133111EBu;
    return z ^ (z >> 31);
}

uint64_t below(uint64_t n)
{
    return any_number() % n;
}

static int one_in(uint64_t n)
{
    return below(n) == 0;
}

static uint64_t lesser(uint64_t a, uint64_t b)
{
    return a < b ? a : b;
}

/* 0 to n - 1, with both ends often. */
static uint64_t ends_below(uint64_t n)
{
    switch (below(4)) {
    case 0: return below(lesser(n, 4));
    case 1: return n - 1 - below(lesser(n, 4));
    default: return below(n);
    }
}

/* Of 1 to so many bits, each length as often. */
static uint64_t any_of_bits(unsigned bits)
{
    return any_number() >> (64 - bits + below(bits));
}

/* About the limit and the old one, and where 31 and 32 bits end. */
static uint64_t border_number(void)
{
    static const uint64_t borders[] = {
        OLD_LIMIT, OLD_LIMIT + 1, INT32_MAX, INT32_MAX + (uint64_t)1, INT32_MAX + (uint64_t)2,
        WINDOWFLOOR_LIMIT + 1, UINT32_MAX,
    };
    return one_in(3) ? LIMIT - below(2) : borders[below(sizeof borders / sizeof *borders)];
}

static uint64_t legal_border(void)
{
    return lesser(border_number(), LIMIT);
}

/* Over n, which is within the limit, and within 32 bits. */
static uint64_t word_over(uint64_t n)
{
    switch (below(4)) {
    case 0: return n + 1;
    case 1: return UINT32_MAX;
    default: return n + 1 + ends_below(UINT32_MAX - n);
    }
}

/* What the next one gets, where so much is left for so many: often nothing, and the last gets all. */
static size_t random_share(size_t left, size_t sharers)
{
    return sharers == 1 ? left : lesser(left, below(2 * left / sharers + 1));
}

/* Capacities, steps and sizes */

static uint64_t legal_capacity(void)
{
    switch (below(8)) {
    case 0: return 1 + below(6);
    case 1: return 1 + below(2047);
    case 2: return 1 + below(below(2) ? 100000 : LIMIT);
    case 3: return lesser(1 + any_of_bits(32), LIMIT);
    case 4: return below(2) ? LIMIT - below(3) : legal_border();
    default: return 1 + below(40);
    }
}

/* Border numbers, and small ones, where p and q can be border numbers too. */
static uint64_t border_capacity(void)
{
    return below(2) ? 1 + below(8) : legal_border();
}

/* Within 32 bits. */
static uint64_t illegal_word(void)
{
    return one_in(3) ? 0 : word_over(LIMIT);
}

/* Most of those over 32 bits would be legal if they were cut to 32. */
static uint64_t illegal_capacity(void)
{
    switch (below(5)) {
    case 0: return TWO_TO_32 + 1 + below(100);
    case 1: return TWO_TO_32 + legal_border();
    case 2: return any_of_bits(64) | TWO_TO_32;
    default: return illegal_word();
    }
}

struct family_step {
    uint8_t family;
    uint64_t p, q;
};

/* How many whole numbers from 0 up are worth trying as p: the last ones are legal, or nearly. */
static uint64_t parameters(uint64_t capacity, uint8_t family)
{
    switch (family) {
    case 1: return (capacity + 1) / 2 + 2;
    case 3: return capacity / 2 + 2;
    case 2: return LIMIT / capacity + 2;
    case 4: return lesser(capacity, LIMIT / 2 + 2) + 1;
    default: return capacity + 1;
    }
}

static uint64_t least_q(uint64_t capacity, uint64_t p)
{
    uint64_t r = p == 0 ? 0 : capacity % p;
    return r == 0 ? 0 : (p - 1) / r;
}

/* The q at which the scale of family 6 or 7 passes this one; at the q before, it is the same or less. */
static uint64_t q_passing(uint64_t scale, uint64_t capacity, uint8_t family, uint64_t p)
{
    uint64_t share = p == 0 ? 1 : family == 6 ? 2 * (capacity / p)
                                              : (p - capacity % p) * (capacity / p);
    return scale / (share == 0 ? 1 : share);
}

/* A bit that is lost where a number, or twice a number, is cut to 32 bits. */
static uint64_t high_bit(void)
{
    return (uint64_t)1 << (one_in(3) ? 31 : 32 + below(32));
}

static void spoil_step(struct family_step *s)
{
    switch (below(8)) {
    case 0: s->family = (uint8_t)(below(2) ? 0 : 8 + below(248)); break;
    case 1: s->p = below(2) ? border_number() : any_of_bits(64); break;
    case 2: s->q = below(2) ? border_number() : any_of_bits(64); break;
    case 3: s->p += high_bit(); break;
    case 4: s->q += below(2) ? 1 + below(3) : high_bit(); break;
    case 5: s->q -= 1; break;
    case 6: s->p = any_of_bits(32); break;
    default: s->p = any_number(); break;
    }
}

/* For families 6 and 7. Over half of the capacity the scale of family 7 is q + 1 or twice that; with 2 and
 * 3 the scales are greatest. */
static uint64_t border_p_with_q(uint64_t capacity)
{
    switch (below(6)) {
    case 0: return capacity % 2 == 0 ? 3 : 2;
    case 1: return capacity / (3 + below(2)) + 1;
    case 2: return 1 + below(capacity);
    default: return capacity / 2 + 1;
    }
}

/* A p that is a border number, or whose scale or whose double is one or nearly one. */
static uint64_t border_p(uint64_t capacity, uint8_t family)
{
    uint64_t border = border_number(), more = one_in(4);
    if (one_in(border < parameters(capacity, family) ? 3 : 8))
        return border;
    switch (family) {
    case 1: return (capacity + 1) / 2 + more;
    case 2: return border / capacity + more;
    case 3: return below(2) ? 1 + below(3) : capacity / 2 + more;
    case 4: return lesser(border / 2 + 1 + more, capacity);
    case 5: return capacity - below(2) + more;
    default: return border_p_with_q(capacity);
    }
}

static uint64_t border_q(uint64_t capacity, uint8_t family, uint64_t p)
{
    uint64_t passing = q_passing(border_number(), capacity, family, p);
    if (passing < 2 || one_in(3))
        return border_number();
    return passing - (one_in(4) ? 0 : 1 + below(2));
}

/* Mostly legal: p, q or the scale is a border number or nearly one. At 1 and 2 families 6 and 7 have no
 * legal p. */
static struct family_step border_step(uint64_t capacity)
{
    struct family_step s = {(uint8_t)(capacity <= 2 ? 2 : lesser(1 + below(8), 7)), 0, 0};
    s.p = border_p(capacity, s.family);
    if (s.family >= 6)
        s.q = border_q(capacity, s.family, s.p);
    if (one_in(40))
        spoil_step(&s);
    return s;
}

/* Mostly a legal step; one in `spoiled` is spoiled on purpose. */
static struct family_step random_step(uint64_t capacity, uint64_t spoiled)
{
    if (capacity > OLD_LIMIT && one_in(6))
        return border_step(capacity);
    struct family_step s = {(uint8_t)(1 + below(7)), 0, 0};
    s.p = ends_below(parameters(capacity, s.family));
    if (s.p == 0 && s.family != 1 && !one_in(20))
        s.p = 1 + (s.family == 4);
    if (s.family >= 6) {
        for (int tries = 0; tries < 8 && (s.p == 0 || capacity % s.p == 0); tries++)
            s.p = 1 + below(capacity);
        s.q = least_q(capacity, s.p) + below(4);
        if (one_in(8))
            s.q = q_passing(LIMIT, capacity, s.family, s.p) - below(3);
    }
    if (one_in(spoiled))
        spoil_step(&s);
    return s;
}

static uint64_t random_size(uint64_t capacity, uint64_t least)
{
    uint64_t x = one_in(4) ? capacity / 2 + below(2) : ends_below(capacity + 1);
    if (capacity > OLD_LIMIT && one_in(4))
        x = lesser(border_number(), capacity);
    return x < least ? least : x;
}

/* Over the capacity, and often legal if it were cut to 32 bits. */
static uint64_t illegal_size(uint64_t capacity)
{
    switch (below(4)) {
    case 0: return TWO_TO_32 + below(capacity);
    case 1: return any_of_bits(64) | TWO_TO_32;
    default: return word_over(capacity);
    }
}

/* A size near a place where the step's formula changes: in family 4 that is each p-th of the capacity. */
static uint64_t edge_size(uint64_t capacity, struct family_step s)
{
    uint64_t p = lesser(s.p, capacity);
    uint64_t times = p == 0 ? 0 : below(capacity / p + 1);
    uint64_t x = one_in(3) ? capacity - p : times * p;
    if (s.family == 4 && p != 0)
        x = below(p + 1) * capacity / p;
    if (s.family >= 5 && s.p != 0 && below(2))
        x += capacity % s.p;
    return lesser(x + below(2), capacity);
}

/* Counts: of one byte or two, and with a byte 0. */
static uint64_t random_copies(void)
{
    static const uint64_t ends[] = {1, 2, 255, 256, WINDOWFLOOR_MOST_COUNT};
    switch (below(4)) {
    case 0: return ends[below(sizeof ends / sizeof *ends)];
    case 1: return 1 + below(WINDOWFLOOR_MOST_COUNT);
    default: return 1 + below(6);
    }
}

/* Not n: mostly near it. */
static size_t another_length(size_t n)
{
    if (n > 0 && below(2))
        return one_in(3) ? below(n) : n - 1;
    return n + 1 + below(3);
}

void random_image(struct image_input *in)
{
    int at_border = one_in(4);
    uint64_t capacity = at_border ? border_capacity() : legal_capacity();
    struct family_step s = at_border ? border_step(capacity) : random_step(capacity, 8);
    in->capacity = one_in(25) ? illegal_capacity() : capacity;
    in->family = s.family;
    in->p = s.p;
    in->q = s.q;
    in->x = below(2) ? edge_size(capacity, s) : random_size(capacity, 0);
    if (one_in(20))
        in->x = illegal_size(capacity);
}

/* Tables */

static size_t table_capacity(void)
{
    if (one_in(1000))
        return 2040 + below(8);
    if (one_in(60))
        return 1 + below(300);
    return 1 + below(one_in(4) ? 50 : 12);
}

static void set_last_to_best(uint32_t *entries, size_t capacity, uint64_t less)
{
    static uint64_t best[ROOM_ENTRIES];
    entries[capacity] = 0;
    reference_bests(entries, capacity, best);
    uint64_t last = best[capacity] > less ? best[capacity] - less : 1;
    entries[capacity] = (uint32_t)lesser(last, LIMIT);
}

static void images_as_table(uint32_t *entries, size_t capacity)
{
    struct family_step s = random_step(capacity, 1000);
    for (int tries = 0; tries < 4 && reference_image(capacity, s.family, s.p, s.q, 0).number; tries++)
        s = random_step(capacity, 1000);
    for (size_t x = 0; x <= capacity; x++)
        entries[x] = (uint32_t)reference_image(capacity, s.family, s.p, s.q, x).image;
}

static uint32_t random_entry(uint64_t top, int sparse)
{
    return sparse && !one_in(4) ? 0 : (uint32_t)below(top);
}

static void random_entries(uint32_t *entries, size_t capacity)
{
    uint64_t top = one_in(8) ? LIMIT + 1 : 2 + below(one_in(3) ? 200 : 6);
    int sparse = one_in(2);
    entries[0] = 0;
    for (size_t x = 1; x <= capacity; x++)
        entries[x] = random_entry(top, sparse);
    switch (below(8)) {
    case 0: break;
    case 1: set_last_to_best(entries, capacity, 1); break;
    default: set_last_to_best(entries, capacity, 0); break;
    }
}

static uint32_t border_entry(void)
{
    return (uint32_t)(below(2) ? legal_border() : lesser(any_of_bits(32), LIMIT));
}

/* Of sizes over half the capacity no two fit, so that their images may be any. */
static void border_entries(uint32_t *entries, size_t capacity)
{
    for (size_t x = 0; x < capacity; x++)
        entries[x] = 2 * x > capacity ? border_entry() : 0;
    if (below(2))
        set_last_to_best(entries, capacity, below(2));
    else
        entries[capacity] = (uint32_t)legal_border();
}

static void fill_table(uint32_t *entries, size_t capacity)
{
    if (below(2))
        images_as_table(entries, capacity);
    else if (one_in(6))
        border_entries(entries, capacity);
    else
        random_entries(entries, capacity);
}

static void spoil_table(uint32_t *entries, size_t count)
{
    if (below(2))
        entries[below(count)] = (uint32_t)word_over(LIMIT);
    if (below(2))
        entries[count - 1] = 0;
    if (below(2))
        entries[0] = (uint32_t)(1 + below(TWO_TO_32 - 1));
}

/* As many places as are needed, or more; one in `too_short` has fewer. */
static size_t some_places(size_t needed, uint64_t too_short)
{
    if (needed > 0 && one_in(too_short))
        return one_in(4) ? below(needed) : needed - 1;
    return below(2) ? needed : needed + 1 + below(20);
}

void random_table(struct table_input *in)
{
    size_t capacity = table_capacity();
    fill_table(in->entries, capacity);
    in->count = capacity + 1;
    if (one_in(8))
        spoil_table(in->entries, in->count);
    in->working_places = some_places(in->count, 40);
    in->list_places = some_places(capacity, 40);
    if (one_in(50)) {
        in->count = below(2) ? below(2) : 2049 + below(3);
        memset(in->entries, 0, sizeof in->entries);
    }
}

/* Shortest */

/* Entries that rise at few sizes or at most, by little or by much, with ties between. */
static void rising_entries(uint32_t *entries, size_t capacity)
{
    uint64_t apart = 1 + below(one_in(3) ? 10 : 2), most = one_in(3) ? 1000000 : 1 + below(4);
    entries[0] = 0;
    for (size_t x = 1; x <= capacity; x++)
        entries[x] = entries[x - 1] + (uint32_t)(one_in(apart) ? below(most + 1) : 0);
}

/* Of lists that fill the capacity, or nearly, those of more sizes total more. */
static void even_entries(uint32_t *entries, size_t capacity)
{
    uint64_t width = one_in(3) ? 1 + below(5) : 1, share = below(5), more = 1 + below(3);
    for (size_t x = 0; x <= capacity; x++)
        entries[x] = (uint32_t)(x < width ? 0 : share * (x / width) + more);
}

/* Nothing but of one size, or all of another. */
static void lone_entries(uint32_t *entries, size_t capacity)
{
    size_t size = 1 + ends_below(one_in(2) ? capacity : lesser(capacity, 3));
    uint32_t image = one_in(3) ? border_entry() : 1 + (uint32_t)below(9), other = image / 2;
    entries[0] = 0;
    for (size_t x = 1; x <= capacity; x++)
        entries[x] = x == size ? image : x > size ? other : 0;
}

/* The images of a family, often times a factor, and one of them by one away. */
static void damaged_images(uint32_t *entries, size_t capacity)
{
    images_as_table(entries, capacity);
    uint64_t most = entries[capacity] == 0 ? 1 : LIMIT / entries[capacity];
    uint32_t factor = (uint32_t)(one_in(2) ? 1 : 1 + ends_below(most));
    for (size_t x = 0; x <= capacity; x++)
        entries[x] *= factor;
    size_t at = 1 + ends_below(capacity);
    if (at < capacity)
        entries[at]++;
    else if (entries[at] > 1)
        entries[at]--;
}

/* From the greatest entry up to the greatest total: the more, the more sizes it takes to overshoot. At the total
 * itself none do. */
static void set_last_within(uint32_t *entries, size_t capacity)
{
    static uint64_t best[ROOM_ENTRIES];
    uint64_t least = 1;
    entries[capacity] = 0;
    reference_bests(entries, capacity, best);
    for (size_t x = 1; x < capacity; x++)
        least = entries[x] > least ? entries[x] : least;
    uint64_t last = best[capacity] <= least ? least : least + ends_below(best[capacity] - least + 1);
    entries[capacity] = (uint32_t)lesser(one_in(8) ? least - (least > 1) : last, LIMIT);
}

static void fill_overshot(uint32_t *entries, size_t capacity)
{
    switch (below(6)) {
    case 0: damaged_images(entries, capacity); return;
    case 1: fill_table(entries, capacity); return;
    case 2: rising_entries(entries, capacity); break;
    case 3: lone_entries(entries, capacity); break;
    case 4: random_entries(entries, capacity); break;
    default: even_entries(entries, capacity); break;
    }
    set_last_within(entries, capacity);
}

/* As some_places, or many more. */
static size_t shortest_places(size_t needed)
{
    return one_in(6) ? needed + below(2080 - needed) : some_places(needed, 40);
}

void random_shortest(struct shortest_input *in)
{
    size_t capacity = one_in(20) ? 1 + below(90) : one_in(12000) ? 2040 + below(8) : 1 + below(one_in(4) ? 40 : 12);
    fill_overshot(in->entries, capacity);
    in->count = capacity + 1;
    if (one_in(10))
        spoil_table(in->entries, in->count);
    in->working_places = shortest_places(in->count);
    in->second_places = shortest_places(in->count);
    in->list_places = shortest_places(capacity);
    if (one_in(50)) {
        in->count = below(2) ? below(2) : 2049 + below(3);
        memset(in->entries, 0, sizeof in->entries);
    }
}

void shortest_of_faults(struct shortest_input *in, unsigned faults)
{
    static const uint32_t entries[] = {0, 1, 2, 4, 4, 5};
    memcpy(in->entries, entries, sizeof entries);
    in->count = faults & 1 ? 1 : 6;
    in->working_places = faults & 2 ? 5 : 6;
    in->second_places = faults & 4 ? 5 : 6;
    in->list_places = faults & 8 ? 4 : 5;
    in->entries[0] = faults & 16 ? 1 : 0;
    in->entries[5] = faults & 32 ? 0 : 5;
    if (faults & 128)
        in->entries[3] = 3;
    if (faults & 64)
        in->entries[(faults & 160) == 128 ? 5 : 3] = WINDOWFLOOR_LIMIT + 1;
}

static void least_places(struct shortest_input *in, size_t entries)
{
    in->count = in->working_places = in->second_places = entries;
    in->list_places = entries - 1;
}

/* A list of k sizes totals k, and 3 times what it takes of the capacity. */
void shortest_of_fewest(struct shortest_input *in, size_t capacity, size_t fewest)
{
    least_places(in, capacity + 1);
    in->entries[0] = 0;
    for (size_t x = 1; x < capacity; x++)
        in->entries[x] = (uint32_t)(3 * x + 1);
    in->entries[capacity] = (uint32_t)(3 * capacity + fewest - 1);
}

/* A list totals its share of the greatest entry, but one less for each of its sizes over 1. */
void shortest_of_ones(struct shortest_input *in, size_t capacity)
{
    uint64_t share = LIMIT / capacity;
    least_places(in, capacity + 1);
    for (size_t x = 0; x <= capacity; x++)
        in->entries[x] = (uint32_t)(share * x - (x > 1));
}

void shortest_of_places(struct shortest_input *in, size_t entries, int working, int second, int list)
{
    shortest_of_fewest(in, entries - 1, 2);
    in->working_places += (size_t)working;
    in->second_places += (size_t)second;
    in->list_places += (size_t)list;
}

/* Jobs */

static void put_byte(struct job_input *in, uint64_t byte)
{
    in->bytes[in->length++] = (uint8_t)byte;
}

static void put_number(struct job_input *in, uint64_t number)
{
    for (int shift = 24; shift >= 0; shift -= 8)
        put_byte(in, number >> shift);
}

static void put_header(struct job_input *in, unsigned tag, size_t length)
{
    in->field_at[in->fields++] = in->length;
    put_byte(in, tag);
    put_byte(in, length >> 8);
    put_byte(in, length);
}

static void start_job(struct job_input *in)
{
    in->length = in->fields = in->first_list = in->lists = 0;
}

static void put_kind(struct job_input *in, unsigned kind)
{
    start_job(in);
    put_header(in, 1, 1);
    put_byte(in, kind);
}

static void put_sizes(struct job_input *in, uint64_t capacity, size_t n, uint64_t least)
{
    for (size_t i = 0; i < n; i++)
        put_number(in, random_size(capacity, least));
}

/* A job of kind 1 or 2, up to the header of its sizes. */
static void put_list_head(struct job_input *in, unsigned kind, uint64_t capacity, size_t n)
{
    put_kind(in, kind);
    put_header(in, 2, 4);
    put_number(in, capacity);
    in->first_list = in->fields;
    in->lists = 1;
    put_header(in, 3, 4 * n);
}

static void put_list(struct job_input *in, unsigned kind, uint64_t capacity, size_t n)
{
    put_list_head(in, kind, capacity, n);
    put_sizes(in, capacity, n, kind == 1);
}

static void put_two_bytes(struct job_input *in, uint64_t number)
{
    put_byte(in, number >> 8);
    put_byte(in, number);
}

static void put_counts(struct job_input *in, size_t n)
{
    put_header(in, 7, 2 * n);
    while (n-- > 0)
        put_two_bytes(in, random_copies());
}

static void put_blocks(struct job_input *in, const uint16_t *blocks, size_t count)
{
    put_header(in, 8, 2 * count);
    for (size_t i = 0; i < count; i++)
        put_two_bytes(in, blocks[i]);
}

static void put_row(struct job_input *in, uint64_t right_side, size_t n)
{
    if (in->lists++ == 0)
        in->first_list = in->fields;
    put_header(in, 6, 4 + 4 * n);
    put_number(in, right_side);
    put_sizes(in, right_side, n, 0);
}

static void put_family(struct job_input *in, struct family_step s)
{
    put_header(in, 4, 9);
    put_byte(in, s.family);
    put_number(in, s.p);
    put_number(in, s.q);
}

static void put_table(struct job_input *in, const uint32_t *entries, size_t count)
{
    put_header(in, 5, 4 * count);
    for (size_t x = 0; x < count; x++)
        put_number(in, entries[x]);
}

/* Each step gets the present capacity and answers the next one. */
static uint64_t put_family_step(struct job_input *in, uint64_t present, struct family_step s)
{
    uint32_t p = (uint32_t)s.p, q = (uint32_t)s.q;
    struct windowfloor_image_answer at_0 = reference_image(present, s.family, p, q, 0);
    put_family(in, s);
    return at_0.number == 0 ? at_0.scale : present;
}

static uint64_t put_table_step(struct job_input *in, uint64_t present, const uint32_t *entries,
                               size_t capacity)
{
    put_table(in, entries, capacity + 1);
    return entries[capacity] == 0 || entries[capacity] > LIMIT ? present : entries[capacity];
}

/* A table of any capacity is often bad in its entries too. */
static uint64_t put_random_table(struct job_input *in, uint64_t present, int any_capacity)
{
    uint32_t entries[ROOM_ENTRIES];
    size_t capacity = any_capacity ? table_capacity() : present;
    fill_table(entries, capacity);
    if (one_in(any_capacity ? 2 : 30))
        spoil_table(entries, capacity + 1);
    return put_table_step(in, present, entries, capacity);
}

static uint64_t put_border_table(struct job_input *in, uint64_t present)
{
    uint32_t entries[ROOM_ENTRIES];
    border_entries(entries, present);
    if (one_in(3))
        entries[1 + below(present)] = (uint32_t)word_over(LIMIT);
    if (one_in(4))
        spoil_table(entries, present + 1);
    return put_table_step(in, present, entries, present);
}

static uint64_t put_border_step(struct job_input *in, uint64_t present)
{
    if (present <= 60 && one_in(4))
        return put_border_table(in, present);
    return put_family_step(in, present, border_step(present));
}

static uint64_t put_random_step(struct job_input *in, uint64_t present)
{
    int small = present <= 60 || (present <= 2047 && one_in(20));
    if ((small && below(2)) || one_in(100))
        return put_random_table(in, present, !small || one_in(20));
    return put_family_step(in, present, random_step(present, 60));
}

/* Few for half of the jobs of several rows, so that rows go through with scales of their own. */
static size_t random_steps(size_t lists)
{
    if (lists > 1 && below(2))
        return 1 + below(2);
    return one_in(30) ? 9 : below(9);
}

static size_t random_count(void)
{
    if (one_in(400))
        return 2048 - below(2);
    return below(one_in(20) ? 300 : 12);
}

/* Mostly n counts; one in eight fields has a count of 0. */
static void put_random_counts(struct job_input *in, size_t n)
{
    size_t length = one_in(20) ? another_length(n) : n;
    put_counts(in, length);
    if (length > 0 && one_in(8))
        memset(in->bytes + in->length - 2 * (1 + below(length)), 0, 2);
}

/* Blocks: how many sizes each has */

enum { ROOM_BLOCKS = 512 };

struct blocks {
    size_t count;
    uint16_t sizes[ROOM_BLOCKS];
};

/* So many blocks of n sizes in all, of one or more each: n is no less than their number. */
static void divide(struct blocks *blocks, size_t n, size_t count)
{
    size_t left = n - count;
    blocks->count = count;
    for (size_t i = 0; i < count; i++) {
        size_t more = random_share(left, count - i);
        blocks->sizes[i] = (uint16_t)(1 + more);
        left -= more;
    }
}

static void put_divided(struct job_input *in, size_t n, size_t count)
{
    struct blocks blocks;
    divide(&blocks, n, count);
    put_blocks(in, blocks.sizes, blocks.count);
}

/* As many as n sizes may have: any number from 1 on, and often the most. */
static size_t random_blocks(size_t n)
{
    size_t most = lesser(n, WINDOWFLOOR_MOST_BLOCKS);
    return n == 0 || one_in(4) ? most : 1 + ends_below(most);
}

static void insert_block(struct blocks *blocks, uint64_t sizes)
{
    size_t at = below(blocks->count + 1);
    memmove(blocks->sizes + at + 1, blocks->sizes + at, (blocks->count - at) * sizeof *blocks->sizes);
    blocks->sizes[at] = (uint16_t)sizes;
    blocks->count++;
}

/* One size more or less, but still one or more. */
static void miscount(uint16_t *sizes)
{
    if (*sizes > 1 && below(2))
        --*sizes;
    else
        ++*sizes;
}

/* Too many blocks: of n sizes, or of more where n is too few for so many. */
static void divide_too_often(struct blocks *blocks, size_t n)
{
    size_t count = 65 + below(one_in(4) ? 300 : 3);
    if (n >= 65)
        divide(blocks, n, lesser(n, count));
    else
        divide(blocks, count, count);
}

/* Two blocks more, of as many sizes as 16 bits do not see. */
static void add_65536(struct blocks *blocks)
{
    uint64_t sizes = 1 + ends_below(65535);
    insert_block(blocks, sizes);
    insert_block(blocks, 65536 - sizes);
}

static void spoil_blocks(struct blocks *blocks, size_t n)
{
    switch (below(blocks->count > 0 ? 6 : 4)) {
    case 0: insert_block(blocks, 0); break;
    case 1: insert_block(blocks, 1 + ends_below(65535)); break;
    case 2: divide_too_often(blocks, n); break;
    case 3: add_65536(blocks); break;
    case 4: miscount(&blocks->sizes[below(blocks->count)]); break;
    default: blocks->count /= 2; break;
    }
}

/* The last field's value gets a byte more. Its length was even. */
static void make_odd(struct job_input *in)
{
    put_byte(in, below(256));
    in->bytes[in->field_at[in->fields - 1] + 2]++;
}

/* Mostly such as fit n sizes. */
static void put_random_blocks(struct job_input *in, size_t n)
{
    struct blocks blocks;
    divide(&blocks, n, random_blocks(n));
    if (one_in(6))
        spoil_blocks(&blocks, n);
    put_blocks(in, blocks.sizes, blocks.count);
    if (one_in(30))
        make_odd(in);
}

/* A few have blocks before the counts, or twice. */
static void put_random_list(struct job_input *in, unsigned kind, uint64_t capacity)
{
    size_t n = random_count();
    put_list(in, kind, capacity, n);
    if (kind != 1)
        return;
    if (one_in(60))
        put_random_blocks(in, n);
    if (below(2))
        put_random_counts(in, n);
    if (below(2))
        put_random_blocks(in, n);
}

/* Rows */

static size_t random_rows(void)
{
    if (one_in(25))
        return one_in(4) ? 0 : 63 + below(4);
    return 1 + below(one_in(8) ? 12 : 4);
}

/* Mostly no less than the first: what is legal there is mostly legal here. */
static uint64_t other_right_side(uint64_t first)
{
    if (one_in(8))
        return 1 + below(first);
    if (first > OLD_LIMIT && one_in(4))
        return legal_border();
    return lesser(first + below(first / 4 + 3), LIMIT);
}

/* The first row has this right side; the others too, or each its own. */
static void put_random_rows(struct job_input *in, uint64_t first)
{
    size_t left = one_in(60) ? 2047 + below(3) : random_count();
    int same = one_in(3);
    put_kind(in, 3);
    for (size_t rows = random_rows(); rows > 0; rows--) {
        size_t n = random_share(left, rows);
        put_row(in, same || in->lists == 0 ? first : other_right_side(first), n);
        left -= n;
    }
}

/* A step whose scale is the same at every capacity: tables behind it can be in place in all rows. */
static uint64_t put_levelling_step(struct job_input *in, uint64_t present)
{
    struct family_step s = {4, 2 + below(lesser(present - 1, 20)), 0};
    put_family(in, s);
    return 2 * (s.p - 1);
}

static uint64_t put_first_step(struct job_input *in, uint64_t present)
{
    if (in->lists > 1 && present > 1 && one_in(3))
        return put_levelling_step(in, present);
    return put_random_step(in, present);
}

/* Where a field ends that starts at place k of the fields. */
static size_t field_end(const struct job_input *in, size_t k)
{
    return k + 1 < in->fields ? in->field_at[k + 1] : in->length;
}

static void move_tail(struct job_input *in, size_t from, size_t to)
{
    memmove(in->bytes + to, in->bytes + from, in->length - from);
    in->length = in->length - from + to;
}

static void double_field(struct job_input *in, size_t k, size_t before)
{
    size_t at = in->field_at[k], to = in->field_at[before], length = field_end(in, k) - at;
    uint8_t copy[3 + 65535];
    memcpy(copy, in->bytes + at, length);
    move_tail(in, to, to + length);
    memcpy(in->bytes + to, copy, length);
}

static void write_number(struct job_input *in, size_t at, uint64_t number)
{
    size_t length = in->length;
    in->length = at;
    put_number(in, number);
    in->length = length;
}

static void pad_to(struct job_input *in, size_t length)
{
    while (in->length < length)
        put_byte(in, below(256));
}

uint64_t read_number(const struct job_input *in, size_t at)
{
    const uint8_t *b = in->bytes + at;
    return (uint64_t)b[0] << 24 | (uint64_t)b[1] << 16 | (uint64_t)b[2] << 8 | b[3];
}

/* A number of the list or of a row, where it may be the right side, becomes 0 or too large. */
static void spoil_list(struct job_input *in)
{
    if (in->lists == 0)
        return;
    size_t k = in->first_list + below(in->lists);
    size_t start = in->field_at[k] + 3, n = (field_end(in, k) - start) / 4;
    size_t capacity_at = in->bytes[3] == 3 ? start : 7;
    uint64_t over = word_over(one_in(2) ? LIMIT : lesser(read_number(in, capacity_at), LIMIT));
    if (n > 0)
        write_number(in, start + 4 * below(n), one_in(3) ? 0 : over);
}

/* Damage to whole fields: cut, left out, twice, or more behind the last. */
static void damage_fields(struct job_input *in)
{
    size_t k = below(in->fields), at = in->field_at[k];
    switch (below(6)) {
    case 0: in->length = below(in->length + 1); break;
    case 1: in->length = at + below(4); break;
    case 2: move_tail(in, field_end(in, k), at); break;
    case 3: double_field(in, k, below(in->fields)); break;
    case 4: pad_to(in, in->length + 1 + below(4)); break;
    default: pad_to(in, one_in(4) ? 65535 + below(4) : in->length + below(30)); break;
    }
}

/* Damage to single bytes and numbers. */
static void damage_values(struct job_input *in)
{
    size_t header = in->field_at[below(in->fields)] + below(3), any = below(in->length);
    switch (below(7)) {
    case 0: in->bytes[any] ^= (uint8_t)(1 << below(8)); break;
    case 1: in->bytes[any] = (uint8_t)below(256); break;
    case 2: in->bytes[header] += (uint8_t)(below(2) ? 1 : 255); break;
    case 3: in->bytes[header] = (uint8_t)below(256); break;
    case 4: in->bytes[3] = (uint8_t)below(below(2) ? 256 : 4); break;
    case 5: write_number(in, 7, illegal_word()); break; /* the capacity, or row 1's right side */
    default: spoil_list(in); break;
    }
}

static void any_bytes(struct job_input *in)
{
    start_job(in);
    pad_to(in, below(40));
}

static void lend_places(struct job_input *in, uint64_t too_short)
{
    in->images_places = some_places(WINDOWFLOOR_JOB_IMAGES, too_short);
    in->working_places = some_places(WINDOWFLOOR_JOB_WORKING, too_short);
    in->list_places = some_places(WINDOWFLOOR_JOB_LIST, too_short);
    in->own_places = some_places(64, too_short);
}

/* Mostly out of place. */
static void put_counts_or_blocks(struct job_input *in)
{
    if (below(2))
        put_counts(in, below(4));
    else
        put_random_blocks(in, below(4));
}

static void put_random_steps(struct job_input *in, uint64_t present)
{
    for (size_t steps = random_steps(in->lists), i = 0; i < steps; i++) {
        if (one_in(100))
            put_counts_or_blocks(in);
        present = i == 0 ? put_first_step(in, present) : put_random_step(in, present);
    }
}

/* Often behind a step that leaves every capacity as it is. */
static void put_border_steps(struct job_input *in, uint64_t present)
{
    struct family_step neutral = {1, below(2), 0};
    if (one_in(3))
        put_family(in, neutral);
    for (size_t steps = 1 + below(3); steps > 0; steps--)
        present = put_border_step(in, present);
}

/* Most stay as they are. */
static void damage_job(struct job_input *in)
{
    if (one_in(5))
        for (uint64_t times = 1 + below(3); times > 0; times--)
            damage_values(in);
    if (one_in(5))
        damage_fields(in);
    if (one_in(100))
        any_bytes(in);
}

void random_job(struct job_input *in)
{
    unsigned kind = 1 + (unsigned)below(3);
    int at_border = one_in(4);
    uint64_t capacity = at_border ? border_capacity() : below(2) ? legal_capacity() : 1 + below(40);
    if (kind == 3)
        put_random_rows(in, capacity);
    else
        put_random_list(in, kind, capacity);
    if (at_border)
        put_border_steps(in, capacity);
    else
        put_random_steps(in, capacity);
    if (!at_border || one_in(2))
        damage_job(in);
    lend_places(in, 100);
}

/* A field whose value is this byte, so many times. */
static void put_filled(struct job_input *in, unsigned tag, unsigned byte, size_t length)
{
    put_header(in, tag, length);
    while (length-- > 0)
        put_byte(in, byte);
}

void job_of_length(struct job_input *in, unsigned kind, unsigned tag, size_t length)
{
    static const size_t usual[] = {[1] = 1, [2] = 4, [3] = 8, [6] = 8};
    static const unsigned list_head[] = {1, 2, 3, 0}, rows_head[] = {1, 6, 0};
    int in_head = 0;
    start_job(in);
    for (const unsigned *at = kind == 3 ? rows_head : list_head; *at != 0; at++) {
        put_filled(in, *at, *at == 1 ? kind : 1, *at == tag ? length : usual[*at]);
        in_head |= *at == tag;
    }
    if (!in_head)
        put_filled(in, tag, 1, length);
    lend_places(in, 1000000);
}

void job_of_rows(struct job_input *in, size_t rows, size_t n, unsigned fault)
{
    put_kind(in, 3);
    while (rows-- > 0)
        put_row(in, 1 + below(1000), n);
    switch (fault) {
    case 13: put_byte(in, 4); break;
    case 14: put_filled(in, 2, 1, 4); break;
    case 15: put_filled(in, 4, 1, 8); break;
    }
    lend_places(in, 1000000);
}

static void put_blocks_of_one(struct job_input *in, size_t length)
{
    put_header(in, 8, length);
    for (size_t i = 0; i < length; i++)
        put_byte(in, i % 2);
}

/* The capacity is 0x01010101, which is also every size, and the step is legal there. */
static void put_by_tag(struct job_input *in, unsigned tag, unsigned kind, size_t n, size_t counts_length,
                       size_t blocks_length)
{
    struct family_step step = {2, 1, 0};
    switch (tag) {
    case 1: put_filled(in, 1, kind, 1); break;
    case 2: put_filled(in, 2, 1, 4); break;
    case 3: put_filled(in, 3, 1, 4 * n); break;
    case 4: put_family(in, step); break;
    case 6: put_filled(in, 6, 1, 4 + 4 * n); break;
    case 7: put_filled(in, 7, 1, counts_length); break;
    case 8: put_blocks_of_one(in, blocks_length); break;
    }
}

void job_of_tags(struct job_input *in, const char *tags, unsigned kind, size_t n, size_t counts_length,
                 size_t blocks_length)
{
    start_job(in);
    for (; *tags != '\0'; tags++)
        put_by_tag(in, (unsigned)(*tags - '0'), kind, n, counts_length, blocks_length);
    lend_places(in, 1000000);
}

void job_of_blocks(struct job_input *in, size_t n, const uint16_t *blocks, size_t count)
{
    put_list(in, 1, 100, n);
    put_blocks(in, blocks, count);
    lend_places(in, 1000000);
}

/* Entries that never pass their size fit every list into the capacity. */
static void put_largest_table(struct job_input *in)
{
    uint32_t entries[2048];
    for (uint32_t x = 0; x < 2048; x++)
        entries[x] = x - (uint32_t)below(x / 16 + 1);
    entries[2047] = 2047;
    put_table(in, entries, 2048);
}

static void put_largest_tables(struct job_input *in)
{
    for (int tables = 7; tables > 0; tables--)
        put_largest_table(in);
}

void largest_job(struct job_input *in, size_t bytes)
{
    put_list(in, 1, 2047, (bytes - 14 - 7 * (3 + 8192)) / 4);
    put_largest_tables(in);
    pad_to(in, bytes);
    lend_places(in, 1000000);
}

void largest_counted_job(struct job_input *in)
{
    size_t n = (65535 - 14 - 3 - 7 * (3 + 8192)) / 6;
    put_list(in, 1, 2047, n);
    put_counts(in, n);
    put_largest_tables(in);
    lend_places(in, 1000000);
}

void largest_job_of_blocks(struct job_input *in)
{
    size_t n = (65535 - 14 - 3 - (3 + 2 * 64) - 7 * (3 + 8192)) / 6;
    put_list(in, 1, 2047, n);
    put_counts(in, n);
    put_divided(in, n, 64);
    put_largest_tables(in);
    lend_places(in, 1000000);
}

void largest_rows(struct job_input *in)
{
    put_kind(in, 3);
    for (size_t row = 0; row < 64; row++)
        put_row(in, 2047, row == 0 ? 39 : 30);
    put_largest_tables(in);
    lend_places(in, 1000000);
}

static void put_longest_chain(struct job_input *in)
{
    static const struct family_step steps[] = {{1, 100000, 0}, {5, 700, 0}, {2, 3, 0}, {3, 1000, 0},
                                               {4, 100, 0},    {2, 50, 0},  {6, 7, 3}, {7, 5, 2}};
    for (size_t i = 0; i < sizeof steps / sizeof *steps; i++)
        put_family(in, steps[i]);
}

void longest_chain(struct job_input *in, int counted)
{
    put_list(in, 1, 1000000, 2048);
    if (counted)
        put_counts(in, 2048);
    put_longest_chain(in);
    lend_places(in, 1000000);
}

void longest_chain_of_blocks(struct job_input *in)
{
    put_list(in, 1, 1000000, 2048);
    put_counts(in, 2048);
    put_divided(in, 2048, 64);
    put_longest_chain(in);
    lend_places(in, 1000000);
}

/* Right sides with the same remainder by 700, so that family 5 leaves all of them enough. */
void longest_chain_of_rows(struct job_input *in)
{
    put_kind(in, 3);
    for (size_t row = 0; row < 64; row++)
        put_row(in, 1000000 - 700 * row, 32);
    put_longest_chain(in);
    lend_places(in, 1000000);
}

/* Each step, one of each family, maps the limit to itself. */
static void put_steps_at_limit(struct job_input *in)
{
    static const struct family_step steps[] = {
        {1, WINDOWFLOOR_LIMIT / 2, 0}, {2, 1, 0}, {3, 2, 0}, {4, WINDOWFLOOR_LIMIT / 2 + 1, 0}, {5, 1, 0},
        {6, WINDOWFLOOR_LIMIT / 5 * 3, WINDOWFLOOR_LIMIT / 2 - 1}, {7, WINDOWFLOOR_LIMIT / 5 * 3, 4},
    };
    for (size_t i = 0; i < sizeof steps / sizeof *steps; i++)
        put_family(in, steps[i]);
}

void chain_at_limit(struct job_input *in, unsigned kind)
{
    if (kind == 3) {
        put_kind(in, 3);
        for (size_t row = 0; row < 64; row++)
            put_row(in, LIMIT, 32);
    } else {
        put_list(in, kind, LIMIT, 2048);
    }
    put_steps_at_limit(in);
    lend_places(in, 1000000);
}

void greatest_sum(struct job_input *in, size_t blocks)
{
    put_list_head(in, 1, LIMIT, 2048);
    for (int i = 0; i < 2048; i++)
        put_number(in, LIMIT);
    put_header(in, 7, 2 * 2048);
    for (int i = 0; i < 2048; i++)
        put_two_bytes(in, WINDOWFLOOR_MOST_COUNT);
    if (blocks > 0)
        put_divided(in, 2048, blocks);
    put_steps_at_limit(in);
    lend_places(in, 1000000);
}

/* Sweeps */

static uint64_t random_low(uint64_t capacity, uint8_t family)
{
    uint64_t count = parameters(capacity, family);
    switch (below(30)) {
    case 0: return ~(uint64_t)0 - 4095;
    case 1: return TWO_TO_32 + below(3);
    case 2: return LIMIT - below(70);
    case 3: return count + below(3);
    case 4: return any_of_bits(63);
    default: return one_in(4) ? 0 : ends_below(count);
    }
}

static void random_range(struct sweep_input *in, int at_border)
{
    in->low = at_border ? border_p(in->capacity, in->family) : random_low(in->capacity, in->family);
    if (at_border && one_in(3))
        in->low -= lesser(in->low, below(4));
    in->high = in->low + below(one_in(4) ? 60 : 6);
    if (one_in(40))
        in->high = in->low + 4095 + below(2);
    if (one_in(40))
        in->high = one_in(2) ? in->low - 1 : below(in->low + 1);
    if (one_in(40))
        in->high += high_bit();
}

/* Lists of sweeps and of exact inputs */

static void fill_sizes(struct counted_list *list, uint64_t capacity, size_t n)
{
    list->n = n;
    for (size_t i = 0; i < n; i++)
        list->sizes[i] = (uint32_t)random_size(capacity, 1);
}

static void fill_counts(struct counted_list *list, size_t length, int all_1)
{
    list->counts_length = length;
    for (size_t i = 0; i < length; i++)
        list->counts[i] = (uint16_t)(all_1 ? 1 : random_copies());
}

static void spoil_sizes(struct counted_list *list, uint64_t capacity)
{
    if (list->n > 0 && one_in(20))
        list->sizes[below(list->n)] = (uint32_t)(one_in(2) ? 0 : word_over(capacity));
}

static void spoil_counts(struct counted_list *list)
{
    if (list->counts_length > 0 && one_in(20))
        list->counts[below(list->counts_length)] = 0;
}

static void random_family_and_range(struct sweep_input *in, int at_border)
{
    in->family = (uint8_t)(1 + below(5));
    random_range(in, at_border);
}

void random_sweep(struct sweep_input *in)
{
    int at_border = one_in(4);
    in->capacity = at_border ? border_capacity() : legal_capacity();
    random_family_and_range(in, at_border);
    fill_sizes(&in->list, in->capacity, one_in(300) ? 2047 + below(3) : below(16));
    spoil_sizes(&in->list, in->capacity);
    fill_counts(&in->list, one_in(25) ? another_length(in->list.n) : in->list.n, one_in(8));
    spoil_counts(&in->list);
    if (one_in(25))
        in->family = (uint8_t)(one_in(2) ? 0 : 6 + below(250));
    if (one_in(25))
        in->capacity = illegal_capacity();
}

void sweep_of_list(struct sweep_input *in, uint64_t capacity, const struct counted_list *list)
{
    in->capacity = capacity;
    in->list = *list;
    random_family_and_range(in, one_in(4));
}

void largest_sweep(struct sweep_input *in, uint8_t family)
{
    in->capacity = 100000;
    in->family = family;
    in->low = 1;
    in->high = 4096;
    fill_sizes(&in->list, in->capacity, 2048);
    fill_counts(&in->list, 2048, 0);
}

/* The first p of the range has the limit as its scale. */
void greatest_swept_sum(struct sweep_input *in, uint8_t family)
{
    static const uint64_t lows[] = {[1] = 1, [2] = 1, [3] = 2, [4] = WINDOWFLOOR_LIMIT / 2 + 1, [5] = 1};
    in->capacity = LIMIT;
    in->family = family;
    in->low = lows[family];
    in->high = in->low + 2;
    in->list.n = in->list.counts_length = 2048;
    for (size_t i = 0; i < 2048; i++) {
        in->list.sizes[i] = (uint32_t)LIMIT;
        in->list.counts[i] = WINDOWFLOOR_MOST_COUNT;
    }
}

/* Exact */

static uint64_t between(uint64_t least, uint64_t x, uint64_t most)
{
    return x < least ? least : lesser(x, most);
}

/* Just over or about a part of the capacity, as a half, or about what is left beside it, or any. */
static uint64_t size_about(uint64_t capacity, uint64_t parts)
{
    uint64_t part = capacity / parts, spread = capacity / 12 + 1;
    switch (below(5)) {
    case 0: return random_size(capacity, 1);
    case 1: return between(1, capacity - part + below(2), capacity);
    case 2: return between(1, part + spread - lesser(part + spread, below(2 * spread)), capacity);
    default: return between(1, part + below(3) - lesser(part, 1), capacity);
    }
}

static void add_size(struct counted_list *list, uint64_t size, size_t count)
{
    list->sizes[list->n] = (uint32_t)size;
    list->counts[list->n] = (uint16_t)count;
    list->counts_length = ++list->n;
}

/* Up to 11 copies, one for each size or several. */
static void put_short_list(struct counted_list *list, uint64_t capacity)
{
    uint64_t parts = 1 + below(4);
    size_t left = below(WINDOWFLOOR_MOST_COPIES + 2), most = one_in(2) ? 1 : left;
    list->n = list->counts_length = 0;
    while (left > 0) {
        size_t count = 1 + below(lesser(left, most));
        add_size(list, size_about(capacity, parts), count);
        left -= count;
    }
}

static void shuffle(struct counted_list *list)
{
    for (size_t i = list->n; i > 1; i--) {
        size_t other = below(i);
        uint32_t size = list->sizes[other];
        list->sizes[other] = list->sizes[i - 1];
        list->sizes[i - 1] = size;
    }
}

/* Sizes that fill two or three windows, three in each, in any order; the capacity is 3 or more. */
static void put_full_windows(struct counted_list *list, uint64_t capacity)
{
    list->n = 0;
    for (size_t windows = 2 + below(2); windows > 0; windows--) {
        uint64_t first = between(1, size_about(capacity, 3), capacity - 2);
        uint64_t second = 1 + below(capacity - first - 1);
        add_size(list, first, 1);
        add_size(list, second, 1);
        add_size(list, capacity - first - second, 1);
    }
    shuffle(list);
}

static void put_exact_list(struct counted_list *list, uint64_t capacity)
{
    if (capacity >= 3 && one_in(4))
        put_full_windows(list, capacity);
    else
        put_short_list(list, capacity);
    if (list->n > 0 && one_in(20))
        list->counts[below(list->n)] = (uint16_t)random_copies();
    if (one_in(200)) {
        fill_sizes(list, capacity, 2047 + below(3));
        fill_counts(list, list->n, below(2));
    }
}

/* Other numbers of counts than of sizes: one too few, or some more. */
static void change_length(struct counted_list *list)
{
    size_t length = another_length(list->n);
    for (size_t i = list->n; i < length; i++)
        list->counts[i] = (uint16_t)below(3);
    list->counts_length = length;
}

void random_exact(struct exact_input *in)
{
    uint64_t capacity = one_in(4) ? border_capacity() : legal_capacity();
    put_exact_list(&in->list, capacity);
    in->windows_places = some_places(WINDOWFLOOR_EXACT_WINDOWS, 15);
    spoil_sizes(&in->list, capacity);
    if (one_in(25))
        change_length(&in->list);
    spoil_counts(&in->list);
    in->capacity = one_in(25) ? illegal_capacity() : capacity;
}

void exact_of_faults(struct exact_input *in, unsigned faults)
{
    static const struct counted_list right = {{7, 3, 5}, {1, 1, 2, 1}, 3, 3};
    struct counted_list *list = &in->list;
    *list = right;
    in->capacity = faults & 1 ? 0 : 10;
    list->counts_length = faults & 2 ? 4 : 3;
    list->sizes[1] = faults & 4 ? 11 : 3;
    list->counts[0] = faults & 8 ? 0 : 1;
    list->counts[2] = faults & 16 ? WINDOWFLOOR_MOST_COUNT : 2;
    in->windows_places = faults & 32 ? 9 : 12;
}

void exact_of_lengths(struct exact_input *in, size_t n, size_t counts_length, size_t windows_places)
{
    in->capacity = 60;
    fill_sizes(&in->list, in->capacity, n);
    fill_counts(&in->list, counts_length, 1);
    in->windows_places = windows_places;
}

void job_of_list(struct job_input *in, uint64_t capacity, const struct counted_list *list)
{
    put_list_head(in, WINDOWFLOOR_KIND_FLOOR, capacity, list->n);
    for (size_t i = 0; i < list->n; i++)
        put_number(in, list->sizes[i]);
    put_header(in, WINDOWFLOOR_TAG_COUNTS, 2 * list->n);
    for (size_t i = 0; i < list->n; i++)
        put_two_bytes(in, list->counts[i]);
    for (size_t steps = below(4); steps > 0; steps--)
        capacity = put_random_step(in, capacity);
    lend_places(in, 1000000);
}
