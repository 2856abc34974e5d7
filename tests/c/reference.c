#include "reference.h"

#include <string.h>

#include "assignment.h"

/* 128 bits: no product of three numbers within the limit passes them. */
__extension__ typedef unsigned __int128 wide;

static const wide LIMIT = 4000000000;

static wide up(wide a, wide b)
{
    return a / b + (a % b > 0 ? 1 : 0);
}

/* Families */

struct step {
    wide capacity;
    unsigned family;
    wide p, q;
};

typedef wide formula(struct step s, wide x);

static wide threshold(struct step s, wide x)
{
    if (x > s.capacity - s.p)
        return s.capacity;
    if (x < s.p)
        return 0;
    return x;
}

static wide rounding(struct step s, wide x)
{
    if (x * (s.p + 1) % s.capacity == 0)
        return x * s.p;
    return x * (s.p + 1) / s.capacity * s.capacity;
}

static wide quotient(struct step s, wide x)
{
    return x / s.p;
}

static wide vanderbeck(struct step s, wide x)
{
    if (x == 0)
        return 0;
    return up(s.p * x, s.capacity) - 1;
}

static wide burdett_johnson(struct step s, wide x)
{
    wide r = s.capacity % s.p, a = x % s.p, phi = s.p - r;
    wide image = x / s.p * phi;
    if (a > r)
        image += a - r;
    return image;
}

static wide theta(struct step s, wide a, wide r)
{
    return up((a - r) * s.q, s.p - r);
}

static wide letchford_lodi(struct step s, wide x)
{
    wide r = s.capacity % s.p, a = x % s.p;
    wide image = (s.q + 1) * (x / s.p);
    if (a > r)
        image += theta(s, a, r);
    return image;
}

static wide dash_gunluk(struct step s, wide x)
{
    wide r = s.capacity % s.p, a = x % s.p, phi = s.p - r;
    wide start = x / s.p * (s.q + 1) * phi;
    if (a <= r)
        return start;
    if (s.q * (s.p - a) % phi == 0)
        return start + (s.q + 1) * (a - r);
    return start + theta(s, a, r) * phi;
}

static wide mirror(formula *g, struct step s, wide x)
{
    if (2 * x < s.capacity)
        return 2 * g(s, x);
    if (2 * x == s.capacity)
        return g(s, s.capacity);
    return 2 * g(s, s.capacity) - 2 * g(s, s.capacity - x);
}

static wide image_of(struct step s, wide x)
{
    switch (s.family) {
    case 1: return threshold(s, x);
    case 2: return rounding(s, x);
    case 3: return mirror(quotient, s, x);
    case 4: return mirror(vanderbeck, s, x);
    case 5: return burdett_johnson(s, x);
    case 6: return mirror(letchford_lodi, s, x);
    default: return dash_gunluk(s, x);
    }
}

/* The scale is the image of the capacity. */
static wide scale_of(struct step s)
{
    return image_of(s, s.capacity);
}

static int legal_with_q(struct step s)
{
    if (s.p < 1 || s.p > s.capacity || s.capacity % s.p == 0)
        return 0;
    return s.q >= up(s.p, s.capacity % s.p) - 1;
}

static int legal(struct step s)
{
    if (s.p > LIMIT || s.q > LIMIT)
        return 0;
    if (s.family <= 5 && s.q != 0)
        return 0;
    switch (s.family) {
    case 1: return 2 * s.p <= s.capacity + 1;
    case 2: return s.p >= 1;
    case 3: return s.p >= 1 && 2 * s.p <= s.capacity;
    case 4: return s.p >= 2 && s.p <= s.capacity;
    case 5: return s.p >= 1 && s.p <= s.capacity;
    default: return legal_with_q(s);
    }
}

static uint64_t step_refusal(struct step s)
{
    if (s.family < 1 || s.family > 7)
        return 2;
    if (!legal(s))
        return 3;
    return scale_of(s) > LIMIT ? 4 : 0;
}

static int capacity_refused(uint64_t capacity)
{
    return capacity == 0 || capacity > LIMIT;
}

static int some_count_is_0(const uint16_t *counts, size_t n)
{
    for (size_t i = 0; i < n; i++)
        if (counts[i] == 0)
            return 1;
    return 0;
}

/* Image */

static struct windowfloor_image_answer image_refused(uint64_t number)
{
    struct windowfloor_image_answer answer = {number, 0, 0};
    return answer;
}

struct windowfloor_image_answer reference_image(uint64_t capacity, uint8_t family, uint64_t p,
                                                uint64_t q, uint64_t x)
{
    struct step s = {capacity, family, p, q};
    struct windowfloor_image_answer answer = {0, 0, 0};
    if (capacity_refused(capacity))
        return image_refused(1);
    uint64_t number = step_refusal(s);
    if (number != 0)
        return image_refused(number);
    if (x > capacity)
        return image_refused(5);
    answer.image = (uint64_t)image_of(s, x);
    answer.scale = (uint64_t)scale_of(s);
    return answer;
}

uint64_t reference_scale(uint64_t capacity, uint8_t family, uint64_t p, uint64_t q)
{
    struct step s = {capacity, family, p, q};
    return (uint64_t)scale_of(s);
}

/* Table check */

void reference_bests(const uint32_t *table, size_t capacity, uint64_t *best)
{
    best[0] = 0;
    for (size_t c = 1; c <= capacity; c++) {
        best[c] = 0;
        for (size_t y = 1; y <= c; y++)
            if (table[y] + best[c - y] > best[c])
                best[c] = table[y] + best[c - y];
    }
}

static size_t write_counterexample(const uint32_t *table, size_t capacity, const uint64_t *best,
                                   uint32_t *list)
{
    size_t length = 0;
    for (size_t c = capacity; best[c] > 0; length++) {
        size_t y = 1;
        while (table[y] + best[c - y] != best[c])
            y++;
        list[length] = (uint32_t)y;
        c -= y;
    }
    return length;
}

static uint64_t entries_refusal(const uint32_t *table, size_t entries)
{
    if (table[0] != 0)
        return 8;
    if (table[entries - 1] == 0)
        return 9;
    for (size_t i = 0; i < entries; i++)
        if (table[i] > LIMIT)
            return 10;
    return 0;
}

static uint64_t early_table_refusal(const uint32_t *table, size_t entries, size_t working_places,
                                    size_t list_places)
{
    if (entries < 2 || entries > 2048)
        return 6;
    if (working_places < entries || list_places < entries - 1)
        return 7;
    return entries_refusal(table, entries);
}

struct windowfloor_table_answer reference_table_check(const uint32_t *table, size_t entries,
                                                      uint64_t *working, size_t working_places,
                                                      uint32_t *list, size_t list_places)
{
    struct windowfloor_table_answer answer = {0, 0};
    answer.number = early_table_refusal(table, entries, working_places, list_places);
    if (answer.number != 0)
        return answer;
    size_t capacity = entries - 1;
    reference_bests(table, capacity, working);
    if (working[capacity] > table[capacity]) {
        answer.number = 11;
        answer.length = write_counterexample(table, capacity, working, list);
    }
    return answer;
}

/* Shortest
 *
 * Breadth first, from the empty list on: level k is what lists of k sizes reach. A place of it is a capacity that
 * they use in full, with the greatest total of their images and the last size of one that has it. No list is
 * gone on from that another of as few sizes replaces, within its capacity and with no smaller total. */

enum { MOST_ENTRIES = 2048 };

struct level {
    uint8_t open[MOST_ENTRIES];    /* gone on from */
    uint64_t totals[MOST_ENTRIES]; /* 0: none */
    uint16_t last_sizes[MOST_ENTRIES];
};

static void offer(struct level *level, size_t place, uint64_t total, size_t last_size)
{
    if (total <= level->totals[place])
        return;
    level->totals[place] = total;
    level->last_sizes[place] = (uint16_t)last_size;
}

static void extend(const uint32_t *table, size_t capacity, const struct level *level, struct level *longer)
{
    memset(longer, 0, sizeof *longer);
    for (size_t used = 0; used <= capacity; used++)
        for (size_t size = 1; level->open[used] && used + size <= capacity; size++)
            offer(longer, used + size, level->totals[used] + table[size], size);
}

/* Opens places of a level; answers how many. `most` has the greatest totals within each capacity. */
static size_t open_places(struct level *level, size_t capacity, uint64_t *most)
{
    size_t opened = 0;
    for (size_t place = 0; place <= capacity; place++) {
        if (place > 0 && most[place - 1] > most[place])
            most[place] = most[place - 1];
        level->open[place] = level->totals[place] > most[place];
        if (!level->open[place])
            continue;
        most[place] = level->totals[place];
        opened++;
    }
    return opened;
}

/* From the last size back to the first. */
static void write_back(const struct level *levels, size_t length, size_t place, uint32_t *list)
{
    for (; length > 0; length--) {
        list[length - 1] = levels[length].last_sizes[place];
        place -= list[length - 1];
    }
}

/* Writes a list to the first places, and answers its length; 0 if none overshoots. */
static size_t write_shortest(const uint32_t *table, size_t capacity, uint32_t *list)
{
    static struct level levels[MOST_ENTRIES + 1]; /* behind the capacity, one of no list */
    uint64_t most[MOST_ENTRIES] = {0};
    size_t length = 0, opened = 1;
    memset(&levels[0], 0, sizeof levels[0]);
    levels[0].open[0] = 1;
    while (opened > 0 && most[capacity] <= table[capacity]) {
        extend(table, capacity, &levels[length], &levels[length + 1]);
        length++;
        opened = open_places(&levels[length], capacity, most);
    }
    if (opened == 0)
        return 0;
    size_t place = 0;
    while (levels[length].totals[place] <= table[capacity])
        place++;
    write_back(levels, length, place, list);
    return length;
}

struct windowfloor_shortest_answer reference_shortest(const uint32_t *table, size_t entries,
                                                      uint64_t *working, size_t working_places,
                                                      uint64_t *second, size_t second_places,
                                                      uint32_t *list, size_t list_places)
{
    struct windowfloor_shortest_answer answer = {0, 0};
    size_t places = working_places < second_places ? working_places : second_places;
    (void)working;
    (void)second;
    answer.number = early_table_refusal(table, entries, places, list_places);
    if (answer.number != 0)
        return answer;
    answer.length = write_shortest(table, entries - 1, list);
    answer.number = answer.length == 0 ? 25 : 0;
    return answer;
}

/* Jobs: the fields
 *
 * A machine takes the bytes one by one, each once, and keeps the numbers that the values are made of. It
 * sees a wrong tag or length before it knows whether the value is all there: so it remembers the fault
 * and tells it behind the value's last byte. If the job ends before that byte, 13 is told instead. */

enum { MOST_STEPS = 8, MOST_BYTES = 65535, MOST_FIELDS = MOST_BYTES / 3, TAGS = 256 };
enum { MOST_ROWS = 64, MOST_COEFFICIENTS = 2048, MOST_BLOCKS = 64 };

/* The part of a field that the next byte belongs to. */
enum part { TAG, LENGTH_HIGH, LENGTH_LOW, VALUE };

/* What has been read when a field starts. */
enum place {
    OUT_OF_PLACE,
    AT_START,
    BEHIND_KIND, /* any but 1 and 3 */
    BEHIND_CAPACITY,
    BEHIND_SIZES,
    BEHIND_FLOOR_KIND, /* 1 */
    BEHIND_FLOOR_CAPACITY,
    BEHIND_FLOOR_SIZES,
    BEHIND_COUNTS,
    BEHIND_BLOCKS,
    AMONG_ROWS, /* behind the kind 3, or behind a row */
    BEHIND_STEP,
    PLACES
};

/* Which tags may come at a place, and the place behind each. */
static const uint8_t place_behind[PLACES][TAGS] = {
    [AT_START] = {[1] = BEHIND_KIND},
    [BEHIND_KIND] = {[2] = BEHIND_CAPACITY},
    [BEHIND_CAPACITY] = {[3] = BEHIND_SIZES},
    [BEHIND_SIZES] = {[4] = BEHIND_STEP, [5] = BEHIND_STEP},
    [BEHIND_FLOOR_KIND] = {[2] = BEHIND_FLOOR_CAPACITY},
    [BEHIND_FLOOR_CAPACITY] = {[3] = BEHIND_FLOOR_SIZES},
    [BEHIND_FLOOR_SIZES] = {[4] = BEHIND_STEP, [5] = BEHIND_STEP, [7] = BEHIND_COUNTS, [8] = BEHIND_BLOCKS},
    [BEHIND_COUNTS] = {[4] = BEHIND_STEP, [5] = BEHIND_STEP, [8] = BEHIND_BLOCKS},
    [BEHIND_BLOCKS] = {[4] = BEHIND_STEP, [5] = BEHIND_STEP},
    [AMONG_ROWS] = {[4] = BEHIND_STEP, [5] = BEHIND_STEP, [6] = AMONG_ROWS},
    [BEHIND_STEP] = {[4] = BEHIND_STEP, [5] = BEHIND_STEP},
};

static const uint8_t may_end[PLACES] = {[BEHIND_SIZES] = 1,  [BEHIND_FLOOR_SIZES] = 1, [BEHIND_COUNTS] = 1,
                                        [BEHIND_BLOCKS] = 1, [AMONG_ROWS] = 1,         [BEHIND_STEP] = 1};

/* A tag's lengths, and how many bytes the first number of its value has, and each of the others. Of the
 * lengths of tag 7 one alone is right: there are as many counts as sizes. */
static const struct layout {
    size_t least, most, multiple, first, other;
} layouts[TAGS] = {
    [1] = {1, 1, 1, 1, 0},
    [2] = {4, 4, 4, 4, 0},
    [3] = {0, 4 * 2048, 4, 4, 4},
    [4] = {9, 9, 9, 1, 4},
    [5] = {8, 4 * 2048, 4, 4, 4},
    [6] = {4, MOST_BYTES, 4, 4, 4},
    [7] = {0, 2 * 2048, 2, 2, 2},
    [8] = {0, MOST_BYTES, 2, 2, 2},
};

struct field {
    unsigned tag;
    size_t count;
    const uint32_t *numbers;
};

struct fields {
    size_t count, numbers_kept;
    struct field at[MOST_FIELDS];
    uint32_t numbers[MOST_BYTES]; /* of all fields; each takes a byte of the job, or more */
};

struct machine {
    enum part part;
    enum place place;
    size_t steps;
    unsigned tag;    /* of the present field, as all below */
    uint64_t fault;  /* 14, 15 or 0 */
    size_t left;     /* bytes of the value that are still to come */
    size_t lacking;  /* bytes that the present number still lacks */
    uint32_t number; /* the present number, so far */
};

/* The field of a tag that comes once. */
static struct field field_of(const struct fields *fields, unsigned tag)
{
    size_t i = 0;
    while (fields->at[i].tag != tag)
        i++;
    return fields->at[i];
}

/* Of one that comes once or not at all; NULL if it does not come. */
static const struct field *field_if_any(const struct fields *fields, unsigned tag)
{
    for (size_t i = 0; i < fields->count; i++)
        if (fields->at[i].tag == tag)
            return &fields->at[i];
    return NULL;
}

static int length_wrong(unsigned tag, size_t length, const struct fields *fields)
{
    const struct layout *layout = &layouts[tag];
    if (length < layout->least || length > layout->most || length % layout->multiple != 0)
        return 1;
    return tag == 7 && length != 2 * field_of(fields, 3).count;
}

static enum place place_behind_kind(uint32_t kind)
{
    switch (kind) {
    case 1: return BEHIND_FLOOR_KIND;
    case 3: return AMONG_ROWS;
    default: return BEHIND_KIND;
    }
}

static void take_tag(struct machine *m, uint8_t tag)
{
    m->tag = tag;
    m->place = place_behind[m->place][tag];
    m->steps += m->place == BEHIND_STEP;
    m->fault = m->place == OUT_OF_PLACE || m->steps > MOST_STEPS ? 14 : 0;
}

static void start_value(struct machine *m, struct fields *fields)
{
    if (m->fault != 0)
        return;
    if (length_wrong(m->tag, m->left, fields)) {
        m->fault = 15;
        return;
    }
    struct field f = {m->tag, 0, fields->numbers + fields->numbers_kept};
    fields->at[fields->count++] = f;
    m->lacking = layouts[m->tag].first;
    m->number = 0;
}

static void end_number(struct machine *m, struct fields *fields)
{
    fields->numbers[fields->numbers_kept++] = m->number;
    fields->at[fields->count - 1].count++;
    if (m->tag == 1)
        m->place = place_behind_kind(m->number);
    m->lacking = layouts[m->tag].other;
    m->number = 0;
}

static void take_value(struct machine *m, uint8_t byte, struct fields *fields)
{
    m->left--;
    if (m->fault != 0)
        return;
    m->number = m->number * 256 + byte;
    m->lacking--;
    if (m->lacking == 0)
        end_number(m, fields);
}

static void take_byte(struct machine *m, uint8_t byte, struct fields *fields)
{
    switch (m->part) {
    case TAG:
        take_tag(m, byte);
        m->part = LENGTH_HIGH;
        break;
    case LENGTH_HIGH:
        m->left = 256 * (size_t)byte;
        m->part = LENGTH_LOW;
        break;
    case LENGTH_LOW:
        m->left += byte;
        start_value(m, fields);
        m->part = m->left > 0 ? VALUE : TAG;
        break;
    case VALUE:
        take_value(m, byte, fields);
        m->part = m->left > 0 ? VALUE : TAG;
        break;
    }
}

/* The machine at the job's end, or behind the first field with a fault. */
static struct machine read_fields(const uint8_t *job, size_t bytes, struct fields *fields)
{
    struct machine m = {TAG, AT_START, 0, 0, 0, 0, 0, 0};
    fields->count = fields->numbers_kept = 0;
    for (size_t i = 0; i < bytes && (m.part != TAG || m.fault == 0); i++)
        take_byte(&m, job[i], fields);
    return m;
}

static uint64_t fields_refusal(struct machine m)
{
    if (m.part != TAG)
        return 13;
    if (m.fault != 0)
        return m.fault;
    return may_end[m.place] ? 0 : 14;
}

unsigned reference_refused_tag(const uint8_t *job, size_t bytes)
{
    static struct fields fields;
    struct machine m = read_fields(job, bytes, &fields);
    return m.part != TAG || m.fault != 0 ? m.tag : 0;
}

/* Jobs: the steps, applied to a list of the reference's own */

struct chain {
    uint64_t scale; /* the capacity of the next step */
    size_t n;
    uint32_t images[2048];
    uint16_t counts[2048];
};

static uint64_t family_step(struct field f, struct chain *chain)
{
    struct step s = {chain->scale, f.numbers[0], f.numbers[1], f.numbers[2]};
    uint64_t number = step_refusal(s);
    if (number != 0)
        return number;
    for (size_t i = 0; i < chain->n; i++)
        chain->images[i] = (uint32_t)image_of(s, chain->images[i]);
    chain->scale = (uint64_t)scale_of(s);
    return 0;
}

static uint64_t table_step(struct field f, struct chain *chain, uint32_t *list, uint64_t *length)
{
    static uint64_t working[2048];
    if (f.count - 1 != chain->scale)
        return 18;
    struct windowfloor_table_answer checked =
        reference_table_check(f.numbers, f.count, working, 2048, list, 2047);
    *length = checked.length;
    if (checked.number != 0)
        return checked.number;
    for (size_t i = 0; i < chain->n; i++)
        chain->images[i] = f.numbers[chain->images[i]];
    chain->scale = f.numbers[f.count - 1];
    return 0;
}

static int blocks_wrong(const struct field *blocks, size_t n)
{
    size_t sizes = 0;
    for (size_t i = 0; i < blocks->count; i++) {
        if (blocks->numbers[i] == 0)
            return 1;
        sizes += blocks->numbers[i];
    }
    return blocks->count > MOST_BLOCKS || sizes != n;
}

static uint64_t list_refusal(unsigned kind, const struct chain *chain, const struct field *blocks)
{
    if (capacity_refused(chain->scale))
        return 1;
    for (size_t i = 0; i < chain->n; i++)
        if (chain->images[i] > chain->scale || (kind == 1 && chain->images[i] == 0))
            return 17;
    if (some_count_is_0(chain->counts, chain->n))
        return 22;
    return blocks != NULL && blocks_wrong(blocks, chain->n) ? 23 : 0;
}

static void start_chain(struct chain *chain, uint32_t capacity, const uint32_t *sizes, size_t n)
{
    chain->scale = capacity;
    chain->n = n;
    memcpy(chain->images, sizes, n * sizeof *sizes);
    for (size_t i = 0; i < n; i++)
        chain->counts[i] = 1;
}

/* The counts of a job that has them stand in the place of ones. */
static void set_counts(struct chain *chain, const struct fields *fields)
{
    const struct field *counts = field_if_any(fields, 7);
    for (size_t i = 0; counts != NULL && i < chain->n; i++)
        chain->counts[i] = (uint16_t)counts->numbers[i];
}

/* The answer of a cut has what both answers have. A refusal's number, step and length go into it. */
static void run_steps(const struct fields *fields, struct chain *chain, uint32_t *list,
                      struct windowfloor_cut_answer *answer)
{
    uint64_t step = 0;
    for (size_t i = 0; i < fields->count && answer->number == 0; i++) {
        struct field f = fields->at[i];
        step += f.tag == 4 || f.tag == 5;
        if (f.tag == 4)
            answer->number = family_step(f, chain);
        if (f.tag == 5)
            answer->number = table_step(f, chain, list, &answer->length);
    }
    answer->step = answer->number == 0 ? 0 : step;
}

static void run_chain(unsigned kind, const struct fields *fields, struct chain *chain, uint32_t *list,
                      struct windowfloor_cut_answer *answer)
{
    answer->number = list_refusal(kind, chain, field_if_any(fields, 8));
    if (answer->number == 0)
        run_steps(fields, chain, list, answer);
}

/* Both operations */

struct places {
    size_t images, working, list, own;
};

/* What is refused before a list or a row is looked at; the kinds from the first to the last are taken. */
static uint64_t early_job_refusal(const uint8_t *job, size_t bytes, struct places lent, unsigned first,
                                  unsigned last, struct fields *fields)
{
    if (bytes > MOST_BYTES)
        return 12;
    if (lent.images < 2048 || lent.working < 2048 || lent.list < 2047 || lent.own < 64)
        return 7;
    uint64_t number = fields_refusal(read_fields(job, bytes, fields));
    if (number != 0)
        return number;
    unsigned kind = field_of(fields, 1).numbers[0];
    return kind < first || kind > last ? 16 : 0;
}

/* A list, kind 1 or 2. */
static void run_list(unsigned kind, const struct fields *fields, struct chain *chain, uint32_t *images,
                     uint32_t *list, struct windowfloor_cut_answer *answer)
{
    struct field sizes = field_of(fields, 3);
    start_chain(chain, field_of(fields, 2).numbers[0], sizes.numbers, sizes.count);
    set_counts(chain, fields);
    run_chain(kind, fields, chain, list, answer);
    if (answer->number != 0)
        return;
    memcpy(images, chain->images, chain->n * sizeof *images);
    answer->n = chain->n;
    answer->scale = chain->scale;
}

/* Floor */

/* Of n sizes from the first on. */
static uint64_t sum_of(const struct chain *chain, size_t first, size_t n)
{
    uint64_t sum = 0;
    for (size_t i = first; i < first + n; i++)
        sum += (uint64_t)chain->counts[i] * chain->images[i];
    return sum;
}

/* A block begins where the one before it ends. */
static void accept_blocks(const struct chain *chain, const struct field *block_sizes, uint32_t *blocks,
                          struct windowfloor_floor_answer *answer)
{
    size_t first = 0;
    answer->total = 0;
    for (size_t i = 0; i < block_sizes->count; i++) {
        blocks[i] = (uint32_t)up(sum_of(chain, first, block_sizes->numbers[i]), chain->scale);
        answer->total += blocks[i];
        first += block_sizes->numbers[i];
    }
}

static void accept_floor(const struct chain *chain, const struct field *block_sizes, uint32_t *blocks,
                         struct windowfloor_floor_answer *answer)
{
    answer->sum = sum_of(chain, 0, chain->n);
    answer->floor = answer->total = (uint64_t)up(answer->sum, answer->scale);
    if (block_sizes != NULL)
        accept_blocks(chain, block_sizes, blocks, answer);
}

struct windowfloor_floor_answer reference_floor(const uint8_t *job, size_t bytes,
                                                uint32_t *images, size_t images_places,
                                                uint64_t *working, size_t working_places,
                                                uint32_t *list, size_t list_places,
                                                uint32_t *blocks, size_t blocks_places)
{
    static struct fields fields;
    static struct chain chain;
    struct places lent = {images_places, working_places, list_places, blocks_places};
    struct windowfloor_cut_answer ran = {0, 0, 0, 0, 0, 0};
    (void)working;
    ran.number = early_job_refusal(job, bytes, lent, 1, 1, &fields);
    if (ran.number == 0)
        run_list(1, &fields, &chain, images, list, &ran);
    struct windowfloor_floor_answer answer = {ran.number, ran.n,      0,       0, ran.scale,
                                              ran.step,   ran.length, ran.row, 0};
    if (answer.number == 0)
        accept_floor(&chain, field_if_any(&fields, 8), blocks, &answer);
    return answer;
}

/* Cut. In kind 3 a row is a right side and its coefficients. Rows are kept until the last is accepted. */

struct model {
    size_t rows, n;
    uint32_t scales[MOST_ROWS], images[MOST_COEFFICIENTS];
};

static uint64_t rows_refusal(const struct fields *fields)
{
    size_t rows = 0, coefficients = 0;
    for (size_t i = 0; i < fields->count; i++) {
        if (fields->at[i].tag != 6)
            continue;
        rows++;
        coefficients += fields->at[i].count - 1;
    }
    return rows < 1 || rows > MOST_ROWS || coefficients > MOST_COEFFICIENTS ? 21 : 0;
}

static void keep_row(struct model *model, const struct chain *chain)
{
    memcpy(model->images + model->n, chain->images, chain->n * sizeof *chain->images);
    model->n += chain->n;
    model->scales[model->rows++] = (uint32_t)chain->scale;
}

static void run_row(struct field row, const struct fields *fields, struct model *model, uint32_t *list,
                    struct windowfloor_cut_answer *answer)
{
    static struct chain chain;
    start_chain(&chain, row.numbers[0], row.numbers + 1, row.count - 1);
    run_chain(3, fields, &chain, list, answer);
    if (answer->number == 0)
        keep_row(model, &chain);
    else
        answer->row = model->rows + 1;
}

static void accept_rows(const struct model *model, uint32_t *images, uint32_t *scales,
                        struct windowfloor_cut_answer *answer)
{
    answer->n = model->n;
    memcpy(images, model->images, model->n * sizeof *images);
    memcpy(scales, model->scales, model->rows * sizeof *scales);
}

static void run_rows(const struct fields *fields, uint32_t *images, uint32_t *list, uint32_t *scales,
                     struct windowfloor_cut_answer *answer)
{
    static struct model model;
    model.rows = model.n = 0;
    answer->number = rows_refusal(fields);
    for (size_t i = 0; i < fields->count && answer->number == 0; i++)
        if (fields->at[i].tag == 6)
            run_row(fields->at[i], fields, &model, list, answer);
    if (answer->number == 0)
        accept_rows(&model, images, scales, answer);
}

struct windowfloor_cut_answer reference_cut(const uint8_t *job, size_t bytes,
                                            uint32_t *images, size_t images_places,
                                            uint64_t *working, size_t working_places,
                                            uint32_t *list, size_t list_places,
                                            uint32_t *scales, size_t scales_places)
{
    static struct fields fields;
    static struct chain chain;
    struct places lent = {images_places, working_places, list_places, scales_places};
    struct windowfloor_cut_answer answer = {0, 0, 0, 0, 0, 0};
    (void)working;
    answer.number = early_job_refusal(job, bytes, lent, 2, 3, &fields);
    if (answer.number != 0)
        return answer;
    if (field_of(&fields, 1).numbers[0] == 3)
        run_rows(&fields, images, list, scales, &answer);
    else
        run_list(2, &fields, &chain, images, list, &answer);
    return answer;
}

/* Sweep */

/* Of a list that is in no job. */
static uint64_t counted_list_refusal(uint64_t capacity, const uint32_t *sizes, size_t n,
                                     const uint16_t *counts, size_t counts_length)
{
    if (n > 2048 || counts_length != n)
        return 6;
    for (size_t i = 0; i < n; i++)
        if (sizes[i] == 0 || sizes[i] > capacity)
            return 17;
    return some_count_is_0(counts, n) ? 22 : 0;
}

static uint64_t sweep_refusal(uint64_t capacity, uint8_t family, const uint32_t *sizes, size_t n,
                              const uint16_t *counts, size_t counts_length, uint64_t low, uint64_t high)
{
    if (capacity_refused(capacity))
        return 1;
    if (family < 1 || family > 5)
        return 2;
    uint64_t number = counted_list_refusal(capacity, sizes, n, counts, counts_length);
    if (number != 0)
        return number;
    return low > high || high - low > 4095 ? 19 : 0;
}

static uint64_t one_step_floor(struct step s, const uint32_t *sizes, const uint16_t *counts, size_t n)
{
    wide sum = 0;
    for (size_t i = 0; i < n; i++)
        sum += counts[i] * image_of(s, sizes[i]);
    return (uint64_t)up(sum, scale_of(s));
}

struct windowfloor_sweep_answer reference_sweep(uint64_t capacity, uint8_t family,
                                                const uint32_t *sizes, size_t n,
                                                const uint16_t *counts, size_t counts_length,
                                                uint64_t low, uint64_t high)
{
    struct windowfloor_sweep_answer answer = {0, 0, 0};
    answer.number = sweep_refusal(capacity, family, sizes, n, counts, counts_length, low, high);
    if (answer.number != 0)
        return answer;
    answer.number = 20;
    for (uint64_t i = 0; i <= high - low; i++) {
        struct step s = {capacity, family, low + i, 0};
        if (step_refusal(s) != 0)
            continue;
        uint64_t floor = one_step_floor(s, sizes, counts, n);
        if (answer.number == 20 || floor > answer.floor) {
            answer.number = 0;
            answer.floor = floor;
            answer.p = low + i;
        }
    }
    return answer;
}

/* Exact */

enum { MOST_COPIES = 10 };

static size_t total_of_counts(const uint16_t *counts, size_t n)
{
    size_t total = 0;
    for (size_t i = 0; i < n; i++)
        total += counts[i];
    return total;
}

static uint64_t exact_refusal(uint64_t capacity, const uint32_t *sizes, size_t n, const uint16_t *counts,
                              size_t counts_length, size_t windows_places)
{
    if (capacity_refused(capacity))
        return 1;
    uint64_t number = counted_list_refusal(capacity, sizes, n, counts, counts_length);
    if (number != 0)
        return number;
    if (total_of_counts(counts, n) > MOST_COPIES)
        return 24;
    return windows_places < 10 ? 7 : 0;
}

/* Of a group of copies, in which bit i stands for copy i: its fewest windows and the least that the last
 * of so few can hold, with the copy that came to it last. */
struct packing {
    unsigned windows, last;
    wide load;
};

static int is_better(struct packing a, struct packing b)
{
    return a.windows < b.windows || (a.windows == b.windows && a.load < b.load);
}

/* The copy goes into the last window if it has room, else into a new one. */
static struct packing with_copy(struct packing before, unsigned copy, uint32_t size, uint64_t capacity)
{
    struct packing after = {before.windows, copy, before.load + size};
    if (after.load > capacity) {
        after.windows++;
        after.load = size;
    }
    return after;
}

/* Each copy of the group is tried as the last; all smaller groups are known. */
static struct packing best_packing(const struct packing *best, unsigned group, const uint32_t *copies,
                                   uint64_t capacity)
{
    struct packing found = {MOST_COPIES + 1, 0, 0};
    for (unsigned copy = 0; group >> copy != 0; copy++) {
        unsigned bit = 1u << copy;
        if (!(group & bit))
            continue;
        struct packing tried = with_copy(best[group - bit], copy, copies[copy], capacity);
        if (is_better(tried, found))
            found = tried;
    }
    return found;
}

struct windowfloor_exact_answer reference_exact(uint64_t capacity,
                                                const uint32_t *sizes, size_t n,
                                                const uint16_t *counts, size_t counts_length,
                                                uint32_t *windows, size_t windows_places)
{
    struct windowfloor_exact_answer answer = {0, 0};
    struct packing best[1u << MOST_COPIES] = {{0, 0, capacity}}; /* no window: the next copy opens one */
    uint32_t copies[MOST_COPIES];
    answer.number = exact_refusal(capacity, sizes, n, counts, counts_length, windows_places);
    if (answer.number != 0)
        return answer;
    unsigned all = (1u << write_copies(sizes, n, counts, copies)) - 1;
    for (unsigned group = 1; group <= all; group++)
        best[group] = best_packing(best, group, copies, capacity);
    answer.fewest = best[all].windows;
    for (unsigned group = all; group != 0; group -= 1u << best[group].last)
        windows[best[group].last] = best[group].windows - 1;
    return answer;
}
