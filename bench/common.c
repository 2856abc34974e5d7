#include "common.h"

#include <string.h>

/* Table check */

static uint64_t judge_entries(const uint32_t *table, size_t entries)
{
    if (table[0] != 0)
        return WINDOWFLOOR_FIRST_ENTRY_NOT_0;
    if (table[entries - 1] == 0)
        return WINDOWFLOOR_LAST_ENTRY_0;
    for (size_t i = 0; i < entries; i++)
        if (table[i] > LIMIT)
            return WINDOWFLOOR_ENTRY_TOO_LARGE;
    return 0;
}

static size_t write_counterexample(const uint32_t *table, size_t capacity, const uint64_t *best,
                                   uint32_t *list)
{
    size_t length = 0;
    for (size_t c = capacity; best[c] > 0; length++) {
        size_t y = 1;
        while (table[y] + best[c - y] != best[c])
            y++;
        list[length] = (uint32_t)y;
        c -= y;
    }
    return length;
}

/* Refusals 6 to 10, or 0. */
static uint64_t judge_table(const uint32_t *table, size_t entries, size_t working_places, size_t list_places)
{
    if (entries < 2 || entries > WINDOWFLOOR_MOST_ENTRIES)
        return WINDOWFLOOR_BAD_COUNT;
    if (working_places < entries || list_places < entries - 1)
        return WINDOWFLOOR_SHORT_BUFFER;
    return judge_entries(table, entries);
}

struct windowfloor_table_answer check_table(const struct parts *parts,
                                            const uint32_t *table, size_t entries,
                                            uint64_t *working, size_t working_places,
                                            uint32_t *list, size_t list_places)
{
    struct windowfloor_table_answer answer = {0, 0};
    answer.number = judge_table(table, entries, working_places, list_places);
    if (answer.number != 0)
        return answer;
    parts->fill_bests(table, entries - 1, working);
    if (working[entries - 1] > table[entries - 1]) {
        answer.number = WINDOWFLOOR_NOT_DUAL_FEASIBLE;
        answer.length = write_counterexample(table, entries - 1, working, list);
    }
    return answer;
}

/* A shortest list */

struct windowfloor_shortest_answer run_shortest(const struct parts *parts,
                                                const uint32_t *table, size_t entries,
                                                uint64_t *working, size_t working_places,
                                                uint64_t *second, size_t second_places,
                                                uint32_t *list, size_t list_places)
{
    struct windowfloor_shortest_answer answer = {0, 0};
    size_t places = working_places < second_places ? working_places : second_places;
    answer.number = judge_table(table, entries, places, list_places);
    if (answer.number != 0)
        return answer;
    parts->fill_bests(table, entries - 1, working);
    if (working[entries - 1] <= table[entries - 1])
        answer.number = WINDOWFLOOR_DUAL_FEASIBLE;
    else
        answer.length = parts->put_shortest(table, entries - 1, working, second, list);
    return answer;
}

/* Jobs: the fields. A list is the sizes with their capacity, or a row with its right side. */

struct step {
    uint8_t tag;
    size_t length;
    const uint8_t *value;
};

struct list {
    uint64_t capacity;
    size_t n;
    const uint8_t *sizes, *counts; /* no counts: NULL, and each is 1 */
    const uint8_t *blocks;         /* or NULL */
    size_t block_count;
};

struct contents {
    uint8_t kind, last_tag; /* 0: not yet read */
    size_t lists, sizes, steps;
    struct list list[WINDOWFLOOR_MOST_ROWS]; /* the first of them; there may be more */
    struct step step[WINDOWFLOOR_MOST_STEPS];
};

static int step_in_place(const struct contents *c)
{
    int head_read = c->kind == WINDOWFLOOR_KIND_ROWS || c->last_tag >= WINDOWFLOOR_TAG_SIZES;
    return head_read && c->steps < WINDOWFLOOR_MOST_STEPS;
}

static int counts_in_place(const struct contents *c)
{
    return c->kind == WINDOWFLOOR_KIND_FLOOR && c->last_tag == WINDOWFLOOR_TAG_SIZES;
}

static int blocks_in_place(const struct contents *c)
{
    return counts_in_place(c) || c->last_tag == WINDOWFLOOR_TAG_COUNTS;
}

static int tag_in_place(const struct contents *c, uint8_t tag)
{
    switch (tag) {
    case WINDOWFLOOR_TAG_KIND:
        return c->last_tag == 0;
    case WINDOWFLOOR_TAG_CAPACITY: case WINDOWFLOOR_TAG_SIZES:
        return c->kind != WINDOWFLOOR_KIND_ROWS && c->last_tag == tag - 1;
    case WINDOWFLOOR_TAG_FAMILY: case WINDOWFLOOR_TAG_TABLE:
        return step_in_place(c);
    case WINDOWFLOOR_TAG_COUNTS:
        return counts_in_place(c);
    case WINDOWFLOOR_TAG_BLOCKS:
        return blocks_in_place(c);
    default:
        return tag == WINDOWFLOOR_TAG_ROW && c->kind == WINDOWFLOOR_KIND_ROWS && c->steps == 0;
    }
}

static int length_right(const struct contents *c, uint8_t tag, size_t length)
{
    switch (tag) {
    case WINDOWFLOOR_TAG_KIND: return length == 1;
    case WINDOWFLOOR_TAG_CAPACITY: return length == 4;
    case WINDOWFLOOR_TAG_SIZES: return length % 4 == 0 && length <= 8192;
    case WINDOWFLOOR_TAG_FAMILY: return length == 9;
    case WINDOWFLOOR_TAG_TABLE: return length % 4 == 0 && length >= 8 && length <= 8192;
    case WINDOWFLOOR_TAG_COUNTS: return length == 2 * c->sizes;
    case WINDOWFLOOR_TAG_BLOCKS: return length % 2 == 0;
    default: return length % 4 == 0 && length >= 4;
    }
}

static void add_row(struct contents *c, const uint8_t *value, size_t length)
{
    struct list row = {word(value), length / 4 - 1, value + 4, NULL, NULL, 0};
    if (c->lists < WINDOWFLOOR_MOST_ROWS)
        c->list[c->lists] = row;
    c->lists++;
    c->sizes += row.n;
}

static void add_field(struct contents *c, uint8_t tag, const uint8_t *value, size_t length)
{
    c->last_tag = tag;
    switch (tag) {
    case WINDOWFLOOR_TAG_KIND:
        c->kind = value[0];
        break;
    case WINDOWFLOOR_TAG_CAPACITY:
        c->list[0].capacity = word(value);
        break;
    case WINDOWFLOOR_TAG_SIZES:
        c->lists = 1;
        c->list[0].sizes = value;
        c->list[0].counts = c->list[0].blocks = NULL;
        c->list[0].n = c->sizes = length / 4;
        break;
    case WINDOWFLOOR_TAG_COUNTS:
        c->list[0].counts = value;
        break;
    case WINDOWFLOOR_TAG_BLOCKS:
        c->list[0].blocks = value;
        c->list[0].block_count = length / 2;
        break;
    case WINDOWFLOOR_TAG_ROW:
        add_row(c, value, length);
        break;
    default:
        c->step[c->steps++] = (struct step){tag, length, value};
    }
}

static uint64_t read_fields(const uint8_t *job, size_t bytes, struct contents *c)
{
    c->kind = c->last_tag = 0;
    c->lists = c->sizes = c->steps = 0;
    for (size_t at = 0; at < bytes;) {
        if (bytes - at < 3)
            return WINDOWFLOOR_PAST_THE_END;
        size_t length = (size_t)job[at + 1] << 8 | job[at + 2];
        if (bytes - at - 3 < length)
            return WINDOWFLOOR_PAST_THE_END;
        if (!tag_in_place(c, job[at]))
            return WINDOWFLOOR_BAD_TAG;
        if (!length_right(c, job[at], length))
            return WINDOWFLOOR_BAD_LENGTH;
        add_field(c, job[at], job + at + 3, length);
        at += 3 + length;
    }
    return c->kind != WINDOWFLOOR_KIND_ROWS && c->last_tag < WINDOWFLOOR_TAG_SIZES ? WINDOWFLOOR_BAD_TAG : 0;
}

/* What an operation takes: kinds from the first to the last, and a buffer of its own of so many places. */
struct taken {
    uint8_t first, last;
    size_t own;
};

static const struct taken by_floor = {WINDOWFLOOR_KIND_FLOOR, WINDOWFLOOR_KIND_FLOOR, WINDOWFLOOR_JOB_BLOCKS};
static const struct taken by_cut = {WINDOWFLOOR_KIND_CUT, WINDOWFLOOR_KIND_ROWS, WINDOWFLOOR_JOB_SCALES};

/* What a job may not be as a whole, once its fields are read. */
static uint64_t judge_contents(const struct contents *c, const struct taken *taken)
{
    if (c->kind < taken->first || c->kind > taken->last)
        return WINDOWFLOOR_BAD_KIND;
    if (c->kind != WINDOWFLOOR_KIND_ROWS)
        return 0;
    return c->lists < 1 || c->lists > WINDOWFLOOR_MOST_ROWS || c->sizes > WINDOWFLOOR_MOST_SIZES
        ? WINDOWFLOOR_BAD_ROWS : 0;
}

struct places {
    size_t images, working, list, own;
};

/* All that is asked before the lists. */
static uint64_t read_job(const uint8_t *job, size_t bytes, struct places lent, const struct taken *taken,
                         struct contents *c)
{
    if (bytes > WINDOWFLOOR_MOST_JOB_BYTES)
        return WINDOWFLOOR_JOB_TOO_LONG;
    if (lent.images < WINDOWFLOOR_JOB_IMAGES || lent.working < WINDOWFLOOR_JOB_WORKING
        || lent.list < WINDOWFLOOR_JOB_LIST || lent.own < taken->own)
        return WINDOWFLOOR_SHORT_BUFFER;
    uint64_t number = read_fields(job, bytes, c);
    return number != 0 ? number : judge_contents(c, taken);
}

/* Jobs: each list is mapped in its part of an array that is copied when all steps of all are accepted. */

struct chain {
    uint64_t scale;
    size_t n;
    uint32_t *images;
};

static int any_count_0(const struct list *list)
{
    int found = 0;
    for (size_t i = 0; list->counts != NULL && i < list->n; i++)
        found |= halfword(list->counts + 2 * i) == 0;
    return found;
}

static int blocks_wrong(const struct list *list)
{
    size_t sizes = 0;
    int empty = 0;
    if (list->block_count > WINDOWFLOOR_MOST_BLOCKS)
        return 1;
    for (size_t i = 0; i < list->block_count; i++) {
        sizes += halfword(list->blocks + 2 * i);
        empty |= halfword(list->blocks + 2 * i) == 0;
    }
    return empty || sizes != list->n;
}

static uint64_t start_chain(const struct list *list, uint32_t least, struct chain *chain)
{
    if (list->capacity < 1 || list->capacity > LIMIT)
        return WINDOWFLOOR_BAD_CAPACITY;
    chain->scale = list->capacity;
    chain->n = list->n;
    decode(list->sizes, chain->images, chain->n);
    for (size_t i = 0; i < chain->n; i++)
        if (chain->images[i] < least || chain->images[i] > chain->scale)
            return WINDOWFLOOR_BAD_SIZE;
    if (any_count_0(list))
        return WINDOWFLOOR_COUNT_0;
    return list->blocks != NULL && blocks_wrong(list) ? WINDOWFLOOR_BAD_BLOCKS : 0;
}

static uint64_t family_step(const struct parts *parts, const struct step *step, struct chain *chain)
{
    uint8_t family = step->value[0];
    uint64_t p = word(step->value + 1), q = word(step->value + 5), scale;
    uint64_t number = judge_family(chain->scale, family, p, q, &scale);
    if (number != 0)
        return number;
    parts->map_family(chain->scale, family, p, q, chain->images, chain->n);
    chain->scale = scale;
    return 0;
}

static uint64_t table_step(const struct parts *parts, const struct step *step, struct chain *chain,
                           uint64_t *working, uint32_t *list, uint64_t *length)
{
    uint32_t table[WINDOWFLOOR_MOST_ENTRIES];
    size_t entries = step->length / 4;
    if (entries - 1 != chain->scale)
        return WINDOWFLOOR_OTHER_CAPACITY;
    decode(step->value, table, entries);
    struct windowfloor_table_answer checked =
        check_table(parts, table, entries, working, WINDOWFLOOR_JOB_WORKING, list,
                    WINDOWFLOOR_JOB_LIST);
    *length = checked.length;
    if (checked.number != 0)
        return checked.number;
    for (size_t i = 0; i < chain->n; i++)
        chain->images[i] = table[chain->images[i]];
    chain->scale = table[entries - 1];
    return 0;
}

/* A table step of a later row: the table is known to be dual-feasible. */
static uint64_t known_table_step(const struct parts *parts, const struct step *step,
                                 struct chain *chain)
{
    size_t entries = step->length / 4;
    if (entries - 1 != chain->scale)
        return WINDOWFLOOR_OTHER_CAPACITY;
    parts->map_table(step->value, entries, chain->images, chain->n);
    chain->scale = word(step->value + 4 * (entries - 1));
    return 0;
}

/* The steps of one list; a refusal's number, step and length go into the answer. That of a cut has what both
 * answers have. */
static void run_steps(const struct parts *parts, const struct contents *c, int first,
                      struct chain *chain, uint64_t *working, uint32_t *list,
                      struct windowfloor_cut_answer *answer)
{
    for (size_t i = 0; i < c->steps && answer->number == 0; i++) {
        const struct step *step = &c->step[i];
        if (step->tag == WINDOWFLOOR_TAG_FAMILY)
            answer->number = family_step(parts, step, chain);
        else if (first)
            answer->number = table_step(parts, step, chain, working, list, &answer->length);
        else
            answer->number = known_table_step(parts, step, chain);
        answer->step = answer->number == 0 ? 0 : i + 1;
    }
}

/* All lists; the scales that they reach go into `reached`. */
static void run_lists(const struct parts *parts, const struct contents *c, uint32_t *images,
                      uint64_t *working, uint32_t *list, uint32_t *reached,
                      struct windowfloor_cut_answer *answer)
{
    uint32_t mapped[WINDOWFLOOR_MOST_SIZES];
    struct chain chain = {0, 0, mapped};
    int rows = c->kind == WINDOWFLOOR_KIND_ROWS;
    for (size_t i = 0; i < c->lists && answer->number == 0; i++) {
        chain.images += chain.n;
        answer->number = start_chain(&c->list[i], c->kind == WINDOWFLOOR_KIND_FLOOR, &chain);
        run_steps(parts, c, i == 0, &chain, working, list, answer);
        reached[i] = (uint32_t)chain.scale;
        answer->row = rows && answer->number != 0 ? i + 1 : 0;
    }
    if (answer->number != 0)
        return;
    answer->n = c->sizes;
    answer->scale = rows ? 0 : chain.scale;
    memcpy(images, mapped, c->sizes * sizeof *images);
}

static void add_floors(const struct parts *parts, const struct list *list, const uint32_t *images,
                       uint32_t *blocks, struct windowfloor_floor_answer *answer)
{
    const struct counted counted = {images, list->counts, list->n};
    if (list->blocks == NULL) {
        answer->sum = sum_from(&counted, 0, list->n);
        answer->total = round_up(answer->sum, answer->scale);
    } else {
        struct sums sums =
            parts->floor_blocks(&counted, list->blocks, list->block_count, answer->scale, blocks);
        answer->sum = sums.sum;
        answer->total = sums.total;
    }
    answer->floor = round_up(answer->sum, answer->scale);
}

struct windowfloor_floor_answer run_floor(const struct parts *parts, const uint8_t *job, size_t bytes,
                                          uint32_t *images, size_t images_places,
                                          uint64_t *working, size_t working_places,
                                          uint32_t *list, size_t list_places,
                                          uint32_t *blocks, size_t blocks_places)
{
    struct windowfloor_cut_answer ran = {0, 0, 0, 0, 0, 0};
    struct places lent = {images_places, working_places, list_places, blocks_places};
    struct contents contents;
    uint32_t reached;
    ran.number = read_job(job, bytes, lent, &by_floor, &contents);
    if (ran.number == 0)
        run_lists(parts, &contents, images, working, list, &reached, &ran);
    struct windowfloor_floor_answer answer = {ran.number, ran.n,      0,       0, ran.scale,
                                              ran.step,   ran.length, ran.row, 0};
    if (answer.number == 0)
        add_floors(parts, &contents.list[0], images, blocks, &answer);
    return answer;
}

struct windowfloor_cut_answer run_cut(const struct parts *parts, const uint8_t *job, size_t bytes,
                                      uint32_t *images, size_t images_places,
                                      uint64_t *working, size_t working_places,
                                      uint32_t *list, size_t list_places,
                                      uint32_t *scales, size_t scales_places)
{
    struct windowfloor_cut_answer answer = {0, 0, 0, 0, 0, 0};
    struct places lent = {images_places, working_places, list_places, scales_places};
    struct contents contents;
    uint32_t reached[WINDOWFLOOR_MOST_ROWS];
    answer.number = read_job(job, bytes, lent, &by_cut, &contents);
    if (answer.number == 0)
        run_lists(parts, &contents, images, working, list, reached, &answer);
    if (answer.number == 0 && contents.kind == WINDOWFLOOR_KIND_ROWS)
        memcpy(scales, reached, contents.lists * sizeof *scales);
    return answer;
}

/* The list of a sweep or of a short list */

static uint64_t judge_sizes(uint64_t capacity, const uint32_t *sizes, size_t n, const uint16_t *counts,
                            size_t counts_length)
{
    if (n > WINDOWFLOOR_MOST_SIZES || counts_length != n)
        return WINDOWFLOOR_BAD_COUNT;
    for (size_t i = 0; i < n; i++)
        if (sizes[i] == 0 || sizes[i] > capacity)
            return WINDOWFLOOR_BAD_SIZE;
    for (size_t i = 0; i < n; i++)
        if (counts[i] == 0)
            return WINDOWFLOOR_COUNT_0;
    return 0;
}

/* Sweep */

static uint64_t judge_sweep(uint64_t capacity, uint8_t family, const uint32_t *sizes, size_t n,
                            const uint16_t *counts, size_t counts_length, uint64_t low,
                            uint64_t high)
{
    if (capacity < 1 || capacity > LIMIT)
        return WINDOWFLOOR_BAD_CAPACITY;
    if (family < 1 || family > WINDOWFLOOR_SWEEP_FAMILIES)
        return WINDOWFLOOR_BAD_FAMILY;
    uint64_t number = judge_sizes(capacity, sizes, n, counts, counts_length);
    if (number != 0)
        return number;
    if (low > high || high - low > WINDOWFLOOR_MOST_SPAN)
        return WINDOWFLOOR_BAD_RANGE;
    return 0;
}

struct windowfloor_sweep_answer run_sweep(const struct parts *parts, uint64_t capacity,
                                          uint8_t family, const uint32_t *sizes, size_t n,
                                          const uint16_t *counts, size_t counts_length,
                                          uint64_t low, uint64_t high)
{
    struct windowfloor_sweep_answer answer = {0, 0, 0};
    answer.number = judge_sweep(capacity, family, sizes, n, counts, counts_length, low, high);
    if (answer.number != 0)
        return answer;
    answer.number = WINDOWFLOOR_NO_LEGAL_P;
    for (uint64_t i = 0; i <= high - low; i++) {
        uint64_t p = low + i, scale;
        if (judge_family(capacity, family, p, 0, &scale) != 0)
            continue;
        uint64_t sum = parts->sum_of_images(capacity, family, p, sizes, counts, n);
        uint64_t floor = round_up(sum, scale);
        if (answer.number != 0 || floor > answer.floor) {
            answer.number = 0;
            answer.floor = floor;
            answer.p = p;
        }
    }
    return answer;
}

/* Exact */

/* The refusal of a short list, or 0 and its copies and their sum. */
static uint64_t judge_copies(uint64_t capacity, const uint32_t *sizes, size_t n, const uint16_t *counts,
                             size_t counts_length, struct copies *copies, uint64_t *sum)
{
    if (capacity < 1 || capacity > LIMIT)
        return WINDOWFLOOR_BAD_CAPACITY;
    uint64_t number = judge_sizes(capacity, sizes, n, counts, counts_length);
    if (number != 0)
        return number;
    copies->n = 0;
    *sum = 0;
    for (size_t i = 0; i < n; i++) {
        if (copies->n + counts[i] > WINDOWFLOOR_MOST_COPIES)
            return WINDOWFLOOR_TOO_MANY_COPIES;
        for (uint16_t copy = 0; copy < counts[i]; copy++)
            copies->sizes[copies->n++] = sizes[i];
        *sum += (uint64_t)counts[i] * sizes[i];
    }
    return 0;
}

struct windowfloor_exact_answer run_exact(const struct parts *parts, uint64_t capacity,
                                          const uint32_t *sizes, size_t n,
                                          const uint16_t *counts, size_t counts_length,
                                          uint32_t *windows, size_t windows_places)
{
    struct windowfloor_exact_answer answer = {0, 0};
    struct copies copies;
    uint64_t sum;
    answer.number = judge_copies(capacity, sizes, n, counts, counts_length, &copies, &sum);
    if (answer.number == 0 && windows_places < WINDOWFLOOR_EXACT_WINDOWS)
        answer.number = WINDOWFLOOR_SHORT_BUFFER;
    if (answer.number == 0)
        answer.fewest = parts->fill_windows(&copies, capacity, round_up(sum, capacity), windows);
    return answer;
}
