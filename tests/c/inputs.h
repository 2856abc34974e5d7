/* Random inputs of the seven operations: valid, at the limits, and damaged. */
#ifndef INPUTS_H
#define INPUTS_H

#include "windowfloor.h"

enum { OLD_LIMIT = 1000000000 }; /* the limit of earlier releases */

enum {
    ROOM_ENTRIES = WINDOWFLOOR_MOST_ENTRIES + 32,
    ROOM_SIZES = WINDOWFLOOR_MOST_SIZES + 32,
    ROOM_BYTES = 2 * 65536,
    ROOM_FIELDS = ROOM_BYTES / 3
};

struct image_input {
    uint64_t capacity, p, q, x;
    uint8_t family;
};

struct table_input {
    uint32_t entries[ROOM_ENTRIES];
    size_t count, working_places, list_places;
};

struct shortest_input {
    uint32_t entries[ROOM_ENTRIES];
    size_t count, working_places, second_places, list_places;
};

/* For either operation: its own buffer is that of the block floors or that of the scales. */
struct job_input {
    uint8_t bytes[ROOM_BYTES];
    size_t length, images_places, working_places, list_places, own_places;
    size_t field_at[ROOM_FIELDS], fields; /* where each field starts, before any damage */
    size_t first_list, lists;             /* which of them is the list of sizes, or which are rows */
};

struct counted_list {
    uint32_t sizes[ROOM_SIZES];
    uint16_t counts[ROOM_SIZES];
    size_t n, counts_length;
};

struct sweep_input {
    uint64_t capacity, low, high;
    uint8_t family;
    struct counted_list list;
};

struct exact_input {
    uint64_t capacity;
    struct counted_list list;
    size_t windows_places;
};

void seed_inputs(uint64_t seed);
uint64_t any_number(void);
uint64_t below(uint64_t n); /* 0 to n - 1 */

void random_image(struct image_input *in);
void random_table(struct table_input *in);
void random_shortest(struct shortest_input *in);
void random_job(struct job_input *in);
void random_sweep(struct sweep_input *in);
void random_exact(struct exact_input *in);

/* A table with each fault that has its bit set; the lowest bit is for the refusal that is asked first. With the
 * last it is dual-feasible, else two sizes overshoot. */
enum { SHORTEST_FAULTS = 8 };
void shortest_of_faults(struct shortest_input *in, unsigned faults);

/* A table of this capacity that so many sizes, 2 or more, are the fewest to overshoot; with one more than the
 * capacity it is dual-feasible. All buffers have the least places. */
void shortest_of_fewest(struct shortest_input *in, size_t capacity, size_t fewest);

/* The same for as many sizes as the capacity, with images up to the limit: only ones overshoot. */
void shortest_of_ones(struct shortest_input *in, size_t capacity);

/* A table of so many entries, where these are right, and buffers with so many places more than the least, or less. */
void shortest_of_places(struct shortest_input *in, size_t entries, int working, int second, int list);

/* A sweep over some range, and a floor job of some steps, of a list that is in order. */
void sweep_of_list(struct sweep_input *in, uint64_t capacity, const struct counted_list *list);
void job_of_list(struct job_input *in, uint64_t capacity, const struct counted_list *list);

/* The four-byte number at a place of the job. */
uint64_t read_number(const struct job_input *in, size_t at);

/* A job of the kind, with a field of this tag whose value has this length. */
void job_of_length(struct job_input *in, unsigned kind, unsigned tag, size_t length);

/* Rows of n coefficients each, without steps. Behind them a field that is refused with the number 13, 14
 * or 15, or none for 0. */
void job_of_rows(struct job_input *in, size_t rows, size_t n, unsigned fault);

/* A job of the kind with fields of these tags, a digit for each: n sizes, or coefficients of a row; counts
 * and blocks whose values have these lengths. Each block has one size. */
void job_of_tags(struct job_input *in, const char *tags, unsigned kind, size_t n, size_t counts_length,
                 size_t blocks_length);

/* A floor job without counts and steps: so many sizes, in blocks of these numbers of sizes. */
void job_of_blocks(struct job_input *in, size_t n, const uint16_t *blocks, size_t count);

/* Inputs as large as they get; those of rows have 64 of them. */
void largest_job(struct job_input *in, size_t bytes); /* seven tables of 2,048 entries */
void largest_counted_job(struct job_input *in);       /* the same, and a count for each size */
void largest_job_of_blocks(struct job_input *in);     /* counts too, and 64 blocks */
void largest_rows(struct job_input *in);
void longest_chain(struct job_input *in, int counted); /* 2,048 sizes, eight family steps */
void longest_chain_of_blocks(struct job_input *in);    /* counts too, and 64 blocks */
void longest_chain_of_rows(struct job_input *in);
void chain_at_limit(struct job_input *in, unsigned kind); /* 2,048 sizes, seven steps, all at the limit */
void largest_sweep(struct sweep_input *in, uint8_t family);

/* An exact input of four copies with each fault that has its bit set; the lowest bit is for the refusal that
 * is asked first. */
enum { EXACT_FAULTS = 6 };
void exact_of_faults(struct exact_input *in, unsigned faults);

/* An exact input of so many sizes, each counted once, and counts of 1. */
void exact_of_lengths(struct exact_input *in, size_t n, size_t counts_length, size_t windows_places);

/* The greatest sums: 2,048 sizes with the greatest count and image; in so many blocks, or without tag 8
 * for 0. */
void greatest_sum(struct job_input *in, size_t blocks);
void greatest_swept_sum(struct sweep_input *in, uint8_t family);

#endif
