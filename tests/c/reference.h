/* The seven operations once more, with no thought of speed and by other ways than the library's, to be compared with
 * it. A job is read by a machine that takes byte for byte; the library and the implementation in Python go from
 * field to field. Each row is judged in full, its tables too; the library checks a table once. The fewest windows
 * are found by adding a copy to the last window; the implementation in Python takes a window away. A shortest list
 * is found breadth first, by the capacity that a list uses in full; the library has the greatest totals within each
 * capacity, and looks for the two halves of the list. */
#ifndef REFERENCE_H
#define REFERENCE_H

#include "windowfloor.h"

struct windowfloor_image_answer reference_image(uint64_t capacity, uint8_t family, uint64_t p,
                                                uint64_t q, uint64_t x);

struct windowfloor_table_answer reference_table_check(const uint32_t *table, size_t entries,
                                                      uint64_t *working, size_t working_places,
                                                      uint32_t *list, size_t list_places);

struct windowfloor_shortest_answer reference_shortest(const uint32_t *table, size_t entries,
                                                      uint64_t *working, size_t working_places,
                                                      uint64_t *second, size_t second_places,
                                                      uint32_t *list, size_t list_places);

struct windowfloor_floor_answer reference_floor(const uint8_t *job, size_t bytes,
                                                uint32_t *images, size_t images_places,
                                                uint64_t *working, size_t working_places,
                                                uint32_t *list, size_t list_places,
                                                uint32_t *blocks, size_t blocks_places);

struct windowfloor_cut_answer reference_cut(const uint8_t *job, size_t bytes,
                                            uint32_t *images, size_t images_places,
                                            uint64_t *working, size_t working_places,
                                            uint32_t *list, size_t list_places,
                                            uint32_t *scales, size_t scales_places);

struct windowfloor_sweep_answer reference_sweep(uint64_t capacity, uint8_t family,
                                                const uint32_t *sizes, size_t n,
                                                const uint16_t *counts, size_t counts_length,
                                                uint64_t low, uint64_t high);

struct windowfloor_exact_answer reference_exact(uint64_t capacity,
                                                const uint32_t *sizes, size_t n,
                                                const uint16_t *counts, size_t counts_length,
                                                uint32_t *windows, size_t windows_places);

/* The tag of the field that a job is refused for with 13, 14 or 15; 0 if it is refused for none. */
unsigned reference_refused_tag(const uint8_t *job, size_t bytes);

/* The scale of a legal step, also where it is over the limit. */
uint64_t reference_scale(uint64_t capacity, uint8_t family, uint64_t p, uint64_t q);

/* best(0) to best(capacity) of a table. */
void reference_bests(const uint32_t *table, size_t capacity, uint64_t *best);

#endif
