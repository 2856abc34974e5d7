/* What windowfloor_exact may show. Which of the best assignments it is is free. */
#ifndef ASSIGNMENT_H
#define ASSIGNMENT_H

#include "windowfloor.h"

/* Writes each copy's size, in list order, up to the most copies; answers how many are written. */
static inline size_t write_copies(const uint32_t *sizes, size_t n, const uint16_t *counts, uint32_t *copies)
{
    size_t written = 0;
    for (size_t i = 0; i < n; i++)
        for (unsigned k = 0; k < counts[i] && written < WINDOWFLOOR_MOST_COPIES; k++)
            copies[written++] = sizes[i];
    return written;
}

/* Whether a window is used and its copies total at most the capacity. */
static inline int window_fits(uint64_t capacity, const uint32_t *copies, size_t n, const uint32_t *windows,
                              uint64_t window)
{
    uint64_t load = 0;
    for (size_t i = 0; i < n; i++)
        load += windows[i] == window ? copies[i] : 0;
    return load > 0 && load <= capacity;
}

/* Whether these are windows of n copies: each from 0 and below `fewest` is used and fits, and there is no
 * other. */
static inline int is_assignment(uint64_t capacity, const uint32_t *copies, size_t n, const uint32_t *windows,
                                uint64_t fewest)
{
    for (size_t i = 0; i < n; i++)
        if (windows[i] >= fewest)
            return 0;
    for (uint64_t window = 0; window < fewest; window++)
        if (!window_fits(capacity, copies, n, windows, window))
            return 0;
    return 1;
}

#endif
