/* What windowfloor_shortest may show. Which of the shortest lists it is is free. */
#ifndef OVERSHOOTING_H
#define OVERSHOOTING_H

#include "windowfloor.h"

/* Whether a list has sizes of a table from 1 on that total at most its capacity, with images that total more than
 * its last entry. */
static inline int is_overshooting(const uint32_t *table, size_t entries, const uint32_t *list, uint64_t length)
{
    uint64_t total = 0, images = 0;
    for (uint64_t i = 0; i < length; i++) {
        if (list[i] == 0 || list[i] >= entries)
            return 0;
        total += list[i];
        images += table[list[i]];
    }
    return total < entries && images > table[entries - 1];
}

#endif
