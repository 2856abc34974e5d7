/* The refusals in words: each number of the header has a text of its own, and all numbers past the last
 * have the same. Compiled as C and as C++. Prints each number that has a text, with the text. */
#include <stdio.h>
#include <string.h>

#include "windowfloor.h"

static const char *const UNKNOWN = "unknown number of refusal";

static int failures;

static void fail(const char *why, uint64_t number)
{
    printf("refusals: %s: %lu\n", why, (unsigned long)number);
    failures++;
}

static int same_text(uint64_t a, uint64_t b)
{
    return strcmp(windowfloor_refusal_text(a), windowfloor_refusal_text(b)) == 0;
}

static void check_known(uint64_t number)
{
    const char *text = windowfloor_refusal_text(number);
    if (text[0] == '\0' || strcmp(text, UNKNOWN) == 0)
        fail("no text", number);
    for (uint64_t other = 0; other < number; other++)
        if (same_text(number, other))
            fail("the text of another number", number);
    printf("%lu %s\n", (unsigned long)number, text);
}

static void check_unknown(uint64_t number)
{
    if (strcmp(windowfloor_refusal_text(number), UNKNOWN) != 0)
        fail("a text past the last number", number);
}

int main(void)
{
    for (uint64_t number = 0; number <= WINDOWFLOOR_LAST_REFUSAL; number++)
        check_known(number);
    for (uint64_t number = WINDOWFLOOR_LAST_REFUSAL + 1; number <= 65536; number++)
        check_unknown(number);
    for (uint64_t number = 0; number <= WINDOWFLOOR_LAST_REFUSAL; number++) {
        check_unknown(((uint64_t)1 << 32) + number);
        check_unknown(((uint64_t)1 << 63) + number);
        check_unknown(~number); /* from the greatest down */
    }
    return failures == 0 ? 0 : 1;
}
