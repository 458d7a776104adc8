#include "practice.h"
#include <string.h>

enum { LETTERS = 4, HEADER = 26, LEGS_AT = 26, LEGS = 4, LONGEST = 24610, LONGEST_LEG = 4096 };

/* All that comes before the length of the requests, the last four bytes of the contents, is the same in every file: the letters, the count,
   the entry of the legs, and of the entry of the requests the kind and the offset. */
static const uint8_t same_in_all[HEADER - 4] = { 'S', 'C', 'A', 'P', 2, 0, 1, 0, LEGS_AT, 0, 0, 0, 8, 0, 0, 0, 2, 0, REQUESTS_AT };

static uint32_t number32(const uint8_t *bytes)
{
    return number16(bytes) | (uint32_t)number16(bytes + 2) << 16;
}

static unsigned leg_64ths(const uint8_t *file, unsigned which)
{
    return number16(file + LEGS_AT + 2 * which);
}

unsigned file_number(const uint8_t *file, size_t length)
{
    if (length < HEADER || length > LONGEST || memcmp(file, same_in_all, LETTERS) != 0)
        return 5;
    /* In a file that is not too long, no more requests are left than are allowed. */
    uint64_t requests = number32(file + sizeof same_in_all);
    if (memcmp(file, same_in_all, sizeof same_in_all) != 0 || requests % REQUEST_LENGTH != 0 || REQUESTS_AT + requests != length)
        return 6;
    for (unsigned which = 0; which < LEGS; which++)
        if (leg_64ths(file, which) < 1 || leg_64ths(file, which) > LONGEST_LEG)
            return 7;
    return 0;
}

void start(struct field *f, const uint8_t *file)
{
    *f = (struct field){ .next_fix = 1 };
    f->legs[BASE + 1] = f->legs[BASE + 2] = leg_64ths(file, 0) / 64.0;
    f->legs[INTERMEDIATE] = leg_64ths(file, 1) / 64.0;
    f->legs[FINAL] = leg_64ths(file, 2) / 64.0;
    f->legs[MISSED + 1] = f->legs[MISSED + 2] = leg_64ths(file, 3) / 64.0;
}
