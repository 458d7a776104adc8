/* A practice file (document 01, "The practice file"). */
#ifndef PLAIN_PRACTICE_H
#define PLAIN_PRACTICE_H

#include <stddef.h>
#include "step.h"

/* 0, or the number that refuses the file. */
unsigned file_number(const uint8_t *file, size_t length);

/* The empty field with the legs of a file that is not refused. */
void start(struct field *f, const uint8_t *file);

enum { REQUESTS_AT = 34, REQUEST_LENGTH = 6 };

static inline unsigned number16(const uint8_t *bytes)
{
    return bytes[0] | (unsigned)bytes[1] << 8;
}

static inline struct request request_at(const uint8_t *bytes)
{
    return (struct request){ bytes[0], bytes[1], (uint16_t)number16(bytes + 2), (uint16_t)number16(bytes + 4) };
}

#endif
