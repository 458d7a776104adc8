/* Text, written from `out` on. Each function yields where its text ends. */
#ifndef PLAIN_TEXT_H
#define PLAIN_TEXT_H

#include <stdint.h>
#include <string.h>

static inline uint8_t *put_number(uint8_t *out, unsigned number)
{
    if (number > 9)
        out = put_number(out, number / 10);
    *out = (uint8_t)('0' + number % 10);
    return out + 1;
}

static inline uint8_t *put_word(uint8_t *out, const char *word)
{
    size_t length = strlen(word);
    memcpy(out, word, length);
    return out + length;
}

/* Numbers with a space between, and a newline. */
static inline uint8_t *put_line(uint8_t *out, const unsigned *numbers, unsigned count)
{
    for (unsigned i = 0; i < count; i++) {
        out = put_number(out, numbers[i]);
        *out++ = ' ';
    }
    out[-1] = '\n';
    return out;
}

#endif
