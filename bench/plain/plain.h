/* What `baguymo_report` and `baguymo_button` (include/baguymo.h) write, byte for byte, by a program in C that is
   written for speed. Nothing of it is proved, and no field is judged. It is there to be measured beside the library. */
#ifndef PLAIN_H
#define PLAIN_H

#include <stddef.h>
#include <stdint.h>

/* Both write to the start of `out`, which has 131,072 bytes, and return how many bytes they wrote. Any file is allowed. */
size_t plain_report(const uint8_t *file, size_t length, uint8_t *out);
size_t plain_button(const uint8_t *file, size_t length, uint8_t *out);

#endif
