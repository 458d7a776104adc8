/* The report of a practice file, and that of the button held down after it. */
#include "plain.h"
#include "practice.h"
#include "text.h"

enum { MOST_PRESSES = 221211 };

static uint8_t *put_refused(uint8_t *out, unsigned number)
{
    return put_line(put_word(out, "file "), &number, 1);
}

static uint8_t *put_answer(uint8_t *out, unsigned first, unsigned second, const struct answer *a)
{
    const unsigned numbers[] = { first, second, a->aircraft, a->zone, a->fix, a->leader, a->along };
    return put_line(out, numbers, 7);
}

static uint8_t *put_end(uint8_t *out, const unsigned *accepted, const struct field *f)
{
    unsigned entries = accepted[VERTICAL_ENTRY] + accepted[LATERAL_ENTRY];
    unsigned present = f->sequence.length + f->zones[RUNWAY].length;
    const unsigned numbers[] = { entries, accepted[TAXI], accepted[EXIT], accepted[MISS], present };
    return put_line(put_word(out, "end "), numbers, 5);
}

size_t plain_report(const uint8_t *file, size_t length, uint8_t *out)
{
    struct field f;
    unsigned accepted[TICK + 1] = { 0 }, index = 0, refusal = file_number(file, length);
    uint8_t *end = out;
    if (refusal != 0)
        return (size_t)(put_refused(out, refusal) - out);
    start(&f, file);
    for (const uint8_t *at = file + REQUESTS_AT; at != file + length; at += REQUEST_LENGTH) {
        struct request r = request_at(at);
        struct answer answer;
        step(&f, &r, &answer);
        if (answer.number == 0)
            accepted[r.kind]++;
        end = put_answer(end, ++index, answer.number, &answer);
    }
    return (size_t)(put_end(end, accepted, &f) - out);
}

size_t plain_button(const uint8_t *file, size_t length, uint8_t *out)
{
    struct field f;
    struct answer answer;
    unsigned kind, presses = 0, refusal = file_number(file, length);
    uint8_t *end = out;
    if (refusal != 0)
        return (size_t)(put_refused(out, refusal) - out);
    start(&f, file);
    for (const uint8_t *at = file + REQUESTS_AT; at != file + length; at += REQUEST_LENGTH) {
        struct request r = request_at(at);
        step(&f, &r, &answer);
    }
    while (presses < MOST_PRESSES && (kind = press(&f, &answer)) != 0) {
        presses++;
        if (kind != TICK)
            end = put_answer(end, presses, kind, &answer);
    }
    bool none = f.sequence.length == 0 && is_empty(&f, RUNWAY);
    return (size_t)(put_line(put_word(end, none ? "none " : "spent "), &presses, 1) - out);
}
