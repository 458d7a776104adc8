/* One request on a field, and one press of the button. */
#ifndef PLAIN_STEP_H
#define PLAIN_STEP_H

#include "field.h"

enum { VERTICAL_ENTRY = 1, LATERAL_ENTRY, DESCEND, APPROACH, MERGE, TO_FINAL, LAND, TAXI, EXIT, MISS, HOLD, TICK };

struct request {
    uint8_t kind, side;
    uint16_t number, amount;
};

/* A refusal and a tick have zeros after the number. */
struct answer {
    unsigned number, aircraft, zone, fix, leader, along;
};

/* Plays a request and answers it; a refused one changes nothing. */
void step(struct field *f, const struct request *r, struct answer *answer);

/* Plays what a press of the button proposes, and yields its kind, or 0 where nobody is on the field. A move is answered, a tick is not. */
unsigned press(struct field *f, struct answer *answer);

#endif
