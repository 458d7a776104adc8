/* A landing field for speed: five slots for aircraft and queues of slots, changed in place. An aircraft keeps its slot from its entry to its
   leaving, so that a move writes a few bytes and copies nobody. No field is judged here: each is one that requests lead to from the empty
   one, and all of those keep the bounds of document 01. */
#ifndef PLAIN_FIELD_H
#define PLAIN_FIELD_H

#include <stdbool.h>
#include <stdint.h>

enum {
    PLACES = 4, /* in a queue */
    SLOTS = 5,  /* four in the operation area and one on the runway, counted from 1 */
    NOBODY = 0, /* the slot that nobody has: its number and its zone are 0, so that a leader who is not there needs no test */
    FREE = 0    /* the number in a slot that an entry may take */
};

/* The zones by their numbers. Of those that each side has, that of side 1 or 2 is the name + the side. */
enum { GONE = 0, AT_3000 = 0, AT_2000 = 2, LATERAL = 4, MISSED = 6, BASE = 8, INTERMEDIATE = 11, FINAL = 12, RUNWAY = 13, ZONES = 14 };

struct aircraft {
    uint16_t number;
    uint16_t speed; /* in 64ths of a mile a minute */
    uint8_t zone;
    uint8_t fix;
    double miles;  /* flown on this leg */
    double leg;    /* the length of its own leg, 0 while it waits */
    double waited; /* miles past the ends of its legs: no report shows them, but every field has them */
};

struct queue {
    uint8_t length;
    uint8_t slots[PLACES]; /* the head first */
};

struct field {
    struct aircraft slots[1 + SLOTS];
    struct queue zones[ZONES];
    struct queue sequence;
    uint8_t next_fix;
    double legs[ZONES]; /* the miles ahead of who comes into a zone, 0 where nobody flies */
};

static inline unsigned opposite(unsigned side)
{
    return 3 - side;
}

/* The side of a zone from 1 to 10. */
static inline unsigned side_of(unsigned zone)
{
    return 2 - zone % 2;
}

static inline bool is_empty(const struct field *f, unsigned zone)
{
    return f->zones[zone].length == 0;
}

static inline void join(struct queue *q, unsigned slot)
{
    q->slots[q->length++] = (uint8_t)slot;
}

/* Only its head leaves a queue, and the sequence too: who lands, exits or misses is first in it. */
static inline void leave(struct queue *q)
{
    q->slots[0] = q->slots[1];
    q->slots[1] = q->slots[2];
    q->slots[2] = q->slots[3];
    q->length--;
}

/* The slot that has a number. */
static inline unsigned slot_with(const struct field *f, unsigned number)
{
    for (unsigned slot = 1; slot <= SLOTS; slot++)
        if (f->slots[slot].number == number)
            return slot;
    return NOBODY;
}

/* Who is just ahead in the sequence. */
static inline unsigned leader_of(const struct field *f, unsigned slot)
{
    for (unsigned place = 1; place < f->sequence.length; place++)
        if (f->sequence.slots[place] == slot)
            return f->sequence.slots[place - 1];
    return NOBODY;
}

/* The head of a zone goes to another, where it flies a new leg or waits. */
static inline void move(struct field *f, unsigned slot, unsigned to)
{
    struct aircraft *a = &f->slots[slot];
    leave(&f->zones[a->zone]);
    join(&f->zones[to], slot);
    a->zone = (uint8_t)to;
    a->miles = 0;
    a->leg = f->legs[to];
}

#endif
