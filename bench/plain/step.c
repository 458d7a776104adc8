/* The rules of document 01 as document 02 changes them, for one desk. Where a request leads is decided before anything is written, so that
   the button can ask one head after another and make one change. */
#include "step.h"

/* Why a request is refused, or 0; the zone that it leads to; whether who is at 3000 of that side steps down for it. */
struct course {
    uint8_t refusal, to;
    bool steps_down;
};

static struct course refused(unsigned number)
{
    return (struct course){ .refusal = (uint8_t)number };
}

static struct course leads_to(unsigned zone)
{
    return (struct course){ .to = (uint8_t)zone };
}

static struct course leads_to_3000(const struct field *f, unsigned side)
{
    return (struct course){ .to = (uint8_t)(AT_3000 + side), .steps_down = !is_empty(f, AT_3000 + side) };
}

/* The number by which the input rules refuse a request, or 0. */
static unsigned input_refusal(const struct request *r)
{
    bool entry = r->kind <= LATERAL_ENTRY, tick = r->kind == TICK;
    unsigned most = entry ? 512 : tick ? 64 : 0;
    if (r->kind < VERTICAL_ENTRY || r->kind > TICK)
        return 1;
    if (entry ? r->side != 1 && r->side != 2 : r->side != 0)
        return 2;
    if ((r->number == 0) != tick)
        return 3;
    return r->amount > most || (most != 0 && r->amount == 0) ? 4 : 0;
}

static struct course entry(const struct field *f, unsigned kind, unsigned side)
{
    unsigned potential = 0;
    bool approach_has_fix = false;
    for (unsigned place = 0; place < f->sequence.length; place++) {
        const struct aircraft *a = &f->slots[f->sequence.slots[place]];
        bool approaching = a->zone > BASE;
        potential += a->fix == side || (!approaching && side_of(a->zone) == side);
        approach_has_fix |= approaching && a->fix == side;
    }
    if (kind == LATERAL_ENTRY)
        return potential == 0 ? leads_to(LATERAL + side) : refused(16);
    if (potential >= 2)
        return refused(16);
    if (approach_has_fix)
        return refused(17);
    if (!is_empty(f, MISSED + side))
        return refused(18);
    if (!is_empty(f, LATERAL + side))
        return refused(19);
    if (!is_empty(f, AT_3000 + side) && !is_empty(f, AT_2000 + side))
        return refused(20);
    return leads_to_3000(f, side);
}

/* From a lateral zone an unmet need is no refusal. */
static struct course approach(const struct field *f, unsigned slot, bool first)
{
    unsigned zone = f->slots[slot].zone, side = side_of(zone);
    bool in_turn = first || f->slots[leader_of(f, slot)].zone > BASE;
    if (in_turn && f->zones[BASE + opposite(side)].length <= 1)
        return leads_to(BASE + side);
    if (zone > LATERAL)
        return leads_to(AT_2000 + side);
    return refused(in_turn ? 23 : 22);
}

static struct course hold(const struct field *f, unsigned side)
{
    if (is_empty(f, AT_3000 + side) && is_empty(f, AT_2000 + side))
        return leads_to(AT_2000 + side);
    return leads_to_3000(f, side);
}

/* Of kinds 3 to 11, for the head of a zone that the kind starts from. */
static struct course course_of(const struct field *f, unsigned kind, unsigned slot)
{
    const struct aircraft *a = &f->slots[slot];
    bool first = f->sequence.slots[0] == slot;
    switch (kind) {
    case DESCEND:
        return is_empty(f, a->zone + 2u) ? leads_to(a->zone + 2u) : refused(21);
    case APPROACH:
        return approach(f, slot, first);
    case TAXI:
        return leads_to(GONE);
    case MISS:
        return leads_to(MISSED + a->fix);
    }
    if (a->miles != a->leg)
        return refused(15);
    switch (kind) {
    case MERGE:
        return first || f->slots[leader_of(f, slot)].zone >= INTERMEDIATE ? leads_to(INTERMEDIATE) : refused(22);
    case TO_FINAL:
        return leads_to(FINAL);
    case LAND:
        return is_empty(f, RUNWAY) ? leads_to(RUNWAY) : refused(24);
    case EXIT:
        return first ? leads_to(GONE) : refused(22);
    default:
        return hold(f, side_of(a->zone));
    }
}

/* Who is at 3000 goes to 2000 where the course says so, and is yielded. */
static unsigned step_down(struct field *f, struct course c)
{
    if (!c.steps_down)
        return NOBODY;
    unsigned slot = f->zones[c.to].slots[0];
    move(f, slot, AT_2000 + side_of(c.to));
    return slot;
}

static void come_in(struct field *f, const struct request *r, unsigned slot, unsigned to)
{
    unsigned fix = f->sequence.length == 0 ? r->side : f->next_fix;
    f->slots[slot] = (struct aircraft){ .number = r->number, .speed = r->amount, .zone = (uint8_t)to, .fix = (uint8_t)fix };
    join(&f->zones[to], slot);
    join(&f->sequence, slot);
    f->next_fix = (uint8_t)opposite(fix);
}

/* What was left of final is ahead of it too. Alone in the sequence it keeps its fix. */
static void miss(struct field *f, unsigned slot, unsigned to)
{
    struct aircraft *a = &f->slots[slot];
    double left = a->leg - a->miles;
    move(f, slot, to);
    a->leg += left;
    if (f->sequence.length > 1)
        a->fix = f->next_fix;
    f->next_fix = (uint8_t)opposite(a->fix);
    leave(&f->sequence);
    join(&f->sequence, slot);
}

static void go(struct field *f, unsigned slot)
{
    leave(&f->zones[f->slots[slot].zone]);
    f->slots[slot] = (struct aircraft){ .number = FREE };
}

/* The answer to an accepted request, from the field after it. The number is handed in, since the slot of one who left has none. */
static void accept(const struct field *f, unsigned number, unsigned slot, unsigned along, struct answer *answer)
{
    const struct aircraft *a = &f->slots[slot];
    *answer = (struct answer){ 0, number, a->zone, a->fix, f->slots[leader_of(f, slot)].number, f->slots[along].number };
}

/* Makes the change of a request of kinds 3 to 11 that is not refused, and answers it. */
static void follow(struct field *f, unsigned kind, unsigned slot, struct course c, struct answer *answer)
{
    unsigned number = f->slots[slot].number;
    unsigned along = step_down(f, c);
    if (kind == MISS)
        miss(f, slot, c.to);
    else if (c.to == GONE)
        go(f, slot);
    else
        move(f, slot, c.to);
    if (kind == LAND || kind == EXIT)
        leave(&f->sequence);
    accept(f, number, slot, along, answer);
}

static unsigned enter(struct field *f, const struct request *r, struct answer *answer)
{
    if (slot_with(f, r->number) != NOBODY)
        return 11;
    struct course c = entry(f, r->kind, r->side);
    if (c.refusal != 0)
        return c.refusal;
    unsigned along = step_down(f, c);
    unsigned slot = slot_with(f, FREE);
    come_in(f, r, slot, c.to);
    accept(f, r->number, slot, along, answer);
    return 0;
}

/* The zones of both sides, and a bit for each zone that a kind starts from. */
#define BOTH(zone) (1 << ((zone) + 1) | 1 << ((zone) + 2))
static const uint16_t starts[TICK] = {
    [DESCEND] = BOTH(AT_3000),
    [APPROACH] = BOTH(AT_2000) | BOTH(LATERAL),
    [MERGE] = BOTH(BASE),
    [TO_FINAL] = 1 << INTERMEDIATE,
    [LAND] = 1 << FINAL,
    [TAXI] = 1 << RUNWAY,
    [EXIT] = 1 << INTERMEDIATE,
    [MISS] = 1 << FINAL,
    [HOLD] = BOTH(MISSED),
};

static unsigned ask(struct field *f, const struct request *r, struct answer *answer)
{
    unsigned slot = slot_with(f, r->number);
    if (slot == NOBODY)
        return 12;
    unsigned zone = f->slots[slot].zone;
    if ((starts[r->kind] >> zone & 1) == 0)
        return 13;
    if (f->zones[zone].slots[0] != slot)
        return 14;
    struct course c = course_of(f, r->kind, slot);
    if (c.refusal == 0)
        follow(f, r->kind, slot, c, answer);
    return c.refusal;
}

static void fly(struct aircraft *a, unsigned amount)
{
    double most_waited = 4096, miles = a->miles + a->speed * amount / 4096.0;
    if (miles > a->leg) {
        double waited = a->waited + (miles - a->leg);
        a->waited = waited < most_waited ? waited : most_waited;
        miles = a->leg;
    }
    a->miles = miles;
}

static void tick(struct field *f, unsigned amount)
{
    for (unsigned place = 0; place < f->sequence.length; place++) {
        struct aircraft *a = &f->slots[f->sequence.slots[place]];
        if (a->leg > 0)
            fly(a, amount);
    }
}

void step(struct field *f, const struct request *r, struct answer *answer)
{
    *answer = (struct answer){ 0 };
    unsigned refusal = input_refusal(r);
    if (refusal == 0) {
        if (r->kind == TICK)
            tick(f, r->amount);
        else
            refusal = r->kind <= LATERAL_ENTRY ? enter(f, r, answer) : ask(f, r, answer);
    }
    answer->number = refusal;
}

unsigned press(struct field *f, struct answer *answer)
{
    static const struct {
        uint8_t kind, zone;
    } candidates[] = {
        { TAXI, RUNWAY },
        { LAND, FINAL },
        { TO_FINAL, INTERMEDIATE },
        { MERGE, BASE + 1 }, { MERGE, BASE + 2 },
        { HOLD, MISSED + 1 }, { HOLD, MISSED + 2 },
        { APPROACH, AT_2000 + 1 }, { APPROACH, AT_2000 + 2 }, { APPROACH, LATERAL + 1 }, { APPROACH, LATERAL + 2 },
        { DESCEND, AT_3000 + 1 }, { DESCEND, AT_3000 + 2 },
    };
    for (unsigned i = 0; i < sizeof candidates / sizeof *candidates; i++) {
        unsigned kind = candidates[i].kind, zone = candidates[i].zone;
        if (is_empty(f, zone))
            continue;
        unsigned slot = f->zones[zone].slots[0];
        struct course c = course_of(f, kind, slot);
        if (c.refusal == 0) {
            follow(f, kind, slot, c, answer);
            return kind;
        }
    }
    /* Nobody is on the runway: who is there taxis. */
    if (f->sequence.length == 0)
        return 0;
    tick(f, 64);
    return TICK;
}
