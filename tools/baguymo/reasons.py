"""Why a request was refused: the words of its number, and what stood on the field before it."""
from .words import APPROACH, ENTRIES, FASTEST, KINDS, LONGEST_TICK, MERGE, SIDES, TICK, ZONES, knots, listed, minutes, refusal

# Which zones a kind starts from, and which are a side's area and the approach (document 01).
STARTS = {3: (1, 2), 4: (3, 4, 5, 6), 5: (9, 10), 6: (11,), 7: (12,), 8: (13,), 9: (11,), 10: (12,), 11: (7, 8)}
APPROACH_ZONES = (9, 10, 11, 12)
COUNTS = {3: "three", 4: "four"}


def area(side):
    """The holdings, the lateral and the missed zone of a side."""
    return (side, side + 2, side + 4, side + 6)


def place(field, number):
    """A number and where it is."""
    zone = field.at[number]
    return f"{number} {'on the runway' if zone == 13 else 'in ' + ZONES[zone]}"


def places(field, numbers):
    """Numbers and where they are."""
    return ", ".join(place(field, number) for number in numbers)


def input_rule(number, call):
    """What an input rule asks of the request (1 to 4)."""
    _, _, kind, side, aircraft, amount = call
    name = KINDS.get(kind)
    if number == 1:
        return f"kind {kind}; the kinds are 1 to {max(KINDS)}"
    if number == 2:
        return f"{name} with side {side}; it needs 1, right, or 2, left" if kind in ENTRIES else f"{name} with side {side}; it has none, which is 0"
    if number == 3:
        return f"{name} with number {aircraft}; it names nobody, which is 0" if kind == TICK else f"{name} with number 0; it names an aircraft"
    if kind in ENTRIES:
        return f"{name} with amount {amount}; a speed is 1 to {FASTEST} 64ths of a mile a minute, up to {knots(FASTEST)}"
    if kind == TICK:
        return f"{name} with amount {amount}; it is 1 to {LONGEST_TICK} 64ths of a minute, up to {minutes(LONGEST_TICK)}"
    return f"{name} with amount {amount}; it has none, which is 0"


def needing(before, side):
    """Whom the potential number of a side counts: who is in its area, and who else in the operation area has it as fix."""
    field = before.field
    inside = [n for n in field.sequence if field.at[n] in area(side)]
    others = [n for n in field.sequence if n not in inside and before.fixes.get(n) == side]
    return [place(field, n) for n in inside] + [f"{n} with fix {SIDES[side]}" for n in others]


def sequence(call, field):
    """Who is ahead of an aircraft in the sequence, and where."""
    at = field.sequence.index(call[4])
    return places(field, field.sequence[:at] if call[2] not in (APPROACH, MERGE) else field.sequence[at - 1:at])


def entering(number, call, before):
    """What is in the way of an entry (11, 16 to 20)."""
    field, side = before.field, call[3]
    if number == 11:
        return place(field, call[4])
    if number == 16:
        return ", ".join(needing(before, side))
    if number == 17:
        return places(field, [n for n in field.sequence if field.at[n] in APPROACH_ZONES and before.fixes.get(n) == side])
    zones = {18: (side + 6,), 19: (side + 4,), 20: (side, side + 2)}[number]
    return places(field, [n for zone in zones for n in field.zones[zone]])


def moving(number, call, before):
    """What is in the way of an aircraft on the field (12 to 15, 21 to 24, 26)."""
    field, aircraft = before.field, call[4]
    zone = field.at.get(aircraft, 0)
    if number == 12:
        return "there are " + places(field, field.at) if field.at else "nobody is there"
    if number == 13:
        return f"{place(field, aircraft)}; {KINDS[call[2]]} is from {listed([ZONES[z] for z in STARTS[call[2]]], 'or')}"
    if number == 14:
        return places(field, field.zones[zone][:field.zones[zone].index(aircraft)])
    if number == 15:
        return place(field, aircraft)
    if number == 21:
        return places(field, field.zones[zone + 2])
    if number == 22:
        return sequence(call, field)
    if number == 23:
        return places(field, field.zones[10 if zone % 2 else 9])
    if number == 24:
        return ", ".join(map(str, field.zones[13]))
    return f"desk {before.desks[aircraft]} let {aircraft} in"


def why(step):
    """The words of a refused step: its number, what that says, and what stood on the field before it."""
    number, call, before = step.answer.number, step.call, step.before
    words = refusal(number, 0 if call[0] else call[2])
    detail = ""
    if number in (1, 2, 3, 4):
        detail = input_rule(number, call)
    elif number == 31:
        detail = f"desk {call[1]}"
    elif number == 11 or 16 <= number <= 20:
        detail = entering(number, call, before)
        count = detail.count(",") + 1
        words = words.replace("two", COUNTS.get(count, "two"), 1) if number == 16 else words
    elif number not in (10, 25, 27):
        detail = moving(number, call, before)
    return f"refused {number}: {words}" + (f" ({detail})" if detail else "")
