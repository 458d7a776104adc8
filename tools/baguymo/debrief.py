"""The debrief of a session: what was asked and what came of it in words, the counts, a row for each aircraft, and the zones as a drawing."""
from .formats import call_text
from .reasons import why
from .words import ENTRIES, LAND, LEAVES, MISS, SIDES, TICK, ZONES, counted, exact, minutes

HOLDINGS = range(1, 5)


def drawn(field):
    """The thirteen zones as lines of text: a column for each side, the approach below, the sequence and the next fix beside it."""
    text = [" ".join(map(str, numbers)) or "-" for numbers in field.zones]
    beside = ["sequence  " + (" ".join(map(str, field.sequence)) or "-"), "next fix  " + SIDES[field.next], ""]
    rows = [("", "left", "right")]
    rows += [(ZONES[zone].split()[0], text[zone + 1], text[zone]) for zone in range(1, 11, 2)]
    rows += [(ZONES[zone], text[zone], beside[zone - 11]) for zone in range(11, 14)]
    return [f"    {name:<14}{left:<25}{right}".rstrip() for name, left, right in rows]


class Visit:
    """One aircraft from its entry to its leaving; times in 64ths of a minute from the start."""

    def __init__(self, number, desk, entered):
        self.number, self.desk, self.entered, self.landed, self.left = number, desk, entered, None, None
        self.misses, self.holding, self.waited = 0, 0, "0"

    def row(self):
        """Its words in the table at the end."""
        landed = "-" if self.landed is None else exact(self.landed, 64)
        left = "-" if self.left is None else exact(self.left, 64)
        return [str(self.number), str(self.desk), exact(self.entered, 64), landed, left, str(self.misses), exact(self.holding, 64), self.waited]


def visits_of(history):
    """The visits of the accepted requests that no step back took back, in the order of their entries, and the time at the end."""
    visits, present, clock = [], {}, 0
    for step in history:
        _, desk, kind, _, number, amount = step.call
        field = step.after.field
        if kind == TICK:
            clock += amount
            for holding in [n for zone in HOLDINGS for n in field.zones[zone]]:
                present[holding].holding += amount
        elif kind in ENTRIES:
            present[number] = Visit(number, desk, clock)
            visits.append(present[number])
        elif kind == LAND:
            present[number].landed = clock
        elif kind == MISS:
            present[number].misses += 1
        elif kind in LEAVES:
            present.pop(number).left = clock
        for each, miles in field.waited.items():
            present[each].waited = miles
    return visits, clock


class Narration:
    """The lines of a session, with a clock that a step back turns back too."""

    def __init__(self, session):
        self.session, self.desks, self.clock = session, session.kept is not None, 0

    def whose(self, number, step):
        """A number, with its desk where that is not the one that asks."""
        desk = step.after.desks.get(number)
        return f"{number} of desk {desk}" if self.desks and desk not in (None, step.call[1]) else str(number)

    def outcome(self, step):
        """What came of a call that is no accepted tick."""
        if not step.accepted:
            return why(step)
        if step.call[0]:
            now = f"; {minutes(self.clock)} from the start" if step.before.call[2] == TICK else ""
            return f"takes back {call_text(step.before.call, True)}{now}"
        before, after, own = step.before.field, step.after.field, step.answer.aircraft
        if not step.answer.zone:
            return ZONES[0]
        at = after.sequence.index(own) if own in after.sequence else 0
        leader = self.whose(after.sequence[at - 1], step) if at else "nobody"
        along = [n for n in after.at if n != own and before.at.get(n) != after.at[n]]
        moved = "".join(f"; {self.whose(n, step)} moved along to {ZONES[after.at[n]]}" for n in along)
        return f"{ZONES[step.answer.zone]}, fix {SIDES[step.answer.fix]}, follows {leader}{moved}"

    def parts(self):
        """The session in parts: accepted ticks that follow each other and are the same are one part, every other call is one of its own."""
        part = []
        for index, step in enumerate(self.session.steps, self.session.first):
            tick = step.accepted and not step.call[0] and step.call[2] == TICK
            if part and not (tick and part[-1][1] and part[-1][2].call == step.call):
                yield part
                part = []
            part.append((index, tick, step))
        if part:
            yield part

    def line(self, part):
        """What a part of the session is called, and its words."""
        index, tick, step = part[0]
        asked = call_text(step.call, self.desks)
        if tick:
            self.clock += step.call[5] * len(part)
            asked += f", {len(part)} times" if len(part) > 1 else ""
            name = f"{index}-{part[-1][0]}" if len(part) > 1 else str(index)
            return name, f"{asked}: {minutes(self.clock)} from the start"
        if step.call[0] and step.accepted and step.before.call[2] == TICK:
            self.clock -= step.before.call[5]
        return str(index), f"{asked}: {self.outcome(step)}"

    def lines(self, with_field):
        """A line for each part of the session, and the drawings."""
        made = []
        for part in self.parts():
            step = part[0][2]
            made.append((*self.line(part), drawn(step.after.field) if with_field and step.accepted and not part[0][1] else []))
        width = max((len(name) for name, _, _ in made), default=0)
        for name, words, drawing in made:
            yield f"{name:>{width}}  {words}"
            yield from drawing


def table(rows):
    """Rows of words as lines, each column as wide as its longest word."""
    widths = [max(len(row[k]) for row in rows) for k in range(len(rows[0]))]
    return ["  ".join(word.ljust(width) for word, width in zip(row, widths)).rstrip() for row in rows]


def closing(session):
    """The counts, and a row for each aircraft."""
    visits, clock = visits_of(session.history)
    refused = sum(1 for step in session.steps if not step.accepted)
    if session.steps:
        yield ""
    desks = session.kept is not None
    yield f"{counted(len(session.steps), 'call' if desks else 'request')}, {refused} refused, {minutes(clock)}"
    yield "entries {}, taxis {}, exits {}, misses {}, present {}".format(*session.counts)
    if desks:
        yield f"{counted(session.kept, 'request')} can be taken back; what was taken back is in no count above but the first, nor below"
    if visits:
        heads = ["aircraft", "desk", "entered", "landed", "left", "misses", "holding", "waited"]
        rows = [heads] + [visit.row() for visit in visits]
        yield ""
        yield from table(rows if desks else [[row[0], *row[2:]] for row in rows])
        yield "entered, landed, left: minutes from the start; holding: minutes; waited: miles"


def words_of(session, with_field):
    """The whole debrief."""
    return "".join(line + "\n" for line in [*Narration(session).lines(with_field), *closing(session)])
