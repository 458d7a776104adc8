"""A session as the programs tell it: each call with its answer and the field after it. No rule is worked out here.

What came of each call is read from the output of `play`, or of `desks` for two desks; who is where, and the miles waited, from that of
`track`. For two desks `track` plays the accepted requests that no step back took back: the field after them does not depend on whose they
are (document 02, 2.10 and 2.13)."""
from .errors import Failure, Refused
from .formats import calls_in, practice_file, requests_in
from .programs import ready, run
from .words import WORDS, ZONES


class Answer:
    """The six numbers of an answer."""

    def __init__(self, numbers):
        self.number, self.aircraft, self.zone, self.fix, self.leader, self.along = numbers


class Field:
    """Who is where: the next fix, the landing sequence, the numbers in each zone with the head first, and the miles that each waited."""

    def __init__(self, next_fix=1, sequence=(), zones=None, waited=None):
        self.next, self.sequence, self.waited = next_fix, list(sequence), waited or {}
        self.zones = zones or [[] for _ in ZONES]
        self.at = {number: zone for zone, numbers in enumerate(self.zones) for number in numbers}


class Step:
    """A call with its answer, and the accepted requests that stand before and after it."""

    def __init__(self, call, answer, before, after):
        self.call, self.answer, self.before, self.after = call, answer, before, after
        self.accepted = answer.number == 0


class Branch:
    """An accepted request in the tree of those that were: what was asked, the one before it, those that followed it, the first step that asked
    it, the field after it, and of everybody on that field the fix and the desk."""

    def __init__(self, parent=None, call=None):
        self.parent, self.call, self.next, self.step = parent, call, {}, None
        self.field, self.fixes, self.desks = Field(), {}, {}

    def then(self, call):
        """The request that follows this one; the same where it was asked here before and taken back."""
        if call not in self.next:
            self.next[call] = Branch(self, call)
        return self.next[call]

    def path(self):
        """The accepted requests up to this one that no step back took back, this one last."""
        found, branch = [], self
        while branch.parent:
            found.append(branch)
            branch = branch.parent
        return found[::-1]

    def know(self, field, answer):
        """Takes the field, and what is known of everybody on it from the one before and from the answer."""
        self.field = field
        self.fixes = {number: fix for number, fix in self.parent.fixes.items() if number in field.at}
        self.desks = {number: desk for number, desk in self.parent.desks.items() if number in field.at}
        if answer.zone:
            self.fixes[answer.aircraft] = answer.fix
            self.desks.setdefault(answer.aircraft, self.call[1])


class Session:
    """All steps; those that no step back took back; the closing counts of these (entries, taxis, exits, misses, present); how many can be
    taken back, or None where that is not asked; and the index of the first step in the report."""

    def __init__(self, steps, history, counts, kept, first):
        self.steps, self.history, self.counts, self.kept, self.first = steps, history, counts, kept, first


def lines(report):
    """The lines of a report, each as its words."""
    return [line.split() for line in report.decode("ascii").splitlines()]


def field_of(words):
    """The field that a line of `track` tells: index, next fix, the sequence behind its length, and zone, number and miles of each."""
    start = 3 + int(words[2])
    zones, waited = [[] for _ in ZONES], {}
    for zone, number, miles in zip(*(words[start + k::3] for k in range(3))):
        zones[int(zone)].append(int(number))
        waited[int(number)] = miles
    return Field(int(words[1]), [int(n) for n in words[3:start]], zones, waited)


def fields_of(track, data, count, known=0):
    """The field after each request of a practice file, but for the first ones, so many, that are known."""
    told = run(track, [], data).decode("ascii").splitlines()
    if len(told) != count:
        raise Failure("`track` did not print a line for each request")
    return [field_of(line.split()) for line in told[known:]]


def refused(report, sorts, name):
    """Ends where a report is a refusal: the first word of its only line says of what, and the number why."""
    words = report[:40].decode("ascii", "replace").split()
    if len(words) == 2 and words[0] in sorts and words[1].isdigit():
        number = int(words[1])
        raise Refused(report, f"{name}: refused {number}: {WORDS[sorts[words[0]]][number]}")
    return report


def grown(calls, answers):
    """The steps, over the tree of accepted requests."""
    now, steps = Branch(), []
    for call, answer in zip(calls, answers):
        after = now if answer.number else now.parent if call[0] else now.then(call)
        steps.append(Step(call, answer, now, after))
        after.step = after.step or steps[-1]
        now = after
    return steps


def know_all(steps, fields):
    """Takes the field after each step: what `track` says of it must be what the answer says of its aircraft."""
    for step, field in zip(steps, fields):
        if step.after.step is step and step.after.parent:
            step.after.know(field, step.answer)
            if step.answer.aircraft and field.at.get(step.answer.aircraft, 0) != step.answer.zone:
                raise Failure("`track` does not agree with the answers")


def played(data, name):
    """The session of a practice file."""
    play, track = ready("play", "track")
    report = lines(refused(run(play, [], data), {"file": "file"}, name))
    calls = requests_in(data)[1]
    answers = [Answer([int(n) for n in words[1:]]) for words in report[:-1]]
    if len(answers) != len(calls):
        raise Failure("`play` did not print a line for each request")
    steps = grown(calls, answers)
    know_all(steps, fields_of(track, data, len(calls)))
    return Session(steps, [step for step in steps if step.accepted], [int(n) for n in report[-1][1:]], None, 1)


def desk_fields(legs, steps, track):
    """The field after each step of two desks: `track` plays a practice file for each accepted request that none follows."""
    found = {}
    for step in steps:
        if step.after.step is step and not step.after.next:
            path = step.after.path()
            known = next(place for place, each in enumerate(path) if each not in found)
            fields = fields_of(track, practice_file(legs, [each.call for each in path]), len(path), known)
            found.update(zip(path[known:], fields))
    return [found.get(step.after) for step in steps]


def desks_played(data, name):
    """The session of calls by two desks."""
    desks, track, play = ready("desks", "track", "play")
    report = lines(refused(run(desks, [], data), {"refused": "calls"}, name))
    legs, calls = calls_in(data)
    answers = [Answer([int(n) for n in words[1:]]) for words in report[:-1]]
    if len(answers) != len(calls):
        raise Failure("`desks` did not print a line for each call")
    steps = grown(calls, answers)
    know_all(steps, desk_fields(legs, steps, track))
    path = steps[-1].after.path() if steps else []
    counts = lines(run(play, [], practice_file(legs, [each.call for each in path])))[-1][1:]
    return Session(steps, [each.step for each in path], [int(n) for n in counts], int(report[-1][2]), 0)
