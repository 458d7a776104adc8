"""Miles, minutes and knots as people write them, in the rules' whole units: 64ths of a mile, of a minute, and of a mile a minute."""
import re

from .words import FASTEST, LONGEST_LEG, LONGEST_TICK, exact

NUMBER = r"[0-9]+ +[0-9]+/[0-9]+|[0-9]+/[0-9]+|[0-9]*\.[0-9]+|[0-9]+"
LONGEST = 30  # characters of a number; more say nothing that the rules could mean


class Wrong(Exception):
    """What was found that is not understood, as it stands, and what could stand there."""

    def __init__(self, found, could):
        super().__init__(found, could)
        self.found, self.could = found, could


class Measure:
    """What is measured: its name, the rules' unit in words, the most of them, how many 60ths of one each unit has, and an example."""

    def __init__(self, name, unit, most, units, example):
        self.name, self.unit, self.most, self.units, self.example = name, unit, most, units, example

    def said(self, whole, sixtieths, word):
        """So many of the rules' units in a unit that has so many 60ths of them."""
        return f"{exact(whole * (3840 // sixtieths), 64)} {word}"


MILES = {word: 3840 for word in ("mile", "miles", "nautical mile", "nautical miles", "nm")}
MINUTES = {word: 3840 for word in ("minute", "minutes", "min")}
SECONDS = {word: 64 for word in ("second", "seconds", "sec", "s")}
KNOTS = {word: 64 for word in ("knot", "knots", "kt", "kts")}
A_MINUTE = {f"{word} {per} minute": 3840 for word in ("mile", "miles") for per in ("a", "per")}
LEG = Measure("a leg", "64ths of a mile", LONGEST_LEG, MILES, "1.5 miles or 96/64 miles")
TIME = Measure("a tick", "64ths of a minute", LONGEST_TICK, {**MINUTES, **SECONDS}, "1 minute, 0.5 minutes or 30 seconds")
SPEED = Measure("a speed", "64ths of a mile a minute", FASTEST, {**KNOTS, **A_MINUTE}, "90 knots or 1.5 miles a minute")
SPACING = Measure("a spacing", "64ths of a mile", 512, MILES, "128 for two miles, or '2 miles'")


def fraction(text):
    """A number in digits, as a fraction, a decimal or a whole and a fraction: numerator and denominator."""
    if len(text) > LONGEST:
        raise Wrong(text, f"a number of at most {LONGEST} characters")
    whole, _, over = text.rpartition(" ")
    if "/" in over:
        above, below = map(int, over.split("/"))
        if below == 0:
            raise Wrong(text, "a fraction over a number that is not 0")
        return int(whole or 0) * below + above, below
    before, _, behind = over.partition(".")
    return int(before + behind or 0), 10**len(behind)


def split(text, measure):
    """The number and the unit of a quantity; the unit may be missing."""
    match = re.fullmatch(rf"({NUMBER})(?: *([a-z][a-z ]*))?", text)
    unit = match and match[2] and " ".join(match[2].split())
    if not match or (unit and unit not in measure.units):
        raise Wrong(text, f"{measure.name} with its unit, as {measure.example}")
    return match[1], unit


def whole(number, unit, measure):
    """How many of the rules' units a number of these units is; only where that is a whole number in range."""
    above, below = fraction(number)
    sixtieths = measure.units[unit]
    parts, of = above * sixtieths, below * 60
    low, high = measure.said(1, sixtieths, ""), measure.said(measure.most, sixtieths, unit)
    if not of <= parts <= measure.most * of:
        raise Wrong(f"{number} {unit}", f"{measure.name} of {low}to {high}")
    if parts % of:
        nearest = [measure.said(parts // of + k, sixtieths, unit) for k in (0, 1)]
        raise Wrong(f"{number} {unit}", f"{measure.name} in whole {measure.unit}, of which the nearest are {' and '.join(nearest)}")
    return parts // of


def quantity(text, measure):
    """How many of the rules' units a quantity with its unit is."""
    number, unit = split(text, measure)
    if unit is None:
        raise Wrong(text, f"{measure.name} with its unit, as {measure.example}")
    return whole(number, unit, measure)
