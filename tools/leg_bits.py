#!/usr/bin/env python3
"""Writes what the program crate leg_bits must write: crates/leg_bits/stdout.

The arithmetic is IEEE 754's binary64 over exact fractions: every result is the exact one, rounded once to nearest,
ties to even. No float of the machine takes part.

    tools/leg_bits.py > crates/leg_bits/stdout
"""
from fractions import Fraction

SIGNIFICAND_BITS = 53
LEAST_EXPONENT = -1074

SPEEDS = (1, 2, 3, 63, 64, 65, 127, 255, 256, 333, 511, 512)
WHOLE_LEGS = (1, 63, 64, 100, 4095, 4096)
OTHER_LEGS = ("0.015625000000000003", "0.1", "0.3333333333333333", "2.7182818284590451", "63.99999999999999", "32.1",
              "7.8500000000000005")
AMOUNTS = ((1,) * 4, (2,) * 4, (3,) * 4, (31,) * 4, (63,) * 4, (64,) * 4, (64, 1, 31, 3))
STARTS = ("0.0", "0.1", "1e-9", "1.1102230246251568e-16")
WAITED = ("0.0", "0.1", "4090.7")
MOST_WAITED = Fraction(4096)


def unit(exact):
    """The exponent of the last place of the float nearest to a positive fraction."""
    exponent = exact.numerator.bit_length() - exact.denominator.bit_length() - SIGNIFICAND_BITS
    while exact >= Fraction(2) ** (exponent + SIGNIFICAND_BITS):
        exponent += 1
    return max(exponent, LEAST_EXPONENT)


def rounded(exact):
    """The float nearest to a fraction that is not negative, ties to even."""
    if exact == 0:
        return exact
    place = Fraction(2) ** unit(exact)
    count, rest = divmod(exact, place)
    if 2 * rest > place or (2 * rest == place and count % 2 == 1):
        count += 1
    return count * place


def bits(value):
    """The bit pattern of a float that is not negative, as 16 hexadecimal digits."""
    if value == 0:
        return "%016x" % 0
    exponent = unit(value)
    count = value / Fraction(2) ** exponent
    assert count.denominator == 1 and count < 2 ** SIGNIFICAND_BITS
    # The leading bit of a normal significand adds 1 to the exponent field.
    return "%016x" % (int(count) + (exponent - LEAST_EXPONENT) * 2 ** (SIGNIFICAND_BITS - 1))


def just_below(value):
    """The float before a positive one."""
    count = value / Fraction(2) ** unit(value)
    if count == 2 ** (SIGNIFICAND_BITS - 1):
        return value - Fraction(2) ** (unit(value) - 1)
    return value - Fraction(2) ** unit(value)


def advanced(miles, speed, amount, leg):
    """The miles after a tick, by document 01, kind 12, and those past the end, by document 02, 2.2."""
    step = rounded(rounded(Fraction(speed, 64)) * rounded(Fraction(amount, 64)))
    total = rounded(miles + step)
    return min(total, leg), rounded(total - leg) if total > leg else Fraction(0)


def waited_after(waited, past):
    """The miles waited after a tick, by document 02, 2.2."""
    return min(rounded(waited + past), MOST_WAITED)


def leg_after_miss(missed, final_leg, flown):
    """The own leg after a miss, by document 02, 2.7: the difference rounded once, and the sum."""
    return rounded(missed + rounded(final_leg - flown))


def line(leg, speed, start, before, amounts):
    """The line of one combination."""
    words = [bits(leg), str(speed), bits(start), bits(before)]
    miles, waited = start, before
    for amount in amounts:
        miles, past = advanced(miles, speed, amount, leg)
        waited = waited_after(waited, past)
        words += [str(amount), bits(miles), bits(past), bits(waited)]
    return " ".join(words + ["1" if miles == leg else "0"])


def starts_of(leg):
    """The miles at the start that are within a leg, or None."""
    starts = [rounded(Fraction(start)) for start in STARTS] + [just_below(leg), leg]
    return [start if start <= leg else None for start in starts]


def ticks(legs):
    """Writes the lines of all combinations whose start is within the leg."""
    before = [rounded(Fraction(waited)) for waited in WAITED]
    combination = 0
    for leg in legs:
        for speed in SPEEDS:
            for start in starts_of(leg):
                if start is not None:
                    print(line(leg, speed, start, before[combination % len(before)], AMOUNTS[combination % len(AMOUNTS)]))
                combination += 1


def misses(legs):
    """Writes the lines of all misses whose miles flown are within the leg of final."""
    for missed in legs:
        for final_leg in legs:
            for flown in starts_of(final_leg):
                if flown is not None:
                    print(bits(missed), bits(final_leg), bits(flown), bits(leg_after_miss(missed, final_leg, flown)))


def main():
    """Writes all lines."""
    legs = [rounded(Fraction(k, 64)) for k in WHOLE_LEGS] + [rounded(Fraction(leg)) for leg in OTHER_LEGS]
    ticks(legs)
    misses(legs)


if __name__ == "__main__":
    main()
