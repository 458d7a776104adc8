#!/usr/bin/env python3
"""Writes four*.txt, one session on different legs.

  make_four.py DIRECTORY

The answers in the comments of four*.txt are written down here by hand, from
the papers; only the ticks depend on legs and speeds.
"""
import os
import sys

TICK = '# = 0 0 0 0 0 0'

# Steps: a request with its answer, or ('fly', number, request, answer): ticks
# until the leg is flown out, the request refused 15 just before and accepted
# after. `leg` says which leg the aircraft is on from here.
FOUR = [
    ('ask', '1 1 7 S', '0 7 1 1 0 0', ''),
    ('ask', '3 0 7 0', '0 7 3 1 0 0', ''),
    ('ask', '1 2 8 S', '0 8 2 2 7 0', ''),
    ('ask', '3 0 8 0', '0 8 4 2 7 0', ''),
    ('ask', '1 1 9 S', '0 9 1 1 8 0', ''),
    ('ask', '1 2 10 S', '0 10 2 2 9 0', 'four in the operation area'),
    ('ask', '1 1 11 S', '16', 'a fifth'),
    ('ask', '2 2 11 S', '16', ''),
    ('ask', '4 0 7 0', '0 7 9 1 0 0', ''),
    ('ask', '4 0 8 0', '0 8 10 2 7 0', ''),
    ('fly', '5 0 7 0', '0 7 11 1 0 0', ''),
    ('fly', '5 0 8 0', '0 8 11 2 7 0', ''),
    ('fly', '6 0 7 0', '0 7 12 1 0 0', ''),
    ('fly', '6 0 8 0', '0 8 12 2 7 0', 'two on final'),
    ('ask', '10 0 8 0', '14', ''),
    ('ask', '10 0 7 0', '0 7 7 1 10 0', 'misses to the right, and goes last'),
    ('ask', '10 0 8 0', '0 8 8 2 7 0', 'misses to the left, and goes last'),
    ('fly', '11 0 7 0', '0 7 1 1 10 9', '9 goes down to 2000'),
    ('fly', '11 0 8 0', '0 8 2 2 7 10', '10 goes down to 2000'),
    ('ask', '4 0 10 0', '22', ''),
    ('ask', '4 0 9 0', '0 9 9 1 0 0', ''),
    ('ask', '4 0 10 0', '0 10 10 2 9 0', ''),
    ('ask', '3 0 7 0', '0 7 3 1 10 0', ''),
    ('ask', '3 0 8 0', '0 8 4 2 7 0', ''),
    ('fly', '5 0 9 0', '0 9 11 1 0 0', ''),
    ('fly', '9 0 9 0', '0 9 0 0 0 0', 'exit at the end of the leg'),
    ('fly', '5 0 10 0', '0 10 11 2 0 0', ''),
    ('fly', '6 0 10 0', '0 10 12 2 0 0', ''),
    ('ask', '4 0 7 0', '0 7 9 1 10 0', ''),
    ('fly', '7 0 10 0', '0 10 13 2 0 0', ''),
    ('ask', '4 0 8 0', '0 8 10 2 7 0', ''),
    ('fly', '5 0 7 0', '0 7 11 1 0 0', ''),
    ('fly', '6 0 7 0', '0 7 12 1 0 0', ''),
    ('fly', '7 0 7 0', '24', '10 is on the runway'),
    ('ask', '8 0 10 0', '0 10 0 0 0 0', ''),
    ('ask', '7 0 7 0', '0 7 13 1 0 0', ''),
    ('fly', '5 0 8 0', '0 8 11 2 0 0', ''),
    ('fly', '6 0 8 0', '0 8 12 2 0 0', ''),
    ('ask', '10 0 8 0', '0 8 8 2 0 0', 'alone: keeps its fix'),
    ('fly', '11 0 8 0', '0 8 4 2 0 0', 'the side is empty: to 2000'),
    ('ask', '8 0 7 0', '0 7 0 0 0 0', ''),
    ('ask', '4 0 8 0', '0 8 10 2 0 0', ''),
    ('fly', '5 0 8 0', '0 8 11 2 0 0', ''),
    ('fly', '9 0 8 0', '0 8 0 0 0 0', 'nobody is left: end 4 2 2 3 0'),
]

# The leg that an aircraft begins with an accepted answer's zone.
LEG_OF_ZONE = {7: 3, 8: 3, 9: 0, 10: 0, 11: 1, 12: 2}


def four(legs, speeds):
    """The session for legs (base, intermediate, final, missed) and speeds."""
    out = [' '.join(map(str, legs)),
           '# Four aircraft, misses on both sides, holds that move two, exits and',
           '# landings; the field ends empty.']
    flying = {}  # number: [4096ths of a mile flown, of how many]

    def tick(amount):
        out.extend([TICK, '12 0 0 %d' % amount])
        for number, leg in flying.items():
            leg[0] = min(leg[0] + speeds[number] * amount, leg[1])

    def ask(request, answer, why):
        out.extend([('# = %s  %s' % (answer, why)).rstrip(), request])
        fields = [int(word) for word in answer.split()]
        if len(fields) == 6:
            flown, of = flying.pop(fields[1], (0, 0))
            if fields[2] in LEG_OF_ZONE:
                # Who misses flies out what is left of final first.
                left = of - flown if request.startswith('10 ') else 0
                flying[fields[1]] = [0, left + 64 * legs[LEG_OF_ZONE[fields[2]]]]

    for how, request, answer, why in FOUR:
        words = request.split()
        number = int(words[2])
        if words[3] == 'S':
            request = ' '.join(words[:3] + [str(speeds[number])])
        if how == 'fly':
            speed = speeds[number]
            left = flying[number][1] - flying[number][0]
            if left > 0:
                amounts = -(-left // speed)
                while amounts > 64:
                    tick(64)
                    amounts -= 64
                if amounts > 1:
                    tick(amounts - 1)
                ask(request, '15', '')
                tick(1)
        ask(request, answer, why)
    return '\n'.join(out) + '\n'


def main(directory):
    speeds = {7: 64, 8: 100, 9: 96, 10: 512, 11: 1}
    fast = {7: 512, 8: 500, 9: 384, 10: 511, 11: 1}
    made = {
        'four': four((64, 96, 80, 112), speeds),
        'four-legs-1': four((1, 1, 1, 1), {7: 1, 8: 64, 9: 63, 10: 3, 11: 1}),
        'four-legs-63': four((63, 63, 63, 63), speeds),
        'four-legs-64': four((64, 64, 64, 64), speeds),
        'four-legs-4096': four((4096, 4096, 4096, 4096), fast),
    }
    for name, text in made.items():
        with open(os.path.join(directory, name + '.txt'), 'w', encoding='ascii') as file:
            file.write(text)


if __name__ == '__main__':
    if len(sys.argv) != 2:
        raise SystemExit(__doc__)
    main(sys.argv[1])
