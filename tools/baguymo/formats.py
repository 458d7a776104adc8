"""The bytes that the programs read: practice files, binders, calls of two desks, classroom lists; and a lesson as text again."""
from struct import iter_unpack, pack, unpack_from

from .words import LEGS, TICK, asked, exact

LETTERS = b"SCAP"
HEAD, OFFSET = 26, 34  # where the legs of a practice file begin, and its requests
MOST_FILES, LONGEST_BINDER = 64, 65536


def author_input(legs, calls):
    """Four legs and requests, as the program `author` reads them."""
    return pack("<4H", *legs) + b"".join(pack("<BBHH", *call[2:]) for call in calls)


def practice_file(legs, calls):
    """The practice file of four legs and requests; also of those that the proved writer refuses."""
    body = author_input(legs, calls)
    return LETTERS + pack("<HHIIHII", 2, 1, HEAD, 8, 2, OFFSET, len(body) - 8) + body


def requests_in(data):
    """The legs and the requests of a practice file, the requests as calls of desk 1."""
    return list(unpack_from("<4H", data, HEAD)), [(0, 1, *parts) for parts in iter_unpack("<BBHH", data[OFFSET:])]


def desks_input(legs, calls):
    """Four legs and calls, as the program `desks` reads them."""
    return pack("<4H", *legs) + b"".join(pack("<BBBBHH", *call) for call in calls)


def calls_in(data):
    """The legs and the calls of an input of the program `desks`."""
    return list(unpack_from("<4H", data)), list(iter_unpack("<BBBBHH", data[8:]))


def binder(files):
    """A count, a table of offsets and lengths, and the files one after the other."""
    table, offset = pack("<H", len(files)), 2 + 8 * len(files)
    for data in files:
        table += pack("<II", offset, len(data))
        offset += len(data)
    return table + b"".join(files)


def classroom_input(legs, speed, entries):
    """Four legs, a speed and entries of number, location, place and fix, as the program `classroom` reads them."""
    return pack("<5H", *legs, speed) + b"".join(pack("<4H", *entry) for entry in entries)


def call_text(call, with_desk):
    """A call as a line of a lesson."""
    first, desk, *parts = call
    if with_desk and (desk not in (1, 2) or (first and (first != 1 or any(parts)))):
        kind, side, number, amount = parts
        return f"call {first}, desk {desk}, kind {kind}, side {side}, number {number}, amount {amount}"
    return (f"desk {desk}: " if with_desk else "") + ("back" if first else asked(*parts))


def legs_text(legs):
    """The legs as a line of a lesson."""
    return "legs " + ", ".join(f"{LEGS[place]} {exact(leg, 64)}" for place, leg in enumerate(legs, 1)) + " miles"


def lesson_text(legs, calls, with_desks):
    """A lesson as text: what is read again as the same bytes. Ticks that follow each other and are the same are one line."""
    lines, at = [legs_text(legs)], 0
    if with_desks and not calls:
        lines.append("two desks")
    while at < len(calls):
        end = at + 1
        while calls[at][2] == TICK and calls[at][0] == 0 and end < len(calls) and calls[end] == calls[at]:
            end += 1
        lines.append(call_text(calls[at], with_desks) + (f", {end - at} times" if end > at + 1 else ""))
        at = end
    return "".join(line + "\n" for line in lines)
