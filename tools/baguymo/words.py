"""The words of tools/words.txt by their numbers, and numbers in words."""
import os

HERE = os.path.dirname(os.path.abspath(__file__))


def table(path):
    """The lines of the table: of each sort the words by their number, which is text where a kind is beside it, as in 22.4."""
    sorts = {}
    with open(path, encoding="utf-8") as file:
        for line in file:
            if line.strip() and not line.startswith("#"):
                sort, number, words = line.split(None, 2)
                sorts.setdefault(sort, {})[number if "." in number else int(number)] = words.strip()
    return sorts


WORDS = table(os.path.join(os.path.dirname(HERE), "words.txt"))
SIDES, ZONES, KINDS, LEGS = WORDS["side"], WORDS["zone"], WORDS["kind"], WORDS["leg"]
REFUSALS, FILES = WORDS["refusal"], WORDS["file"]
ENTRIES, DESCEND, APPROACH, MERGE, LAND, LEAVES, MISS, TICK = (1, 2), 3, 4, 5, 7, (8, 9), 10, 12
MOST_REQUESTS, FASTEST, LONGEST_TICK, LONGEST_LEG = 4096, 512, 64, 4096


def refusal(number, kind=0):
    """The words of a refusal, of a request of this kind where they are its own."""
    return REFUSALS.get(f"{number}.{kind}") or REFUSALS[number]


def input_number(kind, side, number, amount):
    """The number by which the input rules refuse a request, or 0 (document 01)."""
    if kind not in KINDS:
        return 1
    if side not in ((1, 2) if kind in ENTRIES else (0,)):
        return 2
    if (number == 0) != (kind == TICK):
        return 3
    most = FASTEST if kind in ENTRIES else LONGEST_TICK if kind == TICK else 0
    return 0 if (amount == 0 if most == 0 else 1 <= amount <= most) else 4


def exact(n, parts):
    """n / parts as a decimal fraction, where parts is a power of 2."""
    places = parts.bit_length() - 1
    digits = str(abs(n) * 10**places // parts).rjust(places + 1, "0")
    whole, rest = digits[:len(digits) - places], digits[len(digits) - places:].rstrip("0")
    return ("-" if n < 0 else "") + whole + ("." + rest if rest else "")


def counted(n, one):
    """So many of something."""
    return f"{n} {one}" if str(n) == "1" else f"{n} {one}s"


def minutes(amount):
    """64ths of a minute in minutes."""
    return counted(exact(amount, 64), "minute")


def knots(speed):
    """64ths of a mile a minute in knots."""
    return counted(exact(speed * 60, 64), "knot")


def asked(kind, side, number, amount):
    """A request as a lesson has it: in words where it keeps the input rules, else part by part."""
    if input_number(kind, side, number, amount):
        return f"kind {kind}, side {side}, number {number}, amount {amount}"
    if kind in ENTRIES:
        return f"{number} {KINDS[kind]} {SIDES[side]}, {knots(amount)}"
    if kind == TICK:
        return f"{KINDS[kind]} {minutes(amount)}"
    return f"{number} {KINDS[kind]}"


def printable(text):
    """Text with what cannot be printed escaped."""
    return text if text.isprintable() else "".join(c if c.isprintable() else c.encode("unicode_escape").decode() for c in text)


def quoted(text, most=60):
    """Text of a file as a message shows it; how much is left out is said."""
    return f'"{printable(text[:most])}"' + (f" and {len(text) - most} characters more" if len(text) > most else "")


def listed(items, last="and"):
    """Words with commas between them and a word before the last."""
    items = list(items)
    return items[0] if len(items) == 1 else ", ".join(items[:-1]) + f" {last} " + items[-1]
