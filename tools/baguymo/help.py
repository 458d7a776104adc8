"""How each verb is used: what `baguymo --help` and `baguymo VERB --help` print. tests/commands runs the examples."""
import itertools
import textwrap

# Of each verb a line, how it is called, what it does, its own options, and an example.
VERBS = {
    "play": (
        "play a lesson and print the proved report, in numbers", "[FILE]",
        """Plays the lesson or practice file FILE from an empty field. Prints for each request its index and its answer: number (0, or what refuses
it), aircraft, zone, fix, leader, along. Last comes `end` with how many entries, taxis, exits and misses were accepted, and how many are present.""",
        (), """$ baguymo play monday.txt | tail -n 3
5 0 0 0 0 0 0
6 0 7 11 1 0 0
end 1 0 0 0 1"""),
    "debrief": (
        "say a session in words: what was asked, what came of it and why", "[FILE]",
        """Plays FILE from an empty field and says in words what was asked and what came of it; of a refusal why, by the field before the request.
FILE is a lesson, a practice file, or the calls of two desks. Ticks that follow each other and are the same are one line. Then come the counts,
and a row for each aircraft: when it entered, landed and left, its misses, its time in holding, and the miles it waited at the ends of legs.
With --plain it prints the proved report that the words are made from: that of `play`, or of `desks`.""",
        (("--field", "draw the zones after each accepted request that moves somebody"),), """$ baguymo debrief monday.txt | sed -n 3,4p
3  7 approach: base right, fix right, follows nobody
4  7 merge: refused 15: its leg is not flown out (7 in base right)"""),
    "week": (
        "report over a binder of lessons, or over lessons", "[FILE..]",
        """Plays the practice files in the binder FILE, each from an empty field; or the lessons and practice files FILE.., as if they were bound.
Prints how many files were played and how many were refused 5, 6 and 7; for each kind of request, and for all others together, how often
each number was answered; then moves and landings.""",
        (("--words", "say it in words"),), """$ baguymo week --words monday.txt
1 file: 1 played, 0 refused

vertical entry: 1 accepted
descend: 1 accepted
approach: 1 accepted
merge: 1 accepted, 1 refused
    1 refused 15: its leg is not flown out
tick: 1 accepted
not asked: lateral entry, to final, land, taxi, exit, miss and hold

3 moves, 0 landings"""),
    "button": (
        "empty the field after a lesson, one press after the other", "[FILE]",
        """Plays the lesson or practice file FILE from an empty field without printing it, and then holds the button down, which moves whoever may
move, or ticks. Prints a line for each press that moved somebody: press, kind, aircraft, zone, fix, leader, along. The last line is `none` if
nobody is left on the field, else `spent`, and then how many requests the button played.""",
        (("--words", "say it in words"),), """$ baguymo button --words monday.txt
press 2: 7 to final: final, fix right, follows nobody
press 4: 7 land: runway, fix right, follows nobody
press 5: 7 taxi: off the field
nobody is on the field, after 5 requests, of which 2 ticks of 1 minute"""),
    "spacing": (
        "say how far apart those on the approach are after a lesson", "SPACING [FILE]",
        """Plays the lesson or practice file FILE from an empty field without printing it. Prints a line for each two neighbours in the landing
sequence that are both on the approach: leader, follower, `close` or `clear`, and the gap in miles, the follower's way to the threshold less the
leader's. It is close where it is under SPACING: a number of 64ths of a mile, 1 to 512, or miles with their unit in one word, as '2 miles'.""",
        (("--words", "say it in words"),), """$ baguymo spacing --words '2 miles' monday.txt
close is under 2 miles
no two neighbours of the landing sequence are on the approach"""),
    "lesson": (
        "make a file of a lesson in words, or show a file in words", "[TEXT]",
        """Reads the lesson TEXT and writes its file: without desks and steps back a practice file, by the proved writer, with them the input of `desks`.
One request a line; # begins a comment. The first line has the legs, in miles or as four numbers of 64ths of a mile:
    legs base 1, intermediate 1, final 1, missed 2 miles
    7 vertical entry right, 60 knots
    7 descend               so also approach, merge, to final, land, taxi, exit, miss and hold
    8 lateral entry left, 90 knots
    tick 1 minute           at most a minute; `tick 1 minute, 5 times` for longer; so behind any line
    desk 2: 9 descend       of desk 2; without a desk it is desk 1's
    back                    takes the last accepted request back; also `desk 2: back`
Miles, minutes and knots are taken where they are whole in the rules' units (64ths of a mile, of a minute, and of a mile a minute), as 1.5 miles,
96/64 miles, 1 1/2 miles, 30 seconds, 1.5 miles a minute. A request may also be four numbers: kind, side, number, amount; requests in numbers
that break the input rules are written as they stand, and a note says so. A line that is not understood is named, with what could stand there.""",
        (("--show", "read a file instead, TEXT, and write its text, without comments; read again it gives the same bytes"),),
        """$ baguymo lesson monday.txt -o monday.scap
$ baguymo lesson --show monday.scap
legs base 1, intermediate 1, final 1, missed 2 miles
7 vertical entry right, 60 knots
7 descend
7 approach
7 merge
tick 1 minute
7 merge"""),
    "binder": (
        "make a binder of lessons, a week", "LESSON..",
        """Writes the binder of these lessons and practice files, 1 to 64 of them and at most 65,536 bytes, in their order. What `week` would refuse is
refused; a file in it that is no practice file is bound, and a note says how a week counts it.""",
        (), """$ baguymo binder -o week.binder monday.txt monday.scap
$ baguymo week week.binder | head -n 1
files 2"""),
    "classroom": (
        "a field as a classroom list, and such a list as a field", "list|field [FILE]",
        """With list: plays the lesson or practice file FILE from an empty field without printing it, and prints the list of the field, a line for each
in sequence order: number, location (the zone's number), place, fix.
With field: reads such a list from FILE, as `classroom list` prints it, in numbers or words; before it may stand legs and a speed, as
    legs base 1, intermediate 1, final 1, missed 2 miles
    speed 60 knots
which are a mile each and 60 knots otherwise, and which no report shows. Or FILE has them as bytes: four legs, a speed, and entries of number,
location, place and fix, each number of 16 bits, the low byte first. Prints `next` and the next fix of the field that they build, and its list.""",
        (("--words", "say it in words"),), """$ printf '7 in 2000 right, place 1, fix right\\n8 2 2 2\\n' | baguymo classroom field
next 1
7 3 1 1
8 2 2 2"""),
    "desks": (
        "answer the calls of two desks, requests and steps back", "[FILE]",
        """Plays the calls of two desks that FILE holds from the empty field. FILE is a lesson (`baguymo lesson --help`), or bytes: eight for the legs
(base, intermediate, final, missed, in 64ths of a mile) and then eight for each call: 0 for a request or any other byte for a step back, the
desk, the kind and the side, one byte each; number and amount. A number of two bytes has its low byte first. Of a step back only the desk
counts. Prints a line for each call: its index from 0, its number (0 where accepted), aircraft, zone, fix, leader and along, the last two 0 for
the other desk's. The last line is `end`, how many are present, and how many requests can be taken back. `debrief` says it in words.""",
        (), """$ printf '64 64 64 64\\n7 vertical entry right, 60 knots\\ndesk 2: back\\n' | baguymo desks
0 0 7 1 1 0 0
1 0 0 0 0 0 0
end 0 0"""),
    "author": (
        "write a practice file from bytes, for editors", "[FILE]",
        """Writes the practice file of the four legs and the requests that FILE holds in bytes: eight for the legs (base, intermediate, final, missed, in
64ths of a mile) and then six for each request (kind and side, one byte each; number and amount); a number of two bytes has its low byte first.
FILE may be a lesson or a practice file too. What is refused: 7 for a leg, or legs that are not all there; 5 for requests that are not six
bytes each, or more than 4,096 of them; 1 to 4 for the first request that breaks the input rules. With --plain the line `refused` with its number is the
output then.""",
        (), """$ printf '\\100\\0\\100\\0\\100\\0\\100\\0' | baguymo author | baguymo play
end 0 0 0 0 0"""),
}
PLAIN = ("--plain", "print the proved bytes of the report as they are and nothing else, also of what is refused")
COMMON = [("-o OUT", "write to the file OUT, which is left alone where anything is refused"), ("-h, --help", "print this, and do nothing else")]
ENDING = """FILE is text or bytes, told apart by how it begins: a practice file by the letters SCAP. Without FILE, or where FILE is -, standard input is read. -- ends the options.
The exit status is 0 where all went well, 2 for wrong use, and 1 for what is refused or cannot be read, built or written."""


def usage(verb):
    """How a verb is called, in one line."""
    _, words, _, options, _ = VERBS[verb]
    given = "".join(f" [{option}]" for option, _ in (*options, PLAIN))
    return f"usage: baguymo {verb}{given} [-o OUT] {words}"


def filled(text):
    """Text in lines of at most 100 characters; lines that are indented stay as they are."""
    lines = []
    for indented, group in itertools.groupby(text.split("\n"), lambda line: line.startswith(" ")):
        lines += list(group) if indented else textwrap.wrap(" ".join(group), 100)
    return lines


def of_verb(verb):
    """Everything about a verb."""
    _, _, text, options, example = VERBS[verb]
    lines = [usage(verb), "", *filled(text), ""]
    for option, words in (*options, PLAIN, *COMMON):
        lines += textwrap.wrap(words, 100, initial_indent=f"  {option:<12}", subsequent_indent=" " * 14)
    lines += ["", *filled(ENDING), "", "Example:"] + ["    " + line for line in example.split("\n")]
    return "\n".join(line.rstrip() for line in lines) + "\n"


def of_all():
    """The verbs, with a line each."""
    lines = ["usage: baguymo VERB ..", "", "The airport module of a procedure trainer: lessons played, debriefed and written.", ""]
    lines += [f"  {verb:<12}{VERBS[verb][0]}" for verb in VERBS]
    lines += ["", "`baguymo VERB --help` says everything about a verb, and shows an example; `baguymo lesson --help` has the language of lessons."]
    return "\n".join(lines) + "\n"
