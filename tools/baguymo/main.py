"""The entry of bin/baguymo: finds the verb and its words, has it done, and ends with its status. Everything that goes wrong is said here."""
import os

from . import files
from .errors import Failure, Misuse, Refused, reason
from .files import say

VERBS = ("play", "debrief", "week", "button", "spacing", "lesson", "binder", "classroom", "desks", "author")
OPTIONS = {"debrief": ("--field",), "week": ("--words",), "button": ("--words",), "spacing": ("--words",), "classroom": ("--words",),
           "lesson": ("--show",)}
WORDS = {"spacing": ("SPACING",), "classroom": ("list or field",)}  # what stands before FILE
MANY = ("week", "binder")  # verbs that take several files
MAKES_BYTES = ("lesson", "binder", "author")


def split(verb, words):
    """The options, the path behind -o and the other words of a call."""
    known, options, out, others = (*OPTIONS.get(verb, ()), "--plain"), set(), None, []
    words = list(words)
    while words:
        word = words.pop(0)
        if word == "--":
            others += words
            break
        if word == "-o":
            if not words or not words[0] or out is not None:
                raise Misuse("behind -o stands the name of the output, once")
            out = words.pop(0)
        elif word in ("-h", "--help"):
            return {"--help"}, None, []
        elif word.startswith("-") and word != "-":
            if word not in known:
                raise Misuse(f"unknown option: {word}; there could stand {', '.join((*known, '-o OUT', '--help'))}")
            options.add(word)
        else:
            others.append(word)
    return options, out, others


def command_of(verb, options, out, others):
    """The call of a verb, where its words are as they should be."""
    from .verbs import Command
    needed = len(WORDS.get(verb, ()))
    if len(others) < needed:
        raise Misuse(f"{WORDS[verb][len(others)]} is missing")
    words, paths = others[:needed], others[needed:]
    if verb == "classroom" and words[0] not in ("list", "field"):
        raise Misuse(f"unknown word: {words[0]}; there could stand list or field")
    if verb == "binder" and not paths:
        raise Misuse("LESSON is missing")
    if len(paths) > 1 and verb not in MANY:
        raise Misuse(f"more than one file: {' '.join(paths)}")
    if "--plain" in options and "--words" in options:
        raise Misuse("--plain and --words exclude each other")
    if paths.count("-") > 1:
        raise Misuse("standard input, -, can be read once")
    if out is not None and any(files.same(out, path) for path in paths or ["-"]):
        raise Misuse(f"{out} is read, and would be overwritten: -o needs another name")
    if out is None and verb in MAKES_BYTES and "--show" not in options and os.isatty(1):
        raise Misuse("the output is bytes, which no terminal shows: -o OUT names a file for them")
    return Command(verb, options, words, paths)


def done(verb, words):
    """Does what a verb is asked for."""
    options, out, others = split(verb, words)
    if "--help" in options:
        from .help import of_verb
        return files.write(of_verb(verb).encode())
    command = command_of(verb, options, out, others)
    from . import verbs
    does = {"binder": verbs.make_binder}.get(verb) or getattr(verbs, verb)
    try:
        output = does(command)
    except Refused as refusal:
        if not command.plain:
            raise
        files.write(refusal.report)
        return 1
    files.write(output, None if out == "-" else out)
    for note in command.notes:
        say(note)
    return 0


def called(words):
    """The exit status of a call by its words."""
    if words and words[0] in ("-h", "--help", "help") and len(words) < 3:
        from .help import of_all, of_verb
        return files.write((of_verb(words[1]) if words[-1] in VERBS else of_all()).encode())
    if not words or words[0] not in VERBS:
        say(f"unknown verb: {words[0]}" if words else "a verb is missing")
        say(f"there could stand {', '.join(VERBS)}; `baguymo --help` says what each does")
        return 2
    try:
        return done(words[0], words[1:])
    except Misuse as misuse:
        from .help import usage
        say(str(misuse))
        say(f"{usage(words[0])}; `baguymo {words[0]} --help` says more")
        return 2


def main(words):
    """The exit status of a call, and what is said of it where it fails."""
    files.standard_streams()
    try:
        return called(words) or 0
    except Failure as failure:
        for line in failure.lines:
            say(line)
    except KeyboardInterrupt:
        say("interrupted")
        return 130
    except OSError as error:
        say(f"{error.filename or 'the system'}: {reason(error)}")
    except Exception as fault:  # a fault of this command: still one line and a status
        at = fault.__traceback__
        while at.tb_next:
            at = at.tb_next
        say(f"a fault of the command itself, in {os.path.basename(at.tb_frame.f_code.co_filename)} line {at.tb_lineno}: {type(fault).__name__}: {fault}")
    return 1
