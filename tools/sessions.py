#!/usr/bin/env python3
"""The stored sessions of tests: readable ones (NAME.txt) are lessons in the language of bin/baguymo, mostly in numbers; a comment that starts
with `# =` says what the next request answers. A file that is no practice file stands as its bytes in hexadecimal (NAME.hex).

  sessions.py cases CRATE                 of the sessions in CRATE/data: their bytes beside them as NAME.scap, their names in CRATE/args,
                                          and the expected outputs under their names in CRATE/stdout
  sessions.py expect SESSIONS PROGRAM     plays every session by a program and writes NAME.expected
  sessions.py check SESSIONS PROGRAM      plays them and compares
  sessions.py hex FILE                    any file in hexadecimal

Legs, requests and files are written as given, also where the rules refuse them, which bin/baguymo does not.
"""
import os
import subprocess
import sys

sys.dont_write_bytecode = True  # nothing is written beside the tools
from baguymo.errors import Failure
from baguymo.formats import practice_file
from baguymo.lesson import parse


def read(path):
    with open(path, 'rb') as file:
        return file.read()


def write(data, path):
    with open(path, 'wb') as file:
        file.write(data)


def session_bytes(path):
    """The bytes of a stored session."""
    data = read(path)
    if path.endswith('.hex'):
        return bytes.fromhex(' '.join(line for line in data.decode('ascii').splitlines() if not line.startswith('#')))
    lesson = parse(data, path)
    return practice_file(lesson.legs, lesson.calls)


def all_sessions(directory):
    """Name and bytes of every session in a directory, in order of name."""
    for name in sorted(os.listdir(directory)):
        stem, extension = os.path.splitext(name)
        if extension in ('.txt', '.hex'):
            yield stem, session_bytes(os.path.join(directory, name))


def played(program, data):
    return subprocess.run([program], input=data, stdout=subprocess.PIPE, check=True).stdout


def write_cases(crate):
    """What the program of a crate is run on, and what it is to print."""
    folder = os.path.join(crate, 'data')
    names, output = [], []
    for stem, data in all_sessions(folder):
        name = stem + '.scap'
        write(data, os.path.join(folder, name))
        names.append(name.encode('ascii') + b'\n')
        output.append(names[-1] + read(os.path.join(folder, stem + '.expected')))
    write(b''.join(names), os.path.join(crate, 'args'))
    write(b''.join(output), os.path.join(crate, 'stdout'))


def main(args):
    command, *words = args or ['']
    if (command, len(words)) == ('cases', 1):
        write_cases(*words)
    elif (command, len(words)) == ('expect', 2):
        for stem, data in all_sessions(words[0]):
            write(played(words[1], data), os.path.join(words[0], stem + '.expected'))
    elif (command, len(words)) == ('check', 2):
        different = [stem for stem, data in all_sessions(words[0])
                     if played(words[1], data) != read(os.path.join(words[0], stem + '.expected'))]
        if different:
            raise Failure('different: ' + ' '.join(different))
    elif (command, len(words)) == ('hex', 1):
        data = read(*words)
        print(''.join(data[at:at + 16].hex(' ') + '\n' for at in range(0, len(data), 16)), end='', flush=True)
    else:
        sys.stderr.write(__doc__)
        return 2
    return 0


if __name__ == '__main__':
    try:
        status = main(sys.argv[1:])
    except (Failure, OSError, ValueError, subprocess.SubprocessError) as error:
        print(f'sessions.py: {error}', file=sys.stderr)
        status = 1
    sys.stdout = None  # what could not be written is said above
    sys.exit(status)
