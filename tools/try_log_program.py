#!/usr/bin/env python3
"""Runs the log program on files and compares what it prints: on every case of log_cases, with their stored stdout, and on
files that no case can hold, such as missing ones and those of 70,000 bytes, with reference.py.

    try_log_program.py [PROGRAM]        else crates/log_program/out/log_program
"""
import os
import re
import subprocess
import sys
import tempfile

sys.dont_write_bytecode = True      # no __pycache__ in the repository
import reference as ref
from cases import parts
from text import PROGRAM

CASES = os.path.join(os.path.dirname(os.path.abspath(__file__)), '..', 'crates', 'log_cases')


def loaded(name):
    with open(os.path.join(CASES, name), 'rb') as file:
        return file.read()


def stored_cases():
    """Each case's scheme, its log, and what is to be printed."""
    both = list(parts(loaded('stdin')))
    yield from zip(both[0::2], both[1::2], re.split(r'end [0-9]+\n', loaded('stdout').decode()))


def file_cases():
    """None stands for a missing file, and 'folder' for a folder in its place."""
    scheme, log = ref.standard_scheme(4), ref.build_log(ref.parsed(text) for text, _ in ref.SESSION)
    files = [(unread, unread) for unread in (None, 'folder')]
    files += [(ref.standard_scheme(4, groups), log) for groups in ([], [1])]
    files += [pair for unread in (None, 'folder') for pair in ((unread, log), (scheme, unread))]
    for size in (65536, 65537, 70000, 1000000):
        files += [(given + bytes(size - len(given)), log) for given in (scheme, ref.standard_scheme(4, [1]))]
        files += [(scheme, bytes(size)), (bytes(size), bytes(size)),
                  (scheme, (log * (1 + size // len(log)))[:size])]
    for pair in files:
        counted = [b'' if content in (None, 'folder') else content for content in pair]
        yield *pair, ''.join(line + '\n' for line in ref.run(*counted))


def put(name, content):
    if content == 'folder':
        os.mkdir(name)
    elif content is not None:
        with open(name, 'wb') as file:
            file.write(content)


def printed(program, scheme, log):
    with tempfile.TemporaryDirectory() as folder:
        put(os.path.join(folder, 'scheme'), scheme)
        put(os.path.join(folder, 'requests'), log)
        return subprocess.run([program], cwd=folder, stdout=subprocess.PIPE).stdout.decode('utf-8', 'replace')


def main():
    program = os.path.abspath(sys.argv[1] if len(sys.argv) > 1 else PROGRAM)
    if not os.access(program, os.X_OK):
        sys.exit('there is no program %s' % program)
    cases = [*stored_cases(), *file_cases()]
    differ = 0
    for number, (scheme, log, wanted) in enumerate(cases, 1):
        if printed(program, scheme, log) != wanted:
            print('case %d differs' % number)
            differ += 1
    print('%d cases, %d differ' % (len(cases), differ))
    sys.exit(differ > 0)


if __name__ == '__main__':
    main()
