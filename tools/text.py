#!/usr/bin/env python3
"""Schemes and logs as text for people.

A folder holds scheme.txt and requests.txt, the texts, and scheme and requests, the bytes that the log program reads.
scheme_text.py and log_text.py say how the texts are written; examples/ has four folders.

What a resource has at first, its default, is the policy of its list whose line `policy NAME: ..` stands first in the scheme, in
whatever order the list has them.
"""
import argparse
import os
import re
import shutil
import subprocess
import sys
import tempfile

sys.dont_write_bytecode = True      # no __pycache__ in the repository
import reference as ref
from log_text import answer_words, log_text, parse_log, read_log, record_fault, request_words
from scheme_faults import SENTENCES, examine
from scheme_text import numbered_names, parse_scheme, scheme_text
from text_lines import BadText, escaped, shown

PROGRAM = os.path.join(os.path.dirname(os.path.abspath(__file__)), '..', 'crates', 'log_program', 'out', 'log_program')    # the log program
TEXT_LIMIT = 2 ** 24        # bytes of a text


class Stop(Exception):
    """Why a command ends with nothing done."""


# ---- Files

def load(name, most):
    """A file's first bytes."""
    try:
        with open(name, 'rb') as file:
            return file.read(most)
    except OSError as error:
        raise Stop('%s: %s' % (escaped(name), error.strerror))


def load_text(name):
    data = load(name, TEXT_LIMIT + 1)
    if len(data) > TEXT_LIMIT:
        raise Stop('%s: more than %d bytes are no text' % (escaped(name), TEXT_LIMIT))
    return data


def put(name, data):
    with open(name, 'wb') as file:
        file.write(data)


def plain(name):
    """Where a file stands, links followed, that can be written or made."""
    place = os.path.realpath(name)
    if os.path.lexists(place) and not (os.path.isfile(place) and os.access(place, os.W_OK)):
        raise Stop('%s is no plain file that can be written; nothing is written' % escaped(name))
    return place


def store(folder, files):
    """Stores all files of a folder, or none."""
    places = {name: plain(os.path.join(folder, name)) for name in files}
    try:
        with tempfile.TemporaryDirectory(dir=folder) as beside:
            for name, place in places.items():
                put(os.path.join(beside, name), files[name])
                if os.path.exists(place):
                    shutil.copymode(place, os.path.join(beside, name))
                    shutil.copy2(place, os.path.join(beside, 'old-' + name))
            exchange(beside, places)
    except OSError as error:
        raise Stop('%s: %s; nothing is written' % (escaped(folder), error.strerror))


def exchange(beside, places):
    """Puts the new files in their places; where one cannot be put, the old ones return."""
    done = []
    try:
        for name, place in places.items():
            os.replace(os.path.join(beside, name), place)
            done.append((os.path.join(beside, 'old-' + name), place))
    except BaseException:
        for old, place in done:
            if os.path.exists(old):
                os.replace(old, place)
            else:
                os.remove(place)
        raise


def parse_folder(folder):
    """The names, the scheme's bytes and the log's bytes that a folder's texts give."""
    scheme_name, log_name = os.path.join(folder, 'scheme.txt'), os.path.join(folder, 'requests.txt')
    scheme_data, log_data = load_text(scheme_name), load_text(log_name)
    names, scheme = parse_scheme(scheme_name, scheme_data)
    return names, scheme, parse_log(log_name, log_data, names)


# ---- What is said of bytes

def check_words(examined):
    """The check's answer in words, with the bytes that are in the way."""
    words = 'the scheme check answers %d: %s' % (examined.answer, SENTENCES[examined.answer])
    return words + ''.join('\n  byte %d: %s' % fault for fault in examined.faults)


def log_words(log):
    requests, place = read_log(log)
    words = '%d bytes, %d requests' % (len(log), len(requests))
    if place < len(log):
        words += '\n  record %d, at byte %d, is answered 14: %s' % (len(requests) + 1, place, record_fault(log, place))
    if len(log) > ref.LOG_LIMIT:
        words += '\n  more than %d bytes: the log program answers 15 and runs nothing' % ref.LOG_LIMIT
    return words


# ---- The commands, each with what it prints

def write(folder):
    names, scheme, log = parse_folder(folder)
    store(folder, {'scheme': scheme, 'requests': log})
    scheme_name, log_name = (escaped(os.path.join(folder, name)) for name in ('scheme', 'requests'))
    return ('%s: %d bytes; %s\n' % (scheme_name, len(scheme), check_words(examine(scheme, names)))
            + '%s: %s\n' % (log_name, log_words(log)))


def read(folder, replace):
    scheme_name, log_name = os.path.join(folder, 'scheme'), os.path.join(folder, 'requests')
    scheme, log = load(scheme_name, ref.SCHEME_READ), load(log_name, ref.LOG_READ + 1)
    examined = examine(scheme)
    if examined.scheme is None:
        raise Stop('%s: %s' % (escaped(scheme_name), check_words(examined)))
    if len(log) > ref.LOG_READ:
        raise Stop('%s: more than %d bytes: the log program answers 15, and no text is written'
                   % (escaped(log_name), ref.LOG_READ))
    for name in (scheme_name, log_name):
        if os.path.exists(name + '.txt') and not replace:
            raise Stop('%s.txt is there already; --replace writes over it, and its names and comments are lost' % escaped(name))
    names = numbered_names(examined.scheme.counts)
    store(folder, {'scheme.txt': scheme_text(examined.scheme, names).encode(), 'requests.txt': log_text(log, names).encode()})
    return ('%s.txt: %s\n' % (escaped(scheme_name), check_words(examined))
            + '%s.txt: %s\n' % (escaped(log_name), log_words(log)))


def run(folder, program):
    if not os.path.isdir(folder):
        raise Stop('%s: no such folder' % escaped(folder))
    scheme = ref.contents(os.path.join(folder, 'scheme'), ref.SCHEME_READ)
    log = ref.contents(os.path.join(folder, 'requests'), ref.LOG_READ)
    examined = examine(scheme)
    names = numbered_names(examined.scheme.counts) if examined.scheme else None
    if os.path.exists(os.path.join(folder, 'scheme.txt')):
        names, *written = parse_folder(folder)
        if (scheme, log) != (written[0], written[1][:ref.LOG_READ]):
            raise Stop('%s: the texts give other bytes than scheme and requests hold; write them first' % escaped(folder))
    rows = list(answer_rows(printed(program, scheme, log), examined, log, names))
    width = max((len(row[1]) for row in rows), default=0)
    return ''.join('%*s  %-*s  %2d  %s\n' % (len(str(len(rows))), position, width, request, answer, words)
                   for position, request, answer, words in rows)


# ---- The log program's lines

def started(program, scheme, log):
    """The log program's run on copies: a pipe is read once."""
    with tempfile.TemporaryDirectory() as folder:
        put(os.path.join(folder, 'scheme'), scheme)
        put(os.path.join(folder, 'requests'), log)
        try:
            return subprocess.run([os.path.abspath(program)], cwd=folder, capture_output=True)
        except OSError as error:
            raise Stop('the log program %s: %s; --program names another'
                       % (escaped(os.path.normpath(program)), error.strerror))


def printed(program, scheme, log):
    """The log program's lines, each as numbers."""
    result = started(program, scheme, log)
    if result.returncode != 0:
        raise Stop('the log program ended with status %d: %s'
                   % (result.returncode, shown(result.stderr.decode('utf-8', 'replace').strip())))
    lines = result.stdout.decode('utf-8', 'replace').split('\n')
    for line in lines[:-1]:
        if not re.fullmatch('[0-9]{1,5}( [0-9]{1,5})+', line):
            raise Stop("the log program printed '%s', which is not a line of numbers" % shown(line))
    if lines[-1]:
        raise Stop('the last line of the log program has no end')
    return [[int(word) for word in line.split()] for line in lines[:-1]]


def answer_rows(lines, examined, log, names):
    """For each line its position, what was asked, the answer, and the answer in words."""
    if lines and lines[0][0] == 0:
        yield refused_row(lines, examined, log)
        return
    requests, place = read_log(log)
    count = len(requests) + (place < len(log))
    if len(lines) != count or examined.answer != 0:
        raise Stop('the log program printed %d lines; the log has %d records, and %s'
                   % (len(lines), count, check_words(examined)))
    for expected, (request, (position, answer, *friends)) in enumerate(zip(requests + [None], lines), 1):
        if request:
            words = answer_words(request, examined.scheme.counts.members, names, answer, friends)
        else:
            words = 'no request: ' + record_fault(log, place) if [answer, *friends] == [14] else None
        if position != expected or words is None:
            raise Stop("line %d of the log program is '%s', which does not answer %s"
                       % (expected, shown(' '.join(map(str, [position, answer, *friends]))),
                          shown(request_words(request, names)) if request else 'a record that is no request'))
        yield position, request_words(request, names) if request else 'bytes', answer, words


def refused_row(lines, examined, log):
    """The one line of a log program that runs nothing."""
    answer = lines[0][1]
    if lines == [[0, 15]] and examined.answer == 0 and len(log) > ref.LOG_LIMIT:
        return 0, 'the log', 15, 'refused: more than %d bytes, nothing is run' % ref.LOG_LIMIT
    if lines != [[0, examined.answer]] or answer == 0:
        raise Stop("the log program printed '0 %d', and %s" % (answer, check_words(examined)))
    return 0, 'the scheme', answer, 'refused: ' + check_words(examined).partition(': ')[2]


# ---- The command line

def say(text, done=''):
    """Prints a text. Where that fails, ends with the reason and what is done, or silently where nobody reads."""
    if sys.stdout is None:
        sys.exit('the output is closed' + done)
    try:
        sys.stdout.reconfigure(errors='backslashreplace')
        sys.stdout.write(text)
        sys.stdout.flush()
    except OSError as error:
        os.dup2(os.open(os.devnull, os.O_WRONLY), sys.stdout.fileno())      # for what is flushed at the end
        if isinstance(error, BrokenPipeError) and not done:
            sys.exit(1)
        sys.exit('the output: %s%s' % (error.strerror, done))


class Parser(argparse.ArgumentParser):
    def print_help(self, file=None):
        say(self.format_help())

    def error(self, message):
        super().error(escaped(message))


def arguments():
    parser = Parser(description=__doc__, formatter_class=argparse.RawDescriptionHelpFormatter)
    commands = parser.add_subparsers(dest='command', required=True, metavar='write, read or run')
    for name, what in (('write', 'texts to bytes: scheme.txt and requests.txt to scheme and requests'),
                       ('read', 'bytes to texts, with numbered names'),
                       ('run', 'run the log program on scheme and requests, and show each request and its answer in words')):
        command = commands.add_parser(name, help=what, description=what)
        command.add_argument('folder')
        if name == 'read':
            command.add_argument('--replace', action='store_true', help='write over texts that are there already')
        if name == 'run':
            command.add_argument('--program', default=PROGRAM, metavar='PATH', help='the log program; else crates/log_program/out/log_program')
    return parser.parse_args()


def main():
    given = vars(arguments())
    command = given.pop('command')
    try:
        text = {'write': write, 'read': read, 'run': run}[command](**given)
    except (Stop, BadText, OSError) as error:
        sys.exit(str(error))
    except KeyboardInterrupt:
        sys.exit(130)
    say(text, '' if command == 'run' else '; both files are written')


if __name__ == '__main__':
    main()
