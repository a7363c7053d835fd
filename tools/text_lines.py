"""What the texts of a scheme and of a log share: lines with comments, names, numbers, and faults told by line."""
import codecs
import re
from contextlib import contextmanager

NAME = re.compile(r'[A-Za-z][A-Za-z0-9_-]*')
DIGITS = re.compile(r'[0-9]+')
LONGEST = 80        # of what a message quotes, in characters


class Fault(Exception):
    """What is wrong with one line."""


class BadText(Exception):
    """What is wrong with a text: its name and a line for each fault."""


class Lines:
    """A text's lines, without comments and empty ones, and the faults found in them so far."""

    def __init__(self, name, data):
        self.name = escaped(name)
        self.faults = []
        self.lines = []
        if data.startswith((codecs.BOM_UTF16_LE, codecs.BOM_UTF16_BE)):
            raise BadText('%s: its byte order mark is that of UTF-16, and texts are UTF-8' % self.name)
        for place, line in enumerate(data.removeprefix(codecs.BOM_UTF8).split(b'\n'), 1):
            with self.at(place):
                content = decoded(line.rstrip(b'\r')).split('#')[0].strip()
                if content:
                    self.lines.append((place, content))

    @contextmanager
    def at(self, place):
        """Keeps a fault of what is done inside, as one of this line; 0 stands for the whole text."""
        try:
            yield
        except Fault as fault:
            self.faults.append((place, str(fault)))

    def finish(self):
        """Raises BadText if there is a fault."""
        if self.faults:
            raise BadText('\n'.join('%s:%s %s' % (self.name, '%d:' % place if place else '', what)
                                    for place, what in sorted(self.faults)))


def escaped(text):
    """A text with escapes for what cannot be printed."""
    return ''.join(char if char.isprintable() else ascii(char)[1:-1] for char in text)


def shown(text):
    """A text as messages quote it: escaped and cut."""
    return escaped(text[:LONGEST]) + ('..' if len(text) > LONGEST else '')


def decoded(line):
    if b'\r' in line:
        raise Fault('byte %d of the line is a carriage return, which stands at ends of lines alone' % (line.index(b'\r') + 1))
    try:
        return line.decode('utf-8')
    except UnicodeDecodeError as error:
        raise Fault('byte %d of the line is not UTF-8 text' % (error.start + 1))


def number(word, what, least, most):
    """A number written in digits."""
    if not DIGITS.fullmatch(word):
        raise Fault("%s is a number, and '%s' is none" % (what, shown(word)))
    digits = word.lstrip('0') or '0'
    if len(digits) > len(str(most)) or not least <= int(digits) <= most:
        raise Fault('%s is %d to %d, and not %s' % (what, least, most, shown(word)))
    return int(digits)


def place_of(word, what, places):
    """The place of a name, by the places of all."""
    if word not in places:
        raise Fault("there is no %s '%s'" % (what, shown(word)))
    return places[word]
