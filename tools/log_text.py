"""A log as text, with the names of its scheme, and as document 01's bytes; and answers in words.

A line is a request; `#` begins a comment.
    event V U PRIMITIVE       V uses it towards U
    set U RESOURCE POLICY     RESOURCE: search, traversal, or the name of a primitive or an item
    find V U
    list V U                  V asks for U's friends
    view V U ITEM
    bytes 05 00 ff            any bytes, for records that are no requests
Members are numbers. All else is a name of the scheme or a number; numbers may be beyond what the scheme has. Texts are UTF-8; a
byte order mark before them and carriage returns at the ends of lines are passed over.
"""
import re

import reference as ref
from scheme_text import resource_names
from text_lines import DIGITS, Fault, Lines, number, place_of, shown

FIELDS = {'event': ('member', 'member', 'primitive'), 'set': ('member', 'resource', 'policy'), 'find': ('member', 'member'),
          'list': ('member', 'member'), 'view': ('member', 'member', 'item')}
BYTE = re.compile(r'[0-9A-Fa-f]{2}')
BYTES_A_LINE = 16


def names_of(names, sort):
    """The names of all values of a field, by number."""
    return {'member': [], 'primitive': names.primitives, 'resource': resource_names(names), 'policy': names.policies,
            'item': names.items}[sort]


# ---- Text to bytes

def parse_log(name, data, names):
    """The bytes of a log's text; BadText where it has faults."""
    lines = Lines(name, data)
    places = {sort: {word: i for i, word in enumerate(names_of(names, sort))} for sorts in FIELDS.values() for sort in sorts}
    log = []
    for place, content in lines.lines:
        with lines.at(place):
            log.append(parse_line(content.split(), places))
    lines.finish()
    return b''.join(log)


def parse_line(words, places):
    kind, *arguments = words
    if kind == 'bytes':
        for word in arguments:
            if not BYTE.fullmatch(word):
                raise Fault("a byte is two digits of base 16, and not '%s'" % shown(word))
        return bytes(int(word, 16) for word in arguments)
    if kind not in FIELDS:
        raise Fault("'%s' is no request; requests are %s, and bytes" % (shown(kind), ', '.join(FIELDS)))
    sorts = FIELDS[kind]
    if len(arguments) != len(sorts):
        raise Fault("'%s' has %d arguments (%s), and not %d" % (kind, len(sorts), ', '.join(sorts), len(arguments)))
    values = [parse_field(word, sort, places[sort]) for word, sort in zip(arguments, sorts)]
    return ref.build_log([(kind, *values)])


def parse_field(word, sort, places):
    if sort == 'member' or DIGITS.fullmatch(word):
        return number(word, "a %s's number" % sort, 0, 65535 if sort == 'member' else 255)
    return place_of(word, sort, places)


# ---- Bytes to text

def read_log(log):
    """The requests up to the log's end or its first 14, and the place of that end."""
    requests, place = [], 0
    while True:
        answer, request, place = ref.next_request(log, place)
        if answer != 0:
            return requests, place
        requests.append(request)


def request_words(request, names):
    kind, *values = request
    words = [kind]
    for value, sort in zip(values, FIELDS[kind]):
        known = names_of(names, sort)
        words.append(known[value] if value < len(known) else str(value))
    return ' '.join(words)


def record_fault(log, place):
    """Why a 14 is answered at a place."""
    left = len(log) - place
    if left < 4:
        return 'the record is cut: its head has 4 bytes, and %d are there' % left
    length, kind = ref.number(log, place), ref.number(log, place + 2)
    if kind not in ref.KINDS:
        return 'kind %d is none of 16 to 20' % kind
    name = ref.KINDS[kind]
    wanted = sum(ref.WIDTHS[name])
    if length != wanted:
        return 'the body of %s has %d bytes, and the record says %d' % (name, wanted, length)
    return 'the record is cut: the body of %s has %d bytes, and %d are there' % (name, wanted, left - 4)


def log_text(log, names):
    requests, place = read_log(log)
    text = [request_words(request, names) for request in requests]
    if place < len(log):
        text.append('# record %d, at byte %d, is answered 14: %s' % (len(requests) + 1, place, record_fault(log, place)))
    for at in range(place, len(log), BYTES_A_LINE):
        text.append('bytes ' + log[at:at + BYTES_A_LINE].hex(' '))
    return ''.join(line + '\n' for line in text)


# ---- Answers in words

ANSWERS = {
    'event': {0: 'granted', 6: 'refused: {missing}', 7: 'refused: there is no primitive {2}',
              8: 'refused: {0} cannot do this towards itself', 9: 'refused: {0} does not find {1}',
              10: 'refused: {0} cannot {2} in the state of {0} and {1}',
              11: "refused: {1}'s setting for {2} does not admit {0}"},
    'set': {0: 'granted', 6: 'refused: {missing}', 7: 'refused: there is no resource {1}',
            12: 'refused: {2} may not be chosen for {1}'},
    'find': {0: 'granted', 6: 'refused: {missing}', 9: 'refused: {0} does not find {1}'},
    'list': {0: 'granted: {friends}', 6: 'refused: {missing}', 9: 'refused: {0} does not find {1}',
             11: "refused: {1}'s setting for traversal does not admit {0}"},
    'view': {0: 'granted', 6: 'refused: {missing}', 7: 'refused: there is no item {2}', 9: 'refused: {0} does not find {1}',
             11: "refused: {1}'s setting for {2} does not admit {0}"},
}


def answer_words(request, members, names, answer, friends):
    """An answer to a request in words; None where no request of its kind gets this answer."""
    kind, *values = request
    missing = sorted({value for value, sort in zip(values, FIELDS[kind]) if sort == 'member' and value >= members})
    if answer not in ANSWERS[kind] or (answer == 6) != bool(missing) or friends and (kind, answer) != ('list', 0):
        return None
    return ANSWERS[kind][answer].format(
        *request_words(request, names).split()[1:],
        missing='there is no member ' + ' and no member '.join(map(str, missing)),
        friends='friends ' + ' '.join(map(str, friends)) if friends else 'no friends')
