"""The gatekeeper's calls for Python, over libgatekeeper.so, which library/build makes.

A scheme is any object with bytes, a network too (one that can be written, as a bytearray, where a call may write it), and the
output of list and suggest is a writable object of 16-bit numbers, as array('H', ..); arrays of ctypes are such objects. The
questions of views are an array of Question, as (Question * 40)(). Every call answers document 01's number, one of Answer. An
argument that cannot be passed raises ValueError, and then nothing is called.

What gatekeeper.h asks of a caller is kept here: lengths are taken from the objects, what a call may write overlaps nothing
else that is lent, and a call holds the interpreter's lock, so that no other thread of it runs meanwhile. No object is kept
after a call, or after an error.

`from gatekeeper import *` leaves out set and list, which would hide Python's own: they are gatekeeper.set and gatekeeper.list.
"""
import ctypes
import enum
import operator
import os
import sys
from collections import namedtuple
from contextlib import contextmanager

__all__ = ['Answer', 'Question', 'check', 'degree', 'event', 'find', 'fresh', 'network_length', 'suggest', 'view', 'views']


class Answer(enum.IntEnum):
    """Document 01's answers, with the names and meanings of gatekeeper.h."""
    GRANTED = 0
    SCHEME_RECORDS = 1
    SCHEME_COUNTS = 2
    SCHEME_BYTES = 3
    SCHEME_STRANGERS = 4
    NETWORK_BYTES = 5
    NO_MEMBER = 6
    NO_RESOURCE = 7
    SAME_MEMBER = 8
    NOT_FOUND = 9
    NO_NEXT_STATE = 10
    NOT_ADMITTED = 11
    NOT_OFFERED = 12
    OUTPUT_SHORT = 13


class Question(ctypes.Structure):
    """A question of views: the viewer asks for the item of the owner."""
    _fields_ = [('viewer', ctypes.c_size_t), ('owner', ctypes.c_size_t), ('item', ctypes.c_size_t), ('answer', ctypes.c_uint8)]

    def __setattr__(self, name, value):
        """A number that the field cannot hold raises ValueError; ctypes would cut it off."""
        super().__setattr__(name, _number(value, name, getattr(type(self), name).size))


_DEFAULT = os.path.join(os.path.dirname(os.path.abspath(__file__)), '..', 'target', 'library', 'libgatekeeper.so')
try:
    _library = ctypes.PyDLL(os.environ.get('GATEKEEPER_LIBRARY', _DEFAULT))     # PyDLL keeps the lock; CDLL would not
except OSError as error:
    raise ImportError('%s; library/build builds it' % error) from None

_BYTES = [ctypes.c_void_p, ctypes.c_size_t]
_NUMBER = [ctypes.c_size_t]
_OUTPUT = _BYTES + [ctypes.POINTER(ctypes.c_size_t)]
_SIGNATURES = {
    'check': _BYTES, 'network_length': _BYTES, 'fresh': 2 * _BYTES, 'find': 2 * _BYTES + 2 * _NUMBER,
    'event': 2 * _BYTES + 3 * _NUMBER, 'set': 2 * _BYTES + 3 * _NUMBER, 'view': 2 * _BYTES + 3 * _NUMBER,
    'list': 2 * _BYTES + 2 * _NUMBER + _OUTPUT, 'suggest': 2 * _BYTES + 2 * _NUMBER + _OUTPUT,
    'degree': 2 * _BYTES + 2 * _NUMBER + [ctypes.POINTER(ctypes.c_uint16)], 'views': 3 * _BYTES,
}
_calls = {}
for _name, _arguments in _SIGNATURES.items():
    _calls[_name] = getattr(_library, 'gatekeeper_' + _name)
    _calls[_name].argtypes = _arguments
    _calls[_name].restype = ctypes.c_size_t if _name == 'network_length' else ctypes.c_uint8

_DEGREE_NONE = 65535
_NATIVE = ('', '@', '=', '<' if sys.byteorder == 'little' else '>')         # byte orders, as formats begin

_Part = namedtuple('_Part', 'at length end written')

# The elements that are lent: how many bytes each has, of what its place is a multiple, its formats, and what they are called.
_Kind = namedtuple('_Kind', 'size multiple formats called')
_LENT_BYTES = _Kind(1, 1, [order + code for order in _NATIVE for code in 'Bbc'], '8-bit numbers')
_LENT_NUMBERS = _Kind(2, 2, [order + 'H' for order in _NATIVE], '16-bit numbers')
_LENT_QUESTIONS = _Kind(ctypes.sizeof(Question), ctypes.alignment(Question), [memoryview(Question()).format],
                        'Question structures')


@contextmanager
def _lent(value, name, written=False, kind=_LENT_BYTES):
    """Where an object's elements stand, and how many; it keeps them in place meanwhile, and lets go of them in any case."""
    try:
        view = memoryview(value)
    except (TypeError, BufferError):
        raise ValueError('%s has no bytes to lend' % name) from None
    with view:
        if not view.c_contiguous or view.format not in kind.formats or view.itemsize != kind.size:
            raise ValueError('%s is not one row of %s' % (name, kind.called))
        if view.readonly and written:
            raise ValueError('%s cannot be written' % name)
        if view.readonly:
            held = view.obj if isinstance(view.obj, bytes) and len(view.obj) == view.nbytes else view.tobytes()
            at = ctypes.cast(ctypes.c_char_p(held), ctypes.c_void_p).value
        else:
            at = ctypes.addressof((ctypes.c_char * view.nbytes).from_buffer(view))
        if at % kind.multiple != 0:
            raise ValueError('%s does not stand at a multiple of %d' % (name, kind.multiple))
        yield _Part(at, view.nbytes // kind.size, at + view.nbytes, written)


def _number(value, name, size=ctypes.sizeof(ctypes.c_size_t)):
    """A whole number that so many bytes hold."""
    try:
        value = operator.index(value)
    except TypeError:
        raise ValueError('%s is not a whole number' % name) from None
    largest = 2 ** (8 * size) - 1
    if not 0 <= value <= largest:
        raise ValueError('%s is below 0 or above %d' % (name, largest))
    return value


def _apart(*parts):
    """Where each part stands and its length, if none that is written overlaps another."""
    for i, one in enumerate(parts):
        for other in parts[:i]:
            if (one.written or other.written) and one.at < other.end and other.at < one.end:
                raise ValueError('what is written overlaps what else is lent')
    return [value for part in parts for value in (part.at, part.length)]


def _request(call, scheme, network, written, *places, **numbers):
    """A call's answer; places stand behind the numbers."""
    values = [_number(value, name) for name, value in numbers.items()]
    with _lent(scheme, 'scheme') as scheme_part, _lent(network, 'network', written) as network_part:
        return _calls[call](*_apart(scheme_part, network_part), *values, *places)


def _filled(call, scheme, network, output, name, kind, *places, **numbers):
    """The answer of a call that fills in an output, the last thing lent; it stands behind the numbers, and places behind it."""
    values = [_number(value, name) for name, value in numbers.items()]
    with _lent(scheme, 'scheme') as scheme_part, _lent(network, 'network') as network_part, \
            _lent(output, name, True, kind) as output_part:
        lent = _apart(scheme_part, network_part, output_part)
        return _calls[call](*lent[:4], *values, *lent[4:], *places)


def _written(call, scheme, network, output, **numbers):
    """A call's answer, and how many members it wrote at the front of the output, None if refused."""
    count = ctypes.c_size_t()
    answer = _filled(call, scheme, network, output, 'output', _LENT_NUMBERS, ctypes.byref(count), **numbers)
    return answer, count.value if answer == Answer.GRANTED else None


def check(scheme):
    """The scheme check."""
    with _lent(scheme, 'scheme') as part:
        return _calls['check'](part.at, part.length)


def network_length(scheme):
    """How many bytes a network has under an accepted scheme; 0 under any other."""
    with _lent(scheme, 'scheme') as part:
        return _calls['network_length'](part.at, part.length)


def fresh(scheme, network):
    """Makes a network fresh."""
    return _request('fresh', scheme, network, True)


def event(scheme, network, v, u, a):
    """Member v uses primitive a towards member u."""
    return _request('event', scheme, network, True, v=v, u=u, a=a)


def set(scheme, network, u, r, p):
    """Member u chooses policy p for resource r."""
    return _request('set', scheme, network, True, u=u, r=r, p=p)


def find(scheme, network, v, u):
    """Whether member v finds member u."""
    return _request('find', scheme, network, False, v=v, u=u)


def degree(scheme, network, v, u):
    """The answer, and the least number of friendships between members v and u: None where no walk joins them, and if refused."""
    place = ctypes.c_uint16()
    answer = _request('degree', scheme, network, False, ctypes.byref(place), v=v, u=u)
    return answer, place.value if answer == Answer.GRANTED and place.value != _DEGREE_NONE else None


def list(scheme, network, v, u, output):
    """Member v asks for u's friends: the answer, and how many were written at the front of the output, None if refused."""
    return _written('list', scheme, network, output, v=v, u=u)


def suggest(scheme, network, v, c, output):
    """Member v asks for c members that it might know: the answer, and how many were written at the front of the output, None if
    refused."""
    return _written('suggest', scheme, network, output, v=v, c=c)


def view(scheme, network, v, u, o):
    """Member v asks for item o of member u."""
    return _request('view', scheme, network, False, v=v, u=u, o=o)


def views(scheme, network, questions):
    """Many views in one call: with 0 each question has the answer that view gives to it, with 1 to 5 all are as they were."""
    return _filled('views', scheme, network, questions, 'questions', _LENT_QUESTIONS)
