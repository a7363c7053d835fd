#!/usr/bin/env python3
"""Tests of the Python module over a built library: python3 library/test_gatekeeper.py"""
import builtins
import ctypes
import os
import re
import subprocess
import sys
import unittest
from array import array

sys.dont_write_bytecode = True      # no __pycache__ in the repository
LIBRARY = os.path.dirname(os.path.abspath(__file__))
sys.path.insert(0, os.path.join(LIBRARY, '..', 'tools'))
import gatekeeper
import reference as ref

SCHEME = ref.standard_scheme(4)
CALLS = {'check', 'degree', 'event', 'find', 'fresh', 'list', 'network_length', 'set', 'suggest', 'view', 'views'}
OTHER_ORDER = (ctypes.c_uint16.__ctype_be__ if sys.byteorder == 'little' else ctypes.c_uint16.__ctype_le__) * 4


def fresh_network():
    network = bytearray(gatekeeper.network_length(SCHEME))
    assert gatekeeper.fresh(SCHEME, network) == 0
    return network


def lent_questions(questions):
    return (gatekeeper.Question * len(questions))(*questions)


def fields(questions):
    return [(question.viewer, question.owner, question.item, question.answer) for question in questions]


class PackedQuestion(ctypes.Structure):
    _pack_ = 1
    _fields_ = gatekeeper.Question._fields_


class QuestionOfOtherNames(ctypes.Structure):
    _fields_ = [(name.upper(), element) for name, element in gatekeeper.Question._fields_]


class Arguments(unittest.TestCase):
    def refused(self, call, *arguments):
        with self.assertRaises(ValueError):
            call(*arguments)

    def test_what_can_be_lent(self):
        """Each kind of object with bytes, as scheme and network."""
        wanted = fresh_network()
        self.assertEqual(gatekeeper.event(SCHEME, wanted, 0, 1, 0), 9)
        for element in (ctypes.c_ubyte, ctypes.c_byte, ctypes.c_char):
            scheme, network = (element * len(SCHEME)).from_buffer_copy(SCHEME), (element * len(wanted))()
            self.assertEqual((gatekeeper.check(scheme), gatekeeper.network_length(scheme)), (0, len(wanted)))
            self.assertEqual(gatekeeper.fresh(scheme, network), 0)
            self.assertEqual(bytes(network), wanted)
        for kind in (bytes, bytearray, memoryview, lambda data: memoryview(bytearray(data)), lambda data: array('B', data),
                     lambda data: memoryview(b'_' + data)[1:]):
            self.assertEqual(gatekeeper.find(kind(SCHEME), kind(bytes(wanted)), 0, 0), 0)
        for nothing in (b'', bytearray(), memoryview(b''), (ctypes.c_ubyte * 0)()):
            self.assertEqual((gatekeeper.check(nothing), gatekeeper.find(SCHEME, nothing, 0, 0)), (1, 5))

    def test_output(self):
        network = fresh_network()
        self.assertEqual(gatekeeper.set(SCHEME, network, 0, 1, 4), 0)
        network[0] = 3                  # 0 and 1 are friends
        for output in (array('H', 4 * [9]), (ctypes.c_uint16 * 4)(9, 9, 9, 9)):
            self.assertEqual(gatekeeper.list(SCHEME, network, 0, 0, output), (0, 1))
            self.assertEqual([*output], [1, 9, 9, 9])
        self.assertEqual(gatekeeper.list(SCHEME, network, 0, 0, array('H')), (13, None))
        for output in ([0] * 4, bytes(8), array('I', 4 * [0]), (ctypes.c_int16 * 4)(), OTHER_ORDER(),
                       memoryview(bytearray(9))[1:].cast('H')):
            self.refused(gatekeeper.list, SCHEME, network, 0, 0, output)
            self.refused(gatekeeper.suggest, SCHEME, network, 0, 0, output)

    def test_degree(self):
        """A number, none, and a refusal, which leaves the lent place alone."""
        network = fresh_network()
        self.assertEqual(gatekeeper.set(SCHEME, network, 3, 0, 12), 0)      # everyone may search for 3
        self.assertEqual(gatekeeper.set(SCHEME, network, 1, 1, 4), 0)       # everyone may traverse 1
        network[0] = network[2] = 3                                         # 0 and 1 are friends, and 1 and 2
        for v, u, answer, number in ((0, 0, 0, 0), (0, 1, 0, 1), (0, 2, 0, 2), (2, 0, 0, 2), (0, 3, 0, None), (3, 3, 0, 0),
                                     (3, 0, 9, None), (0, 4, 6, None), (2 ** 16, 0, 6, None), (0, 2 ** 64 - 1, 6, None)):
            self.assertEqual(gatekeeper.degree(SCHEME, network, v, u), (answer, number))
            for before in (0, 7, 65535):
                place = ctypes.c_uint16(before)
                gatekeeper._request('degree', SCHEME, network, False, ctypes.byref(place), v=v, u=u)
                self.assertEqual(place.value, before if answer else 65535 if number is None else number)
        self.assertEqual(gatekeeper.degree(SCHEME, network[:-1], 0, 0), (5, None))
        self.assertEqual(gatekeeper.degree(b'', network, 0, 0), (1, None))

    def test_suggest(self):
        """The first c, all where there are fewer, nobody, and a refusal, which leaves output and count alone."""
        network = fresh_network()
        for m in (2, 3):
            self.assertEqual(gatekeeper.set(SCHEME, network, m, 0, 12), 0)  # everyone may search for m
        network[0] = network[2] = network[4] = 3                            # 1 has the friends 0, 2 and 3
        for v, c, answer, members in ((0, 0, 0, []), (0, 1, 0, [2]), (0, 2, 0, [2, 3]), (0, 4, 0, [2, 3]), (2, 4, 0, [3]),
                                      (1, 4, 0, []), (0, 5, 13, []), (0, 2 ** 16, 13, []), (0, 2 ** 64 - 1, 13, []), (4, 1, 6, []),
                                      (4, 5, 6, []), (2 ** 16, 1, 6, []), (2 ** 64 - 1, 2 ** 64 - 1, 6, [])):
            output, wanted = array('H', 4 * [9]), members + [9] * (4 - len(members))
            self.assertEqual(gatekeeper.suggest(SCHEME, network, v, c, output), (answer, None if answer else len(members)))
            self.assertEqual(output.tolist(), wanted)
            for before in (0, 7, 2 ** 64 - 1):
                places, count = (ctypes.c_uint16 * 4)(9, 9, 9, 9), ctypes.c_size_t(before)
                gatekeeper._request('suggest', SCHEME, network, False, places, 4, ctypes.byref(count), v=v, c=c)
                self.assertEqual(([*places], count.value), (wanted, before if answer else len(members)))
        for c, told in ((0, (0, 0)), (1, (13, None))):
            self.assertEqual(gatekeeper.suggest(SCHEME, network, 0, c, array('H')), told)
        self.assertEqual(gatekeeper.suggest(SCHEME, network[:-1], 4, 1, array('H')), (5, None))
        self.assertEqual(gatekeeper.suggest(b'', network, 4, 1, array('H')), (1, None))

    def test_views(self):
        """0 and 1 are friends, and 1 and 2. Everyone may traverse 1, and item 1 of 1 and of 2 is for those within 2."""
        network = fresh_network()
        network[0] = network[2] = 3
        for m, r, p in ((1, 1, 4), (1, 7, 3), (2, 7, 3)):
            self.assertEqual(gatekeeper.set(SCHEME, network, m, r, p), 0)
        far = 2 ** 64 - 1
        asked = [(0, 2, 1, 0), (0, 1, 1, 11), (0, 3, 1, 0), (3, 1, 1, 0), (0, 2, 2, 0), (0, 4, 1, 0), (2 ** 16, 0, 1, 0),
                 (0, 2, 3, 0), (0, 2, 1, 9), (far, far, far, 255), (0, 2 ** 32, 1, 0), (0, 2, 2 ** 8 + 1, 0), (2, 0, 1, 0)]
        wanted = [0, 0, 9, 9, 11, 6, 6, 7, 0, 6, 6, 7, 11]
        questions, lent = lent_questions(asked), (bytes(SCHEME), bytes(network))
        self.assertEqual(gatekeeper.views(*lent, questions), 0)
        self.assertEqual(fields(questions), [(*question[:3], answer) for question, answer in zip(asked, wanted)])
        self.assertEqual(wanted, [gatekeeper.view(SCHEME, network, *question[:3]) for question in asked])
        for i in range(len(asked) + 1):             # the front of the questions alone
            questions = lent_questions(asked)
            self.assertEqual(gatekeeper.views(*lent, memoryview(questions)[:i]), 0)
            self.assertEqual([answer for *_, answer in fields(questions)], wanted[:i] + [answer for *_, answer in asked[i:]])

    def test_views_refused(self):
        """The scheme's numbers and 5 refuse the list, empty or not, and leave each byte, between the fields too."""
        network = fresh_network()
        scheme_of = {1: SCHEME[:-1], 2: b'\6\0\1\0\0\0' + SCHEME[6:], 3: SCHEME[:50] + b'\2' + SCHEME[51:],
                     4: SCHEME[:50] + b'\1' + SCHEME[51:], 5: SCHEME}
        for answer, scheme in scheme_of.items():
            damaged = network[:-1] + b'\xff' if answer == 5 else network
            for count in (0, 1, 3):
                before = bytes(range(1, 1 + ctypes.sizeof(gatekeeper.Question))) * count
                questions = (gatekeeper.Question * count).from_buffer_copy(before)
                self.assertEqual(gatekeeper.views(scheme, damaged, questions), answer)
                self.assertEqual(bytes(questions), before)
        self.assertEqual(gatekeeper.views(SCHEME, network, lent_questions([])), 0)

    def test_what_questions_can_be_lent(self):
        network, size = fresh_network(), ctypes.sizeof(gatekeeper.Question)
        for questions in (gatekeeper.Question(), lent_questions([(0, 0, 0)]), memoryview(lent_questions([(0, 0, 0)] * 2))[1:],
                          (gatekeeper.Question * 1).from_buffer(bytearray(size))):
            self.assertEqual(gatekeeper.views(SCHEME, network, questions), 0)
            self.assertEqual(memoryview(questions).tobytes()[gatekeeper.Question.answer.offset], 11)
        for questions in ([], [gatekeeper.Question()], None, bytes(size), bytearray(size), array('Q', 4 * [0]),
                          (PackedQuestion * 1)(), (QuestionOfOtherNames * 1)(),
                          memoryview(lent_questions([(0, 0, 0)])).toreadonly(), memoryview(lent_questions([(0, 0, 0)] * 3))[::2],
                          (gatekeeper.Question * 1).from_buffer(bytearray(size + 1), 1)):
            self.refused(gatekeeper.views, SCHEME, network, questions)

    def test_groups(self):
        """1 has the friends 0, 2 and 3, and 3 has 0 too. A sixth record says who is a group."""
        policies = [(0, 0, 0, 0), (1, 0, 0, 0), (4, 1, 0, 0), (3, 2, 0, 0)]
        for groups, known, members in ((None, True, [2]), ([], True, [2]), ([1], False, []), ([0, 2, 3], True, [2])):
            scheme = ref.build_scheme((4, 2, 1, 2, 4), {}, {1}, policies, [3, 2, 2, 4, 8], groups)
            network = bytearray(gatekeeper.network_length(scheme))
            self.assertEqual(gatekeeper.fresh(scheme, network), 0)
            for u in (0, 2):
                self.assertEqual(gatekeeper.set(scheme, network, u, 0, 1), 0)
            for i, j in ((0, 1), (1, 2), (1, 3), (0, 3)):
                network[ref.pair_place(i, j)] = 1
            self.assertEqual(gatekeeper.view(scheme, network, 2, 0, 0), 0 if known else 11)
            self.assertEqual(gatekeeper.view(scheme, network, 2, 0, 1), 0)
            self.assertEqual((gatekeeper.view(scheme, network, 1, 0, 0), gatekeeper.degree(scheme, network, 2, 0)), (0, (0, 2)))
            output = array('H', 4 * [9])
            self.assertEqual(gatekeeper.suggest(scheme, network, 0, 4, output), (0, len(members)))
            self.assertEqual(output.tolist(), members + [9] * (4 - len(members)))

    def test_sixth_record(self):
        sixth = ref.groups_record(4, [3])
        for more, answer in ((sixth, 0), (sixth[:-1], 1), (sixth[:1], 1), (ref.record(7, sixth[4:]), 1), (sixth + b'\0', 1),
                             (sixth[:-1] + b'\2', 3)):
            self.assertEqual(gatekeeper.check(SCHEME + more), answer)
            self.assertEqual(gatekeeper.network_length(SCHEME + more), 0 if answer else 42)

    def test_what_cannot_be_lent(self):
        network = fresh_network()
        self.refused(gatekeeper.check, 'text')
        self.refused(gatekeeper.check, (ctypes.c_uint16 * 4)())
        self.refused(gatekeeper.fresh, SCHEME, bytes(42))
        self.refused(gatekeeper.event, SCHEME, bytes(42), 0, 1, 0)
        self.refused(gatekeeper.find, SCHEME, memoryview(network)[::2], 0, 0)

    def test_numbers(self):
        network = fresh_network()
        self.assertEqual(gatekeeper.find(SCHEME, network, 2 ** 64 - 1, 0), 6)
        for number in (-1, 2 ** 64, 1.0, '1', None):
            self.refused(gatekeeper.find, SCHEME, network, number, 0)
            self.refused(gatekeeper.degree, SCHEME, network, 0, number)
            self.refused(gatekeeper.suggest, SCHEME, network, number, 0, array('H'))
            self.refused(gatekeeper.suggest, SCHEME, network, 0, number, array('H'))
            for place in range(4):
                self.refused(gatekeeper.Question, *[number if i == place else 0 for i in range(4)])
        question = gatekeeper.Question(2 ** 64 - 1, 2 ** 64 - 1, 2 ** 64 - 1, 255)
        self.assertEqual(fields([question]), [(2 ** 64 - 1, 2 ** 64 - 1, 2 ** 64 - 1, 255)])
        self.refused(setattr, question, 'viewer', 2 ** 64)
        self.refused(setattr, question, 'answer', 256)
        with self.assertRaises(RuntimeError):           # so ctypes tells the error of an element
            lent_questions([(0, 2 ** 64, 0)])
        with self.assertRaises(AttributeError):
            question.member = 0

    def test_overlap(self):
        """What is only read may be the same; what is written may not."""
        for same in (SCHEME, bytearray(SCHEME), array('B', SCHEME)):
            self.assertEqual(gatekeeper.find(same, same, 0, 0), 5)
            self.assertEqual(gatekeeper.view(same, same, 0, 0, 0), 5)
            self.assertEqual(gatekeeper.degree(same, same, 0, 0), (5, None))
            self.assertEqual(gatekeeper.list(same, same, 0, 0, array('H', 4 * [0])), (5, None))
            self.assertEqual(gatekeeper.suggest(same, same, 0, 0, array('H')), (5, None))
            self.assertEqual(gatekeeper.views(same, same, lent_questions([(0, 0, 0)])), 5)
        network = fresh_network()
        self.refused(gatekeeper.fresh, network, network)
        self.refused(gatekeeper.set, network, network, 0, 0, 0)
        self.refused(gatekeeper.list, SCHEME, network, 0, 0, memoryview(network)[2:12].cast('H'))
        self.refused(gatekeeper.suggest, SCHEME, network, 0, 0, memoryview(network)[2:12].cast('H'))
        questions = lent_questions([(0, 0, 0)])
        same = (ctypes.c_ubyte * ctypes.sizeof(questions)).from_buffer(questions)
        self.refused(gatekeeper.views, SCHEME, same, questions)
        self.refused(gatekeeper.views, memoryview(same)[-1:], network, questions)

    def test_nothing_stays_locked(self):
        """After a call and after an error, which is kept, what was lent can be resized."""
        def tried(call, *arguments):
            try:
                call(*arguments)
            except ValueError as error:
                return error

        kept = []
        for bad in (False, True):
            for call, *numbers in (('event', 0, 1, 0), ('set', 0, 0, 8), ('find', 0, 0), ('degree', 0, 0), ('view', 0, 0, 0),
                                   ('fresh',)):
                for lent in ((bytearray(SCHEME), fresh_network()), (bytearray(SCHEME), memoryview(bytes(84))[::2])):
                    bad_numbers = numbers[:-1] + [-1] if bad and numbers else numbers
                    kept.append(tried(getattr(gatekeeper, call), *lent, *bad_numbers))
                    for part in lent:
                        if isinstance(part, bytearray):
                            part.append(0)
        for call in (gatekeeper.list, gatekeeper.suggest):
            for output in (array('H', 4 * [0]), array('I', 4 * [0])):
                scheme, network = bytearray(SCHEME), fresh_network()
                kept.append(tried(call, scheme, network, 0, 0, output))
                for part in (scheme, network, output):
                    part.append(0)
        for questions in (lent_questions([(0, 0, 0)]), (PackedQuestion * 1)()):
            scheme, network = bytearray(SCHEME), fresh_network()
            with memoryview(questions) as lent:
                kept.append(tried(gatekeeper.views, scheme, network, lent))
            for part in (scheme, network):
                part.append(0)
        odd = bytearray(9)
        with memoryview(odd)[1:].cast('H') as output:
            kept.append(tried(gatekeeper.list, SCHEME, fresh_network(), 0, 0, output))
        odd.append(0)
        both = fresh_network()
        kept.append(tried(gatekeeper.fresh, both, both))
        both.append(0)
        self.assertGreater(sum(error is not None for error in kept), 10)


class Module(unittest.TestCase):
    def test_missing_library(self):
        result = subprocess.run([sys.executable, '-c', 'import gatekeeper'], cwd=LIBRARY, stderr=subprocess.PIPE, text=True,
                                env={**os.environ, 'GATEKEEPER_LIBRARY': '/nowhere/libgatekeeper.so'})
        self.assertRegex(result.stderr, r'\nImportError: /nowhere/libgatekeeper\.so: .*; library/build builds it\n$')

    def test_all_names(self):
        names = {}
        exec('from gatekeeper import *', names)
        del names['__builtins__']
        self.assertEqual(names.keys() & vars(builtins).keys(), set())
        self.assertEqual(names.keys(), CALLS - {'set', 'list'} | {'Answer', 'Question'})
        self.assertTrue(all(callable(getattr(gatekeeper, call)) for call in CALLS))

    def test_numbers_are_those_of_the_header(self):
        def found(name, pattern):
            with open(os.path.join(LIBRARY, name)) as file:
                return [(word, int(number)) for word, number in re.findall(pattern, file.read())]

        answers = [(answer.name, answer.value) for answer in gatekeeper.Answer]
        self.assertEqual([number for _, number in answers], [*range(14)])
        self.assertEqual(found('gatekeeper.h', r'GATEKEEPER_(\w+) = (\d+)'), answers)
        self.assertEqual(found('gatekeeper.rs', r'const (\w+): u8 = (\d+);'), answers)
        none = [('DEGREE_NONE', gatekeeper._DEGREE_NONE)]
        self.assertEqual(found('gatekeeper.h', r'#define GATEKEEPER_(\w+) (\d+)'), none)
        self.assertEqual(found('gatekeeper.rs', r'const (\w+): u16 = (\d+);'), none)


if __name__ == '__main__':
    unittest.main()
