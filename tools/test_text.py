#!/usr/bin/env python3
"""Tests of the texts of schemes and logs: python3 tools/test_text.py"""
import os
import random
import re
import resource
import shutil
import subprocess
import sys
import tempfile
import time
import unittest
from collections import Counter
from unittest import mock

sys.dont_write_bytecode = True      # no __pycache__ in the repository
import reference as ref
from cases import changed, parts
from log_text import log_text, parse_log, read_log
from scheme_faults import examine
from scheme_text import numbered_names, parse_scheme, scheme_text
from text_lines import BadText, LONGEST
import text as commands

TOOLS = os.path.dirname(os.path.abspath(__file__))
EXAMPLES = os.path.join(TOOLS, '..', 'examples')
REFERENCE = os.path.join(TOOLS, 'log_reference.py')


def content(*names):
    with open(os.path.join(*names), 'rb') as file:
        return file.read()


def stored(program):
    """Pairs of the first two parts of a program's cases."""
    both = list(parts(content(TOOLS, '..', 'crates', program, 'stdin')))
    return list(zip(both[0::2], both[1::2]))


def known_names(scheme):
    read = examine(scheme).scheme
    return numbered_names(read.counts if read else ref.LIMITS)


class Schemes(unittest.TestCase):
    def there_and_back(self, scheme):
        """Compares the two checks, and the bytes that come back where there is a text; the check's answer."""
        examined = examine(scheme)
        self.assertEqual(examined.answer, ref.check(scheme))
        self.assertEqual(examined.faults == [], examined.answer == 0)
        self.assertTrue(all(at <= len(scheme) and what for at, what in examined.faults))
        self.assertEqual(examined.scheme is None, examined.answer in (1, 2, 3))
        if examined.scheme:
            names = numbered_names(examined.scheme.counts)
            text = scheme_text(examined.scheme, names)
            self.assertEqual(parse_scheme('scheme.txt', text.encode()), (names, scheme), text)
        return examined.answer

    def test_stored_cases(self):
        schemes = {scheme for program in ('check_cases', 'log_cases') for scheme, _ in stored(program)}
        answers = Counter(map(self.there_and_back, schemes))
        self.assertTrue(all(answers[answer] >= 20 for answer in range(5)), answers)

    def test_one_byte_changed(self):
        told = [*range(14, 46), *range(50, 54), *range(154, 158)]       # moves, marks and groups of the standard scheme
        for scheme, alone in ((ref.standard_scheme(4, [1, 3]), told), (content(EXAMPLES, 'staged', 'scheme'), [])):
            for at in range(len(scheme)):
                for value in (0, 1, 2, 4, 13, 254, 255):
                    damaged = changed(scheme, at, value)
                    answer = self.there_and_back(damaged)
                    if answer == 3 and at in alone:
                        self.assertEqual([place for place, _ in examine(damaged).faults], [at])

    def test_every_cut(self):
        scheme = ref.standard_scheme(4, [1])
        answers = [self.there_and_back(scheme[:size]) for size in range(len(scheme) + 1)]
        self.assertEqual([size for size, answer in enumerate(answers) if answer != 1], [150, 158])
        self.assertEqual(answers[150] + answers[158], 0)

    def test_groups(self):
        """No sixth record, one of persons alone, and ones with groups: each has a text of its own."""
        for members, groups, line in ((4, None, None), (4, [], 'groups:'), (4, [2], 'groups: 2'), (4, range(4), 'groups: 0 1 2 3'),
                                      (1, [0], 'groups: 0'), (256, [255, 0], 'groups: 0 255'),
                                      (256, range(256), 'groups: ' + ' '.join(map(str, range(256))))):
            scheme = ref.standard_scheme(members, groups)
            self.assertEqual(self.there_and_back(scheme), 0)
            text = scheme_text(examine(scheme).scheme, known_names(scheme)).split('\n')
            self.assertEqual([told for told in text if told.startswith('groups')], [line] if line else [])

    def test_order_of_groups(self):
        """The members of a groups line may stand in any order, and the line anywhere."""
        text = content(EXAMPLES, 'standard', 'scheme.txt').decode()
        for line in ('groups: 3 0', 'groups:0  03 # a comment'):
            for given in (line + '\n' + text, text + line):
                self.assertEqual(parse_scheme('S', given.encode())[1], ref.standard_scheme(4, [0, 3]))

    def test_arbitrary_bytes(self):
        rng = random.Random('arbitrary bytes')
        for _ in range(300):
            self.there_and_back(ref.standard_scheme(3, [2])[:rng.randrange(158)] + rng.randbytes(rng.randrange(200)))

    def test_faults_name_the_byte(self):
        scheme = ref.standard_scheme(4)
        policy, mask = 58, 114          # where policy 0 and search's mask stand
        for at, value, told in (
                (0, 7, (0, 'record 1 (head) gives its body 7 bytes, and it has 6')),
                (2, 9, (2, 'record 1 (head) has kind 9')),
                (5, 2, (4, 'record 1 (head): members are 1 to 256, and not 516')),
                (9, 33, (9, 'record 1 (head): policies are 1 to 32, and not 33')),
                (12, 3, (12, 'record 2 (moves) has kind 3')),
                (14, 4, (14, 'record 2 (moves): the next state for state 0, lesser, primitive 0 is 4, and there are 4 states')),
                (50, 1, (50, 'record 3 (friends): state 0, the start, makes friends')),
                (52, 7, (52, 'record 3 (friends): the mark of state 2 is 0 or 1, and not 7')),
                (policy, 9, (policy, 'record 4 (policies): policy 0 has kind 9, and kinds are 0 to 8')),
                (policy + 9, 0, (policy + 9, 'record 4 (policies): policy 2 of kind 3 has k 0, and k is 1 to 255')),
                (policy + 4 * 5 + 3, 1, (policy + 23, 'record 4 (policies): policy 5 names state 8, and there are 4 states')),
                (policy + 4 * 7 + 2, 7,
                 (policy + 30, 'record 4 (policies): policy 7 names policy 7, which does not stand before it')),
                (mask + 4, 0, (mask + 4, 'record 5 (masks): resource 1 offers no policy')),
                (mask + 3, 1, (mask + 3, 'record 5 (masks): resource 0 offers policy 24, and there are 13')),
                (mask, 16, (mask, 'record 5 (masks): the lowest policy for search, 4, admits strangers')),
                (mask + 1, 16, (mask, 'record 5 (masks): the lowest policy for search, 12, admits strangers'))):
            self.assertEqual(examine(changed(scheme, at, value)).faults, [told], (at, value))
        sixth = ref.groups_record(4, [1])
        cut = 'record 6 (groups) is cut: its '
        for more, told in ((b'ab', (152, cut + 'head has 4 bytes, and 2 are there')),
                           (sixth[:4], (154, cut + 'body has 4 bytes, and 0 are there')),
                           (sixth[:7], (157, cut + 'body has 4 bytes, and 3 are there')),
                           (ref.record(7, sixth[4:]), (152, 'record 6 (groups) has kind 7')),
                           (ref.record(5, scheme[114:]), (150, 'record 6 (groups) gives its body 36 bytes, and it has 4')),
                           (ref.record(6, b'\0' * 3), (150, 'record 6 (groups) gives its body 3 bytes, and it has 4')),
                           (ref.record(6, b'\0' * 5), (150, 'record 6 (groups) gives its body 5 bytes, and it has 4')),
                           (changed(sixth, 1, 1), (150, 'record 6 (groups) gives its body 260 bytes, and it has 4')),
                           (sixth + b'\0', (158, 'bytes follow the sixth record')),
                           (sixth + sixth, (158, 'bytes follow the sixth record')),
                           (changed(sixth, 6, 2), (156, 'record 6 (groups): the byte of member 2 is 0 or 1, and not 2'))):
            self.assertEqual(examine(scheme + more).faults, [told])
        off = changed(changed(sixth, 7, 255), 4, 128)
        self.assertEqual([at for at, _ in examine(changed(scheme, 14, 4) + off).faults], [14, 154, 157])
        for size, told in ((120, 'record 5 (masks) is cut: its body has 36 bytes, and 6 are there'),
                           (114, 'record 5 (masks) is cut: its body has 36 bytes, and 0 are there'),
                           (113, 'record 5 (masks) is cut: its head has 4 bytes, and 3 are there')):
            self.assertEqual(examine(scheme[:size]).faults, [(size, told)])


class Logs(unittest.TestCase):
    def test_stored_cases(self):
        whole = 0
        for scheme, log in stored('log_cases'):
            names = known_names(scheme)
            text = log_text(log, names)
            self.assertEqual(parse_log('requests.txt', text.encode(), names), log)
            whole += 'bytes' not in text
        self.assertGreater(whole, 100)
        self.assertGreater(len(stored('log_cases')) - whole, 100)

    def test_arbitrary_bytes(self):
        rng = random.Random('arbitrary bytes')
        names = known_names(ref.standard_scheme(4))
        for size in range(300):
            log = rng.randbytes(size)
            self.assertEqual(parse_log('requests.txt', log_text(log, names).encode(), names), log)

    def test_names_and_numbers(self):
        names, _ = parse_scheme('scheme.txt', content(EXAMPLES, 'standard', 'scheme.txt'))
        text = (b'event 300 1 accept\nset 1 traversal only-me\nset 1 recipe 255 # none\n\nset 2 9 13\nset 2 invite everyone\r\n'
                b'find 65535 0\nlist 1 2\nview 0 007 pull-tests\nview 0 1 3\n')
        log = parse_log('requests.txt', text, names)
        requests = [('event', 300, 1, 1), ('set', 1, 1, 1), ('set', 1, 7, 255), ('set', 2, 9, 13), ('set', 2, 2, 4),
                    ('find', 65535, 0), ('list', 1, 2), ('view', 0, 7, 2), ('view', 0, 1, 3)]
        self.assertEqual(read_log(log), (requests, len(log)))
        self.assertEqual(log_text(log, names).split('\n')[:4],
                         ['event 300 1 accept', 'set 1 traversal only-me', 'set 1 recipe 255', 'set 2 9 13'])

    def test_damage_is_told(self):
        names = known_names(ref.standard_scheme(4))
        find = bytes((4, 0, 18, 0, 1, 0, 2, 0))
        for record, told in ((b'\4\0\x12', 'the record is cut: its head has 4 bytes, and 3 are there'),
                             (find[:4], 'the record is cut: the body of find has 4 bytes, and 0 are there'),
                             (find[:6], 'the record is cut: the body of find has 4 bytes, and 2 are there'),
                             (changed(find, 2, 21), 'kind 21 is none of 16 to 20'),
                             (changed(find, 0, 5), 'the body of find has 4 bytes, and the record says 5')):
            self.assertEqual(log_text(find + record, names).split('\n')[:2],
                             ['find 1 2', '# record 2, at byte 8, is answered 14: ' + told])


class Faults(unittest.TestCase):
    """What is said of bad texts: each an edit of the standard example, and the faults as (line, sentence)."""

    def faults(self, parse):
        with self.assertRaises(BadText) as raised:
            parse()
        return str(raised.exception).split('\n')

    def test_schemes(self):
        text = content(EXAMPLES, 'standard', 'scheme.txt').decode()
        for old, new, told in SCHEME_FAULTS:
            self.assertEqual(text.count(old), 1, old)
            line = text[:text.index(old)].count('\n') + 1
            given = text.replace(old, new).encode('latin-1')
            wanted = ['S:%s %s' % ('' if place is None else '%d:' % (line + place), what) for place, what in told]
            self.assertEqual(self.faults(lambda: parse_scheme('S', given)), wanted)

    def test_logs(self):
        names, _ = parse_scheme('S', content(EXAMPLES, 'standard', 'scheme.txt'))
        for line, told in LOG_FAULTS:
            given = ('find 0 1\n# comment\n%s\nfind 0 x\n' % line).encode()
            self.assertEqual(self.faults(lambda: parse_log('L', given, names)),
                             ['L:3: ' + told, "L:4: a member's number is a number, and 'x' is none"])

    def test_line_ends_and_byte_order_marks(self):
        text, log = content(EXAMPLES, 'standard', 'scheme.txt'), content(EXAMPLES, 'standard', 'requests.txt')
        names, scheme = parse_scheme('S', text)
        for given in (text.replace(b'\n', b'\r\n'), b'\xef\xbb\xbf' + text):
            self.assertEqual(parse_scheme('S', given), (names, scheme))
        for given in (log.replace(b'\n', b'\r\n'), b'\xef\xbb\xbf' + log):
            self.assertEqual(parse_log('L', given, names), content(EXAMPLES, 'standard', 'requests'))
        for order in ('utf-16-le', 'utf-16-be'):
            given = ('\ufeff' + text.decode()).encode(order)
            self.assertEqual(self.faults(lambda: parse_scheme('S', given)),
                             ['S: its byte order mark is that of UTF-16, and texts are UTF-8'])
        self.assertEqual(self.faults(lambda: parse_log('L', b'# one\rfind 0 1\rfind 1 0\r', names)),
                         ['L:1: byte 6 of the line is a carriage return, which stands at ends of lines alone'])

    def test_default_follows_the_definitions(self):
        text = content(EXAMPLES, 'standard', 'scheme.txt').decode()
        one, other = 'policy no-one: no one\n', 'policy everyone: everyone\n'
        offered = 'item recipe: no-one only-me only-friends friends-of-friends everyone\n'
        self.assertTrue(all(text.count(line) == 1 for line in (one, other, offered)))
        listed = text.replace(offered, 'item recipe: everyone friends-of-friends only-me only-friends no-one\n')
        self.assertEqual(parse_scheme('S', listed.encode()), parse_scheme('S', text.encode()))
        defined = text.replace(other, '').replace(one, other + one)
        for given, default in ((listed, 'no-one'), (defined, 'everyone')):
            names, scheme = parse_scheme('S', given.encode())
            self.assertEqual(names.policies[ref.lowest(examine(scheme).scheme.masks[-2])], default)

    def test_names_in_linear_time(self):
        for lines in MANY_NAMES:
            def seconds(count):
                names = ['n%d' % i for i in range(count)]
                text = ''.join(line.replace('ALL', ' '.join(names)) + '\n' for line in lines if 'EACH' not in line)
                text += ''.join(line.replace('EACH', name) + '\n' for line in lines if 'EACH' in line for name in names)
                begun = time.process_time()
                self.faults(lambda: parse_scheme('S', text.encode()))
                return time.process_time() - begun

            few, many = min(seconds(2000), seconds(2000)), seconds(20000)
            self.assertLess(many, 30 * few, lines)      # 10 times the names

    def test_edited_schemes(self):
        """Words exchanged at random: a text has faults, or its bytes pass answers 1 to 3."""
        rng = random.Random('edited schemes')
        words = content(EXAMPLES, 'staged', 'scheme.txt').split(b' ')
        answers = Counter()
        for _ in range(400):
            edited = list(words)
            edited[rng.randrange(len(words))] = rng.choice(words)
            try:
                answers[ref.check(parse_scheme('S', b' '.join(edited))[1])] += 1
            except BadText:
                answers['bad'] += 1
        self.assertLessEqual(answers.keys(), {0, 4, 'bad'})
        self.assertGreater(min(answers[0], answers['bad']), 50)

    def test_empty_scheme(self):
        keys = ['members: ..', 'states: ..', 'friends: ..', 'primitives: ..', 'items: ..', 'policy NAME: ..', 'search: ..',
                'traversal: ..']
        self.assertEqual(self.faults(lambda: parse_scheme('S', b'# nothing\n')),
                         sorted("S: there is no line '%s'" % key for key in keys))


POLICY_FORMS = ("a policy is 'no one', 'everyone', 'owner', 'within K', 'known K', 'clique K', 'both P Q', 'either P Q' or "
                "'state {STATE ..}' with or without 'owner-lower' or 'owner-higher'")
INVITED = 'policy invited: either invited-the-greater invited-the-lesser'
ITEMS = 'items: site-card recipe pull-tests'
MOVE = 'move: stranger, lesser, invite -> invited-1'
FRIENDS = 'policy only-friends: within 1'
ACCEPT = 'primitive accept: everyone'

# lines of too many names: ALL stands for all of them, EACH for one a line
MANY_NAMES = [('states: ALL',), ('states: ALL', 'friends: ALL'), ('states: ALL', 'policy p: state {ALL}'),
              ('members: 4', 'groups: ALL'), ('primitives: ALL', 'items: ALL'), ('primitives: ALL', 'primitive EACH: p'),
              ('policy EACH: no one', 'search: ALL'), ('policy EACH: both n0 EACH',),
              ('states: ALL', 'primitives: n0', 'move: EACH, lesser, n0 -> EACH'),
              ('move: ,ALL', 'move: ->ALL')]

# what is replaced in the standard example, by what, and the faults: lines counted from that of the change, None for no line
SCHEME_FAULTS = [
    ('members: 4', 'members: 257', [(0, 'members is 1 to 256, and not 257')]),
    ('members: 4', 'members: 0', [(0, 'members is 1 to 256, and not 0')]),
    ('members: 4', 'members: four', [(0, "members is a number, and 'four' is none")]),
    ('members: 4', 'members: ' + '9' * 5000, [(0, 'members is 1 to 256, and not %s..' % ('9' * LONGEST))]),
    ('members: 4', 'members: \x1b[2J', [(0, "members is a number, and '\\x1b[2J' is none")]),
    ('members: 4', '', [(None, "there is no line 'members: ..'")]),
    ('members: 4', 'members: 4\nmembers: 5', [(1, "'members' stands in line 3 already")]),
    ('members: 4', 'people: 4', [(None, "there is no line 'members: ..'"),
                                 (0, "unknown key 'people'; the keys are members, states, friends, primitives, items, groups, "
                                     "move, policy NAME, search, traversal, primitive NAME and item NAME")]),
    ('members: 4', 'members 4', [(None, "there is no line 'members: ..'"), (0, "a line is 'KEY: VALUE'")]),
    ('members: 4', 'members: 4 \xff', [(None, "there is no line 'members: ..'"),
                                       (0, 'byte 12 of the line is not UTF-8 text')]),
    ('members: 4', 'members: 4\ngroups: 4', [(1, "a member's number is 0 to 3, and not 4")]),
    ('members: 4', 'members: 4\ngroups: 0 x 1', [(1, "a member's number is a number, and 'x' is none")]),
    ('members: 4', 'members: 4\ngroups: 0, 1', [(1, "a member's number is a number, and '0,' is none")]),
    ('members: 4', 'members: 4\ngroups: 3 1 03', [(1, 'the member 3 is named twice')]),
    ('members: 4', 'members: 4\ngroups: 3\ngroups:', [(2, "'groups' stands in line 4 already")]),
    ('members: 4', 'members: 4\ngroups 3', [(1, "a line is 'KEY: VALUE'")]),
    ('members: 4', 'members: 257\ngroups: 255 256', [(0, 'members is 1 to 256, and not 257'),
                                                     (1, "a member's number is 0 to 255, and not 256")]),
    ('members: 4', 'groups: 256', [(None, "there is no line 'members: ..'"), (0, "a member's number is 0 to 255, and not 256")]),
    ('friends: friend', 'friends: frend', [(0, "there is no state 'frend'")]),
    ('friends: friend', 'friends: friend friend', [(0, "the state 'friend' is named twice")]),
    (ITEMS, ITEMS + ' recipe', [(0, "the item 'recipe' is defined twice")]),
    (ITEMS, ITEMS + ' 4th', [(0, "'4th' is no name: a letter, then letters, digits, - and _")]),
    (ITEMS, ITEMS + ' \x07' + 99 * 'x', [(0, "'\\x07%s..' is no name: a letter, then letters, digits, - and _" % (79 * 'x'))]),
    (ITEMS, ITEMS + ' ' + 5000 * 'x', [(None, "there is no line 'item %s..: ..'" % (75 * 'x'))]),
    (ITEMS, ITEMS + ' more', [(None, "there is no line 'item more: ..'")]),
    (ITEMS, ITEMS + ' accept', [(None, "there is no line 'item accept: ..'"),
                                (0, "search, traversal, primitives and items have different names, and two are 'accept'")]),
    (ITEMS, 'items:', [(0, 'there is at least one item'), (34, "there is no item 'site-card'"),
                       (35, "there is no item 'recipe'"), (36, "there is no item 'pull-tests'")]),
    ('primitives: invite accept ignore remove', 'primitives: invite accept ignore remove e f g h i',
     [(None, "there is no line 'primitive %s: ..'" % name) for name in 'efghi'] + [(0, 'there are more than 8 primitives')]),
    (MOVE, 'move: stranger, left, invite -> invited-1', [(0, "a side is lesser or greater, and not 'left'")]),
    (MOVE, 'move: stranger lesser invite -> invited-1', [(0, "a move is 'STATE, lesser or greater, PRIMITIVE -> STATE'")]),
    (MOVE, 'move: stranger, lesser, poke -> invited-1', [(0, "there is no primitive 'poke'")]),
    (MOVE, 'move: stranger, lesser, invite -> enemy', [(0, "there is no state 'enemy'")]),
    (MOVE, MOVE + '\nmove: stranger, lesser, invite -> friend',
     [(1, 'the move of stranger, lesser, invite stands in line 9 already')]),
    (FRIENDS, 'policy only-friends: within 0', [(0, "the number of 'within' is 1 to 255, and not 0")]),
    (FRIENDS, 'policy only-friends: known 256', [(0, "the number of 'known' is 1 to 255, and not 256")]),
    (FRIENDS, 'policy only-friends: clique 6', [(0, "the number of 'clique' is 2 to 5, and not 6")]),
    (FRIENDS, 'policy only-friends: near 1', [(0, POLICY_FORMS)]),
    (FRIENDS, 'policy only-friends: state {stranger, friend}', [(0, "there is no state 'stranger,'")]),
    (FRIENDS, 'policy only-friends: state {friend} lower', [(0, POLICY_FORMS)]),
    (FRIENDS, 'policy only-friends: state {friend stranger friend}', [(0, "the state 'friend' is named twice")]),
    (INVITED, 'policy invited: both invited everyone', [(0, "'invited' names 'invited', which does not stand before it")]),
    (INVITED, 'policy invited: both everyone no-one-or-invited',
     [(0, "'invited' names 'no-one-or-invited', which does not stand before it")]),
    (INVITED, INVITED.replace('lesser', 'least'), [(0, "there is no policy 'invited-the-least'")]),
    (INVITED, 'policy 1st: either 2nd everyone\n' + INVITED,
     [(0, "'1st' is no name: a letter, then letters, digits, - and _"), (0, "there is no policy '2nd'")]),
    (INVITED, INVITED + '\n' + INVITED, [(1, "the policy 'invited' is defined twice")]),
    (ACCEPT, '', [(None, "there is no line 'primitive accept: ..'")]),
    (ACCEPT, 'primitive accept:', [(0, "'primitive accept' offers no policy")]),
    (ACCEPT, 'primitive accept: anyone', [(0, "there is no policy 'anyone'")]),
    (ACCEPT, 'primitive accept: everyone no-one everyone', [(0, "the policy 'everyone' is named twice")]),
    (ACCEPT, ACCEPT + '\nprimitive poke: everyone', [(1, "there is no primitive 'poke'")]),
    (ACCEPT, ACCEPT + '\n' + ACCEPT, [(1, "'primitive accept' stands in line 38 already")]),
]

LOG_FAULTS = [
    ('event 0 1 poke', "there is no primitive 'poke'"),
    ('event 0 1', "'event' has 3 arguments (member, member, primitive), and not 2"),
    ('event 0 65536 accept', "a member's number is 0 to 65535, and not 65536"),
    ('set 0 search someone', "there is no policy 'someone'"),
    ('set 0 walk everyone', "there is no resource 'walk'"),
    ('set 0 256 everyone', "a resource's number is 0 to 255, and not 256"),
    ('view 0 1 accept', "there is no item 'accept'"),
    ('view zero 1 recipe', "a member's number is a number, and 'zero' is none"),
    ('look 0 1', "'look' is no request; requests are event, set, find, list, view, and bytes"),
    ('bytes 00 1', "a byte is two digits of base 16, and not '1'"),
    ('bytes 00 0x12', "a byte is two digits of base 16, and not '0x12'"),
    ('bytes ' + 5000 * '\0', "a byte is two digits of base 16, and not '%s..'" % (LONGEST * '\\x00')),
    ('\x9b31m 0 1', "'\\x9b31m' is no request; requests are event, set, find, list, view, and bytes"),
    ('event 0 1 \u202epoke', "there is no primitive '\\u202epoke'"),
]


class Examples(unittest.TestCase):
    def test_examples(self):
        for name in ('consent', 'groups', 'staged', 'standard'):
            folder = os.path.join(EXAMPLES, name)
            names, scheme = parse_scheme('scheme.txt', content(folder, 'scheme.txt'))
            log = parse_log('requests.txt', content(folder, 'requests.txt'), names)
            self.assertEqual((scheme, log), (content(folder, 'scheme'), content(folder, 'requests')))
            self.assertEqual(ref.check(scheme), 0)
            self.assertEqual(content(folder, 'answers').decode().splitlines(), ref.run(scheme, log))
            again = scheme_text(examine(scheme).scheme, names), log_text(log, names)
            self.assertEqual(parse_scheme('', again[0].encode()), (names, scheme))
            self.assertEqual(parse_log('', again[1].encode(), names), log)

    def test_groups(self):
        """Without the sixth record the marked requests are granted, and all else is answered alike."""
        text = content(EXAMPLES, 'groups', 'requests.txt').decode().split('\n')
        requests = [line for line in text if line.split('#')[0].strip()]
        marked = [place for place, line in enumerate(requests, 1) if '# *' in line]
        log = content(EXAMPLES, 'groups', 'requests')
        given = content(EXAMPLES, 'groups', 'scheme.txt')
        self.assertEqual(given.count(b'\ngroups: 6 7 '), 1)
        persons = parse_scheme('S', given.replace(b'groups: 6 7 ', b'groups:'))[1]
        bare = parse_scheme('S', re.sub(b'groups: .*\n', b'', given))[1]
        with_groups, without = ref.run(content(EXAMPLES, 'groups', 'scheme'), log), ref.run(bare, log)
        self.assertEqual(ref.run(persons, log), without)
        self.assertEqual([pair for pair in zip(with_groups, without) if pair[0] != pair[1]],
                         [('%d 11' % place, '%d 0' % place) for place in marked])
        self.assertGreater(len(marked), 5)

    def test_consent(self):
        """Each list has the friends that the requests and answers before it make. All four primitives are granted, invites and
        accepts also refused."""
        self.assertEqual(content(EXAMPLES, 'consent', 'scheme'), ref.standard_scheme(3))
        requests = read_log(content(EXAMPLES, 'consent', 'requests'))[0]
        lines = [[int(word) for word in line.split()] for line in content(EXAMPLES, 'consent', 'answers').decode().splitlines()]
        self.assertEqual(len(lines), len(requests))
        answered, lengths, events = [], set(), set()
        for request, (place, answer, *friends) in zip(requests, lines):
            if request[0] == 'list':
                by_consent = [m for m in range(3) if ref.friends_by_consent(answered, request[2], m)]
                self.assertEqual((answer, friends), (0, by_consent), place)
                lengths.add(len(friends))
            elif request[0] == 'event':
                events.add((request[3], answer))
            answered.append((request, answer))
        self.assertEqual(lengths, {0, 1, 2})
        self.assertEqual(events, {(a, 0) for a in range(4)} | {(ref.INVITE, 10), (ref.ACCEPT, 10)})

    def test_standard(self):
        self.assertEqual(content(EXAMPLES, 'standard', 'scheme'), ref.standard_scheme(4))
        self.assertEqual(read_log(content(EXAMPLES, 'standard', 'requests'))[0], [ref.parsed(text) for text, _ in ref.SESSION])
        self.assertEqual(content(EXAMPLES, 'standard', 'answers').decode().splitlines(), [line for _, line in ref.SESSION])


class Commands(unittest.TestCase):
    def setUp(self):
        self.folder = tempfile.mkdtemp()
        self.addCleanup(shutil.rmtree, self.folder)
        for name in ('scheme.txt', 'requests.txt'):
            shutil.copy(os.path.join(EXAMPLES, 'standard', name), self.folder)

    def command(self, *words, status=0, stdout=subprocess.PIPE, before=(), file_size=resource.RLIM_INFINITY):
        """What a command prints, or says where it fails."""
        def limit():
            resource.setrlimit(resource.RLIMIT_AS, (2 ** 30, 2 ** 30))      # endless files end there
            resource.setrlimit(resource.RLIMIT_FSIZE, (file_size, file_size))

        buffered = {name: value for name, value in os.environ.items() if name != 'PYTHONUNBUFFERED'}
        result = subprocess.run([*before, sys.executable, os.path.join(TOOLS, 'text.py'), *words], stdout=stdout, text=True,
                                stderr=subprocess.PIPE, cwd=self.folder, env=buffered, preexec_fn=limit, timeout=120)
        self.assertEqual(result.returncode, status, result.stderr)
        self.assertNotRegex(result.stderr, 'Traceback|Exception')
        return result.stderr if status else result.stdout

    def put(self, name, data, executable=False):
        path = os.path.join(self.folder, name)
        with open(path, 'wb') as file:
            file.write(data)
        os.chmod(path, 0o755 if executable else 0o644)

    def test_write_and_read(self):
        self.command('write', '.')
        self.assertEqual(content(self.folder, 'scheme'), ref.standard_scheme(4))
        self.assertIn('scheme.txt is there already', self.command('read', '.', status=1))
        before = content(self.folder, 'scheme'), content(self.folder, 'requests')
        self.command('read', '--replace', '.')
        self.assertIn(b'policy policy-8: either policy-0 policy-7\n', content(self.folder, 'scheme.txt'))
        self.assertIn(b'set 1 primitive-0 policy-4\n', content(self.folder, 'requests.txt'))
        self.command('write', '.')
        self.assertEqual((content(self.folder, 'scheme'), content(self.folder, 'requests')), before)

    def test_write_and_read_groups(self):
        os.remove(os.path.join(self.folder, 'scheme.txt'))
        self.put('requests', b'')
        for groups, line in ((None, b''), ([], b'groups:\n'), ([3, 1], b'groups: 1 3\n')):
            scheme = ref.standard_scheme(4, groups)
            self.put('scheme', scheme)
            self.command('read', '--replace', '.')
            self.assertIn(b'members: 4\n' + line + b'states: ', content(self.folder, 'scheme.txt'))
            self.put('scheme', b'')
            self.assertIn('./scheme: %d bytes; the scheme check answers 0' % len(scheme), self.command('write', '.'))
            self.assertEqual(content(self.folder, 'scheme'), scheme)
        for off, told in ((scheme[:-1] + b'\2', 'answers 3: a byte inside kinds 2 to 6 breaks what documents 01 and 02 say of it\n'
                                                '  byte 157: record 6 (groups): the byte of member 3 is 0 or 1, and not 2\n'),
                          (scheme + b'\0', 'answers 1: a record is cut, of another kind or of another length, or bytes follow the '
                                           'last\n  byte 158: bytes follow the sixth record\n')):
            self.put('scheme', off)
            self.assertEqual(self.command('read', '--replace', '.', status=1), './scheme: the scheme check ' + told)

    def test_bad_text_writes_nothing(self):
        self.put('requests.txt', b'find 0 1\nfind 0 one\n')
        told = self.command('write', '.', status=1)
        self.assertEqual(told, "./requests.txt:2: a member's number is a number, and 'one' is none\n")
        self.assertFalse(os.path.exists(os.path.join(self.folder, 'scheme')))
        os.remove(os.path.join(self.folder, 'requests.txt'))
        self.assertEqual(self.command('write', '.', status=1), './requests.txt: No such file or directory\n')

    def test_read_of_damaged_files(self):
        os.remove(os.path.join(self.folder, 'scheme.txt'))
        os.remove(os.path.join(self.folder, 'requests.txt'))
        self.put('requests', b'\1\2\3')
        self.put('scheme', changed(ref.standard_scheme(4), 14, 4))
        self.assertEqual(self.command('read', '.', status=1),
                         './scheme: the scheme check answers 3: a byte inside kinds 2 to 6 breaks what documents 01 and 02 say of it\n'
                         '  byte 14: record 2 (moves): the next state for state 0, lesser, primitive 0 is 4, and there are 4 '
                         'states\n')
        self.assertFalse(os.path.exists(os.path.join(self.folder, 'scheme.txt')))
        self.put('scheme', changed(ref.standard_scheme(4), 50, 1))
        self.assertIn('answers 4', self.command('read', '.'))
        self.assertIn('record 1, at byte 0, is answered 14', self.command('write', '.'))
        self.assertEqual(content(self.folder, 'requests'), b'\1\2\3')

    def test_run(self):
        self.command('write', '.')
        lines = self.command('run', '.', '--program', REFERENCE).split('\n')
        self.assertEqual([line.split()[0] for line in lines[:-1]], [str(i) for i in range(1, 17)])
        self.assertEqual(lines[0], ' 1  event 0 1 invite                   9  refused: 0 does not find 1')
        self.assertEqual(lines[2], " 3  event 0 1 invite                  11  refused: 1's setting for invite does not admit 0")
        self.assertEqual(lines[5], ' 6  event 0 1 accept                  10  refused: 0 cannot accept in the state of 0 and 1')
        self.assertEqual(lines[12], '13  list 2 1                           0  granted: friends 0')

    def test_run_of_every_answer(self):
        self.put('requests.txt', b'event 0 4 invite\nevent 0 1 4\nevent 1 1 invite\nevent 0 1 9\nset 9 search 8\nset 0 9 8\n'
                                 b'set 0 search 13\nlist 0 0\nset 0 traversal everyone\nlist 0 0\nview 0 0 3\nview 0 0 recipe\n'
                                 b'find 8 9\nevent 0 1 invite\nbytes 00 00 0f\n')
        self.command('write', '.')
        lines = self.command('run', '.', '--program', REFERENCE).split('\n')
        self.assertEqual(['  '.join(re.split('  +', line.strip())[2:]) for line in lines[:-1]], [
            '6  refused: there is no member 4', '7  refused: there is no primitive 4',
            '8  refused: 1 cannot do this towards itself', '7  refused: there is no primitive 9',
            '6  refused: there is no member 9', '7  refused: there is no resource 9',
            '12  refused: 13 may not be chosen for search', "11  refused: 0's setting for traversal does not admit 0",
            '0  granted', '0  granted: no friends', '7  refused: there is no item 3',
            "11  refused: 0's setting for recipe does not admit 0", '6  refused: there is no member 8 and no member 9',
            '9  refused: 0 does not find 1', '14  no request: the record is cut: its head has 4 bytes, and 3 are there'])

    def test_run_of_what_is_refused(self):
        self.command('write', '.')
        os.remove(os.path.join(self.folder, 'scheme.txt'))
        self.put('requests', bytes(16385))
        self.assertEqual(self.command('run', '.', '--program', REFERENCE),
                         '0  the log  15  refused: more than 16384 bytes, nothing is run\n')
        self.put('scheme', ref.standard_scheme(257))
        self.assertEqual(self.command('run', '.', '--program', REFERENCE),
                         '0  the scheme   2  refused: a head count is outside its range\n'
                         '  byte 4: record 1 (head): members are 1 to 256, and not 257\n')
        os.remove(os.path.join(self.folder, 'scheme'))
        self.assertIn('byte 0: record 1 (head) is cut', self.command('run', '.', '--program', REFERENCE))

    def test_output_full_or_closed(self):
        self.command('write', '.')
        for words, done in ((('write', '.'), '; both files are written'), (('run', '.', '--program', REFERENCE), ''),
                            (('--help',), ''), (('run', '--help'), '')):
            with open('/dev/full', 'w') as full:
                self.assertEqual(self.command(*words, status=1, stdout=full), 'the output: No space left on device%s\n' % done)
            reader, writer = os.pipe()
            os.close(reader)
            with os.fdopen(writer) as pipe:
                told = self.command(*words, status=1, stdout=pipe)
            self.assertEqual(told, 'the output: Broken pipe%s\n' % done if done else '')
            self.assertEqual(self.command(*words, status=1, before=('sh', '-c', 'exec "$@" >&-', 'sh')),
                             'the output is closed%s\n' % done)

    def link(self, name, target='/dev/zero'):
        path = os.path.join(self.folder, name)
        if os.path.lexists(path):
            os.remove(path)
        os.symlink(target, path)

    def test_endless_files(self):
        for name in ('scheme.txt', 'requests.txt'):
            kept = content(self.folder, name)
            self.link(name)
            self.assertEqual(self.command('write', '.', status=1), './%s: more than 16777216 bytes are no text\n' % name)
            os.remove(os.path.join(self.folder, name))
            self.put(name, kept)
        self.command('write', '.')
        self.link('requests')
        self.assertIn('write them first', self.command('run', '.', '--program', REFERENCE, status=1))
        os.remove(os.path.join(self.folder, 'scheme.txt'))
        self.assertEqual(self.command('run', '.', '--program', REFERENCE),
                         '0  the log  15  refused: more than 16384 bytes, nothing is run\n')
        self.assertEqual(self.command('read', '.', status=1),
                         './requests: more than 65536 bytes: the log program answers 15, and no text is written\n')
        self.link('scheme')
        told = 'byte 0: record 1 (head) gives its body 0 bytes, and it has 6\n'
        self.assertIn(told, self.command('run', '.', '--program', REFERENCE))
        self.assertIn(told, self.command('read', '.', status=1))

    def test_pipes(self):
        for name, data in (('scheme', ref.standard_scheme(4)), ('requests', content(EXAMPLES, 'standard', 'requests'))):
            os.remove(os.path.join(self.folder, name + '.txt'))
            os.mkfifo(os.path.join(self.folder, name))
            self.put(name + '.bytes', data)
        feed = 'cat scheme.bytes %s > scheme & cat requests.bytes > requests & exec "$@"'
        for more, told in (('', '16  view 2 0 item-1'),
                           ('/dev/zero', 'byte 150: record 6 (groups) gives its body 0 bytes, and it has 4')):
            self.assertIn(told, self.command('run', '.', '--program', REFERENCE, before=('sh', '-c', feed % more, 'sh')))

    def test_both_files_or_none(self):
        self.put('requests.txt', 30 * b'find 0 1\n')       # 240 bytes, and the scheme has 150
        self.assertEqual(self.command('write', '.', status=1, file_size=200), '.: File too large; nothing is written\n')
        self.assertEqual(sorted(os.listdir(self.folder)), ['requests.txt', 'scheme.txt'])
        os.mkdir(os.path.join(self.folder, 'requests'))
        told = './requests is no plain file that can be written; nothing is written\n'
        self.assertEqual(self.command('write', '.', status=1), told)
        self.assertEqual(sorted(os.listdir(self.folder)), ['requests', 'requests.txt', 'scheme.txt'])
        os.rmdir(os.path.join(self.folder, 'requests'))
        self.assertEqual(self.command('write', '.').count('bytes'), 2)
        self.assertEqual(len(content(self.folder, 'requests')), 240)
        os.chmod(os.path.join(self.folder, 'scheme'), 0o600)
        self.command('write', '.')
        self.assertEqual(os.stat(os.path.join(self.folder, 'scheme')).st_mode & 0o777, 0o600)

    def test_second_file_cannot_take_its_place(self):
        replace = os.replace

        def refusing(source, target):
            if os.path.basename(source) == 'requests':
                raise OSError(16, 'Device or resource busy')
            replace(source, target)

        for before in ({}, {'scheme': b'old', 'requests': b'older'}):
            for name, data in before.items():
                self.put(name, data)
            with mock.patch('os.replace', refusing), self.assertRaisesRegex(commands.Stop, 'busy; nothing is written'):
                commands.write(self.folder)
            files = {name: content(self.folder, name) for name in os.listdir(self.folder) if not name.endswith('.txt')}
            self.assertEqual(files, before)

    def test_control_bytes_of_programs_and_folders(self):
        self.command('write', '.')
        self.put('program', b"#!/bin/sh\nprintf '\\033[2J%s\\n'\n" % (5000 * b'x'), executable=True)
        self.assertEqual(self.command('run', '.', '--program', 'program', status=1),
                         "the log program printed '\\x1b[2J%s..', which is not a line of numbers\n" % (76 * 'x'))
        self.put('program', b"#!/bin/sh\nprintf '\\007' >&2\nexit 3\n", executable=True)
        self.assertEqual(self.command('run', '.', '--program', 'program', status=1),
                         'the log program ended with status 3: \\x07\n')
        self.assertIn('unrecognized arguments: \\x1b[2J\n', self.command('write', '.', '\x1b[2J', status=2))
        folder = os.path.join(self.folder, 'a\x1b\nb\udcff')
        os.mkdir(folder)
        self.assertIn('b\\udcff/scheme.txt: No such file', self.command('write', folder, status=1))
        self.assertIn('a\\x1b\\nb', self.command('write', folder, status=1))
        for name in ('scheme.txt', 'requests.txt'):
            shutil.copy(os.path.join(self.folder, name), folder)
        self.assertIn('a\\x1b\\nb\\udcff/scheme: 150 bytes', self.command('write', folder))

    def test_help_tells_the_default(self):
        told = 'the policy of its list whose line `policy NAME: ..` stands first'
        self.assertIn(told, self.command('--help'))

    def test_longest_log(self):
        self.put('program', b"#!/bin/sh\nprintf '0 15\\n'\n", executable=True)
        for count, too_long in ((2048, False), (2049, True)):
            self.put('requests.txt', b'find 0 0\n' * count)
            self.assertEqual('answers 15' in self.command('write', '.'), too_long)
            self.command('run', '.', '--program', 'program', status=0 if too_long else 1)

    def test_run_stops(self):
        self.command('write', '.')
        self.assertIn('No such file', self.command('run', '.', '--program', 'none', status=1))
        self.assertIn('no such folder', self.command('run', 'none', '--program', REFERENCE, status=1))
        for printed, told in (('', 'printed 0 lines; the log has 16 records'), ('1 nine\\n', 'not a line of numbers'),
                              ('0 3\\n', "printed '0 3', and the scheme check answers 0"), ('1 9', 'has no end'),
                              ('0 15\\n', "printed '0 15', and the scheme check answers 0")):
            self.put('program', b"#!/bin/sh\nprintf '%s'\n" % printed.encode(), executable=True)
            self.assertIn(told, self.command('run', '.', '--program', 'program', status=1))
        for wrong in ('2 9', '1 12', '1 0 7', '1 6'):
            lines = [wrong] + [line for _, line in ref.SESSION[1:]]
            self.put('program', b"#!/bin/sh\nprintf '%s\\n'\n" % '\\n'.join(lines).encode(), executable=True)
            self.assertEqual(self.command('run', '.', '--program', 'program', status=1),
                             "line 1 of the log program is '%s', which does not answer event 0 1 invite\n" % wrong)
        self.put('requests.txt', b'find 0 1\n')
        self.assertIn('write them first', self.command('run', '.', '--program', REFERENCE, status=1))


if __name__ == '__main__':
    unittest.main()
