#!/usr/bin/env python3
"""Tests of docs/reference.md: that it and the definitions name each other, that its tables and bytes are those of reference.py, that
its calls are those of the library's header, and that what the library exports has gatekeeper's clauses: python3 tools/test_reference_page.py"""
import glob
import os
import re
import sys
import unittest

sys.dont_write_bytecode = True      # no __pycache__ in the repository
import reference as ref

ROOT = os.path.join(os.path.dirname(os.path.abspath(__file__)), '..')


def content(*names):
    with open(os.path.join(ROOT, *names), 'rb') as file:
        return file.read()


PAGE = content('docs', 'reference.md').decode()


def sections(marks):
    """Title and text of each section; a section's text has its subsections in it where marks are '##'."""
    parts = re.split('(?m)^%s (.+)\n' % marks, PAGE)[1:]
    ends = '(?m)^#{1,%d} ' % len(marks)
    return {title: re.split(ends, text)[0] for title, text in zip(parts[0::2], parts[1::2])}


SECTIONS = {**sections('##'), **sections('###')}


def rows(title, head):
    """The cells of a section's table whose head row begins so."""
    table = SECTIONS[title].partition('| %s |' % head)[2].partition('\n\n')[0]
    return [[cell.strip() for cell in line.strip('|').split('|')] for line in table.split('\n')[2:] if line.startswith('|')]


def blocks(title):
    """The numbers of a section's blocks of bytes."""
    return [bytes(map(int, block.split())) for block in re.findall('```\n(.*?)```', SECTIONS[title], re.S)]


def first_numbers(cells):
    return [int(cell.split()[0]) for cell in cells]


def named(text):
    """Each definition file that a text cites, with the names that follow in the same paragraph or item."""
    for part in re.split(r'\n\n|\n- ', text):
        for file, names in re.findall(r'(crates/\w+/specs/\w+\.antt):((?:(?!crates/).)+)', part, re.S):
            yield file, re.findall('`([^`]+)`', names)


class Definitions(unittest.TestCase):
    def test_names_are_defined(self):
        for file, names in named(PAGE):
            text = content(file).decode()
            for name in names:
                given = re.escape(name)
                defined = r"(?m)^ *(abbrev|unfoldable|pub)( pub| record| data) %s(?![\w'-])|^ +([\w'-]+ )*%s( [\w'-]+)* : " % (given, given)
                self.assertRegex(text, defined, '%s does not define %s' % (file, name))

    def test_citations_are_read(self):
        self.assertEqual(len(re.findall(r'crates/\w+/specs/\w+\.antt', PAGE)), len([file for file, names in named(PAGE) if names]))

    def test_files_name_their_sections(self):
        for file in sorted(glob.glob(os.path.join(ROOT, 'crates', 'model', 'specs', '*.antt'))):
            name = 'crates/model/specs/' + os.path.basename(file)
            head = content(file).decode().split('\n')[0]
            self.assertIn('docs/reference.md', head, name)
            titles = re.findall('"([^"]+)"', head)
            self.assertEqual(titles == [], name.endswith('/Lib.antt'), '%s names no section' % name)
            for title in titles:
                self.assertIn(title, SECTIONS, '%s: no such section' % name)
                self.assertIn(name, [cited for cited, _ in named(SECTIONS[title])], 'section %s' % title)

    def test_links(self):
        anchors = {re.sub('[^a-z0-9 -]', '', title.lower()).replace(' ', '-') for title in SECTIONS}
        self.assertEqual([link for link in re.findall(r'\]\(#([^)]+)\)', PAGE) if link not in anchors], [])


class Tables(unittest.TestCase):
    def test_answers(self):
        self.assertEqual([cells[0] for cells in rows('Answers', 'answer')], [str(answer) for answer in range(16)])

    def test_who_gives_an_answer(self):
        """5 to 13 are given by the calls that have them among their refusals."""
        calls = [(call, refusals.split(', ')) for call, _, refusals, _ in rows('The calls', 'call')]
        for answer, _, given_by in rows('Answers', 'answer')[5:14]:
            self.assertEqual(given_by.split(', '), [call for call, refusals in calls if answer in refusals], answer)

    def test_degree_makes_the_checks_of_find(self):
        self.assertEqual(rows('Degree', 'order'), rows('Find', 'order'))

    def test_header(self):
        header = content('library', 'gatekeeper.h').decode()
        calls = [call.split()[-1] for call, *_ in rows('The calls', 'call')]
        self.assertEqual(sorted(re.findall(r'(?m)^\w+ gatekeeper_(\w+)\(', header)), sorted(calls + ['network_length']))
        none = int(re.search(r'#define GATEKEEPER_DEGREE_NONE (\d+)', header)[1])
        self.assertIn('{:,} for none'.format(none), SECTIONS['Calls from other languages'])

    def test_exports(self):
        """The library exports the calls of the header, each with the parameters, the result and the clauses of gatekeeper's function."""
        def functions(crate, head):
            code = content('crates', crate, 'src', 'lib.rt').decode()
            found = re.findall(r'(?ms)^%sfn gatekeeper_(\w+)(\(.*?)^\{$' % re.escape(head), code)
            return {name: re.sub(r'\s', '', told).replace(',)', ')') for name, told in found}, set(re.findall('(?m)^ghost use .*', code))

        calls, meant = functions('gatekeeper', 'pub ')
        exports, named = functions('gatekeeper_c', '#[unsafe(no_mangle)]\npub extern "C" ')
        self.assertEqual(exports, calls)
        self.assertLessEqual(named, meant)
        header = content('library', 'gatekeeper.h').decode()
        self.assertEqual(sorted(exports), sorted(re.findall(r'(?m)^\w+ gatekeeper_(\w+)\(', header)))
        self.assertTrue(all('ensures{' in told for told in exports.values()))

    def test_refusals_of_each_call(self):
        for call, _, refusals, _ in rows('The calls', 'call'):
            told = [cells[1] for cells in rows(call.capitalize(), 'order')]
            self.assertEqual(refusals.replace('scheme check', '1 to 4').split(', '), told, call)

    def test_kinds_of_log_records(self):
        for kind, request, length, *_, size in rows('The log', 'kind'):
            name, *fields = request.split()
            self.assertEqual((ref.KINDS[int(kind)], len(fields)), (name, len(ref.WIDTHS[name])))
            self.assertEqual((int(length), int(size)), (sum(ref.WIDTHS[name]), sum(ref.WIDTHS[name]) + 4))

    def test_limits(self):
        told = {cells[0]: [int(re.sub('[^0-9]', '', cell) or -1) for cell in cells[1:]] for cells in rows('Limits', 'what')}
        least, most = ref.Counts(1, 1, 1, 1, 1), ref.LIMITS
        wanted = {'resources R = 2 + A + I': ref.resources, 'a network': ref.network_length,
                  'an accepted scheme': lambda counts: ref.five_records(counts) + (4 + most.members if counts == most else 0),
                  'degree of two members that have one': lambda counts: counts.members - 1,
                  'pair bytes of a network': lambda counts: ref.pair_count(counts.members),
                  'setting bytes of a network': lambda counts: ref.network_length(counts) - ref.pair_count(counts.members)}
        for place, name in enumerate(('members n', 'states S', 'primitives A', 'items I', 'policies P')):
            wanted[name] = lambda counts, place=place: counts[place]
        for place in range(4):
            wanted['body of kind %d' % (place + 2)] = lambda counts, place=place: ref.body_lengths(counts)[place]
        wanted['body of kind 6'] = lambda counts: counts.members
        for name, value in wanted.items():
            self.assertEqual(told[name], [value(least), value(most)], name)
        self.assertEqual(told['a log that is run'], [0, ref.LOG_LIMIT])
        self.assertEqual(told['records run, and lines printed'], [0, ref.LOG_LIMIT // 8])


class Standard(unittest.TestCase):
    def test_tables(self):
        moves = {tuple(first_numbers(cells[:3])): first_numbers(cells)[3] for cells in rows('The standard scheme', 'state | side')}
        self.assertEqual(moves, ref.STANDARD_MOVES)
        policies = [tuple(map(int, cells[1].split())) for cells in rows('The standard scheme', 'policy')]
        self.assertEqual(policies, ref.STANDARD_POLICIES)
        masks = [int(cells[3]) for cells in rows('The standard scheme', 'resource')]
        scheme = ref.read_scheme(ref.standard_scheme(4))[1]
        self.assertEqual(masks, scheme.masks)
        self.assertEqual([int(cells[4]) for cells in rows('The standard scheme', 'resource')], list(map(ref.lowest, masks)))

    def test_bytes(self):
        records = blocks('The standard scheme')
        self.assertEqual(b''.join(records), ref.standard_scheme(4))
        places = [int(place) for place in re.findall(r'(?:record|second|third|fourth|fifth), at ([0-9]+)', SECTIONS['The standard scheme'])]
        self.assertEqual(places, [sum(map(len, records[:count])) for count in range(5)])

    def test_session(self):
        table = rows('The session', "record's bytes")
        self.assertEqual([(cells[1], cells[2].strip('`')) for cells in table], ref.SESSION)
        log = b''.join(bytes(map(int, cells[0].split())) for cells in table)
        self.assertEqual(log, content('examples', 'standard', 'requests'))
        self.assertEqual(log, ref.build_log(ref.parsed(request) for request, _ in ref.SESSION))
        self.assertIn('log of %d bytes' % len(log), SECTIONS['The session'])

    def test_networks(self):
        scheme, network = ref.standard_scheme(4), bytearray(42)
        ref.fresh(scheme, network)
        before, after = blocks('The session')
        self.assertEqual(before, bytes(network))
        for request, _ in ref.SESSION:
            ref.answer_line(scheme, network, ref.parsed(request))
        self.assertEqual(after, bytes(network))


if __name__ == '__main__':
    unittest.main()
