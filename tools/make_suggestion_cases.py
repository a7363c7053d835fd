#!/usr/bin/env python3
"""Writes the cases of the program suggestion_cases and the text that it must print, by reference.py.

A case is a 2-byte length and a scheme's bytes, a 2-byte length and a network's bytes, a 2-byte count of questions, and for
each question the member v and the wanted number c of 8 bytes each, and the output's places, of 2 bytes and at most 300.
Place i of the output holds 1000 + i before the call.
A question's line, K being the case's number from 1, and J the question's:
    K J 0 COUNT | PLACES      granted, with every place of the output afterwards
    K J ANSWER | PLACES       refused
"""
import sys
from collections import Counter
from itertools import islice, product

sys.dont_write_bytecode = True      # no __pycache__ in the repository
import make_request_cases as requests
import reference as ref
from cases import (part, numbers, pairs_of, random_graph, ring, star, cliques, parted, near_clique, shuffled, random_groups,
                   regrouped, shared_otherwise, stop_where_few, write)
from make_degree_cases import SEARCH_BY_EVERYONE, TRAVERSAL_BY_EVERYONE, all_found, standard
from make_request_cases import SHAPES, shaped_network, walking_scheme

LARGEST = 2 ** 64 - 1
MOST_PLACES = 300       # that the program can lend
FEWEST = 40             # how often each answer, and what is counted in SEEN, has to occur
SELDOM = {'n = 1': 20, 'n = 256': 20, 'c = places above 256': 12, '254 shared friends': 2, '254 written': 2,
          'numbers below and above 128': 2}
SEEN = Counter()
WRITTEN, ALONE = set(), set()       # who is suggested, and who is the only person that v and a suggested member share


# ---- Questions: each (v, c, places)

def order(scheme, network, v):
    return ref.suggestions(ref.read_network(scheme, network)[1], v)


def every_page(rng, scheme, network, members):
    """Of each of these members, c from 0 to one more than are suggested, in c places or up to two more."""
    return [(v, c, c + rng.randrange(3)) for v in members for c in range(len(order(scheme, network, v)) + 2)]


def some_pages(rng, scheme, network, members):
    """Of each of these members, c at the ends and some between."""
    asked = []
    for v in members:
        count = len(order(scheme, network, v))
        for c in sorted({0, 1, rng.randrange(count + 1), rng.randrange(count + 1), max(count - 1, 0), count, count + 1}):
            asked.append((v, c, c + rng.randrange(2)))
    return asked


def random_questions(rng, n, count):
    """Some have fewer places than c, some fewer than n, and some a v beyond n."""
    return [(rng.randrange(n + 1), rng.randrange(n + 2), rng.randrange(n + 2)) for _ in range(count)]


def far_members(n):
    """Numbers beyond n; the low bytes of some are a member's number."""
    return [n, n + 1, n + 255, 65535] + [2 ** bits + m for bits in (8, 16, 32, 63) for m in {0, n - 1}] + [LARGEST]


def far_questions(n):
    """Members beyond n, and c beyond all outputs, with as many places as some of its low bytes say, or more."""
    wanted = [2 ** bits + extra for bits in (16, 32, 63) for extra in (0, 1)] + [LARGEST]
    return ([(v, c, places) for v in far_members(n) for c, places in ((0, 0), (1, 1), (n, n), (2, 1), (LARGEST, n))]
            + list(product(range(n), wanted, (0, 1, n, n + 1))))


# ---- The cases: each (scheme, network, questions)

def smallest(rng):
    """The fewest members that have a suggestion: 0 and 2 share 1, and 0 may search for 2. Networks of one and two members."""
    scheme, network = standard(3, [(0, 1), (1, 2)], [(2, ref.SEARCH, SEARCH_BY_EVERYONE)])
    yield scheme, network, list(product(range(4), range(3), range(3)))
    for n, friends in ((1, []), (2, []), (2, [(0, 1)])):
        settings = [(m, ref.SEARCH, SEARCH_BY_EVERYONE) for m in range(n)]
        yield (*standard(n, friends, settings), list(product(range(n + 1), range(3), range(3))))


def each_sort_of_member(rng):
    """0 has the friends 1, 2 and 3, and 1 and 2 are friends. By search 0 finds 4, which shares one of them, 5, which shares
    all, and 9, which shares none. A chain leads over 3 to 8, which shares one. 6 and 7 share two and one and are not found."""
    friends = [(0, 1), (0, 2), (0, 3), (1, 2), (1, 4), (1, 5), (2, 5), (3, 5), (1, 6), (2, 6), (2, 7), (3, 8)]
    settings = [(m, ref.SEARCH, SEARCH_BY_EVERYONE) for m in (4, 5, 9)] + [(3, ref.TRAVERSAL, TRAVERSAL_BY_EVERYONE)]
    scheme, network = standard(10, friends, settings)
    yield scheme, network, every_page(rng, scheme, network, range(10))


def groups_and_persons(rng):
    """0 has the friends 1 to 4. 5 shares one of them with it, 6 two, 7 three and 8 all. Each has some groups, or all do."""
    friends = [(0, m) for m in range(1, 5)] + [(m, 4 + last) for last in range(1, 5) for m in range(1, last + 1)]
    scheme, network = standard(9, friends, [(m, ref.SEARCH, SEARCH_BY_EVERYONE) for m in range(9)])
    for groups in ([1], [1, 2], [2, 3, 4], [1, 2, 3, 4], [0], [5], [0, 8], [0, 6, 1], [7, 8, 3], range(9), []):
        given = regrouped(scheme, groups)
        yield given, network, every_page(rng, given, network, (0, 5, 8)) + [(0, 9, 9), (4, 9, 9)]


def all_pages(rng):
    for i in range(54):
        n = rng.randrange(3, 10)
        graph = shuffled(rng, n, SHAPES[i % len(SHAPES)](rng, n))
        scheme, network = all_found(rng, n, graph, random_groups(rng, n))
        yield scheme, network, every_page(rng, scheme, network, range(n))


def orders(rng):
    """Networks with many different numbers of shared friends."""
    for i in range(36):
        n = rng.randrange(9, 15)
        scheme, network = all_found(rng, n, random_graph(rng, n, rng.choice([0.35, 0.45, 0.55])), random_groups(rng, n))
        yield scheme, network, some_pages(rng, scheme, network, rng.sample(range(n), 4))


def found_or_not(rng):
    """Networks in which chains lead to some members and not to others."""
    for i in range(108):
        n = rng.randrange(3, 12)
        scheme = ref.standard_scheme(n) if i % 3 == 0 else walking_scheme(rng, n)
        network = shaped_network(rng, scheme, SHAPES[i % len(SHAPES)])
        yield scheme, network, some_pages(rng, scheme, network, rng.sample(range(n), 3))


def outputs(rng):
    """Every c against every number of places, up to two more than there are members."""
    for n in (1, 2, 4, 6):
        scheme, network = all_found(rng, n, ring(rng, n))
        yield scheme, network, list(product((0, n - 1, n), range(n + 3), range(n + 3)))


def long_outputs(rng):
    """Outputs that are much longer than the network has members, and c up to their length."""
    for n in (1, 4, 8):
        for graph in (star(rng, n), parted(rng, n, 2)):
            scheme, network = all_found(rng, n, shuffled(rng, n, graph))
            asked = [(v, MOST_PLACES, MOST_PLACES) for v in range(min(n, 3))]
            yield scheme, network, asked + [(0, 257, 257), (n - 1, 256, 257), (0, MOST_PLACES + 1, MOST_PLACES)]


def far_numbers(rng):
    for n in (1, 3, 6):
        yield (*all_found(rng, n, star(rng, n)), far_questions(n))


def damaged_networks(rng):
    """Of the requests' damaged networks every fifth: so all kinds of damage are among them."""
    for scheme, network, _ in islice(requests.damaged_networks(rng), 0, None, 5):
        n = ref.read_scheme(scheme)[1].counts.members
        yield scheme, network, random_questions(rng, n, 3) + [(n, 1, 1), (0, 2, 1), (LARGEST, LARGEST, 0)]


def broken_schemes(rng):
    """Of the requests' broken schemes every third."""
    for scheme, network, _ in islice(requests.broken_schemes(rng), 0, None, 3):
        yield scheme, network, random_questions(rng, 5, 2) + [(0, 1, 0), (LARGEST, LARGEST, 1)]


def broken_groups(rng):
    """Of the requests' schemes with a wrong sixth record every third."""
    for scheme, network, _ in islice(requests.broken_groups(rng), 0, None, 3):
        yield scheme, network, random_questions(rng, 5, 1) + [(0, 1, 0), (LARGEST, LARGEST, 1)]


def large_networks(rng):
    """64 and 65 members: a friend row of one word, and of a word and a bit."""
    for n in (64, 65):
        for graph in (random_graph(rng, n, 0.05), random_graph(rng, n, 0.3), near_clique(rng, n), cliques(rng, n, 4)):
            scheme, network = all_found(rng, n, shuffled(rng, n, graph), random_groups(rng, n))
            yield scheme, network, some_pages(rng, scheme, network, [0, n - 1]) + [(n, 1, 1), (n - 1, n, n - 1)]
        scheme = walking_scheme(rng, n)
        network = shaped_network(rng, scheme, lambda rng, n: random_graph(rng, n, 0.1))
        yield scheme, network, some_pages(rng, scheme, network, [0, n - 1])


def two_halves(n):
    """0 has the odd members below n - 1 as friends, and n - 1 the even ones above 0; each of the odd has the next as a friend."""
    pairs = {(0, m) for m in range(1, n - 1, 2)} | {(m, n - 1) for m in range(2, n - 1, 2)}
    return pairs | {(m, m + 1) for m in range(1, n - 1, 2)}


def most_members(rng):
    """256 members: two who share all 254 others; one to whom 254 are suggested; few friendships, and many; every member
    suggested, and every member the only person that two share; groups, at the ends of words among them."""
    n = 256
    for graph in (pairs_of(range(n)) - {(0, 255)}, star(rng, n), random_graph(rng, n, 0.03), random_graph(rng, n, 0.71)):
        scheme, network = all_found(rng, n, graph)
        yield scheme, network, some_pages(rng, scheme, network, [255]) + [(0, 1, 1), (0, n, n), (n, 0, 0), (0, n, n - 1)]
    yield (*all_found(rng, n, two_halves(n)), [(v, 127, 127) for v in (0, 1, 2, 255)])
    groups = {0, 63, 64, 127, 128, 191, 192, 255, *rng.sample(range(n), 50)}
    scheme, network = all_found(rng, n, random_graph(rng, n, 0.3), groups)
    yield scheme, network, some_pages(rng, scheme, network, [1, 255])
    scheme = walking_scheme(rng, n)
    network = shaped_network(rng, scheme, lambda rng, n: random_graph(rng, n, 0.02))
    yield scheme, network, some_pages(rng, scheme, network, [0, 255])


# ---- What a question tries: each name, and whether it is so

SORTS = ('v', 'a friend', 'found by search', 'found by a chain', 'not found')
SHARING = ('shares a person', 'shares groups alone', 'shares none')


def sort_of_member(net, v, m, found):
    if m == v:
        return 'v'
    if m in net.graph[v]:
        return 'a friend'
    if m not in found:
        return 'not found'
    return 'found by search' if net.admits(m, ref.SEARCH, v) else 'found by a chain'


def sharing(net, v, m):
    return SHARING[0 if ref.shared_count(net, v, m) else 1 if ref.friends_of_both(net.graph, v, m) else 2]


def members_tried(net, v, found):
    there = {(sort_of_member(net, v, m, found), sharing(net, v, m)) for m in range(net.counts.members)}
    return {'%s, %s' % kind: kind in there for kind in product(SORTS, SHARING)}


def page_tried(net, v, c):
    """Where c cuts the order, and what is written."""
    members = ref.suggestions(net, v)
    shared = [ref.shared_count(net, v, m) for m in members]
    count, written, told = len(members), members[:c], shared[:c]
    equal = [x == y for x, y in zip(told, told[1:])]
    return {'c = 0': c == 0, 'c = 1': c == 1, 'c = all': c == count > 0, 'c = all but one': 0 < c == count - 1,
            'c = one more': c == count + 1, 'nobody': c > count == 0,
            'cut in a tie': 0 < c < count and shared[c - 1] == shared[c],
            'cut between two numbers': 0 < c < count and shared[c - 1] > shared[c],
            'a tie written': any(equal), 'two or more and no tie': len(written) > 1 and not any(equal),
            'a higher number first': written != sorted(written),
            '254 shared friends': told == [254], '254 written': len(written) == 254,
            'numbers below and above 128': written != [] and told[0] > 128 > told[-1]}


def page_otherwise(net, v, c, found, name):
    """What is written by a wrong count."""
    shared = {m: shared_otherwise(net, v, m)[name] for m in found - net.graph[v] - {v}}
    return sorted((m for m in shared if shared[m] > 0), key=lambda m: (-shared[m], m))[:c]


def groups_tried(net, v, c, found):
    """What groups have to do with what is written."""
    written = ref.suggestions(net, v)[:c]
    pages = {name: page_otherwise(net, v, c, found, name) for name in shared_otherwise(net, v, v)}
    counted = page_otherwise(net, v, net.counts.members, found, 'groups counted')
    return {'five records alone': net.scheme.groups is None,
            'a sixth record of persons': net.scheme.groups is not None and not net.groups,
            'a group written': not net.groups.isdisjoint(written), 'v a group': v in net.groups,
            'v a group, and some written': v in net.groups and written != [],
            'a member left out by groups': not set(counted) <= set(ref.suggestions(net, v)),
            'another order by groups': written != [m for m in counted if m in written],
            **{'otherwise: ' + name: page != written for name, page in pages.items()}}


def grant_tried(net, v, c, places):
    n = net.counts.members
    found = ref.found_by(net, v)
    return {'fewer places than members': places < n, 'c = places': c == places > 0, 'more places than c': c < places,
            'c above n': c > n, 'c = places above 256': 256 < c == places, 'n = 1': n == 1, 'n = 256': n == 256,
            **members_tried(net, v, found), **page_tried(net, v, c), **groups_tried(net, v, c, found)}


def in_low_bytes(number, width, limit):
    """Whether a number is below the limit only where so many low bytes of it are read."""
    return number >= 256 ** width and number % 256 ** width < limit


def refusal_tried(answer, scheme, network, v, c, places):
    """What else would refuse, and what the numbers are."""
    if answer < 5:
        return {'refused scheme, and 13': places < c}
    n = ref.read_scheme(scheme)[1].counts.members
    if answer == 5:
        return {'5, and 6': v >= n, '5, and 13': places < c}
    if answer == 6:
        return {'6, and 13': places < c, '6, v = n': v == n, '6, 2 bytes of v are a member': in_low_bytes(v, 2, n),
                '6, 4 bytes of v are a member': in_low_bytes(v, 4, n)}
    return {'13, c = places + 1': c == places + 1, '13, c the largest number': c == LARGEST,
            '13, as many places as members': places >= n, '13, places for all': places >= len(order(scheme, network, v)) > 0,
            '13, places for 2 bytes of c': in_low_bytes(c, 2, places + 1),
            '13, places for 4 bytes of c': in_low_bytes(c, 4, places + 1)}


# ---- What is written

GROUPS = [smallest, each_sort_of_member, groups_and_persons, all_pages, orders, found_or_not, outputs, long_outputs, far_numbers,
          damaged_networks, broken_schemes, broken_groups, large_networks, most_members]


def given(scheme, network, questions):
    return part(scheme) + part(network) + numbers(len(questions)) + b''.join(
        v.to_bytes(8, 'little') + c.to_bytes(8, 'little') + numbers(places) for v, c, places in questions)


def note_members(net, v, members):
    WRITTEN.update(members)
    for shared in (ref.shared_friends(net.graph, net.groups, v, m) for m in members):
        ALONE.update(shared if len(shared) == 1 else ())


def lines(number, tally, scheme, network, questions):
    net = ref.read_network(scheme, network)[1]
    for place, (v, c, places) in enumerate(questions, 1):
        output = [1000 + i for i in range(places)]
        answer, count = ref.suggest(scheme, network, v, c, output)
        tally['answer %d' % answer] += 1
        SEEN.update(refusal_tried(answer, scheme, network, v, c, places) if answer else grant_tried(net, v, c, places))
        note_members(net, v, output[:count])
        yield ' '.join(map(str, [number, place, answer] + ([] if answer else [count]) + ['|'] + output))


def report():
    """Prints how often each is so; stops where one is too seldom."""
    print('%d members suggested, %d the only persons that two share' % (len(WRITTEN), len(ALONE)))
    if min(len(WRITTEN), len(ALONE)) < 256:
        sys.exit('too few members')
    stop_where_few(SEEN, FEWEST, SELDOM)


if __name__ == '__main__':
    total = write('suggestion_cases', GROUPS, given, lines)
    SEEN.update({'answer %d' % answer: total['answer %d' % answer] for answer in (0, 1, 2, 3, 4, 5, 6, 13)})
    report()
