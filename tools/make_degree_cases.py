#!/usr/bin/env python3
"""Writes the cases of the program degree_cases and the text that it must print, by reference.py.

A case is a 2-byte length and a scheme's bytes, a 2-byte length and a network's bytes, a 2-byte count of questions, and for
each question two members v and u of 2 bytes each.
A question's line, K being the case's number from 1, and J the question's:
    K J 0 D         granted: D is the least number of friendships between v and u
    K J 0 none      granted, and no walk of any length joins them
    K J ANSWER      refused
"""
import sys
from collections import Counter
from itertools import islice, product

sys.dont_write_bytecode = True      # no __pycache__ in the repository
import make_request_cases as requests
import reference as ref
from cases import (NO_ONE, EVERYONE, OWNER, within, fresh_network, random_graph, chain, ring, near_clique, cliques, shuffled,
                   graph_network, graph_of_persons, random_groups, stop_where_few, write)
from make_admission_cases import all_questions, given
from make_request_cases import SHAPES, shaped_network, walking_scheme

FEWEST = 40         # how often each answer, none, the degrees 0 to 3, and what is counted in GROUPED have to occur
SEARCH_BY_EVERYONE, TRAVERSAL_BY_EVERYONE = 12, 4       # policies of the standard scheme
LONGER, ALONE = 'a degree by groups, longer without', 'a degree by groups alone'
NONE, OF_GROUP = 'none, with groups', 'a degree of a group'
GROUPED = Counter({name: 0 for name in (LONGER, ALONE, NONE, OF_GROUP)})


# ---- Schemes, each with a network

def all_found(rng, n, graph, groups=None):
    """A network of the graph in which everybody finds everybody: each search setting is the policy that admits everyone. The
    lowest that search offers admits no stranger, as the scheme check asks."""
    states = rng.choice([2, 4, 7, 16])
    friends = {q for q in range(1, states) if rng.randrange(2)} or {states - 1}
    policies = [rng.choice([NO_ONE, OWNER, within(1), within(255)]), EVERYONE]
    scheme = ref.build_scheme((n, states, 1, 1, 2), {}, friends, policies, [3, 3, 3, 3], groups)
    network = bytearray(graph_network(rng, scheme, graph))
    for m in range(n):
        network[ref.setting_place(ref.Counts(n, states, 1, 1, 2), m, ref.SEARCH)] = 1
    return scheme, bytes(network)


def standard(n, friends, settings):
    """The standard scheme, and a network that is fresh but for these friends (i, j) and settings (member, resource, policy)."""
    scheme = ref.standard_scheme(n)
    network = bytearray(fresh_network(scheme))
    for i, j in friends:
        network[ref.pair_place(i, j)] = 3
    for setting in settings:
        if ref.set_policy(scheme, network, *setting) != 0:
            sys.exit('no such setting: %d %d %d' % setting)
    return scheme, bytes(network)


# ---- Questions: each (v, u)

def random_questions(rng, n, count):
    return [(rng.randrange(n), rng.randrange(n)) for _ in range(count)]


def end_numbers(n):
    """The first and last members and numbers beyond; n + 255 is the last member again where only a byte is read."""
    return sorted({0, n - 1, n, n + 1, n + 255, n + 256, 65535})


def end_questions(n):
    return list(product(end_numbers(n), repeat=2))


def between_ends(graph):
    """On a chain, questions of its two ends and the members next to them, an end in each."""
    friends = {m: [] for pair in sorted(graph) for m in pair}
    for i, j in graph:
        friends[i].append(j)
        friends[j].append(i)
    ends = [m for m in friends if len(friends[m]) == 1]
    near = ends + [friends[m][0] for m in ends]
    return [(v, u) for v in near for u in near if v in ends or u in ends]


# ---- The cases: each (scheme, network, questions)

def found_and_not_joined(rng):
    """The smallest network in which search finds a member whom no friendship joins: 1 lets everyone search for it. Then one in
    which a chain leads on to such a member: 2 is a friend of 1, whom everyone may traverse."""
    by_search = [(1, ref.SEARCH, SEARCH_BY_EVERYONE)]
    yield (*standard(2, [], by_search), all_questions(2))
    yield (*standard(3, [(1, 2)], by_search + [(1, ref.TRAVERSAL, TRAVERSAL_BY_EVERYONE)]), all_questions(3))


def chain_shorter_than_degree(rng):
    """0 finds 2, of degree 2, by search, and nobody may traverse 1. 0 finds 4, of degree 4, behind 3, which search finds."""
    yield (*standard(3, chain(rng, 3), [(2, ref.SEARCH, SEARCH_BY_EVERYONE)]), all_questions(3))
    settings = [(3, ref.SEARCH, SEARCH_BY_EVERYONE), (3, ref.TRAVERSAL, TRAVERSAL_BY_EVERYONE)]
    yield (*standard(5, chain(rng, 5), settings), all_questions(5))


def all_pairs(rng):
    for i in range(324):
        n = rng.randrange(1, 13)
        graph = shuffled(rng, n, SHAPES[i % len(SHAPES)](rng, n))
        yield (*all_found(rng, n, graph, random_groups(rng, n)), all_questions(n))


def found_or_not(rng):
    """Networks in which chains lead to some members and not to others."""
    for i in range(72):
        n = rng.randrange(2, 10)
        scheme = ref.standard_scheme(n) if i % 3 == 0 else walking_scheme(rng, n)
        yield scheme, shaped_network(rng, scheme, SHAPES[i % len(SHAPES)]), all_questions(n)


def ends(rng):
    for n in (1, 2, 3, 5):
        scheme = walking_scheme(rng, n)
        yield scheme, shaped_network(rng, scheme, ring), end_questions(n)
        yield (*all_found(rng, n, ring(rng, n)), end_questions(n))


def damaged_networks(rng):
    """Of the requests' damaged networks every fifth: so all kinds of damage are among them."""
    for scheme, network, _ in islice(requests.damaged_networks(rng), 0, None, 5):
        n = ref.read_scheme(scheme)[1].counts.members
        yield scheme, network, random_questions(rng, n, 3) + [(n, 0)]


def broken_schemes(rng):
    """Of the requests' broken schemes every third."""
    for scheme, network, _ in islice(requests.broken_schemes(rng), 0, None, 3):
        yield scheme, network, random_questions(rng, 6, 3) + [(0, 0), (65535, 0)]


def broken_groups(rng):
    """Of the requests' schemes with a wrong sixth record every third."""
    for scheme, network, _ in islice(requests.broken_groups(rng), 0, None, 3):
        yield scheme, network, random_questions(rng, 6, 2) + [(0, 0), (65535, 0)]


def large_networks(rng):
    """64 and 65 members: a friend row of one word, and of a word and a bit."""
    for n in (64, 65):
        asked = [(0, n - 1), (n - 1, 0), (63, n - 1), (n - 1, n), (n, 0)]
        for graph in (random_graph(rng, n, 0.015), random_graph(rng, n, 0.04), ring(rng, n), near_clique(rng, n),
                      cliques(rng, n, 4)):
            found = all_found(rng, n, shuffled(rng, n, graph), random_groups(rng, n))
            yield (*found, random_questions(rng, n, 24) + asked)
        scheme = walking_scheme(rng, n)
        yield scheme, shaped_network(rng, scheme, chain), random_questions(rng, n, 24) + asked


def most_members(rng):
    """256 members: chains, in order, and shuffled with all members groups, whose ends have degree 255; a chain cut in the middle;
    few friendships."""
    n = 256
    for graph, groups in ((chain(rng, n), None), (shuffled(rng, n, chain(rng, n)), range(n))):
        yield (*all_found(rng, n, graph, groups), between_ends(graph) + random_questions(rng, n, 24))
    cut = list(product((0, 127, 128, 255), repeat=2))
    yield (*all_found(rng, n, chain(rng, n) - {(127, 128)}), cut + random_questions(rng, n, 24))
    yield (*all_found(rng, n, random_graph(rng, n, 0.008)), end_questions(n) + random_questions(rng, n, 40))


# ---- What is written

GROUPS = [found_and_not_joined, chain_shorter_than_degree, all_pairs, found_or_not, ends, damaged_networks, broken_schemes,
          broken_groups, large_networks, most_members]


def counted_as(degree):
    return 'none' if degree is None else 'degree %d' % degree if degree < 4 or degree == 255 else 'degree 4 to 254'


def grouped_tried(net, v, u, degree):
    """What groups have to do with a degree that is granted."""
    if not net.groups or v == u:
        return {}
    persons = ref.distance(graph_of_persons(net, v, u), v, u)
    return {NONE: degree is None, LONGER: persons is not None and persons != degree,
            ALONE: persons is None and degree is not None, OF_GROUP: degree is not None and not {v, u}.isdisjoint(net.groups)}


def lines(number, tally, scheme, network, questions):
    net = ref.read_network(scheme, network)[1]
    for place, (v, u) in enumerate(questions, 1):
        answer, degree = ref.degree(scheme, network, v, u)
        GROUPED.update(grouped_tried(net, v, u, degree) if answer == 0 else {})
        printed = [number, place, answer]
        tally['answer %d' % answer] += 1
        if answer == 0:
            printed.append('none' if degree is None else degree)
            tally[counted_as(degree)] += 1
        yield ' '.join(map(str, printed))


if __name__ == '__main__':
    total = write('degree_cases', GROUPS, given, lines)
    wanted = {'answer %d' % answer: FEWEST for answer in (0, 1, 2, 3, 4, 5, 6, 9)}
    wanted.update({counted_as(degree): FEWEST for degree in (None, 0, 1, 2, 3)})
    wanted[counted_as(255)] = 1
    for name, fewest in wanted.items():
        if total[name] < fewest:
            sys.exit('too few: ' + name)
    stop_where_few(GROUPED, FEWEST)
