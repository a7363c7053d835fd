#!/usr/bin/env python3
"""Writes the cases of the program request_cases and the text that it must print, by reference.py.

A case is a 2-byte length and a scheme's bytes, a 2-byte length and a network's bytes, a 2-byte count of requests, and for
each request 8 bytes: its kind, a zero byte, and three 2-byte numbers:
    17 set: u r p      18 find: v u 0      19 list: v u and the output's places      20 view: v u o
The requests of a case run one after the other on its network. Place i of a list's output holds 1000 + i before the call.
The lines of a case, K being its number from 1, and J the request's:
    K J ANSWER                  a set, a find or a view
    K J ANSWER | PLACES         a refused list, with every place of the output afterwards
    K J 0 COUNT | PLACES        a granted one
    K sum SUM                   last: the Adler-32 sum of the network's bytes
"""
import sys
import zlib
from collections import Counter
from itertools import product

sys.dont_write_bytecode = True      # no __pycache__ in the repository
import reference as ref
from cases import (NO_ONE, EVERYONE, OWNER, within, known, clique, state, both, either, changed, damaged, part, numbers,
                   random_moves, accepted_scheme, random_network, off_settings, random_graph, chain, ring, star, cliques,
                   parted, near_clique, shuffled, graph_network, random_groups, regrouped, stop_where_few, write)

FEWEST = 40         # how often each call has to give each of its answers, and what is counted in GROUPED has to occur
WITH_GROUPS, OTHERWISE, GRANTED_WITHOUT = '%s, with groups', '%s, another answer without', 'refused, and granted without'
GROUPED = Counter({GRANTED_WITHOUT: 0, **{WITH_GROUPS % name: 0 for name in ('event', 'set', 'find', 'list', 'view')},
                   **{OTHERWISE % name: 0 for name in ('event', 'find', 'list', 'view')}})


# ---- The calls: what a request's arguments are, its answers, and what is printed of it

def run_list(scheme, network, v, u, places):
    output = [1000 + i for i in range(places)]
    answer, count = ref.list_friends(scheme, network, v, u, output)
    return [answer] + ([count] if answer == 0 else []) + ['|'] + output


def call(function, count=3):
    return lambda scheme, network, *arguments: [function(scheme, network, *arguments[:count])]


CALLS = {
    16: ('event', ('member', 'member', 'primitive'), {7, 8, 9, 10, 11}, call(ref.event)),
    17: ('set', ('member', 'resource', 'policy'), {7, 12}, call(ref.set_policy)),
    18: ('find', ('member', 'member', 'nothing'), {9}, call(ref.find, 2)),
    19: ('list', ('member', 'member', 'places'), {9, 11, 13}, run_list),
    20: ('view', ('member', 'member', 'item'), {7, 9, 11}, call(ref.view)),
}
COMMON = {0, 1, 2, 3, 4, 5, 6}      # answers of every call


# ---- Requests: each (kind, argument, argument, argument)

def count_of(counts, sort):
    """Below what an argument has to be."""
    return {'member': counts.members, 'resource': ref.resources(counts), 'policy': counts.policies,
            'item': counts.items, 'primitive': counts.primitives}[sort]


def at_ends(counts, sort):
    """The first and last values of an argument, and some beyond."""
    if sort == 'nothing':
        return [0]
    if sort == 'places':
        return sorted({0, counts.members - 1, counts.members, counts.members + 1})
    count = count_of(counts, sort)
    more = {30, 31, 32, 33, 63, 64, 255, 256, 257} if sort == 'policy' else {count + 256} if sort == 'member' else set()
    return sorted({0, count - 1, count, count + 1, 65535} | more)


def inside(rng, read, sort, before):
    """A value that an argument is meant to have, given the one before it."""
    if sort == 'nothing':
        return 0
    if sort == 'places':
        return rng.choice([read.counts.members, read.counts.members, min(257, read.counts.members + rng.randrange(4))])
    if sort == 'policy' and before < len(read.masks) and rng.randrange(5):
        return rng.choice([p for p in range(32) if ref.offers(read.masks[before], p)])
    if sort == 'resource' and rng.randrange(2):
        return rng.choice([ref.SEARCH, ref.TRAVERSAL])
    return rng.randrange(count_of(read.counts, sort))


def random_request(rng, read, odd=0.06, kinds=None):
    """A request of an accepted scheme; some arguments are at the ends of their range or beyond."""
    kind = rng.choice(kinds or sorted(CALLS))
    arguments = [0]
    for sort in CALLS[kind][1]:
        arguments.append(rng.choice(at_ends(read.counts, sort)) if rng.random() < odd
                         else inside(rng, read, sort, arguments[-1]))
    return (kind, *arguments[1:])


def random_requests(rng, scheme, count, **given):
    read = ref.read_scheme(scheme)[1]
    return [random_request(rng, read, **given) for _ in range(count)]


def every_end(scheme):
    """Of each call, all combinations of arguments at their ends and beyond."""
    counts = ref.read_scheme(scheme)[1].counts
    return [(kind, *arguments) for kind, (_, sorts, _, _) in sorted(CALLS.items())
            for arguments in product(*(at_ends(counts, sort) for sort in sorts))]


# ---- Schemes

def some_policies(rng, states):
    """Policies of all kinds, those that admit few before those that admit many; the first do not admit strangers."""
    leaves = [NO_ONE, OWNER, within(1), within(2), within(3), within(255), known(1), known(2), clique(2), clique(3),
              clique(4), clique(5), state([q for q in range(1, states) if rng.randrange(2)], rng.randrange(3)), EVERYONE]
    count = len(leaves)
    nested = [both(rng.randrange(count), count - 2), either(rng.randrange(1, count - 1), count - 2),
              both(rng.randrange(2, count), count - 1), either(count, rng.randrange(2, count))]
    return leaves + nested


def walking_scheme(rng, n):
    """A scheme in which members are often found by chains: search seldom admits, and traversal often."""
    states = rng.choice([2, 4, 7, 16])
    policies = some_policies(rng, states)
    count = len(policies)
    everything = ref.mask_of(range(count))
    primitives, items = rng.randrange(1, 4), rng.randrange(1, 4)
    search = ref.mask_of({rng.choice([0, 1, 2, 6, 8]), rng.randrange(count), 0 if rng.randrange(2) else 1})
    traversal = rng.choice([everything, ref.mask_of({0, 3, 4, 5, 7, 9, 13})])
    friends = {q for q in range(1, states) if rng.randrange(2)} or {states - 1}
    return ref.build_scheme((n, states, primitives, items, count), random_moves(rng, states, primitives), friends, policies,
                            [search, traversal] + [everything] * (primitives + items), random_groups(rng, n))


def vouching_scheme(rng, n):
    """A scheme in which half of the members are groups, search and view are for those who are known, and some settings for
    traversal admit no one."""
    states = rng.choice([2, 4, 7, 16])
    policies = [known(1), known(2), both(0, 0), either(0, 1), EVERYONE, NO_ONE]
    by_known = ref.mask_of(range(4))
    friends = {q for q in range(1, states) if rng.randrange(2)} or {states - 1}
    return ref.build_scheme((n, states, 1, 1, 6), random_moves(rng, states, 1), friends, policies,
                            [by_known, ref.mask_of((0, 5)), by_known | 16, by_known], rng.sample(range(n), n // 2))


def standard_scheme(rng, n):
    """The standard scheme, with a sixth record or without."""
    return ref.standard_scheme(n, random_groups(rng, n))


# ---- The cases: each (scheme, network, requests)

SHAPES = [lambda rng, n: random_graph(rng, n, 0.15), lambda rng, n: random_graph(rng, n, 0.3),
          lambda rng, n: random_graph(rng, n, 0.6), chain, ring, star, near_clique,
          lambda rng, n: cliques(rng, n, rng.randrange(2, 5)), lambda rng, n: parted(rng, n, rng.randrange(2, 5))]


def shaped_network(rng, scheme, shape):
    n = ref.read_scheme(scheme)[1].counts.members
    return graph_network(rng, scheme, shuffled(rng, n, shape(rng, n)))


def standard_networks(rng):
    for i in range(72):
        scheme = standard_scheme(rng, rng.randrange(1, 13))
        network = random_network(rng, scheme) if i % 4 == 0 else shaped_network(rng, scheme, SHAPES[i % len(SHAPES)])
        yield scheme, network, random_requests(rng, scheme, 30)


def walks(rng):
    for i in range(150):
        scheme = walking_scheme(rng, rng.randrange(3, 13))
        yield scheme, shaped_network(rng, scheme, SHAPES[i % len(SHAPES)]), random_requests(rng, scheme, 36, odd=0.03)


def joined_by_groups(scheme, network):
    """The pairs of members who are no friends, and share groups alone."""
    net = ref.Network(ref.read_scheme(scheme)[1], network)
    return [(v, u) for v, u in product(range(net.counts.members), repeat=2) if v != u and v not in net.graph[u]
            and ref.friends_of_both(net.graph, v, u) and not ref.shared_friends(net.graph, net.groups, v, u)]


def vouched(rng):
    """Networks in which groups decide who is known, and so who is found."""
    for i in range(56):
        n = rng.randrange(4, 11)
        scheme = vouching_scheme(rng, n)
        network = graph_network(rng, scheme, random_graph(rng, n, (0.2, 0.3, 0.4)[i % 3]))
        near = [(kind, v, u, n if kind == 19 else 0) for v, u in joined_by_groups(scheme, network) for kind in (16, 18, 19, 20)]
        yield scheme, network, rng.sample(near, min(15, len(near))) + random_requests(rng, scheme, 15, odd=0.02)


def random_networks(rng):
    for i in range(120):
        n, states, primitives = rng.randrange(1, 13), rng.randrange(2, 17), rng.randrange(1, 9)
        scheme = accepted_scheme(rng, (n, states, primitives, rng.randrange(1, 17), rng.randrange(1, 33)))
        network = random_network(rng, scheme) if i % 3 == 0 else shaped_network(rng, scheme, SHAPES[i % len(SHAPES)])
        yield scheme, network, random_requests(rng, scheme, 24)


def ends(rng):
    schemes = [ref.standard_scheme(n) for n in (1, 2, 4)]
    schemes += [accepted_scheme(rng, (3, 16, 8, 16, 32)), accepted_scheme(rng, (2, 2, 1, 1, 1)), walking_scheme(rng, 5)]
    for scheme in schemes:
        yield scheme, random_network(rng, scheme), every_end(scheme)


def outputs(rng):
    """All lists of small networks, with outputs of n - 1, n and n + 1 places."""
    for i in range(24):
        n = rng.randrange(1, 7)
        scheme = walking_scheme(rng, n) if i % 3 else standard_scheme(rng, n)
        asked = [(19, v, u, places) for v in range(n + 1) for u in range(n) for places in (n - 1, n, n + 1)]
        yield scheme, shaped_network(rng, scheme, SHAPES[i % len(SHAPES)]), asked


def damaged_networks(rng):
    for i in range(36):
        n = rng.randrange(1, 7)
        scheme = walking_scheme(rng, n) if i % 2 else ref.standard_scheme(n)
        read = ref.read_scheme(scheme)[1]
        network = random_network(rng, scheme)
        pairs = ref.pair_count(n)
        m, r = rng.randrange(n), rng.randrange(len(read.masks))
        given = [network[:-1], network + b'\0', network + network, b'',
                 changed(network, ref.setting_place(read.counts, m, r), rng.choice(off_settings(read.masks[r]))),
                 damaged(rng, network)]
        if pairs:
            given += [changed(network, at, value) for at, value in ((0, read.counts.states), (pairs - 1, 255))]
        for bytes_given in given:
            yield scheme, bytes_given, random_requests(rng, scheme, 6, odd=0.25)


def search_by_everyone(scheme):
    read = ref.read_scheme(scheme)[1]
    at = ref.five_records(read.counts) - 4 * len(read.masks)
    return scheme[:at] + (1 << read.policies.index(EVERYONE)).to_bytes(4, 'little') + scheme[at + 4:]


def broken_schemes(rng):
    """Schemes that are cut, or have a count out of range, one byte changed, a mark of 2, a mask beyond P, state 0 marked, or
    search open to strangers. Some have a sixth record."""
    for i in range(294):
        scheme = standard_scheme(rng, rng.randrange(1, 6)) if i % 2 else walking_scheme(rng, rng.randrange(1, 6))
        network = random_network(rng, scheme)
        at = rng.randrange(4, 10)
        counts = ref.read_scheme(scheme)[1].counts
        marks, end = 18 + ref.body_lengths(counts)[0], ref.five_records(counts)
        broken = [scheme[:rng.choice([rng.randrange(end), rng.randrange(len(scheme))])],
                  changed(scheme, at, 2 if at == 5 else rng.choice([0, 33, 255]) if at > 5 else 0),
                  damaged(rng, scheme), changed(scheme, marks, 2), changed(scheme, end - 1, 255),
                  changed(scheme, marks, 1), search_by_everyone(scheme)][i % 7]
        yield broken, network, random_requests(rng, scheme, 6, odd=0.2)


def broken_groups(rng):
    """Schemes with a sixth record that is cut, of kind 7, a byte longer or shorter, followed by more, or has a byte of 2 or 255."""
    for i in range(56):
        n = rng.randrange(1, 6)
        scheme = ref.standard_scheme(n) if i % 2 else regrouped(walking_scheme(rng, n), None)
        network = random_network(rng, scheme)
        sixth = ref.groups_record(n, [rng.randrange(n)])
        off = changed(sixth, 4 + rng.randrange(n), rng.choice([2, 255]))
        more = [sixth[:-1], changed(sixth, 2, 7), ref.record(6, sixth[4:] + b'\0'), off, ref.record(6, sixth[5:]),
                sixth + rng.choice([b'\0', sixth]), off][i % 7]
        yield scheme + more, network, random_requests(rng, regrouped(scheme, []), 6, odd=0.2)


def large_networks(rng):
    """64 and 65 members: a friend row of one word, and of a word and a bit; and 256."""
    def requests(scheme, n, count, lists):
        asked = random_requests(rng, scheme, count, odd=0.04, kinds=sorted(CALLS.keys() - {19}))
        for _ in range(lists):
            asked.insert(rng.randrange(len(asked)), (19, rng.randrange(n), rng.randrange(n), n + rng.choice([0, 0, 1, -1])))
        return asked + [(19, n - 1, n - 1, n), (18, 0, n - 1, 0), (18, n - 1, 0, 0)]

    for n in (64, 65):
        for i, shape in enumerate((lambda rng, n: random_graph(rng, n, 0.05), lambda rng, n: random_graph(rng, n, 0.4),
                                   chain, ring, near_clique, lambda rng, n: cliques(rng, n, 4))):
            scheme = walking_scheme(rng, n) if i % 2 else standard_scheme(rng, n)
            yield scheme, shaped_network(rng, scheme, shape), requests(scheme, n, 24, 4)
    n = 256
    for i, shape in enumerate((lambda rng, n: random_graph(rng, n, 0.01), lambda rng, n: random_graph(rng, n, 0.02),
                               chain, lambda rng, n: cliques(rng, n, 5), lambda rng, n: random_graph(rng, n, 0.2))):
        scheme = walking_scheme(rng, n) if i % 2 else standard_scheme(rng, n)
        yield scheme, shaped_network(rng, scheme, shape), requests(scheme, n, 16, 3)
    scheme = ref.standard_scheme(n)
    network = shaped_network(rng, scheme, star)
    yield scheme, changed(network, ref.pair_count(n) - 1, 4), requests(scheme, n, 2, 1)
    yield scheme, changed(network, len(network) - 1, 5), requests(scheme, n, 2, 1)


def session(places):
    """The requests of document 01's session."""
    kinds = {name: kind for kind, (name, _, _, _) in CALLS.items()}
    for text, _ in ref.SESSION:
        name, *arguments = ref.parsed(text)
        yield (kinds[name], *arguments, *[places] * (3 - len(arguments)))


def opening(scheme):
    """Every member chooses the last policy that is offered, for every resource."""
    read = ref.read_scheme(scheme)[1]
    return [(17, m, r, mask.bit_length() - 1) for m in range(read.counts.members) for r, mask in enumerate(read.masks)]


def lists_from_fresh(rng):
    """The session, and longer lists, from fresh networks: friendships come about by events alone."""
    scheme = ref.standard_scheme(4)
    yield scheme, ref.fresh_bytes(ref.read_scheme(scheme)[1]), list(session(4))
    for i in range(32):
        n = rng.randrange(2, 6)
        scheme = walking_scheme(rng, n) if i % 2 else ref.standard_scheme(n)
        asked = random_requests(rng, scheme, 60, odd=0.02) + opening(scheme)
        asked += random_requests(rng, scheme, 120, odd=0.02, kinds=[16, 16, 16, 18, 19, 20])
        asked += random_requests(rng, scheme, 120, odd=0.02)
        yield scheme, ref.fresh_bytes(ref.read_scheme(scheme)[1]), asked


# ---- What is written

GROUPS = [lists_from_fresh, standard_networks, walks, vouched, random_networks, ends, outputs, damaged_networks, broken_schemes,
          broken_groups, large_networks]


def given(scheme, network, requests):
    return part(scheme) + part(network) + numbers(len(requests), *(value for request in requests for value in request))


def grouped_tried(name, run, scheme, network, arguments):
    """Whether the request is made with groups, and whether its answer is another without them."""
    read = ref.read_scheme(scheme)[1]
    if read is None or not ref.group_members(read):
        return {}
    with_groups, without = (run(given, bytearray(network), *arguments) for given in (scheme, regrouped(scheme, None)))
    tried = {WITH_GROUPS % name: True, GRANTED_WITHOUT: with_groups[0] != 0 == without[0]}
    return tried if name == 'set' else {**tried, OTHERWISE % name: with_groups != without}


def lines(number, tally, scheme, network, requests):
    network = bytearray(network)
    for place, (kind, *arguments) in enumerate(requests, 1):
        name, _, _, run = CALLS[kind]
        GROUPED.update(grouped_tried(name, run, scheme, network, arguments))
        printed = run(scheme, network, *arguments)
        tally['%s %2d' % (name, printed[0])] += 1
        yield ' '.join(map(str, [number, place] + printed))
    yield '%d sum %d' % (number, zlib.adler32(network))


if __name__ == '__main__':
    total = write('request_cases', GROUPS, given, lines)
    for name, _, own, _ in CALLS.values():
        for answer in sorted(COMMON | own):
            if total['%s %2d' % (name, answer)] < FEWEST:
                sys.exit('too few: %s %d' % (name, answer))
    stop_where_few(GROUPED, FEWEST)
