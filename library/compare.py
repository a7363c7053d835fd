#!/usr/bin/env python3
"""Compares the calls with tools/reference.py on random schemes, with groups and without, and networks, valid and damaged. After
requests from fresh networks under the standard scheme it compares who are friends by the network's bytes with who are by the
requests and the calls' answers alone. It stops at the first difference."""
import ctypes
import os
import random
import sys
from array import array
from collections import Counter
from itertools import product

sys.path.insert(0, os.path.join(os.path.dirname(os.path.abspath(__file__)), '..', 'tools'))
import cases
import gatekeeper
import reference as ref

ROUNDS = 400
REQUESTS = 20
UNTOUCHED = 999
NONE = 65535            # what stands in the place lent for a degree
LARGEST = 2 ** 64 - 1
FAR = (2 ** 8, 2 ** 16, 2 ** 32, LARGEST)
LISTS = 3               # of questions, for each scheme
FEWEST = 40             # how often each kind of what is counted has to occur
schemes, degrees, pages, lists, questions, events, consents = (Counter() for _ in range(7))


def expect(what, got, wanted):
    if got != wanted:
        sys.exit('%s: %r, and not %r' % (what, got, wanted))


def random_network(rng, scheme):
    counts = ref.read_scheme(scheme)[1].counts
    masks = ref.read_scheme(scheme)[1].masks
    offered = [[p for p in range(32) if ref.offers(mask, p)] for mask in masks]
    pairs = bytes(rng.randrange(counts.states) for _ in range(ref.pair_count(counts.members)))
    return bytearray(pairs + bytes(rng.choice(policies) for _ in range(counts.members) for policies in offered))


def compare_list(scheme, network, v, u, places):
    output = array('H', [UNTOUCHED] * places)
    wanted_output = [UNTOUCHED] * places
    answer, count = ref.list_friends(scheme, network, v, u, wanted_output)
    expect('list', gatekeeper.list(scheme, network, v, u, output), (answer, count if answer == 0 else None))
    expect('output', output.tolist(), wanted_output)


def compare_degree(scheme, network, v, u):
    answer, number = ref.degree(scheme, network, v, u)
    degrees['refused' if answer else 'none' if number is None else 'number' if number else 'zero'] += 1
    expect('degree', gatekeeper.degree(scheme, network, v, u), (answer, number))
    place = ctypes.c_uint16(UNTOUCHED)
    gatekeeper._request('degree', scheme, network, False, ctypes.byref(place), v=v, u=u)
    expect('place of a degree', place.value, UNTOUCHED if answer else NONE if number is None else number)


def asked(members):
    """The numbers up to n; where a changed byte made n large, the first eight and the last two of them."""
    return sorted({*range(min(members, 8)), members - 1, members})


def compare_degrees(scheme, network, members):
    """Of all pairs of asked numbers, and of member 0 and numbers that end in the bytes of a member."""
    for v, u in product(asked(members), repeat=2):
        compare_degree(scheme, network, v, u)
    for far in (2 ** 8, 2 ** 16, 2 ** 32):
        compare_degree(scheme, network, far, 0)
        compare_degree(scheme, network, 0, far)


def compare_suggest(scheme, network, v, c, places):
    output, wanted_output = (ctypes.c_uint16 * places)(*[UNTOUCHED] * places), [UNTOUCHED] * places
    answer, number = ref.suggest(scheme, network, v, c, wanted_output)
    pages['refused' if answer else 'nobody' if number == 0 else 'c' if number == c else 'fewer'] += 1
    if answer == 0:
        other = [UNTOUCHED] * places
        ref.suggest(cases.regrouped(scheme, None), network, v, c, other)
        pages['by groups'] += other != wanted_output
    count = ctypes.c_size_t(UNTOUCHED)
    got = gatekeeper._request('suggest', scheme, network, False, output, places, ctypes.byref(count), v=v, c=c)
    expect('suggest', got, answer)
    expect('place of a count', count.value, UNTOUCHED if answer else number)
    expect('output', [*output], wanted_output)
    output = array('H', [UNTOUCHED] * places)
    expect('suggest', gatekeeper.suggest(scheme, network, v, c, output), (answer, None if answer else number))
    expect('output', output.tolist(), wanted_output)


def compare_suggestions(rng, scheme, network, members):
    """Of all asked numbers, in outputs of c places, one less, one more or n; and of numbers whose low bytes are a member, or no
    more than the places."""
    for v, c in product(asked(members), repeat=2):
        compare_suggest(scheme, network, v, c, rng.choice([c, c, max(c - 1, 0), c + 1, members]))
    for far in FAR:
        compare_suggest(scheme, network, far, 1, 1)
        compare_suggest(scheme, network, 0, far, members)


def random_questions(rng, members):
    """Runs of one viewer; it may be a viewer of before, and viewer or owner a number that ends in the bytes of a member."""
    viewers = [rng.randrange(members + 1) for _ in range(3)] + [rng.choice(FAR)]
    asked = []
    for _ in range(rng.randrange(6)):
        viewer = rng.choice(viewers)
        for _ in range(rng.randrange(1, 5)):
            owner = rng.choice(FAR) if rng.randrange(20) == 0 else rng.randrange(members + 1)
            asked.append([viewer, owner, rng.choice(FAR) if rng.randrange(20) == 0 else rng.randrange(5), rng.randrange(256)])
    return asked


def count_questions(scheme, network, asked):
    """Answers, and whether the viewer before asked too, another one did, or a further one came between."""
    for i, (v, u, o, answer) in enumerate(asked):
        before = [question[0] for question in asked[:i]]
        last = before[-1] if before else None
        questions[answer] += 1
        questions['same viewer' if v == last else 'viewer of before' if v in before else 'new viewer'] += 1
        if last not in (None, v):
            questions['another answer for the viewer before'] += ref.view(scheme, network, last, u, o) != answer


def compare_views(scheme, network, asked):
    lent, wanted = (gatekeeper.Question * len(asked))(*map(tuple, asked)), [[*question] for question in asked]
    answer = ref.views(scheme, network, wanted)
    lists[('refused' if answer else 'answered') + ('' if asked else ', empty')] += 1
    if answer == 0:
        count_questions(scheme, network, wanted)
    expect('views', gatekeeper.views(scheme, network, lent), answer)
    expect('questions', [[question.viewer, question.owner, question.item, question.answer] for question in lent], wanted)


def compare_request(rng, scheme, network, members):
    name = rng.choice(['event', 'set', 'find', 'list', 'view'])
    x, y, z = rng.randrange(members + 1), rng.randrange(members + 1), rng.randrange(12)
    if name == 'list':
        return compare_list(scheme, network, x, y, rng.choice([members, members + 3, max(members - 1, 0)]))
    arguments = {'event': (x, y, z), 'set': (x, z, rng.randrange(34)), 'find': (x, y), 'view': (x, y, z)}[name]
    ours, wanted = bytearray(network), bytearray(network)
    call = {'event': ref.event, 'set': ref.set_policy, 'find': ref.find, 'view': ref.view}[name]
    expect(name, getattr(gatekeeper, name)(scheme, ours, *arguments), call(scheme, wanted, *arguments))
    expect('network', ours, wanted)
    network[:] = wanted


def kind_of_groups(read):
    return 'five records' if read.groups is None else 'groups' if ref.group_members(read) else 'persons'


def compare_scheme(rng):
    members = rng.randrange(1, 9)
    scheme = cases.accepted_scheme(rng, (members, rng.randrange(1, 6), rng.randrange(1, 5), rng.randrange(1, 5), rng.randrange(1, 9)))
    if rng.randrange(4) == 0:
        scheme = cases.damaged(rng, scheme)
    answer, read = ref.read_scheme(scheme)
    schemes['refused' if answer else kind_of_groups(read)] += 1
    expect('check', gatekeeper.check(scheme), answer)
    length = ref.network_length(ref.read_scheme(scheme)[1].counts) if ref.check(scheme) == 0 else 0
    expect('length', gatekeeper.network_length(scheme), length)
    network = bytearray(rng.randrange(256) for _ in range(rng.randrange(200)))
    if ref.check(scheme) == 0:
        network = random_network(rng, scheme)
        members = ref.read_scheme(scheme)[1].counts.members
    if rng.randrange(8) == 0:
        network = bytearray(cases.damaged(rng, bytes(network))) if network else network
    for _ in range(REQUESTS):
        compare_request(rng, scheme, network, members)
    compare_degrees(scheme, network, members)
    compare_suggestions(rng, scheme, network, members)
    for _ in range(LISTS):
        compare_views(scheme, network, random_questions(rng, members))
    ours, wanted = bytearray(network), bytearray(network)
    expect('fresh', gatekeeper.fresh(scheme, ours), ref.fresh(scheme, wanted))
    expect('network', ours, wanted)


def consent_request(rng, scheme, network, members, acting):
    """A request under the standard scheme: often an event of some members, granted if one of some tries is; or any."""
    if rng.randrange(4) and len(acting) > 1:
        tries = [(*rng.sample(acting, 2), rng.randrange(4)) for _ in range(8)]
        granted = (event for event in tries if gatekeeper.event(scheme, bytearray(network), *event) == 0)
        return ('event', *next(granted, tries[0]))
    x, y, z, p = rng.choice([*acting, members]), rng.choice([*acting, members]), rng.randrange(10), rng.randrange(14)
    return rng.choice([('event', x, y, z), ('event', x, y, z % 4), ('set', x, z, p), ('set', x, z % 3, p), ('find', x, y),
                       ('list', x, y), ('view', x, y, z % 4)])


def answer_of(scheme, network, members, name, *arguments):
    if name == 'list':
        return gatekeeper.list(scheme, network, *arguments, array('H', [UNTOUCHED] * members))[0]
    return getattr(gatekeeper, name)(scheme, network, *arguments)


def count_pair(answered, v, u):
    """By whether two members are friends, or else by the last granted event between them."""
    granted = ref.granted_between(answered, v, u)
    consents['friends' if ref.friends_by_consent(answered, v, u) else ref.EVENTS[granted[-1][1]] if granted else 'no event'] += 1


def compare_consent(rng):
    """After requests from a fresh network under the standard scheme, of all pairs of members: whether the network's bytes make
    them friends, and whether the requests and the calls' answers do."""
    members = rng.choice([1, 2, 3, 4, 5, 8, 65])
    acting = sorted({members - 1, *rng.sample(range(members), min(members, 4))})
    scheme = ref.standard_scheme(members)
    network = bytearray(rng.randbytes(gatekeeper.network_length(scheme)))
    expect('fresh', gatekeeper.fresh(scheme, network), 0)
    opened = ((ref.SEARCH, 12), (ref.TRAVERSAL, 4), (ref.PRIMITIVES + ref.INVITE, 4))
    opening = [('set', m, r, p) for m in acting for r, p in opened]
    answered = []
    for i in range(len(opening) + rng.randrange(6 * len(acting) ** 2)):
        request = opening[i] if i < len(opening) else consent_request(rng, scheme, network, members, acting)
        answered.append((request, answer_of(scheme, network, members, *request)))
        if request[0] == 'event' and request[3] < len(ref.EVENTS):
            events[ref.EVENTS[request[3]] + ('' if answered[-1][1] == 0 else ' refused')] += 1
    read = ref.read_scheme(scheme)[1]
    expect('validity', ref.is_valid(read, network), True)
    graph = ref.Network(read, network).graph
    for v, u in product(range(members), repeat=2):
        expect('friends %d and %d' % (v, u), u in graph[v], ref.friends_by_consent(answered, v, u))
        if v < u:
            count_pair(answered, v, u)


def main():
    rng = random.Random(1)
    for _ in range(ROUNDS):
        compare_scheme(rng)
    for _ in range(ROUNDS):
        compare_consent(rng)
    for what, counted, kinds in (('schemes', schemes, ('refused', 'five records', 'persons', 'groups')),
                                 ('degrees', degrees, ('number', 'none', 'refused')),
                                 ('suggestions', pages, ('c', 'fewer', 'nobody', 'refused', 'by groups')),
                                 ('lists', lists, ('answered', 'answered, empty', 'refused', 'refused, empty')),
                                 ('questions', questions, (0, 6, 7, 9, 11, 'same viewer', 'viewer of before', 'new viewer',
                                                           'another answer for the viewer before')),
                                 ('events', events, ref.EVENTS + tuple(event + ' refused' for event in ref.EVENTS)),
                                 ('pairs', consents, ('friends', 'invite', 'ignore', 'remove', 'no event'))):
        if min(counted[kind] for kind in kinds) < FEWEST:
            sys.exit('too few %s of a kind: %s' % (what, dict(counted)))
    print('library: %d random schemes with %d requests, degrees, suggestions and lists of views each answer as reference.py '
          'does, and %d lists of requests make friends by consent' % (ROUNDS, REQUESTS, ROUNDS))


if __name__ == '__main__':
    main()
