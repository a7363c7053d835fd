#!/usr/bin/env python3
"""Writes the cases of the program admission_cases and the text that it must print, by reference.py.

A case is a 2-byte length and a scheme's bytes, a 2-byte length and a network's bytes, a 2-byte count of questions, and for
each question an accessor v and an owner u of 2 bytes each. The scheme is accepted and the network valid.
A question's line, K being the case's number from 1:
    K v u SET     bit p of SET: policy p admits v to what u has
"""
import sys
from collections import Counter

sys.dont_write_bytecode = True      # no __pycache__ in the repository
import reference as ref
from cases import (NO_ONE, EVERYONE, OWNER, within, known, clique, state, both, either, part, numbers,
                   random_graph, chain, ring, star, cliques, parted, near_clique, shuffled, graph_network, random_groups,
                   shared_otherwise, graph_of_persons, stop_where_few, write)

FEWEST = 100        # how often each policy has to admit a member other than the owner, and to refuse one, and each entry of GROUPED


# ---- Schemes

def random_state(rng, states, k):
    return state([q for q in range(states) if rng.randrange(2)], k)


def random_leaf(rng, states):
    return rng.choice([NO_ONE, EVERYONE, OWNER, within(rng.choice([1, 2, 3, 4, 255])), known(rng.randrange(1, 5)),
                       clique(rng.randrange(2, 6)), random_state(rng, states, rng.randrange(3))])


def every_leaf(rng, states):
    return ([NO_ONE, EVERYONE, OWNER] + [within(k) for k in (1, 2, 3, 4, 255)] + [known(k) for k in (1, 2, 3, 4)]
            + [clique(k) for k in (2, 3, 4, 5)] + [random_state(rng, states, k) for k in (0, 1, 2)])


def nested(rng, leaves, count):
    """The leaves in random order, and among them policies both and either of two lower ones, to this count."""
    kinds = ['leaf'] * (len(leaves) - 1) + ['nest'] * (count - len(leaves))
    waiting = rng.sample(leaves, len(leaves))
    policies = [waiting.pop()]
    for kind in rng.sample(kinds, len(kinds)):
        own = len(policies)
        policies.append(waiting.pop() if kind == 'leaf'
                        else rng.choice([both, either])(rng.randrange(own), rng.randrange(own)))
    return policies


def scheme_of(n, states, friends, policies, groups):
    """An accepted scheme, or None where every policy admits strangers: search offers the others, the rest offer all."""
    count = len(policies)
    everything = ref.mask_of(range(count))

    def built(search):
        return ref.build_scheme((n, states, 1, 1, count), {}, friends, policies, [search] + [everything] * 3, groups)

    apart = [p for p in range(count) if ref.check(built(1 << p)) == 0]
    return built(ref.mask_of(apart)) if apart else None


def random_scheme(rng, n, whole=False):
    """An accepted scheme with several states that make friends, if it has several; with every leaf if whole."""
    groups = random_groups(rng, n)
    while True:
        states = rng.choice([1, 2, 3, 4, 5, 8, 9, 15, 16, 16])
        friends = {q for q in range(1, states) if rng.randrange(2)} or {states - 1} - {0}
        if whole:
            policies = nested(rng, every_leaf(rng, states), 32)
        else:
            count = rng.randrange(1, 33)
            leaves = rng.randrange(max(1, count // 2), count + 1)
            policies = nested(rng, [random_leaf(rng, states) for _ in range(leaves)], count)
        scheme = scheme_of(n, states, friends, policies, groups)
        if scheme and (states > 1 or not whole):
            return scheme


# ---- Questions

def all_questions(n):
    return [(v, u) for v in range(n) for u in range(n)]


def near_questions(rng, scheme, network, count):
    """Pairs of members near each other more often than by chance; some accessors are the owner."""
    net = ref.Network(ref.read_scheme(scheme)[1], network)
    members = range(net.counts.members)
    asked = []
    for _ in range(count):
        v = u = rng.choice(members)
        for _ in range(rng.choice([0, 1, 1, 1, 2, 2, 3])):
            u = rng.choice(sorted(net.graph[u]) or members)
        asked.append((v, rng.choice(members) if rng.randrange(4) == 0 else u))
    return asked


# ---- The cases: each (scheme, network, questions)

SHAPES = [lambda rng, n: random_graph(rng, n, 0.15), lambda rng, n: random_graph(rng, n, 0.3),
          lambda rng, n: random_graph(rng, n, 0.5), lambda rng, n: random_graph(rng, n, 0.75),
          chain, ring, star, near_clique, lambda rng, n: cliques(rng, n, rng.randrange(3, 6)),
          lambda rng, n: parted(rng, n, rng.randrange(2, 6))]


def small_graphs(rng):
    for i in range(360):
        n = rng.randrange(1, 13)
        scheme = random_scheme(rng, n, whole=i % 3 == 0)
        graph = shuffled(rng, n, SHAPES[i % len(SHAPES)](rng, n))
        network = graph_network(rng, scheme, graph)
        yield scheme, network, all_questions(n) if n < 6 else near_questions(rng, scheme, network, 24)


def large(rng, n, graph, questions, policies=None, groups=None):
    """A case of a scheme with every leaf, or of these policies and groups, on a graph with its members in random order."""
    scheme = scheme_of(n, 8, {3, 4, 7}, policies, groups) if policies else random_scheme(rng, n, whole=True)
    network = graph_network(rng, scheme, shuffled(rng, n, graph))
    return scheme, network, near_questions(rng, scheme, network, questions)


def at_word_ends(rng):
    """64 and 65 members: a friend row of one word, and of a word and a bit."""
    for n in (64, 65):
        for graph in (random_graph(rng, n, 0.03), random_graph(rng, n, 0.06), random_graph(rng, n, 0.5),
                      chain(rng, n), ring(rng, n), near_clique(rng, n), cliques(rng, n, 5), cliques(rng, n, 4),
                      parted(rng, n, 2), parted(rng, n, 3), parted(rng, n, 4), parted(rng, n, 5)):
            scheme, network, questions = large(rng, n, graph, 36)
            last = [(n - 1, u) for u in (0, 1, 62, 63, n - 1)] + [(v, n - 1) for v in (0, 1, 62, 63)]
            yield scheme, network, questions + last


FAR = [NO_ONE, EVERYONE] + [within(k) for k in (1, 2, 3, 126, 127, 128, 129, 253, 254, 255)]
SHARED = [NO_ONE, EVERYONE] + [known(k) for k in (1, 63, 64, 65, 127, 128, 192, 193, 249, 250, 251, 252, 253, 254, 255)]


def most_members(rng):
    n = 256
    yield large(rng, n, random_graph(rng, n, 0.01), 30)
    yield large(rng, n, random_graph(rng, n, 0.02), 30)
    yield large(rng, n, random_graph(rng, n, 0.4), 16)
    yield large(rng, n, near_clique(rng, n), 16)
    yield large(rng, n, cliques(rng, n, 6), 30)
    yield large(rng, n, parted(rng, n, 4), 6)
    # the ends of a chain are 255 friendships apart, the far sides of a ring 128
    for graph in (chain(rng, n), ring(rng, n)):
        scheme, network, questions = large(rng, n, graph, 10, FAR)
        net = ref.Network(ref.read_scheme(scheme)[1], network)
        for _ in range(3):
            v = min(range(n), key=lambda m: (len(net.graph[m]), rng.random()))
            steps = sorted(range(n), key=lambda u: ref.distance(net.graph, u, v))
            for far in (125, 126, 127, 128, 129, 130, 250, 252, 253, 254, 255):
                questions.append((v, steps[far]))
                questions.append((steps[far], v))
        yield scheme, network, questions
    # two who are no friends share nearly all, about half and about a quarter of the members; and so where some are groups
    for graph, groups in ((near_clique(rng, n), None), (random_graph(rng, n, 0.7), None), (random_graph(rng, n, 0.5), None),
                          (near_clique(rng, n), [*range(64, 124), 255]), (near_clique(rng, n), rng.sample(range(n), 190))):
        scheme, network, questions = large(rng, n, graph, 6, SHARED, groups)
        net = ref.Network(ref.read_scheme(scheme)[1], network)
        strangers = [(v, u) for v, u in all_questions(n) if v != u and u not in net.graph[v]]
        yield scheme, network, questions + rng.sample(strangers, min(40, len(strangers)))


GROUPS = [small_graphs, at_word_ends, most_members]


# ---- What is written

def given(scheme, network, questions):
    return part(scheme) + part(network) + numbers(len(questions), *(member for question in questions for member in question))


def kind_name(policy):
    kind, k = policy[:2]
    name = ('no one', 'everyone', 'owner', 'within', 'known', 'clique', 'state', 'both', 'either')[kind]
    return name + ' %d' % k if kind in (3, 4, 5, 6) else name


SELDOM = {kind_name(policy) for k in range(5, 255) for policy in (within(k), known(k))} | {kind_name(known(255))}
KINDS = Counter()       # (kind of policy, whether the accessor is the owner, whether it is admitted)


# what groups have to do with what policies known, within and clique answer of two members
GROUPED = Counter({name: 0 for name in ('known, a friend that is a group', 'within, by groups alone', 'clique, by groups alone')})


def known_tried(net, v, u, k, known):
    """For a policy known k, asked of two who are no friends: by whom they are known, and which wrong counts answer otherwise."""
    persons = ref.shared_friends(net.graph, net.groups, v, u)
    groups = ref.friends_of_both(net.graph, v, u) - persons
    answered = 'known' if known else 'not known'
    return {'%s, of five records' % answered: net.scheme.groups is None,
            '%s, with a sixth record of persons' % answered: net.scheme.groups is not None and not net.groups,
            '%s, groups shared' % answered: groups != set(), '%s, groups alone shared' % answered: groups != set() == persons,
            '%s, the owner a group' % answered: u in net.groups, '%s, the accessor a group' % answered: v in net.groups,
            **{'known otherwise: ' + name: (count >= k) != known for name, count in shared_otherwise(net, u, v).items()}}


def note_groups(net, v, u, policy, admitted):
    kind, k = policy[:2]
    if kind == 4 and u != v and u not in net.graph[v]:
        GROUPED.update(known_tried(net, v, u, k, admitted))
    if kind == 4 and u in net.graph[v]:
        GROUPED['known, a friend that is a group'] += v in net.groups or u in net.groups
    if kind == 3 and admitted and net.groups and u != v:
        steps = ref.distance(graph_of_persons(net, u, v), u, v)
        GROUPED['within, by groups alone'] += steps is None or steps > k
    if kind == 5 and admitted and net.groups and u != v:
        GROUPED['clique, by groups alone'] += not ref.in_clique(graph_of_persons(net, u, v), u, v, k)


def lines(number, tally, scheme, network, questions):
    answer, read = ref.read_scheme(scheme)
    if answer != 0 or not ref.is_valid(read, network):
        sys.exit('case %d: not ready' % number)
    net = ref.Network(read, network)
    for v, u in questions:
        admitted = [p for p in range(len(read.policies))
                    if ref.admits(read.policies, p, u, v, net.graph, net.groups, net.state(u, v))]
        for p, policy in enumerate(read.policies):
            KINDS[kind_name(policy), u == v, p in admitted] += 1
            note_groups(net, v, u, policy, p in admitted)
        tally['questions'] += 1
        yield '%d %d %d %d' % (number, v, u, ref.mask_of(admitted))


def report():
    """Prints how often each kind admits and refuses; stops where one is seen too seldom."""
    print('%-12s %16s %16s' % ('policy', 'others yes/no', 'owner yes/no'))
    for name in sorted({name for name, _, _ in KINDS}):
        others = KINDS[name, False, True], KINDS[name, False, False]
        owner = KINDS[name, True, True], KINDS[name, True, False]
        print('%-12s %16s %16s' % (name, '%d/%d' % others, '%d/%d' % owner))
        wanted = {'no one': others[1:] + owner[1:], 'everyone': others[:1] + owner[:1], 'owner': others[1:] + owner[:1]}
        if min(wanted.get(name, others)) < FEWEST and name not in SELDOM:
            sys.exit('too few: ' + name)
    if GROUPED.pop('known, groups alone shared'):
        sys.exit('two are known by groups alone')
    stop_where_few(GROUPED, FEWEST)


if __name__ == '__main__':
    write('admission_cases', GROUPS, given, lines)
    report()
