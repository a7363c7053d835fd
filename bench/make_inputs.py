#!/usr/bin/env python3
"""Writes what bench/bench.rs runs: make_inputs.py FOLDER. For each name in FOLDER/names the files NAME.scheme, NAME.network,
NAME.finds, NAME.mix, NAME.suggestions and NAME.views; the last four are requests as text, one to a line, and the last two are
empty for some."""
import os
import random
import sys

sys.path.insert(0, os.path.join(os.path.dirname(os.path.abspath(__file__)), '..', 'tools'))
import cases
import reference as ref

SIZES = (4, 64, 256)
MOST = (16, 8, 16)          # states, primitives, items: the longest network
FRIENDS = 3                 # the state that makes friends, in every scheme here
FINDS, MIX = 32, 60         # requests to a file
FEW_FINDS, FEW_MIX = 4, 10  # under the nested scheme, where one may take a tenth of a second
WANTED = 20                 # suggestions
VIEWS = 40                  # of one viewer


# ---- Schemes

def relations_scheme(n):
    """Within and known, alone and combined, with the most of everything."""
    policies = [cases.NO_ONE, cases.OWNER, cases.within(1), cases.within(2), cases.within(3), cases.known(1), cases.known(2),
                cases.known(20), cases.EVERYONE, cases.either(2, 7), cases.both(3, 6), cases.both(4, 5)]
    policies += [cases.either(p - 1, p - 2) for p in range(len(policies), 32)]
    return longest_scheme(n, policies, [range(0, 8), range(2, 12)] + 24 * [range(32)])


def nested_scheme(n):
    """Clique 5 under 31 combinations: a recursion on the operands would take 2^31 steps."""
    policies = [cases.clique(5)] + [cases.either(p - 1, p - 1) for p in range(1, 32)]
    return longest_scheme(n, policies, 26 * [[31]])


def longest_scheme(n, policies, offered):
    states, primitives, items = MOST
    moves = cases.random_moves(random.Random(5), states, primitives)
    return ref.build_scheme((n, states, primitives, items, len(policies)), moves, {FRIENDS}, policies, [ref.mask_of(o) for o in offered])


# ---- Graphs: whether two members, the lesser first, are friends

def dense(n, rng):
    """All are friends but each member and the one opposite."""
    return lambda i, j: j - i != n // 2


def full(n, rng):
    return lambda i, j: True


def half(n, rng):
    """Half of all pairs."""
    pairs = [(i, j) for j in range(n) for i in range(j)]
    chosen = set(rng.sample(pairs, len(pairs) // 2))
    return lambda i, j: (i, j) in chosen


def sparse(n, rng):
    """Some four friends each."""
    chosen = {(min(m, k), max(m, k)) for m in range(n) for k in rng.sample(range(n), 2) if k != m}
    return lambda i, j: (i, j) in chosen


def chain(n, rng):
    return lambda i, j: j - i == 1


def parts(n, rng):
    """All but the last are friends of member 0, and of each other unless they are in one of three parts; the last has no friend."""
    return lambda i, j: j != n - 1 and (i == 0 or i % 3 != j % 3)


# ---- Networks

def network(scheme_bytes, friends, settings, rng):
    """Pairs that are no friends are strangers. The settings are for each resource a list of policies to draw from, or None for all."""
    scheme = ref.read_scheme(scheme_bytes)[1]
    n = scheme.counts.members
    pairs = bytes(FRIENDS * friends(i, j) for j in range(n) for i in range(j))
    drawn = [settings.get(r) or [p for p in range(32) if ref.offers(mask, p)] for r, mask in enumerate(scheme.masks)]
    return pairs + bytes(rng.choice(policies) for _ in range(n) for policies in drawn)


# ---- Requests

def opposite(n, rng):
    v = rng.randrange(n)
    return v, (v + n // 2) % n


def anyone(n, rng):
    return rng.randrange(n), rng.randrange(n)


def ends(n, rng):
    return 0, n - 1


def mixed(scheme_bytes, n, pick, rng):
    counts = ref.read_scheme(scheme_bytes)[1].counts
    v, u = pick(n, rng)
    kind = rng.choice(['event', 'set', 'find', 'list', 'view'])
    return {'event': ('event', v, u, rng.randrange(counts.primitives)),
            'set': ('set', u, 2 + rng.randrange(counts.primitives + counts.items), rng.randrange(counts.policies)),
            'find': ('find', v, u), 'list': ('list', v, u),
            'view': ('view', v, u, rng.randrange(counts.items))}[kind]


def viewed(scheme_bytes, n, rng):
    """Views of one viewer; each owner and item is drawn from all."""
    items, v = ref.read_scheme(scheme_bytes)[1].counts.items, rng.randrange(n)
    return [('view', v, rng.randrange(n), rng.randrange(items)) for _ in range(VIEWS)]


# Each case: its name, the scheme, the graph, the settings of search (0) and traversal (1), and who asks for whom.
CASES = [
    ('dense_standard', ref.standard_scheme, dense, {0: [8], 1: [2, 3, 4]}, opposite),
    ('dense_relations', relations_scheme, dense, {0: [0]}, opposite),
    ('full_standard', ref.standard_scheme, full, {}, anyone),
    ('half_standard', ref.standard_scheme, half, {0: [8], 1: [4]}, anyone),
    ('sparse_standard', ref.standard_scheme, sparse, {0: [8, 10]}, anyone),
    ('sparse_relations', relations_scheme, sparse, {}, anyone),
    ('chain_standard', ref.standard_scheme, chain, {0: [8], 1: [4]}, ends),
    ('chain_relations', relations_scheme, chain, {0: [0], 1: [8]}, ends),
    ('full_nested', nested_scheme, full, {}, anyone),
    ('parts_nested', nested_scheme, parts, {}, ends),
]

# The cases in which each member in turn asks for suggestions.
SUGGESTING = {'half_standard', 'sparse_standard', 'chain_standard'}

# The cases in which one member asks for many views.
VIEWING = {'dense_standard', 'dense_relations', 'full_standard', 'half_standard', 'sparse_standard', 'sparse_relations'}


def write(folder, name, data):
    with open(os.path.join(folder, name), 'wb') as file:
        file.write(data)


def lines(requests):
    return ''.join(' '.join(map(str, request)) + '\n' for request in requests).encode()


def main(folder):
    os.makedirs(folder, exist_ok=True)
    names = []
    for name, make_scheme, graph, settings, pick in CASES:
        for n in SIZES:
            rng = random.Random('%s %d' % (name, n))
            scheme = make_scheme(n)
            if ref.check(scheme) != 0:
                sys.exit('%s is no scheme' % name)
            finds, mix = (FEW_FINDS, FEW_MIX) if make_scheme is nested_scheme else (FINDS, MIX)
            names.append('%s_%d' % (name, n))
            write(folder, names[-1] + '.scheme', scheme)
            write(folder, names[-1] + '.network', network(scheme, graph(n, rng), settings, rng))
            write(folder, names[-1] + '.finds', lines(('find', *pick(n, rng)) for _ in range(finds)))
            write(folder, names[-1] + '.mix', lines(mixed(scheme, n, pick, rng) for _ in range(mix)))
            write(folder, names[-1] + '.suggestions', lines(('suggest', v, WANTED) for v in range(n) if name in SUGGESTING))
            write(folder, names[-1] + '.views', lines(viewed(scheme, n, rng) if name in VIEWING else []))
    write(folder, 'names', lines((name,) for name in names))


if __name__ == '__main__':
    main(sys.argv[1])
