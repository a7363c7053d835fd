"""What the makers of cases share: policies, random schemes and networks, and the writing of the files."""
import os
import random
import sys
from collections import Counter

import reference as ref

MOST_BYTES = 900 * 1000

NO_ONE, EVERYONE, OWNER = (0, 0, 0, 0), (1, 0, 0, 0), (2, 0, 0, 0)


def within(k): return (3, k, 0, 0)
def known(k): return (4, k, 0, 0)
def clique(k): return (5, k, 0, 0)
def state(states, k): return (6, k, ref.mask_of(states) % 256, ref.mask_of(states) // 256)
def both(left, right): return (7, 0, left, right)
def either(left, right): return (8, 0, left, right)


# ---- Bytes

def changed(data, at, value):
    return data[:at] + bytes([value]) + data[at + 1:]


def damaged(rng, data):
    """One byte of another value."""
    at = rng.randrange(len(data))
    return changed(data, at, (data[at] + rng.randrange(1, 256)) % 256)


def part(data):
    """A 2-byte length and the bytes."""
    return len(data).to_bytes(2, 'little') + data


def parts(data):
    """The bytes of each part."""
    at = 0
    while at < len(data):
        length = ref.number(data, at)
        yield data[at + 2:at + 2 + length]
        at += 2 + length


def numbers(*values):
    return b''.join(value.to_bytes(2, 'little') for value in values)


# ---- Schemes

def random_policy(rng, own, states):
    kind = rng.randrange(9 if own else 7)
    if kind < 3:
        return (kind, 0, 0, 0)
    if kind < 5:
        return (kind, rng.choice([1, 2, 3, 255, rng.randrange(1, 256)]), 0, 0)
    if kind == 5:
        return clique(rng.randrange(2, 6))
    if kind == 6:
        return state([q for q in range(states) if rng.randrange(2)], rng.randrange(3))
    return (kind, 0, rng.randrange(own), rng.randrange(own))


def random_moves(rng, states, primitives):
    return {(q, b, a): rng.choice([255, rng.randrange(states)])
            for q in range(states) for b in (0, 1) for a in range(primitives)}


def random_groups(rng, n):
    """The members that are groups: few, half, most or all of them; or None, for no sixth record."""
    density = rng.choice([None, None, 0, 0.25, 0.25, 0.5, 0.5, 0.75, 1])
    return None if density is None else [m for m in range(n) if rng.random() < density]


def regrouped(scheme, groups):
    """An accepted scheme with another sixth record, or without one where groups is None."""
    counts = ref.read_scheme(scheme)[1].counts
    return scheme[:ref.five_records(counts)] + (b'' if groups is None else ref.groups_record(counts.members, groups))


def random_scheme(rng, counts):
    """A scheme that passes answers 1 to 3, with a sixth record or without."""
    counts = ref.Counts(*counts)
    moves = random_moves(rng, counts.states, counts.primitives)
    friends = {q for q in range(1, counts.states) if rng.randrange(2)}
    policies = [random_policy(rng, p, counts.states) for p in range(counts.policies)]
    masks = [rng.randrange(1, 2 ** counts.policies) & rng.randrange(2 ** counts.policies) or 2 ** (counts.policies - 1)
             for _ in range(ref.resources(counts))]
    return ref.build_scheme(counts, moves, friends, policies, masks, random_groups(rng, counts.members))


def accepted_scheme(rng, counts):
    while True:
        scheme = random_scheme(rng, counts)
        if ref.check(scheme) == 0:
            return scheme


def random_counts(rng):
    return (rng.randrange(1, 9), rng.randrange(1, 17), rng.randrange(1, 9), rng.randrange(1, 17), rng.randrange(1, 33))


# ---- Networks of an accepted scheme

def fresh_network(scheme):
    return ref.fresh_bytes(ref.read_scheme(scheme)[1])


def random_network(rng, scheme):
    """A valid one."""
    read = ref.read_scheme(scheme)[1]
    offered = [[p for p in range(32) if ref.offers(mask, p)] for mask in read.masks]
    states = read.counts.states
    pairs = bytes(rng.randrange(states) for _ in range(ref.pair_count(read.counts.members)))
    return pairs + bytes(rng.choice(choice) for _ in range(read.counts.members) for choice in offered)


def off_settings(mask):
    """Bytes just outside a mask, and bytes that no mask offers: also those that agree modulo 32."""
    offered = [p for p in range(32) if ref.offers(mask, p)]
    near = {p + d for p in offered for d in (-1, 1)} - set(offered) - {-1}
    return sorted(near | {32, 255, min(offered) + 32, min(offered) + 128, max(offered) + 224})


# ---- Graphs, as sets of pairs (i, j) with i < j

def pairs_of(members):
    return {(i, j) for j in members for i in members if i < j}


def random_graph(rng, n, density):
    return {pair for pair in pairs_of(range(n)) if rng.random() < density}


def chain(rng, n):
    return {(i, i + 1) for i in range(n - 1)}


def ring(rng, n):
    return chain(rng, n) | ({(0, n - 1)} if n > 2 else set())


def star(rng, n):
    return {(0, j) for j in range(1, n)}


def cliques(rng, n, size):
    """Cliques of one size, each tied to the next by one friendship."""
    graph = chain(rng, n)
    for first in range(0, n, size):
        graph |= pairs_of(range(first, min(first + size, n)))
    return graph


def parted(rng, n, count):
    """Friends are those of different parts: with that many parts there are cliques of so many members, and none of more."""
    return {(i, j) for i, j in pairs_of(range(n)) if i % count != j % count}


def near_clique(rng, n):
    """A clique of all members but for a few friendships."""
    graph = pairs_of(range(n))
    return graph - set(rng.sample(sorted(graph), min(len(graph), rng.randrange(1, 2 + n // 2))))


def shuffled(rng, n, graph):
    names = rng.sample(range(n), n)
    return {(min(names[i], names[j]), max(names[i], names[j])) for i, j in graph}


# ---- Groups: what is counted by definitions that are not document 02's

def shared_otherwise(net, u, v):
    """How many friends two members share, by wrong definitions."""
    common = ref.friends_of_both(net.graph, u, v)
    persons = common - net.groups
    return {'groups counted': len(common), 'groups counted alone': len(common & net.groups),
            'friends of a group not counted': 0 if {u, v} & net.groups else len(persons),
            'the byte before read': len(common - {m + 1 for m in net.groups}),
            'the byte behind read': len(common - {m - 1 for m in net.groups})}


def graph_of_persons(net, u, v):
    """The graph without the groups but for two members."""
    hidden = net.groups - {u, v}
    return [set() if m in hidden else friends - hidden for m, friends in enumerate(net.graph)]


# ---- Networks of a graph

def friendly_states(read):
    return [q for q, mark in enumerate(read.marks) if mark == 1]


def graph_network(rng, scheme, graph):
    """A valid network in which the graph's pairs are friends and no others, as far as the scheme has states for it."""
    read = ref.read_scheme(scheme)[1]
    n = read.counts.members
    network = bytearray(random_network(rng, scheme))
    friendly = friendly_states(read)
    others = [q for q in range(read.counts.states) if q not in friendly]
    for i, j in pairs_of(range(n)):
        network[ref.pair_place(i, j)] = rng.choice(friendly if (i, j) in graph and friendly else others)
    return bytes(network)


# ---- What is written

def write(program, groups, given, lines):
    """Makes the cases of each group, with random numbers of its own, and writes the program's stdin and stdout.

    given: a case's bytes. lines: what the program prints of a case, by its number; it counts answers in a tally."""
    total, stdin, stdout, number = Counter(), [], [], 0
    for group in groups:
        rng = random.Random('document 01, ' + group.__name__)
        tally = Counter()
        first = number + 1
        for case in group(rng):
            number += 1
            stdin.append(given(*case))
            stdout.extend(lines(number, tally, *case))
        total += tally
        print('%4d to %4d  %-24s %s' % (first, number, group.__name__, tally_text(tally)))
    stdin = b''.join(stdin)
    print('%d cases: %s' % (number, tally_text(total)))
    print('%d bytes in, %d lines out' % (len(stdin), len(stdout)))
    if len(stdin) > MOST_BYTES:
        sys.exit('too many bytes')
    folder = os.path.join(os.path.dirname(os.path.abspath(__file__)), '..', 'crates', program)
    os.makedirs(folder, exist_ok=True)
    with open(os.path.join(folder, 'stdin'), 'wb') as file:
        file.write(stdin)
    with open(os.path.join(folder, 'stdout'), 'w') as file:
        file.write('\n'.join(stdout) + '\n')
    return total


def stop_where_few(counted, fewest, seldom=None):
    """Prints how often each is so; stops where one is too seldom."""
    for name, count in sorted(counted.items()):
        print('%-48s %5d' % (name, count))
    few = [name for name, count in sorted(counted.items()) if count < (seldom or {}).get(name, fewest)]
    if few:
        sys.exit('too few: ' + ', '.join(few))


def tally_text(tally):
    return ', '.join('%s: %d' % entry for entry in sorted(tally.items()))
