#!/usr/bin/env python3
"""Writes the cases of the program question_cases and the text that it must print, by reference.py.

A case is a 2-byte length and a scheme's bytes, a 2-byte length and a network's bytes, a 2-byte count of questions, at most 300,
and for each question the viewer, the owner and the item of 8 bytes each, and the byte that its answer place holds before the
call. A case's line, K being its number from 1, has the answer of the whole list, and each question's four fields after the call:
    K ANSWER | VIEWER OWNER ITEM ANSWER | VIEWER OWNER ITEM ANSWER ..
    K ANSWER                                        for the empty list
"""
import sys
from collections import Counter, deque, namedtuple
from functools import lru_cache
from itertools import combinations, groupby, islice, product

sys.dont_write_bytecode = True      # no __pycache__ in the repository
import make_request_cases as requests
import reference as ref
from cases import (NO_ONE, EVERYONE, OWNER, within, known, state, changed, part, numbers, accepted_scheme, random_network,
                   random_graph, chain, ring, star, cliques, shuffled, graph_network, random_groups, regrouped, stop_where_few,
                   write)
from make_degree_cases import SEARCH_BY_EVERYONE, TRAVERSAL_BY_EVERYONE, standard
from make_request_cases import SHAPES, shaped_network, vouching_scheme, walking_scheme
from make_suggestion_cases import LARGEST, far_members, in_low_bytes

Question = namedtuple('Question', 'viewer owner item held')             # held: what the answer place holds before the call
Answered = namedtuple('Answered', 'viewer owner item held answer')

KINDS = ('no one', 'everyone', 'oneself', 'within', 'known', 'clique', 'state', 'both', 'either')      # of policies
MOST_QUESTIONS = 300    # that the program can lend
ANSWERS = (0, 6, 7, 9, 11)
FEWEST = 40             # how often each answer, and what is counted in SEEN, has to occur
TRIED = 125             # names in SEEN, so that none goes missing
SELDOM = {'the most questions': 5, 'a run of 40 and more': 20, 'out of range: viewer, owner, item': 15,
          'refused, the last place held 0': 20, **{'refused with %d, places held others' % answer: 15 for answer in range(1, 6)},
          **{'empty list, answer %d' % answer: 15 for answer in range(1, 6)},
          **{name + ' the largest number': 12 for name in ('viewer', 'owner', 'item')}}
SEEN = Counter()
OWNERS = set()          # the owners whom a viewer of 256 members finds


# ---- Lists of questions: each (viewer, owner, item)

def far_number(rng, limit):
    """A number that is out of range."""
    return rng.choice([limit, limit, *far_members(limit)])


def random_question(rng, counts, v, odd):
    """A question of this viewer; some have an owner or an item out of range, or both, and some another viewer, out of range."""
    u, o = rng.randrange(counts.members), rng.randrange(counts.items)
    if rng.random() >= odd:
        return v, u, o
    far_v, far_u, far_o = (far_number(rng, limit) for limit in (counts.members, counts.members, counts.items))
    return rng.choice([(v, far_u, o), (v, far_u, o), (v, u, far_o), (v, u, far_o), (far_v, u, o), (v, far_u, far_o),
                       (far_v, far_u, o)])


def runs(rng, counts, count, odd=0.12, viewers=None):
    """Runs of a few viewers, of one question and more; some questions are asked again at once."""
    some = viewers or rng.sample(range(counts.members), min(3, counts.members))
    asked = []
    while len(asked) < count:
        v = rng.choice(some)
        for _ in range(rng.choice((1, 1, 2, 3, 6))):
            asked.append(random_question(rng, counts, v, odd))
            asked += asked[-1:] if rng.random() < 0.06 else []
    return asked[:count]


def runs_in(rng, scheme, count, **given):
    return runs(rng, ref.read_scheme(scheme)[1].counts, count, **given)


def every_question(scheme):
    """All viewers, owners and items, and the first numbers out of range."""
    counts = ref.read_scheme(scheme)[1].counts
    return list(product(range(counts.members + 1), range(counts.members + 1), range(counts.items + 1)))


def three_orders(rng, asked):
    """By viewers; by owners, where the viewer changes with each question; and mixed."""
    return [asked, sorted(asked, key=lambda question: question[1:]), rng.sample(asked, len(asked))]


def each_three(sorts):
    """A list in which every three sorts stand side by side once: always the last sort is added that makes a new three."""
    asked = list(sorts[:1]) * 3
    seen = {tuple(asked)}
    while len(seen) < len(sorts) ** 3:
        asked.append(next(sort for sort in sorts[::-1] if (*asked[-2:], sort) not in seen))
        seen.add(tuple(asked[-3:]))
    return asked


def far_questions(counts):
    """A viewer, an owner, an item, two of them or all three out of range, between questions of 0 that are in range."""
    far, far_items = far_members(counts.members), far_members(counts.items)
    m, o = counts.members - 1, counts.items - 1
    asked = [(v, m, o) for v in far] + [(m, u, o) for u in far] + [(m, 0, i) for i in far_items]
    asked += [(far[k], far[-1 - k], o) for k in range(len(far))] + [(0, u, i) for u, i in zip(far, far_items)]
    asked += [(v, 0, i) for v, i in zip(far, far_items)] + [(LARGEST, LARGEST, LARGEST)]
    return [question for k, odd in enumerate(asked) for question in ((0, k % counts.members, 0), odd)]


# ---- Networks

def found_by_chains(rng, n, graph, closed=(), groups=None):
    """A network of the graph in which search admits no others and everyone may traverse all but the closed members; so each
    finds those to whom friendships lead that go through no closed member."""
    counts = ref.Counts(n, 4, 1, 2, 7)
    policies = [NO_ONE, OWNER, EVERYONE, within(1), within(3), known(1), state([0, 2], rng.randrange(3))]
    scheme = ref.build_scheme(counts, {}, {2, 3}, policies, [3, 5, 127, 127, 126], groups)
    network = bytearray(graph_network(rng, scheme, graph))
    for m in range(n):
        network[ref.setting_place(counts, m, ref.TRAVERSAL)] = 0 if m in closed else 2
    return scheme, bytes(network)


def any_network(rng, n, i):
    """A network in which chains lead to some members and not to others."""
    scheme = ref.standard_scheme(n, random_groups(rng, n)) if i % 4 == 0 else walking_scheme(rng, n)
    return scheme, shaped_network(rng, scheme, SHAPES[i % len(SHAPES)])


# ---- The cases: each (scheme, network, questions)

def case(rng, scheme, network, asked):
    """A case: each answer place gets what it holds before the call, an answer or another byte."""
    held = [rng.choice((0, 6, 7, 9, 11, 255, rng.randrange(256))) for _ in asked]
    return scheme, network, [Question(*question, before) for question, before in zip(asked, held)]


def smallest(rng):
    """One member. Two members of whom 0 finds 1 by search. Three of whom 0 finds 2 through 1, and 2 finds 0 so."""
    by_search, through_1 = [(1, ref.SEARCH, SEARCH_BY_EVERYONE)], [(1, ref.TRAVERSAL, TRAVERSAL_BY_EVERYONE), (2, 7, 3)]
    for n, friends, settings in ((1, [], [(0, 7, 1)]), (2, [], by_search), (3, [(0, 1), (1, 2)], through_1)):
        scheme, network = standard(n, friends, settings)
        for asked in three_orders(rng, every_question(scheme)):
            yield case(rng, scheme, network, asked)


def each_sort_of_owner(rng):
    """0 has the friends 1 and 2, finds 3 by search, and 4 and 5 by a chain over 1; behind 2, whom no one may traverse, is 6."""
    friends = [(0, 1), (0, 2), (1, 4), (4, 5), (2, 6)]
    settings = [(3, ref.SEARCH, SEARCH_BY_EVERYONE)] + [(m, ref.TRAVERSAL, TRAVERSAL_BY_EVERYONE) for m in (1, 4)]
    for more in (0, 3):
        items = [(m, r, (m + r + more) % 5) for m in range(7) for r in (7, 8)]
        scheme, network = standard(7, friends, settings + items)
        for asked in three_orders(rng, every_question(scheme)):
            yield case(rng, scheme, network, asked)


def short_lists(rng):
    """0 and 1, and 2 and 3, are friends, who show each other item 1. Two viewers ask ten sorts of questions: each alone, each
    followed by each, and long lists in which every three follow each other."""
    scheme, network = standard(4, [(0, 1), (2, 3)], [(m, 7, 2) for m in range(4)])
    sorts = [(0, 1, 1), (0, 1, 2), (0, 2, 1), (0, 4, 1), (0, 1, 3), (2, 3, 1), (2, 1, 1), (2, 4, 1), (2, 3, 3), (4, 1, 1)]
    for asked in [[sort] for sort in sorts] + list(product(sorts, repeat=2)):
        yield case(rng, scheme, network, asked)
    joined = each_three(sorts)
    for first in range(0, len(joined) - 2, MOST_QUESTIONS - 2):
        yield case(rng, scheme, network, joined[first:first + MOST_QUESTIONS])


def behind_first_owner(rng):
    """Chains, rings, stars and cliques: a viewer asks of one owner and then of all, rising, falling or mixed, and then a
    viewer at another end does so. Some networks have a member whom no one may traverse."""
    for i, (n, shape) in enumerate(product(range(3, 10), (chain, ring, star, lambda rng, n: cliques(rng, n, 3)))):
        names = rng.sample(range(n), n)
        graph = {(min(names[a], names[b]), max(names[a], names[b])) for a, b in shape(rng, n)}
        closed = {names[rng.randrange(n)]} if i % 3 == 0 else ()
        scheme, network = found_by_chains(rng, n, graph, closed, random_groups(rng, n))
        for first in range(0, n, 1 + n // 4):
            order = [names, names[::-1], rng.sample(names, n)][first % 3]
            asked = [(v, names[u], rng.randrange(2)) for v, u in ((names[0], first), (names[-1], n - 1 - first))]
            others = [[(v, u, rng.randrange(2)) for u in order] for v, _, _ in asked]
            yield case(rng, scheme, network, asked[:1] + others[0] + asked[1:] + others[1])


def two_parts(rng):
    """Networks in two parts without a friendship between them: viewers of both, in runs and in turn, ask of all members."""
    for i in range(24):
        n = rng.randrange(4, 11)
        names, cut = rng.sample(range(n), n), rng.randrange(1, n)
        graph = {(min(names[a], names[a + 1]), max(names[a], names[a + 1])) for a in range(n - 1) if a + 1 != cut}
        scheme, network = found_by_chains(rng, n, graph, (), random_groups(rng, n))
        viewers, owners = (names[0], names[-1]), rng.sample(range(n), n)
        asked = [(v, u, i % 2) for v, u in product(viewers, owners)]
        yield case(rng, scheme, network, asked)
        yield case(rng, scheme, network, sorted(asked, key=lambda question: owners.index(question[1])))
        yield case(rng, scheme, network, runs_in(rng, scheme, 24, viewers=viewers))


def pages(rng):
    """A page of forty questions of one viewer; two viewers' pages, one behind the other; and the longest lists."""
    for i in range(28):
        n = rng.randrange(4, 13)
        scheme, network = any_network(rng, n, i)
        counts = ref.read_scheme(scheme)[1].counts
        one, other = ([random_question(rng, counts, v, 0.03) for _ in range(40)] for v in rng.sample(range(n), 2))
        yield case(rng, scheme, network, [one, one + other][i % 2])
    for i in range(4):
        scheme, network = any_network(rng, rng.randrange(3, 9), i)
        yield case(rng, scheme, network, runs_in(rng, scheme, MOST_QUESTIONS))


def runs_of_viewers(rng):
    for i in range(108):
        scheme, network = any_network(rng, rng.randrange(2, 13), i)
        yield case(rng, scheme, network, runs_in(rng, scheme, rng.randrange(12, 40)))


def viewers_in_turn(rng):
    """Neighbours have different viewers."""
    for i in range(36):
        n = rng.randrange(2, 13)
        scheme, network = any_network(rng, n, i)
        counts = ref.read_scheme(scheme)[1].counts
        order = rng.sample(range(n), n)
        yield case(rng, scheme, network, [random_question(rng, counts, order[k % n], 0.05) for k in range(24)])


def vouched(rng):
    """Networks in which groups decide who is known, and so who is found and who may view."""
    for i in range(56):
        n = rng.randrange(4, 11)
        scheme = vouching_scheme(rng, n)
        network = graph_network(rng, scheme, random_graph(rng, n, (0.2, 0.3, 0.4)[i % 3]))
        near = [(v, u, 0) for v, u in requests.joined_by_groups(scheme, network)]
        yield case(rng, scheme, network, sorted(rng.sample(near, min(12, len(near)))) + runs_in(rng, scheme, 15, odd=0.03))


def random_networks(rng):
    for i in range(72):
        n, states = rng.randrange(1, 13), rng.randrange(2, 17)
        scheme = accepted_scheme(rng, (n, states, rng.randrange(1, 9), rng.randrange(1, 17), rng.randrange(1, 33)))
        network = random_network(rng, scheme) if i % 3 == 0 else shaped_network(rng, scheme, SHAPES[i % len(SHAPES)])
        yield case(rng, scheme, network, runs_in(rng, scheme, 24))


def far_numbers(rng):
    for n in (1, 3, 6):
        for scheme, network in (any_network(rng, n, 0), found_by_chains(rng, n, star(rng, n))):
            yield case(rng, scheme, network, far_questions(ref.read_scheme(scheme)[1].counts))


def none_and_one(rng):
    """Empty lists, and lists of one question."""
    for i in range(48):
        scheme, network = any_network(rng, rng.randrange(1, 9), i)
        yield case(rng, scheme, network, [])
        yield case(rng, scheme, network, runs_in(rng, scheme, 1, odd=0.25))


def refused(rng, scheme, network, asked):
    """The questions, and the largest numbers; and none at all."""
    yield case(rng, scheme, network, asked + [(LARGEST, LARGEST, LARGEST)])
    yield case(rng, scheme, network, [])


def damaged_networks(rng):
    """Of the requests' damaged networks every fifth: so all kinds of damage are among them."""
    for scheme, network, _ in islice(requests.damaged_networks(rng), 0, None, 5):
        yield from refused(rng, scheme, network, runs_in(rng, scheme, 5, odd=0.25))


def broken_schemes(rng):
    """Of the requests' broken schemes every second."""
    for scheme, network, _ in islice(requests.broken_schemes(rng), 0, None, 2):
        yield from refused(rng, scheme, network, runs(rng, ref.Counts(5, 4, 4, 3, 13), 4, odd=0.25))


def broken_groups(rng):
    """Of the requests' schemes with a wrong sixth record every third."""
    for scheme, network, _ in islice(requests.broken_groups(rng), 0, None, 3):
        yield from refused(rng, scheme, network, runs(rng, ref.Counts(5, 4, 4, 3, 13), 3, odd=0.25))


def large_networks(rng):
    """64 and 65 members: members in one word, and in a word and a bit."""
    for n in (64, 65):
        for i, shape in enumerate((lambda rng, n: random_graph(rng, n, 0.03), lambda rng, n: random_graph(rng, n, 0.08),
                                   chain, ring, lambda rng, n: cliques(rng, n, 4))):
            scheme = walking_scheme(rng, n) if i % 2 else ref.standard_scheme(n, random_groups(rng, n))
            yield case(rng, scheme, shaped_network(rng, scheme, shape),
                       runs_in(rng, scheme, 24, viewers=[0, n - 1, rng.randrange(n)]))
        for closed in ((), rng.sample(range(n), 3)):
            scheme, network = found_by_chains(rng, n, shuffled(rng, n, ring(rng, n)), closed, random_groups(rng, n))
            yield case(rng, scheme, network, [(v, u, u % 2) for v in (0, n - 1) for u in rng.sample(range(n), n)])


def most_members(rng):
    """256 members: a chain through all, asked of all in a mixed order, and cut into two; few friendships; and a network of
    which the last setting is off."""
    n = 256
    scheme, network = found_by_chains(rng, n, shuffled(rng, n, chain(rng, n)))
    asked = [(0, u, 1) for u in rng.sample(range(n), n)]
    yield case(rng, scheme, network, asked + runs_in(rng, scheme, 24, viewers=[255, 63, 64]))
    scheme, network = found_by_chains(rng, n, chain(rng, n) - {(127, 128)}, (), rng.sample(range(n), 64))
    yield case(rng, scheme, network, [(v, u, 0) for v in (0, 255, 128) for u in rng.sample(range(n), 24)])
    scheme = walking_scheme(rng, n)
    network = shaped_network(rng, scheme, lambda rng, n: random_graph(rng, n, 0.01))
    yield case(rng, scheme, network, runs_in(rng, scheme, 30, viewers=[0, 255, 100]))
    scheme, network = found_by_chains(rng, n, star(rng, n))
    yield case(rng, scheme, changed(network, len(network) - 1, 0), runs_in(rng, scheme, 4))


# ---- Answers by whom a walk marks

@lru_cache(maxsize=2048)
def found(net, v):
    """Whom a viewer finds; a viewer out of range finds nobody."""
    return frozenset(ref.found_by(net, v)) if v < net.counts.members else frozenset()


@lru_cache(maxsize=2048)
def found_but_behind(net, v, first):
    """Whom a viewer finds by chains that do not go on through a first owner."""
    met = {m for m in range(net.counts.members) if m == v or m in net.graph[v] or net.admits(m, ref.SEARCH, v)}
    waiting = deque(met)
    while waiting:
        m = waiting.popleft()
        if m != first and net.admits(m, ref.TRAVERSAL, v):
            waiting.extend(net.graph[m] - met)
            met |= net.graph[m]
    return met


def item_admits(net, u, o, v):
    return net.admits(u, ref.PRIMITIVES + net.counts.primitives + o, v)


def item_kind(net, u, o):
    """The kind of the policy that an item has."""
    return KINDS[net.scheme.policies[net.setting(u, ref.PRIMITIVES + net.counts.primitives + o)].kind]


def answer_by(net, v, u, o, marked, accessor=None):
    """The answer where a walk marked these members, and the item's setting is judged for this accessor in the viewer's place."""
    if v >= net.counts.members or u >= net.counts.members:
        return 6
    if o >= net.counts.items:
        return 7
    if u not in marked:
        return 9
    return 0 if item_admits(net, u, o, v if accessor is None else accessor) else 11


def is_judged(question):
    """Whether all numbers of an answered question are in range, so that it needs a walk."""
    return question.answer in (0, 9, 11)


# ---- What wrong programs answer: first, for each question of a list, whom their walks mark

def walk_before(net, asked):
    """The walk of the question before is used."""
    return [found(net, before.viewer) for before in asked[:1] + asked[:-1]]


def first_walk(net, asked):
    """The list's first walk is used for all its viewers."""
    viewers = [question.viewer for question in asked if is_judged(question)]
    return [found(net, viewers[0]) if viewers else () for _ in asked]


def marks_kept(net, asked):
    """The marks of the walks before are not cleared."""
    marked = frozenset()
    for question in asked:
        marked |= found(net, question.viewer) if is_judged(question) else frozenset()
        yield marked


def walk_left_out(net, asked):
    """No walk is made where the question before has the same viewer, even if it was refused and made none."""
    marked, viewer = frozenset(), None
    for question in asked:
        if is_judged(question) and question.viewer != viewer:
            marked = found(net, question.viewer)
        viewer = question.viewer
        yield marked


def walk_ended(net, asked):
    """A viewer's walk does not go on through the first owner of the run."""
    marked, viewer = frozenset(), None
    for question in asked:
        if is_judged(question) and question.viewer != viewer:
            marked, viewer = found_but_behind(net, question.viewer, question.owner), question.viewer
        yield marked


def no_walk(net, asked):
    """Everybody counts as found."""
    return [range(net.counts.members) for _ in asked]


WALKS = {'the walk before': walk_before, 'the first walk': first_walk, 'marks before kept': marks_kept,
         'no walk after a refused question': walk_left_out, 'a walk ended at the first owner': walk_ended, 'no walk': no_walk}


def fields_exchanged(net, asked):
    """Answers by a field of the question before, or by owner and viewer exchanged."""
    befores = asked[:1] + asked[:-1]
    pairs = [(question, before, found(net, question.viewer)) for question, before in zip(asked, befores)]
    accessors = [before.viewer if before.viewer < net.counts.members else None for before in befores]
    by_graph = [accessor if is_judged(question) and item_kind(net, *question[1:3]) in ('within', 'known', 'clique') else None
                for question, accessor in zip(asked, accessors)]
    return {
        'the answer before': [before.answer for before in befores],
        'the item before': [answer_by(net, *question[:2], before.item, marked) for question, before, marked in pairs],
        'the owner before': [answer_by(net, question.viewer, before.owner, question.item, marked)
                             for question, before, marked in pairs],
        'the item for the viewer before': [answer_by(net, *question[:3], marked, accessor)
                                           for (question, _, marked), accessor in zip(pairs, accessors)],
        'the graph for the viewer before': [answer_by(net, *question[:3], marked, accessor)
                                            for (question, _, marked), accessor in zip(pairs, by_graph)],
        'owner and viewer exchanged': [answer_by(net, question.owner, question.viewer, question.item, found(net, question.owner))
                                       for question in asked]}


def answers_otherwise(net, asked):
    """The answers of wrong programs: each name, and an answer for each question."""
    walked = {name: [answer_by(net, *question[:3], marked) for question, marked in zip(asked, walk(net, asked))]
              for name, walk in WALKS.items()}
    return {**walked, **fields_exchanged(net, asked), 'no answer written': [question.held for question in asked],
            '9 and 11 exchanged': [{9: 11, 11: 9}.get(question.answer, question.answer) for question in asked]}


# ---- What a list tries: each name, and how often it is so

RUNS = {'1': range(1, 2), '2': range(2, 3), '3 to 39': range(3, 40), '40 and more': range(40, MOST_QUESTIONS + 1)}


def runs_tried(asked):
    runs = [(v, len(list(run))) for v, run in groupby(question.viewer for question in asked)]
    return {'another viewer than before': len(runs) - 1, 'a viewer returns': len(runs) - len({v for v, _ in runs}),
            **{'a run of ' + name: sum(length in lengths for _, length in runs) for name, lengths in RUNS.items()}}


def refused_between(before, question, behind):
    """Whether a question is refused between two of one viewer that are judged."""
    return not is_judged(question) and is_judged(before) and is_judged(behind) and before.viewer == behind.viewer


def refused_first(before, question, behind):
    """Whether a viewer's first question is refused and the next one judged."""
    return not is_judged(question) and is_judged(behind) and before.viewer != question.viewer == behind.viewer


def refusals_tried(asked):
    threes = list(zip(asked, asked[1:], asked[2:]))
    first = Counter(three[1].answer for three in threes if refused_first(*three))
    between = Counter((three[1].answer, three[0].viewer == three[1].viewer) for three in threes if refused_between(*three))
    return {**{'%d first, then judged' % answer: first[answer] for answer in (6, 7)},
            **{'%d between two of one viewer, by %s' % (answer, 'it' if same else 'another'): between[answer, same]
               for answer, same in product((6, 7), (True, False))}}


def asked_again(asked):
    """The questions that were asked before, but for those that were asked just before."""
    return [question for place, question in enumerate(asked) if place > 1
            and question[:3] in [early[:3] for early in asked[:place - 1]]]


def list_tried(asked):
    return {**runs_tried(asked), **refusals_tried(asked), 'a list of one': len(asked) == 1,
            'the most questions': len(asked) == MOST_QUESTIONS, 'the last place changes': asked[-1].held != asked[-1].answer,
            'the first place changes, of two and more': len(asked) > 1 and asked[0].held != asked[0].answer,
            'the same question twice': sum(one[:3] == other[:3] for one, other in zip(asked, asked[1:])),
            'the same question again, later': len(asked_again(asked))}


def grouped_tried(scheme, network, asked):
    """What groups have to do with the answers."""
    persons = ref.read_network(regrouped(scheme, None), network)[1]
    answers = [answer_by(persons, *question[:3], found(persons, question.viewer)) for question in asked]
    changes = [{question.answer, answer} for question, answer in zip(asked, answers) if question.answer != answer]
    return {'groups decide who is found': sum(9 in change for change in changes),
            'groups decide whom an item admits': sum(9 not in change for change in changes)}


def refused_tried(answer, questions):
    """What a list tries that is refused as a whole."""
    return {**{'refused with %d, places held others' % refusal: answer == refusal not in {question.held for question in questions}
               for refusal in range(1, 6)}, 'refused, the last place held 0': questions[-1].held == 0}


# ---- What a question tries

JUDGED = [kind for kind in product(KINDS, (0, 11)) if kind not in (('no one', 0), ('everyone', 11))]
SORTS = ('oneself', 'a friend', 'found by search', 'found by a chain', 'not found')
SIZES = {'n = 1': [1], 'n = 2 to 12': range(2, 13), 'n = 64': [64], 'n = 65': [65], 'n = 256': [256]}
BEYOND = [names for count in (1, 2, 3) for names in combinations(('viewer', 'owner', 'item'), count)]


def sort_of_owner(net, v, u):
    if u == v:
        return 'oneself'
    if u in net.graph[v]:
        return 'a friend'
    if u not in found(net, v):
        return 'not found'
    return 'found by search' if net.admits(u, ref.SEARCH, v) else 'found by a chain'


def judged_tried(net, asked):
    v, u, o, _, answer = asked
    sort, admitted = sort_of_owner(net, v, u), item_admits(net, u, o, v)
    kind = item_kind(net, u, o)
    return {**{'%s, item admits: %s' % what: what == (sort, admitted) for what in product(SORTS, (True, False))},
            **{'an item for %s, %d' % what: what == (kind, answer) for what in JUDGED},
            **{size: net.counts.members in members for size, members in SIZES.items()},
            'five records alone': net.scheme.groups is None, 'some groups': bool(net.groups),
            'a sixth record of persons': net.scheme.groups is not None and not net.groups}


def beyond_tried(net, asked):
    """Which numbers of a question that is refused with 6 or 7 are out of range, and what else there is to one that is alone."""
    limits = {'viewer': net.counts.members, 'owner': net.counts.members, 'item': net.counts.items}
    values = dict(zip(limits, asked[:3]))
    beyond = tuple(name for name in limits if values[name] >= limits[name])
    tried = {'out of range: ' + ', '.join(names): names == beyond for names in BEYOND}
    tried.update({'7, not found': asked.answer == 7 and asked.owner not in found(net, asked.viewer)})
    for name in limits:
        alone = beyond == (name,)
        tried[name + ' the limit'] = alone and values[name] == limits[name]
        tried[name + ' the largest number'] = alone and values[name] == LARGEST
        for width in (1, 2, 4):
            tried['%s, %d low bytes in range' % (name, width)] = alone and in_low_bytes(values[name], width, limits[name])
    return tried


def place_tried(asked):
    """What the answer place held before the call."""
    return {'held 255': asked.held == 255, **{'held 0, answer %d' % answer: (asked.held, asked.answer) == (0, answer)
                                              for answer in ANSWERS},
            **{'held the right answer %d' % answer: asked.held == asked.answer == answer for answer in ANSWERS}}


# ---- What is written

GROUPS = [smallest, each_sort_of_owner, short_lists, behind_first_owner, two_parts, pages, runs_of_viewers, viewers_in_turn,
          vouched, random_networks, far_numbers, none_and_one, damaged_networks, broken_schemes, broken_groups, large_networks,
          most_members]


def given(scheme, network, questions):
    return part(scheme) + part(network) + numbers(len(questions)) + b''.join(
        b''.join(number.to_bytes(8, 'little') for number in question[:3]) + bytes([question.held]) for question in questions)


def note(scheme, network, asked):
    """Counts what a list tries that is not refused."""
    net = ref.read_network(scheme, network)[1]
    SEEN.update(list_tried(asked))
    SEEN.update(grouped_tried(scheme, network, asked) if net.groups else {})
    for question in asked:
        SEEN.update(judged_tried(net, question) if is_judged(question) else beyond_tried(net, question))
        SEEN.update(place_tried(question))
        OWNERS.update([question.owner] if net.counts.members == 256 and question.answer in (0, 11) else [])
    for name, answers in answers_otherwise(net, asked).items():
        SEEN['otherwise: ' + name] += sum(question.answer != answer for question, answer in zip(asked, answers))


def lines(number, tally, scheme, network, questions):
    after = [list(question) for question in questions]
    answer = ref.views(scheme, network, after)
    asked = [Answered(*question, told[3]) for question, told in zip(questions, after)]
    tally['list %d' % answer] += 1
    tally.update('answer %d' % question.answer for question in asked if answer == 0)
    SEEN.update({'empty list, answer %d' % told: not questions and answer == told for told in range(6)})
    if questions and answer == 0:
        note(scheme, network, asked)
    elif questions:
        SEEN.update(refused_tried(answer, questions))
    yield ' | '.join(['%d %d' % (number, answer)] + [' '.join(map(str, told)) for told in after])


def report():
    """Prints how often each is so; stops where one is too seldom."""
    print('%d of 256 members are found owners' % len(OWNERS))
    if len(OWNERS) < 256:
        sys.exit('too few owners')
    if len(SEEN) != TRIED:
        sys.exit('%d things are counted, and not %d' % (len(SEEN), TRIED))
    stop_where_few(SEEN, FEWEST, SELDOM)


if __name__ == '__main__':
    total = write('question_cases', GROUPS, given, lines)
    SEEN.update({'list, answer %d' % answer: total['list %d' % answer] for answer in range(6)})
    SEEN.update({'answer %d' % answer: total['answer %d' % answer] for answer in ANSWERS})
    report()
