#!/usr/bin/env python3
"""The gatekeeper of document 01 with document 02's calls degree, suggest and views, its groups and its rule of consent, written
from their text alone, to compare the proved program with.

With no arguments: a self check on document 01's session and edges, and on a few degrees, suggestions, groups, lists of views and
events of two members.
With two file names: the log program, on that scheme and those requests.
"""
import sys
from collections import deque, namedtuple
from itertools import combinations

Counts = namedtuple('Counts', 'members states primitives items policies')
Policy = namedtuple('Policy', 'kind k left right')
Scheme = namedtuple('Scheme', 'counts moves marks policies masks groups')       # groups: the body of kind 6, or None without it

LIMITS = Counts(256, 16, 8, 16, 32)
UNDEFINED = 255
SEARCH, TRAVERSAL, PRIMITIVES = 0, 1, 2         # resource numbers
LOG_LIMIT = 16384
SCHEME_READ, LOG_READ = 4096, 65536     # bytes that are read of the files; what follows them changes no answer


# ---- Scheme

def number(data, at):
    """The 2-byte number at a place."""
    return data[at] + 256 * data[at + 1]


def record_body(data, at, kind, length):
    """The body of the record at a place, or None if it is cut or its kind or length differs."""
    if len(data) < at + 4 + length or number(data, at) != length or number(data, at + 2) != kind:
        return None
    return data[at + 4:at + 4 + length]


def resources(counts):
    return 2 + counts.primitives + counts.items


def body_lengths(counts):
    """The lengths of the bodies of kinds 2 to 5."""
    return [counts.states * 2 * counts.primitives, counts.states, counts.policies * 4, resources(counts) * 4]


def five_records(counts):
    """The length of the first five records."""
    return 10 + sum(4 + length for length in body_lengths(counts))


def in_range(counts):
    return all(1 <= count <= limit for count, limit in zip(counts, LIMITS))


def move_fits(counts, state):
    return state == UNDEFINED or state < counts.states


def policy_fits(counts, own, policy):
    kind, k, left, right = policy
    if kind in (0, 1, 2):
        return k == left == right == 0
    if kind in (3, 4):
        return 1 <= k <= 255 and left == right == 0
    if kind == 5:
        return 2 <= k <= 5 and left == right == 0
    if kind == 6:
        return k <= 2 and left + 256 * right < 2 ** counts.states
    if kind in (7, 8):
        return k == 0 and left < own and right < own
    return False


def mask_fits(counts, mask):
    return 0 < mask < 2 ** counts.policies


def offers(mask, p):
    return mask >> p & 1 == 1


def lowest(mask):
    return min(p for p in range(32) if offers(mask, p))


def bytes_fit(scheme):
    """What answer 3 asks of kinds 2 to 6."""
    counts = scheme.counts
    return (all(move_fits(counts, state) for state in scheme.moves)
            and all(mark in (0, 1) for mark in scheme.marks)
            and all(policy_fits(counts, p, policy) for p, policy in enumerate(scheme.policies))
            and all(mask_fits(counts, mask) for mask in scheme.masks)
            and all(group in (0, 1) for group in scheme.groups or ()))


def group_members(scheme):
    """The members that are groups: without a sixth record there are none."""
    return {m for m, group in enumerate(scheme.groups or ()) if group == 1}


def strangers_apart(scheme):
    """What answer 4 asks: two members without friendships, in state 0, on either side. Whether they are groups is nothing to it."""
    if scheme.marks[0] == 1:
        return False
    alone = [set(), set()]
    search = lowest(scheme.masks[SEARCH])
    return not any(admits(scheme.policies, search, u, v, alone, set(), 0) for u, v in ((0, 1), (1, 0)))


def read_scheme(data):
    """The scheme check: its answer, and the scheme where that is 0."""
    head = record_body(data, 0, 1, 6)
    if head is None:
        return 1, None
    counts = Counts(number(head, 0), *head[2:])
    if not in_range(counts):
        return 2, None
    at = 10
    bodies = []
    for kind, length in zip((2, 3, 4, 5), body_lengths(counts)):
        body = record_body(data, at, kind, length)
        if body is None:
            return 1, None
        bodies.append(body)
        at += 4 + length
    groups = None
    if at != len(data):
        groups = record_body(data, at, 6, counts.members)
        if groups is None or at + 4 + counts.members != len(data):
            return 1, None
    moves, marks, policies, masks = bodies
    scheme = Scheme(counts, moves, marks,
                    [Policy(*policies[i:i + 4]) for i in range(0, len(policies), 4)],
                    [int.from_bytes(masks[i:i + 4], 'little') for i in range(0, len(masks), 4)], groups)
    if not bytes_fit(scheme):
        return 3, None
    if not strangers_apart(scheme):
        return 4, None
    return 0, scheme


def check(data):
    return read_scheme(data)[0]


# ---- Graph: for each member the set of its friends; groups: the members that are groups

def distance(graph, u, v):
    """The length of the shortest walk from u to v, or None."""
    steps = {u: 0}
    waiting = deque([u])
    while waiting:
        m = waiting.popleft()
        if m == v:
            return steps[m]
        for friend in graph[m]:
            if friend not in steps:
                steps[friend] = steps[m] + 1
                waiting.append(friend)
    return None


def friends_of_both(graph, u, v):
    return graph[u] & graph[v]


def shared_friends(graph, groups, u, v):
    """The friends of both that are persons."""
    return friends_of_both(graph, u, v) - groups


def all_friends(graph, members):
    return all(b in graph[a] for a, b in combinations(members, 2))


def in_clique(graph, u, v, k):
    """Whether k members, u and v (not the same) among them, are all friends of each other. Groups are members too."""
    return v in graph[u] and any(all_friends(graph, others)
                                 for others in combinations(sorted(friends_of_both(graph, u, v)), k - 2))


# ---- Policies

def admits(policies, p, u, v, graph, groups, state):
    """Whether policy p of owner u admits accessor v, in a graph with groups, their pair being in a state."""
    judged = {}

    def holds(p):
        if p not in judged:
            judged[p] = judge(policies[p])
        return judged[p]

    def judge(policy):
        kind, k, left, right = policy
        if kind == 0:
            return False
        if kind == 1:
            return True
        if kind == 2:
            return u == v
        if kind == 3:
            steps = distance(graph, u, v)
            return steps is not None and steps <= k
        if kind == 4:
            return u == v or v in graph[u] or len(shared_friends(graph, groups, u, v)) >= k
        if kind == 5:
            return u == v or in_clique(graph, u, v, k)
        if kind == 6:
            side = k == 0 or (k == 1 and u < v) or (k == 2 and u > v)
            return side and (left + 256 * right) >> state & 1 == 1
        if kind == 7:
            return holds(left) and holds(right)
        if kind == 8:
            return holds(left) or holds(right)
        raise ValueError(kind)

    return holds(p)


# ---- Network

def pair_count(members):
    return members * (members - 1) // 2


def pair_place(u, v):
    """Where the state of two different members stands."""
    i, j = min(u, v), max(u, v)
    return j * (j - 1) // 2 + i


def setting_place(counts, m, r):
    return pair_count(counts.members) + m * resources(counts) + r


def network_length(counts):
    return setting_place(counts, counts.members, 0)


def fresh_bytes(scheme):
    settings = bytes(lowest(mask) for mask in scheme.masks)
    return bytes(pair_count(scheme.counts.members)) + settings * scheme.counts.members


def is_valid(scheme, network):
    """Whether neither length nor any byte of a network is off."""
    counts = scheme.counts
    if len(network) != network_length(counts):
        return False
    pairs = pair_count(counts.members)
    return (all(state < counts.states for state in network[:pairs])
            and all(offers(scheme.masks[i % resources(counts)], p) for i, p in enumerate(network[pairs:])))


class Network:
    """A valid network, read."""

    def __init__(self, scheme, data):
        self.scheme = scheme
        self.counts = scheme.counts
        self.data = data
        self.groups = group_members(scheme)
        self.graph = [set() for _ in range(self.counts.members)]
        for j in range(self.counts.members):
            for i in range(j):
                if scheme.marks[self.state(i, j)] == 1:
                    self.graph[i].add(j)
                    self.graph[j].add(i)

    def state(self, u, v):
        return 0 if u == v else self.data[pair_place(u, v)]

    def setting(self, m, r):
        return self.data[setting_place(self.counts, m, r)]

    def admits(self, u, r, v):
        """Whether u's setting for resource r admits v."""
        return admits(self.scheme.policies, self.setting(u, r), u, v, self.graph, self.groups, self.state(u, v))


# ---- Finding

def found_by(net, v):
    """The members to whom a chain of document 01 leads v: breadth first from all possible first members."""
    met = {v} | net.graph[v] | {m for m in range(net.counts.members) if net.admits(m, SEARCH, v)}
    waiting = deque(sorted(met))
    while waiting:
        m = waiting.popleft()
        if net.admits(m, TRAVERSAL, v):
            for friend in net.graph[m] - met:
                met.add(friend)
                waiting.append(friend)
    return met


def finds(net, v, u):
    return u in found_by(net, v)


# ---- Suggestions

def shared_count(net, v, m):
    return len(shared_friends(net.graph, net.groups, v, m))


def suggestions(net, v):
    """The members that v finds, who are neither v nor its friends and share at least one friend with v that is a person: most of
    those first, among equals the lower number. A suggested member may be a group, and so may v."""
    members = [m for m in found_by(net, v) - net.graph[v] - {v} if shared_count(net, v, m) >= 1]
    return sorted(members, key=lambda m: (-shared_count(net, v, m), m))


# ---- The calls. A network is a bytearray; a refusal leaves it as it is.

def fresh(scheme_bytes, network):
    answer, scheme = read_scheme(scheme_bytes)
    if answer != 0:
        return answer
    if len(network) != network_length(scheme.counts):
        return 5
    network[:] = fresh_bytes(scheme)
    return 0


def read_network(scheme_bytes, network):
    """The first two refusals of every request: its answer so far, and the network read."""
    answer, scheme = read_scheme(scheme_bytes)
    if answer != 0:
        return answer, None
    if not is_valid(scheme, network):
        return 5, None
    return 0, Network(scheme, network)


def event(scheme_bytes, network, v, u, a):
    answer, net = read_network(scheme_bytes, network)
    if answer != 0:
        return answer
    if v >= net.counts.members or u >= net.counts.members:
        return 6
    if a >= net.counts.primitives:
        return 7
    if v == u:
        return 8
    if not finds(net, v, u):
        return 9
    side = 1 if v > u else 0
    state = net.scheme.moves[(net.state(v, u) * 2 + side) * net.counts.primitives + a]
    if state == UNDEFINED:
        return 10
    if not net.admits(u, PRIMITIVES + a, v):
        return 11
    network[pair_place(v, u)] = state
    return 0


def set_policy(scheme_bytes, network, u, r, p):
    answer, net = read_network(scheme_bytes, network)
    if answer != 0:
        return answer
    if u >= net.counts.members:
        return 6
    if r >= resources(net.counts):
        return 7
    if not offers(net.scheme.masks[r], p):
        return 12
    network[setting_place(net.counts, u, r)] = p
    return 0


def find(scheme_bytes, network, v, u):
    answer, net = read_network(scheme_bytes, network)
    if answer != 0:
        return answer
    if v >= net.counts.members or u >= net.counts.members:
        return 6
    if not finds(net, v, u):
        return 9
    return 0


def degree(scheme_bytes, network, v, u):
    """The answer, which is find's, and the least number of friendships between the two: None where no walk joins them, and
    where refused."""
    answer = find(scheme_bytes, network, v, u)
    if answer != 0:
        return answer, None
    _, net = read_network(scheme_bytes, network)
    return 0, distance(net.graph, v, u)


def list_friends(scheme_bytes, network, v, u, output):
    """The answer and the count; u's friends go to the front of the output."""
    answer, net = read_network(scheme_bytes, network)
    if answer != 0:
        return answer, 0
    if v >= net.counts.members or u >= net.counts.members:
        return 6, 0
    if len(output) < net.counts.members:
        return 13, 0
    if not finds(net, v, u):
        return 9, 0
    if not net.admits(u, TRAVERSAL, v):
        return 11, 0
    friends = sorted(net.graph[u])
    output[:len(friends)] = friends
    return 0, len(friends)


def suggest(scheme_bytes, network, v, c, output):
    """The answer and the count; the first c of the members suggested to v, or all if there are fewer, go to the front of the
    output."""
    answer, net = read_network(scheme_bytes, network)
    if answer != 0:
        return answer, 0
    if v >= net.counts.members:
        return 6, 0
    if len(output) < c:
        return 13, 0
    members = suggestions(net, v)[:c]
    output[:len(members)] = members
    return 0, len(members)


def view(scheme_bytes, network, v, u, o):
    answer, net = read_network(scheme_bytes, network)
    if answer != 0:
        return answer
    if v >= net.counts.members or u >= net.counts.members:
        return 6
    if o >= net.counts.items:
        return 7
    if not finds(net, v, u):
        return 9
    if not net.admits(u, PRIMITIVES + net.counts.primitives + o, v):
        return 11
    return 0


def views(scheme_bytes, network, questions):
    """The answer of the whole list. Each question [viewer, owner, item, answer] gets the answer that its single view gives; a
    refused scheme or network leaves them as they are, questions out of range do not refuse the list."""
    answer, _ = read_network(scheme_bytes, network)
    if answer == 0:
        for question in questions:
            question[3] = view(scheme_bytes, network, *question[:3])
    return answer


# ---- Log

KINDS = {16: 'event', 17: 'set', 18: 'find', 19: 'list', 20: 'view'}
WIDTHS = {'event': (2, 2, 1), 'set': (2, 1, 1), 'find': (2, 2), 'list': (2, 2), 'view': (2, 2, 1)}


def fields(body, widths):
    values = []
    for width in widths:
        values.append(int.from_bytes(body[:width], 'little'))
        body = body[width:]
    return tuple(values)


def next_request(log, place):
    """0, the request and the place behind it; or 14, or 'ended', and the same place."""
    if place >= len(log):
        return 'ended', None, place
    if len(log) < place + 4:
        return 14, None, place
    name = KINDS.get(number(log, place + 2))
    if name is None:
        return 14, None, place
    length = sum(WIDTHS[name])
    body = record_body(log, place, number(log, place + 2), length)
    if body is None:
        return 14, None, place
    return 0, (name,) + fields(body, WIDTHS[name]), place + 4 + length


def answer_line(scheme_bytes, network, request):
    """What the log program prints of a request, after its position."""
    name, arguments = request[0], request[1:]
    if name == 'list':
        output = [0] * 256
        answer, count = list_friends(scheme_bytes, network, *arguments, output)
        return ' '.join(str(value) for value in [answer] + output[:count])
    call = {'event': event, 'set': set_policy, 'find': find, 'view': view}[name]
    return str(call(scheme_bytes, network, *arguments))


def run(scheme_bytes, log):
    """The log program: the lines that it prints."""
    answer, scheme = read_scheme(scheme_bytes)
    if answer != 0:
        return ['0 %d' % answer]
    if len(log) > LOG_LIMIT:
        return ['0 15']
    network = bytearray(fresh_bytes(scheme))
    lines = []
    place = 0
    while True:
        answer, request, place = next_request(log, place)
        if answer == 'ended':
            return lines
        position = '%d ' % (len(lines) + 1)
        if answer == 14:
            return lines + [position + '14']
        lines.append(position + answer_line(scheme_bytes, network, request))


# ---- Consent (document 02, 2026-06): who are friends under the standard scheme, by requests from a fresh network and their
# answers alone. answered: (request, answer) pairs in order, a request as next_request gives it

INVITE, ACCEPT, IGNORE, REMOVE = range(4)       # the primitives of the standard scheme
EVENTS = ('invite', 'accept', 'ignore', 'remove')


def granted_between(answered, v, u):
    """The granted events between two members in order, whichever of them acts: each (who acts, primitive)."""
    return [(request[1], request[3]) for request, answer in answered
            if request[0] == 'event' and answer == 0 and set(request[1:3]) == {v, u}]


def friends_by_consent(answered, v, u):
    """Whether the last granted event between two members is an accept. ValueError where the one just before it is not an invite
    from the other side."""
    granted = granted_between(answered, v, u)
    if not granted or granted[-1][1] != ACCEPT:
        return False
    accepting = granted[-1][0]
    if granted[-2:-1] != [(u if accepting == v else v, INVITE)]:
        raise ValueError('no invite from the other side just before the accept of member %d: %s' % (accepting, granted))
    return True


# ---- Building bytes

def record(kind, body):
    return len(body).to_bytes(2, 'little') + kind.to_bytes(2, 'little') + bytes(body)


def head_body(counts):
    return counts[0].to_bytes(2, 'little') + bytes(counts[1:])


def groups_record(members, groups):
    """A sixth record, which says which of so many members are groups."""
    return record(6, [int(m in groups) for m in range(members)])


def build_scheme(counts, moves, friends, policies, masks, groups=None):
    """A scheme's bytes: counts (n, S, A, I, P), moves {(q, b, a): next}, the states that make friends,
    policies as (kind, k, left, right), a mask for each resource, and the members that are groups; None: no sixth record."""
    counts = Counts(*counts)
    table = [moves.get((q, b, a), UNDEFINED)
             for q in range(counts.states) for b in (0, 1) for a in range(counts.primitives)]
    return (record(1, head_body(counts)) + record(2, table)
            + record(3, [int(q in friends) for q in range(counts.states)])
            + record(4, [field for policy in policies for field in policy])
            + record(5, b''.join(mask.to_bytes(4, 'little') for mask in masks))
            + (b'' if groups is None else groups_record(counts.members, groups)))


def mask_of(policies):
    return sum(1 << p for p in policies)


STANDARD_MOVES = {(0, 0, 0): 2, (0, 1, 0): 1, (2, 1, 1): 3, (2, 1, 2): 0,
                  (1, 0, 1): 3, (1, 0, 2): 0, (3, 0, 3): 0, (3, 1, 3): 0}
STANDARD_POLICIES = ([(0, 0, 0, 0), (2, 0, 0, 0), (3, 1, 0, 0), (3, 2, 0, 0), (1, 0, 0, 0),
                      (6, 1, 1 << 2, 0), (6, 2, 1 << 1, 0), (8, 0, 5, 6)]
                     + [(8, 0, p, 7) for p in range(5)])


def standard_scheme(n, groups=None):
    low, high = mask_of(range(5)), mask_of(range(8, 13))
    masks = [high, low, mask_of((0, 3, 4))] + 3 * [mask_of((4,))] + [high, low, low]
    return build_scheme((n, 4, 4, 3, 13), STANDARD_MOVES, {3}, STANDARD_POLICIES, masks, groups)


def build_log(requests):
    """A log's bytes, from requests as (name, argument, ..)."""
    kinds = {name: kind for kind, name in KINDS.items()}
    return b''.join(record(kinds[name], b''.join(value.to_bytes(width, 'little')
                                                  for value, width in zip(arguments, WIDTHS[name])))
                    for name, *arguments in requests)


# ---- Self check

SESSION = [
    ('event 0 1 0', '1 9'), ('set 1 0 12', '2 0'), ('event 0 1 0', '3 11'), ('set 1 2 4', '4 0'),
    ('event 0 1 0', '5 0'), ('event 0 1 1', '6 10'), ('event 1 0 1', '7 0'), ('view 1 0 1', '8 11'),
    ('set 0 7 2', '9 0'), ('view 1 0 1', '10 0'), ('view 2 0 1', '11 9'), ('set 1 1 4', '12 0'),
    ('list 2 1', '13 0 0'), ('view 2 0 1', '14 11'), ('event 1 0 3', '15 0'), ('view 2 0 1', '16 9'),
]


def parsed(text):
    name, *arguments = text.split()
    return (name, *map(int, arguments))


def check_suggestions(expect):
    """0 has the friends 1 and 2. 3 and 5 share one of them with 0, and 4 both. Everyone may search for 3, 4 and 5."""
    scheme = standard_scheme(6)
    network = bytearray(fresh_bytes(read_scheme(scheme)[1]))
    for i, j in ((0, 1), (0, 2), (1, 2), (1, 3), (1, 4), (2, 4), (2, 5)):
        network[pair_place(i, j)] = 3
    for m in (3, 4, 5):
        expect('set %d 0 12' % m, set_policy(scheme, network, m, SEARCH, 12), 0)

    def page(v, c, places):
        output = [9] * places
        return suggest(scheme, network, v, c, output), output

    for c, members in ((0, []), (1, [4]), (2, [4, 3]), (3, [4, 3, 5]), (4, [4, 3, 5])):
        expect('suggest 0 %d' % c, page(0, c, 4), ((0, len(members)), members + [9] * (4 - len(members))))
    expect('suggest 0 2, 2 places', page(0, 2, 2), ((0, 2), [4, 3]))
    expect('suggest 0 5, 4 places', page(0, 5, 4), ((13, 0), [9] * 4))
    expect('suggest 3 3, two not found', page(3, 3, 3), ((0, 1), [4, 9, 9]))
    expect('suggest 6 5, 4 places', page(6, 5, 4), ((6, 0), [9] * 4))
    expect('suggest, one byte less', suggest(scheme, network[:-1], 6, 1, []), (5, 0))
    expect('suggest, no scheme', suggest(b'', network, 0, 1, []), (1, 0))


def check_sixth_record(expect):
    scheme, good = standard_scheme(4), record(6, [0, 1, 0, 1])
    off, marked = record(6, [0, 1, 0, 2]), scheme[:50] + b'\1' + scheme[51:]     # a byte that gives 3, and state 0 marked
    cut = [good[:size] for size in range(1, 8)]
    wrong = [record(7, [0, 1, 0, 1]), record(6, [0, 1, 0]), record(6, [0, 1, 0, 1, 0]), record(6, b''), good + b'\0', good + good,
             off[:-1], off + b'\0']
    for what, sixth, answer in (('good', [good], 0), ('cut', cut, 1), ('wrong', wrong, 1), ('a byte of 2', [off], 3)):
        expect('sixth record, ' + what, {check(scheme + more) for more in sixth}, {answer})
    expect('cut, and 3 before', check(scheme[:14] + b'\4' + scheme[15:] + good[:-1]), 1)
    expect('a byte of 2, and 4', (check(marked + good), check(marked + off)), (4, 3))
    expect('groups', [group_members(read_scheme(standard_scheme(3, groups))[1]) for groups in (None, [], [0, 2])],
           [set(), set(), {0, 2}])
    expect('n 256, groups', (check(standard_scheme(256, [255])), check(standard_scheme(257, [255]))), (0, 2))
    expect('longest scheme', five_records(LIMITS) + len(groups_record(LIMITS.members, [])), 790)


def check_groups(expect):
    """0 and 5 share 1, 2 and 3, who are friends of each other, and 4 has the friends 3 and 5. Everyone may search for all."""
    friends = ((0, 1), (0, 2), (0, 3), (1, 5), (2, 5), (3, 5), (3, 4), (4, 5), (1, 2), (1, 3), (2, 3))
    known, within, clique = (4, 2, 0, 0), (3, 2, 0, 0), (5, 3, 0, 0)
    policies = [(0, 0, 0, 0), (1, 0, 0, 0), known, (4, 1, 0, 0), (4, 3, 0, 0), within, clique, (5, 4, 0, 0)]

    def case(groups):
        scheme = build_scheme((6, 2, 1, 1, 8), {}, {1}, policies, [3, 2, 2, 255], groups)
        network = bytearray(fresh_bytes(read_scheme(scheme)[1]))
        for i, j in friends:
            network[pair_place(i, j)] = 1
        for m in range(6):
            network[setting_place(Counts(6, 2, 1, 1, 8), m, SEARCH)] = 1
        return scheme, network

    def views(groups, v, u):
        """Which of the policies 2 to 7 show u's item to v."""
        scheme, network = case(groups)
        return [p for p in range(2, 8) if set_policy(scheme, network, u, 3, p) == 0 and view(scheme, network, v, u, 0) == 0]

    def pages(groups, v):
        output = [9] * 6
        answer, count = suggest(*case(groups), v, 6, output)
        return answer, output[:count]

    for groups, seen in ((None, [2, 3, 4, 5]), ([], [2, 3, 4, 5]), ([2, 3], [3, 5]), ([1, 2, 3], [5]), ([0, 5], [2, 3, 4, 5])):
        expect('0 and 5, groups %s' % groups, (views(groups, 0, 5), views(groups, 5, 0)), (seen, seen))
    expect('0 and 4, group 3', (views([], 0, 4), views([3], 0, 4)), ([3, 5], [5]))
    expect('3 and 5, friends', views([1, 2, 3, 4], 3, 5), [2, 3, 4, 5, 6, 7])
    expect('suggest 0', [pages(groups, 0) for groups in (None, [3], [1, 2, 3], [0, 5], [3, 5])],
           [(0, [5, 4]), (0, [5]), (0, []), (0, [5, 4]), (0, [5])])
    expect('suggest 1, group 3', (pages(None, 1), pages([3], 1)), ((0, [4]), (0, [4])))
    expect('suggest 2, groups 3 5', (pages(None, 2), pages([3, 5], 2)), ((0, [4]), (0, [])))
    expect('degree 0 4, by 3', [degree(*case(groups), 0, 4) for groups in (None, [3])], [(0, 2), (0, 2)])


def check_views(expect):
    """0 has the friend 1, whom everyone may traverse, and 1 the friend 2. Item 1 of 1 and of 2 is for those within 2, and the
    other items are for no one. Nobody finds 3 but itself."""
    scheme = standard_scheme(4)
    network = bytearray(fresh_bytes(read_scheme(scheme)[1]))
    network[pair_place(0, 1)] = network[pair_place(1, 2)] = 3
    for m, r, p in ((1, TRAVERSAL, 4), (1, 7, 3), (2, 7, 3)):
        expect('set %d %d %d' % (m, r, p), set_policy(scheme, network, m, r, p), 0)

    def answers(given, data, asked):
        questions = [[*question, 99] for question in asked]
        answer = views(given, data, questions)
        kept = all(tuple(question[:3]) == said for question, said in zip(questions, asked))
        return answer, [question[3] for question in questions], kept

    asked = [(0, 2, 1), (0, 1, 1), (0, 1, 2), (0, 3, 1), (3, 1, 1), (3, 3, 1), (0, 2, 1)]
    beyond = [(0, 4, 1), (0, 2, 3), (0, 2, 1), (4, 2, 1), (0, 2, 0), (2 ** 64 - 1, 4, 3), (2, 0, 3), (2, 0, 1)]
    lists = {'views': (asked, [0, 0, 11, 9, 9, 11, 0]), 'views, out of range': (beyond, [6, 7, 0, 6, 11, 6, 7, 11]),
             'views, one': (asked[3:4], [9]), 'views, none': ([], [])}
    for what, (questions, said) in lists.items():
        expect(what, answers(scheme, network, questions), (0, said, True))
        expect(what + ', one byte less', answers(scheme, network[:-1], questions), (5, [99] * len(said), True))
        expect(what + ', no scheme', answers(b'', network, questions), (1, [99] * len(said), True))


def check_consent(expect):
    """The friends after each line of the session, by consent and by the network's bytes."""
    scheme = standard_scheme(4)
    network = bytearray(fresh_bytes(read_scheme(scheme)[1]))
    answered, by_consent, by_bytes = [], [], []
    for text, _ in SESSION:
        request = parsed(text)
        answered.append((request, int(answer_line(scheme, network, request).split()[0])))
        graph = Network(read_scheme(scheme)[1], network).graph
        by_consent.append([(i, j) for i, j in combinations(range(4), 2) if friends_by_consent(answered, i, j)])
        by_bytes.append([(i, j) for i, j in combinations(range(4), 2) if j in graph[i]])
    expect('friends after line 14', (by_consent[13], by_bytes[13]), ([(0, 1)], [(0, 1)]))
    expect('friends after line 16', (by_consent[15], by_bytes[15]), ([], []))
    expect('friends, by consent', by_consent, 6 * [[]] + 8 * [[(0, 1)]] + 2 * [[]])
    expect('friends, by bytes', by_bytes, by_consent)


def check_invented_consent(expect):
    """What consent says of 0 and 1 after invented events: each (who acts, towards whom, primitive, answer)."""
    def told(*events):
        try:
            return friends_by_consent([(('event', v, u, a), answer) for v, u, a, answer in events], 0, 1)
        except ValueError:
            return 'no invite'

    invite, accept = (0, 1, INVITE, 0), (1, 0, ACCEPT, 0)
    for what, events, wanted in (
            ('none', [], False), ('invite', [invite], False), ('invite, accept', [invite, accept], True),
            ('and refused ones between', [invite, (1, 0, IGNORE, 11), (0, 1, ACCEPT, 10), accept, (0, 1, REMOVE, 9)], True),
            ('accept refused', [invite, (1, 0, ACCEPT, 10)], False), ('of others', [(0, 2, INVITE, 0), (2, 0, ACCEPT, 0)], False),
            ('of others between', [invite, (2, 0, INVITE, 0), (1, 2, REMOVE, 0), accept, (0, 2, REMOVE, 0)], True),
            ('then remove', [invite, accept, (0, 1, REMOVE, 0)], False), ('then invite', [invite, accept, invite], False),
            ('ignore', [invite, (1, 0, IGNORE, 0)], False), ('accept alone', [accept], 'no invite'),
            ('accept of the inviter', [invite, (0, 1, ACCEPT, 0)], 'no invite'),
            ('accept twice', [invite, accept, accept], 'no invite'),
            ('ignore between', [invite, (1, 0, IGNORE, 0), accept], 'no invite'),
            ('invite refused', [(0, 1, INVITE, 11), accept], 'no invite')):
        expect('consent, ' + what, told(*events), wanted)


def self_check():
    failures = 0

    def expect(what, got, wanted):
        nonlocal failures
        if got != wanted:
            failures += 1
        print('%-24s %-8s %s' % (what, got, 'as said' if got == wanted else 'BUT %s IS SAID' % (wanted,)))

    scheme = standard_scheme(4)
    lines = run(scheme, build_log(parsed(request) for request, _ in SESSION))
    expect('lines', len(lines), len(SESSION))
    for (request, wanted), line in zip(SESSION, lines):
        expect(request, line, wanted)

    network = bytearray(42)
    expect('fresh, 42 bytes', fresh(scheme, network), 0)
    expect('n 256', check(standard_scheme(256)), 0)
    expect('n 257', check(standard_scheme(257)), 2)
    expect('set 3 0 12', set_policy(scheme, network, 3, 0, 12), 0)
    expect('set 3 0 13', set_policy(scheme, network, 3, 0, 13), 12)
    expect('event 0 0 0', event(scheme, network, 0, 0, 0), 8)
    expect('find 3 3', find(scheme, network, 3, 3), 0)
    expect('degree 3 3', degree(scheme, network, 3, 3), (0, 0))
    expect('degree 0 3, none', degree(scheme, network, 0, 3), (0, None))
    expect('degree 3 0, not found', degree(scheme, network, 3, 0), (9, None))
    expect('degree 0 4', degree(scheme, network, 0, 4), (6, None))
    for i, j in ((0, 1), (1, 2), (2, 3)):
        network[pair_place(i, j)] = 3
    expect('degree 0 3, by 1 and 2', degree(scheme, network, 0, 3), (0, 3))
    network[pair_place(0, 2)] = 3
    expect('degree 0 3, by 2', degree(scheme, network, 0, 3), (0, 2))
    expect('degree 0 2, friends', degree(scheme, network, 0, 2), (0, 1))
    for more in (check_suggestions, check_sixth_record, check_groups, check_views, check_consent, check_invented_consent):
        more(expect)
    expect('longest network', network_length(LIMITS), 39296)
    print('%d differ' % failures)
    return failures == 0


def contents(name, most):
    """A file's first bytes; one that cannot be read counts as empty."""
    try:
        with open(name, 'rb') as file:
            return file.read(most)
    except OSError:
        return b''


if __name__ == '__main__':
    if len(sys.argv) == 3:
        for line in run(contents(sys.argv[1], SCHEME_READ), contents(sys.argv[2], LOG_READ)):
            print(line)
    else:
        sys.exit(0 if self_check() else 1)
