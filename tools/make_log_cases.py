#!/usr/bin/env python3
"""Writes the cases of the program log_cases and the text that it must print, by reference.py.

A case is a 2-byte length and a scheme's bytes, then a 2-byte length and a log's bytes.
Its lines, K being its number from 1:
    what the log program prints, given these bytes as its files scheme and requests
    end K
"""
import sys
from collections import Counter
from itertools import islice, product

sys.dont_write_bytecode = True      # no __pycache__ in the repository
import reference as ref
from cases import (EVERYONE, NO_ONE, OWNER, known, accepted_scheme, changed, damaged, fresh_network, part, random_counts,
                   random_groups, regrouped, stop_where_few, write)
from make_request_cases import (CALLS, broken_groups, broken_schemes, every_end, opening, random_requests, search_by_everyone,
                                standard_scheme, walking_scheme)

FEWEST = 20         # how often each request has to get each of its answers, and what is counted in GROUPED has to occur
LONGEST = 790       # bytes of the longest scheme that is accepted
FIVE_RECORDS = 530  # and of one without a sixth record
SIXTH = ('five records', 'a sixth record of persons', 'a sixth record with groups')
OTHERWISE = ('logs with other lines without groups', 'other lines without groups')
GROUPED = Counter({name: 0 for name in SIXTH + OTHERWISE})

BEFORE = ('no granted event',) + tuple('%s by %s' % made for made in product(ref.EVENTS, ('it', 'the other')))
REFUSALS = (6, 7, 8, 9, 10, 11)
TRIED, REFUSED, LISTED, APART = '%s after %s', 'event refused with %d', 'pairs listed as friends', 'pairs not listed, after %s'
BETWEEN, NOT_EVEN_REFUSED = 'accept granted, other pairs since the invite', 'no event at all'
CONSENT = Counter({name: 0 for name in (
    LISTED, BETWEEN, *(APART % last for last in BEFORE if 'accept' not in last), APART % NOT_EVEN_REFUSED,
    *(REFUSED % answer for answer in REFUSALS), *(TRIED % (event, last) for event, last in product(ref.EVENTS, BEFORE)))})
COMPARED = Counter({'lists under the standard scheme': 0})


# ---- Logs

def records(requests):
    """The records of requests (kind, argument, argument, argument), a number that is too large being the field's greatest."""
    for kind, *arguments in requests:
        name = ref.KINDS[kind]
        yield ref.build_log([(name, *(min(value, 256 ** width - 1) for value, width in zip(arguments, ref.WIDTHS[name])))])


def log_of(requests):
    return b''.join(records(requests))


def session():
    return ref.build_log(ref.parsed(text) for text, _ in ref.SESSION)


def one_of_each(rng, members):
    """A record of each kind, in some order."""
    v, u = rng.randrange(members), rng.randrange(members)
    asked = [(16, v, u, 0), (17, u, 0, 12), (18, v, u), (19, v, v), (20, v, u, 1)]
    return list(records(rng.sample(asked, 5)))


def filled(rng, scheme, size):
    """A log of valid records, of so many bytes (100 or more)."""
    log = b''
    while len(log) < size - 80:
        log += log_of(random_requests(rng, scheme, 1))
    nines = (size - len(log)) % 8
    return log + log_of([(20, 0, 0, 0)] * nines + [(18, 0, 0)] * ((size - len(log) - 9 * nines) // 8))


def guided_requests(rng, scheme, count):
    """Requests from a fresh network: every member opens what it can, and every second request is an event that is granted, if
    one of some tries is."""
    network = bytearray(ref.fresh_bytes(ref.read_scheme(scheme)[1]))
    asked = []

    def ask(request):
        asked.append(request)
        CALLS[request[0]][3](scheme, network, *request[1:])

    for request in opening(scheme):
        ask(request)
    for _ in range(count // 2):
        tries = random_requests(rng, scheme, 12, odd=0, kinds=[16])
        ask(next((event for event in tries if ref.event(scheme, bytearray(network), *event[1:]) == 0), tries[0]))
        ask(random_requests(rng, scheme, 1, odd=0.02)[0])
    return asked


# ---- A scheme

def known_scheme(n, groups):
    """A scheme with groups in which one event makes two members friends, and whoever knows one or two may view."""
    return ref.build_scheme((n, 2, 1, 1, 4), {(0, 0, 0): 1, (0, 1, 0): 1, (1, 0, 0): 0, (1, 1, 0): 0}, {1},
                            [NO_ONE, EVERYONE, known(1), known(2)], [3, 2, 2, 12], groups)


# ---- The cases: each (scheme, log)

def sessions(rng):
    for n in (4, 1, 2, 3, 5, 256):
        yield ref.standard_scheme(n), session()
    yield ref.standard_scheme(4), b''
    yield ref.standard_scheme(4), session() + session()
    for groups in ([], [1], [0, 1, 2, 3]):
        yield ref.standard_scheme(4, groups), session()


def edges(rng):
    """The edges that document 01 names."""
    asked = ref.build_log(map(ref.parsed, ('set 3 0 12', 'set 3 0 13', 'event 0 0 0', 'find 3 3')))
    for n in (4, 256, 257):
        yield ref.standard_scheme(n), asked


def random_logs(rng):
    for i in range(50):
        n = rng.randrange(1, 6)
        scheme = [standard_scheme(rng, n), walking_scheme(rng, n), accepted_scheme(rng, (n, *random_counts(rng)[1:]))][i % 3]
        asked = random_requests(rng, scheme, 10, odd=0.1) + (opening(scheme) if i % 4 else [])
        yield scheme, log_of(asked + random_requests(rng, scheme, 50, odd=0.03))


def guided_logs(rng):
    for i in range(50):
        n = rng.choice([2, 3, 4, 5, 6, 9])
        scheme = standard_scheme(rng, n) if i % 2 else walking_scheme(rng, n)
        yield scheme, log_of(guided_requests(rng, scheme, 80))


def vouched_logs(rng):
    """Groups decide who is known: 0 and the last member become friends of all others but of each other, and ask for each other."""
    for n, groups in ((3, [1]), (3, []), (4, [1]), (4, [1, 2]), (4, [0, 3]), (5, [2]), (5, [1, 3]), (6, [1, 2, 4]), (6, range(6)),
                      (7, range(1, 6)), (8, [1, 2]), (9, [1, 3, 5, 7]), (10, [0, 1, 8]), (12, [2, 11]), (17, range(2, 9)),
                      (17, range(1, 15)), (34, range(1, 33)), (66, range(1, 64)), (66, [*range(1, 63), 64])):
        scheme = known_scheme(n, groups)
        last = n - 1
        asked = [(17, m, 0, 1) for m in range(n)]
        for m in range(1, last):
            asked += [(16, m, 0, 0), (16, last, m, 0)]
            if m < 12 or m > last - 4:
                asked += [(17, 0, 3, 2), (20, last, 0, 0), (17, last, 3, 3), (20, 0, last, 0), (20, m, last, 0)]
        yield scheme, log_of(asked + [(19, 0, 0), (16, 1, 0, 0), (16, 1, last, 0), (20, 0, last, 0)])
    for i in range(24):
        n = rng.randrange(3, 9)
        scheme = known_scheme(n, rng.sample(range(n), n // 2) if i % 4 else random_groups(rng, n))
        yield scheme, log_of(guided_requests(rng, scheme, 60))


def ends(rng):
    """All combinations of arguments at their ends and beyond, after members have opened all that they can."""
    for scheme in (ref.standard_scheme(1), ref.standard_scheme(2), ref.standard_scheme(4), walking_scheme(rng, 3),
                   accepted_scheme(rng, (3, 16, 8, 16, 32)), accepted_scheme(rng, (2, 2, 1, 1, 1))):
        yield scheme, log_of(opening(scheme)[:60] + every_end(scheme))


def cut_logs(rng):
    """Logs cut at every byte."""
    whole = b''.join(one_of_each(rng, 4))
    for size in range(len(whole) + 1):
        yield ref.standard_scheme(4), whole[:size]


def wrong_kinds(rng):
    for place in range(5):
        for kind in (15, 21, 0, 65535, 1, 255, 16 + 256, 16 * 256):
            log = one_of_each(rng, 4)
            log[place] = log[place][:2] + kind.to_bytes(2, 'little') + log[place][4:]
            yield ref.standard_scheme(4), b''.join(log)


def wrong_lengths(rng):
    """A length that is off, the body being as long as it should be, or as long as the length says."""
    for place in range(5):
        for change, body in ((-1, 0), (1, 0), (-1, -1), (1, 1), (256, 0), (-4, -4), (65000, 0)):
            log = one_of_each(rng, 4)
            kind, rest = log[place][2:4], log[place][4:]
            log[place] = (len(rest) + change).to_bytes(2, 'little') + kind + (rest + b'\0')[:len(rest) + body]
            yield ref.standard_scheme(4), b''.join(log)


def bytes_behind(rng):
    for behind in (b'\0', b'\4\0', b'\4\0\x12', b'\0\0\0\0', b'\0\0\x12\0', b'\4\0\x12\0', b'\xff\xff\xff\xff', b'\xff' * 60):
        yield ref.standard_scheme(4), session() + behind


def damaged_logs(rng):
    for i in range(40):
        n = rng.randrange(1, 5)
        scheme = walking_scheme(rng, n) if i % 2 else ref.standard_scheme(n)
        yield scheme, damaged(rng, log_of(opening(scheme)[:8] + random_requests(rng, scheme, 10, odd=0.05)))


def long_logs(rng):
    """Logs of the greatest length that is run, and longer ones, valid and not."""
    scheme = ref.standard_scheme(3)
    for size in (16383, 16384):
        yield scheme, filled(rng, scheme, size)
    log = filled(rng, scheme, 16384)
    for at in (2, len(log) - 6):        # the kind of the first record, and of the last
        yield scheme, changed(log, at, 15)
    for size in (16385, 16386, 20000, 65535):
        yield scheme, filled(rng, scheme, size)
    for size in (16384, 16385):
        yield scheme, bytes(size)
    yield ref.standard_scheme(256), filled(rng, scheme, 16385)


def refused_schemes(rng):
    """Refusals of the scheme come before those of the log: with a log that runs, an empty one, one that is damaged, and one
    that is too long."""
    logs = [session(), b'', b'\0', session()[:20], b''.join(one_of_each(rng, 4))]
    for i, (scheme, _, _) in enumerate(islice(broken_schemes(rng), 49)):
        yield scheme, logs[i % len(logs)]
    for i, (scheme, _, _) in enumerate(islice(broken_groups(rng), 21)):
        yield scheme, logs[i % len(logs)]
    too_long = filled(rng, ref.standard_scheme(3), 16385)
    for scheme in (b'', ref.standard_scheme(4)[:-1], ref.standard_scheme(257), ref.standard_scheme(0),
                   changed(ref.standard_scheme(4), 46, 2), search_by_everyone(ref.standard_scheme(4))):
        yield scheme, session()
        yield scheme, too_long


def long_schemes(rng):
    """Schemes of the greatest lengths that are accepted, with a sixth record and without, and longer ones: with bytes behind, or a
    head that is off."""
    shorter = regrouped(accepted_scheme(rng, ref.LIMITS._replace(members=3)), None)
    longest = regrouped(accepted_scheme(rng, ref.LIMITS), rng.sample(range(256), 90))
    assert (len(shorter), len(longest)) == (FIVE_RECORDS, LONGEST)
    for scheme in (shorter, regrouped(shorter, [1]), longest, regrouped(longest, None)):
        yield scheme, log_of(random_requests(rng, scheme, 20))
        for size in (len(scheme) + 1, 600, 789, 790, 791, 1000):
            if size > len(scheme):
                yield scheme + bytes(size - len(scheme)), session()
    for size in (4096, 16384, 65535):
        yield longest + bytes(size - LONGEST), session()
    for scheme in (longest[:-1], changed(longest, FIVE_RECORDS + 2, 7), changed(longest, LONGEST - 1, 2),
                   longest + longest[FIVE_RECORDS:]):
        yield scheme, session()
    for scheme in (shorter, longest):
        for at, value in ((0, 7), (2, 2), (6, 17), (9, 33), (9, 0), (40, 254)):
            yield changed(scheme, at, value) + b'\xff' * 70, session()
    yield ref.standard_scheme(4) + ref.standard_scheme(4), session()
    yield ref.standard_scheme(4) * 4, b''
    for size in (600, 900):
        yield bytes(size), session()


def sizes(rng):
    """Many numbers of members, with requests at the last member and beyond."""
    for n in [*range(1, 21), 31, 32, 33, 47, 63, 64, 65, 66, 95, 96, 97, 127, 128, 129, 160, 191, 192, 193, 223, 254, 255, 256]:
        last = n - 1
        asked = [(17, last, 0, 12), (17, last, 2, 4), (17, last, 1, 4), (17, n, 0, 12), (18, 0, last), (16, 0, last, 0),
                 (16, last, 0, 1), (19, n // 2, last), (19, n, last), (16, n, last, 0), (18, last, n), (18, n // 2, last),
                 (20, 0, last, 0), (20, last, n + 255, 0), (17, last, 6, 12), (20, 0, last, 0), (19, last, last)]
        yield ref.standard_scheme(n), log_of(asked)


def one_step_scheme(n):
    """A scheme in which one event makes two members friends."""
    return ref.build_scheme((n, 2, 1, 1, 3), {(0, 0, 0): 1, (0, 1, 0): 1}, {1}, [NO_ONE, OWNER, EVERYONE], [5, 4, 4, 7])


def friend_counts(rng):
    """One member makes friends with all others, in some order, and it or the new friend lists them: from none to all."""
    for n, middle in ((6, 2), (64, 63), (65, 64), (256, 0), (256, 255)):
        others = rng.sample([m for m in range(n) if m != middle], n - 1)
        asked = [(17, middle, 0, 2), (19, middle, middle)]
        for m in others:
            asked += [(16, m, middle, 0), (19, rng.choice([middle, m]), middle)]
        yield one_step_scheme(n), log_of(asked + [(19, middle, others[0]), (19, others[0], others[-1])])


# ---- Consent: logs under the standard scheme, and who are friends by their requests and answers alone

class Exchange:
    """n members under the standard scheme, from a fresh network, with what they have asked and what was answered."""

    def __init__(self, n):
        self.n = n
        self.scheme = ref.standard_scheme(n)
        self.network = bytearray(fresh_network(self.scheme))
        self.answered = []      # (request, answer)

    def ask(self, *request):
        line = ref.answer_line(self.scheme, self.network, request)
        self.answered.append((request, int(line.split()[0])))

    def grants(self, event):
        return ref.event(self.scheme, bytearray(self.network), *event) == 0

    def open(self, m):
        """m may be found and invited by everyone, and lists its friends for itself."""
        for r, p in ((ref.SEARCH, 12), (ref.TRAVERSAL, 1), (ref.PRIMITIVES + ref.INVITE, 4)):
            self.ask('set', m, r, p)

    def log(self):
        return ref.build_log(request for request, _ in self.answered)


# Granted events between two members, 0 the one and 1 the other. One invites after an ignore or a remove of its own, and after one
# of the other; who removes has invited, or has accepted.
COURSE = ((0, ref.INVITE), (1, ref.IGNORE), (1, ref.INVITE), (0, ref.ACCEPT), (0, ref.REMOVE), (0, ref.INVITE), (1, ref.ACCEPT),
          (0, ref.REMOVE), (1, ref.INVITE), (0, ref.IGNORE), (1, ref.INVITE), (0, ref.ACCEPT), (1, ref.REMOVE))


def whole_course(exchange, pair):
    """The two go through the course. Before each step every event between them that would be refused is asked, and both list
    their friends."""
    events = [(v, u, a) for v, u in (pair, pair[::-1]) for a in range(4)]
    for one, a in COURSE:
        for event in events:
            if not exchange.grants(event):
                exchange.ask('event', *event)
        for m in pair:
            exchange.ask('list', m, m)
        exchange.ask('event', pair[one], pair[1 - one], a)


def odd_event(rng, exchange, v, u, a):
    """The event with a number out of range, or towards who acts."""
    far = exchange.n + rng.choice([0, 1, 255, 256])
    return rng.choice([(far, u, a), (v, far, a), (v, u, rng.choice([4, 5, 255])), (v, u, 4), (v, v, a), (u, u, a)])


def some_event(rng, exchange, members):
    """An event between two of these members; every second one is granted, if one of some tries is."""
    tries = [(*rng.sample(members, 2), rng.randrange(4)) for _ in range(6)]
    if rng.random() < 0.15:
        return odd_event(rng, exchange, *tries[0])
    return next(filter(exchange.grants, tries), tries[0]) if rng.randrange(2) else tries[0]


# of search, traversal and invite; with each of them a member still lists its friends for itself
SETTINGS = [(0, 8), (0, 11), (0, 12), (0, 12), (1, 1), (1, 3), (1, 4), (2, 0), (2, 0), (2, 3), (2, 4), (2, 4)]


def mixed_courses(rng, exchange, members, count):
    """Events between all these members, each with a list of friends, and now and then a setting; at the end, all list theirs."""
    for _ in range(count):
        v, u, a = some_event(rng, exchange, members)
        exchange.ask('event', v, u, a)
        exchange.ask('list', *rng.choice([(v, v), (u, u), (u, u), rng.choices(members, k=2)]))
        if rng.random() < 0.2:
            exchange.ask('set', rng.choice(members), *rng.choice(SETTINGS))
    for m in members:
        exchange.ask('list', m, m)


def alone(exchange):
    """One member: every event is refused."""
    for a in range(5):
        for v, u in product(range(2), repeat=2):
            exchange.ask('event', v, u, a)
        exchange.ask('list', 0, 0)


def consented_logs(rng):
    """Two members go through the course; and several members mix their events, in networks of many sizes."""
    for n, one, other in ((1, 0, 0), (2, 0, 1), (3, 2, 0), (4, 1, 2), (5, 4, 1), (9, 3, 8), (65, 64, 63), (256, 0, 255)):
        exchange = Exchange(n)
        for m in sorted({one, other}):
            exchange.open(m)
        if n == 1:
            alone(exchange)
        else:
            whole_course(exchange, (one, other))
            if n < 10:
                whole_course(exchange, (other, one))
        yield noted(exchange)
    for n, count in ((2, 50), (3, 70), (4, 130), (4, 130), (5, 130), (9, 100), (33, 60), (64, 60), (129, 60), (256, 40)):
        exchange = Exchange(n)
        members = sorted({0, n - 1, *rng.sample(range(n), min(n, 3))})
        exchange.ask('event', *rng.sample(members, 2), ref.INVITE)
        for m in members:
            exchange.open(m)
        mixed_courses(rng, exchange, members, count)
        yield noted(exchange)


def last_between(answered, v, u):
    """The last granted event between two members, v being it."""
    granted = ref.granted_between(answered, v, u)
    if not granted:
        return BEFORE[0]
    who, a = granted[-1]
    return '%s by %s' % (ref.EVENTS[a], 'it' if who == v else 'the other')


def note_pair(answered, v, u):
    """Counts two members, one of whom is listed: as friends, or by what has happened between them."""
    if ref.friends_by_consent(answered, v, u):
        CONSENT[LISTED] += 1
        return
    last = last_between(answered, v, u)
    tried = any(request[0] == 'event' and set(request[1:3]) == {v, u} for request, _ in answered)
    CONSENT[APART % (NOT_EVEN_REFUSED if last == BEFORE[0] and not tried else last)] += 1


def note_event(answered, v, u, a, answer):
    """Counts an event: by what has happened between the two, where that decides; and by its refusal."""
    if answer in (0, 10):
        CONSENT[TRIED % (ref.EVENTS[a], last_between(answered, v, u))] += 1
    if answer != 0:
        CONSENT[REFUSED % answer] += 1
    elif a == ref.ACCEPT:
        last = [request for request, given in answered if request[0] == 'event' and given == 0][-1]
        CONSENT[BETWEEN] += set(last[1:3]) != {v, u}


def noted(exchange):
    """The case; its events are counted, and of each granted list the pairs of its owner with all others."""
    for place, (request, answer) in enumerate(exchange.answered):
        name, *arguments = request
        before = exchange.answered[:place]
        if name == 'event':
            note_event(before, *arguments, answer)
        elif name == 'list' and answer == 0:
            for m in sorted({*range(exchange.n)} - {arguments[1]}):
                note_pair(before, arguments[1], m)
    return exchange.scheme, exchange.log()


# ---- What is written

# the long ones stand last, and behind them what came later
GROUPS = [sessions, edges, cut_logs, wrong_kinds, wrong_lengths, bytes_behind, damaged_logs, refused_schemes, long_schemes, ends,
          random_logs, guided_logs, vouched_logs, sizes, long_logs, friend_counts, consented_logs]


def given(scheme, log):
    return part(scheme) + part(log)


def note_groups(scheme, log, printed):
    """Counts the accepted schemes by their sixth record, and the lines that groups change."""
    read = ref.read_scheme(scheme)[1]
    if read is None:
        return
    groups = ref.group_members(read)
    GROUPED[SIXTH[0 if read.groups is None else 2 if groups else 1]] += 1
    if groups:
        without = ref.run(regrouped(scheme, None), log)
        GROUPED[OTHERWISE[0]] += printed != without
        GROUPED[OTHERWISE[1]] += sum(line != other for line, other in zip(printed, without))


def answers(log, printed):
    """Of each line, the request, None where there is none, the answer, and the members behind it."""
    place = 0
    for line in printed:
        position, answer, *members = map(int, line.split())
        request = None
        if position != 0:
            _, request, place = ref.next_request(log, place)
        yield request, answer, members


def compare_by_consent(number, scheme, log, printed):
    """Under the standard scheme, stops where a list has other members than those whom the lines before it make friends."""
    read = ref.read_scheme(scheme)[1]
    if read is None or scheme != ref.standard_scheme(read.counts.members):
        return
    answered = []
    for request, answer, members in answers(log, printed):
        if request and request[0] == 'list' and answer == 0:
            COMPARED['lists under the standard scheme'] += 1
            friends = [m for m in range(read.counts.members) if ref.friends_by_consent(answered, request[2], m)]
            if members != friends:
                sys.exit('case %d, line %d: listed are %s, and friends by consent are %s'
                         % (number, len(answered) + 1, members, friends))
        if request:
            answered.append((request, answer))


def lines(number, tally, scheme, log):
    printed = ref.run(scheme, log)
    note_groups(scheme, log, printed)
    compare_by_consent(number, scheme, log, printed)
    for line, (request, answer, _) in zip(printed, answers(log, printed)):
        what = request[0] if request else 'record' if line[0] != '0' else 'log' if answer == 15 else 'scheme'
        tally['%s %2d' % (what, answer)] += 1
    if not printed:
        tally['no line'] += 1
    yield from printed
    yield 'end %d' % number


def wanted():
    """How often at least the cases have to have each answer."""
    for name, _, own, _ in CALLS.values():
        for answer in {0, 6} | own - {13}:
            yield '%s %2d' % (name, answer), FEWEST
    for answer in (1, 2, 3, 4):
        yield 'scheme %2d' % answer, 8
    yield from (('log 15', 5), ('record 14', 100), ('no line', 1))


if __name__ == '__main__':
    total = write('log_cases', GROUPS, given, lines)
    for entry, fewest in wanted():
        if total[entry] < fewest:
            sys.exit('too few: %s' % entry)
    stop_where_few(GROUPED, FEWEST)
    stop_where_few(CONSENT, FEWEST)
    stop_where_few(COMPARED, FEWEST)
