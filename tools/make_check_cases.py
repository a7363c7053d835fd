#!/usr/bin/env python3
"""Writes the cases of the program check_cases and the text that it must print, by reference.py.

A case is a 2-byte length and a scheme's bytes, then a 2-byte length and a network's bytes.
Its lines, K being its number from 1:
    K check ANSWER        and, where the scheme is accepted, its five counts
    K valid 1 or 0        only where the scheme is accepted
    K fresh ANSWER SUM    SUM is the Adler-32 sum of the network's bytes afterwards
"""
import sys
import zlib
from collections import Counter

sys.dont_write_bytecode = True      # no __pycache__ in the repository
import reference as ref
from cases import (NO_ONE, EVERYONE, OWNER, within, known, clique, state, both, either, changed, damaged, part,
                   random_scheme, accepted_scheme, random_counts, regrouped, fresh_network, random_network, off_settings,
                   stop_where_few, write)

FEWEST = 15         # how often each entry of BEHIND has to occur
# (the answer to a scheme's first five records, the answer to the scheme): with nothing behind them, and with more
ALONE = [(0, 0), (3, 3), (4, 4)]
MORE = [(0, 0), (0, 1), (0, 3), (3, 1), (3, 3), (4, 1), (4, 3), (4, 4)]
BEHIND = Counter({('five records', *answers): 0 for answers in ALONE} | {('more behind them', *answers): 0 for answers in MORE})


# ---- Records

def record_places(counts):
    """Where the first five records start."""
    places = [0, 10]
    for length in ref.body_lengths(counts)[:3]:
        places.append(places[-1] + 4 + length)
    return places


def bodies(scheme):
    """The bodies of an accepted scheme's first five records."""
    counts = ref.read_scheme(scheme)[1].counts
    return [scheme[at + 4:at + 4 + length]
            for at, length in zip(record_places(counts), [6] + ref.body_lengths(counts))]


def joined(records):
    return b''.join(ref.record(kind, body) for kind, body in records)


# ---- Schemes

def plain_scheme(counts, policies=None, masks=None, friends=(), moves=None):
    """A scheme of given counts in which all that is not given is as plain as can be."""
    counts = ref.Counts(*counts)
    policies = list(policies or [])
    policies += [NO_ONE] * (counts.policies - len(policies))
    masks = masks or [1] * ref.resources(counts)
    return ref.build_scheme(counts, moves or {}, friends, policies, masks)


def with_policies(policies, search, n=4, states=4, friends=()):
    """A scheme of these policies, with this mask for search and all policies offered elsewhere."""
    counts = ref.Counts(n, states, 2, 2, len(policies))
    masks = [search] + [ref.mask_of(range(len(policies)))] * (ref.resources(counts) - 1)
    return ref.build_scheme(counts, {(0, 0, 0): states - 1}, friends, policies, masks)


# ---- The cases: each (scheme, network, the check's answer that it is meant for)

def lengths(network):
    """Networks of the exact length, one short, one long, and empty."""
    return [network, network[:-1], network + b'\0', b'']


def standard_networks(rng):
    for n in (1, 4):
        scheme = ref.standard_scheme(n)
        read = ref.read_scheme(scheme)[1]
        network = random_network(rng, scheme)
        for bytes_given in lengths(fresh_network(scheme)) + lengths(network) + [b'\xff' * len(network)]:
            yield scheme, bytes_given, 0
        for at in range(ref.pair_count(n)):
            for value in (0, 3, 4, 5, 255):
                yield scheme, changed(network, at, value), 0
        for m in {0, n - 1}:
            for r, mask in enumerate(read.masks):
                for value in off_settings(mask) if m == n - 1 else off_settings(mask)[:2]:
                    yield scheme, changed(network, ref.setting_place(read.counts, m, r), value), 0
    for n in (2, 3, 7):
        scheme = ref.standard_scheme(n)
        for bytes_given in lengths(random_network(rng, scheme)):
            yield scheme, bytes_given, 0


def large_standard_networks(rng):
    scheme = ref.standard_scheme(256)
    network = random_network(rng, scheme)
    pairs = ref.pair_count(256)
    for bytes_given in lengths(network):
        yield scheme, bytes_given, 0
    yield scheme, changed(network, pairs - 1, 4), 0
    yield scheme, changed(network, len(network) - 1, 5), 0
    for scheme in (ref.standard_scheme(257), ref.standard_scheme(257, range(257))):
        for bytes_given in (b'', b'\7', fresh_network(ref.standard_scheme(1))):
            yield scheme, bytes_given, 2


def cut_schemes(rng):
    scheme = ref.standard_scheme(4)
    network = random_network(rng, scheme)
    for length in range(len(scheme)):
        yield scheme[:length], network, 1
    scheme = ref.standard_scheme(257)
    for length in range(9, 13):
        yield scheme[:length], network, 1 if length < 10 else 2


def counts_at_their_ends(rng):
    standard = ref.standard_scheme(4)
    # one count of the head at a time, with the other records resized to fit and not
    for field in range(5):
        limit = ref.LIMITS[field]
        for value in (0, 1, 2, limit - 1, limit, limit + 1, 255) + ((511, 512, 65535) if field == 0 else ()):
            counts = list((2, 4, 4, 3, 13))
            counts[field] = value
            inside = 1 <= value <= limit
            resized = plain_scheme((counts[0] if inside else 2, *counts[1:]))
            resized = ref.record(1, ref.head_body(counts)) + resized[10:]
            network = fresh_network(resized)[:300] if inside else bytes(5)
            yield resized, network, 0 if inside else 2
            counts[0] = value if field == 0 else 4
            kept = ref.record(1, ref.head_body(counts)) + standard[10:]
            fits = field == 0 and inside
            yield kept, bytes(42), 2 if not inside else 0 if fits else 1
    for counts in ((0, 0, 0, 0, 0), (257, 17, 9, 17, 33), (65535, 255, 255, 255, 255), (256, 16, 8, 16, 33)):
        yield ref.record(1, ref.head_body(counts)), bytes(3), 2
    for counts in ((1, 1, 1, 1, 1), (256, 16, 8, 16, 32)):
        yield ref.record(1, ref.head_body(counts)), bytes(3), 1


def bytes_behind(rng):
    scheme = ref.standard_scheme(4)
    network = random_network(rng, scheme)
    for more in ([bytes(length) for length in range(1, 9)]
                 + [b'\xff', ref.record(6, b''), ref.record(5, bodies(scheme)[4]), scheme, bytes(1500)]):
        yield scheme + more, network, 1


def wrong_records(rng):
    scheme = ref.standard_scheme(4)
    network = random_network(rng, scheme)
    places = record_places(ref.read_scheme(scheme)[1].counts)
    parts = bodies(scheme)
    kinds = [1, 2, 3, 4, 5]
    for i, at in enumerate(places):
        for change in (1, 255, 4):                                 # the two low bytes
            yield changed(scheme, at, (scheme[at] + change) % 256), network, 1
            yield changed(scheme, at + 2, (scheme[at + 2] + change) % 256), network, 1
        yield changed(scheme, at + 1, 1), network, 1               # and the two high ones
        yield changed(scheme, at + 3, 1), network, 1
        for body in (parts[i][:-1], parts[i] + b'\0', b''):        # the body with the length
            sized = parts[:i] + [body] + parts[i + 1:]
            yield joined(zip(kinds, sized)), network, 1
        others = [(kind, body) for kind, body in zip(kinds, parts) if kind != i + 1]
        yield joined(others), network, 1                           # left out, and put last
        yield joined(others + [(i + 1, parts[i])]), network, 1 if i < 4 else 0


def bad_bytes(rng):
    """Answer 3, each way, and near misses."""
    scheme = ref.standard_scheme(4)
    network = random_network(rng, scheme)
    _, moves, marks, policies, masks = record_places(ref.read_scheme(scheme)[1].counts)
    for at in range(moves + 4, marks):
        yield changed(scheme, at, 4), network, 3
        yield changed(scheme, at, 254), network, 3
    for at in (moves + 4, marks - 1):
        for value in (5, 128):
            yield changed(scheme, at, value), network, 3
        for value in (0, 3, 255):
            yield changed(scheme, at, value), network, 0
    for at in range(marks + 4, policies):
        for value in (2, 3, 128, 254, 255):
            yield changed(scheme, at, value), network, 3
    for r in range(9):
        at = masks + 4 + 4 * r
        for value in (0, 1 << 13, 1 << 31, (1 << 14) | 16, 0xffffffff):
            yield scheme[:at] + value.to_bytes(4, 'little') + scheme[at + 4:], network, 3
    # both a 3 and a 4
    yield changed(changed(scheme, marks + 4, 1), marks + 5, 2), network, 3
    yield changed(changed(scheme, marks + 4, 1), len(scheme) - 1, 255), network, 3


def good_sixth_records(n):
    return [ref.groups_record(n, groups) for groups in ([], range(n), [0], [n - 1], range(0, n, 2), range(1, n, 3))]


def wrong_sixth_records(n):
    """What may not stand behind the fifth record: a sixth that is cut, has another kind or length, or is followed by more."""
    good = ref.groups_record(n, [n - 1])
    body, sizes = good[4:], range(1, len(good)) if n < 9 else (1, 2, 3, 4, 5, 4 + n // 2, len(good) - 2, len(good) - 1)
    yield from (good[:size] for size in sizes)
    yield from (ref.record(kind, body) for kind in (0, 1, 2, 5, 7, 16, 255, 262, 6 * 256, 65535))
    for wrong in (body[:-1], body + b'\0', body + b'\1', b'', bytes(256 + n), body + body):
        yield ref.record(6, wrong)                  # the body with the length, and the length alone
        yield len(wrong).to_bytes(2, 'little') + good[2:]
    yield from (good[:4] + wrong for wrong in (body + b'\0', body + b'\1'))
    yield from (good + more for more in (b'\xff', bytes(2), bytes(4), good, ref.record(6, b''), ref.record(7, body)))
    yield ref.record(7, body) + good


def off_sixth_records(n):
    """Sixth records with a byte other than 0 and 1, and with all so."""
    good = ref.groups_record(n, [0])
    for at in sorted({0, n // 2, n - 1}):
        yield from (changed(good, 4 + at, value) for value in (2, 3, 128, 254, 255))
    yield ref.record(6, b'\xff' * n)
    yield ref.record(6, b'\2' * n)


def sixth_records(rng):
    """Each sort of sixth record alone, and with a byte elsewhere that gives 3, or 4, or 2."""
    for n in (1, 4, 256):
        scheme = ref.standard_scheme(n)
        network = random_network(rng, scheme) if n < 9 else b''
        byte_off, marked, head_off = changed(scheme, 14, 4), changed(scheme, 50, 1), changed(scheme, 6, 17)
        for sixth in good_sixth_records(n):
            yield scheme + sixth, network, 0
            yield byte_off + sixth, network, 3
            yield marked + sixth, network, 4
        for sixth in wrong_sixth_records(n):
            yield scheme + sixth, network, 1
        for i, sixth in enumerate(wrong_sixth_records(n)):
            yield (byte_off, marked, changed(byte_off, 51, 2))[i % 3] + sixth, network, 1
        for i, sixth in enumerate(off_sixth_records(n)):
            yield scheme + sixth, network, 3
            yield (marked, byte_off, changed(marked, 14, 4))[i % 3] + sixth, network, 3
            yield scheme + (sixth[:-1], sixth + b'\0', changed(sixth, 2, 7))[i % 3], network, 1
        for sixth in (good_sixth_records(n)[0], ref.record(7, bytes(n)), ref.record(6, b'\2' * n)):
            yield head_off + sixth, network, 2
        parts = list(zip((1, 2, 3, 4, 5, 6), bodies(scheme) + [bytes(n)]))
        yield joined(parts[:4] + parts[5:]), network, 1                     # no fifth record, and the sixth before it
        yield joined(parts[:4] + [parts[5], parts[4]]), network, 1
        yield scheme[:-1] + ref.groups_record(n, []), network, 1


def policies_out_of_range(rng):
    own = 3

    def scheme(policy, states=4):
        policies = [NO_ONE] * 6
        policies[own] = policy
        return with_policies(policies, 1, states=states)

    def case(policy, wanted, states=4):
        given = scheme(policy, states)
        return given, random_network(rng, scheme(NO_ONE, states)), wanted

    for kind in (0, 1, 2):
        yield case((kind, 0, 0, 0), 0)
        for fields in ((1, 0, 0), (0, 1, 0), (0, 0, 1), (255, 0, 0), (0, 255, 0), (0, 0, 255)):
            yield case((kind, *fields), 3)
    for kind in (3, 4):
        for k in (1, 2, 254, 255):
            yield case((kind, k, 0, 0), 0)
        for fields in ((0, 0, 0), (1, 1, 0), (1, 0, 1), (255, 255, 0), (255, 0, 255)):
            yield case((kind, *fields), 3)
    for k in (0, 1, 6, 7, 255):
        yield case(clique(k), 3)
    for k in (2, 3, 4, 5):
        yield case(clique(k), 0)
        yield case((5, k, 1, 0), 3)
        yield case((5, k, 0, 1), 3)
    for k in (0, 1, 2):
        for states in (1, 2, 7, 8, 9, 15, 16):
            yield case(state(range(states), k), 0, states)
            yield case(state([], k), 0, states)
            if states < 16:
                yield case(state([states], k), 3, states)
                yield case(state([15], k), 3, states)
    for k in (3, 4, 255):
        yield case(state([1], k), 3)
        yield case(state([], k), 3)
    for kind in (7, 8):
        for left, right in ((0, 0), (0, 2), (2, 0), (2, 2)):
            yield case((kind, 0, left, right), 0)
            yield case((kind, 1, left, right), 3)
        for left, right in ((3, 0), (0, 3), (3, 3), (4, 2), (2, 4), (255, 0), (0, 255)):
            yield case((kind, 0, left, right), 3)
        yield with_policies([(kind, 0, 0, 0)] + [NO_ONE] * 3, 2), bytes(18), 3
        yield with_policies([NO_ONE, (kind, 0, 0, 0)], 2), bytes(30), 0
    for kind in (9, 10, 16, 128, 255):
        yield case((kind, 0, 0, 0), 3)
        yield case((kind, 1, 0, 0), 3)


STRANGERS_ADMITTED = [
    [EVERYONE],
    [state([0], 0)], [state([0], 1)], [state([0], 2)], [state([0, 1], 0)], [state(range(4), 2)], [state([0, 3], 1)],
    [NO_ONE, EVERYONE, either(0, 1)], [NO_ONE, EVERYONE, either(1, 0)], [EVERYONE, both(0, 0)],
    [EVERYONE, state([0], 1), both(0, 1)], [state([0], 0), state([0], 2), both(0, 1)],
    [state([0], 1), state([0], 2), either(0, 1)], [OWNER, state([0], 2), either(0, 1)],
    [NO_ONE, state([0], 1), either(0, 1), either(0, 2), either(3, 0)],
    [NO_ONE, EVERYONE, both(1, 1), either(0, 2), both(3, 2), either(0, 4)],
    [state([0], 0), either(0, 0), both(1, 1), either(2, 0), both(3, 2)],
    [clique(2), within(255), EVERYONE, either(0, 1), either(3, 2)],
]

STRANGERS_APART = [
    [NO_ONE], [OWNER], [within(1)], [within(255)], [known(1)], [known(255)], [clique(2)], [clique(5)],
    [state([], 0)], [state([1], 0)], [state([1, 2, 3], 1)], [state([3], 2)],
    [EVERYONE, NO_ONE, both(0, 1)], [EVERYONE, NO_ONE, both(1, 0)],
    [state([0], 1), state([0], 2), both(0, 1)], [state([0], 2), state([0], 1), both(0, 1)],
    [state([0], 0), state([1], 0), both(0, 1)], [within(2), OWNER, either(0, 1)],
    [NO_ONE, EVERYONE, either(0, 1), both(0, 2)], [known(1), EVERYONE, both(0, 1), clique(3), either(2, 3)],
    [EVERYONE, OWNER, both(0, 1), either(2, 1), both(0, 3)],
]


def strangers(rng):
    """Answer 4, each way, and near misses: the last policy is the lowest that search offers."""
    for n in (1, 4):
        for policies in STRANGERS_ADMITTED:
            last = len(policies) - 1
            yield with_policies(policies, 1 << last, n), bytes(18), 4
            # an acceptable policy below it makes it harmless
            padded = [NO_ONE] + [(kind, k, left + 1, right + 1) if kind in (7, 8) else (kind, k, left, right)
                                 for kind, k, left, right in policies]
            scheme = with_policies(padded, 1 | 1 << last + 1, n)
            yield scheme, random_network(rng, scheme), 0
            yield with_policies(padded, 1 << last + 1, n), bytes(18), 4
            yield with_policies(policies + [NO_ONE], 3 << last, n), bytes(18), 4
        for policies in STRANGERS_APART:
            last = len(policies) - 1
            scheme = with_policies(policies + [EVERYONE], 3 << last, n)
            yield scheme, random_network(rng, scheme), 0
            scheme = with_policies(policies, 1 << last, n, friends={1, 3})
            yield scheme, random_network(rng, scheme), 0
            yield with_policies(policies, 1 << last, n, friends={0}), bytes(18), 4
            yield with_policies(policies, 1 << last, n, friends={0, 1, 2, 3}), bytes(18), 4
    # only the search mask's lowest policy counts
    scheme = plain_scheme((2, 2, 1, 1, 2), [EVERYONE, NO_ONE], [2, 1, 1, 1])
    yield scheme, random_network(rng, scheme), 0
    # bits of all four bytes of the mask
    for p in (0, 7, 8, 15, 16, 23, 24, 31):
        policies = [NO_ONE] * p + [EVERYONE] + [NO_ONE] * (31 - p)
        yield with_policies(policies, 1 << p | 1 << 31, 1), bytes(6), 4
        policies = [EVERYONE] * p + [NO_ONE] + [EVERYONE] * (31 - p)
        yield with_policies(policies, 1 << p | 1 << 31, 1), changed(bytes([p] * 6), 5, 31), 0


def long_combinations(rng):
    """32 policies, each of its predecessor with itself."""
    for first, admitted in ((NO_ONE, False), (OWNER, False), (within(9), False), (EVERYONE, True), (state([0], 2), True)):
        for combine in ([either], [both], [either, both]):
            policies = [first] + [combine[p % len(combine)](p - 1, p - 1) for p in range(1, 32)]
            for n in (1, 4):
                network = bytes(ref.pair_count(n)) + bytes([31] * 6 * n)
                yield with_policies(policies, 1 << 31, n), network, 4 if admitted else 0
    policies = [state([0], 1), state([0], 2)] + [either(p - 2, p - 1) for p in range(2, 32)]
    yield with_policies(policies, 1 << 31), bytes(30), 4
    policies = [state([0], 1), state([0], 2)] + [both(p - 2, p - 1) for p in range(2, 32)]
    yield with_policies(policies, 1 << 31), bytes([0] * 6 + [31] * 24), 0


def smallest_scheme(rng):
    for policy, wanted in ((NO_ONE, 0), (EVERYONE, 4), (OWNER, 0), (within(1), 0), (known(1), 0), (clique(2), 0),
                           (state([], 0), 0), (state([0], 1), 4), (state([1], 1), 3), (both(0, 0), 3), (either(0, 0), 3)):
        yield plain_scheme((1, 1, 1, 1, 1), [policy]), bytes(4), wanted
    scheme = plain_scheme((1, 1, 1, 1, 1))
    for network in (b'\0\0\0\1', b'\1\0\0\0', b'\0\0\0', bytes(5), b'', b'\0\0\x20\0'):
        yield scheme, network, 0
    yield plain_scheme((1, 1, 1, 1, 1), friends={0}), bytes(4), 4
    yield plain_scheme((1, 1, 1, 1, 1), masks=[1, 1, 1, 2]), bytes(4), 3
    yield plain_scheme((1, 1, 1, 1, 1), moves={(0, 1, 0): 1}), bytes(4), 3
    yield plain_scheme((1, 1, 1, 1, 1), moves={(0, 1, 0): 0}), bytes(4), 0
    yield b'', b'', 1


def largest_scheme(rng):
    scheme = regrouped(accepted_scheme(rng, ref.LIMITS), rng.sample(range(256), 100))
    network = fresh_network(scheme)
    assert len(scheme) == 790
    yield scheme, b'', 0
    yield scheme, network, 0
    yield scheme + b'\0', b'', 1
    yield scheme[:-1], b'', 1
    yield changed(scheme, 789, 2), b'', 3
    yield regrouped(scheme, None), b'', 0
    yield scheme, changed(random_network(rng, scheme), ref.pair_count(256) - 1, 16), 0
    yield scheme, changed(random_network(rng, scheme), len(network) - 1, 32), 0


def damaged_schemes(rng):
    for _ in range(160):
        scheme = accepted_scheme(rng, random_counts(rng))
        yield damaged(rng, scheme), random_network(rng, scheme), None


def random_networks(rng):
    for _ in range(50):
        scheme = accepted_scheme(rng, random_counts(rng))
        network = random_network(rng, scheme)
        yield scheme, network, 0
        yield scheme, damaged(rng, network), 0
    for _ in range(30):
        scheme = random_scheme(rng, random_counts(rng))
        yield scheme, bytes(rng.randrange(0, 60)), None


# the long networks stand last
GROUPS = [standard_networks, cut_schemes, counts_at_their_ends, bytes_behind, wrong_records, bad_bytes,
          sixth_records, policies_out_of_range, strangers, long_combinations, smallest_scheme, damaged_schemes, random_networks,
          large_standard_networks, largest_scheme]


# ---- What is written

def given(scheme, network, wanted):
    return part(scheme) + part(network)


def note_sixth_record(scheme, answer):
    """Counts the answers to schemes that have five records whole."""
    counts = ref.Counts(ref.number(scheme, 4), *scheme[6:10]) if len(scheme) >= 10 else None
    if counts is None or answer == 2:
        return
    whole = ref.check(scheme[:ref.five_records(counts)])
    if whole in (0, 3, 4):
        BEHIND['more behind them' if len(scheme) > ref.five_records(counts) else 'five records', whole, answer] += 1


def lines(number, tally, scheme, network, wanted):
    answer, read = ref.read_scheme(scheme)
    note_sixth_record(scheme, answer)
    if wanted is not None and answer != wanted:
        sys.exit('case %d: %d, but %d is meant' % (number, answer, wanted))
    tally['check %d' % answer] += 1
    yield ' '.join(map(str, [number, 'check', answer, *(read.counts if read else ())]))
    if read:
        valid = int(ref.is_valid(read, network))
        tally['valid %d' % valid] += 1
        yield '%d valid %d' % (number, valid)
    lent = bytearray(network)
    answer = ref.fresh(scheme, lent)
    tally['fresh %d' % answer] += 1
    yield '%d fresh %d %d' % (number, answer, zlib.adler32(lent))


if __name__ == '__main__':
    write('check_cases', GROUPS, given, lines)
    stop_where_few({'%s: %d, then %d' % entry: count for entry, count in BEHIND.items()}, FEWEST)
