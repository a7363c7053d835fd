"""The scheme check of document 01, with the groups of document 02, and its reasons: which byte of a file is in the way, and why."""
from collections import namedtuple

import reference as ref
from text_lines import shown

# the check's answer; its faults as (byte offset, sentence); the scheme, where the answer is 0 or 4
Examined = namedtuple('Examined', 'answer faults scheme')

SENTENCES = {
    0: 'the scheme is accepted',
    1: 'a record is cut, of another kind or of another length, or bytes follow the last',
    2: 'a head count is outside its range',
    3: 'a byte inside kinds 2 to 6 breaks what documents 01 and 02 say of it',
    4: 'state 0 makes friends, or the lowest search policy admits strangers',
}
RECORDS = {1: 'head', 2: 'moves', 3: 'friends', 4: 'policies', 5: 'masks', 6: 'groups'}
SIDES = ('lesser', 'greater')


def examine(data, names=None):
    """The check's answer on a file, and all faults of the first kind found; policies by name, if names are given."""
    fault = record_fault(data, 0, 1, 6)
    if fault:
        return Examined(1, [fault], None)
    counts = ref.Counts(ref.number(data, 4), *data[6:10])
    faults = list(count_faults(counts))
    if faults:
        return Examined(2, faults, None)
    at, places = 10, []
    for kind, length in zip((2, 3, 4, 5), ref.body_lengths(counts)):
        fault = record_fault(data, at, kind, length)
        if fault:
            return Examined(1, [fault], None)
        places.append(at + 4)
        at += 4 + length
    if at < len(data):
        fault = record_fault(data, at, 6, counts.members)
        if fault:
            return Examined(1, [fault], None)
        places.append(at + 4)
        at += 4 + counts.members
    if at < len(data):
        return Examined(1, [(at, 'bytes follow the sixth record')], None)
    scheme = decoded(data, counts, places)
    faults = [(places[record] + at, what) for record, at, what in byte_faults(scheme)]
    if faults:
        return Examined(3, faults, None)
    faults = list(stranger_faults(scheme, places, names))
    return Examined(4 if faults else 0, faults, scheme)


def decoded(data, counts, places):
    moves, marks, policies, masks = [data[at:at + length] for at, length in zip(places, ref.body_lengths(counts))]
    return ref.Scheme(counts, moves, marks,
                      [ref.Policy(*policies[i:i + 4]) for i in range(0, len(policies), 4)],
                      [int.from_bytes(masks[i:i + 4], 'little') for i in range(0, len(masks), 4)],
                      data[places[4]:] if len(places) == 5 else None)


def record_fault(data, at, kind, length):
    """What is wrong with the record that has to stand at a place, or None."""
    record = 'record %d (%s)' % (kind, RECORDS[kind])
    left = len(data) - at
    if left < 4:
        return len(data), '%s is cut: its head has 4 bytes, and %d are there' % (record, left)
    if ref.number(data, at) != length:
        return at, '%s gives its body %d bytes, and it has %d' % (record, ref.number(data, at), length)
    if ref.number(data, at + 2) != kind:
        return at + 2, '%s has kind %d' % (record, ref.number(data, at + 2))
    if left < 4 + length:
        return len(data), '%s is cut: its body has %d bytes, and %d are there' % (record, length, left - 4)
    return None


def count_faults(counts):
    for at, name, count, most in zip((4, 6, 7, 8, 9), counts._fields, counts, ref.LIMITS):
        if not 1 <= count <= most:
            yield at, 'record 1 (head): %s are 1 to %d, and not %d' % (name, most, count)


# ---- Bytes inside kinds 2 to 6: each fault is (number of the record from kind 2, place in its body, sentence)

def byte_faults(scheme):
    counts = scheme.counts
    for at, after in enumerate(scheme.moves):
        if not ref.move_fits(counts, after):
            q, b, a = at // (2 * counts.primitives), at // counts.primitives % 2, at % counts.primitives
            yield 0, at, ('record 2 (moves): the next state for state %d, %s, primitive %d is %d, and there are %d states'
                          % (q, SIDES[b], a, after, counts.states))
    for at, mark in enumerate(scheme.marks):
        if mark > 1:
            yield 1, at, 'record 3 (friends): the mark of state %d is 0 or 1, and not %d' % (at, mark)
    for p, policy in enumerate(scheme.policies):
        for field, what in policy_faults(counts, p, policy):
            yield 2, 4 * p + field, 'record 4 (policies): policy %d %s' % (p, what)
    for r, mask in enumerate(scheme.masks):
        beyond = [p for p in range(counts.policies, 32) if mask >> p & 1]
        if mask == 0:
            yield 3, 4 * r, 'record 5 (masks): resource %d offers no policy' % r
        for p in beyond[:1]:
            yield 3, 4 * r + p // 8, ('record 5 (masks): resource %d offers policy %d, and there are %d'
                                      % (r, p, counts.policies))
    for m, group in enumerate(scheme.groups or ()):
        if group > 1:
            yield 4, m, 'record 6 (groups): the byte of member %d is 0 or 1, and not %d' % (m, group)


def policy_faults(counts, own, policy):
    """The fields of a policy that are off: (0 kind, 1 k, 2 left or 3 right, sentence)."""
    kind, k, left, right = policy
    if kind > 8:
        yield 0, 'has kind %d, and kinds are 0 to 8' % kind
        return
    least, most = {3: (1, 255), 4: (1, 255), 5: (2, 5), 6: (0, 2)}.get(kind, (0, 0))
    if not least <= k <= most:
        yield 1, 'of kind %d has k %d, and %s' % (kind, k, 'k is %d to %d' % (least, most) if most else 'k is 0')
    if kind == 6:
        for q in [q for q in range(counts.states, 16) if (left + 256 * right) >> q & 1][:1]:
            yield 2 + q // 8, 'names state %d, and there are %d states' % (q, counts.states)
        return
    for field, value in ((2, left), (3, right)):
        if kind in (7, 8) and value >= own:
            yield field, 'names policy %d, which does not stand before it' % value
        if kind < 6 and value != 0:
            yield field, 'of kind %d has %d for its %s, which is 0' % (kind, value, ('left', 'right')[field - 2])


def stranger_faults(scheme, places, names):
    if scheme.marks[0] == 1:
        yield places[1], 'record 3 (friends): state 0, the start, makes friends'
    if not ref.strangers_apart(scheme._replace(marks=bytes(len(scheme.marks)))):
        p = ref.lowest(scheme.masks[ref.SEARCH])
        yield places[3], ('record 5 (masks): the lowest policy for search, %s, admits strangers'
                          % (shown(names.policies[p]) if names else p))
