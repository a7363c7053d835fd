"""A scheme as text, with names, and as the bytes of documents 01 and 02.

Each line is `KEY: VALUE`; `#` begins a comment.
    members: 4
    groups: 2 3                                 the members that are groups; may be empty
    states: stranger asked friend               the first is the start
    friends: friend                             the states that make a pair friends; may be empty
    primitives: ask accept
    items: card recipe
    move: stranger, lesser, ask -> asked        side of who acts: the member of the lesser or the greater number
    policy NAME: no one | everyone | owner | within K | known K | clique K | both P Q | either P Q
               | state {STATE ..} | state {STATE ..} owner-lower | state {STATE ..} owner-higher
    search: P ..                                the policies that may be chosen for it
    traversal: P ..
    primitive NAME: P ..
    item NAME: P ..
Without a line `groups: ..` the bytes have no sixth record, and with an empty one a sixth record in which all are persons. The check
and every call answer both alike.
Policies are numbered in the order of their lines, and P and Q stand before the policy that names them. What a resource has at
first, its default, is the policy of its list whose line `policy NAME: ..` stands first, in whatever order the list has them. A
name begins with a letter, goes on with letters, digits, - and _, and stands in a list once. Texts are UTF-8; a byte order mark
before them and carriage returns at the ends of lines are passed over.
"""
import re
from collections import Counter, namedtuple

import reference as ref
from text_lines import Fault, Lines, NAME, number, place_of, shown

Names = namedtuple('Names', 'states primitives items policies')     # lists; while a text is read, the places by name

SINGLE = ('members', 'states', 'friends', 'primitives', 'items')
OPTIONAL = ('groups',)
RESOURCES = ('search', 'traversal', 'primitive', 'item')
SIDES = ('lesser', 'greater')
PLAIN = {'no one': 0, 'everyone': 1, 'owner': 2}
COUNTED = {'within': (3, 1, 255), 'known': (4, 1, 255), 'clique': (5, 2, 5)}      # kind, least and most k
COMBINED = {'both': 7, 'either': 8}
OWNERS = ('', 'owner-lower', 'owner-higher')                                      # by k of a state policy
STATE = re.compile(r'state *\{([^{}]*)\} *(owner-lower|owner-higher|)')


def resource_names(names):
    """The names of all resources, by number."""
    return ['search', 'traversal', *names.primitives, *names.items]


# ---- Text to bytes

class SchemeLines(Lines):
    """A scheme text's lines, sorted by key: those that stand once, moves, policies and resources."""

    def __init__(self, name, data):
        super().__init__(name, data)
        self.single, self.moves, self.policies, self.resources = {}, [], [], []
        for place, content in self.lines:
            with self.at(place):
                self.sort(place, content)
        for key in SINGLE:
            with self.at(0):
                if key not in self.single:
                    raise Fault("there is no line '%s: ..'" % key)

    def sort(self, place, content):
        key, colon, value = content.partition(':')
        words, value = key.split(), value.strip()
        if not colon or not words:
            raise Fault("a line is 'KEY: VALUE'")
        if words[0] in SINGLE + OPTIONAL and len(words) == 1:
            if words[0] in self.single:
                raise Fault("'%s' stands in line %d already" % (words[0], self.single[words[0]][0]))
            self.single[words[0]] = (place, value)
        elif words == ['move']:
            self.moves.append((place, value))
        elif words[0] == 'policy' and len(words) == 2:
            self.policies.append((place, words[1], value))
        elif words[0] in RESOURCES and len(words) == 1 + (words[0] in ('primitive', 'item')):
            self.resources.append((place, words, value.split()))
        else:
            raise Fault("unknown key '%s'; the keys are %s, move, policy NAME, search, traversal, primitive NAME and item NAME"
                        % (shown(' '.join(words)), ', '.join(SINGLE + OPTIONAL)))

    def value(self, key):
        """The line of a key that stands once, and its value; 0 and nothing where it is missing."""
        return self.single.get(key, (0, ''))


def parse_scheme(name, data):
    """The names and the bytes of a scheme's text; BadText where it has faults."""
    lines = SchemeLines(name, data)
    names = parse_names(lines)
    members = parse_members(lines)
    groups = parse_groups(lines, members)
    friends = parse_friends(lines, names)
    moves = parse_moves(lines, names)
    policies = parse_policies(lines, names)
    masks = parse_masks(lines, names)
    lines.finish()
    counts = (members, len(names.states), len(names.primitives), len(names.items), len(names.policies))
    return Names(*map(list, names)), ref.build_scheme(counts, moves, friends, policies, masks, groups)


def parse_members(lines):
    place, value = lines.value('members')
    with lines.at(place):
        return number(value, 'members', 1, ref.LIMITS.members) if place else None


def parse_groups(lines, members):
    """The members that are groups; None where no line says so."""
    place, value = lines.value('groups')
    groups = set()
    for word in value.split():
        with lines.at(place):
            m = number(word, "a member's number", 0, (members or ref.LIMITS.members) - 1)
            if m in groups:
                raise Fault('the member %d is named twice' % m)
            groups.add(m)
    return groups if place else None


def add_name(names, word, what, most):
    if not NAME.fullmatch(word):
        raise Fault("'%s' is no name: a letter, then letters, digits, - and _" % shown(word))
    if word in names:
        raise Fault("the %s '%s' is defined twice" % (what, shown(word)))
    names[word] = len(names)
    if len(names) == most + 1:
        raise Fault('there are more than %d %s' % (most, {'policy': 'policies'}.get(what, what + 's')))


def parse_names(lines):
    names = Names({}, {}, {}, {})
    for key, what, own in zip(('states', 'primitives', 'items'), ('state', 'primitive', 'item'), names):
        place, value = lines.value(key)
        for word in value.split():
            with lines.at(place):
                add_name(own, word, what, getattr(ref.LIMITS, key))
        if place and not own:
            with lines.at(place):
                raise Fault('there is at least one ' + what)
    for word in sorted(word for word, count in Counter(resource_names(names)).items() if count > 1):
        with lines.at(lines.value('items' if word in names.items else 'primitives')[0]):
            raise Fault("search, traversal, primitives and items have different names, and two are '%s'" % shown(word))
    for place, word, _ in lines.policies:
        with lines.at(place):
            add_name(names.policies, word, 'policy', ref.LIMITS.policies)
    if not lines.policies:
        with lines.at(0):
            raise Fault("there is no line 'policy NAME: ..'")
    return names


def places_in(lines, place, words, what, names):
    """The places of the names that a list has, each once."""
    places = set()
    for word in words:
        with lines.at(place):
            found = place_of(word, what, names)
            if found in places:
                raise Fault("the %s '%s' is named twice" % (what, shown(word)))
            places.add(found)
    return {found for found in places if found < 32}        # where there are more names, that is told


def parse_friends(lines, names):
    place, value = lines.value('friends')
    return places_in(lines, place, value.split(), 'state', names.states)


def split_move(value):
    left, _, after = value.partition('->')
    words = [part.split() for part in (*left.split(','), after)]
    if len(words) != 4 or any(len(word) != 1 for word in words):
        raise Fault("a move is 'STATE, lesser or greater, PRIMITIVE -> STATE'")
    return [word for word, in words]


def parse_moves(lines, names):
    moves, places = {}, {}
    for place, value in lines.moves:
        with lines.at(place):
            state, side, primitive, after = split_move(value)
            if side not in SIDES:
                raise Fault("a side is lesser or greater, and not '%s'" % shown(side))
            move = (place_of(state, 'state', names.states), SIDES.index(side),
                    place_of(primitive, 'primitive', names.primitives))
            if move in moves:
                raise Fault('the move of %s, %s, %s stands in line %d already'
                            % (shown(state), side, shown(primitive), places[move]))
            moves[move], places[move] = place_of(after, 'state', names.states), place
    return moves


def parse_policies(lines, names):
    policies = []
    for place, name, value in lines.policies:
        with lines.at(place):
            policies.append(parse_policy(lines, place, name, value, names))
    return policies


def parse_policy(lines, place, name, value, names):
    """The four numbers of a policy."""
    words = value.split()
    if ' '.join(words) in PLAIN:
        return (PLAIN[' '.join(words)], 0, 0, 0)
    if len(words) == 2 and words[0] in COUNTED:
        kind, least, most = COUNTED[words[0]]
        return (kind, number(words[1], "the number of '%s'" % words[0], least, most), 0, 0)
    if len(words) == 3 and words[0] in COMBINED:
        return (COMBINED[words[0]], 0, *(earlier_policy(name, word, names) for word in words[1:]))
    match = STATE.fullmatch(value)
    if match:
        mask = ref.mask_of(places_in(lines, place, match[1].split(), 'state', names.states))
        return (6, OWNERS.index(match[2]), mask % 256, mask // 256)
    raise Fault("a policy is 'no one', 'everyone', 'owner', 'within K', 'known K', 'clique K', 'both P Q', 'either P Q' or "
                "'state {STATE ..}' with or without 'owner-lower' or 'owner-higher'")


def earlier_policy(name, word, names):
    p = place_of(word, 'policy', names.policies)
    if name in names.policies and p >= names.policies[name]:
        raise Fault("'%s' names '%s', which does not stand before it" % (shown(name), shown(word)))
    return p


def resource_number(words, names):
    if len(words) == 1:
        return RESOURCES.index(words[0])
    if words[0] == 'primitive':
        return 2 + place_of(words[1], 'primitive', names.primitives)
    return 2 + len(names.primitives) + place_of(words[1], 'item', names.items)


def parse_masks(lines, names):
    masks, places = {}, {}
    for place, words, offered in lines.resources:
        with lines.at(place):
            r = resource_number(words, names)
            if r in places:
                raise Fault("'%s' stands in line %d already" % (shown(' '.join(words)), places[r]))
            places[r] = place
            if not offered:
                raise Fault("'%s' offers no policy" % shown(' '.join(words)))
            masks[r] = ref.mask_of(places_in(lines, place, offered, 'policy', names.policies))
    for r, key in enumerate(resource_keys(names)):
        with lines.at(0):
            if r not in places:
                raise Fault("there is no line '%s: ..'" % shown(key))
    return [masks.get(r) for r in range(len(resource_names(names)))]


# ---- Bytes to text

def numbered_names(counts):
    """Names for a scheme of which only the bytes are known."""
    return Names(*(['%s-%d' % (what, i) for i in range(count)]
                   for what, count in zip(('state', 'primitive', 'item', 'policy'), counts[1:])))


def resource_keys(names):
    return ['search', 'traversal', *('primitive ' + name for name in names.primitives),
            *('item ' + name for name in names.items)]


def chosen(names, mask):
    return ' '.join(name for i, name in enumerate(names) if mask >> i & 1)


def policy_words(policy, names):
    kind, k, left, right = policy
    if kind == 6:
        return ('state {%s} %s' % (chosen(names.states, left + 256 * right), OWNERS[k])).strip()
    for word, combined in COMBINED.items():
        if kind == combined:
            return '%s %s %s' % (word, names.policies[left], names.policies[right])
    for word, (counted, _, _) in COUNTED.items():
        if kind == counted:
            return '%s %d' % (word, k)
    return next(words for words, plain in PLAIN.items() if kind == plain)


def groups_lines(scheme):
    """The line of a sixth record, or none."""
    return [] if scheme.groups is None else ['groups: ' + ' '.join(map(str, sorted(ref.group_members(scheme))))]


def scheme_text(scheme, names):
    """The text of a scheme whose check answers 0 or 4."""
    counts = scheme.counts
    text = ['members: %d' % counts.members, *groups_lines(scheme), 'states: ' + ' '.join(names.states),
            'friends: ' + chosen(names.states, ref.mask_of(q for q, mark in enumerate(scheme.marks) if mark)),
            'primitives: ' + ' '.join(names.primitives), 'items: ' + ' '.join(names.items), '']
    for place, after in enumerate(scheme.moves):
        if after != ref.UNDEFINED:
            q, b, a = place // (2 * counts.primitives), place // counts.primitives % 2, place % counts.primitives
            text.append('move: %s, %s, %s -> %s' % (names.states[q], SIDES[b], names.primitives[a], names.states[after]))
    text.append('')
    for name, policy in zip(names.policies, scheme.policies):
        text.append('policy %s: %s' % (name, policy_words(policy, names)))
    text.append('')
    for key, mask in zip(resource_keys(names), scheme.masks):
        text.append('%s: %s' % (key, chosen(names.policies, mask)))
    return ''.join(line.rstrip() + '\n' for line in text)
