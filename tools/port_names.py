#!/usr/bin/env python3
"""Brings the repository's own definitions and lemmas to snake case, once, right after the toolchain's port.py.

    tools/port_names.py            rewrites crates/*/{specs,proofs}/ and the clauses of crates/*/src/ in place, and prints each name with its new one

A name is respelled where specs/*.antt or proofs/*.antt of a crate defines it: a dash becomes an underscore, `worldOf` becomes `world_of`. Types,
functions of src/, exported names, strings and what Rattle generates keep theirs. A lemma that would fall together with a function's name gets
`_lem`. Run a second time it finds nothing.
"""
import os
import re

ROOT = os.path.normpath(os.path.join(os.path.dirname(os.path.abspath(__file__)), '..', 'crates'))
SIGNATURE = re.compile(r'^\s*(?:(?:abbrev|unfoldable|pub|opaque) )*([^\s(){}\[\].,;:]+) :(?: |$)')
TOKEN = re.compile(r"[^\s(){}\[\].,;:λ◌∷×≡<≤→←⊎+*/^%&|=!?\"`]+")

# lemmas whose new name would be that of a function
LEMMAS = ('bit-and', 'bit-or', 'lowest-from', 'is-record', 'is-clique', 'has-degree', 'friend-of-all', 'sides-for', 'next-in', 'event-judged',
          'by-word', 'kind-of', 'is_within', 'too_long')

# constructors that stand several in a line, and names that a `ghost use` gives
MORE = ('any-side', 'owner-lesser', 'owner-greater', 'owner-only', 'twoAt', 'fourAt', 'lowestOf', 'eventRequest', 'pairCount', 'readingNumber', 'setByte',
        'findRequest', 'viewRequest')


def snake(name):
    name = name.replace('-', '_')
    if name[0].islower():
        name = re.sub(r'([a-z0-9])([A-Z])', lambda m: m.group(1) + '_' + m.group(2).lower(), name)
    return name


def files(folders):
    for crate in sorted(os.listdir(ROOT)):
        for folder in folders:
            for path, names, found in os.walk(os.path.join(ROOT, crate, folder)):
                names.sort()
                for name in sorted(found):
                    if name.endswith(('.antt', '.rt')):
                        yield os.path.join(path, name)


def read(path):
    with open(path, encoding='utf-8') as file:
        return file.read()


def defined():
    """The names that lemma files and specs define, at any depth, with the file of one that does."""
    names = {}
    for path in files(('specs', 'proofs')):
        if os.path.basename(os.path.dirname(path)) not in ('specs', 'proofs'):
            continue        # a function's own proof
        for line in read(path).splitlines():
            match = SIGNATURE.match(line)
            if match:
                names.setdefault(match.group(1), path)
    return names


def main():
    names = defined()
    new = {name: snake(name) for name in names if snake(name) != name}
    functions = {snake(name) for name in new if '-' not in name}
    new.update({name: snake(name) for name in MORE})
    new.update({name: snake(name) + '_lem' for name in LEMMAS if name in names and ('-' in name or name in functions)})
    for name, to in new.items():
        if to in names and to not in new:
            print('falls together: %s and %s' % (name, to))
    met = set()

    def turn(match):
        name = match.group(0)
        if name not in new:
            return name
        met.add(name)
        return new[name]

    for path in files(('specs', 'proofs', 'src')):
        text = read(path)
        turned = TOKEN.sub(turn, text)
        if turned != text:
            with open(path, 'w', encoding='utf-8') as file:
                file.write(turned)
    for name in sorted(met):
        print('%s -> %s' % (name, new[name]))


if __name__ == '__main__':
    main()
