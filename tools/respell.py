#!/usr/bin/env python3
"""Brings the names of this repository's own definitions and lemmas to the spelling of the library: words in snake case,
a dash only after a name that the rest is about. Run once, at the top, after the kit's own port script; `--list` only
prints the names, and those that fall together with another name."""

import os
import re
import sys

# the definitions that would be named as the functions which they are the meaning of, as a field, or as one another
PLACES = '''abortPawn abortQueen acceptGate awaitKing awaitPromotion claimApply clearApply clearSyncOne clearSyncTwo
    closeApply collectPawns handOver markApply markPromoted openAlone openGate promotePawn raceForRole raceToClose readApply
    readRole readSyncTwo recheckCount resetPawns scanApply strikeOut strikeSelf withdrawApply'''.split()
LINES = 'applyLine giveUpLine leaveLine pollLine publishLine waysLine'.split()
CHOSEN = {
    'at?': 'if_there',
    'backsOut': 'backed_out',
    'behindTwo': 'past_two',
    'blankMarks': 'has_blank_marks',
    'blankNotes': 'has_blank_notes',
    'firstWaiting': 'first_waiting_way',
    'gaveUp': 'gave_up_outcome',
    'givesUp': 'quits',
    'give-up-limit': 'give_up_limit_lem',
    'high-in': 'high_in_lem',
    'isBlank': 'is_blank_byte',
    'leave-limit': 'leave_limit_lem',
    'or-memory': 'or_memory_lem',
    'place-by': 'place_by_lem',
    'putWord': 'with_word',
    'stands-in': 'stands_in_lem',
    'waysAfter': 'next_ways',
}

WORDS = {'length', 'take', 'drop', 'get_or', 'set', 'map'}
DECLARED = re.compile(r"^( {0,2})((?:abbrev|unfoldable|pub|axiom)\s+)*([^\s(){}:«»]+)\s*(?:[({][^=]*)?:\s")
TYPE = re.compile(r"^\s*(?:abbrev |unfoldable |pub )*(?:record|data)\s+([^\s(){}:]+)")
TOKEN = re.compile(r"[^\s(){}\[\]«».,;:⌜⌝\"`]+")


def files(kinds):
    for folder, dirs, names in os.walk('crates'):
        dirs[:] = sorted(d for d in dirs if d != 'out')
        for name in sorted(names):
            if name.endswith(kinds):
                yield os.path.join(folder, name)


def text(path):
    with open(path, encoding='utf-8') as f:
        return f.read()


def declared():
    found = {}
    for path in files(('.antt',)):
        for line in text(path).split('\n'):
            m = DECLARED.match(line)
            if m and m.group(3) not in ('use', 'let', 'in', 'record', 'module', 'data', '_', '--') and not re.search(r":\s*goal\.", line):
                found.setdefault(m.group(3), set()).add(path)
            m = TYPE.match(line)
            if m:
                found.setdefault(m.group(1), set()).add(path)
    return found


def meanings():
    return {m.group(1) for path in files(('.antt',)) for m in re.finditer(r"^(?:abbrev|unfoldable) (?:pub )?([^\s(){}:]+)", text(path), re.M)}


def snake(word):
    word = word.replace('getD', 'get_or')
    return re.sub(r"(?<=[a-z0-9])([A-Z])", lambda m: '_' + m.group(1).lower(), word)


def respelt(name, known):
    if name in CHOSEN:
        return CHOSEN[name]
    if name in PLACES:
        return snake(name) + '_step'
    if name in LINES:
        return snake(name) + '_answer'
    if name[0].isupper():
        return name
    parts = name.replace('′', "'").split('-')
    first = snake(parts[0])
    if len(parts) == 1:
        return first
    rest = '_'.join(snake(p) if not p[0].isupper() else p for p in parts[1:])
    return first + ('-' if first in known or any(p[0].isupper() for p in parts[1:]) else '_') + rest


def table():
    found = declared()
    known = ({snake(n) for n in meanings() if '-' not in n} | WORDS) - {'release', 'still'}
    return found, {n: respelt(n, known) for n in found}


def together(found, names):
    taken = {}
    for n, new in names.items():
        taken.setdefault(new, set()).add(n)
    for new, olds in sorted(taken.items()):
        if len(olds) > 1:
            print('two names fall together:', new, sorted(olds))
    functions, fields = set(), set()
    for path in files(('.rt',)):
        t = text(path)
        functions |= set(re.findall(r"\bfn (\w+)", t))
        fields |= set(re.findall(r"^\s+(?:pub )?(?:ghost )?(\w+): ", t, re.M))
    for n, new in sorted(names.items()):
        if n != new and new in functions:
            print('the name of a function:', n, new, sorted(found[n])[:1])
        if n != new and new in fields:
            print('the name of a field or variable:', n, new, sorted(found[n])[:1])


def aligned(lines):
    """The rows 'name   what it is' of a header, their second column in one place again."""
    rows = [re.match(r"(--     \S.*?\S|--     \S) {2,}(\S.*)$", l) for l in lines]
    width = max((len(r.group(1)) for r in rows if r), default=0) + 2
    return [r.group(1).ljust(width) + r.group(2) if r else l for r, l in zip(rows, lines)]


def with_headers(t):
    lines, out = t.split('\n'), []
    while lines:
        n = next((i for i, l in enumerate(lines) if not l.startswith('--')), len(lines))
        out += aligned(lines[:n]) if n else [lines[0]]
        lines = lines[max(n, 1):]
    return '\n'.join(out)


def main():
    found, names = table()
    changed = {n: new for n, new in names.items() if n != new}
    if '--list' in sys.argv:
        for n in sorted(changed):
            print(n, '->', changed[n])
        together(found, names)
        return
    for path in files(('.antt', '.rt')):
        old = text(path)
        new = TOKEN.sub(lambda m: changed.get(m.group(0), m.group(0)), old)
        if path.endswith('.antt') and new != old:
            new = with_headers(new)
        if new != old:
            with open(path, 'w', encoding='utf-8') as f:
                f.write(new)


main()
