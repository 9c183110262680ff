#!/usr/bin/env python3
"""Spells the repository's own definitions and lemmas as today's Rattle does: words in snake case, types and modules in camel case.

    tools/spell_names.py             in the repository, once, after port.py: rewrites crates/, README.md and docs/ in place
    tools/spell_names.py --list      prints each name and its new spelling

A name counts as the repository's own where a file of specs/ or a lemma file of proofs/ declares it (a file in the folder of one function's proof doesn't count),
and it turns where it has a dash inside, or begins small and has a capital inside. Functions of src/, exported C names, strings, inputs and outputs stay as they are.
Where the new spelling of a lemma or of a field would be the name of something else, it gets `_lem` behind it; a definition that contracts cite keeps the plain one.
In documents the words between backticks turn."""
import collections
import os
import re
import sys

WORD = re.compile(r'[^\s(){}.;,@"«»:`]+')
DECLARED = re.compile(r'^( *)((?:pub |abbrev |unfoldable )*)([^\s(){}.;,@"«»:]+)(?: \{[^{}]*\}| \([^()]*\))* :(\s|$)')
QUIET = re.compile(r'"(?:[^"\\\n]|\\.)*"|(?<!\S)--[^\n]*|//[^\n]*')
SAME = re.compile(r"(?<=[{ ])([\w']+) as \1(?=[,}])")
# Names of the libraries' that the repository has too: these stay.
LIBRARY = {'append-nil', 'map-append', 'and-false'}

# Definitions whose plain spelling a lemma or a field has.
CHOSEN = {
    'cutBy': 'cut_from', 'eachOf': 'each_demand', 'endBy': 'end_with', 'endsBy': 'ends_from', 'freshCells': 'cells_fresh', 'hasRoom': 'is_room', 'headAt': 'head_on',
    'inUse': 'used_price', 'lastOne': 'last_single', 'leftAfter': 'left_then', 'linesAfter': 'lines_then', 'numberBy': 'number_from', 'pairPut': 'put_pair_at',
    'pushedAt': 'entry_pushed', 'rowRoom': 'room_of_row', 'runLength': 'length_of_run', 'sameCount': 'is_same_count', 'shortTerm': 'short_term_price',
    'stepBy': 'step_at_place', 'stepCount': 'count_of_steps', 'tooFew': 'too_few_cells', 'tooShort': 'too_short_page',
}


def files(top, *endings):
    for folder, below, names in os.walk(top):
        below[:] = sorted(b for b in below if b not in ('out', '.git', 'target'))
        for name in sorted(names):
            if name.endswith(endings):
                yield os.path.join(folder, name)


def read(path):
    with open(path, encoding='utf-8') as f:
        return f.read()


def of_function(path):
    """Whether the file stands in the folder of one function's proof."""
    return '/proofs/' in path and '/' in path.split('/proofs/', 1)[1]


def snake(name):
    word = name
    if re.match('[a-z]', word):
        word = re.sub(r'(?<=[a-z0-9])([A-Z])', lambda m: '_' + m.group(1).lower(), word)
    word = word.replace('-', '_')
    if re.match('[a-zA-Z]', word):
        word = word.lower() if '-' in name or re.match('[a-z]', name) else word
    return word


def declared():
    """Each declared name: whether a lemma file or a spec declares it."""
    found = collections.defaultdict(lambda: [False, False])
    for path in files('crates', '.antt'):
        for line in read(path).splitlines():
            m = DECLARED.match(line)
            if m:
                found[m.group(3)][of_function(path)] = True
    return found


def table():
    found = declared()
    own = {name for name, (outside, _) in found.items() if outside} - LIBRARY
    camel = {n for n in own if re.match('[a-z]', n) and re.search('[A-Z]', n)}
    dashed = {n for n in own if re.search(r"[\w']-\w", n)}
    words = {}
    taken = set(found)
    missed = sorted(own & {snake(n) for n in camel - dashed} - set(map(snake, CHOSEN)))
    if missed or taken & set(CHOSEN.values()):
        sys.exit(f'spell_names: {missed} {sorted(taken & set(CHOSEN.values()))} would fall together')
    for name in sorted(camel - dashed):
        words[name] = CHOSEN.get(name) or snake(name)
    cited = set(words.values())
    for name in sorted(dashed):
        new = snake(name)
        while new in cited or new in taken or new in words.values():
            new += '_lem'
        words[name] = new
    return {a: b for a, b in words.items() if a != b}


def turned(text, words, inside=False):
    """The text with the words turned; in the folder of a function's proof a word behind a dot that Rattle made stays."""
    def put(m):
        word = m.group(0)
        new = words.get(word)
        if new is None:
            return word
        if inside and new.endswith('_lem') and m.start() and m.string[m.start() - 1] == '.':
            return word
        return new

    parts, at = [], 0
    for s in QUIET.finditer(text):
        parts += [WORD.sub(put, text[at:s.start()]), s.group(0) if s.group(0)[0] == '"' else prose(s.group(0), words)]
        at = s.end()
    return SAME.sub(r'\1', ''.join([*parts, WORD.sub(put, text[at:])]))


def prose(text, words):
    """A comment with its names turned: a word with a dash is one only between backticks."""
    spans = re.split(r'(`[^`\n]+`)', text)
    plain = {a: b for a, b in words.items() if '-' not in a and re.search('[A-Z]', a)}
    return ''.join(WORD.sub(lambda m: (words if s[:1] == '`' else plain).get(m.group(0), m.group(0)), s) for s in spans)


def move_contracts():
    """The module `specs.contracts` is Rattle's own now, so that a file Contracts.antt can't stand beside it."""
    old = 'crates/rules_contract/specs/Contracts.antt'
    if not os.path.exists(old):
        return
    os.rename(old, old.replace('Contracts.antt', 'ContractUnits.antt'))
    for path in files('crates', '.antt', '.rt', '.edit'):
        text = read(path)
        new = text.replace('Rattle.rules_contract.specs.Contracts.', 'Rattle.rules_contract.specs.ContractUnits.')
        if '/rules_contract/' in path:
            new = re.sub(r'(pub mod |specs/)Contracts\b', r'\1ContractUnits', new)
        if new != text:
            with open(path, 'w', encoding='utf-8') as f:
                f.write(new)


def main(words):
    spelled = table()
    if words == ['--list']:
        print('\n'.join(f'{a} {b}' for a, b in sorted(spelled.items())))
        return 0
    changed = 0
    move_contracts()
    for path in files('crates', '.antt', '.rt', '.edit'):
        old = read(path)
        new = turned(old, spelled, of_function(path))
        if new != old:
            changed += 1
            with open(path, 'w', encoding='utf-8') as f:
                f.write(new)
    for path in ['README.md', *files('docs', '.md'), *files('hydro', '.md')]:
        old = read(path)
        new = re.sub(r'`[^`\n]+`', lambda m: WORD.sub(lambda w: spelled.get(w.group(0), w.group(0)), m.group(0)), old)
        if new != old:
            changed += 1
            with open(path, 'w', encoding='utf-8') as f:
                f.write(new)
    print(f'spell_names: {len(spelled)} names, {changed} files')
    return 0


if __name__ == '__main__':
    sys.exit(main(sys.argv[1:]))
