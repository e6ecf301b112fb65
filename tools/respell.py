#!/usr/bin/env python3
"""Gives the repository's own definitions, laws and record fields the spelling of today's Rattle.

usage: tools/respell.py      at the top of the repository, once, after the kit's port.py

Words are in snake case: 'firstOf-exactly' becomes 'first_of_exactly'. Types keep their camel case. Where two
names would fall together, FALLS says what one of them is called. Names of src/, labels that Rattle makes and
strings stay. What turns: specs/ and proofs/, the clauses of src/, the lines of must-fail edits, and code
spans of README.md and docs/.
"""

import glob
import os
import re
import sys

WORD = r'[^\s(){}.;,@"«»`]+'
MADE = ('Proof.antt', 'Answers.antt', 'Invariants.antt')  # a name with a dash there may be a label of Rattle's

# Names that would fall together with another, or with a field of the code: what they are called.
FALLS = {
    'oldStart': 'start_of_old', 'oldLength': 'length_of_old', 'newLength': 'length_of_new',
    'latest-with': 'latest_with_law', 'length-due-block': 'length_due_block_law', 'first-pair': 'first_pair_law',
    'entry-stands': 'entry_stands_law', 'card-length': 'card_length_law', 'bound-words': 'bound_words_law',
    'place-on': 'place_on_law', 'configuration-words': 'configuration_words_law', 'old-places': 'old_places_law',
    'new-places': 'new_places_law', 'segments-sound': 'segments_sound_law', 'blocksRead-bound': 'blocks_read_bound_law',
    'of-write': 'of_write_law', 'forecast-agrees': 'forecast_agrees_law', 'pass-finishes': 'pass_finishes_law',
    'remains-next': 'remains_next_law', 'twins-from': 'twins_from_law', 'sorted-words': 'sorted_words_law',
    'step-number': 'step_number_law', 'next-write': 'next_write_law', 'block_size': 'block_size_law',
    'reads_on': 'reads_on_law', 'has_room': 'has_room_law', 'field-of': 'field_of_law', 'goes_on': 'goes_on_law',
    'untouched-stays': 'untouched_stays_law', 'lookup-number': 'lookup_number_law', 'run-at': 'run_at_law',
}
# Crate pins writes claims out once more: there these are called so.
WRITTEN_OUT = (
    'untouched-stays latest-decides additions-last empty-range-removes-nothing empty-range-taken-out empty-range-put-in '
    'numbers-read numbers-only empty-never-full empty-range-same-step empty-fits removals-fit removals-never-full '
    'write-stands reader-yields-lookup reading-is-lookup room-enough order-means-nothing batch-sorted lines-counted '
    'lines-numbered last-line-decides lines-short file-settled lines-only no-leading-zero page-read-back pages-differ '
    'pass-ends sort-rearranges sort-orders sort-keeps-arrival sort-alone outcome-settled'
).split()


def snake(name):
    name = re.sub(r'(?<=[a-z0-9])[A-Z]', lambda m: '_' + m[0].lower(), name)
    return name.replace('-', '_')


def texts(*patterns):
    return sorted(p for pattern in patterns for p in glob.glob(pattern, recursive=True) if os.path.isfile(p) and '/out/' not in p)


def read(path):
    with open(path, encoding='utf-8') as f:
        return f.read()


def is_made(path):
    """Whether it is a function's proof, which lies in a folder of its own."""
    return os.path.basename(path) in MADE and os.path.basename(os.path.dirname(path)) != 'proofs'


def declared(path):
    """The names that a file declares, but for those that Rattle may have made."""
    text = re.sub(r'--[^\n]*', '', read(path))
    top = re.findall(rf'(?m)^(?:(?:pub|unfoldable|abbrev) )*({WORD})(?: \{{[^{{}}\n]*\}})*\s+:(?!=)', text)
    for name in top:
        if '-' not in name or not is_made(path):
            yield name
    yield from re.findall(rf'(?m)^ +pub ({WORD})(?: \{{[^{{}}\n]*\}})* :', text)
    yield from re.findall(rf'(?m)^(?:pub )?ruleset ({WORD})', text)


def inner(path):
    """The private names inside a file's definitions: they are turned in that file alone, since a library may have the same."""
    text = re.sub(r'--[^\n]*', '', read(path))
    names = re.findall(rf'(?m)^ +({WORD})(?: \{{[^{{}}\n]*\}})*\s+:(?!=)', text)
    return {} if is_made(path) else spelled(set(names))


def spelled(names):
    new = {}
    for name in names:
        if name in FALLS:
            new[name] = FALLS[name]
        elif '-' in name or re.match(r'[a-z]+\w*[a-z0-9][A-Z]', name):
            turned = snake(name)
            new[name] = turned[0].lower() + turned[1:]
    return {a: b for a, b in new.items() if a != b}


def table():
    names = set()
    for path in texts('crates/*/specs/**/*.antt', 'crates/*/proofs/**/*.antt'):
        names.update(declared(path))
    return spelled(names)


def of_crate(new, path):
    if path.startswith('crates/pins/'):
        return new | {name: snake(name) + '_written_out' for name in WRITTEN_OUT}
    return new


def turn_words(text, new, made):
    """Whole words; behind a dot a name without capitals is a module, or where Rattle makes names a label, and stays."""
    def turn(m):
        word = m[0]
        if text[: m.start()].endswith('.') and not re.search(r'[a-z][A-Z]' if made else r'-|[a-z][A-Z]', word):
            return word
        return new.get(word, word)

    return re.sub(WORD, turn, text)


def turn_rust(text, new):
    """Clauses, ghost items and comments: names of code have no dash and no capital inside."""
    return re.sub(WORD, lambda m: new.get(m[0], m[0]) if re.search(r'-|[a-z][A-Z]', m[0]) else m[0], text)


def turn_spans(text, new):
    def span(m):
        return '`' + re.sub(WORD, lambda w: new.get(w[0], w[0]), m[1]) + '`'

    return re.sub(r'`([^`\n]+)`', span, text)


def turn_edit(text, new, finals):
    """The lines of an edit, which have the spelling of before: words, projections and the library's words."""
    lib = {'getD': 'get_or', 'needs': 'rules', '_≡_': '◌≡◌'}

    def word(m):
        w = m[0]
        if w in new:
            return new[w]
        if w in lib:
            return lib[w]
        return snake(w) if snake(w) != w and snake(w) in finals and w[0].islower() else w

    lines = []
    for line in text.split('\n'):
        if re.match(r'(?:old|new): ', line):
            key, body = line[:5], line[5:]
            line = key + re.sub(r'(?<=[\w)\]]) \.(?=[a-z«])', '.', re.sub(WORD, word, body))
        lines.append(line)
    return '\n'.join(lines)


def main():
    new = table()
    finals = set(new.values())
    for path in texts('crates/*/specs/**/*.antt', 'crates/*/proofs/**/*.antt'):
        finals.update(n for n in declared(path) if n not in new)
    kinds = [
        (texts('crates/*/specs/**/*.antt', 'crates/*/proofs/**/*.antt'), lambda t, n, p: turn_words(t, inner(p) | n, is_made(p))),
        (texts('crates/*/src/**/*.rt'), lambda t, n, p: turn_rust(t, n)),
        (texts('crates/*/must-fail/*.edit'), lambda t, n, p: turn_edit(t, n, finals)),
        (texts('README.md', 'docs/**/*.md'), lambda t, n, p: turn_spans(t, n)),
    ]
    changed = 0
    for paths, turn in kinds:
        for path in paths:
            old = read(path)
            text = turn(old, of_crate(new, path), path)
            if text != old:
                with open(path, 'w', encoding='utf-8') as f:
                    f.write(text)
                changed += 1
    print(f'respell: {len(new)} names, {changed} files')


if __name__ == '__main__':
    sys.exit(main())
