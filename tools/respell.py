"""Gives the definitions and lemmas of this repository the spelling of the library's words: snake case. Functions of src/, types,
modules, exported names, strings, inputs and outputs keep theirs. It was run once, at the top, after the kit's own script for older
repositories; docs/PORT.md says when. What it turned before is not turned again.

usage: respell.py [FOLDER]"""
import os
import re
import sys

DECLARED = re.compile(r"^\s*(?:\{\s*)?(?:(?:pub|abbrev|unfoldable|private|instance|irreducible)\s+)*([a-z][\w'\-]*)\s*:\s")
STRING = re.compile(r'"(?:[^"\\\n]|\\.)*"')
WORD = re.compile(r"(?<![\w'\-])[a-z][\w'\-]*")

# A lemma that would fall together with the definition that it speaks of, in a file that has both.
LAWS = """body-told contrast-kept digit-of drawn-row every-from finds-room first-asked in-range is-code judged-all keys-in-range
label-read line-of no-bar no-frame on-backlight on-icons on-picture on-screen on-settings on-text on-volume order-by own-found room-with
row-with same-marks same-rests screen-in-range set-by-any settings-in-range sister-asked state-right three-digits two-owners""".split()
LAWS_IN = {
    'frame_table/specs/Spelling.antt': ['fits_one', 'is_digit'],
    'command/specs/Plain.antt': ['is_digit'],
    'numeral/specs/Laws.antt': ['is_digit'],
    'sister_entry/specs/Sets.antt': ['no_keys'],
    'parts/specs/Laws.antt': ['parts_from'],
    'turns/specs/Room.antt': ['has_room'],
}
# A definition that has the name of a field beside it.
OTHERS = {'explain': {'passedOver': 'passed_over_fate', 'tailPlace': 'tail_place_after'}}


def snake(name):
    parts = re.sub(r"(?<=[a-z0-9])([A-Z])", r"_\1", name.replace("-", "_"))
    return re.sub(r"(?<=[A-Z])(?=[A-Z][a-z])", "_", parts).lower()


def files(top, ends):
    for folder, inner, names in os.walk(top):
        inner[:] = sorted(d for d in inner if d not in ('out', '.git', 'target'))
        for name in sorted(names):
            if name.endswith(ends):
                yield os.path.join(folder, name)


def declared(top):
    found = set()
    for path in files(os.path.join(top, 'crates'), ('.antt',)):
        with open(path, encoding='utf-8') as file:
            found.update(m.group(1) for m in map(DECLARED.match, file) if m)
    return {n: n.replace('-', '_') + '_lem' if n in LAWS else snake(n) for n in found if '-' in n or re.search('[A-Z]', n)}


def pieces(text, comment):
    """Parts of a text: code, string or comment."""
    at = 0
    for m in re.finditer(STRING.pattern + '|' + comment + r'[^\n]*', text):
        yield 'code', text[at:m.start()]
        yield ('string' if m.group().startswith('"') else 'comment'), m.group()
        at = m.end()
    yield 'code', text[at:]


def from_elsewhere(text, crates):
    """The names that a file takes from the library, whose dashes stay."""
    found = set()
    for m in re.finditer(r'^\s*(?:ghost |pub )*use ([\w.]+)\.\{([^}]*)\}', text, re.M):
        path = m.group(1).split('.')
        if path[0] != 'Rattle' or path[1] not in crates:
            found.update(n.split(' as ')[0].strip() for n in m.group(2).split(','))
    return found


def respelt(path, text, names, crates):
    crate = re.search(r'crates/([^/]+)/', path)
    own = dict(names, **OTHERS.get(crate and crate.group(1), {}))
    for name in from_elsewhere(text, crates):
        own.pop(name, None)
    laws = next((l for end, l in LAWS_IN.items() if path.endswith(end)), [])
    in_function = '/proofs/' in path and path.count('/', path.index('/proofs/')) > 2

    def word(m):
        name = m.group()
        dotted = m.start() and m.string[m.start() - 1] == '.'
        if name in laws and not dotted:
            return name + '_lem'
        if name in own:
            return own[name]
        return snake(name) if in_function and '-' in name and name.endswith('-spec') else name

    def in_words(m):
        name = m.group()
        return own[name] if name in own and '-' not in name else name

    out = []
    for kind, piece in pieces(text, '--' if path.endswith('.antt') else '//'):
        if kind == 'code':
            piece = WORD.sub(word, piece)
        elif kind == 'comment':
            piece = WORD.sub(in_words, piece)
            piece = re.sub(r'`([a-z][\w\'\-]*)`', lambda m: '`' + own.get(m.group(1), m.group(1)) + '`', piece)
        out.append(piece)
    return ''.join(out)


def pages(text, names):
    return re.sub(r'`([a-z][\w\'\-]*)`', lambda m: '`' + names.get(m.group(1), m.group(1)) + '`', text)


def main(top):
    names = declared(top)
    crates = set(os.listdir(os.path.join(top, 'crates')))
    for path in files(os.path.join(top, 'crates'), ('.antt', '.rt')):
        with open(path, encoding='utf-8') as file:
            text = file.read()
        new = respelt(path, text, names, crates)
        if new != text:
            with open(path, 'w', encoding='utf-8') as file:
                file.write(new)
    for path in [os.path.join(top, 'README.md')] + [p for p in files(os.path.join(top, 'docs'), ('.md',)) if '/changes/' not in p]:
        with open(path, encoding='utf-8') as file:
            text = file.read()
        with open(path, 'w', encoding='utf-8') as file:
            file.write(pages(text, names))


if __name__ == '__main__':
    main(sys.argv[1] if len(sys.argv) > 1 else '.')
