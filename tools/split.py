"""Moves theorems from specs/ to proofs/, so that a must-fail edit of a definition reads well and is refused by the theorems that it makes
false. Definitions, data and the records that state what is asked stay in specs/; statements stay as they were. Imports of what moved are
turned in every .antt and .rt file. It goes by names, and what it moved before it does not move again.

usage: split.py FOLDER [CRATE..]        afterwards in each crate that it names: rt check --fix-imports"""
import os
import re
import sys

# For each crate and file: ALL, the whole file moves (it holds only theorems); or which declarations stay; or which move.
# `words`: names of what moves that are variables or fields in what stays. `head` is what the new file says of itself. `args`: a definition of the same section takes the section's parameter from outside.
ALL = 'all'
PLAN = {
    'turns': {
        'Room': {
            'stay': 'Ran taken_of stopped onward has_room run Stops',
            'head': 'A CALL STOPS WHERE IT IS ASKED TO, and nothing else does what is asked of it.',
        },
        'Calls': {
            'move': 'offered_append session_reads cuts_do_not_matter last_takes_all calls_end_as_one session_keeps',
            'head': 'CUTS DO NOT MATTER, nor do the rooms, so long as in the end no entry is left.',
        },
        'Loop': {
            'stay': 'Walked still holding Account walk Going',
            'args': {'walk': 'step', 'Going': 'step'},
            'head': 'The walk from anywhere is a call from there; the laws of a loop: its turns, its stop and its end.',
        },
    },
    'parting': {
        'Cut': {
            'stay': 'Side Fine front cut Outside Inside',
            'head': 'The computed parting is one, and there is no other.',
        },
        'Exactly': {'stay': 'ExactlyOne', 'head': 'EVERY STREAM parts in exactly one way.'},
        'Stream': {'whole': True},
        'Kept': {'stay': 'Sound Keeps', 'head': 'What text bytes and frames keep, every stream keeps; and the frame stays in its range.'},
        'Joined': {'stay': 'join', 'head': 'A stream that goes on with ESC parts as its two sides do.'},
        'Last': {'move': 'act_sets last_field backwards', 'head': 'A field that only some frames set is what the last of them set.'},
        'Count': {
            'stay': 'is_escape escapes waiting OneAnswer',
            'head': 'Answer bytes are no more than frames ended, and those no more than ESC bytes and one for a frame that was open.',
        },
        'Alike': {'stay': 'AnsweredAlike TakenAlike KeepsAgreeing', 'head': 'Two records that agree go on agreeing, and are answered alike.'},
        'Demand': {'stay': 'Demand3', 'head': 'The reader meets demand 3, whatever the handset, and nothing else does.'},
    },
    'command': {
        'First': {'move': 'table_right kinds_right tested', 'head': 'The tests of the first edition\'s table and kinds.'},
        'Complete': {'whole': True},
        'Sound': {'whole': True},
        'Agree': {'whole': True},
        'OneSpelling': {'move': 'no_data', 'head': 'A command carries no picture data.'},
        'Found': {
            'stay': 'LabelFound Fits',
            'head': 'What a caller knows of the reader\'s answers: which order they are, and that their sizes fit.',
        },
    },
    'sister_command': {
        'Sister': {'move': 'of kind table_right kinds_right tested', 'head': 'The tests of the sister\'s table and kinds.'},
        'Agree': {
            'stay': 'if_shared',
            'head': 'THE READERS AND THE GRAMMARS AGREE IN EITHER EDITION, and what follows: one order a frame, one frame an order, short and plain frames.',
        },
        'Own': {'whole': True},
    },
    'effect': {
        'Untouched': {'whole': True},
    },
    'groups': {
        'Laws': {
            'stay': 'Commutes Draws Fits',
            'head': 'ORDERS WITH NO GROUP IN COMMON: which comes first makes no difference, neither to the core nor to what each is answered.',
        },
    },
    'stream': {
        'Demand': {
            'stay': 'HandedBack Calling fed_back taken_from parts_taken ran_of in_calls FeedDemand3 ran_back shown_ran',
            'words': 'back ran used',
            'head': 'The stream call meets demand 3, and nothing else does.',
        },
    },
}

WORDS = r'(?:(?:pub|abbrev|unfoldable|private|instance|irreducible)\s+)*'
START = re.compile(r'^(\s*)' + WORDS + r'(?:(data|record|module)\s+(\S+)|([^\s:(){}\[\]"=]+)\s*:(?=\s|$))')
BAR = re.compile(r'^\s*-- .*-{12,}\s*$')


class Item:
    """A declaration with the comments above it, a section with its items, or a bar with a title."""

    def __init__(self, kind, name, comments, lines):
        self.kind, self.name, self.comments, self.lines, self.items = kind, name, comments, lines, []


def indent_of(line):
    return len(line) - len(line.lstrip(' '))


def parse(lines):
    """The items of a block; all its lines stand at one indent or deeper."""
    lines = list(lines)
    first = next((l for l in lines if l.strip()), '')
    level = indent_of(first)

    def starts(line):
        return bool(line.strip()) and indent_of(line) == level and not line.lstrip().startswith('--') and START.match(line)

    def here(line):
        return bool(line.strip()) and indent_of(line) == level

    items, comments, at = [], [], 0
    while at < len(lines):
        line = lines[at]
        if not line.strip():
            at += 1
            continue
        if here(line) and line.lstrip().startswith('--'):
            if BAR.match(line):
                items.append(Item('bar', line.strip(' -'), comments, [line]))
                comments = []
            else:
                comments.append(line)
            at += 1
            continue
        found = starts(line)
        if not found:
            raise ValueError('not read: ' + line)
        body = [line]
        at += 1
        while at < len(lines):
            nxt = lines[at]
            if nxt.strip() and indent_of(nxt) < level:
                raise ValueError('indent: ' + nxt)
            if here(nxt):
                if starts(nxt):
                    break
                if nxt.lstrip().startswith('--'):
                    # a comment among the clauses belongs to them, any other to what follows
                    k = at
                    while k < len(lines) and (not lines[k].strip() or (here(lines[k]) and lines[k].lstrip().startswith('--'))):
                        k += 1
                    if BAR.match(nxt) or k == len(lines) or starts(lines[k]) or not here(lines[k]):
                        break
            body.append(nxt)
            at += 1
        while body and not body[-1].strip():
            body.pop()
        kind, name = (found.group(2), found.group(3)) if found.group(2) else ('decl', found.group(4))
        item = Item(kind, name, comments, body)
        comments = []
        if kind == 'module':
            end = next(i for i, l in enumerate(body) if re.search(r'\bwhere\s*$', l))
            item.lines, inner = body[:end + 1], body[end + 1:]
            item.items = parse(inner)
        items.append(item)
    return items


def names_in(items):
    for item in items:
        if item.kind == 'module':
            yield from names_in(item.items)
        elif item.kind != 'bar':
            yield item.name


def chosen(items, keep):
    """The items whose declarations are to be kept, with the bars that still head something."""
    out = []
    for item in items:
        if item.kind == 'bar':
            out.append(item)
        elif item.kind == 'module':
            inner = chosen(item.items, keep)
            if any(i.kind != 'bar' for i in inner):
                copy = Item('module', item.name, item.comments, item.lines)
                copy.items = inner
                out.append(copy)
        elif keep(item.name):
            out.append(item)
    return [i for n, i in enumerate(out) if i.kind != 'bar' or (i.name.strip() != 'The proof' and n + 1 < len(out) and out[n + 1].kind != 'bar')]


def written(items, args=None):
    """The text of items: a blank line between them."""
    blocks = []
    for item in items:
        lines = [*item.comments]
        if item.kind == 'module':
            lines += [with_args(l, args) for l in item.lines] + [written(item.items, args)]
        else:
            lines += [with_args(l, args) for l in item.lines]
        blocks.append('\n'.join(lines))
    return '\n\n'.join(blocks)


def with_args(line, args):
    if args and not line.lstrip().startswith(('--', 'unfolding ')):
        for name, more in args.items():
            line = re.sub(r"(?<![\w.'\-])" + name + r"(?![\w'\-])", name + ' ' + more, line)
    return line


def tokens(text):
    text = re.sub(r'--[^\n]*', '', text)
    text = re.sub(r'"(?:[^"\\\n]|\\.)*"', '', text)
    return set(re.split(r'[\s(){}\[\];,.«»]+', text)) | ({'[]'} if '[]' in text else set())


def is_used(name, words):
    name = name.split(' as ')[-1].strip().strip('«»')
    if '◌' in name:
        return all(any(p == w or p in w for w in words) for p in name.split('◌') if p)
    return name in words


USE = re.compile(r'^([ \t]*)((?:ghost |pub |unfoldable )*)use ([\w.\'«»]+?)(?:\.\{([^}]*)\}| as (\w+))?(;?)[ \t]*$', re.M)


def pruned(use, words):
    m = USE.match(use)
    if 'pub ' in m.group(2):
        return use
    if m.group(4) is not None:
        names = [n.strip() for n in m.group(4).split(',') if is_used(n.strip(), words)]
        return f'{m.group(1)}{m.group(2)}use {m.group(3)}.{{{", ".join(names)}}}{m.group(6)}' if names else None
    return use if (m.group(5) or m.group(3).split('.')[-1]) in words else None


def repointed(text, moved):
    """The text with its imports of what moved turned. moved: (crate, module) to ALL or a set of names."""
    added = {}

    def one(m):
        space, how, path, names, alias, end = m.groups()
        parts = path.split('.')
        if len(parts) < 4 or parts[0] != 'Rattle' or parts[2] != 'specs':
            return m.group()
        what = moved.get((parts[1], parts[3]))
        if what is None:
            return m.group()
        there = '.'.join([parts[0], parts[1], 'proofs', *parts[3:]])
        if what == ALL:
            return m.group().replace(path, there, 1)
        if names is not None and len(parts) == 4:
            listed = [n.strip() for n in names.split(',') if n.strip()]
            stay = [n for n in listed if n.split(' as ')[0].strip() not in what]
            go = [n for n in listed if n.split(' as ')[0].strip() in what]
            if not go:
                return m.group()
            lines = [f'{space}{how}use {path}.{{{", ".join(stay)}}}{end}'] if stay else []
            return '\n'.join(lines + [f'{space}{how}use {there}.{{{", ".join(go)}}}{end}'])
        if names is None and len(parts) == 5 and parts[4] in what:
            return m.group().replace(path, there, 1)
        if names is None and len(parts) == 4:
            added[alias or parts[3]] = (m.group(), f'{space}{how}use {there} as {alias or parts[3]}Laws{end}', what)
        return m.group()

    text = USE.sub(one, text)
    for alias, (line, more, what) in added.items():
        new = re.sub(r"(?<![\w.'\-])" + alias + r"\.([\w'\-]+)", lambda m: f'{alias}Laws.{m.group(1)}' if m.group(1) in what else m.group(), text)
        if new != text:
            text = new.replace(line, line + '\n' + more, 1)
    for (crate, module), what in moved.items():
        for before, sep in ((f'Rattle.{crate}.specs.{module}', '.'), (f'{crate}::specs::{module}', '::'), (f'crate::specs::{module}', '::')):
            if sep == '::' and before.startswith('crate') and not text.startswith(f'\0{crate}\0'):
                continue
            pattern = r'(?<![\w:.])' + re.escape(before + sep) + r"([\w'\-]+)"
            text = re.sub(pattern, lambda m: m.group().replace('specs', 'proofs', 1) if what == ALL or m.group(1) in what else m.group(), text)
    return text


def read(path):
    with open(path, encoding='utf-8') as file:
        return file.read()


def write(path, text):
    os.makedirs(os.path.dirname(path), exist_ok=True)
    with open(path, 'w', encoding='utf-8') as file:
        file.write(text)


def parts_of(text):
    """The heading comment, the uses, and the rest of a file."""
    lines = text.split('\n')
    at = 0
    while at < len(lines) and lines[at].startswith('--'):
        at += 1
    last = max((i for i, l in enumerate(lines) if USE.match(l)), default=at - 1)
    uses = [l for l in lines[at:last + 1] if l.strip()]
    return lines[:at], uses, lines[last + 1:]


def main():
    top, only = sys.argv[1], sys.argv[2:]
    moved, halves, report = {}, {}, []
    for crate, files in PLAN.items():
        if only and crate not in only:
            continue
        base = f'{top}/crates/{crate}'
        for module, plan in files.items():
            path, to = f'{base}/specs/{module}.antt', f'{base}/proofs/{module}.antt'
            if os.path.exists(to):
                print(f'{crate}: proofs/{module}.antt is there already')
                continue
            text = read(path)
            head, uses, body = parts_of(text)
            items = parse(body)
            names = list(names_in(items))
            if plan.get('whole'):
                moved[crate, module] = ALL
                halves[crate, module] = (None, text)
                report.append((crate, module, True, names))
                continue
            listed = set((plan.get('stay') or plan['move']).split())
            if listed - set(names):
                sys.exit(f'{crate}/specs/{module}.antt has no {", ".join(sorted(listed - set(names)))}')
            stays = (lambda n, s=listed: n in s) if 'stay' in plan else (lambda n, s=listed: n not in s)
            goes = [n for n in names if not stays(n)]
            moved[crate, module] = set(goes)
            report.append((crate, module, False, goes))
            kept, gone = chosen(items, stays), chosen(items, lambda n: not stays(n))
            here, there = written(kept), written(gone, plan.get('args'))
            wh, wt = tokens(here), tokens(there)
            back = [n for n in goes if n in wh and n not in plan.get('words', '').split() and re.search(r"(?<![\w.'\-])" + re.escape(n) + r"(?![\w'\-])", re.sub(r'--[^\n]*|"[^"\n]*"', '', here))]
            if back:
                print(f'{crate}/specs/{module}.antt: what stays names what moves, or a field or variable of that name: {", ".join(back)}')
            need = [n for n in names if stays(n) and n in wt]
            private = [i.name for i in flat(kept) if i.name in need and not re.match(r'\s*' + WORDS, i.lines[0]).group().count('pub')]
            if private:
                print(f'{crate}/proofs/{module}.antt needs what is private in specs/: {", ".join(private)}')
            inside = [i.name for m in items if m.kind == 'module' for i in flat(m.items)
                      if i.name in need and i.name not in plan.get('args', {}) and any(not stays(j.name) for j in flat(m.items))]
            if inside:
                print(f'{crate}/proofs/{module}.antt names what stands in the same section: {", ".join(inside)}')
            # data and its constructors come by the type's name; a constructor is imported by its own
            for i in flat(kept):
                if i.kind == 'data':
                    for l in i.lines[1:]:
                        c = re.match(r"\s+([^:]+?)\s*:\s", l)
                        if c and not l.lstrip().startswith('--'):
                            need += [n for n in c.group(1).split() if n in wt and n not in need]
            own = [f'use Rattle.{crate}.specs.{module}.{{{", ".join(need)}}}'] if need else []
            comment = '\n'.join(head)
            shown = '\n'.join(u for u in (pruned(u, wh) for u in uses) if u)
            halves[crate, module] = (
                f'{comment}\n-- The theorems are in proofs/{module}.antt.\n{shown}\n\n{here}\n',
                '\n'.join([f'-- {plan["head"]}', f'-- What it speaks of is in specs/{module}.antt. Assumes nothing.',
                           *[u for u in (pruned(u, wt) for u in uses) if u], *own]) + f'\n\n{there}\n')
    for (crate, module), (here, there) in halves.items():
        base = f'{top}/crates/{crate}'
        write(f'{base}/proofs/{module}.antt', there)
        lib = f'{base}/proofs/Lib.antt'
        text = read(lib) if os.path.exists(lib) else ''
        if not re.search(rf'^pub mod {module}$', text, re.M):
            write(lib, text + f'pub mod {module}\n')
        if here is None:
            os.remove(f'{base}/specs/{module}.antt')
            write(f'{base}/specs/Lib.antt', re.sub(rf'^pub mod {module}\n', '', read(f'{base}/specs/Lib.antt'), flags=re.M))
        else:
            write(f'{base}/specs/{module}.antt', here)
    turned = []
    for folder, inner, files in os.walk(f'{top}/crates'):
        inner[:] = sorted(d for d in inner if d not in ('out', '.git', 'target'))
        for name in sorted(files):
            if name.endswith(('.antt', '.rt')):
                path = f'{folder}/{name}'
                text = read(path)
                crate = os.path.relpath(path, f'{top}/crates').split('/')[0]
                new = repointed(f'\0{crate}\0' + text, moved)[len(crate) + 2:]
                if new != text:
                    write(path, new)
                    turned.append(os.path.relpath(path, f'{top}/crates'))
    for crate, module, whole, names in report:
        print(f'{crate}: specs/{module}.antt -> proofs/{module}.antt{", the whole file" if whole else ""}: {" ".join(names)}')
    print('imports turned in: ' + ' '.join(turned))
    for folder, inner, files in os.walk(f'{top}/crates'):
        for name in files:
            if name.endswith('.antt') and '/specs' in folder:
                crate = os.path.relpath(folder, f'{top}/crates').split('/')[0]
                for m in re.finditer(rf'^.*use Rattle\.{crate}\.proofs\.(\w+)\S* .*$|^.*use Rattle\.{crate}\.proofs\.(\w+).*$', read(f'{folder}/{name}'), re.M):
                    if (crate, m.group(1) or m.group(2)) in moved:
                        print(f'note: {crate}/specs/{name} rests on moved theorems: {m.group().strip()[:160]}')


def flat(items):
    for item in items:
        if item.kind == 'module':
            yield from flat(item.items)
        elif item.kind != 'bar':
            yield item


if __name__ == '__main__':
    main()
