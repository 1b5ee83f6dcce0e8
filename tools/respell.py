#!/usr/bin/env python3
"""Brings the names of the repository's own definitions and lemmas to today's spelling: words in snake case, types in upper camel case.

Run once at the top of the repository, after the kit's port.py. Functions of src/, strings and comments of source files keep their text.
"""
import collections
import pathlib
import re
import sys

NAME = r'[^\s(){}\[\];,.:@"λ=|]+'
DECLARED = re.compile(r'^\s*((?:pub |abbrev |unfoldable )*)(' + NAME + r')((?:\s*(?:\{[^}]*\}|\([^)]*\)))*)\s+:\s+(.*)$')
DATA = re.compile(r'^\s*(?:pub |abbrev |unfoldable )*(?:data|record) (?:pub )?(' + NAME + r')')
WORDS = {'let', 'elim', 'in', 'where', 'module', 'use', 'pub', 'open', 'unfolding'}
# Two names that would fall together: the lemma of a definition's name gets the ending that the guides name.
LEMMA_OF_A_DEFINITION = '_lem'


def files(ending):
    return sorted(p for p in pathlib.Path('crates').rglob('*' + ending) if 'out' not in p.parts)


def snake(name):
    name = name.replace('′', "'").replace('-', '_')
    if name[0].isupper():
        return name
    return re.sub(r'(?<=[a-z0-9₀-₉])([A-Z])', lambda m: '_' + m.group(1).lower(), name)


def camel(name):
    return ''.join(w[:1].upper() + w[1:] for w in re.split(r'[_-]', snake(name)))


def own_names():
    """Each declared name, with where it is declared and whether it is a type."""
    found = collections.defaultdict(list)
    for path in files('.antt'):
        lines = path.read_text().split('\n')
        for number, line in enumerate(lines):
            if line.lstrip().startswith('--'):
                continue
            data = DATA.match(line)
            if data:
                found[data.group(1)].append((path, number, True))
                continue
            m = DECLARED.match(line)
            if not m or m.group(2) in WORDS:
                continue
            if path.name == 'Proof.antt' and re.match(r'(tie\.|statement|\{M : Type 1\})', m.group(4)):
                continue
            sort = m.group(4)
            after = number + 1
            while after < len(lines) and re.match(r'^\s+→', lines[after]):
                sort += ' ' + lines[after].strip()
                after += 1
            found[m.group(2)].append((path, number, re.search(r'(?:→|^)\s*Type 0\s*$', sort) is not None))
    return found


def library_names():
    """What files import from the kit."""
    found = set()
    for path in files('.antt') + files('.rt'):
        for m in re.finditer(r'^\s*(?:ghost |pub )*use ([\w.·]+)\.\{([^}]*)\}', path.read_text(), re.M):
            if not own_module(m.group(1)):
                found.update(w.strip().split(' as ')[0] for w in m.group(2).split(','))
    return found


def own_module(path):
    parts = path.split('.')
    return parts[0] == 'Rattle' and len(parts) > 1 and pathlib.Path('crates', parts[1]).is_dir()


def renaming():
    own = own_names()
    library = library_names()
    new = {}
    for name, places in own.items():
        wanted = camel(name) if any(t for _, _, t in places) and not name[0].isupper() else snake(name)
        if wanted != name:
            if name in library:
                print('kept, since the kit has it too:', name)
            else:
                new[name] = wanted
    takers = collections.defaultdict(list)
    for name in own:
        takers[new.get(name, name)].append(name)
    for wanted, names in takers.items():
        if len(names) == 1 and (wanted not in library or names[0] == wanted):
            continue
        # A definition (in specs/, or in camel case before) keeps the plain word; a lemma of proofs/ gets the ending.
        for name in names:
            if name in library and name == wanted:
                continue
            lemma = '-' in name or all('proofs' in path.parts for path, _, _ in own[name]) and not re.search('[a-z][A-Z]', name)
            if lemma:
                new[name] = wanted + LEMMA_OF_A_DEFINITION
        print('falls together:', wanted, {n: new.get(n, n) for n in names}, 'library' if wanted in library else '')
    return new


def respelled(text, new):
    return re.sub(NAME, lambda m: new.get(m.group(0), m.group(0)), text)


def in_source(text, new):
    """A source file outside its strings and comments."""
    parts = re.split(r'("(?:\\.|[^"\\])*"|//[^\n]*)', text)
    return ''.join(p if i % 2 else respelled(p, new) for i, p in enumerate(parts))


def in_proof(text, new):
    parts = re.split(r'(^\s*--[^\n]*)', text, flags=re.M)
    return ''.join(p if i % 2 else respelled(p, new) for i, p in enumerate(parts))


def in_edit(text, new):
    return ''.join(respelled(l, new) if re.match(r'(old|new):', l) else l for l in text.splitlines(True))


def aliases_of(text):
    """The other names that a file's `use` lines give, where they are in camel case."""
    found = {}
    for line in re.findall(r'^\s*(?:ghost |pub )*use [^\n]*', text, re.M):
        for name in re.findall(r' as ([a-z]+[A-Z]\w*)', line):
            found[name] = snake(name)
    for name, wanted in found.items():
        if re.search(r'(?<![\w.])' + wanted + r'(?!\w)', text):
            print('an alias is taken already:', wanted)
    return found


def in_page(text, new):
    """A page between its backticks."""
    return re.sub(r'`[^`\n]+`', lambda m: respelled(m.group(0).replace('`', ' '), new).replace(' ', '`', 1)[::-1].replace(' ', '`', 1)[::-1], text)


def main():
    new = renaming()
    count = 0
    plain = {name for name in new if re.fullmatch(r'[a-z0-9_]+', name)}
    in_sources = {name: wanted for name, wanted in new.items() if name not in plain}
    for ending, turn, names in (('.antt', in_proof, new), ('.rt', in_source, in_sources), ('.edit', in_edit, in_sources)):
        for path in files(ending):
            old = path.read_text()
            text = turn(old, names)
            if text != old:
                path.write_text(text)
                count += 1
    for ending, turn in (('.antt', in_proof), ('.rt', in_source)):
        for path in files(ending):
            old = path.read_text()
            names = aliases_of(old)
            if not names:
                continue
            path.write_text(turn(old, names))
            count += 1
            crate = pathlib.Path('crates', path.parts[1])
            for edit in sorted(crate.glob('must-fail/*.edit')):
                said = edit.read_text()
                if f'file: {path.relative_to(crate)}\n' in said:
                    edit.write_text(in_edit(said, names))
    for path in [pathlib.Path('README.md'), pathlib.Path('CONTRIBUTING.md'), *sorted(pathlib.Path('docs').rglob('*.md'))]:
        old = path.read_text()
        text = in_page(old, in_sources)
        if text != old:
            path.write_text(text)
            count += 1
    print(f'respelled: {len(new)} names in {count} files')
    if '--list' in sys.argv:
        for name in sorted(new):
            print(f'{name} {new[name]}')


main()
